-- The language server `m2 lsp` in Neovim; or, without it, refusals of `m2 check --format json` as diagnostics.
local m2 = {}
local place = vim.api.nvim_create_namespace("m2")

-- The words of the command that checks the programs of a buffer: those of 'makeprg', with refusals as JSON.
local function command_of(buffer)
  local words = vim.api.nvim_buf_get_option(buffer, "makeprg")
  return (words:gsub(" check ", " check --format json ", 1):gsub("\\([%%#|])", "%1"))
end

local function diagnostic_of(refusal)
  local message = refusal.words
  if refusal.detail ~= "" then
    message = message .. "\n" .. refusal.detail
  end
  return {
    lnum = refusal.line - 1,
    col = refusal.column - 1,
    end_lnum = refusal.line - 1,
    end_col = math.max(refusal["end"], refusal.column + 1) - 1,
    message = message,
    code = refusal.rule,
    source = "m2",
    severity = vim.diagnostic.severity.ERROR,
  }
end

-- The diagnostics of each file that is open, from the lines that m2 printed.
local function show(lines)
  local found = {}
  for _, line in ipairs(lines) do
    local is_object, refusal = pcall(vim.json.decode, line)
    if is_object and type(refusal) == "table" and refusal.rule and not refusal["then"] then
      local file = vim.fn.fnamemodify(refusal.file, ":p")
      found[file] = found[file] or {}
      table.insert(found[file], diagnostic_of(refusal))
    end
  end
  for _, buffer in ipairs(vim.api.nvim_list_bufs()) do
    if vim.api.nvim_buf_is_loaded(buffer) and vim.bo[buffer].filetype == "modula2" then
      vim.diagnostic.set(place, buffer, found[vim.api.nvim_buf_get_name(buffer)] or {})
    end
  end
end

-- Checks the programs of a buffer. What m2 says comes later; what it said of an older text is left aside.
local function check(buffer)
  local ticket = (vim.b[buffer].m2_ticket or 0) + 1
  vim.b[buffer].m2_ticket = ticket
  vim.fn.jobstart({ "sh", "-c", command_of(buffer) }, {
    stdout_buffered = true,
    on_stdout = function(_, lines)
      if vim.api.nvim_buf_is_valid(buffer) and vim.b[buffer].m2_ticket == ticket then
        show(lines)
      end
    end,
  })
end

-- Shows the refusals of a buffer now, and whenever it is written.
function m2.show_refusals(buffer)
  local group = vim.api.nvim_create_augroup("m2_refusals_" .. buffer, {})
  vim.api.nvim_create_autocmd("BufWritePost", {
    group = group,
    buffer = buffer,
    callback = function()
      check(buffer)
    end,
  })
  check(buffer)
end

-- The servers that run, by the folders of their programs.
local servers = {}

local function server_words()
  local words = (vim.g.m2_program or "m2") .. " lsp " .. (vim.g.m2_options or "")
  return vim.split(words, "%s+", { trimempty = true })
end

-- What later versions of Neovim set by themselves, and the keys.
local function set_up(_, buffer)
  vim.bo[buffer].omnifunc = "v:lua.vim.lsp.omnifunc"
  vim.bo[buffer].tagfunc = "v:lua.vim.lsp.tagfunc"
  local calls = {
    K = vim.lsp.buf.hover,
    gd = vim.lsp.buf.definition,
    gri = vim.lsp.buf.implementation,
    grr = vim.lsp.buf.references,
    grn = vim.lsp.buf.rename,
    gra = vim.lsp.buf.code_action,
  }
  for keys, call in pairs(calls) do
    vim.keymap.set("n", keys, call, { buffer = buffer })
  end
end

-- Attaches a buffer to the server of its folder, and starts one if there is none.
function m2.attach(buffer)
  local folder = vim.fn.fnamemodify(vim.api.nvim_buf_get_name(buffer), ":p:h")
  if not servers[folder] then
    local function forget()
      servers[folder] = nil
    end
    servers[folder] = vim.lsp.start_client({ name = "m2", cmd = server_words(), root_dir = folder, on_attach = set_up, on_exit = forget })
  end
  if servers[folder] then
    vim.lsp.buf_attach_client(buffer, servers[folder])
  end
end

return m2
