" Settings for Modula-2: indentation by two blanks, comments, what % goes between, gf on the name of a module, and :make.
if exists("b:did_ftplugin")
  finish
endif
let b:did_ftplugin = 1

setlocal expandtab shiftwidth=2 softtabstop=2
setlocal comments= commentstring=(*\ %s\ *)
setlocal suffixesadd=.def,.mod
let b:match_ignorecase = 0
" tools/write_editors: begin
let b:match_words = '\<\%(CASE\|FOR\|IF\|LOOP\|RECORD\|WHILE\|WITH\)\>:\<\%(ELSIF\|ELSE\)\>:\<END\>,\<REPEAT\>:\<UNTIL\>'
" tools/write_editors: end
compiler m2

" Neovim attaches the language server: refusals while you type, K on a name, gd, grr, grn and so on. g:m2_server = 0 leaves it out; then
" refusals are shown when a file is opened and when it is written, unless g:m2_diagnostics is 0.
if has("nvim") && get(g:, "m2_server", 1)
  lua require("m2").attach(vim.api.nvim_get_current_buf())
elseif has("nvim") && get(g:, "m2_diagnostics", 1)
  lua require("m2").show_refusals(vim.api.nvim_get_current_buf())
endif

let b:undo_ftplugin = "setlocal expandtab< shiftwidth< softtabstop< comments< commentstring< suffixesadd< makeprg< errorformat<"
      \ . " | unlet! b:match_words b:match_ignorecase"
