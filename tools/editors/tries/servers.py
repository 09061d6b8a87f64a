"""Editing with the language server, by the editors' own clients: a wrong program is opened, mended, renamed, laid out and looked through."""
import os

from .painters import emacs, vim_words
from .refusals import found_in

MAIN = """MODULE Main;
IMPORT Parts;
VAR box: Parts.Box; area: CARDINAL;
BEGIN
  box.width := 3;
  arae := Parts.Area(box)
END Main.
"""
DEFINITION = """DEFINITION MODULE Parts;
TYPE Box = RECORD width, depth: CARDINAL END;
PROCEDURE Area(of: Box): CARDINAL;
END Parts.
"""
IMPLEMENTATION = """IMPLEMENTATION MODULE Parts;
PROCEDURE Area(of: Box): CARDINAL;
BEGIN
  RETURN of.width*of.depth
END Area;
END Parts.
"""
FILES = {"Main.mod": MAIN, "Parts.def": DEFINITION, "Parts.mod": IMPLEMENTATION}
# what comes of it: the field is renamed in three files, the name is mended, and Parts.mod is laid out
RENAMED = {"Main.mod": MAIN.replace("width", "breadth").replace("arae", "area"), "Parts.def": DEFINITION.replace("width", "breadth"),
           "Parts.mod": IMPLEMENTATION.replace("width*of", "breadth * of")}
TOLD = "a name that is not declared, or not yet"
WANTED = {"diagnostic": [6, 3, TOLD], "definition": ["Parts.def", 3], "hover": True, "clean": True, "files": RENAMED}
IN_NEOVIM = r"""
let g:m2_server = 1
edit Main.mod
call wait(20000, {-> len(luaeval('vim.diagnostic.get(0)')) > 0})
let one = luaeval('vim.diagnostic.get(0)[1]')
let found = {"diagnostic": [one.lnum + 1, one.col + 1, split(one.message, "\n")[0]]}
call cursor(6, 17)
lua << END
local function ask(method, more)
  local given = vim.tbl_extend("force", vim.lsp.util.make_position_params(), more or {})
  for _, answer in pairs(vim.lsp.buf_request_sync(0, method, given, 20000)) do
    return answer.result
  end
end
local hover = ask("textDocument/hover")
vim.g.is_told = hover.contents.value:find("PROCEDURE Area") ~= nil
local place = ask("textDocument/definition")
place = place[1] or place
vim.g.place = { vim.fn.fnamemodify(vim.uri_to_fname(place.uri), ":t"), place.range.start.line + 1 }
END
let found.hover = g:is_told
let found.definition = g:place
call cursor(6, 3)
normal! ciwarea
call wait(20000, {-> len(luaeval('vim.diagnostic.get(0)')) == 0})
let found.clean = len(luaeval('vim.diagnostic.get(0)')) == 0 ? v:true : v:false
call cursor(5, 8)
lua vim.lsp.buf.rename("breadth")
call wait(20000, {-> getline(5) =~ "breadth"})
edit Parts.mod
call wait(20000, {-> luaeval('#vim.lsp.buf_get_clients(0)') > 0})
lua vim.lsp.buf.formatting_sync(nil, 20000)
wall!
let found.files = {}
for file in ["Main.mod", "Parts.def", "Parts.mod"]
  let found.files[file] = join(readfile(file), "\n") . "\n"
endfor
call writefile([json_encode(found)], "found.json")
"""
IN_EMACS = r"""
(require 'package)
(add-to-list 'package-directory-list "/usr/share/emacs/site-lisp/elpa")
(package-initialize)
(require 'm2c-mode)
(require 'eglot)
(require 'json)
(fset 'y-or-n-p (lambda (&rest _) t))
(setq eglot-sync-connect t eglot-autoshutdown nil eglot-confirm-server-initiated-edits nil)
(defun waits (what) (with-timeout (20 nil) (while (not (funcall what)) (accept-process-output nil 0.1)) t))
(find-file "Main.mod")
(apply #'eglot--connect (eglot--guess-contact))
(defvar found nil)
(defun told () (with-current-buffer "Main.mod" eglot--diagnostics))
(waits #'told)
(let ((one (car (told))))
  (goto-char (flymake-diagnostic-beg one))
  (push (cons 'diagnostic (vector (line-number-at-pos) (1+ (current-column)) (car (split-string (flymake-diagnostic-text one) "\n")))) found))
(goto-char (point-min)) (search-forward "Parts.A")
(let ((hover (jsonrpc-request (eglot--current-server-or-lose) :textDocument/hover (eglot--TextDocumentPositionParams))))
  (push (cons 'hover (if (string-match "PROCEDURE Area" (format "%S" hover)) t :json-false)) found))
(let* ((item (car (xref-backend-definitions 'eglot (xref-backend-identifier-at-point 'eglot)))) (place (xref-item-location item)))
  (push (cons 'definition (vector (file-name-nondirectory (xref-location-group place)) (xref-file-location-line place))) found))
(goto-char (point-min)) (search-forward "arae") (replace-match "area")
(eglot--signal-textDocument/didChange)
(push (cons 'clean (if (waits (lambda () (null (told)))) t :json-false)) found)
(goto-char (point-min)) (search-forward "wid")
(eglot-rename "breadth")
(find-file "Parts.mod")
(eglot--maybe-activate-editing-mode)
(waits #'eglot-current-server)
(eglot-format-buffer)
(save-some-buffers t)
(push (cons 'files (mapcar (lambda (it) (cons (intern it) (with-temp-buffer (insert-file-contents it) (buffer-string)))) '("Main.mod" "Parts.def" "Parts.mod"))) found)
(with-temp-file "found.json" (insert (json-encode found)))
"""


def fill(place):
    """A folder of its own, in which m2 is called by its name."""
    folder = f"{place}/server"
    os.makedirs(folder)
    for name, text in FILES.items():
        with open(f"{folder}/{name}", "w", encoding="ascii") as file:
            file.write(text)
    return folder


def in_neovim(place):
    folder = fill(place)
    vim_words("nvim", IN_NEOVIM.strip().splitlines(), [], folder)
    return found_in(folder), WANTED


def in_emacs(place):
    folder = fill(place)
    emacs(IN_EMACS, [], folder)
    # eglot puts who says so and the number in front
    return found_in(folder), {**WANTED, "diagnostic": [6, 3, f"m2 [30]: {TOLD}"]}


READERS = [("neovim, the language server", ["nvim"], in_neovim), ("emacs, eglot with the language server", ["emacs"], in_emacs)]
