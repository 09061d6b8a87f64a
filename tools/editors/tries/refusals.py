"""Refusals as editors show them: those of editors/samples/wrong, which are stated here, read from m2 by each editor."""
import json
import os
import shutil
import stat

from ..table import TOP
from .house import command
from .painters import HERE, called, emacs, vim_words

WRONG = f"{TOP}/editors/samples/wrong"
UNDECLARED = "a name that is not declared, or not yet"
ARGUMENT = "the argument does not fit the formal"
GIVEN = "the parameter is second: INTEGER, and CHAR is given"
NOT_CLOSED = "a string that is not closed on its line"
# what m2 refuses of the programs of the folder: the file, line, column and the column behind in bytes, the rule, its words and the detail
REFUSED = [("Open.mod", 4, 7, 11, 4, NOT_CLOSED, ""), ("Parts.mod", 4, 18, 21, 30, UNDECLARED, ""), ("Wrong.mod", 5, 36, 39, 43, ARGUMENT, GIVEN)]
PATH = os.environ["PATH"]
# letters of two bytes stand before the place in Wrong.mod
SHORTER_IN_CHARACTERS = 2
MAKE_IN_VIM = [
    "let found = []",
    "for file in ['Wrong.mod', 'Parts.mod']",
    "  execute 'edit' file",
    "  silent make!",
    "  call add(found, map(filter(getqflist(), 'v:val.valid'), {_, it -> [fnamemodify(bufname(it.bufnr), ':t'), it.lnum, it.col, it.nr, trim(it.text), it.type]}))",
    "endfor",
    "call writefile([json_encode(found)], 'found.json')",
]
DIAGNOSTICS_IN_NEOVIM = [
    "let g:m2_server = 0",
    "let g:m2_diagnostics = 1",
    "edit Wrong.mod",
    "call wait(20000, {-> len(luaeval('vim.diagnostic.get(0)')) > 0})",
    "split Parts.mod",
    "call wait(20000, {-> len(luaeval('vim.diagnostic.get(0)')) > 0})",
    "let found = map(luaeval('vim.diagnostic.get()'), {_, it -> [fnamemodify(bufname(it.bufnr), ':t'), it.lnum + 1, it.col + 1, it.end_col + 1, it.message]})",
    "call writefile([json_encode(found)], 'found.json')",
]
FLYMAKE = """
(require 'm2c-mode)
(dolist (file '("Wrong.mod" "Parts.mod" "Open.mod"))
  (with-current-buffer (find-file-noselect file)
    (let (found is-done)
      (m2c-flymake (lambda (diagnostics &rest _) (setq found diagnostics is-done t)))
      (while (not is-done) (accept-process-output nil 0.1))
      (dolist (it found)
        (goto-char (flymake-diagnostic-beg it))
        (princ (format "%S\\n" (list file (line-number-at-pos) (1+ (- (point) (line-beginning-position)))
                                     (1+ (- (flymake-diagnostic-end it) (line-beginning-position))) (flymake-diagnostic-text it))))))))
"""
COMPILE = """
(require 'm2c-mode)
(find-file "Wrong.mod")
(setq compilation-ask-about-save nil)
(let ((buffer (compile compile-command)))
  (while (get-buffer-process buffer) (accept-process-output nil 0.1))
  (dotimes (_ 2)
    (next-error)
    (with-current-buffer (window-buffer)
      (goto-char (window-point))
      (princ (format "%S\\n" (list (file-name-nondirectory (buffer-file-name)) (line-number-at-pos) (1+ (- (point) (line-beginning-position)))))))))
"""


def folder(room):
    """A copy of the folder, and m2 as a program of its name, in front of the others."""
    shutil.copytree(WRONG, f"{room}/wrong")
    os.makedirs(f"{room}/bin")
    with open(f"{room}/bin/m2", "w", encoding="utf-8") as file:
        file.write(f"#!/bin/sh\nexec {' '.join(command())} \"$@\"\n")
    os.chmod(f"{room}/bin/m2", os.stat(f"{room}/bin/m2").st_mode | stat.S_IXUSR)
    os.environ["PATH"] = f"{room}/bin:{PATH}"
    return f"{room}/wrong"


def found_in(place):
    with open(f"{place}/found.json", encoding="utf-8") as file:
        return json.load(file)


def quickfix(program):
    """What :make lists in Vim or Neovim, for a program and for an implementation that two programs may import."""
    def try_in(place):
        vim_words(program, MAKE_IN_VIM, [], place)
        rows = [[file, line, column, rule, words, "E"] for file, line, column, _, rule, words, _ in REFUSED]
        detail = ["Wrong.mod", 5, 36, -1, GIVEN, "I"]
        # mends are listed too
        found = [[it for it in came if it[-1] == "E"] + [it for it in came if it == detail] for came in found_in(place)]
        return found, [rows[1:] + [detail], rows + [detail]]
    return try_in


def diagnostics(place):
    vim_words("nvim", DIAGNOSTICS_IN_NEOVIM, [], place)
    wanted = [[file, line, column, end, f"{words}\n{detail}".strip()] for file, line, column, end, _, words, detail in REFUSED[1:]]
    return sorted(found_in(place)), wanted


def in_characters(file, column):
    return column - SHORTER_IN_CHARACTERS if file == "Wrong.mod" else column


def quoted(words):
    return '"' + words + '"'


def flymake(place):
    wanted = [f'("{file}" {line} {in_characters(file, column)} {in_characters(file, end)} {quoted(f"{words} (refusal {rule})" + (chr(10) + detail if detail else ""))})'
              for file, line, column, end, rule, words, detail in REFUSED]
    return sorted(emacs(FLYMAKE, [], place).strip().replace(")\n(", ")\0(").split("\0")), sorted(wanted)


def compiling(place):
    # the column that is counted in bytes is taken as one in characters
    wanted = [f'("{file}" {line} {column})' for file, line, column, *_ in REFUSED[1:]]
    return emacs(COMPILE, [], place).strip().splitlines()[-2:], wanted


def in_vs_code(place):
    found = json.loads(called(["node", f"{HERE}/vscode.mjs", *(f"{place}/{row[0]}" for row in REFUSED)], cwd=place))
    rows = [[file, line - 1, in_characters(file, column) - 1, in_characters(file, end) - 1, rule]
            for file, line, column, end, rule, words, _ in REFUSED]
    return found, {"diagnostics": rows, "errors": 0, "ran": ["m2", "run", f"{place}/Open.mod"], "followed": ["m2", "debug", "--dap", "launch", "Open.mod"], "definition": []}


READERS = [
    ("vim, :make", ["vim"], quickfix("vim")),
    ("neovim, :make", ["nvim"], quickfix("nvim")),
    ("neovim, diagnostics", ["nvim"], diagnostics),
    ("emacs, flymake", ["emacs"], flymake),
    ("emacs, M-x compile", ["emacs"], compiling),
    ("the client of VS Code", ["node"], in_vs_code),
]
