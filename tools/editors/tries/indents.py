"""Indentation in Vim, Neovim and Emacs: on all sources as they stand, and on the same with nothing in front of any line."""
import os
import shutil

from .house import sources, text_of
from .painters import emacs, vim_words

INDENT_IN_VIM = ["for file in argv()", "  execute 'edit' fnameescape(file)", "  silent normal! gg=G", "  silent write", "endfor"]
INDENT_IN_EMACS = """
(require 'm2c-mode)
(setq make-backup-files nil inhibit-message t)
(dolist (file command-line-args-left)
  (with-current-buffer (find-file-noselect file)
    (indent-region (point-min) (point-max))
    (save-buffer 0)))
(setq command-line-args-left nil)
"""


def in_vim(program):
    return lambda files, room: vim_words(program, INDENT_IN_VIM, files, room)


def in_emacs(files, room):
    emacs(INDENT_IN_EMACS, files, room)


INDENTERS = [("vim", in_vim("vim")), ("nvim", in_vim("nvim")), ("emacs", in_emacs)]


def as_it_stands(text):
    return text


def flat(text):
    return "\n".join(it.lstrip(" \t") for it in text.split("\n"))


def copies(room, change):
    """A copy of each source, with its text changed."""
    shutil.rmtree(f"{room}/sources", ignore_errors=True)
    os.makedirs(f"{room}/sources")
    pairs = []
    for number, source in enumerate(sources()):
        copy = f"{room}/sources/{number}{os.path.basename(source)}"
        with open(copy, "w", encoding="ascii") as file:
            file.write(change(text_of(source)))
        pairs.append((source, copy))
    return pairs


def changed_lines(indent, room, change):
    """How many lines an editor indents otherwise than they stand in the sources, and of how many."""
    pairs = copies(room, change)
    indent([copy for _, copy in pairs], room)
    rows = [row for source, copy in pairs for row in zip(text_of(source).split("\n"), text_of(copy).split("\n"), strict=True)]
    return sum(1 for old, new in rows if old != new), len(rows)
