"""The programs that highlight: what each says of every character of a file, as classes of the house."""
import html
import json
import os
import re
import shutil
import subprocess
import sys

from ..table import TOP
from .house import COMMENT, NAME, NUMBER, SIGN, STANDARD, STRING, WORD, text_of

HERE = os.path.dirname(os.path.abspath(__file__))
EDITORS = f"{TOP}/editors"
PATIENCE = 300
WRONG = "wrong"
# what a program leaves plain may be a name or a sign
PLAIN = "plain"
VIM_CLASSES = [("modula2Word", WORD), ("modula2Standard", STANDARD), ("modula2String", STRING), ("modula2Comment", COMMENT), ("modula2Bad", WRONG),
               ("modula2Operator", SIGN), ("modula2Delimiter", SIGN), ("modula2", NUMBER)]
EMACS_CLASSES = {"font-lock-keyword-face": WORD, "font-lock-type-face": STANDARD, "font-lock-constant-face": STANDARD, "font-lock-builtin-face": STANDARD,
                 "m2c-number": NUMBER, "font-lock-string-face": STRING, "font-lock-comment-face": COMMENT, "font-lock-comment-delimiter-face": COMMENT}
LANG_CLASSES = {"keyword": WORD, "type": STANDARD, "predef_var": STANDARD, "predef_func": STANDARD, "number": NUMBER, "string": STRING, "symbol": SIGN, "comment": COMMENT}
KATE_STYLES = {"Keyword": WORD, "ControlFlow": WORD, "Import": WORD, "DataType": STANDARD, "Constant": STANDARD, "BuiltIn": STANDARD, "BaseN": NUMBER, "Char": NUMBER,
               "String": STRING, "Operator": SIGN, "Comment": COMMENT, "Error": WRONG, "Normal": PLAIN}
PAGE_CLASSES = {"keyword": WORD, "builtin": STANDARD, "variable": NAME, "number": NUMBER, "string": STRING, "operator": SIGN, "comment": COMMENT}
SCOPES = [("comment", COMMENT), ("string", STRING), ("invalid", WRONG), ("keyword.operator.modula2", SIGN), ("punctuation", SIGN), ("keyword", WORD), ("storage", WORD),
          ("support", STANDARD), ("constant.language", STANDARD), ("constant", NUMBER)]
PYGMENTS_CLASSES = [("Token.Keyword.Type", STANDARD), ("Token.Keyword.Constant", STANDARD), ("Token.Keyword", WORD), ("Token.Name.Builtin", STANDARD), ("Token.Name", NAME),
                    ("Token.Literal.Number", NUMBER), ("Token.Literal.String.Char", NUMBER), ("Token.Literal.String", STRING), ("Token.Comment", COMMENT),
                    ("Token.Operator", SIGN), ("Token.Punctuation", SIGN), ("Token.Error", WRONG)]


def called(words, **how):
    """What a command prints; it has to end well."""
    ran = subprocess.run(words, capture_output=True, text=True, timeout=PATIENCE, stdin=subprocess.DEVNULL, check=False, **how)
    if ran.returncode != 0:
        raise OSError(f"{words[0]} ended with {ran.returncode}: {ran.stderr[-300:]}")
    return ran.stdout


def by_front(name, rows):
    return next((kind for front, kind in rows if name.startswith(front)), PLAIN)


def version(words, at=0):
    """A line of what a program says of itself."""
    ran = subprocess.run(words, capture_output=True, text=True, timeout=PATIENCE, stdin=subprocess.DEVNULL, check=False)
    return (ran.stdout or ran.stderr).splitlines()[at].strip()


def spread(runs):
    """The classes of a text's characters, line by line, of runs of characters that have one class."""
    lines = [[]]
    for text, kind in runs:
        for character in text:
            if character == "\n":
                lines.append([])
            else:
                lines[-1].append(kind)
    return lines


def vim_words(program, script, files, room):
    """A call of Vim or Neovim that reads editors/vim, nothing of the user's, and then a script."""
    front = [program, "-es"] if program == "vim" else [program, "--headless"]
    settings = [f"set nocompatible runtimepath^={EDITORS}/vim", "let g:m2_server = 0", "let g:m2_diagnostics = 0", "filetype plugin indent on", "syntax on"]
    for name, lines in (("settings", settings), ("script", [*script, "qall!"])):
        with open(f"{room}/{name}.vim", "w", encoding="utf-8") as file:
            file.write("\n".join(lines) + "\n")
    called([*front, "-i", "NONE", "-n", "-u", f"{room}/settings.vim", "-S", f"{room}/script.vim", *files], cwd=room)


PAINT_IN_VIM = r"""
let g:painted = []
for file in argv()
  execute "edit" fnameescape(file)
  call add(g:painted, map(range(1, line("$")), {_, line -> map(range(1, col([line, "$"]) - 1), {_, column -> synIDattr(synID(line, column, 1), "name")})}))
endfor
call writefile([json_encode(g:painted)], "painted.json")
"""


def paint_in_vim(program):
    def paint(files, room):
        vim_words(program, PAINT_IN_VIM.splitlines(), files, room)
        with open(f"{room}/painted.json", encoding="utf-8") as file:
            return [[[by_front(it, VIM_CLASSES) if it else PLAIN for it in line] for line in text] for text in json.load(file)]
    return paint


PAINT_IN_EMACS = """
(require 'm2c-mode)
(dolist (file command-line-args-left)
  (with-current-buffer (find-file-noselect file)
    (font-lock-ensure)
    (goto-char (point-min))
    (while (not (eobp))
      (let ((face (get-text-property (point) 'face)))
        (princ (format "%s " (if (consp face) (car face) face))))
      (forward-char))
    (princ "\\n")))
(setq command-line-args-left nil)
"""


def emacs(script, files, room):
    with open(f"{room}/script.el", "w", encoding="utf-8") as file:
        file.write(script)
    return called(["emacs", "--batch", "-Q", "-L", f"{EDITORS}/emacs", "-l", f"{room}/script.el", *files], cwd=room)


def paint_in_emacs(files, room):
    rows = emacs(PAINT_IN_EMACS, files, room).splitlines()
    return [spread(zip(text_of(file), (EMACS_CLASSES.get(it, PLAIN) for it in row.split()))) for file, row in zip(files, rows)]


PYGMENTIZE = "import sys; from pygments.cmdline import main; sys.exit(main(['pygmentize', *sys.argv[1:]]))"


def pygments_python():
    """A Python that has Pygments."""
    for python in ("/usr/bin/python3", sys.executable):
        if subprocess.run([python, "-c", "import pygments"], capture_output=True, check=False).returncode == 0:
            return python
    return None


def paint_in_pygments(files, _room):
    painted = []
    for file in files:
        words = [pygments_python(), "-B", "-c", PYGMENTIZE, "-x", "-l", f"{EDITORS}/pygments/modula2.py:Modula2Lexer", "-f", "raw", "-P", "ensurenl=False", "-P", "stripnl=False", file]
        rows = [row.split("\t", 1) for row in called(words).splitlines()]
        painted.append(spread((json_text(text), by_front(kind, PYGMENTS_CLASSES)) for kind, text in rows))
    return painted


def json_text(text):
    """A string of Python as it is printed."""
    import ast
    return ast.literal_eval(text)


SPAN = re.compile(r'<span [^>]*?(?:class|style)="(?:color:)?([^";]*)[^>]*>|</span>|([^<]+)')


def runs_of_html(text, kinds):
    """The runs of what stands between <pre> and </pre>."""
    inside, kind = text[text.index("<pre>") + len("<pre>"):text.rindex("</pre>")], PLAIN
    for found in SPAN.finditer(inside.replace("<tt>", "").replace("</tt>", "")):
        if found[2] is not None:
            yield html.unescape(found[2]), kind
        else:
            kind = kinds.get(found[1], PLAIN) if found[1] else PLAIN


def paint_in_source_highlight(files, _room):
    words = ["source-highlight", "--lang-def", f"{EDITORS}/source-highlight/modula2.lang", "-f", "html-css", "-o", "STDOUT", "-i"]
    return [spread(runs_of_html(called([*words, it]), LANG_CLASSES)) for it in files]


def kate_theme(room):
    """A theme in which each style has a colour of its own, and the style of each colour."""
    colours = {f"#{number:06x}": style for number, style in enumerate(KATE_STYLES, 1)}
    styles = {style: {"text-color": colour, "selected-text-color": colour} for colour, style in colours.items()}
    theme = {"metadata": {"name": "Tried", "revision": 1}, "editor-colors": {}, "text-styles": styles}
    os.makedirs(f"{room}/org.kde.syntax-highlighting/themes")
    with open(f"{room}/org.kde.syntax-highlighting/themes/tried.theme", "w", encoding="utf-8") as file:
        json.dump(theme, file)
    return {colour: KATE_STYLES[style] for colour, style in colours.items()}


def paint_in_kate(files, room):
    kinds = kate_theme(room)
    os.makedirs(f"{room}/org.kde.syntax-highlighting/syntax")
    shutil.copy(f"{EDITORS}/kate/modula-2-m2.xml", f"{room}/org.kde.syntax-highlighting/syntax")
    surroundings = {**os.environ, "XDG_DATA_HOME": room, "QT_QPA_PLATFORM": "offscreen"}
    words = ["kate-syntax-highlighter", "-s", "Modula-2 (m2)", "-t", "Tried", "-f", "html"]
    return [spread(runs_of_html(called([*words, it], env=surroundings).replace("<pre>\n", "<pre>"), kinds)) for it in files]


def paint_by_node(script, kinds):
    """A script that prints, for each file, a list of lines of runs with their names."""
    def paint(files, _room):
        found = json.loads(called(["node", f"{HERE}/{script}", *files]))
        return [[[kinds(name) for length, name in line for _ in range(length)] for line in text] for text in found]
    return paint


PAINTERS = [
    ("vim", ["vim"], lambda: version(["vim", "--version"]), paint_in_vim("vim")),
    ("neovim", ["nvim"], lambda: version(["nvim", "--version"]), paint_in_vim("nvim")),
    ("emacs", ["emacs"], lambda: version(["emacs", "--version"]), paint_in_emacs),
    ("pygments", ["python3"], lambda: version([pygments_python(), "-c", PYGMENTIZE, "-V"]), paint_in_pygments),
    ("source-highlight", ["source-highlight"], lambda: version(["source-highlight", "--version"]), paint_in_source_highlight),
    ("kate", ["kate-syntax-highlighter"], lambda: version(["kate-syntax-highlighter", "--version"]), paint_in_kate),
    ("the page's mode", ["node"], lambda: f"node {version(['node', '--version'])}, with a stand-in for CodeMirror", paint_by_node("page.mjs", lambda it: PAGE_CLASSES.get(it, PLAIN))),
    ("the grammar of VS Code", ["node"], lambda: f"node {version(['node', '--version'])}, with a small reader in place of VS Code's",
     paint_by_node("textmate.mjs", lambda it: by_front(it, SCOPES))),
]


def suits(painted, wanted):
    """Whether a class of a program is that of the house. What is plain may be a name or a sign."""
    return painted == wanted or (painted == PLAIN and wanted in (NAME, SIGN))
