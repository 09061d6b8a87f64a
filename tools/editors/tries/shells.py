"""Completion of m2 in bash, zsh and fish: lines that are typed, and the words that have to be offered."""
import os
import pty
import re
import select
import time

from ..table import TOP
from .house import command
from .painters import called

COMPLETIONS = f"{TOP}/editors/completions"
COMMANDS = "build check compile debug doc explain fmt graph help input link lsp new run show test"
SETTINGS = "--color --format --help --lib --memory --verbose --workers"
FILES = ("Hello.mod", "HelloWords.def", "HelloWords.mod", "text.txt")
FOLDERS = ("cases", "out")
# lines up to the cursor, and what has to be offered there, by hand
LINES = [
    ("m2 ", COMMANDS),
    ("m2 ex", "explain"),
    ("m2 --", "--help --version"),
    ("m2 help ", COMMANDS.replace("help ", "")),
    ("m2 run --", f"{SETTINGS} --callgrind --cost --cost-svg --coverage --flame --input --lcov --listing --profile --steps --trace --trace-limit"),
    ("m2 build --", f"{SETTINGS} --deps --fresh --host --input --map --out --single"),
    ("m2 fmt --", "--check --color --diff --format --help"),
    ("m2 build --host ", "plain wasi"),
    ("m2 check --", f"{SETTINGS} --fix --yes"),
    ("m2 input --", SETTINGS),
    ("m2 show --", SETTINGS),
    ("m2 test --", "--bytes --each --format --help --lib --memory --same --steps --verbose --workers"),
    ("m2 new --", "--class --help"),
    ("m2 run --format ", "json text"),
    ("m2 test --format ", "json junit tap text"),
    ("m2 check --color ", "always auto never"),
    ("m2 show ", "code tokens tree types"),
    ("m2 explain fault ", "0 1 2 3 4 5 6 7 8 9"),
    ("m2 explain status ", "0 1 2 3 4"),
    ("m2 explain pro", "profile"),
    ("m2 run HelloW", "HelloWords.mod"),
    ("m2 show tree HelloWords.d", "HelloWords.def"),
    ("m2 check Hello.mod HelloW", "HelloWords.mod"),
    ("m2 run --lib o", "out/"),
    ("m2 build --out ou", "out/"),
    ("m2 test Hello.mod cas", "cases/"),
    ("m2 run --input te", "text.txt"),
]
IN_BASH = """source {file}
for line in "${{@}}"; do
  COMP_LINE="$line"; COMP_POINT=${{#line}}
  read -r -a COMP_WORDS <<< "$line"
  case "$line" in *" ") COMP_WORDS+=("") ;; esac
  COMP_CWORD=$((${{#COMP_WORDS[@]}} - 1))
  compopt() {{ :; }}
  COMPREPLY=(); _m2
  for word in "${{COMPREPLY[@]}}"; do if [ -d "$word" ]; then word="$word/"; fi; printf '%s ' "$word"; done; echo
done
"""
IN_FISH = """source {file}
for line in $argv
    complete -C $line | string split -f 1 \\t | string join ' '
    echo
end
"""
# zsh completes in an editor alone: each word that is offered is printed by a function in place of zsh's own
IN_ZSH = """autoload -Uz compinit && compinit -u -d {room}/dump
compadd() {{
  local -a found
  if [[ ${{@[1,(i)(-|--)]}} == *-(O|A|D)\\ * ]]; then builtin compadd "$@"; return $?; fi
  builtin compadd -O found "$@"
  local isFile=${{@[(I)-f]}}
  for it in $found; do print -rn -- "<$it>" >> {room}/offered; done
  builtin compadd "$@"
}}
listing() {{ print -rn -- "" > {room}/offered; zle complete-word; print -r -- END >> {room}/offered }}
zle -N listing
zle -C complete-word complete-word _main_complete
bindkey '^T' listing
bindkey '^U' kill-whole-line
PS1='READY'
"""
SECONDS = 20


def room_of(room):
    """A folder with files and folders to complete, in which shells stand."""
    os.makedirs(f"{room}/home")
    for name in FILES:
        with open(f"{room}/home/{name}", "w", encoding="ascii"):
            pass
    for name in FOLDERS:
        os.makedirs(f"{room}/home/{name}")
    return f"{room}/home"


def script(room, text, **values):
    path = f"{room}/script"
    with open(path, "w", encoding="utf-8") as file:
        file.write(text.format(room=room, **values))
    return path


def lines():
    return [line for line, _ in LINES]


def in_bash(room):
    words = ["bash", "--norc", script(room, IN_BASH, file=f"{COMPLETIONS}/m2.bash"), *lines()]
    return [row.split() for row in called(words, cwd=room_of(room)).splitlines()]


def in_fish(room):
    # fish writes its settings into the home of the user
    surroundings = {**os.environ, "HOME": room, "XDG_CONFIG_HOME": room, "XDG_DATA_HOME": room}
    words = ["fish", "--no-config", script(room, IN_FISH, file=f"{COMPLETIONS}/m2.fish"), *lines()]
    answer = called(words, cwd=room_of(room), env=surroundings)
    return [row.split() for row in answer.rstrip("\n").split("\n\n")]


def awaited(terminal, is_done):
    """Reads what a shell writes until something is so."""
    end, said = time.monotonic() + SECONDS, ""
    while time.monotonic() < end and not is_done(said):
        if select.select([terminal], [], [], 0.05)[0]:
            said += os.read(terminal, 65536).decode("utf-8", "replace")
    return said


def offered(room):
    try:
        with open(f"{room}/offered", encoding="utf-8") as file:
            return file.read()
    except OSError:
        return ""


def typed(terminal, room, line):
    """What zsh offers behind a line."""
    os.write(terminal, b"\x15" + line.encode() + b"\x14")
    awaited(terminal, lambda _: offered(room).endswith("END\n"))
    found = re.findall("<(.*?)>", offered(room))
    os.remove(f"{room}/offered")
    os.write(terminal, b"\x15")
    home = f"{room}/home"
    return sorted({f"{it}/" if os.path.isdir(f"{home}/{it}") else it.removesuffix("=") for it in found})


def in_zsh(room):
    home = room_of(room)
    start = script(room, IN_ZSH)
    child, terminal = pty.fork()
    if child == 0:
        os.chdir(home)
        os.environ.update(TERM="dumb", ZDOTDIR=room, HOME=room)
        os.execvp("zsh", ["zsh", "-f", "-i"])
    try:
        os.write(terminal, f"fpath=({COMPLETIONS} $fpath); source {start}\n".encode())
        awaited(terminal, lambda said: "READY" in said)
        return [typed(terminal, room, line) for line in lines()]
    finally:
        os.close(terminal)
        os.waitpid(child, 0)


SHELLS = [("bash", in_bash), ("zsh", in_zsh), ("fish", in_fish)]


def differences(found):
    """The lines behind which something else is offered than has to be."""
    for (line, wanted), words in zip(LINES, found, strict=True):
        # a shell may offer the short forms too, and folders beside files
        said = {it for it in words if it not in ("-h", "-V", "cases/", "out/") or it in wanted.split()}
        if said != set(wanted.split()):
            yield f"{line}| offers {' '.join(sorted(said))}, and not {wanted}"


def helped_options():
    """The options of each command, as its help lists them."""
    found = {}
    for name in COMMANDS.split():
        if name != "help":
            text = called([*command(), name, "--help"])
            found[name] = sorted(set(re.findall(r"(?m)^ +(?:-\w, )?(--[a-z-]+)", text)))
    return found
