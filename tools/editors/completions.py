"""What shells complete of m2: its commands, their options and words."""
from .commands import commands, topics, unknown_values, value_of

HEAD = "tools/write_editors writes this file from the sources of the command line."
PLACES = "editors/completions"
BASH_OF = {"program": "_m2_files '!*.mod'", "folder": "_m2_folders", "file": "_m2_files", "nothing": ":"}
ZSH_OF = {"program": '_files -g "*.mod(-.)"', "folder": "_files -/", "file": "_files", "nothing": " "}
FISH_OF = {"program": "(__m2_programs)", "folder": "(__fish_complete_directories)", "file": "(__fish_complete_path (commandline -ct))", "nothing": ""}
BASH_FRONT = """# Completion of m2 for bash. {head}

_m2_files() {{
    compopt -o filenames
    mapfile -t COMPREPLY < <(compgen -f ${{1:+-X "$1"}} -- "$current"; compgen -d -- "$current")
}}

_m2_folders() {{
    compopt -o filenames
    mapfile -t COMPREPLY < <(compgen -d -- "$current")
}}

_m2_words() {{
    mapfile -t COMPREPLY < <(compgen -W "$1" -- "$current")
}}

_m2() {{
    local current="${{COMP_WORDS[COMP_CWORD]}}" before="${{COMP_WORDS[COMP_CWORD - 1]}}" command="" place=0 at word last=""
    COMPREPLY=()
    for ((at = 1; at < COMP_CWORD; at++)); do
        word="${{COMP_WORDS[at]}}"
        case "$word" in
            {valued}) ((at++)) ;;
            -*) ;;
            *) if [ -z "$command" ]; then command="$word"; else ((place++)); last="$word"; fi ;;
        esac
    done
    case "$command $before" in
"""


def quoted(text):
    """A text as a word of a shell."""
    return "'" + text.replace("'", "'\\''") + "'"


def valued_options(found):
    """The options that take a value, each once, in order."""
    return list(dict.fromkeys(word.key() for command in found for word in command.options() if word.takes_value))


def bash_action(value):
    return f'_m2_words "{" ".join(value["words"])}"' if value["what"] == "words" else BASH_OF[value["what"]]


def bash_values(table, found):
    """The rows for values of options: those that hold in one command alone stand first."""
    rows = {}
    for command in found:
        for word in command.options():
            if word.takes_value:
                key = f"{command.name} {word.key()}"
                pattern = f'"{key}"' if key in table.values else f'*" {word.key()}"'
                rows[pattern] = bash_action(value_of(table, command, word))
    return [f"        {pattern}) {action}; return ;;" for pattern, action in sorted(rows.items())]


def bash_places(table, found):
    single, faults, statuses = topics()
    rows = [
        f'        "explain 0") _m2_words "{" ".join(single)} fault status" ;;',
        f'        "explain 1") case "$last" in fault) _m2_words "{" ".join(faults)}" ;; status) _m2_words "{" ".join(statuses)}" ;; esac ;;',
    ]
    for command in found:
        for place, word in enumerate(command.positional()):
            value = value_of(table, command, word)
            if value["what"] not in ("topic", "nothing"):
                pattern = f'"{command.name} "*' if word.comes_again else f'"{command.name} {place}"'
                rows.append(f"        {pattern}) {bash_action(value)} ;;")
    return rows


def bash(table, found):
    names = " ".join(it.name for it in found)
    options = [f'        {it.name}) _m2_words "{" ".join([*(word.key() for word in it.options()), "--help"])}" ;;' for it in found]
    return "\n".join([
        BASH_FRONT.format(head=HEAD, valued=" | ".join(valued_options(found))).rstrip("\n"),
        *bash_values(table, found),
        "    esac",
        '    if [ -z "$command" ]; then',
        f'        case "$current" in -*) _m2_words "--help --version" ;; *) _m2_words "{names} help" ;; esac',
        "        return",
        "    fi",
        '    if [[ "$current" == -* ]]; then',
        '        case "$command" in',
        *(f"    {it}" for it in options),
        "        esac",
        "        return",
        "    fi",
        '    case "$command $place" in',
        f'        "help 0") _m2_words "{names}" ;;',
        *bash_places(table, found),
        "    esac",
        "}",
        "",
        "complete -F _m2 m2",
        "",
    ])


def zsh_action(value):
    return f"({' '.join(value['words'])})" if value["what"] == "words" else ZSH_OF[value["what"]]


def zsh_text(text):
    """A text in a specification of _arguments, in which brackets and colons have a meaning."""
    return text.replace("\\", "\\\\").replace("[", "\\[").replace("]", "\\]").replace(":", "\\:")


def zsh_option(table, command, word):
    again = "*" if word.comes_again else ""
    if not word.takes_value:
        return quoted(f"{again}{word.key()}[{zsh_text(word.help)}]")
    return quoted(f"{again}{word.key()}=[{zsh_text(word.help)}]:{word.name}:{zsh_action(value_of(table, command, word))}")


def zsh_words(table, command):
    for place, word in enumerate(command.positional(), 1):
        value = value_of(table, command, word)
        if value["what"] == "topic":
            yield "'1:topic:_m2_topics'"
            yield "'2:number:_m2_numbers'"
        else:
            yield quoted(f"{'*' if word.comes_again else place}:{word.name.lower()}:{zsh_action(value)}")


def zsh_command(table, command):
    rows = [*(zsh_option(table, command, word) for word in command.options()), "'(- *)'{-h,--help}'[Prints the options]'", *zsh_words(table, command)]
    return [f"        {command.name})", "          _arguments -s \\", *(f"            {it} \\" for it in rows[:-1]), f"            {rows[-1]}", "          ;;"]


def zsh(table, found):
    single, faults, statuses = topics()
    names = [f"    {quoted(f'{it.name}:{zsh_text(it.about)}')}" for it in found]
    return "\n".join([
        "#compdef m2",
        f"# Completion of m2 for zsh. {HEAD}",
        "",
        "_m2_commands() {",
        "  local -a names",
        "  names=(",
        *names,
        "    'help:Prints the help of a command'",
        "  )",
        "  _describe -t commands command names",
        "}",
        "",
        "_m2_topics() {",
        f"  compadd -- {' '.join(single)} fault status",
        "}",
        "",
        "_m2_numbers() {",
        "  case $line[1] in",
        f"    fault) compadd -- {' '.join(faults)} ;;",
        f"    status) compadd -- {' '.join(statuses)} ;;",
        "  esac",
        "}",
        "",
        "_m2() {",
        "  local context state state_descr line",
        "  typeset -A opt_args",
        "  _arguments -C '(- *)'{-h,--help}'[Prints the options]' '(- *)'{-V,--version}'[Prints the version]' \\",
        "    '1:command:_m2_commands' '*::argument:->arguments'",
        "  case $state in",
        "    arguments)",
        "      case $words[1] in",
        *(row for it in found for row in zsh_command(table, it)),
        f"        help) _arguments '1:command:({' '.join(it.name for it in found)})' ;;",
        "      esac",
        "      ;;",
        "  esac",
        "}",
        "",
        '_m2 "$@"',
        "",
    ])


FISH_FRONT = """# Completion of m2 for fish. {head}

function __m2_at --description 'Whether the word of this command at this place is asked for'
    set -l words (commandline -opc)
    set -l command ''
    set -l place 0
    set -l is_value 0
    for word in $words[2..]
        if test $is_value = 1
            set is_value 0
        else if contains -- $word {valued}
            set is_value 1
        else if string match -q -- '-*' $word
            continue
        else if test -z "$command"
            set command $word
        else
            set place (math $place + 1)
        end
    end
    test $is_value = 0 -a "$command" = $argv[1] || return 1
    test $argv[2] = any -o "$place" = $argv[2]
end

function __m2_programs --description 'Folders, and files that may hold programs'
    __fish_complete_suffix .mod | string match -r '^[^\t]*(?:\.mod|/)(?:\t.*)?$'
end

function __m2_behind --description 'Whether the last word is this one'
    set -l words (commandline -opc)
    test "$words[-1]" = $argv[1]
end

complete -c m2 -f
complete -c m2 -n __fish_use_subcommand -s h -l help -d 'Prints the options'
complete -c m2 -n __fish_use_subcommand -s V -l version -d 'Prints the version'
"""


def fish_action(value):
    words = " ".join(value["words"]) if value["what"] == "words" else FISH_OF[value["what"]]
    return f" -a {quoted(words)}" if words else ""


def fish_option(table, command, word):
    value = f" -x{fish_action(value_of(table, command, word))}" if word.takes_value else ""
    return f"complete -c m2 -n '__fish_seen_subcommand_from {command.name}' -l {word.name}{value} -d {quoted(word.help)}"


def fish_words(table, command):
    for place, word in enumerate(command.positional()):
        value = value_of(table, command, word)
        at = "any" if word.comes_again else place
        if value["what"] not in ("topic", "nothing"):
            yield f"complete -c m2 -n '__m2_at {command.name} {at}'{fish_action(value)}"


def fish_command(table, command):
    yield f"complete -c m2 -n __fish_use_subcommand -a {command.name} -d {quoted(command.about)}"
    for word in command.options():
        yield fish_option(table, command, word)
    yield f"complete -c m2 -n '__fish_seen_subcommand_from {command.name}' -s h -l help -d 'Prints the options'"
    yield from fish_words(table, command)


def fish(table, found):
    single, faults, statuses = topics()
    return "\n".join([
        FISH_FRONT.format(head=HEAD, valued=" ".join(valued_options(found))).rstrip("\n"),
        *(row for it in found for row in fish_command(table, it)),
        "complete -c m2 -n __fish_use_subcommand -a help -d 'Prints the help of a command'",
        f"complete -c m2 -n '__m2_at help 0' -a {quoted(' '.join(it.name for it in found))}",
        f"complete -c m2 -n '__m2_at explain 0' -a {quoted(' '.join(single) + ' fault status')}",
        f"complete -c m2 -n '__m2_at explain 1; and __m2_behind fault' -a {quoted(' '.join(faults))}",
        f"complete -c m2 -n '__m2_at explain 1; and __m2_behind status' -a {quoted(' '.join(statuses))}",
        "",
    ])


def files(table):
    """The files of the three shells, by their paths."""
    found = commands()
    unknown = list(unknown_values(table, found))
    if unknown:
        raise LookupError("\n".join(unknown))
    return {f"{PLACES}/m2.bash": bash(table, found), f"{PLACES}/_m2": zsh(table, found), f"{PLACES}/m2.fish": fish(table, found)}
