# Completion of m2 for bash. tools/write_editors writes this file from the sources of the command line.

_m2_files() {
    compopt -o filenames
    mapfile -t COMPREPLY < <(compgen -f ${1:+-X "$1"} -- "$current"; compgen -d -- "$current")
}

_m2_folders() {
    compopt -o filenames
    mapfile -t COMPREPLY < <(compgen -d -- "$current")
}

_m2_words() {
    mapfile -t COMPREPLY < <(compgen -W "$1" -- "$current")
}

_m2() {
    local current="${COMP_WORDS[COMP_CWORD]}" before="${COMP_WORDS[COMP_CWORD - 1]}" command="" place=0 at word last=""
    COMPREPLY=()
    for ((at = 1; at < COMP_CWORD; at++)); do
        word="${COMP_WORDS[at]}"
        case "$word" in
            --input | --listing | --flame | --callgrind | --lcov | --trace | --trace-limit | --cost | --cost-svg | --steps | --lib | --memory | --workers | --format | --color | --out | --deps | --single | --host | --from | --bytes) ((at++)) ;;
            -*) ;;
            *) if [ -z "$command" ]; then command="$word"; else ((place++)); last="$word"; fi ;;
        esac
    done
    case "$command $before" in
        "graph --format") _m2_words "dot json ninja make"; return ;;
        "test --format") _m2_words "text json tap junit"; return ;;
        *" --bytes") :; return ;;
        *" --callgrind") _m2_files; return ;;
        *" --color") _m2_words "auto never always"; return ;;
        *" --cost") _m2_files; return ;;
        *" --cost-svg") _m2_files; return ;;
        *" --deps") _m2_files; return ;;
        *" --flame") _m2_files; return ;;
        *" --format") _m2_words "text json"; return ;;
        *" --from") _m2_folders; return ;;
        *" --host") _m2_words "wasi plain"; return ;;
        *" --input") _m2_files; return ;;
        *" --lcov") _m2_files; return ;;
        *" --lib") _m2_folders; return ;;
        *" --listing") _m2_files; return ;;
        *" --memory") :; return ;;
        *" --out") _m2_folders; return ;;
        *" --single") _m2_files; return ;;
        *" --steps") :; return ;;
        *" --trace") _m2_files; return ;;
        *" --trace-limit") :; return ;;
        *" --workers") :; return ;;
    esac
    if [ -z "$command" ]; then
        case "$current" in -*) _m2_words "--help --version" ;; *) _m2_words "run debug build compile link graph input check test show fmt doc lsp explain new help" ;; esac
        return
    fi
    if [[ "$current" == -* ]]; then
        case "$command" in
            run) _m2_words "--input --profile --coverage --listing --flame --callgrind --lcov --trace --trace-limit --cost --cost-svg --steps --lib --verbose --memory --workers --format --color --help" ;;
            debug) _m2_words "--input --dap --steps --lib --verbose --memory --workers --format --color --help" ;;
            build) _m2_words "--input --out --deps --map --fresh --single --host --lib --verbose --memory --workers --format --color --help" ;;
            compile) _m2_words "--out --deps --from --lib --verbose --memory --workers --format --color --help" ;;
            link) _m2_words "--out --memory --help" ;;
            graph) _m2_words "--format --out --lib --verbose --memory --workers --help" ;;
            input) _m2_words "--lib --verbose --memory --workers --format --color --help" ;;
            check) _m2_words "--fix --yes --lib --verbose --memory --workers --format --color --help" ;;
            test) _m2_words "--each --same --bytes --format --steps --lib --verbose --memory --workers --help" ;;
            show) _m2_words "--lib --verbose --memory --workers --format --color --help" ;;
            fmt) _m2_words "--check --diff --format --color --help" ;;
            doc) _m2_words "--html --out --format --color --help" ;;
            lsp) _m2_words "--stdio --lib --verbose --memory --workers --help" ;;
            explain) _m2_words "--help" ;;
            new) _m2_words "--class --help" ;;
        esac
        return
    fi
    case "$command $place" in
        "help 0") _m2_words "run debug build compile link graph input check test show fmt doc lsp explain new" ;;
        "explain 0") _m2_words "1 2 3 4 5 6 7 10 11 12 13 20 21 22 23 24 25 30 31 32 33 34 35 36 37 38 40 41 42 43 44 45 46 47 48 49 50 51 52 53 60 61 70 73 80 81 82 83 84 90 91 92 93 profile input statuses fault status" ;;
        "explain 1") case "$last" in fault) _m2_words "0 1 2 3 4 5 6 7 8 9" ;; status) _m2_words "0 1 2 3 4" ;; esac ;;
        "run 0") _m2_files '!*.mod' ;;
        "debug 0") _m2_files '!*.mod' ;;
        "build 0") _m2_files '!*.mod' ;;
        "compile 0") _m2_files ;;
        "graph 0") _m2_files '!*.mod' ;;
        "input 0") _m2_folders ;;
        "input 1") _m2_files ;;
        "check "*) _m2_files '!*.mod' ;;
        "test 0") _m2_files '!*.mod' ;;
        "test 1") _m2_folders ;;
        "show 0") _m2_words "tokens tree types code" ;;
        "show 1") _m2_files ;;
        "fmt "*) _m2_files ;;
        "doc 0") _m2_folders ;;
    esac
}

complete -F _m2 m2
