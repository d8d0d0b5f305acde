# Completes the words of scr: the command, then its files, then LIMIT, STATES or N.
# source completions/scr.bash

_scr_files() {
    local path
    compopt -o filenames
    COMPREPLY=()
    while IFS= read -r path; do
        [[ -d $path || $path == *.$2 ]] && COMPREPLY+=("$path")
    done < <(compgen -f -- "$1")
    # any file will do where none has the ending
    [[ ${#COMPREPLY[@]} -gt 0 ]] || mapfile -t COMPREPLY < <(compgen -f -- "$1")
}

_scr() {
    local word=${COMP_WORDS[COMP_CWORD]} command=${COMP_WORDS[1]-}
    COMPREPLY=()
    case $COMP_CWORD:$command in
    1:* | 2:help)
        mapfile -t COMPREPLY < <(compgen -W 'check simulate replay cover invariants assert reach slice emit runc format generate large help --help --version' -- "$word")
        ;;
    2:runc) _scr_files "$word" c ;;
    2:check | 2:simulate | 2:replay | 2:cover | 2:invariants | 2:assert | 2:reach | 2:slice | 2:emit | 2:format) _scr_files "$word" scr ;;
    3:simulate | 3:cover) _scr_files "$word" script ;;
    3:assert | 3:reach) _scr_files "$word" assert ;;
    3:replay) _scr_files "$word" replay ;;
    3:runc) _scr_files "$word" calls ;;
    3:check | 3:invariants | 3:emit | 4:simulate | 4:replay | 4:cover | 4:assert)
        mapfile -t COMPREPLY < <(compgen -W '1000 10000 40000' -- "$word")
        ;;
    4:reach) mapfile -t COMPREPLY < <(compgen -W '10000 100000 1000000' -- "$word") ;;
    2:generate | 2:large) mapfile -t COMPREPLY < <(compgen -W "$(seq 0 40)" -- "$word") ;;
    esac
}

complete -F _scr scr
