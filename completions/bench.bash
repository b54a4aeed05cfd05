# Completion of bench for bash.
_bench() {
    local word=${COMP_WORDS[COMP_CWORD]} before=${COMP_WORDS[COMP_CWORD-1]}
    COMPREPLY=()
    case $before in
    --dir) compopt -o filenames; mapfile -t COMPREPLY < <(compgen -d -- "$word") ;;
    --undo) mapfile -t COMPREPLY < <(compgen -W "0 1 16 64" -- "$word") ;;
    *)
        case $word in
        -*) mapfile -t COMPREPLY < <(compgen -W "--dir --undo --plain --help" -- "$word") ;;
        *) compopt -o filenames; mapfile -t COMPREPLY < <(compgen -f -X '!*.bench' -- "$word"; compgen -d -- "$word") ;;
        esac
        ;;
    esac
}
complete -F _bench bench ./bench
