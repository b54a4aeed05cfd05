# Completion of bench-tool for bash.
_bench_tool() {
    local word=${COMP_WORDS[COMP_CWORD]} before=${COMP_WORDS[COMP_CWORD-1]} command=${COMP_WORDS[1]} words pattern
    COMPREPLY=()
    if [ "$COMP_CWORD" -eq 1 ]; then
        mapfile -t COMPREPLY < <(compgen -W "shell run show pack unpack draw judge --help --version" -- "$word")
        return
    fi
    case $command in
    shell) words="--undo --dir --help" ;;
    run) words="--stop --explain --summary --time --undo --dir --help" pattern='!*.bench' ;;
    draw) words="-o --line --svg --undo --dir --help" pattern='!*.bench' ;;
    show) words="--all --check --help" pattern='!*.npy' ;;
    pack) words="-o --offset --order --help" pattern='.*' ;;
    unpack) words="-o --help" pattern='!*.npy' ;;
    judge)
        words="--pipe --only --needs --seconds --seed --processes --all --cases --expect --update --json --junit --html --help"
        pattern='!*.py'
        ;;
    *) words="--help" pattern='!*.bench' ;;
    esac
    case $before in
    --dir | --cases) compopt -o filenames; mapfile -t COMPREPLY < <(compgen -d -- "$word"); return ;;
    -o | --expect | --json | --junit | --html) compopt -o filenames; mapfile -t COMPREPLY < <(compgen -f -- "$word"); return ;;
    --order) mapfile -t COMPREPLY < <(compgen -W "C F" -- "$word"); return ;;
    --undo) mapfile -t COMPREPLY < <(compgen -W "0 1 16 64" -- "$word"); return ;;
    esac
    case $word in
    -*) mapfile -t COMPREPLY < <(compgen -W "$words" -- "$word") ;;
    *)
        [ -n "$pattern" ] || return
        compopt -o filenames
        mapfile -t COMPREPLY < <(compgen -f -X "$pattern" -- "$word"; compgen -d -- "$word")
        ;;
    esac
}
complete -F _bench_tool bench-tool
