# Completes the words of timestore in bash. Made from the program's help by library/man/from_help.py.
_timestore() {
    local word=${COMP_WORDS[COMP_CWORD]} command=${COMP_WORDS[1]}
    COMPREPLY=()
    if [ "$COMP_CWORD" -eq 1 ]; then
        mapfile -t COMPREPLY < <(compgen -W "format run at between vacuum grow dump get scan history times put del floor info stress help --help --version" -- "$word")
        return
    fi
    case $command:$word in
    format:-*) mapfile -t COMPREPLY < <(compgen -W "--profile --slots --extents --help" -- "$word") ;;
    get:-*) mapfile -t COMPREPLY < <(compgen -W "--text --json --csv --help" -- "$word") ;;
    scan:-*) mapfile -t COMPREPLY < <(compgen -W "--text --json --csv --help" -- "$word") ;;
    history:-*) mapfile -t COMPREPLY < <(compgen -W "--text --json --csv --instants --help" -- "$word") ;;
    times:-*) mapfile -t COMPREPLY < <(compgen -W "--text --json --csv --instants --help" -- "$word") ;;
    put:-*) mapfile -t COMPREPLY < <(compgen -W "--label --text --help" -- "$word") ;;
    del:-*) mapfile -t COMPREPLY < <(compgen -W "--label --help" -- "$word") ;;
    info:-*) mapfile -t COMPREPLY < <(compgen -W "--json --help" -- "$word") ;;
    *:-*) mapfile -t COMPREPLY < <(compgen -W "--help" -- "$word") ;;
    help:*) mapfile -t COMPREPLY < <(compgen -W "format run at between vacuum grow dump get scan history times put del floor info stress" -- "$word") ;;
    stress:*) ;;
    *) if [ "$COMP_CWORD" -eq 2 ]; then mapfile -t COMPREPLY < <(compgen -d -- "$word"); fi ;;
    esac
}
complete -o filenames -F _timestore timestore
