# Completion of tsp for bash: source this file, or copy it to the folder of bash-completion as `tsp`.
# tests/pages/completions compares it with the help of tsp.
_tsp() {
    local word=${COMP_WORDS[COMP_CWORD]} before=${COMP_WORDS[COMP_CWORD - 1]} verb=${COMP_WORDS[1]}
    local words=
    COMPREPLY=()
    if [ "$COMP_CWORD" -eq 1 ]; then
        words='show convert check compare bound solution help -h --help -V --version'
    elif [ "$before" = --layout ]; then
        words='FULL_MATRIX UPPER_ROW LOWER_ROW UPPER_DIAG_ROW LOWER_DIAG_ROW
            UPPER_COL LOWER_COL UPPER_DIAG_COL LOWER_DIAG_COL'
    elif [ "$before" = --form ]; then
        words='auto tour json ortools cvrplib lkh r concorde-edges concorde table list'
    elif [ "$verb" = help ]; then
        words='show convert check compare bound solution help'
    elif [ "${word#-}" != "$word" ]; then
        case $verb in
        show) words='--explain -h --help -V --version' ;;
        convert) words='--layout --explain -h --help -V --version' ;;
        check) words='--potentials --branches --length --form --strict --explain -h --help -V --version' ;;
        compare) words='--potentials --branches --form --strict --explain -h --help -V --version' ;;
        bound) words='--potentials --branches --strict --explain -h --help -V --version' ;;
        solution) words='--of --form --first --depot --forms --explain -h --help -V --version' ;;
        esac
    fi
    # No word fits: bash completes the names of files.
    local IFS=$' \t\n' one
    for one in $words; do
        [ "${one#"$word"}" = "$one" ] && [ -n "$word" ] || COMPREPLY+=("$one")
    done
}
complete -o default -F _tsp tsp
