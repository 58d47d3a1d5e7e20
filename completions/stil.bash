# Completes the commands of stil and its files by their endings, in bash.
_stil() {
    local word=${COMP_WORDS[COMP_CWORD]} command=${COMP_WORDS[1]} endings=
    COMPREPLY=()
    if [ "$COMP_CWORD" -eq 1 ]; then
        COMPREPLY=($(compgen -W "check cycles events save flat lot grade dump drill help --help --version --prove" -- "$word"))
        return
    fi
    case $command:$COMP_CWORD in
    help:2)
        COMPREPLY=($(compgen -W "check cycles events save flat lot grade dump drill" -- "$word"))
        return
        ;;
    check:2 | cycles:2 | events:2 | save:2 | flat:2) endings="stil" ;;
    lot:2 | grade:2 | dump:2) endings="stil saved" ;;
    lot:3 | grade:3 | dump:3) endings="csv" ;;
    dump:4)
        COMPREPLY=($(compgen -W "$(seq 0 63)" -- "$word"))
        return
        ;;
    *) return ;;
    esac
    compopt -o filenames 2> /dev/null
    local ending file
    for ending in $endings; do
        while IFS= read -r file; do COMPREPLY+=("$file"); done < <(compgen -f -X "!*.$ending" -- "$word")
    done
    while IFS= read -r file; do COMPREPLY+=("$file"); done < <(compgen -d -- "$word")
}
complete -F _stil stil ./stil
