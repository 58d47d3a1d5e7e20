# Completes the commands of lots and its files by their endings, in bash.
_lots() {
    local word=${COMP_WORDS[COMP_CWORD]} command=${COMP_WORDS[1]} endings=
    COMPREPLY=()
    if [ "$COMP_CWORD" -eq 1 ]; then
        COMPREPLY=($(compgen -W "parts part merge grade merge-grade help --help --version --prove" -- "$word"))
        return
    fi
    compopt -o filenames 2> /dev/null
    case $command:$COMP_CWORD in
    help:2)
        COMPREPLY=($(compgen -W "parts part merge grade merge-grade" -- "$word"))
        return
        ;;
    parts:2 | part:2 | merge:2 | grade:3) endings="csv" ;;
    grade:2) endings="stil saved" ;;
    merge:* | merge-grade:*)
        while IFS= read -r file; do COMPREPLY+=("$file"); done < <(compgen -f -- "$word")
        return
        ;;
    *) return ;;
    esac
    local ending file
    for ending in $endings; do
        while IFS= read -r file; do COMPREPLY+=("$file"); done < <(compgen -f -X "!*.$ending" -- "$word")
    done
    while IFS= read -r file; do COMPREPLY+=("$file"); done < <(compgen -d -- "$word")
}
complete -F _lots lots ./lots
