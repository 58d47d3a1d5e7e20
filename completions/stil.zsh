#compdef stil
# Completes the commands of stil and its files by their endings, in zsh.
_stil() {
    local -a commands
    commands=(
        'check:compile a STIL text, and print how large its code is'
        'cycles:print the dated cycles of a STIL text'
        'events:print the moments of its cycles'
        'save:write its code as a saved program'
        'flat:write its code as a flat STIL text'
        'lot:test the dies of a plan, and print their datalog'
        'grade:print the first cycle that finds each stuck-at fault'
        'dump:print what is driven at a site, as a value change dump'
        'drill:test vectors of its own'
        'help:print what the help has of a command'
        '--help:print the help'
        '--version:print the commit, the kit and the sum of the program'
        '--prove:build the program from the sources, which proves it'
    )
    if (( CURRENT == 2 )); then
        _describe command commands
        return
    fi
    case $words[2]:$CURRENT in
        (help:3) compadd check cycles events save flat lot grade dump drill ;;
        (check:3|cycles:3|events:3|save:3|flat:3) _files -g '*.stil(-.)' ;;
        (lot:3|grade:3|dump:3) _files -g '*.(stil|saved)(-.)' ;;
        (lot:4|grade:4|dump:4) _files -g '*.csv(-.)' ;;
        (dump:5) compadd {0..63} ;;
    esac
}
_stil "$@"
