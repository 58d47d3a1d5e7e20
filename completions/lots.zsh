#compdef lots
# Completes the commands of lots and its files by their endings, in zsh.
_lots() {
    local -a commands
    commands=(
        'parts:print into how many parts a plan must be cut'
        'part:print the plan of a part'
        'merge:print the datalog of the whole plan'
        'grade:print a part of the grade'
        'merge-grade:print the whole grade'
        'help:print what the help has of a command'
        '--help:print the help'
        '--version:print the commit, the kit and the sum of the program'
        '--prove:build the program from the sources, which proves it'
    )
    if (( CURRENT == 2 )); then
        _describe command commands
        return
    fi
    case $words[2]:$CURRENT in
        (help:3) compadd parts part merge grade merge-grade ;;
        (parts:3|part:3|merge:3|grade:4) _files -g '*.csv(-.)' ;;
        (grade:3) _files -g '*.(stil|saved)(-.)' ;;
        (merge:*|merge-grade:*) _files ;;
    esac
}
_lots "$@"
