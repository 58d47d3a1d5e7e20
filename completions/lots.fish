# Completes the commands of lots and its files by their endings, in fish.
function __lots_files --description 'files with one of these endings, and folders'
    for ending in $argv
        __fish_complete_suffix $ending
    end
end
function __lots_at --description 'whether the word N of one of these commands is wanted: N, commands'
    set -l words (commandline -opc)
    test (count $words) -eq $argv[1]; and contains -- $words[2] $argv[2..-1]
end
function __lots_merges --description 'whether a file of a part is wanted'
    set -l words (commandline -opc)
    test (count $words) -gt 2 -a "$words[2]" = merge; or test (count $words) -gt 1 -a "$words[2]" = merge-grade
end
set -l first 'test (count (commandline -opc)) -eq 1'
complete -c lots -f
complete -c lots -n $first -a parts -d 'print into how many parts a plan must be cut'
complete -c lots -n $first -a part -d 'print the plan of a part'
complete -c lots -n $first -a merge -d 'print the datalog of the whole plan'
complete -c lots -n $first -a grade -d 'print a part of the grade'
complete -c lots -n $first -a merge-grade -d 'print the whole grade'
complete -c lots -n $first -a help -d 'print what the help has of a command'
complete -c lots -n '__lots_at 2 help' -a 'parts part merge grade merge-grade'
complete -c lots -n $first -l help -d 'print the help'
complete -c lots -n $first -l version -d 'print the commit, the kit and the sum of the program'
complete -c lots -n $first -l prove -d 'build the program from the sources, which proves it'
complete -c lots -n '__lots_at 2 parts part merge' -k -a '(__lots_files .csv)'
complete -c lots -n '__lots_at 2 grade' -k -a '(__lots_files .stil .saved)'
complete -c lots -n '__lots_at 3 grade' -k -a '(__lots_files .csv)'
complete -c lots -n __lots_merges -F
