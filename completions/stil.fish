# Completes the commands of stil and its files by their endings, in fish.
function __stil_files --description 'files with one of these endings, and folders'
    for ending in $argv
        __fish_complete_suffix $ending
    end
end
function __stil_at --description 'whether the word N of one of these commands is wanted: N, commands'
    set -l words (commandline -opc)
    test (count $words) -eq $argv[1]; and contains -- $words[2] $argv[2..-1]
end
set -l first 'test (count (commandline -opc)) -eq 1'
complete -c stil -f
complete -c stil -n $first -a check -d 'compile a STIL text, and print how large its code is'
complete -c stil -n $first -a cycles -d 'print the dated cycles of a STIL text'
complete -c stil -n $first -a events -d 'print the moments of its cycles'
complete -c stil -n $first -a save -d 'write its code as a saved program'
complete -c stil -n $first -a flat -d 'write its code as a flat STIL text'
complete -c stil -n $first -a lot -d 'test the dies of a plan, and print their datalog'
complete -c stil -n $first -a grade -d 'print the first cycle that finds each stuck-at fault'
complete -c stil -n $first -a dump -d 'print what is driven at a site, as a value change dump'
complete -c stil -n $first -a drill -d 'test vectors of its own'
complete -c stil -n $first -a help -d 'print what the help has of a command'
complete -c stil -n '__stil_at 2 help' -a 'check cycles events save flat lot grade dump drill'
complete -c stil -n $first -l help -d 'print the help'
complete -c stil -n $first -l version -d 'print the commit, the kit and the sum of the program'
complete -c stil -n $first -l prove -d 'build the program from the sources, which proves it'
complete -c stil -n '__stil_at 2 check cycles events save flat' -k -a '(__stil_files .stil)'
complete -c stil -n '__stil_at 2 lot grade dump' -k -a '(__stil_files .stil .saved)'
complete -c stil -n '__stil_at 3 lot grade dump' -k -a '(__stil_files .csv)'
complete -c stil -n '__stil_at 4 dump' -a '(seq 0 63)'
