" `:compiler stil` and then `:make` check the text that is open, and jump to the line of its first fault.
let current_compiler = 'stil'
" (a name in quotes may have line feeds, so what is printed becomes one line; the file's name is a word, and stands in no script)
CompilerSet makeprg=(printf\ '\\%s:'\ %:S;\ stil\ check\ %:S\ \\\|\ tr\ '\\n'\ '\ ')
CompilerSet errorformat=%f:refused\ stil\ %m\ %l\ ,%-G%.%#
