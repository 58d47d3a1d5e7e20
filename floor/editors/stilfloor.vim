" A compiler plugin: put it into ~/.vim/compiler/, then `:compiler stilfloor` and `:make` go to the lines that `stilfloor lint` tells.
if exists('current_compiler')
  finish
endif
let current_compiler = 'stilfloor'
CompilerSet makeprg=stilfloor\ lint\ --\ %:S
CompilerSet errorformat=%f:%l:%c:\ %trror:\ %m,%f:%l:%c:\ %tarning:\ %m
