" `:make` checks the file of the buffer, and puts the refusal into the quickfix list.
if exists('current_compiler')
  finish
endif
let current_compiler = 'feast'
CompilerSet makeprg=./feast\ check\ %:S
CompilerSet errorformat=lab:\ %f:%l:%c:\ %m,%f:%l:%c:\ %m,%-G%.%#
