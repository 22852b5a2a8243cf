" Element files of feast: comments, indents, and `:make` with feast's refusals in the quickfix list.
if exists('b:did_ftplugin')
  finish
endif
let b:did_ftplugin = 1
setlocal commentstring=//\ %s comments=s1:/*,mb:*,ex:*/,:// shiftwidth=2 expandtab cindent
compiler feast
let b:undo_ftplugin = 'setlocal commentstring< comments< shiftwidth< expandtab< cindent<'
