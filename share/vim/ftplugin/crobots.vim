" Settings for robots: comments, indenting, and :make by crobots.
if exists('b:did_ftplugin')
  finish
endif
let b:did_ftplugin = 1

setlocal commentstring=/*\ %s\ */ comments=s1:/*,mb:*,ex:*/
setlocal cindent formatoptions-=t formatoptions+=croql
compiler crobots

let b:undo_ftplugin = 'setlocal commentstring< comments< cindent< formatoptions< makeprg< errorformat<'
