" :make explains the first fault of the robot of this buffer. Words behind :make are passed on: :make -p2 goes by the
" second profile, :make --lint warns too, and :make --all explains faults of several functions.
if exists('current_compiler')
  finish
endif
let current_compiler = 'crobots'

CompilerSet makeprg=crobots-why\ $*\ --\ %:p:S
CompilerSet errorformat=%f:%l:%c:\ %tarning:\ %m,%f:%l:%c:\ %m
