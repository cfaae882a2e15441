" Highlighting of robots, by docs/language.md.
if exists('b:current_syntax')
  finish
endif

syntax case match
syntax keyword crobotsConditional if else
syntax keyword crobotsRepeat while
syntax keyword crobotsReturn return
syntax keyword crobotsType auto int long register
syntax keyword crobotsIntrinsic scan cannon drive damage speed loc_x loc_y rand sqrt sin cos tan atan
syntax keyword crobotsReserved break case char continue default do double extern float for goto short sizeof static struct switch typedef union unsigned void
syntax keyword crobotsMain main

syntax match crobotsNumber /\<\d\+/
" A name of more than 31 bytes, bytes that begin no token, and the comments that this language lacks.
syntax match crobotsFault /\<\h\w\{31,}/
syntax match crobotsFault /["'#$.:?@`\[\\\]]/
syntax match crobotsFault "//\*\@!"
syntax region crobotsComment start="/\*" end="\*/" contains=crobotsTodo
syntax keyword crobotsTodo contained TODO FIXME XXX

highlight default link crobotsConditional Conditional
highlight default link crobotsRepeat Repeat
highlight default link crobotsReturn Statement
highlight default link crobotsType Type
highlight default link crobotsIntrinsic Function
highlight default link crobotsReserved Error
highlight default link crobotsMain Identifier
highlight default link crobotsNumber Number
highlight default link crobotsFault Error
highlight default link crobotsComment Comment
highlight default link crobotsTodo Todo

let b:current_syntax = 'crobots'
