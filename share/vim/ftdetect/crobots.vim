" Robots have names in .r, as programs in R have. A file is a robot if no line of it begins with an assignment of R, and if it
" has the header of a function main or is in a folder robots.
function! s:Detect() abort
  let lines = getline(1, 2000)
  if match(lines, '\v^\s*[A-Za-z.][A-Za-z0-9._]*\s*\<-') >= 0
    return
  endif
  if match(lines, '\v^\s*(%(int|long|auto|register)\s+)*main\s*\(') >= 0 || expand('<afile>:p:h:t') ==# 'robots'
    set filetype=crobots
  endif
endfunction

autocmd BufRead,BufNewFile *.r call s:Detect()
