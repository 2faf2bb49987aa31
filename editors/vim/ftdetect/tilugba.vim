" Knows a portfolio, payoff code or a schedule file by its first statement, which may have comments and blank lines before it.
function! s:DetectTilugba() abort
  for line in getline(1, 1000)
    if line =~# '^\s*\%(#.*\)\=$'
      continue
    endif
    if line =~# '^\s*\%(portfolio\|payoff\|schedules\)\s\+[12]\s*;'
      setlocal filetype=tilugba commentstring=#\ %s
    endif
    return
  endfor
endfunction

autocmd BufNewFile,BufRead *.txt,*.code call s:DetectTilugba()
