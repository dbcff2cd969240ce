" A document of Rumpsteak is a file NAME.rumpsteak, or a text whose first line, apart from comments, begins with `roles`.
function! s:detect() abort
  for l:line in getline(1, 100)
    if l:line !~# '^\s*\%(#.*\)\?$'
      if l:line =~# '^\s*roles\>'
        set filetype=rumpsteak
      endif
      return
    endif
  endfor
endfunction

autocmd BufNewFile,BufRead *.rumpsteak set filetype=rumpsteak
autocmd BufNewFile,BufRead *.txt call s:detect()
