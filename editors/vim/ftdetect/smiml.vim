" Domains in SML, the State Manager Language: their suffix is that of Standard ML, so the first word decides.
function! s:DetectDomain() abort
  for l:line in getline(1, 50)
    if l:line =~# '^\s*!'
      setlocal filetype=smiml
      return
    elseif l:line =~? '^\s*\(class\|object\|objectset\)\s*:'
      setlocal filetype=smiml
      return
    elseif l:line =~# '\S'
      return
    endif
  endfor
endfunction

autocmd BufNewFile,BufRead *.sml call s:DetectDomain()
