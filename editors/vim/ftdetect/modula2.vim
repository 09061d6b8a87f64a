" Which files are Modula-2: .mod and .def files that are new, or whose first line of code begins a module.
function! s:BeginsModule() abort
  for line in getline(1, 200)
    if line =~# '^\s*\%(\%(DEFINITION\|IMPLEMENTATION\)\s\+\)\=MODULE\>'
      return 1
    endif
  endfor
  return 0
endfunction

augroup modula2_files
  autocmd!
  autocmd BufNewFile *.mod,*.def set filetype=modula2
  autocmd BufRead *.mod,*.def if s:BeginsModule() | set filetype=modula2 | endif
augroup END
