" :make calls m2 check, and reads its refusals into the quickfix list.
" g:m2_program is how m2 is called: "m2", or "node /path/to/hosts/node/m2.mjs". g:m2_options is put behind m2 check.
if exists("current_compiler")
  finish
endif
let current_compiler = "m2"

" Whether a file holds a program module.
function! s:IsProgram(file) abort
  for line in readfile(a:file, "", 200)
    if line =~# '^\s*MODULE\>'
      return 1
    elseif line =~# '^\s*\%(DEFINITION\|IMPLEMENTATION\)\>'
      return 0
    endif
  endfor
  return 0
endfunction

" The programs that are checked: the file itself if it is one or not written yet, else those in its folder.
function! s:Programs() abort
  let file = expand("%:p")
  if !filereadable(file) || s:IsProgram(file)
    return [file]
  endif
  let programs = filter(globpath(escape(expand("%:p:h"), ",\\"), "*.mod", 1, 1), "s:IsProgram(v:val)")
  return empty(programs) ? [file] : programs
endfunction

" The words of a shell for :make, in which % and # and | have no meaning.
function! s:Words() abort
  let files = map(s:Programs(), 'escape(shellescape(fnamemodify(v:val, ":.")), "%#|")')
  return join([get(g:, "m2_program", "m2"), "check", get(g:, "m2_options", "")] + files)
endfunction

let &l:makeprg = s:Words()
" What is refused next, behind the word then, is left out. A refusal with its sentence, the line of source, and the mark below it; then what is said of the types
CompilerSet errorformat=%-Gthen\ %.%#,%E%f:%l:%c:\ refusal\ %n,%C\ \ %m\ (m2\ explain\ %*\\d),%-C%*\\d\ \|%.%#,%-Z\ %#^%\\+%.%#,%Im2:\ %f:%l:%c:\ %m,%-G%.%#
