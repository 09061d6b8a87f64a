" Indentation of Modula-2. A line stands where the words before it say. What is known of the lines before is kept, so that a whole
" file is indented in one pass.
if exists("b:did_indent")
  finish
endif
let b:did_indent = 1
setlocal nolisp nosmartindent autoindent
setlocal indentexpr=Modula2Indent(v:lnum)

" tools/write_editors: begin
let &l:indentkeys = 'o,O,!^F,0=BEGIN,0=ELSE,0=ELSIF,0=END,0=UNTIL,0=CONST,0=TYPE,0=VAR,0=PROCEDURE,0|'
let s:opens = ["CASE", "FOR", "IF", "LOOP", "RECORD", "REPEAT", "WHILE", "WITH"]
let s:closes = ["BEGIN", "ELSE", "ELSIF", "END", "UNTIL", "|"]
let s:sections = ["CONST", "TYPE", "VAR"]
let s:begins = ["BEGIN", "CONST", "DO", "ELSE", "LOOP", "RECORD", "REPEAT", "THEN", "TYPE", "VAR", ";", "|"]
" tools/write_editors: end
let b:undo_indent = "setlocal indentexpr< indentkeys<"

if exists("*Modula2Indent")
  finish
endif

" what neither begins nor ends anything is taken as one token, which is faster
let s:plain = '\%([a-z][A-Za-z0-9]*\|[0-9][0-9A-Za-z]*\|:=\|[-+*/=#<>.,&~]\)'
let s:token = '\C' . s:plain . '\%(' . s:plain . '\|\s\)*\|(\*\|"[^"]*"\|''[^'']*''\|[A-Z][A-Za-z0-9]*\|\S'
let s:bound = '(\*\|\*)'
let s:blocks = ["MODULE", "PROCEDURE"]
let s:lines_ahead = 100
let s:comment_columns = 3

" What is known before the first line. `stack` has what is open, each with its column, and whether declarations or labels came;
" `fresh` says that a statement or a declaration begins, `base` is the column of the line where the last one began, and `depth`
" and `column` are those of a comment.
function! s:Start() abort
  return {"stack": [], "fresh": 1, "base": 0, "brackets": [], "depth": 0, "column": 0, "is_definition": 0, "last": ""}
endfunction

function! s:Top(state) abort
  return empty(a:state.stack) ? ["", 0, 0] : a:state.stack[-1]
endfunction

" The column of a statement or a declaration that begins.
function! s:Inside(state) abort
  let [kind, column, has_begun] = s:Top(a:state)
  if kind ==# ""
    return 0
  elseif index(s:blocks, kind) >= 0
    return column + (has_begun ? shiftwidth() : 0)
  endif
  return column + (kind ==# "CASE" && has_begun ? 2 : 1) * shiftwidth()
endfunction

" The column of a line that begins with this word.
function! s:Column(state, word) abort
  let [kind, column, has_begun] = s:Top(a:state)
  if index(s:closes, a:word) >= 0
    return column
  elseif !a:state.fresh
    return empty(a:state.brackets) || a:state.brackets[-1] < 0 ? a:state.base + shiftwidth() : a:state.brackets[-1]
  elseif index(s:blocks, kind) < 0
    return s:Inside(a:state)
  elseif index(s:sections + ["FROM", "IMPORT"], a:word) >= 0
    return column
  elseif a:word ==# "PROCEDURE"
    return column + (kind ==# "PROCEDURE" ? shiftwidth() : 0)
  endif
  return s:Inside(a:state)
endfunction

function! s:Open(state, kind, column) abort
  let a:state.brackets = []
  call add(a:state.stack, [a:kind, a:column, 0])
endfunction

" Whether declarations of the innermost block, or statements behind a label of the innermost CASE, have begun.
function! s:Mark(state, has_begun) abort
  if !empty(a:state.stack)
    let a:state.stack[-1][2] = a:has_begun
  endif
endfunction

function! s:Close(state) abort
  let a:state.brackets = []
  if !empty(a:state.stack)
    call remove(a:state.stack, -1)
  endif
endfunction

function! s:StepBracket(state, token, rest, column) abort
  if index(["(", "[", "{"], a:token) >= 0
    let blanks = matchstr(a:rest, '^\s*')
    call add(a:state.brackets, blanks ==# a:rest ? -1 : a:column + strdisplaywidth(blanks))
  elseif !empty(a:state.brackets)
    call remove(a:state.brackets, -1)
  endif
endfunction

function! s:StepPlace(state, token) abort
  let kind = s:Top(a:state)[0]
  if index(s:sections, a:token) >= 0 && empty(a:state.brackets)
    call s:Mark(a:state, 1)
  elseif a:token ==# "BEGIN"
    let a:state.brackets = []
    call s:Mark(a:state, 1)
  elseif kind ==# "CASE" && (a:token ==# "ELSE" || a:token ==# "|")
    call s:Mark(a:state, 0)
  elseif kind ==# "CASE" && a:token ==# ":" && empty(a:state.brackets)
    call s:Mark(a:state, 1)
    let a:state.fresh = 1
  elseif kind ==# "CASE" && a:token ==# "OF"
    let a:state.fresh = 1
  endif
endfunction

" What is known behind a token. `rest` is the line behind it, `column` where this begins, and `indent` the line's own column.
function! s:Step(state, token, rest, column, indent) abort
  let was_fresh = a:state.fresh
  if was_fresh
    let a:state.base = a:indent
  endif
  let a:state.fresh = index(s:begins, a:token) >= 0
  if index(s:opens, a:token) >= 0
    call s:Open(a:state, a:token, a:state.base)
  elseif a:token ==# "MODULE"
    let a:state.is_definition = a:state.last ==# "DEFINITION"
    call s:Open(a:state, a:token, a:indent)
  elseif a:token ==# "PROCEDURE" && was_fresh
    call s:Mark(a:state, 0)
    if !a:state.is_definition
      call s:Open(a:state, a:token, a:indent)
    endif
  elseif a:token ==# "END" || a:token ==# "UNTIL"
    call s:Close(a:state)
  elseif stridx("()[]{}", a:token) >= 0
    call s:StepBracket(a:state, a:token, a:rest, a:column)
  else
    call s:StepPlace(a:state, a:token)
  endif
  if !empty(a:state.brackets)
    let a:state.fresh = 0
  endif
  let a:state.last = a:token
endfunction

" Passes over a comment from a place on, and answers where it or the line ends.
function! s:Comment(state, line, at) abort
  let at = a:at
  while a:state.depth > 0
    let [bound, start, end] = matchstrpos(a:line, s:bound, at)
    if start < 0
      return strlen(a:line)
    endif
    let a:state.depth += bound ==# "(*" ? 1 : -1
    let at = end
  endwhile
  return at
endfunction

" What is known behind a line.
function! s:Read(before, line) abort
  let state = deepcopy(a:before)
  let indent = strdisplaywidth(matchstr(a:line, '^\s*'))
  let at = s:Comment(state, a:line, 0)
  let [token, start, end] = matchstrpos(a:line, s:token, at)
  while start >= 0
    if token ==# "(*"
      let state.depth = 1
      let state.column = strdisplaywidth(strpart(a:line, 0, start))
      let end = s:Comment(state, a:line, end)
    else
      call s:Step(state, token, strpart(a:line, end), strdisplaywidth(strpart(a:line, 0, end)), indent)
    endif
    let [token, start, end] = matchstrpos(a:line, s:token, end)
  endwhile
  return state
endfunction

" How many of these lines, from the first on, are as they were when they were read.
function! s:Known(lines) abort
  let most = min([len(a:lines), len(b:modula2_lines)])
  for tried in [most, most - 1]
    if tried < 1 || a:lines[: tried - 1] ==# b:modula2_lines[: tried - 1]
      return max([tried, 0])
    endif
  endfor
  let least = 0
  while least + 1 < most
    let middle = (least + most) / 2
    if a:lines[: middle - 1] ==# b:modula2_lines[: middle - 1]
      let least = middle
    else
      let most = middle
    endif
  endwhile
  return least
endfunction

" Whether a line is asked for right behind the last one, and no more was changed in between than that one.
function! s:Follows(number) abort
  let [number, tick, height] = b:modula2_asked
  return a:number == number + 1 && b:changedtick <= tick + 1 && line("$") == height
endfunction

" Leaves what is known of this many lines at the front.
function! s:Forget(known) abort
  if len(b:modula2_lines) > a:known
    call remove(b:modula2_lines, a:known, -1)
    call remove(b:modula2_states, a:known + 1, -1)
  endif
endfunction

" What is known before a line.
function! s:Before(number) abort
  if !exists("b:modula2_states")
    let b:modula2_lines = []
    let b:modula2_states = [s:Start()]
    let b:modula2_asked = [-1, 0, 0]
  endif
  let lines = s:Follows(a:number) ? b:modula2_lines : getline(1, a:number - 1)
  let known = s:Follows(a:number) ? a:number - 2 : s:Known(lines)
  call s:Forget(known)
  for line in getline(known + 1, a:number - 1)
    call add(b:modula2_states, s:Read(b:modula2_states[-1], line))
    call add(b:modula2_lines, line)
  endfor
  let b:modula2_asked = [a:number, b:changedtick, line("$")]
  return b:modula2_states[-1]
endfunction

" The first word from a line on that stands in no comment.
function! s:WordAhead(number) abort
  let state = {"depth": 0}
  for line in getline(a:number, a:number + s:lines_ahead)
    let at = s:Comment(state, line, 0)
    let [token, start, end] = matchstrpos(line, s:token, at)
    while token ==# "(*"
      let state.depth = 1
      let at = s:Comment(state, line, end)
      let [token, start, end] = matchstrpos(line, s:token, at)
    endwhile
    if start >= 0
      return token
    endif
  endfor
  return ""
endfunction

" The column of a line, as 'indentexpr' wants it. What stands within a comment is only moved out of the way of its front.
function! Modula2Indent(number) abort
  let state = s:Before(a:number)
  if state.depth > 0
    return max([indent(a:number), state.column + s:comment_columns])
  endif
  let word = matchstr(getline(a:number), s:token)
  if word !=# "(*"
    return s:Column(state, word)
  endif
  let ahead = s:WordAhead(a:number)
  return ahead !=# "BEGIN" && index(s:closes, ahead) >= 0 ? s:Inside(state) : s:Column(state, ahead)
endfunction
