" Syntax of Modula-2, as m2 reads it. tools/write_editors writes this file from editors/words.json.
if exists("b:current_syntax")
  finish
endif

syntax case match
syntax iskeyword A-Z,a-z,48-57
syntax sync fromstart
syntax keyword modula2WordModules DEFINITION EXPORT FROM IMPLEMENTATION IMPORT MODULE QUALIFIED
syntax keyword modula2WordDeclarations CONST PROCEDURE TYPE VAR
syntax keyword modula2WordTypes ARRAY POINTER RECORD SET
syntax keyword modula2WordChoices CASE ELSE ELSIF IF OF THEN
syntax keyword modula2WordLoops BY DO EXIT FOR LOOP REPEAT TO UNTIL WHILE
syntax keyword modula2WordStatements BEGIN END RETURN WITH
syntax keyword modula2WordOperators AND DIV IN MOD NOT OR
syntax keyword modula2StandardTypes BITSET BOOLEAN CARDINAL CHAR INTEGER
syntax keyword modula2StandardConstants FALSE TRUE
syntax keyword modula2StandardProcedures ABS CAP CHR DEC EXCL HALT HIGH INC INCL MAX MIN ODD ORD VAL
syntax keyword modula2StandardBuiltIn Console Put
syntax match modula2BadToken "\<[0-9][0-9A-Za-z]*\>"
syntax match modula2Hexadecimal "\<[0-9][0-9A-F]*H\>"
syntax match modula2Character "\<[0-7]\+C\>"
syntax match modula2Octal "\<[0-7]\+B\>"
syntax match modula2Decimal "\<[0-9]\+\>"
syntax match modula2Delimiter "\.\.\|[].,;:|()[{}]"
syntax match modula2Operator ":=\|<>\|<=\|>=\|[+*/&=#<>~-]"
syntax match modula2BadToken +"[^"]*\%("\|$\)+
syntax match modula2String +"[ -!#-~]*"+
syntax match modula2BadToken +'[^']*\%('\|$\)+
syntax match modula2String +'[ -&(-~]*'+
syntax region modula2Comment start="(\*" end="\*)" contains=modula2Comment,@Spell

highlight default link modula2WordModules Include
highlight default link modula2WordDeclarations Structure
highlight default link modula2WordTypes Structure
highlight default link modula2WordChoices Conditional
highlight default link modula2WordLoops Repeat
highlight default link modula2WordStatements Statement
highlight default link modula2WordOperators Operator
highlight default link modula2StandardTypes Type
highlight default link modula2StandardConstants Constant
highlight default link modula2StandardProcedures Function
highlight default link modula2StandardBuiltIn Function
highlight default link modula2Decimal Number
highlight default link modula2Octal Number
highlight default link modula2Hexadecimal Number
highlight default link modula2Character Character
highlight default link modula2String String
highlight default link modula2Operator Operator
highlight default link modula2Delimiter Delimiter
highlight default link modula2Comment Comment
highlight default link modula2BadToken Error

let b:current_syntax = "modula2"
