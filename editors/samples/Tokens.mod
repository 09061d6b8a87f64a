(* All forms of tokens (* nested, with "quotes' in it *) and more: BEGIN 12 *)
MODULE Tokens;
AND ARRAY BEGIN BY CASE CONST DEFINITION DIV DO ELSE ELSIF END EXIT EXPORT FOR FROM IF IMPLEMENTATION IMPORT IN LOOP
MOD MODULE NOT OF OR POINTER PROCEDURE QUALIFIED RECORD REPEAT RETURN SET THEN TO TYPE UNTIL VAR WHILE WITH
BITSET BOOLEAN CARDINAL CHAR INTEGER FALSE TRUE
ABS CAP CHR DEC EXCL HALT HIGH INC INCL MAX MIN ODD ORD VAL
Console Put
begin End ENDE xEND END1 Begin a1b2 integer Abs PROC REAL NIL
0 7 1980 4294967295 17B 0B 0FFH 0H 1AH 377C 12C 0C 9H 10H
"double" 'single' "it's" 'say "no"' "" '' "(* no comment *)" "BEGIN 12" 'x' "*)"
" !#$%&'()*+,-./0123456789:;<=>?@ABCDEFGHIJKLMNOPQRSTUVWXYZ[\]^_`abcdefghijklmnopqrstuvwxyz{|}~"
' !"#$%&()*+,-./0123456789:;<=>?@ABCDEFGHIJKLMNOPQRSTUVWXYZ[\]^_`abcdefghijklmnopqrstuvwxyz{|}~'
+ - * / := & . , ; ( [ { = # < > <> <= >= .. : ) ] } | ~
a[0..7] 1..2 7B..17B x.y p 2B:=3<=4<>5
(**) (* * *) (*(*)*)*) (***) ((* in brackets *)a) (*
   a comment of several lines "
   *) z(* at once *)+1
IF(a#b)THEN c:=d END;x:="a"+'b';(*last*)
END Tokens.
