MODULE Wrong;
FROM Parts IMPORT Total, Count;
VAR total: INTEGER; name: CHAR;
BEGIN
  (* größer *) total := Total(1, "x");
  name := total;
  Count := 1
END Wrong.
