MODULE Hello;

FROM Console IMPORT Put;

BEGIN
  Put("H"); Put("e"); Put("l"); Put("l"); Put("o"); Put(",");
  Put(" "); Put('w'); Put('o'); Put('r'); Put('l'); Put('d'); Put("!");
  Put(12C)
END Hello.
