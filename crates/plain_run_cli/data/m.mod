MODULE M;
FROM Console IMPORT Put;

PROCEDURE Show(n: CARDINAL);
BEGIN
  IF n >= 10 THEN Show(n DIV 10) END;
  Put(CHR(n MOD 10 + ORD("0")))
END Show;

PROCEDURE Product(n: CARDINAL): CARDINAL;
BEGIN
  IF n = 0 THEN RETURN 1 END;
  RETURN n * Product(n - 1)
END Product;

BEGIN
  Show(Product(10)); Put(12C)
END M.
