MODULE Open;
FROM Console IMPORT Put;
BEGIN
  Put("a);
  Put(12C)
END Open.
