MODULE SetsTest;
(* Tries the library module Sets: small sets with all operations, the ends of the range, and the numbers without divisors. *)

FROM InOut IMPORT Write, WriteCard, WriteLn, WriteString;
FROM Sets IMPORT Clear, Count, Difference, Excl, In, Incl, InclRange, Intersection, IsEmpty,
  IsEqual, IsSubset, LastElement, Set,
  SymmetricDifference, Union;

VAR
  left, right, result: Set;

PROCEDURE WriteSet(set: Set);
(* prints the elements in braces, and those that follow one another as a range *)
VAR
  element, first, last: CARDINAL;
BEGIN
  Write("{");
  element := 0;
  WHILE element <= LastElement DO
    IF In(element, set) THEN
      first := element;
      WHILE (element < LastElement) AND In(element + 1, set) DO INC(element) END;
      last := element;
      Write(" ");
      WriteCard(first, 0);
      IF first < last THEN
        WriteString("..");
        WriteCard(last, 0)
      END
    END;
    INC(element)
  END;
  WriteString(" }")
END WriteSet;

PROCEDURE Show(name: ARRAY OF CHAR; set: Set);
(* prints a set and how many elements it has *)
BEGIN
  WriteString(name);
  WriteString(": ");
  WriteSet(set);
  WriteCard(Count(set), 5);
  WriteLn
END Show;

PROCEDURE ShowTruth(question: ARRAY OF CHAR; answer: BOOLEAN);
BEGIN
  WriteString(question);
  IF answer THEN WriteString("? yes") ELSE WriteString("? no") END;
  WriteLn
END ShowTruth;

PROCEDURE TryElements;
BEGIN
  Show("fresh", left);
  ShowTruth("empty", IsEmpty(left));
  Incl(left, 0);
  Incl(left, 31);
  Incl(left, 32);
  Incl(left, 32);
  Incl(left, LastElement);
  Show("Incl", left);
  ShowTruth("31 in it", In(31, left));
  ShowTruth("33 in it", In(33, left));
  ShowTruth("1023 in it", In(1023, left));
  ShowTruth("empty", IsEmpty(left));
  Excl(left, 32);
  Excl(left, 33);
  Excl(left, LastElement);
  Show("Excl", left);
  InclRange(left, 60, 70);
  InclRange(left, 1022, LastElement);
  InclRange(left, 5, 4);
  Show("InclRange", left);
  Clear(left);
  Show("Clear", left)
END TryElements;

PROCEDURE TryOperations;
BEGIN
  Clear(left);
  Clear(right);
  InclRange(left, 1, 40);
  InclRange(right, 30, 100);
  Union(left, right, result);
  Show("Union", result);
  Difference(left, right, result);
  Show("Difference", result);
  Intersection(left, right, result);
  Show("Intersection", result);
  SymmetricDifference(left, right, result);
  Show("SymmetricDifference", result);
  Difference(left, left, left);
  Show("Difference with itself", left)
END TryOperations;

PROCEDURE TryRelations;
BEGIN
  Clear(left);
  Clear(right);
  InclRange(left, 500, 600);
  right := left;
  ShowTruth("equal", IsEqual(left, right));
  ShowTruth("subset", IsSubset(left, right));
  Excl(left, 555);
  ShowTruth("equal", IsEqual(left, right));
  ShowTruth("subset", IsSubset(left, right));
  ShowTruth("subset the other way", IsSubset(right, left));
  Incl(left, 1);
  ShowTruth("subset", IsSubset(left, right));
  Clear(left);
  ShowTruth("the empty set a subset", IsSubset(left, right))
END TryRelations;

PROCEDURE TryPrimes;
(* the sieve of Eratosthenes: takes out the multiples of each number that is left *)
VAR
  number, multiple: CARDINAL;
BEGIN
  Clear(result);
  InclRange(result, 2, LastElement);
  FOR number := 2 TO 31 DO
    IF In(number, result) THEN
      multiple := number * number;
      WHILE multiple <= LastElement DO
        Excl(result, multiple);
        multiple := multiple + number
      END
    END
  END;
  WriteString("primes: ");
  WriteCard(Count(result), 0);
  WriteLn;
  Clear(left);
  InclRange(left, 0, 100);
  Intersection(result, left, result);
  Show("primes up to 100", result)
END TryPrimes;

BEGIN
  TryElements;
  TryOperations;
  TryRelations;
  TryPrimes
END SetsTest.
