IMPLEMENTATION MODULE Sets;

CONST
  WordLength = 32;

PROCEDURE Clear(VAR set: Set);
VAR word: CARDINAL;
BEGIN
  FOR word := 0 TO LastWord DO set[word] := {} END
END Clear;

PROCEDURE Incl(VAR set: Set; element: Element);
BEGIN
  INCL(set[element DIV WordLength], element MOD WordLength)
END Incl;

PROCEDURE Excl(VAR set: Set; element: Element);
BEGIN
  EXCL(set[element DIV WordLength], element MOD WordLength)
END Excl;

PROCEDURE InclRange(VAR set: Set; first, last: Element);
VAR element: Element;
BEGIN
  FOR element := first TO last DO Incl(set, element) END
END InclRange;

PROCEDURE In(element: Element; set: Set): BOOLEAN;
BEGIN
  RETURN element MOD WordLength IN set[element DIV WordLength]
END In;

PROCEDURE Union(left, right: Set; VAR result: Set);
VAR word: CARDINAL;
BEGIN
  FOR word := 0 TO LastWord DO result[word] := left[word] + right[word] END
END Union;

PROCEDURE Difference(left, right: Set; VAR result: Set);
VAR word: CARDINAL;
BEGIN
  FOR word := 0 TO LastWord DO result[word] := left[word] - right[word] END
END Difference;

PROCEDURE Intersection(left, right: Set; VAR result: Set);
VAR word: CARDINAL;
BEGIN
  FOR word := 0 TO LastWord DO result[word] := left[word] * right[word] END
END Intersection;

PROCEDURE SymmetricDifference(left, right: Set; VAR result: Set);
VAR word: CARDINAL;
BEGIN
  FOR word := 0 TO LastWord DO result[word] := left[word] / right[word] END
END SymmetricDifference;

PROCEDURE IsEmpty(set: Set): BOOLEAN;
VAR word: CARDINAL;
BEGIN
  FOR word := 0 TO LastWord DO
    IF set[word] # {} THEN RETURN FALSE END
  END;
  RETURN TRUE
END IsEmpty;

PROCEDURE IsEqual(left, right: Set): BOOLEAN;
VAR word: CARDINAL;
BEGIN
  FOR word := 0 TO LastWord DO
    IF left[word] # right[word] THEN RETURN FALSE END
  END;
  RETURN TRUE
END IsEqual;

PROCEDURE IsSubset(part, whole: Set): BOOLEAN;
VAR word: CARDINAL;
BEGIN
  FOR word := 0 TO LastWord DO
    IF NOT (part[word] <= whole[word]) THEN RETURN FALSE END
  END;
  RETURN TRUE
END IsSubset;

PROCEDURE CountOfWord(word: BITSET): CARDINAL;
VAR count, element: CARDINAL;
BEGIN
  count := 0;
  FOR element := 0 TO WordLength - 1 DO
    IF element IN word THEN INC(count) END
  END;
  RETURN count
END CountOfWord;

PROCEDURE Count(set: Set): CARDINAL;
VAR count, word: CARDINAL;
BEGIN
  count := 0;
  FOR word := 0 TO LastWord DO count := count + CountOfWord(set[word]) END;
  RETURN count
END Count;

END Sets.
