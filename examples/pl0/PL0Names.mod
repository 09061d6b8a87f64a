IMPLEMENTATION MODULE PL0Names;

FROM PL0Scanner IMPORT Name;
FROM Strings IMPORT Compare;

CONST
  MostNames = 100;

TYPE
  Entry = RECORD
    name: Name;
    meaning: Meaning
  END;

VAR
  entries: ARRAY [1 .. MostNames] OF Entry;    (* those of the current scope stand last *)
  count: CARDINAL;
  level: CARDINAL;

PROCEDURE Clear;
BEGIN
  count := 0;
  level := 0
END Clear;

PROCEDURE OpenScope;
BEGIN
  INC(level)
END OpenScope;

PROCEDURE IsInScope(position: CARDINAL): BOOLEAN;
(* Whether the entry at a position is one of the current scope. *)
BEGIN
  RETURN (position > 0) AND (entries[position].meaning.level = level)
END IsInScope;

PROCEDURE CloseScope;
BEGIN
  WHILE IsInScope(count) DO DEC(count) END;
  DEC(level)
END CloseScope;

PROCEDURE Level(): CARDINAL;
BEGIN
  RETURN level
END Level;

PROCEDURE PositionOf(name: Name): CARDINAL;
(* The position of the last entry for a name, or 0. *)
VAR position: CARDINAL;
BEGIN
  position := count;
  WHILE (position > 0) AND (Compare(entries[position].name, name) # 0) DO DEC(position) END;
  RETURN position
END PositionOf;

PROCEDURE Enter(name: Name; kind: Kind; value: INTEGER; VAR answer: Answer);
BEGIN
  IF IsInScope(PositionOf(name)) THEN
    answer := declaredAlready
  ELSIF count = MostNames THEN
    answer := noRoom
  ELSE
    INC(count);
    entries[count].name := name;
    entries[count].meaning.kind := kind;
    entries[count].meaning.level := level;
    entries[count].meaning.value := value;
    answer := entered
  END
END Enter;

PROCEDURE SetValue(value: INTEGER);
BEGIN
  entries[count].meaning.value := value
END SetValue;

PROCEDURE Find(name: Name; VAR meaning: Meaning; VAR isFound: BOOLEAN);
VAR position: CARDINAL;
BEGIN
  position := PositionOf(name);
  isFound := position > 0;
  IF isFound THEN meaning := entries[position].meaning END
END Find;

BEGIN
  Clear
END PL0Names.
