IMPLEMENTATION MODULE Assembler;

FROM Machine IMPORT Address, Instruction, MostInstructions, Operation, Place, Register, SetLength;

CONST
  NoLabel = 0;

TYPE
  Line = RECORD
    instruction: Instruction;
    label: [NoLabel .. MostLabels]    (* that the argument stands for, or NoLabel *)
  END;

VAR
  lines: ARRAY [0 .. MostInstructions - 1] OF Line;
  count: CARDINAL;
  places: ARRAY Label OF Address;
  isMarked: ARRAY Label OF BOOLEAN;

PROCEDURE Begin;
VAR
  label: Label;
BEGIN
  count := 0;
  FOR label := 1 TO MostLabels DO isMarked[label] := FALSE END
END Begin;

PROCEDURE Append(operation: Operation; first, second: Register; argument: INTEGER; label: CARDINAL);
BEGIN
  lines[count].instruction.operation := operation;
  lines[count].instruction.first := first;
  lines[count].instruction.second := second;
  lines[count].instruction.argument := argument;
  lines[count].label := label;
  INC(count)
END Append;

PROCEDURE Set(register: Register; number: INTEGER);
BEGIN
  Append(set, register, 0, number, NoLabel)
END Set;

PROCEDURE One(operation: Operation; register: Register);
BEGIN
  Append(operation, register, 0, 0, NoLabel)
END One;

PROCEDURE Two(operation: Operation; first, second: Register);
BEGIN
  Append(operation, first, second, 0, NoLabel)
END Two;

PROCEDURE Jump(label: Label);
BEGIN
  Append(jump, 0, 0, 0, label)
END Jump;

PROCEDURE JumpIf(operation: Operation; first, second: Register; label: Label);
BEGIN
  Append(operation, first, second, 0, label)
END JumpIf;

PROCEDURE Call(register: Register; label: Label);
BEGIN
  Append(call, register, 0, 0, label)
END Call;

PROCEDURE Stop;
BEGIN
  Append(stop, 0, 0, 0, NoLabel)
END Stop;

PROCEDURE Mark(label: Label);
BEGIN
  places[label] := count;
  isMarked[label] := TRUE
END Mark;

PROCEDURE AddressOf(label: Label): CARDINAL;
BEGIN
  IF isMarked[label] THEN RETURN places[label] END;
  RETURN count
END AddressOf;

PROCEDURE Finish;
VAR
  i: CARDINAL;
BEGIN
  i := 0;
  WHILE i < count DO
    WITH lines[i] DO
      IF label # NoLabel THEN instruction.argument := AddressOf(label) END;
      Place(i, instruction)
    END;
    INC(i)
  END;
  SetLength(count)
END Finish;

BEGIN
  Begin
END Assembler.
