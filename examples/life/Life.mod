MODULE Life;
(* Conway's game of life on a board of its own module: a glider walks around the board, a blinker turns, and a small figure
   grows. *)

FROM Board IMPORT Advance, Cells, Clear, Draw, IsEqual, Population, Show;
FROM InOut IMPORT WriteCard, WriteLn, WriteString;

CONST
  GliderShown = 4;       (* after so many generations a glider has moved by one row and one column *)
  GliderAround = 64;     (* 4 * 16: after so many it stands where it began *)
  FigureLines = 5;
  FigureInLine = 10;

VAR
  cells, begin: Cells;

PROCEDURE ShowGeneration(generation: CARDINAL);
BEGIN
  WriteString("generation ");
  WriteCard(generation, 0);
  WriteString(", alive ");
  WriteCard(Population(cells), 0);
  WriteLn;
  Show(cells)
END ShowGeneration;

PROCEDURE AdvanceBy(generations: CARDINAL);
VAR
  i: CARDINAL;
BEGIN
  FOR i := 1 TO generations DO Advance(cells) END
END AdvanceBy;

PROCEDURE WriteAnswer(question: ARRAY OF CHAR; answer: BOOLEAN);
BEGIN
  WriteString(question);
  IF answer THEN WriteString("? yes") ELSE WriteString("? no") END;
  WriteLn
END WriteAnswer;

PROCEDURE WalkGlider;
VAR
  generation: CARDINAL;
BEGIN
  WriteString("a glider");
  WriteLn;
  Clear(cells);
  Draw(cells, 1, 1, ".*.");
  Draw(cells, 2, 1, "..*");
  Draw(cells, 3, 1, "***");
  begin := cells;
  ShowGeneration(0);
  FOR generation := 1 TO GliderShown DO
    Advance(cells);
    ShowGeneration(generation)
  END;
  AdvanceBy(GliderAround - GliderShown);
  WriteAnswer("around the board after 64 generations", IsEqual(cells, begin));
  WriteLn
END WalkGlider;

PROCEDURE TurnBlinker;
BEGIN
  WriteString("a blinker, on the edges of the board");
  WriteLn;
  Clear(cells);
  Draw(cells, 0, 15, "***");
  begin := cells;
  ShowGeneration(0);
  Advance(cells);
  ShowGeneration(1);
  Advance(cells);
  WriteAnswer("as it was after 2 generations", IsEqual(cells, begin));
  WriteLn
END TurnBlinker;

PROCEDURE GrowFigure;
(* prints how many cells are alive in each generation *)
VAR
  line, i: CARDINAL;
BEGIN
  WriteString("a figure that grows");
  WriteLn;
  Clear(cells);
  Draw(cells, 7, 7, ".**");
  Draw(cells, 8, 7, "**.");
  Draw(cells, 9, 7, ".*.");
  FOR line := 1 TO FigureLines DO
    FOR i := 1 TO FigureInLine DO
      WriteCard(Population(cells), 4);
      Advance(cells)
    END;
    WriteLn
  END;
  ShowGeneration(FigureLines * FigureInLine)
END GrowFigure;

BEGIN
  WalkGlider;
  TurnBlinker;
  GrowFigure
END Life.
