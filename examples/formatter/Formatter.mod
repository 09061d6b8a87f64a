MODULE Formatter;
(* A text formatter: it fills lines with the words of a text, and sets them flush, ragged or in the middle, as commands in
   the text say. The module Commands reads, the module Lines prints. *)

FROM Commands IMPORT Process;

PROCEDURE SetTitle;
BEGIN
  Process(".width 44");
  Process(".centred");
  Process("ON MODULES");
  Process(".break");
  Process("a short text");
  Process("")
END SetTitle;

PROCEDURE SetParagraphs;
BEGIN
  Process(".justified");
  Process("A program of some size is best divided into modules.");
  Process("Each of them keeps a secret: how its data are stored,");
  Process("or in which order things are done. What others have to know of it stands in");
  Process("its definition, and that is all that they can use.");
  Process("");
  Process("  When the secret changes, only   one text");
  Process("has to be written anew. The others");
  Process("do");
  Process("not even have to be read again, since what they were told");
  Process("has stayed as it was.");
  Process("")
END SetParagraphs;

PROCEDURE SetIndented;
BEGIN
  Process(".indent 6");
  Process("This paragraph begins further to the right, but ends in the same column as those above.");
  Process(".indent 0");
  Process(".break");
  Process("A line that is as long as forty-four columns");
  Process("stays just as it is written.");
  Process("")
END SetIndented;

PROCEDURE SetRagged;
BEGIN
  Process(".ragged");
  Process("Here the words stand one space apart, and the ends of the lines do not meet in one column.");
  Process("");
  Process(".width 16");
  Process(".justified");
  Process("Long words like incomprehensibilities stick out of lines that are narrow.");
  Process("")
END SetRagged;

PROCEDURE SetErrors;
BEGIN
  Process(".width 30");
  Process("Some words before");
  Process(".widht 20");
  Process("and some behind.");
  Process(".width x");
  Process(".centred 5");
  Process(".indent 1000");
  Process("a b")
END SetErrors;

BEGIN
  SetTitle;
  SetParagraphs;
  SetIndented;
  SetRagged;
  SetErrors;
  Process(".break")
END Formatter.
