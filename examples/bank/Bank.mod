MODULE Bank;
(* A bank over the definition module Accounts: it opens accounts, moves money, pays interest, and shows what was refused. *)

FROM Accounts IMPORT Close, Deposit, Inspect, LastNumber, Open, Outcome, Owner, OwnerLength,
  Transfer, Withdraw;
FROM InOut IMPORT Write, WriteCard, WriteLn, WriteString;
FROM Money IMPORT Amount, InterestOn, MostMoney, WriteAmount;
FROM Strings IMPORT Length;

CONST
  AmountWidth = 12;
  Rate = 225;    (* 2.25 per cent *)

VAR
  ada, blaise, charles: CARDINAL;    (* the numbers of their accounts *)

PROCEDURE WriteOutcome(outcome: Outcome);
(* ends a line with what came of an order *)
BEGIN
  CASE outcome OF
    done: WriteString(": done")
  | noAccount: WriteString(": refused, no such account")
  | notEnough: WriteString(": refused, not enough money")
  | tooMuch: WriteString(": refused, too much money")
  | noRoom: WriteString(": refused, the bank is full")
  | notEmpty: WriteString(": refused, there is money on the account")
  END;
  WriteLn
END WriteOutcome;

PROCEDURE OpenFor(owner: ARRAY OF CHAR; VAR number: CARDINAL);
VAR
  outcome: Outcome;
BEGIN
  Open(owner, number, outcome);
  WriteString("account ");
  WriteCard(number, 0);
  WriteString(" for ");
  WriteString(owner);
  WriteOutcome(outcome)
END OpenFor;

PROCEDURE Pay(number: CARDINAL; amount: Amount);
(* pays money in *)
VAR
  outcome: Outcome;
BEGIN
  WriteString("in  ");
  WriteAmount(amount, AmountWidth);
  WriteString(" to ");
  WriteCard(number, 0);
  Deposit(number, amount, outcome);
  WriteOutcome(outcome)
END Pay;

PROCEDURE Take(number: CARDINAL; amount: Amount);
(* takes money out *)
VAR
  outcome: Outcome;
BEGIN
  WriteString("out ");
  WriteAmount(amount, AmountWidth);
  WriteString(" of ");
  WriteCard(number, 0);
  Withdraw(number, amount, outcome);
  WriteOutcome(outcome)
END Take;

PROCEDURE Move(from, to: CARDINAL; amount: Amount);
VAR
  outcome: Outcome;
BEGIN
  WriteString("    ");
  WriteAmount(amount, AmountWidth);
  WriteString(" of ");
  WriteCard(from, 0);
  WriteString(" to ");
  WriteCard(to, 0);
  Transfer(from, to, amount, outcome);
  WriteOutcome(outcome)
END Move;

PROCEDURE CloseNumber(number: CARDINAL);
VAR
  outcome: Outcome;
BEGIN
  WriteString("close ");
  WriteCard(number, 0);
  Close(number, outcome);
  WriteOutcome(outcome)
END CloseNumber;

PROCEDURE PayInterest;
(* pays the interest of a year to each account *)
VAR
  number: CARDINAL;
  owner: Owner;
  balance: Amount;
  outcome: Outcome;
BEGIN
  FOR number := 1 TO LastNumber() DO
    Inspect(number, owner, balance, outcome);
    IF outcome = done THEN Pay(number, InterestOn(balance, Rate)) END
  END
END PayInterest;

PROCEDURE WriteColumn(text: ARRAY OF CHAR);
(* prints a text, and spaces behind it up to an owner's length *)
VAR
  i: CARDINAL;
BEGIN
  WriteString(text);
  FOR i := Length(text) + 1 TO OwnerLength DO Write(" ") END
END WriteColumn;

PROCEDURE ShowAll;
(* prints the accounts, and how much money the bank has *)
VAR
  number, sum: CARDINAL;
  owner: Owner;
  balance: Amount;
  outcome: Outcome;
BEGIN
  sum := 0;
  WriteLn;
  FOR number := 1 TO LastNumber() DO
    Inspect(number, owner, balance, outcome);
    IF outcome = done THEN
      WriteCard(number, 4);
      Write(" ");
      WriteColumn(owner);
      WriteAmount(balance, AmountWidth);
      WriteLn;
      sum := sum + balance
    END
  END;
  WriteString("     ");
  WriteColumn("all");
  WriteAmount(sum, AmountWidth);
  WriteLn;
  WriteLn
END ShowAll;

BEGIN
  OpenFor("Ada Lovelace", ada);
  OpenFor("Blaise Pascal", blaise);
  OpenFor("Charles Babbage", charles);
  Pay(ada, 125000);
  Pay(blaise, 99999);
  Pay(charles, 5);
  ShowAll;
  Take(ada, 25050);
  Take(blaise, 100000);
  Move(ada, charles, 50000);
  Move(charles, 9, 1);
  Move(charles, blaise, 50006);
  Move(blaise, blaise, 99999);
  Pay(0, 100);
  ShowAll;
  PayInterest;
  ShowAll;
  CloseNumber(charles);
  Move(charles, ada, 51130);
  CloseNumber(charles);
  CloseNumber(charles);
  Pay(charles, 1);
  Pay(ada, MostMoney);
  ShowAll
END Bank.
