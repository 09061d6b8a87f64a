IMPLEMENTATION MODULE Accounts;

FROM Money IMPORT Amount, MostMoney;
FROM Strings IMPORT Assign;

CONST
  MostAccounts = 50;

TYPE
  Account = RECORD
    owner: Owner;
    balance: Amount;
    isOpen: BOOLEAN
  END;

VAR
  accounts: ARRAY [1 .. MostAccounts] OF Account;
  count: CARDINAL;    (* how many were opened *)

PROCEDURE IsAccount(number: CARDINAL): BOOLEAN;
BEGIN
  RETURN (number > 0) AND (number <= count) AND accounts[number].isOpen
END IsAccount;

PROCEDURE Open(owner: ARRAY OF CHAR; VAR number: CARDINAL; VAR outcome: Outcome);
BEGIN
  IF count = MostAccounts THEN
    outcome := noRoom
  ELSE
    INC(count);
    number := count;
    Assign(accounts[number].owner, owner);
    accounts[number].balance := 0;
    accounts[number].isOpen := TRUE;
    outcome := done
  END
END Open;

PROCEDURE Close(number: CARDINAL; VAR outcome: Outcome);
BEGIN
  IF NOT IsAccount(number) THEN
    outcome := noAccount
  ELSIF accounts[number].balance > 0 THEN
    outcome := notEmpty
  ELSE
    accounts[number].isOpen := FALSE;
    outcome := done
  END
END Close;

PROCEDURE CanDeposit(number: CARDINAL; amount: Amount): Outcome;
(* What Deposit would answer. *)
BEGIN
  IF NOT IsAccount(number) THEN RETURN noAccount END;
  IF amount > MostMoney - accounts[number].balance THEN RETURN tooMuch END;
  RETURN done
END CanDeposit;

PROCEDURE CanWithdraw(number: CARDINAL; amount: Amount): Outcome;
(* What Withdraw would answer. *)
BEGIN
  IF NOT IsAccount(number) THEN RETURN noAccount END;
  IF amount > accounts[number].balance THEN RETURN notEnough END;
  RETURN done
END CanWithdraw;

PROCEDURE Deposit(number: CARDINAL; amount: Amount; VAR outcome: Outcome);
BEGIN
  outcome := CanDeposit(number, amount);
  IF outcome = done THEN INC(accounts[number].balance, amount) END
END Deposit;

PROCEDURE Withdraw(number: CARDINAL; amount: Amount; VAR outcome: Outcome);
BEGIN
  outcome := CanWithdraw(number, amount);
  IF outcome = done THEN DEC(accounts[number].balance, amount) END
END Withdraw;

PROCEDURE Transfer(from, to: CARDINAL; amount: Amount; VAR outcome: Outcome);
(* The amount is taken first, so a transfer from an account to itself never makes its balance too great. If it cannot be
   added, it is given back. *)
VAR
  back: Outcome;
BEGIN
  Withdraw(from, amount, outcome);
  IF outcome = done THEN
    Deposit(to, amount, outcome);
    IF outcome # done THEN Deposit(from, amount, back) END
  END
END Transfer;

PROCEDURE Inspect(number: CARDINAL; VAR owner: Owner; VAR balance: Amount; VAR outcome: Outcome);
BEGIN
  IF IsAccount(number) THEN
    owner := accounts[number].owner;
    balance := accounts[number].balance;
    outcome := done
  ELSE
    outcome := noAccount
  END
END Inspect;

PROCEDURE LastNumber(): CARDINAL;
BEGIN
  RETURN count
END LastNumber;

BEGIN
  count := 0
END Accounts.
