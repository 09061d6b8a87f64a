MODULE Calculator;
(* Evaluates sums, products and brackets. What is not an expression is told with its column. *)

FROM InOut IMPORT WriteCard, WriteInt, WriteLn, WriteString;

PROCEDURE Evaluate(text: ARRAY OF CHAR; VAR value: INTEGER; VAR wrong: CARDINAL);
(* `wrong` is 0, or the column from 1 where the text is no expression *)
VAR
  at: CARDINAL;

  PROCEDURE Next(): CHAR;
  BEGIN
    WHILE (at <= HIGH(text)) AND (text[at] = " ") DO INC(at) END;
    IF at > HIGH(text) THEN RETURN 0C END;
    RETURN text[at]
  END Next;

  PROCEDURE Fail;
  BEGIN
    IF wrong = 0 THEN wrong := at + 1 END
  END Fail;

  PROCEDURE Sum(): INTEGER;
  VAR
    left: INTEGER;

    PROCEDURE Product(): INTEGER;
    VAR
      left, right: INTEGER;

      PROCEDURE Factor(): INTEGER;
      VAR
        value, digit: INTEGER;
      BEGIN
        CASE Next() OF
          "0" .. "9":
            value := 0;
            WHILE (at <= HIGH(text)) AND (text[at] >= "0") AND (text[at] <= "9") DO
              digit := ORD(text[at]) - ORD("0");
              value := value * 10 + digit;
              INC(at)
            END
        | "-":
            INC(at);
            value := -Factor()
        | "(":
            INC(at);
            value := Sum();
            IF Next() = ")" THEN INC(at) ELSE Fail END
        ELSE
          Fail;
          value := 0
        END;
        RETURN value
      END Factor;

    BEGIN
      left := Factor();
      LOOP
        CASE Next() OF
          "*":
            INC(at);
            left := left * Factor()
        | "/":
            INC(at);
            right := Factor();
            IF right <= 0 THEN
              Fail;
              EXIT
            END;
            left := left DIV right
        ELSE
          EXIT
        END
      END;
      RETURN left
    END Product;

  BEGIN
    left := Product();
    LOOP
      CASE Next() OF
        "+":
          INC(at);
          left := left + Product()
      | "-":
          INC(at);
          left := left - Product()
      ELSE
        EXIT
      END
    END;
    RETURN left
  END Sum;

BEGIN
  at := 0;
  wrong := 0;
  value := Sum();
  IF Next() # 0C THEN Fail END
END Evaluate;

PROCEDURE Show(text: ARRAY OF CHAR);
VAR
  value: INTEGER;
  wrong: CARDINAL;
BEGIN
  Evaluate(text, value, wrong);
  WriteString(text);
  IF wrong = 0 THEN
    WriteString(" = ");
    WriteInt(value, 0)
  ELSE
    WriteString(" is wrong at ");
    WriteCard(wrong, 0)
  END;
  WriteLn
END Show;

BEGIN
  Show("1 + 2 * 3");
  Show("(1 + 2) * 3");
  Show("100 - 7 * (3 + 4) - -2");
  Show("7 / 2 + -7 / 2");
  Show("2 * (3 + 4");
  Show("8 / 0")
END Calculator.
