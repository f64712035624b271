BEGIN
  % A machine of five states that reads numbers from a row of marks:
  % a digit is itself, 10 a blank, 11 a minus sign, 12 the end. Each
  % state is a label; what is read says to which one it goes on.
  % Look at ENDED: it leaves its procedure by GO TO.
  FILE LINE;
  INTEGER I, MARK, N, SIGN, BAD;
  INTEGER ARRAY TEXT[1:16];
  LABEL BLANKS, FIRST, DIGITS, REST, STOP;

  PROCEDURE READ;
  BEGIN
    I := I + 1; MARK := TEXT[I]
  END;

  PROCEDURE PUT(X); VALUE X; INTEGER X;
  BEGIN
    I := I + 1; TEXT[I] := X
  END;

  PROCEDURE ENDED;
    IF MARK EQL 12 THEN GO TO STOP ELSE GO TO BLANKS;

  % 40 -7 3-1 - 905
  PUT(4); PUT(0); PUT(10); PUT(11); PUT(7); PUT(10); PUT(3); PUT(11);
  PUT(1); PUT(10); PUT(11); PUT(10); PUT(9); PUT(0); PUT(5); PUT(12);
  I := 0;

  BLANKS: READ;
          IF MARK EQL 10 THEN GO TO BLANKS;
          IF MARK EQL 12 THEN GO TO STOP;
          N := 0; SIGN := 1;
          IF MARK NEQ 11 THEN GO TO DIGITS;
          SIGN := -1; READ;

  FIRST:  IF MARK GEQ 10 THEN GO TO REST;

  DIGITS: N := 10 * N + MARK; READ;
          IF MARK LSS 10 THEN GO TO DIGITS;
          IF MARK EQL 11 THEN GO TO REST;
          WRITE(LINE, <"NUMBER", I5>, SIGN * N);
          ENDED;

  REST:   BAD := BAD + 1;
          WHILE MARK NEQ 10 AND MARK NEQ 12 DO READ;
          ENDED;

  STOP:   WRITE(LINE, <"BAD   ", I5>, BAD)
END.
