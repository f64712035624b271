BEGIN
  % A search by halves in an ascending row. The part in which the number
  % may still be is halved each time, and is empty where it is not
  % there.
  % Look at the parameter by name HOWMANY: the procedure counts in a
  % variable of its caller.
  FILE LINE;
  INTEGER ARRAY SQUARE[1:100];
  INTEGER I, LOOKS;

  INTEGER PROCEDURE PLACE(X, HOWMANY); VALUE X; INTEGER X, HOWMANY;
  BEGIN
    INTEGER LOW, HIGH, MIDDLE;
    LOW := 1; HIGH := 100; HOWMANY := 0;
    WHILE LOW LEQ HIGH DO
    BEGIN
      HOWMANY := HOWMANY + 1;
      MIDDLE := (LOW + HIGH) DIV 2;
      IF SQUARE[MIDDLE] EQL X
      THEN BEGIN PLACE := MIDDLE; LOW := HIGH + 1 END
      ELSE IF SQUARE[MIDDLE] LSS X THEN LOW := MIDDLE + 1
      ELSE HIGH := MIDDLE - 1
    END
  END;

  PROCEDURE SHOW(X); VALUE X; INTEGER X;
  BEGIN
    INTEGER AT;
    AT := PLACE(X, LOOKS);
    WRITE(LINE, <I5, " STANDS AT", I4, ", IN LOOKS:", I2>,
      X, AT, LOOKS)
  END;

  FOR I := 1 STEP 1 UNTIL 100 DO SQUARE[I] := I * I;
  SHOW(2500); SHOW(49); SHOW(10000); SHOW(50)
END.
