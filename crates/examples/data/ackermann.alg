BEGIN
  % Ackermann's function. Its calls stand in one another's actuals.
  % Look at CALLS, which all calls share, while M and N are each call's
  % own.
  FILE LINE;
  INTEGER M, N, CALLS;

  INTEGER PROCEDURE A(M, N); VALUE M, N; INTEGER M, N;
  BEGIN
    CALLS := CALLS + 1;
    A := IF M = 0 THEN N + 1
         ELSE IF N = 0 THEN A(M - 1, 1)
         ELSE A(M - 1, A(M, N - 1))
  END;

  FOR M := 0 STEP 1 UNTIL 2 DO
    FOR N := 0 STEP 1 UNTIL 3 DO
      WRITE(LINE, <I2, I2, I5>, M, N, A(M, N));
  WRITE(LINE, <"CALLS", I6>, CALLS)
END.
