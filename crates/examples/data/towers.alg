BEGIN
  % The towers of Hanoi: each move of a disc is a line. TOWER and
  % SHIFT call one another, so FORWARD announces the second.
  % Look at the order of the moves: a disc never lies on a smaller one.
  FILE LINE;
  INTEGER MOVES;

  INTEGER PROCEDURE REST(A, B); VALUE A, B; INTEGER A, B;
    REST := 6 - A - B;

  PROCEDURE SHIFT(N, FROM, ONTO);
    VALUE N, FROM, ONTO; INTEGER N, FROM, ONTO; FORWARD;

  PROCEDURE TOWER(N, FROM, ONTO);
    VALUE N, FROM, ONTO; INTEGER N, FROM, ONTO;
    IF N GTR 0 THEN
      BEGIN
        TOWER(N - 1, FROM, REST(FROM, ONTO));
        SHIFT(N, FROM, ONTO)
      END;

  PROCEDURE SHIFT(N, FROM, ONTO);
    VALUE N, FROM, ONTO; INTEGER N, FROM, ONTO;
  BEGIN
    MOVES := MOVES + 1;
    WRITE(LINE, <"DISC", I2, " FROM", I2, " TO", I2>, N, FROM, ONTO);
    TOWER(N - 1, REST(FROM, ONTO), ONTO)
  END;

  TOWER(4, 1, 3);
  WRITE(LINE, <I3, " MOVES">, MOVES)
END.
