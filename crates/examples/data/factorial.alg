BEGIN
  % Factorials, as far as a word holds them, by a procedure that
  % calls itself.
  % Look at the last line, 14 factorial: the next one would be a fault.
  FILE LINE;
  INTEGER K;

  INTEGER PROCEDURE FACTORIAL(N); VALUE N; INTEGER N;
    FACTORIAL := IF N LEQ 1 THEN 1 ELSE N * FACTORIAL(N - 1);

  FOR K := 1 STEP 1 UNTIL 14 DO
    WRITE(LINE, <I2, " ", I12>, K, FACTORIAL(K))
END.
