BEGIN
  % Man or boy? A test by D. Knuth, 1964. Each call of A declares a B,
  % which is given by name to a further call, and takes one off the K
  % of that call of A in which it was declared.
  % Look at the line for 10, which is -67: who takes K from another call
  % has another number.
  FILE LINE;
  INTEGER N;

  INTEGER PROCEDURE A(K, X1, X2, X3, X4, X5);
    VALUE K; INTEGER K, X1, X2, X3, X4, X5;
  BEGIN
    INTEGER PROCEDURE B;
    BEGIN
      K := K - 1;
      B := A(K, B, X1, X2, X3, X4)
    END;
    IF K LEQ 0 THEN A := X4 + X5 ELSE A := B
  END;

  FOR N := 0 STEP 1 UNTIL 10 DO
    WRITE(LINE, <I2, I6>, N, A(N, 1, -1, -1, 1, 0))
END.
