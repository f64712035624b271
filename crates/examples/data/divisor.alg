BEGIN
  % Euclid's algorithm: the greatest common divisor by remainders, a
  % line for each of them.
  % Look at ODD, a variable for a truth value, and at the IF in the last
  % WRITE, which is an expression.
  FILE LINE(KIND=PRINTER);
  INTEGER A, B, REST;
  BOOLEAN ODD;
  A := 1071;
  B := 462;
  WHILE B > 0 DO
    BEGIN
      REST := A MOD B;
      A := B;
      B := REST;
      WRITE(LINE, <I6, X1, I6>, A, B)
    END;
  ODD := A MOD 2 = 1;
  WRITE(LINE, <"COMMON DIVISOR", I4, X1, I1>, A, IF ODD THEN 1 ELSE 0)
END.
