BEGIN
  % A FOR over a compound: the sum of the numbers from 1 to 100, and
  % their product modulo 1009.
  % Look at the line under ACTS: each turn makes ten actions, one of the
  % test, six of the body, two of the step, and the Turn.
  FILE LINE(KIND=PRINTER);
  INTEGER TURN, SUM, PRODUCT;
  PRODUCT := 1;
  FOR TURN := 1 STEP 1 UNTIL 100 DO
    BEGIN
      SUM := SUM + TURN;
      PRODUCT := PRODUCT * TURN MOD 1009
    END;
  WRITE(LINE, <"SUM", I8>, SUM);
  WRITE(LINE, <"PRODUCT", I5>, PRODUCT)
END.
