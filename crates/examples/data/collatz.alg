BEGIN
  % A WHILE in a FOR. Each number is halved where it is even, else three
  % times it and one more is taken, until it is 1.
  % Look at the IF with two parts in the body, and at how the steps jump
  % from one start to the next.
  FILE LINE(KIND=PRINTER);
  INTEGER START, NUMBER, STEPS, PEAK;
  WRITE(LINE, <"START", X2, "STEPS", X3, "PEAK">);
  FOR START := 1 STEP 1 UNTIL 12 DO
    BEGIN
      NUMBER := START;
      PEAK := START;
      STEPS := 0;
      WHILE NUMBER > 1 DO
        BEGIN
          IF NUMBER MOD 2 = 0 THEN NUMBER := NUMBER DIV 2
          ELSE NUMBER := 3 * NUMBER + 1;
          IF NUMBER > PEAK THEN PEAK := NUMBER;
          STEPS := STEPS + 1
        END;
      WRITE(LINE, <I5, I7, I7>, START, STEPS, PEAK)
    END
END.
