BEGIN
  % Blocks in blocks. A variable that a block declares is made anew, as
  % 0, each time the block is entered.
  % Look at COUNT, which nobody sets to 0, and at REST, which lives for
  % one turn of the innermost loop.
  FILE LINE(KIND=PRINTER);
  INTEGER NUMBER;
  WRITE(LINE, <"NUMBER", X2, "PRIME TO IT">);
  FOR NUMBER := 1 STEP 1 UNTIL 12 DO
    BEGIN
      INTEGER OTHER, COUNT;
      FOR OTHER := 1 STEP 1 UNTIL NUMBER DO
        BEGIN
          INTEGER A, B;
          A := NUMBER;
          B := OTHER;
          WHILE B > 0 DO
            BEGIN
              INTEGER REST;
              REST := A MOD B;
              A := B;
              B := REST
            END;
          IF A = 1 THEN COUNT := COUNT + 1
        END;
      WRITE(LINE, <I6, I13>, NUMBER, COUNT)
    END
END.
