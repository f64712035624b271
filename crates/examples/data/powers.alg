BEGIN
  % A THRU, which counts by itself. The powers of 8 are powers of 2, up
  % to the greatest one that is a number.
  % Look at the last line: the greatest number is made in such an order
  % that no step of it is too large.
  FILE LINE(KIND=PRINTER);
  INTEGER POWER, EXPONENT;
  POWER := 1;
  THRU 12 DO
    BEGIN
      POWER := POWER * 8;
      EXPONENT := EXPONENT + 3;
      WRITE(LINE, <"2 TO THE", I3, I13>, EXPONENT, POWER)
    END;
  WRITE(LINE, <"GREATEST", X3, I13>, (POWER * 4 - 1) * 2 + 1)
END.
