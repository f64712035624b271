BEGIN
  % CASE chooses one of seven statements, which are numbered from 0: the
  % weekday on which each year begins.
  % Look at the rule of leap years, one expression of AND and OR. A
  % comment may stand at the end of a line, too.
  FILE LINE(KIND=PRINTER);
  INTEGER YEAR, DAY; % 1961 BEGINS ON A SUNDAY, AND DAY IS 0
  BOOLEAN LEAP;
  FOR YEAR := 1961 STEP 1 UNTIL 1973 DO
    BEGIN
      CASE DAY OF
        BEGIN
          WRITE(LINE, <I4, X2, "SUNDAY">, YEAR);
          WRITE(LINE, <I4, X2, "MONDAY">, YEAR);
          WRITE(LINE, <I4, X2, "TUESDAY">, YEAR);
          WRITE(LINE, <I4, X2, "WEDNESDAY">, YEAR);
          WRITE(LINE, <I4, X2, "THURSDAY">, YEAR);
          WRITE(LINE, <I4, X2, "FRIDAY">, YEAR);
          WRITE(LINE, <I4, X2, "SATURDAY">, YEAR)
        END;
      LEAP := YEAR MOD 4 = 0 AND (YEAR MOD 100 > 0 OR YEAR MOD 400 = 0);
      DAY := (DAY + (IF LEAP THEN 366 ELSE 365)) MOD 7
    END
END.
