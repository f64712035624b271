BEGIN
  % A DO in a DO. A number is added to the number read backwards, until
  % it is a palindrome.
  % Look at where UNTIL stands: both bodies are done once before any
  % test.
  FILE LINE(KIND=PRINTER);
  INTEGER NUMBER, REST, BACK;
  BACK := 79;
  DO
    BEGIN
      NUMBER := NUMBER + BACK;
      REST := NUMBER;
      BACK := 0;
      DO
        BEGIN
          BACK := BACK * 10 + REST MOD 10;
          REST := REST DIV 10
        END
      UNTIL REST = 0;
      WRITE(LINE, <I6, X1, I6>, NUMBER, BACK)
    END
  UNTIL NUMBER = BACK
END.
