BEGIN
  % What a line is made of. A text stands as it is, X3 is three blanks,
  % and I6 is the next number in six columns, at their right end.
  % Look at the last line: where a number does not fit, there are
  % asterisks, and the run goes on.
  FILE LINE;
  INTEGER I, N;
  N := 7;
  FOR I := 1 STEP 1 UNTIL 5 DO
  BEGIN
    WRITE(LINE, <"N", X3, I6, X2, I6, " ENDS">, N, -N);
    N := N * 13
  END;
  WRITE(LINE, <"TOO WIDE", X2, I3, X2, I4>, 1000, 1000)
END.
