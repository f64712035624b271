BEGIN
  % One sum by five loops. WHILE tests before the body and DO after it,
  % FOR counts in a variable, THRU counts by itself, and GO TO makes a
  % loop of a label and a test.
  % Look at the listing: four of them are a test and a branch back, and
  % GO TO is a call of the intrinsic 2.
  FILE LINE;
  INTEGER I, SUM;
  LABEL AGAIN;

  I := 1;
  WHILE I LEQ 5 DO BEGIN SUM := SUM + I; I := I + 1 END;
  WRITE(LINE, <"WHILE", I4>, SUM);

  SUM := 0; I := 1;
  DO BEGIN SUM := SUM + I; I := I + 1 END UNTIL I GTR 5;
  WRITE(LINE, <"DO   ", I4>, SUM);

  SUM := 0;
  FOR I := 1 STEP 1 UNTIL 5 DO SUM := SUM + I;
  WRITE(LINE, <"FOR  ", I4>, SUM);

  SUM := 0; I := 1;
  THRU 5 DO BEGIN SUM := SUM + I; I := I + 1 END;
  WRITE(LINE, <"THRU ", I4>, SUM);

  SUM := 0; I := 1;
  AGAIN: SUM := SUM + I; I := I + 1;
  IF I LEQ 5 THEN GO TO AGAIN;
  WRITE(LINE, <"GO TO", I4>, SUM)
END.
