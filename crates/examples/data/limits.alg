BEGIN
  % The greatest number. A sum beyond it is a fault where it stands,
  % also where the next operation would bring it back.
  % Look at the end, REAL RESULT: the second line is written, and the
  % third is not.
  FILE LINE(KIND=PRINTER);
  INTEGER MOST, NEXT;
  MOST := 549755813887;
  WRITE(LINE, <I12>, MOST);
  NEXT := MOST - 1 + 1;
  WRITE(LINE, <I12>, NEXT);
  NEXT := MOST + 1 - 1;
  WRITE(LINE, <I12>, NEXT)
END.
