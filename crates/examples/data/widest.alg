BEGIN
  % The greatest number in the narrowest columns that hold it, and in
  % the widest line that there may be.
  % Look at the second line, which has 132 columns.
  FILE PAPER;
  INTEGER WIDEST;
  WIDEST := 549755813887;
  WRITE(PAPER, <I12>, WIDEST);
  WRITE(PAPER, <I132>, WIDEST)
END.
