BEGIN
  % Six queens, none of which attacks another one. When the last one
  % stands, GO TO leaves all calls of PLACE at once, and the array of
  % each with it.
  % Look at CALLS: the first place that is tried is seldom the right
  % one.
  FILE LINE;
  INTEGER I, CALLS;
  INTEGER ARRAY COLUMN[1:6];
  LABEL FOUND, OUT;

  PROCEDURE PLACE(ROW); VALUE ROW; INTEGER ROW;
  BEGIN
    INTEGER C, R;
    BOOLEAN ARRAY FREE[1:6];
    CALLS := CALLS + 1;
    IF ROW GTR 6 THEN GO TO FOUND;
    FOR C := 1 STEP 1 UNTIL 6 DO FREE[C] := TRUE;
    FOR R := 1 STEP 1 UNTIL ROW - 1 DO
    BEGIN
      INTEGER D;
      D := ROW - R; C := COLUMN[R]; FREE[C] := FALSE;
      IF C - D GEQ 1 THEN FREE[C - D] := FALSE;
      IF C + D LEQ 6 THEN FREE[C + D] := FALSE
    END;
    FOR C := 1 STEP 1 UNTIL 6 DO
      IF FREE[C] THEN
      BEGIN
        COLUMN[ROW] := C; PLACE(ROW + 1)
      END
  END;

  PLACE(1);
  WRITE(LINE, <"NONE">); GO TO OUT;
  FOUND: FOR I := 1 STEP 1 UNTIL 6 DO
    WRITE(LINE, <"ROW", I2, " COLUMN", I2>, I, COLUMN[I]);
  WRITE(LINE, <"CALLS", I4>, CALLS);
  OUT:
END.
