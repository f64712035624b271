BEGIN
  % An array as a parameter. It is not copied: what REVERSE stores in A
  % stands in the actual. A has a lower bound of its own, so that its
  % first element is A[1], whatever the actual counts from.
  % Look at the two rows after the calls, and at their own bounds.
  FILE LINE;
  INTEGER ARRAY YEAR[1961:1965], LETTER[-1:2];
  INTEGER I;

  PROCEDURE REVERSE(A, N); VALUE N; INTEGER N; INTEGER ARRAY A[1];
  BEGIN
    INTEGER I, X;
    FOR I := 1 STEP 1 UNTIL N DIV 2 DO
    BEGIN
      X := A[I]; A[I] := A[N + 1 - I]; A[N + 1 - I] := X
    END
  END;

  FOR I := 1961 STEP 1 UNTIL 1965 DO YEAR[I] := I;
  FOR I := -1 STEP 1 UNTIL 2 DO LETTER[I] := 10 + I;
  REVERSE(YEAR, 5); REVERSE(LETTER, 4);
  WRITE(LINE, <I5, I5, I5, I5, I5>,
    YEAR[1961], YEAR[1962], YEAR[1963], YEAR[1964], YEAR[1965]);
  WRITE(LINE, <I5, I5, I5, I5>,
    LETTER[-1], LETTER[0], LETTER[1], LETTER[2])
END.
