BEGIN
  % An array is filled by a linear congruence and sorted by insertion,
  % in a block of its own whose array has the bounds that N gives.
  % Look at the inner block: N has a value before its array is made.
  FILE LINE;
  INTEGER N;
  N := 12;
  BEGIN
    ARRAY A[1:N];
    INTEGER I, J, X;
    BOOLEAN HIGHER;
    X := 7;
    FOR I := 1 STEP 1 UNTIL N DO
      BEGIN
        X := (X * 29 + 17) MOD 101;
        A[I] := X
      END;
    FOR I := 2 STEP 1 UNTIL N DO
      BEGIN
        X := A[I];
        J := I - 1;
        HIGHER := A[J] GTR X;
        WHILE HIGHER DO
          BEGIN
            A[J + 1] := A[J];
            J := J - 1;
            HIGHER := IF J LSS 1 THEN FALSE ELSE A[J] GTR X
          END;
        A[J + 1] := X
      END;
    FOR I := 1 STEP 1 UNTIL N DO
      WRITE(LINE, <I3, I5>, I, A[I])
  END
END.
