BEGIN
  % The product of two matrices, whose rows and columns count from 1,
  % and its trace. A third array counts its subscripts from below 0.
  % Look at the last WRITE: a subscript may be below 0.
  FILE LINE;
  ARRAY A, B, C[1:3, 1:3];
  ARRAY DIAGONAL[-1:1];
  INTEGER I, J, K, S;
  FOR I := 1 STEP 1 UNTIL 3 DO
    FOR J := 1 STEP 1 UNTIL 3 DO
      BEGIN
        A[I, J] := I + J;
        B[I, J] := I * J
      END;
  FOR I := 1 STEP 1 UNTIL 3 DO
    FOR J := 1 STEP 1 UNTIL 3 DO
      BEGIN
        S := 0;
        FOR K := 1 STEP 1 UNTIL 3 DO
          S := S + A[I, K] * B[K, J];
        C[I, J] := S
      END;
  FOR I := 1 STEP 1 UNTIL 3 DO
    BEGIN
      WRITE(LINE, <I5, I5, I5>, C[I, 1], C[I, 2], C[I, 3]);
      DIAGONAL[I - 2] := C[I, I]
    END;
  WRITE(LINE, <"TRACE", I5>,
    DIAGONAL[-1] + DIAGONAL[0] + DIAGONAL[1])
END.
