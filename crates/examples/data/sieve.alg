BEGIN
  % The sieve of Eratosthenes, in an array of truth values. A number
  % that is crossed out is a multiple of a smaller one; what is left is
  % prime.
  % Look at the FOR whose step is a variable: it is read anew at each
  % turn. The WHILE ends at the square root.
  FILE LINE;
  BOOLEAN ARRAY CROSSED[2:50];
  INTEGER P, K, COUNT;
  P := 2;
  WHILE P * P LEQ 50 DO
  BEGIN
    IF NOT CROSSED[P] THEN
      FOR K := P * P STEP P UNTIL 50 DO CROSSED[K] := TRUE;
    P := P + 1
  END;
  FOR K := 2 STEP 1 UNTIL 50 DO
    IF NOT CROSSED[K] THEN
    BEGIN
      COUNT := COUNT + 1; WRITE(LINE, <I3, I4>, COUNT, K)
    END
END.
