BEGIN
  % The five operators of truth values, in a table of all cases, and a
  % law that holds in each of them.
  % Look at the FOR that counts down: P and Q are the two binary digits
  % of ROW.
  FILE LINE(KIND=PRINTER);
  INTEGER ROW;
  BOOLEAN P, Q, LAW;
  LAW := TRUE;
  WRITE(LINE, <"P Q NOT AND  OR IMP EQV">);
  FOR ROW := 3 STEP -1 UNTIL 0 DO
    BEGIN
      P := ROW DIV 2 = 1;
      Q := ROW MOD 2 = 1;
      WRITE(LINE, <I1, I2, I4, I4, I4, I4, I4>,
        IF P THEN 1 ELSE 0, IF Q THEN 1 ELSE 0, IF NOT P THEN 1 ELSE 0,
        IF P AND Q THEN 1 ELSE 0, IF P OR Q THEN 1 ELSE 0,
        IF P IMP Q THEN 1 ELSE 0, IF P EQV Q THEN 1 ELSE 0);
      LAW := LAW AND ((P IMP Q) EQV (NOT Q IMP NOT P))
    END;
  IF LAW THEN WRITE(LINE, <"CONTRAPOSITION HOLDS">)
  ELSE WRITE(LINE, <"CONTRAPOSITION FAILS">)
END.
