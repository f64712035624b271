BEGIN
  % Three divisions. DIV cuts the quotient off towards zero, MOD gives
  % what is left, with the sign of the dividend, and / gives a quotient
  % where it is whole and is a fault where it is not.
  % Look at the signs, and at the end: of the last line nothing is
  % written.
  FILE LINE;

  PROCEDURE SHOW(A, B); VALUE A, B; INTEGER A, B;
    WRITE(LINE, <I3, " DIV", I3, " IS", I3, ", MOD IS", I3>,
      A, B, A DIV B, A MOD B);

  SHOW(17, 5); SHOW(-17, 5); SHOW(17, -5); SHOW(-17, -5);
  WRITE(LINE, <"18 / 6 IS", I2>, 18 / 6);
  WRITE(LINE, <"17 / 5 IS", I2>, 17 / 5)
END.
