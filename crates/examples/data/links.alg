BEGIN
  % Two links. A call leads back to where it was made, but a name is
  % looked up where the procedure is declared. TELL is called from three
  % places, two of which have an N of their own, and sees the outer one
  % each time.
  % Look at the three lines: were N the caller's, the second one would
  % have 20, and the third one 30.
  FILE LINE; INTEGER N;

  PROCEDURE TELL;
    WRITE(LINE, <"N IS", I3>, N);

  PROCEDURE INNER;
  BEGIN
    INTEGER N;
    N := 20; TELL
  END;

  N := 10; TELL;
  INNER;
  BEGIN
    INTEGER N;
    N := 30; TELL
  END
END.
