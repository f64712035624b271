BEGIN
  % A ring of three. Each process waits for its own turn, takes it back
  % by RESET, and causes that of the next one.
  % Look at the order of the lines: it is the same under every rule and
  % on any number of processors, since only one of the three has its
  % turn at any moment.
  FILE LINE; EVENT FIRST, SECOND, THIRD; TASK T, U, V;

  PROCEDURE MEMBER(K, MINE, NEXT); VALUE K; INTEGER K;
    EVENT MINE, NEXT;
  THRU 2 DO
  BEGIN
    WAIT(MINE); RESET(MINE);
    WRITE(LINE, <"TURN OF", I2>, K);
    CAUSE(NEXT)
  END;

  PROCESS MEMBER(1, FIRST, SECOND)[T];
  PROCESS MEMBER(2, SECOND, THIRD)[U];
  PROCESS MEMBER(3, THIRD, FIRST)[V];
  CAUSE(FIRST);
  WAIT(T.EXCEPTIONEVENT); WAIT(U.EXCEPTIONEVENT);
  WAIT(V.EXCEPTIONEVENT)
END.
