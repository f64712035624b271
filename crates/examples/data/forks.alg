BEGIN
  % Two dining philosophers and two forks. Each needs both, and takes
  % them in another order: where each has one, both wait: a deadlock.
  % Look at the end, ALL WAITING, and at the last entries of the
  % schedule. Under lifo it ends well; outcomes 1000 tells all ends.
  FILE LINE; EVENT LEFT, RIGHT; TASK T, U;

  PROCEDURE EAT(K, ONE, OTHER); VALUE K; INTEGER K; EVENT ONE, OTHER;
  BEGIN
    PROCURE(ONE); THRU 3 DO ; PROCURE(OTHER);
    WRITE(LINE, <I1, " EATS">, K);
    LIBERATE(OTHER); LIBERATE(ONE)
  END;

  PROCESS EAT(1, LEFT, RIGHT)[T];
  PROCESS EAT(2, RIGHT, LEFT)[U];
  WAIT(T.EXCEPTIONEVENT); WAIT(U.EXCEPTIONEVENT);
  WRITE(LINE, <"BOTH HAVE EATEN">)
END.
