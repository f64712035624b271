BEGIN
  % A race that one step decides. Two processes add 1 to N, and nothing
  % keeps them apart. An addition is a read and a store: what the other
  % one stores between the two is lost.
  FILE LINE; INTEGER N; TASK T, U;
  PROCEDURE ADD(D); VALUE D; INTEGER D; N := N + D;
  PROCEDURE P; ADD(1);
  PROCESS P[T]; PROCESS P[U];
  WAIT(T.EXCEPTIONEVENT); WAIT(U.EXCEPTIONEVENT);
  WRITE(LINE, <I1>, N)
END.
