BEGIN
  % The race with a gate. GATE is available at first. The process that
  % procures it has it; another one that procures it waits until it is
  % liberated. So between the read and the store of one process no
  % other one adds.
  % Look at the sum, which is the same under every rule, and at the
  % schedule, where a process that waits for the gate has no entry.
  FILE LINE; INTEGER N; EVENT GATE; TASK T, U;

  PROCEDURE ADD(D); VALUE D; INTEGER D;
  THRU 3 DO
  BEGIN
    PROCURE(GATE); N := N + D; LIBERATE(GATE)
  END;

  PROCESS ADD(1)[T]; PROCESS ADD(10)[U];
  WAIT(T.EXCEPTIONEVENT); WAIT(U.EXCEPTIONEVENT);
  WRITE(LINE, <"N IS", I4>, N)
END.
