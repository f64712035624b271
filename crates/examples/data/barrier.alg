BEGIN
  % A barrier for three processes, which do their rounds together. Who
  % comes first and second waits for ALL; the third lets them go by
  % CAUSEANDRESET, so that the barrier is closed again in the same
  % action, before anyone comes to it a second time. Such a pulse frees
  % only those who wait at that moment: one that has counted itself and
  % does not wait yet would miss it. So the third repeats it until both
  % have gone on, and holds the lock COUNTING meanwhile, so that nobody
  % comes for the next round. It does not wait: under lifo it is the
  % next one always, and the run has no end.
  % Look at the rounds: no process begins one before all have ended the
  % one before.
  FILE LINE;
  INTEGER HERE, PASSED, ROUND;
  EVENT COUNTING, PASSING, ALL;
  TASK ONE, TWO, THREE;

  PROCEDURE MEET;
  BEGIN
    PROCURE(COUNTING); HERE := HERE + 1;
    IF HERE LSS 3
    THEN BEGIN
      LIBERATE(COUNTING); WAIT(ALL);
      PROCURE(PASSING); PASSED := PASSED + 1; LIBERATE(PASSING)
    END
    ELSE BEGIN
      ROUND := ROUND + 1; WRITE(LINE, <"ROUND",I2>, ROUND);
      WHILE PASSED LSS 2 DO CAUSEANDRESET(ALL);
      HERE := 0; PASSED := 0; LIBERATE(COUNTING)
    END
  END;

  PROCEDURE WALK(WORK); VALUE WORK; INTEGER WORK;
  THRU 3 DO
  BEGIN
    THRU WORK DO ; MEET
  END;

  PROCESS WALK(1)[ONE]; PROCESS WALK(20)[TWO]; PROCESS WALK(40)[THREE];
  WAIT(ONE.EXCEPTIONEVENT); WAIT(TWO.EXCEPTIONEVENT);
  WAIT(THREE.EXCEPTIONEVENT);
  WRITE(LINE, <"ALL WENT",I2," ROUNDS">, ROUND)
END.
