BEGIN
  % A time-out by a second event. The work is done by one process, and a
  % clock is another, which counts its turns and then causes LATE. The
  % first waits for whichever comes first; what comes second finds
  % nobody waiting. Who is too slow depends on the dispatch rule, and on
  % one processor only the rule decides.
  % Look at the lines, and at those under --rule=lifo.
  FILE LINE;
  TASK WORKING, CLOCK;
  EVENT DONE, LATE;

  PROCEDURE WORK(STEPS); VALUE STEPS; INTEGER STEPS;
  BEGIN
    INTEGER J, S;
    FOR J := 1 STEP 1 UNTIL STEPS DO S := S + J;
    CAUSE(DONE)
  END;

  PROCEDURE TICK(TURNS); VALUE TURNS; INTEGER TURNS;
  BEGIN
    THRU TURNS DO ;
    CAUSE(LATE)
  END;

  PROCEDURE TRY(STEPS); VALUE STEPS; INTEGER STEPS;
  BEGIN
    RESET(DONE); RESET(LATE);
    PROCESS WORK(STEPS)[WORKING]; PROCESS TICK(60)[CLOCK];
    IF WAIT(DONE, LATE) = 1
    THEN WRITE(LINE, <I3," STEPS ARE DONE">, STEPS)
    ELSE WRITE(LINE, <I3," STEPS ARE TOO MANY">, STEPS);
    WAIT(WORKING.EXCEPTIONEVENT); RESET(WORKING.EXCEPTIONEVENT);
    WAIT(CLOCK.EXCEPTIONEVENT); RESET(CLOCK.EXCEPTIONEVENT)
  END;

  TRY(2); TRY(8); TRY(50)
END.
