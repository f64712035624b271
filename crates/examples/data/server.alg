BEGIN
  % A server that waits for two clients at once. WAIT(ADDING, ASKING)
  % tells which of them has called; neither is served before it has
  % called, and while the server waits it stands in the queues of both
  % events. A client takes the line for itself by PROCURE, calls by
  % CAUSE, and waits for the answer.
  % Look at the sums that are told: they depend on who called first.
  FILE LINE;
  INTEGER SUM, GIVEN, CALLS;
  EVENT ADDING, ASKING, ANSWERED, FREE;
  TASK SERVED, LEFT, RIGHT;

  PROCEDURE SERVER;
  WHILE CALLS LSS 6 DO
  BEGIN
    CASE WAIT(ADDING, ASKING) - 1 OF
    BEGIN
      BEGIN RESET(ADDING); SUM := SUM + GIVEN END;
      BEGIN RESET(ASKING); WRITE(LINE, <"THE SUM IS",I4>, SUM) END
    END;
    CALLS := CALLS + 1; CAUSE(ANSWERED)
  END;

  PROCEDURE CALL(WHOM); EVENT WHOM;
  BEGIN
    CAUSE(WHOM); WAIT(ANSWERED); RESET(ANSWERED)
  END;

  PROCEDURE ADDER;
  BEGIN
    INTEGER I;
    FOR I := 1 STEP 1 UNTIL 3 DO
    BEGIN
      PROCURE(FREE); GIVEN := I * I; CALL(ADDING); LIBERATE(FREE)
    END
  END;

  PROCEDURE ASKER;
  THRU 3 DO
  BEGIN
    PROCURE(FREE); CALL(ASKING); LIBERATE(FREE)
  END;

  PROCESS SERVER[SERVED]; PROCESS ADDER[LEFT]; PROCESS ASKER[RIGHT];
  WAIT(LEFT.EXCEPTIONEVENT); WAIT(RIGHT.EXCEPTIONEVENT);
  WAIT(SERVED.EXCEPTIONEVENT);
  WRITE(LINE, <"AND AT THE END",I4>, SUM)
END.
