BEGIN
  % The seats again, with a desk. A clerk has the desk while it looks and
  % takes, so that what it has seen is so when it takes.
  % Look at the sum, which is three under every rule, and at what `race`
  % says: each LIBERATE orders what was done before it before what is
  % done after the next PROCURE.
  FILE LINE; INTEGER SEATS; INTEGER ARRAY SOLD[1:2]; EVENT DESK;
  TASK T, U;

  PROCEDURE CLERK(ME); VALUE ME; INTEGER ME;
  BEGIN
    BOOLEAN OPEN;
    OPEN := TRUE;
    WHILE OPEN DO
    BEGIN
      PROCURE(DESK);
      IF SEATS GTR 0 THEN
      BEGIN
        SEATS := SEATS - 1; SOLD[ME] := SOLD[ME] + 1
      END
      ELSE OPEN := FALSE;
      LIBERATE(DESK)
    END
  END;

  SEATS := 3;
  PROCESS CLERK(1)[T]; PROCESS CLERK(2)[U];
  WAIT(T.EXCEPTIONEVENT); WAIT(U.EXCEPTIONEVENT);
  WRITE(LINE, <"SOLD", I3, " LEFT", I3>, SOLD[1] + SOLD[2], SEATS)
END.
