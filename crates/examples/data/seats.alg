BEGIN
  % Seats that are sold more than once. Two clerks sell what there is:
  % each looks whether a seat is free, and then takes it. Between the
  % look and the taking the other one looks too.
  % Look at how many are sold of three seats, and at what `race` says of
  % the report; under --rule=lifo the sum is right, and the race is
  % there all the same.
  FILE LINE; INTEGER SEATS; INTEGER ARRAY SOLD[1:2]; TASK T, U;

  PROCEDURE CLERK(ME); VALUE ME; INTEGER ME;
  WHILE SEATS GTR 0 DO
  BEGIN
    SEATS := SEATS - 1; SOLD[ME] := SOLD[ME] + 1
  END;

  SEATS := 3;
  PROCESS CLERK(1)[T]; PROCESS CLERK(2)[U];
  WAIT(T.EXCEPTIONEVENT); WAIT(U.EXCEPTIONEVENT);
  WRITE(LINE, <"SOLD", I3, " LEFT", I3>, SOLD[1] + SOLD[2], SEATS)
END.
