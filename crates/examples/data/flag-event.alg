BEGIN
  % The letter again, with an event in place of the flag. The reader
  % waits until SENT is caused. So it has no entry meanwhile, and what
  % the writer did before CAUSE is before what the reader does after
  % WAIT.
  % Look at the schedule under --rule=lifo, where the reader comes first
  % and has one entry until it is let go on, and at what `race` says:
  % there is none.
  FILE LINE; INTEGER LETTER; EVENT SENT; TASK T, U;

  PROCEDURE WRITER;
  BEGIN
    LETTER := 42; CAUSE(SENT)
  END;

  PROCEDURE READER;
  BEGIN
    WAIT(SENT);
    WRITE(LINE, <I4>, LETTER)
  END;

  PROCESS WRITER[T]; PROCESS READER[U];
  WAIT(T.EXCEPTIONEVENT); WAIT(U.EXCEPTIONEVENT)
END.
