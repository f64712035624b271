BEGIN
  % A flag that is looked at again and again. The writer stores a letter
  % and then the flag; the reader looks at the flag until it is set, and
  % then reads the letter. It reads what was written under every
  % schedule, and yet nothing orders the two: what orders are events.
  % Look at the two races, of the flag and of the letter, and at the run
  % under --rule=lifo, which has no end: only the reader is taken.
  FILE LINE; INTEGER LETTER; BOOLEAN SENT; TASK T, U;

  PROCEDURE WRITER;
  BEGIN
    LETTER := 42; SENT := TRUE
  END;

  PROCEDURE READER;
  BEGIN
    WHILE NOT SENT DO ;
    WRITE(LINE, <I4>, LETTER)
  END;

  PROCESS WRITER[T]; PROCESS READER[U];
  WAIT(T.EXCEPTIONEVENT); WAIT(U.EXCEPTIONEVENT)
END.
