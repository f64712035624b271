BEGIN
  % A lock that is tried. FIX(LOCK) takes it where it is free, and gives
  % FALSE then; where another has it, it gives TRUE and does not wait,
  % so that the process can do something else and try again. PROCURE
  % would wait. AVAILABLE tells whether the lock is free, and takes
  % nothing: by the time that it is acted on, the answer may be old.
  % Look at SHARED: both have been at it, one after the other.
  FILE LINE;
  INTEGER SHARED, MEANWHILE;
  EVENT LOCK;
  TASK HOLDING, TRYING;

  PROCEDURE HOLDER;
  BEGIN
    INTEGER OLD;
    PROCURE(LOCK);
    OLD := SHARED; THRU 20 DO ; SHARED := OLD + 1;
    LIBERATE(LOCK)
  END;

  PROCEDURE TRIER;
  BEGIN
    WHILE FIX(LOCK) DO MEANWHILE := MEANWHILE + 1;
    SHARED := SHARED * 10;
    LIBERATE(LOCK)
  END;

  IF AVAILABLE(LOCK) THEN WRITE(LINE, <"FREE">);
  IF FIX(LOCK) THEN WRITE(LINE, <"TAKEN BY ANOTHER">)
  ELSE WRITE(LINE, <"TAKEN HERE">);
  IF FIX(LOCK) THEN WRITE(LINE, <"NOT TAKEN TWICE">);
  LIBERATE(LOCK);
  PROCESS HOLDER[HOLDING]; PROCESS TRIER[TRYING];
  WAIT(HOLDING.EXCEPTIONEVENT); WAIT(TRYING.EXCEPTIONEVENT);
  WRITE(LINE, <"SHARED",I3>, SHARED);
  IF MEANWHILE GTR 0 THEN WRITE(LINE, <"TRIED MORE THAN ONCE">)
END.
