BEGIN
  % A block that is left too early. The inner block holds the procedure
  % and the variable of a process, and its END comes while that process
  % lives: its stack would grow out of a frame that is gone.
  % Look at the end, which is a fault of process 1, and at the line that
  % was written before.
  FILE LINE; TASK T;
  BEGIN
    INTEGER I;
    PROCEDURE COUNT;
      THRU 20 DO I := I + 1;
    PROCESS COUNT[T];
    WRITE(LINE, <"COUNTED TO", I3>, I)
  END;
  WRITE(LINE, <"THE BLOCK IS LEFT">)
END.
