% Two processes and an event: process 1 waits until process 2 has
% stored a number.
% Look at WAIT and CAUSE: process 1 is not able until process 2 has
% caused the event.
SEGMENT
  MKST
  NAMC 0,5              % EVENT
  ENTR                  % the event word stands where the mark was
  PUSH                  % and is cell 2,2
  ZERO                  % cell 2,3: the number
  MPCW 001000018000     % cell 2,4: the procedure of process 2
  PUSH
  MKST
  NAMC 0,6              % START
  NAMC 2,4
  ZERO                  % it has no task
  ENTR                  % process 2 begins
  MKST
  NAMC 0,8              % WAIT
  NAMC 2,2
  ENTR                  % process 1 waits here
  MKST
  NAMC 0,7
  ZERO
  VALC 2,3
  ENTR
  EXIT
SEGMENT
LEVEL 3
  NAMC 2,3              % the cell of process 1
  LT8 42
  STOD
  MKST
  NAMC 0,9              % CAUSE
  NAMC 2,2
  ENTR                  % process 1 is able again
  EXIT
FORMAT <"PROCESS 2 LEFT",I3>
