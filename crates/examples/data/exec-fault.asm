% 12 by 3, by 2, by 1 and by 0: the last division is a fault.
% Look at the lines: what was written before the fault stays written.
SEGMENT
  LT8 3                 % cell 2,2: the divisor
  PUSH
AGAIN:
  MKST
  NAMC 0,7
  ZERO
  LT8 12
  VALC 2,2
  DIVD
  ENTR
  NAMC 2,2
  VALC 2,2
  ONE
  SUBT
  STOD
  BRUN AGAIN
FORMAT <I3>
