% A call across levels. P and R are procedures of the outer block, Q
% is one of P. P calls Q, and Q calls R.
% Look at the couple 3,2: in Q it is P's parameter, and in R it is R's
% own.
SEGMENT                 % segment 0: the outer block, at level 2
  LT8 100               % cell 2,2: N
  MPCW 001000018000     % cell 2,3: P, in segment 1, of level 3
  MPCW 003000018000     % cell 2,4: R, in segment 3, of level 3
  PUSH
  MKST
  NAMC 2,3
  LT8 10
  ENTR                  % P(10)
  EXIT
SEGMENT                 % segment 1: P, whose parameter is 3,2
LEVEL 3
  MPCW 002000020000     % cell 3,3: Q, in segment 2, of level 4
  PUSH
  MKST
  NAMC 3,3
  ONE
  ENTR                  % Q(1)
  EXIT
SEGMENT                 % segment 2: Q, whose parameter is 4,2
LEVEL 4
  MKST
  NAMC 0,7
  ZERO
  VALC 2,2              % the first item: N of the outer block, P's parameter, its own
  VALC 3,2
  ADD
  VALC 4,2
  ADD
  MKST
  NAMC 2,4
  LT8 5
  ENTR                  % the second item: R(5)
  VALC 3,2              % the third item: P's parameter again
  ENTR
  EXIT
SEGMENT                 % segment 3: R, whose parameter is 3,2 as P's is
LEVEL 3
  VALC 2,2
  VALC 3,2
  ADD
  RETN
FORMAT <I5,I5,I5>
