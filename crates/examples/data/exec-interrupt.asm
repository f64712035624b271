% A reference where a number has to stand: NAMC in place of VALC.
% Look at the end: an interrupt is not counted, and says that the code
% makes no sense.
SEGMENT
  LT8 41                % cell 2,2
  PUSH
  MKST
  NAMC 0,7
  ZERO
  VALC 2,2              % the value of the cell
  ONE
  ADD
  ENTR
  MKST
  NAMC 0,7
  ZERO
  NAMC 2,2              % a reference to the cell
  ONE
  ADD                   % a reference is no operand
  ENTR
  EXIT
FORMAT <I3>
