% The greatest number that divides 1071 and 462, by remainders.
% Look at the two labels: BRUN always goes back to the one, and BRTR
% goes on to the other where B is 0.
SEGMENT
  LT16 1071             % cell 2,2: A
  LT16 462              % cell 2,3: B
  PUSH
AGAIN:                  % the place of the next operator
  VALC 2,3
  ZERO
  EQUL
  BRTR READY            % where B is 0
  VALC 2,2
  VALC 2,3
  RDIV                  % the remainder of A by B stays on the stack
  NAMC 2,2
  VALC 2,3
  STOD                  % A becomes B
  NAMC 2,3
  EXCH
  STOD                  % B becomes the remainder
  BRUN AGAIN
READY:
  MKST
  NAMC 0,7
  ZERO
  VALC 2,2
  ENTR
  EXIT
FORMAT <"THE DIVISOR IS ",I2>
