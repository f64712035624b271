% The sum of three numbers, on a line.
% Look at the stack: numbers are pushed, and ADD takes two off and
% leaves one.
SEGMENT                 % segment 0: process 1 begins here, at level 2
  MKST                  % a mark for the call of WRITE
  NAMC 0,7              % WRITE is cell 7 of stack 0
  ZERO                  % the number of the format
  LT8 17                % the item: 17 and 20 and 5
  LT8 20
  ADD
  LT8 5
  ADD
  ENTR                  % the line is written, and all from the mark on is dropped
  EXIT                  % the base frame is left: the process has ended
FORMAT <"THE SUM IS",I4>
