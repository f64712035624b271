% Two frames made by hand: a block's, which EXIT leaves, and a
% function's, which RETN leaves.
% Look at the two ways back: EXIT leaves nothing, RETN leaves a value
% where the mark was.
SEGMENT                 % segment 0: the outer block, at level 2
  ZERO                  % cell 2,2: a variable
  MPCW 002000018000     % cell 2,3: the function, in segment 2 from place 0 on, of level 3
  PUSH                  % the two words become cells
  MKST                  % the mark of the block's frame
  MPCW 001000018000     % above it the word of the block, in segment 1
  ENTR                  % the block is entered, and comes back to the next line
  MKST                  % a mark for WRITE
  NAMC 0,7
  ZERO
  MKST                  % a mark for the function, while the call of WRITE is open
  NAMC 2,3
  VALC 2,2              % its argument
  ENTR                  % the function is entered, and leaves its result
  ENTR                  % the line is written
  EXIT
SEGMENT                 % segment 1: the block
LEVEL 3
  LT8 6                 % cell 3,2: a variable of the block
  PUSH
  NAMC 2,2
  VALC 3,2
  ONE
  ADD
  STOD                  % one more than it is stored in the outer block's variable
  EXIT
SEGMENT                 % segment 2: the function; its argument is its cell 3,2
LEVEL 3
  VALC 3,2
  DUPL
  MULT
  RETN                  % the square
FORMAT <I3>
