% An array of five elements: a store and two loads.
% Look at the numbers before INDX and NXLV: an index counts from 0,
% whatever the bounds are.
SEGMENT
  MKST
  NAMC 0,4              % ARRAYS
  ONE                   % one array
  LT8 10                % its bounds, 10 and 14
  LT8 14
  ENTR                  % its descriptor stands where the mark was
  PUSH                  % and is cell 2,2
  LT8 3                 % an index counts from 0, so this is the element 13
  NAMC 2,2
  INDX                  % a copy of the descriptor that names the element
  LT8 77
  STOD                  % 77 is stored there
  MKST
  NAMC 0,7
  ZERO
  LT8 3
  NAMC 2,2
  NXLV                  % the element itself
  LT8 4
  NAMC 2,2
  INDX
  LOAD                  % the same in two steps, of the element 14
  ENTR
  EXIT                  % the row is closed
FORMAT <I4,I4>
