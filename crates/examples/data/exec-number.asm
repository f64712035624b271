% A number on a line: a mark, the intrinsic WRITE, a format, an item.
% Look at ENTR: it takes all from the mark on off the stack.
SEGMENT                   % the base frame of process 1
MKST                      % a mark for the call of WRITE
NAMC 0,7                  % the intrinsic WRITE
ZERO                      % the number of the format
LT8 42                    % the item
ENTR
EXIT
FORMAT <I5>
