% Breaks of four restrictions: a variable twice at the left (1), one at the right alone (6), two equations for
% g(0, 1) (2, 3), and a left side that lies in another one (4, 5).
Symbols if: 3; g: 2; first: 1; pred: 1; succ: 1; h: 1; k: 1; c: 0;
  include integer_numerals.
For all x, y:
  if(x, y, y) = y;
  g(0, x) = 0;
  g(x, 1) = 1;
  first(pred(x)) = c;
  pred(succ(x)) = x;
  h(x) = k(y).
