% Factorial numbers by arithmetic on numerals.
Symbols fact: 1; if: 3; equ: 2; multiply: 2; subtract: 2;
  include integer_numerals, truth_values.
For all x, y:
  if(true, x, y) = x;
  if(false, x, y) = y;
  fact(x) = if(equ(x, 0), 1, multiply(x, fact(subtract(x, 1))));
  include equint, multint, subint.
