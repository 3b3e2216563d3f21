% Sums, quotients and remainders. A sum past the limits stays as it is, and is told of.
Symbols add: 2; divide: 2; modulo: 2; fst: 2;
  include integer_numerals.
For all x, y:
  fst(x, y) = x;
  include addint, divint, modint.
