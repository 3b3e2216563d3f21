% Lists: their sum, and their elements in the other order.
Symbols cons: 2; nil: 0; sum: 1; rev: 1; onto: 2; add: 2;
  include integer_numerals.
For all x, y, z:
  rev(x) = onto(x, nil);
  onto(nil, y) = y;
  onto(cons(x, y), z) = onto(y, cons(x, z));
  sum(nil) = 0;
  sum(cons(x, y)) = add(x, sum(y));
  include addint.
