% Lists, in the notation LISP.M: (x . y) is cons[x; y], and () is nil. Run with --syntax=lisp.m.
Symbols cons: 2; nil: 0; append: 2; include integer_numerals.
For all x, y, z:
  append[(); y] = y;
  append[(x . y); z] = (x . append[y; z]).
