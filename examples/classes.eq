% A variable restricted to a class of constants. Left sides may overlap where the right sides are the same.
Symbols h: 1; include integer_numerals.
For all n:
  h(n) = 1 where n is in integer_numerals end where;
  h(n) = 1 where n is in integer_numerals end where;
  h(0) = 1.
