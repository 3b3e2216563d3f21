% Refused: 0 is a numeral, so the first equation gives h(0) another value than the others.
Symbols h: 1; include integer_numerals.
For all n:
  h(n) = 1 where n is in integer_numerals end where;
  h(0) = 2;
  h(0) = 2.
