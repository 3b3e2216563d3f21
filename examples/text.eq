% Strings, numerals and atoms: joined, measured and compared.
Symbols concat: 2; length: 1; equ: 2;
  include strings, integer_numerals, truth_values, atomic_symbols.
For all:
  include concatstr, lengthstr, equint, equatom, equstr.
