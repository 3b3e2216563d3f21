% One normal form, one that is too large, one that is not reached, and one past the limits.
Symbols z: 0; s: 1; plus: 2; loop: 0; add: 2;
  include integer_numerals.
For all x, y:
  plus(z, x) = x;
  plus(s(x), y) = s(plus(x, y));
  loop = loop;
  include addint.
