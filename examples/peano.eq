% Addition of numbers that are written with s and z.
Symbols z: 0; s: 1; plus: 2.
For all x, y:
  plus(z, x) = x;
  plus(s(x), y) = s(plus(x, y)).
