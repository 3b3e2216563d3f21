% Refused: inside f(g(x, a), y) it is not known whether x may be left alone, or is needed for g(b, c).
Symbols a: 0; b: 0; c: 0; f: 2; g: 2.
For all x, y:
  f(g(x, a), y) = x;
  g(b, c) = b.
