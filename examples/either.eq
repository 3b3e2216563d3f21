% One equation that stands for two, by the alternatives of x.
Symbols a: 0; b: 0; s: 1; f: 1; g: 1.
For all x, y:
  f(x) = g(x) where x is either a or s(y) end or end where.
