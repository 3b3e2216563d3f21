% A right side that has its variable twice.
Symbols d: 1; p: 2; w: 0; z: 0.
For all x:
  d(x) = p(x, x);
  w = z.
