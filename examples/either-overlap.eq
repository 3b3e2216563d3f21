% Refused: the first equation stands for one with f(a), which overlaps the second.
Symbols a: 0; b: 0; c: 0; d: 0; f: 1.
For all x:
  f(x) = c where x is either a or b end or end where;
  f(a) = d.
