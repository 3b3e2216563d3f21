% Two classes of the file's own that share b: there both equations give the same.
Symbols f: 1; a: 0; b: 0; c: 0.
Classes low: a, b; high: b, c.
For all x:
  f(x) = x where x is in low end where;
  f(x) = x where x is in high end where.
