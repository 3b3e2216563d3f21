% The left side f(x, a) asks for the second argument alone, so f(loop, b) has a normal form.
Symbols a: 0; b: 0; c: 0; f: 2; loop: 0.
For all x:
  f(x, a) = c;
  b = a;
  loop = loop.
