% The rest of the list is never looked at, so car(cons(a, loop)) has a normal form.
Symbols a: 0; cons: 2; car: 1; loop: 0.
For all x, y:
  car(cons(x, y)) = x;
  loop = loop.
