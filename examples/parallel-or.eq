% Refused: neither argument can be looked at first.
Symbols or: 2; include truth_values.
For all x:
  or(true, x) = true;
  or(x, true) = true.
