% Application as a symbol: left sides that are nested to the left.
Symbols AP: 2; S: 0; K: 0; q: 0.
For all x, y, z:
  AP(AP(AP(S, x), y), z) = AP(AP(x, z), AP(y, z));
  AP(AP(K, x), y) = x.
