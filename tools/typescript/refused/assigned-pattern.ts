// refused: 4:2 a pattern
let x = 1;
let y = 2;
([x, y] = [y, x]);
