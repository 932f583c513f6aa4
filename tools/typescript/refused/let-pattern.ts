// refused: 2:5 a pattern
let [x, y] = [1, 2];
