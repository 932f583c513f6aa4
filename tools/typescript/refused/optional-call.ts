// refused: 2:12 an optional chain
let call = see?.(1);
