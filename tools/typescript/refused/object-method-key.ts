// refused: 2:14 a computed key of an object's method
let shown = {[see("x")]() {}};
