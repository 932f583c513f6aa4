// refused: 2:1 a var statement
var x = 1;
