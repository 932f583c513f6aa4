// refused: 2:13 no record for OmittedExpression
let list = [, 1];
