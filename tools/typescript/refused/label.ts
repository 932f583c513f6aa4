// refused: 2:1 no record for LabeledStatement
here: {}
