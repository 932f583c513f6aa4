// refused: 2:1 no record for WhileStatement
while (see(false)) {}
