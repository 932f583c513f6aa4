// refused: 2:7 no record for TaggedTemplateExpression
trace(see`x`);
