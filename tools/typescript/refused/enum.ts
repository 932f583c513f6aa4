// refused: 2:1 no record for EnumDeclaration
enum Shape { Saw, Square }
