// refused: 2:1 no record for SwitchStatement
switch (see(1)) {}
