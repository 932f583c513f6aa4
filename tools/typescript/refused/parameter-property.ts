// refused: 3:15 a parameter that declares a property
class Voice {
  constructor(@a private note: number) {}
}
