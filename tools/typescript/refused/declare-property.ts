// refused: 3:3 a decorated property that is abstract or declare
class Voice {
  @a declare note: number;
}
