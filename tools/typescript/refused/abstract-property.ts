// refused: 3:3 a decorated property that is abstract or declare
abstract class Voice {
  @a abstract note: number;
}
