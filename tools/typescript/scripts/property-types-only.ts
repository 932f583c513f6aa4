// records: same; behaviour: same
interface Tuned { pitch: number }
type Pair = [number, number];
abstract class Typed<T> implements Tuned {
  @a public pitch: number = 1 as number;
  declare ghost: string;
  abstract later: Pair;
  [key: string]: any;
  @b protected optional?: T;
  @c private sure!: string;
}
