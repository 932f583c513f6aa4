// records: same; behaviour: same
class Values {
  @a list = [1, 2, ...[3]];
  @a map = { x: 1, "y z": 2, ["w"]: 3, twice(n: number) { return n * 2; } };
  @a text = `a${1 + 1}b`;
  @a choice = 1 < 2 ? "yes" : null;
  @a nothing = void 0;
  @a make = (n: number) => n ** 2;
  @a readonly fixed = -1.5;
}
const v = new Values();
trace(v.list, v.map.twice(4), v.text, v.choice, v.nothing, v.make(3), v.fixed);
