// records: same; behaviour: same
const one = "one";
class Keys {
  @a [one] = 1;
  @b [one + "!"]() {}
  @d [Symbol.iterator]() {}
}
trace(Object.keys(new Keys()));
