// records: idle-key; behaviour: same; errors: 1206
class Outer {
  m(x: any = class {
    @a [see("k")]() {}
  }) {
    return x;
  }
}
trace(new Outer().m(), new Outer().m(1));
