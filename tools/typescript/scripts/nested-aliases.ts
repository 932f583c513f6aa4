// records: same; behaviour: same
@replace("o") class Outer {
  make() {
    @replace("i") class Inner {
      both() {
        return [Outer, Inner];
      }
    }
    return new Inner().both();
  }
}
trace(new Outer().make());
