// records: same; behaviour: differs
class Factory {
  make(n: number) {
    @replace(`r${n}`) class Made {
      self() {
        return Made;
      }
    }
    return Made;
  }
}
const one = new Factory().make(1);
const two = new Factory().make(2);
trace(new one().self(), new two().self());
