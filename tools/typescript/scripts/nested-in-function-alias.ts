// records: same; behaviour: same
function make(n: number) {
  @replace(`r${n}`) class Made {
    self() {
      return Made;
    }
  }
  return Made;
}
const one = make(1);
const two = make(2);
trace(new one().self(), new two().self());
