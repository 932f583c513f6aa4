// records: no-alias-for-parameters; behaviour: same; errors: 2506
let later: () => any;
function keep(f: () => any) {
  later = f;
  return Object;
}
class Bank extends keep(() => Bank) {
  constructor(@cc(3) x: number) {
    super();
  }
}
trace(later());
