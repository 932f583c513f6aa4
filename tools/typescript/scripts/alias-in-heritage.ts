// records: alias-outside-body; behaviour: differs; errors: 2506
let later: () => any;
function keep(f: () => any) {
  later = f;
  return Object;
}
@replace("kept") class Bank extends keep(() => Bank) {}
trace(later());
