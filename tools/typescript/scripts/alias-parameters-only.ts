// records: no-alias-for-parameters; behaviour: same
class Bank {
  constructor(@cc(3) x: number) {
    trace(Bank);
  }
}
new Bank(1);
