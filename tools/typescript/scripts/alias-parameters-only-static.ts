// records: no-alias-for-parameters; behaviour: same
class Bank {
  static first = new Bank(1);
  constructor(@cc(3) x: number) {}
}
trace(Bank.first);
