// records: alias-block; behaviour: differs
@a class Bank {
  static slots: number[] = [];
  static {
    Bank.slots.push(1);
  }
}
trace(Bank.slots);
