// records: same; behaviour: same; errors: 2629
@a class Bank {
  static drop() {
    Bank = null;
  }
  static get() {
    return Bank;
  }
}
const kept = Bank;
Bank.drop();
trace(kept.get());
