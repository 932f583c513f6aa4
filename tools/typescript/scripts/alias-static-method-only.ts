// records: same; behaviour: same
@replace("kept") class Bank {
  static size() {
    return Bank;
  }
  other = () => Bank;
}
trace(Bank.size(), new Bank().other());
