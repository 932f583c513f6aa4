// records: alias-block; behaviour: same
@replace("kept") class Bank {
  static count = 1;
  self() {
    return Bank;
  }
}
trace(new Bank().self());
