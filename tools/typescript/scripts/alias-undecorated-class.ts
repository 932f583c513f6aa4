// records: same; behaviour: same
class Bank {
  @a m() {
    return Bank;
  }
}
trace(new Bank().m());
