// records: same; behaviour: same
@a class Bank {
  m() {
    let Bank = 1;
    return Bank;
  }
  n(Bank: number) {
    return Bank;
  }
}
trace(new Bank().m(), new Bank().n(2));
