// records: alias-outside-body; behaviour: same
@a class Bank {
  kind: typeof Bank;
}
