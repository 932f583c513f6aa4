// records: same; behaviour: same
class Bank {
  @knob(9) static size = 128;
  @knob(8) static "first name" = "init";
}
trace(Bank.size);
