// records: alias-block; behaviour: differs
@replace("tuned")
class Osc {
  static first = new Osc();
}
trace(Osc.first);
