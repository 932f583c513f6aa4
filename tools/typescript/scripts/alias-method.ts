// records: same; behaviour: same
@replace("tuned")
class Osc {
  static make() {
    return new Osc();
  }
}
trace(Osc.make(), Osc);
