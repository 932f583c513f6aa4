// records: same; behaviour: same
class Envelope {
  #attack = 5;
  @wrap("ms") get attack() {
    return this.#attack;
  }
  set attack(value) {
    this.#attack = value;
  }
}
const e = new Envelope();
e.attack = 7;
trace(e.attack);
