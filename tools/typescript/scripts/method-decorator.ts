// records: same; behaviour: same
class Voice {
  @wrap("loud") play(note: number) {
    return note + 1;
  }
}
trace(new Voice().play(60));
