// records: same; behaviour: same
class Voice {
  play(this: Voice, @a note: number, @b velocity = 100, @c ...rest: number[]) {
    return velocity + rest.length;
  }
}
trace(new Voice().play(1, undefined, 3, 4));
