// records: same; behaviour: same
@replace("kept") export default class Voice {
  static make() {
    return Voice;
  }
}
trace(Voice.make());
