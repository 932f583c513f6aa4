// records: same; behaviour: same
class Module {
  @knob() level = 1;
}
@cc(1) class Lfo extends Module {
  @knob() rate = 2;
  @knob() get phase() {
    return 0;
  }
}
@cc(2) export default class Env extends Module {
  @knob() ["attack"] = 3;
  @knob() [`decay`] = 4;
}
