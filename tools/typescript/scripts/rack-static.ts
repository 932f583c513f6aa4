// records: member-order; behaviour: order
@cc(1) class Mixer {
  @knob(1) static master = 1;
  @knob(2) left = 1;
  @knob(3) @cc(7) static limit = 1;
  @knob(4) right = 1;
}
