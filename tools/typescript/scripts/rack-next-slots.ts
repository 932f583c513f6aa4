// records: same; behaviour: same
class Filter {
  @knob() cutoff = 440;
  @knob() resonance = 0.3;
  @knob() @knob() drive = 0;
}
class Delay {
  @knob() time = 1;
  @knob() feedback = 0.4;
}
