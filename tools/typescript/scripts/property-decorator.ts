// records: same; behaviour: same
class Filter {
  @knob(1) cutoff = 440;
  @knob(2) resonance: number;
}
trace(Object.keys(new Filter()));
