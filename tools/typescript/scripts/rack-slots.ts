// records: same; behaviour: same
@cc(0)
class Oscillator {
  @knob(1) pitch = 440;
  @knob(2) @cc(71) shape = 0.5;
  @knob(3) gain = 1;
  tune(@cc(72) coarse: number, @cc(73) fine: number) {}
}
