// records: same; behaviour: same
declare function knob(slot: number): any;
declare function cc(controller: number): any;

// Three knobs, one of them also on a controller, and a method whose parameters are controlled.
class Oscillator {
  @knob(1) pitch = 440;
  @knob(2) @cc(70) shape = 0.5;
  @knob(3) gain = 1;

  tune(@cc(71) coarse: number, @cc(72) fine: number) {
    this.pitch = coarse + fine;
  }
}
