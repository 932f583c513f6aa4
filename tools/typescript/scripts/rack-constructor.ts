// records: same; behaviour: same
@cc(10)
export class Sequencer {
  steps: number;
  constructor(@cc(11) @knob() steps: number, clock: number, @cc(12) @knob() swing = 0.5) {
    this.steps = steps;
  }
  @knob() @cc(13) start(@knob() at: number) {}
}
trace(new Sequencer(16, 1).steps);
