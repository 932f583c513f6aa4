// records: same; behaviour: same
declare function knob(slot: number): any;
declare function cc(controller: number): any;

// The class itself is registered and so are its constructor's parameters: it becomes a let, and the export follows the assignment.
@cc(20)
export class Filter {
  #cutoff: number;
  constructor(@cc(21) cutoff: number, @cc(22) resonance = 0.3) {
    this.#cutoff = cutoff * resonance;
  }

  @knob(4) get cutoff() {
    return this.#cutoff;
  }
  set cutoff(value) {
    this.#cutoff = value;
  }
}
