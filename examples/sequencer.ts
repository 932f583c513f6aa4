// records: alias-block, member-order; behaviour: differs
declare function knob(slot: number): any;
declare function cc(controller: number): any;

// The class names itself: inside it an alias stands for it, which is assigned before the static block runs.
@cc(30)
export default class Sequencer {
  static all: Sequencer[] = [];
  static {
    Sequencer.all.push(new Sequencer());
  }

  @knob(5) static tempo = 120;
  @knob(6) steps = 16;

  copy() {
    return new Sequencer();
  }
}
