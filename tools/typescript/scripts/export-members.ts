// records: same; behaviour: same
export class Voice {
  @knob(1) gain = 1;
}
export let count = 2;
export function make() {
  return new Voice();
}
