// records: same; behaviour: same
declare function knob(slot: number): any;
declare function cc(controller: number): any;

// Decorators made by a function of the script, and keys that are computed: each key is kept in a variable for its call.
function macro(slot: number, controller: number) {
  return (target: object, key: string) => {
    knob(slot)(target, key);
    cc(controller)(target, key);
  };
}

let voice = "voice";

export class Macro {
  @macro(7, 74) [voice + 1]() {
    return 1;
  }
  @macro(8, 75) [voice + 2]() {
    return 2;
  }
}
