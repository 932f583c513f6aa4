// records: same; behaviour: same
function control(slot: number, number: number) {
  return (target: any, key: string) => {
    knob(slot)(target, key);
    cc(number)(target, key);
  };
}
const range = (from: number) => ({ first: control(from, from + 70), second: control(from + 1, from + 71) });
const length = [1, 2, 3].length;
class Voice {
  @(range(4).first) attack = 1;
  @(range(4).second) decay = 2;
  @control(length, 90) release = 3;
}
