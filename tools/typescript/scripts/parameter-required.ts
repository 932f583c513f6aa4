// records: same; behaviour: same
const required = new Map();
function need(target: any, key: string, index: number) {
  required.set(key, (required.get(key) || []).concat(index));
}
function validate(target: any, key: string, descriptor: PropertyDescriptor) {
  trace("needed", required.get(key));
  const old = descriptor.value;
  descriptor.value = function (...rest: any[]) {
    if (required.get(key).some((i: number) => rest[i] === undefined)) {
      throw new Error("missing");
    } else {
      return old.apply(this, rest);
    }
  };
}
class Voice {
  @validate play(@need note: number, velocity?: number, @need length?: number) {
    return note;
  }
}
trace(new Voice().play(60, 1, 2));
