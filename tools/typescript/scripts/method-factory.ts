// records: same; behaviour: same
function enumerable(value: boolean) {
  return function (target: any, key: string, descriptor: PropertyDescriptor) {
    descriptor.enumerable = value;
  };
}
class Patch {
  @enumerable(true) load() {}
  @enumerable(false) store() {}
}
trace(Object.keys(Patch.prototype));
