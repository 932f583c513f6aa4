// records: same; behaviour: same
function first() {
  trace("first evaluated");
  return (target: any, key: string, descriptor: PropertyDescriptor) => {
    trace("first called", key);
  };
}
function second() {
  trace("second evaluated");
  return (target: any, key: string, descriptor: PropertyDescriptor) => {
    trace("second called", key);
  };
}
class Patch {
  @first() @second() load() {}
}
