// records: same; behaviour: same
function configurable(value: boolean) {
  return function (target: any, key: string, descriptor: PropertyDescriptor) {
    descriptor.configurable = value;
  };
}
class Point {
  #x = 1;
  @configurable(false) get x() {
    return this.#x;
  }
}
trace(Object.getOwnPropertyDescriptor(Point.prototype, "x").configurable, new Point().x);
