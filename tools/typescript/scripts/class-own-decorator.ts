// records: same; behaviour: same
function sealed(target: Function) {
  Object.seal(target);
  Object.seal(target.prototype);
}
@sealed
class Patch {
  title: string;
  constructor(title: string) {
    this.title = title;
  }
}
trace(Object.isSealed(Patch), new Patch("pad").title);
