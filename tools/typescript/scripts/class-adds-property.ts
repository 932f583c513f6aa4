// records: same; behaviour: same
function versioned<T extends { new (...rest: any[]): {} }>(base: T) {
  return class extends base {
    version = 4;
  };
}
@versioned
class Patch {
  title = "lead";
}
trace(Object.keys(new Patch()));
