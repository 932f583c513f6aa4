// records: same; behaviour: same
let mixin = (base: any) => class extends base {};
class Base {}
@a class Mixed extends mixin(Base) {
  @b m() {}
}
trace(new Mixed() instanceof Base);
