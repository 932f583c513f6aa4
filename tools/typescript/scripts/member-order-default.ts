// records: member-order; behaviour: order
export default class {
  @a static s() {}
  @b i() {}
}
