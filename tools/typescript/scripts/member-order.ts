// records: member-order; behaviour: order
class C {
  @a static s() {}
  @b i() {}
}
