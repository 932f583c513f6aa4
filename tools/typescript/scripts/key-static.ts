// records: same; behaviour: same
class Keys {
  @c static [see("two")]() {}
  @d static [see("three")]() {}
}
