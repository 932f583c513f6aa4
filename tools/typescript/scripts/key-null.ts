// records: same; behaviour: same; errors: 2464
class Keys {
  @a [null]() {}
}
