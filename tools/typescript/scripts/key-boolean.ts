// records: copied-key; behaviour: same; errors: 2464
class Keys {
  @a [true]() {}
}
