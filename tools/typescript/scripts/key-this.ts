// records: copied-key; behaviour: same; errors: 2465
class Keys {
  @a [this]() {}
}
