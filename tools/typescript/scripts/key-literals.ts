// records: same; behaviour: same
class Keys {
  @a ["text"]() {}
  @a [7]() {}
  @a [`plain`]() {}
}
