// records: asserted-key; behaviour: differs
class Keys {
  @a ["text" as any]() {}
}
