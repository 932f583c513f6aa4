// records: copied-key; behaviour: same
class Keys {
  @a 1.5() {}
  @b [99999999999]() {}
}
