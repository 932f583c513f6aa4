// records: undeclared-key; behaviour: differs
class Keys {
  [see("k")](@a x: number) {}
}
