// records: same; behaviour: same
class Names {
  @a "two words"() {}
  @a 7() {}
  @a 0x10() {}
  @a delete() {}
  @a ["constructor"]() {}
}
trace(Object.getOwnPropertyNames(Names.prototype));
