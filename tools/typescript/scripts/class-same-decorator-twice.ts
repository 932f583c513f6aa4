// records: same; behaviour: same
@a @a class Twice {
  @b @b m() {}
}
