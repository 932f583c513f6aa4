// records: joined-accessors; behaviour: differs
class Level {
  set level(@cc(4) value: number) {}
}
