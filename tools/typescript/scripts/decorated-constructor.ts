// records: decorated-constructor; behaviour: none; errors: 1206; answer: 6
class Voice {
  @a constructor() {}
}
