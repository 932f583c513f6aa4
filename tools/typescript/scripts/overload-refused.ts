// records: codeless-constructor; behaviour: none; answer: 7
class Voice {
  constructor(x: number);
  constructor(@cc(2) x: any) {}
}
