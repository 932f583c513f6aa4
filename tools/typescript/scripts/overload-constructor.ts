// records: codeless-constructor; behaviour: differs; errors: 1206
class Voice {
  constructor(@cc(1) x: number);
  constructor(@cc(2) x: any) {}
}
