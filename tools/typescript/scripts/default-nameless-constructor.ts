// records: default-name; behaviour: same
export default class {
  constructor(@cc(1) x: number) {}
}
