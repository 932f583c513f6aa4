// records: left-decorators; behaviour: same; errors: 1206
let Made = class {
  constructor(@a x: number) {}
};
trace(new Made(1));
