// records: same; behaviour: same; errors: 1206
let Made = class {
  @a m(@b x: number) {}
  @c p = 1;
};
trace(new Made().p);
