// records: idle-key; behaviour: same; errors: 1206
let Made = class {
  @a [see("k")]() {}
};
