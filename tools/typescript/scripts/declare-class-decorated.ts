// records: same; behaviour: same; errors: 1206
@a declare class Outside {
  @b level: number;
  m(@c x: number): void;
}
class Voice {
  @d p = 1;
}
