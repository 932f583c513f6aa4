// records: private-name; behaviour: differs; errors: 1206
class Hidden {
  @a #slot = 1;
  @b shown = 2;
}
