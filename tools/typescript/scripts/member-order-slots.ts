// records: member-order; behaviour: differs
class Panel {
  @knob() static master = 1;
  @knob() left = 2;
  @knob() static limiter = 3;
  @knob() right = 4;
}
