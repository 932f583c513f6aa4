// records: same; behaviour: same
class Clock {
  rate: number;
  constructor(@cc(20) rate: number, @cc(21) swing = 0.5) {
    this.rate = rate + swing;
  }
}
trace(new Clock(2).rate);
