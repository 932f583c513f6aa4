// records: same; behaviour: same
class Stream {
  @a *notes() {
    yield 60;
    yield 64;
  }
  @b async load() {
    return await 1;
  }
  @c async *lines() {
    yield 1;
  }
}
trace([...new Stream().notes()]);
