// records: same; behaviour: same
@a class Voice {}
class Other {
  @b p = 1;
}
export { Voice, Other };
