// refused: 4:13 an optional chain
const rack: any = null;
class Voice {
  @a note = rack?.note;
}
