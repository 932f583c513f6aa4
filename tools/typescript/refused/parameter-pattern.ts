// refused: 3:11 a pattern
class Voice {
  play(@a { note }: { note: number }) {}
}
