// refused: 3:3 yield*
function* notes() {
  yield* [1];
}
