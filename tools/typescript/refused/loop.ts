// refused: 3:3 no record for ForOfStatement
function f(list: number[]) {
  for (const x of list) trace(x);
}
