// refused: 3:10 an export under another name
@a class Voice {}
export { Voice as Sound };
