// refused: 2:1 a default export that is no class
export default function () {}
