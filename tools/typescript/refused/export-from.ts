// refused: 2:1 an export from another module
export * from "rack";
