// refused: 2:1 no record for ImportDeclaration
import { knob as turn } from "rack";
