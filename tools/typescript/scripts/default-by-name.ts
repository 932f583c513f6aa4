// records: same; behaviour: same
@replace("kept") class Voice {}
export default Voice;
