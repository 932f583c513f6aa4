// records: same; behaviour: same
const formats = new Map();
function format(text: string) {
  return (target: any, key: string) => {
    formats.set(key, text);
  };
}
class Greeter {
  @format("Hello, %s") greeting: string;
  @format("%d Hz") rate = 48000;
}
trace([...formats.keys()], [...formats.values()]);
