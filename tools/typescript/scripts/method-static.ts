// records: same; behaviour: same
class Registry {
  @wrap("found") static find(name: string) {
    return name;
  }
}
trace(Registry.find("reverb"));
