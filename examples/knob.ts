@cc
class Filter {
  @knob sweep() {}
}
