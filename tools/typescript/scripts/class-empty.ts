// records: same; behaviour: same
@a class Empty {}
