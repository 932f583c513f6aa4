// records: same; behaviour: same
@replace("stereo")
class Strip {
  width = 2;
}
trace(new Strip().width, Strip);
