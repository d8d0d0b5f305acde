long v_Key = 0L;
long v_Start = 0L;
long v_Engine = 0L;
long o_Key = 0L;
long o_Start = 0L;
long o_Engine = 0L;
void save(void) {
  o_Key = v_Key;
  o_Start = v_Start;
  o_Engine = v_Engine;
}
void step(void) {
  switch (o_Engine) {
    case 0L:
    if (!(o_Key != 0L) && v_Key != 0L) {
      v_Engine = 1L;
    }
    break;
    case 1L:
    if (o_Key != 0L && !(v_Key != 0L)) {
      v_Engine = 0L;
    }
    if (!(o_Start != 0L) && v_Start != 0L) {
      v_Engine = 2L;
    }
    break;
    case 2L:
    if (o_Key != 0L && !(v_Key != 0L)) {
      v_Engine = 0L;
    }
    break;
  }
}
void set_Key(long a) {
  save();
  v_Key = a;
  step();
}
void set_Start(long a) {
  save();
  v_Start = a;
  step();
}
