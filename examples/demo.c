long v_a = 0L;
long v_b = 0L;
long v_t = 0L;
long o_a = 0L;
long o_b = 0L;
long o_t = 0L;
void save(void) {
  o_a = v_a;
  o_b = v_b;
  o_t = v_t;
}
void step(void) {
  if (v_a != 0L && v_b != 0L) {
    v_t = 1L;
  }
  if (!(v_a != 0L && v_b != 0L)) {
    v_t = 0L;
  }
}
void set_a(long a) {
  save();
  v_a = a;
  step();
}
void set_b(long a) {
  save();
  v_b = a;
  step();
}
