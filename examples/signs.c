/* Has each sign of the subset. set_a tells the relations apart by three numbers, and the sums and products by small ones;
   set_p and set_q go through the table of truths of each sign of logic, and pick goes through a switch. */
long v_less = 0L;
long v_most = 0L; // at most
long v_more = 0L;
long v_least = 0L; // at least
long v_same = 0L;
long v_other = 0L;
long v_sum = 0L;
long v_rest = 0L;
long v_times = 0L;
long v_minus = 0L;
long v_mixed = 0L;
long v_p = 0L;
long v_q = 0L;
long v_not = 0L;
long v_and = 0L;
long v_or = 0L;
long v_both = 0L; // && before ||
long v_pick = -1L;
void relations(long a) {
  if (a < 2L) { v_less = 1L; } else { v_less = 0L; }
  if (a <= 2L) { v_most = 1L; } else { v_most = 0L; }
  if (a > 2L) { v_more = 1L; } else { v_more = 0L; }
  if (a >= 2L) { v_least = 1L; } else { v_least = 0L; }
  if (a == 2L) { v_same = 1L; } else { v_same = 0L; }
  if (a != 2L) { v_other = 1L; } else { v_other = 0L; }
}
void set_a(long a) {
  relations(a);
  v_sum = a + 5L;
  v_rest = a - 5L;
  v_times = a * 5L;
  v_minus = -a;
  v_mixed = 7L - a * 2L - (a - 1L);
}
void logic(void) {
  if (!(v_p != 0L)) { v_not = 1L; } else { v_not = 0L; }
  if (v_p != 0L && v_q != 0L) { v_and = 1L; } else { v_and = 0L; }
  if (v_p != 0L || v_q != 0L) { v_or = 1L; } else { v_or = 0L; }
  if (v_p != 0L || v_q != 0L && v_q == 0L) { v_both = 1L; } else { v_both = 0L; }
}
void set_p(long a) {
  v_p = a;
  logic();
}
void set_q(long a) {
  v_q = a;
  logic();
}
void pick(long a) {
  switch (a) {
    case -1L:
    v_pick = 10L;
    case 0L:
    v_pick = v_pick + 1L;
    break;
    case 1L:
    case 2L:
    v_pick = 20L;
    break;
  }
}
