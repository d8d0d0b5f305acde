// Sums that may leave the numbers of a long.
long v_sum = 2147483000L;
void set_more(long a) {
  v_sum = v_sum + a;
}
