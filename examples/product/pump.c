/* A pump controlled by water.scr. Each line of the input stands for one second: what the two level
   devices say, and whether the buttons Reset and SelfTest are held. */
#include "water.h"
#include <stdio.h>

/* A second has passed. Time changes by 1 at most, and that it changes is all that counts. */
static bool tick(void) {
  return water_set_Time((water_get_Time() == 0L) ? 1L : 0L);
}

int main(void) {
  long level_a, level_b, reset, self_test;
  water_init();
  while (scanf("%ld %ld %ld %ld", &level_a, &level_b, &reset, &self_test) == 4) {
    bool taken = water_set_LevelA(level_a);
    taken = water_set_LevelB(level_b) && taken;
    taken = water_set_Reset(reset) && taken;
    taken = water_set_SelfTest(self_test) && taken;
    taken = tick() && taken;
    printf("pump %s", (water_get_PumpSwitch() == water_Closed) ? "on" : "off");
    printf("%s%s", water_get_HighAlarm() ? ", high" : "", water_get_LowAlarm() ? ", low" : "");
    printf("%s\n", taken ? "" : ", a value was not taken");
  }
  return 0;
}
