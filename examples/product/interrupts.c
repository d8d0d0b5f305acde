/* The same by interrupts: the handlers give the inputs, and the loop reads the outputs. */
#include "interrupts.h"
#include "water.h"

/* Called by a timer each second. */
void on_second(void) {
  (void)water_set_Time((water_get_Time() == 0L) ? 1L : 0L);
}

/* Called by a device that has measured. */
void on_level(long level) {
  if (!water_set_LevelA(level)) {
    note_fault();
  }
}

/* One round of the loop. What it reads is of one state, since no handler comes between. */
void control(void) {
  bool pump, high;
  disable_interrupts();
  pump = (water_get_PumpSwitch() == water_Closed);
  high = water_get_HighAlarm();
  enable_interrupts();
  drive(pump, high);
  kick_watchdog();
}
