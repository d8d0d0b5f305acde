/* What interrupts.c has for the machine, and wants from it. */
#ifndef INTERRUPTS_H
#define INTERRUPTS_H

#include <stdbool.h>

void on_second(void);
void on_level(long level);
void control(void);

void disable_interrupts(void);
void enable_interrupts(void);
void note_fault(void);
void drive(bool pump, bool high);
void kick_watchdog(void);

#endif
