/* safety.c: made by tools/cunit of scr 0.9.0, and not to be changed by hand.
 *
 * Specification: safety.scr, SPECIFICATION Safety
 * SHA-256: 6b64fa73748223c5293f921760bbdcaab1880aa3d5e24ae6743f57dea31e56da
 *
 * The bytes between the two marks are those that scr emit writes, unchanged. It is
 * proved of them that they run as the specification does, for every list of inputs that
 * may come. What stands around them lets no other input through, and is tested, not
 * proved.
 * The table at the end leads from each `if` to its cell.
 */
#include "safety.h"

/* The names of these bytes, made unique. */
#define v_WaterPres safety_v_WaterPres
#define v_Block safety_v_Block
#define v_Reset safety_v_Reset
#define v_Pressure safety_v_Pressure
#define v_Overridden safety_v_Overridden
#define v_SafetyInjection safety_v_SafetyInjection
#define o_WaterPres safety_o_WaterPres
#define o_Block safety_o_Block
#define o_Reset safety_o_Reset
#define o_Pressure safety_o_Pressure
#define o_Overridden safety_o_Overridden
#define o_SafetyInjection safety_o_SafetyInjection
#define save safety_save
#define step safety_step
#define set_WaterPres safety_input_WaterPres
#define set_Block safety_input_Block
#define set_Reset safety_input_Reset

extern long safety_v_WaterPres;
extern long safety_v_Block;
extern long safety_v_Reset;
extern long safety_v_Pressure;
extern long safety_v_Overridden;
extern long safety_v_SafetyInjection;
extern long safety_o_WaterPres;
extern long safety_o_Block;
extern long safety_o_Reset;
extern long safety_o_Pressure;
extern long safety_o_Overridden;
extern long safety_o_SafetyInjection;
static void safety_save(void);
static void safety_step(void);
static void safety_input_WaterPres(long a);
static void safety_input_Block(long a);
static void safety_input_Reset(long a);

/* AND beside OR has no parentheses there, and a cell that is TRUE is 0L == 0L. */
#if defined(__GNUC__)
#pragma GCC diagnostic push
#pragma GCC diagnostic ignored "-Wparentheses"
#pragma GCC diagnostic ignored "-Wtautological-compare"
#endif
/* ---- What scr emit writes begins here. */
long v_WaterPres = 14L;
long v_Block = 0L;
long v_Reset = 0L;
long v_Pressure = 0L;
long v_Overridden = 0L;
long v_SafetyInjection = 1L;
long o_WaterPres = 14L;
long o_Block = 0L;
long o_Reset = 0L;
long o_Pressure = 0L;
long o_Overridden = 0L;
long o_SafetyInjection = 1L;
void save(void) {
  o_WaterPres = v_WaterPres;
  o_Block = v_Block;
  o_Reset = v_Reset;
  o_Pressure = v_Pressure;
  o_Overridden = v_Overridden;
  o_SafetyInjection = v_SafetyInjection;
}
void step(void) {
  switch (o_Pressure) {
    case 0L:
    if (!(o_WaterPres >= 900L) && v_WaterPres >= 900L) {
      v_Pressure = 1L;
    }
    break;
    case 1L:
    if (!(o_WaterPres >= 1000L) && v_WaterPres >= 1000L) {
      v_Pressure = 2L;
    }
    if (!(o_WaterPres < 900L) && v_WaterPres < 900L) {
      v_Pressure = 0L;
    }
    break;
    case 2L:
    if (!(o_WaterPres < 1000L) && v_WaterPres < 1000L) {
      v_Pressure = 1L;
    }
    break;
  }
  switch (o_Pressure) {
    case 2L:
    if (0L != 0L) {
      v_Overridden = 1L;
    }
    if (o_Pressure == 2L && !(v_Pressure == 2L)) {
      v_Overridden = 0L;
    }
    break;
    case 0L:
    case 1L:
    if (!(o_Block == 1L) && v_Block == 1L && o_Reset == 0L) {
      v_Overridden = 1L;
    }
    if (!(o_Pressure == 2L) && v_Pressure == 2L || !(o_Reset == 1L) && v_Reset == 1L) {
      v_Overridden = 0L;
    }
    break;
  }
  switch (v_Pressure) {
    case 2L:
    case 1L:
    if (0L == 0L) {
      v_SafetyInjection = 0L;
    }
    if (0L != 0L) {
      v_SafetyInjection = 1L;
    }
    break;
    case 0L:
    if (v_Overridden != 0L) {
      v_SafetyInjection = 0L;
    }
    if (!(v_Overridden != 0L)) {
      v_SafetyInjection = 1L;
    }
    break;
  }
}
void set_WaterPres(long a) {
  save();
  v_WaterPres = a;
  step();
}
void set_Block(long a) {
  save();
  v_Block = a;
  step();
}
void set_Reset(long a) {
  save();
  v_Reset = a;
  step();
}
/* ---- What scr emit writes ends here. */
#if defined(__GNUC__)
#pragma GCC diagnostic pop
#endif

void safety_init(void) {
  safety_v_WaterPres = 14L;
  safety_v_Block = 0L;
  safety_v_Reset = 0L;
  safety_v_Pressure = 0L;
  safety_v_Overridden = 0L;
  safety_v_SafetyInjection = 1L;
  safety_o_WaterPres = 14L;
  safety_o_Block = 0L;
  safety_o_Reset = 0L;
  safety_o_Pressure = 0L;
  safety_o_Overridden = 0L;
  safety_o_SafetyInjection = 1L;
}

bool safety_set_WaterPres(long value) {
  bool taken = false;
  if ((value >= 0L) && (value <= 2000L)) {
    if (value != safety_v_WaterPres) {
      safety_input_WaterPres(value);
    }
    taken = true;
  }
  return taken;
}

bool safety_set_Block(long value) {
  bool taken = false;
  if ((value >= 0L) && (value <= 1L)) {
    if (value != safety_v_Block) {
      safety_input_Block(value);
    }
    taken = true;
  }
  return taken;
}

bool safety_set_Reset(long value) {
  bool taken = false;
  if ((value >= 0L) && (value <= 1L)) {
    if (value != safety_v_Reset) {
      safety_input_Reset(value);
    }
    taken = true;
  }
  return taken;
}

long safety_get_WaterPres(void) {
  return safety_v_WaterPres;
}

enum safety_Switch safety_get_Block(void) {
  return (enum safety_Switch)safety_v_Block;
}

enum safety_Switch safety_get_Reset(void) {
  return (enum safety_Switch)safety_v_Reset;
}

enum safety_Pressure safety_get_Pressure(void) {
  return (enum safety_Pressure)safety_v_Pressure;
}

bool safety_get_Overridden(void) {
  return safety_v_Overridden != 0L;
}

enum safety_Switch safety_get_SafetyInjection(void) {
  return (enum safety_Switch)safety_v_SafetyInjection;
}

/* Each `if` of these bytes: its line, its cell as scr check counts them, and the lines
 * of safety.scr that have it.
 *
 *    81  Pressure row 1 column 1         13
 *    86  Pressure row 2 column 1         14
 *    89  Pressure row 2 column 2         15
 *    94  Pressure row 3 column 1         16
 *   101  Overridden row 1 column 1       19
 *   104  Overridden row 1 column 2       19
 *   110  Overridden row 2 column 1       20
 *   113  Overridden row 2 column 2       20
 *   121  SafetyInjection row 1 column 1  24
 *   124  SafetyInjection row 1 column 2  24
 *   129  SafetyInjection row 2 column 1  25
 *   132  SafetyInjection row 2 column 2  25
 */
