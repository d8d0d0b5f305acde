/* engine.c: made by tools/cunit of scr 0.9.0, and not to be changed by hand.
 *
 * Specification: engine.scr, SPECIFICATION Motor
 * SHA-256: 282cb06c5c58f4d2904e64feeca74bed6d2e49b94ef872f8ec66b7416511719b
 *
 * The bytes between the two marks are those that scr emit writes, unchanged. It is
 * proved of them that they run as the specification does, for every list of inputs that
 * may come. What stands around them lets no other input through, and is tested, not
 * proved.
 * The table at the end leads from each `if` to its cell.
 */
#include "engine.h"

/* The names of these bytes, made unique. */
#define v_Key engine_v_Key
#define v_Start engine_v_Start
#define v_Engine engine_v_Engine
#define o_Key engine_o_Key
#define o_Start engine_o_Start
#define o_Engine engine_o_Engine
#define save engine_save
#define step engine_step
#define set_Key engine_input_Key
#define set_Start engine_input_Start

extern long engine_v_Key;
extern long engine_v_Start;
extern long engine_v_Engine;
extern long engine_o_Key;
extern long engine_o_Start;
extern long engine_o_Engine;
static void engine_save(void);
static void engine_step(void);
static void engine_input_Key(long a);
static void engine_input_Start(long a);

/* AND beside OR has no parentheses there, and a cell that is TRUE is 0L == 0L. */
#if defined(__GNUC__)
#pragma GCC diagnostic push
#pragma GCC diagnostic ignored "-Wparentheses"
#pragma GCC diagnostic ignored "-Wtautological-compare"
#endif
/* ---- What scr emit writes begins here. */
long v_Key = 0L;
long v_Start = 0L;
long v_Engine = 0L;
long o_Key = 0L;
long o_Start = 0L;
long o_Engine = 0L;
void save(void) {
  o_Key = v_Key;
  o_Start = v_Start;
  o_Engine = v_Engine;
}
void step(void) {
  switch (o_Engine) {
    case 0L:
    if (!(o_Key != 0L) && v_Key != 0L) {
      v_Engine = 1L;
    }
    break;
    case 1L:
    if (o_Key != 0L && !(v_Key != 0L)) {
      v_Engine = 0L;
    }
    if (!(o_Start != 0L) && v_Start != 0L) {
      v_Engine = 2L;
    }
    break;
    case 2L:
    if (o_Key != 0L && !(v_Key != 0L)) {
      v_Engine = 0L;
    }
    break;
  }
}
void set_Key(long a) {
  save();
  v_Key = a;
  step();
}
void set_Start(long a) {
  save();
  v_Start = a;
  step();
}
/* ---- What scr emit writes ends here. */
#if defined(__GNUC__)
#pragma GCC diagnostic pop
#endif

void engine_init(void) {
  engine_v_Key = 0L;
  engine_v_Start = 0L;
  engine_v_Engine = 0L;
  engine_o_Key = 0L;
  engine_o_Start = 0L;
  engine_o_Engine = 0L;
}

bool engine_set_Key(long value) {
  bool taken = false;
  if ((value >= 0L) && (value <= 1L)) {
    if (value != engine_v_Key) {
      engine_input_Key(value);
    }
    taken = true;
  }
  return taken;
}

bool engine_set_Start(long value) {
  bool taken = false;
  if ((value >= 0L) && (value <= 1L)) {
    if (value != engine_v_Start) {
      engine_input_Start(value);
    }
    taken = true;
  }
  return taken;
}

bool engine_get_Key(void) {
  return engine_v_Key != 0L;
}

bool engine_get_Start(void) {
  return engine_v_Start != 0L;
}

enum engine_Engine engine_get_Engine(void) {
  return (enum engine_Engine)engine_v_Engine;
}

/* Each `if` of these bytes: its line, its cell as scr check counts them, and the lines
 * of engine.scr that have it.
 *
 *    58  Engine row 1 column 1  6
 *    63  Engine row 2 column 1  7
 *    66  Engine row 2 column 2  8
 *    71  Engine row 3 column 1  9
 */
