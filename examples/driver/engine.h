/* engine.h: made by tools/cunit of scr 0.9.0, and not to be changed by hand.
 *
 * Specification: engine.scr, SPECIFICATION Motor
 * SHA-256: 282cb06c5c58f4d2904e64feeca74bed6d2e49b94ef872f8ec66b7416511719b
 *
 * For C11 and C++, where a long has 32 bits or more.
 * The functions share the state of the specification, so they are not reentrant: of all
 * of them only one may run at a time, also where an interrupt or a thread calls one.
 */
#ifndef engine_h_included
#define engine_h_included

#include <stdbool.h>

/* Engine, line 4. */
enum engine_Engine {
  engine_Off = 0,
  engine_Ready = 1,
  engine_Run = 2
};

#ifdef __cplusplus
extern "C" {
#endif

/* Goes back to the initial state, which is also that of the start of the program. */
void engine_init(void);

/* The inputs. The result says whether the value is taken: it is where it is one that
   the variable may have, and no further from the present one than its bound. Then
   one step of the specification is made, or none where the value is the present one.
   A value that is not taken changes nothing. */
bool engine_set_Key(long value); /* line 2: 0 or 1 */
bool engine_set_Start(long value); /* line 3: 0 or 1 */

/* The present values. */
bool engine_get_Key(void); /* line 2: monitored */
bool engine_get_Start(void); /* line 3: monitored */
enum engine_Engine engine_get_Engine(void); /* line 4: mode class */

#ifdef __cplusplus
}
#endif

#endif
