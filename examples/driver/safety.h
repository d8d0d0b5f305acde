/* safety.h: made by tools/cunit of scr 0.9.0, and not to be changed by hand.
 *
 * Specification: safety.scr, SPECIFICATION Safety
 * SHA-256: 6b64fa73748223c5293f921760bbdcaab1880aa3d5e24ae6743f57dea31e56da
 *
 * For C11 and C++, where a long has 32 bits or more.
 * The functions share the state of the specification, so they are not reentrant: of all
 * of them only one may run at a time, also where an interrupt or a thread calls one.
 */
#ifndef safety_h_included
#define safety_h_included

#include <stdbool.h>

/* The constants. */
#define safety_Low (900L) /* line 4 */
#define safety_Permit (1000L) /* line 5 */

/* Switch, line 2. */
enum safety_Switch {
  safety_Off = 0,
  safety_On = 1
};

/* Pressure, line 9. */
enum safety_Pressure {
  safety_TooLow = 0,
  safety_Permitted = 1,
  safety_High = 2
};

#ifdef __cplusplus
extern "C" {
#endif

/* Goes back to the initial state, which is also that of the start of the program. */
void safety_init(void);

/* The inputs. The result says whether the value is taken: it is where it is one that
   the variable may have, and no further from the present one than its bound. Then
   one step of the specification is made, or none where the value is the present one.
   A value that is not taken changes nothing. */
bool safety_set_WaterPres(long value); /* line 6: 0 to 2000 */
bool safety_set_Block(long value); /* line 7: enum safety_Switch */
bool safety_set_Reset(long value); /* line 8: enum safety_Switch */

/* The present values. */
long safety_get_WaterPres(void); /* line 6: monitored */
enum safety_Switch safety_get_Block(void); /* line 7: monitored */
enum safety_Switch safety_get_Reset(void); /* line 8: monitored */
enum safety_Pressure safety_get_Pressure(void); /* line 9: mode class */
bool safety_get_Overridden(void); /* line 10: term */
enum safety_Switch safety_get_SafetyInjection(void); /* line 11: controlled */

#ifdef __cplusplus
}
#endif

#endif
