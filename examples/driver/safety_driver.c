/* safety_driver.c: made by tools/cunit of scr 0.9.0, and not to be changed by hand.
 *
 * Specification: safety.scr, SPECIFICATION Safety
 * SHA-256: 6b64fa73748223c5293f921760bbdcaab1880aa3d5e24ae6743f57dea31e56da
 *
 * Runs safety.c by a script on standard input, and prints states as simulate does.
 */
#include "safety.h"
#include <limits.h>
#include <stdio.h>
#include <stdlib.h>
#include <string.h>

static const char *const shown_Switch[] = {"Off", "On"};
static const char *const shown_Pressure[] = {"TooLow", "Permitted", "High"};
static const char *const shown_BOOLEAN[] = {"FALSE", "TRUE"};

/* A state, as scr simulate prints it. */
static void show(long inputs) {
  printf("%ld", inputs);
  printf(" WaterPres=%ld", safety_get_WaterPres());
  printf(" Block=%s", shown_Switch[(int)safety_get_Block()]);
  printf(" Reset=%s", shown_Switch[(int)safety_get_Reset()]);
  printf(" Pressure=%s", shown_Pressure[(int)safety_get_Pressure()]);
  printf(" Overridden=%s", shown_BOOLEAN[(int)safety_get_Overridden()]);
  printf(" SafetyInjection=%s", shown_Switch[(int)safety_get_SafetyInjection()]);
  printf("\n");
}

/* The place of a name in a list, or else the word as a number, or LONG_MIN where it is none. */
static long number_of(const char *word, const char *const *names, int count) {
  char *end = NULL;
  long number = 0;
  int k;
  for (k = 0; k < count; k++) {
    if (strcmp(word, names[k]) == 0) {
      return k;
    }
  }
  number = strtol(word, &end, 10);
  return (end == word || *end != '\0') ? LONG_MIN : number;
}

/* Gives an input and prints what comes of it; the result is how many inputs there were. */
static long give(long inputs, const char *name, const char *word) {
  long old = 0;
  long now = 0;
  bool taken = false;
  if (strcmp(name, "WaterPres") == 0) {
    old = (long)safety_get_WaterPres();
    taken = safety_set_WaterPres(number_of(word, NULL, 0));
    now = (long)safety_get_WaterPres();
  } else if (strcmp(name, "Block") == 0) {
    old = (long)safety_get_Block();
    taken = safety_set_Block(number_of(word, shown_Switch, 2));
    now = (long)safety_get_Block();
  } else if (strcmp(name, "Reset") == 0) {
    old = (long)safety_get_Reset();
    taken = safety_set_Reset(number_of(word, shown_Switch, 2));
    now = (long)safety_get_Reset();
  } else {
    printf("no input %s\n", name);
    return inputs;
  }
  if (!taken) {
    printf("not taken: %s %s\n", name, word);
    return inputs;
  }
  inputs += (old != now) ? 1 : 0;
  show(inputs);
  return inputs;
}

/* Each line is SET, a variable, and a value by its name or number, or INIT; # begins a comment. */
int main(void) {
  char line[4200], word[64], name[64], value[64];
  long inputs = 0;
  show(inputs);
  while (fgets(line, (int)sizeof line, stdin) != NULL) {
    int words = 0;
    line[strcspn(line, "#")] = '\0';
    words = sscanf(line, "%63s %63s %63s", word, name, value);
    if (words == 3 && strcmp(word, "SET") == 0) {
      inputs = give(inputs, name, value);
    } else if (words == 1 && strcmp(word, "INIT") == 0) {
      inputs = 0;
      safety_init();
      show(inputs);
    } else if (words > 0) {
      printf("no line of a script: %s\n", word);
    }
  }
  return 0;
}
