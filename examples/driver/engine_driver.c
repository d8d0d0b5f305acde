/* engine_driver.c: made by tools/cunit of scr 0.9.0, and not to be changed by hand.
 *
 * Specification: engine.scr, SPECIFICATION Motor
 * SHA-256: 282cb06c5c58f4d2904e64feeca74bed6d2e49b94ef872f8ec66b7416511719b
 *
 * Runs engine.c by a script on standard input, and prints states as simulate does.
 */
#include "engine.h"
#include <limits.h>
#include <stdio.h>
#include <stdlib.h>
#include <string.h>

static const char *const shown_Engine[] = {"Off", "Ready", "Run"};
static const char *const shown_BOOLEAN[] = {"FALSE", "TRUE"};

/* A state, as scr simulate prints it. */
static void show(long inputs) {
  printf("%ld", inputs);
  printf(" Key=%s", shown_BOOLEAN[(int)engine_get_Key()]);
  printf(" Start=%s", shown_BOOLEAN[(int)engine_get_Start()]);
  printf(" Engine=%s", shown_Engine[(int)engine_get_Engine()]);
  printf("\n");
}

/* The place of a name in a list, or else the word as a number, or LONG_MIN where it is none. */
static long number_of(const char *word, const char *const *names, int count) {
  char *end = NULL;
  long number = 0;
  int k;
  for (k = 0; k < count; k++) {
    if (strcmp(word, names[k]) == 0) {
      return k;
    }
  }
  number = strtol(word, &end, 10);
  return (end == word || *end != '\0') ? LONG_MIN : number;
}

/* Gives an input and prints what comes of it; the result is how many inputs there were. */
static long give(long inputs, const char *name, const char *word) {
  long old = 0;
  long now = 0;
  bool taken = false;
  if (strcmp(name, "Key") == 0) {
    old = (long)engine_get_Key();
    taken = engine_set_Key(number_of(word, shown_BOOLEAN, 2));
    now = (long)engine_get_Key();
  } else if (strcmp(name, "Start") == 0) {
    old = (long)engine_get_Start();
    taken = engine_set_Start(number_of(word, shown_BOOLEAN, 2));
    now = (long)engine_get_Start();
  } else {
    printf("no input %s\n", name);
    return inputs;
  }
  if (!taken) {
    printf("not taken: %s %s\n", name, word);
    return inputs;
  }
  inputs += (old != now) ? 1 : 0;
  show(inputs);
  return inputs;
}

/* Each line is SET, a variable, and a value by its name or number, or INIT; # begins a comment. */
int main(void) {
  char line[4200], word[64], name[64], value[64];
  long inputs = 0;
  show(inputs);
  while (fgets(line, (int)sizeof line, stdin) != NULL) {
    int words = 0;
    line[strcspn(line, "#")] = '\0';
    words = sscanf(line, "%63s %63s %63s", word, name, value);
    if (words == 3 && strcmp(word, "SET") == 0) {
      inputs = give(inputs, name, value);
    } else if (words == 1 && strcmp(word, "INIT") == 0) {
      inputs = 0;
      engine_init();
      show(inputs);
    } else if (words > 0) {
      printf("no line of a script: %s\n", word);
    }
  }
  return 0;
}
