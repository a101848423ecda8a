/* A host program: checks a module file, runs it, says numbers in words, reads the state that a run reached, and asks for the types that the check
 * found on the stack. */
#include <inttypes.h>
#include <stdio.h>
#include "loitsupar.h"

/* Module files: 20 bytes of tables, with one class and one static method of two int32 parameters that returns an int32, max stack 2; then four
 * bytes of code. The code of the second, ldarg.0, ldarg.1, nop, ret, leaves one value too many. */
#define TABLES 20, 0, 1, 0, 3, 1, 0, 1, 2, 0, 0, 0, 0, 0, 4, 0, 4, 1, 4, 1, 6, 1
static const uint8_t sum[] = {TABLES, 0x02, 0x03, 0x58, 0x2A};
static const uint8_t too_many[] = {TABLES, 0x02, 0x03, 0x00, 0x2A};
static const int64_t arguments[] = {44, -2};

static void show_state(const struct loitsupar_state *s) {
  for (uint64_t frame = 0; frame < s->live; frame++) {
    printf("  frame of method %" PRIu64 ", stack:", s->methods[frame]);
    for (uint64_t i = 0; i < s->heights[frame]; i++) printf(" %" PRId64, (int64_t)s->stacks[frame][i]);
    printf("\n");
  }
}

/* The call that most hosts need. */
static void check_then_run(const char *name, const void *file, size_t length, uint64_t budget) {
  struct loitsupar_answer a;
  uint32_t ending = loitsupar_check_then_run(file, length, arguments, 2, budget, &a, NULL);
  printf("%s: %" PRIu32 ", %s; method %" PRIu64 ", offset %" PRIu64 ", %" PRIu64 " steps", name, ending, loitsupar_words(ending), a.method, a.offset, a.steps);
  if (a.sort == LOITSUPAR_INT32) printf(", value %" PRId64, (int64_t)a.bits);
  printf("\n");
}

/* The run alone, which doesn't ask the check, and its state. */
static void run(const char *name, const void *file, size_t length, uint64_t budget) {
  static struct loitsupar_state s;
  struct loitsupar_module module;
  struct loitsupar_answer a;
  if (loitsupar_split(file, length, &module) != LOITSUPAR_FINE) return;
  loitsupar_run_module(&module, arguments, 2, budget, &a, &s);
  printf("run of %s: %" PRIu64 ", %s\n", name, a.ending, loitsupar_words(a.ending));
  show_state(&s);
}

/* The types on the stack before an instruction of method 1. */
static void tell(const char *name, const void *file, size_t length, uint64_t offset) {
  struct loitsupar_module module;
  struct loitsupar_shape s = {0, 0, {0}};
  if (loitsupar_split(file, length, &module) != LOITSUPAR_FINE) return;
  uint32_t number = loitsupar_tell_module(&module, 1, offset, NULL, &s);
  printf("%s, before offset %" PRIu64 ":", name, offset);
  if (number != LOITSUPAR_FINE) printf(" %" PRIu32 ", %s", number, loitsupar_words(number));
  else if (!s.starts) printf(" no instruction starts there");
  else printf(" depth %" PRIu64, s.depth);
  for (uint64_t i = 0; i < s.depth; i++) printf("%s", s.types[i] == LOITSUPAR_INT32 ? ", int32" : ", another type");
  printf("\n");
}

/* What isn't given, or is given too small, is told. */
static void misuse(void) {
  struct loitsupar_fault f = {7, 7, 7};
  struct loitsupar_module empty = {NULL, 0, NULL, 0}, absent = {NULL, 3, NULL, 0};
  uint64_t cells[2] = {7, 7};
  printf("an empty module: %" PRIu32 ", a module that isn't there: %" PRIu32 "\n", loitsupar_check_module(&empty, NULL), loitsupar_check_module(&absent, &f));
  printf("no arguments as NULL: %" PRIu32 ", two as NULL: %" PRIu32 "\n", loitsupar_check_then_run(sum, sizeof sum, NULL, 0, 100, NULL, NULL),
         loitsupar_check_then_run(sum, sizeof sum, NULL, 2, 100, NULL, NULL));
  printf("two cells for a fault: %" PRIu32, loitsupar_check(sum + 2, 20, sum + 22, 4, cells, 2));
  printf(", and they are %" PRIu64 " %" PRIu64 "\n", cells[0], cells[1]);
  printf("two cells for a shape: %" PRIu32, loitsupar_tell(sum + 2, 20, sum + 22, 4, 1, 0, (uint64_t *)&f, LOITSUPAR_FAULT_CELLS, cells, 2));
  printf(", and the fault is %" PRIu64 " %" PRIu64 " %" PRIu64 "\n", f.number, f.method, f.offset);
}

int main(void) {
  printf("Loitsupar %s\n", LOITSUPAR_VERSION);
  check_then_run("sum", sum, sizeof sum, 100);
  check_then_run("sum, budget 2", sum, sizeof sum, 2);
  check_then_run("sum, budget 2000000", sum, sizeof sum, 2000000);
  check_then_run("too_many", too_many, sizeof too_many, 100);
  check_then_run("half a file", sum, 12, 100);
  run("sum, budget 2", sum, sizeof sum, 2);
  run("too_many", too_many, sizeof too_many, 100);
  tell("sum", sum, sizeof sum, 2);
  tell("sum", sum, sizeof sum, 3);
  tell("sum", sum, sizeof sum, 4);
  tell("too_many", too_many, sizeof too_many, 3);
  misuse();
  return 0;
}
