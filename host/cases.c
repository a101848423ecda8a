/* A host that answers the cases of vectors/README.md from standard input, without their states, and says of an answer where it is not as the
 * header says. host/build compares it with the vectors. */
#include <inttypes.h>
#include <stdio.h>
#include <string.h>
#include "loitsupar.h"

#define MOST_LENGTH 65535
#define MOST_ARGUMENTS 255

static uint8_t tables[MOST_LENGTH], code[MOST_LENGTH];
static int64_t arguments[MOST_ARGUMENTS];
static struct loitsupar_state state;
static int whole = 1; /* whether the input had all that was asked of it */

static uint64_t number(int bytes) {
  uint64_t read = 0;
  for (int place = 0; place < bytes; place++) {
    int byte = getchar();
    whole = whole && byte != EOF;
    read |= (uint64_t)(uint8_t)byte << 8 * place;
  }
  return read;
}

static size_t slice(uint8_t *into) {
  size_t length = (size_t)number(2);
  whole = whole && fread(into, 1, length, stdin) == length;
  return length;
}

static void print_value(const struct loitsupar_answer *a) {
  if (a->sort == LOITSUPAR_INT32 || a->sort == LOITSUPAR_INT64) printf("%" PRId64, (int64_t)a->bits);
  else if (a->sort == LOITSUPAR_F) printf("%016" PRIX64, a->bits);
  else printf("-");
}

/* Whether an answer and the state are a refusal's: nothing but a number and its place. */
static int nothing_ran(const struct loitsupar_answer *a) {
  static const struct loitsupar_state none;
  return a->method == 0 && a->steps == 0 && a->sort == LOITSUPAR_NO_VALUE && a->bits == 0 && memcmp(&state, &none, sizeof none) == 0;
}

/* Whether a cell of a stack is of the type that the check found. */
static int is_of(uint64_t type, uint64_t kind, uint64_t bits) {
  if (kind == LOITSUPAR_INT32) return type == kind && bits == (uint64_t)(int64_t)(int32_t)(uint32_t)bits;
  if (kind == LOITSUPAR_INT64 || kind == LOITSUPAR_F) return type == kind;
  return type > LOITSUPAR_CLASS || (type == LOITSUPAR_NULL && bits == 0);
}

/* Whether the running frame's stack has the depth and the types that the check found there. */
static int as_found(const struct loitsupar_module *module) {
  uint64_t frame = state.live - 1;
  struct loitsupar_shape shape;
  if (loitsupar_tell_module(module, state.methods[frame], state.offsets[frame], NULL, &shape) != LOITSUPAR_FINE) return 0;
  int right = shape.starts == 1 && shape.depth == state.heights[frame];
  for (uint64_t i = 0; right && i < shape.depth; i++) right = is_of(shape.types[i], state.kinds[frame][i], state.stacks[frame][i]);
  return right;
}

/* Whether the first method's first shape is told where the module passes, and the check's fault and nothing else where it does not. */
static int told(const struct loitsupar_module *module, const struct loitsupar_fault *f) {
  static const struct loitsupar_shape nothing, empty = {1, 0, {0}};
  struct loitsupar_fault same;
  struct loitsupar_shape first;
  loitsupar_tell_module(module, 1, 0, &same, &first);
  return memcmp(&same, f, sizeof same) == 0 && memcmp(&first, f->number ? &nothing : &empty, sizeof first) == 0;
}

static int as_the_header_says(const struct loitsupar_module *module, const struct loitsupar_fault *f, const struct loitsupar_answer *a) {
  if (!told(module, f)) return 0;
  if (a->ending >= LOITSUPAR_LOADING_TOO_LONG && a->ending <= LOITSUPAR_REFUSED_BUDGET) return nothing_ran(a);
  return f->number != LOITSUPAR_FINE || state.live == 0 || as_found(module);
}

static void answer(const struct loitsupar_module *module, size_t count, uint64_t budget) {
  struct loitsupar_fault f;
  struct loitsupar_answer a;
  memset(&state, 0xA5, sizeof state);
  loitsupar_check_module(module, &f);
  loitsupar_run_module(module, arguments, count, budget, &a, &state);
  int refused = f.number >= LOITSUPAR_LOADING_TOO_LONG && f.number <= LOITSUPAR_LOADING_OVERRIDE_DIFFERS;
  printf("load %" PRIu64 " %" PRIu64 " | ", refused ? f.number : 0, refused ? f.offset : 0);
  printf("check %" PRIu64 " %" PRIu64 " %" PRIu64 " | ", f.number, f.method, f.offset);
  printf("run %" PRIu64 " %" PRIu64 " %" PRIu64 " %" PRIu64 " ", a.ending, a.method, a.offset, a.steps);
  print_value(&a);
  printf("%s\n", as_the_header_says(module, &f, &a) ? "" : ", and not as the header says");
}

int main(void) {
  for (;;) {
    struct loitsupar_module module = {tables, 0, code, 0};
    module.tables_length = slice(tables);
    module.code_length = slice(code);
    size_t count = (size_t)number(1);
    for (size_t i = 0; i < count; i++) arguments[i] = (int64_t)number(8);
    uint64_t budget = number(4);
    if (!whole) return 0;
    answer(&module, count, budget);
  }
}
