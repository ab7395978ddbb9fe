/* Trees by lines: each line of the input names a function of the header without `lovendak_tree_`, and its arguments. The answer is a
 * line with the code, and behind it what the function gives. A number is decimal, bytes are hexadecimal with an `x` before them, a path
 * is numbers with a `/` before each, or `/` alone. Beside a length of 0 each pointer is null. ../trees.py plays it. */
#include "lovendak.h"
#include <stdio.h>
#include <stdlib.h>
#include <string.h>

enum { MOST_BYTES = 1 << 20, MOST_NUMBERS = 1 << 16, MOST_STEPS = 99 };

static uint8_t bytes[MOST_BYTES];
static uint64_t numbers[MOST_NUMBERS];
static uint32_t path[MOST_STEPS];
static char line[2 * MOST_BYTES + 99];
static lovendak_tree tree = LOVENDAK_EMPTY;

/* The next word of the line, or none. */
static char *word(void) { return strtok(NULL, " \n"); }

static uint64_t number(void) {
  char *at = word();
  return at ? strtoull(at, NULL, 10) : 0;
}

static uint32_t small(void) { return (uint32_t)number(); }

/* The bytes of the next word: how many. */
static size_t read_bytes(void) {
  const char *at = word();
  size_t len = 0;
  unsigned byte;
  for (at += *at == 'x'; sscanf(at, "%2x", &byte) == 1 && len < MOST_BYTES; at += 2) bytes[len++] = (uint8_t)byte;
  return len;
}

static size_t read_numbers(void) {
  size_t count = 0;
  for (char *at; count < MOST_NUMBERS && (at = word());) numbers[count++] = strtoull(at, NULL, 10);
  return count;
}

static size_t read_path(void) {
  size_t steps = 0;
  for (char *at = word(); *at == '/' && at[1] && steps < MOST_STEPS;) path[steps++] = (uint32_t)strtoul(at + 1, &at, 10);
  return steps;
}

#define SOME(at, len) ((len) ? (at) : NULL)

static void say_bytes(uint32_t code, size_t len) {
  printf("%u", code);
  if (code == LOVENDAK_OK) printf(" x");
  for (size_t i = 0; code == LOVENDAK_OK && i < len; i++) printf("%02x", bytes[i]);
  if (code == LOVENDAK_ROOM) printf(" %zu", len);
  putchar('\n');
}

static void say_number(uint32_t code, uint64_t given) {
  if (code) printf("%u\n", code);
  else printf("0 %llu\n", (unsigned long long)given);
}

/* What begins something, or reads it: the code. */
static int64_t begin(const char *name, uint32_t *made) {
  uint32_t first = small();
  if (!strcmp(name, "list")) return lovendak_tree_list(&tree, first, made);
  if (!strcmp(name, "struct")) return lovendak_tree_struct(&tree, (uint16_t)first, (uint16_t)small(), made);
  if (!strcmp(name, "structs")) return lovendak_tree_structs(&tree, (uint16_t)first, (uint16_t)small(), made);
  size_t len = read_bytes();
  return lovendak_tree_read(&tree, SOME(bytes, len), len, first, made);
}

static int begins(const char *name) {
  return !strcmp(name, "list") || !strcmp(name, "struct") || !strcmp(name, "structs") || !strcmp(name, "read");
}

/* What sets something, or puts it together; the code, or -1. */
static int64_t set(const char *name) {
  uint32_t at, pointer, bits;
  size_t len;
  if (!strcmp(name, "new")) return lovendak_tree_new(&tree);
  if (!strcmp(name, "free")) return lovendak_tree_free(&tree);
  if (strcmp(name, "put") && strcmp(name, "push") && strncmp(name, "set_", 4)) return -1;
  at = small(), pointer = small();
  if (!strcmp(name, "push")) return lovendak_tree_push(&tree, at, pointer);
  if (!strcmp(name, "put")) return lovendak_tree_put(&tree, at, pointer, small());
  if (!strcmp(name, "set_cap")) return lovendak_tree_set_cap(&tree, at, pointer, small());
  if (!strcmp(name, "set_number")) return bits = pointer, pointer = small(), lovendak_tree_set_number(&tree, at, bits, pointer, number());
  if (!strcmp(name, "set_text")) return len = read_bytes(), lovendak_tree_set_text(&tree, at, pointer, SOME(bytes, len), len);
  if (!strcmp(name, "set_data")) return len = read_bytes(), lovendak_tree_set_data(&tree, at, pointer, SOME(bytes, len), len);
  if (strcmp(name, "set_numbers")) return -1;
  bits = small(), len = read_numbers();
  return lovendak_tree_set_numbers(&tree, at, pointer, bits, SOME(numbers, len), len);
}

/* What hands something out, into the room that the line says where it does. */
static int get(const char *name) {
  uint32_t code, kind = 0, small_one = 0, at = small();
  uint64_t large = 0;
  size_t steps, len = 0, room;
  if (!strcmp(name, "write")) {
    small_one = small(), room = (size_t)number();
    code = lovendak_tree_write(&tree, at, small_one, SOME(bytes, room), room, &len);
    return say_bytes(code, len), 1;
  }
  steps = read_path();
  const uint32_t *way = SOME(path, steps);
  if (!strcmp(name, "kind")) {
    code = lovendak_tree_kind(&tree, at, way, steps, &kind, &small_one);
    return code ? printf("%u\n", code) : printf("0 %u %u\n", kind, small_one), 1;
  }
  if (!strcmp(name, "number")) {
    kind = small(), small_one = small();
    code = lovendak_tree_number(&tree, at, way, steps, kind, small_one, &large);
    return say_number(code, large), 1;
  }
  if (!strcmp(name, "cap")) return code = lovendak_tree_cap(&tree, at, way, steps, &small_one), say_number(code, small_one), 1;
  room = (size_t)number();
  if (!strcmp(name, "text")) return code = lovendak_tree_text(&tree, at, way, steps, SOME(bytes, room), room, &len), say_bytes(code, len), 1;
  if (!strcmp(name, "data")) return code = lovendak_tree_data(&tree, at, way, steps, SOME(bytes, room), room, &len), say_bytes(code, len), 1;
  return 0;
}

int main(void) {
  while (fgets(line, sizeof line, stdin)) {
    const char *name = strtok(line, " \n");
    uint32_t made = 0;
    if (!name) continue;
    int64_t code = begins(name) ? begin(name, &made) : set(name);
    if (begins(name)) say_number((uint32_t)code, made);
    else if (code >= 0) printf("%u\n", (uint32_t)code);
    else if (!get(name)) return fprintf(stderr, "trees: no function %s\n", name), 2;
  }
  lovendak_tree_free(&tree);
  return 0;
}
