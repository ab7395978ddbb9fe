/* The codes of the C interface that no other language's face of it lets through: of an empty handle and one in use, of too little room,
 * of numbers that are none, of bytes that are no payload, and those of trees. Beside a length of 0 each pointer is null. Two vats in one
 * process. */
#include "lovendak.h"
#include <stdio.h>
#include <stdlib.h>
#include <string.h>

_Static_assert(sizeof(lovendak_vat) == 16 && offsetof(lovendak_vat, at) == 8, "the handle's layout");
_Static_assert(sizeof(lovendak_event) == 64 && offsetof(lovendak_event, place) == 16 && offsetof(lovendak_event, payload_len) == 48,
               "the event's layout");
_Static_assert(sizeof(lovendak_place) == 24 && offsetof(lovendak_place, number) == 16, "the layout of a place");
_Static_assert(sizeof(lovendak_tree) == 16 && offsetof(lovendak_tree, at) == 8, "the layout of the handle of trees");

#define IS(is, wanted) check((unsigned long long)(is), (unsigned long long)(wanted), #is, __LINE__)

static void check(unsigned long long is, unsigned long long wanted, const char *what, int line) {
  if (is == wanted) return;
  printf("codes.c:%d: %s is %llu, not %llu\n", line, what, is, wanted);
  exit(1);
}

static void hand_over(lovendak_vat *from, lovendak_vat *to) {
  uint8_t bytes[7];
  size_t len;
  do {
    IS(lovendak_outgoing(from, bytes, sizeof bytes, &len), LOVENDAK_OK);
    IS(lovendak_received(to, bytes, len), LOVENDAK_OK);
  } while (len > 0);
}

/* Every call on an empty handle answers the same, and writes nothing. */
static void empty_handle(lovendak_vat *vat) {
  lovendak_event event = {0};
  lovendak_place place = {0};
  uint8_t bytes[8] = {0};
  uint64_t number = 77, more = 77;
  uint32_t small = 77;
  size_t len = 77, lens[] = {77, 77, 77};
  IS(lovendak_free(vat), LOVENDAK_EMPTY_HANDLE);
  IS(lovendak_received(vat, bytes, 8), LOVENDAK_EMPTY_HANDLE);
  IS(lovendak_ended(vat), LOVENDAK_EMPTY_HANDLE);
  IS(lovendak_outgoing(vat, bytes, 8, &len), LOVENDAK_EMPTY_HANDLE);
  IS(lovendak_pending(vat, &len, &small), LOVENDAK_EMPTY_HANDLE);
  IS(lovendak_load(vat, &number, &more), LOVENDAK_EMPTY_HANDLE);
  IS(lovendak_set_limits(vat, 0, 0), LOVENDAK_EMPTY_HANDLE);
  IS(lovendak_wants_bytes(vat, &small), LOVENDAK_EMPTY_HANDLE);
  IS(lovendak_set_finishes(vat, LOVENDAK_AFTER_RETURN), LOVENDAK_EMPTY_HANDLE);
  IS(lovendak_next_event(vat, &event, NULL, 0, NULL, 0), LOVENDAK_EMPTY_HANDLE);
  IS(lovendak_down(vat, &small), LOVENDAK_EMPTY_HANDLE);
  IS(lovendak_shares_nothing(vat, &small), LOVENDAK_EMPTY_HANDLE);
  IS(lovendak_calls_made(vat, 0, &number), LOVENDAK_EMPTY_HANDLE);
  IS(lovendak_leads_to(vat, 0, &place), LOVENDAK_EMPTY_HANDLE);
  IS(lovendak_table_sizes(vat, &len, &lens[0], &lens[1], &lens[2]), LOVENDAK_EMPTY_HANDLE);
  IS(lovendak_bootstrap(vat, &number), LOVENDAK_EMPTY_HANDLE);
  IS(lovendak_result_of(vat, 0, &number), LOVENDAK_EMPTY_HANDLE);
  IS(lovendak_field(vat, 0, NULL, 0, &number), LOVENDAK_EMPTY_HANDLE);
  IS(lovendak_host(vat, 0, &number), LOVENDAK_EMPTY_HANDLE);
  IS(lovendak_clone_ref(vat, 0, &number), LOVENDAK_EMPTY_HANDLE);
  IS(lovendak_drop_ref(vat, 0), LOVENDAK_EMPTY_HANDLE);
  IS(lovendak_call(vat, 0, 0, 0, bytes, 8, NULL, 0, &number), LOVENDAK_EMPTY_HANDLE);
  IS(lovendak_finish(vat, 0), LOVENDAK_EMPTY_HANDLE);
  IS(lovendak_answer(vat, 0, bytes, 8, NULL, 0), LOVENDAK_EMPTY_HANDLE);
  IS(lovendak_fail(vat, 0, 0, NULL, 0), LOVENDAK_EMPTY_HANDLE);
  IS(lovendak_promise(vat, &number, &more), LOVENDAK_EMPTY_HANDLE);
  IS(lovendak_resolve(vat, 0, 0), LOVENDAK_EMPTY_HANDLE);
  IS(lovendak_reject(vat, 0, 0, NULL, 0), LOVENDAK_EMPTY_HANDLE);
  IS(lovendak_advance(vat, 0, &small), LOVENDAK_EMPTY_HANDLE);
  IS(lovendak_shut(vat, 0), LOVENDAK_EMPTY_HANDLE);
  IS(number == 77 && more == 77 && small == 77 && len == 77 && event.kind == 0 && place.kind == 0, 1);
  IS(lens[0] == 77 && lens[1] == 77 && lens[2] == 77, 1);
}

/* Room that is too small takes nothing, and says what is wanted. */
static void small_rooms(lovendak_vat *a, lovendak_vat *b) {
  static const uint16_t first[] = {0};
  const uint64_t numbers[] = {5, 6};
  uint8_t payload[128], text[8];
  uint64_t call, root, own, number, refs[2], given[2];
  size_t len, index;
  lovendak_event event;
  IS(lovendak_bootstrap(a, &call), LOVENDAK_OK);
  IS(lovendak_result_of(a, call, &root), LOVENDAK_OK);
  IS(lovendak_host(a, 9, &own), LOVENDAK_OK);
  given[0] = own, given[1] = root;
  IS(lovendak_contents(numbers, 2, 1, (const uint8_t *)"text", 4, 2, payload, 8, &len), LOVENDAK_ROOM);
  IS(len, 8 + 8 * (1 + 2 + 3 + 1)); /* the frame's head; the root pointer, two data words, three pointers, the text */
  IS(lovendak_contents(numbers, 2, 1, (const uint8_t *)"text", 4, 2, payload, sizeof payload, &len), LOVENDAK_OK);
  IS(lovendak_call(a, root, 1, 2, payload, len, given, 2, &call), LOVENDAK_OK);
  hand_over(a, b);
  IS(lovendak_received(b, NULL, 0), LOVENDAK_OK);
  IS(lovendak_outgoing(b, NULL, 0, &index), LOVENDAK_OK);
  IS(index, 0);
  IS(lovendak_next_event(b, &event, NULL, 0, NULL, 0), LOVENDAK_ROOM);
  memset(payload, 0, sizeof payload);
  IS(lovendak_next_event(b, &event, payload, len - 1, refs, 2), LOVENDAK_ROOM);
  IS(lovendak_next_event(b, &event, payload, len, refs, 1), LOVENDAK_ROOM);
  IS(event.kind == LOVENDAK_SERVE && event.payload_len == len && event.refs_len == 2, 1);
  IS(lovendak_next_event(b, &event, payload, len, refs, 2), LOVENDAK_OK);
  IS(lovendak_next_event(b, &event, payload, len, refs, 2), LOVENDAK_NOTHING);
  IS(lovendak_number_at(payload, len, 2, 1, &number), LOVENDAK_OK);
  IS(number, 6);
  IS(lovendak_text_at(payload, len, 2, 0, text, 3, &len), LOVENDAK_ROOM);
  IS(len, 4);
  len = event.payload_len;
  IS(lovendak_ref_at(payload, len, 2, first, 1, &index), LOVENDAK_NOTHING);
  IS(lovendak_text_at(payload, len, 2, 1, text, sizeof text, &len), LOVENDAK_NOTHING);
}

static void no_such_numbers(lovendak_vat *vat) {
  lovendak_vat other = LOVENDAK_EMPTY;
  uint64_t call;
  size_t len;
  uint8_t out[64];
  IS(lovendak_new(vat, 1, 0, 0), LOVENDAK_IN_USE);
  IS(lovendak_new(&other, 2, 0, 0), LOVENDAK_NO_SUCH_NUMBER);
  IS(lovendak_fail(vat, 0, 4, NULL, 0), LOVENDAK_NO_SUCH_NUMBER);
  IS(lovendak_reject(vat, 0, 4, NULL, 0), LOVENDAK_NO_SUCH_NUMBER);
  IS(lovendak_shut(vat, 65536), LOVENDAK_NO_SUCH_NUMBER);
  IS(lovendak_set_finishes(vat, 2), LOVENDAK_NO_SUCH_NUMBER);
  IS(lovendak_fail(vat, 0, 0, (const uint8_t *)"\xff", 1), LOVENDAK_NO_PAYLOAD);
  IS(lovendak_contents(NULL, 0, 1, (const uint8_t *)"\xff", 1, 0, out, sizeof out, &len), LOVENDAK_NO_PAYLOAD);
  IS(lovendak_call(vat, 0, 0, 0, (const uint8_t *)"none", 4, NULL, 0, &call), LOVENDAK_NO_PAYLOAD);
  IS(lovendak_call(vat, 0, 0, 0, NULL, 0, NULL, 0, &call), LOVENDAK_NO_PAYLOAD);
  IS(lovendak_contents(NULL, 0, 1, NULL, 0, 0, NULL, 0, &len), LOVENDAK_ROOM);
  IS(len, 8 * (1 + 1 + 1 + 1)); /* the frame's head; the root pointer, a pointer, the empty text */
}

/* Every call on an empty handle of trees answers the same, and writes nothing. */
static void empty_trees(lovendak_tree *tree) {
  uint32_t small = 77, more = 77;
  uint64_t number = 77;
  size_t len = 77;
  IS(lovendak_tree_free(tree), LOVENDAK_EMPTY_HANDLE);
  IS(lovendak_tree_struct(tree, 1, 1, &small), LOVENDAK_EMPTY_HANDLE);
  IS(lovendak_tree_list(tree, 1, &small), LOVENDAK_EMPTY_HANDLE);
  IS(lovendak_tree_structs(tree, 1, 1, &small), LOVENDAK_EMPTY_HANDLE);
  IS(lovendak_tree_set_number(tree, 0, 64, 0, 0), LOVENDAK_EMPTY_HANDLE);
  IS(lovendak_tree_set_text(tree, 0, 0, NULL, 0), LOVENDAK_EMPTY_HANDLE);
  IS(lovendak_tree_set_data(tree, 0, 0, NULL, 0), LOVENDAK_EMPTY_HANDLE);
  IS(lovendak_tree_set_numbers(tree, 0, 0, 8, NULL, 0), LOVENDAK_EMPTY_HANDLE);
  IS(lovendak_tree_set_cap(tree, 0, 0, 0), LOVENDAK_EMPTY_HANDLE);
  IS(lovendak_tree_put(tree, 0, 0, 1), LOVENDAK_EMPTY_HANDLE);
  IS(lovendak_tree_push(tree, 0, 1), LOVENDAK_EMPTY_HANDLE);
  IS(lovendak_tree_write(tree, 0, 0, NULL, 0, &len), LOVENDAK_EMPTY_HANDLE);
  IS(lovendak_tree_read(tree, NULL, 0, 0, &small), LOVENDAK_EMPTY_HANDLE);
  IS(lovendak_tree_kind(tree, 0, NULL, 0, &small, &more), LOVENDAK_EMPTY_HANDLE);
  IS(lovendak_tree_number(tree, 0, NULL, 0, 64, 0, &number), LOVENDAK_EMPTY_HANDLE);
  IS(lovendak_tree_text(tree, 0, NULL, 0, NULL, 0, &len), LOVENDAK_EMPTY_HANDLE);
  IS(lovendak_tree_data(tree, 0, NULL, 0, NULL, 0, &len), LOVENDAK_EMPTY_HANDLE);
  IS(lovendak_tree_cap(tree, 0, NULL, 0, &small), LOVENDAK_EMPTY_HANDLE);
  IS(small == 77 && more == 77 && number == 77 && len == 77, 1);
}

/* What is refused of contents that are built. The struct 0 has a data word and two pointers, the list 1 structs of a data word. */
static void refused_trees(lovendak_tree *tree) {
  uint32_t made;
  IS(lovendak_tree_new(tree), LOVENDAK_IN_USE);
  IS(lovendak_tree_struct(tree, 1, 2, &made), LOVENDAK_OK);
  IS(made, 0);
  IS(lovendak_tree_structs(tree, 1, 0, &made), LOVENDAK_OK);
  IS(made, 1);
  IS(lovendak_tree_list(tree, 65536, &made), LOVENDAK_FULL);
  IS(lovendak_tree_set_number(tree, 0, 64, 1, 0), LOVENDAK_NOTHING);
  IS(lovendak_tree_set_number(tree, 1, 64, 0, 0), LOVENDAK_NOTHING);
  IS(lovendak_tree_set_number(tree, 2, 64, 0, 0), LOVENDAK_NOTHING);
  IS(lovendak_tree_set_number(tree, 0, 24, 0, 0), LOVENDAK_NO_SUCH_NUMBER);
  IS(lovendak_tree_set_number(tree, 0, 8, 0, 256), LOVENDAK_NO_SUCH_NUMBER);
  IS(lovendak_tree_set_text(tree, 0, 0, (const uint8_t *)"\xff", 1), LOVENDAK_NO_PAYLOAD);
  IS(lovendak_tree_set_text(tree, 0, 2, NULL, 0), LOVENDAK_NOTHING);
  IS(lovendak_tree_set_numbers(tree, 0, 0, 0, NULL, 0), LOVENDAK_NO_SUCH_NUMBER);
  IS(lovendak_tree_put(tree, 0, 0, 0), LOVENDAK_NOTHING);
  IS(lovendak_tree_put(tree, 0, 2, 1), LOVENDAK_NOTHING);
  IS(lovendak_tree_push(tree, 1, 0), LOVENDAK_NOTHING);
}

/* What is refused of contents that are written, and of a payload that was read. The pointer 1 leads to the second capability. */
static void looked_into(lovendak_tree *tree) {
  static const uint32_t text[] = {0}, capability[] = {1}, no_way[] = {1, 0};
  uint8_t bytes[64];
  uint32_t made, kind, small;
  uint64_t number;
  size_t len;
  IS(lovendak_tree_set_text(tree, 0, 0, (const uint8_t *)"text", 4), LOVENDAK_OK);
  IS(lovendak_tree_set_cap(tree, 0, 1, 1), LOVENDAK_OK);
  IS(lovendak_tree_write(tree, 0, 1, bytes, sizeof bytes, &len), LOVENDAK_CAP_COUNT);
  IS(lovendak_tree_write(tree, 0, 2, NULL, 0, &len), LOVENDAK_ROOM);
  IS(len, 8 * (1 + 1 + 1 + 2 + 1));
  IS(lovendak_tree_write(tree, 0, 2, bytes, sizeof bytes, &len), LOVENDAK_OK);
  IS(lovendak_tree_read(tree, bytes, len, 1, &made), LOVENDAK_NO_PAYLOAD);
  IS(lovendak_tree_read(tree, NULL, 0, 0, &made), LOVENDAK_NO_PAYLOAD);
  IS(lovendak_tree_read(tree, bytes, len, 2, &made), LOVENDAK_OK);
  IS(made, 2);
  IS(lovendak_tree_kind(tree, 0, NULL, 0, &kind, &small), LOVENDAK_NOTHING);
  IS(lovendak_tree_kind(tree, made, capability, 1, &kind, &small), LOVENDAK_OK);
  IS(kind == LOVENDAK_TREE_CAP && small == 1, 1);
  IS(lovendak_tree_kind(tree, made, no_way, 2, &kind, &small), LOVENDAK_NOTHING);
  IS(lovendak_tree_number(tree, made, NULL, 0, 65, 0, &number), LOVENDAK_NO_SUCH_NUMBER);
  IS(lovendak_tree_number(tree, made, capability, 1, 64, 0, &number), LOVENDAK_NOTHING);
  IS(lovendak_tree_text(tree, made, capability, 1, bytes, sizeof bytes, &len), LOVENDAK_NOTHING);
  IS(lovendak_tree_text(tree, made, text, 1, bytes, 3, &len), LOVENDAK_ROOM);
  IS(len, 4);
  IS(lovendak_tree_data(tree, made, NULL, 0, bytes, sizeof bytes, &len), LOVENDAK_NOTHING);
  IS(lovendak_tree_cap(tree, made, text, 1, &small), LOVENDAK_NOTHING);
  IS(lovendak_tree_set_number(tree, made, 64, 0, 0), LOVENDAK_NOTHING);
}

static void trees(void) {
  lovendak_tree tree = LOVENDAK_EMPTY;
  empty_trees(&tree);
  IS(lovendak_tree_new(&tree), LOVENDAK_OK);
  refused_trees(&tree);
  looked_into(&tree);
  IS(lovendak_tree_free(&tree), LOVENDAK_OK);
  empty_trees(&tree);
}

int main(void) {
  lovendak_vat a = LOVENDAK_EMPTY, b;
  uint32_t number;
  memset(&b, 0x55, sizeof b); /* a handle that was never set: empty, since the magic number is not there */
  IS(lovendak_version(), LOVENDAK_INTERFACE);
  empty_handle(&a);
  empty_handle(&b);
  IS(lovendak_new(&a, 1, 0, 0), LOVENDAK_OK);
  IS(lovendak_new(&b, 1, 1, 0), LOVENDAK_OK);
  small_rooms(&a, &b);
  no_such_numbers(&a);
  IS(lovendak_down(&a, &number), LOVENDAK_NOTHING);
  IS(lovendak_shut(&a, 65535), LOVENDAK_OK);
  IS(lovendak_down(&a, &number), LOVENDAK_OK);
  IS(number, 65535);
  IS(lovendak_free(&a), LOVENDAK_OK);
  IS(lovendak_free(&b), LOVENDAK_OK);
  empty_handle(&a);
  empty_handle(&b);
  trees();
  puts("the codes are right");
  return 0;
}
