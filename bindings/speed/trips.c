/* Round trips between two vats in one process, as `crates/bench_connection` makes them:  trips COUNT
 * A round trip is a call with a null payload, its delivery, its answer, its end and its Finish. */
#include "lovendak.h"
#include <stdio.h>
#include <stdlib.h>

/* A message of one segment whose root is null. */
static const uint8_t null_payload[16] = {0, 0, 0, 0, 1};
static const uint64_t no_refs[1];

static void done(uint32_t code) {
  if (code == LOVENDAK_OK) return;
  fprintf(stderr, "code %u\n", code);
  exit(1);
}

static void send_to(lovendak_vat *from, lovendak_vat *to) {
  static uint8_t bytes[4096];
  size_t len;
  for (;;) {
    done(lovendak_outgoing(from, bytes, sizeof bytes, &len));
    if (len == 0) return;
    done(lovendak_received(to, bytes, len));
  }
}

/* The number of the next event, which has to be of that kind. That a place of the peer is known is no news here. */
static uint64_t next(lovendak_vat *vat, uint32_t kind) {
  static uint8_t payload[256];
  uint64_t refs[1];
  lovendak_event event;
  do done(lovendak_next_event(vat, &event, payload, sizeof payload, refs, 1));
  while (event.kind == LOVENDAK_RESOLVED);
  if (event.kind != kind) exit(1);
  if (event.refs_len) done(lovendak_drop_ref(vat, refs[0]));
  return event.number;
}

int main(int words, char **word) {
  lovendak_vat a = LOVENDAK_EMPTY, b = LOVENDAK_EMPTY;
  uint64_t call, root;
  done(lovendak_new(&a, 1, 0, 0));
  done(lovendak_new(&b, 1, 1, 0));
  done(lovendak_bootstrap(&a, &call));
  done(lovendak_result_of(&a, call, &root));
  send_to(&a, &b);
  send_to(&b, &a);
  next(&a, LOVENDAK_ENDED);
  for (long left = words > 1 ? atol(word[1]) : 0; left > 0; left--) {
    done(lovendak_call(&a, root, 0, 0, null_payload, sizeof null_payload, no_refs, 0, &call));
    send_to(&a, &b);
    done(lovendak_answer(&b, next(&b, LOVENDAK_SERVE), null_payload, sizeof null_payload, no_refs, 0));
    send_to(&b, &a);
    done(lovendak_finish(&a, next(&a, LOVENDAK_ENDED)));
    send_to(&a, &b);
  }
  done(lovendak_free(&a));
  done(lovendak_free(&b));
  return 0;
}
