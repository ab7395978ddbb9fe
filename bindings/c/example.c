/* Serves counters over TCP to peers of any make, to 64 clients at a time:  example PORT [CLIENTS]
 * Of the registry of interop/registry.capnp it has makeCounter, makeRegistry, echo and same. It lets go of a counter once its client has
 * released it (LOVENDAK_RELEASED). When a client has gone, it prints how many counters that client had left. It ends after so many
 * CLIENTS, if that is given. */
#include "lovendak.h"
#include <arpa/inet.h>
#include <errno.h>
#include <fcntl.h>
#include <poll.h>
#include <signal.h>
#include <stdio.h>
#include <stdlib.h>
#include <unistd.h>

#define COUNTER UINT64_C(0xa5e1c0ffee000001)
#define REGISTRY UINT64_C(0xa5e1c0ffee000004)
enum { ADD = 0, MAKE_COUNTER = 0, MAKE_REGISTRY = 3, ECHO = 4, SAME = 6 };
enum { ROOT = 0, MOST_COUNTERS = 1000, MOST_CLIENTS = 64, PIECE = 4096 };

/* The sums of a client's counters, that of object 1 first. The first `used` places have had a counter, and those in `unused` have none
 * any more. */
struct counters {
  uint64_t sums[MOST_COUNTERS];
  size_t used, unused[MOST_COUNTERS], unused_len;
};

/* A client's socket, or -1; its vat, its counters, room for what an event carries, and the bytes that wait until the client takes
 * them. */
struct service {
  int client;
  lovendak_vat vat;
  struct counters counters;
  lovendak_event event;
  uint8_t *payload;
  size_t room;
  uint64_t refs[16];
  uint8_t out[PIECE];
  size_t out_len, sent;
};

/* Makes a counter: its object, or ROOT if there are too many. */
static uint64_t make_counter(struct counters *c, uint64_t first) {
  size_t place = c->unused_len ? c->unused[--c->unused_len] : c->used;
  if (place == MOST_COUNTERS) return ROOT;
  if (place == c->used) c->used++;
  c->sums[place] = first;
  return place + 1;
}

/* No call for the counter comes any more, and its object may be another one from now on. */
static void release_counter(struct counters *c, uint64_t object) { c->unused[c->unused_len++] = object - 1; }

/* The bytes of a struct of `count` data words, which are that number, and of so many capabilities. */
static uint32_t contents(uint16_t count, uint64_t number, uint16_t caps, uint8_t *out, size_t room, size_t *len) {
  lovendak_tree tree = LOVENDAK_EMPTY;
  uint32_t root, code = lovendak_tree_new(&tree);
  if (!code) code = lovendak_tree_struct(&tree, count, caps, &root);
  for (uint16_t i = 0; !code && i < count; i++) code = lovendak_tree_set_number(&tree, root, 64, i, number);
  for (uint16_t i = 0; !code && i < caps; i++) code = lovendak_tree_set_cap(&tree, root, i, i);
  if (!code) code = lovendak_tree_write(&tree, root, caps, out, room, len);
  lovendak_tree_free(&tree);
  return code;
}

/* Answers the event's call with what it was given, or with a number or an object. */
static uint32_t answer(struct service *s, uint16_t count, uint64_t number, uint16_t caps, uint64_t object) {
  uint8_t out[64];
  size_t len;
  uint64_t ref;
  uint32_t code = contents(count, number, caps, out, sizeof out, &len);
  if (code || caps == 0) return code ? code : lovendak_answer(&s->vat, s->event.number, out, len, NULL, 0);
  if ((code = lovendak_host(&s->vat, object, &ref))) return code;
  code = lovendak_answer(&s->vat, s->event.number, out, len, &ref, 1);
  lovendak_drop_ref(&s->vat, ref);
  return code;
}

/* The first data word of the event's payload; 0 if that is no struct. */
static uint32_t first_number(const struct service *s, uint64_t *number) {
  lovendak_tree tree = LOVENDAK_EMPTY;
  uint32_t read, code = lovendak_tree_new(&tree);
  *number = 0;
  if (!code) code = lovendak_tree_read(&tree, s->payload, s->event.payload_len, (uint32_t)s->event.refs_len, &read);
  if (!code) code = lovendak_tree_number(&tree, read, NULL, 0, 64, 0, number);
  lovendak_tree_free(&tree);
  return code == LOVENDAK_NOTHING ? LOVENDAK_OK : code;
}

static uint32_t fail(struct service *s, uint32_t kind, const char *reason, size_t len) {
  return lovendak_fail(&s->vat, s->event.number, kind, (const uint8_t *)reason, len);
}
#define FAIL(s, kind, reason) fail(s, kind, reason, sizeof(reason) - 1)

static uint32_t serve(struct service *s) {
  const lovendak_event *e = &s->event;
  uint64_t number, made;
  uint32_t code = first_number(s, &number);
  if (code) return code;
  if (e->interface_id == REGISTRY && e->object == ROOT) switch (e->method) {
    case MAKE_COUNTER:
      made = make_counter(&s->counters, number);
      return made == ROOT ? FAIL(s, LOVENDAK_OVERLOADED, "too many counters") : answer(s, 0, 0, 1, made);
    case MAKE_REGISTRY:
      return answer(s, 0, 0, 1, ROOT);
    case ECHO:
    case SAME:
      return lovendak_answer(&s->vat, e->number, s->payload, e->payload_len, s->refs, e->refs_len);
  }
  if (e->interface_id == COUNTER && e->object != ROOT && e->method == ADD) {
    uint64_t *sum = &s->counters.sums[e->object - 1];
    if (number > UINT64_MAX - *sum) return FAIL(s, LOVENDAK_FAILED, "the sum is too large");
    return answer(s, 1, *sum += number, 0, 0);
  }
  return FAIL(s, LOVENDAK_UNIMPLEMENTED, "no such method");
}

/* Serves the calls that came, and lets go of what was released, until there is no event any more. */
static uint32_t work(struct service *s) {
  for (;;) {
    uint32_t code = lovendak_next_event(&s->vat, &s->event, s->payload, s->room, s->refs, 16);
    if (code == LOVENDAK_NOTHING) return LOVENDAK_OK;
    if (code == LOVENDAK_ROOM) {
      uint8_t *larger = s->event.refs_len > 16 ? NULL : realloc(s->payload, s->event.payload_len);
      if (!larger) return code;
      s->payload = larger;
      s->room = s->event.payload_len;
      continue;
    }
    if (code == LOVENDAK_OK && s->event.kind == LOVENDAK_SERVE) {
      code = serve(s);
      for (size_t i = 0; i < s->event.refs_len; i++) lovendak_drop_ref(&s->vat, s->refs[i]);
    }
    if (code) return code;
    if (s->event.kind == LOVENDAK_RELEASED) release_counter(&s->counters, s->event.object);
  }
}

/* Sends what goes out, as much as the client takes; false where it is gone. */
static int send_some(struct service *s) {
  for (;;) {
    if (s->sent == s->out_len) {
      s->sent = s->out_len = 0;
      if (lovendak_outgoing(&s->vat, s->out, PIECE, &s->out_len) || s->out_len == 0) return 1;
    }
    ssize_t n = write(s->client, s->out + s->sent, s->out_len - s->sent);
    if (n < 0) return errno == EAGAIN;
    s->sent += (size_t)n;
  }
}

static int is_sending(const struct service *s) { return s->sent < s->out_len; }

static uint32_t begin(struct service *s, int client) {
  fcntl(client, F_SETFL, O_NONBLOCK);
  *s = (struct service){.client = client, .vat = LOVENDAK_EMPTY, .payload = malloc(PIECE), .room = PIECE};
  return s->payload ? lovendak_new(&s->vat, 1, 1, ROOT) : LOVENDAK_MEMORY;
}

static void end(struct service *s, uint32_t code) {
  if (code) fprintf(stderr, "a conversation ended with code %u\n", code);
  printf("a client has gone, and left %zu counters\n", s->counters.used - s->counters.unused_len);
  fflush(stdout);
  lovendak_free(&s->vat);
  free(s->payload);
  close(s->client);
  s->client = -1;
}

/* A step of a conversation: what is there is read, the calls in it are served, and what is to be sent is written. A client that does
 * not read is not heard. False where it has ended; the code says why, if it is not 0. */
static int go_on(struct service *s, uint32_t *code) {
  uint8_t in[PIECE];
  uint32_t number;
  if (!is_sending(s)) {
    ssize_t n = read(s->client, in, sizeof in);
    if (n <= 0) return n < 0 && errno == EAGAIN;
    *code = lovendak_received(&s->vat, in, (size_t)n);
    if (!*code) *code = work(s);
  }
  if (!send_some(s)) return 0;
  return !*code && (is_sending(s) || lovendak_down(&s->vat, &number) != LOVENDAK_OK);
}

/* Waits until there is something to do for a client, and does it. A new client gets the first place that is free. */
static void turn(int listener, struct service *all, long *left) {
  struct pollfd polled[MOST_CLIENTS + 1];
  struct service *unused = NULL;
  for (int i = 0; i < MOST_CLIENTS; i++) {
    polled[i] = (struct pollfd){.fd = all[i].client, .events = is_sending(&all[i]) ? POLLOUT : POLLIN};
    if (all[i].client < 0) unused = &all[i];
  }
  polled[MOST_CLIENTS] = (struct pollfd){.fd = unused && *left ? listener : -1, .events = POLLIN};
  if (poll(polled, MOST_CLIENTS + 1, -1) < 0) return;
  for (int i = 0; i < MOST_CLIENTS; i++) {
    uint32_t code = LOVENDAK_OK;
    if (polled[i].revents && !go_on(&all[i], &code)) end(&all[i], code);
  }
  int client = polled[MOST_CLIENTS].revents ? accept(listener, NULL, NULL) : -1;
  if (client < 0) return;
  *left -= *left > 0;
  uint32_t code = begin(unused, client);
  if (code) end(unused, code);
}

static int is_serving(const struct service *all) {
  for (int i = 0; i < MOST_CLIENTS; i++)
    if (all[i].client >= 0) return 1;
  return 0;
}

int main(int words, char **word) {
  static struct service all[MOST_CLIENTS];
  struct sockaddr_in at = {.sin_family = AF_INET, .sin_addr.s_addr = htonl(INADDR_LOOPBACK)};
  int yes = 1, listener = socket(AF_INET, SOCK_STREAM, 0);
  if (words < 2) return fprintf(stderr, "usage: example PORT [CLIENTS]\n"), 2;
  signal(SIGPIPE, SIG_IGN);
  at.sin_port = htons((uint16_t)atoi(word[1]));
  setsockopt(listener, SOL_SOCKET, SO_REUSEADDR, &yes, sizeof yes);
  if (bind(listener, (struct sockaddr *)&at, sizeof at) || listen(listener, 9)) return perror("example"), 2;
  for (int i = 0; i < MOST_CLIENTS; i++) all[i].client = -1;
  for (long left = words > 2 ? atol(word[2]) : -1; left || is_serving(all);) turn(listener, all, &left);
  close(listener);
  return 0;
}
