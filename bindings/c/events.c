/* What an application is told of its objects and of the peer's, and what it may ask: each event and question of the C interface that
 * calls and their ends don't cause. Two vats in one process. */
#include "lovendak.h"
#include <stdio.h>
#include <stdlib.h>
#include <string.h>

enum { ROOT = 7, OBJECT = 9, OTHER = 10, INTERFACE = 1 };

/* What a length of 0 stands beside. */
static const uint64_t no_refs[1];

#define IS(is, wanted) check((unsigned long long)(is), (unsigned long long)(wanted), #is, __LINE__)
#define DONE(call) IS(call, LOVENDAK_OK)

/* The scene that is played. */
static const char *scene;

static void check(unsigned long long is, unsigned long long wanted, const char *what, int line) {
  if (is == wanted) return;
  printf("events.c:%d: %s: %s is %llu, not %llu\n", line, scene, what, is, wanted);
  exit(1);
}

/* Vat a, which has a reference to the bootstrap object of vat b; and the references that came with the last event. */
struct pair {
  lovendak_vat a, b;
  uint64_t asked, root;
  uint64_t refs[4];
};

/* Hands over what a vat has to say, in one piece: how many bytes. */
static size_t say(lovendak_vat *from, lovendak_vat *to) {
  static uint8_t bytes[4096];
  size_t len, all = 0;
  for (;;) {
    DONE(lovendak_outgoing(from, bytes + all, sizeof bytes - all, &len));
    if (len == 0) break;
    all += len;
  }
  DONE(lovendak_received(to, bytes, all));
  return all;
}

/* Both say all that they have to say. */
static void speak(struct pair *p) {
  while (say(&p->a, &p->b) + say(&p->b, &p->a) > 0) continue;
}

/* The next event, of kind 0 if there is none. */
static lovendak_event next(struct pair *p, lovendak_vat *vat) {
  static uint8_t payload[4096];
  lovendak_event event = {0};
  uint32_t code = lovendak_next_event(vat, &event, payload, sizeof payload, p->refs, 4);
  if (code != LOVENDAK_NOTHING) DONE(code);
  return event;
}

/* The next event, which has to be of this kind. */
static lovendak_event told(struct pair *p, lovendak_vat *vat, uint32_t kind, int line) {
  lovendak_event event = next(p, vat);
  check(event.kind, kind, "the kind of the event", line);
  return event;
}
#define TOLD(p, vat, kind) told(p, vat, kind, __LINE__)
#define NOTHING_TOLD(p, vat) TOLD(p, vat, 0)

static void released(struct pair *p, lovendak_vat *vat, uint64_t object, int line) {
  lovendak_event event = told(p, vat, LOVENDAK_RELEASED, line);
  check(event.object, object, "the object that is released", line);
  check(event.number + event.payload_len + event.refs_len + event.place, 0, "the rest of the event", line);
  told(p, vat, 0, line);
}
#define RELEASED(p, vat, object) released(p, vat, object, __LINE__)

/* The next event: nobody has use for the results of the task. */
static void cancelled(struct pair *p, lovendak_vat *vat, uint64_t task, int line) {
  lovendak_event event = told(p, vat, LOVENDAK_CANCELLED, line);
  check(event.number, task, "the task that is cancelled", line);
  check(event.object + event.payload_len + event.refs_len + event.place, 0, "the rest of the event", line);
}
#define CANCELLED(p, vat, task) cancelled(p, vat, task, __LINE__)

/* An own call that has ended with that many capabilities; the reference of the first. */
static uint64_t ended(struct pair *p, lovendak_vat *vat, uint64_t call, size_t caps) {
  lovendak_event event = TOLD(p, vat, LOVENDAK_ENDED);
  IS(event.number, call);
  IS(event.is_exception, 0);
  IS(event.refs_len, caps);
  return p->refs[0];
}

/* A task of the vat, to which at most one capability was given: its reference. */
static uint64_t serve(struct pair *p, lovendak_vat *vat, uint64_t *given) {
  lovendak_event event = TOLD(p, vat, LOVENDAK_SERVE);
  IS(event.refs_len, given ? 1 : 0);
  if (given) *given = p->refs[0];
  return event.number;
}

/* Contents with so many capabilities: how many bytes. */
static size_t contents(uint32_t caps, uint8_t *out, size_t room) {
  size_t len;
  DONE(lovendak_contents(no_refs, 0, 0, (const uint8_t *)"", 0, caps, out, room, &len));
  return len;
}

static uint64_t call(lovendak_vat *vat, uint64_t ref, uint64_t given, uint32_t caps) {
  uint8_t payload[64];
  uint64_t made;
  size_t len = contents(caps, payload, sizeof payload);
  DONE(lovendak_call(vat, ref, INTERFACE, 0, payload, len, &given, caps, &made));
  return made;
}

static void answer(lovendak_vat *vat, uint64_t task, uint64_t given, uint32_t caps) {
  uint8_t payload[64];
  size_t len = contents(caps, payload, sizeof payload);
  DONE(lovendak_answer(vat, task, payload, len, &given, caps));
}

static uint64_t host(lovendak_vat *vat, uint64_t object) {
  uint64_t ref;
  DONE(lovendak_host(vat, object, &ref));
  return ref;
}

static void drop(lovendak_vat *vat, uint64_t ref) { DONE(lovendak_drop_ref(vat, ref)); }

/* What a call's results have, or will have, as their first capability. */
static uint64_t first_of(lovendak_vat *vat, uint64_t call) {
  static const uint16_t first[] = {0};
  uint64_t ref;
  DONE(lovendak_field(vat, call, first, 1, &ref));
  return ref;
}

static lovendak_place place(lovendak_vat *vat, uint64_t ref) {
  lovendak_place place;
  memset(&place, 0x55, sizeof place);
  DONE(lovendak_leads_to(vat, ref, &place));
  return place;
}

static void is_place(lovendak_place is, lovendak_place wanted, int line) {
  check(is.kind, wanted.kind, "the kind of the place", line);
  check(is.is_embargoed, wanted.is_embargoed, "is_embargoed", line);
  check(is.is_promise, wanted.is_promise, "is_promise", line);
  check(is.reason, wanted.reason, "the reason", line);
  check(is.number, wanted.number, "the number of the place", line);
}
#define LEADS(vat, ref, ...) is_place(place(vat, ref), (lovendak_place){__VA_ARGS__}, __LINE__)

static void begin(struct pair *p) {
  *p = (struct pair){.a = LOVENDAK_EMPTY, .b = LOVENDAK_EMPTY};
  DONE(lovendak_new(&p->a, 1, 0, 0));
  DONE(lovendak_new(&p->b, 1, 1, ROOT));
  DONE(lovendak_bootstrap(&p->a, &p->asked));
  DONE(lovendak_result_of(&p->a, p->asked, &p->root));
  speak(p);
  drop(&p->a, ended(p, &p->a, p->asked, 1));
  TOLD(p, &p->a, LOVENDAK_RESOLVED); /* the reference to the result may lead on */
  NOTHING_TOLD(p, &p->a);
}

/* ---- An object is released once the last place that names it is gone, whichever it is. */

/* It is told once, and once again if the object was hosted again. */
static void by_a_reference(struct pair *p) {
  for (int time = 0; time < 2; time++) {
    uint64_t refs[] = {host(&p->a, OBJECT), host(&p->a, OBJECT), 0};
    DONE(lovendak_clone_ref(&p->a, refs[0], &refs[2]));
    for (int i = 0; i < 3; i++) {
      NOTHING_TOLD(p, &p->a);
      drop(&p->a, refs[i]);
    }
    RELEASED(p, &p->a, OBJECT);
  }
}

/* Vat a gives an object to b, and keeps no reference and no call: b's reference. */
static uint64_t give(struct pair *p, uint64_t object) {
  uint64_t own = host(&p->a, object), given, made = call(&p->a, p->root, own, 1);
  drop(&p->a, own);
  speak(p);
  answer(&p->b, serve(p, &p->b, &given), 0, 0);
  speak(p);
  ended(p, &p->a, made, 0);
  DONE(lovendak_finish(&p->a, made));
  speak(p);
  NOTHING_TOLD(p, &p->a);
  return given;
}

static void by_an_export(struct pair *p) {
  uint64_t given = give(p, OBJECT);
  drop(&p->b, given);
  NOTHING_TOLD(p, &p->a);
  speak(p);
  RELEASED(p, &p->a, OBJECT);
  NOTHING_TOLD(p, &p->b);
}

static void by_a_promise(struct pair *p) {
  uint64_t own = host(&p->a, OBJECT), promise, promised;
  DONE(lovendak_promise(&p->a, &promise, &promised));
  DONE(lovendak_resolve(&p->a, promise, own));
  drop(&p->a, own);
  NOTHING_TOLD(p, &p->a);
  drop(&p->a, promised);
  RELEASED(p, &p->a, OBJECT);
}

/* That of a call to an object of the same vat. */
static void by_a_kept_outcome(struct pair *p) {
  uint64_t called = host(&p->a, OTHER), own = host(&p->a, OBJECT), made = call(&p->a, called, 0, 0);
  answer(&p->a, serve(p, &p->a, NULL), own, 1);
  drop(&p->a, own);
  drop(&p->a, ended(p, &p->a, made, 1));
  NOTHING_TOLD(p, &p->a);
  DONE(lovendak_finish(&p->a, made));
  RELEASED(p, &p->a, OBJECT);
}

/* Vat b gives a its own object back. Then the results of the call have it alone. */
static void by_a_return(struct pair *p) {
  uint64_t given = give(p, OBJECT), made = call(&p->a, p->root, 0, 0);
  speak(p);
  answer(&p->b, serve(p, &p->b, NULL), given, 1);
  drop(&p->b, given);
  speak(p);
  drop(&p->a, ended(p, &p->a, made, 1));
  NOTHING_TOLD(p, &p->a);
  DONE(lovendak_finish(&p->a, made));
  speak(p);
  RELEASED(p, &p->a, OBJECT);
}

/* A call that waits at a promise has the object for a parameter, until it fails. */
static void by_a_call_that_waits(struct pair *p) {
  uint64_t own = host(&p->a, OBJECT), promise, promised;
  DONE(lovendak_promise(&p->a, &promise, &promised));
  uint64_t made = call(&p->a, promised, own, 1);
  drop(&p->a, own);
  NOTHING_TOLD(p, &p->a);
  DONE(lovendak_reject(&p->a, promise, LOVENDAK_FAILED, (const uint8_t *)"", 0));
  IS(TOLD(p, &p->a, LOVENDAK_ENDED).number, made);
  RELEASED(p, &p->a, OBJECT);
}

/* A promise that b gives to a: its number there, and a's reference. */
static uint64_t promised_by_b(struct pair *p, uint64_t *ref) {
  uint64_t made = call(&p->a, p->root, 0, 0), promise, own;
  speak(p);
  DONE(lovendak_promise(&p->b, &promise, &own));
  answer(&p->b, serve(p, &p->b, NULL), own, 1);
  drop(&p->b, own);
  speak(p);
  *ref = ended(p, &p->a, made, 1);
  DONE(lovendak_finish(&p->a, made));
  return promise;
}

/* A reference of a to a promise of b, which b resolved to an object of a: it has taken the shorter path, under an embargo. */
struct embargoed {
  uint64_t ref, given;
};

static struct embargoed embargo(struct pair *p) {
  struct embargoed it;
  uint64_t promise = promised_by_b(p, &it.ref);
  uint32_t advanced;
  it.given = give(p, OBJECT);
  DONE(lovendak_resolve(&p->b, promise, it.given));
  say(&p->b, &p->a);
  lovendak_event event = TOLD(p, &p->a, LOVENDAK_RESOLVED);
  IS(event.place, LOVENDAK_IMPORT);
  LEADS(&p->a, it.ref, .kind = LOVENDAK_IMPORT, .number = event.number);
  DONE(lovendak_advance(&p->a, it.ref, &advanced));
  IS(advanced, LOVENDAK_EMBARGOED);
  LEADS(&p->a, it.ref, .kind = LOVENDAK_OWN, .is_embargoed = 1, .number = OBJECT);
  return it;
}

/* The frame by which a peer releases the export 0, of which it has one. */
static void release_by_hand(lovendak_vat *vat) {
  static const uint8_t release[] = {
      0, 0, 0, 0, 4, 0, 0, 0, 0, 0, 0, 0, 1, 0, 1, 0, /* one segment of four words; the message */
      6, 0, 0, 0, 0, 0, 0, 0, 0, 0, 0, 0, 1, 0, 0, 0, /* which is a Release */
      0, 0, 0, 0, 1, 0, 0, 0,                         /* of export 0 */
  };
  DONE(lovendak_received(vat, release, sizeof release));
}

/* Hands over the first frame of what a vat has to say, and no more of it. */
static void say_first(lovendak_vat *from, lovendak_vat *to) {
  uint8_t bytes[4096];
  size_t len;
  DONE(lovendak_outgoing(from, bytes, sizeof bytes, &len));
  DONE(lovendak_received(to, bytes, 8 + 8 * (size_t)bytes[4]));
}

static void by_an_embargo(struct pair *p) {
  struct embargoed it = embargo(p);
  drop(&p->a, it.ref);
  drop(&p->b, it.given);
  say(&p->a, &p->b);
  release_by_hand(&p->a); /* before that of b, which comes behind the end of the embargo */
  NOTHING_TOLD(p, &p->a);
  say_first(&p->b, &p->a);
  RELEASED(p, &p->a, OBJECT);
}

static void by_a_call_under_an_embargo(struct pair *p) {
  struct embargoed it = embargo(p);
  uint64_t own = host(&p->a, OTHER), given;
  call(&p->a, it.ref, own, 1);
  drop(&p->a, own);
  NOTHING_TOLD(p, &p->a);
  speak(p);
  serve(p, &p->a, &given);
  IS(TOLD(p, &p->a, LOVENDAK_LIFTED).number, it.ref);
  NOTHING_TOLD(p, &p->a);
  LEADS(&p->a, it.ref, .kind = LOVENDAK_OWN, .number = OBJECT);
  drop(&p->a, given);
  RELEASED(p, &p->a, OTHER);
}

/* ---- Objects of which nothing is told. */

/* In one piece of bytes b lets go of an object and makes a call, by which a hosts it again before the release is told. */
static void hosted_again(struct pair *p) {
  uint64_t given = give(p, OBJECT), other = give(p, OTHER), made;
  drop(&p->b, given);
  made = call(&p->b, other, 0, 0);
  say(&p->b, &p->a);
  uint64_t task = serve(p, &p->a, NULL), own = host(&p->a, OBJECT);
  answer(&p->a, task, own, 1);
  drop(&p->a, own);
  NOTHING_TOLD(p, &p->a);
  speak(p);
  given = ended(p, &p->b, made, 1);
  DONE(lovendak_finish(&p->b, made));
  speak(p);
  NOTHING_TOLD(p, &p->a);
  drop(&p->b, given);
  speak(p);
  RELEASED(p, &p->a, OBJECT);
}

/* The event waits while the object is hosted again, and with no more to tell it is not told. */
static void hosted_while_the_event_waits(struct pair *p) {
  size_t bytes;
  uint32_t has_event;
  drop(&p->a, host(&p->a, OBJECT));
  DONE(lovendak_pending(&p->a, &bytes, &has_event));
  IS(has_event, 1);
  uint64_t again = host(&p->a, OBJECT);
  DONE(lovendak_pending(&p->a, &bytes, &has_event));
  IS(has_event, 0);
  NOTHING_TOLD(p, &p->a);
  drop(&p->a, again);
  RELEASED(p, &p->a, OBJECT);
}

static void bootstrap_object(struct pair *p) {
  uint32_t is_left;
  drop(&p->b, host(&p->b, ROOT));
  drop(&p->a, p->root);
  DONE(lovendak_finish(&p->a, p->asked));
  speak(p);
  DONE(lovendak_shares_nothing(&p->b, &is_left));
  IS(is_left, 1);
  NOTHING_TOLD(p, &p->b);
}

/* Of a vat that is down no object is released. */
static void once_it_is_down(struct pair *p) {
  drop(&p->a, host(&p->a, OBJECT));
  DONE(lovendak_shut(&p->a, 5));
  IS(TOLD(p, &p->a, LOVENDAK_WENT_DOWN).number, 5);
  NOTHING_TOLD(p, &p->a);
}

/* ---- A task is cancelled once nobody has use for its results, whatever comes last. */

/* By the Finish. What the task is answered with goes nowhere. */
static void by_a_finish(struct pair *p) {
  uint64_t made = call(&p->a, p->root, 0, 0);
  speak(p);
  uint64_t task = serve(p, &p->b, NULL), own = host(&p->b, OBJECT);
  DONE(lovendak_finish(&p->a, made));
  NOTHING_TOLD(p, &p->b);
  speak(p);
  CANCELLED(p, &p->b, task);
  NOTHING_TOLD(p, &p->b);
  answer(&p->b, task, own, 1);
  drop(&p->b, own);
  RELEASED(p, &p->b, OBJECT);
  speak(p);
  NOTHING_TOLD(p, &p->a);
}

/* It comes behind all calls, and before the objects that are released. */
static void in_one_piece(struct pair *p) {
  uint64_t given = give(p, OBJECT), dropped = call(&p->b, given, 0, 0), kept = call(&p->b, given, 0, 0);
  DONE(lovendak_finish(&p->b, dropped));
  drop(&p->b, given);
  speak(p);
  uint64_t first = serve(p, &p->a, NULL), second = serve(p, &p->a, NULL);
  CANCELLED(p, &p->a, first);
  RELEASED(p, &p->a, OBJECT);
  DONE(lovendak_fail(&p->a, first, LOVENDAK_FAILED, (const uint8_t *)"", 0));
  answer(&p->a, second, 0, 0);
  speak(p);
  ended(p, &p->b, kept, 0);
  NOTHING_TOLD(p, &p->b);
}

/* The peer's call on the results waits for them, although both calls are finished. It is cancelled itself as it is delivered. */
static void behind_a_call_that_waits(struct pair *p) {
  uint64_t made = call(&p->a, p->root, 0, 0), result = first_of(&p->a, made), on_result = call(&p->a, result, 0, 0);
  drop(&p->a, result);
  DONE(lovendak_finish(&p->a, made));
  DONE(lovendak_finish(&p->a, on_result));
  speak(p);
  uint64_t task = serve(p, &p->b, NULL), own = host(&p->b, OBJECT);
  NOTHING_TOLD(p, &p->b);
  answer(&p->b, task, own, 1);
  task = serve(p, &p->b, NULL);
  CANCELLED(p, &p->b, task);
  NOTHING_TOLD(p, &p->b);
  answer(&p->b, task, 0, 0);
  drop(&p->b, own);
  RELEASED(p, &p->b, OBJECT);
  speak(p);
  NOTHING_TOLD(p, &p->a);
}

/* A reference leads to a part of the results. */
static void behind_a_reference(struct pair *p) {
  uint64_t made = call(&p->a, p->root, 0, 0), result = first_of(&p->a, made), given;
  call(&p->a, p->root, result, 1);
  drop(&p->a, result);
  DONE(lovendak_finish(&p->a, made));
  speak(p);
  uint64_t task = serve(p, &p->b, NULL);
  serve(p, &p->b, &given);
  NOTHING_TOLD(p, &p->b);
  LEADS(&p->b, given, .kind = LOVENDAK_OWN_CALL);
  drop(&p->b, given);
  CANCELLED(p, &p->b, task);
  NOTHING_TOLD(p, &p->b);
}

/* It is told of the peer's calls, not of an own call to an object of the same vat. */
static void not_of_an_own_call(struct pair *p) {
  uint64_t own = host(&p->a, OBJECT), made = call(&p->a, own, 0, 0), task = serve(p, &p->a, NULL);
  DONE(lovendak_finish(&p->a, made));
  NOTHING_TOLD(p, &p->a);
  answer(&p->a, task, 0, 0);
  NOTHING_TOLD(p, &p->a);
}

/* It was answered before the Finish came, or while the event waited. */
static void not_once_it_is_answered(struct pair *p) {
  for (int waits = 0; waits < 2; waits++) {
    uint64_t made = call(&p->a, p->root, 0, 0);
    say(&p->a, &p->b);
    uint64_t task = serve(p, &p->b, NULL);
    DONE(lovendak_finish(&p->a, made));
    if (waits) say(&p->a, &p->b);
    answer(&p->b, task, 0, 0);
    speak(p);
    NOTHING_TOLD(p, &p->b);
    NOTHING_TOLD(p, &p->a);
  }
}

/* With the Finish behind the Return it is never too early. */
static void not_behind_its_return(struct pair *p) {
  DONE(lovendak_set_finishes(&p->a, LOVENDAK_AFTER_RETURN));
  DONE(lovendak_finish(&p->a, call(&p->a, p->root, 0, 0)));
  speak(p);
  uint64_t task = serve(p, &p->b, NULL);
  NOTHING_TOLD(p, &p->b);
  answer(&p->b, task, 0, 0);
  speak(p);
  NOTHING_TOLD(p, &p->b);
}

static void not_once_it_is_down(struct pair *p) {
  uint64_t made = call(&p->a, p->root, 0, 0);
  speak(p);
  serve(p, &p->b, NULL);
  DONE(lovendak_finish(&p->a, made));
  say(&p->a, &p->b);
  DONE(lovendak_shut(&p->b, 5));
  IS(TOLD(p, &p->b, LOVENDAK_WENT_DOWN).number, 5);
  NOTHING_TOLD(p, &p->b);
}

/* ---- What the peer's places came to, and where references lead. */

/* A question's results, of which references were made before they came; of another question there are none. */
static void of_a_question(struct pair *p) {
  uint64_t made = call(&p->a, p->root, 0, 0), other = call(&p->a, p->root, 0, 0), ref = first_of(&p->a, made);
  lovendak_place before = place(&p->a, ref);
  uint32_t advanced;
  IS(before.kind, LOVENDAK_ANSWER);
  speak(p);
  uint64_t own = host(&p->b, OBJECT);
  answer(&p->b, serve(p, &p->b, NULL), own, 1);
  answer(&p->b, serve(p, &p->b, NULL), own, 1);
  drop(&p->b, own);
  speak(p);
  uint64_t come = ended(p, &p->a, made, 1);
  lovendak_event event = TOLD(p, &p->a, LOVENDAK_RESOLVED);
  IS(event.place, LOVENDAK_ANSWER);
  IS(event.number, before.number);
  uint64_t again = ended(p, &p->a, other, 1);
  NOTHING_TOLD(p, &p->a);
  DONE(lovendak_advance(&p->a, ref, &advanced));
  IS(advanced, LOVENDAK_SWITCHED);
  /* All of them lead to one object of the peer. */
  lovendak_place now = place(&p->a, ref);
  LEADS(&p->a, ref, .kind = LOVENDAK_IMPORT, .number = now.number);
  LEADS(&p->a, come, .kind = LOVENDAK_IMPORT, .number = now.number);
  LEADS(&p->a, again, .kind = LOVENDAK_IMPORT, .number = now.number);
}

/* A promise of the peer that is broken. */
static void of_an_import(struct pair *p) {
  uint64_t ref, promise = promised_by_b(p, &ref);
  lovendak_place before = place(&p->a, ref);
  uint32_t advanced;
  LEADS(&p->a, ref, .kind = LOVENDAK_IMPORT, .is_promise = 1, .number = before.number);
  DONE(lovendak_reject(&p->b, promise, LOVENDAK_FAILED, (const uint8_t *)"", 0));
  speak(p);
  lovendak_event event = TOLD(p, &p->a, LOVENDAK_RESOLVED);
  IS(event.place, LOVENDAK_IMPORT);
  IS(event.number, before.number);
  NOTHING_TOLD(p, &p->a);
  LEADS(&p->a, ref, .kind = LOVENDAK_IMPORT, .number = before.number);
  DONE(lovendak_advance(&p->a, ref, &advanced));
  IS(advanced, LOVENDAK_BROKE);
  LEADS(&p->a, ref, .kind = LOVENDAK_BROKEN, .reason = LOVENDAK_BROKEN_PROMISE);
}

static void to_own_things(struct pair *p) {
  uint64_t own = host(&p->a, OBJECT), promise, promised, made = call(&p->a, own, 0, 0), ref = first_of(&p->a, made);
  DONE(lovendak_promise(&p->a, &promise, &promised));
  LEADS(&p->a, own, .kind = LOVENDAK_OWN, .number = OBJECT);
  LEADS(&p->a, promised, .kind = LOVENDAK_OWN_PROMISE);
  LEADS(&p->a, ref, .kind = LOVENDAK_OWN_CALL);
  answer(&p->a, serve(p, &p->a, NULL), promised, 1);
  LEADS(&p->a, ref, .kind = LOVENDAK_OWN_PROMISE);
  DONE(lovendak_resolve(&p->a, promise, own));
  LEADS(&p->a, promised, .kind = LOVENDAK_OWN, .number = OBJECT);
  LEADS(&p->a, ref, .kind = LOVENDAK_OWN, .number = OBJECT);
}

/* What stands at pointer 0 of a call's results, of which the call is of an object of the same vat: where it leads. */
static lovendak_place answered_with(struct pair *p, const uint8_t *payload, size_t len) {
  uint64_t own = host(&p->a, OBJECT), ref = first_of(&p->a, call(&p->a, own, 0, 0));
  DONE(lovendak_answer(&p->a, serve(p, &p->a, NULL), payload, len, no_refs, 0));
  return place(&p->a, ref);
}

static void to_nothing(struct pair *p) {
  uint8_t none[64], text[64];
  uint64_t promise, promised;
  size_t none_len = contents(0, none, sizeof none), text_len;
  DONE(lovendak_contents(no_refs, 0, 1, (const uint8_t *)"text", 4, 0, text, sizeof text, &text_len));
  is_place(answered_with(p, none, none_len), (lovendak_place){.kind = LOVENDAK_BROKEN, .reason = LOVENDAK_NULL}, __LINE__);
  TOLD(p, &p->a, LOVENDAK_ENDED);
  is_place(answered_with(p, text, text_len), (lovendak_place){.kind = LOVENDAK_BROKEN, .reason = LOVENDAK_NOT_A_CAPABILITY}, __LINE__);
  DONE(lovendak_promise(&p->a, &promise, &promised));
  DONE(lovendak_reject(&p->a, promise, LOVENDAK_FAILED, (const uint8_t *)"", 0));
  LEADS(&p->a, promised, .kind = LOVENDAK_BROKEN, .reason = LOVENDAK_BROKEN_PROMISE);
}

static void places_that_are_refused(struct pair *p) {
  lovendak_place place = {.number = 77};
  IS(lovendak_leads_to(&p->a, 99, &place), LOVENDAK_UNKNOWN_REF);
  DONE(lovendak_shut(&p->a, 0));
  IS(lovendak_leads_to(&p->a, p->root, &place), LOVENDAK_DOWN);
  IS(place.number == 77 && place.kind == 0, 1);
}

/* ---- How much there is, and when Finishes go. */

static void sizes(lovendak_vat *vat, size_t questions, size_t answers, size_t exports, size_t imports, int line) {
  size_t q, a, e, i;
  DONE(lovendak_table_sizes(vat, &q, &a, &e, &i));
  check(q, questions, "questions", line);
  check(a, answers, "answers", line);
  check(e, exports, "exports", line);
  check(i, imports, "imports", line);
}
#define SIZES(vat, ...) sizes(vat, __VA_ARGS__, __LINE__)

static void table_sizes(struct pair *p) {
  SIZES(&p->a, 1, 0, 0, 1);
  SIZES(&p->b, 0, 1, 1, 0);
  give(p, OBJECT);
  give(p, OTHER);
  call(&p->a, p->root, 0, 0);
  SIZES(&p->a, 2, 0, 2, 1);
  speak(p);
  SIZES(&p->b, 0, 2, 1, 2);
}

/* A call is finished before its Return came. */
static void finishes(struct pair *p) {
  uint64_t own = host(&p->b, OBJECT);
  DONE(lovendak_set_finishes(&p->a, LOVENDAK_AFTER_RETURN));
  DONE(lovendak_finish(&p->a, call(&p->a, p->root, 0, 0)));
  speak(p);
  SIZES(&p->a, 2, 0, 0, 1);
  answer(&p->b, serve(p, &p->b, NULL), own, 1);
  drop(&p->b, own);
  SIZES(&p->b, 0, 2, 2, 0);
  speak(p); /* the Return, and then the Finish with the release of what came */
  NOTHING_TOLD(p, &p->a);
  SIZES(&p->a, 1, 0, 0, 1);
  SIZES(&p->b, 0, 1, 1, 0);
  RELEASED(p, &p->b, OBJECT);
  DONE(lovendak_set_finishes(&p->a, LOVENDAK_AT_ONCE));
  DONE(lovendak_finish(&p->a, call(&p->a, p->root, 0, 0)));
  say(&p->a, &p->b);
  SIZES(&p->b, 0, 2, 1, 0);
  answer(&p->b, serve(p, &p->b, NULL), 0, 0);
  SIZES(&p->b, 0, 1, 1, 0);
}

static const struct {
  const char *name;
  void (*play)(struct pair *);
} scenes[] = {
    {"by a reference", by_a_reference},
    {"by an export", by_an_export},
    {"by a promise", by_a_promise},
    {"by a kept outcome", by_a_kept_outcome},
    {"by a Return", by_a_return},
    {"by a call that waits", by_a_call_that_waits},
    {"by an embargo", by_an_embargo},
    {"by a call under an embargo", by_a_call_under_an_embargo},
    {"hosted again", hosted_again},
    {"hosted while the event waits", hosted_while_the_event_waits},
    {"the bootstrap object", bootstrap_object},
    {"once it is down", once_it_is_down},
    {"by a Finish", by_a_finish},
    {"in one piece", in_one_piece},
    {"behind a call that waits", behind_a_call_that_waits},
    {"behind a reference", behind_a_reference},
    {"not of an own call", not_of_an_own_call},
    {"not once it is answered", not_once_it_is_answered},
    {"not behind its Return", not_behind_its_return},
    {"not once it is down", not_once_it_is_down},
    {"of a question", of_a_question},
    {"of an import", of_an_import},
    {"to own things", to_own_things},
    {"to nothing", to_nothing},
    {"places that are refused", places_that_are_refused},
    {"table sizes", table_sizes},
    {"finishes", finishes},
};

int main(void) {
  for (size_t i = 0; i < sizeof scenes / sizeof *scenes; i++) {
    struct pair pair;
    scene = scenes[i].name;
    begin(&pair);
    scenes[i].play(&pair);
    DONE(lovendak_free(&pair.a));
    DONE(lovendak_free(&pair.b));
  }
  puts("the events are right");
  return 0;
}
