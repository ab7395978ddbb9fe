/* Lovendak: a vat for Cap'n Proto RPC (rpc.capnp, two parties, levels 0 and 1), as a library without input or output of its own.
 *
 * An application passes on the bytes that came from the peer (`lovendak_received`), handles events (`lovendak_next_event`), gives
 * commands to its vat, and sends the outbound bytes (`lovendak_outgoing`). docs/embedding.md says what references, calls, tasks and
 * promises are, and what has to be given back. docs/numbers.md says what each number means, and what to do about it.
 *
 * After bytes came, and after each command, take events until there are none, and then send. A command may cause an event with no
 * bytes coming: a call through a reference to an object of the vat itself is delivered at once.
 *
 * A message has at most 65,536 words (512 KiB), payload and envelope together. Contents or a reason that may be too large for a message
 * that carries them are refused with FULL (docs/messages.md, "What fits"). If a larger call or answer comes, of up to 64 MiB, and its
 * beginning says which call it is of, that call fails with an exception that says so (docs/messages.md, "Messages that are too large").
 * Any other larger message takes the vat down with 4, and an Abort with the reason `fault 4` is to be sent.
 *
 * docs/promises/vats.md says what is proved of these functions, and what is not. What this header says of time and costs is not.
 *
 * Each function except `lovendak_version` returns a code. Results are written if the code is LOVENDAK_OK, and otherwise only if the
 * function says so. A command that is refused changes nothing, with one exception: the reference of a refused `lovendak_call` may have
 * taken one step of the shorter path, as by `lovendak_advance`. Of several codes EMPTY_HANDLE comes first.
 *
 * Memory: the library keeps no pointer that it was given, and returns none of its own. What goes in is read during the call, what
 * comes out is copied into room of the caller. If the library is out of memory it says so; it never ends the process.
 *
 * Threads: one call at a time for a handle, from any thread; a handle of trees stays on its thread. Two handles share nothing. There is
 * no lock, no clock, no callback and no global state.
 *
 * What the library can't check, and its caller must not do:
 * - change the bytes of a handle, or use two copies of it, which would be one vat. It may be moved if the old bytes are not used
 *   again.
 * - use a handle in two threads at once, in a signal handler, or in the forked child of a process with threads; or a handle of trees on
 *   another thread than the one on which `lovendak_tree_new` filled it.
 * - pass a pointer that is not aligned, or that has less behind it than the length says; or two in one call whose memory overlaps.
 *   Beside a length of 0 a pointer may be null. Every other pointer is not null.
 * - pass a handle to `lovendak_new` or `lovendak_tree_new` that was never set. All zeros are an empty one:
 *   `lovendak_vat vat = LOVENDAK_EMPTY;`
 */
#ifndef LOVENDAK_H
#define LOVENDAK_H
#include <stddef.h>
#include <stdint.h>
#ifdef __cplusplus
extern "C" {
#endif

/* The version of the library, and the number of its interface, which `lovendak_version` returns if the two agree. */
#define LOVENDAK_VERSION "0.1.0"
#define LOVENDAK_INTERFACE 2

/* A vat, which `lovendak_free` frees, or nothing. */
typedef struct lovendak_vat {
  uint32_t magic;
  void *at;
} lovendak_vat;

/* Contents that are built, and payloads that are looked into, which `lovendak_tree_free` frees, or nothing. It needs no vat. */
typedef struct lovendak_tree {
  uint32_t magic;
  void *at;
} lovendak_tree;

#define LOVENDAK_EMPTY {0, NULL}

enum {
  LOVENDAK_OK = 0,
  LOVENDAK_MEMORY = 1,          /* out of memory */
  LOVENDAK_FULL = 2,            /* a limit is reached, or contents or a reason may be too large for a message */
  LOVENDAK_DOWN = 3,            /* the vat is down */
  LOVENDAK_UNKNOWN_REF = 4,     /* no such reference: it was dropped, or is of another vat */
  LOVENDAK_UNKNOWN_CALL = 5,    /* no such call, or it was finished */
  LOVENDAK_UNKNOWN_TASK = 6,    /* no such task, or it was answered */
  LOVENDAK_UNKNOWN_PROMISE = 7, /* no such promise, or it was settled */
  LOVENDAK_CYCLE = 8,           /* the promise would lead to itself */
  LOVENDAK_CAP_COUNT = 9,       /* the payload has another number of capabilities than references were given */
  LOVENDAK_LONG_PATH = 10,      /* a path has more than 16 steps */
  LOVENDAK_LEVEL = 11,          /* a vat of level 0 has no promises and sends no references */
  LOVENDAK_EMPTY_HANDLE = 100,  /* the handle has no vat, or no trees */
  LOVENDAK_IN_USE = 101,        /* the handle has a vat, or trees */
  LOVENDAK_NO_PAYLOAD = 102,    /* the bytes are no payload, or the text is no UTF-8 */
  LOVENDAK_ROOM = 103,          /* too little room: nothing was taken, and the lengths are said */
  LOVENDAK_NOTHING = 104,       /* there is nothing of the kind */
  LOVENDAK_NO_SUCH_NUMBER = 105 /* no such level, kind of exception, number to shut with, time for Finishes, index or width */
};

/* Kinds of exceptions. */
enum { LOVENDAK_FAILED = 0, LOVENDAK_OVERLOADED = 1, LOVENDAK_DISCONNECTED = 2, LOVENDAK_UNIMPLEMENTED = 3 };

/* Kinds of events. */
enum {
  LOVENDAK_SERVE = 1,
  LOVENDAK_ENDED = 2,
  LOVENDAK_WENT_DOWN = 3,
  LOVENDAK_RELEASED = 4,
  LOVENDAK_CANCELLED = 5,
  LOVENDAK_RESOLVED = 6,
  LOVENDAK_LIFTED = 7
};

/* Kinds of places, to which a reference leads. */
enum {
  LOVENDAK_OWN = 1,         /* an object of this vat's application */
  LOVENDAK_OWN_PROMISE = 2, /* a promise of this vat's application that is not settled */
  LOVENDAK_OWN_CALL = 3,    /* results of a call to this vat's application that did not end */
  LOVENDAK_IMPORT = 4,      /* what the peer exports by an id */
  LOVENDAK_ANSWER = 5,      /* what stands in the results of a question to the peer */
  LOVENDAK_BROKEN = 6       /* none: each call fails */
};

/* Why a reference leads nowhere: it stands for null, there is something else than a capability, or its promise was broken. */
enum { LOVENDAK_NULL = 1, LOVENDAK_NOT_A_CAPABILITY = 2, LOVENDAK_BROKEN_PROMISE = 3 };

/* When the Finish of a call goes: at once, or behind its Return. */
enum { LOVENDAK_AT_ONCE = 0, LOVENDAK_AFTER_RETURN = 1 };

/* What `lovendak_advance` did. */
enum { LOVENDAK_UNCHANGED = 0, LOVENDAK_SWITCHED = 1, LOVENDAK_EMBARGOED = 2, LOVENDAK_BROKE = 3 };

/* Kinds of what stands at a place of contents. */
enum { LOVENDAK_TREE_NULL = 0, LOVENDAK_TREE_STRUCT = 1, LOVENDAK_TREE_LIST = 2, LOVENDAK_TREE_CAP = 3 };

/* What an application is told. A field that an event has no use for is 0. */
typedef struct lovendak_event {
  uint32_t kind;         /* LOVENDAK_SERVE a call to serve, LOVENDAK_ENDED an own call that ended, LOVENDAK_WENT_DOWN; the others below */
  uint32_t method;       /* to serve: the method */
  uint32_t is_exception; /* ended: 1 if it failed; then the reason, as UTF-8, comes in the payload's room */
  uint32_t exception;    /* ended: the kind of the exception */
  uint32_t place;        /* resolved: LOVENDAK_IMPORT or LOVENDAK_ANSWER */
  uint64_t number;       /* to serve, cancelled: the task; ended: the call; down: the number with which the vat went down; resolved: that
                            of the place; lifted: the reference */
  uint64_t object;       /* to serve, released: the object, by the number that its application gave it */
  uint64_t interface_id; /* to serve: the interface */
  size_t payload_len;    /* bytes of the payload, or of the reason; down: of the reason of the Abort with which the peer ended it */
  size_t refs_len;       /* references, one for each capability of the payload; each is to be dropped */
} lovendak_event;

/* Where calls through a reference go. A field that a kind has no use for is 0. */
typedef struct lovendak_place {
  uint32_t kind;        /* LOVENDAK_OWN and so on */
  uint32_t is_embargoed; /* 1 if they wait under an embargo before */
  uint32_t is_promise;  /* an import: 1 if it is a promise that no Resolve has settled yet */
  uint32_t reason;      /* broken: why */
  uint64_t number;      /* own: the object; import: the id of the peer's export; answer: the question */
} lovendak_place;

/* The number of the interface that the library has: LOVENDAK_INTERFACE if it is the one of this header. */
uint32_t lovendak_version(void);

/* Puts a vat into an empty handle, of level 0 or 1. If `has_root` is not 0, its bootstrap object is the object `root`.
 * IN_USE if the handle has a vat, NO_SUCH_NUMBER of another level, MEMORY. */
uint32_t lovendak_new(lovendak_vat *vat, uint32_t level, uint32_t has_root, uint64_t root);

/* Frees a vat, and leaves the handle empty. EMPTY_HANDLE if it is empty already, which does no harm. */
uint32_t lovendak_free(lovendak_vat *vat);

/* From here to `lovendak_shut`, each function returns EMPTY_HANDLE if the handle is empty. */

/* Takes bytes that came from the peer, in any pieces, and drops them if the vat is down or the stream is over. A fault in them, or
 * running out of memory, is no code: it takes the vat down, which is an event. Whatever the bytes are: of the peer's calls you are told
 * only of those for objects that you gave this peer on this handle, and that it had not given back when the call reached them. The
 * bootstrap object counts as given once the peer asks for it. */
uint32_t lovendak_received(lovendak_vat *vat, const uint8_t *bytes, size_t len);

/* The peer's stream has ended: the vat goes down with 0, or with 2 if the stream ended inside a message. If limits have messages wait
 * unheard, it does so once all were heard. */
uint32_t lovendak_ended(lovendak_vat *vat);

/* Copies outbound bytes, each once, at most as many as there is room for, and says how many. Ask until it says 0: less than the room
 * does not mean that nothing is left. */
uint32_t lovendak_outgoing(lovendak_vat *vat, uint8_t *out, size_t room, size_t *len);

/* How many bytes the next `lovendak_outgoing` gives, with that much room: 0 if none are to be sent. And whether there is an event (1)
 * or none (0). No bytes and no event are taken out. The vat goes on first, as by `lovendak_outgoing` and `lovendak_next_event`:
 * messages of the peer that wait are heard, as far as the limits allow, and queued messages become frames. If both are 0, a vat with
 * limits may still hear more when it is asked again. */
uint32_t lovendak_pending(lovendak_vat *vat, size_t *bytes, uint32_t *has_event);

/* How much of the peer is being handled. `words`: the words of the messages of calls for which no Return was said, and of other messages
 * until `lovendak_next_event` or `lovendak_pending` found no event. Once they are at most the limit and what one message has (65,545),
 * they stay so while the vat is up, whatever comes. `bytes`: those that wait to be sent. Not counted are messages that wait unheard, and
 * what a vat keeps longer (docs/promises/any-peer.md). */
uint32_t lovendak_load(lovendak_vat *vat, uint64_t *words, uint64_t *bytes);

/* Sets limits of the load: while its words, or the bytes that wait in the vat, are above, messages of the peer wait unheard, in their
 * order. `lovendak_outgoing` and `lovendak_pending` take these bytes out of the vat, for the caller to fetch, and then the vat may make
 * as many again. What one message adds, and own commands, may pass the limit of bytes. A new vat has no limits. Limits that are too low
 * for what two applications ask of each other at a time stop both.
 * With limits, sending may cause events, and a `lovendak_next_event` that finds none may let more be heard. So send and then take
 * events, again and again, until neither gives anything, and `lovendak_wants_bytes` says 1 or the load is above a limit. */
uint32_t lovendak_set_limits(lovendak_vat *vat, uint64_t words, uint64_t bytes);

/* When the Finish goes of a call that goes out from now on, if the call is finished before its Return came: at once (LOVENDAK_AT_ONCE,
 * as from the beginning) or behind its Return (LOVENDAK_AFTER_RETURN). Calls that went out before stay as they were. The second is for a
 * peer that sends no Return for a call of which it heard the Finish before, as the Rust crate capnp-rpc. With another peer a call that is
 * let go runs to its end there.
 * NO_SUCH_NUMBER of another number. */
uint32_t lovendak_set_finishes(lovendak_vat *vat, uint32_t when);

/* Whether more bytes of the peer would be heard (1). If not (0), they only wait: there are events to take (until there are none), bytes to
 * send, or calls without a Return; or they are dropped: the vat is down, or its stream is over. Read from the peer only while this says
 * 1: what comes else waits unheard, and no limit counts it. */
uint32_t lovendak_wants_bytes(lovendak_vat *vat, uint32_t *answer);

/* Takes the oldest event. The events of one command or message come after those of earlier ones; among them, calls to serve come
 * before own calls that ended, and these before what the message made known:
 * - LOVENDAK_RESOLVED: what stands at a place of the peer is known now. A reference that leads there may lead on: `lovendak_advance` it.
 * - LOVENDAK_LIFTED: the embargo of a reference is over. Its calls wait under it no more.
 * Behind them all come, while the vat is up, the tasks that are cancelled, and the objects that are released:
 * - LOVENDAK_CANCELLED: nobody has use for the results of a call of the peer any more. The peer has finished it, no call waits for its
 *   results, and nothing names a part of them. Stop the work on its task, and answer or fail it all the same; what it is answered with
 *   goes nowhere. It is told once, and not of a task that was answered before this event was found.
 * - LOVENDAK_RELEASED: no reference, no export and nothing else of the vat names the object any more, which `lovendak_host` named
 *   once. No call for it comes until it is hosted again, so the application may let go of it. A task of it may still be open. The
 *   bootstrap object is never released.
 * Once the vat is down, each own call that is open is reported as one that failed with
 * LOVENDAK_DISCONNECTED, and then, once, that the vat is down. The event's payload (framed segments, as Cap'n Proto writes a message)
 * and its references are copied into the rooms given. NOTHING if there is none; ROOM if one of the rooms is too small: the event is
 * filled in, and stays. After each command too, ask until there is none, and then send: in this order no event is missed. If bytes
 * were sent first, ask again, since a message that can't be sent takes the vat down. */
uint32_t lovendak_next_event(lovendak_vat *vat, lovendak_event *event, uint8_t *payload, size_t room, uint64_t *refs, size_t refs_room);

/* Where calls through a reference go. Two references that lead to one import lead to one export of the peer.
 * DOWN, UNKNOWN_REF. */
uint32_t lovendak_leads_to(lovendak_vat *vat, uint64_t ref, lovendak_place *place);

/* How many questions, answers, exports and imports there are between the two vats, each at most 4,096. */
uint32_t lovendak_table_sizes(lovendak_vat *vat, size_t *questions, size_t *answers, size_t *exports, size_t *imports);

/* The number with which the vat went down; NOTHING if it is not down. */
uint32_t lovendak_down(lovendak_vat *vat, uint32_t *number);

/* 1 if nothing is left between the two vats: no question, answer, export or import; otherwise 0. */
uint32_t lovendak_shares_nothing(lovendak_vat *vat, uint32_t *answer);

/* How many calls were made through a reference. UNKNOWN_REF. */
uint32_t lovendak_calls_made(lovendak_vat *vat, uint64_t ref, uint64_t *made);

/* Commands. Each except `lovendak_shut` may return DOWN and MEMORY, and each the codes that are named beside it. Those that make
 * something, and `lovendak_advance`, return FULL at a limit. `lovendak_call`, `lovendak_answer`, `lovendak_fail` and `lovendak_reject`
 * return FULL if what they carry may be too large for a message, and `lovendak_answer` and `lovendak_resolve` if the exports that they
 * may want have no place: one for each reference of an answer, one for a promise. Nothing is changed then. Of `lovendak_answer`, `lovendak_fail`, `lovendak_resolve` and
 * `lovendak_reject`: if there is no room or memory for what follows of them, they return OK, and the vat goes down with 33. */

/* Asks the peer for its bootstrap object: a call, whose result is that object. */
uint32_t lovendak_bootstrap(lovendak_vat *vat, uint64_t *call);

/* A reference to the result of a call, before or after it has ended. UNKNOWN_CALL. */
uint32_t lovendak_result_of(lovendak_vat *vat, uint64_t call, uint64_t *ref);

/* A reference to what a call's results have at a path of pointers' numbers, before or after it has ended. UNKNOWN_CALL, LONG_PATH. */
uint32_t lovendak_field(lovendak_vat *vat, uint64_t call, const uint16_t *path, size_t steps, uint64_t *ref);

/* A reference to an object of the application, which knows it by that number. It may be hosted again, and again after it was released.
 * If LOVENDAK_RELEASED of it waits to be told, it is told no more. */
uint32_t lovendak_host(lovendak_vat *vat, uint64_t object, uint64_t *ref);

/* A second reference to the same. UNKNOWN_REF. */
uint32_t lovendak_clone_ref(lovendak_vat *vat, uint64_t ref, uint64_t *made);

/* Drops a reference. UNKNOWN_REF. */
uint32_t lovendak_drop_ref(lovendak_vat *vat, uint64_t ref);

/* Makes a call, with a payload (framed segments) and a reference for each of its capabilities, which still belong to the caller. The
 * reference that is called first takes one step of the shorter path, if one is known, and unless a limit or want of memory refuses that.
 * NO_PAYLOAD if the bytes are no payload with so many capabilities, UNKNOWN_REF, LEVEL. */
uint32_t lovendak_call(lovendak_vat *vat, uint64_t ref, uint64_t interface_id, uint16_t method, const uint8_t *payload, size_t len,
                       const uint64_t *refs, size_t refs_len, uint64_t *call);

/* The application has no more use for a call, which need not have ended. UNKNOWN_CALL. */
uint32_t lovendak_finish(lovendak_vat *vat, uint64_t call);

/* Gives a task its results, as `lovendak_call` takes contents. NO_PAYLOAD, UNKNOWN_TASK, UNKNOWN_REF, LEVEL. */
uint32_t lovendak_answer(lovendak_vat *vat, uint64_t task, const uint8_t *payload, size_t len, const uint64_t *refs, size_t refs_len);

/* Gives a task an exception. NO_SUCH_NUMBER of another kind, NO_PAYLOAD of a reason that is no UTF-8, UNKNOWN_TASK. */
uint32_t lovendak_fail(lovendak_vat *vat, uint64_t task, uint32_t kind, const uint8_t *reason, size_t len);

/* Makes a promise, and a reference to it. LEVEL. */
uint32_t lovendak_promise(lovendak_vat *vat, uint64_t *promise, uint64_t *ref);

/* Settles a promise to what a reference leads to; the reference still belongs to the caller. UNKNOWN_PROMISE, UNKNOWN_REF, CYCLE,
 * LEVEL. */
uint32_t lovendak_resolve(lovendak_vat *vat, uint64_t promise, uint64_t ref);

/* Breaks a promise. NO_SUCH_NUMBER of another kind, NO_PAYLOAD of a reason that is no UTF-8, UNKNOWN_PROMISE, LEVEL. */
uint32_t lovendak_reject(lovendak_vat *vat, uint64_t promise, uint32_t kind, const uint8_t *reason, size_t len);

/* Lets a reference take one step of the shorter path, if one is known; `advanced` says what it did. UNKNOWN_REF, LEVEL. */
uint32_t lovendak_advance(lovendak_vat *vat, uint64_t ref, uint32_t *advanced);

/* Takes the vat down with a number up to 65,535; NO_SUCH_NUMBER of a greater one. Its Abort is the last message, if
 * there is memory for its bytes. */
uint32_t lovendak_shut(lovendak_vat *vat, uint32_t number);

/* Contents without a schema compiler. Any library that writes and reads Cap'n Proto messages will do: the root of the message is the
 * payload, and its capability pointers number the references. `caps` is how many capabilities a payload has. */

/* A struct whose data words are the numbers. If `has_text` is not 0, the text (UTF-8 without a zero behind it) is pointer 0, and the
 * capabilities are pointers 1, 2 and so on. Otherwise there is no text, and they are pointers 0, 1 and so on. ROOM if it takes more
 * bytes; `len` says how many. NO_PAYLOAD if the text is no UTF-8, FULL if there is too much for a payload, MEMORY. */
uint32_t lovendak_contents(const uint64_t *numbers, size_t count, uint32_t has_text, const uint8_t *text, size_t text_len,
                           uint32_t caps, uint8_t *out, size_t room, size_t *len);

/* The data word of that index of the root struct; 0 past its end, or if the root is null. NOTHING if the root is something else,
 * NO_SUCH_NUMBER of an index above 4,294,967,295, NO_PAYLOAD if the bytes are no payload with so many capabilities, MEMORY. */
uint32_t lovendak_number_at(const uint8_t *payload, size_t len, uint32_t caps, size_t index, uint64_t *number);

/* The text at that pointer of the root struct, UTF-8 without a zero behind it; an empty one if the pointer is null or not there.
 * NOTHING if there is something else; ROOM if the text is longer, and `text_len` says how many bytes it has; NO_PAYLOAD, MEMORY. */
uint32_t lovendak_text_at(const uint8_t *payload, size_t len, uint32_t caps, uint16_t pointer, uint8_t *out, size_t room,
                          size_t *text_len);

/* Which of the references is at a path of pointers' numbers. NOTHING if there is no capability; NO_PAYLOAD, MEMORY. */
uint32_t lovendak_ref_at(const uint8_t *payload, size_t len, uint32_t caps, const uint16_t *path, size_t steps, size_t *index);

/* Trees: contents of any fields, built place by place, and payloads looked into by paths. The places of a schema's fields are those
 * that `capnp compile -ocapnp` prints: a number of so many bits stands at so many times its width in the data, and a pointer has its
 * number.
 *
 * A handle has structs, lists and payloads under numbers, which are counted from 0. They may be begun and put together in any
 * order: each but the root is put into another with `lovendak_tree_put` or `lovendak_tree_push`, and the root is written with
 * `lovendak_tree_write`. A width is 1, 8, 16, 32 or 64 bits; what is signed or a float has the same bits.
 *
 * A call that is refused changes nothing. Each of these functions except `lovendak_tree_new` returns EMPTY_HANDLE if the handle is
 * empty, and each may return MEMORY. NOTHING is also returned if nothing stands under a number, or something that the call is not
 * for. */

/* Has an empty handle have trees. IN_USE if it has them, MEMORY. */
uint32_t lovendak_tree_new(lovendak_tree *tree);

/* Frees all trees, and leaves the handle empty. EMPTY_HANDLE if it is empty already, which does no harm. */
uint32_t lovendak_tree_free(lovendak_tree *tree);

/* Begins a struct of so many data words, which are 0, and so many pointers, which are null. FULL after 4,294,967,296 numbers. */
uint32_t lovendak_tree_struct(lovendak_tree *tree, uint16_t data_words, uint16_t pointers, uint32_t *made);

/* Begins a list of so many pointers, which are null: of texts, of data, of lists, of capabilities. FULL above 65,535. */
uint32_t lovendak_tree_list(lovendak_tree *tree, uint32_t count, uint32_t *made);

/* Begins a list of structs of so many data words and pointers each, of which it has none. FULL as for a struct. */
uint32_t lovendak_tree_structs(lovendak_tree *tree, uint16_t data_words, uint16_t pointers, uint32_t *made);

/* Puts a number of so many bits into the data of the struct `at`, at so many times its width. NO_SUCH_NUMBER of another width, and if
 * the number has more bits; NOTHING past the end of the data. */
uint32_t lovendak_tree_set_number(lovendak_tree *tree, uint32_t at, uint32_t bits, uint32_t index, uint64_t number);

/* Has a pointer of the struct or of the list `at` lead to a text (UTF-8 without a zero behind it), to bytes, to a list of numbers of so
 * many bits, or to the capability of that index. What it led to before is let go. NOTHING past the last pointer, NO_PAYLOAD of a text
 * that is no UTF-8, NO_SUCH_NUMBER as for a number. */
uint32_t lovendak_tree_set_text(lovendak_tree *tree, uint32_t at, uint32_t pointer, const uint8_t *text, size_t len);
uint32_t lovendak_tree_set_data(lovendak_tree *tree, uint32_t at, uint32_t pointer, const uint8_t *bytes, size_t len);
uint32_t lovendak_tree_set_numbers(lovendak_tree *tree, uint32_t at, uint32_t pointer, uint32_t bits, const uint64_t *numbers,
                                   size_t count);
uint32_t lovendak_tree_set_cap(lovendak_tree *tree, uint32_t at, uint32_t pointer, uint32_t index);

/* Has a pointer of the struct or of the list `at` lead to what stands under the number `from`, also to a payload that was read. That
 * number then stands for nothing. NOTHING past the last pointer; FULL if it nests more than 128 levels deep. */
uint32_t lovendak_tree_put(lovendak_tree *tree, uint32_t at, uint32_t pointer, uint32_t from);

/* Puts the struct under the number `from` at the end of a list of structs. That number then stands for nothing. NOTHING if its lengths
 * are not those of the list. */
uint32_t lovendak_tree_push(lovendak_tree *tree, uint32_t list, uint32_t from);

/* Writes what stands under a number as the payload that goes with so many capabilities; it stays. ROOM if it takes more bytes; `len`
 * says how many. CAP_COUNT if the index of a capability is not below their number, FULL if it is too much for a payload, or nests more
 * than 64 levels deep. */
uint32_t lovendak_tree_write(lovendak_tree *tree, uint32_t at, uint32_t caps, uint8_t *out, size_t room, size_t *len);

/* Reads a payload, which goes with so many capabilities, and keeps a copy of it under a number. The functions below look into it.
 * NO_PAYLOAD if the bytes are none. */
uint32_t lovendak_tree_read(lovendak_tree *tree, const uint8_t *payload, size_t len, uint32_t caps, uint32_t *made);

/* A path goes from the root of a payload that was read, by the number of a pointer in a struct (up to 65,535), and by the index of an
 * element in a list of pointers or structs. Behind null and past the last pointer or element there is null. NOTHING if a step goes on
 * from something else. The root itself is the path of no steps. */

/* What stands at a path, LOVENDAK_TREE_NULL to LOVENDAK_TREE_CAP, and its number: how many elements a list has, the index of a
 * capability, or 0. */
uint32_t lovendak_tree_kind(lovendak_tree *tree, uint32_t at, const uint32_t *path, size_t steps, uint32_t *kind, uint32_t *number);

/* The number of so many bits at so many times its width in the data of a struct (0 past its end, and if it is null), or an element of a
 * list of numbers of that width. NO_SUCH_NUMBER of another width, NOTHING if there is no such number. */
uint32_t lovendak_tree_number(lovendak_tree *tree, uint32_t at, const uint32_t *path, size_t steps, uint32_t bits, uint32_t index,
                              uint64_t *number);

/* The text at a path, UTF-8 without a zero behind it, and the bytes of a list of bytes; none if it is null. NOTHING if there is
 * something else; ROOM if it is longer, and `len` says how many bytes it has. */
uint32_t lovendak_tree_text(lovendak_tree *tree, uint32_t at, const uint32_t *path, size_t steps, uint8_t *out, size_t room,
                            size_t *len);
uint32_t lovendak_tree_data(lovendak_tree *tree, uint32_t at, const uint32_t *path, size_t steps, uint8_t *out, size_t room,
                            size_t *len);

/* The index of the capability at a path, which is that of its reference. NOTHING if there is something else. */
uint32_t lovendak_tree_cap(lovendak_tree *tree, uint32_t at, const uint32_t *path, size_t steps, uint32_t *index);

#ifdef __cplusplus
}
#endif
#endif
