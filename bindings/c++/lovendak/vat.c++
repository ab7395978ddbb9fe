#include "vat.h"
#include <string.h>
#include <capnp/message.h>
#include <capnp/rpc.capnp.h>
#include <capnp/serialize.h>
#include <kj/debug.h>
#include "call-context.h"
#include "client.h"
#include "faults.h"
#include "request.h"

namespace lovendak {
using namespace capnp;

static const uint32_t PEER_ABORT = 34;

Vat::Vat(Transport& transport, kj::Maybe<kj::Own<ClientHook>> root)
    : transport(transport), downFork(nullptr), exports(*this), eventWords(kj::heapArray<word>(1024)),
      eventReferences(kj::heapArray<uint64_t>(16)), tasks(*this) {
  auto paf = kj::newPromiseAndFulfiller<void>();
  downFulfiller = kj::mv(paf.fulfiller);
  downFork = paf.promise.fork();
  check(lovendak_new(&handle, 1, root != nullptr, Exports::ROOT));
  KJ_IF_MAYBE(hook, root) {
    exports.addRoot(kj::mv(*hook));
  }
}

// A vat exports its bootstrap object if it is asked for it: here before the peer can ask, and what it says of this is kept from the peer.
// The export stays until the vat goes down.
uint32_t Vat::exportRoot() {
  MallocMessageBuilder bootstrap, finish;
  bootstrap.initRoot<rpc::Message>().initBootstrap().setQuestionId(0);
  auto finished = finish.initRoot<rpc::Message>().initFinish();
  finished.setQuestionId(0);
  finished.setReleaseResultCaps(false);
  auto hear = [this](MessageBuilder& message) {
    auto words = messageToFlatArray(message);
    auto bytes = words.asBytes();
    check(lovendak_received(&handle, bytes.begin(), bytes.size()));
  };
  hear(bootstrap);
  size_t count = 0;
  auto room = eventWords.asBytes();
  check(lovendak_outgoing(&handle, room.begin(), room.size(), &count));
  if (count == 0) kj::throwFatalException(whyDown());
  hear(finish);
  FlatArrayMessageReader said(eventWords);
  return said.getRoot<rpc::Message>().getReturn().getResults().getCapTable()[0].getSenderHosted();
}

Vat::~Vat() noexcept(false) { lovendak_free(&handle); }

void Vat::taskFailed(kj::Exception&& exception) { KJ_LOG(ERROR, exception); }

void Vat::received(kj::ArrayPtr<const kj::byte> bytes) {
  if (bytes.size() == 0) return;
  lovendak_received(&handle, bytes.begin(), bytes.size());
  maySay = true;
  pump();
}

size_t Vat::outgoing(kj::ArrayPtr<kj::byte> room) {
  bool waits = !wantsBytes();
  size_t count = 0, more = 0;
  do {
    more = 0;
    lovendak_outgoing(&handle, room.begin() + count, room.size() - count, &more);
    count += more;
  } while (more != 0 && count < room.size());
  if (more == 0) transportReady = false;
  // A message that can't be sent takes the vat down, and what waited may be heard as bytes are asked for, even if there are none.
  bool fell = !down && lovendak_down(&handle, &lastNumber) == LOVENDAK_OK;
  bool gave = limited && count != 0;
  if (fell || gave) maySay = true;
  if (fell || gave || waits) schedulePump();
  return count;
}

void Vat::ended() {
  lovendak_ended(&handle);
  maySay = true;
  pump();
}

void Vat::failed(kj::Exception&& why) {
  if (down) return;
  if (networkException == nullptr) networkException = kj::mv(why);
  ended();
}

void Vat::shut(kj::Exception&& why) {
  if (down) return;
  if (networkException == nullptr) networkException = kj::mv(why);
  lovendak_shut(&handle, 0);
  maySay = true;
  pump();
}

kj::Exception Vat::whyDown() {
  const char* file = __FILE__;
  int line = __LINE__;
  auto reason = [&]() {
    KJ_IF_MAYBE(why, networkException) {
      file = why->getFile();
      line = why->getLine();
      return kj::heapString(why->getDescription());
    }
    lovendak_down(&handle, &lastNumber);
    if (lastNumber == 0) return kj::str("Peer disconnected.");
    if (lastNumber == PEER_ABORT) return kj::str("remote exception: ", abortReason);
    return kj::str("The vat went down with ", describeFault(lastNumber));
  }();
  return kj::Exception(kj::Exception::Type::DISCONNECTED, file, line, kj::mv(reason));
}

void Vat::setLimits(uint64_t words, uint64_t bytes) {
  limited = true;
  mostWords = words;
  mostBytes = bytes;
  lovendak_set_limits(&handle, words, bytes);
  commanded();
}

bool Vat::wantsBytes() {
  uint32_t answer = 1;
  if (limited && !down) lovendak_wants_bytes(&handle, &answer);
  return answer != 0;
}

// Whether there are events, or messages that wait are heard if the vat is asked for events again.
bool Vat::goesOn() {
  size_t unsent = 0;
  uint32_t isEvent = 0;
  lovendak_pending(&handle, &unsent, &isEvent);
  if (unsent != 0) maySay = true;
  if (isEvent != 0) return true;
  uint64_t words = 0, bytes = 0;
  lovendak_load(&handle, &words, &bytes);
  return !down && !wantsBytes() && words <= mostWords && bytes <= mostBytes;
}

kj::Promise<void> Vat::whenWantsBytes() {
  if (wantsBytes()) return kj::READY_NOW;
  auto paf = kj::newPromiseAndFulfiller<void>();
  wantsBytesFulfiller = kj::mv(paf.fulfiller);
  return kj::mv(paf.promise);
}

uint64_t Vat::bytesWaiting() {
  uint64_t words = 0, bytes = 0;
  lovendak_load(&handle, &words, &bytes);
  return bytes;
}

// After bytes, and in a later turn after commands: handles what happened until nothing more does.
void Vat::pump() {
  if (pumping) {
    pumpAgain = true;
    return;
  }
  auto self = kj::addRef(*this);
  pumping = true;
  pumpWanted = false;
  KJ_DEFER(pumping = false);
  do {
    pumpAgain = false;
    if (handleEvents()) maySay = true;
    followOwn();
    announce();
    auto gone = kj::mv(lettingGo);
  } while (pumpAgain);
  // Once in a turn: to try is a command too.
  if (sendWaiting()) schedulePump();
  announce();
  if (wantsBytesFulfiller != nullptr && wantsBytes()) {
    auto fulfiller = kj::mv(wantsBytesFulfiller);
    wantsBytesFulfiller = nullptr;
    KJ_ASSERT_NONNULL(fulfiller)->fulfill();
  }
}

// After a command: the transport is told at once, and what there is to handle is handled in a later turn, that of the transport if it has
// one.
void Vat::commanded() {
  maySay = true;
  if (pumping) {
    pumpAgain = true;
    return;
  }
  announce();
  pumpWanted = true;
  if (!transportTurns) schedulePump();
}

void Vat::turn() {
  transportTurns = false;
  if (pumpWanted) pump();
}

void Vat::schedulePump() {
  if (pumpScheduled) return;
  pumpScheduled = true;
  tasks.add(kj::evalLater([this]() {
    pumpScheduled = false;
    pump();
  }));
}

// Tells the transport, if the vat may have said something since it was told last.
void Vat::announce() {
  if (transportReady || !maySay) return;
  KJ_IF_MAYBE(it, transport) {
    transportReady = true;
    maySay = false;
    if (it->ready()) transportTurns = true;
  }
}

void Vat::letGo(kj::Own<ClientHook> hook) {
  lettingGo.add(kj::mv(hook));
  commanded();
}

// Whether there were any. What waited unheard may be heard as they are taken, and once there is none.
bool Vat::handleEvents() {
  lovendak_event event;
  bool any = false, waits = false;
  do {
    waits = !wantsBytes();
    while (nextEvent(event)) {
      any = true;
      handleEvent(event);
    }
  } while (waits && goesOn());
  return any;
}

// The next event, with what goes with it in `eventWords` and `eventReferences`.
bool Vat::nextEvent(lovendak_event& event) {
  for (;;) {
    auto room = eventWords.asBytes();
    auto code = lovendak_next_event(&handle, &event, room.begin(), room.size(), eventReferences.begin(), eventReferences.size());
    if (code == LOVENDAK_NOTHING) return false;
    if (code != LOVENDAK_ROOM) {
      check(code);
      return true;
    }
    if (event.payload_len > room.size()) eventWords = kj::heapArray<word>(event.payload_len / sizeof(word) + 1);
    if (event.refs_len > eventReferences.size()) eventReferences = kj::heapArray<uint64_t>(event.refs_len);
  }
}

void Vat::handleEvent(const lovendak_event& event) {
  switch (event.kind) {
    case LOVENDAK_SERVE:
      serve(event);
      break;
    case LOVENDAK_ENDED:
      endCall(event);
      break;
    case LOVENDAK_WENT_DOWN:
      wentDown(event);
      break;
    case LOVENDAK_RELEASED:
      KJ_IF_MAYBE(hook, exports.release(event.object)) {
        lettingGo.add(kj::mv(*hook));
      }
      break;
    case LOVENDAK_CANCELLED: {
      auto task = running.find(event.number);
      if (task != running.end()) task->second->requestCancel();
      break;
    }
    case LOVENDAK_RESOLVED:
      followAll({event.place, event.number});
      break;
    case LOVENDAK_LIFTED:
      followAll(Directory::Place::embargo(event.number));
      break;
  }
}

kj::String Vat::eventText(const lovendak_event& event) {
  return kj::heapString(eventWords.asPtr().asChars().slice(0, event.payload_len));
}

kj::Own<IncomingPayload> Vat::eventPayload(const lovendak_event& event) {
  auto words = kj::heapArray<word>(event.payload_len / sizeof(word));
  memcpy(words.begin(), eventWords.begin(), event.payload_len);
  auto references = kj::heapArray<uint64_t>(eventReferences.slice(0, event.refs_len));
  auto hooks = kj::heapArrayBuilder<MaybeHook>(references.size());
  for (auto reference: references) hooks.add(hookOf(reference));
  return kj::heap<IncomingPayload>(kj::mv(words), hooks.finish());
}

void Vat::serve(const lovendak_event& event) {
  auto object = event.object;
  auto paf = kj::newPromiseAndFulfiller<void>();
  auto payload = eventPayload(event);
  auto context = kj::refcounted<VatCallContext>(*this, event.number, kj::mv(payload), kj::mv(paf.fulfiller));
  KJ_IF_MAYBE(found, exports.object(object)) {
    auto hook = found->addRef();
    auto call = hook->call(event.interface_id, event.method, context->addRef());
    auto& called = *context;
    call.promise.then([&called]() { called.answer(); }, [&called](kj::Exception&& exception) { called.fail(kj::mv(exception)); })
        .attach(kj::mv(context), kj::mv(hook))
        .exclusiveJoin(kj::mv(paf.promise))
        .detach([](kj::Exception&& exception) { KJ_LOG(ERROR, exception); });
  } else {
    context->fail(KJ_EXCEPTION(FAILED, "There is no such object.", object));
  }
}

void Vat::endCall(const lovendak_event& event) {
  kj::Maybe<kj::Own<Question>> known;
  auto found = questions.find(event.number);
  if (found != questions.end()) known = kj::addRef(*found->second);
  if (event.is_exception == 0) {
    auto payload = eventPayload(event);
    KJ_IF_MAYBE(question, known) {
      (*question)->answered(kj::refcounted<VatResponse>(kj::mv(payload)));
    }
    return;
  }
  KJ_IF_MAYBE(question, known) {
    // Why the vat went down is told behind the calls that were open.
    if (event.exception == LOVENDAK_DISCONNECTED && lovendak_down(&handle, &lastNumber) == LOVENDAK_OK) {
      cutOff.add(kj::mv(*question));
      return;
    }
    auto kind = static_cast<kj::Exception::Type>(event.exception);
    (*question)->failed(kj::Exception(kind, "(remote)", 0, kj::str("remote exception: ", eventText(event))));
  }
}

void Vat::wentDown(const lovendak_event& event) {
  if (down) return;
  abortReason = eventText(event);
  announce();
  down = true;
  for (auto& question: cutOff) question->failed(whyDown());
  cutOff.clear();
  failWaiting();
  for (auto& client: directory.all()) {
    if (client->isPromise()) client->becomes(newBrokenCap(whyDown()));
  }
  kj::Vector<kj::Own<VatCallContext>> contexts;
  for (auto& task: running) contexts.add(kj::addRef(*task.second));
  for (auto& context: contexts) context->requestCancel();
  for (auto& hook: exports.releaseAll()) lettingGo.add(kj::mv(hook));
  downFulfiller->fulfill();
}

}  // namespace lovendak
