// What an application tells its vat.
#include <kj/debug.h>
#include "call-context.h"
#include "faults.h"
#include "pipeline.h"
#include "request.h"

namespace lovendak {
using namespace capnp;

// The limits of docs/protocol.md.
static const size_t MESSAGE_WORDS = 65536, TABLE_ENTRIES = 4096;

kj::Own<ClientHook> Vat::bootstrap() {
  if (down) return newBrokenCap(whyDown());
  uint64_t number;
  auto code = lovendak_bootstrap(&handle, &number);
  if (code != LOVENDAK_OK) return newBrokenCap(refusal(code));
  auto pipeline = kj::refcounted<VatPipeline>(kj::refcounted<Question>(*this, number));
  auto hook = pipeline->getPipelinedCap(kj::ArrayPtr<const PipelineOp>(nullptr));
  commanded();
  return hook;
}

kj::Maybe<kj::Own<capnp::RpcFlowController>> Vat::newStream() {
  KJ_IF_MAYBE(it, transport) {
    return it->newStream();
  }
  return nullptr;
}

// Sends a call. Nothing if it has to wait for room; throws if it can't be sent.
kj::Maybe<kj::Own<Question>> Vat::send(OutgoingCall& call) {
  if (!waitingCalls.empty()) return nullptr;
  return trySend(call);
}

kj::Maybe<kj::Own<Question>> Vat::trySend(OutgoingCall& call) {
  if (down) kj::throwFatalException(whyDown());
  auto bytes = call.bytes();
  auto hooks = call.payload.table();
  checkSize(bytes.size() / sizeof(word), hooks.size());
  uint64_t number;
  {
    References references(*this, hooks);
    auto code = lovendak_call(&handle, call.target->reference, call.interfaceId, call.methodId, bytes.begin(), bytes.size(),
                              references.begin(), references.size(), &number);
    if (code == LOVENDAK_FULL && hasMostQuestions()) return nullptr;
    check(code);
  }
  commanded();
  return kj::refcounted<Question>(*this, number);
}

// Beside the payload, a message has a few words, and some for each capability.
void Vat::checkSize(size_t words, size_t hooks) {
  if (words + 3 * hooks + 48 > MESSAGE_WORDS) kj::throwFatalException(tooLarge(words));
}

bool Vat::hasMostQuestions() {
  size_t questions = 0, answers = 0, exported = 0, imported = 0;
  lovendak_table_sizes(&handle, &questions, &answers, &exported, &imported);
  return questions >= TABLE_ENTRIES;
}

kj::Promise<kj::Own<Question>> Vat::sendLater(kj::Own<OutgoingCall> call) {
  auto paf = kj::newPromiseAndFulfiller<kj::Own<Question>>();
  call->target->waiting++;
  waitingCalls.push_back({kj::mv(call), kj::mv(paf.fulfiller)});
  return kj::mv(paf.promise);
}

// Sends what waits, in its order, as far as there is room now, and says if it sent any.
bool Vat::sendWaiting() {
  bool any = false;
  while (!waitingCalls.empty() && !down) {
    auto& first = waitingCalls.front();
    if (first.fulfiller->isWaiting()) {
      KJ_IF_MAYBE(exception, kj::runCatchingExceptions([&]() {
        KJ_IF_MAYBE(question, trySend(*first.call)) {
          first.fulfiller->fulfill(kj::mv(*question));
        }
      })) {
        first.fulfiller->reject(kj::mv(*exception));
      }
      if (first.fulfiller->isWaiting()) return any;
    }
    any = true;
    auto sent = kj::mv(first);
    waitingCalls.pop_front();
    sent.call->target->waiting--;
    follow(*sent.call->target);
  }
  return any;
}

void Vat::failWaiting() {
  auto all = kj::mv(waitingCalls);
  waitingCalls.clear();
  for (auto& waiting: all) {
    waiting.call->target->waiting--;
    waiting.fulfiller->reject(whyDown());
  }
}

void Vat::resolvePromise(uint64_t promise, uint64_t reference) {
  if (down) return;
  auto code = lovendak_resolve(&handle, promise, reference);
  if (code == LOVENDAK_CYCLE) return rejectPromise(promise, KJ_EXCEPTION(FAILED, "The promise was resolved to itself."));
  if (code == LOVENDAK_FULL) return rejectPromise(promise, refusal(code));
  check(code);
  settledOwn();
}

static kj::String reasonOf(const kj::Exception& exception) {
  kj::Vector<kj::String> lines;
  lines.add(kj::str(exception.getDescription()));
  auto context = exception.getContext();
  for (;;) {
    KJ_IF_MAYBE(it, context) {
      lines.add(kj::str("context: ", it->file, ": ", it->line, ": ", it->description));
      context = it->next;
    } else {
      return kj::strArray(lines, "\n");
    }
  }
}

// A reason that is too long to be sent, or is no UTF-8: its beginning, in ASCII.
static kj::String sendable(kj::StringPtr reason) {
  auto text = kj::heapString(reason.slice(0).asArray().slice(0, kj::min(reason.size(), 1000u)));
  for (auto& letter: text) {
    if (letter & 0x80) letter = '?';
  }
  return text;
}

template <typename Command>
static void withReason(const kj::Exception& why, Command&& command) {
  static const uint8_t NOTHING[1] = {0};
  auto reason = reasonOf(why);
  auto kind = static_cast<uint32_t>(why.getType());
  auto bytes = reason.asBytes();
  auto code = command(kind, bytes.size() == 0 ? NOTHING : bytes.begin(), bytes.size());
  if (code != LOVENDAK_FULL && code != LOVENDAK_NO_PAYLOAD) return;
  auto shorter = sendable(reason);
  command(kind, shorter.asBytes().begin(), shorter.size());
}

void Vat::rejectPromise(uint64_t promise, const kj::Exception& why) {
  if (down) return;
  withReason(why, [&](uint32_t kind, const uint8_t* reason, size_t length) {
    return lovendak_reject(&handle, promise, kind, reason, length);
  });
  settledOwn();
}

void Vat::failTask(uint64_t task, const kj::Exception& why) {
  withReason(why, [&](uint32_t kind, const uint8_t* reason, size_t length) {
    return lovendak_fail(&handle, task, kind, reason, length);
  });
}

}  // namespace lovendak
