#include "bootstraps.h"
#include <string.h>
#include <capnp/serialize.h>
#include <kj/debug.h>
#include "frames.h"

namespace lovendak {
using namespace capnp;

void Bootstraps::received(kj::ArrayPtr<const kj::byte> bytes) {
  auto passed = kj::min(passing, bytes.size());
  passing -= passed;
  vat.received(bytes.slice(0, passed));
  held.addAll(bytes.slice(passed, bytes.size()));
  receivedAll();
}

// The stream may have ended inside a frame.
void Bootstraps::ended() {
  vat.received(held);
  held.clear();
  vat.ended();
}

// Of what is held, all but a frame at the end whose rest is to come. `told` is the end of what the vat was told.
void Bootstraps::receivedAll() {
  size_t told = 0, next = 0;
  while (next < held.size()) {
    auto rest = held.asPtr().slice(next, held.size());
    auto length = frameLength(rest);
    if (length == 0 && rest.size() < MOST) break;
    if (length == 0) length = kj::maxValue;  // of no message: the vat goes down with it
    if (length > MOST) {
      auto there = kj::min(length, rest.size());
      passing = length - there;
      next += there;
      continue;
    }
    if (length > rest.size()) break;
    KJ_IF_MAYBE(call, callFor(rest.slice(0, length))) {
      vat.received(held.asPtr().slice(told, next));
      vat.received(call->asBytes());
      told = next + length;
    }
    next += length;
  }
  vat.received(held.asPtr().slice(told, next));
  auto left = held.size() - next;
  memmove(held.begin(), held.begin() + next, left);
  held.resize(left);
}

// Nothing for another message, or bytes of none, of which the vat says what is wrong.
kj::Maybe<kj::Array<word>> Bootstraps::callFor(kj::ArrayPtr<const kj::byte> frame) {
  auto words = kj::arrayPtr(reinterpret_cast<const word*>(frame.begin()), frame.size() / sizeof(word));
  // Mostly one segment that begins with a pointer to the struct behind it, which begins with the kind of message.
  uint32_t head[6] = {0};
  memcpy(head, frame.begin(), kj::min(sizeof(head), frame.size()));
  if (head[0] == 0 && head[2] == 0 && (head[4] & 0xffff) != rpc::Message::BOOTSTRAP) return nullptr;
  kj::Maybe<kj::Array<word>> call;
  auto wrong = kj::runCatchingExceptions([&]() {
    FlatArrayMessageReader reader(words);
    auto message = reader.getRoot<rpc::Message>();
    if (message.isBootstrap()) call = callOfRoot(message.getBootstrap(), root);
  });
  return wrong == nullptr ? kj::mv(call) : nullptr;
}

}  // namespace lovendak
