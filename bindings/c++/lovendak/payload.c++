#include "payload.h"

namespace lovendak {

// The vat has read the payload within its own limits before it comes here.
static const capnp::ReaderOptions NO_LIMITS = {1ull << 40, 128};

IncomingPayload::IncomingPayload(kj::Array<capnp::word> words, kj::Array<MaybeHook> hooks)
    : words(kj::mv(words)), reader(this->words, NO_LIMITS), hooks(kj::mv(hooks)) {}

capnp::AnyPointer::Reader IncomingPayload::root() {
  return hooks.imbue(reader.getRoot<capnp::AnyPointer>());
}

// Most payloads are small, and a first segment is filled with zeros.
static const unsigned int FIRST_WORDS = 128;

static unsigned int firstSegmentWords(kj::Maybe<capnp::MessageSize> sizeHint) {
  KJ_IF_MAYBE(hint, sizeHint) {
    return kj::min(hint->wordCount, 1u << 16) + 1;
  }
  return FIRST_WORDS;
}

OutgoingPayload::OutgoingPayload(kj::Maybe<capnp::MessageSize> sizeHint)
    : root(nullptr), message(firstSegmentWords(sizeHint)) {
  root = hooks.imbue(message.getRoot<capnp::AnyPointer>());
}

kj::Array<capnp::word> OutgoingPayload::words() { return capnp::messageToFlatArray(message); }

kj::ArrayPtr<MaybeHook> OutgoingPayload::table() { return hooks.getTable(); }

}  // namespace lovendak
