// What goes with calls and their results: words, and a hook for each capability.
#pragma once
#include <capnp/capability.h>
#include <capnp/message.h>
#include <capnp/serialize.h>

namespace lovendak {

typedef kj::Maybe<kj::Own<capnp::ClientHook>> MaybeHook;

class IncomingPayload {
  // Owns the words that came, and the hooks of their capabilities.

public:
  IncomingPayload(kj::Array<capnp::word> words, kj::Array<MaybeHook> hooks);
  capnp::AnyPointer::Reader root();

private:
  kj::Array<capnp::word> words;
  capnp::FlatArrayMessageReader reader;
  capnp::ReaderCapabilityTable hooks;
};

class OutgoingPayload {
  // Owns a message that an application fills, and the hooks of its capabilities.

public:
  explicit OutgoingPayload(kj::Maybe<capnp::MessageSize> sizeHint);

  capnp::AnyPointer::Builder root;
  kj::Array<capnp::word> words();
  kj::ArrayPtr<MaybeHook> table();

private:
  capnp::MallocMessageBuilder message;
  capnp::BuilderCapabilityTable hooks;
};

}  // namespace lovendak
