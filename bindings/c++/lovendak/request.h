// A call that an application makes through a reference of a vat.
#pragma once
#include "client.h"

namespace lovendak {

struct OutgoingCall {
  // All that is sent with a call.

  OutgoingCall(VatClient& target, uint64_t interfaceId, uint16_t methodId, kj::Maybe<capnp::MessageSize> sizeHint)
      : target(kj::addRef(target)), interfaceId(interfaceId), methodId(methodId), payload(sizeHint) {}

  kj::ArrayPtr<const kj::byte> bytes();
  // The payload, which may not be changed any more.

  kj::Own<VatClient> target;
  uint64_t interfaceId;
  uint16_t methodId;
  OutgoingPayload payload;

private:
  kj::Maybe<kj::Array<capnp::word>> words;
};

class VatRequest final: public capnp::RequestHook {
  // Owns a call until it is sent.

public:
  VatRequest(VatClient& target, uint64_t interfaceId, uint16_t methodId, kj::Maybe<capnp::MessageSize> sizeHint)
      : call(kj::heap<OutgoingCall>(target, interfaceId, methodId, sizeHint)), brand(target.vat.get()) {}

  capnp::AnyPointer::Builder root() { return call->payload.root; }
  capnp::RemotePromise<capnp::AnyPointer> send() override;
  kj::Promise<void> sendStreaming() override;
  const void* getBrand() override { return brand; }

private:
  kj::Own<OutgoingCall> call;
  const void* brand;

  kj::Own<capnp::RequestHook> redirected(capnp::ClientHook& to);
  capnp::RemotePromise<capnp::AnyPointer> sendLater(Vat& vat);
};

}  // namespace lovendak
