// A reference of a vat as a capability.
#pragma once
#include "question.h"

namespace lovendak {

class VatClient final: public capnp::ClientHook, public kj::Refcounted {
  // Owns a reference of its vat until it leads on to another hook. As long as it may lead on it is a promise, and keeps the question of
  // whose results it is, if there is one.

public:
  VatClient(Vat& vat, uint64_t reference, kj::Maybe<kj::Own<Question>> question);
  ~VatClient() noexcept(false);

  void standsAt(Directory::Place place);
  // It leads there now, and the directory says so.

  void leaves();
  // It stands nowhere.

  void settles();
  // It is no promise, or none any more.

  void becomes(kj::Own<capnp::ClientHook> other);
  // It leads to that hook from now on.

  bool isPromise() { return promised && resolved == nullptr; }

  capnp::Request<capnp::AnyPointer, capnp::AnyPointer> newCall(uint64_t interfaceId, uint16_t methodId,
                                                               kj::Maybe<capnp::MessageSize> sizeHint) override;
  VoidPromiseAndPipeline call(uint64_t interfaceId, uint16_t methodId, kj::Own<capnp::CallContextHook>&& context) override;
  kj::Maybe<capnp::ClientHook&> getResolved() override;
  kj::Maybe<kj::Promise<kj::Own<capnp::ClientHook>>> whenMoreResolved() override;
  kj::Own<capnp::ClientHook> addRef() override { return kj::addRef(*this); }
  const void* getBrand() override { return vat.get(); }
  kj::Maybe<int> getFd() override;

  kj::Own<Vat> vat;
  const uint64_t reference;
  kj::Maybe<kj::Own<Question>> question;
  kj::Maybe<kj::Own<capnp::RpcFlowController>> flow;
  unsigned int waiting = 0;
  // Calls that wait for room in the vat. It leads on only once they were sent, so that none overtakes them.

private:
  bool promised = true, holdsReference = true;
  kj::Maybe<kj::Own<capnp::ClientHook>> resolved;
  kj::Maybe<Directory::Entry> entry;
  kj::Own<kj::PromiseFulfiller<void>> fulfiller;
  kj::Maybe<kj::ForkedPromise<void>> moreResolved;

  void handsFlowTo(capnp::ClientHook& other);
  void tells();
  void dropsReference();
};

}  // namespace lovendak
