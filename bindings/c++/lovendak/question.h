// An own call, from the moment it is sent.
#pragma once
#include "payload.h"
#include "vat.h"

namespace lovendak {

class VatResponse final: public capnp::ResponseHook, public kj::Refcounted {
  // Owns the results of a call.

public:
  explicit VatResponse(kj::Own<IncomingPayload> payload): payload(kj::mv(payload)) {}
  capnp::AnyPointer::Reader results() { return payload->root(); }

private:
  kj::Own<IncomingPayload> payload;
};

class Question final: public kj::Refcounted {
  // Owns a call of the vat, and finishes it when nobody has use for it: neither who waits for its results, nor its pipeline, nor a
  // capability of that pipeline which the results have not settled yet.

public:
  Question(Vat& vat, uint64_t number);
  ~Question() noexcept(false);

  kj::Own<Question> addRef() { return kj::addRef(*this); }

  void answered(kj::Own<VatResponse> response);
  void failed(kj::Exception&& exception);

  kj::Promise<kj::Own<VatResponse>> whenAnswered() { return kj::mv(promise); }
  // To be called once.

  kj::Own<Vat> vat;
  const uint64_t number;
  kj::Maybe<kj::Own<VatResponse>> response;
  kj::Maybe<kj::Exception> exception;

private:
  kj::Promise<kj::Own<VatResponse>> promise;
  kj::Own<kj::PromiseFulfiller<kj::Own<VatResponse>>> fulfiller;
};

}  // namespace lovendak
