// A call that the peer makes.
#pragma once
#include "vat.h"

namespace lovendak {

class VatCallContext final: public capnp::CallContextHook, public kj::Refcounted {
  // Owns a task of the vat with its parameters and results, and answers it once: with the results, with an exception, or, if nobody has
  // any part of it left, as cancelled.

public:
  VatCallContext(Vat& vat, uint64_t task, kj::Own<IncomingPayload> params, kj::Own<kj::PromiseFulfiller<void>> cancel);
  ~VatCallContext() noexcept(false);

  void requestCancel();
  // Nobody has use for the results: the application's work ends, if it allowed that or as soon as it does.

  void answer();
  void fail(kj::Exception&& exception);

  capnp::AnyPointer::Reader getParams() override;
  void releaseParams() override { params = nullptr; }
  capnp::AnyPointer::Builder getResults(kj::Maybe<capnp::MessageSize> sizeHint) override;
  kj::Promise<void> tailCall(kj::Own<capnp::RequestHook>&& request) override;
  void allowCancellation() override;
  void setPipeline(kj::Own<capnp::PipelineHook>&& pipeline) override;
  kj::Promise<capnp::AnyPointer::Pipeline> onTailCall() override;
  capnp::ClientHook::VoidPromiseAndPipeline directTailCall(kj::Own<capnp::RequestHook>&& request) override;
  kj::Own<capnp::CallContextHook> addRef() override { return kj::addRef(*this); }

private:
  kj::Own<Vat> vat;
  uint64_t task;
  kj::Maybe<kj::Own<IncomingPayload>> params;
  kj::Maybe<kj::Own<OutgoingPayload>> results;
  kj::Own<kj::PromiseFulfiller<void>> cancel;
  kj::Maybe<kj::Own<kj::PromiseFulfiller<capnp::AnyPointer::Pipeline>>> tailPipeline;
  bool cancelAllowed = false, cancelRequested = false, isAnswered = false;

  void sendResults();
  void answered();
};

}  // namespace lovendak
