#include "call-context.h"
#include <kj/debug.h>
#include "faults.h"

namespace lovendak {
using namespace capnp;

VatCallContext::VatCallContext(Vat& vat, uint64_t task, kj::Own<IncomingPayload> params, kj::Own<kj::PromiseFulfiller<void>> cancel)
    : vat(kj::addRef(vat)), task(task), params(kj::mv(params)), cancel(kj::mv(cancel)) {
  vat.running[task] = this;
}

VatCallContext::~VatCallContext() noexcept(false) {
  if (!isAnswered) fail(KJ_EXCEPTION(FAILED, "Call canceled."));
}

void VatCallContext::requestCancel() {
  cancelRequested = true;
  if (cancelAllowed) cancel->fulfill();
}

void VatCallContext::allowCancellation() {
  cancelAllowed = true;
  if (cancelRequested) cancel->fulfill();
}

AnyPointer::Reader VatCallContext::getParams() {
  KJ_IF_MAYBE(payload, params) {
    return (*payload)->root();
  }
  KJ_FAIL_REQUIRE("Can't call getParams() after releaseParams().") { return AnyPointer::Reader(); }
}

AnyPointer::Builder VatCallContext::getResults(kj::Maybe<MessageSize> sizeHint) {
  KJ_IF_MAYBE(payload, results) {
    return (*payload)->root;
  }
  auto payload = kj::heap<OutgoingPayload>(sizeHint);
  auto root = payload->root;
  results = kj::mv(payload);
  return root;
}

kj::Promise<void> VatCallContext::tailCall(kj::Own<RequestHook>&& request) {
  auto result = directTailCall(kj::mv(request));
  setPipeline(kj::mv(result.pipeline));
  return kj::mv(result.promise);
}

ClientHook::VoidPromiseAndPipeline VatCallContext::directTailCall(kj::Own<RequestHook>&& request) {
  KJ_REQUIRE(results == nullptr, "Can't call tailCall() after initializing the results struct.");
  bool goesBack = request->getBrand() == vat.get();
  auto sent = request->send();
  // A call back to the caller's vat has no other use than that of its caller.
  if (goesBack) allowCancellation();
  auto forwarded = sent.then([self = kj::addRef(*this)](Response<AnyPointer>&& response) mutable {
    self->getResults(response.targetSize()).set(response);
  });
  return {kj::mv(forwarded), PipelineHook::from(kj::mv(sent))};
}

void VatCallContext::setPipeline(kj::Own<PipelineHook>&& pipeline) {
  KJ_IF_MAYBE(fulfiller, tailPipeline) {
    (*fulfiller)->fulfill(AnyPointer::Pipeline(kj::mv(pipeline)));
  }
}

kj::Promise<AnyPointer::Pipeline> VatCallContext::onTailCall() {
  auto paf = kj::newPromiseAndFulfiller<AnyPointer::Pipeline>();
  tailPipeline = kj::mv(paf.fulfiller);
  return kj::mv(paf.promise);
}

void VatCallContext::answer() {
  if (isAnswered) return;
  KJ_IF_MAYBE(exception, kj::runCatchingExceptions([&]() { sendResults(); })) {
    return fail(kj::mv(*exception));
  }
  results = nullptr;
  params = nullptr;
  answered();
}

void VatCallContext::sendResults() {
  if (vat->isDown()) return;
  getResults(MessageSize{0, 0});
  auto& payload = *KJ_ASSERT_NONNULL(results);
  auto words = payload.words();
  vat->checkSize(words.size(), payload.table().size());
  References references(*vat, payload.table());
  auto bytes = words.asBytes();
  check(lovendak_answer(&vat->handle, task, bytes.begin(), bytes.size(), references.begin(), references.size()));
}

void VatCallContext::fail(kj::Exception&& exception) {
  if (isAnswered) return;
  if (!vat->isDown()) vat->failTask(task, exception);
  answered();
}

void VatCallContext::answered() {
  isAnswered = true;
  vat->running.erase(task);
  if (!vat->isDown()) vat->settledOwn();
}

}  // namespace lovendak
