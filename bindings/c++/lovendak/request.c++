#include "request.h"
#include <kj/debug.h>
#include "pipeline.h"

namespace lovendak {
using namespace capnp;

kj::ArrayPtr<const kj::byte> OutgoingCall::bytes() {
  KJ_IF_MAYBE(known, words) {
    return known->asBytes();
  }
  return words.emplace(payload.words()).asBytes();
}

// The target came to lead elsewhere since the request was begun.
kj::Own<RequestHook> VatRequest::redirected(ClientHook& to) {
  auto replacement = to.newCall(call->interfaceId, call->methodId, call->payload.root.targetSize());
  replacement.set(call->payload.root.asReader());
  return RequestHook::from(kj::mv(replacement));
}

static kj::Promise<Response<AnyPointer>> responseTo(kj::Own<Question> question) {
  auto promise = question->whenAnswered();
  return promise.then([](kj::Own<VatResponse>&& response) {
    auto results = response->results();
    return Response<AnyPointer>(results, kj::mv(response));
  }).attach(kj::mv(question));
}

RemotePromise<AnyPointer> VatRequest::send() {
  KJ_IF_MAYBE(other, call->target->getResolved()) {
    return redirected(*other)->send();
  }
  auto& vat = *call->target->vat;
  kj::Maybe<kj::Own<Question>> sent;
  KJ_IF_MAYBE(e, kj::runCatchingExceptions([&]() { sent = vat.send(*call); })) {
    return RemotePromise<AnyPointer>(kj::cp(*e), AnyPointer::Pipeline(newBrokenPipeline(kj::mv(*e))));
  }
  KJ_IF_MAYBE(question, sent) {
    auto pipeline = kj::refcounted<VatPipeline>(kj::addRef(**question));
    return RemotePromise<AnyPointer>(responseTo(kj::mv(*question)), AnyPointer::Pipeline(kj::mv(pipeline)));
  }
  return sendLater(vat);
}

RemotePromise<AnyPointer> VatRequest::sendLater(Vat& vat) {
  auto sent = vat.sendLater(kj::mv(call)).fork();
  auto pipeline = sent.addBranch().then([](kj::Own<Question>&& question) -> kj::Own<PipelineHook> {
    return kj::refcounted<VatPipeline>(kj::mv(question));
  });
  auto response = sent.addBranch().then([](kj::Own<Question>&& question) { return responseTo(kj::mv(question)); });
  return RemotePromise<AnyPointer>(kj::mv(response), AnyPointer::Pipeline(newLocalPromisePipeline(kj::mv(pipeline))));
}

namespace {
class SentMessage final: public OutgoingRpcMessage {
  // For the window, which only asks how large it was.

public:
  explicit SentMessage(size_t words): words(words) {}
  AnyPointer::Builder getBody() override { KJ_UNREACHABLE; }
  void send() override {}
  size_t sizeInWords() override { return words; }

private:
  size_t words;
};
}  // namespace

kj::Promise<void> VatRequest::sendStreaming() {
  KJ_IF_MAYBE(other, call->target->getResolved()) {
    return redirected(*other)->sendStreaming();
  }
  auto target = kj::addRef(*call->target);
  auto words = call->bytes().size() / sizeof(word);
  kj::Promise<void> done = nullptr;
  KJ_IF_MAYBE(question, target->vat->send(*call)) {
    done = responseTo(kj::mv(*question)).ignoreResult();
  } else {
    done = target->vat->sendLater(kj::mv(call)).then([](kj::Own<Question>&& question) {
      return responseTo(kj::mv(question)).ignoreResult();
    });
  }
  if (target->flow == nullptr) target->flow = target->vat->newStream();
  KJ_IF_MAYBE(flow, target->flow) {
    return (*flow)->send(kj::heap<SentMessage>(words), kj::mv(done));
  }
  return done;
}

}  // namespace lovendak
