#include "client.h"
#include "request.h"

namespace lovendak {
using namespace capnp;

VatClient::VatClient(Vat& vat, uint64_t reference, kj::Maybe<kj::Own<Question>> question)
    : vat(kj::addRef(vat)), reference(reference), question(kj::mv(question)) {}

VatClient::~VatClient() noexcept(false) {
  leaves();
  dropsReference();
}

void VatClient::standsAt(Directory::Place place) {
  leaves();
  entry = vat->directory.enter(place, *this);
}

void VatClient::settles() {
  promised = false;
  question = nullptr;
  tells();
}

void VatClient::becomes(kj::Own<ClientHook> other) {
  leaves();
  handsFlowTo(*other);
  resolved = kj::mv(other);
  question = nullptr;
  tells();
  dropsReference();
}

// The window for streaming calls goes on with the reference that these go through now.
void VatClient::handsFlowTo(ClientHook& other) {
  KJ_IF_MAYBE(window, flow) {
    if (other.getBrand() == vat.get() && kj::downcast<VatClient>(other).flow == nullptr) {
      kj::downcast<VatClient>(other).flow = kj::mv(*window);
    } else {
      auto acknowledged = (*window)->waitAllAcked();
      vat->addTask(acknowledged.attach(kj::mv(*window)));
    }
  }
  flow = nullptr;
}

void VatClient::leaves() {
  KJ_IF_MAYBE(it, entry) {
    vat->directory.leave(*it);
  }
  entry = nullptr;
}

void VatClient::tells() {
  if (fulfiller.get() != nullptr) fulfiller->fulfill();
}

void VatClient::dropsReference() {
  if (!holdsReference) return;
  holdsReference = false;
  vat->drop(reference);
}

Request<AnyPointer, AnyPointer> VatClient::newCall(uint64_t interfaceId, uint16_t methodId, kj::Maybe<MessageSize> sizeHint) {
  KJ_IF_MAYBE(other, resolved) {
    return (*other)->newCall(interfaceId, methodId, sizeHint);
  }
  if (vat->isDown()) return newBrokenRequest(vat->whyDown(), sizeHint);
  auto request = kj::heap<VatRequest>(*this, interfaceId, methodId, sizeHint);
  auto root = request->root();
  return Request<AnyPointer, AnyPointer>(root, kj::mv(request));
}

ClientHook::VoidPromiseAndPipeline VatClient::call(uint64_t interfaceId, uint16_t methodId, kj::Own<CallContextHook>&& context) {
  KJ_IF_MAYBE(other, resolved) {
    return (*other)->call(interfaceId, methodId, kj::mv(context));
  }
  auto params = context->getParams();
  auto request = newCall(interfaceId, methodId, params.targetSize());
  request.set(params);
  context->releaseParams();
  // The call is the peer's, which decides if it can be cancelled.
  context->allowCancellation();
  return context->directTailCall(RequestHook::from(kj::mv(request)));
}

kj::Maybe<ClientHook&> VatClient::getResolved() {
  KJ_IF_MAYBE(other, resolved) {
    return **other;
  }
  return nullptr;
}

kj::Maybe<kj::Promise<kj::Own<ClientHook>>> VatClient::whenMoreResolved() {
  KJ_IF_MAYBE(other, resolved) {
    return kj::Promise<kj::Own<ClientHook>>((*other)->addRef());
  }
  if (!promised) return nullptr;
  if (fulfiller.get() == nullptr) {
    auto paf = kj::newPromiseAndFulfiller<void>();
    fulfiller = kj::mv(paf.fulfiller);
    moreResolved = paf.promise.fork();
  }
  return KJ_ASSERT_NONNULL(moreResolved).addBranch().then([self = kj::addRef(*this)]() mutable -> kj::Own<ClientHook> {
    KJ_IF_MAYBE(other, self->resolved) {
      return (*other)->addRef();
    }
    return kj::mv(self);
  });
}

kj::Maybe<int> VatClient::getFd() {
  KJ_IF_MAYBE(other, resolved) {
    return (*other)->getFd();
  }
  return nullptr;
}

}  // namespace lovendak
