#include "link.h"
#include <string.h>
#include <capnp/message.h>
#include <capnp/rpc.capnp.h>
#include <capnp/serialize.h>
#include <kj/debug.h>
#include "cap-numbers.h"
#include "frames.h"

namespace lovendak {
using namespace capnp;

static const size_t PIECE = 65536;

Link::Link(kj::Own<NetworkConnection> given, Root root)
    : connection(kj::mv(given)), room(kj::heapArray<kj::byte>(PIECE)), vat(kj::refcounted<Vat>(*this, kj::mv(root.hook))),
      reading(nullptr) {
  if (root.isAsked) askedRoot = vat->exportRoot();
  reading = read().eagerlyEvaluate([this](kj::Exception&& exception) { vat->failed(kj::mv(exception)); });
}

Link::~Link() noexcept(false) { vat->dropTransport(); }

kj::Promise<void> Link::shutdown(kj::Exception&& why) {
  vat->shut(kj::mv(why));
  vat->dropTransport();
  reading = nullptr;
  auto ended = connection->shutdown();
  return ended.attach(kj::mv(connection)).catch_([](kj::Exception&& exception) {
    if (exception.getType() != kj::Exception::Type::DISCONNECTED) kj::throwRecoverableException(kj::mv(exception));
  });
}

// How many bytes the first frame has, or 0 if not all of it is there.
static size_t wholeFrame(kj::ArrayPtr<const kj::byte> bytes) {
  auto length = frameLength(bytes);
  return length <= bytes.size() ? length : 0;
}

bool Link::ready() {
  size_t count;
  do {
    count = vat->outgoing(room);
    pending.addAll(room.slice(0, count));
  } while (count == room.size());
  auto held = pending.size();
  size_t sent = 0;
  while (auto length = wholeFrame(pending.asPtr().slice(sent, held))) {
    sendFrame(kj::arrayPtr(reinterpret_cast<const word*>(pending.begin() + sent), length / sizeof(word)));
    sent += length;
  }
  memmove(pending.begin(), pending.begin() + sent, held - sent);
  pending.resize(held - sent);
  return false;
}

kj::Own<ClientHook> Link::bootstrap(AnyPointer::Reader name) {
  auto kept = kj::heap<MallocMessageBuilder>(name.targetSize().wordCount + 1);
  kept->getRoot<AnyPointer>().set(name);
  names.push_back(kj::mv(kept));
  auto hook = vat->bootstrap();
  if (hook->isError()) names.pop_back();  // which sends nothing
  return hook;
}

void Link::sendFrame(kj::ArrayPtr<const word> frame) {
  FlatArrayMessageReader reader(frame, {1ull << 40, 128});
  if (reader.getRoot<rpc::Message>().isBootstrap()) return sendBootstrap(reader.getRoot<rpc::Message>().getBootstrap());
  auto message = connection->newOutgoingMessage(frame.size() + 1);
  copyWithNumbers(message->getBody(), reader.getRoot<AnyPointer>());
  message->send();
}

// The vat knows no names, so that each goes with its Bootstrap from here.
void Link::sendBootstrap(rpc::Bootstrap::Reader bootstrap) {
  auto kept = kj::mv(names.front());
  names.pop_front();
  auto name = kept->getRoot<AnyPointer>().asReader();
  auto message = connection->newOutgoingMessage(name.targetSize().wordCount + 16);
  auto sent = message->getBody().initAs<rpc::Message>().initBootstrap();
  sent.setQuestionId(bootstrap.getQuestionId());
  sent.getDeprecatedObjectId().set(name);
  message->send();
}

kj::Promise<void> Link::read() {
  if (!vat->wantsBytes()) {
    return vat->whenWantsBytes().then([this]() { return read(); });
  }
  return connection->receiveIncomingMessage().then([this](kj::Maybe<kj::Own<IncomingRpcMessage>>&& came) -> kj::Promise<void> {
    KJ_IF_MAYBE(message, came) {
      hear(**message);
      if (vat->isDown()) return kj::READY_NOW;
      return read();
    }
    vat->ended();
    return kj::READY_NOW;
  });
}

void Link::hear(IncomingRpcMessage& message) {
  // The size of a message is there once its body was asked for.
  auto body = message.getBody();
  KJ_IF_MAYBE(root, askedRoot) {
    auto said = body.getAs<rpc::Message>();
    if (said.isBootstrap()) return vat->received(callOfRoot(said.getBootstrap(), *root).asBytes());
  }
  MallocMessageBuilder copy(message.sizeInWords() + 1);
  copyWithNumbers(copy.getRoot<AnyPointer>(), body);
  vat->received(messageToFlatArray(copy).asBytes());
}

}  // namespace lovendak
