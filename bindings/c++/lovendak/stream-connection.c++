#include "stream-connection.h"
#include <sys/socket.h>
#include <kj/debug.h>

namespace lovendak {
using namespace capnp;

namespace {
class SocketWindow final: public RpcFlowController, private RpcFlowController::WindowGetter {
  // As much may be on its way as the socket's own buffer holds.

public:
  explicit SocketWindow(kj::AsyncIoStream& stream): stream(stream), inner(newVariableWindowController(*this)) {}
  kj::Promise<void> send(kj::Own<OutgoingRpcMessage> message, kj::Promise<void> ack) override {
    return inner->send(kj::mv(message), kj::mv(ack));
  }
  kj::Promise<void> waitAllAcked() override { return inner->waitAllAcked(); }

private:
  kj::AsyncIoStream& stream;
  kj::Own<RpcFlowController> inner;

  size_t getWindow() override {
    int bytes = DEFAULT_WINDOW_SIZE;
    unsigned int length = sizeof(bytes);
    auto unknown = kj::runCatchingExceptions([&]() { stream.getsockopt(SOL_SOCKET, SO_SNDBUF, &bytes, &length); });
    return unknown == nullptr ? bytes : DEFAULT_WINDOW_SIZE;
  }
};

kj::Maybe<kj::Own<ClientHook>> hookOf(kj::Maybe<Root>& root) {
  KJ_IF_MAYBE(it, root) {
    return kj::mv(it->hook);
  }
  return nullptr;
}
}  // namespace

StreamConnection::StreamConnection(kj::AsyncIoStream& stream, kj::Maybe<Root> root)
    : stream(stream), vat(kj::refcounted<Vat>(*this, hookOf(root))), readRoom(kj::heapArray<kj::byte>(ROOM)),
      writeRoom(kj::heapArray<kj::byte>(ROOM)), reader(nullptr), writer(kj::READY_NOW), disconnected(nullptr) {
  KJ_IF_MAYBE(it, root) {
    if (it->isAsked) bootstraps.emplace(*vat, vat->exportRoot());
  }
  disconnected = vat->onDown().then([this]() { return close(); }).fork();
  reader = read().eagerlyEvaluate([this](kj::Exception&& exception) { vat->failed(kj::mv(exception)); });
}

StreamConnection::~StreamConnection() noexcept(false) {
  vat->shut(KJ_EXCEPTION(FAILED, "RpcSystem was destroyed."));
  vat->dropTransport();
  if (writing && underWay != 0) return;
  // What the stream takes at once of the Abort.
  kj::runCatchingExceptions([&]() {
    auto count = vat->outgoing(writeRoom);
    kj::Promise<void> begun = stream.write(writeRoom.begin(), count);
  });
}

void StreamConnection::setFlowLimit(uint64_t words) {
  mostWords = words;
  vat->setLimits(mostWords, mostBytes);
}

void StreamConnection::setWriteLimit(uint64_t bytes) {
  mostBytes = bytes;
  vat->setLimits(mostWords, mostBytes);
}

kj::Own<RpcFlowController> StreamConnection::newStream() { return kj::heap<SocketWindow>(stream); }

bool StreamConnection::ready() {
  isMore = true;
  if (writing) return false;
  writing = true;
  auto turn = kj::evalLater([this]() {
    vat->turn();
    return write();
  });
  // A stream that fails is written to no more.
  writer = turn.eagerlyEvaluate([this](kj::Exception&& exception) { vat->failed(kj::mv(exception)); });
  return true;
}

// Writes what there is, until there is no more.
kj::Promise<void> StreamConnection::write() {
  underWay = isMore ? vat->outgoing(writeRoom) : 0;
  isMore = underWay == writeRoom.size();
  if (underWay == 0) {
    writing = false;
    return kj::READY_NOW;
  }
  return stream.write(writeRoom.begin(), underWay).then([this]() { return write(); });
}

kj::Promise<void> StreamConnection::read() {
  if (!vat->wantsBytes()) {
    return vat->whenWantsBytes().then([this]() { return read(); });
  }
  return stream.tryRead(readRoom.begin(), 1, readRoom.size()).then([this](size_t count) -> kj::Promise<void> {
    if (count == 0) {
      ended();
      return kj::READY_NOW;
    }
    received(readRoom.slice(0, count));
    if (vat->isDown()) return kj::READY_NOW;
    return read();
  });
}

void StreamConnection::received(kj::ArrayPtr<const kj::byte> bytes) {
  KJ_IF_MAYBE(it, bootstraps) {
    it->received(bytes);
  } else {
    vat->received(bytes);
  }
}

void StreamConnection::ended() {
  KJ_IF_MAYBE(it, bootstraps) {
    it->ended();
  } else {
    vat->ended();
  }
}

// The vat is down: nothing more is read, and what it said last is written.
kj::Promise<void> StreamConnection::close() {
  reader = nullptr;
  auto written = kj::mv(writer);
  writer = kj::READY_NOW;
  return written.then([this]() {
    kj::runCatchingExceptions([&]() { stream.shutdownWrite(); });
  });
}

}  // namespace lovendak
