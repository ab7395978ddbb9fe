#include "two-party.h"
#include <kj/debug.h>
#include "root.h"
#include "stream-connection.h"

namespace lovendak {
using namespace capnp;

TwoPartyClient::TwoPartyClient(kj::AsyncIoStream& connection): impl(kj::heap<StreamConnection>(connection, nullptr)) {}

TwoPartyClient::TwoPartyClient(kj::AsyncIoStream& connection, Capability::Client bootstrapInterface, rpc::twoparty::Side)
    : impl(kj::heap<StreamConnection>(connection, rootOf(kj::mv(bootstrapInterface)))) {}

TwoPartyClient::TwoPartyClient(kj::AsyncCapabilityStream& connection, unsigned int)
    : TwoPartyClient(static_cast<kj::AsyncIoStream&>(connection)) {}

TwoPartyClient::TwoPartyClient(kj::AsyncCapabilityStream& connection, unsigned int, Capability::Client bootstrapInterface,
                               rpc::twoparty::Side side)
    : TwoPartyClient(static_cast<kj::AsyncIoStream&>(connection), kj::mv(bootstrapInterface), side) {}

TwoPartyClient::~TwoPartyClient() noexcept(false) {}

Capability::Client TwoPartyClient::bootstrap() { return impl->bootstrap(); }

kj::Promise<void> TwoPartyClient::onDisconnect() { return impl->onDisconnect(); }

void TwoPartyClient::setFlowLimit(size_t words) { impl->setFlowLimit(words); }

size_t TwoPartyClient::getCurrentQueueSize() { return impl->bytesWaiting(); }

TwoPartyServer::TwoPartyServer(Capability::Client bootstrapInterface): bootstrapInterface(kj::mv(bootstrapInterface)), tasks(*this) {}

void TwoPartyServer::setFlowLimit(size_t words) { flowLimit = words; }

kj::Own<StreamConnection> TwoPartyServer::serve(kj::AsyncIoStream& connection) {
  auto served = kj::heap<StreamConnection>(connection, rootOf(bootstrapInterface));
  served->setWriteLimit(MOST_UNWRITTEN);
  KJ_IF_MAYBE(words, flowLimit) {
    served->setFlowLimit(*words);
  }
  return served;
}

void TwoPartyServer::accept(kj::Own<kj::AsyncIoStream>&& connection) {
  auto served = serve(*connection);
  auto ended = served->onDisconnect();
  tasks.add(ended.attach(kj::mv(served)).attach(kj::mv(connection)));
}

kj::Promise<void> TwoPartyServer::accept(kj::AsyncIoStream& connection) {
  auto served = serve(connection);
  auto ended = served->onDisconnect();
  return ended.attach(kj::mv(served));
}

void TwoPartyServer::accept(kj::Own<kj::AsyncCapabilityStream>&& connection, unsigned int) {
  accept(kj::Own<kj::AsyncIoStream>(kj::mv(connection)));
}

kj::Promise<void> TwoPartyServer::accept(kj::AsyncCapabilityStream& connection, unsigned int) {
  return accept(static_cast<kj::AsyncIoStream&>(connection));
}

kj::Promise<void> TwoPartyServer::listen(kj::ConnectionReceiver& listener) {
  return listener.accept().then([this, &listener](kj::Own<kj::AsyncIoStream>&& connection) {
    accept(kj::mv(connection));
    return listen(listener);
  });
}

void TwoPartyServer::taskFailed(kj::Exception&& exception) { KJ_LOG(ERROR, exception); }

}  // namespace lovendak
