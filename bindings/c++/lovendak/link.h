// A vat on a connection of a `capnp::VatNetwork`, which carries messages and not bytes.
#pragma once
#include <deque>
#include <capnp/message.h>
#include <capnp/rpc.h>
#include "root.h"
#include "vat.h"

namespace lovendak {

typedef capnp::_::VatNetworkBase::Connection NetworkConnection;

class Link final: public Transport {
  // Owns a connection of a network, and its vat.

public:
  Link(kj::Own<NetworkConnection> connection, Root root);
  ~Link() noexcept(false);

  kj::Own<capnp::ClientHook> bootstrap(capnp::AnyPointer::Reader name);
  // The peer's bootstrap object, or what it exports by that name.
  kj::Promise<void> onDown() { return vat->onDown(); }
  void setFlowLimit(uint64_t words) { vat->setLimits(words, kj::maxValue); }

  kj::Promise<void> shutdown(kj::Exception&& why);
  // The vat goes down, if it is not, and the connection is shut after its last message. The promise owns the connection.

private:
  kj::Own<NetworkConnection> connection;
  kj::Array<kj::byte> room;
  kj::Vector<kj::byte> pending;
  std::deque<kj::Own<capnp::MallocMessageBuilder>> names;
  // Of each Bootstrap that is to be sent.
  kj::Own<Vat> vat;
  kj::Maybe<uint32_t> askedRoot;
  // The export that is called in the place of a Bootstrap, if the bootstrap object is asked for.
  kj::Promise<void> reading;

  bool ready() override;
  kj::Own<capnp::RpcFlowController> newStream() override { return connection->newStream(); }
  void sendFrame(kj::ArrayPtr<const capnp::word> frame);
  void sendBootstrap(capnp::rpc::Bootstrap::Reader bootstrap);
  kj::Promise<void> read();
  void hear(capnp::IncomingRpcMessage& message);
};

}  // namespace lovendak
