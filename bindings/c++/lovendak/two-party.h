// `TwoPartyClient` and `TwoPartyServer` on a stream of bytes, with the members of those of `capnp/rpc-twoparty.h`: an application that has
// `lovendak::` before their names has a vat of Lovendak at its end of the connection.
#pragma once
#include <capnp/capability.h>
#include <capnp/rpc-twoparty.capnp.h>
#include <kj/async-io.h>

namespace lovendak {

class StreamConnection;

class TwoPartyClient {
  // Owns a vat on a stream, which has to live longer.

public:
  explicit TwoPartyClient(kj::AsyncIoStream& connection);
  TwoPartyClient(kj::AsyncIoStream& connection, capnp::Capability::Client bootstrapInterface,
                 capnp::rpc::twoparty::Side side = capnp::rpc::twoparty::Side::CLIENT);
  // Gives the peer that bootstrap object. For a vat the two sides are the same.
  TwoPartyClient(kj::AsyncCapabilityStream& connection, unsigned int maxFdsPerMessage);
  TwoPartyClient(kj::AsyncCapabilityStream& connection, unsigned int maxFdsPerMessage, capnp::Capability::Client bootstrapInterface,
                 capnp::rpc::twoparty::Side side = capnp::rpc::twoparty::Side::CLIENT);
  // The same: a vat neither sends file descriptors nor takes any, however many it may.
  ~TwoPartyClient() noexcept(false);
  KJ_DISALLOW_COPY(TwoPartyClient);

  capnp::Capability::Client bootstrap();
  // The peer's bootstrap object.

  kj::Promise<void> onDisconnect();
  // The connection has ended, and what this side said last is written.

  void setFlowLimit(size_t words);
  // Reads no further while calls of the peer with more words than that have no answer.

  size_t getCurrentQueueSize();
  // How many bytes wait to be written.

private:
  kj::Own<StreamConnection> impl;
};

class TwoPartyServer: private kj::TaskSet::ErrorHandler {
  // Owns a vat for each connection that it accepted. Of one whose peer does not read what is sent to it, it reads no further while more
  // than 1 MiB waits to be written.

public:
  explicit TwoPartyServer(capnp::Capability::Client bootstrapInterface);

  void setFlowLimit(size_t words);
  // For each connection that is accepted from now on: reads no further while calls of the peer with more words than that have no answer.

  void accept(kj::Own<kj::AsyncIoStream>&& connection);
  kj::Promise<void> accept(kj::AsyncIoStream& connection) KJ_WARN_UNUSED_RESULT;
  // Serves a connection; the second form as long as the promise is kept, which resolves when the connection has ended.
  void accept(kj::Own<kj::AsyncCapabilityStream>&& connection, unsigned int maxFdsPerMessage);
  kj::Promise<void> accept(kj::AsyncCapabilityStream& connection, unsigned int maxFdsPerMessage) KJ_WARN_UNUSED_RESULT;
  // The same: a vat neither sends file descriptors nor takes any.

  kj::Promise<void> listen(kj::ConnectionReceiver& listener);
  // Accepts connections as long as the promise is kept.

  kj::Promise<void> drain() { return tasks.onEmpty(); }
  // All connections that this server owns have ended.

private:
  capnp::Capability::Client bootstrapInterface;
  kj::Maybe<size_t> flowLimit;
  kj::TaskSet tasks;

  kj::Own<StreamConnection> serve(kj::AsyncIoStream& connection);
  void taskFailed(kj::Exception&& exception) override;
};

}  // namespace lovendak
