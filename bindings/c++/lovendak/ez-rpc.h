// `EzRpcClient` and `EzRpcServer` with the members of those of `capnp/ez-rpc.h`: an application that has `lovendak::` before their names
// has a vat of Lovendak at its end of the connection.
//
// The options for readers are taken for the sake of the text that calls, and have no effect: a vat has limits of its own.
#pragma once
#include <capnp/capability.h>
#include <capnp/message.h>

struct sockaddr;

namespace kj {
class AsyncIoProvider;
class LowLevelAsyncIoProvider;
class WaitScope;
}  // namespace kj

namespace lovendak {

class EzRpcClient {
  // Owns a connection to a server, and with other clients and servers of this thread its event loop. The connection is made in the
  // background: if that fails, calls fail.

public:
  explicit EzRpcClient(kj::StringPtr serverAddress, unsigned int defaultPort = 0, capnp::ReaderOptions = capnp::ReaderOptions());
  EzRpcClient(const struct sockaddr* serverAddress, unsigned int addrSize, capnp::ReaderOptions = capnp::ReaderOptions());
  explicit EzRpcClient(int socketFd, capnp::ReaderOptions = capnp::ReaderOptions());
  // By an address as `kj::Network` reads it, by a socket's address, or on a socket that is connected.
  ~EzRpcClient() noexcept(false);

  capnp::Capability::Client getMain();
  template <typename Type>
  typename Type::Client getMain() { return getMain().castAs<Type>(); }
  // The server's bootstrap object.

  capnp::Capability::Client importCap(kj::StringPtr name);
  template <typename Type>
  typename Type::Client importCap(kj::StringPtr name) { return importCap(name).castAs<Type>(); }
  // What a server of Lovendak exports by that name; servers of libcapnp are asked in another way, and fail this call.

  kj::WaitScope& getWaitScope();
  kj::AsyncIoProvider& getIoProvider();
  kj::LowLevelAsyncIoProvider& getLowLevelIoProvider();

private:
  struct Impl;
  kj::Own<Impl> impl;
};

class EzRpcServer {
  // Owns a listener and its connections, and with other clients and servers of this thread its event loop.

public:
  explicit EzRpcServer(capnp::Capability::Client mainInterface, kj::StringPtr bindAddress, unsigned int defaultPort = 0,
                       capnp::ReaderOptions = capnp::ReaderOptions());
  EzRpcServer(capnp::Capability::Client mainInterface, struct sockaddr* bindAddress, unsigned int addrSize,
              capnp::ReaderOptions = capnp::ReaderOptions());
  EzRpcServer(capnp::Capability::Client mainInterface, int socketFd, unsigned int port, capnp::ReaderOptions = capnp::ReaderOptions());
  // At an address as `kj::Network` reads it, at a socket's address, or on a socket that listens at that port.

  explicit EzRpcServer(kj::StringPtr bindAddress, unsigned int defaultPort = 0, capnp::ReaderOptions = capnp::ReaderOptions());
  EzRpcServer(struct sockaddr* bindAddress, unsigned int addrSize, capnp::ReaderOptions = capnp::ReaderOptions());
  EzRpcServer(int socketFd, unsigned int port, capnp::ReaderOptions = capnp::ReaderOptions());
  // The same with named exports alone.
  ~EzRpcServer() noexcept(false);

  void exportCap(kj::StringPtr name, capnp::Capability::Client cap);
  // Exports it by that name, to clients of Lovendak and of libcapnp.

  kj::Promise<unsigned int> getPort();
  // The port at which it listens, once it does; 0 if the address has none.

  kj::WaitScope& getWaitScope();
  kj::AsyncIoProvider& getIoProvider();
  kj::LowLevelAsyncIoProvider& getLowLevelIoProvider();

private:
  struct Impl;
  kj::Own<Impl> impl;
};

}  // namespace lovendak
