#include "ez-rpc.h"
#include <map>
#include <string>
#include <kj/async-io.h>
#include <kj/debug.h>
#include <kj/threadlocal.h>
#include "root.h"
#include "stream-connection.h"

namespace lovendak {
using namespace capnp;

namespace {

class ThreadContext;
KJ_THREADLOCAL_PTR(ThreadContext) threadContext = nullptr;

class ThreadContext: public kj::Refcounted {
  // The event loop of a thread, which its clients and servers share.

public:
  ThreadContext(): io(kj::setupAsyncIo()) { threadContext = this; }
  ~ThreadContext() noexcept(false) { threadContext = nullptr; }

  static kj::Own<ThreadContext> ofThread() {
    ThreadContext* existing = threadContext;
    return existing != nullptr ? kj::addRef(*existing) : kj::refcounted<ThreadContext>();
  }
  kj::Network& network() { return io.provider->getNetwork(); }

  kj::AsyncIoContext io;
};

class AllowAll final: public kj::LowLevelAsyncIoProvider::NetworkFilter {
public:
  bool shouldAllow(const struct sockaddr*, unsigned int) override { return true; }
};

struct Connected {
  // A client's connection.

  explicit Connected(kj::Own<kj::AsyncIoStream>&& given): stream(kj::mv(given)), connection(*stream, nullptr) {}

  Capability::Client named(kj::StringPtr name) {
    MallocMessageBuilder message;
    message.getRoot<AnyPointer>().setAs<Text>(name);
    return namedExport(connection.bootstrap(), message.getRoot<AnyPointer>().asReader());
  }

  kj::Own<kj::AsyncIoStream> stream;
  StreamConnection connection;
};

kj::Promise<kj::Own<kj::AsyncIoStream>> connectTo(kj::Own<kj::NetworkAddress>&& address) {
  return address->connect().attach(kj::mv(address));
}

}  // namespace

struct EzRpcClient::Impl {
  Impl(kj::StringPtr address, unsigned int defaultPort)
      : context(ThreadContext::ofThread()),
        setup(context->network().parseAddress(address, defaultPort)
                  .then([](kj::Own<kj::NetworkAddress>&& address) { return connectTo(kj::mv(address)); })
                  .then([this](kj::Own<kj::AsyncIoStream>&& stream) { connected = kj::heap<Connected>(kj::mv(stream)); })
                  .fork()) {}
  Impl(const struct sockaddr* address, unsigned int size)
      : context(ThreadContext::ofThread()),
        setup(connectTo(context->network().getSockaddr(address, size))
                  .then([this](kj::Own<kj::AsyncIoStream>&& stream) { connected = kj::heap<Connected>(kj::mv(stream)); })
                  .fork()) {}
  explicit Impl(int socketFd)
      : context(ThreadContext::ofThread()), setup(kj::Promise<void>(kj::READY_NOW).fork()),
        connected(kj::heap<Connected>(context->io.lowLevelProvider->wrapSocketFd(socketFd))) {}

  template <typename Ask>
  Capability::Client once(Ask&& ask) {
    KJ_IF_MAYBE(it, connected) {
      return ask(**it);
    }
    return setup.addBranch().then([this, ask = kj::mv(ask)]() mutable { return ask(*KJ_ASSERT_NONNULL(connected)); });
  }

  kj::Own<ThreadContext> context;
  kj::ForkedPromise<void> setup;
  kj::Maybe<kj::Own<Connected>> connected;
};

EzRpcClient::EzRpcClient(kj::StringPtr serverAddress, unsigned int defaultPort, ReaderOptions)
    : impl(kj::heap<Impl>(serverAddress, defaultPort)) {}
EzRpcClient::EzRpcClient(const struct sockaddr* serverAddress, unsigned int addrSize, ReaderOptions)
    : impl(kj::heap<Impl>(serverAddress, addrSize)) {}
EzRpcClient::EzRpcClient(int socketFd, ReaderOptions): impl(kj::heap<Impl>(socketFd)) {}
EzRpcClient::~EzRpcClient() noexcept(false) {}

Capability::Client EzRpcClient::getMain() {
  return impl->once([](Connected& it) { return it.connection.bootstrap(); });
}

Capability::Client EzRpcClient::importCap(kj::StringPtr name) {
  return impl->once([name = kj::heapString(name)](Connected& it) { return it.named(name); });
}

kj::WaitScope& EzRpcClient::getWaitScope() { return impl->context->io.waitScope; }
kj::AsyncIoProvider& EzRpcClient::getIoProvider() { return *impl->context->io.provider; }
kj::LowLevelAsyncIoProvider& EzRpcClient::getLowLevelIoProvider() { return *impl->context->io.lowLevelProvider; }

struct EzRpcServer::Impl final: public kj::TaskSet::ErrorHandler {
  Impl(Capability::Client main, kj::StringPtr address, unsigned int defaultPort): Impl(kj::mv(main), nullptr) {
    auto paf = kj::newPromiseAndFulfiller<unsigned int>();
    port = paf.promise.fork();
    tasks.add(context->network().parseAddress(address, defaultPort)
                  .then([this, fulfiller = kj::mv(paf.fulfiller)](kj::Own<kj::NetworkAddress>&& address) mutable {
      auto listener = address->listen();
      fulfiller->fulfill(listener->getPort());
      return listen(kj::mv(listener));
    }));
  }
  Impl(Capability::Client main, struct sockaddr* address, unsigned int size): Impl(kj::mv(main), nullptr) {
    auto listener = context->network().getSockaddr(address, size)->listen();
    port = kj::Promise<unsigned int>(listener->getPort()).fork();
    tasks.add(listen(kj::mv(listener)));
  }
  Impl(Capability::Client main, int socketFd, unsigned int givenPort): Impl(kj::mv(main), nullptr) {
    static AllowAll filter;
    port = kj::Promise<unsigned int>(givenPort).fork();
    tasks.add(listen(context->io.lowLevelProvider->wrapListenSocketFd(socketFd, filter)));
  }

  kj::Promise<void> listen(kj::Own<kj::ConnectionReceiver>&& listener) {
    auto accepted = listener->accept();
    return accepted.then([this, listener = kj::mv(listener)](kj::Own<kj::AsyncIoStream>&& stream) mutable {
      serve(kj::mv(stream));
      return listen(kj::mv(listener));
    });
  }

  void serve(kj::Own<kj::AsyncIoStream>&& stream) {
    auto root = newRoot([this]() { return main; }, [this](AnyPointer::Reader name) { return restore(name); });
    auto connection = kj::heap<StreamConnection>(*stream, kj::mv(root));
    connection->setWriteLimit(MOST_UNWRITTEN);
    auto ended = connection->onDisconnect();
    tasks.add(ended.attach(kj::mv(connection)).attach(kj::mv(stream)));
  }

  Capability::Client restore(AnyPointer::Reader name) {
    auto found = exported.find(name.getAs<Text>());
    KJ_REQUIRE(found != exported.end(), "Server exports no such capability.", name.getAs<Text>());
    return found->second;
  }

  void taskFailed(kj::Exception&& exception) override { kj::throwFatalException(kj::mv(exception)); }

  Capability::Client main;
  kj::Own<ThreadContext> context;
  std::map<std::string, Capability::Client> exported;
  kj::ForkedPromise<unsigned int> port;
  kj::TaskSet tasks;

private:
  Impl(Capability::Client main, decltype(nullptr)): main(kj::mv(main)), context(ThreadContext::ofThread()), port(nullptr), tasks(*this) {}
};

EzRpcServer::EzRpcServer(Capability::Client mainInterface, kj::StringPtr bindAddress, unsigned int defaultPort, ReaderOptions)
    : impl(kj::heap<Impl>(kj::mv(mainInterface), bindAddress, defaultPort)) {}
EzRpcServer::EzRpcServer(Capability::Client mainInterface, struct sockaddr* bindAddress, unsigned int addrSize, ReaderOptions)
    : impl(kj::heap<Impl>(kj::mv(mainInterface), bindAddress, addrSize)) {}
EzRpcServer::EzRpcServer(Capability::Client mainInterface, int socketFd, unsigned int port, ReaderOptions)
    : impl(kj::heap<Impl>(kj::mv(mainInterface), socketFd, port)) {}
EzRpcServer::EzRpcServer(kj::StringPtr bindAddress, unsigned int defaultPort, ReaderOptions options)
    : EzRpcServer(nullptr, bindAddress, defaultPort, options) {}
EzRpcServer::EzRpcServer(struct sockaddr* bindAddress, unsigned int addrSize, ReaderOptions options)
    : EzRpcServer(nullptr, bindAddress, addrSize, options) {}
EzRpcServer::EzRpcServer(int socketFd, unsigned int port, ReaderOptions options): EzRpcServer(nullptr, socketFd, port, options) {}
EzRpcServer::~EzRpcServer() noexcept(false) {}

void EzRpcServer::exportCap(kj::StringPtr name, Capability::Client cap) {
  impl->exported.erase(name.cStr());
  impl->exported.emplace(name.cStr(), kj::mv(cap));
}

kj::Promise<unsigned int> EzRpcServer::getPort() { return impl->port.addBranch(); }
kj::WaitScope& EzRpcServer::getWaitScope() { return impl->context->io.waitScope; }
kj::AsyncIoProvider& EzRpcServer::getIoProvider() { return *impl->context->io.provider; }
kj::LowLevelAsyncIoProvider& EzRpcServer::getLowLevelIoProvider() { return *impl->context->io.lowLevelProvider; }

}  // namespace lovendak
