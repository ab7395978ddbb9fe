// A conversation with a served registry, and what scenarios have in common.
#pragma once

#include "objects.h"
#include <capnp/rpc-twoparty.h>
#include <kj/async-io.h>
#include <string>

namespace interop {

#define CHECK(condition, ...) KJ_REQUIRE(condition, ##__VA_ARGS__)

// A conversation with the served registry.
class Peer {
public:
  Peer(kj::AsyncIoContext& io, kj::StringPtr address)
      : io(io), stream(connected(address)), client(*stream), registry(client.bootstrap().castAs<Registry>()) {}

  // Lets go of the registry. The other vat has heard of all that was let go before once it has answered, and gets the time to
  // hear of the rest.
  void leave() {
    registry = nullptr;
    wait(client.bootstrap().castAs<Registry>().echoRequest().send());
    sleep(50);
  }

  template <typename T>
  T wait(kj::Promise<T> promise) {
    return io.provider->getTimer().timeoutAfter(30 * kj::SECONDS, kj::mv(promise)).wait(io.waitScope);
  }
  template <typename T>
  capnp::Response<T> wait(capnp::RemotePromise<T> promise) {
    return wait(kj::Promise<capnp::Response<T>>(kj::mv(promise)));
  }

  void sleep(uint64_t milliseconds) {
    io.provider->getTimer().afterDelay(milliseconds * kj::MILLISECONDS).wait(io.waitScope);
  }

  // Does what there is to do without waiting for anything.
  void turn() { io.waitScope.poll(); }

  kj::AsyncIoContext& io;
  kj::Own<kj::AsyncIoStream> stream;
  capnp::TwoPartyClient client;
  Registry::Client registry;

private:
  // Whoever serves may be about to listen.
  kj::Own<kj::AsyncIoStream> connected(kj::StringPtr address) {
    auto& network = io.provider->getNetwork();
    for (uint i = 0; i < 100; i++) {
      kj::Own<kj::AsyncIoStream> stream;
      auto failed = kj::runCatchingExceptions([&]() {
        stream = network.parseAddress(address).wait(io.waitScope)->connect().wait(io.waitScope);
      });
      if (failed == nullptr) return stream;
      sleep(20);
    }
    KJ_FAIL_REQUIRE("nobody listens", address);
  }
};

// The kind and the reason with which something ends that has to fail.
template <typename T>
kj::Exception failure(Peer& peer, kj::Promise<T> promise) {
  KJ_IF_MAYBE(exception, kj::runCatchingExceptions([&]() { peer.wait(kj::mv(promise)); })) {
    return kj::mv(*exception);
  }
  KJ_FAIL_REQUIRE("it did not fail");
}

inline void fails(Peer& peer, kj::Promise<void> promise, kj::Exception::Type type, kj::StringPtr reason) {
  auto exception = failure(peer, kj::mv(promise));
  CHECK(exception.getType() == type, exception);
  CHECK(std::string(exception.getDescription().cStr()).find(reason.cStr()) != std::string::npos, exception);
}

inline auto made(Registry::Client registry, kj::StringPtr name, uint64_t first) {
  auto request = registry.makeCounterRequest();
  request.setName(name);
  request.setFirst(first);
  return request.send();
}

inline auto added(Counter::Client counter, uint64_t by) {
  auto request = counter.addRequest();
  request.setBy(by);
  return request.send();
}

inline auto printed(Printer::Client printer, uint64_t line) {
  auto request = printer.printRequest();
  request.setLine(line);
  return request.send();
}

inline auto published(Registry::Client registry, Printer::Client printer) {
  auto request = registry.publishRequest();
  request.setPrinter(printer);
  return request.send();
}

inline auto sameAs(Registry::Client registry, Printer::Client printer) {
  auto request = registry.sameRequest();
  request.setPrinter(printer);
  return request.send();
}

inline auto told(Registry::Client registry, Printer::Client printer, uint64_t line) {
  auto request = registry.tellRequest();
  request.setPrinter(printer);
  request.setLine(line);
  return request.send();
}

inline void subscribe(Peer& peer, Printer::Client printer) {
  auto request = peer.registry.subscribeRequest();
  request.setPrinter(printer);
  peer.wait(request.send());
}

inline void broadcast(Peer& peer, uint64_t line) {
  auto request = peer.registry.broadcastRequest();
  request.setLine(line);
  peer.wait(request.send());
}

struct Own {
  kj::Own<Sheet> sheet = kj::refcounted<Sheet>();
  Printer::Client printer = kj::heap<PrinterObject>(kj::addRef(*sheet));
};

// Some calls, and the wait for all of them.
class Calls {
public:
  template <typename T>
  void add(capnp::RemotePromise<T> promise) {
    calls.add(promise.ignoreResult());
  }
  void wait(Peer& peer) {
    peer.wait(kj::joinPromises(calls.releaseAsArray()));
    calls = {};
  }

private:
  kj::Vector<kj::Promise<void>> calls;
};

// Prints these lines, the next ones.
inline void print(Calls& calls, Printer::Client printer, uint64_t first, uint64_t last) {
  for (auto line = first; line <= last; line++) calls.add(printed(printer, line));
}

// The lines 1 to last came, in order.
template <typename Lines>
void inOrder(Lines&& lines, uint64_t last) {
  CHECK(lines.size() == last, lines.size(), last);
  for (uint64_t i = 0; i < last; i++) CHECK(lines[i] == i + 1, i, uint64_t(lines[i]));
}

}  // namespace interop
