// A server with a flow limit reads no further while the client's calls that have no answer have more words than that. It prints how many
// calls are open, at first and after each answer.
#include <deque>
#include <iostream>
#include <kj/async-io.h>
#include <capnp/rpc-twoparty.h>
#include "probe.capnp.h"
#ifndef OVER_LIBCAPNP
#include "lovendak/two-party.h"
#endif

static const unsigned int CALLS = 8, CALL_WORDS = 1000, LIMIT = 2500;

class Thing final: public Probe::Server {
  // Answers an echo when it is told to.

public:
  explicit Thing(std::deque<kj::Own<kj::PromiseFulfiller<void>>>& open): open(open) {}
  kj::Promise<void> echo(EchoContext) override {
    auto paf = kj::newPromiseAndFulfiller<void>();
    open.push_back(kj::mv(paf.fulfiller));
    return kj::mv(paf.promise);
  }

private:
  std::deque<kj::Own<kj::PromiseFulfiller<void>>>& open;
};

#ifdef OVER_LIBCAPNP
class Server {
public:
  Server(kj::AsyncIoStream& stream, Probe::Client thing)
      : network(stream, capnp::rpc::twoparty::Side::SERVER), system(capnp::makeRpcServer(network, kj::mv(thing))) {}
  void setFlowLimit(size_t words) { system.setFlowLimit(words); }

private:
  capnp::TwoPartyVatNetwork network;
  capnp::RpcSystem<capnp::rpc::twoparty::VatId> system;
};
#else
typedef lovendak::TwoPartyClient Server;
#endif

int main() {
  kj::EventLoop loop;
  kj::WaitScope waitScope(loop);
  auto settle = [&]() { kj::Promise<void>(kj::NEVER_DONE).poll(waitScope); };
  std::deque<kj::Own<kj::PromiseFulfiller<void>>> open;
  auto pipe = kj::newTwoWayPipe();
  Server server(*pipe.ends[1], kj::heap<Thing>(open));
  server.setFlowLimit(LIMIT);
  capnp::TwoPartyClient client(*pipe.ends[0]);
  auto probe = client.bootstrap().castAs<Probe>();
  kj::Vector<kj::Promise<void>> calls;
  for (unsigned int i = 0; i < CALLS; i++) {
    auto request = probe.echoRequest();
    request.initData(CALL_WORDS * sizeof(capnp::word));
    calls.add(request.send().ignoreResult());
  }
  settle();
  std::cout << open.size();
  while (!open.empty()) {
    open.front()->fulfill();
    open.pop_front();
    settle();
    std::cout << " " << open.size();
  }
  kj::joinPromises(calls.releaseAsArray()).wait(waitScope);
  std::cout << std::endl;
}
