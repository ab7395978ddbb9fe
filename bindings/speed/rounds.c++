// rounds CALLS AT_A_TIME [socket]: calls of TestInterface.foo between two ends in one process, over a pipe of kj or a pair of sockets.
// Prints calls a second, and microseconds of processor for each. Built over the classes of libcapnp (which LD_PRELOAD may put over the
// drop-in), and over those straight on the stream.
#include <capnp/test.capnp.h>
#include <sys/resource.h>
#include <chrono>
#include <iostream>
#include <kj/async-io.h>
#ifdef OVER_LIBCAPNP
#include <capnp/rpc-twoparty.h>
using capnp::TwoPartyClient;
#else
#include "lovendak/two-party.h"
using lovendak::TwoPartyClient;
#endif
using capnproto_test::capnp::test::TestInterface;

class Server final: public TestInterface::Server {
public:
  kj::Promise<void> foo(FooContext context) override {
    context.getResults().setX("foo");
    return kj::READY_NOW;
  }
};

static double processorSeconds() {
  rusage usage;
  getrusage(RUSAGE_SELF, &usage);
  return usage.ru_utime.tv_sec + usage.ru_stime.tv_sec + 1e-6 * (usage.ru_utime.tv_usec + usage.ru_stime.tv_usec);
}

static void callAll(TestInterface::Client& cap, unsigned int number, kj::WaitScope& waitScope) {
  kj::Vector<kj::Promise<void>> all;
  for (unsigned int at = 0; at < number; at++) {
    auto request = cap.fooRequest();
    request.setI(at);
    all.add(request.send().ignoreResult());
  }
  kj::joinPromises(all.releaseAsArray()).wait(waitScope);
}

int main(int words, char** word) {
  if (words < 3 || words > 4) {
    std::cerr << "usage: rounds CALLS AT_A_TIME [socket]" << std::endl;
    return 2;
  }
  unsigned int calls = atoi(word[1]), atATime = atoi(word[2]);
  auto io = kj::setupAsyncIo();
  auto pipe = words == 4 ? io.provider->newTwoWayPipe() : kj::newTwoWayPipe();
  TwoPartyClient server(*pipe.ends[1], kj::heap<Server>(), capnp::rpc::twoparty::Side::SERVER);
  TwoPartyClient client(*pipe.ends[0]);
  auto cap = client.bootstrap().castAs<TestInterface>();
  cap.whenResolved().wait(io.waitScope);
  auto start = std::chrono::steady_clock::now();
  auto before = processorSeconds();
  for (unsigned int done = 0; done < calls; done += atATime) callAll(cap, atATime, io.waitScope);
  std::chrono::duration<double> seconds = std::chrono::steady_clock::now() - start;
  std::cout << calls / seconds.count() << " calls/s, " << (processorSeconds() - before) / calls * 1e6 << " us" << std::endl;
}
