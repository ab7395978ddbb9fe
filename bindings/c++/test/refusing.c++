// One conversation between two ends in this process, again and again, and each time another allocation of the C library is refused, until
// there is none to be refused. Each has to end: with its results, or with exceptions. Linked with --wrap=malloc,--wrap=realloc, which are
// those of the library alone: what C++ allocates comes from its own library.
#include <stdlib.h>
#include <iostream>
#include <kj/async-io.h>
#include <kj/debug.h>
#include "lovendak/two-party.h"
#include "probe.capnp.h"

static long nth = -1, count = 0;

extern "C" {
void* __real_malloc(size_t size);
void* __real_realloc(void* old, size_t size);
void* __wrap_malloc(size_t size) { return ++count == nth ? nullptr : __real_malloc(size); }
void* __wrap_realloc(void* old, size_t size) { return ++count == nth ? nullptr : __real_realloc(old, size); }
}

class Thing final: public Probe::Server {
public:
  kj::Promise<void> echo(EchoContext context) override {
    context.getResults().setData(context.getParams().getData());
    return kj::READY_NOW;
  }
  kj::Promise<void> make(MakeContext context) override {
    context.getResults().setThing(kj::heap<Thing>());
    return kj::READY_NOW;
  }
  kj::Promise<void> take(TakeContext context) override {
    auto all = context.getParams().getThings();
    kj::Vector<kj::Promise<void>> called;
    for (auto thing: all) called.add(thing.echoRequest().send().ignoreResult());
    return kj::joinPromises(called.releaseAsArray());
  }
};

// Pipelining, an object of the client that is called back, a promise that is resolved, a failure, and a call that is dropped.
static void converse(kj::AsyncIoContext& io) {
  auto pipe = kj::newTwoWayPipe();
  lovendak::TwoPartyClient server(*pipe.ends[0], kj::heap<Thing>(), capnp::rpc::twoparty::Side::SERVER);
  lovendak::TwoPartyClient client(*pipe.ends[1]);
  auto probe = client.bootstrap().castAs<Probe>();
  auto made = probe.makeRequest().send().getThing();
  auto promised = kj::newPromiseAndFulfiller<Probe::Client>();
  auto request = probe.takeRequest();
  auto things = request.initThings(3);
  things.set(0, kj::heap<Thing>());
  things.set(1, kj::mv(promised.promise));
  things.set(2, made);
  auto taken = request.send();
  { auto dropped = probe.nestRequest().send(); }
  auto echo = made.echoRequest();
  echo.initData(100);
  auto echoed = echo.send();
  promised.fulfiller->fulfill(kj::heap<Thing>());
  echoed.wait(io.waitScope);
  taken.wait(io.waitScope);
}

int main() {
  auto io = kj::setupAsyncIo();
  long failed = 0;
  do {
    nth++;
    count = 0;
    KJ_IF_MAYBE(exception, kj::runCatchingExceptions([&]() { converse(io); })) {
      failed++;
      if (exception->getType() == kj::Exception::Type::UNIMPLEMENTED) {
        std::cerr << kj::str(*exception).cStr() << std::endl;
        return 1;
      }
    }
  } while (count >= nth);
  std::cout << "each of " << nth - 1 << " allocations was refused, and " << failed << " conversations failed" << std::endl;
  return failed > 0 && failed <= nth - 1 ? 0 : 1;
}
