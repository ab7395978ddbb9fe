// What applications do at the limits of a vat, and how a connection ends.
//   probe server ADDRESS              serves a probe
//   probe proxy ADDRESS OTHER         serves the probe of another address as its own
//   probe client ADDRESS WHAT NUMBER  does it, and prints what came of it, and if the connection lives
// A server also exports, by the name `probe 1`, another probe.
#include <signal.h>
#include <unistd.h>
#include <functional>
#include <iostream>
#include <map>
#include <string>
#include <kj/async.h>
#include <kj/async-io.h>
#include <kj/debug.h>
#include "../examples/ez-rpc-of.h"
#include "probe.capnp.h"

static unsigned int things = 0, nevers = 0;

struct Counted {
  // Counts what lives.

  explicit Counted(unsigned int& count): count(count) { count++; }
  ~Counted() { count--; }
  KJ_DISALLOW_COPY(Counted);
  unsigned int& count;
};

class Thing final: public Probe::Server {
public:
  kj::Promise<void> echo(EchoContext context) override {
    context.getResults().setData(context.getParams().getData());
    return kj::READY_NOW;
  }
  kj::Promise<void> make(MakeContext context) override {
    context.getResults().setThing(kj::heap<Thing>());
    return kj::READY_NOW;
  }
  kj::Promise<void> never(NeverContext context) override {
    context.allowCancellation();
    kj::Promise<void> forever = kj::NEVER_DONE;
    return forever.attach(kj::heap<Counted>(nevers));
  }
  kj::Promise<void> nest(NestContext context) override {
    unsigned int depth = 0;
    for (auto at = context.getParams().getTree(); at.hasInner(); at = at.getInner()) depth++;
    context.getResults().setDepth(depth);
    return kj::READY_NOW;
  }
  kj::Promise<void> give(GiveContext context) override {
    auto all = context.getResults().initThings(context.getParams().getCount());
    for (unsigned int at = 0; at < all.size(); at++) all.set(at, kj::heap<Thing>());
    return kj::READY_NOW;
  }
  kj::Promise<void> take(TakeContext context) override {
    context.getResults().setCount(context.getParams().getThings().size());
    return kj::READY_NOW;
  }
  kj::Promise<void> fail(FailContext context) override {
    auto params = context.getParams();
    return kj::Exception(static_cast<kj::Exception::Type>(params.getKind()), "probe", 1, kj::str(params.getReason()));
  }
  kj::Promise<void> alive(AliveContext context) override {
    context.getResults().setThings(things);
    context.getResults().setNevers(nevers);
    return kj::READY_NOW;
  }

private:
  Counted counted{things};
};

class Named final: public Probe::Server {
  // What is exported by a name. It says that it is no other.

public:
  kj::Promise<void> alive(AliveContext context) override {
    context.getResults().setThings(NAMED);
    return kj::READY_NOW;
  }

  static constexpr unsigned int NAMED = 77;
};

static std::string said(const kj::Exception& exception) {
  return kj::str(exception.getType(), ": ", exception.getDescription()).cStr();
}

class Client {
public:
  explicit Client(const char* address)
      : client(address, 0, capnp::ReaderOptions{1ull << 40, 1000000}), probe(client.getMain<Probe>()) {}

  template <typename Promise>
  auto await(Promise&& promise) { return promise.wait(client.getWaitScope()); }

  std::string does(std::function<std::string(Client&, unsigned int)> what, unsigned int number) {
    std::string came;
    KJ_IF_MAYBE(exception, kj::runCatchingExceptions([&]() { came = what(*this, number); })) {
      came = said(*exception);
    }
    KJ_IF_MAYBE(exception, kj::runCatchingExceptions([&]() { await(probe.echoRequest().send()); })) {
      return came + " | " + said(*exception);
    }
    return came + " | alive";
  }

  // How many of so many calls fail, each begun before any has ended, and how one of those failed.
  std::string allOf(unsigned int number, std::function<kj::Promise<void>()> begin) {
    unsigned int failed = 0;
    std::string why;
    kj::Vector<kj::Promise<void>> all;
    for (unsigned int at = 0; at < number; at++) {
      all.add(begin().catch_([&](kj::Exception&& exception) {
        failed++;
        why = " " + said(exception);
      }).eagerlyEvaluate(nullptr));
    }
    await(kj::joinPromises(all.releaseAsArray()));
    return std::to_string(failed) + " failed" + why;
  }

  // How many things and calls that never end the server has, once those are as many, or after some time.
  std::string serverHas(unsigned int wantedThings, unsigned int wantedNevers) {
    for (unsigned int turn = 0;; turn++) {
      auto alive = await(probe.aliveRequest().send());
      if (turn == 200 || (alive.getThings() == wantedThings && alive.getNevers() == wantedNevers)) {
        return std::to_string(alive.getThings()) + " things, " + std::to_string(alive.getNevers()) + " nevers";
      }
      await(client.getIoProvider().getTimer().afterDelay(10 * kj::MILLISECONDS));
    }
  }

  EzRpcClient client;
  Probe::Client probe;
};

static std::string calls(Client& client, unsigned int number) {
  return client.allOf(number, [&]() { return client.probe.echoRequest().send().ignoreResult(); });
}

static std::string floods(Client& client, unsigned int number) {
  return client.allOf(number, [&]() {
    auto request = client.probe.echoRequest();
    request.initData(100000);
    return request.send().ignoreResult();
  });
}

static kj::Vector<kj::Promise<void>> openCalls(Client& client, unsigned int number, unsigned int& disconnected) {
  kj::Vector<kj::Promise<void>> all;
  for (unsigned int at = 0; at < number; at++) {
    all.add(client.probe.neverRequest().send().ignoreResult().catch_([&](kj::Exception&& exception) {
      disconnected += exception.getType() == kj::Exception::Type::DISCONNECTED;
    }).eagerlyEvaluate(nullptr));
  }
  return all;
}

// So many calls never end; then they are dropped, and the server ends its work on them.
static std::string opens(Client& client, unsigned int number) {
  unsigned int disconnected = 0;
  std::string had;
  {
    auto all = openCalls(client, number, disconnected);
    had = client.serverHas(1, number);
  }
  return had + ", then " + client.serverHas(1, 0);
}

// So many calls are open as the server dies.
static std::string gone(Client& client, unsigned int number) {
  unsigned int disconnected = 0, held = 0;
  auto all = openCalls(client, number, disconnected);
  auto thing = client.await(client.probe.makeRequest().send()).getThing();
  kill(atoi(getenv("PROBE_SERVER")), SIGKILL);
  client.await(kj::joinPromises(all.releaseAsArray()));
  client.await(thing.echoRequest().send().ignoreResult().catch_([&](kj::Exception&& exception) {
    held += exception.getType() == kj::Exception::Type::DISCONNECTED;
  }));
  return std::to_string(disconnected) + " disconnected, and " + std::to_string(held) + " held";
}

static std::string echoes(Client& client, unsigned int number) {
  auto request = client.probe.echoRequest();
  request.initData(number);
  return std::to_string(client.await(request.send()).getData().size());
}

// So many objects of the server are held; then they are dropped, and the server lets go of them.
static std::string holds(Client& client, unsigned int number) {
  {
    kj::Vector<Probe::Client> all;
    for (unsigned int at = 0; at < number; at++) all.add(client.await(client.probe.makeRequest().send()).getThing());
  }
  return client.serverHas(1, 0);
}

// A chain of calls, each on the result of the one before, and nothing waited for.
static std::string chains(Client& client, unsigned int number) {
  Probe::Client at = client.probe;
  for (unsigned int step = 0; step < number; step++) at = at.makeRequest().send().getThing();
  client.await(at.echoRequest().send());
  return "done";
}

static std::string nests(Client& client, unsigned int number) {
  auto request = client.probe.nestRequest();
  auto at = request.initTree();
  for (unsigned int level = 0; level < number; level++) at = at.initInner();
  return std::to_string(client.await(request.send()).getDepth());
}

static std::string gives(Client& client, unsigned int number) {
  auto request = client.probe.giveRequest();
  request.setCount(number);
  return std::to_string(client.await(request.send()).getThings().size());
}

static std::string takes(Client& client, unsigned int number) {
  auto request = client.probe.takeRequest();
  auto all = request.initThings(number);
  for (unsigned int at = 0; at < number; at++) all.set(at, kj::heap<Thing>());
  return std::to_string(client.await(request.send()).getCount());
}

// The number is the kind of the exception.
static std::string fails(Client& client, unsigned int number) {
  auto request = client.probe.failRequest();
  request.setReason("on purpose: \xc3\xa4");
  request.setKind(number);
  client.await(request.send());
  return "no failure";
}

// The number is how long the reason is.
static std::string failsLong(Client& client, unsigned int number) {
  auto request = client.probe.failRequest();
  request.setReason(kj::str(kj::repeat('x', number)));
  std::string failed;
  client.await(request.send().ignoreResult().catch_([&](kj::Exception&& exception) {
    failed = std::to_string(exception.getDescription().size() - strlen("remote exception: "));
  }));
  return failed;
}

// The number is a part of the name.
static std::string imports(Client& client, unsigned int number) {
  auto named = client.client.importCap<Probe>(kj::str("probe ", number));
  return "things " + std::to_string(client.await(named.aliveRequest().send()).getThings());
}

static const std::map<std::string, std::function<std::string(Client&, unsigned int)>> DEEDS = {
  {"calls", calls}, {"flood", floods}, {"open", opens}, {"gone", gone}, {"echo", echoes}, {"hold", holds}, {"chain", chains},
  {"nest", nests}, {"give", gives}, {"take", takes}, {"fail", fails}, {"fail-long", failsLong},
  {"import", imports},
};

static void serve(Probe::Client probe, const char* address) {
  EzRpcServer server(kj::mv(probe), address);
  server.exportCap("probe 1", kj::heap<Named>());
  std::cout << server.getPort().wait(server.getWaitScope()) << std::endl;
  kj::NEVER_DONE.wait(server.getWaitScope());
}

int main(int words, char** word) {
  std::string role = words > 2 ? word[1] : "";
  if (role == "server" && words == 3) serve(kj::heap<Thing>(), word[2]);
  if (role == "proxy" && words == 4) {
    EzRpcClient other(word[3]);
    serve(other.getMain<Probe>(), word[2]);
  }
  if (role != "client" || words != 5 || DEEDS.count(word[3]) == 0) {
    std::cerr << "usage: probe server ADDRESS | proxy ADDRESS OTHER | client ADDRESS WHAT NUMBER" << std::endl;
    return 2;
  }
  Client client(word[2]);
  std::cout << client.does(DEEDS.at(word[3]), atoi(word[4])) << std::endl;
  return 0;
}
