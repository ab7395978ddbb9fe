// What a client does with a registry, one thing after another.
#include "scenarios.h"
#include <cstdlib>

namespace interop {

namespace {

void bootstrap(Peer& peer) {
  auto counter = peer.wait(made(peer.registry, "apples", 40)).getCounter();
  CHECK(peer.wait(added(counter, 2)).getSum() == 42);
  auto told = peer.wait(counter.tellRequest().send());
  CHECK(told.getName() == "apples");
  CHECK(told.getSums().size() == 2 && told.getSums()[0] == 40 && told.getSums()[1] == 42);
}

void echoed(Peer& peer, size_t size) {
  auto bytes = kj::heapArray<kj::byte>(size);
  for (size_t i = 0; i < size; i++) bytes[i] = i * 7 + size;
  auto request = peer.registry.echoRequest();
  request.setData(bytes);
  auto came = peer.wait(request.send());
  CHECK(came.getData() == bytes.asPtr(), size);
}

void data(Peer& peer) {
  for (auto size : {0, 1, 7, 8, 9, 4096, 65535}) echoed(peer, size);
}

void large(Peer& peer) { echoed(peer, 400000); }

void pipelining(Peer& peer) {
  auto registry = peer.registry;
  for (uint i = 0; i < 5; i++) registry = registry.makeRegistryRequest().send().getRegistry();
  auto counter = made(registry, "deep", 1).getCounter();
  auto first = added(counter, 10);
  auto second = added(counter, 100);
  CHECK(peer.wait(kj::mv(first)).getSum() == 11);
  CHECK(peer.wait(kj::mv(second)).getSum() == 111);
}

void thousand(Peer& peer) {
  auto counter = made(peer.registry, "many", 0).getCounter();
  kj::Vector<capnp::RemotePromise<Counter::AddResults>> calls;
  for (uint i = 0; i < 1000; i++) calls.add(added(counter, 1));
  for (uint i = 0; i < 1000; i++) CHECK(peer.wait(kj::mv(calls[i])).getSum() == i + 1);
}

void callbacks(Peer& peer) {
  Own own;
  for (uint i = 1; i <= 9; i++) CHECK(peer.wait(told(peer.registry, own.printer, i)).getLines() == i);
  inOrder(own.sheet->lines, 9);
  auto atPeer = peer.registry.makePrinterRequest().send().getPrinter();
  CHECK(peer.wait(told(peer.registry, atPeer, 1)).getLines() == 1);
  Registry::Client registry = kj::heap<RegistryObject>();
  auto request = peer.registry.fetchRequest();
  request.setRegistry(registry);
  CHECK(peer.wait(added(peer.wait(request.send()).getCounter(), 2)).getSum() == 42);
}

void exceptions(Peer& peer) {
  auto request = peer.registry.failRequest();
  request.setReason("on purpose");
  fails(peer, request.send().ignoreResult(), kj::Exception::Type::FAILED, "on purpose");
  auto counter = made(peer.registry, "large", 0xffffffffffffffffull).getCounter();
  fails(peer, added(counter, 1).ignoreResult(), kj::Exception::Type::FAILED, "the sum is too large");
  // a method that no registry has, and what would come of it
  auto unknown = peer.registry.castAs<Counter>();
  fails(peer, added(unknown, 1).ignoreResult(), kj::Exception::Type::UNIMPLEMENTED, "");
  auto call = peer.registry.typelessRequest(0xa5e1c0ffee000004ull, 99, nullptr).send();
  auto none = capnp::Capability::Client(call.getPointerField(0).asCap()).castAs<Counter>();
  auto pipelined = added(none, 1);
  fails(peer, call.ignoreResult(), kj::Exception::Type::UNIMPLEMENTED, "");
  failure(peer, pipelined.ignoreResult());
  // an exception that an own object throws, and that comes back
  Own own;
  Registry::Client registry = kj::heap<RegistryObject>();
  auto nobody = published(registry, own.printer);
  fails(peer, nobody.ignoreResult(), kj::Exception::Type::FAILED, "nobody awaits a printer");
  auto broken = told(peer.registry, kj::Exception(kj::Exception::Type::FAILED, "", 0, kj::str("broken")), 1);
  failure(peer, broken.ignoreResult());
  CHECK(peer.wait(added(counter, 0)).getSum() == 0xffffffffffffffffull);
}

void promises(Peer& peer) {
  auto promised = peer.registry.awaitPrinterRequest().send().getPrinter();
  Calls calls;
  print(calls, promised, 1, 3);
  auto printer = peer.registry.makePrinterRequest().send().getPrinter();
  peer.wait(published(peer.registry, printer));
  print(calls, promised, 4, 6);
  calls.wait(peer);
  print(calls, promised, 7, 9);
  calls.wait(peer);
  inOrder(peer.wait(printer.printedRequest().send()).getLines(), 9);
}

void embargoByResolve(Peer& peer) {
  Own own;
  auto promised = peer.wait(peer.registry.awaitPrinterRequest().send()).getPrinter();
  Calls calls;
  print(calls, promised, 1, 3);
  auto publishing = published(peer.registry, own.printer);
  print(calls, promised, 4, 6);
  peer.wait(kj::mv(publishing));
  print(calls, promised, 7, 9);
  calls.wait(peer);
  print(calls, promised, 10, 12);
  calls.wait(peer);
  inOrder(own.sheet->lines, 12);
}

void embargoByReturn(Peer& peer) {
  Own own;
  auto call = sameAs(peer.registry, own.printer);
  auto same = call.getPrinter();
  Calls calls;
  print(calls, same, 1, 3);
  auto came = peer.wait(kj::mv(call));
  print(calls, same, 4, 6);
  calls.wait(peer);
  print(calls, same, 7, 9);
  calls.wait(peer);
  inOrder(own.sheet->lines, 9);
  CHECK(peer.wait(printed(came.getPrinter(), 10)).getLines() == 10);
}

void earlyCancel(Peer& peer) {
  auto sheet = kj::refcounted<Sheet>();
  auto gate = kj::newPromiseAndFulfiller<void>();
  auto open = gate.promise.fork();
  Printer::Client slow = kj::heap<PrinterObject>(kj::addRef(*sheet), open);
  {
    auto call = told(peer.registry, slow, 1);
    while (sheet->lines.size() == 0) peer.sleep(1);
  }
  // one that is let go with what was pipelined on it, and one before it was sent
  {
    auto call = sameAs(peer.registry, slow);
    auto pipelined = printed(call.getPrinter(), 2);
    peer.turn();
  }
  { auto call = sameAs(peer.registry, slow); }
  { auto promised = printed(peer.registry.awaitPrinterRequest().send().getPrinter(), 3); }
  echoed(peer, 8);
  gate.fulfiller->fulfill();
  echoed(peer, 9);
  peer.wait(published(peer.registry, slow));
  echoed(peer, 10);
}

void chain(Peer& peer) {
  Own own;
  auto other = peer.registry.makeRegistryRequest().send().getRegistry();
  auto third = peer.registry.makeRegistryRequest().send().getRegistry();
  auto first = peer.registry.awaitPrinterRequest().send().getPrinter();
  auto second = peer.wait(other.awaitPrinterRequest().send()).getPrinter();
  auto last = third.awaitPrinterRequest().send().getPrinter();
  Calls calls;
  print(calls, first, 1, 3);
  calls.add(published(peer.registry, second));
  print(calls, first, 4, 6);
  calls.add(published(other, sameAs(other, last).getPrinter()));
  print(calls, first, 7, 9);
  echoed(peer, 3);
  print(calls, first, 10, 12);
  calls.add(published(third, own.printer));
  print(calls, first, 13, 15);
  echoed(peer, 4);
  print(calls, first, 16, 18);
  calls.wait(peer);
  inOrder(own.sheet->lines, 18);
}

// What the other vat asked of an own object, and answered before it knew.
void ahead(Peer& peer) {
  Registry::Client registry = kj::heap<RegistryObject>();
  auto request = peer.registry.aheadRequest();
  request.setRegistry(registry);
  auto call = request.send();
  auto counter = call.getCounter();
  Calls calls;
  for (uint i = 1; i <= 3; i++) calls.add(added(counter, i));
  auto came = peer.wait(kj::mv(call)).getCounter();
  for (uint i = 4; i <= 6; i++) calls.add(added(came, i));
  calls.wait(peer);
  CHECK(peer.wait(added(counter, 0)).getSum() == 61);
}

void subscribers(Peer& peer) {
  Own own;
  auto atPeer = peer.registry.makePrinterRequest().send().getPrinter();
  subscribe(peer, own.printer);
  subscribe(peer, atPeer);
  for (uint line = 1; line <= 9; line++) broadcast(peer, line);
  inOrder(peer.wait(atPeer.printedRequest().send()).getLines(), 9);
  inOrder(own.sheet->lines, 9);
  peer.wait(peer.registry.unsubscribeRequest().send());
  broadcast(peer, 10);
  inOrder(own.sheet->lines, 9);
}

// A promise of the other vat that it keeps itself, and that leads to an own object in the end.
void subscribedPromise(Peer& peer) {
  Own own;
  auto promised = peer.registry.awaitPrinterRequest().send().getPrinter();
  subscribe(peer, promised);
  for (uint line = 1; line <= 3; line++) broadcast(peer, line);
  peer.wait(published(peer.registry, own.printer));
  for (uint line = 4; line <= 6; line++) broadcast(peer, line);
  echoed(peer, 1);
  inOrder(own.sheet->lines, 6);
  peer.wait(peer.registry.unsubscribeRequest().send());
}

// An own promise that leads to an own object.
void ownPromise(Peer& peer) {
  Own own;
  auto pair = kj::newPromiseAndFulfiller<Printer::Client>();
  subscribe(peer, kj::mv(pair.promise));
  for (uint line = 1; line <= 3; line++) broadcast(peer, line);
  pair.fulfiller->fulfill(kj::cp(own.printer));
  for (uint line = 4; line <= 6; line++) broadcast(peer, line);
  echoed(peer, 1);
  for (uint line = 7; line <= 9; line++) broadcast(peer, line);
  echoed(peer, 2);
  inOrder(own.sheet->lines, 9);
  peer.wait(peer.registry.unsubscribeRequest().send());
}

// An own promise that is broken.
void brokenPromise(Peer& peer) {
  auto pair = kj::newPromiseAndFulfiller<Printer::Client>();
  Printer::Client promised = kj::mv(pair.promise);
  subscribe(peer, promised);
  broadcast(peer, 1);
  pair.fulfiller->reject(kj::Exception(kj::Exception::Type::FAILED, "", 0, kj::str("broken")));
  echoed(peer, 1);
  broadcast(peer, 2);
  echoed(peer, 2);
  peer.wait(peer.registry.unsubscribeRequest().send());
}

void streaming(Peer& peer) {
  auto sink = peer.registry.makeSinkRequest().send().getSink();
  auto bytes = kj::heapArray<kj::byte>(1000);
  for (auto& byte : bytes) byte = 3;
  for (uint i = 0; i < 300; i++) {
    auto request = sink.writeRequest();
    request.setBytes(bytes);
    peer.wait(request.send());
  }
  auto ended = peer.wait(sink.endRequest().send());
  CHECK(ended.getBytes() == 300000 && ended.getSum() == 900000);
}

// Many objects at once, of either side, and one that is given many times.
void many(Peer& peer) {
  kj::Vector<Counter::Client> counters;
  Calls calls;
  for (uint i = 0; i < 3000; i++) {
    auto call = made(peer.registry, "one of many", i);
    counters.add(call.getCounter());
    calls.add(kj::mv(call));
    if (i % 100 == 0) calls.wait(peer);
  }
  calls.wait(peer);
  for (uint i = 0; i < 3000; i += 500) CHECK(peer.wait(added(counters[i], 1)).getSum() == i + 1);
  Own own;
  for (uint i = 0; i < 300; i++) {
    Own other;
    subscribe(peer, other.printer);
    subscribe(peer, own.printer);
  }
  for (uint i = 0; i < 3; i++) broadcast(peer, i);
  echoed(peer, 1);
  CHECK(own.sheet->lines.size() == 900, own.sheet->lines.size());
  peer.wait(peer.registry.unsubscribeRequest().send());
}

// It goes with calls open, and with all that it holds.
void leaves(Peer& peer) {
  auto sheet = kj::refcounted<Sheet>();
  auto gate = kj::newPromiseAndFulfiller<void>();
  auto open = gate.promise.fork();
  Printer::Client slow = kj::heap<PrinterObject>(kj::addRef(*sheet), open);
  auto call = told(peer.registry, slow, 1);
  auto promised = peer.registry.awaitPrinterRequest().send();
  while (sheet->lines.size() == 0) peer.sleep(1);
  std::exit(0);
}

// An own promise that leads to an object of the other vat: what came by it goes back there.
void tailByPromise(Peer& peer) {
  auto atPeer = peer.wait(peer.registry.makePrinterRequest().send()).getPrinter();
  auto pair = kj::newPromiseAndFulfiller<Printer::Client>();
  subscribe(peer, kj::mv(pair.promise));
  for (uint line = 1; line <= 3; line++) broadcast(peer, line);
  pair.fulfiller->fulfill(kj::cp(atPeer));
  for (uint line = 4; line <= 6; line++) broadcast(peer, line);
  echoed(peer, 1);
  for (uint line = 7; line <= 9; line++) broadcast(peer, line);
  echoed(peer, 2);
  inOrder(peer.wait(atPeer.printedRequest().send()).getLines(), 9);
  peer.wait(peer.registry.unsubscribeRequest().send());
}

// A registry that has all its counters made by the other vat's.
class Relay final : public Registry::Server {
public:
  explicit Relay(Registry::Client registry) : registry(registry) {}

  kj::Promise<void> makeCounter(MakeCounterContext context) override {
    auto params = context.getParams();
    auto request = registry.makeCounterRequest();
    request.setName(params.getName());
    request.setFirst(params.getFirst());
    return context.tailCall(kj::mv(request));
  }

private:
  Registry::Client registry;
};

void tailResults(Peer& peer) {
  Registry::Client relay = kj::heap<Relay>(peer.registry);
  auto fetch = peer.registry.fetchRequest();
  fetch.setRegistry(relay);
  auto call = fetch.send();
  auto early = added(call.getCounter(), 1);
  auto counter = peer.wait(kj::mv(call)).getCounter();
  CHECK(peer.wait(kj::mv(early)).getSum() == 41);
  CHECK(peer.wait(added(counter, 1)).getSum() == 42);
  auto ahead = peer.registry.aheadRequest();
  ahead.setRegistry(relay);
  CHECK(peer.wait(added(ahead.send().getCounter(), 2)).getSum() == 42);
}

// The same broken object, given again while it is held.
void brokenAgain(Peer& peer) {
  Printer::Client broken = kj::Exception(kj::Exception::Type::FAILED, "", 0, kj::str("broken"));
  subscribe(peer, broken);
  subscribe(peer, broken);
  broadcast(peer, 1);
  echoed(peer, 1);
  peer.wait(peer.registry.unsubscribeRequest().send());
}

// More calls at once than a vat may answer: those past its limit are refused, and the others are answered, in order.
void overload(Peer& peer) {
  auto sheet = kj::refcounted<Sheet>();
  auto gate = kj::newPromiseAndFulfiller<void>();
  auto open = gate.promise.fork();
  Printer::Client slow = kj::heap<PrinterObject>(kj::addRef(*sheet), open);
  kj::Vector<kj::Promise<bool>> calls;
  for (uint i = 1; i <= 5000; i++) {
    calls.add(told(peer.registry, slow, i).then(
        [](auto&&) { return true; },
        [](kj::Exception&& exception) {
          CHECK(exception.getType() == kj::Exception::Type::OVERLOADED, exception);
          return false;
        }));
  }
  peer.sleep(500);
  gate.fulfiller->fulfill();
  uint answered = 0;
  for (auto& call : calls) answered += peer.wait(kj::mv(call)) ? 1 : 0;
  CHECK(answered >= 4000, answered);
  inOrder(sheet->lines, answered);
  echoed(peer, 8);
}

constexpr auto WORDS = "the message has more than 65536 words";
constexpr auto DEPTH = "the message nests more than 64 levels deep";
constexpr auto CAPABILITIES = "the message has more than 4096 capabilities";
constexpr auto STEPS = "the target has a path of more than 16 steps";

constexpr uint64_t REGISTRY = 0xa5e1c0ffee000004ull;
constexpr uint16_t MAKE_COUNTER = 0;
constexpr uint16_t MAKE_REGISTRY = 3;
constexpr uint16_t ECHO = 4;

// Bytes, structs in one another, or one capability many times over.
void fillBytes(capnp::AnyPointer::Builder place, size_t size) { place.initAs<capnp::Data>(size); }

void fillNested(capnp::AnyPointer::Builder place, uint levels) {
  for (uint i = 0; i < levels; i++) place = place.initAsAnyStruct(0, 1).getPointerSection()[0];
}

void fillPrinters(capnp::AnyPointer::Builder place, uint count, Printer::Client printer) {
  auto printers = place.initAs<capnp::List<Printer>>(count);
  for (uint i = 0; i < count; i++) printers.set(i, printer);
}

// Each kind of content of which a message may not have so much, and what the caller is told.
struct Breach {
  kj::Function<void(capnp::AnyPointer::Builder)> fill;
  kj::StringPtr reason;
};

kj::Array<Breach> breaches(Printer::Client printer) {
  auto made = kj::heapArrayBuilder<Breach>(4);
  made.add(Breach{[](auto place) { fillBytes(place.initAsAnyStruct(0, 1).getPointerSection()[0], 530000); }, WORDS});
  made.add(Breach{[](auto place) { fillBytes(place.initAsAnyStruct(0, 1).getPointerSection()[0], 60000000); }, WORDS});
  made.add(Breach{[](auto place) { fillNested(place, 70); }, DEPTH});
  made.add(Breach{[printer](auto place) mutable { fillPrinters(place.initAsAnyStruct(0, 1).getPointerSection()[0], 4200, printer); }, CAPABILITIES});
  return made.finish();
}

// A call that breaks a limit of the other vat fails, and the conversation goes on.
void largeCalls(Peer& peer) {
  Own own;
  for (auto& breach : breaches(own.printer)) {
    auto request = peer.registry.typelessRequest(REGISTRY, ECHO, nullptr);
    breach.fill(request);
    auto call = request.send();
    // what was to come of it fails too
    auto pipelined = added(capnp::Capability::Client(call.getPointerField(0).asCap()).castAs<Counter>(), 1);
    fails(peer, call.ignoreResult(), kj::Exception::Type::FAILED, breach.reason);
    failure(peer, pipelined.ignoreResult());
    echoed(peer, 8);
  }
  auto call = peer.registry.typelessRequest(REGISTRY, MAKE_REGISTRY, nullptr).send();
  auto place = call.getPointerField(0);
  for (uint i = 1; i < 17; i++) place = place.getPointerField(0);
  fails(peer, added(capnp::Capability::Client(place.asCap()).castAs<Counter>(), 1).ignoreResult(), kj::Exception::Type::FAILED, STEPS);
  echoed(peer, 8);
}

// A registry that answers with what it is told to answer with.
class AnsweringRegistry final : public capnp::Capability::Server {
public:
  explicit AnsweringRegistry(Breach& breach) : breach(breach) {}

  DispatchCallResult dispatchCall(
      uint64_t, uint16_t method, capnp::CallContext<capnp::AnyPointer, capnp::AnyPointer> context) override {
    CHECK(method == MAKE_COUNTER, method);
    breach.fill(context.getResults());
    return {kj::READY_NOW, false};
  }

private:
  Breach& breach;
};

// So does a call of the other vat whose answer breaks one.
void largeAnswers(Peer& peer) {
  Own own;
  for (auto& breach : breaches(own.printer)) {
    auto request = peer.registry.fetchRequest();
    request.setRegistry(capnp::Capability::Client(kj::heap<AnsweringRegistry>(breach)).castAs<Registry>());
    fails(peer, request.send().ignoreResult(), kj::Exception::Type::FAILED, breach.reason);
    echoed(peer, 8);
  }
}

}  // namespace

const std::map<std::string, Scenario> SCENARIOS = {
    {"bootstrap", bootstrap},
    {"data", data},
    {"large", large},
    {"pipelining", pipelining},
    {"thousand", thousand},
    {"callbacks", callbacks},
    {"exceptions", exceptions},
    {"promises", promises},
    {"embargo-by-resolve", embargoByResolve},
    {"embargo-by-return", embargoByReturn},
    {"early-cancel", earlyCancel},
    {"chain", chain},
    {"ahead", ahead},
    {"subscribers", subscribers},
    {"subscribed-promise", subscribedPromise},
    {"own-promise", ownPromise},
    {"broken-promise", brokenPromise},
    {"streaming", streaming},
    {"many", many},
    {"leaves", leaves},
    {"tail-by-promise", tailByPromise},
    {"tail-results", tailResults},
    {"broken-again", brokenAgain},
    {"overload", overload},
    {"large-calls", largeCalls},
    {"large-answers", largeAnswers},
};

}  // namespace interop
