// The objects of registry.capnp, as a peer of C++ has them.
#pragma once

#include "registry.capnp.h"
#include <iostream>
#include <kj/debug.h>
#include <kj/vector.h>

namespace interop {

// An object that is told of on standard output, if that is asked for: what it is asked, and that nobody refers to it any more.
class Told {
public:
  explicit Told(const char* object) : object(object) {}
  ~Told() { says("gone"); }
  KJ_DISALLOW_COPY(Told);

  void says(const char* what) {
    if (wanted()) std::cout << object << " " << what << std::endl;
  }

  static bool& wanted() {
    static bool wanted = false;
    return wanted;
  }

private:
  const char* object;
};

class CounterObject final : public Counter::Server {
public:
  CounterObject(kj::StringPtr name, uint64_t first) : name(kj::str(name)) { sums.add(first); }

  kj::Promise<void> add(AddContext context) override {
    told.says("add");
    uint64_t sum;
    KJ_REQUIRE(!__builtin_add_overflow(sums.back(), context.getParams().getBy(), &sum), "the sum is too large");
    sums.add(sum);
    context.getResults().setSum(sum);
    return kj::READY_NOW;
  }

  kj::Promise<void> tell(TellContext context) override {
    told.says("tell");
    auto results = context.getResults();
    results.setName(name);
    results.setSums(sums.asPtr().asConst());
    return kj::READY_NOW;
  }

private:
  Told told{"counter"};
  kj::String name;
  kj::Vector<uint64_t> sums;
};

// What a printer has printed, for whoever looks at it from outside.
struct Sheet : public kj::Refcounted {
  kj::Vector<uint64_t> lines;
};

class PrinterObject final : public Printer::Server {
public:
  explicit PrinterObject(kj::Own<Sheet> sheet) : sheet(kj::mv(sheet)) {}
  // Prints at once, but answers only then.
  PrinterObject(kj::Own<Sheet> sheet, kj::ForkedPromise<void>& then) : sheet(kj::mv(sheet)), then(then) {}

  kj::Promise<void> print(PrintContext context) override {
    told.says("print");
    sheet->lines.add(context.getParams().getLine());
    context.getResults().setLines(sheet->lines.size());
    KJ_IF_MAYBE(wait, then) { return wait->addBranch(); }
    return kj::READY_NOW;
  }

  kj::Promise<void> printed(PrintedContext context) override {
    told.says("printed");
    context.getResults().setLines(sheet->lines.asPtr().asConst());
    return kj::READY_NOW;
  }

private:
  Told told{"printer"};
  kj::Own<Sheet> sheet;
  kj::Maybe<kj::ForkedPromise<void>&> then;
};

class SinkObject final : public Sink::Server {
public:
  kj::Promise<void> write(WriteContext context) override {
    told.says("write");
    for (auto byte : context.getParams().getBytes()) {
      bytes += 1;
      sum += byte;
    }
    return kj::READY_NOW;
  }

  kj::Promise<void> end(EndContext context) override {
    told.says("end");
    context.getResults().setBytes(bytes);
    context.getResults().setSum(sum);
    return kj::READY_NOW;
  }

private:
  Told told{"sink"};
  uint64_t bytes = 0;
  uint64_t sum = 0;
};

class RegistryObject final : public Registry::Server, private kj::TaskSet::ErrorHandler {
public:
  RegistryObject() : calls(*this) {}

  kj::Promise<void> makeCounter(MakeCounterContext context) override {
    told.says("makeCounter");
    auto params = context.getParams();
    context.getResults().setCounter(kj::heap<CounterObject>(params.getName(), params.getFirst()));
    return kj::READY_NOW;
  }

  kj::Promise<void> makePrinter(MakePrinterContext context) override {
    told.says("makePrinter");
    context.getResults().setPrinter(kj::heap<PrinterObject>(kj::refcounted<Sheet>()));
    return kj::READY_NOW;
  }

  kj::Promise<void> makeSink(MakeSinkContext context) override {
    told.says("makeSink");
    context.getResults().setSink(kj::heap<SinkObject>());
    return kj::READY_NOW;
  }

  kj::Promise<void> makeRegistry(MakeRegistryContext context) override {
    told.says("makeRegistry");
    context.getResults().setRegistry(kj::heap<RegistryObject>());
    return kj::READY_NOW;
  }

  kj::Promise<void> echo(EchoContext context) override {
    told.says("echo");
    context.getResults().setData(context.getParams().getData());
    return kj::READY_NOW;
  }

  kj::Promise<void> fail(FailContext context) override {
    told.says("fail");
    kj::throwFatalException(kj::Exception(
        kj::Exception::Type::FAILED, __FILE__, __LINE__, kj::str(context.getParams().getReason())));
  }

  kj::Promise<void> same(SameContext context) override {
    told.says("same");
    context.getResults().setPrinter(context.getParams().getPrinter());
    return kj::READY_NOW;
  }

  kj::Promise<void> awaitPrinter(AwaitPrinterContext context) override {
    told.says("awaitPrinter");
    KJ_IF_MAYBE(printer, awaited) {
      context.getResults().setPrinter(*printer);
      return kj::READY_NOW;
    }
    auto pair = kj::newPromiseAndFulfiller<Printer::Client>();
    Printer::Client printer(kj::mv(pair.promise));
    context.getResults().setPrinter(printer);
    awaited = kj::mv(printer);
    publisher = kj::mv(pair.fulfiller);
    return kj::READY_NOW;
  }

  kj::Promise<void> publish(PublishContext context) override {
    told.says("publish");
    KJ_REQUIRE(publisher.get() != nullptr, "nobody awaits a printer");
    publisher->fulfill(context.getParams().getPrinter());
    publisher = nullptr;
    awaited = nullptr;
    return kj::READY_NOW;
  }

  kj::Promise<void> tell(TellContext context) override {
    told.says("tell");
    auto params = context.getParams();
    auto request = params.getPrinter().printRequest();
    request.setLine(params.getLine());
    return request.send().then(
        [context](auto&& said) mutable { context.getResults().setLines(said.getLines()); });
  }

  kj::Promise<void> fetch(FetchContext context) override {
    told.says("fetch");
    return asked(context.getParams().getRegistry()).send().then([context](auto&& made) mutable {
      context.getResults().setCounter(made.getCounter());
    });
  }

  kj::Promise<void> ahead(AheadContext context) override {
    told.says("ahead");
    context.getResults().setCounter(asked(context.getParams().getRegistry()).send().getCounter());
    return kj::READY_NOW;
  }

  kj::Promise<void> forward(ForwardContext context) override {
    told.says("forward");
    return context.tailCall(asked(context.getParams().getRegistry()));
  }

  kj::Promise<void> subscribe(SubscribeContext context) override {
    told.says("subscribe");
    subscribers.add(context.getParams().getPrinter());
    return kj::READY_NOW;
  }

  kj::Promise<void> broadcast(BroadcastContext context) override {
    told.says("broadcast");
    for (auto& subscriber : subscribers) {
      auto request = subscriber.printRequest();
      request.setLine(context.getParams().getLine());
      calls.add(request.send().ignoreResult());
    }
    context.getResults().setSubscribers(subscribers.size());
    return kj::READY_NOW;
  }

  kj::Promise<void> unsubscribe(UnsubscribeContext context) override {
    told.says("unsubscribe");
    subscribers.clear();
    return kj::READY_NOW;
  }

private:
  Told told{"registry"};
  kj::Maybe<Printer::Client> awaited;
  kj::Own<kj::PromiseFulfiller<Printer::Client>> publisher;
  kj::Vector<Printer::Client> subscribers;
  kj::TaskSet calls;

  // A call of the other registry's makeCounter.
  static capnp::Request<MakeCounterParams, Made> asked(Registry::Client registry) {
    auto request = registry.makeCounterRequest();
    request.setName("fetched");
    request.setFirst(40);
    return request;
  }

  void taskFailed(kj::Exception&& exception) override {}
};

}  // namespace interop
