// pipe TRIPS CYCLES: two vats in this process over a pipe in memory. Says how many calls of a method without arguments are answered
// in a second, one at a time, and how often a promise is resolved to an object of the caller's own, with a call through it before
// and one behind, which an embargo holds. That is what bench_connection does with two connections.
#include "objects.h"
#include <capnp/rpc-twoparty.h>
#include <chrono>
#include <kj/async-io.h>
#include <string>

namespace interop {

namespace {

template <typename Work>
uint64_t rate(uint times, Work&& work) {
  auto start = std::chrono::steady_clock::now();
  for (uint i = 0; i < times; i++) work();
  std::chrono::duration<double> seconds = std::chrono::steady_clock::now() - start;
  return times / seconds.count();
}

auto printed(Printer::Client& printer, uint64_t line) {
  auto request = printer.printRequest();
  request.setLine(line);
  return request.send();
}

void cycle(kj::WaitScope& scope, Registry::Client& registry, Printer::Client own) {
  auto promised = registry.awaitPrinterRequest().send().wait(scope).getPrinter();
  auto before = printed(promised, 1);
  auto publish = registry.publishRequest();
  publish.setPrinter(own);
  publish.send().wait(scope);
  auto behind = printed(promised, 2);
  before.wait(scope);
  behind.wait(scope);
}

}  // namespace

int run(int words, char** word) {
  if (words != 3) {
    std::cerr << "usage: pipe TRIPS CYCLES" << std::endl;
    return 2;
  }
  auto io = kj::setupAsyncIo();
  auto pipe = kj::newTwoWayPipe();
  capnp::TwoPartyVatNetwork asking(*pipe.ends[0], capnp::rpc::twoparty::Side::CLIENT);
  capnp::TwoPartyVatNetwork serving(*pipe.ends[1], capnp::rpc::twoparty::Side::SERVER);
  auto client = capnp::makeRpcClient(asking);
  auto server = capnp::makeRpcServer(serving, kj::heap<RegistryObject>());
  capnp::MallocMessageBuilder id(8);
  auto vat = id.getRoot<capnp::rpc::twoparty::VatId>();
  vat.setSide(capnp::rpc::twoparty::Side::SERVER);
  auto registry = client.bootstrap(vat).castAs<Registry>();
  Printer::Client own = kj::heap<PrinterObject>(kj::refcounted<Sheet>());
  registry.unsubscribeRequest().send().wait(io.waitScope);
  auto trips = rate(std::stoul(word[1]), [&]() { registry.unsubscribeRequest().send().wait(io.waitScope); });
  auto cycles = rate(std::stoul(word[2]), [&]() { cycle(io.waitScope, registry, own); });
  std::cout << trips << " round trips and " << cycles << " cycles with an embargo a second" << std::endl;
  return 0;
}

}  // namespace interop

int main(int words, char** word) { return interop::run(words, word); }
