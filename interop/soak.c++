// A drawn conversation. Lines have the number of the capability through which they are printed, and which of its lines it is.
#include "scenarios.h"
#include <random>
#include <set>

namespace interop {

namespace {

constexpr uint STEPS = 600;
constexpr uint REGISTRIES = 4;
// What leads nowhere but to a printer. A promise of a registry may lead only to what has a higher number than that registry, and an
// own promise only to a printer, so that nothing leads to itself.
constexpr uint PRINTER = 1000;
constexpr uint OWN_PROMISE = 500;

struct Channel {
  Printer::Client printer;
  uint leads;
  uint64_t number;
  uint64_t lines = 0;
  // Whether a call through it was let go before it had ended, which may be before it was sent.
  bool cancels = false;
};

class Soak {
public:
  Soak(Peer& peer, uint seed, bool promises) : peer(peer), promises(promises), random(seed) {}

  void play() {
    registries.add(peer.registry);
    for (uint i = 1; i < REGISTRIES; i++) {
      registries.add(drawnRegistry().makeRegistryRequest().send().getRegistry());
    }
    for (uint step = 0; step < STEPS; step++) {
      act();
      if (draw(8) == 0) peer.turn();
      if (draw(100) == 0) peer.sleep(draw(3));
    }
    settle();
    compare();
  }

private:
  Peer& peer;
  bool promises;
  std::mt19937 random;
  uint64_t numbers = 0;
  kj::Vector<Registry::Client> registries;
  kj::Vector<Channel> channels;
  kj::Vector<kj::Own<Sheet>> sheets;
  kj::Vector<Printer::Client> atPeer;
  kj::Vector<kj::Own<kj::PromiseFulfiller<Printer::Client>>> open;
  kj::Vector<kj::Promise<void>> calls;
  // What was printed through each channel, and whether all of it has to come.
  std::map<uint64_t, std::pair<uint64_t, bool>> printedBy;

  uint draw(uint below) { return random() % below; }
  Registry::Client& drawnRegistry() { return registries[draw(registries.size())]; }
  Channel& drawnChannel() { return channels[draw(channels.size())]; }

  void hold(Printer::Client printer, uint leads) { channels.add(Channel{kj::mv(printer), leads, ++numbers}); }

  template <typename T>
  void wanted(capnp::RemotePromise<T> call) {
    calls.add(call.ignoreResult());
  }

  void print(Channel& channel) {
    channel.lines += 1;
    auto call = printed(channel.printer, channel.number << 32 | channel.lines);
    if (draw(20) == 0) {
      channel.cancels = true;
    } else {
      wanted(kj::mv(call));
    }
    printedBy[channel.number] = {channel.lines, !channel.cancels};
  }

  void holdOwn() {
    Own own;
    sheets.add(kj::addRef(*own.sheet));
    hold(own.printer, PRINTER);
  }

  void holdAtPeer() {
    auto printer = drawnRegistry().makePrinterRequest().send().getPrinter();
    atPeer.add(printer);
    hold(printer, PRINTER);
  }

  void holdOwnPromise() {
    auto pair = kj::newPromiseAndFulfiller<Printer::Client>();
    open.add(kj::mv(pair.fulfiller));
    hold(kj::mv(pair.promise), OWN_PROMISE);
  }

  void fulfill() {
    auto at = draw(open.size());
    Printer::Client printer = nullptr;
    if (draw(2) == 0 && atPeer.size() > 0) {
      printer = atPeer[draw(atPeer.size())];
    } else {
      Own own;
      sheets.add(kj::addRef(*own.sheet));
      printer = own.printer;
    }
    open[at]->fulfill(kj::mv(printer));
    std::swap(open[at], open.back());
    open.removeLast();
  }

  // Publishes where somebody awaits a printer; where nobody does it is refused, which is no matter.
  void publish(uint registry, Printer::Client printer) {
    calls.add(published(registries[registry], printer).ignoreResult().catch_([](kj::Exception&&) {}));
  }

  // A line through a reference of the peer's own.
  void tellPeer(Printer::Client printer) {
    auto number = ++numbers;
    printedBy[number] = {1, true};
    wanted(told(drawnRegistry(), printer, number << 32 | 1));
  }

  void subscribeAt(Printer::Client printer) {
    auto request = drawnRegistry().subscribeRequest();
    request.setPrinter(printer);
    wanted(request.send());
  }

  void broadcastAt() {
    auto request = drawnRegistry().broadcastRequest();
    request.setLine(0);
    wanted(request.send());
  }

  void act() {
    if (channels.size() == 0) return holdOwn();
    auto& channel = drawnChannel();
    switch (draw(26)) {
      case 0: return holdOwn();
      case 1: return holdAtPeer();
      case 2: {
        auto registry = draw(registries.size());
        return hold(registries[registry].awaitPrinterRequest().send().getPrinter(), registry);
      }
      case 3: {
        auto registry = draw(registries.size());
        if (channel.leads > registry) publish(registry, channel.printer);
        return;
      }
      case 4: return hold(sameAs(drawnRegistry(), channel.printer).getPrinter(), channel.leads);
      case 5: return tellPeer(channel.printer);
      case 6: return subscribeAt(channel.printer);
      case 7: return broadcastAt();
      case 8: return wanted(drawnRegistry().unsubscribeRequest().send());
      case 9:
        std::swap(channel, channels.back());
        return channels.removeLast();
      case 10:
        if (promises) holdOwnPromise();
        return;
      case 11:
        if (open.size() > 0) fulfill();
        return;
      default: return print(channel);
    }
  }

  // All promises lead somewhere in the end, and all calls end.
  void settle() {
    while (open.size() > 0) fulfill();
    for (uint registry = 0; registry < registries.size(); registry++) {
      Own own;
      sheets.add(kj::addRef(*own.sheet));
      publish(registry, own.printer);
    }
    peer.wait(kj::joinPromises(calls.releaseAsArray()));
    calls = {};
    for (auto& registry : registries) wanted(registry.unsubscribeRequest().send());
    peer.wait(kj::joinPromises(calls.releaseAsArray()));
  }

  // Of each channel all lines came to one printer, in order; of one with a call that was let go some may be missing.
  void compare() {
    std::set<uint64_t> seen;
    for (auto& sheet : sheets) compareWith(sheet->lines, seen);
    for (auto& printer : atPeer) {
      auto said = peer.wait(printer.printedRequest().send());
      compareWith(said.getLines(), seen);
    }
    for (auto& channel : printedBy) {
      KJ_REQUIRE(seen.count(channel.first) || !channel.second.second, "nothing came", channel.first);
    }
  }

  template <typename Lines>
  void compareWith(Lines&& lines, std::set<uint64_t>& seen) {
    std::map<uint64_t, uint64_t> last;
    for (uint64_t line : lines) {
      if (line == 0) continue;
      auto number = line >> 32;
      auto index = line & 0xffffffff;
      auto whole = printedBy[number].second;
      KJ_REQUIRE(whole ? index == last[number] + 1 : index > last[number], "out of order", number, index, last[number]);
      last[number] = index;
    }
    for (auto& channel : last) {
      KJ_REQUIRE(seen.insert(channel.first).second, "at two printers", channel.first);
      auto all = printedBy[channel.first];
      KJ_REQUIRE(!all.second || all.first == channel.second, "not all came", channel.first, channel.second);
    }
  }
};

}  // namespace

void soak(Peer& peer, uint seed, bool promises) { Soak(peer, seed, promises).play(); }

}  // namespace interop
