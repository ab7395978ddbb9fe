// With limits, messages of a peer wait unheard until others are done with. A call behind them has to be heard, without one more byte of
// the peer: each message here is larger than the limit of words, and those before the call have neither an event nor an answer.
#include <lovendak.h>
#include <iostream>
#include <kj/async-io.h>
#include <kj/debug.h>
#include <kj/timer.h>
#include "lovendak/two-party.h"
#include "probe.capnp.h"

static const int FINISHED = 40;

class Thing final: public Probe::Server {
public:
  kj::Promise<void> echo(EchoContext context) override {
    context.getResults().setData(context.getParams().getData());
    return kj::READY_NOW;
  }
};

class Peer {
  // A vat of the C interface, whose bytes go in one piece.

public:
  explicit Peer(kj::AsyncIoStream& stream): stream(stream) { KJ_REQUIRE(lovendak_new(&vat, 1, 0, 0) == LOVENDAK_OK); }
  ~Peer() noexcept(false) { lovendak_free(&vat); }

  lovendak_vat vat = LOVENDAK_EMPTY;

  kj::Promise<void> send() {
    size_t count = 0;
    KJ_REQUIRE(lovendak_outgoing(&vat, said, sizeof(said), &count) == LOVENDAK_OK && count < sizeof(said));
    return stream.write(said, count);
  }

  // Once that many own calls have ended.
  kj::Promise<void> ended(int calls) {
    lovendak_event event;
    uint64_t references[1];
    while (lovendak_next_event(&vat, &event, payload, sizeof(payload), references, 1) == LOVENDAK_OK) {
      if (event.kind == LOVENDAK_ENDED) calls--;
    }
    if (calls == 0) return kj::READY_NOW;
    return stream.read(heard, 1, sizeof(heard)).then([this, calls](size_t count) {
      KJ_REQUIRE(lovendak_received(&vat, heard, count) == LOVENDAK_OK);
      return ended(calls);
    });
  }

private:
  kj::AsyncIoStream& stream;
  uint8_t said[65536], heard[65536], payload[4096];
};

static kj::Promise<void> call(Peer& peer, uint64_t* calls) {
  for (int i = 0; i < FINISHED; i++) KJ_REQUIRE(lovendak_bootstrap(&peer.vat, &calls[i]) == LOVENDAK_OK);
  return peer.send().then([&peer]() { return peer.ended(FINISHED); }).then([&peer, calls]() {
    uint64_t thing, echo;
    KJ_REQUIRE(lovendak_result_of(&peer.vat, calls[0], &thing) == LOVENDAK_OK);
    for (int i = 1; i < FINISHED; i++) KJ_REQUIRE(lovendak_finish(&peer.vat, calls[i]) == LOVENDAK_OK);
    static const uint8_t NOTHING[16] = {0, 0, 0, 0, 1};
    KJ_REQUIRE(lovendak_call(&peer.vat, thing, capnp::typeId<Probe>(), 0, NOTHING, sizeof(NOTHING), nullptr, 0, &echo) == LOVENDAK_OK);
    return peer.send();
  }).then([&peer]() { return peer.ended(1); });
}

int main() {
  auto io = kj::setupAsyncIo();
  auto pipe = kj::newTwoWayPipe();
  lovendak::TwoPartyClient server(*pipe.ends[0], kj::heap<Thing>(), capnp::rpc::twoparty::Side::SERVER);
  server.setFlowLimit(1);
  Peer peer(*pipe.ends[1]);
  uint64_t calls[FINISHED];
  io.provider->getTimer().timeoutAfter(10 * kj::SECONDS, call(peer, calls)).wait(io.waitScope);
  std::cout << "the call behind " << FINISHED << " messages was answered" << std::endl;
  return 0;
}
