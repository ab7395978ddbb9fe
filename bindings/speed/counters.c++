// counters ADDRESS COUNT ALIVE: makes and drops so many counters, so many of which are there at a time, and adds a number to each. After
// each COUNT it says so, once the server has heard that all are dropped, and goes on when a line comes; it ends with its input.
#include "../../interop/peer.h"
#include <iostream>

namespace interop {

// Makes some counters, calls each before it is known to be there, and drops them.
static void round(Peer& peer, uint64_t alive) {
  kj::Vector<Counter::Client> counters;
  Calls calls;
  for (uint64_t i = 0; i < alive; i++) {
    counters.add(made(peer.registry, "", i).getCounter());
    calls.add(added(counters.back(), 1));
  }
  calls.wait(peer);
  CHECK(peer.wait(added(counters.back(), 1)).getSum() == alive + 1);
}

static void play(Peer& peer, uint64_t count, uint64_t alive) {
  std::string line;
  do {
    for (uint64_t made = 0; made < count; made += alive) round(peer, alive);
    peer.wait(peer.registry.echoRequest().send());
    std::cout << count << " counters were made and dropped" << std::endl;
  } while (std::getline(std::cin, line));
}

}  // namespace interop

int main(int words, char** word) {
  if (words != 4) {
    std::cerr << "usage: counters ADDRESS COUNT ALIVE" << std::endl;
    return 2;
  }
  auto io = kj::setupAsyncIo();
  interop::Peer peer(io, word[1]);
  interop::play(peer, std::stoull(word[2]), std::stoull(word[3]));
  return 0;
}
