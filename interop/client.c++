// client ADDRESS SCENARIO: plays a scenario with the registry that is served there, and ends with status 0 where all was as it
// has to be. client ADDRESS soak SEED, client ADDRESS soak-promises SEED: plays a drawn conversation. client ADDRESS bench CALLS:
// measures. client: lists the scenarios.
#include "scenarios.h"
#include <iostream>

namespace interop {

void play(Peer& peer, const std::string& name, uint seed) {
  if (name == "soak" || name == "soak-promises") {
    soak(peer, seed, name == "soak-promises");
  } else if (name == "bench") {
    bench(peer, seed);
  } else {
    auto scenario = SCENARIOS.find(name);
    KJ_REQUIRE(scenario != SCENARIOS.end(), "no such scenario", name.c_str());
    scenario->second(peer);
  }
  peer.leave();
}

int run(int words, char** word) {
  if (words == 1) {
    for (auto& scenario : SCENARIOS) std::cout << scenario.first << std::endl;
    return 0;
  }
  if (words < 3 || words > 4) {
    std::cerr << "usage: client [ADDRESS SCENARIO [NUMBER]]" << std::endl;
    return 2;
  }
  auto io = kj::setupAsyncIo();
  KJ_IF_MAYBE(exception, kj::runCatchingExceptions([&]() {
    Peer peer(io, word[1]);
    play(peer, word[2], words == 4 ? std::stoul(word[3]) : 0);
  })) {
    std::cerr << word[2] << ": " << kj::str(*exception).cStr() << std::endl;
    return 1;
  }
  return 0;
}

}  // namespace interop

int main(int words, char** word) { return interop::run(words, word); }
