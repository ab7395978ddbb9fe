// client ADDRESS COUNT: calls a counter so many times, one call after the other, and prints how many round trips a second it made.
#include "../../interop/peer.h"
#include <chrono>
#include <iostream>

int main(int words, char** word) {
  if (words != 3) {
    std::cerr << "usage: client ADDRESS COUNT" << std::endl;
    return 2;
  }
  auto io = kj::setupAsyncIo();
  interop::Peer peer(io, word[1]);
  uint64_t count = std::stoull(word[2]);
  auto counter = peer.wait(interop::made(peer.registry, "", 0)).getCounter();
  auto start = std::chrono::steady_clock::now();
  for (uint64_t i = 1; i <= count; i++) {
    CHECK(interop::added(counter, 1).wait(io.waitScope).getSum() == i);
  }
  std::chrono::duration<double> took = std::chrono::steady_clock::now() - start;
  std::cout << uint64_t(count / took.count()) << std::endl;
  return 0;
}
