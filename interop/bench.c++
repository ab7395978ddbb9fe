// How many calls of a counter are answered in a second, and how many echoes of bytes.
#include "scenarios.h"
#include <chrono>
#include <cstring>
#include <iostream>

namespace interop {

namespace {

// So many calls at once, and then the wait for all of them.
constexpr uint AT_ONCE = 500;

template <typename Work>
uint64_t rate(uint calls, Work&& work) {
  auto start = std::chrono::steady_clock::now();
  work();
  std::chrono::duration<double> seconds = std::chrono::steady_clock::now() - start;
  return calls / seconds.count();
}

// How often so many bytes are echoed in a second.
uint64_t echoes(Peer& peer, uint calls, size_t size) {
  auto bytes = kj::heapArray<kj::byte>(size);
  memset(bytes.begin(), 7, size);
  return rate(calls, [&]() {
    for (uint i = 0; i < calls; i++) {
      auto request = peer.registry.echoRequest();
      request.setData(bytes);
      auto came = request.send().wait(peer.io.waitScope);
      KJ_REQUIRE(came.getData().size() == size);
    }
  });
}

}  // namespace

void bench(Peer& peer, uint calls) {
  auto counter = peer.wait(made(peer.registry, "counted", 0)).getCounter();
  peer.wait(added(counter, 0));
  auto single = rate(calls, [&]() {
    for (uint i = 0; i < calls; i++) added(counter, 0).wait(peer.io.waitScope);
  });
  auto together = rate(calls, [&]() {
    for (uint done = 0; done < calls; done += AT_ONCE) {
      Calls batch;
      for (uint i = 0; i < AT_ONCE; i++) batch.add(added(counter, 0));
      batch.wait(peer);
    }
  });
  std::cout << single << " " << together << " " << echoes(peer, calls / 10, 65536) << " " << echoes(peer, calls / 10, 409600) << std::endl;
}

}  // namespace interop
