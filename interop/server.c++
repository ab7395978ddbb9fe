// server ADDRESS: serves a registry to whoever comes. server --tell ADDRESS: serves one to the first who comes, tells of its objects,
// and ends as that client goes. On standard output it writes one line once it listens.
#include "objects.h"
#include <capnp/rpc-twoparty.h>
#include <kj/async-io.h>

namespace interop {

int serve(kj::StringPtr address, bool tells) {
  auto io = kj::setupAsyncIo();
  auto listener = io.provider->getNetwork().parseAddress(address).wait(io.waitScope)->listen();
  std::cout << "listening" << std::endl;
  capnp::TwoPartyServer server(kj::heap<RegistryObject>());
  if (!tells) {
    server.listen(*listener).wait(io.waitScope);
    return 0;
  }
  Told::wanted() = true;
  auto client = listener->accept().wait(io.waitScope);
  server.accept(*client).wait(io.waitScope);
  std::cout << "client gone" << std::endl;
  Told::wanted() = false;
  return 0;
}

}  // namespace interop

int main(int words, char** word) {
  bool tells = words == 3 && kj::StringPtr(word[1]) == "--tell";
  if (words != 2 && !tells) {
    std::cerr << "usage: server [--tell] ADDRESS" << std::endl;
    return 2;
  }
  return interop::serve(word[words - 1], tells);
}
