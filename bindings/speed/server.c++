// server ADDRESS: the registry of interop/ by an EzRpcServer.
#include "../../interop/objects.h"
#include <capnp/ez-rpc.h>
#include <iostream>

int main(int words, char** word) {
  if (words != 2) {
    std::cerr << "usage: server ADDRESS" << std::endl;
    return 2;
  }
  capnp::EzRpcServer server(kj::heap<interop::RegistryObject>(), word[1]);
  kj::NEVER_DONE.wait(server.getWaitScope());
}
