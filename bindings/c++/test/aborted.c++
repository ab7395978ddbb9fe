// A peer ends the connection by an Abort. It prints how a call fails then.
#include <iostream>
#include <capnp/rpc.capnp.h>
#include <capnp/serialize-async.h>
#include <kj/async-io.h>
#include "probe.capnp.h"
#ifdef OVER_LIBCAPNP
#include <capnp/rpc-twoparty.h>
using capnp::TwoPartyClient;
#else
#include "lovendak/two-party.h"
using lovendak::TwoPartyClient;
#endif

int main() {
  kj::EventLoop loop;
  kj::WaitScope waitScope(loop);
  auto pipe = kj::newTwoWayPipe();
  capnp::MallocMessageBuilder message;
  auto abort = message.initRoot<capnp::rpc::Message>().initAbort();
  abort.setReason("on purpose: \xc3\xa4");
  abort.setType(capnp::rpc::Exception::Type::OVERLOADED);
  auto written = capnp::writeMessage(*pipe.ends[0], message).eagerlyEvaluate(nullptr);
  TwoPartyClient client(*pipe.ends[1]);
  auto call = client.bootstrap().castAs<Probe>().echoRequest().send().ignoreResult();
  call.then([]() { std::cout << "no failure" << std::endl; }, [](kj::Exception&& exception) {
    std::cout << kj::str(exception.getType(), ": ", exception.getDescription()).cStr() << std::endl;
  }).wait(waitScope);
}
