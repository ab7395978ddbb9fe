// `capnp::RpcSystem` over vats of Lovendak: this file defines the members of `capnp::_::RpcSystemBase`. So whatever stands on `RpcSystem`
// (`TwoPartyClient`, `TwoPartyServer`, `EzRpcClient`, `EzRpcServer`, `makeRpcServer` over any `VatNetwork`) has a vat for each connection,
// with no change of its text, if this is linked before libcapnp-rpc or preloaded.
#include <unordered_map>
#include <capnp/rpc.h>
#include <kj/debug.h>
#include "link.h"
#include "root.h"

namespace lovendak {
using namespace capnp;

namespace {

typedef capnp::_::VatNetworkBase Network;

class System final: private capnp::_::BootstrapFactoryBase, private kj::TaskSet::ErrorHandler {
  // Owns a link for each connection of a network.

public:
  System(Network& network, kj::Maybe<Capability::Client> bootstrapInterface)
      : System(network, kj::mv(bootstrapInterface), nullptr, *this) {}
  System(Network& network, capnp::_::BootstrapFactoryBase& factory): System(network, nullptr, nullptr, factory) {}
  System(Network& network, capnp::_::SturdyRefRestorerBase& restorer): System(network, nullptr, restorer, *this) {}
  ~System() noexcept(false);

  Capability::Client bootstrap(AnyStruct::Reader vatId);
  Capability::Client restore(AnyStruct::Reader vatId, AnyPointer::Reader objectId);
  void setFlowLimit(size_t words);
  kj::Promise<void> run() { return kj::mv(accepting); }

private:
  System(Network& network, kj::Maybe<Capability::Client> bootstrapInterface, kj::Maybe<capnp::_::SturdyRefRestorerBase&> restorer,
         capnp::_::BootstrapFactoryBase& factory)
      : network(network), bootstrapInterface(kj::mv(bootstrapInterface)), restorer(restorer), factory(factory), accepting(nullptr),
        tasks(*this) {
    accepting = accept().eagerlyEvaluate([](kj::Exception&& exception) { KJ_LOG(ERROR, exception); });
  }

  Network& network;
  kj::Maybe<Capability::Client> bootstrapInterface;
  kj::Maybe<capnp::_::SturdyRefRestorerBase&> restorer;
  capnp::_::BootstrapFactoryBase& factory;
  kj::Maybe<size_t> flowLimit;
  std::unordered_map<NetworkConnection*, kj::Own<Link>> links;
  kj::Promise<void> accepting;
  kj::TaskSet tasks;

  kj::Promise<void> accept();
  Link& linkOf(kj::Own<NetworkConnection>&& connection);
  Root rootFor(NetworkConnection& connection);
  Capability::Client restoreOwn(AnyPointer::Reader objectId);
  void end(NetworkConnection* connection);
  Capability::Client baseCreateFor(AnyStruct::Reader clientId) override;
  void taskFailed(kj::Exception&& exception) override { KJ_LOG(ERROR, exception); }
};

System::~System() noexcept(false) {
  auto all = kj::mv(links);
  // Each vat says that it ends. Nobody waits until a connection is shut.
  for (auto& entry: all) entry.second->shutdown(KJ_EXCEPTION(FAILED, "RpcSystem was destroyed."));
}

kj::Promise<void> System::accept() {
  return network.baseAccept().then([this](kj::Own<NetworkConnection>&& connection) {
    linkOf(kj::mv(connection));
    return accept();
  });
}

Capability::Client System::bootstrap(AnyStruct::Reader vatId) {
  KJ_IF_MAYBE(connection, network.baseConnect(vatId)) {
    return Capability::Client(linkOf(kj::mv(*connection)).bootstrap(AnyPointer::Reader()));
  }
  return factory.baseCreateFor(vatId);
}

Capability::Client System::restore(AnyStruct::Reader vatId, AnyPointer::Reader objectId) {
  if (objectId.isNull()) return bootstrap(vatId);
  KJ_IF_MAYBE(connection, network.baseConnect(vatId)) {
    return Capability::Client(linkOf(kj::mv(*connection)).bootstrap(objectId));
  }
  return restoreOwn(objectId);
}

void System::setFlowLimit(size_t words) {
  flowLimit = words;
  for (auto& entry: links) entry.second->setFlowLimit(words);
}

Link& System::linkOf(kj::Own<NetworkConnection>&& connection) {
  auto pointer = connection.get();
  auto known = links.find(pointer);
  if (known != links.end()) return *known->second;
  auto link = kj::heap<Link>(kj::mv(connection), rootFor(*pointer));
  KJ_IF_MAYBE(words, flowLimit) {
    link->setFlowLimit(*words);
  }
  tasks.add(link->onDown().then([this, pointer]() { end(pointer); }));
  auto& result = *link;
  links.emplace(pointer, kj::mv(link));
  return result;
}

// The bootstrap object for a peer. One that was given is hosted as it is, unless it is a promise; one that a factory or a restorer makes is
// made when it is asked for.
Root System::rootFor(NetworkConnection& connection) {
  KJ_IF_MAYBE(main, bootstrapInterface) {
    return rootOf(*main);
  }
  auto root = newRoot([this, &connection]() { return factory.baseCreateFor(connection.baseGetPeerVatId()); },
                      [this](AnyPointer::Reader objectId) { return restoreOwn(objectId); });
  // There is nothing to ask for in a vat that was given nothing.
  if (restorer == nullptr && &factory == this) root.isAsked = false;
  return root;
}

Capability::Client System::restoreOwn(AnyPointer::Reader objectId) {
  KJ_IF_MAYBE(it, restorer) {
    return it->baseRestore(objectId);
  }
  return KJ_EXCEPTION(FAILED, "This vat only supports a bootstrap interface, not the old Cap'n-Proto-0.4-style named exports.");
}

void System::end(NetworkConnection* connection) {
  auto found = links.find(connection);
  if (found == links.end()) return;
  auto link = kj::mv(found->second);
  links.erase(found);
  auto ended = link->shutdown(KJ_EXCEPTION(DISCONNECTED, "The vat is down."));
  tasks.add(ended.attach(kj::mv(link)));
}

Capability::Client System::baseCreateFor(AnyStruct::Reader) {
  KJ_IF_MAYBE(main, bootstrapInterface) {
    return *main;
  }
  KJ_IF_MAYBE(it, restorer) {
    return it->baseRestore(AnyPointer::Reader());
  }
  return KJ_EXCEPTION(FAILED, "This vat does not expose any public/bootstrap interfaces.");
}

}  // namespace

}  // namespace lovendak

namespace capnp {
namespace _ {

class RpcSystemBase::Impl {
  // Nothing here may have a name of libcapnp's own class, whose weak symbols would be merged with it: all else is `lovendak::System`.

public:
  template <typename Root>
  Impl(VatNetworkBase& network, Root&& root): system(network, kj::fwd<Root>(root)) {}
  lovendak::System system;
};

RpcSystemBase::RpcSystemBase(VatNetworkBase& network, kj::Maybe<Capability::Client> bootstrapInterface)
    : impl(kj::heap<Impl>(network, kj::mv(bootstrapInterface))) {}
RpcSystemBase::RpcSystemBase(VatNetworkBase& network, BootstrapFactoryBase& factory): impl(kj::heap<Impl>(network, factory)) {}
RpcSystemBase::RpcSystemBase(VatNetworkBase& network, SturdyRefRestorerBase& restorer): impl(kj::heap<Impl>(network, restorer)) {}
RpcSystemBase::RpcSystemBase(RpcSystemBase&& other) noexcept = default;
RpcSystemBase::~RpcSystemBase() noexcept(false) {}

Capability::Client RpcSystemBase::baseBootstrap(AnyStruct::Reader vatId) { return impl->system.bootstrap(vatId); }
Capability::Client RpcSystemBase::baseRestore(AnyStruct::Reader vatId, AnyPointer::Reader objectId) {
  return impl->system.restore(vatId, objectId);
}
void RpcSystemBase::baseSetFlowLimit(size_t words) { impl->system.setFlowLimit(words); }
void RpcSystemBase::setTraceEncoder(kj::Function<kj::String(const kj::Exception&)>) {}  // A vat sends no traces.
kj::Promise<void> RpcSystemBase::run() { return impl->system.run(); }

}  // namespace _
}  // namespace capnp
