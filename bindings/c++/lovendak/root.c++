#include "root.h"
#include <capnp/message.h>
#include <capnp/serialize.h>

namespace lovendak {
using namespace capnp;

// The interface of named exports: its one method takes a name, and returns what is exported by it, or the bootstrap object if it is null.
static const uint64_t NAMED_EXPORTS = 0xb1c3a7e94d5f2087ull;

namespace {

class NamedExports final: public Capability::Server {
public:
  explicit NamedExports(Restore restore): restore(kj::mv(restore)) {}
  DispatchCallResult dispatchCall(uint64_t, uint16_t, CallContext<AnyPointer, AnyPointer> context) override {
    auto exported = restore(context.getParams());
    context.getResults().setAs<Capability>(kj::mv(exported));
    return {kj::READY_NOW, false};
  }

private:
  Restore restore;
};

class RootHook final: public ClientHook, public kj::Refcounted {
  // Owns the bootstrap object once it is made by a call, and the object of named exports. That gives the bootstrap object itself if
  // `givesMain`, and else this one, of which the named exports can be asked too.

public:
  RootHook(MakeMain given, Restore restore, bool givesMain): makeMain(kj::mv(given)) {
    auto ask = [this, givesMain, restore = kj::mv(restore)](AnyPointer::Reader name) mutable {
      if (!name.isNull()) return restore(name);
      return givesMain ? makeMain() : Capability::Client(addRef());
    };
    named = ClientHook::from(Capability::Client(kj::heap<NamedExports>(kj::mv(ask))));
  }

  Request<AnyPointer, AnyPointer> newCall(uint64_t interfaceId, uint16_t methodId, kj::Maybe<MessageSize> sizeHint) override {
    return target(interfaceId).newCall(interfaceId, methodId, sizeHint);
  }
  VoidPromiseAndPipeline call(uint64_t interfaceId, uint16_t methodId, kj::Own<CallContextHook>&& context) override {
    return target(interfaceId).call(interfaceId, methodId, kj::mv(context));
  }
  kj::Maybe<ClientHook&> getResolved() override { return nullptr; }
  kj::Maybe<kj::Promise<kj::Own<ClientHook>>> whenMoreResolved() override { return nullptr; }
  kj::Own<ClientHook> addRef() override { return kj::addRef(*this); }
  const void* getBrand() override { return nullptr; }
  kj::Maybe<int> getFd() override { return nullptr; }

private:
  MakeMain makeMain;
  kj::Maybe<kj::Own<ClientHook>> main;
  kj::Own<ClientHook> named;

  ClientHook& target(uint64_t interfaceId) {
    if (interfaceId == NAMED_EXPORTS) return *named;
    KJ_IF_MAYBE(made, main) {
      return **made;
    }
    auto made = kj::evalNow([&]() { return makeMain(); });
    return *main.emplace(ClientHook::from(Capability::Client(kj::mv(made))));
  }
};

}  // namespace

Root newRoot(MakeMain makeMain, Restore restore) { return {kj::refcounted<RootHook>(kj::mv(makeMain), kj::mv(restore), false), true}; }

static Capability::Client noNamedExports(AnyPointer::Reader) {
  return KJ_EXCEPTION(FAILED, "This vat only supports a bootstrap interface, not the old Cap'n-Proto-0.4-style named exports.");
}

Root rootOf(Capability::Client main) {
  auto hook = ClientHook::from(main);
  for (;;) {
    KJ_IF_MAYBE(resolved, hook->getResolved()) {
      hook = resolved->addRef();
    } else {
      break;
    }
  }
  if (hook->whenMoreResolved() == nullptr) return {kj::mv(hook), false};
  return {kj::refcounted<RootHook>([main]() mutable { return main; }, noNamedExports, true), true};
}

kj::Array<word> callOfRoot(rpc::Bootstrap::Reader asked, uint32_t root) {
  auto name = asked.getDeprecatedObjectId();
  MallocMessageBuilder message(name.targetSize().wordCount + 32);
  auto call = message.initRoot<rpc::Message>().initCall();
  call.setQuestionId(asked.getQuestionId());
  call.initTarget().setImportedCap(root);
  call.setInterfaceId(NAMED_EXPORTS);
  call.initSendResultsTo().setCaller();
  call.initParams().getContent().set(name);
  return messageToFlatArray(message);
}

Capability::Client namedExport(Capability::Client root, AnyPointer::Reader name) {
  auto request = ClientHook::from(kj::mv(root))->newCall(NAMED_EXPORTS, 0, name.targetSize());
  request.set(name);
  return Capability::Client(request.send().asCap());
}

}  // namespace lovendak
