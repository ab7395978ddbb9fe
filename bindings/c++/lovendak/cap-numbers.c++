#include "cap-numbers.h"
#include <kj/debug.h>

namespace lovendak {
using namespace capnp;

namespace {

class Number final: public ClientHook, public kj::Refcounted {
  // What stands for a capability while its pointer is copied. Nobody calls it.

public:
  explicit Number(unsigned int index): index(index) {}
  Request<AnyPointer, AnyPointer> newCall(uint64_t, uint16_t, kj::Maybe<MessageSize>) override { KJ_UNREACHABLE; }
  VoidPromiseAndPipeline call(uint64_t, uint16_t, kj::Own<CallContextHook>&&) override { KJ_UNREACHABLE; }
  kj::Maybe<ClientHook&> getResolved() override { return nullptr; }
  kj::Maybe<kj::Promise<kj::Own<ClientHook>>> whenMoreResolved() override { return nullptr; }
  kj::Own<ClientHook> addRef() override { return kj::addRef(*this); }
  const void* getBrand() override { return nullptr; }
  kj::Maybe<int> getFd() override { return nullptr; }

  const unsigned int index;
};

class Numbers final: public capnp::_::CapTableBuilder {
  // The table of a message whose capabilities are their numbers.

public:
  kj::Maybe<kj::Own<ClientHook>> extractCap(unsigned int index) override { return kj::Own<ClientHook>(kj::refcounted<Number>(index)); }
  unsigned int injectCap(kj::Own<ClientHook>&& cap) override { return kj::downcast<Number>(*cap).index; }
  void dropCap(unsigned int) override {}
};

}  // namespace

void copyWithNumbers(AnyPointer::Builder to, AnyPointer::Reader from) {
  typedef capnp::_::PointerHelpers<AnyPointer> Helpers;
  Numbers numbers;
  AnyPointer::Builder imbuedTo(Helpers::getInternalBuilder(kj::mv(to)).imbue(&numbers));
  imbuedTo.set(AnyPointer::Reader(Helpers::getInternalReader(from).imbue(&numbers)));
}

}  // namespace lovendak
