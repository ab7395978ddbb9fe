// What this side gives its peer.
#pragma once
#include <unordered_map>
#include <kj/async.h>
#include <capnp/capability.h>

namespace lovendak {

class Vat;
class References;

class Exports {
  // Owns the hooks that the peer may call: objects, by the numbers that the vat knows them by, and promises that are not settled yet.
  // An object is let go when the vat names it no more.

public:
  explicit Exports(Vat& vat): vat(vat) {}

  void addRoot(kj::Own<capnp::ClientHook> hook);
  kj::Maybe<capnp::ClientHook&> object(uint64_t number);

  kj::Maybe<kj::Own<capnp::ClientHook>> release(uint64_t number);
  // The vat names that object no more.

  kj::Vector<kj::Own<capnp::ClientHook>> releaseAll();

  static constexpr uint64_t ROOT = 0;
  // The number of the bootstrap object, which is never let go.

private:
  friend class References;

  struct Promised {
    kj::Own<capnp::ClientHook> hook;
    uint64_t promise, reference;
  };

  Vat& vat;
  std::unordered_map<uint64_t, kj::Own<capnp::ClientHook>> objects;
  std::unordered_map<capnp::ClientHook*, uint64_t> numbers;
  std::unordered_map<capnp::ClientHook*, Promised> promises;
  uint64_t nextNumber = ROOT + 1;

  uint64_t host(capnp::ClientHook& hook);
  uint64_t promise(capnp::ClientHook& hook, kj::Promise<kj::Own<capnp::ClientHook>> resolution);
  kj::Maybe<Promised> settled(capnp::ClientHook* key);
  void resolve(capnp::ClientHook* key, kj::Own<capnp::ClientHook> to);
  void reject(capnp::ClientHook* key, kj::Exception&& why);
};

class References {
  // The references that go with a payload, one for each capability. Those that were made for it are dropped at the end.

public:
  References(Vat& vat, kj::ArrayPtr<kj::Maybe<kj::Own<capnp::ClientHook>>> hooks);
  References(Vat& vat, capnp::ClientHook& hook);
  ~References() noexcept(false);
  KJ_DISALLOW_COPY(References);

  const uint64_t* begin() const;
  size_t size() const { return numbers.size(); }

private:
  Vat& vat;
  kj::Vector<uint64_t> numbers, made;

  void add(capnp::ClientHook& hook);
  void addNull();
};

}  // namespace lovendak
