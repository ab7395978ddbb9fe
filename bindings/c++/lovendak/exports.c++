#include "exports.h"
#include <kj/debug.h>
#include "client.h"
#include "faults.h"

namespace lovendak {
using namespace capnp;

constexpr uint64_t Exports::ROOT;

void Exports::addRoot(kj::Own<ClientHook> hook) {
  numbers[hook.get()] = ROOT;
  objects.emplace(ROOT, kj::mv(hook));
}

kj::Maybe<ClientHook&> Exports::object(uint64_t number) {
  auto found = objects.find(number);
  if (found == objects.end()) return nullptr;
  return *found->second;
}

kj::Maybe<kj::Own<ClientHook>> Exports::release(uint64_t number) {
  auto found = objects.find(number);
  if (number == ROOT || found == objects.end()) return nullptr;
  auto hook = kj::mv(found->second);
  numbers.erase(hook.get());
  objects.erase(found);
  return kj::mv(hook);
}

kj::Vector<kj::Own<ClientHook>> Exports::releaseAll() {
  kj::Vector<kj::Own<ClientHook>> all;
  for (auto& entry: objects) all.add(kj::mv(entry.second));
  for (auto& entry: promises) all.add(kj::mv(entry.second.hook));
  objects.clear();
  numbers.clear();
  promises.clear();
  return all;
}

uint64_t Exports::host(ClientHook& hook) {
  auto known = numbers.find(&hook);
  uint64_t reference;
  if (known != numbers.end()) {
    check(lovendak_host(&vat.handle, known->second, &reference));
    return reference;
  }
  check(lovendak_host(&vat.handle, nextNumber, &reference));
  numbers.emplace(&hook, nextNumber);
  objects.emplace(nextNumber, hook.addRef());
  nextNumber++;
  return reference;
}

uint64_t Exports::promise(ClientHook& hook, kj::Promise<kj::Own<ClientHook>> resolution) {
  auto known = promises.find(&hook);
  if (known != promises.end()) return known->second.reference;
  uint64_t promise, reference;
  check(lovendak_promise(&vat.handle, &promise, &reference));
  auto key = &hook;
  promises.emplace(key, Promised{hook.addRef(), promise, reference});
  vat.addTask(resolution.then([this, key](kj::Own<ClientHook>&& to) { resolve(key, kj::mv(to)); },
                              [this, key](kj::Exception&& why) { reject(key, kj::mv(why)); }));
  return reference;
}

kj::Maybe<Exports::Promised> Exports::settled(ClientHook* key) {
  auto found = promises.find(key);
  if (found == promises.end()) return nullptr;
  auto promised = kj::mv(found->second);
  promises.erase(found);
  return kj::mv(promised);
}

void Exports::resolve(ClientHook* key, kj::Own<ClientHook> to) {
  KJ_IF_MAYBE(promised, settled(key)) {
    KJ_IF_MAYBE(e, kj::runCatchingExceptions([&]() {
      References reference(vat, *to);
      vat.resolvePromise(promised->promise, *reference.begin());
    })) {
      vat.rejectPromise(promised->promise, *e);
    }
    vat.drop(promised->reference);
    vat.letGo(kj::mv(promised->hook));
  }
}

void Exports::reject(ClientHook* key, kj::Exception&& why) {
  KJ_IF_MAYBE(promised, settled(key)) {
    vat.rejectPromise(promised->promise, why);
    vat.drop(promised->reference);
    vat.letGo(kj::mv(promised->hook));
  }
}

References::References(Vat& vat, kj::ArrayPtr<kj::Maybe<kj::Own<ClientHook>>> hooks): vat(vat) {
  for (auto& maybe: hooks) {
    KJ_IF_MAYBE(hook, maybe) {
      add(**hook);
    } else {
      addNull();
    }
  }
}

References::References(Vat& vat, ClientHook& hook): vat(vat) { add(hook); }

References::~References() noexcept(false) {
  for (auto reference: made) vat.drop(reference);
}

const uint64_t* References::begin() const {
  static const uint64_t NONE[1] = {0};
  return numbers.size() == 0 ? NONE : numbers.begin();
}

void References::add(ClientHook& given) {
  ClientHook* hook = &given;
  for (;;) {
    KJ_IF_MAYBE(resolved, hook->getResolved()) {
      hook = resolved;
    } else {
      break;
    }
  }
  if (hook->getBrand() == &vat) {
    numbers.add(kj::downcast<VatClient>(*hook).reference);
    return;
  }
  // A local promise holds its calls back, and so does a promise of the vat. A promise of another connection sends its calls on at once:
  // it is hosted like an object.
  auto resolution = hook->whenMoreResolved();
  if (hook->getBrand() == nullptr || hook->isError()) {
    KJ_IF_MAYBE(promise, resolution) {
      numbers.add(vat.exports.promise(*hook, kj::mv(*promise)));
      return;
    }
  }
  auto reference = vat.exports.host(*hook);
  made.add(reference);
  numbers.add(reference);
}

// A promise that is rejected at once, since no reference leads to nothing.
void References::addNull() {
  uint64_t promise, reference;
  check(lovendak_promise(&vat.handle, &promise, &reference));
  made.add(reference);
  numbers.add(reference);
  vat.rejectPromise(promise, KJ_EXCEPTION(FAILED, "Called null capability."));
}

}  // namespace lovendak
