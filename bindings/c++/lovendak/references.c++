// Where the references of a vat lead, and what hooks stand for them.
#include <capnp/capability.h>
#include "client.h"
#include "faults.h"

namespace lovendak {
using namespace capnp;

lovendak_place Vat::leadsTo(uint64_t reference) {
  lovendak_place place = {LOVENDAK_BROKEN, 0, 0, LOVENDAK_BROKEN_PROMISE, 0};
  lovendak_leads_to(&handle, reference, &place);
  return place;
}

// The hook for a reference that came with a payload, and is the hook's from now on. Nothing if it stands for null.
MaybeHook Vat::hookOf(uint64_t reference) {
  auto place = leadsTo(reference);
  if (!place.is_embargoed) {
    KJ_IF_MAYBE(hook, knownHook(place)) {
      drop(reference);
      return kj::mv(*hook);
    }
  }
  if (place.kind == LOVENDAK_BROKEN && place.reason == LOVENDAK_NULL) {
    drop(reference);
    return nullptr;
  }
  auto client = kj::refcounted<VatClient>(*this, reference, nullptr);
  follow(*client);
  return kj::Own<ClientHook>(kj::mv(client));
}

// The hook that stands there already: the application's own, or that of an import, so that calls through either keep one order.
MaybeHook Vat::knownHook(const lovendak_place& place) {
  if (place.kind == LOVENDAK_OWN) {
    KJ_IF_MAYBE(hook, exports.object(place.number)) {
      return hook->addRef();
    }
  } else if (place.kind == LOVENDAK_IMPORT) {
    KJ_IF_MAYBE(client, directory.find(Directory::Place::of(place))) {
      return client->addRef();
    }
  }
  return nullptr;
}

// A reference takes each shorter path that is known, and its hook stands where it leads then.
void Vat::follow(VatClient& client) {
  if (!client.isPromise() || client.waiting != 0 || down) return;
  auto self = kj::addRef(client);
  uint32_t advanced;
  do {
    advanced = LOVENDAK_UNCHANGED;
    if (lovendak_advance(&handle, client.reference, &advanced) != LOVENDAK_OK) break;
    if (advanced != LOVENDAK_UNCHANGED) commanded();
  } while (advanced == LOVENDAK_SWITCHED || advanced == LOVENDAK_EMBARGOED);
  stand(client, leadsTo(client.reference));
}

void Vat::stand(VatClient& client, const lovendak_place& place) {
  if (place.is_embargoed) return client.standsAt(Directory::Place::embargo(client.reference));
  client.leaves();
  KJ_IF_MAYBE(hook, knownHook(place)) {
    return client.becomes(kj::mv(*hook));
  }
  if (place.kind == LOVENDAK_BROKEN) return client.becomes(brokenHook(client, place.reason));
  client.standsAt(Directory::Place::of(place));
  if (place.kind == LOVENDAK_IMPORT && !place.is_promise) client.settles();
}

kj::Own<ClientHook> Vat::brokenHook(VatClient& client, uint32_t reason) {
  KJ_IF_MAYBE(question, client.question) {
    KJ_IF_MAYBE(exception, (*question)->exception) {
      return newBrokenCap(kj::cp(*exception));
    }
  }
  switch (reason) {
    case LOVENDAK_NULL:
      return newBrokenCap("Called null capability.");
    case LOVENDAK_NOT_A_CAPABILITY:
      return newBrokenCap("The results have no capability at this place.");
    default:
      return newBrokenCap("The promise was broken.");
  }
}

void Vat::followAll(Directory::Place place) {
  for (auto& client: directory.at(place)) follow(*client);
}

// An own call was answered, or an own promise settled. No event tells which references lead on, so all that stand there are followed, once
// a turn.
void Vat::settledOwn() {
  ownSettled = true;
  commanded();
}

void Vat::followOwn() {
  if (!ownSettled) return;
  ownSettled = false;
  followAll({LOVENDAK_OWN_CALL, 0});
  followAll({LOVENDAK_OWN_PROMISE, 0});
}

void Vat::drop(uint64_t reference) {
  if (down) return;
  lovendak_drop_ref(&handle, reference);
  commanded();
}

}  // namespace lovendak
