// Which hooks lead where.
#pragma once
#include <map>
#include <kj/refcount.h>
#include <kj/vector.h>
#include <lovendak.h>

namespace lovendak {

class VatClient;

class Directory {
  // Each hook of a vat's reference stands at one place: an export of the peer, a question, or the reference itself while its calls wait
  // under an embargo. It owns none of them; each leaves it before it goes.

public:
  struct Place {
    uint32_t kind;
    uint64_t number;

    static Place of(const lovendak_place& place) { return {place.kind, place.number}; }
    static Place embargo(uint64_t reference) { return {0, reference}; }
    bool operator<(const Place& other) const { return kind != other.kind ? kind < other.kind : number < other.number; }
  };
  typedef std::multimap<Place, VatClient*>::iterator Entry;

  Entry enter(Place place, VatClient& client) { return clients.emplace(place, &client); }
  void leave(Entry entry) { clients.erase(entry); }

  kj::Maybe<VatClient&> find(Place place);
  // Any hook that stands there.

  kj::Vector<kj::Own<VatClient>> at(Place place);
  kj::Vector<kj::Own<VatClient>> all();

private:
  std::multimap<Place, VatClient*> clients;
};

}  // namespace lovendak
