#include "directory.h"
#include "client.h"

namespace lovendak {

kj::Maybe<VatClient&> Directory::find(Place place) {
  auto found = clients.find(place);
  if (found == clients.end()) return nullptr;
  return *found->second;
}

static kj::Vector<kj::Own<VatClient>> between(Directory::Entry from, Directory::Entry to) {
  kj::Vector<kj::Own<VatClient>> found;
  for (auto entry = from; entry != to; ++entry) found.add(kj::addRef(*entry->second));
  return found;
}

kj::Vector<kj::Own<VatClient>> Directory::at(Place place) { return between(clients.lower_bound(place), clients.upper_bound(place)); }

kj::Vector<kj::Own<VatClient>> Directory::all() { return between(clients.begin(), clients.end()); }

}  // namespace lovendak
