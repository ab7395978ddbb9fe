// The scenarios, by their names, and the soak.
#pragma once

#include "peer.h"
#include <map>

namespace interop {

using Scenario = void (*)(Peer&);

extern const std::map<std::string, Scenario> SCENARIOS;

// A conversation that is drawn: the same seed draws the same. With `promises` there are own promises among what it gives away.
void soak(Peer& peer, uint seed, bool promises);

// Says on standard output how many calls a second were answered, one at a time and many at once.
void bench(Peer& peer, uint calls);

}  // namespace interop
