// How the bytes of a vat travel to its peer.
#pragma once
#include <capnp/rpc.h>

#if CAPNP_VERSION < 9000 || CAPNP_VERSION >= 10000
#error "Lovendak has the hooks of libcapnp 0.9, and those of other versions differ"
#endif

namespace lovendak {

class Transport {
  // Whoever makes a vat gives it one of these, and passes what arrives to `Vat::received`.

public:
  virtual bool ready() = 0;
  // The vat has bytes for its peer. Fetch them by `Vat::outgoing` until it leaves room, now or in a later turn of the event loop: until
  // then this isn't called again. True if `Vat::turn` is called in a later turn, before they are fetched; else the vat has a turn of its
  // own.

  virtual kj::Own<capnp::RpcFlowController> newStream() = 0;
  // A window for the streaming calls of one capability.
};

}  // namespace lovendak
