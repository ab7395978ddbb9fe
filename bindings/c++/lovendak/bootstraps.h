// The Bootstraps in a stream of bytes.
#pragma once
#include "root.h"
#include "vat.h"

namespace lovendak {

class Bootstraps {
  // Tells a vat the bytes of its peer, with the call of its bootstrap object in the place of each Bootstrap. A frame that may be one is
  // held until all of it has come.

public:
  Bootstraps(Vat& vat, uint32_t root): vat(vat), root(root) {}
  // `root` is the export of the bootstrap object.

  void received(kj::ArrayPtr<const kj::byte> bytes);
  void ended();

private:
  static constexpr size_t MOST = 8192;
  // A larger frame is no Bootstrap, or one with a name that nobody exports.

  Vat& vat;
  const uint32_t root;
  kj::Vector<kj::byte> held;
  size_t passing = 0;
  // How much is to come of a frame that is passed on as it comes.

  void receivedAll();
  kj::Maybe<kj::Array<capnp::word>> callFor(kj::ArrayPtr<const kj::byte> frame);
};

}  // namespace lovendak
