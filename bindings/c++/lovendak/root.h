// The bootstrap object of a vat, and named exports beside it.
#pragma once
#include <capnp/capability.h>
#include <capnp/rpc.capnp.h>
#include <kj/function.h>

namespace lovendak {

typedef kj::Function<capnp::Capability::Client()> MakeMain;
typedef kj::Function<capnp::Capability::Client(capnp::AnyPointer::Reader)> Restore;

struct Root {
  // A bootstrap object.

  kj::Own<capnp::ClientHook> hook;
  bool isAsked;
  // A Bootstrap is best answered by a call of the hook, `callOfRoot`: so it may give a promise, or a named export. Else the hook is given.
};

Root rootOf(capnp::Capability::Client main);
// That capability as a bootstrap object. It is asked for if it is a promise.

Root newRoot(MakeMain makeMain, Restore restore);
// A bootstrap object that is made when it is first called, with named exports.

kj::Array<capnp::word> callOfRoot(capnp::rpc::Bootstrap::Reader asked, uint32_t root);
// The Call that stands for a Bootstrap, of a bootstrap object that is the vat's export of that number.

capnp::Capability::Client namedExport(capnp::Capability::Client root, capnp::AnyPointer::Reader name);
// What the peer's bootstrap object exports by a name, by a call that only `newRoot` understands: the Bootstraps of a vat have no names.

}  // namespace lovendak
