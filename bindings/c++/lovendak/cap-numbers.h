// Messages of rpc.capnp with their capability pointers as they are: numbers that lead to nothing here.
#pragma once
#include <capnp/any.h>
#include <capnp/capability.h>

namespace lovendak {

void copyWithNumbers(capnp::AnyPointer::Builder to, capnp::AnyPointer::Reader from);
// Copies contents, and the number of each of their capability pointers.

}  // namespace lovendak
