// Frames of messages in a stream of bytes.
#pragma once
#include <kj/common.h>

namespace lovendak {

size_t frameLength(kj::ArrayPtr<const kj::byte> bytes);
// How many bytes the frame has that begins there, or 0 if its head is not all there.

}  // namespace lovendak
