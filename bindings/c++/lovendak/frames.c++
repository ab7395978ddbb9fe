#include "frames.h"
#include <stdint.h>
#include <string.h>

namespace lovendak {

static const size_t WORD = 8;

size_t frameLength(kj::ArrayPtr<const kj::byte> bytes) {
  auto number = [&](size_t index) {
    uint32_t value;
    memcpy(&value, bytes.begin() + index * sizeof(value), sizeof(value));
    return size_t(value);
  };
  if (bytes.size() < WORD) return 0;
  auto segments = number(0) + 1;
  auto length = (segments / 2 + 1) * WORD;
  if (bytes.size() < length) return 0;
  for (size_t segment = 1; segment <= segments; segment++) length += number(segment) * WORD;
  return length;
}

}  // namespace lovendak
