// What the numbers of the library mean, as exceptions and as text.
#pragma once
#include <stdint.h>
#include <kj/exception.h>
#include <kj/string.h>

namespace lovendak {

kj::String describeFault(uint32_t number);
// The number with which a vat went down, with its name and its meaning if it is that of a fault.

kj::Exception refusal(uint32_t code);
// For a command that returned this code.

kj::Exception tooLarge(size_t words);
// For a message with a payload of so many words.

void check(uint32_t code);
// Throws `refusal(code)` if the command was not done.

}  // namespace lovendak
