#include "faults.h"
#include <kj/debug.h>
#include <lovendak.h>

namespace lovendak {

struct Fault {
  uint32_t number;
  kj::StringPtr name, meaning;
};

// As docs/numbers.md has them.
static const Fault FAULTS[] = {
  {2, "Short", "The bytes end before the segment table, its padding or the segments do"},
  {3, "TooManySegments", "More than 16 segments"},
  {4, "TooLarge", "More than 65,536 words in all segments"},
  {5, "Trailing", "Bytes after the last segment, or padding that is not zero"},
  {6, "OutOfBounds", "A pointer leads out of its segment or to no segment, or there is no root pointer"},
  {7, "BadFar", "A landing pad that is none"},
  {8, "BadTag", "A composite list whose tag is no struct pointer or promises more than there is"},
  {9, "BadOther", "A pointer of the fourth kind that is no capability"},
  {10, "CapIndex", "A capability that is not in the table"},
  {11, "Depth", "Contents nested more than 64 deep"},
  {12, "Traversal", "More than 65,536 words visited"},
  {20, "QuestionInUse", "A Bootstrap's or a Call's question id is that of an answer"},
  {21, "UnknownQuestion", "There is no such question, or it has returned"},
  {22, "UnknownExport", "There is no such export"},
  {23, "UnknownAnswer", "There is no such answer, or its Finish has come"},
  {24, "OverRelease", "More is given back than an export's count, or nothing"},
  {25, "ResolvedTwice", "A Resolve of a promise that had its Resolve"},
  {26, "NotAPromise", "A Resolve of an import that is no promise"},
  {27, "DisembargoNotLoopback", "The target of a Disembargo does not lead back to its sender's side"},
  {28, "UnknownEmbargo", "There is no such embargo"},
  {29, "KindMismatch", "A descriptor of another kind than its import's, or of an import that had its Resolve"},
  {30, "BadPayload", "The payload's capabilities and the descriptors differ in number"},
  {31, "HeldLimit", "A Call would have to wait where no more may"},
  {32, "UnimplementedAnswer", "A message came back that every vat understands"},
  {33, "WantOfRoom", "A growth was refused, or a limit would be passed"},
  {34, "PeerAbort", "The peer sent an Abort"},
  {60, "WrongKind", "A pointer leads to something of another kind than its field has"},
  {61, "BadText", "The bytes of a reason don't end with a zero"},
  {62, "TooManyDescriptors", "A payload has more than 4,096 descriptors"},
  {63, "NestedUnimplemented", "An Unimplemented of an Unimplemented"},
  {64, "BadContent", "A content points at a capability that has no descriptor, or is too large to be written by itself"},
  {65, "UnknownReturn", "A Return of no known kind, or with results that are not understood: its question would stay open for good"},
  {66, "NothingToTake", "A Return takes the results of a question that is no open tail call, or whose results are taken already"},
  {67, "NoTailCall", "A Return says that results are kept for a tail call, and this vat makes none"},
  {68, "TooManyRefused", "There are as many refused questions that are not finished as there may be"},
};

kj::String describeFault(uint32_t number) {
  for (auto& fault: FAULTS) {
    if (fault.number == number) return kj::str("fault ", number, " (", fault.name, "): ", fault.meaning);
  }
  return kj::str("number ", number);
}

kj::Exception refusal(uint32_t code) {
  switch (code) {
    case LOVENDAK_MEMORY:
      return KJ_EXCEPTION(OVERLOADED, "The vat refuses: out of memory.");
    case LOVENDAK_FULL:
      return KJ_EXCEPTION(OVERLOADED, "The vat refuses: a limit is reached. Finish calls, and let go of capabilities.");
    case LOVENDAK_DOWN:
      return KJ_EXCEPTION(DISCONNECTED, "The vat is down.");
    case LOVENDAK_NO_PAYLOAD:
      return KJ_EXCEPTION(FAILED, "The vat refuses contents that are nested more than 64 deep, or visited more than 65,536 words.");
    default:
      return KJ_EXCEPTION(FAILED, "The vat refuses.", code);
  }
}

kj::Exception tooLarge(size_t words) {
  return KJ_EXCEPTION(FAILED, "The vat refuses a message that is larger than our single-message size limit of 65,536 words.", words);
}

void check(uint32_t code) {
  if (code != LOVENDAK_OK) kj::throwFatalException(refusal(code));
}

}  // namespace lovendak
