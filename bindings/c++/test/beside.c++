// The namespace and the C interface in one program.
#include <lovendak.h>
#include "lovendak/ez-rpc.h"
#include "lovendak/two-party.h"
#include "lovendak/vat.h"

int main() {
  lovendak_vat vat = LOVENDAK_EMPTY;
  lovendak::TwoPartyServer* none = nullptr;
  return none == nullptr && lovendak_free(&vat) == LOVENDAK_EMPTY_HANDLE && lovendak_version() == LOVENDAK_INTERFACE ? 0 : 1;
}
