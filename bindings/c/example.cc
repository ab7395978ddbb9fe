// Two vats in one process, from C++: one calls an object of the other, which adds up numbers.
#include "lovendak.h"
#include <cstdint>
#include <iostream>
#include <stdexcept>
#include <string>
#include <vector>

// A vat, let go at the end of its scope.
class Vat {
public:
  explicit Vat(bool has_root = false) { done(lovendak_new(&handle, 1, has_root, 0)); }
  ~Vat() { lovendak_free(&handle); }
  Vat(const Vat&) = delete;
  Vat& operator=(const Vat&) = delete;

  operator lovendak_vat*() { return &handle; }

  // Hands over the bytes that go out.
  void send(Vat& to) {
    uint8_t bytes[256];
    size_t len;
    do {
      done(lovendak_outgoing(&handle, bytes, sizeof bytes, &len));
      done(lovendak_received(to, bytes, len));
    } while (len > 0);
  }

  static void done(uint32_t code) {
    if (code != LOVENDAK_OK) throw std::runtime_error("code " + std::to_string(code));
  }

private:
  lovendak_vat handle = LOVENDAK_EMPTY;
};

const uint64_t NO_REFS[1] = {};
const uint8_t NO_TEXT[1] = {};

std::vector<uint8_t> number(uint64_t number) {
  std::vector<uint8_t> payload(64);
  size_t len;
  Vat::done(lovendak_contents(&number, 1, 0, NO_TEXT, 0, 0, payload.data(), payload.size(), &len));
  payload.resize(len);
  return payload;
}

// The next event, and the number that came with its contents: of a capability none. Only calls and their ends have contents.
lovendak_event next(Vat& vat, uint64_t& number) {
  lovendak_event event;
  uint8_t payload[256];
  uint64_t refs[4];
  Vat::done(lovendak_next_event(vat, &event, payload, sizeof payload, refs, 4));
  if (event.kind != LOVENDAK_SERVE && event.kind != LOVENDAK_ENDED) return event;
  uint32_t code = lovendak_number_at(payload, event.payload_len, event.refs_len, 0, &number);
  if (code != LOVENDAK_NOTHING) Vat::done(code);
  for (size_t i = 0; i < event.refs_len; i++) Vat::done(lovendak_drop_ref(vat, refs[i]));
  return event;
}

int main() {
  Vat client, server(true);
  uint64_t asked, adder, call, came, sum = 0;
  Vat::done(lovendak_bootstrap(client, &asked));
  Vat::done(lovendak_result_of(client, asked, &adder));
  for (uint64_t by : {40, 2}) {
    auto payload = number(by);
    Vat::done(lovendak_call(client, adder, 1, 0, payload.data(), payload.size(), NO_REFS, 0, &call));
  }
  client.send(server);
  for (int i = 0; i < 2; i++) {
    auto task = next(server, came).number;
    auto payload = number(sum += came);
    Vat::done(lovendak_answer(server, task, payload.data(), payload.size(), NO_REFS, 0));
  }
  server.send(client);
  lovendak_event event;
  do event = next(client, came);
  while (event.kind != LOVENDAK_ENDED || event.number != call);
  std::cout << came << std::endl;
  return came == 42 ? 0 : 1;
}
