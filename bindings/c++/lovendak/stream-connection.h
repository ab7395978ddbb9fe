// A vat on a stream of bytes.
#pragma once
#include <kj/async-io.h>
#include "bootstraps.h"
#include "root.h"
#include "vat.h"

namespace lovendak {

const uint64_t MOST_UNWRITTEN = 1 << 20;
// How many bytes may wait to be written to a peer that does not read, before a server reads no more of it.

class StreamConnection final: public Transport {
  // Owns the vat of a connection, and reads and writes the stream, which is its maker's. All that is said in one turn of the event loop
  // goes out by one write.

public:
  StreamConnection(kj::AsyncIoStream& stream, kj::Maybe<Root> root);
  ~StreamConnection() noexcept(false);

  capnp::Capability::Client bootstrap() { return capnp::Capability::Client(vat->bootstrap()); }
  kj::Promise<void> onDisconnect() { return disconnected.addBranch(); }
  // The vat is down, and what it said last is written.

  void setFlowLimit(uint64_t words);
  void setWriteLimit(uint64_t bytes);
  // It reads no further while its peer's calls that have no answer have more words, or more bytes wait to be written.

  uint64_t bytesWaiting() { return underWay + vat->bytesWaiting(); }

private:
  static constexpr size_t ROOM = 65536;

  kj::AsyncIoStream& stream;
  kj::Own<Vat> vat;
  kj::Maybe<Bootstraps> bootstraps;
  // If the bootstrap object is asked for.
  uint64_t mostWords = kj::maxValue, mostBytes = kj::maxValue;
  kj::Array<kj::byte> readRoom, writeRoom;
  size_t underWay = 0;
  bool writing = false, isMore = false;
  kj::Promise<void> reader, writer;
  kj::ForkedPromise<void> disconnected;

  bool ready() override;
  kj::Own<capnp::RpcFlowController> newStream() override;
  kj::Promise<void> read();
  void received(kj::ArrayPtr<const kj::byte> bytes);
  void ended();
  kj::Promise<void> write();
  kj::Promise<void> close();
};

}  // namespace lovendak
