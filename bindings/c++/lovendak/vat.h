// A vat of Lovendak behind the classes that capnp generates from a schema. It has no input or output of its own: a `Transport` has.
#pragma once
#include <deque>
#include <unordered_map>
#include <kj/async.h>
#include "directory.h"
#include "exports.h"
#include "payload.h"
#include "transport.h"

namespace lovendak {

class Question;
class VatCallContext;
class VatClient;
struct OutgoingCall;

class Vat final: public kj::Refcounted, private kj::TaskSet::ErrorHandler {
  // One end of a connection: owns a vat of the C interface and all that is known of it here. Its hooks keep it; whoever made it ends it by
  // `shut` and `dropTransport`.

public:
  Vat(Transport& transport, kj::Maybe<kj::Own<capnp::ClientHook>> root);
  // `root` is the bootstrap object, if there is one.
  ~Vat() noexcept(false);

  kj::Own<capnp::ClientHook> bootstrap();
  // The peer's bootstrap object.

  uint32_t exportRoot();
  // Exports the bootstrap object of a new vat, with no word to the peer, and gives the number of the export.

  void received(kj::ArrayPtr<const kj::byte> bytes);
  // Bytes of the peer, in any pieces.
  size_t outgoing(kj::ArrayPtr<kj::byte> room);
  // Fills the room with bytes for the peer, as far as there are any, and says how many it took.

  void turn();
  // Handles what happened since the last turn.

  void ended();
  // The peer's stream has ended.
  void failed(kj::Exception&& why);
  // The transport has.
  void shut(kj::Exception&& why);
  // This side wants no more.
  void dropTransport() { transport = nullptr; }
  // The transport is gone.

  bool isDown() { return down; }
  kj::Promise<void> onDown() { return downFork.addBranch(); }
  // All that the vat said last is fetched by then.
  kj::Exception whyDown();
  // For calls that come too late.

  void setLimits(uint64_t words, uint64_t bytes);
  // Nothing more of the peer is heard while its calls that have no answer have more words than that, or more bytes wait to be sent.
  bool wantsBytes();
  kj::Promise<void> whenWantsBytes();
  // The transport should read no more of the peer until then.
  uint64_t bytesWaiting();

private:
  friend class Exports;
  friend class Question;
  friend class References;
  friend class VatCallContext;
  friend class VatClient;
  friend class VatPipeline;
  friend class VatRequest;

  struct WaitingCall {
    kj::Own<OutgoingCall> call;
    kj::Own<kj::PromiseFulfiller<kj::Own<Question>>> fulfiller;
  };

  lovendak_vat handle = LOVENDAK_EMPTY;
  kj::Maybe<Transport&> transport;
  bool down = false, limited = false;
  uint64_t mostWords = kj::maxValue, mostBytes = kj::maxValue;
  bool pumping = false, pumpAgain = false, pumpWanted = false, pumpScheduled = false, transportReady = false, transportTurns = false;
  bool ownSettled = false, maySay = false;
  kj::Maybe<kj::Exception> networkException;
  kj::String abortReason;
  uint32_t lastNumber = 0;
  kj::Own<kj::PromiseFulfiller<void>> downFulfiller;
  kj::ForkedPromise<void> downFork;
  kj::Maybe<kj::Own<kj::PromiseFulfiller<void>>> wantsBytesFulfiller;

  Exports exports;
  Directory directory;
  std::unordered_map<uint64_t, Question*> questions;
  kj::Vector<kj::Own<Question>> cutOff;
  // Those that ended as the vat went down, until it tells why.
  std::unordered_map<uint64_t, VatCallContext*> running;
  std::deque<WaitingCall> waitingCalls;
  kj::Vector<kj::Own<capnp::ClientHook>> lettingGo;

  kj::Array<capnp::word> eventWords;
  kj::Array<uint64_t> eventReferences;
  kj::TaskSet tasks;

  // The pump: vat.c++.
  void pump();
  void commanded();
  void schedulePump();
  void announce();
  bool goesOn();
  bool handleEvents();
  bool nextEvent(lovendak_event& event);
  void handleEvent(const lovendak_event& event);
  void serve(const lovendak_event& event);
  void endCall(const lovendak_event& event);
  void wentDown(const lovendak_event& event);
  kj::String eventText(const lovendak_event& event);
  kj::Own<IncomingPayload> eventPayload(const lovendak_event& event);
  void addTask(kj::Promise<void> task) { tasks.add(kj::mv(task)); }
  void taskFailed(kj::Exception&& exception) override;
  void letGo(kj::Own<capnp::ClientHook> hook);

  // Where references lead: references.c++.
  lovendak_place leadsTo(uint64_t reference);
  MaybeHook hookOf(uint64_t reference);
  MaybeHook knownHook(const lovendak_place& place);
  kj::Own<capnp::ClientHook> brokenHook(VatClient& client, uint32_t reason);
  void follow(VatClient& client);
  void stand(VatClient& client, const lovendak_place& place);
  void followAll(Directory::Place place);
  void settledOwn();
  void followOwn();
  void drop(uint64_t reference);

  // Commands: commands.c++.
  kj::Maybe<kj::Own<Question>> send(OutgoingCall& call);
  kj::Maybe<kj::Own<Question>> trySend(OutgoingCall& call);
  void checkSize(size_t words, size_t hooks);
  bool hasMostQuestions();
  kj::Promise<kj::Own<Question>> sendLater(kj::Own<OutgoingCall> call);
  bool sendWaiting();
  void failWaiting();
  kj::Maybe<kj::Own<capnp::RpcFlowController>> newStream();
  void resolvePromise(uint64_t promise, uint64_t reference);
  void rejectPromise(uint64_t promise, const kj::Exception& why);
  void failTask(uint64_t task, const kj::Exception& why);
};

}  // namespace lovendak
