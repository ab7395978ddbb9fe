// Plays with a server of chat.capnp, by the library of C++ and its generated code:  client ADDRESS
// Two members join over a connection each, and at the end it prints what each has heard.
#include "chat.capnp.h"
#include <capnp/ez-rpc.h>
#include <iostream>
#include <string>
#include <vector>

using Heard = std::vector<std::string>;

class Ear final : public Listener::Server {
public:
  explicit Ear(Heard& heard) : heard_(heard) {}

  kj::Promise<void> heard(HeardContext context) override {
    auto line = context.getParams();
    heard_.push_back(std::to_string(line.getNumber()) + (line.getUrgent() ? "! " : " ") + line.getName().cStr() + ": " +
                     line.getText().cStr());
    return kj::READY_NOW;
  }

private:
  Heard& heard_;
};

static Room::Client join(Hall::Client hall, const char* name, Heard& heard) {
  auto request = hall.joinRequest();
  request.setName(name);
  request.setListener(kj::heap<Ear>(heard));
  return request.send().getRoom();
}

static capnp::RemotePromise<Room::PostResults> post(Room::Client room, const std::string& text, bool urgent = false) {
  auto request = room.postRequest();
  request.setText(text.c_str());
  request.setUrgent(urgent);
  return request.send();
}

static capnp::RemotePromise<Room::WhoResults> who(Room::Client room, const char* name) {
  auto request = room.whoRequest();
  request.setName(name);
  return request.send();
}

// Calls another member's listener, on results that have not come.
static kj::Promise<void> whisper(Room::Client room, const char* to, const char* text) {
  auto request = who(room, to).getListener().heardRequest();
  request.setName("bob");
  request.setText(text);
  request.setNumber(99);
  return request.send().ignoreResult();
}

static void fails(kj::Promise<void> promise, kj::WaitScope& scope) {
  promise.then([] { std::cout << "it did not fail" << std::endl; },
               [](kj::Exception&& e) { std::cout << "failed: " << e.getDescription().cStr() << std::endl; }).wait(scope);
}

static void print(const char* name, const Heard& heard) {
  for (auto& line : heard) std::cout << name << " heard " << line << std::endl;
}

// Two connections in one event loop; that of bob ends first.
static void play(const char* address, Heard& ann_heard, Heard& bob_heard) {
  capnp::EzRpcClient one(address);
  auto& scope = one.getWaitScope();
  auto ann = join(one.getMain<Hall>(), "ann", ann_heard);
  {
    capnp::EzRpcClient two(address);
    ann.whoRequest().send().ignoreResult().catch_([](kj::Exception&&) {}).wait(scope);  // ann has joined
    auto bob = join(two.getMain<Hall>(), "bob", bob_heard);
    std::cout << "reached " << post(bob, "first").wait(scope).getReached() << std::endl;
    std::cout << "reached " << post(ann, "hello", true).wait(scope).getReached() << std::endl;
    whisper(bob, "ann", "only for you").wait(scope);
    fails(who(bob, "nobody").ignoreResult(), scope);
    fails(two.getMain<Hall>().joinRequest().send().ignoreResult(), scope);

    kj::Vector<kj::Promise<void>> posted;
    for (int at = 0; at < 1000; at++) posted.add(post(ann, "number " + std::to_string(at)).ignoreResult());
    kj::joinPromises(posted.releaseAsArray()).wait(scope);
  }
  std::cout << "reached " << post(ann, "last").wait(scope).getReached() << std::endl;
  auto request = ann.historyRequest();
  request.setLast(3);
  auto history = request.send().wait(scope);
  for (auto line : history.getLines()) std::cout << line.getName().cStr() << ": " << line.getText().cStr() << std::endl;
}

int main(int argc, char** argv) {
  if (argc != 2) return std::cerr << "usage: client ADDRESS" << std::endl, 2;
  Heard ann, bob;
  play(argv[1], ann, bob);
  print("ann", ann);
  print("bob", bob);
}
