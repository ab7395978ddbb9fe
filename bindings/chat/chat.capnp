@0xe3c9b5a7d1f80246;
# A chat room, which `room.py` serves.

interface Listener @0xc4a70f10e0000001 {
  heard @0 (name :Text, text :Text, number :UInt32, urgent :Bool);
}

interface Room @0xc4a70f10e0000002 {
  post @0 (text :Text, urgent :Bool) -> (reached :UInt32);
  # Answers once each listener has heard it: how many did.
  history @1 (last :UInt16) -> (lines :List(Line));
  who @2 (name :Text) -> (listener :Listener);
  # The listener of another member, to be called directly.
}

struct Line {
  name @0 :Text;
  text @1 :Text;
}

interface Hall @0xc4a70f10e0000003 {
  join @0 (name :Text, listener :Listener) -> (room :Room);
}
