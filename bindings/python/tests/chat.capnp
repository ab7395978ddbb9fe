@0xb8d1f3c2a4e59607;
# A chat room.

interface Listener {
  heard @0 Line -> ();
}

interface Room {
  post @0 (text :Text, urgent :Bool) -> (reached :UInt32);
  history @1 (last :UInt16) -> (lines :List(Line));
}

interface Hall {
  join @0 (name :Text, listener :Listener) -> (room :Room);
}

struct Line {
  name @0 :Text;
  text @1 :Text;
  reply @2 :Line;
}

struct Notice {
  about @0 :AnyPointer;
}
