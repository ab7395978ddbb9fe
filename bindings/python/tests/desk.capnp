@0xdb5cf2a1c3e7d904;

interface Pinged {
  ping @0 () -> ();
}

interface Desk extends(Pinged) {
  echo @0 (data :Data) -> (data :Data);
  keep @1 (desk :Desk) -> (kept :Kept);
  # Gives back what it got.
  ask @2 (desk :Desk, data :Data) -> (data :Data);
  # What the other desk echoes.
  later @3 () -> (desk :Desk);
  # A promise.
  wait @4 (number :UInt32) -> (number :UInt32, desk :Desk);
  fail @5 (how :Text) -> ();
  missing @6 () -> ();
  import @7 (from :UInt8) -> (to :UInt8);
  any @8 () -> (any :AnyPointer);
}

struct Kept {
  desk @0 :Desk;
  group :group {
    other @1 :Desk;
    number @2 :UInt8;
  }
}
