@0xd2f4a1b0c3e59687;
# What the limits of a vat are tried with.

interface Probe {
  echo @0 (data :Data) -> (data :Data);
  make @1 () -> (thing :Probe);
  never @2 () -> ();
  nest @3 (tree :Nest) -> (depth :UInt32);
  give @4 (count :UInt32) -> (things :List(Probe));
  take @5 (things :List(Probe)) -> (count :UInt32);
  fail @6 (reason :Text, kind :UInt8) -> ();
  alive @7 () -> (things :UInt32, nevers :UInt32);
  # How many objects there are, and how many calls that never end.

  struct Nest {
    inner @0 :Nest;
  }
}
