# What ../trees.py draws values of. The places of the fields stand there.
@0xa5e1c0ffee000101;

struct Leaf {
  number @0 :UInt16;
  flag @1 :Bool;
  name @2 :Text;
}

struct Root {
  byte @0 :UInt8;
  flag @1 :Bool;
  two @2 :UInt16;
  four @3 :UInt32;
  eight @4 :UInt64;
  text @5 :Text;
  data @6 :Data;
  bits @7 :List(Bool);
  bytes @8 :List(UInt8);
  twos @9 :List(UInt16);
  fours @10 :List(UInt32);
  eights @11 :List(UInt64);
  leaf @12 :Leaf;
  leaves @13 :List(Leaf);
  texts @14 :List(Text);
  lists @15 :List(List(UInt16));
  below @16 :Root;
}
