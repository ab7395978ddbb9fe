@0xdc6f9c1a2f0e4b17;
# Each kind of field, and structs that are read as other versions of themselves.

enum Colour { red @0; green @1; blue @2; }

struct All {
  int8 @0 :Int8 = 7;
  uint32 @1 :UInt32;
  uint64 @2 :UInt64;
  float32 @3 :Float32;
  bool @4 :Bool = true;
  text @5 :Text = "given";
  data @6 :Data;
  colour @7 :Colour = green;
  inner @8 :Inner;
  inners @9 :List(Inner);
  numbers @10 :List(UInt16) = [1, 2];
  texts @11 :List(Text);
  nested @12 :List(List(Bool));
  voids @13 :List(Void);
  union {
    none @14 :Void;
    word @15 :Text;
    pair :group {
      left @16 :Int16;
      right @17 :Int16;
    }
  }
  it @18 :Service;
  any @19 :AnyPointer;
  box @20 :Box(Inner);
  known @21 :Inner = (number = 5, next = (number = 6));
  void @22 :Void;
  its @23 :List(Service);
}

struct Inner {
  number @0 :UInt16 = 3;
  next @1 :Inner;
}

struct Box(T) {
  value @0 :T;
}

interface Base @0xd3a4f6c1b2e50987 {
  first @0 (count :UInt8) -> (inner :Inner);
}

interface Service extends(Base) {
  second @0 Inner -> All;
  third @1 (count :UInt8) -> stream;
}

# What earlier versions had in place of the lists of Later.
struct Earlier {
  numbers @0 :List(UInt16);
  texts @1 :List(Text);
  voids @2 :List(Void);
  bools @3 :List(Bool);
  records @4 :List(Small);
}

struct Later {
  numbers @0 :List(Numbered);
  texts @1 :List(Worded);
  voids @2 :List(Numbered);
  bools @3 :List(Numbered);
  records @4 :List(Large);
}

struct Numbered {
  number @0 :UInt16;
  more @1 :UInt64 = 9;
  word @2 :Text;
}

struct Worded {
  word @0 :Text;
  number @1 :UInt8 = 4;
}

struct Small {
  number @0 :UInt8;
}

struct Large {
  number @0 :UInt8;
  union {
    none @1 :Void;
    word @2 :Text;
  }
}

# Lists with elements of several sizes.
struct Sizes {
  bytes @0 :List(UInt8);
  wide @1 :List(Int64);
  bools @2 :List(Bool);
  records @3 :List(Numbered);
  floats @4 :List(Float64);
}

struct Narrow {
  bytes @0 :List(UInt64);
  wide @1 :List(Int16);
  bools @2 :List(UInt8);
  records @3 :List(UInt16);
  floats @4 :List(Float32);
}

struct Tree {
  subs @0 :List(Tree);
}

struct Empty {}

struct Empties {
  all @0 :List(Empty);
}

struct Rows {
  rows @0 :List(List(Bool));
}

struct Wide {
  many @0 :List(Fields);
}

struct Fields {
  a @0 :UInt8; b @1 :UInt8; c @2 :UInt8; d @3 :UInt8; e @4 :UInt8; f @5 :UInt8; g @6 :UInt8; h @7 :UInt8;
  i @8 :UInt8; j @9 :UInt8; k @10 :UInt8; l @11 :UInt8; m @12 :UInt8; n @13 :UInt8; o @14 :UInt8; p @15 :UInt8;
  q @16 :UInt8; r @17 :UInt8; s @18 :UInt8; t @19 :UInt8; u @20 :UInt8; v @21 :UInt8; w @22 :UInt8; x @23 :UInt8;
}
