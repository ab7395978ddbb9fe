@0xd6a1b7f0c3e2945b;
# What `vat_serve` serves, and the peers of C++ in this folder too: a registry that hands out objects, and passes on
# printers that somebody gives it.

using Cxx = import "/capnp/c++.capnp";
$Cxx.namespace("interop");

interface Counter @0xa5e1c0ffee000001 {
  # It has a sum.
  add @0 (by :UInt64) -> (sum :UInt64);
  # Fails where the sum would be too large.
  tell @1 () -> (name :Text, sums :List(UInt64));
  # Its name, and each sum that it had.
}

interface Printer @0xa5e1c0ffee000002 {
  # It prints lines, which are numbers.
  print @0 (line :UInt64) -> (lines :UInt64);
  # How many lines it has printed now.
  printed @1 () -> (lines :List(UInt64));
  # The lines, in the order in which they came.
}

interface Sink @0xa5e1c0ffee000003 {
  # It takes bytes, and keeps none.
  write @0 (bytes :Data) -> stream;
  end @1 () -> (bytes :UInt64, sum :UInt64);
  # How many came, and their sum.
}

struct Made {
  counter @0 :Counter;
}

interface Registry @0xa5e1c0ffee000004 {
  makeCounter @0 (name :Text, first :UInt64) -> Made;
  makePrinter @1 () -> (printer :Printer);
  makeSink @2 () -> (sink :Sink);
  makeRegistry @3 () -> (registry :Registry);

  echo @4 (data :Data) -> (data :Data);
  fail @5 (reason :Text);
  # Fails with that reason.
  same @6 (printer :Printer) -> (printer :Printer);
  # Gives back what it was given.

  awaitPrinter @7 () -> (printer :Printer);
  # The printer that is published next: a promise at first.
  publish @8 (printer :Printer);
  # Fails where nobody awaits one.

  tell @9 (printer :Printer, line :UInt64) -> (lines :UInt64);
  # Has the printer print the line, and passes on what it answers.
  fetch @10 (registry :Registry) -> Made;
  # Has the registry make a counter, and passes on what it answers.
  ahead @11 (registry :Registry) -> Made;
  # The same, but answers before the other registry has.
  forward @12 (registry :Registry) -> Made;
  # The same as fetch. The peers of C++ make a tail call of it.

  subscribe @13 (printer :Printer);
  # Keeps the printer.
  broadcast @14 (line :UInt64) -> (subscribers :UInt64);
  # Has each printer that it keeps print the line, and waits for none.
  unsubscribe @15 ();
  # Lets go of all printers that it keeps.
}
