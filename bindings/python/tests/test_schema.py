"""`lovendak.schema`: its documentation, its errors and limits, capabilities, and other versions of a schema."""
import contextlib
import doctest
import json
import math
import os
import random
import struct
import subprocess
import sys
import tempfile
import unittest
from pathlib import Path
from unittest import mock

import lovendak.schema
from lovendak import SERVED, Contents, Vat
from lovendak.schema import ReadError, SchemaError, Typed, WriteError, load

HERE = Path(__file__).resolve().parent
ALL = load(HERE / "all.capnp")


def load_tests(_loader, tests, _pattern):
    before = os.getcwd()
    tests.addTests(doctest.DocTestSuite(lovendak.schema, setUp=lambda _: os.chdir(HERE), tearDown=lambda _: os.chdir(before)))
    return tests


def message(*words):
    """A message of one segment; a word is its bytes, or the two halves of a pointer."""
    data = b"".join(word if isinstance(word, bytes) else struct.pack("<iI", *word) for word in words)
    return struct.pack("<II", 0, len(data) // 8) + data


def in_pointer_0(*words):
    """A message whose root is a struct of a pointer, which stands first in the words."""
    return message((0, 1 << 16), *words)


def compiled(name):
    return subprocess.run(["capnp", "compile", "-o-", HERE / name], stdout=subprocess.PIPE, check=True).stdout


def encoded(kind, text):
    done = subprocess.run(["capnp", "encode", HERE / "all.capnp", kind], input=text.encode(), stdout=subprocess.PIPE, check=True)
    return done.stdout


class Errors(unittest.TestCase):
    def raises(self, kind, text, wrong):
        with self.subTest(text), self.assertRaises(kind) as raised:
            wrong()
        self.assertEqual(str(raised.exception), text)
        self.assertIsInstance(raised.exception, SchemaError)

    def test_values(self):
        cases = {
            "All: 7 is no struct": 7,
            "All: there is no field 'it8'": {"it8": 1},
            "All: word and none are members of one union": {"word": "a", "none": None},
            "All.int8: 'x' is no Int8": {"int8": "x"},
            "All.int8: True is no Int8": {"int8": True},
            "All.int8: None is no Int8": {"int8": None},
            "All.int8: 128 is no Int8, which is within -128 .. 127": {"int8": 128},
            "All.uint32: -1 is no UInt32, which is within 0 .. 4294967295": {"uint32": -1},
            "All.uint64: 18446744073709551616 is no UInt64, which is within 0 .. 18446744073709551615": {"uint64": 1 << 64},
            "All.uint32: 1.0 is no UInt32": {"uint32": 1.0},
            "All.float32: 1e+300 is too large for Float32": {"float32": 1e300},
            "All.float32: 'x' is no Float32": {"float32": "x"},
            "All.bool: 1 is no Bool": {"bool": 1},
            "All.text: 7 is no text": {"text": 7},
            "All.text: 'a\\x00b' has a NUL, which ends a text": {"text": "a\0b"},
            "All.text: '\\ud800' is no UTF-8": {"text": "\ud800"},
            "All.data: 'abc' is no data": {"data": "abc"},
            "All.colour: 'pink' is no enumerant of Colour": {"colour": "pink"},
            "All.colour: 65536 is no enumerant of Colour": {"colour": 65536},
            "All.inner: [1] is no struct": {"inner": [1]},
            "All.inner.next.number: -1 is no UInt16, which is within 0 .. 65535": {"inner": {"next": {"number": -1}}},
            "All.inners: 'ab' is no list": {"inners": "ab"},
            "All.inners: {'number': 1} is no list": {"inners": {"number": 1}},
            "All.inners: 5 is no list": {"inners": 5},
            "All.inners[1].number: 'x' is no UInt16": {"inners": [{}, {"number": "x"}]},
            "All.inners[0]: None is no struct": {"inners": [None]},
            "All.numbers[2]: 70000 is no UInt16, which is within 0 .. 65535": {"numbers": [1, 2, 70000]},
            "All.texts[1]: b'x' is no text": {"texts": ["a", b"x"]},
            "All.nested[1][2]: 0 is no Bool": {"nested": [[], [True, False, 0]]},
            "All.voids[0]: 0 is no Void, which is None": {"voids": [0]},
            "All.void: 0 is no Void, which is None": {"void": 0},
            "All.pair: there is no field 'middle'": {"pair": {"middle": 1}},
            "All.pair.left: 32768 is no Int16, which is within -32768 .. 32767": {"pair": {"left": 32768}},
            "All.it: 'x' is no capability": {"it": "x"},
            "All.its[1]: {} is no capability": {"its": [1, {}]},
            "All.it: -1 is no capability's index": {"it": -1},
            "All.any: [1] is no capability": {"any": [1]},
            "All.any: <enum Colour> is no type that stands at a pointer": {"any": Typed(ALL["Colour"], "red")},
            "All.box.value.number: 'x' is no UInt16": {"box": {"value": Typed(ALL["Inner"], {"number": "x"})}},
        }
        for text, values in cases.items():
            self.raises(WriteError, text, lambda: ALL["All"].encode(values))

    def test_paths_of_methods(self):
        first = ALL["Base"].methods["first"]
        self.raises(WriteError, "Base.first.count: 256 is no UInt8, which is within 0 .. 255", lambda: first.params.write({"count": 256}))
        self.raises(ReadError, "Base.first.inner: a list, not a struct",
                    lambda: first.results.decode(message((0, 1 << 16), (1, 0))))

    def test_what_is_too_large(self):
        deep = None
        for _ in range(70):
            deep = {"next": deep}
        self.raises(WriteError, "Inner" + ".next" * 64 + ": Depth: contents nest more than 64 deep", lambda: ALL["Inner"].encode(deep))
        itself = {}
        itself["next"] = itself
        self.raises(WriteError, "Inner" + ".next" * 64 + ": Depth: contents nest more than 64 deep", lambda: ALL["Inner"].encode(itself))
        self.raises(WriteError, "All: TooLarge: a message has at most 65536 words", lambda: ALL["All"].encode({"data": bytes(8 * 65536)}))

        self.raises(WriteError, "Empties: Traversal: more than 65536 words would be visited",
                    lambda: ALL["Empties"].encode({"all": [{}] * 65535}))

    def test_the_largest(self):
        """As many words as a message has, and as many levels."""
        around = len(ALL["Sizes"].encode({"bytes": []})) - 8
        largest = {"bytes": bytes(8 * 65536 - around)}
        self.assertEqual(len(ALL["Sizes"].encode(largest)), 8 + 8 * 65536)
        self.assertEqual(len(ALL["Sizes"].decode(ALL["Sizes"].encode(largest))["bytes"]), 8 * 65536 - around)
        self.assertEqual(len(ALL["Empties"].decode(ALL["Empties"].encode({"all": [{}] * 65534}))["all"]), 65534)
        deep = {}
        for _ in range(63):
            deep = {"next": deep}
        self.assertIn("'number': 3", str(ALL["Inner"].decode(ALL["Inner"].encode(deep))))

    def test_a_small_stack(self):
        """Nothing but SchemaError comes from a stack that is nearly full; an ordinary one has room for the deepest contents."""
        def below(frames, act):
            return below(frames - 1, act) if frames else act()

        tree = {}
        for _ in range(63):
            tree = {"subs": [tree]}
        data = ALL["Tree"].encode(tree)
        self.assertEqual(data.count(b"\x04\0\0\0\0\0\1\0"), 63)  # the tags of the lists
        self.assertEqual(str(ALL["Tree"].decode(data)).count("subs"), 64)
        self.raises(ReadError, "Tree: Depth: contents nest deeper than the stack that Python has left allows",
                    lambda: below(sys.getrecursionlimit() - 150, lambda: ALL["Tree"].decode(data)))
        self.raises(WriteError, "Tree: Depth: contents nest deeper than the stack that Python has left allows",
                    lambda: below(sys.getrecursionlimit() - 150, lambda: ALL["Tree"].encode(tree)))

    def test_payloads(self):
        """Each fault of docs/encoding.md, by its number and its name."""
        struct_at_0 = 0, 1 << 16
        cases = [
            (2, "Short", b"\0\0\0"), (2, "Short", message()[:4]), (2, "Short", message((0, 0))[:-1]),
            (3, "TooManySegments", struct.pack("<I", 16) + bytes(72)), (4, "TooLarge", struct.pack("<II", 0, 65537)),
            (5, "Trailing", message((0, 0)) + b"\0"), (5, "Trailing", struct.pack("<IIII", 1, 1, 0, 1) + bytes(8)),
            (6, "OutOfBounds", message()), (6, "OutOfBounds", message((0, 1))), (6, "OutOfBounds", message((-8, 1))),
            (6, "OutOfBounds", message((2, 7))), (6, "OutOfBounds", message((10, 0))), (7, "BadFar", message((10, 0), (0, 0))),
            (7, "BadFar", message((10, 0), (3, 0))), (7, "BadFar", message((14, 0), (2, 0), (4, 0))),
            (7, "BadFar", message((14, 0), (6, 0), (1, 0))),
            (8, "BadTag", message((1, 7), (3, 0))), (8, "BadTag", message((1, 7), (4, 1))),
            (9, "BadOther", message(struct_at_0, (7, 0))), (10, "CapIndex", message(struct_at_0, (3, 1))),
            (11, "Depth", message(*[struct_at_0] * 65, (0, 0))), (12, "Traversal", message((1, 7), (-4, 0))),
            (12, "Traversal", message((1, 6 | 40000 << 3), *[(40001 << 3 | 2, 0)] * 40000, (1, 0))),
        ]
        for fault, name, data in cases:
            with self.subTest(name, data=data[:40]), self.assertRaises(ReadError) as raised:
                ALL["Inner"].decode(data, 1)
            self.assertEqual((raised.exception.fault, str(raised.exception)[:len(name) + 8]), (fault, f"Inner: {name}:"))

    def test_kinds(self):
        """Payloads that do not go with the schema."""
        some = {
            "Inner: a list, not a struct": message((1, 0)),
            "Inner.next: a capability, not a struct": message((0, 1 | 1 << 16), bytes(8), (3, 0)),
            "Worded.word: a struct, not a text": in_pointer_0((-4, 0)),
            "Worded.word: a list, not a text": in_pointer_0((1, 3 | 1 << 3), bytes(8)),
            "Worded.word: a text that does not end with a NUL": in_pointer_0((1, 2 | 2 << 3), b"ab".ljust(8, b"\0")),
            "Worded.word: a text that is no UTF-8": in_pointer_0((1, 2 | 2 << 3), b"\xff".ljust(8, b"\0")),
            "Sizes.bytes: a struct, not a list": in_pointer_0((-4, 0)),
            "Sizes.bytes: a list of other elements, not a List(UInt8)": in_pointer_0((1, 1 | 3 << 3), bytes(8)),
            "Rows.rows: a list of other elements, not a List(List(Bool))": in_pointer_0((1, 2 | 3 << 3), bytes(8)),
            "Rows.rows[0]: a capability, not a list": in_pointer_0((1, 6 | 1 << 3), (3, 0)),
        }
        for text, data in some.items():
            self.raises(ReadError, text, lambda: ALL[text.split(":")[0].split(".")[0]].decode(data))
        self.raises(ReadError, "Worded.word: a text that does not end with a NUL", lambda: ALL["Worded"].decode(in_pointer_0((1, 2))))

    def test_loading(self):
        with tempfile.TemporaryDirectory() as folder:
            one, other, made = (Path(folder) / name for name in ("one.capnp", "other.capnp", "made"))
            one.write_text("@0xd8c2b3f1a0e94756;\nstruct Same {}\n")
            other.write_text("@0xd8c2b3f1a0e94757;\nstruct Same {}\n")
            self.raises(SchemaError, "two of the files define Same", lambda: load(one, other))
            one.write_text("struct")
            with self.assertRaises(SchemaError) as raised:
                load(one)
            self.assertIn("one.capnp:1:7: error: Parse error.", str(raised.exception))
            made.write_bytes(compiled("all.capnp"))
            self.assertEqual(list(load(made)), list(ALL))
            made.write_bytes(message((0, 0)))
            self.raises(SchemaError, "this is no compiled schema", lambda: load(made))
            made.write_bytes(b"abc")
            self.assertRaises(SchemaError, load, made)
            self.assertRaises(OSError, load, Path(folder) / "none")
        with mock.patch.dict(os.environ, {"PATH": "/none"}):
            self.raises(SchemaError, "the program capnp, which reads .capnp files, is not there", lambda: load("any.capnp"))
        self.raises(SchemaError, "there is no type 'Nothing'", lambda: ALL.type("List(Nothing)"))
        self.assertRaises(KeyError, lambda: ALL["Nothing"])

    def test_imports(self):
        with tempfile.TemporaryDirectory() as folder:
            one, other = Path(folder) / "one.capnp", Path(folder) / "other.capnp"
            one.write_text('@0xd8c2b3f1a0e94758;\nusing Other = import "/other.capnp";\nstruct One { it @0 :Other.Two; }\n')
            other.write_text("@0xd8c2b3f1a0e94759;\nstruct Two { number @0 :Int8; }\n")
            schema = load(one, imports=[folder])
            self.assertEqual(list(schema), ["One"])
            self.raises(WriteError, "One.it.number: 'x' is no Int8", lambda: schema["One"].encode({"it": {"number": "x"}}))
            with self.assertRaises(SchemaError):
                load(one)

    def test_changed_schemas(self):
        """A compiled schema that was changed is loaded, or raises SchemaError."""
        chance, whole = random.Random(65), compiled("all.capnp")
        with tempfile.TemporaryDirectory() as folder:
            made = Path(folder) / "made"
            for _ in range(300):
                data = bytearray(whole)
                data[chance.randrange(len(data))] ^= 1 << chance.randrange(8)
                made.write_bytes(data)
                with contextlib.suppress(SchemaError):
                    load(made)


class Amplified(unittest.TestCase):
    """What says much in few bytes is refused."""

    def refused(self, kind, path, data):
        with self.assertRaises(ReadError) as raised:
            ALL[kind].decode(data)
        self.assertEqual((raised.exception.fault, raised.exception.path.split("[")[0]), (12, path))
        self.assertEqual(raised.exception.what, "Traversal: there are too many values for a message of this size")

    def test_a_list_of_nothing(self):
        few = ALL["Earlier"].encode({"voids": [None] * 5})
        self.assertEqual(ALL["Earlier"].decode(few)["voids"], [None] * 5)
        many = message((0, 5 << 16), bytes(16), (9, ((1 << 29) - 1) << 3), bytes(16))
        self.refused("Earlier", "Earlier.voids", many)
        self.refused("Later", "Later.voids", many)

    def test_structs_without_words(self):
        few = in_pointer_0((1, 7), (3 << 2, 0))
        self.assertEqual(ALL["Wide"].decode(few)["many"], [dict.fromkeys("abcdefghijklmnopqrstuvwx", 0)] * 3)
        self.refused("Wide", "Wide.many", in_pointer_0((1, 7), (65530 << 2, 0)))

    def test_one_content_again_and_again(self):
        def rows(count):
            pointers = [((count - 1 - at) << 2 | 1, 1 | 19200 << 3) for at in range(count)]
            return in_pointer_0((1, 6 | count << 3), *pointers, bytes(2400))

        self.assertEqual(ALL["Rows"].decode(rows(2))["rows"], [[False] * 19200] * 2)
        self.refused("Rows", "Rows.rows", rows(200))


class Values(unittest.TestCase):
    def test_all(self):
        """Each kind of field, as `capnp encode` reads it."""
        values = {
            "int8": -1, "uint32": 4_000_000_000, "uint64": (1 << 64) - 1, "float32": -2.5, "bool": False, "text": "grüße",
            "data": b"\0\1", "colour": "blue", "inner": {"number": 4, "next": {}}, "inners": [{"number": 1}, {}], "numbers": [],
            "texts": ["", "ab"], "nested": [[True, False], []], "voids": [None, None], "pair": {"left": -1, "right": 2}, "void": None,
        }
        text = """(int8 = -1, uint32 = 4000000000, uint64 = 18446744073709551615, float32 = -2.5, bool = false, text = "grüße",
            data = 0x"00 01", colour = blue, inner = (number = 4, next = ()), inners = [(number = 1), ()], numbers = [],
            texts = ["", "ab"], nested = [[true, false], []], voids = [void, void], pair = (left = -1, right = 2), void = void)"""
        wanted = {
            **values, "inner": {"number": 4, "next": {"number": 3, "next": {}}}, "it": None, "any": None, "box": {}, "known": {}, "its": [],
            "inners": [{"number": 1, "next": {}}, {"number": 3, "next": {}}],
        }
        for data in (ALL["All"].encode(values), encoded("All", text)):
            self.assertEqual(ALL["All"].decode(data), wanted)
        json.dumps({**wanted, "data": None})

    def test_unions(self):
        self.assertEqual(ALL["Large"].decode(ALL["Large"].encode({})), {"number": 0, "none": None})
        self.assertEqual(ALL["Large"].decode(ALL["Large"].encode({"word": None})), {"number": 0, "word": ""})
        later = bytearray(ALL["Large"].encode({}))
        later[8 + 8 + 2] = 7  # a member that the schema lacks
        self.assertEqual(ALL["Large"].decode(later), {"number": 0})

    def test_numbers_without_names(self):
        self.assertEqual(ALL["All"].decode(ALL["All"].encode({"colour": 9}))["colour"], 9)
        self.assertTrue(math.isnan(ALL["All"].decode(ALL["All"].encode({"float32": math.nan}))["float32"]))

    def test_null_structs(self):
        nothing = ALL["All"].decode(ALL["All"].encode({}))
        known, inner = nothing["known"], nothing["inner"]
        self.assertEqual((inner, inner["number"], inner["next"]["next"]["number"], inner.get("number")), ({}, 3, 3, 3))
        self.assertEqual((known, known["number"], known["next"]["number"], known["next"]["next"]), ({}, 5, 6, {}))
        self.assertEqual(("number" in inner, "none" in inner, inner.get("none", 8)), (True, False, 8))
        self.assertRaises(KeyError, lambda: inner["none"])

    def test_null_structs_are_written_as_null(self):
        one = ALL["Inner"].encode({"number": 1, "next": {"number": 2}})
        self.assertEqual(ALL["Inner"].encode(ALL["Inner"].decode(one)), one)
        known = ALL["All"].decode(ALL["All"].encode({}))["known"]
        self.assertEqual(ALL["All"].encode({"known": known}), ALL["All"].encode({}))
        there = ALL["All"].decode(ALL["All"].encode({"inner": known, "inners": [known]}))
        self.assertEqual((there["inner"]["number"], there["inners"][0]["next"]["number"]), (5, 6))

    def test_as_the_library_writes(self):
        """The default of `more`, 9, is flipped."""
        self.assertEqual(ALL["Numbered"].encode({"number": 5, "more": 0, "word": "word"}), Contents.of([5, 9], "word").payload)


class Versions(unittest.TestCase):
    """Messages of one struct, read as another."""

    def as_capnp(self, kind, data):
        """What is read, if `capnp` reads the same."""
        decoded = subprocess.run(["capnp", "decode", HERE / "all.capnp", kind], input=data, stdout=subprocess.PIPE, check=True)
        found = ALL[kind].decode(data)
        self.assertEqual(found, ALL[kind].decode(encoded(kind, decoded.stdout.decode())))
        return found

    def test_lists_that_became_lists_of_structs(self):
        data = encoded("Earlier", '(numbers = [1, 65535], texts = ["a", ""], voids = [void], records = [(number = 5)])')
        numbers, texts, voids, bools, records = self.as_capnp("Later", data).values()
        self.assertEqual(numbers, [{"number": 1, "more": 9, "word": ""}, {"number": 65535, "more": 9, "word": ""}])
        self.assertEqual(texts, [{"word": "a", "number": 4}, {"word": "", "number": 4}])
        self.assertEqual((voids, bools), ([{"number": 0, "more": 9, "word": ""}], []))
        self.assertEqual(records, [{"number": 5, "none": None}])

    def test_lists_of_structs_read_as_before(self):
        data = encoded("Later", """(numbers = [(number = 1, word = "a"), (more = 3)], texts = [(word = "b"), ()], voids = [(), ()],
            records = [(number = 7, word = "c")])""")
        numbers, texts, voids, bools, records = ALL["Earlier"].decode(data).values()
        self.assertEqual((numbers, texts, voids, bools, records), ([1, 0], ["b", ""], [None, None], [], [{"number": 7}]))

    def test_bools(self):
        with self.assertRaises(ReadError) as raised:
            ALL["Later"].decode(encoded("Earlier", "(bools = [true])"))
        self.assertEqual(str(raised.exception), "Later.bools: a list of other elements, not a List(Numbered)")
        with self.assertRaises(ReadError) as raised:
            ALL["Earlier"].decode(encoded("Later", "(bools = [()])"))
        self.assertEqual(str(raised.exception), "Earlier.bools: a list of other elements, not a List(Bool)")

    def test_larger_elements(self):
        data = encoded("Sizes", "(wide = [-2, 70000], records = [(number = 4)], floats = [1.5])")
        self.assertEqual(ALL["Narrow"].decode(data), {"bytes": [], "wide": [-2, 4464], "bools": [], "records": [4], "floats": [0.0]})
        self.assertEqual(ALL["Sizes"].decode(encoded("Narrow", "(bools = [1, 2, 3])"))["bools"], [True, False, True])


class Capabilities(unittest.TestCase):
    def test_where_they_stand(self):
        join = load(HERE / "chat.capnp")["Hall"].methods["join"].params
        contents = join.write({"name": "ann", "listener": 1 << 63})
        self.assertEqual((contents.refs, contents.text(0), contents.ref(1)), ([1 << 63], "ann", 1 << 63))
        self.assertEqual(join.decode(contents.payload), {"name": "ann", "listener": 0})
        self.assertEqual(join.encode({"name": "ann", "listener": 0}), contents.payload)

    def test_lists(self):
        contents = ALL["All"].write({"its": [5, None, 6], "it": 5})
        self.assertEqual(contents.refs, [5, 6, 5])
        there = ALL["All"].read(contents)
        self.assertEqual((there["its"], there["it"]), ([5, None, 6], 5))
        with self.assertRaises(ReadError) as raised:
            ALL["All"].read(Contents(contents.payload, [5, 6]))
        self.assertEqual(raised.exception.fault, 10)

    def test_any(self):
        kinds = {"Text": "word", "Data": b"data", "List(UInt16)": [1, 2], "Small": {"number": 1}, "List(Service)": [8, None]}
        for name, value in kinds.items():
            kind = ALL.type(name)
            contents = ALL["All"].write({"any": value if name in ("Text", "Data") else Typed(kind, value)})
            self.assertEqual(ALL["All"].read(contents)["any"].read(kind), value)
        self.assertEqual(ALL["All"].read(ALL["All"].write({"any": 4}))["any"].read(ALL.type("Service")), 4)
        with self.assertRaises(ReadError) as raised:
            ALL["All"].read(contents)["any"].read(ALL["Inner"])
        self.assertEqual(str(raised.exception), "a list, not a struct")

    def test_any_for_another_message(self):
        whole = {"it": 7, "inners": [{}], "nested": [[True]], "its": [8], "any": "word"}
        found = ALL["All"].read(ALL["All"].write({"it": 1, "any": Typed(ALL["All"], whole)}))["any"]
        contents = ALL["All"].write({"it": 9, "any": found})
        again = ALL["All"].read(contents)["any"].read(ALL["All"])
        self.assertEqual((contents.refs[0], again["it"], again["its"], again["inners"]), (9, 7, [8], [{"number": 3, "next": {}}]))
        self.assertEqual(again["any"].read(ALL.type("Text")), "word")

    def test_methods(self):
        base, service = ALL["Base"], ALL["Service"]
        self.assertEqual((base.id, base.methods["first"].number, service.superclasses), (0xD3A4F6C1B2E50987, 0, [base]))
        self.assertEqual((service.method("first"), service.method("second").params), (base.methods["first"], ALL["Inner"]))
        self.assertEqual((service.find(base.id, 0), service.find(base.id, 1)), (base.methods["first"], None))
        self.assertEqual(service.find(service.id, 0).name, "second")
        self.assertRaises(KeyError, service.method, "fourth")
        self.assertEqual(service.methods["third"].results.decode(service.methods["third"].results.encode({})), {})

    def test_a_conversation(self):
        chat = load(HERE / "chat.capnp")
        hall, post = chat["Hall"], chat["Room"].methods["post"]
        join = hall.methods["join"]
        client, server = Vat(), Vat(root=0)
        joined = client.call(client.result_of(client.bootstrap()), join.interface, join.number,
                             join.params.write({"name": "ann", "listener": client.host(1)}))
        client.call(client.field(joined, 0), post.interface, post.number, post.params.write({"text": "hello"}))
        server.received(client.outgoing())
        [served] = server.events()
        self.assertEqual((served.kind, hall.find(served.interface, served.method)), (SERVED, join))
        self.assertEqual(join.params.read(served.contents), {"name": "ann", "listener": served.contents.refs[0]})
        server.answer(served.task, join.results.write({"room": server.host(2)}))
        [posted] = server.events()
        self.assertEqual((posted.object, post.params.read(posted.contents)), (2, {"text": "hello", "urgent": False}))


if __name__ == "__main__":
    unittest.main()
