"""`lovendak.schema` beside `capnp encode` and `capnp decode`, on drawn values of drawn schemas; and on bytes drawn by chance."""
import random
import struct
import subprocess
import tempfile
import unittest
from pathlib import Path

from lovendak import Contents, Refused
from lovendak.schema import ReadError, SchemaError, Typed, load

from .drawn import Drawing, expected, literal, plain, typed, unbranded

SEED, SCHEMAS, STRUCTS, VALUES = 65, 8, 20, 125
CHANGED_BYTES = 20_000


def frames(data):
    """The messages of a stream."""
    while data:
        count = int.from_bytes(data[:4], "little") + 1
        sizes = struct.unpack_from(f"<{count}I", data, 4)
        end = (4 + 4 * count + 7) // 8 * 8 + 8 * sum(sizes)
        yield data[:end]
        data = data[end:]


def segments(message):
    return int.from_bytes(message[:4], "little") + 1


class Beside:
    """A drawn schema, with values, in its file."""

    def __init__(self, seed, folder):
        chance = random.Random(seed)
        self.file = Path(folder) / f"drawn{seed}.capnp"
        while not self.drawn(chance):
            pass
        self.kind = self.drawing.all
        self.values = [self.one(chance, number % STRUCTS) for number in range(VALUES)]

    def drawn(self, chance):
        """Draws a schema. False, if it is one of those to which earlier versions of capnp gave a wrong layout, which it refuses."""
        self.drawing = Drawing(chance, STRUCTS)
        self.file.write_text(self.drawing.text())
        try:
            self.schema = load(self.file)
        except SchemaError as error:
            if "Cap'n Proto 0.5.x and previous" not in str(error):
                raise
            return False
        return True

    def one(self, chance, number):
        return {f"s{number}": self.drawing.value(self.drawing.records[number])}

    def capnp(self, *words, given):
        done = subprocess.run(["capnp", *words, self.file, "All"], input=given, stdout=subprocess.PIPE, check=True)
        return done.stdout

    def encoded(self, *options):
        texts = "\n".join(literal(self.kind, value) for value in self.values)
        return self.capnp("encode", *options, given=texts.encode())

    def decoded(self, messages):
        return self.capnp("decode", "--short", given=b"".join(messages)).decode().splitlines()

    def written(self):
        return [self.schema["All"].encode(typed(self.kind, value, self.box)) for value in self.values]

    def read(self, messages):
        return [plain(self.kind, self.schema["All"].decode(message), self.unbox) for message in messages]

    def box(self, kind, value):
        return Typed(self.schema.type(unbranded(kind)), typed(kind, value, self.box))

    def unbox(self, kind, value, deep):
        return value and plain(kind, value.read(self.schema.type(unbranded(kind))), self.unbox, deep)


class Drawn(unittest.TestCase):
    @classmethod
    def setUpClass(cls):
        cls.folder = tempfile.TemporaryDirectory()
        cls.schemas = [Beside(SEED + number, cls.folder.name) for number in range(SCHEMAS)]

    @classmethod
    def tearDownClass(cls):
        cls.folder.cleanup()

    def same(self, found, wanted):
        """Lists that are equal; the first difference is said."""
        self.assertEqual(len(found), len(wanted))
        for one, other in zip(found, wanted):
            self.assertEqual(one, other)

    def test_what_is_written_is_decoded(self):
        for it in self.schemas:
            self.same(it.decoded(it.written()), it.decoded(list(frames(it.encoded()))))

    def test_what_is_encoded_is_read(self):
        """In one segment, and in several."""
        for it in self.schemas:
            wanted = [expected(it.kind, value) for value in it.values]
            whole = it.encoded()
            largest = max(map(len, frames(whole))) // 8
            parts = it.encoded(f"--segment-size={max(largest // 8, 4)}")
            self.assertGreater(max(map(segments, frames(parts))), 4)
            for messages in (whole, parts):
                self.same(it.read(frames(messages)), wanted)

    def test_what_is_cut_off_is_read(self):
        """Of a canonical message, in which structs end before their last zeros."""
        for it in self.schemas:
            for value, message in list(zip(it.values, it.written()))[::25]:
                words = it.capnp("convert", "binary:canonical", given=message)
                self.same(it.read([struct.pack("<II", 0, len(words) // 8) + words]), [expected(it.kind, value)])

    def test_what_is_written_is_read(self):
        for it in self.schemas:
            self.same(it.read(it.written()), [expected(it.kind, value) for value in it.values])


class Bytes(unittest.TestCase):
    """Bytes that were changed or drawn by chance are read, or raise ReadError. They are a payload for the reader if they are one for
    the library."""

    def test_changed_bytes(self):
        chance = random.Random(SEED)
        with tempfile.TemporaryDirectory() as folder:
            it = Beside(SEED, folder)
            messages = [*it.written(), *frames(it.encoded("--segment-size=8"))]
        read = refused = 0
        for _ in range(CHANGED_BYTES):
            message = drawn(chance) if chance.random() < 0.1 else changed(chance, chance.choice(messages))
            try:
                it.schema["All"].decode(message, 2)
                read += 1
            except ReadError as error:
                refused += 1
                self.assertEqual(error.fault < 60 and "values" not in str(error), not is_payload(message, 2), (message, str(error)))
            else:
                self.assertTrue(is_payload(message, 2), message)
        self.assertGreater(min(read, refused), CHANGED_BYTES // 20)


def is_payload(message, caps):
    try:
        Contents(message, [0] * caps).number(0)
    except Refused:
        return False
    return True


def changed(chance, message):
    """A message with a few bits, words or its length changed."""
    data = bytearray(message)
    for _ in range(chance.choice([1, 1, 2, 5])):
        at = chance.randrange(len(data))
        draw = chance.random()
        if draw < 0.5:
            data[at] ^= 1 << chance.randrange(8)
        elif draw < 0.8:
            data[at // 8 * 8:at // 8 * 8 + 8] = pointer(chance)
        elif draw < 0.95:
            other = chance.randrange(len(data)) // 8 * 8
            data[at // 8 * 8:at // 8 * 8 + 8] = data[other:other + 8]
        else:
            data[at:] = chance.choice([b"", data[at:] + bytes(8)])
        if not data:
            break
    return bytes(data)


def drawn(chance):
    """A message of one segment with drawn pointers and bytes."""
    words = [pointer(chance) if chance.random() < 0.8 else chance.randbytes(8) for _ in range(chance.randint(0, 20))]
    return struct.pack("<II", 0, len(words)) + b"".join(words)


def pointer(chance):
    low = chance.choice([0, 1, 2, 3, -4, chance.getrandbits(31), chance.getrandbits(6), -chance.getrandbits(6) << 2])
    high = chance.choice([0, 1, chance.getrandbits(32), chance.getrandbits(6), chance.getrandbits(3) | chance.getrandbits(8) << 3])
    return struct.pack("<iI", low, high)


if __name__ == "__main__":
    unittest.main()
