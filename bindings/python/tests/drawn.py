"""Schemas drawn by chance: their text, values of their structs, each value as `capnp encode` takes it, and as it is to be read.

A type is the name of a number, `Void`, `Bool`, `Text` or `Data`, or one of

- an Enumeration, or a Record, which is a struct or a group,
- a Listed type, or a Boxed one, which is `Box` of it: a generic struct with its parameter at a pointer,
- `Capability` and `AnyPointer`, which text can't write and which are null here."""
import math
import struct
from dataclasses import dataclass, field
from typing import Any, List

from lovendak.schema import Defaults

RANGES = {f"{sign}Int{bits}": (0, (1 << bits) - 1) if sign else (-1 << bits - 1, (1 << bits - 1) - 1)
          for sign in ("", "U") for bits in (8, 16, 32, 64)}
FLOATS = {"Float32": "f", "Float64": "d"}
LETTERS = "ab Z~\"'\\\n\t\x01\x7fé€𝄞"
# How many defaults in defaults are gone into, and what stands for those below.
DEEPEST, DEEPER = 2, "deeper"
BOX = "struct Box(T) { value @0 :T; next @1 :Box(T); }\n"


@dataclass(eq=False)
class Enumeration:
    name: str
    names: List[str]


@dataclass(eq=False)
class Listed:
    element: Any


@dataclass(eq=False)
class Boxed:
    content: Any


@dataclass(eq=False)
class Part:
    """A field. `default` is None, if the schema gives none. Groups have no ordinal of their own, but the lowest in them."""

    name: str
    type: Any
    ordinal: int = 0
    default: Any = None
    member: bool = False


@dataclass(eq=False)
class Record:
    name: str
    parts: List[Part] = field(default_factory=list)
    is_group: bool = False

    def members(self):
        """The members of its union, the first of which is set if none is said to be."""
        return sorted((it for it in self.parts if it.member), key=lambda it: it.ordinal)


def spelled(kind):
    """The type in a schema."""
    if isinstance(kind, Listed):
        return f"List({spelled(kind.element)})"
    if isinstance(kind, Boxed):
        return f"Box({spelled(kind.content)})"
    return getattr(kind, "name", kind)


def unbranded(kind):
    """The type as `Schema.type` takes it."""
    if isinstance(kind, Listed):
        return f"List({unbranded(kind.element)})"
    return "Box" if isinstance(kind, Boxed) else getattr(kind, "name", kind)


def is_pointer(kind):
    return isinstance(kind, (Listed, Boxed, Record)) or kind in ("Text", "Data", "Capability", "AnyPointer")


class Drawing:
    """A schema of `count` structs, and the struct `All`, whose union has one of each."""

    def __init__(self, chance, count):
        self.chance = chance
        names = [[f"e{n}x{i}" for i in range(chance.randint(1, 6))] for n in range(4)]
        self.enums = [Enumeration(f"E{n}", its) for n, its in enumerate(names)]
        self.records = [Record(f"S{n}") for n in range(count)]
        for record in self.records:
            self.fill(record)
            self.number(record)
        for record in self.records:
            self.give_defaults(record)
        self.all = Record("All", [Part(f"s{n}", it, n, member=True) for n, it in enumerate(self.records)])

    def type(self, depth=0):
        draw = self.chance.random()
        if draw < 0.45:
            return self.chance.choice([*RANGES, *FLOATS, "Bool", "Void"])
        if draw < 0.6 or depth > 2:
            return self.chance.choice(["Text", "Data"])
        if draw < 0.75:
            return Listed(self.element(depth + 1))
        return self.chance.choice([*self.enums, *self.records, *self.records, Boxed(self.content(depth + 1)), "Capability", "AnyPointer"])

    def element(self, depth):
        while (kind := self.type(depth)) in ("Capability", "AnyPointer"):
            pass
        return kind

    def content(self, depth):
        """What may be the parameter of a generic: the type of a pointer."""
        while not is_pointer(kind := self.element(depth)):
            pass
        return kind

    def fill(self, record, depth=0):
        """Draws the fields of a struct or a group."""
        for number in range(self.chance.randint(0 if depth == 0 else 1, 6)):
            record.parts.append(self.part(f"f{number}", depth))
        if depth and self.chance.random() < 0.5 or self.chance.random() < 0.4:
            record.parts += [self.part(f"u{number}", depth, member=True) for number in range(self.chance.randint(2, 4))]

    def part(self, name, depth, member=False):
        kind = self.type()
        if depth < 2 and self.chance.random() < 0.15:
            kind = Record(name, is_group=True)
            self.fill(kind, depth + 1)
        return Part(name, kind, member=member)

    def number(self, record):
        """Gives the fields of a struct, and of its groups, ordinals in any order."""
        ordinals = list(range(sum(1 for _ in slots(record))))
        self.chance.shuffle(ordinals)
        for part, ordinal in zip(slots(record), ordinals):
            part.ordinal = ordinal
        number_groups(record)

    def give_defaults(self, record):
        for part in slots(record):
            if self.chance.random() < 0.4 and part.type not in ("Void", "Capability", "AnyPointer"):
                part.default = self.value(part.type, 2)

    def text(self):
        """The schema."""
        enums = [f"enum {it.name} {{ {' '.join(f'{name} @{n};' for n, name in enumerate(it.names))} }}\n" for it in self.enums]
        records = [f"struct {it.name} {{{body(it)} }}\n" for it in [*self.records, self.all]]
        return "".join([f"@{self.chance.getrandbits(63) | 1 << 63:#x};\n", BOX, *enums, *records])

    def value(self, kind, depth=0):
        """A value as `Struct.write` takes it, but for what a Box has, which has no type yet."""
        chance = self.chance
        if kind in RANGES:
            low, high = RANGES[kind]
            return chance.choice([low, high, 0 if low else 1, chance.randint(low, high)])
        if kind in FLOATS:
            return self.float(FLOATS[kind])
        if kind == "Bool":
            return chance.random() < 0.5
        if kind == "Text":
            return "".join(chance.choice(LETTERS) for _ in range(chance.randint(0, 12)))
        if kind == "Data":
            return chance.randbytes(chance.randint(0, 12))
        if isinstance(kind, Enumeration):
            return chance.choice(kind.names)
        if isinstance(kind, Listed):
            return [self.value(kind.element, depth + 1) for _ in range(chance.choice([0, 1, 2, 3, 9]) if depth < 3 else 0)]
        if isinstance(kind, Record):
            return self.values(kind, depth)
        if isinstance(kind, Boxed):
            return self.boxed(kind, depth)
        return None

    def float(self, form):
        size = struct.calcsize(form)
        while math.isnan(value := struct.unpack(form, self.chance.randbytes(size))[0]):
            pass
        return self.chance.choice([value, 0.0, -0.0, 1.5, math.inf, -math.inf])

    def values(self, record, depth):
        """Some of the fields, and at most one of the union's."""
        if depth > 3:
            return {}
        parts = [it for it in record.parts if not it.member and self.chance.random() < 0.7]
        members = [it for it in record.members() if it.type not in ("Capability", "AnyPointer")]
        if members and self.chance.random() < 0.8:
            parts.append(self.chance.choice(members))
        self.chance.shuffle(parts)
        return {it.name: self.value(it.type, depth + 1) for it in parts}

    def boxed(self, kind, depth):
        said = {}
        if depth < 3 and self.chance.random() < 0.8:
            said["value"] = self.value(kind.content, depth + 1)
        if depth < 3 and self.chance.random() < 0.5:
            said["next"] = self.boxed(kind, depth + 1)
        return said


def slots(record):
    """The fields of a struct and of its groups, but for the groups."""
    for part in record.parts:
        if isinstance(part.type, Record) and part.type.is_group:
            yield from slots(part.type)
        else:
            yield part


def number_groups(record):
    for part in record.parts:
        if isinstance(part.type, Record) and part.type.is_group:
            number_groups(part.type)
            part.ordinal = min(it.ordinal for it in slots(part.type))


def body(record):
    """The fields as a schema has them."""
    own = "".join(line(it) for it in record.parts if not it.member)
    members = "".join(line(it) for it in record.parts if it.member)
    return f"{own} union {{{members} }}" if members else own


def line(part):
    if isinstance(part.type, Record) and part.type.is_group:
        return f" {part.name} :group {{{body(part.type)} }}"
    default = "" if part.default is None else f" = {literal(part.type, part.default)}"
    return f" {part.name} @{part.ordinal} :{spelled(part.type)}{default};"


def literal(kind, value):
    """A value as `capnp encode` takes it."""
    if kind == "Void":
        return "void"
    if kind == "Bool":
        return str(value).lower()
    if kind in FLOATS:
        return repr(value)
    if kind == "Text":
        return quoted(value)
    if kind == "Data":
        return f'0x"{value.hex(" ")}"' if value else '""'
    if isinstance(kind, Listed):
        return f"[{', '.join(literal(kind.element, it) for it in value)}]"
    if isinstance(kind, (Record, Boxed)):
        types = types_of(kind)
        named = [f"{name} = {literal(types[name], it)}" for name, it in value.items() if types[name] not in ("Capability", "AnyPointer")]
        return f"({', '.join(named)})"
    return str(value)


def quoted(text):
    return '"' + "".join(it if it.isprintable() and it not in "\"\\" else f"\\x{ord(it):02x}" for it in text) + '"'


def types_of(kind):
    if isinstance(kind, Boxed):
        return {"value": kind.content, "next": kind}
    return {it.name: it.type for it in kind.parts}


def expected(kind, value, deep=0):
    """What is to be read where that value was written. Defaults may have themselves as defaults; that many were gone into."""
    if isinstance(kind, Listed):
        return [expected(kind.element, it, deep) for it in value]
    if isinstance(kind, Record):
        return expected_fields(kind, value, deep)
    if isinstance(kind, Boxed):
        return {"value": expected(kind.content, value["value"], deep) if "value" in value else None,
                "next": expected(kind, value["next"], deep) if "next" in value else expected_default(kind, {}, deep)}
    return value


def expected_fields(record, values, deep):
    members = record.members()
    set_ = next((it for it in members if it.name in values), members[0] if members else None)
    return {it.name: expected_part(it, values.get(it.name), deep) for it in record.parts if not it.member or it is set_}


def expected_part(part, value, deep):
    if value is not None:
        return expected(part.type, value, deep)
    if isinstance(part.type, Record) and part.type.is_group:
        return expected_fields(part.type, {}, deep)
    return expected_default(part.type, zero(part.type) if part.default is None else part.default, deep)


def expected_default(kind, value, deep):
    """What a null pointer is read as, in which structs are gone into one by one."""
    if isinstance(kind, Listed):
        return [expected_default(kind.element, it, deep) for it in value]
    if isinstance(kind, (Record, Boxed)):
        return expected(kind, value, deep + 1) if deep < DEEPEST else DEEPER
    return value


def zero(kind):
    """The default of a type."""
    if kind in RANGES:
        return 0
    if isinstance(kind, Enumeration):
        return kind.names[0]
    if isinstance(kind, Listed):
        return []
    if isinstance(kind, (Record, Boxed)):
        return {}
    return {"Float32": 0.0, "Float64": 0.0, "Bool": False, "Text": "", "Data": b""}.get(kind)


def typed(kind, value, box):
    """The value with the types that Boxes want: `box(kind, value)` gives what is written at a parameter."""
    if isinstance(kind, Listed):
        return [typed(kind.element, it, box) for it in value]
    if isinstance(kind, Record):
        types = types_of(kind)
        return {name: typed(types[name], it, box) for name, it in value.items()}
    if isinstance(kind, Boxed):
        return {name: box(kind.content, it) if name == "value" else typed(kind, it, box) for name, it in value.items()}
    return value


def plain(kind, value, unbox, deep=0):
    """What was read, with what is in Boxes in place of an AnyPointer: `unbox(kind, value, deep)` gives it. Of defaults all fields are
    asked for."""
    if isinstance(kind, Listed):
        return [plain(kind.element, it, unbox, deep) for it in value]
    if isinstance(value, Defaults):
        return of_defaults(kind, value, unbox, deep)
    if isinstance(kind, Record):
        types = types_of(kind)
        return {name: plain(types[name], it, unbox, deep) for name, it in value.items()}
    if isinstance(kind, Boxed):
        return {"value": unbox(kind.content, value["value"], deep), "next": plain(kind, value["next"], unbox, deep)}
    return value


def of_defaults(kind, value, unbox, deep):
    if deep == DEEPEST:
        return DEEPER
    return {name: unbox(it, value[name], deep + 1) if isinstance(kind, Boxed) and name == "value" else
            plain(it, value[name], unbox, deep + 1) for name, it in types_of(kind).items() if name in value}
