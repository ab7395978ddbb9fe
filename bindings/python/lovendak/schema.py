"""Contents of calls and answers by the names of a schema.

`load` reads .capnp files by the program `capnp` of Cap'n Proto, or a file that it made before. Each method then writes and reads its
parameters and results:

>>> chat = load("chat.capnp")
>>> post = chat["Room"].methods["post"]
>>> contents = post.params.write({"text": "Good morning", "urgent": True})
>>> post.params.read(contents)
{'text': 'Good morning', 'urgent': True}

A call is made by `vat.call(room, post.interface, post.number, contents)`. Capabilities are the vat's references; 7 is one here:

>>> join = chat["Hall"].method("join")
>>> contents = join.params.write({"name": "ann", "listener": 7})
>>> contents.refs
[7]
>>> join.params.read(contents)["listener"]
7

A service finds the method that an event of kind SERVED names by `chat["Room"].find(event.interface, event.method)`.

A field that is not given has its default. Null reads as a default too: a null struct as an empty dict, which gives each field's default:

>>> chat["Line"].decode(chat["Line"].encode({}))
{'name': '', 'text': '', 'reply': {}}
>>> chat["Line"].decode(chat["Line"].encode({}))["reply"]["text"]
''

What does not go with the schema is an error that names the field:

>>> post.params.write({"text": 7})
Traceback (most recent call last):
lovendak.schema.WriteError: Room.post.text: 7 is no text
>>> chat["Room"].methods["history"].results.write({"lines": [{}, {"nam": "ann"}]})
Traceback (most recent call last):
lovendak.schema.WriteError: Room.history.lines[1]: there is no field 'nam'

At an AnyPointer, or at the parameter of a generic, stands a text, data, a capability, or a value with its type; what is read there is
read again as a type:

>>> contents = chat["Notice"].write({"about": Typed(chat["Line"], {"text": "hello"})})
>>> chat["Notice"].read(contents)["about"].read(chat["Line"])["text"]
'hello'

Reading holds to the limits of docs/encoding.md whatever the bytes are. It reads at most 64 values for each word of a message, the
most that can stand there, and 1,048,576 more, which have no bits in it.
"""
import subprocess
from os import PathLike, fspath
from pathlib import Path
from typing import Iterable, Union

from .errors import ReadError, SchemaError, WriteError
from .interfaces import Interface, Method, Schema
from .pointers import AnyPointer, Typed
from .request import schema_of
from .scalars import Enum
from .structs import Defaults, Struct

__all__ = [
    "AnyPointer", "Defaults", "Enum", "Interface", "Method", "ReadError", "Schema", "SchemaError", "Struct", "Typed", "WriteError", "load",
]

AnyPath = Union[str, "PathLike[str]"]


def load(*files: AnyPath, imports: Iterable[AnyPath] = ()) -> Schema:
    """The schema in .capnp files, for which the program `capnp` has to be there; or in one file that `capnp compile -o- FILE..` wrote,
    whose name does not end so. `imports` are folders in which imports with a leading `/` are looked for.

    SchemaError if a file is no schema or `capnp` is not there, OSError if a file can't be read."""
    if len(files) == 1 and Path(files[0]).suffix != ".capnp":
        return schema_of(Path(files[0]).read_bytes())
    words = ["capnp", "compile", "-o-", *(f"-I{fspath(folder)}" for folder in imports), *(fspath(file) for file in files)]
    try:
        done = subprocess.run(words, stdout=subprocess.PIPE, stderr=subprocess.PIPE)
    except FileNotFoundError:
        raise SchemaError("the program capnp, which reads .capnp files, is not there") from None
    if done.returncode:
        raise SchemaError(done.stderr.decode(errors="replace").strip())
    return schema_of(done.stdout)
