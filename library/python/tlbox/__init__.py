"""Values of a TL schema as bytes, as JSON and as Python values.

    >>> import tlbox
    >>> schema = tlbox.Schema("point#00000001 x:int y:int = Point;")
    >>> data = schema.encode("Point", {"x": 5, "y": -1})
    >>> data.hex()
    '0100000005000000ffffffff'
    >>> schema.decode("Point", data)
    {'_': 'point', 'x': 5, 'y': -1}

What Python values stand for the values of a type, both ways:

    int, long, #            int
    double                  float; of a NaN with other bits than Python's, its eight bytes
    int128, int256, bytes   bytes
    string                  str; bytes, where they are no UTF-8
    a vector                list; what is encoded may be any sequence but text and bytes
    Bool                    True and False, where the schema has boolTrue and boolFalse
    a record, a call        dict: its name at "_", which may be left out where its type has one constructor, and its fields by their names
    a field by a bit        not there, where the bit is clear; what is encoded may be None
    a flag F.N?true         True; what is encoded may be False, as if it weren't there
    a field of flags        not there, where its bits are just those of the fields that are there. What is written of it is kept, but for the bits
                            by which fields stand: these are computed

`encode` takes what `decode` gives, and gives the same bytes. The `_json` calls take and give JSON as the program does, and nothing is filled in.
"""
from __future__ import annotations

import json
import os
import threading
from typing import Any, Dict, Optional, Tuple, Union

from ._calls import Calls, CalledLibrary, CalledProgram, find
from ._values import Values

__all__ = ["Refused", "Schema", "has_library", "layers"]

Text = Union[str, bytes, bytearray, memoryview]


class Refused(ValueError):
    """A schema, a type or an input is refused.

    line    what the program writes on standard error
    what    "schema", "new", "type", "plan", "layers" or "input"
    place   the offset of the byte, in the text or the input; the index of the declaration, where `what` is refused for one; else None
    path    of JSON the way to what is refused: indices of fields, as they are declared, and of elements; else ()
    cause   the cause, as docs/ERRORS.md has it, with its values: "Truncated", "UnknownNumber 0000000a", "Misfit FlagMismatch"
    """

    def __init__(self, line: str) -> None:
        super().__init__(line.rstrip("\n"))
        self.line = line
        self.what, self.place, self.path, self.cause = _parts(line.rstrip("\n").split(" ")[1:])


def _parts(words: list) -> Tuple[str, Optional[int], Tuple[int, ...], str]:
    """What, place, path and cause of a line."""
    what, place, rest = words[0], words[1], words[2:]
    if place == "decl":
        return what, int(rest[0]), (), " ".join(rest[1:])
    if place.isdigit():
        return what, int(place), (), " ".join(rest)
    if what == "input" and len(rest) > 1:
        at = 1
        path = () if rest[at] == "-" else tuple(int(each) for each in rest[at].split("."))
        return what, None, path, " ".join(rest[:at] + rest[at + 1 :])
    return what, None, (), " ".join(rest)


class Schema:
    """A schema that was opened from its text, kept for many values. Calls of one Schema from several threads wait for each other.

    Raises Refused where the text is no schema, MemoryError where there is no memory, and OSError where neither library nor program is there.
    """

    def __init__(self, text: Text) -> None:
        self._text = _bytes(text)
        self._lock = threading.Lock()
        self._types: Dict[str, int] = {}
        self._values: Optional[Values] = None
        self._calls: Optional[Calls] = None
        self._calls = find()(self._text, _refuse)

    @classmethod
    def read(cls, path: Union[str, "os.PathLike[str]"]) -> "Schema":
        """The schema of a file."""
        with open(path, "rb") as file:
            return cls(file.read())

    def check(self) -> str:
        """The list of the schema's declarations that `tlbox check` writes: a line for each, with its number and its name, and how many there are."""
        with self._lock:
            return self._open().check().decode()

    def decode(self, of: str, data: Text) -> Any:
        """The Python value of the value of type `of` that all of the bytes spell. Raises Refused."""
        line = self.decode_json(of, data)
        return self._friendly().given(of, json.loads(line))

    def encode(self, of: str, value: Any) -> bytes:
        """The bytes of a Python value of type `of`. Raises Refused, and TypeError where something stands for no value at all."""
        wanted = self._friendly().wanted(of, value)
        return self.encode_json(of, json.dumps(wanted, ensure_ascii=False, separators=(",", ":"), allow_nan=False).encode("utf-8", "surrogatepass"))

    def decode_json(self, of: str, data: Text) -> str:
        """The line of JSON that `tlbox decode` writes, without its line feed. Raises Refused."""
        with self._lock:
            return self._open().decode(self._type(of), _bytes(data)).decode()[:-1]

    def encode_json(self, of: str, text: Text) -> bytes:
        """The bytes that `tlbox encode` writes of JSON. Raises Refused."""
        with self._lock:
            return self._open().encode(self._type(of), _bytes(text))

    def close(self) -> None:
        """Gives the schema's memory back, at once rather than when the Schema is collected."""
        with self._lock:
            calls, self._calls, self._types = self._calls, None, {}
            if calls is not None:
                calls.close()

    def __enter__(self) -> "Schema":
        return self

    def __exit__(self, *_: object) -> None:
        self.close()

    def _open(self) -> Calls:
        if self._calls is None:
            raise ValueError("the schema is closed")
        return self._calls

    def _type(self, of: str) -> int:
        """The number of a type, which is asked for once."""
        number = self._types.get(of)
        if number is None:
            number = self._types[of] = self._open().type(of.encode("utf-8", "surrogatepass"))
        return number

    def _friendly(self) -> Values:
        if self._values is None:
            self._values = Values(self._text)
        return self._values


def layers(old: Text, new: Text, of: str) -> int:
    """How many declarations the type `of` of the schema `old` reaches, where the schema `new` reads the bytes that it had, as docs/LAYERS.md has it. Else
    raises Refused, which tells what breaks first: `what` is "layers", and `place` the index of the declaration in `old`.

    >>> layers("point#00000001 x:int y:int = Point;", "point#00000001 x:int = Point;", "Point")
    Traceback (most recent call last):
    tlbox.Refused: tlbox: layers decl 0 FieldGone 1
    """
    line = find().layers(_bytes(old), _bytes(new), of.encode("utf-8", "surrogatepass"), _refuse)
    return int(line.split()[1])


def has_library() -> bool:
    """Whether the library is there; else the program is run for each value."""
    return find() is CalledLibrary


def _bytes(text: Text) -> bytes:
    return text.encode("utf-8", "surrogatepass") if isinstance(text, str) else bytes(text)


def _refuse(line: bytes) -> Refused:
    return Refused(line.decode())
