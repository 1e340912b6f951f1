"""Python values and the JSON of the program, by the types of a schema."""
from __future__ import annotations

import struct
from typing import Any, Dict, Tuple

from ._reading import Schema, Unread

OPAQUE = {"double": 8, "int128": 16, "int256": 32}
# The bits of Python's own NaN. Others are given as bytes: a float that has them doesn't keep them in each computation.
NAN = struct.pack("<d", float("nan"))
NAMES = {True: "boolTrue", False: "boolFalse"}


def _is_there(each: Any, record: Dict[str, Any]) -> bool:
    """Whether a field that stands by a bit is there."""
    value = record.get(each.name)
    return value is not None and not (each.is_flag and value is False)


def _bits(one: Any, name: str, record: Dict[str, Any]) -> Tuple[int, int]:
    """The bits of a `#` field by which fields stand, and of these the bits of fields that are there."""
    all_bits = there = 0
    for each in one.fields:
        if each.condition and each.condition[0] == name:
            all_bits |= 1 << each.condition[1]
            there |= _is_there(each, record) << each.condition[1]
    return all_bits, there


def _hex(value: Any) -> Any:
    return bytes(value).hex() if isinstance(value, (bytes, bytearray, memoryview)) else value


class Values:
    """Makes of Python values the JSON that the program takes, and the other way. It checks nothing: what is no value is refused by its JSON."""

    def __init__(self, text: bytes) -> None:
        self._schema = Schema(text)
        self._types: Dict[str, Any] = {}

    def wanted(self, of: str, value: Any) -> Any:
        """The JSON of a Python value."""
        return self._wanted(self._type(of), value)

    def given(self, of: str, value: Any) -> Any:
        """The Python value of JSON."""
        return self._given(self._type(of), value)

    def _type(self, of: str) -> Any:
        if of not in self._types:
            try:
                self._types[of] = self._schema.type_of(of)
            except (Unread, RecursionError, UnicodeError):
                # The library says why.
                self._types[of] = ("none",)
        return self._types[of]

    def _member(self, of: Any, value: Dict[str, Any]) -> Any:
        """The declaration of a record or call, if it names one."""
        members = self._schema.members(of)
        if "_" not in value and len(members) == 1 and of[0] != "call":
            return members[0]
        return next((one for one in members if one.name == value.get("_")), None)

    def _field(self, each: Any, types: Dict[str, Any]) -> Any:
        return ("call",) if each.variable else self._schema.closed(each.type, types)

    # ---- to JSON

    def _wanted(self, of: Any, value: Any) -> Any:
        kind = of[0]
        if kind == "double" and isinstance(value, (int, float)) and not isinstance(value, bool):
            return struct.pack("<d", value).hex()
        if kind in OPAQUE or kind == "bytes":
            return _hex(value)
        if kind == "string" and isinstance(value, (bytes, bytearray, memoryview)):
            return {"hex": _hex(value)}
        if kind == "vector" and not isinstance(value, (str, bytes, bytearray, memoryview, dict)) and hasattr(value, "__iter__"):
            return [self._wanted(of[2], each) for each in value]
        if kind in ("boxed", "bare") and isinstance(value, bool):
            return {"_": NAMES[value]} if any(one.name == NAMES[value] for one in self._schema.members(of)) else value
        if kind in ("boxed", "bare", "call") and isinstance(value, dict):
            one = self._member(of, value)
            return value if one is None else self._wanted_record(of, one, value)
        return value

    def _wanted_record(self, of: Any, one: Any, value: Dict[str, Any]) -> Dict[str, Any]:
        wanted, types = {"_": one.name, **value}, self._schema.arguments(of, one)
        for each in one.fields:
            if each.condition and not _is_there(each, value):
                wanted.pop(each.name, None)
            elif each.type == "#":
                all_bits, there = _bits(one, each.name, value)
                written = value.get(each.name, None if all_bits == 0 else 0)
                if isinstance(written, int) and not isinstance(written, bool):
                    wanted[each.name] = written & ~all_bits | there
            elif each.name in value and not each.is_flag:
                wanted[each.name] = self._wanted(self._field(each, types), value[each.name])
        return wanted

    # ---- from JSON

    def _given(self, of: Any, value: Any) -> Any:
        kind = of[0]
        if kind == "double":
            data = bytes.fromhex(value)
            number = struct.unpack("<d", data)[0]
            return number if number == number or data == NAN else data
        if kind in OPAQUE or kind == "bytes":
            return bytes.fromhex(value)
        if kind == "string":
            return bytes.fromhex(value["hex"]) if isinstance(value, dict) else value
        if kind == "vector":
            return [self._given(of[2], each) for each in value]
        if kind in ("boxed", "bare", "call"):
            return self._given_record(of, value)
        return value

    def _given_record(self, of: Any, value: Dict[str, Any]) -> Any:
        one = self._member(of, value)
        if one.result.name == "Bool" and not one.fields and one.name in NAMES.values():
            return one.name == NAMES[True]
        given, types = {"_": one.name}, self._schema.arguments(of, one)
        for each in one.fields:
            if each.name not in value:
                continue
            if each.type == "#":
                all_bits, there = _bits(one, each.name, value)
                if all_bits and value[each.name] == there:
                    continue
            given[each.name] = value[each.name] if each.is_flag or each.type == "#" else self._given(self._field(each, types), value[each.name])
        return given
