#!/usr/bin/env python3
"""fill.py SCHEMA TYPE [INPUT]: makes the JSON that `tlbox encode SCHEMA TYPE` takes from a friendlier one, of INPUT or of standard input.

    contrib/fill.py notes.tl Note friendly.json > note.json && tlbox encode notes.tl Note note.json

What may be written, and what is made of it:

    a `#` field          nothing: a bit is set where a field that stands by it is there. Of a number that is written the bits by which no field stands
                         are kept
    a field with a bit   null, as if its key weren't there; at F.N?true false, likewise
    Bool                 true and false: {"_":"boolTrue"} and {"_":"boolFalse"}
    double               a number, or NaN, Infinity, -Infinity: its eight bytes in hexadecimal digits
    long                 a number, or a text of its digits
    bytes                {"text":"hi"}: the digits of this text's UTF-8
    a record             without `_`, where its type has one constructor alone
    the text             a byte order mark before it

All else is left as it is, and refused by `encode` where it is no value of TYPE: fill.py checks nothing, and the PATH that `encode` tells is of its own
input. SCHEMA is read by a reader of its own, which takes what `tlbox check` takes; ask `check` first. There is no way back, from what `decode` prints.
Its status is 0, and 1 with a line where SCHEMA, TYPE or the JSON can't be read.
"""
import json, re, struct, sys

if __name__ == "__main__":
    sys.dont_write_bytecode = True
from tl_reading import Schema, Unread


def is_number(value):
    return isinstance(value, (int, float)) and not isinstance(value, bool)


def is_there(each, value):
    """Whether a field with a bit is there, by what stands at its key."""
    return value is not None and not (each.is_flag and value is False)


def fill(schema, of, value):
    """What `encode` takes for a value of a closed type."""
    kind = of[0]
    if kind == "double" and is_number(value):
        return struct.pack("<d", value).hex()
    if kind == "long" and isinstance(value, str) and re.fullmatch(r"-?[0-9]+", value):
        return int(value)
    if kind == "bytes" and isinstance(value, dict) and list(value) == ["text"] and isinstance(value["text"], str):
        return value["text"].encode().hex()
    if kind == "vector" and isinstance(value, list):
        return [fill(schema, of[2], each) for each in value]
    if kind in ("boxed", "bare", "call") and isinstance(value, (bool, dict)):
        members = {one.name: one for one in schema.members(of)}
        if isinstance(value, dict):
            return fill_record(schema, of, members, value)
        name = "boolTrue" if value else "boolFalse"
        return {"_": name} if name in members else value
    return value


def fill_record(schema, of, members, value):
    only = next(iter(members)) if len(members) == 1 and of[0] != "call" else None
    name = value.get("_", only)
    one = members.get(name) if isinstance(name, str) else None
    if one is None:
        return value
    filled, types = {"_": name, **value}, schema.arguments(of, one)
    for each in one.fields:
        if each.condition and each.name in value and not is_there(each, value[each.name]):
            del filled[each.name]
        elif each.type == "#":
            filled[each.name] = bits_of(one, each.name, value)
        elif each.name in value and not each.is_flag:
            filled[each.name] = fill(schema, ("call",) if each.variable else schema.closed(each.type, types), value[each.name])
    return filled


def bits_of(one, name, value):
    """The bits of a `#` field, by the keys that are there."""
    written = value.get(name, 0)
    if not isinstance(written, int) or isinstance(written, bool):
        return written
    of_fields = there = 0
    for each in one.fields:
        if each.condition and each.condition[0] == name:
            of_fields |= 1 << each.condition[1]
            there |= is_there(each, value.get(each.name)) << each.condition[1]
    return written & ~of_fields | there


def finite(digits):
    number = float(digits)
    if number in (float("inf"), float("-inf")):
        raise ValueError(f"no double holds {digits}")
    return number


def main(words):
    if len(words) not in (2, 3):
        sys.stderr.write("usage: fill.py SCHEMA TYPE [INPUT]\n")
        return 1
    what = words[0]
    try:
        with open(words[0], "rb") as file:
            schema = Schema(file.read())
        what = words[1]
        of = schema.type_of(words[1])
        what = words[2] if len(words) == 3 else "standard input"
        if len(words) == 3:
            with open(words[2], "rb") as file:
                data = file.read()
        else:
            data = sys.stdin.buffer.read()
        filled = fill(schema, of, json.loads(data.decode("utf-8-sig"), parse_float=finite))
        output = json.dumps(filled, ensure_ascii=False).encode("utf-8", "surrogatepass") + b"\n"
    except Unread:
        sys.stderr.write(f"fill.py: {what}: the schema doesn't have this type, or one that it names\n")
        return 1
    except (OSError, ValueError, OverflowError, RecursionError, struct.error) as fault:
        sys.stderr.write(f"fill.py: {what}: {' '.join(str(fault).split())}\n")
        return 1
    except (AttributeError, LookupError, TypeError):
        sys.stderr.write(f"fill.py: {words[0]}: no schema; `tlbox check` tells where\n")
        return 1
    sys.stdout.buffer.write(output)
    return 0


if __name__ == "__main__":
    sys.exit(main(sys.argv[1:]))
