#!/usr/bin/env python3
"""Times how `tlbox decode` reads a schema of records and one value.

Each schema has so many records like `r#00000001 n:int t:long = R;`, once each of a type of its own and once all of one type; the
value is of the last record. Then come records of 256 fields, the most that a declaration may have, and 1,500 declarations of which one type
is asked for, and then a call, whose plan reaches all of them.
"""
import os
import struct
import sys
import tempfile

import runs


def record(number, kind):
    return "r%d#%08x n:int t:long = %s;\n" % (number, number + 1, kind)


def own_types(count):
    return "".join(record(number, "R%d" % number) for number in range(count)), "R%d" % (count - 1)


def one_type(count):
    return "".join(record(number, "R") for number in range(count)), "R"


def record_value(count):
    number = count - 1
    line = '{"_":"r%d","n":%d,"t":%d}' % (number, number, -number)
    return struct.pack("<Iiq", count, number, -number), line


def wide(count):
    """Records of 256 fields, a long after an int."""
    fields = " ".join("n%03d:int t%03d:long" % (place, place) for place in range(128))
    text = "".join("w%d#%08x %s = W;\n" % (number, number + 1, fields) for number in range(count))
    return text, "W"


def wide_value(count):
    value = struct.pack("<I", count) + b"".join(struct.pack("<iq", place, -place) for place in range(128))
    numbers = ['"n%03d":%d' % (place, place) for place in range(128)]
    longs = ['"t%03d":%d' % (place, -place) for place in range(128)]
    return value, '{"_":"w%d",%s}' % (count - 1, ",".join(numbers + longs))


def calls():
    """Records and functions that carry a call, 750 of each, and the functions' sections; a plan of `!` reaches each of them."""
    records = "".join(record(number, "R%d" % number) for number in range(750))
    wraps = "".join("f%d#%08x {X:Type} r:R%d q:!X = X;\n" % (number, 0x10000 + number, number) for number in range(749))
    return records + "---functions---\n" + wraps + "ping#%08x id:int = R0;\n" % 0x20000


def call_value():
    value = struct.pack("<IIiqIi", 0x10000, 1, 2, -3, 0x20000, 5)
    return value, '{"_":"f0","q":{"_":"ping","id":5},"r":{"_":"r0","n":2,"t":-3}}'


def cases(counts):
    """A name for each case, the schema and the type, the value and its line."""
    for count in counts:
        yield f"{count} types", own_types(count), record_value(count)
        yield f"{count} of one", one_type(count), record_value(count)
    most = 1_000
    yield f"{most} wide", wide(most), wide_value(most)
    yield "1500, a record", (calls(), "R0"), (struct.pack("<Iiq", 1, 2, -3), '{"_":"r0","n":2,"t":-3}')
    yield "1500, a call", (calls(), "!"), call_value()


def main():
    tlbox, _, numbers = runs.arguments()
    print(f"{'records':>14} {'schema':>9} {'value':>6} {'seconds':>8} {'ns/byte':>8}")
    with tempfile.TemporaryDirectory() as folder:
        schema, value, answer = (os.path.join(folder, name) for name in ("schema", "value", "answer"))
        for name, (text, kind), (spelled, line) in cases(numbers or [100, 1_000, 10_000]):
            runs.write(schema, text.encode())
            runs.write(value, spelled)
            took = runs.least_time([tlbox, "decode", schema, kind, value], answer)
            told = runs.last_line(answer)
            if told != line:
                sys.exit(f"{name}: the program says {told!r}")
            print(f"{name:>14} {len(text):>9} {len(spelled):>6} {took:>8.3f} {took * 1e9 / len(text):>8.1f}")


main()
