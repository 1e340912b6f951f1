#!/usr/bin/env python3
"""Times how `tlbox decode` reads large and deep values, and how `protoc --decode` reads the same records.

The first value is a vector of records of two ints, a string and an optional int. Where protoc is installed (Debian's package
protobuf-compiler) it decodes the same records, spelled as a protobuf message. Then come a chain of 119 records, each within the
next, by itself and 5,000 times, a vector of a million ints, and a string of the greatest length, shown as text and as digits. Every
answer has to be the text that is made here.
"""
import os
import shutil
import struct
import subprocess
import sys
import tempfile

import runs

SCHEMA = """\
record#00000001 flags:# number:int scattered:int name:string quarter:flags.0?int = Record;
link#00000002 next:Chain = Chain;
end#00000003 = Chain;
"""

PROTO = """\
syntax = "proto2";
message Record {
  required int32 number = 1;
  required int32 scattered = 2;
  required string name = 3;
  optional int32 quarter = 4;
}
message Records {
  repeated Record records = 1;
}
"""

VECTOR = struct.pack("<I", 0x1CB5C415)
LEVELS = 119
LONGEST = 16_777_215


def spelled_string(body):
    """A string as TL spells it."""
    head = bytes([len(body)]) if len(body) < 254 else b"\xfe" + len(body).to_bytes(3, "little")
    return head + body + bytes(-(len(head) + len(body)) % 4)


def scattered(number):
    """An int that looks like none of its neighbours."""
    return (number * 2654435761 + 2**31) % 2**32 - 2**31


def records(count):
    """Two ints, a string, and in one of four records a further int."""
    for number in range(count):
        yield number, scattered(number), "record no. %06d" % number, number // 4 if number % 4 == 0 else None


def tl_records(count):
    parts = [VECTOR, struct.pack("<I", count)]
    for number, other, name, quarter in records(count):
        parts.append(struct.pack("<IIii", 1, quarter is not None, number, other) + spelled_string(name.encode()))
        if quarter is not None:
            parts.append(struct.pack("<i", quarter))
    return b"".join(parts)


def json_records(count):
    parts = []
    for number, other, name, quarter in records(count):
        more = "" if quarter is None else '"quarter":%d,' % quarter
        flags = quarter is not None
        parts.append('{"_":"record","flags":%d,"name":"%s","number":%d,%s"scattered":%d}' % (flags, name, number, more, other))
    return "[" + ",".join(parts) + "]\n"


def varint(number):
    """A number as protobuf spells it, of 64 bits where it is below 0."""
    number %= 2**64
    out = bytearray()
    while number > 127:
        out.append(number % 128 + 128)
        number //= 128
    out.append(number)
    return bytes(out)


def proto_records(count):
    parts = []
    for number, other, name, quarter in records(count):
        body = b"\x08" + varint(number) + b"\x10" + varint(other) + b"\x1a" + varint(len(name)) + name.encode()
        if quarter is not None:
            body += b"\x20" + varint(quarter)
        parts.append(b"\x0a" + varint(len(body)) + body)
    return b"".join(parts)


def proto_text(count):
    parts = []
    for number, other, name, quarter in records(count):
        more = "" if quarter is None else "  quarter: %d\n" % quarter
        parts.append('records {\n  number: %d\n  scattered: %d\n  name: "%s"\n%s}\n' % (number, other, name, more))
    return "".join(parts)


def chain():
    """Records within each other, as bytes and as text."""
    links = LEVELS - 1
    return struct.pack("<I", 2) * links + struct.pack("<I", 3), '{"_":"link","next":' * links + '{"_":"end"}' + "}" * links


def chains(count):
    value, text = chain()
    return VECTOR + struct.pack("<I", count) + value * count, "[" + ",".join([text] * count) + "]\n"


def ints(count):
    numbers = [scattered(number) for number in range(count)]
    return struct.pack("<I%di" % count, count, *numbers), "[" + ",".join(map(str, numbers)) + "]\n"


def longest():
    """A string of the greatest length: lower-case letters."""
    letters = bytes(range(97, 123))
    body = (letters * (LONGEST // len(letters) + 1))[:LONGEST]
    return spelled_string(body), body


def values(count):
    """A name for each value, its type, its bytes, and its line."""
    yield "records", "Vector<Record>", tl_records(count), json_records(count)
    one, text = chain()
    yield "chain", "Chain", one, text + "\n"
    yield "chains", "Vector<Chain>", *chains(5_000)
    yield "ints", "vector<int>", *ints(1_000_000)
    spelled, body = longest()
    yield "string", "string", spelled, '"%s"\n' % body.decode()
    yield "bytes", "bytes", spelled, '"%s"\n' % body.hex()


def show(name, words, value, answer, wanted, input_path=None):
    """Measures the runs of one value, whose answer has to be the one wanted, and prints a row."""
    runs.least_time(words, answer, input_path=input_path)
    with open(answer, "rb") as file:
        if file.read() != wanted:
            sys.exit(f"{name}: another answer than {wanted[:60]!r}..")
    show_row(name, words, value, wanted, answer, input_path)


def show_row(name, words, value, wanted, answer, input_path=None):
    """Measures the runs of one value, and prints a row."""
    took = runs.least_time(words, answer, input_path=input_path)
    memory = runs.peak_memory(words, input_path)
    steps = runs.instructions(words, input_path)
    sizes = f"{len(value):>9} {len(wanted):>9}"
    print(f"{name:>8} {sizes} {took:>8.3f} {took * 1e9 / len(value):>8.1f} {shown(memory, 2**20):>7} {shown(steps, 1e6):>13}", flush=True)


def shown(number, unit):
    return "-" if number is None else f"{number / unit:.1f}"


def show_head():
    head = f"{'bytes':>9} {'answer':>9} {'seconds':>8} {'ns/byte':>8} {'MB':>7} {'Minstructions':>13}"
    print(f"{'value':>8} {head}")


def main():
    tlbox, _, numbers = runs.arguments()
    count = numbers[0] if numbers else 200_000
    show_head()
    with tempfile.TemporaryDirectory() as folder:
        schema, proto, value, answer = (os.path.join(folder, name) for name in ("schema.tl", "records.proto", "value", "answer"))
        runs.write(schema, SCHEMA.encode())
        runs.write(proto, PROTO.encode())
        for name, kind, spelled, line in values(count):
            runs.write(value, spelled)
            show(name, [tlbox, "decode", schema, kind, value], spelled, answer, line.encode())
        if shutil.which("protoc"):
            spelled = proto_records(count)
            runs.write(value, spelled)
            show("protoc", ["protoc", "-I", folder, "--decode=Records", proto], spelled, answer, proto_text(count).encode(), value)
            version = subprocess.run(["protoc", "--version"], capture_output=True, text=True, check=True).stdout
            print(f"protoc is {version.strip()}, and reads the records of the first row")


if __name__ == "__main__":
    main()
