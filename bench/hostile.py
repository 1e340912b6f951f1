#!/usr/bin/env python3
"""Times how tlbox takes texts and bytes that are made to be slow: nesting, long names, types without bytes, JSON of each shape, and journals.

Each input is about as long as inputs of its kind may be. A run has to end with the status that is told, and its line on Errors is printed.
"""
import os
import struct
import subprocess
import tempfile

import runs

TEXT = 4_194_304
JSON = 16_777_216
POINT = "point#00000001 x:int y:int = Point;"


def filled(text, more, end, size):
    """A text that goes on with `more` until it has so many bytes with its end."""
    return text + more * ((size - len(text) - len(end)) // len(more)) + end


def schemas():
    """A name, the text, the status."""
    yield "parentheses", "a x:" + "(" * 2_000_000 + "int" + ")" * 2_000_000 + " = A;", 0
    yield "percent signs", filled("a x:", "%", "A = A;", TEXT), 1
    yield "angle brackets", filled("a x:", "Vector<", "", TEXT), 1
    yield "type words", "a = " + "(A " * 1_000_000, 1
    yield "braces", filled("a ", "{X:Type} ", "= A;", TEXT), 1
    yield "one comment", filled("/*", "*", "*/", TEXT), 0
    yield "an open comment", filled("/*", "/", "", TEXT), 1
    yield "comments", filled("", "/**/", "", TEXT), 0
    yield "one name", filled("", "a", " = A;", TEXT), 0
    yield "long names", "".join("%s%05d = A;\n" % ("a" * 240, number) for number in range(16_000)), 0
    yield "long fields", "a %s = A;" % " ".join("%s%03d:int" % ("x" * 16_000, number) for number in range(255)), 0
    yield "colons", filled("a ", ":", "", TEXT), 1
    yield "sections", filled("", "---types---", "", TEXT), 0


def values():
    """A name, the schema, the type, the bytes, the status."""
    wide = "".join("e%d = E%d; " % (number, number) for number in range(250))
    nest = " ".join("f%d:e%d" % (number, number) for number in range(250))
    yield "a type of no bytes", "a = A;", "a", bytes(TEXT), 1
    yield "250 fields of no bytes", wide + "v n:int %s = V;" % nest, "vector<v>", (40_000).to_bytes(4, "little") + bytes(160_000), 0
    absent = " ".join("f%d:n.0?int" % number for number in range(254))
    yield "254 absent fields", "v n:# %s = V;" % absent, "vector<v>", (40_000).to_bytes(4, "little") + bytes(160_000), 0
    yield "the greatest count", POINT, "vector<int>", b"\xff\xff\xff\x7f" + bytes(JSON), 1
    yield "16 levels of vectors", POINT, "vector<" * 15 + "int" + ">" * 15, b"\x01\x00\x00\x00" * 14 + (4_000_000).to_bytes(4, "little") + bytes(JSON - 60), 1
    yield "empty vectors", POINT, "vector<vector<int>>", (4_000_000).to_bytes(4, "little") + bytes(16_000_000), 0
    flags = " ".join("%s%03d:n.0?true" % ("x" * 997, number) for number in range(254))
    yield "flags of long names", "v n:# %s = V;" % flags, "vector<v>", (1_000).to_bytes(4, "little") + b"\x01\x00\x00\x00" * 1_000, 0
    yield "empty strings", POINT, "vector<string>", (4_000_000).to_bytes(4, "little") + bytes(16_000_000), 0


def jsons():
    """A name, the type, the text, the status."""
    yield "one string", "string", filled('"', "a", '"', JSON), 0
    yield "escapes", "string", filled('"', "\\u0041", '"', JSON), 0
    yield "a list of numbers", "vector<int>", filled("[0", ",0", "]", JSON), 0
    yield "a list of lists", "vector<vector<int>>", filled("[[]", ",[]", "]", JSON), 0
    yield "one key", "Point", filled('{"_":"point"', ',"x":1', ',"y":2}', JSON), 0
    yield "many keys", "Point", "{" + ",".join('"%07d":0' % number for number in range(1_300_000)) + "}", 1
    yield "127 levels", "int", filled("[0", "," + "[" * 126 + "]" * 126, "]", JSON), 1
    yield "small objects", "vector<Point>", filled('[{"":0}', ',{"":0}', "]", JSON), 1
    yield "open brackets", "int", "[" * JSON, 1
    yield "one number", "int", "1" * JSON, 1
    yield "a small number", "int", "0." + "0" * (JSON - 3) + "1", 1
    yield "white space", "int", " " * (JSON - 1) + "1", 0


def posted(number, kind, bodies):
    return struct.pack("<IqII", 0xB0C50501, number, 0x1CB5C415, len(bodies)) + b"".join(struct.pack("<I", kind) + body for body in bodies)


def journals():
    """A name, the journal, the status. All have one length."""
    ids = struct.pack("<II4096i", 0x1CB5C415, 4_096, *range(4_096))
    again = posted(0, 0xB0C50413, 15 * [ids]) + 200 * struct.pack("<III", 0xB0C50504, 0, 0)
    yield "one push of deletes", again, 0
    message = bytes([251]) + bytes(251)
    yield "messages", b"".join(posted(number, 0xB0C50411, [message]) for number in range(len(again) // 276)), 0


def timed(words, status, name):
    """The processor time of a run, and its line on Errors."""
    begin = runs.spent()
    run = subprocess.run(words, stdin=subprocess.DEVNULL, stdout=subprocess.DEVNULL, stderr=subprocess.PIPE, check=False, timeout=600)
    took = runs.spent() - begin
    line = run.stderr.decode(errors="replace").strip()
    if run.returncode != status:
        raise SystemExit(f"{name}: status {run.returncode}, {line[:200]}")
    return took, line


def tell(name, size, words, status):
    took, line = timed(words, status, name)
    peak = runs.peak_memory(words, status=status)
    print(f"{name:>24} {size:>9} {took:>8.3f} {took * 1e9 / size:>8.1f} {'-' if peak is None else '%.0f' % (peak / 1e6):>6}  {line[:90]}")


def main():
    tlbox, data, _ = runs.arguments()
    print(f"{'input':>24} {'bytes':>9} {'seconds':>8} {'ns/byte':>8} {'MB':>6}  line")
    with tempfile.TemporaryDirectory() as folder:
        schema, given = (os.path.join(folder, name) for name in ("schema", "input"))
        for name, text, status in schemas():
            runs.write(schema, text.encode())
            tell("check, " + name, len(text), [tlbox, "check", schema], status)
        for name, text, kind, content, status in values():
            runs.write(schema, text.encode())
            runs.write(given, content)
            tell("decode, " + name, len(content), [tlbox, "decode", schema, kind, given], status)
        runs.write(schema, POINT.encode())
        for name, kind, text, status in jsons():
            runs.write(given, text.encode())
            tell("encode, " + name, len(text), [tlbox, "encode", schema, kind, given], status)
        for name, content, status in journals():
            runs.write(given, content)
            tell("replay, " + name, len(content), [tlbox, "replay", os.path.join(data, "profile.tl"), given, "1"], status)


main()
