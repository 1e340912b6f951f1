#!/usr/bin/env python3
"""Times tlbox beside other tools of Debian where they do the same job, and prints one table of ratios.

`check` of 1,500 and 15,000 declarations beside `tl-parser -e`, which reads the same text after lines of built-in types in its own form;
`decode` of records beside `protoc --decode`; `encode` of records beside `flatc -b`, `protoc --encode`, and `jq -c .`, which reads the same
JSON and prints it; then one record alone, which is mostly the start of the program. A tool that isn't installed has no row.
"""
import os
import shutil
import tempfile

import check
import encode
import runs
import values

# What tl-parser wants of the built-in types.
BUILT_IN = """\
int ? = Int;
long ? = Long;
double ? = Double;
string ? = String;
bytes string = Bytes;
vector {t:Type} # [ t ] = Vector t;
true = True;
"""


class Table:
    """Runs in one folder, and a row for each pair of them."""

    def __init__(self, tlbox, folder):
        self.tlbox = tlbox
        self.folder = folder
        print(f"{'job':<28} {'beside':<16} {'tlbox s':>8} {'other s':>8} {'ratio':>6} {'tlbox MB':>8} {'other MB':>8}")

    def path(self, name, content=None):
        path = os.path.join(self.folder, name)
        if content is not None:
            runs.write(path, content)
        return path

    def measured(self, words, input_path):
        took = runs.least_time(words, self.path("said"), input_path=input_path)
        return took, runs.peak_memory(words, input_path)

    def row(self, job, words, other, input_path=None):
        if shutil.which(other[0]) is None:
            return
        took, memory = self.measured([self.tlbox, *words], None)
        took_other, memory_other = self.measured(other, input_path)
        sizes = f"{values.shown(memory, 2**20):>8} {values.shown(memory_other, 2**20):>8}"
        beside = " ".join(word for word in other[:2] if "/" not in word)
        print(f"{job:<28} {beside:<16} {took:>8.3f} {took_other:>8.3f} {took / took_other:>6.2f} {sizes}", flush=True)


def show_check(table, count):
    text = check.declarations(count)
    schema = table.path("schema", text.encode())
    theirs = table.path("theirs", (BUILT_IN + text).encode())
    table.row(f"check, {count} declarations", ["check", schema], ["tl-parser", "-e", table.path("out"), theirs])


def show_decode(table, count):
    schema = table.path("schema", values.SCHEMA.encode())
    value = table.path("value", values.tl_records(count))
    proto = table.path("records.proto", values.PROTO.encode())
    message = table.path("message", values.proto_records(count))
    words = ["decode", schema, "Vector<Record>", value]
    table.row(f"decode, {count} records", words, ["protoc", "--decode=Records", "-I", table.folder, proto], message)


def show_encode(table, count):
    schema = table.path("schema", values.SCHEMA.encode())
    text = table.path("value.json", values.json_records(count).encode())
    flat = table.path("records.fbs", encode.FLAT.encode())
    theirs = table.path("records.json", encode.flat_records(count).encode())
    proto = table.path("records.proto", values.PROTO.encode())
    message = table.path("records.txt", values.proto_text(count).encode())
    words = ["encode", schema, "Vector<Record>", text]
    job = f"encode, {count} records"
    table.row(job, words, ["flatc", "-b", "-o", table.folder, flat, theirs])
    table.row(job, words, ["protoc", "--encode=Records", "-I", table.folder, proto], message)
    table.row(job, words, ["jq", "-c", ".", text])


def main():
    tlbox, _, _ = runs.arguments()
    with tempfile.TemporaryDirectory() as folder:
        table = Table(tlbox, folder)
        for count in (1_500, 15_000):
            show_check(table, count)
        for count in (200_000, 1):
            show_decode(table, count)
        for count in (150_000, 1):
            show_encode(table, count)


main()
