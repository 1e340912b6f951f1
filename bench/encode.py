#!/usr/bin/env python3
"""Times how `tlbox encode` reads large and deep values as JSON, and how `flatc -b` and `protoc --encode` write the same records.

The values are those of the table `values`, each as the JSON that `decode` prints of it; of the records as many as 16 MiB of JSON hold. Where
flatc is installed (Debian's package flatbuffers-compiler) it reads the same records as its own JSON and writes them as a FlatBuffer, and where
protoc is (protobuf-compiler) it reads them as protobuf's own text and writes them as a message. The bytes that tlbox and protoc write have to
be those that are made here; of flatc's only their number is looked at.
"""
import json
import os
import shutil
import subprocess
import tempfile

import runs
import values

FLAT = """\
table Record {
  number:int;
  scattered:int;
  name:string;
  quarter:int;
}
table Records {
  records:[Record];
}
root_type Records;
"""


def flat_records(count):
    """The records as flatc's JSON."""
    rows = []
    for number, other, name, quarter in values.records(count):
        row = {"number": number, "scattered": other, "name": name}
        if quarter is not None:
            row["quarter"] = quarter
        rows.append(row)
    return json.dumps({"records": rows}, separators=(",", ":"))


def spellings(count):
    """A name for each value, its type, its JSON, and its bytes."""
    yield "records", "Vector<Record>", values.json_records(count), values.tl_records(count)
    one, text = values.chain()
    yield "chain", "Chain", text + "\n", one
    spelled, line = values.chains(5_000)
    yield "chains", "Vector<Chain>", line, spelled
    spelled, line = values.ints(1_000_000)
    yield "ints", "vector<int>", line, spelled
    body = bytes(range(97, 123)) * 615_384
    yield "string", "string", '"%s"\n' % body.decode(), values.spelled_string(body)
    half = body[: len(body) // 2]
    yield "bytes", "bytes", '"%s"\n' % half.hex(), values.spelled_string(half)


def show_flatc(folder, count):
    schema, text = (os.path.join(folder, name) for name in ("records.fbs", "records.json"))
    runs.write(schema, FLAT.encode())
    given = flat_records(count).encode()
    runs.write(text, given)
    words = ["flatc", "-b", "-o", folder, schema, text]
    runs.least_time(words, os.path.join(folder, "said"))
    with open(os.path.join(folder, "records.bin"), "rb") as file:
        made = file.read()
    values.show_row("flatc", words, given, made, os.path.join(folder, "said"))


def show_protoc(folder, count):
    proto, text, answer = (os.path.join(folder, name) for name in ("records.proto", "records.txt", "answer"))
    runs.write(proto, values.PROTO.encode())
    given = values.proto_text(count).encode()
    runs.write(text, given)
    words = ["protoc", "-I", folder, "--encode=Records", proto]
    values.show("protoc", words, given, answer, values.proto_records(count), text)


def said(words):
    return subprocess.run(words, capture_output=True, text=True, check=True).stdout.strip()


def main():
    tlbox, _, numbers = runs.arguments()
    count = numbers[0] if numbers else 150_000
    values.show_head()
    with tempfile.TemporaryDirectory() as folder:
        schema, text, answer = (os.path.join(folder, name) for name in ("schema.tl", "value.json", "answer"))
        runs.write(schema, values.SCHEMA.encode())
        for name, kind, line, spelled in spellings(count):
            runs.write(text, line.encode())
            values.show(name, [tlbox, "encode", schema, kind, text], line.encode(), answer, spelled)
        if shutil.which("flatc"):
            show_flatc(folder, count)
        if shutil.which("protoc"):
            show_protoc(folder, count)
        for tool in ("flatc", "protoc"):
            if shutil.which(tool):
                print(f"{tool} is {said([tool, '--version'])}, and writes the records of the first row")


if __name__ == "__main__":
    main()
