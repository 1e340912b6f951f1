#!/usr/bin/env python3
"""library.py PROGRAM: microseconds of processor time that a decode and an encode of one value take by the library.

By C, by Python with JSON and with Python values, and by a run of the program for each value; for a record of two ints, a string and an optional int in
schemas of few and of many declarations, and for a list of a thousand such records. Where the Python modules of protobuf and of flatbuffers are there
(Debian's python3-protobuf and python3-flatbuffers) they read and write the record too. `library/build` has to have made the library.
"""
import json
import os
import resource
import subprocess
import sys
import tempfile
import time

BENCH = os.path.dirname(os.path.abspath(__file__))
LIBRARY = os.path.join(os.path.dirname(BENCH), "library")
sys.path.insert(0, f"{LIBRARY}/python")
os.environ.setdefault("TLBOX_LIBRARY", f"{LIBRARY}/out/libtlbox.so.1")

import tlbox  # noqa: E402

RECORD = "record#00000001 flags:# number:int scattered:int name:string quarter:flags.0?int = Record;\n"
VALUE = {"_": "record", "flags": 1, "number": 5, "scattered": -1640531527, "name": "record no. 000005", "quarter": 1}
OTHER = "other{0}#{1:08x} flags:# number:int scattered:flags.0?long name:string several:Vector<int> next:flags.1?Other{0} = Other{0};\n"


def schema_of(count):
    """A schema of so many declarations."""
    return RECORD + "".join(OTHER.format(i, i + 16) for i in range(count - 1))


def each(times, work):
    """Microseconds of one of so many."""
    start = time.process_time()
    for _ in range(times):
        work()
    return (time.process_time() - start) * 1e6 / times


def of_c(program, folder, texts, times):
    for name, text in texts.items():
        with open(f"{folder}/{name}", "wb") as file:
            file.write(text)
    made = subprocess.run([program, folder, str(times)], capture_output=True, text=True, check=True)
    return [float(word) for word in made.stdout.split()]


def of_process(words, times):
    """Microseconds of a run of the program, its children's processor time."""
    before = resource.getrusage(resource.RUSAGE_CHILDREN)
    for _ in range(times):
        subprocess.run(words, stdout=subprocess.DEVNULL, check=True)
    after = resource.getrusage(resource.RUSAGE_CHILDREN)
    return (after.ru_utime - before.ru_utime + after.ru_stime - before.ru_stime) * 1e6 / times


def row(name, decode, encode):
    print(f"{name:>44} {decode:9.2f} {encode:9.2f}", flush=True)


def measure(title, text, of, value, times, c_program, program, folder):
    schema = tlbox.Schema(text)
    wanted = json.dumps(value, separators=(",", ":"))
    data = schema.encode_json(of, wanted)
    friendly = schema.decode(of, data)
    assert schema.encode(of, friendly) == data
    files = {"schema": text.encode(), "type": of.encode(), "bytes": data, "json": wanted.encode()}
    print(f"{title}, {len(data)} bytes, {len(text)} bytes of schema", flush=True)
    row("C", *of_c(c_program, folder, files, times))
    row("Python, JSON", each(times, lambda: schema.decode_json(of, data)), each(times, lambda: schema.encode_json(of, wanted)))
    row("Python, values", each(times, lambda: schema.decode(of, data)), each(times, lambda: schema.encode(of, friendly)))
    runs = max(5, min(200, times // 100))
    words = [program, "decode", f"{folder}/schema", of, f"{folder}/bytes"], [program, "encode", f"{folder}/schema", of, f"{folder}/json"]
    row("a run of the program", *(of_process(each_words, runs) for each_words in words))


def protobuf():
    """The record by protobuf's module, whose description is made here."""
    try:
        from google.protobuf import descriptor_pb2, descriptor_pool, message_factory
        from google.protobuf.internal import api_implementation
    except ImportError:
        print("left out: protobuf's module isn't there")
        return
    file = descriptor_pb2.FileDescriptorProto(name="record.proto", package="bench", syntax="proto2")
    message = file.message_type.add(name="Record")
    for number, (name, kind, label) in enumerate((("number", 5, 2), ("scattered", 5, 2), ("name", 9, 2), ("quarter", 5, 1)), 1):
        message.field.add(name=name, number=number, type=kind, label=label)
    pool = descriptor_pool.DescriptorPool()
    pool.Add(file)
    found = pool.FindMessageTypeByName("bench.Record")
    make = message_factory.GetMessageClass(found) if hasattr(message_factory, "GetMessageClass") else message_factory.MessageFactory(pool).GetPrototype(found)
    fields = {name: VALUE[name] for name in ("number", "scattered", "name", "quarter")}
    data = make(**fields).SerializeToString()

    def read():
        got = make.FromString(data)
        return {"number": got.number, "scattered": got.scattered, "name": got.name, "quarter": got.quarter}

    assert read() == fields
    row(f"protobuf's module ({api_implementation.Type()}), {len(data)} bytes", each(20_000, read), each(20_000, lambda: make(**fields).SerializeToString()))


def flatbuffers():
    """The record by flatbuffers' module, as the code that flatc makes would."""
    try:
        import flatbuffers
        from flatbuffers import number_types, table
    except ImportError:
        print("left out: flatbuffers' module isn't there")
        return

    def write():
        builder = flatbuffers.Builder(64)
        name = builder.CreateString(VALUE["name"])
        builder.StartObject(4)
        builder.PrependInt32Slot(0, VALUE["number"], 0)
        builder.PrependInt32Slot(1, VALUE["scattered"], 0)
        builder.PrependUOffsetTRelativeSlot(2, name, 0)
        builder.PrependInt32Slot(3, VALUE["quarter"], 0)
        builder.Finish(builder.EndObject())
        return bytes(builder.Output())

    data = write()

    def read():
        at = flatbuffers.encode.Get(flatbuffers.packer.uoffset, data, 0)
        record = table.Table(data, at)
        ints = [record.Get(number_types.Int32Flags, at + record.Offset(slot)) for slot in (4, 6, 10)]
        return ints, record.String(at + record.Offset(8))

    assert read() == ([VALUE["number"], VALUE["scattered"], VALUE["quarter"]], VALUE["name"].encode())
    row(f"flatbuffers' module, {len(data)} bytes", each(20_000, read), each(20_000, write))


def main():
    if len(sys.argv) != 2:
        sys.exit(__doc__)
    program = os.path.abspath(sys.argv[1])
    if not tlbox.has_library():
        sys.exit("library.py: library/build has to have made library/out/libtlbox.so.1")
    print(f"{'':>44} {'decode':>9} {'encode':>9}")
    with tempfile.TemporaryDirectory() as folder:
        c_program = f"{folder}/c"
        out = f"{LIBRARY}/out"
        subprocess.run(["cc", "-O2", f"-I{LIBRARY}", f"{BENCH}/library.c", f"{out}/libtlbox.a", "-lm", "-o", c_program], check=True)
        for count in (1, 10, 1_500):
            measure(f"a record, {count} declarations", schema_of(count), "Record", VALUE, 20_000, c_program, program, folder)
        protobuf()
        flatbuffers()
        many = [{**VALUE, "number": i} for i in range(1_000)]
        measure("a thousand records", schema_of(10), "vector<Record>", many, 100, c_program, program, folder)


main()
