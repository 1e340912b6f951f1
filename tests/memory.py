#!/usr/bin/env python3
"""memory.py TLBOX [RUN ..]: refuses each allocation of some runs of the built program in turn.

A run of the program asks for memory so many times. It is made once more for each of these, and once for one past the last; each time that one
request is refused and all others are granted. Such a run has to end in one of three ways. With status 5, and the line of it on Errors. Where
the request was the host's own, for the name of a file or the buffer of a link, with the status of a fault of reading, of writing or of links, and
the line of that. In both of these the files are as before, and on Output and on the link a prefix stands of what the run itself writes, on Output
none but of a command that writes as it goes on. Or it ends as the run itself does. The script prints a line for each run: how often memory was
asked for, and how often each of the three came; and it ends with status 1 where another end came, which it tells.

Requests are refused by a small library in C, which is loaded before the C library and has `malloc` and `realloc` of its own. It counts the calls
that the program itself makes, and none of the C library. It wants `cc`, and a program that is linked to the C library as LLVM builds it.
"""
import collections
import os
import shutil
import struct
import subprocess
import sys
import tempfile
import time

from peers import SECONDS, called, over_link, packet

TOP = os.path.dirname(os.path.dirname(os.path.abspath(__file__)))
PROFILE = os.path.join(TOP, "crates", "tlbox", "data", "profile.tl")
LINES = {3: b"tlbox: read fault\n", 4: b"tlbox: write fault\n", 5: b"tlbox: memory\n", 6: b"tlbox: link fault\n"}

LIBRARY = r"""
#define _GNU_SOURCE
#include <errno.h>
#include <fcntl.h>
#include <link.h>
#include <stdint.h>
#include <stdlib.h>
#include <sys/mman.h>

void *__libc_malloc(size_t);
void *__libc_realloc(void *, size_t);

// Where the program's own code stands; the number of the request that is refused; and the number of requests so far, in a file.
static uintptr_t first, last;
static uint64_t refused, own, *count = &own;

static int find(struct dl_phdr_info *info, size_t size, void *nothing) {
    (void)size; (void)nothing;
    for (int i = 0; i < info->dlpi_phnum; i++) {
        if (info->dlpi_phdr[i].p_type == PT_LOAD && (info->dlpi_phdr[i].p_flags & PF_X)) {
            first = info->dlpi_addr + info->dlpi_phdr[i].p_vaddr;
            last = first + info->dlpi_phdr[i].p_memsz;
        }
    }
    return 1;
}

__attribute__((constructor)) static void begin(void) {
    const char *number = getenv("REFUSED"), *name = getenv("COUNT");
    dl_iterate_phdr(find, 0);
    if (number) refused = strtoull(number, 0, 10);
    if (name) {
        int file = open(name, O_RDWR);
        void *page = mmap(0, sizeof *count, PROT_READ | PROT_WRITE, MAP_SHARED, file, 0);
        if (page != MAP_FAILED) count = page;
    }
}

static int is_refused(void *from) {
    uintptr_t at = (uintptr_t)from;
    return at >= first && at < last && ++*count == refused;
}

void *malloc(size_t size) {
    if (is_refused(__builtin_return_address(0))) { errno = ENOMEM; return 0; }
    return __libc_malloc(size);
}

void *realloc(void *old, size_t size) {
    if (is_refused(__builtin_return_address(0))) { errno = ENOMEM; return 0; }
    return __libc_realloc(old, size);
}
"""


# ---- what is run: the words, the files, and what the other end of a link gives

POINT = b"point#00000001 x:int y:int = Point;"
BOOLS = b"boolTrue = Bool; boolFalse = Bool; vector {t:Type} # [ t ] = Vector t;"
MESSAGE_61 = "0105c5b0 01000000 00000000 15c4b51c 01000000 1104c5b0 01610000"
DELETE = "0105c5b0 02000000 00000000 15c4b51c 01000000 1304c5b0 15c4b51c 03000000 07000000 08000000 09000000"
MESSAGE_62 = "0105c5b0 03000000 00000000 15c4b51c 01000000 1104c5b0 01620000"
RECOVERY = " 0905c5b0 0405c5b0 00000000 03000000 0505c5b0 00000000 0305c5b0 04000000 0405c5b0 00000000 05000000"
JOURNAL = bytes.fromhex(" ".join([MESSAGE_61, DELETE, MESSAGE_62]) + RECOVERY)
HELP = (
    b"int ? = Int; bytes = Bytes; vector#1cb5c415 {t:Type} # [ t ] = Vector t; // LAYER\n"
    b"help.user#1a2b3c4 flags:# self:flags.10?true flags2:# x:flags2.1?int ids:Vector<long> = help.User;"
    b" ---functions--- help.get#9 ids:(vector long) = Vector<help.User>;"
)
DIFFERENCE = packet(
    "0304c5b0 01000000 0303c5b0 15c4b51c 02000000 01610000 01620000 15c4b51c 00000000 15c4b51c 01000000"
    " 0301c5b0 15c4b51c 03000000 07000000 08000000 09000000 04000000 03000000 0103c5b0 05000000 00000000 00000000 00000000"
)
STATE = packet("0204c5b0 01000000 05000000 02000000 64000000 03000000")
CALL = b'{"_":"peer.invoke","number":1,"query":{"_":"updates.getState"}}'
CALLS = (
    packet("2104c5b0 01000000 2204c5b0 07000000 00000000 15c4b51c 01000000 1104c5b0 01610000")
    + packet("2104c5b0 02000000 1203c5b0 00000000 00000000 00000000")
    + packet("2104c5b0 03000000 1103c5b0")
)
LAYERS_OLD = b"a#00000001 flags:# x:int = A;"
LAYERS_NEW = b"a#00000001 flags:# x:int y:flags.0?long = A; b#00000002 = A;"

# Each run: its words, in which ADDRESS stands for one; its files; and what the other end gives, where there is one. `serve` is called, the other
# commands call. `replay` and `serve` write as they go; the others write nothing when memory is refused.
RUNS = {
    "decode": (["decode", "schema", "Point", "input"], {"schema": POINT, "input": bytes.fromhex("010000000500 0000ffffffff")}, None),
    "encode": (["encode", "schema", "Point", "input"], {"schema": POINT, "input": b'{"_":"point","x":5,"y":-1}'}, None),
    "check": (["check", "schema"], {"schema": BOOLS}, None),
    "check, a layer": (["check", "schema"], {"schema": HELP}, None),
    "layers": (["layers", "old", "new", "A"], {"old": LAYERS_OLD, "new": LAYERS_NEW}, None),
    "usage": ([], {}, None),
    "refused": (["decode", "schema", "Point", "input"], {"schema": POINT, "input": bytes.fromhex("02000000")}, None),
    "replay": (["replay", "profile.tl", "journal", "1"], {"journal": JOURNAL}, None),
    "client": (["client", "profile.tl", "ADDRESS", "state"], {"state": b""}, DIFFERENCE),
    "client, refused": (["client", "profile.tl", "ADDRESS", "state"], {"state": b""}, STATE),
    "post": (["post", "profile.tl", "ADDRESS", "input"], {"input": CALL}, STATE),
    "serve": (["serve", "profile.tl", "ADDRESS", "1"], {}, CALLS),
    "make": (["make", "profile.tl", "7", "200"], {}, None),
}


class End:
    """How a run ended: status, Output, Errors, what its link got, and the files that stand afterwards, each with whether it is the same file."""

    def __init__(self, status, output, errors, sent, files):
        self.status, self.output, self.errors, self.sent, self.files = status, output, errors, sent, files

    def is_as(self, other):
        return vars(self) == vars(other)

    def is_refusal(self, whole, before, goes_on):
        """Whether a fault was told, the files are as before, and no more was written than may be."""
        # What the run itself writes may stand whole where State then can't take its name.
        written = whole.output.startswith(self.output) and (goes_on or self.output == b"" or self.status == 4)
        return self.errors == LINES.get(self.status) and written and whole.sent.startswith(self.sent) and self.files == before


class Runner:
    """Runs the program in a folder of its own."""

    def __init__(self, program, library, room):
        self.program, self.library, self.room = os.path.abspath(program), library, room
        self.counter, self.prepared = os.path.join(room, "..", "count"), {}

    def prepare(self, files):
        shutil.rmtree(self.room, ignore_errors=True)
        os.mkdir(self.room)
        shutil.copyfile(PROFILE, os.path.join(self.room, "profile.tl"))
        for name, content in files.items():
            with open(os.path.join(self.room, name), "wb") as file:
                file.write(content)
        self.prepared = {name: os.stat(os.path.join(self.room, name)).st_ino for name in os.listdir(self.room)}
        with open(self.counter, "wb") as file:
            file.write(bytes(8))

    def files(self):
        """The files: their bytes, and whether each is the one that was prepared."""
        found = {}
        for name in os.listdir(self.room):
            with open(os.path.join(self.room, name), "rb") as file:
                found[name] = file.read(), self.prepared.get(name) == os.fstat(file.fileno()).st_ino
        return found

    def start(self, words, number):
        outside = {"LD_PRELOAD": self.library, "REFUSED": str(number), "COUNT": self.counter}
        return subprocess.Popen(
            [self.program, *words], cwd=self.room, env=outside, stdin=subprocess.DEVNULL, stdout=subprocess.PIPE, stderr=subprocess.PIPE
        )

    def count(self):
        with open(self.counter, "rb") as file:
            return struct.unpack("<Q", file.read())[0]

    def run(self, words, files, gives, number=0):
        """How the run ends whose request for memory with this number, from 1, is refused."""
        self.prepare(files)
        since = int(time.time())
        start = lambda address: self.start([address if word == "ADDRESS" else word for word in words], number)
        sent = b""
        if gives is None:
            process = start("")
        elif words[0] == "serve":
            # A link whose buffer is refused is closed, and another one served.
            process, came = called(start, [gives, gives])
            sent = b"".join(came)
        else:
            process, sent = over_link(start, gives)
        output, errors = process.communicate(timeout=SECONDS)
        return End(process.returncode, output, errors, undated(sent, since), self.files())


def undated(sent, since):
    """What was sent, without the moments of this run."""
    cells = [sent[i : i + 4] for i in range(0, len(sent), 4)]
    until = int(time.time())
    return b"".join(b"DATE" if len(cell) == 4 and since <= struct.unpack("<I", cell)[0] <= until else cell for cell in cells)


def try_run(runner, name):
    words, files, gives = RUNS[name]
    runner.prepare(files)
    before = runner.files()
    whole = runner.run(words, files, gives)
    asked = runner.count()
    table, others = collections.Counter(), []
    if asked == 0:
        others.append("the program's requests can't be seen: it has to be one that LLVM built")
    for number in range(1, asked + 2):
        end = runner.run(words, files, gives, number)
        if end.is_as(whole):
            table["own"] += 1
        elif end.is_refusal(whole, before, words[:1] in (["replay"], ["serve"])):
            table[end.status] += 1
        else:
            changed = sorted(name for name in {*end.files, *whole.files} if end.files.get(name) != whole.files.get(name))
            others.append(f"request {number}: status {end.status}, Output {end.output[-80:]!r}, Errors {end.errors[:80]!r}, {len(end.sent)} bytes sent, files {changed}")
    told = f"{name:>16} {asked:9} {table[5]:9} {table[3] + table[4] + table[6]:9} {table['own']:9} {len(others):9}"
    print(told, flush=True)
    for other in others[:20]:
        print(f"    {other}")
    return not others


def main(words):
    if not words or any(name not in RUNS for name in words[1:]):
        print(f"usage: memory.py TLBOX [RUN ..], of {', '.join(RUNS)}")
        return 2
    with tempfile.TemporaryDirectory(prefix="tlbox-memory-") as folder:
        source, library = os.path.join(folder, "refuse.c"), os.path.join(folder, "refuse.so")
        with open(source, "w", encoding="ascii") as file:
            file.write(LIBRARY)
        subprocess.run(["cc", "-O1", "-fPIC", "-shared", "-o", library, source], check=True)
        runner = Runner(words[0], library, os.path.join(folder, "room"))
        print(f"{'run':>16} {'requests':>9} {'status 5':>9} {'3, 4, 6':>9} {'its own':>9} {'another':>9}")
        good = [try_run(runner, name) for name in words[1:] or RUNS]
    return 0 if all(good) else 1


if __name__ == "__main__":
    sys.exit(main(sys.argv[1:]))
