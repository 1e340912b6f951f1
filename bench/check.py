#!/usr/bin/env python3
"""Times how `tlbox check` reads and checks a schema.

Each text has so many declarations of about 120 bytes, with conditions, vectors, namespaces and comments. Then come texts that are
hard in one way each: a million parentheses around one type, constructors of which each holds the next bare, in both orders, in
one cycle, between two cycles, and without bytes, names that collide, comments alone, and mentions among 255 variables.
"""
import os
import shutil
import subprocess
import sys
import tempfile

import runs


def declaration(number):
    return (
        "help.user%d#%08x flags:# self:flags.10?true name:flags.1?string ids:Vector<long> about:bytes = help.User%d; // one\n"
        % (number, number + 1, number % 100)
    )


def declarations(count):
    return "".join(declaration(number) for number in range(count))


def nested(depth):
    return "a x:%sint%s = A;\n" % ("(" * depth, ")" * depth)


def holds(number, other):
    return "c%d x:c%d = C%d;\n" % (number, other, number)


def chain(numbers):
    """Each constructor holds the next; the last one holds a number."""
    links = "".join(holds(number, other) for number, other in zip(numbers, numbers[1:]))
    return links + "c%d x:int = C;\n" % numbers[-1]


def cycle(count):
    return "".join(holds(number, (number + 1) % count) for number in range(count))


def between_cycles(count):
    """A chain that one cycle leads to, and that leads to another; the cycles stand after it."""
    links = "".join(holds(number, number + 1) for number in range(count))
    back = "c%d x:c%d = C;\n" % (count, count)
    first = "d x:d y:c0 = D;\n"
    return links + back + first


def empty(count):
    """Constructors without bytes, each of which holds the next, and a vector of the first."""
    links = "".join(holds(number, number + 1) for number in range(count))
    return links + "c%d = C;\nv x:Vector<c0> = V;\n" % count


def colliding():
    """Names that collide under the hash of `indexmap` while it has no key, found by colliding.c."""
    with open(os.path.join(os.path.dirname(__file__), "colliding.txt"), encoding="ascii") as file:
        return file.read().split()


def found(kind, count):
    """Names that colliding.c finds, in a minute or some; none where there is no compiler of C."""
    compiler = shutil.which("cc") or shutil.which("gcc")
    if compiler is None:
        return []
    with tempfile.TemporaryDirectory() as folder:
        program = os.path.join(folder, "colliding")
        subprocess.run([compiler, "-O2", "-o", program, os.path.join(os.path.dirname(os.path.abspath(__file__)), "colliding.c")], check=True)
        return subprocess.run([program, str(count), kind], check=True, stdout=subprocess.PIPE).stdout.decode().split()


def comments(size):
    """A text of one declaration, and of comments for the rest."""
    line = "// nothing is declared in this line, which is as long as a declaration; so the time goes into the letters alone\n"
    return "a = A;\n" + line * (size // len(line))


def plain(count):
    return ["T%07x" % (number * 2654435761 % 2**28) for number in range(count)]


def mentioned(names):
    """A type for each name, whose constructor mentions nineteen types of the list: 4 MB in all for 16,000 names."""
    lines = []
    for number, name in enumerate(names):
        fields = "".join(" x%02d:%s" % (field, names[(number * 7919 + field * 104729) % len(names)]) for field in range(18))
        lines.append("c%05d%s = %s;\n" % (number, fields, name))
    return "".join(lines)


def among_variables(variables):
    """Declarations with so many variables, each with a field whose type mentions ten thousand names."""
    pair = "p %s = P %s;\n" % (" ".join("{a%02d:Type}" % k for k in range(100)), " ".join("a%02d" % k for k in range(100)))
    field = "P<%s>" % ",".join(["P<%s>" % ",".join(["int"] * 100)] * 100)
    before = "".join("{v%03d:Type} " % k for k in range(variables))
    after = "".join(" v%03d" % k for k in range(variables))
    return pair + "".join("d%d %sx:%s = D%d%s;\n" % (k, before, field, k, after) for k in range(90))


def asking(count):
    """Declarations in which 127 conditions ask for the field after 127 others."""
    before = "".join(" a%03d:int" % k for k in range(127))
    after = "".join(" b%03d:f.0?int" % k for k in range(127))
    return "".join("d%d%s f:#%s = D;\n" % (k, before, after) for k in range(count))


def listed(count):
    return "constructors %d functions 0" % count


def refused(decl, cause):
    return "tlbox: schema decl %d %s" % (decl, cause)


def texts(counts):
    """A name for each text, the text, and the last line of the answer."""
    for count in counts:
        yield str(count), declarations(count), listed(count)
    most = max(counts)
    yield "nested", nested(1_000_000), listed(1)
    yield "chain", chain(list(range(most))), listed(most)
    yield "backwards", chain(list(range(most))[::-1]), listed(most)
    yield "cycle", cycle(most), refused(0, "BareCycle")
    yield "between", between_cycles(most), refused(most, "BareCycle")
    yield "empty", empty(most), refused(most + 1, "EmptyElement")
    names = colliding()
    yield "plain", mentioned(plain(len(names))), listed(len(names))
    yield "colliding", mentioned(names), listed(len(names))
    for kind in ("fold", "sip"):
        others = found(kind, len(names))
        if others:
            yield kind, mentioned(others), listed(len(others))
    yield "comments", comments(len(mentioned(names))), listed(1)
    yield "asking", asking(1_200), listed(1_200)
    yield "none", among_variables(0), listed(91)
    yield "255", among_variables(255), listed(91)


def main():
    tlbox, _, numbers = runs.arguments()
    print(f"{'declarations':>12} {'bytes':>9} {'seconds':>8} {'ns/byte':>8}")
    with tempfile.TemporaryDirectory() as folder:
        schema, answer = (os.path.join(folder, name) for name in ("schema", "answer"))
        for name, text, line in texts(numbers or [100, 1_000, 5_000, 15_000]):
            runs.write(schema, text.encode())
            took = runs.least_time([tlbox, "check", schema], answer, 0 if line.startswith("constructors") else 1)
            told = runs.last_line(answer)
            if told != line:
                sys.exit(f"{name}: the program says {told!r}")
            print(f"{name:>12} {len(text):>9} {took:>8.3f} {took * 1e9 / len(text):>8.1f}")


if __name__ == "__main__":
    main()
