#!/usr/bin/env python3
"""refusals.py [check]: lists what stays after each refusal of each public call, and the clause that says so: docs/REFUSALS.md.

The calls, their faults and the names of their clauses are read from the sources; what stays is told by `refusals.txt`, beside this script.
It ends with status 1 where a call that changes something is not told there, or one of its faults isn't; where a line tells of a call, a fault
or a clause that there is none of; and, with `check`, where docs/REFUSALS.md is another text than it would write.

It reads what is public by `pub use` in each crate's src/lib.rt: functions, methods of types, and methods of traits. Programs, the host of the program
(`real_host`), the examples of `callers`, and the library of tests (`case_files`) have no public calls.
"""
import fnmatch
import glob
import os
import re
import sys

TOP = os.path.dirname(os.path.dirname(os.path.abspath(__file__)))
TOLD = os.path.join(TOP, "tests", "refusals.txt")
PAGE = os.path.join(TOP, "docs", "REFUSALS.md")

CLAUSE = re.compile(r"\s*(requires|ensures)\s*(\w+)?\s*\{")
CLAUSE_WORD = re.compile(r"(requires|ensures)\b")
ANSWER = re.compile(r"-> *(?:\w+::)?Result<(.*)>\s*$")


class Bad(Exception):
    """The sources or the data can't be read so."""


def blanked(text):
    """The text with spaces in place of comments."""
    pieces, at = [], 0
    for found in re.finditer(r'//[^\n]*|"(?:\\.|[^"\\])*"', text):
        if found[0].startswith("//"):
            pieces += [text[at : found.start()], " " * len(found[0])]
            at = found.end()
    return "".join([*pieces, text[at:]])


def closing(text, at):
    """The offset after the brace that closes the one before `at`."""
    depth = 1
    while depth:
        depth += {"{": 1, "}": -1}.get(text[at], 0)
        at += 1
    return at


def signature_end(text, at):
    """Where clauses, the body or a semicolon begin after the name of a function."""
    depth = 0
    while at < len(text):
        if text[at] in "([":
            depth += 1
        elif text[at] in ")]":
            depth -= 1
        elif depth == 0 and (text[at] in "{;" or (not text[at - 1].isalnum() and CLAUSE_WORD.match(text, at))):
            return at
        at += 1
    raise Bad("a function without an end")


class Call:
    """A public call: its crate, its name, its signature and its clauses."""

    def __init__(self, crate, name, text, start, name_end):
        end = signature_end(text, name_end)
        self.crate, self.name, self.signature = crate, name, " ".join(text[start:end].split())
        self.clauses = []
        while found := CLAUSE.match(text, end):
            end = closing(text, found.end())
            if found[1] == "ensures":
                self.clauses.append((found[2] or "-", " ".join(text[found.end() : end - 1].split())))
        found = ANSWER.search(self.signature)
        fault = parameters(found[1])[-1] if found else ""
        # Of `Fault` of `tl_base`: a cause, and memory beside it.
        self.has_cause = fault.startswith("Fault<")
        self.fault = fault.removeprefix("Fault<").split("::")[-1].split("<")[0].rstrip(">") or None

    @property
    def changes(self):
        return "&mut" in self.signature

    def clause(self, name):
        """A clause as it is told: its name, or the first definition that it cites."""
        texts = [text for told, text in self.clauses if told == name]
        if not texts:
            raise Bad(f"{self.crate} {self.name}: no clause {name}")
        return f"`{name}`" if name != "-" else f"`{re.search('[A-Z]+[a-z][A-Za-z]*', texts[0])[0]}`"


def parameters(text):
    """The parts of a list of types."""
    parts, depth, at = [], 0, 0
    for i, letter in enumerate(text):
        depth += {"<": 1, "(": 1, ">": -1, ")": -1}.get(letter, 0)
        if letter == "," and depth == 0:
            parts.append(text[at:i].strip())
            at = i + 1
    return [*parts, text[at:].strip()]


def exported(root):
    """The names that a crate's root file makes public, each with its module's."""
    names = {}
    for found in re.finditer(r"\bpub use ([^;]+);", root):
        path, _, many = found[1].replace("\n", " ").partition("{")
        items = many.rstrip("} ").split(",") if many else [path]
        for item in filter(None, map(str.strip, items)):
            names[item.split("::")[-1].split(" as ")[-1].strip()] = path.split("::")[0].strip()
    return names


def blocks(text):
    """The impls and public traits of a file, with the type that each is of."""
    for found in re.finditer(r"(?m)^(?:impl\b|pub trait\b)[^{;]*\{", text):
        head = " ".join(found[0][:-1].split())
        # An impl of a trait has the trait's contract.
        if head.startswith("impl") and " for " in head:
            yield found.start(), closing(text, found.end()), None
            continue
        head = re.sub(r"^(impl\s*(<[^{]*?>\s+(?=\w))?|pub trait )\s*", "", head)
        yield found.start(), closing(text, found.end()), re.match(r"\w+", head)[0]


def calls_of(crate, folder):
    """The public calls of a crate."""
    with open(f"{folder}/src/lib.rt", encoding="utf-8") as file:
        public = exported(blanked(file.read()))
    for path in sorted(glob.glob(f"{folder}/src/*.rt")):
        module = os.path.basename(path)[:-3]
        with open(path, encoding="utf-8") as file:
            text = blanked(file.read())
        spans = list(blocks(text))
        for found in re.finditer(r"\b(pub )?fn (\w+)", text):
            inside = [span for span in spans if span[0] <= found.start() < span[1]]
            if not inside:
                if found[1] and public.get(found[2]) == module:
                    yield Call(crate, found[2], text, found.start(), found.end())
                continue
            start, _end, owner = inside[0]
            if owner in public and (found[1] or text.startswith("pub trait", start)):
                yield Call(crate, f"{owner}::{found[2]}", text, found.start(), found.end())


def faults_in(folders):
    """The variants of each public enum, by crate and name."""
    found = {}
    for crate, folder in folders:
        for path in glob.glob(f"{folder}/src/*.rt"):
            with open(path, encoding="utf-8") as file:
                text = blanked(file.read())
            for enum in re.finditer(r"pub enum (\w+)[^{;]*\{", text):
                inside = re.sub(r"#\[[^\]]*\]", "", text[enum.end() : closing(text, enum.end()) - 1])
                inside = re.sub(r"\{[^}]*\}|\([^)]*\)", "", inside)
                found[crate, enum[1]] = [it.strip() for it in inside.split(",") if it.strip()]
    return found


class Sources:
    """The crates that have public calls, in the order of crates.txt, with their calls that answer a fault."""

    def __init__(self):
        self.below, folders = {}, []
        with open(os.path.join(TOP, "crates.txt"), encoding="utf-8") as file:
            for line in filter(None, (line.split("#")[0].strip() for line in file)):
                crate, _, below = line.partition(":")
                crate, folder = crate.split()[0], os.path.join(TOP, "crates", crate.split()[0])
                self.below[crate] = below.split()
                if os.path.exists(f"{folder}/src/lib.rt") and crate not in ("real_host", "callers", "case_files"):
                    folders.append((crate, folder))
        self.enums = faults_in(folders)
        self.calls = [call for crate, folder in folders for call in calls_of(crate, folder) if call.fault]

    def faults(self, call):
        """The refusals that a call's fault type has."""
        memory = ["Memory"] if call.has_cause else []
        for crate in [call.crate, *self.below[call.crate]]:
            if (crate, call.fault) in self.enums:
                return [*self.enums[crate, call.fault], *memory]
        return [call.fault, *memory]


class Row:
    """A line of the data: of which calls and faults it tells, by which clauses, and what."""

    def __init__(self, number, line):
        parts = [part.strip() for part in line.split("|")]
        if len(parts) != 4:
            raise Bad(f"refusals.txt:{number}: four parts are wanted")
        self.number, (self.crate, *self.names) = number, parts[0].replace(",", " ").split()
        self.faults, self.clauses, self.text = parts[1].split(), parts[2].split(), parts[3]
        self.used = False

    def tells(self, call):
        return self.crate == call.crate and any(fnmatch.fnmatchcase(call.name, name) for name in self.names)


def rows_told():
    rows, beside = [], []
    with open(TOLD, encoding="utf-8") as file:
        for number, line in enumerate(file, 1):
            line = line.strip()
            if line.startswith("beside "):
                beside.append([part.strip() for part in line[len("beside ") :].split("|")])
            elif line and not line.startswith("#"):
                rows.append(Row(number, line))
    return rows, beside


def lines_of(call, faults, rows):
    """The lines of a call's refusals: of which line of the data, which, what stays, and by which clause."""
    left, lines = list(faults), []
    for row in [row for row in rows if row.tells(call)]:
        row.used = True
        told = left if row.faults == ["*"] else row.faults
        for fault in told:
            if fault not in left:
                raise Bad(f"refusals.txt:{row.number}: {call.name} has no refusal {fault}, or it is told twice")
        left = [fault for fault in left if fault not in told]
        clauses = "**open**" if row.clauses == ["open"] else ", ".join(call.clause(name) for name in row.clauses)
        lines.append((row.number, ", ".join(f"`{fault}`" for fault in told), row.text, clauses))
    if left:
        raise Bad(f"{call.crate} {call.name}: nothing tells of {', '.join(left)}")
    return lines


HEAD = """# What stays after a refusal

A call that refuses answers a fault. What stands then of what it was lent to change (`&mut`) is a clause of its contract, the last column. `tests/refusals.py` makes this page: calls, faults and names of clauses are read from the sources, and what a clause says from `tests/refusals.txt`. **open**: no clause says what stays.

A call that is lent nothing to change changes nothing, and isn't listed. What a call takes by value is gone, whatever it answers. Memory that a call has taken may stay taken (`spare`, room) where no clause says that nothing changed. A count of faults never falls, and rises where `Failed`, `ReadFault`, `WriteFault` or `LinkFault` is answered; what stands beside the slot, out or link that was lent is kept (`used`, `faults`, `beside`).
"""


def page(sources, rows, beside):
    """The text of the page, and how many refusals are told and open."""
    told, opened, table = 0, 0, {}
    for call in filter(lambda call: call.changes, sources.calls):
        for number, faults, text, clauses in lines_of(call, sources.faults(call), rows):
            opened += clauses == "**open**"
            told += clauses != "**open**"
            table.setdefault((number, f"`{call.crate}`", faults, text, clauses), []).append(f"`{call.name}`")
    cells = [(crate, ", ".join(names), faults, text, clauses) for (_number, crate, faults, text, clauses), names in sorted(table.items())]
    for row in rows:
        if not row.used:
            raise Bad(f"refusals.txt:{row.number}: there is no such call")
    names = {(call.crate, call.name) for call in sources.calls} | {(crate, "") for crate in sources.below}
    for where, _text in beside:
        crate, _, name = where.partition(" ")
        if not name or crate not in sources.below or ((crate, name) not in names and not is_named(crate, name)):
            raise Bad(f"refusals.txt: beside {where}: there is no such call")
    lines = [HEAD, "| Crate | Calls | Refusals | What stays | By |", "|---|---|---|---|---|"]
    above = ""
    for crate, *cell in cells:
        lines.append(f"|{'' if crate == above else f' {crate}'} | {' | '.join(cell)} |")
        above = crate
    lines += ["", "No clause says this either, beside refusals:", ""]
    lines += [f"- `{where.partition(' ')[0]}` `{where.partition(' ')[2]}`: {text}" for where, text in beside]
    changing = sum(call.changes for call in sources.calls)
    summary = f"{len(sources.calls)} public calls may refuse. {changing} are lent something to change: what stays is told {told} times, and open {opened} times. {len(sources.calls) - changing} are not"
    return "\n".join([*lines, "", summary + ".", ""]), summary


def is_named(crate, name):
    """Whether a crate's sources have a function of this name, a refusing one or not."""
    last = name.split("::")[-1]
    for path in glob.glob(os.path.join(TOP, "crates", crate, "src", "*.rt")):
        with open(path, encoding="utf-8") as file:
            if re.search(rf"\bpub fn {last}\b", file.read()):
                return True
    return False


def main(words):
    try:
        text, summary = page(Sources(), *rows_told())
    except Bad as bad:
        print(bad)
        return 1
    if words == ["check"]:
        with open(PAGE, encoding="utf-8") as file:
            if file.read() != text:
                print("docs/REFUSALS.md is another text: run tests/refusals.py")
                return 1
    else:
        with open(PAGE, "w", encoding="utf-8") as file:
            file.write(text)
    print(summary)
    return 0


if __name__ == "__main__":
    sys.exit(main(sys.argv[1:]))
