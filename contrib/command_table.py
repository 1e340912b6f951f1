"""The table of commands, as the sources have it: the usage line of crates/commands/specs/Usage.antt, the rows of crates/commands/src/table.rt, and that of
`keep` in crates/commands/src/keep_words.rt."""
import os, re

ROOT = os.path.dirname(os.path.dirname(os.path.realpath(__file__)))
USAGE = "crates/commands/specs/Usage.antt"
TABLE = "crates/commands/src/table.rt"
KEEP = "crates/commands/src/keep_words.rt"


class Differs(Exception):
    """The two aren't the same table, or one has another form than was expected."""


def read(path):
    with open(f"{ROOT}/{path}", encoding="utf-8") as file:
        return file.read()


def rows():
    """Each command with the names of its operands; one that may come any number of times ends with ` ..`."""
    line = re.search(r'^usage_line = codes "usage: tlbox (.*)\\n"$', read(USAGE), re.MULTILINE)
    table = re.findall(r'Row \{\s*command: "(\w+)",\s*operands: &\[([^\]]*)\],\s*\}', read(TABLE))
    keep = re.findall(r"^/// `(keep [A-Z ]+)`$", read(KEEP), re.MULTILINE)
    if not line or not table or len(keep) != 1:
        raise Differs(f"no usage line in {USAGE}, or no rows in {TABLE} or {KEEP}")
    usage = [re.findall(r"\[[^\]]*\]|\S+", row) for row in line[1].split(", ")]
    fixed = [[row[0], *(word for word in row[1:] if word[0] != "[")] for row in usage]
    if fixed != [*([command, *re.findall(r'"(\w+)"', operands)] for command, operands in table), keep[0].split(" ")]:
        raise Differs(f"{USAGE}, {TABLE} and {KEEP} have other rows")
    return {row[0]: [word.strip("[]") for word in row[1:]] for row in usage}
