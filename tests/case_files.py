"""The runs of case files, for the scripts beside this one: their words, files and links, and not how they are to end."""
import os
import re


class Run:
    """A run: where it stands, its words, the files that it finds, and what its links give. It is plain where no call fails or gives little."""

    def __init__(self, where, words, files, links, plain):
        self.where, self.words, self.links, self.plain = where, words, links, plain
        self.files = {name: bytes(content) for name, content in files.items()}


def number_in(form, number):
    """A number of a block in the form that stands between `{n` and `}`."""
    by, _, how = form.partition(":")
    number = number * int(by[1:]) if by.startswith("*") else number + int(by or "0")
    if how == "x":
        return number.to_bytes(4, "big").hex()
    return number.to_bytes(4, "little").hex() if how == "le" else str(number)


def lines_of(text):
    """The lines of a case file, those of blocks for each number, with their numbers."""
    block = None
    for at, line in enumerate(text.split("\n"), 1):
        found = re.fullmatch(r"each (\d+)\.\.(\d+)", line)
        if found:
            block = range(int(found[1]), int(found[2])), []
        elif line == "end":
            for number in block[0]:
                for inner, told in block[1]:
                    yield inner, re.sub(r"\{n([^}]*)\}", lambda form, n=number: number_in(form[1], n), told)
            block = None
        elif block is not None:
            block[1].append((at, line))
        else:
            yield at, line


def digits(text):
    return bytes.fromhex(text.replace(" ", ""))


def words_in(text):
    """The words of a run: one in single quotes may have spaces."""
    return [word[1:-1] if word.startswith("'") else word for word in re.findall(r"'[^']*'|[^ ]+", text)]


def change(content, word, rest):
    """Does to a file or link what a line says."""
    first, _, more = rest.partition(" ")
    if word in ("text", "line"):
        content += rest.encode() + (b"\n" if word == "line" else b"")
    elif word == "hex":
        content += digits(rest)
    elif word == "repeat":
        content += more.encode() * int(first)
    elif word == "pad":
        content += digits(more) * (int(first) - len(content))
    elif word == "chop":
        del content[len(content) - int(rest) :]


def runs_of(path):
    """The runs of a case file."""
    files, links, last, plain = {}, [], None, True
    with open(path, encoding="utf-8") as file:
        text = file.read()
    for at, line in lines_of(text):
        word, _, rest = line.partition(" ")
        name, _, more = rest.partition(" ")
        if word == "case":
            files = {}
        elif word == "file":
            last = files[name] = bytearray(more.encode())
        elif word == "load":
            with open(os.path.join(os.path.dirname(path), more), "rb") as file:
                last = files[name] = bytearray(file.read())
        elif word == "link":
            last = bytearray(digits(rest))
            links.append(last)
        elif word in ("fails", "keeper-fails", "room", "reads-at-most"):
            plain = False
        elif word == "run":
            yield Run(f"{os.path.basename(path)}:{at}", words_in(rest), files, [bytes(link) for link in links], plain)
            links, plain = [], True
        elif word:
            change(last, word, rest)
