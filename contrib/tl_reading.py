"""What the scripts of this folder share: the declarations of a schema with the offsets of their parts, its types, and walks over bytes and JSON.

It reads the texts that `tlbox check` accepts, and of one that is refused as many declarations as it can. It checks nothing.
"""
import functools, re, zlib
from dataclasses import dataclass, field

PLAIN = {"int": 4, "#": 4, "long": 8, "double": 8, "int128": 16, "int256": 32}  # the bytes of a number and its like
STRINGS = ("string", "bytes")
LINES = (*(name for name in PLAIN if name != "#"), *STRINGS, "vector")  # the names of built-in types
VECTOR = 0x1CB5C415
PACKED = 0x3072CFA1

SPACE = rb"[ \t\r\n]+|//[^\n]*|/\*.*?\*/"
TOKEN = re.compile(rb"(" + SPACE + rb")|---|[A-Za-z0-9_]+|[#:;=?.!%{}\[\]<>()*,+]", re.DOTALL)


class Unread(Exception):
    """The text has another form than was expected."""


@dataclass
class Token:
    text: str
    start: int
    end: int
    gap: bool  # white space or a comment stands before it


@dataclass
class Type:
    """A name with its arguments, or `%` with one."""
    name: str
    args: list
    start: int

    def parts(self):
        """This type and all that stand in it."""
        yield self
        for arg in self.args:
            yield from arg.parts()


@dataclass
class Field:
    name: str
    start: int
    type: object  # a Type; "#"; or None, a call
    variable: str = None  # what a call results in
    condition: tuple = None  # the field and the bit that it stands by, and their offset
    described: tuple = (0, 0)  # its tokens

    @property
    def is_flag(self):
        return self.condition is not None and isinstance(self.type, Type) and self.type.name == "true" and not self.type.args


@dataclass
class Declaration:
    index: int
    tokens: list
    is_function: bool
    name: str = ""
    is_line: bool = False  # the line of a built-in type
    is_read: bool = False  # all of it was read
    written: int = None  # its number, where one is written
    number_start: int = 0
    variables: list = field(default_factory=list)  # names and offsets
    fields: list = field(default_factory=list)
    result: Type = None

    @property
    def start(self):
        return self.tokens[0].start

    @property
    def end(self):
        return self.tokens[-1].end

    @functools.cached_property
    def number(self):
        """Its number: as written, or the CRC32 of its description."""
        if self.is_line:
            return VECTOR if self.name == "vector" else 0
        return zlib.crc32(self.description().encode()) if self.written is None else self.written

    def description(self):
        left_out, is_bytes = set(), set()
        for i, token in enumerate(self.tokens):
            if token.text == "#" and token.start == self.number_start - 1:
                left_out |= {i, i + 1}
            elif token.text in "{};><":
                left_out.add(i)
        for one in self.fields:
            first, end = one.described
            if one.is_flag:
                left_out |= set(range(first, end))
            elif isinstance(one.type, Type) and one.type.name == "bytes":
                is_bytes |= {i for i in range(first + 2, end) if self.tokens[i].text == "bytes" and self.tokens[i].start == one.type.start}
        text, gap = "", False
        for i, token in enumerate(self.tokens):
            gap = gap or token.gap
            if i not in left_out:
                text += (" " if gap and text else "") + ("string" if i in is_bytes else token.text)
                gap = False
            gap = gap or token.text == "<"
        return text


def is_word(token):
    return token is not None and (token.text[0].isalnum() or token.text[0] == "_")


def tokens_of(data):
    """The tokens of bytes, up to the first byte that begins none."""
    tokens, at, gap = [], 0, False
    while match := TOKEN.match(data, at):
        if match[1] is None:
            tokens.append(Token(match[0].decode(), at, match.end(), gap))
            gap = False
        else:
            gap = True
        at = match.end()
    return tokens


class Reader:
    """Reads types and declarations from tokens."""

    def __init__(self, tokens):
        self.tokens, self.at = tokens, 0

    def next(self, ahead=0):
        return self.tokens[self.at + ahead] if self.at + ahead < len(self.tokens) else None

    def sees(self, text, ahead=0):
        token = self.next(ahead)
        return token is not None and token.text == text

    def take(self, text=None):
        token = self.next()
        if token is None or (not is_word(token) if text is None else token.text != text):
            raise Unread
        self.at += 1
        return token

    def name(self):
        """A name, with its namespace, and its offset."""
        first = self.take()
        if self.sees(".") and is_word(self.next(1)):
            self.take(".")
            return f"{first.text}.{self.take().text}", first.start
        return first.text, first.start

    def term(self):
        if self.sees("("):
            self.take("(")
            inside = self.expression()
            self.take(")")
            return inside
        if self.sees("%"):
            start = self.take("%").start
            return Type("%", [self.term()], start)
        name, start = self.name()
        args = []
        if self.sees("<"):
            while self.sees("," if args else "<"):
                self.at += 1
                args.append(self.expression())
            self.take(">")
        return Type(name, args, start)

    def expression(self):
        is_name = is_word(self.next())
        of = self.term()
        if is_name and not of.args:
            while self.sees("(") or self.sees("%") or is_word(self.next()):
                of.args.append(self.term())
        return of

    def field(self):
        first = self.at
        name = self.take()
        self.take(":")
        one = Field(name.text, name.start, None)
        if self.sees("#"):
            self.take("#")
            one.type = "#"
        elif self.sees("!"):
            self.take("!")
            one.variable = self.take().text
        else:
            if self.sees(".", 1) and is_word(self.next(2)) and self.next(2).text[0].isdigit():
                of, _, bit = self.take(), self.take("."), self.take()
                self.take("?")
                one.condition = of.text, int(bit.text), of.start
            one.type = self.term()
        one.described = first, self.at
        return one

    def declaration(self, one):
        one.name, _ = self.name()
        if self.sees("#") and is_word(self.next(1)):
            self.take("#")
            number = self.take()
            one.written, one.number_start = int(number.text, 16), number.start
        if one.name in LINES:
            one.is_line, one.is_read, one.is_function = True, True, False
            return
        while not self.sees("="):
            if self.sees("{"):
                self.take("{")
                variable = self.take()
                one.variables.append((variable.text, variable.start))
                for text in (":", None, "}"):
                    self.take(text)
            else:
                one.fields.append(self.field())
        self.take("=")
        one.result = self.expression()
        self.take(";")
        one.is_read = True


def declarations_of(data):
    """The declarations of a text in their order; one that can't be read has its tokens, and what stands before the fault."""
    tokens, at, found, in_functions = tokens_of(data), 0, [], False
    while at < len(tokens):
        if tokens[at].text == "---":
            in_functions = at + 1 < len(tokens) and tokens[at + 1].text == "functions"
            at += 3
            continue
        end = next((i + 1 for i in range(at, len(tokens)) if tokens[i].text == ";"), len(tokens))
        one = Declaration(len(found), tokens[at:end], in_functions)
        try:
            Reader(one.tokens).declaration(one)
        except (Unread, ValueError, RecursionError):
            pass
        found.append(one)
        at = end
    return found


class Schema:
    """The declarations of a text, by name and number. A closed type is a tuple: of a kind, and of what belongs to it."""

    def __init__(self, data):
        self.data = data
        self.declarations = declarations_of(data)
        self.constructors, self.functions, self.types = {}, {}, {}
        for one in self.declarations:
            if one.is_line or not one.is_read:
                continue
            (self.functions if one.is_function else self.constructors).setdefault(one.name, one)
            if not one.is_function and is_type_name(one.result.name):
                self.types.setdefault(one.result.name, []).append(one)

    def type_of(self, word):
        """The closed type that a word of a command line names."""
        reader = Reader(tokens_of(word.encode()))
        if [token.text for token in reader.tokens] == ["!"]:
            return ("call",)
        of = reader.expression()
        if reader.next() is not None:
            raise Unread
        return self.closed(of, {})

    def closed(self, of, meant):
        """The closed type that a Type is, with these in place of variables."""
        if of == "#":
            return ("#",)
        if of.name in meant:
            return meant[of.name]
        args = tuple(self.closed(arg, meant) for arg in of.args if of.name != "%")
        if of.name in PLAIN or of.name in STRINGS:
            return (of.name,)
        if of.name in ("vector", "Vector") and len(args) == 1:
            return ("vector", of.name == "Vector", args[0])
        if of.name == "%":
            inner = self.closed(of.args[0], meant)
            if inner[0] == "vector":
                return ("vector", False, inner[2])
            if inner[0] == "boxed" and len(self.types[inner[1]]) == 1:
                return ("bare", self.types[inner[1]][0], inner[2])
        elif is_type_name(of.name):
            if of.name in self.types:
                return ("boxed", of.name, args)
        elif of.name in self.constructors:
            return ("bare", self.constructors[of.name], args)
        raise Unread

    def members(self, of):
        """The declarations of which a value of this closed type may be, for a record or a call."""
        if of[0] == "call":
            return list(self.functions.values())
        return self.types[of[1]] if of[0] == "boxed" else [of[1]]

    def arguments(self, of, one):
        """What stands in place of the variables of a declaration, in a value of this closed type."""
        return dict(zip((name for name, _ in one.variables), of[2] if len(of) == 3 else ()))


def is_type_name(name):
    return name.split(".")[-1][:1].isupper()


def text_of(of):
    """A closed type as a word."""
    if of[0] == "call":
        return "!"
    if of[0] == "vector":
        return f"{'Vector' if of[1] else 'vector'}<{text_of(of[2])}>"
    if of[0] in ("boxed", "bare"):
        name = of[1] if of[0] == "boxed" else of[1].name
        return name + (f"<{','.join(text_of(arg) for arg in of[2])}>" if of[2] else "")
    return of[0]


class Found(Exception):
    """The walk is at the item that was asked for, which is this; or it can't go on."""


class Walk:
    """Goes over the bytes of values, to the item at an offset. `path` leads to the item: declarations with fields, and indices."""

    def __init__(self, schema, data, stop, at=0):
        self.schema, self.data, self.stop = schema, data, stop
        self.at, self.path = at, []

    def item(self, size, what):
        """Passes over an item of this many bytes."""
        if self.at >= self.stop or self.at + size > len(self.data):
            raise Found(what)
        self.at += size
        return self.data[self.at - size : self.at]

    def word(self, what):
        return int.from_bytes(self.item(4, what), "little")

    def string(self, what):
        first = self.data[self.at : self.at + 4]
        size, head = (int.from_bytes(first[1:4], "little"), 4) if first[:1] == b"\xfe" else (int.from_bytes(first[:1], "little"), 1)
        self.item((head + size + 3) // 4 * 4, what)

    def value(self, of):
        """Passes over a value. Of a call, gives the type that it is answered in."""
        what = text_of(of)
        if of[0] in PLAIN:
            return self.item(PLAIN[of[0]], what)
        if of[0] in STRINGS:
            return self.string(what)
        if of[0] == "vector":
            if of[1] and self.word(f"the number of a boxed vector, {what}") != VECTOR:
                raise Found(what)
            for index in range(self.word(f"the count of a vector, {what}")):
                self.step(index, of[2])
            return None
        one = of[1] if of[0] == "bare" else None
        if one is None:
            number = self.word("the number of a function" if of[0] == "call" else f"the number of a constructor of {what}")
            one = next((each for each in self.schema.members(of) if each.number == number), None)
            if one is None:
                raise Found(what)
        return self.fields(one, self.schema.arguments(of, one))

    def fields(self, one, meant):
        bits = {}
        for each in one.fields:
            if each.condition and not bits.get(each.condition[0], 0) >> each.condition[1] & 1:
                continue
            if each.type == "#":
                bits[each.name] = int.from_bytes(self.step((one, each), ("#",)), "little")
            elif each.variable:
                meant[each.variable] = self.step((one, each), ("call",))
            elif not each.is_flag:
                self.step((one, each), self.schema.closed(each.type, meant))
        return self.schema.closed(one.result, meant) if one.is_function else None

    def step(self, part, of):
        self.path.append(part)
        got = self.value(of)
        self.path.pop()
        return got


def parts_of_path(schema, of, json, path):
    """The parts that the indices of a path lead through in a value of JSON: declarations with fields, and indices. Then what JSON stands there, as a
    list of none or one, and its closed type."""
    parts, here = [], [json]
    for index in path:
        if of[0] == "vector":
            parts.append(index)
            of = of[2]
            here = here[0][index : index + 1] if here and isinstance(here[0], list) else []
            continue
        if of[0] not in ("boxed", "bare", "call"):
            raise Unread
        record = here[0] if here and isinstance(here[0], dict) else {}
        members = schema.members(of)
        one = next((each for each in members if each.name == record.get("_")), members[0] if len(members) == 1 else None)
        if one is None or index >= len(one.fields):
            raise Unread
        each = one.fields[index]
        parts.append((one, each))
        here = [record[each.name]] if each.name in record else []
        if each.is_flag:
            of = ("true",)
        else:
            of = ("call",) if each.variable else schema.closed(each.type, schema.arguments(of, one))
    return parts, here, of


def path_text(parts):
    """The parts as jq writes them."""
    text = ""
    for part in parts:
        text += (f"[{part}]" if text else f".[{part}]") if isinstance(part, int) else f".{part[1].name}"
    return text or "."
