"""The calls of a schema that is open: of the library, or of the program."""
from __future__ import annotations

import ctypes
import functools
import os
import shutil
import subprocess
import tempfile
from typing import Callable, List, Type, Union

VERSION = 1
DONE, REFUSED, MEMORY = 0, 1, 5
ROOM = 4096

_POINTER, _SIZE, _WORD, _BYTES = ctypes.c_void_p, ctypes.c_size_t, ctypes.c_uint32, ctypes.c_char_p
_OUT = (_POINTER, _SIZE, _POINTER)
_PARAMETERS = {
    "tlbox_open": (_POINTER, _BYTES, _SIZE, *_OUT),
    "tlbox_type": (_POINTER, _BYTES, _SIZE, _POINTER, *_OUT),
    "tlbox_check": (_POINTER, *_OUT),
    "tlbox_decode": (_POINTER, _WORD, _BYTES, _SIZE, *_OUT),
    "tlbox_encode": (_POINTER, _WORD, _BYTES, _SIZE, *_OUT),
    "tlbox_layers": (_BYTES, _SIZE, _BYTES, _SIZE, _BYTES, _SIZE, *_OUT),
    "tlbox_last": (_POINTER, *_OUT),
    "tlbox_close": (_POINTER,),
    "tlbox_version": (),
}
_NOTHING = ("tlbox_last", "tlbox_close")

Refuse = Callable[[bytes], Exception]


def _loaded(name: str) -> Union[ctypes.CDLL, None]:
    """The library of a name, if it is there and is of this interface."""
    try:
        library = ctypes.CDLL(name)
        for call, parameters in _PARAMETERS.items():
            getattr(library, call).argtypes = parameters
            getattr(library, call).restype = None if call in _NOTHING else _WORD
    except (OSError, AttributeError):
        return None
    return library if library.tlbox_version() == VERSION else None


@functools.lru_cache(maxsize=None)
def _library(said: Union[str, None]) -> Union[ctypes.CDLL, None]:
    """The library that the variable names, which has to be there; or one of the places where it is looked for. An empty name is none."""
    if said is not None:
        library = _loaded(said) if said else None
        if said and library is None:
            raise OSError(f"TLBOX_LIBRARY: {said} isn't a library of tlbox {VERSION}")
        return library
    beside = os.path.join(os.path.dirname(os.path.abspath(__file__)), "libtlbox.so.1")
    return _loaded(beside) or _loaded("libtlbox.so.1")


def find() -> "Type[Calls]":
    """The library's calls, if it is there, else the program's."""
    return CalledProgram if _library(os.environ.get("TLBOX_LIBRARY")) is None else CalledLibrary


def _made(status: int, made: bytes, refuse: Refuse) -> bytes:
    """What a call made, or what is raised in its place."""
    if status == DONE:
        return made
    if status == REFUSED:
        raise refuse(made)
    if status == MEMORY:
        raise MemoryError("tlbox")
    raise ValueError(f"tlbox: status {status}")


class Calls:
    """A schema that is open. `refuse` makes of a line what is raised."""

    def __init__(self, text: bytes, refuse: Refuse) -> None:
        raise NotImplementedError

    def type(self, name: bytes) -> int:
        """Keeps a type, and gives its number."""
        raise NotImplementedError

    def check(self) -> bytes:
        raise NotImplementedError

    def decode(self, of: int, data: bytes) -> bytes:
        raise NotImplementedError

    def encode(self, of: int, text: bytes) -> bytes:
        raise NotImplementedError

    def close(self) -> None:
        raise NotImplementedError

    @staticmethod
    def layers(old: bytes, new: bytes, of: bytes, refuse: Refuse) -> bytes:
        """What is told of two schemas, which needs none that is open."""
        raise NotImplementedError


class CalledLibrary(Calls):
    """By the library."""

    def __init__(self, text: bytes, refuse: Refuse) -> None:
        library = _library(os.environ.get("TLBOX_LIBRARY"))
        assert library is not None
        self._library, self._refuse = library, refuse
        # What C is given the addresses of, for as long as this object is there.
        self._handle, self._length, self._number = _POINTER(), _SIZE(), _WORD()
        self._at, self._told = ctypes.addressof(self._handle), ctypes.addressof(self._length)
        self._make_room(ROOM)
        self._answer(library.tlbox_open(self._at, text, len(text), self._out, self._room, self._told))

    def type(self, name: bytes) -> int:
        number = ctypes.addressof(self._number)
        self._answer(self._library.tlbox_type(self._at, name, len(name), number, self._out, self._room, self._told))
        return self._number.value

    def check(self) -> bytes:
        return self._answer(self._library.tlbox_check(self._at, self._out, self._room, self._told))

    def decode(self, of: int, data: bytes) -> bytes:
        return self._answer(self._library.tlbox_decode(self._at, of, data, len(data), self._out, self._room, self._told))

    def encode(self, of: int, text: bytes) -> bytes:
        return self._answer(self._library.tlbox_encode(self._at, of, text, len(text), self._out, self._room, self._told))

    def close(self) -> None:
        self._library.tlbox_close(self._at)

    @staticmethod
    def layers(old: bytes, new: bytes, of: bytes, refuse: Refuse) -> bytes:
        library = _library(os.environ.get("TLBOX_LIBRARY"))
        assert library is not None
        out, length = ctypes.create_string_buffer(ROOM), _SIZE()
        status = library.tlbox_layers(old, len(old), new, len(new), of, len(of), ctypes.addressof(out), ROOM, ctypes.addressof(length))
        return _made(status, ctypes.string_at(out, length.value), refuse)

    def __del__(self) -> None:
        if hasattr(self, "_at"):
            self.close()

    def _make_room(self, size: int) -> None:
        self._bytes = ctypes.create_string_buffer(size)
        self._out, self._room = ctypes.addressof(self._bytes), size

    def _answer(self, status: int) -> bytes:
        """The bytes of an answer."""
        size = self._length.value
        if size > self._room:
            self._make_room(size + size // 2)
            self._library.tlbox_last(self._at, self._out, self._room, self._told)
        made = ctypes.string_at(self._out, size)
        if self._room > 64 * ROOM:
            self._make_room(ROOM)
        return _made(status, made, self._refuse)


class CalledProgram(Calls):
    """By a run of the program for each call, over files in a folder that is removed with this object."""

    def __init__(self, text: bytes, refuse: Refuse) -> None:
        self._runs = _Runs(refuse)
        self._names: List[bytes] = []
        self._schema = self._runs.written("schema", text)
        self._list = self._runs.run("check", self._schema)

    def type(self, name: bytes) -> int:
        try:
            self._runs.run("decode", self._schema, _word(name), self._runs.written("input", b""))
        except Exception as fault:
            if getattr(fault, "what", "input") != "input":
                raise
        self._names.append(name)
        return len(self._names) - 1

    def check(self) -> bytes:
        return self._list

    def decode(self, of: int, data: bytes) -> bytes:
        return self._runs.run("decode", self._schema, self._names[of], self._runs.written("input", data))

    def encode(self, of: int, text: bytes) -> bytes:
        return self._runs.run("encode", self._schema, self._names[of], self._runs.written("input", text))

    def close(self) -> None:
        self._runs.close()

    @staticmethod
    def layers(old: bytes, new: bytes, of: bytes, refuse: Refuse) -> bytes:
        runs = _Runs(refuse)
        try:
            return runs.run("layers", runs.written("old", old), runs.written("new", new), _word(of))
        finally:
            runs.close()


def _word(name: bytes) -> bytes:
    """A type as a word of a command line, which has no zero in it. The program takes one that is empty or begins with `-` for none of a type."""
    if not name or name.startswith(b"-") or b"\0" in name:
        raise ValueError("a type that can't be told to the program")
    return name


class _Runs:
    """Runs of the program over files in a folder of their own."""

    def __init__(self, refuse: Refuse) -> None:
        program = os.environ.get("TLBOX_PROGRAM") or shutil.which("tlbox")
        if program is None:
            raise OSError("tlbox: neither libtlbox.so.1 nor the program tlbox is there")
        self._program, self._refuse = program, refuse
        self._folder = tempfile.TemporaryDirectory(prefix="tlbox-")

    def written(self, name: str, data: bytes) -> str:
        """The path of a file with these bytes."""
        path = os.path.join(self._folder.name, name)
        with open(path, "wb") as file:
            file.write(data)
        return path

    def run(self, *words: Union[str, bytes]) -> bytes:
        """What the program writes."""
        run = subprocess.run([self._program, *words], stdin=subprocess.DEVNULL, capture_output=True)
        if run.returncode not in (DONE, REFUSED, MEMORY):
            raise OSError(f"tlbox: status {run.returncode}: {run.stderr.decode('utf-8', 'replace').strip()}")
        return _made(run.returncode, run.stderr if run.returncode == REFUSED else run.stdout, self._refuse)

    def close(self) -> None:
        self._folder.cleanup()
