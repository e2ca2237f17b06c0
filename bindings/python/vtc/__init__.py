"""Messages of Linux traffic control (rtnetlink), checked, rewritten, shown and made by proved code.

    >>> import vtc
    >>> vtc.check(bytes(20))
    Verdict(fits=True, settled=True, canonical=True, length=20)
    >>> vtc.json(bytes(4), action=True)
    '{"header":{"family":"Unspec"},"attributes":[]}'
    >>> vtc.make('{"header":{"family":"Unspec"},"attributes":[]}', action=True)
    b'\\x00\\x00\\x00\\x00'
    >>> vtc.make('{"header":{"family":"Unspec"},"attributes":7}', action=True)
    Traceback (most recent call last):
    ...
    vtc.MakeError: /attributes: found 7, wanted a list
    >>> vtc.make_as_given('{"raw":"00ff"}', action=True)
    b'\\x00\\xff'

A message is bytes without the 16 bytes of its netlink header; with `action=True` it is one about actions (RTM_*ACTION,
which begins with struct tcamsg), else one about qdiscs, classes, filters or chains (which begins with struct tcmsg).

The library is the file that the environment variable VTC_LIBRARY names, or else the one in this package's folder, which a wheel
has, or else libvtc.so.0 where the system finds it. One that isn't for this module is an ImportError. `is_proved` tells whether
it was built by the proofs' toolchain; that of a wheel is built from plain Rust, made of the proved sources. If memory runs
out, each call raises MemoryError, but `json`, `make` and `make_as_given` of plain Rust end the process (SIGABRT): bound the
length of what you hand to these.

On the command line, with a message as hex, or as JSON:

    python3 -m vtc check HEX [--action]       what is said of it
    python3 -m vtc show HEX [--action]        its attributes, each on a line, indented by its depth
    python3 -m vtc settle HEX [--action]      the canonical bytes to which rewriting leads
    python3 -m vtc json HEX [--action]        it as JSON
    python3 -m vtc make JSON [--action]       the other way: the canonical message as hex
    python3 -m vtc given JSON [--action]      the bytes that JSON stands for, as hex
"""

from __future__ import annotations

import argparse
import ctypes
import enum
import os
import struct
import sys
from typing import Callable, Iterator, NamedTuple, Optional, Tuple, Union

__all__ = [
    "Attribute",
    "DoesNotFit",
    "MakeError",
    "Node",
    "Refused",
    "Status",
    "Table",
    "UnknownStatus",
    "Verdict",
    "attributes",
    "check",
    "index",
    "is_canonical",
    "is_proved",
    "json",
    "make",
    "make_as_given",
    "rewrite",
    "settle",
    "version",
]


class Status(enum.IntEnum):
    """How a call ended. 1 to 10 are the first fault of the bytes, in the order of reading."""

    OK = 0
    BUFFER_TOO_SMALL = 1
    FRAME_HEADER_SHORT = 2
    FRAME_TOO_LONG = 3
    FRAME_TOO_SHORT = 4
    WRONG_LENGTH = 5
    NOT_UTF8 = 6
    SELECTOR_SHORT = 7
    XSTATS_SHORT = 8
    MISSING_KIND = 9
    DUPLICATE_KIND = 10
    OUT_OF_MEMORY = 11
    DOES_NOT_FIT = 12
    NO_ROOM = 13
    END = 14
    NOT_JSON = 15
    NO_MESSAGE = 16


class Table(enum.IntEnum):
    """The tables that give an attribute's type its meaning."""

    MESSAGE = 0
    ACTION_MESSAGE = 1
    STATS2 = 2
    ACTIONS = 3
    ACTION = 4
    ACTION_OPTIONS = 5
    MIRROR = 6
    NAT = 7
    TUNNEL_KEY = 8
    OPTIONS = 9
    FQ_CODEL = 10
    INGRESS = 11
    FLOWER = 12
    U32 = 13
    MATCHALL = 14
    BPF = 15
    MPLS = 16
    LSE = 17


Bytes = Union[bytes, bytearray, memoryview]
"""What a message may be."""


class Verdict(NamedTuple):
    """What is said of a message."""

    fits: bool
    """It can be written."""
    settled: bool
    """Where it fits, the bytes that are written of it are read as the same message."""
    canonical: bool
    """The bytes are those that are written of it."""
    length: int
    """How many bytes are written of it; 0 where it doesn't fit."""


class Node(NamedTuple):
    """An attribute of a message."""

    offset: int
    """Where its value begins in the message, in bytes."""
    word: int
    """nla_type: the type and the two flags."""
    table: Table
    """The table that its type is of."""
    depth: int
    """In how many others it is."""
    value: bytes
    """Its value, without padding."""

    @property
    def type(self) -> int:
        """The type: the word without its flags."""
        return self.word & 0x3FFF


class Attribute(NamedTuple):
    """An attribute of a list."""

    offset: int
    """Where its value begins in the bytes."""
    word: int
    """nla_type: the type and the two flags."""
    value: bytes
    """Its value, without padding."""


class Refused(ValueError):
    """Bytes can't be read, for this first fault."""

    def __init__(self, status: Status, first: int, second: int, offset: int) -> None:
        super().__init__(f"{status.name.lower()} ({first}, {second}) at byte {offset}")
        self.status = status
        """Which fault it is."""
        self.first = first
        """Its first number, as vtc.h says; 0 where it has none."""
        self.second = second
        """Its second number."""
        self.offset = offset
        """Where it is in the bytes."""


class DoesNotFit(ValueError):
    """What was read can't be written: a value would have more than 65531 bytes."""


class MakeError(ValueError):
    """No message is made of a text. It says why, and names the place by a JSON pointer."""

    def __init__(self, status: Status, why: str) -> None:
        super().__init__(why)
        self.status = status
        """NOT_JSON, or NO_MESSAGE where it is JSON of which no message is made."""


class UnknownStatus(RuntimeError):
    """A call ended with a status that this module doesn't know."""

    def __init__(self, status: int) -> None:
        super().__init__(f"status {status}")
        self.status = status
        """The status."""


# ---- The library

_VERSION = (0, 3, 0)
_PLAIN_RUST = 0x80000000

# struct vtc_node: offset, len, word, table, depth
_NODE = struct.Struct("<QQHBB4x")


class _Attr(ctypes.Structure):
    _fields_ = [("offset", ctypes.c_size_t), ("len", ctypes.c_size_t), ("word", ctypes.c_uint16)]


class _Verdict(ctypes.Structure):
    _fields_ = [
        ("length", ctypes.c_size_t),
        ("fits", ctypes.c_uint8),
        ("settled", ctypes.c_uint8),
        ("canonical", ctypes.c_uint8),
    ]


class _Fault(ctypes.Structure):
    _fields_ = [("first", ctypes.c_size_t), ("second", ctypes.c_size_t), ("offset", ctypes.c_size_t)]


_SIZES = {_Attr: 24, _Verdict: 16, _Fault: 24}
for _struct, _size in _SIZES.items():
    if ctypes.sizeof(_struct) != _size:
        raise ImportError("vtc is for hosts of 64 bits")
if sys.byteorder != "little":
    raise ImportError("vtc is for little-endian hosts")



def _path() -> str:
    """The library's file, or its name where the system is to find it."""
    own = os.path.join(os.path.dirname(__file__), "libvtc.so.0")
    return os.environ.get("VTC_LIBRARY") or (own if os.path.exists(own) else "libvtc.so.0")


def _parts(number: int) -> Tuple[int, int, int]:
    return number >> 16 & 0xFF, number >> 8 & 0xFF, number & 0xFF


_lib = ctypes.CDLL(_path())
_lib.vtc_version.restype, _lib.vtc_version.argtypes = ctypes.c_uint32, []
_found = _parts(_lib.vtc_version())
if _found[0] != _VERSION[0] or _found < _VERSION:
    raise ImportError("vtc is %d.%d.%d, but %s is %d.%d.%d" % (*_VERSION, _path(), *_found))

_size_t, _p = ctypes.c_size_t, ctypes.POINTER
_bytes_in = [ctypes.c_char_p, _size_t]
# An address, and how many bytes or slots there are.
_room = [ctypes.c_void_p, _size_t]
_room_out = [*_room, _p(_size_t)]
_CALLS = {
    "is_canonical": (ctypes.c_uint8, _bytes_in),
    "index": (_size_t, [*_bytes_in, *_room]),
    "check": (ctypes.c_uint32, [*_bytes_in, _p(_Verdict), _p(_Fault)]),
    "rewrite": (ctypes.c_uint32, [*_bytes_in, *_room_out]),
    "settle": (ctypes.c_uint32, [*_bytes_in, *_room_out, _p(_size_t)]),
    "json": (ctypes.c_uint32, [*_bytes_in, *_room_out]),
    "make": (ctypes.c_uint32, [*_bytes_in, *_room_out, *_room_out]),
    "make_as_given": (ctypes.c_uint32, [*_bytes_in, *_room_out, *_room_out]),
}
for _name, (_result, _arguments) in _CALLS.items():
    for _prefix in ("vtc_", "vtc_action_"):
        _call = getattr(_lib, _prefix + _name)
        _call.restype, _call.argtypes = _result, _arguments
_lib.vtc_next.restype = ctypes.c_uint32
_lib.vtc_next.argtypes = [*_bytes_in, _p(_size_t), _p(_Attr)]


def _call_of(name: str, action: bool) -> Callable[..., int]:
    return getattr(_lib, ("vtc_action_" if action else "vtc_") + name)


def _message(data: Bytes) -> bytes:
    """Bytes of a message. An int, which `bytes` would take for a length, is no message."""
    if not isinstance(data, (bytes, bytearray, memoryview)):
        raise TypeError(f"a message is bytes, bytearray or memoryview, not {type(data).__name__}")
    return data if isinstance(data, bytes) else memoryview(data).tobytes()


def _address(buffer: bytearray) -> int:
    return ctypes.addressof(ctypes.c_char.from_buffer(buffer))


def _status(number: int) -> Status:
    try:
        return Status(number)
    except ValueError:
        raise UnknownStatus(number) from None


def _raise(status: int, message: bytes, action: bool) -> None:
    """Raises what a status says, unless it is OK."""
    if status == Status.OK:
        return
    if status == Status.OUT_OF_MEMORY:
        raise MemoryError("vtc: out of memory")
    if status == Status.DOES_NOT_FIT:
        raise DoesNotFit("a value would have more than 65531 bytes")
    if Status.OK < status < Status.OUT_OF_MEMORY:
        check(message, action)
    raise UnknownStatus(status)


def _with_room(name: str, data: bytes, action: bool, *more: object) -> Tuple[int, bytes]:
    """How a call ends, and what it writes into a buffer, which is made larger where it is too small."""
    call, length = _call_of(name, action), _size_t(0)
    room = 2 * len(data) + 256
    while True:
        buffer = bytearray(room)
        status = call(data, len(data), _address(buffer), room, ctypes.byref(length), *more)
        if status != Status.NO_ROOM:
            return status, bytes(memoryview(buffer)[: length.value])
        room = length.value


def _written(name: str, data: Bytes, action: bool, *more: object) -> bytes:
    """What a call on a message writes."""
    message = _message(data)
    status, written = _with_room(name, message, action, *more)
    _raise(status, message, action)
    return written


# ---- Calls


def version() -> Tuple[int, int, int]:
    """The version of the library."""
    return _found


def is_proved() -> bool:
    """True if the library was built by the proofs' toolchain, False if it was built from plain Rust, where `json`, `make` and
    `make_as_given` end the process if memory runs out."""
    return not _lib.vtc_version() & _PLAIN_RUST


def check(message: Bytes, action: bool = False) -> Verdict:
    """What is said of a message. Raises Refused where it can't be read."""
    message = _message(message)
    verdict, fault = _Verdict(), _Fault()
    status = _call_of("check", action)(message, len(message), ctypes.byref(verdict), ctypes.byref(fault))
    if status == Status.OUT_OF_MEMORY:
        raise MemoryError("vtc: out of memory")
    if status != Status.OK:
        raise Refused(_status(status), fault.first, fault.second, fault.offset)
    return Verdict(verdict.fits == 1, verdict.settled == 1, verdict.canonical == 1, verdict.length)


def is_canonical(message: Bytes, action: bool = False) -> bool:
    """True if the bytes are a canonical message."""
    message = _message(message)
    return _call_of("is_canonical", action)(message, len(message)) == 1


def index(message: Bytes, action: bool = False) -> list[Node]:
    """The attributes of a message, each before those in it: those before the first broken one."""
    message = _message(message)
    room = max(len(message) // 4, 1)
    nodes = bytearray(room * _NODE.size)
    count = _call_of("index", action)(message, len(message), _address(nodes), room)
    return [
        Node(offset, word, Table(table), depth, message[offset : offset + length])
        for offset, length, word, table, depth in _NODE.iter_unpack(nodes[: count * _NODE.size])
    ]


def attributes(data: Bytes, start: int = 0) -> Iterator[Attribute]:
    """The attributes of a list that begins at a place of some bytes. Raises Refused where one is broken, with its
    place and no numbers."""
    return _attributes(_message(data), start)


def _attributes(data: bytes, start: int) -> Iterator[Attribute]:
    at, attr = _size_t(start), _Attr()
    while True:
        status = _lib.vtc_next(data, len(data), ctypes.byref(at), ctypes.byref(attr))
        if status == Status.END:
            return
        if status != Status.OK:
            raise Refused(_status(status), 0, 0, at.value)
        yield Attribute(attr.offset, attr.word, data[attr.offset : attr.offset + attr.len])


def rewrite(message: Bytes, action: bool = False) -> bytes:
    """The bytes that are written of a message. Raises Refused, or DoesNotFit."""
    return _written("rewrite", message, action)


def settle(message: Bytes, action: bool = False) -> Tuple[bytes, int]:
    """The canonical bytes to which rewriting leads, and after how many rewrites. Raises Refused, or DoesNotFit."""
    rewrites = _size_t(0)
    settled = _written("settle", message, action, ctypes.byref(rewrites))
    return settled, rewrites.value


def json(message: Bytes, action: bool = False) -> str:
    """The JSON of bytes, whatever they are. If memory runs out: MemoryError, or SIGABRT unless `is_proved()`."""
    return _written("json", message, action).decode()


def make(text: str, action: bool = False) -> bytes:
    """The canonical bytes of the message that this JSON stands for. Raises MakeError; without memory as `json`."""
    return _made("make", text, action)


def make_as_given(text: str, action: bool = False) -> bytes:
    """The bytes of which this JSON is shown, whatever they are. Raises MakeError; without memory as `json`."""
    return _made("make_as_given", text, action)


def _made(name: str, text: str, action: bool) -> bytes:
    if not isinstance(text, str):
        raise TypeError(f"JSON is a str, not {type(text).__name__}")
    why, why_length = bytearray(4096), _size_t(0)
    status, made = _with_room(name, text.encode(), action, _address(why), len(why), ctypes.byref(why_length))
    if status == Status.OK:
        return made
    if status == Status.OUT_OF_MEMORY:
        raise MemoryError("vtc: out of memory")
    if status in (Status.NOT_JSON, Status.NO_MESSAGE):
        raise MakeError(Status(status), why[: why_length.value].decode())
    raise UnknownStatus(status)


# ---- The command line


def _show(message: bytes, action: bool) -> str:
    nodes, lines = index(message, action), []
    for it, after in zip(nodes, [*nodes[1:], None]):
        # The value of one that holds others is theirs.
        holds = after is not None and after.depth > it.depth
        value = "" if holds else f": {it.value.hex() or 'empty'}"
        lines.append(f"{'  ' * it.depth}{it.table.name.lower()} {it.type}{value}")
    return "\n".join(lines)


def _check(message: bytes, action: bool) -> str:
    verdict = check(message, action)
    words = {name: "yes" if value else "no" for name, value in verdict._asdict().items()}
    words["length"] = str(verdict.length)
    return "\n".join(f"{name} {word}" for name, word in words.items())


def _of_hex(call: Callable[[bytes, bool], str]) -> Callable[[str, bool], str]:
    return lambda text, action: call(bytes.fromhex(text), action)


_COMMANDS = {
    "check": _of_hex(_check),
    "show": _of_hex(_show),
    "settle": _of_hex(lambda message, action: settle(message, action)[0].hex()),
    "json": _of_hex(json),
    "make": lambda text, action: make(text, action).hex(),
    "given": lambda text, action: make_as_given(text, action).hex(),
}


def main(words: Optional[list[str]] = None) -> int:
    """Runs the command line, and returns its exit status: 0, or 1 where the message can't be read, written or made."""
    parser = argparse.ArgumentParser(prog="vtc", description="Messages of Linux traffic control, as hex and JSON.")
    parser.add_argument("command", choices=sorted(_COMMANDS))
    parser.add_argument("message", help="hex, without the netlink header; for make and given JSON")
    parser.add_argument("--action", action="store_true", help="it is a message about actions")
    asked = parser.parse_args(words)
    try:
        print(_COMMANDS[asked.command](asked.message, asked.action))
    except (Refused, DoesNotFit, MakeError) as error:
        print(f"vtc: {error}", file=sys.stderr)
        return 1
    except ValueError as error:
        parser.error(str(error))
    return 0
