"""libkrbls by ctypes, of octets in memory, without a process: judgements, the record of a message and its items, messages as
JSON and back, rows of cells, and where the octets lie of what is listed.

The library is the one that the environment variable KRBLS_LIBRARY names, or libkrbls.so.1 where the system looks. It is loaded
at the first call. Calls keep nothing, so threads may call at once; MemoryError is raised if memory runs out.
"""

from __future__ import annotations

import ctypes
import functools
import json
import os
from typing import Any, Callable, Iterable, List, NamedTuple, Optional, Tuple, Union

from .errors import LibraryNotFound, WrongOption
from .item_records import ItemRecord

__all__ = [
    "Judged", "REASONS", "Refusal", "Rows", "Span", "are_octets", "decoded", "encoded", "fields", "frame", "front", "is_there",
    "items", "judge", "message_line", "spans",
]  # fmt: skip

#: The reasons by their numbers, from 1 on.
REASONS = (
    "HighBit", "TooLong", "Empty", "Tag", "Overrun", "Indefinite", "LengthWide", "LengthNotMinimal", "Loose", "Size",
    "IntegerNotMinimal", "Range", "Time", "Bits", "Missing", "Truncated", "Charset",
)  # fmt: skip

_NOT_FOUND = """no libkrbls.so.1; build and install it in the sources of krbls, by `make library` and `make install`, and run \
ldconfig; or name one by the environment variable KRBLS_LIBRARY"""

_OK, _MORE, _WRONG_NAMES, _OUT_OF_MEMORY, _JSON = 0, 255, 2, 3, 2

#: What octets may be listed as, by the numbers that the library has for them.
_LISTINGS = ("list", "stream", "message", "keytab", "ccache", "capture")

_TEXT = bytes(range(0x20, 0x7F)) + b"\t\n\r"
# With these, or with one that is no text, an input begins that is read as octets if one of all is no text.
_FIRST = bytes([0x60, 0x61, *range(0x6A, 0x70), 0x74, 0x75, 0x76, 0x7E])


class Refusal(NamedTuple):
    """Why octets are no message."""

    #: The octet at fault, counted from 0; of a frame from the first octet of its length.
    place: int
    #: The name of the reason, one of REASONS, as `Range`.
    reason: str
    #: The field at fault, as `AS-REQ.req-body.nonce`, or None if no message is named yet.
    path: Optional[str] = None


class Judged(NamedTuple):
    """What the first octets of a message or of a frame decide."""

    #: How many octets it has; a frame with the four of its length, so the next one begins there. That is 4 until these are
    #: there, and 0 if their high bit is set.
    size: int
    #: Whether it is all there and is, or holds, a message.
    is_whole: bool
    #: Why it is refused, if it is. Nothing is decided yet if it is neither refused nor whole.
    refusal: Optional[Refusal]


class Span(NamedTuple):
    """Where octets lie."""

    #: The place of the first of them, from 0.
    at: int
    #: How many they are.
    length: int


class Rows(NamedTuple):
    """Records as rows of cells."""

    #: The cells of each row, as `krbls --fields` prints them: `-` is what is absent.
    rows: List[Tuple[str, ...]]
    #: The last record, if not all was read and it has no row.
    said: List[str]


@functools.lru_cache(maxsize=None)
def _library() -> Any:
    name = os.environ.get("KRBLS_LIBRARY")
    try:
        library = ctypes.CDLL(name or "libkrbls.so.1")
    except OSError as error:
        raise LibraryNotFound(f"{name}: {error}" if name else _NOT_FOUND) from None
    number, size, octets = ctypes.c_uint32, ctypes.c_size_t, ctypes.c_char_p
    port, given, place = ctypes.c_uint16, [octets, size], ctypes.POINTER(number)
    made = [octets, size, ctypes.POINTER(size)]
    numbers = [ctypes.POINTER(ctypes.c_uint64), size, ctypes.POINTER(size)]
    arguments = {
        "krbls_judge": [number, *given, place],
        "krbls_front": [number, size, *given, place],
        "krbls_frame": [number, number, *given, place, place],
        "krbls_path": [number, size, *given, *made],
        "krbls_message": [number, number, *given, *made],
        "krbls_items": [number, number, *given, *made],
        "krbls_decode": [number, number, number, port, number, *given, *made, *made],
        "krbls_encode": [number, number, number, *given, *made, *made],
        "krbls_fields": [number, number, number, number, number, port, *given, *given, *made, *made],
        "krbls_spans": [number, number, number, port, *given, *numbers],
    }
    for call, types in arguments.items():
        function = getattr(library, call, None)
        if function is None:
            raise LibraryNotFound(f"{name or 'libkrbls.so.1'} has no {call}; it is older than this package")
        function.restype, function.argtypes = number, types
    return library


def is_there() -> bool:
    """Whether there is a library to call."""
    try:
        _library()
    except LibraryNotFound:
        return False
    return True


def _text(call: Callable[..., int], *arguments: object) -> Tuple[int, str]:
    """What a call answers, and the text that it writes."""
    size, room = ctypes.c_size_t(), 4096
    while True:
        text = ctypes.create_string_buffer(room)
        answer = call(*arguments, text, room, ctypes.byref(size))
        if answer == _OUT_OF_MEMORY:
            raise MemoryError
        if size.value <= room:
            return answer, text.raw[: size.value].decode("ascii")
        room = size.value


def _two_texts(call: Callable[..., int], *arguments: object) -> Tuple[int, bytes, List[str]]:
    """What a call answers, what it makes, and the lines that it says."""
    size, said_size, room, said_room = ctypes.c_size_t(), ctypes.c_size_t(), 1 << 16, 4096
    while True:
        text, said = ctypes.create_string_buffer(room), ctypes.create_string_buffer(said_room)
        answer = call(*arguments, text, room, ctypes.byref(size), said, said_room, ctypes.byref(said_size))
        if answer == _OUT_OF_MEMORY:
            raise MemoryError
        if size.value <= room and said_size.value <= said_room:
            return answer, text.raw[: size.value], said.raw[: said_size.value].decode("ascii").splitlines()
        room, said_room = max(size.value, 1), max(said_size.value, 1)


def _number(name: str, number: Optional[int], most: int) -> int:
    """An option of the library; None is 0, which stands for the usual one, or for none."""
    if number is not None and not 1 <= number <= most:
        raise WrongOption(f"{name} {number} is not from 1 to {most}")
    return number or 0


def _refusal(answer: int, place: int, strict: bool, n: int, octets: bytes) -> Refusal:
    none, path = _text(_library().krbls_path, int(strict), n, octets, len(octets))
    return Refusal(place, REASONS[answer - 1], None if none else path)


def judge(octets: bytes, *, strict: bool = False) -> Optional[Refusal]:
    """None if octets are one message, and else the Refusal. LibraryNotFound."""
    octets, place = bytes(octets), ctypes.c_uint32()
    answer = _library().krbls_judge(int(strict), octets, len(octets), ctypes.byref(place))
    return None if answer == _OK else _refusal(answer, place.value, strict, len(octets), octets)


def front(n: int, octets: bytes, *, strict: bool = False) -> Judged:
    """What the first octets of a message of n octets decide. Octets after these n are not looked at. LibraryNotFound."""
    if not 0 <= n < 2**63:
        raise ValueError(f"n {n} is not from 0 to {2**63 - 1}")
    octets, place = bytes(octets), ctypes.c_uint32()
    answer = _library().krbls_front(int(strict), n, octets, len(octets), ctypes.byref(place))
    refusal = None if answer in (_OK, _MORE) else _refusal(answer, place.value, strict, n, octets)
    return Judged(n, answer == _OK, refusal)


def frame(octets: bytes, *, strict: bool = False, limit: int = 0) -> Judged:
    """What the first octets of a stream decide of its first frame. A frame may announce at most `limit` octets, 1 to
    2147483647; 0 is 16777216. Places count from the first octet of the length. LibraryNotFound."""
    if not 0 <= limit < 2**31:
        raise ValueError(f"limit {limit} is not from 0 to {2**31 - 1}")
    octets, size, place = bytes(octets), ctypes.c_uint32(), ctypes.c_uint32()
    answer = _library().krbls_frame(int(strict), limit, octets, len(octets), ctypes.byref(size), ctypes.byref(place))
    refusal = None
    if answer not in (_OK, _MORE) and place.value < 4:
        refusal = Refusal(place.value, REASONS[answer - 1])
    elif answer not in (_OK, _MORE):
        inside = _refusal(answer, place.value - 4, strict, size.value - 4, octets[4:])
        refusal = inside._replace(place=place.value)
    return Judged(size.value, answer == _OK, refusal)


def message_line(octets: bytes, strict: bool) -> str:
    """The line of JSON that `krbls message --json` prints of octets, which are never read as text. LibraryNotFound."""
    return _text(_library().krbls_message, _JSON, int(strict), octets, len(octets))[1]


def items(octets: bytes, *, strict: bool = False) -> List[ItemRecord]:
    """Where each field of the message, Ticket or token is that octets hold: the objects of `krbls items --json`, the last one
    too, which is `end`, or of what is refused the refusal. The octets are never read as text. LibraryNotFound."""
    octets = bytes(octets)
    _, text = _text(_library().krbls_items, _JSON, int(strict), octets, len(octets))
    return [json.loads(line) for line in text.splitlines()]


def are_octets(octets: bytes) -> bool:
    """Whether the program reads these as octets and not as text (FORMATS, 8)."""
    if not octets.translate(None, _TEXT) or octets.startswith(b"\xef\xbb\xbf"):
        return False
    return octets[0] in _FIRST or octets[:1] not in _TEXT


def decoded(
    octets: bytes, strict: bool, limit: Optional[int], keep_going: bool, port: Optional[int], packet: Optional[int]
) -> Tuple[bytes, List[str]]:
    """The lines of JSON of the messages of octets, which are never read as text, and what is said. LibraryNotFound."""
    numbers = int(strict), _number("limit", limit, 2**31 - 1), int(keep_going), _number("port", port, 2**16 - 1)
    call, one = _library().krbls_decode, _number("packet", packet, 2**32 - 1)
    _, text, said = _two_texts(call, *numbers, one, octets, len(octets))
    return text, said


def encoded(lines: bytes, unframed: bool, strict: bool, limit: Optional[int]) -> Tuple[bytes, List[str]]:
    """The messages that lines of JSON spell, and what is said. LibraryNotFound."""
    numbers = int(strict), _number("limit", limit, 2**31 - 1), int(unframed)
    _, octets, said = _two_texts(_library().krbls_encode, *numbers, lines, len(lines))
    return octets, said


def spans(
    octets: bytes,
    *,
    strict: bool = False,
    limit: Optional[int] = None,
    keep_going: bool = False,
    port: Optional[int] = None,
) -> List[Span]:
    """Where the octets lie of each record that `list` has of octets, its last one too: of a message, a Ticket, an entry, a
    hole, a credential, or of a cache's principal; of a record of a capture its packet's; of a refused frame all of it.
    LibraryNotFound."""
    octets = bytes(octets)
    numbers = int(strict), _number("limit", limit, 2**31 - 1), int(keep_going), _number("port", port, 2**16 - 1)
    size, room = ctypes.c_size_t(), 1024
    while True:
        found = (ctypes.c_uint64 * room)()
        if _library().krbls_spans(*numbers, octets, len(octets), found, room, ctypes.byref(size)) == _OUT_OF_MEMORY:
            raise MemoryError
        if size.value <= room:
            return [Span(found[i], found[i + 1]) for i in range(0, size.value, 2)]
        room = size.value


def fields(
    octets: bytes,
    names: Union[str, Iterable[str]],
    *,
    listing: str = "list",
    strict: bool = False,
    limit: Optional[int] = None,
    keep_going: bool = False,
    now: Optional[int] = None,
    port: Optional[int] = None,
) -> Rows:
    """Members of the records of octets that have all of the names, such as `client,ticket.etype_name`, as rows of cells.

    `listing` is the command whose records these are, `list` that of the first octets; octets are never read as text.
    Raises WrongOption if a name is none, or if no kind of record has all of them. LibraryNotFound.
    """
    if listing not in _LISTINGS:
        raise WrongOption(f"listing {listing!r} is none of {', '.join(_LISTINGS)}")
    octets, words = bytes(octets), (names if isinstance(names, str) else ",".join(names)).encode("utf-8", "surrogateescape")
    numbers = _LISTINGS.index(listing), int(strict), _number("limit", limit, 2**31 - 1), int(keep_going)
    more = _number("now", now, 2**32 - 1), _number("port", port, 2**16 - 1)
    answer, text, said = _two_texts(_library().krbls_fields, *numbers, *more, words, len(words), octets, len(octets))
    if answer == _WRONG_NAMES:
        raise WrongOption("; ".join(said))
    return Rows([tuple(row.split("\t")) for row in text.decode("ascii").splitlines()], said)
