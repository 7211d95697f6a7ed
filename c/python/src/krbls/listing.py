"""Listings: one object at a time, of a source of any size, by the program."""

from __future__ import annotations

import datetime
import json
from types import TracebackType
from typing import Any, Dict, Generic, Iterator, List, Optional, Type, TypeVar, Union, cast

from .errors import Refused
from .program import Run, Source
from .records import (
    CaptureRecord,
    CcacheRecord,
    EndRecord,
    InputRecord,
    KeytabRecord,
    Record,
    StreamRecord,
)

__all__ = ["Listing", "When", "capture", "ccache", "keytab", "list_", "messages", "stream"]

R = TypeVar("R")

#: `now`, a date as `2026-11-22T07:34:54Z`, seconds since 1970, or an aware datetime.
When = Union[str, int, datetime.datetime]


class Listing(Generic[R]):
    """An iterator over the objects of a source, which are those of `krbls --json`, in order.

    The last record, which counts, is no item: it is `end`. If it is a refusal, iteration ends by raising Refused, after all
    that was listed before; with `raises=False` it just ends. Leave a listing early by `close`, or use it in a `with`.
    """

    def __init__(
        self, words: List[str], source: Source, raises: bool, goes_on: bool = False, prefixes: bool = False
    ) -> None:
        self._run = Run(words, source, prefixes)
        self._lines = self._run.lines()
        self._raises = raises
        self._goes_on = goes_on
        self._is_over = False
        #: The last record of each file: one, or of a `DIR:` one a file. A single message has none.
        self.ends: List[EndRecord] = []
        #: The status of the program once it ended, 0, or 1 if something was refused, lost or unread; None before.
        self.status: Optional[int] = None

    @property
    def end(self) -> Optional[EndRecord]:
        """The last record once all is read, with its counts; None before, and of a single message."""
        return self.ends[-1] if self.ends else None

    def __iter__(self) -> Iterator[R]:
        return self

    def __next__(self) -> R:
        if self._is_over:
            raise StopIteration
        for line in self._lines:
            record: Dict[str, Any] = json.loads(line)
            if not self._is_last(record):
                return cast(R, record)
            self.ends.append(cast(EndRecord, record))
        self._is_over = True
        ended = self._run.finish()
        self.status = ended.status
        refused = next((end for end in self.ends if end["kind"] == "refused"), None)
        if refused and self._raises:
            raise Refused(refused, refused.get("file", self._run.name), ended.said[0] if ended.said else "")
        raise StopIteration

    def _is_last(self, record: Dict[str, Any]) -> bool:
        kind = record["kind"]
        return kind == "end" or kind == "refused" and "packet" not in record and not self._goes_on

    def close(self) -> None:
        """Ends the program, if it still runs."""
        self._is_over = True
        self._run.close()

    def __enter__(self) -> "Listing[R]":
        return self

    def __exit__(
        self, kind: Optional[Type[BaseException]], error: Optional[BaseException], trace: Optional[TracebackType]
    ) -> None:
        self.close()

    def __del__(self) -> None:
        if hasattr(self, "_run"):
            self._run.close()


def capture(
    source: Source, *, port: Optional[int] = None, limit: Optional[int] = None, strict: bool = False, raises: bool = True
) -> Listing[CaptureRecord]:
    """The records of a capture, a pcap or a pcapng: each message, and what was refused or is missing.

    `port` is that of KDCs (88), `limit` the greatest length of a frame of TCP in octets (16777216), and `strict` judges by
    the strict profile. `end` counts packets, messages, refused, lost, unread.
    Raises Refused if the file is none or is cut.
    """
    return Listing(["capture", "--json", *_words(port=port, limit=limit, strict=strict)], source, raises)


def stream(
    source: Source, *, strict: bool = False, limit: Optional[int] = None, keep_going: bool = False, raises: bool = True
) -> Listing[StreamRecord]:
    """The messages of a stream of frames. `limit` is the greatest length of a frame in octets (16777216).

    Raises Refused at the first frame that is refused; with `keep_going` refusals are records, and what follows is listed, too.
    """
    words = _words(strict=strict, limit=limit, keep_going=keep_going)
    return Listing(["stream", "--json", *words], source, raises, goes_on=keep_going)


def messages(source: Source, *, strict: bool = False, raises: bool = True) -> Listing[InputRecord]:
    """A message of each line of a text: hexadecimal, base64, or a header of HTTP. Each record has its `line`, from 1; what is
    refused is a record, too."""
    return Listing(["message", "--json", "--lines", *_words(strict=strict)], source, raises, goes_on=True)


def keytab(source: Source, *, raises: bool = True) -> Listing[KeytabRecord]:
    """The entries and holes of a keytab; no octet of a key. Raises Refused if it is none or is cut."""
    return Listing(["keytab", "--json"], source, raises, prefixes=True)


def ccache(source: Source, *, now: Optional[When] = None, raises: bool = True) -> Listing[CcacheRecord]:
    """The credentials of a cache. With `now` each has its `state`, `live` or `expired`, at that time. Raises Refused."""
    return Listing(["ccache", "--json", *_words(now=_when(now))], source, raises, prefixes=True)


def list_(source: Source, *, now: Optional[When] = None, raises: bool = True) -> Listing[Record]:
    """The records of a source by the command that its first octets say. `now` is that of `ccache`. Raises Refused."""
    by_name = isinstance(source, str) and source.startswith(("FILE:", "WRFILE:", "DIR:"))
    words = ["list", "--json", *_words(now=_when(now))]
    return Listing(words if by_name else [*words, "-"], source, raises, prefixes=True)


def _words(**options: Union[None, bool, int, str]) -> List[str]:
    """Options of the command line; what is None or False is left out."""
    words = []
    for name, value in options.items():
        if value is not None and value is not False:
            words.append("--" + name.replace("_", "-"))
            if value is not True:
                words.append(str(value))
    return words


def _when(now: Optional[When]) -> Union[None, int, str]:
    if isinstance(now, datetime.datetime):
        if now.tzinfo is None:
            raise ValueError("a datetime without a time zone")
        return int(now.timestamp())
    return now
