"""What is counted of captures, a record and an exchange at a time."""

from __future__ import annotations

import array
import bisect
import collections
import datetime
import heapq
from typing import Any, Counter, Dict, List, Mapping, Optional, Tuple

from .happened import Event, Exchange, microseconds
from .words import SLOW, WEAK, etype_name

__all__ = ["Clients", "Clock", "Durations", "Errors", "Summary", "Timeline"]

Record = Mapping[str, Any]

_1970 = datetime.date(1970, 1, 1)

_MESSAGES = ("AS-REQ", "AS-REP", "TGS-REQ", "TGS-REP", "AP-REQ", "AP-REP", "KRB-SAFE", "KRB-PRIV", "KRB-CRED", "KRB-ERROR")


class Timeline:
    """How many events of each tone came in each of at most 240 equal pieces of time."""

    _MOST = 240

    def __init__(self) -> None:
        #: The length of a piece in microseconds, and the pieces by their numbers.
        self.width = 1000
        self.pieces: Dict[int, Counter[str]] = {}

    def add(self, event: Event) -> None:
        """Counts an event; what has no time is passed over."""
        if event.time is None:
            return
        number = event.time // self.width
        if number not in self.pieces:
            self.pieces[number] = collections.Counter()
            while max(self.pieces) - min(self.pieces) >= self._MOST:
                self._widen()
            number = event.time // self.width
        self.pieces[number][event.tone] += 1

    def _widen(self) -> None:
        """Makes each two pieces one."""
        self.width *= 2
        pieces: Dict[int, Counter[str]] = {}
        for number, counts in self.pieces.items():
            pieces.setdefault(number // 2, collections.Counter()).update(counts)
        self.pieces = pieces


class Durations:
    """How long answers took: all of them in eight octets each, and the slowest thousand whole."""

    _MOST = 1000

    def __init__(self) -> None:
        self.all = array.array("q")
        self._slowest: List[Tuple[int, int, Exchange]] = []

    def add(self, exchange: Exchange) -> None:
        """An exchange that was answered, `after` microseconds."""
        assert exchange.after is not None
        self.all.append(exchange.after)
        entry = (exchange.after, -exchange.number, exchange)
        if len(self._slowest) < self._MOST:
            heapq.heappush(self._slowest, entry)
        else:
            heapq.heappushpop(self._slowest, entry)

    def slowest(self) -> List[Exchange]:
        """The slowest ones, slowest first."""
        return [exchange for _, _, exchange in sorted(self._slowest, reverse=True)]

    def shares(self, *shares: float) -> List[int]:
        """The durations that these shares of all do not pass, as 0.5 for the median."""
        ordered = sorted(self.all)
        return [ordered[min(len(ordered) - 1, int(share * len(ordered)))] for share in shares] if ordered else []

    def per_step(self, steps: List[int]) -> List[int]:
        """How many are below each of these rising durations, and not below the one before; and how many are left."""
        counts = [0] * (len(steps) + 1)
        for duration in self.all:
            counts[bisect.bisect_right(steps, duration)] += 1
        return counts


class Errors:
    """The errors of one code."""

    def __init__(self, name: str, first: int) -> None:
        self.name = name
        #: The packet of the first one.
        self.first = first
        self.count = 0
        self.who: Counter[Tuple[str, str]] = collections.Counter()


class Clients:
    """What a client did: requests, errors that are not usual, and requests without an answer."""

    __slots__ = ("errors", "requests", "silent")

    def __init__(self) -> None:
        self.requests = self.errors = self.silent = 0


class Clock:
    """How far a host's clock is ahead of that of the capture, in microseconds."""

    def __init__(self) -> None:
        self.count = 0
        self.least = self.most = self.last = 0

    def add(self, ahead: int) -> None:
        """Another message with a time."""
        self.least = ahead if not self.count else min(self.least, ahead)
        self.most = ahead if not self.count else max(self.most, ahead)
        self.last = ahead
        self.count += 1

    def worst(self) -> int:
        """The greatest difference, with its sign."""
        return max(self.least, self.most, key=abs)


class Summary:
    """All counts of all files."""

    def __init__(self) -> None:
        self.kinds: Counter[str] = collections.Counter()
        self.errors: Dict[int, Errors] = {}
        self.clients: Dict[str, Clients] = {}
        self._offers: Counter[Tuple[Tuple[int, Optional[str]], ...]] = collections.Counter()
        self._uses: Counter[Tuple[int, Optional[str], str]] = collections.Counter()
        self.weak: Counter[str] = collections.Counter()
        self.weak_for: Counter[str] = collections.Counter()
        self.clocks: Dict[Tuple[str, str], Clock] = {}
        self.timeline = Timeline()
        self.durations = Durations()
        self.exchanges = self.answered = self.again = self.slow = 0
        self.silent: Counter[str] = collections.Counter()
        self.first_silent: Optional[int] = None
        self.unreachable: Counter[str] = collections.Counter()
        self.first_unreachable: Optional[int] = None
        self.first: Optional[int] = None
        self.last: Optional[int] = None

    def add_record(self, record: Record) -> None:
        """A record of a capture."""
        kind = record["kind"]
        self.kinds[kind] += 1
        now = microseconds(record)
        if now is not None:
            self.first = now if self.first is None else min(self.first, now)
            self.last = now if self.last is None else max(self.last, now)
        if kind == "KRB-ERROR":
            self._add_error(record, now)
        elif kind in ("AS-REQ", "TGS-REQ"):
            self._offers[tuple(zip(record["etypes"], record["etypes_names"]))] += 1
        if kind in ("AS-REP", "TGS-REP", "AP-REQ"):
            self._add_encrypted(record["ticket"], "ticket", record["server"]["text"])
        if kind in ("AS-REP", "TGS-REP", "AP-REP"):
            self._add_encrypted(record["enc"], "reply")
        for inside in record.get("inside", ()):
            if inside["kind"] in ("PA-ENC-TIMESTAMP", "PA-ENCRYPTED-CHALLENGE"):
                self._add_encrypted(inside["enc"], "proof")
            elif inside["kind"] == "PA-TGS-REQ":
                self._add_encrypted(inside["auth"], "proof")

    def add_exchange(self, exchange: Exchange) -> None:
        """An exchange, once all is known of it."""
        for event in exchange.events():
            self.timeline.add(event)
        request, reply = exchange.request, exchange.reply
        if request and request.kind == "unreachable":
            self.unreachable[f"{request.flow.target}:{request.flow.target_port}"] += 1
            self.first_unreachable = self.first_unreachable or request.packet
        if not request or request.kind not in ("AS-REQ", "TGS-REQ", "KPASSWD"):
            return
        self.exchanges += 1
        self.again += exchange.again is not None
        client = self.clients.setdefault(exchange.client or "", Clients())
        client.requests += 1
        client.errors += exchange.tone() == "bad"
        client.silent += exchange.is_unanswered
        if exchange.is_unanswered:
            self.silent[f"{request.flow.target}:{request.flow.target_port}"] += 1
            self.first_silent = self.first_silent or request.packet
        if reply:
            self.answered += 1
        if exchange.after is not None:
            self.durations.add(exchange)
            self.slow += max(exchange.after, exchange.waited or 0) > SLOW

    def messages(self) -> int:
        """How many messages there are."""
        return sum(self.kinds[kind] for kind in _MESSAGES)

    def _add_error(self, record: Record, now: Optional[int]) -> None:
        code = record["code"]
        errors = self.errors.setdefault(code, Errors(record["code_name"] or "", record["packet"]))
        errors.count += 1
        names = tuple(record[who]["text"] if record[who] else "" for who in ("client", "server"))
        errors.who[(names[0], names[1])] += 1
        if now is not None:
            flow = record["flow"]
            self._add_clock("KDC or server", flow["source"]["address"], record["stime"], record["susec"], now)
            if record["ctime"] is not None:
                self._add_clock("client", flow["target"]["address"], record["ctime"], record["cusec"] or 0, now)

    def _add_clock(self, role: str, address: str, text: str, microsecond: int, now: int) -> None:
        try:
            date = datetime.date(int(text[:4]), int(text[4:6]), int(text[6:8]))
        except ValueError:  # Fourteen digits that are no date are a KerberosTime, too.
            return
        seconds = (date - _1970).days * 86400 + int(text[8:10]) * 3600 + int(text[10:12]) * 60 + int(text[12:14])
        self.clocks.setdefault((role, address), Clock()).add(seconds * 1_000_000 + microsecond - now)

    def _add_encrypted(self, encrypted: Record, role: str, server: str = "") -> None:
        number, name = encrypted["etype"], encrypted["etype_name"]
        self._uses[number, name, role] += 1
        if number in WEAK:
            self.weak[etype_name(number, name)] += 1
            if server:
                self.weak_for[server] += 1

    def etypes(self) -> Dict[Tuple[int, str], Counter[str]]:
        """Of each encryption type how often it is `offered`, and used in a `ticket`, a `reply` and a `proof`."""
        made: Dict[Tuple[int, str], Counter[str]] = {}
        for offer, count in self._offers.items():
            for number, name in set(offer):
                made.setdefault((number, etype_name(number, name)), collections.Counter())["offered"] += count
        for (number, name, role), count in self._uses.items():
            made.setdefault((number, etype_name(number, name)), collections.Counter())[role] += count
        return made
