"""The page: what stands out, the ladders, the exchanges, the counts. All text of a capture is escaped where it is put in."""

from __future__ import annotations

import datetime
import pathlib
from html import escape
from typing import Any, Dict, Iterable, Iterator, List, Mapping, NamedTuple, Optional, Sequence, Tuple

from .charts import durations_chart, timeline_chart
from .choice import Choice
from .happened import Exchange
from .ladder import clock, drawn
from .summary import Clock, Errors, Summary
from .words import ERRORS, SKEW_ALLOWED, SLOW, USUAL_ERRORS, WEAK, span

__all__ = ["File", "page"]

_HEAD = """<!DOCTYPE html>
<html lang="en"><head><meta charset="utf-8">
<meta http-equiv="Content-Security-Policy" content="default-src 'none'; style-src 'unsafe-inline'">
<meta name="viewport" content="width=device-width"><title>{title}</title>
<style>
{css}</style></head><body>
"""
_IN_TABLES = 40
_IN_LIST = 8
# A ladder with more rows scrolls by itself, so that its hosts stay in view.
_LONG = 60


class File(NamedTuple):
    """A capture that was read."""

    name: str
    choice: Choice
    #: The last record, with its counts; None if the capture could not be read at all.
    end: Optional[Mapping[str, Any]]
    #: Why it was not read to its end, or "".
    fault: str


def page(files: Sequence[File], summary: Summary, version: str) -> Iterator[str]:
    """The pieces of the page."""
    title = ", ".join(pathlib.PurePath(file.name).name for file in files[:3]) + (" .." if len(files) > 3 else "")
    css = (pathlib.Path(__file__).parent / "page.css").read_text(encoding="utf-8")
    yield _HEAD.format(title=escape(f"{title}: Kerberos"), css=css)
    yield f"<h1>{escape(title)}</h1>\n<p class=quiet>{escape(_opening(files, summary))}</p>\n"
    yield from _found(files, summary)
    if len(summary.timeline.pieces) > 1 and summary.messages() > 40:
        yield "<h2>When</h2><div class=scroll>"
        yield from timeline_chart(summary.timeline)
        yield "</div>\n"
    yield from _ladders(files)
    yield from _exchanges(summary)
    yield from _counts(summary)
    yield f"<p class=quiet style='margin-top:36px'>Made by <code>python -m krbls report</code>, {escape(version)}. "
    yield "Nothing was decrypted. Times are those of the capture, in UTC.</p>\n</body></html>\n"


def _opening(files: Sequence[File], summary: Summary) -> str:
    when = ""
    if summary.first is not None and summary.last is not None:
        first = datetime.datetime(1970, 1, 1) + datetime.timedelta(microseconds=summary.first)
        when = f"{first:%Y-%m-%d} {clock(summary.first)} UTC, {span(summary.last - summary.first)}: "
    counts = [
        _number(summary.messages(), "message"),
        f"{_number(summary.exchanges, 'request')}, {summary.answered:,} answered",
        _number(sum(int(file.end["packets"]) for file in files if file.end), "packet"),
    ]
    return when + ", ".join(counts)


def _number(count: int, what: str) -> str:
    return f"{count:,} {what}" if count == 1 else f"{count:,} {what}s"


def _item(tone: str, head: str, rest: str = "", first: str = "") -> str:
    """A line of what stands out; `first` is HTML."""
    where = f" {first}" if first else ""
    return f"<li class={tone}><b class={tone}>{escape(head)}</b> {escape(rest)}{where}</li>\n"


def _found(files: Sequence[File], summary: Summary) -> Iterator[str]:
    """What stands out, the worst first."""
    items = list(_faults(files, summary))
    yield "<ul class=found>\n"
    if not items:
        yield _item("fine", "Nothing stands out.", "Each request was answered without an error, and nothing is lost.")
    yield from items
    for code, errors in sorted(summary.errors.items()):
        if code in USUAL_ERRORS:
            yield _item("usual", f"{code} {errors.name} × {errors.count:,}", ERRORS.get(code, ""))
    if summary.kinds["joined"]:
        yield _item(
            "fine", f"{_number(summary.kinds['joined'], 'direction')} without a beginning.", "The capture began later."
        )
    yield "</ul>\n"


class _Firsts:
    """Where the first of something is: of one file a link to its row, if that is drawn."""

    def __init__(self, files: Sequence[File]) -> None:
        self._is_one = len(files) == 1
        self._drawn = {event.packet for file in files for exchange in file.choice.chosen() for event in exchange.events()}

    def __call__(self, packet: Optional[int]) -> str:
        if packet is None or not self._is_one:
            return ""
        text = f"first: packet {packet}"
        return f'<a href="#f1-{packet}">{text}</a>' if packet in self._drawn else f"({text})"


def _faults(files: Sequence[File], summary: Summary) -> Iterator[str]:
    first = _Firsts(files)
    for file in files:
        if file.fault:
            yield _item("bad", f"{file.name} was not read to its end.", file.fault)
    others = sorted(
        (item for item in summary.errors.items() if item[0] not in USUAL_ERRORS), key=lambda item: -item[1].count
    )
    if len(others) > _IN_LIST:
        yield _item("bad", f"{len(others):,} kinds of errors, of which these {_IN_LIST} are the most frequent:")
    for code, errors in others[:_IN_LIST]:
        means = ERRORS.get(code, "")
        who = _who(errors)
        rest = "; ".join(filter(None, (means, who)))
        yield _item("bad", f"{code} {errors.name} × {errors.count:,}", f"{rest}.", first(errors.first))
    if summary.silent:
        silent = _number(sum(summary.silent.values()), "request")
        yield _item("gone", f"{silent} without an answer:", _most(summary.silent), first(summary.first_silent))
    if summary.unreachable:
        count = sum(summary.unreachable.values())
        yield _item("gone", f"Not reached × {count:,}:", _most(summary.unreachable), first(summary.first_unreachable))
    for member, head in (
        ("refused", "refused: octets that are no message"),
        ("lost", "lost: octets that the capture lacks"),
        ("unread", "unread: octets that no message has, headers that are cut or unknown, fragments without the rest"),
    ):
        count = sum(int(file.end.get(member, 0)) for file in files if file.end)
        if count:
            yield _item("gone", f"{count:,} × {head}.")
    yield from _far_clocks(summary.clocks)
    if summary.weak:
        names = ", ".join(f"{name} × {count:,}" for name, count in summary.weak.most_common())
        services = f"; tickets for {_most(summary.weak_for)}" if summary.weak_for else ""
        yield _item("bad", "Weak encryption in use:", f"{names}{services}.")
    if summary.slow:
        yield _item(
            "bad", f"{_number(summary.slow, 'answer')} came more than {span(SLOW)} after the request was first sent."
        )
    if summary.again:
        yield _item("gone", f"{_number(summary.again, 'request')} sent again.")


def _far_clocks(clocks: Dict[Tuple[str, str], Clock]) -> Iterator[str]:
    far = [(role, address, skew) for (role, address), skew in clocks.items() if _is_far(skew)]
    for role in ("KDC or server", "client"):
        of_role = sorted((item for item in far if item[0] == role), key=lambda item: -abs(item[2].worst()))
        if of_role:
            _, address, skew = of_role[0]
            more = f"{len(of_role) - 1:,} more differ by less. " if len(of_role) > 1 else ""
            whole = (
                "Or that of the capture is off: all differ from it."
                if len(far) == len(clocks)
                else (f"Most KDCs refuse a difference of more than {SKEW_ALLOWED // 60} minutes.")
            )
            yield _item(
                "bad", f"The clock of {address} ({role}) is {_ahead(skew.worst())} that of the capture.", more + whole
            )


def _is_far(skew: Clock) -> bool:
    return abs(skew.worst()) > SKEW_ALLOWED * 1_000_000


def _most(counter: Any) -> str:
    named = [f"{name} × {count:,}" for name, count in counter.most_common(4)]
    return ", ".join(named) + (f" and {len(counter) - 4:,} more" if len(counter) > 4 else "")


def _who(errors: Errors) -> str:
    named = []
    for (client, server), count in errors.who.most_common(3):
        pair = f"{client} → {server}" if client else server
        named.append(f"{pair} × {count:,}" if len(errors.who) > 1 else pair)
    return ", ".join(named) + (f" and {len(errors.who) - 3:,} more" if len(errors.who) > 3 else "")


def _ahead(microseconds: int) -> str:
    return f"{span(abs(microseconds))} {'ahead of' if microseconds > 0 else 'behind'}"


def _ladders(files: Sequence[File]) -> Iterator[str]:
    yield "<h2>Who asked whom, and what came back</h2>\n"
    yield "<p class=quiet>Time goes down. ✕ an error; ○ no answer; ∥ lost, refused or unread. A bar on a server's line goes from a "
    yield "request to its reply. Hold the pointer over a row for its ports.</p>\n"
    for number, file in enumerate(files, 1):
        if len(files) > 1:
            yield f"<h3>{escape(file.name)}</h3>\n"
        left_out = file.choice.left_out()
        if left_out.exchanges:
            yield f"<p><b>{_number(left_out.exchanges, 'exchange')} of {file.choice.faulty + file.choice.others:,} "
            yield f"{'is' if left_out.exchanges == 1 else 'are'} not drawn</b>, {left_out.with_faults:,} of them with a fault. "
            yield "Those with a fault are drawn first; <code>--most N</code> draws more. All are counted below.</p>\n"
        rows = file.choice.rows()
        if not rows:
            yield "<p>No messages.</p>\n"
            continue
        yield "<div class='scroll long'>" if len(rows) > _LONG else "<div class=scroll>"
        yield from drawn(rows, f"f{number}-")
        yield "</div>\n"


def _exchanges(summary: Summary) -> Iterator[str]:
    durations = summary.durations
    slowest = durations.slowest()
    if not slowest:
        return
    middle, most = durations.shares(0.5, 0.99)
    yield "<h2>How long answers took</h2>\n"
    yield f"<p>{_number(len(durations.all), 'answer')}; the median is {span(middle)}, 99 of 100 took at most {span(most)}, "
    yield f"and the slowest {span(slowest[0].after)}.</p>\n<div class=scroll>"
    yield from durations_chart(durations)
    again = any(exchange.again is not None for exchange in slowest)
    first = [("since first sent", "n")] if again else []
    heads = [("took", "n"), ("", ""), *first, ("asked at", "n"), ("packets", "n")]
    heads += [("request", ""), ("client", ""), ("service", ""), ("answer", "")]
    greatest = max(1, slowest[0].after or 1)
    rows = [_exchange_row(exchange, greatest, again) for exchange in slowest]
    shown, rest = rows[:_IN_TABLES], rows[_IN_TABLES:]
    yield _table(heads, shown)
    if rest:
        yield f"<details><summary>{len(rest):,} more</summary>{_table(heads, rest)}</details>"
    yield "</div>\n"
    if len(durations.all) > len(rows):
        yield f"<p class=quiet>The {len(rows):,} slowest of {len(durations.all):,}; the others are in the counts alone.</p>\n"


def _exchange_row(exchange: Exchange, greatest: int, again: bool) -> str:
    """The cells of an exchange that was answered, with its bar; and how long it took since the request was first sent."""
    request, reply = exchange.request, exchange.reply
    assert request and reply
    width = max(1, round(110 * (exchange.after or 0) / greatest))
    outcome = reply.text if reply.tone != "fine" or reply.kind == "KPASSWD" else reply.kind
    waited = span(exchange.waited) if exchange.waited is not None and exchange.waited != exchange.after else ""
    return (
        f"<td class=n>{span(exchange.after)}</td><td><span class=bar style='width:{width}px'></span></td>"
        + (f"<td class=n>{waited}</td>" if again else "")
        + f"<td class=n>{clock(request.time)}</td><td class=n>{request.packet}→{reply.packet}</td>"
        f"<td class=w>{escape(request.kind)}</td><td class=name>{escape(exchange.client or '–')}</td>"
        f"<td class=name>{escape(exchange.server or '–')}</td><td class='name {reply.tone}'>{escape(outcome)}</td>"
    )


def _table(heads: Iterable[Tuple[str, str]], rows: Iterable[str]) -> str:
    head = "".join(f"<th class='{css}'>{escape(name)}</th>" if css else f"<th>{escape(name)}</th>" for name, css in heads)
    return f"<table><tr>{head}</tr>\n" + "".join(f"<tr>{row}</tr>\n" for row in rows) + "</table>"


def _counts(summary: Summary) -> Iterator[str]:
    yield "<h2>Counts</h2>\n<div class=side>\n"
    yield "<div><h3>Kinds</h3>" + _table(
        (("record", ""), ("", "n")),
        (f"<td>{escape(kind)}</td><td class=n>{count:,}</td>" for kind, count in summary.kinds.most_common()),
    ) + "</div>\n"
    if summary.errors:
        yield "<div><h3>Errors</h3>" + _table((("error", ""), ("", "n")), _error_rows(summary.errors)) + "</div>\n"
    etypes = summary.etypes()
    if etypes:
        yield "<div><h3>Encryption types</h3>" + _table(
            (("type", ""), ("offered", "n"), ("tickets", "n"), ("replies", "n"), ("proofs", "n")), _etype_rows(etypes)
        )
        yield "<small>offered by clients; in tickets; in replies; in what a client proves itself with</small></div>\n"
    yield "</div>\n<div class=side>\n"
    if summary.clients:
        yield from _clients(summary)
    if summary.clocks:
        yield "<div><h3>Clocks</h3>" + _table(
            (("host", ""), ("role", ""), ("times", "n"), ("least", "n"), ("most", "n")), _clock_rows(summary.clocks)
        ) + f"<small>how far ahead of the capture's clock, by the times in errors{_more(len(summary.clocks))}</small></div>\n"
    yield "</div>\n"


def _more(count: int) -> str:
    return f"; {count - _IN_TABLES:,} more are not shown" if count > _IN_TABLES else ""


def _error_rows(errors: Dict[int, Errors]) -> Iterator[str]:
    for code, error in sorted(errors.items(), key=lambda item: -item[1].count)[:_IN_TABLES]:
        tone = "usual" if code in USUAL_ERRORS else "bad"
        yield f"<td class={tone}>{code} {escape(error.name)}</td><td class=n>{error.count:,}</td>"


def _etype_rows(etypes: Mapping[Tuple[int, str], Mapping[str, int]]) -> Iterator[str]:
    for (number, name), counts in sorted(etypes.items())[:_IN_TABLES]:
        is_weak = number in WEAK
        tone = "bad" if any(counts[role] for role in ("ticket", "reply", "proof")) else "quiet"
        shown = f"{escape(name)} <span class={tone}>· weak</span>" if is_weak else escape(name)
        cells = "".join(
            f"<td class='n{' bad' if is_weak and role != 'offered' and counts[role] else ''}'>{counts[role] or '·'}</td>"
            for role in ("offered", "ticket", "reply", "proof")
        )
        yield f"<td>{shown}</td>{cells}"


def _clients(summary: Summary) -> Iterator[str]:
    ranked = sorted(summary.clients.items(), key=lambda item: (-item[1].errors - item[1].silent, -item[1].requests, item[0]))
    rows = (
        f"<td class=name>{escape(name or '(not named)')}</td><td class=n>{counts.requests:,}</td>"
        f"<td class='n bad'>{counts.errors or ''}</td><td class='n gone'>{counts.silent or ''}</td>"
        for name, counts in ranked[:_IN_TABLES]
    )
    yield "<div><h3>Clients</h3>"
    yield _table((("client", ""), ("requests", "n"), ("errors", "n"), ("no answer", "n")), rows)
    if len(ranked) > _IN_TABLES:
        yield f"<small>{len(ranked) - _IN_TABLES:,} more clients, with fewer faults</small>"
    yield "</div>\n"


def _clock_rows(clocks: Dict[Tuple[str, str], Clock]) -> Iterator[str]:
    for (role, address), skew in sorted(clocks.items(), key=lambda item: -abs(item[1].worst()))[:_IN_TABLES]:
        tone = "n bad" if _is_far(skew) else "n"
        ahead = "".join(f"<td class='{tone}'>{span(value)}</td>" for value in (skew.least, skew.most))
        yield f"<td>{escape(address)}</td><td>{escape(role)}</td><td class=n>{skew.count:,}</td>{ahead}"
