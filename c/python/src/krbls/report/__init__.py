"""`python -m krbls report FILE.. > report.html`: a picture of captures, as one page without scripts."""

from __future__ import annotations

from typing import Any, Dict, IO, List, Optional, Sequence, cast

from ..errors import KrblsError, Refused
from ..listing import capture
from ..program import Source
from .choice import Choice
from .happened import Follower
from .page import File, page
from .summary import Summary

__all__ = ["MOST", "report"]

#: How many exchanges of a file are drawn, if it is not said: ten thousand messages that are requests and replies. A browser
#: shows a page of so many within a second.
MOST = 5000


def report(sources: Sequence[Source], out: IO[str], *, port: Optional[int] = None, most: int = MOST) -> bool:
    """Writes the page of some captures, and says whether each was read to its end.

    `port` is that of KDCs (88). At most `most` exchanges of each file are drawn, those with a fault first; all are counted.
    A file that cannot be opened, or is none, is said on the page. Memory follows `most`, the number of clients and of answers
    (eight octets each), and 65536 requests that are open.
    """
    from .. import __version__

    summary = Summary()
    files = [_read(source, port, most, summary) for source in sources]
    out.writelines(page(files, summary, f"krbls {__version__}"))
    return not any(file.fault for file in files)


def _read(source: Source, port: Optional[int], most: int, summary: Summary) -> File:
    choice, fault = Choice(most), ""
    name = str(getattr(source, "name", "octets") if not isinstance(source, str) else source)

    def done(exchange: Any) -> None:
        choice.add(exchange)
        summary.add_exchange(exchange)

    follower = Follower(port or 88, done)
    ends: List[Dict[str, Any]] = []
    try:
        with capture(source, port=port) as listing:
            ends = cast(List[Dict[str, Any]], listing.ends)
            for record in listing:
                plain = cast(Dict[str, Any], record)
                summary.add_record(plain)
                follower.add(plain)
    except Refused as error:
        fault = error.what()
    except OSError as error:
        fault = error.strerror or str(error)
    except KrblsError as error:
        fault = str(error)
    follower.end()
    return File(name, choice, ends[-1] if ends else None, fault)
