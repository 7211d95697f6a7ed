"""One message, by the library if it is there, and else by the program."""

from __future__ import annotations

import json
from typing import Any, Dict, cast

from . import library
from .errors import Refused
from .program import Run, Source
from .records import InputRecord

__all__ = ["message"]


def message(source: Source, *, strict: bool = False, raises: bool = True) -> InputRecord:
    """The record of the one message, Ticket or token that a source holds, in any form that `krbls message` reads: octets,
    hexadecimal, a dump, base64, a header of HTTP.

    Raises Refused; with `raises=False` the refusal is returned. Octets in memory that no one could take for text are passed
    to libkrbls, if there is one; all else is a run of the program.
    """
    if isinstance(source, (bytes, bytearray, memoryview)) and library.are_octets(bytes(source)) and library.is_there():
        line, name, hint = library.message_line(bytes(source), strict), "", ""
    else:
        run = Run(["message", "--json", *(["--strict"] if strict else [])], source)
        try:
            line = run.read().decode()
            ended = run.finish()
        finally:
            run.close()
        name, hint = run.name, ended.said[0] if ended.said else ""
    record: Dict[str, Any] = json.loads(line)
    if raises and record["kind"] == "refused":
        raise Refused(record, name, hint)
    return cast(InputRecord, record)

