"""What `krbls` has to print, worked out a second time: a reference to test it against.

It was written from the rules alone (docs/FORMATS.md: the grammar of RFC 4120, appendix A, the order of
judging, inputs, tokens, frames, keytabs, credential caches and captures; docs/LISTING.md: lines, names and objects), and not from the
code of krbls. `grammar` has the types and the messages, `judging` looks at one octet after another, and the
first rule that one breaks is the refusal, with the path of the field that it is in (`paths`); `messages`,
`frames` and `files` have the records, `fields` those of messages, `inside` what is in the clear in these, `values` what all
consist of, with the names of numbers in `registries`, and `records` their forms.

`inputs` has what an input of a message spells, with `dumps` and `spellings`, and `tokens` the layers round a message.

`captures` has the records of captures: `capture_files` has their packets, `datagrams` and `fragments` what is in these for
UDP and TCP, `directions` the streams of TCP, `kpasswd` the messages that change passwords, and `happened` what is told of
requests and replies.

`listing` has the lines of a listing, and the status of the program; `runs` has whole command lines, with their sources, `hints`
what is said of a source of another kind, and the command that its first octets say.

`codec` has what `krbls decode` and `krbls encode` write: `objects` has messages as JSON and back, `documents` reads
JSON, and `der` has the octets of values. `converted` has that of a source, and what is said of one that is at fault.
"""

from functools import partial

from .captures import capture
from .codec import decoded_parts, written
from .files import ccache, keytab
from .frames import stream, stream_going_on
from .grammar import MESSAGES, STRICT_MESSAGES
from .hints import command_for
from .items import items
from .messages import lines, message
from .records import file, json_line, line, named_line

RECORDS = {
    "stream": stream,
    "stream --strict": partial(stream, messages=STRICT_MESSAGES),
    "stream --keep-going": stream_going_on,
    "stream --keep-going --strict": partial(stream_going_on, messages=STRICT_MESSAGES),
    "message": message,
    "message --strict": partial(message, messages=STRICT_MESSAGES),
    "message --lines": lines,
    "message --lines --strict": partial(lines, messages=STRICT_MESSAGES),
    "items": items,
    "items --strict": partial(items, messages=STRICT_MESSAGES),
    "keytab": keytab,
    "ccache": ccache,
    "capture": capture,
    "capture --strict": partial(capture, messages=STRICT_MESSAGES),
}


def shown(record, words):
    """A record in the form that the words of a command say."""
    form = json_line if "--json" in words else named_line if "--names" in words else line
    return form(record)


def lines_of(records, words):
    """The records that a listing has in a form, each in that form: lines without names leave out what is told."""
    has_told = "--names" in words or "--json" in words
    return [shown(record, words) for record in records if has_told or not record.is_told]


def taken_number(words, name):
    """The number after an option, both of which are removed from the words; none if it is not there."""
    if f"--{name}" not in words:
        return {}
    place = words.index(f"--{name}")
    _, value = words[place : place + 2]
    del words[place : place + 2]
    return {name: int(value)}


def records(command, octets, now=None):
    """The records that a command lists of octets, as `stream --limit 300` does, and its status."""
    words = command.split()
    if words[0] == "list":
        words[0] = command_for(octets)
    numbers = {**taken_number(words, "limit"), **taken_number(words, "port"), **taken_number(words, "now")}
    if now is not None and words[0] == "ccache":
        numbers["now"] = now
    which = " ".join(word for word in words if word not in ("--names", "--json"))
    return RECORDS[which](octets, **numbers)


def listing(command, octets, now=None):
    """The lines that a command prints of octets, as `stream --limit 300 --json` does, and its status."""
    found, status = records(command, octets, now)
    return lines_of(found, command.split()), status


def conversion_options(words):
    """What the words of `decode` and `encode` say of how a source is read."""
    numbers = {**taken_number(words, "limit"), **taken_number(words, "port"), **taken_number(words, "packet")}
    return {**numbers, "messages": STRICT_MESSAGES if "--strict" in words else MESSAGES, "keep_going": "--keep-going" in words}


def converted(command, octets):
    """What `decode` or `encode` writes of a source, as `encode --strict --limit 300` does, and what it says in the end, or None."""
    words = command.split()
    return written(words[0], octets, unframed="--unframed" in words, **conversion_options(words))


def decoded_in_order(command, octets):
    """What `decode` writes and says of a capture, or of a stream with --keep-going, in order."""
    return decoded_parts(octets, **conversion_options(command.split()))
