"""Times bin/krbls on streams of framed messages, beside cat, in 8 MiB of address space: real messages
of nine kinds, and AP-REPs; on both in turns with the fastest lister in C, which prints the same lines; and on the real
messages in turns with rows of six names, and with MIT's decoder, if its library is installed. Then what krb_damage does with streams: to
judge their messages, to scan them octet by octet and at once, to parse them, and to encode them again, beside a
memcpy of the same octets."""

import ctypes
import pathlib
import shutil
import subprocess
import sys
import tempfile

from frames import real_frames, repeated
from timing import best_of, best_run, best_runs, output_of, rate

KRBLS = ["bash", "-c", "ulimit -v 8192; exec bin/krbls stream"]
AGAIN = "crates/krb_damage/out/krb_damage"
# Six names: in rows of seven kinds, and of those that have all names.
ROWS = {
    "of seven kinds": [
        "--only",
        "AS-REQ,AS-REP,TGS-REQ,TGS-REP,AP-REQ,AP-REP,KRB-ERROR",
        "--fields",
        "kind,client,server,ticket.etype_name,ticket.kvno,code_name",
    ],
    "of replies": ["--fields", "kind,client,server,ticket.etype_name,ticket.kvno,enc.etype_name"],
}
MIXED_OCTETS = 64 << 20
CACHED_OCTETS = 1 << 20


def copy_seconds(size):
    """The seconds of a memcpy of n octets, into memory that was used before."""
    source, copy = ctypes.create_string_buffer(size), ctypes.create_string_buffer(size)
    return best_of(5, lambda: ctypes.memmove(copy, source, size))


def time_listing(name, frames, messages, count):
    """Prints what listing some frames this many times costs."""
    size, messages = count * len(frames), count * messages
    with repeated(frames, count) as stream:
        listing = best_run(KRBLS, stream.name)
        copying = best_run(["cat"], stream.name)
    print(
        f"{messages} {name}, {size} octets: list {rate(size, listing)}, "
        f"{messages / listing / 1e6:.3f} million messages/s; cat {rate(size, copying)}"
    )


def time_rows(name, frames, messages, count):
    """Prints what rows of six names cost of some frames this many times, beside lines. They alternate."""
    size = count * len(frames)
    commands = [KRBLS] + [["bash", "-c", f"ulimit -v 8192; exec bin/krbls stream {' '.join(words)}"] for words in ROWS.values()]
    with repeated(frames, count) as stream:
        listing, *rows = best_runs(commands, stream.name)
    for which, seconds in zip(ROWS, rows):
        print(f"{count * messages} {name}, rows of six names {which}: {rate(size, seconds)}; {seconds / listing:.2f} times lines")


def time_mit(name, frames, messages, count):
    """Prints what listing some frames this many times costs, and decoding them by MIT's library with the
    name of each message printed. The two alternate."""
    size, messages = count * len(frames), count * messages
    with tempfile.TemporaryDirectory() as folder, repeated(frames, count) as stream:
        mit = f"{folder}/mit"
        compiling = [shutil.which("cc") or "false", "-O2", "-o", mit, "bench/mit.c", "-lkrb5"]
        if subprocess.run(compiling, stderr=subprocess.DEVNULL).returncode != 0:
            print(f"{name} by MIT's decoder: skipped, there is no cc, or no libkrb5 to compile with")
            return
        listing, decoding = best_runs([KRBLS, [mit]], stream.name, runs=10)
    print(
        f"{messages} {name}, {size} octets: list {rate(size, listing)}; MIT's decoder, with names "
        f"{rate(size, decoding)}: {decoding / listing:.2f} times as long"
    )


def time_lister(name, frames, messages, count):
    """Prints what listing some frames this many times costs, and listing them alike by what is written for that alone in
    C. The two alternate."""
    size, messages = count * len(frames), count * messages
    with tempfile.TemporaryDirectory() as folder, repeated(frames, count) as stream:
        lister = f"{folder}/lister"
        compiling = [shutil.which("cc") or "false", "-O3", "-march=x86-64-v2", "-o", lister, "bench/lister.c"]
        if subprocess.run(compiling, stderr=subprocess.DEVNULL).returncode != 0:
            print(f"{name} by the lister in C: skipped, there is no cc, or none for x86-64-v2")
            return
        # Begun as krbls is.
        command = ["bash", "-c", f"ulimit -v 8192; exec {lister}"]
        if output_of(KRBLS, stream.name) != output_of(command, stream.name):
            sys.exit(f"{name}: the lister in C prints other lines")
        listing, least = best_runs([KRBLS, command], stream.name, runs=21)
    print(
        f"{messages} {name}, {size} octets: list {rate(size, listing)}; lister in C {rate(size, least)}: "
        f"krbls takes {listing / least:.2f} times its time"
    )


def time_again(name, frames, messages, count):
    """Prints what parsing the messages of some frames this many times costs, and encoding them."""
    size, messages = count * len(frames), count * messages
    with repeated(frames, count) as stream:
        cutting = best_run([AGAIN, "frames"], stream.name)
        parse = best_run([AGAIN, "parse"], stream.name) - cutting
        encode = best_run([AGAIN, "encode"], stream.name) - cutting - parse
    print(
        f"{messages} {name}, {size} octets: parse {rate(size, parse)}; "
        f"encode and compare {rate(size, encode)}; memcpy {rate(size, copy_seconds(size))}"
    )


def time_judging(name, frames, messages, count):
    """Prints what judging the messages of some frames this many times costs, and scanning them. A stream
    short enough to stay in the processor's cache is read once and gone through again and again: the octets
    that a decoder is fed were just read, so they are there, too."""
    pieces = max(1, CACHED_OCTETS // len(frames))
    times = max(1, count // pieces)
    size, messages = times * pieces * len(frames), times * pieces * messages
    words = ["frames", "judge", "step", "take"]
    with repeated(frames, pieces) as stream:
        cutting, *ways = best_runs(([AGAIN, word, str(times - 1)] for word in words), stream.name, runs=10)
    parts = (
        f"{word} {rate(size, seconds - cutting)}, {(seconds - cutting) / messages * 1e9:.0f} ns a message"
        for word, seconds in zip(words[1:], ways)
    )
    print(f"{messages} {name}, {size} octets: {'; '.join(parts)}")


def main():
    messages = int(sys.argv[1])
    frames = real_frames()
    octets = b"".join(frames)
    mixed = ("mixed messages", octets, len(frames), MIXED_OCTETS // len(octets))
    ap_rep = pathlib.Path("examples/ap-rep.stream").read_bytes()
    as_rep = pathlib.Path("examples/as-rep.stream").read_bytes()
    time_listing(*mixed)
    time_listing("AP-REPs", ap_rep, 1, messages)
    time_listing("AP-REPs", ap_rep, 1, 2 * messages)
    time_lister(*mixed)
    time_lister("AP-REPs", ap_rep, 1, messages)
    time_rows(*mixed)
    time_mit(*mixed)
    time_judging(*mixed)
    time_again(*mixed)
    time_again("AS-REPs", as_rep, 1, max(messages // 5, 1))


main()
