"""Times bin/krbls decode on a stream of real messages, and bin/krbls encode on the lines that it writes, each in turns with
another program on the same input, in 8 MiB of address space; and says how much memory each used."""

import importlib.util
import os
import sys
import tempfile

from frames import real_frames, repeated
from timing import best_runs, most_octets, output_of, peak_octets

DECODE = ["bash", "-c", "ulimit -v 8192; exec bin/krbls decode"]
STREAM = ["bash", "-c", "ulimit -v 8192; exec bin/krbls stream --json"]
ENCODE = ["bash", "-c", "ulimit -v 8192; exec bin/krbls encode"]
PYTHON = ["python3", "-c", "import json, sys\nfor line in sys.stdin.buffer: json.loads(line)"]

# Decodes each frame as DER, without a description of the messages, and passes over the few for which that is not enough.
PYASN1 = """
import contextlib, sys
from pyasn1.codec.der import decoder
while size := sys.stdin.buffer.read(4):
    with contextlib.suppress(AttributeError):
        decoder.decode(sys.stdin.buffer.read(int.from_bytes(size)))
"""


def is_encrypted(frame):
    """Whether a message is none that is refused because it is not encrypted: a KRB-CRED with an encryption type 0."""
    return frame[4] != 0x76 or b"\xa0\x03\x02\x01\x00" not in frame


def print_costs(name, commands, path):
    """Prints what commands with a name each cost on a file, whose runs alternate, by the octets that each writes."""
    print(f"{name}, {os.path.getsize(path)} octets:")
    for (title, command), seconds in zip(commands.items(), best_runs(commands.values(), path)):
        written = len(output_of(command, path))
        each = f", {seconds / written * 1e9:.2f} ns for each of {written} octets written" if written else ""
        memory = (peak_octets if written else most_octets)(command, path)
        rate = os.path.getsize(path) / seconds / 1e6
        print(f"    {title} {seconds:.3f} s, {rate:.1f} MB/s read{each}, {memory / 1e6:.1f} MB of memory")


def main():
    octets = b"".join(filter(is_encrypted, real_frames()))
    with repeated(octets, max(1, (int(sys.argv[1]) << 20) // len(octets))) as stream, tempfile.NamedTemporaryFile() as lines:
        print_costs("mixed messages", {"decode": DECODE, "stream --json": STREAM}, stream.name)
        lines.write(output_of(DECODE, stream.name))
        lines.flush()
        print_costs("their lines", {"encode": ENCODE, "Python's json": PYTHON}, lines.name)
    if importlib.util.find_spec("pyasn1"):
        with repeated(octets, 1) as once:
            print_costs("each message once", {"decode": DECODE, "pyasn1": ["python3", "-c", PYASN1]}, once.name)


main()
