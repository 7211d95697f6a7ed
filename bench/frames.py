"""Real messages in frames, of which the benchmarks make long streams and captures."""

import pathlib
import tempfile

# The few messages that have more octets are almost all cipher.
LARGE_OCTETS = 8192


def real_frames():
    """The real messages of tests/data/streams that are no AP-REPs, without the few large ones."""
    frames = []
    for path in sorted(pathlib.Path("tests/data/streams").glob("*.stream")):
        if path.name.startswith("worked-"):
            continue
        lines = path.with_suffix(".want").read_text().splitlines()
        if lines[1:] == ["end messages=1", "status 0"] and not lines[0].startswith("AP-REP"):
            if path.stat().st_size < LARGE_OCTETS:
                frames.append(path.read_bytes())
    return frames


def repeated(octets, count):
    """A file of this many times some octets."""
    file = tempfile.NamedTemporaryFile()
    piece = max(1, (1 << 20) // len(octets))
    for done in range(0, count, piece):
        file.write(octets * min(piece, count - done))
    file.flush()
    return file
