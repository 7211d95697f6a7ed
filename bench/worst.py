"""Says what bin/krbls costs on the inputs that cost it most for each octet, which are made here."""

import itertools
import sys
import tempfile

import worst_captures
import worst_files
import worst_streams
from timing import processor_seconds, written

# What an octet may cost, and how many octets are written at most for one that costs no more.
MOST_NANOSECONDS = 100
MOST_WRITTEN = 20


def main():
    size = int(sys.argv[1]) << 20
    above = []
    cases = (kind.cases(size) for kind in (worst_streams, worst_files, worst_captures))
    for name, command, octets in itertools.chain.from_iterable(cases):
        with tempfile.NamedTemporaryFile() as file:
            read = file.write(octets())
            file.flush()
            words = ["bin/krbls", *command, *sys.argv[2:]]
            cost = processor_seconds(words, file.name) / read * 1e9
            ratio = written(words, file.name) / read
        print(f"{name}, {read} octets: {cost:.1f} ns an octet, {ratio:.2f} times as many octets written", flush=True)
        if cost > MOST_NANOSECONDS and ratio <= MOST_WRITTEN:
            above.append(name)
    named = ", ".join(above) or "none"
    print(f"above {MOST_NANOSECONDS} ns, with at most {MOST_WRITTEN} times as many octets written: {named}")


main()
