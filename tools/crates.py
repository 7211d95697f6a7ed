#!/usr/bin/env python3
"""The crates of crates.txt: crates.py CRATE prints those that one rests on, each after those that it uses, and itself."""

import pathlib
import re
import sys

TOP = pathlib.Path(__file__).resolve().parents[1]
LINE = re.compile(r"^(\w+)(?: staticlib)?:(.*)$", re.MULTILINE)


def uses():
    """The crates, each with those of them that it uses."""
    found = {name: words.split() for name, words in LINE.findall((TOP / "crates.txt").read_text())}
    return {name: [word for word in words if word in found] for name, words in found.items()}


def with_below(crate, of):
    """Those that a crate rests on, each after those that it uses, and itself."""
    found = [name for used in of[crate] for name in with_below(used, of)]
    return list(dict.fromkeys([*found, crate]))


if __name__ == "__main__":
    print(*with_below(sys.argv[1], uses()), sep="\n")
