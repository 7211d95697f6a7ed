"""The reference as a program, which does as `krbls` has to: `python3 tests/lib/reference message --names FILE`."""

import os
import pathlib
import sys
import time

sys.dont_write_bytecode = True
sys.path.insert(0, str(pathlib.Path(__file__).resolve().parent.parent))
import reference
import reference.runs

# What may be before the name of a file.
PREFIXES = (b"FILE:", b"WRFILE:", b"DIR::", b"DIR:")


def named_files(words):
    """The files that words name, and those of directories, by their names."""
    found = {}
    for word in map(os.fsencode, words):
        prefix = next((prefix for prefix in PREFIXES if word.startswith(prefix)), b"")
        for name in {word.removeprefix(b"--file="), word[len(prefix) :]}:
            paths = [name]
            if os.path.isdir(name):
                paths = [os.path.join(name, inner) for inner in os.listdir(name)]
            for path in filter(os.path.isfile, paths):
                found[path.removeprefix(b"./")] = pathlib.Path(os.fsdecode(path)).read_bytes()
    return found


def convert(words, given):
    """What `decode` or `encode` writes of the standard input, and its status."""
    output, end = reference.converted(" ".join(words), given)
    sys.stdout.buffer.write(output)
    sys.stdout.flush()
    for line in [] if end is None else end.split("\n"):
        print(f"krbls: standard input: {line}", file=sys.stderr)
    return int(end is not None)


def main(words):
    given = b"" if sys.stdin.isatty() else sys.stdin.buffer.read()
    if words[:1] in (["decode"], ["encode"]):
        return convert(words, given)
    run = reference.runs.run(words, given, named_files(words), int(time.time()))
    sys.stdout.write(run.output)
    sys.stdout.flush()
    # Which words are wrong is known, and not what is said of them.
    sys.stderr.write(run.errors or "")
    return run.status


sys.exit(main(sys.argv[1:]))
