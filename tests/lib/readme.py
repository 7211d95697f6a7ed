"""Takes the examples of README.md and docs/: in each block `console`, a command after `$ `, which goes on in lines that begin
with `> `, and below it what it prints; and in each block `rust`, `c` or `python`, code, which has to be a part of the file of crates/ or examples/ that the
text before it links.

  python3 tests/lib/readme.py FOLDER    writes PAGE-N.command and PAGE-N.want of the Nth example of a page, and
                                        PAGE-N.code and PAGE-N.source of its Nth block of code: the code, and the
                                        same again if its file has it, else the whole file
"""

import pathlib
import re
import sys

TOP = pathlib.Path(__file__).resolve().parents[2]
CONSOLE = re.compile(r"^```console\n(.*?)^```\n", re.DOTALL | re.MULTILINE)
EXAMPLE = re.compile(r"^\$ (.*(?:\n> .*)*)\n((?:(?!\$ ).*\n)*)", re.MULTILINE)
CODE = re.compile(r"^```(?:rust|c|python)\n(.*?)^```\n", re.DOTALL | re.MULTILINE)
LINK = re.compile(r"\]\((?:\.\./)?(crates/[^)]*\.rt|examples/[^)]*\.(?:c|py))\)")


def examples(text):
    """The commands of a page, each with what it prints."""
    found = (example for block in CONSOLE.findall(text) for example in EXAMPLE.findall(block))
    return [(command.replace("\n> ", "\n"), lines) for command, lines in found]


def take(page, folder):
    """Writes the examples and the code of a page."""
    text = page.read_text()
    for number, (command, lines) in enumerate(examples(text), 1):
        (folder / f"{page.stem}-{number}.command").write_text(f"{command}\n")
        (folder / f"{page.stem}-{number}.want").write_text(lines)
    for number, block in enumerate(CODE.finditer(text), 1):
        *_, link = LINK.findall(text[: block.start()])
        source = (TOP / link).read_text()
        (folder / f"{page.stem}-{number}.code").write_text(block[1])
        (folder / f"{page.stem}-{number}.source").write_text(block[1] if block[1] in source else source)


def main(folder):
    folder.mkdir()
    for page in [TOP / "README.md", *sorted((TOP / "docs").glob("*.md"))]:
        take(page, folder)


if __name__ == "__main__":
    main(pathlib.Path(sys.argv[1]))
