"""What a shell makes of a line that is typed, as a person types it: on a terminal, with Tab.

  typed.py SHELL LINE         the line after LINE, a Tab, and the keys that take it back as a word
  typed.py SHELL LINE Tab     what the terminal shows after LINE and a Tab, or two in bash

SHELL is bash, zsh or fish, which read the completions of this repository and no others of krbls.
"""

import os
import pathlib
import pty
import re
import select
import shutil
import signal
import sys
import tempfile
import time

TOP = pathlib.Path(__file__).resolve().parents[2]
COMPLETIONS = TOP / "completions"

# How a shell is called, and the lines that are typed first.
SHELLS = {
    "bash": (
        ["bash", "--norc", "--noprofile", "-i"],
        [f"source {COMPLETIONS}/krbls.bash", "bind 'set bell-style none' 'set completion-query-items 0' 'set page-completions off'"],
    ),
    "zsh": (
        ["zsh", "-f", "-i"],
        [f"fpath=({COMPLETIONS} $fpath); unsetopt beep; LISTMAX=10000; autoload -Uz compinit; compinit -u -D"],
    ),
    "fish": (["fish", "--no-config", "-i"], [f"source {COMPLETIONS}/krbls.fish"]),
}

# A line that ends a command, and its mark, which the terminal does not show as it is typed.
READY = "echo rea''dy"

# The greatest number of seconds that a shell may need, on a machine that does much else.
PATIENCE = 60


class Terminal:
    """A shell on a terminal, and what that shows."""

    def __init__(self, shell, home):
        words, lines = SHELLS[shell]
        self.shown = b""
        self.pid, self.end = pty.fork()
        if self.pid == 0:
            os.chdir(home)
            # a terminal that understands few commands, so that little but text is shown
            os.execvpe(words[0], words, {"PATH": os.environ["PATH"], "HOME": home, "TERM": "xterm", "LC_ALL": "C.UTF-8", "COLUMNS": "200", "PS1": "> "})
        for line in [*lines, READY]:
            self.type(line + "\r")
        self.wait("\nready\n")

    def type(self, keys):
        os.write(self.end, keys.encode())

    def read(self, seconds):
        """What is shown within some seconds, if anything is."""
        if not select.select([self.end], [], [], seconds)[0]:
            return b""
        try:
            got = os.read(self.end, 65536)
        except OSError:
            got = b""
        # fish asks what the terminal is, and waits for that
        if b"\x1b[c" in got or b"\x1b[0c" in got:
            self.type("\x1b[?62;c")
        self.shown += got
        return got

    def wait(self, mark):
        """Waits until a mark is shown."""
        limit = time.monotonic() + PATIENCE
        while mark not in self.text():
            if time.monotonic() > limit:
                raise SystemExit(f"typed.py: {mark!r} was not shown, but {self.text()[-2000:]!r}")
            self.read(1)

    def settle(self):
        """Waits until nothing more is shown for a second."""
        while self.read(1):
            pass

    def text(self):
        """What is shown, without what commands a terminal."""
        text = self.shown.decode(errors="replace")
        return re.sub(r"\x1b(\[[0-9;?<>=]*[A-Za-z]|[()][A-Z0-9]|[=>]|\][^\x07]*\x07|k.*?\x1b\\)", "", text).replace("\r", "")

    def close(self):
        os.kill(self.pid, signal.SIGKILL)
        os.waitpid(self.pid, 0)
        os.close(self.end)


def line_after_tab(terminal, line):
    """The line that a Tab makes of one."""
    terminal.type(line + "\t")
    terminal.settle()
    terminal.shown = b""
    # to its beginning, and it is a word of echo
    terminal.type("\x01echo 'typ'ed: \r")
    terminal.wait("\ntyped: ")
    terminal.settle()
    return re.search(r"^typed: (.*?) *$", terminal.text(), re.MULTILINE)[1]


def shown_after_tab(terminal, line, shell):
    """What the terminal shows after a line and a Tab."""
    terminal.shown = b""
    terminal.type(line + ("\t\t" if shell == "bash" else "\t"))
    terminal.settle()
    return terminal.text()


def main(shell, line, *shown):
    if shutil.which(shell) is None:
        raise SystemExit(f"typed.py: there is no {shell}")
    with tempfile.TemporaryDirectory() as home:
        terminal = Terminal(shell, home)
        try:
            print(shown_after_tab(terminal, line, shell) if shown else line_after_tab(terminal, line))
        finally:
            terminal.close()


if __name__ == "__main__":
    main(*sys.argv[1:])
