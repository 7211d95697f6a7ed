"""Where the tests find the program and octets: in the sources of krbls, two folders above the package."""

import contextlib
import os
import pathlib
import tempfile

PACKAGE = pathlib.Path(__file__).resolve().parents[1]
CHECKOUT = PACKAGE.parents[1]
EXAMPLES = CHECKOUT / "examples"
os.environ.setdefault("KRBLS", str(CHECKOUT / "bin/krbls"))


@contextlib.contextmanager
def a_program(script):
    """The name of a program that runs a script of the shell, in the place of krbls."""
    with tempfile.TemporaryDirectory() as folder:
        path = pathlib.Path(folder) / "krbls"
        path.write_text(f"#!/bin/sh\n{script}\n")
        path.chmod(0o755)
        yield str(path)
