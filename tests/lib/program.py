"""The program that the tests run: bin/krbls, or what KRBLS names, as KRBLS=bin/krbls-unproved. That one is as `rt try` has it
(tools/unproved): it takes some fifty times as long, more for large inputs, and does not run in little memory."""

import os
import pathlib

TOP = pathlib.Path(__file__).resolve().parents[2]
KRBLS = TOP / os.environ.get("KRBLS", "bin/krbls")
IS_UNPROVED = KRBLS.name == "krbls-unproved"
