"""The schema and the types are what the tools write of docs/LISTING.md, and shapes of one kind are told apart.

tests/run/names-and-json compares each object that it lists with the schema."""

import json
import subprocess
import sys
import typing
import unittest

import krbls.records

from .places import PACKAGE

try:
    import jsonschema
except ImportError:
    jsonschema = None

sys.path.insert(0, str(PACKAGE / "tools"))

BASE = {"kind": "refused", "place": 3, "why": 12, "why_name": "Range", "in": None, "at": 0, "length": None}
ENDS = {"source": {"address": "::1", "port": 1}, "target": {"address": "::1", "port": 88}}
ORIGIN = {"packet": 1, "t": None, "flow": {"over": "udp", **ENDS}, "t_us": None, "of": None, "after": None, "waited": None}
COUNTS = {"packets": 1, "messages": 0, "refused": 0, "lost": 0, "unread": 0}
TOLD = {"answered": 0, "unanswered": 0, "again": 0, "unreachable": 0}


def made(tool):
    words = [sys.executable, PACKAGE / "tools" / tool, "--print"]
    return subprocess.run(words, capture_output=True, text=True, check=True).stdout


class Made(unittest.TestCase):
    def test_schema(self):
        """After a change of LISTING: tools/make_schema.py, then tools/make_records.py."""
        if sys.version_info < (3, 10):
            self.skipTest("tests/lib/members.py needs Python 3.10")
        self.assertEqual(made("make_schema.py"), (PACKAGE / "src/krbls/krbls.schema.json").read_text())

    def test_types(self):
        self.assertEqual(made("make_records.py"), (PACKAGE / "src/krbls/records.py").read_text())
        for name in krbls.records.__all__:
            of = getattr(krbls.records, name)
            if hasattr(of, "__annotations__"):
                typing.get_type_hints(of)


@unittest.skipUnless(jsonschema, "no python3-jsonschema")
class ToldApart(unittest.TestCase):
    def test_refused(self):
        import check_schema

        for name, record in {
            "refused": {**BASE, **ORIGIN},
            "refused-stream": {**BASE, "messages": 4},
            "refused-capture": {**BASE, **COUNTS, **TOLD},
            "refused-message": {**BASE, "form": "hex"},
            "refused-input": {**BASE, "input": "hex", "why": None, "why_name": None, "form": None},
        }.items():
            self.assertEqual(check_schema.names_of(record), [name])
            jsonschema.validate(record, check_schema.SCHEMA)

    def test_wrong(self):
        import check_schema

        wrong = ({**BASE, "packet": 1}, {**BASE, **ORIGIN, "t_us": "5"}, {**BASE, "place": "3"}, {**BASE, "why": None}, {"kind": "refused"}, {**BASE, "in": 7})
        for record in wrong:
            self.assertEqual(check_schema.names_of(record), [], json.dumps(record))

    def test_members_of_a_later_version(self):
        import check_schema

        self.assertEqual(check_schema.names_of({**BASE, **ORIGIN, "of": 3, "later": 5}), ["refused"])


if __name__ == "__main__":
    unittest.main()
