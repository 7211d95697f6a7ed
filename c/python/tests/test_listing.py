"""Listings, decode and encode by the program, over each sort of source."""

import datetime
import io
import json
import os
import pathlib
import subprocess
import sys
import tempfile
import time
import unittest
from unittest import mock

import krbls

from .places import EXAMPLES, PACKAGE, a_program

AP_REP = bytes.fromhex("6f1d301ba003020105a10302010fa20f300da003020112a2060404deadbeef")
WRONG = AP_REP.replace(b"\5", b"\4", 1)
MORNING = EXAMPLES / "morning.pcap"
KINDS = ["AS-REQ", "KRB-ERROR", "AS-REQ", "AS-REP", "TGS-REQ", "TGS-REP"]
END = {"kind": "end", "packets": 30, "messages": 6, "refused": 0, "lost": 0, "unread": 0}
END |= {"answered": 3, "unanswered": 0, "again": 0, "unreachable": 0}


def kinds(listing):
    return [record["kind"] for record in listing]


class Sources(unittest.TestCase):
    def test_each_sort(self):
        octets = MORNING.read_bytes()
        for source in (str(MORNING), MORNING, octets, bytearray(octets), memoryview(octets), io.BytesIO(octets)):
            with self.subTest(type(source)):
                listing = krbls.capture(source)
                self.assertEqual(kinds(listing), KINDS)
                self.assertEqual(listing.end, END)
                self.assertEqual(listing.status, 0)
        with open(MORNING, "rb") as file:
            self.assertEqual(kinds(krbls.capture(file)), KINDS)

    def test_a_pipe(self):
        with subprocess.Popen(["cat", MORNING], stdout=subprocess.PIPE) as cat:
            self.assertEqual(kinds(krbls.capture(cat.stdout)), KINDS)

    def test_odd_names(self):
        with tempfile.TemporaryDirectory() as folder:
            for name in ("-x", "a b", "FILE:y", "b\udce4r", "--json"):
                path = pathlib.Path(folder) / name
                path.write_bytes(MORNING.read_bytes())
                self.assertEqual(kinds(krbls.list(path)), KINDS)

    def test_a_live_pipe(self):
        """Each record is there when its octets are."""
        reader, writer = os.pipe()
        with os.fdopen(reader, "rb") as source, krbls.stream(source) as listing:
            frame = len(AP_REP).to_bytes(4, "big") + AP_REP
            for _ in range(3):
                os.write(writer, frame)
                self.assertEqual(next(listing)["kind"], "AP-REP")
            os.close(writer)
            self.assertEqual(list(listing), [])
            self.assertEqual(listing.end, {"kind": "end", "messages": 3})

    def test_refused_in_a_live_pipe(self):
        """A refusal is raised while the source is still open."""
        reader, writer = os.pipe()
        with os.fdopen(reader, "rb") as source:
            os.write(writer, len(WRONG).to_bytes(4, "big") + WRONG)
            with self.assertRaises(krbls.Refused):
                next(krbls.stream(source))
            os.close(writer)
            time.sleep(0.1)

    def test_leaving_early(self):
        with krbls.capture(MORNING) as listing:
            self.assertEqual(next(listing)["kind"], "AS-REQ")
        self.assertEqual(list(listing), [])
        self.assertIsNone(listing.end)

    def test_octets_at_once(self):
        """More octets than pipes hold, in both directions."""
        octets = (EXAMPLES / "morning.stream").read_bytes() * 200
        self.assertEqual(sum(1 for _ in krbls.stream(octets)), 1600)


class Faults(unittest.TestCase):
    def test_refused(self):
        frame = len(WRONG).to_bytes(4, "big") + WRONG
        good = len(AP_REP).to_bytes(4, "big") + AP_REP
        listing = krbls.stream(good + frame)
        self.assertEqual(next(listing)["kind"], "AP-REP")
        with self.assertRaises(krbls.Refused) as caught:
            next(listing)
        refused = caught.exception
        self.assertEqual((refused.place, refused.reason, refused.field, refused.at), (12, "Range", "AP-REP.pvno", 35))
        self.assertEqual(str(refused), "Range at 12 in AP-REP.pvno")
        self.assertEqual(listing.status, 1)
        self.assertIsInstance(refused, ValueError)
        quiet = krbls.stream(good + frame, raises=False)
        self.assertEqual(kinds(quiet), ["AP-REP"])
        self.assertEqual(quiet.end["kind"], "refused")
        going = krbls.stream(frame + good, keep_going=True)
        self.assertEqual(kinds(going), ["refused", "AP-REP"])
        self.assertEqual(going.end, {"kind": "end", "messages": 1, "refused": 1})

    def test_hint(self):
        with self.assertRaises(krbls.Refused) as caught:
            list(krbls.capture(EXAMPLES / "service.keytab"))
        self.assertIn("this is a keytab", str(caught.exception))

    def test_not_there(self):
        with self.assertRaises(FileNotFoundError):
            krbls.capture("no such file")
        with self.assertRaises(FileNotFoundError):
            list(krbls.ccache("FILE:no such file"))
        with self.assertRaises(IsADirectoryError):
            list(krbls.capture("/"))

    def test_text_file(self):
        with self.assertRaises(TypeError), open(__file__) as file:
            list(krbls.stream(file))
        with self.assertRaises(TypeError):
            krbls.stream(7)

    def test_source_that_fails(self):
        class Fails:
            def read(self, size=-1):
                raise ConnectionResetError("gone")

        with self.assertRaises(ConnectionResetError):
            list(krbls.stream(Fails()))

    def test_wrong_option(self):
        with self.assertRaises(krbls.WrongOption):
            list(krbls.capture(MORNING, port=0))

    def test_no_program(self):
        with mock.patch.dict(os.environ, KRBLS="/nowhere/krbls"), self.assertRaises(krbls.ProgramNotFound):
            krbls.capture(MORNING)

    def test_killed(self):
        with a_program("kill -9 $$") as name, mock.patch.dict(os.environ, KRBLS=name), self.assertRaises(
            krbls.ProgramFailed
        ) as caught:
            list(krbls.capture(MORNING))
        self.assertEqual(caught.exception.status, -9)


class Commands(unittest.TestCase):
    def test_files(self):
        self.assertEqual(kinds(krbls.keytab(EXAMPLES / "service.keytab"))[:3], ["entry", "entry", "hole"])
        cache = krbls.ccache(EXAMPLES / "user.ccache", now=datetime.datetime(2026, 11, 22, 19, tzinfo=datetime.timezone.utc))
        self.assertEqual([record["state"] for record in cache if record["kind"] == "cred"], ["live"])
        with self.assertRaises(ValueError):
            krbls.ccache(EXAMPLES / "user.ccache", now=datetime.datetime(2026, 11, 22))
        self.assertEqual(kinds(krbls.list(EXAMPLES / "morning.stream"))[-1], "AP-REP")

    def test_collection(self):
        with tempfile.TemporaryDirectory() as folder:
            for name in ("tkt1", "tkt2"):
                (pathlib.Path(folder) / name).write_bytes((EXAMPLES / "user.ccache").read_bytes())
            listing = krbls.ccache(f"DIR:{folder}")
            self.assertEqual({record["file"] for record in listing}, {f"DIR::{folder}/tkt1", f"DIR::{folder}/tkt2"})
            self.assertEqual([end["file"] for end in listing.ends], [f"DIR::{folder}/tkt1", f"DIR::{folder}/tkt2"])

    def test_message(self):
        for source in (AP_REP, AP_REP.hex().encode(), io.BytesIO(AP_REP), EXAMPLES / "negotiate.header"):
            self.assertIn(krbls.message(source)["kind"], ("AP-REP", "AP-REQ"))
        with self.assertRaises(krbls.Refused) as caught:
            krbls.message(WRONG)
        self.assertEqual((caught.exception.place, caught.exception.field), (8, "AP-REP.pvno"))
        self.assertEqual(krbls.message(WRONG, raises=False)["kind"], "refused")
        with self.assertRaises(krbls.Refused) as caught:
            krbls.message(b"nothing of the kind")
        self.assertEqual(caught.exception.reason, "hex")

    def test_messages(self):
        listing = krbls.messages(f"{AP_REP.hex()}\n\n6f1d\n".encode())
        self.assertEqual([(record["line"], record["kind"]) for record in listing], [(1, "AP-REP"), (3, "refused")])
        self.assertEqual(listing.end, {"kind": "end", "messages": 1, "refused": 1})

    def test_back_again(self):
        octets = (EXAMPLES / "morning.stream").read_bytes()
        decoded = krbls.decode(octets)
        self.assertEqual(decoded.said, [])
        self.assertEqual(krbls.encode(decoded.messages), octets)
        self.assertEqual(
            krbls.encode({"AP-REP": krbls.decode(AP_REP, unframed=True).messages[0]["AP-REP"]}, unframed=True), AP_REP
        )
        with self.assertRaises(krbls.NotEncoded) as caught:
            krbls.encode([decoded.messages[0], {"AP-REP": {"pvno": 5}}])
        self.assertEqual(str(caught.exception), "line 2: AP-REP.msg-type: missing")

    def test_decode_says(self):
        decoded = krbls.decode(len(WRONG).to_bytes(4, "big") + WRONG)
        self.assertEqual(decoded.messages, [])
        self.assertIn("in=AP-REP.pvno", decoded.said[0])


class Library(unittest.TestCase):
    def setUp(self):
        from krbls import library

        if not library.is_there():
            self.skipTest("no libkrbls: KRBLS_LIBRARY names one")

    def test_judgements(self):
        self.assertIsNone(krbls.judge(AP_REP))
        self.assertEqual(krbls.judge(WRONG), krbls.Refusal(8, "Range", "AP-REP.pvno"))
        frame = len(WRONG).to_bytes(4, "big") + WRONG
        self.assertEqual(krbls.frame(frame).refusal, krbls.Refusal(12, "Range", "AP-REP.pvno"))
        self.assertFalse(krbls.front(31, AP_REP[:20]).is_whole)

    def test_conversions(self):
        """What the library decodes and encodes is what the program does."""
        from krbls import library

        for name in ("morning.stream", "morning.pcap", "user.ccache", "service.keytab", "ap-rep.stream"):
            octets = (EXAMPLES / name).read_bytes()
            for options in ({}, {"keep_going": True}, {"strict": True, "limit": 300}, {"port": 464, "packet": 6}):
                with self.subTest(name, **options), mock.patch.object(library, "is_there", return_value=False):
                    wanted = krbls.decode(octets, **options)
                with self.subTest(name, **options), mock.patch.object(krbls.codec, "Run", side_effect=AssertionError):
                    self.assertEqual(krbls.decode(octets, **options), wanted)
        with mock.patch.object(krbls.codec, "Run", side_effect=AssertionError):
            octets = (EXAMPLES / "morning.stream").read_bytes()
            self.assertEqual(krbls.encode(krbls.decode(octets).messages), octets)
            with self.assertRaises(krbls.NotEncoded) as caught:
                krbls.encode({"AP-REP": {"pvno": 4}})
            self.assertEqual(str(caught.exception), "line 1: AP-REP.pvno: not 5")
            with self.assertRaises(krbls.WrongOption):
                krbls.encode([], limit=0)

    def test_spans(self):
        frame = len(AP_REP).to_bytes(4, "big") + AP_REP
        self.assertEqual(krbls.spans(frame * 2), [(4, 31), (39, 31), (70, 0)])
        wrong = frame.replace(b"\5", b"\4", 1)
        self.assertEqual(krbls.spans(frame + wrong + frame), [(4, 31), (35, 70)])
        self.assertEqual(krbls.spans(frame + wrong + frame, keep_going=True), [(4, 31), (35, 35), (74, 31), (105, 0)])
        for name in ("morning.pcap", "user.ccache", "service.keytab"):
            octets = (EXAMPLES / name).read_bytes()
            listing = krbls.list(octets)
            records = [*listing, listing.end]
            spans = krbls.spans(octets)
            self.assertEqual(len(spans), len(records))
            self.assertEqual(spans[-1], (len(octets), 0))
            for record, (at, length) in zip(records, spans):
                self.assertLessEqual(at + length, len(octets))
                if record["kind"] in ("entry", "hole"):
                    self.assertEqual(abs(int.from_bytes(octets[at - 4 : at], "big", signed=True)), length)

    def test_items(self):
        frame = len(AP_REP).to_bytes(4, "big") + AP_REP
        *items, end = krbls.items(frame)
        self.assertEqual(end, {"kind": "end", "items": len(items)})
        self.assertEqual([item["name"] for item in items][:3], ["frame", "AP-REP", "AP-REP.pvno"])
        for item in items:
            self.assertEqual(frame[item["at"] : item["contents"]].hex(), "".join(item["heads"]))
        self.assertEqual(items[2]["value"], frame[items[2]["contents"]])
        *_, fault, refused = krbls.items(frame.replace(b"\5", b"\4", 1))
        self.assertEqual((fault["kind"], fault["octet"], refused["place"]), ("fault", "04", fault["place"]))
        words = os.environ["KRBLS"], "items", "--json", "--strict"
        output = subprocess.run(words, input=frame, capture_output=True, check=True).stdout
        self.assertEqual(krbls.items(frame, strict=True), [json.loads(line) for line in output.splitlines()])

    def test_fields(self):
        octets = MORNING.read_bytes()
        names = "packet,client.text,code_name"
        self.assertEqual(krbls.fields(octets, names).rows, [("6", "alice@CORPUS.TEST", "KDC_ERR_PREAUTH_REQUIRED")])
        self.assertEqual(krbls.fields(octets, names.split(","), listing="capture"), krbls.fields(octets, names))
        with self.assertRaises(krbls.WrongOption) as caught:
            krbls.fields(octets, "clinet")
        self.assertIn("near it: client", str(caught.exception))
        cut = krbls.fields(octets[:-1], "packet,client.text,code_name")
        self.assertEqual(len(cut.rows), 1)
        self.assertTrue(cut.said[0].startswith("refused packets="))


class Modules(unittest.TestCase):
    def test_doctest(self):
        with tempfile.TemporaryDirectory() as folder:
            (pathlib.Path(folder) / "morning.pcap").write_bytes(MORNING.read_bytes())
            script = "import doctest, krbls, sys; sys.exit(doctest.testmod(krbls).failed)"
            there = {**os.environ, "PYTHONPATH": str(PACKAGE / "src")}
            self.assertEqual(subprocess.run([sys.executable, "-c", script], cwd=folder, env=there).returncode, 0)


if __name__ == "__main__":
    unittest.main()
