"""The picture: what stands out, what is drawn and what is left out, names as text, and how a browser shows it."""

import html.parser
import io
import json
import os
import pathlib
import re
import shutil
import subprocess
import sys
import tempfile
import unittest
from unittest import mock

import krbls
from krbls.report import report
from krbls.report.happened import Follower, microseconds
from krbls.report.words import span

from . import made
from .places import EXAMPLES, a_program

CLIENT, KDC = ("10.0.0.1", 40000), ("10.0.0.88", 88)
START = 1767225600_000000
SCRIPT = "<script>alert(1)</script>"
# By how much the tables of answers are wider than what they stand in.
WIDER = """const boxes = [...document.querySelectorAll(".scroll")].filter(box => box.querySelector("table"));
document.title = "wider: " + boxes.map(box => box.scrollWidth - box.clientWidth).join()"""
CHROMIUM = shutil.which("chromium") or shutil.which("chromium-browser") or shutil.which("google-chrome")
VOID = {"meta"}


class Reader(html.parser.HTMLParser):
    """The text of a page, its elements, and whether each is closed where it was opened."""

    def __init__(self, page):
        super().__init__()
        self.open, self.tags, self.pieces, self.ids = [], set(), [], []
        self.feed(page)
        assert not self.open, self.open

    def handle_starttag(self, tag, attrs):
        self.tags.add(tag)
        self.ids += [value for name, value in attrs if name == "id"]
        assert not [name for name, _ in attrs if name.startswith("on") or name in ("src", "xlink:href")], attrs
        if tag not in VOID:
            self.open.append(tag)

    def handle_startendtag(self, tag, attrs):
        self.tags.add(tag)

    def handle_endtag(self, tag):
        assert self.open.pop() == tag, tag

    def handle_data(self, data):
        if self.open and self.open[-1] != "style":
            self.pieces.append(data)

    @property
    def text(self):
        return " ".join(" ".join(self.pieces).split())


def one(message):
    return krbls.encode(message, unframed=True)


def page_of(*sources, **options):
    out = io.StringIO()
    report(sources, out, **options)
    return out.getvalue()


class Pages(unittest.TestCase):
    def test_morning(self):
        page = Reader(page_of(str(EXAMPLES / "morning.pcap")))
        self.assertIn("6 messages, 3 requests, 3 answered, 30 packets", page.text)
        self.assertIn("25 KDC_ERR_PREAUTH_REQUIRED × 1 usual", page.text)
        self.assertIn("alice@CORPUS.TEST → krbtgt/CORPUS.TEST", page.text)
        self.assertIn("ticket aes256-cts-hmac-sha1-96, kvno 1", page.text)
        self.assertIn("3 answers; the median is 32 µs", page.text)
        self.assertEqual(page.ids, [f"f1-{packet}" for packet in (4, 6, 14, 16, 24, 26)])

    def test_names_are_text(self):
        realm, client = SCRIPT, '"><img src=x onerror=alert(2)>&amp;'
        octets = made.capture(
            [
                (START, CLIENT, KDC, one(made.as_req(realm, client))),
                (START + 900, KDC, CLIENT, one(made.krb_error(6, realm, "</svg><script>alert(3)</script>"))),
            ]
        )
        with tempfile.TemporaryDirectory() as folder:
            path = pathlib.Path(folder) / "<b>&.pcap"
            path.write_bytes(octets)
            page = page_of(path)
        self.assertNotIn("<script", page.lower())
        self.assertNotIn("<img", page)
        read = Reader(page)
        self.assertFalse(read.tags & {"script", "img", "b>"} or "onerror" in read.tags)
        # A slash, a blank and an at sign of a component are escaped by krbls itself.
        self.assertIn(r"@<script>alert(1)<\x2fscript>", read.text)
        self.assertIn("“</svg><script>alert(3)</script>”", read.text)
        self.assertIn("<b>&.pcap", read.text)

    def test_faults(self):
        many = [(START + i * 1000, CLIENT, KDC, one(made.as_req("R", f"u{i}", i + 1))) for i in range(3)]
        octets = made.capture(
            [
                *many[:2],
                (START + 5000, KDC, CLIENT, one(made.as_rep("R", "u1", 23))),
                (START + 2_600_000, ("10.0.0.2", 5), KDC, one(made.as_req("R", "late", 9))),
                (START + 4_000_000, KDC, ("10.0.0.2", 5), one(made.krb_error(18, "R", "LOCKED", "20260101010004Z"))),
                (START + 5_000_000, ("10.0.0.3", 5), KDC, b"\x6a\x03abc"),
            ]
        )
        text = Reader(page_of(octets)).text
        for said in (
            "18 KDC_ERR_CLIENT_REVOKED × 1 the client's account is disabled, locked or expired",
            "1 request without an answer: 10.0.0.88:88 × 1 first: packet 1",
            "1 × refused",
            "The clock of 10.0.0.88 (KDC or server) is 1 h 0 min ahead of that of the capture.",
            "Weak encryption in use: 23 rc4-hmac × 2; tickets for krbtgt/R@R × 1.",
            "1 answer came more than 1.00 s after the request was first sent.",
        ):
            self.assertIn(said, text)

    def test_left_out(self):
        datagrams = []
        for i in range(100):
            client = ("10.0.1.1", 1000 + i)
            datagrams.append((START + i * 1000, client, KDC, one(made.as_req("R", f"u{i}", i + 1))))
            answer = made.krb_error(6, "R", "NO") if i in (40, 90) else made.as_rep("R", f"u{i}")
            datagrams.append((START + i * 1000 + 10, KDC, client, one(answer)))
        page = Reader(page_of(made.capture(datagrams), most=10))
        self.assertIn("90 exchanges of 100 are not drawn , 0 of them with a fault", page.text)
        self.assertIn("⋯ 32 exchanges are not drawn", page.text)
        self.assertEqual(len(page.ids), 20)
        self.assertIn("f1-82", page.ids)
        self.assertIn("6 KDC_ERR_C_PRINCIPAL_UNKNOWN × 2", page.text)
        self.assertIn("100 answers", page.text)

    def test_several_and_broken(self):
        page = Reader(page_of(str(EXAMPLES / "morning.pcap"), str(EXAMPLES / "service.keytab"), "no such file"))
        self.assertIn("service.keytab was not read to its end. Magic at 0 in magic (this is a keytab", page.text)
        self.assertIn("no such file was not read to its end. No such file or directory", page.text)

    def test_nothing(self):
        self.assertIn("No messages.", Reader(page_of(made.capture([]))).text)


CLIENT_TO_KDC = {"source": {"address": "10.0.0.1", "port": 40000}, "target": {"address": "10.0.0.88", "port": 88}}


def at(packet, time, **members):
    """The origin of a record, as a krbls has it that tells what happened, and members."""
    return {"packet": packet, "t": None, "flow": {"over": "udp", **CLIENT_TO_KDC}, **members, "t_us": START + time}


def page_of_records(*records):
    """The page of a capture of which krbls lists these records."""
    text = "\n".join(map(json.dumps, records))
    with a_program(f"cat << 'END'\n{text}\nEND") as name, mock.patch.dict(os.environ, KRBLS=name):
        return Reader(page_of(b"")).text


END = {"kind": "end", "packets": 4, "messages": 2, "refused": 0, "lost": 0, "unread": 0}


class Told(unittest.TestCase):
    """What a krbls tells of answers is believed, and records that only a later version has are shown."""

    def test_told(self):
        request = next(krbls.capture(made.capture([(START, CLIENT, KDC, one(made.as_req("R", "u")))])))
        icmp = {"how": "icmp", "by": "10.0.0.88", "type": 3, "type_name": "destination-unreachable"}
        port = {"code": 3, "code_name": "port-unreachable", "of": 1, "after": 12, "waited": 12}
        page = page_of_records(
            {**request, "t_us": START, "again": None},
            {"kind": "unreachable", **at(3, 12, **icmp, **port)},
            {**request, "packet": 4, "t_us": START + 500, "again": 1},
            {"kind": "unanswered", **at(4, 507, request="AS-REQ", of=4, after=7, waited=507)},
            END,
        )
        self.assertIn("not reached: icmp destination-unreachable port-unreachable by 10.0.0.88 after 12 µs", page)
        self.assertIn("1 request without an answer: 10.0.0.88:88 × 1", page)
        self.assertIn("no answer in the 7 µs that follow · again (first in packet 1)", page)
        self.assertIn("Not reached × 1: 10.0.0.88:88 × 1", page)

    def test_unread(self):
        several = [{"kind": "unread", **at(i, i, place=place, octets=6, why=2, why_name="Reset")} for i, place in ((1, 36), (2, None))]
        page = page_of_records(*several, {**END, "unread": 2})
        self.assertIn("2 × unread: octets that no message has", page)
        self.assertIn("unread 6 octets that no message has: Reset", page)
        self.assertIn("unread 2", page.partition("Counts")[2])


class Pairs(unittest.TestCase):
    def exchanges(self, *records):
        done = []
        follower = Follower(88, done.append)
        for record in records:
            follower.add(record)
        follower.end()
        return [
            (e.request and e.request.packet, e.reply and e.reply.packet, e.after)
            for e in sorted(done, key=lambda e: e.number)
        ]

    def record(self, packet, kind, over="udp"):
        client, kdc = {"address": "10.0.0.1", "port": 5}, {"address": "10.0.0.2", "port": 88}
        ends = (client, kdc) if kind.endswith("-REQ") else (kdc, client)
        name = {"text": f"u{packet}@R"}
        encrypted = {"etype": 18, "etype_name": None, "kvno": 1, "size": 1}
        more = {"client": name, "server": name, "nonce": packet, "padata": None, "ticket": encrypted, "enc": encrypted}
        return {
            "kind": kind,
            "packet": packet,
            "t": f"2026-01-01T00:00:00.00000{packet}000Z",
            "flow": {"over": over, "source": ends[0], "target": ends[1]},
            **more,
        }

    def test_udp_latest_tcp_first(self):
        kinds = ["AS-REQ", "AS-REQ", "AS-REP"]
        self.assertEqual(
            self.exchanges(*(self.record(i, kind) for i, kind in enumerate(kinds, 1))), [(1, None, None), (2, 3, 1)]
        )
        self.assertEqual(
            self.exchanges(*(self.record(i, kind, "tcp") for i, kind in enumerate(kinds, 1))), [(1, 3, 2), (2, None, None)]
        )

    def test_kinds(self):
        kinds = ["AS-REQ", "TGS-REQ", "AS-REP"]
        self.assertEqual(
            self.exchanges(*(self.record(i, kind) for i, kind in enumerate(kinds, 1))), [(1, 3, 2), (2, None, None)]
        )
        self.assertEqual(
            self.exchanges(self.record(1, "AS-REQ"), self.record(2, "TGS-REP")), [(1, None, None), (None, 2, None)]
        )

    def test_times_and_spans(self):
        self.assertEqual(microseconds({"t": "2026-01-01T00:00:01.000002999Z"}), START + 1_000_002)
        self.assertIsNone(microseconds({"t": None}))
        self.assertEqual(
            list(map(span, (14, 7773, 4016183, 57_600_000_000, -5))), ["14 µs", "7.77 ms", "4.02 s", "16 h 0 min", "−5 µs"]
        )


@unittest.skipUnless(CHROMIUM, "no Chromium")
class Browser(unittest.TestCase):
    WORDS = ["--headless=new", "--no-sandbox", "--disable-gpu"]

    def browse(self, page, word, size="1280,900"):
        """What Chromium prints of a page in a window of a size, and the picture that it takes."""
        with tempfile.TemporaryDirectory() as folder:
            path = pathlib.Path(folder) / "page.html"
            path.write_text(page, encoding="utf-8")
            words = [*self.WORDS, f"--window-size={size}", f"--user-data-dir={folder}/data", word.replace("SHOT", f"{folder}/shot.png")]
            done = subprocess.run([CHROMIUM, *words, path.as_uri()], capture_output=True, timeout=300, check=True)
            shot = pathlib.Path(folder) / "shot.png"
            return done.stdout, shot.read_bytes() if shot.exists() else b""

    def test_text(self):
        octets = made.capture([(START, CLIENT, KDC, one(made.as_req(SCRIPT, "u")))])
        text, _ = self.browse(page_of(octets), "--dump-dom")
        self.assertNotIn(b"<script", text)
        self.assertIn(rb"&lt;script&gt;alert(1)&lt;\x2fscript&gt;", text)

    def test_picture(self):
        _, shot = self.browse(page_of(str(EXAMPLES / "morning.pcap")), "--screenshot=SHOT")
        self.assertEqual(shot[:8], b"\x89PNG\r\n\x1a\n")
        self.assertGreater(len(shot), 20000)

    def test_columns(self):
        """Each table of answers fits into a window of 1100 pixels, also one with a long name and an error."""
        captures = [EXAMPLES / "morning.pcap", EXAMPLES / "../tests/data/captures/made-ended-midway-tcp.capture"]
        captures += [EXAMPLES / f"recipes/data/{name}.pcap" for name in ("incident", "slow-udp")]
        for capture in captures:
            page = re.sub("<meta http-equiv=[^>]*>", "", page_of(str(capture)))
            page = page.replace("</body>", f"<script>{WIDER}</script></body>")
            text, _ = self.browse(page, "--dump-dom", "1100,900")
            self.assertEqual(re.search(rb"<title>(wider:[^<]*)", text)[1], b"wider: 0", capture)

    def test_ten_thousand_messages(self):
        """All of them are drawn, and the browser has each."""
        datagrams = []
        for i in range(5000):
            client = (f"10.0.{i % 3}.{i % 200}", 1000 + i)
            datagrams.append((START + i * 1000, client, KDC, one_of(i)))
            datagrams.append((START + i * 1000 + 10, KDC, client, AS_REP))
        page = page_of(made.capture(datagrams))
        self.assertNotIn("not drawn", page)
        text, _ = self.browse(page, "--dump-dom")
        self.assertEqual(len(re.findall(rb'<g id="f1-', text)), 10000)


AS_REP = one(made.as_rep("R", "u"))
_AS_REQ = one(made.as_req("R", "u00000", 0x40000000))


def one_of(i):
    return _AS_REQ.replace(b"u00000", b"u%05d" % i).replace(
        b"\x40\x00\x00\x00\xa8", (0x40000000 + i).to_bytes(4, "big") + b"\xa8"
    )


class Command(unittest.TestCase):
    def test_words(self):
        words = [sys.executable, "-m", "krbls", "report"]
        done = subprocess.run([*words, str(EXAMPLES / "morning.pcap")], capture_output=True, check=True)
        self.assertTrue(re.match(rb"<!DOCTYPE html>.*</html>\n$", done.stdout, re.S))
        with open(EXAMPLES / "morning.pcap", "rb") as given:
            self.assertEqual(subprocess.run([*words, "-"], stdin=given, capture_output=True).returncode, 0)
        self.assertEqual(subprocess.run([*words, "nowhere"], capture_output=True).returncode, 1)
        self.assertEqual(subprocess.run(words, capture_output=True).returncode, 2)


if __name__ == "__main__":
    unittest.main()
