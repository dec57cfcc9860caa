"""Tries the package where it answers, and where it refuses."""

import array
import base64
import codecs
import doctest
import email
import email.utils
import gzip
import hashlib
import io
import itertools
import os
import pathlib
import pickle
import shutil
import subprocess
import sys
import tarfile
import tempfile
import threading
import unittest
import zipfile
from collections import Counter
from datetime import datetime, timedelta, timezone
from unittest import mock

import instants
from instants import _answers, _dated, _handle, _library, _lines, _timeline, _zones, dask

try:
    import numpy
except ImportError:
    numpy = None
try:
    import pandas
except ImportError:
    pandas = None

WORDS = ["+00:00", "-", "100", "rfc3339"]
LINE, ANSWER = "2021-01-02T04:04:05+01:00", "2021-01-02T03:04:05.000000000Z"
NO_YEAR = "! component year"
PROJECT = pathlib.Path(__file__).with_name("pyproject.toml")


def how(**others):
    return {"target": "+00:00", "sources": ["rfc3339"], **others}


def answers(lines, **others):
    return instants.answers(lines, **how(**others))


class Lines(unittest.TestCase):
    def test_lines(self):
        self.assertEqual(answers([LINE, LINE.encode()]), [ANSWER, ANSWER])
        self.assertEqual(answers([]), [])
        self.assertEqual(answers([""]), [NO_YEAR])
        self.assertEqual(answers([LINE + "\0"]), ["! trailing"])
        self.assertEqual(answers([b"\xff", "\udcff"]), [NO_YEAR] * 2)
        self.assertEqual(answers(["9" * 101], limit=100), ["! long"])
        self.assertEqual(answers(["9" * 101]), ["! literal"])

    def test_bytes_of_each_kind(self):
        for kind in (bytes, bytearray, memoryview):
            self.assertEqual(answers([kind(LINE.encode())]), [ANSWER])
            self.assertEqual(answers(kind(f"{LINE}\n\n{LINE}".encode())), [ANSWER, NO_YEAR, ANSWER])
            self.assertEqual(instants.answer_bytes(kind(LINE.encode()), WORDS), ANSWER.encode() + b"\n")
        self.assertEqual(instants.answer_bytes(b"", WORDS), b"")

    def test_one_text(self):
        self.assertEqual(answers(f"{LINE}\n\n{LINE}"), [ANSWER, NO_YEAR, ANSWER])
        self.assertEqual(answers(f"{LINE}\n"), [ANSWER])
        self.assertEqual(answers(""), [])

    def test_iterables(self):
        self.assertEqual(answers(it for it in (LINE, "")), [ANSWER, NO_YEAR])
        self.assertEqual(answers({LINE: 1}), [ANSWER])

    def test_files(self):
        with tempfile.TemporaryDirectory() as folder:
            file = pathlib.Path(folder, "lines")
            file.write_text(f"{LINE}\n\n{LINE}")
            for mode in ("r", "rb"):
                with open(file, mode) as lines:
                    self.assertEqual(answers(lines), [ANSWER, NO_YEAR, ANSWER])
        self.assertEqual(answers(io.BytesIO(LINE.encode())), [ANSWER])

    def test_bytes_that_are_no_text(self):
        """A text has them as Python does in names of files and in arguments."""
        how_raised = how(raising=True)
        with instants.Timeline(**how()) as timeline:
            for call in (
                lambda: instants.answers("\udcff\udc80", **how_raised),
                lambda: instants.answers(io.StringIO("\udcff\udc80"), **how_raised),
                lambda: instants.answers(["\udcff\udc80"], **how_raised),
                lambda: instants.answers(["\udcff\udc80\n"], **how_raised),
                lambda: instants.answers(iter(["\udcff\udc80", b""]), **how_raised),
                lambda: list(instants.iter("\udcff\udc80", **how_raised)),
                lambda: list(instants.iter(io.StringIO("\udcff\udc80"), **how_raised)),
                lambda: timeline.answer("\udcff\udc80", raising=True),
            ):
                with self.assertRaises(instants.Fault) as caught:
                    call()
                self.assertEqual(caught.exception.line, b"\xff\x80")

    def test_a_line_feed(self):
        self.assertEqual(answers([LINE + "\n", "\n"]), [ANSWER, NO_YEAR])
        with self.assertRaises(ValueError):
            answers([LINE + "\n" + LINE])
        with self.assertRaises(ValueError):
            answers([LINE + "\n\n", LINE])

    def test_what_is_no_line(self):
        for lines in ([5], [LINE, 5], [b"", 5], [None], 5, None, [[LINE]], array.array("i", [1])):
            with self.assertRaises(TypeError):
                answers(lines)
        with self.assertRaises(TypeError):
            instants.answer_bytes(5, WORDS)
        with self.assertRaises(TypeError):
            instants.answer_bytes(LINE, WORDS)


LOG, KEY = '192.0.2.1 - - [10/Oct/2000:13:55:36 -0700] "GET / HTTP/1.0" 200 2326', "2000-10-10T20:55:36.000000000Z"


class DatesInside(unittest.TestCase):
    def test_keys(self):
        with instants.Lines(["access-log", "rfc3339"]) as lines:
            self.assertEqual(lines.keys([LOG, "up", f"at {LINE}."]), [KEY, "! none", ANSWER])
            self.assertEqual(lines.keys(f"{LOG}\nup".encode()), [KEY, "! none"])
            self.assertEqual(lines.keys([]), [])
            self.assertEqual(lines.keys(["a\tb", "", f"{LINE}ulu"]), ["! none", "! none", "! doubt"])
            self.assertEqual(lines.keys(io.BytesIO(LOG.encode())), [KEY])
        with instants.Lines(["rfc3339"], target="+02:00") as lines:
            self.assertEqual(lines.keys([LINE]), ["2021-01-02T05:04:05.000000000+02:00"])

    def test_carried(self):
        with instants.Lines(["rfc3339"], mode="carry") as lines:
            self.assertEqual(lines.keys(["x", LINE, "y", "  2024-01-01T00:00:00Z"]), ["! none", ANSWER, ANSWER, ANSWER])
            self.assertEqual([it.reason for it in lines.dates(["x", LINE, "y"])], ["none", None, "none"])

    def test_dates(self):
        with instants.Lines(["rfc3339"]) as lines:
            found = lines.dates([f"at {LINE}", "none", "2021-01-02T04:04:05Zulu", "1970-01-01T00:00:00.25Z"])
        self.assertEqual(found[0], (1609556645, 0, 3, 28, None))
        self.assertEqual(found[1], (0, 0, 0, 0, "none"))
        self.assertEqual(found[2], (0, 0, 0, 20, "goes on"))
        self.assertEqual(found[3], instants.LineDate(0, 250_000_000, 0, 23, None))

    def test_words(self):
        with instants.Lines(["strftime", "%b %e %T"], assumed="+00:00", year=2024) as lines:
            self.assertEqual(lines.keys(["Feb 29 01:02:03 x"]), ["2024-02-29T01:02:03.000000000Z"])
        with instants.Lines(["date"], assumed="+00:00", time="12:30") as lines:
            self.assertEqual(lines.keys(["2024-02-29 x"]), ["2024-02-29T12:30:00.000000000Z"])
        with instants.Lines(["rfc3339"], field="t") as lines:
            self.assertEqual(lines.keys([f'{{"a":"2024-01-01T00:00:00Z","t":"{LINE}"}}']), [ANSWER])
        with instants.Lines(["rfc3339"], column=2, separator=";") as lines:
            self.assertEqual(lines.keys([f"2024-01-01T00:00:00Z;{LINE}"]), [ANSWER])
        with instants.Lines(["rfc3339"], limit=3) as lines:
            self.assertEqual(lines.keys([f"...{LINE}", f"..{LINE}"]), ["! none", ANSWER])

    def test_refused(self):
        for sources, others, said in (
            ([], {}, "there are no sources"),
            (["rfc"], {}, '"rfc"'),
            (["rfc3339"], {"mode": "replace"}, "modes key and carry"),
            (["rfc3339"], {"target": "noon"}, '"noon"'),
            (["strftime", "%F"], {}, "names no moment"),
            (["rfc3339\n"], {}, "a line feed"),
        ):
            with self.assertRaises(instants.Refused) as refused:
                instants.Lines(sources, **others)
            self.assertIn(said, str(refused.exception))
        with self.assertRaises(TypeError):
            instants.Lines("rfc3339")
        with self.assertRaises(TypeError):
            instants.Lines(["rfc3339"]).keys([1])

    def test_closed(self):
        lines = instants.Lines(["rfc3339"])
        lines.close()
        for call in (lines.keys, lines.dates, lines.to_datetime64, lambda _: lines.__enter__()):
            with self.assertRaises(ValueError):
                call([])

    def test_threads(self):
        with instants.Lines(["rfc3339"]) as lines:
            found = []
            threads = [threading.Thread(target=lambda: found.append(lines.keys([LINE] * 1000))) for _ in range(4)]
            for thread in threads:
                thread.start()
            for thread in threads:
                thread.join()
        self.assertEqual(found, [[ANSWER] * 1000] * 4)

    @unittest.skipUnless(pathlib.Path(_zones.FOLDER, "Europe/Berlin").is_file(), "there are no files of zones (tzdata)")
    def test_zones(self):
        for assumed in ("Europe/Berlin", ":Europe/Berlin"):
            with instants.Lines(["strftime", "%F %T"], assumed=assumed) as lines:
                self.assertEqual(lines.keys(["2024-07-01 10:00:00"]), ["2024-07-01T08:00:00.000000000Z"])
                self.assertEqual([it.reason for it in lines.dates(["2024-03-31 02:30:00"])], ["skipped by the clock"])

    def test_no_zone(self):
        with tempfile.TemporaryDirectory() as room, mock.patch.dict(os.environ, {"TZDIR": room}):
            pathlib.Path(room, "short").write_bytes(b"TZif")
            pathlib.Path(room, "empty").write_bytes(b"")
            for assumed, said in ((":short", "is cut off"), (":empty", "the zone"), (":none", "no zone none below"), (":a.b", "no zone a.b below"), (":..", "no zone")):
                with self.assertRaises(instants.Refused) as refused:
                    instants.Lines(["strftime", "%F %T"], assumed=assumed)
                self.assertIn(said, str(refused.exception))
        with mock.patch.dict(os.environ, {"TZDIR": "/nowhere"}), self.assertRaises(instants.Refused) as refused:
            instants.Lines(["rfc3339"], assumed="Europe/Berlin")
        self.assertIn("there is no folder /nowhere", str(refused.exception))

    @unittest.skipUnless(numpy, "there is no numpy")
    def test_arrays(self):
        with instants.Lines(["rfc3339"]) as lines:
            found = lines.to_datetime64([LINE, None, float("nan"), "x", "2021-01-02T03:04:05.5Z", "0001-01-01T00:00:00Z"])
        self.assertEqual(found.dtype, numpy.dtype("datetime64[ns]"))
        nat = -(2**63)
        self.assertEqual(found.view("int64").tolist(), [1609556645 * 10**9, nat, nat, nat, 1609556645 * 10**9 + 5 * 10**8, nat])
        with instants.Lines(["rfc3339"], mode="carry") as lines:
            found = lines.to_datetime64(["x", LINE, None, "y", f"{LINE}ulu", "z"])
        self.assertEqual(found.view("int64").tolist(), [nat, *[1609556645 * 10**9] * 3, nat, nat])
        self.assertEqual(len(lines_of_none := instants.Lines(["rfc3339"]).to_datetime64([])), 0, lines_of_none)

    @unittest.skipUnless(pandas, "there is no pandas")
    def test_pandas(self):
        column = pandas.Series([LOG, None, "x"], index=[3, 5, 7])
        with instants.Lines(["access-log"]) as lines:
            moments = pandas.Series(lines.to_datetime64(column), index=column.index)
        self.assertEqual(moments[3], pandas.Timestamp("2000-10-10 20:55:36"))
        self.assertTrue(moments[[5, 7]].isna().all())

    def test_entry(self):
        self.assertEqual(_dated.ENTRY.size, _library.DATE_ENTRY)


class Iterated(unittest.TestCase):
    """Lines that are read block by block."""

    def iterated(self, lines, **others):
        return instants.iter(lines, **how(**others))

    def test_lines(self):
        text = f"{LINE}\n\nyesterday"
        for lines in (text, text.encode(), bytearray(text.encode()), memoryview(text.encode()), text.split("\n"), iter(text.encode().split(b"\n"))):
            self.assertEqual(list(self.iterated(lines)), [ANSWER, NO_YEAR, NO_YEAR])
        for lines in ("", b"", [], iter([]), io.BytesIO(), io.StringIO()):
            self.assertEqual(list(self.iterated(lines)), [])
        self.assertEqual(list(self.iterated([LINE, b"x", "\n"])), [ANSWER, NO_YEAR, NO_YEAR])
        self.assertEqual(Counter(self.iterated("\n" * 300_000)), {NO_YEAR: 300_000})

    def test_blocks(self):
        """Blocks end within lines, at their ends, and lines are longer than a block."""
        text = b"".join(b"%s%s\n" % (LINE.encode(), b"0" * (at * 7 % 5)) for at in range(40)) + b"\n\n" + LINE.encode()
        for tail in (b"", b"\n", b"\n\n"):
            due = answers(text + tail)
            for size in (1, 2, 25, 26, 27, 52, 100, 5_000):
                with mock.patch.object(_lines, "BLOCK", size), mock.patch.object(_lines, "BLOCK_LINES", size):
                    whole = (text + tail).decode()
                    for lines in (io.BytesIO(text + tail), io.StringIO(whole), whole, whole.split("\n")[: len(due)]):
                        self.assertEqual(list(self.iterated(lines)), due)

    def test_a_long_line(self):
        lines = io.BytesIO(b"9" * 3_000_000 + b"\n" + LINE.encode())
        self.assertEqual(list(self.iterated(lines)), ["! long", ANSWER])

    def test_files(self):
        with tempfile.TemporaryDirectory() as folder:
            file = pathlib.Path(folder, "lines")
            file.write_text(f"{LINE}\n" * 20_000)
            for mode, buffering in (("r", -1), ("rb", -1), ("rb", 0)):
                with open(file, mode, buffering) as lines:
                    found = self.iterated(lines)
                    self.assertEqual(next(found), ANSWER)
                    self.assertLess(os.lseek(lines.fileno(), 0, os.SEEK_CUR), 200_000)
                    self.assertEqual(Counter(found), {ANSWER: 19_999})

    def test_files_that_decode(self):
        with tempfile.TemporaryDirectory() as folder:
            file = pathlib.Path(folder, "lines")
            file.write_text(f"{LINE}\n" * 20_000, encoding="utf-16")
            with codecs.open(file, encoding="utf-16") as lines, open(file, encoding="utf-16") as others:
                self.assertEqual(Counter(self.iterated(lines)), {ANSWER: 20_000})
                self.assertEqual(Counter(self.iterated(others)), {ANSWER: 20_000})
            with gzip.open(file, "wb") as packed:
                packed.write(f"{LINE}\n".encode() * 20_000)
            with gzip.open(file) as lines, gzip.open(file, "rt") as others:
                self.assertEqual(Counter(self.iterated(lines)), {ANSWER: 20_000})
                self.assertEqual(Counter(self.iterated(others)), {ANSWER: 20_000})

    def test_no_more_is_read_than_is_asked_for(self):
        given = iter(range(10_000))
        found = self.iterated(LINE for _ in given)
        self.assertEqual(next(given), 0)
        self.assertEqual([next(found) for _ in range(10)], [ANSWER] * 10)
        self.assertLess(next(given), 2_000)

    def test_a_pipe(self):
        class Pipe(io.RawIOBase):
            reads = 0

            def readable(self):
                return True

            def readinto(self, room):
                self.reads += 1
                text = f"{LINE}\n".encode() * (self.reads < 9)
                room[: len(text)] = text
                return len(text)

        pipe = Pipe()
        found = self.iterated(io.BufferedReader(pipe))
        for reads in range(1, 4):
            self.assertEqual((next(found), pipe.reads), (ANSWER, reads))

    def test_a_file_that_does_not_wait(self):
        reads, writes = os.pipe()
        os.set_blocking(reads, False)
        with open(reads, "rb", buffering=0) as lines, open(writes, "wb", buffering=0):
            with self.assertRaises(BlockingIOError):
                list(self.iterated(lines))

    def test_raising(self):
        found = self.iterated(io.BytesIO(f"{LINE}\n".encode() * 20_000 + b"x\n" + LINE.encode()), raising=True)
        self.assertEqual(Counter(itertools.islice(found, 20_000)), {ANSWER: 20_000})
        with self.assertRaisesRegex(instants.Fault, "line 20001, 'x': component year"):
            next(found)
        self.assertEqual(list(found), [])
        self.assertEqual(list(self.iterated([LINE], raising=True)), [ANSWER])

    def test_what_is_refused(self):
        for lines in ([5], [LINE, None], [LINE + "\n\n"]):
            with self.assertRaises((TypeError, ValueError)):
                list(self.iterated(lines))
        # (what is wrong with the call is told at once)
        with self.assertRaises(TypeError):
            self.iterated(5)
        with self.assertRaises(instants.Refused):
            self.iterated([LINE], target="+25:00")

    def test_the_name(self):
        names = {}
        exec("from instants import *", names)
        self.assertIs(names["answers"], instants.answers)
        self.assertNotIn("iter", names)

    def test_a_timeline(self):
        with instants.Timeline(**how()) as timeline:
            found = timeline.iter([LINE, ""])
        self.assertEqual(list(found), [ANSWER, NO_YEAR])
        with self.assertRaisesRegex(ValueError, "the timeline is closed"):
            timeline.iter([LINE])


class Program(unittest.TestCase):
    """`python -m instants`."""

    def ran(self, *words, given=b"", **how):
        places = {**os.environ, "PYTHONPATH": str(pathlib.Path(instants.__file__).parents[1])}
        how = {"input": given, "stdout": subprocess.PIPE, **how}
        done = subprocess.run([sys.executable, "-B", "-m", "instants", *words], stderr=subprocess.PIPE, env=places, **how)
        return done.returncode, done.stdout, done.stderr

    def test_answers(self):
        self.assertEqual(self.ran(*WORDS, given=f"{LINE}\n\nx".encode()), (0, f"{ANSWER}\n{NO_YEAR}\n{NO_YEAR}\n".encode(), b""))
        self.assertEqual(self.ran(*WORDS), (0, b"", b""))
        status, said, wrong = self.ran(*WORDS, given=f"{LINE}\n".encode() * 50_000)
        self.assertEqual((status, Counter(said.split(b"\n")), wrong), (0, {ANSWER.encode(): 50_000, b"": 1}, b""))

    def test_wrong_words(self):
        for words in ([], WORDS[:3], ["+25:00", *WORDS[1:]], [*WORDS[:2], "0", "rfc3339"]):
            status, said, wrong = self.ran(*words, given=LINE.encode())
            self.assertEqual((status, said), (2, b""))
            self.assertRegex(wrong, rb"\Ainstants: [^\n]+\n\Z")

    def test_what_it_says_of_itself(self):
        self.assertEqual(self.ran("--version"), (0, f"instants {instants.__version__}\n".encode(), b""))
        for word in ("-h", "--help"):
            status, said, wrong = self.ran(word)
            self.assertEqual((status, wrong), (0, b""))
            self.assertIn(b"python3 -m instants TARGET ASSUMED LIMIT SOURCE... < LINES", said)

    def test_a_run_that_fails(self):
        with open("/dev/full", "wb") as full:
            for words in (WORDS, ["--version"]):
                self.assertEqual(self.ran(*words, given=LINE.encode(), stdout=full)[::2], (1, b"instants: writing failed\n"))
        with open("/dev/null", "wb") as written:
            self.assertEqual(self.ran(*WORDS, input=None, stdin=written), (1, b"", b"instants: reading failed\n"))


class Words(unittest.TestCase):
    def test_refused(self):
        for words, sentence in (
            ({"sources": []}, "instants: there are no sources: name one at least, as in sources=['rfc3339']"),
            ({"sources": iter(())}, "instants: there are no sources: name one at least, as in sources=['rfc3339']"),
            ({"target": "+25:00"}, "instants: the target offset must be +HH:MM or -HH:MM"),
            ({"sources": ["rfc3339\0"]}, "instants: source 1 is not a known source with its description"),
            ({"sources": ["v1", "[day]\n"]}, "instants: a word has a line feed"),
        ):
            with self.assertRaises(instants.Refused) as caught:
                answers([LINE], **words)
            self.assertEqual(str(caught.exception), sentence)

    def test_what_are_no_words(self):
        for sources in ("rfc3339", b"rfc3339", [b"rfc3339"], [5], 5):
            with self.assertRaises(TypeError):
                answers([LINE], sources=sources)
        with self.assertRaises(TypeError):
            instants.answer_bytes(b"", "rfc3339")

    def test_a_long_sentence(self):
        name = "x" * 1000
        with self.assertRaisesRegex(instants.Refused, name):
            answers([LINE], sources=["v1", f"[{name}]"])

    def test_words_that_are_no_text(self):
        with self.assertRaises(MemoryError):
            answers([LINE], sources=["v1", "\udcff"])

    def test_an_assumed_offset(self):
        sources = ["strftime", "%Y-%m-%d %H:%M:%S"]
        self.assertEqual(answers(["2021-01-02 04:04:05"], sources=sources, assumed="+01:00"), [ANSWER])


class Values(unittest.TestCase):
    def test_answers(self):
        good, bad = instants.parse([LINE, "yesterday"], **how())
        self.assertEqual((good.text, good.fault, str(good)), (ANSWER, None, ANSWER))
        self.assertEqual((bad.text, bad.fault), (NO_YEAR, "component year"))

    def test_raising(self):
        for call in (instants.answers, instants.parse, instants.datetimes):
            self.assertEqual(len(call([LINE, LINE], raising=True, **how())), 2)
            with self.assertRaises(instants.Fault) as caught:
                call([LINE, "yesterday", ""], raising=True, **how())
            fault = caught.exception
            self.assertEqual((fault.place, fault.line, fault.fault), (1, b"yesterday", "component year"))
            self.assertEqual(str(fault), "line 2, 'yesterday': component year")
            self.assertEqual(vars(pickle.loads(pickle.dumps(fault))), vars(fault))

    def test_datetimes(self):
        moment = datetime(2021, 1, 2, 3, 4, 5, 123456, timezone.utc)
        lines = ["2021-01-02T03:04:05.123456999Z", "yesterday", "0000-01-02T03:04:05Z"]
        self.assertEqual(instants.datetimes(lines, sources=["rfc3339"]), [moment, None, None])
        (moved,) = instants.datetimes(lines[:1], target="-05:30", sources=["rfc3339"])
        self.assertEqual((moved, moved.utcoffset()), (moment, timedelta(hours=-5, minutes=-30)))
        for lines in (lines[2:], [lines[2], "yesterday"]):
            with self.assertRaisesRegex(instants.Fault, "line 1, .*: datetime has no year 0"):
                instants.datetimes(lines, sources=["rfc3339"], raising=True)

    def test_many_datetimes(self):
        start, step = datetime(1, 1, 2, tzinfo=timezone.utc), timedelta(days=360, seconds=76_543, microseconds=210_001)
        due = [start + at * step for at in range(9_990)]
        lines = [f"{it.isoformat(timespec='microseconds')[:26]}999Z" for it in due]
        for target in ("+00:00", "-00:00", "+23:59", "-05:00"):
            found = instants.datetimes(lines, target=target, sources=["rfc3339"])
            self.assertTrue(found == due)
            self.assertEqual({it.strftime("%z") for it in found}, {target.replace(":", "").replace("-0000", "+0000")})
        # (faults and years 0 in some of the parts that are read at once, also at their ends)
        for at in (*range(0, 9_990, 1_999), *range(4_000, 5_200, 3)):
            lines[at], due[at] = "0000-01-02T03:04:05Z" if at % 2 else "", None
        self.assertTrue(instants.datetimes(lines, sources=["rfc3339"]) == due)
        self.assertEqual(instants.datetimes("", sources=["rfc3339"]), [])

    def test_datetimes_of_older_versions(self):
        for text in (ANSWER, "0001-01-01T00:00:00.000000999Z", "2021-01-02T03:04:05.123456789-05:30", "9999-12-31T23:59:59.999999999+23:59"):
            self.assertEqual([_answers.datetime_before_3_11(text)], _answers.datetimes_of(f"{text}\n"))


class Timelines(unittest.TestCase):
    def test_the_calls(self):
        with instants.Timeline(**how()) as timeline:
            for lines in ([LINE, "", b"yesterday\n"], f"{LINE}\n\nyesterday", io.StringIO(f"{LINE}\n\nyesterday\n")):
                self.assertEqual(timeline.answers(lines), [ANSWER, NO_YEAR, NO_YEAR])
            self.assertEqual(timeline.parse([LINE, ""]), [(ANSWER, None), (NO_YEAR, "component year")])
            self.assertEqual(timeline.datetimes([LINE, "0000-01-01T00:00:00Z"]), [datetime(2021, 1, 2, 3, 4, 5, 0, timezone.utc), None])

    def test_one_line(self):
        with instants.Timeline(**how(limit=25)) as timeline:
            for line in (LINE, LINE.encode(), LINE + "\n", memoryview(LINE.encode())):
                self.assertEqual(timeline.answer(line), ANSWER)
            for line, answer in (("", NO_YEAR), ("\n", NO_YEAR), (LINE + "1", "! long"), ("2021-02-30T00:00:00Z", "! range day"), ("\0", NO_YEAR)):
                self.assertEqual(timeline.answer(line), answer)
            with self.assertRaisesRegex(instants.Fault, "line 1, 'x': component year"):
                timeline.answer("x\n", raising=True)
            with self.assertRaises(ValueError):
                timeline.answer("\n\n")
            with self.assertRaises(TypeError):
                timeline.answer(5)

    def test_longest_answer(self):
        with instants.Timeline(target="-00:30", sources=["rfc3339"]) as timeline:
            self.assertEqual(timeline.answer(LINE), "2021-01-02T02:34:05.000000000-00:30")

    def test_refused(self):
        for words in ({"sources": []}, {"target": "+25:00"}, {"sources": ["v1", "[day]\n"]}, {"limit": 0}):
            with self.assertRaises(instants.Refused):
                instants.Timeline(**how(**words))
        for words in ({"sources": "rfc3339"}, {"target": 5}, {"assumed": None}):
            with self.assertRaises(TypeError):
                instants.Timeline(**how(**words))

    def test_closed(self):
        timeline = instants.Timeline(**how())
        with timeline as same:
            self.assertIs(same, timeline)
        for call in (timeline.answers, timeline.parse, timeline.datetimes, timeline.to_datetime64, timeline.answer):
            with self.assertRaisesRegex(ValueError, "the timeline is closed"):
                call(LINE)
        for call in (timeline.__enter__, lambda: pickle.dumps(timeline)):
            with self.assertRaisesRegex(ValueError, "the timeline is closed"):
                call()
        timeline.close()

    def test_when_it_closes(self):
        with mock.patch.object(_handle.LIBRARY, "instants_close", wraps=_handle.LIBRARY.instants_close) as close:
            timelines = [instants.Timeline(**how()) for _ in range(3)]
            timelines.pop()
            self.assertEqual(close.call_count, 1)
            with timelines.pop():
                pass
            self.assertEqual(close.call_count, 2)
            timelines[0].close()
            timelines[0].close()
            self.assertEqual(close.call_count, 3)
            timelines.clear()
            with self.assertRaises(instants.Refused):
                instants.Timeline(**how(sources=["v1", "[x]"]))
            self.assertEqual(close.call_count, 3)

    def test_a_call_outlasts_it(self):
        with mock.patch.object(_handle.LIBRARY, "instants_close", wraps=_handle.LIBRARY.instants_close) as close:
            timeline = instants.Timeline(**how())
            handle = timeline._open()
            timeline.close()
            self.assertEqual((handle.answer(_lines.whole_stream(LINE.encode())), close.call_count), (ANSWER.encode() + b"\n", 0))
            del handle
            self.assertEqual(close.call_count, 1)

    def test_the_text_of_the_words(self):
        """The library reads the text of the words as long as the handle is open."""
        given_back = []

        class Text(bytes):
            def __del__(self):
                given_back.append(bytes(self))

        def close(at):
            self.assertEqual(given_back, [])
            closed(at)

        closed, text = _handle.LIBRARY.instants_close, "\n".join(WORDS).encode()
        with mock.patch.object(_handle, "joined", lambda words: Text(text)), mock.patch.object(_handle.LIBRARY, "instants_close", close):
            handle = _handle.Handle(WORDS)
            self.assertEqual((handle.answer_line(LINE.encode()), given_back), (ANSWER, []))
            del handle
        self.assertEqual(given_back, [text])

    def test_threads(self):
        lines, ended = [LINE, "", LINE] * 100, []

        def ask(timeline):
            try:
                while timeline.answers(lines) == [ANSWER, NO_YEAR, ANSWER] * 100 and timeline.answer(LINE) == ANSWER:
                    asked.set()
                ended.append("another answer")
            except ValueError as fault:
                ended.append(str(fault))

        for description in (["rfc3339"], ["v3", "[year]-[month]-[day]T[hour]:[minute]:[second][offset_hour sign:mandatory]:[offset_minute]"]):
            timeline, asked = instants.Timeline(**how(sources=description)), threading.Event()
            threads = [threading.Thread(target=ask, args=(timeline,)) for _ in range(4)]
            for it in threads:
                it.start()
            asked.wait()
            timeline.close()
            for it in threads:
                it.join()
        self.assertEqual(ended, ["instants: the timeline is closed"] * 8)

    def test_words_stay_read(self):
        library = _handle.LIBRARY
        with mock.patch.object(library, "instants_open", wraps=library.instants_open) as opened:
            with mock.patch.object(library, "instants_close", wraps=library.instants_close) as closed:
                for limit in [101, 102, 101, 102]:
                    self.assertEqual(answers([LINE], limit=limit), [ANSWER])
                self.assertEqual(opened.call_count, 2)
                for limit in range(103, 153):
                    self.assertEqual(answers([LINE], limit=limit), [ANSWER])
                self.assertEqual(opened.call_count, 52)
                self.assertGreaterEqual(closed.call_count, 36)

    def test_copies(self):
        with instants.Timeline(**how(target="+01:00", assumed="+02:00", limit=19, sources=iter(["strftime", "%F %T"]))) as timeline:
            copy = pickle.loads(pickle.dumps(timeline))
            with self.assertRaises(ValueError):
                pickle.dumps(timeline._open())
        self.assertEqual(copy.answers(["2021-01-02 04:04:05", "2021-01-02 04:04:05."]), ["2021-01-02T03:04:05.000000000+01:00", "! long"])


@unittest.skipUnless(numpy, "numpy is missing: Debian has it as python3-numpy")
class Arrays(unittest.TestCase):
    def read(self, lines, **others):
        return instants.to_datetime64(lines, sources=["rfc3339"], **others)

    def test_moments(self):
        lines = ["2021-01-02T04:04:05.123456789+01:00", "yesterday", "", "1969-12-31T23:59:59.999999999Z", "2000-02-29T00:00:00Z"]
        due = ["2021-01-02T03:04:05.123456789", "NaT", "NaT", "1969-12-31T23:59:59.999999999", "2000-02-29"]
        found = self.read(lines)
        self.assertEqual(found.dtype, numpy.dtype("datetime64[ns]"))
        numpy.testing.assert_array_equal(found, numpy.array(due, dtype="datetime64[ns]"))
        self.assertEqual(len(self.read([])), 0)
        self.assertTrue(numpy.isnat(self.read(["", "yesterday"])).all())

    def test_as_numpy_reads_them(self):
        start, step = datetime(1678, 1, 1), timedelta(days=7, seconds=86_399, microseconds=123_457)
        lines = [f"{(start + at * step).isoformat(timespec='microseconds')}Z" for at in range(20_000)]
        due = numpy.array([it[:-1] for it in lines], dtype="datetime64[ns]")
        numpy.testing.assert_array_equal(self.read(lines), due)

    def test_other_targets(self):
        lines = ["2021-01-02T04:04:05.123456789+01:00", "yesterday", "1969-12-31T23:59:59.999999999Z", "1677-09-21T00:12:43.145224193Z"]
        for target in ("+00:00", "-00:00", "+01:00", "-05:30", "+23:59"):
            with instants.Timeline(target=target, sources=["rfc3339"]) as timeline:
                numpy.testing.assert_array_equal(timeline.to_datetime64(lines), self.read(lines))
                with self.assertRaisesRegex(instants.Fault, "line 2, 'yesterday': component year"):
                    timeline.to_datetime64(lines, raising=True)

    def test_the_ends(self):
        ends = ["1677-09-21T00:12:43.145224193", "2262-04-11T23:47:16.854775807"]
        self.assertEqual([str(it) for it in self.read([it + "Z" for it in ends])], ends)
        outside = ["1677-09-21T00:12:43.145224191Z", "2262-04-11T23:47:16.854775808Z", "0000-01-01T00:00:00Z", "9999-12-31T00:00:00Z"]
        self.assertTrue(numpy.isnat(self.read(outside)).all())

    def test_each_end_alone(self):
        """No other line has the ends looked at."""
        within = ["1677-09-21T00:12:43.145224193", "1677-09-21T00:12:44.000000000", "2262-04-11T23:47:15.999999999", "2262-04-11T23:47:16.854775807"]
        for moment in within:
            self.assertEqual([str(it) for it in self.read([moment + "Z"])], [moment])
        for moment in ("1677-09-21T00:12:42.999999999Z", "1677-09-21T00:12:43Z", "1677-09-21T00:12:43.145224191Z"):
            self.assertTrue(numpy.isnat(self.read([moment])).all(), moment)
        for moment in ("2262-04-11T23:47:16.854775808Z", "2262-04-11T23:47:16.999999999Z", "2262-04-11T23:47:17Z", "2262-04-11T23:47:18Z"):
            self.assertTrue(numpy.isnat(self.read([moment])).all(), moment)

    def test_lines_that_are_missing(self):
        nan = float("nan")
        for missing in (None, nan, numpy.float64("nan"), *([pandas.NA, pandas.NaT] if pandas else [])):
            for lines in ([LINE, missing, LINE], [missing, LINE.encode(), missing], [missing], iter([LINE + "\n", missing, "x"])):
                lines = list(lines)
                due = [it is missing or it == "x" for it in lines]
                self.assertEqual([bool(it) for it in numpy.isnat(self.read(iter(lines)))], due)
            self.assertEqual([str(it) for it in self.read([missing, LINE], raising=True)], ["NaT", ANSWER[:-1]])
            with self.assertRaisesRegex(instants.Fault, "line 3, '': component year"):
                self.read([missing, LINE, "", missing, "x"], raising=True)
        for lines in ([5], [LINE, 5.0], [None, [LINE]], [None, float("inf")], None, 5, nan):
            with self.assertRaises(TypeError):
                self.read(lines)
        given = [LINE, None]
        self.read(given)
        self.assertEqual(given, [LINE, None])

    def test_a_limit(self):
        found = self.read([LINE, LINE + "0" * 80, "\n"], limit=50)
        self.assertEqual([bool(it) for it in numpy.isnat(found)], [False, True, True])
        with self.assertRaisesRegex(instants.Fault, "line 2, .*: long"):
            self.read([LINE, LINE + "0" * 80], limit=50, raising=True)

    def test_ends_among_others(self):
        lines = ["2262-04-11T23:47:16.854775807Z", "2262-04-11T23:47:16.854775808Z", "x", "1677-09-21T00:12:43.145224193Z", "1677-09-21T00:12:43.145224192Z"]
        self.assertEqual([bool(it) for it in numpy.isnat(self.read(lines))], [False, True, True, False, True])

    def test_raising(self):
        with self.assertRaisesRegex(instants.Fault, "line 2, 'x': component year"):
            self.read([LINE, "x"], raising=True)
        with self.assertRaisesRegex(instants.Fault, "line 1, '': component year"):
            self.read(["", LINE], raising=True)
        with self.assertRaisesRegex(instants.Fault, "datetime64.ns. does not reach to 9999"):
            self.read(["9999-12-31T00:00:00Z"], raising=True)

    @unittest.skipUnless(pandas, "pandas is missing: Debian has it as python3-pandas")
    def test_pandas(self):
        for kind in ("object", "string", "category"):
            frame = pandas.DataFrame({"line": pandas.Series([LINE, "yesterday", None, float("nan"), LINE], dtype=kind)})
            frame["moment"] = self.read(frame["line"])
            self.assertEqual(list(frame["moment"].isna()), [False, True, True, True, False])
            self.assertEqual(frame["moment"][4].tz_localize("UTC"), pandas.Timestamp(LINE))


class Parts(unittest.TestCase):
    """How a file is cut for many machines."""

    def cut(self, text, size, begins=None):
        with tempfile.TemporaryDirectory() as folder:
            file = pathlib.Path(folder, "lines")
            file.write_bytes(text)
            return [text[it.start : it.stop] for it in dask.parts_of(str(file), size, begins)]

    def test_whole_lines(self):
        for text in (b"", b"\n", b"a", b"ab\nc\n\ndefg\nh", b"ab\nc\n\ndefg\n"):
            for size in range(1, 12):
                parts = self.cut(text, size)
                self.assertEqual(b"".join(parts), text)
                self.assertTrue(all(it.endswith(b"\n") for it in parts[:-1]))
                self.assertTrue(all(it and b"\n" not in it[size - 1 : -1] for it in parts))

    def test_lines_that_may_begin_a_part(self):
        text = b"1 a\n x\n y\n2 b\n3 c\n z\n"
        for size in range(1, 30):
            parts = self.cut(text, size, rb"\d")
            self.assertEqual(b"".join(parts), text)
            self.assertTrue(all(it[:1].isdigit() for it in parts))
        self.assertEqual(self.cut(text, 1, rb"\d"), [b"1 a\n x\n y\n", b"2 b\n", b"3 c\n z\n"])

    def test_one_part(self):
        with tempfile.TemporaryDirectory() as folder:
            file = pathlib.Path(folder, "lines")
            file.write_text("a\nb\nc\n")
            made = dask.answer_part(str(file), dask.Part(2, 4), ["cat"], folder)
            self.assertEqual(pathlib.Path(made).read_text(), "b\n")
            with self.assertRaises(subprocess.CalledProcessError):
                dask.answer_part(str(file), dask.Part(0, 2), ["false"], folder)
            self.assertEqual(len([it for it in os.listdir(folder) if it.isdigit()]), 1)

    def test_a_part_is_whole_when_it_is_there(self):
        with tempfile.TemporaryDirectory() as folder:
            file, parts = pathlib.Path(folder, "lines"), pathlib.Path(folder, "parts")
            file.write_text("a\n")
            parts.mkdir()
            # (the program says what is there while it runs, and once more when it has written all of it)
            made = dask.answer_part(str(file), dask.Part(0, 2), ["sh", "-c", f"ls {parts}; echo; ls {parts}"], str(parts))
            begun, ended = pathlib.Path(made).read_text().split("\n\n")
            self.assertEqual(begun.strip(), ended.strip())
            self.assertRegex(begun, rf"\A{'0' * 20}\..*\.{os.getpid()}\Z")
            self.assertEqual(os.listdir(parts), ["0" * 20])

    def answered(self, folder, **others):
        """Answers a file of three parts, whose program is `cat`, by a client that is no cluster."""
        client = mock.Mock(map=lambda call, parts, pure: [call(it) for it in parts], gather=lambda made: made)
        file = pathlib.Path(folder, "lines")
        file.write_text("a\nb\nc\n")
        dask.answer_file(client, str(file), ["cat"], str(pathlib.Path(folder, "output")), 2, **others)

    def test_an_output_is_whole_when_it_is_there(self):
        copied, seen, made = shutil.copyfileobj, [], set()

        def copy(part, whole, size):
            seen.append(sorted(os.listdir(folder)))
            made.add(os.fstat(whole.fileno()).st_ino)
            copied(part, whole, size)

        with tempfile.TemporaryDirectory() as folder, mock.patch.object(dask.shutil, "copyfileobj", copy):
            self.answered(folder)
            self.assertEqual(seen, [["lines", "output.parts"]] * 3)
            self.assertEqual(pathlib.Path(folder, "output").read_text(), "a\nb\nc\n")
            self.assertEqual(made, {os.stat(f"{folder}/output").st_ino})
            self.assertEqual(sorted(os.listdir(folder)), ["lines", "output"])

    def test_an_output_that_cannot_be_written(self):
        with tempfile.TemporaryDirectory() as folder:
            with mock.patch.object(dask.shutil, "copyfileobj", side_effect=OSError("full")), self.assertRaises(OSError):
                self.answered(folder)
            self.assertEqual(os.listdir(folder), ["lines"])


@unittest.skipUnless(PROJECT.exists(), "the package is tried where it is installed")
class Packed(unittest.TestCase):
    """The wheel and the archive of the sources."""

    def setUp(self):
        import wheel_of_package

        self.maker, self.folder = wheel_of_package, tempfile.TemporaryDirectory()
        self.addCleanup(self.folder.cleanup)
        self.room = pathlib.Path(self.folder.name)

    def wheel(self, named):
        """Makes a wheel, with a library that the variable names, or without the variable; returns its name and its files."""
        with mock.patch.dict(os.environ):
            os.environ.pop("INSTANTS_LIBRARY", None)
            os.environ.update({} if named is None else {"INSTANTS_LIBRARY": str(named)})
            made = self.maker.build_wheel(str(self.room))
        with zipfile.ZipFile(self.room / made) as wheel:
            return made, {it: wheel.read(it) for it in wheel.namelist()}

    def library(self, text):
        file = self.room / "library"
        file.write_bytes(text)
        return file

    def test_a_library_in_it(self):
        made, files = self.wheel(self.library(b"\0GLIBC_2.14\0GLIBC_2.2.5\0"))
        self.assertEqual(made, f"instants-{instants.__version__}-py3-none-manylinux2014_x86_64.whl")
        self.assertIn(b"\0GLIBC_2.14\0", files["instants/libinstants.so.0"])
        about = f"instants-{instants.__version__}.dist-info"
        self.assertIn(b"Tag: py3-none-manylinux2014_x86_64\n", files[f"{about}/WHEEL"])
        self.assertIn(b"Apache License", files[f"{about}/LICENSE"])
        self.assertIn(b"Copyright", files[f"{about}/NOTICE"])
        self.assertIn("instants/__main__.py", files)
        recorded = dict(it.split(",", 1) for it in files.pop(f"{about}/RECORD").decode().splitlines())
        self.assertEqual(recorded.pop(f"{about}/RECORD"), ",")
        for name, text in files.items():
            digest = base64.urlsafe_b64encode(hashlib.sha256(text).digest()).decode().rstrip("=")
            self.assertEqual(recorded.pop(name), f"sha256={digest},{len(text)}")
        self.assertEqual(recorded, {})

    def test_its_platform(self):
        for versions, platform in (
            (["2.2.5", "2.14", "2.17"], "manylinux2014_x86_64"),
            (["2.2.5", "2.18"], "linux_x86_64"),
            (["2.14", "PRIVATE"], "linux_x86_64"),
            (["2.14", "ABI_DT_RELR"], "linux_x86_64"),
            (["3.0"], "linux_x86_64"),
            ([], "linux_x86_64"),
        ):
            text = b"\x7fELF" + b"".join(b"\0GLIBC_%s" % it.encode() for it in versions) + b"\0"
            self.assertEqual(self.maker.platform_of(text), platform, versions)

    def test_no_library_in_it(self):
        about, name = f"instants-{instants.__version__}.dist-info", f"instants-{instants.__version__}-py3-none-any.whl"
        made, files = self.wheel("")
        self.assertEqual((made, "instants/libinstants.so.0" in files, f"{about}/LICENSE" in files), (name, False, False))
        with mock.patch.object(self.maker, "BUILT", self.room / "none"), mock.patch.object(self.maker, "is_on_system", lambda: True):
            made, files = self.wheel(None)
        self.assertEqual((made, "instants/libinstants.so.0" in files, f"{about}/LICENSE" in files), (name, False, True))

    def test_no_library_at_all(self):
        with mock.patch.object(self.maker, "BUILT", self.room / "none"), mock.patch.object(self.maker, "LIBRARY", "libnone.so.0"):
            with self.assertRaises(SystemExit) as ended:
                self.wheel(None)
        self.assertRegex(str(ended.exception.code), r"\Ainstants: the package needs its library: .*INSTANTS_LIBRARY\Z")
        with self.assertRaises(SystemExit) as ended:
            self.wheel(self.room / "none")
        self.assertRegex(str(ended.exception.code), r"\Ainstants: INSTANTS_LIBRARY names .*/none, which is no file in ")

    def test_what_it_says_of_itself(self):
        said = email.message_from_string(self.maker.metadata())
        self.assertEqual((said["Name"], said["Version"]), ("instants", instants.__version__))
        ((name, address),) = email.utils.getaddresses(said.get_all("Author-email"))
        self.assertIn(f'authors = [{{ name = "{name}", email = "{address}" }}]', PROJECT.read_text().split("\n"))
        self.assertRegex(address, r"\A[^@\s]+@[^@\s]+\Z")
        self.assertIn("License :: OSI Approved :: Apache Software License", said.get_all("Classifier"))
        self.assertIn("# instants", said.get_payload())

    def test_the_same_bytes(self):
        made = self.maker.build_sdist(str(self.room))
        first = (self.room / made).read_bytes()
        copy = self.room / "copy"
        shutil.copytree(PROJECT.parent, copy)
        for name, text in self.maker.licence().items():
            (copy / name).write_bytes(text)
        for file in copy.rglob("*"):
            if file.is_file():
                os.utime(file, (1, 1))
                file.chmod(0o600)
        with mock.patch.object(self.maker, "HERE", copy), mock.patch("time.time", lambda: 5):
            self.assertEqual((self.room / self.maker.build_sdist(str(self.room))).read_bytes(), first)
        with tarfile.open(self.room / made) as archive:
            names = [it.name for it in archive.getmembers()]
            self.assertEqual({(it.uid, it.uname, it.mode, it.mtime) for it in archive.getmembers()}, {(0, "", 0o644, 315_532_800)})
        top = f"instants-{instants.__version__}"
        wanted = {f"{top}/{it}" for it in ("PKG-INFO", "LICENSE", "NOTICE", "pyproject.toml", "wheel_of_package.py", "instants/__main__.py")}
        self.assertLessEqual(wanted, set(names))
        self.assertEqual(len(names), len(set(names)))


class Library(unittest.TestCase):
    def test_version(self):
        self.assertEqual(instants.version(), _library.VERSION)
        self.assertEqual([_library.told(it) for it in (100, 12_345, 999)], ["0.1.0", "1.23.45", "0.9.99"])
        self.assertEqual(instants.__version__, _library.told(_library.VERSION))

    @unittest.skipUnless(PROJECT.exists(), "the package is tried where it is installed")
    def test_version_of_the_project(self):
        self.assertIn(f'version = "{instants.__version__}"', PROJECT.read_text().split("\n"))

    def test_another_version(self):
        _library.check_version(_library.VERSION + 1)
        for found in (_library.VERSION + 100, _library.VERSION + 10_000, 0):
            with self.assertRaisesRegex(ImportError, "INSTANTS_LIBRARY"):
                _library.check_version(found)


def load_tests(loader, tests, ignore):
    tests.addTests(doctest.DocTestSuite(instants))
    tests.addTests(doctest.DocTestSuite(_timeline, globs={"instants": instants}))
    return tests


if __name__ == "__main__":
    unittest.main()
