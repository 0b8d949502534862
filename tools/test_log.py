"""Tests of log.py: the bytes of S12.1 by hand, both ways round, each error with its line, and logs that end early."""

import contextlib
import io
import pathlib
import random
import subprocess
import sys
import tempfile
import unittest

import console
import log as logs
import texts

HERE = pathlib.Path(__file__).resolve().parent
EXAMPLES = sorted((HERE.parent / "examples").glob("*.log"))

TEXT = """\
# Every kind of call.
release 2            # task 2
  tick - 0,2 -

tick
release 4294967295
tick 31,0
"""

# A release of task 2; a tick with the reports 0, 5 and 0; one with none; a release of the greatest task; bits 31 and 0.
BYTES = (
    bytes([0, 2, 0, 0, 0])
    + bytes([1, 3, 0, 0, 0, 0, 5, 0, 0, 0, 0, 0, 0, 0])
    + bytes([1, 0])
    + bytes([0, 255, 255, 255, 255])
    + bytes([1, 1, 1, 0, 0, 128])
)

PRINTED = "release 2\ntick - 0,2 -\ntick\nrelease 4294967295\ntick 0,31\n"


def random_word(rng):
    return rng.choice((0, 1, 1 << 31, 0xFFFF_FFFF, rng.randrange(16), rng.randrange(1 << 32))).to_bytes(4, "little")


def random_call(rng):
    if rng.random() < 0.4:
        return bytes([0]) + random_word(rng)
    count = rng.choice((0, 1, 4, 16, 255))
    return bytes([1, count]) + b"".join(random_word(rng) for _ in range(count))


class Bytes(unittest.TestCase):
    def test_the_bytes_of_each_kind_of_call(self):
        self.assertEqual(logs.encode(TEXT.encode()), BYTES)

    def test_the_text_of_each_kind_of_call(self):
        self.assertEqual(logs.decode(BYTES), (PRINTED, None))

    def test_random_logs_round_trip(self):
        rng = random.Random(12)
        for _ in range(200):
            data = b"".join(random_call(rng) for _ in range(rng.randrange(12)))
            text, error = logs.decode(data)
            self.assertIsNone(error)
            self.assertEqual(logs.encode(text.encode()), data)

    def test_the_examples_round_trip(self):
        self.assertGreaterEqual(len(EXAMPLES), 3)
        for path in EXAMPLES:
            with self.subTest(path.name):
                calls = [text for _, text in texts.lines_of(path.read_bytes())]
                text, error = logs.decode(logs.encode(path.read_bytes()))
                self.assertEqual((text.splitlines(), error), (calls, None))

    def test_as_many_reports_as_a_count_holds(self):
        self.assertEqual(logs.encode(b"tick" + b" -" * 255), bytes([1, 255]) + bytes(4 * 255))


class Errors(unittest.TestCase):
    def refuses(self, text, line, message):
        with self.subTest(text), self.assertRaises(texts.PlaceError) as caught:
            logs.encode(text if isinstance(text, bytes) else text.encode())
        self.assertEqual((caught.exception.place, str(caught.exception)), (line, message))

    def test_no_call(self):
        expected = "expected 'release TASK' or 'tick REPORT ...'"
        self.refuses("tick\n\nwait 3", 3, f"{expected}, got 'wait 3'")
        self.refuses("release: 3", 1, f"{expected}, got 'release: 3'")
        self.refuses("3", 1, f"{expected}, got '3'")

    def test_a_release_of_no_task_or_of_two(self):
        self.refuses("release # 3", 1, "expected 'release TASK', got 'release'")
        self.refuses("release 1 2", 1, "expected 'release TASK', got 'release 1 2'")

    def test_a_task_out_of_range(self):
        self.refuses("release -1", 1, "task: expected a number, got '-1'")
        self.refuses("release 4294967296", 1, "task: expected a number from 0 to 4294967295, got '4294967296'")

    def test_a_node_out_of_range(self):
        self.refuses("tick\ntick 0,32", 2, "node: expected a number from 0 to 31, got '32'")
        self.refuses("tick - x", 1, "node: expected a number, got 'x'")
        self.refuses("tick 1,,2", 1, "node: expected a number, got ''")
        self.refuses("tick 1,-", 1, "node: expected a number, got '-'")

    def test_a_node_twice(self):
        self.refuses("tick 1,2,1", 1, "node 1 is named twice")

    def test_too_many_reports(self):
        self.refuses("tick" + " -" * 256, 1, "expected at most 255 reports, got 256")

    def test_no_text(self):
        self.refuses(bytes([1, 0]), 1, "expected text, got a byte 0")
        self.refuses(b"tick\n\xff", 2, "expected text in UTF-8")


class Ends(unittest.TestCase):
    """A log that ends early: what is printed of it, the offset, and what is said."""

    def ends(self, data, text, offset, message):
        printed, error = logs.decode(data)
        self.assertEqual((printed, error.place, str(error)), (text, offset, message))

    def test_a_release_that_is_cut(self):
        message = "the last call, a release, is cut short: expected 5 bytes, got 4"
        self.ends(bytes([1, 0, 0, 7, 0, 0]), "tick\n", 2, message)

    def test_a_tick_that_is_cut(self):
        message = "the last call, a tick, is cut short: expected 10 bytes, got 9"
        self.ends(bytes([1, 2, 0, 0, 0, 0, 0, 0, 0]), "", 0, message)
        self.ends(bytes([1, 0, 1]), "tick\n", 2, "the last call, a tick, is cut short: expected at least 2 bytes, got 1")

    def test_a_byte_that_begins_no_call(self):
        message = "expected a byte 0, a release, or 1, a tick, got 2; from there on nothing is printed, 3 of 5 bytes"
        self.ends(bytes([1, 0, 2, 1, 0]), "tick\n", 2, message)

    def test_each_cut_of_a_log_is_named(self):
        ends = [5, 19, 21, 26, 32]
        for length in range(len(BYTES)):
            text, error = logs.decode(BYTES[:length])
            whole = [end for end in ends if end <= length]
            self.assertEqual(text, "".join(PRINTED.splitlines(True)[: len(whole)]))
            self.assertEqual(error and error.place, None if length in (0, *ends) else (whole or [0])[-1])


class Commands(unittest.TestCase):
    def setUp(self):
        folder = tempfile.TemporaryDirectory()
        self.addCleanup(folder.cleanup)
        self.folder = pathlib.Path(folder.name)

    def ran(self, *words, data=b""):
        done = subprocess.run([sys.executable, HERE / "log.py", *words], input=data, capture_output=True, check=False)
        return done.returncode, done.stdout, done.stderr.decode()

    def test_through_pipes(self):
        self.assertEqual(self.ran("write", "-", data=TEXT.encode()), (0, BYTES, ""))
        self.assertEqual(self.ran("print", "-", data=BYTES), (0, PRINTED.encode(), ""))

    def test_through_files(self):
        text, data, again = self.folder / "a.log", self.folder / "a.calls", self.folder / "b.log"
        text.write_text(TEXT, encoding="utf-8")
        self.assertEqual(self.ran("write", text, "-o", data), (0, b"", ""))
        self.assertEqual(self.ran("print", data, "-o", again), (0, b"", ""))
        self.assertEqual((data.read_bytes(), again.read_text(encoding="utf-8")), (BYTES, PRINTED))

    def test_an_empty_log(self):
        self.assertEqual(self.ran("write", "-", data=b"# none\n"), (0, b"", ""))
        self.assertEqual(self.ran("print", "-"), (0, b"", ""))

    def test_an_error_names_the_file_and_the_line_and_nothing_is_written(self):
        text, data = self.folder / "a.log", self.folder / "a.calls"
        text.write_text("tick\nrelease\n", encoding="utf-8")
        message = f"{text}:2: error: expected 'release TASK', got 'release'\n"
        self.assertEqual(self.ran("write", text, "-o", data), (1, b"", message))
        self.assertFalse(data.exists())

    def test_a_cut_log_is_printed_up_to_there(self):
        message = "-: offset 26: error: the last call, a tick, is cut short: expected 6 bytes, got 5\n"
        printed = PRINTED.replace("tick 0,31\n", "").encode()
        self.assertEqual(self.ran("print", "-", data=BYTES[:-1]), (1, printed, message))

    def test_files_that_fail(self):
        none = self.folder / "none"
        for name in logs.COMMANDS:
            self.assertEqual(self.ran(name, none), (1, b"", f"{none}: error: No such file or directory\n"))
            full = self.ran(name, "-", "-o", "/dev/full", data=b"tick\n" if name == "write" else bytes([1, 0]))
            self.assertEqual(full, (1, b"", "/dev/full: error: No space left on device\n"))

    def test_no_bytes_for_a_terminal(self):
        options = type("Options", (), {"file": "a.log", "output": None})
        with contextlib.redirect_stdout(io.StringIO()) as screen:
            screen.isatty = lambda: True
            with self.assertRaises(console.Failure) as caught:
                console.write_bytes(options, "a log", b"")
        self.assertEqual(str(caught.exception), "a.log: a log is bytes, not text: give -o FILE, or a pipe")


if __name__ == "__main__":
    unittest.main()
