"""Tests of the tools as programs, where a file or a stream fails: a line names the place, and no traceback is shown."""

import contextlib
import io
import os
import pathlib
import random
import shlex
import shutil
import signal
import subprocess
import sys
import tempfile
import time
import unittest
from unittest import mock

import console
import sheet as sheets
import simulate

HERE = pathlib.Path(__file__).resolve().parent
WORKED = HERE.parent / "examples" / "worked.sheet"
PRINTER = HERE.parent / "target" / "bin" / "plan_printer"
RUN = ("--shares", "2", "2", "--lengths", "2", "4", "4", "4", "1")
LONG = ("--shares", "1", "1", "--lengths", "10000", "10000", "10000", "10000", "10000")


def commands(path):
    """Each command of the tools that reads a text, on this path."""
    for name in ("write", "plan", "check"):
        yield [sys.executable, str(HERE / "sheet.py"), name, str(path)]
    yield [sys.executable, str(HERE / "simulate.py"), str(path), *RUN]


def built(command):
    return "plan" not in command or PRINTER.exists()


class Tools(unittest.TestCase):
    def setUp(self):
        folder = tempfile.TemporaryDirectory()
        self.addCleanup(folder.cleanup)
        self.folder = pathlib.Path(folder.name)

    def run_tool(self, command, **how):
        """Exit status, output and messages; in none of them a traceback."""
        how = {"stdout": subprocess.PIPE, "stderr": subprocess.PIPE, "stdin": subprocess.DEVNULL} | how
        if how.get("input") is not None:
            del how["stdin"]
        done = subprocess.run(command, check=False, timeout=60, **how)
        errors = (done.stderr or b"").decode()
        self.assertNotIn("Traceback", errors)
        self.assertNotIn("Exception", errors)
        return done.returncode, done.stdout, errors

    def fails(self, command, line, status=1, **how):
        """The tool ends with this status and one line, which begins so."""
        with self.subTest(" ".join(map(str, command[1:4])) if isinstance(command, list) else command):
            code, _, errors = self.run_tool(command, **how)
            self.assertEqual(code, status, errors)
            self.assertEqual(len(errors.splitlines()), 1 if line else 0, errors)
            self.assertTrue(errors.startswith(line), errors)


class Inputs(Tools):
    """What the input is, is named by its file, and by its line where there is one."""

    def texts(self, data, line):
        for command in list(commands("-"))[-2:]:
            self.fails(command, f"-:{line}", input=data)

    def edited(self, old, new, line):
        text = WORKED.read_bytes()
        self.assertEqual(text.count(old), 1)
        self.texts(text.replace(old, new), line)

    def test_a_colon_after_a_keyword(self):
        self.edited(b"deadline 36", b"deadline: 36", "5: error: expected 'deadline N' with no colon, got 'deadline: ")
        self.edited(b"processors 4", b"processors:4", "2: error: expected 'processors N' with no colon")
        self.edited(b"nominal work", b"nominal: work", "6: error: expected 'nominal work N span N' with no colon")
        self.edited(b"nodes 5", b"nodes :5", "8: error: nodes: expected a number, got ':5'")
        self.edited(b"node 1 after", b"node: 1 after", "9: error: expected 'node N after N ...' with no colon")

    def test_each_command_names_the_file(self):
        path = self.folder / "a.sheet"
        path.write_bytes(WORKED.read_bytes().replace(b"deadline 36", b"deadline: 36"))
        for command in commands(path):
            self.fails(command, f"{path}:5: error: expected 'deadline N' with no colon, got 'deadline: 36'")

    def test_no_text(self):
        self.texts(b"", "1: error: expected a line 'processors N'")
        self.edited(b"processors 4", b"processors 4 \xff", "2: error: expected text in UTF-8")
        self.texts(WORKED.read_text().encode("utf-16"), "1: error: expected text in UTF-8")

    def test_numbers_out_of_all_range(self):
        self.edited(b"deadline 36", b"deadline " + b"9" * 6000, "5: error: deadline: expected a number from 0 to 42949")
        self.edited(b"deadline 36", b"deadline -36", "5: error: deadline: expected a number, got '-36'")
        self.edited(b"task guard: high", b"task guard: " + b"9" * 6000, "4: error: level: expected a number from 0")
        self.edited(b"node 1 after 0 ", b"node 1 after -1", "9: error: predecessor: expected a number, got '-1'")

    def test_a_refused_sheet_is_not_simulated(self):
        text = WORKED.read_bytes().replace(b"deadline 36", b"deadline 50")
        command = [sys.executable, HERE / "simulate.py", "-", *RUN]
        self.fails(command, "-:7: error: refusal 6: ", input=text)

    def test_no_file(self):
        for path in (self.folder, "/"):
            for command in commands(path):
                self.fails(command, f"{path}: error: Is a directory")
        for command in commands(self.folder / "none"):
            self.fails(command, f"{self.folder / 'none'}: error: No such file or directory")
        for command in commands(""):
            self.fails(command, "'': error: No such file or directory")
        for command in commands("a" * 300):
            self.fails(command, "a" * 200 + "...: error: File name too long")

    def test_no_permission(self):
        """Root may read any file, unless it gives that right away."""
        path = self.folder / "a.sheet"
        path.write_bytes(WORKED.read_bytes())
        path.chmod(0)
        bare = []
        if os.geteuid() == 0:
            if not shutil.which("setpriv"):
                self.skipTest("root, and there is no setpriv")
            bare = ["setpriv", "--bounding-set", "-dac_override,-dac_read_search"]
        for command in commands(path):
            self.fails([*bare, *command], f"{path}: error: Permission denied")

    def test_an_input_without_end(self):
        for command in commands("/dev/zero"):
            self.fails(command, "/dev/zero: error: expected at most ")

    def test_a_name_that_can_not_be_shown(self):
        path = os.fsencode(self.folder) + b"/a\xff\n\xc3\xa9.sheet"
        with open(path, "wb") as target:
            target.write(WORKED.read_bytes())
        for locale in ("C", "C.UTF-8"):
            plain = os.environ | {"LC_ALL": locale, "PYTHONUTF8": "0", "PYTHONCOERCECLOCALE": "0"}
            for command in filter(built, commands("-")):
                command[command.index("-")] = path
                self.assertEqual(self.run_tool(command, env=plain)[0], 0)

    def test_a_task_name_that_can_not_be_shown(self):
        text = WORKED.read_bytes().replace(b"guard", "Bremse für\u200b \u4e00".encode())
        plain = os.environ | {"LC_ALL": "C", "PYTHONUTF8": "0", "PYTHONCOERCECLOCALE": "0", "PYTHONIOENCODING": "ascii"}
        for command in filter(built, commands("-")):
            self.assertEqual(self.run_tool(command, input=text, env=plain)[0], 0)


class Streams(Tools):
    def shell(self, command, rest):
        return ["sh", "-c", f"exec {shlex.join(command)} {rest}"]

    def test_closed_input(self):
        for command in commands("-"):
            self.fails(self.shell(command, "<&-"), "-: error: standard input is closed")

    def test_closed_output(self):
        for command in filter(built, commands(WORKED)):
            self.fails(self.shell(command, ">&-"), "standard output: error: it is closed")

    def test_closed_errors(self):
        for command in commands(self.folder):
            for where in ("2>&-", "2>/dev/full", "<&- >&- 2>&-"):
                self.fails(self.shell(command, where), "")

    def test_full_output(self):
        for command in filter(built, commands(WORKED)):
            self.fails(self.shell(command, ">/dev/full"), "standard output: error: No space left on device")

    def test_a_failed_write_names_the_output(self):
        sheet = self.folder / "a.bin"
        tool = [sys.executable, HERE / "sheet.py"]
        self.assertEqual(self.run_tool([*tool, "write", WORKED, "-o", sheet])[0], 0)
        for start in (["write", WORKED], ["print", sheet]):
            self.fails([*tool, *start, "-o", "/dev/full"], "/dev/full: error: No space left on device")
            self.fails([*tool, *start, "-o", self.folder], f"{self.folder}: error: Is a directory")
            self.fails([*tool, *start, "-o", sheet / "x"], f"{sheet / 'x'}: error: Not a directory")

    def test_a_reader_that_leaves(self):
        """Quiet, as other programs are, with a status that is not 0."""
        for unbuffered in ("", "1"):
            how = {"env": os.environ | {"PYTHONUNBUFFERED": unbuffered}}
            for command in filter(built, commands(WORKED)):
                reader, writer = os.pipe()
                os.close(reader)
                self.fails(command, "", stdout=writer, **how)
                os.close(writer)
            command = [sys.executable, HERE / "simulate.py", WORKED, *LONG]
            child = subprocess.Popen(command, stdout=subprocess.PIPE, stderr=subprocess.PIPE, **how)
            with child:
                lines = [child.stdout.readline() for _ in range(2)]
                child.stdout.close()
                self.assertEqual((lines[1][:4], child.stderr.read(), child.wait(60)), (b"tick", b"", 1))

    def test_a_long_run_is_written_whole(self):
        for unbuffered in ("", "1"):
            tool = [sys.executable, str(HERE / "simulate.py"), str(WORKED), *LONG]
            command = self.shell(tool, "| (sleep 0.1; wc -l)")
            code, output, errors = self.run_tool(command, env=os.environ | {"PYTHONUNBUFFERED": unbuffered})
            self.assertEqual((code, output.strip(), errors), (0, b"50003", ""))

    def test_ctrl_c(self):
        """The input is a pipe to which nothing is written: once it has a reader, the tool is at work."""
        path = self.folder / "pipe"
        os.mkfifo(path)
        for command in commands(path):
            with self.subTest(command[2]):
                child = subprocess.Popen(
                    command,
                    stdout=subprocess.PIPE,
                    stderr=subprocess.PIPE,
                    preexec_fn=lambda: signal.signal(signal.SIGINT, signal.SIG_DFL),
                )
                with child:
                    writer = self.writer_of(path, child)
                    child.send_signal(signal.SIGINT)
                    self.assertEqual((child.stderr.read(), child.wait(60)), (b"", -signal.SIGINT))
                    os.close(writer)

    def writer_of(self, path, child):
        for _ in range(3000):
            with contextlib.suppress(OSError):
                return os.open(path, os.O_WRONLY | os.O_NONBLOCK)
            self.assertIsNone(child.poll(), "the tool ended before it read")
            time.sleep(0.01)
        child.kill()
        self.fail("the tool does not read")


PIECES = (
    *(b":", b"#", b"\t", b"\r", b"\n", b"\0", b"\xff", b"\xef\xbb\xbf", b"\xc2\xa0", b"\xe2\x80\xa8", b"\xc2\xb2"),
    *(b"0", b"-1", b"+1", b"1e3", b"31", b"32", b"255", b"256", b"65535", b"65536", b"9" * 5000),
    *(b"16", b"17", b"10000", b"10001", b"1000000", b"1000001", b"4294967295", b"4294967296"),
    *(b"task", b"task: high", b"high", b"low", b"processors", b"deadline", b"nominal", b"overload", b"work", b"span"),
    *(b"nodes", b"node", b"after", b"wide", b"task: low wide"),
)


def edited_lines(rng, data):
    """A text with some lines lost, repeated, exchanged or cut, and pieces put into others."""
    lines = data.split(b"\n")
    for _ in range(rng.randrange(1, 4)):
        i, j = rng.randrange(len(lines)), rng.randrange(len(lines))
        at, piece = rng.randrange(len(lines[i]) + 1), rng.choice(PIECES)
        words = lines[i].split() or [b""]
        words[rng.randrange(len(words))] = piece
        lines[i : i + 1] = rng.choice(
            (
                [lines[i][:at]],
                [lines[i], lines[j]],
                [lines[j]],
                [b""],
                [b" ".join(words)],
                [lines[i][:at] + piece + lines[i][at:]],
            )
        )
    return b"\n".join(lines)


class Random(unittest.TestCase):
    """Random edits of the examples: every command ends with a status, or with a failure whose line can be shown."""

    def end_of(self, tool, arguments, data):
        said = []
        files = {"read": lambda _: data, "to_output": lambda _: None, "say": said.append}
        with mock.patch.multiple(console, **files), contextlib.redirect_stderr(io.StringIO()):
            try:
                status = tool.main(arguments)
            except SystemExit as end:
                status = end.code
            except console.Failure as failure:
                said.append(failure)
                status = 1
        for line in "\n".join(map(str, said)).splitlines():
            self.assertTrue(line.isprintable() and len(line) < 400, line)
        return status

    def test_edited_examples(self):
        rng, texts = random.Random(5), [path.read_bytes() for path in sorted(WORKED.parent.glob("*.sheet"))]
        ends = set()
        with mock.patch.object(sheets, "printed", lambda _: "refused 8 255\n"):
            for _ in range(250):
                data = edited_lines(rng, rng.choice(texts))
                for name in ("check", "write", "print", "plan"):
                    ends.add((name, self.end_of(sheets, [name, "-"], data)))
                lengths = [str(rng.randrange(1, 9)) for _ in range(rng.choice((1, 3, 5, 6, 7)))]
                shares = [str(rng.randrange(1, 9)) for _ in range(rng.choice((1, 2, 2)))]
                ends.add(("run", self.end_of(simulate, ["-", "--shares", *shares, "--lengths", *lengths], data)))
        self.assertLessEqual({("check", 0), ("check", 1), ("write", 0), ("write", 1), ("print", 1), ("plan", 1)}, ends)
        self.assertLessEqual({("run", 0), ("run", 1), ("run", 2)}, ends)


if __name__ == "__main__":
    unittest.main()
