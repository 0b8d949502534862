"""Tests of examples/side_by_side.c: the brake alone and in a full loom, each cause for which two runs part, runs that agree with
other calls in between, and what it says of any other input."""

import pathlib
import subprocess
import tempfile
import unittest

import log as logs
import sheet as sheets
from test_controller import ARCHIVE, ROOT, compiled

ARCHIVES = (ARCHIVE, ARCHIVE.with_name("libreplays.a"))

ALIKE = """\
first run:  alone.bin, task 0, shares 2 and 3
second run: full.bin, task 2, shares 2 and 3
  tick  ran          ended           state  |  ran          ended           state
     1  -            -             typical  |  -            -             typical
     2  0            0             typical  |  0            0             typical
     3  1,2          0             typical  |  1,2          0             typical
     4  1,2          0             typical  |  1,2          0             typical
     5  1,2          0            critical  |  1,2          0            critical
     6  1,2,3        0,1,2        critical  |  1,2,3        0,1,2        critical
     7  3,4          0,1,2        critical  |  3,4          0,1,2        critical
     8  3,4          0,1,2,3      critical  |  3,4          0,1,2,3      critical
     9  4            0,1,2,3,4    critical  |  4            0,1,2,3,4    critical
    10  5            0,1,2,3,4,5   typical  |  5            0,1,2,3,4,5   typical
    11  -            0,1,2,3,4,5   typical  |  -            0,1,2,3,4,5   typical
    12  -            0,1,2,3,4,5   typical  |  -            0,1,2,3,4,5   typical
    13  -            0,1,2,3,4,5   typical  |  -            0,1,2,3,4,5   typical
    14  -            0,1,2,3,4,5   typical  |  -            0,1,2,3,4,5   typical
    15  -            0,1,2,3,4,5   typical  |  -            0,1,2,3,4,5   typical
    16  0            0             typical  |  0            0             typical
    17  1,2          0,1,2         typical  |  1,2          0,1,2         typical
    18  3,4          0,1,2,3,4     typical  |  3,4          0,1,2,3,4     typical
    19  5            0,1,2,3,4,5   typical  |  5            0,1,2,3,4,5   typical
    20  -            0,1,2,3,4,5   typical  |  -            0,1,2,3,4,5   typical
alike after every one of 20 ticks
"""


def example(name):
    return (ROOT / "examples" / name).read_text(encoding="utf-8")


def first_calls(name, count):
    """The first calls of an example, as a text."""
    text, _ = logs.decode(logs.encode(example(name).encode()))
    return "".join(text.splitlines(True)[:count])


@unittest.skipUnless(all(path.exists() for path in ARCHIVES), "run `./build exports` and `./build replays` first")
class SideBySide(unittest.TestCase):
    ALONE = ("alone.bin", "alone.calls", "0")
    FULL = ("full.bin", "full.calls", "2")

    @classmethod
    def setUpClass(cls):
        folder = tempfile.TemporaryDirectory()
        cls.addClassCleanup(folder.cleanup)
        cls.folder = pathlib.Path(folder.name)
        cls.program = compiled("examples/side_by_side.c", cls.folder / "side_by_side", *ARCHIVES)
        cls.sheet("alone.bin", example("brake-alone.sheet"))
        cls.sheet("full.bin", example("brake-full.sheet"))
        for name in ("alone", "full", "neighbour"):
            cls.log(f"{name}.calls", example(f"brake-{name}.log"))

    @classmethod
    def sheet(cls, name, text):
        (cls.folder / name).write_bytes(sheets.encode(sheets.parse(text.encode())))
        return name

    @classmethod
    def log(cls, name, text):
        (cls.folder / name).write_bytes(logs.encode(text.encode()))
        return name

    def run_of(self, *words):
        return subprocess.run([self.program, *words], cwd=self.folder, capture_output=True, text=True, check=False)

    def ends(self, first, second, status, closing):
        """The exit status and the last line; which of the lines are marked is handed back."""
        done = self.run_of(*first, *second)
        self.assertEqual((done.returncode, done.stderr, done.stdout.splitlines()[-1]), (status, "", closing), done.stdout)
        return [int(line[1:6]) for line in done.stdout.splitlines() if line.startswith("*")]

    def test_the_brake_alone_and_in_a_full_loom(self):
        done = self.run_of(*self.ALONE, *self.FULL)
        self.assertEqual((done.returncode, done.stdout, done.stderr), (0, ALIKE, ""))

    def test_a_neighbour_that_overruns(self):
        parted = ("full.bin", "neighbour.calls", "2")
        closing = "alike up to tick 2: after tick 3 the state is critical in the {} run alone"
        self.assertEqual(self.ends(self.ALONE, parted, 1, closing.format("second")), [3, 4, 5, 6, 7, 8])
        self.ends(parted, self.ALONE, 1, closing.format("first"))

    def test_refused_calls_are_passed_over(self):
        calls = "release 7\ntick\n" + example("brake-alone.log").replace("tick 3\n", "release 0\ntick 5\ntick 3\ntick 3\n")
        more = ("alone.bin", self.log("more.calls", calls + "release 0\nrelease 1\ntick 0\n"), "0")
        self.assertEqual(self.ends(self.ALONE, more, 0, "alike after every one of 20 ticks"), [])

    def test_no_call(self):
        none = ("alone.bin", self.log("none.calls", ""), "0")
        self.ends(none, none, 0, "alike after every one of 0 ticks")
        self.ends(none, self.ALONE, 1, "alike up to tick 0: the first run has no tick 1")

    def test_a_run_that_goes_on(self):
        short = ("alone.bin", self.log("short.calls", first_calls("brake-alone.log", 8)), "0")
        self.assertEqual(self.ends(self.FULL, short, 1, "alike up to tick 7: the second run has no tick 8"), [])
        self.assertEqual(self.ends(short, self.FULL, 1, "alike up to tick 7: the first run has no tick 8"), [])

    def test_a_release_in_one_run_alone(self):
        early = ("alone.bin", self.log("early.calls", "release 0\n" + example("brake-alone.log")), "0")
        closing = "alike up to tick 0: before tick 1 the task is released in the {} run alone"
        self.assertEqual(self.ends(self.ALONE, early, 1, closing.format("second"))[0], 1)
        self.ends(early, self.ALONE, 1, closing.format("first"))

    def test_other_reports(self):
        calls = example("brake-alone.log").replace("tick 1,2\ntick -\ntick 3\n", "tick 1\ntick -\ntick 2,3\n", 1)
        other = ("alone.bin", self.log("other.calls", calls), "0")
        self.assertEqual(self.ends(self.FULL, other, 1, "alike up to tick 5: with tick 6 other nodes are reported")[0], 6)

    def test_another_record(self):
        other = (self.sheet("slow.bin", example("brake-alone.sheet").replace("deadline 14", "deadline 15")), "alone.calls", "0")
        self.ends(self.ALONE, other, 1, "alike up to tick 0: the records of the task differ")

    def looms(self):
        """The loom of the shuttle lamp, on 8 processors and on 9."""
        loom = example("shuttle-lamp.sheet")
        return self.sheet("8.bin", loom), self.sheet("9.bin", loom.replace("processors 8", "processors 9"))

    def test_another_typical_share(self):
        small, large = self.looms()
        calls = self.log("brake.calls", "release 0\ntick 0 - -\ntick - - -\n")
        marked = self.ends((small, calls, "0"), (large, calls, "0"), 1, "alike up to tick 0: the typical shares differ")
        self.assertEqual(marked, [2])

    def test_a_low_task_that_is_kept_in_one_sheet_alone(self):
        """The camera takes 4 processors in the critical state of one sheet, and none in that of the other."""
        small, large = self.looms()
        tick = "tick - - -\n"
        late = self.log("late.calls", "release 0\nrelease 2\n" + 9 * tick)
        later = self.log("later.calls", "release 2\n" + 2 * tick + "release 0\n" + 7 * tick)
        closing = "alike up to tick 7: after tick 8 the state is critical, and the critical shares differ"
        self.assertEqual(self.ends((small, late, "2"), (large, later, "2"), 1, closing), [9])

    def test_without_a_switch_the_critical_share_plays_no_part(self):
        camera = example("brake-full.sheet").partition("task warp guard")[0]
        alone = (self.sheet("camera.bin", camera), self.log("camera.calls", "release 0\n" + 4 * "tick -\n"), "0")
        full = ("full.bin", self.log("typical.calls", "release 1\nrelease 0\ntick - 0 - -\n" + 3 * "tick - - - -\n"), "0")
        closing = "alike up to tick 2: after tick 3 the state is critical in the second run alone"
        self.ends(alone, full, 1, closing)
        full = ("full.bin", self.log("typical.calls", "release 0\nrelease 3\n" + 4 * "tick - - - -\n"), "0")
        self.assertEqual(self.ends(alone, full, 0, "alike after every one of 4 ticks"), [])

    def test_the_room_of_a_set_is_that_of_all_nodes(self):
        text = "processors 4\ntask a: low\n  deadline 20\n  work 24 span 8\n  nodes {}\n"
        calls = self.log("two.calls", "release 0\ntick 0\ntick -\n")
        for count, room in ((1, 5), (2, 5), (32, 85)):
            run = (self.sheet("nodes.bin", text.format(count)), calls, "0")
            lines = self.run_of(*run, *run).stdout.splitlines()[2:-1]
            self.assertEqual(lines[1].find("typical") - lines[0].find("ended"), room + 3)
            self.assertEqual({len(line) for line in lines}, {len(lines[0])})

    def refuses(self, words, message):
        with self.subTest(words):
            done = self.run_of(*words)
            self.assertEqual((done.returncode, done.stdout, done.stderr), (2, "", f"{message}\n"))

    def test_files_that_can_not_be_read(self):
        for name, what in (("none", "No such file or directory"), (".", "Is a directory")):
            self.refuses((name, "alone.calls", "0", *self.FULL), f"side_by_side: {name}: {what}")
            self.refuses((*self.ALONE, "full.bin", name, "2"), f"side_by_side: {name}: {what}")

    def test_files_that_are_too_long(self):
        for name, most in (("long.bin", 4096), ("long.calls", 65536)):
            (self.folder / name).write_bytes(bytes(most + 1))
        self.refuses(("long.bin", "alone.calls", "0", *self.FULL), "side_by_side: long.bin: expected at most 4096 bytes")
        self.refuses(("alone.bin", "long.calls", "0", *self.FULL), "side_by_side: long.calls: expected at most 65536 bytes")

    def test_a_log_of_the_greatest_length(self):
        (self.folder / "great.calls").write_bytes(bytes([1, 0]) * 32768)
        great = ("full.bin", "great.calls", "2")
        self.ends(great, great, 0, "alike after every one of 0 ticks")

    def test_a_refused_sheet(self):
        small = self.sheet("small.bin", example("brake-alone.sheet").replace("processors 3", "processors 2"))
        self.refuses((*self.FULL, small, "alone.calls", "0"), f"side_by_side: {small}: the sheet is refused with number 7")

    def test_no_such_task(self):
        for task in ("4", "-1", "+1", " 1", "1x", "x", "", "4294967296", "18446744073709551616"):
            self.refuses((*self.ALONE, "full.bin", "full.calls", task), "side_by_side: full.bin: expected a task from 0 to 3")

    def test_a_log_that_ends_early(self):
        whole = (self.folder / "alone.calls").read_bytes()
        for rest in (b"\1", b"\1\1\0", b"\0\0\0\0", b"\2", b"tick"):
            (self.folder / "cut.calls").write_bytes(whole + rest)
            message = f"side_by_side: cut.calls: offset {len(whole)}: expected a whole call"
            self.refuses(("alone.bin", "cut.calls", "0", *self.FULL), message)

    def test_too_few_words_or_too_many(self):
        for words in ((), self.ALONE, (*self.ALONE, *self.FULL, "0")):
            self.refuses(words, "usage: side_by_side SHEET LOG TASK SHEET LOG TASK")

    def test_a_full_disk(self):
        with open("/dev/full", "w", encoding="utf-8") as full:
            words = [self.program, *self.ALONE, *self.FULL]
            done = subprocess.run(words, cwd=self.folder, stdout=full, stderr=subprocess.PIPE, text=True, check=False)
        self.assertEqual((done.returncode, done.stderr), (2, "side_by_side: standard output: No space left on device\n"))


if __name__ == "__main__":
    unittest.main()
