"""Tests of the header and of examples/controller.c: it compiles without a warning and links, prints what happens on the worked
sheet, lets a kept job go on and a dropped one rest until the mode is typical again, and says what is wrong with any other input.
Programs of the test's own read the plan, the state and words of answers by the header."""

import pathlib
import subprocess
import tempfile
import unittest

ROOT = pathlib.Path(__file__).resolve().parent.parent
ARCHIVE = ROOT / "target" / "staticlib" / "libexports.a"
FLAGS = ["-std=c99", "-Wall", "-Wextra", "-Werror", "-pedantic", "-Iinclude"]

PRINTED = """\
task 0: shares 2 and 2, virtual deadline 11
task 1: shares 2 and 2, virtual deadline 0
tick  0: task 0 is released
tick  0: task 1 is released
tick  8: task 1 has ended
tick 11: the mode turns critical because of task 0
tick 16: task 0 has ended
tick 16: the mode turns typical again
tick 20: task 1 is released
tick 28: task 1 has ended
tick 36: task 0 is released
tick 40: the mode is typical
"""

# The lamp of examples/back-to-typical.sheet, task 1, is due at tick 14 and not released before the return.
BACK = """\
task 0: shares 1 and 3, virtual deadline 8
task 1: shares 2 and 0, virtual deadline 0
tick  0: task 0 is released
tick  0: task 1 is released
tick  8: the mode turns critical because of task 0
tick  8: task 1 is dropped
tick 20: task 0 has ended
tick 20: the mode turns typical again
tick 20: task 1 is released
tick 32: task 1 has ended
tick 34: task 1 is released
tick 40: the mode is typical
"""

READER = """\
#include <stdio.h>
#include "dibwunek.h"

int main(void) {
    static uint8_t sheet[4096], plan[DIBWUNEK_PLAN_BYTES * DIBWUNEK_ENTRIES];
    static uint32_t state[DIBWUNEK_STATE_WORDS];
    size_t length = fread(sheet, 1, sizeof sheet, stdin), count = sheet[1], size = DIBWUNEK_PLAN_BYTES * count, at;
    printf("%u", dibwunek_number(dibwunek_plan(sheet, length, plan, size - 1)));
    printf(" %u\\n", dibwunek_number(dibwunek_plan(sheet, length, plan, size)));
    for (at = 0; at < size; at++) {
        printf("%u%c", plan[at], at + 1 < size ? ' ' : '\\n');
    }
    printf("%u\\n", dibwunek_number(dibwunek_start(sheet, length, state, DIBWUNEK_STATE_WORDS)));
    for (at = 0; at < count; at++) {
        uint32_t level = dibwunek_field(state, at, DIBWUNEK_LEVEL);
        int wide = level == DIBWUNEK_LOW_WIDE || level == DIBWUNEK_HIGH_WIDE;
        printf("%u %s", (unsigned)level, dibwunek_is_high(level) ? "high" : "low");
        printf(" %u", (unsigned)dibwunek_field(state, at, DIBWUNEK_DEADLINE));
        printf(" %u", (unsigned)dibwunek_field(state, at, DIBWUNEK_VIRTUAL_DEADLINE));
        printf(" %u", (unsigned)dibwunek_field(state, at, DIBWUNEK_AGE));
        printf(" %u\\n", wide ? DIBWUNEK_MOST_TICKS : DIBWUNEK_MOST_TICKS_NARROW);
    }
    return 0;
}
"""

# What it prints of the dye line: 9 for a buffer that is a byte short, and 0; the typical pairs, the critical ones, V in four bytes
# (200,000 is 64 + 13 * 256 + 3 * 65,536) and the remainders; 0; and of each task its level, D, V, age and the limit of these.
READ = """\
9 0
0 2 2 3 5 2 0 3 3 3 6 2 64 13 3 0 6 0 0 0 0 0 0 0 0 2 0
0
17 high 400000 200000 400000 1000000
1 high 24 6 24 10000
16 low 30000 0 30000 1000000
"""

WORDS = """\
#include <stdio.h>
#include <stdlib.h>
#include "dibwunek.h"

int main(int count, char **words) {
    int at;
    for (at = 1; at < count; at++) {
        uint32_t answer = (uint32_t)strtoul(words[at], NULL, 10);
        printf("%u %u", dibwunek_number(answer), dibwunek_task(answer));
        printf(" %u %u\\n", dibwunek_switched(answer), dibwunek_returned(answer));
    }
    return 0;
}
"""

# Answers by their words (S13.4): the number, the task, whether a tick switched, whether it returned.
SAID = {
    256 * 255: "0 255 0 0",
    65536: "0 0 1 0",
    65536 + 256 * 15: "0 15 1 0",
    131072 + 256 * 255: "0 255 0 1",
    15 + 256 * 2: "15 2 0 0",
    100 + 256 * 255: "100 255 0 0",
}


def ran(*words, **options):
    return subprocess.run(words, cwd=ROOT, capture_output=True, check=False, **options)


def compiled(source, program, *archives):
    """The program of a file in C, which compiles without a warning."""
    done = ran("gcc", *FLAGS, str(source), "-o", str(program), *map(str, archives), text=True)
    if done.returncode != 0 or done.stderr:
        raise AssertionError(done.stderr)
    return str(program)


@unittest.skipUnless(ARCHIVE.exists(), f"no {ARCHIVE.relative_to(ROOT)}: run `./build exports` first")
class Controller(unittest.TestCase):
    @classmethod
    def setUpClass(cls):
        folder = tempfile.TemporaryDirectory()
        cls.addClassCleanup(folder.cleanup)
        cls.folder = pathlib.Path(folder.name)
        cls.program = compiled("examples/controller.c", cls.folder / "controller", ARCHIVE)

    def sheet(self, name, change=lambda text: text):
        """The file of a sheet: the worked one, with its text changed."""
        text = (ROOT / "examples" / "worked.sheet").read_text(encoding="utf-8")
        done = ran("python3", "tools/sheet.py", "write", "-", input=change(text).encode())
        self.assertEqual(done.returncode, 0, done.stderr)
        file = self.folder / name
        file.write_bytes(done.stdout)
        return str(file)

    def refuses(self, words, status, message):
        done = ran(self.program, *words, text=True)
        self.assertEqual((done.returncode, done.stdout, done.stderr), (status, "", message))

    def test_the_built_in_sheet(self):
        done = ran(self.program, text=True)
        self.assertEqual((done.returncode, done.stdout, done.stderr), (0, PRINTED, ""))

    def test_the_built_in_sheet_is_the_worked_one(self):
        done = ran(self.program, self.sheet("worked.bin"), text=True)
        self.assertEqual((done.returncode, done.stdout, done.stderr), (0, PRINTED, ""))

    def test_a_low_job_that_is_kept(self):
        sheet = self.sheet("slow.bin", lambda text: text.replace("nodes 3", "nodes 6"))
        done = ran(self.program, sheet, text=True)
        self.assertEqual((done.returncode, done.stderr), (0, ""))
        self.assertIn("tick 11: the mode turns critical because of task 0\ntick 12: task 1 has ended\n", done.stdout)
        self.assertIn("tick 20: task 1 is released\ntick 32: task 1 has ended\n", done.stdout)

    def test_a_low_job_that_is_dropped(self):
        change = lambda text: text.replace("processors 4", "processors 3").replace("nodes 3", "nodes 8")
        done = ran(self.program, self.sheet("dropped.bin", change), text=True)
        self.assertEqual((done.returncode, done.stderr), (0, ""))
        self.assertIn("tick 15: the mode turns critical because of task 0\ntick 15: task 1 is dropped\n", done.stdout)
        self.assertIn("tick 20: the mode turns typical again\ntick 20: task 1 is released\n", done.stdout)
        self.assertIn("tick 36: task 1 has ended\n", done.stdout)
        self.assertEqual(done.stdout.count("task 1 is released"), 2)

    def example(self, name):
        """The bytes of an example."""
        done = ran("python3", "tools/sheet.py", "write", f"examples/{name}.sheet")
        self.assertEqual((done.returncode, done.stderr), (0, b""))
        return done.stdout

    def run_of(self, name):
        """What the controller prints of an example."""
        file = self.folder / f"{name}.bin"
        file.write_bytes(self.example(name))
        done = ran(self.program, str(file), text=True)
        self.assertEqual((done.returncode, done.stderr), (0, ""))
        return done.stdout

    def test_a_low_job_that_is_released_after_the_return(self):
        self.assertEqual(self.run_of("back-to-typical"), BACK)

    def test_switches_and_returns_in_turn(self):
        turns = [line for line in self.run_of("shuttle-lamp").splitlines() if "turns" in line]
        critical, typical = "the mode turns critical because of task 0", "the mode turns typical again"
        found = [f"tick {tick:2}: {turn}" for tick, turn in ((8, critical), (16, typical), (32, critical), (40, typical))]
        self.assertEqual(turns, found)

    def test_the_dye_line(self):
        printed = self.run_of("dye-line")
        first = "task 0: shares 2 and 3, virtual deadline 200000\ntask 1: shares 3 and 3, virtual deadline 6\n"
        self.assertTrue(printed.startswith(first), printed)

    def built(self, name, text):
        """The program of a text in C, with the archive."""
        source = self.folder / f"{name}.c"
        source.write_text(text, encoding="utf-8")
        return compiled(source, self.folder / name, ARCHIVE)

    def test_the_plan_and_the_state_by_the_header(self):
        done = ran(self.built("reader", READER), input=self.example("dye-line"))
        self.assertEqual((done.returncode, done.stdout.decode(), done.stderr), (0, READ, b""))

    def test_the_words_of_answers_by_the_header(self):
        done = ran(self.built("words", WORDS), *map(str, SAID), text=True)
        self.assertEqual((done.returncode, done.stdout.splitlines(), done.stderr), (0, [*SAID.values()], ""))

    def test_a_missing_file(self):
        self.refuses(["no/such/file"], 1, "controller: no/such/file: No such file or directory\n")

    def test_a_folder(self):
        self.refuses([str(self.folder)], 1, f"controller: {self.folder}: Is a directory\n")

    def test_a_file_that_is_too_long(self):
        file = self.folder / "long.bin"
        file.write_bytes(bytes(4097))
        self.refuses([str(file)], 1, f"controller: {file} has more than 4096 bytes\n")

    def test_an_empty_sheet(self):
        file = self.folder / "empty.bin"
        file.write_bytes(b"")
        self.refuses([str(file)], 1, "controller: the sheet is refused with number 1\n")

    def test_a_refused_sheet(self):
        sheet = self.sheet("few.bin", lambda text: text.replace("processors 4", "processors 2"))
        self.refuses([sheet], 1, "controller: the sheet is refused with number 8\n")

    def test_a_refused_task(self):
        sheet = self.sheet("light.bin", lambda text: text.replace("deadline 36", "deadline 50"))
        self.refuses([sheet], 1, "controller: the sheet is refused with number 6, task 0\n")

    def test_too_many_words(self):
        self.refuses(["a", "b"], 2, "usage: controller [SHEET]\n")

    def test_a_full_disk(self):
        with open("/dev/full", "w", encoding="utf-8") as full:
            done = subprocess.run([self.program], stdout=full, stderr=subprocess.PIPE, text=True, check=False)
        self.assertEqual(done.returncode, 1)
        self.assertEqual(done.stderr, "controller: standard output: No space left on device\n")

    def test_the_header_in_other_languages(self):
        for words in (["-x", "c", "-std=c11"], ["-x", "c++", "-std=c++11"]):
            with self.subTest(words[1]):
                kind = ["-fsyntax-only", "-Wall", "-Wextra", "-Werror", "-pedantic", *words]
                done = ran("gcc", *kind, "include/dibwunek.h", text=True)
                if "cc1plus" in done.stderr:
                    self.skipTest("gcc has no C++")
                self.assertEqual((done.returncode, done.stderr), (0, ""))


if __name__ == "__main__":
    unittest.main()
