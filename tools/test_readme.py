"""Tests of the documents for users: each command in them runs and prints what is shown, or is listed with a reason."""

import pathlib
import re
import subprocess
import unittest

import log as logs
import sheet as sheets

ROOT = pathlib.Path(__file__).resolve().parent.parent
DOCUMENTS = ("README.md", "docs/TEACHING.md")
PROGRAMS = ("python3", "rt", "gcc", "cargo", "sed", "./", "target/", "DIBWUNEK_")  # how a command in a sentence begins

# Commands that this test does not run.
NOT_RUN = {
    "./test": "it runs this test",
    "DIBWUNEK_SEED=7 ./test": "it runs this test",
    "python3 -m unittest discover -s tools": "it runs this test",
    "rt ci": "`./test` runs it first; it takes minutes",
    "./build plan_printer": "`./test` runs it before this test; anew it takes minutes",
    "./build stg_import": "as the one before it",
    "./build exports": "as the two before it",
    "./build replays": "as the three before it",
    "./build importer": "as the four before it",
}

# What a command needs that another one builds: without it the command is skipped. In `./test` all of it is there.
NEEDS = {
    "plan_printer": "target/bin/plan_printer",
    "sheet.py plan": "target/bin/plan_printer",
    "stg_import": "target/bin/stg_import",
    "libexports.a": "target/staticlib/libexports.a",
    "libreplays.a": "target/staticlib/libreplays.a",
    "examples/controller.c": "examples/controller.c",
    "target/controller": "target/controller",
    "target/side_by_side": "target/side_by_side",
}


def text_of(name):
    return (ROOT / name).read_text(encoding="utf-8")


def fences(text):
    return re.findall(r"^```\w*\n(.*?)^```$", text, re.MULTILINE | re.DOTALL)


def outside(text):
    return re.sub(r"^```\w*\n.*?^```$", "", text, flags=re.MULTILINE | re.DOTALL)


def shown(text):
    """Pairs of a command after `$ ` in a fenced block and the text shown below it."""
    for block in fences(text):
        for part in re.split(r"^\$ ", block, flags=re.MULTILINE)[1:]:
            command, _, printed = part.partition("\n")
            yield command, printed


def indented(text):
    """The lines that are set off by four blanks: each is a command."""
    return re.findall(r"^    (\S.*)$", outside(text), re.MULTILINE)


def inline(text):
    """The commands that stand within a sentence."""
    for span in re.findall(r"`([^`]+)`", re.sub(r"^    .*$", "", outside(text), flags=re.MULTILINE)):
        words = span.split()
        if span == "./test" or len(words) > 1 and words[0].startswith(PROGRAMS):
            yield " ".join(words)


class Commands(unittest.TestCase):
    def done(self, command):
        """The command as it ended, from the root."""
        for part, needed in NEEDS.items():
            if part in command and f"-o {needed}" not in command and not (ROOT / needed).exists():
                self.skipTest(f"{needed} is not built")
        return subprocess.run(
            command, shell=True, cwd=ROOT, stdin=subprocess.DEVNULL, capture_output=True, text=True, check=False
        )

    def test_each_command_prints_what_is_shown(self):
        for name, least in (("README.md", 8), ("docs/TEACHING.md", 8)):
            commands = list(shown(text_of(name)))
            self.assertGreaterEqual(len(commands), least)
            for command, printed in commands:
                with self.subTest(f"{name}: {command}"):
                    self.assertNotIn(command, NOT_RUN)
                    done = self.done(command)
                    self.assertEqual(done.stdout + done.stderr, printed)

    def test_each_other_command_runs(self):
        (ROOT / "target").mkdir(exist_ok=True)
        for name in DOCUMENTS:
            text = text_of(name)
            for command in dict.fromkeys([*indented(text), *inline(text)]):
                if command not in NOT_RUN:
                    with self.subTest(f"{name}: {command}"):
                        done = self.done(command)
                        self.assertEqual((done.returncode, done.stderr), (0, ""))

    def test_what_is_not_run_stands_in_a_document(self):
        found = {command for name in DOCUMENTS for command in (*indented(text_of(name)), *inline(text_of(name)))}
        self.assertEqual(sorted(set(NOT_RUN) - found), [])

    def test_the_first_screen_has_a_command_for_each_reader(self):
        first = text_of("README.md").partition("\n## ")[0]
        self.assertLessEqual(len(first.splitlines()), 50)
        programs = ("sheet.py check", "sheet.py plan", "bin/stg_import", "target/controller", "log.py write", "side_by_side.c")
        for command in (*programs, "./build exports", "gcc ", "./test"):
            self.assertTrue(any(command in line for line in indented(first)), command)

    def test_each_command_of_a_tool_that_is_named_exists(self):
        for tool, commands in (("sheet", sheets.COMMANDS), ("log", logs.COMMANDS)):
            for name in DOCUMENTS:
                named = set(re.findall(rf"{tool}\.py (\w+)", text_of(name)))
                self.assertLessEqual(named, set(commands), name)


class Readme(unittest.TestCase):
    def test_the_worked_sheet_is_the_example(self):
        comment, _, text = text_of("examples/worked.sheet").partition("\n")
        self.assertEqual(comment[0], "#")
        self.assertIn(f"```\n{text}```\n", text_of("README.md"))

    def test_each_refusal_of_the_planner_is_in_the_table(self):
        rows = re.findall(r"^\| (\d+)(?:, task)? \| ([\w, ]+) \|", text_of("README.md"), re.MULTILINE)
        self.assertEqual([int(number) for number, _ in rows], list(range(1, len(rows) + 1)))
        self.assertEqual([int(number) for number, calls in rows if "Start" in calls], sorted(sheets.REFUSALS))

    def test_the_words_of_a_tick_are_their_numbers_and_tasks(self):
        """S13.4 and S12.2: what a return adds to its word, and the outcome that Replay writes of it."""
        cells = r"^\| (ran|returned) \| (\d+) \| (\d+) \| ([\d,]+) \| (\d) \|"
        rows = re.findall(cells, text_of("README.md"), re.MULTILINE)
        found = [(row[0], int(row[3].replace(",", "")) - 256 * int(row[2]) - int(row[1]), row[4]) for row in rows]
        self.assertEqual(found, [("ran", 0, "0"), ("returned", 131_072, "3")])

    def test_the_places_where_one_stumbles_are_those_of_the_teaching_page(self):
        title, _, rest = text_of("docs/TEACHING.md").partition("\n")
        places = text_of("README.md").partition(f"\n#{title}\n")[2].partition("\n## ")[0]
        self.assertEqual(len(re.findall("^- ", places, re.MULTILINE)), len(re.findall("^## ", rest, re.MULTILINE)))

    def test_each_link_leads_somewhere(self):
        for name in DOCUMENTS:
            text = text_of(name)
            titles = re.findall(r"^#+ (.*)$", text, re.MULTILINE)
            places = {re.sub(r"[^\w -]", "", title.lower()).replace(" ", "-") for title in titles}
            for target in re.findall(r"\]\(([^)]+)\)", text):
                path, _, place = target.partition("#")
                with self.subTest(f"{name}: {target}"):
                    self.assertTrue((ROOT / name).parent.joinpath(path).exists() if path else place in places)


if __name__ == "__main__":
    unittest.main()
