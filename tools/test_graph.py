"""Tests of graph.py and of the graph line of sheet.py: layouts, each error with its places, and that the program
stg_import has the same records and refusals."""

import os
import pathlib
import random
import re
import subprocess
import sys
import tempfile
import unittest

import graph as graphs
import sheet as sheets
import simulate
import texts

HERE = pathlib.Path(__file__).resolve().parent
EXAMPLES = HERE.parent / "examples"
IMPORTER = HERE.parent / "target" / "bin" / "stg_import"

FORK = b"""\
3
0 0 0
1 2 1 0
2 4 1 1
3 3 2 1 2
4 0 1 3
"""

TEXT = """\
processors 8
task fork: high
  deadline 45
  graph fork.stg percentage 150
task lamp: low
  deadline 18
  work 66 span 6
  nodes 1
"""


def changed(old, new, text=FORK):
    assert text.count(old) == 1, old
    return text.replace(old, new)


def random_graph(rng, most=9):
    """The times and the predecessors of the nodes, as entries number them."""
    count = rng.choice((1, 2, rng.randrange(1, 33), 32))
    times = [rng.randrange(1, most + 1) for _ in range(count)]
    before = [[p for p in range(v) if rng.random() < 0.3] for v in range(1, count + 1)]
    return times, [[*ps, *rng.choices(ps, k=rng.randrange(3))] if ps else ps for ps in before]


def written(rng, times, before):
    """The graph as a text, with any blanks, zeros and comment."""
    count = len(times)
    numbers = [count, 0, 0, 0]
    for v, (time, ps) in enumerate(zip(times, before), 1):
        numbers += [v, time, len(ps), *ps]
    last = rng.sample(range(count + 1), rng.randrange(count + 1))
    numbers += [count + 1, 0, len(last), *last]
    text = rng.choice(("", " ", "\r\n"))
    for number in numbers:
        text += "0" * rng.choice((0, 0, 0, 3)) + str(number) + rng.choice((" ", "\n", "\t", "\r\n", " \t "))
    return (text.rstrip() + rng.choice(("", "\n", " # 7 x", "#\n9 9"))).encode()


def damaged(rng, text):
    """The text with some words taken out, doubled or put to other numbers, or with another byte."""
    words = text.split(b" ") if rng.random() < 0.5 else text.split(b"\n")
    at = rng.randrange(len(words))
    word = rng.choice((b"", words[at] + b" " + words[at], b"0", b"1", b"33", b"10001", b"65535", b"65536", b"x", b"-1"))
    return b" ".join([*words[:at], word, *words[at + 1 :]])


class Files(unittest.TestCase):
    def setUp(self):
        folder = tempfile.TemporaryDirectory()
        self.addCleanup(folder.cleanup)
        self.folder = pathlib.Path(folder.name)
        self.file = self.folder / "fork.stg"
        self.file.write_bytes(FORK)
        self.text = self.folder / "a.sheet"
        self.text.write_text(TEXT)

    def error(self, text=TEXT):
        """The line and the words of the error that the text meets."""
        with self.assertRaises(texts.PlaceError) as caught:
            sheets.encode(sheets.parse(text.encode(), self.folder))
        return caught.exception.place, str(caught.exception)

    def record(self, level, deadline, percentage):
        """The record that a graph line gives, or the number of the refusal that its error names."""
        lines = ("processors 1", f"task: {level}", f"deadline {deadline}", f"graph fork.stg percentage {percentage}")
        try:
            return sheets.encode(sheets.parse("\n".join(lines).encode(), self.folder))[6:]
        except texts.PlaceError as error:
            return int(re.search(r"\(refusal (\d+)\)$", str(error)).group(1))

    def imported(self, level, deadline, percentage):
        """The same by the program."""
        command = [IMPORTER, self.file, str(level), str(deadline), str(percentage)]
        done = subprocess.run(command, capture_output=True, check=False)
        if done.stdout:
            self.assertEqual(done.stderr, b"")
            return done.stdout
        return int(re.fullmatch(r"stg_import: refused (\d+): [^\n]+\n", done.stderr.decode()).group(1))


class Graphs(unittest.TestCase):
    def test_nodes_and_masks(self):
        graph = graphs.graph_of(FORK)
        self.assertEqual((graph.times, graph.masks), ([2, 4, 3], [0, 1, 3]))
        self.assertEqual(graphs.budget(graph, 100), (9, 9))
        self.assertEqual(graphs.budget(graph, 150), (3 + 6 + 5, 14))

    def test_layouts(self):
        graph = graphs.graph_of(FORK)
        for text in (
            FORK.replace(b"\n", b" "),
            FORK.replace(b"\n", b"\r\n"),
            FORK.replace(b" ", b"\t").replace(b"\n", b"\r"),
            b"\n\n " + FORK.rstrip(),
            FORK.rstrip() + b"#",
            FORK + b"# 4 0 1 3 \xff\0",
            FORK.replace(b"2", b"0000000002"),
        ):
            self.assertEqual(graphs.graph_of(text), graph, text)

    def test_the_dummy_and_repeats_change_nothing(self):
        graph = graphs.graph_of(FORK)
        for old, new in ((b"1 2 1 0", b"1 2 0"), (b"3 3 2 1 2", b"3 3 5 2 0 2 1 1"), (b"4 0 1 3", b"4 0 0")):
            self.assertEqual(graphs.graph_of(changed(old, new)), graph)

    def test_a_time_by_the_percentage_is_rounded_up(self):
        for time, percentage, over in ((1, 101, 2), (3, 150, 5), (4, 150, 6), (99, 101, 100), (5, 400, 20)):
            self.assertEqual(graphs.budget(graphs.Graph([time], [0]), percentage), (over, over))

    def test_the_longest_chain_is_the_greatest_of_all(self):
        rng = random.Random(3)
        for _ in range(100):
            times, before = random_graph(rng)
            graph = graphs.graph_of(written(rng, times, before))
            chains = [0] + [0] * len(times)
            for v, ps in enumerate(before, 1):
                chains[v] = times[v - 1] + max([chains[p] for p in ps] or [0])
            self.assertEqual(graphs.budget(graph, 100), (sum(times), max(chains)))


class Errors(Files):
    """Each graph is the fork with one edit; the error names the sheet's line, the file, its line and the refusal."""

    END = "got the end of the text"
    CASES = [
        (b"2 4 1 1", b"2 4 x 1", 4, "expected a number from 0 to 65535, got 'x'", 17),
        (b"2 4 1 1", b"2 -4 1 1", 4, "expected a number from 0 to 65535, got '-4'", 17),
        (b"2 4 1 1", b"2 4.5 1 1", 4, "expected a number from 0 to 65535, got '4.5'", 17),
        (b"2 4 1 1", b"2 65536 1 1", 4, "expected a number from 0 to 65535, got '65536'", 17),
        (b"2 4 1 1", b"2 \x0b4 1 1", 4, "expected a number from 0 to 65535, got '?4'", 17),
        (b"2 4 1 1", b"1 4 1 1", 4, "expected entry 2, got 1", 17),
        (b"2 4 1 1", b"2 0 1 1", 4, "entry 2: expected a time of at least 1, got 0", 17),
        (b"0 0 0\n", b"0 1 0\n", 2, "entry 0: expected the time 0 of a dummy, got 1", 17),
        (b"4 0 1 3", b"4 5 1 3", 6, "entry 4: expected the time 0 of a dummy, got 5", 17),
        (b"4 0 1 3", b"4 0 1 3 0", 6, "expected the end of the text behind entry 4, got 0", 17),
        (b"4 0 1 3", b"4 0 1 3 x", 6, "expected a number from 0 to 65535, got 'x'", 17),
        (b"4 0 1 3", b"4 0 1", 7, f"expected the predecessors of entry 4, 1 in all, {END}", 17),
        (b"4 0 1 3", b"4 0", 7, f"expected how many predecessors entry 4 has, {END}", 17),
        (b"4 0 1 3", b"4", 7, f"expected the time of entry 4, {END}", 17),
        (b"4 0 1 3", b"# 4 0 1 3", 6, f"expected entry 4, {END}", 17),
        (b"3\n0 0 0", b"# 3\n0 0 0", 1, f"expected the number of nodes, {END}", 17),
        (b"3\n0 0 0", b"3\n1 0 0", 2, "expected entry 0, got 1", 17),
        (b"3\n0 0 0", b"4\n0 0 0", 6, "entry 4: expected a time of at least 1, got 0", 17),
        (b"3\n0 0 0", b"3\n0 0 1 0", 2, "entry 0: predecessor 0 is not below its entry", 18),
        (b"2 4 1 1", b"2 4 1 2", 4, "entry 2: predecessor 2 is not below its entry", 18),
        (b"2 4 1 1", b"2 4 1 3", 4, "entry 2: predecessor 3 is not below its entry", 18),
        (b"2 4 1 1", b"2 4 1\n 65535", 5, "entry 2: predecessor 65535 is not below its entry", 18),
        (b"4 0 1 3", b"4 0 1 4", 6, "entry 4: predecessor 4 is not below its entry", 18),
    ]

    def test_each_names_its_places(self):
        for old, new, line, message, number in self.CASES:
            with self.subTest(new):
                self.file.write_bytes(changed(old, new))
                self.assertEqual(self.error(), (4, f"fork.stg: line {line}: {message} (refusal {number})"))

    def test_how_many_nodes(self):
        for count in (0, 33, 1000):
            entries = "".join(f"{v} 1 1 {v - 1}\n" for v in range(1, count + 1))
            self.file.write_text(f"\n{count}\n0 0 0\n{entries}{count + 1} 0 0\n")
            self.assertEqual(self.error(), (4, f"fork.stg: line 2: expected 1 to 32 nodes, got {count} (refusal 18)"))

    def test_the_format_comes_before_the_graph(self):
        self.file.write_bytes(changed(b"2 4 1 1", b"2 4 1 3") + b"7")
        self.assertIn("line 7: expected the end of the text behind entry 4, got 7 (refusal 17)", self.error()[1])
        self.file.write_bytes(changed(b"2 4 1 1", b"2 9999 1 3"))
        self.assertIn("line 4: entry 2: predecessor 3 is not below its entry (refusal 18)", self.error()[1])

    def test_figures(self):
        self.file.write_bytes(changed(b"2 4 1 1", b"2 9996 1 1"))
        what = "fork.stg: the nominal work is 10001; expected 1 to 10000 for a graph (refusal 19)"
        self.assertEqual(self.error(), (4, what))
        self.file.write_bytes(changed(b"2 4 1 1", b"2 7000 0"))
        what = "fork.stg: the overload work is 10508; expected 1 to 10000 for a graph (refusal 19)"
        self.assertEqual(self.error(), (4, what))

    def test_deadline(self):
        for deadline in (0, 10_001, 400_000, 1_000_000):
            what = f"the deadline is {deadline}; expected 1 to 10000 for a graph (refusal 19)"
            self.assertEqual(self.error(TEXT.replace("deadline 45", f"deadline {deadline}")), (3, what))

    def test_terms(self):
        for percentage in (0, 99, 401):
            what = f"percentage: expected 100 to 400, got {percentage} (refusal 17)"
            self.assertEqual(self.error(TEXT.replace("percentage 150", f"percentage {percentage}")), (4, what))
        what = "percentage: expected 100 for a low task, got 150 (refusal 17)"
        self.assertEqual(self.error(TEXT.replace("fork: high", "fork: low")), (4, what))
        for level, got in (("2", "2"), ("high wide", "high wide"), ("low wide", "low wide"), ("17", "high wide")):
            what = f"level: expected high or low for a graph, got {got} (refusal 17)"
            self.assertEqual(self.error(TEXT.replace("fork: high", f"fork: {level}")), (2, what))


class Lines(Files):
    """The graph line in a sheet's text."""

    def test_what_it_gives(self):
        sheet = sheets.parse(TEXT.encode(), self.folder)
        task = sheet.tasks[0]
        self.assertEqual(task.predecessors, [0, 1, 3])
        self.assertEqual([getattr(task, figure) for figure in sheets.FIGURES], [45, 9, 14, 9, 14])
        self.assertEqual([(f.number, f.task, f.place) for f in sheets.faults(sheet)], [(6, 0, 4)])

    def test_its_record_is_a_narrow_one(self):
        self.file.write_bytes(b"1 0 0 0 1 10000 0 2 0 0")
        text = TEXT.replace("deadline 45", "deadline 10000").replace(" percentage 150", "")
        task = sheets.parse(text.encode(), self.folder).tasks[0]
        self.assertEqual((task.level, [getattr(task, figure) for figure in sheets.FIGURES]), (1, [10_000] * 5))
        self.file.write_bytes(FORK)
        beside = TEXT.replace("lamp: low", "lamp: low wide").encode()
        self.assertEqual([task.level for task in sheets.parse(beside, self.folder).tasks], [1, 16])

    def test_without_a_percentage(self):
        for level in ("high", "low"):
            text = TEXT.replace("fork: high", f"fork: {level}").replace(" percentage 150", "")
            task = sheets.parse(text.encode(), self.folder).tasks[0]
            self.assertEqual([getattr(task, figure) for figure in sheets.FIGURES], [45, 9, 9, 9, 9])

    def test_its_own_errors(self):
        grammar = "expected 'graph FILE [percentage N]'"
        for old, new, place, message in (
            ("graph fork.stg percentage 150", "graph", 4, f"{grammar}, got 'graph'"),
            ("graph fork.stg percentage 150", "graph: fork.stg", 4, f"{grammar} with no colon, got 'graph: fork.stg'"),
            ("percentage 150", "percentage", 4, f"{grammar}, got 'graph fork.stg percentage'"),
            ("percentage 150", "percent 150", 4, f"{grammar}, got 'graph fork.stg percent 150'"),
            ("percentage 150", "percentage 150 200", 4, f"{grammar}, got 'graph fork.stg percentage 150 200'"),
            ("percentage 150", "percentage 1.5", 4, "percentage: expected a number, got '1.5'"),
            ("percentage 150", "percentage 65536", 4, "percentage: expected a number from 0 to 65535, got '65536'"),
            ("  deadline 45\n", "", 2, "task 'fork': expected a line 'deadline N'"),
            ("percentage 150", "percentage 150\n  graph fork.stg", 5, "the graph is given twice, first on line 4"),
            ("fork.stg", "none.stg", 4, "none.stg: No such file or directory"),
            ("fork.stg", ".", 4, ".: Is a directory"),
            ("fork.stg", "-", 4, "-: No such file or directory"),
            ("fork.stg", "/dev/zero", 4, "/dev/zero: expected at most 16777216 bytes"),
        ):
            with self.subTest(new):
                line, found = self.error(TEXT.replace(old, new, 1))
                self.assertEqual((line, found[: len(message)]), (place, message))

    def test_lines_that_it_stands_for(self):
        for other in ("nodes 3", "node 1 after 0", "nominal work 9 span 4", "overload work 9 span 4", "work 9 span 4"):
            key = other.split()[0]
            behind = TEXT.replace("percentage 150", f"percentage 150\n  {other}")
            self.assertEqual(self.error(behind), (5, f"'{key}' can't stand beside 'graph', on line 4"))
            before = TEXT.replace("  graph", f"  {other}\n  graph")
            self.assertEqual(self.error(before), (5, f"'graph' can't stand beside '{key}', on line 4"))

    def run_tool(self, *arguments, **how):
        command = [sys.executable, HERE / "sheet.py", *arguments]
        done = subprocess.run(command, capture_output=True, check=False, **how)
        return done.returncode, done.stdout, done.stderr.decode()

    def test_the_file_stands_in_the_text_s_folder(self):
        data = sheets.encode(sheets.parse(TEXT.encode(), self.folder))
        (self.folder / "in").mkdir()
        (self.folder / "in" / "b.sheet").write_text(TEXT.replace("fork.stg", "../fork.stg"))
        whole = TEXT.replace("fork.stg", str(self.file)).encode()
        for path, folder, text in (
            (self.text, "/", None),
            ("a.sheet", self.folder, None),
            (self.folder / "in" / "b.sheet", "/", None),
            ("-", self.folder, TEXT.encode()),
            ("-", "/", whole),
        ):
            status, output, _ = self.run_tool("write", path, cwd=folder, input=text)
            self.assertEqual((status, output), (0, data), path)

    def test_each_command_names_both_places_and_writes_nothing(self):
        self.file.write_bytes(changed(b"2 4 1 1", b"2 4 1 5"))
        message = "fork.stg: line 4: entry 2: predecessor 5 is not below its entry (refusal 18)"
        message = f"{self.text}:4: error: {message}\n"
        for command in ("write", "check", "plan"):
            self.assertEqual(self.run_tool(command, self.text), (1, b"", message))
        target = self.folder / "a.bin"
        self.assertEqual(self.run_tool("write", self.text, "-o", target), (1, b"", message))
        self.assertFalse(target.exists())

    def test_the_example_is_planned(self):
        status, output, errors = self.run_tool("plan", EXAMPLES / "drive.sheet")
        self.assertEqual((status, errors), (0, ""))
        rows = ["0 drive  0-2 (3)  0-2 (3)   51 + 2/3", "1 lamp   3-4 (2)  3-4 (2)   none"]
        self.assertEqual(output.decode().splitlines()[1:], rows)

    def test_the_example_s_times_keep_its_budgets(self):
        graph = graphs.graph_of((EXAMPLES / "drive.stg").read_bytes())
        task = sheets.parse((EXAMPLES / "drive.sheet").read_bytes(), EXAMPLES).tasks[0]
        self.assertEqual(simulate.budget(task, graph.times), "work 91, longest chain 32: keeps the nominal budget")
        over = [(3 * time + 1) // 2 for time in graph.times]
        self.assertEqual(simulate.budget(task, over), "work 141, longest chain 50: keeps the overload budget")

    def test_bytes_are_printed_without_the_file(self):
        _, data, _ = self.run_tool("write", self.text)
        _, text, _ = self.run_tool("print", "-", input=data)
        self.assertIn(b"  nominal work 9 span 9\n  overload work 14 span 14\n  nodes 3\n  node 1 after 0\n", text)
        self.assertNotIn(b"graph", text)


class Program(Files):
    """The program stg_import, which the gate builds, and this tool say the same."""

    def agree(self, text, level, deadline, percentage):
        self.file.write_bytes(text)
        found = self.record(level, deadline, percentage)
        self.assertEqual(self.imported(level, deadline, percentage), found, (text, level, deadline, percentage))
        return found

    def test_the_example(self):
        text = (EXAMPLES / "drive.stg").read_bytes()
        for level, percentage in ((1, 150), (1, 100), (1, 400), (0, 100)):
            record = self.agree(text, level, 90, percentage)
            self.assertEqual((len(record), record[:2]), (12 + 4 * 20, bytes([level, 20])))
        sheet = sheets.parse((EXAMPLES / "drive.sheet").read_bytes(), EXAMPLES)
        self.assertEqual(sheets.encode_task(sheet.tasks[0]), self.agree(text, 1, sheet.tasks[0].deadline, 150))

    def test_random_graphs(self):
        rng = random.Random(4)
        for _ in range(60):
            text = written(rng, *random_graph(rng))
            level = rng.randrange(2)
            percentage = rng.choice((100, 101, rng.randrange(100, 401), 400)) if level else 100
            self.assertIsInstance(self.agree(text, level, rng.randrange(1, 10_001), percentage), bytes)

    def test_each_error(self):
        for old, new, _, _, number in Errors.CASES:
            self.assertEqual(self.agree(changed(old, new), 1, 45, 150), number, new)

    def test_terms_and_figures(self):
        for level, deadline, percentage, number in (
            (0, 45, 101, 17), (0, 45, 99, 17), (2, 45, 100, 17), (1, 45, 99, 17), (1, 45, 401, 17), (1, 45, 0, 17),
            (1, 0, 100, 19), (1, 10_001, 100, 19), (1, 65_535, 400, 19), (2, 0, 100, 17),
            (16, 45, 100, 17), (17, 45, 150, 17), (17, 10_001, 100, 17),
        ):  # fmt: skip
            self.assertEqual(self.agree(FORK, level, deadline, percentage), number)
        for time, percentage, number in ((9997, 100, None), (9998, 100, 19), (2497, 400, None), (2498, 400, 19)):
            found = self.agree(b"2 0 0 0 1 %d 0 2 3 0 3 0 0" % time, 1, 45, percentage)
            self.assertEqual(found if isinstance(found, int) else None, number, time)

    def test_many_nodes(self):
        for count, number in ((0, 18), (1, None), (32, None), (33, 18), (255, 18), (256, 18), (5000, 18)):
            entries = "".join(f"{v} 1 0\n" for v in range(1, count + 1))
            found = self.agree(f"{count}\n0 0 0\n{entries}{count + 1} 0 0\n".encode(), 1, 45, 100)
            self.assertEqual(found if isinstance(found, int) else None, number, count)

    def test_damaged_graphs(self):
        rng, found = random.Random(5), set()
        for _ in range(150):
            text = written(rng, *random_graph(rng, rng.choice((9, 900))))
            answer = self.agree(damaged(rng, text), 1, rng.choice((45, 0)), rng.choice((100, 400)))
            found.add(answer if isinstance(answer, int) else 0)
        self.assertEqual(found, {0, 17, 18, 19})

    def says(self, arguments, line, **how):
        """The program writes nothing but this line on standard error."""
        done = subprocess.run([IMPORTER, *arguments], capture_output=True, check=False, cwd=self.folder, **how)
        self.assertEqual((done.returncode, done.stdout, done.stderr.decode()), (0, b"", f"stg_import: {line}\n"))

    def test_arguments(self):
        usage = "usage: stg_import FILE level D percentage"
        for arguments in ((), ("fork.stg",), ("fork.stg", "1", "45"), ("fork.stg", "1", "45", "100", "100")):
            self.says(arguments, usage)
        for word in ("", "x", "-1", "1x", "1#", "1 2", "65536", "0" * 5000):
            for at, name in enumerate(("level", "D", "percentage"), 1):
                arguments = ["fork.stg", "1", "45", "100"]
                arguments[at] = word
                self.says(arguments, f"{name}: expected a number from 0 to 65535")

    def test_files(self):
        self.says(("none.stg", "1", "45", "100"), "none.stg: No such file or directory")
        self.says(("", "1", "45", "100"), ": No such file or directory")
        self.says((".", "1", "45", "100"), ".: Is a directory")
        self.says(("a" * 5000, "1", "45", "100"), "FILE: File name too long")

    def test_names_are_text(self):
        (self.folder / "getriebe-größe.stg").write_bytes(FORK)
        done = subprocess.run(
            [IMPORTER, "getriebe-größe.stg", "1", "45", "100"], capture_output=True, check=False, cwd=self.folder
        )
        self.assertEqual((len(done.stdout), done.stderr), (24, b""))
        (self.folder / os.fsdecode(b"fork-\xff.stg")).write_bytes(FORK)
        self.says((b"fork-\xff.stg", "1", "45", "100"), "FILE: expected a name in UTF-8")

    def test_long_files(self):
        for more, fits in ((0, True), (1, False), (70_000, False)):
            self.file.write_bytes(FORK.ljust(65_536 + more))
            if fits:
                self.assertEqual(len(self.imported(1, 45, 100)), 24)
            else:
                self.says(("fork.stg", "1", "45", "100"), "expected a file of at most 65536 bytes")

    def test_a_record_that_is_not_written(self):
        for where in (">/dev/full", ">&-"):
            command = ["sh", "-c", f'exec "$0" "$@" {where}', IMPORTER, "fork.stg", "1", "45", "100"]
            done = subprocess.run(command, capture_output=True, check=False, cwd=self.folder)
            self.assertEqual(done.stderr, b"stg_import: the record could not be written\n")
        reader, writer = os.pipe()
        os.close(reader)
        with os.fdopen(writer, "wb") as pipe:
            command = [IMPORTER, "fork.stg", "1", "45", "100"]
            done = subprocess.run(command, stdout=pipe, stderr=subprocess.PIPE, check=False, cwd=self.folder)
        self.assertEqual((done.returncode, done.stderr), (0, b"stg_import: the record could not be written\n"))


if __name__ == "__main__":
    unittest.main()
