"""Tests of sheet.py: the bytes of the cases, both ways round, the two forms of a record, each error and warning with its
line, and the plan with its kept tasks."""

import contextlib
import dataclasses
import io
import itertools
import os
import pathlib
import random
import shutil
import subprocess
import sys
import tempfile
import unittest

import sheet as sheets
import texts

HERE = pathlib.Path(__file__).resolve().parent
EXAMPLES = sorted((HERE.parent / "examples").glob("*.sheet"))

LAWFUL = """\
processors 8
task brake: high
  deadline 45
  nominal work 9 span 4
  overload work 52 span 20
  nodes 3
  node 2 after 0 1
task lamp: low
  deadline 18
  work 66 span 6
  nodes 1
"""


def record(level, figures, masks):
    words = b"".join(figure.to_bytes(4 if level >= 16 else 2, "little") for figure in figures)
    return bytes([level, len(masks)]) + words + b"".join(mask.to_bytes(4, "little") for mask in masks)


def whole(processors, records):
    """The sheet of these records: processors, tasks, the directory, and the records behind it."""
    place, directory = 2 + 4 * len(records), b""
    for part in records:
        directory += place.to_bytes(2, "little") + len(part).to_bytes(2, "little")
        place += len(part)
    return bytes([processors, len(records)]) + directory + b"".join(records)


CASE_14 = (
    bytes([8, 3, 14, 0, 16, 0, 30, 0, 16, 0, 46, 0, 16, 0])
    + record(1, (45, 9, 52, 4, 20), [0])
    + record(1, (54, 11, 80, 4, 42), [0])
    + record(0, (18, 66, 66, 6, 6), [0])
)

# Each level in each form: high wide, high, low wide, low.
MIXED = whole(
    8,
    [
        record(17, (400_000, 290_000, 630_000, 110_000, 182_000), [0, 1]),
        record(1, (24, 12, 48, 4, 12), [0]),
        record(16, (18, 66, 66, 6, 6), [0, 0, 3]),
        record(0, (18, 66, 66, 6, 6), [0]),
    ],
)


def random_figure(rng, most):
    limits = (0, 1, 9999, 10_000, 10_001, 65_535, 65_536, 1_000_000, 1_000_001, most, rng.randrange(most))
    return rng.choice([figure for figure in limits if figure <= most])


def random_bytes(rng):
    """The bytes of a sheet in which every field is anything that fits."""
    records = []
    for _ in range(rng.randrange(0, 20)):
        level = rng.choice((0, 1, 7, 15, 16, 17, 18, 255))
        figures = [random_figure(rng, 0xFFFF_FFFF if level >= 16 else 0xFFFF) for _ in range(5)]
        if rng.random() < 0.3:
            figures = [min(figure, 10_000) for figure in figures]
        if rng.random() < 0.3:
            figures[2], figures[4] = figures[1], figures[3]
        masks = [rng.choice((0, rng.randrange(1 << 32))) for _ in range(rng.choice((0, 1, 2, 32, 33, 255)))]
        records.append(record(level, figures, masks))
    return whole(rng.randrange(256), records)


def counted(task, times):
    """The task with so many ticks for each of its own, in the wide form."""
    figures = {figure: times * getattr(task, figure) for figure in sheets.FIGURES}
    return dataclasses.replace(task, level=task.level | 16, **figures)


def random_loom(rng):
    """Low tasks with shares of 2 to 4, and high ones that take more in the critical state, on few processors; some of them
    with longer counts of ticks."""
    sheet = sheets.Sheet(rng.randrange(3), [])
    for _ in range(rng.randrange(2, 9)):
        if rng.random() < 0.4:
            share, figures = rng.choice(((1, (45, 9, 52, 4, 20)), (2, (24, 12, 48, 4, 12))))
            task = sheets.Task("", 1, [0], *figures)
        else:
            share, span = rng.randrange(2, 5), rng.randrange(1, 9)
            work = span + 12 * share - rng.randrange(12)
            task = sheets.Task("", 0, [0], span + 12, work, work, span, span)
        sheet.tasks.append(counted(task, 5000) if rng.random() < 0.5 else task)
        sheet.processors += share
    return sheet


def with_kept(sheet, entries):
    """Each task's block in the critical state, by S5.6 and S5.4: high tasks as planned, low ones by all sets of them."""
    low = [entry.task for entry in entries if not sheet.tasks[entry.task].high]
    lengths = [0 if entry.task in low else entry.critically for entry in entries]
    takes = [entry.typically for entry in entries]
    sets = [kept for count in range(len(low) + 1) for kept in itertools.combinations(low, count)]
    room = [kept for kept in sets if sum(lengths) + sum(takes[i] for i in kept) <= sheet.processors]
    for task in min(room, key=lambda kept: (-len(kept), sum(takes[i] for i in kept), kept)):
        lengths[task] = takes[task]
    return list(zip(itertools.accumulate([0, *lengths]), lengths))


def edited(old, new):
    assert LAWFUL.count(old) == 1, old
    return LAWFUL.replace(old, new)


def tool(*arguments, data=b""):
    """The tool as a program: exit status, standard output, standard error."""
    done = subprocess.run([sys.executable, HERE / "sheet.py", *arguments], input=data, capture_output=True, check=False)
    return done.returncode, done.stdout, done.stderr.decode()


class Bytes(unittest.TestCase):
    def test_case_14_byte_for_byte(self):
        self.assertEqual(len(CASE_14), 62)
        text = (HERE.parent / "examples" / "case-14.sheet").read_bytes()
        self.assertEqual(sheets.encode(sheets.parse(text)), CASE_14)

    def test_masks(self):
        data = sheets.encode(sheets.parse(LAWFUL.encode()))
        self.assertEqual(data[2:10], bytes([10, 0, 24, 0, 34, 0, 16, 0]))
        self.assertEqual(data[10:34], record(1, (45, 9, 52, 4, 20), [0, 0, 3]))

    def test_examples_round_trip_and_are_lawful(self):
        self.assertGreaterEqual(len(EXAMPLES), 7)
        for path in EXAMPLES:
            with self.subTest(path.name):
                sheet = sheets.parse(path.read_bytes(), path.parent)
                self.assertEqual(sheets.faults(sheet), [])
                data = sheets.encode(sheet)
                self.assertEqual(sheets.encode(sheets.parse(sheets.render(sheets.decode(data)).encode())), data)

    def test_random_sheets_round_trip(self):
        rng = random.Random(1)
        for _ in range(60):
            data = random_bytes(rng)
            sheet = sheets.decode(data)
            self.assertEqual(sheets.encode(sheet), data)
            text = sheets.render(sheet)
            self.assertEqual(sheets.encode(sheets.parse(text.encode())), data)
            self.assertEqual(sheets.render(sheets.parse(text.encode())), text)

    def test_the_text_that_the_tool_describes(self):
        text = sheets.__doc__[sheets.__doc__.index("    processors") : sheets.__doc__.index("A line `graph")]
        sheet = sheets.parse(text.encode())
        self.assertEqual([task.name for task in sheet.tasks], ["brake", "lamp"])
        self.assertEqual(sheets.faults(sheet), [])

    def test_leading_zeros_say_nothing(self):
        text = edited("processors 8", "processors " + "0" * 5000 + "8")
        self.assertEqual(sheets.parse(text.encode()).processors, 8)

    def test_line_order_comments_and_line_ends_are_free(self):
        head, *rest = LAWFUL.split("task lamp: low\n")[0].splitlines()
        turned = "\r\n".join([*rest[:1], "# c", "", *reversed(rest[1:]), head + "  # eight"])
        plain = "\n".join([head, *rest])
        self.assertEqual(*(sheets.encode(sheets.parse(text.encode())) for text in (turned, plain)))


class Forms(unittest.TestCase):
    """The two forms of a record: which one a text gets, and the text as which bytes of each are printed."""

    LINES = {
        "deadline": ("deadline 45", "deadline {}"),
        "work_nominal": ("nominal work 9 span 4", "nominal work {} span 4"),
        "work_overload": ("overload work 52 span 20", "overload work {} span 20"),
        "span_nominal": ("nominal work 9 span 4", "nominal work 9 span {}"),
        "span_overload": ("overload work 52 span 20", "overload work 52 span {}"),
    }

    def first(self, text):
        """The record of the text's first task, whose lines are as the lawful one's."""
        return sheets.encode_task(sheets.parse(text.encode()).tasks[0])

    def with_figure(self, figure, value, level="high"):
        old, new = self.LINES[figure]
        return edited(old, new.format(value)).replace("brake: high", f"brake: {level}")

    def test_each_figure_chooses_the_form(self):
        self.assertEqual(tuple(self.LINES), sheets.FIGURES)
        for place, figure in enumerate(sheets.FIGURES):
            for value in (9999, 10_000, 10_001, 65_535, 65_536, 1_000_000, 1_000_001):
                figures = [45, 9, 52, 4, 20]
                figures[place] = value
                expected = record(1 if value <= 10_000 else 17, figures, [0, 0, 3])
                self.assertEqual(self.first(self.with_figure(figure, value)), expected, (figure, value))

    def test_a_low_task(self):
        for work, level in ((10_000, 0), (10_001, 16)):
            sheet = sheets.parse(edited("work 66 span 6", f"work {work} span 6").encode())
            self.assertEqual(sheets.faults(sheet), [])
            self.assertEqual([task.level for task in sheet.tasks], [1, level])
            self.assertEqual(sheets.encode_task(sheet.tasks[1]), record(level, (18, work, work, 6, 6), [0]))

    def test_the_form_that_is_asked_for(self):
        for words, level in (("high wide", 17), ("high   wide  # so", 17), ("low wide", 16), ("17", 17), ("16", 16)):
            text = edited("brake: high", f"brake: {words}")
            self.assertEqual(self.first(text), record(level, (45, 9, 52, 4, 20), [0, 0, 3]))
        sheet = sheets.parse(edited("brake: high", "brake: high wide").encode())
        self.assertEqual(([task.level for task in sheet.tasks], sheets.faults(sheet)), ([17, 0], []))

    def test_a_level_that_is_a_number_stays(self):
        text = self.with_figure("deadline", 10_001, level=1)
        self.assertEqual(self.first(text), record(1, (10_001, 9, 52, 4, 20), [0, 0, 3]))
        cause = "the deadline is 10001; expected 1 to 10000"
        self.assertEqual(sheets.faults(sheets.parse(text.encode()))[0].cause, cause)

    def test_the_limits_of_lawful_figures(self):
        task = "processors 2\ntask: high\ndeadline {}\nnominal work {} span 1\noverload work {} span 1\nnodes 1\n"
        for most, found in ((10_000, []), (10_001, []), (1_000_000, []), (1_000_001, [4])):
            sheet = sheets.parse(task.format(most - 1, most, most).encode())
            self.assertEqual(sorted({fault.number for fault in sheets.faults(sheet)}), found)

    def test_a_mixed_sheet_byte_for_byte_and_back(self):
        text = sheets.render(sheets.decode(MIXED))
        levels = [line.partition(": ")[2] for line in text.splitlines() if line.startswith("task")]
        self.assertEqual(levels, ["high wide", "high", "low wide", "low"])
        self.assertEqual(sheets.encode(sheets.parse(text.encode())), MIXED)
        self.assertEqual(sheets.faults(sheets.decode(MIXED)), [])
        self.assertEqual(len(MIXED), 2 + 4 * 4 + (22 + 8) + (12 + 4) + (22 + 12) + (12 + 4))

    def test_what_a_record_is_printed_as(self):
        for level, most, words in (
            (0, 10_000, "low"), (1, 10_000, "high"), (0, 10_001, "0"), (1, 65_535, "1"), (7, 10_001, "7"),
            (16, 66, "low wide"), (17, 66, "high wide"), (16, 10_001, "low wide"), (17, 4_294_967_295, "high wide"),
            (18, 66, "18"), (255, 4_294_967_295, "255"),
        ):  # fmt: skip
            data = whole(8, [record(level, (45, 9, most, 4, 20), [0])])
            text = sheets.render(sheets.decode(data))
            self.assertIn(f"task 0: {words}\n", text)
            self.assertEqual(sheets.encode(sheets.parse(text.encode())), data)

    def test_each_place_of_a_wide_record(self):
        task = sheets.decode(MIXED).tasks[0]
        places = {"task": 18, "nodes": 19, ("node", 0): 40, ("node", 1): 44}
        places |= {figure: 20 + 4 * number for number, figure in enumerate(sheets.FIGURES)}
        self.assertEqual(task.places, places)
        data = MIXED[:20] + (1_000_001).to_bytes(4, "little") + MIXED[24:]
        fault = sheets.faults(sheets.decode(data))[0]
        self.assertEqual((fault.number, fault.task, fault.place), (4, 0, 20))
        self.assertEqual(fault.cause, "the deadline is 1000001; expected 1 to 1000000")
        data = MIXED[:50] + (10_001).to_bytes(2, "little") + MIXED[52:]
        fault = sheets.faults(sheets.decode(data))[0]
        self.assertEqual((fault.number, fault.task, fault.place), (4, 1, 50))
        self.assertEqual(fault.cause, "the deadline is 10001; expected 1 to 10000")

    def test_the_example(self):
        sheet = sheets.parse((HERE.parent / "examples" / "dye-line.sheet").read_bytes())
        self.assertEqual([task.level for task in sheet.tasks], [17, 1, 16])
        self.assertEqual(len(sheets.encode(sheet)), 2 + 4 * 3 + (22 + 28) + (12 + 28) + (22 + 16))


class Errors(unittest.TestCase):
    """Each text is the lawful one with one edit; the error names the line of the edit and what was expected."""

    CASES = [
        ("processors 8", "processors 256", 1, "processors: expected a number from 0 to 255, got '256'"),
        ("processors 8", "processors " + "9" * 5000, 1, "expected a number from 0 to 255"),
        ("processors 8", "processors -1", 1, "processors: expected a number, got '-1'"),
        ("processors 8", "processors", 1, "expected 'processors N', got 'processors'"),
        ("processors 8", "processors: 8", 1, "expected 'processors N' with no colon, got 'processors: 8'"),
        ("processors 8", ": 8", 1, "expected one of processors, task, deadline"),
        ("processors 8\n", "", 10, "expected a line 'processors N'"),
        ("processors 8", "deadline 3\nprocessors 8", 1, "before 'deadline'"),
        ("  deadline 45", "  processors 8", 3, "the number of processors is given twice, first on line 1"),
        ("task brake: high", "task brake high", 2, "expected 'task NAME: high|low [wide]'"),
        ("task brake: high", "task brake: medium", 2, "level: expected high or low, got 'medium'"),
        ("task brake: high", "task brake: wide", 2, "level: expected high or low, got 'wide'"),
        ("task brake: high", "task brake: wide high", 2, "expected 'task NAME: high|low [wide]', got 'task brake"),
        ("task brake: high", "task brake: high narrow", 2, "expected 'task NAME: high|low [wide]'"),
        ("task brake: high", "task brake: high wide wide", 2, "expected 'task NAME: high|low [wide]'"),
        ("task brake: high", "task brake: 17 wide", 2, "level: expected high or low, got '17 wide'"),
        ("task brake: high", "task brake: 256", 2, "level: expected a number from 0 to 255"),
        ("task brake: high", "tusk brake: high", 2, "expected one of processors, task, deadline"),
        ("deadline 45", "deadline 4294967296", 3, "deadline: expected a number from 0 to 4294967295, got '4294967296'"),
        ("deadline 45", "deadline 99999999999", 3, "deadline: expected a number from 0 to 4294967295"),
        ("deadline 45", "deadline 4 5", 3, "expected 'deadline N', got 'deadline 4 5'"),
        ("deadline 45", "deadline ４５", 3, "expected a number, got"),
        ("deadline 45", "deadline: 45", 3, "expected 'deadline N' with no colon, got 'deadline: 45'"),
        ("deadline 45", "deadline:45", 3, "expected 'deadline N' with no colon, got 'deadline:45'"),
        ("nominal work 9", "nominal: work 9", 4, "expected 'nominal work N span N' with no colon"),
        ("nominal work 9", "nominal work: 9", 4, "expected 'nominal work N span N', got 'nominal work: 9 span 4'"),
        ("overload work 52", "overload: work 52", 5, "expected 'overload work N span N' with no colon"),
        ("  work 66", "  work: 66", 10, "expected 'work N span N' with no colon"),
        ("nodes 3", "nodes: 3", 6, "expected 'nodes N' with no colon"),
        ("node 2 after", "node: 2 after", 7, "expected 'node N after N ...' with no colon"),
        ("  deadline 45\n", "", 2, "task 'brake': expected a line 'deadline N'"),
        ("  nominal work 9 span 4\n", "", 2, "expected a line 'nominal work N span N'"),
        ("  overload work 52 span 20\n", "", 2, "expected a line 'overload work N span N'"),
        ("  nodes 1\n", "", 8, "task 'lamp': expected a line 'nodes N'"),
        ("  deadline 18", "  deadline 18\n  deadline 19", 10, "the deadline is given twice, first on line 9"),
        ("  nodes 3", "  nodes 3\n  work 9 span 4", 7, "the nominal work is given twice, first on line 4"),
        ("nominal work 9 span 4", "nominal span 4 work 9", 4, "expected 'nominal work N span N'"),
        ("overload work 52 span 20", "overload work 52 span x", 5, "span: expected a number, got 'x'"),
        ("work 66 span 6", "work 4294967296 span 6", 10, "work: expected a number from 0 to 4294967295, got '429"),
        ("brake: high\n  deadline 45", "brake: 1\n  deadline 65536", 3, "expected a number from 0 to 65535, got '655"),
        ("lamp: low\n  deadline 18", "lamp: 15\n  deadline 65536", 9, "expected a number from 0 to 65535, got '655"),
        ("nodes 3", "nodes 256", 6, "nodes: expected a number from 0 to 255"),
        ("nodes 1", "nodes 1\n  nodes 1", 12, "the number of nodes is given twice, first on line 11"),
        ("node 2 after 0 1", "node 3 after 0 1", 7, "node: expected a number below 3, the nodes, got 3"),
        ("node 2 after 0 1", "node 2 after 32", 7, "predecessor: expected a number from 0 to 31, got '32'"),
        ("node 2 after 0 1", "node 2 after 0 0", 7, "predecessor 0 is named twice"),
        ("node 2 after 0 1", "node 2 after", 7, "expected 'node N after N ...'"),
        ("node 2 after 0 1", "node 2 before 0", 7, "expected 'node N after N ...'"),
        ("node 2 after 0 1", "node 2 after 0\n  node 2 after 1", 8, "node 2 is given twice, first on line 7"),
    ]

    def test_each_names_its_line(self):
        for old, new, line, message in self.CASES:
            with self.subTest(new=new[:40], line=line):
                with self.assertRaises(texts.PlaceError) as caught:
                    sheets.encode(sheets.parse(edited(old, new).encode()))
                self.assertEqual(caught.exception.place, line)
                self.assertIn(message, str(caught.exception))

    def test_a_message_is_short_and_printable(self):
        for text in ("processors " + "9" * 5000, "\x08\x03\x0e\x00" * 100):
            with self.assertRaises(texts.PlaceError) as caught:
                sheets.parse(text.encode())
            self.assertTrue(str(caught.exception).isprintable())
            self.assertLess(len(str(caught.exception)), 250)

    def test_not_utf_8(self):
        with self.assertRaises(texts.PlaceError) as caught:
            sheets.parse(b"processors 8\n\xff\n")
        self.assertEqual(caught.exception.place, 2)
        with self.assertRaises(texts.PlaceError) as caught:
            sheets.parse(b"processors 8\n\n# \0\n")
        self.assertEqual((caught.exception.place, str(caught.exception)), (3, "expected text, got a byte 0"))

    def test_too_many_tasks_and_too_long(self):
        task = "task: high\ndeadline 1\nwork 2 span 1\nnodes {}\n"
        with self.assertRaises(texts.PlaceError) as caught:
            sheets.parse(("processors 1\n" + 256 * task.format(1)).encode())
        self.assertEqual((caught.exception.place, str(caught.exception)), (2 + 4 * 255, "expected at most 255 tasks"))
        with self.assertRaises(texts.PlaceError) as caught:
            sheets.encode(sheets.parse(("processors 1\n" + 70 * task.format(255)).encode()))
        self.assertIn("expected at most 65535", str(caught.exception))


class Foreign(unittest.TestCase):
    """Bytes of another format: the error names the offset and, where there is one, the task."""

    def refuse(self, data, offset, message):
        with self.assertRaises(texts.PlaceError) as caught:
            sheets.decode(data)
        self.assertEqual(caught.exception.place, offset)
        self.assertIn(message, str(caught.exception))

    def changed(self, offset, value):
        return CASE_14[:offset] + bytes([value]) + CASE_14[offset + 1 :]

    def test_each_names_its_place(self):
        self.refuse(b"", 0, "expected at least 2 bytes, got 0")
        self.refuse(CASE_14[:13], 13, "expected 3 pairs up to offset 14, got 13 bytes")
        self.refuse(self.changed(2, 15), 2, "task 0: expected a record at offset 14, got 15")
        self.refuse(self.changed(6, 31), 6, "task 1: expected a record at offset 30, got 31")
        self.refuse(CASE_14 + b"x", 62, "task 2: expected the sheet's end at offset 62, got 63")
        self.refuse(CASE_14[:-1], 61, "task 2: expected the sheet's end at offset 62, got 61")
        self.refuse(self.changed(31, 2), 30, "task 1: expected a record of 20 bytes for 2 nodes at level 1, got 16")
        self.refuse(self.changed(30, 17), 30, "task 1: expected a record of 26 bytes for 1 nodes at level 17, got 16")
        short = "task 0: expected a record of 12 or 22 bytes and 4 for each node, got 1"
        self.refuse(bytes([1, 1, 6, 0, 1, 0, 1]), 6, short)
        self.refuse(bytes([1, 0, 0]), 2, "no task: expected the sheet's end at offset 2, got 3")

    def test_any_bytes_print_or_are_refused(self):
        rng = random.Random(2)
        for turn in range(3000):
            data = bytearray((CASE_14, MIXED)[turn % 2])
            for _ in range(rng.randrange(1, 4)):
                data[rng.randrange(len(data))] = rng.randrange(256)
            data = bytes(data[: rng.choice((len(data), rng.randrange(len(data))))])
            with contextlib.suppress(texts.PlaceError):
                self.assertEqual(sheets.encode(sheets.parse(sheets.render(sheets.decode(data)).encode())), data)


class Warnings(unittest.TestCase):
    """What the reader refuses is written with a warning: refusal, task and line."""

    CASES = [
        ("processors 8", "processors 0", 1, 255, 1),
        ("processors 8", "processors 65", 1, 255, 1),
        ("task brake: high", "task brake: 2", 3, 0, 2),
        ("task brake: high", "task brake: 18", 3, 0, 2),
        ("nodes 3\n  node 2 after 0 1", "nodes 0", 3, 0, 6),
        ("nodes 1", "nodes 33", 3, 1, 11),
        ("deadline 45", "deadline 0", 4, 0, 3),
        ("deadline 45", "deadline 1000001", 4, 0, 3),
        ("nominal work 9 span 4", "nominal work 0 span 4", 4, 0, 4),
        ("overload work 52 span 20", "overload work 1000001 span 20", 4, 0, 5),
        ("overload work 52 span 20", "overload work 4294967295 span 20", 4, 0, 5),
        ("work 66 span 6", "work 1000001 span 6", 4, 1, 10),
        ("task lamp: low\n  deadline 18\n  work 66", "task lamp: 0\n  deadline 18\n  work 10001", 4, 1, 10),
        ("nominal work 9 span 4", "nominal work 3 span 4", 4, 0, 4),
        ("overload work 52 span 20", "overload work 52 span 53", 4, 0, 5),
        ("nominal work 9 span 4", "nominal work 53 span 4", 4, 0, 5),
        ("nominal work 9 span 4", "nominal work 40 span 21", 4, 0, 5),
        ("nominal work 9 span 4", "nominal work 37 span 4", 4, 0, 5),
        ("work 66 span 6", "nominal work 66 span 6\n  overload work 67 span 6", 4, 1, 11),
        ("low\n  deadline 18\n  work 66", "16\n  deadline 18\n  overload work 67 span 6\n  nominal work 66", 4, 1, 10),
        ("node 2 after 0 1", "node 2 after 2", 5, 0, 7),
        ("node 2 after 0 1", "node 0 after 31", 5, 0, 7),
        ("deadline 45", "deadline 52", 6, 0, 5),
        ("deadline 18", "deadline 66", 6, 1, 10),
    ]

    def test_each_names_refusal_task_and_line(self):
        self.assertEqual(sheets.faults(sheets.parse(LAWFUL.encode())), [])
        for old, new, number, task, line in self.CASES:
            with self.subTest(new):
                sheet = sheets.parse(edited(old, new).encode())
                first = sheets.faults(sheet)[0]
                self.assertEqual((first.number, first.task, first.place), (number, task, line))
                sheets.encode(sheet)

    def test_each_names_the_figure_and_its_limit(self):
        levels = "0 (low), 1 (high), 16 (low wide), 17 (high wide)"
        for old, new, cause in (
            ("brake: high", "brake: 15", f"the level is 15; expected one of {levels}"),
            ("deadline 45", "deadline 0", "the deadline is 0; expected 1 to 1000000"),
            ("high\n  deadline 45", "1\n  deadline 0", "the deadline is 0; expected 1 to 10000"),
            ("high\n  deadline 45", "17\n  deadline 0", "the deadline is 0; expected 1 to 1000000"),
            ("deadline 45", "deadline 1000001", "the deadline is 1000001; expected 1 to 1000000"),
            ("work 9 span 4", "work 9 span 1000001", "the nominal span is 1000001; expected 1 to 1000000"),
            ("work 52 span 20", "work 1000001 span 20", "the overload work is 1000001; expected 1 to 1000000"),
        ):
            self.assertEqual(sheets.faults(sheets.parse(edited(old, new).encode()))[0].cause, cause)

    def test_growth_at_its_bound_is_lawful(self):
        sheet = sheets.parse(edited("nominal work 9 span 4", "nominal work 36 span 4").encode())
        self.assertEqual(sheets.faults(sheet), [])

    def test_number_of_tasks(self):
        task = "task: high\ndeadline 1\nwork 2 span 1\nnodes 1\n"
        for count, found in ((0, [1]), (1, []), (16, []), (17, [1])):
            sheet = sheets.parse(("processors 1\n" + count * task).encode())
            self.assertEqual([fault.number for fault in sheets.faults(sheet)], found)


class Program(unittest.TestCase):
    def setUp(self):
        folder = tempfile.TemporaryDirectory()
        self.addCleanup(folder.cleanup)
        self.text = pathlib.Path(folder.name, "a.sheet")
        self.out = pathlib.Path(folder.name, "a.bin")

    def test_write_print_and_check(self):
        self.text.write_text(LAWFUL)
        status, data, errors = tool("write", self.text)
        self.assertEqual((status, data, errors), (0, sheets.encode(sheets.parse(LAWFUL.encode())), ""))
        self.assertEqual(tool("write", self.text, "-o", self.out), (0, b"", ""))
        self.assertEqual(self.out.read_bytes(), data)
        status, text, errors = tool("print", self.out)
        self.assertEqual((status, errors), (0, ""))
        self.assertEqual(tool("write", "-", data=text), (0, data, ""))
        status, said, errors = tool("check", self.text)
        self.assertEqual((status, errors), (0, ""))
        checked, rest = said.decode().splitlines()
        self.assertEqual(checked, f"{self.text}: checked for refusals 1 to 6, none found: 2 tasks, 50 bytes")
        self.assertEqual(rest, f"{self.text}: 7 and 8 are the planner's to give: sheet.py plan {self.text}")

    def test_an_error_writes_nothing(self):
        self.text.write_text(edited("deadline 45", "deadline"))
        status, data, errors = tool("write", self.text, "-o", self.out)
        self.assertEqual((status, data, self.out.exists()), (1, b"", False))
        self.assertEqual(errors, f"{self.text}:3: error: expected 'deadline N', got 'deadline'\n")
        self.assertEqual(tool("write", self.text)[:2], (1, b""))

    def test_a_warning_writes_all_the_same(self):
        self.text.write_text(edited("deadline 45", "deadline 52"))
        status, data, errors = tool("write", self.text)
        self.assertEqual((status, len(data)), (0, 50))
        self.assertIn(f"{self.text}:5: warning: task 0, refusal 6: ", errors)
        self.assertEqual(tool("check", self.text)[:2], (1, b""))
        status, text, errors = tool("print", "-", data=data)
        self.assertEqual((status, text[:12]), (0, b"processors 8"))
        self.assertIn("-: offset 16: warning: task 0, refusal 6: ", errors)

    def test_foreign_bytes(self):
        status, text, errors = tool("print", "-", data=CASE_14[:-1])
        self.assertEqual((status, text), (1, b""))
        self.assertEqual(errors, "-: offset 61: error: task 2: expected the sheet's end at offset 62, got 61\n")

    def test_no_such_file(self):
        status, data, errors = tool("write", self.text)
        self.assertEqual((status, data), (1, b""))
        self.assertIn(f"{self.text}: error: No such file", errors)

    def test_no_argument(self):
        with self.assertRaises(SystemExit), contextlib.redirect_stderr(io.StringIO()):
            sheets.main([])


class Plan(unittest.TestCase):
    """What the printer answers, for people."""

    def setUp(self):
        if not sheets.PRINTER.exists():
            self.skipTest("the printer is not built")

    def test_text_and_bytes(self):
        rows = ["{}  0 (1)    0-1 (2)   9", "{}  1-2 (2)  2-7 (6)   7 + 1/2", "{}  3-7 (5)  none      none"]
        text = (HERE.parent / "examples" / "case-14.sheet").read_bytes()
        for data, names in ((text, ("0 A ", "1 B ", "2 E ")), (CASE_14, ("0   ", "1   ", "2   "))):
            lines = ["task  typical  critical  virtual deadline", *(r.format(n) for r, n in zip(rows, names))]
            self.assertEqual(tool("plan", "-", data=data), (0, ("\n".join(lines) + "\n").encode(), ""))

    def test_a_low_task_that_is_kept_and_one_that_is_not(self):
        text = (HERE.parent / "examples" / "shuttle-lamp.sheet").read_bytes()
        for processors, rows in (
            (8, ["0-1 (2)  0-4 (5)   8", "2-3 (2)  5-6 (2)   none", "4-7 (4)  none      none"]),
            (9, ["0-2 (3)  0-2 (3)   6 + 2/3", "3-4 (2)  3-4 (2)   none", "5-8 (4)  5-8 (4)   none"]),
        ):
            data = text.replace(b"processors 8", b"processors %d" % processors)
            status, output, errors = tool("plan", "-", data=data)
            self.assertEqual((status, errors), (0, ""))
            self.assertEqual([line[16:] for line in output.decode().splitlines()[1:]], rows)

    def test_the_wide_form_gets_the_same_plan(self):
        for path in EXAMPLES:
            sheet = sheets.parse(path.read_bytes(), path.parent)
            for sheet.processors in (2, 3, 5, 8, 12):
                wide = sheets.Sheet(sheet.processors, [counted(task, 1) for task in sheet.tasks])
                said = [sheets.printed(sheets.encode(each)) for each in (sheet, wide)]
                self.assertEqual(*said, path.name)

    def shares(self, processors, tasks):
        """The printer's lines without the virtual deadlines."""
        lines = sheets.printed(sheets.encode(sheets.Sheet(processors, tasks))).splitlines()
        return [line.split()[:5] for line in lines]

    def test_longer_counts_get_the_same_shares(self):
        rng = random.Random(7)
        for _ in range(50):
            sheet = random_loom(rng)
            longer = [counted(task, 3) for task in sheet.tasks]
            self.assertEqual(self.shares(sheet.processors, longer), self.shares(sheet.processors, sheet.tasks))

    def test_a_virtual_deadline_of_many_ticks(self):
        text = (HERE.parent / "examples" / "dye-line.sheet").read_bytes()
        for work, virtual in ((290_000, "200000"), (290_001, "200000 + 1/2")):
            data = text.replace(b"nominal work 290000", b"nominal work %d" % work)
            status, output, errors = tool("plan", "-", data=data)
            self.assertEqual((status, errors), (0, ""))
            rows = [f"0-1 (2)  0-2 (3)   {virtual}", "2-4 (3)  3-5 (3)   6 + 2/3", "5-6 (2)  6-7 (2)   none"]
            self.assertEqual([line[16:] for line in output.decode().splitlines()[1:]], rows)

    def test_the_longest_virtual_deadline(self):
        text = "processors 2\ntask: high\ndeadline 999999\nwork 1000000 span 999998\nnodes 1\n"
        self.assertEqual(sheets.printed(sheets.encode(sheets.parse(text.encode()))), "0 0 2 0 2 999999 0\n")

    def test_what_rounding_down_took_away(self):
        text = (HERE.parent / "examples" / "rounding.sheet").read_bytes()
        for work, virtual in ((8, "6"), (9, "6 + 1/2"), (10, "7"), (11, "7 + 1/2")):
            status, output, errors = tool("plan", "-", data=text.replace(b"nominal work 9", b"nominal work %d" % work))
            self.assertEqual((status, errors), (0, ""))
            self.assertEqual(output.decode().splitlines()[1], f"0 A   0-1 (2)  0-1 (2)   {virtual}")

    def nothing_lost(self, task, entry):
        """S4.6: a share, the quotient and the remainder give the nominal work beside the span again."""
        if not task.high:
            self.assertEqual((entry.virtual, entry.remainder), (0, 0))
            return
        quotient = entry.virtual - task.span_nominal
        self.assertLess(entry.remainder, entry.typically)
        self.assertEqual(entry.typically * quotient + entry.remainder, task.work_nominal - task.span_nominal)

    def planned(self, sheet):
        """Whether the sheet is planned; in the critical state it then has the high tasks and the kept low ones."""
        entries, _, _ = sheets.answer_of(sheets.printed(sheets.encode(sheet)), len(sheet.tasks))
        if entries:
            for task, entry in zip(sheet.tasks, entries):
                self.nothing_lost(task, entry)
            blocks = [(entry.critical, entry.critically) for entry in entries]
            self.assertEqual(blocks, with_kept(sheet, entries), sheets.render(sheet))
        return entries is not None

    def test_the_kept_tasks_are_the_first_of_all_sets(self):
        for path in EXAMPLES:
            sheet = sheets.parse(path.read_bytes(), path.parent)
            for sheet.processors in range(1, 17):
                self.planned(sheet)
        rng = random.Random(6)
        self.assertGreaterEqual(sum(self.planned(random_loom(rng)) for _ in range(300)), 150)

    def test_the_folder_it_is_run_from_plays_no_part(self):
        command = [sys.executable, HERE / "sheet.py", "plan", "-"]
        done = subprocess.run(command, input=CASE_14, cwd="/", capture_output=True, check=False)
        self.assertEqual((done.returncode, done.stderr), (0, b""))

    def refuse(self, data, where, number, whose="", warning=None):
        """The refusal with its words; before it, for 1 to 6, a warning that has the line at fault."""
        status, output, errors = tool("plan", "-", data=data)
        *warnings, refusal, remedy = errors.splitlines()
        self.assertEqual((status, output), (1, b""))
        self.assertEqual([line.partition(" warning:")[0] for line in warnings], [warning] if warning else [])
        cause, what_to_do = sheets.REFUSALS[number]
        self.assertEqual(refusal, f"{where}: refusal {number}: {whose}{cause}")
        self.assertEqual(remedy, f"    what to do: {what_to_do}")

    def test_each_refusal_of_the_planner(self):
        brake, lamp = "task 0 brake: ", "task 1 lamp: "
        for number, old, new, where, whose, warning in (
            (1, "processors 8", "processors 65", "-", "", "-:1:"),
            (3, "nodes 1", "nodes 33", "-:8", lamp, "-:11:"),
            (4, "deadline 45", "deadline 0", "-:2", brake, "-:3:"),
            (5, "node 2 after 0 1", "node 2 after 2", "-:2", brake, "-:7:"),
            (6, "deadline 18", "deadline 66", "-:8", lamp, "-:10:"),
            (7, "deadline 18", "deadline 6", "-:8", lamp, None),
            (8, "processors 8", "processors 5", "-", "", None),
        ):
            with self.subTest(number):
                self.refuse(edited(old, new).encode(), where, number, whose, warning)

    def test_the_first_warning_is_the_printer_s_refusal(self):
        rng, found = random.Random(8), set()
        for _ in range(300):
            data = bytearray(MIXED)
            data[rng.randrange(18, len(data))] = rng.choice((0, 1, 15, 16, 17, 18, 255, rng.randrange(256)))
            with contextlib.suppress(texts.PlaceError):
                for first in sheets.faults(sheets.decode(bytes(data)))[:1]:
                    self.assertEqual(sheets.printed(bytes(data)), f"refused {first.number} {first.task}\n", data)
                    found.add(first.number)
        self.assertEqual(found, {3, 4, 5, 6})

    def test_refused_bytes(self):
        self.refuse(CASE_14[:-1], "-: as bytes", 2, "task 2: ")
        self.refuse(bytes([7]) + CASE_14[1:], "-: as bytes", 8)
        self.refuse(bytes([3]) + CASE_14[1:], "-: as bytes", 7, "task 1: ")
        self.refuse(bytes(1), "-: as bytes", 1)
        self.refuse(CASE_14[:16] + bytes(2) + CASE_14[18:], "-: as bytes", 4, "task 0: ", "-: offset 16:")

    def test_the_printer_itself_has_no_status_and_tells_what_it_cannot_do(self):
        """As the README says of it."""
        unwritten = b"plan_printer: the plan could not be written\n"
        for data, where, errors in ((CASE_14[:-1], "", b""), (CASE_14, ">/dev/full", unwritten), (CASE_14, ">&-", unwritten)):
            command = ["sh", "-c", f'exec "$0" {where}', sheets.PRINTER]
            done = subprocess.run(command, input=data, capture_output=True, check=False)
            self.assertEqual((done.returncode, done.stderr), (0, errors), where)
        reader, writer = os.pipe()
        os.close(reader)
        with os.fdopen(writer, "wb") as pipe:
            done = subprocess.run([sheets.PRINTER], input=CASE_14, stdout=pipe, stderr=subprocess.PIPE, check=False)
        self.assertEqual((done.returncode, done.stderr), (0, unwritten), "a pipe that nobody reads")
        name = HERE.parent / "examples" / "case-14.sheet"
        done = subprocess.run([sheets.PRINTER, name], input=CASE_14, capture_output=True, check=False)
        self.assertEqual(done.stdout, b"")
        self.assertEqual(done.stderr, b"plan_printer: no argument is read; the sheet comes on standard input\n")

    def test_more_bytes_than_the_printer_takes(self):
        status, output, errors = tool("plan", "-", data=CASE_14 + bytes(4096))
        self.assertEqual((status, output), (1, b""))
        self.assertIn("-: as bytes: error: the sheet has 4158 bytes; the printer takes 4096", errors)


class Printers(unittest.TestCase):
    """Where there is no printer, or it does not answer as it should, that is said with its place."""

    def setUp(self):
        folder = tempfile.TemporaryDirectory()
        self.addCleanup(folder.cleanup)
        self.root = pathlib.Path(folder.name).resolve()
        (self.root / "tools").mkdir()
        for name in ("console.py", "graph.py", "sheet.py", "texts.py"):
            shutil.copy(HERE / name, self.root / "tools")
        self.printer = self.root / "target" / "bin" / "plan_printer"

    def plan(self, expected):
        command = [sys.executable, self.root / "tools" / "sheet.py", "plan", "-"]
        done = subprocess.run(command, input=CASE_14, capture_output=True, text=False, check=False)
        self.assertEqual((done.returncode, done.stdout), (1, b""))
        self.assertEqual(done.stderr.decode(), f"{self.printer}: error: {expected}\n")

    def test_not_built(self):
        self.plan(f"the printer is not built: run `./build plan_printer` in {self.root}")

    def test_no_program(self):
        self.printer.parent.mkdir(parents=True)
        self.printer.write_text("no program")
        self.plan("Permission denied")
        self.printer.chmod(0o755)
        self.plan("Exec format error")

    def test_a_printer_that_fails(self):
        self.printer.parent.mkdir(parents=True)
        self.printer.write_text("#!/bin/sh\nprintf 'refused 8 255\\n'\nexit 3\n")
        self.printer.chmod(0o755)
        self.plan("it ended with the status 3")

    def test_a_long_answer(self):
        entries, number, task = sheets.answer_of("0 0 2 0 2 999999 0\n1 2 1 2 64 1000000 1\n", 2)
        self.assertEqual(([entry.virtual for entry in entries], number, task), ([999_999, 1_000_000], 0, 255))

    def test_another_answer(self):
        self.printer.parent.mkdir(parents=True)
        six_numbers = "0 0 1 0 2 9\n1 1 2 2 6 7\n2 3 5 8 0 0\n"
        other_tasks = "1 0 1 0 2 9 0\n" * 3
        one_task = "0 0 1 0 2 9 0\n"
        for answer in ("", one_task[:-1], one_task, six_numbers, other_tasks, "refused 9 255\n", "refused\n", "no\n"):
            with self.subTest(answer):
                self.printer.write_text(f"#!/bin/sh\nprintf '%s' '{answer}'\n")
                self.printer.chmod(0o755)
                shown = answer.replace("\n", "?")
                self.plan(f"expected a plan for 3 tasks or a refusal, got '{shown}'")


if __name__ == "__main__":
    unittest.main()
