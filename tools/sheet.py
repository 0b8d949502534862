#!/usr/bin/env python3
"""Writes a sheet of tasks from a readable text, and prints a sheet back as such a text.

    sheet.py write TEXT [-o SHEET]     text to bytes
    sheet.py print SHEET [-o TEXT]     bytes to text
    sheet.py check TEXT                only says which of refusals 1 to 6 the sheet would meet
    sheet.py plan FILE                 plans a text or a sheet's bytes and shows the plan, or the refusal in words

A tool for the host. It is no part of the image, and nothing is proved of it: the planner reads the bytes itself and
takes nothing on this tool's word. `plan` hands the bytes to the proved printer and shows its answer; the printer has to
be built, by `./build plan_printer`.

The text, where # begins a comment and the lines of a task stand in any order:

    processors 8
    task brake: high                 # a name is for people only; tasks are numbered from 0
      deadline 45
      nominal work 9 span 4
      overload work 52 span 20
      nodes 3
      node 2 after 0 1               # a node without such a line has no predecessors
    task lamp: low
      deadline 18
      work 66 span 6                 # the same figures in both cases
      nodes 1

A line `graph FILE percentage N` stands for all lines of a task on work, span and nodes: these are what the import makes
of a graph in the Standard Task Graph format. Overload times are the graph's by the percentage, rounded up; left out, it
is 100, which a low task needs. FILE has no blanks, and begins in the text's own folder. What the import refuses (17 to
19) is an error, which names the graph's line too.

A record has one of two forms: a narrow one for figures up to 10,000, and a wide one for figures up to 1,000,000. A task
has the wide form where a figure of it needs it, and in any case where its line asks for it, as `task brake: high wide`.
A sheet may have records of both. The import keeps to the narrow form, so a graph's task can't be wide. A level may also
be a number, the record's first byte as it stands: 0 low, 1 high, 16 low wide, 17 high wide.

An error is what can't be written, such as a number that does not fit its bytes; it names the line, nothing is written
and the exit status is 1. What can be written but breaks a rule of the sheet (refusals 1 and 3 to 6) is written, with a
warning that gives the refusal's number; so a refused sheet can be tried too. Refusals 7 and 8 are the planner's to
give: `plan` shows them.
"""

import contextlib
import pathlib
import re
import subprocess
import sys
from dataclasses import dataclass, field

import console
import graph as graphs
from console import quoted
from texts import PlaceError, failure, lines_of, located, members, number_at, number_of, set_of

ROOT = pathlib.Path(__file__).resolve().parent.parent
PRINTER = ROOT / "target" / "bin" / "plan_printer"
PRINTER_INPUT = 4096  # bytes that the printer takes (S6.4)
PATIENCE = 60  # seconds for the printer, which takes far less

BYTE, WORD = 0xFF, 0xFFFF
MAX_PROCESSORS, MAX_TASKS, MAX_NODES = 64, 16, 32
MIN_PERCENTAGE, MAX_PERCENTAGE = 100, 400
FIGURES = ("deadline", "work_nominal", "work_overload", "span_nominal", "span_overload")  # in the record's order
WIDENED = 16  # what the wide form adds to a level
LEVELS = {"low": 0, "high": 1, "low wide": WIDENED, "high wide": WIDENED + 1}


@dataclass(frozen=True)
class Form:
    """How a record holds its figures (S2.6): in how many bytes each, and up to which limit."""

    size: int
    limit: int

    @property
    def fixed(self):
        """Bytes of a record before its masks."""
        return 2 + self.size * len(FIGURES)

    @property
    def most(self):
        """The greatest number that fits a figure's bytes."""
        return (1 << 8 * self.size) - 1


NARROW, WIDE = Form(2, 10_000), Form(4, 1_000_000)


@dataclass
class Task:
    name: str
    level: int
    predecessors: list = field(default_factory=list)  # one mask for each node
    deadline: int = 0
    work_nominal: int = 0
    work_overload: int = 0
    span_nominal: int = 0
    span_overload: int = 0
    places: dict = field(default_factory=dict)  # where each part was read: a line of a text, an offset of a sheet
    graph: tuple = ()  # the file and the percentage of a graph line
    in_words: bool = False  # the level is given in words, and the form is left to the figures

    @property
    def high(self):
        return self.level in (LEVELS["high"], LEVELS["high wide"])

    @property
    def low(self):
        return self.level in (LEVELS["low"], LEVELS["low wide"])

    @property
    def form(self):
        return WIDE if self.level >= WIDENED else NARROW

    @property
    def limit(self):
        """The greatest lawful figure: the form's, and the wide one's where it is left to the figures; a graph is narrow."""
        return WIDE.limit if self.in_words and not self.graph else self.form.limit

    @property
    def fits_narrow(self):
        """Whether no figure exceeds the narrow form's limit."""
        return all(getattr(self, figure) <= NARROW.limit for figure in FIGURES)


@dataclass
class Sheet:
    processors: int
    tasks: list
    places: dict = field(default_factory=dict)


@dataclass
class Fault:
    """A rule of the sheet that is broken: the refusal's number and task, the place, and the cause."""

    number: int
    task: int
    place: int
    cause: str


# Text to sheet.

GRAMMAR = {
    "processors": "processors N",
    "task": "task NAME: high|low [wide]",
    "deadline": "deadline N",
    "nominal": "nominal work N span N",
    "overload": "overload work N span N",
    "work": "work N span N",
    "nodes": "nodes N",
    "node": "node N after N ...",
    "graph": "graph FILE [percentage N]",
}
BY_GRAPH = ("nominal", "overload", "work", "nodes", "node")  # the lines that a graph line stands for


def shaped(line, words):
    """The words that stand where the line's grammar has N; all others must be as in it."""
    grammar = GRAMMAR[words[0]]
    expected = grammar.split()
    if len(words) != len(expected) or any(e not in ("N", w) for e, w in zip(expected, words)):
        raise PlaceError(line, f"expected '{grammar}', got {quoted(' '.join(words))}")
    return [w for e, w in zip(expected, words) if e == "N"]


def claim(places, line, key, what):
    """Notes that this part stands on this line; a part is said once."""
    if key in places:
        raise PlaceError(line, f"{what} is given twice, first on line {places[key]}")
    places[key] = line


def task_line(line, text):
    found = re.fullmatch(r"task\b([^:]*):\s*(\S+(?:\s+wide)?)", text)
    if not found:
        raise PlaceError(line, f"expected '{GRAMMAR['task']}', got {quoted(text)}")
    name, level = found.group(1).strip(), " ".join(found.group(2).split())
    if level in LEVELS:
        return Task(name, LEVELS[level], in_words=True)
    if not level.isdigit():
        raise PlaceError(line, f"level: expected high or low, got {quoted(level)}")
    return Task(name, number_of(line, "level", level, BYTE))


def figure_of(task, line, what, word):
    """A figure that fits its bytes; where the level is in words, those of the wide form."""
    return number_of(line, what, word, WIDE.most if task.in_words else task.form.most)


def figures_line(task, line, words):
    """`nominal work N span N`, `overload work N span N`, or `work N span N` for both."""
    for what, word in zip(("work", "span"), shaped(line, words)):
        value = figure_of(task, line, what, word)
        for case in ("nominal", "overload") if words[0] == "work" else (words[0],):
            claim(task.places, line, f"{what}_{case}", f"the {case} {what}")
            setattr(task, f"{what}_{case}", value)


def node_line(task, nodes, line, words):
    """`node N after N ...`: the predecessors are kept as a mask until the number of nodes is known."""
    if len(words) < 4 or words[2] != "after":
        raise PlaceError(line, f"expected '{GRAMMAR['node']}', got {quoted(' '.join(words))}")
    node = number_of(line, "node", words[1], BYTE)
    claim(task.places, line, ("node", node), f"node {node}")
    nodes[node] = set_of(line, "predecessor", words[3:])


def graph_line(task, line, words):
    """`graph FILE percentage N`, or `graph FILE` for 100: the file is read when the whole task is known."""
    claim(task.places, line, "graph", "the graph")
    if len(words) == 2:
        words = [*words, "percentage", str(MIN_PERCENTAGE)]
    if len(words) != 4 or words[2] != "percentage":
        raise PlaceError(line, f"expected '{GRAMMAR['graph']}', got {quoted(' '.join(words))}")
    task.graph = words[1], number_of(line, "percentage", words[3], WORD)


def apart(task, line, key):
    """A graph line and the lines that it stands for do not go together."""
    others = BY_GRAPH if key == "graph" else ("graph",) if key in BY_GRAPH else ()
    for other in others:
        if ("line", other) in task.places:
            raise PlaceError(line, f"'{key}' can't stand beside '{other}', on line {task.places['line', other]}")
    task.places.setdefault(("line", key), line)


def part_line(task, nodes, line, words):
    key = words[0]
    apart(task, line, key)
    if key == "deadline":
        claim(task.places, line, key, "the deadline")
        task.deadline = figure_of(task, line, key, *shaped(line, words))
    elif key == "nodes":
        claim(task.places, line, key, "the number of nodes")
        task.predecessors = [0] * number_of(line, key, *shaped(line, words), BYTE)
    elif key == "node":
        node_line(task, nodes, line, words)
    elif key == "graph":
        graph_line(task, line, words)
    else:
        figures_line(task, line, words)


def read_graph(task, folder):
    """The graph that a task's line names. What is wrong in it is named by its own line too."""
    line, file = task.places["graph"], task.graph[0]
    try:
        return graphs.graph_of(console.contents(folder / file))
    except (OSError, ValueError) as error:
        raise PlaceError(line, f"{console.named(file)}: {console.cause_of(error)}") from None
    except graphs.GraphError as error:
        raise PlaceError(line, f"{console.named(file)}: {error}") from None


def check_terms(task):
    """The level and the percentage that the import takes (S14.6). It has no wide form."""
    if task.level not in (LEVELS["low"], LEVELS["high"]):
        what = f"level: expected high or low for a graph, got {level_text(task)} (refusal 17)"
        raise PlaceError(task.places["task"], what)
    most, expected = MAX_PERCENTAGE, f"{MIN_PERCENTAGE} to {MAX_PERCENTAGE}"
    if task.level == LEVELS["low"]:
        most, expected = MIN_PERCENTAGE, f"{MIN_PERCENTAGE} for a low task"
    if not MIN_PERCENTAGE <= task.graph[1] <= most:
        what = f"percentage: expected {expected}, got {task.graph[1]} (refusal 17)"
        raise PlaceError(task.places["graph"], what)


def take_graph(task, folder):
    """Nodes, work and span as the import gives them (S14.7): its refusals, in its order, are errors."""
    check_terms(task)
    graph = read_graph(task, folder)
    task.predecessors = graph.masks
    task.work_nominal, task.span_nominal = graphs.budget(graph, MIN_PERCENTAGE)
    task.work_overload, task.span_overload = graphs.budget(graph, task.graph[1])
    for part in ("nodes", *FIGURES):
        task.places.setdefault(part, task.places["graph"])
    for figure, cause in figure_causes(task):
        whose = "" if figure == "deadline" else f"{console.named(task.graph[0])}: "
        raise PlaceError(task.places[figure], f"{whose}{cause} for a graph (refusal 19)")


def choose_form(task):
    """The wide form where a figure exceeds the narrow one's limit. A level that is a number stays."""
    if task.in_words and not task.fits_narrow:
        task.level |= WIDENED


def finish(task, nodes, folder):
    """Every part is there, and every node line names a node of the task."""
    parts = {"deadline": "deadline"}
    if "graph" not in task.places:
        parts |= {"work_nominal": "nominal", "work_overload": "overload", "nodes": "nodes"}
    for part, key in parts.items():
        if part not in task.places:
            raise PlaceError(task.places["task"], f"task {quoted(task.name)}: expected a line '{GRAMMAR[key]}'")
    if "graph" in task.places:
        take_graph(task, folder)
    choose_form(task)
    count = len(task.predecessors)
    for node, mask in nodes.items():
        if node >= count:
            raise PlaceError(task.places["node", node], f"node: expected a number below {count}, the nodes, got {node}")
        task.predecessors[node] = mask


def parse(data, folder=pathlib.Path()):
    """The sheet that a text says. Its graphs are files of the folder."""
    sheet, nodes, end = Sheet(0, []), [], 1
    for line, text in lines_of(data):
        end, words = line, text.split()
        key = re.match(r"[^\s:]*", text).group()
        if key not in GRAMMAR:
            raise PlaceError(line, f"expected one of {', '.join(GRAMMAR)} at the line's start, got {quoted(words[0])}")
        if key != "task" and key != words[0]:
            raise PlaceError(line, f"expected '{GRAMMAR[key]}' with no colon, got {quoted(text)}")
        if key == "processors":
            claim(sheet.places, line, key, "the number of processors")
            sheet.processors = number_of(line, key, *shaped(line, words), BYTE)
        elif key == "task":
            task = task_line(line, text)
            task.places["task"] = line
            sheet.tasks.append(task)
            nodes.append({})
            if len(sheet.tasks) > BYTE:
                raise PlaceError(line, f"expected at most {BYTE} tasks")
        elif not sheet.tasks:
            raise PlaceError(line, f"expected '{GRAMMAR['task']}' before '{key}'")
        else:
            part_line(sheet.tasks[-1], nodes[-1], line, words)
    if "processors" not in sheet.places:
        raise PlaceError(end, f"expected a line '{GRAMMAR['processors']}'")
    sheet.places["tasks"] = end
    for task, masks in zip(sheet.tasks, nodes):
        finish(task, masks, folder)
    return sheet


# Sheet to bytes.


def encode_task(task):
    record = bytes([task.level, len(task.predecessors)])
    for figure in FIGURES:
        record += getattr(task, figure).to_bytes(task.form.size, "little")
    for mask in task.predecessors:
        record += mask.to_bytes(4, "little")
    return record


def encode(sheet):
    """The sheet's bytes: processors, number of tasks, a pair (offset, length) for each record, the records."""
    directory, records, start = b"", b"", 2 + 4 * len(sheet.tasks)
    for index, task in enumerate(sheet.tasks):
        record = encode_task(task)
        offset = start + len(records)
        if offset > WORD:
            raise PlaceError(task.places["task"], f"task {index} begins at byte {offset}; expected at most {WORD}")
        directory += offset.to_bytes(2, "little") + len(record).to_bytes(2, "little")
        records += record
    return bytes([sheet.processors, len(sheet.tasks)]) + directory + records


# Bytes to sheet.


def decode_task(data, index, offset, length):
    if length < 2:
        fixed = f"{NARROW.fixed} or {WIDE.fixed}"
        raise PlaceError(offset, f"task {index}: expected a record of {fixed} bytes and 4 for each node, got {length}")
    task, count = Task(str(index), data[offset]), data[offset + 1]
    form = task.form
    whole = form.fixed + 4 * count
    if length != whole:
        what = f"expected a record of {whole} bytes for {count} nodes at level {task.level}, got {length}"
        raise PlaceError(offset, f"task {index}: {what}")
    task.places = {"task": offset, "nodes": offset + 1}
    for place, figure in enumerate(FIGURES):
        task.places[figure] = offset + 2 + form.size * place
        setattr(task, figure, number_at(data, task.places[figure], form.size))
    for node in range(count):
        place = offset + form.fixed + 4 * node
        task.predecessors.append(number_at(data, place, 4))
        task.places["node", node] = place
    return task


def decode(data):
    """The sheet that bytes hold. Bytes of another format are an error, named by offset and task."""
    if len(data) < 2:
        raise PlaceError(len(data), f"expected at least 2 bytes, got {len(data)}")
    count = data[1]
    place = 2 + 4 * count
    if len(data) < place:
        raise PlaceError(len(data), f"expected {count} pairs up to offset {place}, got {len(data)} bytes")
    pairs = []
    for index in range(count):
        at = 2 + 4 * index
        offset, length = number_at(data, at, 2), number_at(data, at + 2, 2)
        if offset != place:
            raise PlaceError(at, f"task {index}: expected a record at offset {place}, got {offset}")
        pairs.append((offset, length))
        place += length
    if place != len(data):
        where = f"task {count - 1}" if count else "no task"
        raise PlaceError(min(place, len(data)), f"{where}: expected the sheet's end at offset {place}, got {len(data)}")
    sheet = Sheet(data[0], [], {"processors": 0, "tasks": 1})
    for index, (offset, length) in enumerate(pairs):
        sheet.tasks.append(decode_task(data, index, offset, length))
    return sheet


# Sheet to text.


def level_text(task):
    """The level in words; as a number where there are none for it, or where they would ask for another form."""
    words = {level: text for text, level in LEVELS.items()}
    if task.form == NARROW and not task.fits_narrow:
        return str(task.level)
    return words.get(task.level, str(task.level))


def render_task(index, task):
    lines = [f"task {index}: {level_text(task)}", f"  deadline {task.deadline}"]
    nominal = f"work {task.work_nominal} span {task.span_nominal}"
    overload = f"work {task.work_overload} span {task.span_overload}"
    lines += [f"  {nominal}"] if nominal == overload else [f"  nominal {nominal}", f"  overload {overload}"]
    lines.append(f"  nodes {len(task.predecessors)}")
    for node, mask in enumerate(task.predecessors):
        if mask:
            lines.append(f"  node {node} after {' '.join(members(mask))}")
    return "\n".join(lines) + "\n"


def render(sheet):
    parts = [f"processors {sheet.processors}\n"]
    parts += [render_task(index, task) for index, task in enumerate(sheet.tasks)]
    return "\n".join(parts)


# What the reader would refuse.


def figure_causes(task):
    """The broken rules among the task's figures, each with a figure that it is about."""
    for figure in FIGURES:
        value = getattr(task, figure)
        if not 1 <= value <= task.limit:
            what = " ".join(reversed(figure.split("_")))
            yield figure, f"the {what} is {value}; expected 1 to {task.limit}"
    work, span = task.work_nominal, task.span_nominal
    more_work, more_span = task.work_overload - work, task.span_overload - span
    if span > work:
        yield "span_nominal", f"the nominal span {span} exceeds the nominal work {work}"
    if task.span_overload > task.work_overload:
        yield "span_overload", f"the overload span {task.span_overload} exceeds the overload work {task.work_overload}"
    if more_work < 0:
        yield "work_overload", f"the nominal work {work} exceeds the overload work {task.work_overload}"
    if more_span < 0:
        yield "span_overload", f"the nominal span {span} exceeds the overload span {task.span_overload}"
    if 0 <= more_work < more_span:
        yield "work_overload", f"the overload adds {more_work} to the work and more, {more_span}, to the span"
    if task.low and (more_work or more_span):
        yield "work_overload", "a low task has the same work and span in both cases"


def task_faults(index, task):
    count = len(task.predecessors)
    if task.level not in LEVELS.values():
        levels = ", ".join(f"{level} ({text})" for text, level in LEVELS.items())
        yield Fault(3, index, task.places["task"], f"the level is {task.level}; expected one of {levels}")
    if not 1 <= count <= MAX_NODES:
        yield Fault(3, index, task.places["nodes"], f"the task has {count} nodes; expected 1 to {MAX_NODES}")
    for part, cause in figure_causes(task):
        yield Fault(4, index, task.places[part], cause)
    for node, mask in enumerate(task.predecessors):
        if mask >> node:
            cause = f"node {mask.bit_length() - 1} can't precede node {node}; expected lower numbers"
            yield Fault(5, index, task.places["node", node], cause)
    if task.work_overload <= task.deadline:
        cause = f"the overload work {task.work_overload} does not exceed the deadline {task.deadline}"
        yield Fault(6, index, task.places["work_overload"], cause)


def faults(sheet):
    """All that the reader would refuse, in its order: its answer is the first."""
    found = []
    if not 1 <= sheet.processors <= MAX_PROCESSORS:
        cause = f"there are {sheet.processors} processors; expected 1 to {MAX_PROCESSORS}"
        found.append(Fault(1, 255, sheet.places["processors"], cause))
    if not 1 <= len(sheet.tasks) <= MAX_TASKS:
        cause = f"there are {len(sheet.tasks)} tasks; expected 1 to {MAX_TASKS}"
        found.append(Fault(1, 255, sheet.places["tasks"], cause))
    for index, task in enumerate(sheet.tasks):
        found += task_faults(index, task)
    return found


# The plan.


@dataclass
class Entry:
    """A line of the printer's plan: a task, its first processor and how many, in both states, its virtual deadline.

    In the critical state a low task that is kept has as many as in the typical one, any other low task has none. The
    virtual deadline is rounded down, by the remainder over the typical processors."""

    task: int
    typical: int
    typically: int
    critical: int
    critically: int
    virtual: int
    remainder: int


# What a refusal of the planner means and what to do; the README's table has more.
REFUSALS = {
    1: (
        "the number of processors or of tasks is out of range, or the sheet is cut short",
        "give 1 to 64 processors and 1 to 16 tasks",
    ),
    2: (
        "its record is not where it should be, or the sheet does not end with the last record",
        "make the bytes anew with sheet.py write",
    ),
    3: (
        "its level, its number of nodes or the length of its record is wrong",
        "give a level, high or low, and 1 to 32 nodes",
    ),
    4: (
        "one of its figures is out of range, or they do not suit each other",
        "mend its deadline, work or span; the warning says which",
    ),
    5: (
        "a node comes after itself or after a node with a higher number",
        "number the nodes so that whatever comes before has the lower number",
    ),
    6: (
        "its overload work does not exceed its deadline: one processor would do for it",
        "keep it out of the sheet, or make it part of another task",
    ),
    7: (
        "it has no share, even with all processors to itself",
        "give it a longer deadline, shorten its longest chain, or take more processors",
    ),
    8: (
        "each task has a share, but no choice of them fits together",
        "take more processors, take out a low task, or give a task a longer deadline",
    ),
}


def of_bytes(data):
    """Whether an input is a sheet's bytes. They hold a byte 0 (the first record's offset has one), and no text does."""
    return b"\0" in data and not data.startswith((b"\xff\xfe", b"\xfe\xff"))


def printed(data):
    """What the printer says of a sheet's bytes."""
    where = f"{console.named(str(PRINTER))}: error"
    try:
        done = subprocess.run([PRINTER], input=data, stdout=subprocess.PIPE, timeout=PATIENCE, check=False)
    except FileNotFoundError:
        build = f"run `./build plan_printer` in {console.named(str(ROOT))}"
        raise console.Failure(f"{where}: the printer is not built: {build}") from None
    except OSError as error:
        raise console.Failure(f"{where}: {error.strerror}") from None
    except subprocess.TimeoutExpired:
        raise console.Failure(f"{where}: no answer in {PATIENCE} seconds") from None
    if done.returncode:
        raise console.Failure(f"{where}: it ended with the status {done.returncode}")
    return done.stdout.decode("ascii", "replace")


def answer_of(text, tasks):
    """The plan's entries, or a refusal's number and task, as the printer writes them (S6.1, S6.2)."""
    refused = re.fullmatch(r"refused ([1-8]) (\d{1,3})\n", text)
    if refused:
        return None, int(refused.group(1)), int(refused.group(2))
    rows = re.fullmatch(r"((\d{1,7} ){6}\d{1,7}\n)+", text)
    entries = [Entry(*map(int, line.split())) for line in text.splitlines()] if rows else []
    if not entries or [entry.task for entry in entries] != list(range(tasks)):
        what = f"expected a plan for {tasks} tasks or a refusal, got {quoted(text)}"
        raise console.Failure(f"{console.named(str(PRINTER))}: error: {what}")
    return entries, 0, 255


def processors(first, count):
    if not count:
        return "none"
    return f"{first} (1)" if count == 1 else f"{first}-{first + count - 1} ({count})"


def virtual_deadline(entry):
    """In whole ticks, and behind them what rounding down took away; a low task has none."""
    if not entry.virtual:
        return "none"
    return f"{entry.virtual} + {entry.remainder}/{entry.typically}" if entry.remainder else str(entry.virtual)


def task_name(names, index):
    """A task's number, and its name where the sheet's text gives one."""
    name = names[index] if index < len(names) else ""
    return f"{index} {console.shown(name, 40)}".rstrip()


def plan_text(entries, names):
    """The plan for people, a line for each task."""
    rows = [("task", "typical", "critical", "virtual deadline")]
    for entry in entries:
        typical = processors(entry.typical, entry.typically)
        critical = processors(entry.critical, entry.critically)
        rows.append((task_name(names, entry.task), typical, critical, virtual_deadline(entry)))
    widths = [max(len(row[column]) for row in rows) for column in range(4)]
    lines = ["  ".join(cell.ljust(width) for cell, width in zip(row, widths)).rstrip() for row in rows]
    return "\n".join(lines) + "\n"


def refusal_text(number, task, names):
    cause, remedy = REFUSALS[number]
    whose = "" if task == 255 else f"task {task_name(names, task)}: "
    return f"refusal {number}: {whose}{cause}\n    what to do: {remedy}"


# The commands.


def warn(path, found, of_text):
    for fault in found:
        task = "" if fault.task == 255 else f"task {fault.task}, "
        where = located(path, fault.place, of_text)
        console.say(f"{where}: warning: {task}refusal {fault.number}: {fault.cause}")


def read_text(path, data):
    """The sheet that a text says, and its bytes."""
    try:
        sheet = parse(data, pathlib.Path(path).parent)
        return sheet, encode(sheet)
    except PlaceError as error:
        raise failure(path, error, True) from None


def read_bytes(path, data):
    try:
        return decode(data)
    except PlaceError as error:
        raise failure(path, error, False) from None


def run_write(options):
    sheet, data = read_text(options.file, console.read(options.file))
    warn(options.file, faults(sheet), True)
    console.write_bytes(options, "a sheet", data)
    return 0


def run_print(options):
    sheet = read_bytes(options.file, console.read(options.file))
    warn(options.file, faults(sheet), False)
    console.write(options.output, render(sheet).encode())
    return 0


def run_check(options):
    sheet, data = read_text(options.file, console.read(options.file))
    found = faults(sheet)
    warn(options.file, found, True)
    if found:
        return 1
    path, count = console.named(options.file), len(sheet.tasks)
    tasks = "1 task" if count == 1 else f"{count} tasks"
    console.put(f"{path}: checked for refusals 1 to 6, none found: {tasks}, {len(data)} bytes\n")
    console.put(f"{path}: 7 and 8 are the planner's to give: sheet.py plan {path}\n")
    return 0


def run_plan(options):
    """The planner's answer comes from the printer alone; a text gives the names and the lines."""
    data, tasks = console.read(options.file), []
    if of_bytes(data):
        where, count = f"{console.named(options.file)}: as bytes", data[1] if len(data) > 1 else 0
        with contextlib.suppress(PlaceError):
            warn(options.file, faults(decode(data)), False)
    else:
        where = console.named(options.file)
        sheet, data = read_text(options.file, data)
        tasks, count = sheet.tasks, len(sheet.tasks)
        warn(options.file, faults(sheet), True)
    if len(data) > PRINTER_INPUT:
        what = f"the sheet has {len(data)} bytes; the printer takes {PRINTER_INPUT}, and none with more can be planned"
        raise console.Failure(f"{where}: error: {what}")
    names = [task.name for task in tasks]
    entries, number, task = answer_of(printed(data), count)
    if entries is None:
        if task < len(tasks):
            where = located(options.file, tasks[task].places["task"], True)
        raise console.Failure(f"{where}: {refusal_text(number, task, names)}")
    console.put(plan_text(entries, names))
    return 0


COMMANDS = {
    "write": (run_write, "write a sheet's bytes from a text"),
    "print": (run_print, "print a sheet's bytes as a text"),
    "check": (run_check, "only say which of refusals 1 to 6 the sheet would meet"),
    "plan": (run_plan, "plan a text or a sheet's bytes and show the plan"),
}


def main(arguments=None):
    return console.command("sheet.py", __doc__, COMMANDS, arguments)


if __name__ == "__main__":
    sys.exit(console.run(main))
