#!/usr/bin/env python3
"""Shows, tick by tick, how one job of a task runs on the processors it was given.

    simulate.py TEXT [--task I] --shares A [B] --lengths N ...

TEXT is a sheet as text (see sheet.py), A and B are the task's typical and critical share as the plan gives them (a low
task that is not kept has A alone), and there is one length in ticks for each node. The job is released at tick 0. On
every tick the lowest-numbered ready nodes run, as many as the share allows. A high job that is alive at its virtual
deadline turns the state critical. There a job with the share B goes on, and one without it is dropped. The tick with
which a high job ends in the critical state is marked `returned`: the state is typical again, if no other high job is
alive then.

A task in the wide form has too many ticks for a line each. There, ticks in a row in which the same nodes run are one
line, and nodes end, or the state turns, with the last of them.

    --virtual-deadline V   another virtual deadline than the plan's, nominal span + (work - span) / A rounded down
    --switch-after T       another task turns the state critical with tick T of this job (0: before its release)
    --switch-each          one line for every such T that this job leaves open
    --return-after T       with --switch-after, for a low task: the last high job ends with tick T of this job, and the
                           state is typical again; a task whose job was dropped, or refused, may be released then

An illustration for the host. It is no part of the image, and nothing is proved of it.
"""

import argparse
import re
import sys
from dataclasses import dataclass

import console
import graph as graphs
import sheet as sheets
import texts


@dataclass
class Stretch:
    """Ticks in a row in which the same nodes run. With the last of them nodes end, or the state turns."""

    first: int
    last: int
    critical: bool  # the state that stood while they ran
    running: list
    ended: list
    turned: str  # "switched" where the state turns critical, "returned" where it turns typical, else empty


@dataclass
class Run:
    stretches: list
    dropped: bool
    critically: bool  # whether the state was critical at the release
    back: int  # the tick with which the state turned typical again, or None

    @property
    def last(self):
        """The last tick, 0 where there is none."""
        return self.stretches[-1].last if self.stretches else 0

    @property
    def switch(self):
        """The tick with which the state turned critical, or None."""
        return next((stretch.last for stretch in self.stretches if stretch.turned == "switched"), None)


def longest(form):
    """The most ticks of a job; the length of a node is at most a figure."""
    return sheets.MAX_NODES * form.limit


def virtual_deadline(task, typical):
    return task.span_nominal + (task.work_nominal - task.span_nominal) // typical if task.high else 0


def longest_chain(task, lengths):
    return graphs.longest_chain(task.predecessors, lengths)


def running_nodes(task, ended, share):
    ready = [v for v, mask in enumerate(task.predecessors) if v not in ended and not mask & ~mask_of(ended)]
    return ready[:share]


def mask_of(nodes):
    return sum(1 << node for node in nodes)


def ticks_of(left, running, age, turns):
    """How long these nodes run: until one of them ends, or an age is reached at which the state may turn."""
    return min([left[node] for node in running] + [turn - age for turn in turns if turn > age])


def simulate(task, shares, lengths, virtual, switch_after=None, return_after=None):
    """Runs the job to its end; a job without a critical share is dropped where the state turns critical."""
    left, ended, stretches, age, back = list(lengths), set(), [], 0, None
    critical = critically = switch_after == 0
    while len(ended) < len(left):
        if critical and len(shares) == 1:
            return Run(stretches, True, critically, return_after)
        running = running_nodes(task, ended, shares[critical])
        turns = (return_after or 0,) if critical else (virtual if task.high else 0, switch_after or 0)
        ticks = ticks_of(left, running, age, turns)
        for node in running:
            left[node] -= ticks
        now = [node for node in running if left[node] == 0]
        ended.update(now)
        first, age, alive = age + 1, age + ticks, len(ended) < len(left)
        switched = not critical and (task.high and alive and age >= virtual or age == switch_after)
        returned = critical and (task.high and not alive or age == return_after)
        turned = "switched" if switched else "returned" if returned else ""
        stretches.append(Stretch(first, age, critical, running, now, turned))
        critical = switched or critical and not returned
        back = age if returned else back
    return Run(stretches, False, critically, back)


def verdict(task, run):
    if run.dropped:
        return "not released, refusal 12" if run.critically else f"dropped after tick {run.last}"
    late = "" if run.last <= task.deadline else ", too late"
    return f"ended after tick {run.last}, deadline {task.deadline}{late}"


def met(task, run):
    """How the job met the critical state. A low job that was alive at the switch and went on is a kept one."""
    if run.critically:
        return "critical from the start"
    if run.switch is None:
        return "no switch"
    kept = not task.high and run.switch < run.last
    return f"kept over the switch after tick {run.switch}" if kept else f"switched after tick {run.switch}"


def came_back(task, run):
    """How the state turned typical again. A task whose job was dropped may be released then, if its deadline has passed."""
    if run.back is None:
        return ""
    due = run.back if run.critically else max(run.back, task.deadline)
    again = f", may be released after tick {due}" if run.dropped else ""
    return f", returned after tick {run.back}{again}"


def budget(task, lengths):
    work, span = sum(lengths), longest_chain(task, lengths)
    kept = "no budget"
    if work <= task.work_overload and span <= task.span_overload:
        kept = "the overload budget"
    if work <= task.work_nominal and span <= task.span_nominal:
        kept = "the nominal budget"
    return f"work {work}, longest chain {span}: keeps {kept}"


def row_of(stretch, first, last):
    """The row of these ticks of a stretch."""
    whole = last == stretch.last
    state, running = "critical" if stretch.critical else "typical", " ".join(map(str, stretch.running))
    ended = " ".join(map(str, stretch.ended)) if whole else ""
    ticks = str(last) if first == last else f"{first}-{last}"
    return ticks, state, running, ended, stretch.turned if whole else ""


def rows_of(task, stretch):
    """A row for each tick; for all of them where the task is in the wide form."""
    if task.form == sheets.WIDE:
        return [row_of(stretch, stretch.first, stretch.last)]
    return [row_of(stretch, tick, tick) for tick in range(stretch.first, stretch.last + 1)]


def show_run(task, run):
    rows = [("tick", "state", "running", "ended", "")]
    for stretch in run.stretches:
        rows += rows_of(task, stretch)
    widths = [max(len(row[column]) for row in rows) for column in range(5)]
    lines = ["  ".join(cell.ljust(width) for cell, width in zip(row, widths)).rstrip() for row in rows]
    closing = f"{verdict(task, run)}, {met(task, run)}{came_back(task, run)}\n"
    console.put("\n".join([*(lines if run.stretches else ()), closing]))


def show_each(task, shares, lengths, virtual):
    own = simulate(task, shares, lengths, virtual)
    last = own.switch if own.switch is not None else own.last
    for after in range(last):
        run = simulate(task, shares, lengths, virtual, after)
        console.put(f"switch after tick {after}: {verdict(task, run)}\n")
    switch = "no switch" if own.switch is None else f"its own switch after tick {own.switch}"
    console.put(f"{switch}: {verdict(task, own)}\n")


def number(least, most):
    """A reader of numbers in a range, for the parser."""

    def read(word):
        digits = word.lstrip("0") or "0"
        if not re.fullmatch("[0-9]+", word) or len(digits) > 9 or not least <= int(digits) <= most:
            raise argparse.ArgumentTypeError(f"expected a number from {least} to {most}, got {sheets.quoted(word)}")
        return int(digits)

    return read


def chosen_task(parser, options):
    """The task, with shares and lengths that suit it. What is wrong with these is the parser's error."""
    sheet, _ = sheets.read_text(options.file, console.read(options.file))
    for fault in sheets.faults(sheet):
        where = texts.located(options.file, fault.place, True)
        raise console.Failure(f"{where}: error: refusal {fault.number}: {fault.cause}")
    if not 0 <= options.task < len(sheet.tasks):
        parser.error(f"--task: expected a number below {len(sheet.tasks)}, the tasks, got {options.task}")
    task = sheet.tasks[options.task]
    count = len(options.shares)
    if task.high and count != 2:
        parser.error(f"--shares: expected 2 for a high task, got {count}")
    if not task.high and count > 2:
        parser.error(f"--shares: expected 1 for a low task, 2 for one that is kept, got {count}")
    if not task.high and len(set(options.shares)) > 1:
        parser.error("--shares: expected the same share twice for a low task that is kept")
    if len(options.lengths) != len(task.predecessors):
        nodes = len(task.predecessors)
        parser.error(f"--lengths: expected {nodes}, one for each node, got {len(options.lengths)}")
    check_ticks(parser, options, task.form)
    if options.return_after is not None:
        check_return(parser, options, task)
    return task


def check_ticks(parser, options, form):
    """Numbers of ticks keep to the limit of the task's form."""
    for option, least, most, given in (
        ("--lengths", 1, form.limit, options.lengths),
        ("--virtual-deadline", 1, form.limit, [options.virtual_deadline or 1]),
        ("--switch-after", 0, longest(form), [options.switch_after or 0]),
        ("--return-after", 1, longest(form), [options.return_after or 1]),
    ):
        if max(given) > most:
            parser.error(f"{option}: expected a number from {least} to {most}, got {max(given)}")


def check_return(parser, options, task):
    """A low job is told when the last high one ends; the end of a high job is its own."""
    if task.high:
        parser.error("--return-after: expected a low task: a high job that is alive holds the return back")
    if options.switch_after is None or options.switch_each:
        parser.error("--return-after: expected --switch-after beside it, and no --switch-each")
    if options.return_after <= options.switch_after:
        switch, given = options.switch_after, options.return_after
        parser.error(f"--return-after: expected a number above {switch}, the tick of the switch, got {given}")


def main(arguments=None):
    parser = argparse.ArgumentParser(description=__doc__, formatter_class=argparse.RawDescriptionHelpFormatter)
    share, length = number(1, sheets.MAX_PROCESSORS), number(1, sheets.WIDE.limit)
    parser.add_argument("file", metavar="TEXT")
    parser.add_argument("--task", type=number(0, sheets.BYTE), default=0, metavar="I")
    parser.add_argument("--shares", type=share, nargs="+", required=True, metavar="N")
    parser.add_argument("--lengths", type=length, nargs="+", required=True, metavar="N")
    parser.add_argument("--virtual-deadline", type=length, metavar="V")
    parser.add_argument("--switch-after", type=number(0, longest(sheets.WIDE)), metavar="T")
    parser.add_argument("--switch-each", action="store_true")
    parser.add_argument("--return-after", type=number(1, longest(sheets.WIDE)), metavar="T")
    options = parser.parse_args(arguments)
    task = chosen_task(parser, options)
    virtual = options.virtual_deadline
    if virtual is None:
        virtual = virtual_deadline(task, options.shares[0])
    console.put(budget(task, options.lengths) + "\n")
    if options.switch_each:
        show_each(task, options.shares, options.lengths, virtual)
    else:
        turns = (virtual, options.switch_after, options.return_after)
        show_run(task, simulate(task, options.shares, options.lengths, *turns))
    return 0


if __name__ == "__main__":
    sys.exit(console.run(main))
