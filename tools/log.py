#!/usr/bin/env python3
"""Writes a log of calls from a readable text, and prints a log back as such a text.

    log.py write TEXT [-o LOG]     text to bytes
    log.py print LOG [-o TEXT]     bytes to text

A log has the calls of Release and Tick that a controller made, in their order, refused ones too (S12.1): Replay and
examples/side_by_side.c run them once more. A tool for the host. It is no part of the image, and nothing is proved of it.

The text has a line for each call, and # begins a comment:

    release 2                # a job of task 2 begins
    tick - 0,2 -             # a report for each task: - for none, or the nodes that ended with this tick
    tick                     # a tick with no report

An error is what can't be written, such as a node above 31. It names the line, nothing is written and the exit status is
1. A log whose bytes end early, with a call that is cut short or with a byte that begins no call, is printed up to there;
an error names the offset, and the exit status is 1.
"""

import sys

import console
from console import quoted
from texts import PlaceError, failure, lines_of, members, number_at, number_of, set_of

RELEASE, TICK = 0, 1  # the first byte of a call
MOST_TASK, MOST_REPORTS = 0xFFFF_FFFF, 0xFF
GRAMMAR = {"release": "release TASK", "tick": "tick REPORT ..."}
NONE = "-"  # a report of no node


# Text to bytes.


def release_of(line, words):
    if len(words) != 1:
        raise PlaceError(line, f"expected '{GRAMMAR['release']}', got {quoted(' '.join(['release', *words]))}")
    return bytes([RELEASE]) + number_of(line, "task", words[0], MOST_TASK).to_bytes(4, "little")


def report_of(line, word):
    return 0 if word == NONE else set_of(line, "node", word.split(","))


def tick_of(line, words):
    if len(words) > MOST_REPORTS:
        raise PlaceError(line, f"expected at most {MOST_REPORTS} reports, got {len(words)}")
    return bytes([TICK, len(words)]) + b"".join(report_of(line, word).to_bytes(4, "little") for word in words)


CALLS = {"release": release_of, "tick": tick_of}


def call_of(line, text):
    key, *words = text.split()
    if key not in CALLS:
        expected = " or ".join(f"'{grammar}'" for grammar in GRAMMAR.values())
        raise PlaceError(line, f"expected {expected}, got {quoted(text)}")
    return CALLS[key](line, words)


def encode(data):
    """The bytes of the log that a text says."""
    return b"".join(call_of(line, text) for line, text in lines_of(data))


# Bytes to text.


def size_of(data, at):
    """How many bytes the call at an offset has; one that is cut short, or no call, is an error."""
    kind, left = data[at], len(data) - at
    if kind not in (RELEASE, TICK):
        what = f"expected a byte {RELEASE}, a release, or {TICK}, a tick, got {kind}"
        raise PlaceError(at, f"{what}; from there on nothing is printed, {left} of {len(data)} bytes")
    size = 5 if kind == RELEASE else 2 + 4 * number_at(data, at + 1, 1)
    if left < size:
        name = "release" if kind == RELEASE else "tick"
        least = "at least " if kind == TICK and left == 1 else ""  # the number of reports is cut off too
        raise PlaceError(at, f"the last call, a {name}, is cut short: expected {least}{size} bytes, got {left}")
    return size


def call_text(call):
    if call[0] == RELEASE:
        return f"release {number_at(call, 1, 4)}\n"
    reports = [number_at(call, at, 4) for at in range(2, len(call), 4)]
    return " ".join(["tick", *(",".join(members(report)) or NONE for report in reports)]) + "\n"


def decode(data):
    """The text of a log up to its end, and the error of one that ends early, or None."""
    lines, at = [], 0
    while at < len(data):
        try:
            size = size_of(data, at)
        except PlaceError as error:
            return "".join(lines), error
        lines.append(call_text(data[at : at + size]))
        at += size
    return "".join(lines), None


# The commands.


def run_write(options):
    try:
        data = encode(console.read(options.file))
    except PlaceError as error:
        raise failure(options.file, error, True) from None
    console.write_bytes(options, "a log", data)
    return 0


def run_print(options):
    text, error = decode(console.read(options.file))
    console.write(options.output, text.encode())
    if error:
        raise failure(options.file, error, False)
    return 0


COMMANDS = {
    "write": (run_write, "write a log's bytes from a text"),
    "print": (run_print, "print a log's bytes as a text"),
}


def main(arguments=None):
    return console.command("log.py", __doc__, COMMANDS, arguments)


if __name__ == "__main__":
    sys.exit(console.run(main))
