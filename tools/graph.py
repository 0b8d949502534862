"""Reads a graph in the Standard Task Graph format, as the import does (S14), and names the line of what is wrong in it.

A text is a count and then the entries, numbered from 0: a dummy of time 0, the nodes, as many as the count says, and a
dummy of time 0 again. An entry is its number, its time, how many predecessors it has, and their numbers. The first #
ends the text. A tool for the host; nothing is proved of it.
"""

import re
from dataclasses import dataclass

import console

MOST = 65_535  # the greatest number in a text
NODES = 32


class GraphError(Exception):
    """Why a text becomes no record: the refusal's number, and the line of the text."""

    def __init__(self, number, line, message):
        super().__init__(f"line {line}: {message} (refusal {number})")


@dataclass
class Graph:
    """The nodes of a graph: the time and the mask of predecessors of each."""

    times: list
    masks: list


def number_of(line, word):
    digits = word.lstrip(b"0") or b"0"
    if not re.fullmatch(rb"[0-9]+", word) or len(digits) > 5 or int(digits) > MOST:
        got = console.quoted(word.decode("ascii", "replace"))
        raise GraphError(17, line, f"expected a number from 0 to {MOST}, got {got}")
    return int(digits)


def numerals_of(text):
    """The numbers of a text, each with its line, and then its end."""
    line = 1
    for line, raw in enumerate(text.partition(b"#")[0].split(b"\n"), 1):
        for word in re.findall(rb"[^\t\r ]+", raw):
            yield line, number_of(line, word)
    yield line, None


def taken(numerals, what):
    line, number = next(numerals)
    if number is None:
        raise GraphError(17, line, f"expected {what}, got the end of the text")
    return line, number


def entry_of(numerals, v, last):
    """The time of entry v, and its predecessors with their lines."""
    line, number = taken(numerals, f"entry {v}")
    if number != v:
        raise GraphError(17, line, f"expected entry {v}, got {number}")
    line, time = taken(numerals, f"the time of entry {v}")
    if v in (0, last) and time != 0:
        raise GraphError(17, line, f"entry {v}: expected the time 0 of a dummy, got {time}")
    if v not in (0, last) and time == 0:
        raise GraphError(17, line, f"entry {v}: expected a time of at least 1, got 0")
    _, many = taken(numerals, f"how many predecessors entry {v} has")
    return time, [taken(numerals, f"the predecessors of entry {v}, {many} in all") for _ in range(many)]


def entries_of(text):
    """The line of the count, and the entries; what is not of the format is refusal 17, wherever it stands."""
    numerals = numerals_of(text)
    place, count = taken(numerals, "the number of nodes")
    entries = [entry_of(numerals, v, count + 1) for v in range(count + 2)]
    line, number = next(numerals)
    if number is not None:
        raise GraphError(17, line, f"expected the end of the text behind entry {count + 1}, got {number}")
    return place, entries


def mask_of(predecessors):
    """Entry p is node p - 1. The dummy 0 is none, and a repeat changes nothing."""
    return sum(1 << p - 1 for p in {p for _, p in predecessors} if p)


def graph_of(text):
    """The graph that a text says. The number of nodes, and predecessors not below their entry, are refusal 18."""
    place, entries = entries_of(text)
    count = len(entries) - 2
    if not 1 <= count <= NODES:
        raise GraphError(18, place, f"expected 1 to {NODES} nodes, got {count}")
    for v, (_, predecessors) in enumerate(entries):
        for line, p in predecessors:
            if p >= v:
                raise GraphError(18, line, f"entry {v}: predecessor {p} is not below its entry")
    nodes = entries[1:-1]
    return Graph([time for time, _ in nodes], [mask_of(predecessors) for _, predecessors in nodes])


def longest_chain(masks, times):
    """The greatest sum of times along nodes that wait for each other."""
    chains = []
    for time, mask in zip(times, masks):
        chains.append(time + max((c for j, c in enumerate(chains) if mask >> j & 1), default=0))
    return max(chains)


def budget(graph, percentage):
    """Work and span, where a node takes its time by the percentage, rounded up."""
    times = [-(-time * percentage // 100) for time in graph.times]
    return sum(times), longest_chain(graph.masks, times)
