"""What the tools read: lines of a text without comments, numbers in texts and in bytes, and the place of what is wrong."""

import re

import console
from console import quoted

BITS = 32  # a set of nodes is a number of as many bits (S1.2)


class PlaceError(Exception):
    """What can't be written or printed. `place` is a line of a text or an offset of bytes."""

    def __init__(self, place, message):
        super().__init__(message)
        self.place = place


def lines_of(data):
    """The numbered lines of a text, without comments and empty lines."""
    for line, raw in enumerate(data.split(b"\n"), 1):
        try:
            text = raw.decode("utf-8-sig" if line == 1 else "utf-8")
        except UnicodeDecodeError:
            raise PlaceError(line, "expected text in UTF-8") from None
        if "\0" in text:
            raise PlaceError(line, "expected text, got a byte 0")
        text = text.partition("#")[0].strip()
        if text:
            yield line, text


def number_of(line, what, word, most):
    if not re.fullmatch("[0-9]+", word):
        raise PlaceError(line, f"{what}: expected a number, got {quoted(word)}")
    digits = word.lstrip("0") or "0"
    if len(digits) > 10 or int(digits) > most:
        raise PlaceError(line, f"{what}: expected a number from 0 to {most}, got {quoted(word)}")
    return int(digits)


def set_of(line, what, words):
    """The set of the nodes that words name, each once."""
    nodes = 0
    for word in words:
        bit = 1 << number_of(line, what, word, BITS - 1)
        if nodes & bit:
            raise PlaceError(line, f"{what} {word} is named twice")
        nodes |= bit
    return nodes


def members(nodes):
    """The numbers of the nodes of a set, rising, as words."""
    return [str(node) for node in range(BITS) if nodes >> node & 1]


def number_at(data, offset, size):
    return int.from_bytes(data[offset : offset + size], "little")


def located(path, place, of_text):
    return f"{console.named(path)}:{place}" if of_text else f"{console.named(path)}: offset {place}"


def failure(path, error, of_text):
    """What ends the tool after an error: it names the file and the place."""
    return console.Failure(f"{located(path, error.place, of_text)}: error: {error}")
