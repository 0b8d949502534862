"""Commands, files and standard streams for the tools. Where a file fails, the tool ends with a line that names it."""

import argparse
import os
import signal
import sys

MOST = 1 << 24  # bytes of one input; the text of any sheet that can be written has fewer
OUTPUT = "standard output"


class Failure(Exception):
    """What ends a tool with exit status 1: a line for the user, or none."""


def shown(text, most=200):
    """A name or a piece of an input for a message: short, and safe to show."""
    safe = "".join(c if c.isprintable() else "?" for c in text[:most])
    return safe if len(text) <= most else f"{safe}..."


def quoted(text):
    return f"'{shown(text, 60)}'"


def named(path):
    return shown(path) or "''"


def cause_of(error):
    return error.strerror if isinstance(error, OSError) and error.strerror else str(error)


def failed(place, error):
    return Failure(f"{place}: error: {cause_of(error)}")


def all_of(source):
    """The bytes of an open file, unless they are too many."""
    data = source.read(MOST + 1)
    if len(data) > MOST:
        raise ValueError(f"expected at most {MOST} bytes")
    return data


def contents(path):
    """The bytes of a file. Where that fails, the caller has the error."""
    with open(path, "rb") as source:
        return all_of(source)


def read(path):
    """The bytes of a file, or of standard input where the path is -."""
    if path == "-" and sys.stdin is None:
        raise Failure("-: error: standard input is closed")
    try:
        return all_of(sys.stdin.buffer) if path == "-" else contents(path)
    except (OSError, ValueError) as error:
        raise failed(named(path), error) from None


def write(path, data):
    """Bytes to a file, or to standard output where the path is None."""
    if path is None:
        to_output(data)
        return
    try:
        with open(path, "wb") as target:
            target.write(data)
    except (OSError, ValueError) as error:
        raise failed(named(path), error) from None


def write_bytes(options, what, data):
    """Bytes to the file of -o, or to standard output; not to a terminal, which would take them for a text."""
    if options.output is None and sys.stdout is not None and sys.stdout.isatty():
        raise Failure(f"{named(options.file)}: {what} is bytes, not text: give -o FILE, or a pipe")
    write(options.output, data)


def put(text):
    """A text to standard output."""
    to_output(text.encode(sys.stdout.encoding if sys.stdout else "utf-8", "backslashreplace"))


def to_output(data):
    """All bytes to the descriptor itself: an unbuffered sys.stdout drops what one write leaves over."""
    if sys.stdout is None:
        raise Failure(f"{OUTPUT}: error: it is closed")
    left = memoryview(data)
    try:
        while left:
            left = left[os.write(sys.stdout.fileno(), left) :]
    except BrokenPipeError:
        raise Failure from None  # its reader has what it wants
    except OSError as error:
        raise failed(OUTPUT, error) from None


def say(line):
    """A line to standard error; where that fails there is no one to tell."""
    if sys.stderr is None:
        return
    try:
        print(line, file=sys.stderr, flush=True)
    except OSError:
        silence(sys.stderr)


def silence(stream):
    """Drops what a stream has kept back, so that nothing fails once more at the program's end."""
    nowhere = os.open(os.devnull, os.O_WRONLY)
    os.dup2(nowhere, stream.fileno())
    os.close(nowhere)


def command(tool, text, commands, arguments):
    """Runs the command that the arguments name, on its file; `commands` has a function and a line of help for each."""
    parser = argparse.ArgumentParser(
        description=text,
        formatter_class=argparse.RawDescriptionHelpFormatter,
        usage=f"{tool} COMMAND FILE [-o FILE]",
    )
    parsers = parser.add_subparsers(dest="command", required=True, metavar="COMMAND", prog=tool)
    for name, (_, what) in commands.items():
        chosen = parsers.add_parser(name, help=what)
        chosen.add_argument("file", help="the file to read; - for standard input")
        if name in ("write", "print"):
            chosen.add_argument("-o", dest="output", metavar="FILE", help="where to write, if not to standard output")
    options = parser.parse_args(arguments)
    return commands[options.command][0](options)


def run(main):
    """Runs a tool: its exit status, whatever befalls its streams. Ctrl-C ends it as it ends a program in C."""
    if signal.getsignal(signal.SIGINT) is signal.default_int_handler:
        signal.signal(signal.SIGINT, signal.SIG_DFL)
    try:
        status = main()
    except SystemExit as end:
        status = end.code
    except Failure as failure:
        if str(failure):
            say(failure)
        status = 1
    return status if flushed() else 1


def flushed():
    """Whether all is out that was written to sys.stdout (the parser's help)."""
    try:
        if sys.stdout is not None:
            sys.stdout.flush()
    except OSError as error:
        silence(sys.stdout)
        if not isinstance(error, BrokenPipeError):
            say(failed(OUTPUT, error))
        return False
    return True
