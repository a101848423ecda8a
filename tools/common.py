"""What the programs of this repository share: how they read, write, start other programs and end. None of them ends in a traceback."""

import argparse
import os
import pathlib
import subprocess
import sys

MAIN = pathlib.Path(__file__).resolve().parent.parent

# Statuses of a program. 0 is success alone.
FAULT = 1  # what was asked about has a fault
UNUSABLE = 2  # bad usage, an input that can't be read, an output that can't be written, a program that is missing or failed
INTERRUPTED = 130
PIPE_CLOSED = 141  # as the shell shows the end of a program whose reader went away

MOST_COUNT = (1 << 32) - 1  # a budget, a seed, or what counts steps or cases
MOST_BYTES = 4 << 20  # more than any module, its text, a names file or a line has


class Trouble(Exception):
    """Ends a program with a sentence on standard error, after the program's name, and a status other than 0."""

    named = True

    def __init__(self, sentence, status=UNUSABLE):
        super().__init__(sentence)
        self.status = status


def started(main):
    """Runs main, which takes the words of the command line and gives a status or None for 0, as the whole of a program."""
    prepare_streams()
    if sys.stdout is None:
        sys.exit(said(f"{program_name()}: standard output is closed", UNUSABLE))
    status = status_of(main)
    written = status_of(lambda _words: sys.stdout.flush())
    for stream in (sys.stdout, sys.stderr):
        let_go(stream)
    sys.exit(status or written)


def let_go(stream):
    """Writes what a stream holds; where that can't be, the interpreter must not try again."""
    try:
        stream.flush()
    except OSError:
        os.dup2(os.open(os.devnull, os.O_WRONLY), stream.fileno())


def prepare_streams():
    """Closed streams are kept from being taken by the next file opened: from standard input nothing can be read then."""
    if sys.stdin is None:
        os.open(os.devnull, os.O_WRONLY)
    if sys.stderr is None:
        sys.stderr = open(os.open(os.devnull, os.O_WRONLY), "w", encoding="utf-8")
    for stream in filter(None, (sys.stdout, sys.stderr)):
        stream.reconfigure(encoding="utf-8", errors="surrogateescape")


def program_name():
    return os.path.basename(sys.argv[0])


def status_of(main):
    """The status that main ends with, its trouble said on standard error."""
    try:
        return main(sys.argv[1:]) or 0
    except SystemExit as end:
        return said(end.code, FAULT) if isinstance(end.code, str) else end.code or 0
    except Trouble as trouble:
        return said(f"{program_name()}: {trouble}" if trouble.named else str(trouble), trouble.status)
    except BrokenPipeError:
        return PIPE_CLOSED
    except OSError as error:
        return said(f"{program_name()}: {error.filename or 'standard output'}: {error.strerror}", UNUSABLE)
    except KeyboardInterrupt:
        return INTERRUPTED
    except Exception as error:
        return said(f"{program_name()}: a fault of the program itself: {type(error).__name__}: {error}", UNUSABLE)


def said(sentence, status):
    """The status, after a sentence on standard error."""
    try:
        print(sentence, file=sys.stderr, flush=True)
    except OSError:
        pass
    return status


class Parser(argparse.ArgumentParser):
    """A parser of a command line, whose help isn't lost where it can't be written."""

    def print_help(self, file=None):
        (file or sys.stdout).write(self.format_help())


def parser_for(what, example=None):
    """A parser whose help says what a program does, with an example."""
    epilog = example and f"example:\n  {example}"
    return Parser(prog=program_name(), description=what, epilog=epilog, formatter_class=argparse.RawDescriptionHelpFormatter)


def whole_number(word, low, high):
    """A word of the command line as a number within low to high."""
    try:
        number = int(word)
    except ValueError:
        raise argparse.ArgumentTypeError(f"`{word[:40]}` is no whole number") from None
    if not low <= number <= high:
        raise argparse.ArgumentTypeError(f"{number} is outside {low:,} to {high:,}")
    return number


def a_count(word):
    return whole_number(word, 0, MOST_COUNT)


def shown(name):
    """A file as messages name it."""
    return "standard input" if name == "-" else name


def read_start(name, most=MOST_BYTES):
    """The first bytes of a file, or all with -1; `-` is standard input."""
    try:
        if name != "-":
            with open(name, "rb") as file:
                return file.read(most)
        if sys.stdin is None:
            raise Trouble("standard input is closed")
        return sys.stdin.buffer.read(most)
    except OSError as error:
        raise Trouble(f"{shown(name)}: {error.strerror}") from None
    except ValueError as error:
        raise Trouble(f"{name!r}: {error}") from None


def read_bytes(name):
    """The bytes of a file that isn't longer than anything these programs read whole."""
    data = read_start(name, MOST_BYTES + 1)
    if len(data) > MOST_BYTES:
        raise Trouble(f"{shown(name)}: longer than {MOST_BYTES:,} bytes")
    return data


def ended(words, data=None, **options):
    """A command run to its end, with what it printed; a command that can't be started is trouble."""
    try:
        return subprocess.run(words, input=data, stdout=subprocess.PIPE, **options)
    except OSError as error:
        raise Trouble(f"{words[0]}: {error.strerror}") from None


def output_of(words, data=None):
    """What a command prints; an end with a status other than 0 is trouble."""
    end = ended(words, data)
    if end.returncode:
        raise Trouble(f"{' '.join(map(str, words))} ended with status {end.returncode}")
    return end.stdout


def proved(program, data):
    """What a proved program prints for an input; it is proved and built first where it has to be."""
    return output_of([MAIN / "tools/proved", program], data)
