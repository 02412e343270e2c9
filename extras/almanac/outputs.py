"""What the programs that write a file of a year have in common: their options, and an output that is whole or not there."""
import os
import pathlib
import sys
import tempfile

from . import ranges, texts, years


def add_options(parser):
    """YEAR, --calendars, --output and --program."""
    parser.add_argument("year", metavar="YEAR", nargs="?", help="{} to {}".format(*ranges.of("almanac")))
    parser.add_argument("--calendars", metavar="LIST", help="some of " + ",".join(years.CALENDARS))
    parser.add_argument("--output", metavar="FILE", help="the file to write; standard output if it isn't given")
    parser.add_argument("--program", metavar="PROGRAM", help="a built program; that of the checkout, or one on the PATH, if it isn't given")


def asked_year(given, place):
    """The text of the year that the options name, and what it says."""
    year = years.checked_year(given.year)
    return years.ask(year, years.chosen_calendars(year, given.calendars), place, given.program)


def write_whole(text, path):
    """Writes a text to a file, whole or not at all, or to standard output where there is no path."""
    if path is None:
        sys.stdout.buffer.write(text.encode())
        sys.stdout.buffer.flush()
        return
    target = pathlib.Path(path)
    if target.exists() and not target.is_file():  # a device or a pipe, in whose place no file can be put
        target.write_bytes(text.encode())
        return
    made, temporary = tempfile.mkstemp(dir=target.parent, prefix=f".{target.name}.")
    try:
        with os.fdopen(made, "wb") as file:
            file.write(text.encode())
        mask = os.umask(0)
        os.umask(mask)
        os.chmod(temporary, 0o666 & ~mask)
        os.replace(temporary, target)
    except BaseException:
        os.unlink(temporary)
        raise


def write_out(name, make, path):
    """Writes what `make` gives to a file or to standard output, and gives the status.

    It is 1 where a line has no result, 2 where a request can't be met, 4 where writing failed, or the program's own.
    """
    try:
        write_whole(make(), path)
    except years.RequestError as error:
        print(f"{name}: {error}", file=sys.stderr)
        return 2
    except texts.ProgramError as error:
        print(f"{name}: {error}", file=sys.stderr)
        return error.status
    except BrokenPipeError:
        os.dup2(os.open(os.devnull, os.O_WRONLY), sys.stdout.fileno())
        return 4
    except texts.FormError as error:
        print(f"{name}: {error}", file=sys.stderr)
        return 1
    except OSError as error:
        print(f"{name}: {error}", file=sys.stderr)
        return 4
    return 0
