"""Runs the program, and reads the texts of `convert` (docs/FORMAT.md)."""
import os
import shutil
import subprocess
from typing import NamedTuple, Optional

from . import names

HEADER = "calendrica 2 depth 40"
NOT_BUILT = 70  # the status of the script ./calendrica where there is no program


class ProgramError(Exception):
    """The program isn't there, or ended with a status above 1; `status` is to be handed on."""

    def __init__(self, status, sentence):
        super().__init__(sentence)
        self.status = status


class FormError(Exception):
    """A text that isn't one of `convert`: the number of its line, and what is wrong."""


class Fact(NamedTuple):
    """A fact of a text: its number, kind and place, the day for which it is asked, and its value."""

    number: int
    kind: str
    place: str
    day: int
    value: int


class Line(NamedTuple):
    """A line of a text.

    `asked` are FROM, DATE and TO, or None where the text hasn't them; `result` is its result, or None; `words` are what stands in
    place of a result; `facts` the numbers that it lists.
    """

    number: int
    asked: Optional[tuple]
    result: Optional[str]
    words: tuple
    facts: tuple


class Text(NamedTuple):
    """A text: its facts by their numbers, and its lines."""

    facts: dict
    lines: list


def find_program(given=None):
    """The command of the program: the one that is given, that of the checkout, or one on the PATH."""
    if given:
        return [given]
    if (names.TOP / "crates/calendrica/out/calendrica").exists():
        return [str(names.TOP / "calendrica")]
    found = shutil.which("calendrica")
    if not found:
        raise ProgramError(NOT_BUILT, "there is no program yet: ./calendrica build makes it, or --program names one")
    return [found]


def convert(lines, program=None):
    """The text of `convert` for lines FROM DATE TO."""
    asked = "".join(f"{line}\n" for line in lines).encode()
    try:
        run = subprocess.run([*find_program(program), "convert", "--jobs", str(min(4, os.cpu_count() or 1))], input=asked,
                             stdout=subprocess.PIPE, check=False)
    except OSError as error:
        raise ProgramError(NOT_BUILT, f"{program} can't be run: {error.strerror}") from error
    if run.returncode not in (0, 1):
        raise ProgramError(run.returncode if run.returncode > 0 else 128 - run.returncode, f"convert ended with status {run.returncode}")
    return run.stdout.decode("utf-8", "replace")


def number(word, at):
    """A whole number of a text."""
    try:
        return int(word)
    except ValueError:
        raise FormError(f"line {at} of the text: {word} is no number") from None


def read_line(words, facts, at):
    """A line of a text by its words behind `line`."""
    count, rest = number(words[0], at), tuple(words[1:])
    if rest[0] in ("undecided", "void") or (rest[0] == "refused" and len(rest) == 2):
        return Line(count, None, None, rest, ())
    if rest[4:5] == ("facts",):
        result, shown, listed = rest[3], (), rest[5:]
    elif rest[3:4] == ("refused",) and rest[6:7] == ("facts",):
        result, shown, listed = None, rest[3:6], rest[7:]
    else:
        raise FormError(f"line {at} of the text is in no form of a line")
    numbers = tuple(number(word, at) for word in listed)
    for fact in numbers:
        if fact not in facts:
            raise FormError(f"line {at} of the text lists fact {fact}, which doesn't stand before it")
    return Line(count, rest[:3], result, shown, numbers)


def read(text):
    """Reads a text of `convert`. FormError where it isn't one; `check` says by which rule, and whether what it says is true."""
    rows = text.splitlines()
    if not rows or rows[0] != HEADER:
        raise FormError(f"the text doesn't begin with `{HEADER}`" + (
            ": `calendrica upgrade` makes such a one of it" if rows and rows[0].startswith("calendrica 1 ") else ""))
    facts, lines = {}, []
    for at, row in enumerate(rows[1:], 2):
        words = row.split(" ")
        if words[0] == "fact" and len(words) == 6:
            fact = Fact(number(words[1], at), words[2], words[3], number(words[4], at), number(words[5], at))
            facts[fact.number] = fact
        elif words[0] == "line" and len(words) >= 3:
            lines.append(read_line(words[1:], facts, at))
        elif words[0] == "end" and at == len(rows) and words == ["end", "lines", str(len(lines)), "facts", str(len(facts))]:
            return Text(facts, lines)
        else:
            raise FormError(f"line {at} of the text is in no form")
    raise FormError("the text has no end line: it isn't whole")
