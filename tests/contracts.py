"""The contracts of the crates, as they stand in crates/*/src: read here once, for two scripts. tests/print-proved prints them call
by call, and tests/check-proved compares with them what docs/PROVED.md names."""
import re
import sys
from pathlib import Path

TOP = Path(__file__).resolve().parent.parent
CRATES = sorted(folder.name for folder in (TOP / "crates").iterdir() if (folder / "src").is_dir())
# Strings, characters and comments are passed; a line of a docstring is a token, as each word and each sign is.
TOKEN = re.compile(r"""
    (?P<doc> ///[^\n]* ) | //[^\n]* | /\*.*?\*/
  | b?" (?: \\. | [^"\\] )* "
  | (?<![\w']) b?' (?: \\(?: x.. | u\{\w+\} | . ) | [^'\\\n] ) '
  | (?P<token> \w+ | [^\s\w] )
""", re.X | re.S)
OPEN, CLOSE = ("(", "[", "{"), (")", "]", "}")


class Call:
    """A function: the modules in which it stands, its owner (a type or a trait, or none), the trait of which it is an
    implementation (or none), its name, its clauses, each a name (or none) and a text, and the first sentence of its docstring."""

    def __init__(self, crate, modules, owner, trait, name):
        self.crate, self.modules, self.owner, self.trait, self.name = crate, modules, owner, trait, name
        self.requires, self.ensures, self.says, self.public = [], [], "", False

    def path(self):
        return "::".join(part for part in (*self.modules, self.owner, self.name) if part)

    def clauses(self):
        return self.requires + self.ensures


class Reader:
    """The items of one file: its calls, the modules that it declares (public or not), the names that it gives on."""

    def __init__(self, crate, file):
        self.crate, self.file, self.text = crate, file, file.read_text(encoding="utf-8")
        found = (m for m in TOKEN.finditer(self.text) if m["doc"] or m["token"])
        self.tokens = [(m["doc"] or m["token"], m.start(), m.end()) for m in found]
        self.at, self.calls, self.declared, self.given = 0, [], {}, set()
        inner = file.relative_to(TOP / "crates" / crate / "src").with_suffix("").parts
        self.modules = () if inner in (("lib",), ("main",)) else inner
        self.items("", "", False)
        if self.word():
            self.fail("a bracket is closed that isn't open")

    def word(self):
        return self.tokens[self.at][0] if self.at < len(self.tokens) else ""

    def fail(self, what):
        place = self.tokens[min(self.at, len(self.tokens) - 1)][1]
        sys.exit(f"{self.file.relative_to(TOP)}:{self.text.count(chr(10), 0, place) + 1}: {what}")

    def bracket(self):
        """What stands between a bracket and its end; the reader stands behind it."""
        first, depth = self.at, 0
        while self.word():
            depth += (self.word() in OPEN) - (self.word() in CLOSE)
            self.at += 1
            if depth == 0:
                return self.text[self.tokens[first][2]:self.tokens[self.at - 1][1]]
        self.fail("a bracket isn't closed")

    def until(self, *ends):
        """The words up to the first of some signs that stands in no bracket."""
        words = []
        while self.word() not in ends:
            if not self.word():
                self.fail("an item has no end")
            words.append(self.word())
            if self.word() in OPEN:
                self.bracket()
            else:
                self.at += 1
        return words

    def items(self, owner, trait, shown):
        docs = []
        while self.word() and self.word() != "}":
            if self.word().startswith("///"):
                docs.append(self.word()[3:].strip())
                self.at += 1
            elif self.word() == "#":
                self.until("[")
                self.bracket()
            else:
                self.item(owner, trait, shown, docs)
                docs = []

    def item(self, owner, trait, shown, docs):
        shown = shown or self.word() == "pub" and self.tokens[self.at + 1][0] != "("
        if self.word() == "pub":
            self.at += 1
            if self.word() == "(":
                self.bracket()
        if self.word() == "const" and self.tokens[self.at + 1][0] == "fn":
            self.at += 1
        if self.word() == "extern":
            self.until("fn")
        kind, begin = self.word(), self.at
        if kind == "fn":
            self.function(owner, trait, shown, docs)
        elif kind in ("impl", "trait"):
            self.at += 1
            words = self.until("{")
            self.at += 1
            self.items(*owner_of(kind, words))
            self.at += 1
        elif kind in ("mod", "struct", "enum", "macro_rules"):
            self.until(";", "{")
            if kind == "mod":
                self.declared[self.tokens[begin + 1][0]] = shown
            self.bracket() if self.word() == "{" else self.until_past(";")
        else:
            self.until_past(";")
            if kind == "use" and shown:
                self.given |= set(word for word, _, _ in self.tokens[begin:self.at])

    def until_past(self, end):
        self.until(end)
        self.at += 1

    def function(self, owner, trait, shown, docs):
        call = Call(self.crate, self.modules, owner, trait, self.tokens[self.at + 1][0])
        call.public, call.says = shown, first_sentence(docs)
        while self.word() not in ("{", ";"):
            kind = self.word()
            if not kind:
                self.fail(f"`{call.name}` has no end")
            if kind in ("requires", "ensures"):
                name = "".join(self.until("{")[1:]).lstrip("*")
                getattr(call, kind).append((name, self.bracket()))
            elif kind in OPEN:
                self.bracket()
            else:
                self.at += 1
        self.bracket() if self.word() == "{" else self.until_past(";")
        self.calls.append(call)


def owner_of(kind, words):
    """The trait, or the type that an implementation is of; the trait that is implemented, or none; whether its functions are public
    where it is, without saying so."""
    depth, names = 0, []
    for word in words:
        depth += (word == "<") - (word == ">")
        if depth == 0 and (word == "where" or word == ":" and kind == "trait"):
            break
        if depth == 0 and re.match(r"\w", word):
            names.append(word)
    if kind == "trait":
        return names[0], "", True
    if "for" in names:
        return names[-1], names[names.index("for") - 1], True
    return names[-1], "", False


def first_sentence(docs):
    text = " ".join(docs[:docs.index("")] if "" in docs else docs)
    end = re.search(r"(?<!\.)\.(?= [A-ZÀ-Ý`-]|$)", text)
    return text[:end.start()] if end else text


def read_crate(crate):
    """The calls of a crate; those that another crate can call are marked public, with the modules by which it names them."""
    files = [Reader(crate, file) for file in sorted((TOP / "crates" / crate / "src").rglob("*.rt"))]
    declared = {(*file.modules, name): shown for file in files for name, shown in file.declared.items()}
    given = set().union(*(file.given for file in files if file.modules == ()))
    calls = [call for file in files for call in file.calls]
    for call in calls:
        open_path = all(declared.get(call.modules[:depth + 1]) for depth in range(len(call.modules)))
        call.public = call.public and (open_path or (call.owner or call.name) in given)
        call.modules = call.modules if open_path else ()
    return calls
