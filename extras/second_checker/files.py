"""Certificates: the grammar, and the verdicts of `check` (docs/FORMAT.md)."""

import re
from collections import namedtuple

from .facts import PLACES_OF, evaluate
from .lines import Refused, Request, is_in
from .run import Undecided, Void
from .tables import rows

Fact = namedtuple("Fact", "number kind place day value")
Line = namedtuple("Line", "number echo shown listed")

class Bad(Exception): """A text that isn't in the grammar: `bad LINE RULE`."""
class Missing(Exception): """A line's rule asks a fact that the line doesn't list."""

HEADERS = {" ".join(list(row.values())[1:]).encode(): n for n, row in enumerate(rows("headers"), 1)}
# The limits of a counter, a day, a value and an end of a test, by the names of the groups below.
LIMITS = {"N": (0, 2**32 - 1), "D": (-40000000, 40000000), "V": (-10000000, 10000000), "W": (-(2**127), 2**127 - 1)}

def forms(version):
    """The forms of a line, in the order in which they are tried; a group's name begins with the letter of its limits, if it has any."""
    words = {name: "|".join(row["word"] for row in rows(name) if is_in(version, row)) for name in ("kinds", "places", "sites")}
    word, fact = "[!-~]+", "(?P<kind>{kinds}) (?P<place>{places}) (?P<Dday>NUMBER)".format(**words)
    echo, listed = f"line (?P<N1>NUMBER) (?P<echo>{word} {word} {word})", "facts(?P<listed>(?: NUMBER)*)"
    texts = (f"fact (?P<N1>NUMBER) {fact} (?P<V1>NUMBER)", "end lines (?P<N1>NUMBER) facts (?P<N2>NUMBER)",
             "line (?P<N1>NUMBER) refused [1-4]",
             f"line (?P<N1>NUMBER) undecided (?:{words['sites']}) (?P<N2>NUMBER) (?P<W1>NUMBER) (?P<W2>NUMBER) fact {fact}",
             f"line (?P<N1>NUMBER) void (?:{words['sites']}) fact {fact}",
             f"{echo} (?P<shown>{word}) {listed}", f"{echo} (?P<shown>refused 4 (?P<D1>NUMBER)) {listed}",
             f"{echo} (?P<shown>refused 5 {word}) {listed}")
    return [re.compile(text.replace("NUMBER", "(?:0|-?[1-9][0-9]{0,39})")) for text in texts]

def parsed(text, patterns):
    """The groups of the first form that a line has, as numbers where they are; None where it has no form."""
    for pattern in patterns:
        match = pattern.fullmatch(text)
        if match:
            groups = {name: int(value) if name[0] in LIMITS else value for name, value in match.groupdict().items()}
            groups["listed"] = [int(word) for word in groups.get("listed", "").split()]
            numbers = [(name[0], n) for name, n in groups.items() if name[0] in LIMITS] + [("N", n) for n in groups["listed"]]
            if all(LIMITS[kind][0] <= n <= LIMITS[kind][1] for kind, n in numbers): return groups
    return None

def read(text):
    """The version, the facts and the lines of a certificate; raises Bad."""
    lines = text.split(b"\n")
    lines = [line[:-1] if line.endswith(b"\r") else line for line in (lines if lines[-1] else lines[:-1])]
    if not lines or lines[0] not in HEADERS: raise Bad("bad 1 1")
    version = HEADERS[lines[0]]
    patterns, facts, requests, seen, has_ended = forms(version), [], [], set(), False
    def rule_broken(groups, is_fact):
        name = (groups.get("kind"), groups.get("place"), groups.get("Dday"))
        if groups["N1"] != len(facts if is_fact else requests) + 1: return 3
        if name[0] and name[1] not in PLACES_OF[name[0]]: return 7
        if is_fact and name in seen: return 4
        listed = groups["listed"]
        if len(set(listed)) < len(listed) or not all(1 <= n <= len(facts) for n in listed): return 5
        return 6 if has_ended else None

    for place, line in enumerate(lines[1:], 2):
        groups = parsed(line.decode("latin-1"), patterns)
        if groups is None: raise Bad(f"bad {place} 2")
        if line.startswith(b"end"):
            if has_ended or (groups["N1"], groups["N2"]) != (len(requests), len(facts)): raise Bad(f"bad {place} 6")
            has_ended = True
            continue
        is_fact = line.startswith(b"fact")
        rule = rule_broken(groups, is_fact)
        if rule: raise Bad(f"bad {place} {rule}")
        if is_fact:
            facts.append(Fact(groups["N1"], groups["kind"], groups["place"], groups["Dday"], groups["V1"]))
            seen.add(facts[-1][1:4])
        else:
            requests.append(Line(groups["N1"], groups.get("echo"), groups.get("shown"), groups["listed"]))
    if not has_ended: raise Bad(f"bad {len(lines) + 1} 6")
    return version, facts, requests

class Checker:
    """The verdicts over a file that was read. A fact is evaluated once, where a line lists it."""
    def __init__(self, version, facts, keeps=False):
        self.version, self.facts, self.keeps, self.faults, self.runs = version, facts, keeps, {}, {}
    def fault(self, fact):
        """Why a fact isn't true, as a verdict tells it, or None."""
        if fact.number not in self.faults:
            name = f"fact {fact.kind} {fact.place} {fact.day}"
            try:
                found, self.runs[fact.number] = evaluate(*fact[1:4], self.keeps)
                self.faults[fact.number] = None if found == fact.value else f"value {fact.number} {fact.value} {found}"
            except Undecided as test:
                self.faults[fact.number] = f"undecided {test} {name}"
            except Void as site:
                self.faults[fact.number] = f"void {site} {name}"
        return self.faults[fact.number]
    def reason(self, line):
        """Why a line isn't right, by the first reason that holds, or None."""
        try:
            request = Request(line.echo, self.version)
        except Refused as rule:
            return f"form {rule}"
        listed = [self.facts[n - 1] for n in line.listed]
        fault = next(filter(None, map(self.fault, listed)), None)
        if fault: return fault
        values, asked = {fact[1:4]: fact.value for fact in listed}, {}
        def ask(*fact):
            if fact not in values: raise Missing("missing {} {} {}".format(*fact))
            asked[fact] = True
            return values[fact]

        try:
            found = request.result(ask)
        except Missing as missing:
            return str(missing)
        for i, (fact, first) in enumerate(zip(listed, [*asked] + [None] * len(listed)), 1):
            if fact[1:4] != first: return f"list {i}"
        return None if found == line.shown else f"date {found}"
    def verdict(self, line):
        if line.echo is None: return f"skip {line.number}"
        reason = self.reason(line)
        return f"no {line.number} {reason}" if reason else f"yes {line.number}"
