"""The tables of numbers, as docs/tables has them: a head line, then rows, cells parted by tabs (docs/TABLES.md)."""

import os
import re
from fractions import Fraction

from .intervals import interval

FOLDER = os.path.join(os.path.dirname(os.path.abspath(__file__)), "..", "..", "docs", "tables")

def number(text):
    """A number as its source gives it: a decimal, a fraction, or a sum of products of these; an int where it is whole."""
    total = Fraction(0)
    for term in re.findall(r"[+-]?[^+-]+", text):
        value = Fraction(-1 if term.startswith("-") else 1)
        for sign, factor in re.findall(r"([*/]?)([0-9.]+)", term):
            value = value / Fraction(factor) if sign == "/" else value * Fraction(factor)
        total += value
    return total.numerator if total.denominator == 1 else total

def rows(name):
    """The rows of a file, each a dictionary by the head line."""
    with open(os.path.join(FOLDER, name + ".tsv"), encoding="utf-8") as file:
        head, *lines = [line.rstrip("\n").split("\t") for line in file]
    return [dict(zip(head, cells + [""] * (len(head) - len(cells)))) for cells in lines]
def numbers(row, *columns): return [number(row[column]) for column in columns if row[column]]

CONSTANT = {row["name"]: number(row["number"]) for row in rows("constants") if row["number"][-1].isdigit()}
COEFFICIENTS = {row["name"]: [interval(a) for a in numbers(row, *list(row)[1:])] for row in rows("polynomials")}
SINGLE_TERMS = {row["name"]: [interval(a) for a in numbers(row, "size", "phase", "rate", "square rate")] for row in rows("single-terms")}
DEFINED = {(row["file"], row["definition"]): [number(cell) for cell in row["numbers"].split()] for row in rows("definitions")}
