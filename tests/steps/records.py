"""records.py TABLE: turns the table of step lists into lines of numbers for steps.c, on standard output. The notation stands in the table's head."""
import os
import re
import sys

sys.dont_write_bytecode = True
sys.path.insert(0, os.path.join(os.path.dirname(os.path.abspath(__file__)), "..", "vectors"))
from make import file_of, rows

WIDTHS = [4, 20, 20, 12, 8]


def number(text):
    """a number: decimal, hex after 0x, or b and bits, with dots between attributes"""
    if text.startswith("b"):
        return int(text[1:].replace(".", ""), 2)
    return int(text, 0)


def cell(text):
    """a cell: oUSER:VALUE, i:VALUE, or a number"""
    coded = re.fullmatch(r"(?:o(\d+)|i):(.*)", text)
    if not coded:
        return number(text)
    return 65536 + 256 * int(coded.group(1) or 0) + number(coded.group(2))


def cells(word, entries):
    """a line for each cell of entries such as s0=o1:2 or i0-31=i:0"""
    for entry in entries:
        slice_, first, last, content = re.fullmatch(r"([si])(\d+)(?:-(\d+))?=(.*)", entry).groups()
        for index in range(int(first), int(last or first) + 1):
            yield f"{word} {'si'.index(slice_)} {index} {cell(content)}"


def row(parts):
    """the 64 bits of a row, most significant part first; the spare part is 0 where it is left out"""
    bits = 0
    for width, part in zip(WIDTHS, parts + [0] * (5 - len(parts)), strict=True):
        if part >= 2 ** width:
            raise ValueError(f"{part} does not fit")
        bits = bits << width | part
    return bits


def lines(path):
    names = {}
    for line, text in rows(path):
        word, _, rest = text.partition(" ")
        if word == "let":
            name, _, pieces = rest.partition("=")
            names[name.strip()] = pieces
        elif word == "case":
            file = file_of(rest, names)
            yield f"case {line} {len(file)} {file.hex() or '-'}"
        elif word == "lend":
            yield "lend " + " ".join(str(number(part)) for part in rest.split())
        elif word == "put":
            yield from cells("put", rest.split())
        elif word == "start":
            yield f"start {line} {int(rest)}"
        elif word == "step":
            answer, *parts = rest.split()
            yield f"step {line} {int(answer)} {row(list(map(number, parts)))}"
        elif word == "end":
            session, item, *entries = rest.split()
            yield from cells("is", entries)
            yield f"end {line} {number(session)} {number(item)}"
        else:
            raise ValueError(f"line {line}: {word}")


print("\n".join(lines(sys.argv[1])))
