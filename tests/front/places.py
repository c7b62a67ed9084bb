"""Where files are refused: of generated rule files with one field changed, cut, or with bytes after them, `rules list --json` gives the number, the
bits and the place that the reader here gives, which is made from papers 01 and 02. `places.py [HOW_MANY]`; the exit status is 1 where one differs,
or where some number of a file never came up."""
import json
import random
import re
import sys

import generate
import harness

MANY = int(sys.argv[1]) if len(sys.argv) > 1 else 1500
NUMBERS = {1, 2, 3, 4, 5, 6, 7, 8, 18, 19}
COUNTS = [("user attribute count", 4, 0, 8), ("session attribute count", 4, 0, 8), ("item attribute count", 4, 0, 8), ("user count", 5, 1, 16),
          ("starting session count", 6, 0, 32), ("starting item count", 6, 0, 32), ("permission count", 4, 1, 8)]


class Refused(Exception):
    pass


class Reader:
    """the fields of a file, each judged once it is read"""

    def __init__(self, data):
        self.bits, self.at, self.fields = "".join(f"{byte:08b}" for byte in data), 0, []

    def take(self, width, what):
        end = len(self.bits)
        if self.at + width > end:
            raise Refused(1, end, f"the file ends {'within' if self.at < end else 'before'} {what}")
        self.fields.append((self.at, width, what))
        self.at += width
        return int("0" + self.bits[self.at - width:self.at], 2)

    def need(self, right, number, what=None):
        """refuses, at the last field where no place is named"""
        if not right:
            raise Refused(number, self.at, what or self.fields[-1][2])

    def attributes(self, name, count, sizes):
        """(whether it is a set, size, list number, width) of each attribute of a class"""
        found = []
        for number in range(count):
            what = f"{name} attribute {number + 1} (a{number}), its"
            is_set, size = self.take(1, f"{what} kind"), self.take(5, f"{what} size")
            self.need(1 <= size <= (8 if is_set else 16), 4)
            its_list = self.take(5, f"{what} list number")
            self.need(its_list == 0 or sizes.setdefault(its_list, size) == size, 18)
            self.need(self.take(1, f"{what} last bit") == 0, 3)
            found.append((is_set, size, its_list, size if is_set else (size - 1).bit_length()))
        self.need(sum(width for *_, width in found) <= 8, 5, f"the {name} attributes together")
        return found

    def holder(self, what, attributes):
        for number, (is_set, size, _, width) in enumerate(attributes):
            value = self.take(width, f"{what}, attribute {number + 1} (a{number})")
            self.need(is_set or value < size, 6)

    def formula(self, what, holders, classes):
        count = self.take(8, f"{what}, its node count")
        self.need(1 <= count <= 64, 8)
        for at in range(count):
            node = self.take(20, f"{what}, node {at + 1}")
            number = fault(node >> 16, node >> 8 & 255, node & 255, at, holders, classes)
            self.need(not number, number)

    def file(self):
        counts, sizes = [], {}
        for what, width, least, most in COUNTS:
            counts.append(self.take(width, what))
            self.need(least <= counts[-1] <= most, 2)
        users, sessions, items, permissions = counts[3:]
        self.need(self.take(7, "the head's spare bits") == 0, 3)
        classes = [self.attributes(name, count, sizes) for name, count in zip(("user", "session", "item"), counts)]
        for number in range(users):
            self.holder(f"user {number + 1} (user{number})", classes[0])
        for number in range(sessions):
            what = f"starting session {number + 1} (session_{number})"
            self.need(self.take(4, f"{what}, its user") < users, 7)
            self.holder(what, classes[1])
        for number in range(items):
            self.holder(f"starting item {number + 1} (item_{number})", classes[2])
        names = ["open session", "change session", "make item", "change item"] + [f"allow permission{number}" for number in range(permissions)]
        for number, name in enumerate(names):
            self.formula(name, generate.ALLOWED[min(number, 4)], classes)
        filling = -self.at % 8
        self.need(self.take(filling, "the filling bits") == 0, 3)
        self.need(self.at == len(self.bits), 3, f"bytes after the {'filling bits' if filling else 'last formula'}")


def fault(operator, a, b, at, holders, classes):
    """8 or 19 of a node, or 0"""
    if operator < 2:
        return 0 if a == b == 0 else 8
    if operator < 5:
        return 0 if a < at and (b < at if operator > 2 else b == 0) else 8
    sides = [operand(side, holders, classes) for side in (a, b)]
    if operator > 10 or [side and side[0] for side in sides] != [int(operator > 8), int(operator > 7)]:
        return 8
    return 19 if None not in (sides[0][1], sides[1][1]) and sides[0][1] != sides[1][1] else 0


def operand(side, holders, classes):
    """whether an operand is a set, and its list number, None of a constant; or None where there is no such operand"""
    holder, low = side >> 5, side & 31
    if holder == 5:
        return (0, None) if low < 16 else None
    attributes = classes[generate.CLASS_OF[holder]] if holder in holders else []
    return (attributes[low][0], attributes[low][2]) if low < len(attributes) else None


def judged(data):
    """(number, bits, place), or None of a file that is accepted; and the fields that were read"""
    reader = Reader(data)
    try:
        reader.file()
    except Refused as refused:
        return refused.args, reader.fields
    return None, reader.fields


def kind(what):
    return re.sub(r"\d+", "n", what)


def changed(seed):
    """a generated file with a fault, mostly"""
    rng, data = random.Random(seed), generate.file(seed % 100)
    roll = rng.random()
    if roll < 0.25:
        return data[:rng.randrange(1, len(data))]
    if roll < 0.3:
        return data + bytes(rng.choice([1, 2, 9]))
    # a kind of field first: most fields are nodes
    fields = [(start, width, kind(what)) for start, width, what in judged(data)[1] if width]
    chosen = rng.choice(sorted({what for *_, what in fields}))
    start, width, _ = rng.choice([field for field in fields if field[2] == chosen])
    number = int.from_bytes(data, "big") ^ rng.randrange(1, 1 << width) << (8 * len(data) - start - width)
    return number.to_bytes(len(data), "big") + bytes(rng.random() < 0.1)


def is_text(data):
    """whether refused bytes are taken for a text"""
    try:
        return min(data) >= 9 and data.decode() != ""
    except UnicodeDecodeError:
        return False


def compared(seed):
    """the number and kind of place that both gave, or what differs"""
    data = changed(seed)
    right, _ = judged(data)
    if right and is_text(data):
        return None
    found = harness.run(["list", "-", "--json"], data)
    told = json.loads(found.out)
    given = (told["number"], told["bits"], told["place"]) if "number" in told else None
    if given != right or found.status != (2 if right else 0):
        return f"changed({seed}), {data[:60].hex()}: {right} is right, told is {given}, exit {found.status}"
    return (right[0], kind(right[2])) if right else None


def main():
    results = harness.each(compared, range(MANY))
    wrong = [result for result in results if isinstance(result, str)]
    refused = [result for result in results if isinstance(result, tuple)]
    missing = NUMBERS - {number for number, _ in refused}
    told = [f"number {number} never came up" for number in sorted(missing)]
    told.append(f"{MANY} files, {len(refused)} refused at {len(set(refused))} kinds of place, {len(wrong)} wrong")
    print("\n".join(wrong[:10] + told))
    sys.exit(1 if wrong or missing else 0)


main()
