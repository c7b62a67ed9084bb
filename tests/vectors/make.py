#!/usr/bin/env python3
"""make.py TABLE FOLDER: turns the table of rule files and rules into FOLDER/stdin and FOLDER/stdout for the program case_rules.

stdin is a row of records: 0, the file; or 1, the file, the length to write to, the changes, the bytes to be written; or 2 and five numbers,
a question on sets. Lengths take two bytes, a change is a part (1 byte), an index (2) and a value (4); all most significant first. stdout has
a line for each record, which for a file begins with how many bits reading takes. A row that is not as the table's head says is an error."""
import re
import sys

PARTS = ["user.count", "session.count", "item.count", "users", "sessions", "items", "permissions", "user.kind", "user.size", "session.kind",
         "session.size", "item.kind", "item.size", "value", "owner", "held", "item", "length", "node", "user.list", "session.list", "item.list"]

SETS = ["member", "subset", "proper"]

# how many bytes of standard input the program takes
MOST = 65536


def bits_of(text, names):
    """the bits of a row of tokens"""
    if "!" in text:
        raise ValueError(f"a ! in {text}")
    out, at = "", 0
    tokens = re.findall(r"\d+\*|\(|\)|\d+:\d+|\+[0-9A-Fa-f]*|/|\w+", text)

    def one():
        nonlocal at
        token = tokens[at]
        at += 1
        if token.endswith("*"):
            return one() * int(token[:-1])
        if token == "(":
            inner = ""
            while tokens[at] != ")":
                inner += one()
            at += 1
            return inner
        if ":" in token:
            width, number = map(int, token.split(":"))
            if number >= 2 ** width:
                raise ValueError(f"{token} does not fit")
            return format(number, f"0{width}b") if width else ""
        if token.startswith("+"):
            return "".join(format(b, "08b") for b in bytes.fromhex(token[1:]))
        return bits_of(names[token], names)

    while at < len(tokens):
        if tokens[at] == "/":
            out += "0" * (-len(out) % 8)
            at += 1
        else:
            out += one()
    return out


def file_of(text, names):
    bits = bits_of(text, names)
    if len(bits) % 8:
        raise ValueError(f"{len(bits)} bits are no bytes: {text}")
    return bytes(int(bits[k:k + 8], 2) for k in range(0, len(bits), 8))


def judged(word, answer, text, names):
    """an answer's number or ok, the bits that reading takes if they are written, and the row of tokens without a !"""
    number, at, count = answer.partition("@")
    before, mark, after = text.partition("!")
    if at and mark:
        raise ValueError("a count by @ and by !")
    if mark and (word != "read" or before.count("(") != before.count(")")):
        raise ValueError("a ! stands in a file that is read, and not within brackets")
    taken = int(count) if at else len(bits_of(before, names)) if mark else None
    if number in ("ok", "1") and taken is not None:
        raise ValueError(f"a count with {number}, which takes all bits")
    if number not in ("ok", "1") and taken is None:
        raise ValueError(f"no count with {number}")
    return number, taken, f"{before} {after}"


def line_of(file, number, taken):
    """what the program should print for a file"""
    if number == "ok":
        return f"{8 * len(file)} bits, read, ok {len(file)} same"
    if number == "1":
        return f"{8 * len(file)} bits, refused 1"
    if not 0 < taken <= 8 * len(file):
        raise ValueError(f"{taken} bits of a file of {8 * len(file)}")
    return f"{taken} bits, refused {number}"


def sized(data):
    return len(data).to_bytes(2, "big") + data


def change(text):
    part, value = text.split("=")
    index = 0
    if part not in PARTS:
        part, index = part.rsplit(".", 1)
    return bytes([PARTS.index(part)]) + int(index).to_bytes(2, "big") + int(value).to_bytes(4, "big")


def rows(path):
    """each row of the table: its words before the bar"""
    for number, line in enumerate(open(path, encoding="utf-8"), 1):
        line = line.split("|")[0].strip()
        if line and not line.startswith("#"):
            yield number, line


def files_of(word, text, names):
    """the files of a row"""
    if word == "read":
        return [file_of(text, names)]
    if word == "cuts":
        whole = file_of(text, names)
        return [whole[:k] for k in range(len(whole))]
    if word == "flips":
        span, _, text = text.strip().partition(" ")
        first, last = map(int, span.split("-"))
        size = len(file_of(text, names))
        if not 0 <= first <= last < 8 * size:
            raise ValueError(f"bits {span} of {8 * size}")
        whole = int.from_bytes(file_of(text, names), "big")
        return [(whole ^ 1 << 8 * size - 1 - k).to_bytes(size, "big") for k in range(first, last + 1)]
    raise ValueError(word)


def records_of(line, names):
    """for each record of a row: its bytes and the line that the program should print"""
    word, _, rest = line.partition(" ")
    if word == "let":
        name, _, text = rest.partition("=")
        bits_of(text, names)
        names[name.strip()] = text
    elif word == "same":
        left, _, right = rest.partition(" ")
        if file_of(left, names) != file_of(right, names):
            raise ValueError("the two differ")
    elif word in SETS:
        answer, *numbers = rest.split()
        yield bytes([2, SETS.index(word)] + list(map(int, numbers)) + [0] * (4 - len(numbers))), answer
    elif word == "write":
        answer, length, changes, text = rest.split(" ", 3)
        text, _, written = text.partition("=>")
        file = file_of(text, names)
        want = file_of(written or text, names) if answer == "ok" else b""
        listed = [] if changes == "-" else [change(c) for c in changes.split(",")]
        data = b"\1" + sized(file) + int(length).to_bytes(2, "big") + bytes([len(listed)]) + b"".join(listed) + sized(want)
        yield data, f"ok {len(want)} same" if answer == "ok" else f"refused {answer}"
    else:
        answer, _, text = rest.partition(" ")
        number, taken, text = judged(word, answer, text, names)
        for file in files_of(word, text, names):
            yield b"\0" + sized(file), line_of(file, number, taken)


def records(path):
    """for each record of the table: its bytes and the line that the program should print"""
    names = {}
    for number, line in rows(path):
        try:
            yield from records_of(line, names)
        except (ValueError, KeyError, IndexError) as wrong:
            raise ValueError(f"line {number}: {wrong}: {line}") from wrong


def main():
    table, folder = sys.argv[1:3]
    made = list(records(table))
    if sum(len(data) for data, _ in made) > MOST:
        raise ValueError(f"the records are more than {MOST} bytes")
    with open(f"{folder}/stdin", "wb") as out:
        out.write(b"".join(data for data, _ in made))
    with open(f"{folder}/stdout", "w", encoding="ascii") as out:
        for k, (_, answer) in enumerate(made, 1):
            out.write(f"{k} {answer}\n")
        out.write(f"{len(made)} cases\n")


if __name__ == "__main__":
    main()
