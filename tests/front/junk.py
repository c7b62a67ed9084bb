"""Any bytes will do as a text, a rule file, steps, questions or names: the program ends with 0, 1 or 2, never by a panic or a signal, prints
nothing that a terminal obeys, and each place it names is inside the text. `junk.py [HOW_MANY]`; the exit status is 1 where anything is wrong."""
import json
import os
import random
import re
import sys
import tempfile

import generate
import harness

MANY = int(sys.argv[1]) if len(sys.argv) > 1 else 1000
MARKS = list(":,={}().<$!>&|\"#") + ["<="]
WORDS = generate.RESERVED + generate.LATER + MARKS + ["anna", "role", "clerk", "17", "0", "5", "9" * 20, '"a b"', "é", "会"]
CHARACTERS = ["\0", "\x1b[31m", "\u202e", "\ufeff", "\u0301", "\U0001f600", "\x85", "\u2028", "\t", "\r", "\"", "#", "\x7f", "\u00a0", "\u0663", "²"]
OBEYED = re.compile("[␛\x00-\x09\x0b-\x1f\x7f-\x9f\u200e\u200f\u2028-\u202e\u2066-\u2069]")
EXAMPLE = "wholesaler.rules.txt"
STEPS = """importer opens session_1: role = controller, ledgers = {suppliers}
session_1 uses agree on line_4712
anna closes session_1
anna agree on any item
"""
COMMANDS = [["check", "IN"], ["check", "IN", "--json"], ["check", "IN", "-v"], ["assemble", "IN"], ["assemble", "IN", "--json"],
            ["ask", "IN", "anyone", "agree"], ["explain", "IN", "anyone", "agree"], ["list", "IN"], ["replay", EXAMPLE, "IN"],
            ["replay", EXAMPLE, "IN", "for", "anna", "agree"], ["ask", EXAMPLE, "-"], ["list", "file.rules", "--names", "IN"],
            ["ask", "IN", "--question", "418000"], ["replay", "IN", "steps.txt"]]


def mutated(rng, text):
    """a text with some words swapped, changed, taken out or put in, or cut"""
    for _ in range(rng.choice([1, 1, 2, 5])):
        words = re.split(r"(\s+)", text)
        at, other = rng.randrange(len(words)), rng.randrange(len(words))
        kind = rng.randrange(7)
        if kind == 0:
            words[at], words[other] = words[other], words[at]
        elif kind == 1:
            words[at] = rng.choice(WORDS)
        elif kind == 2:
            words[at] += rng.choice(CHARACTERS)
        elif kind == 3:
            words = words[:at + 1]
        elif kind == 4:
            words[at] = ""
        elif kind == 5:
            words[at:at] = words[other:other + 5]
        else:
            words[at] = words[at] * 2
        text = "".join(words)
    return text


def deep(rng):
    """one word very often: no depth of parentheses, no length of a line may end the program"""
    words = ["(", "not ", "(not ", "{", "\"", "let a = ", "true and ", "a", "1", "user u\n", "item\n", "list a = 2\n", "list ", "é", ".", "new "]
    word = rng.choice(words)
    head = rng.choice(["", "permission p\nallow p: ", "user u\npermission p\nopen session: true\nallow p: "])
    return head + word * rng.choice([1, 65, 1000, 200000])


def flipped(rng, data):
    """a rule file with some bits changed, cut, or with a byte more"""
    data = bytearray(data)
    for _ in range(rng.choice([1, 1, 3])):
        data[rng.randrange(len(data))] ^= 1 << rng.randrange(8)
    return bytes(data[:rng.choice([len(data), len(data), rng.randrange(len(data))])] + bytes(rng.choice([0, 0, 1])))


def made(seed, texts, files):
    """one input, as bytes"""
    rng = random.Random(seed)
    kind = rng.randrange(8)
    if kind == 0:
        return bytes(rng.randrange(256) for _ in range(rng.choice([0, 1, 3, 40, 300])))
    if kind == 1:
        return (rng.choice([" ", "\n"]).join(rng.choice(WORDS) for _ in range(rng.choice([1, 5, 40, 400])))).encode()
    if kind == 2:
        return flipped(rng, rng.choice(files))
    if kind == 3:
        return deep(rng).encode()
    text = mutated(rng, rng.choice(texts))
    if rng.random() < 0.1:
        return text.encode(rng.choice(["utf-16", "utf-8-sig", "utf-32"]))
    data = text.encode()
    at = rng.randrange(len(data) + 1)
    return data[:at] + rng.choice([b""] * 30 + [b"\xff", b"\xc3", b"\xed\xa0\x80", b"\0"]) + data[at:]


def outside(data, places):
    """the first place that is not inside the text"""
    lines = [line[:-1] if line.endswith("\r") else line for line in data.decode("utf-8", "replace").split("\n")]
    for line, column in places:
        if not 1 <= line <= len(lines) or not 1 <= column <= len(lines[line - 1]) + 1:
            return line, column
    return None


def judged(command, data, found):
    """what is wrong with a run, or None"""
    text = found.text()
    makes = command[0] in ("assemble", "list")
    if found.status not in ((0, 2) if makes else (0, 1, 2)) or "panicked" in text:
        return f"exit {found.status}: {text[-300:]}"
    if OBEYED.search(text) and not (makes and found.status == 0):
        return f"prints what a terminal obeys: {text[:300]!r}"
    if found.status == 2 and not text:
        return "says nothing"
    if len(re.findall(r"^[^\n]*?:\d+:\d+: error: ", text, re.M)) > 20:
        return "more than 20 errors"
    places = [(int(line), int(column)) for line, column in re.findall(r"^(?:\w+|standard input):(\d+):(\d+): \w+: ", text, re.M)]
    if "--json" in command:
        places += [(error["line"], error["column"]) for error in json.loads(found.out).get("errors") or [] if error["line"]]
    place = outside(data, places)
    return f"the place {place} is outside the text" if place else None


def main():
    texts = [harness.content(path).decode() for path in [*harness.texts(), "examples/branch.rules.txt"]]
    texts += [generate.text(seed, True)[0] for seed in range(20)] + [STEPS] * 8
    files = [generate.file(seed) for seed in range(20)] + [harness.content("examples", name) for name in ("counter.rules", "branch.rules")]
    with tempfile.TemporaryDirectory() as folder:
        for name, data in ((EXAMPLE, harness.content("examples", EXAMPLE)), ("file.rules", files[0]), ("steps.txt", STEPS.encode())):
            harness.put(data, folder, name)

        def one(seed):
            data, command = made(seed, texts, files), COMMANDS[seed % len(COMMANDS)]
            harness.put(data, folder, f"in{seed}")
            found = harness.run([f"in{seed}" if word == "IN" else word for word in command], data if "-" in command else b"", folder)
            fault = judged(command, data, found)
            os.remove(os.path.join(folder, f"in{seed}"))
            return f"input {seed}, {' '.join(command)}, {data[:60]!r}: {fault}" if fault else found.status

        results = harness.each(one, range(MANY))
    wrong = [result for result in results if isinstance(result, str)]
    for fault in wrong[:10]:
        print(fault)
    print(f"{MANY} inputs: {', '.join(f'exit {n} {results.count(n)} times' for n in (0, 1, 2))}; {len(wrong)} wrong")
    sys.exit(1 if wrong else 0)


main()
