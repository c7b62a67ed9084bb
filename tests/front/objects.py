"""`--json`: one object on one line, with all keys in their order, that says what the plain output says: plain.py makes that output of the object
again. The exit status is 1 where anything differs."""
import hashlib
import json
import os
import re
import sys
import tempfile

import cases
import harness
import plain

KEYS = {"ask": "command file question verdict pairs values steps", "explain": "command file question verdict pairs values steps parts together",
        "check": "command file bits expectations warnings notes met not_met", "replay": "command file question steps refused fits",
        "assemble": "command file warnings", "list": "command file text", "version": "command", "help": "command", "example": "command"}
MORE_KEYS = {"version": ["version", "library"], "help": ["text"], "example": ["text"]}
LATER_KEYS = ["warnings", "number", "words", "bits", "place", "errors"]
INNER = {"file": "name bytes sha256", "question": "who name number permission item bytes"}
COMMANDS = """
ask wholesaler.rules.txt anna agree
ask wholesaler.rules.txt importer agree on line_4711
ask wholesaler.rules.txt anyone export on line_4712
ask wholesaler.rules.txt session night_run agree
ask wholesaler.rules.txt session night_run view on line_4711
ask wholesaler.rules.txt anyone match on line_4712
ask wholesaler.rules.txt carla agree on line_4711
ask wholesaler.rules.txt importer export on line_4711
ask examples/counter.rules user0 permission0
ask examples/counter.rules user1 permission0
ask wholesaler.rules.txt anna agre
ask wholesaler.rules.txt --question 418040
ask missing.rules.txt anna agree
ask examples/never.in anna agree
ask policies/nine.rules.txt first p
ask bad.rules.txt anna agree
ask swapped.rules.txt anna agree
ask wholesaler.rules.txt anna agree --colour blue
explain wholesaler.rules.txt anna agree
explain wholesaler.rules.txt ben view on line_4711
explain wholesaler.rules.txt importer agree
explain wholesaler.rules.txt importer agree on line_4711
explain wholesaler.rules.txt anyone match on line_4712
explain examples/counter.rules user0 permission0
explain both.rules.txt anna sign
explain ors.rules.txt anna sign
explain ors.rules.txt anna both
explain ors.rules.txt carla sign
explain bad.rules.txt anna agree
check wholesaler.rules.txt
check bad.rules.txt
check swapped.rules.txt
check swapped.rules.txt --strict
check examples/counter.rules
check missing.rules.txt
check policies/nine.rules.txt
check examples/branch.rules.txt
check examples/branch.rules
check examples/branch_mended.rules.txt
ask examples/branch.rules user0 permission0
ask examples/branch_mended.rules.txt otto post on invoice
explain examples/branch_mended.rules.txt otto post on invoice
assemble examples/branch_mended.rules.txt -o mended.rules
list mended.rules
list examples/branch.rules
check size.rules
check list_number.rules
check more.rules
ask size.rules user0 permission0
explain lists.rules user0 permission0
replay filling.rules open.txt
list cut_node.rules
assemble user_value.rules -o nothing.rules
replay wholesaler.rules.txt steps.txt
replay wholesaler.rules.txt other.txt
replay wholesaler.rules.txt other.txt for importer agree
replay wholesaler.rules.txt uses.txt for anna view
replay wholesaler.rules.txt uses.txt for session night_run view
replay wholesaler.rules.txt wholesaler.rules.txt
assemble wholesaler.rules.txt -o w.rules
assemble swapped.rules.txt -o s.rules
assemble bad.rules.txt -o b.rules
list examples/counter.rules
list w.rules
list wholesaler.rules.txt
version
help
help ask
example
"""


def keys_wrong(told):
    """what is wrong with the keys of an object"""
    wanted = KEYS[told["command"]].split()
    later = LATER_KEYS + MORE_KEYS.get(told["command"], [])
    if list(told)[:len(wanted)] != wanted or any(key not in later for key in list(told)[len(wanted):]):
        return f"its keys are {list(told)}"
    for key, inner in INNER.items():
        if told.get(key) is not None and list(told[key]) != inner.split():
            return f"the keys of {key} are {list(told[key])}"
    for report in sum((told.get(key) or [] for key in ("errors", "warnings", "notes")), []):
        if list(report) != ["line", "column", "length", "message", "help"]:
            return f"the keys of an error are {list(report)}"
    return None


def file_wrong(told, path, folder):
    """what is wrong with the length and the hash of the rule file"""
    data = harness.run(["assemble", path], folder=folder).out or harness.content(folder, path)
    right = (len(data), hashlib.sha256(data).hexdigest())
    return None if (told["bytes"], told["sha256"]) == right else f"the file is {right}; told is {told}"


def reading_wrong(told):
    """what is wrong with how far the rule file was read: all of it, or to the bit and the place that the message ends with"""
    if told.get("bits") is None:
        return "no bits beside a number" if told.get("number") else None
    if told.get("place") is None:
        return None if told["bits"] == 8 * told["file"]["bytes"] else f"{told['bits']} bits of {told['file']['bytes']} bytes, and no place"
    words = f" at bit {told['bits']}, {told['place']}"
    return None if told["errors"][0]["message"].endswith(words) else f"the message does not end with{words}"


def rows_wrong(told):
    """what is wrong with the bytes of the question and with the rows, in an object about the example"""
    if told.get("question") and plain.question_bytes(told["question"]) != told["question"]["bytes"]:
        return f"the question's bytes are {plain.question_bytes(told['question'])}"
    for steps in [told.get("steps") or []] + [line["steps"] for line in told.get("expectations") or []]:
        rows = plain.rows([step["text"] for step in steps])
        if rows != [step["row"] for step in steps]:
            return f"the rows are {rows}"
    return None


def without_warnings(lines, warnings):
    """the lines without those of the warnings"""
    for warning in warnings:
        for at in [at for at, line in enumerate(lines) if line.endswith(f": warning: {warning['message']}")][:1]:
            lines = lines[:at] + lines[at + 3 + bool(warning["help"]):]
    return lines


def unsaid(told, usual, found):
    """whether warnings are lost: they stand in the object, or on standard error as without an object; faults stand in the object alone"""
    if told.get("warnings") is not None:
        return found.err != b""
    return found.err != usual.err if found.status != 2 else not usual.err.startswith(found.err)


def judged(arguments, folder):
    """what is wrong with the object of a command, or None"""
    usual, found = harness.run(arguments, folder=folder), harness.run([*arguments, "--json"], folder=folder)
    if found.status != usual.status:
        return f"exit {found.status} with --json, {usual.status} without"
    if not re.fullmatch(rb"\{[^\n]*\}\n", found.out):
        return "not one object on one line"
    told = json.loads(found.out)
    if unsaid(told, usual, found):
        return f"its warnings are {found.err!r}"
    if told["command"] != arguments[0] or keys_wrong(told) or arguments[0] in ("version", "help", "example"):
        return keys_wrong(told)
    if reading_wrong(told):
        return reading_wrong(told)
    wrong = file_wrong(told["file"], arguments[1], folder) if told["file"]["sha256"] else None
    if not wrong and arguments[1].startswith("wholesaler"):
        wrong = rows_wrong(told)
    if wrong or (arguments[0] == "assemble" and not told.get("errors")):
        return wrong
    # what the object does not say stands on standard error both times
    printed = without_warnings(usual.text()[len(found.err.decode()):].split("\n")[:-1], told.get("warnings") or [])
    return harness.differs(plain.output(told, folder), printed)[0]


def main():
    commands = COMMANDS.strip().split("\n")
    with tempfile.TemporaryDirectory() as folder:
        cases.prepared(folder)
        for name in ("explain", "cases", "places"):
            harness.read(f"tests/front/outputs/{name}.txt", folder)
        harness.put(b"night_run uses view on line_4711\n", os.path.join(folder, "uses.txt"))
        wrong = [(command, judged(command.split(), folder)) for command in commands]
        wrong = [f"$ rules {command} --json\n  {fault}" for command, fault in wrong if fault]
    print("\n".join(wrong + [f"{len(commands)} objects, {len(wrong)} wrong"]))
    sys.exit(1 if wrong else 0)


main()
