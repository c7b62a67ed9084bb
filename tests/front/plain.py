"""The plain output that an object of `--json` stands for, line by line; `[..]` where the object does not say it. And the bytes and rows of
questions and steps in words, of the example, by paper 01."""
import re

import harness

# the example's lists, in its order; an item's ledger and state
ROLES, LEDGERS, STATES = ["clerk", "controller", "robot"], ["bank", "customers", "suppliers"], ["imported", "matched", "agreed"]
USERS, PERMISSIONS = ["anna", "ben", "carla", "importer"], ["view", "match", "agree", "export"]
ITEMS = {"line_4698": [1, 2], "line_4711": [0, 0], "line_4712": [2, 1]}


def counted(number, word):
    return f"{number} {word}{'' if number == 1 else 's'}"


def sentence(question, verdict, steps):
    """the first line of an answer"""
    on = f"{question['permission']} on {question['item'] or 'any item'}"
    name = question["name"]
    if verdict == "never":
        who = {"user": f"no session of {name} is", "session": f"session {name} is never", "anyone": "nobody is"}[question["who"]]
        return f"Never: {who} granted {on}, after any run of work."
    who = {"user": name, "session": f"session {name}", "anyone": "someone"}[question["who"]]
    return f"Can happen, in {counted(steps, 'step')}: {who} is granted {on}."


def table(parts, indent, columns):
    """a line for each part: its text, padded, and what stands in the columns; the parts of a part stand below it, two blanks further in"""
    rows = []

    def walk(parts, depth):
        for part in parts:
            rows.append(["  " * depth + part["text"], *["" if part[key] is None else str(part[key]).lower() for key in columns]])
            walk(part["parts"], depth + 1)

    walk(parts, 0)
    widths = [max([len(row[i]) for row in rows if i or any(row[1:])] or [0]) for i in range(1 + len(columns))]
    return [(indent + "   ".join(cell.ljust(width) for cell, width in zip(row, widths))).rstrip() for row in rows]


def asked_parts(told):
    """of a Never: the parts one by one, then the first so many together"""
    every = len(told["parts"])
    words = [f"the first {row['first']}" if row["first"] < every else f"all {every}" for row in told["together"]]
    together = [{"text": text, "verdict": row["verdict"], "parts": []} for text, row in zip(words, told["together"])]
    lines = table(told["parts"] + together, "    ", ["verdict"])
    end = len(lines) - len(together)
    return ["  `allow [..]` [..]asked one by one:", *lines[:end], *["  together:"] * bool(together), *lines[end:], ""]


def answer(told):
    """of `ask` and `explain`"""
    question, steps, explained = told["question"], told["steps"], told["command"] == "explain"
    lines = [sentence(question, told["verdict"], len(steps)), ""] + (asked_parts(told) if explained and not steps else [])
    for number, step in enumerate(steps, 1):
        lines.append(f"{number:>3}  {step['text']}")
        if explained:
            lines.append(f"       by `{step['formula']}`" + (f" (line {step['line']})" if step["line"] else ""))
            lines += table(step["parts"], " " * 9, ["values"])
    values = f"{question['item'] or 'an item'} can have {counted(told['values'], 'value')}" if told["values"] else "there can be no item"
    return lines + [""] * bool(steps) + [f"Counted: {counted(told['pairs'], 'pair')} of user and session value can be open; {values}."]


def check(told):
    if not told["expectations"]:
        return ["no expectations"]
    lines = []
    for line in told["expectations"]:
        text = f"{line['line']:>3}  {line['text']}"
        how = f"can happen, in {counted(len(line['steps']), 'step')}" if line["steps"] else "never"
        lines.append(f"ok      {text}" if line["met"] else f"NOT MET {text}: {how}")
        lines += [] if line["met"] else [f"{'':11}{number:>3}  {step['text']}" for number, step in enumerate(line["steps"], 1)]
    lines += [f"note: {told['file']['name']}:{note['line']}:{note['column']}: {note['message']}" for note in told["notes"]]
    return lines + [f"{told['met']} met" + (f", {told['not_met']} not met" if told["not_met"] else "")]


def replay(told):
    lines = [f"{number:>3}  {'done     ' if step['done'] else 'refused  '}{step['text']}" for number, step in enumerate(told["steps"], 1)]
    if told["refused"]:
        lines.append(f"{'':13}{told['refused']['number']}: {told['refused']['words']}")
        lines += table(told["refused"]["parts"], " " * 15, ["values", "true"]) if told["refused"]["parts"] else []
    if told["fits"] is not None:
        lines.append("The last step is what was asked: [..]" if told["fits"] else "17: [..]")
    return lines


def errors(told, folder):
    """where there is no answer"""
    lines, name = [], told["file"]["name"]
    for error in told["errors"]:
        right = [f"      = {error['help']}"] if error["help"] else []
        if error["line"] is None:
            return [f"[..]: {error['message']}", *right]
        source = harness.content(folder, name).decode().split("\n")[error["line"] - 1]
        said = f"{'refused' if told.get('number') else 'error'}: {error['message']}"
        lines += [f"{name}:{error['line']}:{error['column']}: {said}", f"{error['line']:>5} | {source}"]
        lines += ["      | " + " " * (error["column"] - 1) + "^" * error["length"], *right]
    return lines + ([counted(len(told["errors"]), "error")] if told["command"] != "replay" and not told.get("number") else [])


def output(told, folder):
    if told.get("errors"):
        return errors(told, folder)
    made = {"ask": answer, "explain": answer, "check": check, "replay": replay, "list": lambda told: told["text"].split("\n")[:-1]}
    return made[told["command"]](told)


def question_bytes(question):
    kind = {"session": 0, "user": 1, "anyone": 2}[question["who"]]
    item = 128 if question["item"] is None else list(ITEMS).index(question["item"])
    return bytes([kind << 6 | (question["number"] or 0), item, PERMISSIONS.index(question["permission"]) << 4]).hex()


def changed(codes, given):
    """the codes of a session (role, ledgers) or an item (ledger, state) with the values of a step"""
    for name, value in re.findall(r"(\w+) = (\{[^}]*\}|\w+)", given):
        members = re.findall(r"\w+", value)
        if name in ("role", "ledger"):
            codes[0] = (ROLES if name == "role" else LEDGERS).index(value)
        else:
            codes[1] = STATES.index(value) if name == "state" else sum(4 >> LEDGERS.index(member) for member in members)
    return codes


def rows(texts):
    """the rows of steps in words; a session's value has 2 bits of its role and 3 of its ledgers, an item's 2 and 2"""
    sessions, items, found = {"night_run": [2, 4]}, {name: list(codes) for name, codes in ITEMS.items()}, []
    for text in texts:
        actor, verb, rest = re.sub(r" \([^)]*\)", "", text).split(" ", 2)
        target, _, given = rest.partition(": ")
        if verb == "uses":
            permission, _, item = rest.partition(" on ")
            found.append([6, list(sessions).index(actor), list(items).index(item), PERMISSIONS.index(permission)])
        elif verb == "closes":
            found.append([2, USERS.index(actor), list(sessions).index(target), 0])
        elif actor in USERS:
            codes = changed(sessions.setdefault(target, [0, 0]), given)
            found.append([1 if verb == "opens" else 3, USERS.index(actor), list(sessions).index(target), codes[0] << 3 | codes[1]])
        else:
            codes = changed(items.setdefault(target, [0, 0]), given)
            found.append([4 if verb == "makes" else 5, list(sessions).index(actor), list(items).index(target), codes[0] << 2 | codes[1]])
    return found
