"""The verdicts of parts that `rules explain` prints are those of texts made here, in which the part stands as the answer of its formula."""
import json
import re
import tempfile

import harness

# A text with named parts, `or`, `not`, and parts that can happen alone but not together.
PARTED = """\
user attribute desk: one of {front, back}
session attribute desk: one of {front, back}
session attribute tools: set of {stamp, key}
item attribute state: one of {fresh, seen, filed}
user anna: desk = front
user ben: desk = back
item first: state = fresh
permission view
permission file
permission lock
permission burn
open session: new session.desk = user.desk and not (stamp in new session.tools and key in new session.tools)
change session: new session.desk = session.desk and not (stamp in new session.tools and key in new session.tools)
make item: false
change item: item.state < new item.state and not new item.state = filed
allow view: true
allow file:
  let both = stamp in session.tools and key in session.tools
  let filing = session.desk = back and item.state = filed
  both or filing
allow lock:
  let back = session.desk = back
  stamp in session.tools and back and key in session.tools and not item.state = filed
allow burn:
  item.state = filed and (session.desk = front or session.desk = back) and not item.state = fresh
"""


def flat(parts):
    for part in parts:
        yield part
        yield from flat(part["parts"])


def changed(text, permission, answer):
    """the text with another answer of a permission's formula; its parts stay"""
    lines, found = text.split("\n"), False
    for number, line in enumerate(lines):
        if found and line.strip().startswith("let "):
            continue
        if found:
            lines[number] = "  " + answer
            return "\n".join(lines)
        if re.match(rf"allow {permission}:", line):
            found = True
            if not line.endswith(":"):
                lines[number] = f"allow {permission}: {answer}"
                return "\n".join(lines)
    raise SystemExit(f"no formula of {permission}")


def verdict(text, words):
    with tempfile.NamedTemporaryFile("w", suffix=".txt", encoding="utf-8") as file:
        file.write(text)
        file.flush()
        return json.loads(harness.run(["ask", file.name, *words, "--json"]).out)["verdict"]


def asked(text, words):
    """how many parts were compared"""
    with tempfile.NamedTemporaryFile("w", suffix=".txt", encoding="utf-8") as file:
        file.write(text)
        file.flush()
        told = json.loads(harness.run(["explain", file.name, *words, "--json"]).out)
    if told["verdict"] == "can happen":
        return 0
    permission = words[1]
    for part in flat(told["parts"]):
        if verdict(changed(text, permission, part["text"]), words) != part["verdict"]:
            raise SystemExit(f"{' '.join(words)}: another verdict of `{part['text']}`")
    for together in told["together"]:
        answer = " and ".join(f"({part['text']})" for part in told["parts"][: together["first"]])
        if verdict(changed(text, permission, answer), words) != together["verdict"]:
            raise SystemExit(f"{' '.join(words)}: another verdict of `{answer}`")
    return len(list(flat(told["parts"]))) + len(told["together"])


def main():
    wholesaler = open("examples/wholesaler.rules.txt", encoding="utf-8").read()
    questions = [(wholesaler, [user, permission]) for user in ("anna", "ben", "carla", "importer") for permission in ("match", "agree", "export")]
    questions += [(PARTED, [user, permission]) for user in ("anna", "ben", "anyone") for permission in ("file", "lock", "burn")]
    mended = open("examples/branch_mended.rules.txt", encoding="utf-8").read()
    for user in ("anna", "otto"):
        questions += [(mended, [user, permission, "on", item]) for permission in ("view", "post") for item in ("invoice", "statement")]
    compared = sum(harness.each(lambda question: asked(*question), questions))
    if compared < 40:
        raise SystemExit(f"only {compared} parts were compared")
    print(f"{compared} verdicts of parts, as of texts with the part alone")


main()
