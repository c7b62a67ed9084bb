"""Every message has a case, and every message that a case gave is one of the list: each function of front/*messages.rs has its words in strings of
its own, whose patterns some output in RULES_SEEN has; and each error, warning and note there says one of them. The exit status is 1 where one is
missing."""
import glob
import json
import os
import re
import sys

import harness

FUNCTION = re.compile(r"^pub fn (\w+)\(.*?^\}", re.M | re.S)
STRING = re.compile(r'"((?:[^"\\]|\\.)*)"')
# a warning of the text that `--names` gives has a place after its severity
SAID = re.compile(r"^(?:\S+|standard input)(?::\d+:\d+)?: (?:error|warning): (?:\S+:\d+:\d+: )?(.*)$|^rules: (.*)$|^note: \S+?:\d+:\d+: (.*)$", re.M)


def pattern(string):
    """a format string as a pattern: what stands in braces may be anything, two braces are one"""
    parts = re.split(r"(\{\{|\}\}|\{[^{}]*\})", string.replace('\\"', '"').replace("\\\\", "\\"))
    return "".join(".+" if re.fullmatch(r"\{[^{}]*\}", part) else re.escape(part.replace("{{", "{").replace("}}", "}")) for part in parts)


def messages():
    """(file and function, pattern) of every string of every message"""
    found = []
    for path in sorted(glob.glob("front/*messages.rs")):
        for function in FUNCTION.finditer(harness.content(path).decode()):
            strings = STRING.findall(function[0])
            if not strings:
                sys.exit(f"{path}: {function[1]} has no string of its own")
            found += [(f"{path}: {function[1]}", pattern(string)) for string in strings]
    return found


def main():
    outputs = [json.loads(line) for line in harness.content(os.environ["RULES_SEEN"]).decode().splitlines()]
    known = messages()
    text = "\n".join(output for _, output in outputs)
    wrong = [f"{name}: no case gives this message: {words}" for name, words in known if not re.search(words, text)]
    every = re.compile("|".join(f"(?:{words})" for _, words in known))
    for place, output in outputs:
        for said in map("".join, SAID.findall(harness.ESCAPE.sub("", output))):
            if not every.fullmatch(said):
                wrong.append(f"{place}: no message of the list: {said}")
    print("\n".join(wrong + [f"{len(known)} messages, {len(outputs)} outputs, {len(wrong)} wrong"]))
    sys.exit(1 if wrong or not known or not outputs else 0)


main()
