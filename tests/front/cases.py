"""Runs the stored cases of tests/front/outputs: `cases.py [FILE ..]`. A leak's steps are carried out again by `rules replay .. for QUESTION`; steps
other than the stored ones are shown, and are no fault. The exit status is 1 where a case differs."""
import glob
import json
import os
import re
import shutil
import sys
import tempfile

import harness


def prepared(folder):
    """fills the folder that cases run in: the example, its neighbours, and the stored policies"""
    shutil.copytree("examples", os.path.join(folder, "examples"))
    shutil.copytree("tests/vectors/policies", os.path.join(folder, "policies"))
    shutil.copy("examples/wholesaler.rules.txt", folder)


def parts(case):
    """the rules that a case asks about, the words of its question, and its names"""
    rest, words, names = case.arguments[1:], [], []
    while rest:
        word = rest.pop(0)
        if word == "--names":
            names = [word, rest.pop(0)]
        elif word == "--colour":
            rest.pop(0)
        elif word == "--question" or not word.startswith("-"):
            words.append(word)
    return words[0], words[1:], names


def asked(case, text):
    """the words of each question whose leak an output has, in their order"""
    if case.arguments[0] != "check":
        return [parts(case)[1]]
    lines = re.findall(r"^NOT MET +\d+  (.*): can happen", harness.ESCAPE.sub("", text), re.M)
    return [re.sub(r" (never|can) ", " ", line, count=1).split() for line in lines]


def replayed(case, text, leaks, folder):
    """the first leak whose steps, in words, do not grant what is asked"""
    questions = asked(case, text)
    if len(questions) != len(leaks):
        return f"{len(leaks)} leaks for {len(questions)} questions"
    rules, _, names = parts(case)
    for question, steps in zip(questions, leaks):
        harness.put("\n".join(steps).encode(), folder, "leak.steps")
        found = harness.run(["replay", rules, "leak.steps", "for", *question, *names], folder=folder)
        if found.status != 0:
            return f"its steps do not replay for {' '.join(question)}:\n{found.text()}"
    return None


def object_of(line):
    """an object's keys and values in their order, with the number of steps in their place, and the steps' words, if there are steps"""
    pairs = json.loads(line, object_pairs_hook=lambda pairs: pairs)
    steps = [dict(step)["text"] for step in dict(pairs).get("steps") or []]
    kept = [(key, len(value) if key == "steps" and value else value) for key, value in pairs]
    return kept, [steps] if steps else []


def compared(case, found, folder):
    """what is wrong with a run, or None"""
    text = found.text()
    lines = text.split("\n")
    if lines.pop() != "":
        return "the output's last line has no end"
    if found.status != case.status:
        return f"exit {found.status}, not {case.status}:\n{text}"
    if "␛" in text and "always" not in case.arguments:
        return "escape codes in a pipe"
    if case.expected and case.expected[0].startswith('{"command"'):
        (expected, _), (kept, leaks) = object_of(case.expected[0]), object_of(text)
        wrong = None if expected == kept else f"the object is {text}"
    else:
        wrong, leaks = harness.differs(case.expected, lines)
    return wrong or (replayed(case, text, leaks, folder) if leaks else None)


def all_of(path):
    """runs the cases of a file in a folder of their own, one after another: each with its run and what is wrong"""
    with tempfile.TemporaryDirectory() as folder:
        prepared(folder)
        for case in harness.read(path, folder):
            found = case.run(folder)
            yield case, found, compared(case, found, folder)


def main():
    paths = sys.argv[1:] or sorted(glob.glob("tests/front/outputs/*.txt"))
    results = sum(harness.each(lambda path: list(all_of(path)), paths), [])
    wrong = 0
    for case, found, difference in results:
        stored = [" " + line[1:] if line.startswith("~") else line for line in case.expected]
        if difference:
            wrong += 1
            print(f"{case.place}: $ {case.command}\n  {difference}")
        elif stored != case.expected and stored != found.text().split("\n")[:-1]:
            print(f"{case.place}: other steps than the stored ones, which replay:\n{found.text()}")
    harness.seen([case.place, found.text()] for case, found, _ in results)
    print(f"{len(results)} cases, {wrong} wrong")
    sys.exit(1 if wrong or not results else 0)


if __name__ == "__main__":
    main()
