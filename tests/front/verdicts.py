"""Every verdict is the proved program's: for every user, session and anyone, every permission, every item and any item of the stored texts, and for
some questions of generated ones, `rules ask` says what that program prints for the same question and file. Every leak's steps, in words, are read
back by `rules replay` to the same rows, and carried out. `verdicts.py PROGRAM [HOW_MANY]`; the exit status is 1 where one differs."""
import json
import random
import subprocess
import sys
import tempfile

import generate
import harness

# the proved program, with rows enough for every file
RIGHTS = sys.argv[1]
MANY = int(sys.argv[2]) if len(sys.argv) > 2 else 200


def questions(data):
    """every question of a rule file, as bytes; the counts stand in its head"""
    head = int.from_bytes(data[:5], "big")
    users, sessions, items, permissions = head >> 23 & 31, head >> 17 & 63, head >> 11 & 63, head >> 7 & 15
    who = [64 + user for user in range(users)] + list(range(sessions)) + [128]
    return [bytes([kind, item, permission << 4]) for kind in who for item in [128, *range(items)] for permission in range(permissions)]


def in_words(question):
    """a question by numbers; its permission by the name that a rule file's permission has"""
    kind, number = question[0] >> 6, question[0] & 63
    who = [f"session {number}", f"user {number}", "anyone"][kind]
    item = "any item" if question[1] & 128 else f"item {question[1] & 63}"
    return f"{who} permission{question[2] >> 4} on {item}\n"


def printed(question, data):
    """(verdict, pairs, values) of the proved program, or the number of a refusal; and its rows"""
    out = subprocess.run([RIGHTS], input=question + data, capture_output=True, check=True).stdout.decode().split("\n")
    words = out[0].split()
    if words[0] == "REFUSED":
        return int(words[1]), []
    return ("never" if words[0] == "SAFE" else "can happen", int(words[-2]), int(words[-1])), [list(map(int, row.split())) for row in out[1:-1]]


def unlike(path, answer, question, theirs, folder):
    """what is wrong with an answer: (verdict, pairs, values) and rows are right"""
    facts, rows = theirs
    found = answer and (answer["question"]["bytes"], (answer["verdict"], answer["pairs"], answer["values"]), bool(answer["steps"]))
    if found != (question.hex(), facts, bool(rows)):
        return [f"{question.hex()}: {facts} is right, told is {found}"]
    if not rows:
        return []
    harness.put("\n".join(step["text"] for step in answer["steps"]).encode(), folder, "steps")
    replayed = json.loads(harness.run(["replay", path, "steps", "--json"], folder=folder).out)
    if [(step["row"], step["done"]) for step in replayed["steps"]] != [(step["row"], True) for step in answer["steps"]]:
        return [f"{question.hex()}: {answer['steps']} are read back as {replayed}"]
    return []


def told(path):
    """how many questions were asked of a text's file or of a rule file, and what is wrong with the answers"""
    data = harness.run(["assemble", path]).out if path.endswith(".txt") else harness.content(path)
    every = questions(data)
    theirs = [printed(question, data) for question in every]
    with tempfile.TemporaryDirectory() as folder:
        harness.put(data, folder, "rules")
        run = harness.run(["ask", "rules", "-", "--json"], "".join(map(in_words, every)).encode(), folder)
        said = json.loads(run.out)
        if isinstance(theirs[0][0], int):
            right = run.status == 2 and said["verdict"] == "refused" and said["number"] == theirs[0][0]
            return len(every), [] if right else [f"{path}: refused by {theirs[0][0]}, told is {said}"]
        wrong = [] if run.status == int(any(rows for _, rows in theirs)) else [f"exit {run.status}"]
        answers = said["answers"] + [None] * (len(every) - len(said["answers"]))
        for question, right, answer in zip(every, theirs, answers):
            wrong += unlike("rules", answer, question, right, folder)
    return len(every), [f"{path}, {fault}" for fault in wrong]


def generated(seed):
    """the same of three questions of a generated text with names"""
    text, data = generate.text(seed, True)
    wrong = []
    with tempfile.TemporaryDirectory() as folder:
        harness.put(text.encode(), folder, "text")
        for question in random.Random(seed).choices(questions(data), k=3):
            right = printed(question, data)
            said = json.loads(harness.run(["ask", "text", "--question", question.hex(), "--json"], folder=folder).out)
            if isinstance(right[0], int):
                wrong += [] if said.get("number") == right[0] else [f"{question.hex()}: refused by {right[0]}, told is {said}"]
            else:
                wrong += unlike("text", said, question, right, folder)
    return 3, [f"generate.text({seed}, True), {fault}" for fault in wrong]


def main():
    paths = harness.texts() + ["examples/counter.rules"]
    results = harness.each(told, paths) + harness.each(generated, range(MANY))
    wrong = sum((faults for _, faults in results), [])
    print("\n".join(wrong[:20] + [f"{sum(asked for asked, _ in results)} questions of {len(results)} rules, {len(wrong)} answers wrong"]))
    sys.exit(1 if wrong else 0)


main()
