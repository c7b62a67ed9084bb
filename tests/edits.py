"""Every must-fail edit can be applied, one replacement after another: each 'old:' text stands exactly once in its file, and 'new:' is another text.
Each begins with a line that says what would be wrong. `rt ci` tries the edits late; this takes no time."""
import glob
import os
import sys


def faults(path):
    """what is wrong with the edit in this file"""
    folder = os.path.dirname(os.path.dirname(path))
    texts, name, old = {}, None, None
    with open(path, encoding="utf-8") as file:
        lines = file.read().split("\n")
    if not lines[0].startswith("# "):
        yield "its first line does not say what would be wrong"
    for line in lines:
        if line.startswith("file: "):
            name = os.path.join(folder, line[6:])
            if name not in texts and os.path.isfile(name):
                with open(name, encoding="utf-8") as file:
                    texts[name] = file.read()
            if name not in texts:
                yield f"no file {name}"
                return
        elif line.startswith("old: "):
            old = line[5:]
        elif line.startswith("new:"):
            new = line[5:]
            found = texts[name].count(old) if name and old else 0
            if found != 1:
                yield f"stands {found} times in {name}: {old}"
                return
            if new == old:
                yield f"changes nothing: {old}"
            texts[name], old = texts[name].replace(old, new), None


edits = sorted(glob.glob("crates/*/must-fail/*.edit"))
wrong = [f"{path}: {fault}" for path in edits for fault in faults(path)]
for line in wrong:
    print(line)
print(f"{len(edits)} edits, {len(wrong)} wrong")
sys.exit(1 if wrong or not edits else 0)
