"""Each wrong program of wrong.txt is made in a copy of the sources, and tests/one_pass.py must refuse it and say what the entry says. An entry is a
line on what is wrong, replacements (a file, a text that stands in it once, the text in its place), and a part of what the test must print."""
import os
import re
import shutil
import subprocess
import sys
import tempfile

SOURCES = ["crates/bits/src", "crates/format/src", "crates/reader_head/src", "crates/reader/src", "crates/rules/src"]
OTHERS = ["docs/DECISIONS.md", "tests/one_pass/known.txt"]


def fault(entry, root):
    """what is wrong with how an entry goes, in a copy of the sources; none where it is refused as it says"""
    for name, old, new in re.findall(r"^file: (.*)\nold: (.*(?:\n .*)*?)\nnew: (.*(?:\n .*)*?)(?=\nfile: |\nsays: )", entry, re.M):
        path = os.path.join(root, name)
        with open(path, encoding="utf-8") as file:
            text = file.read()
        if text.count(old) != 1:
            return f"stands {text.count(old)} times in {name}: {old}"
        with open(path, "w", encoding="utf-8") as file:
            file.write(text.replace(old, new))
    ran = subprocess.run([sys.executable, "tests/one_pass.py", root], capture_output=True, text=True)
    says = entry.split("\nsays: ")[1].strip()
    if ran.returncode != 1 or says not in ran.stdout:
        return f"was not refused with '{says}'\n{ran.stdout}{ran.stderr}"
    return None


def main():
    with open("tests/one_pass/wrong.txt", encoding="utf-8") as file:
        entries = re.split(r"\n\n(?=# )", file.read())
    missed = 0
    for entry in entries:
        with tempfile.TemporaryDirectory() as root:
            for folder in SOURCES:
                shutil.copytree(folder, os.path.join(root, folder))
            for name in OTHERS:
                os.makedirs(os.path.dirname(os.path.join(root, name)))
                shutil.copy(name, os.path.join(root, name))
            what = fault(entry, root)
        if what:
            missed += 1
            print(entry.split("\n")[0][2:] + ": " + what)
    print(f"{len(entries)} wrong programs, " + (f"{missed} not noticed" if missed else "each noticed"))
    sys.exit(1 if missed else 0)


main()
