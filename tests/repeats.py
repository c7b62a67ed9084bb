"""Runs of 7 lines or more of the same shape in two places of the crates' .rt and .antt files. Names, numbers and white space are folded;
comments, imports, constants, fields, parameters and the printed frame of a proof don't count. Fails where two files share more or longer runs than
tests/repeats.txt allows, which has a line for each two files: how many runs, the lines of the longest, and the files. --write makes that list anew."""
import os
import re
import sys
from collections import defaultdict

LEAST = 7
LIST = "tests/repeats.txt"
WORDS = set("fn pub if else while for in return match let mut loop rw simp omega search cc elim where record data unfolding unfoldable abbrev".split())
PASSED_OVER = re.compile(
    r"^\s*(use |pub use |ghost use |mod |pub mod |pub const |--|//|#!?\[|(pub )?\w+: [\w&'\[\]; ]+,?$"  # imports, comments, attributes, constants, fields and parameters
    r"|tie\.|\(tie\.|\S+ : tie\.|\S+-spec|(abbrev )?(pub )?\S+ : goal\.|returns\S* c = search rules|\S+ c = (search rules|omega arith)$|let \w+ = c\.[\w-]+ in$|search rules,?$"
    r"|[a-z0-9_-]+\)?$|[{}()\[\];,]*$)"
)


def folded(line):
    words = re.findall(r"[A-Za-z_][\w\-'′·]*|\d\w*|[^\s\w]", re.sub(r"--.*|//.*", "", line))
    return " ".join(word if word in WORDS or not re.match(r"\w", word) else "n" if word[0].isdigit() else "w" for word in words)


def shapes(path):
    with open(path, encoding="utf-8") as file:
        return [folded(line) for line in file if line.strip() and not PASSED_OVER.match(line)]


def sources():
    for folder, below, names in os.walk("crates"):
        below[:] = sorted(name for name in below if name != "out")
        for name in sorted(names):
            if name.endswith((".rt", ".antt")):
                yield os.path.join(folder, name)


def shared(lines):
    """for each two files, the lengths of the runs that they share"""
    starts = defaultdict(list)
    for path, rows in lines.items():
        for k in range(len(rows) - LEAST + 1):
            starts[tuple(rows[k : k + LEAST])].append((path, k))
    runs = defaultdict(list)
    for places in starts.values():
        for a, (p, i) in enumerate(places):
            for q, j in places[a + 1 :]:
                if (p == q and abs(i - j) < LEAST) or (i and j and lines[p][i - 1] == lines[q][j - 1]):
                    continue
                n = LEAST
                while i + n < len(lines[p]) and j + n < len(lines[q]) and lines[p][i + n] == lines[q][j + n]:
                    n += 1
                runs[p, q].append(n)
    return {files: (len(found), max(found)) for files, found in runs.items()}


def listed():
    with open(LIST, encoding="utf-8") as file:
        rows = [line.split() for line in file if line.strip() and not line.startswith("#")]
    return {(p, q): (int(count), int(longest)) for count, longest, p, q in rows}


def main():
    found = shared({path: shapes(path) for path in sources()})
    if "--write" in sys.argv:
        with open(LIST, "w", encoding="utf-8") as file:
            file.write("# how many runs of 7 lines or more two files share, the longest, the files (tests/repeats.py)\n")
            for (p, q), (count, longest) in sorted(found.items()):
                file.write(f"{count} {longest} {p} {q}\n")
        return
    known = listed()
    wrong = [(files, runs) for files, runs in sorted(found.items()) if files not in known or runs[0] > known[files][0] or runs[1] > known[files][1]]
    for (p, q), (count, longest) in wrong:
        print(f"{p} and {q} share {count} runs, the longest of {longest} lines")
    print(f"{len(found)} pairs of files share runs of {LEAST} lines, {len(wrong)} of them more than {LIST} allows")
    sys.exit(1 if wrong else 0)


main()
