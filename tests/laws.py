"""No proof of the analyser's crates unfolds a definition of the monitor's crates or of those below it that say what rules allow: it uses a law that
stands beside the definition. In a proof file a definition counts by the crate that it is imported from, whatever name it is given there; in an attribute
of the sources by the first word of its path."""
import glob
import re
import sys

ANALYSER = ["replay", "search", "session_search", "item_starts", "item_changes", "item_search", "session_rows", "user_results", "user_searches", "hits", "leak",
            "goal", "decision", "analyser"]
MONITOR = ["formulas", "allowed", "bitsets", "dependence", "planes", "sides", "leaves", "alike", "prepared", "tables", "preparing", "allowed_rows", "cells", "live",
           "steps", "starting", "judge", "monitor"]
USE = rf"^\s*(?:pub )?use Rattle\.({'|'.join(MONITOR)})\.specs\.(\S+?)"
UNFOLDING = r"^( *)unfolding((?: +\S+)+(?:\n\1 +\S+(?: +\S+)*)*)$"


def imported(text):
    """each name that the file gives to a definition of MONITOR, or to a module of them, with what it stands for"""
    names = {}
    for crate, module, group in re.findall(USE + r"\.\{([^}]*)\}", text, re.M):
        for words in map(str.split, filter(str.strip, group.split(","))):
            names[words[-1]] = f"{crate}.{module}.{words[0]}"
    for crate, module, name in re.findall(USE + r"(?: as (\S+))?$", text, re.M):
        names[name or module.split(".")[-1]] = f"{crate}.{module}"
    return names


def unfolded(path):
    """what the file unfolds and should not"""
    with open(path, encoding="utf-8") as file:
        text = file.read()
    names = imported(text)
    for found in re.finditer(UNFOLDING, text, re.M):
        line = text.count("\n", 0, found.start()) + 1
        for name in found[2].split():
            if name.split(".")[0] in names:
                yield f"{path}:{line}: unfolds {name} ({names[name.split('.')[0]]})"


def asked(path):
    """each definition that the attributes of a source ask to have unfolded, by the words of its path, with its line; no words where it can't be read"""
    with open(path, encoding="utf-8") as file:
        text = re.sub(r"//[^\n]*", "", file.read())
    for found in re.finditer(r"\bunfolding\b(?:\s*\(([^()]*)\))?", text):
        for name in (found[1] or "").rstrip(" \n,").split(","):
            yield path, text.count("\n", 0, found.start()) + 1, re.findall(r"\w+", name.replace("Rattle::", ""))


def files(crate, folder, kind):
    return sorted(glob.glob(f"crates/{crate}/{folder}/**/*.{kind}", recursive=True))


proofs = [path for crate in ANALYSER for path in files(crate, "proofs", "antt")]
definitions = [definition for crate in ANALYSER for path in files(crate, "src", "rt") for definition in asked(path)]
wrong = [f"crate {crate} has no proof file" for crate in ANALYSER if not files(crate, "proofs", "antt")]
wrong += [f"crate {crate} has no source" for crate in ANALYSER if not files(crate, "src", "rt")]
wrong += [fault for path in proofs for fault in unfolded(path)]
wrong += [f"{path}:{line}: unfolds {'::'.join(words) or 'what is no path'}" for path, line, words in definitions if not words or words[0] in MONITOR]
for line in wrong:
    print(line)
print(f"{len(proofs)} proof files, {len(definitions)} definitions in attributes of sources, {len(wrong)} wrong")
sys.exit(1 if wrong else 0)
