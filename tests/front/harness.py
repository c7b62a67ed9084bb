"""What the scripts of tests/front share: running the program, two processes at a time, and the stored cases.

A file of cases is read line by line. `#` begins a comment between cases. A case is `$ rules ...`, with `NAME=VALUE` before it and `< FILE`, `>
FILE` after it where needed, then what it prints, standard error first, and `[exit n]`. In what is printed `[..]` stands for any characters of a
line, a line `...` for any lines; a row of lines that begin with `~` in place of a blank stands for a leak's steps, of which any that replay will
do, as many as are stored. `file NAME` begins a file, each of its lines after `| `; `file NAME hex` one of bytes; `file NAME of OTHER` a copy of
another, in which each line `N| TEXT` is put in place of line N."""
import glob
import json
import multiprocessing
import os
import re
import shlex
import subprocess

PROGRAM = os.path.abspath(os.environ.get("RULES_PROGRAM", "target/front/rules"))
PLAIN = {"PATH": os.environ.get("PATH", ""), "TERM": "xterm", "HOME": "/"}
ESCAPE = re.compile(r"␛\[[0-9;]*m")


class Run:
    def __init__(self, status, out, err):
        self.status, self.out, self.err = status, out, err

    def text(self):
        """standard error, then standard output; `␛` stands for the character that begins escape codes"""
        return (self.err + self.out).decode("utf-8", "replace").replace("\x1b", "␛")


def run(arguments, given=b"", folder=None, more=None):
    """runs the program once; a run that ends by a signal has a status below 0"""
    done = subprocess.run([PROGRAM, *arguments], input=given, capture_output=True, cwd=folder, env={**PLAIN, **(more or {})}, timeout=60, check=False)
    return Run(done.returncode, done.stdout, done.stderr)


def each(work, things):
    """the results of `work` for all things, in their order; two processes share them"""
    each.work = work
    with multiprocessing.get_context("fork").Pool(2) as pool:
        return pool.map(one_of, things, chunksize=1 + len(things) // 100)


def one_of(thing):
    try:
        return each.work(thing)
    except SystemExit as end:
        # the pool would wait for ever
        raise RuntimeError(str(end)) from None


def content(*path):
    with open(os.path.join(*path), "rb") as file:
        return file.read()


def put(data, *path):
    with open(os.path.join(*path), "wb") as file:
        file.write(data)


def texts():
    """the stored texts but the example of a text with an error"""
    found = glob.glob("examples/*.rules.txt") + glob.glob("tests/vectors/policies/*.rules.txt")
    return sorted(set(found) - {"examples/branch.rules.txt"})


def seen(outputs):
    """adds outputs, with their places, to the file that messages.py reads"""
    if os.environ.get("RULES_SEEN"):
        with open(os.environ["RULES_SEEN"], "a", encoding="utf-8") as file:
            file.write("".join(json.dumps(output) + "\n" for output in outputs))


class Case:
    def __init__(self, source, number, command):
        self.place = f"{os.path.basename(source)}:{number}"
        self.command = command
        self.more, self.given, self.kept, self.arguments = {}, None, None, []
        self.expected, self.status = [], None
        words = shlex.split(command)
        while "=" in words[0]:
            name, _, value = words.pop(0).partition("=")
            self.more[name] = value
        if words.pop(0) != "rules":
            raise SystemExit(f"{self.place}: a case begins with `$ rules`")
        while words:
            word = words.pop(0)
            if word == "<":
                self.given = words.pop(0)
            elif word == ">":
                self.kept = words.pop(0)
            else:
                self.arguments.append(word)

    def run(self, folder):
        found = run(self.arguments, content(folder, self.given) if self.given else b"", folder, self.more)
        if self.kept:
            put(found.out, folder, self.kept)
            found.out = b""
        return found


def read(path, folder):
    """the cases of a file; its files are written into the folder"""
    cases, case, files, name = [], None, {}, None
    for number, line in enumerate(content(path).decode().split("\n"), 1):
        ended = re.fullmatch(r"\[exit (\d+)\]", line)
        if case and ended:
            case.status = int(ended[1])
            cases.append(case)
            case = None
        elif case:
            case.expected.append(line)
        elif line.startswith("$ "):
            case, name = Case(path, number, line[2:]), None
        elif line.startswith("file "):
            name, *how = line[5:].split()
            files[name] = (how, [])
        elif name and re.match(r"\d*\|", line):
            files[name][1].append(line.partition("|"))
        elif line.strip() and not line.startswith("#"):
            raise SystemExit(f"{path}:{number}: neither a case nor a file: {line}")
    if case:
        raise SystemExit(f"{case.place}: the case has no [exit n]")
    for name, (how, lines) in files.items():
        put(made(how, lines, folder), folder, name)
    return cases


def made(how, lines, folder):
    """the bytes of a file of cases"""
    if how == ["hex"]:
        return bytes.fromhex("".join(text for _, _, text in lines))
    kept = content(folder, how[1]).decode().split("\n") if how else []
    for number, _, text in lines:
        if number:
            kept[int(number) - 1] = text[1:]
        else:
            kept.append(text[1:])
    return "\n".join(kept if how else [*kept, ""]).encode()


STEP = re.compile(r" {2,}\d+  \S")


def like(pattern, line):
    return re.fullmatch(".*".join(map(re.escape, pattern.split("[..]"))), line) is not None


def differs(expected, found):
    """the first difference of the lines found from those expected, or None; and the steps that stand where any that replay will do"""
    leaks, i, at = [], 0, 0
    while i < len(expected):
        if expected[i].startswith("~"):
            stored, i = row_of(expected, i, "~")
            steps, at = row_of(found, at, "  ")
            leaks.append([line.strip() for line in steps if STEP.match(line)])
            if len(leaks[-1]) != sum(bool(STEP.match(" " + line[1:])) for line in stored):
                return f"{len(leaks[-1])} steps found, not as many as stored", leaks
        elif expected[i] == "...":
            i += 1
            while at < len(found) and (i == len(expected) or not like(expected[i], found[at])):
                at += 1
        elif at < len(found) and like(expected[i], found[at]):
            i, at = i + 1, at + 1
        else:
            return f"expected {expected[i]!r}\n     found {found[at] if at < len(found) else 'the end'!r}", leaks
    return (f"expected the end\n     found {found[at]!r}" if at < len(found) else None), leaks


def row_of(lines, start, beginning):
    """the lines from `start` on that begin so, and where they end"""
    end = start
    while end < len(lines) and lines[end].startswith(beginning):
        end += 1
    return lines[start:end], end
