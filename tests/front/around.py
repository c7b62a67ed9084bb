"""What stands around the program. Files: `-o` writes whole or not at all, keeps permissions, follows a symbolic link, and leaves nothing over.
Terminals: colour there and nowhere else, and no bytes. Outputs that cannot be written, and arguments that are not UTF-8: no panic. What documents
show of the examples that are refused. The exit status is 1 where anything is wrong."""
import os
import shlex
import shutil
import stat
import subprocess
import sys
import tempfile

import harness

ASK = ["ask", "wholesaler.rules.txt", "anna", "agree"]
LEAK = ["ask", "wholesaler.rules.txt", "importer", "agree"]
BAD = ["check", "bad.rules.txt"]
PRINTING = [ASK, BAD, ["example"], ["help"], ["list", "examples/counter.rules"], ["assemble", "wholesaler.rules.txt"], [*ASK, "--json"]]
# what a shell hands over as the byte ff is \udcff here
STRANGE = [["\udcff"], ["--\udcff"], [""], ["\x1b[31m"], ["assemble", "wholesaler.rules.txt", "-o", "\udcff/x"], ["check", "long.rules.txt"]]
STRANGE += [["ask", path, "anna", "agree"] for path in ("", "\udcff", "\x1b[31m", "examples")]
STRANGE += [["ask", "wholesaler.rules.txt", word, "agree"] for word in ("", "\udcff", "\x1b[31m", "a" * 100000)]
# the examples' errors and refusals, and how far one is read, as documents show them
SHOWN = [("docs/TEXT.md", ["check", "examples/branch.rules.txt"], 4), ("docs/TEXT.md", ["check", "examples/branch.rules"], 2),
         ("docs/CLERK.md", ["list", "examples/branch.rules"], 2), ("docs/TEXT.md", ["check", "-v", "examples/counter.rules"], 2)]
wrong = []


def expect(right, what):
    if not right:
        wrong.append(what)


def status(folder, *arguments):
    return harness.run(arguments, folder=folder).status


def written(folder):
    before = os.listdir(folder)
    right = harness.run(["assemble", "wholesaler.rules.txt"], folder=folder).out
    path = os.path.join(folder, "out.rules")
    harness.put(b"old", path)
    os.chmod(path, 0o640)
    for command in ("assemble", "list"):
        expect(status(folder, command, "bad.rules.txt", "-o", "out.rules") == 2, f"{command} of a bad text")
        expect(harness.content(path) == b"old", f"{command} of a bad text changed the old file")
    expect(status(folder, "assemble", "wholesaler.rules.txt", "-o", "out.rules") == 0, "-o over an old file")
    expect(harness.content(path) == right, "-o wrote other bytes than standard output gets")
    expect(stat.S_IMODE(os.stat(path).st_mode) == 0o640, f"the permissions became {stat.S_IMODE(os.stat(path).st_mode):o}")
    os.symlink("out.rules", os.path.join(folder, "link.rules"))
    expect(status(folder, "assemble", "examples/counter.rules.txt", "-o", "link.rules") == 0, "-o through a symbolic link")
    expect(os.path.islink(os.path.join(folder, "link.rules")) and len(harness.content(path)) == 33, "-o replaced the symbolic link")
    expect(status(folder, "assemble", "wholesaler.rules.txt", "-o", "new.rules") == 0, "-o to a new file")
    expect(status(folder, "list", "new.rules", "-o", "new.txt") == 0, "list -o")
    expect(harness.content(folder, "new.txt") == harness.run(["list", "new.rules"], folder=folder).out, "list -o wrote another text")
    for path in ("examples", "/dev/full", "nowhere/x"):
        expect(status(folder, "assemble", "wholesaler.rules.txt", "-o", path) == 2, f"-o {path}")
    left = set(os.listdir(folder)) - {*before, "out.rules", "link.rules", "new.rules", "new.txt"}
    expect(not left, f"left over: {left}")


def shown():
    """what the documents show of the examples, indented, is what is printed, up to so many lines"""
    for path, arguments, many in SHOWN:
        lines = harness.run(arguments).text().split("\n")[:many]
        block = "".join(f"    {line}\n" for line in lines)
        expect(len(lines) == many and block in harness.content(path).decode(), f"{path} does not show this:\n{block}")


def on_terminal(folder, arguments, **more):
    """what a run prints on a terminal"""
    command = ["script", "-qec", shlex.join([harness.PROGRAM, *arguments]), "/dev/null"]
    surroundings = {**harness.PLAIN, **more}
    done = subprocess.run(command, cwd=folder, env=surroundings, stdin=subprocess.DEVNULL, capture_output=True, timeout=60, check=False)
    return harness.Run(done.returncode, done.stdout.replace(b"\r", b""), b"")


def coloured(folder):
    for arguments in (ASK, LEAK, BAD):
        usual, told = harness.run(arguments, folder=folder), on_terminal(folder, arguments)
        expect("␛[" in told.text() and told.status == usual.status, f"{arguments} on a terminal: {told.text()}")
        expect(harness.ESCAPE.sub("", told.text()) == usual.text() and "␛" not in usual.text(), f"{arguments} in a pipe: {usual.text()}")
        for more in ({"NO_COLOR": "1"}, {"TERM": "dumb"}):
            expect("␛" not in on_terminal(folder, arguments, **more).text(), f"{arguments} on a terminal, coloured with {more}")
        expect("␛" in on_terminal(folder, arguments, NO_COLOR="").text(), "an empty NO_COLOR asks for nothing")
        for option in (["--colour", "never"], ["--json"]):
            expect("␛" not in on_terminal(folder, [*arguments, *option]).text(), f"{arguments} on a terminal, coloured with {option}")
        expect("␛" in harness.run([*arguments, "--colour", "always"], folder=folder).text(), "no colour with --colour always")


def into(folder, arguments, output):
    command = [harness.PROGRAM, *arguments]
    return subprocess.run(command, cwd=folder, env=harness.PLAIN, stdout=output, stderr=subprocess.PIPE, timeout=60, check=False)


def unwritable(folder, arguments):
    """standard output is full, or nobody reads it"""
    with open("/dev/full", "wb") as full:
        done = into(folder, arguments, full)
    expect(done.returncode == 2 and b"panicked" not in done.stderr, f"{arguments} into a full device: exit {done.returncode}, {done.stderr}")
    reader, writer = os.pipe()
    os.close(reader)
    done = into(folder, arguments, writer)
    os.close(writer)
    expect(done.returncode != 101 and b"panicked" not in done.stderr, f"{arguments} into a closed pipe: exit {done.returncode}, {done.stderr}")


def main():
    with tempfile.TemporaryDirectory() as folder:
        shutil.copytree("examples", os.path.join(folder, "examples"))
        shutil.copy("examples/wholesaler.rules.txt", folder)
        harness.put(b"user anna\nuser anna\n", folder, "bad.rules.txt")
        expect(harness.run(["example"]).out == harness.content("examples/wholesaler.rules.txt"), "the example is another text")
        written(folder)
        shown()
        coloured(folder)
        told = on_terminal(folder, ["assemble", "wholesaler.rules.txt"])
        expect(told.status == 2 and "\0" not in told.text(), f"bytes on a terminal: {told.text()}")
        for arguments in PRINTING:
            unwritable(folder, arguments)
        with open(os.path.join(folder, "long.rules.txt"), "wb") as file:
            file.truncate(1 << 25)
        long = harness.run(["check", "long.rules.txt"], folder=folder)
        strange = []
        for arguments in STRANGE:
            found = harness.run(arguments, folder=folder)
            strange.append([f"around.py, {arguments}", found.text()])
            right = found.status == 2 and "panicked" not in found.text() and "␛" not in found.text()
            expect(right, f"{arguments}: exit {found.status}, {found.text()[:200]}")
    harness.seen([["around.py, bytes on a terminal", told.text()], ["around.py, a long file", long.text()], *strange])
    print("\n".join(wrong + [f"files, terminals and arguments: {len(wrong)} wrong"]))
    sys.exit(1 if wrong else 0)


main()
