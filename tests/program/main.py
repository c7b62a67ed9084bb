"""main.py PROGRAM WIDE: runs the stored inputs of tests/vectors/runs.txt: at once, and in pieces of seven bytes where there are few. Then the leaks of
bench/inputs, of which any that replays will do: as many rows follow as the first line says, each four numbers, the last an access. The exit status is 1
where anything differs."""
import glob
import re
import subprocess
import sys

LINE = re.compile(r"(wide )?(.*?) *: ((?:SAFE|REFUSED)(?: \d+)+)(?:  +.*)?")


def input_of(text):
    """the bytes that a description stands for"""
    parts = []
    for word in text.split():
        times, _, byte = word.rpartition("*")
        if word == "counter":
            with open("examples/counter.rules", "rb") as file:
                parts.append(file.read())
        else:
            parts.append(bytes.fromhex(byte) * int(times or 1))
    return b"".join(parts)


def printed(program, pieces):
    with subprocess.Popen([program], stdin=subprocess.PIPE, stdout=subprocess.PIPE) as run:
        for piece in pieces:
            try:
                run.stdin.write(piece)
                run.stdin.flush()
            except BrokenPipeError:
                break
        return run.communicate()[0].decode()


inputs = runs = wrong = 0
with open("tests/vectors/runs.txt", encoding="utf-8") as table:
    for number, line in enumerate(table, 1):
        if line.startswith("#") or not line.strip():
            continue
        case = LINE.fullmatch(line.rstrip("\n"))
        if not case:
            sys.exit(f"tests/vectors/runs.txt:{number}: no run")
        wide, text, expected = case.groups()
        program = sys.argv[2] if wide else sys.argv[1]
        data = input_of(text)
        inputs += 1
        ways = [[data]]
        if len(data) < 100:
            ways.append([data[k:k + 7] for k in range(0, len(data), 7)])
        for pieces in ways:
            runs += 1
            found = printed(program, pieces)
            if found != expected + "\n":
                wrong += 1
                print(f"tests/vectors/runs.txt:{number}: expected {expected!r}, printed {found!r}")
leaks = sorted(glob.glob("bench/inputs/*.leak.in"))
for path in leaks:
    with open(path, "rb") as file:
        found = printed(sys.argv[2], [file.read()])
    form = re.fullmatch(r"LEAK (\d+) \d+ \d+\n((?:[1-5] \d+ \d+ \d+\n)*6 \d+ \d+ \d+\n)", found)
    if not form or form[2].count("\n") != int(form[1]):
        wrong += 1
        print(f"{path}: printed {found[:80]!r} ..")
print(f"{inputs} inputs, {runs} runs, {len(leaks)} leaks, {wrong} wrong")
sys.exit(1 if wrong or not runs or not leaks else 0)
