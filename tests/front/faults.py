"""The faults of tests/front/faults.txt: `rules check` says of each text what is written there, at its place, with the line and carets under it, and
nothing else. The exit status is 1 where one differs."""
import re
import sys
import tempfile

import harness

# of a longer line this many characters are shown, around the place
WIDEST = 160
PATH = "tests/front/faults.txt"


class Fault:
    """a text by its lines, as the base numbers them (a line that is put after line 7 is 7.001), and what is said of them"""

    def __init__(self, number, base):
        self.number, self.lines, self.given, self.reports = number, dict(base), [], []

    def put(self, line, text):
        """puts a line in place of the base's, or after it where the case has given that one already"""
        self.last = line + 0.001 * self.given.count(line)
        self.given.append(line)
        self.lines[self.last] = text

    def text(self):
        """the lines of the text, and where each stands"""
        kept = sorted((line, text) for line, text in self.lines.items() if text is not None)
        return [text for _, text in kept], {line: at for at, (line, _) in enumerate(kept, 1)}


def read():
    """all faults, and the bases that they change"""
    faults, fault, base = [], None, None
    for number, line in enumerate(harness.content(PATH).decode().split("\n"), 1):
        text = re.fullmatch(r"(\d+)\|(?: (.*)|)", line)
        carets = re.fullmatch(r" *\| ( *)(\^+) (error|warning|note): (.*)", line)
        right = re.fullmatch(r" *\| (= .*)", line)
        if not line or line.startswith("#"):
            fault = fault if line else None
            continue
        if not fault:
            fault = Fault(number, {} if line in ("base", "text") else base.lines)
            base = fault if line == "base" else base
            faults.append(fault)
        if text:
            fault.put(int(text[1]), text[2])
        elif carets:
            fault.reports.append([fault.last, len(carets[1]) + 1, len(carets[2]), carets[3], carets[4], []])
        elif right:
            fault.reports[-1][5] = ["      " + right[1]]
        elif line not in ("base", "text"):
            raise SystemExit(f"{PATH}:{number}: neither a line of a text nor a report: {line}")
    return faults


def expected(fault):
    """the lines on standard error, as patterns, and the notes among the lines of standard output"""
    text, at = fault.text()
    lines, notes, errors = [], [], 0
    for line, column, length, severity, message, right in fault.reports:
        place = f"text:{at[line]}:{column}"
        errors += severity == "error"
        if severity == "note":
            notes.append(f"note: {place}: {message}")
        else:
            whole = text[at[line] - 1].replace("\t", " ")
            begin = max(0, column - 1 - WIDEST // 2) if len(whole) > WIDEST else 0
            shown = whole[begin:begin + WIDEST].rstrip()
            lines += [f"{place}: {severity}: {message}", f"{at[line]:>5} | {shown}", "      | " + " " * (column - 1 - begin) + "^" * length, *right]
    return lines + [f"{errors} error{'s' * (errors > 1)}"] * bool(errors), notes


def judged(fault):
    """the run, and what is wrong with it"""
    with tempfile.TemporaryDirectory() as folder:
        harness.put("\n".join([*fault.text()[0], ""]).encode(), folder, "text")
        found = harness.run(["check", "text"], folder=folder)
    errors, notes = expected(fault)
    if found.status not in ((2,) if any(report[3] == "error" for report in fault.reports) else (0, 1)):
        return found, f"exit {found.status}"
    told = [line for line in found.out.decode().split("\n") if line.startswith("note: ")]
    return found, harness.differs(errors, found.err.decode().split("\n")[:-1])[0] or harness.differs(notes, told)[0]


def main():
    faults = read()
    results = list(zip(faults, harness.each(judged, faults)))
    wrong = [(fault, found, difference) for fault, (found, difference) in results if difference]
    for fault, found, difference in wrong:
        print(f"{PATH}:{fault.number}: {difference}\n{found.text()}")
    harness.seen([f"faults.txt:{fault.number}", found.text()] for fault, (found, _) in results)
    print(f"{len(faults)} texts, {len(wrong)} wrong")
    sys.exit(1 if wrong or not faults else 0)


main()
