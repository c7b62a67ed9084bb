"""Runs the commands that documents show, `    $ bin/rules ..` or `    bin/rights ..` with its output below, and compares what they print."""
import re
import subprocess
import sys


def shown(path):
    """The commands of a document, each with the lines shown below it, up to a line that is not indented."""
    command, lines = None, []
    for line in open(path, encoding="utf-8").read().split("\n") + [""]:
        begins = re.match(r"    (?:\$ )?(bin/r\S+ (?:[a-z]+|<) examples/.*)$", line)
        inside = line.startswith("    ") or line == ""
        if command and (begins or not inside):
            yield command, "\n".join(lines).strip("\n") + "\n"
            command = None
        if begins:
            command, lines = begins.group(1), []
        elif inside:
            lines.append(line[4:])


def main():
    compared, bad = 0, 0
    for path in sys.argv[1:]:
        for command, expected in shown(path):
            if not expected.strip() or "  " in command:
                continue
            ran = subprocess.run(["bash", "-c", command], stdout=subprocess.PIPE, text=True, check=False)
            compared += 1
            if ran.stdout != expected:
                bad += 1
                print(f"{path}: {command}\n--- shown\n{expected}--- printed\n{ran.stdout}")
    print(f"{compared} commands print what is shown")
    sys.exit(1 if bad or compared < 8 else 0)


main()
