"""The front and the second program give the same bytes: of all stored texts, and of generated ones, whose bytes the generator knows too. What the
front lists, of generated rule files and of texts with their names, is assembled again by both, to the same bytes. `same.py SECOND [HOW_MANY]`; the
exit status is 1 where anything differs."""
import os
import subprocess
import sys
import tempfile

import generate
import harness

SECOND = os.path.abspath(sys.argv[1])
MANY = int(sys.argv[2]) if len(sys.argv) > 2 else 2000


def second(command, data):
    done = subprocess.run([SECOND, command], input=data, capture_output=True, timeout=60, check=False)
    return harness.Run(done.returncode, done.stdout, done.stderr)


def told(what, data, *runs):
    """the first run whose output is not `data`, as words"""
    for run in runs:
        if run.status != 0 or run.out != data:
            return f"{what}: exit {run.status}, {run.err[:300]!r}, {run.out[:80].hex()} for {data[:80].hex()}"
    return None


def both(what, data, text):
    """whether both programs make `data` of a text"""
    return told(what, data, harness.run(["assemble"], text), second("assemble", text))


def stored(path):
    text = harness.content(path)
    return both(path, second("assemble", text).out, text)


def generated(seed, new):
    text, data = generate.text(seed, new)
    return both(f"generate.text({seed}, {new})", data, text.encode())


def listed(seed):
    """a generated file: its listing, assembled by both"""
    data = generate.file(seed)
    text = harness.run(["list"], data)
    what = f"the listing of generate.file({seed})"
    return both(what, data, text.out) if text.status == 0 else f"{what}: exit {text.status}, {text.err!r}"


def listed_by_second(seed):
    """a generated file, listed by the second program"""
    data = generate.file(seed)
    return told(f"the second program's listing of generate.file({seed})", data, harness.run(["assemble"], second("list", data).out))


def listed_with_names(seed):
    """a generated text's file, listed with the text's names"""
    text, data = generate.text(seed, True)
    what = f"the listing of generate.text({seed}, True) with its names"
    with tempfile.TemporaryDirectory() as folder:
        harness.put(text.encode(), folder, "text")
        harness.put(data, folder, "file")
        listing = harness.run(["list", "file", "--names", "text"], folder=folder)
    return both(what, data, listing.out) if listing.status == 0 else f"{what}: exit {listing.status}, {listing.err!r}"


def main():
    texts = harness.texts()
    work = [(stored, path) for path in texts]
    work += [(generated, seed, False) for seed in range(MANY)]
    work += [(generated, seed, True) for seed in range(MANY // 4)]
    work += [(listed, seed) for seed in range(MANY)]
    work += [(listed_by_second, seed) for seed in range(0, MANY, 8)]
    work += [(listed_with_names, seed) for seed in range(0, MANY, 4)]
    wrong = [fault for fault in harness.each(lambda job: job[0](*job[1:]), work) if fault]
    for fault in wrong[:20]:
        print(fault)
    print(f"{len(texts)} stored texts, {MANY + MANY // 4} generated texts, {MANY} generated files: {len(wrong)} wrong")
    sys.exit(1 if wrong or not texts else 0)


main()
