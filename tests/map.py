"""What docs/MAP.md cites is there: names are declared in their crate, edits and sections of the table of cases exist, no place stands twice.
And nothing is left out: every must-fail edit and every claim stands in some row. What docs/PROVED.md has in a column headed "claim" is a claim, the edits
that it names exist, every claim has a proof term, and each of the paper's marked cases P1 to P9 has a row, under a comment with its name, in the
table of crates/p_cases. Each file of definitions stands once in the tables of docs/PROVED.md, with its lines, imports and empty lines left out, and those
that must be believed come to at most 1,500 (`--write` puts the counts in).
A claim is a type without parameters in specs/Claims.antt or specs/Cases.antt of a crate; its proof term is `pub some-name : TheClaim`, exactly, in
the crate's proofs."""
import os
import re
import sys

CASES = "crates/p_cases/specs/Cases.antt"
wrong = []


def read(path):
    with open(path, encoding="utf-8") as file:
        return file.read()


def files(top, *ends):
    for folder, below, names in os.walk(top):
        below[:] = [name for name in below if name != "out"]
        for name in sorted(names):
            if name.endswith(ends):
                yield os.path.join(folder, name)


def found(folder, ends, pattern):
    """what a pattern finds in files of a folder of each crate, as `crate::name`"""
    return {f"{crate}::{name}" for crate in crates for path in files(f"crates/{crate}/{folder}", *ends) for name in re.findall(pattern, read(path), re.M)}


def declared(crate):
    """names that the crate's definitions, claims, laws and functions declare"""
    known = set()
    for path in files(f"crates/{crate}", ".antt", ".rt"):
        text = read(path)
        if path.endswith(".rt"):
            known |= set(re.findall(r"\b(?:fn|struct|enum|const) (\w+)", text))
        else:
            known |= set(re.findall(r"\bpub (?:record |data )?([^\s:({]+)", text))
    return known


def quoted(cell):
    return re.findall(r"`([^`]+)`", cell)


def rows(path, head):
    """the cells of each row, in the tables whose first column has this head"""
    heads = None
    for line in read(path).split("\n"):
        cells = [cell.strip() for cell in line.strip("|").split("|")]
        if not line.startswith("|"):
            heads = None
        elif heads is None:
            heads = cells
        elif heads[0].split(" ")[0] == head and not set(cells[0]) <= set("-: "):
            yield cells


crates = sorted(os.listdir("crates"))
names = {crate: declared(crate) for crate in crates}
edits = {f"{crate}/{name[:-5]}" for crate in crates if os.path.isdir(f"crates/{crate}/must-fail") for name in os.listdir(f"crates/{crate}/must-fail")}
sections = {name for table in ("rules", "steps", "runs") for name in re.findall(r"^# ---- (.*?) ----$", read(f"tests/vectors/{table}.txt"), re.M)}
sections |= set(re.findall(r"^rules \w+$", read("tests/vectors/questions.txt"), re.M))
claims = found("specs", ("Claims.antt", "Cases.antt"), r"^(?:abbrev pub|pub record) ([A-Z]\w+) : Type")
proved = found("proofs", (".antt",), r"^pub [^\s:]+\s*:\s*([A-Z]\w+) *\n(?=\S)")

places, cited_edits, cited_names = set(), set(), set()
for cells in rows("docs/MAP.md", "place"):
    if len(cells) != 5:
        wrong.append(f"{cells[0]}: {len(cells)} cells")
        continue
    place, _, said, refused, executed = cells
    if place in places:
        wrong.append(f"{place}: stands twice")
    places.add(place)
    for name in quoted(said):
        crate, _, item = name.partition("::")
        cited_names.add(name)
        if crate not in names or item.split("::")[-1] not in names[crate]:
            wrong.append(f"{place}: {name} is not declared")
    for edit in quoted(refused):
        cited_edits.add(edit)
        if edit not in edits:
            wrong.append(f"{place}: no edit {edit}")
    for case in quoted(executed):
        if case not in sections and case not in crates and not os.path.exists(case):
            wrong.append(f"{place}: no case {case}")
wrong += [f"no place cites the edit {edit}" for edit in sorted(edits - cited_edits)]
wrong += [f"no place cites the claim {claim}" for claim in sorted(claims - cited_names)]
wrong += [f"the claim {claim} has no proof term" for claim in sorted(claims - proved)]

short = {claim.split("::")[1] for claim in claims}
listed = [name for cells in rows("docs/PROVED.md", "claim") for name in quoted(cells[0])]
wrong += [f"docs/PROVED.md: {name} is no claim of any crate" for name in listed if name not in short]
shown = [name for name in quoted(read("docs/PROVED.md")) if re.fullmatch(r"\w+/\w+", name) and name.split("/")[0] in crates]
wrong += [f"docs/PROVED.md: no edit {name}" for name in shown if name not in edits]

MOST = 1500
specs = [path for crate in crates for path in files(f"crates/{crate}/specs", ".antt") if not path.endswith("/Lib.antt")]
whole = {path: read(path).split("\n")[:-1] for path in specs}
counts = {path: sum(1 for line in whole[path] if line.strip() and not line.startswith("use ")) for path in specs}
proved_text = read("docs/PROVED.md")
believed = re.search(r"^### Definitions that must be believed\n(.*?)^###", proved_text, re.M | re.S)[1]
listed_files = [path for path in re.findall(r"^\| (crates/\S+)", believed, re.M) if path in counts]
total = sum(counts[path] for path in listed_files)
in_all = f"{total:,} lines in all, {sum(len(whole[path]) for path in listed_files):,} with imports and empty lines."
if "--write" in sys.argv:
    proved_text = re.sub(r"^\| (crates/\S+) \| \d+ \|", lambda row: f"| {row[1]} | {counts.get(row[1], 0)} |", proved_text, flags=re.M)
    proved_text = re.sub(r"^[\d,]+ lines in all.*$", in_all, proved_text, flags=re.M)
    with open("docs/PROVED.md", "w", encoding="utf-8") as file:
        file.write(proved_text)
stated = re.findall(r"^\| (crates/\S+) \| (\d+) \|", proved_text, re.M)
wrong += [f"docs/PROVED.md: {path} has {counts.get(path, 'no')} lines" for path, n in stated if counts.get(path) != int(n)]
wrong += [f"docs/PROVED.md: {path} stands in {n} tables" for path in specs for n in [sum(path == other for other, _ in stated)] if n != 1]
if total > MOST or f"\n{in_all}\n" not in proved_text:
    wrong.append(f"docs/PROVED.md: what must be believed has {in_all} At most {MOST:,}")

table = re.search(r"^table =\n(.*?)\n\n", read(CASES), re.M | re.S)
marked = re.findall(r"-- P(\d+):.*\n(?:\s*-- (?!P\d).*\n)*\s*(?:∷ )?\(\s*(\d+),", table[1]) if table else []
wrong += [f"P{n} has no row in the table of {CASES}" for n in "123456789" if (n, n) not in marked]

if not places or not listed:
    wrong.append("docs/MAP.md or docs/PROVED.md has no rows")
for line in wrong:
    print(line)
print(f"{len(places)} places, {len(cited_names)} names, {len(cited_edits)} edits, {len(claims)} claims, {len(marked)} marked cases, {len(wrong)} wrong")
sys.exit(1 if wrong else 0)
