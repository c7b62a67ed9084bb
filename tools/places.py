#!/usr/bin/env python3
"""Places of the design pass (docs/DESIGN-PASS.md), counted in crates/*/src.

    python3 tools/places.py            counts of the tree
    python3 tools/places.py COMMIT     counts of a commit
    python3 tools/places.py .. -l 3    the places of point 3 too

A place is an item (a function, a type, a constant) in which one of the point's forms stands; of points 2, 5 and 6 it is what the heading says.
"""
import collections
import re
import subprocess
import sys

ITEM = re.compile(r"^ *(?:pub(?:\(super\))? )?(?:const )?(?:unsafe )?(?:extern \"C\" )?(fn|struct|enum|const) (\w+)", re.M)

FORMS = {
    1: [("an own enum like Option or Result", r"^ *(?:Refused\(|Absent,|Accepted,|Done,|Nothing,)", "enum"),
        ("a flag with a value beside it", r"^ +(?:pub(?:\(super\))? )?\w+: bool,", "struct"),
        ("a number for a refusal", r"\bnumber: u8,\n    pub pos|Refused\(|refused\((?:next, )?\d|\bn: u8\) -> (?:Cursor|Taken)|\b(?:at|next|end|last|checked)\.number != 0|if number != 0|return (?:8|19);|\b(?:read_field|put_field|put_range|judged)\([^;]*?,\s*\d+,?\s*\)", "fn struct"),
        ("a number for a kind", r"\b(?:whokind|itemkind|sort|way|kind|op|does|what|which|part): (?:u8|u32|u64|usize)\b|-> u8 // code", "fn struct"),
        ("a number for a kind, as a constant", r"const (?:OPEN|CLOSE|CHANGE_SESSION|MAKE|CHANGE_ITEM|ACCESS|ATOMIC|SET|CONSTANT|NOTHING|SESSION|USER|ANYONE|ITEM|ANYTHING): ", "const"),
        ("a number that says that there is none", r"\b256\b *\}? *else|else \{ 256 \}|return 256;|place: 256|< 256 \{$|256 <= hit", "fn struct")],
    3: [("a loop that counts by hand", r"^ *while ", "fn"),
        ("a loop over the numbers of places", r"^ *for (\w+) in [^{]*\.\.[^{]*\{(?s:.)*(?:\[[^\]\n]*\b\1\b[^\]\n]*\]|(?:\bat|_at|get_or|\.session|\.attribute|\.value)\([^;]*\b\1\b)", "fn")],
    4: [("a copy, a conversion or a line by hand", r"fn (?:copy_front|order_of|seen_of|part|number_of|digit|word|words|open_cell|item_cell|put_bytes|put_number|refused|no_session|none|no_rules|nothing|empty)\b|fn (?:bits|of)\(", "fn")],
    7: [("a choice of the step to run", r"match (?:kind|op|does|part|what) \{|^ *if op == |^ *if way == ", "fn")],
}


def files(commit):
    if commit:
        names = subprocess.run(["git", "ls-tree", "-r", "--name-only", commit, "crates"], capture_output=True, text=True, check=True).stdout.split()
        for name in names:
            if re.match(r"crates/\w+/src/.*\.rt$", name):
                yield name, subprocess.run(["git", "show", f"{commit}:{name}"], capture_output=True, text=True, check=True).stdout
    else:
        names = subprocess.run(["git", "ls-files", "crates/*/src/*.rt"], capture_output=True, text=True, check=True).stdout.split()
        for name in names:
            yield name, open(name, encoding="utf-8").read()


def items(name, text):
    """(kind, name, text) of each item; comments are left out."""
    text = re.sub(r"^ *//.*\n", "", text, flags=re.M)
    found = list(ITEM.finditer(text))
    for at, match in enumerate(found):
        end = found[at + 1].start() if at + 1 < len(found) else len(text)
        yield match.group(1), match.group(2), text[match.start():end]


def shape(text):
    """A function's tokens, with names numbered in the order of their first use, and types and numbers as one."""
    body = re.sub(r"^ *(?:requires|ensures).*\n", "", text, flags=re.M)
    seen = {}
    out = []
    for token in re.findall(r"\w+|[^\s\w]", re.sub(r"^.*?(?:fn|struct) \w+(?:<[^>]*>)?", "", body, count=1, flags=re.S)):
        if re.fullmatch(r"[ui](?:8|16|32|64|size)|bool", token):
            token = "T"
        elif re.fullmatch(r"\d\w*", token):
            token = "N"
        elif re.fullmatch(r"\w+", token) and token not in ("fn", "pub", "let", "mut", "if", "else", "for", "in", "while", "return", "match", "as"):
            token = seen.setdefault(token, f"x{len(seen)}")
        out.append(token)
    return " ".join(out)


def conjuncts(clause):
    return [part.strip() for part in re.split(r" × ", clause)]


def main():
    args = sys.argv[1:]
    show = int(args[args.index("-l") + 1]) if "-l" in args else 0
    rest = [a for i, a in enumerate(args) if a != "-l" and (i == 0 or args[i - 1] != "-l")]
    commit = rest[0] if rest else None
    places = collections.defaultdict(list)
    shapes = collections.defaultdict(list)
    facts = collections.defaultdict(set)
    pairs = collections.defaultdict(set)
    for name, text in files(commit):
        crate = name.split("/")[1]
        short = name.replace("crates/", "").replace("/src/", "/")
        for kind, item, body in items(name, text):
            where = f"{short} {item}"
            for point, forms in FORMS.items():
                for what, pattern, kinds in forms:
                    if kind in kinds.split() and re.search(pattern, body, re.M):
                        places[point].append(f"{where}: {what}")
                        break
            if kind == "struct" and re.search(r"\bat: Cursor,", body):
                shapes["what was read, with the place after it"].append(where)
            if kind == "struct" and re.search(r"\bpermissions: u8,\n\}", body):
                shapes["the counts of a file"].append(where)
            if kind == "fn":
                form = shape(body)
                if len(form.split()) > 12:
                    shapes[form].append(where)
                for clause in re.findall(r"^ *(?:requires|ensures)[^{]*\{ (.*) \}$", body, re.M):
                    for fact in conjuncts(clause):
                        if fact != "result ≡ ..":
                            facts[re.sub(r"\b\w+\.(?:now|old|new)\b", lambda m: m.group(0), fact)].add(where)
                head = body[body.find("(") + 1:body.find("\n{")]
                params = re.findall(r"(\w+): (&?(?:'\w+ )?(?:mut )?[\w\[\]; ]+)", head.split(")")[0] if "(" not in head.split("->")[0] else head)
                names = [p[0] + ": " + p[1].strip() for p in params]
                for i in range(len(names) - 1):
                    pairs[(names[i], names[i + 1])].add(where)
            if kind == "struct":
                arrays = re.findall(r"(\w+): \[[^\]]*; ?\w+\]", body)
                if len(arrays) >= 2:
                    places[6].append(f"{where}: parallel arrays {', '.join(arrays)}")
                elif arrays and re.search(r"\b(?:count|len): ", body):
                    places[6].append(f"{where}: an array with a length beside it")
            if kind == "fn" and re.search(r"\[256 \* \w+ \+|\[512 \+|\[768 \+|\[256 \+ k\]|if \w+ < \w+\.len\(\) \{ \w+\[\w+\]", body):
                places[6].append(f"{where}: places of a slice by hand")
    for form, where in sorted(shapes.items()):
        if len(where) > 1:
            for one in where:
                places[2].append(f"{one}: as {', '.join(w for w in where if w != one)}")
    for fact, where in sorted(facts.items()):
        if len(where) >= 3:
            places[5].append(f"in {len(where)} contracts: {fact}")
    for pair, where in sorted(pairs.items()):
        if len(where) >= 6:
            places[5].append(f"in {len(where)} functions: {pair[0]}, {pair[1]}")
    for point in range(1, 8):
        print(f"{point}: {len(places[point])}")
        if point == show:
            for place in places[point]:
                print("   ", place)


if __name__ == "__main__":
    main()
