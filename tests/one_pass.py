"""Reading goes over the bytes of a rule file once: one function looks at them, and no bit is taken twice.

What is proved is that the reader's count of bits and its place are equal after every function that reads. This test adds that nothing goes round the reader,
by the sources of the crates that read:
A. What holds the bytes and the place, and the functions that look at a field, are as tests/one_pass/known.txt has them, word for word, without comments and
   contracts. A place there only grows.
B. `FileReader` has `Drop` and no other trait, so none is kept to go back to. One is made, in `reader::read_policy`, which gives it back to
   `rules::read_rules`, and otherwise it is only lent.
C. Every other function that reads has it as the parameter `reader`, a reference; it may call the four methods of `reader` and hand it on to a function of these
   crates, the one that its path and the file's `use` lines name, and that is all. It may neither give it another name nor keep it, and no type, other result or
   closure has one. No other value is handed to such a function as its reader, and of none is a method of these names called.
D. The file stands in `rules::read_rules` and `reader::read_policy` alone, where the reader is made. (What `write_rules` calls `file` is its own.) Its bytes
   are followed from there: they are handed to a function of these crates, asked for their length, or kept by `BitReader::new`; all else is looking at them.
E. None of these crates has a form that this test can't see through: `unsafe`, statics, macros, `mem`, closures, traits, texts, items in a function, a module in
   a file, a `use` line with `as`, `*` or braces in braces, an attribute other than `tactic` and `derive`."""
import os
import re
import sys

CRATES = ["bits", "format", "reader_head", "reader", "rules"]
READING = ["reader_head", "reader", "rules"]
START, LOOKS = "rules::read_rules", "bits::window"
KEEPS = "format::bit_reader::BitReader::new"
METHODS = ["take", "field", "position", "taken"]
# what stands in known.txt, and nowhere else
NAMES = {"FileReader": "format::file_reader::FileReader", "BitReader": "format::bit_reader::BitReader", "window": "bits::window", "field_at": "bits::field_at",
         "found_at": "format::bit_reader::found_at", "read_at": "format::bit_reader::read_at"}
WORDS = rf"\b(?:{'|'.join(NAMES)}|src|file)\b|\.(?:bits|at|src|taken)\b(?!\()"
UNSEEN = r"\b(?:unsafe|static|macro_rules|mem|extern|asm|transmute|Cell|trait|dyn)\b|&raw|\"|/\*|'\\?.'|\bmod \w+ \{|#!?\[(?!tactic\(|derive\()"
WITHIN = ["use", "fn", "mod", "struct", "enum", "impl", "type", "const", "move"]
TOKEN = re.compile(r"'\w+|\w+|::|\|\||\S")
CLOSES = {"(": ")", "{": "}", "[": "]"}


def closing(text, at):
    """the place of the bracket that closes the one at a place, of a text or of tokens"""
    depth = 0
    for k in range(at, len(text)):
        depth += (text[k] == text[at]) - (text[k] == CLOSES[text[at]])
        if depth == 0:
            return k
    raise ValueError("no closing bracket")


def bare(text):
    """a source without comments, contracts and ghost lines"""
    text = re.sub(r"//[^\n]*", "", text)
    while clause := re.search(r"\b(?:requires|ensures)(?: \w+)? \{|(?:pub )?\bghost \w+: \{", text):
        end = closing(text, clause.end() - 1) + 1
        text = text[:clause.start()] + text[end + (text[end:end + 1] == ","):]
    return re.sub(r"\bghost use [^;]*;", "", text)


def words(text):
    return " ".join(re.findall(r"\w+|[^\s\w]", re.sub(r",(?=\s*[)}\]])", "", text)))


class Function:
    def __init__(self, source, name, params, result, body):
        self.source, self.name, self.given, self.result, self.body = source, name, params, result, body
        self.tokens = TOKEN.findall(body)
        self.inside, opened = [], [-1]
        for k, token in enumerate(self.tokens):
            opened = opened[:-1] if token in CLOSES.values() else opened
            self.inside.append(opened[-1])
            opened = opened + [k] if token in CLOSES else opened
        self.params = re.findall(r"(?:^|,)\s*&?(?:'\w+ )?(?:mut )?(\w+)\s*(?=:|,|$)", params)

    def parts(self, start):
        """from where to where each part goes that a comma parts, in the bracket that opens at a place"""
        end = closing(self.tokens, start)
        edges = [start] + [k for k in range(start, end) if self.tokens[k] == "," and self.inside[k] == start] + [end]
        return [(a + 1, b) for a, b in zip(edges, edges[1:]) if b > a + 1]

    def unseen(self):
        """items and closures in it"""
        for before, token in zip(self.tokens, self.tokens[1:]):
            if token in WITHIN or (token in ("|", "||") and (not re.match(r"[\w)\]]", before) or before in ("return", "else", "in", "match", "if"))):
                yield token

    def called(self, start):
        """the words of what is called where a bracket opens; no words where that is a method, or a name of the function's own"""
        t, k, path = self.tokens, start - 1, []
        while t[start] == "(" and re.match(r"[a-zA-Z_]", t[k]):
            path.insert(0, t[k])
            if t[k - 1] != "::":
                break
            k -= 2
        own = len(path) == 1 and (path[0] in self.params or any(t[i + 1] != "(" for i, token in enumerate(t) if token == path[0]))
        return [] if own or t[k - 1] in (".", "::") else path


class Source:
    """a file: what its `use` lines name, its functions, its types, and what is left of it"""

    def __init__(self, path, text):
        self.path, self.uses, self.functions, self.left, at, text = path, {}, [], "", 0, bare(text)
        self.wrong = [f"{path} has {unseen}, which this test can't see through" for unseen in re.findall(UNSEEN, text)]
        for m in re.finditer(r"(?:pub(?:\(super\))? )?fn (\w+)(?:<[^>]*>)?\(", text):
            if m.start() < at:
                continue
            end = closing(text, m.end() - 1)
            start = text.index("{", end)
            stop = closing(text, start) + 1
            owner = re.findall(r"\bimpl(?:<[^>]*>)? (\w+)", text[:m.start()])
            name = "::".join([path] + owner[-1:] * (text[:m.start()].count("{") > text[:m.start()].count("}")) + [m.group(1)])
            self.functions.append(Function(self, name, text[m.end():end], text[end + 1:start], text[start:stop]))
            self.wrong += [f"{name} has {word} within, which this test can't see through" for word in self.functions[-1].unseen()]
            self.left, at = self.left + text[at:m.start()], stop
        self.left += text[at:]
        self.types = re.findall(r"\b(?:struct|enum) (\w+)", self.left)
        for line in re.findall(r"\buse\b[^;]*;", self.left):
            m = re.fullmatch(r"use ((?:\w+::)*)(?:(\w+)|\{([\w,\s]*)\});", line)
            if not m or " as " in line:
                self.wrong.append(f"{path} has {line}, which this test can't see through")
                continue
            for name in re.findall(r"\w+", m[2] or m[3]):
                self.uses[name] = re.findall(r"\w+", m[1]) + [name]
        self.left = re.sub(r"\buse\b[^;]*;", "", self.left)


class Program:
    def __init__(self, root):
        self.sources = {}
        for crate in CRATES:
            top = os.path.join(root, "crates", crate, "src")
            for folder, _, names in os.walk(top):
                for name in names:
                    parts = os.path.relpath(os.path.join(folder, name), top)[:-len(".rt")].split(os.sep)
                    path = "::".join([crate] + parts * (parts != ["lib"]))
                    with open(os.path.join(folder, name), encoding="utf-8") as source:
                        self.sources[path] = Source(path, source.read())
        self.functions = {f.name: f for source in self.sources.values() for f in source.functions}
        self.wrong = [line for source in self.sources.values() for line in source.wrong]
        for source in self.sources.values():
            for name in NAMES.keys() & source.uses.keys():
                if self.full(source, [name]) != NAMES[name]:
                    self.wrong.append(f"{source.path} takes {self.full(source, [name])} for {NAMES[name]}")

    def full(self, source, path):
        """the path of what some words name in a file"""
        path, here = source.uses.get(path[0], path[:1]) + path[1:], source.path.split("::")
        if path[0] in ("self", "super", "crate"):
            return "::".join({"self": here, "super": here[:-1], "crate": here[:1]}[path[0]] + path[1:])
        near = len(path) == 1 or path[0] in source.types or "::".join(here + path[:1]) in self.sources
        return "::".join(here * near + path)

    def callee(self, f, start):
        """the path of what is called where a bracket opens, and the function of these crates that it is, or none"""
        path = f.called(start)
        name = self.full(f.source, path) if path else f.tokens[start - 1]
        return name, self.functions.get(name) if path else None

    @staticmethod
    def handed(f, start, g):
        """from where to where each argument of a call goes, by the parameters' names"""
        return dict(zip(g.params, f.parts(start)))

    def fail(self, f, what):
        self.wrong.append(f"{f.name} {what}")

    def lent(self, f):
        """what is wrong with how a function uses the reader"""
        t, given = f.tokens, re.sub(r"\breader: &(?:mut )?FileReader\b", "", f.given)
        if f.name.startswith((NAMES["FileReader"] + "::", NAMES["BitReader"] + "::")):
            self.fail(f, "is a method of a reader, and known.txt doesn't have it")
        for word in re.findall(WORDS + r"|\breader\b", given) + re.findall(WORDS, f.result + f.body):
            if (f.name.split("::")[0] in READING or word not in ("file", "src")) and (word != "file" or "let mut file: [" not in f.body):
                self.fail(f, f"names {word}")
        for k, token in enumerate(t):
            if token == "reader" and not (t[k + 1] == "." and t[k + 2] in METHODS and t[k + 3] == "(" and t[k - 1] not in (".", "::")):
                start = f.inside[k]
                name, g = self.callee(f, start) if t[start] == "(" else ("", None)
                if not g or self.handed(f, start, g).get("reader") != (k, k + 1):
                    self.fail(f, f"uses the reader in an unknown way: {' '.join(t[max(0, k - 3):k + 3])}" + f" (what is called is {name})" * (name != ""))
            if f.name.split("::")[0] in READING and token in METHODS and t[k - 1] in (".", "::") and t[k - 2] != "reader":
                self.fail(f, f"calls {token} of {t[k - 2]}, which is not its reader")
            g = self.callee(f, k)[1] if token == "(" else None
            if g and "reader" in g.params:
                a, b = self.handed(f, k, g).get("reader", (k, k))
                if t[a:b] != ["reader"]:
                    self.fail(f, f"hands {' '.join(t[a:b])} to {g.name}, which is not its reader")

    def follow(self):
        """the functions that look at the bytes of the file"""
        work, seen, looks = [(START, k) for k in self.stand(self.functions[START], "file")], set(), set()
        while work:
            name, (a, b) = place = work.pop()
            f = self.functions[name]
            if place in seen:
                continue
            seen.add(place)
            t, start = f.tokens, f.inside[a]
            called, g = self.callee(f, start) if t[start] == "(" else ("", None)
            if g and (a, b) in f.parts(start):
                work += [(g.name, k) for param, to in self.handed(f, start, g).items() if to == (a, b) for k in self.stand(g, param)]
            elif re.match(r"\w", called) and (a, b) in f.parts(start):
                self.fail(f, f"hands the file to {called}, which is no function of {', '.join(CRATES)}")
            elif name == KEEPS and t[start - 1:start + 1] == ["BitReader", "{"]:
                work += [(h.name, k) for h in self.functions.values() for k in self.kept(h)]
            elif t[b:b + 4] != [".", "len", "(", ")"]:
                looks.add(name)
        return looks

    @staticmethod
    def stand(f, name):
        """where a parameter stands in a function"""
        return [(k, k + 1) for k, token in enumerate(f.tokens) if token == name and f.tokens[k - 1] not in (".", "::")]

    @staticmethod
    def kept(f):
        """where what a reader has of the bytes stands in a function"""
        for k, token in enumerate(f.tokens):
            if token == "src" and f.tokens[k - 1] == ".":
                a = k
                while f.tokens[a - 1] == "." and re.match(r"\w", f.tokens[a - 2]):
                    a -= 2
                yield a, k + 1


def main():
    root = sys.argv[1]
    program = Program(root)
    with open(os.path.join(root, "tests", "one_pass", "known.txt"), encoding="utf-8") as known:
        pinned = dict(entry.split("\n", 1) for entry in known.read().split("\n\n"))
    for name, text in pinned.items():
        f, source = program.functions.get(name), program.sources.get(name)
        if words(text) != words(f.given + f.result + f.body if f else source.left if source else ""):
            program.wrong.append(f"{name} is not as known.txt has it")
    for f in program.functions.values():
        if f.name not in pinned:
            program.lent(f)
    for source in program.sources.values():
        if source.path not in pinned:
            program.wrong += [f"{source.path} names {word} outside of its functions" for word in re.findall(WORDS, source.left)]
    looks = ", ".join(sorted(program.follow())) or "no function"
    if looks != LOOKS:
        program.wrong.append(f"the file's bytes are looked at by {looks}; it should be {LOOKS} alone")
    with open(os.path.join(root, "docs", "DECISIONS.md"), encoding="utf-8") as decisions:
        if f"`{LOOKS}` alone looks at the bytes of a file" not in decisions.read():
            program.wrong.append(f"docs/DECISIONS.md does not name {LOOKS}")
    for line in program.wrong:
        print(line)
    print(f"{len(program.functions)} functions, {len(pinned)} of them or of the types as known.txt has them; the file's bytes are looked at by {looks}")
    sys.exit(1 if program.wrong else 0)


main()
