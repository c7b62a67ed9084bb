"""Random rules with the text and the rule file of each, made side by side by paper 01 and docs/TEXT.md; neither program is asked.

`text(seed, new)` gives a text and its bytes: without `new` an old text, whose names are often the words that came later; with it also names for
sessions and items, names in quotes and of other alphabets, expectations, and lists with names. `file(seed)` gives bytes alone, with list numbers and
with nodes that several others share."""
import random

from named_lists import WithLists
from rulefile import Attribute, Rules

# the words that the language got later; an old text may have them as names
LATER = "expect never can on anyone any list order amounts firm section some every unset opener amount is made".split()
# the words that name nothing without quotes
RESERVED = "user session item new attribute one set of permission open change make allow let and or not in subset proper true false".split()
CLASSES = ["user", "session", "item"]
HOLDERS = ["user", "session", "new session", "item", "new item"]
CLASS_OF = [0, 1, 1, 2, 2]
# the holders that a formula may use: open session, change session, make item, change item, then the permissions
ALLOWED = [(0, 2), (0, 1, 2), (1, 4), (1, 3, 4), (1, 3)]
# these begin declarations, now or later: as names of sessions and items they stand in quotes
BEGINNING = "expect list order amounts firm section".split()
OTHERS = ["a", "b2", "_", "x_y", "Role", "ledger", "state", "p0", "level", "clerk"]
STRANGE = ["müller", "größe", "счёт", "会計", "two words", "user", "let", "a-b", "1st", "it's", "a,b", "#5", "{x}", "of", "true", "a b", "="]


class Maker(WithLists):
    def __init__(self, seed, new, lists):
        self.random = random.Random(seed)
        self.new = new
        self.rules = Rules()
        self.words = []
        self.plan_lists(lists)

    def name(self, taken):
        """a name that is not taken"""
        while True:
            roll = self.random.random()
            if self.new and roll < 0.15:
                name = self.random.choice(STRANGE)
            elif roll < 0.75:
                name = self.random.choice(LATER)
            else:
                name = self.random.choice(OTHERS) + self.random.choice(["", "", "1", "_"])
            if name not in taken:
                return name

    def written(self, name):
        """a name as a text has it; in quotes where it must, and in a new text now and then where it need not"""
        plain = name.replace("_", "a").isalnum() and not name[0].isdigit() and name not in RESERVED
        return name if plain and not (self.new and self.random.random() < 0.1) else f'"{name}"'

    def add(self, *words):
        self.words += words

    def value_names(self, size):
        """names for the values of a list, or none"""
        names = []
        if self.random.random() < 0.6:
            for _ in range(size):
                names.append(self.name(names))
        return names

    def attributes(self, number, most):
        left = self.random.choice([0, 3, most, most])
        for _ in range(self.random.choice([0, 1, 1, 2, 2, 3, 8])):
            is_set = self.random.random() < 0.5
            size = self.random.randint(1, 8) if is_set else self.random.choice([1, 2, 2, 3, 4, 5, 8, 16, self.random.randint(1, 16)])
            names, used = self.value_names(size), self.used_list(is_set)
            if used:
                size, names = used.size, used.names
            attribute = Attribute(self.name([a.name for a in self.rules.attributes[number]]), is_set, size, names, used)
            if attribute.width() <= left and len(self.rules.attributes[number]) < 8:
                left -= attribute.width()
                self.rules.attributes[number].append(attribute)
                self.maybe_declare()
                if used in self.waiting:
                    self.declare(used)
                self.add(CLASSES[number], "attribute", self.written(attribute.name), ":", "set" if is_set else "one", "of")
                self.add(*[self.written(used.name)] if used else self.braces(names) if names else [str(size)])

    def braces(self, names):
        words = ["{"]
        for name in names:
            words += [self.written(name) if isinstance(name, str) else str(name), ","]
        return words[:-1] + ["}"] if names else ["{", "}"]

    def holder(self, number):
        owner = self.random.randrange(len(self.rules.holders[0])) if number == 1 else 0
        taken = [h[0] for h in self.rules.holders[number]]
        name = self.name(taken)
        if number and not (self.new and self.random.random() < 0.6):
            name = None
        self.add(CLASSES[number])
        if name:
            self.add(f'"{name}"' if number and name in BEGINNING else self.written(name))
        if number == 1:
            self.add("of", self.written(self.rules.holders[0][owner][0]))
        attributes = self.rules.attributes[number]
        codes = [self.random.randrange(1 << a.size if a.is_set else a.size) for a in attributes]
        given = []
        for attribute, code in self.random.sample(list(zip(attributes, codes)), len(codes)):
            given += [",", self.written(attribute.name), "=", *self.value(attribute, code)]
        self.add(*([":"] + given[1:] if given else []))
        self.rules.holders[number].append((name, owner, codes))

    def value(self, attribute, code):
        """a value by the names or numbers of its list; the members of a set in any order, now and then one twice"""
        named = [name if self.random.random() < 0.9 else number for number, name in enumerate(attribute.names)] or list(range(attribute.size))
        if not attribute.is_set:
            return [self.written(named[code]) if isinstance(named[code], str) else str(code)]
        members = [named[i] for i in range(attribute.size) if code >> i & 1]
        self.random.shuffle(members)
        words = self.braces(members + members[:1] * (self.random.random() < 0.1))
        return words[:-1] + [",", "}"] if members and self.random.random() < 0.05 else words

    def formula(self, heading):
        """the words of a formula and its nodes: each expression but a part's name gives a node after those of its sides"""
        self.nodes, self.parts = [], {}
        self.allowed = ALLOWED[min(heading, 4)]
        words = []
        for _ in range(self.random.choice([0, 0, 0, 1, 2, 4])):
            name = self.name(self.parts)
            part, node = self.either(1)
            words += ["let", self.written(name), "=", *part]
            self.parts[name] = node
        answer, node = self.either(3)
        if node != len(self.nodes) - 1:
            self.nodes.append((3, node, node))
        if len(self.nodes) > 64:
            return self.formula(heading)
        self.rules.formulas.append(self.nodes)
        return words + answer

    def joined(self, depth, below, word, operator):
        words, node = below(depth)
        while self.random.random() < 0.25:
            more, other = below(depth)
            words += [word, *more]
            self.nodes.append((operator, node, other))
            node = len(self.nodes) - 1
        return words, node

    def either(self, depth):
        return self.joined(depth, self.both, "or", 4)

    def both(self, depth):
        return self.joined(depth, self.single, "and", 3)

    def single(self, depth):
        kind = self.random.choice(["part", "part", "compare", "compare", "compare", "compare", "true", "not", "group"])
        if kind == "part" and self.parts:
            name = self.random.choice(list(self.parts))
            return [self.written(name)], self.parts[name]
        if kind == "group" and depth:
            words, node = self.either(depth - 1)
            return ["(", *words, ")"], node
        if kind == "not":
            words, node = self.single(depth)
            words, made = ["not", *words], (2, node, 0)
        elif kind == "true":
            operator = self.random.randrange(2)
            words, made = [["false", "true"][operator]], (operator, 0, 0)
        else:
            words, made = self.compared()
        self.nodes.append(made)
        return words, len(self.nodes) - 1

    def compared(self):
        sides = [(holder, number, a) for holder in self.allowed for number, a in enumerate(self.rules.attributes[CLASS_OF[holder]])]
        atoms, sets = ([side for side in sides if side[2].is_set == wanted] for wanted in (False, True))
        operator = self.random.choice([5, 5, 6, 7] + [8, 8, 9, 10] * bool(sets))
        right = self.random.choice(sets if operator > 7 else atoms + [None])
        # two attributes have one list, or none of them has a list with a name; a constant fits any
        fit = [side for side in (sets if operator > 8 else atoms) if not right or side[2].list is right[2].list]
        left = self.random.choice(fit + [None] * (operator < 9))
        signs = {5: ["="], 6: ["<"], 7: ["<="], 8: ["in"], 9: ["subset"], 10: ["proper", "subset"]}
        (first, a), (second, b) = self.side(left, right), self.side(right, left)
        return first + signs[operator] + second, (operator, a, b)

    def side(self, side, other):
        """the words and the operand of a side; without an attribute a constant, by name where the other side has a list of names"""
        if side:
            holder, number, attribute = side
            return [*HOLDERS[holder].split(), ".", self.written(attribute.name)], holder << 5 | number
        number = self.random.randrange(16)
        if other and other[2].names and self.random.random() < 0.8:
            number = self.random.randrange(other[2].size)
            return [self.written(other[2].names[number])], 5 << 5 | number
        return [str(number)], 5 << 5 | number

    def called(self, number):
        """a holder of a class by its name or number, after its class word"""
        at = self.random.randrange(len(self.rules.holders[number]))
        name = self.rules.holders[number][at][0]
        return [CLASSES[number], self.written(name) if name and self.random.random() < 0.7 else str(at)]

    def expectation(self):
        number = self.random.randrange(3)
        who = self.called(number) if number < 2 and self.rules.holders[number] else ["anyone"]
        words = ["expect", *who, self.random.choice(["never", "can"]), self.written(self.random.choice(self.rules.permissions))]
        roll = self.random.random()
        if roll < 0.4 and self.rules.holders[2]:
            return words + ["on", *self.called(2)]
        return words + ["on", "any", "item"] * (roll < 0.6)

    def make(self):
        """all declarations as words, in an order that has each name before its use; returns the rules"""
        most = self.random.choice([1, 4, 8, 8])
        for number in self.random.sample(range(3), 3):
            self.attributes(number, most)
        for _ in range(self.random.choice([1, 1, 2, 3, 16])):
            self.holder(0)
            self.maybe_declare()
        for _ in range(self.random.choice([1, 1, 2, 8])):
            self.rules.permissions.append(self.name(self.rules.permissions))
            self.add("permission", self.written(self.rules.permissions[-1]))
        for number in self.random.sample([1, 2], 2):
            for _ in range(self.random.choice([0, 0, 1, 2, 32])):
                self.holder(number)
                self.maybe_declare()
        headings = [["open", "session"], ["change", "session"], ["make", "item"], ["change", "item"]]
        headings += [["allow", self.written(permission)] for permission in self.rules.permissions]
        formulas = [heading + [":"] + self.formula(number) for number, heading in enumerate(headings)]
        self.random.shuffle(formulas)
        for words in formulas:
            self.add(*words)
            self.maybe_declare()
            if self.new and self.random.random() < 0.3:
                self.add(*self.expectation())
        if self.new and self.random.random() < 0.3:
            self.words[:0] = self.expectation()
        self.finish_lists()
        return self.rules

    def spaced(self):
        """the words with blanks, line ends and comments between them; a word that begins a declaration mostly begins a line"""
        text = ""
        blanks = [" "] * 20 + ["  ", "\t", "\n", "\n  ", "\r\n", " # user x\n", "#\n\n"]
        for word in self.words:
            between = self.random.choice(blanks)
            if word in ("list", "user", "session", "item", "permission", "open", "change", "make", "allow", "expect") and self.random.random() < 0.5:
                between = "\n"
            if text and between == " " and self.random.random() < 0.5 and (word in ":,={}()." or text[-1] in ":,={}()."):
                between = ""
            text += between + word
        return text + self.random.choice(["", "\n", " ", "\n# the end"])


def text(seed, new=False):
    """a text and the bytes of its file"""
    maker = Maker(seed, new, new)
    rules = maker.make()
    return maker.spaced(), rules.file()


def file(seed):
    """the bytes of a rule file whose nodes are of all kinds and refer to any earlier ones"""
    maker = Maker(seed, False, True)
    maker.make()
    for heading, nodes in enumerate(maker.rules.formulas):
        maker.allowed = ALLOWED[min(heading, 4)]
        nodes.clear()
        for at in range(maker.random.choice([1, 2, 3, 5, 9, 64])):
            operator = maker.random.randrange(11) if at else maker.random.choice([0, 1, 5, 8])
            if operator > 4:
                node = maker.compared()[1]
            else:
                earlier = [maker.random.choice([at - 1, at - 1, maker.random.randrange(at)]) if at else 0 for _ in range(2)]
                node = (operator, earlier[0] if operator > 1 else 0, earlier[1] if operator > 2 else 0)
            nodes.append(node)
    return maker.rules.file()
