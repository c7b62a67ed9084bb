"""Rules and the rule file of them, bit by bit as paper 01 lays it out, with the list numbers of paper 02."""


class List:
    """a list with a name; `fixed` is the number that the text gives it, or None"""

    def __init__(self, name, size, names, fixed):
        self.name, self.size, self.names, self.fixed = name, size, names, fixed
        self.number = None


class Attribute:
    """`list` is the list with a name that it uses, or None"""

    def __init__(self, name, is_set, size, names, list=None):
        self.name, self.is_set, self.size, self.names, self.list = name, is_set, size, names, list

    def width(self):
        return self.size if self.is_set else (self.size - 1).bit_length()

    def field(self, code):
        """a code as its field: of a set, member 0 is the first bit"""
        return sum(1 << (self.size - 1 - i) for i in range(self.size) if code >> i & 1) if self.is_set else code


class Bits:
    """fields side by side, the first in the highest bits"""

    def __init__(self):
        self.number, self.length = 0, 0

    def put(self, width, number):
        assert 0 <= number < 1 << width
        self.number, self.length = self.number << width | number, self.length + width

    def bytes(self):
        filling = -self.length % 8
        return (self.number << filling).to_bytes((self.length + filling) // 8, "big")


class Rules:
    """users, sessions and items are (name, user, codes); nodes are (operator, a, b) as in the file"""

    def __init__(self):
        self.attributes = [[], [], []]
        self.holders = [[], [], []]
        self.permissions = []
        self.formulas = []

    def file(self):
        bits = Bits()
        for attributes in self.attributes:
            bits.put(4, len(attributes))
        for width, many in zip((5, 6, 6, 4, 7), [len(h) for h in self.holders] + [len(self.permissions), 0]):
            bits.put(width, many)
        for attribute in sum(self.attributes, []):
            bits.put(1, int(attribute.is_set))
            bits.put(5, attribute.size)
            bits.put(5, attribute.list.number if attribute.list else 0)
            bits.put(1, 0)
        for number, holders in enumerate(self.holders):
            for _, user, codes in holders:
                if number == 1:
                    bits.put(4, user)
                for attribute, code in zip(self.attributes[number], codes):
                    bits.put(attribute.width(), attribute.field(code))
        for nodes in self.formulas:
            bits.put(8, len(nodes))
            for operator, a, b in nodes:
                bits.put(4, operator)
                bits.put(8, a)
                bits.put(8, b)
        return bits.bytes()
