"""Bits, nodes and rule files for the generators in this folder."""
from functools import partial, reduce

NOT, AND, OR, EQUAL, BELOW, AT_MOST, MEMBER, SUBSET, PROPER = range(2, 11)
USER, SESSION, NEW_SESSION, ITEM, NEW_ITEM, CONSTANT = (32 * holder for holder in range(6))
BIT = (0, 2)


def packed(fields):
    """the bytes of (width, value) fields, the last one filled with zero bits"""
    bits = "".join(f"{value:0{width}b}" for width, value in fields if width)
    bits += "0" * (-len(bits) % 8)
    return int(bits, 2).to_bytes(len(bits) // 8, "big")


def drafted():
    """an empty list of nodes, and what adds one to it and tells its number"""
    nodes = []

    def node(op, a, b):
        nodes.append((op, a, b))
        return len(nodes) - 1

    return nodes, node


def padded(nodes, length):
    """so many nodes, the last saying what the last said"""
    while len(nodes) < length:
        nodes.append((AND, len(nodes) - 1, len(nodes) - 1))
    return nodes


def all_are(node, so_far, holder, bits, constant):
    """the node that says that every one-bit attribute of the holder is the constant, and what was said so far"""
    for k in range(bits):
        here = node(EQUAL, holder + k, CONSTANT + constant)
        so_far = here if so_far is None else node(AND, so_far, here)
    return so_far


def starts(holder, bits, length=1):
    """nodes that say that every one-bit attribute of the holder is 0"""
    nodes, node = drafted()
    if all_are(node, None, holder, bits, 0) is None:
        nodes.append((1, 0, 0))
    return padded(nodes, length)


def pairs(holders, count, dice):
    """so many pairs of two of the three holders: each two in turn, in either order"""
    a, b, c = holders
    return [dice.sample(((a, b), (a, c), (b, c))[k % 3], 2) for k in range(count)]


def clauses(comparisons, dice):
    """64 nodes: a conjunction of clauses, each a disjunction of comparisons, of 3 in the first eight and of 2 in the others. As many comparisons are
    negated as there are nodes left"""
    nodes, node = drafted()
    negated = dice.sample(range(len(comparisons)), 65 - 2 * len(comparisons))

    def literal(k):
        here = node(*comparisons[k])
        return node(NOT, here, 0) if k in negated else here

    groups = [range(k, k + 3) for k in range(0, 24, 3)] + [range(k, k + 2) for k in range(24, len(comparisons), 2)]
    reduce(partial(node, AND), (reduce(partial(node, OR), map(literal, group)) for group in groups))
    return nodes


def never(op):
    """nodes that are true of nothing: the first attributes of session and item are each below, or a proper subset of, the other's"""
    return [(op, SESSION, ITEM), (op, ITEM, SESSION), (AND, 0, 1)]


def question_and_rules(classes, users, formulas):
    """whether any session is ever granted permission 0 on starting item 0, and the file: the attributes (kind, size) of users, sessions and items, the
    users' values, no starting session, and one starting item, of value 0"""
    fields = [(4, len(attributes)) for attributes in classes] + [(5, len(users)), (6, 0), (6, 1), (4, 1), (7, 0)]
    fields += [field for attributes in classes for kind, size in attributes for field in ((1, kind), (5, size), (6, 0))]
    user, _, item = (sum(size if kind else (size - 1).bit_length() for kind, size in attributes) for attributes in classes)
    fields += [(user, value) for value in users] + [(item, 0)]
    for nodes in formulas:
        fields += [(8, len(nodes))] + [field for op, a, b in nodes for field in ((4, op), (8, a), (8, b))]
    return bytes([0x80, 0, 0]) + packed(fields)
