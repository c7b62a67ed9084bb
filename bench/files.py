"""files.py FOLDER: rule files of growing size up to the largest legal one, whose nodes compare a constant with an attribute (nodesNN), two attributes
with list 0 throughout (plainNN), or two attributes where each has a list number (listsNN); and such files of hardly anything but nodes, with one user and no
starting sessions or items (fewnodesNN, fewplainNN, fewlistsNN). In FOLDER/many 400 files of all sizes, from the smallest to the largest."""
import os
import random
import sys

sys.dont_write_bytecode = True
from pack import packed


def rules(nodes, first, lists, few):
    """the largest counts, or few holders, and so many nodes in each of the 12 formulas: an operand compared with a holder that the formula may use. The
    attributes of each class have the list numbers in turn"""
    users, sessions, items = (1, 0, 0) if few else (16, 32, 32)
    fields = [(4, 8), (4, 8), (4, 8), (5, users), (6, sessions), (6, items), (4, 8), (7, 0)]
    for _ in range(3):
        for k in range(8):
            fields += [(1, 0), (5, 2), (5, lists[k % len(lists)]), (1, 0)]
    fields += [(8, 170)] * users + [(4, 3), (8, 85)] * sessions + [(8, 15)] * items
    for formula in range(12):
        holder = 2 if formula < 2 else 1
        fields.append((8, nodes))
        fields += [(4, 5), (8, 160 + 3 if first is None else 32 * holder + first), (8, 32 * holder + 7)] * nodes
    return packed(fields)


for name, first, lists in (("nodes", None, [0]), ("plain", 3, [0]), ("lists", 3, [1, 2, 3, 4])):
    for nodes in (1, 8, 16, 32, 64):
        for few in ("", "few"):
            with open(f"{sys.argv[1]}/{few}{name}{nodes:02}.rules", "wb") as out:
                out.write(rules(nodes, first, lists, few))


def any_rules(dice, share):
    """rules in which each count is drawn between share * share and share of the largest; each formula says over and over that a constant is equal to itself"""
    def up_to(most, least=0):
        return dice.randint(max(least, round(most * share * share)), max(least, round(most * share)))

    attributes = [up_to(8) for _ in range(3)]
    users, sessions, items, permissions = up_to(16, 1), up_to(32), up_to(32), up_to(8, 1)
    fields = [(4, n) for n in attributes] + [(5, users), (6, sessions), (6, items), (4, permissions), (7, 0)]
    for n in attributes:
        for _ in range(n):
            fields += [(1, 1), (5, 1), (5, dice.choice([0, 7])), (1, 0)] if dice.random() < 0.5 else [(1, 0), (5, 2), (5, 0), (1, 0)]
    user, session, item = attributes
    fields += [(user, dice.randrange(2 ** user)) for _ in range(users)]
    for _ in range(sessions):
        fields += [(4, dice.randrange(users)), (session, dice.randrange(2 ** session))]
    fields += [(item, dice.randrange(2 ** item)) for _ in range(items)]
    for _ in range(4 + permissions):
        nodes = up_to(64, 1)
        fields.append((8, nodes))
        fields += [(4, 5), (8, 160 + 3), (8, 160 + 3)] * nodes
    return packed(fields)


dice = random.Random(3)
os.mkdir(f"{sys.argv[1]}/many")
for k in range(400):
    with open(f"{sys.argv[1]}/many/{k:03}.rules", "wb") as out:
        out.write(any_rules(dice, k / 399))
