"""records.py FOLDER [COPIES]: writes FOLDER/stdin and FOLDER/stdout, records for the program rules_case and the lines that it should print for them,
COPIES times over. What a record holds is said in crates/rules_case/src/record.rt; the answers are worked out by hand from the paper."""
import copy
import os
import struct
import sys

# the counter file (paper, "Counter file"), and its rules: an attribute is kind (0 atomic, 1 set), size and list number; a node is operator, a, b;
# holders 1 to 4 are 32 to 128, constants 160 on
FILE = "1111000080840840080806500000650000056028006280800e2808158284c00040"
# the same with list 31 for users and sessions and list 1 for items. Bytes 5 to 9 hold the attributes, 12 bits each, and the two users' values:
# 1 00001 11111 0, 1 00001 11111 0, 0 00010 00001 0, 1, 0 and the first two bits of open session's count
LISTED = FILE.replace("8408400808", "87e87e0828")
RULES = {
    "user": [(1, 1, 0)], "session": [(1, 1, 0)], "item": [(0, 2, 0)],
    "users": [1, 0], "sessions": [], "items": [], "permissions": 1,
    "formulas": [[(9, 64, 0)], [(9, 64, 0)], [(5, 128, 160)], [(8, 160, 32)], [(8, 160, 32), (5, 96, 161), (3, 0, 1)]],
}


def places(numbers, size, fill):
    """a row of so many bytes, with numbers at its front"""
    return bytes(numbers) + bytes([fill]) * (size - len(numbers))


def record(rules, room, fill=0, **counts):
    """the bytes of a record; counts are put in place of what the rules hold"""
    out = b""
    for name in ("user", "session", "item"):
        attributes = rules[name]
        out += bytes([counts.get(name, len(attributes))]) + places([k for k, _, _ in attributes], 8, fill)
        out += places([s for _, s, _ in attributes], 8, fill) + places([n for _, _, n in attributes], 8, fill)
    out += bytes([counts.get("users", len(rules["users"]))]) + places(rules["users"], 32, fill)
    sessions = rules["sessions"]
    out += bytes([counts.get("sessions", len(sessions))]) + places([u for u, _ in sessions], 32, fill) + places([v for _, v in sessions], 32, fill)
    out += bytes([counts.get("items", len(rules["items"]))]) + places(rules["items"], 32, fill)
    out += bytes([rules["permissions"]]) + places([len(nodes) for nodes in rules["formulas"]], 12, fill)
    for f in range(12):
        nodes = rules["formulas"][f] if f < len(rules["formulas"]) else []
        for op, a, b in nodes:
            out += struct.pack("<I", op * 65536 + a * 256 + b)
        out += bytes([fill]) * (4 * (64 - len(nodes)))
    return out + struct.pack("<H", room)


def changed(**parts):
    return {**copy.deepcopy(RULES), **parts}


def formulas(first):
    """the counter file's formulas with another first one"""
    return [first] + RULES["formulas"][1:]


CASES = [
    (record(RULES, 4096), FILE),
    (record(RULES, 33), FILE),
    (record(RULES, 32), "REFUSED 11"),
    (record(RULES, 0), "REFUSED 11"),
    (record(RULES, 4096, fill=255), FILE),                                              # places that no count covers don't matter
    (record(RULES, 4096, users=0), "REFUSED 2"),
    (record(RULES, 4096, users=17), "REFUSED 2"),
    (record(RULES, 4096, user=17), "REFUSED 2"),                                        # 17 is 1 in four bits, and not cut down
    (record(changed(permissions=9), 4096), "REFUSED 2"),
    (record(changed(item=[(1, 9, 0)]), 4096), "REFUSED 4"),
    (record(changed(item=[(2, 2, 0)]), 4096), "REFUSED 4"),
    (record(changed(session=[(1, 5, 0), (1, 5, 0)]), 4096), "REFUSED 5"),
    (record(changed(users=[1, 2]), 4096), "REFUSED 6"),
    (record(changed(sessions=[(2, 0)]), 4096), "REFUSED 7"),
    (record(changed(formulas=formulas([(2, 0, 0)])), 4096), "REFUSED 8"),
    (record(changed(formulas=formulas([(25, 64, 0)])), 4096), "REFUSED 8"),             # 25 is 9 in four bits
    (record(changed(formulas=formulas([])), 4096), "REFUSED 8"),
    (record(changed(users=[1, 2]), 0), "REFUSED 6"),                                    # 6 before 11
    (record(changed(user=[(1, 1, 31)], session=[(1, 1, 31)], item=[(0, 2, 1)]), 33), LISTED),
    (record(changed(user=[(1, 1, 1)], session=[(1, 1, 1)], item=[(0, 2, 1)]), 4096), "REFUSED 18"),    # sizes 1 and 2 in list 1
    (record(changed(item=[(0, 2, 32)]), 4096), "REFUSED 18"),                           # 32 is 0 in five bits
    (record(changed(item=[(0, 2, 255)]), 0), "REFUSED 18"),                             # 18 before 11
    (record(changed(item=[(1, 9, 32)]), 4096), "REFUSED 4"),                            # 4 before 18
    (record(changed(user=[(1, 1, 1)]), 4096), "REFUSED 19"),                            # open session compares lists 0 and 1
    (record(changed(session=[(1, 1, 31)]), 0), "REFUSED 19"),                           # 19 before 11
]


def main():
    folder, copies = sys.argv[1], int(sys.argv[2]) if len(sys.argv) > 2 else 1
    with open(os.path.join(folder, "stdin"), "wb") as out:
        out.write(b"".join(bytes_ for bytes_, _ in CASES) * copies)
    with open(os.path.join(folder, "stdout"), "w", encoding="ascii") as out:
        out.write("".join(line + "\n" for _, line in CASES) * copies)


if __name__ == "__main__":
    main()
