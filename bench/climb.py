"""Questions and rule files whose values climb one at a time: sessions from 0 to the last value, items too, by sessions with the last value; the
formulas are false of nearly all values, so that every combination is tried. No leak: what is asked needs an item value that none has."""
from pack import AND, BELOW, BIT, EQUAL, ITEM, NEW_ITEM, NEW_SESSION, OR, SESSION, all_are, drafted, padded, question_and_rules, starts


def climbs(old, new, bits):
    """nodes, and the node that says that the number in `bits` one-bit attributes, the first the highest, is the next one"""
    nodes, node = drafted()
    rises = None
    for k in reversed(range(bits)):
        up, down, alike = node(BELOW, old + k, new + k), node(BELOW, new + k, old + k), node(EQUAL, old + k, new + k)
        if rises is None:
            rises, carries = up, down
        else:
            rises = node(OR, node(AND, alike, rises), node(AND, up, carries))
            carries = node(AND, down, carries)
    return nodes, rises, node


def changes(old, new, bits, length, by_last):
    nodes, rises, node = climbs(old, new, bits)
    if by_last:
        rises = all_are(node, rises, SESSION, by_last, 1)
    if rises != len(nodes) - 1:
        node(AND, rises, rises)
    return padded(nodes, length)


def question_and_file(session, item, length, users=16):
    """any session, starting item 0, permission 0; session and item widths from 1 to 8; at least so many nodes a formula"""
    formulas = (starts(NEW_SESSION, session, length), changes(SESSION, NEW_SESSION, session, length, 0),
                starts(NEW_ITEM, item, length), changes(ITEM, NEW_ITEM, item, length, session), [(0, 0, 0)])
    return question_and_rules(([], [BIT] * session, [BIT] * item), [0] * users, formulas)
