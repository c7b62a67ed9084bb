"""A question and a rule file of widths 8 and 8 whose formulas tie what is proposed to what is there and to who acts: clauses that compare one-bit attributes of
user, session and proposed session, and of session, item and proposed item, two holders at a time. No leak: what is asked is never true.
With seed 2854 all 256 session values can be had, in 3,796 pairs of user and value, and 192 item values."""
import random

from pack import AT_MOST, BELOW, BIT, EQUAL, ITEM, NEW_ITEM, NEW_SESSION, SESSION, USER, clauses, never, pairs, question_and_rules, starts


def tied(holders, dice):
    """clauses of 32 comparisons, in which an attribute stands three times at most"""
    left = {holder: dice.sample([*range(8)] * 3, 24) for holder in holders}
    return clauses([(dice.choice((EQUAL, BELOW, AT_MOST)), a + left[a].pop(), b + left[b].pop()) for a, b in pairs(holders, 32, dice)], dice)


def question_and_file(seed):
    """any session, starting item 0, permission 0; 16 users"""
    dice = random.Random(seed)
    formulas = (starts(NEW_SESSION, 8), tied((USER, SESSION, NEW_SESSION), dice), starts(NEW_ITEM, 8), tied((SESSION, ITEM, NEW_ITEM), dice), never(BELOW))
    return question_and_rules(([BIT] * 8,) * 3, dice.sample(range(256), 16), formulas)
