"""A question and a rule file in which users, sessions and items have one attribute each, a set of 8. Changing a session and changing an item take 30 comparisons
of sets each, in clauses. No leak: what is asked is never true.
With seed 544 all 256 session values can be had, in 3,097 pairs of user and value, and 224 item values."""
import random

from pack import CONSTANT, ITEM, MEMBER, NEW_ITEM, NEW_SESSION, PROPER, SESSION, SUBSET, USER, clauses, never, pairs, question_and_rules


def compared(holders, dice):
    """clauses in which every fifth comparison is of a member with a set, the others of two sets"""
    return clauses([(MEMBER, CONSTANT + dice.randrange(8), b) if k % 5 == 4 else (dice.choice((SUBSET, PROPER)), a, b)
                    for k, (a, b) in enumerate(pairs(holders, 30, dice))], dice)


def question_and_file(seed):
    """any session, starting item 0, permission 0; 16 users"""
    dice = random.Random(seed)
    formulas = ([(SUBSET, NEW_SESSION, USER)], compared((USER, SESSION, NEW_SESSION), dice),
                [(SUBSET, NEW_ITEM, SESSION)], compared((SESSION, ITEM, NEW_ITEM), dice), never(PROPER))
    return question_and_rules(([(1, 8)],) * 3, dice.sample(range(256), 16), formulas)
