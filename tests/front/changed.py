"""A changed library is noticed: RULES_PROGRAM is the front linked with tests/front/changed.c; each change that has a name there makes a stored case
fail or the program end with 3, and without a change these cases pass. Where the library's count of bits ends no field, a refusal names none. The exit
status is 1 where a change goes unnoticed."""
import json
import re
import sys

import cases
import harness

PATHS = [f"tests/front/outputs/{name}.txt" for name in ("cases", "refused", "replay")]


def noticed(change):
    """the first case that notices a change, as words"""
    harness.PLAIN["RULES_CHANGED"] = change
    for path in PATHS:
        for case, found, difference in cases.all_of(path):
            if difference:
                return f"exit {found.status} at {case.place}"
    return None


def alone():
    """what is wrong with the refusal of examples/branch.rules, at bit 360, where the library counts one bit more: that bit stands alone"""
    harness.PLAIN["RULES_CHANGED"] = "bits_one_more"
    found = harness.run(["list", "examples/branch.rules", "--json"])
    told = json.loads(found.out)
    right = told["bits"] == 361 and told["place"] is None and told["errors"][0]["message"].endswith(" (number 19) at bit 361")
    return None if right else f"no bit alone: {found.text()}"


def main():
    changes = sorted(set(re.findall(r'changed\("(\w+)"\)', harness.content("tests/front/changed.c").decode())))
    answers = {change: noticed(change) for change in changes}
    for change, answer in answers.items():
        print(f"  {change}: {answer or 'NOT NOTICED'}")
    missed = sum(answer is None for answer in answers.values())
    misplaced, untouched = alone(), noticed("")
    wrong = [misplaced] * bool(misplaced) + [f"without a change: {untouched}"] * bool(untouched)
    print("; ".join([f"{len(changes)} changes of the library, {missed} not noticed", *wrong]))
    sys.exit(1 if missed or wrong or not changes else 0)


main()
