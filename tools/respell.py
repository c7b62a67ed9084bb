#!/usr/bin/env python3
"""Spells the names of this repository's definitions, lemmas, fields and variables as today's Rattle does: words in snake case, types in camel case.
Run once, at the top, after the kit's own script and before any edit by hand. It goes by text: in definitions, proofs, sources, must-fail edits and documents
every name that begins with a small letter and has a capital in it. Rust's names here have none, so that they and the exported names stay as they are."""
import glob
import re

# a lemma whose name would fall together with that of its definition gets `_lem`
LEMMAS = {
    "some_below": ["crates/verdict/proofs/Below.antt", "crates/verdict/proofs/Decided.antt", "crates/verdict/proofs/Closed.antt"],
    "row_step": ["crates/leak/proofs/Rows.antt", "crates/leak/proofs/Leaks.antt"],
    "model_in": ["crates/steps/proofs/ModelLaws.antt", "crates/steps/proofs/Laws.antt", "crates/judge/proofs/Laws.antt"],
    "right_of": ["crates/bitsets/proofs/Steps.antt", "crates/prepared/proofs/Level.antt"],
}

LETTER = "A-Za-z0-9_'₀₁₂₃₄₅₆₇₈₉"
NAME = re.compile(rf"(?<![{LETTER}])[a-z][a-z0-9]*[A-Z][A-Za-z0-9]*[₀₁₂₃₄₅₆₇₈₉]*(?![{LETTER}])")


def snake(found):
    name = found.group()
    if name == "getD":
        return "get_or"
    return re.sub(r"(?<=[a-z0-9])([A-Z])", r"_\1", name).lower()


def turn(path, change):
    with open(path, encoding="utf-8") as file:
        text = file.read()
    turned = change(text)
    if turned != text:
        with open(path, "w", encoding="utf-8") as file:
            file.write(turned)


def lemmas(path):
    def change(text):
        for name, paths in LEMMAS.items():
            if path in paths:
                text = re.sub(rf"(?<![{LETTER}.-]){name}(?![{LETTER}-])", f"{name}_lem", text)
        return text
    return change


code = [path for ends in ("specs/**/*.antt", "proofs/**/*.antt", "src/**/*.rt", "must-fail/*.edit") for path in glob.glob(f"crates/*/{ends}", recursive=True)]
for path in sorted(code):
    turn(path, lemmas(path))
    turn(path, lambda text: NAME.sub(snake, text))
documents = ["README.md"] + glob.glob("docs/**/*.md", recursive=True)
for path in sorted(documents):
    turn(path, lambda text: NAME.sub(snake, text))
