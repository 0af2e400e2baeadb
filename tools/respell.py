#!/usr/bin/env python3
"""Brings the repository's own definitions, record fields and lemmas to snake case, as the kit's words are spelled.

Run once, at the top of the repository, after the kit's port.py. It goes by whole words over the files of crates/, and stops
where a new name already stands there for something else.
"""

import glob
import re

# Names that would fall together with a function of src/ or say too little without their dash.
BY_HAND = {
    "fault-text": "text_of_fault",
    "first-unlawful": "first_unlawful_lem",
    "round-mean": "rounded_mean",
    "round-discount": "rounded_discount",
    "sumZ": "int_sum_by",
}
# Arguments of definitions and of lemmas.
ARGUMENTS = {"paying-years", "next-year"}
# A field of a record may have the name of a method, or of a ghost field of a struct: it is only reached through its record.
SHARED = {
    "paying_years",
    "move_benefit",
    "least_factor",
    "most_factor",
    "least_states",
    "most_states",
    "least_years",
    "most_years",
    "most_benefit",
    "benefit_places",
    "mark_places",
    "move_places",
}
DEFINED = re.compile(r"\s*(?:abbrev |unfoldable )?(?:pub )?(?:abbrev |unfoldable )?(?:record |data )?([A-Za-z_][\w'-]*) :(?: (goal|given)\.)?")
WORD = re.compile(r"(?<![\w'\u00b7-])[A-Za-z_][\w'-]*")


def files(*kinds):
    return sorted(p for kind in kinds for p in glob.glob(f"crates/*/**/{kind}", recursive=True) if "/out/" not in p)


def snake(name):
    for old, new in sorted(BY_HAND.items(), key=lambda it: -len(it[0])):
        if name == old or name.startswith(old + "-"):
            return new + snake(name[len(old):])
    name = re.sub(r"(?<=[a-z])(?=[A-Z])", "_", name) if name[:1].islower() else name
    return name.replace("-", "_").lower() if name[:1] in "-_" or name[:1].islower() else name.replace("-", "_")


def own_names():
    names = set()
    for path in files("specs/**/*.antt", "proofs/**/*.antt"):
        with open(path, encoding="utf-8") as text:
            for line in text:
                it = DEFINED.match(line)
                if it and not it.group(2):
                    names.add(it.group(1))
    return {name: snake(name) for name in names if name[:1].islower() and name != snake(name)}


def main():
    names = own_names() | {name: snake(name) for name in ARGUMENTS}
    paths = files("*.rt", "*.antt", "*.edit")
    texts = {}
    for path in paths:
        with open(path, encoding="utf-8") as text:
            texts[path] = text.read()
    words = {word for text in texts.values() for word in WORD.findall(text)}
    clash = sorted(new for new in names.values() if new in words and new not in SHARED)
    twice = sorted({new for new in names.values() if list(names.values()).count(new) > 1})
    if clash or twice:
        raise SystemExit(f"names fall together: {clash} {twice}")
    for path, text in texts.items():
        new = WORD.sub(lambda it: names.get(it.group(0), it.group(0)), text)
        if new != text:
            with open(path, "w", encoding="utf-8") as out:
                out.write(new)
    for old, new in sorted(names.items()):
        print(f"{old} -> {new}")


main()
