#!/usr/bin/env python3
"""Respells the names of this repository's own definitions, facts and lemmas, once: words in snake case, types and facts
in camel case. Run at the top, after the toolchain's own script.

A name that a definition or a lemma of crates/*/specs or crates/*/proofs declares loses its dashes: `Map-law` becomes
`MapLaw`, `amount-fits` becomes `amount_fits`. A name that would then be that of a function or a parameter of
the program ends in `_lem`. Names that the toolchain makes (goals, steps) and those of its library stay.
"""
import glob
import os
import re
import sys

# these would be names of the program's own functions or parameters
TAKEN = set("""ahead_by amount_fits amounts_fit body_length carry_of cost_is_earned cost_over floor_divides has_bit has_net hour_by hour_fits in_range is_placed kind_of limits_fit prices_at reserves_fit
shadow_prices steps_at ten_steps_find_ancestors tree_replies_as_fixed with_hour""".split())
# words with a type's letter in them
WORDS = {"sumZ": "sum_z", "whenZ": "when_z", "sumBy-mono": "sum_by_mono", "getD-shares": "get_or_shares"}
# operators keep the dash that joins them to a law's name
KEPT = {"*ℤ-assoc"}

DECLARED = re.compile(r"^(\s*)(?:\| )?((?:abbrev |unfoldable |pub )*)(data |record )?([^\s(){}\[\],;.:=]+)((?: .*?)??) : (.*)$")
NOT_NAMES = {"let", "use", "module", "λ", "elim", "in", "|", "where", "open", "infixr", "infixl"}
TOKEN = re.compile(r"(\.?)([^\s(){}\[\],;.:`⌜⌝]+)")


def new_name(name):
    if name in WORDS:
        return WORDS[name]
    if "-" not in name or name in KEPT:
        return name
    if name[0].isupper():
        return re.sub(r"-(\w)", lambda m: m.group(1).upper(), name)
    name = name.replace("-", "_")
    return name + "_lem" if name in TAKEN else name


def declared(paths):
    """The names that are declared at all, and those of them that are fields of a record."""
    names, fields = set(), set()
    for path in paths:
        inside = False
        with open(path, encoding="utf-8") as f:
            for line in f:
                if line.lstrip().startswith("--"):
                    continue
                if re.match(r"^\s*(?:pub )?record ", line):
                    inside = True
                elif line.strip() and not line.startswith(" "):
                    inside = False
                m = DECLARED.match(line)
                if not m or m.group(4) in NOT_NAMES or m.group(6).startswith("goal."):
                    continue
                if m.group(5).strip() and not m.group(3):
                    continue
                names.add(m.group(4))
                if inside and m.group(1):
                    fields.add(m.group(4))
    return names, fields


def library_names(text):
    """What a file imports from the toolchain's library keeps its name there."""
    names = set()
    for m in re.finditer(r"^\s*(?:ghost )?use (\S+)\.\{([^}]*)\}", text, re.M):
        if re.match(r"Rattle\.(?!std\b)", m.group(1)):
            continue
        names |= {part.strip().split(" as ")[0] for part in m.group(2).split(",")}
    return names


def main():
    antt = sorted(glob.glob("crates/*/specs/**/*.antt", recursive=True) + glob.glob("crates/*/proofs/**/*.antt", recursive=True))
    names, fields = declared(antt)
    table = {name: new_name(name) for name in names if new_name(name) != name}
    sources = sorted(glob.glob("crates/*/src/**/*.rt", recursive=True))
    places = 0
    for path in antt + sources:
        with open(path, encoding="utf-8") as f:
            text = f.read()
        kept = library_names(text)
        here = table | {name: new_name(name) for name in re.findall(r" as ([A-Za-z]+-[A-Za-z-]+)", text)}
        folder = os.path.basename(path) in ("Answers.antt", "Invariants.antt", "Proof.antt")

        def turn(m):
            nonlocal places
            dot, name = m.groups()
            if name not in here or name in kept or (dot and folder and name not in fields):
                return m.group(0)
            places += 1
            return dot + here[name]

        new = TOKEN.sub(turn, text)
        if new != text:
            with open(path, "w", encoding="utf-8") as f:
                f.write(new)
    print(f"{len(table)} names, {places} places")
    return 0


if __name__ == "__main__":
    sys.exit(main())
