#!/usr/bin/env python3
"""Lists lines of src/ that may be places of the points of docs/DESIGN-PASS.md, a section for each.

    tools/count_places.py [-v] [COMMIT]

A pattern finds candidates only, and those of points 1, 4 and 7 look for names that src/ had: the page says what each is, and
that src/ was also read. COMMIT is the working tree if it is left out.
"""
import re
import subprocess
import sys
from collections import defaultdict

# What the lines of each point look like.
PATTERNS = {
    "1 numbers and flags for kinds, refusals and ends": r"fault\.number\(\) ==|\bkind [!=]= [0-9]|field: [0-9] |: bool,$|Result<bool|letter: u8|== LINES_ROOM|Result<\(\), bool|number: 51",
    "3 loops that count an index": r"for [a-z]\w* in [0-9a-z_]+\.\.|while [a-z_]+ [<>]|number\.saturating_add",
    "4 equality, order, copying, conversion, printing by hand": r"fn (from_code|code|kind_of|layer_name|parse_claim|enrol_supplier<'a>|padded|at_or|quality)\b|Some\((\w+)\) => (Some\(|\2,)|Ok\(\(\)\) => Ok\(\(\)\)|None => \*account|Err\((\w+)\) => Err\(",
    "6 buffers with a length beside, parallel arrays": r"= \[[A-Za-z_:0-9()]+; [A-Za-z_0-9]+\];|: \[[A-Za-z_0-9]+; [A-Za-z_0-9]+\],|^    (pub )?(prices|targets|quantities|lines): Vec|at: usize,$|rows: &'a mut \[A\]",
    "7 switches on which step to run": r"trait (Rule|RowRule|Change|RowChange)\b|impl.* (Rule|RowRule|Change|RowChange)<.* for|enum Column|fn is_closing|ahead: bool",
}
REPEATED = 3


def read(commit):
    where = [commit] if commit else []
    names = subprocess.run(["git", "ls-tree", "-r", "--name-only", *where] if commit else ["git", "ls-files"],
                           capture_output=True, text=True, check=True).stdout.split()
    for name in names:
        if re.fullmatch(r"crates/[^/]+/src/.*\.rt", name):
            if commit:
                yield name, subprocess.run(["git", "show", f"{commit}:{name}"], capture_output=True, text=True, check=True).stdout
            else:
                yield name, open(name).read()


def functions(text):
    """The signature and the clauses of each function: all from `fn` to the brace that opens its body."""
    for found in re.finditer(r"^( *)(?:pub(?:\(crate\))? )?(?:const )?fn (\w+)(.*?)(?=^\1\{\n|;\n|\{\n)", text, re.S | re.M):
        yield found.group(2), found.group(3)


def main():
    arguments = [a for a in sys.argv[1:] if a != "-v"]
    files = list(read(arguments[0] if arguments else None))
    for point, pattern in PATTERNS.items():
        lines = [f"{name}:{i}: {line.strip()}" for name, text in files
                 for i, line in enumerate(text.splitlines(), 1)
                 if re.search(pattern, line) and "ghost" not in line and "ensures" not in line]
        print(f"{point}: {len(lines)}")
        if "-v" in sys.argv:
            print("\n".join("    " + line for line in lines))
    clauses, groups = defaultdict(set), defaultdict(set)
    for name, text in files:
        for function, rest in functions(text):
            for clause in re.findall(r"(?:requires|ensures)[^{]*\{(.*?)\}\n", rest + "\n", re.S):
                clauses[(name.split("/")[1], " ".join(clause.split()))].add((name, function))
            parameters = re.findall(r"(\w+): &?(?:'\w+ )?(?:mut )?([\w\[\];:<>', ]+?)(?:,\n|,? *\)|, (?=\w+:))", rest.split("->")[0])
            names = [p for p, _ in parameters]
            for size in (3,):
                for start in range(len(names) - size + 1):
                    groups[tuple(names[start:start + size])].add((name, function))
    facts = {k: v for k, v in clauses.items() if len(v) >= REPEATED}
    travelling = {k: v for k, v in groups.items() if len(v) >= REPEATED}
    print(f"5 facts in three or more contracts of a crate: {len(facts)}, in {sum(map(len, facts.values()))} contracts")
    if "-v" in sys.argv:
        for (crate, clause), where in sorted(facts.items()):
            print(f"    {crate}: {clause[:110]}: {', '.join(sorted(f for _, f in where))}")
    print(f"5 groups of three parameters in three or more functions: {len(travelling)}")
    if "-v" in sys.argv:
        for names, where in sorted(travelling.items()):
            print(f"    {', '.join(names)}: {', '.join(sorted(f for _, f in where))}")


main()
