#!/usr/bin/env python3
"""Plants small bugs in the code, one at a time, and tells which the proofs refuse. Not part of the gate.

    tests/plant_bugs.py [CRATE ..]

The bugs of a crate stand in tests/planted/CRATE.txt, one to a line: the file below the crate's folder, the
text to be replaced (it stands once in the file), and the new text, with ` | ` between them. Each is tried
in a copy of the repository. Status 1 if one is still proved.
"""
import os
import shutil
import subprocess
import sys
import tempfile

ROOT = os.path.dirname(os.path.dirname(os.path.abspath(__file__)))
LISTS = os.path.join(ROOT, "tests", "planted")


def bugs_of(crate):
    with open(os.path.join(LISTS, crate + ".txt"), encoding="utf-8") as f:
        for line in f:
            line = line.rstrip("\n")
            if line and not line.startswith("#"):
                name, old, new = line.split(" | ")
                yield name, old, new


def check(copy, crate):
    """What rt says of the crate, and the first line that tells why it is not proved."""
    folder = os.path.join(copy, "crates", crate)
    done = subprocess.run(["rt", "check"], cwd=folder, capture_output=True, text=True)
    lines = (done.stdout + done.stderr).splitlines()
    if any(line.startswith("logic=proved") for line in lines[-3:]):
        return "proved", ""
    why = [line for line in lines if " error" in line or "no proof:" in line or ": not proved" in line]
    reached = any(line.startswith("logic=not-proved") for line in lines)
    return ("refused" if reached else "did not reach the prover"), (why or lines[-1:] or [""])[0][:160]


def try_bug(copy, crate, name, old, new):
    path = os.path.join(copy, "crates", crate, name)
    with open(path, encoding="utf-8") as f:
        sound = f.read()
    if sound.count(old) != 1:
        return "bad edit", f"the text stands {sound.count(old)} times"
    with open(path, "w", encoding="utf-8") as f:
        f.write(sound.replace(old, new))
    try:
        return check(copy, crate)
    finally:
        with open(path, "w", encoding="utf-8") as f:
            f.write(sound)


def main():
    crates = sys.argv[1:] or sorted(name[:-4] for name in os.listdir(LISTS))
    counts = {}
    with tempfile.TemporaryDirectory() as folder:
        copy = os.path.join(folder, "repository")
        shutil.copytree(ROOT, copy, ignore=shutil.ignore_patterns(".git", "out", "target"))
        for crate in crates:
            if check(copy, crate)[0] != "proved":
                print(f"{crate} is not proved as it stands", file=sys.stderr)
                return 1
            for name, old, new in bugs_of(crate):
                verdict, why = try_bug(copy, crate, name, old, new)
                counts[verdict] = counts.get(verdict, 0) + 1
                print(f"{verdict}: {crate}/{name}: {old}  ->  {new}\n    {why}", flush=True)
    print(", ".join(f"{n} {verdict}" for verdict, n in sorted(counts.items())))
    return 0 if set(counts) <= {"refused"} else 1


sys.exit(main())
