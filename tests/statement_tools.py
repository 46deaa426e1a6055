"""What the checks of the statement program share: the programs, how they are run, and the second program's build."""
import os
import subprocess
import sys

ROOT = os.path.dirname(os.path.dirname(os.path.abspath(__file__)))
DAY = os.path.join(ROOT, "examples", "day")
SECOND = os.path.join(ROOT, "target", "second")
SETTLE = os.path.join(SECOND, "settle")
GENERATE = os.path.join(SECOND, "generate")
# The program under test. STATEMENT names another, to try the checks themselves.
PROGRAM = os.path.abspath(os.environ.get("STATEMENT") or os.path.join(ROOT, "crates", "statement", "out", "statement"))


class Failed(Exception):
    """A check that does not hold, in words."""


def demand(holds, words):
    if not holds:
        raise Failed(words)


def prepare():
    """The program under test must be there. The second one is built, unless it is newer than its sources."""
    demand(os.access(PROGRAM, os.X_OK), f"no program {PROGRAM}: build it with './run', or set STATEMENT")
    sources = os.path.join(ROOT, "second")
    newest = max(os.path.getmtime(os.path.join(sources, name)) for name in os.listdir(sources))
    built = [SETTLE, GENERATE]
    if not all(os.path.exists(path) and os.path.getmtime(path) > newest for path in built):
        subprocess.run(["sh", os.path.join(sources, "build.sh"), SECOND], check=True)


def answer(program, folder, feed):
    """Status, standard output and standard error of a program that is given a whole feed."""
    done = subprocess.run([program], cwd=folder, input=feed, capture_output=True, timeout=60)
    return done.returncode, done.stdout, done.stderr


def read(*path):
    with open(os.path.join(*path), "rb") as file:
        return file.read()


def write(data, *path):
    with open(os.path.join(*path), "wb") as file:
        file.write(data)


def run_check(check):
    """Runs a check; its failure is told in words and by the status."""
    try:
        check()
    except (Failed, subprocess.SubprocessError, OSError) as why:
        print(f"FAILED: {why}", file=sys.stderr)
        return 1
    return 0
