"""What the trials in Python share: a line for each check, and how they end."""
import os
import subprocess
import sys

TEST = os.path.dirname(os.path.abspath(__file__))
HOST = os.path.dirname(TEST)
counts = {"passed": 0, "FAILED": 0, "skipped": 0}


def tell(kind, name, why=""):
    counts[kind] += 1
    print("%s %s%s" % (kind, name, ": " + why if why else ""), flush=True)


def check(name, holds, why=""):
    tell("passed" if holds else "FAILED", name, why)
    return holds


def end_report():
    print("%d passed, %d failed, %d skipped" % (counts["passed"], counts["FAILED"], counts["skipped"]), flush=True)
    sys.exit(0 if counts["FAILED"] == 0 else 1)


def program_here(words):
    """The daemon's program that the words name, or else the one that is there; None where none is."""
    found = subprocess.run([os.path.join(TEST, "find_program"), *words], stdout=subprocess.PIPE, text=True, check=False)
    return found.stdout.strip() if found.returncode == 0 else None


def can_be_had(package):
    """Whether a Debian package is there, installed where it was not."""
    return subprocess.run([os.path.join(TEST, "need"), package], stderr=subprocess.DEVNULL, check=False).returncode == 0
