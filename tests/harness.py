"""Runs the program in a folder and compares what it wrote with what is wanted."""

import difflib
import os
import re
import shutil
import subprocess
import sys
import tempfile

SECONDS = 120


# The line on standard error beside a report, by its status.
USAGE = (
    b"djvm 0.1.0; usage: djvm check FOLDER | djvm verify FOLDER ENTRY INPUT [--alloc N] [--invoke N] [--jump N] [--throw N]"
    b" | djvm raw FOLDER ENTRY INPUT [--steps N] | djvm assemble FILE\n"
)
NO_CLASS_FILE = b"djvm: the folder has no class file: give the folder that javac -d wrote\n"
NO_RIGHT_PATH = b"djvm: no class file is at the path of its class: give the folder that javac -d wrote\n"
OTHER_VERSION = rb"djvm: \"[^\n]*\": its version is \d+\.\d+: compile with javac --release 8\n"
OF_A_PATH = rb"djvm: \"[^\n]*\": [^\n]+\n"
NOTES = {
    64: re.escape(USAGE),
    65: OF_A_PATH,
    66: rb"djvm: standard output: [^\n]+\n",
    67: rb"djvm: there was not enough memory\n|" + OF_A_PATH,
}


class Outcome:
    """How a run ended and what it wrote, or what is wanted of it. A wanted `stderr` is None where any line that fits the report is right.
    The reference checker writes nothing on standard error, so its outcomes have no notes."""

    def __init__(self, status, stdout, stderr=None, has_notes=True):
        self.status, self.stdout, self.stderr, self.has_notes = status, stdout, stderr, has_notes


def run(program, words, folder, stdout=subprocess.PIPE, before=None):
    """Runs the program with these words in this folder; `before` is called in the new process."""
    try:
        process = subprocess.Popen(
            [program, *words], cwd=folder, stdin=subprocess.DEVNULL, stdout=stdout, stderr=subprocess.PIPE, preexec_fn=before
        )
    except (OSError, subprocess.SubprocessError) as error:
        return Outcome("none, it can't be started: %s" % error, b"", b"")
    try:
        written, errors = process.communicate(timeout=SECONDS)
    except subprocess.TimeoutExpired:
        process.kill()
        written, errors = process.communicate()
        return Outcome("none after %d seconds" % SECONDS, written or b"", errors)
    return Outcome(process.returncode, written or b"", errors, not os.fsdecode(program).endswith(".py"))


def tree(folder):
    """What stands in a folder: the path, kind, size and time of each entry. Links aren't followed."""
    found = {}
    for inside, folders, files in os.walk(os.fsencode(folder)):
        for name in folders + files:
            path = os.path.join(inside, name)
            entry = os.lstat(path)
            found[path] = (entry.st_mode, entry.st_size, entry.st_mtime_ns)
    return found


def copy(source, target, backwards):
    """Copies a folder, whose entries are made in the order of their names or in the opposite one: some file systems list them in an
    order that depends on that."""
    os.mkdir(target)
    for name in sorted(os.listdir(source), reverse=backwards):
        one, other = os.path.join(source, name), os.path.join(target, name)
        if os.path.isdir(one) and not os.path.islink(one):
            copy(one, other, backwards)
        elif os.path.islink(one):
            os.symlink(os.readlink(one), other)
        else:
            shutil.copyfile(one, other)


def names_all_paths(lines):
    """Whether these lines of a rejected report are of paths that break the rule NAME, each of them."""
    words = [line.split(b" ") for line in lines]
    return {it[0] for it in words} == {it[0] for it in words if it[-1] == b"NAME"}


def fits_report(outcome):
    """Whether what was written on standard error fits the report. Where there may be a hint, there may also be nothing."""
    lines = outcome.stdout.split(b"\n")[1:-1]
    if outcome.status in NOTES:
        return re.fullmatch(NOTES[outcome.status], outcome.stderr)
    if outcome.stdout == b"ACCEPTED 0\n":
        return outcome.stderr == NO_CLASS_FILE
    if outcome.status == 2 and outcome.stderr == NO_CLASS_FILE:
        return len(lines) == 1 and lines[0].endswith(b" ENTRY")
    if outcome.status == 2 and outcome.stderr == NO_RIGHT_PATH:
        return names_all_paths(lines)
    if outcome.status == 2 and any(line.endswith(b" VERSION") for line in lines):
        return re.fullmatch(OTHER_VERSION, outcome.stderr)
    return not outcome.stderr


def has_right_note(wanted, outcome):
    """Whether what was written on standard error is what is wanted."""
    if not outcome.has_notes:
        return not outcome.stderr
    return fits_report(outcome) if wanted.stderr is None else outcome.stderr == wanted.stderr


def difference(wanted, outcome, before=None, after=None):
    """The lines that say how an outcome differs from the wanted one; none where it doesn't."""
    lines = []
    if outcome.status != wanted.status:
        lines.append("status: %s, wanted %s" % (outcome.status, wanted.status))
    if outcome.stdout != wanted.stdout:
        lines.append("standard output:")
        lines += difflib.unified_diff(shown(wanted.stdout), shown(outcome.stdout), "wanted", "written", lineterm="")
    if not has_right_note(wanted, outcome):
        lines.append("standard error:")
        lines += difflib.unified_diff(shown(wanted.stderr or b""), shown(outcome.stderr), "wanted", "written", lineterm="")
    if before != after:
        changed = sorted(path for path in before.keys() | after.keys() if before.get(path) != after.get(path))
        lines.append("written in the folder:")
        lines += [repr(path) for path in changed]
    if len(lines) > 60:
        lines[50:] = ["and %d lines more" % (len(lines) - 50)]
    return lines


def shown(data):
    text = data.decode("utf-8", "backslashreplace")
    lines = text.split("\n")
    if lines[-1] == "":
        lines.pop()
    else:
        lines[-1] += " (no line feed at the end)"
    return lines


class Results:
    """Counts cases, and prints those that fail."""

    def __init__(self):
        self.passed = self.failed = 0

    def add(self, name, words, lines):
        if not lines:
            self.passed += 1
            return
        self.failed += 1
        print("FAILED %s" % name)
        print("  words: %s" % " ".join(repr(word) for word in words))
        for line in lines:
            print("  " + line.encode("ascii", "backslashreplace").decode())
        sys.stdout.flush()

    def close(self):
        print("%d passed, %d failed" % (self.passed, self.failed))
        sys.stdout.flush()
        return 1 if self.failed else 0


def scratch():
    """A folder that is gone after the `with`."""
    return tempfile.TemporaryDirectory(prefix="djvm-")
