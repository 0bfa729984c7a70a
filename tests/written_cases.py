"""The cases of tests/written. tests/generated calls it, and run by hand it makes their files and words anew.

- Their files and words are those that written_class_files.py, written_verify.py, written_rules.py and written_linked.py make, which were written by hand, and
  written_straight.py and written_hierarchy.py, where sets are written down that were drawn at random.
- The reports and statuses are kept: they come from other sources than reference.py, which can't be run here, but for those of `check` that changed when
  further rules were judged. reference.py must find them.
- Each `rule-N` in a name is of a rule that the report has.
"""

import os
import re
import sys

sys.dont_write_bytecode = True

import make_cases
import written_class_files  # Each of these adds its cases to those of written_base.
import written_hierarchy
import written_linked
import written_rules
import written_straight
import written_verify
from reference import REJECTED
from written_base import found

WRITTEN = os.path.join(os.path.dirname(os.path.abspath(__file__)), "written")
PARTS = ["files", "status", "stdout", "words"]


class Case:
    def __init__(self, top):
        self.top, self.name = top, os.path.basename(top)
        self.words = [os.fsdecode(word) for word in self.content("words").splitlines()]
        self.status, self.report = int(self.content("status")), self.content("stdout")
        self.rules = {line.split(" ")[3] for line in self.report.decode().splitlines()[1:]} if self.status == REJECTED else set()

    def content(self, name):
        with open(os.path.join(self.top, name), "rb") as file:
            return file.read()


def misreported(case):
    if sorted(os.listdir(case.top)) != PARTS:
        return ["it hasn't the parts %s" % ", ".join(PARTS)]
    text, status = make_cases.outcome_of(os.path.join(case.top, "files"), case.words)
    lines = [] if status == case.status else ["status: %d, and reference.py finds %d" % (case.status, status)]
    return lines if text == case.report else [*lines, "reference.py finds %r" % text]


def misnamed(case):
    """The rules of the name, as in `rule-13-14-15`, that the report hasn't; a number after a word isn't one."""
    match = re.search(r"(?:^|-)rule((?:-\d+)+)", case.name)
    return ["no line has rule %s" % rule for rule in (match[1][1:].split("-") if match else []) if rule not in case.rules]


def check(results):
    for name in sorted({*found, *os.listdir(WRITTEN)}):
        title = "tests/written/%s" % name
        if name not in found or not os.path.exists(os.path.join(WRITTEN, name)):
            results.add(title, [], ["it isn't there" if name in found else "no script makes it"])
            continue
        case = Case(os.path.join(WRITTEN, name))
        results.add(title, case.words, misreported(case) + misnamed(case) + make_cases.mismade(case.top, *found[name]))


def main():
    for name, (files, words) in found.items():
        make_cases.write_parts(os.path.join(WRITTEN, name), files, words)
    print("%d cases" % len(found))


if __name__ == "__main__":
    main()
