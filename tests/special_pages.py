"""What tests/special asks of the pages: that the commands that they show print what they say."""

import os
import re
import shlex
import sys

sys.dont_write_bytecode = True

import harness
from harness import Outcome

HERE = os.path.dirname(os.path.abspath(__file__))
TOP = os.path.dirname(HERE)

# The commands that the pages show, with what they print; the report's first word gives the status.

PAGES = ("README.md", "docs/ASSEMBLER.md", "docs/JAVA.md", *("examples/%s/README.md" % folder for folder in ("assembler", "first", "javac", "raw", "rules", "straight")))
SHOWN_STATUS = {b"ACCEPTED": 0, b"OK": 0, b"EXCEPTION": 1, b"REJECTED": 2, b"THRESHOLD": 3, b"DEPTH": 4, b"INIT": 5, b"LINK": 6, b"LIMIT": 7}
SHOWN_STATUS |= {b"STEPS": 8, b"HEAP": 9, b"USAGE": 64, b"ASM": 68, b"LATER": 75}


def examples(program, results):
    for page in PAGES:
        with open(os.path.join(TOP, page), encoding="utf-8") as file:
            blocks = re.findall(r"^```console\n(.*?)^```", file.read(), re.MULTILINE | re.DOTALL)
        shown = [part for block in blocks for part in re.split(r"^\$ ", block, flags=re.MULTILINE)[1:]]
        for part in shown:
            command, text = part.split("\n", 1)
            words = shlex.split(command)
            if words[0] != "./djvm":
                continue
            outcome = harness.run(program, words[1:], TOP)
            wanted = Outcome(SHOWN_STATUS[text.encode().split()[0]], text.encode())
            results.add(page, words[1:], harness.difference(wanted, outcome))
