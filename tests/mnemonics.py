#!/usr/bin/env python3
"""The opcodes by their mnemonics as a file of definitions, crates/dj_ops/specs/Mnemonics.antt. Run by hand it writes the file anew; tests/generated compares it."""

import os
import sys

sys.dont_write_bytecode = True

from opcodes import OPCODES

PLACE = "crates/dj_ops/specs/Mnemonics.antt"
FILE = os.path.join(os.path.dirname(os.path.dirname(os.path.abspath(__file__))), PLACE)
HEAD = "-- The opcodes of instructions by their mnemonics (JVMS 6.5), for facts and small programs.\nuse Rattle.std.specs.Prelude.{ℕ}\n"


def text():
    """The text of the file."""
    return HEAD + "".join("\nabbrev pub %s : ℕ\n%s = %d\n" % (name, name, op) for name, op in OPCODES.items())


def check(results):
    """Compares the file with these opcodes."""
    with open(FILE, encoding="utf-8") as file:
        results.add("%s, made anew" % PLACE, [], [] if file.read() == text() else ["other definitions than those of tests/opcodes.py"])


if __name__ == "__main__":
    with open(FILE, "w", encoding="utf-8") as file:
        file.write(text())
