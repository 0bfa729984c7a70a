"""The cases of tests/assembler whose texts are long, or alike. tests/generated calls it, and run by hand it makes their files and words anew.

The remaining small cases are written by hand; BY_HAND has their names. What is written of all of them is kept, and not made here.
"""

import os
import sys

sys.dont_write_bytecode = True

import make_cases
from class_files import RETURNS_ITS_ARGUMENT
from instructions import LENGTHS
from opcodes import OPCODES

ASSEMBLER = os.path.join(os.path.dirname(os.path.abspath(__file__)), "assembler")
BY_HAND = ["label-other-method", "ok-frames", "ok-lines", "ok-operands", "ok-pool-kinds", "ok-switches", "third-first"]

HEAD = ".class 21 A", ".super java/lang/Object"
SHORT_HEAD = ".class 1 A", ".super B"

# The files of a case by their paths, and its words.
found = {}


def text_of(lines):
    return "".join(line + "\n" for line in lines).encode("ascii")


def case(name, *lines):
    """A case of a text of these lines."""
    found[name] = ({"t": text_of(lines)}, ["assemble", "t"])


def method(*lines):
    """The lines of a method that has these ones."""
    return [".method 9 m ()V", ".stack 9", ".locals 9", *lines, ".end"]


def of_method(name, *lines):
    """A case of a class whose one method has these lines."""
    case(name, *HEAD, *method(*lines))


# Words. The class file and the input are those of other commands.

for name, words in {
    "absent": "assemble u",
    "assemble": "assemble t",
    "assemble-dashes": "assemble -- t",
    "dashes-first": "-- assemble t",
    "dashes-last": "assemble t --",
    "folder-as-file": "assemble c",
}.items():
    found["words-" + name] = ({"t": text_of(HEAD), "c/A.class": RETURNS_ITS_ARGUMENT, "in": b"\x0a\x0b"}, words.split())
found["words-dash"] = ({"-": text_of(HEAD)}, ["assemble", "-"])
found["words-dashes-file"] = ({**found["words-assemble"][0], "--": text_of(HEAD)}, ["assemble", "--", "--"])

# Instructions without operands, and frames: a short form stands at most 64 bytes behind the frame before it.

WITH_OPERANDS = {*LENGTHS, "tableswitch", "lookupswitch", "wide"}
of_method("ok-simple", *(name for name in OPCODES if name not in WITH_OPERANDS))

frames = []
for frame, distance in ("same", 63), ("same", 64), ("same", 65), ("same", 64), ("stack1 int", 65):
    frames += [".frame " + frame, *["nop"] * distance]
of_method("ok-frame-deltas", *frames, ".frame stack1 int", "return")

# Names and descriptors: an array has at most 255 dimensions, a method at most 255 slots of parameters, and a text at most 65,535 bytes.

MOST_DIMENSIONS, MOST_TEXT = "[" * 255, 65535
case(
    "ok-names",
    ".class 1 (",
    ".super <x>/V",
    ".field 1 <clinit> I",
    ".field 1 a>b [[[Z",
    ".field 1 - %sJ" % MOST_DIMENSIONS,
    ".abstract 401 ( (%sI)V" % ("J" * 127),
    r".abstract 401 - (%sI)La\u0020b;" % MOST_DIMENSIONS,
)
case("field-desc-256", *HEAD, ".field 1 a [%sI" % MOST_DIMENSIONS)
case("method-slots", *HEAD, ".abstract 401 m (%s)V" % ("J" * 128))
case("third-utf8-ok", *SHORT_HEAD, ".field 1 %s I" % ("a" * MOST_TEXT))
case("third-utf8", *SHORT_HEAD, ".field 1 %s I" % ("a" * (MOST_TEXT + 1)))
# Each of these takes three bytes.
case("third-utf8-units", *SHORT_HEAD, '.field 9 s I string "%s"' % (r"\u0800" * (MOST_TEXT // 3 + 1)))
# The first line at fault is the one that is reported.
case("third-order", *HEAD, *method("multianewarray [I 0"), ".abstract 401 %s ()V" % ("a" * (MOST_TEXT + 1)))

# Operands: a huge number, the count of invokeinterface, which has the object's slot too, and the index of ldc, which has one byte.

of_method("large-ldc-huge", "ldc2_w long 1" + "0" * 400)
of_method("third-count", "invokeinterface A m (%s)V" % ("I" * 255))
of_method("third-count-ok", *("invokeinterface A m (%s)V" % parameters for parameters in ("J" * 127, "I" * 254)))
CONSTANTS = ["int %d" % number for number in range(260)]
of_method("third-ldc", *("ldc " + constant for constant in CONSTANTS), "return")
of_method("third-ldc_w", *("ldc_w " + constant for constant in CONSTANTS), "ldc int 0", "return")

# The lengths of code, at most 65,535, and of jumps, from -32,768 to 32,767.


def switch(size):
    """A tableswitch of this many bytes: four for each target, twelve for the default and the range, one for the opcode and at most three of padding."""
    return "tableswitch 0%s default L" % (" L" * ((size - 13) // 4))


of_method("ok-longest", "L:", switch(65532), "nop", "nop", "return")
of_method("third-long", "L:", switch(65532), "nop", "nop", "nop", "return")
of_method("ok-far", "goto L", switch(32761), "nop", "nop", "nop", "L:", "goto L", "goto_w M", "M:", "return")
of_method("third-far", "goto L", switch(32765), "L:", "return")
of_method("third-far-back-ok", "L:", switch(32768), "goto L")
of_method("third-far-back", "L:", switch(32764), *["nop"] * 5, "goto L")
of_method("third-far-before-long", "nop", "goto L", switch(65532), "nop", "nop", "nop", "L:", "return")


def check(results):
    for name in sorted({*found, *BY_HAND, *os.listdir(ASSEMBLER)}):
        if name in found:
            lines = make_cases.mismade(os.path.join(ASSEMBLER, name), *found[name])
        else:
            lines = [] if name in BY_HAND else ["no script makes it"]
        results.add("tests/assembler/%s" % name, [], lines)


def main():
    for name, (files, words) in found.items():
        make_cases.write_parts(os.path.join(ASSEMBLER, name), files, words)
    print("%d cases" % len(found))


if __name__ == "__main__":
    main()
