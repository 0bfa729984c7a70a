"""The cases of `djvm raw` alone that no folder of the repository can hold: limits and little memory; and the texts of the cases of tests/raw."""

import os
import re
import resource
import sys

sys.dont_write_bytecode = True

import harness
from class_files import Pool, class_file, straight
from harness import Outcome
from instructions import instructions
from shaped_code import Method
from special_base import MEBIBYTES_4, RAW, rejected, returned, special, total_limit, write, write_files, write_long, write_one, write_zeros

HERE = os.path.dirname(os.path.abspath(__file__))

# The sum of the class files is asked before the rules. special_runs.py has more of the order of work.


@special(*RAW, wanted=total_limit)
def raw_long_sum_before_rules():
    for name in "ABCDEFGHIJKLMNOP":
        write_zeros("c/%s.class" % name, MEBIBYTES_4)
    write("c/Q.class", b"\0")
    write("in")


@special("raw", "c", "A0", "in", wanted=rejected(b"A0.class - - 20 ENTRY"))
def raw_files_4096():
    write_files(4096)
    write("in")


@special(*RAW, wanted=returned(b"\x01\x02"))
def raw_class_file_of_4194304():
    write_long("c/B.class", "B", MEBIBYTES_4)
    write_one()
    write("in", b"\x01\x02")


# Where --steps isn't given there are 10,000,000.


def jump_to_itself():
    """A class whose code is a goto to itself, with its frame."""
    pool = Pool()
    method, _ = Method("verify([B)[B", "Start: {same} goto Start", stack=1, locals=1).made(pool)
    return class_file("A", [method], pool=pool)


@special(*RAW, wanted=Outcome(8, b"STEPS 10000000\nsteps 10000000\n"))
def raw_steps_that_are_not_given():
    write("c/A.class", jump_to_itself())
    write("in")


# The heap's limit is asked before memory is.


def little_memory():
    """40,000,000 bytes of memory, less than the arrays that are asked for."""
    resource.setrlimit(resource.RLIMIT_AS, (40_000_000, 40_000_000))


def write_array_of(factors):
    write("c/A.class", class_file("A", [straight(instructions("sipush %d, sipush %d, imul, newarray byte, areturn" % factors), 2, 1)]))
    write("in")


@special(*RAW, wanted=Outcome(9, b"HEAP 16 67108880\nsteps 4\n"), before_start=little_memory)
def raw_array_of_67108864_in_little_memory():
    write_array_of((8192, 8192))


@special(*RAW, wanted=Outcome(67, b""), before_start=little_memory)
def raw_array_of_60000000_in_little_memory():
    write_array_of((30000, 2000))


# The texts of tests/raw: each of them means the class files of its case.


def texts_of(path):
    """The texts of a file, each from its `.class` to the next one, by the paths of the class files that they mean."""
    with open(path, encoding="utf-8") as file:
        parts = re.split(r"^(?=\.class )", file.read(), flags=re.MULTILINE)[1:]
    units = {part: re.sub(r"\\u([0-9a-fA-F]{4})", lambda found: chr(int(found[1], 16)), part.split()[2]) for part in parts}
    return {name + ".class": part for part, name in units.items()}


def class_files_in(folder):
    found = {}
    for inside, _, names in os.walk(folder):
        for name in names:
            if name.endswith(".class"):
                with open(os.path.join(inside, name), "rb") as file:
                    found[os.path.relpath(os.path.join(inside, name), folder)] = file.read()
    return found


def texts(program, results):
    top = os.path.join(HERE, "raw")
    for case in sorted(os.listdir(top)):
        path = os.path.join(top, case, "text")
        if not os.path.exists(path):
            continue
        made = {}
        with harness.scratch() as folder:
            for name, text in texts_of(path).items():
                write(os.path.join(folder, "text"), text.encode())
                made[name] = harness.run(program, ["assemble", "text"], folder).stdout
        wanted = class_files_in(os.path.join(top, case, "files", "c"))
        lines = ["%s is another one" % name for name in sorted(made.keys() | wanted.keys()) if made.get(name) != wanted.get(name)]
        results.add("tests/raw/%s/text" % case, ["assemble", "text"], lines)
