"""The cases that `djvm verify` and `djvm raw` have alike and that no folder of the repository can hold: the input, the order of work, and a standard
output that takes nothing."""

import os
import sys

sys.dont_write_bytecode = True

from harness import Outcome
from special_base import (
    MEBIBYTES_4,
    MOST_INPUT,
    cut,
    fault,
    file_limit,
    files_limit,
    full,
    input_limit,
    ok,
    returned,
    special,
    usage,
    write,
    write_files,
    write_one,
    write_zeros,
)


def of_runs(wanted, of_raw=None, input_word="in", **more):
    """Registers the function for a case of `verify` and for one of `raw`, of which something else may be wanted."""

    def register(make):
        name = make.__name__
        special("verify", "c", "A", input_word, wanted=wanted, name="verify_" + name, **more)(make)
        special("raw", "c", "A", input_word, wanted=of_raw or wanted, name="raw_" + name, **more)(make)
        return make

    return register


# The input.


@of_runs(ok(b"\x5a" * MOST_INPUT), returned(b"\x5a" * MOST_INPUT))
def input_of_1048576():
    write_one()
    write("in", b"\x5a" * MOST_INPUT)


@of_runs(input_limit)
def input_of_1048577():
    write_one()
    write_zeros("in", MOST_INPUT + 1)


@of_runs(ok(b"\x01"), returned(b"\x01"))
def input_is_link():
    write_one()
    write("store", b"\x01")
    os.symlink("store", "in")


@of_runs(fault, as_nobody=True)
def input_unreadable():
    write_one()
    write("in")
    os.chmod("in", 0)


@of_runs(fault, as_nobody=True)
def class_file_unreadable():
    write_one()
    write("in")
    os.chmod("c/A.class", 0)


@of_runs(usage, input_word=b"\xff")
def input_word_not_utf8():
    write_one()
    write(b"\xff")


# The order of work: the number of files, the input, each file, the rules.


@of_runs(files_limit)
def files_before_an_absent_input():
    write_files(4097)


@of_runs(fault)
def absent_input_before_a_long_file():
    write_zeros("c/A.class", MEBIBYTES_4 + 1)


@of_runs(input_limit)
def long_input_before_a_long_file():
    write_zeros("c/A.class", MEBIBYTES_4 + 1)
    write_zeros("in", MOST_INPUT + 1)


@of_runs(file_limit)
def long_file_before_rules():
    write("c/A.class", cut)
    write("c/B.class", b"")
    write_zeros("c/C.class", MEBIBYTES_4 + 1)
    write("in")


# A standard output that takes nothing.


@of_runs(Outcome(66, b""), stdout=full)
def full_output():
    write_one()
    write("in")


@of_runs(fault, stdout=full)
def nothing_written_of_an_absent_input():
    write_one()
