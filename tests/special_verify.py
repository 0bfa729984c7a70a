"""The cases of `djvm verify` alone that no folder of the repository can hold, and those that go through many class files."""

import os
import resource
import sys

sys.dont_write_bytecode = True

import harness
from class_files import ABSTRACT, INTERFACE, PUBLIC, STATIC, Pool, attribute, class_file, code, straight, u1, u2, u4
from harness import Outcome
from instructions import instructions
from opcodes import BASES, OPCODES, opcode
from special_base import MOST_INPUT, VERIFY, fault, full, ok, one, rejected, special, usage, write, write_one, write_zeros

# Verify: the input, and the longest code.


@special(*VERIFY, wanted=fault)
def input_absent():
    write_one()


@special(*VERIFY, wanted=fault)
def input_is_folder():
    write_one()
    os.mkdir("in")


@special(*VERIFY, wanted=fault, as_nobody=True)
def unreadable_folder_of_a_run():
    write("in")
    os.mkdir("c", 0)


@special("verify", "c", "A", "", wanted=fault)
def input_word_empty():
    write_one()


@special("verify", "c", "A", "in/", wanted=fault)
def input_with_slash():
    write_one()
    write("in")


@special("verify", "c", b"\xff", "in", wanted=usage)
def entry_word_not_utf8():
    write_one()
    write("in")


def longest(end):
    """A class whose code has 65,535 bytes, most of them nops, and ends so."""
    end = instructions(end)
    return class_file("A", [straight(opcode("nop") * (65535 - len(end)) + end, 1, 1)])


@special(*VERIFY, wanted=ok(b"\x01\x02"))
def code_of_65535():
    write("c/A.class", longest("aload_0, areturn"))
    write("in", b"\x01\x02")


@special(*VERIFY, wanted=rejected(b"A.class verify([B)[B 65534 19 SHAPE"))
def code_of_65535_without_end():
    write("c/A.class", longest("nop"))
    write("in")


@special(*VERIFY, wanted=ok(b"\x01\x02"))
def stack_and_locals_of_65535():
    write("c/A.class", class_file("A", [straight(instructions("aload_0, areturn"), 65535, 65535)]))
    write("in", b"\x01\x02")


@special(*VERIFY, wanted=Outcome(66, b""), stdout=full)
def full_output_of_a_long_result():
    write_one()
    write_zeros("in", MOST_INPUT)


def little_memory():
    """60,000,000 bytes of memory, less than the array that is asked for."""
    resource.setrlimit(resource.RLIMIT_AS, (60_000_000, 60_000_000))


# The array is charged before it is made, so the threshold is passed before memory is.
@special(*VERIFY, wanted=Outcome(3, b"THRESHOLD alloc\ncosts alloc 2147483664 invoke 0 jump 0 throw 0\n"), before_start=little_memory)
def array_of_2147483647_in_little_memory():
    # 1,073,741,824 + 1,073,741,823 is the greatest length.
    body = instructions("sipush 16384, dup, imul, iconst_4, imul, dup, iconst_m1, iadd, iadd, newarray byte, areturn")
    write("c/A.class", class_file("A", [straight(body, 3, 1)]))
    write("in")


# Its charge is within the threshold, and there is no memory for it.
@special(*VERIFY, wanted=Outcome(67, b""), before_start=little_memory)
def array_of_60000000_in_little_memory():
    write("c/A.class", class_file("A", [straight(instructions("sipush 30000, sipush 2000, imul, newarray byte, areturn"), 2, 1)]))
    write("in")


# Verify on one class after another: each stands alone in its folder, with an empty input.


def verify_each(program, results, name, classes):
    """Classes are (their name, their bytes, what is wanted)."""
    with harness.scratch() as folder:
        os.mkdir(os.path.join(folder, "c"))
        write(os.path.join(folder, "in"))
        for row, data, wanted in classes:
            with open(os.path.join(folder, "c", "A.class"), "wb") as file:
                file.write(data)
            lines = harness.difference(wanted, harness.run(program, VERIFY, folder))
            if lines:
                results.add("tests/special: %s: %s" % (name, row), VERIFY, lines)
                return
    results.add("tests/special: " + name, VERIFY, [])


# Every first byte of code, with its operands. An instruction alone is no code with shape; number 0 is reported.

WITH_OPERANDS = {"bipush": 1, "sipush": 2, "iload": 1, "aload": 1, "istore": 1, "astore": 1, "newarray": 1}
WITHOUT = "nop aconst_null iconst_m1 baload bastore pop dup iadd isub imul iand ior ixor areturn arraylength".split()
WITHOUT += ["iconst_%d" % number for number in range(6)]
WITHOUT += ["%s_%d" % (name, slot) for name in ("iload", "aload", "istore", "astore") for slot in range(4)]
STRAIGHT = {OPCODES[name] for name in (*WITHOUT, *WITH_OPERANDS)}
LATER_A = Outcome(75, b"LATER A.class\n")
SHAPE_0 = rejected(b"A.class verify([B)[B 0 19 SHAPE")


def of_code(body):
    return class_file("A", [straight(body)])


def opcodes(program, results):
    rows = []
    lengths = {OPCODES[name]: length for name, length in WITH_OPERANDS.items()}
    for op in range(256):
        operands = b"\x08" * lengths.get(op, 0)
        rows.append((op, of_code(u1(op) + operands), SHAPE_0 if op in STRAIGHT else LATER_A))
        # Operands that are cut, and one byte of another opcode after them.
        if operands:
            rows.append(("%d cut" % op, of_code(u1(op) + operands[1:]), LATER_A))
        rows.append(("%d and a goto" % op, of_code(u1(op) + operands + instructions("goto 0")), LATER_A))
    rows += [("newarray %d" % kind, of_code(instructions("newarray %d" % kind)), SHAPE_0 if kind == BASES["byte"] else LATER_A) for kind in range(256)]
    verify_each(program, results, "opcodes", rows)


# What makes a set need more than straight code.

BODY = instructions("aload_0, areturn")


def class_of_method(name="verify", descriptor="([B)[B", flags=PUBLIC | STATIC, listed=None, **more):
    return class_file("A", [(name, descriptor, flags, [code(BODY, 1, 1)] if listed is None else listed)], **more)


def of_body(body):
    return class_of_method(listed=[("Code", body)])


def with_map():
    """A class whose code has a stack map without frames."""
    pool = Pool()
    name = pool.text("StackMapTable")
    return class_of_method(listed=[code(BODY, 1, 1, listed=u2(1) + attribute(name, u2(0)))], pool=pool)


def not_straight(program, results):
    right = code(BODY, 1, 1)[1]
    rows = {
        "interface": class_file("A", [straight(BODY)], flags=INTERFACE | ABSTRACT | PUBLIC),
        "superclass": class_file("A", [straight(BODY)], super_name="java/lang/Exception"),
        "no superclass": class_file("A", [straight(BODY)], super_name=None),
        "an interface listed": class_file("A", [straight(BODY)], interfaces=["java/lang/Runnable"]),
        "a field": class_file("A", [straight(BODY)], fields=[("x", "I", STATIC)]),
        "a constructor": class_file("A", [straight(BODY), ("<init>", "()V", PUBLIC, [code()])]),
        "an initialiser": class_file("A", [straight(BODY, name="<clinit>")]),
        "two methods of one name": class_file("A", [straight(BODY), straight(BODY)]),
        "other descriptor": class_file("A", [straight(BODY), ("f", "([B)V", PUBLIC | STATIC, [code()])]),
        "not static": class_of_method(flags=PUBLIC),
        "abstract": class_of_method(flags=PUBLIC | STATIC | ABSTRACT),
        "no code": class_of_method(listed=[("code", right)]),
        "two codes": class_of_method(listed=[code(BODY, 1, 1)] * 2),
        "a handler": class_of_method(listed=[code(BODY, 1, 1, handlers=[(0, 1, 1, 0)])]),
        "a stack map": with_map(),
        "code of no bytes": of_body(u2(1) + u2(1) + u4(0) + u2(0) + u2(0)),
        "code of 65536": of_body(u2(1) + u2(1) + u4(65536) + opcode("nop") * 65534 + BODY + u2(0) + u2(0)),
        "a body of no bytes": of_body(b""),
        "a cut body": of_body(right[:-1]),
        "a byte after the body": of_body(right + b"\0"),
        "a cut attribute of the code": of_body(right[:-2] + u2(1) + u2(1) + u4(1)),
        "a cut handler": of_body(right[:-4] + u2(1) + bytes(7)),
    }
    verify_each(program, results, "not straight", [(name, data, LATER_A) for name, data in rows.items()])


# Reserved packages, and names that are close to them.


def packages(program, results):
    reserved = ("sandbox/A", "java/A", "javax/A", "java/lang/A", "sandbox/java/A")
    for name in reserved + ("sandboxA", "sandbox", "java", "javaxx/A", "Java/A", "a/java/A", "a/sandbox/A"):
        with harness.scratch() as folder:
            write(os.path.join(folder, "c", name + ".class"), class_file(name, [straight(BODY)]))
            write(os.path.join(folder, "in"))
            words = ("verify", "c", name, "in")
            wanted = Outcome(75, b"LATER %s.class\n" % name.encode()) if name in reserved else ok("")
            results.add("tests/special: package of " + name, words, harness.difference(wanted, harness.run(program, words, folder)))


# Words of no job.


def no_jobs(program, results):
    rows = [VERIFY[:count] for count in (1, 2, 3)] + [VERIFY + (word,) for word in ("", "in", "-")]
    rows += [VERIFY[:place] + (word,) + VERIFY[place + 1 :] for place in (1, 2, 3) for word in ("--", "-c", "--jump=5")]
    rows += [("Verify",) + VERIFY[1:], ("verify ",) + VERIFY[1:], ("--", "--") + VERIFY, VERIFY + ("--jump", "5", "--jump=5"), VERIFY + ("--steps=5",), VERIFY + ("--jump",)]
    rows += [("check",) + VERIFY[1:], ("run",) + VERIFY[1:], ("rewrite",) + VERIFY[1:]]
    with harness.scratch() as folder:
        for place in ("c", "-c", "-"):
            write(os.path.join(folder, place, "A.class"), one)
        for place in ("in", "--"):
            write(os.path.join(folder, place))
        for words in rows:
            lines = harness.difference(usage, harness.run(program, words, folder))
            if lines:
                results.add("tests/special: words of no job", words, lines)
                return
    results.add("tests/special: words of no job", [], [])
