"""The cases of `djvm assemble` that no folder of the repository holds: the texts of the examples, the rows of assembled.txt, and texts
of some megabytes, which are made here beside what they mean.
"""

import os
import sys

sys.dont_write_bytecode = True

import harness
from class_files import A_CLASS, ABSTRACT, PUBLIC, STATIC, Pool, attribute, class_entry, row, text_entry, u1, u4
from harness import Outcome
from instructions import instructions
from meaning import differences
from shaped_code import Frames
from special_base import MEBIBYTES_4, file_limit

HERE = os.path.dirname(os.path.abspath(__file__))
TOP = os.path.dirname(HERE)

# Texts, and the class files that they mean byte for byte. Those of examples/rules/source are made into the folders there.
ASSEMBLED = [
    ("examples/straight/source/Summary.asm", "examples/straight/accepted/Summary.class"),
    ("examples/straight/source/Length.asm", "examples/straight/rejected/Length.class"),
]


def examples_of_rules():
    """Each class file of examples/rules, and the text of its name there."""
    top = os.path.join(TOP, "examples", "rules")
    for inside, _, names in os.walk(top):
        for name in names:
            if name.endswith(".class"):
                path = os.path.relpath(os.path.join(inside, name), TOP)
                yield "examples/rules/source/%s.asm" % name[: -len(".class")], path


# Texts that were written by hand after what javac had made, and that.
AS_BY_JAVAC = (
    ("tests/javac/Limited.asm", "examples/javac/accepted/cash/Limited.class"),
    ("tests/javac/Transfer.asm", "examples/javac/accepted/cash/Transfer.class"),
)


def content(*parts):
    with open(os.path.join(TOP, *parts), "rb") as opened:
        return opened.read()


def assembled(program, path):
    return harness.run(program, ["assemble", path], TOP)


def assembled_as_made(program, results):
    for text, made in [*ASSEMBLED, *sorted(examples_of_rules())]:
        results.add(text, ["assemble", text], harness.difference(Outcome(0, content(made)), assembled(program, text)))
    for text, made in AS_BY_JAVAC:
        outcome = assembled(program, text)
        lines = differences(outcome.stdout, content(made)) if outcome.status == 0 else ["status %d" % outcome.status]
        results.add(text, ["assemble", text], lines)


# The rows of tests/assembled.txt.


def outcome_of(answer):
    """What the program writes of a row's answer, and its status."""
    words = answer.split()
    if len(words) == 1:
        return Outcome(0, bytes.fromhex(answer))
    return Outcome(68, ("ASM %s\n" % " ".join([words[0].upper(), *words[1:]])).encode())


def assembled_rows(program, results):
    with open(os.path.join(HERE, "assembled.txt"), encoding="ascii") as table:
        rows = [row.rstrip("\n").split(" -> ") for row in table if not row.startswith("#")]
    with harness.scratch() as folder:
        path = os.path.join(folder, "text")
        for text, answer in rows:
            with open(path, "wb") as written:
                written.write(b"" if text == "-" else bytes.fromhex(text))
            outcome = harness.run(program, ["assemble", "text"], folder)
            results.add("tests/assembled.txt", [text[:60]], harness.difference(outcome_of(answer), outcome))


# The contracts of examples/assembler are assembled into one folder, which is checked; the straight one is run.


def assembled_and_run(program, results):
    with harness.scratch() as folder:
        for name in ("Shares", "Library", "Doubled"):
            with open(os.path.join(folder, name + ".class"), "wb") as made:
                made.write(assembled(program, "examples/assembler/%s.asm" % name).stdout)
        results.add("examples/assembler", ["check"], harness.difference(Outcome(0, b"ACCEPTED 3\n"), harness.run(program, ["check", folder], TOP)))
        for name in ("Shares", "Library"):
            os.remove(os.path.join(folder, name + ".class"))
        words = ["verify", folder, "Doubled", "examples/straight/inputs/four"]
        wanted = Outcome(0, b"OK 2 040a\ncosts alloc 24 invoke 0 jump 0 throw 0\n")
        results.add("examples/assembler", ["verify"], harness.difference(wanted, harness.run(program, words, TOP)))


# The examples in the tables of docs/ASSEMBLER.md, as the lines of one text in the page's order.


def examples_of_page():
    tables = [part.splitlines() for part in content("docs", "ASSEMBLER.md").decode().split("\n\n") if part.startswith("| ")]
    return [row.split("`")[-2] for table in tables if table[0].endswith("| An example |") for row in table[2:]]


def page_assembled(program, results):
    examples = examples_of_page()
    first = examples.index("Next:")
    lines = examples[:first] + [".stack 9", ".locals 300"]
    lines += [label + ":" for label in ("Start", "Failed", "Add", "Take", "Other", "Less", "More")]
    for line in examples[first:]:
        lines += [line, "nop"] if line.startswith(".frame") else [line]
    lines += ["Stop:", "return", ".end", ""]
    with harness.scratch() as folder:
        with open(os.path.join(folder, "text"), "w", encoding="ascii") as made:
            made.write("\n".join(lines))
        outcome = harness.run(program, ["assemble", "text"], folder)
    found = [] if outcome.status == 0 else ["%s: %s" % (outcome.stdout.decode(), lines)]
    results.add("docs/ASSEMBLER.md", ["assemble", "text"], found)


# Texts of as many lines, types and constants as a class file has room for, and of one more. Each has these two lines before the others.

HEAD = b".class 21 A\n.super B\n"
HEAD_POOL = text_entry(b"A") + class_entry(1) + text_entry(b"B") + class_entry(3)
MOST = 65535


def texts_pool(*texts):
    return b"".join(map(text_entry, texts))


def class_of(pool_count, pool=b"", interfaces=(0, b""), fields=(0, b""), methods=(0, b"")):
    """The class file of a text that begins with HEAD. Its constant_pool_count is this one, and its pool has these entries after those of HEAD."""
    tables = b"".join(row(count) + table for count, table in (interfaces, fields, methods))
    return u4(0xCAFEBABE) + row(0, 52, pool_count) + HEAD_POOL + pool + row(A_CLASS, 2, 4) + tables + row(0)


def large(line):
    return Outcome(68, b"ASM LARGE %d\n" % line)


def file(data):
    return Outcome(0, data)


def counted(count):
    """Texts with this many interfaces, fields, methods, rows of an exception table, and types of a frame; the last line of each that counts,
    and the class file."""
    method = b".method 9 m ()V\n.stack 1\n.locals 1\n"
    yield "interfaces", b".implements I\n" * count, 2 + count, lambda: class_of(7, texts_pool(b"I") + class_entry(5), (count, row(6) * count))
    yield "fields", b".field 0 a I\n" * count, 2 + count, lambda: class_of(7, texts_pool(b"a", b"I"), fields=(count, row(0, 5, 6, 0) * count))
    abstract = b".abstract 400 a ()V\n" * count
    yield "methods", abstract, 2 + count, lambda: class_of(7, texts_pool(b"a", b"()V"), methods=(count, row(ABSTRACT, 5, 6, 0) * count))
    rows = b"a:\nnop\nb:\nreturn\n" + b".catch any a b a\n" * count + b".end\n"
    yield "rows", method + rows, 9 + count, lambda: caught_class(count)
    for name, locals_, stack in (("locals", count, 0), ("operands", 0, count)):
        frame = b".frame full " + b"int " * locals_ + b"/ " + b"int " * stack + b"\nreturn\n.end\n"
        yield name, method + frame, 6, lambda: framed_class(full_frame(locals_, stack))


def caught_class(count):
    method = coded_method(instructions("nop, return"), (count, row(0, 1, 0, 0) * count))
    return class_of(8, texts_pool(b"m", b"()V", b"Code"), methods=(1, method))


def framed_class(frames):
    method = coded_method(instructions("return"), map_of=frames)
    return class_of(9, texts_pool(b"m", b"()V", b"Code", b"StackMapTable"), methods=(1, method))


def full_frame(locals_, stack):
    """A StackMapTable with one full_frame of ints at the first instruction."""
    return Frames(Pool()).map_of("0 full %s/ %s" % ("int " * locals_, "int " * stack))


def coded_method(code, rows=(0, b""), map_of=None):
    """The method of the texts with code, where 7 is `Code` and 8 is `StackMapTable`."""
    attributes = row(0) if map_of is None else row(1) + attribute(8, map_of)
    body = row(1, 1) + u4(len(code)) + code + row(rows[0]) + rows[1] + attributes
    return row(PUBLIC | STATIC, 5, 6, 1) + attribute(7, body)


# A pool with the names of this many fields, and a name or a long as its last entry.


def named(count):
    return b"".join(b".field 0 f%d I\n" % number for number in range(count))


def names_pool(count):
    """5 is the first name, 6 is `I`, and the other names follow."""
    return texts_pool(b"f0", b"I", *(b"f%d" % number for number in range(1, count)))


def named_fields(count):
    return row(0, 5, 6, 0) + b"".join(row(0, 6 + number, 6, 0) for number in range(1, count))


def pools():
    # The last name has the index 65,534.
    count = 65529
    yield "names to the last index", named(count), file(class_of(MOST, names_pool(count), fields=(count, named_fields(count))))
    yield "a name past the last index", named(count + 1), large(2 + count + 1)
    # A long takes two indexes; here 65,533 and 65,534, and then one more.
    count, line = 65524, b".field 0 x J long 5\n"
    pool = names_pool(count) + texts_pool(b"x", b"J", b"ConstantValue") + u1(5) + u4(0) + u4(5)
    field = row(0, count + 6, count + 7, 1, count + 8) + u4(2) + row(count + 9)
    yield "a long to the last index", named(count) + line, file(class_of(MOST, pool, fields=(count + 1, named_fields(count) + field)))
    yield "a long past the last index", named(count + 1) + line, large(2 + count + 2)


def longest():
    """Texts of as many bytes as are read, and of one more."""
    left = MEBIBYTES_4 - len(HEAD)
    yield "the longest text", b"#" * left, file(class_of(5))
    yield "a fault in the last byte", b" " * (left - 1) + b"x", Outcome(68, b"ASM SYNTAX 3 %d\n" % left)
    yield "a text that is too long", b"#" * (left + 1), file_limit


def too_many():
    for name, text, line, made in counted(MOST):
        yield "65,535 " + name, text, file(made())
    for name, text, line, made in counted(MOST + 1):
        yield "65,536 " + name, text, large(line)


def made_texts(program, results):
    for texts in (too_many(), pools(), longest()):
        for name, text, wanted in texts:
            with harness.scratch() as folder:
                with open(os.path.join(folder, "text"), "wb") as made:
                    made.write(HEAD + text)
                outcome = harness.run(program, ["assemble", "text"], folder)
            lines = [line[:200] for line in harness.difference(wanted, outcome)]
            results.add("tests/special: assemble, " + name, ["assemble", "text"], lines)


def all_of(program, results):
    for cases in (assembled_rows, assembled_as_made, assembled_and_run, page_assembled, made_texts):
        cases(program, results)
