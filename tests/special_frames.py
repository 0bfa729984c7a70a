"""The cases of `djvm raw` with methods of more than 1,024 local variables or operands, whose frames hold these in parts (dj_stack). What they
write comes from JVMS 2.6 and 6.5, and a JVM returns the same bytes. What is read is folded into one int: 31 times what there was, and the next one added."""

import sys

sys.dont_write_bytecode = True

from class_files import Pool, class_file
from harness import Outcome
from shaped_code import Method, made_all
from special_base import special, write

INPUT = b"\x0a\x0b"
MOST = 65535
COUNTS = (1025, 1500, MOST)


def case(name, wanted, verify, *others):
    """A class of these methods, the first of which is the entry's."""

    def make():
        pool = Pool()
        write("c/A.class", class_file("A", made_all(pool, [verify, *others])[0], pool=pool))
        write("in", INPUT)

    make.__name__ = "raw_frames_" + name
    special("raw", "c", "A", "in", wanted=wanted)(make)


def method(head, parts, stack, locals, rows=""):
    return Method(head, ", ".join(parts), rows, stack=stack, locals=locals)


def steps_of(parts):
    """How many instructions they are, each made once."""
    return len(", ".join(parts).split(","))


# It returns the int on top, in four bytes, and takes the local variable 1.
RETURNS = ["istore_1, iconst_4, newarray byte"]
RETURNS += ["dup, iconst_%d, iload_1, bipush %d, iushr, bastore" % (place, 24 - 8 * place) for place in range(4)]
RETURNS += ["areturn"]


def returned(number, steps):
    return Outcome(0, b"OK 4 %08x\nsteps %d\n" % (number % 2**32, steps))


def too_deep(steps):
    return Outcome(4, b"DEPTH\nsteps %d\n" % steps)


def folded(numbers):
    found = 0
    for number in numbers:
        found = found * 31 + number
    return found


# A long of a number, whose two halves differ; and an int of a long, its halves by an exclusive or.


def long_of(number):
    return "sipush %d, i2l, bipush 33, lshl, iconst_%d, i2l, lxor" % (number, number % 6)


HALVES = "dup2, bipush 32, lushr, lxor, l2i"


def halves_of(number):
    value = (number << 33 ^ number % 6) % 2**64
    return (value ^ value >> 32) % 2**32


# Local variables: the last is an int, and the two before it a long, one of whose halves is overwritten, and then the other.


def fold(loaded):
    return "bipush 31, imul, %s, iadd" % loaded


def local_variables(last):
    """What is stored and read, and the numbers that are read. The first number is on the stack."""
    yield "sipush 77, wide istore %d" % last, None
    yield "%s, wide lstore %d" % (long_of(-12345), last - 2), None
    yield "aload_0, wide astore 1000", None
    yield "%s, lstore_2" % long_of(7), None
    yield fold("wide iload %d" % last), 77
    yield fold("wide lload %d, %s" % (last - 2, HALVES)), halves_of(-12345)
    yield fold("wide aload 1000, iconst_1, baload"), INPUT[1]
    yield fold("lload_2, " + HALVES), halves_of(7)
    # An int in the place of the long's second half, and a long whose second half is in that of its first.
    yield "sipush 88, wide istore %d" % (last - 1), None
    yield "%s, wide lstore %d" % (long_of(31000), last - 3), None
    yield fold("wide iload %d" % (last - 1)), 88
    yield fold("wide lload %d, %s" % (last - 3, HALVES)), halves_of(31000)
    # A reference in the place of a long's first half, and an int in that of its second.
    yield "aload_0, wide astore %d" % (last - 3), None
    yield "iconst_m1, wide istore %d" % (last - 2), None
    yield "wide iinc %d -1000" % last, None
    yield fold("wide aload %d, arraylength" % (last - 3)), len(INPUT)
    yield fold("wide iload %d" % (last - 2)), -1
    yield fold("wide iload %d" % last), 77 - 1000
    # A short long where one with high bits was.
    yield "%s, wide lstore %d" % (long_of(-1), last - 1), None
    yield "iconst_5, i2l, wide lstore %d" % (last - 1), None
    yield fold("wide lload %d, %s" % (last - 1, HALVES)), 5


for count in COUNTS:
    rows = list(local_variables(count - 1))
    parts = ["iconst_0", *(part for part, _ in rows), *RETURNS]
    wanted = returned(folded(number for _, number in rows if number is not None), steps_of(parts))
    case("stores_and_loads_of_%d" % count, wanted, method("verify([B)[B", parts, 9, count))


# Operands: ints, longs and references in turn; these are arrays of two and of three bytes, and count by their lengths.


def pushed(number):
    return ("sipush %d" % number, long_of(number), "aload_%d" % (number % 2 * 2))[number % 3]


def counted(number):
    return (number, halves_of(number), 2 + number % 2)[number % 3]


def popped(number):
    """The int on top, and the operand of this number below it, are folded."""
    return "istore_1, %siload_1, bipush 31, imul, iadd" % ("", HALVES + ", ", "arraylength, ")[number % 3]


for count in (1030, 1500, 2400):
    numbers = range(count)
    parts = ["iconst_3, newarray byte, astore_2", *map(pushed, numbers), "iconst_0", *map(popped, reversed(numbers)), *RETURNS]
    wanted = returned(folded(map(counted, reversed(numbers))), steps_of(parts))
    case("operands_of_each_kind_%d" % count, wanted, method("verify([B)[B", parts, 2 * count + 9, 3))

parts = ["iconst_1"] * 32000 + ["iadd"] * 31999 + RETURNS
case("operands_32000", returned(32000, steps_of(parts)), method("verify([B)[B", parts, MOST, 2))

# What is taken from the stack and left on it, the top last (JVMS 6.5).
MOVES = {
    "dup": ("a", "aa"),
    "dup_x1": ("ba", "aba"),
    "dup_x2": ("cba", "acba"),
    "dup2": ("ba", "baba"),
    "dup2_x1": ("cba", "bacba"),
    "dup2_x2": ("dcba", "badcba"),
    "swap": ("ba", "ab"),
    "pop": ("a", ""),
    "pop2": ("ba", ""),
}


def moved(numbers, name):
    taken, left = MOVES[name]
    values = dict(zip(taken, numbers[-len(taken) :]))
    return numbers[: -len(taken)] + [values[letter] for letter in left]


numbers, parts = list(range(1100)), ["sipush %d" % number for number in range(1100)]
for number, name in enumerate(MOVES):
    # An int between, so that each finds another one on top.
    numbers, parts = moved(numbers + [number - 5], name), [*parts, "bipush %d" % (number - 5), name]
parts += ["bipush 31, imul, iadd"] * (len(numbers) - 1) + RETURNS
case("operands_that_are_moved", returned(folded(reversed(numbers)), steps_of(parts)), method("verify([B)[B", parts, 1500, 2))

# Calls: 1,023 frames of f, each with its own local variables and operands, above that of verify.


def calls_itself(last, before, after):
    """f of 0 is 0. Else it keeps its argument as an int and as a long, calls itself with one less, and adds both, and what its operands were."""
    return [
        "iload_0, ifne N, iconst_0, ireturn, N: {same} iload_0, wide istore %d, iload_0, i2l, wide lstore %d" % (last, last - 2),
        *before,
        "iload_0, iconst_1, isub, invokestatic A f (I)I",
        *after,
        "wide iload %d, iadd, wide lload %d, l2i, iadd, ireturn" % (last, last - 2),
    ]


def calls(number):
    return ["sipush %d, invokestatic A f (I)I" % number, *RETURNS]


for slots, count in ((1025, 0), (MOST, 0), (9, 1100), (1500, 1500)):
    before, after = ["iload_0"] * count, ["iadd"] * count
    parts = calls_itself(slots - 1, before, after)
    f = method("f(I)I", parts, count + 9, slots)
    # Of f of 0 four instructions are made, and of another one all but two of them.
    steps = steps_of(calls(1022)) + 1022 * (steps_of(parts) - 2) + 4
    name = "%d_local_variables_and_%d_operands" % (slots, count)
    case("calls_with_" + name, returned((2 + count) * (1022 * 1023 // 2), steps), method("verify([B)[B", calls(1022), 9, 9), f)
    # The 1,025th frame would be that of f of 0.
    steps = 2 + 1023 * (2 + 5 + count + 4)
    case("too_deep_with_" + name, too_deep(steps), method("verify([B)[B", calls(1023), 9, 9), f)

# Exceptions: the handler finds its frame's local variables, and the exception alone on the stack.

NULL_POINTER = "java/lang/NullPointerException"
RAISES = "aconst_null, arraylength"


def handles(last, raises, count):
    """The last local variable is an int, and this many operands are there when the exception comes."""
    types = "ref:[B %s int / ref:%s" % (" ".join(["top"] * (last - 1)), NULL_POINTER)
    before = ["sipush 99, wide istore %d" % last, "From: iconst_1", *["iconst_1"] * (count - 1), raises]
    return before, ["To: pop, aload_0, areturn"], ["Handler: {full %s} pop, wide iload %d" % (types, last), *RETURNS]


for slots, count in ((1025, 1030), (MOST, 1500), (1500, 20000)):
    before, unreached, handler = handles(slots - 1, RAISES, count)
    name = "%d_local_variables_and_%d_operands" % (slots, count)
    verify = method("verify([B)[B", before + unreached + handler, count + 9, slots, "From To Handler " + NULL_POINTER)
    case("handler_with_" + name, returned(99, steps_of(before) + steps_of(handler)), verify)

# It goes through 500 frames of f, the last of which raises it, each with its local variables and operands.
before, unreached, handler = handles(1500, "sipush 499, invokestatic A f (I)I", 1100)
verify = method("verify([B)[B", before + unreached + handler, 1200, 1501, "From To Handler " + NULL_POINTER)
parts = ["iload_0, ifne N", RAISES + ", ireturn", "N: {same} iload_0, wide istore 1499", *["iload_0"] * 1100, "iload_0, iconst_1, isub, invokestatic A f (I)I, ireturn"]
steps = steps_of(before) + 499 * (4 + 1100 + 4) + 4 + steps_of(handler)
case("exception_through_frames", returned(99, steps), verify, method("f(I)I", parts, 1200, 1500))
