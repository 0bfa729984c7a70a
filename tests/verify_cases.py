"""The cases of `djvm verify FOLDER ENTRY INPUT` in tests/cases; make_cases.py makes their folders."""

from class_files import (
    NATIVE,
    PAIR,
    PUBLIC,
    RETURNS_ITS_ARGUMENT,
    STATIC,
    attribute,
    class_file,
    code,
    native,
    row,
    straight,
    string,
    u1,
)
from instructions import instructions
from pool_cases import LONG, accepted, whole_pool, with_pool

one = RETURNS_ITS_ARGUMENT
returns = straight(instructions("aload_0, areturn"))
bad_shape = straight(instructions("areturn"))

found = {}


def case(name, files, entry="A", data=b"\x0a\x0b", words=None, folders=()):
    """Files are given by their paths in the case's folder; the input is `in`."""
    name = "verify-" + name
    assert name not in found
    found[name] = ({**files, "in": data}, words or ["verify", "c", entry, "in"], folders)


def run(name, text, data=b"\x0a\x0b", max_stack=6, max_locals=4):
    """A case of one class whose `verify` is this."""
    case(name, {"c/A.class": class_file("A", [straight(instructions(text), max_stack, max_locals)])}, data=data)


def collects(*parts):
    """Code that returns an array of bytes, one for each part: instructions that push an int."""
    text = "bipush %d, newarray byte, astore_1" % len(parts)
    for place, part in enumerate(parts):
        text += ", aload_1, bipush %d, %s, bastore" % (place, part)
    return text + ", aload_1, areturn"


def is_int(value, part):
    """Code that raises an exception unless this part pushes exactly this int: the only good index of an array of one."""
    return "iconst_1, newarray byte, %s, sipush %d, isub, baload, pop, " % (part, value)


# How a run ends.

case("identity", {"c/A.class": one})
case("identity-empty", {"c/A.class": one}, data=b"")
run("null", "aconst_null, areturn")
run("array-of-none", "iconst_0, newarray byte, areturn")
run("array-of-300", "sipush 300, newarray byte, areturn")
run("400-arrays", "iconst_5, newarray byte, pop, " * 400 + "aload_0, areturn")
case("folder-slash", {"c/A.class": one}, words=["verify", "c/", "A", "c/../in"])
case("input-is-class-file", {"c/A.class": one}, words=["verify", "c", "A", "c/A.class"])
case("other-methods-do-not-run", {"c/A.class": class_file("A", [straight(instructions("aconst_null, areturn"), name="f"), returns])})

run("negative-length", "iconst_m1, newarray byte, areturn")
run("negative-length-least", "sipush 256, dup, imul, sipush -32768, imul, newarray byte, areturn")
run("load-past-empty", "aload_0, iconst_5, baload, pop, aload_0, areturn", b"")
run("load-at-length", "aload_0, dup, arraylength, baload, pop, aload_0, areturn")
run("load-negative", "aload_0, iconst_m1, baload, pop, aload_0, areturn")
run("load-last", "aload_0, dup, arraylength, iconst_1, isub, baload, pop, aload_0, areturn")
run("load-of-null", "aconst_null, iconst_m1, baload, pop, aload_0, areturn")
run("store-at-length", "aload_0, iconst_2, iconst_0, bastore, aload_0, areturn")
run("store-negative", "aload_0, iconst_m1, iconst_0, bastore, aload_0, areturn")
run("store-last", "aload_0, iconst_1, iconst_0, bastore, aload_0, areturn")
run("store-in-null", "aconst_null, iconst_0, iconst_0, bastore, aload_0, areturn")
run("length-of-null", "aconst_null, arraylength, pop, aload_0, areturn")
run("exception-keeps-costs", "iconst_1, newarray byte, pop, bipush 9, newarray byte, iconst_m1, baload, newarray byte, areturn")

# Charges. An array is 16 and its length rounded up to a multiple of 8; 67,108,864 are allowed.

large = "sipush 8192, dup, imul, bipush %d, isub, newarray byte, pop, aload_0, areturn"

run("costs-rounded", ", ".join("bipush %d, newarray byte, pop" % length for length in (0, 1, 7, 8, 9)) + ", aload_0, areturn")
run("alloc-below", large % 24)
run("alloc-rounded-to-the-most", large % 23)
run("alloc-the-most", large % 16)
run("alloc-above", large % 15)
run("alloc-longest", "sipush 256, dup, imul, sipush -32768, imul, iconst_1, isub, newarray byte, areturn")
run("alloc-sum-at", "sipush 8192, sipush 4096, imul, bipush 16, isub, dup, newarray byte, pop, newarray byte, pop, aload_0, areturn")
run("alloc-sum-above", "sipush 8192, sipush 4096, imul, bipush 15, isub, dup, newarray byte, pop, newarray byte, pop, aload_0, areturn")

# Each instruction.

run(
    "constants",
    "nop, "
    + is_int(-1, "iconst_m1")
    + is_int(-128, "bipush -128")
    + is_int(127, "bipush 127")
    + "iconst_1, newarray byte, sipush -32768, sipush 32767, iadd, iconst_1, iadd, baload, pop, "
    + collects(
        "iconst_m1", "iconst_0", "iconst_1", "iconst_2", "iconst_3", "iconst_4", "iconst_5", "bipush -128", "bipush 127", "sipush 258"
    ),
)
run(
    "arithmetic",
    collects(*("bipush -6, bipush 11, " + name for name in ("iadd", "isub", "imul", "iand", "ior", "ixor"))),
)
# -2147483648 is 65536 * -32768, and so is 65536 * 32768.
least = "sipush 256, dup, imul, sipush -32768, imul"
run(
    "wraps",
    is_int(0, least + ", dup, iadd")
    + is_int(-1, least + ", dup, iconst_1, isub, iadd")
    + is_int(0, least + ", iconst_0, %s, isub, isub" % least)
    + is_int(1, "iconst_0, %s, iconst_1, iadd, isub, dup, imul" % least)
    + is_int(0, "sipush 256, dup, imul, dup, imul")
    + is_int(0, least + ", iconst_m1, imul, %s, ixor" % least)
    + "aload_0, areturn",
)
run(
    "locals-short",
    "iconst_1, istore_1, iconst_2, istore_2, iconst_3, istore_3, aload_0, iconst_0, iload_1, bastore, aload_0, iconst_1, iload_2, bastore, "
    "aload_0, iconst_2, iload_3, bastore, aload_0, astore_1, aload_1, astore_2, aload_2, astore_3, iconst_4, istore_0, "
    "aload_3, iconst_3, iload_0, bastore, aconst_null, astore_0, aload_3, areturn",
    bytes(4),
)
run(
    "locals-by-number",
    "aload 0, astore 255, bipush 7, istore 254, bipush 8, istore 0, aload 255, iconst_0, iload 254, bastore, "
    "aload 255, iconst_1, iload 0, bastore, aload 255, areturn",
    max_locals=256,
)
run("load-has-sign", collects(*("aload_0, iconst_%d, baload, iconst_2, iadd" % place for place in range(4))), b"\xff\x80\x7f\x00")
run("load-is-int", is_int(-1, "aload_0, iconst_0, baload") + is_int(-128, "aload_0, iconst_1, baload") + "aload_0, areturn", b"\xff\x80")
run("store-keeps-low-byte", collects("sipush 4660", "sipush -129", "sipush 255", "sipush 256", least + ", bipush 9, ior"))
run("dup-is-the-same-array", "iconst_2, newarray byte, dup, dup, iconst_0, bipush 42, bastore, iconst_1, bipush 43, bastore, areturn")
run("pop-of-each-kind", "iconst_1, aload_0, aconst_null, pop, pop, pop, iconst_5, aload_0, areturn")
run("input-is-changed", "aload_0, iconst_0, aload_0, arraylength, bastore, aload_0, areturn")

# SHAPE.

SHAPES = {
    # name, which begins with the number that is reported: (instructions, max_stack, max_locals)
    "00-areturn-alone": ("areturn", 1, 1),
    "00-no-locals": ("aconst_null, areturn", 1, 0),
    "00-no-stack": ("aload_0, areturn", 0, 1),
    "00-int-of-argument": ("iload_0, areturn", 1, 1),
    "00-slot-past": ("aload_1, areturn", 1, 1),
    "00-slot-without-value": ("aload 255, areturn", 1, 256),
    "00-last-is-nop": ("nop", 0, 1),
    "00-pop-of-nothing": ("pop, aload_0, areturn", 1, 1),
    "00-dup-of-nothing": ("dup, aload_0, areturn", 2, 1),
    "01-areturn-of-int": ("iconst_0, areturn", 1, 1),
    "01-stack-past": ("aload_0, dup, areturn", 1, 1),
    "01-store-past": ("iconst_0, istore_1, aload_0, areturn", 1, 1),
    "01-store-of-other-kind": ("iconst_0, astore_0, aload_0, areturn", 1, 1),
    "01-length-of-int": ("iconst_0, arraylength, pop, aload_0, areturn", 1, 1),
    "01-newarray-of-array": ("aload_0, newarray byte, areturn", 1, 1),
    "02-after-areturn": ("aload_0, areturn, nop, aload_0, areturn", 1, 1),
    "02-unreached-fault": ("aload_0, areturn, pop", 1, 1),
    "02-load-of-int": ("iconst_0, iconst_0, baload, pop, aload_0, areturn", 2, 1),
    "02-load-at-array": ("aload_0, aload_0, baload, pop, aload_0, areturn", 2, 1),
    "02-iadd-of-array": ("iconst_0, aload_0, iadd, pop, aload_0, areturn", 2, 1),
    "02-slot-has-other-kind-now": ("iconst_0, istore_0, aload_0, areturn", 1, 1),
    "03-store-of-array": ("aload_0, iconst_0, aload_0, bastore, aload_0, areturn", 3, 1),
    "03-end-without-areturn": ("aload_0, nop, nop, pop", 1, 1),
    "04-least-of-two": ("nop, aload_0, pop, nop, pop, iload_0, areturn", 1, 1),
    "none": ("aload_0, iconst_1, istore_1, areturn", 2, 2),
}

case(
    "shapes",
    {
        "c/A.class": class_file(
            "A", [*(straight(instructions(text), stack, slots, name) for name, (text, stack, slots) in SHAPES.items()), returns]
        )
    },
)
case("shape-of-entry", {"c/A.class": class_file("A", [straight(instructions("areturn"), 1, 1)])})
case(
    "shape-and-entry",
    {"c/A.class": class_file("A", [straight(instructions("nop, pop, areturn"), name=name) for name in ("é", "a b", "f")])},
    entry="A-",
)

# ENTRY.

case("entry-without-class-files", {}, folders=["c"])
case("entry-other-class", {"c/A.class": one}, entry="B")
case("entry-other-case", {"c/A.class": class_file("A", [straight(instructions("aload_0, areturn"), name="Verify")])})
case("entry-without-methods", {"c/A.class": class_file("A")})
case("entry-empty", {"c/A.class": one}, entry="")
case("entry-with-ending", {"c/A.class": one}, entry="A.class")
case("entry-is-escaped", {}, entry="a b." + PAIR + "%é", folders=["c"])
for name, entry in (("dots", "a.b.C"), ("slashes", "a/b/C"), ("both", "a.b/C")):
    case("entry-with-" + name, {"c/a/b/C.class": class_file("a/b/C", [returns])}, entry=entry)
case("entry-of-units", {"c/%s.class" % PAIR: class_file(PAIR, [returns])}, entry=PAIR)

# LATER, and the order of the rules. tests/special has each reason for LATER.

case("later-goto", {"c/A.class": class_file("A", [straight(instructions("goto 0"))])})
case("later-two-files", {"c/A.class": one, "c/A$B.class": class_file("A$B", [returns])})
case("later-before-entry", {"c/A.class": class_file("A", [returns, bad_shape], fields=[("x", "I")])}, entry="B")
case("later-javac", {"c/%s.class" % path: data for path, data in accepted.items()}, entry="cash.Transfer")
case("malformed-beside-constants", {"c/A.class": one, "c/B.class": class_file("B", pool=whole_pool()), "c/C.class": b""})
case("malformed-constant", {"c/A.class": with_pool("A", string(0), methods=[returns])})
case("later-beside-constants", {"c/A.class": class_file("A", [returns], pool=whole_pool()), "c/B.class": with_pool("B", LONG)})
case("rules-before-later", {"c/A.class": class_file("A", [returns], fields=[("x", "I")]), "c/B.class": class_file("C", [bad_shape])})
case("version-before-shape", {"c/A.class": class_file("A", [bad_shape], major=53)}, entry="B")
case(
    "native-and-finalizer",
    {"c/A.class": class_file("A", [native("n"), ("finalize", "()V", PUBLIC | STATIC | NATIVE, [code()]), bad_shape])},
)
case("malformed", {"c/A.class": one[:-1]})
# Constants of every tag, that the code doesn't name.
case("constants-of-each-tag", {"c/A.class": class_file("A", [returns], pool=whole_pool())})
bad_shape_of_f = straight(instructions("areturn"), name="f")
case("constants-and-shape", {"c/A.class": class_file("A", [returns, bad_shape_of_f], pool=whole_pool())})
# Attributes that don't count: a stack map of the method, another attribute of the code, also one that has no name.
case(
    "other-attributes",
    {
        "c/A.class": class_file(
            "A",
            [
                (
                    "verify",
                    "([B)[B",
                    STATIC,
                    [
                        ("StackMapTable", b"\0\0"),
                        code(instructions("aload_0, areturn"), 1, 1, listed=row(2) + attribute(65535, b"\0") + attribute(1, b"")),
                    ],
                )
            ],
            listed=[("Code", b""), ("SourceFile", u1(0) * 2)],
            flags=0x8431,
        )
    },
)

# Words.

case("words-two", {"c/A.class": one}, words=["verify", "c", "A"])
case("words-four", {"c/A.class": one}, words=["verify", "c", "A", "in", "in"])
case("words-option", {"c/A.class": one}, words=["verify", "c", "A", "in", "--jump", "5"])
case("words-option-equals", {"c/A.class": one}, words=["verify", "c", "A", "in", "--jump=5"])
case("words-options", {"c/A.class": one}, words=["--alloc", "0", "verify", "--invoke=0", "c", "--jump", "0", "A", "in", "--throw", "0"])
case("words-option-before-folder", {"c/A.class": class_file("c", [returns]), "A/c.class": class_file("c", [returns])}, words=["verify", "A", "--jump=6", "c", "in"])
case("words-option-after-dashes", {"c/A.class": one, "--jump=5": b"ab"}, words=["verify", "c", "A", "--", "--jump=5"])
case("words-option-twice", {"c/A.class": one}, words=["verify", "c", "A", "in", "--jump", "5", "--jump", "5"])
case("words-option-twice-mixed", {"c/A.class": one}, words=["--jump=5", "verify", "c", "A", "in", "--alloc", "9", "--jump", "6"])
case("words-option-cut-name", {"c/A.class": one}, words=["verify", "c", "A", "in", "--jum", "5"])
case("words-option-other-case", {"c/A.class": one}, words=["verify", "c", "A", "in", "--Jump", "5"])
case("words-option-no-name", {"c/A.class": one}, words=["verify", "c", "A", "in", "--=5"])
case("words-option-short", {"c/A.class": one}, words=["verify", "c", "A", "in", "-jump", "5"])
case("words-option-steps", {"c/A.class": one}, words=["verify", "c", "A", "in", "--steps", "5"])
case("words-value-none", {"c/A.class": one}, words=["verify", "c", "A", "in", "--jump"])
case("words-value-of-words", {"c/A.class": one}, words=["verify", "c", "A", "--jump", "in"])
case("words-value-option", {"c/A.class": one}, words=["verify", "c", "A", "in", "--jump", "--alloc=6"])
case("words-value-dashes", {"c/A.class": one}, words=["verify", "c", "A", "in", "--jump", "--", "6"])
case("words-value-dash", {"c/A.class": one}, words=["verify", "c", "A", "in", "--jump", "-"])
case("words-value-minus", {"c/A.class": one}, words=["verify", "c", "A", "in", "--jump=-1"])
case("words-value-empty", {"c/A.class": one}, words=["verify", "c", "A", "in", "--jump="])
for name, most in ("alloc", 1073741824), ("invoke", 1073741824), ("jump", 1073741824), ("throw", 1048576):
    for title, value in ("least", "0"), ("most", most), ("past", most + 1), ("ten-digits", "0000000009"), ("eleven-digits", "00000000009"):
        case("words-%s-%s" % (name, title), {"c/A.class": one}, words=["verify", "c", "A", "in", "--%s=%s" % (name, value)])
for title, value in ("letter", "x"), ("dot", "5.0"), ("hex", "0x5"), ("plus", "+5"), ("underscore", "1_0"), ("space", "5 "), ("arabic", "\u0665"), ("wide", "\uff15"), ("huge", "9" * 20):
    case("words-number-" + title, {"c/A.class": one}, words=["verify", "c", "A", "in", "--jump=" + value])
array = {"c/A.class": class_file("A", [straight(instructions("iconst_5, newarray byte, areturn"))])}
for value in 0, 23, 24:
    case("words-alloc-of-%d" % value, array, words=["verify", "c", "A", "in", "--alloc=%d" % value])
case("words-dash", {"c/A.class": one}, words=["verify", "c", "-", "in"])
case("words-dash-of-input", {"c/A.class": one}, words=["verify", "c", "A", "-in"])
case("input-absent", {"c/A.class": one}, words=["verify", "c", "A", "none"])
case("folder-absent", {"c/A.class": one}, words=["verify", "d", "A", "in"])
