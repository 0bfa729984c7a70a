"""The class files and the words of those cases of tests/raw that have no `text`. tests/generated calls it, and run by hand it makes their files anew.

Each case of tests/raw has one of these: `text`, which tests/special assembles; a source in tests/javac, where it is named javac-* (compiled_cases.py); or
its files here. Their outputs are kept, and not made here.
"""

import os
import sys

sys.dont_write_bytecode = True

import make_cases
from class_files import A_CLASS, ABSTRACT, AN_INTERFACE, NATIVE, PUBLIC, STATIC, class_file
from shaped_code import Method
from written_base import coded

RAW = os.path.join(os.path.dirname(os.path.abspath(__file__)), "raw")
VERIFY = "verify([B)[B"
IDENTITY = coded("A", Method(VERIFY, "aload_0, areturn"))

# The files of a case by their paths, and its words.
found = {}


def case(name, classes, words="raw c A in", data=b""):
    files = {"c/%s.class" % path: each for path, each in classes.items()}
    found[name] = ({**files, "in": data}, words.split())


# Words, and which class and method is the entry.

for name, words in {
    "entry-of-another-class": "raw c B in",
    "entry-with-both-and-no-class": "raw c a/b.C in",
    "input-absent": "raw c A nothing",
    "words-dashes": "raw -- c A in",
    "words-four": "raw c A in in",
    "words-steps-before-folder": "raw --steps=2 c A in",
    "words-steps-minus": "raw c A in --steps -1",
    "words-steps-most": "--steps 100000000 raw c A in",
    "words-steps-past": "raw c A in --steps 100000001",
    "words-threshold": "raw c A in --alloc 5",
    "words-two": "raw c A",
}.items():
    case(name, {"A": IDENTITY}, words, b"\1")

OF_ABSTRACT = dict(flags=A_CLASS | ABSTRACT)
case("entry-abstract", {"A": coded("A", ("verify", "([B)[B", PUBLIC | STATIC | ABSTRACT), **OF_ABSTRACT)})
case("entry-of-an-instance", {"A": coded("A", Method(VERIFY, "aload_1, areturn", flags=PUBLIC), **OF_ABSTRACT)})
case("entry-of-another-descriptor", {"A": coded("A", Method("verify([C)[B", "aload_0, areturn"), **OF_ABSTRACT)})
case("entry-of-another-name", {"A": coded("A", Method("Verify([B)[B", "aload_0, areturn"), **OF_ABSTRACT)})
found["entry-without-class-files"] = ({"c/.keep": b"", "in": b""}, ["raw", "c", "A", "in"])

# Rules.

placed = coded("A", Method(VERIFY, "iload_0, areturn"), Method("f", "new java/lang/Thread, return"))
case("rules-with-places", {"A": placed, "B": coded("B", Method("g", "nop, new x/Y, return"))})
case("rules-1-to-6-before-the-entry", {"A": coded("A", ("n", "()V", PUBLIC | NATIVE)), "B": class_file("B", super_name="x/Y")}, "raw c Z in")
clocks = "invokestatic java/lang/System nanoTime ()J, pop2, invokestatic java/lang/System currentTimeMillis ()J, pop2, aload_0, areturn"
clocks = {"A": coded("A", Method(VERIFY, clocks))}
case("library-clocks", clocks, data=b"\1")
found["library-clocks-by-check"] = ({"c/A.class": clocks["A"]}, ["check", "c"])
jumps = ", ".join("goto L%d, L%d: {same} nop" % (number, number) for number in range(10923)).replace(" nop, goto", " goto").replace(" nop", " aload_0, areturn")
case("code-that-only-a-rewriting-makes-too-large", {"A": coded("A", Method(VERIFY, jumps, stack=1, locals=1))}, data=b"\1")

# Runs that compute many values. T keeps them in an array: `b` a byte, `i` an int, `l` a long, and `s` a text.

T = coded(
    "T",
    Method("b(I)V", "getstatic T o [B, getstatic T n I, iload_0, bastore, getstatic T n I, iconst_1, iadd, putstatic T n I, return", stack=3, locals=1),
    Method("i(I)V", ", ".join("iload_0, bipush %d, ishr, invokestatic T b (I)V" % bits for bits in (24, 16, 8, 0)) + ", return", stack=2, locals=1),
    Method("l(J)V", "lload_0, bipush 32, lshr, l2i, invokestatic T i (I)V, lload_0, l2i, invokestatic T i (I)V, return", stack=3, locals=2),
    Method(
        "s(Ljava/lang/String;)V",
        "aload_0, ifnonnull Text, iconst_m1, invokestatic T b (I)V, return, "
        "Text: {same} aload_0, invokevirtual java/lang/String length ()I, invokestatic T b (I)V, iconst_0, istore_1, "
        "Next: {append int} iload_1, aload_0, invokevirtual java/lang/String length ()I, if_icmpge Done, "
        "aload_0, iload_1, invokevirtual java/lang/String charAt (I)C, dup, bipush 8, ishr, invokestatic T b (I)V, invokestatic T b (I)V, "
        "iinc 1 1, goto Next, Done: {same} return",
        stack=3,
        locals=2,
    ),
    fields=[("o", "[B", PUBLIC | STATIC), ("n", "I", PUBLIC | STATIC)],
)
KEEPS = {"b": "b (I)V", "i": "i (I)V", "l": "l (J)V", "s": "s (Ljava/lang/String;)V"}


def kept(kind, *texts):
    """Instructions that push a value of this kind, and what keeps it."""
    return ", ".join([*texts, "invokestatic T " + KEEPS[kind]])


def computes(name, length, values, *methods, classes=None, data=b""):
    """A case that returns an array of this length with all the values."""
    text = ", ".join(["sipush %d, newarray byte, putstatic T o [B" % length, *values, "getstatic T o [B, areturn"])
    case(name, {"A": coded("A", Method(VERIFY, text, stack=12, locals=12), *methods), "T": T, **(classes or {})}, data=data)


def pushed(number):
    if -1 <= number <= 5:
        return "iconst_%s" % (number if number >= 0 else "m1")
    if -128 <= number <= 127:
        return "bipush %d" % number
    return "sipush %d" % number if -32768 <= number <= 32767 else "ldc int:%d" % number


def pushed_long(number):
    return "lconst_%d" % number if number in (0, 1) else "ldc2_w long:%d" % number


LEAST, MOST = -(1 << 31), (1 << 31) - 1
INTS = [0, 1, -1, 2, 7, -7, 31, 32, 33, 255, 65536, MOST, LEAST, LEAST + 1, 123456789]
NARROW = [0, 127, 128, 255, 256, 32767, 32768, 65535, 65536, -1, -128, -129, -32769, MOST, LEAST]
LONGS = [0, 1, -1, 5, -5, 63, 64, 65, 1 << 32, -(1 << 32) - 1, (1 << 63) - 1, -(1 << 63), 1234567890123456789]
computes(
    "negations-conversions-comparisons",
    593,
    [
        *(kept("i", pushed(number), "ineg") for number in INTS),
        *(kept("l", pushed_long(number), "lneg") for number in LONGS),
        *(kept("i", pushed(number), op) for number in NARROW for op in ("i2b", "i2c", "i2s")),
        *(kept("l", pushed(number), "i2l") for number in INTS),
        *(kept("i", pushed_long(number), "l2i") for number in LONGS),
        *(kept("b", pushed_long(left), pushed_long(right), "lcmp") for left in LONGS[::2] for right in LONGS[1::3] + LONGS[::2]),
    ],
)

# Jumps: a method for each, which returns whether it was taken.

TAKEN = "iconst_0, ireturn, Taken: {same} iconst_1, ireturn"
OF_ONE = "ifeq ifne iflt ifge ifgt ifle".split()
OF_TWO = ["if_icmp" + word for word in "eq ne lt ge gt le".split()]
OBJECTS = "(Ljava/lang/Object;Ljava/lang/Object;)I"
PAIRS = [(0, 0), (1, 2), (2, 1), (-1, 1), (MOST, LEAST), (LEAST, LEAST)]
REFERENCES = ["aconst_null, aconst_null", "aload_0, aload_0", "aload_0, aconst_null", "ldc string:x, ldc string:x", "ldc string:x, ldc string:y"]
computes(
    "jumps-taken-and-not",
    80,
    [
        *(kept("b", pushed(number), "invokestatic A %s (I)I" % name) for name in OF_ONE for number in (0, 1, -1, MOST, LEAST)),
        *(kept("b", pushed(left), pushed(right), "invokestatic A %s (II)I" % name) for name in OF_TWO for left, right in PAIRS),
        *(kept("b", both, "invokestatic A %s %s" % (name, OBJECTS)) for name in ("aeq", "ane") for both in REFERENCES),
        *(kept("b", one, "invokestatic A %s ([B)I" % name) for name in ("n", "nn") for one in ("aconst_null", "aload_0")),
    ],
    *(Method(name + "(I)I", "iload_0, %s Taken, %s" % (name, TAKEN)) for name in OF_ONE),
    *(Method(name + "(II)I", "iload_0, iload_1, %s Taken, %s" % (name, TAKEN)) for name in OF_TWO),
    *(Method("a" + word + OBJECTS, "aload_0, aload_1, if_acmp%s Taken, %s" % (word, TAKEN)) for word in ("eq", "ne")),
    *(Method(name + "([B)I", "aload_0, %s Taken, %s" % (op, TAKEN)) for name, op in (("n", "ifnull"), ("nn", "ifnonnull"))),
)

# Arrays.

STORED = [0, 1, -1, 127, 128, 255, 256, -129, 32767, 32768, 65535, 65536, MOST, LEAST]
LETTERS = {"byte": "b", "boolean": "b", "char": "c", "short": "s", "int": "i", "long": "l"}


def element(kind, length, *texts):
    """What keeps an element of a new array, which is in the local variable 1."""
    start = "iconst_%d, newarray %s, astore_1" % (length, kind)
    return kept("l" if kind == "long" else "i", start, *texts)


stored = []
for kind, letter in LETTERS.items():
    for text in map(pushed_long, LONGS) if kind == "long" else map(pushed, STORED):
        stored.append(element(kind, 2, "aload_1, iconst_1, %s, %sastore, aload_1, iconst_1, %saload" % (text, letter, letter)))
OF_TWO_TEXTS = "iconst_2, anewarray java/lang/String, astore_1, "
computes(
    "arrays-of-each-element",
    504,
    [
        *stored,
        *(element(kind, 3, "aload_1, iconst_0, %saload" % letter) for kind, letter in LETTERS.items()),
        *(kept("i", pushed(length), "newarray " + kind, "arraylength") for kind in "boolean char byte short int long".split() for length in (0, 1, 1000)),
        kept("i", "iconst_5, anewarray [[I, arraylength"),
        kept("s", OF_TWO_TEXTS + "aload_1, iconst_0, aaload, checkcast java/lang/String"),
        kept("s", OF_TWO_TEXTS + "aload_1, iconst_1, ldc string:v, aastore, aload_1, iconst_1, aaload, checkcast java/lang/String"),
        "iconst_2, anewarray [I, astore_1, aload_1, iconst_1, iconst_3, newarray int, aastore",
        "aload_1, iconst_1, aaload, checkcast [I, iconst_2, bipush 42, iastore",
        kept("i", "aload_1, iconst_1, aaload, checkcast [I, iconst_2, iaload"),
        kept("i", "aload_0, arraylength"),
        kept("i", "aload_0, iconst_1, baload"),
    ],
    data=b"\1\xfe\3",
)

# instanceof of objects of many classes.

OBJECT_INIT = Method("<init>", "aload_0, invokespecial java/lang/Object <init> ()V, return", flags=PUBLIC, stack=1, locals=1)
CLASSES = {
    "I": class_file("I", flags=AN_INTERFACE),
    "J": class_file("J", interfaces=["I"], flags=AN_INTERFACE),
    "P": coded("P", OBJECT_INIT, interfaces=["J"]),
    "Q": coded("Q", Method("<init>", "aload_0, invokespecial P <init> ()V, return", flags=PUBLIC), super_name="P"),
    "Z": coded("Z", OBJECT_INIT),
}
MADE = ["new P", "new Q", "new Z", "ldc string:s", "iconst_0, newarray int", "iconst_0, anewarray Q", "iconst_0, anewarray [LP;", "iconst_0, anewarray [I"]
MADE += ["new java/lang/NullPointerException", "aload_0", "aconst_null", "iconst_0, anewarray java/lang/Object", "iconst_0, anewarray java/lang/String"]
OF_CLASSES = ["java/lang/Object", "P", "Q", "I", "J", "Z"]
OF_CLASSES += ["java/lang/String", "java/lang/Comparable", "java/lang/CharSequence", "java/lang/Cloneable", "java/io/Serializable"]
OF_CLASSES += ["java/lang/RuntimeException", "java/lang/Throwable"]
OF_ARRAYS = ["[I", "[B", "[Ljava/lang/Object;", "[LP;", "[LI;", "[[Ljava/lang/Object;", "[[LJ;", "[[I", "[Ljava/lang/Cloneable;"]
OF_ARRAYS += ["[Ljava/lang/String;", "[Ljava/io/Serializable;", "[Ljava/lang/Comparable;", "[Z"]
for name, names in ("classes", OF_CLASSES), ("arrays", OF_ARRAYS):
    asked = [kept("b", made, "instanceof " + each) for each in names for made in MADE]
    computes("instanceof-%s-each" % name, len(asked), asked, classes=CLASSES)

# Texts.

TEXTS = ["", "a", "abc", "abd", "ab"]


def of_texts(kind, one, other, name, descriptor="Ljava/lang/String;"):
    results = {"i": "I", "b": "Z"}
    return kept(kind, "ldc string:%s, %s, invokevirtual java/lang/String %s (%s)%s" % (one, other, name, descriptor, results[kind]))


ANY = "Ljava/lang/Object;"
cut = "ldc string:abc, iconst_0, iconst_2, invokevirtual java/lang/String substring (II)Ljava/lang/String;"
computes(
    "texts-compared",
    253,
    [
        *(of_texts("i", one, "ldc string:" + other, "compareTo") for one in [*TEXTS, "Zz", "\uffff", "\0"] for other in [*TEXTS, "Zz"]),
        *(of_texts("b", one, "ldc string:" + other, "equals", ANY) for one in TEXTS for other in TEXTS),
        of_texts("b", "abc", "iconst_3, newarray char", "equals", ANY),
        of_texts("b", "", "aconst_null", "equals", ANY),
        of_texts("b", "ab", cut, "equals", ANY),
        of_texts("i", "b", "ldc string:a", "compareTo", ANY),
        kept("i", "ldc string:b, ldc string:c, invokeinterface java/lang/Comparable compareTo (Ljava/lang/Object;)I"),
        *(of_texts("b", one, "ldc string:" + other, "startsWith") for one in TEXTS for other in TEXTS),
    ],
)


def check(results):
    for name in sorted({*found, *os.listdir(RAW)}):
        top = os.path.join(RAW, name)
        if name not in found:
            lines = [] if os.path.exists(os.path.join(top, "text")) or name.startswith("javac-") else ["it has no text, and nothing makes it"]
        else:
            lines = make_cases.mismade(top, *found[name])
        results.add("tests/raw/%s" % name, [], lines)


def main():
    for name, (files, words) in found.items():
        make_cases.write_parts(os.path.join(RAW, name), files, words)
    print("%d cases" % len(found))


if __name__ == "__main__":
    main()
