"""Makes Java sources of classes as contracts have them, and compiles them: the class files are those of a real compiler. They have no
floats and no lambdas, and of Java they name what the library has (docs/LIBRARY.md), so `djvm check` accepts them."""

import math
import os
import subprocess
import sys

WORDS = "account amount balance broker check contract issue ledger limit node order party pay price state sum token total".split()
TYPES = ["int", "long", "String", "boolean", "byte[]", "char", "String[]", "StringBuilder", "Object[]", "int[][]"]
LEAST, MOST = 2048, 40960

# Roughly how many bytes of a class file come of a class without these methods, of a field, and of a method.
EMPTY, FIELD, METHOD = 800, 35, 300

HEAD = """package %s;

public final class %s implements Comparable<%s> {
    public static final long SCALE = %dL;
    private static final String NAME = "%s";
    private int count;
    private final String[] names = new String[8];

    public static int twice(int number) {
        return number + number;
    }

    @Override
    public int compareTo(%s other) {
        return count < other.count ? -1 : count == other.count ? 0 : 1;
    }
"""

METHODS = [
    """
    public long %(name)s(int %(a)s, long %(b)s) {
        long %(c)s = %(number)dL;
        for (int at = 0; at < %(a)s; at++) {
            if ((at & 3) == 1) {
                %(c)s += %(b)s * at + %(other)s.twice(at);
            } else {
                %(c)s ^= SCALE >>> at;
            }
        }
        return %(c)s + count;
    }
""",
    """
    String %(name)s(String %(a)s, int[] %(b)s) {
        StringBuilder %(c)s = new StringBuilder("%(text)s");
        for (int each : %(b)s) {
            %(c)s.append(each).append(", ").append(%(a)s.length() + %(number)d);
        }
        if (!names[count & 7].equals(%(a)s)) {
            names[count & 7] = %(a)s + "%(name)s";
        }
        return %(c)s.toString();
    }
""",
    """
    static int %(name)s(String %(a)s) {
        switch (%(a)s) {
            case "%(text)s":
                return %(number)d;
            case "%(text)s of %(b)s":
                return twice(%(a)s.hashCode());
            default:
                throw new IllegalArgumentException("no %(c)s: " + %(a)s);
        }
    }
""",
    """
    public long[] %(name)s(CharSequence[] %(a)s) {
        long[] %(b)s = new long[%(a)s.length + 1];
        try {
            for (CharSequence %(c)s : %(a)s) {
                %(b)s[count & 3] += (long) %(c)s.length() * %(number)dL;
            }
        } catch (NullPointerException | ArrayIndexOutOfBoundsException missing) {
            %(b)s[0] = SCALE + "%(text)s".length();
        } finally {
            count++;
        }
        return %(b)s;
    }
""",
    """
    protected long %(name)s(long %(a)s, short %(b)s, Comparable<String> %(c)s) {
        long sum = %(a)s * %(number)d;
        for (String each : names) {
            sum += (long) %(c)s.compareTo(each) / %(b)s;
        }
        long scaled = %(a)s * SCALE;
        return sum > 0 ? sum + scaled : Math.abs(sum);
    }
""",
    """
    private static synchronized byte[] %(name)s(byte[] %(a)s, int %(b)s) {
        byte[] %(c)s = new byte[%(a)s.length + %(b)s];
        System.arraycopy(%(a)s, 0, %(c)s, %(b)s, %(a)s.length);
        for (int at = 0; at < %(b)s; at++) {
            %(c)s[at] = (byte) (at * %(number)d);
        }
        if (%(c)s.length > SCALE) {
            throw new IllegalStateException("%(text)s: " + %(c)s.length + NAME);
        }
        return %(c)s;
    }
""",
]


def identifier(draw):
    words = [draw.choice(WORDS) for _ in range(draw.randint(2, 4))]
    return words[0] + "".join(word.capitalize() for word in words[1:]) + str(draw.randrange(10000))


def size_of(draw):
    """A size between the least and the most, small ones more often than large ones."""
    return int(LEAST * math.exp(draw.random() * math.log(MOST / LEAST)))


def source(draw, package, name, other):
    """A class whose class file has some 2 to 40 KB; it calls the class `other`."""
    left = size_of(draw) - EMPTY
    parts = [HEAD % (package, name, name, draw.getrandbits(40), identifier(draw), name)]
    while left > 0:
        for _ in range(draw.randint(0, 2)):
            parts.append("    %s %s;\n" % (draw.choice(TYPES), identifier(draw)))
            left -= FIELD
        a, b, c = (identifier(draw) for _ in range(3))
        text = " ".join(draw.choice(WORDS) for _ in range(draw.randint(1, 8)))
        values = dict(name=identifier(draw), a=a, b=b, c=c, text=text, number=draw.randrange(2, 70000), other=other)
        parts.append(draw.choice(METHODS) % values)
        left -= METHOD
    return "".join(parts) + "}\n"


def compile_classes(draw, count, batches, sources, classes):
    """Makes this many class files in the folder `classes`; their paths in an order in which each prefix is a mixture, and names no class after it."""
    paths = []
    for batch in range(batches):
        package = "real.p%02d" % batch
        names = ["C%05d" % number for number in range(batch, count, batches)]
        here = os.path.join(sources, package.replace(".", os.sep))
        os.makedirs(here)
        for place, name in enumerate(names):
            with open(os.path.join(here, name + ".java"), "w", encoding="ascii") as file:
                file.write(source(draw, package, name, draw.choice(names[: place + 1])))
        listed = [os.path.join(here, name + ".java") for name in names]
        compiler = ["javac", "-J-XX:+UseSerialGC", "-J-XX:TieredStopAtLevel=1", "-Xlint:-options", "-nowarn", "-proc:none"]
        ran = subprocess.run([*compiler, "--release", "8", "-d", classes, *listed])
        if ran.returncode != 0:
            sys.exit("javac: status %d" % ran.returncode)
        paths += [os.path.join(classes, package.replace(".", os.sep), name + ".class") for name in names]
    return sorted(paths, key=os.path.basename)
