"""The cases of `djvm raw FOLDER ENTRY INPUT` in tests/cases that the words, the limits and the rules decide; make_cases.py makes their
folders. Where the run decides, which reference.py doesn't make, its report is written here by hand. Those of tests/raw go through
what runs do."""

from class_files import NATIVE, PAIR, PRIVATE, PUBLIC, RETURNS_ITS_ARGUMENT, STATIC, class_file, native, straight
from instructions import instructions
from verify_cases import bad_shape, returns

one = RETURNS_ITS_ARGUMENT

found = {}
# What a run writes, and its status, by the names of the cases. The others are those of reference.py.
runs = {}

RAW = ["raw", "c", "A", "in"]
RETURNED = b"OK 2 0a0b\nsteps 2\n", 0


def stopped(steps):
    return b"STEPS %d\nsteps %d\n" % (steps, steps), 8


def case(name, files, entry="A", words=None, ran=None, folders=()):
    """Files are given by their paths in the case's folder; the input is `in`."""
    name = "raw-" + name
    assert name not in found
    found[name] = ({**files, "in": b"\x0a\x0b"}, words or ["raw", "c", entry, "in"], folders)
    if ran is not None:
        runs[name] = ran


# Words.

is_one = {"c/A.class": one}

for count in 1, 2, 3:
    case("words-%d" % count, is_one, words=RAW[:count])
case("words-5", is_one, words=[*RAW, "in"])
case("words-5-empty", is_one, words=[*RAW, ""])
case("words-other-case", is_one, words=["Raw", *RAW[1:]])
case("words-folder-slash", is_one, words=["raw", "c/", "A", "c/../in"], ran=RETURNED)
case("words-dashes-first", is_one, words=["--", *RAW], ran=RETURNED)
case("words-input-after-dashes", {**is_one, "--steps=1": b"\x0a\x0b"}, words=["raw", "c", "A", "--", "--steps=1"], ran=RETURNED)
case("words-dash-of-input", is_one, words=["raw", "c", "A", "-in"])
case("words-input-is-dash", {**is_one, "-": b"\x0a\x0b"}, words=["raw", "c", "A", "-"], ran=RETURNED)

# --steps. Where it isn't given there are 10,000,000, and 100,000,000 at most.

for title, value, ran in (
    ("none", "0", stopped(0)),
    ("one-short", "1", stopped(1)),
    ("enough", "2", RETURNED),
    ("one-over", "3", RETURNED),
    ("most", "100000000", RETURNED),
    ("past", "100000001", None),
    ("ten-digits", "0000000002", RETURNED),
    ("ten-digits-past", "9999999999", None),
    ("eleven-digits", "00000000002", None),
    ("of-nothing", "", None),
    ("letter", "x", None),
    ("dot", "5.0", None),
    ("hex", "0x5", None),
    ("plus", "+5", None),
    ("minus", "-5", None),
    ("underscore", "1_0", None),
    ("blank", "5 ", None),
    ("arabic", "\u0665", None),
    ("huge", "9" * 20, None),
):
    case("steps-" + title, is_one, words=[*RAW, "--steps=" + value], ran=ran)
case("steps-of-two-words", is_one, words=[*RAW, "--steps", "1"], ran=stopped(1))
case("steps-first", is_one, words=["--steps", "1", *RAW], ran=stopped(1))
case("steps-between", is_one, words=["raw", "--steps=1", "c", "A", "in"], ran=stopped(1))
case("steps-takes-the-next-word", {"A/c.class": class_file("c", [returns])}, words=["raw", "A", "--steps", "1", "c", "in"], ran=stopped(1))
case("steps-takes-a-plain-word", is_one, words=["raw", "--steps", "c", "A", "in"])
case("steps-without-value", is_one, words=[*RAW, "--steps"])
case("steps-value-is-option", is_one, words=["raw", "c", "A", "in", "--steps", "--steps=5"])
case("steps-value-minus", is_one, words=[*RAW, "--steps", "-1"])
case("steps-value-dash", is_one, words=[*RAW, "--steps", "-"])
case("steps-value-dashes", is_one, words=[*RAW, "--steps", "--", "5"])
case("steps-twice", is_one, words=[*RAW, "--steps", "5", "--steps", "5"])
case("steps-twice-in-two-forms", is_one, words=["--steps=5", *RAW, "--steps", "5"])
case("steps-cut-name", is_one, words=[*RAW, "--step", "5"])
case("steps-other-case", is_one, words=[*RAW, "--Steps", "5"])
case("steps-short", is_one, words=[*RAW, "-steps", "5"])
for name in "alloc", "invoke", "jump", "throw":
    case("threshold-" + name, is_one, words=[*RAW, "--%s=5" % name])
    case("threshold-%s-beside-steps" % name, is_one, words=[*RAW, "--steps=5", "--" + name, "5"])
case("steps-of-check", is_one, words=["check", "c", "--steps=5"])
case("steps-of-assemble", is_one, words=["assemble", "in", "--steps=5"])

# ENTRY: its class, and the method that is run.

for name, entry in (("dots", "a.b.C"), ("slashes", "a/b/C"), ("both", "a.b/C")):
    case("entry-with-" + name, {"c/a/b/C.class": class_file("a/b/C", [returns])}, entry=entry, ran=RETURNED)
    case("entry-with-%s-and-no-class" % name, is_one, entry=entry)
case("entry-of-units", {"c/%s.class" % PAIR: class_file(PAIR, [returns])}, entry=PAIR, ran=RETURNED)
case("entry-is-escaped", {}, entry="a b." + PAIR + "%é", folders=["c"])
case("entry-without-class-files", {}, folders=["c"])
case("entry-empty", is_one, entry="")
case("entry-with-ending", is_one, entry="A.class")
case("entry-other-case", is_one, entry="a")
case("entry-of-the-library", is_one, entry="java.lang.Object")
case("entry-without-methods", {"c/A.class": class_file("A")})
case("entry-of-another-case", {"c/A.class": class_file("A", [straight(instructions("aload_0, areturn"), name="Verify")])})
case("entry-is-not-static", {"c/A.class": class_file("A", [straight(instructions("aload_0, areturn"), flags=PUBLIC)])})
case("entry-is-native", {"c/A.class": class_file("A", [("verify", "([B)[B", PUBLIC | STATIC | NATIVE)])})
case("entry-is-private", {"c/A.class": class_file("A", [straight(instructions("aload_0, areturn"), flags=PRIVATE | STATIC)])}, ran=RETURNED)
case("entry-is-an-instance-beside", {"c/A.class": class_file("A", [straight(instructions("aload_0, areturn"), flags=PUBLIC, name="f"), returns])}, ran=RETURNED)

# The order of work: the input, the rules 1 to 6, the other rules and the entry together, the run.

case("input-absent-before-rules", {"c/A.class": b""}, words=["raw", "c", "A", "none"])
case("input-is-a-folder", is_one, words=["raw", "c", "A", "c"])
case("input-is-a-class-file", is_one, words=["raw", "c", "A", "c/A.class"], ran=(b"OK %d %s\nsteps 2\n" % (len(one), one.hex().encode()), 0))
case("folder-absent", is_one, words=["raw", "d", "A", "in"])
case("folder-absent-and-steps-past", is_one, words=["raw", "d", "A", "in", "--steps=100000001"])
case("rules-before-no-steps", {"c/A.class": class_file("A", [bad_shape])}, words=[*RAW, "--steps=0"])
case("rules-before-a-run", {**is_one, "c/B.class": class_file("B", [native("n")])})
case("rules-1-to-6-before-the-entry", {"c/A.class": class_file("A", [bad_shape, native("n")]), "c/B.class": class_file("B", super_name="x/Y")}, entry="Z")
case("rules-and-the-entry", {"c/A.class": class_file("A", [bad_shape, native("n")])}, entry="Z")
case("rules-of-the-entry-itself", {"c/A.class": class_file("A", [bad_shape])})
case("malformed-entry", {"c/A.class": one[:-1]})
case("malformed-beside-the-entry", {**is_one, "c/B.class": b""})
case("duplicates-of-the-entry", {**is_one, "c/B.class": one})
