"""The cases class-file-* of tests/written on `djvm check`: what is a class file (JVMS 4.1 to 4.7), what isn't, and the rules 1 to 8."""

from class_files import (
    A_CLASS,
    ABSTRACT,
    AN_INTERFACE,
    FIELD,
    INTERFACE_METHOD,
    METHOD,
    NATIVE,
    OBJECT,
    PUBLIC,
    RETURNS_ITS_ARGUMENT,
    STATIC,
    attribute,
    class_entry,
    class_file,
    code,
    invoke_dynamic,
    member_entry,
    method_handle,
    method_type,
    name_and_type,
    row,
    string,
    text_entry,
    u1,
    u2,
    u4,
)
from opcodes import opcode
from written_base import (
    above,
    add_every,
    by_indexes,
    check,
    each_of,
    float_entry,
    found,
    in_order,
    integer_entry,
    of_method,
    pool_of,
    wide_entry,
)

one = RETURNS_ITS_ARGUMENT
LONG_1 = wide_entry(5, 1)
METHOD_1 = ("n", "()V", PUBLIC | NATIVE)

check(
    "class-file-all-together",
    {
        "A": class_file("B", major=49),
        "B": one[:-1],
        "C": in_order("D", "n", "()V", methods=[METHOD_1])[:-1] + b"\1",
        "a-": one,
        "a": one,
        "a/C": in_order("D", "finalize", "()V", methods=[("finalize", "()V", PUBLIC | NATIVE)]),
    },
)

# Attributes of a class, of a field and of a method: whether their name is a text, and their length.

OF_MEMBERS = {"c": (), "f": ("f", "I"), "m": ("m", "()V")}


def with_attributes(kind, name, listed, *before):
    """A file whose class, field or method has this table of attributes; the constants `before` begin at 3."""
    name = "%s-%s" % (kind, name)
    pool = pool_of((name,), *before, *OF_MEMBERS[kind], (OBJECT,))
    last = pool.count - 1
    head = row(1, PUBLIC if kind == "f" else PUBLIC | ABSTRACT, last - 3, last - 2)
    tables = {"c": dict(listed=listed), "f": dict(fields=head + listed), "m": dict(methods=head + listed)}
    return {name: by_indexes(A_CLASS, 2, last, pool=pool, **tables[kind])}


def with_each_attribute(kind):
    abc, files = attribute(3, b"abc"), {}
    for name, table, *before in (
        ("any", row(1) + attribute(3, b"xyz"), "Foo"),
        ("empty-name", row(1) + attribute(3, b""), ""),
        ("huge", row(1, 3) + u4(0xFFFFFFFF) + b"abc", "X"),
        ("long", row(1, 3) + u4(4) + b"abc", "X"),
        ("name-0", row(1) + attribute(0, b"")),
        ("name-class", row(1) + attribute(4, b""), "X", class_entry(3)),
        ("name-past", row(1) + attribute(999, b"")),
        ("name-string", row(1) + attribute(4, b""), "X", string(3)),
        ("none", row(0)),
        ("short", row(1) + abc + b"\0", "X"),
        ("sign", row(1, 3) + u4(0x80000003) + b"abc", "X"),
        ("two", row(2) + attribute(3, b"") * 2, "A"),
    ):
        files.update(with_attributes(kind, name, table, *before))
    return files


check(
    "class-file-attributes",
    {
        **with_each_attribute("c"),
        **with_each_attribute("f"),
        **with_each_attribute("m"),
        "trailing-0": class_file("trailing-0", end=b"\0"),
        "trailing-many": in_order("trailing-many", "Q", listed=[("Q", b"")], end=b"abc" * 9),
    },
)

# The indexes of the class, its superclass and its interfaces. The constants are 2 this class, 4 Object, 6 an array, 7 a long, 10 a string and 12 x/Y.


def with_classes(name, this_class=2, super_class=4, interfaces=()):
    pool = pool_of((name,), (OBJECT,), "[I", class_entry(5), LONG_1, "s", string(9), "x/Y", class_entry(11))
    return by_indexes(A_CLASS, this_class, super_class, interfaces, pool=pool)


INTERFACES = {"none": [], "two": [12, 12], "zero": [0], "utf8": [1], "own": [2], "array": [12, 6], "past": [11], "object": [4]}
INDEXES = {"utf8": 1, "0": 0, "array": 6, "string": 10, "hole": 8, "past": 11}
check(
    "class-file-class-entries",
    {
        **{"this-" + name: with_classes("this-" + name, index) for name, index in {**INDEXES, "long": 7, "far": 65535, "this": 2}.items()},
        **{"super-" + name: with_classes("super-" + name, 2, index) for name, index in {**INDEXES, "this": 2, "obj": 4, "other": 12}.items()},
        **{
            "ifaces-" + name: with_classes("ifaces-" + name, interfaces=indexes)
            for name, indexes in INTERFACES.items()
        },
    },
)

# A file with a field, a method, a table of lines and an interface, and what it begins with.

rich = in_order(
    "Rich",
    *(wide_entry(5, 5), "ConstantValue", "f", "J", "LineNumberTable", "Code", "m", "()V", "R.java", "SourceFile"),
    fields=[("f", "J", PUBLIC | STATIC, [("ConstantValue", u2(3))])],
    methods=[("m", "()V", PUBLIC | STATIC, [code(max_stack=1, max_locals=0, listed=row(1) + attribute(8, row(0)))])],
    interfaces=["I"],
    listed=[("SourceFile", u2(12))],
)
LENGTHS = [*range(13), *range(19, 139, 7), *range(144, len(rich))]
check("class-file-cut-everywhere", {"Rich": rich, **{"cut-%03d" % length: rich[:length] for length in LENGTHS}})

check(
    "class-file-equal-lines",
    {
        "A": in_order(
            "A",
            *("f", "()LA(I)LB;", "f()LA", "(I)LB;", "g", "()V"),
            methods=[(*each, PUBLIC | NATIVE) for each in (("f", "()LA(I)LB;"), ("f()LA", "(I)LB;"), ("g", "()V"), ("g", "()V"))],
        )
    },
)

# Names of classes, and names and types.

BAD_CLASSES = ["", "/", "a/", "/a", "a//b", "a.b", "a;", "LA;", "a[", "[", "[V", "[X", "[L;", "[LA", "[LA;;", "[I[", "[La//b;"]
BAD_CLASSES += ["[" * 256 + "Z", "[L/;", "[()V"]
CLASSES = ["A", "a/B/c", "V", "<x>", "a b", "(", "€", "\0", "[I", "[[[J", "[La/B;", "[" * 255 + "Z", "[L<;", "L", "LA", "I", "-", "a\\b"]


def with_class(name, text):
    return above(name, text, (text,))


check("class-file-link-class", {**each_of("name-bad", BAD_CLASSES, with_class), **each_of("name-ok", CLASSES, with_class)})

BAD_TYPES = ["", "V", "()", "(V)V", "()VV", "II", "LA", "L;", "[", "(I", ")V", "()[V", "(" + "I" * 256 + ")V", "(" + "J" * 128 + ")V"]
BAD_TYPES += ["[" * 256 + "I", "i", "(I)Lx", "La.b;"]
BAD_PAIRS = [("", "I"), ("", "()V"), ("a.b", "I"), ("a;", "I"), ("a[", "()V"), ("a/b", "I"), ("<x>", "()V"), ("a>", "()V"), ("<init", "()V")]
BAD_PAIRS += [("<Init>", "()V"), *(("a", text) for text in BAD_TYPES)]
PAIRS = [("a", "I"), ("<x>", "I"), ("a>", "[D"), ("<init>", "()V"), ("<clinit>", "()V"), ("<init>", "I"), ("a", "(IJ[[Lx;)V"), ("a", "()F")]
PAIRS += [("a b", "Z"), ("(", "(S)C"), ("V", "La;"), ("é", "B"), ("a", "(" + "I" * 255 + ")V"), ("a", "(" + "J" * 127 + "I)D")]
PAIRS += [("a", "(" + "[" * 255 + "I)V")]


def with_pair(name, pair):
    return above(name, *pair, name_and_type(5, 6))


check("class-file-link-name-and-type", {**each_of("nt-bad", BAD_PAIRS, with_pair), **each_of("nt-ok", PAIRS, with_pair)})

# Members: what their class and their name and type may be. Constants of one's own begin at 5.


def with_member(tag, name, descriptor, kind):
    """A member whose class or whose name and type is of this kind."""
    pair = ["x", descriptor, name_and_type(5, 6)]
    in_class = [text_entry(b"A"), class_entry(5)]
    named = {"f": ("x", "I"), "m": ("x", "()V"), "desc": ("x", "V"), "name": ("a.b", "I")}
    before = {
        "0-nt": [*pair, member_entry(tag, 0, 7)],
        "utf8-nt": [*pair, member_entry(tag, 5, 7)],
        "own-nt": [*pair, member_entry(tag, 8, 7)],
        "past-nt": [*pair, member_entry(tag, 999, 7)],
        "array-nt": [("[[I",), "x", descriptor, name_and_type(7, 8), member_entry(tag, 6, 9)],
        "badclass-nt": [("a//b",), "x", descriptor, name_and_type(7, 8), member_entry(tag, 6, 9)],
        "class-0": [*in_class, member_entry(tag, 6, 0)],
        "class-class": [*in_class, member_entry(tag, 6, 6)],
        "class-past": [*in_class, member_entry(tag, 6, 999)],
        "class-utf8": [*in_class, "x", member_entry(tag, 6, 7)],
        **{"class-nt-" + each: [*in_class, *texts, name_and_type(7, 8), member_entry(tag, 6, 9)] for each, texts in named.items()},
    }
    before["nt-f-nt"] = ["x", "I", name_and_type(5, 6), *([] if tag == FIELD else ["()V", name_and_type(5, 8)]), member_entry(tag, 7, 7 if tag == FIELD else 9)]
    return above(name, *before[kind])


KINDS = "0-nt array-nt badclass-nt class-0 class-class class-nt-desc class-nt-f class-nt-m class-nt-name class-past class-utf8 nt-f-nt own-nt past-nt utf8-nt"
members = {}
for tag, word, letter, descriptor in (FIELD, "field", "f", "I"), (METHOD, "method", "m", "()V"), (INTERFACE_METHOD, "imethod", "m", "()V"):
    for kind in KINDS.split():
        name = "%s-%s%s" % (word, kind, "-" + letter if kind.endswith("-nt") else "")
        members[name] = with_member(tag, name, descriptor, kind)
check("class-file-link-member", members)

# The other constants that name constants.

CLASS_OF_A = ["A", class_entry(5)]
X_OF_INT = ["x", "I", name_and_type(5, 6)]
OTHERS = {
    "dyn-0": [invoke_dynamic(0, 0)],
    "dyn-angle": ["<x>", "()V", name_and_type(5, 6), invoke_dynamic(9, 7)],
    "dyn-class": [*CLASS_OF_A, invoke_dynamic(0, 6)],
    "dyn-f": [*X_OF_INT, invoke_dynamic(9, 7)],
    "dyn-init": ["<init>", "()V", name_and_type(5, 6), invoke_dynamic(9, 7)],
    "dyn-m": ["x", "()V", name_and_type(5, 6), invoke_dynamic(9, 7)],
    "mtype-0": [method_type(0)],
    "mtype-class": [*CLASS_OF_A, method_type(6)],
    "mtype-f": ["I", method_type(5)],
    "mtype-m": ["()V", method_type(5)],
    "mtype-m2": ["([F)D", method_type(5)],
    "mtype-none": ["", method_type(5)],
    "mtype-word": ["x", method_type(5)],
    "string-class": ["y", class_entry(5), string(6)],
    "string-int": [integer_entry(1), string(5)],
    "string-none": [string(0)],
    "string-own": [string(5)],
    "string-past": [string(999)],
    "string-utf8": ["y", string(5)],
}
for kind in 0, 1:
    OTHERS["handle-class-%d" % kind] = [*CLASS_OF_A, method_handle(kind, 6)]
    OTHERS["handle-dyn-%d" % kind] = ["m", "()V", name_and_type(5, 6), invoke_dynamic(0, 7), method_handle(kind, 8)]
    OTHERS["handle-handle-%d" % kind] = [method_handle(kind, 5)]
    OTHERS["handle-mtype-%d" % kind] = ["()V", method_type(5), method_handle(kind, 6)]
    OTHERS["handle-none-%d" % kind] = [method_handle(kind, 0)]
    OTHERS["handle-nt-%d" % kind] = [*X_OF_INT, method_handle(kind, 7)]
    OTHERS["handle-past-%d" % kind] = [method_handle(kind, 60000)]
    OTHERS["handle-utf8-%d" % kind] = ["A", method_handle(kind, 5)]
for kind in 0, 1, 5, 9, 200:
    for tag, word, descriptor in (FIELD, "field", "I"), (METHOD, "method", "()V"), (INTERFACE_METHOD, "imethod", "()V"):
        member = [*CLASS_OF_A, "x", descriptor, name_and_type(7, 8), member_entry(tag, 6, 9)]
        OTHERS["handle-%s-%d" % (word, kind)] = [*member, method_handle(kind, 10)]
check("class-file-link-others", {name: above(name, *before) for name, before in OTHERS.items()})

HOLES = {"class": class_entry(6), "handle": method_handle(1, 6), "mtype": method_type(6), "nt": name_and_type(1, 6), "string": string(6)}


def wide_counts(tag):
    """A long or a double as the last constant, whose second index is counted or isn't."""
    files = {}
    for name, count in ("w%d-both" % tag, 7), ("w%d-one" % tag, 6):
        files[name] = by_indexes(A_CLASS, 2, 4, count=count, pool=pool_of((name,), (OBJECT,), wide_entry(tag, 1)))
    return files


check(
    "class-file-long-and-double",
    {
        **{"hole-" + name: above("hole-" + name, LONG_1, entry) for name, entry in HOLES.items()},
        "this-is-hole": by_indexes(A_CLASS, 6, 4, pool=pool_of(("this-is-hole",), (OBJECT,), LONG_1)),
        "two-longs": above("two-longs", LONG_1, wide_entry(5, 2), wide_entry(6, 3), "z"),
        **wide_counts(5),
        **wide_counts(6),
    },
)

check(
    "class-file-magic",
    {"A": one, "a": b"", "b": one[:4], "c": one[:3] + u1(one[3] ^ 1) + one[4:], "d": one[3::-1] + one[4:], "e": b"PK\3\4" + bytes(40)},
)

# Fields and methods: their names and descriptors, and what these indexes name.

FIELDS = [("x", "I"), ("<x>", "I"), ("<init>", "J"), ("x", "[[La/b/C;"), ("a b", "F"), ("x", "[" * 255 + "D")]
BAD_FIELDS = [("", "I"), ("a.b", "I"), ("a/b", "I"), ("a;", "I"), ("a[b", "I"), ("x", "()V"), ("x", "V"), ("x", ""), ("x", "Lx"), ("x", "[" * 256 + "I")]
METHODS = [("x", "()V"), ("<init>", "()V"), ("<clinit>", "(I)I"), ("x", "(" + "J" * 127 + ")[La;")]
BAD_METHODS = [("<x>", "()V"), ("a>", "()V"), ("a<", "()V"), ("<init>x", "()V"), ("", "()V"), ("a.b", "()V"), ("x", "I"), ("x", "()")]
BAD_METHODS += [("x", "(" + "J" * 128 + ")V")]

# The constants of files whose member names other things, and the indexes of its name and of its descriptor.
MORE_FIELDS = [(["x", class_entry(1), "I"], 2, 3), (["I", string(1), "x"], 3, 2), (["I"], 0, 1), (["x"], 1, 0), (["x"], 1, 500)]
MORE_METHODS = [([integer_entry(4), "()V"], 1, 2), (["[I", class_entry(1), "x"], 3, 2), (["()V"], 0, 1), (["x"], 1, 0)]


def of_members(kind, good, bad, more):
    """The good ones, the bad ones behind them, and those that are given by indexes."""
    flags = PUBLIC if kind == "field" else PUBLIC | ABSTRACT
    given = [(list(dict.fromkeys(each)), each) for each in good + bad]
    given += [(before, indexes) for before, *indexes in more]
    files = {}
    for number, (before, (name, descriptor)) in enumerate(given):
        title = "%s-%s-%02d" % (kind, "ok" if number < len(good) else "bad", number)
        pool = pool_of(*before, (title,), (OBJECT,))
        indexes = [each if isinstance(each, int) else pool.text(each) for each in (name, descriptor)]
        table = row(1, flags, *indexes, 0)
        files[title] = by_indexes(A_CLASS, pool.class_name(title), pool.count - 1, pool=pool, **{kind + "s": table})
    return files


check("class-file-members", {**of_members("field", FIELDS, BAD_FIELDS, MORE_FIELDS), **of_members("method", METHODS, BAD_METHODS, MORE_METHODS)})

NAMES = {"": "X", "A": "A", "B": "C", "F": "f", "G.class": "G", "H.class": "H\u2024class", "a b%": "a b%", "é": "é", "😀": "😀", "d/A": "A", "d/E": "d/E"}
check("class-file-names", {**{path: class_file(name) for path, name in NAMES.items()}, "java/lang/Object": in_order(OBJECT)})
found["class-file-names"][0]["c/K.CLASS"] = class_file("Q")

# The rules 7 and 8.

NATIVES_AND_OTHERS = [("n", "()V", PUBLIC | NATIVE), ("n", "(I)V", PUBLIC | STATIC | NATIVE), ("a", "()V", NATIVE | ABSTRACT), ("b", "()V", PUBLIC)]
NATIVES_AND_OTHERS += [("z", "()V", 0xFFFF), ("finalize", "()V", PUBLIC | ABSTRACT), ("finalize", "()I", PUBLIC | ABSTRACT)]
NATIVES_AND_OTHERS += [(name, descriptor, PUBLIC | ABSTRACT) for name, descriptor in (("finalize", "(I)V"), ("finalise", "()V"), ("Finalize", "()V"))]
FINALIZERS = [(name, "()V", PUBLIC | NATIVE | ABSTRACT) for name in ("finalize", "<clinit>")]
ODD_NAMES = [("a b%é", "(Lx y;)V", PUBLIC | NATIVE), ("~", "()V", NATIVE), ("!", "()V", NATIVE)]
check(
    "class-file-native-finalizer",
    {
        "A": in_order("A", "n", "()V", "(I)V", "a", "b", "z", "finalize", "()I", "finalise", "Finalize", methods=NATIVES_AND_OTHERS),
        "B": in_order("B", "finalize", "()V", methods=[("finalize", "()V", PUBLIC | STATIC | NATIVE)]),
        "I": in_order("I", "finalize", "()V", "<clinit>", flags=AN_INTERFACE, methods=FINALIZERS),
        "p/Q": in_order("p/Q", "a b%é", "(Lx y;)V", "~", "()V", "!", methods=ODD_NAMES),
    },
)

# What `verify` doesn't judge yet.


def with_code(name, body=opcode("return"), **more):
    return of_method(name, [code(body, max_locals=0, **more)])


def with_value(name, bodies, *before):
    """A file with a field that has these values; the constants `before` begin at 1."""
    pool = pool_of(*before, "ConstantValue", "f", "I", (name,))
    return class_file(name, fields=[("f", "I", PUBLIC | STATIC, [("ConstantValue", body) for body in bodies])], pool=pool)


def with_maps(name, *maps):
    return of_method(name, [code(max_locals=0, listed=row(len(maps)) + b"".join(attribute(3, body) for body in maps))], "StackMapTable")


TWICE = dict(fields=[("f", "I", PUBLIC)] * 2, methods=[("m", "()V", PUBLIC | ABSTRACT)] * 2)
trailing = ("Code", code(max_locals=0)[1] + b"\0")
check(
    "class-file-not-yet",
    {
        "abstract-code": of_method("abstract-code", [code(max_locals=0)], flags=PUBLIC | ABSTRACT),
        "code-cut": with_code("code-cut", opcode("bipush")),
        "code-empty": of_method("code-empty", [("Code", b"")]),
        "code-falls-out": with_code("code-falls-out", opcode("nop")),
        "code-reserved": with_code("code-reserved", u1(255)),
        "code-trailing": of_method("code-trailing", [trailing]),
        "code-zero-length": with_code("code-zero-length", b""),
        "cv-short": with_value("cv-short", [b"\0"]),
        "cv-two": with_value("cv-two", [u2(1), u2(1)], integer_entry(1)),
        "cv-unfit": with_value("cv-unfit", [u2(2)], "s", string(1)),
        "float-here": above("float-here", float_entry()),
        "inner-name-0": with_code("inner-name-0", listed=row(1) + attribute(0, b"")),
        "map-bad": with_maps("map-bad", row(1) + u1(128)),
        "no-code": of_method("no-code", []),
        "row-empty": with_code("row-empty", handlers=[(0, 0, 0, 0)]),
        "super-0": by_indexes(A_CLASS, 2, 0, pool=pool_of(("super-0",), (OBJECT,))),
        "super-missing": class_file("super-missing", super_name="x/Y"),
        "twice": class_file("twice", pool=pool_of("f", "I", "m", "()V", ("twice",)), **TWICE),
        "two-codes": of_method("two-codes", [code(max_locals=0)] * 2),
        "two-maps": with_maps("two-maps", row(0), row(0)),
        "java/A": class_file("java/A"),
        "sandbox/A": class_file("sandbox/A"),
    },
)

# The count of constants, and their tags.


def counted(name, count, *before):
    return by_indexes(A_CLASS, 2, 4, count=count, pool=pool_of((name,), (OBJECT,), *before))


FIVE = integer_entry(5)
check(
    "class-file-pool-count",
    {
        "empty": counted("empty", 1),
        "exact": counted("exact", 6, FIVE),
        "just-count": one[:8] + b"\0",
        "most": counted("most", 65535),
        "no-count": one[:8],
        "none": counted("none", 0),
        "one-less": counted("one-less", 5, FIVE),
        "one-more": counted("one-more", 7, FIVE),
    },
)

# How a constant of each tag is added.
TAGS = {
    "t01-utf8": lambda pool: pool.text("x"),
    "t03-integer": lambda pool: pool.add(integer_entry()),
    "t04-float": lambda pool: pool.add(float_entry()),
    "t05-long": lambda pool: pool.add(wide_entry(5)),
    "t06-double": lambda pool: pool.add(wide_entry(6)),
    "t07-class": lambda pool: pool.class_name("[[La/B;"),
    "t08-string": lambda pool: pool.string(""),
    "t09-field": lambda pool: pool.member(FIELD, "A", "f", "J"),
    "t10-method": lambda pool: pool.member(METHOD, "A", "m", "(J)J"),
    "t11-interface-method": lambda pool: pool.member(INTERFACE_METHOD, "A", "m", "(J)J"),
    "t12-name-and-type": lambda pool: pool.name_and_type("n", "()V"),
    "t15-handle": lambda pool: pool.add(method_handle(1, pool.member(FIELD, "A", "f", "J"))),
    "t16-method-type": lambda pool: pool.add(method_type(pool.text("()V"))),
    "t18-dynamic": lambda pool: pool.add(invoke_dynamic(3, pool.name_and_type("m", "()V"))),
    "every": add_every,
}
tagged = {}
for name, add in TAGS.items():
    behind, first = pool_of((name,), (OBJECT,)), pool_of()
    add(behind)
    add(first)
    tagged[name] = class_file(name, pool=behind)
    tagged[name + "-first"] = class_file(name + "-first", pool=first)
check("class-file-tags-14", tagged)

# A whole constant for each tag, behind its tag; index 1 is a text and index 2 a class.
CONSTANTS = {
    **{1: u2(3) + b"abc", 3: u4(7), 4: u4(7), 5: u4(0) + u4(7), 6: u4(0) + u4(7), 7: u2(2), 8: u2(1)},
    **{9: row(2, 2), 10: row(2, 2), 11: row(2, 2), 12: row(1, 1), 15: u1(1) + u2(1), 16: u2(1), 18: row(0, 2)},
}
cut = {}
for tag, constant in CONSTANTS.items():
    # Files that end in a constant, after up to three of its bytes, or behind it.
    start = u4(0xCAFEBABE) + row(0, 52, 5 if tag in (5, 6) else 4) + text_entry(b"x") + u1(tag)
    cut.update(("cut-%d-%d" % (tag, length), start + constant[:length]) for length in {*range(min(len(constant), 4)), len(constant)})
check("class-file-tags-cut", cut)

NONE = (0, 2, 13, 14, 17, 19, 20, 127, 128, 255)
check("class-file-tags-none", {"tag-%d" % tag: above("tag-%d" % tag, u1(tag) + row(1, 1)) for tag in NONE})

# Texts in modified UTF-8.

BAD_TEXTS = "00 6100 80 bf c180 c081 c1bf c0 c3 c341 c3c3 e08080 e09fbf e1 e180 e18041 e14180 f0908080 f8 ff fe 6f6be282".split()
TEXTS = ["", *"417f01 c080 c280 dfbf e0a080 efbfbf eda080 edbfbf eda081edb0b7 61c3a962".split()]


def with_text(name, digits):
    return above(name, text_entry(bytes.fromhex(digits)))


check("class-file-text", {**each_of("text-bad", BAD_TEXTS, with_text), **each_of("text-ok", TEXTS, with_text)})

VERSIONS = [(minor, major) for major in (50, 52) for minor in (0, 65535)] + [(0, 0), (3, 45), (0, 49), (65535, 49)]
VERSIONS += [(0, 51), (1, 52), (0, 53), (0, 61), (0, 65535)]
check("class-file-versions", {"v%d-%d" % (major, minor): class_file("v%d-%d" % (major, minor), major=major, minor=minor) for minor, major in VERSIONS})
