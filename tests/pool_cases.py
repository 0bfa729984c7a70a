"""The cases of `djvm check FOLDER` on constant pools (JVMS 4.4) in tests/cases; make_cases.py makes their folders.

Of the files of a case those that are refused are named for their fault, and the others have their own class's name.
"""

import os

from class_files import (
    A_CLASS,
    DOUBLE,
    FIELD,
    FLOAT,
    INTEGER,
    INTERFACE_METHOD,
    LONG,
    METHOD,
    PROTECTED,
    Pool,
    class_entry,
    class_file,
    code,
    entry_of_tag,
    invoke_dynamic,
    member_entry,
    method_handle,
    method_type,
    modified_utf8,
    name_and_type,
    native,
    parts,
    row,
    string,
    text_entry,
    u1,
    u4,
)

HERE = os.path.dirname(os.path.abspath(__file__))
EXAMPLES = os.path.join(os.path.dirname(HERE), "examples", "javac")

found = {}


def case(name, files, words=("check", "c")):
    assert name not in found
    found[name] = ({"c/%s.class" % path: data for path, data in files.items()}, list(words), [])


def with_pool(name, *entries, **more):
    pool = Pool()
    for entry in entries:
        pool.add(entry)
    return class_file(name, pool=pool, **more)


# Each tag, in a pool in which all is right.


def whole_pool(pool=None):
    """A pool with an entry of each tag, and with what is odd and still right."""
    pool = pool or Pool()
    for entry in (INTEGER, LONG, FLOAT, DOUBLE):
        pool.add(entry)
    pool.string("a\0\u20ac")
    pool.string("")
    field = pool.member(FIELD, "a/B", "<x>", "[[D")
    method = pool.member(METHOD, "[La/B;", "clone", "()Ljava/lang/Object;")
    of_interface = pool.member(INTERFACE_METHOD, "a/I", "<init>", "(J)I")
    pool.member(METHOD, "a/I", "<clinit>", "()V")
    pool.name_and_type("alone", "F")
    for kind, index in ((1, field), (9, of_interface), (0, method), (6, field), (255, method)):
        pool.add(method_handle(kind, index))
    pool.add(method_type(pool.text("(Ljava/lang/String;I)V")))
    for number in (0, 65535):
        pool.add(invoke_dynamic(number, pool.name_and_type("call", "()V")))
    return pool


case("constants", {"Whole": class_file("Whole", pool=whole_pool(), methods=[("f", "()V")])})
case(
    "constants-alone",
    {
        "Integer": with_pool("Integer", INTEGER),
        "Float": with_pool("Float", FLOAT),
        "Long": with_pool("Long", LONG),
        "Double": with_pool("Double", DOUBLE),
        "String": with_pool("String", string(2), text_entry(b"")),
        # Two strings name the text before them, and a method type one after it.
        "Before": with_pool("Before", text_entry(b"I"), string(1), string(1), method_type(5), text_entry(b"()I")),
        "Longs": with_pool("Longs", LONG, LONG, DOUBLE, text_entry(b"x"), DOUBLE),
    },
)

# In these files the entries 10 and 11 are the names and types `f I` and `f ()V`, 12 to 14 a Fieldref, a Methodref and an
# InterfaceMethodref, 15 a long, and 17 an integer; 16 is the long's second index. What is in question has index 18.

TEXT, CLASS, NAME, FIELD_TYPE, METHOD_TYPE, ARRAY = 1, 2, 5, 6, 7, 9
OF_FIELD, OF_METHOD, A_FIELD, A_METHOD, AN_INTERFACE_METHOD, A_LONG, HOLE, AN_INTEGER, ITSELF, PAST = 10, 11, 12, 13, 14, 15, 16, 17, 18, 19
BEFORE = (
    name_and_type(NAME, FIELD_TYPE),
    name_and_type(NAME, METHOD_TYPE),
    member_entry(FIELD, CLASS, OF_FIELD),
    member_entry(METHOD, CLASS, OF_METHOD),
    member_entry(INTERFACE_METHOD, CLASS, OF_METHOD),
    LONG,
    INTEGER,
)
NAMES = {"0": 0, "text": TEXT, "class": CLASS, "name-and-type": OF_METHOD, "field": A_FIELD, "method": A_METHOD, "long": A_LONG}
NAMES |= {"hole": HOLE, "integer": AN_INTEGER, "itself": ITSELF, "past": PAST, "65535": 65535}


def links(name, entry, right, also=()):
    """A case in which an entry of one index names each kind of entry; it may name those of `right`. `also` are further
    entries, which are refused, by their names."""
    files = {"A": parts(more=[*BEFORE, *(entry(index) for index in right)])}
    for kind, index in NAMES.items():
        if index not in right:
            files[kind] = parts(more=[*BEFORE, entry(index)])
    for kind, made in dict(also).items():
        files[kind] = parts(more=[*BEFORE, made])
    case(name, files)


links("link-class", class_entry, [TEXT, 8])
links("link-string", string, [TEXT, METHOD_TYPE])
links("link-descriptor", method_type, [METHOD_TYPE], {"type-of-field": method_type(FIELD_TYPE)})
links("link-name", lambda index: name_and_type(index, FIELD_TYPE), [TEXT])
links(
    "link-type",
    lambda index: name_and_type(NAME, index),
    [FIELD_TYPE, METHOD_TYPE, 8],
    {"swapped": name_and_type(FIELD_TYPE, NAME), "both-0": name_and_type(0, 0)},
)
links("link-field-class", lambda index: member_entry(FIELD, index, OF_FIELD), [CLASS, ARRAY])
links("link-method-class", lambda index: member_entry(METHOD, index, OF_METHOD), [CLASS, ARRAY])
links("link-interface-method-class", lambda index: member_entry(INTERFACE_METHOD, index, OF_METHOD), [CLASS, ARRAY])
links("link-field-type", lambda index: member_entry(FIELD, CLASS, index), [OF_FIELD], {"swapped": member_entry(FIELD, OF_FIELD, CLASS)})
for tag, name in ((METHOD, "method"), (INTERFACE_METHOD, "interface-method")):
    links(
        "link-%s-type" % name,
        lambda index: member_entry(tag, CLASS, index),
        [OF_METHOD],
        {"type-of-field": member_entry(tag, CLASS, OF_FIELD), "swapped": member_entry(tag, OF_METHOD, CLASS)},
    )
links(
    "link-method-handle",
    lambda index: method_handle(6, index),
    [A_FIELD, A_METHOD, AN_INTERFACE_METHOD],
    {"kind-0-class": method_handle(0, CLASS), "kind-1-class": method_handle(1, CLASS), "kind-8-name-and-type": method_handle(8, OF_FIELD)},
)
links("link-dynamic", lambda index: invoke_dynamic(0, index), [OF_METHOD], {"type-of-field": invoke_dynamic(0, OF_FIELD)})

# A right entry whose own entries come after it, and one whose entries are wrong for it only there.
case(
    "link-forward",
    {
        "A": parts(more=[member_entry(METHOD, 11, 13), class_entry(12), text_entry(b"x"), name_and_type(12, 7), string(12)]),
        "of-field": parts(more=[member_entry(METHOD, 11, 13), class_entry(12), text_entry(b"x"), name_and_type(12, 6)]),
        "class-of-class": parts(more=[class_entry(11), class_entry(1)]),
        "in-a-ring": parts(more=[class_entry(11), class_entry(10)]),
        "first": parts(more=[string(0), INTEGER]),
        "last": parts(more=[INTEGER, string(0)]),
        "bad-class-name": parts(more=[class_entry(11), text_entry(b"a.b"), member_entry(METHOD, 10, 13), name_and_type(5, 7)]),
    },
)

# Names and descriptors of names and types.

NAMES_AND_TYPES = {
    # name: (kind, name, descriptor)
    "field-name-angle": (FIELD, "<x>", "I"),
    "field-name-init": (FIELD, "<init>", "I"),
    "method-name-init": (METHOD, "<init>", "()I"),
    "method-name-clinit": (METHOD, "<clinit>", "(I)V"),
    "method-name-blank": (METHOD, " (", "()V"),
    "type-array255": (FIELD, "f", "[" * 255 + "J"),
    "type-slots255": (METHOD, "f", "(" + "J" * 127 + "I)V"),
}
WRONG_NAMES_AND_TYPES = {
    "method-name-angle": ("<x>", "()V"),
    "method-name-init-upper": ("<Init>", "()V"),
    "method-name-less": ("a<", "()V"),
    "method-name-greater": (">", "()V"),
    "name-empty": ("", "I"),
    "name-dot": ("a.b", "I"),
    "name-semicolon": ("a;", "I"),
    "name-bracket": ("[I", "I"),
    "name-slash": ("a/b", "I"),
    "method-name-empty": ("", "()V"),
    "method-name-slash": ("a/b", "()V"),
    "type-empty": ("f", ""),
    "type-void": ("f", "V"),
    "type-two": ("f", "II"),
    "type-class": ("f", "La/B"),
    "type-name": ("f", "a/B"),
    "type-array256": ("f", "[" * 256 + "I"),
    "type-void-parameter": ("f", "(V)V"),
    "type-slots256": ("f", "(" + "J" * 128 + ")V"),
    "type-unended": ("f", "(I"),
}


def of_name_and_type(name, descriptor):
    return parts(more=[name_and_type(11, 12), text_entry(modified_utf8(name)), text_entry(modified_utf8(descriptor))])


right_names = Pool()
for tag, name, descriptor in NAMES_AND_TYPES.values():
    right_names.member(tag, "a/B", name, descriptor)
case(
    "names-and-types",
    {"A": class_file("A", pool=right_names)}
    | {name: of_name_and_type(*texts) for name, texts in WRONG_NAMES_AND_TYPES.items()},
)

# A long or a double takes two indexes, both below the count, and the second names nothing, wherever an index stands.

case(
    "long-and-double",
    {
        "A": parts(more=[LONG, DOUBLE], count=14),
        "long-last": parts(more=[LONG], count=11),
        "double-last": parts(more=[DOUBLE], count=11),
        "double-after-long-last": parts(more=[LONG, DOUBLE], count=13),
        # The count is given as if each took one index, and the other way round.
        "long-of-one-index": parts(more=[LONG, DOUBLE], count=12),
        "integer-of-two-indexes": parts(more=[INTEGER], count=12),
        "long-alone": u4(0xCAFEBABE) + row(0, 52, 2) + LONG + row(A_CLASS, 1, 0, 0, 0, 0, 0),
    },
)
case(
    "holes",
    {
        "this": parts(this_class=11, more=[LONG]),
        "super": parts(super_class=11, more=[LONG]),
        "interface": parts(interfaces=[2, 11], more=[DOUBLE]),
        "field-name": parts(fields=row(1, 0, 11, 6, 0), more=[LONG]),
        "field-type": parts(fields=row(1, 0, 5, 11, 0), more=[DOUBLE]),
        "method-name": parts(methods=row(1, 0, 11, 7, 0), more=[LONG]),
        "method-type": parts(methods=row(1, 0, 5, 11, 0), more=[LONG]),
        "attribute": parts(listed=row(1, 11, 0, 0), more=[DOUBLE]),
        "this-long": parts(this_class=10, more=[LONG]),
        "attribute-double": parts(listed=row(1, 10, 0, 0), more=[DOUBLE]),
        # Behind the hole the indexes go on.
        "A": parts(listed=row(1, 12, 0, 0), more=[LONG, text_entry(b"x")]),
    },
)

# Places outside the pool that ask a class or a text and find another constant.

case(
    "indexes-of-constants",
    {
        "this-string": parts(this_class=10, more=[string(1)]),
        "super-field": parts(super_class=12, more=BEFORE),
        "interface-name-and-type": parts(interfaces=[10], more=BEFORE),
        "field-name-string": parts(fields=row(1, 0, 10, 6, 0), more=[string(5)]),
        "field-type-name-and-type": parts(fields=row(1, 0, 5, 10, 0), more=BEFORE),
        "method-name-method": parts(methods=row(1, 0, 13, 7, 0), more=BEFORE),
        "method-type-method-type": parts(methods=row(1, 0, 5, 10, 0), more=[method_type(7)]),
        "attribute-integer": parts(listed=row(1, 17, 0, 0), more=BEFORE),
    },
)

# Tags that there are not, and entries that are cut. A fault of an entry's own bytes and one of what it names are one line.

TAGS = (1, 3, 4, 5, 6, 7, 8, 9, 10, 11, 12, 15, 16, 18)
case("tags-unknown", {"tag-%d" % tag: parts(more=[u1(tag) + bytes(8)]) for tag in (0, 2, 13, 14, 17, 19, 20, 21, 255)})
case(
    "constants-cut",
    {
        "tag-%02d-%d" % (tag, length): parts(more=[entry_of_tag(tag)], count=11)[: len(parts(more=[b"\0"])) - 14 + length]
        for tag in TAGS
        for length in range(len(entry_of_tag(tag)) - 1)
    },
)
case(
    "pool-faults",
    {
        "bad-text": with_pool("A", text_entry(b"\0"), INTEGER),
        "unknown-tag": with_pool("A", u1(2), INTEGER),
        "cut-text": u4(0xCAFEBABE) + row(0, 52, 3) + u1(1) + row(2) + u1(3),
        "past-the-count": u4(0xCAFEBABE) + row(0, 52, 1) + INTEGER,
        "count-0": u4(0xCAFEBABE) + row(0, 52, 0) + INTEGER,
        "magic": b"\xca\xfe\xba\xbf" + with_pool("A", INTEGER)[4:],
        "cut-count": with_pool("A", INTEGER)[:9],
        "cut-before-the-tag": with_pool("A", INTEGER)[:10],
        "class-of-nothing-and-unknown-tag": with_pool("A", class_entry(99), LONG, u1(2), end=b"\0"),
        "method-of-nothing-and-a-byte-more": with_pool("A", member_entry(METHOD, 0, 0), end=b"\0"),
        "bad-text-behind-a-long": parts(more=[LONG, text_entry(b"\xff")]),
    },
)

# The other rules see through every pool.

case(
    "rules-beside-constants",
    {
        "A": b"",
        "B": class_file("B", pool=whole_pool(), methods=[native("n"), ("finalize", "()V", PROTECTED, [code()])]),
        "Z": class_file("Z", pool=whole_pool()),
        "z": class_file("y", pool=whole_pool(), major=9),
    },
)
case("finalizer-that-is-only-named", {"A": with_pool("A", text_entry(b"finalize"), text_entry(b"()V"), name_and_type(1, 2))})

# What javac made of examples/javac/source.


def written_by_javac(folder):
    top = os.path.join(EXAMPLES, folder)
    files = {}
    for inside, _, names in os.walk(top):
        for name in names:
            path = os.path.join(inside, name)
            with open(path, "rb") as file:
                files[os.path.relpath(path, top)[: -len(".class")]] = file.read()
    return files


accepted, rejected = written_by_javac("accepted"), written_by_javac("rejected")
case("javac-accepted", accepted)
case("javac-rejected", rejected)
case("javac-cut", {path: data[:-1] for path, data in accepted.items()})
case("javac-another-place", {os.path.basename(path): data for path, data in accepted.items()})
