"""The cases hierarchy-* of tests/written, on the rules 3 to 6 of `djvm check`. They were drawn at random, by a program that isn't kept, and are written
down here, since their reports come from another implementation, which can't be run here.

A case is named for its number of files. Each file is its path, its flags, its superclass and its interfaces, `.` for Object and `0` for none; then, where it isn't
that of the path, the name of its class; and how many fields it has, which are all the same, where there is more than one."""

from class_files import A_CLASS, ABSTRACT, AN_INTERFACE, FINAL, OBJECT, class_file
from written_base import check


def file_of(path, flags, above, name=None, fields=1):
    super_name, *interfaces = above.split()
    super_name = {".": OBJECT, "0": None}.get(super_name, super_name)
    return class_file(name or path, fields=[("f", "I", ABSTRACT)] * fields, interfaces=interfaces, flags=flags, super_name=super_name)


def hierarchy(name, *files):
    check("hierarchy-" + name, {each[0]: file_of(*each) for each in files})


hierarchy(
    "5",
    ("A", A_CLASS, ". java/lang/Exception D"),
    ("B", AN_INTERFACE, "."),
    ("C", AN_INTERFACE, ". X java/util/List", "C", 2),
    ("D", AN_INTERFACE, ". C"),
    ("a/E", A_CLASS | FINAL, "."),
)
hierarchy(
    "5-name-duplicate",
    ("B", A_CLASS, "."),
    ("B1", A_CLASS, ". B", "B"),
    ("C", AN_INTERFACE, ". a/E"),
    ("D", AN_INTERFACE, ". D a/E"),
    ("a/E", AN_INTERFACE, "."),
)
hierarchy(
    "5-name",
    ("A0", AN_INTERFACE, ". java/util/List A", "A"),
    ("B", AN_INTERFACE, "."),
    ("C", AN_INTERFACE, "."),
    ("D", AN_INTERFACE, ". java/io/Serializable"),
    ("a/E", AN_INTERFACE, ". D"),
)
hierarchy(
    "6-name-package",
    ("A", A_CLASS | FINAL, "java/io/Serializable X"),
    ("B", A_CLASS, "java/lang/Comparable X"),
    ("D3", A_CLASS, "java/lang/Runnable", "D"),
    ("a/E", A_CLASS, "."),
    ("a/F", A_CLASS, "D"),
    ("java/lang/Runnable", A_CLASS | FINAL, "a/E"),
)
hierarchy(
    "6-package-a",
    ("A", A_CLASS, "D"),
    ("C", A_CLASS, "A"),
    ("D", A_CLASS, "A"),
    ("a/E", A_CLASS, "A"),
    ("a/F", AN_INTERFACE, "."),
    ("java/lang/Runnable", A_CLASS, "D"),
)
hierarchy(
    "6-package-b",
    ("A", A_CLASS | FINAL, "java/lang/Runnable B a/E"),
    ("B", A_CLASS, "java/lang/Comparable"),
    ("C", A_CLASS, "0 java/util/List"),
    ("D", A_CLASS | FINAL, ". java/io/Serializable a/F"),
    ("a/F", AN_INTERFACE, ". a/F"),
    ("java/lang/Runnable", A_CLASS, "A X java/lang/String"),
)
hierarchy(
    "7-a",
    ("A", A_CLASS, "A"),
    ("B", A_CLASS, ". C"),
    ("C", AN_INTERFACE, ". java/lang/Exception"),
    ("D", A_CLASS, "B"),
    ("G", AN_INTERFACE, ".", "G", 2),
    ("a/E", A_CLASS, ". a/E"),
    ("a/F", A_CLASS, ". java/lang/String"),
)
hierarchy(
    "7-b",
    ("A", A_CLASS, "A B"),
    ("B", A_CLASS, ". a/F"),
    ("C", A_CLASS, "java/lang/Comparable a/F java/io/Serializable"),
    ("D", AN_INTERFACE, ". B"),
    ("G", A_CLASS | FINAL, "java/lang/String"),
    ("a/E", A_CLASS, ". a/F java/lang/Runnable"),
    ("a/F", AN_INTERFACE, ". java/util/List"),
)
hierarchy(
    "7-name-duplicate",
    ("A", A_CLASS, "."),
    ("C", A_CLASS, ". D"),
    ("C2", A_CLASS, "B", "C"),
    ("D", A_CLASS, "0 java/util/List A"),
    ("G", A_CLASS, "A"),
    ("a/E", A_CLASS | FINAL, "B"),
    ("a/F", AN_INTERFACE, ". B"),
)
hierarchy(
    "7-name",
    ("A0", AN_INTERFACE, ". a/E X", "A"),
    ("B", A_CLASS, "A B"),
    ("C2", AN_INTERFACE, ". a/E java/io/Serializable", "C"),
    ("D", A_CLASS | FINAL, "java/lang/Comparable B"),
    ("G", AN_INTERFACE, ". a/F"),
    ("a/E", AN_INTERFACE, "."),
    ("a/F", AN_INTERFACE, "."),
)
hierarchy(
    "8-name",
    ("A", A_CLASS, "A java/lang/Runnable"),
    ("B", AN_INTERFACE, "."),
    ("C", A_CLASS, "."),
    ("D3", AN_INTERFACE, ". java/lang/Runnable a/E", "D"),
    ("G", A_CLASS, "A"),
    ("H", AN_INTERFACE, "0 G H"),
    ("a/E", A_CLASS, "A java/util/List"),
    ("a/F", A_CLASS | FINAL, "C H java/lang/Runnable"),
)
hierarchy(
    "8-name-package-duplicate",
    ("B", A_CLASS, "a/E"),
    ("C", A_CLASS, ". java/util/List A"),
    ("G", AN_INTERFACE, ". A java/lang/Runnable"),
    ("H", A_CLASS | FINAL, "java/util/List H"),
    ("a/E", AN_INTERFACE, "."),
    ("a/F", AN_INTERFACE, ". java/io/Serializable java/util/List"),
    ("java/lang/Runnable", A_CLASS, "C"),
    ("java/lang/Runnable3", AN_INTERFACE, ". a/E a/F", "java/lang/Runnable", 2),
)
hierarchy(
    "9",
    ("A", AN_INTERFACE, "."),
    ("B", AN_INTERFACE, "."),
    ("C", A_CLASS, "B a/F java/lang/Runnable"),
    ("D", AN_INTERFACE, "A a/E"),
    ("G", AN_INTERFACE, "."),
    ("H", AN_INTERFACE, ". D"),
    ("I", A_CLASS, "0 A X"),
    ("a/E", A_CLASS, "."),
    ("a/F", AN_INTERFACE, "C java/io/Serializable"),
)
hierarchy(
    "9-name-duplicate-a",
    ("A", A_CLASS, ". java/lang/Exception java/io/Serializable"),
    ("A3", AN_INTERFACE, ". H", "A"),
    ("B", A_CLASS | FINAL, ". C"),
    ("C", A_CLASS | FINAL, ". C", "C", 2),
    ("G", A_CLASS, ". X java/lang/Exception"),
    ("H", AN_INTERFACE, "."),
    ("I", AN_INTERFACE, "D a/F"),
    ("a/E", AN_INTERFACE, ". G java/util/List"),
    ("a/F", A_CLASS, "D java/lang/String"),
)
hierarchy(
    "9-name-duplicate-b",
    ("B", A_CLASS, "A", "B", 2),
    ("C", AN_INTERFACE, "A"),
    ("C2", A_CLASS, "A C", "C"),
    ("D", AN_INTERFACE, ". D"),
    ("G", A_CLASS | FINAL, "B"),
    ("H", A_CLASS, "B", "H", 2),
    ("I", A_CLASS, "."),
    ("a/E", AN_INTERFACE, "."),
    ("a/F", AN_INTERFACE, "B"),
)
hierarchy(
    "9-name",
    ("A", A_CLASS, "0"),
    ("B", A_CLASS, "."),
    ("C", A_CLASS | FINAL, ". a/E"),
    ("D", A_CLASS, ". java/lang/Runnable java/lang/String"),
    ("G", AN_INTERFACE, ". A H"),
    ("H", A_CLASS, "a/F A H"),
    ("I8", AN_INTERFACE, ".", "I"),
    ("a/E", AN_INTERFACE, "."),
    ("a/F", AN_INTERFACE, "."),
)
