"""The rules 17 WHITELIST and 18 UNRESOLVED, by which `djvm check` judges what instructions and handlers name; part of the
reference implementation, reference.py.

They were written from the description of the rules and from the JVM Specification SE 8, 4.9.1, 5.4.3 and 6.5, and share
nothing with the program. Lines are those of check_rules.py.
"""

from check_rules import ABSTRACT, INTERFACE, INVOKEINTERFACE, LDC, LDC2_W, LDC_W, UNCATCHABLE, name_of_class, rules_of_instruction
from class_reader import CLASS, DOUBLE, FIELD, FLOAT, INTEGER, INTERFACE_METHOD, LONG, METHOD, METHOD_HANDLE, METHOD_TYPE, STRING
from library_classes import OBJECT
from opcodes import numbers

STATIC, PRIVATE = 0x0008, 0x0002

GETSTATIC, PUTSTATIC, GETFIELD, PUTFIELD = numbers("getstatic putstatic getfield putfield")
INVOKEVIRTUAL, INVOKESPECIAL, INVOKESTATIC = numbers("invokevirtual invokespecial invokestatic")
NEW, ANEWARRAY, CHECKCAST, INSTANCEOF = numbers("new anewarray checkcast instanceof")

# The tags that each instruction takes.
OF_INT, OF_LONG = (INTEGER, FLOAT, STRING, CLASS, METHOD_HANDLE, METHOD_TYPE), (LONG, DOUBLE)
TAKES = {LDC: OF_INT, LDC_W: OF_INT, LDC2_W: OF_LONG}
TAKES |= dict.fromkeys((GETSTATIC, PUTSTATIC, GETFIELD, PUTFIELD), (FIELD,))
TAKES |= {INVOKEVIRTUAL: (METHOD,), INVOKEINTERFACE: (INTERFACE_METHOD,)}
TAKES |= dict.fromkeys((INVOKESPECIAL, INVOKESTATIC), (METHOD, INTERFACE_METHOD))
TAKES |= dict.fromkeys((NEW, ANEWARRAY, CHECKCAST, INSTANCEOF), (CLASS,))

OF_STATICS = (GETSTATIC, PUTSTATIC, INVOKESTATIC)


def lines(good, classes):
    """The lines of the files without rule 1; they are judged where the first six rules hold of all files."""
    return set().union(*(lines_of_file(path, view, classes) for path, view in good))


def classes_of(good, library):
    return {one.name: one for one in library} | {view.this_class: SetClass(view) for _, view in good}


class SetClass:
    """A class of the set, given as that of the library is."""

    def __init__(self, view):
        self.name, self.flags, self.super_class, self.interfaces = view.this_class, view.flags, view.super_class, view.interfaces
        self.fields = {(member.name, member.descriptor): member.flags for member in view.fields}
        self.methods = {(member.name, member.descriptor): member.flags for member in view.methods}


def lines_of_file(path, view, classes):
    found = set()
    for method in view.methods:
        if method.code is not None:
            places = rules_of_code(view, method.code, classes)
            found |= {(path, method.name + method.descriptor, number, rule) for number, rule in places}
    return found


def rules_of_code(view, code, classes):
    for number, one in enumerate(code.instructions):
        if one.constant is not None and not any(rules_of_instruction(view.pool, one)):
            named = Named(view.pool, one.constant, classes)
            if named.is_foreign() or one.op == NEW and named.is_unmakeable():
                yield number, 17
            elif is_unresolved(named, one.op, view.this_class):
                yield number, 18
    for _, _, handler, catch_type in code.rows:
        if catch_type != 0 and name_of_class(view.pool, catch_type) not in UNCATCHABLE:
            named = Named(view.pool, catch_type, classes)
            if named.is_foreign():
                yield code.number_of(handler), 17
            elif named.tag != CLASS or named.lacks_class():
                yield code.number_of(handler), 18


# What a constant names.


class Named:
    """The tag of a constant, 0 for none; its class and how many dimensions of arrays of it, None where it has none; the name and
    the descriptor of its member, and the flags of what that resolves to, None each."""

    def __init__(self, pool, index, classes):
        self.classes = classes
        self.tag, *parts = pool.get(index, (0,))
        self.class_name = self.dims = self.member = self.flags = None
        if self.tag == CLASS:
            self.class_name, self.dims = class_of_text(pool[parts[0]][1])
        elif self.tag in (FIELD, METHOD, INTERFACE_METHOD):
            self.class_name, self.dims = class_of_text(name_of_class(pool, parts[0]))
            _, name, descriptor = pool[parts[1]]
            self.member = pool[name][1], pool[descriptor][1]
            resolve = field if self.tag == FIELD else method
            self.flags = resolve(classes, OBJECT if self.dims else self.class_name, self.member)

    def lacks_class(self):
        return self.class_name is not None and self.class_name not in self.classes

    def lacks_member(self):
        return self.member is not None and self.flags is None

    def is_foreign(self):
        is_of_library = self.class_name is not None and self.class_name.startswith((b"java/", b"javax/"))
        return is_of_library and (self.lacks_class() or self.lacks_member())

    def is_unmakeable(self):
        """A class of the library of which no object can be made."""
        if self.dims != 0 or not self.class_name.startswith((b"java/", b"javax/")):
            return False
        one = self.classes[self.class_name]
        return bool(one.flags & INTERFACE) or all(name != b"<init>" for name, _ in one.methods)

    def is_interface(self):
        return self.dims == 0 and not self.lacks_class() and bool(self.classes[self.class_name].flags & INTERFACE)


def class_of_text(text):
    """The class that counts and the dimensions of a class constant's text."""
    element = text.lstrip(b"[")
    if element == text:
        return text, 0
    return element[1:-1] if element.startswith(b"L") else OBJECT, len(text) - len(element)


# Resolution (JVMS 5.4.3.2 to 5.4.3.4): the flags of what is found, or None.


def field(classes, name, member):
    """In the class, then in its interfaces with theirs, then in its superclass in the same way."""
    if name not in classes:
        return None
    seen = set()
    for one in chain(classes, name):
        if member in one.fields:
            return one.fields[member]
        for above in one.interfaces:
            flags = field_of_interface(classes, above, member, seen)
            if flags is not None:
                return flags
    return None


def field_of_interface(classes, name, member, seen):
    """In an interface, and else in those that it lists; those that were seen have it not."""
    if name in seen:
        return None
    seen.add(name)
    one = classes[name]
    if member in one.fields:
        return one.fields[member]
    found = (field_of_interface(classes, above, member, seen) for above in one.interfaces)
    return next((flags for flags in found if flags is not None), None)


def method(classes, name, member):
    if name not in classes:
        return None
    of_class = chain(classes, name)
    for one in [of_class[0], classes[OBJECT]] if of_class[0].flags & INTERFACE else of_class:
        if member in one.methods:
            return one.methods[member]
    seen = set()
    for one in of_class:
        for above in one.interfaces:
            flags = method_of_interface(classes, above, member, seen)
            if flags is not None:
                return flags
    return None


def chain(classes, name):
    """A class and its superclasses, upward."""
    found = [classes[name]]
    while found[-1].super_class is not None:
        found.append(classes[found[-1].super_class])
    return found


def method_of_interface(classes, name, member, seen):
    """One that is neither private nor static."""
    if name in seen:
        return None
    seen.add(name)
    one = classes[name]
    flags = one.methods.get(member)
    if flags is not None and not flags & (PRIVATE | STATIC):
        return flags
    found = (method_of_interface(classes, above, member, seen) for above in one.interfaces)
    return next((flags for flags in found if flags is not None), None)


# 18 UNRESOLVED.


def is_unresolved(named, op, own):
    """Of an instruction in a method of the class of this name."""
    if named.tag not in TAKES[op] or named.lacks_class() or named.lacks_member():
        return True
    if named.tag != CLASS:
        return named.member is not None and is_misused(named, op, own)
    if op == NEW:
        return named.dims != 0 or bool(named.classes[named.class_name].flags & (INTERFACE | ABSTRACT))
    return op == ANEWARRAY and named.dims == 255


def is_misused(named, op, own):
    """A member that is there, and isn't what the instruction asks."""
    name, _ = named.member
    if bool(named.flags & STATIC) != (op in OF_STATICS):
        return True
    if named.tag != FIELD and named.is_interface() != (named.tag == INTERFACE_METHOD):
        return True
    if name == b"<clinit>" or name == b"<init>" and op != INVOKESPECIAL:
        return True
    is_above = named.dims == 0 and any(one.name == named.class_name for one in chain(named.classes, own))
    return op == INVOKESPECIAL and name != b"<init>" and not is_above
