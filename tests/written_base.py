"""What the scripts of tests/written share: where they put their cases, and class files whose constants stand in a given order."""

from class_files import (
    FIELD,
    INTERFACE_METHOD,
    METHOD,
    OBJECT,
    PUBLIC,
    STATIC,
    Pool,
    class_file,
    invoke_dynamic,
    method_handle,
    method_type,
    row,
    u1,
    u2,
    u4,
)
from shaped_code import Body, Method, parameters

# The files and the words of each case, by its name.
found = {}


def case(name, files, words=("check", "c")):
    """Files are given by their paths in the case's folder."""
    assert name not in found
    found[name] = (files, list(words))


def check(name, files):
    """A case of class files, which are given by their paths in the folder, without `.class`."""
    case(name, {"c/%s.class" % path: data for path, data in files.items()})


def pool_of(*before):
    """A pool that begins with these constants: a text, the name of a class in a tuple, or the bytes of an entry."""
    pool = Pool()
    for each in before:
        if isinstance(each, str):
            pool.text(each)
        elif isinstance(each, tuple):
            pool.class_name(*each)
        else:
            pool.add(each)
    return pool


def in_order(name, *before, **more):
    """A class file whose pool begins with its class and then has these constants; what they lack comes behind them."""
    return class_file(name, pool=pool_of((name,), *before), **more)


def above(name, *before, **more):
    """A class file whose pool begins with its class and with Object."""
    return in_order(name, (OBJECT,), *before, **more)


def of_method(name, attributes, *inner, flags=PUBLIC | STATIC):
    """A file with one method; `inner` are constants that stand before the name of its code."""
    return in_order(name, *inner, *(["Code"] if attributes else []), "m", "()V", methods=[("m", "()V", flags, attributes)])


def by_indexes(flags, this_class, super_class, interfaces=(), fields=b"\0\0", methods=b"\0\0", listed=b"\0\0", count=None, pool=None):
    """A class file by its indexes; the count is that of the pool where it isn't given."""
    head = u4(0xCAFEBABE) + row(0, 52, pool.count if count is None else count) + b"".join(pool.entries)
    return head + row(flags, this_class, super_class, len(interfaces), *interfaces) + fields + methods + listed


def each_of(prefix, items, make):
    """Files that are made of items, each named for its number."""
    return {"%s-%02d" % (prefix, number): make("%s-%02d" % (prefix, number), item) for number, item in enumerate(items)}


def float_entry(bits=0):
    return u1(4) + u4(bits)


def integer_entry(number=0):
    return u1(3) + u4(number)


def wide_entry(tag, number=0):
    """A long, 5, or a double, 6."""
    return u1(tag) + number.to_bytes(8, "big")


def add_every(pool):
    """Adds constants of each tag, some of them odd and still right."""
    for entry in integer_entry(0xFFFFFFFF), float_entry(0x7FC00001), wide_entry(5, 1 << 63), wide_entry(6, 0x7FF8000000000001):
        pool.add(entry)
    pool.string("s")
    field = pool.member(FIELD, "a/B", "x", "[[D")
    method = pool.member(METHOD, "[I", "clone", "()Ljava/lang/Object;")
    of_interface = pool.member(INTERFACE_METHOD, "I", "<init>", "()V")
    for kind, index in (9, field), (0, method), (255, of_interface):
        pool.add(method_handle(kind, index))
    pool.add(method_type(pool.text("(DF)V")))
    pool.add(invoke_dynamic(65535, pool.name_and_type("<init>", "()V")))
    pool.text("")
    pool.text("\0")


# Classes whose code is given as a text (shaped_code.py).


class Written(Body):
    """A text in which a method may also be given with another tag, as `invokestatic interface:I m ()V`, and a constant with its value, as
    `ldc string:a`, `ldc int:65536` and `ldc2_w long:5`."""

    def constant(self, name, operands):
        kind, _, of_class = operands[0].partition(":")
        if kind in TAGS:
            return u2(self.pool.member(TAGS[kind], of_class, *operands[1:3]))
        return super().constant(name, operands)

    def constant_named(self, name):
        kind, _, value = name.partition(":")
        if kind == "string":
            return self.pool.string(value)
        if kind == "int" and value:
            return self.pool.once(integer_entry(int(value) % (1 << 32)))
        if kind == "long" and value:
            return self.pool.once(wide_entry(5, int(value) % (1 << 64)))
        return super().constant_named(name)


TAGS = {"field": FIELD, "method": METHOD, "interface": INTERFACE_METHOD}

# What pushes a value that begins so in a descriptor, and what takes it away; all others are ints.
PUSHES = {"J": "lconst_0", "L": "aconst_null", "[": "aconst_null"}
POPS = {"J": ["pop2"], "V": []}


def used(text):
    """An instruction that names something, behind what pushes what it takes, and before what takes away its result."""
    name, _, *member = text.split()
    takes = [] if name in ("new", "getstatic", "putstatic", "invokestatic") else ["iconst_0" if name == "anewarray" else "aconst_null"]
    if not member:
        return ", ".join([*takes, text, "pop"])
    descriptor, is_put = member[1], name.startswith("put")
    arguments = parameters(descriptor) if "(" in descriptor else [descriptor] if is_put else []
    result = "V" if is_put else descriptor[descriptor.rfind(")") + 1]
    return ", ".join([*takes, *(PUSHES.get(each[0], "iconst_0") for each in arguments), text, *POPS.get(result, ["pop"])])


def uses(head, *texts, **more):
    """A method of instructions that name something."""
    return Method(head, ", ".join([*map(used, texts), "return"]), **more)


def caught(head, *classes):
    """A method whose one instruction has handlers for these classes; None is any."""
    rows = ["A B C " + (each or "") for each in classes]
    return Method(head, "A: nop, B: return, C: {stack ref:java/lang/Throwable} pop, return", ",".join(rows))


def coded(name, *methods, before=(), fields=(), interfaces=(), super_name=OBJECT, **more):
    """A class file whose constants stand in the order in which its parts name them. A member without a text is as class_files.py takes it."""
    pool, made = pool_of((name,), *([(super_name,)] if super_name else []), *((each,) for each in interfaces), *before), []
    for each in fields:
        for text in each[:2]:
            pool.text(text)
    for one in methods:
        if isinstance(one, tuple):
            made.append(one)
            pool.text(one[0]), pool.text(one[1])
            continue
        for text in one.name, one.descriptor, "Code":
            pool.text(text)
        body = Written(pool, one.text, one.rows)
        if body.text.frames:
            pool.text("StackMapTable")
        made.append((one.name, one.descriptor, one.flags, [body.attribute(one.stack, one.locals)]))
    return class_file(name, made, fields, interfaces, super_name=super_name, pool=pool, **more)
