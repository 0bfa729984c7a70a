"""Makes small class files (JVMS 4.1 to 4.7)."""

from instructions import instructions
from opcodes import opcode

# Flags of classes, fields and methods (JVMS tables 4.1-A, 4.5-A and 4.6-A).
PUBLIC, PRIVATE, PROTECTED, STATIC, FINAL, SUPER = 0x0001, 0x0002, 0x0004, 0x0008, 0x0010, 0x0020
NATIVE, INTERFACE, ABSTRACT = 0x0100, 0x0200, 0x0400
A_CLASS = PUBLIC | SUPER
AN_INTERFACE = PUBLIC | INTERFACE | ABSTRACT

OBJECT = "java/lang/Object"
# A character outside the basic plane: two units, six bytes in a class file and four in a path.
PAIR = "\U00010437"


def modified_utf8(text):
    """The modified UTF-8 of a text; a text that is bytes stands for itself."""
    if isinstance(text, bytes):
        return text
    spelled = bytearray()
    data = text.encode("utf-16-be", "surrogatepass")
    for at in range(0, len(data), 2):
        unit = data[at] << 8 | data[at + 1]
        if 0 < unit < 0x80:
            spelled.append(unit)
        elif unit < 0x800:
            spelled += bytes([0xC0 | unit >> 6, 0x80 | unit & 0x3F])
        else:
            spelled += bytes([0xE0 | unit >> 12, 0x80 | unit >> 6 & 0x3F, 0x80 | unit & 0x3F])
    return bytes(spelled)


def u1(number):
    return bytes([number])


def u2(number):
    return number.to_bytes(2, "big")


def u4(number):
    return number.to_bytes(4, "big")


# Entries of the constant pool (JVMS 4.4).

FIELD, METHOD, INTERFACE_METHOD = 9, 10, 11

INTEGER = u1(3) + u4(7)
FLOAT = u1(4) + u4(0x7FC00001)
LONG = u1(5) + bytes(7) + u1(1)
DOUBLE = u1(6) + bytes(8)


def text_entry(text):
    return u1(1) + u2(len(text)) + text


def class_entry(index):
    return u1(7) + u2(index)


def string(index):
    return u1(8) + u2(index)


def member_entry(tag, of_class, of_name_and_type):
    """A Fieldref, Methodref or InterfaceMethodref."""
    return u1(tag) + u2(of_class) + u2(of_name_and_type)


def name_and_type(name, descriptor):
    return u1(12) + u2(name) + u2(descriptor)


def method_handle(kind, index):
    return u1(15) + u1(kind) + u2(index)


def method_type(index):
    return u1(16) + u2(index)


def invoke_dynamic(number, index):
    return u1(18) + u2(number) + u2(index)


def entry_of_tag(tag):
    """An entry of this tag, whole, whose indexes are 0."""
    return u1(tag) + bytes({5: 8, 6: 8, 15: 3}.get(tag, 2 if tag in (1, 7, 8, 16) else 4))


class Pool:
    """A constant pool; each text, class name, and so on has one entry."""

    def __init__(self):
        self.entries, self.found, self.count = [], {}, 1

    def add(self, entry):
        """An entry of these bytes; its index. A long or a double takes two."""
        index = self.count
        self.entries.append(entry)
        self.count += 2 if entry[0] in (5, 6) else 1
        return index

    def once(self, entry):
        if entry not in self.found:
            self.found[entry] = self.add(entry)
        return self.found[entry]

    def text(self, text):
        return self.once(text_entry(modified_utf8(text)))

    def class_name(self, name):
        return self.once(class_entry(self.text(name)))

    def string(self, text):
        return self.once(string(self.text(text)))

    def name_and_type(self, name, descriptor):
        return self.once(name_and_type(self.text(name), self.text(descriptor)))

    def member(self, tag, of_class, name, descriptor):
        return self.once(member_entry(tag, self.class_name(of_class), self.name_and_type(name, descriptor)))

    def bytes(self):
        return u2(self.count) + b"".join(self.entries)


def attribute(name, body):
    """An attribute, by the index of its name."""
    return u2(name) + u4(len(body)) + body


def attributes(pool, listed):
    return u2(len(listed)) + b"".join(attribute(pool.text(name), body) for name, body in listed)


def member(pool, name, descriptor, flags=ABSTRACT, listed=()):
    return u2(flags) + u2(pool.text(name)) + u2(pool.text(descriptor)) + attributes(pool, listed)


def class_file(
    name,
    methods=(),
    fields=(),
    interfaces=(),
    listed=(),
    major=52,
    minor=0,
    flags=A_CLASS,
    super_name=OBJECT,
    pool=None,
    magic=0xCAFEBABE,
    end=b"",
):
    """A class file. Members are (name, descriptor, flags, attributes), the last two may be left out; attributes are
    (name, body); `pool` holds entries that come before all others; `end` is put after the last attribute."""
    pool = pool or Pool()
    this_class = pool.class_name(name)
    super_class = pool.class_name(super_name) if super_name else 0
    body = u2(flags) + u2(this_class) + u2(super_class)
    body += u2(len(interfaces)) + b"".join(u2(pool.class_name(each)) for each in interfaces)
    for members in (fields, methods):
        body += u2(len(members)) + b"".join(member(pool, *each) for each in members)
    body += attributes(pool, listed)
    return u4(magic) + u2(minor) + u2(major) + pool.bytes() + body + end


def row(*numbers):
    return b"".join(u2(number) for number in numbers)


def parts(this_class=2, super_class=4, interfaces=(), fields=b"\0\0", methods=b"\0\0", listed=b"\0\0", more=(), count=None):
    """A class file by its indexes. Entry 1 is `A`, 2 its class, 3 and 4 Object, 5 `f`, 6 `I`, 7 `()V`, 8 `[I`, 9 its class;
    `more` come after them. The count is that of the entries where it isn't given."""
    pool = Pool()
    for text in (b"A", OBJECT.encode()):
        pool.add(class_entry(pool.add(text_entry(text))))
    for text in (b"f", b"I", b"()V", b"[I"):
        pool.add(text_entry(text))
    pool.add(class_entry(8))
    for entry in more:
        pool.add(entry)
    body = row(A_CLASS, this_class, super_class, len(interfaces), *interfaces) + fields + methods + listed
    return u4(0xCAFEBABE) + row(0, 52, pool.count if count is None else count) + b"".join(pool.entries) + body


def code(body=opcode("return"), max_stack=0, max_locals=1, handlers=(), listed=b"\0\0"):
    """A Code attribute; alone it is `return`. A handler is (start, end, handler, type); `listed` is the table of its own
    attributes, whose names are indexes of the pool."""
    rows = b"".join(u2(number) for handler in handlers for number in handler)
    return ("Code", u2(max_stack) + u2(max_locals) + u4(len(body)) + body + u2(len(handlers)) + rows + listed)


def straight(body, max_stack=4, max_locals=4, name="verify", flags=PUBLIC | STATIC, **more):
    """A static method from an array of bytes to one with this code."""
    return (name, "([B)[B", flags, [code(body, max_stack, max_locals, **more)])


# A class A with one method that returns its argument.
RETURNS_ITS_ARGUMENT = class_file("A", [straight(instructions("aload_0, areturn"), max_stack=1, max_locals=1)])


def native(name, descriptor="()V"):
    return (name, descriptor, PUBLIC | NATIVE)


def natives_of_equal_texts(this_class, name, names, descriptor, descriptors):
    """A class file whose pool has this name this many times, and this descriptor, and which has a native method for each index of
    the name with each of the descriptor. So its methods have one line of a report together."""
    pool = Pool()
    heads = pool.class_name(this_class), pool.class_name(OBJECT)
    names = [pool.add(text_entry(name)) for _ in range(names)]
    descriptors = [pool.add(text_entry(descriptor)) for _ in range(descriptors)]
    methods = [row(NATIVE, one, other, 0) for one in names for other in descriptors]
    return u4(0xCAFEBABE) + row(0, 52) + pool.bytes() + row(A_CLASS, *heads, 0, 0, len(methods)) + b"".join(methods) + row(0)
