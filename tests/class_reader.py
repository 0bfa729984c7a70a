"""Reads class files (JVMS 4.1 to 4.7) for the reference implementation, reference.py, and shares nothing with the program."""

# The tags of the constant pool (JVMS 4.4).
UTF8, INTEGER, FLOAT, LONG, DOUBLE, CLASS, STRING, FIELD, METHOD, INTERFACE_METHOD, NAME_AND_TYPE = 1, *range(3, 13)
METHOD_HANDLE, METHOD_TYPE, INVOKE_DYNAMIC = 15, 16, 18

# The lengths of the parts of an entry; a text has others.
PARTS = {INTEGER: [4], FLOAT: [4], LONG: [8], DOUBLE: [8], CLASS: [2], STRING: [2], NAME_AND_TYPE: [2, 2]}
PARTS |= {FIELD: [2, 2], METHOD: [2, 2], INTERFACE_METHOD: [2, 2]}
PARTS |= {METHOD_HANDLE: [1, 2], METHOD_TYPE: [2], INVOKE_DYNAMIC: [2, 2]}


class Malformed(Exception):
    """The bytes are no class file."""


# Texts, names and descriptors (JVMS 4.2, 4.3, 4.4.7).


def units_of(text):
    """The UTF-16 units of modified UTF-8, or None."""
    units, at = [], 0
    while at < len(text):
        first = text[at]
        if 0x01 <= first <= 0x7F:
            units.append(first)
            at += 1
        elif 0xC0 <= first <= 0xDF:
            if at + 1 >= len(text) or text[at + 1] & 0xC0 != 0x80:
                return None
            unit = (first & 0x1F) << 6 | text[at + 1] & 0x3F
            if 0 < unit < 0x80:
                return None
            units.append(unit)
            at += 2
        elif 0xE0 <= first <= 0xEF:
            if at + 2 >= len(text) or text[at + 1] & 0xC0 != 0x80 or text[at + 2] & 0xC0 != 0x80:
                return None
            unit = (first & 0x0F) << 12 | (text[at + 1] & 0x3F) << 6 | text[at + 2] & 0x3F
            if unit < 0x800:
                return None
            units.append(unit)
            at += 3
        else:
            return None
    return units


def utf16(text):
    data = text.encode("utf-16-be")
    return [int.from_bytes(data[at : at + 2], "big") for at in range(0, len(data), 2)]


def is_unqualified(text):
    return len(text) > 0 and not any(byte in b".;[/" for byte in text)


def is_method_name(text):
    return is_unqualified(text) and (text in (b"<init>", b"<clinit>") or not any(byte in b"<>" for byte in text))


def is_class_name(text):
    return all(is_unqualified(part) for part in text.split(b"/"))


def type_at(text, at):
    """The type that begins at this place: the place after it and its slots, or None."""
    dims = 0
    while at < len(text) and text[at] == ord("["):
        dims += 1
        at += 1
    if dims > 255 or at >= len(text):
        return None
    letter = text[at]
    if letter in b"BCDFIJSZ":
        return at + 1, 2 if letter in b"DJ" and dims == 0 else 1
    if letter != ord("L"):
        return None
    end = text.find(b";", at)
    if end < 0 or not is_class_name(text[at + 1 : end]):
        return None
    return end + 1, 1


def is_field_descriptor(text):
    found = type_at(text, 0)
    return found is not None and found[0] == len(text)


def is_method_descriptor(text):
    if text[:1] != b"(":
        return False
    at, slots = 1, 0
    while text[at : at + 1] != b")":
        found = type_at(text, at)
        if found is None:
            return False
        at, slots = found[0], slots + found[1]
    return slots <= 255 and (text[at + 1 :] == b"V" or is_field_descriptor(text[at + 1 :]))


def is_array(text):
    return text[:1] == b"[" and is_field_descriptor(text)


# Class files (JVMS 4.1 to 4.7).


class Reader:
    """Reads bytes from left to right."""

    def __init__(self, data):
        self.data, self.at = data, 0

    def bytes(self, length):
        if self.at + length > len(self.data):
            raise Malformed
        self.at += length
        return self.data[self.at - length : self.at]

    def number(self, length):
        return int.from_bytes(self.bytes(length), "big")

    def end(self):
        if self.at != len(self.data):
            raise Malformed


class ClassFile(Reader):
    def __init__(self, data):
        super().__init__(data)
        if self.number(4) != 0xCAFEBABE:
            raise Malformed
        self.minor, self.major = self.number(2), self.number(2)
        self.read_pool()
        self.flags = self.number(2)
        self.this_class = self.class_name(self.number(2))
        super_class = self.number(2)
        self.super_class = self.class_name(super_class) if super_class != 0 else None
        self.interfaces = [self.class_name(self.number(2)) for _ in range(self.number(2))]
        self.fields = self.members(is_unqualified, is_field_descriptor)
        self.methods = self.members(is_method_name, is_method_descriptor)
        self.attributes()
        self.end()

    def read_pool(self):
        """The tag and the parts of each entry by its index. A long or a double takes two indexes."""
        count, index = self.number(2), 1
        self.pool = {}
        while index < count:
            tag = self.number(1)
            if tag == UTF8:
                parts = [self.bytes(self.number(2))]
                if units_of(parts[0]) is None:
                    raise Malformed
            elif tag in PARTS:
                parts = [self.number(length) for length in PARTS[tag]]
            else:
                raise Malformed
            self.pool[index] = tag, *parts
            index += 2 if tag in (LONG, DOUBLE) else 1
        if index != count:
            raise Malformed
        for tag, *parts in self.pool.values():
            self.check_entry(tag, parts)

    def entry(self, index, *tags):
        """The parts of the entry, which has one of these tags."""
        tag, *parts = self.pool.get(index, (0,))
        if tag not in tags:
            raise Malformed
        return parts

    def text(self, index):
        return self.entry(index, UTF8)[0]

    def check_entry(self, tag, parts):
        """An entry names entries of the tags and texts that its tag asks."""
        if tag == CLASS:
            name = self.text(parts[0])
            is_right = is_class_name(name) or is_array(name)
        elif tag == STRING:
            is_right = self.text(parts[0]) is not None
        elif tag in (FIELD, METHOD, INTERFACE_METHOD):
            self.entry(parts[0], CLASS)
            is_right = self.is_type_of(parts[1], is_field_descriptor if tag == FIELD else is_method_descriptor)
        elif tag == NAME_AND_TYPE:
            name, descriptor = self.text(parts[0]), self.text(parts[1])
            is_right = is_unqualified(name) and is_field_descriptor(descriptor)
            is_right = is_right or is_method_name(name) and is_method_descriptor(descriptor)
        elif tag == METHOD_HANDLE:
            is_right = self.entry(parts[1], FIELD, METHOD, INTERFACE_METHOD) is not None
        elif tag == METHOD_TYPE:
            is_right = is_method_descriptor(self.text(parts[0]))
        elif tag == INVOKE_DYNAMIC:
            is_right = self.is_type_of(parts[1], is_method_descriptor)
        else:
            is_right = True
        if not is_right:
            raise Malformed

    def is_type_of(self, index, is_descriptor):
        """Whether the descriptor of this name and type is one of the kind."""
        _, descriptor = self.entry(index, NAME_AND_TYPE)
        return is_descriptor(self.text(descriptor))

    def class_name(self, index):
        """The name of a class that is no array."""
        name = self.text(*self.entry(index, CLASS))
        if is_array(name):
            raise Malformed
        return name

    def members(self, is_name, is_descriptor):
        found = []
        for _ in range(self.number(2)):
            flags = self.number(2)
            name = self.text(self.number(2))
            if not is_name(name):
                raise Malformed
            descriptor = self.text(self.number(2))
            if not is_descriptor(descriptor):
                raise Malformed
            found.append(Member(flags, name, descriptor, self.attributes()))
        return found

    def attributes(self):
        """The name and the body of each attribute."""
        return [(self.text(self.number(2)), self.bytes(self.number(4))) for _ in range(self.number(2))]


class Member:
    def __init__(self, flags, name, descriptor, attributes):
        self.flags, self.name, self.descriptor, self.attributes = flags, name, descriptor, attributes
