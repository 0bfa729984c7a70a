"""What a call of a native method of the library does, as docs/LIBRARY.md names them and the documentation of Java describes them, over a heap whose objects
are numbered from 1 and have sizes. It shares nothing with the program; call_rows.py holds the rows of dj_natives_tests to it.

A reference is an object's number, and 0 is null. What a call answers is a tuple, named as in rows.rt of dj_natives_tests."""

import class_reader

STRING, BUILDER, STOP, PREFIX = b"java/lang/String", b"java/lang/StringBuilder", b"djvm/Stop", b"sandbox/"
WIDTHS = {"Boolean": 1, "Byte": 1, "Char": 2, "Short": 2, "Int": 4, "Long": 8, "Ref": 4}


def rounded(size):
    """Objects take a multiple of eight bytes."""
    return -(-size // 8) * 8


def array_size(length, width):
    return rounded(16 + length * width)


def text_size(units):
    return array_size(len(units), 2)


def wrap(width, number):
    return (number + 2 ** (width - 1)) % 2**width - 2 ** (width - 1)


def units_of_ascii(text):
    return [ord(letter) for letter in text]


class Raised(Exception):
    """An exception that the call raises."""


class Ended(Exception):
    """The call ends with this answer, and makes nothing."""


class Item:
    """An object: its class, what it holds (fields, elements or units), and its kind: "Instance", "Text", or what its elements are."""

    def __init__(self, name, kind, held):
        self.name, self.kind, self.held = name, kind, list(held)

    def size(self):
        return {"Instance": 16 + 8 * len(self.held), "Text": text_size(self.held)}.get(self.kind) or array_size(len(self.held), WIDTHS[self.kind])


class Heap:
    def __init__(self):
        self.items = []

    def used(self):
        return sum(item.size() for item in self.items)

    def put(self, name, kind, held):
        self.items.append(Item(name, kind, held))
        return len(self.items)

    def at(self, number):
        return self.items[number - 1]

    def is_text(self, number):
        return number != 0 and self.at(number).kind == "Text"


class Machine:
    """A heap with a limit, and the sum of bytes that are charged, which has a threshold where something counts it. `above` says the class right above a
    class or an array, and `component` what an array of references holds."""

    def __init__(self, above, component, heap, most, limit):
        self.above, self.component, self.heap = above, component, heap
        self.most, self.limit, self.charged = most, limit, 0

    def charge(self, size):
        """Nothing is made where the sum passes its threshold."""
        if self.most is None:
            return
        self.charged += size
        if self.charged > self.most:
            raise Ended("Stops")

    def make(self, name, kind, held):
        size = Item(name, kind, held).size()
        self.charge(size)
        if self.heap.used() + size > self.limit:
            raise Ended("Full", self.heap.used(), size)
        return self.heap.put(name, kind, held)

    def text(self, units):
        return "GivesText", self.make(STRING, "Text", units), units

    def units(self, number):
        if number == 0:
            raise Raised("NullPointer")
        return self.heap.at(number).held

    def is_below(self, name, other):
        while name is not None and name != other:
            name = self.above(name)
        return name is not None


# Object and System.


def object_new(machine, this):
    return ("Nothing",)


def same_object(machine, this, other):
    return "GivesInt", int(this == other)


def number_of(machine, this):
    return "GivesInt", this


def name_and_number(machine, this):
    name = machine.heap.at(this).name
    start = len(name) - len(name.lstrip(b"["))
    if name[start:].startswith(PREFIX):
        name = name[:start] + name[start + len(PREFIX) :]
    elif name[start:].startswith(b"L" + PREFIX):
        name = name[:start] + b"L" + name[start + 1 + len(PREFIX) :]
    return machine.text(class_reader.units_of(name.replace(b"/", b".")) + units_of_ascii("@%x" % this))


def copy_elements(machine, source, start, target, place, count):
    if 0 in (source, target):
        raise Raised("NullPointer")
    one, other = machine.heap.at(source), machine.heap.at(target)
    if one.kind not in WIDTHS or one.kind != other.kind:
        raise Raised("ArrayStore")
    if min(start, place, count) < 0 or start + count > len(one.held) or place + count > len(other.held):
        raise Raised("ArrayIndexOutOfBounds")
    # Where the arrays are one, what is copied is what was there before.
    for at, element in enumerate(one.held[start : start + count]):
        if one.kind == "Ref" and element != 0 and not machine.is_below(machine.heap.at(element).name, machine.component(other.name)):
            raise Raised("ArrayStore")
        other.held[place + at] = element
    return ("Nothing",)


# String.


def length(machine, this):
    return "GivesInt", len(machine.units(this))


def is_empty(machine, this):
    return "GivesInt", int(not machine.units(this))


def itself(machine, this):
    return "GivesText", this, machine.units(this)


def unit_at(units, index):
    if not 0 <= index < len(units):
        raise Raised("StringIndexOutOfBounds")
    return "GivesInt", units[index]


def char_at(machine, this, index):
    return unit_at(machine.units(this), index)


def equal_texts(machine, this, other):
    return "GivesInt", int(machine.heap.is_text(other) and machine.units(this) == machine.units(other))


def hash_of_text(machine, this):
    found = 0
    for unit in machine.units(this):
        found = found * 31 + unit
    return "GivesInt", wrap(32, found)


def compare(machine, this, other):
    one, two = machine.units(this), machine.units(other)
    different = [a - b for a, b in zip(one, two) if a != b]
    return "GivesInt", different[0] if different else len(one) - len(two)


def compare_object(machine, this, other):
    if other != 0 and not machine.heap.is_text(other):
        raise Raised("ClassCast")
    return compare(machine, this, other)


def starts_with(machine, this, other):
    start = machine.units(other)
    return "GivesInt", int(machine.units(this)[: len(start)] == start)


def concat(machine, this, other):
    if not machine.units(other):
        return itself(machine, this)
    return machine.text(machine.units(this) + machine.units(other))


def substring(machine, this, start, end=None):
    units = machine.units(this)
    end = len(units) if end is None else end
    if not 0 <= start <= end <= len(units):
        raise Raised("StringIndexOutOfBounds")
    return machine.text(units[start:end])


def to_chars(machine, this):
    units = machine.units(this)
    return "GivesChars", machine.make(b"[C", "Char", units), units


def of_chars(machine, chars):
    return machine.text(list(machine.units(chars)))


# How a value is spelled, also where it is appended; a boolean is its lowest bit, and a char its low 16 bits.


def of_char(number):
    return [number % 2**16]


def of_number(number):
    return units_of_ascii("%d" % number)


def of_boolean(number):
    return units_of_ascii("true" if number % 2 else "false")


def value_of(spelled):
    return lambda machine, value: machine.text(spelled(value))


# StringBuilder: its field is a text, or null where nothing was appended yet.


def builder_units(machine, this):
    text = machine.heap.at(this).held[0]
    return machine.heap.at(text).held if text else []


def append(machine, this, units):
    number = machine.make(STRING, "Text", builder_units(machine, this) + units)
    machine.heap.at(this).held[0] = number
    return "GivesObject", this, BUILDER


def append_text(machine, this, text):
    return append(machine, this, machine.units(text) if text else units_of_ascii("null"))


def appended(spelled):
    return lambda machine, this, value: append(machine, this, spelled(value))


def builder_new(machine, this, text=None):
    if text == 0:
        raise Raised("NullPointer")
    machine.heap.at(this).held[0] = text or 0
    return ("Nothing",)


def builder_length(machine, this):
    return "GivesInt", len(builder_units(machine, this))


def builder_char_at(machine, this, index):
    return unit_at(builder_units(machine, this), index)


def builder_to_string(machine, this):
    return machine.text(builder_units(machine, this))


# Throwable: its fields are the message and the cause.


def throwable_new(machine, this, message=0, cause=0):
    machine.heap.at(this).held[:2] = [message, cause]
    return ("Nothing",)


def message(machine, this):
    text = machine.heap.at(this).held[0]
    return itself(machine, text) if text else ("GivesNull",)


def cause(machine, this):
    number = machine.heap.at(this).held[1]
    return ("GivesObject", number, machine.heap.at(number).name) if number else ("GivesNull",)


# Math: numbers of a kind and a width.


def absolute(answer, width):
    return lambda machine, number: (answer, wrap(width, abs(number)))


def chosen(answer, choose):
    return lambda machine, one, other: (answer, choose(one, other))


# The accounter. A charge of another sum than that of bytes isn't seen here, and the rows make one at most, where one is allowed.


def record_other(machine):
    return ("Nothing",)


def record_allocation(machine, size):
    machine.charge(max(size, 0))
    return ("Nothing",)


def record_array(machine, length, width):
    machine.charge(array_size(length, width) if min(length, width) >= 0 else 0)
    return ("Nothing",)


def check_catch(machine, thrown):
    return ("Stops",) if thrown and machine.heap.at(thrown).name == STOP else ("Nothing",)


MEANINGS = {
    "ObjectNew": object_new,
    "ObjectEquals": same_object,
    "ObjectHashCode": number_of,
    "ObjectToString": name_and_number,
    "IdentityHashCode": number_of,
    "ArrayCopy": copy_elements,
    "StringLength": length,
    "StringIsEmpty": is_empty,
    "StringToString": itself,
    "StringCharAt": char_at,
    "StringEquals": equal_texts,
    "StringHashCode": hash_of_text,
    "StringCompareTo": compare,
    "StringCompareToObject": compare_object,
    "StringStartsWith": starts_with,
    "StringConcat": concat,
    "StringSubstringFrom": substring,
    "StringSubstring": substring,
    "StringToCharArray": to_chars,
    "StringValueOfChars": of_chars,
    "StringValueOfChar": value_of(of_char),
    "StringValueOfInt": value_of(of_number),
    "StringValueOfLong": value_of(of_number),
    "StringValueOfBoolean": value_of(of_boolean),
    "BuilderNew": builder_new,
    "BuilderNewText": builder_new,
    "BuilderAppendText": append_text,
    "BuilderAppendChar": appended(of_char),
    "BuilderAppendInt": appended(of_number),
    "BuilderAppendLong": appended(of_number),
    "BuilderAppendBoolean": appended(of_boolean),
    "BuilderLength": builder_length,
    "BuilderCharAt": builder_char_at,
    "BuilderToString": builder_to_string,
    "ThrowableNew": throwable_new,
    "ThrowableNewMessage": throwable_new,
    "ThrowableNewCause": throwable_new,
    "GetMessage": message,
    "GetCause": cause,
    "AbsInt": absolute("GivesInt", 32),
    "AbsLong": absolute("GivesLong", 64),
    "MaxInts": chosen("GivesInt", max),
    "MaxLongs": chosen("GivesLong", max),
    "MinInts": chosen("GivesInt", min),
    "MinLongs": chosen("GivesLong", min),
    "RecordJump": record_other,
    "RecordInvocation": record_other,
    "RecordThrow": record_other,
    "RecordAllocation": record_allocation,
    "RecordArray": record_array,
    "CheckCatch": check_catch,
}


def called(machine, name, values):
    """What the call answers."""
    try:
        return MEANINGS[name](machine, *values)
    except Raised as raised:
        return "Raises", raised.args[0]
    except Ended as ended:
        return ended.args
