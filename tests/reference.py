#!/usr/bin/env python3
"""A small reference implementation: what `djvm check FOLDER`, `djvm verify FOLDER ENTRY INPUT` and `djvm raw FOLDER ENTRY INPUT` with their
options must write, and the exit status. It makes no run of `raw`: where one decides, it writes nothing, and its status is 70.

It was written from the description of the commands and from the JVM Specification SE 8, chapters 4 and 6, and shares
nothing with the program. tests/make_cases.py takes the expected output of each case from it. It can stand in for the
program:

    DJVM=tests/reference.py tests/run

Class files are read by class_reader.py, opcodes have their names in opcodes.py, and the rules of `check` stand in check_rules.py, link_rules.py and shape_rules.py.
"""

import os
import stat
import sys

sys.dont_write_bytecode = True

import check_rules
import shape_rules
from class_reader import UTF8, ClassFile, Malformed, Reader, units_of, utf16
from library_classes import RAW_LIBRARY
from opcodes import BASES, OPCODES, by_number

MOST_FILES = 4096
MOST_BYTES = 4194304
MOST_TOTAL = 67108864
MOST_INPUT = 1048576
MOST_ENTRIES = 1048576
MOST_LEVELS = 64

EXCEPTION, REJECTED, THRESHOLD, LIMIT, USAGE, FAULT, SINK, NO_RUN, LATER = 1, 2, 3, 7, 64, 65, 66, 70, 75

# The name of the rule that `verify` and `raw` judge alone; check_rules.py has the others.
RULES = {**check_rules.RULES, 20: "ENTRY"}

# The options of `verify` and that of `raw`: the most that each may be, and what stands for it where it isn't given. Straight code is
# charged for its arrays alone.
THRESHOLDS = ("alloc", "invoke", "jump", "throw")
OPTIONS = {
    "alloc": (1073741824, 67108864),
    "invoke": (1073741824, 1000000),
    "jump": (1073741824, 1000000),
    "throw": (1048576, 1000000),
    "steps": (100000000, 10000000),
}

# Flags of classes and methods.
STATIC, NATIVE, INTERFACE, ABSTRACT = 0x0008, 0x0100, 0x0200, 0x0400


class Failed(Exception):
    """A folder or file can't be read: status 65, and nothing is written."""


# The rules that `verify` judges of every set. A line is a path, a member (empty for none), an instruction's number (-1 for
# none), and a rule's number.


def lines_of(path, data):
    try:
        view = ClassFile(data)
    except Malformed:
        return {(path, b"", -1, 1)}
    lines = set()
    if view.major not in (50, 51, 52):
        lines.add((path, b"", -1, 2))
    if utf16(path.decode("utf-8")) != units_of(view.this_class) + utf16(".class"):
        lines.add((path, b"", -1, 3))
    for method in view.methods:
        if method.flags & NATIVE:
            lines.add((path, method.name + method.descriptor, -1, 7))
        if method.name == b"finalize" and method.descriptor == b"()V":
            lines.add((path, method.name + method.descriptor, -1, 8))
    return lines


# Straight sets: at most one class, whose methods are static and straight code from an array of bytes to one.


class NotStraight(Exception):
    """The set needs more than straight code."""


class StraightClass:
    def __init__(self, view):
        is_plain = not view.flags & INTERFACE and view.super_class == b"java/lang/Object"
        is_reserved = view.this_class.startswith((b"sandbox/", b"java/", b"javax/"))
        if not is_plain or is_reserved or view.interfaces or view.fields:
            raise NotStraight
        self.name = view.this_class
        self.methods = {method.name: straight_code(view, method) for method in view.methods}
        if len(self.methods) != len(view.methods):
            raise NotStraight


def straight_code(view, method):
    """The code of a method of a straight class."""
    bodies = [body for name, body in method.attributes if name == b"Code"]
    is_plain = method.descriptor == b"([B)[B" and not method.name.startswith(b"<")
    if not is_plain or method.flags & (STATIC | NATIVE | ABSTRACT) != STATIC or len(bodies) != 1:
        raise NotStraight
    try:
        return Code(bodies[0], view.pool)
    except Malformed:
        raise NotStraight


class Code(Reader):
    """The body of a Code attribute (JVMS 4.7.3) without handlers and stack map, all of it straight instructions."""

    def __init__(self, body, pool):
        super().__init__(body)
        self.max_stack, self.max_locals = self.number(2), self.number(2)
        length = self.number(4)
        if not 1 <= length <= 65535:
            raise Malformed
        code = self.bytes(length)
        handlers = [self.bytes(8) for _ in range(self.number(2))]
        # The name of an attribute in here may be no text.
        attributes = [(pool.get(self.number(2)), self.bytes(self.number(4))) for _ in range(self.number(2))]
        self.end()
        if handlers or any(entry == (UTF8, b"StackMapTable") for entry, _ in attributes):
            raise NotStraight
        self.instructions = straight_instructions(code)


# Straight instructions (JVMS 6.5). An instruction is a word and the values or places that it names.

INT, REFERENCE = "int", "reference"

COMPUTED = by_number(
    iadd=lambda a, b: a + b,
    isub=lambda a, b: a - b,
    imul=lambda a, b: a * b,
    iand=lambda a, b: a & b,
    ior=lambda a, b: a | b,
    ixor=lambda a, b: a ^ b,
)
PUSHED = by_number(aconst_null=None, iconst_m1=-1, iconst_0=0, iconst_1=1, iconst_2=2, iconst_3=3, iconst_4=4, iconst_5=5)
# How many bytes the number has.
PUSHES = by_number(bipush=1, sipush=2)
OTHERS = {OPCODES[name]: name for name in ("nop", "baload", "bastore", "pop", "dup", "areturn", "arraylength")}

# The first opcode of the four short forms of loads and stores, and the opcode with a slot of one byte.
SHORT_FORMS = by_number(iload_0=("load", INT), aload_0=("load", REFERENCE), istore_0=("store", INT), astore_0=("store", REFERENCE))
LONG_FORMS = by_number(iload=("load", INT), aload=("load", REFERENCE), istore=("store", INT), astore=("store", REFERENCE))


def straight_instructions(code):
    reader, found = Reader(code), []
    while reader.at < len(code):
        found.append(straight_instruction(reader))
    return found


def straight_instruction(reader):
    op = reader.number(1)
    if op in OTHERS:
        return (OTHERS[op],)
    if op in COMPUTED:
        return "compute", COMPUTED[op]
    if op in PUSHED:
        return "push", PUSHED[op]
    if op in PUSHES:
        return "push", int.from_bytes(reader.bytes(PUSHES[op]), "big", signed=True)
    if op in LONG_FORMS:
        return *LONG_FORMS[op], reader.number(1)
    for first, form in SHORT_FORMS.items():
        if first <= op <= first + 3:
            return *form, op - first
    if op == OPCODES["newarray"] and reader.number(1) == BASES["byte"]:
        return ("newarray",)
    raise NotStraight


# The shape of straight code: the kinds in the local variables and on the operands before each instruction.

NO_KIND = "none"

# What an instruction takes, the top last, and what it gives.
TAKES = {
    "baload": ([REFERENCE, INT], [INT]),
    "bastore": ([REFERENCE, INT, INT], []),
    "compute": ([INT, INT], [INT]),
    "areturn": ([REFERENCE], []),
    "newarray": ([INT], [REFERENCE]),
    "arraylength": ([REFERENCE], [INT]),
}


class Fault(Exception):
    """An instruction doesn't find what it takes, or what it gives doesn't fit."""


class Kinds:
    def __init__(self, code):
        self.max_stack = code.max_stack
        self.slots = [REFERENCE] + [NO_KIND] * (code.max_locals - 1)
        self.stack = []

    def take(self, kinds):
        if len(self.stack) < len(kinds) or self.stack[len(self.stack) - len(kinds) :] != kinds:
            raise Fault
        del self.stack[len(self.stack) - len(kinds) :]

    def give(self, kinds):
        self.stack += kinds
        if len(self.stack) > self.max_stack:
            raise Fault

    def check_slot(self, slot):
        if slot >= len(self.slots):
            raise Fault

    def go(self, word, *operands):
        """Goes on to the state after this instruction."""
        if word == "push":
            self.give([REFERENCE if operands[0] is None else INT])
        elif word == "load":
            kind, slot = operands
            self.check_slot(slot)
            if self.slots[slot] != kind:
                raise Fault
            self.give([kind])
        elif word == "store":
            kind, slot = operands
            self.take([kind])
            self.check_slot(slot)
            self.slots[slot] = kind
        elif word in ("pop", "dup"):
            if not self.stack:
                raise Fault
            kind = self.stack[-1]
            self.take([kind])
            self.give([kind, kind] if word == "dup" else [])
        elif word in TAKES:
            takes, gives = TAKES[word]
            self.take(takes)
            self.give(gives)


def shape_fault(code):
    """The number of the first instruction that fails, or None."""
    if code.max_locals < 1:
        return 0
    kinds, last = Kinds(code), len(code.instructions) - 1
    for number, instruction in enumerate(code.instructions):
        # The run comes here from the instruction before, which must not return, and must not leave the code's end.
        is_reached = number == 0 or code.instructions[number - 1][0] != "areturn"
        try:
            kinds.go(*instruction)
        except Fault:
            return number
        if not is_reached or (number == last and instruction[0] != "areturn"):
            return number
    return None


def straight_lines(path, straight, entry):
    """The lines of a straight set by the rules that are judged of such a set alone."""
    lines = set()
    if straight is not None:
        for name, code in straight.methods.items():
            number = shape_fault(code)
            if number is not None:
                lines.add((path, name + b"([B)[B", number, 19))
    if straight is None or straight.name != entry or b"verify" not in straight.methods:
        lines.add((entry + b".class", b"", -1, 20))
    return lines


# Runs of straight code that has shape. Values are ints, None for null, and arrays of bytes.


class Threw(Exception):
    """The class of an exception that left the method."""


class Stopped(Exception):
    """A charge passed what a run may be charged."""


class Machine:
    def __init__(self, code, argument, most_alloc):
        self.most_alloc = most_alloc
        self.instructions = code.instructions
        self.slots = {0: argument}
        self.stack = []
        self.alloc = 0

    def run(self):
        for word, *operands in self.instructions:
            if word == "areturn":
                return self.stack.pop()
            getattr(self, "do_" + word)(*operands)

    def do_nop(self):
        pass

    def do_push(self, value):
        self.stack.append(value)

    def do_load(self, _, slot):
        self.stack.append(self.slots[slot])

    def do_store(self, _, slot):
        self.slots[slot] = self.stack.pop()

    def do_pop(self):
        self.stack.pop()

    def do_dup(self):
        self.stack.append(self.stack[-1])

    def do_compute(self, operation):
        right, left = self.stack.pop(), self.stack.pop()
        self.stack.append(signed(operation(left, right), 32))

    def do_newarray(self):
        length = self.stack.pop()
        if length < 0:
            raise Threw("java/lang/NegativeArraySizeException")
        self.alloc += 16 + (length + 7) // 8 * 8
        if self.alloc > self.most_alloc:
            raise Stopped
        self.stack.append(bytearray(length))

    def do_arraylength(self):
        self.stack.append(len(self.pop_array()))

    def do_baload(self):
        index, array = self.stack.pop(), self.pop_array()
        check_index(array, index)
        self.stack.append(signed(array[index], 8))

    def do_bastore(self):
        value, index, array = self.stack.pop(), self.stack.pop(), self.pop_array()
        check_index(array, index)
        array[index] = value & 0xFF

    def pop_array(self):
        array = self.stack.pop()
        if array is None:
            raise Threw("java/lang/NullPointerException")
        return array


def check_index(array, index):
    if not 0 <= index < len(array):
        raise Threw("java/lang/ArrayIndexOutOfBoundsException")


def signed(number, bits):
    """The number of this many bits, with a sign, that a whole number wraps to."""
    return (number + (1 << bits - 1)) % (1 << bits) - (1 << bits - 1)


def run_report(code, data, most_alloc):
    machine = Machine(code, bytearray(data), most_alloc)
    try:
        outcome, status = ok_line(machine.run()), 0
    except Threw as threw:
        outcome, status = b"EXCEPTION %s null\n" % str(threw).encode(), EXCEPTION
    except Stopped:
        outcome, status = b"THRESHOLD alloc\n", THRESHOLD
    return outcome + b"costs alloc %d invoke 0 jump 0 throw 0\n" % machine.alloc, status


def ok_line(result):
    if result is None:
        return b"OK null\n"
    if not result:
        return b"OK 0\n"
    return b"OK %d %s\n" % (len(result), result.hex().encode())


# The report.


def escaped(text):
    return b"".join(bytes([b]) if 0x21 <= b <= 0x7E and b != 0x25 else b"%%%02X" % b for b in text)


def spelled(line):
    path, member, number, rule = line
    place = b"-" if number < 0 else b"%d" % number
    return b"%s %s %s %d %s\n" % (escaped(path), escaped(member) or b"-", place, rule, RULES[rule].encode())


def rejected(lines):
    return b"REJECTED %d\n" % len(lines) + b"".join(spelled(line) for line in sorted(lines)), REJECTED


def later(path):
    return b"LATER %s\n" % escaped(path), LATER


class Decided(Exception):
    """A report that is decided before all has been looked at: its text and status."""


def report(words):
    """What is written, and the status."""
    try:
        plain, options = line_of(words)
        commands = {"check": (1, (), check), "verify": (3, THRESHOLDS, verify), "raw": (3, ("steps",), raw)}
        count, names, command = commands.get(plain[0], (0, (), None)) if plain else (0, (), None)
        if command is None or len(plain) != count + 1 or any(name not in names for name in options):
            raise Unread
        numbers = {name: number_of(options, name) for name in names}
    except Unread:
        return b"USAGE\n", USAGE
    try:
        return command(*plain[1:], **numbers)
    except Decided as decided:
        return decided.args


class Unread(Exception):
    """The words are those of no command."""


def line_of(words):
    """The plain words, and the options by their names."""
    plain, options, waiting = [], {}, list(words)
    while waiting:
        word = waiting.pop(0)
        if word == "--":
            return plain + waiting, options
        if word.startswith("--"):
            name, equals, value = word[2:].partition("=")
            if not equals:
                if not waiting or waiting[0].startswith("-"):
                    raise Unread
                value = waiting.pop(0)
            if name in options:
                raise Unread
            options[name] = value
        elif word.startswith("-") and word != "-":
            raise Unread
        else:
            plain.append(word)
    return plain, options


def number_of(options, name):
    """The number of an option, in one to ten ASCII digits."""
    most, default = OPTIONS[name]
    if name not in options:
        return default
    digits = options[name]
    if not 1 <= len(digits) <= 10 or any(digit not in "0123456789" for digit in digits) or int(digits) > most:
        raise Unread
    return int(digits)


def check(folder):
    folder = without_slash(folder)
    files = class_files(folder, listed(folder))
    lines = shape_rules.lines(files)
    if lines:
        return rejected(lines)
    return b"ACCEPTED %d\n" % len(files), 0


def read_all(folder, input_path):
    """The class files and the input."""
    folder = without_slash(folder)
    paths = listed(folder)
    data = read(input_path.encode(), MOST_INPUT)
    if len(data) > MOST_INPUT:
        raise Decided(b"LIMIT input %d\n" % MOST_INPUT, LIMIT)
    return class_files(folder, paths), data


def entry_name(entry):
    return modified_utf8(entry.replace(".", "/"))


def raw(folder, entry, input_path, steps):
    files, _ = read_all(folder, input_path)
    entry = entry_name(entry)
    lines = shape_rules.lines(files, RAW_LIBRARY)
    if all(rule > 6 for _, _, _, rule in lines) and not has_entry(files, entry):
        lines = lines | {(entry + b".class", b"", -1, 20)}
    return rejected(lines) if lines else (b"", NO_RUN)


def has_entry(files, entry):
    """Whether a class of the set, none of which is malformed, has this name, and a static method `verify` with code."""
    methods = [method for view in (ClassFile(data) for _, data in files) if view.this_class == entry for method in view.methods]
    entries = [method for method in methods if (method.name, method.descriptor) == (b"verify", b"([B)[B")]
    return any(method.flags & (STATIC | NATIVE | ABSTRACT) == STATIC for method in entries)


def verify(folder, entry, input_path, alloc, **others):
    files, data = read_all(folder, input_path)
    entry = entry_name(entry)
    lines = first_lines(files)
    if lines:
        return rejected(lines)
    if len(files) > 1:
        return later(files[0][0])
    path, straight = None, None
    for path, bytes_of_class in files:
        try:
            straight = StraightClass(ClassFile(bytes_of_class))
        except NotStraight:
            return later(path)
    lines = straight_lines(path, straight, entry)
    if lines:
        return rejected(lines)
    return run_report(straight.methods[b"verify"], data, alloc)


def without_slash(folder):
    return folder[:-1] if folder.endswith("/") else folder


def modified_utf8(text):
    """A name's modified UTF-8 (JVMS 4.4.7)."""
    spelled_units = bytearray()
    for unit in utf16(text):
        if 0 < unit < 0x80:
            spelled_units.append(unit)
        elif unit < 0x800:
            spelled_units += bytes([0xC0 | unit >> 6, 0x80 | unit & 0x3F])
        else:
            spelled_units += bytes([0xE0 | unit >> 12, 0x80 | unit >> 6 & 0x3F, 0x80 | unit & 0x3F])
    return bytes(spelled_units)


def listed(folder):
    """The paths of the class files within the folder, in order."""
    paths = class_paths(folder)
    if len(paths) > MOST_FILES:
        raise Decided(b"LIMIT files %d\n" % MOST_FILES, LIMIT)
    return sorted(paths)


def class_files(folder, paths):
    """The path and the bytes of each file."""
    files, total = [], 0
    for path in paths:
        data = read(folder.encode() + b"/" + path, MOST_BYTES)
        if len(data) > MOST_BYTES:
            raise Decided(b"LIMIT file %d\n" % MOST_BYTES, LIMIT)
        total += len(data)
        if total > MOST_TOTAL:
            raise Decided(b"LIMIT total %d\n" % MOST_TOTAL, LIMIT)
        files.append((path, data))
    return files


def first_lines(files):
    """The lines by the rules that `verify` judges of every set."""
    lines = set()
    for path, data in files:
        lines |= lines_of(path, data)
    return lines


# The folder. Links are followed. FOLDER is no level deep, a folder right in it one level.


def class_paths(folder):
    """The paths below the folder, without it, of the files that end in .class."""
    found, entries = [], 0
    waiting = [(b"", 0)]
    while waiting:
        inside, level = waiting.pop()
        try:
            names = os.listdir(folder.encode() + b"/" + inside if folder else b"")
        except OSError:
            raise Failed
        for name in names:
            entries += 1
            if entries > MOST_ENTRIES or not is_utf8(name):
                raise Failed
            try:
                mode = os.stat(folder.encode() + b"/" + inside + name).st_mode
            except OSError:
                raise Failed
            if stat.S_ISDIR(mode):
                if level == MOST_LEVELS:
                    raise Failed
                waiting.append((inside + name + b"/", level + 1))
            elif name.endswith(b".class"):
                if not stat.S_ISREG(mode):
                    raise Failed
                found.append(inside + name)
    return found


def is_utf8(name):
    try:
        name.decode("utf-8")
    except UnicodeDecodeError:
        return False
    return True


def read(path, most):
    """The bytes of a file, or the first ones and one more than `most`."""
    try:
        with open(path, "rb") as file:
            return file.read(most + 1)
    except OSError:
        raise Failed


def outcome(words):
    """What is written for these words, each as bytes, in the folder where this runs, and the status."""
    if not all(is_utf8(word) for word in words):
        return b"USAGE\n", USAGE
    try:
        return report([word.decode("utf-8") for word in words])
    except Failed:
        return b"", FAULT


def main():
    text, status = outcome([os.fsencode(word) for word in sys.argv[1:]])
    try:
        while text:
            text = text[os.write(1, text) :]
    except OSError:
        status = SINK
    os._exit(status)


if __name__ == "__main__":
    main()
