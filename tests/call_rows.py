"""The rows of dj_natives_tests, held to what native_calls.py makes of each call: its answer, the bytes that are used before it and after it, those that
are charged, and what an object is then. The sequences of the accounter are added up anew, and the rows of objects.rt are held to sizes and subtypes.
tests/generated calls it. The tables of few.rs and taken.rs aren't read: contracts say what they are."""

import os
import re

import class_reader
import library_classes
import native_calls

SOURCES = os.path.join(os.path.dirname(os.path.dirname(os.path.abspath(__file__))), "crates", "dj_natives_tests", "src")
CALLS = ["boxed_calls.rt", "builder_calls.rt", "copy_calls.rt", "library_calls.rt", "part_calls.rt", "text_calls.rt"]
ENOUGH = ["Some", 1000000], 1000000
TOKEN = re.compile(r'\s*(?://[^\n]*\n|b"((?:\\.|[^"\\])*)"|(-?[0-9][0-9_]*)|([A-Za-z_]\w*(?:::\w+)*)|([&()\[\],]))')
MOST = {"i32::MAX": 2**31 - 1, "i32::MIN": -(2**31), "i64::MAX": 2**63 - 1, "i64::MIN": -(2**63), "u32::MAX": 2**32 - 1}


# Tables are read as texts: a tuple, a list and a name with arguments become lists, the last one with the name first.


def bytes_of(spelled):
    return re.sub(rb"\\x(..)", lambda found: bytes([int(found[1], 16)]), spelled.encode())


def tokens(text):
    at, found = 0, []
    while text[at:].strip():
        one = TOKEN.match(text, at)
        spelled, number, word, mark = one.groups()
        if spelled is not None:
            found.append(("value", bytes_of(spelled)))
        elif number is not None:
            found.append(("value", int(number.replace("_", ""))))
        elif word in MOST or word in ("true", "false", "ENOUGH"):
            found.append(("value", {**MOST, "true": True, "false": False, "ENOUGH": ENOUGH}[word]))
        elif word is not None:
            found.append(("word", word.split("::")[-1]))
        elif mark is not None and mark != "&":
            found.append(("mark", mark))
        at = one.end()
    return found


def read_list(found, close):
    """What stands up to the closing mark."""
    items = []
    while found[0] != ("mark", close):
        items.append(read(found))
        if found[0] == ("mark", ","):
            found.pop(0)
    found.pop(0)
    return items


def read(found):
    kind, content = found.pop(0)
    if kind == "value":
        return content
    if kind == "mark":
        return read_list(found, {"(": ")", "[": "]"}[content])
    if found and found[0] == ("mark", "("):
        found.pop(0)
        return [content, *read_list(found, ")")]
    return None if content == "None" else content


def tables(name):
    """Each table of a file: its name, the type of its rows, and the rows."""
    with open(os.path.join(SOURCES, name), encoding="utf-8") as file:
        text = file.read()
    for table, kind, count, rows in re.findall(r"^(?:pub )?const (\w+): \[(\w+); (\d+)\] = (\[.*?\]);$", text, re.MULTILINE | re.DOTALL):
        found = read(tokens(rows))
        assert len(found) == int(count), (name, table)
        yield table, kind, found


# Classes.

ABOVE = {cls.name: cls.super_class for cls in library_classes.LIBRARY}
PREFIX, OBJECT = native_calls.PREFIX, library_classes.OBJECT


def above(name):
    """The class right above; that of an array is Object, or the array of what is above its elements, and then Object."""
    if name.startswith(b"[L") and above(name[2:-1]):
        return b"[L" + above(name[2:-1]) + b";"
    if name in (OBJECT, PREFIX + OBJECT):
        return None
    return ABOVE.get(name, OBJECT)


def component(name):
    return name[2:-1]


# Calls.


def units(text):
    return class_reader.units_of(text)


def made(heap, values, argument):
    """The value of an argument, whose objects are made, first those that it holds."""
    what, *parts = argument if isinstance(argument, list) else [argument]
    if what in ("Int", "Long"):
        return parts[0]
    if what in ("Null", "Same"):
        return values[parts[0]] if parts else 0
    if what == "Text":
        return heap.put(native_calls.STRING, "Text", units(parts[0]))
    if what == "Numbers":
        return heap.put(*parts)
    if what == "References":
        return heap.put(parts[0], "Ref", [made(heap, values, item) for item in parts[1]])
    if what == "Object":
        return heap.put(parts[0], "Instance", [0] * parts[1])
    name, text, rest = (parts[0], parts[1], [0]) if what == "Throwable" else (native_calls.BUILDER, parts[0], [])
    first = made(heap, values, ["Text", text[1]]) if text else 0
    return heap.put(name, "Instance", [first, *rest])


def with_all(kind, row):
    """A row of any table as one of those that have all: the method, what is left, arguments, answer, bytes used, bytes charged, and an object."""
    if kind == "LimitedCall":
        return row
    name, arguments, wanted, used, *after = row
    used = [used, used] if kind == "AskedCall" else used
    return [name, ENOUGH, arguments, wanted, used, used[1] - used[0], *(after or ["Any"])]


def is_text(heap, number, text):
    return number == 0 if text is None else number != 0 and heap.is_text(number) and heap.at(number).held == units(text[1])


def is_after(heap, after):
    """Whether an object is what the row says."""
    if after == "Any":
        return True
    what, number, *wanted = after
    held = heap.at(number).held
    if what == "ElementsAre":
        return held == wanted[0]
    return is_text(heap, held[0], wanted[0]) and (what == "FirstIs" or held[1] == wanted[1])


def with_units(answer):
    """An answer of a row, its text as units."""
    parts = answer if isinstance(answer, list) else [answer]
    return [*parts[:2], units(parts[2])] if parts[0] == "GivesText" else parts


def misdone(kind, row):
    """How a call differs from its row."""
    name, (most, limit), arguments, wanted, used, charged, after = with_all(kind, row)
    heap, values = native_calls.Heap(), []
    for argument in arguments:
        values.append(made(heap, values, argument))
    machine = native_calls.Machine(above, component, heap, most and most[1], limit)
    before, answer = heap.used(), native_calls.called(machine, name, values)
    found = [list(answer), [before, heap.used()], machine.charged]
    if found != [with_units(wanted), used, charged]:
        return ["%r: %r is meant" % (row, found)]
    return [] if is_after(heap, after) else ["%r: the object is another one" % row]


def check_calls(results):
    for file in CALLS:
        for table, kind, rows in tables(file):
            lines = [line for row in rows for line in misdone(kind, row)]
            results.add("dj_natives_tests, %s of %s" % (table, file), [], lines)


# The accounter.

CHARGES = {"Jump": "Jump", "Invocation": "Invoke", "Throw": "Throw", "Allocation": "Alloc", "Array": "Alloc", "Text": "Alloc"}
ORDER = ["Alloc", "Invoke", "Jump", "Throw"]


def amount(call):
    """What a call adds, and to which sum."""
    what, *numbers = call if isinstance(call, list) else [call]
    charge = CHARGES[what]
    if charge != "Alloc":
        return charge, 1
    if min(numbers) < 0:
        return charge, 0
    return charge, native_calls.array_size(*numbers, *([2] if what == "Text" else [])) if what != "Allocation" else numbers[0]


def misanswered(sequence):
    """The steps of a sequence that aren't so."""
    thresholds, steps = sequence
    sums, exceeded, lines = [0, 0, 0, 0], None, []
    for what, *parts in steps:
        if what in ("Fine", "Stop"):
            charge, more = amount(parts[0])
            at = ORDER.index(charge)
            if exceeded is None:
                sums[at] += more
                exceeded = charge if sums[at] > thresholds[at] else None
            is_so = (what == "Stop") == (exceeded is not None)
        elif what == "Costs":
            is_so = parts == sums
        else:
            is_so = parts == [exceeded and ["Some", exceeded]]
        lines += [] if is_so else ["%r: %r is another" % (sequence, [what, *parts])]
    return lines


def check_sequences(results):
    for table, _, sequences in tables("sums.rt"):
        results.add("dj_natives_tests, %s of sums.rt" % table, [], [line for one in sequences for line in misanswered(one)])


# Objects, casts and fields.


def went(is_right, size, limit):
    """How the run goes on where an object is made, and the bytes that are used then."""
    if not is_right:
        return ["Nowhere", 0]
    if size is None:
        return [["Raised", "NegativeArraySize"], 0]
    return ["Next", size] if size <= limit else [["Full", 0, size], 0]


def array_made(row):
    (kind, length), limit, *wanted = row
    return wanted == went(kind == "Int", native_calls.array_size(length, 4) if length >= 0 else None, limit)


def object_made(row):
    limit, fields, *wanted = row
    return wanted == went(True, 16 + 8 * fields, limit)


def is_below(name, other):
    return native_calls.Machine(above, component, native_calls.Heap(), None, 0).is_below(name, other)


def cast(row):
    """Null is of each class."""
    name, other, wanted = row
    return wanted == (name is None or is_below(name[1], other))


def put(row):
    name, declaring, kind, value, wanted = row
    if name is None:
        return wanted == ["Raised", "NullPointer"]
    if kind != value[0]:
        return wanted == "Nowhere"
    return wanted == ("Next" if is_below(name[1], declaring) else "Link")


def check_objects(results):
    judges = {"ArrayRow": array_made, "ObjectRow": object_made, "CastRow": cast, "FieldRow": put}
    for table, kind, rows in tables("objects.rt"):
        results.add("dj_natives_tests, %s of objects.rt" % table, [], ["%r" % row for row in rows if not judges[kind](row)])


def check(results):
    check_calls(results)
    check_sequences(results)
    check_objects(results)
