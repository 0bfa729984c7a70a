"""Methods that are drawn at random, the same in each run, which `check` judges by rule 19; what is wanted is what reference.py says.

Those named `near` have shape by the way they are drawn: each instruction is one that finds what it takes, each jump goes to a frame into which
the state flows, and each handler has a frame that fits its range. Those named `changed` are such methods, changed in one place. Those named
`any` are drawn without a thought of what fits.
"""

import random

import harness
from class_files import ABSTRACT, AN_INTERFACE, PUBLIC, STATIC, Pool, class_file
from shaped_code import Method, made_all
from special_base import by_reference, misjudged, write_classes

SEED, CLASSES, METHODS = 19, 80, 45

# Instructions with what they take and leave; the top of the stack stands last.
EFFECTS = {"nop": ("", ""), "iconst_0": ("", "I"), "bipush 7": ("", "I"), "lconst_1": ("", "L"), "aconst_null": ("", "R"), "new A": ("", "R")}
EFFECTS |= {"iadd": ("II", "I"), "ladd": ("LL", "L"), "lshl": ("LI", "L"), "ineg": ("I", "I"), "i2l": ("I", "L"), "l2i": ("L", "I")}
EFFECTS |= {"lcmp": ("LL", "I"), "iaload": ("RI", "I"), "lastore": ("RIL", ""), "arraylength": ("R", "I"), "newarray int": ("I", "R")}
EFFECTS |= {"checkcast A": ("R", "R"), "instanceof A": ("R", "I"), "ldc string": ("", "R"), "ldc2_w long": ("", "L"), "getstatic A s J": ("", "L")}
EFFECTS |= {"putfield A f I": ("RI", ""), "invokestatic A call (IJ)[I": ("IL", "R"), "invokevirtual A use (J)V": ("RL", "")}
EFFECTS |= {"invokeinterface I face (J)J": ("RL", "L"), "invokeinterface I face ()V": ("R", "")}
# How much is taken and what of it is left, by its places from below: a stands for a value of one slot, b for another, c for a third.
MOVES = {"pop": ("a", ""), "dup": ("a", "aa"), "dup_x1": ("ab", "bab"), "dup_x2": ("abc", "cabc"), "swap": ("ab", "ba")}
MOVES |= {"pop2": ("ab", ""), "dup2": ("ab", "abab"), "dup2_x1": ("abc", "bcabc")}
OF_LONGS = {"pop2": ("a", ""), "dup2": ("a", "aa"), "dup2_x2": ("ab", "bab")}
LETTERS = {"I": "i", "L": "l", "R": "a"}
# Jumps, with what they take and how many targets they have; the last ones don't go on.
JUMPS = {"ifeq": ("I", 1), "if_icmplt": ("II", 1), "ifnull": ("R", 1), "if_acmpne": ("RR", 1)}
LAST = {"tableswitch 3": ("I", 2), "lookupswitch 5": ("I", 2), "goto": ("", 1), "goto_w": ("", 1), "athrow": ("R", 0)}
TYPES = {"I": ["int"], "L": ["long"], "R": ["ref", "null", "this", "ref:A", "ref:[I"], None: ["top"]}
RETURNS = {"V": ("", "return"), "I": ("I", "ireturn"), "J": ("L", "lreturn"), "[I": ("R", "areturn")}
PUSHES = {"I": "iconst_0", "L": "lconst_1", "R": "aconst_null"}
PARAMETERS = {"I": "I", "Z": "I", "J": "L", "LA;": "R"}


class Part:
    """An instruction, its labels and its frame."""

    def __init__(self, text, labels=(), frame=None):
        self.text, self.labels, self.frame = text, list(labels), frame

    def spelled(self):
        return "%s%s%s" % ("".join(label + ": " for label in self.labels), "{%s} " % self.frame if self.frame else "", self.text)


class Drawn:
    """A method as it is drawn: its parts and its rows, which are given by numbers of instructions."""

    def __init__(self, draw):
        self.draw, self.parts, self.rows, self.count = draw, [], [], 0
        self.types = [draw.choice([*PARAMETERS]) for _ in range(draw.randrange(4))]
        self.result = draw.choice([*RETURNS])
        self.locals = [slot for text in self.types for slot in slots(PARAMETERS[text])]
        self.entries = [PARAMETERS[text] for text in self.types]
        self.locals += [None] * draw.randrange(4)
        self.stack, self.most = [], 0

    def label(self):
        self.count += 1
        return "L%d" % self.count

    def method(self, name):
        for number in {place for row in self.rows for place in row} - {len(self.parts)}:
            self.parts[number].labels.append("N%d" % number)
        named = {len(self.parts): "end"}
        rows = ", ".join(" ".join(named.get(place, "N%d" % place) for place in row) for row in self.rows)
        text = ", ".join(part.spelled() for part in self.parts)
        head = "%s(%s)%s" % (name, "".join(self.types), self.result)
        return Method(head, text, rows, stack=max(self.most, 0), locals=len(self.locals))


def slots(kind):
    return ["L", None] if kind == "L" else [kind]


def room(kinds):
    return sum(len(slots(kind)) for kind in kinds)


class WithShape(Drawn):
    """The state is followed while instructions are drawn: `before` has the local variables before each."""

    def __init__(self, draw):
        super().__init__(draw)
        self.size = len(self.locals)
        self.placed, self.waiting, self.before, self.ahead = [], [], [], None
        for _ in range(draw.randint(3, 14)):
            self.go()
        self.end()
        while self.waiting:
            label, locals, stack = self.waiting.pop()
            self.place(label, locals, stack)
            for _ in range(draw.randrange(3)):
                self.plain()
            self.end()
        for _ in range(draw.choice([0, 1, 2])):
            self.handler(1)

    # The state goes on to a further instruction.

    def add(self, text):
        labels, frame = self.ahead or ((), None)
        self.ahead = None
        self.parts.append(Part(text, labels, frame))
        self.before.append(list(self.locals))

    def give(self, kinds):
        self.stack += kinds
        self.most = max(self.most, room(self.stack))

    def go(self):
        draw = self.draw.random()
        if draw < 0.15 and self.ahead is None:
            self.place(self.label(), self.locals, self.stack)
        elif draw < 0.35:
            self.jump()
        elif draw < 0.6:
            self.local()
        else:
            self.plain()

    def plain(self):
        found = [(text, takes, leaves) for text, (takes, leaves) in EFFECTS.items() if self.stack[len(self.stack) - len(takes) :] == list(takes)]
        for moves, kinds in ((MOVES, "IR"), (OF_LONGS, "L")):
            for text, (takes, leaves) in moves.items():
                values = self.stack[len(self.stack) - len(takes) :]
                if len(values) == len(takes) and all(kind in kinds for kind in values):
                    found.append((text, takes, [values[takes.index(each)] for each in leaves]))
        text, takes, leaves = self.draw.choice([one for one in found if len(one[1]) <= len(self.stack)])
        self.add(text)
        del self.stack[len(self.stack) - len(takes) :]
        self.give(leaves)

    def local(self):
        """A load or iinc of one that has a kind, or a store."""
        loadable = [slot for slot, kind in enumerate(self.locals) if kind]
        if self.stack and self.size >= room(self.stack[-1]) and self.draw.random() < 0.6:
            kind = self.stack.pop()
            slot = self.draw.randint(0, self.size - room(kind))
            self.add("%sstore %d" % (LETTERS[kind], slot))
            if slot > 0 and self.locals[slot - 1] == "L":
                self.locals[slot - 1] = None
            self.locals[slot : slot + room(kind)] = slots(kind)
        elif loadable:
            slot = self.draw.choice(loadable)
            kind = self.locals[slot]
            if kind == "I" and self.draw.random() < 0.3:
                self.add("iinc %d 1" % slot)
            else:
                self.add("%sload %d" % (LETTERS[kind], slot))
                self.give([kind])
        else:
            self.plain()

    def jump(self):
        text, (takes, count) = self.draw.choice([*JUMPS.items(), *LAST.items()])
        if len(takes) > len(self.stack) or self.stack[len(self.stack) - len(takes) :] != list(takes):
            return self.plain()
        left = self.stack[: len(self.stack) - len(takes)]
        self.add(" ".join([text, *(self.target(left) for _ in range(count))]))
        self.stack = left
        return self.go_on() if text in LAST else None

    def target(self, stack):
        """A label where a frame stands into which this flows, or where one will."""
        labels = [label for label, locals, operands in self.placed if operands == stack and flows(self.locals, locals)]
        if labels and self.draw.random() < 0.5:
            return self.draw.choice(labels)
        label = self.label()
        self.waiting.append((label, list(self.locals), list(stack)))
        return label

    def go_on(self):
        """After an instruction that doesn't: at a label that waits, or anywhere."""
        if self.waiting:
            return self.place(*self.waiting.pop())
        locals = [slot for _ in range(self.size) for slot in slots(self.draw.choice(["I", "L", "R", None]))]
        locals = locals[: self.size]
        if locals and locals[-1] == "L":
            locals[-1] = None
        stack = [self.draw.choice("ILR") for _ in range(self.draw.randrange(3))]
        return self.place(self.label(), locals, stack)

    def end(self):
        kind, text = RETURNS[self.result]
        if kind:
            self.add(PUSHES[kind])
            self.give([kind])
        self.add(text)

    # Frames.

    def place(self, label, locals, stack):
        """A frame at the next instruction, which has these kinds or fewer."""
        self.locals = [kind if self.draw.random() < 0.8 else None for kind in locals]
        self.stack = list(stack)
        self.give([])
        self.placed.append((label, list(self.locals), list(stack)))
        self.ahead = [label], self.form(entries_of(self.locals), stack)

    def form(self, entries, stack):
        before, types = self.entries, self.types_for(entries)
        while entries and entries[-1] is None and self.draw.random() < 0.7:
            entries, types = entries[:-1], types[:-1]
        self.entries, forms = entries, ["full %s / %s" % (" ".join(types), " ".join(self.types_for(stack)))]
        fewer = len(before) - len(entries)
        if entries == before and len(stack) <= 1:
            plus = self.draw.choice(["", "+"])
            forms += ["stack%s %s" % (plus, self.types_for(stack)[0]) if stack else "same" + plus] * 3
        if 1 <= fewer <= 3 and not stack and before[: len(entries)] == entries:
            forms += ["chop %d" % fewer] * 3
        if 1 <= -fewer <= 3 and not stack and entries[: len(before)] == before:
            forms += ["append " + " ".join(types[len(before) :])] * 3
        return self.draw.choice(forms)

    def types_for(self, kinds):
        return [self.draw.choice(TYPES[kind]) for kind in kinds]

    # A handler comes after all else.

    def handler(self, count):
        """One of this many rows; its frame has what all of their ranges have."""
        spans = [self.span() for _ in range(count)]
        states = [state for start, end in spans for state in self.before[start:end]]
        common = [kinds[0] if len(set(kinds)) == 1 else None for kinds in zip(*states)]
        place = len(self.parts)
        self.place(self.label(), common, ["R"])
        self.add("pop")
        self.stack = []
        self.end()
        self.rows += [(start, end, place) for start, end in spans]

    def span(self):
        start = self.draw.randrange(len(self.parts))
        return start, self.draw.randint(start + 1, min(start + 12, len(self.parts)))


class WithRows(WithShape):
    """Longer code without jumps, whose local variables change often, with many rows."""

    def __init__(self, draw):
        Drawn.__init__(self, draw)
        self.locals += [None] * 4
        self.size = len(self.locals)
        self.placed, self.waiting, self.before, self.ahead = [], [], [], None
        for _ in range(draw.randint(20, 60)):
            draw.choice([self.local, self.local, self.plain])()
        self.end()
        for _ in range(draw.randint(2, 6)):
            self.handler(draw.randint(1, 6))
        draw.shuffle(self.rows)


def entries_of(locals):
    """The types of a frame: the second slot of a long has none."""
    found, slot = [], 0
    while slot < len(locals):
        found.append(locals[slot])
        slot += room([locals[slot]])
    return found


def flows(locals, declared):
    return all(kind is None or kind == local for local, kind in zip(locals, declared))


# Changes.

ANY = [*EFFECTS, *MOVES, *MOVES, *OF_LONGS, *(letter + each for letter in "ila" for each in ("load 0", "load 1", "store 0", "store 1", "store 2"))]
ANY += ["iinc 0 1", "iinc 1 1", "return", "ireturn", "lreturn", "areturn", "athrow", "getstatic A x F", "invokeinterface I face (J)J 2"]
WITH_TARGETS = [name.split()[0] for name in (*JUMPS, *LAST) if name != "athrow"]
ANY_TYPES = ["top", "int", "long", "null", "this", "ref"]


def any_frame(draw, labels=()):
    types = [*ANY_TYPES, *("new:" + label for label in labels[:1])]
    three = [draw.choice(types) for _ in range(3)]
    forms = ["same", "same", "stack " + three[0], "chop 1", "chop 2", "append " + three[0], "append %s %s" % tuple(three[:2]), "full /"]
    return draw.choice([*forms, "full %s / " % three[0], "full %s %s / %s" % tuple(three), "full / %s %s" % tuple(three[:2])])


def change(drawn):
    """Changes a method in one place, which may leave it as it was."""
    changes = [change_text, insert, insert, change_frame, change_type, change_type, change_slot, change_slot, change_room, change_row, change_row]
    drawn.draw.choice([*changes, change_result, change_count, drop_last])(drawn)


def parts_with(drawn, is_one):
    """A part of which this holds, or none."""
    found = [part for part in drawn.parts if is_one(part)]
    return drawn.draw.choice(found) if found else None


def words_with(drawn, text, words):
    """The words of a text, and the place of one of these."""
    found = text.split()
    return found, drawn.draw.choice([at for at, word in enumerate(found) if word in words])


def change_text(drawn):
    parts_with(drawn, lambda part: part.text.split()[0] not in WITH_TARGETS).text = drawn.draw.choice(ANY)


def insert(drawn):
    at = drawn.draw.randrange(len(drawn.parts))
    drawn.parts.insert(at, Part(drawn.draw.choice(ANY)))
    drawn.rows = [tuple(place + (place > at) for place in row) for row in drawn.rows]


def change_frame(drawn):
    part = parts_with(drawn, lambda part: part.frame) or drawn.draw.choice(drawn.parts)
    part.frame = drawn.draw.choice([None, any_frame(drawn.draw, [label for one in drawn.parts for label in one.labels])])


def change_type(drawn):
    part = parts_with(drawn, lambda part: part.frame and any(word in ANY_TYPES for word in part.frame.split()))
    if part:
        words, at = words_with(drawn, part.frame, ANY_TYPES)
        words[at] = drawn.draw.choice(ANY_TYPES)
        part.frame = " ".join(words)


def change_slot(drawn):
    part = parts_with(drawn, lambda part: part.text[1:].startswith(("load ", "store ")))
    if part:
        name, slot = part.text.split()
        part.text = "%s %d" % (name, max(int(slot) + drawn.draw.choice([-1, 1]), 0))


def change_room(drawn):
    if drawn.locals and drawn.draw.random() < 0.5:
        drawn.locals.pop()
    else:
        drawn.most += drawn.draw.choice([-1, -1, 1])


def change_row(drawn):
    if drawn.rows:
        at = drawn.draw.randrange(len(drawn.rows))
        start, end, handler = drawn.rows[at]
        longer = (max(start - 1, 0), end, handler), (start, min(end + 1, len(drawn.parts)), handler), (0, end, handler)
        drawn.rows[at] = drawn.draw.choice([*longer, (start, end, handler - 1)])


def change_result(drawn):
    drawn.result = drawn.draw.choice([*RETURNS])


def change_count(drawn):
    part = parts_with(drawn, lambda part: part.text.startswith("invokeinterface"))
    if part:
        part.text += " %d" % drawn.draw.choice([1, 2, 3])


def drop_last(drawn):
    if not drawn.rows and not drawn.parts[-1].labels:
        drawn.parts.pop()


class Any(Drawn):
    """Instructions, frames, jumps and rows without regard to each other."""

    def __init__(self, draw):
        super().__init__(draw)
        self.most = draw.randint(1, 5)
        count = draw.randint(2, 9)
        labels = ["L%d" % number for number in range(count)]
        for label in labels:
            text = draw.choice([draw.choice(ANY), draw.choice([*PUSHES.values()]), draw.choice([*PUSHES.values()]), self.branch(labels)])
            self.parts.append(Part(text, [label], any_frame(draw, [label]) if draw.random() < 0.2 else None))
        self.parts.append(Part(RETURNS[self.result][1]))
        if draw.random() < 0.3:
            start = draw.randrange(count)
            self.rows.append((start, draw.randint(start + 1, count), draw.randrange(count)))

    def branch(self, labels):
        text, (_, count) = self.draw.choice([*JUMPS.items(), *LAST.items()])
        return " ".join([text, *(self.draw.choice(labels) for _ in range(count))])


def drawn_methods(seed):
    for number in range(METHODS // 3):
        kind = WithRows if number % 3 == 0 else WithShape
        yield kind(random.Random("%s %d" % (seed, number))).method("near%d" % number)
        drawn = kind(random.Random("%s %d" % (seed, number)))
        change(drawn)
        yield drawn.method("changed%d" % number)
        yield Any(random.Random("%s any %d" % (seed, number))).method("any%d" % number)


def drawn_class(name, seed):
    pool = Pool()
    members = [Method("call(IJ)[I", "aconst_null, areturn"), Method("use(J)V", "return", flags=PUBLIC)] if name == "A" else []
    made, _ = made_all(pool, [*members, *drawn_methods(seed)])
    return class_file(name, made, [("s", "J", STATIC), ("f", "I", 0), ("x", "F", STATIC)] if name == "A" else [], pool=pool)


def drawn_files():
    names = ["A", *("B%d" % number for number in range(1, CLASSES))]
    files = {name: drawn_class(name, "%d %d" % (SEED, number)) for number, name in enumerate(names)}
    files["I"] = class_file("I", [("face", "(J)J", PUBLIC | ABSTRACT), ("face", "()V", PUBLIC | ABSTRACT)], flags=AN_INTERFACE)
    return files


def drawn_shapes(program, results):
    with harness.scratch() as folder:
        write_classes(folder, drawn_files())
        wanted = by_reference(folder)
        lines = misjudged(program, folder, wanted)
    # What is drawn with shape must be found to have it.
    lines += [line for line in wanted.stdout.decode().splitlines() if line.split()[1].startswith("near")]
    results.add("tests/special: shapes that are drawn at random", ["check", "c"], lines)
