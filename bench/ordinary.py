"""Makes class files as a compiler makes them, of a given size: names, descriptors, fields, and methods with code and line numbers."""

import os

import measuring  # It puts tests/ on the path of modules.
from class_files import FINAL, PRIVATE, PROTECTED, PUBLIC, STATIC, Pool, attribute, class_file, u2, u4
from instructions import instructions
from java_sources import WORDS
from shaped_code import Frames

AVERAGE = 16384
TEMPLATES = 64

OF_FIELDS = [PUBLIC, PRIVATE, PROTECTED, PRIVATE | STATIC | FINAL]
OF_METHODS = [PUBLIC, PRIVATE, PUBLIC | STATIC]
BASES = ["I", "J", "Z", "[B", "Ljava/lang/String;", "Ljava/util/List;", "[Ljava/lang/Object;", "[[I"]


def identifier(draw):
    words = [draw.choice(WORDS) for _ in range(draw.randint(1, 4))]
    # No class has a name twice: no number is drawn twice.
    return words[0] + "".join(word.capitalize() for word in words[1:]) + str(draw.randrange(10**12))


def type_text(draw):
    if draw.random() < 0.3:
        return "Lcom/example/%s/%s;" % (draw.choice(WORDS), identifier(draw).capitalize())
    return draw.choice(BASES)


# Groups of instructions that have shape wherever they are. After those that jump, to the next instruction, there is a frame.
GROUPS = ["iconst_3, istore 8, iload 8, istore 9", "bipush 7, sipush 7, iadd, istore 8", "iconst_3, istore 8, iinc 8 1"]
JUMPING = ["iconst_3, ifeq 3", "goto 3", "iconst_3, iconst_3, if_icmplt 3"]
GROUPS, JUMPING = [[instructions(text) for text in texts] for texts in (GROUPS, JUMPING)]
# What returns the value that begins so in a descriptor; others are references.
RETURNS = {"V": "return", "I": "iconst_0, ireturn", "Z": "iconst_0, ireturn", "J": "lconst_0, lreturn"}
STACK_MAP_NAME = 1


def class_of(name, **more):
    """A class file with the name of stack maps as its first constant, which its code names."""
    pool = Pool()
    assert pool.text("StackMapTable") == STACK_MAP_NAME
    return class_file(name, pool=pool, **more)


def code_body(draw, result):
    code, frames, last = b"", [], -1
    for _ in range(draw.randint(2, 45)):
        group = draw.choice(GROUPS + JUMPING)
        code += group
        if group in JUMPING:
            delta, last = len(code) - last - 1, len(code)
            frames.append("%d same" % delta)
    code += instructions(RETURNS.get(result[0], "aconst_null, areturn"))
    listed = u2(1) + attribute(STACK_MAP_NAME, Frames(Pool()).map_of(",".join(frames)))
    lines = draw.randint(2, 12)
    line_numbers = u2(lines) + b"".join(u2(at * 3) + u2(draw.randrange(2000)) for at in range(lines))
    return u2(4) + u2(10) + u4(len(code)) + code + u2(0) + listed, ("LineNumberTable", line_numbers)


def members(draw):
    """Four fields and eight methods."""
    return [any_field(draw) for _ in range(4)], [any_method(draw) for _ in range(8)]


def any_field(draw):
    return identifier(draw), type_text(draw), draw.choice(OF_FIELDS), [("Signature", u2(1))] * draw.randint(0, 1)


def any_method(draw):
    result = draw.choice(["V", type_text(draw)])
    descriptor = "(" + "".join(type_text(draw) for _ in range(draw.randint(0, 3))) + ")" + result
    body, numbers = code_body(draw, result)
    listed = [("Code", body), numbers] + [("Exceptions", u2(1) + u2(2))] * draw.randint(0, 1)
    return identifier(draw), descriptor, draw.choice(OF_METHODS), listed


def template(draw, name, size):
    """A class file of this size; what is left over goes into one attribute, as does all beyond some 16 KiB."""
    fields, methods = [], []
    data = b""
    while len(data) < min(size, 2 * AVERAGE) - 600:
        more_fields, more_methods = members(draw)
        fields += more_fields
        methods += more_methods
        whole, data = data, class_of(name, methods=methods, fields=fields, interfaces=["java/lang/Runnable"])
        if len(data) > size - 40:
            fields, methods, data = fields[:-4], methods[:-8], whole
            break
    empty = class_of(name, methods=methods, fields=fields, interfaces=["java/lang/Runnable"], listed=[("Filler", b"")])
    filler = bytes(size - len(empty))
    return class_of(name, methods=methods, fields=fields, interfaces=["java/lang/Runnable"], listed=[("Filler", filler)])


def name_of(number):
    return "bench/p%02d/C%05d" % (number % 64, number)


# The name of each template, in whose place the name of a class file is put.
STAND_IN = name_of(99999)


class Folder:
    """A folder to which class files are added, made of templates by turns."""

    def __init__(self, top, templates):
        self.top, self.templates, self.count, self.bytes = top, templates, 0, 0

    def grow(self, count):
        while self.count < count:
            name = name_of(self.count)
            data = self.templates[self.count % len(self.templates)].replace(STAND_IN.encode(), name.encode())
            path = os.path.join(self.top, name + ".class")
            os.makedirs(os.path.dirname(path), exist_ok=True)
            with open(path, "wb") as file:
                file.write(data)
            self.count += 1
            self.bytes += len(data)

    def paths(self):
        return [os.path.join(self.top, name_of(number) + ".class") for number in range(self.count)]


def average_folder(draw, top):
    """A folder to which class files of some 16 KiB each are added."""
    sizes = [AVERAGE + sign * step * 350 for sign in (-1, 1) for step in range(1, TEMPLATES // 2 + 1)]
    return Folder(top, [template(draw, STAND_IN, size) for size in sizes])
