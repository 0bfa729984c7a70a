"""Sets in which so many classes declare one method and one field that the program marks these classes, drawn at random, the same in each run.
A class names the members as those of each class and of each interface; what is wanted is what reference.py says.

In a chain of classes few declare the members, so that the nearest one is farther than a short walk. Of the interfaces that have the method most
have a private or a static one, which isn't found. Whether a member is static says which one was found.
"""

import random

import harness
from class_files import A_CLASS, ABSTRACT, AN_INTERFACE, OBJECT, PRIVATE, PUBLIC, STATIC, Pool, class_file
from link_rule_cases import GETFIELD, GETSTATIC, INTERFACE, STATICALLY, VIRTUAL, members
from special_base import by_reference, misjudged, write_classes

# The classes that stand beside the others have both members, and are more than are looked at one by one.
BESIDE = 70
METHODS = [PUBLIC | ABSTRACT, PUBLIC | ABSTRACT | STATIC, PRIVATE | ABSTRACT, PRIVATE | ABSTRACT | STATIC]
FIELDS = [PUBLIC, PUBLIC | STATIC, PRIVATE, PRIVATE | STATIC]

# Of each set how many classes it has, how likely one is below the one before it, every how many of them declare the members (none where that
# is 0), how many interfaces there are, how many of them a class lists at most, and how long the members' names are. Searches are long because of
# a chain, of lists, or of names; the last set has none that is long, so nothing is marked.
SETS = {
    "long chains": (160, 0.99, 11, 20, 1, 1),
    "long lists": (60, 0.3, 0, 150, 30, 1),
    "long names": (60, 0.99, 10, 60, 12, 201),
    "chains and lists": (120, 0.99, 12, 90, 20, 30),
    "no long search": (60, 0.6, 9, 20, 2, 1),
}


class Drawn:
    """A set as it is drawn: its files by the names of their classes."""

    def __init__(self, draw, classes, together, every, faces, listed, length):
        self.draw, self.names = draw, ("m" * length, "f" * length)
        self.faces, self.classes = ["I%d" % number for number in range(faces)], ["C%d" % number for number in range(classes)]
        self.files = {"D%d" % number: self.one("D%d" % number, AN_INTERFACE, True, True) for number in range(BESIDE)}
        self.files |= {name: self.face(number, name) for number, name in enumerate(self.faces)}
        self.files |= {name: self.of_chain(number, name, together, every, listed) for number, name in enumerate(self.classes)}
        self.files["User"] = self.user()

    def face(self, number, name):
        lists = self.draw.sample(self.faces[:number], min(number, self.draw.randrange(2)))
        return self.one(name, AN_INTERFACE, self.draw.random() < 0.6, self.draw.random() < 0.04, lists, METHODS[:1] + METHODS[1:] * 8)

    def of_chain(self, number, name, together, every, listed):
        above = self.classes[number - 1] if number and self.draw.random() < together else OBJECT
        has_members = every and number % every == 0
        # They are static in every second of these classes.
        methods, fields = (flags[number // every % 2 :: 2] if has_members else flags for flags in (METHODS, FIELDS))
        lists = self.draw.sample(self.faces, self.draw.randrange(listed + 1))
        return self.one(name, A_CLASS | ABSTRACT, has_members, has_members, lists, methods, fields, super_name=above)

    def one(self, name, flags, has_method, has_field, interfaces=(), of_methods=METHODS, of_fields=(PUBLIC | STATIC,), **more):
        method, field = self.names
        methods = [(method, "()V", self.draw.choice(of_methods))] if has_method else []
        fields = [(field, "I", self.draw.choice(of_fields))] if has_field else []
        return class_file(name, methods, fields, interfaces, flags=flags, **more)

    def user(self):
        """Names both members of all classes and interfaces but those beside them."""
        pool, named = Pool(), {}
        method, field = "%s " + self.names[0] + " ()V", "%s " + self.names[1] + " I"
        for name in self.classes:
            named["static" + name] = STATICALLY, method % name
            named["virtual" + name] = VIRTUAL, method % name
        for name in self.faces:
            named["face" + name] = INTERFACE, method % name
        for name in self.classes + self.faces:
            named["got" + name] = GETSTATIC, field % name
            named["of" + name] = GETFIELD, field % name
        return class_file("User", members(pool, **named), pool=pool)


def drawn_sets(program, results):
    for name, sizes in SETS.items():
        with harness.scratch() as folder:
            write_classes(folder, Drawn(random.Random(name), *sizes).files)
            lines = misjudged(program, folder, by_reference(folder))
        results.add("tests/special: many declarers, %s" % name, ["check", "c"], lines)
