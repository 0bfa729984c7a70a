"""Measures `djvm check` on class files that javac makes of generated sources, for bench/check and bench/rules."""

import os
import random
import shutil

from java_sources import compile_classes
from measuring import beside_hashing, growing

FILES = (500, 1000, 2000)
BATCHES = 4


class Filling:
    """A folder to which class files of another one are moved."""

    def __init__(self, top, store, made):
        self.top, self.store, self.made, self.count, self.bytes = top, store, made, 0, 0

    def paths(self):
        return [os.path.join(self.top, os.path.relpath(path, self.store)) for path in self.made[: self.count]]

    def grow(self, count):
        before, self.count = self.count, count
        for old, new in list(zip(self.made, self.paths()))[before:]:
            self.bytes += os.path.getsize(old)
            os.makedirs(os.path.dirname(new), exist_ok=True)
            os.replace(old, new)


def compiled_classes(checker, scratch, output):
    """Prints the times and peaks of a folder that grows by such class files; whether time and peak of all are as wanted."""
    if shutil.which("javac") is None:
        print("class files made by javac: left out, since there is no javac")
        return True
    store = os.path.join(scratch, "made")
    os.mkdir(store)
    made = compile_classes(random.Random(2), FILES[-1], BATCHES, os.path.join(scratch, "sources"), store)
    sizes = [os.path.getsize(path) for path in made]
    print("class files made by javac, of %d to %d bytes, %d on average" % (min(sizes), max(sizes), sum(sizes) // len(sizes)))
    folder = Filling(os.path.join(scratch, "real"), store, made)
    return beside_hashing(folder, *growing(checker, folder, FILES, output), output)
