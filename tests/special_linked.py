"""A class that names what stands beside it and above it in each way: each of its bytes is changed in turn, and it is checked beside the
others of its set. What is wanted is what reference.py says; of a third of the sets the rules 1 to 6 hold, so 17 and 18 are judged.
"""

import harness
import resolution_cases
from special_base import by_reference, misjudged, write_classes


def changed(data):
    for at, byte in enumerate(data):
        for by in (1, 255):
            yield at, data[:at] + bytes([(byte + by) % 256]) + data[at + 1 :]


def changes(program, results):
    files = resolution_cases.linked_set()
    with harness.scratch() as folder:
        write_classes(folder, files)
        for at, data in changed(files["A"]):
            write_classes(folder, {"A": data})
            lines = misjudged(program, folder, by_reference(folder))
            if lines:
                results.add("tests/special: a linked class, byte %d changed" % at, ["check", "c"], lines)
                return
    results.add("tests/special: a linked class, each byte changed", [], [])
