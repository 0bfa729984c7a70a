"""The cases straight-* of tests/written: runs of straight code by `djvm verify`, and faults of shape. They were drawn at random, by a program that isn't kept,
and are written down here, since their reports come from a third implementation of runs, which can't be run here.

A case is the name of its class, its input, and its methods: the name, the sizes of the operands and of the local variables, and the instructions."""

from class_files import PUBLIC, STATIC, class_file, code
from instructions import instructions
from written_base import case, pool_of


def run(name, of_class, data, *methods, entry=None, major=52):
    made = [method_of(*each) for each in methods]
    first, *others = [each[0] for each in made]
    pool = pool_of("Code", first, "([B)[B", *others)
    files = {"c/%s.class" % of_class: class_file(of_class, made, major=major, pool=pool), "in": bytes.fromhex(data)}
    case("straight-" + name, files, ["verify", "c", of_class if entry is None else entry, "in"])


def method_of(name, stack, slots, text, flags=PUBLIC | STATIC):
    return (name, "([B)[B", flags, [code(instructions(text), stack, slots)])


run(
    "array-index-out-of-bounds-a",
    "café",
    "1c0080",
    (
        "verify", 7, 1,
        "aconst_null, aload 0, iconst_2, pop, bipush 18, newarray byte, dup, arraylength, pop, bipush 31, newarray byte, pop, pop, "
        "aload_0, dup, astore_0, sipush 1, pop, iconst_0, baload, iconst_4, bastore, arraylength, dup, pop, bipush 27, "
        "newarray byte, sipush -32768, nop, iconst_1, bastore, iconst_0, aload 0, aconst_null, pop, iconst_1, newarray byte, dup, "
        "iconst_0, bipush 26, bastore, areturn",
    ),
)
run(
    "array-index-out-of-bounds-b",
    "A",
    "0080",
    (
        "verify", 4, 9,
        "aload_0, arraylength, istore 8, bipush 97, iconst_0, isub, iconst_5, istore 5, aconst_null, pop, iconst_m1, imul, "
        "sipush -32768, iadd, aload_0, pop, aload_0, nop, pop, sipush 256, istore_3, pop, iconst_3, aconst_null, pop, pop, "
        "iload 5, pop, bipush 49, newarray byte, iload 3, istore_3, bipush 49, baload, pop, sipush 300, newarray byte, sipush 256, "
        "pop, iconst_0, baload, istore 0, iconst_1, newarray byte, dup, iconst_0, iload 3, bastore, areturn",
        0x8,
    ),
)
run(
    "negative-array-size",
    "A",
    "8080016d00",
    (
        "verify", 4, 2,
        "aconst_null, bipush -82, istore_0, iload_0, pop, sipush 256, iconst_m1, sipush -32768, newarray byte, astore_0, pop, "
        "iconst_2, aload_0, arraylength, imul, iconst_5, iadd, aload_0, arraylength, pop, istore 1, pop, iconst_0, iload 1, "
        "bastore, iload 1, aconst_null, aload 0, aload_0, arraylength, pop, iconst_0, baload, aload 0, arraylength, isub, "
        "aconst_null, arraylength, bastore, iload 1, imul, pop, iload_1, bipush 98, ior, aload_0, areturn",
    ),
)
run(
    "null-pointer",
    "A",
    "002f",
    (
        "verify", 12, 1,
        "iconst_4, iconst_0, istore 0, aconst_null, iconst_m1, pop, bipush 37, newarray byte, pop, astore 0, aload_0, iconst_5, "
        "baload, imul, dup, bipush 58, pop, imul, aload_0, aload_0, arraylength, pop, aload 0, iconst_3, pop, iconst_0, baload, "
        "pop, arraylength, isub, aload_0, dup, aconst_null, aconst_null, sipush 1000, aconst_null, aconst_null, pop, arraylength, "
        "dup, iconst_1, newarray byte, dup, iconst_0, bipush -103, bastore, areturn",
        0x29,
    ),
)
run(
    "ok-1-byte-a",
    "A",
    "7f",
    (
        "verify", 5, 5,
        "aload 0, iconst_1, aload_0, pop, pop, iconst_0, baload, bipush -64, ior, istore 4, aload_0, aload 0, bipush 10, pop, "
        "aconst_null, aload_0, areturn",
    ),
)
run(
    "ok-1-byte-alloc-152",
    "café",
    "ff8080ffff80018000010000015effa1",
    (
        "verify", 10, 1,
        "bipush -111, pop, bipush 26, newarray byte, aconst_null, aload_0, dup, aload_0, nop, astore 0, pop, iconst_5, istore_0, "
        "iconst_4, pop, astore 0, sipush 1000, pop, aload_0, iconst_3, pop, bipush 57, newarray byte, aload 0, dup, astore_0, "
        "sipush -32768, pop, iconst_0, baload, iconst_1, newarray byte, dup, iconst_0, bipush -56, bastore, areturn",
    ),
)
run(
    "ok-1-byte-alloc-24-a",
    "café",
    "00007f7f807f807f0101801801ff7f0080ffff7f018001010080c3ff7f80807f804700800b00c6003a7fff800000c3808001015ac17f00ff7f807ff100017f80"
    "89007f00016a008001167fff800180ff807f467f430000ff7fff800100808800c4ff017f90d9ffc801ff01ff01007f80ffff8080000100780101ff010080ff7f"
    "01017f00007f2cffff01017fffff0114807f80007f7f01b6bc7e88ff01ffffff80018080006b0180ffffff80008001ff7f0180ff01007fff0080ff0170007f00"
    "7feb7fba00fff2807f0032ff807f007f8c0000807f7f900001280180ffff012980ba8091017fff6901ffff7fe8b0ff7f3f0001ff017f007fff7f008001000001"
    "ff7f8000ff5d367f3900e81880ffffeb1301ff7f01ffff047fff80567f0000ff017f7f01800194010000ff00",
    ("verify", 5, 1, "aload_0, iconst_1, newarray byte, dup, iconst_0, bipush 119, bastore, areturn"),
)
run(
    "ok-1-byte-alloc-24-b",
    "A",
    "72",
    (
        "verify", 10, 3,
        "sipush 255, aconst_null, pop, aload_0, arraylength, aload_0, aload_0, aload_0, astore_2, aload_0, pop, iconst_m1, "
        "aload 2, iconst_1, newarray byte, dup, iconst_0, bipush -23, bastore, areturn",
    ),
)
run(
    "ok-1-byte-alloc-32880",
    "a/B",
    "7f",
    (
        "verify", 5, 4,
        "sipush 255, bipush -28, iadd, dup, iadd, istore_2, sipush 1000, bipush 75, istore_3, iconst_0, ior, dup, imul, pop, "
        "iload 2, iload_3, pop, sipush 32767, newarray byte, pop, iload 3, isub, dup, ior, istore 0, iload_2, pop, iload_2, "
        "aconst_null, pop, pop, bipush 51, newarray byte, iload_3, pop, iconst_0, baload, iconst_1, newarray byte, dup, iconst_0, "
        "iload 0, bastore, areturn",
    ),
)
run(
    "ok-1-byte-alloc-72",
    "a/B",
    "017fff0000c17f80ff01807fff0081000c8001809c00807f01ff5bbc5c010080ffff800180ff80008001017f007f00ff01ff0000807f0101ff0101f901f50001"
    "0101801aff38ffffffffb43f000101ff010101000100804280007f01ff00ff01ff0180ff5b003c000000ff010000c301007fe04dff4600998001ff7f480000a9"
    "ff6a01be80017f7fff0080ff007f0180008000c4807feb7f01717ffc6e80ff00ff0001b6007f01a4ff01ff6fff010080007f408000800080ff807f7f0000b880"
    "ff00ff80ff80d4150101ff80808d8000ff2600807f7f01807f80010101808002d4017f7fffc6000120000062000000ff7fff7f0100c9a9807f008001808001ff"
    "00ff7f01e300ffff80ff010001ff01808000ff80808001038080ce807f008080010100e57f01ff0130000180",
    (
        "verify", 6, 6,
        "iconst_0, aload_0, arraylength, pop, aload 0, pop, pop, iconst_3, istore_0, iload 0, istore 5, iload 5, iload 5, "
        "istore 5, iconst_3, isub, pop, bipush 31, newarray byte, iconst_0, iconst_1, newarray byte, dup, iconst_0, iload 5, "
        "bastore, areturn",
    ),
)
run(
    "ok-1-byte-alloc-80",
    "A",
    "ff01",
    (
        "verify", 56, 10,
        "aload 0, pop, aload_0, aload_0, pop, dup, pop, astore 7, aload 7, iconst_1, istore_0, iconst_1, pop, iconst_0, baload, "
        "aload 7, pop, iload 0, pop, bipush 38, newarray byte, pop, iconst_1, nop, istore 7, aconst_null, iconst_1, newarray byte, "
        "dup, iconst_0, iload 7, bastore, areturn",
    ),
    (
        "café", 6, 2,
        "aload 0, astore_0, aconst_null, arraylength, sipush -1, sipush -1, istore_1, sipush 0, iload_1, iadd, bipush 12, "
        "iconst_4, iadd, aconst_null, iconst_4, newarray byte, areturn",
    ),
    (
        "g", 6, 4,
        "aload_0, astore 3, aload 0, pop, iconst_5, bipush 10, isub, iconst_1, newarray byte, dup, iconst_0, bipush -126, bastore, "
        "areturn",
    ),
)
run(
    "ok-1-byte-b",
    "A",
    "ab",
    ("verify", 3, 1, "iconst_1, iconst_m1, aload_0, areturn"),
)
run(
    "ok-300-bytes",
    "A",
    "01005a003d00de7f000100017f8080007f7f0100807f00297fffff00007f008001ff807f007f80018b01f6807fb301017f807f3101010108ff007f0001ffffc6"
    "ffff0100ffff7f800180f18001a40101018000ff00ff017f8080000080007f7f00ff017f9900800000807fff7f00807f0180168001807f12016c800144000001"
    "ff80804d80ff00ff0f01000001a07f7f7f000000003180080180ff807f800080006dffff007fd000ffb701e07f007200807fff0180f0808080c67f000101c37f"
    "9101ffffff7f06c2ff7f7f427f807f8080bb7f7f017f0081000180807f01ff7f80ff00017f017f7f01808080ffb11380007f7f017f0000ff7f00007f7f007f00"
    "01100080018000000101b4001a4b8001ffff80807f00c97fca01017f8038ff8000007f010600ff09807d7f80",
    ("verify", 3, 6, "iconst_4, aload_0, astore 5, aload_0, areturn", 0x1009),
)
run(
    "ok-no-bytes",
    "A",
    "",
    ("verify", 1, 1, "aload_0, areturn"),
)
run(
    "ok-null",
    "A",
    "006c",
    (
        "verify", 2, 1,
        "aload_0, aload_0, pop, aload 0, pop, iconst_1, pop, iconst_0, baload, dup, pop, istore_0, iload_0, iconst_3, iadd, "
        "bipush -46, istore 0, iconst_1, iadd, istore_0, iconst_m1, aconst_null, areturn",
    ),
)
run(
    "ok-null-alloc-112",
    "A",
    "7f8001007f7f8080ff8000ffffff017f",
    (
        "verify", 4, 3,
        "iconst_5, aconst_null, astore_0, istore 2, iconst_4, bipush 20, iand, iconst_m1, imul, nop, pop, bipush 27, "
        "newarray byte, aconst_null, pop, iconst_4, pop, bipush 46, newarray byte, astore 1, pop, iload_2, iload 2, aload_0, "
        "areturn",
        0x29,
    ),
    (
        "Verify", 4, 8,
        "aload_0, pop, aconst_null, dup, bipush -8, pop, bipush 32, newarray byte, bipush 35, istore_2, astore 4, aload 4, "
        "aload_0, pop, aload 4, pop, aload 4, nop, arraylength, pop, iconst_0, baload, pop, iconst_0, baload, pop, iload_2, dup, "
        "istore 5, pop, iconst_0, iload 5, bastore, iconst_1, istore 4, iconst_1, newarray byte, dup, iconst_0, iload 4, bastore, "
        "areturn",
    ),
)
run(
    "ok-null-alloc-24",
    "a/B",
    "1a007f8000",
    (
        "verify", 4, 1,
        "iconst_4, istore_0, iload 0, bipush -110, iconst_0, istore 0, imul, iconst_m1, ixor, istore 0, iconst_m1, pop, bipush 4, "
        "newarray byte, arraylength, dup, pop, iconst_5, pop, iload_0, iconst_4, bipush -97, isub, aconst_null, areturn",
    ),
)
run(
    "shape-at-0-a",
    "A",
    "ffd02a80918000017f007f7f7f80df00",
    (
        "verify", 56, 7,
        "bipush 15, sipush 256, pop, pop, bipush 7, newarray byte, aload_0, iconst_0, pop, iconst_0, baload, pop, iconst_0, "
        "baload, dup, iadd, aload 0, sipush 255, aconst_null, aload_0, pop, astore 4, pop, bipush 5, newarray byte, iconst_3, "
        "sipush -1, ixor, baload, pop, iconst_0, baload, iconst_1, newarray byte, dup, iconst_0, bipush -116, bastore, areturn",
    ),
    ("café", 3, 1, "bipush -49, aload 0, pop, aload_0, areturn"),
    (
        "g", 2, 0,
        "iconst_0, aload_0, arraylength, ixor, dup, iand, istore_0, aconst_null, arraylength, istore_0, nop, iload 0, iload_0, "
        "pop, istore 0, bipush 77, pop, iload_0, bipush 122, newarray byte, astore_0, aload_0, arraylength, pop, iconst_2, pop, "
        "bipush 3, newarray byte, astore_0, aconst_null, areturn",
    ),
)
run(
    "shape-at-0-b",
    "A",
    "ff00",
    ("verify", 6, 0, "sipush 256, pop, aconst_null, iconst_4, iconst_1, newarray byte, dup, iconst_0, bipush 58, bastore, areturn"),
)
run(
    "shape-at-0-c",
    "a/B",
    "ff7fff017fff017f3f7f63ff42ffbd01",
    (
        "verify", 6, 1,
        "aload_0, pop, aload 0, aload 0, pop, aconst_null, astore_0, astore 0, sipush 32767, sipush -1, istore_0, iload 0, pop, "
        "bipush 41, newarray byte, iconst_1, newarray byte, dup, iconst_0, iload 0, bastore, areturn",
        0x8,
    ),
    (
        "g", 4, 0,
        "aconst_null, sipush 0, pop, iconst_0, baload, pop, iconst_1, pop, bipush 31, iconst_2, ixor, pop, iconst_m1, bipush -30, "
        "istore_0, dup, istore 0, dup, iand, dup, iadd, bipush -30, istore_0, bipush 72, pop, pop, iconst_0, iload_0, "
        "newarray byte, astore_0, iconst_3, ior, pop, aconst_null, iconst_1, newarray byte, dup, iconst_0, bipush 11, bastore, "
        "areturn",
        0x8,
    ),
    major=50,
)
run(
    "shape-at-0-d",
    "A",
    "8001a2",
    (
        "verify", 52, 0,
        "aload_0, aconst_null, astore_0, aload_0, astore 0, iconst_m1, pop, iconst_0, baload, dup, imul, pop, bipush 6, "
        "newarray byte, bipush 47, pop, iconst_0, istore_0, astore 0, iconst_1, dup, iand, pop, aconst_null, areturn",
        0x29,
    ),
)
run(
    "shape-at-0-e",
    "A",
    "ffaa",
    (
        "verify", 5, 0,
        "sipush 0, bipush -114, iand, pop, bipush 16, newarray byte, aload_0, arraylength, pop, iconst_0, baload, istore 0, "
        "bipush -35, pop, iload_0, newarray byte, dup, pop, iconst_1, istore 0, iconst_1, newarray byte, dup, iconst_0, iload 0, "
        "bastore, areturn",
    ),
)
run(
    "shape-at-1-entry",
    "A",
    "00ff00007f",
    (
        "café", 1, 3,
        "iconst_0, bipush -46, imul, dup, pop, bipush 12, newarray byte, arraylength, imul, dup, pop, pop, iconst_2, dup, "
        "istore_2, aload_0, areturn",
    ),
    (
        "g", 2, 7,
        "iconst_3, aload_0, arraylength, ior, dup, pop, aconst_null, astore 2, aconst_null, astore 4, pop, aload_2, aconst_null, "
        "pop, aconst_null, pop, astore_2, iconst_5, aload 4, astore_2, pop, bipush 16, newarray byte, arraylength, iconst_m1, "
        "imul, aconst_null, arraylength, iadd, dup, iand, bipush 17, istore 4, pop, iconst_4, istore_3, iconst_m1, pop, sipush 1, "
        "newarray byte, areturn",
    ),
)
run(
    "shape-at-10",
    "a/B",
    "8080d10000807f006200787f008080ac",
    ("verify", 2, 1, "aload 0, astore_0, aload_0, dup, arraylength, pop, iconst_0, baload, aconst_null, areturn", 0x29),
    ("Verify", 2, 1, "aload_0, aconst_null, pop, pop, aconst_null, areturn"),
    (
        "café", 3, 4,
        "sipush 32767, pop, iconst_3, aload_0, astore_1, bipush 0, isub, bipush 62, iand, dup, istore 36, iload 3, imul, "
        "bipush -92, istore_3, aconst_null, nop, pop, iload 3, aload_0, areturn",
    ),
)
run(
    "shape-at-12-a",
    "A",
    "01ff01804c",
    ("verify", 8, 2, "aload_0, pop, aload_0, astore 1, nop, sipush 1, aload 1, aload_1, dup, aconst_null, sipush 256, iconst_1, iconst_0"),
)
run(
    "shape-at-12-b",
    "A",
    "29d4",
    (
        "verify", 8, 1,
        "aload 0, aconst_null, aload_0, arraylength, dup, bipush -79, sipush -1, aload_0, pop, pop, aconst_null, aload_0, "
        "arraylength, bipush -48, bastore, pop, bipush 19, newarray byte, iconst_m1, aload_0, areturn",
    ),
    (
        "g", 4, 2,
        "aload_0, aload 0, pop, iconst_1, pop, iconst_0, baload, dup, istore_1, aconst_null, arraylength, iadd, istore_2, "
        "iconst_4, dup, aconst_null, astore_2, pop, bipush 7, newarray byte, aload 2, arraylength, iconst_3, iadd, aload_2, areturn",
    ),
)
run(
    "shape-at-14-shape-at-28",
    "A",
    "ff0080807f7f807f7fffe78000017fff",
    (
        "verify", 52, 3,
        "sipush -1, sipush 1000, iadd, aload_0, arraylength, iand, pop, sipush 255, istore 0, iconst_5, iload_0, pop, aconst_null, "
        "arraylength, ixor, pop, iload_0, istore_2, iconst_0, istore_1, iload 0, istore_2, aconst_null, dup, arraylength, pop, "
        "iconst_0, baload, iconst_4",
    ),
    (
        "f", 7, 1,
        "bipush -91, bipush -38, aconst_null, bipush 121, pop, bipush 21, newarray byte, arraylength, bipush 124, ixor, iconst_3, "
        "newarray byte, aconst_null, aload_0, bipush 118, istore_0, sipush 1, pop, iconst_0, baload, aload_0, areturn",
    ),
)
run(
    "shape-at-17-shape-at-16",
    "A",
    "",
    (
        "verify", 52, 5,
        "iconst_5, istore 2, sipush 1000, iconst_0, iadd, iload_2, ior, bipush 15, iand, aconst_null, astore_0, pop, bipush 22, "
        "newarray byte, aload_0, arraylength, istore 2",
        0x1009,
    ),
    ("f", 2, 1, "iconst_4, dup, ixor, aload_0, nop, arraylength, ixor, aload_0, areturn"),
    (
        "café", 4, 2,
        "aload_0, iconst_3, pop, nop, aconst_null, pop, arraylength, iconst_2, iand, aload_0, astore 0, aload_0, astore 1, "
        "iconst_1, newarray byte, dup, iconst_0, bipush 113, bastore, areturn",
    ),
)
run(
    "shape-at-20-shape-at-23",
    "A",
    "ff",
    (
        "verify", 54, 1,
        "aload_0, aload_0, pop, iconst_3, iconst_1, bipush -125, istore 0, iconst_2, pop, pop, bipush 16, newarray byte, iload_0, "
        "pop, iconst_0, baload, iload_0, imul, iadd, pop, iconst_0, baload, iload_0, aload_0, areturn",
        0x8,
    ),
    (
        "café", 52, 1,
        "bipush -45, aload_0, astore_0, iconst_3, pop, pop, bipush 4, newarray byte, pop, bipush 32, aload_0, arraylength, pop, "
        "iconst_4, iand, bipush -38, ior, aload_0, astore 0, pop, pop",
    ),
    (
        "g", 6, 1,
        "aload_0, aload 0, pop, iconst_3, pop, iconst_0, baload, bipush -105, pop, aload_0, astore_0, bipush -4, imul, istore 0, "
        "iload_0, dup, iand, iload_0, istore_0, iconst_1, istore_0, istore_0, bipush 94, dup, ior, dup, iconst_1, newarray byte, "
        "dup, iconst_0, iload 0, bastore, areturn",
    ),
)
run(
    "shape-at-24",
    "A",
    "d00111ff00",
    (
        "verify", 4, 3,
        "aload 0, aload 0, arraylength, aload_0, aload 0, pop, dup, astore_2, aload_0, astore_0, sipush -32768, pop, iconst_0, "
        "baload, istore_0, aconst_null, astore_1, iconst_1, aload_2, arraylength, pop, bipush 57, newarray byte, astore_2, "
        "aload_0, areturn",
        0x1009,
    ),
)
run(
    "shape-at-25",
    "café",
    "2a7f01ff7fff52017fff018080018001",
    (
        "verify", 4, 3,
        "aload_0, arraylength, istore_2, iload_2, pop, aconst_null, aload_0, aload_0, pop, astore_2, astore 0, bipush 76, "
        "istore 1, aload_2, iconst_2, bipush 14, iconst_1, pop, istore_2, pop, iconst_0, baload, aconst_null, sipush 255, aload_0, "
        "aconst_null, areturn",
    ),
    major=50,
)
run(
    "shape-at-36-entry",
    "A",
    "018001",
    (
        "verify", 6, 10,
        "iconst_m1, aload 0, sipush 1, pop, iconst_0, baload, aload_0, bipush 117, newarray byte, pop, aload_0, pop, arraylength, "
        "iadd, aconst_null, aload_0, pop, iconst_4, newarray byte, arraylength, pop, bipush 43, newarray byte, pop, dup, astore 7, "
        "iconst_0, newarray byte, pop, sipush -1, pop, iconst_0, baload, iand, ixor, aconst_null, astore_3, aload 7, iconst_1, "
        "newarray byte, dup, iconst_0, bipush -71, bastore, areturn",
    ),
    (
        "g", 58, 7,
        "aload_0, aconst_null, arraylength, aload_0, aconst_null, aload 0, astore_3, dup, iconst_4, dup, iadd, pop, sipush 256, "
        "pop, iconst_0, baload, pop, bipush 12, newarray byte, iconst_4, newarray byte, dup, iconst_5, pop, iconst_0, baload, "
        "aconst_null, arraylength, iand, iconst_5, istore 6, aconst_null, astore 0, istore_0, iload_0, baload, aload_0, areturn",
    ),
    (
        "f", 52, 8,
        "aload 0, aload_0, astore_3, dup, arraylength, pop, sipush 255, pop, iconst_0, baload, aload_3, arraylength, istore 7, "
        "pop, bipush 48, newarray byte, bipush -61, pop, iconst_0, baload, sipush 256, iand, dup, pop, aload_0, astore 6, "
        "sipush 1, istore 4, sipush 1, isub, iload 4, newarray byte, areturn",
        0x29,
    ),
    entry="",
)
run(
    "shape-at-4",
    "a/B",
    "7fffff80007f5ea4ff7fc3800100ff76ff7cffffff7f0044ff0000807f7f007f807f7f7fff007fcb7f7fff800115ff7f7f7f807fffa3ffff7f7fff01ff00007f"
    "1d80010000010f80ff7f80ff008095004e00018080016cff01010080ffff71e5008001800103801901cb7f00ff4100a4ffffffff00a3ff7371007f018067007f"
    "010c847f01ff80ff7f00007f807fff0c0001ec7fd3ff807f01007f0080fa7f7f01b78004ffff8001ff010101800080000100010100015eff7f7f808001ff80ff"
    "d0459e00080080807fff7fffff7f0080000101ff80011b0101ff36cd7fffd5018001b47f00807f007f0096017fde397f8000005580ff003cff7f0000017f7f01"
    "d901808080bbd9800001800101c201807f7f8000017f800000807fff017f80ffff007f80800000007fa900da",
    ("verify", 1, 1, "aconst_null, areturn"),
    (
        "f", 6, 4,
        "iconst_1, pop, bipush 22, newarray byte, aconst_null, pop, aconst_null, iconst_2, aload_0, arraylength, bastore, "
        "iconst_0, dup, imul, iconst_m1, istore 3, pop, iconst_0, iload 3, bastore, aload_0, arraylength, bipush -13, aconst_null, "
        "aconst_null, arraylength, pop, iconst_0, baload, iconst_4, istore_0, pop, bipush 15, newarray byte, aconst_null, "
        "astore 0, aload_0, astore 0, iconst_1, baload, iload 3, isub, aconst_null, arraylength, ixor, isub, iconst_1, "
        "newarray byte, dup, iconst_0, iload 3, bastore, areturn",
        0x29,
    ),
    ("Verify", 8, 1, "aload_0, aconst_null, aload_0, dup, aload 28, aload_0, aload_0, areturn", 0x1009),
)
run(
    "shape-at-43",
    "A",
    "",
    (
        "verify", 7, 8,
        "bipush -53, aload_0, aload 0, astore_2, aload_2, iconst_2, dup, pop, bipush -5, iand, aload_0, bipush -96, pop, iconst_0, "
        "baload, iadd, pop, iconst_0, baload, istore 1, bipush 34, pop, iconst_0, baload, istore 7, bipush 95, aconst_null, pop, "
        "bipush 36, pop, aconst_null, iconst_2, newarray byte, dup, iconst_1, iconst_2, iadd, pop, bipush 5, newarray byte, pop, "
        "pop, arraylength, iconst_3",
    ),
)
run(
    "shape-at-43-shape-at-0",
    "A",
    "7f01800101",
    (
        "verify", 5, 0,
        "iconst_3, bipush -108, ixor, istore 0, iconst_m1, aconst_null, astore_0, iconst_0, istore 0, iload 0, ixor, pop, "
        "bipush 16, newarray byte, dup, pop, iload 0, pop, iconst_0, baload, newarray byte, iload_0, pop, arraylength, istore_0, "
        "sipush 255, sipush 255, istore_0, iload_0, istore_0, istore_0, aconst_null, astore_0, aload_0, iconst_1, newarray byte, "
        "dup, iconst_0, bipush -16, bastore, areturn",
        0x1009,
    ),
    (
        "café", 2, 5,
        "aload_0, bipush -67, istore_1, pop, aload_0, iload_1, istore 4, astore_1, iconst_m1, aload 1, arraylength, isub, "
        "iconst_5, pop, bipush 39, newarray byte, arraylength, istore 1, pop, bipush 46, newarray byte, aload_0, pop, aconst_null, "
        "pop, arraylength, istore_0, iconst_0, pop, iconst_2, bipush 7, nop, isub, iload_1, ixor, pop, iload 4, dup, pop, "
        "bipush 48, imul, istore_1, iconst_2, aload_0, areturn",
    ),
    ("g", 4, 1, "iconst_1, newarray byte, dup, iconst_0, bipush -103, bastore, areturn"),
)
run(
    "shape-at-53-shape-at-10",
    "A",
    "0000800100ff00800080ff807f01013687ea807f01017f7f7f7f7f8027ff8080007f66ffc780ff7f00547f80ff807fff4c010100007f23ffff80d600547f00cf"
    "017f80ff018a12ffff80017fff017f807f7f007f1f808051017fd47f64ff7f7f00010180807f01eb0080017f807f0180807f80008080808001ff80ff00ff7f2c"
    "36567f8001ff007f00014c2eff7f2f00ffff807f00390000ff015101018080008001017f5c80ff4c0180007f7e80017f017f017f007ff5ff0000017f01ffd300"
    "3b7f01800000ffff7f018080ff7f00807f7ff100ff7f018700800103800101807f7fff01e980807f80ff01800101d6018000f3807fff88ef000100800101ff80"
    "ffff7f32017f0180010080fff40001d901ffffb67f807f017f80007f6c44807f7fff7f01800100ff80801101",
    ("verify", 5, 4, "iconst_2, dup, imul, iconst_5, iadd, dup, aconst_null, aconst_null, astore_3, iconst_0, pop"),
    (
        "f", 7, 4,
        "bipush -4, dup, aload_0, aload_0, bipush -70, pop, iconst_0, baload, iconst_3, ior, istore_1, iload 1, dup, ixor, pop, "
        "iconst_0, baload, iload_1, aload_0, iconst_2, aload_0, areturn",
    ),
    (
        "g", 4, 1,
        "aload_0, iconst_1, pop, iconst_0, baload, pop, bipush 55, newarray byte, astore_0, aload_0, aconst_null, dup, "
        "aconst_null, arraylength, istore_0, pop, bipush 54, pop, iconst_0, baload, pop, aconst_null, dup, dup, astore_0, "
        "arraylength, pop, iconst_0, baload, baload, dup, ior, pop, bipush 30, newarray byte, bipush -90, aload 0, pop, pop, "
        "iconst_0, baload, aload_0, aload 0, bipush -106, pop, iconst_0, baload, istore_0, iconst_0, iconst_m1, ior, baload, "
        "iconst_4, aload_0, areturn",
        0x29,
    ),
)
run(
    "threshold",
    "A",
    "0a0b",
    ("verify", 1, 1, "sipush 32767, newarray byte, pop, " * 2050 + "aconst_null, areturn"),
)
