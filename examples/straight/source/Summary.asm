# Three bytes about the input: its length, the sum of its first two bytes, and these two xor.
.class 21 Summary
.super java/lang/Object

.method 9 verify ([B)[B
.stack 5                # the largest number of operands: see `baload` below
.locals 2               # 0 is the input, 1 the result
    iconst_3
    newarray byte       # charged 16 + 8: three bytes are rounded up to eight
    astore_1

    aload_1             # result[0] = input.length
    iconst_0
    aload_0
    arraylength
    bastore

    aload_1             # result[1] = input[0] + input[1]
    iconst_1
    aload_0
    iconst_0
    baload
    aload_0
    iconst_1            # here the five operands are result, 1, input[0], input, 1
    baload              # an input of one byte has no input[1]
    iadd
    bastore             # the low eight bits are stored

    aload_1             # result[2] = input[0] ^ input[1]
    iconst_2
    aload_0
    iconst_0
    baload
    aload_0
    iconst_1
    baload
    ixor
    bastore

    aload_1
    areturn
.end
