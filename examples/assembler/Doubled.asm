# A contract of straight code: it returns two bytes, the input's length and its first byte doubled.
.class 21 Doubled
.super java/lang/Object

.method 9 verify ([B)[B
.stack 5                # the largest number of operands: see the second `baload`
.locals 2               # 0 is the input, 1 the result
    iconst_2
    newarray byte
    astore_1

    aload_1             # result[0] = input.length
    iconst_0
    aload_0
    arraylength
    bastore

    aload_1             # result[1] = input[0] + input[0]
    iconst_1
    aload_0
    iconst_0
    baload
    aload_0
    iconst_0
    baload              # result, 1, input[0], input, 0 were five operands
    iadd
    bastore

    aload_1
    areturn
.end
