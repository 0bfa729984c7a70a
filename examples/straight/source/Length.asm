# It tries to return the input's length, which is an int and no array.
.class 21 Length
.super java/lang/Object

.method 9 verify ([B)[B
.stack 1
.locals 1
    aload_0
    arraylength
    areturn             # instruction 2 finds an int where it takes a reference
.end
