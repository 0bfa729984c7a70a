# Arrays of arrays, made at once: rule 15, MULTI_ARRAY.
.class 21 Grid
.super java/lang/Object
.method 9 verify ([B)[B
.stack 2
.locals 1
iconst_3
iconst_4
multianewarray [[I 2
pop
aload_0
areturn
.end
