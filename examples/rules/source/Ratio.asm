# A float: rule 12, FLOAT.
.class 21 Ratio
.super java/lang/Object
.method 9 verify ([B)[B
.stack 1
.locals 1
fconst_1
pop
aload_0
areturn
.end
