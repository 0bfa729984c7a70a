# A native method: rule 7, NATIVE.
.class 21 Oracle
.super java/lang/Object
.method 9 verify ([B)[B
.stack 1
.locals 1
aload_0
areturn
.end
.abstract 109 rate ()J
