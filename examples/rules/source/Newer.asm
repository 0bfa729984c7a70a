# The version of Java 17: rule 2, VERSION.
.class 21 Newer
.version 61 0
.super java/lang/Object
.method 9 verify ([B)[B
.stack 1
.locals 1
aload_0
areturn
.end
