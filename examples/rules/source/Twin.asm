# A class that lies in its folder twice: rule 5, DUPLICATE.
.class 21 Twin
.super java/lang/Object
.method 9 verify ([B)[B
.stack 1
.locals 1
aload_0
areturn
.end
