# A jump that pushes where it came from: rule 13, SUBROUTINE.
.class 21 Subroutine
.version 50 0
.super java/lang/Object
.method 9 verify ([B)[B
.stack 1
.locals 1
jsr NEXT
NEXT:
pop
aload_0
areturn
.end
