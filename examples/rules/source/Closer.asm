# A method that a garbage collector calls: rule 8, FINALIZER.
.class 21 Closer
.super java/lang/Object
.method 9 verify ([B)[B
.stack 1
.locals 1
aload_0
areturn
.end
.method 4 finalize ()V
.stack 0
.locals 1
return
.end
