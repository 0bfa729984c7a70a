# A handler for a stack that is full: rule 11, CATCH.
.class 21 Endless
.super java/lang/Object
.method 9 verify ([B)[B
.stack 1
.locals 1
.catch java/lang/StackOverflowError FROM TO HANDLER
FROM:
aload_0
invokestatic Endless verify ([B)[B
areturn
TO:
HANDLER:
.frame stack1 ref:java/lang/StackOverflowError
pop
aload_0
areturn
.end
