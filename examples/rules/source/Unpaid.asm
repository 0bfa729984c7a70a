# A method that its class hasn't: rule 18, UNRESOLVED.
.class 21 Unpaid
.super java/lang/Object
.method 9 verify ([B)[B
.stack 1
.locals 1
invokestatic Unpaid pay ()V
aload_0
areturn
.end
