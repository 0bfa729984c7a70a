# An opcode that is left to debuggers: rule 14, BREAKPOINT.
.class 21 Halt
.super java/lang/Object
.method 9 verify ([B)[B
.stack 1
.locals 1
breakpoint
aload_0
areturn
.end
