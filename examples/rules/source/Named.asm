# An interface's method with code: rule 16, INTERFACE_CODE.
.class 601 Named
.super java/lang/Object
.method 1 length ()I
.stack 1
.locals 1
iconst_0
ireturn
.end
