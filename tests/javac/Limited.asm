# What javac made of examples/javac/source/accepted/cash/Limited.java, without its line numbers.
.class 30 cash/Limited
.super java/lang/Object
.implements cash/Rule
.field 18 LIMIT I int 100000
.field 12 limit J

.method 0 <init> (J)V
.stack 3
.locals 3
    aload_0
    invokespecial java/lang/Object <init> ()V
    aload_0
    lload_1
    putfield cash/Limited limit J
    return
.end

.method 1 holds (I)Z
.stack 4
.locals 2
    iload_1
    i2l
    aload_0
    getfield cash/Limited limit J
    lcmp
    ifgt No
    iconst_1
    goto Done
No:
    .frame same
    iconst_0
Done:
    .frame stack1 int
    ireturn
.end
