# A contract with a switch, a handler and frames. The first byte of its input says what to do with the next two:
# 0 adds them, 1 subtracts the second from the first, 2 divides the first by the second; any other is no command.
# It returns one byte. A division by zero returns -1.
.class 31 Shares                        # public, final, and ACC_SUPER as javac sets it
.version 52 0                           # Java 8
.super java/lang/Object
.field 1A ADD I int 0                   # private static final int ADD = 0
.field 1A NAME Ljava/lang/String; string "shares \u20AC"

.method 2 <init> ()V                    # private: nobody makes one
.stack 1
.locals 1
    aload_0
    invokespecial java/lang/Object <init> ()V
    return
.end

.method 9 verify ([B)[B                 # public static; a contract's entry
.stack 4
.locals 2                               # 0 is the input, 1 the answer
    aload_0
    iconst_0
    baload
    tableswitch 0 Add Subtract Divide default Unknown

Add:
    .frame same                         # a frame is that of the instruction after it
    aload_0
    iconst_1
    baload
    aload_0
    iconst_2
    baload
    iadd
    goto Answer

Subtract:
    .frame same
    aload_0
    iconst_1
    baload
    aload_0
    iconst_2
    baload
    isub
    goto Answer

Divide:                                 # from here ..
    .frame same
    aload_0
    iconst_1
    baload
    aload_0
    iconst_2
    baload
    idiv
Divided:                                # .. to here a division by zero is caught
    goto Answer

Unknown:
    .frame same
    new java/lang/IllegalArgumentException
    dup
    ldc string "no such command"
    invokespecial java/lang/IllegalArgumentException <init> (Ljava/lang/String;)V
    athrow

Zero:                                   # the handler begins with the exception as its one operand
    .frame stack1 ref:java/lang/ArithmeticException
    pop
    iconst_m1

Answer:
    .frame stack1 int
    istore_1
    iconst_1
    newarray byte
    dup
    iconst_0
    iload_1
    bastore
    areturn
    .catch java/lang/ArithmeticException Divide Divided Zero
.end
