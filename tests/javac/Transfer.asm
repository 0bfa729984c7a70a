# What javac made of examples/javac/source/accepted/cash/Transfer.java, without its line numbers.
.class 31 cash/Transfer
.super java/lang/Object
.field A checked I

.method 2 <init> ()V
.stack 1
.locals 1
    aload_0
    invokespecial java/lang/Object <init> ()V
    return
.end

.method 9 verify ([B)[B
.stack 7
.locals 6
    new cash/Amounts
    dup
    aload_0
    invokespecial cash/Amounts <init> ([B)V
    astore_1
    iconst_2
    anewarray cash/Rule
    dup
    iconst_0
    new cash/Positive
    dup
    invokespecial cash/Positive <init> ()V
    aastore
    dup
    iconst_1
    new cash/Limited
    dup
    ldc2_w long 100000
    invokespecial cash/Limited <init> (J)V
    aastore
    astore_2
    lconst_0
    lstore_3
    iconst_0
    istore 5
Next:
    .frame full ref:[B ref:cash/Amounts ref:[Lcash/Rule; long int /
    iload 5
    aload_1
    invokevirtual cash/Amounts count ()I
    if_icmpge Sum
    aload_2
    aload_1
    iload 5
    invokevirtual cash/Amounts at (I)I
    invokestatic cash/Transfer check ([Lcash/Rule;I)V
    lload_3
    aload_1
    iload 5
    invokevirtual cash/Amounts at (I)I
    i2l
    ladd
    lstore_3
    iinc 5 1
    goto Next
Sum:
    .frame chop 1
    lload_3
    invokestatic cash/Transfer bytes (J)[B
    areturn
.end

.method A check ([Lcash/Rule;I)V
.stack 4
.locals 7
    .catch any Try Kept Finally
    .catch any Finally Saved Finally
Try:
    aload_0
    astore_2
    aload_2
    arraylength
    istore_3
    iconst_0
    istore 4
Next:
    .frame append ref:[Lcash/Rule; int int
    iload 4
    iload_3
    if_icmpge Kept
    aload_2
    iload 4
    aaload
    astore 5
    aload 5
    iload_1
    invokeinterface cash/Rule holds (I)Z
    ifne Holds
    new java/lang/IllegalStateException
    dup
    new java/lang/StringBuilder
    dup
    invokespecial java/lang/StringBuilder <init> ()V
    ldc string "bad amount "
    invokevirtual java/lang/StringBuilder append (Ljava/lang/String;)Ljava/lang/StringBuilder;
    iload_1
    invokevirtual java/lang/StringBuilder append (I)Ljava/lang/StringBuilder;
    invokevirtual java/lang/StringBuilder toString ()Ljava/lang/String;
    invokespecial java/lang/IllegalStateException <init> (Ljava/lang/String;)V
    athrow
Holds:
    .frame same
    iinc 4 1
    goto Next
Kept:
    .frame chop 3
    getstatic cash/Transfer checked I
    iconst_1
    iadd
    putstatic cash/Transfer checked I
    goto Done
Finally:
    .frame stack1 ref:java/lang/Throwable
    astore 6
Saved:
    getstatic cash/Transfer checked I
    iconst_1
    iadd
    putstatic cash/Transfer checked I
    aload 6
    athrow
Done:
    .frame same
    return
.end

.method A bytes (J)[B
.stack 4
.locals 4
    bipush 8
    newarray byte
    astore_2
    bipush 7
    istore_3
Next:
    .frame append ref:[B int
    iload_3
    iflt Done
    aload_2
    iload_3
    lload_0
    l2i
    i2b
    bastore
    lload_0
    bipush 8
    lshr
    lstore_0
    iinc 3 -1
    goto Next
Done:
    .frame chop 1
    aload_2
    areturn
.end
