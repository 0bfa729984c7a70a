# Every method of the library once, 84 of them: `check` finds each. A method here is named for the class whose methods it calls.
.class 21 Library
.super java/lang/Object

.method 9 object ()V
.stack 2
.locals 0
    new java/lang/Object
    dup
    invokespecial java/lang/Object <init> ()V
    pop
    ldc string "text"
    ldc string "text"
    invokevirtual java/lang/Object equals (Ljava/lang/Object;)Z
    pop
    ldc string "text"
    invokevirtual java/lang/Object hashCode ()I
    pop
    ldc string "text"
    invokevirtual java/lang/Object toString ()Ljava/lang/String;
    pop
    return
.end

.method 9 string ()V
.stack 3
.locals 0
    ldc string "text"
    invokevirtual java/lang/String length ()I
    pop
    ldc string "text"
    invokevirtual java/lang/String isEmpty ()Z
    pop
    ldc string "text"
    invokevirtual java/lang/String toString ()Ljava/lang/String;
    pop
    ldc string "text"
    iconst_1
    invokevirtual java/lang/String charAt (I)C
    pop
    ldc string "text"
    ldc string "text"
    invokevirtual java/lang/String equals (Ljava/lang/Object;)Z
    pop
    ldc string "text"
    invokevirtual java/lang/String hashCode ()I
    pop
    ldc string "text"
    ldc string "text"
    invokevirtual java/lang/String compareTo (Ljava/lang/String;)I
    pop
    ldc string "text"
    ldc string "text"
    invokevirtual java/lang/String compareTo (Ljava/lang/Object;)I
    pop
    ldc string "text"
    ldc string "text"
    invokevirtual java/lang/String startsWith (Ljava/lang/String;)Z
    pop
    ldc string "text"
    ldc string "text"
    invokevirtual java/lang/String concat (Ljava/lang/String;)Ljava/lang/String;
    pop
    ldc string "text"
    iconst_1
    invokevirtual java/lang/String substring (I)Ljava/lang/String;
    pop
    ldc string "text"
    iconst_1
    iconst_1
    invokevirtual java/lang/String substring (II)Ljava/lang/String;
    pop
    ldc string "text"
    invokevirtual java/lang/String toCharArray ()[C
    pop
    iconst_1
    newarray char
    invokestatic java/lang/String valueOf ([C)Ljava/lang/String;
    pop
    iconst_1
    invokestatic java/lang/String valueOf (C)Ljava/lang/String;
    pop
    iconst_1
    invokestatic java/lang/String valueOf (I)Ljava/lang/String;
    pop
    lconst_1
    invokestatic java/lang/String valueOf (J)Ljava/lang/String;
    pop
    iconst_1
    invokestatic java/lang/String valueOf (Z)Ljava/lang/String;
    pop
    return
.end

.method 9 stringBuilder ()V
.stack 4
.locals 0
    new java/lang/StringBuilder
    dup
    invokespecial java/lang/StringBuilder <init> ()V
    pop
    new java/lang/StringBuilder
    dup
    ldc string "text"
    invokespecial java/lang/StringBuilder <init> (Ljava/lang/String;)V
    pop
    new java/lang/StringBuilder
    dup
    invokespecial java/lang/StringBuilder <init> ()V
    ldc string "text"
    invokevirtual java/lang/StringBuilder append (Ljava/lang/String;)Ljava/lang/StringBuilder;
    pop
    new java/lang/StringBuilder
    dup
    invokespecial java/lang/StringBuilder <init> ()V
    iconst_1
    invokevirtual java/lang/StringBuilder append (C)Ljava/lang/StringBuilder;
    pop
    new java/lang/StringBuilder
    dup
    invokespecial java/lang/StringBuilder <init> ()V
    iconst_1
    invokevirtual java/lang/StringBuilder append (I)Ljava/lang/StringBuilder;
    pop
    new java/lang/StringBuilder
    dup
    invokespecial java/lang/StringBuilder <init> ()V
    lconst_1
    invokevirtual java/lang/StringBuilder append (J)Ljava/lang/StringBuilder;
    pop
    new java/lang/StringBuilder
    dup
    invokespecial java/lang/StringBuilder <init> ()V
    iconst_1
    invokevirtual java/lang/StringBuilder append (Z)Ljava/lang/StringBuilder;
    pop
    new java/lang/StringBuilder
    dup
    invokespecial java/lang/StringBuilder <init> ()V
    invokevirtual java/lang/StringBuilder length ()I
    pop
    new java/lang/StringBuilder
    dup
    invokespecial java/lang/StringBuilder <init> ()V
    iconst_1
    invokevirtual java/lang/StringBuilder charAt (I)C
    pop
    new java/lang/StringBuilder
    dup
    invokespecial java/lang/StringBuilder <init> ()V
    invokevirtual java/lang/StringBuilder toString ()Ljava/lang/String;
    pop
    return
.end

.method 9 math ()V
.stack 4
.locals 0
    iconst_1
    invokestatic java/lang/Math abs (I)I
    pop
    lconst_1
    invokestatic java/lang/Math abs (J)J
    pop2
    iconst_1
    iconst_1
    invokestatic java/lang/Math max (II)I
    pop
    lconst_1
    lconst_1
    invokestatic java/lang/Math max (JJ)J
    pop2
    iconst_1
    iconst_1
    invokestatic java/lang/Math min (II)I
    pop
    lconst_1
    lconst_1
    invokestatic java/lang/Math min (JJ)J
    pop2
    return
.end

.method 9 system ()V
.stack 5
.locals 0
    ldc string "text"
    invokestatic java/lang/System identityHashCode (Ljava/lang/Object;)I
    pop
    ldc string "text"
    iconst_1
    ldc string "text"
    iconst_1
    iconst_1
    invokestatic java/lang/System arraycopy (Ljava/lang/Object;ILjava/lang/Object;II)V
    return
.end

.method 9 comparable ()V
.stack 2
.locals 0
    ldc string "text"
    ldc string "text"
    invokeinterface java/lang/Comparable compareTo (Ljava/lang/Object;)I
    pop
    return
.end

.method 9 charSequence ()V
.stack 2
.locals 0
    ldc string "text"
    invokeinterface java/lang/CharSequence length ()I
    pop
    ldc string "text"
    iconst_1
    invokeinterface java/lang/CharSequence charAt (I)C
    pop
    ldc string "text"
    invokeinterface java/lang/CharSequence toString ()Ljava/lang/String;
    pop
    return
.end

.method 9 runnable ()V
.stack 1
.locals 0
    aconst_null
    invokeinterface java/lang/Runnable run ()V
    return
.end

.method 9 throwable ()V
.stack 4
.locals 0
    new java/lang/Throwable
    dup
    invokespecial java/lang/Throwable <init> ()V
    pop
    new java/lang/Throwable
    dup
    ldc string "text"
    invokespecial java/lang/Throwable <init> (Ljava/lang/String;)V
    pop
    new java/lang/Throwable
    dup
    ldc string "text"
    aconst_null
    invokespecial java/lang/Throwable <init> (Ljava/lang/String;Ljava/lang/Throwable;)V
    pop
    new java/lang/Throwable
    dup
    invokespecial java/lang/Throwable <init> ()V
    invokevirtual java/lang/Throwable getMessage ()Ljava/lang/String;
    pop
    new java/lang/Throwable
    dup
    invokespecial java/lang/Throwable <init> ()V
    invokevirtual java/lang/Throwable getCause ()Ljava/lang/Throwable;
    pop
    return
.end

.method 9 exception ()V
.stack 4
.locals 0
    new java/lang/Exception
    dup
    invokespecial java/lang/Exception <init> ()V
    pop
    new java/lang/Exception
    dup
    ldc string "text"
    invokespecial java/lang/Exception <init> (Ljava/lang/String;)V
    pop
    new java/lang/Exception
    dup
    ldc string "text"
    aconst_null
    invokespecial java/lang/Exception <init> (Ljava/lang/String;Ljava/lang/Throwable;)V
    pop
    return
.end

.method 9 error ()V
.stack 4
.locals 0
    new java/lang/Error
    dup
    invokespecial java/lang/Error <init> ()V
    pop
    new java/lang/Error
    dup
    ldc string "text"
    invokespecial java/lang/Error <init> (Ljava/lang/String;)V
    pop
    new java/lang/Error
    dup
    ldc string "text"
    aconst_null
    invokespecial java/lang/Error <init> (Ljava/lang/String;Ljava/lang/Throwable;)V
    pop
    return
.end

.method 9 runtimeException ()V
.stack 4
.locals 0
    new java/lang/RuntimeException
    dup
    invokespecial java/lang/RuntimeException <init> ()V
    pop
    new java/lang/RuntimeException
    dup
    ldc string "text"
    invokespecial java/lang/RuntimeException <init> (Ljava/lang/String;)V
    pop
    new java/lang/RuntimeException
    dup
    ldc string "text"
    aconst_null
    invokespecial java/lang/RuntimeException <init> (Ljava/lang/String;Ljava/lang/Throwable;)V
    pop
    return
.end

.method 9 arithmeticException ()V
.stack 3
.locals 0
    new java/lang/ArithmeticException
    dup
    invokespecial java/lang/ArithmeticException <init> ()V
    pop
    new java/lang/ArithmeticException
    dup
    ldc string "text"
    invokespecial java/lang/ArithmeticException <init> (Ljava/lang/String;)V
    pop
    return
.end

.method 9 arrayStoreException ()V
.stack 3
.locals 0
    new java/lang/ArrayStoreException
    dup
    invokespecial java/lang/ArrayStoreException <init> ()V
    pop
    new java/lang/ArrayStoreException
    dup
    ldc string "text"
    invokespecial java/lang/ArrayStoreException <init> (Ljava/lang/String;)V
    pop
    return
.end

.method 9 classCastException ()V
.stack 3
.locals 0
    new java/lang/ClassCastException
    dup
    invokespecial java/lang/ClassCastException <init> ()V
    pop
    new java/lang/ClassCastException
    dup
    ldc string "text"
    invokespecial java/lang/ClassCastException <init> (Ljava/lang/String;)V
    pop
    return
.end

.method 9 illegalArgumentException ()V
.stack 4
.locals 0
    new java/lang/IllegalArgumentException
    dup
    invokespecial java/lang/IllegalArgumentException <init> ()V
    pop
    new java/lang/IllegalArgumentException
    dup
    ldc string "text"
    invokespecial java/lang/IllegalArgumentException <init> (Ljava/lang/String;)V
    pop
    new java/lang/IllegalArgumentException
    dup
    ldc string "text"
    aconst_null
    invokespecial java/lang/IllegalArgumentException <init> (Ljava/lang/String;Ljava/lang/Throwable;)V
    pop
    return
.end

.method 9 illegalStateException ()V
.stack 4
.locals 0
    new java/lang/IllegalStateException
    dup
    invokespecial java/lang/IllegalStateException <init> ()V
    pop
    new java/lang/IllegalStateException
    dup
    ldc string "text"
    invokespecial java/lang/IllegalStateException <init> (Ljava/lang/String;)V
    pop
    new java/lang/IllegalStateException
    dup
    ldc string "text"
    aconst_null
    invokespecial java/lang/IllegalStateException <init> (Ljava/lang/String;Ljava/lang/Throwable;)V
    pop
    return
.end

.method 9 indexOutOfBoundsException ()V
.stack 3
.locals 0
    new java/lang/IndexOutOfBoundsException
    dup
    invokespecial java/lang/IndexOutOfBoundsException <init> ()V
    pop
    new java/lang/IndexOutOfBoundsException
    dup
    ldc string "text"
    invokespecial java/lang/IndexOutOfBoundsException <init> (Ljava/lang/String;)V
    pop
    return
.end

.method 9 negativeArraySizeException ()V
.stack 3
.locals 0
    new java/lang/NegativeArraySizeException
    dup
    invokespecial java/lang/NegativeArraySizeException <init> ()V
    pop
    new java/lang/NegativeArraySizeException
    dup
    ldc string "text"
    invokespecial java/lang/NegativeArraySizeException <init> (Ljava/lang/String;)V
    pop
    return
.end

.method 9 nullPointerException ()V
.stack 3
.locals 0
    new java/lang/NullPointerException
    dup
    invokespecial java/lang/NullPointerException <init> ()V
    pop
    new java/lang/NullPointerException
    dup
    ldc string "text"
    invokespecial java/lang/NullPointerException <init> (Ljava/lang/String;)V
    pop
    return
.end

.method 9 unsupportedOperationException ()V
.stack 4
.locals 0
    new java/lang/UnsupportedOperationException
    dup
    invokespecial java/lang/UnsupportedOperationException <init> ()V
    pop
    new java/lang/UnsupportedOperationException
    dup
    ldc string "text"
    invokespecial java/lang/UnsupportedOperationException <init> (Ljava/lang/String;)V
    pop
    new java/lang/UnsupportedOperationException
    dup
    ldc string "text"
    aconst_null
    invokespecial java/lang/UnsupportedOperationException <init> (Ljava/lang/String;Ljava/lang/Throwable;)V
    pop
    return
.end

.method 9 arrayIndexOutOfBoundsException ()V
.stack 3
.locals 0
    new java/lang/ArrayIndexOutOfBoundsException
    dup
    invokespecial java/lang/ArrayIndexOutOfBoundsException <init> ()V
    pop
    new java/lang/ArrayIndexOutOfBoundsException
    dup
    ldc string "text"
    invokespecial java/lang/ArrayIndexOutOfBoundsException <init> (Ljava/lang/String;)V
    pop
    return
.end

.method 9 stringIndexOutOfBoundsException ()V
.stack 3
.locals 0
    new java/lang/StringIndexOutOfBoundsException
    dup
    invokespecial java/lang/StringIndexOutOfBoundsException <init> ()V
    pop
    new java/lang/StringIndexOutOfBoundsException
    dup
    ldc string "text"
    invokespecial java/lang/StringIndexOutOfBoundsException <init> (Ljava/lang/String;)V
    pop
    return
.end
