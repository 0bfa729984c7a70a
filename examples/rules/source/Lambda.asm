# A call site that is linked when it runs: rule 9, DYNAMIC.
.class 21 Lambda
.super java/lang/Object
.method 9 verify ([B)[B
.stack 1
.locals 1
invokedynamic 0 run ()Ljava/lang/Runnable;
pop
aload_0
areturn
.end
