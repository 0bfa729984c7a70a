# A call of getClass: rule 10, REFLECTION.
.class 21 Mirror
.super java/lang/Object
.method 9 verify ([B)[B
.stack 1
.locals 1
aload_0
invokevirtual java/lang/Object getClass ()Ljava/lang/Class;
pop
aload_0
areturn
.end
