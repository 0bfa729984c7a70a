# A class of Java that the library hasn't: rule 17, WHITELIST.
.class 21 Purse
.super java/lang/Object
.method 9 verify ([B)[B
.stack 1
.locals 1
new java/util/ArrayList
pop
aload_0
areturn
.end
