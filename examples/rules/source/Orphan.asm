# A class whose superclass is nowhere: rule 6, HIERARCHY.
.class 21 Orphan
.super shop/Parent
.method 9 verify ([B)[B
.stack 1
.locals 1
aload_0
areturn
.end
