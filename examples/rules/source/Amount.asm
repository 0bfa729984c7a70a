# A class in a package of the library: rule 4, SANDBOX_PACKAGE.
.class 21 java/money/Amount
.super java/lang/Object
.method 9 verify ([B)[B
.stack 1
.locals 1
aload_0
areturn
.end
