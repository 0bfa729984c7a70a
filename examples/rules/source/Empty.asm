# A method whose code has no instruction: rule 1, MALFORMED.
.class 21 Empty
.super java/lang/Object
.method 9 verify ([B)[B
.stack 1
.locals 1
.end
