.class 21 Price
.super java/lang/Object
.method 9 half (I)I
.stack 2
.locals 1
    iload_0
    iconst_2
    idiv now                    # `idiv` has no operand, so `now` may not stand here
    goto Out                    # there is no label Out, which isn't asked yet
.end
