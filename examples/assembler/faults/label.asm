.class 21 Price
.super java/lang/Object
.method 9 half (I)I
.stack 2
.locals 1
    iload_0
    iconst_2
    idiv
    goto Out                    # the label is named here, and defined nowhere
.end
