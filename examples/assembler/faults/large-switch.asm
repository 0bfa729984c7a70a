.class 21 Price
.super java/lang/Object
.method 9 half (I)I
.stack 2
.locals 1
    iload_0
    lookupswitch 5 Five 3 Three default Three   # the matches don't rise
Five:
    .frame same
    nop
Three:
    .frame same
    iconst_2
    ireturn
.end
