.class 21 Price
.super java/lang/Object
.field 9 LIMIT J long 9223372036854775808   # the greatest long is one less
