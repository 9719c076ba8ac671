# A script of 1,000 rows of elementwise instructions over 1,024 processors, settled and shown.

# The instruction of row i. Each reads what rows before it wrote.
function instruction(i) {
    if (i % 8 == 0) return "u-add-3-1L c a b 32"
    if (i % 8 == 1) return "u-subtract-3-1L a c b 32"
    if (i % 8 == 2) return "logxor-3-1L b a c 32"
    if (i % 8 == 3) return "u-max-3-1L d a b 32"
    if (i % 8 == 4) return "s-lt-1L a d 32"
    if (i % 8 == 5) return "store-test f"
    if (i % 8 == 6) return "u-move-2L a f 32 1"
    return "u-add-carry-3-1L a d c 32"
}

BEGIN {
    print "set S 1024"
    print "field a S 32"
    print "field b S 32"
    print "field c S 32"
    print "field d S 32"
    print "field f S 1"
    print "insert end my-send-address-1L a 32"
    print "insert end u-move-constant-1L b 2654435769 32"
    for (i = 0; i < 998; i++) print "insert end " instruction(i)
    print "settle"
    print "show a end"
    print "show b end"
    print "show c end"
    print "show d end"
}
