// A login plugin's loads and stores, as a compiler writes them: a frame, a password's length and bytes, a
// table that is indexed, a lock that is released.
        .text
login:
        stp     x29, x30, [sp, #-32]!
        str     x19, [sp, #16]
        ldr     w1, [x0, #8]
        ldrb    w2, [x0, w1, uxtw]
        ldp     x3, x4, [x0], #16
        ldrsw   x5, [x3, x4, lsl #2]
        ldursh  w6, [x3, #-2]
        ldr     x7, table
        prfm    pldl1keep, [x7, #64]
        strb    w2, [x7, #1]!
        stlur   w2, [x7, #4]
        ldr     x19, [sp, #16]
        ldp     x29, x30, [sp], #32
        ret
table:  .xword  0
