# Start code: it belongs to no unit and stands in a foreign range of the layout. It sets the stack pointer and the two
# small-data bases, puts a zero word where the first frame's back chain is, sets LR to the stop point, and enters main.
        .section .start,"ax"
        .globl  _start
        .type   _start,@function
_start:
        lis     1,__stack_end - 16@h
        ori     1,1,__stack_end - 16@l
        lis     2,_SDA2_BASE_@h
        ori     2,2,_SDA2_BASE_@l
        lis     13,_SDA_BASE_@h
        ori     13,13,_SDA_BASE_@l
        li      0,0
        stw     0,0(1)
        lis     0,__stop@h
        ori     0,0,__stop@l
        mtlr    0
        b       main
        .size   _start,.-_start
