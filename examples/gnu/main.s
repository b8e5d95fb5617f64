# Reads the thermometer in some rounds, and sets the heater.
        .text
        .globl  main
        .type   main,@function
        .p2align 5
main:
        stwu    1,-16(1)                        # allocframe 16
        mflr    0
        stw     0,8(1)
        stw     31,12(1)
        li      31,0                            # imm 31,0
        lis     3,__stringlit_1@ha
        addi    3,3,__stringlit_1@l
        li      4,6                             # imm 4,6
        bl      write_text
.Lround:                                        # label 1
        bl      read_celsius
        lis     12,filter@ha
        lwz     12,filter@l(12)
        mtctr   12
        bctrl
        mr      4,3
        mr      3,31
        bl      next_state
        mr      31,3
        lis     9,power@ha
        addi    9,9,power@l
        lbzx    3,9,31
        bl      set_heater
        lwz     5,rounds_left@sda21(0)
        addi    5,5,-1
        stw     5,rounds_left@sda21(0)
        cmpwi   0,5,0
        bc      4,2,.Lround                     # bf 2,1
        lis     9,errors@ha
        lwz     5,errors@l(9)
        cmpwi   7,5,0
        lis     3,0x600d                        # imm 3,0x600dc0de
        ori     3,3,0xc0de
        bc      4,29,.+8                        # bt 29,2, the far form
        b       .Lfaulty
        b       .Lend
.Lfaulty:                                       # label 2
        lis     3,0x0bad                        # imm 3,0x0bad0000
.Lend:                                          # label 3
        lwz     31,12(1)
        lwz     0,8(1)
        mtlr    0
        addi    1,1,16                          # freeframe 16
        blr
        .size   main,.-main

        .section .rodata,"a"
        .type   copyright,@object
copyright:
        .ascii  "(c) the authors"
        .byte   0
        .size   copyright,.-copyright

        .type   __stringlit_1,@object
__stringlit_1:
        .ascii  "start\n"
        .byte   0
        .size   __stringlit_1,.-__stringlit_1

        .data
        .globl  filter
        .type   filter,@object
        .p2align 2
filter:
        .long   smooth
        .size   filter,.-filter

        .section .sdata,"aw"
        .globl  rounds_left
        .type   rounds_left,@object
        .p2align 2
rounds_left:
        .long   8
        .size   rounds_left,.-rounds_left
