# What the heater does next: off, heating, full or faulty.
        .text

# Writes the name of a state where it is another one than the last. A static function.
        .type   announce,@function
        .p2align 5
announce:
        stwu    1,-16(1)                        # allocframe 16
        mflr    0
        stw     0,8(1)
        stw     3,12(1)
        lis     4,last@ha
        lbz     5,last@l(4)
        cmpw    0,3,5
        bc      12,2,.Lsame                     # bt 2,1
        stb     3,last@l(4)
        lis     7,entered@ha
        addi    7,7,entered@l
        rlwinm  8,3,2,0,29
        lwzx    10,7,8
        addi    10,10,1
        stwx    10,7,8
        rlwinm  3,3,3,0,28
        lis     5,names@ha
        addi    5,5,names@l
        lwzx    6,5,3
        addi    5,5,4
        lwzx    4,5,3
        mr      3,6
        bl      write_text
.Lsame:                                         # label 1
        lwz     3,12(1)
        lwz     0,8(1)
        mtlr    0
        addi    1,1,16                          # freeframe 16
        blr
        .size   announce,.-announce

        .globl  next_state
        .type   next_state,@function
        .p2align 5
next_state:
        stwu    1,-16(1)                        # allocframe 16
        mflr    0
        stw     0,8(1)
        lis     9,errors@ha
        lwz     9,errors@l(9)
        cmpwi   7,9,3
        bc      12,29,.Lfaulty                  # bt 29,5
        lwz     5,setpoint@sda21(0)
        cmplwi  0,3,4
        bc      4,0,.Lfaulty                    # bf 0,5
        rlwinm  12,3,2,0,29                     # btbl 3,[1,2,3,4]
        addis   12,12,.Lstates@ha
        lwz     12,.Lstates@l(12)
        mtctr   12
        bctr
.Loff:                                          # label 1
        cmpw    0,4,5
        mfcr    3                               # mfcrbit 3,0
        rlwinm  3,3,1,31,31
        b       .Lnext
.Lheating:                                      # label 2
        lwz     6,hysteresis@sda21(0)
        add     5,5,6
        cmpw    0,4,5
        mfcr    3                               # mfcrbit 3,1
        rlwinm  3,3,2,31,31
        addi    3,3,1
        b       .Lnext
.Lfull:                                         # label 3
        cmpw    0,4,5
        li      3,2                             # imm 3,2
        bc      12,1,.Lnext                     # bt 1,6
        li      3,0                             # imm 3,0
        b       .Lnext
.Lfaulty_state:                                 # label 4
.Lfaulty:                                       # label 5
        li      3,3                             # imm 3,3
.Lnext:                                         # label 6
        lwz     0,8(1)
        mtlr    0
        lwz     1,0(1)                          # freeframe 16
        b       announce                        # bs announce
        .size   next_state,.-next_state

        .section .rodata,"a"
        .type   copyright,@object
copyright:
        .ascii  "(c) the authors"
        .byte   0
        .size   copyright,.-copyright

        .type   __stringlit_1,@object
__stringlit_1:
        .ascii  "off\n"
        .byte   0
        .size   __stringlit_1,.-__stringlit_1

        .type   __stringlit_2,@object
__stringlit_2:
        .ascii  "heating\n"
        .byte   0
        .size   __stringlit_2,.-__stringlit_2

        .type   __stringlit_3,@object
__stringlit_3:
        .ascii  "full\n"
        .byte   0
        .size   __stringlit_3,.-__stringlit_3

        .type   __stringlit_4,@object
__stringlit_4:
        .ascii  "faulty\n"
        .byte   0
        .size   __stringlit_4,.-__stringlit_4

        .type   names,@object
        .p2align 2
names:
        .long   __stringlit_1,4
        .long   __stringlit_2,8
        .long   __stringlit_3,5
        .long   __stringlit_4,7
        .size   names,.-names

        .globl  power
        .type   power,@object
power:
        .byte   0,60,100,0
        .size   power,.-power

# The table of next_state's btbl. It has no name in the dump.
        .p2align 2
.Lstates:
        .long   .Loff,.Lheating,.Lfull,.Lfaulty_state

        .section .sdata2,"a"
        .globl  setpoint
        .type   setpoint,@object
        .p2align 2
setpoint:
        .long   20
        .size   setpoint,.-setpoint

        .globl  hysteresis
        .type   hysteresis,@object
        .p2align 2
hysteresis:
        .long   3
        .size   hysteresis,.-hysteresis

        .data
        .type   last,@object
last:
        .byte   0
        .size   last,.-last

        .bss
        .type   entered,@object
        .p2align 2
entered:
        .space  16
        .size   entered,.-entered

        .comm   errors,4,4
