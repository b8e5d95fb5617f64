# Smooths the readings of the thermometer, and counts those that no thermometer can give.
        .text
        .globl  smooth
        .type   smooth,@function
        .p2align 5
smooth:
        addi    5,3,40
        cmplwi  0,5,165
        bc      12,1,.Lrefused                  # bt 1,1
        lwz     4,last@sda21(0)
        rlwinm  3,3,6,0,25
        subf    3,4,3
        srawi   3,3,3
        addze   3,3
        add     4,4,3
        stw     4,last@sda21(0)
        b       .Lanswer
.Lrefused:                                      # label 1
        lis     9,errors@ha
        lwz     5,errors@l(9)
        addi    5,5,1
        stw     5,errors@l(9)
        lwz     4,last@sda21(0)
.Lanswer:                                       # label 2
        srawi   3,4,6
        addze   3,3
        blr
        .size   smooth,.-smooth

        .section .sdata,"aw"
        .type   last,@object
        .p2align 2
last:
        .long   1280
        .size   last,.-last

        .comm   errors,4,4
