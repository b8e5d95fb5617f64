# Drivers: foreign code, which no dump describes. The units call it, and declare each of its functions an external.
        .section .driver,"ax"

        .globl  read_celsius
        .type   read_celsius,@function
read_celsius:
        lis     9,0xf000
        lwz     3,0(9)
        blr
        .size   read_celsius,.-read_celsius

        .globl  set_heater
        .type   set_heater,@function
set_heater:
        lis     9,0xf000
        stw     3,4(9)
        blr
        .size   set_heater,.-set_heater

        .globl  write_text
        .type   write_text,@function
write_text:
        lis     9,0xf000
        mtctr   4
        cmplwi  0,4,0
        beq     0,.Lwritten
.Lbyte:
        lbz     5,0(3)
        stw     5,8(9)
        addi    3,3,1
        bdnz    .Lbyte
.Lwritten:
        blr
        .size   write_text,.-write_text
