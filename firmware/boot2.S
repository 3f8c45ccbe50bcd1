@ The RP2040's boot block. The chip's ROM copies these 256 bytes from the beginning of the flash memory to its own memory, checks
@ their CRC (firmware/make puts it into the last four), and runs them. They set the flash controller to reads with command 03,
@ which every chip of flash memory has, and go on at the vectors behind this block. After the data sheet, from memory.
    .syntax unified
    .cpu cortex-m0plus
    .thumb
    .section .boot2, "ax"
    .equ SSI, 0x18000000
    ldr r3, =SSI
    movs r1, #0
    str r1, [r3, #0x08]     @ off
    movs r1, #4
    str r1, [r3, #0x14]     @ a quarter of the system's clock
    ldr r1, =0x001F0300     @ 32 bits at once, an address and then data, one wire
    str r1, [r3, #0x00]
    ldr r1, =0x03000218     @ command 03, which has 8 bits; an address of 24
    ldr r0, =SSI + 0xF4
    str r1, [r0]
    movs r1, #0
    str r1, [r3, #0x04]     @ one word a read
    movs r1, #1
    str r1, [r3, #0x08]     @ on
    ldr r0, =0x10000100     @ the vectors
    ldr r1, =0xE000ED08
    str r0, [r1]
    ldm r0!, {r1, r2}
    msr msp, r1
    bx r2
    .ltorg
    .org 252                @ refused if the code is longer
    .word 0                 @ the CRC
