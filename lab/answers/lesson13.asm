; The PC's bytes are taken and answered; the byte after ED sets the lights.
poll:   JNT0 poll
        JT1 poll                ; clock high and data low: the PC asks the keyboard to take a byte
        CALL take
        MOV A,R0
        XRL A,#0EEH
        JZ echo
        MOV A,R0
        MOV R7,A                ; send changes no other register than A, R2, R3 and R4
        MOV R0,#0FAH
        CALL send
        MOV A,R7
        XRL A,#0EDH
        JZ lights
        MOV A,R7
        XRL A,#0FFH
        JNZ poll
        MOV R0,#0AAH
echo:   CALL send
        JMP poll
lights: JNT0 lights
        JT1 lights
        CALL take
        MOV A,R0                ; bits 0, 1 and 2 come to bits 4, 5 and 6; a 0 lights a lamp
        CPL A
        SWAP A
        ORL A,#8FH              ; both wires stay released
        OUTL P2,A
        MOV R0,#0FAH
        JMP echo

; take: takes a byte of the PC's into R0. A and R4 change. After each fall the controller puts the next bit.
take:   MOV R4,#8
        CALL clock
bits:   CLR C
        JNT1 zero
        CPL C
zero:   MOV A,R0
        RRC A                   ; the lowest bit comes first
        MOV R0,A
        CALL clock
        DJNZ R4,bits
        CALL clock              ; the parity has passed, and the controller releases data
        ANL P2,#0FDH            ; the keyboard says that it has the byte
        CALL clock
        ORL P2,#3
        RET
; clock: the clock is low for 16 cycles, and high for 8 and more.
clock:  ANL P2,#0FEH
        MOV R3,#6
low_:   DJNZ R3,low_
        ORL P2,#1
        NOP
        NOP
        NOP
        NOP
        RET

; send: sends the byte in R0, which stays. A, R2, R3 and R4 change.
send:   JNT0 send               ; the controller holds the clock
        JNT1 send
        MOV A,R0                ; parity: the eight bits are folded into one
        MOV R2,A
        SWAP A
        XRL A,R0
        MOV R3,A
        RR A
        RR A
        XRL A,R3
        MOV R3,A
        RR A
        XRL A,R3
        CPL A                   ; 1 if the number of ones is even
        ANL A,#1
        ORL A,#2                ; the stop bit
        MOV R3,A
        MOV R4,#11
        CLR C                   ; the start bit
cell:   JC high
        ANL P2,#0FDH
        JMP fall
high:   ORL P2,#2
        NOP
        NOP
fall:   NOP
        NOP
        ANL P2,#0FEH            ; the clock falls, and the bit is taken
        MOV A,R3                ; the next bit comes into the carry
        RRC A
        MOV R3,A
        MOV A,R2
        RRC A
        MOV R2,A
        NOP
        NOP
        NOP
        NOP
        NOP
        NOP
        NOP
        NOP
        ORL P2,#1               ; it rises 16 cycles later
        DJNZ R4,more
        JMP freed
more:   JNT0 freed              ; the controller pulls it: the byte is broken off
        JMP cell
freed:  ORL P2,#3               ; both wires are released
        MOV A,R4
        JNZ send                ; it was broken off: again
        RET
