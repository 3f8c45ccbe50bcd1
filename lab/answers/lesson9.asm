; After power-on this keyboard sends AA. Its program has a subroutine that sends a byte.
        MOV R0,#0AAH
        CALL send
halt:   JMP halt

; send: sends the byte in R0, which stays. A, R2, R3 and R4 change.
send:   JNT0 send               ; the controller holds the clock
        JNT1 send
        MOV A,R0                ; parity: the eight bits are folded into one
        MOV R2,A
        SWAP A
        XRL A,R0
        MOV R3,A
        RR A
        RR A
        XRL A,R3
        MOV R3,A
        RR A
        XRL A,R3
        CPL A                   ; 1 if the number of ones is even
        ANL A,#1
        ORL A,#2                ; the stop bit
        MOV R3,A
        MOV R4,#11
        CLR C                   ; the start bit
cell:   JC high
        ANL P2,#0FDH
        JMP fall
high:   ORL P2,#2
        NOP
        NOP
fall:   NOP
        NOP
        ANL P2,#0FEH            ; the clock falls, and the bit is taken
        MOV A,R3                ; the next bit comes into the carry
        RRC A
        MOV R3,A
        MOV A,R2
        RRC A
        MOV R2,A
        NOP
        NOP
        NOP
        NOP
        NOP
        NOP
        NOP
        NOP
        ORL P2,#1               ; it rises 16 cycles later
        DJNZ R4,more
        JMP freed
more:   JNT0 freed              ; the controller pulls it: the byte is broken off
        JMP cell
freed:  ORL P2,#3               ; both wires are released
        MOV A,R4
        JNZ send                ; it was broken off: again
        RET
