; Eight keys in columns 0 and 1. A key that goes down sends its code, and one that goes up nothing.
;
; R0 the byte to be sent, R5 the rows that changed, R6 the place of the row's code, R7 the keys that are down; R1 as R7,
; turned with R5.
        MOV R7,#0
poll:   MOV A,#1                ; column 1 comes into the high four bits
        OUTL P1,A
        INS A,BUS
        CPL A                   ; a key that is down reads 0
        ANL A,#0FH
        SWAP A
        MOV R1,A
        CLR A                   ; and column 0 into the low four
        OUTL P1,A
        INS A,BUS
        CPL A
        ANL A,#0FH
        ORL A,R1
        MOV R1,A                ; what is down now
        XRL A,R7
        MOV R5,A                ; what changed
        MOV A,R1
        MOV R7,A
        MOV R6,#bytes
next:   MOV A,R5
        JZ poll
        JB0 row
turn:   MOV A,R5                ; the next row comes to bit 0
        CLR C
        RRC A
        MOV R5,A
        MOV A,R1
        RR A
        MOV R1,A
        INC R6
        JMP next
row:    MOV A,R1
        JB0 down
        JMP turn                ; the key went up
down:   MOV A,R6
        MOVP A,@A
        MOV R0,A
        CALL send
        JMP turn
bytes:  DB 1CH,32H,21H,23H      ; a, b, c, d
        DB 24H,2BH,34H,33H      ; e, f, g, h

; send: sends the byte in R0, which stays. A, R2, R3 and R4 change.
send:   JNT0 send               ; the controller holds the clock
        JNT1 send
        MOV A,R0                ; parity: the eight bits are folded into one
        MOV R2,A
        SWAP A
        XRL A,R0
        MOV R3,A
        RR A
        RR A
        XRL A,R3
        MOV R3,A
        RR A
        XRL A,R3
        CPL A                   ; 1 if the number of ones is even
        ANL A,#1
        ORL A,#2                ; the stop bit
        MOV R3,A
        MOV R4,#11
        CLR C                   ; the start bit
cell:   JC high
        ANL P2,#0FDH
        JMP fall
high:   ORL P2,#2
        NOP
        NOP
fall:   NOP
        NOP
        ANL P2,#0FEH            ; the clock falls, and the bit is taken
        MOV A,R3                ; the next bit comes into the carry
        RRC A
        MOV R3,A
        MOV A,R2
        RRC A
        MOV R2,A
        NOP
        NOP
        NOP
        NOP
        NOP
        NOP
        NOP
        NOP
        ORL P2,#1               ; it rises 16 cycles later
        DJNZ R4,more
        JMP freed
more:   JNT0 freed              ; the controller pulls it: the byte is broken off
        JMP cell
freed:  ORL P2,#3               ; both wires are released
        MOV A,R4
        JNZ send                ; it was broken off: again
        RET
