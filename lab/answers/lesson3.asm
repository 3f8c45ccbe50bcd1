; A keyboard of four keys, which stand in column 0, rows 0 to 3. A press sends one byte, and a release nothing; no key
; repeats, no byte of the PC's is taken. Matrix and wires are polled, and no interrupt is enabled.
;
; R0 the byte to be sent, R2 and R3 what is left of its frame, R4 the cells left, R5 the presses left, R6 the place of
; the next one's byte, R7 the keys that were down.
        MOV R7,#0
        CLR A
        OUTL P1,A               ; column 0 is selected, and stays so
poll:   INS A,BUS
        CPL A                   ; a key that is down reads 0
        ANL A,#0FH
        XCH A,R7                ; R7 is what is down now, A what was down
        CPL A
        ANL A,R7
        MOV R5,A                ; what went down
        MOV R6,#bytes
next:   MOV A,R5
        JZ poll
        CLR C
        RRC A                   ; the lowest row first
        MOV R5,A
        JNC other
        MOV A,R6
        MOVP A,@A
        MOV R0,A
send:   JNT0 send               ; the controller holds the clock
        JNT1 send
        MOV A,R0                ; parity: the eight bits are folded into one
        MOV R2,A
        SWAP A
        XRL A,R0
        MOV R3,A
        RR A
        RR A
        XRL A,R3
        MOV R3,A
        RR A
        XRL A,R3
        CPL A                   ; 1 where the ones are even in number
        ANL A,#1
        ORL A,#2                ; the stop bit stands behind it
        MOV R3,A
        MOV R4,#11
        CLR C                   ; the start bit
cell:   JC high
        ANL P2,#0FDH
        JMP fall
high:   ORL P2,#2
        NOP
        NOP
fall:   NOP
        NOP
        ANL P2,#0FEH            ; the clock falls, and the bit is taken
        MOV A,R3                ; the next bit comes into the carry
        RRC A
        MOV R3,A
        MOV A,R2
        RRC A
        MOV R2,A
        NOP
        NOP
        NOP
        NOP
        NOP
        NOP
        NOP
        NOP
        ORL P2,#1               ; it rises 16 cycles later, and falls again 16 cycles behind that
        DJNZ R4,more
        JMP freed
more:   JNT0 freed              ; the controller pulls it: the byte is broken off
        JMP cell
freed:  ORL P2,#3               ; both wires are released
        MOV A,R4
        JNZ send                ; it was broken off: again
other:  INC R6
        JMP next
bytes:  DB 1CH,32H,21H,23H      ; a, b, c, d
