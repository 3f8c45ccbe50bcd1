; Four keys in column 0. A key that goes down sends its code, and one that goes up F0 and its code. The last one repeats while it is held.
;
; R0 the byte to be sent, R5 the rows that changed, R6 the place of the row's code, R7 the keys that are down; R1 as R7,
; turned with R5. Cell 20 has the place of the code that repeats, or 0; cell 21 how often the timer overflows before it does.
        MOV R7,#0
        MOV R0,#20H
        MOV @R0,#0
        STRT T                  ; it overflows each 8,192 cycles, which are 20.48 ms
        CLR A
        OUTL P1,A               ; column 0 is selected, and stays so
poll:   JTF tick
scan:   INS A,BUS
        CPL A                   ; a key that is down reads 0
        ANL A,#0FH
        MOV R1,A                ; what is down now
        XRL A,R7
        MOV R5,A                ; what changed
        MOV A,R1
        MOV R7,A
        MOV R6,#bytes
next:   MOV A,R5
        JZ poll
        JB0 row
turn:   MOV A,R5                ; the next row comes to bit 0
        CLR C
        RRC A
        MOV R5,A
        MOV A,R1
        RR A
        MOV R1,A
        INC R6
        JMP next
row:    MOV A,R1
        JB0 down
        MOV R0,#20H
        MOV A,R6
        XRL A,@R0
        JNZ up
        MOV @R0,#0              ; it is the one that repeats
up:     MOV R0,#0F0H            ; the key went up
        CALL send
        JMP code
down:   MOV R0,#20H
        MOV A,R6
        MOV @R0,A
        INC R0
        MOV @R0,#25             ; half a second
code:   MOV A,R6
        MOVP A,@A
        MOV R0,A
        CALL send
        JMP turn
tick:   MOV R0,#20H
        MOV A,@R0
        JZ scan
        INC R0
        MOV A,@R0
        DEC A
        MOV @R0,A
        JNZ scan
        MOV @R0,#5              ; a tenth of a second
        DEC R0
        MOV A,@R0
        MOVP A,@A
        MOV R0,A
        CALL send
        JMP scan
bytes:  DB 1CH,32H,21H,23H      ; a, b, c, d

; send: sends the byte in R0, which stays. A, R2, R3 and R4 change.
send:   JNT0 send               ; the controller holds the clock
        JNT1 send
        MOV A,R0                ; parity: the eight bits are folded into one
        MOV R2,A
        SWAP A
        XRL A,R0
        MOV R3,A
        RR A
        RR A
        XRL A,R3
        MOV R3,A
        RR A
        XRL A,R3
        CPL A                   ; 1 if the number of ones is even
        ANL A,#1
        ORL A,#2                ; the stop bit
        MOV R3,A
        MOV R4,#11
        CLR C                   ; the start bit
cell:   JC high
        ANL P2,#0FDH
        JMP fall
high:   ORL P2,#2
        NOP
        NOP
fall:   NOP
        NOP
        ANL P2,#0FEH            ; the clock falls, and the bit is taken
        MOV A,R3                ; the next bit comes into the carry
        RRC A
        MOV R3,A
        MOV A,R2
        RRC A
        MOV R2,A
        NOP
        NOP
        NOP
        NOP
        NOP
        NOP
        NOP
        NOP
        ORL P2,#1               ; it rises 16 cycles later
        DJNZ R4,more
        JMP freed
more:   JNT0 freed              ; the controller pulls it: the byte is broken off
        JMP cell
freed:  ORL P2,#3               ; both wires are released
        MOV A,R4
        JNZ send                ; it was broken off: again
        RET
