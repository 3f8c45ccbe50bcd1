; Four keys in column 0. A key that goes down sends its code, and one that goes up F0 and its code.
; The bytes wait in a queue. The PC's bytes are answered.
;
; R5 the rows that changed, R6 the place of the row's code, R7 the keys that are down; R1 as R7,
; turned with R5.
FIRST   EQU 20H                 ; the first place of the queue
        MOV R7,#0
        SEL RB1
        MOV R2,#FIRST
        MOV R3,#FIRST
        MOV R4,#0
        SEL RB0
        CLR A
        OUTL P1,A               ; column 0 is selected, and stays so
poll:   JNT0 scan
        JT1 scan
        CALL answer             ; clock high and data low: the PC asks the keyboard to take a byte
scan:   INS A,BUS
        CPL A                   ; a key that is down reads 0
        ANL A,#0FH
        MOV R1,A                ; what is down now
        XRL A,R7
        MOV R5,A                ; what changed
        MOV A,R1
        MOV R7,A
        MOV R6,#bytes
next:   MOV A,R5
        JZ offer
        JB0 row
turn:   MOV A,R5                ; the next row comes to bit 0
        CLR C
        RRC A
        MOV R5,A
        MOV A,R1
        RR A
        MOV R1,A
        INC R6
        JMP next
row:    MOV A,R1
        JB0 down
        MOV A,#0F0H             ; the key went up
        CALL put
down:   MOV A,R6
        MOVP A,@A
        CALL put
        JMP turn
bytes:  DB 1CH,32H,21H,23H      ; a, b, c, d

; offer: sends the first byte that waits, if the wires are free.
offer:  SEL RB1
        MOV A,R3
        MOV R0,A
        MOV A,R4
        JZ none
        MOV A,@R0
        SEL RB0
        MOV R0,A
        JNT0 poll               ; the controller holds the clock: the keys are read meanwhile
        JNT1 poll
        CALL send
        MOV A,R4
        JNZ poll                ; it was broken off, and waits on
        CALL keep
        SEL RB1
        DEC R4
        MOV A,R3
        CALL after
        MOV R3,A
none:   SEL RB0
        JMP poll

; put: puts the byte in A into the queue; if sixteen wait it is lost. In bank 0 nothing but A changes.
put:    SEL RB1
        MOV R5,A
        MOV A,R4
        JB4 full
        MOV A,R2
        MOV R0,A
        MOV A,R5
        MOV @R0,A
        INC R4
        MOV A,R2
        CALL after
        MOV R2,A
full:   SEL RB0
        RET
; after: the place after the one in A; after the last comes the first.
after:  INC A
        ANL A,#0FH
        ORL A,#FIRST
        RET

        ORG 100H                ; a conditional jump stays in its page of 256 places
; answer: takes a byte of the PC's and answers it. In bank 0 all but R7 may change.
answer: CALL take
        MOV A,R0
        MOV R5,A
        XRL A,#0FEH
        JZ again
        MOV A,R5
        XRL A,#0EEH
        JZ say                  ; the byte itself
        MOV R0,#0FAH
        CALL say
        MOV A,R5
        XRL A,#0EDH
        JZ lights
        MOV A,R5
        XRL A,#0FFH
        JZ reset
        RET
reset:  SEL RB1                 ; nothing waits but AA
        MOV R4,#0
        MOV A,R2
        MOV R3,A
        SEL RB0
        ORL P2,#70H             ; all lamps are off
        MOV A,#0AAH
        JMP put
lights: JNT0 lights
        JT1 lights
        CALL take
        MOV A,R0                ; bits 0, 1 and 2 come to bits 4, 5 and 6; a 0 lights a lamp
        CPL A
        SWAP A
        ORL A,#8FH              ; both wires stay released
        OUTL P2,A
        MOV R0,#0FAH
        JMP say
again:  MOV R1,#30H
        MOV A,@R1
        MOV R0,A
; say: sends the byte in R0, however often it is broken off.
say:    JNT0 say
        CALL send
        MOV A,R4
        JNZ say
; keep: keeps the byte in R0, which was sent.
keep:   MOV R1,#30H
        MOV A,R0
        MOV @R1,A
        RET

; take: takes a byte of the PC's into R0. A and R4 change. After each fall the controller puts the next bit.
take:   MOV R4,#8
        CALL clock
bits:   CLR C
        JNT1 zero
        CPL C
zero:   MOV A,R0
        RRC A                   ; the lowest bit comes first
        MOV R0,A
        CALL clock
        DJNZ R4,bits
        CALL clock              ; the parity has passed, and the controller releases data
        ANL P2,#0FDH            ; the keyboard says that it has the byte
        CALL clock
        ORL P2,#3
        RET
; clock: the clock is low for 16 cycles, and high for 8 and more.
clock:  ANL P2,#0FEH
        MOV R3,#6
low_:   DJNZ R3,low_
        ORL P2,#1
        NOP
        NOP
        NOP
        NOP
        RET

; send: sends the byte in R0, which stays; the wires were free. R4 is 0 after it, or the byte was broken off. A, R2 and R3 change.
send:   MOV A,R0                ; parity: the eight bits are folded into one
        MOV R2,A
        SWAP A
        XRL A,R0
        MOV R3,A
        RR A
        RR A
        XRL A,R3
        MOV R3,A
        RR A
        XRL A,R3
        CPL A                   ; 1 if the number of ones is even
        ANL A,#1
        ORL A,#2                ; the stop bit
        MOV R3,A
        MOV R4,#11
        CLR C                   ; the start bit
cell:   JC high
        ANL P2,#0FDH
        JMP fall
high:   ORL P2,#2
        NOP
        NOP
fall:   NOP
        NOP
        ANL P2,#0FEH            ; the clock falls, and the bit is taken
        MOV A,R3                ; the next bit comes into the carry
        RRC A
        MOV R3,A
        MOV A,R2
        RRC A
        MOV R2,A
        NOP
        NOP
        NOP
        NOP
        NOP
        NOP
        NOP
        NOP
        ORL P2,#1               ; it rises 16 cycles later
        DJNZ R4,more
        JMP freed
more:   JNT0 freed              ; the controller pulls it: the byte is broken off
        JMP cell
freed:  ORL P2,#3               ; both wires are released
        RET
