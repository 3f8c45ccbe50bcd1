; The keys of the AT. A key that goes down sends its code, and one that goes up F0 and its code.
; The bytes wait in a queue.
;
; R1 the cell of the column, R5 the rows that changed, R6 the place of the row's code, R7 the keys that
; are down, turned with R5. The cells 20 to 2B have the keys that were down, a cell for each column.
FIRST   EQU 30H                 ; the first place of the queue
        SEL RB1
        MOV R2,#FIRST
        MOV R3,#FIRST
        MOV R4,#0
        SEL RB0
        MOV R1,#20H
clear:  MOV @R1,#0
        INC R1
        MOV A,R1
        XRL A,#2CH
        JNZ clear
poll:   MOV R1,#20H
column: MOV A,R1                ; the low four bits are the column's number
        ANL A,#0FH
        OUTL P1,A
        INS A,BUS
        CPL A                   ; a key that is down reads 0
        XRL A,@R1
        JZ next
        MOV R5,A                ; what changed
        XRL A,@R1
        MOV @R1,A               ; what is down now
        MOV R7,A
        MOV A,R1                ; a column has eight codes
        ANL A,#0FH
        RL A
        RL A
        RL A
        MOV R6,A
row:    MOV A,R5
        JB0 differs
turn:   MOV A,R5                ; the next row comes to bit 0
        CLR C
        RRC A
        MOV R5,A
        JZ next
        MOV A,R7
        RR A
        MOV R7,A
        INC R6
        JMP row
differs: MOV A,R7
        JB0 down
        MOV A,#0F0H             ; the key went up
        CALL put
down:   MOV A,R6
        MOVP3 A,@A              ; page 3 has the codes
        CALL put
        JMP turn
next:   INC R1
        MOV A,R1
        XRL A,#2CH              ; after the last column
        JNZ column

; offer: sends the first byte that waits, if the wires are free.
offer:  SEL RB1
        MOV A,R3
        MOV R0,A
        MOV A,R4
        JZ none
        MOV A,@R0
        SEL RB0
        MOV R0,A
        JNT0 poll               ; the controller holds the clock: the keys are read meanwhile
        JNT1 poll
        CALL send
        MOV A,R4
        JNZ poll                ; it was broken off, and waits on
        SEL RB1
        DEC R4
        MOV A,R3
        CALL after
        MOV R3,A
none:   SEL RB0
        JMP poll

; put: puts the byte in A into the queue; if sixteen wait it is lost. In bank 0 nothing but A changes.
put:    SEL RB1
        MOV R5,A
        MOV A,R4
        JB4 full
        MOV A,R2
        MOV R0,A
        MOV A,R5
        MOV @R0,A
        INC R4
        MOV A,R2
        CALL after
        MOV R2,A
full:   SEL RB0
        RET
; after: the place after the one in A; after the last comes the first.
after:  INC A
        ANL A,#0FH
        ORL A,#FIRST
        RET

; send: sends the byte in R0, which stays; the wires were free. R4 is 0 after it, or the byte was broken off. A, R2 and R3 change.
send:   MOV A,R0                ; parity: the eight bits are folded into one
        MOV R2,A
        SWAP A
        XRL A,R0
        MOV R3,A
        RR A
        RR A
        XRL A,R3
        MOV R3,A
        RR A
        XRL A,R3
        CPL A                   ; 1 if the number of ones is even
        ANL A,#1
        ORL A,#2                ; the stop bit
        MOV R3,A
        MOV R4,#11
        CLR C                   ; the start bit
cell:   JC high
        ANL P2,#0FDH
        JMP fall
high:   ORL P2,#2
        NOP
        NOP
fall:   NOP
        NOP
        ANL P2,#0FEH            ; the clock falls, and the bit is taken
        MOV A,R3                ; the next bit comes into the carry
        RRC A
        MOV R3,A
        MOV A,R2
        RRC A
        MOV R2,A
        NOP
        NOP
        NOP
        NOP
        NOP
        NOP
        NOP
        NOP
        ORL P2,#1               ; it rises 16 cycles later
        DJNZ R4,more
        JMP freed
more:   JNT0 freed              ; the controller pulls it: the byte is broken off
        JMP cell
freed:  ORL P2,#3               ; both wires are released
        RET

        ORG 300H
        DB 00EH,016H,01EH,026H,025H,02EH,036H,03DH ; column 0
        DB 03EH,046H,045H,04EH,055H,05DH,066H,00DH
        DB 015H,01DH,024H,02DH,02CH,035H,03CH,043H
        DB 044H,04DH,054H,05BH,014H,01CH,01BH,023H
        DB 02BH,034H,033H,03BH,042H,04BH,04CH,052H
        DB 05AH,012H,01AH,022H,021H,02AH,032H,031H
        DB 03AH,041H,049H,04AH,059H,011H,029H,058H
        DB 005H,006H,004H,00CH,003H,00BH,083H,00AH
        DB 001H,009H,076H,077H,07EH,084H,06CH,075H
        DB 07DH,07BH,06BH,073H,074H,079H,069H,072H
        DB 07AH,070H,071H,07CH,000H,000H,000H,000H
        DB 000H,000H,000H,000H,000H,000H,000H,000H
