; Tests the board before the firmware goes in: lights, wires, rows, and then each key. docs/BOARD.md says what to expect.
;
;   1. Scroll, Num, Caps are lit in turn, half a second each.
;   2. The clock wire is pulled for half a second, then data; nothing is lit.
;   3. For a second Scroll is lit when the clock wire alone followed, Num when data did, Caps when all rows are high.
;   4. From then on the keys: Caps is lit while none is down, Num and Caps while two or more are. When one is down, Scroll is
;      lit, Num blinks once more than the number of its column, and then Caps once more than that of its row.
;
; R2 how many keys are down, R3 the last one's column and R4 its row, both with 1 added; R7 what 3 shows.

SCROLL  EQU 0EFH                ; the latch of port 2: a 0 lights, a 0 in bits 0 and 1 pulls clock and data
NUM     EQU 0DFH
CAPS    EQU 0BFH
NONE    EQU 0FFH

; 1: the lights.
        MOV A,#SCROLL
        CALL half
        MOV A,#NUM
        CALL half
        MOV A,#CAPS
        CALL half

; 2: the wires. R7 loses the bit of a light for what is right.
        MOV R7,#NONE
        MOV A,#0FEH
        CALL half
        JT0 data                ; the clock isn't low
        JNT1 data               ; data is
        MOV A,#NONE
        CALL short
        JNT0 data               ; the clock stays low
        MOV R7,#SCROLL
data:   MOV A,#0FDH
        CALL half
        JT1 rows                ; data isn't low
        JNT0 rows               ; the clock is
        MOV A,#NONE
        CALL short
        JNT1 rows               ; data stays low
        MOV A,R7
        ANL A,#NUM
        MOV R7,A

; The rows, while no column is selected.
rows:   MOV A,#15
        OUTL P1,A
        CALL settle
        INS A,BUS
        CPL A
        JNZ told
        MOV A,R7
        ANL A,#CAPS
        MOV R7,A

; 3: what was found.
told:   MOV A,R7
        CALL half
        CALL wait

; 4: the keys.
keys:   MOV R2,#0
        MOV R0,#12
column: DEC R0
        MOV A,R0
        OUTL P1,A
        CALL settle
        INS A,BUS
        CPL A
        MOV R1,#8
row:    RLC A
        JNC next
        INC R2
        XCH A,R0
        MOV R3,A
        XCH A,R0
        XCH A,R1
        MOV R4,A
        XCH A,R1
next:   DJNZ R1,row
        MOV A,R0
        JNZ column
        INC R3

        MOV A,R2
        JZ no_key
        DEC A
        JZ one
        MOV A,#9FH              ; Num and Caps
        CALL short
        JMP keys
no_key: MOV A,#CAPS
        CALL short
        JMP keys

; One key: its column, its row.
one:    MOV A,#0CFH             ; Scroll and Num
        CALL half
        MOV A,#SCROLL
        CALL half
        DJNZ R3,one
one_row: MOV A,#0AFH            ; Scroll and Caps
        CALL half
        MOV A,#SCROLL
        CALL half
        DJNZ R4,one_row
        MOV A,#SCROLL
        CALL half
        JMP keys

; Puts A to port 2: for half a second, or for some milliseconds.
half:   OUTL P2,A
wait:   MOV R6,#0
w_on:   MOV R5,#0
w_in:   DJNZ R5,w_in
        NOP
        NOP
        DJNZ R6,w_on
        MOV R6,#130
w_more: MOV R5,#0
w_rest: DJNZ R5,w_rest
        DJNZ R6,w_more
        RET
short:  OUTL P2,A
        MOV R6,#4
s_on:   MOV R5,#0
s_in:   DJNZ R5,s_in
        DJNZ R6,s_on
        RET

; Gives a column twenty microseconds.
settle: NOP
        NOP
        NOP
        NOP
        RET
