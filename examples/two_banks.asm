; A counter in each bank, for a session of the monitor: R3 of bank 1 counts the turns, R3 of bank 0 counts down to them.
TURNS   EQU 3                   ; a constant, no place
Column  EQU 4
        MOV R3,#TURNS
        MOV A,#Column
        OUTL P1,A
Turn:   SEL RB1
        INC R3
        SEL RB0
        ORL P2,#1
        ANL P2,#0FEH
        DJNZ R3,Turn
        MOV R0,#20H
        MOV @R0,#5AH
rest:   JMP rest
