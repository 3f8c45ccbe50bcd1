; A program that reads what it never wrote: cell 20H says which lamp is lit, Num Lock's where it holds 0 and Scroll Lock's
; else, and nobody has set the cell.
        MOV R0,#20H
        MOV @R0,#0
        MOV A,@R0
        JZ num
        ANL P2,#0EFH
        JMP done
num:    ANL P2,#0DFH
done:   JMP done
