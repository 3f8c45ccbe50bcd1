; A program whose last jump is wanting: it lights Scroll Lock's lamp and runs on into its table, whose first byte begins no
; instruction.
        ANL P2,#0EFH
        NOP
bytes:  DB 1,2
