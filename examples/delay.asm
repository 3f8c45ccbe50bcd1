; Waits one millisecond: 400 machine cycles from the first instruction to `done`.
        MOV R2,#99
turn:   NOP
        NOP
        DJNZ R2,turn
        NOP
        NOP
done:   JMP done
