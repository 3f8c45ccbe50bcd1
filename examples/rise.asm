; Does this chip see its wires rise in time? For a chip with two wires, their buffers and the three lights; no matrix.
;
; Again and again each wire is pulled, let go and looked at. Scroll is lit when both pass the kernel's own look, which comes
; two cycles after OUTL; Num when both pass a look one cycle later; Caps two cycles later. A light that is dim passes at times.
; Put the cable in its place, and no PC at its end.
        MOV R2,#0FFH            ; the latch between the looks: a 0 lights
turn:   MOV R3,#0FFH            ; the lights of the next turn

        CALL pull
        OUTL P2,A
        JNT0 later              ; the kernel's own look, at the clock
        CALL pull
        OUTL P2,A
        JNT1 later              ; and at data
        MOV A,R3
        ANL A,#0EFH
        MOV R3,A

later:  CALL pull
        OUTL P2,A
        NOP
        JNT0 latest
        CALL pull
        OUTL P2,A
        NOP
        JNT1 latest
        MOV A,R3
        ANL A,#0DFH
        MOV R3,A

latest: CALL pull
        OUTL P2,A
        NOP
        NOP
        JNT0 done
        CALL pull
        OUTL P2,A
        NOP
        NOP
        JNT1 done
        MOV A,R3
        ANL A,#0BFH
        MOV R3,A

done:   MOV A,R3
        MOV R2,A
        JMP turn

; Pulls both wires for twenty cycles; leaves in A what lets them go.
pull:   MOV A,R2
        ANL A,#0FCH
        OUTL P2,A
        MOV R0,#7
p_low:  DJNZ R0,p_low
        MOV A,R2
        RET
