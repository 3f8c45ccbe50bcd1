; Asks the controller to pulse the line that resets the machine.
        cpu     8086
        org     100h

        call    room
        mov     al, 0FEh
        out     COMMAND, al
        jmp     $

%include "print.inc"
