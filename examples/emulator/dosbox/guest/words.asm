; Prints each word that the BIOS has of the keyboard, INT 16h, until Escape: scan code and character.
        cpu     8086
        org     100h

next:   xor     ah, ah
        int     16h
        push    ax
        mov     al, ah
        call    hex
        pop     ax
        push    ax
        call    hex
        call    line
        pop     ax
        cmp     al, 27
        jne     next
        ret

%include "print.inc"
