; A boot sector. It closes and opens the gate of A20, and prints whether FFFF:0510 is another byte than 0000:0500. Then it prints
; each word that the BIOS has of the keyboard, INT 16h, until Escape: scan code and character. Then it resets the machine.
        cpu     386
        org     7C00h

        xor     ax, ax
        mov     ds, ax
        mov     ss, ax
        mov     sp, 7C00h
        mov     si, booted
        call    text
        mov     al, 0DDh
        call    gate
        mov     al, 0DFh
        call    gate

next:   xor     ah, ah
        int     16h
        mov     bx, ax
        mov     al, bh
        call    hex
        mov     al, bl
        call    show
        cmp     bx, 011Bh
        jne     next
        call    room
        mov     al, 0FEh
        out     COMMAND, al
        jmp     $

; Writes AL to the output port, and prints 01 if the bytes are one, 00 if they are two.
gate:   mov     dl, al
        call    room
        mov     al, 0D1h
        out     COMMAND, al
        call    room
        mov     al, dl
        out     DATA, al
        call    room
        mov     ax, 0FFFFh
        mov     es, ax
        mov     byte [500h], 0
        mov     byte [es:510h], 1
        mov     al, [500h]
        jmp     show

booted: db      "booted ", 0

%include "serial.inc"
