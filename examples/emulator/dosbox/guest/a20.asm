; Opens and closes the gate of A20 by the controller's output port, and looks whether FFFF:0500 is another byte than 0000:04F0.
        cpu     8086
        org     100h

        mov     al, 0DFh
        call    show
        mov     al, 0DDh
        call    show
        mov     al, 0DFh

; Writes AL to the output port, and prints it with what the memory does.
show:   push    ax
        push    ax
        call    room
        mov     al, 0D1h
        out     COMMAND, al
        call    room
        pop     ax
        out     DATA, al
        call    room
        xor     bx, bx
        mov     ds, bx
        dec     bx
        mov     es, bx
        mov     byte [ds:04F0h], 1
        mov     byte [es:0500h], 2
        cmp     byte [ds:04F0h], 1
        push    cs
        pop     ds
        mov     si, apart
        je      .found
        mov     si, same
.found: pop     ax
        call    hex
.next:  lodsb
        test    al, al
        jz      line
        call    print
        jmp     .next

apart:  db      " another byte", 0
same:   db      " the same byte", 0

%include "print.inc"
