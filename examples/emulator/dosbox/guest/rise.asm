; A byte waits, the controller has a command, and the interrupt's handler reads the byte: the answer follows in the same cycle, so
; the line is up before and after. Prints the bytes that the handler got. The first is the echo, the second the command byte.
        cpu     8086
        org     100h

        mov     ax, 3509h
        int     21h
        push    es
        push    bx
        cli
        mov     dx, handler
        mov     ax, 2509h
        int     21h
        cli
        call    room
        mov     al, 0EEh        ; the keyboard echoes it
        out     DATA, al
.echo:  in      al, STATUS
        test    al, 1
        jz      .echo
        mov     al, 20h         ; the controller shows its command byte
        out     COMMAND, al
        mov     cx, 10000
.later: in      al, STATUS
        loop    .later
        sti
        xor     ax, ax          ; four ticks of the BIOS's clock, 220 ms
        mov     es, ax
        mov     bx, [es:046Ch]
.wait:  mov     ax, [es:046Ch]
        sub     ax, bx
        cmp     ax, 4
        jb      .wait
        pop     dx
        pop     ds
        mov     ax, 2509h
        int     21h
        push    cs
        pop     ds
        mov     si, bytes
.next:  cmp     si, [end]
        jae     .done
        lodsb
        call    hex
        mov     al, ' '
        call    print
        jmp     .next
.done:  ret

handler:
        push    ax
        push    bx
        in      al, DATA
        mov     bx, [cs:end]
        mov     [cs:bx], al
        inc     word [cs:end]
        mov     al, 20h
        out     20h, al
        pop     bx
        pop     ax
        iret

%include "print.inc"

end:    dw      bytes
bytes:
