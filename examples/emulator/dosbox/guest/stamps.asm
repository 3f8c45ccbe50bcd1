; Sends the keyboard the bytes that the command line has, each after the answer to the last one. Then polls ports 64h and 60h, and
; prints each byte with the milliseconds since the one before it, until Escape goes up. IRQ 1 is masked meanwhile.
        cpu     8086
        org     100h

PER_MS  equ     1193            ; counts of the timer in a millisecond

        cli
        cld
        in      al, 21h
        push    ax
        or      al, 2
        out     21h, al

; The command line: its length, and pairs of digits with spaces between them.
        mov     si, 81h
.next:  lodsb
        cmp     al, ' '
        je      .next
        jb      .sent
        call    value
        mov     ah, al
        lodsb
        call    value
        mov     cl, 4
        shl     ah, cl
        or      al, ah
        call    room
        out     DATA, al
        call    byte_in
        call    hex
        call    line
        jmp     .next
.sent:

; Timer 2 counts down from 65,536, again and again.
        in      al, 61h
        and     al, 0FCh
        or      al, 1
        out     61h, al
        mov     al, 0B4h
        out     43h, al
        xor     al, al
        out     42h, al
        out     42h, al
        call    count
        mov     bp, ax

.again: xor     si, si          ; DI:SI is the time since the last byte
        xor     di, di
.poll:  call    count
        sub     bp, ax
        add     si, bp
        adc     di, 0
        mov     bp, ax
        in      al, STATUS
        test    al, 1
        jz      .poll
        in      al, DATA
        push    ax
        call    hex
        mov     al, ' '
        call    print
        mov     ax, si
        mov     dx, di
        mov     cx, PER_MS
        div     cx
        call    decimal
        call    line
        pop     ax
        cmp     al, 81h
        jne     .again

        pop     ax
        out     21h, al
        sti
        ret

; The value of a digit.
value:  sub     al, '0'
        cmp     al, 9
        jbe     .done
        sub     al, 'A' - '9' - 1
.done:  ret

; What timer 2 has counted down to, in AX.
count:  mov     al, 80h
        out     43h, al
        in      al, 42h
        mov     ah, al
        in      al, 42h
        xchg    al, ah
        ret

; Prints AX as a decimal number.
decimal:
        mov     bx, 10
        xor     cx, cx
.push:  xor     dx, dx
        div     bx
        push    dx
        inc     cx
        test    ax, ax
        jnz     .push
.pop:   pop     ax
        add     al, '0'
        call    print
        loop    .pop
        ret

%include "print.inc"
