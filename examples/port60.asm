; port60: shows in hex each byte that port 60h gives, until Escape goes up. For DOS, on a PC/AT or a later one.
;
; A key gives a byte when it goes down, and the same byte with the highest bit when it goes up: 1E and 9E are the A.
; IRQ 1 is masked meanwhile, so that the BIOS takes no byte. To keep them in a file: port60 >bytes.txt
;
; Assembled by: nasm -f bin -o port60.com port60.asm

        cpu     8086
        org     100h

MASK    equ     21h             ; the interrupt controller's mask: bit 1 is IRQ 1
DATA    equ     60h             ; the keyboard controller: its byte
STATUS  equ     64h             ; and its status: bit 0, a byte waits
ESCAPE  equ     81h             ; Escape goes up

        cld
        mov     si, title
.title: lodsb
        call    print
        cmp     al, 10
        jne     .title

        in      al, MASK
        push    ax
        or      al, 2
        out     MASK, al

next:   in      al, STATUS
        test    al, 1
        jz      next
        in      al, DATA
        push    ax
        call    hex
        mov     al, ' '
        call    print
        pop     ax
        cmp     al, ESCAPE
        jne     next

        pop     ax
        out     MASK, al
        ret                     ; back to DOS

; Prints the byte in AL as two digits.
hex:    push    ax
        mov     cl, 4
        shr     al, cl
        call    digit
        pop     ax
        and     al, 0Fh
digit:  add     al, '0'
        cmp     al, '9'
        jbe     print
        add     al, 'A' - '9' - 1

; Prints the character in AL.
print:  push    ax
        mov     dl, al
        mov     ah, 2
        int     21h
        pop     ax
        ret

title:  db      "The bytes of port 60h, until Escape.", 13, 10
