// The programs that the exercises begin with: parts of them, which are the same in each.
import { replaced } from './replaced.js';

/** Sends the byte in R0: the frame of examples/four_keys.asm as a subroutine. */
const SEND = `; send: sends the byte in R0, which stays. A, R2, R3 and R4 change.
send:   JNT0 send               ; the controller holds the clock
        JNT1 send
        MOV A,R0                ; parity: the eight bits are folded into one
        MOV R2,A
        SWAP A
        XRL A,R0
        MOV R3,A
        RR A
        RR A
        XRL A,R3
        MOV R3,A
        RR A
        XRL A,R3
        CPL A                   ; 1 if the number of ones is even
        ANL A,#1
        ORL A,#2                ; the stop bit
        MOV R3,A
        MOV R4,#11
        CLR C                   ; the start bit
cell:   JC high
        ANL P2,#0FDH
        JMP fall
high:   ORL P2,#2
        NOP
        NOP
fall:   NOP
        NOP
        ANL P2,#0FEH            ; the clock falls, and the bit is taken
        MOV A,R3                ; the next bit comes into the carry
        RRC A
        MOV R3,A
        MOV A,R2
        RRC A
        MOV R2,A
        NOP
        NOP
        NOP
        NOP
        NOP
        NOP
        NOP
        NOP
        ORL P2,#1               ; it rises 16 cycles later
        DJNZ R4,more
        JMP freed
more:   JNT0 freed              ; the controller pulls it: the byte is broken off
        JMP cell
freed:  ORL P2,#3               ; both wires are released
        MOV A,R4
        JNZ send                ; it was broken off: again
        RET
`;

/** Takes a byte of the PC's into R0. */
const TAKE = `; take: takes a byte of the PC's into R0. A and R4 change. After each fall the controller puts the next bit.
take:   MOV R4,#8
        CALL clock
bits:   CLR C
        JNT1 zero
        CPL C
zero:   MOV A,R0
        RRC A                   ; the lowest bit comes first
        MOV R0,A
        CALL clock
        DJNZ R4,bits
        CALL clock              ; the parity has passed, and the controller releases data
        ANL P2,#0FDH            ; the keyboard says that it has the byte
        CALL clock
        ORL P2,#3
        RET
; clock: the clock is low for 16 cycles, and high for 8 and more.
clock:  ANL P2,#0FEH
        MOV R3,#6
low_:   DJNZ R3,low_
        ORL P2,#1
        NOP
        NOP
        NOP
        NOP
        RET
`;

/** After power-on nothing is sent. */
export const SILENT = `; After power-on this keyboard sends nothing. Its program has a subroutine that sends a byte.
        MOV R0,#0
halt:   JMP halt

${SEND}`;

/** Four keys, which send when they go down. */
export const MAKES = `; Four keys in column 0. A key that goes down sends its code, and one that goes up nothing.
;
; R0 the byte to be sent, R5 the rows that changed, R6 the place of the row's code, R7 the keys that are down; R1 as R7,
; turned with R5.
        MOV R7,#0
        CLR A
        OUTL P1,A               ; column 0 is selected, and stays so
poll:   INS A,BUS
        CPL A                   ; a key that is down reads 0
        ANL A,#0FH
        MOV R1,A                ; what is down now
        XRL A,R7
        MOV R5,A                ; what changed
        MOV A,R1
        MOV R7,A
        MOV R6,#bytes
next:   MOV A,R5
        JZ poll
        JB0 row
turn:   MOV A,R5                ; the next row comes to bit 0
        CLR C
        RRC A
        MOV R5,A
        MOV A,R1
        RR A
        MOV R1,A
        INC R6
        JMP next
row:    MOV A,R1
        JB0 down
        JMP turn                ; the key went up
down:   MOV A,R6
        MOVP A,@A
        MOV R0,A
        CALL send
        JMP turn
bytes:  DB 1CH,32H,21H,23H      ; a, b, c, d

${SEND}`;

/** No key; the PC's bytes are taken and not answered. */
export const TAKES = `; The PC's bytes are taken, and not answered.
poll:   JNT0 poll
        JT1 poll                ; clock high and data low: the PC asks the keyboard to take a byte
        CALL take
        JMP poll

${TAKE}
${SEND}`;

/** The PC's bytes are taken and answered: EE with EE, each other with FA; after FF the keyboard says AA. */
export const ANSWERS = `; The PC's bytes are taken and answered.
poll:   JNT0 poll
        JT1 poll                ; clock high and data low: the PC asks the keyboard to take a byte
        CALL take
        MOV A,R0
        XRL A,#0EEH
        JZ echo
        MOV A,R0
        MOV R7,A                ; send changes no other register than A, R2, R3 and R4
        MOV R0,#0FAH
        CALL send
        MOV A,R7
        XRL A,#0FFH
        JNZ poll
        MOV R0,#0AAH
echo:   CALL send
        JMP poll

${TAKE}
${SEND}`;

/** Four keys, which send when they go down and when they go up. */
export const BREAKS = replaced(MAKES, [
  ['and one that goes up nothing.', 'and one that goes up F0 and its code.'],
  ['        JMP turn                ; the key went up\n', '        MOV R0,#0F0H            ; the key went up\n        CALL send\n'],
]);

/** Sends the byte in R0 once, for a program that has looked at the wires. */
const SEND_ONCE = replaced(SEND, [
  ['; send: sends the byte in R0, which stays. A, R2, R3 and R4 change.\nsend:   JNT0 send               ; the controller holds the clock\n        JNT1 send\n        MOV A,R0 ',
    '; send: sends the byte in R0, which stays; the wires were free. R4 is 0 after it, or the byte was broken off. A, R2 and R3 change.\nsend:   MOV A,R0 '],
  ['        MOV A,R4\n        JNZ send                ; it was broken off: again\n', ''],
]);

/** A queue of sixteen bytes from the place FIRST on, with registers of bank 1: R2 the place of the next byte, R3 that of the first
    one, R4 how many wait. */
const BEGIN_QUEUE = `        SEL RB1
        MOV R2,#FIRST
        MOV R3,#FIRST
        MOV R4,#0
        SEL RB0
`;
const QUEUE = `; offer: sends the first byte that waits, if the wires are free.
offer:  SEL RB1
        MOV A,R3
        MOV R0,A
        MOV A,R4
        JZ none
        MOV A,@R0
        SEL RB0
        MOV R0,A
        JNT0 poll               ; the controller holds the clock: the keys are read meanwhile
        JNT1 poll
        CALL send
        MOV A,R4
        JNZ poll                ; it was broken off, and waits on
        SEL RB1
        DEC R4
        MOV A,R3
        CALL after
        MOV R3,A
none:   SEL RB0
        JMP poll

; put: puts the byte in A into the queue; if sixteen wait it is lost. In bank 0 nothing but A changes.
put:    SEL RB1
        MOV R5,A
        MOV A,R4
        JB4 full
        MOV A,R2
        MOV R0,A
        MOV A,R5
        MOV @R0,A
        INC R4
        MOV A,R2
        CALL after
        MOV R2,A
full:   SEL RB0
        RET
; after: the place after the one in A; after the last comes the first.
after:  INC A
        ANL A,#0FH
        ORL A,#FIRST
        RET
`;
const PUT_BREAK_AND_CODE = ['        MOV R0,#0F0H            ; the key went up\n        CALL send\n', '        MOV A,#0F0H             ; the key went up\n        CALL put\n'];
const PUT_CODE = ['        MOV R0,A\n        CALL send\n        JMP turn\n', '        CALL put\n        JMP turn\n'];

/** Four keys with a queue. */
const QUEUED_KEYS = replaced(BREAKS, [
  [SEND, ''],
  ['F0 and its code.\n;\n; R0 the byte to be sent, R5', 'F0 and its code.\n; The bytes wait in a queue.\n;\n; R5'],
  ['        MOV R7,#0\n', `FIRST   EQU 20H                 ; the first place of the queue\n        MOV R7,#0\n${BEGIN_QUEUE}`],
  ['        JZ poll\n', '        JZ offer\n'],
  PUT_BREAK_AND_CODE, PUT_CODE,
]);
export const QUEUED = `${QUEUED_KEYS}${QUEUE}
        ORG 100H                ; a conditional jump stays in its page of 256 places
${TAKE}
${SEND_ONCE}`;

/** The codes of the AT's 84 keys, by column; a row each. */
export const AT_CODES = [
  '0E 16 1E 26 25 2E 36 3D', '3E 46 45 4E 55 5D 66 0D', '15 1D 24 2D 2C 35 3C 43', '44 4D 54 5B 14 1C 1B 23',
  '2B 34 33 3B 42 4B 4C 52', '5A 12 1A 22 21 2A 32 31', '3A 41 49 4A 59 11 29 58', '05 06 04 0C 03 0B 83 0A',
  '01 09 76 77 7E 84 6C 75', '7D 7B 6B 73 74 79 69 72', '7A 70 71 7C 00 00 00 00', '00 00 00 00 00 00 00 00',
].map(column => column.split(' '));
const CODE_LINES = AT_CODES.map((column, n) => `        DB ${column.map(code => `0${code}H`).join(',')}${n === 0 ? ' ; column 0' : ''}\n`).join('');

/** The AT's matrix: the keys of one column, which send when they go down. */
export const ONE_COLUMN = `; The keys of the AT. A key that goes down sends its code, and one that goes up nothing. Column 0 alone is read.
;
; R0 the byte to be sent, R1 the cell of the column, R5 the rows that changed, R6 the place of the row's code, R7 the keys that
; are down, turned with R5. The cells 20 to 2B have the keys that were down, a cell for each column.
        MOV R1,#20H
        MOV @R1,#0
poll:   MOV R1,#20H
column: MOV A,R1                ; the low four bits are the column's number
        ANL A,#0FH
        OUTL P1,A
        INS A,BUS
        CPL A                   ; a key that is down reads 0
        XRL A,@R1
        JZ next
        MOV R5,A                ; what changed
        XRL A,@R1
        MOV @R1,A               ; what is down now
        MOV R7,A
        MOV A,R1                ; a column has eight codes
        ANL A,#0FH
        RL A
        RL A
        RL A
        MOV R6,A
row:    MOV A,R5
        JB0 differs
turn:   MOV A,R5                ; the next row comes to bit 0
        CLR C
        RRC A
        MOV R5,A
        JZ next
        MOV A,R7
        RR A
        MOV R7,A
        INC R6
        JMP row
differs: MOV A,R7
        JB0 down
        JMP turn                ; the key went up
down:   MOV A,R6
        MOVP3 A,@A              ; page 3 has the codes
        MOV R0,A
        CALL send
        JMP turn
next:   JMP poll

${SEND}
        ORG 300H
${CODE_LINES}`;

/** All columns. */
export const ALL_COLUMNS = replaced(ONE_COLUMN, [
  [' Column 0 alone is read.', ''],
  ['        MOV R1,#20H\n        MOV @R1,#0\n', '        MOV R1,#20H\nclear:  MOV @R1,#0\n        INC R1\n        MOV A,R1\n        XRL A,#2CH\n        JNZ clear\n'],
  ['next:   JMP poll\n', 'next:   INC R1\n        MOV A,R1\n        XRL A,#2CH              ; after the last column\n        JNZ column\n        JMP poll\n'],
]);

/** All columns, with keys that go up, and a queue. */
export const QUEUED_COLUMNS = replaced(ALL_COLUMNS, [
  [', and one that goes up nothing.', ', and one that goes up F0 and its code.\n; The bytes wait in a queue.'],
  ['; R0 the byte to be sent, R1', '; R1'],
  ['        MOV R1,#20H\nclear:', `FIRST   EQU 30H                 ; the first place of the queue\n${BEGIN_QUEUE}        MOV R1,#20H\nclear:`],
  ['        JMP turn                ; the key went up\n', PUT_BREAK_AND_CODE[1]],
  PUT_CODE,
  ['        JNZ column\n        JMP poll\n', '        JNZ column\n'],
  [SEND, `${QUEUE}\n        ORG 100H                ; a conditional jump stays in its page of 256 places\n${TAKE}\n${SEND_ONCE}`],
]);
