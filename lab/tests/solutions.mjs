// Solutions of the lessons, as edits of the answers in lab/answers: `right` ones, which are written in another way, and `wrong` ones,
// each with a form of what the check says first. An edit is a list of replacements, or a whole text. What the first checks accepted
// (`wasAccepted`) is tried in the browsers too.

const NOP = '        NOP\n';
const LOOK = 'more:   JNT0 freed              ; the controller pulls it: the byte is broken off\n', NO_LOOK = `more:   NOP\n${NOP}`;
const WAIT = 'send:   JNT0 send               ; the controller holds the clock\n        JNT1 send\n';
const LOW_NOPS = NOP.repeat(8), PARITY = 'CPL A                   ; 1 where the ones are even in number', STOP = 'ORL A,#2 ';

const FRAME_LOOK = '        JMP freed\nmore:   JNT0 freed              ; the controller pulls it: the byte is broken off\n', NO_FRAME_LOOK = `        JMP freed\n${NO_LOOK}`;
const NO_LOOK_IN_FRAME = { edit: [[FRAME_LOOK, NO_FRAME_LOOK]], says: /the PC (writes to its keyboard controller|switches the keyboard off)/ };
const NO_WAIT = { edit: [[WAIT, 'send:   NOP\n']], says: /switches the keyboard off|asks the keyboard|INT 09h is masked/ };
const NO_WAIT_FOR_CLOCK = { edit: [[WAIT, 'send:   JNT1 send\n']], says: /switches the keyboard off|INT 09h is masked|data for the last clock/ };
const NO_WAIT_FOR_DATA = { edit: [[WAIT, 'send:   JNT0 send               ; the controller holds the clock\n']], says: /asks the keyboard to take a byte/ };
const TWO_TRIES = { edit: [['send:   JNT0 send ', '        MOV R1,#2\nsend:   JNT0 send '], ['        JNZ send ', '        JZ sent\n        DJNZ R1,send\nsent:   NOP ']], says: /writes to its keyboard controller 40 times/ };
const FIFTEEN_WAIT = { edit: [['        JB4 full\n', '        XRL A,#15\n        JZ full\n']], says: /masked/ };
const ANY_WAIT = { edit: [['        JB4 full\n', '']], says: /masked/ };
const likeIn = (named, mask) => ({ edit: [[`        XRL A,#0${named}H\n`, `        XRL A,#0${named}H\n        ANL A,#0${mask}H\n`]], says: /the PC writes/ });

/** Wrong in each program of four keys, whatever the lesson is about. */
export const ALWAYS_WRONG = [
  { wasAccepted: true, edit: [[LOW_NOPS, '']], says: /cycles from a fall of the clock to the next.*32.*24/s },
  { edit: [[LOOK, NO_LOOK]], says: /the PC writes to its keyboard controller/ },
  { edit: [[WAIT, 'send:   JNT0 send\n']], says: /after the PC has asked|INT 09h is masked/ },
  { edit: [['        XCH A,R7 ', '        MOV R7,A\n        CLR A ']], says: /what the PC reads/ },
];

export const SOLUTIONS = {
  1: {
    right: [
      [['DB 29H', 'DB 00101001B']],
      [['bytes:  DB 29H,32H', 'bytes:  DB 41\n        DB 32H']],
      [['        MOV R7,#0\n        CLR A\n', '        CLR A\n        MOV R7,A\n']],
    ],
    wrong: [
      ...ALWAYS_WRONG,
      { wasAccepted: true, edit: [['DB 29H', 'DB 39H']], says: /bytes on the wires: expected 29, got 39/ },
      { edit: [['DB 29H', 'DB 1CH']], says: /port 39.*port 1E/s },
      { edit: [['DB 29H,32H,21H,23H', 'DB 29H,29H,29H,29H']], says: /key b/ },
      { edit: [['DB 29H,32H,21H,23H', 'DB 29H']], says: /key b/ },
      { edit: [['DB 29H,32H', 'DB 29H,1CH']], says: /key b/ },
      { edit: [['ANL A,#0FH', 'ANL A,#1']], says: /key b/ },
      { edit: [[PARITY, 'NOP ']], says: /the parity bit/ },
      { edit: [['other:  INC R6', 'other:  NOP']], says: /key b/ },
      TWO_TRIES,
    ],
  },
  2: {
    right: [
      [['ANL A,#1FH', 'ANL A,#31']],
      [['DB 1CH,32H,21H,23H,24H', 'DB 1CH,32H\n        DB 21H,23H\n        DB 36']],
      [['CPL A                   ; a key', 'ORL A,#0E0H\n        CPL A                   ; a key'], ['ANL A,#1FH', 'NOP']],
    ],
    wrong: [
      ...ALWAYS_WRONG,
      { wasAccepted: true, edit: [['ANL A,#1FH', 'ANL A,#11H'], ['DB 1CH,32H,21H,23H,24H', 'DB 1CH,32H,24H,24H,24H']], says: /key b/ },
      { edit: [['ANL A,#1FH', 'ANL A,#0FH']], says: /key e/ },
      { edit: [['ANL A,#1FH', 'ANL A,#17H']], says: /key d/ },
      { edit: [['23H,24H', '23H']], says: /key e/ },
      { edit: [['23H,24H', '24H,23H']], says: /key d/ },
      { edit: [['23H,24H', '23H,2CH']], says: /key e/ },
      { edit: [['ANL A,#1FH', 'ANL A,#10H'], ['DB 1CH,32H,21H,23H', 'DB 24H,24H,24H,24H']], says: /key a/ },
      { edit: [['        MOV R5,A                ; what', '        JB4 five\n        JMP five + 1 ; what']], says: /line/ },
    ],
  },
  3: {
    right: [
      [[LOW_NOPS, `        MOV R1,#3\nlate:   DJNZ R1,late\n`]],
      [[LOW_NOPS, '        JMP on1\non1:    JMP on2\non2:    JMP on3\non3:    JMP on4\n'], ['        ORL P2,#1 ', 'on4:    ORL P2,#1 ']],
      [[LOW_NOPS, `        CALL rest\n${NOP}${NOP}        JMP rise\nrest:   RET\n`], ['        ORL P2,#1 ', 'rise:   ORL P2,#1 ']],
    ],
    wrong: [
      ...ALWAYS_WRONG,
      { edit: [[LOW_NOPS, NOP.repeat(4)], ['        JMP cell\n', `${NOP.repeat(4)}        JMP cell\n`]], says: /clock is low in a bit.*16.*12/s },
      { edit: [[LOW_NOPS, NOP.repeat(7)]], says: /32.*31/s },
      { edit: [[LOW_NOPS, NOP.repeat(9)]], says: /32.*33/s },
      { edit: [[LOW_NOPS, NOP.repeat(12)]], says: /32.*36/s },
      { edit: [[LOW_NOPS, NOP.repeat(9)], ['fall:   NOP\n        NOP\n', 'fall:   NOP\n']], says: /clock is low in a bit.*16.*17/s },
      { edit: [['high:   ORL P2,#2\n        NOP\n        NOP\n', 'high:   ORL P2,#2\n']], says: /32.*30/s },
      { edit: [['fall:   NOP\n        NOP\n        ANL P2,#0FEH ', `        ANL P2,#0FEH\n        JMP fell\nfall:   NOP\n        NOP\n        ANL P2,#0FEH\nfell:   NOP `]], says: /\d/ },
    ],
  },
  4: {
    right: ['12 1c f0 1c f0 12', '  12\n1C F0 1C\nF0 12\n', '59 1C F0 1C F0 59\n'],
    wrong: [
      { edit: '1C F0 1C\n', says: /port 2A/ },
      { edit: '12 1C F0 12 F0 1C\n', says: /port 9E.*port AA/s },
      { edit: '12 1C 1C F0 1C F0 12\n', says: /port 9E.*port 1E/s },
      { edit: '12 1C F0 1C\n', says: /port AA/ },
      { edit: '12 F0 12 1C F0 1C\n', says: /what the PC reads/ },
      { edit: '12 1C F0 1C F0 59\n', says: /port AA/ },
      { edit: '58 F0 58 1C F0 1C\n', says: /port 2A/ },
      { edit: '2A 1E 9E AA\n', says: /what the PC reads/ },
      { edit: '', says: /no command/ },
      { edit: '12 1C F0 1C F0 12 nothing', says: /no command/ },
    ],
  },
  5: {
    right: [
      [[LOOK, 'more:   JNT0 off\n'], ['freed:  ORL', 'off:    JMP freed\nfreed:  ORL']],
      [[LOOK, `more:   NOP\n${NOP}        JT0 cell\n        JMP freed\n`], ['        JMP cell\nfreed', 'freed']],
    ],
    wrong: [
      ...ALWAYS_WRONG.filter(it => it.edit[0][0] !== LOOK),
      { edit: [[LOOK, NO_LOOK]], says: /the PC writes to its keyboard controller/ },
      { wasAccepted: true, edit: [[LOOK, NO_LOOK], ['        MOV A,R0                ; parity', '        MOV R1,#100\nlate:   DJNZ R1,late\n        MOV A,R0                ; parity']], says: /the PC writes/ },
      { wasAccepted: true, edit: [[LOOK, NO_LOOK], ['        MOV A,R0                ; parity', '        MOV R1,#200\nlate:   DJNZ R1,late\n        MOV R1,#200\nlater:  DJNZ R1,later\n        MOV A,R0                ; parity']], says: /the PC writes/ },
      { wasAccepted: true, edit: [[LOOK, `${LOOK}${NOP}`]], says: /32.*33/s },
      { wasAccepted: true, edit: [[LOOK, `${LOOK}${NOP.repeat(5)}`]], says: /32.*37/s },
      { edit: [[LOOK, 'more:   JT0 freed\n']], says: /\d/ },
      { edit: [[LOOK, 'more:   JNT1 freed\n']], says: /\d/ },
      { edit: [[LOOK, 'more:   JNT0 other\n']], says: /the PC writes/ },
      { edit: [[LOOK, NO_LOOK], ['        MOV R4,#11\n', '        MOV R4,#11\n        JNT0 freed\n']], says: /the PC writes/ },
      { edit: [['        JNZ send ', '        NOP\n        NOP ']], says: /the PC writes/ },
      TWO_TRIES,
    ],
  },
  6: {
    right: [
      [[PARITY, 'XRL A,#1 ']],
      [[PARITY, 'INC A ']],
    ],
    wrong: [
      ...ALWAYS_WRONG,
      { edit: [[PARITY, 'NOP ']], says: /the parity bit/ },
      { edit: [[PARITY, 'CLR A ']], says: /parity bit/ },
      { edit: [[PARITY, 'MOV A,#1 ']], says: /parity bit/ },
      { edit: [[PARITY, 'NOP '], ['DB 1CH', 'DB 1DH']], says: /\d/ },
      { edit: [[PARITY, 'CPL A\n        CPL A ']], says: /parity bit/ },
      { edit: [[STOP, 'ORL A,#0 ']], says: /stop bit/ },
      { edit: [['        CLR C                   ; the start', '        CLR C\n        CPL C                   ; the start']], says: /start bit/ },
      { edit: [['        RR A\n        XRL A,R3\n        CPL A', '        XRL A,R3\n        CPL A']], says: /parity bit/ },
    ],
  },
  7: {
    right: [
      [['        MOV @R0,#0\n', '        CLR A\n        MOV @R0,A\n']],
      [['        MOV R0,#20H\n        MOV @R0,#0\n', '        MOV R1,#20H\n        MOV @R1,#0\n        MOV R0,#20H\n']],
      [['        MOV R0,#20H\n        MOV @R0,#0\n', '        MOV R0,#7FH\nclear:  MOV @R0,#0\n        DJNZ R0,clear\n        MOV R0,#20H\n']],
    ],
    wrong: [
      { edit: [['        MOV @R0,#0\n', '']], says: /before anything has written it/ },
      { wasAccepted: true, edit: [['        MOV @R0,#0\n', '        MOV A,#0\n']], says: /before anything|never reads/ },
      { edit: [['        MOV @R0,#0\n        MOV A,@R0\n', '        MOV A,#0\n']], says: /it never reads the cell/ },
      { edit: [['        MOV @R0,#0\n        MOV A,@R0\n', '        MOV @R0,#0\n        CLR A\n']], says: /it never reads the cell/ },
      { edit: [['        MOV @R0,#0\n        MOV A,@R0\n', '        MOV A,@R0\n        MOV @R0,#0\n']], says: /before anything|lights/ },
      { edit: [['MOV @R0,#0', 'MOV @R0,#1']], says: /lights 2.*lights 1/s },
      { edit: [['        MOV @R0,#0\n', '        MOV R0,#0\n']], says: /never reads|lights/ },
      { edit: [['        MOV @R0,#0\n', '        MOV @R0,#0\n        MOV R0,#21H\n']], says: /never reads|lights/ },
      { edit: [['        MOV @R0,#0\n', '        MOV @R0,#0\n'], ['num:    ANL P2,#0DFH', 'num:    ANL P2,#0BFH']], says: /lights 2.*lights 4/s },
      { edit: [['        JZ num\n', '        MOV @R0,#0\n        JZ num\n'], ['        MOV @R0,#0\n        MOV A,@R0', '        MOV A,@R0']], says: /before anything|lights/ },
    ],
  },
  8: {
    right: [
      [['01D 398', '01D 399']],
      [['01D 398', '01D 400']],
      [['01D 398\n01E 397\n', '01D 400\n01E 398\n']],
    ],
    wrong: [
      { edit: [['01D 398', '01D 397']], says: /line 2/ },
      { edit: [['01D 398\n', '']], says: /the bound of place 01D.*no line/s },
      { edit: [['01D 398', '01D 401']], says: /at most 400.*401/s },
      { edit: [['01D 398', '01D 9000']], says: /at most 400.*9000/s },
      { edit: 'target 057\n051 2\n', says: /line|no line for this place/ },
      { edit: 'target 01E\n01D 1\n', says: /the target.*057.*01E/s },
      { edit: [['01E 397\n', '']], says: /line 2/ },
      { edit: [['target 057', 'target 058']], says: /line/ },
      { edit: '', says: /line|certificate/ },
      { edit: [['04F 0 32 4', '04F 0 31 4']], says: /line/ },
    ],
  },
  9: {
    right: [
      [['        MOV R0,#0AAH\n', '        MOV A,#0AAH\n        MOV R0,A\n']],
      [['halt:   JMP halt', 'halt:   NOP\n        JMP halt']],
      [['        CALL send\n', '        MOV R7,#200\nlate:   DJNZ R7,late\n        CALL send\n']],
    ],
    wrong: [
      { edit: [['        CALL send\n', '']], says: /port AA.*nothing more/s },
      { edit: [['halt:   JMP halt', 'halt:   CALL send\n        JMP halt']], says: /nothing more.*port AA/s },
      { edit: [['MOV R0,#0AAH', 'MOV R0,#0ABH']], says: /port AA/ },
      { edit: [['        MOV R0,#0AAH\n', '']], says: /port AA|cycles|bit/ },
      { edit: [['halt:   JMP halt\n', '']], says: /\d/ },
      { edit: [[LOW_NOPS, NOP.repeat(6)]], says: /32.*30/s },
      { edit: [['CPL A                   ; 1 if the number of ones is even', 'NOP']], says: /parity bit/ },
      { edit: [['        MOV R4,#11\n', '        MOV R4,#10\n']], says: /frame|bit|port AA/ },
      { edit: [['halt:   JMP halt', 'halt:   DJNZ R6,halt\n        DJNZ R5,halt\n        CALL send\n        JMP halt']], says: /nothing more.*port AA|port AA/s },
      NO_LOOK_IN_FRAME, NO_WAIT, NO_WAIT_FOR_CLOCK, NO_WAIT_FOR_DATA,
    ],
  },
  10: {
    right: [
      [['        JB0 down\n        MOV R0,#0F0H            ; the key went up\n        CALL send\n', '        CPL A\n        JB0 up\n        JMP down\nup:     MOV R0,#0F0H\n        CALL send\n']],
      [['        MOV R0,#0F0H            ; the key went up\n', '        MOV A,#0F0H\n        MOV R0,A\n']],
    ],
    wrong: [
      ...[ALWAYS_WRONG[0], ALWAYS_WRONG[1], ALWAYS_WRONG[2]],
      { edit: [['        CALL send\ndown:', '        CALL send\n        JMP turn\ndown:']], says: /port 9E/ },
      { edit: [['MOV R0,#0F0H', 'MOV R0,#0E0H']], says: /what the PC reads|bytes on the wires/ },
      { edit: [['        MOV R0,#0F0H            ; the key went up\n        CALL send\n', '        MOV R0,#9EH             ; the key went up\n        CALL send\n        JMP turn\n']], says: /what the PC reads|bytes on the wires/ },
      { edit: [['        MOV R0,#0F0H            ; the key went up\n        CALL send\n', '']], says: /port 9E.*port 1E/s },
      { edit: [['        JB0 down\n', '        JMP up\n'], ['        MOV R0,#0F0H ', 'up:     MOV R0,#0F0H ']], says: /port 1E.*port 9E/s },
      { edit: [['        CALL send\ndown:', '        CALL send\n        MOV R6,#bytes\ndown:']], says: /key b/ },
    ],
  },
  11: {
    right: [
      [['        ANL A,#0FH\n        SWAP A\n', '        SWAP A\n        ANL A,#0F0H\n']],
      [['bytes:  DB 1CH,32H,21H,23H      ; a, b, c, d\n        DB 24H,2BH,34H,33H      ; e, f, g, h', 'bytes:  DB 1CH,32H,21H,23H,24H,2BH,34H,33H']],
    ],
    wrong: [
      ALWAYS_WRONG[0], ALWAYS_WRONG[2],
      { edit: [['DB 24H,2BH,34H,33H', 'DB 2BH,24H,34H,33H']], says: /key e/ },
      { edit: [['MOV A,#1 ', 'MOV A,#2 ']], says: /key e/ },
      { edit: [['        SWAP A\n        MOV R1,A', '        MOV R1,A']], says: /key e/ },
      { edit: [['        ORL A,R1\n', '']], says: /key e/ },
      { edit: [['        DB 24H,2BH,34H,33H      ; e, f, g, h\n', '']], says: /key e/ },
      { edit: [['        ANL A,#0FH\n        SWAP A', '        ANL A,#7\n        SWAP A']], says: /key h/ },
      { edit: [['        CLR A                   ; and column 0 into the low four\n        OUTL P1,A\n', '']], says: /key [ae]/ },
      { edit: [[LOOK, NO_LOOK]], says: /the PC writes|the PC switches/ },
    ],
  },
  12: {
    right: [
      [['        XRL A,#0EEH\n        JZ echo\n', '        ADD A,#12H\n        JZ echo\n']],
      [['        XRL A,#0FFH\n        JNZ poll\n', '        CPL A\n        JNZ poll\n']],
    ],
    wrong: [
      { edit: [['        XRL A,#0EEH\n        JZ echo\n', '']], says: /writes EE.*port EE.*port FA/s },
      { edit: [['        XRL A,#0FFH\n        JNZ poll\n', '        JMP poll\n']], says: /writes FF.*port AA/s },
      { edit: [['MOV R0,#0FAH', 'MOV R0,#0EEH']], says: /writes ED.*port FA/s },
      { edit: [['        XRL A,#0FFH\n        JNZ poll\n', '        XRL A,#0FEH\n        JNZ poll\n']], says: /writes FF/ },
      { edit: [['        XRL A,#0FFH\n        JNZ poll\n', '']], says: /writes ED/ },
      { edit: [['        ANL P2,#0FDH            ; the keyboard says that it has the byte\n', '']], says: /data for the last clock.*expected low, got high/ },
      { edit: [['take:   MOV R4,#8', 'take:   MOV R4,#7']], says: /writes EE/ },
      { edit: [['MOV R0,#0AAH', 'MOV R0,#0FAH']], says: /writes FF/ },
      { edit: [[LOW_NOPS, NOP.repeat(7)]], says: /writes EE: the bytes on the wires: expected EE/ },
      likeIn('EE', 'F'), likeIn('EE', 'EF'), NO_LOOK_IN_FRAME, NO_WAIT_FOR_CLOCK, NO_WAIT_FOR_DATA,
    ],
  },
  13: {
    right: [
      [['        CPL A\n        SWAP A\n', '        SWAP A\n        CPL A\n']],
      [['        CPL A\n        SWAP A\n        ORL A,#8FH ', '        SWAP A\n        ANL A,#70H\n        XRL A,#0FFH ']],
    ],
    wrong: [
      { ...ALWAYS_WRONG[0], says: /the bytes on the wires/ },
      { edit: [['        CPL A\n        SWAP A\n', '        SWAP A\n']], says: /lights 0, got port FA, lights 7/ },
      { edit: [['        CPL A\n        SWAP A\n', '        CPL A\n']], says: /lights/ },
      { edit: [['        ORL A,#8FH ', '        NOP ']], says: /./ },
      { edit: [['        ORL A,#8FH ', '        ORL A,#9FH ']], says: /lights 7, got port FA, lights 6/ },
      { edit: [['        MOV A,R0                ; bits', '        MOV A,R0\n        ANL A,#3                ; bits']], says: /lights 7, got port FA, lights 3/ },
      { edit: [['        MOV R0,#0FAH\n        JMP echo\n', '        JMP poll\n']], says: /port FA, lights/ },
      { edit: [['        MOV R0,#0FAH\n        JMP echo\n', '        JMP echo\n']], says: /port FA, lights 0, got/ },
      { edit: [['lights: JNT0 lights\n        JT1 lights\n        CALL take\n        MOV A,R0 ', 'lights: MOV A,R7 ']], says: /lights/ },
      { edit: [['        JZ lights\n', '        NOP\n']], says: /lights 1, got port FA, lights 0|lights/ },
      likeIn('ED', 'F'), likeIn('ED', 'EF'), NO_LOOK_IN_FRAME, NO_WAIT_FOR_CLOCK, NO_WAIT_FOR_DATA,
    ],
  },
  14: {
    right: [
      [['        XRL A,#0FEH\n        JZ again\n', '        ADD A,#2\n        JZ again\n']],
      [['again:  MOV A,R6\n', 'again:  MOV R1,#20H\n        MOV A,@R1\n'], ['        MOV R6,A\n', '        MOV R1,#20H\n        MOV @R1,A\n']],
    ],
    wrong: [
      { ...ALWAYS_WRONG[0], says: /the bytes on the wires/ },
      { edit: [['        JZ again\n', '        NOP\n']], says: /EE and FE: what the PC reads: expected port EE.*got port FA/ },
      { edit: [['again:  MOV A,R6\n        MOV R0,A\n', 'again:  MOV R0,#0EEH\n']], says: /F4, FE/ },
      { edit: [['again:  MOV A,R6\n        MOV R0,A\n        JMP echo\n', 'again:  JMP poll\n']], says: /EE and FE/ },
      { edit: [['echo:   CALL say\n', 'echo:   CALL send\n']], says: /FE/ },
      { edit: [['        MOV R0,#0AAH\n', '        MOV R0,#0AAH\n        CALL send\n        JMP poll\n']], says: /FF, FE.*port AA/ },
      { edit: [['again:  MOV A,R6\n        MOV R0,A\n', 'again:  MOV A,R6\n        MOV R0,A\n        CALL send\n']], says: /EE and FE: what the PC reads/ },
      { edit: [['again:  MOV A,R6\n        MOV R0,A\n', 'again:  MOV R0,#0FEH\n']], says: /EE and FE/ },
      { edit: [['        MOV R6,A\n        JMP send\n', '        CALL send\n        MOV A,R7\n        MOV R6,A\n        RET\n']], says: /FE/ },
      likeIn('FE', 'FD'), NO_LOOK_IN_FRAME, NO_WAIT_FOR_CLOCK, NO_WAIT_FOR_DATA,
    ],
  },
  15: {
    right: [
      [['        JB4 full\n', '        XRL A,#16\n        JZ full\n']],
      [['        MOV R2,#FIRST\n        MOV R3,#FIRST\n', '        MOV R2,#2AH\n        MOV R3,#2AH\n']],
    ],
    wrong: [
      ALWAYS_WRONG[0],
      { edit: [['        ANL A,#0FH\n        ORL A,#FIRST', '        ANL A,#7\n        ORL A,#FIRST']], says: /masked|switches the keyboard off/ },
      { edit: [['        JB4 full\n', '        JB3 full\n']], says: /masked|switches the keyboard off/ },
      { edit: [['        MOV A,R4\n        JNZ poll ', '        NOP ']], says: /the PC (writes|switches)/ },
      { edit: [['        JNT1 poll\n', '']], says: /after the PC has asked/ },
      { edit: [['        DEC R4\n', '        DEC R4\n        DEC R4\n']], says: /./ },
      { edit: [['        INC R4\n', '']], says: /key a/ },
      { edit: [['        MOV R3,#FIRST\n', '        MOV R3,#2FH\n']], says: /key a/ },
      { edit: [['        MOV R4,#0\n', '']], says: /./ },
      { edit: [['        MOV A,#0F0H             ; the key went up\n        CALL put\n', '']], says: /port 9E/ },
      { edit: [['        JNT0 poll ', 'here:   JNT0 here ']], says: /masked|switches/ },
      FIFTEEN_WAIT, ANY_WAIT,
    ],
  },
  16: {
    right: [
      [['MOV @R0,#25 ', 'MOV @R0,#24 ']],
      [['        JNZ up\n        MOV @R0,#0 ', '        JZ same\n        JMP up\nsame:   MOV @R0,#0 ']],
    ],
    wrong: [
      ALWAYS_WRONG[0],
      { edit: [['MOV @R0,#5 ', 'MOV @R0,#10 ']], says: /isn't repeated|again after/ },
      { edit: [['MOV @R0,#25 ', 'MOV @R0,#12 ']], says: /again after 2\d\d ms/ },
      { edit: [['MOV @R0,#25 ', 'MOV @R0,#40 ']], says: /again after|isn't repeated/ },
      { edit: [['        MOV @R0,#0              ; it is', '        NOP ; it is']], says: /what the PC reads/ },
      { edit: [['        JNZ up\n', '        NOP\n']], says: /isn't repeated/ },
      { edit: [['        STRT T ', '        NOP ']], says: /isn't repeated/ },
      { edit: [['MOV @R0,#5 ', 'MOV @R0,#1 ']], says: /again after 2\d ms/ },
      { edit: [['        MOV A,R6\n        MOV @R0,A\n        INC R0\n        MOV @R0,#25 ', '        MOV A,@R0\n        JNZ code\n        MOV A,R6\n        MOV @R0,A\n        INC R0\n        MOV @R0,#25 ']], says: /goes down while a is held/ },
      { edit: [['        MOV R0,#20H\n        MOV @R0,#0\n        STRT T', '        STRT T']], says: /./ },
    ],
  },
  17: {
    right: [
      [['        XRL A,#0FFH\n        JZ reset\n', '        CPL A\n        JZ reset\n']],
      [['        XRL A,#0EEH\n        JZ say ', '        ADD A,#12H\n        JZ say ']],
    ],
    wrong: [
      ALWAYS_WRONG[0],
      { edit: [['        CALL keep\n', '']], says: /FE|noise turns/ },
      { edit: [['say:    JNT0 say\n        CALL send\n        MOV A,R4\n        JNZ say\n', 'say:    MOV A,R0\n        CALL put\n']], says: /./ },
      { edit: [['        CALL answer ', '        NOP ']], says: /the PC writes/ },
      { edit: [['        JZ lights\n', '        NOP\n']], says: /lights/ },
      { edit: [['        JZ again\n', '        NOP\n']], says: /FE/ },
      { edit: [['        MOV A,#0AAH\n        JMP put\n', '        RET\n']], says: /FF/ },
      { edit: [['        JZ say ', '        NOP ']], says: /EE/ },
      { edit: [['        JNT1 poll\n', '']], says: /the PC writes/ },
      { edit: [['        ORL A,#8FH ', '        ORL A,#0CFH ']], says: /lights/ },
      { edit: [['        MOV A,R4\n        JNZ poll ', '        NOP ']], says: /the PC (writes|switches)/ },
      FIFTEEN_WAIT, ANY_WAIT, likeIn('EE', 'F'), likeIn('ED', 'F'),
    ],
  },
  18: {
    right: [
      [['        XRL A,#2CH              ; after', '        XRL A,#2BH              ; after']],
      [['        RL A\n        RL A\n        RL A\n', '        SWAP A\n        RR A\n']],
    ],
    wrong: [
      ALWAYS_WRONG[0], ALWAYS_WRONG[2],
      { edit: [['        XRL A,#2CH              ; after', '        XRL A,#2AH              ; after']], says: /key kp3/ },
      { edit: [['        RL A\n        RL A\n        RL A\n', '        RL A\n        RL A\n']], says: /key 8/ },
      { edit: [['MOVP3 A,@A', 'MOVP A,@A ']], says: /key grave/ },
      { edit: [['        MOV @R1,A               ; what is down now\n', '']], says: /key grave/ },
      { edit: [['        ANL A,#0FH\n        OUTL P1,A', '        ANL A,#7\n        OUTL P1,A']], says: /key (grave|1|f9)/ },
      { edit: [['00EH,016H', '016H,00EH']], says: /key grave/ },
      { edit: [['        INC R6\n', '']], says: /key 1/ },
      { edit: [[LOOK, NO_LOOK]], says: /the PC (writes|switches)/ },
    ],
  },
  19: {
    right: [
      [['FIRST   EQU 30H', 'FIRST   EQU 40H']],
      [['        JB4 full\n', '        XRL A,#16\n        JZ full\n']],
    ],
    wrong: [
      ALWAYS_WRONG[0],
      { edit: [['FIRST   EQU 30H', 'FIRST   EQU 20H']], says: /./ },
      { edit: [['        XRL A,#2CH\n        JNZ clear\n', '']], says: /key (grave|1)/ },
      { edit: [['        MOV A,#0F0H             ; the key went up\n        CALL put\n', '']], says: /key grave/ },
      { edit: [['        CALL put\ndown:', '        CALL put\n        JMP turn\ndown:']], says: /key grave/ },
      { edit: [['        ANL A,#0FH\n        ORL A,#FIRST', '        ANL A,#7\n        ORL A,#FIRST']], says: /masked|switches/ },
      { edit: [['        MOV A,R4\n        JNZ poll ', '        NOP ']], says: /the PC (writes|switches)/ },
      { edit: [['        JNT1 poll\n', '']], says: /after the PC has asked/ },
      { edit: [['        XRL A,#2CH              ; after', '        XRL A,#2AH              ; after']], says: /key kp3/ },
      { edit: [['        JNT0 poll ', 'here:   JNT0 here ']], says: /masked|switches/ },
      FIFTEEN_WAIT, ANY_WAIT,
    ],
  },
  20: {
    right: [
      [['MOV @R0,#25 ', 'MOV @R0,#24 ']],
      [['FIRST   EQU 30H', 'FIRST   EQU 40H']],
    ],
    wrong: [
      ALWAYS_WRONG[0],
      { edit: [['        MOV A,#0AAH\n        CALL put\n        MOV R1', '        MOV R1']], says: /port AA/ },
      { edit: [['time:   JTF tick\n', 'time:   NOP\n']], says: /isn't repeated/ },
      { edit: [['        ORL P2,#70H             ; all lamps are off\n', '']], says: /lights 0, got the end, lights 7/ },
      { edit: [['        MOV R0,#2DH             ; nothing repeats\n        MOV @R0,#0\n', '']], says: /resets a keyboard of which a key is held/ },
      { edit: [['        CALL keep\n', '']], says: /again|noise/ },
      { edit: [['MOV @R0,#5 ', 'MOV @R0,#10 ']], says: /isn't repeated|again after/ },
      { edit: [['        JZ say ', '        NOP ']], says: /port EE/ },
      { edit: [['        JNZ up\n', '        NOP\n']], says: /isn't repeated/ },
      { edit: [['        MOV @R0,#0              ; it is', '        NOP ; it is']], says: /./ },
      { edit: [['        JNT1 poll\n', '']], says: /./ },
      FIFTEEN_WAIT, ANY_WAIT,
    ],
  },
};
