; Every instruction of the table, in an order of chance, with each form of a number, of a label and of a directive.
ten	EQU 10
Mask EQU 0F0H ; a name may be written in either case
bits equ 10110011B
a_long_name_of_thirty_one_c_0 : MOV R2,#bits
Wait_1: DJNZ R1,	a_long_name_of_thirty_one_c_0
        movd p7,  a ; MOVD P7,A
        ORL A,@R1
loop_4: ANL  a, @r1
        orl A, R6
        MOV a,  #Mask
        MOVD a, p4
        xchd  a, @r1
        JF0 07bh ; JF0 a
        xch  A,	R4 ; XCH A,R4
k9_11 : MOV r0, #01fh
        jb6 1011011B
        dis  TCNTI
        XRL A,	R1
next_15 : ANL A, #10101111B
        ADDC  a,	r7
        MOVX	a,  @r0
        XCH	a, r2
loop_19 : SWAP	A ; SWAP A
        addc	a,r6
        XCH  a,@r0
        INC R6
Wait_23:  JB7 k9_11
Wait_24:  DEC  R2
a_long_name_of_thirty_one_c_25 : ORLD	P4,  A ; ORLD P4,A
a_long_name_of_thirty_one_c_26:  jtf a_long_name_of_thirty_one_c_26
        ADDC  a,r4 ; ADDC A,R4
next_28: XRL a,	@r0
        INC  r2
        XRL  A,	R4
        CPL c
        ANL p2, #ten
        ORL a,#LOW ten ; ORL A,#n
        add A,  R5
        XCHD  a, @r0
        mov  A,@R1
        XRL  a,	r2
a_long_name_of_thirty_one_c_38:  inc @R1
        ORG 64
        clr A ; CLR A
        mov @R0,	#075h
        mov	t,	a
        MOVD	A,P7
        in  A, P1
        mov	A,	R1
        mov	a, t
next_46 : anl a,r5
Wait_47:  XRL A,@R1 ; XRL A,@R1
        XRL A, R5 ; XRL A,R5
        mov	r1,	a ; MOV R1,A
        CPL F1
        dec  R7
        SEL	RB1
Wait_53:  add	A,  R1 ; ADD A,R1
        ORL	A,  R2 ; ORL A,R2
        MOV @r1, a
        MOV	PSW,	A
        mov r3, #0F2H
        ADDC A, @R1 ; ADDC A,@R1
        ADD A, R2
        ADD a,  r0
k9_61: ORLD p7,  a
        JB1 a_long_name_of_thirty_one_c_38
        rlc a
a_long_name_of_thirty_one_c_64: ADD A,R4
        ADD  a,  r6 ; ADD A,R6
        EN I ; EN I
        XCH a,	r1
        inc  r3
next_69 : call 762 ; CALL a
        IN	A,  P2
next_71: djnz R2,  0DBH
        ADDC a, r5
        MOV A,  @R0
Wait_74 : anl a, r3
a_long_name_of_thirty_one_c_75 : SEL  mb0
        mov A,  R6
        ANL  A,	R7 ; ANL A,R7
        RL  A
        ORG 080h
_x_79 : STRT CNT
        mov  R4, A
        ORL A,R7 ; ORL A,R7
k9_82 : MOVD	A,  P5
        XCH  A, R3
a_long_name_of_thirty_one_c_84:  DJNZ R5,next_15
loop_85:  anl	A,R0 ; ANL A,R0
        jz a_long_name_of_thirty_one_c_38 ; JZ a
loop_87 : retr
        djnz r3,	11011110B
        MOVD	A,P6
        clr F0 ; CLR F0
        DIS  I
        MOVP  A,	@A
        sel  mb1 ; SEL MB1
        MOVD	P5, A
        OUTL	BUS,A
k9_96: ORL bus,#Mask
        DEC r5
        ADD A,R3
Wait_99: CPL A
_x_100: movx	A, @R1
a_long_name_of_thirty_one_c_101: XCH	A,  R6 ; XCH A,R6
Wait_102 : mov @R1,  #1B
        mov a,  psw
_x_104 : orl p2, #104
next_105:  XRL  A,R6
        ANL A,R6
_x_107 : jmpp	@a
loop_108 : JNZ loop_19
        mov  R3,  A ; MOV R3,A
        ANL  A, R1
a_long_name_of_thirty_one_c_111 : ent0 CLK ; ENT0 CLK
        MOV R4,  #ten
        jb4 09FH
        jb3 next_28
        JNI loop_4
        jb5 0b5h
next_117 : MOV r5, a
_x_118:  ORL P1, #050H
        ORG 0C0H
k9_119:  CLR	C
        jf1 0ABH
_x_121: ANLD	p4,	a
k9_122 : add	a, @r1
k9_123 : RET
        DJNZ R0,	next_15
a_long_name_of_thirty_one_c_125: MOVD P6, A
        mov r6,  a
        ANL P1, #28
        MOVP3 A,	@A ; MOVP3 A,@A
_x_129:  jnt1 k9_82 ; JNT1 a
a_long_name_of_thirty_one_c_130: addc a,r1
        mov	@R0,	A ; MOV @R0,A
        ADDC  a,  @r0 ; ADDC A,@R0
        NOP
a_long_name_of_thirty_one_c_134 : ANLD	p6,	a ; ANLD P6,A
        rr  a
_x_136: XRL	A,R3 ; XRL A,R3
k9_137 : rrc A
next_138 : add A,	#LOW ten
k9_139:  inc R0 ; INC R0
a_long_name_of_thirty_one_c_140: addc	a,	r2
        da a
        MOV A,R2
_x_143 : XRL  A,R7
        anl A,R2
Wait_145:  XCH  A,  @R1
loop_146: MOVD  P4,  A ; MOVD P4,A
Wait_147:  mov	R0,	A
Wait_148 : INC	R1 ; INC R1
        xrl	a,r0
        MOV  R2,  A
        dec	r4 ; DEC R4
        MOV r7,#0E1H
        orl  A, R4
        DEC R1
        STOP  TCNT
        dec	a ; DEC A
        orl A,	R1
        MOV  R7,	A
        ORG 0100h
        ADD  A,	R7
        xch	A, R7
a_long_name_of_thirty_one_c_161:  xch  a,  r0
loop_162:  MOV	a, r0
loop_163:  ADD  A,@R0
k9_164: inc R7
Wait_165:  MOV R1,	#043H
        orl  a,  r3 ; ORL A,R3
a_long_name_of_thirty_one_c_167:  clr	F1
        JMP 0361H
        mov r5, #012h
        jt1 a_long_name_of_thirty_one_c_161
        ORL  A,  R0
        orl A,@R0 ; ORL A,@R0
        ADDC A,	#0B7H
        DEC	R3
_x_175 : anl A,	R4
        ORL A,  R5 ; ORL A,R5
Wait_177:  MOV	a,	r7
_x_178 : DEC	R6
next_179: INC  @R0
_x_180:  INC R4
        jnt0 016bh
        dec	R0 ; DEC R0
        ORLD	p6, a
loop_184:  MOV  A,  R5
        jb0 01D2H
        addc	A,R0
        jb2 a_long_name_of_thirty_one_c_167
        INS	a,  bus
        DJNZ r7,loop_162
        CPL f0
loop_191:  djnz R4,	0190H
        jnc Wait_165
        mov  A,	R4
        movx @R1,	A
        outl P1, A ; OUTL P1,A
        OUTL	p2,	a ; OUTL P2,A
        mov R6,  #03DH
        ORLD P5,  A
        ORG 0140H
        inc	A
        sel RB0
        EN	TCNTI
a_long_name_of_thirty_one_c_202 : jt0 loop_163 ; JT0 a
a_long_name_of_thirty_one_c_203 : ADDC a,r3
        jc 01BAH
        mov  A, R3
Wait_206: xch a,  r5
        MOVX	@R0, A
        DJNZ R6,	Wait_165 ; DJNZ R6,a
        anl	a,	@r0
        ANL BUS,  #101110B
a_long_name_of_thirty_one_c_211 : xrl a,	#08ah
        ANLD	P7,  A
        INC  R5
loop_214: STRT T
Wait_215: anld p5,  a
        ORG 700H
table: DB 1, ten ,LOW later,0FFH	, 101B
        DB 83H,93H,0 ; bytes may be given as they are: ä
later:  NOP
        db LOW table, low Mask
