; Starts the timer at FF and waits in a jump; the timer's interrupt adds 1 to A.
        ORG 0
        JMP start

        ORG 7           ; where the service of the timer begins
        INC A
        RETR

start:  MOV A,#0FFH
        MOV T,A
        CLR A
        EN TCNTI
        STRT T
wait:   JMP wait
