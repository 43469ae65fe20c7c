; SIMON32/64, key schedule included, in the published spelling (request 08): README.md here says where its words stand.
; r4 counts rounds, r8 bits; r5 and r6 say where x and y stand, 0 or 16.

        mov @0 #160             ; z0, negated, eight bits to a byte
        mov @1 #91
        mov @2 #121
        mov @3 #252
        mov r4 #0
        mov r5 #0
        mov r6 #16

round:  lsl r7 r4 #4            ; 16 times the round number modulo 4: the round key's place
        and r7 r7 #48
        mov r8 #0

bit:    add r9 r8 #15           ; x <<< 1
        and r9 r9 #15
        add r9 r9 r5
        add r10 r8 #8           ; x <<< 8
        and r10 r10 #15
        add r10 r10 r5
        add r11 r8 #14          ; x <<< 2
        and r11 r11 #15
        add r11 r11 r5
        add r12 r8 r6           ; y
        add r13 r8 r7           ; key
        and r16 !r9,128 !r10,128
        xor r16 r16 !r11,128
        xor r16 r16 !r13,192
        xor !r12,128 !r12,128 r16
        add r8 r8 #1
        bne r8 #16 bit

        and r9 r4 #28           ; from round 28 on no more keys
        beq r9 #28 swap
        add r10 r7 #16          ; the keys 1 and 3 rounds later
        and r10 r10 #48
        add r11 r7 #48
        and r11 r11 #48
        mov r8 #0
        xor r17 !r10,192 !r11,195
        not r17 r17

keybit: add r9 r8 r7            ; a bit of the key 4 rounds later, over this round's
        add r8 r8 #1
        and r12 r8 #15
        add r12 r12 r10
        add r13 r8 #3
        and r13 r13 #15
        add r13 r13 r11
        xor r16 !r12,192 !r13,192
        xor r17 r17 r16
        xor !r9,192 !r9,192 r17
        not r17 r16
        bne r8 #16 keybit

        not !r7,193 !r7,193     ; the constant 3, and a bit of z0
        lsr r9 r4 #3
        lsr r9 !r9 r4           ; the offset is 0 where none is written
        xor !r7,192 !r7,192 r9

swap:   xor r5 r5 #16           ; x and y change places
        xor r6 r6 #16
        add r4 r4 #1
        bne r4 #32 round
