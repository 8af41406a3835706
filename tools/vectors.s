# Run calls with as many loops as check-vectors.sh asks for, those of seal_run in a function that it calls.
.macro loops instruction, count
.rept \count
.rept 64
\instruction %xmm1, %xmm0
.endr
jne .
.endr
.endm
.section .text.sealing, "ax"
sealing:
loops paddq, 3
ret
.text
.globl calmbaize_seal_run, calmbaize_open_run
calmbaize_seal_run:
call sealing
ret
calmbaize_open_run:
loops paddq, 2
loops psubq, 1
ret
