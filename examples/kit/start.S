# Where a program begins: its first thread has the stack at 0x80000000 and all other registers 0.
# A return of main ends the process, with what it returned as the exit word.

    .section .start, "ax"
    .globl _start
_start:
#ifdef XOUS_PICOLIBC            // thread-local data, which the library's errno is
    la a0, xous_first_tls
    call xous_make_thread_local
    mv tp, a0
#endif
#ifdef CONSTRUCTORS             // functions that run before main, in the order of the linker's list
    la s0, __init_array_start
    la s1, __init_array_end
1:  beq s0, s1, 2f
    lw t0, 0(s0)
    jalr t0
    addi s0, s0, 4
    j 1b
2:
#endif
    call main
#ifdef XOUS_PICOLIBC
    tail exit
    .globl xous_libc_thread
xous_libc_thread:
    mv tp, a2
    jr a1
#else
    mv a1, a0
    li a0, 22               # TerminateProcess; the words below have no meaning
    li a2, 0
    li a3, 0
    li a4, 0
    li a5, 0
    li a6, 0
    li a7, 0
    ecall
#endif
