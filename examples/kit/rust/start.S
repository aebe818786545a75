# Where a program over std begins, and what stands in for each of its system calls.
#
# std's port calls Xous by ECALL. `link` puts `jal gp, xous_bridge` in the place of each ECALL of a linked program but
# those between xous_kit and xous_kit_end; std never uses gp. The rows are those of the table in docs/std.md.

    .set MAP_MEMORY, 2
    .set YIELD, 3
    .set UPDATE_MEMORY_FLAGS, 12
    .set SEND_MESSAGE, 16
    .set CONNECT, 17
    .set CREATE_THREAD, 18
    .set UNMAP_MEMORY, 19
    .set TERMINATE_PROCESS, 22
    .set TRY_SEND_MESSAGE, 24
    .set TRY_CONNECT, 25
    .set RETURN_SCALAR_2, 27
    .set STD_GET_THREAD_ID, 32
    .set JOIN_THREAD, 36
    .set STD_RETURN_SCALAR, 40
    .set GET_THREAD_ID, 42
    .set GET_PROCESS_ID, 43

    .set MEMORY_RANGE, 3            # first words of replies
    .set CONNECTION_ID, 7
    .set THREAD_ID, 10
    .set SCALAR_1, 14
    .set MEMORY_RETURNED, 18

    .set INVALID_THREAD, 20
    .set READ, 2
    .set READ_WRITE, 6
    .set MUTABLE_LEND, 1
    .set SCALAR, 4
    .set BLOCKING_CONNECT, 6        # ids of std's messages to the name server
    .set TRY_TO_CONNECT, 7

# The words that the image tool fills.
    .section .data.xous_kit, "aw"
    .balign 4
    .globl xous_eh_frame, xous_arguments, xous_stack_size
    .type xous_eh_frame, @object
    .type xous_arguments, @object
    .type xous_stack_size, @object
xous_eh_frame:      .word 0         # where .eh_frame is
xous_arguments:     .word 0         # where the block of arguments and environment is
xous_stack_size:    .word 0x40000   # bytes of the first thread's stack
    .size xous_eh_frame, 4
    .size xous_arguments, 4
    .size xous_stack_size, 4

# What the bridge knows of its process. A connection is never 0.
ticktimer:          .word 0         # the connection to the ticktimer, or 0
name_server:        .word 0         # the connection to the name server, or 0
log_server:         .word 0         # the connection to the log server, or 0
process:            .word 0         # the pid, where there is a connection to the ticktimer
ends:               .fill 32, 4, 0  # how many threads have ended, by tid

    .section .text.xous_kit, "ax"
    .balign 4
    .globl xous_start, xous_bridge, xous_kit, xous_kit_end
xous_kit:

# Rows 6 and 7: a stack for the first thread, and what std's _start is given. A stack that runs over its end faults: it
# is the first range of the Map window.
xous_start:
    li a0, MAP_MEMORY
    li a1, 0
    li a2, 0
    lw a3, xous_stack_size
    li a4, READ_WRITE
    ecall
    li t0, MEMORY_RANGE
    bne a0, t0, no_stack
    add sp, a1, a2
    lw a0, xous_eh_frame
    lw a1, xous_arguments
    li ra, 0
    tail _start
no_stack:                           # ends with the error's number as the exit word
    li a0, TERMINATE_PROCESS
    ecall

# All registers but a0 to a7 stay, and gp says where to go on.
xous_bridge:
    addi a0, a0, -UNMAP_MEMORY      # tested without a register or the stack, which a thread's last call takes away
    beqz a0, unmap_memory
    addi a0, a0, UNMAP_MEMORY
    addi sp, sp, -32
    sw t0, 0(sp)
    sw t1, 4(sp)
    sw t2, 8(sp)
    li t0, UPDATE_MEMORY_FLAGS
    beq a0, t0, update_memory_flags
    li t0, CREATE_THREAD
    beq a0, t0, create_thread
    li t0, JOIN_THREAD
    beq a0, t0, join_thread
    li t0, SEND_MESSAGE
    beq a0, t0, send
    li t0, TRY_SEND_MESSAGE
    beq a0, t0, send
    li t0, CONNECT
    beq a0, t0, connect
    li t0, TRY_CONNECT
    beq a0, t0, connect
    li t0, STD_GET_THREAD_ID
    beq a0, t0, get_thread_id
    li t0, STD_RETURN_SCALAR
    bne a0, t0, call_and_leave

    li a0, RETURN_SCALAR_2          # row 11
call_and_leave:
    ecall
leave:
    lw t0, 0(sp)
    lw t1, 4(sp)
    lw t2, 8(sp)
    addi sp, sp, 32
    jr gp

get_thread_id:                      # row 12
    li a0, GET_THREAD_ID
    j call_and_leave

update_memory_flags:                # row 3: a guard page may be read
    andi t0, a3, READ
    bnez t0, call_and_leave
    li a3, READ
    j call_and_leave

# Row 4. The answer has the tid in its low byte and, above it, how many threads with this tid have ended (row 5).
create_thread:
    add a2, a2, a3
    mv a3, a4
    mv a4, a5
    mv a5, a6
    mv a6, a7
    ecall
    li t0, THREAD_ID
    bne a0, t0, leave
    la t0, ends
    slli t1, a1, 2
    add t0, t0, t1
    lw t0, 0(t0)
    slli t0, t0, 8
    or a1, a1, t0
    j leave

# Row 5: the join of a thread that has ended is answered at once, also where another one has its tid by now.
join_thread:
    srli t1, a1, 8
    andi a1, a1, 255
    la t0, ends
    slli t2, a1, 2
    add t0, t0, t2
    lw t0, 0(t0)
    slli t0, t0, 8
    srli t0, t0, 8
    bne t0, t1, joined
    ecall
    li t0, 1
    bne a0, t0, leave
    li t0, INVALID_THREAD
    bne a1, t0, leave
joined:
    li a0, SCALAR_1
    li a1, 0
    j leave

# The last call of a thread, which then returns to 0xff803000, counts its end. No register but ra is used after it.
unmap_memory:
    lui a0, 0xff803
    bne ra, a0, unmap_now
    mv t0, a1
    mv t1, a2
    li a0, GET_THREAD_ID
    ecall
    la t2, ends
    slli a1, a1, 2
    add t2, t2, a1
    li a0, 1
    amoadd.w x0, a0, (t2)
    mv a1, t0
    mv a2, t1
unmap_now:
    li a0, UNMAP_MEMORY
    ecall
    jr gp

# Row 8: the ticktimer is told the pid, since a lock is known by its address.
send:
    lw t0, ticktimer
    bne a1, t0, send_elsewhere
    li t0, SCALAR
    bltu a2, t0, call_and_leave
    lw a7, process
    j call_and_leave

# Row 17: of std the log server gets scalars with the text of a panic alone. Each ends the turn, so that the log writes
# it before the unwinding begins, and has room for the next one.
send_elsewhere:
    lw t0, log_server
    bne a1, t0, send_names
    li t0, SCALAR
    bne a2, t0, call_and_leave
    ecall
    mv t0, a0
    mv t1, a1
    li a0, YIELD
    ecall
    mv a0, t0
    mv a1, t1
    j leave

# Row 9: the name server answers an identifier, and the connection to it is put in its place.
send_names:
    lw t0, name_server
    bne a1, t0, call_and_leave
    li t0, MUTABLE_LEND
    bne a2, t0, call_and_leave
    addi t1, a3, -BLOCKING_CONNECT
    li t0, TRY_TO_CONNECT - BLOCKING_CONNECT
    bgtu t1, t0, call_and_leave
    sw a4, 12(sp)                   # the page: 0 where the name is known, then four words of the identifier
    ecall
    li t0, MEMORY_RETURNED
    bne a0, t0, leave
    lw t1, 12(sp)
    lw t0, 0(t1)
    bnez t0, leave
    sw a1, 16(sp)
    sw a2, 20(sp)
    li a0, CONNECT
    lw a1, 4(t1)
    lw a2, 8(t1)
    lw a3, 12(t1)
    lw a4, 16(t1)
    ecall
    addi a0, a0, -CONNECTION_ID
    sw a0, 0(t1)                    # 0 where it is connected
    sw a1, 4(t1)
    li a0, MEMORY_RETURNED
    lw a1, 16(sp)
    lw a2, 20(sp)
    li a3, 0
    li a4, 0
    j leave

# Connections to the ticktimer (row 8), the name server (row 9) and the log server (row 17) are remembered; the bridge
# asks for the pid once.
connect:
    sw zero, 12(sp)                 # the word that remembers, or 0
    li t0, 0x20726576               # "ver ", the last word of the log server's name
    beq a4, t0, connect_log
    li t0, 0x72657672               # "rver", the last word of both others
    bne a4, t0, connect_now
    la t1, ticktimer
    li t0, 0x6b636974               # "ticktimer-server"
    bne a1, t0, connect_names
    li t0, 0x656d6974
    bne a2, t0, connect_now
    li t0, 0x65732d72
    bne a3, t0, connect_now
    j connect_known
connect_log:
    la t1, log_server
    li t0, 0x73756f78               # "xous-log-server "
    bne a1, t0, connect_now
    li t0, 0x676f6c2d
    bne a2, t0, connect_now
    li t0, 0x7265732d
    bne a3, t0, connect_now
    j connect_known
connect_names:
    la t1, name_server
    li t0, 0x73756f78               # "xous-name-server"
    bne a1, t0, connect_now
    li t0, 0x6d616e2d
    bne a2, t0, connect_now
    li t0, 0x65732d65
    bne a3, t0, connect_now
connect_known:
    sw t1, 12(sp)
connect_now:
    ecall
    lw t1, 12(sp)
    beqz t1, leave
    li t0, CONNECTION_ID
    bne a0, t0, leave
    la t0, ticktimer
    bne t0, t1, remember
    mv t2, a1
    li a0, GET_PROCESS_ID
    ecall
    la t0, process
    sw a1, 0(t0)
    li a0, CONNECTION_ID
    mv a1, t2
remember:
    sw a1, 0(t1)
    j leave
xous_kit_end:
