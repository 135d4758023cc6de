/* SPDX-License-Identifier: Apache-2.0 */
# What each hart of the machine under test runs: it waits for a list of CSR instructions, does each
# of them at the level that the list says, and stores what it read and whether it trapped.
#
# The list of hart h begins at LISTS + h * 4096: the number of entries, 0 while there is nothing to
# do; the mode in mstatus that says at which level the instruction runs; then the entries, of four
# words of 64 bits each: the instruction and its mode, the operand, what was read, mcause.
# The bridge writes a list, and wakes the hart by its software interrupt.

        .equ LISTS, 0x80100000
        .equ MSIP, 0x02000000
        .equ ENTRY_BYTES, 32
        .equ MODES, 0x8000001800         # MPV and MPP of mstatus
        .equ ECALL, 0x73

        .globl _start
_start:
        csrr    s0, mhartid
        li      s3, MSIP
        slli    t0, s0, 2
        add     s3, s3, t0               # s3: the software interrupt of this hart
        li      s4, LISTS
        slli    t0, s0, 12
        add     s4, s4, t0               # s4: its list
        addi    s5, s4, 2032             # s5: where its instruction is put
        lla     t0, trapped
        csrw    mtvec, t0
        li      t0, -1                   # lower levels reach all addresses
        csrw    pmpaddr0, t0
        li      t0, 0x1f
        csrw    pmpcfg0, t0
        li      t0, 0x222                # as any firmware has it
        csrw    mideleg, t0
        li      t0, 0x444
        csrw    hideleg, t0
        li      t0, 8
        csrw    mie, t0
wait:
        wfi
        lw      t0, 0(s3)
        beqz    t0, wait
        sw      zero, 0(s3)
        fence
        ld      s2, 0(s4)                # s2: how many are left
        addi    s1, s4, 64               # s1: the next one
next:
        beqz    s2, finished
        lw      t0, 0(s1)
        sw      t0, 0(s5)
        li      t0, ECALL
        sw      t0, 4(s5)
        fence.i
        lwu     t1, 4(s1)                # which of the three levels
        li      t0, MODES
        csrc    mstatus, t0
        slli    t0, t1, 11
        li      t1, 0x1800
        and     t1, t0, t1
        csrs    mstatus, t1
        srli    t0, t0, 13               # bit 2 of the level is the virtualization mode
        slli    t0, t0, 39
        csrs    mstatus, t0
        csrw    mepc, s5
        ld      a0, 8(s1)
        li      a1, 0
        mret
        .align  2
trapped:
        csrr    t0, mcause
        sd      a1, 16(s1)
        sd      t0, 24(s1)
        addi    s1, s1, ENTRY_BYTES
        addi    s2, s2, -1
        j       next
finished:
        fence
        sd      zero, 0(s4)
        j       wait
