# Apache-2.0. The first instructions of a virtual hart: its number in a0, its task in a1 and a2.
	.section .text.start
	.globl _start
_start:
	la	sp, stacks
	addi	t0, a0, 1
	slli	t0, t0, 12
	add	sp, sp, t0
	call	guest
1:	j	1b
	.bss
	.balign 16
stacks:	.space 4096 * 4
