// Functions whose prologues and epilogues have each kind of unwind code of ARM64: two epilogues, a frame pointer above the
// stack pointer, a stack pointer that moves, pairs that follow one another, d registers, large frames, a jump out of the
// function, and a function in two parts, of which the second is chained to the first. No function is described by packed
// data but start.
	.text
	.globl start
leaf:
	ret
	.seh_proc start
start:
	stp x29, x30, [sp, #-16]!
	.seh_save_fplr_x 16
	mov x29, sp
	.seh_set_fp
	.seh_endprologue
	mov x0, #0
	bl two
	mov x0, #1
	bl two
	mov x0, #5
	bl dynamic
	bl huge
	bl nexts
	bl nexts2
	bl lrpair
	bl floats
	bl singles
	mov x0, #3
	bl chained
	mov x0, #0
	bl chained
	bl tail
	.seh_startepilogue
	ldp x29, x30, [sp], #16
	.seh_save_fplr_x 16
	.seh_endepilogue
	ret
	.seh_endproc

	.seh_proc two
two:
	sub sp, sp, #64
	.seh_stackalloc 64
	stp x19, x20, [sp, #16]
	.seh_save_regp x19, 16
	stp x29, x30, [sp, #32]
	.seh_save_fplr 32
	add x29, sp, #32
	.seh_add_fp 32
	str x25, [sp, #48]
	.seh_save_reg x25, 48
	.seh_endprologue
	mov x25, #1
	mov x19, #2
	bl leaf
	cbz x0, 1f
	mov x20, #3
	.seh_startepilogue
	ldr x25, [sp, #48]
	.seh_save_reg x25, 48
	ldp x29, x30, [sp, #32]
	.seh_save_fplr 32
	ldp x19, x20, [sp, #16]
	.seh_save_regp x19, 16
	add sp, sp, #64
	.seh_stackalloc 64
	.seh_endepilogue
	ret
1:
	mov x20, #4
	nop
	.seh_startepilogue
	ldr x25, [sp, #48]
	.seh_save_reg x25, 48
	sub sp, x29, #32
	.seh_add_fp 32
	ldp x29, x30, [sp, #32]
	.seh_save_fplr 32
	ldp x19, x20, [sp, #16]
	.seh_save_regp x19, 16
	add sp, sp, #64
	.seh_stackalloc 64
	.seh_endepilogue
	ret
	.seh_endproc

	.seh_proc dynamic
dynamic:
	stp x29, x30, [sp, #-32]!
	.seh_save_fplr_x 32
	str x19, [sp, #16]
	.seh_save_reg x19, 16
	mov x29, sp
	.seh_set_fp
	.seh_endprologue
	mov x19, x0
	sub sp, sp, #160
	bl leaf
	sub sp, sp, x19, lsl #4
	bl leaf
	.seh_startepilogue
	mov sp, x29
	.seh_set_fp
	ldr x19, [sp, #16]
	.seh_save_reg x19, 16
	ldp x29, x30, [sp], #32
	.seh_save_fplr_x 32
	.seh_endepilogue
	ret
	.seh_endproc

	.seh_proc nexts
nexts:
	stp x19, x20, [sp, #-112]!
	.seh_save_r19r20_x 112
	stp x21, x22, [sp, #16]
	.seh_save_regp x21, 16
	stp x23, x24, [sp, #32]
	.seh_save_regp x23, 32
	stp x25, x26, [sp, #48]
	.seh_save_regp x25, 48
	stp x27, x28, [sp, #64]
	.seh_save_regp x27, 64
	stp x29, x30, [sp, #80]
	.seh_save_fplr 80
	add x29, sp, #80
	.seh_add_fp 80
	sub sp, sp, #1024
	.seh_stackalloc 1024
	.seh_endprologue
	mov x19, #1
	mov x20, #1
	mov x21, #1
	mov x22, #1
	mov x23, #1
	mov x24, #1
	mov x25, #1
	mov x26, #1
	mov x27, #1
	mov x28, #1
	bl leaf
	.seh_startepilogue
	sub sp, x29, #80
	.seh_add_fp 80
	ldp x29, x30, [sp, #80]
	.seh_save_fplr 80
	ldp x27, x28, [sp, #64]
	.seh_save_regp x27, 64
	ldp x25, x26, [sp, #48]
	.seh_save_regp x25, 48
	ldp x23, x24, [sp, #32]
	.seh_save_regp x23, 32
	ldp x21, x22, [sp, #16]
	.seh_save_regp x21, 16
	ldp x19, x20, [sp], #112
	.seh_save_r19r20_x 112
	.seh_endepilogue
	ret
	.seh_endproc

	.seh_proc nexts2
nexts2:
	str x30, [sp, #-96]!
	.seh_save_reg_x x30, 96
	stp x20, x21, [sp, #16]
	.seh_save_regp x20, 16
	stp x22, x23, [sp, #32]
	.seh_save_regp x22, 32
	stp x24, x25, [sp, #48]
	.seh_save_regp x24, 48
	nop
	.seh_nop
	.seh_endprologue
	mov x20, #1
	mov x22, #1
	mov x24, #1
	mov x21, #1
	mov x23, #1
	mov x25, #1
	bl leaf
	.seh_startepilogue
	ldp x24, x25, [sp, #48]
	.seh_save_regp x24, 48
	ldp x22, x23, [sp, #32]
	.seh_save_regp x22, 32
	ldp x20, x21, [sp, #16]
	.seh_save_regp x20, 16
	ldr x30, [sp], #96
	.seh_save_reg_x x30, 96
	.seh_endepilogue
	ret
	.seh_endproc

	.seh_proc lrpair
lrpair:
	sub sp, sp, #1, lsl #12
	.seh_stackalloc 4096
	stp x27, x30, [sp, #24]
	.seh_save_lrpair x27, 24
	stp x19, x30, [sp, #40]
	.seh_save_lrpair x19, 40
	.seh_endprologue
	mov x27, #1
	mov x19, #1
	bl leaf
	.seh_startepilogue
	ldp x19, x30, [sp, #40]
	.seh_save_lrpair x19, 40
	ldp x27, x30, [sp, #24]
	.seh_save_lrpair x27, 24
	add sp, sp, #1, lsl #12
	.seh_stackalloc 4096
	.seh_endepilogue
	ret
	.seh_endproc

	.seh_proc floats
floats:
	stp d8, d9, [sp, #-128]!
	.seh_save_fregp_x d8, 128
	stp d10, d11, [sp, #16]
	.seh_save_fregp d10, 16
	str d12, [sp, #32]
	.seh_save_freg d12, 32
	str d13, [sp, #-16]!
	.seh_save_freg_x d13, 16
	stp x21, x22, [sp, #-32]!
	.seh_save_regp_x x21, 32
	stp x23, x24, [sp, #16]
	.seh_save_regp x23, 16
	str x30, [sp, #80]
	.seh_save_reg x30, 80
	.seh_endprologue
	mov x21, #1
	mov x22, #1
	mov x24, #1
	bl leaf
	.seh_startepilogue
	ldr x30, [sp, #80]
	.seh_save_reg x30, 80
	ldp x23, x24, [sp, #16]
	.seh_save_regp x23, 16
	ldp x21, x22, [sp], #32
	.seh_save_regp_x x21, 32
	ldr d13, [sp], #16
	.seh_save_freg_x d13, 16
	ldr d12, [sp, #32]
	.seh_save_freg d12, 32
	ldp d10, d11, [sp, #16]
	.seh_save_fregp d10, 16
	ldp d8, d9, [sp], #128
	.seh_save_fregp_x d8, 128
	.seh_endepilogue
	ret
	.seh_endproc

	.seh_proc huge
huge:
	str x30, [sp, #-16]!
	.seh_save_reg_x x30, 16
	stp x19, x20, [sp, #-32]!
	.seh_save_regp_x x19, 32
	sub sp, sp, #16, lsl #12
	.seh_stackalloc 65536
	nop
	.seh_nop
	.seh_endprologue
	mov x19, #1
	bl leaf
	.seh_startepilogue
	add sp, sp, #16, lsl #12
	.seh_stackalloc 65536
	ldp x19, x20, [sp], #32
	.seh_save_regp_x x19, 32
	ldr x30, [sp], #16
	.seh_save_reg_x x30, 16
	.seh_endepilogue
	ret
	.seh_endproc

	.seh_proc singles
singles:
	str x28, [sp, #-32]!
	.seh_save_reg_x x28, 32
	str x19, [sp, #8]
	.seh_save_reg x19, 8
	.seh_endprologue
	mov x28, #1
	mov x19, #1
	nop
	.seh_startepilogue
	ldr x19, [sp, #8]
	.seh_save_reg x19, 8
	ldr x28, [sp], #32
	.seh_save_reg_x x28, 32
	.seh_endepilogue
	ret
	.seh_endproc

	.seh_proc tail
tail:
	stp x29, x30, [sp, #-16]!
	.seh_save_fplr_x 16
	.seh_endprologue
	bl leaf
	.seh_startepilogue
	ldp x29, x30, [sp], #16
	.seh_save_fplr_x 16
	.seh_endepilogue
	b singles
	.seh_endproc

// A function in two parts: the second is entered by a branch, keeps more registers, and branches back.
chained:
	stp x29, x30, [sp, #-32]!
	mov x29, sp
	str x19, [sp, #16]
	mov x19, x0
	cbnz x19, second
back:
	bl leaf
	ldr x19, [sp, #16]
	ldp x29, x30, [sp], #32
	ret
chained_end:
second:
	stp x21, x22, [sp, #-48]!
	stp x23, x24, [sp, #16]
	mov x21, #1
	mov x22, #2
	mov x23, #2
	mov x24, #2
	bl leaf
	ldp x23, x24, [sp, #16]
	ldp x21, x22, [sp], #48
	b back
second_end:
	.section .pdata,"dr"
	.long chained@IMGREL
	.long chained_x@IMGREL
	.long second@IMGREL
	.long second_x@IMGREL
	.section .xdata,"dr"
	.p2align 2
chained_x:
	.long (chained_end-chained)/4 | 1<<22 | 3<<27
	.long 6 | 5<<22
	.byte 0xd0, 0x02, 0xe1, 0x83, 0xe4, 0xd0, 0x02, 0x83, 0xe4, 0xe3, 0xe3, 0xe3
second_x:
	.long (second_end-second)/4 | 1<<21 | 0<<22 | 3<<27
	.byte 0xe6, 0xcc|0, 0x85, 0xe5, 0xd0, 0x02, 0xe1, 0x83
	.byte 0xe4, 0xe3, 0xe3, 0xe3
