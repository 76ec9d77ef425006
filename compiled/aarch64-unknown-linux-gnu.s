/* The library ecc200 1.0.0, made by library/build of the proved source with the toolchain of logic dac8208d650f15bf. Not written by hand: `make compiled` makes it anew. */
	.text
	.p2align	2
	.type	"ecc200_calls::inspection::inspect_given::<=32,=98,=131,=31>",@function
"ecc200_calls::inspection::inspect_given::<=32,=98,=131,=31>":
	.cfi_startproc
	stp	x29, x30, [sp, #-80]!
	.cfi_def_cfa_offset 80
	stp	x26, x25, [sp, #16]
	stp	x24, x23, [sp, #32]
	stp	x22, x21, [sp, #48]
	stp	x20, x19, [sp, #64]
	.cfi_offset w19, -8
	.cfi_offset w20, -16
	.cfi_offset w21, -24
	.cfi_offset w22, -32
	.cfi_offset w23, -40
	.cfi_offset w24, -48
	.cfi_offset w25, -56
	.cfi_offset w26, -64
	.cfi_offset w30, -72
	.cfi_offset w29, -80
	sub	sp, sp, #1216
	.cfi_def_cfa_offset 1296
	str	xzr, [sp]
	mov	x21, x2
	mov	x23, x1
	ldrh	w8, [x4, #18]
	ldur	q0, [x4, #2]
	mov	x24, x0
	ldrh	w25, [x4]
	ldrb	w26, [x4, #20]
	add	x9, sp, #355
	strh	w8, [sp, #626]
	add	x8, sp, #608
	mov	w1, wzr
	add	x0, x8, #20
	mov	w2, #524
	mov	x19, x5
	mov	x22, x4
	mov	x20, x3
	stur	q0, [x9, #255]
	bl	memset
	movi	v0.2d, #0000000000000000
	add	x0, sp, #608
	mov	x1, x24
	mov	x2, x23
	strh	w25, [sp, #608]
	str	q0, [sp, #1152]
	str	q0, [sp, #1168]
	str	q0, [sp, #1184]
	str	q0, [sp, #1200]
	bl	"ecc200_calls::modules::put_modules::<=32>"
	tbz	w26, #0, .LBB0_2
	ldurh	w8, [x22, #18]
	ldur	q0, [x22, #2]
	mov	w1, wzr
	mov	w2, #588
	strh	w25, [sp]
	strh	w8, [sp, #18]
	mov	x8, sp
	add	x0, x8, #20
	stur	q0, [sp, #2]
	bl	memset
	mov	x0, sp
	mov	x1, x21
	mov	x2, x20
	bl	"ecc200_calls::modules::put_modules::<=32>"
	add	x0, sp, #608
	mov	x2, sp
	mov	w1, #1
	b	.LBB0_3
.LBB0_2:
	add	x0, sp, #608
	mov	w1, wzr
	mov	x2, xzr
.LBB0_3:
	mov	x3, x19
	bl	"ecc200_calls::inspection::inspect_symbol::<=32,=98>"
	add	sp, sp, #1216
	.cfi_def_cfa_offset 80
	ldp	x20, x19, [sp, #64]
	ldp	x22, x21, [sp, #48]
	ldp	x24, x23, [sp, #32]
	ldp	x26, x25, [sp, #16]
	ldp	x29, x30, [sp], #80
	.cfi_def_cfa_offset 0
	.cfi_restore w19
	.cfi_restore w20
	.cfi_restore w21
	.cfi_restore w22
	.cfi_restore w23
	.cfi_restore w24
	.cfi_restore w25
	.cfi_restore w26
	.cfi_restore w30
	.cfi_restore w29
	ret
.Lfunc_end0:
	.size	"ecc200_calls::inspection::inspect_given::<=32,=98,=131,=31>", .Lfunc_end0-"ecc200_calls::inspection::inspect_given::<=32,=98,=131,=31>"
	.cfi_endproc

	.section	.rodata.cst16,"aM",@progbits,16
	.p2align	4, 0x0
.LCPI1_0:
	.byte	1
	.byte	2
	.byte	4
	.byte	8
	.byte	16
	.byte	32
	.byte	64
	.byte	128
	.byte	1
	.byte	2
	.byte	4
	.byte	8
	.byte	16
	.byte	32
	.byte	64
	.byte	128
	.text
	.p2align	2
	.type	"ecc200_calls::modules::put_modules::<=32>",@function
"ecc200_calls::modules::put_modules::<=32>":
	.cfi_startproc
	ldrh	w8, [x0]
	cbz	x8, .LBB1_77
	stp	x24, x23, [sp, #-48]!
	.cfi_def_cfa_offset 48
	stp	x22, x21, [sp, #16]
	stp	x20, x19, [sp, #32]
	.cfi_offset w19, -8
	.cfi_offset w20, -16
	.cfi_offset w21, -24
	.cfi_offset w22, -32
	.cfi_offset w23, -40
	.cfi_offset w24, -48
	ldrh	w10, [x0, #2]
	add	x14, x2, x1
	mov	x9, xzr
	add	x11, x0, #32
	add	x12, x0, #544
	sub	x13, x2, #64
	sub	x14, x14, #1
	sub	x15, x2, #80
	sub	x16, x2, #96
	sub	x17, x2, #112
	sub	x18, x2, #16
	sub	x0, x2, #32
	sub	x3, x2, #48
	sub	x4, x2, #128
	mov	x5, x2
	b	.LBB1_6
.LBB1_2:
	mov	x19, xzr
.LBB1_3:
	mov	x20, xzr
.LBB1_4:
	mov	w6, wzr
.LBB1_5:
	add	x7, x11, x9, lsl #4
	sub	x13, x13, x10
	sub	x15, x15, x10
	sub	x16, x16, x10
	sub	x17, x17, x10
	sub	x5, x5, x10
	stp	x19, x20, [x7]
	sub	x18, x18, x10
	sub	x0, x0, x10
	strh	w6, [x12, x9, lsl #1]
	add	x9, x9, #1
	sub	x3, x3, x10
	cmp	x9, x8
	sub	x4, x4, x10
	b.eq	.LBB1_76
.LBB1_6:
	mul	x19, x9, x10
	sub	x7, x2, x19
	add	x6, x1, x19
	cmp	x7, #63
	b.hi	.LBB1_11
	cbz	w10, .LBB1_2
	cmp	x7, #15
	b.hi	.LBB1_15
	cmp	x2, x19
	b.ne	.LBB1_17
	mov	w21, wzr
	b	.LBB1_19
.LBB1_11:
	ldp	q1, q0, [x6]
	adrp	x19, .LCPI1_0
	ldp	q2, q3, [x6, #32]
	cmp	w10, #65
	cmtst	v0.16b, v0.16b, v0.16b
	cmtst	v1.16b, v1.16b, v1.16b
	cmtst	v2.16b, v2.16b, v2.16b
	cmtst	v3.16b, v3.16b, v3.16b
	cmlt	v4.16b, v0.16b, #0
	ldr	q0, [x19, :lo12:.LCPI1_0]
	cmlt	v1.16b, v1.16b, #0
	cmlt	v2.16b, v2.16b, #0
	cmlt	v3.16b, v3.16b, #0
	and	v4.16b, v4.16b, v0.16b
	and	v1.16b, v1.16b, v0.16b
	and	v2.16b, v2.16b, v0.16b
	and	v3.16b, v3.16b, v0.16b
	ext	v5.16b, v4.16b, v4.16b, #8
	ext	v6.16b, v1.16b, v1.16b, #8
	zip1	v4.16b, v4.16b, v5.16b
	ext	v5.16b, v2.16b, v2.16b, #8
	zip1	v1.16b, v1.16b, v6.16b
	ext	v6.16b, v3.16b, v3.16b, #8
	addv	h4, v4.8h
	zip1	v2.16b, v2.16b, v5.16b
	addv	h1, v1.8h
	zip1	v3.16b, v3.16b, v6.16b
	fmov	w19, s4
	fmov	w20, s1
	addv	h2, v2.8h
	addv	h1, v3.8h
	lsl	w19, w19, #16
	bfxil	x19, x20, #0, #16
	fmov	w20, s2
	orr	x19, x19, x20, lsl #32
	fmov	w20, s1
	orr	x19, x19, x20, lsl #48
	b.lo	.LBB1_3
	sub	x20, x7, #64
	cmp	x20, #15
	b.hi	.LBB1_16
	cmp	x7, #64
	b.ne	.LBB1_25
	mov	w20, wzr
	b	.LBB1_27
.LBB1_15:
	ldr	q0, [x6]
	adrp	x19, .LCPI1_0
	ldr	q1, [x19, :lo12:.LCPI1_0]
	cmeq	v0.16b, v0.16b, #0
	bic	v0.16b, v1.16b, v0.16b
	ext	v1.16b, v0.16b, v0.16b, #8
	zip1	v0.16b, v0.16b, v1.16b
	addv	h0, v0.8h
	fmov	w21, s0
	b	.LBB1_19
.LBB1_16:
	ldr	q1, [x6, #64]
	cmeq	v1.16b, v1.16b, #0
	bic	v1.16b, v0.16b, v1.16b
	ext	v2.16b, v1.16b, v1.16b, #8
	zip1	v1.16b, v1.16b, v2.16b
	addv	h1, v1.8h
	fmov	w20, s1
	b	.LBB1_27
.LBB1_17:
	mov	w21, wzr
	mov	x19, x14
	mov	x20, x5
.LBB1_18:
	ldrb	w22, [x19], #-1
	cmp	w22, #0
	cset	w22, ne
	subs	x20, x20, #1
	orr	w21, w22, w21, lsl #1
	b.ne	.LBB1_18
.LBB1_19:
	cmp	w10, #17
	b.lo	.LBB1_23
	sub	x19, x7, #16
	cmp	x19, #16
	b.hs	.LBB1_24
	cmp	x7, #16
	b.ne	.LBB1_32
	mov	w19, wzr
	b	.LBB1_34
.LBB1_23:
	mov	x20, xzr
	and	x19, x21, #0xffff
	b	.LBB1_67
.LBB1_24:
	ldr	q0, [x6, #16]
	adrp	x19, .LCPI1_0
	ldr	q1, [x19, :lo12:.LCPI1_0]
	cmeq	v0.16b, v0.16b, #0
	bic	v0.16b, v1.16b, v0.16b
	ext	v1.16b, v0.16b, v0.16b, #8
	zip1	v0.16b, v0.16b, v1.16b
	addv	h0, v0.8h
	fmov	w19, s0
	b	.LBB1_34
.LBB1_25:
	mov	w20, wzr
	mov	x21, x14
	mov	x22, x13
.LBB1_26:
	ldrb	w23, [x21], #-1
	cmp	w23, #0
	cset	w23, ne
	subs	x22, x22, #1
	orr	w20, w23, w20, lsl #1
	b.ne	.LBB1_26
.LBB1_27:
	cmp	w10, #81
	and	x20, x20, #0xffff
	b.lo	.LBB1_67
	sub	x21, x7, #80
	cmp	x21, #16
	b.hs	.LBB1_31
	cmp	x7, #80
	b.ne	.LBB1_39
	mov	w21, wzr
	b	.LBB1_41
.LBB1_31:
	ldr	q1, [x6, #80]
	cmeq	v1.16b, v1.16b, #0
	bic	v1.16b, v0.16b, v1.16b
	ext	v2.16b, v1.16b, v1.16b, #8
	zip1	v1.16b, v1.16b, v2.16b
	addv	h1, v1.8h
	fmov	w21, s1
	b	.LBB1_41
.LBB1_32:
	mov	w19, wzr
	mov	x20, x14
	mov	x22, x18
.LBB1_33:
	ldrb	w23, [x20], #-1
	cmp	w23, #0
	cset	w23, ne
	subs	x22, x22, #1
	orr	w19, w23, w19, lsl #1
	b.ne	.LBB1_33
.LBB1_34:
	lsl	w19, w19, #16
	cmp	w10, #33
	bfxil	x19, x21, #0, #16
	b.lo	.LBB1_66
	sub	x20, x7, #32
	cmp	x20, #16
	b.hs	.LBB1_38
	cmp	x7, #32
	b.ne	.LBB1_46
	mov	w20, wzr
	b	.LBB1_48
.LBB1_38:
	ldr	q0, [x6, #32]
	adrp	x20, .LCPI1_0
	ldr	q1, [x20, :lo12:.LCPI1_0]
	cmeq	v0.16b, v0.16b, #0
	bic	v0.16b, v1.16b, v0.16b
	ext	v1.16b, v0.16b, v0.16b, #8
	zip1	v0.16b, v0.16b, v1.16b
	addv	h0, v0.8h
	fmov	w20, s0
	b	.LBB1_48
.LBB1_39:
	mov	w21, wzr
	mov	x22, x14
	mov	x23, x15
.LBB1_40:
	ldrb	w24, [x22], #-1
	cmp	w24, #0
	cset	w24, ne
	subs	x23, x23, #1
	orr	w21, w24, w21, lsl #1
	b.ne	.LBB1_40
.LBB1_41:
	lsl	w21, w21, #16
	cmp	w10, #97
	orr	x20, x21, x20
	b.lo	.LBB1_67
	sub	x21, x7, #96
	cmp	x21, #16
	b.hs	.LBB1_45
	cmp	x7, #96
	b.ne	.LBB1_53
	mov	w21, wzr
	b	.LBB1_55
.LBB1_45:
	ldr	q1, [x6, #96]
	cmeq	v1.16b, v1.16b, #0
	bic	v1.16b, v0.16b, v1.16b
	ext	v2.16b, v1.16b, v1.16b, #8
	zip1	v1.16b, v1.16b, v2.16b
	addv	h1, v1.8h
	fmov	w21, s1
	b	.LBB1_55
.LBB1_46:
	mov	w20, wzr
	mov	x21, x14
	mov	x22, x0
.LBB1_47:
	ldrb	w23, [x21], #-1
	cmp	w23, #0
	cset	w23, ne
	subs	x22, x22, #1
	orr	w20, w23, w20, lsl #1
	b.ne	.LBB1_47
.LBB1_48:
	and	w20, w20, #0xffff
	cmp	w10, #49
	orr	x19, x19, x20, lsl #32
	b.lo	.LBB1_66
	sub	x20, x7, #48
	cmp	x20, #16
	b.hs	.LBB1_52
	cmp	x7, #48
	b.ne	.LBB1_59
	mov	w20, wzr
	b	.LBB1_61
.LBB1_52:
	ldr	q0, [x6, #48]
	adrp	x20, .LCPI1_0
	ldr	q1, [x20, :lo12:.LCPI1_0]
	cmeq	v0.16b, v0.16b, #0
	bic	v0.16b, v1.16b, v0.16b
	ext	v1.16b, v0.16b, v0.16b, #8
	zip1	v0.16b, v0.16b, v1.16b
	addv	h0, v0.8h
	fmov	w20, s0
	b	.LBB1_61
.LBB1_53:
	mov	w21, wzr
	mov	x22, x14
	mov	x23, x16
.LBB1_54:
	ldrb	w24, [x22], #-1
	cmp	w24, #0
	cset	w24, ne
	subs	x23, x23, #1
	orr	w21, w24, w21, lsl #1
	b.ne	.LBB1_54
.LBB1_55:
	and	w21, w21, #0xffff
	cmp	w10, #113
	orr	x20, x20, x21, lsl #32
	b.lo	.LBB1_67
	sub	x21, x7, #112
	cmp	x21, #16
	b.hs	.LBB1_65
	cmp	x7, #112
	b.ne	.LBB1_73
	mov	w21, wzr
	b	.LBB1_75
.LBB1_59:
	mov	w20, wzr
	mov	x21, x14
	mov	x22, x3
.LBB1_60:
	ldrb	w23, [x21], #-1
	cmp	w23, #0
	cset	w23, ne
	subs	x22, x22, #1
	orr	w20, w23, w20, lsl #1
	b.ne	.LBB1_60
.LBB1_61:
	orr	x19, x19, x20, lsl #48
	cmp	w10, #65
	b.lo	.LBB1_66
	ldr	q0, [x6, #64]
	adrp	x20, .LCPI1_0
	cmp	w10, #81
	cmeq	v1.16b, v0.16b, #0
	ldr	q0, [x20, :lo12:.LCPI1_0]
	bic	v1.16b, v0.16b, v1.16b
	ext	v2.16b, v1.16b, v1.16b, #8
	zip1	v1.16b, v1.16b, v2.16b
	addv	h1, v1.8h
	umov	w20, v1.h[0]
	b.lo	.LBB1_67
	ldr	q1, [x6, #80]
	cmp	w10, #97
	cmeq	v1.16b, v1.16b, #0
	bic	v1.16b, v0.16b, v1.16b
	ext	v2.16b, v1.16b, v1.16b, #8
	zip1	v1.16b, v1.16b, v2.16b
	addv	h1, v1.8h
	fmov	w21, s1
	lsl	w21, w21, #16
	orr	x20, x21, x20
	b.lo	.LBB1_67
	ldr	q1, [x6, #96]
	cmp	w10, #113
	cmeq	v1.16b, v1.16b, #0
	bic	v1.16b, v0.16b, v1.16b
	ext	v2.16b, v1.16b, v1.16b, #8
	zip1	v1.16b, v1.16b, v2.16b
	addv	h1, v1.8h
	fmov	w21, s1
	orr	x20, x20, x21, lsl #32
	b.lo	.LBB1_67
.LBB1_65:
	ldr	q1, [x6, #112]
	cmeq	v1.16b, v1.16b, #0
	bic	v0.16b, v0.16b, v1.16b
	ext	v1.16b, v0.16b, v0.16b, #8
	zip1	v0.16b, v0.16b, v1.16b
	addv	h0, v0.8h
	fmov	w21, s0
	b	.LBB1_75
.LBB1_66:
	mov	x20, xzr
.LBB1_67:
	cmp	w10, #129
	b.lo	.LBB1_4
	sub	x7, x7, #128
	cmp	x7, #15
	b.hi	.LBB1_72
	mov	w6, wzr
	cbz	x7, .LBB1_5
	mov	x7, x14
	mov	x21, x4
.LBB1_71:
	ldrb	w22, [x7], #-1
	cmp	w22, #0
	cset	w22, ne
	subs	x21, x21, #1
	orr	w6, w22, w6, lsl #1
	b.ne	.LBB1_71
	b	.LBB1_5
.LBB1_72:
	ldr	q0, [x6, #128]
	adrp	x6, .LCPI1_0
	ldr	q1, [x6, :lo12:.LCPI1_0]
	cmeq	v0.16b, v0.16b, #0
	bic	v0.16b, v1.16b, v0.16b
	ext	v1.16b, v0.16b, v0.16b, #8
	zip1	v0.16b, v0.16b, v1.16b
	addv	h0, v0.8h
	fmov	w6, s0
	b	.LBB1_5
.LBB1_73:
	mov	w21, wzr
	mov	x22, x14
	mov	x23, x17
.LBB1_74:
	ldrb	w24, [x22], #-1
	cmp	w24, #0
	cset	w24, ne
	subs	x23, x23, #1
	orr	w21, w24, w21, lsl #1
	b.ne	.LBB1_74
.LBB1_75:
	orr	x20, x20, x21, lsl #48
	b	.LBB1_67
.LBB1_76:
	ldp	x20, x19, [sp, #32]
	ldp	x22, x21, [sp, #16]
	ldp	x24, x23, [sp], #48
	.cfi_def_cfa_offset 0
	.cfi_restore w19
	.cfi_restore w20
	.cfi_restore w21
	.cfi_restore w22
	.cfi_restore w23
	.cfi_restore w24
.LBB1_77:
	ret
.Lfunc_end1:
	.size	"ecc200_calls::modules::put_modules::<=32>", .Lfunc_end1-"ecc200_calls::modules::put_modules::<=32>"
	.cfi_endproc

	.p2align	2
	.type	"ecc200_calls::inspection::inspect_symbol::<=32,=98>",@function
"ecc200_calls::inspection::inspect_symbol::<=32,=98>":
	.cfi_startproc
	str	x29, [sp, #-80]!
	.cfi_def_cfa_offset 80
	stp	x30, x25, [sp, #16]
	stp	x24, x23, [sp, #32]
	stp	x22, x21, [sp, #48]
	stp	x20, x19, [sp, #64]
	.cfi_offset w19, -8
	.cfi_offset w20, -16
	.cfi_offset w21, -24
	.cfi_offset w22, -32
	.cfi_offset w23, -40
	.cfi_offset w24, -48
	.cfi_offset w25, -56
	.cfi_offset w30, -64
	.cfi_offset w29, -80
	sub	sp, sp, #464
	.cfi_def_cfa_offset 544
	.cfi_remember_state
	movi	v0.2d, #0000000000000000
	ldur	x8, [x0, #4]
	ldrh	w9, [x0, #12]
	mov	x22, sp
	str	wzr, [sp, #452]
	ldrh	w23, [x0]
	add	x20, x22, #138
	ldrh	w24, [x0, #2]
	mov	x19, x3
	stp	q0, q0, [sp, #16]
	str	q0, [sp]
	stur	x8, [sp, #4]
	stp	q0, q0, [sp, #48]
	stp	q0, q0, [sp, #80]
	stp	q0, q0, [sp, #112]
	stur	x8, [sp, #122]
	ldr	w8, [x0, #16]
	strh	w9, [sp, #12]
	str	w8, [sp, #448]
	ldr	x8, [sp, #448]
	strh	w9, [sp, #130]
	add	x9, x0, #32
	stur	q0, [sp, #100]
	stur	q0, [sp, #84]
	stur	q0, [sp, #68]
	stur	q0, [sp, #52]
	stur	q0, [sp, #36]
	stur	q0, [sp, #20]
	stur	q0, [x20, #142]
	str	q0, [x20, #128]
	stur	q0, [x22, #250]
	stur	q0, [x22, #234]
	stur	q0, [x22, #218]
	stur	q0, [x22, #202]
	stur	q0, [x22, #186]
	stur	q0, [x22, #170]
	stur	q0, [x22, #154]
	stur	q0, [x22, #138]
	ldr	q0, [x0]
	stp	x8, x9, [sp, #384]
	mov	w8, #32
	add	x9, x0, #544
	strh	wzr, [sp, #116]
	str	q0, [sp, #432]
	str	q0, [sp, #368]
	stp	x8, x9, [sp, #400]
	str	x8, [sp, #416]
	tbz	w1, #0, .LBB2_7
	ldr	w8, [x2, #16]
	mov	w9, #32
	ldr	x10, [x0]
	ldr	q0, [x2]
	ldrh	w21, [sp, #382]
	mov	w1, #1
	str	w8, [sp, #320]
	add	x8, x2, #32
	stp	x8, x9, [sp, #328]
	add	x8, x2, #544
	add	x2, sp, #304
	stp	x8, x9, [sp, #344]
	ldur	x8, [x0, #6]
	add	x0, sp, #368
	stur	x10, [x22, #118]
	stur	x8, [x22, #124]
	stur	x8, [sp, #6]
	ldr	w8, [sp, #384]
	str	q0, [sp, #304]
	str	wzr, [sp, #324]
	str	x10, [sp]
	strh	w21, [sp, #14]
	str	w8, [sp, #16]
	strh	w21, [sp, #132]
	stur	w8, [x22, #134]
	bl	"dm_layout::symbols::border::border_faults"
	ldrh	w8, [sp, #380]
	strh	w0, [sp, #288]
	add	x0, sp, #368
	add	x1, x22, #20
	add	w8, w8, w21
	and	w25, w8, #0xffff
	and	x21, x8, #0xffff
	bl	"dm_layout::symbols::placing::lift_to"
	cmp	w25, #119
	b.lo	.LBB2_8
	and	x9, x21, #0xfff8
	add	x8, x22, #138
	and	x10, x21, #0xfff8
.LBB2_3:
	ldur	d0, [x8, #-118]
	subs	x10, x10, #8
	str	d0, [x8], #8
	b.ne	.LBB2_3
	subs	x8, x21, x9
	b.eq	.LBB2_9
	mov	x10, sp
	add	x9, x9, x10
	add	x9, x9, #138
.LBB2_6:
	ldurb	w10, [x9, #-118]
	subs	x8, x8, #1
	strb	w10, [x9], #1
	b.ne	.LBB2_6
	b	.LBB2_9
.LBB2_7:
	ldr	x8, [x0]
	ldur	x9, [x0, #6]
	add	x0, sp, #368
	ldrh	w10, [sp, #382]
	mov	w1, wzr
	mov	x2, xzr
	stur	x8, [x22, #118]
	str	x8, [sp]
	ldr	w8, [sp, #384]
	stur	x9, [x22, #124]
	stur	x9, [sp, #6]
	strh	w10, [sp, #14]
	str	w8, [sp, #16]
	strh	w10, [sp, #132]
	stur	w8, [x22, #134]
	bl	"dm_layout::symbols::border::border_faults"
	strh	w0, [sp, #288]
	add	x0, sp, #368
	add	x3, x22, #20
	add	x4, x22, #138
	add	x5, x22, #240
	mov	w1, wzr
	mov	x2, xzr
	bl	"dm_symbol::symbol::inspection::mend"
	and	w0, w0, #0xff
	b	.LBB2_14
.LBB2_8:
	add	x0, x22, #138
	add	x1, x22, #20
	mov	x2, x21
	bl	memmove
.LBB2_9:
	add	x0, sp, #432
	add	x1, x22, #138
	add	x3, sp, #304
	add	x4, x22, #240
	mov	x2, x21
	bl	"dm_symbol::symbol::inspection::mend_doubtful"
	ldr	x8, [sp, #280]
	add	x9, x22, #240
	add	x8, x8, #1
.LBB2_10:
	subs	x8, x8, #1
	b.eq	.LBB2_13
	ldrb	w10, [x9], #4
	cmp	w10, #1
	b.eq	.LBB2_10
	add	x0, sp, #368
	add	x2, sp, #304
	add	x3, x22, #138
	add	x5, x22, #240
	mov	w1, #1
	mov	x4, x21
	bl	"dm_symbol::symbol::inspection::mend_restarted"
	b	.LBB2_14
.LBB2_13:
	mov	w0, wzr
.LBB2_14:
	movi	v0.2d, #0000000000000000
	ldrh	w8, [sp, #288]
	ldrh	w9, [sp, #12]
	ldrh	w10, [sp, #14]
	ldr	x25, [sp, #280]
	strb	w0, [sp, #236]
	strh	w8, [x19, #10]
	add	w8, w10, w9
	mov	x9, sp
	strh	w24, [x19, #8]
	mov	v0.h[3], w23
	add	x23, x9, #240
	strh	w0, [x19, #16]
	strh	w25, [x19, #12]
	strh	w8, [x19, #14]
	strh	wzr, [x19, #18]
	str	d0, [x19]
	cbz	x25, .LBB2_22
	cmp	x25, #8
	b.hs	.LBB2_17
	mov	x9, xzr
	b	.LBB2_20
.LBB2_17:
	mov	w9, #6272
	mov	x11, x23
	and	x12, x25, #0xfffffffffffffff8
	add	x10, x19, x9
	and	x9, x25, #0xfffffffffffffff8
.LBB2_18:
	ld4	{ v0.8b, v1.8b, v2.8b, v3.8b }, [x11], #32
	movi	v4.8b, #1
	subs	x12, x12, #8
	cmeq	v4.8b, v0.8b, v4.8b
	and	v5.8b, v1.8b, v4.8b
	and	v6.8b, v4.8b, v2.8b
	and	v0.8b, v4.8b, v3.8b
	orn	v5.8b, v5.8b, v4.8b
	stur	d6, [x10, #-10]
	stur	d5, [x10, #-20]
	str	d0, [x10], #8
	b.ne	.LBB2_18
	cmp	x25, x9
	b.eq	.LBB2_22
.LBB2_20:
	mov	x10, sp
	add	x11, x9, x19
	mov	w12, #6252
	add	x10, x10, x9, lsl #2
	sub	x9, x25, x9
	add	x11, x11, x12
	add	x10, x10, #243
.LBB2_21:
	ldurb	w12, [x10, #-3]
	ldurb	w13, [x10, #-2]
	ldurb	w14, [x10, #-1]
	cmp	w12, #1
	ldrb	w12, [x10], #4
	csinv	w13, w13, wzr, eq
	csel	w14, w14, wzr, eq
	csel	w12, w12, wzr, eq
	strb	w13, [x11]
	subs	x9, x9, #1
	strb	w14, [x11, #10]
	strb	w12, [x11, #20]
	add	x11, x11, #1
	b.ne	.LBB2_21
.LBB2_22:
	mov	w9, #6282
	add	x1, x22, #20
	and	x2, x8, #0xffff
	add	x0, x19, x9
	bl	memcpy
	ldrh	w21, [sp, #130]
	ldrh	w8, [sp, #132]
	mov	w9, #8460
	add	x0, x19, x9
	mov	x1, x20
	add	w8, w8, w21
	and	x2, x8, #0xffff
	bl	memcpy
	add	x8, x25, #1
.LBB2_23:
	subs	x8, x8, #1
	b.eq	.LBB2_25
	ldrb	w9, [x23], #4
	cmp	w9, #1
	b.eq	.LBB2_23
	b	.LBB2_42
.LBB2_25:
	cbz	w21, .LBB2_42
	cmp	w21, #4
	b.hs	.LBB2_28
	mov	w9, wzr
	mov	x8, xzr
	b	.LBB2_37
.LBB2_28:
	cmp	w21, #16
	b.hs	.LBB2_30
	mov	x8, xzr
	mov	w9, wzr
	b	.LBB2_34
.LBB2_30:
	movi	v0.2d, #0000000000000000
	and	x10, x21, #0xc
	and	x8, x21, #0xfff0
	mov	x9, x20
	and	x11, x21, #0xfff0
.LBB2_31:
	movi	v1.16b, #241
	ldr	q2, [x9], #16
	subs	x11, x11, #16
	cmeq	v1.16b, v2.16b, v1.16b
	orr	v0.16b, v0.16b, v1.16b
	b.ne	.LBB2_31
	shl	v0.16b, v0.16b, #7
	cmp	x8, x21
	cmlt	v0.16b, v0.16b, #0
	umaxv	b0, v0.16b
	fmov	w9, s0
	and	w9, w9, #0x1
	b.eq	.LBB2_39
	cbz	x10, .LBB2_37
.LBB2_34:
	movi	v0.2d, #0000000000000000
	mov	x10, sp
	mov	v0.h[0], w9
	mov	x9, x8
	and	x8, x21, #0xfffc
	add	x10, x9, x10
	sub	x9, x9, x8
	add	x10, x10, #138
.LBB2_35:
	ldr	s1, [x10], #4
	movi	v2.4h, #241
	adds	x9, x9, #4
	ushll	v1.8h, v1.8b, #0
	cmeq	v1.4h, v1.4h, v2.4h
	orr	v0.8b, v0.8b, v1.8b
	b.ne	.LBB2_35
	shl	v0.4h, v0.4h, #15
	cmp	x8, x21
	cmlt	v0.4h, v0.4h, #0
	umaxv	h0, v0.4h
	fmov	w9, s0
	and	w9, w9, #0x1
	b.eq	.LBB2_39
.LBB2_37:
	mov	x10, sp
	add	x10, x8, x10
	sub	x8, x21, x8
	add	x10, x10, #138
.LBB2_38:
	ldrb	w11, [x10], #1
	cmp	w11, #241
	cset	w11, eq
	subs	x8, x8, #1
	orr	w9, w9, w11
	b.ne	.LBB2_38
.LBB2_39:
	tbz	w9, #0, .LBB2_42
	cmp	w21, #4
	b.hs	.LBB2_44
	mov	w9, wzr
	mov	x8, xzr
	b	.LBB2_53
.LBB2_42:
	strh	wzr, [x19, #18]
.LBB2_43:
	add	sp, sp, #464
	.cfi_def_cfa_offset 80
	ldp	x20, x19, [sp, #64]
	ldp	x22, x21, [sp, #48]
	ldp	x24, x23, [sp, #32]
	ldp	x30, x25, [sp, #16]
	ldr	x29, [sp], #80
	.cfi_def_cfa_offset 0
	.cfi_restore w19
	.cfi_restore w20
	.cfi_restore w21
	.cfi_restore w22
	.cfi_restore w23
	.cfi_restore w24
	.cfi_restore w25
	.cfi_restore w30
	.cfi_restore w29
	ret
.LBB2_44:
	.cfi_restore_state
	cmp	w21, #16
	b.hs	.LBB2_46
	mov	x8, xzr
	mov	w9, wzr
	b	.LBB2_50
.LBB2_46:
	movi	v0.2d, #0000000000000000
	movi	v1.2d, #0000000000000000
	and	x10, x21, #0xc
	and	x8, x21, #0xfff0
	mov	x9, x20
	and	x11, x21, #0xfff0
.LBB2_47:
	movi	v2.16b, #241
	ldr	q3, [x9], #16
	subs	x11, x11, #16
	cmeq	v2.16b, v3.16b, v2.16b
	movi	v3.8h, #1
	ushll	v4.8h, v2.8b, #0
	ushll2	v2.8h, v2.16b, #0
	and	v4.16b, v4.16b, v3.16b
	and	v2.16b, v2.16b, v3.16b
	add	v0.8h, v0.8h, v2.8h
	add	v1.8h, v1.8h, v4.8h
	b.ne	.LBB2_47
	add	v0.8h, v1.8h, v0.8h
	cmp	x8, x21
	addv	h0, v0.8h
	fmov	w9, s0
	b.eq	.LBB2_55
	cbz	x10, .LBB2_53
.LBB2_50:
	movi	v0.2d, #0000000000000000
	mov	x10, sp
	mov	v0.h[0], w9
	mov	x9, x8
	and	x8, x21, #0xfffc
	add	x10, x9, x10
	sub	x9, x9, x8
	add	x10, x10, #138
.LBB2_51:
	ldr	s1, [x10], #4
	movi	v2.4h, #241
	adds	x9, x9, #4
	ushll	v1.8h, v1.8b, #0
	cmeq	v1.4h, v1.4h, v2.4h
	sub	v0.4h, v0.4h, v1.4h
	b.ne	.LBB2_51
	addv	h0, v0.4h
	cmp	x8, x21
	fmov	w9, s0
	b.eq	.LBB2_55
.LBB2_53:
	mov	x10, sp
	add	x10, x8, x10
	sub	x8, x21, x8
	add	x10, x10, #138
.LBB2_54:
	ldrb	w11, [x10], #1
	cmp	w11, #241
	cinc	w9, w9, eq
	subs	x8, x8, #1
	b.ne	.LBB2_54
.LBB2_55:
	and	w8, w9, #0xffff
	mov	x0, x19
	mov	x1, x20
	mov	x2, x21
	cmp	w8, #31
	b.hi	.LBB2_57
	bl	"ecc200_calls::inspection::find_designators::<=31>"
	b	.LBB2_43
.LBB2_57:
	bl	"ecc200_calls::inspection::find_designators::<=779>"
	b	.LBB2_43
.Lfunc_end2:
	.size	"ecc200_calls::inspection::inspect_symbol::<=32,=98>", .Lfunc_end2-"ecc200_calls::inspection::inspect_symbol::<=32,=98>"
	.cfi_endproc

	.p2align	2
	.type	"dm_layout::symbols::border::border_faults",@function
"dm_layout::symbols::border::border_faults":
	.cfi_startproc
	sub	sp, sp, #176
	.cfi_def_cfa_offset 176
	stp	x29, x30, [sp, #80]
	stp	x28, x27, [sp, #96]
	stp	x26, x25, [sp, #112]
	stp	x24, x23, [sp, #128]
	stp	x22, x21, [sp, #144]
	stp	x20, x19, [sp, #160]
	.cfi_offset w19, -8
	.cfi_offset w20, -16
	.cfi_offset w21, -24
	.cfi_offset w22, -32
	.cfi_offset w23, -40
	.cfi_offset w24, -48
	.cfi_offset w25, -56
	.cfi_offset w26, -64
	.cfi_offset w27, -72
	.cfi_offset w28, -80
	.cfi_offset w30, -88
	.cfi_offset w29, -96
	ldr	w9, [x0]
	ldrh	w4, [x0, #4]
	ldrh	w8, [x0, #6]
	ldrh	w30, [x0, #8]
	ldrh	w16, [x0, #10]
	lsr	w10, w9, #16
	cmp	w10, #128
	tbz	w1, #0, .LBB3_5
	mov	x11, #-1
	b.hi	.LBB3_9
	cbz	w16, .LBB3_11
	mov	x13, xzr
	mov	x12, xzr
	mov	x15, xzr
	mov	x14, xzr
	mov	w9, wzr
	add	w17, w8, #1
	add	w8, w8, #2
.LBB3_4:
	mul	w18, w9, w8
	mov	w1, #1
	add	w9, w9, #1
	lsl	x3, x1, x18
	and	x5, x18, #0xffff
	add	w18, w17, w18
	tst	x5, #0x40
	lsl	x1, x1, x18
	and	x18, x18, #0xffff
	csel	x5, xzr, x3, ne
	csel	x3, x3, xzr, ne
	tst	x18, #0x40
	csel	x18, x1, xzr, ne
	csel	x1, xzr, x1, ne
	orr	x14, x14, x3
	orr	x15, x15, x5
	orr	x12, x3, x12
	cmp	w16, w9, uxth
	orr	x13, x5, x13
	orr	x14, x14, x18
	orr	x15, x15, x1
	b.hi	.LBB3_4
	b	.LBB3_12
.LBB3_5:
	mov	x27, #-1
	b.hi	.LBB3_10
	cbz	w16, .LBB3_31
	mov	x13, xzr
	mov	x12, xzr
	mov	x15, xzr
	mov	x14, xzr
	mov	w9, wzr
	add	w17, w8, #1
	add	w8, w8, #2
.LBB3_8:
	mul	w18, w9, w8
	mov	w1, #1
	add	w9, w9, #1
	lsl	x2, x1, x18
	and	x3, x18, #0xffff
	add	w18, w17, w18
	tst	x3, #0x40
	lsl	x1, x1, x18
	and	x18, x18, #0xffff
	csel	x3, xzr, x2, ne
	csel	x2, x2, xzr, ne
	tst	x18, #0x40
	csel	x18, x1, xzr, ne
	csel	x1, xzr, x1, ne
	orr	x14, x14, x2
	orr	x15, x15, x3
	orr	x12, x2, x12
	cmp	w16, w9, uxth
	orr	x13, x3, x13
	orr	x14, x14, x18
	orr	x15, x15, x1
	b.hi	.LBB3_8
	b	.LBB3_32
.LBB3_9:
	add	w16, w8, #1
	mov	w17, #1
	add	w6, w8, #2
	lsl	x9, x17, x16
	and	x12, x16, #0xffff
	lsl	x14, x17, x6
	tst	x12, #0x40
	and	x15, x6, #0xffff
	add	w1, w16, w6
	csel	x13, xzr, x9, ne
	csel	x12, x9, xzr, ne
	lsl	w9, w6, #1
	tst	x15, #0x40
	and	x3, x1, #0xffff
	lsl	x15, x17, x1
	csel	x18, x14, xzr, ne
	csel	x1, xzr, x14, ne
	tst	x3, #0x40
	and	x3, x9, #0x3e
	and	x5, x9, #0xfffe
	add	w7, w9, w16
	lsl	x3, x17, x3
	csel	x14, xzr, x15, ne
	csel	x15, x15, xzr, ne
	tst	x5, #0x40
	lsl	x19, x17, x7
	and	x20, x7, #0xffff
	csel	x5, x3, xzr, ne
	csel	x7, xzr, x3, ne
	tst	x20, #0x40
	add	w20, w9, w6
	csel	x3, x19, xzr, ne
	csel	x9, xzr, x19, ne
	and	x19, x20, #0xffff
	lsl	w6, w6, #2
	lsl	x21, x17, x20
	tst	x19, #0x40
	add	w19, w20, w16
	add	w8, w8, w8, lsl #2
	lsl	x20, x17, x19
	and	x19, x19, #0xffff
	and	x23, x6, #0x3c
	csel	x22, xzr, x21, ne
	csel	x21, x21, xzr, ne
	tst	x19, #0x40
	lsl	x23, x17, x23
	and	x24, x6, #0xfffc
	add	w16, w6, w16
	csel	x19, xzr, x20, ne
	csel	x20, x20, xzr, ne
	tst	x24, #0x40
	lsl	x24, x17, x16
	and	x16, x16, #0xffff
	add	w8, w8, #10
	csel	x6, x23, xzr, ne
	csel	x23, xzr, x23, ne
	tst	x16, #0x40
	lsl	x16, x17, x8
	and	x8, x8, #0xffff
	csel	x25, x24, xzr, ne
	csel	x24, xzr, x24, ne
	tst	x8, #0x40
	mov	w8, #144
	sub	w8, w8, w10
	mov	w27, #65535
	csel	x26, xzr, x16, ne
	csel	x28, x16, xzr, ne
	lsr	w16, w27, w8
	orr	x8, x1, x7
	orr	x1, x22, x23
	orr	x15, x12, x15
	orr	x18, x18, x5
	orr	x5, x21, x6
	orr	x8, x8, x1
	orr	x13, x13, x14
	orr	x14, x15, x3
	orr	x18, x18, x5
	orr	x8, x8, x26
	orr	x9, x13, x9
	orr	x14, x14, x20
	orr	x12, x18, x28
	orr	x13, x8, #0x1
	orr	x8, x9, x19
	orr	x9, x14, x25
	orr	x14, x12, x9
	sub	w9, w10, #129
	orr	x8, x8, x24
	lsl	w17, w17, w9
	orr	x15, x13, x8
	and	w21, w16, #0x55555555
	mov	x9, #6148914691236517205
	mov	x19, #6148914691236517205
	mov	x18, #-1
	b	.LBB3_13
.LBB3_10:
	add	w16, w8, #1
	mov	w17, #1
	add	w5, w8, #2
	lsl	x9, x17, x16
	and	x12, x16, #0xffff
	lsl	x14, x17, x5
	tst	x12, #0x40
	and	x15, x5, #0xffff
	add	w1, w16, w5
	csel	x13, xzr, x9, ne
	csel	x12, x9, xzr, ne
	lsl	w9, w5, #1
	tst	x15, #0x40
	and	x2, x1, #0xffff
	lsl	x15, x17, x1
	csel	x18, x14, xzr, ne
	csel	x1, xzr, x14, ne
	tst	x2, #0x40
	and	x2, x9, #0x3e
	and	x3, x9, #0xfffe
	add	w6, w9, w16
	lsl	x2, x17, x2
	csel	x14, xzr, x15, ne
	csel	x15, x15, xzr, ne
	tst	x3, #0x40
	lsl	x7, x17, x6
	and	x19, x6, #0xffff
	csel	x3, x2, xzr, ne
	csel	x6, xzr, x2, ne
	tst	x19, #0x40
	add	w19, w9, w5
	csel	x2, x7, xzr, ne
	csel	x9, xzr, x7, ne
	and	x7, x19, #0xffff
	lsl	w5, w5, #2
	lsl	x20, x17, x19
	tst	x7, #0x40
	add	w7, w19, w16
	add	w8, w8, w8, lsl #2
	lsl	x19, x17, x7
	and	x7, x7, #0xffff
	and	x22, x5, #0x3c
	csel	x21, xzr, x20, ne
	csel	x20, x20, xzr, ne
	tst	x7, #0x40
	lsl	x22, x17, x22
	and	x23, x5, #0xfffc
	add	w16, w5, w16
	csel	x7, xzr, x19, ne
	csel	x19, x19, xzr, ne
	tst	x23, #0x40
	lsl	x23, x17, x16
	and	x16, x16, #0xffff
	add	w8, w8, #10
	csel	x5, x22, xzr, ne
	csel	x22, xzr, x22, ne
	tst	x16, #0x40
	lsl	x24, x17, x8
	and	x8, x8, #0xffff
	csel	x16, x23, xzr, ne
	csel	x23, xzr, x23, ne
	tst	x8, #0x40
	mov	w8, #144
	sub	w8, w8, w10
	mov	w26, #65535
	orr	x15, x12, x15
	lsr	w28, w26, w8
	orr	x8, x1, x6
	orr	x1, x21, x22
	csel	x25, xzr, x24, ne
	orr	x18, x18, x3
	orr	x3, x20, x5
	orr	x8, x8, x1
	orr	x13, x13, x14
	orr	x14, x15, x2
	csel	x24, x24, xzr, ne
	orr	x18, x18, x3
	orr	x8, x8, x25
	orr	x9, x13, x9
	orr	x14, x14, x19
	orr	x12, x18, x24
	orr	x13, x8, #0x1
	orr	x8, x9, x7
	orr	x9, x14, x16
	orr	x14, x12, x9
	sub	w9, w10, #129
	orr	x8, x8, x23
	lsl	w17, w17, w9
	orr	x15, x13, x8
	and	w16, w28, #0x55555555
	mov	x9, #6148914691236517205
	mov	x2, #6148914691236517205
	mov	x22, #-1
	b	.LBB3_33
.LBB3_11:
	mov	x15, xzr
	mov	x14, xzr
	mov	x13, xzr
	mov	x12, xzr
.LBB3_12:
	lsr	x8, x11, #1
	mvn	w9, w10
	lsl	x11, x11, x10
	tst	x10, #0x40
	mov	w17, wzr
	mov	w21, wzr
	lsr	x8, x8, x9
	mov	x9, #6148914691236517205
	mov	w16, wzr
	orr	x8, x11, x8
	csel	x8, x11, x8, ne
	csel	x11, xzr, x11, ne
	mvn	x18, x8
	bic	x19, x9, x8
	bic	x9, x9, x11
	mvn	x11, x11
.LBB3_13:
	cbz	w30, .LBB3_63
	add	w3, w4, #1
	ldr	x5, [x0, #24]
	ldr	x6, [x2, #24]
	ands	w7, w3, #0xffff
	mov	x1, xzr
	mov	w8, wzr
	lsr	w7, w7, #1
	add	w4, w4, #2
	csel	x19, x18, x19, eq
	csel	x20, x11, x9, eq
	csel	w21, w16, w21, eq
	b	.LBB3_17
.LBB3_15:
	ldr	x25, [x0, #40]
	ldr	x26, [x2, #40]
	movi	v0.2d, #0000000000000000
	fmov	d1, x9
	ldrh	w25, [x25, x24, lsl #1]
	ldrh	w24, [x26, x24, lsl #1]
	bic	w25, w16, w25
	mvn	w24, w24
	mov	v1.d[1], x23
	and	x24, x24, x25
	mov	v0.d[0], x24
	cnt	v1.16b, v1.16b
	cnt	v0.16b, v0.16b
	addv	b1, v1.16b
	addv	b0, v0.16b
	fmov	w9, s1
	fmov	w23, s0
	add	w9, w23, w9
.LBB3_16:
	add	x1, x1, #1
	add	w8, w22, w8
	cmp	x1, x30
	add	w8, w8, w9
	b.eq	.LBB3_64
.LBB3_17:
	mul	w9, w4, w1
	cmp	w10, #128
	and	x23, x9, #0xffff
	lsl	x9, x23, #4
	add	x22, x5, x9
	add	x9, x6, x9
	ldp	x24, x22, [x22]
	ldp	x9, x25, [x9]
	eor	x22, x22, x19
	eor	x24, x24, x20
	bic	x9, x24, x9
	bic	x22, x22, x25
	and	x22, x22, x18
	and	x9, x9, x11
	b.hi	.LBB3_19
	fmov	d0, x9
	fmov	d1, x9
	cmp	w10, #64
	mov	v0.d[1], x22
	cnt	v1.8b, v1.8b
	cnt	v0.16b, v0.16b
	addv	b1, v1.8b
	fmov	w22, s1
	addv	b0, v0.16b
	fmov	w9, s0
	csel	w22, w9, w22, hi
	b	.LBB3_20
.LBB3_19:
	ldr	x24, [x0, #40]
	ldr	x25, [x2, #40]
	movi	v0.2d, #0000000000000000
	fmov	d1, x9
	ldrh	w24, [x24, x23, lsl #1]
	ldrh	w25, [x25, x23, lsl #1]
	eor	w24, w24, w21
	mov	v1.d[1], x22
	and	w24, w24, w16
	bic	x24, x24, x25
	mov	v0.d[0], x24
	cnt	v1.16b, v1.16b
	cnt	v0.16b, v0.16b
	addv	b1, v1.16b
	addv	b0, v0.16b
	fmov	w9, s1
	fmov	w22, s0
	add	w22, w22, w9
.LBB3_20:
	tst	w7, #0xffff
	b.eq	.LBB3_29
	mov	x24, xzr
	b	.LBB3_24
.LBB3_22:
	fmov	d0, x26
	ldr	x26, [x0, #40]
	ldrh	w26, [x26, x9, lsl #1]
	mov	v0.d[1], x27
	ldr	x27, [x2, #40]
	and	w26, w26, w17
	ldrh	w9, [x27, x9, lsl #1]
	cnt	v0.16b, v0.16b
	eor	x9, x9, #0xffff
	tst	x26, x9
	addv	b0, v0.16b
	fmov	w27, s0
	cinc	w9, w27, ne
.LBB3_23:
	add	x24, x24, #1
	add	w22, w25, w22
	cmp	x7, x24
	add	w22, w22, w9
	b.eq	.LBB3_29
.LBB3_24:
	add	w9, w23, w24, lsl #1
	cmp	w10, #128
	add	w25, w9, #1
	and	x25, x25, #0xffff
	lsl	x26, x25, #4
	add	x27, x5, x26
	add	x26, x6, x26
	ldp	x27, x28, [x27]
	ldp	x26, x29, [x26]
	orr	x26, x26, x27
	orr	x27, x29, x28
	bic	x27, x14, x27
	bic	x26, x15, x26
	b.hi	.LBB3_26
	fmov	d0, x26
	fmov	d1, x26
	cmp	w10, #64
	mov	v0.d[1], x27
	cnt	v1.8b, v1.8b
	cnt	v0.16b, v0.16b
	addv	b1, v1.8b
	fmov	w26, s1
	addv	b0, v0.16b
	fmov	w25, s0
	csel	w25, w25, w26, hi
	b	.LBB3_27
.LBB3_26:
	fmov	d0, x26
	ldr	x26, [x0, #40]
	ldrh	w26, [x26, x25, lsl #1]
	mov	v0.d[1], x27
	ldr	x27, [x2, #40]
	bic	w26, w17, w26
	ldrh	w25, [x27, x25, lsl #1]
	cnt	v0.16b, v0.16b
	eor	x25, x25, #0xffff
	tst	x26, x25
	addv	b0, v0.16b
	fmov	w27, s0
	cinc	w25, w27, ne
.LBB3_27:
	add	w9, w9, #2
	cmp	w10, #128
	and	x9, x9, #0xffff
	lsl	x26, x9, #4
	add	x27, x5, x26
	add	x26, x6, x26
	ldp	x28, x27, [x27]
	ldp	x26, x29, [x26]
	eor	x27, x27, x12
	eor	x28, x28, x13
	bic	x26, x28, x26
	bic	x27, x27, x29
	and	x27, x27, x14
	and	x26, x26, x15
	b.hi	.LBB3_22
	fmov	d0, x26
	fmov	d1, x26
	cmp	w10, #64
	mov	v0.d[1], x27
	cnt	v1.8b, v1.8b
	cnt	v0.16b, v0.16b
	addv	b1, v1.8b
	fmov	w26, s1
	addv	b0, v0.16b
	fmov	w9, s0
	csel	w9, w9, w26, hi
	b	.LBB3_23
.LBB3_29:
	add	w9, w23, w3
	cmp	w10, #128
	and	x24, x9, #0xffff
	lsl	x9, x24, #4
	add	x23, x5, x9
	add	x9, x6, x9
	ldp	x23, x25, [x23]
	ldp	x9, x26, [x9]
	orr	x9, x9, x23
	orr	x23, x26, x25
	bic	x23, x18, x23
	bic	x9, x11, x9
	b.hi	.LBB3_15
	fmov	d0, x9
	fmov	d1, x9
	cmp	w10, #64
	mov	v0.d[1], x23
	cnt	v1.8b, v1.8b
	cnt	v0.16b, v0.16b
	addv	b1, v1.8b
	fmov	w23, s1
	addv	b0, v0.16b
	fmov	w9, s0
	csel	w9, w9, w23, hi
	b	.LBB3_16
.LBB3_31:
	mov	x15, xzr
	mov	x14, xzr
	mov	x13, xzr
	mov	x12, xzr
.LBB3_32:
	lsr	x8, x27, #1
	mvn	w9, w10
	lsl	x11, x27, x10
	tst	x10, #0x40
	mov	w17, wzr
	mov	w16, wzr
	lsr	x8, x8, x9
	mov	x9, #6148914691236517205
	mov	w28, wzr
	orr	x8, x11, x8
	csel	x8, x11, x8, ne
	csel	x11, xzr, x11, ne
	mvn	x22, x8
	bic	x2, x9, x8
	bic	x9, x9, x11
	mvn	x27, x11
.LBB3_33:
	cbz	w30, .LBB3_63
	add	w29, w4, #1
	dup	v0.8h, w17
	add	w6, w4, #2
	ands	w3, w29, #0xffff
	ldr	x20, [x0, #24]
	mov	x1, xzr
	lsr	w3, w3, #1
	csel	x21, x27, x9, eq
	csel	w9, w28, w16, eq
	csel	x19, x22, x2, eq
	str	w9, [sp, #76]
	mov	w16, #8
	sub	x11, x3, #1
	ands	x9, x3, #0x7
	mov	w8, wzr
	lsl	w11, w11, #1
	csel	x9, x16, x9, eq
	stp	x21, x19, [sp, #40]
	sub	x23, x3, x9
	stp	x27, x30, [sp, #24]
	str	w11, [sp, #72]
	and	x11, x6, #0xffff
	stp	x6, x11, [sp, #56]
	str	w28, [sp, #20]
	str	x22, [sp, #8]
	str	w29, [sp, #4]
	b	.LBB3_37
.LBB3_35:
	add	w9, w24, w29
	cmp	w10, #64
	add	x9, x20, w9, uxth #4
	ldp	x11, x9, [x9]
	bic	x11, x27, x11
	bic	x9, x22, x9
	fmov	d1, x11
	fmov	d2, x11
	mov	v1.d[1], x9
	cnt	v2.8b, v2.8b
	cnt	v1.16b, v1.16b
	addv	b2, v2.8b
	fmov	w11, s2
	addv	b1, v1.16b
	fmov	w9, s1
	csel	w9, w9, w11, hi
.LBB3_36:
	add	x1, x1, #1
	add	w8, w8, w9
	cmp	x1, x30
	add	w8, w26, w8
	b.eq	.LBB3_64
.LBB3_37:
	mul	w9, w6, w1
	cmp	w10, #128
	add	x16, x20, w9, uxth #4
	and	x24, x9, #0xffff
	ldp	x16, x2, [x16]
	eor	x16, x16, x21
	eor	x2, x2, x19
	and	x9, x2, x22
	and	x16, x16, x27
	b.hi	.LBB3_42
	cmp	w10, #64
	b.hi	.LBB3_45
	fmov	d1, x16
	tst	w3, #0xffff
	cnt	v1.8b, v1.8b
	addv	b2, v1.8b
	fmov	w26, s2
	b.eq	.LBB3_35
	and	w9, w29, #0xffff
	cmp	w9, #34
	b.hs	.LBB3_56
	mov	x16, xzr
	b	.LBB3_62
.LBB3_42:
	ldr	x2, [x0, #40]
	ldr	w11, [sp, #76]
	fmov	d1, x16
	tst	w3, #0xffff
	ldrh	w2, [x2, x24, lsl #1]
	mov	v1.d[1], x9
	eor	w2, w2, w11
	and	w16, w2, w28
	fmov	s2, w16
	cnt	v1.16b, v1.16b
	cnt	v2.8b, v2.8b
	addv	b1, v1.16b
	addv	b2, v2.8b
	fmov	w9, s1
	fmov	w16, s2
	add	w26, w16, w9
	b.eq	.LBB3_55
	and	w9, w29, #0xffff
	ldr	x25, [x0, #40]
	cmp	w9, #18
	b.hs	.LBB3_48
	mov	x7, xzr
	b	.LBB3_54
.LBB3_45:
	fmov	d1, x16
	tst	w3, #0xffff
	mov	v1.d[1], x9
	cnt	v1.16b, v1.16b
	addv	b1, v1.16b
	fmov	w26, s1
	b.eq	.LBB3_35
	mov	x9, xzr
.LBB3_47:
	add	w16, w24, w9, lsl #1
	add	x9, x9, #1
	cmp	x3, x9
	add	w2, w16, #1
	add	w16, w16, #2
	add	x2, x20, w2, uxth #4
	add	x16, x20, w16, uxth #4
	ldp	x4, x2, [x2]
	ldp	x5, x16, [x16]
	bic	x4, x15, x4
	bic	x2, x14, x2
	fmov	d1, x4
	eor	x4, x5, x13
	eor	x16, x16, x12
	and	x4, x4, x15
	and	x16, x16, x14
	fmov	d2, x4
	mov	v1.d[1], x2
	mov	v2.d[1], x16
	cnt	v1.16b, v1.16b
	cnt	v2.16b, v2.16b
	addv	b1, v1.16b
	addv	b2, v2.16b
	fmov	w16, s1
	fmov	w2, s2
	add	w16, w26, w16
	add	w26, w16, w2
	b.ne	.LBB3_47
	b	.LBB3_35
.LBB3_48:
	ldr	x9, [sp, #64]
	mov	w16, #-2
	ldr	w11, [sp, #72]
	mov	x7, xzr
	mul	w9, w1, w9
	sub	w16, w16, w9
	and	w16, w16, #0xffff
	cmp	w16, w11, uxth
	b.lo	.LBB3_54
	mov	w16, #-3
	sub	w9, w16, w9
	and	w9, w9, #0xffff
	cmp	w9, w11, uxth
	b.lo	.LBB3_54
	sub	x9, x3, #1
	lsr	x9, x9, #16
	cbnz	x9, .LBB3_54
	movi	v1.2d, #0000000000000000
	mov	v1.h[0], w26
	mov	x26, xzr
.LBB3_52:
	add	w28, w24, w26, lsl #1
	add	x26, x26, #8
	cmp	x23, x26
	add	w2, w28, #1
	add	w9, w28, #3
	add	w16, w28, #5
	add	x9, x20, w9, uxth #4
	add	x6, x20, w2, uxth #4
	add	w4, w28, #7
	add	x22, x20, w16, uxth #4
	add	x21, x20, w4, uxth #4
	add	w5, w28, #9
	ldp	x4, x9, [x9]
	add	x7, x20, w5, uxth #4
	ldp	x27, x11, [x6]
	add	w19, w28, #11
	ldp	x16, x22, [x22]
	add	w29, w28, #15
	bic	x5, x14, x9
	bic	x6, x15, x4
	add	w30, w28, #13
	bic	x9, x15, x27
	fmov	d4, x6
	add	x27, x25, w2, uxth #1
	fmov	d3, x9
	bic	x16, x15, x16
	bic	x2, x14, x11
	fmov	d6, x16
	ldr	q5, [x27]
	add	x9, x20, w19, uxth #4
	mov	v4.d[1], x5
	ldp	x4, x5, [x7]
	mov	v3.d[1], x2
	bic	x2, x14, x22
	mov	v2.16b, v5.16b
	mov	v6.d[1], x2
	ldp	x16, x2, [x21]
	bic	x4, x15, x4
	add	x11, x20, w30, uxth #4
	ldr	d19, [x27, #16]
	cnt	v7.16b, v4.16b
	mov	v2.h[1], v5.h[2]
	add	w6, w28, #16
	cnt	v3.16b, v3.16b
	bic	x16, x15, x16
	bic	x2, x14, x2
	fmov	d16, x16
	ldp	x16, x9, [x9]
	cnt	v6.16b, v6.16b
	mov	v2.h[2], v5.h[4]
	addv	b4, v3.16b
	addv	b3, v7.16b
	fmov	d7, x4
	mov	v16.d[1], x2
	bic	x16, x15, x16
	bic	x2, x14, x5
	fmov	d17, x16
	bic	x9, x14, x9
	add	x5, x27, #24
	mov	v7.d[1], x2
	add	x2, x20, w29, uxth #4
	mov	v2.h[3], v5.h[6]
	ldp	x16, x11, [x11]
	ld1	{ v19.s }[2], [x5]
	cnt	v16.16b, v16.16b
	mov	v17.d[1], x9
	addv	b5, v6.16b
	ldp	x9, x2, [x2]
	add	w29, w28, #2
	bic	x16, x15, x16
	mov	v2.h[4], v19.h[0]
	add	x7, x20, w29, uxth #4
	fmov	d18, x16
	bic	x11, x14, x11
	add	w4, w28, #12
	bic	x9, x15, x9
	addv	b6, v16.16b
	cnt	v16.16b, v17.16b
	fmov	d17, x9
	add	w9, w28, #4
	bic	x2, x14, x2
	add	x9, x20, w9, uxth #4
	add	w16, w28, #6
	mov	v18.d[1], x11
	add	w11, w28, #8
	add	w5, w28, #14
	add	x19, x20, w4, uxth #4
	mov	v17.d[1], x2
	add	w2, w28, #10
	add	x28, x20, w6, uxth #4
	add	x22, x20, w2, uxth #4
	ldp	x4, x2, [x7]
	ldp	x9, x6, [x9]
	mov	v2.h[5], v19.h[2]
	add	x21, x20, w16, uxth #4
	add	x11, x20, w11, uxth #4
	add	x30, x20, w5, uxth #4
	eor	x18, x2, x12
	mov	v4.h[1], v3.h[0]
	cnt	v7.16b, v7.16b
	ldp	x5, x16, [x21]
	eor	x2, x6, x12
	ldp	x7, x21, [x11]
	eor	x11, x4, x13
	eor	x9, x9, x13
	and	x6, x2, x14
	and	x2, x11, x15
	mov	v2.h[6], v19.h[4]
	and	x4, x9, x15
	fmov	d19, x2
	fmov	d20, x4
	eor	x5, x5, x13
	and	x9, x18, x14
	eor	x11, x16, x12
	add	x16, x25, w29, uxth #1
	mov	v4.h[2], v5.h[0]
	mov	v19.d[1], x9
	and	x9, x5, x15
	and	x11, x11, x14
	mov	v20.d[1], x6
	fmov	d21, x9
	ldr	q23, [x16]
	ldp	x2, x18, [x22]
	eor	x9, x7, x13
	and	x9, x9, x15
	eor	x5, x21, x12
	ldr	d26, [x16, #16]
	mov	v21.d[1], x11
	cnt	v19.16b, v19.16b
	fmov	d24, x9
	cnt	v22.16b, v20.16b
	mov	v20.16b, v23.16b
	eor	x2, x2, x13
	and	x2, x2, x15
	ldp	x4, x11, [x19]
	fmov	d27, x2
	and	x5, x5, x14
	eor	x18, x18, x12
	mov	v20.h[1], v23.h[2]
	cnt	v25.16b, v21.16b
	mov	v24.d[1], x5
	addv	b21, v19.16b
	addv	b19, v22.16b
	and	x18, x18, x14
	mov	v27.d[1], x18
	eor	x18, x4, x13
	eor	x11, x11, x12
	and	x18, x18, x15
	ldp	x5, x9, [x30]
	mov	v20.h[2], v23.h[4]
	mov	v21.h[1], v19.h[0]
	addv	b22, v25.16b
	fmov	d25, x18
	cnt	v24.16b, v24.16b
	and	x11, x11, x14
	add	x2, x16, #24
	mov	v4.h[3], v6.h[0]
	cnt	v27.16b, v27.16b
	ld1	{ v26.s }[2], [x2]
	ldp	x2, x18, [x28]
	mov	v25.d[1], x11
	eor	x11, x5, x13
	mov	v20.h[3], v23.h[6]
	mov	v21.h[2], v22.h[0]
	and	x11, x11, x15
	addv	b23, v24.16b
	fmov	d24, x11
	addv	b7, v7.16b
	eor	x9, x9, x12
	and	x9, x9, x14
	addv	b27, v27.16b
	addv	b16, v16.16b
	mov	v20.h[4], v26.h[0]
	cnt	v25.16b, v25.16b
	cnt	v18.16b, v18.16b
	mov	v21.h[3], v23.h[0]
	mov	v24.d[1], x9
	eor	x9, x2, x13
	mov	v4.h[4], v7.h[0]
	and	x9, x9, x15
	eor	x11, x18, x12
	fmov	d28, x9
	and	x11, x11, x14
	cnt	v17.16b, v17.16b
	mov	v20.h[5], v26.h[2]
	addv	b25, v25.16b
	addv	b18, v18.16b
	mov	v21.h[4], v27.h[0]
	cnt	v24.16b, v24.16b
	ldrsh	w9, [x27, #28]
	mov	v4.h[5], v16.h[0]
	mov	v28.d[1], x11
	mov	v2.h[7], w9
	addv	b17, v17.16b
	ldrsh	w9, [x16, #28]
	mov	v20.h[6], v26.h[4]
	mov	v21.h[5], v25.h[0]
	addv	b24, v24.16b
	mov	v4.h[6], v18.h[0]
	cnt	v26.16b, v28.16b
	mvn	v2.16b, v2.16b
	mov	v20.h[7], w9
	mov	v21.h[6], v24.h[0]
	mov	v4.h[7], v17.h[0]
	addv	b26, v26.16b
	cmtst	v2.8h, v0.8h, v2.8h
	cmtst	v20.8h, v20.8h, v0.8h
	mov	v21.h[7], v26.h[0]
	add	v1.8h, v1.8h, v4.8h
	sub	v1.8h, v1.8h, v2.8h
	sub	v2.8h, v21.8h, v20.8h
	add	v1.8h, v2.8h, v1.8h
	b.ne	.LBB3_52
	addv	h1, v1.8h
	ldp	x27, x30, [sp, #24]
	ldp	x19, x6, [sp, #48]
	mov	x7, x23
	ldr	w28, [sp, #20]
	ldr	x22, [sp, #8]
	ldr	w29, [sp, #4]
	fmov	w26, s1
	ldr	x21, [sp, #40]
.LBB3_54:
	add	w9, w24, w7, lsl #1
	add	x7, x7, #1
	add	w11, w9, #1
	add	w9, w9, #2
	add	x16, x20, w11, uxth #4
	add	x18, x20, w9, uxth #4
	and	x11, x11, #0xffff
	ldrh	w11, [x25, x11, lsl #1]
	and	x9, x9, #0xffff
	ldp	x2, x16, [x16]
	ldrh	w9, [x25, x9, lsl #1]
	ldp	x4, x18, [x18]
	bic	w11, w17, w11
	tst	w11, #0xffff
	and	w9, w9, w17
	bic	x2, x15, x2
	bic	x16, x14, x16
	fmov	d1, x2
	eor	x2, x4, x13
	mov	v1.d[1], x16
	eor	x16, x18, x12
	and	x18, x2, x15
	fmov	d2, x18
	and	x16, x16, x14
	mov	v2.d[1], x16
	cnt	v1.16b, v1.16b
	cnt	v2.16b, v2.16b
	addv	b1, v1.16b
	fmov	w16, s1
	addv	b2, v2.16b
	add	w11, w26, w16
	fmov	w16, s2
	cinc	w11, w11, ne
	tst	w9, #0xffff
	cinc	w9, w16, ne
	cmp	x3, x7
	add	w26, w9, w11
	b.ne	.LBB3_54
.LBB3_55:
	add	w9, w24, w29
	ldr	x16, [x0, #40]
	add	x11, x20, w9, uxth #4
	and	x9, x9, #0xffff
	ldrh	w9, [x16, x9, lsl #1]
	ldp	x18, x11, [x11]
	eor	w9, w9, #0xffff
	and	w9, w28, w9
	bic	x16, x27, x18
	bic	x11, x22, x11
	fmov	s2, w9
	fmov	d1, x16
	cnt	v2.8b, v2.8b
	mov	v1.d[1], x11
	addv	b2, v2.8b
	cnt	v1.16b, v1.16b
	fmov	w11, s2
	addv	b1, v1.16b
	fmov	w9, s1
	add	w9, w11, w9
	b	.LBB3_36
.LBB3_56:
	ldr	x9, [sp, #64]
	mov	w16, #-2
	ldr	w11, [sp, #72]
	mul	w9, w1, w9
	sub	w16, w16, w9
	and	w16, w16, #0xffff
	cmp	w16, w11, uxth
	mov	x16, xzr
	b.lo	.LBB3_62
	mov	w2, #-3
	sub	w9, w2, w9
	and	w9, w9, #0xffff
	cmp	w9, w11, uxth
	b.lo	.LBB3_62
	sub	x9, x3, #1
	lsr	x9, x9, #16
	cbnz	x9, .LBB3_62
	movi	v1.2d, #0000000000000000
	mov	x25, xzr
	mov	v1.h[0], v2.h[0]
.LBB3_60:
	add	w16, w24, w25, lsl #1
	add	x25, x25, #8
	cmp	x23, x25
	add	w6, w16, #9
	add	w7, w16, #11
	add	w9, w16, #1
	and	x6, x6, #0xffff
	and	x7, x7, #0xffff
	add	w2, w16, #3
	lsl	x6, x6, #4
	lsl	x7, x7, #4
	add	w4, w16, #5
	add	w5, w16, #7
	add	w19, w16, #13
	add	w21, w16, #15
	and	x9, x9, #0xffff
	and	x2, x2, #0xffff
	and	x4, x4, #0xffff
	and	x5, x5, #0xffff
	and	x19, x19, #0xffff
	ldr	x6, [x20, x6]
	ldr	x7, [x20, x7]
	and	x21, x21, #0xffff
	lsl	x9, x9, #4
	lsl	x2, x2, #4
	lsl	x4, x4, #4
	lsl	x5, x5, #4
	lsl	x19, x19, #4
	lsl	x21, x21, #4
	bic	x7, x15, x7
	bic	x6, x15, x6
	ldr	x9, [x20, x9]
	ldr	x2, [x20, x2]
	ldr	x4, [x20, x4]
	ldr	x19, [x20, x19]
	ldr	x5, [x20, x5]
	fmov	d6, x6
	fmov	d7, x7
	add	w6, w16, #10
	add	w7, w16, #12
	ldr	x21, [x20, x21]
	and	x6, x6, #0xffff
	and	x7, x7, #0xffff
	bic	x19, x15, x19
	bic	x4, x15, x4
	bic	x5, x15, x5
	bic	x9, x15, x9
	bic	x2, x15, x2
	lsl	x6, x6, #4
	lsl	x7, x7, #4
	bic	x21, x15, x21
	fmov	d2, x2
	fmov	d5, x9
	fmov	d3, x5
	fmov	d4, x4
	fmov	d16, x19
	add	w9, w16, #2
	add	w2, w16, #4
	add	w4, w16, #6
	add	w5, w16, #8
	add	w19, w16, #14
	add	w16, w16, #16
	fmov	d17, x21
	and	x9, x9, #0xffff
	and	x2, x2, #0xffff
	and	x4, x4, #0xffff
	and	x5, x5, #0xffff
	and	x19, x19, #0xffff
	and	x16, x16, #0xffff
	ldr	x6, [x20, x6]
	ldr	x7, [x20, x7]
	lsl	x9, x9, #4
	lsl	x2, x2, #4
	lsl	x4, x4, #4
	lsl	x5, x5, #4
	lsl	x19, x19, #4
	lsl	x16, x16, #4
	eor	x6, x6, x13
	eor	x7, x7, x13
	mov	v6.d[1], v7.d[0]
	mov	v16.d[1], v17.d[0]
	ldr	x9, [x20, x9]
	ldr	x2, [x20, x2]
	ldr	x4, [x20, x4]
	ldr	x5, [x20, x5]
	ldr	x19, [x20, x19]
	ldr	x16, [x20, x16]
	and	x7, x7, x15
	and	x6, x6, x15
	eor	x2, x2, x13
	fmov	d18, x6
	fmov	d19, x7
	eor	x9, x9, x13
	eor	x5, x5, x13
	eor	x4, x4, x13
	eor	x19, x19, x13
	eor	x16, x16, x13
	and	x19, x19, x15
	and	x4, x4, x15
	and	x16, x16, x15
	and	x5, x5, x15
	and	x9, x9, x15
	and	x2, x2, x15
	mov	v5.d[1], v2.d[0]
	mov	v4.d[1], v3.d[0]
	cnt	v2.16b, v6.16b
	cnt	v3.16b, v16.16b
	fmov	d6, x2
	fmov	d7, x9
	fmov	d16, x5
	fmov	d17, x4
	fmov	d20, x19
	mov	v18.d[1], v19.d[0]
	fmov	d19, x16
	cnt	v4.16b, v4.16b
	cnt	v5.16b, v5.16b
	mov	v7.d[1], v6.d[0]
	mov	v17.d[1], v16.d[0]
	uaddlp	v2.8h, v2.16b
	mov	v20.d[1], v19.d[0]
	uaddlp	v3.8h, v3.16b
	cnt	v6.16b, v18.16b
	uaddlp	v4.8h, v4.16b
	uaddlp	v5.8h, v5.16b
	uaddlp	v2.4s, v2.8h
	cnt	v17.16b, v17.16b
	cnt	v7.16b, v7.16b
	uaddlp	v3.4s, v3.8h
	cnt	v16.16b, v20.16b
	uaddlp	v4.4s, v4.8h
	uaddlp	v5.4s, v5.8h
	uaddlp	v6.8h, v6.16b
	uaddlp	v2.2d, v2.4s
	uaddlp	v3.2d, v3.4s
	uaddlp	v17.8h, v17.16b
	uaddlp	v7.8h, v7.16b
	uaddlp	v16.8h, v16.16b
	uaddlp	v4.2d, v4.4s
	uaddlp	v5.2d, v5.4s
	uaddlp	v6.4s, v6.8h
	uzp1	v2.4s, v2.4s, v3.4s
	uaddlp	v17.4s, v17.8h
	uaddlp	v7.4s, v7.8h
	uaddlp	v16.4s, v16.8h
	uzp1	v4.4s, v5.4s, v4.4s
	uaddlp	v3.2d, v6.4s
	uaddlp	v6.2d, v17.4s
	uaddlp	v7.2d, v7.4s
	uaddlp	v5.2d, v16.4s
	uzp1	v2.8h, v4.8h, v2.8h
	uzp1	v6.4s, v7.4s, v6.4s
	uzp1	v3.4s, v3.4s, v5.4s
	add	v1.8h, v1.8h, v2.8h
	uzp1	v3.8h, v6.8h, v3.8h
	add	v1.8h, v1.8h, v3.8h
	b.ne	.LBB3_60
	addv	h1, v1.8h
	ldp	x19, x6, [sp, #48]
	ldr	x21, [sp, #40]
	mov	x16, x23
	fmov	w26, s1
.LBB3_62:
	add	w9, w24, w16, lsl #1
	add	x16, x16, #1
	cmp	x3, x16
	add	w2, w9, #1
	add	w9, w9, #2
	and	x2, x2, #0xffff
	and	x9, x9, #0xffff
	lsl	x2, x2, #4
	lsl	x9, x9, #4
	ldr	x2, [x20, x2]
	ldr	x9, [x20, x9]
	bic	x2, x15, x2
	eor	x9, x9, x13
	fmov	d1, x2
	and	x9, x9, x15
	fmov	d2, x9
	cnt	v1.8b, v1.8b
	cnt	v2.8b, v2.8b
	addv	b1, v1.8b
	addv	b2, v2.8b
	fmov	w9, s1
	fmov	w2, s2
	add	w9, w26, w9
	add	w26, w9, w2
	b.ne	.LBB3_62
	b	.LBB3_35
.LBB3_63:
	mov	w8, wzr
.LBB3_64:
	ldp	x20, x19, [sp, #160]
	mov	w0, w8
	ldp	x22, x21, [sp, #144]
	ldp	x24, x23, [sp, #128]
	ldp	x26, x25, [sp, #112]
	ldp	x28, x27, [sp, #96]
	ldp	x29, x30, [sp, #80]
	add	sp, sp, #176
	.cfi_def_cfa_offset 0
	.cfi_restore w19
	.cfi_restore w20
	.cfi_restore w21
	.cfi_restore w22
	.cfi_restore w23
	.cfi_restore w24
	.cfi_restore w25
	.cfi_restore w26
	.cfi_restore w27
	.cfi_restore w28
	.cfi_restore w30
	.cfi_restore w29
	ret
.Lfunc_end3:
	.size	"dm_layout::symbols::border::border_faults", .Lfunc_end3-"dm_layout::symbols::border::border_faults"
	.cfi_endproc

	.p2align	2
	.type	"dm_symbol::symbol::inspection::mend",@function
"dm_symbol::symbol::inspection::mend":
	.cfi_startproc
	sub	sp, sp, #160
	.cfi_def_cfa_offset 160
	str	x30, [sp, #80]
	stp	x26, x25, [sp, #96]
	stp	x24, x23, [sp, #112]
	stp	x22, x21, [sp, #128]
	stp	x20, x19, [sp, #144]
	.cfi_offset w19, -8
	.cfi_offset w20, -16
	.cfi_offset w21, -24
	.cfi_offset w22, -32
	.cfi_offset w23, -40
	.cfi_offset w24, -48
	.cfi_offset w25, -56
	.cfi_offset w26, -64
	.cfi_offset w30, -80
	ldrh	w8, [x0, #12]
	ldrh	w9, [x0, #14]
	mov	w23, w1
	mov	x1, x3
	mov	x19, x5
	mov	x20, x4
	add	w8, w9, w8
	mov	x25, x3
	mov	x22, x0
	mov	x21, x2
	and	x24, x8, #0xffff
	bl	"dm_layout::symbols::placing::lift_to"
	sub	x9, x20, x25
	cmp	x9, x24
	b.hs	.LBB4_5
	cmp	w24, #4
	mov	x8, xzr
	b.lo	.LBB4_13
	cmp	x9, #32
	b.lo	.LBB4_13
	cmp	w24, #16
	b.hs	.LBB4_6
	mov	x8, xzr
	b	.LBB4_10
.LBB4_5:
	mov	x0, x20
	mov	x1, x25
	mov	x2, x24
	bl	memmove
	b	.LBB4_15
.LBB4_6:
	and	x9, x24, #0xc
	and	x8, x24, #0xfff0
	mov	x10, x20
	mov	x11, x25
	and	x12, x24, #0xfff0
.LBB4_7:
	ldr	q0, [x11], #16
	subs	x12, x12, #16
	str	q0, [x10], #16
	b.ne	.LBB4_7
	cmp	x8, x24
	b.eq	.LBB4_15
	cbz	x9, .LBB4_13
.LBB4_10:
	mov	x11, x8
	and	x8, x24, #0xfffc
	sub	x9, x11, x8
	add	x10, x25, x11
	add	x11, x20, x11
.LBB4_11:
	ldr	w12, [x10], #4
	adds	x9, x9, #4
	str	w12, [x11], #4
	b.ne	.LBB4_11
	cmp	x8, x24
	b.eq	.LBB4_15
.LBB4_13:
	sub	x9, x24, x8
	add	x10, x25, x8
	add	x8, x20, x8
.LBB4_14:
	ldrb	w11, [x10], #1
	subs	x9, x9, #1
	strb	w11, [x8], #1
	b.ne	.LBB4_14
.LBB4_15:
	ldr	q0, [x22]
	ldr	w8, [x22, #16]
	str	q0, [sp]
	str	w8, [sp, #16]
	tbz	w23, #0, .LBB4_17
	mov	x0, sp
	mov	x1, x20
	mov	x2, x24
	mov	x3, x21
	mov	x4, x19
	bl	"dm_symbol::symbol::inspection::mend_doubtful"
	ldr	x8, [x19, #40]
	b	.LBB4_23
.LBB4_17:
	ldr	q0, [x22]
	ldr	w9, [x22, #16]
	ldr	x8, [x19, #40]
	str	wzr, [sp, #92]
	str	q0, [sp, #48]
	str	w9, [sp, #64]
	cbz	x8, .LBB4_19
	lsl	x2, x8, #2
	mov	x0, x19
	mov	w1, wzr
	bl	memset
	str	xzr, [x19, #40]
.LBB4_19:
	ldrh	w26, [sp, #64]
	cbz	x26, .LBB4_22
	mov	x25, xzr
.LBB4_21:
	add	x0, sp, #92
	add	x1, sp, #48
	add	x4, sp, #24
	mov	x2, x20
	mov	x3, x24
	mov	x5, x25
	stp	xzr, xzr, [sp, #24]
	str	xzr, [sp, #40]
	bl	"dm_symbol::symbol::correction::restore_block"
	ldr	x8, [x19, #40]
	ldrb	w9, [sp, #92]
	add	x25, x25, #1
	ldrb	w11, [sp, #95]
	ldurh	w12, [sp, #93]
	cmp	x26, x25
	add	x10, x19, x8, lsl #2
	add	x8, x8, #1
	strb	w9, [x10]
	strb	w11, [x10, #3]
	sturh	w12, [x10, #1]
	str	x8, [x19, #40]
	b.ne	.LBB4_21
	b	.LBB4_23
.LBB4_22:
	mov	x8, xzr
.LBB4_23:
	add	x8, x8, #1
	mov	x9, x19
.LBB4_24:
	subs	x8, x8, #1
	b.eq	.LBB4_27
	ldrb	w10, [x9], #4
	cmp	w10, #1
	b.eq	.LBB4_24
	mov	x0, x22
	mov	w1, w23
	mov	x2, x21
	mov	x3, x20
	mov	x4, x24
	mov	x5, x19
	bl	"dm_symbol::symbol::inspection::mend_restarted"
	b	.LBB4_28
.LBB4_27:
	mov	w0, wzr
.LBB4_28:
	ldp	x20, x19, [sp, #144]
	ldr	x30, [sp, #80]
	ldp	x22, x21, [sp, #128]
	ldp	x24, x23, [sp, #112]
	ldp	x26, x25, [sp, #96]
	add	sp, sp, #160
	.cfi_def_cfa_offset 0
	.cfi_restore w19
	.cfi_restore w20
	.cfi_restore w21
	.cfi_restore w22
	.cfi_restore w23
	.cfi_restore w24
	.cfi_restore w25
	.cfi_restore w26
	.cfi_restore w30
	ret
.Lfunc_end4:
	.size	"dm_symbol::symbol::inspection::mend", .Lfunc_end4-"dm_symbol::symbol::inspection::mend"
	.cfi_endproc

	.section	.rodata.cst16,"aM",@progbits,16
	.p2align	4, 0x0
.LCPI5_0:
	.xword	0
	.xword	1
	.text
	.p2align	2
	.type	"dm_layout::symbols::placing::lift_to",@function
"dm_layout::symbols::placing::lift_to":
	.cfi_startproc
	stp	x29, x30, [sp, #-96]!
	.cfi_def_cfa_offset 96
	stp	x28, x27, [sp, #16]
	stp	x26, x25, [sp, #32]
	stp	x24, x23, [sp, #48]
	stp	x22, x21, [sp, #64]
	stp	x20, x19, [sp, #80]
	.cfi_offset w19, -8
	.cfi_offset w20, -16
	.cfi_offset w21, -24
	.cfi_offset w22, -32
	.cfi_offset w23, -40
	.cfi_offset w24, -48
	.cfi_offset w25, -56
	.cfi_offset w26, -64
	.cfi_offset w27, -72
	.cfi_offset w28, -80
	.cfi_offset w30, -88
	.cfi_offset w29, -96
	sub	sp, sp, #3072
	.cfi_def_cfa_offset 3168
	str	xzr, [sp]
	sub	sp, sp, #3072
	.cfi_def_cfa_offset 6240
	str	xzr, [sp]
	sub	sp, sp, #3072
	.cfi_def_cfa_offset 9312
	str	xzr, [sp], #-144
	.cfi_def_cfa_offset 9456
	ldrh	w23, [x0, #6]
	ldrh	w24, [x0, #10]
	mov	x20, x0
	mov	x25, x1
	str	x0, [sp, #104]
	mul	w27, w24, w23
	and	w8, w27, #0xffff
	cmp	w8, #56
	b.hi	.LBB5_25
	ldrh	w5, [x20, #4]
	ldrh	w6, [x20, #8]
	movi	v0.2d, #0000000000000000
	and	w17, w27, #0x7
	mul	w1, w6, w5
	str	q0, [sp, #4816]
	str	q0, [sp, #4832]
	str	q0, [sp, #4848]
	str	q0, [sp, #4864]
	str	q0, [sp, #4880]
	str	q0, [sp, #4896]
	str	q0, [sp, #4912]
	str	q0, [sp, #4928]
	str	q0, [sp, #4944]
	str	q0, [sp, #4960]
	str	q0, [sp, #4976]
	str	q0, [sp, #4992]
	str	q0, [sp, #5008]
	str	q0, [sp, #5024]
	str	q0, [sp, #5040]
	str	q0, [sp, #5056]
	str	q0, [sp, #5072]
	str	q0, [sp, #5088]
	str	q0, [sp, #5104]
	str	q0, [sp, #5120]
	str	q0, [sp, #5136]
	str	q0, [sp, #5152]
	str	q0, [sp, #5168]
	str	q0, [sp, #5184]
	str	q0, [sp, #5200]
	str	q0, [sp, #5216]
	str	q0, [sp, #5232]
	str	q0, [sp, #5248]
	str	q0, [sp, #5264]
	str	q0, [sp, #5280]
	str	q0, [sp, #5296]
	cbz	x6, .LBB5_47
	mov	x8, #-1
	and	w10, w27, #0x7
	eor	w9, w17, #0x4
	stp	w9, w10, [sp, #64]
	lsr	x9, x8, #1
	lsl	x8, x8, x23
	stp	x25, x27, [sp, #88]
	mvn	w10, w23
	tst	x23, #0x40
	add	w25, w23, #2
	mov	w22, #1
	lsr	x9, x9, x10
	csel	x10, xzr, x8, ne
	orr	w28, w22, w25, lsl #1
	lsl	w30, w23, #1
	mvn	x18, x10
	ubfiz	x10, x23, #1, #15
	orr	x9, x8, x9
	and	x11, x28, #0xffff
	csel	x8, x8, x9, ne
	add	w9, w30, w23
	stp	x10, x11, [sp, #248]
	lsl	w10, w23, #2
	mvn	x7, x8
	add	w11, w9, #7
	add	w8, w9, #7
	orr	w12, w22, w25, lsl #2
	stp	x8, x10, [sp, #456]
	and	x8, x11, #0xffff
	add	w26, w23, #3
	str	x8, [sp, #240]
	add	w8, w30, w23
	mov	w19, wzr
	str	x8, [sp, #472]
	and	x8, x9, #0xffff
	add	w9, w10, w23
	ubfiz	x10, x23, #2, #14
	stp	x10, x8, [sp, #224]
	and	x8, x12, #0xffff
	str	x8, [sp, #112]
	add	w11, w9, #11
	mov	w8, #117
	add	w10, w9, #11
	sub	w8, w8, w9
	stp	x8, x10, [sp, #424]
	and	x10, x11, #0xffff
	mov	x21, xzr
	stp	x1, x10, [sp, #72]
	and	x10, x8, #0xffff
	and	x29, x26, #0xffff
	and	x8, x9, #0xffff
	stp	x8, x10, [sp, #208]
	add	x8, sp, #1, lsl #12
	stp	x9, x12, [sp, #440]
	add	x8, x8, #720
	add	w9, w5, #2
	str	w9, [sp, #200]
	add	x3, x8, #16
	mov	w9, w5
	str	x3, [sp, #408]
	stp	x6, x5, [sp, #136]
	stp	x30, x28, [sp, #120]
	str	x29, [sp, #504]
	b	.LBB5_4
.LBB5_3:
	add	x21, x21, #1
	add	x22, x22, #1
	add	w9, w4, w5
	cmp	x21, x6
	add	w19, w19, w5
	b.eq	.LBB5_44
.LBB5_4:
	mul	w8, w5, w21
	and	x4, x9, #0xffff
	and	w10, w8, #0xffff
	add	w11, w8, w5
	cmp	w10, w11, uxth
	b.hs	.LBB5_3
	mul	x11, x21, x5
	ldr	w12, [sp, #200]
	and	x10, x19, #0xffff
	ldrh	w9, [x20, #2]
	lsl	x13, x10, #3
	mov	w15, #1
	mul	w12, w12, w21
	orr	w0, w15, w21, lsl #1
	ldr	x1, [x20, #24]
	cmp	w9, #128
	add	x14, x3, x13
	sub	x10, x4, x10
	and	x15, x8, #0xffff
	str	x1, [sp, #496]
	b.hi	.LBB5_11
	cmp	w24, #2
	b.lo	.LBB5_13
	mul	w8, w5, w22
	and	x8, x8, #0xffff
.LBB5_8:
	add	w9, w0, w15
	mov	x14, x4
	mov	w13, #1
	add	x10, x1, w9, uxth #4
	mov	w16, #1
	ldp	x10, x9, [x10]
	extr	x11, x9, x10, #1
	and	x12, x7, x9, lsr #1
	and	x11, x11, x18
.LBB5_9:
	madd	w17, w16, w25, w13
	lsl	x1, x9, #1
	mvn	w2, w17
	lsr	x3, x10, x17
	lsl	x1, x1, x2
	lsr	x2, x9, x17
	and	x17, x17, #0xffff
	tst	x17, #0x40
	orr	x17, x1, x3
	mul	w1, w16, w23
	add	w16, w16, #1
	csel	x17, x2, x17, ne
	csel	x2, xzr, x2, ne
	and	x17, x17, x18
	and	x2, x2, x7
	lsr	x3, x17, #1
	mvn	w4, w1
	lsl	x2, x2, x1
	lsl	x17, x17, x1
	and	x1, x1, #0xffff
	lsr	x3, x3, x4
	tst	x1, #0x40
	orr	x2, x2, x3
	csel	x1, x17, x2, ne
	csel	x17, xzr, x17, ne
	cmp	w24, w16, uxth
	orr	x12, x1, x12
	orr	x11, x17, x11
	b.hi	.LBB5_9
	add	x9, sp, #1, lsl #12
	lsl	x10, x11, #4
	ldr	x3, [sp, #408]
	add	x9, x9, #720
	ldr	x1, [sp, #496]
	mov	x4, x14
	add	x9, x9, x15, lsl #3
	add	x15, x15, #1
	cmp	x15, x8
	str	x10, [x9, #16]
	b.ne	.LBB5_8
	b	.LBB5_3
.LBB5_11:
	add	w13, w5, w11
	ldr	x9, [x20, #40]
	str	w0, [sp, #480]
	and	x13, x13, #0xffff
	sub	x17, x13, w11, uxth
	str	x9, [sp, #488]
	cmp	x17, #4
	b.hs	.LBB5_15
.LBB5_12:
	add	w10, w0, w15
	mvn	w12, w26
	and	x14, x26, #0xffff
	add	x9, x1, w10, uxth #4
	tst	x14, #0x40
	and	x10, x10, #0xffff
	ldp	x2, x1, [sp, #448]
	ldp	x9, x8, [x9]
	and	x0, x1, #0xffff
	lsl	x11, x8, #1
	lsr	x13, x9, x26
	lsr	x16, x8, x26
	lsr	x14, x9, x28
	lsr	x17, x8, x28
	lsl	x12, x11, x12
	orr	x12, x12, x13
	mvn	w13, w28
	csel	x12, x16, x12, ne
	lsl	x13, x11, x13
	and	x16, x28, #0xffff
	and	x12, x12, x18
	tst	x23, #0x40
	lsl	x12, x12, x23
	orr	x13, x13, x14
	and	x14, x30, #0xffff
	csel	x12, xzr, x12, ne
	tst	x16, #0x40
	mvn	w16, w1
	csel	x13, x17, x13, ne
	lsr	x17, x9, x1
	lsl	x16, x11, x16
	and	x13, x13, x18
	lsr	x1, x8, x1
	tst	x14, #0x40
	lsl	x13, x13, x30
	orr	x14, x16, x17
	mvn	w17, w2
	lsl	x17, x11, x17
	csel	x13, xzr, x13, ne
	tst	x0, #0x40
	lsr	x0, x9, x2
	csel	x14, x1, x14, ne
	ldr	x1, [sp, #472]
	and	x14, x14, x18
	orr	x17, x17, x0
	and	x16, x1, #0xffff
	lsl	x14, x14, x1
	and	x1, x2, #0xffff
	tst	x16, #0x40
	lsr	x16, x8, x2
	ldr	x2, [sp, #432]
	csel	x14, xzr, x14, ne
	tst	x1, #0x40
	ldr	x1, [sp, #464]
	csel	x16, x16, x17, ne
	mvn	w17, w2
	and	x16, x16, x18
	and	x0, x1, #0xffff
	lsl	x11, x11, x17
	lsl	x16, x16, x1
	ldp	x27, x1, [sp, #488]
	lsr	x17, x9, x2
	tst	x0, #0x40
	and	x0, x2, #0xffff
	csel	x16, xzr, x16, ne
	tst	x0, #0x40
	ldr	x0, [sp, #424]
	ldrh	w10, [x27, x10, lsl #1]
	orr	x11, x11, x17
	lsr	x17, x8, x2
	extr	x8, x8, x9, #1
	lsl	x10, x10, x0
	and	x0, x0, #0xffff
	csel	x11, x17, x11, ne
	tst	x0, #0x40
	and	x8, x8, x18
	ldr	w0, [sp, #480]
	csel	x10, xzr, x10, ne
	orr	x8, x12, x8
	orr	x10, x10, x11
	and	x9, x10, x18
	ldr	x10, [sp, #440]
	lsl	x9, x9, x10
	and	x10, x10, #0xffff
	tst	x10, #0x40
	orr	x10, x13, x14
	csel	x9, xzr, x9, ne
	orr	x8, x8, x10
	orr	x9, x16, x9
	orr	x8, x8, x9
	lsl	x8, x8, #4
	str	x8, [x3, x15, lsl #3]
	add	x15, x15, #1
	cmp	x4, x15
	b.ne	.LBB5_12
	b	.LBB5_3
.LBB5_13:
	add	w13, w5, w11
	and	x13, x13, #0xffff
	sub	x11, x13, w11, uxth
	cmp	x11, #4
	b.hs	.LBB5_20
.LBB5_14:
	add	w8, w0, w15
	and	x8, x8, #0xffff
	lsl	x8, x8, #4
	ldr	x8, [x1, x8]
	and	x8, x18, x8, lsr #1
	lsl	x8, x8, #4
	str	x8, [x3, x15, lsl #3]
	add	x15, x15, #1
	cmp	x4, x15
	b.ne	.LBB5_14
	b	.LBB5_3
.LBB5_15:
	mul	w11, w21, w5
	mov	w16, #-2
	sub	w12, w16, w12
	and	w12, w12, #0xffff
	mvn	w13, w11
	add	w11, w5, w11
	orr	x13, x13, #0xffffffffffff0000
	add	x11, x13, w11, uxth
	cmp	w12, w11, uxth
	b.lo	.LBB5_12
	lsr	x11, x11, #16
	cbnz	x11, .LBB5_12
	and	x11, x17, #0xfffffffffffffffc
	ldr	x28, [sp, #112]
	ldr	x2, [sp, #80]
	mov	x9, xzr
	and	x10, x10, #0xfffffffffffffffc
	add	x15, x11, x15
	add	w8, w8, w0
	stp	x4, x22, [sp, #168]
	stp	x21, x19, [sp, #184]
	str	x10, [sp, #272]
	stp	x11, x17, [sp, #152]
	str	w8, [sp, #264]
.LBB5_18:
	ldr	w8, [sp, #264]
	stp	x9, x14, [sp, #392]
	mvn	w17, w29
	tst	x29, #0x40
	mvn	w3, w29
	mvn	w27, w29
	add	w10, w9, w8
	ldr	x19, [sp, #256]
	add	x8, x1, w10, uxth #4
	and	x10, x10, #0xffff
	lsl	x10, x10, #1
	ldp	x12, x14, [x8, #16]
	ldp	x25, x5, [x8]
	ldp	x11, x4, [x8, #32]
	ldp	x16, x1, [x8, #48]
	ldr	x8, [sp, #504]
	lsr	x21, x12, x29
	lsr	x22, x14, x29
	lsr	x26, x25, x29
	lsr	x29, x5, x8
	ldr	x8, [sp, #504]
	lsl	x13, x14, #1
	lsl	x9, x5, #1
	lsl	x6, x4, #1
	str	x12, [sp, #320]
	lsr	x30, x11, x8
	ldr	x8, [sp, #504]
	lsl	x17, x13, x17
	lsl	x3, x9, x3
	str	x13, [sp, #416]
	lsl	x13, x1, #1
	lsr	x0, x4, x8
	ldr	x8, [sp, #504]
	orr	x17, x17, x21
	csel	x17, x22, x17, ne
	orr	x3, x3, x26
	lsl	x27, x6, x27
	mvn	w20, w8
	ldr	x8, [sp, #504]
	and	x17, x17, x18
	lsl	x20, x13, x20
	orr	x22, x27, x30
	lsl	x17, x17, x23
	tst	x8, #0x40
	ldr	x8, [sp, #504]
	str	x13, [sp, #312]
	csel	x3, x29, x3, ne
	mov	x29, x11
	mov	x30, x6
	lsr	x21, x16, x8
	ldr	x8, [sp, #504]
	and	x3, x3, x18
	lsl	x3, x3, x23
	str	x5, [sp, #280]
	mov	x26, x16
	tst	x8, #0x40
	ldr	x8, [sp, #504]
	orr	x20, x20, x21
	csel	x0, x0, x22, ne
	lsr	x22, x12, x19
	stp	x11, x25, [sp, #288]
	lsr	x21, x1, x8
	ldr	x8, [sp, #504]
	and	x0, x0, x18
	extr	x27, x4, x11, #1
	tst	x8, #0x40
	csel	x20, x21, x20, ne
	tst	x23, #0x40
	lsr	x21, x25, x19
	csel	x8, xzr, x17, ne
	and	x20, x20, x18
	lsl	x17, x0, x23
	str	x8, [sp, #384]
	csel	x8, xzr, x3, ne
	mvn	w3, w19
	lsl	x0, x20, x23
	lsl	x3, x13, x3
	lsr	x20, x16, x19
	tst	x23, #0x40
	str	x8, [sp, #368]
	and	x27, x27, x18
	csel	x8, xzr, x17, ne
	orr	x17, x3, x20
	mvn	w3, w19
	str	x8, [sp, #352]
	csel	x8, xzr, x0, ne
	lsr	x0, x1, x19
	lsl	x3, x6, x3
	lsr	x20, x11, x19
	tst	x19, #0x40
	csel	x17, x0, x17, ne
	tst	x19, #0x40
	mov	x11, x9
	orr	x0, x3, x20
	mvn	w20, w19
	lsr	x3, x4, x19
	lsl	x20, x9, x20
	ldr	x9, [sp, #416]
	str	x8, [sp, #344]
	csel	x0, x3, x0, ne
	ldr	x8, [sp, #488]
	tst	x19, #0x40
	orr	x3, x20, x21
	mvn	w21, w19
	lsr	x20, x5, x19
	lsl	x21, x9, x21
	ldr	d1, [x8, x10]
	and	x17, x17, x18
	csel	x3, x20, x3, ne
	tst	x19, #0x40
	and	x0, x0, x18
	orr	x20, x21, x22
	lsr	x21, x14, x19
	and	x3, x3, x18
	ldp	x19, x8, [sp, #240]
	extr	x10, x5, x25, #1
	csel	x20, x21, x20, ne
	extr	x6, x1, x16, #1
	mov	x16, x25
	and	x20, x20, x18
	ushll	v1.4s, v1.4h, #0
	lsl	x17, x17, x8
	tst	x8, #0x40
	lsl	x0, x0, x8
	lsl	x20, x20, x8
	csel	x22, xzr, x17, ne
	lsl	x17, x3, x8
	mvn	w3, w19
	csel	x13, xzr, x0, ne
	lsl	x21, x9, x3
	mov	x9, x12
	lsr	x12, x12, x19
	stp	x14, x13, [sp, #328]
	csel	x13, xzr, x17, ne
	tst	x8, #0x40
	lsr	x8, x14, x19
	str	x13, [sp, #360]
	csel	x13, xzr, x20, ne
	orr	x12, x21, x12
	tst	x19, #0x40
	csel	x8, x8, x12, ne
	mvn	w12, w19
	lsr	x20, x25, x19
	lsl	x12, x11, x12
	mvn	w21, w19
	extr	x3, x14, x9, #1
	lsr	x9, x5, x19
	lsl	x21, x30, x21
	lsr	x14, x29, x19
	str	x13, [sp, #376]
	mov	x13, x5
	orr	x12, x12, x20
	tst	x19, #0x40
	ldr	x5, [sp, #312]
	lsr	x20, x4, x19
	csel	x9, x9, x12, ne
	orr	x12, x21, x14
	mvn	w14, w19
	lsl	x14, x5, x14
	lsr	x21, x26, x19
	tst	x19, #0x40
	ldr	x25, [sp, #232]
	csel	x12, x20, x12, ne
	lsr	x20, x1, x19
	and	x9, x9, x18
	and	x8, x8, x18
	orr	x14, x14, x21
	tst	x19, #0x40
	lsl	x8, x8, x25
	lsl	x21, x9, x25
	csel	x9, x20, x14, ne
	tst	x25, #0x40
	and	x0, x10, x18
	and	x10, x6, x18
	csel	x6, xzr, x8, ne
	csel	x8, xzr, x21, ne
	mov	x17, x11
	str	x8, [sp, #304]
	and	x12, x12, x18
	ldp	x11, x8, [sp, #344]
	mvn	w20, w28
	lsl	x12, x12, x25
	and	x14, x9, x18
	lsl	x20, x5, x20
	lsr	x21, x26, x28
	lsl	x14, x14, x25
	mov	x9, x5
	orr	x10, x11, x10
	ldr	x11, [sp, #368]
	csel	x12, xzr, x12, ne
	tst	x25, #0x40
	mov	x25, x26
	orr	x20, x20, x21
	lsr	x26, x1, x28
	mvn	w21, w28
	orr	x8, x8, x27
	csel	x14, xzr, x14, ne
	tst	x28, #0x40
	lsl	x27, x30, x21
	lsr	x21, x29, x28
	orr	x11, x11, x0
	ldr	x0, [sp, #384]
	str	x11, [sp, #368]
	csel	x11, x26, x20, ne
	mvn	w26, w28
	str	x8, [sp, #352]
	and	x8, x3, x18
	orr	x20, x27, x21
	lsr	x21, x4, x28
	lsl	x27, x17, x26
	lsr	x26, x16, x28
	orr	x14, x22, x14
	tst	x28, #0x40
	orr	x19, x0, x8
	orr	x8, x10, x14
	csel	x20, x21, x20, ne
	orr	x21, x27, x26
	lsr	x26, x13, x28
	str	x8, [sp, #384]
	tst	x28, #0x40
	ldp	x8, x10, [sp, #328]
	ldr	x3, [sp, #416]
	ldr	x5, [sp, #320]
	csel	x14, x26, x21, ne
	mvn	w26, w2
	mvn	w22, w28
	lsl	x26, x9, x26
	ldr	x13, [sp, #224]
	orr	x12, x10, x12
	ldp	x10, x9, [sp, #352]
	lsl	x27, x3, x22
	lsr	x22, x5, x28
	tst	x28, #0x40
	and	x14, x14, x18
	mov	x29, x17
	mvn	w17, w2
	orr	x21, x27, x22
	lsr	x22, x8, x28
	lsr	x27, x25, x2
	orr	x25, x10, x12
	ldr	x10, [sp, #304]
	and	x12, x11, x18
	lsl	x12, x12, x13
	ldr	x11, [sp, #288]
	lsr	x0, x4, x2
	orr	x10, x9, x10
	csel	x9, x22, x21, ne
	tst	x13, #0x40
	orr	x21, x26, x27
	csel	x26, xzr, x12, ne
	lsl	x12, x14, x13
	lsr	x14, x11, x2
	ldr	x11, [sp, #376]
	lsl	x22, x30, x17
	and	x17, x20, x18
	and	x9, x9, x18
	csel	x20, xzr, x12, ne
	orr	x16, x11, x6
	ldr	x11, [sp, #296]
	lsl	x17, x17, x13
	lsr	x12, x1, x2
	mvn	w1, w2
	lsl	x9, x9, x13
	lsl	x1, x29, x1
	lsr	x4, x11, x2
	csel	x17, xzr, x17, ne
	tst	x13, #0x40
	ushll2	v2.2d, v1.4s, #0
	ldr	x11, [sp, #280]
	csel	x9, xzr, x9, ne
	tst	x2, #0x40
	orr	x1, x1, x4
	mvn	w4, w2
	csel	x12, x12, x21, ne
	orr	x14, x22, x14
	tst	x2, #0x40
	ushll	v1.2d, v1.2s, #0
	lsr	x11, x11, x2
	lsl	x4, x3, x4
	lsr	x13, x5, x2
	csel	x14, x0, x14, ne
	mov	x0, v2.d[1]
	tst	x2, #0x40
	lsr	x5, x8, x2
	csel	x11, x11, x1, ne
	orr	x13, x4, x13
	tst	x2, #0x40
	mov	x1, v1.d[1]
	fmov	x4, d1
	csel	x13, x5, x13, ne
	fmov	x5, d2
	ldr	x21, [sp, #216]
	orr	x8, x19, x16
	ldr	x3, [sp, #368]
	orr	x8, x8, x9
	lsl	x0, x0, x21
	tst	x21, #0x40
	lsl	x4, x4, x21
	lsl	x5, x5, x21
	csel	x16, xzr, x0, ne
	lsl	x0, x1, x21
	csel	x4, xzr, x4, ne
	csel	x1, xzr, x5, ne
	tst	x21, #0x40
	orr	x5, x3, x10
	csel	x9, xzr, x0, ne
	orr	x11, x4, x11
	ldr	x10, [sp, #208]
	orr	x9, x9, x13
	orr	x13, x1, x14
	and	x11, x11, x18
	and	x9, x9, x18
	and	x13, x13, x18
	orr	x12, x16, x12
	lsl	x9, x9, x10
	lsl	x11, x11, x10
	lsl	x13, x13, x10
	and	x12, x12, x18
	tst	x10, #0x40
	orr	x14, x5, x20
	csel	x9, xzr, x9, ne
	lsl	x12, x12, x10
	csel	x11, xzr, x11, ne
	csel	x13, xzr, x13, ne
	tst	x10, #0x40
	ldr	x10, [sp, #384]
	orr	x16, x25, x17
	csel	x12, xzr, x12, ne
	orr	x11, x14, x11
	orr	x10, x10, x26
	orr	x8, x8, x9
	orr	x9, x16, x13
	orr	x10, x10, x12
	fmov	d1, x8
	fmov	d2, x11
	fmov	d3, x9
	fmov	d4, x10
	ldr	x8, [sp, #272]
	ldp	x9, x14, [sp, #392]
	mov	v2.d[1], v1.d[0]
	ldp	x1, x29, [sp, #496]
	mov	v3.d[1], v4.d[0]
	add	x9, x9, #4
	cmp	x8, x9
	shl	v1.2d, v2.2d, #4
	shl	v2.2d, v3.2d, #4
	stp	q1, q2, [x14], #32
	b.ne	.LBB5_18
	ldp	x9, x8, [sp, #152]
	add	w26, w23, #3
	ldp	x6, x5, [sp, #136]
	add	w25, w23, #2
	ldp	x21, x19, [sp, #184]
	ldr	x20, [sp, #104]
	ldp	x4, x22, [sp, #168]
	cmp	x8, x9
	ldp	x30, x28, [sp, #120]
	ldr	x3, [sp, #408]
	ldr	w0, [sp, #480]
	b.ne	.LBB5_12
	b	.LBB5_3
.LBB5_20:
	mul	w13, w21, w5
	mov	w17, #-2
	sub	w12, w17, w12
	and	w12, w12, #0xffff
	mvn	w16, w13
	add	w13, w5, w13
	orr	x16, x16, #0xffffffffffff0000
	add	x13, x16, w13, uxth
	cmp	w12, w13, uxth
	b.lo	.LBB5_14
	lsr	x12, x13, #16
	cbnz	x12, .LBB5_14
	and	x13, x11, #0xfffffffffffffffe
	and	x10, x10, #0xfffffffffffffffe
	add	w8, w8, w0
	add	x15, x13, x15
.LBB5_23:
	add	w16, w12, w8
	add	x12, x12, #2
	add	x16, x1, w16, uxth #4
	cmp	x10, x12
	ldr	x17, [x16, #16]
	ldr	x16, [x16]
	and	x16, x18, x16, lsr #1
	and	x17, x18, x17, lsr #1
	fmov	d1, x17
	fmov	d2, x16
	mov	v2.d[1], v1.d[0]
	shl	v1.2d, v2.2d, #4
	str	q1, [x14], #16
	b.ne	.LBB5_23
	cmp	x11, x13
	b.ne	.LBB5_14
	b	.LBB5_3
.LBB5_25:
	movi	v0.2d, #0000000000000000
	and	w9, w27, #0x7
	cmp	w8, #120
	and	w8, w27, #0x7
	eor	w19, w9, #0x4
	str	w8, [sp, #80]
	b.hi	.LBB5_58
	ldrh	w26, [x20, #4]
	ldrh	w28, [x20, #8]
	add	x0, sp, #1, lsl #12
	add	x0, x0, #720
	mov	w1, wzr
	mov	w2, #2016
	add	x22, sp, #1, lsl #12
	str	xzr, [sp, #544]
	mul	w21, w28, w26
	stp	q0, q0, [sp, #512]
	add	x22, x22, #720
	bl	memset
	cbz	x28, .LBB5_84
	mov	x8, #-1
	mvn	w9, w23
	add	w12, w23, #3
	lsr	x11, x8, #1
	lsl	x8, x8, x23
	tst	x23, #0x40
	add	w10, w23, #2
	mov	w13, #1
	lsl	w14, w23, #1
	lsr	x9, x11, x9
	and	x11, x12, #0xffff
	orr	w12, w13, w10, lsl #1
	str	x11, [sp, #184]
	mov	w11, #1
	orr	w13, w13, w10, lsl #2
	orr	x9, x8, x9
	str	x11, [sp, #208]
	csel	x11, xzr, x8, ne
	csel	x8, x8, x9, ne
	str	x14, [sp, #464]
	add	w14, w14, w23
	mvn	x3, x8
	ubfiz	x8, x23, #1, #15
	stp	x13, x12, [sp, #440]
	and	x12, x12, #0xffff
	add	w9, w14, #7
	lsl	w15, w23, #2
	stp	x8, x12, [sp, #168]
	add	w8, w14, #7
	mvn	x2, x11
	stp	x8, x14, [sp, #424]
	and	x11, x9, #0xffff
	and	x8, x14, #0xffff
	stp	x8, x11, [sp, #152]
	and	x8, x13, #0xffff
	ubfiz	x11, x23, #2, #14
	stp	x11, x8, [sp, #136]
	add	w9, w15, w23
	mov	w8, #117
	add	w11, w9, #11
	sub	w12, w8, w9
	add	w8, w9, #11
	mov	w29, wzr
	mov	x30, xzr
	stp	x12, x8, [sp, #400]
	and	x8, x11, #0xffff
	and	x11, x12, #0xffff
	str	x8, [sp, #128]
	and	x8, x9, #0xffff
	stp	x8, x11, [sp, #112]
	add	w8, w26, #2
	stp	w19, w8, [sp, #68]
	add	x8, x22, #32
	str	x8, [sp, #504]
	mov	w8, w26
	stp	x25, x27, [sp, #88]
	str	x15, [sp, #456]
	str	x9, [sp, #416]
	stp	x26, x21, [sp, #24]
	str	x28, [sp, #16]
	b	.LBB5_29
.LBB5_28:
	ldr	x8, [sp, #208]
	add	x30, x30, #1
	add	w29, w29, w26
	cmp	x30, x28
	add	x8, x8, #1
	str	x8, [sp, #208]
	add	w8, w4, w26
	b.eq	.LBB5_81
.LBB5_29:
	mul	w9, w26, w30
	and	x4, x8, #0xffff
	and	w11, w9, #0xffff
	add	w12, w9, w26
	cmp	w11, w12, uxth
	b.hs	.LBB5_28
	ldrh	w8, [x20, #2]
	mov	w11, #1
	ldr	x7, [x20, #24]
	orr	w6, w11, w30, lsl #1
	cmp	w8, #128
	and	x8, x9, #0xffff
	b.hi	.LBB5_37
	cmp	w24, #1
	b.ls	.LBB5_36
	ldr	x9, [sp, #208]
	mul	w9, w26, w9
	and	x9, x9, #0xffff
.LBB5_33:
	add	w11, w6, w8
	mov	w15, #1
	mov	w16, #1
	add	x11, x7, w11, uxth #4
	ldp	x14, x13, [x11]
	extr	x12, x13, x14, #1
	and	x11, x3, x13, lsr #1
	and	x12, x12, x2
.LBB5_34:
	madd	w17, w16, w10, w15
	lsl	x18, x13, #1
	mvn	w0, w17
	lsr	x1, x14, x17
	lsl	x18, x18, x0
	lsr	x0, x13, x17
	and	x17, x17, #0xffff
	tst	x17, #0x40
	orr	x17, x18, x1
	mul	w18, w16, w23
	add	w16, w16, #1
	csel	x17, x0, x17, ne
	csel	x0, xzr, x0, ne
	and	x17, x17, x2
	and	x0, x0, x3
	lsr	x1, x17, #1
	mvn	w5, w18
	lsl	x0, x0, x18
	lsl	x17, x17, x18
	and	x18, x18, #0xffff
	lsr	x1, x1, x5
	tst	x18, #0x40
	orr	x0, x0, x1
	csel	x18, x17, x0, ne
	csel	x17, xzr, x17, ne
	cmp	w24, w16, uxth
	orr	x11, x18, x11
	orr	x12, x17, x12
	b.hi	.LBB5_34
	add	x13, sp, #1, lsl #12
	lsl	x14, x12, #4
	extr	x11, x11, x12, #60
	add	x13, x13, #720
	add	x13, x13, x8, lsl #4
	add	x8, x8, #1
	cmp	x8, x9
	stp	x14, x11, [x13, #32]
	b.ne	.LBB5_33
	b	.LBB5_28
.LBB5_36:
	add	w9, w6, w8
	ldr	x12, [sp, #504]
	add	x9, x7, w9, uxth #4
	add	x12, x12, x8, lsl #4
	add	x8, x8, #1
	ldp	x11, x9, [x9]
	cmp	x4, x8
	extr	x11, x9, x11, #1
	and	x9, x3, x9, lsr #1
	and	x11, x11, x2
	extr	x9, x9, x11, #60
	lsl	x11, x11, #4
	stp	x11, x9, [x12]
	b.ne	.LBB5_36
	b	.LBB5_28
.LBB5_37:
	mul	x11, x30, x26
	ldr	x15, [x20, #40]
	str	w6, [sp, #472]
	str	x7, [sp, #496]
	stp	x4, x15, [sp, #480]
	add	w12, w26, w11
	and	x12, x12, #0xffff
	sub	x16, x12, w11, uxth
	cmp	x16, #4
	b.hs	.LBB5_39
.LBB5_38:
	add	w12, w6, w8
	add	w16, w23, #3
	ldp	x19, x1, [sp, #440]
	add	x11, x7, w12, uxth #4
	mvn	w13, w16
	and	x15, x16, #0xffff
	tst	x15, #0x40
	mvn	w17, w1
	ldr	x7, [sp, #464]
	ldp	x11, x9, [x11]
	ldp	x6, x22, [sp, #424]
	ldr	x25, [sp, #408]
	and	x12, x12, #0xffff
	lsl	x18, x9, #1
	lsr	x14, x11, x16
	lsr	x16, x9, x16
	lsr	x0, x11, x1
	lsr	x5, x11, x6
	lsl	x13, x18, x13
	csel	x15, xzr, x16, ne
	lsl	x17, x18, x17
	and	x15, x15, x3
	orr	x13, x13, x14
	mvn	w14, w23
	lsl	x15, x15, x23
	csel	x13, x16, x13, ne
	tst	x23, #0x40
	orr	x17, x17, x0
	and	x13, x13, x2
	lsr	x16, x13, #1
	lsl	x4, x13, x23
	lsr	x14, x16, x14
	and	x16, x1, #0xffff
	lsr	x1, x9, x1
	csel	x13, xzr, x4, ne
	orr	x14, x15, x14
	csel	x15, x4, x14, ne
	tst	x16, #0x40
	mvn	w16, w7
	csel	x14, x1, x17, ne
	csel	x0, xzr, x1, ne
	mvn	w4, w6
	and	x14, x14, x2
	and	x0, x0, x3
	and	x17, x7, #0xffff
	lsr	x1, x14, #1
	lsl	x0, x0, x7
	lsl	x4, x18, x4
	lsl	x7, x14, x7
	tst	x17, #0x40
	mvn	w17, w22
	lsr	x16, x1, x16
	and	x1, x6, #0xffff
	lsr	x6, x9, x6
	orr	x4, x4, x5
	csel	x14, xzr, x7, ne
	orr	x16, x0, x16
	csel	x0, x7, x16, ne
	tst	x1, #0x40
	mvn	w1, w19
	csel	x16, x6, x4, ne
	csel	x4, xzr, x6, ne
	lsr	x6, x11, x19
	and	x16, x16, x2
	lsl	x1, x18, x1
	and	x4, x4, x3
	lsr	x5, x16, #1
	lsl	x4, x4, x22
	and	x7, x22, #0xffff
	orr	x6, x1, x6
	lsl	x1, x16, x22
	tst	x7, #0x40
	lsr	x17, x5, x17
	and	x5, x19, #0xffff
	lsr	x19, x9, x19
	csel	x16, xzr, x1, ne
	ldr	x22, [sp, #456]
	orr	x17, x4, x17
	orr	x14, x14, x16
	csel	x1, x1, x17, ne
	tst	x5, #0x40
	mvn	w5, w25
	csel	x17, x19, x6, ne
	lsl	x18, x18, x5
	csel	x5, xzr, x19, ne
	and	x17, x17, x2
	ldr	x19, [sp, #488]
	mvn	w4, w22
	lsr	x6, x17, #1
	and	x5, x5, x3
	and	x7, x22, #0xffff
	ldrh	w12, [x19, x12, lsl #1]
	lsl	x5, x5, x22
	lsl	x17, x17, x22
	lsr	x4, x6, x4
	lsr	x6, x11, x25
	ldr	x19, [sp, #400]
	tst	x7, #0x40
	and	x7, x25, #0xffff
	extr	x11, x9, x11, #1
	orr	x4, x5, x4
	orr	x18, x18, x6
	lsr	x6, x12, #1
	mvn	w5, w19
	csel	x4, x17, x4, ne
	csel	x17, xzr, x17, ne
	tst	x7, #0x40
	lsr	x7, x9, x25
	lsl	x12, x12, x19
	lsr	x5, x6, x5
	and	x6, x19, #0xffff
	and	x9, x3, x9, lsr #1
	csel	x18, x7, x18, ne
	csel	x7, xzr, x7, ne
	tst	x6, #0x40
	csel	x6, xzr, x12, ne
	csel	x12, x12, x5, ne
	orr	x9, x15, x9
	orr	x18, x6, x18
	ldr	x6, [sp, #416]
	orr	x12, x12, x7
	and	x18, x18, x2
	and	x12, x12, x3
	and	x11, x11, x2
	lsr	x5, x18, #1
	mvn	w15, w6
	lsl	x12, x12, x6
	lsl	x18, x18, x6
	orr	x11, x13, x11
	orr	x13, x0, x1
	lsr	x15, x5, x15
	and	x5, x6, #0xffff
	orr	x11, x11, x14
	tst	x5, #0x40
	orr	x9, x9, x13
	ldp	x7, x13, [sp, #496]
	orr	x12, x12, x15
	csel	x15, xzr, x18, ne
	csel	x12, x18, x12, ne
	orr	x14, x17, x15
	ldr	w6, [sp, #472]
	orr	x12, x4, x12
	ldr	x4, [sp, #480]
	orr	x11, x11, x14
	orr	x9, x9, x12
	lsl	x12, x11, #4
	add	x13, x13, x8, lsl #4
	extr	x9, x9, x11, #60
	add	x8, x8, #1
	cmp	x4, x8
	stp	x12, x9, [x13]
	b.ne	.LBB5_38
	b	.LBB5_28
.LBB5_39:
	mul	w11, w30, w26
	ldr	w12, [sp, #72]
	mov	w14, #-2
	mul	w12, w12, w30
	mvn	w13, w11
	add	w11, w26, w11
	orr	x13, x13, #0xffffffffffff0000
	add	x11, x13, w11, uxth
	sub	w12, w14, w12
	and	w12, w12, #0xffff
	cmp	w12, w11, uxth
	b.lo	.LBB5_38
	lsr	x11, x11, #16
	cbnz	x11, .LBB5_38
	ldr	x12, [sp, #504]
	sub	x11, x4, w29, uxth
	mov	x13, xzr
	add	w9, w9, w6
	stp	x16, x30, [sp, #48]
	add	x4, x12, w29, uxth #4
	and	x12, x16, #0xfffffffffffffffc
	and	x11, x11, #0xfffffffffffffffc
	add	x8, x12, x8
	str	w29, [sp, #64]
	str	x11, [sp, #200]
	str	x12, [sp, #40]
	str	w9, [sp, #192]
.LBB5_42:
	ldr	w9, [sp, #192]
	ldr	x15, [sp, #184]
	stp	x4, x13, [sp, #384]
	ldr	x12, [sp, #488]
	add	w9, w13, w9
	mvn	w13, w15
	mvn	w16, w15
	add	x11, x7, w9, uxth #4
	mvn	w26, w15
	tst	x15, #0x40
	and	x9, x9, #0xffff
	ldp	x5, x10, [x11, #48]
	lsl	x9, x9, #1
	ldp	x25, x22, [x11]
	ldp	x21, x6, [x11, #16]
	ldr	d0, [x12, x9]
	lsl	x0, x10, #1
	ldp	x1, x18, [x11, #32]
	lsl	x27, x22, #1
	lsr	x14, x5, x15
	lsr	x7, x25, x15
	lsl	x13, x0, x13
	lsl	x30, x6, #1
	lsr	x17, x10, x15
	lsl	x16, x27, x16
	lsr	x19, x22, x15
	lsr	x29, x1, x15
	lsl	x26, x30, x26
	orr	x13, x13, x14
	lsr	x14, x21, x15
	orr	x16, x16, x7
	lsl	x7, x18, #1
	csel	x20, xzr, x17, ne
	csel	x17, x17, x13, ne
	tst	x15, #0x40
	orr	x14, x26, x14
	lsr	x26, x6, x15
	mvn	w13, w15
	csel	x16, x19, x16, ne
	csel	x19, xzr, x19, ne
	tst	x15, #0x40
	lsl	x28, x7, x13
	csel	x4, x26, x14, ne
	lsr	x14, x18, x15
	csel	x26, xzr, x26, ne
	orr	x28, x28, x29
	tst	x15, #0x40
	and	x17, x17, x2
	csel	x28, x14, x28, ne
	csel	x29, xzr, x14, ne
	extr	x13, x6, x21, #1
	and	x14, x28, x2
	lsr	x28, x17, #1
	mov	x11, x21
	and	x20, x20, x3
	mvn	w21, w23
	and	x16, x16, x2
	lsr	x21, x28, x21
	lsl	x20, x20, x23
	lsr	x28, x16, #1
	lsl	x17, x17, x23
	and	x4, x4, x2
	and	x19, x19, x3
	orr	x20, x20, x21
	mvn	w21, w23
	tst	x23, #0x40
	lsr	x21, x28, x21
	lsl	x19, x19, x23
	csel	x15, x17, x20, ne
	csel	x12, xzr, x17, ne
	lsr	x17, x4, #1
	and	x26, x26, x3
	lsl	x16, x16, x23
	mvn	w20, w23
	orr	x19, x19, x21
	tst	x23, #0x40
	lsr	x17, x17, x20
	lsl	x20, x26, x23
	str	x12, [sp, #352]
	csel	x12, x16, x19, ne
	lsl	x4, x4, x23
	stp	x12, x15, [sp, #368]
	csel	x12, xzr, x16, ne
	orr	x17, x20, x17
	tst	x23, #0x40
	str	x12, [sp, #320]
	lsr	x16, x14, #1
	csel	x12, x4, x17, ne
	and	x29, x29, x3
	mvn	w19, w23
	str	x12, [sp, #360]
	ldr	x12, [sp, #176]
	lsr	x16, x16, x19
	lsl	x19, x29, x23
	csel	x17, xzr, x4, ne
	lsl	x14, x14, x23
	mvn	w4, w12
	extr	x9, x18, x1, #1
	tst	x23, #0x40
	orr	x16, x19, x16
	lsl	x4, x7, x4
	lsr	x19, x1, x12
	mvn	w21, w12
	csel	x15, x14, x16, ne
	lsr	x16, x18, x12
	orr	x4, x4, x19
	mvn	w19, w12
	lsr	x20, x11, x12
	lsl	x19, x30, x19
	lsl	x21, x27, x21
	lsr	x28, x25, x12
	csel	x14, xzr, x14, ne
	tst	x12, #0x40
	and	x9, x9, x2
	lsr	x26, x6, x12
	and	x13, x13, x2
	csel	x4, x16, x4, ne
	orr	x19, x19, x20
	csel	x16, xzr, x16, ne
	tst	x12, #0x40
	orr	x9, x14, x9
	orr	x14, x21, x28
	lsr	x20, x22, x12
	mvn	w21, w12
	str	x9, [sp, #344]
	csel	x9, x26, x19, ne
	csel	x19, xzr, x26, ne
	tst	x12, #0x40
	lsl	x21, x0, x21
	lsr	x26, x5, x12
	orr	x13, x17, x13
	and	x4, x4, x2
	str	x13, [sp, #328]
	csel	x13, x20, x14, ne
	lsr	x14, x10, x12
	orr	x17, x21, x26
	csel	x20, xzr, x20, ne
	tst	x12, #0x40
	csel	x17, x14, x17, ne
	ldr	x12, [sp, #168]
	csel	x21, xzr, x14, ne
	and	x14, x17, x2
	lsr	x17, x4, #1
	and	x16, x16, x3
	mvn	w26, w12
	lsl	x16, x16, x12
	and	x9, x9, x2
	lsr	x17, x17, x26
	lsl	x4, x4, x12
	and	x26, x20, x3
	lsr	x20, x9, #1
	tst	x12, #0x40
	and	x19, x19, x3
	orr	x16, x16, x17
	mvn	w17, w12
	and	x13, x13, x2
	csel	x16, x4, x16, ne
	lsr	x17, x20, x17
	lsl	x19, x19, x12
	str	x16, [sp, #264]
	csel	x16, xzr, x4, ne
	lsl	x4, x9, x12
	stp	x16, x0, [sp, #304]
	lsr	x16, x13, #1
	orr	x9, x19, x17
	mvn	w17, w12
	tst	x12, #0x40
	str	x15, [sp, #336]
	lsr	x16, x16, x17
	lsl	x17, x26, x12
	mov	x15, x0
	csel	x19, x4, x9, ne
	csel	x9, xzr, x4, ne
	lsr	x4, x14, #1
	ldr	x0, [sp, #160]
	and	x21, x21, x3
	orr	x16, x17, x16
	mvn	w17, w12
	lsl	x13, x13, x12
	lsr	x17, x4, x17
	lsl	x4, x21, x12
	mvn	w21, w0
	lsl	x21, x15, x21
	lsr	x26, x5, x0
	mvn	w28, w0
	orr	x17, x4, x17
	lsl	x4, x27, x28
	lsr	x28, x25, x0
	orr	x21, x21, x26
	mvn	w26, w0
	extr	x29, x22, x25, #1
	stp	x25, x27, [sp, #272]
	tst	x12, #0x40
	orr	x4, x4, x28
	lsl	x28, x30, x26
	lsr	x25, x11, x0
	stp	x7, x1, [sp, #248]
	mov	x1, x6
	csel	x6, x13, x16, ne
	lsl	x16, x14, x12
	str	x9, [sp, #288]
	csel	x9, xzr, x13, ne
	tst	x12, #0x40
	orr	x25, x28, x25
	lsr	x28, x10, x0
	str	x9, [sp, #240]
	csel	x14, x16, x17, ne
	csel	x9, xzr, x16, ne
	tst	x0, #0x40
	stp	x11, x30, [sp, #224]
	csel	x21, x28, x21, ne
	csel	x16, xzr, x28, ne
	str	x9, [sp, #296]
	lsr	x28, x22, x0
	lsr	x9, x1, x0
	mov	x13, x1
	ldp	x11, x1, [sp, #248]
	and	x17, x29, x2
	tst	x0, #0x40
	mvn	w29, w0
	ldr	x15, [sp, #320]
	lsl	x29, x11, x29
	lsr	x27, x1, x0
	csel	x4, x28, x4, ne
	csel	x12, xzr, x28, ne
	tst	x0, #0x40
	orr	x28, x15, x17
	csel	x17, x9, x25, ne
	mov	x20, x10
	orr	x27, x29, x27
	and	x29, x17, x2
	and	x17, x4, x2
	and	x4, x21, x2
	extr	x21, x10, x5, #1
	ldr	x10, [sp, #152]
	lsr	x25, x4, #1
	mov	x26, x5
	lsr	x5, x17, #1
	mvn	w15, w10
	mov	x7, x22
	mvn	w22, w10
	lsr	x15, x25, x15
	lsr	x25, x18, x0
	lsr	x30, x29, #1
	csel	x9, xzr, x9, ne
	tst	x0, #0x40
	and	x16, x16, x3
	ldr	x0, [sp, #352]
	lsr	x5, x5, x22
	mvn	w22, w10
	and	x21, x21, x2
	and	x9, x9, x3
	and	x12, x12, x3
	lsl	x16, x16, x10
	csel	x27, x25, x27, ne
	lsr	x22, x30, x22
	lsl	x12, x12, x10
	lsl	x9, x9, x10
	orr	x0, x0, x21
	and	x21, x27, x2
	orr	x15, x16, x15
	lsl	x4, x4, x10
	lsr	x16, x21, #1
	orr	x12, x12, x5
	orr	x9, x9, x22
	csel	x5, xzr, x25, ne
	mvn	w22, w10
	tst	x10, #0x40
	lsl	x17, x17, x10
	lsr	x22, x16, x22
	csel	x15, x4, x15, ne
	csel	x16, xzr, x4, ne
	tst	x10, #0x40
	lsl	x4, x29, x10
	and	x5, x5, x3
	csel	x12, x17, x12, ne
	csel	x17, xzr, x17, ne
	tst	x10, #0x40
	lsl	x5, x5, x10
	lsl	x21, x21, x10
	csel	x9, x4, x9, ne
	csel	x4, xzr, x4, ne
	and	x25, x3, x18, lsr #1
	tst	x10, #0x40
	ldr	x10, [sp, #336]
	orr	x5, x5, x22
	and	x22, x3, x13, lsr #1
	and	x29, x3, x7, lsr #1
	and	x27, x3, x20, lsr #1
	orr	x25, x10, x25
	ldr	x10, [sp, #360]
	orr	x9, x19, x9
	orr	x12, x6, x12
	csel	x5, x21, x5, ne
	str	x0, [sp, #352]
	orr	x22, x10, x22
	ldr	x10, [sp, #368]
	mov	x0, x13
	orr	x9, x22, x9
	str	x13, [sp, #216]
	ushll	v0.4s, v0.4h, #0
	orr	x30, x10, x29
	ldr	x10, [sp, #376]
	str	x9, [sp, #320]
	orr	x9, x30, x12
	orr	x12, x14, x15
	mov	x30, x11
	orr	x27, x10, x27
	ldr	x10, [sp, #264]
	str	x9, [sp, #264]
	orr	x19, x27, x12
	ldp	x9, x27, [sp, #304]
	orr	x5, x10, x5
	mov	x29, x26
	ushll2	v1.2d, v0.4s, #0
	orr	x10, x25, x5
	csel	x5, xzr, x21, ne
	ushll	v0.2d, v0.2s, #0
	orr	x14, x9, x5
	ldr	x9, [sp, #288]
	str	x10, [sp, #336]
	ldr	x10, [sp, #144]
	orr	x4, x9, x4
	ldr	x9, [sp, #344]
	mvn	w15, w10
	lsr	x5, x1, x10
	tst	x10, #0x40
	orr	x12, x9, x14
	ldr	x9, [sp, #328]
	lsl	x15, x11, x15
	ldp	x6, x11, [sp, #224]
	lsr	x14, x18, x10
	orr	x9, x9, x4
	lsr	x21, x7, x10
	lsr	x22, x26, x10
	stp	x9, x12, [sp, #368]
	ldr	x9, [sp, #240]
	orr	x12, x15, x5
	mvn	w15, w10
	lsr	x4, x6, x10
	csel	x12, x14, x12, ne
	orr	x13, x9, x17
	lsl	x15, x11, x15
	lsr	x17, x0, x10
	orr	x9, x28, x13
	mvn	w5, w10
	and	x12, x12, x2
	str	x9, [sp, #360]
	ldp	x0, x9, [sp, #272]
	orr	x15, x15, x4
	csel	x4, xzr, x14, ne
	tst	x10, #0x40
	mvn	w14, w10
	csel	x13, x17, x15, ne
	lsl	x5, x27, x5
	lsl	x14, x9, x14
	lsr	x15, x0, x10
	and	x4, x4, x3
	orr	x5, x5, x22
	lsr	x22, x20, x10
	and	x26, x13, x2
	orr	x14, x14, x15
	csel	x15, xzr, x17, ne
	tst	x10, #0x40
	csel	x17, x21, x14, ne
	csel	x21, xzr, x21, ne
	tst	x10, #0x40
	ldr	x10, [sp, #296]
	and	x17, x17, x2
	and	x15, x15, x3
	orr	x14, x10, x16
	ldr	x10, [sp, #136]
	csel	x16, x22, x5, ne
	lsr	x5, x12, #1
	and	x16, x16, x2
	csel	x22, xzr, x22, ne
	mvn	w25, w10
	lsl	x4, x4, x10
	lsl	x15, x15, x10
	lsr	x13, x5, x25
	and	x5, x21, x3
	lsr	x21, x26, #1
	lsr	x25, x17, #1
	lsl	x5, x5, x10
	lsl	x12, x12, x10
	orr	x13, x4, x13
	mvn	w4, w10
	tst	x10, #0x40
	lsr	x4, x21, x4
	mvn	w21, w10
	lsl	x17, x17, x10
	lsr	x21, x25, x21
	orr	x15, x15, x4
	lsr	x4, x16, #1
	lsl	x16, x16, x10
	orr	x5, x5, x21
	mvn	w21, w10
	lsr	x4, x4, x21
	and	x21, x22, x3
	csel	x22, x12, x13, ne
	csel	x13, xzr, x12, ne
	lsl	x12, x26, x10
	tst	x10, #0x40
	lsl	x21, x21, x10
	csel	x15, x12, x15, ne
	csel	x28, xzr, x12, ne
	tst	x10, #0x40
	orr	x12, x21, x4
	csel	x4, x17, x5, ne
	csel	x26, xzr, x17, ne
	tst	x10, #0x40
	ldr	x10, [sp, #352]
	fmov	x21, d1
	csel	x12, x16, x12, ne
	csel	x16, xzr, x16, ne
	orr	x14, x10, x14
	orr	x10, x19, x12
	str	x10, [sp, #352]
	ldr	x10, [sp, #264]
	orr	x19, x14, x16
	mov	x16, v1.d[1]
	orr	x10, x10, x4
	str	x10, [sp, #344]
	ldr	x10, [sp, #128]
	mvn	w12, w10
	lsr	x1, x1, x10
	lsr	x18, x18, x10
	lsl	x17, x30, x12
	mvn	w4, w10
	tst	x10, #0x40
	lsl	x5, x9, x4
	ldr	x12, [sp, #320]
	csel	x4, xzr, x18, ne
	orr	x14, x17, x1
	mvn	w17, w10
	lsr	x1, x6, x10
	lsl	x17, x11, x17
	ldr	x11, [sp, #216]
	lsr	x6, x0, x10
	csel	x14, x18, x14, ne
	tst	x10, #0x40
	mvn	w18, w10
	lsr	x11, x11, x10
	orr	x17, x17, x1
	lsl	x18, x27, x18
	orr	x15, x12, x15
	ldr	x12, [sp, #336]
	lsr	x0, x16, #1
	csel	x1, x11, x17, ne
	orr	x17, x5, x6
	csel	x6, xzr, x11, ne
	lsr	x11, x7, x10
	lsr	x5, x29, x10
	tst	x10, #0x40
	mov	x7, v0.d[1]
	orr	x12, x12, x22
	lsr	x22, x21, #1
	csel	x17, x11, x17, ne
	orr	x18, x18, x5
	lsr	x5, x20, x10
	csel	x25, xzr, x11, ne
	tst	x10, #0x40
	ldr	x10, [sp, #120]
	fmov	x29, d0
	csel	x27, x5, x18, ne
	csel	x5, xzr, x5, ne
	mvn	w11, w10
	lsl	x21, x21, x10
	tst	x10, #0x40
	lsr	x11, x22, x11
	lsr	x22, x7, #1
	lsl	x7, x7, x10
	mvn	w30, w10
	csel	x18, x21, x11, ne
	mvn	w11, w10
	csel	x21, xzr, x21, ne
	lsr	x11, x22, x11
	lsr	x22, x29, #1
	tst	x10, #0x40
	orr	x18, x18, x4
	lsr	x22, x22, x30
	mvn	w30, w10
	and	x18, x18, x3
	lsr	x0, x0, x30
	csel	x30, x7, x11, ne
	lsl	x11, x29, x10
	csel	x7, xzr, x7, ne
	tst	x10, #0x40
	lsl	x29, x16, x10
	csel	x22, x11, x22, ne
	csel	x11, xzr, x11, ne
	tst	x10, #0x40
	ldp	x10, x9, [sp, #360]
	orr	x11, x11, x17
	orr	x1, x7, x1
	orr	x7, x21, x14
	and	x11, x11, x2
	and	x14, x1, x2
	orr	x17, x22, x25
	orr	x6, x30, x6
	orr	x16, x10, x26
	csel	x26, x29, x0, ne
	csel	x29, xzr, x29, ne
	orr	x5, x26, x5
	orr	x26, x29, x27
	ldr	x10, [sp, #112]
	and	x21, x26, x2
	lsr	x25, x11, #1
	lsr	x26, x14, #1
	lsr	x1, x21, #1
	mvn	w22, w10
	mvn	w27, w10
	and	x5, x5, x3
	and	x6, x6, x3
	and	x7, x7, x2
	lsr	x1, x1, x22
	mvn	w22, w10
	lsl	x5, x5, x10
	lsr	x22, x25, x22
	lsr	x25, x26, x27
	lsl	x6, x6, x10
	lsr	x4, x7, #1
	and	x17, x17, x3
	orr	x1, x5, x1
	orr	x5, x6, x25
	mvn	w6, w10
	lsl	x17, x17, x10
	lsr	x4, x4, x6
	lsl	x6, x21, x10
	tst	x10, #0x40
	lsl	x11, x11, x10
	orr	x17, x17, x22
	lsl	x18, x18, x10
	csel	x1, x6, x1, ne
	csel	x6, xzr, x6, ne
	tst	x10, #0x40
	lsl	x14, x14, x10
	csel	x17, x11, x17, ne
	csel	x11, xzr, x11, ne
	tst	x10, #0x40
	orr	x18, x18, x4
	lsl	x4, x7, x10
	csel	x5, x14, x5, ne
	csel	x14, xzr, x14, ne
	tst	x10, #0x40
	ldr	x10, [sp, #376]
	csel	x18, x4, x18, ne
	csel	x4, xzr, x4, ne
	orr	x0, x9, x28
	orr	x12, x12, x18
	orr	x9, x15, x5
	orr	x13, x10, x13
	ldr	x10, [sp, #344]
	orr	x15, x19, x6
	orr	x13, x13, x4
	ldr	x4, [sp, #384]
	orr	x11, x16, x11
	orr	x17, x10, x17
	ldr	x10, [sp, #352]
	lsl	x16, x13, #4
	extr	x12, x12, x13, #60
	lsl	x13, x15, #4
	orr	x14, x0, x14
	orr	x18, x10, x1
	extr	x9, x9, x14, #60
	lsl	x1, x11, #4
	extr	x15, x18, x15, #60
	extr	x11, x17, x11, #60
	ldr	x7, [sp, #496]
	stp	x16, x12, [x4, #32]
	stp	x13, x15, [x4, #48]
	lsl	x13, x14, #4
	stp	x1, x11, [x4]
	stp	x13, x9, [x4, #16]
	ldr	x13, [sp, #392]
	ldr	x9, [sp, #200]
	add	x4, x4, #64
	add	x13, x13, #4
	cmp	x9, x13
	b.ne	.LBB5_42
	ldp	x11, x9, [sp, #40]
	add	w10, w23, #2
	ldp	x27, x20, [sp, #96]
	ldr	x28, [sp, #16]
	ldp	x26, x21, [sp, #24]
	ldr	w29, [sp, #64]
	cmp	x9, x11
	ldr	x30, [sp, #56]
	ldr	x4, [sp, #480]
	ldr	w6, [sp, #472]
	b.ne	.LBB5_38
	b	.LBB5_28
.LBB5_44:
	ldr	x1, [sp, #72]
	ldp	x25, x27, [sp, #88]
	ldp	w16, w17, [sp, #64]
	tst	w1, #0xffff
	b.eq	.LBB5_47
	add	x10, sp, #1, lsl #12
	mov	x8, xzr
	add	w9, w1, #2
	add	x10, x10, #720
	and	x11, x27, #0xffff
	and	x12, x1, #0xffff
	add	x13, x10, #16
.LBB5_46:
	sub	w14, w8, w16
	and	w15, w9, #0xffff
	add	w14, w14, #6
	cmp	w15, w14, uxth
	csel	w15, wzr, w1, hi
	sub	w14, w14, w15
	ldr	x15, [x13, x8, lsl #3]
	and	x14, x14, #0xffff
	ldr	x14, [x10, x14, lsl #3]
	lsr	x14, x14, x11
	orr	x14, x15, x14
	str	x14, [x13, x8, lsl #3]
	add	x8, x8, #1
	cmp	x12, x8
	b.ne	.LBB5_46
.LBB5_47:
	and	w8, w1, #0x7
	and	x9, x1, #0xffff
	add	x12, sp, #1, lsl #12
	eor	w10, w8, #0x4
	lsl	x11, x9, #3
	add	x12, x12, #720
	dup	v1.2d, x10
	ands	w10, w1, #0xffff
	stp	q0, q0, [sp, #560]
	ldr	q2, [x12, x11]
	stp	q0, q0, [sp, #592]
	stp	q0, q0, [sp, #624]
	ushl	v1.2d, v2.2d, v1.2d
	stp	q0, q0, [sp, #656]
	stp	q0, q0, [sp, #688]
	stp	q0, q0, [sp, #720]
	ushr	v1.2d, v1.2d, #4
	stp	q0, q0, [sp, #752]
	stp	q0, q0, [sp, #784]
	stp	q0, q0, [sp, #816]
	str	q1, [sp, #4816]
	stp	q0, q0, [sp, #848]
	stp	q0, q0, [sp, #880]
	stp	q0, q0, [sp, #912]
	stp	q0, q0, [sp, #944]
	stp	q0, q0, [sp, #976]
	str	xzr, [sp, #1008]
	b.eq	.LBB5_75
	cmp	w10, #1
	mov	x10, xzr
	b.eq	.LBB5_52
	adrp	x11, .LCPI5_0
	and	x10, x9, #0xfffe
	add	x12, sp, #560
	ldr	q0, [x11, :lo12:.LCPI5_0]
	add	x11, sp, #1, lsl #12
	and	x13, x9, #0xfffe
	add	x11, x11, #720
	add	x11, x11, #16
.LBB5_50:
	fmov	x15, d0
	mov	x14, v0.d[1]
	subs	x13, x13, #2
	ldp	q3, q4, [x11, #-16]
	movi	v5.16b, #3
	movi	v6.16b, #28
	add	w15, w15, w15, lsl #1
	add	w14, w14, w14, lsl #1
	fmov	d1, x15
	mov	v1.d[1], x14
	mov	w14, #7
	dup	v2.2d, x14
	mov	w14, #4
	and	v1.16b, v1.16b, v2.16b
	dup	v2.2d, x14
	mov	x14, #-2
	eor	v1.16b, v1.16b, v2.16b
	dup	v2.2d, x14
	mov	w14, #2
	sub	v1.2d, v2.2d, v1.2d
	ldur	q2, [x11, #-8]
	add	x11, x11, #16
	ushl	v2.2d, v2.2d, v1.2d
	ushl	v3.2d, v3.2d, v1.2d
	ushl	v1.2d, v4.2d, v1.2d
	movi	v4.16b, #224
	shl	v2.2d, v2.2d, #2
	and	v3.16b, v3.16b, v5.16b
	shl	v1.2d, v1.2d, #5
	and	v2.16b, v2.16b, v6.16b
	and	v1.16b, v1.16b, v4.16b
	orr	v2.16b, v2.16b, v3.16b
	dup	v3.2d, x14
	orr	v1.16b, v2.16b, v1.16b
	add	v0.2d, v0.2d, v3.2d
	str	q1, [x12], #16
	b.ne	.LBB5_50
	cmp	x10, x9
	b.eq	.LBB5_54
.LBB5_52:
	lsl	x12, x10, #3
	add	x13, sp, #1, lsl #12
	add	x11, x10, x10, lsl #1
	add	x13, x13, #720
	add	x14, sp, #560
	sub	x9, x9, x10
	add	x13, x12, x13
	add	x10, x14, x12
	add	x12, x13, #8
.LBB5_53:
	and	x13, x11, #0x7
	ldp	x14, x15, [x12, #-8]
	eor	x13, x13, #0x4
	ldr	x16, [x12, #8]!
	add	x13, x13, #2
	subs	x9, x9, #1
	add	x11, x11, #3
	lsr	x15, x15, x13
	lsr	x16, x16, x13
	lsr	x13, x14, x13
	lsl	x14, x15, #2
	lsl	x15, x16, #5
	and	x13, x13, #0x303030303030303
	and	x14, x14, #0x1c1c1c1c1c1c1c1c
	orr	x13, x14, x13
	and	x14, x15, #0xe0e0e0e0e0e0e0e0
	orr	x13, x13, x14
	str	x13, [x10], #8
	b.ne	.LBB5_53
.LBB5_54:
	cmp	w17, #4
	b.ne	.LBB5_71
	cmp	w8, #4
	b.ne	.LBB5_71
	add	x9, sp, #1, lsl #12
	sub	w8, w1, #1
	orr	w11, w27, #0x2
	add	x9, x9, #720
	orr	w12, w27, #0x3
	add	x8, x9, w8, uxth #3
	ldr	x8, [x8, #16]
	lsr	x9, x8, #3
	lsr	x10, x8, #5
	and	x9, x9, #0x2
	and	x10, x10, #0x2
	bfxil	x9, x8, #5, #1
	ldr	x8, [sp, #4832]
	orr	x9, x10, x9, lsl #2
	lsr	x11, x8, x11
	lsr	x8, x8, x12
	ldr	x10, [sp, #4840]
	ubfiz	x8, x8, #1, #1
	bfxil	x9, x11, #0, #1
	ldr	x11, [sp, #4848]
	orr	x8, x8, x9, lsl #2
.LBB5_57:
	lsr	x9, x10, x12
	lsr	x11, x11, x12
	ldr	x10, [sp, #4856]
	bfxil	x8, x9, #0, #1
	ubfiz	x9, x11, #1, #1
	orr	x9, x9, x8, lsl #2
	lsr	x8, x10, x12
	b	.LBB5_74
.LBB5_58:
	ldrh	w22, [x20, #4]
	ldrh	w20, [x20, #8]
	add	x0, sp, #1, lsl #12
	add	x0, x0, #720
	mov	w1, wzr
	mov	w2, #4416
	add	x21, sp, #1, lsl #12
	str	xzr, [sp, #544]
	mul	w28, w20, w22
	stp	q0, q0, [sp, #512]
	add	x21, x21, #720
	bl	memset
	str	x20, [sp, #400]
	cbz	x20, .LBB5_111
	mov	x8, #-1
	mvn	w12, w23
	add	w10, w23, #2
	lsr	x14, x8, #1
	mov	w16, #1
	lsl	x8, x8, x23
	orr	w11, w16, w10, lsl #1
	lsl	w13, w23, #1
	tst	x23, #0x40
	lsr	x12, x14, x12
	lsl	w14, w23, #2
	csel	x1, xzr, x8, ne
	mov	w4, #117
	mov	x9, xzr
	mvn	x1, x1
	stp	x11, x14, [sp, #456]
	mov	w11, #1
	orr	x12, x8, x12
	str	x11, [sp, #416]
	orr	w11, w16, w10, lsl #2
	add	w17, w14, w23
	csel	x8, x8, x12, ne
	mov	w12, w22
	str	x11, [sp, #448]
	add	w11, w13, w23
	mvn	x2, x8
	add	w11, w11, #7
	add	w8, w17, #11
	str	w19, [sp, #68]
	stp	x8, x11, [sp, #488]
	sub	w8, w4, w17
	stp	x13, x8, [sp, #472]
	mov	w8, #128
	sub	w8, w8, w17
	stp	x25, x27, [sp, #88]
	stp	xzr, x8, [sp, #432]
	add	x8, x21, #80
	stp	x28, x8, [sp, #384]
	str	w22, [sp, #408]
	b	.LBB5_61
.LBB5_60:
	ldr	x9, [sp, #424]
	ldr	x8, [sp, #400]
	ldr	w22, [sp, #408]
	add	x9, x9, #1
	add	w12, w4, w22
	cmp	x9, x8
	ldr	x8, [sp, #416]
	add	x8, x8, #1
	str	x8, [sp, #416]
	ldr	x8, [sp, #432]
	add	w8, w8, w22
	str	x8, [sp, #432]
	b.eq	.LBB5_92
.LBB5_61:
	mul	w8, w22, w9
	and	x4, x12, #0xffff
	str	x9, [sp, #424]
	and	w6, w8, #0xffff
	add	w7, w8, w22
	cmp	w6, w7, uxth
	b.hs	.LBB5_60
	ldr	x11, [sp, #432]
	ldr	x9, [sp, #104]
	mov	w19, #1
	and	x27, x8, #0xffff
	ubfiz	x6, x11, #5, #16
	ldr	x11, [sp, #424]
	ldrh	w12, [x9, #2]
	ldr	x16, [x9, #24]
	orr	w13, w19, w11, lsl #1
	ldr	x11, [sp, #392]
	cmp	w12, #128
	add	x28, x11, x6
	b.hi	.LBB5_69
	cmp	w24, #1
	b.ls	.LBB5_68
	ldr	w8, [sp, #408]
	ldr	x9, [sp, #416]
	mul	w8, w8, w9
	and	x8, x8, #0xffff
.LBB5_65:
	add	w12, w13, w27
	mov	w21, #1
	mov	w22, #1
	add	x12, x16, w12, uxth #4
	ldp	x20, x19, [x12]
	extr	x6, x19, x20, #1
	and	x12, x2, x19, lsr #1
	and	x6, x6, x1
.LBB5_66:
	madd	w28, w22, w10, w21
	lsl	x29, x19, #1
	mvn	w30, w28
	lsr	x9, x20, x28
	lsl	x29, x29, x30
	lsr	x30, x19, x28
	and	x28, x28, #0xffff
	tst	x28, #0x40
	mul	w28, w22, w23
	add	w22, w22, #1
	orr	x9, x29, x9
	csel	x29, xzr, x30, ne
	csel	x9, x30, x9, ne
	and	x29, x29, x2
	and	x9, x9, x1
	mvn	w7, w28
	lsl	x29, x29, x28
	lsr	x30, x9, #1
	lsl	x9, x9, x28
	and	x28, x28, #0xffff
	tst	x28, #0x40
	lsr	x7, x30, x7
	orr	x7, x29, x7
	csel	x7, x9, x7, ne
	csel	x9, xzr, x9, ne
	cmp	w24, w22, uxth
	orr	x12, x7, x12
	orr	x6, x9, x6
	b.hi	.LBB5_66
	add	x9, sp, #1, lsl #12
	lsl	x7, x6, #4
	extr	x6, x12, x6, #60
	add	x9, x9, #720
	lsr	x12, x12, #60
	add	x9, x9, x27, lsl #5
	add	x27, x27, #1
	cmp	x27, x8
	stp	x7, x6, [x9, #64]
	stp	x12, xzr, [x9, #80]
	b.ne	.LBB5_65
	b	.LBB5_60
.LBB5_68:
	add	w8, w13, w27
	add	x27, x27, #1
	add	x8, x16, w8, uxth #4
	cmp	x4, x27
	ldp	x9, x8, [x8]
	extr	x9, x8, x9, #1
	and	x8, x2, x8, lsr #1
	and	x9, x9, x1
	extr	x12, x8, x9, #60
	lsl	x9, x9, #4
	lsr	x8, x8, #60
	stp	x9, x12, [x28, #-16]
	stp	x8, xzr, [x28], #32
	b.ne	.LBB5_68
	b	.LBB5_60
.LBB5_69:
	ldr	x8, [x9, #40]
	str	x8, [sp, #504]
.LBB5_70:
	add	w22, w13, w27
	add	w11, w23, #3
	mov	w14, w13
	add	x8, x16, w22, uxth #4
	and	x12, x11, #0xffff
	ldp	x15, x13, [sp, #464]
	tst	x12, #0x40
	ldr	x18, [sp, #496]
	ldp	x19, x30, [x8]
	mvn	w8, w11
	add	w25, w13, w23
	and	x22, x22, #0xffff
	add	x27, x27, #1
	lsl	x6, x30, #1
	lsr	x9, x19, x11
	lsr	x7, x30, x11
	ldp	x5, x11, [sp, #448]
	lsr	x17, x19, x18
	lsl	x8, x6, x8
	csel	x12, xzr, x7, ne
	and	x12, x12, x2
	mvn	w20, w11
	lsr	x21, x19, x11
	orr	x8, x8, x9
	mvn	w9, w23
	lsl	x12, x12, x23
	csel	x8, x7, x8, ne
	lsl	x20, x6, x20
	lsr	x29, x30, x11
	and	x8, x8, x1
	tst	x23, #0x40
	lsr	x7, x8, #1
	lsl	x8, x8, x23
	orr	x21, x20, x21
	lsr	x9, x7, x9
	and	x7, x11, #0xffff
	mvn	w11, w18
	lsl	x11, x6, x11
	orr	x9, x12, x9
	csel	x12, xzr, x8, ne
	csel	x20, x8, x9, ne
	tst	x7, #0x40
	mvn	w9, w13
	csel	x8, x29, x21, ne
	csel	x21, xzr, x29, ne
	and	x7, x13, #0xffff
	and	x8, x8, x1
	and	x21, x21, x2
	tst	x7, #0x40
	lsr	x29, x8, #1
	lsl	x21, x21, x13
	lsl	x0, x8, x13
	orr	x11, x11, x17
	and	x17, x25, #0xffff
	and	x7, x5, #0xffff
	lsr	x9, x29, x9
	and	x29, x18, #0xffff
	lsr	x18, x30, x18
	csel	x8, xzr, x0, ne
	ldp	x13, x26, [sp, #480]
	orr	x9, x21, x9
	csel	x21, x0, x9, ne
	tst	x29, #0x40
	mvn	w9, w25
	csel	x11, x18, x11, ne
	csel	x18, xzr, x18, ne
	mvn	w0, w5
	and	x11, x11, x1
	and	x18, x18, x2
	lsl	x0, x6, x0
	lsr	x3, x11, #1
	lsl	x18, x18, x25
	lsl	x11, x11, x25
	ldr	x25, [sp, #504]
	tst	x17, #0x40
	mvn	w29, w15
	lsr	x9, x3, x9
	lsr	x3, x19, x5
	mvn	w17, w26
	ldrh	w25, [x25, x22, lsl #1]
	lsl	x17, x6, x17
	lsr	x6, x19, x26
	orr	x9, x18, x9
	orr	x0, x0, x3
	lsr	x3, x30, x5
	csel	x22, x11, x9, ne
	csel	x9, xzr, x11, ne
	tst	x7, #0x40
	lsr	x11, x25, #1
	mvn	w18, w13
	csel	x0, x3, x0, ne
	extr	x7, x30, x19, #1
	orr	x17, x17, x6
	lsl	x19, x25, x13
	lsr	x11, x11, x18
	and	x18, x0, x1
	csel	x0, xzr, x3, ne
	lsr	x3, x18, #1
	and	x0, x0, x2
	and	x7, x7, x1
	lsl	x0, x0, x15
	orr	x12, x12, x7
	and	x7, x15, #0xffff
	lsr	x3, x3, x29
	lsl	x18, x18, x15
	tst	x7, #0x40
	lsr	x7, x30, x26
	orr	x8, x8, x9
	and	x6, x2, x30, lsr #1
	orr	x0, x0, x3
	and	x3, x26, #0xffff
	add	w25, w15, w23
	csel	x0, x18, x0, ne
	csel	x18, xzr, x18, ne
	tst	x3, #0x40
	and	x3, x13, #0xffff
	csel	x17, x7, x17, ne
	csel	x7, xzr, x7, ne
	tst	x3, #0x40
	orr	x6, x20, x6
	mvn	w3, w25
	csel	x9, x19, x11, ne
	csel	x11, xzr, x19, ne
	ldr	x15, [sp, #440]
	orr	x11, x11, x17
	orr	x9, x9, x7
	orr	x19, x21, x22
	and	x11, x11, x1
	and	x9, x9, x2
	and	x17, x25, #0xffff
	lsr	x20, x11, #1
	mvn	w7, w15
	orr	x8, x12, x8
	orr	x12, x6, x19
	lsl	x6, x9, x25
	lsl	x19, x11, x25
	lsr	x3, x20, x3
	lsl	x20, x9, #1
	tst	x17, #0x40
	lsr	x11, x11, x15
	and	x17, x15, #0xffff
	lsr	x9, x9, x15
	lsl	x7, x20, x7
	csel	x20, xzr, x19, ne
	orr	x3, x6, x3
	orr	x18, x18, x20
	csel	x3, x19, x3, ne
	tst	x17, #0x40
	orr	x11, x7, x11
	orr	x8, x8, x18
	orr	x18, x0, x3
	csel	x9, x9, x11, ne
	orr	x12, x12, x18
	lsl	x17, x8, #4
	and	x9, x9, #0xff
	extr	x8, x12, x8, #60
	mov	w13, w14
	extr	x9, x9, x12, #60
	cmp	x4, x27
	stp	x17, x8, [x28, #-16]
	stp	x9, xzr, [x28], #32
	b.ne	.LBB5_70
	b	.LBB5_60
.LBB5_71:
	cmp	w17, #6
	b.ne	.LBB5_96
	cmp	w8, #6
	b.ne	.LBB5_96
	add	x9, sp, #1, lsl #12
	sub	w8, w1, #3
	sub	w10, w1, #1
	add	x9, x9, #720
	sub	w11, w1, #2
	add	w13, w27, #3
	add	x8, x9, w8, uxth #3
	add	x10, x9, w10, uxth #3
	add	x9, x9, w11, uxth #3
	orr	w11, w27, #0x1
	ldr	x8, [x8, #16]
	ldr	x10, [x10, #16]
	ldr	x9, [x9, #16]
	lsr	x8, x8, #3
	lsr	x10, x10, #3
	and	x8, x8, #0x2
	and	x10, x10, #0x2
	bfxil	x8, x9, #4, #1
	ldr	x9, [sp, #4832]
	orr	x8, x10, x8, lsl #2
	lsr	x12, x9, x27
	lsr	x11, x9, x11
	ldr	x10, [sp, #4840]
	bfxil	x8, x12, #0, #1
	ubfiz	x11, x11, #1, #1
	add	w12, w27, #2
	orr	x8, x11, x8, lsl #2
	lsr	x11, x9, x12
	lsr	x9, x9, x13
	bfxil	x8, x11, #0, #1
	ubfiz	x9, x9, #1, #1
	orr	x9, x9, x8, lsl #2
	lsr	x8, x10, x13
.LBB5_74:
	bfxil	x9, x8, #0, #1
.LBB5_75:
	adrp	x19, .Lstatic.2
	add	x19, x19, :lo12:.Lstatic.2
	add	x0, sp, #512
	ldrb	w8, [x19, x9]
	ldrb	w9, [sp, #1008]
	mov	w2, w27
	orr	w8, w9, w8
	strb	w8, [sp, #1008]
	bl	"dm_layout::symbols::slots::order"
	ldr	x8, [sp, #520]
	cbz	x8, .LBB5_78
	ldr	x9, [sp, #512]
	mov	x10, x25
	mov	x11, x8
.LBB5_77:
	ldrh	w12, [x9], #2
	add	x13, sp, #560
	subs	x11, x11, #1
	ldrb	w12, [x13, x12]
	ldrb	w12, [x19, x12]
	strb	w12, [x10], #1
	b.ne	.LBB5_77
.LBB5_78:
	ldr	x9, [sp, #536]
	cbz	x9, .LBB5_143
	ldr	x10, [sp, #528]
	ldr	x11, [sp, #544]
	add	x8, x25, x8
.LBB5_80:
	ldrh	w12, [x10], #2
	add	x13, sp, #560
	sub	x13, x13, x11
	subs	x9, x9, #1
	ldrb	w12, [x13, x12]
	ldrb	w12, [x19, x12]
	strb	w12, [x8], #1
	b.ne	.LBB5_80
	b	.LBB5_143
.LBB5_81:
	ldr	w0, [sp, #68]
	ldr	x25, [sp, #88]
	add	x22, sp, #1, lsl #12
	tst	w21, #0xffff
	add	x22, x22, #720
	b.eq	.LBB5_84
	add	x9, sp, #1, lsl #12
	mov	x8, xzr
	add	w10, w21, #2
	add	x9, x9, #720
	and	x11, x21, #0xffff
	add	x12, x9, #32
.LBB5_83:
	sub	w13, w8, w0
	and	w14, w10, #0xffff
	mvn	w16, w27
	add	w13, w13, #6
	add	x17, x12, x8, lsl #4
	add	x8, x8, #1
	cmp	w14, w13, uxth
	csel	w14, wzr, w21, hi
	sub	w13, w13, w14
	add	x13, x9, w13, uxth #4
	ldp	x13, x14, [x13]
	lsl	x15, x14, #1
	lsr	x13, x13, x27
	lsr	x14, x14, x27
	lsl	x15, x15, x16
	and	x16, x27, #0xffff
	tst	x16, #0x40
	ldp	x18, x16, [x17]
	orr	x13, x15, x13
	csel	x15, xzr, x14, ne
	csel	x13, x14, x13, ne
	cmp	x11, x8
	orr	x14, x16, x15
	orr	x13, x18, x13
	stp	x13, x14, [x17]
	b.ne	.LBB5_83
.LBB5_84:
	add	x8, x22, w21, uxth #4
	and	w19, w21, #0x7
	mov	w11, #59
	eor	w14, w19, #0x4
	eor	w11, w19, w11
	add	x0, sp, #560
	ldp	x9, x10, [x8]
	mov	w1, wzr
	ldp	x13, x8, [x8, #16]
	mov	w2, #1936
	and	w20, w21, #0xffff
	lsr	x12, x9, #1
	lsl	x10, x10, x14
	lsl	x9, x9, x14
	lsr	x15, x13, #1
	lsl	x8, x8, x14
	lsr	x12, x12, x11
	lsr	x11, x15, x11
	orr	x10, x10, x12
	lsl	x12, x13, x14
	orr	x8, x8, x11
	extr	x9, x10, x9, #4
	lsr	x10, x10, #4
	extr	x11, x8, x12, #4
	lsr	x8, x8, #4
	str	x9, [sp, #4816]
	str	x10, [sp, #4824]
	str	x11, [sp, #4832]
	str	x8, [sp, #4840]
	bl	memset
	mov	x8, xzr
	cbz	w20, .LBB5_103
	and	x9, x21, #0xffff
.LBB5_86:
	lsl	x10, x8, #4
	add	x12, sp, #1, lsl #12
	add	w11, w8, w8, lsl #1
	add	x12, x12, #720
	add	x8, x8, #1
	add	x13, x12, x10
	and	w11, w11, #0x7
	cmp	x9, x8
	ldp	x14, x12, [x13, #16]
	eor	w11, w11, #0x4
	ldp	x16, x17, [x13]
	add	w11, w11, #2
	ldp	x13, x15, [x13, #32]
	mvn	w0, w11
	lsl	x18, x12, #1
	lsr	x14, x14, x11
	lsr	x12, x12, x11
	lsl	x2, x17, #1
	lsr	x16, x16, x11
	lsl	x1, x15, #1
	lsl	x18, x18, x0
	lsr	x13, x13, x11
	lsr	x15, x15, x11
	lsr	x11, x17, x11
	lsl	x12, x12, #2
	lsl	x1, x1, x0
	lsl	x0, x2, x0
	orr	x14, x18, x14
	lsl	x14, x14, #2
	lsl	x15, x15, #5
	and	x11, x11, #0x303030303030303
	orr	x13, x1, x13
	orr	x16, x0, x16
	and	x12, x12, #0x1c1c1c1c1c1c1c1c
	lsl	x13, x13, #5
	and	x16, x16, #0x303030303030303
	and	x14, x14, #0x1c1c1c1c1c1c1c1c
	orr	x14, x14, x16
	orr	x11, x12, x11
	and	x12, x15, #0xe0e0e0e0e0e0e0e0
	and	x13, x13, #0xe0e0e0e0e0e0e0e0
	orr	x11, x11, x12
	orr	x13, x14, x13
	fmov	s0, w13
	lsr	x14, x13, #8
	extr	x12, x11, x13, #40
	mov	v0.b[1], w14
	lsr	x14, x13, #16
	mov	v0.b[2], w14
	lsr	x14, x13, #24
	mov	v0.b[3], w14
	lsr	x14, x13, #32
	mov	v0.b[4], w14
	mov	v0.b[5], w12
	extr	x12, x11, x13, #48
	mov	v0.b[6], w12
	extr	x12, x11, x13, #56
	mov	v0.b[7], w12
	lsr	x12, x11, #8
	mov	v0.b[8], w11
	mov	v0.b[9], w12
	lsr	x12, x11, #16
	mov	v0.b[10], w12
	lsr	x12, x11, #24
	mov	v0.b[11], w12
	lsr	x12, x11, #32
	mov	v0.b[12], w12
	lsr	x12, x11, #40
	mov	v0.b[13], w12
	lsr	x12, x11, #48
	lsr	x11, x11, #56
	mov	v0.b[14], w12
	mov	v0.b[15], w11
	add	x11, sp, #560
	str	q0, [x11, x10]
	b.ne	.LBB5_86
	ldr	w9, [sp, #80]
	cmp	w9, #4
	b.ne	.LBB5_99
	cmp	w19, #4
	b.ne	.LBB5_99
	add	x9, sp, #1, lsl #12
	sub	w8, w21, #1
	orr	w10, w27, #0x2
	add	x9, x9, #720
	ldr	x11, [sp, #4856]
	and	x14, x10, #0xffff
	add	x9, x9, w8, uxth #4
	ldr	x12, [sp, #4848]
	mvn	x15, x14
	lsl	x16, x11, #1
	mvn	w13, w27
	and	x15, x15, #0x3f
	ldr	x17, [x9, #32]
	orr	w8, w27, #0x3
	and	x9, x13, #0x3c
	lsr	x13, x12, x10
	tst	x14, #0x40
	lsl	x14, x16, x15
	lsr	x15, x17, #3
	lsr	x12, x12, x8
	lsl	x16, x16, x9
	lsr	x10, x11, x10
	orr	x13, x14, x13
	lsr	x14, x17, #5
	and	x15, x15, #0x2
	orr	x12, x16, x12
	ldr	x16, [sp, #4872]
	bfxil	x15, x17, #5, #1
	and	x14, x14, #0x2
	csel	x10, x10, x13, ne
	and	x13, x8, #0xffff
	ldr	x17, [sp, #4864]
	lsr	x11, x11, x8
	orr	x14, x14, x15, lsl #2
	lsl	x15, x16, #1
	tst	x13, #0x40
	ldr	x13, [sp, #4888]
	lsr	x17, x17, x8
	lsr	x16, x16, x8
	lsl	x15, x15, x9
	bfxil	x14, x10, #0, #1
	csel	x10, x11, x12, ne
	ldr	x11, [sp, #4880]
	lsl	x12, x13, #1
	ubfiz	x10, x10, #1, #1
	orr	x15, x15, x17
	ldr	x17, [sp, #4904]
	lsr	x13, x13, x8
	lsr	x11, x11, x8
	lsl	x12, x12, x9
	orr	x10, x10, x14, lsl #2
	csel	x14, x16, x15, ne
	lsl	x15, x17, #1
	orr	x11, x12, x11
	ldr	x12, [sp, #4896]
	bfxil	x10, x14, #0, #1
	csel	x11, x13, x11, ne
	lsl	x9, x15, x9
	lsr	x13, x17, x8
	ubfiz	x11, x11, #1, #1
	lsr	x12, x12, x8
.LBB5_90:
	orr	x8, x11, x10, lsl #2
	orr	x9, x9, x12
.LBB5_91:
	csel	x9, x13, x9, ne
	b	.LBB5_102
.LBB5_92:
	ldr	x28, [sp, #384]
	ldp	x25, x27, [sp, #88]
	ldr	w10, [sp, #68]
	add	x21, sp, #1, lsl #12
	tst	w28, #0xffff
	add	x21, x21, #720
	b.eq	.LBB5_111
	and	w8, w27, #0xffff
	mov	w9, #6
	mov	x11, xzr
	cmp	w8, #128
	sub	w8, w9, w10
	add	w9, w28, #2
	and	x10, x28, #0xffff
	b.hs	.LBB5_109
	add	x12, sp, #1, lsl #12
	mov	w13, #127
	add	x12, x12, #720
	sub	w13, w13, w27
	add	x14, x12, #80
.LBB5_95:
	add	w15, w8, w11
	and	w16, w9, #0xffff
	and	x0, x13, #0xffff
	cmp	w16, w15, uxth
	mvn	w17, w13
	add	x11, x11, #1
	csel	w16, wzr, w28, hi
	tst	x0, #0x40
	sub	w15, w15, w16
	mvn	w16, w27
	and	x15, x15, #0xffff
	add	x15, x12, x15, lsl #5
	ldp	x18, x1, [x15, #8]
	ldr	x2, [x15, #24]
	ldr	x15, [x15]
	lsl	x5, x2, #1
	lsl	x0, x18, #1
	extr	x3, x2, x1, #63
	ubfx	x4, x1, #0, #63
	lsl	x6, x1, #1
	lsr	x15, x15, x27
	lsr	x18, x18, x27
	lsl	x0, x0, x16
	lsr	x17, x4, x17
	lsl	x3, x3, x13
	lsl	x16, x5, x16
	lsl	x5, x6, x13
	and	x4, x27, #0xffff
	orr	x15, x0, x15
	orr	x17, x3, x17
	lsr	x1, x1, x27
	ldp	x0, x3, [x14, #-16]
	csel	x17, x5, x17, ne
	csel	x5, xzr, x5, ne
	tst	x4, #0x40
	lsr	x2, x2, x27
	csel	x15, x18, x15, ne
	csel	x18, xzr, x18, ne
	orr	x16, x16, x1
	orr	x0, x5, x0
	ldp	x5, x4, [x14]
	orr	x18, x18, x3
	orr	x15, x15, x0
	csel	x0, xzr, x2, ne
	orr	x17, x18, x17
	stp	x15, x17, [x14, #-16]
	csel	x15, x2, x16, ne
	orr	x16, x4, x0
	cmp	x10, x11
	orr	x15, x5, x15
	stp	x15, x16, [x14], #32
	b.ne	.LBB5_95
	b	.LBB5_111
.LBB5_96:
	cmp	w17, #4
	b.ne	.LBB5_121
	cmp	w8, #6
	b.ne	.LBB5_121
	add	x9, sp, #1, lsl #12
	sub	w8, w1, #3
	sub	w10, w1, #1
	add	x9, x9, #720
	sub	w11, w1, #2
	orr	w12, w27, #0x3
	add	x8, x9, w8, uxth #3
	add	x10, x9, w10, uxth #3
	add	x9, x9, w11, uxth #3
	orr	w11, w27, #0x2
	ldr	x8, [x8, #16]
	ldr	x10, [x10, #16]
	ldr	x9, [x9, #16]
	lsr	x8, x8, #3
	lsr	x10, x10, #3
	and	x8, x8, #0x2
	and	x10, x10, #0x2
	bfxil	x8, x9, #4, #1
	ldr	x9, [sp, #4832]
	orr	x8, x10, x8, lsl #2
	lsr	x11, x9, x11
	lsr	x9, x9, x12
	ldr	x10, [sp, #4840]
	ubfiz	x9, x9, #1, #1
	bfxil	x8, x11, #0, #1
	ldr	x11, [sp, #4848]
	orr	x8, x9, x8, lsl #2
	b	.LBB5_57
.LBB5_99:
	cmp	w9, #6
	b.ne	.LBB5_124
	cmp	w19, #6
	b.ne	.LBB5_124
	add	x11, sp, #1, lsl #12
	sub	w8, w21, #3
	sub	w12, w21, #1
	add	x11, x11, #720
	sub	w10, w21, #2
	ldr	x9, [sp, #4848]
	add	x13, x11, w8, uxth #4
	ldr	x8, [sp, #4856]
	add	x12, x11, w12, uxth #4
	add	x10, x11, w10, uxth #4
	mvn	w14, w27
	lsr	x18, x9, x27
	ldr	x13, [x13, #32]
	lsl	x17, x8, #1
	ldr	x12, [x12, #32]
	ldr	x10, [x10, #32]
	and	x11, x14, #0x3e
	and	x15, x27, #0xffff
	lsr	x13, x13, #3
	lsl	x14, x17, x14
	lsr	x12, x12, #3
	orr	w16, w27, #0x1
	lsl	x11, x17, x11
	tst	x15, #0x40
	and	x13, x13, #0x2
	lsr	x0, x9, x16
	orr	x14, x14, x18
	bfxil	x13, x10, #4, #1
	lsr	x10, x8, x27
	and	x12, x12, #0x2
	add	w15, w27, #2
	orr	x11, x11, x0
	csel	x10, x10, x14, ne
	orr	x12, x12, x13, lsl #2
	lsr	x13, x8, x16
	and	x14, x16, #0xffff
	mvn	w16, w15
	tst	x14, #0x40
	lsr	x14, x9, x15
	lsl	x16, x17, x16
	bfxil	x12, x10, #0, #1
	csel	x10, x13, x11, ne
	add	w13, w27, #3
	ubfiz	x10, x10, #1, #1
	orr	x11, x16, x14
	lsr	x14, x8, x15
	and	x15, x15, #0xffff
	mvn	w16, w13
	lsr	x9, x9, x13
	tst	x15, #0x40
	lsl	x15, x17, x16
	orr	x10, x10, x12, lsl #2
	ldr	x12, [sp, #4872]
	csel	x11, x14, x11, ne
	and	x14, x13, #0xffff
	orr	x9, x15, x9
	lsr	x8, x8, x13
	tst	x14, #0x40
	ldr	x14, [sp, #4864]
	lsl	x15, x12, #1
	bfxil	x10, x11, #0, #1
	csel	x8, x8, x9, ne
	lsr	x12, x12, x13
	lsr	x9, x14, x13
	lsl	x11, x15, x16
	ubfiz	x8, x8, #1, #1
	orr	x9, x11, x9
	orr	x8, x8, x10, lsl #2
	csel	x9, x12, x9, ne
.LBB5_102:
	bfxil	x8, x9, #0, #1
.LBB5_103:
	adrp	x19, .Lstatic.2
	add	x19, x19, :lo12:.Lstatic.2
	ldrb	w9, [sp, #2480]
	ldrb	w8, [x19, x8]
	add	x0, sp, #512
	mov	w1, w21
	mov	w2, w27
	orr	w8, w9, w8
	strb	w8, [sp, #2480]
	bl	"dm_layout::symbols::slots::order"
	ldr	x8, [sp, #520]
	cbz	x8, .LBB5_106
	ldr	x9, [sp, #512]
	mov	x10, x25
	mov	x11, x8
.LBB5_105:
	ldrh	w12, [x9], #2
	add	x13, sp, #560
	subs	x11, x11, #1
	ldrb	w12, [x13, x12]
	ldrb	w12, [x19, x12]
	strb	w12, [x10], #1
	b.ne	.LBB5_105
.LBB5_106:
	ldr	x9, [sp, #536]
	cbz	x9, .LBB5_143
	ldr	x10, [sp, #528]
	ldr	x11, [sp, #544]
	add	x8, x25, x8
.LBB5_108:
	ldrh	w12, [x10], #2
	add	x13, sp, #560
	sub	x13, x13, x11
	subs	x9, x9, #1
	ldrb	w12, [x13, x12]
	ldrb	w12, [x19, x12]
	strb	w12, [x8], #1
	b.ne	.LBB5_108
	b	.LBB5_143
.LBB5_109:
	add	x12, sp, #1, lsl #12
	sub	w13, w27, #128
	add	x12, x12, #720
	add	x14, x12, #64
.LBB5_110:
	add	w15, w8, w11
	and	w16, w9, #0xffff
	mvn	w18, w13
	cmp	w16, w15, uxth
	add	x11, x11, #1
	csel	w16, wzr, w28, hi
	sub	w15, w15, w16
	and	x15, x15, #0xffff
	add	x15, x12, x15, lsl #5
	ldp	x15, x16, [x15, #16]
	lsl	x17, x16, #1
	lsr	x15, x15, x13
	lsr	x16, x16, x13
	lsl	x17, x17, x18
	and	x18, x13, #0xffff
	tst	x18, #0x40
	ldp	x0, x18, [x14]
	orr	x15, x17, x15
	csel	x17, xzr, x16, ne
	csel	x15, x16, x15, ne
	cmp	x10, x11
	orr	x16, x18, x17
	orr	x15, x0, x15
	stp	x15, x16, [x14], #32
	b.ne	.LBB5_110
.LBB5_111:
	and	x20, x28, #0xffff
	and	w19, w28, #0x7
	mov	w9, #59
	add	x10, x21, x20, lsl #5
	eor	w8, w19, #0x4
	eor	w9, w19, w9
	mov	w2, #4256
	and	w22, w28, #0xffff
	add	x21, sp, #560
	ldp	x12, x11, [x10]
	ldp	x14, x13, [x10, #16]
	ldp	x16, x15, [x10, #32]
	lsr	x17, x12, #1
	lsl	x0, x11, x8
	lsr	x11, x11, #1
	lsr	x18, x14, #1
	lsl	x14, x14, x8
	lsl	x12, x12, x8
	lsr	x17, x17, x9
	lsr	x11, x11, x9
	lsl	x13, x13, x8
	lsr	x18, x18, x9
	lsr	x1, x16, #1
	orr	x17, x0, x17
	orr	x11, x14, x11
	ldp	x10, x14, [x10, #48]
	extr	x12, x17, x12, #4
	orr	x13, x13, x18
	lsl	x18, x15, x8
	lsr	x0, x1, x9
	str	x12, [sp, #4816]
	lsr	x12, x15, #1
	lsl	x15, x16, x8
	lsr	x16, x10, #1
	lsl	x10, x10, x8
	lsl	x8, x14, x8
	lsr	x12, x12, x9
	orr	x18, x18, x0
	extr	x17, x11, x17, #4
	lsr	x9, x16, x9
	extr	x11, x13, x11, #4
	lsr	x13, x13, #4
	orr	x10, x10, x12
	extr	x12, x18, x15, #4
	add	x0, sp, #560
	orr	x8, x8, x9
	extr	x9, x10, x18, #4
	mov	w1, wzr
	extr	x10, x8, x10, #4
	lsr	x8, x8, #4
	str	x17, [sp, #4824]
	str	x11, [sp, #4832]
	str	x13, [sp, #4840]
	str	x12, [sp, #4848]
	str	x9, [sp, #4856]
	str	x10, [sp, #4864]
	str	x8, [sp, #4872]
	bl	memset
	cbz	w22, .LBB5_117
	add	x8, sp, #1, lsl #12
	mov	x26, x25
	mov	x9, xzr
	add	x8, x8, #720
	add	x10, x21, #16
	add	x3, x8, #48
	add	x8, sp, #2, lsl #12
	add	x8, x8, #1040
	mov	x11, x3
.LBB5_113:
	add	w15, w9, w9, lsl #1
	ldp	x2, x16, [x3, #-16]
	ldp	x1, x13, [x3, #-48]
	add	x9, x9, #1
	and	w15, w15, #0x7
	ldp	x0, x12, [x3, #-32]
	eor	w18, w15, #0x4
	lsl	x6, x16, #1
	cmp	x20, x9
	add	w15, w18, #2
	ldp	x17, x14, [x3]
	lsl	x4, x13, #1
	mvn	w21, w15
	lsl	x5, x12, #1
	lsr	x7, x1, x15
	lsr	x22, x0, x15
	lsr	x23, x2, x15
	lsl	x6, x6, x21
	lsl	x2, x0, #1
	ldr	x0, [x3, #40]
	ldp	x3, x1, [x3, #16]
	lsl	x4, x4, x21
	lsl	x5, x5, x21
	orr	x6, x6, x23
	lsl	x23, x14, #1
	orr	x7, x4, x7
	ldr	x4, [x11, #32]!
	lsl	x24, x1, #1
	lsl	x25, x0, #1
	orr	x5, x5, x22
	lsr	x22, x17, x15
	lsl	x23, x23, x21
	lsr	x3, x3, x15
	lsl	x24, x24, x21
	lsl	x21, x25, x21
	lsr	x25, x4, x15
	orr	x22, x23, x22
	lsl	x6, x6, #2
	and	x7, x7, #0x303030303030303
	orr	x3, x24, x3
	orr	x21, x21, x25
	lsl	x22, x22, #2
	lsl	x3, x3, #5
	lsl	x21, x21, #5
	and	x5, x5, #0x303030303030303
	and	x6, x6, #0x1c1c1c1c1c1c1c1c
	and	x22, x22, #0x1c1c1c1c1c1c1c1c
	mov	w23, #125
	orr	x7, x6, x7
	and	x3, x3, #0xe0e0e0e0e0e0e0e0
	orr	x6, x22, x5
	and	x21, x21, #0xe0e0e0e0e0e0e0e0
	orr	x3, x7, x3
	sub	w18, w23, w18
	orr	x6, x6, x21
	fmov	s0, w3
	lsr	x7, x3, #8
	fmov	s1, w6
	lsr	x22, x6, #8
	lsr	x21, x3, #16
	lsr	x23, x6, #16
	lsr	x13, x13, x15
	lsl	x2, x2, x18
	mov	v0.b[1], w7
	lsl	x17, x17, #1
	lsr	x5, x3, #24
	mov	v1.b[1], w22
	orr	x13, x13, x2
	lsl	x2, x4, #1
	lsr	x22, x6, #24
	lsr	x16, x16, x15
	lsl	x17, x17, x18
	lsr	x1, x1, x15
	lsl	x18, x2, x18
	lsr	x14, x14, x15
	mov	v0.b[2], w21
	lsr	x12, x12, x15
	orr	x16, x16, x17
	mov	v1.b[2], w23
	lsr	x15, x0, x15
	orr	x17, x1, x18
	lsl	x16, x16, #2
	lsl	x14, x14, #2
	lsr	x7, x3, #32
	lsr	x24, x6, #32
	lsl	x17, x17, #5
	lsl	x15, x15, #5
	mov	v0.b[3], w5
	and	x13, x13, #0x303030303030303
	and	x12, x12, #0x303030303030303
	mov	v1.b[3], w22
	and	x16, x16, #0x1c1c1c1c1c1c1c1c
	and	x14, x14, #0x1c1c1c1c1c1c1c1c
	orr	x13, x16, x13
	orr	x14, x14, x12
	and	x12, x17, #0xe0e0e0e0e0e0e0e0
	and	x15, x15, #0xe0e0e0e0e0e0e0e0
	orr	x12, x13, x12
	mov	v0.b[4], w7
	orr	x14, x14, x15
	extr	x13, x12, x3, #40
	mov	v1.b[4], w24
	extr	x15, x14, x6, #40
	mov	v0.b[5], w13
	extr	x13, x12, x3, #48
	mov	v1.b[5], w15
	extr	x15, x14, x6, #48
	mov	v0.b[6], w13
	extr	x13, x12, x3, #56
	mov	x3, x11
	mov	v1.b[6], w15
	extr	x15, x14, x6, #56
	mov	v0.b[7], w13
	lsr	x13, x12, #8
	mov	v1.b[7], w15
	lsr	x15, x14, #8
	mov	v0.b[8], w12
	mov	v1.b[8], w14
	mov	v0.b[9], w13
	lsr	x13, x12, #16
	mov	v1.b[9], w15
	lsr	x15, x14, #16
	mov	v0.b[10], w13
	lsr	x13, x12, #24
	mov	v1.b[10], w15
	lsr	x15, x14, #24
	mov	v0.b[11], w13
	lsr	x13, x12, #32
	mov	v1.b[11], w15
	lsr	x15, x14, #32
	mov	v0.b[12], w13
	lsr	x13, x12, #40
	mov	v1.b[12], w15
	lsr	x15, x14, #40
	mov	v0.b[13], w13
	lsr	x13, x12, #48
	lsr	x12, x12, #56
	mov	v1.b[13], w15
	lsr	x15, x14, #48
	mov	v0.b[14], w13
	lsr	x13, x14, #56
	mov	v1.b[14], w15
	mov	v0.b[15], w12
	mov	v1.b[15], w13
	stp	q0, q1, [x10, #-16]
	add	x10, x10, #32
	b.ne	.LBB5_113
	ldr	w9, [sp, #80]
	cmp	w9, #4
	b.ne	.LBB5_118
	cmp	w19, #4
	b.ne	.LBB5_118
	sub	w9, w28, #1
	sub	w11, w27, #2
	add	x0, sp, #1, lsl #12
	strh	w9, [x8, #96]
	add	x1, sp, #2, lsl #12
	mov	w10, #1
	strh	w9, [x8, #100]
	add	x0, x0, #720
	add	x1, x1, #1136
	strh	w9, [x8, #104]
	mov	w9, #2
	stur	w9, [x8, #106]
	strh	w11, [x8, #110]
	sub	w11, w27, #1
	strh	w9, [x8, #120]
	mov	w9, #3
	strh	wzr, [x8, #98]
	strh	w10, [x8, #102]
	strh	wzr, [x8, #112]
	strh	w11, [x8, #114]
	strh	w10, [x8, #116]
	strh	w11, [x8, #118]
	strh	w11, [x8, #122]
	strh	w9, [x8, #124]
	strh	w11, [x8, #126]
	bl	"dm_layout::symbols::slots::word_of_cells::<#3c42656d14ec8a1f>"
	mov	x25, x26
	b	.LBB5_137
.LBB5_117:
	mov	w0, wzr
	b	.LBB5_137
.LBB5_118:
	cmp	w9, #6
	mov	x25, x26
	b.ne	.LBB5_127
	cmp	w19, #6
	b.ne	.LBB5_127
	movi	v0.2d, #0000000000000000
	sub	w11, w28, #1
	sub	w9, w28, #3
	sub	w10, w28, #2
	strh	w9, [x8, #64]
	sub	w9, w27, #4
	strh	w10, [x8, #68]
	sub	w10, w27, #3
	add	x0, sp, #1, lsl #12
	strh	w9, [x8, #78]
	sub	w9, w27, #2
	add	x1, sp, #2, lsl #12
	mov	v0.h[1], w11
	strh	w10, [x8, #82]
	mov	w10, #1
	strh	w9, [x8, #86]
	sub	w9, w27, #1
	add	x0, x0, #720
	strh	wzr, [x8, #66]
	add	x1, x1, #1104
	strh	wzr, [x8, #80]
	strh	wzr, [x8, #84]
	stur	d0, [x8, #70]
	strh	wzr, [x8, #88]
	strh	w9, [x8, #90]
	strh	w10, [x8, #92]
	strh	w9, [x8, #94]
	b	.LBB5_136
.LBB5_121:
	mov	x9, xzr
	cbnz	w17, .LBB5_75
	cmp	w8, #6
	b.ne	.LBB5_75
	add	x9, sp, #1, lsl #12
	sub	w8, w1, #1
	orr	w10, w27, #0x3
	add	x9, x9, #720
	orr	w12, w27, #0x1
	ldr	x13, [sp, #4840]
	add	x8, x9, w8, uxth #3
	ldr	x9, [sp, #4832]
	ldr	x8, [x8, #16]
	lsr	x14, x9, x12
	lsr	x11, x8, x10
	ubfx	x8, x8, #4, #1
	and	x11, x11, #0x1
	orr	x8, x11, x8, lsl #1
	ubfiz	x11, x14, #1, #1
	orr	w14, w27, #0x2
	orr	x8, x11, x8, lsl #2
	lsr	x11, x9, x14
	lsr	x9, x9, x10
	bfxil	x8, x11, #0, #1
	ubfiz	x9, x9, #1, #1
	lsr	x11, x13, x14
	orr	x8, x9, x8, lsl #2
	lsr	x9, x13, x12
	bfxil	x8, x9, #0, #1
	ubfiz	x9, x11, #1, #1
	orr	x9, x9, x8, lsl #2
	lsr	x8, x13, x10
	b	.LBB5_74
.LBB5_124:
	cmp	w9, #4
	b.ne	.LBB5_130
	cmp	w19, #6
	b.ne	.LBB5_130
	add	x9, sp, #1, lsl #12
	sub	w8, w21, #3
	sub	w10, w21, #2
	add	x9, x9, #720
	sub	w11, w21, #1
	orr	w12, w27, #0x2
	add	x8, x9, w8, uxth #4
	add	x10, x9, w10, uxth #4
	add	x9, x9, w11, uxth #4
	ldr	x14, [sp, #4856]
	and	x16, x12, #0xffff
	ldr	x15, [sp, #4848]
	ldr	x13, [x8, #32]
	ldr	x9, [x9, #32]
	ldr	x10, [x10, #32]
	mvn	x17, x16
	tst	x16, #0x40
	lsl	x16, x14, #1
	lsr	x11, x13, #3
	and	x17, x17, #0x3f
	lsr	x9, x9, #3
	mvn	w13, w27
	lsl	x17, x16, x17
	orr	w8, w27, #0x3
	and	x11, x11, #0x2
	and	x13, x13, #0x3c
	and	x9, x9, #0x2
	bfxil	x11, x10, #4, #1
	lsr	x10, x15, x12
	lsr	x12, x14, x12
	lsr	x15, x15, x8
	lsl	x16, x16, x13
	orr	x10, x17, x10
	orr	x9, x9, x11, lsl #2
	ldr	x11, [sp, #4872]
	csel	x10, x12, x10, ne
	ldr	x17, [sp, #4864]
	orr	x15, x16, x15
	lsl	x12, x11, #1
	bfxil	x9, x10, #0, #1
	lsr	x10, x14, x8
	and	x14, x8, #0xffff
	ldr	x16, [sp, #4888]
	lsr	x11, x11, x8
	tst	x14, #0x40
	lsr	x14, x17, x8
	lsl	x12, x12, x13
	csel	x10, x10, x15, ne
	ldr	x15, [sp, #4880]
	lsl	x17, x16, #1
	ubfiz	x10, x10, #1, #1
	orr	x12, x12, x14
	lsr	x14, x15, x8
	lsl	x15, x17, x13
	ldr	x17, [sp, #4904]
	orr	x9, x10, x9, lsl #2
	csel	x10, x11, x12, ne
	lsr	x11, x16, x8
	orr	x12, x15, x14
	ldr	x14, [sp, #4896]
	lsl	x15, x17, #1
	bfxil	x9, x10, #0, #1
	csel	x10, x11, x12, ne
	ubfiz	x10, x10, #1, #1
	lsr	x11, x14, x8
	lsl	x12, x15, x13
	lsr	x13, x17, x8
	orr	x8, x10, x9, lsl #2
	orr	x9, x12, x11
	b	.LBB5_91
.LBB5_127:
	cmp	w9, #4
	b.ne	.LBB5_133
	cmp	w19, #6
	b.ne	.LBB5_133
	movi	v0.2d, #0000000000000000
	sub	w9, w28, #3
	sub	w11, w28, #1
	strh	w9, [x8, #32]
	sub	w9, w27, #2
	sub	w10, w28, #2
	strh	w9, [x8, #46]
	mov	w9, #1
	add	x0, sp, #1, lsl #12
	strh	w9, [x8, #52]
	mov	w9, #2
	add	x1, sp, #2, lsl #12
	mov	v0.h[1], w11
	strh	w10, [x8, #36]
	sub	w10, w27, #1
	strh	w9, [x8, #56]
	mov	w9, #3
	add	x0, x0, #720
	strh	wzr, [x8, #34]
	add	x1, x1, #1072
	strh	wzr, [x8, #48]
	strh	w10, [x8, #50]
	strh	w10, [x8, #54]
	stur	d0, [x8, #38]
	strh	w10, [x8, #58]
	strh	w9, [x8, #60]
	strh	w10, [x8, #62]
	b	.LBB5_136
.LBB5_130:
	mov	x8, xzr
	cbnz	w9, .LBB5_103
	cmp	w19, #6
	b.ne	.LBB5_103
	add	x11, sp, #1, lsl #12
	sub	w9, w21, #1
	ldr	x10, [sp, #4856]
	add	x11, x11, #720
	mvn	w14, w27
	orr	w8, w27, #0x3
	add	x13, x11, w9, uxth #4
	orr	w15, w27, #0x1
	ldr	x11, [sp, #4848]
	and	x9, x14, #0x3c
	lsl	x12, x10, #1
	orr	w1, w27, #0x2
	ldp	x13, x16, [x13, #32]
	and	x14, x14, #0x3e
	and	x3, x15, #0xffff
	and	x4, x1, #0xffff
	ldr	x6, [sp, #4872]
	lsr	x17, x11, x15
	lsl	x18, x12, x14
	tst	x3, #0x40
	lsl	x2, x16, #1
	lsr	x5, x13, x8
	mvn	x3, x4
	lsr	x0, x10, x15
	and	x3, x3, #0x3f
	lsl	x19, x6, #1
	lsl	x2, x2, x9
	orr	x17, x18, x17
	lsr	x18, x11, x1
	lsl	x7, x12, x3
	csel	x17, x0, x17, ne
	lsl	x14, x19, x14
	orr	x2, x2, x5
	ldr	x5, [sp, #4864]
	lsl	x3, x19, x3
	orr	x18, x7, x18
	lsr	x16, x16, x8
	and	x20, x8, #0xffff
	lsr	x0, x5, x15
	lsr	x15, x6, x15
	lsr	x7, x5, x1
	ubfx	x13, x13, #4, #1
	lsr	x11, x11, x8
	lsl	x12, x12, x9
	orr	x14, x14, x0
	lsr	x0, x10, x1
	lsr	x1, x6, x1
	csel	x14, x15, x14, ne
	tst	x4, #0x40
	orr	x15, x3, x7
	csel	x18, x0, x18, ne
	csel	x15, x1, x15, ne
	tst	x20, #0x40
	csel	x16, x16, x2, ne
	lsr	x10, x10, x8
	orr	x11, x12, x11
	and	x16, x16, #0x1
	lsr	x12, x5, x8
	lsl	x9, x19, x9
	orr	x13, x16, x13, lsl #1
	ubfiz	x16, x17, #1, #1
	csel	x10, x10, x11, ne
	ubfiz	x10, x10, #1, #1
	ubfiz	x11, x15, #1, #1
	orr	x13, x16, x13, lsl #2
	bfxil	x13, x18, #0, #1
	orr	x10, x10, x13, lsl #2
	lsr	x13, x6, x8
	bfxil	x10, x14, #0, #1
	b	.LBB5_90
.LBB5_133:
	mov	w0, wzr
	cbnz	w9, .LBB5_137
	cmp	w19, #6
	b.ne	.LBB5_137
	sub	w9, w28, #1
	add	x0, sp, #1, lsl #12
	add	x1, sp, #2, lsl #12
	strh	w9, [x8]
	sub	w10, w27, #1
	sub	w11, w27, #2
	strh	w9, [x8, #4]
	sub	w9, w27, #3
	mov	w12, #1
	add	x0, x0, #720
	add	x1, x1, #1040
	strh	wzr, [x8, #2]
	strh	w10, [x8, #6]
	strh	wzr, [x8, #8]
	strh	w9, [x8, #10]
	strh	wzr, [x8, #12]
	strh	w11, [x8, #14]
	strh	wzr, [x8, #16]
	strh	w10, [x8, #18]
	strh	w12, [x8, #20]
	strh	w9, [x8, #22]
	strh	w12, [x8, #24]
	strh	w11, [x8, #26]
	strh	w12, [x8, #28]
	strh	w10, [x8, #30]
.LBB5_136:
	bl	"dm_layout::symbols::slots::word_of_cells::<#3c42656d14ec8a1f>"
.LBB5_137:
	adrp	x19, .Lstatic.2
	add	x19, x19, :lo12:.Lstatic.2
	and	x8, x0, #0xff
	mov	w9, #4224
	add	x10, sp, #560
	ldrb	w8, [x19, x8]
	ldrb	w11, [x10, x9]
	add	x0, sp, #512
	mov	w1, w28
	mov	w2, w27
	orr	w8, w11, w8
	strb	w8, [x10, x9]
	bl	"dm_layout::symbols::slots::order"
	ldr	x8, [sp, #520]
	cbz	x8, .LBB5_140
	ldr	x9, [sp, #512]
	mov	x10, x25
	mov	x11, x8
.LBB5_139:
	ldrh	w12, [x9], #2
	add	x13, sp, #560
	subs	x11, x11, #1
	ldrb	w12, [x13, x12]
	ldrb	w12, [x19, x12]
	strb	w12, [x10], #1
	b.ne	.LBB5_139
.LBB5_140:
	ldr	x9, [sp, #536]
	cbz	x9, .LBB5_143
	ldr	x10, [sp, #528]
	ldr	x11, [sp, #544]
	add	x8, x25, x8
.LBB5_142:
	ldrh	w12, [x10], #2
	add	x13, sp, #560
	sub	x13, x13, x11
	subs	x9, x9, #1
	ldrb	w12, [x13, x12]
	ldrb	w12, [x19, x12]
	strb	w12, [x8], #1
	b.ne	.LBB5_142
.LBB5_143:
	add	sp, sp, #2, lsl #12
	.cfi_def_cfa_offset 1264
	add	sp, sp, #1168
	.cfi_def_cfa_offset 96
	ldp	x20, x19, [sp, #80]
	ldp	x22, x21, [sp, #64]
	ldp	x24, x23, [sp, #48]
	ldp	x26, x25, [sp, #32]
	ldp	x28, x27, [sp, #16]
	ldp	x29, x30, [sp], #96
	.cfi_def_cfa_offset 0
	.cfi_restore w19
	.cfi_restore w20
	.cfi_restore w21
	.cfi_restore w22
	.cfi_restore w23
	.cfi_restore w24
	.cfi_restore w25
	.cfi_restore w26
	.cfi_restore w27
	.cfi_restore w28
	.cfi_restore w30
	.cfi_restore w29
	ret
.Lfunc_end5:
	.size	"dm_layout::symbols::placing::lift_to", .Lfunc_end5-"dm_layout::symbols::placing::lift_to"
	.cfi_endproc

	.p2align	2
	.type	"dm_layout::symbols::slots::order",@function
"dm_layout::symbols::slots::order":
	.cfi_startproc
	and	w8, w1, #0xffff
	cmp	w8, w2, uxth
	b.ne	.LBB6_5
	sub	w9, w1, #25
	and	w9, w9, #0xffff
	cmp	w9, #95
	b.hi	.LBB6_5
	and	w9, w1, #0x7
	cbnz	w9, .LBB6_5
	mov	w8, w1
	and	w11, w1, #0xffff
	and	x8, x8, #0xffff
	cmp	w11, #56
	umull	x10, w8, w8
	lsr	x9, x10, #4
	lsr	x10, x10, #3
	b.hi	.LBB6_9
	mov	w11, #56
	sub	x8, x11, x8
	adrp	x11, .Lstatic.3
	add	x11, x11, :lo12:.Lstatic.3
	lsr	x12, x8, #3
	sub	x10, x11, x10
	orr	x8, x12, x8, lsl #3
	add	x12, x10, #784
	mov	x10, x9
	b	.LBB6_71
.LBB6_5:
	cmp	w8, w2, uxth
	b.ne	.LBB6_10
	and	w8, w1, #0xffff
	sub	w12, w8, #8
	cmp	w12, #100
	b.hi	.LBB6_43
	adrp	x13, .LJTI6_0
	add	x13, x13, :lo12:.LJTI6_0
	mov	x8, xzr
	adr	x14, .LBB6_8
	ldrh	w15, [x13, x12, lsl #1]
	add	x14, x14, x15, lsl #2
	mov	x9, xzr
	and	x10, x1, #0xffff
	adrp	x11, .Lstatic.6
	add	x11, x11, :lo12:.Lstatic.6
	adrp	x12, .Lstatic.5
	add	x12, x12, :lo12:.Lstatic.5
	br	x14
.LBB6_8:
	mov	x8, xzr
	mov	x9, xzr
	mov	w10, #12
	adrp	x11, .Lstatic.7
	add	x11, x11, :lo12:.Lstatic.7
	b	.LBB6_71
.LBB6_9:
	mov	w11, #120
	sub	x8, x11, x8
	adrp	x11, .Lstatic.4
	add	x11, x11, :lo12:.Lstatic.4
	lsr	x12, x8, #3
	sub	x10, x11, x10
	orr	x8, x12, x8, lsl #4
	add	x12, x10, #3600
	mov	x10, x9
	b	.LBB6_71
.LBB6_10:
	sub	w8, w1, #6
	ubfx	w9, w8, #1, #15
	orr	w8, w9, w8, lsl #15
	and	w8, w8, #0xffff
	cmp	w8, #5
	b.gt	.LBB6_17
	cbz	w8, .LBB6_21
	cmp	w8, #2
	b.eq	.LBB6_32
	cmp	w8, #4
	b.ne	.LBB6_29
	and	w8, w2, #0xffff
	cmp	w8, #32
	b.eq	.LBB6_55
	cmp	w8, #44
	b.ne	.LBB6_58
	mov	x8, xzr
	mov	x9, xzr
	mov	w10, #77
	adrp	x11, .Lstatic.33
	add	x11, x11, :lo12:.Lstatic.33
	b	.LBB6_70
.LBB6_17:
	cmp	w8, #6
	b.eq	.LBB6_26
	cmp	w8, #7
	b.eq	.LBB6_36
	cmp	w8, #8
	b.ne	.LBB6_29
	and	w10, w2, #0xffff
	mov	w11, #154
	mov	w12, #121
	cmp	w10, #44
	adrp	x13, .Lstatic.40
	add	x13, x13, :lo12:.Lstatic.40
	csel	x10, x12, x11, eq
	adrp	x11, .Lstatic.39
	add	x11, x11, :lo12:.Lstatic.39
	mov	x8, xzr
	mov	x9, xzr
	csel	x11, x11, x13, eq
	b	.LBB6_70
.LBB6_21:
	and	w8, w2, #0xffff
	cmp	w8, #55
	b.le	.LBB6_49
	cmp	w8, #87
	b.gt	.LBB6_59
	cmp	w8, #56
	b.eq	.LBB6_67
	cmp	w8, #72
	b.ne	.LBB6_66
	mov	x8, xzr
	mov	x9, xzr
	mov	w10, #54
	adrp	x11, .Lstatic.24
	add	x11, x11, :lo12:.Lstatic.24
	b	.LBB6_70
.LBB6_26:
	and	w8, w2, #0xffff
	cmp	w8, #32
	b.eq	.LBB6_53
	cmp	w8, #40
	b.ne	.LBB6_56
	mov	x8, xzr
	mov	x9, xzr
	mov	w10, #90
	adrp	x11, .Lstatic.36
	add	x11, x11, :lo12:.Lstatic.36
	b	.LBB6_70
.LBB6_29:
	and	w8, w2, #0xffff
	cmp	w8, #36
	b.eq	.LBB6_54
	cmp	w8, #44
	b.ne	.LBB6_57
	mov	x8, xzr
	mov	x9, xzr
	mov	w10, #132
	adrp	x11, .Lstatic.42
	add	x11, x11, :lo12:.Lstatic.42
	b	.LBB6_70
.LBB6_32:
	and	w8, w2, #0xffff
	cmp	w8, #24
	b.eq	.LBB6_63
	cmp	w8, #56
	b.eq	.LBB6_62
	cmp	w8, #32
	b.ne	.LBB6_64
	mov	x8, xzr
	mov	x9, xzr
	mov	w10, #40
	adrp	x11, .Lstatic.29
	add	x11, x11, :lo12:.Lstatic.29
	b	.LBB6_70
.LBB6_36:
	mov	x8, xzr
	mov	x9, xzr
	mov	w10, #110
	adrp	x11, .Lstatic.38
	add	x11, x11, :lo12:.Lstatic.38
	b	.LBB6_70
.LBB6_37:
	mov	x8, xzr
	mov	x9, xzr
	mov	w10, #162
	adrp	x11, .Lstatic.16
	add	x11, x11, :lo12:.Lstatic.16
	b	.LBB6_71
.LBB6_38:
	mov	x8, xzr
	mov	x9, xzr
	mov	w10, #32
	adrp	x11, .Lstatic.10
	add	x11, x11, :lo12:.Lstatic.10
	b	.LBB6_71
.LBB6_39:
	mov	x8, xzr
	mov	x9, xzr
	mov	w10, #1458
	adrp	x11, .Lstatic.18
	add	x11, x11, :lo12:.Lstatic.18
	b	.LBB6_71
.LBB6_40:
	mov	x8, xzr
	mov	x9, xzr
	mov	w10, #40
	adrp	x11, .Lstatic.11
	add	x11, x11, :lo12:.Lstatic.11
	b	.LBB6_71
.LBB6_41:
	mov	x8, xzr
	mov	x9, xzr
	mov	w10, #242
	adrp	x11, .Lstatic.17
	add	x11, x11, :lo12:.Lstatic.17
	b	.LBB6_71
.LBB6_42:
	mov	x8, xzr
	mov	x9, xzr
	mov	w10, #24
	adrp	x11, .Lstatic.9
	add	x11, x11, :lo12:.Lstatic.9
	b	.LBB6_71
.LBB6_43:
	mov	x8, xzr
	mov	x9, xzr
	mov	w10, #2178
	adrp	x11, .Lstatic.19
	add	x11, x11, :lo12:.Lstatic.19
	b	.LBB6_70
.LBB6_44:
	mov	x8, xzr
	mov	x9, xzr
	mov	w10, #18
	adrp	x11, .Lstatic.8
	add	x11, x11, :lo12:.Lstatic.8
	b	.LBB6_71
.LBB6_45:
	mov	x8, xzr
	mov	x9, xzr
	mov	w10, #50
	adrp	x11, .Lstatic.12
	add	x11, x11, :lo12:.Lstatic.12
	b	.LBB6_71
.LBB6_46:
	mov	x8, xzr
	mov	x9, xzr
	mov	w10, #60
	adrp	x11, .Lstatic.13
	add	x11, x11, :lo12:.Lstatic.13
	b	.LBB6_71
.LBB6_47:
	mov	x8, xzr
	mov	x9, xzr
	mov	w10, #98
	adrp	x11, .Lstatic.15
	add	x11, x11, :lo12:.Lstatic.15
	b	.LBB6_71
.LBB6_48:
	mov	x8, xzr
	mov	x9, xzr
	mov	w10, #72
	adrp	x11, .Lstatic.14
	add	x11, x11, :lo12:.Lstatic.14
	b	.LBB6_71
.LBB6_49:
	cmp	w8, #16
	b.eq	.LBB6_65
	cmp	w8, #28
	b.eq	.LBB6_69
	cmp	w8, #44
	b.ne	.LBB6_66
	mov	x8, xzr
	mov	x9, xzr
	mov	w10, #33
	adrp	x11, .Lstatic.22
	add	x11, x11, :lo12:.Lstatic.22
	b	.LBB6_70
.LBB6_53:
	mov	x8, xzr
	mov	x9, xzr
	mov	w10, #72
	adrp	x11, .Lstatic.35
	add	x11, x11, :lo12:.Lstatic.35
	b	.LBB6_70
.LBB6_54:
	mov	x8, xzr
	mov	x9, xzr
	mov	w10, #108
	adrp	x11, .Lstatic.41
	add	x11, x11, :lo12:.Lstatic.41
	b	.LBB6_70
.LBB6_55:
	mov	x8, xzr
	mov	x9, xzr
	mov	w10, #56
	adrp	x11, .Lstatic.32
	add	x11, x11, :lo12:.Lstatic.32
	b	.LBB6_70
.LBB6_56:
	mov	x8, xzr
	mov	x9, xzr
	mov	w10, #126
	adrp	x11, .Lstatic.37
	add	x11, x11, :lo12:.Lstatic.37
	b	.LBB6_70
.LBB6_57:
	mov	x8, xzr
	mov	x9, xzr
	mov	w10, #168
	adrp	x11, .Lstatic.43
	add	x11, x11, :lo12:.Lstatic.43
	b	.LBB6_70
.LBB6_58:
	mov	x8, xzr
	mov	x9, xzr
	mov	w10, #98
	adrp	x11, .Lstatic.34
	add	x11, x11, :lo12:.Lstatic.34
	b	.LBB6_70
.LBB6_59:
	cmp	w8, #88
	b.eq	.LBB6_68
	cmp	w8, #108
	b.ne	.LBB6_66
	mov	x8, xzr
	mov	x9, xzr
	mov	w10, #81
	adrp	x11, .Lstatic.26
	add	x11, x11, :lo12:.Lstatic.26
	b	.LBB6_70
.LBB6_62:
	mov	x8, xzr
	mov	x9, xzr
	mov	w10, #70
	adrp	x11, .Lstatic.30
	add	x11, x11, :lo12:.Lstatic.30
	b	.LBB6_70
.LBB6_63:
	mov	x8, xzr
	mov	x9, xzr
	mov	w10, #30
	adrp	x11, .Lstatic.28
	add	x11, x11, :lo12:.Lstatic.28
	b	.LBB6_70
.LBB6_64:
	mov	x8, xzr
	mov	x9, xzr
	mov	w10, #100
	adrp	x11, .Lstatic.31
	add	x11, x11, :lo12:.Lstatic.31
	b	.LBB6_70
.LBB6_65:
	mov	x8, xzr
	mov	x9, xzr
	mov	w10, #12
	adrp	x11, .Lstatic.20
	add	x11, x11, :lo12:.Lstatic.20
	b	.LBB6_70
.LBB6_66:
	mov	x8, xzr
	mov	x9, xzr
	mov	w10, #99
	adrp	x11, .Lstatic.27
	add	x11, x11, :lo12:.Lstatic.27
	b	.LBB6_70
.LBB6_67:
	mov	x8, xzr
	mov	x9, xzr
	mov	w10, #42
	adrp	x11, .Lstatic.23
	add	x11, x11, :lo12:.Lstatic.23
	b	.LBB6_70
.LBB6_68:
	mov	x8, xzr
	mov	x9, xzr
	mov	w10, #66
	adrp	x11, .Lstatic.25
	add	x11, x11, :lo12:.Lstatic.25
	b	.LBB6_70
.LBB6_69:
	mov	x8, xzr
	mov	x9, xzr
	mov	w10, #21
	adrp	x11, .Lstatic.21
	add	x11, x11, :lo12:.Lstatic.21
.LBB6_70:
	adrp	x12, .Lstatic.5
	add	x12, x12, :lo12:.Lstatic.5
.LBB6_71:
	stp	x11, x10, [x0]
	stp	x12, x9, [x0, #16]
	str	x8, [x0, #32]
	ret
.Lfunc_end6:
	.size	"dm_layout::symbols::slots::order", .Lfunc_end6-"dm_layout::symbols::slots::order"
	.cfi_endproc
	.section	.rodata,"a",@progbits
	.p2align	1, 0x0
.LJTI6_0:
	.hword	(.LBB6_71-.LBB6_8)>>2
	.hword	(.LBB6_43-.LBB6_8)>>2
	.hword	(.LBB6_8-.LBB6_8)>>2
	.hword	(.LBB6_43-.LBB6_8)>>2
	.hword	(.LBB6_44-.LBB6_8)>>2
	.hword	(.LBB6_43-.LBB6_8)>>2
	.hword	(.LBB6_42-.LBB6_8)>>2
	.hword	(.LBB6_43-.LBB6_8)>>2
	.hword	(.LBB6_38-.LBB6_8)>>2
	.hword	(.LBB6_43-.LBB6_8)>>2
	.hword	(.LBB6_40-.LBB6_8)>>2
	.hword	(.LBB6_43-.LBB6_8)>>2
	.hword	(.LBB6_45-.LBB6_8)>>2
	.hword	(.LBB6_43-.LBB6_8)>>2
	.hword	(.LBB6_46-.LBB6_8)>>2
	.hword	(.LBB6_43-.LBB6_8)>>2
	.hword	(.LBB6_48-.LBB6_8)>>2
	.hword	(.LBB6_43-.LBB6_8)>>2
	.hword	(.LBB6_43-.LBB6_8)>>2
	.hword	(.LBB6_43-.LBB6_8)>>2
	.hword	(.LBB6_47-.LBB6_8)>>2
	.hword	(.LBB6_43-.LBB6_8)>>2
	.hword	(.LBB6_43-.LBB6_8)>>2
	.hword	(.LBB6_43-.LBB6_8)>>2
	.hword	(.LBB6_43-.LBB6_8)>>2
	.hword	(.LBB6_43-.LBB6_8)>>2
	.hword	(.LBB6_43-.LBB6_8)>>2
	.hword	(.LBB6_43-.LBB6_8)>>2
	.hword	(.LBB6_37-.LBB6_8)>>2
	.hword	(.LBB6_43-.LBB6_8)>>2
	.hword	(.LBB6_43-.LBB6_8)>>2
	.hword	(.LBB6_43-.LBB6_8)>>2
	.hword	(.LBB6_43-.LBB6_8)>>2
	.hword	(.LBB6_43-.LBB6_8)>>2
	.hword	(.LBB6_43-.LBB6_8)>>2
	.hword	(.LBB6_43-.LBB6_8)>>2
	.hword	(.LBB6_41-.LBB6_8)>>2
	.hword	(.LBB6_43-.LBB6_8)>>2
	.hword	(.LBB6_43-.LBB6_8)>>2
	.hword	(.LBB6_43-.LBB6_8)>>2
	.hword	(.LBB6_43-.LBB6_8)>>2
	.hword	(.LBB6_43-.LBB6_8)>>2
	.hword	(.LBB6_43-.LBB6_8)>>2
	.hword	(.LBB6_43-.LBB6_8)>>2
	.hword	(.LBB6_43-.LBB6_8)>>2
	.hword	(.LBB6_43-.LBB6_8)>>2
	.hword	(.LBB6_43-.LBB6_8)>>2
	.hword	(.LBB6_43-.LBB6_8)>>2
	.hword	(.LBB6_43-.LBB6_8)>>2
	.hword	(.LBB6_43-.LBB6_8)>>2
	.hword	(.LBB6_43-.LBB6_8)>>2
	.hword	(.LBB6_43-.LBB6_8)>>2
	.hword	(.LBB6_43-.LBB6_8)>>2
	.hword	(.LBB6_43-.LBB6_8)>>2
	.hword	(.LBB6_43-.LBB6_8)>>2
	.hword	(.LBB6_43-.LBB6_8)>>2
	.hword	(.LBB6_43-.LBB6_8)>>2
	.hword	(.LBB6_43-.LBB6_8)>>2
	.hword	(.LBB6_43-.LBB6_8)>>2
	.hword	(.LBB6_43-.LBB6_8)>>2
	.hword	(.LBB6_43-.LBB6_8)>>2
	.hword	(.LBB6_43-.LBB6_8)>>2
	.hword	(.LBB6_43-.LBB6_8)>>2
	.hword	(.LBB6_43-.LBB6_8)>>2
	.hword	(.LBB6_43-.LBB6_8)>>2
	.hword	(.LBB6_43-.LBB6_8)>>2
	.hword	(.LBB6_43-.LBB6_8)>>2
	.hword	(.LBB6_43-.LBB6_8)>>2
	.hword	(.LBB6_43-.LBB6_8)>>2
	.hword	(.LBB6_43-.LBB6_8)>>2
	.hword	(.LBB6_43-.LBB6_8)>>2
	.hword	(.LBB6_43-.LBB6_8)>>2
	.hword	(.LBB6_43-.LBB6_8)>>2
	.hword	(.LBB6_43-.LBB6_8)>>2
	.hword	(.LBB6_43-.LBB6_8)>>2
	.hword	(.LBB6_43-.LBB6_8)>>2
	.hword	(.LBB6_43-.LBB6_8)>>2
	.hword	(.LBB6_43-.LBB6_8)>>2
	.hword	(.LBB6_43-.LBB6_8)>>2
	.hword	(.LBB6_43-.LBB6_8)>>2
	.hword	(.LBB6_43-.LBB6_8)>>2
	.hword	(.LBB6_43-.LBB6_8)>>2
	.hword	(.LBB6_43-.LBB6_8)>>2
	.hword	(.LBB6_43-.LBB6_8)>>2
	.hword	(.LBB6_43-.LBB6_8)>>2
	.hword	(.LBB6_43-.LBB6_8)>>2
	.hword	(.LBB6_43-.LBB6_8)>>2
	.hword	(.LBB6_43-.LBB6_8)>>2
	.hword	(.LBB6_43-.LBB6_8)>>2
	.hword	(.LBB6_43-.LBB6_8)>>2
	.hword	(.LBB6_43-.LBB6_8)>>2
	.hword	(.LBB6_43-.LBB6_8)>>2
	.hword	(.LBB6_43-.LBB6_8)>>2
	.hword	(.LBB6_43-.LBB6_8)>>2
	.hword	(.LBB6_43-.LBB6_8)>>2
	.hword	(.LBB6_43-.LBB6_8)>>2
	.hword	(.LBB6_43-.LBB6_8)>>2
	.hword	(.LBB6_43-.LBB6_8)>>2
	.hword	(.LBB6_43-.LBB6_8)>>2
	.hword	(.LBB6_43-.LBB6_8)>>2
	.hword	(.LBB6_39-.LBB6_8)>>2

	.text
	.p2align	2
	.type	"dm_layout::symbols::slots::word_of_cells::<#3c42656d14ec8a1f>",@function
"dm_layout::symbols::slots::word_of_cells::<#3c42656d14ec8a1f>":
	.cfi_startproc
	ldrh	w9, [x1, #2]
	ldrh	w10, [x1]
	add	w8, w9, #4
	add	x10, x0, x10, lsl #5
	and	w11, w8, #0xffff
	cmp	w11, #127
	b.hi	.LBB7_2
	ldp	x10, x9, [x10, #64]
	mvn	w12, w8
	lsl	x11, x9, #1
	lsr	x10, x10, x8
	lsr	x9, x9, x8
	and	x8, x8, #0xffff
	lsl	x11, x11, x12
	tst	x8, #0x40
	orr	x10, x11, x10
	csel	x8, x9, x10, ne
	b	.LBB7_3
.LBB7_2:
	ldp	x10, x8, [x10, #80]
	sub	w9, w9, #124
	mvn	w12, w9
	lsl	x11, x8, #1
	lsr	x10, x10, x9
	lsr	x8, x8, x9
	and	x9, x9, #0xffff
	lsl	x11, x11, x12
	tst	x9, #0x40
	orr	x10, x11, x10
	csel	x8, x8, x10, ne
.LBB7_3:
	ldrh	w10, [x1, #6]
	ldrh	w11, [x1, #4]
	add	w9, w10, #4
	add	x11, x0, x11, lsl #5
	and	w12, w9, #0xffff
	cmp	w12, #128
	b.hs	.LBB7_5
	ldp	x11, x10, [x11, #64]
	mvn	w13, w9
	lsl	x12, x10, #1
	lsr	x11, x11, x9
	lsr	x10, x10, x9
	and	x9, x9, #0xffff
	lsl	x12, x12, x13
	tst	x9, #0x40
	orr	x11, x12, x11
	csel	x9, x10, x11, ne
	b	.LBB7_6
.LBB7_5:
	ldp	x11, x9, [x11, #80]
	sub	w10, w10, #124
	mvn	w13, w10
	lsl	x12, x9, #1
	lsr	x11, x11, x10
	lsr	x9, x9, x10
	and	x10, x10, #0xffff
	lsl	x12, x12, x13
	tst	x10, #0x40
	orr	x11, x12, x11
	csel	x9, x9, x11, ne
.LBB7_6:
	ldrh	w11, [x1, #10]
	ldrh	w12, [x1, #8]
	add	w10, w11, #4
	add	x12, x0, x12, lsl #5
	and	w13, w10, #0xffff
	cmp	w13, #128
	b.hs	.LBB7_8
	ldp	x12, x11, [x12, #64]
	mvn	w14, w10
	lsl	x13, x11, #1
	lsr	x12, x12, x10
	lsr	x11, x11, x10
	and	x10, x10, #0xffff
	lsl	x13, x13, x14
	tst	x10, #0x40
	orr	x12, x13, x12
	csel	x10, x11, x12, ne
	b	.LBB7_9
.LBB7_8:
	ldp	x12, x10, [x12, #80]
	sub	w11, w11, #124
	mvn	w14, w11
	lsl	x13, x10, #1
	lsr	x12, x12, x11
	lsr	x10, x10, x11
	and	x11, x11, #0xffff
	lsl	x13, x13, x14
	tst	x11, #0x40
	orr	x12, x13, x12
	csel	x10, x10, x12, ne
.LBB7_9:
	ldrh	w12, [x1, #14]
	ldrh	w13, [x1, #12]
	add	w11, w12, #4
	add	x13, x0, x13, lsl #5
	and	w14, w11, #0xffff
	cmp	w14, #128
	b.hs	.LBB7_11
	ldp	x13, x12, [x13, #64]
	mvn	w15, w11
	lsl	x14, x12, #1
	lsr	x13, x13, x11
	lsr	x12, x12, x11
	and	x11, x11, #0xffff
	lsl	x14, x14, x15
	tst	x11, #0x40
	orr	x13, x14, x13
	csel	x11, x12, x13, ne
	b	.LBB7_12
.LBB7_11:
	ldp	x13, x11, [x13, #80]
	sub	w12, w12, #124
	mvn	w15, w12
	lsl	x14, x11, #1
	lsr	x13, x13, x12
	lsr	x11, x11, x12
	and	x12, x12, #0xffff
	lsl	x14, x14, x15
	tst	x12, #0x40
	orr	x13, x14, x13
	csel	x11, x11, x13, ne
.LBB7_12:
	ldrh	w13, [x1, #18]
	ldrh	w14, [x1, #16]
	add	w12, w13, #4
	add	x14, x0, x14, lsl #5
	and	w15, w12, #0xffff
	cmp	w15, #128
	b.hs	.LBB7_14
	ldp	x14, x13, [x14, #64]
	mvn	w16, w12
	lsl	x15, x13, #1
	lsr	x14, x14, x12
	lsr	x13, x13, x12
	and	x12, x12, #0xffff
	lsl	x15, x15, x16
	tst	x12, #0x40
	orr	x14, x15, x14
	csel	x12, x13, x14, ne
	b	.LBB7_15
.LBB7_14:
	ldp	x14, x12, [x14, #80]
	sub	w13, w13, #124
	mvn	w16, w13
	lsl	x15, x12, #1
	lsr	x14, x14, x13
	lsr	x12, x12, x13
	and	x13, x13, #0xffff
	lsl	x15, x15, x16
	tst	x13, #0x40
	orr	x14, x15, x14
	csel	x12, x12, x14, ne
.LBB7_15:
	ldrh	w14, [x1, #22]
	ldrh	w15, [x1, #20]
	add	w13, w14, #4
	add	x15, x0, x15, lsl #5
	and	w16, w13, #0xffff
	cmp	w16, #128
	b.hs	.LBB7_17
	ldp	x15, x14, [x15, #64]
	mvn	w17, w13
	lsl	x16, x14, #1
	lsr	x15, x15, x13
	lsr	x14, x14, x13
	and	x13, x13, #0xffff
	lsl	x16, x16, x17
	tst	x13, #0x40
	orr	x15, x16, x15
	csel	x13, x14, x15, ne
	b	.LBB7_18
.LBB7_17:
	ldp	x15, x13, [x15, #80]
	sub	w14, w14, #124
	mvn	w17, w14
	lsl	x16, x13, #1
	lsr	x15, x15, x14
	lsr	x13, x13, x14
	and	x14, x14, #0xffff
	lsl	x16, x16, x17
	tst	x14, #0x40
	orr	x15, x16, x15
	csel	x13, x13, x15, ne
.LBB7_18:
	ldrh	w15, [x1, #26]
	ldrh	w16, [x1, #24]
	add	w14, w15, #4
	add	x16, x0, x16, lsl #5
	and	w17, w14, #0xffff
	cmp	w17, #128
	b.hs	.LBB7_20
	ldp	x16, x15, [x16, #64]
	mvn	w18, w14
	lsl	x17, x15, #1
	lsr	x16, x16, x14
	lsr	x15, x15, x14
	and	x14, x14, #0xffff
	lsl	x17, x17, x18
	tst	x14, #0x40
	orr	x16, x17, x16
	csel	x14, x15, x16, ne
	b	.LBB7_21
.LBB7_20:
	ldp	x16, x14, [x16, #80]
	sub	w15, w15, #124
	mvn	w18, w15
	lsl	x17, x14, #1
	lsr	x16, x16, x15
	lsr	x14, x14, x15
	and	x15, x15, #0xffff
	lsl	x17, x17, x18
	tst	x15, #0x40
	orr	x16, x17, x16
	csel	x14, x14, x16, ne
.LBB7_21:
	ldrh	w16, [x1, #30]
	ldrh	w17, [x1, #28]
	add	w15, w16, #4
	add	x17, x0, x17, lsl #5
	and	w18, w15, #0xffff
	cmp	w18, #128
	b.hs	.LBB7_23
	ldp	x17, x16, [x17, #64]
	mvn	w0, w15
	lsl	x18, x16, #1
	lsr	x17, x17, x15
	lsr	x16, x16, x15
	and	x15, x15, #0xffff
	lsl	x18, x18, x0
	tst	x15, #0x40
	orr	x17, x18, x17
	csel	x15, x16, x17, ne
	b	.LBB7_24
.LBB7_23:
	ldp	x17, x15, [x17, #80]
	sub	w16, w16, #124
	mvn	w0, w16
	lsl	x18, x15, #1
	lsr	x17, x17, x16
	lsr	x15, x15, x16
	and	x16, x16, #0xffff
	lsl	x18, x18, x0
	tst	x16, #0x40
	orr	x17, x18, x17
	csel	x15, x15, x17, ne
.LBB7_24:
	and	w9, w9, #0x1
	bfi	w9, w8, #1, #1
	ubfiz	w8, w10, #1, #1
	orr	w8, w8, w9, lsl #2
	ubfiz	w9, w12, #1, #1
	bfxil	w8, w11, #0, #1
	orr	w8, w9, w8, lsl #2
	ubfiz	w9, w14, #1, #1
	bfxil	w8, w13, #0, #1
	orr	w0, w9, w8, lsl #2
	bfxil	w0, w15, #0, #1
	ret
.Lfunc_end7:
	.size	"dm_layout::symbols::slots::word_of_cells::<#3c42656d14ec8a1f>", .Lfunc_end7-"dm_layout::symbols::slots::word_of_cells::<#3c42656d14ec8a1f>"
	.cfi_endproc

	.p2align	2
	.type	"dm_symbol::symbol::correction::restore_block",@function
"dm_symbol::symbol::correction::restore_block":
	.cfi_startproc
	stp	x29, x30, [sp, #-96]!
	.cfi_def_cfa_offset 96
	stp	x28, x27, [sp, #16]
	stp	x26, x25, [sp, #32]
	stp	x24, x23, [sp, #48]
	stp	x22, x21, [sp, #64]
	stp	x20, x19, [sp, #80]
	.cfi_offset w19, -8
	.cfi_offset w20, -16
	.cfi_offset w21, -24
	.cfi_offset w22, -32
	.cfi_offset w23, -40
	.cfi_offset w24, -48
	.cfi_offset w25, -56
	.cfi_offset w26, -64
	.cfi_offset w27, -72
	.cfi_offset w28, -80
	.cfi_offset w30, -88
	.cfi_offset w29, -96
	sub	sp, sp, #3072
	.cfi_def_cfa_offset 3168
	str	xzr, [sp]
	sub	sp, sp, #3024
	.cfi_def_cfa_offset 6192
	.cfi_remember_state
	str	xzr, [sp]
	mov	x29, x5
	mov	x23, x3
	ldrb	w9, [x4]
	ldrh	w8, [x1, #14]
	ldrh	w26, [x1, #16]
	mov	x28, x2
	mov	x19, x0
	cbz	w9, .LBB8_34
	movi	v0.2d, #0000000000000000
	add	x9, sp, #592
	strb	wzr, [sp, #588]
	str	wzr, [sp, #584]
	str	xzr, [sp, #576]
	str	xzr, [sp, #304]
	stur	q0, [x9, #255]
	ldp	x9, x10, [x4, #8]
	str	q0, [sp, #1024]
	str	q0, [sp, #1040]
	str	q0, [sp, #1056]
	str	q0, [sp, #1072]
	str	q0, [sp, #1088]
	str	q0, [sp, #1104]
	str	q0, [sp, #1120]
	stp	q0, q0, [sp, #48]
	stp	q0, q0, [sp, #80]
	stp	q0, q0, [sp, #112]
	stp	q0, q0, [sp, #144]
	stp	q0, q0, [sp, #176]
	stp	q0, q0, [sp, #208]
	stp	q0, q0, [sp, #240]
	stp	q0, q0, [sp, #272]
	stp	q0, q0, [sp, #320]
	stp	q0, q0, [sp, #352]
	stp	q0, q0, [sp, #384]
	stp	q0, q0, [sp, #416]
	stp	q0, q0, [sp, #448]
	stp	q0, q0, [sp, #480]
	stp	q0, q0, [sp, #512]
	stp	q0, q0, [sp, #544]
	stp	q0, q0, [sp, #592]
	stp	q0, q0, [sp, #624]
	stp	q0, q0, [sp, #656]
	stp	q0, q0, [sp, #688]
	stp	q0, q0, [sp, #720]
	stp	q0, q0, [sp, #752]
	stp	q0, q0, [sp, #784]
	stp	q0, q0, [sp, #816]
	stp	q0, q0, [sp, #864]
	stp	q0, q0, [sp, #896]
	stp	q0, q0, [sp, #928]
	stp	q0, q0, [sp, #960]
	stp	q0, q0, [sp, #992]
	cbz	w26, .LBB8_121
	mvn	x11, x29
	str	xzr, [sp, #4960]
	add	x24, x26, x11
	str	q0, [sp, #4944]
	add	x11, x10, x24
	str	q0, [sp, #4928]
	cmp	x11, x26
	str	q0, [sp, #4912]
	str	q0, [sp, #4896]
	str	q0, [sp, #4880]
	str	q0, [sp, #4864]
	str	q0, [sp, #4848]
	str	q0, [sp, #4832]
	str	q0, [sp, #4816]
	str	q0, [sp, #4800]
	str	q0, [sp, #4784]
	str	q0, [sp, #4768]
	str	q0, [sp, #4752]
	str	q0, [sp, #4736]
	str	q0, [sp, #4720]
	str	q0, [sp, #4704]
	b.lo	.LBB8_5
	udiv	x11, x11, x26
	mov	x10, xzr
	add	x9, x9, x29
.LBB8_4:
	add	x13, sp, #1, lsl #12
	ldrb	w12, [x9]
	add	x9, x9, x26
	add	x13, x13, #608
	strb	w12, [x13, x10]
	add	x10, x10, #1
	cmp	x10, x11
	str	x10, [sp, #4960]
	b.lo	.LBB8_4
.LBB8_5:
	add	x1, sp, #1, lsl #12
	add	x0, sp, #3904
	mov	w2, #264
	add	x1, x1, #608
	udiv	w20, w8, w26
	bl	memcpy
	movi	v0.2d, #0000000000000000
	ldr	x8, [sp, #4160]
	str	xzr, [sp, #4960]
	str	q0, [sp, #4704]
	str	q0, [sp, #4720]
	str	q0, [sp, #4736]
	str	q0, [sp, #4752]
	str	q0, [sp, #4768]
	str	q0, [sp, #4784]
	str	q0, [sp, #4800]
	str	q0, [sp, #4816]
	str	q0, [sp, #4832]
	str	q0, [sp, #4848]
	str	q0, [sp, #4864]
	str	q0, [sp, #4880]
	str	q0, [sp, #4896]
	str	q0, [sp, #4912]
	str	q0, [sp, #4928]
	str	q0, [sp, #4944]
	cbz	x8, .LBB8_8
	mov	x9, xzr
.LBB8_7:
	add	x10, sp, #3904
	ldrb	w10, [x10, x9]
	cmp	w10, #0
	add	x10, sp, #1, lsl #12
	add	x10, x10, #608
	cset	w11, ne
	strb	w11, [x10, x9]
	add	x9, x9, #1
	cmp	x8, x9
	str	x9, [sp, #4960]
	b.ne	.LBB8_7
.LBB8_8:
	add	x1, sp, #1, lsl #12
	add	x0, sp, #1136
	mov	w2, #264
	add	x1, x1, #608
	add	x22, sp, #1408
	bl	memcpy
	movi	v0.2d, #0000000000000000
	add	x9, x24, x23
	add	x27, x28, x29
	cmp	x9, x26
	str	xzr, [sp, #4960]
	str	q0, [sp, #4944]
	str	q0, [sp, #4928]
	str	q0, [sp, #4912]
	str	q0, [sp, #4896]
	str	q0, [sp, #4880]
	str	q0, [sp, #4864]
	str	q0, [sp, #4848]
	str	q0, [sp, #4832]
	str	q0, [sp, #4816]
	str	q0, [sp, #4800]
	str	q0, [sp, #4784]
	str	q0, [sp, #4768]
	str	q0, [sp, #4752]
	str	q0, [sp, #4736]
	str	q0, [sp, #4720]
	str	q0, [sp, #4704]
	b.lo	.LBB8_11
	udiv	x9, x9, x26
	mov	x8, xzr
	add	x10, x28, x29
.LBB8_10:
	add	x12, sp, #1, lsl #12
	ldrb	w11, [x10]
	add	x10, x10, x26
	add	x12, x12, #608
	strb	w11, [x12, x8]
	add	x8, x8, #1
	cmp	x8, x9
	str	x8, [sp, #4960]
	b.lo	.LBB8_10
.LBB8_11:
	add	x1, sp, #1, lsl #12
	add	x0, sp, #320
	mov	w2, #264
	add	x1, x1, #608
	bl	memcpy
	add	x0, sp, #48
	add	x1, sp, #320
	mov	w2, #264
	bl	memcpy
	movi	v0.2d, #0000000000000000
	ldr	x8, [sp, #1392]
	ldr	x24, [sp, #304]
	strb	wzr, [sp, #1404]
	str	wzr, [sp, #1400]
	str	xzr, [sp, #4960]
	str	q0, [sp, #1408]
	str	q0, [sp, #1424]
	str	q0, [sp, #1440]
	str	q0, [sp, #1456]
	str	q0, [sp, #1472]
	str	q0, [sp, #1488]
	str	q0, [sp, #1504]
	str	q0, [sp, #1520]
	str	q0, [sp, #1536]
	str	q0, [sp, #1552]
	str	q0, [sp, #1568]
	str	q0, [sp, #1584]
	str	q0, [sp, #1600]
	str	q0, [sp, #1616]
	str	q0, [sp, #1632]
	str	q0, [sp, #1648]
	stur	q0, [x22, #255]
	str	q0, [sp, #4944]
	str	q0, [sp, #4928]
	str	q0, [sp, #4912]
	str	q0, [sp, #4896]
	str	q0, [sp, #4880]
	str	q0, [sp, #4864]
	str	q0, [sp, #4848]
	str	q0, [sp, #4832]
	str	q0, [sp, #4816]
	str	q0, [sp, #4800]
	str	q0, [sp, #4784]
	str	q0, [sp, #4768]
	str	q0, [sp, #4752]
	str	q0, [sp, #4736]
	str	q0, [sp, #4720]
	str	q0, [sp, #4704]
	cbz	x8, .LBB8_16
	mov	x9, xzr
	mov	x10, xzr
	b	.LBB8_14
.LBB8_13:
	add	x10, x10, #1
	cmp	x8, x10
	b.eq	.LBB8_16
.LBB8_14:
	add	x11, sp, #1136
	ldrb	w11, [x11, x10]
	cmp	w11, #1
	b.ne	.LBB8_13
	add	x11, sp, #1, lsl #12
	add	x11, x11, #608
	strb	w10, [x11, x9]
	add	x9, x9, #1
	str	x9, [sp, #4960]
	b	.LBB8_13
.LBB8_16:
	add	x1, sp, #1, lsl #12
	add	x0, sp, #1688
	mov	w2, #264
	add	x1, x1, #608
	bl	memcpy
	ldr	x23, [sp, #1944]
	subs	x25, x20, x23
	b.lo	.LBB8_52
	movi	v0.2d, #0000000000000000
	str	xzr, [sp, #4688]
	str	xzr, [sp, #2224]
	str	q0, [sp, #4416]
	str	q0, [sp, #4432]
	str	q0, [sp, #4448]
	str	q0, [sp, #4464]
	str	q0, [sp, #4480]
	str	q0, [sp, #4496]
	str	q0, [sp, #4512]
	str	q0, [sp, #4528]
	str	q0, [sp, #4544]
	str	q0, [sp, #4560]
	str	q0, [sp, #4576]
	str	q0, [sp, #4592]
	str	q0, [sp, #4608]
	str	q0, [sp, #4624]
	str	q0, [sp, #4640]
	str	q0, [sp, #4656]
	str	q0, [sp, #4672]
	str	q0, [sp, #2992]
	str	q0, [sp, #2976]
	str	q0, [sp, #2960]
	str	q0, [sp, #2944]
	str	q0, [sp, #2928]
	str	q0, [sp, #2912]
	str	q0, [sp, #2896]
	str	q0, [sp, #2880]
	str	q0, [sp, #2864]
	str	q0, [sp, #2848]
	str	q0, [sp, #2832]
	str	q0, [sp, #2816]
	str	q0, [sp, #2800]
	str	q0, [sp, #2784]
	str	q0, [sp, #2768]
	str	q0, [sp, #2752]
	str	q0, [sp, #2736]
	str	q0, [sp, #2720]
	str	q0, [sp, #2704]
	str	q0, [sp, #2688]
	str	q0, [sp, #2672]
	str	q0, [sp, #2656]
	str	q0, [sp, #2640]
	str	q0, [sp, #2624]
	str	q0, [sp, #2608]
	str	q0, [sp, #2592]
	str	q0, [sp, #2576]
	str	q0, [sp, #2560]
	str	q0, [sp, #2544]
	str	q0, [sp, #2528]
	str	q0, [sp, #2512]
	str	q0, [sp, #2496]
	str	q0, [sp, #2208]
	str	q0, [sp, #2192]
	str	q0, [sp, #2176]
	str	q0, [sp, #2160]
	str	q0, [sp, #2144]
	str	q0, [sp, #2128]
	str	q0, [sp, #2112]
	str	q0, [sp, #2096]
	str	q0, [sp, #2080]
	str	q0, [sp, #2064]
	str	q0, [sp, #2048]
	str	q0, [sp, #2032]
	str	q0, [sp, #2016]
	str	q0, [sp, #2000]
	str	q0, [sp, #1984]
	str	q0, [sp, #1968]
	str	q0, [sp, #1952]
	cbz	x23, .LBB8_51
	tst	x23, #0xf
	mov	w9, #16
	add	x8, sp, #1, lsl #12
	csel	x9, xzr, x9, eq
	stp	x29, x28, [sp, #32]
	add	x8, x8, #608
	add	x9, x9, x23
	mov	w10, #1
	adrp	x28, .Lstatic.44
	add	x28, x28, :lo12:.Lstatic.44
	lsr	x9, x9, #4
	adrp	x29, .Lstatic.45
	add	x29, x29, :lo12:.Lstatic.45
	adrp	x22, .Lstatic.49
	add	x22, x22, :lo12:.Lstatic.49
	stur	q0, [x8, #1]
	stur	q0, [x8, #17]
	stur	q0, [x8, #33]
	stur	q0, [x8, #49]
	stur	q0, [x8, #65]
	strb	w10, [x8]
	cbz	x9, .LBB8_23
	add	x11, sp, #1, lsl #12
	add	x12, sp, #1688
	mov	x10, xzr
	add	x11, x11, #608
	add	x12, x12, x23
	orr	x11, x11, #0x1
.LBB8_20:
	mvn	x13, x10
	mov	w15, #65535
	ldr	q0, [sp, #4736]
	ldrb	w13, [x12, x13]
	ldr	q1, [sp, #4752]
	str	q0, [sp, #5344]
	ldr	q0, [sp, #4768]
	sub	w14, w13, w24
	mvn	w13, w13
	str	q1, [sp, #5360]
	bic	w14, w15, w14
	mov	w15, #32897
	add	w13, w24, w13
	mul	w14, w14, w15
	str	q0, [sp, #5376]
	ldr	q0, [sp, #4704]
	ldr	q1, [sp, #4720]
	mov	x15, x9
	str	q0, [sp, #5312]
	lsr	w14, w14, #23
	str	q1, [sp, #5328]
	sub	w14, w14, w14, lsl #8
	add	w13, w13, w14
	ldrb	w14, [x8, #80]
	and	x13, x13, #0xffff
	ldrb	w13, [x22, x13]
	strb	w14, [x8, #688]
	mov	x14, x11
	lsl	x13, x13, #4
	ldr	q0, [x28, x13]
	ldr	q1, [x29, x13]
	add	x13, sp, #1, lsl #12
	add	x13, x13, #1216
.LBB8_21:
	ldr	q2, [x13], #16
	movi	v3.16b, #15
	subs	x15, x15, #1
	ushr	v4.16b, v2.16b, #4
	and	v2.16b, v2.16b, v3.16b
	tbl	v3.16b, { v1.16b }, v4.16b
	ldr	q4, [x14]
	tbl	v2.16b, { v0.16b }, v2.16b
	eor	v3.16b, v3.16b, v4.16b
	eor	v2.16b, v3.16b, v2.16b
	str	q2, [x14], #16
	b.ne	.LBB8_21
	add	x10, x10, #1
	cmp	x10, x23
	b.ne	.LBB8_20
.LBB8_23:
	ldr	q0, [sp, #4736]
	ldr	q1, [sp, #4752]
	add	x0, sp, #2496
	ldr	q2, [sp, #4768]
	ldrb	w8, [x8, #80]
	add	x1, sp, #3008
	str	q0, [sp, #3040]
	ldr	q0, [sp, #4704]
	add	x2, x23, #1
	str	q1, [sp, #3056]
	ldr	q1, [sp, #4720]
	mov	x3, x24
	str	x20, [sp, #24]
	str	q2, [sp, #3072]
	strb	w8, [sp, #3088]
	str	q0, [sp, #3008]
	str	q1, [sp, #3024]
	bl	"dm_code::weighing::at_places"
	add	x0, sp, #3904
	add	x1, sp, #2496
	mov	w2, #512
	add	x20, sp, #3904
	bl	memcpy
	movi	v0.2d, #0000000000000000
	str	xzr, [sp, #4960]
	str	q0, [sp, #4944]
	str	q0, [sp, #4928]
	str	q0, [sp, #4912]
	str	q0, [sp, #4896]
	str	q0, [sp, #4880]
	str	q0, [sp, #4864]
	str	q0, [sp, #4848]
	str	q0, [sp, #4832]
	str	q0, [sp, #4816]
	str	q0, [sp, #4800]
	str	q0, [sp, #4784]
	str	q0, [sp, #4768]
	str	q0, [sp, #4752]
	str	q0, [sp, #4736]
	str	q0, [sp, #4720]
	str	q0, [sp, #4704]
	cbz	x24, .LBB8_26
	mov	x8, xzr
	sub	x9, x20, #1
	mov	x10, x24
.LBB8_25:
	add	x11, sp, #48
	ldrb	w12, [x9, x10]
	subs	x10, x10, #1
	ldrb	w11, [x11, x8]
	lsr	x13, x12, #4
	and	x12, x12, #0xf
	lsl	x11, x11, #4
	add	x14, x28, x11
	add	x11, x29, x11
	ldrb	w12, [x14, x12]
	ldrb	w11, [x11, x13]
	add	x13, sp, #1, lsl #12
	add	x13, x13, #608
	eor	w11, w11, w12
	strb	w11, [x13, x8]
	add	x8, x8, #1
	str	x8, [sp, #4960]
	b.ne	.LBB8_25
.LBB8_26:
	add	x1, sp, #1, lsl #12
	add	x0, sp, #2232
	mov	w2, #264
	add	x1, x1, #608
	bl	memcpy
	add	x0, sp, #3640
	add	x1, sp, #2232
	mov	w2, #264
	bl	memcpy
	ldr	x2, [sp, #3896]
	add	x0, sp, #1952
	add	x1, sp, #3640
	mov	x3, x25
	add	x20, sp, #1952
	bl	"dm_code::erasures::correct_rest::<#9f76af21849881bb>"
	ldrb	w8, [sp, #1952]
	cbnz	w8, .LBB8_52
	add	x0, sp, #3360
	orr	x1, x20, #0x8
	mov	w2, #272
	add	x20, sp, #3360
	bl	memcpy
	ldr	x25, [sp, #3616]
	mov	x8, xzr
.LBB8_28:
	add	x9, sp, #1688
	ldrb	w9, [x9, x8]
	ldrb	w9, [x20, x9]
	cbnz	w9, .LBB8_52
	add	x8, x8, #1
	cmp	x23, x8
	b.ne	.LBB8_28
	movi	v0.2d, #0000000000000000
	cmp	x24, #255
	str	xzr, [sp, #4960]
	str	q0, [sp, #4944]
	str	q0, [sp, #4928]
	str	q0, [sp, #4912]
	str	q0, [sp, #4896]
	str	q0, [sp, #4880]
	str	q0, [sp, #4864]
	str	q0, [sp, #4848]
	str	q0, [sp, #4832]
	str	q0, [sp, #4816]
	str	q0, [sp, #4800]
	str	q0, [sp, #4784]
	str	q0, [sp, #4768]
	str	q0, [sp, #4752]
	str	q0, [sp, #4736]
	str	q0, [sp, #4720]
	str	q0, [sp, #4704]
	b.hi	.LBB8_32
	add	x0, sp, #1, lsl #12
	add	x1, sp, #48
	mov	x2, x24
	add	x0, x0, #608
	bl	memcpy
	str	x24, [sp, #4960]
.LBB8_32:
	add	x1, sp, #1, lsl #12
	add	x0, sp, #2232
	mov	w2, #264
	add	x1, x1, #608
	bl	memcpy
	add	x0, sp, #3096
	add	x1, sp, #2232
	mov	w2, #264
	bl	memcpy
	adrp	x16, .Lstatic.48
	add	x16, x16, :lo12:.Lstatic.48
	cbz	x25, .LBB8_62
	add	x8, sp, #3904
	add	x9, sp, #3096
	add	x10, sp, #3640
	sub	x8, x8, #1
	add	x11, sp, #3360
	b	.LBB8_41
.LBB8_34:
	cbz	w26, .LBB8_121
	udiv	w22, w8, w26
	movi	v0.2d, #0000000000000000
	cmp	w26, #1
	str	xzr, [sp, #2752]
	str	q0, [sp, #2736]
	str	q0, [sp, #2720]
	str	q0, [sp, #2704]
	str	q0, [sp, #2688]
	str	q0, [sp, #2672]
	str	q0, [sp, #2656]
	str	q0, [sp, #2640]
	str	q0, [sp, #2624]
	str	q0, [sp, #2608]
	str	q0, [sp, #2592]
	str	q0, [sp, #2576]
	str	q0, [sp, #2560]
	str	q0, [sp, #2544]
	str	q0, [sp, #2528]
	str	q0, [sp, #2512]
	str	q0, [sp, #2496]
	b.ne	.LBB8_44
	add	x0, sp, #3360
	sub	x2, x23, x22
	mov	x1, x28
	mov	x3, x22
	str	q0, [sp, #3360]
	sub	x20, x23, x22
	str	q0, [sp, #3376]
	str	q0, [sp, #3392]
	str	q0, [sp, #3408]
	str	q0, [sp, #3424]
	str	q0, [sp, #3440]
	bl	"dm_code::encoding::divide"
	movi	v0.2d, #0000000000000000
	add	x0, sp, #1, lsl #12
	add	x1, x28, x20
	add	x0, x0, #608
	mov	x2, x22
	str	q0, [sp, #4784]
	str	q0, [sp, #4768]
	str	q0, [sp, #4752]
	str	q0, [sp, #4736]
	str	q0, [sp, #4720]
	str	q0, [sp, #4704]
	bl	memcpy
	ldr	q0, [sp, #3360]
	ldr	q1, [sp, #4704]
	ldr	q2, [sp, #4720]
	ldr	q3, [sp, #3376]
	ldr	q4, [sp, #4736]
	ldr	q5, [sp, #4752]
	eor	v0.16b, v0.16b, v1.16b
	ldr	q1, [sp, #3392]
	ldr	q6, [sp, #3408]
	eor	v2.16b, v3.16b, v2.16b
	ldr	q3, [sp, #3424]
	ldr	q7, [sp, #3440]
	eor	v1.16b, v1.16b, v4.16b
	eor	v4.16b, v6.16b, v5.16b
	ldr	q5, [sp, #4768]
	str	q0, [sp, #3360]
	ldr	q6, [sp, #4784]
	ldr	q0, [sp, #3360]
	eor	v3.16b, v3.16b, v5.16b
	str	q2, [sp, #3376]
	eor	v5.16b, v7.16b, v6.16b
	orr	v6.16b, v1.16b, v4.16b
	str	q1, [sp, #3392]
	orr	v0.16b, v0.16b, v2.16b
	str	q4, [sp, #3408]
	str	q3, [sp, #3424]
	str	q5, [sp, #3440]
	orr	v0.16b, v0.16b, v6.16b
	orr	v6.16b, v3.16b, v5.16b
	orr	v0.16b, v0.16b, v6.16b
	cmtst	v0.16b, v0.16b, v0.16b
	umaxv	b0, v0.16b
	fmov	w8, s0
	tbz	w8, #0, .LBB8_59
	add	x3, sp, #3360
	add	x5, sp, #2496
	mov	x0, x28
	b	.LBB8_49
.LBB8_38:
	ldrb	w14, [x16, w13, uxtw]
	cmp	w13, #1
	lsl	x12, x12, #4
	eor	w14, w14, #0xff
	sub	w15, w14, #255
	csel	w13, w15, w14, eq
	add	x15, x28, x12
	add	x12, x29, x12
	and	x13, x13, #0xffff
	ldrb	w13, [x22, x13]
	lsr	x14, x13, #4
	and	x13, x13, #0xf
	ldrb	w13, [x15, x13]
	ldrb	w12, [x12, x14]
	eor	w12, w12, w13
.LBB8_39:
	strb	w12, [x9]
.LBB8_40:
	subs	x25, x25, #1
	add	x9, x9, #1
	b.eq	.LBB8_62
.LBB8_41:
	ldrb	w12, [x11], #1
	ldrb	w13, [x10], #1
	cmp	w12, w13
	b.eq	.LBB8_40
	ldrb	w13, [x8, x25]
	cbnz	w13, .LBB8_38
	mov	w12, wzr
	b	.LBB8_39
.LBB8_44:
	mvn	x8, x29
	str	xzr, [sp, #4960]
	add	x8, x23, x8
	str	q0, [sp, #4944]
	adds	x9, x8, x26
	str	q0, [sp, #4928]
	str	q0, [sp, #4912]
	str	q0, [sp, #4896]
	str	q0, [sp, #4880]
	str	q0, [sp, #4864]
	str	q0, [sp, #4848]
	str	q0, [sp, #4832]
	str	q0, [sp, #4816]
	str	q0, [sp, #4800]
	str	q0, [sp, #4784]
	str	q0, [sp, #4768]
	str	q0, [sp, #4752]
	str	q0, [sp, #4736]
	str	q0, [sp, #4720]
	str	q0, [sp, #4704]
	b.hs	.LBB8_47
	udiv	x9, x9, x26
	mov	x8, xzr
	add	x10, x28, x29
.LBB8_46:
	add	x12, sp, #1, lsl #12
	ldrb	w11, [x10]
	add	x10, x10, x26
	add	x12, x12, #608
	strb	w11, [x12, x8]
	add	x8, x8, #1
	cmp	x8, x9
	str	x8, [sp, #4960]
	b.lo	.LBB8_46
.LBB8_47:
	add	x1, sp, #1, lsl #12
	add	x0, sp, #3904
	mov	w2, #264
	add	x1, x1, #608
	add	x20, sp, #3904
	bl	memcpy
	movi	v0.2d, #0000000000000000
	ldr	x23, [sp, #4160]
	add	x1, sp, #1, lsl #12
	add	x0, sp, #1952
	add	x1, x1, #608
	mov	x3, x22
	sub	x2, x23, x22
	sub	x21, x23, x22
	str	q0, [sp, #1952]
	str	q0, [sp, #1968]
	str	q0, [sp, #1984]
	str	q0, [sp, #2000]
	str	q0, [sp, #2016]
	str	q0, [sp, #2032]
	bl	"dm_code::encoding::divide"
	movi	v0.2d, #0000000000000000
	add	x0, sp, #1, lsl #12
	add	x1, x20, x21
	add	x0, x0, #320
	mov	x2, x22
	str	q0, [sp, #4496]
	str	q0, [sp, #4480]
	str	q0, [sp, #4464]
	str	q0, [sp, #4448]
	str	q0, [sp, #4432]
	str	q0, [sp, #4416]
	bl	memcpy
	ldr	q0, [sp, #1952]
	ldr	q1, [sp, #4416]
	ldr	q2, [sp, #4432]
	ldr	q3, [sp, #1968]
	ldr	q4, [sp, #4448]
	ldr	q5, [sp, #4464]
	eor	v0.16b, v0.16b, v1.16b
	ldr	q1, [sp, #1984]
	ldr	q6, [sp, #2000]
	eor	v2.16b, v3.16b, v2.16b
	ldr	q3, [sp, #2016]
	ldr	q7, [sp, #2032]
	eor	v1.16b, v1.16b, v4.16b
	eor	v4.16b, v6.16b, v5.16b
	ldr	q5, [sp, #4480]
	str	q0, [sp, #1952]
	ldr	q6, [sp, #4496]
	ldr	q0, [sp, #1952]
	eor	v3.16b, v3.16b, v5.16b
	str	q2, [sp, #1968]
	eor	v5.16b, v7.16b, v6.16b
	orr	v6.16b, v1.16b, v4.16b
	str	q1, [sp, #1984]
	orr	v0.16b, v0.16b, v2.16b
	str	q4, [sp, #2000]
	str	q3, [sp, #2016]
	str	q5, [sp, #2032]
	orr	v0.16b, v0.16b, v6.16b
	orr	v6.16b, v3.16b, v5.16b
	orr	v0.16b, v0.16b, v6.16b
	cmtst	v0.16b, v0.16b, v0.16b
	umaxv	b0, v0.16b
	fmov	w8, s0
	tbz	w8, #0, .LBB8_59
	add	x0, sp, #3904
	add	x3, sp, #1952
	add	x5, sp, #2496
.LBB8_49:
	mov	x1, x23
	mov	x2, x22
	mov	x4, x22
	bl	"dm_code::correction::mend::<#9f76af21849881bb>"
	mov	w23, w1
	tst	w0, #0xff
	b.eq	.LBB8_53
	mov	w22, wzr
	mov	w23, wzr
	mov	w8, wzr
	mov	w24, wzr
	b	.LBB8_111
.LBB8_51:
	add	x0, sp, #1, lsl #12
	add	x1, sp, #48
	mov	x2, x24
	add	x0, x0, #320
	mov	x3, x20
	mov	x23, x20
	add	x20, sp, #1, lsl #12
	add	x20, x20, #320
	bl	"dm_code::erasures::correct_rest::<#9f76af21849881bb>"
	add	x8, sp, #1408
	ldrb	w21, [x22, #3008]
	orr	x1, x20, #0x8
	orr	x0, x8, #0x7
	mov	w2, #264
	mov	x20, x23
	bl	memcpy
	cbz	w21, .LBB8_61
.LBB8_52:
	mov	w22, wzr
	mov	w24, wzr
	mov	w23, wzr
	mov	w8, wzr
	b	.LBB8_111
.LBB8_53:
	tst	w23, #0xff
	b.eq	.LBB8_59
	ldr	x8, [sp, #2752]
	cbz	x8, .LBB8_60
	cmp	x8, #4
	mov	x9, xzr
	b.lo	.LBB8_119
	cmp	w26, #1
	b.ne	.LBB8_119
	cmp	x8, #16
	b.hs	.LBB8_112
	mov	x9, xzr
	b	.LBB8_116
.LBB8_59:
	mov	w23, wzr
.LBB8_60:
	sub	w22, w22, w23, lsl #1
	mov	w8, #1
	mov	w24, wzr
	b	.LBB8_111
.LBB8_61:
	ldrb	w23, [x22, #3280]
	mov	x24, xzr
	b	.LBB8_96
.LBB8_62:
	movi	v0.2d, #0000000000000000
	ldr	x24, [sp, #3352]
	mov	x8, xzr
	str	q0, [sp, #5664]
	str	q0, [sp, #5680]
	str	q0, [sp, #5696]
	str	q0, [sp, #5712]
	str	q0, [sp, #5728]
	str	q0, [sp, #5568]
	str	q0, [sp, #5584]
	str	q0, [sp, #5600]
	str	q0, [sp, #5616]
	str	q0, [sp, #5632]
	str	q0, [sp, #5648]
	str	q0, [sp, #5312]
	str	q0, [sp, #5328]
	str	q0, [sp, #5344]
	str	q0, [sp, #5360]
	str	q0, [sp, #5376]
	str	q0, [sp, #5392]
	str	q0, [sp, #5408]
	str	q0, [sp, #5424]
	str	q0, [sp, #5440]
	str	q0, [sp, #5456]
	str	q0, [sp, #5472]
	str	q0, [sp, #5488]
	str	q0, [sp, #5504]
	str	q0, [sp, #5520]
	str	q0, [sp, #5536]
	str	q0, [sp, #5552]
	str	q0, [sp, #5296]
	str	q0, [sp, #5280]
	str	q0, [sp, #5264]
	str	q0, [sp, #5248]
	str	q0, [sp, #5232]
	str	q0, [sp, #5216]
	str	q0, [sp, #5200]
	str	q0, [sp, #5184]
	str	q0, [sp, #5168]
	str	q0, [sp, #5152]
	str	q0, [sp, #5136]
	str	q0, [sp, #5120]
	str	q0, [sp, #5104]
	str	q0, [sp, #5088]
	str	q0, [sp, #5072]
	str	q0, [sp, #5056]
	str	q0, [sp, #5040]
	str	q0, [sp, #5024]
	str	q0, [sp, #5008]
	str	q0, [sp, #4992]
	str	q0, [sp, #4976]
	str	q0, [sp, #4960]
	str	q0, [sp, #4944]
	str	q0, [sp, #4928]
	str	q0, [sp, #4912]
	str	q0, [sp, #4896]
	str	q0, [sp, #4880]
	str	q0, [sp, #4864]
	str	q0, [sp, #4848]
	str	q0, [sp, #4832]
	str	q0, [sp, #4816]
	str	q0, [sp, #4800]
	str	q0, [sp, #4784]
	str	q0, [sp, #4768]
	str	q0, [sp, #4752]
	str	q0, [sp, #4736]
	str	q0, [sp, #4720]
	str	q0, [sp, #4704]
.LBB8_63:
	add	x9, sp, #1688
	add	x10, sp, #3096
	ldrb	w9, [x9, x8]
	add	x8, x8, #1
	cmp	x23, x8
	strb	wzr, [x10, x9]
	b.ne	.LBB8_63
	movi	v0.2d, #0000000000000000
	lsl	x25, x23, #3
	cmp	x25, x24
	str	q0, [sp, #5808]
	str	q0, [sp, #5792]
	str	q0, [sp, #5776]
	str	q0, [sp, #5760]
	str	q0, [sp, #5744]
	b.ls	.LBB8_66
	add	x0, sp, #1, lsl #12
	add	x1, sp, #3096
	sub	x2, x24, x23
	add	x0, x0, #1808
	mov	x3, x23
	str	q0, [sp, #5904]
	str	q0, [sp, #5920]
	sub	x20, x24, x23
	add	x21, sp, #3096
	str	q0, [sp, #5936]
	str	q0, [sp, #5952]
	str	q0, [sp, #5968]
	str	q0, [sp, #5984]
	bl	"dm_code::encoding::divide"
	movi	v0.2d, #0000000000000000
	add	x0, sp, #1, lsl #12
	add	x1, x21, x20
	add	x0, x0, #1904
	mov	x2, x23
	str	q0, [sp, #6080]
	str	q0, [sp, #6064]
	str	q0, [sp, #6048]
	str	q0, [sp, #6032]
	str	q0, [sp, #6016]
	str	q0, [sp, #6000]
	bl	memcpy
	ldr	q0, [sp, #6000]
	ldr	q2, [sp, #5904]
	add	x0, sp, #1, lsl #12
	ldr	q1, [sp, #6016]
	ldr	q3, [sp, #5920]
	add	x1, sp, #1, lsl #12
	eor	v0.16b, v2.16b, v0.16b
	ldr	q4, [sp, #6032]
	ldr	q5, [sp, #6048]
	ldr	q2, [sp, #5936]
	ldr	q6, [sp, #5952]
	eor	v1.16b, v3.16b, v1.16b
	ldr	q3, [sp, #5968]
	add	x0, x0, #1648
	add	x1, x1, #1808
	eor	v2.16b, v2.16b, v4.16b
	eor	v4.16b, v6.16b, v5.16b
	ldr	q5, [sp, #6064]
	ldr	q6, [sp, #6080]
	str	q0, [sp, #5904]
	ldr	q0, [sp, #5984]
	eor	v3.16b, v3.16b, v5.16b
	mov	x2, x23
	mov	x3, x23
	eor	v0.16b, v0.16b, v6.16b
	str	q1, [sp, #5920]
	str	q2, [sp, #5936]
	str	q4, [sp, #5952]
	str	q3, [sp, #5968]
	str	q0, [sp, #5984]
	bl	"dm_code::syndrome::syndromes_of_short"
	ldr	q0, [sp, #5776]
	ldr	q1, [sp, #5792]
	ldr	q2, [sp, #5808]
	str	q0, [sp, #5856]
	ldr	q0, [sp, #5760]
	str	q1, [sp, #5872]
	ldr	q1, [sp, #5744]
	str	q2, [sp, #5888]
	str	q0, [sp, #5840]
	str	q1, [sp, #5824]
	b	.LBB8_77
.LBB8_66:
	lsr	x20, x23, #4
	str	x25, [sp, #16]
	str	xzr, [sp, #6008]
	str	xzr, [sp, #6000]
	str	q0, [sp, #5824]
	str	q0, [sp, #5840]
	str	q0, [sp, #5856]
	str	q0, [sp, #5872]
	str	q0, [sp, #5888]
	cbz	x20, .LBB8_71
	mov	x21, xzr
	mov	w25, #1
	b	.LBB8_69
.LBB8_68:
	subs	x20, x20, #1
	add	x25, x25, #16
	b.eq	.LBB8_71
.LBB8_69:
	add	x0, sp, #1, lsl #12
	add	x1, sp, #3096
	mov	x2, x24
	add	x0, x0, #1904
	mov	x3, x25
	bl	"dm_code::syndrome::values_from_root"
	sub	x8, x21, #53
	cmp	x8, #16
	b.lo	.LBB8_68
	add	x8, sp, #1, lsl #12
	ldr	q0, [sp, #6000]
	add	x8, x8, #1728
	str	q0, [x8, x21]
	add	x21, x21, #16
	str	x21, [sp, #5896]
	b	.LBB8_68
.LBB8_71:
	add	x8, sp, #1, lsl #12
	and	x20, x24, #0xf
	add	x1, sp, #3096
	add	x8, x8, #1904
	and	x2, x24, #0xf
	str	xzr, [sp, #6008]
	sub	x8, x8, x20
	str	xzr, [sp, #6000]
	add	x21, sp, #3096
	add	x0, x8, #16
	bl	memcpy
	and	w8, w23, #0xfffffff0
	add	w9, w23, #1
	ldr	x25, [sp, #16]
	orr	w8, w8, #0x1
	and	w10, w8, #0xffff
	cmp	w10, w9, uxth
	b.hs	.LBB8_77
	ldr	q0, [sp, #6000]
	lsr	x10, x24, #4
	add	x11, x21, x20
	b	.LBB8_74
.LBB8_73:
	and	w12, w8, #0xffff
	mov	w13, #32897
	umov	w14, v1.b[0]
	mul	w12, w12, w13
	add	x17, sp, #1, lsl #12
	add	x17, x17, #1728
	lsr	w12, w12, #23
	sub	w12, w12, w12, lsl #8
	add	w12, w8, w12
	add	w8, w8, #1
	and	x12, x12, #0xffff
	and	w18, w8, #0xffff
	ldrb	w12, [x22, x12]
	cmp	w18, w9, uxth
	and	x13, x12, #0xf
	add	x12, x29, x12, lsr #4
	add	x13, x28, x13
	ldrb	w15, [x13]
	ldrb	w16, [x12]
	eor	w14, w15, w14
	umov	w15, v1.b[1]
	eor	w14, w14, w16
	ubfiz	x14, x14, #4, #8
	ldrb	w16, [x13, x14]
	ldrb	w14, [x12, x14]
	eor	w15, w16, w15
	eor	w14, w15, w14
	umov	w15, v1.b[2]
	ubfiz	x14, x14, #4, #8
	ldrb	w16, [x13, x14]
	ldrb	w14, [x12, x14]
	eor	w15, w16, w15
	eor	w14, w15, w14
	umov	w15, v1.b[3]
	ubfiz	x14, x14, #4, #8
	ldrb	w16, [x13, x14]
	ldrb	w14, [x12, x14]
	eor	w15, w16, w15
	eor	w14, w15, w14
	umov	w15, v1.b[4]
	ubfiz	x14, x14, #4, #8
	ldrb	w16, [x13, x14]
	ldrb	w14, [x12, x14]
	eor	w15, w16, w15
	eor	w14, w15, w14
	umov	w15, v1.b[5]
	ubfiz	x14, x14, #4, #8
	ldrb	w16, [x13, x14]
	ldrb	w14, [x12, x14]
	eor	w15, w16, w15
	eor	w14, w15, w14
	umov	w15, v1.b[6]
	ubfiz	x14, x14, #4, #8
	ldrb	w16, [x13, x14]
	ldrb	w14, [x12, x14]
	eor	w15, w16, w15
	eor	w14, w15, w14
	umov	w15, v1.b[7]
	ubfiz	x14, x14, #4, #8
	ldrb	w16, [x13, x14]
	ldrb	w14, [x12, x14]
	eor	w15, w16, w15
	eor	w14, w15, w14
	umov	w15, v1.b[8]
	ubfiz	x14, x14, #4, #8
	ldrb	w16, [x13, x14]
	ldrb	w14, [x12, x14]
	eor	w15, w16, w15
	eor	w14, w15, w14
	umov	w15, v1.b[9]
	ubfiz	x14, x14, #4, #8
	ldrb	w16, [x13, x14]
	ldrb	w14, [x12, x14]
	eor	w15, w16, w15
	eor	w14, w15, w14
	umov	w15, v1.b[10]
	ubfiz	x14, x14, #4, #8
	ldrb	w16, [x13, x14]
	ldrb	w14, [x12, x14]
	eor	w15, w16, w15
	eor	w14, w15, w14
	umov	w15, v1.b[11]
	ubfiz	x14, x14, #4, #8
	ldrb	w16, [x13, x14]
	ldrb	w14, [x12, x14]
	eor	w15, w16, w15
	eor	w14, w15, w14
	umov	w15, v1.b[12]
	ubfiz	x14, x14, #4, #8
	ldrb	w16, [x13, x14]
	ldrb	w14, [x12, x14]
	eor	w15, w16, w15
	eor	w14, w15, w14
	umov	w15, v1.b[13]
	ubfiz	x14, x14, #4, #8
	ldrb	w16, [x13, x14]
	ldrb	w14, [x12, x14]
	eor	w15, w16, w15
	eor	w14, w15, w14
	umov	w15, v1.b[14]
	ubfiz	x14, x14, #4, #8
	ldrb	w16, [x13, x14]
	ldrb	w14, [x12, x14]
	eor	w15, w16, w15
	ldr	x16, [sp, #5896]
	eor	w14, w15, w14
	umov	w15, v1.b[15]
	ubfiz	x14, x14, #4, #8
	ldrb	w13, [x13, x14]
	ldrb	w12, [x12, x14]
	add	x14, x16, #1
	eor	w13, w13, w15
	eor	w12, w13, w12
	strb	w12, [x17, x16]
	str	x14, [sp, #5896]
	b.hs	.LBB8_77
.LBB8_74:
	mov	v1.16b, v0.16b
	cbz	x10, .LBB8_73
	lsl	w12, w8, #4
	mov	w14, #32897
	mov	v1.16b, v0.16b
	and	w13, w12, #0xfff0
	mul	w13, w13, w14
	lsr	w13, w13, #23
	sub	w13, w13, w13, lsl #8
	add	w12, w12, w13
	mov	x13, x10
	and	x12, x12, #0xffff
	ldrb	w12, [x22, x12]
	lsl	x12, x12, #4
	ldr	q2, [x28, x12]
	ldr	q3, [x29, x12]
	mov	x12, x11
.LBB8_76:
	movi	v4.16b, #15
	ushr	v5.16b, v1.16b, #4
	subs	x13, x13, #1
	and	v1.16b, v1.16b, v4.16b
	tbl	v4.16b, { v3.16b }, v5.16b
	ldr	q5, [x12], #16
	tbl	v1.16b, { v2.16b }, v1.16b
	eor	v4.16b, v4.16b, v5.16b
	eor	v1.16b, v4.16b, v1.16b
	b.ne	.LBB8_76
	b	.LBB8_73
.LBB8_77:
	ldr	q0, [sp, #5888]
	ldr	q1, [sp, #5856]
	movi	v3.2d, #0000000000000000
	ldr	q2, [sp, #5872]
	ldr	x20, [sp, #24]
	add	x8, sp, #3904
	str	q0, [sp, #5728]
	ldr	q0, [sp, #5840]
	str	q1, [sp, #5696]
	ldr	q1, [sp, #5824]
	ldr	x9, [sp, #5736]
	str	q2, [sp, #5712]
	str	q0, [sp, #5680]
	str	q1, [sp, #5664]
	str	q3, [sp, #6080]
	str	q3, [sp, #6064]
	str	q3, [sp, #6048]
	str	q3, [sp, #6032]
	str	q3, [sp, #6016]
	str	q3, [sp, #6000]
	cbz	x9, .LBB8_83
	add	x11, sp, #1, lsl #12
	mov	x10, xzr
	mov	x12, x9
	add	x11, x11, #1904
	b	.LBB8_80
.LBB8_79:
	add	x10, x10, #1
	sub	x12, x12, #1
	add	x11, x11, #1
	cmp	x10, x9
	b.eq	.LBB8_83
.LBB8_80:
	sub	x14, x9, x10
	mov	w13, #16
	tst	x14, #0xf
	csel	x13, xzr, x13, eq
	add	x14, x13, x14
	lsr	x14, x14, #4
	cbz	x14, .LBB8_79
	add	x14, sp, #1, lsl #12
	add	x13, x13, x12
	mov	x15, x11
	add	x14, x14, #1568
	lsr	x13, x13, #4
	ldrb	w14, [x14, x10]
	lsl	x14, x14, #4
	ldr	q0, [x28, x14]
	ldr	q1, [x29, x14]
	add	x14, sp, #3008
.LBB8_82:
	ldr	q2, [x14], #16
	movi	v3.16b, #15
	subs	x13, x13, #1
	ushr	v4.16b, v2.16b, #4
	and	v2.16b, v2.16b, v3.16b
	tbl	v3.16b, { v1.16b }, v4.16b
	ldr	q4, [x15]
	tbl	v2.16b, { v0.16b }, v2.16b
	eor	v3.16b, v3.16b, v4.16b
	eor	v2.16b, v3.16b, v2.16b
	str	q2, [x15], #16
	b.ne	.LBB8_82
	b	.LBB8_79
.LBB8_83:
	ldr	q0, [sp, #6032]
	ldr	q1, [sp, #6048]
	cmp	x25, x24
	ldr	q2, [sp, #6064]
	ldr	q3, [sp, #6080]
	add	x25, x8, #256
	ldr	q4, [sp, #6000]
	ldr	q5, [sp, #6016]
	str	q0, [sp, #5248]
	str	q1, [sp, #5264]
	str	q2, [sp, #5280]
	str	q3, [sp, #5296]
	str	q4, [sp, #5216]
	str	q5, [sp, #5232]
	str	q5, [sp, #5584]
	str	q4, [sp, #5568]
	str	q1, [sp, #5616]
	str	q3, [sp, #5648]
	str	q2, [sp, #5632]
	str	q0, [sp, #5600]
	b.ls	.LBB8_89
	add	x0, sp, #1, lsl #12
	add	x1, sp, #1, lsl #12
	mov	x2, x23
	add	x0, x0, #608
	add	x1, x1, #1120
	mov	x3, x24
	bl	"dm_code::weighing::at_places"
	ldr	q0, [sp, #4896]
	ldr	q1, [sp, #4912]
	add	x8, sp, #1688
	ldr	q2, [sp, #4944]
	adrp	x14, .Lstatic.48
	add	x14, x14, :lo12:.Lstatic.48
	str	q0, [sp, #5504]
	ldr	q0, [sp, #4928]
	str	q1, [sp, #5520]
	ldr	q1, [sp, #4832]
	str	q0, [sp, #5536]
	ldr	q0, [sp, #4848]
	str	q2, [sp, #5552]
	ldr	q2, [sp, #4864]
	str	q0, [sp, #5456]
	ldr	q0, [sp, #4880]
	str	q1, [sp, #5440]
	ldr	q1, [sp, #4768]
	str	q0, [sp, #5488]
	ldr	q0, [sp, #4784]
	str	q2, [sp, #5472]
	ldr	q2, [sp, #4800]
	str	q0, [sp, #5392]
	ldr	q0, [sp, #4816]
	str	q1, [sp, #5376]
	ldr	q1, [sp, #4704]
	str	q0, [sp, #5424]
	ldr	q0, [sp, #4720]
	str	q2, [sp, #5408]
	ldr	q2, [sp, #4736]
	str	q0, [sp, #5328]
	ldr	q0, [sp, #4752]
	str	q1, [sp, #5312]
	str	q2, [sp, #5344]
	str	q0, [sp, #5360]
	b	.LBB8_87
.LBB8_85:
	ldrb	w12, [x14, w11, uxtw]
	cmp	w11, #1
	add	x11, sp, #1, lsl #12
	add	x11, x11, #1216
	eor	w12, w12, #0xff
	ldrb	w10, [x11, x10]
	sub	w13, w12, #255
	csel	w12, w13, w12, eq
	lsl	x10, x10, #4
	and	x11, x12, #0xffff
	ldrb	w11, [x22, x11]
	add	x13, x28, x10
	add	x10, x29, x10
	lsr	x12, x11, #4
	and	x11, x11, #0xf
	ldrb	w11, [x13, x11]
	ldrb	w10, [x10, x12]
	eor	w10, w10, w11
.LBB8_86:
	add	x11, sp, #3096
	subs	x23, x23, #1
	strb	w10, [x11, x9]
	b.eq	.LBB8_95
.LBB8_87:
	ldrb	w9, [x8], #1
	mvn	x10, x9
	add	x10, x24, x10
	ldrb	w11, [x25, x10]
	cbnz	w11, .LBB8_85
	mov	w10, wzr
	b	.LBB8_86
.LBB8_89:
	mov	x8, xzr
	adrp	x17, .Lstatic.48
	add	x17, x17, :lo12:.Lstatic.48
	b	.LBB8_91
.LBB8_90:
	add	x8, x8, #1
	add	x11, sp, #3096
	cmp	x8, x23
	strb	w10, [x11, x9]
	b.eq	.LBB8_95
.LBB8_91:
	add	x9, sp, #1688
	mov	w14, #32897
	mov	x11, xzr
	ldrb	w9, [x9, x8]
	mov	x10, xzr
	mvn	x12, x9
	add	x12, x24, x12
	and	w13, w12, #0xffff
	mul	w13, w13, w14
	lsr	w13, w13, #23
	sub	w13, w13, w13, lsl #8
	add	w13, w12, w13
	and	x13, x13, #0xffff
	ldrb	w13, [x22, x13]
	and	x14, x13, #0xf
	add	x13, x29, x13, lsr #4
	add	x14, x28, x14
.LBB8_92:
	lsl	x11, x11, #4
	add	x16, sp, #1, lsl #12
	add	x16, x16, #1472
	ldrb	w15, [x14, x11]
	ldrb	w11, [x13, x11]
	eor	w11, w11, w15
	ldrb	w15, [x16, x10]
	add	x10, x10, #1
	and	x11, x11, #0xff
	cmp	x23, x10
	eor	x11, x11, x15
	b.ne	.LBB8_92
	ldrb	w10, [x25, x12]
	cbz	w10, .LBB8_90
	ldrb	w12, [x17, w10, uxtw]
	cmp	w10, #1
	lsl	x11, x11, #4
	eor	w12, w12, #0xff
	sub	w13, w12, #255
	csel	w10, w13, w12, eq
	add	x13, x28, x11
	add	x11, x29, x11
	and	x10, x10, #0xffff
	ldrb	w10, [x22, x10]
	lsr	x12, x10, #4
	and	x10, x10, #0xf
	ldrb	w10, [x13, x10]
	ldrb	w11, [x11, x12]
	eor	w10, w11, w10
	b	.LBB8_90
.LBB8_95:
	add	x8, sp, #1408
	ldrb	w23, [sp, #3624]
	add	x1, sp, #3096
	orr	x0, x8, #0x7
	mov	w2, #264
	bl	memcpy
	ldp	x29, x28, [sp, #32]
	ldr	x24, [sp, #1944]
.LBB8_96:
	add	w8, w24, w23, lsl #1
	add	x9, sp, #1408
	mov	w2, #264
	orr	x1, x9, #0x7
	sub	w22, w20, w8
	add	x20, sp, #592
	orr	x0, x20, #0x7
	bl	memcpy
	ldr	w8, [sp, #1400]
	ldrb	w9, [sp, #1404]
	add	x0, sp, #864
	orr	x1, x20, #0x7
	mov	w2, #264
	add	x20, sp, #864
	str	w8, [sp, #584]
	strb	w9, [sp, #588]
	bl	memcpy
	ldr	w9, [sp, #584]
	ldrb	w11, [sp, #588]
	add	x10, x20, #267
	ldr	x8, [sp, #1120]
	strb	w23, [sp, #1128]
	strb	w24, [sp, #1129]
	strb	w22, [sp, #1130]
	str	w9, [x10]
	strb	w11, [sp, #1135]
	cbz	x8, .LBB8_110
	cmp	x8, #4
	mov	x9, xzr
	b.lo	.LBB8_108
	cmp	w26, #1
	b.ne	.LBB8_108
	cmp	x8, #16
	b.hs	.LBB8_101
	mov	x9, xzr
	b	.LBB8_105
.LBB8_101:
	and	x10, x8, #0xc
	and	x9, x8, #0xfffffffffffffff0
	add	x11, sp, #864
	and	x12, x8, #0xfffffffffffffff0
.LBB8_102:
	ldr	q0, [x11], #16
	subs	x12, x12, #16
	str	q0, [x27], #16
	b.ne	.LBB8_102
	cmp	x8, x9
	b.eq	.LBB8_110
	cbz	x10, .LBB8_108
.LBB8_105:
	mov	x12, x9
	and	x9, x8, #0xfffffffffffffffc
	add	x13, sp, #864
	add	x11, x12, x29
	sub	x10, x12, x9
	add	x12, x13, x12
	add	x11, x28, x11
.LBB8_106:
	ldr	w13, [x12], #4
	adds	x10, x10, #4
	str	w13, [x11], #4
	b.ne	.LBB8_106
	cmp	x8, x9
	b.eq	.LBB8_110
.LBB8_108:
	madd	x10, x9, x26, x29
	add	x11, sp, #864
	sub	x8, x8, x9
	add	x9, x11, x9
	add	x10, x28, x10
.LBB8_109:
	ldrb	w11, [x9], #1
	subs	x8, x8, #1
	strb	w11, [x10]
	add	x10, x10, x26
	b.ne	.LBB8_109
.LBB8_110:
	mov	w8, #1
.LBB8_111:
	bfi	w23, w24, #8, #24
	strb	w8, [x19]
	strb	w22, [x19, #3]
	sturh	w23, [x19, #1]
	add	sp, sp, #1, lsl #12
	.cfi_def_cfa_offset 2096
	add	sp, sp, #2000
	.cfi_def_cfa_offset 96
	ldp	x20, x19, [sp, #80]
	ldp	x22, x21, [sp, #64]
	ldp	x24, x23, [sp, #48]
	ldp	x26, x25, [sp, #32]
	ldp	x28, x27, [sp, #16]
	ldp	x29, x30, [sp], #96
	.cfi_def_cfa_offset 0
	.cfi_restore w19
	.cfi_restore w20
	.cfi_restore w21
	.cfi_restore w22
	.cfi_restore w23
	.cfi_restore w24
	.cfi_restore w25
	.cfi_restore w26
	.cfi_restore w27
	.cfi_restore w28
	.cfi_restore w30
	.cfi_restore w29
	ret
.LBB8_112:
	.cfi_restore_state
	add	x11, x28, x29
	and	x10, x8, #0xc
	and	x9, x8, #0xfffffffffffffff0
	add	x12, sp, #2496
	and	x13, x8, #0xfffffffffffffff0
.LBB8_113:
	ldr	q0, [x12], #16
	subs	x13, x13, #16
	str	q0, [x11], #16
	b.ne	.LBB8_113
	cmp	x8, x9
	b.eq	.LBB8_60
	cbz	x10, .LBB8_119
.LBB8_116:
	mov	x12, x9
	and	x9, x8, #0xfffffffffffffffc
	add	x13, sp, #2496
	add	x11, x12, x29
	sub	x10, x12, x9
	add	x12, x13, x12
	add	x11, x28, x11
.LBB8_117:
	ldr	w13, [x12], #4
	adds	x10, x10, #4
	str	w13, [x11], #4
	b.ne	.LBB8_117
	cmp	x8, x9
	b.eq	.LBB8_60
.LBB8_119:
	madd	x10, x9, x26, x29
	add	x11, sp, #2496
	sub	x8, x8, x9
	add	x9, x11, x9
	add	x10, x28, x10
.LBB8_120:
	ldrb	w11, [x9], #1
	subs	x8, x8, #1
	strb	w11, [x10]
	add	x10, x10, x26
	b.ne	.LBB8_120
	b	.LBB8_60
.LBB8_121:
	brk	#0x1
.Lfunc_end8:
	.size	"dm_symbol::symbol::correction::restore_block", .Lfunc_end8-"dm_symbol::symbol::correction::restore_block"
	.cfi_endproc

	.p2align	2
	.type	"dm_code::encoding::divide",@function
"dm_code::encoding::divide":
	.cfi_startproc
	sub	sp, sp, #192
	.cfi_def_cfa_offset 192
	stp	d15, d14, [sp, #128]
	stp	d13, d12, [sp, #144]
	stp	d11, d10, [sp, #160]
	stp	d9, d8, [sp, #176]
	.cfi_offset b8, -8
	.cfi_offset b9, -16
	.cfi_offset b10, -24
	.cfi_offset b11, -32
	.cfi_offset b12, -40
	.cfi_offset b13, -48
	.cfi_offset b14, -56
	.cfi_offset b15, -64
	lsr	x8, x3, #4
	tst	x3, #0xf
	cinc	x9, x8, ne
	and	x8, x2, #0x1
	cmp	x9, #2
	b.gt	.LBB9_5
	cmp	x9, #1
	b.eq	.LBB9_11
	cmp	x9, #2
	b.ne	.LBB9_9
	add	x9, x3, x3, lsl #2
	lsl	x12, x9, #4
	cbnz	x8, .LBB9_19
	adrp	x9, .Lstatic.46
	add	x9, x9, :lo12:.Lstatic.46
	movi	v3.16b, #15
	add	x9, x9, x12
	movi	v1.2d, #0000000000000000
	movi	v0.2d, #0000000000000000
	ldp	q2, q4, [x9]
	and	v5.16b, v2.16b, v3.16b
	ushr	v6.16b, v2.16b, #4
	and	v7.16b, v4.16b, v3.16b
	ushr	v16.16b, v4.16b, #4
	b	.LBB9_20
.LBB9_5:
	cmp	x9, #3
	b.eq	.LBB9_13
	cmp	x9, #4
	b.ne	.LBB9_9
	add	x11, x3, x3, lsl #2
	adrp	x12, .Lstatic.46
	add	x12, x12, :lo12:.Lstatic.46
	adrp	x9, .Lstatic.44
	add	x9, x9, :lo12:.Lstatic.44
	adrp	x10, .Lstatic.45
	add	x10, x10, :lo12:.Lstatic.45
	cbnz	x8, .LBB9_23
	lsl	x13, x11, #4
	movi	v19.16b, #15
	movi	v3.2d, #0000000000000000
	movi	v2.2d, #0000000000000000
	movi	v1.2d, #0000000000000000
	movi	v0.2d, #0000000000000000
	add	x11, x12, x13
	ldp	q4, q16, [x11]
	ldp	q18, q20, [x11, #32]
	and	v5.16b, v4.16b, v19.16b
	ushr	v11.16b, v4.16b, #4
	and	v6.16b, v16.16b, v19.16b
	ushr	v7.16b, v16.16b, #4
	and	v16.16b, v18.16b, v19.16b
	ushr	v17.16b, v18.16b, #4
	and	v18.16b, v20.16b, v19.16b
	ushr	v19.16b, v20.16b, #4
	b	.LBB9_24
.LBB9_9:
	add	x9, x3, x3, lsl #2
	cbnz	x8, .LBB9_15
	lsl	x11, x9, #4
	adrp	x9, .Lstatic.46
	add	x9, x9, :lo12:.Lstatic.46
	movi	v21.16b, #15
	movi	v4.2d, #0000000000000000
	movi	v3.2d, #0000000000000000
	add	x9, x9, x11
	movi	v2.2d, #0000000000000000
	movi	v1.2d, #0000000000000000
	ldp	q23, q16, [x9]
	ldr	q24, [x9, #64]
	ldp	q18, q20, [x9, #32]
	movi	v0.2d, #0000000000000000
	ushr	v15.16b, v24.16b, #4
	and	v5.16b, v23.16b, v21.16b
	ushr	v13.16b, v23.16b, #4
	and	v6.16b, v16.16b, v21.16b
	ushr	v22.16b, v16.16b, #4
	and	v17.16b, v18.16b, v21.16b
	ushr	v12.16b, v18.16b, #4
	and	v7.16b, v20.16b, v21.16b
	ushr	v14.16b, v20.16b, #4
	and	v16.16b, v24.16b, v21.16b
	b	.LBB9_16
.LBB9_11:
	add	x9, x3, x3, lsl #2
	cbnz	x8, .LBB9_27
	lsl	x11, x9, #4
	movi	v2.16b, #15
	adrp	x9, .Lstatic.46
	add	x9, x9, :lo12:.Lstatic.46
	movi	v0.2d, #0000000000000000
	ldr	q1, [x9, x11]
	and	v5.16b, v1.16b, v2.16b
	ushr	v6.16b, v1.16b, #4
	b	.LBB9_28
.LBB9_13:
	add	x9, x3, x3, lsl #2
	cbnz	x8, .LBB9_31
	lsl	x12, x9, #4
	adrp	x9, .Lstatic.46
	add	x9, x9, :lo12:.Lstatic.46
	movi	v4.16b, #15
	movi	v2.2d, #0000000000000000
	movi	v1.2d, #0000000000000000
	add	x9, x9, x12
	movi	v0.2d, #0000000000000000
	ldp	q3, q16, [x9]
	ldr	q18, [x9, #32]
	and	v17.16b, v18.16b, v4.16b
	ushr	v18.16b, v18.16b, #4
	and	v5.16b, v3.16b, v4.16b
	ushr	v6.16b, v3.16b, #4
	and	v7.16b, v16.16b, v4.16b
	ushr	v16.16b, v16.16b, #4
	b	.LBB9_32
.LBB9_15:
	lsl	x11, x9, #4
	adrp	x12, .Lstatic.46
	add	x12, x12, :lo12:.Lstatic.46
	movi	v0.16b, #15
	ldrb	w10, [x1]
	adrp	x13, .Lstatic.44
	add	x13, x13, :lo12:.Lstatic.44
	add	x12, x12, x11
	ldp	q23, q3, [x12]
	ldr	q24, [x12, #64]
	ldp	q4, q20, [x12, #32]
	lsl	x9, x10, #4
	adrp	x10, .Lstatic.45
	add	x10, x10, :lo12:.Lstatic.45
	and	v16.16b, v24.16b, v0.16b
	and	v5.16b, v23.16b, v0.16b
	ushr	v13.16b, v23.16b, #4
	and	v6.16b, v3.16b, v0.16b
	ushr	v22.16b, v3.16b, #4
	and	v17.16b, v4.16b, v0.16b
	ushr	v12.16b, v4.16b, #4
	and	v7.16b, v20.16b, v0.16b
	ushr	v14.16b, v20.16b, #4
	ushr	v15.16b, v24.16b, #4
	ldr	q1, [x13, x9]
	ldr	q2, [x10, x9]
	tbl	v0.16b, { v1.16b }, v5.16b
	tbl	v3.16b, { v2.16b }, v13.16b
	tbl	v4.16b, { v1.16b }, v6.16b
	tbl	v25.16b, { v2.16b }, v22.16b
	tbl	v26.16b, { v1.16b }, v17.16b
	tbl	v27.16b, { v2.16b }, v12.16b
	tbl	v28.16b, { v1.16b }, v7.16b
	tbl	v29.16b, { v2.16b }, v14.16b
	tbl	v30.16b, { v1.16b }, v16.16b
	tbl	v31.16b, { v2.16b }, v15.16b
	eor	v0.16b, v3.16b, v0.16b
	eor	v1.16b, v25.16b, v4.16b
	eor	v2.16b, v27.16b, v26.16b
	eor	v3.16b, v29.16b, v28.16b
	eor	v4.16b, v31.16b, v30.16b
.LBB9_16:
	lsr	x9, x2, #1
	cbz	x9, .LBB9_39
	umov	w10, v23.b[0]
	mov	x12, v24.d[1]
	adrp	x15, .Lstatic.46
	add	x15, x15, :lo12:.Lstatic.46
	fmov	x13, d24
	movi	v11.16b, #15
	add	x15, x15, x11
	adrp	x11, .Lstatic.45
	add	x11, x11, :lo12:.Lstatic.45
	ldur	q31, [x15, #1]
	ldur	q9, [x15, #17]
	ldur	q28, [x15, #49]
	ubfiz	x14, x10, #4, #8
	adrp	x10, .Lstatic.44
	add	x10, x10, :lo12:.Lstatic.44
	extr	x13, x12, x13, #8
	lsr	x12, x12, #8
	add	x8, x8, x1
	ldr	q23, [x10, x14]
	ldr	q26, [x11, x14]
	add	x8, x8, #1
	fmov	d24, x13
	tbl	v27.16b, { v23.16b }, v5.16b
	tbl	v30.16b, { v23.16b }, v6.16b
	tbl	v10.16b, { v26.16b }, v13.16b
	tbl	v25.16b, { v23.16b }, v7.16b
	tbl	v29.16b, { v23.16b }, v16.16b
	tbl	v8.16b, { v26.16b }, v15.16b
	tbl	v23.16b, { v23.16b }, v17.16b
	mov	v24.d[1], x12
	eor	v27.16b, v31.16b, v27.16b
	tbl	v31.16b, { v26.16b }, v22.16b
	eor	v30.16b, v9.16b, v30.16b
	eor	v25.16b, v28.16b, v25.16b
	ldur	q28, [x15, #33]
	tbl	v9.16b, { v26.16b }, v14.16b
	tbl	v26.16b, { v26.16b }, v12.16b
	mov	v24.b[15], wzr
	eor	v27.16b, v27.16b, v10.16b
	eor	v23.16b, v28.16b, v23.16b
	eor	v28.16b, v29.16b, v8.16b
	eor	v29.16b, v30.16b, v31.16b
	eor	v30.16b, v25.16b, v9.16b
	and	v19.16b, v27.16b, v11.16b
	ushr	v18.16b, v27.16b, #4
	eor	v31.16b, v23.16b, v26.16b
	eor	v8.16b, v28.16b, v24.16b
	mov	v27.16b, v7.16b
	stp	q18, q19, [sp, #96]
	and	v19.16b, v29.16b, v11.16b
	ushr	v18.16b, v29.16b, #4
	mov	v29.16b, v16.16b
	stp	q18, q19, [sp, #64]
	and	v19.16b, v31.16b, v11.16b
	ushr	v18.16b, v31.16b, #4
	and	v31.16b, v8.16b, v11.16b
	ushr	v8.16b, v8.16b, #4
	stp	q18, q19, [sp, #32]
	and	v19.16b, v30.16b, v11.16b
	ushr	v18.16b, v30.16b, #4
	stp	q18, q19, [sp]
.LBB9_18:
	umov	w12, v0.b[0]
	ldurb	w14, [x8, #-1]
	umov	w13, v0.b[1]
	movi	v9.2d, #0000000000000000
	ldrb	w15, [x8], #2
	ldr	q7, [sp, #112]
	ext	v0.16b, v0.16b, v1.16b, #2
	ext	v1.16b, v1.16b, v2.16b, #2
	ext	v2.16b, v2.16b, v3.16b, #2
	ext	v3.16b, v3.16b, v4.16b, #2
	mov	v26.16b, v12.16b
	eor	w12, w14, w12
	eor	w13, w15, w13
	mov	v24.16b, v22.16b
	ubfiz	x12, x12, #4, #8
	ubfiz	x13, x13, #4, #8
	ext	v4.16b, v4.16b, v9.16b, #2
	mov	v22.16b, v13.16b
	mov	v28.16b, v14.16b
	mov	v30.16b, v15.16b
	ldr	q10, [x10, x12]
	ldr	q11, [x11, x12]
	ldr	q12, [x10, x13]
	mov	v21.16b, v5.16b
	ldp	q18, q16, [sp, #16]
	tbl	v9.16b, { v10.16b }, v7.16b
	ldr	q7, [sp, #96]
	tbl	v14.16b, { v12.16b }, v5.16b
	ldr	q19, [sp]
	mov	v23.16b, v6.16b
	tbl	v6.16b, { v12.16b }, v6.16b
	tbl	v13.16b, { v11.16b }, v7.16b
	ldr	q7, [sp, #80]
	tbl	v16.16b, { v11.16b }, v16.16b
	tbl	v25.16b, { v12.16b }, v17.16b
	tbl	v18.16b, { v10.16b }, v18.16b
	tbl	v19.16b, { v11.16b }, v19.16b
	tbl	v15.16b, { v10.16b }, v7.16b
	ldp	q7, q5, [sp, #48]
	tbl	v20.16b, { v12.16b }, v27.16b
	tbl	v12.16b, { v12.16b }, v29.16b
	eor	v0.16b, v9.16b, v0.16b
	eor	v9.16b, v13.16b, v14.16b
	mov	v13.16b, v22.16b
	mov	v22.16b, v24.16b
	tbl	v5.16b, { v11.16b }, v5.16b
	tbl	v7.16b, { v10.16b }, v7.16b
	tbl	v10.16b, { v10.16b }, v31.16b
	tbl	v11.16b, { v11.16b }, v8.16b
	eor	v1.16b, v15.16b, v1.16b
	eor	v3.16b, v18.16b, v3.16b
	eor	v0.16b, v0.16b, v9.16b
	mov	v14.16b, v28.16b
	subs	x9, x9, #1
	mov	v15.16b, v30.16b
	eor	v5.16b, v5.16b, v6.16b
	eor	v2.16b, v7.16b, v2.16b
	ldr	q6, [x11, x13]
	eor	v7.16b, v16.16b, v25.16b
	eor	v16.16b, v19.16b, v20.16b
	eor	v4.16b, v10.16b, v4.16b
	eor	v18.16b, v11.16b, v12.16b
	tbl	v24.16b, { v6.16b }, v13.16b
	tbl	v19.16b, { v6.16b }, v22.16b
	eor	v1.16b, v1.16b, v5.16b
	tbl	v5.16b, { v6.16b }, v26.16b
	tbl	v20.16b, { v6.16b }, v28.16b
	tbl	v6.16b, { v6.16b }, v30.16b
	eor	v2.16b, v2.16b, v7.16b
	eor	v3.16b, v3.16b, v16.16b
	eor	v4.16b, v4.16b, v18.16b
	mov	v12.16b, v26.16b
	eor	v0.16b, v0.16b, v24.16b
	eor	v1.16b, v1.16b, v19.16b
	eor	v2.16b, v2.16b, v5.16b
	mov	v5.16b, v21.16b
	eor	v3.16b, v3.16b, v20.16b
	eor	v4.16b, v4.16b, v6.16b
	mov	v6.16b, v23.16b
	b.ne	.LBB9_18
	b	.LBB9_39
.LBB9_19:
	adrp	x10, .Lstatic.46
	add	x10, x10, :lo12:.Lstatic.46
	movi	v0.16b, #15
	add	x10, x10, x12
	ldrb	w9, [x1]
	adrp	x11, .Lstatic.44
	add	x11, x11, :lo12:.Lstatic.44
	ldp	q2, q1, [x10]
	lsl	x9, x9, #4
	adrp	x10, .Lstatic.45
	add	x10, x10, :lo12:.Lstatic.45
	and	v5.16b, v2.16b, v0.16b
	ushr	v6.16b, v2.16b, #4
	and	v7.16b, v1.16b, v0.16b
	ushr	v16.16b, v1.16b, #4
	ldr	q3, [x11, x9]
	ldr	q0, [x10, x9]
	tbl	v1.16b, { v3.16b }, v5.16b
	tbl	v4.16b, { v0.16b }, v6.16b
	tbl	v3.16b, { v3.16b }, v7.16b
	tbl	v17.16b, { v0.16b }, v16.16b
	eor	v0.16b, v4.16b, v1.16b
	eor	v1.16b, v17.16b, v3.16b
.LBB9_20:
	lsr	x9, x2, #1
	cbz	x9, .LBB9_35
	umov	w10, v2.b[0]
	adrp	x14, .Lstatic.46
	add	x14, x14, :lo12:.Lstatic.46
	adrp	x11, .Lstatic.45
	add	x11, x11, :lo12:.Lstatic.45
	add	x12, x14, x12
	ldur	q17, [x12, #1]
	ldur	q18, [x12, #17]
	movi	v20.16b, #15
	add	x8, x8, x1
	ubfiz	x13, x10, #4, #8
	adrp	x10, .Lstatic.44
	add	x10, x10, :lo12:.Lstatic.44
	add	x8, x8, #1
	ldr	q2, [x10, x13]
	ldr	q4, [x11, x13]
	tbl	v3.16b, { v2.16b }, v5.16b
	tbl	v2.16b, { v2.16b }, v7.16b
	tbl	v19.16b, { v4.16b }, v6.16b
	tbl	v4.16b, { v4.16b }, v16.16b
	eor	v3.16b, v17.16b, v3.16b
	eor	v2.16b, v18.16b, v2.16b
	eor	v3.16b, v3.16b, v19.16b
	eor	v2.16b, v2.16b, v4.16b
	and	v17.16b, v3.16b, v20.16b
	ushr	v18.16b, v3.16b, #4
	and	v19.16b, v2.16b, v20.16b
	ushr	v20.16b, v2.16b, #4
.LBB9_22:
	umov	w12, v0.b[0]
	umov	w13, v0.b[1]
	ldurb	w14, [x8, #-1]
	ldrb	w15, [x8], #2
	movi	v4.2d, #0000000000000000
	ext	v0.16b, v0.16b, v1.16b, #2
	subs	x9, x9, #1
	eor	w12, w14, w12
	eor	w13, w15, w13
	ubfiz	x12, x12, #4, #8
	ubfiz	x13, x13, #4, #8
	ext	v1.16b, v1.16b, v4.16b, #2
	ldr	q2, [x10, x12]
	ldr	q3, [x11, x12]
	ldr	q21, [x10, x13]
	ldr	q25, [x11, x13]
	tbl	v22.16b, { v2.16b }, v17.16b
	tbl	v23.16b, { v3.16b }, v18.16b
	tbl	v24.16b, { v21.16b }, v5.16b
	tbl	v2.16b, { v2.16b }, v19.16b
	tbl	v3.16b, { v3.16b }, v20.16b
	tbl	v21.16b, { v21.16b }, v7.16b
	eor	v0.16b, v22.16b, v0.16b
	eor	v22.16b, v23.16b, v24.16b
	tbl	v23.16b, { v25.16b }, v16.16b
	eor	v1.16b, v2.16b, v1.16b
	eor	v2.16b, v3.16b, v21.16b
	tbl	v21.16b, { v25.16b }, v6.16b
	movi	v3.2d, #0000000000000000
	eor	v0.16b, v0.16b, v22.16b
	eor	v1.16b, v1.16b, v2.16b
	movi	v2.2d, #0000000000000000
	eor	v0.16b, v0.16b, v21.16b
	eor	v1.16b, v1.16b, v23.16b
	b.ne	.LBB9_22
	b	.LBB9_39
.LBB9_23:
	ldrb	w14, [x1]
	lsl	x13, x11, #4
	movi	v0.16b, #15
	lsl	x11, x14, #4
	add	x14, x12, x13
	ldp	q4, q3, [x14]
	ldp	q18, q20, [x14, #32]
	ldr	q1, [x9, x11]
	ldr	q2, [x10, x11]
	and	v5.16b, v4.16b, v0.16b
	ushr	v11.16b, v4.16b, #4
	and	v6.16b, v3.16b, v0.16b
	ushr	v7.16b, v3.16b, #4
	and	v16.16b, v18.16b, v0.16b
	ushr	v17.16b, v18.16b, #4
	and	v18.16b, v20.16b, v0.16b
	ushr	v19.16b, v20.16b, #4
	tbl	v0.16b, { v1.16b }, v5.16b
	tbl	v3.16b, { v2.16b }, v11.16b
	tbl	v21.16b, { v1.16b }, v6.16b
	tbl	v22.16b, { v2.16b }, v7.16b
	tbl	v23.16b, { v1.16b }, v16.16b
	tbl	v24.16b, { v2.16b }, v17.16b
	tbl	v25.16b, { v1.16b }, v18.16b
	tbl	v26.16b, { v2.16b }, v19.16b
	eor	v0.16b, v3.16b, v0.16b
	eor	v1.16b, v22.16b, v21.16b
	eor	v2.16b, v24.16b, v23.16b
	eor	v3.16b, v26.16b, v25.16b
.LBB9_24:
	lsr	x11, x2, #1
	cbz	x11, .LBB9_36
	umov	w14, v4.b[0]
	add	x12, x12, x13
	add	x8, x8, x1
	ldur	q26, [x12, #1]
	ldur	q27, [x12, #33]
	ldur	q25, [x12, #49]
	ldur	q28, [x12, #17]
	add	x8, x8, #1
	ubfiz	x14, x14, #4, #8
	ldr	q4, [x9, x14]
	ldr	q22, [x10, x14]
	tbl	v21.16b, { v4.16b }, v5.16b
	tbl	v23.16b, { v4.16b }, v16.16b
	tbl	v24.16b, { v4.16b }, v6.16b
	tbl	v4.16b, { v4.16b }, v18.16b
	tbl	v29.16b, { v22.16b }, v11.16b
	tbl	v30.16b, { v22.16b }, v17.16b
	eor	v21.16b, v26.16b, v21.16b
	tbl	v26.16b, { v22.16b }, v7.16b
	eor	v23.16b, v27.16b, v23.16b
	tbl	v22.16b, { v22.16b }, v19.16b
	movi	v27.16b, #15
	eor	v24.16b, v28.16b, v24.16b
	eor	v4.16b, v25.16b, v4.16b
	eor	v25.16b, v21.16b, v29.16b
	eor	v28.16b, v23.16b, v30.16b
	eor	v24.16b, v24.16b, v26.16b
	eor	v4.16b, v4.16b, v22.16b
	and	v20.16b, v25.16b, v27.16b
	ushr	v22.16b, v25.16b, #4
	and	v25.16b, v28.16b, v27.16b
	and	v23.16b, v24.16b, v27.16b
	ushr	v24.16b, v24.16b, #4
	ushr	v26.16b, v28.16b, #4
	and	v27.16b, v4.16b, v27.16b
	ushr	v28.16b, v4.16b, #4
	str	q20, [sp, #112]
	mov	v20.16b, v18.16b
	mov	v18.16b, v16.16b
.LBB9_26:
	umov	w12, v0.b[0]
	umov	w13, v0.b[1]
	ldurb	w14, [x8, #-1]
	ldrb	w15, [x8], #2
	movi	v4.2d, #0000000000000000
	ldr	q16, [sp, #112]
	ext	v0.16b, v0.16b, v1.16b, #2
	ext	v1.16b, v1.16b, v2.16b, #2
	mov	v21.16b, v19.16b
	mov	v19.16b, v17.16b
	mov	v17.16b, v7.16b
	eor	w12, w14, w12
	eor	w13, w15, w13
	mov	v7.16b, v11.16b
	ubfiz	x12, x12, #4, #8
	ubfiz	x13, x13, #4, #8
	ext	v2.16b, v2.16b, v3.16b, #2
	ext	v3.16b, v3.16b, v4.16b, #2
	subs	x11, x11, #1
	ldr	q29, [x9, x12]
	ldr	q30, [x10, x12]
	ldr	q31, [x9, x13]
	tbl	v8.16b, { v29.16b }, v16.16b
	tbl	v9.16b, { v30.16b }, v22.16b
	tbl	v10.16b, { v31.16b }, v5.16b
	tbl	v11.16b, { v29.16b }, v23.16b
	tbl	v12.16b, { v30.16b }, v24.16b
	tbl	v13.16b, { v31.16b }, v6.16b
	tbl	v14.16b, { v29.16b }, v25.16b
	tbl	v15.16b, { v30.16b }, v26.16b
	mov	v16.16b, v6.16b
	mov	v6.16b, v5.16b
	tbl	v5.16b, { v31.16b }, v18.16b
	tbl	v29.16b, { v29.16b }, v27.16b
	tbl	v30.16b, { v30.16b }, v28.16b
	tbl	v31.16b, { v31.16b }, v20.16b
	eor	v0.16b, v8.16b, v0.16b
	eor	v8.16b, v9.16b, v10.16b
	eor	v1.16b, v11.16b, v1.16b
	mov	v11.16b, v7.16b
	mov	v7.16b, v17.16b
	mov	v17.16b, v19.16b
	eor	v9.16b, v12.16b, v13.16b
	eor	v2.16b, v14.16b, v2.16b
	ldr	q10, [x10, x13]
	eor	v5.16b, v15.16b, v5.16b
	eor	v3.16b, v29.16b, v3.16b
	eor	v29.16b, v30.16b, v31.16b
	eor	v0.16b, v0.16b, v8.16b
	tbl	v30.16b, { v10.16b }, v11.16b
	tbl	v31.16b, { v10.16b }, v7.16b
	tbl	v8.16b, { v10.16b }, v17.16b
	tbl	v10.16b, { v10.16b }, v21.16b
	eor	v1.16b, v1.16b, v9.16b
	eor	v2.16b, v2.16b, v5.16b
	eor	v3.16b, v3.16b, v29.16b
	mov	v19.16b, v21.16b
	mov	v5.16b, v6.16b
	mov	v6.16b, v16.16b
	eor	v0.16b, v0.16b, v30.16b
	eor	v1.16b, v1.16b, v31.16b
	eor	v2.16b, v2.16b, v8.16b
	eor	v3.16b, v3.16b, v10.16b
	b.ne	.LBB9_26
	b	.LBB9_39
.LBB9_27:
	ldrb	w10, [x1]
	lsl	x11, x9, #4
	movi	v0.16b, #15
	adrp	x9, .Lstatic.46
	add	x9, x9, :lo12:.Lstatic.46
	lsl	x10, x10, #4
	ldr	q1, [x9, x11]
	adrp	x9, .Lstatic.44
	add	x9, x9, :lo12:.Lstatic.44
	ldr	q2, [x9, x10]
	and	v5.16b, v1.16b, v0.16b
	ushr	v6.16b, v1.16b, #4
	adrp	x9, .Lstatic.45
	add	x9, x9, :lo12:.Lstatic.45
	ldr	q0, [x9, x10]
	tbl	v2.16b, { v2.16b }, v5.16b
	tbl	v0.16b, { v0.16b }, v6.16b
	eor	v0.16b, v0.16b, v2.16b
.LBB9_28:
	lsr	x9, x2, #1
	cbz	x9, .LBB9_37
	umov	w10, v1.b[0]
	adrp	x13, .Lstatic.46
	add	x13, x13, :lo12:.Lstatic.46
	add	x13, x13, x11
	adrp	x11, .Lstatic.45
	add	x11, x11, :lo12:.Lstatic.45
	ldur	q3, [x13, #1]
	add	x8, x8, x1
	add	x8, x8, #1
	ubfiz	x12, x10, #4, #8
	adrp	x10, .Lstatic.44
	add	x10, x10, :lo12:.Lstatic.44
	ldr	q1, [x10, x12]
	ldr	q2, [x11, x12]
	tbl	v1.16b, { v1.16b }, v5.16b
	tbl	v2.16b, { v2.16b }, v6.16b
	eor	v1.16b, v3.16b, v1.16b
	movi	v3.16b, #15
	eor	v1.16b, v1.16b, v2.16b
	and	v7.16b, v1.16b, v3.16b
	ushr	v16.16b, v1.16b, #4
.LBB9_30:
	umov	w12, v0.b[0]
	umov	w13, v0.b[1]
	ldurb	w14, [x8, #-1]
	ldrb	w15, [x8], #2
	movi	v4.2d, #0000000000000000
	subs	x9, x9, #1
	eor	w12, w14, w12
	eor	w13, w15, w13
	ubfiz	x12, x12, #4, #8
	ubfiz	x13, x13, #4, #8
	ext	v0.16b, v0.16b, v4.16b, #2
	ldr	q1, [x10, x12]
	ldr	q2, [x11, x12]
	ldr	q3, [x10, x13]
	ldr	q17, [x11, x13]
	tbl	v1.16b, { v1.16b }, v7.16b
	tbl	v2.16b, { v2.16b }, v16.16b
	tbl	v3.16b, { v3.16b }, v5.16b
	tbl	v17.16b, { v17.16b }, v6.16b
	eor	v0.16b, v1.16b, v0.16b
	eor	v1.16b, v2.16b, v3.16b
	movi	v3.2d, #0000000000000000
	movi	v2.2d, #0000000000000000
	eor	v0.16b, v0.16b, v1.16b
	movi	v1.2d, #0000000000000000
	eor	v0.16b, v0.16b, v17.16b
	b.ne	.LBB9_30
	b	.LBB9_39
.LBB9_31:
	lsl	x12, x9, #4
	adrp	x11, .Lstatic.46
	add	x11, x11, :lo12:.Lstatic.46
	movi	v0.16b, #15
	ldrb	w10, [x1]
	adrp	x13, .Lstatic.44
	add	x13, x13, :lo12:.Lstatic.44
	add	x11, x11, x12
	adrp	x9, .Lstatic.45
	add	x9, x9, :lo12:.Lstatic.45
	ldp	q3, q1, [x11]
	ldr	q18, [x11, #32]
	lsl	x10, x10, #4
	and	v5.16b, v3.16b, v0.16b
	ushr	v6.16b, v3.16b, #4
	and	v7.16b, v1.16b, v0.16b
	ushr	v16.16b, v1.16b, #4
	and	v17.16b, v18.16b, v0.16b
	ushr	v18.16b, v18.16b, #4
	ldr	q2, [x13, x10]
	ldr	q4, [x9, x10]
	tbl	v0.16b, { v2.16b }, v5.16b
	tbl	v1.16b, { v4.16b }, v6.16b
	tbl	v19.16b, { v2.16b }, v7.16b
	tbl	v20.16b, { v4.16b }, v16.16b
	tbl	v2.16b, { v2.16b }, v17.16b
	tbl	v4.16b, { v4.16b }, v18.16b
	eor	v0.16b, v1.16b, v0.16b
	eor	v1.16b, v20.16b, v19.16b
	eor	v2.16b, v4.16b, v2.16b
.LBB9_32:
	lsr	x9, x2, #1
	cbz	x9, .LBB9_38
	umov	w10, v3.b[0]
	adrp	x14, .Lstatic.46
	add	x14, x14, :lo12:.Lstatic.46
	adrp	x11, .Lstatic.45
	add	x11, x11, :lo12:.Lstatic.45
	add	x12, x14, x12
	ldur	q21, [x12, #17]
	ldur	q22, [x12, #1]
	ldur	q23, [x12, #33]
	add	x8, x8, x1
	ubfiz	x13, x10, #4, #8
	adrp	x10, .Lstatic.44
	add	x10, x10, :lo12:.Lstatic.44
	add	x8, x8, #1
	ldr	q3, [x10, x13]
	ldr	q20, [x11, x13]
	tbl	v4.16b, { v3.16b }, v7.16b
	tbl	v19.16b, { v3.16b }, v5.16b
	tbl	v3.16b, { v3.16b }, v17.16b
	tbl	v24.16b, { v20.16b }, v16.16b
	tbl	v25.16b, { v20.16b }, v6.16b
	tbl	v20.16b, { v20.16b }, v18.16b
	eor	v4.16b, v21.16b, v4.16b
	eor	v19.16b, v22.16b, v19.16b
	eor	v3.16b, v23.16b, v3.16b
	movi	v23.16b, #15
	eor	v4.16b, v4.16b, v24.16b
	eor	v21.16b, v19.16b, v25.16b
	eor	v3.16b, v3.16b, v20.16b
	and	v19.16b, v21.16b, v23.16b
	ushr	v20.16b, v21.16b, #4
	and	v21.16b, v4.16b, v23.16b
	ushr	v22.16b, v4.16b, #4
	and	v23.16b, v3.16b, v23.16b
	ushr	v24.16b, v3.16b, #4
.LBB9_34:
	umov	w12, v0.b[0]
	umov	w13, v0.b[1]
	ldurb	w14, [x8, #-1]
	ldrb	w15, [x8], #2
	movi	v4.2d, #0000000000000000
	ext	v0.16b, v0.16b, v1.16b, #2
	ext	v1.16b, v1.16b, v2.16b, #2
	subs	x9, x9, #1
	eor	w12, w14, w12
	eor	w13, w15, w13
	ubfiz	x12, x12, #4, #8
	ubfiz	x13, x13, #4, #8
	ext	v2.16b, v2.16b, v4.16b, #2
	ldr	q3, [x10, x12]
	ldr	q25, [x11, x12]
	ldr	q26, [x10, x13]
	tbl	v27.16b, { v3.16b }, v19.16b
	tbl	v28.16b, { v25.16b }, v20.16b
	tbl	v29.16b, { v26.16b }, v5.16b
	tbl	v30.16b, { v3.16b }, v21.16b
	tbl	v31.16b, { v25.16b }, v22.16b
	tbl	v8.16b, { v26.16b }, v7.16b
	tbl	v3.16b, { v3.16b }, v23.16b
	tbl	v25.16b, { v25.16b }, v24.16b
	tbl	v26.16b, { v26.16b }, v17.16b
	eor	v0.16b, v27.16b, v0.16b
	eor	v27.16b, v28.16b, v29.16b
	ldr	q28, [x11, x13]
	eor	v1.16b, v30.16b, v1.16b
	eor	v29.16b, v31.16b, v8.16b
	eor	v2.16b, v3.16b, v2.16b
	eor	v3.16b, v25.16b, v26.16b
	tbl	v25.16b, { v28.16b }, v6.16b
	tbl	v26.16b, { v28.16b }, v16.16b
	tbl	v28.16b, { v28.16b }, v18.16b
	eor	v0.16b, v0.16b, v27.16b
	eor	v1.16b, v1.16b, v29.16b
	eor	v2.16b, v2.16b, v3.16b
	movi	v3.2d, #0000000000000000
	eor	v0.16b, v0.16b, v25.16b
	eor	v1.16b, v1.16b, v26.16b
	eor	v2.16b, v2.16b, v28.16b
	b.ne	.LBB9_34
	b	.LBB9_39
.LBB9_35:
	movi	v4.2d, #0000000000000000
	movi	v3.2d, #0000000000000000
	movi	v2.2d, #0000000000000000
	b	.LBB9_39
.LBB9_36:
	movi	v4.2d, #0000000000000000
	b	.LBB9_39
.LBB9_37:
	movi	v4.2d, #0000000000000000
	movi	v3.2d, #0000000000000000
	movi	v2.2d, #0000000000000000
	movi	v1.2d, #0000000000000000
	b	.LBB9_39
.LBB9_38:
	movi	v4.2d, #0000000000000000
	movi	v3.2d, #0000000000000000
.LBB9_39:
	stp	q0, q1, [x0]
	movi	v0.2d, #0000000000000000
	ldp	d9, d8, [sp, #176]
	stp	q2, q3, [x0, #32]
	ldp	d11, d10, [sp, #160]
	ldp	d13, d12, [sp, #144]
	ldp	d15, d14, [sp, #128]
	stp	q4, q0, [x0, #64]
	add	sp, sp, #192
	.cfi_def_cfa_offset 0
	.cfi_restore b8
	.cfi_restore b9
	.cfi_restore b10
	.cfi_restore b11
	.cfi_restore b12
	.cfi_restore b13
	.cfi_restore b14
	.cfi_restore b15
	ret
.Lfunc_end9:
	.size	"dm_code::encoding::divide", .Lfunc_end9-"dm_code::encoding::divide"
	.cfi_endproc

	.section	.rodata.cst16,"aM",@progbits,16
	.p2align	4, 0x0
.LCPI10_0:
	.xword	14
	.xword	15
.LCPI10_1:
	.xword	12
	.xword	13
.LCPI10_2:
	.xword	10
	.xword	11
.LCPI10_3:
	.xword	8
	.xword	9
.LCPI10_4:
	.xword	6
	.xword	7
.LCPI10_5:
	.xword	4
	.xword	5
.LCPI10_6:
	.xword	2
	.xword	3
.LCPI10_7:
	.xword	0
	.xword	1
.LCPI10_8:
	.byte	0
	.byte	1
	.byte	0
	.byte	0
	.byte	0
	.byte	0
	.byte	0
	.byte	0
	.byte	0
	.byte	0
	.byte	0
	.byte	0
	.byte	0
	.byte	0
	.byte	0
	.byte	0
.LCPI10_9:
	.byte	1
	.byte	0
	.byte	0
	.byte	0
	.byte	0
	.byte	0
	.byte	0
	.byte	0
	.byte	0
	.byte	0
	.byte	0
	.byte	0
	.byte	0
	.byte	0
	.byte	0
	.byte	0
.LCPI10_10:
	.byte	15
	.byte	15
	.byte	0
	.byte	1
	.byte	2
	.byte	3
	.byte	4
	.byte	5
	.byte	6
	.byte	7
	.byte	8
	.byte	9
	.byte	10
	.byte	11
	.byte	12
	.byte	13
.LCPI10_11:
	.byte	15
	.byte	15
	.byte	15
	.byte	15
	.byte	0
	.byte	1
	.byte	2
	.byte	3
	.byte	4
	.byte	5
	.byte	6
	.byte	7
	.byte	8
	.byte	9
	.byte	10
	.byte	11
.LCPI10_12:
	.byte	15
	.byte	15
	.byte	15
	.byte	15
	.byte	15
	.byte	15
	.byte	15
	.byte	15
	.byte	0
	.byte	1
	.byte	2
	.byte	3
	.byte	4
	.byte	5
	.byte	6
	.byte	7
	.text
	.p2align	2
	.type	"dm_code::correction::mend::<#9f76af21849881bb>",@function
"dm_code::correction::mend::<#9f76af21849881bb>":
	.cfi_startproc
	stp	d15, d14, [sp, #-160]!
	.cfi_def_cfa_offset 160
	stp	d13, d12, [sp, #16]
	stp	d11, d10, [sp, #32]
	stp	d9, d8, [sp, #48]
	stp	x29, x30, [sp, #64]
	stp	x28, x27, [sp, #80]
	stp	x26, x25, [sp, #96]
	stp	x24, x23, [sp, #112]
	stp	x22, x21, [sp, #128]
	stp	x20, x19, [sp, #144]
	.cfi_offset w19, -8
	.cfi_offset w20, -16
	.cfi_offset w21, -24
	.cfi_offset w22, -32
	.cfi_offset w23, -40
	.cfi_offset w24, -48
	.cfi_offset w25, -56
	.cfi_offset w26, -64
	.cfi_offset w27, -72
	.cfi_offset w28, -80
	.cfi_offset w30, -88
	.cfi_offset w29, -96
	.cfi_offset b8, -104
	.cfi_offset b9, -112
	.cfi_offset b10, -120
	.cfi_offset b11, -128
	.cfi_offset b12, -136
	.cfi_offset b13, -144
	.cfi_offset b14, -152
	.cfi_offset b15, -160
	sub	sp, sp, #1456
	.cfi_def_cfa_offset 1616
	movi	v0.2d, #0000000000000000
	mov	x19, x2
	str	xzr, [sp]
	mov	x26, x1
	str	x0, [sp, #32]
	add	x0, sp, #240
	mov	x1, x3
	mov	x2, x4
	mov	x3, x19
	mov	x21, x5
	add	x22, sp, #864
	add	x20, sp, #672
	stp	q0, q0, [sp, #80]
	stp	q0, q0, [sp, #112]
	stp	q0, q0, [sp, #144]
	stp	q0, q0, [sp, #176]
	stp	q0, q0, [sp, #208]
	stp	q0, q0, [sp, #240]
	stp	q0, q0, [sp, #272]
	stp	q0, q0, [sp, #320]
	stp	q0, q0, [sp, #352]
	stp	q0, q0, [sp, #400]
	stp	q0, q0, [sp, #432]
	stp	q0, q0, [sp, #464]
	str	q0, [sp, #384]
	str	q0, [sp, #304]
	str	q0, [sp, #64]
	bl	"dm_code::syndrome::syndromes_of_short"
	ldp	q2, q0, [sp, #288]
	mov	w8, #1
	strb	w8, [sp, #864]
	add	x0, sp, #1248
	add	x1, sp, #496
	strb	w8, [sp, #968]
	stp	q2, q0, [sp, #544]
	ldp	q0, q1, [sp, #256]
	strb	w8, [sp, #1016]
	str	x8, [sp, #1024]
	lsr	x8, x19, #1
	stp	q0, q1, [sp, #512]
	movi	v0.2d, #0000000000000000
	ldr	q1, [sp, #240]
	stur	wzr, [x22, #153]
	str	q1, [sp, #496]
	str	wzr, [sp, #1020]
	stur	q0, [x20, #193]
	stur	q0, [x20, #209]
	stur	q0, [x20, #225]
	stur	q0, [x20, #241]
	ldr	x20, [sp, #568]
	stp	q0, q0, [sp, #576]
	mov	x2, x20
	stp	q0, q0, [sp, #608]
	stp	q0, q0, [sp, #640]
	stp	q0, q0, [sp, #672]
	stp	q0, q0, [sp, #704]
	stp	q0, q0, [sp, #736]
	stp	q0, q0, [sp, #768]
	stp	q0, q0, [sp, #816]
	str	q0, [sp, #848]
	str	q0, [sp, #800]
	stur	q0, [x22, #65]
	stur	q0, [x22, #81]
	str	xzr, [sp, #960]
	stur	q0, [x22, #105]
	stur	q0, [x22, #121]
	stur	q0, [x22, #136]
	str	q0, [sp, #1360]
	str	q0, [sp, #1344]
	str	q0, [sp, #1328]
	str	q0, [sp, #1312]
	str	q0, [sp, #1296]
	str	q0, [sp, #1280]
	str	x19, [sp, #40]
	str	x8, [sp, #56]
	str	q0, [sp, #1264]
	str	q0, [sp, #1248]
	bl	memcpy
	movi	v0.2d, #0000000000000000
	add	x0, sp, #1376
	add	x1, sp, #496
	mov	x2, x20
	str	q0, [sp, #1376]
	str	q0, [sp, #1392]
	str	q0, [sp, #1408]
	str	q0, [sp, #1424]
	str	q0, [sp, #1440]
	bl	memcpy
	ldr	q0, [sp, #1312]
	ldr	q1, [sp, #1328]
	mov	x13, x20
	ldr	q2, [sp, #1344]
	ldr	q3, [sp, #1360]
	adrp	x28, .Lstatic.44
	add	x28, x28, :lo12:.Lstatic.44
	str	q0, [sp, #1104]
	ldr	q0, [sp, #1248]
	str	q1, [sp, #1120]
	ldr	q1, [sp, #1264]
	adrp	x29, .Lstatic.45
	add	x29, x29, :lo12:.Lstatic.45
	str	q2, [sp, #1136]
	ldr	q2, [sp, #1280]
	str	q0, [sp, #1040]
	ldr	q0, [sp, #1296]
	str	q1, [sp, #1056]
	ldr	q1, [sp, #1392]
	str	q3, [sp, #1152]
	ldr	q3, [sp, #1440]
	str	q2, [sp, #1072]
	ldr	q2, [sp, #1376]
	str	q0, [sp, #1088]
	ldr	q0, [sp, #1408]
	str	q1, [sp, #1184]
	ldr	q1, [sp, #1424]
	str	q0, [sp, #1200]
	str	q1, [sp, #1216]
	str	q3, [sp, #1232]
	str	q2, [sp, #1168]
	cbz	x20, .LBB10_17
	tst	x13, #0xf
	mov	w8, #16
	mov	w9, #80
	csel	x8, xzr, x8, eq
	cmp	x13, #79
	stp	x21, x26, [sp, #16]
	add	x8, x8, x13
	mov	x25, xzr
	mov	x21, xzr
	lsr	x14, x8, #4
	sub	x8, x9, x13
	add	x26, sp, #1040
	csel	x8, xzr, x8, hi
	mov	w24, #1
	str	x8, [sp, #48]
	b	.LBB10_4
.LBB10_2:
	adrp	x8, .Lstatic.48
	add	x8, x8, :lo12:.Lstatic.48
	cmp	w27, #1
	ldrb	w8, [x8, x27]
	ldr	q0, [sp, #1248]
	ldr	q1, [sp, #1264]
	mov	x24, xzr
	mov	x25, x19
	str	x19, [sp, #960]
	eor	w8, w8, #0xff
	stur	q0, [x22, #104]
	ldr	q0, [sp, #1280]
	sub	w9, w8, #255
	stur	q1, [x22, #120]
	csel	w8, w9, w8, eq
	adrp	x9, .Lstatic.49
	add	x9, x9, :lo12:.Lstatic.49
	and	x8, x8, #0xffff
	stur	q0, [x22, #136]
	ldrb	w8, [x9, x8]
	strb	w8, [sp, #1016]
.LBB10_3:
	add	x24, x24, #1
	cmp	x21, x13
	str	x24, [sp, #1024]
	b.eq	.LBB10_14
.LBB10_4:
	add	x8, sp, #1040
	ldrb	w27, [x8, x21]
	add	x21, x21, #1
	cbz	w27, .LBB10_3
	sub	x8, x21, x25
	ldr	x9, [sp, #56]
	cmp	x8, x25
	csel	x19, x8, x25, hi
	cmp	x9, x19
	b.lo	.LBB10_109
	ldrb	w9, [sp, #1016]
	lsl	x10, x27, #4
	cmp	x8, x25
	lsr	x11, x9, #4
	and	x9, x9, #0xf
	add	x12, x28, x10
	add	x10, x29, x10
	ldrb	w23, [x12, x9]
	ldrb	w20, [x10, x11]
	b.ls	.LBB10_8
	add	x8, sp, #1248
	ldr	x2, [sp, #48]
	mov	w1, wzr
	add	x0, x8, x13
	mov	x25, x13
	mov	x22, x14
	bl	memset
	add	x0, sp, #1248
	add	x1, sp, #1040
	mov	x2, x25
	bl	memcpy
	ldr	q0, [sp, #1280]
	ldr	q1, [sp, #1296]
	mov	x14, x22
	ldr	q2, [sp, #1312]
	add	x22, sp, #864
	mov	x13, x25
	str	q0, [sp, #1408]
	ldr	q0, [sp, #1264]
	str	q1, [sp, #1424]
	ldr	q1, [sp, #1248]
	str	q2, [sp, #1440]
	b	.LBB10_9
.LBB10_8:
	ldp	q0, q1, [x26, #160]
	ldur	q2, [x26, #192]
	str	q2, [sp, #1440]
	str	q0, [sp, #1408]
	str	q1, [sp, #1424]
	ldp	q1, q0, [x26, #128]
.LBB10_9:
	eor	w8, w20, w23
	str	q0, [sp, #1392]
	ubfiz	x8, x8, #4, #8
	str	q1, [sp, #1376]
	ldr	q0, [x28, x8]
	ldr	q1, [x29, x8]
	cbz	x14, .LBB10_12
	add	x8, sp, #1040
	mov	x9, x14
.LBB10_11:
	ldr	q2, [x8, #128]
	movi	v3.16b, #15
	subs	x9, x9, #1
	ushr	v4.16b, v2.16b, #4
	and	v2.16b, v2.16b, v3.16b
	tbl	v3.16b, { v1.16b }, v4.16b
	ldr	q4, [x8, x24]
	tbl	v2.16b, { v0.16b }, v2.16b
	eor	v3.16b, v3.16b, v4.16b
	eor	v2.16b, v3.16b, v2.16b
	str	q2, [x8, x24]
	add	x8, x8, #16
	b.ne	.LBB10_11
.LBB10_12:
	ldur	q2, [x22, #104]
	movi	v3.16b, #15
	add	x8, sp, #864
	add	x8, x8, x24
	ldr	q7, [sp, #896]
	ushr	v4.16b, v2.16b, #4
	ldp	q5, q6, [x8]
	str	q7, [sp, #1280]
	and	v2.16b, v2.16b, v3.16b
	tbl	v4.16b, { v1.16b }, v4.16b
	tbl	v2.16b, { v0.16b }, v2.16b
	eor	v4.16b, v4.16b, v5.16b
	eor	v2.16b, v4.16b, v2.16b
	ldp	q4, q5, [sp, #864]
	str	q2, [x8]
	ldur	q2, [x22, #120]
	str	q4, [sp, #1248]
	str	q5, [sp, #1264]
	ushr	v16.16b, v2.16b, #4
	and	v2.16b, v2.16b, v3.16b
	tbl	v16.16b, { v1.16b }, v16.16b
	tbl	v2.16b, { v0.16b }, v2.16b
	eor	v6.16b, v16.16b, v6.16b
	eor	v2.16b, v6.16b, v2.16b
	str	q2, [x8, #16]
	ldur	q2, [x22, #136]
	ushr	v6.16b, v2.16b, #4
	and	v2.16b, v2.16b, v3.16b
	ldr	q3, [x8, #32]
	tbl	v1.16b, { v1.16b }, v6.16b
	tbl	v0.16b, { v0.16b }, v2.16b
	ldr	q2, [sp, #1408]
	eor	v1.16b, v1.16b, v3.16b
	ldr	q3, [sp, #1424]
	stp	q2, q3, [x26, #160]
	ldr	q2, [sp, #1376]
	eor	v0.16b, v1.16b, v0.16b
	ldr	q1, [sp, #1440]
	stur	q1, [x26, #192]
	ldr	q1, [sp, #1392]
	str	q0, [x8, #32]
	ldr	x25, [sp, #960]
	stp	q2, q1, [x26, #128]
	cmp	x25, x19
	b.lo	.LBB10_2
	ldr	x24, [sp, #1024]
	b	.LBB10_3
.LBB10_14:
	movi	v0.2d, #0000000000000000
	cmp	x25, #34
	mov	x19, x13
	str	xzr, [sp, #1280]
	str	q0, [sp, #1264]
	str	q0, [sp, #1248]
	b.ls	.LBB10_18
	ldp	x21, x26, [sp, #16]
	cmn	x25, #1
	stp	q0, q0, [sp, #832]
	str	q0, [sp, #816]
	str	q0, [sp, #1280]
	str	q0, [sp, #1264]
	str	q0, [sp, #1248]
	b.ne	.LBB10_21
	mov	x24, xzr
	b	.LBB10_20
.LBB10_17:
	movi	v0.2d, #0000000000000000
	mov	x19, x13
	mov	x25, xzr
	str	xzr, [sp, #1280]
	str	q0, [sp, #1264]
	str	q0, [sp, #1248]
	b	.LBB10_19
.LBB10_18:
	ldp	x21, x26, [sp, #16]
.LBB10_19:
	add	x0, sp, #1248
	add	x1, sp, #1040
	mov	x2, x25
	bl	memcpy
	movi	v2.2d, #0000000000000000
	str	x25, [sp, #1288]
	ldr	q0, [sp, #1248]
	ldr	q1, [sp, #1264]
	ldr	q3, [sp, #1280]
	add	x24, x25, #1
	str	xzr, [sp, #1280]
	stp	q0, q1, [sp, #816]
	str	q3, [sp, #848]
	str	q2, [sp, #1264]
	str	q2, [sp, #1248]
.LBB10_20:
	add	x0, sp, #1248
	add	x1, sp, #864
	mov	x2, x24
	bl	memcpy
	str	x24, [sp, #1288]
.LBB10_21:
	ldr	q0, [sp, #1248]
	ldr	q1, [sp, #1264]
	ldr	q2, [sp, #1280]
	ldp	q4, q3, [sp, #832]
	ldr	q5, [sp, #816]
	stp	q0, q1, [sp, #576]
	ldr	x2, [x21, #256]
	stp	q2, q5, [sp, #608]
	stp	q4, q3, [sp, #640]
	stp	q0, q1, [sp, #672]
	str	q2, [sp, #800]
	stp	q2, q5, [sp, #704]
	stp	q4, q3, [sp, #736]
	stp	q0, q1, [sp, #768]
	ldp	q1, q0, [sp, #576]
	stp	q1, q0, [sp, #144]
	ldp	q2, q0, [sp, #640]
	stp	q2, q0, [sp, #208]
	ldp	q1, q0, [sp, #608]
	stp	q1, q0, [sp, #176]
	ldp	q2, q0, [sp, #144]
	stp	q2, q0, [sp, #400]
	ldp	q1, q0, [sp, #208]
	stp	q1, q0, [sp, #464]
	ldp	q2, q0, [sp, #176]
	stp	q2, q0, [sp, #432]
	cbz	x2, .LBB10_23
	mov	x0, x21
	mov	w1, wzr
	bl	memset
	str	xzr, [x21, #256]
.LBB10_23:
	cmp	x26, #255
	adrp	x24, .Lstatic.49
	add	x24, x24, :lo12:.Lstatic.49
	b.ls	.LBB10_25
	mov	x26, xzr
	mov	x2, x19
	b	.LBB10_41
.LBB10_25:
	ldr	x1, [sp, #32]
	sub	x9, x21, x1
	cmp	x9, x26
	b.hs	.LBB10_30
	cmp	x26, #4
	mov	x8, xzr
	mov	x2, x19
	b.lo	.LBB10_38
	cmp	x9, #32
	b.lo	.LBB10_38
	cmp	x26, #16
	b.hs	.LBB10_31
	mov	x8, xzr
	b	.LBB10_35
.LBB10_30:
	mov	x0, x21
	mov	x2, x26
	bl	memmove
	mov	x2, x19
	b	.LBB10_40
.LBB10_31:
	and	x9, x26, #0xc
	and	x8, x26, #0xf0
	mov	x10, x21
	mov	x11, x1
	and	x12, x26, #0xf0
.LBB10_32:
	ldr	q0, [x11], #16
	subs	x12, x12, #16
	str	q0, [x10], #16
	b.ne	.LBB10_32
	cmp	x26, x8
	b.eq	.LBB10_40
	cbz	x9, .LBB10_38
.LBB10_35:
	mov	x11, x8
	and	x8, x26, #0xfc
	sub	x9, x11, x8
	add	x10, x1, x11
	add	x11, x21, x11
.LBB10_36:
	ldr	w12, [x10], #4
	adds	x9, x9, #4
	str	w12, [x11], #4
	b.ne	.LBB10_36
	cmp	x26, x8
	b.eq	.LBB10_40
.LBB10_38:
	sub	x9, x26, x8
	add	x10, x1, x8
	add	x8, x21, x8
.LBB10_39:
	ldrb	w11, [x10], #1
	subs	x9, x9, #1
	strb	w11, [x8], #1
	b.ne	.LBB10_39
.LBB10_40:
	str	x26, [x21, #256]
.LBB10_41:
	movi	v0.2d, #0000000000000000
	add	x0, sp, #1040
	add	x1, sp, #496
	str	q0, [sp, #1104]
	str	q0, [sp, #1088]
	str	q0, [sp, #1072]
	str	q0, [sp, #1056]
	str	q0, [sp, #1040]
	bl	memcpy
	ldr	q0, [sp, #1104]
	ldr	q1, [sp, #1088]
	ldr	q2, [sp, #1072]
	ldr	q3, [sp, #1040]
	ldr	q4, [sp, #1056]
	ldr	x9, [sp, #440]
	stp	q1, q0, [sp, #112]
	str	q3, [sp, #64]
	stp	q4, q2, [sp, #80]
	str	q0, [sp, #384]
	stp	q3, q4, [sp, #320]
	stp	q2, q1, [sp, #352]
	cbz	x9, .LBB10_44
	ldr	x30, [sp, #40]
	cmp	x9, #4
	b.hs	.LBB10_45
	mov	x8, xzr
	mov	x10, xzr
	b	.LBB10_54
.LBB10_44:
	movi	v0.2d, #0000000000000000
	ldr	x30, [sp, #40]
	mov	x8, xzr
	str	q0, [sp, #1040]
	str	q0, [sp, #1056]
	str	q0, [sp, #1072]
	b	.LBB10_57
.LBB10_45:
	cmp	x9, #16
	adrp	x12, .LCPI10_6
	adrp	x11, .LCPI10_7
	b.hs	.LBB10_47
	mov	x10, xzr
	mov	x8, xzr
	b	.LBB10_51
.LBB10_47:
	adrp	x8, .LCPI10_0
	adrp	x10, .LCPI10_1
	movi	v0.2d, #0000000000000000
	ldr	q1, [x8, :lo12:.LCPI10_0]
	adrp	x8, .LCPI10_3
	movi	v4.2d, #0000000000000000
	movi	v6.2d, #0000000000000000
	movi	v5.2d, #0000000000000000
	movi	v16.2d, #0000000000000000
	movi	v7.2d, #0000000000000000
	movi	v18.2d, #0000000000000000
	movi	v17.2d, #0000000000000000
	adrp	x14, .LCPI10_2
	ldr	q2, [x10, :lo12:.LCPI10_1]
	adrp	x10, .LCPI10_4
	ldr	q19, [x8, :lo12:.LCPI10_3]
	adrp	x8, .LCPI10_5
	ldr	q3, [x14, :lo12:.LCPI10_2]
	ldr	q20, [x10, :lo12:.LCPI10_4]
	ldr	q21, [x8, :lo12:.LCPI10_5]
	ldr	q22, [x12, :lo12:.LCPI10_6]
	ldr	q23, [x11, :lo12:.LCPI10_7]
	and	x13, x9, #0xc
	and	x10, x9, #0xfffffffffffffff0
	add	x8, sp, #400
	and	x14, x9, #0xfffffffffffffff0
.LBB10_48:
	ldr	q24, [x8], #16
	mov	w15, #1
	dup	v25.2d, x15
	mov	w15, #16
	subs	x14, x14, #16
	cmeq	v24.16b, v24.16b, #0
	add	v9.2d, v3.2d, v25.2d
	add	v27.2d, v1.2d, v25.2d
	add	v29.2d, v22.2d, v25.2d
	sshll2	v26.8h, v24.16b, #0
	sshll	v24.8h, v24.8b, #0
	add	v30.2d, v21.2d, v25.2d
	add	v31.2d, v19.2d, v25.2d
	add	v11.2d, v2.2d, v25.2d
	add	v12.2d, v20.2d, v25.2d
	add	v25.2d, v23.2d, v25.2d
	sshll	v28.4s, v26.4h, #0
	sshll2	v26.4s, v26.8h, #0
	sshll2	v8.4s, v24.8h, #0
	sshll	v24.4s, v24.4h, #0
	sshll2	v10.2d, v28.4s, #0
	sshll2	v13.2d, v26.4s, #0
	sshll	v28.2d, v28.2s, #0
	sshll	v26.2d, v26.2s, #0
	sshll2	v14.2d, v8.4s, #0
	sshll2	v15.2d, v24.4s, #0
	sshll	v8.2d, v8.2s, #0
	sshll	v24.2d, v24.2s, #0
	bif	v7.16b, v9.16b, v10.16b
	dup	v9.2d, x15
	bif	v16.16b, v31.16b, v28.16b
	bif	v5.16b, v12.16b, v14.16b
	bif	v18.16b, v11.16b, v26.16b
	bif	v0.16b, v29.16b, v15.16b
	bif	v6.16b, v30.16b, v8.16b
	bif	v17.16b, v27.16b, v13.16b
	bif	v4.16b, v25.16b, v24.16b
	add	v21.2d, v21.2d, v9.2d
	add	v22.2d, v22.2d, v9.2d
	add	v23.2d, v23.2d, v9.2d
	add	v20.2d, v20.2d, v9.2d
	add	v19.2d, v19.2d, v9.2d
	add	v3.2d, v3.2d, v9.2d
	add	v2.2d, v2.2d, v9.2d
	add	v1.2d, v1.2d, v9.2d
	b.ne	.LBB10_48
	cmhi	v3.2d, v0.2d, v7.2d
	cmhi	v19.2d, v5.2d, v17.2d
	cmp	x9, x10
	cmhi	v1.2d, v4.2d, v16.2d
	cmhi	v2.2d, v6.2d, v18.2d
	bif	v0.16b, v7.16b, v3.16b
	mov	v3.16b, v19.16b
	bsl	v1.16b, v4.16b, v16.16b
	bsl	v2.16b, v6.16b, v18.16b
	bsl	v3.16b, v5.16b, v17.16b
	cmhi	v4.2d, v1.2d, v2.2d
	cmhi	v5.2d, v0.2d, v3.2d
	bif	v1.16b, v2.16b, v4.16b
	bif	v0.16b, v3.16b, v5.16b
	cmhi	v2.2d, v1.2d, v0.2d
	bit	v0.16b, v1.16b, v2.16b
	ext	v1.16b, v0.16b, v0.16b, #8
	cmhi	d2, d0, d1
	bif	v0.8b, v1.8b, v2.8b
	fmov	x8, d0
	b.eq	.LBB10_55
	cbz	x13, .LBB10_54
.LBB10_51:
	dup	v2.2d, x10
	dup	v0.2d, x8
	ldr	q1, [x12, :lo12:.LCPI10_6]
	ldr	q3, [x11, :lo12:.LCPI10_7]
	mov	x13, x10
	and	x10, x9, #0xfffffffffffffffc
	add	x11, sp, #400
	sub	x8, x13, x10
	orr	v1.16b, v2.16b, v1.16b
	orr	v2.16b, v2.16b, v3.16b
	mov	v3.16b, v0.16b
	add	x11, x11, x13
.LBB10_52:
	ldr	s4, [x11], #4
	mov	w12, #1
	dup	v6.2d, x12
	mov	w12, #4
	adds	x8, x8, #4
	ushll	v4.8h, v4.8b, #0
	dup	v16.2d, x12
	add	v7.2d, v2.2d, v6.2d
	add	v6.2d, v1.2d, v6.2d
	cmeq	v4.4h, v4.4h, #0
	add	v1.2d, v1.2d, v16.2d
	add	v2.2d, v2.2d, v16.2d
	ushll	v4.4s, v4.4h, #0
	ushll	v5.2d, v4.2s, #0
	ushll2	v4.2d, v4.4s, #0
	shl	v5.2d, v5.2d, #56
	shl	v4.2d, v4.2d, #56
	sshr	v5.2d, v5.2d, #56
	sshr	v4.2d, v4.2d, #56
	bif	v0.16b, v6.16b, v4.16b
	bif	v3.16b, v7.16b, v5.16b
	b.ne	.LBB10_52
	cmhi	v1.2d, v3.2d, v0.2d
	cmp	x9, x10
	bit	v0.16b, v3.16b, v1.16b
	ext	v1.16b, v0.16b, v0.16b, #8
	cmhi	d2, d0, d1
	bif	v0.8b, v1.8b, v2.8b
	fmov	x8, d0
	b.eq	.LBB10_55
.LBB10_54:
	mov	x11, x10
	add	x10, sp, #400
	ldrb	w12, [x10, x11]
	add	x10, x11, #1
	cmp	w12, #0
	csinc	x8, x8, x11, eq
	cmp	x9, x10
	b.ne	.LBB10_54
.LBB10_55:
	movi	v0.2d, #0000000000000000
	ldr	x10, [sp, #488]
	cmp	x8, #0
	cset	w9, ne
	cmp	x8, #2
	str	q0, [sp, #1040]
	str	q0, [sp, #1056]
	str	q0, [sp, #1072]
	b.hs	.LBB10_90
	mov	x9, xzr
.LBB10_57:
	lsr	x10, x30, #4
	tst	x30, #0xf
	mov	w1, wzr
	cinc	x10, x10, ne
	cbz	x26, .LBB10_86
	adrp	x12, .Lstatic.47
	add	x12, x12, :lo12:.Lstatic.47
	add	x13, x26, #15
	add	x16, x12, x8, lsl #8
	add	x3, x12, x9, lsl #8
	add	x15, sp, #400
	lsr	x13, x13, #4
	lsr	x14, x8, #1
	lsr	x17, x9, #1
	add	x2, sp, #1040
	ldrb	w18, [sp, #1040]
	ldrb	w0, [sp, #400]
	mov	x11, xzr
	add	x15, x15, x8
	sub	x16, x16, #256
	add	x2, x2, x9
	sub	x3, x3, #256
	add	x4, x21, x26
	str	x18, [sp, #48]
.LBB10_59:
	lsl	x5, x11, #4
	add	x6, x12, x5
	sub	x7, x26, x5
	add	x6, x6, #256
.LBB10_60:
	cbz	x14, .LBB10_63
	movi	v1.2d, #0000000000000000
	movi	v0.2d, #0000000000000000
	mov	x5, xzr
	sub	x19, x15, #1
	mov	x20, x6
	mov	x21, x14
.LBB10_62:
	ldrb	w22, [x19], #-2
	ldur	q2, [x20, #-256]
	movi	v3.16b, #15
	eor	x23, x5, #0xfffffffffffffffe
	ldr	q6, [x20]
	lsl	x22, x22, #4
	ushr	v4.16b, v2.16b, #4
	ldrb	w23, [x15, x23]
	subs	x21, x21, #1
	add	x20, x20, #512
	add	x5, x5, #2
	ldr	q5, [x29, x22]
	lsl	x23, x23, #4
	and	v2.16b, v2.16b, v3.16b
	and	v3.16b, v6.16b, v3.16b
	tbl	v4.16b, { v5.16b }, v4.16b
	ushr	v5.16b, v6.16b, #4
	ldr	q6, [x28, x22]
	ldr	q7, [x28, x23]
	ldr	q16, [x29, x23]
	tbl	v2.16b, { v6.16b }, v2.16b
	tbl	v3.16b, { v7.16b }, v3.16b
	tbl	v5.16b, { v16.16b }, v5.16b
	eor	v1.16b, v1.16b, v4.16b
	eor	v3.16b, v5.16b, v3.16b
	eor	v1.16b, v2.16b, v1.16b
	eor	v1.16b, v1.16b, v3.16b
	eor	v0.16b, v3.16b, v0.16b
	b.ne	.LBB10_62
	b	.LBB10_64
.LBB10_63:
	movi	v0.2d, #0000000000000000
	movi	v1.2d, #0000000000000000
.LBB10_64:
	lsl	x5, x11, #4
	tbz	w8, #0, .LBB10_66
	movi	v2.16b, #15
	ldr	q3, [x16, x5]
	lsl	x19, x0, #4
	ldr	q4, [x28, x19]
	ldr	q5, [x29, x19]
	and	v2.16b, v3.16b, v2.16b
	ushr	v3.16b, v3.16b, #4
	tbl	v2.16b, { v4.16b }, v2.16b
	tbl	v3.16b, { v5.16b }, v3.16b
	eor	v2.16b, v2.16b, v3.16b
	eor	v1.16b, v2.16b, v1.16b
.LBB10_66:
	cmeq	v2.16b, v1.16b, #0
	umaxv	b2, v2.16b
	fmov	w19, s2
	tbnz	w19, #0, .LBB10_68
	add	x11, x11, #1
	sub	x7, x7, #16
	add	x6, x6, #16
	cmp	x11, x13
	b.lo	.LBB10_60
	b	.LBB10_86
.LBB10_68:
	cbz	x17, .LBB10_71
	movi	v2.2d, #0000000000000000
	mov	x19, xzr
	sub	x20, x2, #1
	mov	x21, x17
.LBB10_70:
	ldrb	w22, [x20], #-2
	ldur	q3, [x6, #-256]
	movi	v4.16b, #15
	eor	x23, x19, #0xfffffffffffffffe
	ldr	q7, [x6]
	lsl	x22, x22, #4
	ushr	v5.16b, v3.16b, #4
	ldrb	w23, [x2, x23]
	subs	x21, x21, #1
	add	x6, x6, #512
	add	x19, x19, #2
	ldr	q6, [x29, x22]
	lsl	x23, x23, #4
	and	v3.16b, v3.16b, v4.16b
	and	v4.16b, v7.16b, v4.16b
	tbl	v5.16b, { v6.16b }, v5.16b
	ushr	v6.16b, v7.16b, #4
	ldr	q7, [x28, x22]
	ldr	q16, [x28, x23]
	ldr	q17, [x29, x23]
	tbl	v3.16b, { v7.16b }, v3.16b
	tbl	v4.16b, { v16.16b }, v4.16b
	tbl	v6.16b, { v17.16b }, v6.16b
	eor	v2.16b, v2.16b, v5.16b
	eor	v3.16b, v3.16b, v4.16b
	eor	v2.16b, v2.16b, v6.16b
	eor	v2.16b, v3.16b, v2.16b
	b.ne	.LBB10_70
	b	.LBB10_72
.LBB10_71:
	movi	v2.2d, #0000000000000000
.LBB10_72:
	tbz	w9, #0, .LBB10_74
	movi	v3.16b, #15
	ldr	x18, [sp, #48]
	ldr	q4, [x3, x5]
	lsl	x6, x18, #4
	and	v3.16b, v4.16b, v3.16b
	ushr	v4.16b, v4.16b, #4
	ldr	q5, [x28, x6]
	ldr	q6, [x29, x6]
	tbl	v3.16b, { v5.16b }, v3.16b
	tbl	v4.16b, { v6.16b }, v4.16b
	eor	v3.16b, v3.16b, v4.16b
	eor	v2.16b, v3.16b, v2.16b
.LBB10_74:
	zip2	v3.16b, v2.16b, v0.16b
	mov	b4, v2.b[12]
	str	q1, [sp, #864]
	mov	b1, v2.b[13]
	str	q0, [sp, #1248]
	mov	b0, v2.b[14]
	str	d2, [sp, #672]
	mov	b2, v2.b[15]
	add	x18, sp, #672
	cmp	x26, x5
	xtn	v3.8b, v3.8h
	stur	b4, [x18, #12]
	stur	b1, [x18, #13]
	stur	b0, [x18, #14]
	stur	b2, [x18, #15]
	str	s3, [sp, #680]
	b.ne	.LBB10_76
.LBB10_75:
	add	x11, x11, #1
	cmp	x11, x13
	b.lo	.LBB10_59
	b	.LBB10_86
.LBB10_76:
	cmp	x7, #1
	mov	w19, #16
	mov	x6, xzr
	csinc	x7, x7, xzr, hi
	cmp	x7, #16
	csel	x7, x7, x19, lo
	b	.LBB10_79
.LBB10_77:
	cmp	x19, #0
	cinc	w1, w1, ne
.LBB10_78:
	add	x6, x6, #1
	cmp	x6, x7
	b.eq	.LBB10_75
.LBB10_79:
	add	x19, sp, #864
	ldrb	w19, [x19, x6]
	cbnz	w19, .LBB10_78
	add	x19, sp, #1248
	ldrb	w19, [x19, x6]
	cbz	w19, .LBB10_82
	adrp	x18, .Lstatic.48
	add	x18, x18, :lo12:.Lstatic.48
	cmp	w19, #1
	ldrb	w20, [x18, w19, uxtw]
	add	x19, sp, #672
	ldrb	w19, [x19, x6]
	eor	w20, w20, #0xff
	sub	w21, w20, #255
	lsl	x19, x19, #4
	csel	w20, w21, w20, eq
	and	x20, x20, #0xffff
	add	x22, x28, x19
	add	x19, x29, x19
	ldrb	w20, [x24, x20]
	lsr	x21, x20, #4
	and	x20, x20, #0xf
	ldrb	w20, [x22, x20]
	ldrb	w19, [x19, x21]
	eor	w19, w19, w20
	and	x19, x19, #0xff
	b	.LBB10_83
.LBB10_82:
	mov	x19, xzr
.LBB10_83:
	add	x20, x6, x5
	mov	w22, #32897
	and	w21, w20, #0xffff
	mvn	x23, x20
	mul	w21, w21, w22
	lsr	w21, w21, #23
	sub	w21, w21, w21, lsl #8
	add	w20, w20, w21
	ldrb	w21, [x4, x23]
	and	x20, x20, #0xffff
	ldrb	w22, [x24, x20]
	eor	w20, w21, w19
	strb	w20, [x4, x23]
	cbz	x30, .LBB10_77
	lsl	x23, x19, #4
	lsr	x20, x22, #4
	and	x21, x22, #0xf
	lsl	x25, x22, #4
	mov	x18, x26
	add	x24, x29, x23
	add	x23, x28, x23
	ldrb	w24, [x24, x20]
	ldrb	w23, [x23, x21]
	eor	w22, w23, w24
	adrp	x23, .LCPI10_8
	add	x24, x29, x25
	ubfiz	x22, x22, #4, #8
	add	x25, x28, x25
	ldr	q3, [x23, :lo12:.LCPI10_8]
	adrp	x23, .LCPI10_9
	ldr	q1, [x29, x22]
	ld1r	{ v0.16b }, [x24], x20
	ldr	h2, [x25]
	ldr	q4, [x23, :lo12:.LCPI10_9]
	ldrb	w23, [x24]
	ldrb	w24, [x25, x21]
	adrp	x25, .LCPI10_10
	tbl	v2.16b, { v2.16b }, v3.16b
	eor	v0.16b, v0.16b, v4.16b
	eor	w23, w24, w23
	and	x24, x23, #0xff
	ubfx	x26, x23, #4, #4
	and	x23, x23, #0xf
	lsl	x24, x24, #4
	eor	v2.16b, v2.16b, v0.16b
	ldr	q0, [x25, :lo12:.LCPI10_10]
	add	x25, x29, x24
	add	x24, x28, x24
	ldr	q5, [x24]
	ldr	q6, [x25]
	ldrb	w23, [x24, x23]
	tbl	v3.16b, { v2.16b }, v0.16b
	movi	v0.16b, #15
	adrp	x24, .LCPI10_11
	ldrb	w25, [x25, x26]
	adrp	x26, .LCPI10_12
	eor	w23, w23, w25
	and	v4.16b, v3.16b, v0.16b
	ushr	v3.16b, v3.16b, #4
	ubfx	x27, x23, #4, #4
	tbl	v4.16b, { v5.16b }, v4.16b
	tbl	v3.16b, { v6.16b }, v3.16b
	eor	v3.16b, v4.16b, v3.16b
	eor	v2.16b, v3.16b, v2.16b
	ldr	q3, [x24, :lo12:.LCPI10_11]
	and	x24, x23, #0xff
	lsl	x24, x24, #4
	and	x23, x23, #0xf
	tbl	v3.16b, { v2.16b }, v3.16b
	add	x25, x29, x24
	add	x24, x28, x24
	ldr	q5, [x24]
	ldr	q6, [x25]
	ldrb	w25, [x25, x27]
	ldrb	w23, [x24, x23]
	adrp	x24, .Lstatic.49
	add	x24, x24, :lo12:.Lstatic.49
	and	v4.16b, v3.16b, v0.16b
	ushr	v3.16b, v3.16b, #4
	eor	w23, w23, w25
	ubfiz	x23, x23, #4, #8
	tbl	v4.16b, { v5.16b }, v4.16b
	tbl	v3.16b, { v6.16b }, v3.16b
	ldr	q5, [x28, x23]
	ldr	q6, [x29, x23]
	eor	v3.16b, v4.16b, v3.16b
	eor	v2.16b, v3.16b, v2.16b
	ldr	q3, [x26, :lo12:.LCPI10_12]
	mov	x26, x18
	tbl	v3.16b, { v2.16b }, v3.16b
	and	v4.16b, v3.16b, v0.16b
	ushr	v3.16b, v3.16b, #4
	tbl	v4.16b, { v5.16b }, v4.16b
	tbl	v3.16b, { v6.16b }, v3.16b
	eor	v3.16b, v4.16b, v3.16b
	ldr	q4, [x28, x22]
	eor	v2.16b, v3.16b, v2.16b
	umov	w23, v2.b[15]
	ushr	v3.16b, v2.16b, #4
	and	v2.16b, v2.16b, v0.16b
	tbl	v1.16b, { v1.16b }, v3.16b
	tbl	v2.16b, { v4.16b }, v2.16b
	ubfiz	x23, x23, #4, #8
	add	x22, x29, x23
	add	x23, x28, x23
	ldrb	w20, [x22, x20]
	ldrb	w21, [x23, x21]
	eor	v2.16b, v2.16b, v1.16b
	eor	w20, w21, w20
	mov	x21, x10
	ubfiz	x20, x20, #4, #8
	ldr	q1, [x28, x20]
	ldr	q3, [x29, x20]
	add	x20, sp, #320
.LBB10_85:
	and	v4.16b, v2.16b, v0.16b
	ushr	v5.16b, v2.16b, #4
	ldr	q6, [x20]
	subs	x21, x21, #1
	eor	v6.16b, v6.16b, v2.16b
	tbl	v4.16b, { v1.16b }, v4.16b
	tbl	v5.16b, { v3.16b }, v5.16b
	str	q6, [x20], #16
	eor	v2.16b, v5.16b, v4.16b
	b.ne	.LBB10_85
	b	.LBB10_77
.LBB10_86:
	cbz	x30, .LBB10_89
	cmp	x30, #4
	b.hs	.LBB10_95
	mov	w9, wzr
	mov	x8, xzr
	b	.LBB10_104
.LBB10_89:
	ldr	x8, [sp, #56]
	cmp	x8, w1, uxtb
	b.hs	.LBB10_108
	b	.LBB10_109
.LBB10_90:
	add	x12, sp, #400
	mov	x11, xzr
	sub	x9, x8, x9
	add	x12, x12, #48
	b	.LBB10_93
.LBB10_91:
	ldrb	w13, [x12, x11]
.LBB10_92:
	add	x14, sp, #1040
	strb	w13, [x14, x11]
	add	x11, x11, #1
	cmp	x9, x11
	str	x11, [sp, #1080]
	b.eq	.LBB10_57
.LBB10_93:
	cmp	x11, x10
	b.lo	.LBB10_91
	mov	w13, wzr
	b	.LBB10_92
.LBB10_95:
	cmp	x30, #16
	b.hs	.LBB10_97
	mov	x8, xzr
	mov	w9, wzr
	b	.LBB10_101
.LBB10_97:
	movi	v0.2d, #0000000000000000
	and	x10, x30, #0xc
	and	x8, x30, #0xfffffffffffffff0
	add	x9, sp, #320
	and	x11, x30, #0xfffffffffffffff0
.LBB10_98:
	ldr	q1, [x9], #16
	subs	x11, x11, #16
	cmeq	v1.16b, v1.16b, #0
	orn	v0.16b, v0.16b, v1.16b
	b.ne	.LBB10_98
	shl	v0.16b, v0.16b, #7
	cmp	x30, x8
	cmlt	v0.16b, v0.16b, #0
	umaxv	b0, v0.16b
	fmov	w9, s0
	and	w9, w9, #0x1
	b.eq	.LBB10_106
	cbz	x10, .LBB10_104
.LBB10_101:
	movi	v0.2d, #0000000000000000
	mov	x10, x8
	and	x8, x30, #0xfffffffffffffffc
	add	x11, sp, #320
	mov	v0.h[0], w9
	sub	x9, x10, x8
	add	x10, x11, x10
.LBB10_102:
	ldr	s1, [x10], #4
	adds	x9, x9, #4
	ushll	v1.8h, v1.8b, #0
	cmeq	v1.4h, v1.4h, #0
	orn	v0.8b, v0.8b, v1.8b
	b.ne	.LBB10_102
	shl	v0.4h, v0.4h, #15
	cmp	x30, x8
	cmlt	v0.4h, v0.4h, #0
	umaxv	h0, v0.4h
	fmov	w9, s0
	and	w9, w9, #0x1
	b.eq	.LBB10_106
.LBB10_104:
	add	x11, sp, #320
	sub	x10, x30, x8
	add	x8, x11, x8
.LBB10_105:
	ldrb	w11, [x8], #1
	cmp	w11, #0
	cset	w11, ne
	subs	x10, x10, #1
	orr	w9, w9, w11
	b.ne	.LBB10_105
.LBB10_106:
	tbnz	w9, #0, .LBB10_109
	ldr	x9, [sp, #56]
	and	x8, x1, #0xff
	cmp	x9, x8
	b.lo	.LBB10_109
.LBB10_108:
	mov	w0, wzr
	b	.LBB10_110
.LBB10_109:
	mov	w1, wzr
	mov	w0, #1
.LBB10_110:
	add	sp, sp, #1456
	.cfi_def_cfa_offset 160
	ldp	x20, x19, [sp, #144]
	ldp	x22, x21, [sp, #128]
	ldp	x24, x23, [sp, #112]
	ldp	x26, x25, [sp, #96]
	ldp	x28, x27, [sp, #80]
	ldp	x29, x30, [sp, #64]
	ldp	d9, d8, [sp, #48]
	ldp	d11, d10, [sp, #32]
	ldp	d13, d12, [sp, #16]
	ldp	d15, d14, [sp], #160
	.cfi_def_cfa_offset 0
	.cfi_restore w19
	.cfi_restore w20
	.cfi_restore w21
	.cfi_restore w22
	.cfi_restore w23
	.cfi_restore w24
	.cfi_restore w25
	.cfi_restore w26
	.cfi_restore w27
	.cfi_restore w28
	.cfi_restore w30
	.cfi_restore w29
	.cfi_restore b8
	.cfi_restore b9
	.cfi_restore b10
	.cfi_restore b11
	.cfi_restore b12
	.cfi_restore b13
	.cfi_restore b14
	.cfi_restore b15
	ret
.Lfunc_end10:
	.size	"dm_code::correction::mend::<#9f76af21849881bb>", .Lfunc_end10-"dm_code::correction::mend::<#9f76af21849881bb>"
	.cfi_endproc

	.p2align	2
	.type	"dm_code::syndrome::syndromes_of_short",@function
"dm_code::syndrome::syndromes_of_short":
	.cfi_startproc
	sub	sp, sp, #192
	.cfi_def_cfa_offset 192
	str	x30, [sp, #112]
	stp	x26, x25, [sp, #128]
	stp	x24, x23, [sp, #144]
	stp	x22, x21, [sp, #160]
	stp	x20, x19, [sp, #176]
	.cfi_offset w19, -8
	.cfi_offset w20, -16
	.cfi_offset w21, -24
	.cfi_offset w22, -32
	.cfi_offset w23, -40
	.cfi_offset w24, -48
	.cfi_offset w25, -56
	.cfi_offset w26, -64
	.cfi_offset w30, -80
	movi	v0.2d, #0000000000000000
	lsr	x8, x3, #4
	tst	x3, #0xf
	mov	x19, x0
	stp	xzr, xzr, [sp]
	cinc	x24, x8, ne
	stp	q0, q0, [sp, #32]
	stp	q0, q0, [sp, #64]
	str	q0, [sp, #96]
	cbz	x3, .LBB11_5
	ldr	x25, [sp, #104]
	mov	x20, x2
	mov	x21, x1
	mov	w22, #1
	b	.LBB11_3
.LBB11_2:
	subs	x24, x24, #1
	add	x22, x22, #16
	mov	x3, x26
	b.eq	.LBB11_5
.LBB11_3:
	subs	x26, x3, #16
	mov	w8, #16
	mov	x0, sp
	csel	x23, x3, x8, lo
	mov	x1, x21
	mov	x2, x20
	mov	x3, x22
	bl	"dm_code::syndrome::values_from_root"
	mov	w8, #68
	ldr	q0, [sp]
	sub	x8, x8, x25
	cmp	x8, x23
	str	q0, [sp, #16]
	b.lo	.LBB11_2
	add	x8, sp, #32
	add	x1, sp, #16
	mov	x2, x23
	add	x0, x8, x25
	add	x8, sp, #16
	sub	x8, x0, x8
	cmp	x8, x23
	bl	memcpy
	add	x25, x25, x23
	str	x25, [sp, #104]
	b	.LBB11_2
.LBB11_5:
	ldp	q0, q1, [sp, #64]
	ldr	q2, [sp, #96]
	ldp	x22, x21, [sp, #160]
	ldr	x30, [sp, #112]
	str	q2, [x19, #64]
	ldp	x24, x23, [sp, #144]
	stp	q0, q1, [x19, #32]
	ldp	q1, q0, [sp, #32]
	ldp	x26, x25, [sp, #128]
	stp	q1, q0, [x19]
	ldp	x20, x19, [sp, #176]
	add	sp, sp, #192
	.cfi_def_cfa_offset 0
	.cfi_restore w19
	.cfi_restore w20
	.cfi_restore w21
	.cfi_restore w22
	.cfi_restore w23
	.cfi_restore w24
	.cfi_restore w25
	.cfi_restore w26
	.cfi_restore w30
	ret
.Lfunc_end11:
	.size	"dm_code::syndrome::syndromes_of_short", .Lfunc_end11-"dm_code::syndrome::syndromes_of_short"
	.cfi_endproc

	.p2align	2
	.type	"dm_code::syndrome::values_from_root",@function
"dm_code::syndrome::values_from_root":
	.cfi_startproc
	ubfx	x14, x2, #1, #4
	adrp	x13, .Lstatic.47
	add	x13, x13, :lo12:.Lstatic.47
	adrp	x8, .Lstatic.44
	add	x8, x8, :lo12:.Lstatic.44
	and	x12, x2, #0x1f
	adrp	x9, .Lstatic.45
	add	x9, x9, :lo12:.Lstatic.45
	cbz	x14, .LBB12_3
	movi	v0.2d, #0000000000000000
	add	x11, x1, x12
	lsl	x14, x14, #1
	add	x15, x3, x13
	mov	x10, xzr
	sub	x16, x11, #1
	add	x15, x15, #256
.LBB12_2:
	ldrb	w17, [x16], #-2
	ldur	q1, [x15, #-256]
	movi	v2.16b, #15
	eor	x18, x10, #0xfffffffffffffffe
	ldr	q5, [x15]
	lsl	x17, x17, #4
	ushr	v3.16b, v1.16b, #4
	ldrb	w18, [x11, x18]
	add	x10, x10, #2
	add	x15, x15, #512
	ldr	q4, [x9, x17]
	lsl	x18, x18, #4
	cmp	x14, x10
	and	v1.16b, v1.16b, v2.16b
	and	v2.16b, v5.16b, v2.16b
	tbl	v3.16b, { v4.16b }, v3.16b
	ushr	v4.16b, v5.16b, #4
	ldr	q5, [x8, x17]
	ldr	q6, [x8, x18]
	ldr	q7, [x9, x18]
	tbl	v1.16b, { v5.16b }, v1.16b
	tbl	v2.16b, { v6.16b }, v2.16b
	tbl	v4.16b, { v7.16b }, v4.16b
	eor	v0.16b, v0.16b, v3.16b
	eor	v1.16b, v1.16b, v2.16b
	eor	v0.16b, v0.16b, v4.16b
	eor	v0.16b, v1.16b, v0.16b
	b.ne	.LBB12_2
	b	.LBB12_4
.LBB12_3:
	movi	v0.2d, #0000000000000000
.LBB12_4:
	tbz	w2, #0, .LBB12_6
	add	x10, x13, x12, lsl #8
	movi	v1.16b, #15
	ldrb	w11, [x1]
	add	x10, x10, x3
	ldur	q2, [x10, #-256]
	lsl	x10, x11, #4
	and	v1.16b, v2.16b, v1.16b
	ushr	v2.16b, v2.16b, #4
	ldr	q3, [x8, x10]
	ldr	q4, [x9, x10]
	tbl	v1.16b, { v3.16b }, v1.16b
	tbl	v2.16b, { v4.16b }, v2.16b
	eor	v1.16b, v1.16b, v2.16b
	eor	v0.16b, v1.16b, v0.16b
.LBB12_6:
	lsr	x10, x2, #5
	cbz	x10, .LBB12_11
	movi	v2.16b, #1
	movi	v3.16b, #2
	add	x14, x13, x3
	movi	v4.16b, #4
	movi	v5.16b, #8
	ldr	q1, [x14, #8192]
	movi	v6.16b, #16
	movi	v7.16b, #32
	add	x12, x1, x12
	movi	v16.16b, #64
	add	x13, x3, x13
	mov	x11, xzr
	and	v2.16b, v1.16b, v2.16b
	and	v3.16b, v1.16b, v3.16b
	add	x13, x13, #256
	and	v4.16b, v1.16b, v4.16b
	and	v5.16b, v1.16b, v5.16b
	add	x14, x12, #31
	and	v6.16b, v1.16b, v6.16b
	and	v7.16b, v1.16b, v7.16b
	and	v16.16b, v1.16b, v16.16b
.LBB12_8:
	movi	v17.2d, #0000000000000000
	add	x16, x12, x11, lsl #5
	mov	x15, xzr
	mov	x17, x14
	mov	x18, x13
	add	x16, x16, #32
.LBB12_9:
	ldrb	w1, [x17], #-2
	ldur	q18, [x18, #-256]
	movi	v19.16b, #15
	eor	x2, x15, #0xfffffffffffffffe
	ldr	q22, [x18]
	lsl	x1, x1, #4
	ushr	v20.16b, v18.16b, #4
	ldrb	w2, [x16, x2]
	add	x15, x15, #2
	add	x18, x18, #512
	ldr	q21, [x9, x1]
	lsl	x2, x2, #4
	cmp	x15, #32
	and	v18.16b, v18.16b, v19.16b
	and	v19.16b, v22.16b, v19.16b
	tbl	v20.16b, { v21.16b }, v20.16b
	ushr	v21.16b, v22.16b, #4
	ldr	q22, [x8, x1]
	ldr	q23, [x8, x2]
	ldr	q24, [x9, x2]
	tbl	v18.16b, { v22.16b }, v18.16b
	tbl	v19.16b, { v23.16b }, v19.16b
	tbl	v21.16b, { v24.16b }, v21.16b
	eor	v17.16b, v17.16b, v20.16b
	eor	v18.16b, v18.16b, v19.16b
	eor	v17.16b, v17.16b, v21.16b
	eor	v17.16b, v18.16b, v17.16b
	b.ne	.LBB12_9
	movi	v18.16b, #45
	cmlt	v19.16b, v0.16b, #0
	add	x11, x11, #1
	add	v20.16b, v0.16b, v0.16b
	cmeq	v23.16b, v2.16b, #0
	cmp	x11, x10
	cmeq	v24.16b, v3.16b, #0
	add	x14, x14, #32
	and	v19.16b, v19.16b, v18.16b
	bic	v0.16b, v0.16b, v23.16b
	cmeq	v23.16b, v4.16b, #0
	eor	v19.16b, v19.16b, v20.16b
	cmlt	v20.16b, v20.16b, #0
	add	v21.16b, v19.16b, v19.16b
	and	v20.16b, v20.16b, v18.16b
	bic	v19.16b, v19.16b, v24.16b
	eor	v20.16b, v21.16b, v20.16b
	cmlt	v21.16b, v21.16b, #0
	eor	v0.16b, v19.16b, v0.16b
	add	v22.16b, v20.16b, v20.16b
	and	v21.16b, v21.16b, v18.16b
	bic	v19.16b, v20.16b, v23.16b
	cmeq	v20.16b, v5.16b, #0
	eor	v21.16b, v21.16b, v22.16b
	cmlt	v22.16b, v22.16b, #0
	eor	v0.16b, v0.16b, v19.16b
	add	v25.16b, v21.16b, v21.16b
	and	v22.16b, v22.16b, v18.16b
	bic	v19.16b, v21.16b, v20.16b
	cmeq	v20.16b, v6.16b, #0
	eor	v22.16b, v22.16b, v25.16b
	cmlt	v24.16b, v25.16b, #0
	eor	v0.16b, v0.16b, v19.16b
	add	v23.16b, v22.16b, v22.16b
	and	v24.16b, v24.16b, v18.16b
	bic	v19.16b, v22.16b, v20.16b
	cmeq	v20.16b, v7.16b, #0
	eor	v21.16b, v24.16b, v23.16b
	cmlt	v23.16b, v23.16b, #0
	eor	v0.16b, v0.16b, v19.16b
	add	v22.16b, v21.16b, v21.16b
	and	v23.16b, v23.16b, v18.16b
	bic	v19.16b, v21.16b, v20.16b
	cmeq	v21.16b, v16.16b, #0
	eor	v20.16b, v23.16b, v22.16b
	cmlt	v22.16b, v22.16b, #0
	eor	v0.16b, v0.16b, v19.16b
	bic	v19.16b, v20.16b, v21.16b
	add	v20.16b, v20.16b, v20.16b
	and	v18.16b, v22.16b, v18.16b
	eor	v0.16b, v0.16b, v19.16b
	eor	v18.16b, v18.16b, v20.16b
	cmlt	v19.16b, v1.16b, #0
	and	v18.16b, v19.16b, v18.16b
	eor	v0.16b, v0.16b, v17.16b
	eor	v0.16b, v0.16b, v18.16b
	b.ne	.LBB12_8
.LBB12_11:
	str	q0, [x0]
	ret
.Lfunc_end12:
	.size	"dm_code::syndrome::values_from_root", .Lfunc_end12-"dm_code::syndrome::values_from_root"
	.cfi_endproc

	.p2align	2
	.type	"dm_code::weighing::at_places",@function
"dm_code::weighing::at_places":
	.cfi_startproc
	str	x29, [sp, #-48]!
	.cfi_def_cfa_offset 48
	stp	x30, x21, [sp, #16]
	stp	x20, x19, [sp, #32]
	.cfi_offset w19, -8
	.cfi_offset w20, -16
	.cfi_offset w21, -24
	.cfi_offset w30, -32
	.cfi_offset w29, -48
	sub	sp, sp, #1056
	.cfi_def_cfa_offset 1104
	movi	v0.2d, #0000000000000000
	lsr	x8, x3, #4
	tst	x3, #0xf
	str	xzr, [sp]
	cinc	x19, x8, ne
	stp	q0, q0, [sp, #32]
	stp	q0, q0, [sp, #64]
	stp	q0, q0, [sp, #96]
	stp	q0, q0, [sp, #128]
	stp	q0, q0, [sp, #160]
	stp	q0, q0, [sp, #192]
	stp	q0, q0, [sp, #224]
	stp	q0, q0, [sp, #256]
	stp	q0, q0, [sp, #288]
	stp	q0, q0, [sp, #320]
	stp	q0, q0, [sp, #352]
	stp	q0, q0, [sp, #384]
	stp	q0, q0, [sp, #416]
	stp	q0, q0, [sp, #448]
	stp	q0, q0, [sp, #480]
	stp	q0, q0, [sp, #512]
	cbz	x3, .LBB13_26
	cmp	x2, #35
	adrp	x9, .Lstatic.47
	add	x9, x9, :lo12:.Lstatic.47
	add	x8, x1, x2
	b.hs	.LBB13_8
	add	x9, x9, x2, lsl #8
	lsr	x10, x2, #1
	sub	x20, x9, #256
	cbz	x10, .LBB13_18
	mov	x9, xzr
	tbnz	w2, #0, .LBB13_20
	add	x11, x2, x1
	adrp	x12, .Lstatic.47+256
	add	x12, x12, :lo12:.Lstatic.47+256
	sub	x11, x11, #1
.LBB13_5:
	movi	v0.2d, #0000000000000000
	movi	v1.2d, #0000000000000000
	mov	x13, xzr
	mov	x14, x11
	mov	x15, x12
	mov	x16, x10
.LBB13_6:
	ldrb	w17, [x14], #-2
	ldur	q2, [x15, #-256]
	movi	v3.16b, #15
	eor	x2, x13, #0xfffffffffffffffe
	adrp	x1, .Lstatic.45
	add	x1, x1, :lo12:.Lstatic.45
	lsl	x17, x17, #4
	ushr	v4.16b, v2.16b, #4
	ldrb	w2, [x8, x2]
	ldr	q6, [x15]
	adrp	x18, .Lstatic.44
	add	x18, x18, :lo12:.Lstatic.44
	ldr	q5, [x1, x17]
	subs	x16, x16, #1
	lsl	x2, x2, #4
	and	v2.16b, v2.16b, v3.16b
	and	v3.16b, v6.16b, v3.16b
	tbl	v4.16b, { v5.16b }, v4.16b
	ushr	v5.16b, v6.16b, #4
	ldr	q6, [x18, x17]
	ldr	q7, [x18, x2]
	ldr	q16, [x1, x2]
	add	x15, x15, #512
	tbl	v2.16b, { v6.16b }, v2.16b
	add	x13, x13, #2
	tbl	v3.16b, { v7.16b }, v3.16b
	tbl	v5.16b, { v16.16b }, v5.16b
	eor	v0.16b, v0.16b, v4.16b
	eor	v3.16b, v5.16b, v3.16b
	eor	v0.16b, v2.16b, v0.16b
	eor	v0.16b, v0.16b, v3.16b
	eor	v1.16b, v3.16b, v1.16b
	b.ne	.LBB13_6
	lsl	x13, x9, #4
	add	x9, x9, #1
	add	x14, sp, #288
	add	x15, sp, #32
	cmp	x9, x19
	add	x12, x12, #16
	str	q0, [x14, x13]
	str	q1, [x15, x13]
	b.ne	.LBB13_5
	b	.LBB13_26
.LBB13_8:
	sub	x12, x2, #34
	add	x15, x2, x1
	mov	x10, xzr
	add	x14, x9, x12, lsl #8
	add	x11, x1, x12
	lsr	x12, x12, #1
	sub	x13, x15, #35
	sub	x15, x15, #1
	adrp	x16, .Lstatic.47+256
	add	x16, x16, :lo12:.Lstatic.47+256
	sub	x14, x14, #256
.LBB13_9:
	adrp	x17, .Lstatic.44
	add	x17, x17, :lo12:.Lstatic.44
	adrp	x18, .Lstatic.45
	add	x18, x18, :lo12:.Lstatic.45
	cbz	x12, .LBB13_12
	movi	v1.2d, #0000000000000000
	movi	v0.2d, #0000000000000000
	mov	x3, xzr
	mov	x4, x13
	mov	x5, x16
	mov	x6, x12
.LBB13_11:
	ldrb	w7, [x4], #-2
	ldur	q2, [x5, #-256]
	movi	v3.16b, #15
	eor	x20, x3, #0xfffffffffffffffe
	ldr	q6, [x5]
	lsl	x7, x7, #4
	ushr	v4.16b, v2.16b, #4
	ldrb	w20, [x11, x20]
	subs	x6, x6, #1
	add	x5, x5, #512
	add	x3, x3, #2
	ldr	q5, [x18, x7]
	lsl	x20, x20, #4
	and	v2.16b, v2.16b, v3.16b
	and	v3.16b, v6.16b, v3.16b
	tbl	v4.16b, { v5.16b }, v4.16b
	ushr	v5.16b, v6.16b, #4
	ldr	q6, [x17, x7]
	ldr	q7, [x17, x20]
	ldr	q16, [x18, x20]
	tbl	v2.16b, { v6.16b }, v2.16b
	tbl	v3.16b, { v7.16b }, v3.16b
	tbl	v5.16b, { v16.16b }, v5.16b
	eor	v1.16b, v1.16b, v4.16b
	eor	v3.16b, v5.16b, v3.16b
	eor	v1.16b, v2.16b, v1.16b
	eor	v1.16b, v1.16b, v3.16b
	eor	v0.16b, v3.16b, v0.16b
	b.ne	.LBB13_11
	b	.LBB13_13
.LBB13_12:
	movi	v0.2d, #0000000000000000
	movi	v1.2d, #0000000000000000
.LBB13_13:
	tbz	w2, #0, .LBB13_15
	ldrb	w3, [x1]
	ldr	q2, [x14, x10, lsl #4]
	movi	v3.16b, #15
	lsl	x3, x3, #4
	ushr	v4.16b, v2.16b, #4
	ldr	q5, [x18, x3]
	and	v2.16b, v2.16b, v3.16b
	tbl	v3.16b, { v5.16b }, v4.16b
	ldr	q4, [x17, x3]
	tbl	v2.16b, { v4.16b }, v2.16b
	eor	v1.16b, v3.16b, v1.16b
	eor	v1.16b, v2.16b, v1.16b
.LBB13_15:
	movi	v2.2d, #0000000000000000
	movi	v3.2d, #0000000000000000
	mov	x3, xzr
	mov	x4, x15
	mov	x5, x16
.LBB13_16:
	ldrb	w6, [x4], #-2
	ldur	q4, [x5, #-256]
	movi	v5.16b, #15
	eor	x7, x3, #0xfffffffffffffffe
	ldr	q16, [x5]
	lsl	x6, x6, #4
	ushr	v6.16b, v4.16b, #4
	ldrb	w7, [x8, x7]
	add	x3, x3, #2
	add	x5, x5, #512
	ldr	q7, [x18, x6]
	lsl	x7, x7, #4
	cmp	x3, #34
	and	v4.16b, v4.16b, v5.16b
	and	v5.16b, v16.16b, v5.16b
	tbl	v6.16b, { v7.16b }, v6.16b
	ushr	v7.16b, v16.16b, #4
	ldr	q16, [x17, x6]
	ldr	q17, [x17, x7]
	ldr	q18, [x18, x7]
	tbl	v4.16b, { v16.16b }, v4.16b
	tbl	v5.16b, { v17.16b }, v5.16b
	tbl	v7.16b, { v18.16b }, v7.16b
	eor	v2.16b, v2.16b, v6.16b
	eor	v5.16b, v7.16b, v5.16b
	eor	v2.16b, v4.16b, v2.16b
	eor	v2.16b, v2.16b, v5.16b
	eor	v3.16b, v5.16b, v3.16b
	b.ne	.LBB13_16
	movi	v4.16b, #45
	cmlt	v5.16b, v1.16b, #0
	lsl	x17, x10, #4
	cmlt	v6.16b, v0.16b, #0
	add	v7.16b, v1.16b, v1.16b
	add	x10, x10, #1
	add	v16.16b, v0.16b, v0.16b
	movi	v20.16b, #1
	add	x18, x9, x17
	movi	v21.16b, #2
	movi	v22.16b, #4
	cmp	x10, x19
	and	v5.16b, v5.16b, v4.16b
	and	v6.16b, v6.16b, v4.16b
	add	x16, x16, #16
	cmlt	v17.16b, v7.16b, #0
	movi	v23.16b, #8
	movi	v25.16b, #16
	movi	v28.16b, #32
	eor	v7.16b, v5.16b, v7.16b
	cmlt	v5.16b, v16.16b, #0
	eor	v6.16b, v6.16b, v16.16b
	and	v16.16b, v17.16b, v4.16b
	add	v17.16b, v7.16b, v7.16b
	and	v18.16b, v5.16b, v4.16b
	add	v19.16b, v6.16b, v6.16b
	ldr	q5, [x18, #8704]
	add	x18, sp, #288
	eor	v16.16b, v17.16b, v16.16b
	cmlt	v17.16b, v17.16b, #0
	eor	v18.16b, v19.16b, v18.16b
	cmlt	v19.16b, v19.16b, #0
	and	v20.16b, v5.16b, v20.16b
	and	v21.16b, v5.16b, v21.16b
	and	v22.16b, v5.16b, v22.16b
	and	v23.16b, v5.16b, v23.16b
	and	v25.16b, v5.16b, v25.16b
	add	v24.16b, v16.16b, v16.16b
	and	v17.16b, v17.16b, v4.16b
	add	v26.16b, v18.16b, v18.16b
	and	v19.16b, v19.16b, v4.16b
	cmeq	v20.16b, v20.16b, #0
	cmeq	v21.16b, v21.16b, #0
	cmeq	v22.16b, v22.16b, #0
	cmeq	v23.16b, v23.16b, #0
	cmeq	v25.16b, v25.16b, #0
	eor	v17.16b, v17.16b, v24.16b
	cmlt	v24.16b, v24.16b, #0
	and	v28.16b, v5.16b, v28.16b
	eor	v19.16b, v19.16b, v26.16b
	cmlt	v26.16b, v26.16b, #0
	bic	v1.16b, v1.16b, v20.16b
	bic	v0.16b, v0.16b, v20.16b
	bic	v7.16b, v7.16b, v21.16b
	bic	v6.16b, v6.16b, v21.16b
	add	v27.16b, v17.16b, v17.16b
	and	v24.16b, v24.16b, v4.16b
	bic	v16.16b, v16.16b, v22.16b
	add	v20.16b, v19.16b, v19.16b
	and	v26.16b, v26.16b, v4.16b
	bic	v18.16b, v18.16b, v22.16b
	eor	v1.16b, v1.16b, v7.16b
	eor	v0.16b, v0.16b, v6.16b
	movi	v22.16b, #64
	eor	v24.16b, v24.16b, v27.16b
	cmlt	v27.16b, v27.16b, #0
	bic	v17.16b, v17.16b, v23.16b
	eor	v26.16b, v26.16b, v20.16b
	cmlt	v20.16b, v20.16b, #0
	bic	v19.16b, v19.16b, v23.16b
	eor	v1.16b, v1.16b, v16.16b
	eor	v0.16b, v0.16b, v18.16b
	add	v21.16b, v24.16b, v24.16b
	and	v27.16b, v27.16b, v4.16b
	bic	v6.16b, v24.16b, v25.16b
	add	v7.16b, v26.16b, v26.16b
	and	v20.16b, v20.16b, v4.16b
	and	v22.16b, v5.16b, v22.16b
	eor	v1.16b, v1.16b, v17.16b
	bic	v23.16b, v26.16b, v25.16b
	eor	v0.16b, v0.16b, v19.16b
	eor	v24.16b, v27.16b, v21.16b
	cmlt	v21.16b, v21.16b, #0
	cmlt	v5.16b, v5.16b, #0
	eor	v16.16b, v20.16b, v7.16b
	cmlt	v7.16b, v7.16b, #0
	cmeq	v20.16b, v28.16b, #0
	cmeq	v22.16b, v22.16b, #0
	eor	v1.16b, v1.16b, v6.16b
	eor	v0.16b, v0.16b, v23.16b
	add	v18.16b, v24.16b, v24.16b
	and	v21.16b, v21.16b, v4.16b
	add	v17.16b, v16.16b, v16.16b
	and	v7.16b, v7.16b, v4.16b
	bic	v19.16b, v24.16b, v20.16b
	eor	v21.16b, v21.16b, v18.16b
	cmlt	v18.16b, v18.16b, #0
	eor	v6.16b, v7.16b, v17.16b
	bic	v7.16b, v16.16b, v20.16b
	cmlt	v16.16b, v17.16b, #0
	eor	v1.16b, v1.16b, v19.16b
	bic	v17.16b, v21.16b, v22.16b
	add	v20.16b, v21.16b, v21.16b
	and	v18.16b, v18.16b, v4.16b
	bic	v19.16b, v6.16b, v22.16b
	add	v6.16b, v6.16b, v6.16b
	and	v4.16b, v16.16b, v4.16b
	eor	v0.16b, v0.16b, v7.16b
	eor	v7.16b, v18.16b, v20.16b
	eor	v1.16b, v1.16b, v17.16b
	eor	v4.16b, v4.16b, v6.16b
	eor	v0.16b, v0.16b, v19.16b
	and	v6.16b, v5.16b, v7.16b
	eor	v1.16b, v1.16b, v2.16b
	and	v2.16b, v5.16b, v4.16b
	eor	v0.16b, v0.16b, v3.16b
	eor	v1.16b, v6.16b, v1.16b
	str	q1, [x18, x17]
	add	x18, sp, #32
	eor	v0.16b, v2.16b, v0.16b
	str	q0, [x18, x17]
	b.ne	.LBB13_9
	b	.LBB13_26
.LBB13_18:
	mov	x21, x0
	tbnz	w2, #0, .LBB13_24
	lsl	x19, x19, #4
	add	x0, sp, #288
	mov	w1, wzr
	mov	x2, x19
	bl	memset
	add	x0, sp, #32
	mov	w1, wzr
	mov	x2, x19
	bl	memset
	mov	x0, x21
	b	.LBB13_26
.LBB13_20:
	ldrb	w11, [x1]
	adrp	x12, .Lstatic.45
	add	x12, x12, :lo12:.Lstatic.45
	adrp	x14, .Lstatic.47+256
	add	x14, x14, :lo12:.Lstatic.47+256
	lsl	x13, x11, #4
	adrp	x11, .Lstatic.44
	add	x11, x11, :lo12:.Lstatic.44
	ldr	q0, [x11, x13]
	ldr	q1, [x12, x13]
	add	x13, x2, x1
	sub	x13, x13, #1
.LBB13_21:
	movi	v3.2d, #0000000000000000
	movi	v2.2d, #0000000000000000
	mov	x15, xzr
	mov	x16, x13
	mov	x17, x14
	mov	x18, x10
.LBB13_22:
	ldrb	w1, [x16], #-2
	ldur	q5, [x17, #-256]
	movi	v4.16b, #15
	eor	x2, x15, #0xfffffffffffffffe
	ldr	q16, [x17]
	lsl	x1, x1, #4
	ushr	v6.16b, v5.16b, #4
	ldrb	w2, [x8, x2]
	subs	x18, x18, #1
	add	x17, x17, #512
	add	x15, x15, #2
	ldr	q7, [x12, x1]
	lsl	x2, x2, #4
	ldr	q17, [x11, x1]
	and	v5.16b, v5.16b, v4.16b
	tbl	v6.16b, { v7.16b }, v6.16b
	and	v7.16b, v16.16b, v4.16b
	ushr	v16.16b, v16.16b, #4
	ldr	q18, [x11, x2]
	ldr	q19, [x12, x2]
	tbl	v5.16b, { v17.16b }, v5.16b
	tbl	v7.16b, { v18.16b }, v7.16b
	tbl	v16.16b, { v19.16b }, v16.16b
	eor	v3.16b, v3.16b, v6.16b
	eor	v6.16b, v16.16b, v7.16b
	eor	v3.16b, v5.16b, v3.16b
	eor	v3.16b, v3.16b, v6.16b
	eor	v2.16b, v6.16b, v2.16b
	b.ne	.LBB13_22
	lsl	x15, x9, #4
	add	x9, x9, #1
	add	x16, sp, #288
	add	x17, sp, #32
	cmp	x9, x19
	add	x14, x14, #16
	ldr	q5, [x20, x15]
	str	q2, [x17, x15]
	and	v4.16b, v5.16b, v4.16b
	ushr	v5.16b, v5.16b, #4
	tbl	v4.16b, { v0.16b }, v4.16b
	tbl	v5.16b, { v1.16b }, v5.16b
	eor	v4.16b, v4.16b, v5.16b
	eor	v3.16b, v4.16b, v3.16b
	str	q3, [x16, x15]
	b.ne	.LBB13_21
	b	.LBB13_26
.LBB13_24:
	ldrb	w8, [x1]
	adrp	x9, .Lstatic.44
	add	x9, x9, :lo12:.Lstatic.44
	adrp	x10, .Lstatic.45
	add	x10, x10, :lo12:.Lstatic.45
	lsl	x2, x19, #4
	lsl	x8, x8, #4
	add	x0, sp, #32
	mov	w1, wzr
	ldr	q1, [x9, x8]
	ldr	q0, [x10, x8]
	stp	q0, q1, [sp]
	bl	memset
	ldp	q3, q2, [sp]
	add	x8, sp, #288
	mov	x0, x21
.LBB13_25:
	movi	v0.16b, #15
	ldr	q1, [x20], #16
	subs	x19, x19, #1
	and	v0.16b, v1.16b, v0.16b
	ushr	v1.16b, v1.16b, #4
	tbl	v0.16b, { v2.16b }, v0.16b
	tbl	v1.16b, { v3.16b }, v1.16b
	eor	v0.16b, v0.16b, v1.16b
	str	q0, [x8], #16
	b.ne	.LBB13_25
.LBB13_26:
	ldp	q0, q1, [sp, #480]
	add	x1, sp, #544
	mov	w2, #512
	stp	q0, q1, [sp, #736]
	ldp	q0, q2, [sp, #512]
	stp	q0, q2, [sp, #768]
	ldp	q1, q0, [sp, #416]
	stp	q1, q0, [sp, #672]
	ldp	q2, q0, [sp, #448]
	stp	q2, q0, [sp, #704]
	ldp	q1, q0, [sp, #352]
	stp	q1, q0, [sp, #608]
	ldp	q2, q0, [sp, #384]
	stp	q2, q0, [sp, #640]
	ldp	q1, q0, [sp, #288]
	stp	q1, q0, [sp, #544]
	ldp	q2, q0, [sp, #320]
	stp	q2, q0, [sp, #576]
	ldp	q1, q0, [sp, #224]
	stp	q1, q0, [sp, #992]
	ldp	q2, q0, [sp, #256]
	str	q0, [sp, #1040]
	ldp	q1, q0, [sp, #160]
	str	q2, [sp, #1024]
	stp	q1, q0, [sp, #928]
	ldp	q2, q0, [sp, #192]
	stp	q2, q0, [sp, #960]
	ldp	q1, q0, [sp, #96]
	stp	q1, q0, [sp, #864]
	ldp	q2, q0, [sp, #128]
	stp	q2, q0, [sp, #896]
	ldp	q1, q0, [sp, #32]
	stp	q1, q0, [sp, #800]
	ldp	q2, q0, [sp, #64]
	stp	q2, q0, [sp, #832]
	bl	memcpy
	add	sp, sp, #1056
	.cfi_def_cfa_offset 48
	ldp	x20, x19, [sp, #32]
	ldp	x30, x21, [sp, #16]
	ldr	x29, [sp], #48
	.cfi_def_cfa_offset 0
	.cfi_restore w19
	.cfi_restore w20
	.cfi_restore w21
	.cfi_restore w30
	.cfi_restore w29
	ret
.Lfunc_end13:
	.size	"dm_code::weighing::at_places", .Lfunc_end13-"dm_code::weighing::at_places"
	.cfi_endproc

	.p2align	2
	.type	"dm_code::erasures::correct_rest::<#9f76af21849881bb>",@function
"dm_code::erasures::correct_rest::<#9f76af21849881bb>":
	.cfi_startproc
	stp	x29, x30, [sp, #-64]!
	.cfi_def_cfa_offset 64
	stp	x24, x23, [sp, #16]
	stp	x22, x21, [sp, #32]
	stp	x20, x19, [sp, #48]
	.cfi_offset w19, -8
	.cfi_offset w20, -16
	.cfi_offset w21, -24
	.cfi_offset w22, -32
	.cfi_offset w23, -40
	.cfi_offset w24, -48
	.cfi_offset w30, -56
	.cfi_offset w29, -64
	sub	sp, sp, #1456
	.cfi_def_cfa_offset 1520
	movi	v0.2d, #0000000000000000
	mov	x20, x2
	mov	x21, x1
	mov	x19, x0
	add	x23, sp, #272
	str	xzr, [sp]
	stur	q0, [x23, #255]
	stp	q0, q0, [x23]
	stp	q0, q0, [x23, #32]
	stp	q0, q0, [x23, #64]
	stp	q0, q0, [x23, #96]
	stp	q0, q0, [x23, #128]
	stp	q0, q0, [x23, #160]
	stp	q0, q0, [x23, #192]
	stp	q0, q0, [x23, #224]
	cbz	x3, .LBB14_4
	add	x0, sp, #1088
	sub	x2, x20, x3
	mov	x1, x21
	mov	x22, x3
	str	xzr, [sp, #800]
	sub	x24, x20, x3
	stp	q0, q0, [x23, #272]
	stp	q0, q0, [x23, #304]
	stp	q0, q0, [x23, #336]
	stp	q0, q0, [x23, #368]
	stp	q0, q0, [x23, #400]
	stp	q0, q0, [x23, #432]
	stp	q0, q0, [x23, #464]
	stp	q0, q0, [x23, #496]
	str	xzr, [sp, #1072]
	stp	q0, q0, [x23, #544]
	stp	q0, q0, [x23, #576]
	stp	q0, q0, [x23, #608]
	stp	q0, q0, [x23, #640]
	stp	q0, q0, [x23, #672]
	stp	q0, q0, [x23, #704]
	stp	q0, q0, [x23, #736]
	stp	q0, q0, [x23, #768]
	stp	q0, q0, [x23, #816]
	stp	q0, q0, [x23, #848]
	stp	q0, q0, [x23, #880]
	bl	"dm_code::encoding::divide"
	mov	w8, #96
	cmp	x22, #95
	mov	w1, wzr
	sub	x8, x8, x22
	csel	x2, xzr, x8, hi
	add	x8, sp, #1184
	add	x0, x8, x22
	bl	memset
	add	x0, sp, #1184
	add	x1, x21, x24
	mov	x2, x22
	bl	memcpy
	ldp	q0, q3, [x23, #816]
	ldp	q1, q2, [x23, #912]
	ldp	q4, q5, [x23, #944]
	eor	v0.16b, v0.16b, v1.16b
	ldp	q1, q6, [x23, #848]
	eor	v2.16b, v3.16b, v2.16b
	eor	v1.16b, v1.16b, v4.16b
	stp	q0, q2, [x23, #816]
	eor	v0.16b, v6.16b, v5.16b
	ldp	q3, q6, [x23, #880]
	ldr	q7, [x23, #816]
	ldp	q4, q5, [x23, #976]
	stp	q1, q0, [x23, #848]
	eor	v3.16b, v3.16b, v4.16b
	eor	v4.16b, v6.16b, v5.16b
	orr	v5.16b, v7.16b, v2.16b
	orr	v6.16b, v1.16b, v0.16b
	stp	q3, q4, [x23, #880]
	orr	v5.16b, v5.16b, v6.16b
	orr	v6.16b, v3.16b, v4.16b
	orr	v5.16b, v5.16b, v6.16b
	cmtst	v5.16b, v5.16b, v5.16b
	umaxv	b5, v5.16b
	fmov	w8, s5
	tbz	w8, #0, .LBB14_9
	add	x3, sp, #1088
	add	x5, sp, #816
	mov	x0, x21
	mov	x1, x20
	mov	x2, x22
	mov	x4, x22
	bl	"dm_code::correction::mend::<#9f76af21849881bb>"
	tst	w0, #0xff
	b.eq	.LBB14_7
	movi	v0.2d, #0000000000000000
	add	x8, sp, #272
	mov	x20, xzr
	add	x8, x8, #263
	str	xzr, [x8]
	mov	w8, #1
	stur	q0, [x23, #247]
	stur	q0, [x23, #231]
	stur	q0, [x23, #215]
	stur	q0, [x23, #199]
	stur	q0, [x23, #183]
	stur	q0, [x23, #167]
	stur	q0, [x23, #151]
	stur	q0, [x23, #135]
	stur	q0, [x23, #119]
	stur	q0, [x23, #103]
	stur	q0, [x23, #87]
	stur	q0, [x23, #71]
	stur	q0, [x23, #55]
	stur	q0, [x23, #39]
	stur	q0, [x23, #23]
	stur	q0, [x23, #7]
	b	.LBB14_12
.LBB14_4:
	cmp	x20, #255
	str	xzr, [sp, #1440]
	str	q0, [x23, #1152]
	str	q0, [x23, #1136]
	str	q0, [x23, #1120]
	str	q0, [x23, #1104]
	str	q0, [x23, #1088]
	str	q0, [x23, #1072]
	str	q0, [x23, #1056]
	str	q0, [x23, #1040]
	stp	q0, q0, [x23, #912]
	stp	q0, q0, [x23, #944]
	stp	q0, q0, [x23, #976]
	stp	q0, q0, [x23, #1008]
	b.hi	.LBB14_6
	add	x0, sp, #1184
	mov	x1, x21
	mov	x2, x20
	bl	memcpy
	str	x20, [sp, #1440]
.LBB14_6:
	add	x0, sp, #8
	add	x1, sp, #1184
	mov	w2, #264
	bl	memcpy
	add	x0, x19, #8
	add	x1, sp, #8
	mov	w2, #264
	strb	wzr, [x19]
	bl	memcpy
	str	xzr, [x19, #272]
	b	.LBB14_13
.LBB14_7:
	tst	w1, #0xff
	b.eq	.LBB14_9
	add	x8, sp, #272
	mov	x20, x1
	add	x1, sp, #816
	orr	x0, x8, #0x7
	mov	w2, #264
	bl	memcpy
	mov	w8, wzr
	and	x20, x20, #0xff
	b	.LBB14_12
.LBB14_9:
	movi	v0.2d, #0000000000000000
	cmp	x20, #255
	str	xzr, [sp, #1440]
	str	q0, [x23, #1152]
	str	q0, [x23, #1136]
	str	q0, [x23, #1120]
	str	q0, [x23, #1104]
	str	q0, [x23, #1088]
	str	q0, [x23, #1072]
	str	q0, [x23, #1056]
	str	q0, [x23, #1040]
	stp	q0, q0, [x23, #912]
	stp	q0, q0, [x23, #944]
	stp	q0, q0, [x23, #976]
	stp	q0, q0, [x23, #1008]
	b.hi	.LBB14_11
	add	x0, sp, #1184
	mov	x1, x21
	mov	x2, x20
	bl	memcpy
	str	x20, [sp, #1440]
.LBB14_11:
	add	x0, sp, #544
	add	x1, sp, #1184
	mov	w2, #264
	bl	memcpy
	add	x8, sp, #272
	add	x1, sp, #544
	mov	w2, #264
	orr	x0, x8, #0x7
	bl	memcpy
	mov	w8, wzr
	mov	x20, xzr
.LBB14_12:
	strb	w8, [x19]
	add	x8, sp, #272
	add	x0, x19, #8
	orr	x1, x8, #0x7
	mov	w2, #264
	bl	memcpy
	str	x20, [x19, #272]
.LBB14_13:
	add	sp, sp, #1456
	.cfi_def_cfa_offset 64
	ldp	x20, x19, [sp, #48]
	ldp	x22, x21, [sp, #32]
	ldp	x24, x23, [sp, #16]
	ldp	x29, x30, [sp], #64
	.cfi_def_cfa_offset 0
	.cfi_restore w19
	.cfi_restore w20
	.cfi_restore w21
	.cfi_restore w22
	.cfi_restore w23
	.cfi_restore w24
	.cfi_restore w30
	.cfi_restore w29
	ret
.Lfunc_end14:
	.size	"dm_code::erasures::correct_rest::<#9f76af21849881bb>", .Lfunc_end14-"dm_code::erasures::correct_rest::<#9f76af21849881bb>"
	.cfi_endproc

	.p2align	2
	.type	"dm_symbol::symbol::inspection::mend_doubtful",@function
"dm_symbol::symbol::inspection::mend_doubtful":
	.cfi_startproc
	stp	x29, x30, [sp, #-64]!
	.cfi_def_cfa_offset 64
	stp	x24, x23, [sp, #16]
	stp	x22, x21, [sp, #32]
	stp	x20, x19, [sp, #48]
	.cfi_offset w19, -8
	.cfi_offset w20, -16
	.cfi_offset w21, -24
	.cfi_offset w22, -32
	.cfi_offset w23, -40
	.cfi_offset w24, -48
	.cfi_offset w30, -56
	.cfi_offset w29, -64
	sub	sp, sp, #2240
	.cfi_def_cfa_offset 2304
	str	xzr, [sp]
	mov	x19, x4
	mov	x22, x3
	ldrh	w8, [x0, #14]
	ldr	w24, [x0, #16]
	mov	x20, x2
	mov	x21, x1
	cmp	x2, #288
	add	x23, sp, #2212
	b.hi	.LBB15_6
	movi	v0.2d, #0000000000000000
	ldr	x9, [x0]
	strh	w8, [sp, #2230]
	ldur	x8, [x0, #6]
	mov	x1, sp
	mov	x0, x22
	str	w24, [sp, #2232]
	str	x9, [sp, #2216]
	stur	x8, [x23, #10]
	stp	q0, q0, [sp]
	stp	q0, q0, [sp, #32]
	stp	q0, q0, [sp, #64]
	stp	q0, q0, [sp, #96]
	stp	q0, q0, [sp, #128]
	stp	q0, q0, [sp, #160]
	stp	q0, q0, [sp, #192]
	stp	q0, q0, [sp, #224]
	stp	q0, q0, [sp, #256]
	bl	"dm_layout::symbols::placing::lift_to"
	ldr	x8, [x19, #40]
	str	wzr, [sp, #2212]
	cbz	x8, .LBB15_3
	lsl	x2, x8, #2
	mov	x0, x19
	mov	w1, wzr
	bl	memset
	str	xzr, [x19, #40]
.LBB15_3:
	tst	w24, #0xffff
	b.eq	.LBB15_11
	mov	x22, xzr
	and	x24, x24, #0xffff
.LBB15_5:
	mov	w8, #1
	mov	x9, sp
	add	x0, sp, #2212
	add	x1, sp, #2216
	add	x4, sp, #2184
	mov	x2, x21
	mov	x3, x20
	mov	x5, x22
	str	x8, [sp, #2184]
	str	x9, [sp, #2192]
	str	x20, [sp, #2200]
	bl	"dm_symbol::symbol::correction::restore_block"
	ldr	x8, [x19, #40]
	ldrb	w9, [sp, #2212]
	add	x22, x22, #1
	ldrb	w11, [sp, #2215]
	ldurh	w12, [x23, #1]
	cmp	x24, x22
	add	x10, x19, x8, lsl #2
	add	x8, x8, #1
	strb	w9, [x10]
	strb	w11, [x10, #3]
	sturh	w12, [x10, #1]
	str	x8, [x19, #40]
	b.ne	.LBB15_5
	b	.LBB15_11
.LBB15_6:
	ldr	x9, [x0]
	ldur	x10, [x0, #6]
	mov	x0, sp
	mov	w1, wzr
	mov	w2, #2178
	strh	w8, [sp, #2230]
	str	x9, [sp, #2216]
	stur	x10, [x23, #10]
	str	w24, [sp, #2232]
	bl	memset
	mov	x1, sp
	mov	x0, x22
	bl	"dm_layout::symbols::placing::lift_to"
	ldr	x8, [x19, #40]
	str	wzr, [sp, #2212]
	cbz	x8, .LBB15_8
	lsl	x2, x8, #2
	mov	x0, x19
	mov	w1, wzr
	bl	memset
	str	xzr, [x19, #40]
.LBB15_8:
	tst	w24, #0xffff
	b.eq	.LBB15_11
	mov	x22, xzr
	and	x24, x24, #0xffff
.LBB15_10:
	mov	w8, #1
	mov	x9, sp
	add	x0, sp, #2212
	add	x1, sp, #2216
	add	x4, sp, #2184
	mov	x2, x21
	mov	x3, x20
	mov	x5, x22
	str	x8, [sp, #2184]
	str	x9, [sp, #2192]
	str	x20, [sp, #2200]
	bl	"dm_symbol::symbol::correction::restore_block"
	ldr	x8, [x19, #40]
	ldrb	w9, [sp, #2212]
	add	x22, x22, #1
	ldrb	w11, [sp, #2215]
	ldurh	w12, [x23, #1]
	cmp	x24, x22
	add	x10, x19, x8, lsl #2
	add	x8, x8, #1
	strb	w9, [x10]
	strb	w11, [x10, #3]
	sturh	w12, [x10, #1]
	str	x8, [x19, #40]
	b.ne	.LBB15_10
.LBB15_11:
	add	sp, sp, #2240
	.cfi_def_cfa_offset 64
	ldp	x20, x19, [sp, #48]
	ldp	x22, x21, [sp, #32]
	ldp	x24, x23, [sp, #16]
	ldp	x29, x30, [sp], #64
	.cfi_def_cfa_offset 0
	.cfi_restore w19
	.cfi_restore w20
	.cfi_restore w21
	.cfi_restore w22
	.cfi_restore w23
	.cfi_restore w24
	.cfi_restore w30
	.cfi_restore w29
	ret
.Lfunc_end15:
	.size	"dm_symbol::symbol::inspection::mend_doubtful", .Lfunc_end15-"dm_symbol::symbol::inspection::mend_doubtful"
	.cfi_endproc

	.p2align	2
	.type	"dm_symbol::symbol::inspection::mend_restarted",@function
"dm_symbol::symbol::inspection::mend_restarted":
	.cfi_startproc
	stp	x29, x30, [sp, #-64]!
	.cfi_def_cfa_offset 64
	stp	x24, x23, [sp, #16]
	stp	x22, x21, [sp, #32]
	stp	x20, x19, [sp, #48]
	.cfi_offset w19, -8
	.cfi_offset w20, -16
	.cfi_offset w21, -24
	.cfi_offset w22, -32
	.cfi_offset w23, -40
	.cfi_offset w24, -48
	.cfi_offset w30, -56
	.cfi_offset w29, -64
	sub	sp, sp, #2224
	.cfi_def_cfa_offset 2288
	mov	x22, x2
	mov	w23, w1
	mov	x24, x0
	add	x0, sp, #46
	mov	w1, wzr
	mov	w2, #2178
	str	xzr, [sp]
	mov	x19, x5
	mov	x20, x4
	mov	x21, x3
	bl	memset
	movi	v0.2d, #0000000000000000
	add	x3, sp, #46
	mov	x5, sp
	mov	x0, x24
	mov	w1, w23
	mov	x2, x22
	mov	x4, x20
	str	xzr, [sp, #32]
	stp	q0, q0, [sp]
	bl	"dm_symbol::symbol::dealing::restore_restarted"
	tbz	w0, #0, .LBB16_6
	mov	w22, w0
	add	x1, sp, #46
	mov	x0, x21
	mov	x2, x20
	bl	memcpy
	ldr	x8, [x19, #40]
	ldr	x20, [sp, #32]
	cbz	x8, .LBB16_3
	lsl	x2, x8, #2
	mov	x0, x19
	mov	w1, wzr
	bl	memset
	str	xzr, [x19, #40]
.LBB16_3:
	mov	w0, w22
	cbz	x20, .LBB16_6
	add	x8, x19, #1
	mov	x9, sp
	mov	w10, #1
	mov	w11, #1
.LBB16_5:
	ldrb	w12, [x9, #2]
	ldrh	w13, [x9], #3
	sturb	w10, [x8, #-1]
	subs	x20, x20, #1
	strb	w12, [x8, #2]
	strh	w13, [x8], #4
	str	x11, [x19, #40]
	add	x11, x11, #1
	b.ne	.LBB16_5
.LBB16_6:
	add	sp, sp, #2224
	.cfi_def_cfa_offset 64
	ldp	x20, x19, [sp, #48]
	ldp	x22, x21, [sp, #32]
	ldp	x24, x23, [sp, #16]
	ldp	x29, x30, [sp], #64
	.cfi_def_cfa_offset 0
	.cfi_restore w19
	.cfi_restore w20
	.cfi_restore w21
	.cfi_restore w22
	.cfi_restore w23
	.cfi_restore w24
	.cfi_restore w30
	.cfi_restore w29
	ret
.Lfunc_end16:
	.size	"dm_symbol::symbol::inspection::mend_restarted", .Lfunc_end16-"dm_symbol::symbol::inspection::mend_restarted"
	.cfi_endproc

	.p2align	2
	.type	"dm_symbol::symbol::dealing::restore_restarted",@function
"dm_symbol::symbol::dealing::restore_restarted":
	.cfi_startproc
	stp	x29, x30, [sp, #-64]!
	.cfi_def_cfa_offset 64
	stp	x24, x23, [sp, #16]
	stp	x22, x21, [sp, #32]
	stp	x20, x19, [sp, #48]
	.cfi_offset w19, -8
	.cfi_offset w20, -16
	.cfi_offset w21, -24
	.cfi_offset w22, -32
	.cfi_offset w23, -40
	.cfi_offset w24, -48
	.cfi_offset w30, -56
	.cfi_offset w29, -64
	sub	sp, sp, #704
	.cfi_def_cfa_offset 768
	mov	x8, x0
	mov	w0, wzr
	ldrh	w10, [x8]
	ldur	q0, [x8, #4]
	ldrh	w9, [x8, #2]
	cmp	w10, #144
	str	q0, [sp]
	b.ne	.LBB17_19
	cmp	w9, #144
	b.ne	.LBB17_19
	mov	w22, w1
	mov	x0, x8
	mov	x1, x3
	mov	x20, x5
	mov	x21, x4
	mov	x19, x3
	mov	x23, x2
	bl	"dm_layout::symbols::placing::lift_to"
	add	x0, sp, #72
	mov	w1, wzr
	mov	w2, #632
	add	x24, sp, #72
	bl	memset
	mov	x8, xzr
	add	x9, x19, #3116
	mov	w10, #1558
.LBB17_3:
	mov	x11, #-3689348814741910324
	mov	w13, #10
	movk	x11, #52429
	umulh	x12, x8, x11
	umulh	x11, x10, x11
	add	x10, x10, #1
	lsr	x12, x12, #3
	mul	x12, x12, x13
	lsr	x11, x11, #3
	msub	x11, x11, x13, x12
	add	x11, x9, x11
	ldrb	w11, [x11, x8]
	strb	w11, [x24, x8]
	add	x8, x8, #1
	cmp	x8, #620
	b.ne	.LBB17_3
	add	x0, x19, #1558
	add	x1, sp, #72
	mov	w2, #620
	bl	memcpy
	mov	w8, #144
	ldr	q0, [sp]
	movk	w8, #144, lsl #16
	str	w8, [sp, #28]
	stur	q0, [sp, #32]
	tbz	w22, #0, .LBB17_6
	add	x0, sp, #28
	mov	x1, x19
	mov	x2, x21
	mov	w3, #1
	mov	x4, x23
	mov	x5, x20
	bl	"dm_symbol::symbol::reading::restore_doubtful"
	b	.LBB17_14
.LBB17_6:
	ldr	q0, [sp]
	stp	wzr, w8, [sp, #48]
	ldr	x8, [x20, #32]
	stur	q0, [sp, #56]
	cbz	x8, .LBB17_8
	add	x2, x8, x8, lsl #1
	mov	x0, x20
	mov	w1, wzr
	bl	memset
	str	xzr, [x20, #32]
.LBB17_8:
	ldrh	w8, [sp, #68]
	tst	w8, #0xff
	b.eq	.LBB17_12
	add	x9, sp, #48
	mov	x22, xzr
	and	x23, x8, #0xff
	orr	x24, x9, #0x1
.LBB17_10:
	add	x0, sp, #48
	add	x1, sp, #52
	add	x4, sp, #72
	mov	x2, x19
	mov	x3, x21
	mov	x5, x22
	stp	xzr, xzr, [sp, #72]
	str	xzr, [sp, #88]
	bl	"dm_symbol::symbol::correction::restore_block"
	ldrb	w8, [sp, #48]
	cmp	w8, #1
	b.ne	.LBB17_13
	ldr	x8, [x20, #32]
	ldrh	w10, [x24]
	add	x22, x22, #1
	ldrb	w11, [x24, #2]
	cmp	x23, x22
	add	x9, x8, x8, lsl #1
	add	x8, x8, #1
	add	x9, x20, x9
	strh	w10, [x9]
	strb	w11, [x9, #2]
	str	x8, [x20, #32]
	b.ne	.LBB17_10
.LBB17_12:
	mov	w0, wzr
	b	.LBB17_14
.LBB17_13:
	mov	w0, #1
.LBB17_14:
	tst	w0, #0xff
	b.eq	.LBB17_16
	mov	w0, wzr
	b	.LBB17_19
.LBB17_16:
	add	x0, sp, #72
	mov	w1, wzr
	mov	w2, #632
	add	x20, sp, #72
	bl	memset
	mov	x8, xzr
	add	x9, x19, #1560
	mov	w10, #2
.LBB17_17:
	mov	x11, #-3689348814741910324
	mov	w13, #10
	movk	x11, #52429
	umulh	x12, x8, x11
	umulh	x11, x10, x11
	add	x10, x10, #1
	lsr	x12, x12, #3
	mul	x12, x12, x13
	lsr	x11, x11, #3
	msub	x11, x11, x13, x12
	add	x11, x9, x11
	ldrb	w11, [x11, x8]
	strb	w11, [x20, x8]
	add	x8, x8, #1
	cmp	x8, #620
	b.ne	.LBB17_17
	add	x0, x19, #1558
	add	x1, sp, #72
	mov	w2, #620
	bl	memcpy
	mov	w0, #1
.LBB17_19:
	add	sp, sp, #704
	.cfi_def_cfa_offset 64
	ldp	x20, x19, [sp, #48]
	ldp	x22, x21, [sp, #32]
	ldp	x24, x23, [sp, #16]
	ldp	x29, x30, [sp], #64
	.cfi_def_cfa_offset 0
	.cfi_restore w19
	.cfi_restore w20
	.cfi_restore w21
	.cfi_restore w22
	.cfi_restore w23
	.cfi_restore w24
	.cfi_restore w30
	.cfi_restore w29
	ret
.Lfunc_end17:
	.size	"dm_symbol::symbol::dealing::restore_restarted", .Lfunc_end17-"dm_symbol::symbol::dealing::restore_restarted"
	.cfi_endproc

	.p2align	2
	.type	"dm_symbol::symbol::reading::restore_doubtful",@function
"dm_symbol::symbol::reading::restore_doubtful":
	.cfi_startproc
	stp	x29, x30, [sp, #-96]!
	.cfi_def_cfa_offset 96
	stp	x28, x27, [sp, #16]
	stp	x26, x25, [sp, #32]
	stp	x24, x23, [sp, #48]
	stp	x22, x21, [sp, #64]
	stp	x20, x19, [sp, #80]
	.cfi_offset w19, -8
	.cfi_offset w20, -16
	.cfi_offset w21, -24
	.cfi_offset w22, -32
	.cfi_offset w23, -40
	.cfi_offset w24, -48
	.cfi_offset w25, -56
	.cfi_offset w26, -64
	.cfi_offset w27, -72
	.cfi_offset w28, -80
	.cfi_offset w30, -88
	.cfi_offset w29, -96
	sub	sp, sp, #2864
	.cfi_def_cfa_offset 2960
	.cfi_remember_state
	str	xzr, [sp]
	mov	x19, x5
	mov	x24, x4
	ldrh	w27, [x0, #14]
	ldr	w25, [x0, #16]
	mov	w23, w3
	mov	x20, x2
	mov	x22, x0
	mov	x21, x1
	cmp	x2, #288
	add	x26, sp, #2840
	b.hi	.LBB18_11
	movi	v0.2d, #0000000000000000
	add	x8, sp, #2192
	add	x1, sp, #2192
	mov	x0, x24
	add	x24, sp, #2192
	stp	q0, q0, [x8]
	stp	q0, q0, [x8, #32]
	stp	q0, q0, [x8, #64]
	stp	q0, q0, [x8, #96]
	stp	q0, q0, [x8, #128]
	stp	q0, q0, [x8, #160]
	stp	q0, q0, [x8, #192]
	stp	q0, q0, [x8, #224]
	stp	q0, q0, [x8, #256]
	bl	"dm_layout::symbols::placing::lift_to"
	tbz	w23, #0, .LBB18_5
	add	x0, sp, #8
	mov	w1, wzr
	mov	w2, #632
	add	x23, sp, #8
	bl	memset
	mov	x8, xzr
	add	x9, x24, #3116
	mov	w10, #1558
.LBB18_3:
	mov	x11, #-3689348814741910324
	mov	w13, #10
	movk	x11, #52429
	umulh	x12, x8, x11
	umulh	x11, x10, x11
	add	x10, x10, #1
	lsr	x12, x12, #3
	mul	x12, x12, x13
	lsr	x11, x11, #3
	msub	x11, x11, x13, x12
	add	x11, x9, x11
	ldrb	w11, [x11, x8]
	strb	w11, [x23, x8]
	add	x8, x8, #1
	cmp	x8, #620
	b.ne	.LBB18_3
	add	x8, sp, #2192
	add	x1, sp, #8
	mov	w2, #620
	add	x0, x8, #1558
	bl	memcpy
.LBB18_5:
	ldr	x8, [x22]
	ldur	x9, [x22, #6]
	strh	w27, [sp, #2854]
	str	w25, [sp, #2856]
	str	x8, [sp, #2840]
	ldr	x8, [x19, #32]
	stur	x9, [x26, #6]
	str	wzr, [sp, #2836]
	cbz	x8, .LBB18_7
	add	x2, x8, x8, lsl #1
	mov	x0, x19
	mov	w1, wzr
	bl	memset
	str	xzr, [x19, #32]
.LBB18_7:
	tst	w25, #0xff
	b.eq	.LBB18_21
	add	x8, sp, #2836
	mov	x22, xzr
	and	x24, x25, #0xff
	orr	x23, x8, #0x1
.LBB18_9:
	mov	w8, #1
	add	x9, sp, #2192
	add	x0, sp, #2836
	add	x1, sp, #2840
	add	x4, sp, #8
	mov	x2, x21
	mov	x3, x20
	mov	x5, x22
	stp	x8, x9, [sp, #8]
	str	x20, [sp, #24]
	bl	"dm_symbol::symbol::correction::restore_block"
	ldrb	w8, [sp, #2836]
	cmp	w8, #1
	b.ne	.LBB18_23
	ldr	x8, [x19, #32]
	ldrh	w10, [x23]
	add	x22, x22, #1
	ldrb	w11, [x23, #2]
	cmp	x24, x22
	add	x9, x8, x8, lsl #1
	add	x8, x8, #1
	add	x9, x19, x9
	strh	w10, [x9]
	strb	w11, [x9, #2]
	str	x8, [x19, #32]
	b.ne	.LBB18_9
	b	.LBB18_21
.LBB18_11:
	add	x0, sp, #8
	mov	w1, wzr
	mov	w2, #2178
	add	x28, sp, #8
	bl	memset
	add	x1, sp, #8
	mov	x0, x24
	bl	"dm_layout::symbols::placing::lift_to"
	tbz	w23, #0, .LBB18_15
	add	x0, sp, #2192
	mov	w1, wzr
	mov	w2, #632
	add	x23, sp, #2192
	bl	memset
	mov	x8, xzr
	add	x9, x28, #3116
	mov	w10, #1558
.LBB18_13:
	mov	x11, #-3689348814741910324
	mov	w13, #10
	movk	x11, #52429
	umulh	x12, x8, x11
	umulh	x11, x10, x11
	add	x10, x10, #1
	lsr	x12, x12, #3
	mul	x12, x12, x13
	lsr	x11, x11, #3
	msub	x11, x11, x13, x12
	add	x11, x9, x11
	ldrb	w11, [x11, x8]
	strb	w11, [x23, x8]
	add	x8, x8, #1
	cmp	x8, #620
	b.ne	.LBB18_13
	add	x8, sp, #8
	add	x1, sp, #2192
	mov	w2, #620
	add	x0, x8, #1558
	bl	memcpy
.LBB18_15:
	ldr	x8, [x22]
	ldur	x9, [x22, #6]
	strh	w27, [sp, #2854]
	str	w25, [sp, #2856]
	str	x8, [sp, #2840]
	ldr	x8, [x19, #32]
	stur	x9, [x26, #6]
	str	wzr, [sp, #2836]
	cbz	x8, .LBB18_17
	add	x2, x8, x8, lsl #1
	mov	x0, x19
	mov	w1, wzr
	bl	memset
	str	xzr, [x19, #32]
.LBB18_17:
	tst	w25, #0xff
	b.eq	.LBB18_21
	add	x8, sp, #2836
	mov	x22, xzr
	and	x24, x25, #0xff
	orr	x23, x8, #0x1
.LBB18_19:
	mov	w8, #1
	add	x9, sp, #8
	add	x0, sp, #2836
	add	x1, sp, #2840
	add	x4, sp, #2192
	mov	x2, x21
	mov	x3, x20
	mov	x5, x22
	str	x8, [sp, #2192]
	str	x9, [sp, #2200]
	str	x20, [sp, #2208]
	bl	"dm_symbol::symbol::correction::restore_block"
	ldrb	w8, [sp, #2836]
	cmp	w8, #1
	b.ne	.LBB18_24
	ldr	x8, [x19, #32]
	ldrh	w10, [x23]
	add	x22, x22, #1
	ldrb	w11, [x23, #2]
	cmp	x24, x22
	add	x9, x8, x8, lsl #1
	add	x8, x8, #1
	add	x9, x19, x9
	strh	w10, [x9]
	strb	w11, [x9, #2]
	str	x8, [x19, #32]
	b.ne	.LBB18_19
.LBB18_21:
	mov	w22, wzr
	mov	w0, wzr
.LBB18_22:
	mov	w1, w22
	add	sp, sp, #2864
	.cfi_def_cfa_offset 96
	ldp	x20, x19, [sp, #80]
	ldp	x22, x21, [sp, #64]
	ldp	x24, x23, [sp, #48]
	ldp	x26, x25, [sp, #32]
	ldp	x28, x27, [sp, #16]
	ldp	x29, x30, [sp], #96
	.cfi_def_cfa_offset 0
	.cfi_restore w19
	.cfi_restore w20
	.cfi_restore w21
	.cfi_restore w22
	.cfi_restore w23
	.cfi_restore w24
	.cfi_restore w25
	.cfi_restore w26
	.cfi_restore w27
	.cfi_restore w28
	.cfi_restore w30
	.cfi_restore w29
	ret
.LBB18_23:
	.cfi_restore_state
	mov	w0, #1
	b	.LBB18_22
.LBB18_24:
	mov	w0, #1
	b	.LBB18_22
.Lfunc_end18:
	.size	"dm_symbol::symbol::reading::restore_doubtful", .Lfunc_end18-"dm_symbol::symbol::reading::restore_doubtful"
	.cfi_endproc

	.p2align	2
	.type	"ecc200_calls::inspection::find_designators::<=31>",@function
"ecc200_calls::inspection::find_designators::<=31>":
	.cfi_startproc
	sub	sp, sp, #288
	.cfi_def_cfa_offset 288
	str	x29, [sp, #256]
	stp	x30, x19, [sp, #272]
	.cfi_offset w19, -8
	.cfi_offset w30, -16
	.cfi_offset w29, -32
	movi	v0.2d, #0000000000000000
	mov	x8, x2
	mov	x19, x0
	mov	x2, sp
	mov	x0, x1
	mov	x1, x8
	str	xzr, [sp, #240]
	stp	q0, q0, [sp, #16]
	stp	q0, q0, [sp, #48]
	stp	q0, q0, [sp, #80]
	stp	q0, q0, [sp, #112]
	stp	q0, q0, [sp, #144]
	stp	q0, q0, [sp, #176]
	stp	q0, q0, [sp, #208]
	str	q0, [sp]
	bl	"dm_words::contents::designation::designations_to"
	strh	w0, [x19, #18]
	cbz	x0, .LBB19_7
	cmp	x0, #9
	b.hs	.LBB19_3
	mov	x8, xzr
	b	.LBB19_5
.LBB19_3:
	ands	x8, x0, #0x7
	mov	w9, #8
	add	x10, x19, #20
	csel	x8, x9, x8, eq
	mov	x9, sp
	sub	x8, x0, x8
	add	x9, x9, #32
	mov	x11, x8
.LBB19_4:
	ldr	h0, [x9]
	add	x12, x9, #8
	ldur	h1, [x9, #-32]
	add	x13, x9, #24
	ldur	q2, [x9, #4]
	ldur	q4, [x9, #-28]
	ld1	{ v0.h }[1], [x12]
	add	x12, x9, #16
	subs	x11, x11, #8
	ld1	{ v0.h }[2], [x12]
	sub	x12, x9, #24
	ld1	{ v1.h }[1], [x12]
	sub	x12, x9, #16
	ld1	{ v0.h }[3], [x13]
	add	x13, x10, #64
	ld1	{ v1.h }[2], [x12]
	sub	x12, x9, #8
	ushll	v3.4s, v0.4h, #0
	ldur	q0, [x9, #-12]
	mov	v2.s[1], v2.s[2]
	ld1	{ v1.h }[3], [x12]
	add	x12, x9, #20
	ushll	v6.4s, v1.4h, #0
	ld1	{ v2.s }[2], [x12]
	uzp1	v5.4s, v4.4s, v0.4s
	add	x12, x9, #28
	add	x9, x9, #64
	ld1	{ v2.s }[3], [x12]
	st2	{ v5.4s, v6.4s }, [x10], #32
	st2	{ v2.4s, v3.4s }, [x10]
	mov	x10, x13
	b.ne	.LBB19_4
.LBB19_5:
	lsl	x9, x8, #3
	mov	x10, sp
	sub	x8, x0, x8
	add	x11, x9, x19
	add	x10, x9, x10
	add	x9, x11, #24
	orr	x10, x10, #0x4
.LBB19_6:
	ldr	w11, [x10]
	ldurh	w12, [x10, #-4]
	subs	x8, x8, #1
	add	x10, x10, #8
	stp	w11, w12, [x9, #-4]
	add	x9, x9, #8
	b.ne	.LBB19_6
.LBB19_7:
	ldp	x30, x19, [sp, #272]
	ldr	x29, [sp, #256]
	add	sp, sp, #288
	.cfi_def_cfa_offset 0
	.cfi_restore w19
	.cfi_restore w30
	.cfi_restore w29
	ret
.Lfunc_end19:
	.size	"ecc200_calls::inspection::find_designators::<=31>", .Lfunc_end19-"ecc200_calls::inspection::find_designators::<=31>"
	.cfi_endproc

	.p2align	2
	.type	"dm_words::contents::designation::designations_to",@function
"dm_words::contents::designation::designations_to":
	.cfi_startproc
	stp	x29, x30, [sp, #-64]!
	.cfi_def_cfa_offset 64
	stp	x24, x23, [sp, #16]
	stp	x22, x21, [sp, #32]
	stp	x20, x19, [sp, #48]
	.cfi_offset w19, -8
	.cfi_offset w20, -16
	.cfi_offset w21, -24
	.cfi_offset w22, -32
	.cfi_offset w23, -40
	.cfi_offset w24, -48
	.cfi_offset w30, -56
	.cfi_offset w29, -64
	sub	sp, sp, #3072
	.cfi_def_cfa_offset 3136
	str	xzr, [sp]
	sub	sp, sp, #3072
	.cfi_def_cfa_offset 6208
	str	xzr, [sp], #-144
	.cfi_def_cfa_offset 6352
	add	x23, sp, #1, lsl #12
	mov	x19, x2
	mov	x20, x1
	mov	x21, x0
	add	x23, x23, #2160
	stp	xzr, xzr, [x23, #8]
	str	xzr, [x23, #24]
	cbz	x1, .LBB20_6
	ldrb	w8, [x21]
	cbz	w8, .LBB20_6
	cmp	w8, #129
	b.lo	.LBB20_5
	b.eq	.LBB20_6
	cmp	w8, #229
	b.hi	.LBB20_6
.LBB20_5:
	mov	x22, xzr
	b	.LBB20_8
.LBB20_6:
	add	x0, sp, #1, lsl #12
	mov	x1, x21
	mov	x2, x20
	add	x0, x0, #2168
	bl	"dm_words::contents::opening::opening_asked"
	ldrb	w8, [x23, #8]
	cmp	w8, #1
	b.ne	.LBB20_34
	ldr	x22, [x23, #24]
.LBB20_8:
	mov	x24, xzr
.LBB20_9:
	cmp	x22, x20
	b.hs	.LBB20_15
	ldrb	w8, [x21, x22]
	cbz	w8, .LBB20_15
	cmp	w8, #241
	b.eq	.LBB20_18
	cmp	w8, #129
	b.lo	.LBB20_17
	b.eq	.LBB20_15
	cmp	w8, #230
	b.lo	.LBB20_17
.LBB20_15:
	add	x0, sp, #1, lsl #12
	add	x6, sp, #1, lsl #12
	add	x5, sp, #10
	add	x0, x0, #2168
	add	x6, x6, #2160
	mov	w1, #1
	mov	x2, x21
	mov	x3, x20
	mov	x4, x22
	stp	xzr, xzr, [x23, #16]
	stp	xzr, xzr, [x23]
	bl	"dm_words::reading::next_part"
	ldrb	w8, [x23, #8]
	cbnz	w8, .LBB20_34
	ldrb	w8, [x23, #16]
	ldr	x9, [x23, #24]
	cmp	w8, #1
	add	x22, x9, x22
	b.eq	.LBB20_9
	b	.LBB20_35
.LBB20_17:
	mov	w8, #1
	add	x22, x8, x22
	b	.LBB20_9
.LBB20_18:
	add	x8, x22, #1
	subs	x10, x20, x8
	b.eq	.LBB20_34
	add	x9, x21, x8
	ldrb	w8, [x9]
	cbz	w8, .LBB20_34
	tbnz	w8, #7, .LBB20_22
	sub	w9, w8, #1
	mov	w8, #2
	b	.LBB20_33
.LBB20_22:
	cmp	w8, #191
	b.hi	.LBB20_26
	cmp	x10, #1
	b.eq	.LBB20_34
	ldrb	w9, [x9, #1]
	sub	w10, w9, #1
	cmp	w10, #253
	b.hi	.LBB20_34
	mov	w10, #254
	madd	w8, w8, w10, w9
	mov	w9, #-32386
	add	w9, w8, w9
	mov	w8, #3
	b	.LBB20_33
.LBB20_26:
	cmp	x10, #1
	mov	x0, xzr
	b.eq	.LBB20_36
	cmp	w8, #207
	b.hi	.LBB20_36
	cmp	x10, #3
	b.lo	.LBB20_34
	ldrb	w10, [x9, #1]
	mov	x0, xzr
	sub	w11, w10, #1
	cmp	w11, #253
	b.hi	.LBB20_36
	ldrb	w9, [x9, #2]
	sub	w11, w9, #1
	cmp	w11, #253
	b.hi	.LBB20_36
	mov	w11, #64516
	mul	w8, w8, w11
	mov	w11, #254
	madd	w8, w10, w11, w8
	add	w8, w8, w9
	mov	w9, #1599
	movk	w9, #204, lsl #16
	cmp	w8, w9
	b.hi	.LBB20_34
	mov	w9, #15360
	movk	w9, #65347, lsl #16
	add	w9, w8, w9
	mov	w8, #4
.LBB20_33:
	add	x10, x19, x24, lsl #3
	add	x24, x24, #1
	strh	w22, [x10]
	add	x22, x8, x22
	strh	wzr, [x10, #2]
	str	w9, [x10, #4]
	b	.LBB20_9
.LBB20_34:
	mov	x0, xzr
	b	.LBB20_36
.LBB20_35:
	mov	x0, x24
.LBB20_36:
	add	sp, sp, #1, lsl #12
	.cfi_def_cfa_offset 2256
	add	sp, sp, #2192
	.cfi_def_cfa_offset 64
	ldp	x20, x19, [sp, #48]
	ldp	x22, x21, [sp, #32]
	ldp	x24, x23, [sp, #16]
	ldp	x29, x30, [sp], #64
	.cfi_def_cfa_offset 0
	.cfi_restore w19
	.cfi_restore w20
	.cfi_restore w21
	.cfi_restore w22
	.cfi_restore w23
	.cfi_restore w24
	.cfi_restore w30
	.cfi_restore w29
	ret
.Lfunc_end20:
	.size	"dm_words::contents::designation::designations_to", .Lfunc_end20-"dm_words::contents::designation::designations_to"
	.cfi_endproc

	.p2align	2
	.type	"dm_words::contents::opening::opening_asked",@function
"dm_words::contents::opening::opening_asked":
	.cfi_startproc
	cbz	x2, .LBB21_5
	ldrb	w8, [x1]
	cmp	w8, #233
	b.eq	.LBB21_6
	cmp	w8, #234
	b.ne	.LBB21_10
	mov	w8, wzr
	mov	w9, wzr
	mov	w10, #1
.LBB21_4:
	mov	w11, #1
	strb	w9, [x0, #9]
	str	x11, [x0]
	strb	w11, [x0, #8]
	stur	w8, [x0, #10]
	str	x10, [x0, #16]
	ret
.LBB21_5:
	mov	w10, wzr
	mov	w12, wzr
	mov	x9, xzr
	b	.LBB21_24
.LBB21_6:
	cmp	x2, #1
	b.eq	.LBB21_9
	cmp	x2, #3
	b.lo	.LBB21_9
	b.ne	.LBB21_25
.LBB21_9:
	str	xzr, [x0, #16]
	str	xzr, [x0]
	stur	xzr, [x0, #6]
	ret
.LBB21_10:
	mov	x8, xzr
.LBB21_11:
	ldrb	w10, [x1, x8]
	cmp	w10, #236
	b.eq	.LBB21_21
	cmp	w10, #237
	b.eq	.LBB21_20
	add	x11, x8, #1
	cmp	x11, x2
	b.hs	.LBB21_15
	add	x9, x1, x8
	ldrb	w9, [x9, #1]
	cmp	w9, #254
	cset	w13, eq
	b	.LBB21_16
.LBB21_15:
	mov	w13, wzr
.LBB21_16:
	sub	w12, w10, #230
	mov	x9, xzr
	mov	w10, wzr
	cmp	w12, #9
	b.hi	.LBB21_23
	mov	w14, #1
	lsl	w12, w14, w12
	mov	w14, #769
	tst	w12, w14
	mov	w12, w10
	b.eq	.LBB21_24
	cmp	x11, x2
	eor	w10, w13, #0x1
	mov	x9, xzr
	csinc	w11, w10, wzr, lo
	mov	w10, wzr
	tbnz	w11, #0, .LBB21_23
	add	x8, x8, #2
	mov	w12, w10
	cmp	x8, x2
	b.lo	.LBB21_11
	b	.LBB21_24
.LBB21_20:
	mov	w10, #54
	b	.LBB21_22
.LBB21_21:
	mov	w10, #53
.LBB21_22:
	add	x9, x8, #1
	mov	w12, #2
	b	.LBB21_24
.LBB21_23:
	mov	w12, w10
.LBB21_24:
	mov	w8, #1
	strb	w12, [x0, #8]
	str	x8, [x0]
	strb	w10, [x0, #9]
	stur	wzr, [x0, #10]
	str	x9, [x0, #16]
	ret
.LBB21_25:
	ldrb	w8, [x1, #1]
	and	w9, w8, #0xf
	cbz	w9, .LBB21_9
	lsr	w8, w8, #4
	mov	w10, #17
	sub	w9, w10, w9
	cmp	w8, w9
	b.hs	.LBB21_9
	ldrb	w10, [x1, #2]
	sub	w11, w10, #1
	cmp	w11, #253
	b.hi	.LBB21_9
	ldrb	w11, [x1, #3]
	sub	w12, w11, #1
	cmp	w12, #254
	b.hs	.LBB21_9
	lsl	w11, w11, #24
	orr	w10, w11, w10, lsl #16
	orr	w9, w10, w9, lsl #8
	mov	w10, #4
	orr	w8, w8, w9
	mov	w9, #1
	add	w8, w8, #1
	b	.LBB21_4
.Lfunc_end21:
	.size	"dm_words::contents::opening::opening_asked", .Lfunc_end21-"dm_words::contents::opening::opening_asked"
	.cfi_endproc

	.p2align	2
	.type	"dm_words::reading::next_part",@function
"dm_words::reading::next_part":
	.cfi_startproc
	stp	x29, x30, [sp, #-80]!
	.cfi_def_cfa_offset 80
	stp	x26, x25, [sp, #16]
	stp	x24, x23, [sp, #32]
	stp	x22, x21, [sp, #48]
	stp	x20, x19, [sp, #64]
	.cfi_offset w19, -8
	.cfi_offset w20, -16
	.cfi_offset w21, -24
	.cfi_offset w22, -32
	.cfi_offset w23, -40
	.cfi_offset w24, -48
	.cfi_offset w25, -56
	.cfi_offset w26, -64
	.cfi_offset w30, -72
	.cfi_offset w29, -80
	sub	sp, sp, #2384
	.cfi_def_cfa_offset 2464
	.cfi_remember_state
	subs	x11, x3, x4
	str	xzr, [sp]
	b.ls	.LBB22_6
	ldrb	w9, [x2, x4]
	cmp	w9, #235
	b.gt	.LBB22_10
	cmp	w9, #230
	b.gt	.LBB22_14
	cbz	w9, .LBB22_56
	cmp	w9, #129
	b.eq	.LBB22_6
	cmp	w9, #230
	mov	w19, wzr
	b.eq	.LBB22_34
	b	.LBB22_48
.LBB22_6:
	mov	w12, wzr
	mov	w13, wzr
	mov	w9, wzr
	mov	w8, wzr
.LBB22_7:
	mov	x10, xzr
.LBB22_8:
	mov	x11, xzr
.LBB22_9:
	strh	w12, [x0]
	strb	w13, [x0, #2]
	strb	w9, [x0, #3]
	strh	w8, [x0, #4]
	stp	x10, x11, [x0, #8]
	add	sp, sp, #2384
	.cfi_def_cfa_offset 80
	ldp	x20, x19, [sp, #64]
	ldp	x22, x21, [sp, #48]
	ldp	x24, x23, [sp, #32]
	ldp	x26, x25, [sp, #16]
	ldp	x29, x30, [sp], #80
	.cfi_def_cfa_offset 0
	.cfi_restore w19
	.cfi_restore w20
	.cfi_restore w21
	.cfi_restore w22
	.cfi_restore w23
	.cfi_restore w24
	.cfi_restore w25
	.cfi_restore w26
	.cfi_restore w30
	.cfi_restore w29
	ret
.LBB22_10:
	.cfi_restore_state
	cmp	w9, #238
	b.gt	.LBB22_21
	sub	w8, w9, #236
	cmp	w8, #2
	b.lo	.LBB22_24
	cmp	w9, #238
	b.ne	.LBB22_48
	mov	w19, #2
	b	.LBB22_34
.LBB22_14:
	cmp	w9, #231
	b.eq	.LBB22_26
	cmp	w9, #232
	b.eq	.LBB22_40
	cmp	w9, #235
	b.ne	.LBB22_48
	add	x11, x4, #1
	add	w8, w4, #1
	cmp	x11, x3
	b.hs	.LBB22_50
	ldrb	w11, [x2, x11]
	mov	x10, xzr
	mov	w9, wzr
	mov	w13, #2
	mov	w12, #1
	sub	w14, w11, #230
	cmp	w14, #11
	b.hi	.LBB22_65
	lsl	w14, w12, w14
	mov	w15, #4071
	tst	w14, w15
	b.eq	.LBB22_65
.LBB22_20:
	mov	x11, x10
	b	.LBB22_9
.LBB22_21:
	cmp	w9, #239
	b.eq	.LBB22_33
	cmp	w9, #240
	b.eq	.LBB22_41
	cmp	w9, #241
	b.ne	.LBB22_48
.LBB22_24:
	mov	x10, xzr
	mov	x11, xzr
	add	w8, w4, #1
.LBB22_25:
	mov	w12, #1
	mov	w13, #1
	b	.LBB22_9
.LBB22_26:
	subs	x9, x11, #1
	add	w8, w4, #1
	b.eq	.LBB22_63
	add	x10, x4, #1
	mov	w12, #149
	mov	w13, #32897
	madd	w12, w10, w12, w12
	movk	w13, #32896, lsl #16
	ldrb	w10, [x2, x10]
	mov	w14, #255
	umull	x13, w12, w13
	add	x12, x12, x13, lsr #39
	sub	w13, w12, w10
	bics	wzr, w14, w13
	b.eq	.LBB22_57
	mvn	w12, w12
	add	w10, w10, w12
	and	x14, x10, #0xff
	cmp	w14, #249
	b.hi	.LBB22_61
	sub	x9, x11, #2
	cmp	x9, x14
	b.lo	.LBB22_62
	mov	w8, #149
	mov	w9, #447
	ldr	x11, [x6]
	madd	w8, w4, w8, w9
	add	x9, x4, x2
	mov	x10, x14
	add	x9, x9, #2
.LBB22_31:
	mov	w12, #32897
	ldrb	w13, [x9], #1
	movk	w12, #32896, lsl #16
	add	x11, x5, x11, lsl #1
	mov	w15, #1
	umull	x12, w8, w12
	subs	x10, x10, #1
	strb	w15, [x11]
	add	x12, x8, x12, lsr #39
	add	w8, w8, #149
	mvn	w12, w12
	add	w12, w13, w12
	strb	w12, [x11, #1]
	ldr	x11, [x6]
	add	x11, x11, #1
	str	x11, [x6]
	b.ne	.LBB22_31
	mov	w12, wzr
	mov	w13, wzr
	mov	w9, wzr
	mov	w8, wzr
	add	x11, x14, #2
	mov	w10, #1
	b	.LBB22_9
.LBB22_33:
	mov	w19, #1
.LBB22_34:
	mov	x22, x2
	mov	x21, x4
	mov	x20, x5
	mov	x26, x6
	mov	x25, x0
	mov	x23, x3
	cmp	x3, #204
	str	xzr, [sp, #2376]
	str	xzr, [sp, #2368]
	b.hi	.LBB22_36
	movi	v0.2d, #0000000000000000
	strh	wzr, [sp, #320]
	add	x0, sp, #2368
	add	x6, sp, #16
	stp	q0, q0, [sp, #32]
	stp	q0, q0, [sp, #64]
	stp	q0, q0, [sp, #96]
	stp	q0, q0, [sp, #128]
	stp	q0, q0, [sp, #160]
	stp	q0, q0, [sp, #192]
	stp	q0, q0, [sp, #224]
	stp	q0, q0, [sp, #256]
	stp	q0, q0, [sp, #288]
	str	q0, [sp, #16]
	b	.LBB22_37
.LBB22_36:
	add	x0, sp, #16
	mov	x24, x1
	mov	w1, wzr
	mov	w2, #2337
	bl	memset
	add	x0, sp, #2368
	add	x6, sp, #16
	mov	w1, w24
.LBB22_37:
	mov	w2, w19
	mov	x3, x22
	mov	x4, x23
	mov	x5, x21
	mov	x7, x20
	str	x26, [sp]
	bl	"dm_words::c40::run::run_by"
	ldrb	w12, [sp, #2368]
	mov	x0, x25
	cbz	w12, .LBB22_39
	ldrb	w13, [sp, #2370]
	ldrb	w9, [sp, #2371]
	mov	x10, xzr
	ldrh	w8, [sp, #2372]
	b	.LBB22_8
.LBB22_39:
	ldr	x11, [sp, #2376]
	mov	w13, wzr
	mov	w9, wzr
	mov	w8, wzr
	mov	w10, #1
	b	.LBB22_9
.LBB22_40:
	ldr	x10, [x6]
	mov	w12, wzr
	mov	w13, wzr
	mov	w9, wzr
	mov	w8, wzr
	mov	w11, #1
	strh	wzr, [x5, x10, lsl #1]
	ldr	x10, [x6]
	add	x10, x10, #1
	str	x10, [x6]
	mov	w10, #1
	b	.LBB22_9
.LBB22_41:
	tst	w1, #0xff
	b.eq	.LBB22_54
	add	x10, x4, #1
	sub	x8, x3, x10
	cmp	x8, #3
	b.lo	.LBB22_77
.LBB22_43:
	add	x9, x2, x10
	mov	w12, #1
	ldrb	w13, [x9]
	lsr	w14, w13, #2
	cmp	w14, #31
	b.eq	.LBB22_76
	ldr	x15, [x6]
	ldrb	w11, [x9, #1]
	orr	w16, w14, #0x40
	cmp	w13, #124
	ldrb	w9, [x9, #2]
	add	x15, x5, x15, lsl #1
	csel	w16, w16, w14, lo
	lsr	w14, w11, #4
	strb	w12, [x15]
	bfi	w14, w13, #4, #2
	strb	w16, [x15, #1]
	ldr	x12, [x6]
	cmp	w14, #31
	add	x12, x12, #1
	str	x12, [x6]
	b.eq	.LBB22_75
	add	x15, x5, x12, lsl #1
	orr	w16, w14, #0x40
	mov	w12, #1
	lsr	w13, w9, #6
	csel	w14, w16, w14, lo
	strb	w12, [x15]
	strb	w14, [x15, #1]
	bfi	w13, w11, #2, #4
	ldr	x14, [x6]
	cmp	w13, #31
	add	x11, x14, #1
	str	x11, [x6]
	b.eq	.LBB22_64
	add	x11, x5, x11, lsl #1
	orr	w14, w13, #0x40
	and	w9, w9, #0x3f
	csel	w13, w14, w13, lo
	cmp	w9, #31
	strb	w12, [x11]
	strb	w13, [x11, #1]
	ldr	x11, [x6]
	add	x11, x11, #1
	str	x11, [x6]
	b.eq	.LBB22_64
	add	x11, x5, x11, lsl #1
	orr	w12, w9, #0x40
	mov	w13, #1
	csel	w9, w12, w9, lo
	sub	x8, x8, #3
	add	x10, x10, #3
	strb	w13, [x11]
	cmp	x8, #2
	strb	w9, [x11, #1]
	ldr	x9, [x6]
	add	x9, x9, #1
	str	x9, [x6]
	b.hi	.LBB22_43
	b	.LBB22_77
.LBB22_48:
	cmp	w9, #129
	b.hs	.LBB22_51
	ldr	x10, [x6]
	mov	w12, wzr
	mov	w13, wzr
	mov	w8, wzr
	sub	w9, w9, #1
	add	x11, x5, x10, lsl #1
	mov	w10, #1
	strb	w10, [x11]
	strb	w9, [x11, #1]
	b	.LBB22_53
.LBB22_50:
	mov	w9, wzr
	mov	x10, xzr
	mov	x11, xzr
	mov	w13, #6
	mov	w12, #1
	b	.LBB22_9
.LBB22_51:
	cmp	w9, #230
	b.hs	.LBB22_55
	add	w9, w9, #126
	mov	w10, #205
	mov	w12, wzr
	and	w11, w9, #0xff
	mov	w13, wzr
	mov	w8, wzr
	mul	w10, w11, w10
	ldr	x11, [x6]
	add	x11, x5, x11, lsl #1
	lsr	w14, w10, #11
	mov	w10, #1
	strb	w10, [x11]
	add	w15, w14, #48
	strb	w15, [x11, #1]
	mov	w15, #10
	ldr	x11, [x6]
	msub	w9, w14, w15, w9
	add	x11, x11, #1
	add	x14, x5, x11, lsl #1
	orr	w9, w9, #0x30
	str	x11, [x6]
	strb	w10, [x14]
	strb	w9, [x14, #1]
.LBB22_53:
	ldr	x9, [x6]
	mov	w11, #1
	add	x9, x9, #1
	str	x9, [x6]
	mov	w9, wzr
	b	.LBB22_9
.LBB22_54:
	mov	x10, xzr
	mov	x11, xzr
	add	w8, w4, #1
	mov	w9, #240
	b	.LBB22_25
.LBB22_55:
	cmp	w9, #235
	b.lo	.LBB22_24
.LBB22_56:
	mov	w13, wzr
	mov	w9, wzr
	mov	x10, xzr
	mov	x11, xzr
	add	w8, w4, #1
	mov	w12, #1
	b	.LBB22_9
.LBB22_57:
	subs	x8, x11, #2
	b.eq	.LBB22_74
	mov	w9, #149
	mov	w10, #447
	ldr	x13, [x6]
	madd	w9, w4, w9, w10
	add	x10, x4, x2
	add	x12, x10, #2
.LBB22_59:
	mov	w10, #32897
	ldrb	w14, [x12], #1
	movk	w10, #32896, lsl #16
	add	x13, x5, x13, lsl #1
	subs	x8, x8, #1
	umull	x10, w9, w10
	add	x10, x9, x10, lsr #39
	add	w9, w9, #149
	mvn	w15, w10
	mov	w10, #1
	add	w14, w14, w15
	strb	w10, [x13]
	strb	w14, [x13, #1]
	ldr	x13, [x6]
	add	x13, x13, #1
	str	x13, [x6]
	b.ne	.LBB22_59
	mov	w12, wzr
	mov	w13, wzr
	mov	w9, wzr
	b	.LBB22_9
.LBB22_61:
	cmp	x9, #1
	b.ne	.LBB22_69
.LBB22_62:
	mov	w9, wzr
.LBB22_63:
	mov	x10, xzr
	mov	x11, xzr
	mov	w13, #5
	mov	w12, #1
	b	.LBB22_9
.LBB22_64:
	mov	w12, #3
	b	.LBB22_76
.LBB22_65:
	cbz	w11, .LBB22_20
	cmp	w11, #129
	b.eq	.LBB22_20
	cmp	w11, #128
	mov	w10, #1
	b.hi	.LBB22_78
	ldr	x14, [x6]
	add	w11, w11, #127
	mov	w12, wzr
	mov	w13, wzr
	mov	w9, wzr
	mov	w8, wzr
	add	x14, x5, x14, lsl #1
	strb	w10, [x14]
	strb	w11, [x14, #1]
	ldr	x11, [x6]
	add	x11, x11, #1
	str	x11, [x6]
	mov	w11, #2
	b	.LBB22_9
.LBB22_69:
	add	x12, x4, #2
	mov	w13, #149
	mov	w15, #32897
	madd	w13, w12, w13, w13
	movk	w15, #32896, lsl #16
	mov	x10, xzr
	mov	w9, wzr
	umull	x16, w13, w15
	ldrb	w15, [x2, x12]
	add	x16, x13, x16, lsr #39
	mov	w13, #255
	sub	w12, w16, w15
	bic	w12, w13, w12
	mov	w13, #5
	cmp	w12, #249
	mov	w12, #1
	b.hi	.LBB22_20
	mov	w17, #250
	mvn	w16, w16
	sub	x11, x11, #3
	umull	x14, w14, w17
	add	w15, w15, w16
	add	x14, x14, w15, uxtb
	mov	x15, #-62250
	add	x14, x14, x15
	cmp	x11, x14
	mov	x11, x10
	b.lo	.LBB22_9
	mov	w8, #149
	mov	w9, #596
	ldr	x11, [x6]
	madd	w8, w4, w8, w9
	add	x9, x4, x2
	mov	x10, x14
	add	x9, x9, #3
.LBB22_72:
	mov	w12, #32897
	ldrb	w13, [x9], #1
	movk	w12, #32896, lsl #16
	add	x11, x5, x11, lsl #1
	mov	w15, #1
	umull	x12, w8, w12
	subs	x10, x10, #1
	strb	w15, [x11]
	add	x12, x8, x12, lsr #39
	add	w8, w8, #149
	mvn	w12, w12
	add	w12, w13, w12
	strb	w12, [x11, #1]
	ldr	x11, [x6]
	add	x11, x11, #1
	str	x11, [x6]
	b.ne	.LBB22_72
	mov	w12, wzr
	mov	w13, wzr
	mov	w9, wzr
	mov	w8, wzr
	add	x11, x14, #3
	mov	w10, #1
	b	.LBB22_9
.LBB22_74:
	mov	w12, wzr
	mov	w13, wzr
	mov	w9, wzr
	mov	w10, #1
	b	.LBB22_9
.LBB22_75:
	mov	w12, #2
.LBB22_76:
	add	x10, x12, x10
.LBB22_77:
	mov	w12, wzr
	mov	w13, wzr
	mov	w9, wzr
	mov	w8, wzr
	sub	x11, x10, x4
	and	x10, x1, #0xff
	b	.LBB22_9
.LBB22_78:
	mov	w9, wzr
	b	.LBB22_7
.Lfunc_end22:
	.size	"dm_words::reading::next_part", .Lfunc_end22-"dm_words::reading::next_part"
	.cfi_endproc

	.p2align	2
	.type	"dm_words::c40::run::run_by",@function
"dm_words::c40::run::run_by":
	.cfi_startproc
	add	x8, x5, #1
	subs	x11, x4, x8
	b.ne	.LBB23_2
	mov	x8, xzr
	mov	w11, #1
	b	.LBB23_102
.LBB23_2:
	ldr	x10, [sp]
	mov	x8, xzr
	mov	x9, xzr
	add	x12, x3, x5
	add	x13, x6, #1
.LBB23_3:
	add	x14, x12, x8
	ldrb	w14, [x14, #1]
	cmp	w14, #254
	b.eq	.LBB23_8
	add	x15, x8, #1
	cmp	x15, x11
	b.hs	.LBB23_7
	add	x15, x12, x8
	ldrb	w15, [x15, #2]
	orr	w14, w15, w14, lsl #8
	add	w15, w14, #1535
	and	w15, w15, #0xffff
	cmp	w15, #1536
	b.lo	.LBB23_9
	sub	w14, w14, #1
	mov	w15, #52429
	mov	w18, #2622
	and	w16, w14, #0xffff
	ubfx	w17, w14, #6, #10
	add	x8, x8, #2
	mul	w15, w16, w15
	mov	w16, #1639
	cmp	x8, x11
	mul	w17, w17, w18
	mov	w18, #40
	lsr	w15, w15, #21
	lsr	w17, w17, #16
	mul	w16, w15, w16
	msub	w14, w15, w18, w14
	lsr	w16, w16, #16
	msub	w16, w16, w18, w15
	add	x15, x13, x9
	add	x9, x9, #3
	sturb	w17, [x15, #-1]
	strb	w14, [x15, #1]
	strb	w16, [x15]
	b.lo	.LBB23_3
.LBB23_7:
	mov	w13, wzr
	mov	w11, #1
	b	.LBB23_10
.LBB23_8:
	mov	w13, wzr
	mov	w11, wzr
	b	.LBB23_10
.LBB23_9:
	mov	w11, #2
	mov	w13, #1
.LBB23_10:
	cbz	x9, .LBB23_97
	mov	x12, xzr
	b	.LBB23_15
.LBB23_12:
	lsl	w14, w14, #3
	mov	w15, #10765
	movk	w15, #8254, lsl #16
	lsr	w14, w15, w14
.LBB23_13:
	mov	w16, #1
	mov	w15, #1
.LBB23_14:
	ldr	x17, [x10]
	add	x12, x16, x12
	cmp	x12, x9
	add	x17, x7, x17, lsl #1
	strb	w15, [x17]
	strb	w14, [x17, #1]
	ldr	x14, [x10]
	add	x14, x14, #1
	str	x14, [x10]
	b.hs	.LBB23_97
.LBB23_15:
	ldrb	w14, [x6, x12]
	ands	w15, w2, #0xff
	b.eq	.LBB23_20
	cmp	w15, #1
	b.ne	.LBB23_31
	cmp	w14, #1
	b.gt	.LBB23_34
	cbz	w14, .LBB23_41
	cmp	w14, #1
	b.eq	.LBB23_23
	b	.LBB23_36
.LBB23_20:
	cmp	w14, #1
	b.gt	.LBB23_38
	cbz	w14, .LBB23_41
	cmp	w14, #1
	b.ne	.LBB23_32
.LBB23_23:
	add	x14, x12, #1
	cmp	x14, x9
	b.hs	.LBB23_97
	ldrb	w14, [x6, x14]
	cmp	w14, #27
	b.eq	.LBB23_51
	cmp	w14, #30
	b.ne	.LBB23_52
	add	x14, x12, #2
	cmp	x14, x9
	b.hs	.LBB23_100
	ldrb	w14, [x6, x14]
	tst	w2, #0xff
	b.eq	.LBB23_60
	cmp	w14, #1
	b.gt	.LBB23_68
	cbz	w14, .LBB23_74
	cmp	w14, #1
	b.eq	.LBB23_63
	b	.LBB23_70
.LBB23_31:
	cmp	w14, #4
	b.lo	.LBB23_12
.LBB23_32:
	cmp	w14, #14
	b.lo	.LBB23_37
	add	w14, w14, #51
	b	.LBB23_13
.LBB23_34:
	cmp	w14, #2
	b.eq	.LBB23_44
	cmp	w14, #3
	b.eq	.LBB23_40
.LBB23_36:
	cmp	w14, #14
	b.hs	.LBB23_54
.LBB23_37:
	add	w14, w14, #44
	b	.LBB23_13
.LBB23_38:
	cmp	w14, #2
	b.eq	.LBB23_48
	cmp	w14, #3
	b.ne	.LBB23_32
.LBB23_40:
	mov	w14, #32
	b	.LBB23_13
.LBB23_41:
	add	x14, x12, #1
	cmp	x14, x9
	b.hs	.LBB23_97
	ldrb	w14, [x6, x14]
	mov	w15, #1
	cmp	w14, #32
	b.hs	.LBB23_107
	mov	w16, #2
	b	.LBB23_14
.LBB23_44:
	add	x14, x12, #1
	cmp	x14, x9
	b.hs	.LBB23_97
	ldrb	w14, [x6, x14]
	cbz	w14, .LBB23_58
	cmp	w14, #26
	b.hi	.LBB23_57
	orr	w14, w14, #0x40
	b	.LBB23_59
.LBB23_48:
	add	x14, x12, #1
	cmp	x14, x9
	b.hs	.LBB23_97
	ldrb	w14, [x6, x14]
	mov	w15, #1
	cmp	w14, #32
	b.hs	.LBB23_107
	orr	w14, w14, #0x60
	mov	w16, #2
	b	.LBB23_14
.LBB23_51:
	mov	w15, wzr
	mov	w14, wzr
	mov	w16, #2
	b	.LBB23_14
.LBB23_52:
	cmp	w14, #14
	b.hi	.LBB23_55
	add	w14, w14, #33
	b	.LBB23_59
.LBB23_54:
	add	w14, w14, #83
	b	.LBB23_13
.LBB23_55:
	cmp	w14, #21
	b.hi	.LBB23_72
	add	w14, w14, #43
	b	.LBB23_59
.LBB23_57:
	cmp	w14, #31
	b.hi	.LBB23_104
.LBB23_58:
	add	w14, w14, #96
.LBB23_59:
	mov	w15, #1
	mov	w16, #2
	b	.LBB23_14
.LBB23_60:
	cmp	w14, #1
	b.gt	.LBB23_76
	cbz	w14, .LBB23_74
	cmp	w14, #1
	b.ne	.LBB23_85
.LBB23_63:
	add	x14, x12, #3
	cmp	x14, x9
	b.hs	.LBB23_100
	ldrb	w14, [x6, x14]
	cmp	w14, #27
	b.eq	.LBB23_105
	cmp	w14, #30
	b.eq	.LBB23_105
	cmp	w14, #14
	b.hi	.LBB23_83
	add	w14, w14, #33
	b	.LBB23_94
.LBB23_68:
	cmp	w14, #2
	b.eq	.LBB23_79
	cmp	w14, #3
	b.eq	.LBB23_78
.LBB23_70:
	cmp	w14, #14
	b.lo	.LBB23_86
	add	w14, w14, #83
	b	.LBB23_96
.LBB23_72:
	cmp	w14, #27
	mov	w15, #1
	b.hs	.LBB23_107
	add	w14, w14, #69
	mov	w16, #2
	b	.LBB23_14
.LBB23_74:
	add	x14, x12, #3
	cmp	x14, x9
	b.hs	.LBB23_100
	ldrb	w14, [x6, x14]
	cmp	w14, #31
	b.ls	.LBB23_94
	b	.LBB23_106
.LBB23_76:
	cmp	w14, #2
	b.eq	.LBB23_87
	cmp	w14, #3
	b.ne	.LBB23_85
.LBB23_78:
	mov	w14, #32
	b	.LBB23_96
.LBB23_79:
	add	x14, x12, #3
	cmp	x14, x9
	b.hs	.LBB23_100
	ldrb	w14, [x6, x14]
	cbz	w14, .LBB23_93
	cmp	w14, #26
	b.hi	.LBB23_92
	orr	w14, w14, #0x40
	b	.LBB23_94
.LBB23_83:
	cmp	w14, #21
	b.hi	.LBB23_90
	add	w14, w14, #43
	b	.LBB23_94
.LBB23_85:
	cmp	w14, #14
	b.hs	.LBB23_95
.LBB23_86:
	add	w14, w14, #44
	b	.LBB23_96
.LBB23_87:
	add	x14, x12, #3
	cmp	x14, x9
	b.hs	.LBB23_100
	ldrb	w14, [x6, x14]
	cmp	w14, #32
	b.hs	.LBB23_106
	orr	w14, w14, #0x60
	b	.LBB23_94
.LBB23_90:
	cmp	w14, #27
	b.hs	.LBB23_106
	add	w14, w14, #69
	b	.LBB23_94
.LBB23_92:
	cmp	w14, #31
	b.hi	.LBB23_106
.LBB23_93:
	add	w14, w14, #96
.LBB23_94:
	eor	w14, w14, #0xffffff80
	mov	w15, #1
	mov	w16, #4
	b	.LBB23_14
.LBB23_95:
	add	w14, w14, #51
.LBB23_96:
	eor	w14, w14, #0xffffff80
	mov	w15, #1
	mov	w16, #3
	b	.LBB23_14
.LBB23_97:
	cbz	w13, .LBB23_102
.LBB23_98:
	add	w8, w8, w5
	mov	x9, xzr
	mov	w12, #3
.LBB23_99:
	add	w10, w8, #2
	mov	w13, #1
	b	.LBB23_103
.LBB23_100:
	tbnz	w13, #0, .LBB23_98
	tst	w1, #0xff
	b.eq	.LBB23_108
.LBB23_102:
	cmp	w11, #0
	mov	w13, wzr
	mov	w10, wzr
	cinc	x8, x8, eq
	mov	w12, wzr
	add	x9, x8, #1
.LBB23_103:
	strh	w13, [x0]
	strb	w12, [x0, #2]
	strb	wzr, [x0, #3]
	strh	w10, [x0, #4]
	str	x9, [x0, #8]
	ret
.LBB23_104:
	mov	w15, #1
	b	.LBB23_107
.LBB23_105:
	add	w8, w12, #1
	mov	w10, #43691
	mov	x9, xzr
	and	w8, w8, #0xffff
	mov	w12, #2
	mul	w8, w8, w10
	lsr	w8, w8, #17
	add	w8, w5, w8, lsl #1
	b	.LBB23_99
.LBB23_106:
	mov	w15, #3
.LBB23_107:
	add	w8, w15, w12
	mov	w10, #43691
	mov	x9, xzr
	and	w8, w8, #0xffff
	mov	w12, #4
	mul	w8, w8, w10
	lsr	w8, w8, #17
	add	w8, w5, w8, lsl #1
	b	.LBB23_99
.LBB23_108:
	add	w8, w12, #1
	mov	w10, #43691
	mov	x9, xzr
	and	w8, w8, #0xffff
	mov	w12, #6
	mul	w8, w8, w10
	lsr	w8, w8, #17
	add	w8, w5, w8, lsl #1
	b	.LBB23_99
.Lfunc_end23:
	.size	"dm_words::c40::run::run_by", .Lfunc_end23-"dm_words::c40::run::run_by"
	.cfi_endproc

	.p2align	2
	.type	"ecc200_calls::inspection::find_designators::<=779>",@function
"ecc200_calls::inspection::find_designators::<=779>":
	.cfi_startproc
	str	x29, [sp, #-48]!
	.cfi_def_cfa_offset 48
	stp	x30, x21, [sp, #16]
	stp	x20, x19, [sp, #32]
	.cfi_offset w19, -8
	.cfi_offset w20, -16
	.cfi_offset w21, -24
	.cfi_offset w30, -32
	.cfi_offset w29, -48
	sub	sp, sp, #3072
	.cfi_def_cfa_offset 3120
	str	xzr, [sp]
	sub	sp, sp, #3072
	.cfi_def_cfa_offset 6192
	str	xzr, [sp], #-96
	.cfi_def_cfa_offset 6288
	mov	x20, x2
	mov	x21, x1
	mov	x19, x0
	add	x0, sp, #8
	mov	w1, wzr
	mov	w2, #6232
	bl	memset
	add	x2, sp, #8
	mov	x0, x21
	mov	x1, x20
	bl	"dm_words::contents::designation::designations_to"
	strh	w0, [x19, #18]
	cbz	x0, .LBB24_7
	cmp	x0, #9
	b.hs	.LBB24_3
	mov	x8, xzr
	b	.LBB24_5
.LBB24_3:
	ands	x8, x0, #0x7
	mov	w9, #8
	add	x10, x19, #20
	csel	x8, x9, x8, eq
	add	x9, sp, #8
	sub	x8, x0, x8
	add	x9, x9, #32
	mov	x11, x8
.LBB24_4:
	ldr	h0, [x9]
	add	x12, x9, #8
	ldur	h1, [x9, #-32]
	add	x13, x9, #24
	ldur	q2, [x9, #4]
	ldur	q4, [x9, #-28]
	ld1	{ v0.h }[1], [x12]
	add	x12, x9, #16
	subs	x11, x11, #8
	ld1	{ v0.h }[2], [x12]
	sub	x12, x9, #24
	ld1	{ v1.h }[1], [x12]
	sub	x12, x9, #16
	ld1	{ v0.h }[3], [x13]
	add	x13, x10, #64
	ld1	{ v1.h }[2], [x12]
	sub	x12, x9, #8
	ushll	v3.4s, v0.4h, #0
	ldur	q0, [x9, #-12]
	mov	v2.s[1], v2.s[2]
	ld1	{ v1.h }[3], [x12]
	add	x12, x9, #20
	ushll	v6.4s, v1.4h, #0
	ld1	{ v2.s }[2], [x12]
	uzp1	v5.4s, v4.4s, v0.4s
	add	x12, x9, #28
	add	x9, x9, #64
	ld1	{ v2.s }[3], [x12]
	st2	{ v5.4s, v6.4s }, [x10], #32
	st2	{ v2.4s, v3.4s }, [x10]
	mov	x10, x13
	b.ne	.LBB24_4
.LBB24_5:
	lsl	x9, x8, #3
	add	x10, sp, #8
	sub	x8, x0, x8
	add	x11, x9, x19
	add	x10, x9, x10
	add	x9, x11, #24
	add	x10, x10, #4
.LBB24_6:
	ldr	w11, [x10]
	ldurh	w12, [x10, #-4]
	subs	x8, x8, #1
	add	x10, x10, #8
	stp	w11, w12, [x9, #-4]
	add	x9, x9, #8
	b.ne	.LBB24_6
.LBB24_7:
	add	sp, sp, #1, lsl #12
	.cfi_def_cfa_offset 2192
	add	sp, sp, #2144
	.cfi_def_cfa_offset 48
	ldp	x20, x19, [sp, #32]
	ldp	x30, x21, [sp, #16]
	ldr	x29, [sp], #48
	.cfi_def_cfa_offset 0
	.cfi_restore w19
	.cfi_restore w20
	.cfi_restore w21
	.cfi_restore w30
	.cfi_restore w29
	ret
.Lfunc_end24:
	.size	"ecc200_calls::inspection::find_designators::<=779>", .Lfunc_end24-"ecc200_calls::inspection::find_designators::<=779>"
	.cfi_endproc

	.p2align	2
	.type	"ecc200_calls::inspection::inspect_given::<=52,=288,=415,=102>",@function
"ecc200_calls::inspection::inspect_given::<=52,=288,=415,=102>":
	.cfi_startproc
	stp	x29, x30, [sp, #-80]!
	.cfi_def_cfa_offset 80
	stp	x26, x25, [sp, #16]
	stp	x24, x23, [sp, #32]
	stp	x22, x21, [sp, #48]
	stp	x20, x19, [sp, #64]
	.cfi_offset w19, -8
	.cfi_offset w20, -16
	.cfi_offset w21, -24
	.cfi_offset w22, -32
	.cfi_offset w23, -40
	.cfi_offset w24, -48
	.cfi_offset w25, -56
	.cfi_offset w26, -64
	.cfi_offset w30, -72
	.cfi_offset w29, -80
	sub	sp, sp, #1952
	.cfi_def_cfa_offset 2032
	str	xzr, [sp]
	mov	x21, x2
	mov	x23, x1
	ldrh	w8, [x4, #18]
	ldur	q0, [x4, #2]
	mov	x24, x0
	ldrh	w25, [x4]
	ldrb	w26, [x4, #20]
	add	x9, sp, #723
	strh	w8, [sp, #994]
	add	x8, sp, #976
	mov	w1, wzr
	add	x0, x8, #20
	mov	w2, #844
	mov	x19, x5
	mov	x22, x4
	mov	x20, x3
	stur	q0, [x9, #255]
	bl	memset
	movi	v0.2d, #0000000000000000
	add	x0, sp, #976
	mov	x1, x24
	mov	x2, x23
	strh	w25, [sp, #976]
	str	q0, [sp, #1840]
	str	q0, [sp, #1856]
	str	q0, [sp, #1872]
	str	q0, [sp, #1888]
	str	q0, [sp, #1904]
	str	q0, [sp, #1920]
	str	q0, [sp, #1936]
	bl	"ecc200_calls::modules::put_modules::<=52>"
	tbz	w26, #0, .LBB25_2
	ldurh	w8, [x22, #18]
	ldur	q0, [x22, #2]
	mov	w1, wzr
	mov	w2, #956
	strh	w25, [sp]
	strh	w8, [sp, #18]
	mov	x8, sp
	add	x0, x8, #20
	stur	q0, [sp, #2]
	bl	memset
	mov	x0, sp
	mov	x1, x21
	mov	x2, x20
	bl	"ecc200_calls::modules::put_modules::<=52>"
	add	x0, sp, #976
	mov	x2, sp
	mov	w1, #1
	b	.LBB25_3
.LBB25_2:
	add	x0, sp, #976
	mov	w1, wzr
	mov	x2, xzr
.LBB25_3:
	mov	x3, x19
	bl	"ecc200_calls::inspection::inspect_symbol::<=52,=288>"
	add	sp, sp, #1952
	.cfi_def_cfa_offset 80
	ldp	x20, x19, [sp, #64]
	ldp	x22, x21, [sp, #48]
	ldp	x24, x23, [sp, #32]
	ldp	x26, x25, [sp, #16]
	ldp	x29, x30, [sp], #80
	.cfi_def_cfa_offset 0
	.cfi_restore w19
	.cfi_restore w20
	.cfi_restore w21
	.cfi_restore w22
	.cfi_restore w23
	.cfi_restore w24
	.cfi_restore w25
	.cfi_restore w26
	.cfi_restore w30
	.cfi_restore w29
	ret
.Lfunc_end25:
	.size	"ecc200_calls::inspection::inspect_given::<=52,=288,=415,=102>", .Lfunc_end25-"ecc200_calls::inspection::inspect_given::<=52,=288,=415,=102>"
	.cfi_endproc

	.section	.rodata.cst16,"aM",@progbits,16
	.p2align	4, 0x0
.LCPI26_0:
	.byte	1
	.byte	2
	.byte	4
	.byte	8
	.byte	16
	.byte	32
	.byte	64
	.byte	128
	.byte	1
	.byte	2
	.byte	4
	.byte	8
	.byte	16
	.byte	32
	.byte	64
	.byte	128
	.text
	.p2align	2
	.type	"ecc200_calls::modules::put_modules::<=52>",@function
"ecc200_calls::modules::put_modules::<=52>":
	.cfi_startproc
	ldrh	w8, [x0]
	cbz	x8, .LBB26_77
	stp	x24, x23, [sp, #-48]!
	.cfi_def_cfa_offset 48
	stp	x22, x21, [sp, #16]
	stp	x20, x19, [sp, #32]
	.cfi_offset w19, -8
	.cfi_offset w20, -16
	.cfi_offset w21, -24
	.cfi_offset w22, -32
	.cfi_offset w23, -40
	.cfi_offset w24, -48
	ldrh	w10, [x0, #2]
	add	x14, x2, x1
	mov	x9, xzr
	add	x11, x0, #32
	add	x12, x0, #864
	sub	x13, x2, #64
	sub	x14, x14, #1
	sub	x15, x2, #80
	sub	x16, x2, #96
	sub	x17, x2, #112
	sub	x18, x2, #16
	sub	x0, x2, #32
	sub	x3, x2, #48
	sub	x4, x2, #128
	mov	x5, x2
	b	.LBB26_6
.LBB26_2:
	mov	x19, xzr
.LBB26_3:
	mov	x20, xzr
.LBB26_4:
	mov	w6, wzr
.LBB26_5:
	add	x7, x11, x9, lsl #4
	sub	x13, x13, x10
	sub	x15, x15, x10
	sub	x16, x16, x10
	sub	x17, x17, x10
	sub	x5, x5, x10
	stp	x19, x20, [x7]
	sub	x18, x18, x10
	sub	x0, x0, x10
	strh	w6, [x12, x9, lsl #1]
	add	x9, x9, #1
	sub	x3, x3, x10
	cmp	x9, x8
	sub	x4, x4, x10
	b.eq	.LBB26_76
.LBB26_6:
	mul	x19, x9, x10
	sub	x7, x2, x19
	add	x6, x1, x19
	cmp	x7, #63
	b.hi	.LBB26_11
	cbz	w10, .LBB26_2
	cmp	x7, #15
	b.hi	.LBB26_15
	cmp	x2, x19
	b.ne	.LBB26_17
	mov	w21, wzr
	b	.LBB26_19
.LBB26_11:
	ldp	q1, q0, [x6]
	adrp	x19, .LCPI26_0
	ldp	q2, q3, [x6, #32]
	cmp	w10, #65
	cmtst	v0.16b, v0.16b, v0.16b
	cmtst	v1.16b, v1.16b, v1.16b
	cmtst	v2.16b, v2.16b, v2.16b
	cmtst	v3.16b, v3.16b, v3.16b
	cmlt	v4.16b, v0.16b, #0
	ldr	q0, [x19, :lo12:.LCPI26_0]
	cmlt	v1.16b, v1.16b, #0
	cmlt	v2.16b, v2.16b, #0
	cmlt	v3.16b, v3.16b, #0
	and	v4.16b, v4.16b, v0.16b
	and	v1.16b, v1.16b, v0.16b
	and	v2.16b, v2.16b, v0.16b
	and	v3.16b, v3.16b, v0.16b
	ext	v5.16b, v4.16b, v4.16b, #8
	ext	v6.16b, v1.16b, v1.16b, #8
	zip1	v4.16b, v4.16b, v5.16b
	ext	v5.16b, v2.16b, v2.16b, #8
	zip1	v1.16b, v1.16b, v6.16b
	ext	v6.16b, v3.16b, v3.16b, #8
	addv	h4, v4.8h
	zip1	v2.16b, v2.16b, v5.16b
	addv	h1, v1.8h
	zip1	v3.16b, v3.16b, v6.16b
	fmov	w19, s4
	fmov	w20, s1
	addv	h2, v2.8h
	addv	h1, v3.8h
	lsl	w19, w19, #16
	bfxil	x19, x20, #0, #16
	fmov	w20, s2
	orr	x19, x19, x20, lsl #32
	fmov	w20, s1
	orr	x19, x19, x20, lsl #48
	b.lo	.LBB26_3
	sub	x20, x7, #64
	cmp	x20, #15
	b.hi	.LBB26_16
	cmp	x7, #64
	b.ne	.LBB26_25
	mov	w20, wzr
	b	.LBB26_27
.LBB26_15:
	ldr	q0, [x6]
	adrp	x19, .LCPI26_0
	ldr	q1, [x19, :lo12:.LCPI26_0]
	cmeq	v0.16b, v0.16b, #0
	bic	v0.16b, v1.16b, v0.16b
	ext	v1.16b, v0.16b, v0.16b, #8
	zip1	v0.16b, v0.16b, v1.16b
	addv	h0, v0.8h
	fmov	w21, s0
	b	.LBB26_19
.LBB26_16:
	ldr	q1, [x6, #64]
	cmeq	v1.16b, v1.16b, #0
	bic	v1.16b, v0.16b, v1.16b
	ext	v2.16b, v1.16b, v1.16b, #8
	zip1	v1.16b, v1.16b, v2.16b
	addv	h1, v1.8h
	fmov	w20, s1
	b	.LBB26_27
.LBB26_17:
	mov	w21, wzr
	mov	x19, x14
	mov	x20, x5
.LBB26_18:
	ldrb	w22, [x19], #-1
	cmp	w22, #0
	cset	w22, ne
	subs	x20, x20, #1
	orr	w21, w22, w21, lsl #1
	b.ne	.LBB26_18
.LBB26_19:
	cmp	w10, #17
	b.lo	.LBB26_23
	sub	x19, x7, #16
	cmp	x19, #16
	b.hs	.LBB26_24
	cmp	x7, #16
	b.ne	.LBB26_32
	mov	w19, wzr
	b	.LBB26_34
.LBB26_23:
	mov	x20, xzr
	and	x19, x21, #0xffff
	b	.LBB26_67
.LBB26_24:
	ldr	q0, [x6, #16]
	adrp	x19, .LCPI26_0
	ldr	q1, [x19, :lo12:.LCPI26_0]
	cmeq	v0.16b, v0.16b, #0
	bic	v0.16b, v1.16b, v0.16b
	ext	v1.16b, v0.16b, v0.16b, #8
	zip1	v0.16b, v0.16b, v1.16b
	addv	h0, v0.8h
	fmov	w19, s0
	b	.LBB26_34
.LBB26_25:
	mov	w20, wzr
	mov	x21, x14
	mov	x22, x13
.LBB26_26:
	ldrb	w23, [x21], #-1
	cmp	w23, #0
	cset	w23, ne
	subs	x22, x22, #1
	orr	w20, w23, w20, lsl #1
	b.ne	.LBB26_26
.LBB26_27:
	cmp	w10, #81
	and	x20, x20, #0xffff
	b.lo	.LBB26_67
	sub	x21, x7, #80
	cmp	x21, #16
	b.hs	.LBB26_31
	cmp	x7, #80
	b.ne	.LBB26_39
	mov	w21, wzr
	b	.LBB26_41
.LBB26_31:
	ldr	q1, [x6, #80]
	cmeq	v1.16b, v1.16b, #0
	bic	v1.16b, v0.16b, v1.16b
	ext	v2.16b, v1.16b, v1.16b, #8
	zip1	v1.16b, v1.16b, v2.16b
	addv	h1, v1.8h
	fmov	w21, s1
	b	.LBB26_41
.LBB26_32:
	mov	w19, wzr
	mov	x20, x14
	mov	x22, x18
.LBB26_33:
	ldrb	w23, [x20], #-1
	cmp	w23, #0
	cset	w23, ne
	subs	x22, x22, #1
	orr	w19, w23, w19, lsl #1
	b.ne	.LBB26_33
.LBB26_34:
	lsl	w19, w19, #16
	cmp	w10, #33
	bfxil	x19, x21, #0, #16
	b.lo	.LBB26_66
	sub	x20, x7, #32
	cmp	x20, #16
	b.hs	.LBB26_38
	cmp	x7, #32
	b.ne	.LBB26_46
	mov	w20, wzr
	b	.LBB26_48
.LBB26_38:
	ldr	q0, [x6, #32]
	adrp	x20, .LCPI26_0
	ldr	q1, [x20, :lo12:.LCPI26_0]
	cmeq	v0.16b, v0.16b, #0
	bic	v0.16b, v1.16b, v0.16b
	ext	v1.16b, v0.16b, v0.16b, #8
	zip1	v0.16b, v0.16b, v1.16b
	addv	h0, v0.8h
	fmov	w20, s0
	b	.LBB26_48
.LBB26_39:
	mov	w21, wzr
	mov	x22, x14
	mov	x23, x15
.LBB26_40:
	ldrb	w24, [x22], #-1
	cmp	w24, #0
	cset	w24, ne
	subs	x23, x23, #1
	orr	w21, w24, w21, lsl #1
	b.ne	.LBB26_40
.LBB26_41:
	lsl	w21, w21, #16
	cmp	w10, #97
	orr	x20, x21, x20
	b.lo	.LBB26_67
	sub	x21, x7, #96
	cmp	x21, #16
	b.hs	.LBB26_45
	cmp	x7, #96
	b.ne	.LBB26_53
	mov	w21, wzr
	b	.LBB26_55
.LBB26_45:
	ldr	q1, [x6, #96]
	cmeq	v1.16b, v1.16b, #0
	bic	v1.16b, v0.16b, v1.16b
	ext	v2.16b, v1.16b, v1.16b, #8
	zip1	v1.16b, v1.16b, v2.16b
	addv	h1, v1.8h
	fmov	w21, s1
	b	.LBB26_55
.LBB26_46:
	mov	w20, wzr
	mov	x21, x14
	mov	x22, x0
.LBB26_47:
	ldrb	w23, [x21], #-1
	cmp	w23, #0
	cset	w23, ne
	subs	x22, x22, #1
	orr	w20, w23, w20, lsl #1
	b.ne	.LBB26_47
.LBB26_48:
	and	w20, w20, #0xffff
	cmp	w10, #49
	orr	x19, x19, x20, lsl #32
	b.lo	.LBB26_66
	sub	x20, x7, #48
	cmp	x20, #16
	b.hs	.LBB26_52
	cmp	x7, #48
	b.ne	.LBB26_59
	mov	w20, wzr
	b	.LBB26_61
.LBB26_52:
	ldr	q0, [x6, #48]
	adrp	x20, .LCPI26_0
	ldr	q1, [x20, :lo12:.LCPI26_0]
	cmeq	v0.16b, v0.16b, #0
	bic	v0.16b, v1.16b, v0.16b
	ext	v1.16b, v0.16b, v0.16b, #8
	zip1	v0.16b, v0.16b, v1.16b
	addv	h0, v0.8h
	fmov	w20, s0
	b	.LBB26_61
.LBB26_53:
	mov	w21, wzr
	mov	x22, x14
	mov	x23, x16
.LBB26_54:
	ldrb	w24, [x22], #-1
	cmp	w24, #0
	cset	w24, ne
	subs	x23, x23, #1
	orr	w21, w24, w21, lsl #1
	b.ne	.LBB26_54
.LBB26_55:
	and	w21, w21, #0xffff
	cmp	w10, #113
	orr	x20, x20, x21, lsl #32
	b.lo	.LBB26_67
	sub	x21, x7, #112
	cmp	x21, #16
	b.hs	.LBB26_65
	cmp	x7, #112
	b.ne	.LBB26_73
	mov	w21, wzr
	b	.LBB26_75
.LBB26_59:
	mov	w20, wzr
	mov	x21, x14
	mov	x22, x3
.LBB26_60:
	ldrb	w23, [x21], #-1
	cmp	w23, #0
	cset	w23, ne
	subs	x22, x22, #1
	orr	w20, w23, w20, lsl #1
	b.ne	.LBB26_60
.LBB26_61:
	orr	x19, x19, x20, lsl #48
	cmp	w10, #65
	b.lo	.LBB26_66
	ldr	q0, [x6, #64]
	adrp	x20, .LCPI26_0
	cmp	w10, #81
	cmeq	v1.16b, v0.16b, #0
	ldr	q0, [x20, :lo12:.LCPI26_0]
	bic	v1.16b, v0.16b, v1.16b
	ext	v2.16b, v1.16b, v1.16b, #8
	zip1	v1.16b, v1.16b, v2.16b
	addv	h1, v1.8h
	umov	w20, v1.h[0]
	b.lo	.LBB26_67
	ldr	q1, [x6, #80]
	cmp	w10, #97
	cmeq	v1.16b, v1.16b, #0
	bic	v1.16b, v0.16b, v1.16b
	ext	v2.16b, v1.16b, v1.16b, #8
	zip1	v1.16b, v1.16b, v2.16b
	addv	h1, v1.8h
	fmov	w21, s1
	lsl	w21, w21, #16
	orr	x20, x21, x20
	b.lo	.LBB26_67
	ldr	q1, [x6, #96]
	cmp	w10, #113
	cmeq	v1.16b, v1.16b, #0
	bic	v1.16b, v0.16b, v1.16b
	ext	v2.16b, v1.16b, v1.16b, #8
	zip1	v1.16b, v1.16b, v2.16b
	addv	h1, v1.8h
	fmov	w21, s1
	orr	x20, x20, x21, lsl #32
	b.lo	.LBB26_67
.LBB26_65:
	ldr	q1, [x6, #112]
	cmeq	v1.16b, v1.16b, #0
	bic	v0.16b, v0.16b, v1.16b
	ext	v1.16b, v0.16b, v0.16b, #8
	zip1	v0.16b, v0.16b, v1.16b
	addv	h0, v0.8h
	fmov	w21, s0
	b	.LBB26_75
.LBB26_66:
	mov	x20, xzr
.LBB26_67:
	cmp	w10, #129
	b.lo	.LBB26_4
	sub	x7, x7, #128
	cmp	x7, #15
	b.hi	.LBB26_72
	mov	w6, wzr
	cbz	x7, .LBB26_5
	mov	x7, x14
	mov	x21, x4
.LBB26_71:
	ldrb	w22, [x7], #-1
	cmp	w22, #0
	cset	w22, ne
	subs	x21, x21, #1
	orr	w6, w22, w6, lsl #1
	b.ne	.LBB26_71
	b	.LBB26_5
.LBB26_72:
	ldr	q0, [x6, #128]
	adrp	x6, .LCPI26_0
	ldr	q1, [x6, :lo12:.LCPI26_0]
	cmeq	v0.16b, v0.16b, #0
	bic	v0.16b, v1.16b, v0.16b
	ext	v1.16b, v0.16b, v0.16b, #8
	zip1	v0.16b, v0.16b, v1.16b
	addv	h0, v0.8h
	fmov	w6, s0
	b	.LBB26_5
.LBB26_73:
	mov	w21, wzr
	mov	x22, x14
	mov	x23, x17
.LBB26_74:
	ldrb	w24, [x22], #-1
	cmp	w24, #0
	cset	w24, ne
	subs	x23, x23, #1
	orr	w21, w24, w21, lsl #1
	b.ne	.LBB26_74
.LBB26_75:
	orr	x20, x20, x21, lsl #48
	b	.LBB26_67
.LBB26_76:
	ldp	x20, x19, [sp, #32]
	ldp	x22, x21, [sp, #16]
	ldp	x24, x23, [sp], #48
	.cfi_def_cfa_offset 0
	.cfi_restore w19
	.cfi_restore w20
	.cfi_restore w21
	.cfi_restore w22
	.cfi_restore w23
	.cfi_restore w24
.LBB26_77:
	ret
.Lfunc_end26:
	.size	"ecc200_calls::modules::put_modules::<=52>", .Lfunc_end26-"ecc200_calls::modules::put_modules::<=52>"
	.cfi_endproc

	.p2align	2
	.type	"ecc200_calls::inspection::inspect_symbol::<=52,=288>",@function
"ecc200_calls::inspection::inspect_symbol::<=52,=288>":
	.cfi_startproc
	stp	x29, x30, [sp, #-80]!
	.cfi_def_cfa_offset 80
	stp	x26, x25, [sp, #16]
	stp	x24, x23, [sp, #32]
	stp	x22, x21, [sp, #48]
	stp	x20, x19, [sp, #64]
	.cfi_offset w19, -8
	.cfi_offset w20, -16
	.cfi_offset w21, -24
	.cfi_offset w22, -32
	.cfi_offset w23, -40
	.cfi_offset w24, -48
	.cfi_offset w25, -56
	.cfi_offset w26, -64
	.cfi_offset w30, -72
	.cfi_offset w29, -80
	sub	sp, sp, #848
	.cfi_def_cfa_offset 928
	.cfi_remember_state
	movi	v0.2d, #0000000000000000
	ldur	x8, [x0, #4]
	str	wzr, [sp, #836]
	ldrh	w9, [x0, #12]
	mov	x22, sp
	str	xzr, [sp, #320]
	add	x21, x22, #20
	add	x20, x22, #328
	ldrh	w24, [x0]
	strh	w9, [sp, #320]
	ldrh	w25, [x0, #2]
	mov	x19, x3
	stp	q0, q0, [sp]
	stur	x8, [sp, #4]
	stp	q0, q0, [sp, #32]
	stp	q0, q0, [sp, #64]
	stp	q0, q0, [sp, #96]
	stp	q0, q0, [sp, #128]
	stp	q0, q0, [sp, #160]
	stp	q0, q0, [sp, #192]
	stp	q0, q0, [sp, #224]
	stp	q0, q0, [sp, #256]
	stp	q0, q0, [sp, #288]
	str	x8, [sp, #312]
	ldr	w8, [x0, #16]
	strh	w9, [sp, #12]
	add	x9, x0, #32
	str	w8, [sp, #832]
	ldr	x8, [sp, #832]
	stp	q0, q0, [x21, #240]
	str	q0, [x21, #272]
	stur	q0, [sp, #20]
	stur	q0, [sp, #36]
	stur	q0, [sp, #52]
	stur	q0, [sp, #68]
	stur	q0, [sp, #84]
	stur	q0, [sp, #100]
	stur	q0, [sp, #116]
	stur	q0, [x22, #132]
	stur	q0, [x22, #148]
	stur	q0, [x22, #164]
	stur	q0, [x22, #180]
	stur	q0, [x22, #196]
	stur	q0, [x22, #212]
	stur	q0, [x22, #228]
	stur	q0, [x22, #244]
	stp	q0, q0, [x20]
	stp	q0, q0, [x20, #32]
	stp	q0, q0, [x20, #64]
	stp	q0, q0, [x20, #96]
	stp	q0, q0, [x20, #128]
	stp	q0, q0, [x20, #160]
	stp	q0, q0, [x20, #192]
	stp	q0, q0, [x20, #224]
	stp	q0, q0, [x20, #256]
	stp	q0, q0, [x20, #288]
	stp	q0, q0, [x20, #320]
	ldr	q0, [x0]
	str	x8, [sp, #768]
	add	x8, x0, #864
	str	x9, [sp, #776]
	mov	w9, #52
	str	x8, [sp, #792]
	add	x8, x22, #308
	str	q0, [sp, #816]
	str	q0, [sp, #752]
	str	x9, [sp, #784]
	str	x9, [sp, #800]
	tbz	w1, #0, .LBB27_11
	ldr	w9, [x2, #16]
	ldr	x11, [x0]
	mov	w10, #52
	ldr	q0, [x2]
	ldrh	w23, [sp, #766]
	mov	w1, #1
	str	w9, [sp, #704]
	add	x9, x2, #32
	str	x9, [sp, #712]
	add	x9, x2, #864
	add	x2, sp, #688
	str	x9, [sp, #728]
	ldur	x9, [x0, #6]
	add	x0, sp, #752
	str	x11, [x8]
	stur	x9, [x8, #6]
	ldr	w8, [sp, #768]
	str	q0, [sp, #688]
	str	wzr, [sp, #708]
	str	x10, [sp, #720]
	str	x10, [sp, #736]
	stur	x9, [sp, #6]
	str	x11, [sp]
	strh	w23, [sp, #14]
	str	w8, [sp, #16]
	strh	w23, [sp, #322]
	str	w8, [sp, #324]
	bl	"dm_layout::symbols::border::border_faults"
	ldrh	w8, [sp, #764]
	strh	w0, [sp, #672]
	add	x0, sp, #752
	mov	x1, x21
	add	x22, x22, #624
	add	w8, w8, w23
	and	w26, w8, #0xffff
	and	x23, x8, #0xffff
	bl	"dm_layout::symbols::placing::lift_to"
	cmp	w26, #309
	b.lo	.LBB27_12
	and	x10, x23, #0xc
	and	x9, x23, #0xfff0
	mov	x11, sp
	and	x8, x23, #0xfff0
	and	x12, x23, #0xfff0
.LBB27_3:
	ldur	q0, [x11, #20]
	add	x13, x11, #328
	subs	x12, x12, #16
	add	x11, x11, #16
	str	q0, [x13]
	b.ne	.LBB27_3
	cmp	x9, x23
	b.eq	.LBB27_13
	cbz	x10, .LBB27_9
	and	x8, x23, #0xfffc
	mov	x11, sp
	sub	x10, x8, x9
	add	x9, x11, x9
.LBB27_7:
	ldr	w11, [x9, #20]
	subs	x10, x10, #4
	str	w11, [x9, #328]
	add	x9, x9, #4
	b.ne	.LBB27_7
	cmp	x8, x23
	b.eq	.LBB27_13
.LBB27_9:
	mov	x10, sp
	sub	x9, x23, x8
	add	x8, x10, x8
.LBB27_10:
	ldrb	w10, [x8, #20]
	subs	x9, x9, #1
	strb	w10, [x8, #328]
	add	x8, x8, #1
	b.ne	.LBB27_10
	b	.LBB27_13
.LBB27_11:
	ldr	x9, [x0]
	ldur	x10, [x0, #6]
	add	x0, sp, #752
	mov	w1, wzr
	mov	x2, xzr
	str	x9, [x8]
	stur	x10, [x8, #6]
	ldrh	w8, [sp, #766]
	str	x9, [sp]
	ldr	w9, [sp, #768]
	stur	x10, [sp, #6]
	strh	w8, [sp, #14]
	str	w9, [sp, #16]
	strh	w8, [sp, #322]
	str	w9, [sp, #324]
	bl	"dm_layout::symbols::border::border_faults"
	strh	w0, [sp, #672]
	add	x0, sp, #752
	add	x3, x22, #20
	add	x4, x22, #328
	add	x5, x22, #624
	mov	w1, wzr
	mov	x2, xzr
	bl	"dm_symbol::symbol::inspection::mend"
	and	w0, w0, #0xff
	b	.LBB27_18
.LBB27_12:
	mov	x0, x20
	mov	x1, x21
	mov	x2, x23
	bl	memmove
.LBB27_13:
	add	x0, sp, #816
	add	x3, sp, #688
	mov	x1, x20
	mov	x2, x23
	mov	x4, x22
	bl	"dm_symbol::symbol::inspection::mend_doubtful"
	ldr	x8, [sp, #664]
	mov	x9, x22
	add	x8, x8, #1
.LBB27_14:
	subs	x8, x8, #1
	b.eq	.LBB27_17
	ldrb	w10, [x9], #4
	cmp	w10, #1
	b.eq	.LBB27_14
	add	x0, sp, #752
	add	x2, sp, #688
	mov	w1, #1
	mov	x3, x20
	mov	x4, x23
	mov	x5, x22
	bl	"dm_symbol::symbol::inspection::mend_restarted"
	b	.LBB27_18
.LBB27_17:
	mov	w0, wzr
.LBB27_18:
	movi	v0.2d, #0000000000000000
	ldrh	w8, [sp, #672]
	ldrh	w9, [sp, #12]
	ldrh	w10, [sp, #14]
	ldr	x22, [sp, #664]
	strb	w0, [sp, #616]
	strh	w8, [x19, #10]
	add	w8, w10, w9
	mov	x9, sp
	strh	w25, [x19, #8]
	mov	v0.h[3], w24
	add	x23, x9, #624
	strh	w0, [x19, #16]
	strh	w22, [x19, #12]
	strh	w8, [x19, #14]
	strh	wzr, [x19, #18]
	str	d0, [x19]
	cbz	x22, .LBB27_26
	cmp	x22, #8
	b.hs	.LBB27_21
	mov	x9, xzr
	b	.LBB27_24
.LBB27_21:
	mov	w9, #6272
	mov	x11, x23
	and	x12, x22, #0xfffffffffffffff8
	add	x10, x19, x9
	and	x9, x22, #0xfffffffffffffff8
.LBB27_22:
	ld4	{ v0.8b, v1.8b, v2.8b, v3.8b }, [x11], #32
	movi	v4.8b, #1
	subs	x12, x12, #8
	cmeq	v4.8b, v0.8b, v4.8b
	and	v5.8b, v1.8b, v4.8b
	and	v6.8b, v4.8b, v2.8b
	and	v0.8b, v4.8b, v3.8b
	orn	v5.8b, v5.8b, v4.8b
	stur	d6, [x10, #-10]
	stur	d5, [x10, #-20]
	str	d0, [x10], #8
	b.ne	.LBB27_22
	cmp	x22, x9
	b.eq	.LBB27_26
.LBB27_24:
	mov	x10, sp
	add	x11, x9, x19
	mov	w12, #6252
	add	x10, x10, x9, lsl #2
	sub	x9, x22, x9
	add	x11, x11, x12
	add	x10, x10, #627
.LBB27_25:
	ldurb	w12, [x10, #-3]
	ldurb	w13, [x10, #-2]
	ldurb	w14, [x10, #-1]
	cmp	w12, #1
	ldrb	w12, [x10], #4
	csinv	w13, w13, wzr, eq
	csel	w14, w14, wzr, eq
	csel	w12, w12, wzr, eq
	strb	w13, [x11]
	subs	x9, x9, #1
	strb	w14, [x11, #10]
	strb	w12, [x11, #20]
	add	x11, x11, #1
	b.ne	.LBB27_25
.LBB27_26:
	mov	w9, #6282
	and	x2, x8, #0xffff
	mov	x1, x21
	add	x0, x19, x9
	bl	memcpy
	ldrh	w21, [sp, #320]
	ldrh	w8, [sp, #322]
	mov	w9, #8460
	add	x0, x19, x9
	mov	x1, x20
	add	w8, w8, w21
	and	x2, x8, #0xffff
	bl	memcpy
	add	x8, x22, #1
.LBB27_27:
	subs	x8, x8, #1
	b.eq	.LBB27_29
	ldrb	w9, [x23], #4
	cmp	w9, #1
	b.eq	.LBB27_27
	b	.LBB27_46
.LBB27_29:
	cbz	w21, .LBB27_46
	cmp	w21, #4
	b.hs	.LBB27_32
	mov	w9, wzr
	mov	x8, xzr
	b	.LBB27_41
.LBB27_32:
	cmp	w21, #16
	b.hs	.LBB27_34
	mov	x8, xzr
	mov	w9, wzr
	b	.LBB27_38
.LBB27_34:
	movi	v0.2d, #0000000000000000
	and	x10, x21, #0xc
	and	x8, x21, #0xfff0
	mov	x9, x20
	and	x11, x21, #0xfff0
.LBB27_35:
	movi	v1.16b, #241
	ldr	q2, [x9], #16
	subs	x11, x11, #16
	cmeq	v1.16b, v2.16b, v1.16b
	orr	v0.16b, v0.16b, v1.16b
	b.ne	.LBB27_35
	shl	v0.16b, v0.16b, #7
	cmp	x8, x21
	cmlt	v0.16b, v0.16b, #0
	umaxv	b0, v0.16b
	fmov	w9, s0
	and	w9, w9, #0x1
	b.eq	.LBB27_43
	cbz	x10, .LBB27_41
.LBB27_38:
	movi	v0.2d, #0000000000000000
	mov	x10, sp
	mov	v0.h[0], w9
	mov	x9, x8
	and	x8, x21, #0xfffc
	add	x10, x9, x10
	sub	x9, x9, x8
	add	x10, x10, #328
.LBB27_39:
	ldr	s1, [x10], #4
	movi	v2.4h, #241
	adds	x9, x9, #4
	ushll	v1.8h, v1.8b, #0
	cmeq	v1.4h, v1.4h, v2.4h
	orr	v0.8b, v0.8b, v1.8b
	b.ne	.LBB27_39
	shl	v0.4h, v0.4h, #15
	cmp	x8, x21
	cmlt	v0.4h, v0.4h, #0
	umaxv	h0, v0.4h
	fmov	w9, s0
	and	w9, w9, #0x1
	b.eq	.LBB27_43
.LBB27_41:
	mov	x10, sp
	add	x10, x8, x10
	sub	x8, x21, x8
	add	x10, x10, #328
.LBB27_42:
	ldrb	w11, [x10], #1
	cmp	w11, #241
	cset	w11, eq
	subs	x8, x8, #1
	orr	w9, w9, w11
	b.ne	.LBB27_42
.LBB27_43:
	tbz	w9, #0, .LBB27_46
	cmp	w21, #4
	b.hs	.LBB27_48
	mov	w9, wzr
	mov	x8, xzr
	b	.LBB27_57
.LBB27_46:
	strh	wzr, [x19, #18]
.LBB27_47:
	add	sp, sp, #848
	.cfi_def_cfa_offset 80
	ldp	x20, x19, [sp, #64]
	ldp	x22, x21, [sp, #48]
	ldp	x24, x23, [sp, #32]
	ldp	x26, x25, [sp, #16]
	ldp	x29, x30, [sp], #80
	.cfi_def_cfa_offset 0
	.cfi_restore w19
	.cfi_restore w20
	.cfi_restore w21
	.cfi_restore w22
	.cfi_restore w23
	.cfi_restore w24
	.cfi_restore w25
	.cfi_restore w26
	.cfi_restore w30
	.cfi_restore w29
	ret
.LBB27_48:
	.cfi_restore_state
	cmp	w21, #16
	b.hs	.LBB27_50
	mov	x8, xzr
	mov	w9, wzr
	b	.LBB27_54
.LBB27_50:
	movi	v0.2d, #0000000000000000
	movi	v1.2d, #0000000000000000
	and	x10, x21, #0xc
	and	x8, x21, #0xfff0
	mov	x9, x20
	and	x11, x21, #0xfff0
.LBB27_51:
	movi	v2.16b, #241
	ldr	q3, [x9], #16
	subs	x11, x11, #16
	cmeq	v2.16b, v3.16b, v2.16b
	movi	v3.8h, #1
	ushll	v4.8h, v2.8b, #0
	ushll2	v2.8h, v2.16b, #0
	and	v4.16b, v4.16b, v3.16b
	and	v2.16b, v2.16b, v3.16b
	add	v0.8h, v0.8h, v2.8h
	add	v1.8h, v1.8h, v4.8h
	b.ne	.LBB27_51
	add	v0.8h, v1.8h, v0.8h
	cmp	x8, x21
	addv	h0, v0.8h
	fmov	w9, s0
	b.eq	.LBB27_59
	cbz	x10, .LBB27_57
.LBB27_54:
	movi	v0.2d, #0000000000000000
	mov	x10, sp
	mov	v0.h[0], w9
	mov	x9, x8
	and	x8, x21, #0xfffc
	add	x10, x9, x10
	sub	x9, x9, x8
	add	x10, x10, #328
.LBB27_55:
	ldr	s1, [x10], #4
	movi	v2.4h, #241
	adds	x9, x9, #4
	ushll	v1.8h, v1.8b, #0
	cmeq	v1.4h, v1.4h, v2.4h
	sub	v0.4h, v0.4h, v1.4h
	b.ne	.LBB27_55
	addv	h0, v0.4h
	cmp	x8, x21
	fmov	w9, s0
	b.eq	.LBB27_59
.LBB27_57:
	mov	x10, sp
	add	x10, x8, x10
	sub	x8, x21, x8
	add	x10, x10, #328
.LBB27_58:
	ldrb	w11, [x10], #1
	cmp	w11, #241
	cinc	w9, w9, eq
	subs	x8, x8, #1
	b.ne	.LBB27_58
.LBB27_59:
	and	w8, w9, #0xffff
	mov	x0, x19
	mov	x1, x20
	mov	x2, x21
	cmp	w8, #31
	b.hi	.LBB27_61
	bl	"ecc200_calls::inspection::find_designators::<=31>"
	b	.LBB27_47
.LBB27_61:
	bl	"ecc200_calls::inspection::find_designators::<=779>"
	b	.LBB27_47
.Lfunc_end27:
	.size	"ecc200_calls::inspection::inspect_symbol::<=52,=288>", .Lfunc_end27-"ecc200_calls::inspection::inspect_symbol::<=52,=288>"
	.cfi_endproc

	.p2align	2
	.type	"ecc200_calls::inspection::inspect_given::<=104,=1152,=1639,=408>",@function
"ecc200_calls::inspection::inspect_given::<=104,=1152,=1639,=408>":
	.cfi_startproc
	stp	x29, x30, [sp, #-80]!
	.cfi_def_cfa_offset 80
	stp	x26, x25, [sp, #16]
	stp	x24, x23, [sp, #32]
	stp	x22, x21, [sp, #48]
	stp	x20, x19, [sp, #64]
	.cfi_offset w19, -8
	.cfi_offset w20, -16
	.cfi_offset w21, -24
	.cfi_offset w22, -32
	.cfi_offset w23, -40
	.cfi_offset w24, -48
	.cfi_offset w25, -56
	.cfi_offset w26, -64
	.cfi_offset w30, -72
	.cfi_offset w29, -80
	sub	sp, sp, #3072
	.cfi_def_cfa_offset 3152
	str	xzr, [sp]
	sub	sp, sp, #736
	.cfi_def_cfa_offset 3888
	ldrh	w8, [x4, #18]
	ldur	q0, [x4, #2]
	mov	x21, x2
	mov	x23, x1
	mov	x24, x0
	ldrh	w25, [x4]
	strh	w8, [sp, #1922]
	add	x8, sp, #1904
	ldrb	w26, [x4, #20]
	add	x9, sp, #1651
	add	x0, x8, #20
	mov	w1, wzr
	mov	w2, #1676
	mov	x19, x5
	mov	x22, x4
	mov	x20, x3
	stur	q0, [x9, #255]
	bl	memset
	movi	v0.2d, #0000000000000000
	add	x0, sp, #1904
	mov	x1, x24
	mov	x2, x23
	strh	w25, [sp, #1904]
	str	q0, [sp, #3600]
	str	q0, [sp, #3616]
	str	q0, [sp, #3632]
	str	q0, [sp, #3648]
	str	q0, [sp, #3664]
	str	q0, [sp, #3680]
	str	q0, [sp, #3696]
	str	q0, [sp, #3712]
	str	q0, [sp, #3728]
	str	q0, [sp, #3744]
	str	q0, [sp, #3760]
	str	q0, [sp, #3776]
	str	q0, [sp, #3792]
	bl	"ecc200_calls::modules::put_modules::<=104>"
	tbz	w26, #0, .LBB28_2
	ldurh	w8, [x22, #18]
	ldur	q0, [x22, #2]
	mov	w1, wzr
	mov	w2, #1884
	strh	w25, [sp]
	strh	w8, [sp, #18]
	mov	x8, sp
	add	x0, x8, #20
	stur	q0, [sp, #2]
	bl	memset
	mov	x0, sp
	mov	x1, x21
	mov	x2, x20
	bl	"ecc200_calls::modules::put_modules::<=104>"
	add	x0, sp, #1904
	mov	x2, sp
	mov	w1, #1
	b	.LBB28_3
.LBB28_2:
	add	x0, sp, #1904
	mov	w1, wzr
	mov	x2, xzr
.LBB28_3:
	mov	x3, x19
	bl	"ecc200_calls::inspection::inspect_symbol::<=104,=1152>"
	add	sp, sp, #3808
	.cfi_def_cfa_offset 80
	ldp	x20, x19, [sp, #64]
	ldp	x22, x21, [sp, #48]
	ldp	x24, x23, [sp, #32]
	ldp	x26, x25, [sp, #16]
	ldp	x29, x30, [sp], #80
	.cfi_def_cfa_offset 0
	.cfi_restore w19
	.cfi_restore w20
	.cfi_restore w21
	.cfi_restore w22
	.cfi_restore w23
	.cfi_restore w24
	.cfi_restore w25
	.cfi_restore w26
	.cfi_restore w30
	.cfi_restore w29
	ret
.Lfunc_end28:
	.size	"ecc200_calls::inspection::inspect_given::<=104,=1152,=1639,=408>", .Lfunc_end28-"ecc200_calls::inspection::inspect_given::<=104,=1152,=1639,=408>"
	.cfi_endproc

	.section	.rodata.cst16,"aM",@progbits,16
	.p2align	4, 0x0
.LCPI29_0:
	.byte	1
	.byte	2
	.byte	4
	.byte	8
	.byte	16
	.byte	32
	.byte	64
	.byte	128
	.byte	1
	.byte	2
	.byte	4
	.byte	8
	.byte	16
	.byte	32
	.byte	64
	.byte	128
	.text
	.p2align	2
	.type	"ecc200_calls::modules::put_modules::<=104>",@function
"ecc200_calls::modules::put_modules::<=104>":
	.cfi_startproc
	ldrh	w8, [x0]
	cbz	x8, .LBB29_77
	stp	x24, x23, [sp, #-48]!
	.cfi_def_cfa_offset 48
	stp	x22, x21, [sp, #16]
	stp	x20, x19, [sp, #32]
	.cfi_offset w19, -8
	.cfi_offset w20, -16
	.cfi_offset w21, -24
	.cfi_offset w22, -32
	.cfi_offset w23, -40
	.cfi_offset w24, -48
	ldrh	w10, [x0, #2]
	add	x14, x2, x1
	mov	x9, xzr
	add	x11, x0, #32
	add	x12, x0, #1696
	sub	x13, x2, #64
	sub	x14, x14, #1
	sub	x15, x2, #80
	sub	x16, x2, #96
	sub	x17, x2, #112
	sub	x18, x2, #16
	sub	x0, x2, #32
	sub	x3, x2, #48
	sub	x4, x2, #128
	mov	x5, x2
	b	.LBB29_6
.LBB29_2:
	mov	x19, xzr
.LBB29_3:
	mov	x20, xzr
.LBB29_4:
	mov	w6, wzr
.LBB29_5:
	add	x7, x11, x9, lsl #4
	sub	x13, x13, x10
	sub	x15, x15, x10
	sub	x16, x16, x10
	sub	x17, x17, x10
	sub	x5, x5, x10
	stp	x19, x20, [x7]
	sub	x18, x18, x10
	sub	x0, x0, x10
	strh	w6, [x12, x9, lsl #1]
	add	x9, x9, #1
	sub	x3, x3, x10
	cmp	x9, x8
	sub	x4, x4, x10
	b.eq	.LBB29_76
.LBB29_6:
	mul	x19, x9, x10
	sub	x7, x2, x19
	add	x6, x1, x19
	cmp	x7, #63
	b.hi	.LBB29_11
	cbz	w10, .LBB29_2
	cmp	x7, #15
	b.hi	.LBB29_15
	cmp	x2, x19
	b.ne	.LBB29_17
	mov	w21, wzr
	b	.LBB29_19
.LBB29_11:
	ldp	q1, q0, [x6]
	adrp	x19, .LCPI29_0
	ldp	q2, q3, [x6, #32]
	cmp	w10, #65
	cmtst	v0.16b, v0.16b, v0.16b
	cmtst	v1.16b, v1.16b, v1.16b
	cmtst	v2.16b, v2.16b, v2.16b
	cmtst	v3.16b, v3.16b, v3.16b
	cmlt	v4.16b, v0.16b, #0
	ldr	q0, [x19, :lo12:.LCPI29_0]
	cmlt	v1.16b, v1.16b, #0
	cmlt	v2.16b, v2.16b, #0
	cmlt	v3.16b, v3.16b, #0
	and	v4.16b, v4.16b, v0.16b
	and	v1.16b, v1.16b, v0.16b
	and	v2.16b, v2.16b, v0.16b
	and	v3.16b, v3.16b, v0.16b
	ext	v5.16b, v4.16b, v4.16b, #8
	ext	v6.16b, v1.16b, v1.16b, #8
	zip1	v4.16b, v4.16b, v5.16b
	ext	v5.16b, v2.16b, v2.16b, #8
	zip1	v1.16b, v1.16b, v6.16b
	ext	v6.16b, v3.16b, v3.16b, #8
	addv	h4, v4.8h
	zip1	v2.16b, v2.16b, v5.16b
	addv	h1, v1.8h
	zip1	v3.16b, v3.16b, v6.16b
	fmov	w19, s4
	fmov	w20, s1
	addv	h2, v2.8h
	addv	h1, v3.8h
	lsl	w19, w19, #16
	bfxil	x19, x20, #0, #16
	fmov	w20, s2
	orr	x19, x19, x20, lsl #32
	fmov	w20, s1
	orr	x19, x19, x20, lsl #48
	b.lo	.LBB29_3
	sub	x20, x7, #64
	cmp	x20, #15
	b.hi	.LBB29_16
	cmp	x7, #64
	b.ne	.LBB29_25
	mov	w20, wzr
	b	.LBB29_27
.LBB29_15:
	ldr	q0, [x6]
	adrp	x19, .LCPI29_0
	ldr	q1, [x19, :lo12:.LCPI29_0]
	cmeq	v0.16b, v0.16b, #0
	bic	v0.16b, v1.16b, v0.16b
	ext	v1.16b, v0.16b, v0.16b, #8
	zip1	v0.16b, v0.16b, v1.16b
	addv	h0, v0.8h
	fmov	w21, s0
	b	.LBB29_19
.LBB29_16:
	ldr	q1, [x6, #64]
	cmeq	v1.16b, v1.16b, #0
	bic	v1.16b, v0.16b, v1.16b
	ext	v2.16b, v1.16b, v1.16b, #8
	zip1	v1.16b, v1.16b, v2.16b
	addv	h1, v1.8h
	fmov	w20, s1
	b	.LBB29_27
.LBB29_17:
	mov	w21, wzr
	mov	x19, x14
	mov	x20, x5
.LBB29_18:
	ldrb	w22, [x19], #-1
	cmp	w22, #0
	cset	w22, ne
	subs	x20, x20, #1
	orr	w21, w22, w21, lsl #1
	b.ne	.LBB29_18
.LBB29_19:
	cmp	w10, #17
	b.lo	.LBB29_23
	sub	x19, x7, #16
	cmp	x19, #16
	b.hs	.LBB29_24
	cmp	x7, #16
	b.ne	.LBB29_32
	mov	w19, wzr
	b	.LBB29_34
.LBB29_23:
	mov	x20, xzr
	and	x19, x21, #0xffff
	b	.LBB29_67
.LBB29_24:
	ldr	q0, [x6, #16]
	adrp	x19, .LCPI29_0
	ldr	q1, [x19, :lo12:.LCPI29_0]
	cmeq	v0.16b, v0.16b, #0
	bic	v0.16b, v1.16b, v0.16b
	ext	v1.16b, v0.16b, v0.16b, #8
	zip1	v0.16b, v0.16b, v1.16b
	addv	h0, v0.8h
	fmov	w19, s0
	b	.LBB29_34
.LBB29_25:
	mov	w20, wzr
	mov	x21, x14
	mov	x22, x13
.LBB29_26:
	ldrb	w23, [x21], #-1
	cmp	w23, #0
	cset	w23, ne
	subs	x22, x22, #1
	orr	w20, w23, w20, lsl #1
	b.ne	.LBB29_26
.LBB29_27:
	cmp	w10, #81
	and	x20, x20, #0xffff
	b.lo	.LBB29_67
	sub	x21, x7, #80
	cmp	x21, #16
	b.hs	.LBB29_31
	cmp	x7, #80
	b.ne	.LBB29_39
	mov	w21, wzr
	b	.LBB29_41
.LBB29_31:
	ldr	q1, [x6, #80]
	cmeq	v1.16b, v1.16b, #0
	bic	v1.16b, v0.16b, v1.16b
	ext	v2.16b, v1.16b, v1.16b, #8
	zip1	v1.16b, v1.16b, v2.16b
	addv	h1, v1.8h
	fmov	w21, s1
	b	.LBB29_41
.LBB29_32:
	mov	w19, wzr
	mov	x20, x14
	mov	x22, x18
.LBB29_33:
	ldrb	w23, [x20], #-1
	cmp	w23, #0
	cset	w23, ne
	subs	x22, x22, #1
	orr	w19, w23, w19, lsl #1
	b.ne	.LBB29_33
.LBB29_34:
	lsl	w19, w19, #16
	cmp	w10, #33
	bfxil	x19, x21, #0, #16
	b.lo	.LBB29_66
	sub	x20, x7, #32
	cmp	x20, #16
	b.hs	.LBB29_38
	cmp	x7, #32
	b.ne	.LBB29_46
	mov	w20, wzr
	b	.LBB29_48
.LBB29_38:
	ldr	q0, [x6, #32]
	adrp	x20, .LCPI29_0
	ldr	q1, [x20, :lo12:.LCPI29_0]
	cmeq	v0.16b, v0.16b, #0
	bic	v0.16b, v1.16b, v0.16b
	ext	v1.16b, v0.16b, v0.16b, #8
	zip1	v0.16b, v0.16b, v1.16b
	addv	h0, v0.8h
	fmov	w20, s0
	b	.LBB29_48
.LBB29_39:
	mov	w21, wzr
	mov	x22, x14
	mov	x23, x15
.LBB29_40:
	ldrb	w24, [x22], #-1
	cmp	w24, #0
	cset	w24, ne
	subs	x23, x23, #1
	orr	w21, w24, w21, lsl #1
	b.ne	.LBB29_40
.LBB29_41:
	lsl	w21, w21, #16
	cmp	w10, #97
	orr	x20, x21, x20
	b.lo	.LBB29_67
	sub	x21, x7, #96
	cmp	x21, #16
	b.hs	.LBB29_45
	cmp	x7, #96
	b.ne	.LBB29_53
	mov	w21, wzr
	b	.LBB29_55
.LBB29_45:
	ldr	q1, [x6, #96]
	cmeq	v1.16b, v1.16b, #0
	bic	v1.16b, v0.16b, v1.16b
	ext	v2.16b, v1.16b, v1.16b, #8
	zip1	v1.16b, v1.16b, v2.16b
	addv	h1, v1.8h
	fmov	w21, s1
	b	.LBB29_55
.LBB29_46:
	mov	w20, wzr
	mov	x21, x14
	mov	x22, x0
.LBB29_47:
	ldrb	w23, [x21], #-1
	cmp	w23, #0
	cset	w23, ne
	subs	x22, x22, #1
	orr	w20, w23, w20, lsl #1
	b.ne	.LBB29_47
.LBB29_48:
	and	w20, w20, #0xffff
	cmp	w10, #49
	orr	x19, x19, x20, lsl #32
	b.lo	.LBB29_66
	sub	x20, x7, #48
	cmp	x20, #16
	b.hs	.LBB29_52
	cmp	x7, #48
	b.ne	.LBB29_59
	mov	w20, wzr
	b	.LBB29_61
.LBB29_52:
	ldr	q0, [x6, #48]
	adrp	x20, .LCPI29_0
	ldr	q1, [x20, :lo12:.LCPI29_0]
	cmeq	v0.16b, v0.16b, #0
	bic	v0.16b, v1.16b, v0.16b
	ext	v1.16b, v0.16b, v0.16b, #8
	zip1	v0.16b, v0.16b, v1.16b
	addv	h0, v0.8h
	fmov	w20, s0
	b	.LBB29_61
.LBB29_53:
	mov	w21, wzr
	mov	x22, x14
	mov	x23, x16
.LBB29_54:
	ldrb	w24, [x22], #-1
	cmp	w24, #0
	cset	w24, ne
	subs	x23, x23, #1
	orr	w21, w24, w21, lsl #1
	b.ne	.LBB29_54
.LBB29_55:
	and	w21, w21, #0xffff
	cmp	w10, #113
	orr	x20, x20, x21, lsl #32
	b.lo	.LBB29_67
	sub	x21, x7, #112
	cmp	x21, #16
	b.hs	.LBB29_65
	cmp	x7, #112
	b.ne	.LBB29_73
	mov	w21, wzr
	b	.LBB29_75
.LBB29_59:
	mov	w20, wzr
	mov	x21, x14
	mov	x22, x3
.LBB29_60:
	ldrb	w23, [x21], #-1
	cmp	w23, #0
	cset	w23, ne
	subs	x22, x22, #1
	orr	w20, w23, w20, lsl #1
	b.ne	.LBB29_60
.LBB29_61:
	orr	x19, x19, x20, lsl #48
	cmp	w10, #65
	b.lo	.LBB29_66
	ldr	q0, [x6, #64]
	adrp	x20, .LCPI29_0
	cmp	w10, #81
	cmeq	v1.16b, v0.16b, #0
	ldr	q0, [x20, :lo12:.LCPI29_0]
	bic	v1.16b, v0.16b, v1.16b
	ext	v2.16b, v1.16b, v1.16b, #8
	zip1	v1.16b, v1.16b, v2.16b
	addv	h1, v1.8h
	umov	w20, v1.h[0]
	b.lo	.LBB29_67
	ldr	q1, [x6, #80]
	cmp	w10, #97
	cmeq	v1.16b, v1.16b, #0
	bic	v1.16b, v0.16b, v1.16b
	ext	v2.16b, v1.16b, v1.16b, #8
	zip1	v1.16b, v1.16b, v2.16b
	addv	h1, v1.8h
	fmov	w21, s1
	lsl	w21, w21, #16
	orr	x20, x21, x20
	b.lo	.LBB29_67
	ldr	q1, [x6, #96]
	cmp	w10, #113
	cmeq	v1.16b, v1.16b, #0
	bic	v1.16b, v0.16b, v1.16b
	ext	v2.16b, v1.16b, v1.16b, #8
	zip1	v1.16b, v1.16b, v2.16b
	addv	h1, v1.8h
	fmov	w21, s1
	orr	x20, x20, x21, lsl #32
	b.lo	.LBB29_67
.LBB29_65:
	ldr	q1, [x6, #112]
	cmeq	v1.16b, v1.16b, #0
	bic	v0.16b, v0.16b, v1.16b
	ext	v1.16b, v0.16b, v0.16b, #8
	zip1	v0.16b, v0.16b, v1.16b
	addv	h0, v0.8h
	fmov	w21, s0
	b	.LBB29_75
.LBB29_66:
	mov	x20, xzr
.LBB29_67:
	cmp	w10, #129
	b.lo	.LBB29_4
	sub	x7, x7, #128
	cmp	x7, #15
	b.hi	.LBB29_72
	mov	w6, wzr
	cbz	x7, .LBB29_5
	mov	x7, x14
	mov	x21, x4
.LBB29_71:
	ldrb	w22, [x7], #-1
	cmp	w22, #0
	cset	w22, ne
	subs	x21, x21, #1
	orr	w6, w22, w6, lsl #1
	b.ne	.LBB29_71
	b	.LBB29_5
.LBB29_72:
	ldr	q0, [x6, #128]
	adrp	x6, .LCPI29_0
	ldr	q1, [x6, :lo12:.LCPI29_0]
	cmeq	v0.16b, v0.16b, #0
	bic	v0.16b, v1.16b, v0.16b
	ext	v1.16b, v0.16b, v0.16b, #8
	zip1	v0.16b, v0.16b, v1.16b
	addv	h0, v0.8h
	fmov	w6, s0
	b	.LBB29_5
.LBB29_73:
	mov	w21, wzr
	mov	x22, x14
	mov	x23, x17
.LBB29_74:
	ldrb	w24, [x22], #-1
	cmp	w24, #0
	cset	w24, ne
	subs	x23, x23, #1
	orr	w21, w24, w21, lsl #1
	b.ne	.LBB29_74
.LBB29_75:
	orr	x20, x20, x21, lsl #48
	b	.LBB29_67
.LBB29_76:
	ldp	x20, x19, [sp, #32]
	ldp	x22, x21, [sp, #16]
	ldp	x24, x23, [sp], #48
	.cfi_def_cfa_offset 0
	.cfi_restore w19
	.cfi_restore w20
	.cfi_restore w21
	.cfi_restore w22
	.cfi_restore w23
	.cfi_restore w24
.LBB29_77:
	ret
.Lfunc_end29:
	.size	"ecc200_calls::modules::put_modules::<=104>", .Lfunc_end29-"ecc200_calls::modules::put_modules::<=104>"
	.cfi_endproc

	.p2align	2
	.type	"ecc200_calls::inspection::inspect_symbol::<=104,=1152>",@function
"ecc200_calls::inspection::inspect_symbol::<=104,=1152>":
	.cfi_startproc
	stp	x29, x30, [sp, #-96]!
	.cfi_def_cfa_offset 96
	stp	x28, x27, [sp, #16]
	stp	x26, x25, [sp, #32]
	stp	x24, x23, [sp, #48]
	stp	x22, x21, [sp, #64]
	stp	x20, x19, [sp, #80]
	.cfi_offset w19, -8
	.cfi_offset w20, -16
	.cfi_offset w21, -24
	.cfi_offset w22, -32
	.cfi_offset w23, -40
	.cfi_offset w24, -48
	.cfi_offset w25, -56
	.cfi_offset w26, -64
	.cfi_offset w27, -72
	.cfi_offset w28, -80
	.cfi_offset w30, -88
	.cfi_offset w29, -96
	sub	sp, sp, #2576
	.cfi_def_cfa_offset 2672
	.cfi_remember_state
	mov	x22, x2
	mov	w23, w1
	mov	x21, x0
	add	x0, sp, #8
	mov	w1, wzr
	mov	w2, #1192
	str	xzr, [sp]
	mov	x19, x3
	add	x27, sp, #2416
	add	x24, sp, #8
	bl	memset
	ldur	x8, [x21, #4]
	ldrh	w9, [x21, #12]
	add	x0, x24, #20
	ldrh	w25, [x21]
	ldrh	w26, [x21, #2]
	mov	w1, wzr
	mov	w2, #1152
	stur	x8, [sp, #12]
	strh	w9, [sp, #20]
	str	x8, [sp, #1184]
	strh	w9, [sp, #1192]
	bl	memset
	add	x0, x24, #1192
	mov	w1, wzr
	mov	w2, #1216
	add	x28, x24, #1172
	add	x20, x24, #1192
	bl	memset
	ldr	w8, [x21, #16]
	str	wzr, [sp, #2564]
	add	x9, x21, #32
	ldr	q0, [x21]
	str	x9, [sp, #2504]
	add	x9, x21, #1696
	str	w8, [sp, #2560]
	ldr	x8, [sp, #2560]
	str	q0, [x27, #128]
	str	q0, [x27, #64]
	str	x8, [sp, #2496]
	mov	w8, #104
	str	x8, [sp, #2512]
	str	x9, [sp, #2520]
	str	x8, [sp, #2528]
	tbz	w23, #0, .LBB30_11
	ldr	w8, [x22, #16]
	ldr	x10, [x21]
	mov	w9, #104
	ldr	q0, [x22]
	add	x0, sp, #2480
	add	x2, sp, #2416
	str	w8, [sp, #2432]
	add	x8, x22, #32
	mov	w1, #1
	str	x8, [sp, #2440]
	add	x8, x22, #1696
	str	x8, [sp, #2456]
	ldur	x8, [x21, #6]
	ldrh	w21, [sp, #2494]
	str	x10, [x28]
	stur	x8, [x28, #6]
	stur	x8, [sp, #14]
	ldr	w8, [sp, #2496]
	str	q0, [x27]
	str	wzr, [sp, #2436]
	str	x9, [sp, #2448]
	str	x9, [sp, #2464]
	str	x10, [sp, #8]
	strh	w21, [sp, #22]
	str	w8, [sp, #24]
	strh	w21, [sp, #1194]
	str	w8, [sp, #1196]
	bl	"dm_layout::symbols::border::border_faults"
	ldrh	w8, [sp, #2492]
	strh	w0, [sp, #2408]
	add	x0, sp, #2480
	add	x1, x24, #20
	add	w8, w8, w21
	and	w22, w8, #0xffff
	and	x21, x8, #0xffff
	bl	"dm_layout::symbols::placing::lift_to"
	cmp	w22, #1173
	b.lo	.LBB30_12
	and	x10, x21, #0xc
	and	x9, x21, #0xfff0
	add	x11, sp, #8
	and	x8, x21, #0xfff0
	and	x12, x21, #0xfff0
.LBB30_3:
	ldur	q0, [x11, #20]
	add	x13, x11, #1192
	subs	x12, x12, #16
	add	x11, x11, #16
	str	q0, [x13]
	b.ne	.LBB30_3
	cmp	x9, x21
	b.eq	.LBB30_13
	cbz	x10, .LBB30_9
	and	x8, x21, #0xfffc
	add	x11, sp, #8
	sub	x10, x8, x9
	add	x9, x11, x9
.LBB30_7:
	ldr	w11, [x9, #20]
	subs	x10, x10, #4
	str	w11, [x9, #1192]
	add	x9, x9, #4
	b.ne	.LBB30_7
	cmp	x8, x21
	b.eq	.LBB30_13
.LBB30_9:
	add	x10, sp, #8
	sub	x9, x21, x8
	add	x8, x10, x8
.LBB30_10:
	ldrb	w10, [x8, #20]
	subs	x9, x9, #1
	strb	w10, [x8, #1192]
	add	x8, x8, #1
	b.ne	.LBB30_10
	b	.LBB30_13
.LBB30_11:
	ldr	x8, [x21]
	ldur	x9, [x21, #6]
	add	x0, sp, #2480
	ldrh	w10, [sp, #2494]
	mov	w1, wzr
	mov	x2, xzr
	str	x8, [x28]
	str	x8, [sp, #8]
	ldr	w8, [sp, #2496]
	stur	x9, [x28, #6]
	stur	x9, [sp, #14]
	strh	w10, [sp, #22]
	str	w8, [sp, #24]
	strh	w10, [sp, #1194]
	str	w8, [sp, #1196]
	bl	"dm_layout::symbols::border::border_faults"
	strh	w0, [sp, #2408]
	add	x0, sp, #2480
	add	x3, x24, #20
	add	x4, x24, #1192
	add	x5, x24, #2352
	mov	w1, wzr
	mov	x2, xzr
	bl	"dm_symbol::symbol::inspection::mend"
	and	w0, w0, #0xff
	b	.LBB30_18
.LBB30_12:
	add	x0, x24, #1192
	add	x1, x24, #20
	mov	x2, x21
	bl	memmove
.LBB30_13:
	add	x0, sp, #2544
	add	x1, x24, #1192
	add	x3, sp, #2416
	add	x4, x24, #2352
	mov	x2, x21
	bl	"dm_symbol::symbol::inspection::mend_doubtful"
	ldr	x8, [sp, #2400]
	add	x9, x24, #2352
	add	x8, x8, #1
.LBB30_14:
	subs	x8, x8, #1
	b.eq	.LBB30_17
	ldrb	w10, [x9], #4
	cmp	w10, #1
	b.eq	.LBB30_14
	add	x0, sp, #2480
	add	x2, sp, #2416
	add	x3, x24, #1192
	add	x5, x24, #2352
	mov	w1, #1
	mov	x4, x21
	bl	"dm_symbol::symbol::inspection::mend_restarted"
	b	.LBB30_18
.LBB30_17:
	mov	w0, wzr
.LBB30_18:
	movi	v0.2d, #0000000000000000
	ldrh	w8, [sp, #2408]
	ldrh	w9, [sp, #20]
	ldrh	w10, [sp, #22]
	ldr	x22, [sp, #2400]
	strb	w0, [sp, #2352]
	strh	w8, [x19, #10]
	add	w8, w10, w9
	add	x9, sp, #8
	strh	w26, [x19, #8]
	mov	v0.h[3], w25
	add	x23, x9, #2352
	strh	w0, [x19, #16]
	strh	w22, [x19, #12]
	strh	w8, [x19, #14]
	strh	wzr, [x19, #18]
	str	d0, [x19]
	cbz	x22, .LBB30_26
	cmp	x22, #8
	b.hs	.LBB30_21
	mov	x9, xzr
	b	.LBB30_24
.LBB30_21:
	mov	w9, #6272
	mov	x11, x23
	and	x12, x22, #0xfffffffffffffff8
	add	x10, x19, x9
	and	x9, x22, #0xfffffffffffffff8
.LBB30_22:
	ld4	{ v0.8b, v1.8b, v2.8b, v3.8b }, [x11], #32
	movi	v4.8b, #1
	subs	x12, x12, #8
	cmeq	v4.8b, v0.8b, v4.8b
	and	v5.8b, v1.8b, v4.8b
	and	v6.8b, v4.8b, v2.8b
	and	v0.8b, v4.8b, v3.8b
	orn	v5.8b, v5.8b, v4.8b
	stur	d6, [x10, #-10]
	stur	d5, [x10, #-20]
	str	d0, [x10], #8
	b.ne	.LBB30_22
	cmp	x22, x9
	b.eq	.LBB30_26
.LBB30_24:
	add	x10, sp, #8
	add	x11, x9, x19
	mov	w12, #6252
	add	x10, x10, x9, lsl #2
	sub	x9, x22, x9
	add	x11, x11, x12
	add	x10, x10, #2355
.LBB30_25:
	ldurb	w12, [x10, #-3]
	ldurb	w13, [x10, #-2]
	ldurb	w14, [x10, #-1]
	cmp	w12, #1
	ldrb	w12, [x10], #4
	csinv	w13, w13, wzr, eq
	csel	w14, w14, wzr, eq
	csel	w12, w12, wzr, eq
	strb	w13, [x11]
	subs	x9, x9, #1
	strb	w14, [x11, #10]
	strb	w12, [x11, #20]
	add	x11, x11, #1
	b.ne	.LBB30_25
.LBB30_26:
	mov	w9, #6282
	add	x1, x24, #20
	and	x2, x8, #0xffff
	add	x0, x19, x9
	bl	memcpy
	ldrh	w21, [sp, #1192]
	ldrh	w8, [sp, #1194]
	mov	w9, #8460
	add	x0, x19, x9
	mov	x1, x20
	add	w8, w8, w21
	and	x2, x8, #0xffff
	bl	memcpy
	add	x8, x22, #1
.LBB30_27:
	subs	x8, x8, #1
	b.eq	.LBB30_29
	ldrb	w9, [x23], #4
	cmp	w9, #1
	b.eq	.LBB30_27
	b	.LBB30_46
.LBB30_29:
	cbz	w21, .LBB30_46
	cmp	w21, #4
	b.hs	.LBB30_32
	mov	w9, wzr
	mov	x8, xzr
	b	.LBB30_41
.LBB30_32:
	cmp	w21, #16
	b.hs	.LBB30_34
	mov	x8, xzr
	mov	w9, wzr
	b	.LBB30_38
.LBB30_34:
	movi	v0.2d, #0000000000000000
	and	x10, x21, #0xc
	and	x8, x21, #0xfff0
	mov	x9, x20
	and	x11, x21, #0xfff0
.LBB30_35:
	movi	v1.16b, #241
	ldr	q2, [x9], #16
	subs	x11, x11, #16
	cmeq	v1.16b, v2.16b, v1.16b
	orr	v0.16b, v0.16b, v1.16b
	b.ne	.LBB30_35
	shl	v0.16b, v0.16b, #7
	cmp	x8, x21
	cmlt	v0.16b, v0.16b, #0
	umaxv	b0, v0.16b
	fmov	w9, s0
	and	w9, w9, #0x1
	b.eq	.LBB30_43
	cbz	x10, .LBB30_41
.LBB30_38:
	movi	v0.2d, #0000000000000000
	add	x10, sp, #8
	mov	v0.h[0], w9
	mov	x9, x8
	and	x8, x21, #0xfffc
	add	x10, x9, x10
	sub	x9, x9, x8
	add	x10, x10, #1192
.LBB30_39:
	ldr	s1, [x10], #4
	movi	v2.4h, #241
	adds	x9, x9, #4
	ushll	v1.8h, v1.8b, #0
	cmeq	v1.4h, v1.4h, v2.4h
	orr	v0.8b, v0.8b, v1.8b
	b.ne	.LBB30_39
	shl	v0.4h, v0.4h, #15
	cmp	x8, x21
	cmlt	v0.4h, v0.4h, #0
	umaxv	h0, v0.4h
	fmov	w9, s0
	and	w9, w9, #0x1
	b.eq	.LBB30_43
.LBB30_41:
	add	x10, sp, #8
	add	x10, x8, x10
	sub	x8, x21, x8
	add	x10, x10, #1192
.LBB30_42:
	ldrb	w11, [x10], #1
	cmp	w11, #241
	cset	w11, eq
	subs	x8, x8, #1
	orr	w9, w9, w11
	b.ne	.LBB30_42
.LBB30_43:
	tbz	w9, #0, .LBB30_46
	cmp	w21, #4
	b.hs	.LBB30_48
	mov	w9, wzr
	mov	x8, xzr
	b	.LBB30_57
.LBB30_46:
	strh	wzr, [x19, #18]
.LBB30_47:
	add	sp, sp, #2576
	.cfi_def_cfa_offset 96
	ldp	x20, x19, [sp, #80]
	ldp	x22, x21, [sp, #64]
	ldp	x24, x23, [sp, #48]
	ldp	x26, x25, [sp, #32]
	ldp	x28, x27, [sp, #16]
	ldp	x29, x30, [sp], #96
	.cfi_def_cfa_offset 0
	.cfi_restore w19
	.cfi_restore w20
	.cfi_restore w21
	.cfi_restore w22
	.cfi_restore w23
	.cfi_restore w24
	.cfi_restore w25
	.cfi_restore w26
	.cfi_restore w27
	.cfi_restore w28
	.cfi_restore w30
	.cfi_restore w29
	ret
.LBB30_48:
	.cfi_restore_state
	cmp	w21, #16
	b.hs	.LBB30_50
	mov	x8, xzr
	mov	w9, wzr
	b	.LBB30_54
.LBB30_50:
	movi	v0.2d, #0000000000000000
	movi	v1.2d, #0000000000000000
	and	x10, x21, #0xc
	and	x8, x21, #0xfff0
	mov	x9, x20
	and	x11, x21, #0xfff0
.LBB30_51:
	movi	v2.16b, #241
	ldr	q3, [x9], #16
	subs	x11, x11, #16
	cmeq	v2.16b, v3.16b, v2.16b
	movi	v3.8h, #1
	ushll	v4.8h, v2.8b, #0
	ushll2	v2.8h, v2.16b, #0
	and	v4.16b, v4.16b, v3.16b
	and	v2.16b, v2.16b, v3.16b
	add	v0.8h, v0.8h, v2.8h
	add	v1.8h, v1.8h, v4.8h
	b.ne	.LBB30_51
	add	v0.8h, v1.8h, v0.8h
	cmp	x8, x21
	addv	h0, v0.8h
	fmov	w9, s0
	b.eq	.LBB30_59
	cbz	x10, .LBB30_57
.LBB30_54:
	movi	v0.2d, #0000000000000000
	add	x10, sp, #8
	mov	v0.h[0], w9
	mov	x9, x8
	and	x8, x21, #0xfffc
	add	x10, x9, x10
	sub	x9, x9, x8
	add	x10, x10, #1192
.LBB30_55:
	ldr	s1, [x10], #4
	movi	v2.4h, #241
	adds	x9, x9, #4
	ushll	v1.8h, v1.8b, #0
	cmeq	v1.4h, v1.4h, v2.4h
	sub	v0.4h, v0.4h, v1.4h
	b.ne	.LBB30_55
	addv	h0, v0.4h
	cmp	x8, x21
	fmov	w9, s0
	b.eq	.LBB30_59
.LBB30_57:
	add	x10, sp, #8
	add	x10, x8, x10
	sub	x8, x21, x8
	add	x10, x10, #1192
.LBB30_58:
	ldrb	w11, [x10], #1
	cmp	w11, #241
	cinc	w9, w9, eq
	subs	x8, x8, #1
	b.ne	.LBB30_58
.LBB30_59:
	and	w8, w9, #0xffff
	mov	x0, x19
	mov	x1, x20
	mov	x2, x21
	cmp	w8, #31
	b.hi	.LBB30_61
	bl	"ecc200_calls::inspection::find_designators::<=31>"
	b	.LBB30_47
.LBB30_61:
	bl	"ecc200_calls::inspection::find_designators::<=779>"
	b	.LBB30_47
.Lfunc_end30:
	.size	"ecc200_calls::inspection::inspect_symbol::<=104,=1152>", .Lfunc_end30-"ecc200_calls::inspection::inspect_symbol::<=104,=1152>"
	.cfi_endproc

	.p2align	2
	.type	"ecc200_calls::inspection::inspect_given::<=144,=2178,=3123,=779>",@function
"ecc200_calls::inspection::inspect_given::<=144,=2178,=3123,=779>":
	.cfi_startproc
	stp	x29, x30, [sp, #-80]!
	.cfi_def_cfa_offset 80
	stp	x26, x25, [sp, #16]
	stp	x24, x23, [sp, #32]
	stp	x22, x21, [sp, #48]
	stp	x20, x19, [sp, #64]
	.cfi_offset w19, -8
	.cfi_offset w20, -16
	.cfi_offset w21, -24
	.cfi_offset w22, -32
	.cfi_offset w23, -40
	.cfi_offset w24, -48
	.cfi_offset w25, -56
	.cfi_offset w26, -64
	.cfi_offset w30, -72
	.cfi_offset w29, -80
	sub	sp, sp, #3072
	.cfi_def_cfa_offset 3152
	str	xzr, [sp]
	sub	sp, sp, #2176
	.cfi_def_cfa_offset 5328
	str	xzr, [sp]
	mov	x21, x2
	mov	x23, x1
	ldrh	w8, [x4, #18]
	ldur	q0, [x4, #2]
	mov	x24, x0
	ldrh	w25, [x4]
	ldrb	w26, [x4, #20]
	add	x9, sp, #2371
	strh	w8, [sp, #2642]
	add	x8, sp, #2624
	mov	w1, wzr
	add	x0, x8, #20
	mov	w2, #2316
	mov	x19, x5
	mov	x22, x4
	mov	x20, x3
	stur	q0, [x9, #255]
	bl	memset
	movi	v0.2d, #0000000000000000
	add	x0, sp, #2624
	mov	x1, x24
	mov	x2, x23
	strh	w25, [sp, #2624]
	str	q0, [sp, #4960]
	str	q0, [sp, #4976]
	str	q0, [sp, #4992]
	str	q0, [sp, #5008]
	str	q0, [sp, #5024]
	str	q0, [sp, #5040]
	str	q0, [sp, #5056]
	str	q0, [sp, #5072]
	str	q0, [sp, #5088]
	str	q0, [sp, #5104]
	str	q0, [sp, #5120]
	str	q0, [sp, #5136]
	str	q0, [sp, #5152]
	str	q0, [sp, #5168]
	str	q0, [sp, #5184]
	str	q0, [sp, #5200]
	str	q0, [sp, #5216]
	str	q0, [sp, #5232]
	bl	"ecc200_calls::modules::put_modules::<=144>"
	tbz	w26, #0, .LBB31_2
	ldurh	w8, [x22, #18]
	ldur	q0, [x22, #2]
	mov	w1, wzr
	mov	w2, #2604
	strh	w25, [sp]
	strh	w8, [sp, #18]
	mov	x8, sp
	add	x0, x8, #20
	stur	q0, [sp, #2]
	bl	memset
	mov	x0, sp
	mov	x1, x21
	mov	x2, x20
	bl	"ecc200_calls::modules::put_modules::<=144>"
	add	x0, sp, #2624
	mov	x2, sp
	mov	w1, #1
	b	.LBB31_3
.LBB31_2:
	add	x0, sp, #2624
	mov	w1, wzr
	mov	x2, xzr
.LBB31_3:
	mov	x3, x19
	bl	"ecc200_calls::inspection::inspect_symbol::<=144,=2178>"
	add	sp, sp, #1, lsl #12
	.cfi_def_cfa_offset 1232
	add	sp, sp, #1152
	.cfi_def_cfa_offset 80
	ldp	x20, x19, [sp, #64]
	ldp	x22, x21, [sp, #48]
	ldp	x24, x23, [sp, #32]
	ldp	x26, x25, [sp, #16]
	ldp	x29, x30, [sp], #80
	.cfi_def_cfa_offset 0
	.cfi_restore w19
	.cfi_restore w20
	.cfi_restore w21
	.cfi_restore w22
	.cfi_restore w23
	.cfi_restore w24
	.cfi_restore w25
	.cfi_restore w26
	.cfi_restore w30
	.cfi_restore w29
	ret
.Lfunc_end31:
	.size	"ecc200_calls::inspection::inspect_given::<=144,=2178,=3123,=779>", .Lfunc_end31-"ecc200_calls::inspection::inspect_given::<=144,=2178,=3123,=779>"
	.cfi_endproc

	.section	.rodata.cst16,"aM",@progbits,16
	.p2align	4, 0x0
.LCPI32_0:
	.byte	1
	.byte	2
	.byte	4
	.byte	8
	.byte	16
	.byte	32
	.byte	64
	.byte	128
	.byte	1
	.byte	2
	.byte	4
	.byte	8
	.byte	16
	.byte	32
	.byte	64
	.byte	128
	.text
	.p2align	2
	.type	"ecc200_calls::modules::put_modules::<=144>",@function
"ecc200_calls::modules::put_modules::<=144>":
	.cfi_startproc
	ldrh	w8, [x0]
	cbz	x8, .LBB32_77
	stp	x24, x23, [sp, #-48]!
	.cfi_def_cfa_offset 48
	stp	x22, x21, [sp, #16]
	stp	x20, x19, [sp, #32]
	.cfi_offset w19, -8
	.cfi_offset w20, -16
	.cfi_offset w21, -24
	.cfi_offset w22, -32
	.cfi_offset w23, -40
	.cfi_offset w24, -48
	ldrh	w10, [x0, #2]
	add	x14, x2, x1
	mov	x9, xzr
	add	x11, x0, #32
	add	x12, x0, #2336
	sub	x13, x2, #64
	sub	x14, x14, #1
	sub	x15, x2, #80
	sub	x16, x2, #96
	sub	x17, x2, #112
	sub	x18, x2, #16
	sub	x0, x2, #32
	sub	x3, x2, #48
	sub	x4, x2, #128
	mov	x5, x2
	b	.LBB32_6
.LBB32_2:
	mov	x19, xzr
.LBB32_3:
	mov	x20, xzr
.LBB32_4:
	mov	w6, wzr
.LBB32_5:
	add	x7, x11, x9, lsl #4
	sub	x13, x13, x10
	sub	x15, x15, x10
	sub	x16, x16, x10
	sub	x17, x17, x10
	sub	x5, x5, x10
	stp	x19, x20, [x7]
	sub	x18, x18, x10
	sub	x0, x0, x10
	strh	w6, [x12, x9, lsl #1]
	add	x9, x9, #1
	sub	x3, x3, x10
	cmp	x9, x8
	sub	x4, x4, x10
	b.eq	.LBB32_76
.LBB32_6:
	mul	x19, x9, x10
	sub	x7, x2, x19
	add	x6, x1, x19
	cmp	x7, #63
	b.hi	.LBB32_11
	cbz	w10, .LBB32_2
	cmp	x7, #15
	b.hi	.LBB32_15
	cmp	x2, x19
	b.ne	.LBB32_17
	mov	w21, wzr
	b	.LBB32_19
.LBB32_11:
	ldp	q1, q0, [x6]
	adrp	x19, .LCPI32_0
	ldp	q2, q3, [x6, #32]
	cmp	w10, #65
	cmtst	v0.16b, v0.16b, v0.16b
	cmtst	v1.16b, v1.16b, v1.16b
	cmtst	v2.16b, v2.16b, v2.16b
	cmtst	v3.16b, v3.16b, v3.16b
	cmlt	v4.16b, v0.16b, #0
	ldr	q0, [x19, :lo12:.LCPI32_0]
	cmlt	v1.16b, v1.16b, #0
	cmlt	v2.16b, v2.16b, #0
	cmlt	v3.16b, v3.16b, #0
	and	v4.16b, v4.16b, v0.16b
	and	v1.16b, v1.16b, v0.16b
	and	v2.16b, v2.16b, v0.16b
	and	v3.16b, v3.16b, v0.16b
	ext	v5.16b, v4.16b, v4.16b, #8
	ext	v6.16b, v1.16b, v1.16b, #8
	zip1	v4.16b, v4.16b, v5.16b
	ext	v5.16b, v2.16b, v2.16b, #8
	zip1	v1.16b, v1.16b, v6.16b
	ext	v6.16b, v3.16b, v3.16b, #8
	addv	h4, v4.8h
	zip1	v2.16b, v2.16b, v5.16b
	addv	h1, v1.8h
	zip1	v3.16b, v3.16b, v6.16b
	fmov	w19, s4
	fmov	w20, s1
	addv	h2, v2.8h
	addv	h1, v3.8h
	lsl	w19, w19, #16
	bfxil	x19, x20, #0, #16
	fmov	w20, s2
	orr	x19, x19, x20, lsl #32
	fmov	w20, s1
	orr	x19, x19, x20, lsl #48
	b.lo	.LBB32_3
	sub	x20, x7, #64
	cmp	x20, #15
	b.hi	.LBB32_16
	cmp	x7, #64
	b.ne	.LBB32_25
	mov	w20, wzr
	b	.LBB32_27
.LBB32_15:
	ldr	q0, [x6]
	adrp	x19, .LCPI32_0
	ldr	q1, [x19, :lo12:.LCPI32_0]
	cmeq	v0.16b, v0.16b, #0
	bic	v0.16b, v1.16b, v0.16b
	ext	v1.16b, v0.16b, v0.16b, #8
	zip1	v0.16b, v0.16b, v1.16b
	addv	h0, v0.8h
	fmov	w21, s0
	b	.LBB32_19
.LBB32_16:
	ldr	q1, [x6, #64]
	cmeq	v1.16b, v1.16b, #0
	bic	v1.16b, v0.16b, v1.16b
	ext	v2.16b, v1.16b, v1.16b, #8
	zip1	v1.16b, v1.16b, v2.16b
	addv	h1, v1.8h
	fmov	w20, s1
	b	.LBB32_27
.LBB32_17:
	mov	w21, wzr
	mov	x19, x14
	mov	x20, x5
.LBB32_18:
	ldrb	w22, [x19], #-1
	cmp	w22, #0
	cset	w22, ne
	subs	x20, x20, #1
	orr	w21, w22, w21, lsl #1
	b.ne	.LBB32_18
.LBB32_19:
	cmp	w10, #17
	b.lo	.LBB32_23
	sub	x19, x7, #16
	cmp	x19, #16
	b.hs	.LBB32_24
	cmp	x7, #16
	b.ne	.LBB32_32
	mov	w19, wzr
	b	.LBB32_34
.LBB32_23:
	mov	x20, xzr
	and	x19, x21, #0xffff
	b	.LBB32_67
.LBB32_24:
	ldr	q0, [x6, #16]
	adrp	x19, .LCPI32_0
	ldr	q1, [x19, :lo12:.LCPI32_0]
	cmeq	v0.16b, v0.16b, #0
	bic	v0.16b, v1.16b, v0.16b
	ext	v1.16b, v0.16b, v0.16b, #8
	zip1	v0.16b, v0.16b, v1.16b
	addv	h0, v0.8h
	fmov	w19, s0
	b	.LBB32_34
.LBB32_25:
	mov	w20, wzr
	mov	x21, x14
	mov	x22, x13
.LBB32_26:
	ldrb	w23, [x21], #-1
	cmp	w23, #0
	cset	w23, ne
	subs	x22, x22, #1
	orr	w20, w23, w20, lsl #1
	b.ne	.LBB32_26
.LBB32_27:
	cmp	w10, #81
	and	x20, x20, #0xffff
	b.lo	.LBB32_67
	sub	x21, x7, #80
	cmp	x21, #16
	b.hs	.LBB32_31
	cmp	x7, #80
	b.ne	.LBB32_39
	mov	w21, wzr
	b	.LBB32_41
.LBB32_31:
	ldr	q1, [x6, #80]
	cmeq	v1.16b, v1.16b, #0
	bic	v1.16b, v0.16b, v1.16b
	ext	v2.16b, v1.16b, v1.16b, #8
	zip1	v1.16b, v1.16b, v2.16b
	addv	h1, v1.8h
	fmov	w21, s1
	b	.LBB32_41
.LBB32_32:
	mov	w19, wzr
	mov	x20, x14
	mov	x22, x18
.LBB32_33:
	ldrb	w23, [x20], #-1
	cmp	w23, #0
	cset	w23, ne
	subs	x22, x22, #1
	orr	w19, w23, w19, lsl #1
	b.ne	.LBB32_33
.LBB32_34:
	lsl	w19, w19, #16
	cmp	w10, #33
	bfxil	x19, x21, #0, #16
	b.lo	.LBB32_66
	sub	x20, x7, #32
	cmp	x20, #16
	b.hs	.LBB32_38
	cmp	x7, #32
	b.ne	.LBB32_46
	mov	w20, wzr
	b	.LBB32_48
.LBB32_38:
	ldr	q0, [x6, #32]
	adrp	x20, .LCPI32_0
	ldr	q1, [x20, :lo12:.LCPI32_0]
	cmeq	v0.16b, v0.16b, #0
	bic	v0.16b, v1.16b, v0.16b
	ext	v1.16b, v0.16b, v0.16b, #8
	zip1	v0.16b, v0.16b, v1.16b
	addv	h0, v0.8h
	fmov	w20, s0
	b	.LBB32_48
.LBB32_39:
	mov	w21, wzr
	mov	x22, x14
	mov	x23, x15
.LBB32_40:
	ldrb	w24, [x22], #-1
	cmp	w24, #0
	cset	w24, ne
	subs	x23, x23, #1
	orr	w21, w24, w21, lsl #1
	b.ne	.LBB32_40
.LBB32_41:
	lsl	w21, w21, #16
	cmp	w10, #97
	orr	x20, x21, x20
	b.lo	.LBB32_67
	sub	x21, x7, #96
	cmp	x21, #16
	b.hs	.LBB32_45
	cmp	x7, #96
	b.ne	.LBB32_53
	mov	w21, wzr
	b	.LBB32_55
.LBB32_45:
	ldr	q1, [x6, #96]
	cmeq	v1.16b, v1.16b, #0
	bic	v1.16b, v0.16b, v1.16b
	ext	v2.16b, v1.16b, v1.16b, #8
	zip1	v1.16b, v1.16b, v2.16b
	addv	h1, v1.8h
	fmov	w21, s1
	b	.LBB32_55
.LBB32_46:
	mov	w20, wzr
	mov	x21, x14
	mov	x22, x0
.LBB32_47:
	ldrb	w23, [x21], #-1
	cmp	w23, #0
	cset	w23, ne
	subs	x22, x22, #1
	orr	w20, w23, w20, lsl #1
	b.ne	.LBB32_47
.LBB32_48:
	and	w20, w20, #0xffff
	cmp	w10, #49
	orr	x19, x19, x20, lsl #32
	b.lo	.LBB32_66
	sub	x20, x7, #48
	cmp	x20, #16
	b.hs	.LBB32_52
	cmp	x7, #48
	b.ne	.LBB32_59
	mov	w20, wzr
	b	.LBB32_61
.LBB32_52:
	ldr	q0, [x6, #48]
	adrp	x20, .LCPI32_0
	ldr	q1, [x20, :lo12:.LCPI32_0]
	cmeq	v0.16b, v0.16b, #0
	bic	v0.16b, v1.16b, v0.16b
	ext	v1.16b, v0.16b, v0.16b, #8
	zip1	v0.16b, v0.16b, v1.16b
	addv	h0, v0.8h
	fmov	w20, s0
	b	.LBB32_61
.LBB32_53:
	mov	w21, wzr
	mov	x22, x14
	mov	x23, x16
.LBB32_54:
	ldrb	w24, [x22], #-1
	cmp	w24, #0
	cset	w24, ne
	subs	x23, x23, #1
	orr	w21, w24, w21, lsl #1
	b.ne	.LBB32_54
.LBB32_55:
	and	w21, w21, #0xffff
	cmp	w10, #113
	orr	x20, x20, x21, lsl #32
	b.lo	.LBB32_67
	sub	x21, x7, #112
	cmp	x21, #16
	b.hs	.LBB32_65
	cmp	x7, #112
	b.ne	.LBB32_73
	mov	w21, wzr
	b	.LBB32_75
.LBB32_59:
	mov	w20, wzr
	mov	x21, x14
	mov	x22, x3
.LBB32_60:
	ldrb	w23, [x21], #-1
	cmp	w23, #0
	cset	w23, ne
	subs	x22, x22, #1
	orr	w20, w23, w20, lsl #1
	b.ne	.LBB32_60
.LBB32_61:
	orr	x19, x19, x20, lsl #48
	cmp	w10, #65
	b.lo	.LBB32_66
	ldr	q0, [x6, #64]
	adrp	x20, .LCPI32_0
	cmp	w10, #81
	cmeq	v1.16b, v0.16b, #0
	ldr	q0, [x20, :lo12:.LCPI32_0]
	bic	v1.16b, v0.16b, v1.16b
	ext	v2.16b, v1.16b, v1.16b, #8
	zip1	v1.16b, v1.16b, v2.16b
	addv	h1, v1.8h
	umov	w20, v1.h[0]
	b.lo	.LBB32_67
	ldr	q1, [x6, #80]
	cmp	w10, #97
	cmeq	v1.16b, v1.16b, #0
	bic	v1.16b, v0.16b, v1.16b
	ext	v2.16b, v1.16b, v1.16b, #8
	zip1	v1.16b, v1.16b, v2.16b
	addv	h1, v1.8h
	fmov	w21, s1
	lsl	w21, w21, #16
	orr	x20, x21, x20
	b.lo	.LBB32_67
	ldr	q1, [x6, #96]
	cmp	w10, #113
	cmeq	v1.16b, v1.16b, #0
	bic	v1.16b, v0.16b, v1.16b
	ext	v2.16b, v1.16b, v1.16b, #8
	zip1	v1.16b, v1.16b, v2.16b
	addv	h1, v1.8h
	fmov	w21, s1
	orr	x20, x20, x21, lsl #32
	b.lo	.LBB32_67
.LBB32_65:
	ldr	q1, [x6, #112]
	cmeq	v1.16b, v1.16b, #0
	bic	v0.16b, v0.16b, v1.16b
	ext	v1.16b, v0.16b, v0.16b, #8
	zip1	v0.16b, v0.16b, v1.16b
	addv	h0, v0.8h
	fmov	w21, s0
	b	.LBB32_75
.LBB32_66:
	mov	x20, xzr
.LBB32_67:
	cmp	w10, #129
	b.lo	.LBB32_4
	sub	x7, x7, #128
	cmp	x7, #15
	b.hi	.LBB32_72
	mov	w6, wzr
	cbz	x7, .LBB32_5
	mov	x7, x14
	mov	x21, x4
.LBB32_71:
	ldrb	w22, [x7], #-1
	cmp	w22, #0
	cset	w22, ne
	subs	x21, x21, #1
	orr	w6, w22, w6, lsl #1
	b.ne	.LBB32_71
	b	.LBB32_5
.LBB32_72:
	ldr	q0, [x6, #128]
	adrp	x6, .LCPI32_0
	ldr	q1, [x6, :lo12:.LCPI32_0]
	cmeq	v0.16b, v0.16b, #0
	bic	v0.16b, v1.16b, v0.16b
	ext	v1.16b, v0.16b, v0.16b, #8
	zip1	v0.16b, v0.16b, v1.16b
	addv	h0, v0.8h
	fmov	w6, s0
	b	.LBB32_5
.LBB32_73:
	mov	w21, wzr
	mov	x22, x14
	mov	x23, x17
.LBB32_74:
	ldrb	w24, [x22], #-1
	cmp	w24, #0
	cset	w24, ne
	subs	x23, x23, #1
	orr	w21, w24, w21, lsl #1
	b.ne	.LBB32_74
.LBB32_75:
	orr	x20, x20, x21, lsl #48
	b	.LBB32_67
.LBB32_76:
	ldp	x20, x19, [sp, #32]
	ldp	x22, x21, [sp, #16]
	ldp	x24, x23, [sp], #48
	.cfi_def_cfa_offset 0
	.cfi_restore w19
	.cfi_restore w20
	.cfi_restore w21
	.cfi_restore w22
	.cfi_restore w23
	.cfi_restore w24
.LBB32_77:
	ret
.Lfunc_end32:
	.size	"ecc200_calls::modules::put_modules::<=144>", .Lfunc_end32-"ecc200_calls::modules::put_modules::<=144>"
	.cfi_endproc

	.p2align	2
	.type	"ecc200_calls::inspection::inspect_symbol::<=144,=2178>",@function
"ecc200_calls::inspection::inspect_symbol::<=144,=2178>":
	.cfi_startproc
	stp	x29, x30, [sp, #-96]!
	.cfi_def_cfa_offset 96
	stp	x28, x27, [sp, #16]
	stp	x26, x25, [sp, #32]
	stp	x24, x23, [sp, #48]
	stp	x22, x21, [sp, #64]
	stp	x20, x19, [sp, #80]
	.cfi_offset w19, -8
	.cfi_offset w20, -16
	.cfi_offset w21, -24
	.cfi_offset w22, -32
	.cfi_offset w23, -40
	.cfi_offset w24, -48
	.cfi_offset w25, -56
	.cfi_offset w26, -64
	.cfi_offset w27, -72
	.cfi_offset w28, -80
	.cfi_offset w30, -88
	.cfi_offset w29, -96
	sub	sp, sp, #3072
	.cfi_def_cfa_offset 3168
	str	xzr, [sp]
	sub	sp, sp, #1552
	.cfi_def_cfa_offset 4720
	.cfi_remember_state
	mov	x22, x2
	mov	w23, w1
	mov	x21, x0
	add	x24, sp, #8
	add	x28, sp, #1, lsl #12
	add	x0, sp, #8
	mov	w1, wzr
	mov	w2, #2224
	str	xzr, [sp]
	mov	x19, x3
	add	x28, x28, #368
	add	x25, x24, #2214
	bl	memset
	ldur	x8, [x21, #4]
	ldrh	w9, [x21, #12]
	add	x10, x24, #2202
	ldrh	w26, [x21]
	ldrh	w27, [x21, #2]
	add	x0, x24, #20
	mov	w1, wzr
	mov	w2, #2178
	stur	x8, [sp, #12]
	strh	w9, [sp, #20]
	str	x8, [x10]
	strh	w9, [sp, #2218]
	bl	memset
	add	x0, x24, #2218
	mov	w1, wzr
	mov	w2, #2238
	add	x29, x24, #2198
	add	x20, x24, #2218
	bl	memset
	ldr	w8, [x21, #16]
	str	wzr, [sp, #4612]
	add	x9, x21, #32
	ldr	q0, [x21]
	str	x9, [sp, #4552]
	add	x9, x21, #2336
	str	w8, [sp, #4608]
	ldr	x8, [sp, #4608]
	str	q0, [x28, #128]
	str	q0, [x28, #64]
	str	x8, [sp, #4544]
	mov	w8, #144
	str	x8, [sp, #4560]
	str	x9, [sp, #4568]
	str	x8, [sp, #4576]
	tbz	w23, #0, .LBB33_11
	ldr	w8, [x22, #16]
	ldr	x10, [x21]
	add	x0, sp, #1, lsl #12
	ldr	q0, [x22]
	add	x2, sp, #1, lsl #12
	mov	w9, #144
	str	w8, [sp, #4480]
	add	x8, x22, #32
	add	x0, x0, #432
	str	x8, [sp, #4488]
	add	x8, x22, #2336
	add	x2, x2, #368
	str	x8, [sp, #4504]
	ldur	x8, [x21, #6]
	ldrh	w21, [sp, #4542]
	str	x10, [x29]
	mov	w1, #1
	stur	x8, [x29, #6]
	stur	x8, [sp, #14]
	ldr	w8, [sp, #4544]
	str	q0, [x28]
	str	wzr, [sp, #4484]
	str	x9, [sp, #4496]
	str	x9, [sp, #4512]
	str	x10, [sp, #8]
	strh	w21, [sp, #22]
	str	w8, [sp, #24]
	strh	w21, [sp, #2220]
	str	w8, [x25]
	bl	"dm_layout::symbols::border::border_faults"
	ldrh	w8, [sp, #4540]
	strh	w0, [sp, #4456]
	add	x0, sp, #1, lsl #12
	add	x0, x0, #432
	add	x1, x24, #20
	add	w8, w8, w21
	and	w22, w8, #0xffff
	and	x21, x8, #0xffff
	bl	"dm_layout::symbols::placing::lift_to"
	cmp	w22, #2199
	b.lo	.LBB33_12
	and	x10, x21, #0xc
	and	x9, x21, #0xfff0
	add	x11, sp, #8
	and	x8, x21, #0xfff0
	and	x12, x21, #0xfff0
.LBB33_3:
	ldur	q0, [x11, #20]
	add	x13, x11, #2218
	subs	x12, x12, #16
	add	x11, x11, #16
	str	q0, [x13]
	b.ne	.LBB33_3
	cmp	x9, x21
	b.eq	.LBB33_13
	cbz	x10, .LBB33_9
	and	x8, x21, #0xfffc
	add	x11, sp, #8
	sub	x10, x8, x9
	add	x9, x11, x9
.LBB33_7:
	ldr	w11, [x9, #20]
	add	x12, x9, #2218
	subs	x10, x10, #4
	add	x9, x9, #4
	str	w11, [x12]
	b.ne	.LBB33_7
	cmp	x8, x21
	b.eq	.LBB33_13
.LBB33_9:
	add	x10, sp, #8
	sub	x9, x21, x8
	add	x8, x10, x8
.LBB33_10:
	ldrb	w10, [x8, #20]
	subs	x9, x9, #1
	strb	w10, [x8, #2218]
	add	x8, x8, #1
	b.ne	.LBB33_10
	b	.LBB33_13
.LBB33_11:
	ldr	x8, [x21]
	ldur	x9, [x21, #6]
	add	x0, sp, #1, lsl #12
	ldrh	w10, [sp, #4542]
	add	x0, x0, #432
	mov	w1, wzr
	str	x8, [x29]
	mov	x2, xzr
	str	x8, [sp, #8]
	ldr	w8, [sp, #4544]
	stur	x9, [x29, #6]
	stur	x9, [sp, #14]
	strh	w10, [sp, #22]
	str	w8, [sp, #24]
	strh	w10, [sp, #2220]
	str	w8, [x25]
	bl	"dm_layout::symbols::border::border_faults"
	mov	w8, #4400
	strh	w0, [sp, #4456]
	add	x0, sp, #1, lsl #12
	add	x0, x0, #432
	add	x3, x24, #20
	add	x4, x24, #2218
	add	x5, x24, x8
	mov	w1, wzr
	mov	x2, xzr
	bl	"dm_symbol::symbol::inspection::mend"
	and	w0, w0, #0xff
	b	.LBB33_18
.LBB33_12:
	add	x0, x24, #2218
	add	x1, x24, #20
	mov	x2, x21
	bl	memmove
.LBB33_13:
	add	x0, sp, #1, lsl #12
	add	x3, sp, #1, lsl #12
	add	x1, x24, #2218
	add	x0, x0, #496
	add	x3, x3, #368
	add	x4, x25, #2186
	mov	x2, x21
	bl	"dm_symbol::symbol::inspection::mend_doubtful"
	ldr	x8, [sp, #4448]
	add	x9, x25, #2186
	add	x8, x8, #1
.LBB33_14:
	subs	x8, x8, #1
	b.eq	.LBB33_17
	ldrb	w10, [x9], #4
	cmp	w10, #1
	b.eq	.LBB33_14
	add	x0, sp, #1, lsl #12
	add	x2, sp, #1, lsl #12
	add	x3, x24, #2218
	add	x0, x0, #432
	add	x2, x2, #368
	add	x5, x25, #2186
	mov	w1, #1
	mov	x4, x21
	bl	"dm_symbol::symbol::inspection::mend_restarted"
	b	.LBB33_18
.LBB33_17:
	mov	w0, wzr
.LBB33_18:
	movi	v0.2d, #0000000000000000
	ldrh	w8, [sp, #4456]
	ldrh	w9, [sp, #20]
	ldrh	w10, [sp, #22]
	ldr	x22, [sp, #4448]
	add	x23, x25, #2186
	strh	w8, [x19, #10]
	add	w8, w10, w9
	strb	w0, [x25, #2182]
	mov	v0.h[3], w26
	strh	w27, [x19, #8]
	strh	w0, [x19, #16]
	strh	w22, [x19, #12]
	strh	w8, [x19, #14]
	str	d0, [x19]
	strh	wzr, [x19, #18]
	cbz	x22, .LBB33_26
	cmp	x22, #8
	b.hs	.LBB33_21
	mov	x9, xzr
	b	.LBB33_24
.LBB33_21:
	mov	w9, #6272
	mov	x11, x23
	and	x12, x22, #0xfffffffffffffff8
	add	x10, x19, x9
	and	x9, x22, #0xfffffffffffffff8
.LBB33_22:
	ld4	{ v0.8b, v1.8b, v2.8b, v3.8b }, [x11], #32
	movi	v4.8b, #1
	subs	x12, x12, #8
	cmeq	v4.8b, v0.8b, v4.8b
	and	v5.8b, v1.8b, v4.8b
	and	v6.8b, v4.8b, v2.8b
	and	v0.8b, v4.8b, v3.8b
	orn	v5.8b, v5.8b, v4.8b
	stur	d6, [x10, #-10]
	stur	d5, [x10, #-20]
	str	d0, [x10], #8
	b.ne	.LBB33_22
	cmp	x22, x9
	b.eq	.LBB33_26
.LBB33_24:
	add	x10, sp, #8
	mov	w11, #4403
	add	x12, x9, x19
	add	x10, x10, x9, lsl #2
	mov	w13, #6252
	sub	x9, x22, x9
	add	x10, x10, x11
	add	x11, x12, x13
.LBB33_25:
	ldurb	w12, [x10, #-3]
	ldurb	w13, [x10, #-2]
	ldurb	w14, [x10, #-1]
	cmp	w12, #1
	ldrb	w12, [x10], #4
	csinv	w13, w13, wzr, eq
	csel	w14, w14, wzr, eq
	csel	w12, w12, wzr, eq
	strb	w13, [x11]
	subs	x9, x9, #1
	strb	w14, [x11, #10]
	strb	w12, [x11, #20]
	add	x11, x11, #1
	b.ne	.LBB33_25
.LBB33_26:
	mov	w9, #6282
	add	x1, x24, #20
	and	x2, x8, #0xffff
	add	x0, x19, x9
	bl	memcpy
	ldrh	w21, [sp, #2218]
	ldrh	w8, [sp, #2220]
	mov	w9, #8460
	add	x0, x19, x9
	mov	x1, x20
	add	w8, w8, w21
	and	x2, x8, #0xffff
	bl	memcpy
	add	x8, x22, #1
.LBB33_27:
	subs	x8, x8, #1
	b.eq	.LBB33_29
	ldrb	w9, [x23], #4
	cmp	w9, #1
	b.eq	.LBB33_27
	b	.LBB33_46
.LBB33_29:
	cbz	w21, .LBB33_46
	cmp	w21, #4
	b.hs	.LBB33_32
	mov	w9, wzr
	mov	x8, xzr
	b	.LBB33_41
.LBB33_32:
	cmp	w21, #16
	b.hs	.LBB33_34
	mov	x8, xzr
	mov	w9, wzr
	b	.LBB33_38
.LBB33_34:
	movi	v0.2d, #0000000000000000
	and	x10, x21, #0xc
	and	x8, x21, #0xfff0
	mov	x9, x20
	and	x11, x21, #0xfff0
.LBB33_35:
	movi	v1.16b, #241
	ldr	q2, [x9], #16
	subs	x11, x11, #16
	cmeq	v1.16b, v2.16b, v1.16b
	orr	v0.16b, v0.16b, v1.16b
	b.ne	.LBB33_35
	shl	v0.16b, v0.16b, #7
	cmp	x8, x21
	cmlt	v0.16b, v0.16b, #0
	umaxv	b0, v0.16b
	fmov	w9, s0
	and	w9, w9, #0x1
	b.eq	.LBB33_43
	cbz	x10, .LBB33_41
.LBB33_38:
	movi	v0.2d, #0000000000000000
	add	x10, sp, #8
	mov	v0.h[0], w9
	mov	x9, x8
	and	x8, x21, #0xfffc
	add	x10, x9, x10
	sub	x9, x9, x8
	add	x10, x10, #2218
.LBB33_39:
	ldr	s1, [x10], #4
	movi	v2.4h, #241
	adds	x9, x9, #4
	ushll	v1.8h, v1.8b, #0
	cmeq	v1.4h, v1.4h, v2.4h
	orr	v0.8b, v0.8b, v1.8b
	b.ne	.LBB33_39
	shl	v0.4h, v0.4h, #15
	cmp	x8, x21
	cmlt	v0.4h, v0.4h, #0
	umaxv	h0, v0.4h
	fmov	w9, s0
	and	w9, w9, #0x1
	b.eq	.LBB33_43
.LBB33_41:
	add	x10, sp, #8
	add	x10, x8, x10
	sub	x8, x21, x8
	add	x10, x10, #2218
.LBB33_42:
	ldrb	w11, [x10], #1
	cmp	w11, #241
	cset	w11, eq
	subs	x8, x8, #1
	orr	w9, w9, w11
	b.ne	.LBB33_42
.LBB33_43:
	tbz	w9, #0, .LBB33_46
	cmp	w21, #4
	b.hs	.LBB33_48
	mov	w9, wzr
	mov	x8, xzr
	b	.LBB33_57
.LBB33_46:
	strh	wzr, [x19, #18]
.LBB33_47:
	add	sp, sp, #1, lsl #12
	.cfi_def_cfa_offset 624
	add	sp, sp, #528
	.cfi_def_cfa_offset 96
	ldp	x20, x19, [sp, #80]
	ldp	x22, x21, [sp, #64]
	ldp	x24, x23, [sp, #48]
	ldp	x26, x25, [sp, #32]
	ldp	x28, x27, [sp, #16]
	ldp	x29, x30, [sp], #96
	.cfi_def_cfa_offset 0
	.cfi_restore w19
	.cfi_restore w20
	.cfi_restore w21
	.cfi_restore w22
	.cfi_restore w23
	.cfi_restore w24
	.cfi_restore w25
	.cfi_restore w26
	.cfi_restore w27
	.cfi_restore w28
	.cfi_restore w30
	.cfi_restore w29
	ret
.LBB33_48:
	.cfi_restore_state
	cmp	w21, #16
	b.hs	.LBB33_50
	mov	x8, xzr
	mov	w9, wzr
	b	.LBB33_54
.LBB33_50:
	movi	v0.2d, #0000000000000000
	movi	v1.2d, #0000000000000000
	and	x10, x21, #0xc
	and	x8, x21, #0xfff0
	mov	x9, x20
	and	x11, x21, #0xfff0
.LBB33_51:
	movi	v2.16b, #241
	ldr	q3, [x9], #16
	subs	x11, x11, #16
	cmeq	v2.16b, v3.16b, v2.16b
	movi	v3.8h, #1
	ushll	v4.8h, v2.8b, #0
	ushll2	v2.8h, v2.16b, #0
	and	v4.16b, v4.16b, v3.16b
	and	v2.16b, v2.16b, v3.16b
	add	v0.8h, v0.8h, v2.8h
	add	v1.8h, v1.8h, v4.8h
	b.ne	.LBB33_51
	add	v0.8h, v1.8h, v0.8h
	cmp	x8, x21
	addv	h0, v0.8h
	fmov	w9, s0
	b.eq	.LBB33_59
	cbz	x10, .LBB33_57
.LBB33_54:
	movi	v0.2d, #0000000000000000
	add	x10, sp, #8
	mov	v0.h[0], w9
	mov	x9, x8
	and	x8, x21, #0xfffc
	add	x10, x9, x10
	sub	x9, x9, x8
	add	x10, x10, #2218
.LBB33_55:
	ldr	s1, [x10], #4
	movi	v2.4h, #241
	adds	x9, x9, #4
	ushll	v1.8h, v1.8b, #0
	cmeq	v1.4h, v1.4h, v2.4h
	sub	v0.4h, v0.4h, v1.4h
	b.ne	.LBB33_55
	addv	h0, v0.4h
	cmp	x8, x21
	fmov	w9, s0
	b.eq	.LBB33_59
.LBB33_57:
	add	x10, sp, #8
	add	x10, x8, x10
	sub	x8, x21, x8
	add	x10, x10, #2218
.LBB33_58:
	ldrb	w11, [x10], #1
	cmp	w11, #241
	cinc	w9, w9, eq
	subs	x8, x8, #1
	b.ne	.LBB33_58
.LBB33_59:
	and	w8, w9, #0xffff
	mov	x0, x19
	mov	x1, x20
	mov	x2, x21
	cmp	w8, #31
	b.hi	.LBB33_61
	bl	"ecc200_calls::inspection::find_designators::<=31>"
	b	.LBB33_47
.LBB33_61:
	bl	"ecc200_calls::inspection::find_designators::<=779>"
	b	.LBB33_47
.Lfunc_end33:
	.size	"ecc200_calls::inspection::inspect_symbol::<=144,=2178>", .Lfunc_end33-"ecc200_calls::inspection::inspect_symbol::<=144,=2178>"
	.cfi_endproc

	.p2align	2
	.type	"ecc200_calls::answer::answer_given::<#67f27f8c38696f0b>",@function
"ecc200_calls::answer::answer_given::<#67f27f8c38696f0b>":
	.cfi_startproc
	sub	sp, sp, #288
	.cfi_def_cfa_offset 288
	stp	x29, x30, [sp, #256]
	stp	x20, x19, [sp, #272]
	.cfi_offset w19, -8
	.cfi_offset w20, -16
	.cfi_offset w30, -24
	.cfi_offset w29, -32
	.cfi_remember_state
	ldr	q0, [x6]
	ldr	x8, [x1]
	mov	x19, x7
	ldrh	w9, [x1, #8]
	mov	x20, x0
	add	x0, sp, #16
	str	q0, [sp, #208]
	movi	v0.2d, #0000000000000000
	add	x1, sp, #240
	str	x8, [sp, #240]
	ldur	x8, [x6, #14]
	add	x6, sp, #208
	strh	w9, [sp, #248]
	add	x9, sp, #90
	add	x7, sp, #90
	stur	x8, [x9, #132]
	add	x8, sp, #32
	str	xzr, [sp, #16]
	strh	wzr, [sp, #24]
	stur	q0, [sp, #110]
	stur	q0, [sp, #126]
	stur	q0, [sp, #142]
	stur	q0, [x9, #68]
	stur	q0, [x9, #84]
	stur	q0, [x9, #100]
	strh	wzr, [sp, #206]
	str	xzr, [sp, #80]
	stp	q0, q0, [sp, #48]
	str	q0, [sp, #32]
	str	x8, [sp]
	bl	"ecc200_calls::restoring::restore_given::<=32,=98>"
	ldrb	w8, [sp, #16]
	cbz	w8, .LBB34_6
	ldrb	w9, [sp, #18]
	ldrh	w8, [sp, #20]
	cbz	w9, .LBB34_7
	cmp	w9, #2
	b.ne	.LBB34_8
	and	w8, w8, #0xff
	ldrh	w9, [sp, #22]
	cmp	w8, #2
	b.eq	.LBB34_9
	cmp	w8, #1
	b.ne	.LBB34_12
	mov	w8, wzr
	mov	w11, #20
	b	.LBB34_10
.LBB34_6:
	ldrb	w1, [sp, #244]
	add	x2, sp, #90
	mov	x0, x20
	mov	x3, x19
	bl	"ecc200_calls::answer::answer_words::<#b7053eec525c6199>"
	b	.LBB34_11
.LBB34_7:
	mov	w11, #5
	b	.LBB34_10
.LBB34_8:
	ldrb	w9, [sp, #19]
	mov	w8, wzr
	mov	w11, #6
	b	.LBB34_10
.LBB34_9:
	mov	w8, wzr
	mov	w11, #21
.LBB34_10:
	strh	w11, [x19]
	strh	w8, [x19, #2]
	strh	w9, [x19, #4]
	stur	wzr, [x19, #6]
.LBB34_11:
	ldp	x20, x19, [sp, #272]
	ldp	x29, x30, [sp, #256]
	add	sp, sp, #288
	.cfi_def_cfa_offset 0
	.cfi_restore w19
	.cfi_restore w20
	.cfi_restore w30
	.cfi_restore w29
	ret
.LBB34_12:
	.cfi_restore_state
	ldrh	w10, [sp, #24]
	and	w8, w9, #0xff
	cmp	w8, #2
	b.le	.LBB34_16
	cmp	w8, #4
	b.gt	.LBB34_19
	cmp	w8, #3
	b.ne	.LBB34_23
	mov	w8, wzr
	mov	w11, #10
	mov	w9, w10
	b	.LBB34_10
.LBB34_16:
	cbz	w8, .LBB34_21
	cmp	w8, #1
	b.ne	.LBB34_22
	lsr	w8, w9, #8
	mov	w11, #8
	mov	w9, w10
	b	.LBB34_10
.LBB34_19:
	cmp	w8, #5
	b.ne	.LBB34_24
	mov	w8, wzr
	mov	w11, #12
	mov	w9, w10
	b	.LBB34_10
.LBB34_21:
	mov	w11, #7
	mov	w9, w10
	b	.LBB34_10
.LBB34_22:
	mov	w8, wzr
	mov	w11, #9
	mov	w9, w10
	b	.LBB34_10
.LBB34_23:
	mov	w8, wzr
	mov	w11, #11
	mov	w9, w10
	b	.LBB34_10
.LBB34_24:
	mov	w8, wzr
	mov	w11, #13
	mov	w9, w10
	b	.LBB34_10
.Lfunc_end34:
	.size	"ecc200_calls::answer::answer_given::<#67f27f8c38696f0b>", .Lfunc_end34-"ecc200_calls::answer::answer_given::<#67f27f8c38696f0b>"
	.cfi_endproc

	.p2align	2
	.type	"ecc200_calls::restoring::restore_given::<=32,=98>",@function
"ecc200_calls::restoring::restore_given::<=32,=98>":
	.cfi_startproc
	stp	x29, x30, [sp, #-96]!
	.cfi_def_cfa_offset 96
	stp	x28, x27, [sp, #16]
	stp	x26, x25, [sp, #32]
	stp	x24, x23, [sp, #48]
	stp	x22, x21, [sp, #64]
	stp	x20, x19, [sp, #80]
	.cfi_offset w19, -8
	.cfi_offset w20, -16
	.cfi_offset w21, -24
	.cfi_offset w22, -32
	.cfi_offset w23, -40
	.cfi_offset w24, -48
	.cfi_offset w25, -56
	.cfi_offset w26, -64
	.cfi_offset w27, -72
	.cfi_offset w28, -80
	.cfi_offset w30, -88
	.cfi_offset w29, -96
	sub	sp, sp, #1360
	.cfi_def_cfa_offset 1456
	ldr	x8, [sp, #1456]
	str	xzr, [sp]
	add	x23, sp, #656
	ldrb	w9, [x1, #4]
	ldur	q0, [x6, #2]
	mov	x28, x2
	str	x8, [sp, #40]
	ldrh	w8, [x1, #8]
	mov	x19, x0
	ldrb	w29, [x1, #6]
	ldrh	w22, [x6]
	add	x0, x23, #20
	stp	w8, w9, [sp, #32]
	ldrh	w8, [x6, #18]
	mov	w1, wzr
	ldrb	w21, [x6, #20]
	mov	w2, #524
	mov	x20, x7
	mov	x26, x6
	mov	x24, x5
	mov	x25, x4
	mov	x27, x3
	stur	q0, [x23, #2]
	strh	w8, [sp, #674]
	bl	memset
	movi	v0.2d, #0000000000000000
	add	x0, sp, #656
	mov	x1, x28
	mov	x2, x27
	strh	w22, [sp, #656]
	str	q0, [sp, #1200]
	str	q0, [sp, #1216]
	str	q0, [sp, #1232]
	str	q0, [sp, #1248]
	bl	"ecc200_calls::modules::put_modules::<=32>"
	tbz	w21, #0, .LBB35_3
	ldurh	w8, [x26, #18]
	ldur	q0, [x26, #2]
	mov	w1, wzr
	mov	w2, #588
	strh	w22, [sp, #48]
	strh	w8, [sp, #66]
	add	x8, sp, #48
	add	x0, x8, #20
	stur	q0, [sp, #50]
	bl	memset
	add	x0, sp, #48
	mov	x1, x25
	mov	x2, x24
	bl	"ecc200_calls::modules::put_modules::<=32>"
	add	x0, sp, #1296
	add	x2, sp, #656
	add	x4, sp, #48
	strh	wzr, [sp, #1304]
	str	xzr, [sp, #1296]
	cbz	w29, .LBB35_5
	ldr	w1, [sp, #36]
	ldr	x6, [sp, #40]
	mov	w3, #1
	mov	x5, x20
	bl	"ecc200_calls::restoring::restore_surely::<=32,=98>"
	b	.LBB35_6
.LBB35_3:
	strh	wzr, [sp, #1272]
	str	xzr, [sp, #1264]
	cbz	w29, .LBB35_7
	ldr	w1, [sp, #36]
	ldr	x6, [sp, #40]
	add	x0, sp, #1264
	add	x2, sp, #656
	mov	w3, wzr
	mov	x4, xzr
	mov	x5, x20
	bl	"ecc200_calls::restoring::restore_surely::<=32,=98>"
	ldrb	w8, [sp, #1264]
	ldrb	w9, [sp, #1266]
	ldrb	w10, [sp, #1267]
	ldrh	w11, [sp, #1268]
	ldrh	w12, [sp, #1270]
	ldrh	w13, [sp, #1272]
	b	.LBB35_8
.LBB35_5:
	ldp	w5, w1, [sp, #32]
	ldr	x7, [sp, #40]
	mov	w3, #1
	mov	x6, x20
	bl	"ecc200_calls::restoring::restore_within::<=32,=98>"
.LBB35_6:
	ldrb	w8, [sp, #1296]
	ldrb	w9, [sp, #1298]
	ldrb	w10, [sp, #1299]
	ldrh	w11, [sp, #1300]
	ldrh	w12, [sp, #1302]
	ldrh	w13, [sp, #1304]
	b	.LBB35_8
.LBB35_7:
	ldr	x8, [sp, #656]
	ldur	x9, [x23, #6]
	mov	w2, wzr
	ldrh	w10, [sp, #670]
	ldr	x7, [sp, #40]
	mov	x3, xzr
	str	x8, [x20]
	ldr	w8, [sp, #672]
	add	x0, sp, #1280
	ldp	w5, w4, [sp, #32]
	str	w8, [x20, #16]
	ldr	q0, [sp, #656]
	add	x1, sp, #1296
	str	w8, [sp, #1312]
	add	x8, sp, #656
	add	x6, x20, #20
	add	x8, x8, #32
	stur	x9, [x20, #6]
	mov	w9, #32
	str	x8, [sp, #1320]
	add	x8, x23, #544
	strh	w10, [x20, #14]
	add	x10, x7, #48
	str	x8, [sp, #1336]
	add	x8, x7, #8
	strh	wzr, [sp, #1288]
	str	xzr, [sp, #1280]
	str	q0, [sp, #1296]
	str	wzr, [sp, #1316]
	str	x9, [sp, #1328]
	str	x9, [sp, #1344]
	stp	x8, x10, [sp]
	bl	"dm_symbol::symbol::reading::restore"
	ldrb	w8, [sp, #1280]
	ldrb	w9, [sp, #1282]
	ldrb	w10, [sp, #1283]
	ldrh	w11, [sp, #1284]
	ldrh	w12, [sp, #1286]
	ldrh	w13, [sp, #1288]
.LBB35_8:
	strb	w8, [x19]
	strb	w9, [x19, #2]
	strb	w10, [x19, #3]
	strh	w11, [x19, #4]
	strh	w12, [x19, #6]
	strh	w13, [x19, #8]
	add	sp, sp, #1360
	.cfi_def_cfa_offset 96
	ldp	x20, x19, [sp, #80]
	ldp	x22, x21, [sp, #64]
	ldp	x24, x23, [sp, #48]
	ldp	x26, x25, [sp, #32]
	ldp	x28, x27, [sp, #16]
	ldp	x29, x30, [sp], #96
	.cfi_def_cfa_offset 0
	.cfi_restore w19
	.cfi_restore w20
	.cfi_restore w21
	.cfi_restore w22
	.cfi_restore w23
	.cfi_restore w24
	.cfi_restore w25
	.cfi_restore w26
	.cfi_restore w27
	.cfi_restore w28
	.cfi_restore w30
	.cfi_restore w29
	ret
.Lfunc_end35:
	.size	"ecc200_calls::restoring::restore_given::<=32,=98>", .Lfunc_end35-"ecc200_calls::restoring::restore_given::<=32,=98>"
	.cfi_endproc

	.p2align	2
	.type	"ecc200_calls::restoring::restore_within::<=32,=98>",@function
"ecc200_calls::restoring::restore_within::<=32,=98>":
	.cfi_startproc
	sub	sp, sp, #256
	.cfi_def_cfa_offset 256
	str	x30, [sp, #192]
	stp	x24, x23, [sp, #208]
	stp	x22, x21, [sp, #224]
	stp	x20, x19, [sp, #240]
	.cfi_offset w19, -8
	.cfi_offset w20, -16
	.cfi_offset w21, -24
	.cfi_offset w22, -32
	.cfi_offset w23, -40
	.cfi_offset w24, -48
	.cfi_offset w30, -64
	ldp	x9, x8, [x2]
	mov	x20, x7
	ldr	w10, [x2, #16]
	mov	x21, x6
	mov	w23, w5
	mov	w22, w1
	mov	x19, x0
	tst	w3, #0xff
	stp	x9, x8, [x6]
	add	x9, x2, #32
	str	w10, [x6, #16]
	ldr	w8, [x2, #16]
	ldr	q0, [x2]
	strh	wzr, [sp, #24]
	str	xzr, [sp, #16]
	stp	w8, wzr, [sp, #176]
	ldr	x8, [sp, #176]
	str	q0, [sp, #160]
	str	q0, [sp, #96]
	stp	x8, x9, [sp, #112]
	mov	w9, #32
	add	x8, x2, #544
	stp	x9, x8, [sp, #128]
	add	x8, x7, #8
	str	x9, [sp, #144]
	b.eq	.LBB36_4
	ldr	w8, [x4, #16]
	ldr	q0, [x4]
	mov	w9, #32
	add	x0, sp, #96
	add	x2, sp, #32
	mov	w1, #1
	stp	w8, wzr, [sp, #48]
	add	x8, x4, #32
	mov	w24, #1
	stp	x8, x9, [sp, #56]
	add	x8, x4, #544
	str	q0, [sp, #32]
	stp	x8, x9, [sp, #72]
	bl	"dm_layout::symbols::border::border_faults"
	and	w8, w23, #0xffff
	cmp	w8, w0, uxth
	b.hs	.LBB36_5
	mov	w8, wzr
	mov	w9, wzr
	mov	w1, wzr
.LBB36_3:
	mov	w21, wzr
	b	.LBB36_12
.LBB36_4:
	add	x9, x20, #48
	mov	w2, wzr
	mov	x3, xzr
	add	x0, sp, #16
	add	x1, sp, #96
	add	x6, x21, #20
	mov	w4, w22
	mov	w5, w23
	mov	x7, x20
	stp	x8, x9, [sp]
	bl	"dm_symbol::symbol::reading::restore"
	ldrb	w24, [sp, #16]
	ldrb	w21, [sp, #18]
	ldrb	w1, [sp, #19]
	ldrh	w0, [sp, #20]
	ldrh	w9, [sp, #22]
	ldrh	w8, [sp, #24]
	b	.LBB36_12
.LBB36_5:
	ldrh	w8, [sp, #108]
	ldrh	w9, [sp, #110]
	add	x1, x21, #20
	strh	w0, [x20, #48]
	add	x0, sp, #96
	add	w23, w9, w8
	bl	"dm_layout::symbols::placing::lift_to"
	add	x0, sp, #160
	add	x1, x21, #20
	and	x2, x23, #0xffff
	add	x4, sp, #32
	add	x5, x20, #8
	mov	w3, wzr
	strb	wzr, [x20]
	bl	"dm_symbol::symbol::reading::restore_doubtful"
	and	w8, w0, #0xff
	cmp	w8, #1
	b.ne	.LBB36_9
	tst	w22, #0xff
	b.eq	.LBB36_10
	mov	w22, w1
	add	x0, sp, #96
	add	x2, sp, #32
	add	x3, x21, #20
	and	x4, x23, #0xffff
	add	x5, x20, #8
	mov	w1, #1
	mov	w21, #1
	bl	"dm_symbol::symbol::dealing::restore_restarted"
	mov	w8, wzr
	mov	w9, wzr
	cbz	w0, .LBB36_11
	mov	w0, wzr
	mov	w1, wzr
	mov	w24, wzr
	strb	w21, [x20]
	b	.LBB36_3
.LBB36_9:
	mov	w8, wzr
	mov	w9, wzr
	mov	w0, wzr
	mov	w1, wzr
	mov	w21, wzr
	mov	w24, wzr
	b	.LBB36_12
.LBB36_10:
	mov	w8, wzr
	mov	w9, wzr
	mov	w0, wzr
	mov	w21, #1
	mov	w24, #1
	b	.LBB36_12
.LBB36_11:
	mov	w24, #1
	mov	w1, w22
.LBB36_12:
	strb	w24, [x19]
	ldp	x24, x23, [sp, #208]
	strb	w21, [x19, #2]
	ldr	x30, [sp, #192]
	strb	w1, [x19, #3]
	ldp	x22, x21, [sp, #224]
	strh	w0, [x19, #4]
	strh	w9, [x19, #6]
	strh	w8, [x19, #8]
	ldp	x20, x19, [sp, #240]
	add	sp, sp, #256
	.cfi_def_cfa_offset 0
	.cfi_restore w19
	.cfi_restore w20
	.cfi_restore w21
	.cfi_restore w22
	.cfi_restore w23
	.cfi_restore w24
	.cfi_restore w30
	ret
.Lfunc_end36:
	.size	"ecc200_calls::restoring::restore_within::<=32,=98>", .Lfunc_end36-"ecc200_calls::restoring::restore_within::<=32,=98>"
	.cfi_endproc

	.p2align	2
	.type	"dm_symbol::symbol::reading::restore",@function
"dm_symbol::symbol::reading::restore":
	.cfi_startproc
	sub	sp, sp, #208
	.cfi_def_cfa_offset 208
	stp	x29, x30, [sp, #112]
	stp	x28, x27, [sp, #128]
	stp	x26, x25, [sp, #144]
	stp	x24, x23, [sp, #160]
	stp	x22, x21, [sp, #176]
	stp	x20, x19, [sp, #192]
	.cfi_offset w19, -8
	.cfi_offset w20, -16
	.cfi_offset w21, -24
	.cfi_offset w22, -32
	.cfi_offset w23, -40
	.cfi_offset w24, -48
	.cfi_offset w25, -56
	.cfi_offset w26, -64
	.cfi_offset w27, -72
	.cfi_offset w28, -80
	.cfi_offset w30, -88
	.cfi_offset w29, -96
	mov	w23, w2
	mov	x24, x1
	mov	x19, x0
	mov	x0, x1
	mov	w1, w2
	mov	x2, x3
	mov	x20, x7
	mov	x21, x6
	mov	w29, w4
	mov	x22, x3
	and	w25, w5, #0xffff
	bl	"dm_layout::symbols::border::border_faults"
	cmp	w25, w0, uxth
	b.hs	.LBB37_2
	mov	w8, #1
	strh	wzr, [x19, #2]
	strb	w8, [x19]
	strh	w0, [x19, #4]
	stur	wzr, [x19, #6]
	b	.LBB37_20
.LBB37_2:
	ldp	x26, x8, [sp, #208]
	mov	x1, x21
	strh	w0, [x8]
	mov	x0, x24
	ldrh	w8, [x24, #12]
	ldrh	w9, [x24, #14]
	add	w28, w9, w8
	bl	"dm_layout::symbols::placing::lift_to"
	strb	wzr, [x20]
	ldr	q0, [x24]
	ldr	w8, [x24, #16]
	str	q0, [sp, #16]
	str	w8, [sp, #32]
	tbz	w23, #0, .LBB37_4
	add	x0, sp, #16
	and	x2, x28, #0xffff
	mov	x1, x21
	mov	w3, wzr
	mov	x4, x22
	mov	x5, x26
	bl	"dm_symbol::symbol::reading::restore_doubtful"
	mov	w27, w1
	b	.LBB37_13
.LBB37_4:
	ldr	q0, [x24]
	ldr	w9, [x24, #16]
	ldr	x8, [x26, #32]
	str	wzr, [sp, #76]
	str	q0, [sp, #80]
	str	w9, [sp, #96]
	cbz	x8, .LBB37_6
	add	x2, x8, x8, lsl #1
	mov	x0, x26
	mov	w1, wzr
	bl	memset
	str	xzr, [x26, #32]
.LBB37_6:
	ldrh	w8, [sp, #96]
	tst	w8, #0xff
	b.eq	.LBB37_11
	add	x9, sp, #76
	str	w29, [sp, #12]
	mov	x27, xzr
	and	x29, x8, #0xff
	orr	x25, x9, #0x1
.LBB37_8:
	add	x0, sp, #76
	add	x1, sp, #80
	and	x3, x28, #0xffff
	add	x4, sp, #48
	mov	x2, x21
	mov	x5, x27
	stp	xzr, xzr, [sp, #48]
	str	xzr, [sp, #64]
	bl	"dm_symbol::symbol::correction::restore_block"
	ldrb	w8, [sp, #76]
	cmp	w8, #1
	b.ne	.LBB37_12
	ldr	x8, [x26, #32]
	ldrh	w10, [x25]
	add	x27, x27, #1
	ldrb	w11, [x25, #2]
	cmp	x29, x27
	add	x9, x8, x8, lsl #1
	add	x8, x8, #1
	add	x9, x26, x9
	strh	w10, [x9]
	strb	w11, [x9, #2]
	str	x8, [x26, #32]
	b.ne	.LBB37_8
	ldr	w29, [sp, #12]
.LBB37_11:
	mov	w27, wzr
	mov	w0, wzr
	b	.LBB37_13
.LBB37_12:
	ldr	w29, [sp, #12]
	mov	w0, #1
.LBB37_13:
	and	w8, w0, #0xff
	cmp	w8, #1
	b.ne	.LBB37_17
	tst	w29, #0xff
	b.eq	.LBB37_18
	and	x4, x28, #0xffff
	mov	x0, x24
	mov	w1, w23
	mov	x2, x22
	mov	x3, x21
	mov	x5, x26
	bl	"dm_symbol::symbol::dealing::restore_restarted"
	mov	w8, #1
	cbz	w0, .LBB37_19
	mov	w27, wzr
	strb	w8, [x20]
	mov	w8, wzr
	b	.LBB37_19
.LBB37_17:
	mov	w8, wzr
	mov	w27, wzr
	b	.LBB37_19
.LBB37_18:
	mov	w8, #1
.LBB37_19:
	strb	w8, [x19]
	strb	w8, [x19, #2]
	strb	w27, [x19, #3]
	str	wzr, [x19, #4]
	strh	wzr, [x19, #8]
.LBB37_20:
	ldp	x20, x19, [sp, #192]
	ldp	x22, x21, [sp, #176]
	ldp	x24, x23, [sp, #160]
	ldp	x26, x25, [sp, #144]
	ldp	x28, x27, [sp, #128]
	ldp	x29, x30, [sp, #112]
	add	sp, sp, #208
	.cfi_def_cfa_offset 0
	.cfi_restore w19
	.cfi_restore w20
	.cfi_restore w21
	.cfi_restore w22
	.cfi_restore w23
	.cfi_restore w24
	.cfi_restore w25
	.cfi_restore w26
	.cfi_restore w27
	.cfi_restore w28
	.cfi_restore w30
	.cfi_restore w29
	ret
.Lfunc_end37:
	.size	"dm_symbol::symbol::reading::restore", .Lfunc_end37-"dm_symbol::symbol::reading::restore"
	.cfi_endproc

	.p2align	2
	.type	"ecc200_calls::restoring::restore_surely::<=32,=98>",@function
"ecc200_calls::restoring::restore_surely::<=32,=98>":
	.cfi_startproc
	sub	sp, sp, #112
	.cfi_def_cfa_offset 112
	str	x30, [sp, #32]
	stp	x26, x25, [sp, #48]
	stp	x24, x23, [sp, #64]
	stp	x22, x21, [sp, #80]
	stp	x20, x19, [sp, #96]
	.cfi_offset w19, -8
	.cfi_offset w20, -16
	.cfi_offset w21, -24
	.cfi_offset w22, -32
	.cfi_offset w23, -40
	.cfi_offset w24, -48
	.cfi_offset w25, -56
	.cfi_offset w26, -64
	.cfi_offset w30, -80
	.cfi_remember_state
	ldrh	w8, [x2]
	ldrh	w9, [x2, #2]
	mov	x21, x6
	mov	x22, x5
	mov	x19, x0
	mov	x0, sp
	add	w8, w9, w8
	mov	x6, x22
	mov	x7, x21
	lsr	w5, w8, #3
	mov	x23, x4
	mov	x24, x2
	mov	w25, w3
	mov	w26, w1
	strh	wzr, [sp, #8]
	str	xzr, [sp]
	bl	"ecc200_calls::restoring::restore_within::<=32,=98>"
	ldrb	w8, [sp]
	cbz	w8, .LBB38_4
	ldrb	w8, [sp, #2]
	cmp	w8, #2
	b.eq	.LBB38_5
	cmp	w8, #1
	b.ne	.LBB38_6
	ldrb	w10, [sp, #3]
	mov	w20, wzr
	mov	w9, wzr
	mov	w11, wzr
	mov	w12, #1
	b	.LBB38_13
.LBB38_4:
	mov	w12, wzr
	mov	w10, wzr
	mov	w20, wzr
	b	.LBB38_12
.LBB38_5:
	ldrb	w20, [sp, #4]
	ldrh	w9, [sp, #6]
	mov	w10, wzr
	ldrh	w11, [sp, #8]
	mov	w12, #2
	mov	w8, #1
	b	.LBB38_13
.LBB38_6:
	ldrh	w20, [sp, #4]
	add	x0, sp, #16
	mov	w1, w26
	mov	x2, x24
	mov	w3, w25
	mov	x4, x23
	mov	w5, w20
	mov	x6, x22
	mov	x7, x21
	strh	wzr, [sp, #24]
	str	xzr, [sp, #16]
	bl	"ecc200_calls::restoring::restore_within::<=32,=98>"
	ldrb	w8, [sp, #16]
	cbnz	w8, .LBB38_10
	ldr	x8, [x21, #40]
	add	x9, x21, #10
	add	x8, x8, #1
.LBB38_8:
	subs	x8, x8, #1
	b.eq	.LBB38_14
	ldrb	w10, [x9], #3
	cmp	w10, #1
	b.hi	.LBB38_8
.LBB38_10:
	mov	w8, #1
.LBB38_11:
	mov	w12, wzr
	mov	w10, wzr
.LBB38_12:
	mov	w9, wzr
	mov	w11, wzr
.LBB38_13:
	strb	w8, [x19]
	ldp	x22, x21, [sp, #80]
	strb	w12, [x19, #2]
	ldr	x30, [sp, #32]
	strb	w10, [x19, #3]
	ldp	x24, x23, [sp, #64]
	strh	w20, [x19, #4]
	ldp	x26, x25, [sp, #48]
	strh	w9, [x19, #6]
	strh	w11, [x19, #8]
	ldp	x20, x19, [sp, #96]
	add	sp, sp, #112
	.cfi_def_cfa_offset 0
	.cfi_restore w19
	.cfi_restore w20
	.cfi_restore w21
	.cfi_restore w22
	.cfi_restore w23
	.cfi_restore w24
	.cfi_restore w25
	.cfi_restore w26
	.cfi_restore w30
	ret
.LBB38_14:
	.cfi_restore_state
	mov	w20, wzr
	b	.LBB38_11
.Lfunc_end38:
	.size	"ecc200_calls::restoring::restore_surely::<=32,=98>", .Lfunc_end38-"ecc200_calls::restoring::restore_surely::<=32,=98>"
	.cfi_endproc

	.p2align	2
	.type	"ecc200_calls::answer::answer_words::<#b7053eec525c6199>",@function
"ecc200_calls::answer::answer_words::<#b7053eec525c6199>":
	.cfi_startproc
	str	x29, [sp, #-80]!
	.cfi_def_cfa_offset 80
	stp	x30, x25, [sp, #16]
	stp	x24, x23, [sp, #32]
	stp	x22, x21, [sp, #48]
	stp	x20, x19, [sp, #64]
	.cfi_offset w19, -8
	.cfi_offset w20, -16
	.cfi_offset w21, -24
	.cfi_offset w22, -32
	.cfi_offset w23, -40
	.cfi_offset w24, -48
	.cfi_offset w25, -56
	.cfi_offset w30, -64
	.cfi_offset w29, -80
	sub	sp, sp, #576
	.cfi_def_cfa_offset 656
	.cfi_remember_state
	mov	x21, x2
	mov	w22, w1
	mov	x20, x0
	ldrh	w23, [x2, #12]
	add	x0, sp, #8
	mov	w1, wzr
	mov	w2, #528
	mov	x19, x3
	add	x24, sp, #544
	add	x25, sp, #8
	bl	memset
	movi	v0.2d, #0000000000000000
	add	x0, sp, #544
	add	x2, x21, #20
	orr	x4, x25, #0x6
	add	x5, x25, #280
	mov	w1, w22
	mov	x3, x23
	stp	q0, q0, [x24]
	bl	"dm_words::contents::reading::read_content"
	ldrb	w8, [sp, #544]
	cbz	w8, .LBB39_4
	ldrb	w8, [sp, #546]
	ldrh	w10, [sp, #548]
	cmp	w8, #2
	b.eq	.LBB39_5
	cmp	w8, #1
	b.ne	.LBB39_8
	mov	w8, wzr
	mov	w11, #20
	b	.LBB39_6
.LBB39_4:
	ldr	x8, [sp, #552]
	ldrb	w11, [x20]
	add	x0, sp, #544
	ldr	x2, [sp, #560]
	ldr	x4, [sp, #568]
	orr	x1, x25, #0x6
	lsr	x9, x8, #8
	lsr	x10, x8, #16
	lsl	x5, x11, #8
	add	x3, x25, #280
	mov	x6, x19
	strb	w8, [sp, #8]
	str	x2, [sp, #280]
	str	x4, [sp, #536]
	strb	w9, [sp, #9]
	stur	w10, [sp, #10]
	strb	w8, [sp, #544]
	strb	w9, [sp, #545]
	stur	w10, [x24, #2]
	bl	"ecc200_calls::writing::write_content"
	b	.LBB39_7
.LBB39_5:
	mov	w8, wzr
	mov	w11, #21
.LBB39_6:
	strh	w11, [x19]
	strh	w8, [x19, #2]
	strh	w10, [x19, #4]
	stur	wzr, [x19, #6]
.LBB39_7:
	add	sp, sp, #576
	.cfi_def_cfa_offset 80
	ldp	x20, x19, [sp, #64]
	ldp	x22, x21, [sp, #48]
	ldp	x24, x23, [sp, #32]
	ldp	x30, x25, [sp, #16]
	ldr	x29, [sp], #80
	.cfi_def_cfa_offset 0
	.cfi_restore w19
	.cfi_restore w20
	.cfi_restore w21
	.cfi_restore w22
	.cfi_restore w23
	.cfi_restore w24
	.cfi_restore w25
	.cfi_restore w30
	.cfi_restore w29
	ret
.LBB39_8:
	.cfi_restore_state
	ldrh	w9, [sp, #550]
	and	w8, w10, #0xff
	cmp	w8, #2
	b.le	.LBB39_12
	cmp	w8, #4
	b.gt	.LBB39_15
	cmp	w8, #3
	b.ne	.LBB39_19
	mov	w8, wzr
	mov	w11, #10
	mov	w10, w9
	b	.LBB39_6
.LBB39_12:
	cbz	w8, .LBB39_17
	cmp	w8, #1
	b.ne	.LBB39_18
	lsr	w8, w10, #8
	mov	w11, #8
	mov	w10, w9
	b	.LBB39_6
.LBB39_15:
	cmp	w8, #5
	b.ne	.LBB39_20
	mov	w8, wzr
	mov	w11, #12
	mov	w10, w9
	b	.LBB39_6
.LBB39_17:
	mov	w11, #7
	mov	w10, w9
	b	.LBB39_6
.LBB39_18:
	mov	w8, wzr
	mov	w11, #9
	mov	w10, w9
	b	.LBB39_6
.LBB39_19:
	mov	w8, wzr
	mov	w11, #11
	mov	w10, w9
	b	.LBB39_6
.LBB39_20:
	mov	w8, wzr
	mov	w11, #13
	mov	w10, w9
	b	.LBB39_6
.Lfunc_end39:
	.size	"ecc200_calls::answer::answer_words::<#b7053eec525c6199>", .Lfunc_end39-"ecc200_calls::answer::answer_words::<#b7053eec525c6199>"
	.cfi_endproc

	.section	.rodata.cst8,"aM",@progbits,8
	.p2align	3, 0x0
.LCPI40_0:
	.byte	1
	.byte	91
	.byte	1
	.byte	41
	.byte	1
	.byte	62
	.byte	1
	.byte	30
.LCPI40_1:
	.byte	1
	.byte	30
	.byte	1
	.byte	4
	.zero	1
	.zero	1
	.zero	1
	.zero	1
	.text
	.p2align	2
	.type	"dm_words::contents::reading::read_content",@function
"dm_words::contents::reading::read_content":
	.cfi_startproc
	sub	sp, sp, #144
	.cfi_def_cfa_offset 144
	stp	x29, x30, [sp, #48]
	stp	x28, x27, [sp, #64]
	stp	x26, x25, [sp, #80]
	stp	x24, x23, [sp, #96]
	stp	x22, x21, [sp, #112]
	stp	x20, x19, [sp, #128]
	.cfi_offset w19, -8
	.cfi_offset w20, -16
	.cfi_offset w21, -24
	.cfi_offset w22, -32
	.cfi_offset w23, -40
	.cfi_offset w24, -48
	.cfi_offset w25, -56
	.cfi_offset w26, -64
	.cfi_offset w27, -72
	.cfi_offset w28, -80
	.cfi_offset w30, -88
	.cfi_offset w29, -96
	.cfi_remember_state
	mov	x20, x4
	mov	x22, x3
	mov	w23, w1
	mov	x24, x2
	mov	x19, x0
	tst	w1, #0xff
	stp	xzr, xzr, [sp, #24]
	str	xzr, [sp, #40]
	b.eq	.LBB40_6
	cbz	x22, .LBB40_7
	ldrb	w8, [x24]
	cbz	w8, .LBB40_7
	cmp	w8, #129
	b.lo	.LBB40_6
	b.eq	.LBB40_7
	cmp	w8, #229
	b.hi	.LBB40_7
.LBB40_6:
	mov	x8, xzr
	mov	w29, wzr
	mov	w28, wzr
	mov	w26, wzr
	mov	w27, wzr
	mov	x25, xzr
	b	.LBB40_13
.LBB40_7:
	add	x0, sp, #24
	mov	x1, x24
	mov	x2, x22
	mov	x21, x5
	bl	"dm_words::contents::opening::opening_asked"
	ldrb	w8, [sp, #24]
	cmp	w8, #1
	b.ne	.LBB40_10
	ldrb	w28, [sp, #32]
	ldrb	w26, [sp, #33]
	ldur	w27, [sp, #34]
	ldr	x25, [sp, #40]
	cmp	w28, #2
	b.ne	.LBB40_11
	adrp	x9, .LCPI40_0
	mov	w8, #12289
	mov	w10, #5
	ldr	d0, [x9, :lo12:.LCPI40_0]
	strh	w8, [x20, #8]
	mov	w29, #1
	mov	w9, #7425
	mov	w8, #7
	str	x10, [sp, #16]
	strb	w29, [x20, #10]
	str	d0, [x20]
	strb	w26, [x20, #11]
	strh	w9, [x20, #12]
	b	.LBB40_12
.LBB40_10:
	mov	w8, #1
	mov	w9, #1
	stur	xzr, [x19, #6]
	movk	w8, #2, lsl #16
	strh	w9, [x19, #4]
	str	w8, [x19]
	stur	xzr, [x19, #22]
	stur	xzr, [x19, #14]
	strh	wzr, [x19, #30]
	b	.LBB40_58
.LBB40_11:
	mov	x8, xzr
	mov	w29, wzr
.LBB40_12:
	mov	x5, x21
.LBB40_13:
	cmp	x25, x22
	b.lo	.LBB40_49
.LBB40_14:
	cmp	x25, x22
	str	x8, [sp, #16]
	b.hs	.LBB40_54
	mov	x21, xzr
	str	x5, [sp, #8]
.LBB40_16:
	ldrb	w9, [x24, x25]
	cmp	w9, #241
	b.eq	.LBB40_21
	cmp	w9, #129
	b.eq	.LBB40_55
	add	x0, sp, #24
	add	x6, sp, #16
	mov	w1, w23
	mov	x2, x24
	mov	x3, x22
	mov	x4, x25
	mov	x5, x20
	stp	xzr, xzr, [sp, #24]
	str	xzr, [sp, #40]
	bl	"dm_words::reading::next_part"
	ldrb	w8, [sp, #24]
	cbnz	w8, .LBB40_61
	ldrb	w9, [sp, #32]
	ldr	x8, [sp, #16]
	cmp	w9, #1
	b.ne	.LBB40_55
	ldr	x9, [sp, #40]
	b	.LBB40_38
.LBB40_21:
	tst	w23, #0xff
	b.eq	.LBB40_60
	add	x9, x25, #1
	subs	x11, x22, x9
	b.eq	.LBB40_59
	add	x10, x24, x9
	ldrb	w9, [x10]
	cbz	w9, .LBB40_59
	tbnz	w9, #7, .LBB40_26
	sub	w10, w9, #1
	mov	w9, #2
	b	.LBB40_37
.LBB40_26:
	cmp	w9, #191
	b.hi	.LBB40_30
	cmp	x11, #1
	b.eq	.LBB40_59
	ldrb	w10, [x10, #1]
	sub	w11, w10, #1
	cmp	w11, #253
	b.hi	.LBB40_59
	mov	w11, #254
	madd	w9, w9, w11, w10
	mov	w10, #-32386
	add	w10, w9, w10
	mov	w9, #3
	b	.LBB40_37
.LBB40_30:
	cmp	x11, #1
	b.eq	.LBB40_59
	cmp	w9, #207
	b.hi	.LBB40_59
	cmp	x11, #3
	b.lo	.LBB40_59
	ldrb	w11, [x10, #1]
	sub	w12, w11, #1
	cmp	w12, #253
	b.hi	.LBB40_59
	ldrb	w10, [x10, #2]
	sub	w12, w10, #1
	cmp	w12, #253
	b.hi	.LBB40_59
	mov	w12, #64516
	mul	w9, w9, w12
	mov	w12, #254
	madd	w9, w11, w12, w9
	add	w9, w9, w10
	mov	w10, #1600
	movk	w10, #204, lsl #16
	cmp	w9, w10
	b.hs	.LBB40_59
	mov	w10, #15360
	movk	w10, #65347, lsl #16
	add	w10, w9, w10
	mov	w9, #4
.LBB40_37:
	ldr	x11, [sp, #8]
	add	x11, x11, x21, lsl #3
	add	x21, x21, #1
	strh	w8, [x11]
	strh	wzr, [x11, #2]
	str	w10, [x11, #4]
.LBB40_38:
	add	x25, x9, x25
	cmp	x25, x22
	b.lo	.LBB40_42
.LBB40_39:
	cmp	x25, x22
	str	x8, [sp, #16]
	b.lo	.LBB40_16
	b	.LBB40_55
.LBB40_40:
	add	x10, x20, x8, lsl #1
	mov	w11, #1
	sub	w9, w9, #1
	add	x8, x8, #1
	strb	w11, [x10]
	strb	w9, [x10, #1]
.LBB40_41:
	add	x25, x25, #1
	cmp	x22, x25
	b.eq	.LBB40_55
.LBB40_42:
	ldrb	w9, [x24, x25]
	cbz	w9, .LBB40_39
	cmp	w9, #129
	b.lo	.LBB40_40
	b.eq	.LBB40_39
	cmp	w9, #230
	b.hs	.LBB40_39
	add	w9, w9, #126
	mov	w11, #205
	mov	w12, #10
	and	w10, w9, #0xff
	mov	w13, #1
	mul	w10, w10, w11
	add	x11, x20, x8, lsl #1
	add	x8, x8, #2
	strb	w13, [x11]
	lsr	w10, w10, #11
	strb	w13, [x11, #2]
	msub	w9, w10, w12, w9
	add	w10, w10, #48
	strb	w10, [x11, #1]
	orr	w9, w9, #0x30
	strb	w9, [x11, #3]
	b	.LBB40_41
.LBB40_47:
	add	x10, x20, x8, lsl #1
	mov	w11, #1
	sub	w9, w9, #1
	add	x8, x8, #1
	strb	w11, [x10]
	strb	w9, [x10, #1]
.LBB40_48:
	add	x25, x25, #1
	cmp	x22, x25
	b.eq	.LBB40_54
.LBB40_49:
	ldrb	w9, [x24, x25]
	cbz	w9, .LBB40_14
	cmp	w9, #129
	b.lo	.LBB40_47
	b.eq	.LBB40_14
	cmp	w9, #230
	b.hs	.LBB40_14
	add	w9, w9, #126
	mov	w11, #205
	mov	w12, #10
	and	w10, w9, #0xff
	mov	w13, #1
	mul	w10, w10, w11
	add	x11, x20, x8, lsl #1
	add	x8, x8, #2
	strb	w13, [x11]
	lsr	w10, w10, #11
	strb	w13, [x11, #2]
	msub	w9, w10, w12, w9
	add	w10, w10, #48
	strb	w10, [x11, #1]
	orr	w9, w9, #0x30
	strb	w9, [x11, #3]
	b	.LBB40_48
.LBB40_54:
	mov	x21, xzr
.LBB40_55:
	cbz	w29, .LBB40_57
	lsl	x9, x8, #1
	adrp	x10, .LCPI40_1
	add	x8, x8, #2
	ldr	d0, [x10, :lo12:.LCPI40_1]
	str	s0, [x20, x9]
.LBB40_57:
	cmp	w28, #1
	ubfiz	x9, x27, #16, #32
	stp	x8, x21, [x19, #16]
	cset	w10, eq
	csel	w11, w26, wzr, eq
	orr	x10, x10, x11, lsl #8
	csel	x9, x9, xzr, eq
	orr	x9, x10, x9
	stp	xzr, x9, [x19]
.LBB40_58:
	ldp	x20, x19, [sp, #128]
	ldp	x22, x21, [sp, #112]
	ldp	x24, x23, [sp, #96]
	ldp	x26, x25, [sp, #80]
	ldp	x28, x27, [sp, #64]
	ldp	x29, x30, [sp, #48]
	add	sp, sp, #144
	.cfi_def_cfa_offset 0
	.cfi_restore w19
	.cfi_restore w20
	.cfi_restore w21
	.cfi_restore w22
	.cfi_restore w23
	.cfi_restore w24
	.cfi_restore w25
	.cfi_restore w26
	.cfi_restore w27
	.cfi_restore w28
	.cfi_restore w30
	.cfi_restore w29
	ret
.LBB40_59:
	.cfi_restore_state
	add	w9, w25, #1
	mov	w8, wzr
	mov	w11, #1
	ubfx	w10, w9, #8, #8
	b	.LBB40_62
.LBB40_60:
	mov	w11, wzr
	add	w8, w25, #1
	mov	w9, #1
	mov	w10, #241
	b	.LBB40_62
.LBB40_61:
	ldrb	w9, [sp, #26]
	ldrb	w10, [sp, #27]
	mov	w11, wzr
	ldrh	w8, [sp, #28]
.LBB40_62:
	bfi	w9, w10, #8, #8
	mov	w10, #1
	strh	w11, [x19, #2]
	strh	w10, [x19]
	strh	w9, [x19, #4]
	strh	w8, [x19, #6]
	stp	xzr, xzr, [x19, #16]
	str	xzr, [x19, #8]
	b	.LBB40_58
.Lfunc_end40:
	.size	"dm_words::contents::reading::read_content", .Lfunc_end40-"dm_words::contents::reading::read_content"
	.cfi_endproc

	.section	.rodata.cst16,"aM",@progbits,16
	.p2align	4, 0x0
.LCPI41_0:
	.word	12
	.word	13
	.word	14
	.word	15
.LCPI41_1:
	.word	8
	.word	9
	.word	10
	.word	11
.LCPI41_2:
	.word	4
	.word	5
	.word	6
	.word	7
.LCPI41_3:
	.word	0
	.word	1
	.word	2
	.word	3
.LCPI41_4:
	.byte	0
	.byte	4
	.byte	8
	.byte	12
	.byte	16
	.byte	20
	.byte	24
	.byte	28
	.byte	32
	.byte	36
	.byte	40
	.byte	44
	.byte	48
	.byte	52
	.byte	56
	.byte	60
	.text
	.p2align	2
	.type	"ecc200_calls::writing::write_content",@function
"ecc200_calls::writing::write_content":
	.cfi_startproc
	stp	x29, x30, [sp, #-96]!
	.cfi_def_cfa_offset 96
	stp	x28, x27, [sp, #16]
	stp	x26, x25, [sp, #32]
	stp	x24, x23, [sp, #48]
	stp	x22, x21, [sp, #64]
	stp	x20, x19, [sp, #80]
	.cfi_offset w19, -8
	.cfi_offset w20, -16
	.cfi_offset w21, -24
	.cfi_offset w22, -32
	.cfi_offset w23, -40
	.cfi_offset w24, -48
	.cfi_offset w25, -56
	.cfi_offset w26, -64
	.cfi_offset w27, -72
	.cfi_offset w28, -80
	.cfi_offset w30, -88
	.cfi_offset w29, -96
	sub	sp, sp, #1648
	.cfi_def_cfa_offset 1744
	.cfi_remember_state
	str	xzr, [sp]
	mov	x20, x2
	mov	x22, x1
	ldrb	w27, [x0]
	ldrb	w28, [x0, #1]
	ldur	w26, [x0, #2]
	add	x0, sp, #24
	mov	w1, wzr
	mov	w2, #1558
	mov	x19, x6
	mov	x21, x5
	mov	x23, x4
	mov	x24, x3
	add	x25, sp, #1584
	and	x29, x5, #0xff
	bl	memset
	cbz	x29, .LBB41_4
	ubfx	w8, w21, #16, #8
	lsr	x9, x21, #32
	lsr	x1, x21, #8
	cmp	x20, #63
	strb	w27, [sp, #1640]
	strb	w28, [sp, #1641]
	stur	w26, [x25, #58]
	strh	w8, [sp, #1632]
	stur	w9, [x25, #50]
	str	xzr, [sp, #1616]
	str	xzr, [sp, #1608]
	stur	xzr, [x25, #38]
	str	xzr, [sp, #1592]
	str	xzr, [sp, #1584]
	stur	xzr, [x25, #14]
	b.hi	.LBB41_9
	cmp	x23, #31
	b.hi	.LBB41_9
	add	x8, sp, #24
	add	x0, sp, #1608
	add	x2, sp, #1640
	add	x7, sp, #1632
	mov	x3, x22
	mov	x4, x20
	mov	x5, x24
	mov	x6, x23
	str	x8, [sp]
	bl	"dm_words::smallest::smallest_in::<=64,=31>"
	ldrb	w8, [sp, #1608]
	b	.LBB41_16
.LBB41_4:
	cbnz	x23, .LBB41_12
	cbnz	w27, .LBB41_12
	cmp	x20, #780
	b.hs	.LBB41_20
	cbnz	x20, .LBB41_32
	mov	x0, xzr
	mov	w8, wzr
	mov	w10, #1
	b	.LBB41_47
.LBB41_9:
	cmp	x20, #511
	b.hi	.LBB41_14
	cmp	x23, #102
	b.hi	.LBB41_14
	add	x8, sp, #24
	add	x0, sp, #1584
	add	x2, sp, #1640
	add	x7, sp, #1632
	mov	x3, x22
	mov	x4, x20
	mov	x5, x24
	mov	x6, x23
	str	x8, [sp]
	bl	"dm_words::smallest::smallest_in::<=512,=102>"
	b	.LBB41_15
.LBB41_12:
	cmp	w28, #0
	mov	w8, #4
	mov	x0, x22
	csinc	x8, x8, xzr, ne
	cmp	w27, #0
	mov	x1, x20
	mov	x2, x24
	mov	x3, x23
	strb	w27, [sp, #1608]
	strb	w28, [sp, #1609]
	stur	w26, [x25, #26]
	csel	x26, xzr, x8, eq
	bl	"dm_words::contents::normal_form::marked_length"
	add	x8, x0, x26
	cmp	x8, #1558
	b.hi	.LBB41_17
	add	x0, sp, #1608
	add	x5, sp, #24
	mov	x1, x22
	mov	x2, x20
	mov	x3, x24
	mov	x4, x23
	bl	"dm_words::contents::normal_form::write_form"
	b	.LBB41_89
.LBB41_14:
	add	x8, sp, #24
	add	x0, sp, #1584
	add	x2, sp, #1640
	add	x7, sp, #1632
	mov	x3, x22
	mov	x4, x20
	mov	x5, x24
	mov	x6, x23
	str	x8, [sp]
	bl	"dm_words::smallest::smallest_in::<=3124,=779>"
.LBB41_15:
	ldur	q0, [x25, #2]
	ldur	w9, [x25, #18]
	ldrb	w8, [sp, #1584]
	stur	q0, [x25, #26]
	stur	w9, [x25, #42]
.LBB41_16:
	cbz	w8, .LBB41_19
.LBB41_17:
	mov	w8, #14
	stur	xzr, [x19, #2]
	strh	w8, [x19]
.LBB41_18:
	add	sp, sp, #1648
	.cfi_def_cfa_offset 96
	ldp	x20, x19, [sp, #80]
	ldp	x22, x21, [sp, #64]
	ldp	x24, x23, [sp, #48]
	ldp	x26, x25, [sp, #32]
	ldp	x28, x27, [sp, #16]
	ldp	x29, x30, [sp], #96
	.cfi_def_cfa_offset 0
	.cfi_restore w19
	.cfi_restore w20
	.cfi_restore w21
	.cfi_restore w22
	.cfi_restore w23
	.cfi_restore w24
	.cfi_restore w25
	.cfi_restore w26
	.cfi_restore w27
	.cfi_restore w28
	.cfi_restore w30
	.cfi_restore w29
	ret
.LBB41_19:
	.cfi_restore_state
	ldrh	w8, [sp, #1610]
	ldrh	w9, [sp, #1612]
	ldur	x10, [x25, #30]
	ldrh	w2, [sp, #1622]
	ldr	w12, [sp, #1624]
	ldrb	w11, [sp, #1628]
	ldrb	w13, [sp, #1629]
	b	.LBB41_117
.LBB41_20:
	cmp	x20, #1558
	b.hi	.LBB41_53
	movi	v0.2d, #0000000000000000
	and	x10, x20, #0x7f0
	mov	x8, x22
	and	x9, x20, #0x7f0
.LBB41_22:
	ld2	{ v1.16b, v2.16b }, [x8], #32
	movi	v3.16b, #1
	subs	x9, x9, #16
	cmeq	v3.16b, v1.16b, v3.16b
	and	v1.16b, v3.16b, v2.16b
	umax	v0.16b, v1.16b, v0.16b
	b.ne	.LBB41_22
	umaxv	b0, v0.16b
	cmp	x20, x10
	fmov	w8, s0
	b.eq	.LBB41_31
	tbnz	w20, #3, .LBB41_26
	and	x9, x20, #0x7f0
	b	.LBB41_29
.LBB41_26:
	dup	v0.8b, w8
	ubfx	x8, x20, #4, #7
	and	x9, x20, #0x7f8
	sub	x10, x9, x10
	add	x8, x22, x8, lsl #5
.LBB41_27:
	ld2	{ v1.8b, v2.8b }, [x8], #16
	movi	v3.8b, #1
	subs	x10, x10, #8
	cmeq	v3.8b, v1.8b, v3.8b
	and	v1.8b, v3.8b, v2.8b
	umax	v0.8b, v1.8b, v0.8b
	b.ne	.LBB41_27
	umaxv	b0, v0.8b
	cmp	x20, x9
	fmov	w8, s0
	b.eq	.LBB41_31
.LBB41_29:
	add	x10, x22, x9, lsl #1
	sub	x9, x20, x9
	add	x10, x10, #1
.LBB41_30:
	ldurb	w11, [x10, #-1]
	ldrb	w12, [x10], #2
	and	w8, w8, #0xff
	cmp	w11, #1
	csel	w11, w12, wzr, eq
	and	w11, w11, #0xff
	cmp	w11, w8
	csel	w8, w11, w8, hi
	subs	x9, x9, #1
	b.ne	.LBB41_30
.LBB41_31:
	tbnz	w8, #7, .LBB41_53
.LBB41_32:
	mov	x0, xzr
	mov	x9, xzr
	mov	w8, wzr
.LBB41_33:
	add	x10, x22, x9, lsl #1
	ldrb	w11, [x10]
	cmp	w11, #1
	b.ne	.LBB41_39
	add	x11, x9, #1
	ldrsb	w10, [x10, #1]
	cmp	x11, x20
	b.hs	.LBB41_40
	sub	w12, w10, #48
	and	w12, w12, #0xff
	cmp	w12, #9
	b.hi	.LBB41_40
	add	x11, x22, x11, lsl #1
	ldrb	w12, [x11]
	cmp	w12, #1
	b.ne	.LBB41_42
	ldrb	w11, [x11, #1]
	sub	w12, w11, #48
	cmp	w12, #10
	b.hs	.LBB41_42
	mov	w12, #10
	madd	w10, w10, w12, w11
	add	x11, sp, #24
	add	w10, w10, #114
	strb	w10, [x11, x0]
	add	x0, x0, #1
	mov	w10, #2
	b	.LBB41_45
.LBB41_39:
	add	x8, sp, #24
	mov	w10, #232
	strb	w10, [x8, x0]
	add	x0, x0, #1
	mov	w8, #1
	b	.LBB41_44
.LBB41_40:
	sub	w11, w10, #127
	cmn	w10, #1
	csinc	w11, w11, w10, le
	tbz	w10, #31, .LBB41_43
	add	x10, sp, #24
	mov	w12, #235
	add	x10, x10, x0
	add	x0, x0, #2
	strb	w12, [x10]
	strb	w11, [x10, #1]
	b	.LBB41_44
.LBB41_42:
	add	w11, w10, #1
.LBB41_43:
	add	x10, sp, #24
	strb	w11, [x10, x0]
	add	x0, x0, #1
.LBB41_44:
	mov	w10, #1
.LBB41_45:
	add	x9, x10, x9
	cmp	x9, x20
	b.lo	.LBB41_33
	mov	w10, wzr
.LBB41_47:
	ubfx	w11, w21, #8, #8
	cmp	x20, #250
	mov	w9, #2
	cinc	x9, x9, hs
	cbz	w11, .LBB41_89
	add	x9, x9, x20
	cmp	x9, x0
	b.hs	.LBB41_89
	tbnz	w8, #0, .LBB41_89
	mov	w8, #231
	cmp	x20, #250
	strb	w8, [sp, #24]
	b.hs	.LBB41_83
	add	w8, w20, #44
	strb	w8, [sp, #25]
	tbnz	w10, #0, .LBB41_86
	mov	w11, #2
	b	.LBB41_84
.LBB41_53:
	mov	x11, xzr
	mov	w9, wzr
	mov	x8, xzr
	b	.LBB41_56
.LBB41_54:
	add	x8, x8, #1
	add	x10, x11, #1
	mov	w9, #1
.LBB41_55:
	cmp	x10, x20
	mov	x11, x10
	b.hs	.LBB41_65
.LBB41_56:
	add	x12, x22, x11, lsl #1
	ldrb	w10, [x12]
	cmp	w10, #1
	b.ne	.LBB41_54
	add	x10, x11, #1
	ldrb	w12, [x12, #1]
	cmp	x10, x20
	b.hs	.LBB41_62
	sub	w13, w12, #48
	cmp	w13, #9
	b.hi	.LBB41_62
	add	x12, x22, x10, lsl #1
	ldrb	w13, [x12]
	cmp	w13, #1
	b.ne	.LBB41_63
	ldrb	w12, [x12, #1]
	sub	w12, w12, #48
	cmp	w12, #10
	b.hs	.LBB41_63
	add	x8, x8, #1
	add	x10, x11, #2
	b	.LBB41_55
.LBB41_62:
	tbnz	w12, #7, .LBB41_64
.LBB41_63:
	add	x8, x8, #1
	b	.LBB41_55
.LBB41_64:
	add	x8, x8, #2
	b	.LBB41_55
.LBB41_65:
	add	x0, x20, #3
	mov	w10, #255
	cmp	x0, x8
	cset	w11, hs
	tst	w10, w21, lsr #8
	orr	w9, w11, w9
	cset	w10, eq
	orr	w9, w10, w9
	tst	w9, #0x1
	csel	x8, x8, x0, ne
	cmp	x8, #1558
	b.hi	.LBB41_17
	tbz	w9, #0, .LBB41_87
	mov	x9, xzr
	mov	x10, xzr
.LBB41_68:
	add	x11, x22, x10, lsl #1
	ldrb	w12, [x11]
	cmp	w12, #1
	b.ne	.LBB41_74
	add	x12, x10, #1
	ldrsb	w11, [x11, #1]
	cmp	x12, x20
	b.hs	.LBB41_75
	sub	w13, w11, #48
	and	w13, w13, #0xff
	cmp	w13, #9
	b.hi	.LBB41_75
	add	x12, x22, x12, lsl #1
	ldrb	w13, [x12]
	cmp	w13, #1
	b.ne	.LBB41_77
	ldrb	w12, [x12, #1]
	sub	w13, w12, #48
	cmp	w13, #10
	b.hs	.LBB41_77
	mov	w13, #10
	madd	w11, w11, w13, w12
	add	x12, sp, #24
	add	w11, w11, #114
	strb	w11, [x12, x9]
	add	x9, x9, #1
	mov	w11, #2
	b	.LBB41_81
.LBB41_74:
	add	x11, sp, #24
	mov	w12, #232
	b	.LBB41_79
.LBB41_75:
	sub	w12, w11, #127
	cmn	w11, #1
	csinc	w12, w12, w11, le
	tbz	w11, #31, .LBB41_78
	add	x11, sp, #24
	mov	w13, #235
	add	x11, x11, x9
	add	x9, x9, #2
	strb	w13, [x11]
	strb	w12, [x11, #1]
	b	.LBB41_80
.LBB41_77:
	add	w12, w11, #1
.LBB41_78:
	add	x11, sp, #24
.LBB41_79:
	strb	w12, [x11, x9]
	add	x9, x9, #1
.LBB41_80:
	mov	w11, #1
.LBB41_81:
	add	x10, x11, x10
	cmp	x10, x20
	b.lo	.LBB41_68
	mov	x0, x8
	b	.LBB41_89
.LBB41_83:
	mov	x10, #63439
	lsr	x8, x20, #1
	mov	w11, #3
	movk	x10, #58195, lsl #16
	movk	x10, #39845, lsl #32
	movk	x10, #8388, lsl #48
	umulh	x8, x8, x10
	mov	w10, #250
	lsr	x8, x8, #4
	msub	w10, w8, w10, w20
	add	w8, w8, #37
	strb	w8, [sp, #25]
	sub	w8, w10, #63
	strb	w8, [sp, #26]
.LBB41_84:
	mov	w8, #149
	mov	w12, #1029
	madd	w10, w11, w8, w8
	mul	w12, w10, w12
	lsr	w12, w12, #18
	sub	w12, w12, w12, lsl #8
	add	w10, w10, w12
	add	x12, sp, #24
	add	w10, w10, #1
	orr	x11, x12, x11
	add	x12, x22, #1
	and	w10, w10, #0xffff
.LBB41_85:
	ldurb	w13, [x12, #-1]
	ldrb	w14, [x12], #2
	cmp	w13, #1
	mov	w13, #-106
	csel	w14, w14, wzr, eq
	cmp	w10, #107
	csel	w13, w8, w13, lo
	add	w14, w14, w10
	subs	x20, x20, #1
	add	w10, w13, w10
	strb	w14, [x11], #1
	b.ne	.LBB41_85
.LBB41_86:
	mov	x0, x9
	b	.LBB41_89
.LBB41_87:
	mov	x9, #63439
	lsr	x8, x20, #1
	mov	w10, #231
	movk	x9, #58195, lsl #16
	strb	w10, [sp, #24]
	mov	w10, #87
	movk	x9, #39845, lsl #32
	movk	x9, #8388, lsl #48
	umulh	x8, x8, x9
	mov	w9, #250
	lsr	x8, x8, #4
	msub	w9, w8, w9, w20
	add	w8, w8, #37
	strb	w8, [sp, #25]
	sub	w8, w9, #63
	add	x9, sp, #24
	strb	w8, [sp, #26]
	orr	x8, x9, #0x3
	add	x9, x22, #1
.LBB41_88:
	ldurb	w11, [x9, #-1]
	ldrb	w12, [x9], #2
	mov	w13, #-106
	cmp	w11, #1
	mov	w11, #149
	csel	w12, w12, wzr, eq
	cmp	w10, #107
	csel	w11, w11, w13, lo
	add	w12, w12, w10
	subs	x20, x20, #1
	add	w10, w11, w10
	strb	w12, [x8], #1
	b.ne	.LBB41_88
.LBB41_89:
	lsr	x10, x21, #16
	ubfx	x12, x21, #32, #16
	lsr	x13, x21, #48
	and	w14, w0, #0xffff
	adrp	x11, .Lstatic.0
	add	x11, x11, :lo12:.Lstatic.0
	mov	x15, #-48
	b	.LBB41_92
.LBB41_90:
	cmp	w8, w9
	mov	w9, w8
	b.eq	.LBB41_103
.LBB41_91:
	adds	x15, x15, #1
	add	x11, x11, #20
	b.hs	.LBB41_17
.LBB41_92:
	ldrh	w2, [x11, #12]
	cmp	w2, w14
	b.lo	.LBB41_91
	ldrh	w8, [x11]
	and	w17, w10, #0xff
	ldrh	w9, [x11, #2]
	ldrh	w16, [x11, #18]
	cmp	w17, #1
	b.le	.LBB41_98
	cmp	w17, #2
	b.eq	.LBB41_101
	cmp	w17, #4
	b.ne	.LBB41_103
	cmp	w8, w12
	b.ne	.LBB41_91
	cmp	w9, w13
	b.ne	.LBB41_91
	b	.LBB41_102
.LBB41_98:
	cbz	w17, .LBB41_90
	cmp	w8, w9
	b.eq	.LBB41_91
	cmp	w16, #1
	b.eq	.LBB41_91
	b	.LBB41_103
.LBB41_101:
	cmp	w8, w9
	b.eq	.LBB41_91
	b	.LBB41_103
.LBB41_102:
	mov	w8, w12
	mov	w9, w13
.LBB41_103:
	ldur	x10, [x11, #4]
	cmp	w16, #1
	ldur	w12, [x11, #14]
	cset	w11, eq
	cmp	x0, x2
	b.hs	.LBB41_116
	add	x13, x0, #1
	add	x14, sp, #24
	mov	w15, #129
	cmp	x13, x2
	strb	w15, [x14, x0]
	b.hs	.LBB41_116
	mvn	x14, x0
	add	x14, x14, x2
	cmp	x14, #4
	b.lo	.LBB41_115
	cmp	x14, #16
	adrp	x15, .LCPI41_3
	b.hs	.LBB41_108
	mov	x16, xzr
	add	x17, x0, #1
	b	.LBB41_112
.LBB41_108:
	dup	v3.4s, w13
	adrp	x16, .LCPI41_0
	adrp	x17, .LCPI41_1
	adrp	x18, .LCPI41_2
	ldr	q0, [x16, :lo12:.LCPI41_0]
	ldr	q4, [x15, :lo12:.LCPI41_3]
	ldr	q1, [x17, :lo12:.LCPI41_1]
	ldr	q2, [x18, :lo12:.LCPI41_2]
	and	x16, x14, #0xfffffffffffffff0
	add	v0.4s, v3.4s, v0.4s
	add	x1, sp, #24
	and	x18, x14, #0xc
	add	v1.4s, v3.4s, v1.4s
	add	v2.4s, v3.4s, v2.4s
	add	v3.4s, v3.4s, v4.4s
	add	x17, x13, x16
	add	x1, x1, x13
	and	x3, x14, #0xfffffffffffffff0
.LBB41_109:
	movi	v4.4s, #1
	movi	v16.4h, #149
	mov	w4, #2332
	movk	w4, #259, lsl #16
	subs	x3, x3, #16
	add	v5.4s, v3.4s, v4.4s
	add	v6.4s, v2.4s, v4.4s
	add	v7.4s, v1.4s, v4.4s
	add	v4.4s, v0.4s, v4.4s
	xtn	v5.4h, v5.4s
	xtn	v6.4h, v6.4s
	xtn	v7.4h, v7.4s
	xtn	v4.4h, v4.4s
	umull	v17.4s, v5.4h, v16.4h
	umull	v18.4s, v6.4h, v16.4h
	umull	v19.4s, v7.4h, v16.4h
	movi	v7.4s, #253
	umull	v20.4s, v4.4h, v16.4h
	dup	v4.4s, w4
	adrp	x4, .LCPI41_4
	umull2	v5.2d, v20.4s, v4.4s
	umull	v6.2d, v20.2s, v4.2s
	uzp2	v5.4s, v6.4s, v5.4s
	mls	v20.4s, v5.4s, v7.4s
	umull2	v5.2d, v19.4s, v4.4s
	umull	v6.2d, v19.2s, v4.2s
	uzp2	v5.4s, v6.4s, v5.4s
	mls	v19.4s, v5.4s, v7.4s
	umull2	v5.2d, v18.4s, v4.4s
	umull	v6.2d, v18.2s, v4.2s
	uzp2	v5.4s, v6.4s, v5.4s
	mls	v18.4s, v5.4s, v7.4s
	umull2	v5.2d, v17.4s, v4.4s
	umull	v4.2d, v17.2s, v4.2s
	uzp2	v4.4s, v4.4s, v5.4s
	movi	v5.4s, #125
	mls	v17.4s, v4.4s, v7.4s
	cmhi	v6.4s, v5.4s, v18.4s
	cmhi	v7.4s, v5.4s, v19.4s
	cmhi	v4.4s, v5.4s, v17.4s
	cmhi	v5.4s, v5.4s, v20.4s
	uzp1	v4.8h, v4.8h, v6.8h
	uzp1	v5.8h, v7.8h, v5.8h
	movi	v6.16b, #130
	ldr	q7, [x4, :lo12:.LCPI41_4]
	tbl	v7.16b, { v17.16b, v18.16b, v19.16b, v20.16b }, v7.16b
	uzp1	v4.16b, v4.16b, v5.16b
	movi	v5.16b, #132
	bsl	v4.16b, v6.16b, v5.16b
	movi	v5.4s, #16
	add	v4.16b, v4.16b, v7.16b
	add	v3.4s, v3.4s, v5.4s
	add	v2.4s, v2.4s, v5.4s
	add	v1.4s, v1.4s, v5.4s
	add	v0.4s, v0.4s, v5.4s
	str	q4, [x1], #16
	b.ne	.LBB41_109
	cmp	x14, x16
	b.eq	.LBB41_116
	cbz	x18, .LBB41_124
.LBB41_112:
	dup	v0.4s, w17
	ldr	q1, [x15, :lo12:.LCPI41_3]
	add	x17, x0, x16
	add	x18, sp, #24
	and	x15, x14, #0xfffffffffffffffc
	add	x17, x17, x18
	add	x13, x13, x15
	sub	x16, x16, x15
	add	v0.4s, v0.4s, v1.4s
	add	x17, x17, #1
.LBB41_113:
	movi	v1.4s, #1
	movi	v2.4h, #149
	mov	w18, #2332
	movk	w18, #259, lsl #16
	movi	v4.4h, #130
	adds	x16, x16, #4
	add	v1.4s, v0.4s, v1.4s
	xtn	v1.4h, v1.4s
	umull	v1.4s, v1.4h, v2.4h
	dup	v2.4s, w18
	umull2	v3.2d, v1.4s, v2.4s
	umull	v2.2d, v1.2s, v2.2s
	uzp2	v2.4s, v2.4s, v3.4s
	movi	v3.4s, #253
	mls	v1.4s, v2.4s, v3.4s
	movi	v2.4s, #125
	movi	v3.4h, #132
	cmhi	v2.4s, v2.4s, v1.4s
	xtn	v1.4h, v1.4s
	xtn	v2.4h, v2.4s
	bsl	v2.8b, v4.8b, v3.8b
	add	v1.4h, v2.4h, v1.4h
	movi	v2.4s, #4
	uzp1	v1.8b, v1.8b, v0.8b
	add	v0.4s, v0.4s, v2.4s
	st1	{ v1.s }[0], [x17], #4
	b.ne	.LBB41_113
	cmp	x14, x15
	b.eq	.LBB41_116
.LBB41_115:
	add	x14, x13, #1
	mov	w16, #149
	mov	w17, #253
	and	w15, w14, #0xffff
	mul	w15, w15, w16
	mov	w16, #2332
	movk	w16, #259, lsl #16
	umull	x16, w15, w16
	lsr	x16, x16, #32
	msub	w15, w16, w17, w15
	mov	w16, #-124
	mov	w17, #-126
	cmp	w15, #125
	csel	w16, w17, w16, lo
	add	x17, sp, #24
	cmp	x2, x14
	add	w15, w16, w15
	strb	w15, [x17, x13]
	mov	x13, x14
	b.ne	.LBB41_115
.LBB41_116:
	mov	w13, wzr
.LBB41_117:
	strh	w8, [sp, #1608]
	cmp	w2, #817
	mov	w8, #2
	cinc	w8, w8, hs
	cmp	w2, #205
	add	x0, sp, #1608
	csinc	w8, w8, wzr, hs
	cmp	w2, #63
	add	x1, sp, #24
	csel	w8, wzr, w8, lo
	mov	x3, x19
	strh	w9, [sp, #1610]
	cmp	w8, #1
	stur	x10, [x25, #28]
	strh	w2, [sp, #1620]
	stur	w12, [x25, #38]
	strb	w11, [sp, #1626]
	strb	w13, [sp, #1627]
	b.gt	.LBB41_120
	cbnz	w8, .LBB41_122
	bl	"ecc200_calls::writing::show_words::<=32,=98>"
	b	.LBB41_18
.LBB41_120:
	cmp	w8, #2
	b.ne	.LBB41_123
	bl	"ecc200_calls::writing::show_words::<=104,=1152>"
	b	.LBB41_18
.LBB41_122:
	bl	"ecc200_calls::writing::show_words::<=52,=288>"
	b	.LBB41_18
.LBB41_123:
	bl	"ecc200_calls::writing::show_words::<=144,=2178>"
	b	.LBB41_18
.LBB41_124:
	add	x13, x13, x16
	b	.LBB41_115
.Lfunc_end41:
	.size	"ecc200_calls::writing::write_content", .Lfunc_end41-"ecc200_calls::writing::write_content"
	.cfi_endproc

	.p2align	2
	.type	"dm_words::contents::normal_form::marked_length",@function
"dm_words::contents::normal_form::marked_length":
	.cfi_startproc
	cbz	x3, .LBB42_17
	mov	x8, xzr
	mov	x11, xzr
	mov	x10, xzr
	b	.LBB42_4
.LBB42_2:
	mov	x11, xzr
.LBB42_3:
	ldr	w12, [x12, #4]
	mov	w13, #16383
	mov	w14, #3
	add	x10, x10, #1
	add	x8, x11, x8
	mov	x11, x9
	cmp	w12, w13
	cinc	x13, x14, hs
	cmp	w12, #127
	mov	w12, #2
	csel	x12, x12, x13, lo
	cmp	x10, x3
	add	x8, x8, x12
	b.eq	.LBB42_18
.LBB42_4:
	add	x12, x2, x10, lsl #3
	ldrh	w9, [x12]
	subs	x13, x9, x11
	b.eq	.LBB42_2
	add	x14, x0, x11, lsl #1
	mov	x16, xzr
	mov	x11, xzr
	b	.LBB42_8
.LBB42_6:
	add	x11, x11, #1
	add	x15, x16, #1
.LBB42_7:
	cmp	x15, x13
	mov	x16, x15
	b.hs	.LBB42_3
.LBB42_8:
	add	x17, x14, x16, lsl #1
	ldrb	w15, [x17]
	cmp	w15, #1
	b.ne	.LBB42_6
	add	x15, x16, #1
	ldrb	w17, [x17, #1]
	cmp	x15, x13
	b.hs	.LBB42_14
	sub	w18, w17, #48
	cmp	w18, #9
	b.hi	.LBB42_14
	add	x17, x14, x15, lsl #1
	ldrb	w18, [x17]
	cmp	w18, #1
	b.ne	.LBB42_15
	ldrb	w17, [x17, #1]
	sub	w17, w17, #48
	cmp	w17, #10
	b.hs	.LBB42_15
	add	x11, x11, #1
	add	x15, x16, #2
	b	.LBB42_7
.LBB42_14:
	tbnz	w17, #7, .LBB42_16
.LBB42_15:
	add	x11, x11, #1
	b	.LBB42_7
.LBB42_16:
	add	x11, x11, #2
	b	.LBB42_7
.LBB42_17:
	mov	x9, xzr
	mov	x8, xzr
.LBB42_18:
	subs	x10, x1, x9
	b.ne	.LBB42_20
	add	x0, xzr, x8
	ret
.LBB42_20:
	add	x11, x0, x9, lsl #1
	mov	x13, xzr
	mov	x9, xzr
	b	.LBB42_23
.LBB42_21:
	add	x9, x9, #1
	add	x12, x13, #1
.LBB42_22:
	cmp	x12, x10
	mov	x13, x12
	b.hs	.LBB42_32
.LBB42_23:
	add	x14, x11, x13, lsl #1
	ldrb	w12, [x14]
	cmp	w12, #1
	b.ne	.LBB42_21
	add	x12, x13, #1
	ldrb	w14, [x14, #1]
	cmp	x12, x10
	b.hs	.LBB42_29
	sub	w15, w14, #48
	cmp	w15, #9
	b.hi	.LBB42_29
	add	x14, x11, x12, lsl #1
	ldrb	w15, [x14]
	cmp	w15, #1
	b.ne	.LBB42_30
	ldrb	w14, [x14, #1]
	sub	w14, w14, #48
	cmp	w14, #10
	b.hs	.LBB42_30
	add	x9, x9, #1
	add	x12, x13, #2
	b	.LBB42_22
.LBB42_29:
	tbnz	w14, #7, .LBB42_31
.LBB42_30:
	add	x9, x9, #1
	b	.LBB42_22
.LBB42_31:
	add	x9, x9, #2
	b	.LBB42_22
.LBB42_32:
	add	x0, x9, x8
	ret
.Lfunc_end42:
	.size	"dm_words::contents::normal_form::marked_length", .Lfunc_end42-"dm_words::contents::normal_form::marked_length"
	.cfi_endproc

	.p2align	2
	.type	"dm_words::contents::normal_form::write_form",@function
"dm_words::contents::normal_form::write_form":
	.cfi_startproc
	sub	sp, sp, #128
	.cfi_def_cfa_offset 128
	str	x30, [sp, #32]
	stp	x28, x27, [sp, #48]
	stp	x26, x25, [sp, #64]
	stp	x24, x23, [sp, #80]
	stp	x22, x21, [sp, #96]
	stp	x20, x19, [sp, #112]
	.cfi_offset w19, -8
	.cfi_offset w20, -16
	.cfi_offset w21, -24
	.cfi_offset w22, -32
	.cfi_offset w23, -40
	.cfi_offset w24, -48
	.cfi_offset w25, -56
	.cfi_offset w26, -64
	.cfi_offset w27, -72
	.cfi_offset w28, -80
	.cfi_offset w30, -96
	ldrb	w8, [x0]
	mov	x19, x5
	mov	x23, x4
	mov	x24, x3
	mov	x21, x2
	mov	x22, x1
	cbz	w8, .LBB43_3
	ldrb	w8, [x0, #1]
	cbz	w8, .LBB43_4
	ldur	w8, [x0, #2]
	mov	w20, #4
	lsl	w9, w8, #4
	lsr	w10, w8, #24
	sub	w11, w9, w8, lsr #8
	lsr	w9, w8, #16
	add	w8, w11, #1
	mov	w11, #233
	b	.LBB43_5
.LBB43_3:
	mov	w9, wzr
	mov	w10, wzr
	mov	w11, wzr
	mov	x20, xzr
	b	.LBB43_5
.LBB43_4:
	mov	w9, wzr
	mov	w10, wzr
	mov	w11, #234
	mov	w20, #1
.LBB43_5:
	mov	x1, sp
	mov	x0, x19
	mov	x2, x20
	strb	w11, [sp]
	strb	w8, [sp, #1]
	strb	w9, [sp, #2]
	strb	w10, [sp, #3]
	str	wzr, [sp, #4]
	str	x20, [sp, #8]
	bl	memcpy
	mov	x26, xzr
	cbz	x23, .LBB43_29
	add	x8, sp, #16
	mov	x27, xzr
	orr	x28, x8, #0x3
	b	.LBB43_9
.LBB43_7:
	mov	w10, wzr
	mov	w8, wzr
	add	w9, w9, #1
	mov	w25, #1
.LBB43_8:
	add	x20, x20, #1
	add	x1, sp, #16
	mov	x2, x25
	add	x0, x19, x20
	strb	w9, [sp, #16]
	strb	w10, [sp, #17]
	strb	w8, [sp, #18]
	str	wzr, [x28]
	strb	wzr, [x28, #4]
	str	x25, [sp, #24]
	bl	memcpy
	add	x27, x27, #1
	add	x20, x25, x20
	cmp	x27, x23
	b.eq	.LBB43_29
.LBB43_9:
	add	x8, x24, x27, lsl #3
	mov	x10, x26
	ldrh	w26, [x8]
	subs	x9, x26, x10
	b.eq	.LBB43_25
	add	x10, x22, x10, lsl #1
	mov	x11, xzr
.LBB43_11:
	add	x12, x10, x11, lsl #1
	ldrb	w13, [x12]
	cmp	w13, #1
	b.ne	.LBB43_17
	add	x13, x11, #1
	ldrsb	w12, [x12, #1]
	cmp	x13, x9
	b.hs	.LBB43_18
	sub	w14, w12, #48
	and	w14, w14, #0xff
	cmp	w14, #9
	b.hi	.LBB43_18
	add	x13, x10, x13, lsl #1
	ldrb	w14, [x13]
	cmp	w14, #1
	b.ne	.LBB43_20
	ldrb	w13, [x13, #1]
	sub	w14, w13, #48
	cmp	w14, #10
	b.hs	.LBB43_20
	mov	w14, #10
	madd	w12, w12, w14, w13
	add	w12, w12, #114
	strb	w12, [x19, x20]
	add	x20, x20, #1
	mov	w12, #2
	b	.LBB43_24
.LBB43_17:
	mov	w12, #232
	strb	w12, [x19, x20]
	b	.LBB43_22
.LBB43_18:
	sub	w13, w12, #127
	cmn	w12, #1
	csinc	w13, w13, w12, le
	tbz	w12, #31, .LBB43_21
	add	x12, x19, x20
	mov	w14, #235
	add	x20, x20, #2
	strb	w14, [x12]
	strb	w13, [x12, #1]
	b	.LBB43_23
.LBB43_20:
	add	w13, w12, #1
.LBB43_21:
	strb	w13, [x19, x20]
.LBB43_22:
	add	x20, x20, #1
.LBB43_23:
	mov	w12, #1
.LBB43_24:
	add	x11, x12, x11
	cmp	x11, x9
	b.lo	.LBB43_11
.LBB43_25:
	ldr	w9, [x8, #4]
	mov	w8, #241
	strb	w8, [x19, x20]
	cmp	w9, #126
	b.ls	.LBB43_7
	mov	w8, #16382
	cmp	w9, w8
	b.hi	.LBB43_28
	sub	w9, w9, #127
	mov	w11, #33027
	mov	w8, wzr
	ubfx	w10, w9, #1, #15
	mov	w25, #2
	mul	w10, w10, w11
	mov	w11, #254
	lsr	w10, w10, #22
	msub	w11, w10, w11, w9
	eor	w9, w10, #0xffffff80
	add	w10, w11, #1
	b	.LBB43_8
.LBB43_28:
	mov	w8, #-16383
	mov	w10, #1033
	mov	w12, #2069
	add	w8, w9, w8
	movk	w10, #33026, lsl #16
	movk	w12, #16643, lsl #16
	lsr	w9, w8, #1
	lsr	w11, w8, #2
	mov	w25, #3
	umull	x9, w9, w10
	umull	x11, w11, w12
	mov	w12, #-64
	lsr	x10, x9, #38
	mov	w9, #2065
	movk	w9, #516, lsl #16
	umull	x9, w10, w9
	add	w8, w8, w10, lsl #1
	add	w8, w8, #1
	lsr	x9, x9, #32
	and	w13, w9, #0xfe
	add	x9, x12, x11, lsr #44
	add	w10, w10, w13
	add	w10, w10, #1
	b	.LBB43_8
.LBB43_29:
	subs	x8, x21, x26
	b.eq	.LBB43_45
	add	x9, x22, x26, lsl #1
	mov	x10, xzr
.LBB43_31:
	add	x11, x9, x10, lsl #1
	ldrb	w12, [x11]
	cmp	w12, #1
	b.ne	.LBB43_37
	add	x12, x10, #1
	ldrsb	w11, [x11, #1]
	cmp	x12, x8
	b.hs	.LBB43_38
	sub	w13, w11, #48
	and	w13, w13, #0xff
	cmp	w13, #9
	b.hi	.LBB43_38
	add	x12, x9, x12, lsl #1
	ldrb	w13, [x12]
	cmp	w13, #1
	b.ne	.LBB43_40
	ldrb	w12, [x12, #1]
	sub	w13, w12, #48
	cmp	w13, #10
	b.hs	.LBB43_40
	mov	w13, #10
	madd	w11, w11, w13, w12
	add	w11, w11, #114
	strb	w11, [x19, x20]
	add	x20, x20, #1
	mov	w11, #2
	b	.LBB43_44
.LBB43_37:
	mov	w11, #232
	strb	w11, [x19, x20]
	b	.LBB43_42
.LBB43_38:
	sub	w12, w11, #127
	cmn	w11, #1
	csinc	w12, w12, w11, le
	tbz	w11, #31, .LBB43_41
	add	x11, x19, x20
	mov	w13, #235
	add	x20, x20, #2
	strb	w13, [x11]
	strb	w12, [x11, #1]
	b	.LBB43_43
.LBB43_40:
	add	w12, w11, #1
.LBB43_41:
	strb	w12, [x19, x20]
.LBB43_42:
	add	x20, x20, #1
.LBB43_43:
	mov	w11, #1
.LBB43_44:
	add	x10, x11, x10
	cmp	x10, x8
	b.lo	.LBB43_31
.LBB43_45:
	mov	x0, x20
	ldp	x20, x19, [sp, #112]
	ldp	x22, x21, [sp, #96]
	ldr	x30, [sp, #32]
	ldp	x24, x23, [sp, #80]
	ldp	x26, x25, [sp, #64]
	ldp	x28, x27, [sp, #48]
	add	sp, sp, #128
	.cfi_def_cfa_offset 0
	.cfi_restore w19
	.cfi_restore w20
	.cfi_restore w21
	.cfi_restore w22
	.cfi_restore w23
	.cfi_restore w24
	.cfi_restore w25
	.cfi_restore w26
	.cfi_restore w27
	.cfi_restore w28
	.cfi_restore w30
	ret
.Lfunc_end43:
	.size	"dm_words::contents::normal_form::write_form", .Lfunc_end43-"dm_words::contents::normal_form::write_form"
	.cfi_endproc

	.p2align	2
	.type	"dm_words::smallest::smallest_in::<=64,=31>",@function
"dm_words::smallest::smallest_in::<=64,=31>":
	.cfi_startproc
	sub	sp, sp, #384
	.cfi_def_cfa_offset 384
	stp	x29, x30, [sp, #352]
	stp	x20, x19, [sp, #368]
	.cfi_offset w19, -8
	.cfi_offset w20, -16
	.cfi_offset w30, -24
	.cfi_offset w29, -32
	ldrb	w9, [x2, #1]
	ldur	w11, [x2, #2]
	movi	v0.2d, #0000000000000000
	add	x20, sp, #112
	ldrb	w10, [x2]
	mov	x8, x4
	strb	w9, [sp, #321]
	ldrb	w9, [x7]
	mov	x19, x0
	stur	w11, [x20, #210]
	ldur	w11, [x7, #2]
	strh	w9, [sp, #312]
	ldr	x9, [sp, #384]
	strb	w10, [sp, #320]
	stur	w11, [x20, #202]
	stp	xzr, xzr, [sp, #328]
	stur	xzr, [x20, #230]
	stp	xzr, xzr, [sp, #24]
	stur	xzr, [sp, #38]
	stp	q0, q0, [x20, #64]
	stp	q0, q0, [x20, #96]
	stp	q0, q0, [x20, #128]
	stp	q0, q0, [x20, #160]
	str	q0, [x20, #48]
	stp	q0, q0, [sp, #128]
	str	q0, [sp, #112]
	stur	q0, [sp, #94]
	stp	q0, q0, [sp, #64]
	str	q0, [sp, #48]
	cbnz	x6, .LBB44_3
	cbnz	w10, .LBB44_3
	add	x0, sp, #328
	add	x4, sp, #312
	add	x5, sp, #112
	mov	x2, x3
	mov	x3, x8
	mov	x6, x9
	bl	"dm_words::smallest::smallest_items_to"
	ldrb	w8, [sp, #328]
	ldur	q0, [x20, #218]
	ldur	w9, [x20, #234]
	strb	w8, [x19]
	stur	q0, [x19, #2]
	stur	w9, [x19, #18]
	b	.LBB44_7
.LBB44_3:
	tst	w1, #0xff
	b.eq	.LBB44_5
	add	x10, sp, #112
	add	x0, sp, #24
	add	x1, sp, #320
	stp	x10, x9, [sp]
	mov	x9, x6
	add	x6, sp, #312
	add	x7, sp, #48
	mov	x2, x3
	mov	x3, x8
	mov	x4, x5
	mov	x5, x9
	bl	"dm_words::smallest::contents::smallest_marked_to"
	ldrb	w8, [sp, #24]
	b	.LBB44_6
.LBB44_5:
	mov	w8, #1
.LBB44_6:
	ldur	q0, [sp, #26]
	strb	w8, [x19]
	ldur	w8, [sp, #42]
	stur	q0, [x19, #2]
	stur	w8, [x19, #18]
.LBB44_7:
	ldp	x20, x19, [sp, #368]
	ldp	x29, x30, [sp, #352]
	add	sp, sp, #384
	.cfi_def_cfa_offset 0
	.cfi_restore w19
	.cfi_restore w20
	.cfi_restore w30
	.cfi_restore w29
	ret
.Lfunc_end44:
	.size	"dm_words::smallest::smallest_in::<=64,=31>", .Lfunc_end44-"dm_words::smallest::smallest_in::<=64,=31>"
	.cfi_endproc

	.section	.rodata.cst16,"aM",@progbits,16
	.p2align	4, 0x0
.LCPI45_0:
	.word	12
	.word	13
	.word	14
	.word	15
.LCPI45_1:
	.word	8
	.word	9
	.word	10
	.word	11
.LCPI45_2:
	.word	4
	.word	5
	.word	6
	.word	7
.LCPI45_3:
	.word	0
	.word	1
	.word	2
	.word	3
.LCPI45_4:
	.byte	0
	.byte	4
	.byte	8
	.byte	12
	.byte	16
	.byte	20
	.byte	24
	.byte	28
	.byte	32
	.byte	36
	.byte	40
	.byte	44
	.byte	48
	.byte	52
	.byte	56
	.byte	60
	.text
	.p2align	2
	.type	"dm_words::smallest::smallest_items_to",@function
"dm_words::smallest::smallest_items_to":
	.cfi_startproc
	sub	sp, sp, #128
	.cfi_def_cfa_offset 128
	stp	x29, x30, [sp, #32]
	stp	x28, x27, [sp, #48]
	stp	x26, x25, [sp, #64]
	stp	x24, x23, [sp, #80]
	stp	x22, x21, [sp, #96]
	stp	x20, x19, [sp, #112]
	.cfi_offset w19, -8
	.cfi_offset w20, -16
	.cfi_offset w21, -24
	.cfi_offset w22, -32
	.cfi_offset w23, -40
	.cfi_offset w24, -48
	.cfi_offset w25, -56
	.cfi_offset w26, -64
	.cfi_offset w27, -72
	.cfi_offset w28, -80
	.cfi_offset w30, -88
	.cfi_offset w29, -96
	.cfi_remember_state
	mov	w21, w1
	mov	x19, x0
	ldrb	w24, [x4]
	ldrh	w29, [x4, #2]
	ldrh	w25, [x4, #4]
	and	w27, w1, #0xff
	mov	w0, w1
	mov	w1, wzr
	mov	x4, x5
	mov	x20, x6
	mov	x28, x5
	mov	x22, x3
	mov	x23, x2
	bl	"dm_words::smallest::plan::plan_to"
	mov	w26, w0
	str	x28, [sp, #16]
	cbz	w27, .LBB45_3
	mov	w27, w1
	mov	x0, x23
	mov	x1, x22
	mov	w2, #53
	bl	"dm_words::macros::is_framed"
	tbz	w0, #0, .LBB45_4
	str	x19, [sp, #8]
	mov	w19, #236
	b	.LBB45_6
.LBB45_3:
	mov	w12, wzr
	mov	w8, #1
	b	.LBB45_11
.LBB45_4:
	mov	x0, x23
	mov	x1, x22
	mov	w2, #54
	bl	"dm_words::macros::is_framed"
	cbz	w0, .LBB45_10
	str	x19, [sp, #8]
	mov	w19, #237
.LBB45_6:
	add	x2, x23, #14
	sub	x3, x22, #9
	mov	w0, w21
	mov	w1, wzr
	mov	x4, x28
	bl	"dm_words::smallest::plan::plan_to"
	add	w9, w0, #1
	and	w8, w9, #0xffff
	cmp	w8, w26, uxth
	b.ls	.LBB45_8
	mov	w0, w21
	mov	w1, wzr
	mov	x2, x23
	mov	x3, x22
	mov	x4, x28
	bl	"dm_words::smallest::plan::plan_to"
	mov	w12, wzr
	mov	w8, #1
	mov	w1, w27
	b	.LBB45_9
.LBB45_8:
	mov	w8, wzr
	mov	w26, w9
	mov	w1, w27
	mov	w12, w19
.LBB45_9:
	ldr	x19, [sp, #8]
	b	.LBB45_11
.LBB45_10:
	mov	w12, wzr
	mov	w8, #1
	mov	w1, w27
.LBB45_11:
	adrp	x9, .Lstatic.0
	add	x9, x9, :lo12:.Lstatic.0
	mov	x10, #-48
	b	.LBB45_14
.LBB45_12:
	cmp	w27, w28
	mov	w28, w27
	b.eq	.LBB45_26
.LBB45_13:
	adds	x10, x10, #1
	add	x9, x9, #20
	b.hs	.LBB45_24
.LBB45_14:
	ldrh	w21, [x9, #12]
	cmp	w21, w26, uxth
	b.lo	.LBB45_13
	ldrh	w27, [x9]
	ldrh	w28, [x9, #2]
	cmp	w24, #1
	ldrh	w11, [x9, #18]
	b.le	.LBB45_20
	cmp	w24, #2
	b.eq	.LBB45_23
	cmp	w24, #4
	b.ne	.LBB45_26
	cmp	w27, w29
	b.ne	.LBB45_13
	cmp	w28, w25
	b.ne	.LBB45_13
	b	.LBB45_25
.LBB45_20:
	cbz	w24, .LBB45_12
	cmp	w27, w28
	b.eq	.LBB45_13
	cmp	w11, #1
	b.eq	.LBB45_13
	b	.LBB45_26
.LBB45_23:
	cmp	w27, w28
	b.eq	.LBB45_13
	b	.LBB45_26
.LBB45_24:
	mov	w27, wzr
	mov	w28, wzr
	mov	x24, xzr
	mov	w21, wzr
	mov	w29, wzr
	mov	w26, wzr
	mov	w8, #1
	b	.LBB45_64
.LBB45_25:
	mov	w27, w29
	mov	w28, w25
.LBB45_26:
	ldur	x24, [x9, #4]
	cmp	w11, #1
	ldur	w29, [x9, #14]
	cset	w26, eq
	cmp	w21, w1, uxth
	b.hs	.LBB45_30
	str	xzr, [sp, #24]
	tbz	w8, #0, .LBB45_46
	ldr	x25, [sp, #16]
	add	x5, sp, #24
	mov	x0, x23
	mov	x1, x22
	mov	x3, x20
	mov	x4, x21
	mov	x2, x25
	bl	"dm_words::smallest::parts::write_parts"
	tbnz	w0, #0, .LBB45_49
	lsl	x8, x21, #1
	cmp	x8, x22
	b.hs	.LBB45_47
	b	.LBB45_49
.LBB45_30:
	mov	x8, xzr
	cbz	x22, .LBB45_50
	mov	x9, xzr
.LBB45_32:
	add	x10, x23, x9, lsl #1
	ldrb	w11, [x10]
	cmp	w11, #1
	b.ne	.LBB45_38
	add	x11, x9, #1
	ldrsb	w10, [x10, #1]
	cmp	x11, x22
	b.hs	.LBB45_39
	sub	w12, w10, #48
	and	w12, w12, #0xff
	cmp	w12, #9
	b.hi	.LBB45_39
	add	x11, x23, x11, lsl #1
	ldrb	w12, [x11]
	cmp	w12, #1
	b.ne	.LBB45_41
	ldrb	w11, [x11, #1]
	sub	w12, w11, #48
	cmp	w12, #10
	b.hs	.LBB45_41
	mov	w12, #10
	madd	w10, w10, w12, w11
	add	w10, w10, #114
	strb	w10, [x20, x8]
	add	x8, x8, #1
	mov	w10, #2
	b	.LBB45_45
.LBB45_38:
	mov	w10, #232
	strb	w10, [x20, x8]
	b	.LBB45_43
.LBB45_39:
	sub	w11, w10, #127
	cmn	w10, #1
	csinc	w11, w11, w10, le
	tbz	w10, #31, .LBB45_42
	add	x10, x20, x8
	mov	w12, #235
	add	x8, x8, #2
	strb	w12, [x10]
	strb	w11, [x10, #1]
	b	.LBB45_44
.LBB45_41:
	add	w11, w10, #1
.LBB45_42:
	strb	w11, [x20, x8]
.LBB45_43:
	add	x8, x8, #1
.LBB45_44:
	mov	w10, #1
.LBB45_45:
	add	x9, x10, x9
	cmp	x9, x22
	b.lo	.LBB45_32
	b	.LBB45_50
.LBB45_46:
	ldr	x25, [sp, #16]
	mov	w8, #1
	add	x0, x23, #14
	sub	x1, x22, #9
	add	x5, sp, #24
	mov	x3, x20
	mov	x2, x25
	mov	x4, x21
	strb	w12, [x20]
	str	x8, [sp, #24]
	bl	"dm_words::smallest::parts::write_parts"
	cmp	x22, x21, lsl #1
	b.hi	.LBB45_49
.LBB45_47:
	mov	w0, wzr
	mov	w1, wzr
	mov	x2, x23
	mov	x3, x22
	mov	x4, x25
	bl	"dm_words::smallest::plan::plan_to"
	cmp	w21, w0, uxth
	b.lo	.LBB45_49
	add	x5, sp, #24
	mov	x0, x23
	mov	x1, x22
	mov	x2, x25
	mov	x3, x20
	mov	x4, x21
	str	xzr, [sp, #24]
	bl	"dm_words::smallest::parts::write_parts"
.LBB45_49:
	ldr	x8, [sp, #24]
.LBB45_50:
	cmp	x8, x21
	b.hs	.LBB45_63
	add	x9, x8, #1
	mov	w10, #129
	strb	w10, [x20, x8]
	cmp	x9, x21
	b.hs	.LBB45_63
	mvn	x10, x8
	add	x10, x10, x21
	cmp	x10, #4
	b.lo	.LBB45_62
	cmp	x10, #16
	adrp	x11, .LCPI45_3
	b.hs	.LBB45_55
	mov	x12, xzr
	add	x13, x8, #1
	b	.LBB45_59
.LBB45_55:
	dup	v3.4s, w9
	adrp	x12, .LCPI45_0
	adrp	x13, .LCPI45_1
	adrp	x14, .LCPI45_2
	ldr	q0, [x12, :lo12:.LCPI45_0]
	ldr	q4, [x11, :lo12:.LCPI45_3]
	ldr	q1, [x13, :lo12:.LCPI45_1]
	ldr	q2, [x14, :lo12:.LCPI45_2]
	and	x12, x10, #0xfffffffffffffff0
	add	v0.4s, v3.4s, v0.4s
	and	x14, x10, #0xc
	add	x13, x9, x12
	add	v1.4s, v3.4s, v1.4s
	add	v2.4s, v3.4s, v2.4s
	add	v3.4s, v3.4s, v4.4s
	add	x15, x20, x9
	and	x16, x10, #0xfffffffffffffff0
.LBB45_56:
	movi	v4.4s, #1
	movi	v16.4h, #149
	mov	w17, #2332
	movk	w17, #259, lsl #16
	subs	x16, x16, #16
	add	v5.4s, v3.4s, v4.4s
	add	v6.4s, v2.4s, v4.4s
	add	v7.4s, v1.4s, v4.4s
	add	v4.4s, v0.4s, v4.4s
	xtn	v5.4h, v5.4s
	xtn	v6.4h, v6.4s
	xtn	v7.4h, v7.4s
	xtn	v4.4h, v4.4s
	umull	v17.4s, v5.4h, v16.4h
	umull	v18.4s, v6.4h, v16.4h
	umull	v19.4s, v7.4h, v16.4h
	movi	v7.4s, #253
	umull	v20.4s, v4.4h, v16.4h
	dup	v4.4s, w17
	adrp	x17, .LCPI45_4
	umull2	v5.2d, v20.4s, v4.4s
	umull	v6.2d, v20.2s, v4.2s
	uzp2	v5.4s, v6.4s, v5.4s
	mls	v20.4s, v5.4s, v7.4s
	umull2	v5.2d, v19.4s, v4.4s
	umull	v6.2d, v19.2s, v4.2s
	uzp2	v5.4s, v6.4s, v5.4s
	mls	v19.4s, v5.4s, v7.4s
	umull2	v5.2d, v18.4s, v4.4s
	umull	v6.2d, v18.2s, v4.2s
	uzp2	v5.4s, v6.4s, v5.4s
	mls	v18.4s, v5.4s, v7.4s
	umull2	v5.2d, v17.4s, v4.4s
	umull	v4.2d, v17.2s, v4.2s
	uzp2	v4.4s, v4.4s, v5.4s
	movi	v5.4s, #125
	mls	v17.4s, v4.4s, v7.4s
	cmhi	v6.4s, v5.4s, v18.4s
	cmhi	v7.4s, v5.4s, v19.4s
	cmhi	v4.4s, v5.4s, v17.4s
	cmhi	v5.4s, v5.4s, v20.4s
	uzp1	v4.8h, v4.8h, v6.8h
	uzp1	v5.8h, v7.8h, v5.8h
	movi	v6.16b, #130
	ldr	q7, [x17, :lo12:.LCPI45_4]
	tbl	v7.16b, { v17.16b, v18.16b, v19.16b, v20.16b }, v7.16b
	uzp1	v4.16b, v4.16b, v5.16b
	movi	v5.16b, #132
	bsl	v4.16b, v6.16b, v5.16b
	movi	v5.4s, #16
	add	v4.16b, v4.16b, v7.16b
	add	v3.4s, v3.4s, v5.4s
	add	v2.4s, v2.4s, v5.4s
	add	v1.4s, v1.4s, v5.4s
	add	v0.4s, v0.4s, v5.4s
	str	q4, [x15], #16
	b.ne	.LBB45_56
	cmp	x10, x12
	b.eq	.LBB45_63
	cbz	x14, .LBB45_65
.LBB45_59:
	dup	v0.4s, w13
	ldr	q1, [x11, :lo12:.LCPI45_3]
	add	x13, x12, x20
	and	x11, x10, #0xfffffffffffffffc
	add	x8, x8, x13
	add	x9, x9, x11
	add	x8, x8, #1
	sub	x12, x12, x11
	add	v0.4s, v0.4s, v1.4s
.LBB45_60:
	movi	v1.4s, #1
	movi	v2.4h, #149
	mov	w13, #2332
	movk	w13, #259, lsl #16
	movi	v4.4h, #130
	adds	x12, x12, #4
	add	v1.4s, v0.4s, v1.4s
	xtn	v1.4h, v1.4s
	umull	v1.4s, v1.4h, v2.4h
	dup	v2.4s, w13
	umull2	v3.2d, v1.4s, v2.4s
	umull	v2.2d, v1.2s, v2.2s
	uzp2	v2.4s, v2.4s, v3.4s
	movi	v3.4s, #253
	mls	v1.4s, v2.4s, v3.4s
	movi	v2.4s, #125
	movi	v3.4h, #132
	cmhi	v2.4s, v2.4s, v1.4s
	xtn	v1.4h, v1.4s
	xtn	v2.4h, v2.4s
	bsl	v2.8b, v4.8b, v3.8b
	add	v1.4h, v2.4h, v1.4h
	movi	v2.4s, #4
	uzp1	v1.8b, v1.8b, v0.8b
	add	v0.4s, v0.4s, v2.4s
	st1	{ v1.s }[0], [x8], #4
	b.ne	.LBB45_60
	cmp	x10, x11
	b.eq	.LBB45_63
.LBB45_62:
	add	x8, x9, #1
	mov	w11, #149
	mov	w12, #253
	and	w10, w8, #0xffff
	mul	w10, w10, w11
	mov	w11, #2332
	movk	w11, #259, lsl #16
	umull	x11, w10, w11
	lsr	x11, x11, #32
	msub	w10, w11, w12, w10
	mov	w11, #-124
	mov	w12, #-126
	cmp	w10, #125
	csel	w11, w12, w11, lo
	cmp	x21, x8
	add	w10, w11, w10
	strb	w10, [x20, x9]
	mov	x9, x8
	b.ne	.LBB45_62
.LBB45_63:
	mov	w8, wzr
.LBB45_64:
	strb	w8, [x19]
	strh	w27, [x19, #2]
	strh	w28, [x19, #4]
	ldp	x28, x27, [sp, #48]
	stur	x24, [x19, #6]
	ldp	x24, x23, [sp, #80]
	strh	w21, [x19, #14]
	ldp	x22, x21, [sp, #96]
	str	w29, [x19, #16]
	ldp	x29, x30, [sp, #32]
	strb	w26, [x19, #20]
	ldp	x26, x25, [sp, #64]
	strb	wzr, [x19, #21]
	ldp	x20, x19, [sp, #112]
	add	sp, sp, #128
	.cfi_def_cfa_offset 0
	.cfi_restore w19
	.cfi_restore w20
	.cfi_restore w21
	.cfi_restore w22
	.cfi_restore w23
	.cfi_restore w24
	.cfi_restore w25
	.cfi_restore w26
	.cfi_restore w27
	.cfi_restore w28
	.cfi_restore w30
	.cfi_restore w29
	ret
.LBB45_65:
	.cfi_restore_state
	add	x9, x9, x12
	b	.LBB45_62
.Lfunc_end45:
	.size	"dm_words::smallest::smallest_items_to", .Lfunc_end45-"dm_words::smallest::smallest_items_to"
	.cfi_endproc

	.section	.rodata.cst16,"aM",@progbits,16
	.p2align	4, 0x0
.LCPI46_0:
	.hword	1
	.hword	0
	.hword	0
	.hword	2
	.hword	0
	.hword	0
	.hword	65535
	.hword	0
.LCPI46_1:
	.hword	65535
	.hword	0
	.hword	0
	.hword	65535
	.hword	0
	.hword	0
	.hword	65535
	.hword	0
.LCPI46_2:
	.hword	1
	.hword	0
	.hword	0
	.hword	1
	.hword	0
	.hword	0
	.hword	65535
	.hword	0
.LCPI46_3:
	.hword	16385
	.hword	16385
	.hword	16385
	.hword	16385
	.hword	16385
	.hword	16385
	.hword	16385
	.hword	1
.LCPI46_4:
	.hword	1
	.hword	2
	.hword	4
	.hword	8
	.hword	16
	.hword	32
	.hword	64
	.hword	128
.LCPI46_5:
	.hword	16384
	.hword	16384
	.hword	16384
	.hword	16384
	.hword	16384
	.hword	16384
	.hword	16384
	.hword	0
.LCPI46_6:
	.hword	2
	.hword	2
	.hword	2
	.hword	2
	.hword	2
	.hword	2
	.hword	1
	.hword	1
.LCPI46_7:
	.hword	2
	.hword	4
	.hword	2
	.hword	2
	.hword	4
	.hword	2
	.hword	1
	.hword	1
.LCPI46_8:
	.byte	2
	.byte	3
	.byte	4
	.byte	5
	.byte	0
	.byte	1
	.byte	8
	.byte	9
	.byte	10
	.byte	11
	.byte	6
	.byte	7
	.byte	12
	.byte	13
	.byte	14
	.byte	15
.LCPI46_9:
	.hword	1
	.hword	1
	.hword	1
	.hword	2
	.hword	2
	.hword	2
	.hword	0
	.hword	0
.LCPI46_10:
	.hword	0
	.hword	2
	.hword	0
	.hword	0
	.hword	2
	.hword	0
	.hword	1
	.hword	1
.LCPI46_11:
	.hword	0
	.hword	2
	.hword	2
	.hword	0
	.hword	2
	.hword	2
	.hword	1
	.hword	1
.LCPI46_12:
	.byte	4
	.byte	5
	.byte	0
	.byte	1
	.byte	2
	.byte	3
	.byte	10
	.byte	11
	.byte	6
	.byte	7
	.byte	8
	.byte	9
	.byte	12
	.byte	13
	.byte	14
	.byte	15
.LCPI46_13:
	.hword	0
	.hword	2
	.hword	0
	.hword	0
	.hword	1
	.hword	1
	.hword	1
	.hword	0
.LCPI46_14:
	.byte	2
	.byte	3
	.byte	4
	.byte	5
	.byte	0
	.byte	1
	.byte	8
	.byte	9
	.byte	10
	.byte	11
	.byte	12
	.byte	13
	.byte	6
	.byte	7
	.byte	14
	.byte	15
.LCPI46_15:
	.hword	4
	.hword	4
	.hword	4
	.hword	8
	.hword	8
	.hword	8
	.hword	8
	.hword	0
.LCPI46_16:
	.byte	4
	.byte	5
	.byte	0
	.byte	1
	.byte	2
	.byte	3
	.byte	10
	.byte	11
	.byte	6
	.byte	7
	.byte	8
	.byte	9
	.byte	16
	.byte	17
	.byte	16
	.byte	17
.LCPI46_17:
	.hword	2
	.hword	0
	.hword	2
	.hword	2
	.hword	0
	.hword	2
	.hword	0
	.hword	0
.LCPI46_18:
	.zero	2
	.zero	2
	.hword	1
	.hword	1
	.hword	1
	.hword	1
	.hword	3
	.hword	2
.LCPI46_19:
	.zero	2
	.zero	2
	.hword	1
	.hword	1
	.hword	1
	.hword	1
	.hword	2
	.hword	2
.LCPI46_20:
	.byte	30
	.byte	31
	.byte	30
	.byte	31
	.byte	0
	.byte	1
	.byte	6
	.byte	7
	.byte	16
	.byte	17
	.byte	22
	.byte	23
	.byte	12
	.byte	13
	.byte	14
	.byte	15
	.text
	.p2align	2
	.type	"dm_words::smallest::plan::plan_to",@function
"dm_words::smallest::plan::plan_to":
	.cfi_startproc
	adrp	x9, .LCPI46_2
	dup	v3.8h, w1
	adrp	x10, .LCPI46_0
	ldr	q0, [x9, :lo12:.LCPI46_2]
	ldr	q1, [x10, :lo12:.LCPI46_0]
	movi	v5.8h, #64, lsl #8
	movi	v7.2d, #0xffffffffffffffff
	adrp	x10, .LCPI46_1
	mov	w9, #16384
	cmhi	v2.8h, v3.8h, v0.8h
	cmhi	v4.8h, v3.8h, v1.8h
	tst	w1, #0xffff
	csel	w9, wzr, w9, eq
	mov	w8, w1
	mov	v5.h[7], w9
	adrp	x9, .LCPI46_3
	sub	v6.8h, v3.8h, v2.8h
	sub	v3.8h, v3.8h, v4.8h
	ldr	q2, [x10, :lo12:.LCPI46_1]
	ldr	q4, [x9, :lo12:.LCPI46_3]
	adrp	x9, .LCPI46_4
	bif	v6.16b, v7.16b, v2.16b
	bit	v7.16b, v3.16b, v2.16b
	ldr	q3, [x9, :lo12:.LCPI46_4]
	add	x9, x3, x3, lsl #1
	add	x9, x4, x9
	cmhs	v16.8h, v5.8h, v6.8h
	cmhi	v4.8h, v4.8h, v7.8h
	strb	wzr, [x9]
	and	v16.16b, v16.16b, v3.16b
	and	v4.16b, v4.16b, v3.16b
	addv	h16, v16.8h
	addv	h4, v4.8h
	stur	b16, [x9, #1]
	stur	b4, [x9, #2]
	cbz	x3, .LBB46_9
	adrp	x10, .LCPI46_5
	lsl	x12, x3, #1
	umin	v5.8h, v5.8h, v6.8h
	ldr	q4, [x10, :lo12:.LCPI46_5]
	and	w10, w0, #0xff
	add	x11, x3, x4
	cmp	w10, #1
	mov	w10, #7
	mov	w13, #15
	umin	v7.8h, v7.8h, v4.8h
	add	x11, x12, x11
	add	x12, x12, x2
	mov	w15, wzr
	mov	w1, wzr
	mov	w9, wzr
	mov	w18, wzr
	csel	w10, w13, w10, eq
	sub	x11, x11, #1
	sub	x12, x12, #1
	mov	w17, #16384
	mov	w13, w8
	b	.LBB46_4
.LBB46_2:
	movi	v6.8h, #64, lsl #8
	adrp	x1, .LCPI46_16
	mov	w18, wzr
	ldr	q7, [x1, :lo12:.LCPI46_16]
	adrp	x1, .LCPI46_17
	tbl	v5.16b, { v5.16b, v6.16b }, v7.16b
	ldr	q6, [x1, :lo12:.LCPI46_17]
	add	v5.8h, v5.8h, v6.8h
	mov	v6.16b, v4.16b
.LBB46_3:
	mov	w1, #250
	fmov	s7, w18
	adrp	x2, .LCPI46_19
	fmov	s16, w1
	adrp	x1, .LCPI46_18
	ldr	q17, [x2, :lo12:.LCPI46_19]
	lsr	w0, w0, #7
	cmp	w8, #0
	mov	w8, #1
	movi	v19.2d, #0xffffffffffffffff
	sub	x3, x3, #1
	sub	x12, x12, #2
	cmhi	v7.8h, v16.8h, v7.8h
	ldr	q16, [x1, :lo12:.LCPI46_18]
	csinc	w0, w8, w0, eq
	mov	w8, #16384
	tst	w15, w16
	csinc	w8, w8, w17, eq
	umov	w17, v5.h[6]
	dup	v7.8h, v7.h[0]
	bsl	v7.16b, v17.16b, v16.16b
	mov	v7.h[0], w8
	adrp	x8, .LCPI46_20
	ldr	q16, [x8, :lo12:.LCPI46_20]
	add	w8, w13, w0
	tbl	v16.16b, { v5.16b, v6.16b }, v16.16b
	mov	v7.h[1], w8
	add	v7.8h, v7.8h, v16.8h
	dup	v16.2d, v7.d[1]
	umin	v16.8h, v7.8h, v16.8h
	dup	v17.4s, v16.s[1]
	umin	v16.8h, v16.8h, v17.8h
	dup	v17.8h, v16.h[1]
	umin	v16.8h, v16.8h, v17.8h
	umov	w8, v16.h[0]
	and	w8, w8, #0x7fff
	dup	v16.8h, w8
	cmhi	v17.8h, v16.8h, v0.8h
	cmhi	v18.8h, v16.8h, v1.8h
	cmeq	v7.8h, v7.8h, v16.8h
	sub	v17.8h, v16.8h, v17.8h
	sub	v16.8h, v16.8h, v18.8h
	and	v7.16b, v7.16b, v3.16b
	bif	v17.16b, v19.16b, v2.16b
	bif	v16.16b, v19.16b, v2.16b
	addv	h7, v7.8h
	fmov	w15, s7
	cmhs	v18.8h, v5.8h, v17.8h
	cmhs	v19.8h, v6.8h, v16.8h
	and	x15, x15, #0xff
	and	v7.16b, v18.16b, v3.16b
	and	v18.16b, v19.16b, v3.16b
	rbit	x1, x15
	mov	w15, w16
	add	w16, w14, w0
	clz	x0, x1
	csinc	w1, w16, w9, eq
	cmp	w8, w17, uxth
	addv	h19, v7.8h
	addv	h18, v18.8h
	umin	v7.8h, v6.8h, v16.8h
	umin	v5.8h, v5.8h, v17.8h
	sturb	w0, [x11, #-2]
	csel	w18, w18, wzr, hi
	mov	w9, w14
	mov	w17, w13
	mov	w13, w8
	stur	b19, [x11, #-1]
	str	b18, [x11]
	sub	x11, x11, #3
	cbz	x3, .LBB46_10
.LBB46_4:
	ldrb	w16, [x12]
	ldurb	w8, [x12, #-1]
	sub	w14, w16, #48
	cmp	w8, #0
	and	x0, x16, #0xff
	and	w14, w14, #0xff
	ccmp	w14, #10, #2, ne
	mov	w14, w1
	cset	w16, lo
	cbz	w8, .LBB46_2
	tbnz	w0, #7, .LBB46_7
	adrp	x1, .Lstatic.51
	add	x1, x1, :lo12:.Lstatic.51
	adrp	x2, .LCPI46_10
	ldrb	w1, [x1, x0]
	ldr	q16, [x2, :lo12:.LCPI46_10]
	adrp	x2, .LCPI46_11
	ldr	q17, [x2, :lo12:.LCPI46_11]
	adrp	x2, .LCPI46_9
	adrp	x4, .LCPI46_12
	dup	v18.8h, w1
	ldr	q19, [x2, :lo12:.LCPI46_9]
	add	v16.8h, v5.8h, v16.8h
	add	v5.8h, v5.8h, v17.8h
	adrp	x2, .LCPI46_8
	ldr	q6, [x2, :lo12:.LCPI46_8]
	and	v17.16b, v18.16b, v19.16b
	ldr	q18, [x4, :lo12:.LCPI46_12]
	tbl	v6.16b, { v16.16b }, v6.16b
	tbl	v5.16b, { v5.16b }, v18.16b
	cmeq	v16.8h, v17.8h, #0
	bif	v5.16b, v6.16b, v16.16b
	b	.LBB46_8
.LBB46_7:
	and	x1, x0, #0x7f
	adrp	x2, .Lstatic.51
	add	x2, x2, :lo12:.Lstatic.51
	ldr	b16, [x2, x1]
	adrp	x1, .LCPI46_7
	adrp	x4, .LCPI46_6
	ldr	q17, [x1, :lo12:.LCPI46_7]
	adrp	x1, .LCPI46_9
	dup	v16.8h, v16.h[0]
	ldr	q18, [x1, :lo12:.LCPI46_9]
	adrp	x1, .LCPI46_8
	add	v17.8h, v5.8h, v17.8h
	ldr	q19, [x1, :lo12:.LCPI46_8]
	ldrb	w1, [x2, x0]
	and	v16.16b, v16.16b, v18.16b
	ldr	q18, [x4, :lo12:.LCPI46_6]
	tbl	v17.16b, { v17.16b }, v19.16b
	add	v5.8h, v5.8h, v18.8h
	cmeq	v6.8h, v16.8h, #0
	bit	v5.16b, v17.16b, v6.16b
.LBB46_8:
	and	w1, w1, w10
	adrp	x2, .LCPI46_13
	add	w18, w18, #1
	dup	v17.8h, w1
	adrp	x1, .LCPI46_15
	ldr	q16, [x2, :lo12:.LCPI46_13]
	ldr	q18, [x1, :lo12:.LCPI46_15]
	adrp	x1, .LCPI46_14
	add	v7.8h, v7.8h, v16.8h
	ldr	q16, [x1, :lo12:.LCPI46_14]
	and	v17.16b, v17.16b, v18.16b
	tbl	v7.16b, { v7.16b }, v16.16b
	cmeq	v16.8h, v17.8h, #0
	mov	v6.16b, v16.16b
	bsl	v6.16b, v4.16b, v7.16b
	b	.LBB46_3
.LBB46_9:
	mov	w1, wzr
.LBB46_10:
	mov	w0, w8
	ret
.Lfunc_end46:
	.size	"dm_words::smallest::plan::plan_to", .Lfunc_end46-"dm_words::smallest::plan::plan_to"
	.cfi_endproc

	.p2align	2
	.type	"dm_words::macros::is_framed",@function
"dm_words::macros::is_framed":
	.cfi_startproc
	cmp	x1, #8
	b.hi	.LBB47_3
	mov	w8, wzr
.LBB47_2:
	mov	w0, w8
	ret
.LBB47_3:
	ldrb	w8, [x0]
	cmp	w8, #1
	mov	w8, wzr
	b.ne	.LBB47_2
	ldrb	w9, [x0, #1]
	cmp	w9, #91
	b.ne	.LBB47_2
	ldrb	w8, [x0, #2]
	cmp	w8, #1
	mov	w8, wzr
	b.ne	.LBB47_2
	ldrb	w9, [x0, #3]
	cmp	w9, #41
	b.ne	.LBB47_2
	ldrb	w8, [x0, #4]
	cmp	w8, #1
	mov	w8, wzr
	b.ne	.LBB47_2
	ldrb	w9, [x0, #5]
	cmp	w9, #62
	b.ne	.LBB47_2
	ldrb	w8, [x0, #6]
	cmp	w8, #1
	mov	w8, wzr
	b.ne	.LBB47_2
	ldrb	w9, [x0, #7]
	cmp	w9, #30
	b.ne	.LBB47_2
	ldrb	w8, [x0, #8]
	cmp	w8, #1
	mov	w8, wzr
	b.ne	.LBB47_2
	ldrb	w9, [x0, #9]
	cmp	w9, #48
	b.ne	.LBB47_2
	ldrb	w8, [x0, #10]
	cmp	w8, #1
	mov	w8, wzr
	b.ne	.LBB47_2
	ldrb	w9, [x0, #11]
	cmp	w9, w2, uxtb
	b.ne	.LBB47_2
	ldrb	w8, [x0, #12]
	cmp	w8, #1
	mov	w8, wzr
	b.ne	.LBB47_2
	ldrb	w9, [x0, #13]
	cmp	w9, #29
	b.ne	.LBB47_2
	cmp	x1, #9
	b.eq	.LBB47_19
	ldrb	w8, [x0, #14]
	cbz	w8, .LBB47_2
.LBB47_19:
	add	x9, x0, x1, lsl #1
	ldurb	w8, [x9, #-4]
	cmp	w8, #1
	mov	w8, wzr
	b.ne	.LBB47_2
	ldurb	w10, [x9, #-3]
	cmp	w10, #30
	b.ne	.LBB47_2
	ldurb	w8, [x9, #-2]
	ldurb	w9, [x9, #-1]
	and	w9, w9, #0xff
	cmp	w8, #1
	ccmp	w9, #4, #0, eq
	cset	w0, eq
	ret
.Lfunc_end47:
	.size	"dm_words::macros::is_framed", .Lfunc_end47-"dm_words::macros::is_framed"
	.cfi_endproc

	.p2align	2
	.type	"dm_words::smallest::parts::write_parts",@function
"dm_words::smallest::parts::write_parts":
	.cfi_startproc
	stp	x29, x30, [sp, #-96]!
	.cfi_def_cfa_offset 96
	stp	x28, x27, [sp, #16]
	stp	x26, x25, [sp, #32]
	stp	x24, x23, [sp, #48]
	stp	x22, x21, [sp, #64]
	stp	x20, x19, [sp, #80]
	.cfi_offset w19, -8
	.cfi_offset w20, -16
	.cfi_offset w21, -24
	.cfi_offset w22, -32
	.cfi_offset w23, -40
	.cfi_offset w24, -48
	.cfi_offset w25, -56
	.cfi_offset w26, -64
	.cfi_offset w27, -72
	.cfi_offset w28, -80
	.cfi_offset w30, -88
	.cfi_offset w29, -96
	.cfi_remember_state
	cbz	x1, .LBB48_41
	mov	x19, x5
	mov	x20, x4
	mov	x21, x3
	mov	x22, x1
	mov	x23, x2
	mov	x24, x0
	mov	x8, xzr
	add	x26, x2, #4
	add	x27, x0, #3
	add	x28, x2, #5
	mov	w25, #1
	b	.LBB48_6
.LBB48_2:
	mov	w2, #1
.LBB48_3:
	mov	x0, x24
	mov	x1, x8
	mov	x3, x23
	mov	x4, x21
	mov	x5, x20
	mov	x6, x19
	bl	"dm_words::smallest::run::write_run"
	mov	x8, x0
.LBB48_4:
	mov	w10, #1
.LBB48_5:
	cmp	x8, x22
	and	w25, w25, w10
	b.hs	.LBB48_42
.LBB48_6:
	add	x10, x8, x8, lsl #1
	ldrb	w9, [x23, x10]
	cmp	w9, #2
	b.le	.LBB48_11
	cmp	w9, #4
	b.gt	.LBB48_15
	cmp	w9, #3
	b.eq	.LBB48_2
	cmp	w9, #4
	b.ne	.LBB48_43
	mov	w2, #2
	b	.LBB48_3
.LBB48_11:
	cbz	w9, .LBB48_33
	cmp	w9, #1
	b.eq	.LBB48_30
	cmp	w9, #2
	b.ne	.LBB48_43
	mov	w2, wzr
	b	.LBB48_3
.LBB48_15:
	cmp	w9, #5
	b.eq	.LBB48_20
	cmp	w9, #6
	b.ne	.LBB48_43
	mov	x1, xzr
	add	x9, x26, x10
	mov	x29, x8
.LBB48_18:
	ldrb	w10, [x9], #3
	add	x29, x29, #1
	add	x1, x1, #1
	tbz	w10, #6, .LBB48_18
	add	x0, x24, x8, lsl #1
	mov	x2, x21
	mov	x3, x20
	mov	x4, x19
	bl	"dm_words::smallest::segment::write_segment"
	mov	w10, #1
	mov	x8, x29
	b	.LBB48_5
.LBB48_20:
	ldr	x9, [x19]
	mov	w10, #240
	strb	w10, [x21, x9]
	add	x10, x24, x8, lsl #1
	ldr	x9, [x19]
	add	x9, x9, #1
	str	x9, [x19]
	ldrb	w11, [x10]
	ldrb	w10, [x10, #1]
	and	w10, w10, #0x3f
	cmp	w11, #1
	csel	w11, w10, wzr, eq
.LBB48_21:
	mov	w10, #1
.LBB48_22:
	lsl	x15, x8, #1
	add	x16, x28, x8
	mov	w13, wzr
	mov	w12, wzr
	add	x8, x8, #1
	add	x14, x27, x15
	add	x15, x16, x15
.LBB48_23:
	sub	w16, w10, #1
	cmp	w16, #2
	b.hs	.LBB48_25
	ldurb	w12, [x14, #-1]
	ldrb	w16, [x14], #2
	add	x8, x8, #1
	add	x15, x15, #3
	and	w16, w16, #0x3f
	cmp	w12, #1
	mov	w12, #2
	csel	w16, w16, wzr, eq
	cmp	w10, #2
	cinc	w10, w12, eq
	csel	w13, w13, w16, eq
	csel	w12, w16, wzr, eq
	b	.LBB48_23
.LBB48_25:
	cmp	w10, #3
	b.ne	.LBB48_28
	ldrb	w10, [x15]
	ubfx	w16, w13, #4, #4
	ubfx	w15, w12, #2, #6
	tbnz	w10, #6, .LBB48_36
	add	w11, w16, w11, lsl #2
	ldurb	w16, [x14, #-1]
	ldrb	w14, [x14]
	strb	w11, [x21, x9]
	add	w11, w15, w13, lsl #4
	mov	w10, wzr
	ldr	x9, [x19]
	cmp	w16, #1
	add	x9, x9, #1
	str	x9, [x19]
	strb	w11, [x21, x9]
	and	w11, w14, #0x3f
	ldr	x9, [x19]
	csel	w11, w11, wzr, eq
	orr	w11, w11, w12, lsl #6
	add	x9, x9, #1
	str	x9, [x19]
	strb	w11, [x21, x9]
	mov	w11, wzr
	ldr	x9, [x19]
	add	x9, x9, #1
	str	x9, [x19]
	b	.LBB48_22
.LBB48_28:
	ldrb	w10, [x15]
	tbnz	w10, #3, .LBB48_34
	ldurb	w10, [x14, #-1]
	ldrb	w11, [x14]
	and	w11, w11, #0x3f
	cmp	w10, #1
	csel	w11, w11, wzr, eq
	b	.LBB48_21
.LBB48_30:
	add	x9, x24, x8, lsl #1
	mov	w11, #2
	ldrsb	w10, [x9, #1]
	ldrb	w9, [x9]
	cmn	w10, #1
	sub	w12, w10, #127
	csel	w11, wzr, w11, gt
	csinc	w10, w12, w10, le
	cmp	w9, #0
	mov	w9, #3
	csel	w11, w9, w11, eq
	csel	w9, wzr, w10, eq
	ldr	x10, [x19]
	cmp	w11, #3
	b.eq	.LBB48_38
	cmp	w11, #2
	b.ne	.LBB48_39
	mov	w11, #235
	strb	w11, [x21, x10]
	ldr	x10, [x19]
	add	x10, x10, #1
	str	x10, [x19]
	b	.LBB48_39
.LBB48_33:
	add	x9, x24, x8, lsl #1
	add	x8, x8, #2
	ldrb	w10, [x9, #1]
	ldrb	w11, [x9]
	ldrb	w12, [x9, #3]
	ldrb	w9, [x9, #2]
	add	w10, w10, w10, lsl #2
	cmp	w11, #1
	add	w11, w12, #114
	ldr	x12, [x19]
	lsl	w10, w10, #1
	csel	w10, w10, wzr, eq
	cmp	w9, #1
	mov	w9, #114
	csel	w9, w11, w9, eq
	add	w9, w9, w10
	strb	w9, [x21, x12]
	ldr	x9, [x19]
	add	x9, x9, #1
	str	x9, [x19]
	b	.LBB48_4
.LBB48_34:
	sub	x10, x20, x9
	cmp	x10, #3
	b.lo	.LBB48_40
	mov	w10, wzr
	mov	w11, #124
	b	.LBB48_37
.LBB48_36:
	add	w11, w16, w11, lsl #2
	mov	w10, wzr
	strb	w11, [x21, x9]
	add	w11, w15, w13, lsl #4
	ldr	x9, [x19]
	add	x9, x9, #1
	str	x9, [x19]
	strb	w11, [x21, x9]
	mov	w11, #31
	ldr	x9, [x19]
	orr	w11, w11, w12, lsl #6
	add	x9, x9, #1
	str	x9, [x19]
.LBB48_37:
	strb	w11, [x21, x9]
	ldr	x9, [x19]
	add	x9, x9, #1
	str	x9, [x19]
	b	.LBB48_5
.LBB48_38:
	mov	w9, #232
.LBB48_39:
	strb	w9, [x21, x10]
	add	x8, x8, #1
	ldr	x9, [x19]
	add	x9, x9, #1
	str	x9, [x19]
	b	.LBB48_4
.LBB48_40:
	mov	w10, wzr
	b	.LBB48_5
.LBB48_41:
	mov	w25, #1
.LBB48_42:
	and	w0, w25, #0x1
	ldp	x20, x19, [sp, #80]
	ldp	x22, x21, [sp, #64]
	ldp	x24, x23, [sp, #48]
	ldp	x26, x25, [sp, #32]
	ldp	x28, x27, [sp, #16]
	ldp	x29, x30, [sp], #96
	.cfi_def_cfa_offset 0
	.cfi_restore w19
	.cfi_restore w20
	.cfi_restore w21
	.cfi_restore w22
	.cfi_restore w23
	.cfi_restore w24
	.cfi_restore w25
	.cfi_restore w26
	.cfi_restore w27
	.cfi_restore w28
	.cfi_restore w30
	.cfi_restore w29
	ret
.LBB48_43:
	.cfi_restore_state
	add	x0, x24, x8, lsl #1
	sub	x1, x22, x8
	mov	x2, x21
	mov	x3, x20
	mov	x4, x19
	bl	"dm_words::smallest::segment::write_segment"
	b	.LBB48_42
.Lfunc_end48:
	.size	"dm_words::smallest::parts::write_parts", .Lfunc_end48-"dm_words::smallest::parts::write_parts"
	.cfi_endproc

	.p2align	2
	.type	"dm_words::smallest::run::write_run",@function
"dm_words::smallest::run::write_run":
	.cfi_startproc
	stp	x30, x27, [sp, #-80]!
	.cfi_def_cfa_offset 80
	stp	x26, x25, [sp, #16]
	stp	x24, x23, [sp, #32]
	stp	x22, x21, [sp, #48]
	stp	x20, x19, [sp, #64]
	.cfi_offset w19, -8
	.cfi_offset w20, -16
	.cfi_offset w21, -24
	.cfi_offset w22, -32
	.cfi_offset w23, -40
	.cfi_offset w24, -48
	.cfi_offset w25, -56
	.cfi_offset w26, -64
	.cfi_offset w27, -72
	.cfi_offset w30, -80
	mov	w22, w2
	mov	w9, #61414
	ldr	x10, [x6]
	ubfiz	x8, x22, #3, #5
	movk	w9, #238, lsl #16
	lsl	x25, x1, #1
	mov	x20, x4
	mov	x23, x1
	mov	x21, x5
	lsr	w8, w9, w8
	add	x26, x0, x25
	mov	x24, x3
	strb	w8, [x4, x10]
	mov	w0, w22
	mov	w3, wzr
	ldr	x8, [x6]
	mov	w4, wzr
	mov	x5, x20
	mov	x19, x6
	and	w27, w22, #0xff
	add	x8, x8, #1
	str	x8, [x6]
	ldrb	w2, [x26, #1]
	ldrb	w1, [x26], #3
	bl	"dm_words::smallest::run::push_spelling"
	cmp	w27, #1
	mov	w8, #-65
	mov	w9, #-97
	add	x10, x23, x24
	csel	w24, w9, w8, eq
	mov	w3, w0
	add	x8, x25, x10
	mov	w4, w1
	add	x23, x23, #1
	add	x25, x8, #4
	b	.LBB49_3
.LBB49_1:
	mov	w0, w22
	mov	x5, x20
	mov	x6, x19
	bl	"dm_words::smallest::run::push_spelling"
	mov	w3, w0
	mov	w4, w1
.LBB49_2:
	add	x26, x26, #2
	add	x23, x23, #1
	add	x25, x25, #3
.LBB49_3:
	tst	w3, #0xff
	b.ne	.LBB49_11
	and	w8, w22, #0xff
	cmp	w8, #2
	b.eq	.LBB49_7
	cmp	w8, #1
	b.ne	.LBB49_8
	ldrb	w8, [x25]
	and	w8, w8, #0x8
	b	.LBB49_10
.LBB49_7:
	ldrb	w8, [x25, #1]
	b	.LBB49_9
.LBB49_8:
	ldrb	w8, [x25]
.LBB49_9:
	and	w8, w8, #0x1
.LBB49_10:
	cbnz	w8, .LBB49_28
.LBB49_11:
	ldurb	w1, [x26, #-1]
	ldrb	w2, [x26]
	cmp	w1, #1
	b.ne	.LBB49_1
	add	w8, w2, w24
	and	w9, w8, #0xff
	cmp	w9, #25
	b.hi	.LBB49_14
	add	w8, w8, #14
	b	.LBB49_18
.LBB49_14:
	cmp	w2, #32
	b.ne	.LBB49_16
	mov	w8, #3
	b	.LBB49_18
.LBB49_16:
	sub	w8, w2, #48
	cmp	w8, #9
	b.hi	.LBB49_21
	sub	w8, w2, #44
.LBB49_18:
	mov	w9, #40
	and	w10, w3, #0xff
	mul	w9, w4, w9
	cmp	w10, #1
	add	w4, w9, w8, uxtb
	b.hi	.LBB49_20
	add	w3, w3, #1
	b	.LBB49_2
.LBB49_20:
	add	w8, w4, #1
	ldr	x9, [x19]
	mov	w3, wzr
	lsr	w10, w8, #8
	mov	w4, wzr
	strb	w10, [x20, x9]
	ldr	x9, [x19]
	add	x9, x9, #1
	str	x9, [x19]
	strb	w8, [x20, x9]
	ldr	x8, [x19]
	add	x8, x8, #1
	str	x8, [x19]
	b	.LBB49_2
.LBB49_21:
	and	w8, w22, #0xff
	cmp	w8, #2
	b.ne	.LBB49_1
	cmp	w2, #13
	b.eq	.LBB49_27
	cmp	w2, #62
	b.eq	.LBB49_26
	cmp	w2, #42
	b.ne	.LBB49_1
	mov	w8, #1
	b	.LBB49_18
.LBB49_26:
	mov	w8, #2
	b	.LBB49_18
.LBB49_27:
	mov	w8, wzr
	b	.LBB49_18
.LBB49_28:
	ldr	x8, [x19]
	sub	x9, x21, x8
	cmp	x9, #2
	b.lo	.LBB49_30
	mov	w9, #254
	strb	w9, [x20, x8]
	ldr	x8, [x19]
	add	x8, x8, #1
	str	x8, [x19]
.LBB49_30:
	mov	x0, x23
	ldp	x20, x19, [sp, #64]
	ldp	x22, x21, [sp, #48]
	ldp	x24, x23, [sp, #32]
	ldp	x26, x25, [sp, #16]
	ldp	x30, x27, [sp], #80
	.cfi_def_cfa_offset 0
	.cfi_restore w19
	.cfi_restore w20
	.cfi_restore w21
	.cfi_restore w22
	.cfi_restore w23
	.cfi_restore w24
	.cfi_restore w25
	.cfi_restore w26
	.cfi_restore w27
	.cfi_restore w30
	ret
.Lfunc_end49:
	.size	"dm_words::smallest::run::write_run", .Lfunc_end49-"dm_words::smallest::run::write_run"
	.cfi_endproc

	.p2align	2
	.type	"dm_words::smallest::run::push_spelling",@function
"dm_words::smallest::run::push_spelling":
	.cfi_startproc
	tst	w1, #0xff
	b.eq	.LBB50_4
	and	w8, w0, #0xff
	cmp	w8, #1
	tbnz	w2, #7, .LBB50_5
	mov	w8, #-65
	mov	w9, #-97
	csel	w8, w9, w8, eq
	add	w10, w8, w2
	and	w8, w10, #0xff
	cmp	w8, #25
	b.hi	.LBB50_8
	mov	w2, wzr
	mov	w9, wzr
	mov	w8, wzr
	add	w11, w10, #14
	mov	w10, #1
	b	.LBB50_56
.LBB50_4:
	mov	w9, wzr
	mov	w8, wzr
	mov	w11, #1
	mov	w2, #27
	mov	w10, #2
	b	.LBB50_56
.LBB50_5:
	mov	w9, #-65
	mov	w10, #-97
	and	w8, w2, #0x7f
	csel	w9, w10, w9, eq
	add	w9, w8, w9
	and	w10, w9, #0xff
	cmp	w10, #25
	b.hi	.LBB50_10
	mov	w8, wzr
	add	w9, w9, #14
.LBB50_7:
	mov	w11, #1
	b	.LBB50_12
.LBB50_8:
	and	w8, w2, #0xff
	cmp	w8, #32
	b.ne	.LBB50_13
	mov	w2, wzr
	mov	w9, wzr
	mov	w8, wzr
	mov	w11, #3
	mov	w10, #1
	b	.LBB50_56
.LBB50_10:
	cmp	w8, #32
	b.ne	.LBB50_15
	mov	w8, wzr
	mov	w11, #1
	mov	w9, #3
.LBB50_12:
	mov	w2, #30
	mov	w10, #3
	b	.LBB50_56
.LBB50_13:
	sub	w8, w2, #48
	and	w8, w8, #0xff
	cmp	w8, #9
	b.hi	.LBB50_17
	mov	w9, wzr
	mov	w8, wzr
	sub	w11, w2, #44
	mov	w10, #1
	mov	w2, wzr
	b	.LBB50_56
.LBB50_15:
	sub	w9, w8, #48
	and	w9, w9, #0xff
	cmp	w9, #9
	b.hi	.LBB50_24
	sub	w9, w8, #44
	mov	w11, #1
	mov	w2, #30
	mov	w10, #3
	mov	w8, wzr
	b	.LBB50_56
.LBB50_17:
	and	w8, w0, #0xff
	cmp	w8, #2
	b.ne	.LBB50_22
	and	w8, w2, #0xff
	cmp	w8, #13
	b.eq	.LBB50_40
	cmp	w8, #62
	b.eq	.LBB50_39
	cmp	w8, #42
	b.ne	.LBB50_22
	mov	w2, wzr
	mov	w9, wzr
	mov	w8, wzr
	mov	w11, #1
	mov	w10, #1
	b	.LBB50_56
.LBB50_22:
	and	w8, w2, #0xff
	cmp	w8, #32
	b.hs	.LBB50_32
	mov	w9, wzr
	mov	w8, wzr
	mov	w11, wzr
	mov	w10, #2
	b	.LBB50_56
.LBB50_24:
	and	w9, w0, #0xff
	cmp	w9, #2
	b.ne	.LBB50_29
	cmp	w8, #13
	b.eq	.LBB50_47
	cmp	w8, #62
	b.eq	.LBB50_46
	cmp	w8, #42
	b.ne	.LBB50_29
	mov	w9, #1
	mov	w8, wzr
	mov	w2, #30
	mov	w10, #3
	mov	w11, w9
	b	.LBB50_56
.LBB50_29:
	cmp	w8, #32
	b.hs	.LBB50_34
	mov	w9, wzr
	mov	w11, #1
.LBB50_31:
	mov	w2, #30
	mov	w10, #4
	b	.LBB50_56
.LBB50_32:
	cmp	w8, #47
	b.hi	.LBB50_36
	mov	w9, wzr
	mov	w8, wzr
	sub	w2, w2, #33
	b	.LBB50_38
.LBB50_34:
	cmp	w8, #47
	b.hi	.LBB50_41
	sub	w8, w8, #33
	b	.LBB50_43
.LBB50_36:
	and	w8, w2, #0xff
	cmp	w8, #64
	b.hi	.LBB50_44
	mov	w9, wzr
	mov	w8, wzr
	sub	w2, w2, #43
.LBB50_38:
	mov	w11, #1
	mov	w10, #2
	b	.LBB50_56
.LBB50_39:
	mov	w2, wzr
	mov	w9, wzr
	mov	w8, wzr
	mov	w11, #2
	mov	w10, #1
	b	.LBB50_56
.LBB50_40:
	mov	w2, wzr
	mov	w9, wzr
	mov	w8, wzr
	mov	w11, wzr
	mov	w10, #1
	b	.LBB50_56
.LBB50_41:
	subs	w12, w8, #64
	b.hi	.LBB50_48
	sub	w8, w8, #43
.LBB50_43:
	mov	w9, #1
	mov	w2, #30
	mov	w10, #4
	mov	w11, w9
	b	.LBB50_56
.LBB50_44:
	cmp	w8, #90
	b.hi	.LBB50_50
	mov	w10, #2
	mov	w9, wzr
	mov	w8, wzr
	sub	w2, w2, #64
	b	.LBB50_55
.LBB50_46:
	mov	w8, wzr
	mov	w11, #1
	mov	w9, #2
	b	.LBB50_12
.LBB50_47:
	mov	w9, wzr
	mov	w8, wzr
	b	.LBB50_7
.LBB50_48:
	cmp	w8, #90
	b.hi	.LBB50_52
	mov	w11, #1
	mov	w9, #2
	mov	w2, #30
	mov	w10, #4
	mov	w8, w12
	b	.LBB50_56
.LBB50_50:
	and	w8, w2, #0xff
	cmp	w8, #95
	b.hi	.LBB50_54
	mov	w9, wzr
	mov	w8, wzr
	sub	w2, w2, #69
	b	.LBB50_38
.LBB50_52:
	cmp	w8, #95
	b.hi	.LBB50_62
	sub	w8, w8, #69
	b	.LBB50_43
.LBB50_54:
	mov	w10, #2
	mov	w9, wzr
	mov	w8, wzr
	sub	w2, w2, #96
.LBB50_55:
	mov	w11, w10
.LBB50_56:
	strb	w11, [sp, #-16]!
	.cfi_def_cfa_offset 16
	strb	w8, [sp, #3]
	mov	x8, sp
	strb	w2, [sp, #1]
	strb	w9, [sp, #2]
	str	wzr, [sp, #4]
	str	x10, [sp, #8]
	b	.LBB50_59
.LBB50_57:
	add	w9, w4, #1
	ldr	x11, [x6]
	mov	w3, wzr
	lsr	w12, w9, #8
	mov	w4, wzr
	strb	w12, [x5, x11]
	ldr	x11, [x6]
	add	x11, x11, #1
	str	x11, [x6]
	strb	w9, [x5, x11]
	ldr	x9, [x6]
	add	x9, x9, #1
	str	x9, [x6]
.LBB50_58:
	subs	x10, x10, #1
	b.eq	.LBB50_61
.LBB50_59:
	mov	w11, #40
	ldrb	w9, [x8], #1
	madd	w4, w4, w11, w9
	and	w9, w3, #0xff
	cmp	w9, #1
	b.hi	.LBB50_57
	add	w3, w3, #1
	b	.LBB50_58
.LBB50_61:
	mov	w0, w3
	mov	w1, w4
	add	sp, sp, #16
	.cfi_def_cfa_offset 0
	ret
.LBB50_62:
	sub	w8, w8, #96
	mov	w11, #1
	mov	w9, #2
	b	.LBB50_31
.Lfunc_end50:
	.size	"dm_words::smallest::run::push_spelling", .Lfunc_end50-"dm_words::smallest::run::push_spelling"
	.cfi_endproc

	.p2align	2
	.type	"dm_words::smallest::segment::write_segment",@function
"dm_words::smallest::segment::write_segment":
	.cfi_startproc
	ldr	x8, [x4]
	mov	w9, #231
	cmp	x1, #250
	strb	w9, [x2, x8]
	ldr	x8, [x4]
	add	x8, x8, #1
	str	x8, [x4]
	b.lo	.LBB51_3
	add	x9, x1, x8
	add	x9, x9, #1
	cmp	x9, x3
	b.ne	.LBB51_4
	mov	w9, #149
	mov	w10, #32897
	madd	w9, w8, w9, w9
	movk	w10, #32896, lsl #16
	umull	x10, w9, w10
	add	x9, x9, x10, lsr #39
	add	w9, w9, #1
	b	.LBB51_5
.LBB51_3:
	mov	w9, #149
	mov	w10, #32897
	madd	w9, w8, w9, w9
	movk	w10, #32896, lsl #16
	umull	x10, w9, w10
	add	x9, x9, x10, lsr #39
	add	w9, w1, w9
	add	w9, w9, #1
	strb	w9, [x2, x8]
	ldr	x8, [x4]
	add	x8, x8, #1
	str	x8, [x4]
	cbnz	x1, .LBB51_6
	b	.LBB51_8
.LBB51_4:
	mov	x11, #63439
	lsr	x9, x1, #1
	mov	w10, #149
	movk	x11, #58195, lsl #16
	madd	w12, w8, w10, w10
	movk	x11, #39845, lsl #32
	movk	x11, #8388, lsl #48
	umulh	x9, x9, x11
	mov	w11, #32897
	movk	w11, #32896, lsl #16
	umull	x13, w12, w11
	lsr	x9, x9, #4
	add	x12, x12, x13, lsr #39
	add	w12, w9, w12
	sub	w12, w12, #6
	strb	w12, [x2, x8]
	ldr	x8, [x4]
	mov	w12, #250
	msub	w9, w9, w12, w1
	add	x8, x8, #1
	madd	w10, w8, w10, w10
	str	x8, [x4]
	umull	x11, w10, w11
	add	x10, x10, x11, lsr #39
	add	w9, w9, w10
	add	w9, w9, #1
.LBB51_5:
	strb	w9, [x2, x8]
	ldr	x8, [x4]
	add	x8, x8, #1
	str	x8, [x4]
.LBB51_6:
	mov	w9, #149
	mov	w11, #32897
	madd	w10, w8, w9, w9
	movk	w11, #32896, lsl #16
	umull	x11, w10, w11
	lsr	x11, x11, #39
	sub	w11, w11, w11, lsl #8
	add	w10, w10, w11
	add	x11, x0, #1
	add	w10, w10, #1
.LBB51_7:
	ldurb	w12, [x11, #-1]
	ldrb	w13, [x11], #2
	cmp	w12, #1
	csel	w12, w13, wzr, eq
	cmp	w10, #107
	add	w12, w12, w10
	strb	w12, [x2, x8]
	ldr	x8, [x4]
	mov	w12, #-106
	csel	w12, w9, w12, lo
	subs	x1, x1, #1
	add	x8, x8, #1
	add	w10, w12, w10
	str	x8, [x4]
	b.ne	.LBB51_7
.LBB51_8:
	ret
.Lfunc_end51:
	.size	"dm_words::smallest::segment::write_segment", .Lfunc_end51-"dm_words::smallest::segment::write_segment"
	.cfi_endproc

	.section	.rodata.cst16,"aM",@progbits,16
	.p2align	4, 0x0
.LCPI52_0:
	.word	12
	.word	13
	.word	14
	.word	15
.LCPI52_1:
	.word	8
	.word	9
	.word	10
	.word	11
.LCPI52_2:
	.word	4
	.word	5
	.word	6
	.word	7
.LCPI52_3:
	.word	0
	.word	1
	.word	2
	.word	3
.LCPI52_4:
	.byte	0
	.byte	4
	.byte	8
	.byte	12
	.byte	16
	.byte	20
	.byte	24
	.byte	28
	.byte	32
	.byte	36
	.byte	40
	.byte	44
	.byte	48
	.byte	52
	.byte	56
	.byte	60
	.text
	.p2align	2
	.type	"dm_words::smallest::contents::smallest_marked_to",@function
"dm_words::smallest::contents::smallest_marked_to":
	.cfi_startproc
	sub	sp, sp, #240
	.cfi_def_cfa_offset 240
	stp	x29, x30, [sp, #144]
	stp	x28, x27, [sp, #160]
	stp	x26, x25, [sp, #176]
	stp	x24, x23, [sp, #192]
	stp	x22, x21, [sp, #208]
	stp	x20, x19, [sp, #224]
	.cfi_offset w19, -8
	.cfi_offset w20, -16
	.cfi_offset w21, -24
	.cfi_offset w22, -32
	.cfi_offset w23, -40
	.cfi_offset w24, -48
	.cfi_offset w25, -56
	.cfi_offset w26, -64
	.cfi_offset w27, -72
	.cfi_offset w28, -80
	.cfi_offset w30, -88
	.cfi_offset w29, -96
	.cfi_remember_state
	ldrb	w9, [x1, #1]
	ldur	w8, [x1, #2]
	mov	x29, x5
	ldrb	w10, [x1]
	ldr	x24, [sp, #240]
	mov	x27, x3
	stp	w8, w9, [sp, #56]
	cmp	w9, #0
	mov	w8, #4
	ldrb	w26, [x6]
	ldrh	w11, [x6, #2]
	ldrh	w9, [x6, #4]
	csinc	w8, w8, wzr, ne
	cmp	w10, #0
	mov	x25, x2
	mov	x19, x0
	csel	w21, wzr, w8, eq
	mov	w1, wzr
	stp	w11, w9, [sp, #84]
	str	w10, [sp, #108]
	str	x3, [sp, #96]
	str	x7, [sp, #48]
	str	x4, [sp, #72]
	cbz	x5, .LBB52_3
	add	x8, x4, x29, lsl #3
	sub	x22, x7, #2
	mov	x20, x29
	sub	x28, x8, #4
.LBB52_2:
	mov	x8, x27
	ldurh	w27, [x28, #-4]
	mov	w0, #1
	mov	x4, x24
	mov	x23, x20
	sub	x20, x20, #1
	add	x2, x25, x27, lsl #1
	sub	x3, x8, x27
	bl	"dm_words::smallest::plan::plan_to"
	ldr	w8, [x28], #-8
	mov	w9, #16383
	cmp	w8, w9
	mov	w9, #3
	cinc	w9, w9, hs
	cmp	w8, #127
	mov	w8, #2
	csel	w8, w8, w9, lo
	add	w1, w8, w0
	strh	w1, [x22, x23, lsl #1]
	cbnz	x20, .LBB52_2
.LBB52_3:
	ldr	x23, [sp, #248]
	mov	w0, #1
	mov	x2, x25
	mov	x3, x27
	mov	x4, x24
	mov	w27, #1
	bl	"dm_words::smallest::plan::plan_to"
	ldr	w8, [sp, #108]
	add	w21, w0, w21
	str	x29, [sp, #64]
	cbz	w8, .LBB52_20
.LBB52_4:
	mov	w13, wzr
.LBB52_5:
	ldp	w11, w12, [sp, #84]
.LBB52_6:
	adrp	x8, .Lstatic.0
	add	x8, x8, :lo12:.Lstatic.0
	mov	x9, #-48
	b	.LBB52_9
.LBB52_7:
	cmp	w22, w29
	mov	w29, w22
	b.eq	.LBB52_39
.LBB52_8:
	adds	x9, x9, #1
	add	x8, x8, #20
	b.hs	.LBB52_19
.LBB52_9:
	ldrh	w28, [x8, #12]
	cmp	w28, w21, uxth
	b.lo	.LBB52_8
	ldrh	w22, [x8]
	ldrh	w29, [x8, #2]
	cmp	w26, #1
	ldrh	w10, [x8, #18]
	b.le	.LBB52_15
	cmp	w26, #2
	b.eq	.LBB52_18
	cmp	w26, #4
	b.ne	.LBB52_39
	cmp	w22, w11
	b.ne	.LBB52_8
	cmp	w29, w12
	b.ne	.LBB52_8
	b	.LBB52_38
.LBB52_15:
	cbz	w26, .LBB52_7
	cmp	w22, w29
	b.eq	.LBB52_8
	cmp	w10, #1
	b.eq	.LBB52_8
	b	.LBB52_39
.LBB52_18:
	cmp	w22, w29
	b.eq	.LBB52_8
	b	.LBB52_39
.LBB52_19:
	mov	w22, wzr
	mov	w29, wzr
	mov	x13, xzr
	mov	w28, wzr
	mov	w14, wzr
	mov	w15, wzr
	mov	w8, #1
	b	.LBB52_68
.LBB52_20:
	ldr	x27, [sp, #96]
	mov	x0, x25
	mov	w2, #53
	mov	x1, x27
	bl	"dm_words::macros::is_framed"
	tbz	w0, #0, .LBB52_22
	mov	w13, #236
	b	.LBB52_24
.LBB52_22:
	mov	x0, x25
	mov	x1, x27
	mov	w2, #54
	bl	"dm_words::macros::is_framed"
	cbz	w0, .LBB52_36
	mov	w13, #237
.LBB52_24:
	cbz	x29, .LBB52_34
	ldr	x9, [sp, #72]
	ldr	w12, [sp, #88]
	sub	x8, x27, #2
	mov	x10, x29
.LBB52_26:
	ldrh	w11, [x9], #8
	mov	w27, #1
	cmp	x11, #7
	b.lo	.LBB52_37
	cmp	x8, x11
	b.lo	.LBB52_37
	subs	x10, x10, #1
	b.ne	.LBB52_26
	ldr	x8, [sp, #72]
	ldr	x9, [sp, #96]
	mov	w1, wzr
	stp	x23, x19, [sp, #32]
	mov	x23, x29
	add	x8, x8, x29, lsl #3
	add	x29, x25, #14
	sub	x27, x9, #9
	str	w13, [sp, #28]
	sub	x20, x8, #4
	ldr	x8, [sp, #48]
	mov	x22, x20
	sub	x28, x8, #2
.LBB52_30:
	ldurh	w8, [x22, #-4]
	mov	x9, x27
	mov	w0, #1
	mov	x4, x24
	mov	x19, x23
	sub	x23, x23, #1
	sub	x27, x8, #7
	add	x2, x29, x27, lsl #1
	sub	x3, x9, x27
	bl	"dm_words::smallest::plan::plan_to"
	ldr	w8, [x22], #-8
	mov	w9, #16383
	cmp	w8, w9
	mov	w9, #3
	cinc	w9, w9, hs
	cmp	w8, #127
	mov	w8, #2
	csel	w8, w8, w9, lo
	add	w1, w8, w0
	strh	w1, [x28, x19, lsl #1]
	cbnz	x23, .LBB52_30
	add	x2, x25, #14
	mov	w0, #1
	mov	x3, x27
	mov	x4, x24
	bl	"dm_words::smallest::plan::plan_to"
	add	w8, w0, #1
	and	w9, w8, #0xffff
	cmp	w9, w21, uxth
	b.ls	.LBB52_47
	ldr	x27, [sp, #96]
	ldr	x22, [sp, #64]
	mov	w1, wzr
	ldr	x23, [sp, #32]
.LBB52_33:
	mov	x8, x27
	ldurh	w27, [x20, #-4]
	mov	w0, #1
	mov	x4, x24
	mov	x19, x22
	sub	x22, x22, #1
	add	x2, x25, x27, lsl #1
	sub	x3, x8, x27
	bl	"dm_words::smallest::plan::plan_to"
	ldr	w8, [x20], #-8
	mov	w9, #16383
	cmp	w8, w9
	mov	w9, #3
	cinc	w9, w9, hs
	cmp	w8, #127
	mov	w8, #2
	csel	w8, w8, w9, lo
	add	w1, w8, w0
	strh	w1, [x28, x19, lsl #1]
	cbnz	x22, .LBB52_33
	b	.LBB52_35
.LBB52_34:
	add	x2, x25, #14
	sub	x3, x27, #9
	mov	w0, #1
	mov	w1, wzr
	mov	x4, x24
	mov	w22, w13
	str	x19, [sp, #40]
	bl	"dm_words::smallest::plan::plan_to"
	add	w8, w0, #1
	mov	w1, wzr
	and	w9, w8, #0xffff
	cmp	w9, w21, uxth
	b.ls	.LBB52_46
.LBB52_35:
	mov	w0, #1
	mov	x2, x25
	mov	x3, x27
	mov	x4, x24
	mov	w27, #1
	bl	"dm_words::smallest::plan::plan_to"
	ldr	x19, [sp, #40]
	b	.LBB52_4
.LBB52_36:
	mov	w13, wzr
	mov	w27, #1
	b	.LBB52_5
.LBB52_37:
	ldr	w11, [sp, #84]
	mov	w13, wzr
	b	.LBB52_6
.LBB52_38:
	mov	w22, w11
	mov	w29, w12
.LBB52_39:
	ldur	x9, [x8, #4]
	ldur	w8, [x8, #14]
	cmp	w10, #1
	ldp	x21, x26, [sp, #64]
	mov	x20, x23
	str	x9, [sp, #88]
	ldr	w10, [sp, #108]
	mov	x0, x25
	ldp	w9, w11, [sp, #56]
	str	w8, [sp, #84]
	cset	w8, eq
	ldr	x23, [sp, #96]
	stp	w13, w8, [sp, #28]
	mov	w8, #4
	mov	x2, x26
	cmp	w11, #0
	mov	x1, x23
	mov	x3, x21
	csinc	x8, x8, xzr, ne
	cmp	w10, #0
	str	x19, [sp, #40]
	strb	w10, [sp, #136]
	csel	x19, xzr, x8, eq
	strb	w11, [sp, #137]
	stur	w9, [sp, #138]
	bl	"dm_words::contents::normal_form::marked_length"
	add	x8, x0, x19
	cmp	x8, x28
	b.ls	.LBB52_44
	cbz	w27, .LBB52_45
	ldr	x19, [sp, #40]
	ldr	w8, [sp, #108]
	cbz	w8, .LBB52_48
	ldr	w8, [sp, #60]
	cbz	w8, .LBB52_49
	ldr	w9, [sp, #56]
	mov	w11, #233
	mov	w27, #4
	lsl	w8, w9, #4
	lsr	w10, w9, #24
	sub	w8, w8, w9, lsr #8
	lsr	w9, w9, #16
	add	w8, w8, #1
	b	.LBB52_50
.LBB52_44:
	add	x0, sp, #136
	mov	x1, x25
	mov	x2, x23
	mov	x3, x26
	mov	x4, x21
	mov	x5, x20
	bl	"dm_words::contents::normal_form::write_form"
	ldr	x19, [sp, #40]
	b	.LBB52_52
.LBB52_45:
	ldr	w8, [sp, #28]
	ldr	x4, [sp, #64]
	add	x1, x25, #14
	ldr	x5, [sp, #48]
	mov	w0, #7
	mov	x3, x26
	strb	w8, [x20]
	mov	w8, #1
	mov	x6, x24
	str	x8, [sp, #128]
	ldr	x8, [sp, #96]
	mov	x7, x20
	sub	x2, x8, #9
	add	x8, sp, #128
	stp	x28, x8, [sp]
	bl	"dm_words::smallest::contents::write_texts"
	ldr	x19, [sp, #40]
	b	.LBB52_51
.LBB52_46:
	ldp	w11, w12, [sp, #84]
	ldr	x19, [sp, #40]
	mov	w27, wzr
	mov	w21, w8
	mov	w13, w22
	b	.LBB52_6
.LBB52_47:
	ldp	x23, x19, [sp, #32]
	mov	w27, wzr
	ldp	w11, w12, [sp, #84]
	ldr	w13, [sp, #28]
	mov	w21, w8
	b	.LBB52_6
.LBB52_48:
	mov	w9, wzr
	mov	w10, wzr
	mov	w11, wzr
	mov	x27, xzr
	b	.LBB52_50
.LBB52_49:
	mov	w9, wzr
	mov	w10, wzr
	mov	w11, #234
	mov	w27, #1
.LBB52_50:
	add	x1, sp, #112
	mov	x0, x20
	mov	x2, x27
	strb	w11, [sp, #112]
	strb	w8, [sp, #113]
	strb	w9, [sp, #114]
	strb	w10, [sp, #115]
	str	wzr, [sp, #116]
	str	x27, [sp, #120]
	bl	memcpy
	ldr	x2, [sp, #96]
	ldr	x4, [sp, #64]
	mov	x0, xzr
	ldr	x5, [sp, #48]
	add	x8, sp, #128
	mov	x1, x25
	mov	x3, x26
	mov	x6, x24
	mov	x7, x20
	str	x27, [sp, #128]
	stp	x28, x8, [sp]
	bl	"dm_words::smallest::contents::write_texts"
.LBB52_51:
	ldr	x0, [sp, #128]
.LBB52_52:
	cmp	x0, x28
	b.hs	.LBB52_61
	add	x8, x0, #1
	mov	w9, #129
	strb	w9, [x20, x0]
	cmp	x8, x28
	b.hs	.LBB52_61
	mvn	x9, x0
	add	x9, x9, x28
	cmp	x9, #4
	b.hs	.LBB52_56
.LBB52_55:
	ldr	x13, [sp, #88]
	ldr	w14, [sp, #84]
	ldr	w15, [sp, #32]
	b	.LBB52_66
.LBB52_56:
	cmp	x9, #16
	adrp	x10, .LCPI52_3
	b.hs	.LBB52_58
	mov	x11, xzr
	add	x12, x0, #1
	b	.LBB52_63
.LBB52_58:
	dup	v3.4s, w8
	adrp	x11, .LCPI52_0
	adrp	x12, .LCPI52_1
	adrp	x13, .LCPI52_2
	ldr	q0, [x11, :lo12:.LCPI52_0]
	ldr	q4, [x10, :lo12:.LCPI52_3]
	ldr	q1, [x12, :lo12:.LCPI52_1]
	ldr	q2, [x13, :lo12:.LCPI52_2]
	and	x11, x9, #0xfffffffffffffff0
	add	v0.4s, v3.4s, v0.4s
	and	x13, x9, #0xc
	add	x12, x8, x11
	add	v1.4s, v3.4s, v1.4s
	add	v2.4s, v3.4s, v2.4s
	add	v3.4s, v3.4s, v4.4s
	add	x14, x20, x8
	and	x15, x9, #0xfffffffffffffff0
.LBB52_59:
	movi	v4.4s, #1
	movi	v16.4h, #149
	mov	w16, #2332
	movk	w16, #259, lsl #16
	subs	x15, x15, #16
	add	v5.4s, v3.4s, v4.4s
	add	v6.4s, v2.4s, v4.4s
	add	v7.4s, v1.4s, v4.4s
	add	v4.4s, v0.4s, v4.4s
	xtn	v5.4h, v5.4s
	xtn	v6.4h, v6.4s
	xtn	v7.4h, v7.4s
	xtn	v4.4h, v4.4s
	umull	v17.4s, v5.4h, v16.4h
	umull	v18.4s, v6.4h, v16.4h
	umull	v19.4s, v7.4h, v16.4h
	movi	v7.4s, #253
	umull	v20.4s, v4.4h, v16.4h
	dup	v4.4s, w16
	adrp	x16, .LCPI52_4
	umull2	v5.2d, v20.4s, v4.4s
	umull	v6.2d, v20.2s, v4.2s
	uzp2	v5.4s, v6.4s, v5.4s
	mls	v20.4s, v5.4s, v7.4s
	umull2	v5.2d, v19.4s, v4.4s
	umull	v6.2d, v19.2s, v4.2s
	uzp2	v5.4s, v6.4s, v5.4s
	mls	v19.4s, v5.4s, v7.4s
	umull2	v5.2d, v18.4s, v4.4s
	umull	v6.2d, v18.2s, v4.2s
	uzp2	v5.4s, v6.4s, v5.4s
	mls	v18.4s, v5.4s, v7.4s
	umull2	v5.2d, v17.4s, v4.4s
	umull	v4.2d, v17.2s, v4.2s
	uzp2	v4.4s, v4.4s, v5.4s
	movi	v5.4s, #125
	mls	v17.4s, v4.4s, v7.4s
	cmhi	v6.4s, v5.4s, v18.4s
	cmhi	v7.4s, v5.4s, v19.4s
	cmhi	v4.4s, v5.4s, v17.4s
	cmhi	v5.4s, v5.4s, v20.4s
	uzp1	v4.8h, v4.8h, v6.8h
	uzp1	v5.8h, v7.8h, v5.8h
	movi	v6.16b, #130
	ldr	q7, [x16, :lo12:.LCPI52_4]
	tbl	v7.16b, { v17.16b, v18.16b, v19.16b, v20.16b }, v7.16b
	uzp1	v4.16b, v4.16b, v5.16b
	movi	v5.16b, #132
	bsl	v4.16b, v6.16b, v5.16b
	movi	v5.4s, #16
	add	v4.16b, v4.16b, v7.16b
	add	v3.4s, v3.4s, v5.4s
	add	v2.4s, v2.4s, v5.4s
	add	v1.4s, v1.4s, v5.4s
	add	v0.4s, v0.4s, v5.4s
	str	q4, [x14], #16
	b.ne	.LBB52_59
	cmp	x9, x11
	b.ne	.LBB52_62
.LBB52_61:
	ldr	x13, [sp, #88]
	ldr	w14, [sp, #84]
	mov	w8, wzr
	ldr	w15, [sp, #32]
	b	.LBB52_68
.LBB52_62:
	cbz	x13, .LBB52_69
.LBB52_63:
	dup	v0.4s, w12
	ldr	q1, [x10, :lo12:.LCPI52_3]
	add	x12, x11, x20
	and	x10, x9, #0xfffffffffffffffc
	add	x12, x0, x12
	add	x8, x8, x10
	add	x12, x12, #1
	sub	x11, x11, x10
	add	v0.4s, v0.4s, v1.4s
.LBB52_64:
	movi	v1.4s, #1
	movi	v2.4h, #149
	mov	w13, #2332
	movk	w13, #259, lsl #16
	movi	v4.4h, #130
	adds	x11, x11, #4
	add	v1.4s, v0.4s, v1.4s
	xtn	v1.4h, v1.4s
	umull	v1.4s, v1.4h, v2.4h
	dup	v2.4s, w13
	umull2	v3.2d, v1.4s, v2.4s
	umull	v2.2d, v1.2s, v2.2s
	uzp2	v2.4s, v2.4s, v3.4s
	movi	v3.4s, #253
	mls	v1.4s, v2.4s, v3.4s
	movi	v2.4s, #125
	movi	v3.4h, #132
	cmhi	v2.4s, v2.4s, v1.4s
	xtn	v1.4h, v1.4s
	xtn	v2.4h, v2.4s
	bsl	v2.8b, v4.8b, v3.8b
	add	v1.4h, v2.4h, v1.4h
	movi	v2.4s, #4
	uzp1	v1.8b, v1.8b, v0.8b
	add	v0.4s, v0.4s, v2.4s
	st1	{ v1.s }[0], [x12], #4
	b.ne	.LBB52_64
	ldr	x13, [sp, #88]
	ldr	w14, [sp, #84]
	cmp	x9, x10
	ldr	w15, [sp, #32]
	b.eq	.LBB52_67
.LBB52_66:
	add	x9, x8, #1
	mov	w11, #149
	mov	w12, #253
	and	w10, w9, #0xffff
	mul	w10, w10, w11
	mov	w11, #2332
	movk	w11, #259, lsl #16
	umull	x11, w10, w11
	lsr	x11, x11, #32
	msub	w10, w11, w12, w10
	mov	w11, #-124
	mov	w12, #-126
	cmp	w10, #125
	csel	w11, w12, w11, lo
	cmp	x28, x9
	add	w10, w11, w10
	strb	w10, [x20, x8]
	mov	x8, x9
	b.ne	.LBB52_66
.LBB52_67:
	mov	w8, wzr
.LBB52_68:
	strb	w8, [x19]
	ldp	x24, x23, [sp, #192]
	strh	w22, [x19, #2]
	ldp	x22, x21, [sp, #208]
	strh	w29, [x19, #4]
	ldp	x26, x25, [sp, #176]
	stur	x13, [x19, #6]
	ldp	x29, x30, [sp, #144]
	strh	w28, [x19, #14]
	ldp	x28, x27, [sp, #160]
	str	w14, [x19, #16]
	strb	w15, [x19, #20]
	strb	wzr, [x19, #21]
	ldp	x20, x19, [sp, #224]
	add	sp, sp, #240
	.cfi_def_cfa_offset 0
	.cfi_restore w19
	.cfi_restore w20
	.cfi_restore w21
	.cfi_restore w22
	.cfi_restore w23
	.cfi_restore w24
	.cfi_restore w25
	.cfi_restore w26
	.cfi_restore w27
	.cfi_restore w28
	.cfi_restore w30
	.cfi_restore w29
	ret
.LBB52_69:
	.cfi_restore_state
	add	x8, x8, x11
	b	.LBB52_55
.Lfunc_end52:
	.size	"dm_words::smallest::contents::smallest_marked_to", .Lfunc_end52-"dm_words::smallest::contents::smallest_marked_to"
	.cfi_endproc

	.p2align	2
	.type	"dm_words::smallest::contents::write_texts",@function
"dm_words::smallest::contents::write_texts":
	.cfi_startproc
	sub	sp, sp, #144
	.cfi_def_cfa_offset 144
	stp	x29, x30, [sp, #48]
	stp	x28, x27, [sp, #64]
	stp	x26, x25, [sp, #80]
	stp	x24, x23, [sp, #96]
	stp	x22, x21, [sp, #112]
	stp	x20, x19, [sp, #128]
	.cfi_offset w19, -8
	.cfi_offset w20, -16
	.cfi_offset w21, -24
	.cfi_offset w22, -32
	.cfi_offset w23, -40
	.cfi_offset w24, -48
	.cfi_offset w25, -56
	.cfi_offset w26, -64
	.cfi_offset w27, -72
	.cfi_offset w28, -80
	.cfi_offset w30, -88
	.cfi_offset w29, -96
	ldp	x8, x21, [sp, #144]
	mov	x19, x7
	mov	x20, x6
	stp	x2, x1, [sp, #8]
	str	x8, [sp, #24]
	cbz	x4, .LBB53_8
	add	x8, sp, #32
	mov	x25, x5
	mov	x26, x4
	mov	x27, x0
	mov	x23, xzr
	orr	x22, x8, #0x3
	add	x24, x3, #4
	b	.LBB53_4
.LBB53_2:
	mov	w10, wzr
	mov	w8, wzr
	add	w9, w9, #1
	mov	w28, #1
.LBB53_3:
	strb	w8, [sp, #34]
	ldr	x8, [x21]
	add	x1, sp, #32
	mov	x2, x28
	strb	w9, [sp, #32]
	add	x24, x24, #8
	add	x29, x8, #1
	strb	w10, [sp, #33]
	add	x0, x19, x29
	str	wzr, [x22]
	strb	wzr, [x22, #4]
	str	x28, [sp, #40]
	bl	memcpy
	add	x8, x28, x29
	subs	x26, x26, #1
	str	x8, [x21]
	b.eq	.LBB53_9
.LBB53_4:
	ldurh	w8, [x24, #-4]
	mov	x9, x23
	mov	w0, #1
	ldrh	w1, [x25], #2
	mov	x4, x20
	sub	x23, x8, x27
	ldr	x8, [sp, #16]
	sub	x29, x23, x9
	add	x28, x8, x9, lsl #1
	mov	x3, x29
	mov	x2, x28
	bl	"dm_words::smallest::plan::plan_to"
	ldr	x4, [sp, #24]
	mov	x0, x28
	mov	x1, x29
	mov	x2, x20
	mov	x3, x19
	mov	x5, x21
	bl	"dm_words::smallest::parts::write_parts"
	ldr	w9, [x24]
	ldr	x8, [x21]
	mov	w10, #241
	cmp	w9, #126
	strb	w10, [x19, x8]
	b.ls	.LBB53_2
	mov	w8, #16382
	cmp	w9, w8
	b.hi	.LBB53_7
	sub	w9, w9, #127
	mov	w11, #33027
	mov	w8, wzr
	ubfx	w10, w9, #1, #15
	mov	w28, #2
	mul	w10, w10, w11
	mov	w11, #254
	lsr	w10, w10, #22
	msub	w11, w10, w11, w9
	eor	w9, w10, #0xffffff80
	add	w10, w11, #1
	b	.LBB53_3
.LBB53_7:
	mov	w8, #-16383
	mov	w10, #1033
	mov	w12, #2069
	add	w8, w9, w8
	movk	w10, #33026, lsl #16
	movk	w12, #16643, lsl #16
	lsr	w9, w8, #1
	lsr	w11, w8, #2
	mov	w28, #3
	umull	x9, w9, w10
	umull	x11, w11, w12
	mov	w12, #-64
	lsr	x10, x9, #38
	mov	w9, #2065
	movk	w9, #516, lsl #16
	umull	x9, w10, w9
	add	w8, w8, w10, lsl #1
	add	w8, w8, #1
	lsr	x9, x9, #32
	and	w13, w9, #0xfe
	add	x9, x12, x11, lsr #44
	add	w10, w10, w13
	add	w10, w10, #1
	b	.LBB53_3
.LBB53_8:
	mov	x23, xzr
.LBB53_9:
	ldp	x8, x9, [sp, #8]
	mov	w0, #1
	mov	w1, wzr
	mov	x4, x20
	add	x24, x9, x23, lsl #1
	sub	x23, x8, x23
	mov	x3, x23
	mov	x2, x24
	bl	"dm_words::smallest::plan::plan_to"
	mov	x0, x24
	mov	x1, x23
	mov	x2, x20
	mov	x3, x19
	mov	x5, x21
	ldr	x4, [sp, #24]
	ldp	x20, x19, [sp, #128]
	ldp	x22, x21, [sp, #112]
	ldp	x24, x23, [sp, #96]
	ldp	x26, x25, [sp, #80]
	ldp	x28, x27, [sp, #64]
	ldp	x29, x30, [sp, #48]
	add	sp, sp, #144
	.cfi_def_cfa_offset 0
	.cfi_restore w19
	.cfi_restore w20
	.cfi_restore w21
	.cfi_restore w22
	.cfi_restore w23
	.cfi_restore w24
	.cfi_restore w25
	.cfi_restore w26
	.cfi_restore w27
	.cfi_restore w28
	.cfi_restore w30
	.cfi_restore w29
	b	"dm_words::smallest::parts::write_parts"
.Lfunc_end53:
	.size	"dm_words::smallest::contents::write_texts", .Lfunc_end53-"dm_words::smallest::contents::write_texts"
	.cfi_endproc

	.p2align	2
	.type	"dm_words::smallest::smallest_in::<=512,=102>",@function
"dm_words::smallest::smallest_in::<=512,=102>":
	.cfi_startproc
	stp	x29, x30, [sp, #-96]!
	.cfi_def_cfa_offset 96
	stp	x28, x27, [sp, #16]
	stp	x26, x25, [sp, #32]
	stp	x24, x23, [sp, #48]
	stp	x22, x21, [sp, #64]
	stp	x20, x19, [sp, #80]
	.cfi_offset w19, -8
	.cfi_offset w20, -16
	.cfi_offset w21, -24
	.cfi_offset w22, -32
	.cfi_offset w23, -40
	.cfi_offset w24, -48
	.cfi_offset w25, -56
	.cfi_offset w26, -64
	.cfi_offset w27, -72
	.cfi_offset w28, -80
	.cfi_offset w30, -88
	.cfi_offset w29, -96
	sub	sp, sp, #1840
	.cfi_def_cfa_offset 1936
	str	xzr, [sp]
	add	x26, sp, #1800
	mov	w24, w1
	ldrb	w8, [x2, #1]
	ldur	w9, [x2, #2]
	ldrb	w27, [x2]
	mov	x19, x0
	ldr	x25, [sp, #1936]
	add	x0, sp, #264
	strb	w8, [sp, #1809]
	ldrb	w8, [x7]
	mov	w1, wzr
	stur	w9, [x26, #10]
	ldur	w9, [x7, #2]
	mov	w2, #1536
	mov	x22, x6
	mov	x23, x5
	mov	x20, x4
	mov	x21, x3
	strb	w27, [sp, #1808]
	add	x28, sp, #48
	strh	w8, [sp, #1800]
	stur	w9, [x26, #2]
	str	xzr, [sp, #1824]
	str	xzr, [sp, #1816]
	stur	xzr, [x26, #30]
	stp	xzr, xzr, [sp, #24]
	stur	xzr, [sp, #38]
	bl	memset
	movi	v0.2d, #0000000000000000
	stp	q0, q0, [sp, #48]
	stp	q0, q0, [sp, #80]
	stp	q0, q0, [sp, #112]
	str	q0, [sp, #144]
	stp	q0, q0, [x28, #112]
	stp	q0, q0, [x28, #144]
	str	q0, [x28, #176]
	stur	q0, [x28, #188]
	cbnz	x22, .LBB54_3
	cbnz	w27, .LBB54_3
	add	x0, sp, #1816
	add	x4, sp, #1800
	add	x5, sp, #264
	mov	w1, w24
	mov	x2, x21
	mov	x3, x20
	mov	x6, x25
	bl	"dm_words::smallest::smallest_items_to"
	ldrb	w8, [sp, #1816]
	ldur	q0, [x26, #18]
	ldur	w9, [x26, #34]
	strb	w8, [x19]
	stur	q0, [x19, #2]
	stur	w9, [x19, #18]
	b	.LBB54_7
.LBB54_3:
	tst	w24, #0xff
	b.eq	.LBB54_5
	add	x8, sp, #264
	add	x0, sp, #24
	add	x1, sp, #1808
	add	x6, sp, #1800
	add	x7, sp, #48
	mov	x2, x21
	mov	x3, x20
	mov	x4, x23
	mov	x5, x22
	stp	x8, x25, [sp]
	bl	"dm_words::smallest::contents::smallest_marked_to"
	ldrb	w8, [sp, #24]
	b	.LBB54_6
.LBB54_5:
	mov	w8, #1
.LBB54_6:
	ldur	q0, [sp, #26]
	strb	w8, [x19]
	ldur	w8, [sp, #42]
	stur	q0, [x19, #2]
	stur	w8, [x19, #18]
.LBB54_7:
	add	sp, sp, #1840
	.cfi_def_cfa_offset 96
	ldp	x20, x19, [sp, #80]
	ldp	x22, x21, [sp, #64]
	ldp	x24, x23, [sp, #48]
	ldp	x26, x25, [sp, #32]
	ldp	x28, x27, [sp, #16]
	ldp	x29, x30, [sp], #96
	.cfi_def_cfa_offset 0
	.cfi_restore w19
	.cfi_restore w20
	.cfi_restore w21
	.cfi_restore w22
	.cfi_restore w23
	.cfi_restore w24
	.cfi_restore w25
	.cfi_restore w26
	.cfi_restore w27
	.cfi_restore w28
	.cfi_restore w30
	.cfi_restore w29
	ret
.Lfunc_end54:
	.size	"dm_words::smallest::smallest_in::<=512,=102>", .Lfunc_end54-"dm_words::smallest::smallest_in::<=512,=102>"
	.cfi_endproc

	.p2align	2
	.type	"dm_words::smallest::smallest_in::<=3124,=779>",@function
"dm_words::smallest::smallest_in::<=3124,=779>":
	.cfi_startproc
	str	x29, [sp, #-96]!
	.cfi_def_cfa_offset 96
	stp	x30, x27, [sp, #16]
	stp	x26, x25, [sp, #32]
	stp	x24, x23, [sp, #48]
	stp	x22, x21, [sp, #64]
	stp	x20, x19, [sp, #80]
	.cfi_offset w19, -8
	.cfi_offset w20, -16
	.cfi_offset w21, -24
	.cfi_offset w22, -32
	.cfi_offset w23, -40
	.cfi_offset w24, -48
	.cfi_offset w25, -56
	.cfi_offset w26, -64
	.cfi_offset w27, -72
	.cfi_offset w30, -80
	.cfi_offset w29, -96
	sub	sp, sp, #3072
	.cfi_def_cfa_offset 3168
	str	xzr, [sp]
	sub	sp, sp, #3072
	.cfi_def_cfa_offset 6240
	str	xzr, [sp]
	sub	sp, sp, #3072
	.cfi_def_cfa_offset 9312
	str	xzr, [sp]
	sub	sp, sp, #1792
	.cfi_def_cfa_offset 11104
	str	xzr, [sp]
	add	x26, sp, #2, lsl #12
	mov	w24, w1
	ldrb	w8, [x2, #1]
	ldur	w9, [x2, #2]
	add	x26, x26, #2776
	ldrb	w27, [x2]
	mov	x19, x0
	ldr	x25, [sp, #11104]
	strb	w8, [x26, #9]
	ldrb	w8, [x7]
	add	x0, sp, #1596
	stur	w9, [x26, #10]
	ldur	w9, [x7, #2]
	mov	w1, wzr
	mov	w2, #9372
	mov	x22, x6
	mov	x23, x5
	mov	x20, x4
	mov	x21, x3
	strb	w27, [x26, #8]
	strh	w8, [x26]
	stur	w9, [x26, #2]
	str	xzr, [sp, #10992]
	str	xzr, [sp, #10984]
	stur	xzr, [x26, #30]
	stp	xzr, xzr, [sp, #16]
	stur	xzr, [sp, #30]
	bl	memset
	add	x0, sp, #38
	mov	w1, wzr
	mov	w2, #1558
	bl	memset
	cbnz	x22, .LBB55_3
	cbnz	w27, .LBB55_3
	add	x0, sp, #2, lsl #12
	add	x4, sp, #2, lsl #12
	add	x5, sp, #1596
	add	x0, x0, #2792
	add	x4, x4, #2776
	mov	w1, w24
	mov	x2, x21
	mov	x3, x20
	mov	x6, x25
	bl	"dm_words::smallest::smallest_items_to"
	ldrb	w8, [x26, #16]
	ldur	q0, [x26, #18]
	ldur	w9, [x26, #34]
	strb	w8, [x19]
	stur	q0, [x19, #2]
	stur	w9, [x19, #18]
	b	.LBB55_7
.LBB55_3:
	tst	w24, #0xff
	b.eq	.LBB55_5
	add	x1, sp, #2, lsl #12
	add	x6, sp, #2, lsl #12
	add	x8, sp, #1596
	add	x0, sp, #16
	add	x1, x1, #2784
	add	x6, x6, #2776
	add	x7, sp, #38
	mov	x2, x21
	mov	x3, x20
	mov	x4, x23
	mov	x5, x22
	stp	x8, x25, [sp]
	bl	"dm_words::smallest::contents::smallest_marked_to"
	ldrb	w8, [sp, #16]
	b	.LBB55_6
.LBB55_5:
	mov	w8, #1
.LBB55_6:
	ldur	q0, [sp, #18]
	strb	w8, [x19]
	ldur	w8, [sp, #34]
	stur	q0, [x19, #2]
	stur	w8, [x19, #18]
.LBB55_7:
	add	sp, sp, #2, lsl #12
	.cfi_def_cfa_offset 2912
	add	sp, sp, #2816
	.cfi_def_cfa_offset 96
	ldp	x20, x19, [sp, #80]
	ldp	x22, x21, [sp, #64]
	ldp	x24, x23, [sp, #48]
	ldp	x26, x25, [sp, #32]
	ldp	x30, x27, [sp, #16]
	ldr	x29, [sp], #96
	.cfi_def_cfa_offset 0
	.cfi_restore w19
	.cfi_restore w20
	.cfi_restore w21
	.cfi_restore w22
	.cfi_restore w23
	.cfi_restore w24
	.cfi_restore w25
	.cfi_restore w26
	.cfi_restore w27
	.cfi_restore w30
	.cfi_restore w29
	ret
.Lfunc_end55:
	.size	"dm_words::smallest::smallest_in::<=3124,=779>", .Lfunc_end55-"dm_words::smallest::smallest_in::<=3124,=779>"
	.cfi_endproc

	.section	.rodata.cst16,"aM",@progbits,16
	.p2align	4, 0x0
.LCPI56_0:
	.byte	0
	.byte	0
	.byte	0
	.byte	0
	.byte	0
	.byte	0
	.byte	0
	.byte	0
	.byte	1
	.byte	1
	.byte	1
	.byte	1
	.byte	1
	.byte	1
	.byte	1
	.byte	1
.LCPI56_1:
	.byte	1
	.byte	2
	.byte	4
	.byte	8
	.byte	16
	.byte	32
	.byte	64
	.byte	128
	.byte	1
	.byte	2
	.byte	4
	.byte	8
	.byte	16
	.byte	32
	.byte	64
	.byte	128
	.text
	.p2align	2
	.type	"ecc200_calls::writing::show_words::<=32,=98>",@function
"ecc200_calls::writing::show_words::<=32,=98>":
	.cfi_startproc
	str	x29, [sp, #-96]!
	.cfi_def_cfa_offset 96
	stp	x30, x27, [sp, #16]
	stp	x26, x25, [sp, #32]
	stp	x24, x23, [sp, #48]
	stp	x22, x21, [sp, #64]
	stp	x20, x19, [sp, #80]
	.cfi_offset w19, -8
	.cfi_offset w20, -16
	.cfi_offset w21, -24
	.cfi_offset w22, -32
	.cfi_offset w23, -40
	.cfi_offset w24, -48
	.cfi_offset w25, -56
	.cfi_offset w26, -64
	.cfi_offset w27, -72
	.cfi_offset w30, -80
	.cfi_offset w29, -96
	sub	sp, sp, #896
	.cfi_def_cfa_offset 992
	movi	v0.2d, #0000000000000000
	mov	x27, sp
	mov	x20, x2
	mov	x21, x1
	mov	x19, x0
	add	x24, sp, #616
	ldrh	w23, [x0]
	ldrh	w25, [x0, #14]
	ldr	w26, [x0, #16]
	add	x0, x27, #20
	mov	w1, wzr
	mov	w2, #524
	mov	x22, x3
	stur	q0, [x24, #20]
	stur	q0, [x24, #36]
	stur	q0, [x24, #52]
	stur	q0, [x24, #68]
	stur	q0, [x24, #84]
	stur	q0, [x24, #100]
	strh	wzr, [sp, #732]
	bl	memset
	movi	v0.2d, #0000000000000000
	ldur	x8, [x19, #2]
	ldur	w9, [x19, #10]
	add	x0, x24, #20
	add	x1, sp, #736
	mov	x2, x21
	mov	x3, x20
	strh	w23, [sp, #736]
	add	x19, x27, #544
	stur	x8, [x24, #122]
	stp	q0, q0, [sp, #544]
	stp	q0, q0, [sp, #576]
	stur	w9, [x24, #130]
	strh	w25, [sp, #750]
	str	w26, [sp, #752]
	strh	w23, [sp, #616]
	add	x23, sp, #736
	stur	w9, [x24, #10]
	stur	x8, [x24, #2]
	strh	w25, [sp, #630]
	str	w26, [sp, #632]
	bl	"dm_symbol::symbol::writing::complete_in"
	ldr	q0, [x24]
	ldr	w8, [sp, #632]
	add	x20, x27, #32
	add	x0, sp, #616
	add	x1, x24, #20
	mov	x2, x20
	mov	x3, x19
	str	q0, [sp]
	str	w8, [sp, #16]
	bl	"dm_layout::symbols::placing::lay_list"
	movi	v0.2d, #0000000000000000
	ldrh	w24, [sp]
	ldrh	w21, [sp, #2]
	strh	w21, [x22, #8]
	mov	v0.h[3], w24
	str	d0, [x22], #90
	cbz	x24, .LBB56_29
	umull	x25, w21, w24
	sub	x8, x21, #145
	add	x26, x21, #16
	and	x27, x8, #0xfffffffffffffff0
	b	.LBB56_4
.LBB56_2:
	sub	x0, x22, #80
	add	x1, sp, #736
	mov	x2, x21
	bl	memcpy
.LBB56_3:
	add	x20, x20, #16
	subs	x24, x24, #1
	add	x19, x19, #2
	add	x22, x22, x21
	add	x26, x26, x21
	b.eq	.LBB56_29
.LBB56_4:
	cmp	x26, x25
	b.ls	.LBB56_17
	movi	v0.2d, #0000000000000000
	stp	q0, q0, [sp, #736]
	stp	q0, q0, [sp, #768]
	stp	q0, q0, [sp, #800]
	stp	q0, q0, [sp, #832]
	stp	q0, q0, [sp, #864]
	cbz	w21, .LBB56_2
	ldp	x10, x9, [x20]
	adrp	x8, .LCPI56_0
	ldr	q0, [x8, :lo12:.LCPI56_0]
	adrp	x8, .LCPI56_1
	cmp	w21, #17
	fmov	s1, w10
	tbl	v2.16b, { v1.16b }, v0.16b
	ldr	q1, [x8, :lo12:.LCPI56_1]
	ldrh	w8, [x19]
	and	v3.16b, v2.16b, v1.16b
	movi	v2.16b, #1
	cmeq	v3.16b, v3.16b, #0
	bic	v3.16b, v2.16b, v3.16b
	str	q3, [sp, #736]
	b.lo	.LBB56_14
	lsr	x11, x10, #16
	cmp	w21, #33
	fmov	s3, w11
	tbl	v3.16b, { v3.16b }, v0.16b
	and	v3.16b, v3.16b, v1.16b
	cmeq	v3.16b, v3.16b, #0
	bic	v2.16b, v2.16b, v3.16b
	str	q2, [sp, #752]
	b.lo	.LBB56_14
	lsr	x11, x10, #32
	cmp	w21, #49
	fmov	s2, w11
	tbl	v2.16b, { v2.16b }, v0.16b
	and	v3.16b, v2.16b, v1.16b
	movi	v2.16b, #1
	cmeq	v3.16b, v3.16b, #0
	bic	v3.16b, v2.16b, v3.16b
	str	q3, [sp, #768]
	b.lo	.LBB56_14
	lsr	x10, x10, #48
	cmp	w21, #65
	fmov	s3, w10
	tbl	v3.16b, { v3.16b }, v0.16b
	and	v3.16b, v3.16b, v1.16b
	cmeq	v3.16b, v3.16b, #0
	bic	v2.16b, v2.16b, v3.16b
	str	q2, [sp, #784]
	b.lo	.LBB56_14
	fmov	s2, w9
	cmp	w21, #81
	tbl	v2.16b, { v2.16b }, v0.16b
	and	v3.16b, v2.16b, v1.16b
	movi	v2.16b, #1
	cmeq	v3.16b, v3.16b, #0
	bic	v3.16b, v2.16b, v3.16b
	str	q3, [sp, #800]
	b.lo	.LBB56_14
	lsr	x10, x9, #16
	cmp	w21, #97
	fmov	s3, w10
	tbl	v3.16b, { v3.16b }, v0.16b
	and	v3.16b, v3.16b, v1.16b
	cmeq	v3.16b, v3.16b, #0
	bic	v2.16b, v2.16b, v3.16b
	str	q2, [sp, #816]
	b.lo	.LBB56_14
	lsr	x10, x9, #32
	cmp	w21, #113
	fmov	s2, w10
	tbl	v2.16b, { v2.16b }, v0.16b
	and	v3.16b, v2.16b, v1.16b
	movi	v2.16b, #1
	cmeq	v3.16b, v3.16b, #0
	bic	v3.16b, v2.16b, v3.16b
	str	q3, [sp, #832]
	b.lo	.LBB56_14
	lsr	x9, x9, #48
	fmov	s3, w9
	tbl	v3.16b, { v3.16b }, v0.16b
	and	v3.16b, v3.16b, v1.16b
	cmeq	v3.16b, v3.16b, #0
	bic	v2.16b, v2.16b, v3.16b
	str	q2, [sp, #848]
.LBB56_14:
	cmp	w21, #129
	b.lo	.LBB56_2
	fmov	s2, w8
	cmp	w21, #145
	tbl	v0.16b, { v2.16b }, v0.16b
	and	v0.16b, v0.16b, v1.16b
	movi	v1.16b, #1
	cmeq	v0.16b, v0.16b, #0
	bic	v0.16b, v1.16b, v0.16b
	str	q0, [sp, #864]
	b.lo	.LBB56_2
	add	x0, x23, #144
	add	x2, x27, #16
	mov	w1, wzr
	bl	memset
	b	.LBB56_2
.LBB56_17:
	cbz	w21, .LBB56_3
	ldp	x10, x9, [x20]
	adrp	x8, .LCPI56_0
	ldr	q0, [x8, :lo12:.LCPI56_0]
	adrp	x8, .LCPI56_1
	cmp	w21, #17
	fmov	s1, w10
	tbl	v2.16b, { v1.16b }, v0.16b
	ldr	q1, [x8, :lo12:.LCPI56_1]
	ldrh	w8, [x19]
	and	v3.16b, v2.16b, v1.16b
	movi	v2.16b, #1
	cmeq	v3.16b, v3.16b, #0
	bic	v3.16b, v2.16b, v3.16b
	stur	q3, [x22, #-80]
	b.lo	.LBB56_26
	lsr	x11, x10, #16
	cmp	w21, #33
	fmov	s3, w11
	tbl	v3.16b, { v3.16b }, v0.16b
	and	v3.16b, v3.16b, v1.16b
	cmeq	v3.16b, v3.16b, #0
	bic	v2.16b, v2.16b, v3.16b
	stur	q2, [x22, #-64]
	b.lo	.LBB56_26
	lsr	x11, x10, #32
	cmp	w21, #49
	fmov	s2, w11
	tbl	v2.16b, { v2.16b }, v0.16b
	and	v3.16b, v2.16b, v1.16b
	movi	v2.16b, #1
	cmeq	v3.16b, v3.16b, #0
	bic	v3.16b, v2.16b, v3.16b
	stur	q3, [x22, #-48]
	b.lo	.LBB56_26
	lsr	x10, x10, #48
	cmp	w21, #65
	fmov	s3, w10
	tbl	v3.16b, { v3.16b }, v0.16b
	and	v3.16b, v3.16b, v1.16b
	cmeq	v3.16b, v3.16b, #0
	bic	v2.16b, v2.16b, v3.16b
	stur	q2, [x22, #-32]
	b.lo	.LBB56_26
	fmov	s2, w9
	cmp	w21, #81
	tbl	v2.16b, { v2.16b }, v0.16b
	and	v3.16b, v2.16b, v1.16b
	movi	v2.16b, #1
	cmeq	v3.16b, v3.16b, #0
	bic	v3.16b, v2.16b, v3.16b
	stur	q3, [x22, #-16]
	b.lo	.LBB56_26
	lsr	x10, x9, #16
	cmp	w21, #97
	fmov	s3, w10
	tbl	v3.16b, { v3.16b }, v0.16b
	and	v3.16b, v3.16b, v1.16b
	cmeq	v3.16b, v3.16b, #0
	bic	v2.16b, v2.16b, v3.16b
	str	q2, [x22]
	b.lo	.LBB56_26
	lsr	x10, x9, #32
	cmp	w21, #113
	fmov	s2, w10
	tbl	v2.16b, { v2.16b }, v0.16b
	and	v3.16b, v2.16b, v1.16b
	movi	v2.16b, #1
	cmeq	v3.16b, v3.16b, #0
	bic	v3.16b, v2.16b, v3.16b
	str	q3, [x22, #16]
	b.lo	.LBB56_26
	lsr	x9, x9, #48
	fmov	s3, w9
	tbl	v3.16b, { v3.16b }, v0.16b
	and	v3.16b, v3.16b, v1.16b
	cmeq	v3.16b, v3.16b, #0
	bic	v2.16b, v2.16b, v3.16b
	str	q2, [x22, #32]
.LBB56_26:
	cmp	w21, #129
	b.lo	.LBB56_3
	fmov	s2, w8
	cmp	w21, #145
	tbl	v0.16b, { v2.16b }, v0.16b
	and	v0.16b, v0.16b, v1.16b
	movi	v1.16b, #1
	cmeq	v0.16b, v0.16b, #0
	bic	v0.16b, v1.16b, v0.16b
	str	q0, [x22, #48]
	b.lo	.LBB56_3
	add	x0, x22, #64
	add	x2, x27, #16
	mov	w1, wzr
	bl	memset
	b	.LBB56_3
.LBB56_29:
	add	sp, sp, #896
	.cfi_def_cfa_offset 96
	ldp	x20, x19, [sp, #80]
	ldp	x22, x21, [sp, #64]
	ldp	x24, x23, [sp, #48]
	ldp	x26, x25, [sp, #32]
	ldp	x30, x27, [sp, #16]
	ldr	x29, [sp], #96
	.cfi_def_cfa_offset 0
	.cfi_restore w19
	.cfi_restore w20
	.cfi_restore w21
	.cfi_restore w22
	.cfi_restore w23
	.cfi_restore w24
	.cfi_restore w25
	.cfi_restore w26
	.cfi_restore w27
	.cfi_restore w30
	.cfi_restore w29
	ret
.Lfunc_end56:
	.size	"ecc200_calls::writing::show_words::<=32,=98>", .Lfunc_end56-"ecc200_calls::writing::show_words::<=32,=98>"
	.cfi_endproc

	.p2align	2
	.type	"dm_symbol::symbol::writing::complete_in",@function
"dm_symbol::symbol::writing::complete_in":
	.cfi_startproc
	str	x29, [sp, #-96]!
	.cfi_def_cfa_offset 96
	stp	x30, x27, [sp, #16]
	stp	x26, x25, [sp, #32]
	stp	x24, x23, [sp, #48]
	stp	x22, x21, [sp, #64]
	stp	x20, x19, [sp, #80]
	.cfi_offset w19, -8
	.cfi_offset w20, -16
	.cfi_offset w21, -24
	.cfi_offset w22, -32
	.cfi_offset w23, -40
	.cfi_offset w24, -48
	.cfi_offset w25, -56
	.cfi_offset w26, -64
	.cfi_offset w27, -72
	.cfi_offset w30, -80
	.cfi_offset w29, -96
	sub	sp, sp, #784
	.cfi_def_cfa_offset 880
	ldrh	w21, [x1, #12]
	sub	x9, x0, x2
	ldrh	w22, [x1, #14]
	ldrh	w23, [x1, #16]
	mov	x19, x0
	cmp	x9, x3
	b.hs	.LBB57_5
	cmp	x3, #4
	mov	x8, xzr
	b.lo	.LBB57_13
	cmp	x9, #32
	b.lo	.LBB57_13
	cmp	x3, #16
	b.hs	.LBB57_6
	mov	x8, xzr
	b	.LBB57_10
.LBB57_5:
	mov	x0, x19
	mov	x1, x2
	mov	x2, x3
	bl	memmove
	b	.LBB57_15
.LBB57_6:
	and	x9, x3, #0xc
	and	x8, x3, #0xfff0
	mov	x10, x19
	mov	x11, x2
	and	x12, x3, #0xfff0
.LBB57_7:
	ldr	q0, [x11], #16
	subs	x12, x12, #16
	str	q0, [x10], #16
	b.ne	.LBB57_7
	cmp	x3, x8
	b.eq	.LBB57_15
	cbz	x9, .LBB57_13
.LBB57_10:
	mov	x11, x8
	and	x8, x3, #0xfffc
	sub	x9, x11, x8
	add	x10, x2, x11
	add	x11, x19, x11
.LBB57_11:
	ldr	w12, [x10], #4
	adds	x9, x9, #4
	str	w12, [x11], #4
	b.ne	.LBB57_11
	cmp	x3, x8
	b.eq	.LBB57_15
.LBB57_13:
	sub	x9, x3, x8
	add	x10, x2, x8
	add	x8, x19, x8
.LBB57_14:
	ldrb	w11, [x10], #1
	subs	x9, x9, #1
	strb	w11, [x8], #1
	b.ne	.LBB57_14
.LBB57_15:
	cmp	w23, #1
	b.ne	.LBB57_18
	movi	v0.2d, #0000000000000000
	add	x0, sp, #432
	mov	x1, x19
	mov	x2, x21
	mov	x3, x22
	stp	q0, q0, [sp, #432]
	stp	q0, q0, [sp, #464]
	stp	q0, q0, [sp, #496]
	bl	"dm_code::encoding::divide"
	movi	v0.2d, #0000000000000000
	cmp	w22, #68
	stp	q0, q0, [sp, #176]
	stp	q0, q0, [sp, #208]
	str	q0, [sp, #160]
	b.ls	.LBB57_31
	mov	x22, xzr
	b	.LBB57_32
.LBB57_18:
	cbz	w23, .LBB57_33
	udiv	w20, w22, w23
	add	w8, w22, w21
	mov	x24, xzr
	and	x8, x8, #0xffff
	add	w21, w23, w21
	mov	x25, x19
	add	x22, x8, x23
	b	.LBB57_21
.LBB57_20:
	add	x24, x24, #1
	add	x25, x25, #1
	cmp	x24, x23
	b.eq	.LBB57_33
.LBB57_21:
	movi	v0.2d, #0000000000000000
	mvn	x8, x24
	str	xzr, [sp, #688]
	add	x9, x22, x8
	cmp	x9, x23
	stp	q0, q0, [sp]
	stp	q0, q0, [sp, #32]
	stp	q0, q0, [sp, #80]
	stp	q0, q0, [sp, #112]
	str	q0, [sp, #144]
	str	q0, [sp, #64]
	stp	q0, q0, [sp, #432]
	stp	q0, q0, [sp, #464]
	stp	q0, q0, [sp, #496]
	stp	q0, q0, [sp, #528]
	stp	q0, q0, [sp, #560]
	stp	q0, q0, [sp, #592]
	stp	q0, q0, [sp, #624]
	stp	q0, q0, [sp, #656]
	b.lo	.LBB57_24
	udiv	x9, x9, x23
	mov	x8, xzr
	mov	x10, x25
.LBB57_23:
	ldrb	w11, [x10]
	add	x12, sp, #432
	add	x10, x10, x23
	strb	w11, [x12, x8]
	add	x8, x8, #1
	cmp	x8, x9
	str	x8, [sp, #688]
	b.lo	.LBB57_23
.LBB57_24:
	add	x0, sp, #160
	add	x1, sp, #432
	mov	w2, #264
	add	x27, sp, #160
	bl	memcpy
	sub	w8, w24, w21
	mov	w9, #65535
	ldr	x2, [sp, #416]
	bic	w8, w9, w8
	udiv	w26, w8, w23
	subs	x8, x2, x26
	b.ls	.LBB57_26
	add	x0, x27, x26
	mov	w1, wzr
	mov	x2, x8
	bl	memset
	mov	x2, x26
	str	x26, [sp, #416]
.LBB57_26:
	movi	v0.2d, #0000000000000000
	add	x0, sp, #432
	add	x1, sp, #160
	mov	x3, x20
	stp	q0, q0, [sp, #432]
	stp	q0, q0, [sp, #464]
	stp	q0, q0, [sp, #496]
	bl	"dm_code::encoding::divide"
	movi	v0.2d, #0000000000000000
	cmp	w20, #68
	stp	q0, q0, [sp, #720]
	stp	q0, q0, [sp, #752]
	str	q0, [sp, #704]
	b.hi	.LBB57_28
	add	x0, sp, #704
	add	x1, sp, #432
	mov	x2, x20
	bl	memcpy
	str	x20, [sp, #776]
.LBB57_28:
	ldp	q0, q1, [sp, #736]
	ldr	q2, [sp, #768]
	ldp	q4, q3, [sp, #704]
	stp	q0, q1, [sp, #32]
	stp	q4, q3, [sp]
	stp	q2, q4, [sp, #64]
	stp	q3, q0, [sp, #96]
	stp	q1, q2, [sp, #128]
	ldr	x8, [sp, #152]
	cbz	x8, .LBB57_20
	mov	x9, xzr
	add	x10, x19, x24
	add	x11, sp, #80
.LBB57_30:
	add	x12, x9, x26
	ldrb	w13, [x11], #1
	mul	x12, x12, x23
	subs	x8, x8, #1
	add	x9, x9, #1
	strb	w13, [x10, x12]
	b.ne	.LBB57_30
	b	.LBB57_20
.LBB57_31:
	add	x0, sp, #160
	add	x1, sp, #432
	mov	x2, x22
	bl	memcpy
	str	x22, [sp, #232]
.LBB57_32:
	add	x0, x19, x21
	add	x1, sp, #160
	mov	x2, x22
	bl	memcpy
.LBB57_33:
	add	sp, sp, #784
	.cfi_def_cfa_offset 96
	ldp	x20, x19, [sp, #80]
	ldp	x22, x21, [sp, #64]
	ldp	x24, x23, [sp, #48]
	ldp	x26, x25, [sp, #32]
	ldp	x30, x27, [sp, #16]
	ldr	x29, [sp], #96
	.cfi_def_cfa_offset 0
	.cfi_restore w19
	.cfi_restore w20
	.cfi_restore w21
	.cfi_restore w22
	.cfi_restore w23
	.cfi_restore w24
	.cfi_restore w25
	.cfi_restore w26
	.cfi_restore w27
	.cfi_restore w30
	.cfi_restore w29
	ret
.Lfunc_end57:
	.size	"dm_symbol::symbol::writing::complete_in", .Lfunc_end57-"dm_symbol::symbol::writing::complete_in"
	.cfi_endproc

	.section	.rodata.cst8,"aM",@progbits,8
	.p2align	3, 0x0
.LCPI58_0:
	.hword	1
	.hword	2
	.hword	3
	.hword	4
.LCPI58_1:
	.word	2
	.word	1
.LCPI58_2:
	.word	4294967291
	.word	4294967295
.LCPI58_3:
	.word	4294967292
	.word	4294967294
.LCPI58_4:
	.word	4294967293
	.word	0
.LCPI58_5:
	.word	4294967294
	.word	4294967295
.LCPI58_6:
	.word	2
	.word	3
	.text
	.p2align	2
	.type	"dm_layout::symbols::placing::lay_list",@function
"dm_layout::symbols::placing::lay_list":
	.cfi_startproc
	stp	x29, x30, [sp, #-96]!
	.cfi_def_cfa_offset 96
	stp	x28, x27, [sp, #16]
	stp	x26, x25, [sp, #32]
	stp	x24, x23, [sp, #48]
	stp	x22, x21, [sp, #64]
	stp	x20, x19, [sp, #80]
	.cfi_offset w19, -8
	.cfi_offset w20, -16
	.cfi_offset w21, -24
	.cfi_offset w22, -32
	.cfi_offset w23, -40
	.cfi_offset w24, -48
	.cfi_offset w25, -56
	.cfi_offset w26, -64
	.cfi_offset w27, -72
	.cfi_offset w28, -80
	.cfi_offset w30, -88
	.cfi_offset w29, -96
	sub	sp, sp, #3072
	.cfi_def_cfa_offset 3168
	str	xzr, [sp]
	sub	sp, sp, #3072
	.cfi_def_cfa_offset 6240
	str	xzr, [sp]
	sub	sp, sp, #3056
	.cfi_def_cfa_offset 9296
	.cfi_remember_state
	str	xzr, [sp]
	add	x24, sp, #1, lsl #12
	mov	x23, x1
	ldrh	w28, [x0, #6]
	ldrh	w27, [x0, #10]
	ldrh	w19, [x0, #2]
	ldrh	w25, [x0, #4]
	ldrh	w9, [x0, #8]
	add	x24, x24, #816
	mul	w21, w27, w28
	adrp	x29, .Lstatic.2
	add	x29, x29, :lo12:.Lstatic.2
	str	x3, [sp, #440]
	str	x2, [sp, #368]
	and	w8, w21, #0xffff
	str	x9, [sp, #160]
	cmp	w8, #56
	str	w25, [sp, #284]
	b.hi	.LBB58_12
	movi	v0.2d, #0000000000000000
	mul	w22, w9, w25
	add	x0, sp, #1, lsl #12
	add	x0, x0, #776
	mov	w2, w21
	mov	x20, x9
	str	xzr, [sp, #5360]
	mov	w1, w22
	stp	q0, q0, [sp, #464]
	stp	q0, q0, [sp, #496]
	stp	q0, q0, [sp, #528]
	stp	q0, q0, [sp, #560]
	stp	q0, q0, [sp, #592]
	stp	q0, q0, [sp, #624]
	stp	q0, q0, [sp, #656]
	stp	q0, q0, [sp, #688]
	stp	q0, q0, [sp, #720]
	stp	q0, q0, [sp, #752]
	stp	q0, q0, [sp, #784]
	stp	q0, q0, [sp, #816]
	stp	q0, q0, [sp, #848]
	stp	q0, q0, [sp, #880]
	stp	q0, q0, [sp, #912]
	str	q0, [sp, #448]
	str	q0, [sp, #4912]
	str	q0, [sp, #4928]
	str	q0, [sp, #4944]
	str	q0, [sp, #4960]
	str	q0, [sp, #4976]
	str	q0, [sp, #4992]
	str	q0, [sp, #5008]
	str	q0, [sp, #5024]
	str	q0, [sp, #5040]
	str	q0, [sp, #5056]
	str	q0, [sp, #5072]
	str	q0, [sp, #5088]
	str	q0, [sp, #5104]
	str	q0, [sp, #5120]
	str	q0, [sp, #5136]
	str	q0, [sp, #5152]
	str	q0, [sp, #5168]
	str	q0, [sp, #5184]
	str	q0, [sp, #5200]
	str	q0, [sp, #5216]
	str	q0, [sp, #5232]
	str	q0, [sp, #5248]
	str	q0, [sp, #5264]
	str	q0, [sp, #5280]
	str	q0, [sp, #5296]
	str	q0, [sp, #5312]
	str	q0, [sp, #5328]
	str	q0, [sp, #5344]
	bl	"dm_layout::symbols::slots::order"
	ldr	x8, [sp, #4880]
	cbz	x8, .LBB58_4
	ldr	x9, [sp, #4872]
	mov	x10, x23
	mov	x11, x8
.LBB58_3:
	ldrh	w12, [x9], #2
	add	x14, sp, #1, lsl #12
	ldrb	w13, [x10], #1
	add	x14, x14, #816
	ldrb	w15, [x14, x12]
	subs	x11, x11, #1
	ldrb	w13, [x29, x13]
	orr	w13, w15, w13
	strb	w13, [x14, x12]
	b.ne	.LBB58_3
.LBB58_4:
	ldr	x9, [sp, #4896]
	cbz	x9, .LBB58_7
	ldr	x10, [sp, #4888]
	ldr	x11, [sp, #4904]
	add	x8, x23, x8
.LBB58_6:
	add	x14, sp, #1, lsl #12
	ldrh	w12, [x10], #2
	ldrb	w13, [x8], #1
	add	x14, x14, #816
	sub	x14, x14, x11
	subs	x9, x9, #1
	ldrb	w13, [x29, x13]
	ldrb	w15, [x14, x12]
	orr	w13, w15, w13
	strb	w13, [x14, x12]
	b.ne	.LBB58_6
.LBB58_7:
	tst	w22, #0xffff
	mov	x30, x19
	b.eq	.LBB58_35
	and	x8, x22, #0xffff
	ldr	x13, [sp, #456]
	add	x11, sp, #448
	add	x10, x8, w22, uxth #1
	add	x12, sp, #1, lsl #12
	mov	x9, xzr
	add	x11, x11, #16
	add	x12, x12, #816
.LBB58_9:
	ldr	x14, [x12], #8
	and	x15, x9, #0x7
	eor	x15, x15, #0x4
	ldur	x18, [x11, #-16]
	add	x9, x9, #3
	lsr	x16, x14, #2
	and	x17, x14, #0x303030303030303
	lsr	x14, x14, #5
	add	x15, x15, #2
	cmp	x10, x9
	and	x16, x16, #0x707070707070707
	and	x14, x14, #0x707070707070707
	lsl	x17, x17, x15
	lsl	x16, x16, x15
	lsl	x14, x14, x15
	ldr	x15, [x11]
	orr	x17, x17, x18
	orr	x16, x16, x13
	orr	x13, x15, x14
	stp	x17, x16, [x11, #-16]
	str	x13, [x11], #8
	b.ne	.LBB58_9
	add	x10, sp, #448
	and	w9, w22, #0x7
	ldr	x11, [sp, #448]
	add	x8, x10, x8, lsl #3
	eor	w13, w9, #0x4
	subs	w12, w13, #4
	ldr	x10, [x8]
	b.hi	.LBB58_37
	mov	w14, #4
	ldr	x12, [x8, #8]
	sub	w13, w14, w13
	and	x13, x13, #0xffff
	b	.LBB58_36
.LBB58_12:
	mul	w22, w9, w25
	add	x0, sp, #448
	cmp	w8, #120
	str	x19, [sp, #424]
	b.hi	.LBB58_24
	mov	w1, wzr
	mov	w2, #2016
	bl	memset
	add	x0, sp, #1, lsl #12
	mov	w1, wzr
	mov	w2, #1936
	add	x0, x0, #816
	bl	memset
	add	x0, sp, #1, lsl #12
	mov	w1, w22
	mov	w2, w21
	add	x0, x0, #776
	bl	"dm_layout::symbols::slots::order"
	ldr	x8, [sp, #4880]
	cbz	x8, .LBB58_16
	ldr	x9, [sp, #4872]
	mov	x10, x23
	mov	x11, x8
.LBB58_15:
	ldrh	w12, [x9], #2
	add	x14, sp, #1, lsl #12
	ldrb	w13, [x10], #1
	add	x14, x14, #816
	ldrb	w15, [x14, x12]
	subs	x11, x11, #1
	ldrb	w13, [x29, x13]
	orr	w13, w15, w13
	strb	w13, [x14, x12]
	b.ne	.LBB58_15
.LBB58_16:
	ldr	x9, [sp, #4896]
	cbz	x9, .LBB58_19
	ldr	x10, [sp, #4888]
	ldr	x11, [sp, #4904]
	add	x8, x23, x8
.LBB58_18:
	add	x14, sp, #1, lsl #12
	ldrh	w12, [x10], #2
	ldrb	w13, [x8], #1
	add	x14, x14, #816
	sub	x14, x14, x11
	subs	x9, x9, #1
	ldrb	w13, [x29, x13]
	ldrb	w15, [x14, x12]
	orr	w13, w15, w13
	strb	w13, [x14, x12]
	b.ne	.LBB58_18
.LBB58_19:
	ldr	x30, [sp, #424]
	tst	w22, #0xffff
	b.eq	.LBB58_56
	ldp	x13, x14, [sp, #464]
	add	x12, sp, #1, lsl #12
	add	x9, sp, #448
	add	x12, x12, #816
	mov	x8, xzr
	add	x10, sp, #448
	and	x11, x22, #0xffff
	add	x9, x9, #32
	add	x12, x12, #8
.LBB58_21:
	add	w15, w8, w8, lsl #1
	ldp	x16, x17, [x12, #-8]
	ldp	x18, x0, [x9, #-32]
	add	x8, x8, #1
	and	w15, w15, #0x7
	cmp	x11, x8
	add	x12, x12, #16
	and	x1, x16, #0x303030303030303
	lsr	x2, x17, #2
	lsr	x3, x16, #2
	eor	w15, w15, #0x4
	and	x4, x17, #0x303030303030303
	lsr	x5, x1, #1
	add	w15, w15, #2
	and	x3, x3, #0x707070707070707
	and	x2, x2, #0x707070707070707
	lsl	x4, x4, x15
	mvn	w6, w15
	lsl	x1, x1, x15
	lsl	x2, x2, x15
	lsr	x7, x3, #1
	lsr	x5, x5, x6
	lsr	x17, x17, #5
	lsr	x16, x16, #5
	orr	x0, x4, x0
	orr	x18, x1, x18
	orr	x14, x2, x14
	lsl	x1, x3, x15
	lsr	x2, x7, x6
	orr	x0, x0, x5
	and	x16, x16, #0x707070707070707
	and	x17, x17, #0x707070707070707
	stp	x18, x0, [x9, #-32]
	lsr	x18, x16, #1
	lsl	x17, x17, x15
	lsl	x15, x16, x15
	orr	x14, x14, x2
	ldp	x16, x0, [x9]
	orr	x13, x1, x13
	stp	x13, x14, [x9, #-16]
	lsr	x14, x18, x6
	orr	x17, x17, x0
	orr	x13, x15, x16
	orr	x14, x17, x14
	stp	x13, x14, [x9], #16
	b.ne	.LBB58_21
	add	x8, sp, #448
	and	w9, w22, #0x7
	add	x8, x8, x11, lsl #4
	ldp	x12, x15, [x10]
	eor	w16, w9, #0x4
	ldp	x10, x11, [x8]
	subs	w13, w16, #4
	b.hi	.LBB58_60
	ldp	x14, x13, [x8, #16]
	mov	w17, #4
	sub	w16, w17, w16
	b	.LBB58_57
.LBB58_24:
	mov	w1, wzr
	mov	w2, #4416
	bl	memset
	add	x0, sp, #1, lsl #12
	mov	w1, wzr
	mov	w2, #4256
	add	x0, x0, #816
	bl	memset
	add	x0, sp, #1, lsl #12
	mov	w1, w22
	mov	w2, w21
	add	x0, x0, #776
	bl	"dm_layout::symbols::slots::order"
	ldr	x8, [sp, #4880]
	cbz	x8, .LBB58_27
	ldr	x9, [sp, #4872]
	mov	x10, x23
	mov	x11, x8
.LBB58_26:
	ldrh	w12, [x9], #2
	add	x14, sp, #1, lsl #12
	ldrb	w13, [x10], #1
	add	x14, x14, #816
	ldrb	w15, [x14, x12]
	subs	x11, x11, #1
	ldrb	w13, [x29, x13]
	orr	w13, w15, w13
	strb	w13, [x14, x12]
	b.ne	.LBB58_26
.LBB58_27:
	ldr	x9, [sp, #4896]
	cbz	x9, .LBB58_30
	ldr	x10, [sp, #4888]
	ldr	x11, [sp, #4904]
	add	x8, x23, x8
.LBB58_29:
	add	x14, sp, #1, lsl #12
	ldrh	w12, [x10], #2
	ldrb	w13, [x8], #1
	add	x14, x14, #816
	sub	x14, x14, x11
	subs	x9, x9, #1
	ldrb	w13, [x29, x13]
	ldrb	w15, [x14, x12]
	orr	w13, w15, w13
	strb	w13, [x14, x12]
	b.ne	.LBB58_29
.LBB58_30:
	tst	w22, #0xffff
	b.eq	.LBB58_58
	add	x9, sp, #448
	add	x11, sp, #1, lsl #12
	mov	x8, xzr
	add	x11, x11, #816
	add	x10, x9, #48
	and	x9, x22, #0xffff
	add	x11, x11, #16
	mov	x12, x10
.LBB58_32:
	ldp	x15, x16, [x11, #-16]
	add	w14, w8, w8, lsl #1
	ldp	x17, x18, [x11], #32
	and	w14, w14, #0x7
	ldp	x30, x13, [x10, #-48]
	lsr	x0, x16, #2
	lsr	x1, x15, #2
	and	x3, x15, #0x303030303030303
	lsr	x19, x17, #2
	eor	w6, w14, #0x4
	lsr	x15, x15, #5
	and	x2, x1, #0x707070707070707
	and	x1, x0, #0x707070707070707
	and	x4, x16, #0x303030303030303
	and	x0, x19, #0x707070707070707
	lsr	x19, x16, #5
	add	w14, w6, #2
	and	x7, x18, #0x303030303030303
	lsr	x20, x18, #2
	lsr	x23, x18, #5
	and	x16, x15, #0x707070707070707
	and	x15, x19, #0x707070707070707
	lsl	x19, x4, x14
	lsr	x18, x3, #1
	and	x5, x17, #0x303030303030303
	lsr	x24, x17, #5
	mvn	w17, w14
	lsr	x4, x4, #1
	mov	w25, #125
	lsr	x26, x18, x17
	lsl	x3, x3, x14
	sub	w18, w25, w6
	lsr	x6, x5, #1
	orr	x13, x19, x13
	lsr	x4, x4, x18
	ldp	x25, x19, [x10, #-32]
	lsl	x7, x7, x14
	and	x20, x20, #0x707070707070707
	orr	x3, x3, x30
	lsr	x6, x6, x17
	lsl	x5, x5, x14
	orr	x13, x13, x26
	add	x8, x8, #1
	orr	x4, x4, x25
	stp	x3, x13, [x10, #-48]
	orr	x3, x19, x7
	lsl	x7, x20, x14
	ldp	x19, x20, [x10, #-16]
	orr	x4, x4, x5
	orr	x13, x3, x6
	lsr	x3, x2, #1
	lsl	x2, x2, x14
	stp	x4, x13, [x10, #-32]
	lsl	x13, x1, x14
	and	x5, x23, #0x707070707070707
	lsr	x3, x3, x17
	lsr	x6, x0, #1
	lsr	x1, x1, #1
	orr	x2, x19, x2
	lsl	x0, x0, x14
	ldp	x23, x19, [x10]
	orr	x13, x20, x13
	lsr	x6, x6, x17
	lsr	x1, x1, x18
	orr	x13, x13, x3
	stp	x2, x13, [x10, #-16]
	and	x4, x24, #0x707070707070707
	lsl	x5, x5, x14
	orr	x0, x0, x23
	orr	x2, x7, x19
	cmp	x9, x8
	orr	x0, x0, x1
	orr	x13, x2, x6
	lsr	x1, x16, #1
	ldp	x2, x3, [x10, #16]
	stp	x0, x13, [x10]
	lsl	x13, x15, x14
	lsr	x0, x4, #1
	lsr	x1, x1, x17
	lsl	x16, x16, x14
	lsr	x15, x15, #1
	lsl	x14, x4, x14
	orr	x13, x3, x13
	ldr	x3, [x10, #40]
	lsr	x17, x0, x17
	ldr	x0, [x12, #32]!
	lsr	x15, x15, x18
	orr	x13, x13, x1
	orr	x16, x2, x16
	orr	x18, x5, x3
	orr	x14, x14, x0
	stp	x16, x13, [x10, #16]
	orr	x13, x18, x17
	orr	x14, x14, x15
	str	x13, [x10, #40]
	mov	x10, x12
	str	x14, [x12]
	b.ne	.LBB58_32
	add	x10, sp, #448
	add	x13, sp, #448
	and	w8, w22, #0x7
	add	x9, x10, x9, lsl #5
	ldp	x0, x18, [x13]
	eor	w1, w8, #0x4
	ldp	x12, x14, [x9]
	mov	x17, x9
	ldr	x11, [x9, #24]
	ldr	x10, [x17, #16]!
	subs	w13, w1, #4
	b.hi	.LBB58_80
	add	x13, x9, #32
	ldp	x2, x3, [sp, #464]
	ldp	x16, x15, [x13]
	add	x24, sp, #1, lsl #12
	ldr	w25, [sp, #284]
	add	x24, x24, #816
	b	.LBB58_59
.LBB58_35:
	mov	x12, xzr
	mov	x10, xzr
	mov	x11, xzr
	mov	x13, xzr
	mov	w9, wzr
	add	x8, sp, #448
.LBB58_36:
	lsl	x11, x11, x13
	orr	x10, x11, x10
	str	x10, [x8]
	ldr	x10, [sp, #456]
	lsl	x10, x10, x13
	orr	x10, x12, x10
	b	.LBB58_38
.LBB58_37:
	lsr	x11, x11, x12
	orr	x10, x10, x11
	ldr	x11, [x8, #8]
	str	x10, [x8]
	ldr	x10, [sp, #456]
	lsr	x10, x10, x12
	orr	x10, x11, x10
.LBB58_38:
	add	w11, w22, #2
	str	x10, [x8, #8]
	and	w10, w21, #0x7
	and	w12, w11, #0xffff
	cmp	w12, #5
	b.lo	.LBB58_42
	and	x11, x11, #0xffff
	eor	w16, w10, #0xfffffffb
	and	x12, x21, #0xffff
	sub	x14, x11, #4
	add	w13, w16, #5
	cmp	x14, #10
	b.hs	.LBB58_51
	mov	w15, #4
.LBB58_41:
	add	x14, sp, #448
	add	w17, w13, w15
	ldr	x16, [x14, x15, lsl #3]
	and	x17, x17, #0xffff
	add	x15, x15, #1
	ldr	x18, [x14, x17, lsl #3]
	cmp	x11, x15
	and	x16, x16, #0xf
	lsl	x16, x16, x12
	orr	x16, x16, x18
	str	x16, [x14, x17, lsl #3]
	b.ne	.LBB58_41
.LBB58_42:
	ldp	q0, q3, [sp, #464]
	cmp	w10, #4
	ldp	q1, q2, [x8, #16]
	ldrb	w8, [x24, #448]
	ldrb	w8, [x29, x8]
	orr	v0.16b, v0.16b, v1.16b
	orr	v1.16b, v3.16b, v2.16b
	stp	q0, q1, [sp, #464]
	b.ne	.LBB58_45
	cmp	w9, #4
	b.ne	.LBB58_45
	dup	v0.2s, w8
	adrp	x9, .LCPI58_5
	lsr	x11, x8, #3
	ldr	d1, [x9, :lo12:.LCPI58_5]
	lsr	w13, w8, #1
	sub	w10, w22, #1
	add	x12, sp, #448
	lsr	w9, w8, #5
	orr	w14, w21, #0x3
	add	x10, x12, w10, uxth #3
	and	w11, w11, #0x10
	and	w13, w13, #0x20
	ushl	v0.2s, v0.2s, v1.2s
	and	x12, x14, #0xffff
	orr	w11, w13, w11
	dup	v1.2d, x12
	ldr	x12, [x10, #16]
	bfi	w11, w9, #6, #1
	ubfx	x9, x8, #4, #1
	bic	v0.2s, #254
	orr	x11, x12, x11
	ubfx	x12, x8, #3, #1
	str	x11, [x10, #16]
	orr	w10, w21, #0x2
	add	x11, sp, #217
	lsl	x9, x9, x10
	lsl	x10, x12, x14
	and	x8, x8, #0x1
	ushll	v0.2d, v0.2s, #0
	lsl	x8, x8, x14
	orr	x9, x10, x9
	ldr	x10, [sp, #488]
	ushl	v0.2d, v0.2d, v1.2d
	ldur	q1, [x11, #255]
	ldr	x11, [sp, #464]
	orr	x8, x10, x8
	orr	x9, x11, x9
	str	x8, [sp, #488]
	orr	v0.16b, v1.16b, v0.16b
	str	x9, [sp, #464]
	add	x9, sp, #217
	stur	q0, [x9, #255]
	b	.LBB58_88
.LBB58_45:
	cmp	w10, #6
	b.ne	.LBB58_48
	cmp	w9, #6
	b.ne	.LBB58_48
	sub	w9, w22, #3
	add	x10, sp, #448
	sub	w11, w22, #2
	add	x9, x10, w9, uxth #3
	sub	w12, w22, #1
	lsr	x13, x8, #3
	add	x11, x10, w11, uxth #3
	add	x10, x10, w12, uxth #3
	lsr	x15, x8, #1
	ldr	x12, [x9, #16]
	and	x13, x13, #0x10
	lsr	x14, x8, #2
	ldr	x16, [x11, #16]
	orr	x12, x12, x13
	ldr	x13, [x10, #16]
	and	x14, x14, #0x10
	str	x12, [x9, #16]
	and	x9, x15, #0x10
	orr	x12, x16, x14
	orr	x9, x13, x9
	str	x12, [x11, #16]
	orr	w11, w21, #0x1
	str	x9, [x10, #16]
	ubfx	x10, x8, #3, #1
	ubfx	x9, x8, #4, #1
	ubfx	x12, x8, #2, #1
	ubfx	x13, x8, #1, #1
	add	w14, w21, #3
	lsl	x10, x10, x11
	add	w11, w21, #2
	lsl	x9, x9, x21
	lsl	x11, x12, x11
	lsl	x12, x13, x14
	and	x8, x8, #0x1
	orr	x9, x10, x9
	lsl	x8, x8, x14
	orr	x10, x11, x12
	orr	x9, x9, x10
	ldp	x13, x10, [sp, #464]
	orr	x9, x9, x13
	orr	x8, x10, x8
	stp	x9, x8, [sp, #464]
	b	.LBB58_88
.LBB58_48:
	cmp	w10, #4
	b.ne	.LBB58_85
	cmp	w9, #6
	b.ne	.LBB58_85
	dup	v0.2s, w8
	movi	d1, #0x000000ffffffff
	sub	w9, w22, #3
	add	x10, sp, #448
	lsr	x11, x8, #3
	sub	w12, w22, #2
	add	x9, x10, w9, uxth #3
	add	x12, x10, w12, uxth #3
	sub	w14, w22, #1
	and	x11, x11, #0x10
	add	x10, x10, w14, uxth #3
	lsr	w15, w8, #1
	ldr	x13, [x9, #16]
	ushl	v0.2s, v0.2s, v1.2s
	and	w15, w15, #0x10
	orr	x11, x13, x11
	orr	w13, w21, #0x3
	str	x11, [x9, #16]
	lsr	w9, w8, #2
	bic	v0.2s, #254
	ldr	x11, [x12, #16]
	and	x14, x13, #0xffff
	and	w9, w9, #0x10
	dup	v1.2d, x14
	ubfx	x14, x8, #3, #1
	orr	x9, x11, x9
	ldr	x11, [x10, #16]
	ushll	v0.2d, v0.2s, #0
	str	x9, [x12, #16]
	ubfx	w12, w8, #4, #1
	ubfx	w8, w8, #2, #1
	orr	x11, x11, x15
	orr	w9, w21, #0x2
	lsl	x14, x14, x13
	str	x11, [x10, #16]
	ushl	v0.2d, v0.2d, v1.2d
	lsl	x9, x12, x9
	ldp	x10, x11, [sp, #464]
	ldr	q1, [sp, #480]
	lsl	x8, x8, x13
	orr	v0.16b, v1.16b, v0.16b
	orr	x10, x10, x14
	orr	x8, x11, x8
	orr	x9, x10, x9
	stp	x9, x8, [sp, #464]
	str	q0, [sp, #480]
	b	.LBB58_88
.LBB58_51:
	mov	w15, #-10
	sub	x17, x11, #5
	sub	w15, w15, w16
	and	w15, w15, #0xffff
	cmp	w15, w17, uxth
	mov	w15, #4
	b.lo	.LBB58_41
	lsr	x17, x17, #16
	cbnz	x17, .LBB58_41
	lsl	w15, w16, #3
	add	x16, sp, #448
	add	x17, x16, x11, lsl #3
	add	w15, w15, #72
	and	x15, x15, #0xfff8
	add	x18, x16, x15
	add	x16, x16, #32
	cmp	x18, x17
	b.hs	.LBB58_226
	add	x15, x17, x15
	sub	x15, x15, #32
	cmp	x16, x15
	b.hs	.LBB58_226
	mov	w15, #4
	b	.LBB58_41
.LBB58_56:
	mov	x14, xzr
	mov	x13, xzr
	mov	x10, xzr
	mov	x11, xzr
	mov	x12, xzr
	mov	x15, xzr
	mov	w16, wzr
	mov	w9, wzr
	add	x8, sp, #448
.LBB58_57:
	lsr	x17, x12, #1
	sxtw	x18, w16
	mvn	w16, w16
	lsr	x17, x17, x16
	lsl	x15, x15, x18
	lsl	x12, x12, x18
	tst	x18, #0x40
	orr	x15, x15, x17
	csel	x15, x12, x15, ne
	csel	x12, xzr, x12, ne
	orr	x11, x15, x11
	orr	x10, x12, x10
	stp	x10, x11, [x8]
	ldp	x10, x11, [sp, #464]
	lsr	x12, x10, #1
	lsl	x11, x11, x18
	lsl	x10, x10, x18
	lsr	x12, x12, x16
	orr	x11, x11, x12
	csel	x12, x10, x11, ne
	csel	x10, xzr, x10, ne
	orr	x11, x14, x10
	orr	x10, x13, x12
	b	.LBB58_61
.LBB58_58:
	add	x9, sp, #448
	mov	x16, xzr
	mov	x15, xzr
	mov	x2, xzr
	mov	x3, xzr
	mov	x0, xzr
	mov	x18, xzr
	mov	x10, xzr
	mov	x11, xzr
	mov	x12, xzr
	mov	x14, xzr
	mov	w8, wzr
	add	x17, x9, #16
	add	x13, x9, #32
	mov	w1, #4
.LBB58_59:
	mov	w5, #4
	lsr	x6, x0, #1
	lsr	x7, x18, #1
	sub	w4, w1, #5
	sub	w5, w5, w1
	add	w1, w1, #123
	lsr	x6, x6, x4
	lsl	x20, x18, x5
	lsl	x23, x7, #1
	extr	x19, x18, x0, #1
	mvn	w18, w1
	lsr	x7, x7, x1
	orr	x6, x20, x6
	lsl	x20, x23, x18
	lsr	x23, x2, #1
	lsr	x19, x19, x1
	lsl	x3, x3, x5
	tst	x1, #0x40
	lsr	x23, x23, x4
	lsl	x0, x0, x5
	lsl	x2, x2, x5
	orr	x19, x20, x19
	and	x20, x5, #0xffff
	csel	x19, x7, x19, ne
	csel	x7, xzr, x7, ne
	tst	x20, #0x40
	orr	x3, x3, x23
	csel	x6, x0, x6, ne
	csel	x0, xzr, x0, ne
	csel	x20, xzr, x2, ne
	csel	x2, x2, x3, ne
	orr	x14, x6, x14
	orr	x12, x0, x12
	orr	x11, x2, x11
	orr	x10, x20, x10
	stp	x12, x14, [x9]
	orr	x11, x11, x7
	orr	x10, x10, x19
	stp	x10, x11, [x17]
	ldp	x10, x11, [sp, #480]
	ldp	x12, x14, [sp, #496]
	lsr	x3, x11, #1
	lsr	x17, x10, #1
	lsl	x0, x10, x5
	lsr	x2, x12, #1
	lsl	x6, x11, x5
	extr	x10, x11, x10, #1
	lsl	x11, x3, #1
	lsr	x17, x17, x4
	lsl	x14, x14, x5
	lsr	x2, x2, x4
	lsr	x10, x10, x1
	lsl	x12, x12, x5
	lsl	x11, x11, x18
	orr	x17, x6, x17
	csel	x4, xzr, x0, ne
	orr	x14, x14, x2
	csel	x17, x0, x17, ne
	lsr	x18, x3, x1
	orr	x10, x11, x10
	ldp	x0, x11, [x9, #48]
	csel	x14, x12, x14, ne
	csel	x12, xzr, x12, ne
	tst	x1, #0x40
	csel	x10, x18, x10, ne
	csel	x18, xzr, x18, ne
	orr	x16, x16, x4
	orr	x11, x18, x11
	orr	x12, x12, x0
	orr	x15, x15, x17
	orr	x11, x14, x11
	orr	x10, x12, x10
	stp	x16, x15, [x13]
	b	.LBB58_81
.LBB58_60:
	lsl	x14, x15, #1
	mvn	w16, w13
	lsr	x12, x12, x13
	lsr	x15, x15, x13
	and	x17, x13, #0xffff
	lsl	x14, x14, x16
	tst	x17, #0x40
	csel	x17, xzr, x15, ne
	orr	x12, x14, x12
	orr	x11, x11, x17
	csel	x12, x15, x12, ne
	orr	x10, x10, x12
	stp	x10, x11, [x8]
	ldp	x11, x10, [sp, #464]
	lsl	x12, x10, #1
	lsr	x11, x11, x13
	lsr	x10, x10, x13
	lsl	x12, x12, x16
	orr	x11, x12, x11
	ldp	x12, x13, [x8, #16]
	csel	x11, x10, x11, ne
	csel	x10, xzr, x10, ne
	orr	x10, x13, x10
	orr	x11, x12, x11
.LBB58_61:
	add	w12, w22, #2
	stp	x11, x10, [x8, #16]
	and	w10, w21, #0x7
	and	w13, w12, #0xffff
	cmp	w13, #5
	b.lo	.LBB58_64
	eor	w13, w10, #0xfffffffb
	and	x11, x12, #0xffff
	add	w12, w13, #5
	mov	w13, #4
.LBB58_63:
	lsl	x14, x13, #4
	add	x15, sp, #448
	add	w16, w12, w13
	and	x18, x21, #0xffff
	add	x13, x13, #1
	ldr	x14, [x15, x14]
	add	x15, x15, w16, uxth #4
	mvn	w16, w21
	tst	x18, #0x40
	and	x17, x14, #0xf
	ubfx	x14, x14, #1, #3
	lsl	x17, x17, x21
	lsr	x14, x14, x16
	ldp	x16, x0, [x15]
	csel	x18, xzr, x17, ne
	csel	x14, x17, x14, ne
	cmp	x11, x13
	orr	x16, x18, x16
	orr	x14, x14, x0
	stp	x16, x14, [x15]
	b.ne	.LBB58_63
.LBB58_64:
	ldp	x11, x12, [x8, #32]
	cmp	w10, #4
	ldp	x13, x14, [sp, #480]
	ldp	x15, x16, [x8, #48]
	orr	x11, x13, x11
	ldp	x13, x17, [sp, #496]
	orr	x12, x14, x12
	ldr	x14, [sp, #512]
	stp	x11, x12, [sp, #480]
	orr	x11, x17, x16
	orr	x12, x13, x15
	ldr	x16, [sp, #528]
	stp	x12, x11, [sp, #496]
	ldp	x13, x11, [x8, #64]
	ldr	x12, [sp, #520]
	ldr	x15, [sp, #536]
	orr	x13, x14, x13
	ldp	x8, x14, [x8, #80]
	orr	x11, x12, x11
	ldrb	w12, [x24, #1920]
	str	x13, [sp, #512]
	str	x11, [sp, #520]
	orr	x13, x16, x8
	ldrb	w8, [x29, x12]
	orr	x14, x15, x14
	str	x14, [sp, #536]
	str	x13, [sp, #528]
	b.ne	.LBB58_68
	cmp	w9, #4
	b.ne	.LBB58_68
	lsr	w11, w8, #3
	lsr	w12, w8, #1
	sub	w9, w22, #1
	add	x10, sp, #448
	ubfx	w14, w8, #4, #1
	orr	w13, w21, #0x2
	add	x9, x10, w9, uxth #4
	lsr	w10, w8, #5
	and	w11, w11, #0x10
	and	w12, w12, #0x20
	orr	w11, w12, w11
	ldr	x15, [x9, #32]
	lsl	x12, x14, x13
	ubfx	w14, w8, #3, #1
	bfi	w11, w10, #6, #1
	and	x10, x13, #0xffff
	orr	w13, w21, #0x3
	tst	x10, #0x40
	lsl	x10, x14, x13
	orr	x11, x15, x11
	and	x15, x13, #0xffff
	csel	x14, xzr, x12, ne
	csel	x12, x12, xzr, ne
	tst	x15, #0x40
	str	x11, [x9, #32]
	csel	x9, x10, xzr, ne
	csel	x10, xzr, x10, ne
	orr	x9, x9, x12
	ldp	x12, x11, [sp, #480]
	ubfx	w15, w8, #2, #1
	orr	x10, x10, x14
	orr	x9, x11, x9
	orr	x10, x12, x10
	lsl	x11, x15, x13
	stp	x10, x9, [sp, #480]
	ldp	x10, x14, [sp, #496]
	csel	x9, x11, xzr, ne
	csel	x11, xzr, x11, ne
	ubfx	w12, w8, #1, #1
	and	x8, x8, #0x1
	orr	x9, x14, x9
	orr	x10, x10, x11
	ldr	x11, [sp, #512]
	stp	x10, x9, [sp, #496]
	lsl	x9, x12, x13
	ldr	x10, [sp, #520]
	lsl	x8, x8, x13
	csel	x12, x9, xzr, ne
	csel	x9, xzr, x9, ne
	orr	x9, x11, x9
	orr	x10, x10, x12
.LBB58_67:
	ldr	x11, [sp, #536]
	ldr	x13, [sp, #528]
	csel	x12, x8, xzr, ne
	csel	x8, xzr, x8, ne
	str	x9, [sp, #512]
	orr	x9, x11, x12
	orr	x8, x13, x8
	str	x10, [sp, #520]
	str	x9, [sp, #536]
	str	x8, [sp, #528]
	b	.LBB58_72
.LBB58_68:
	cmp	w10, #6
	b.ne	.LBB58_129
	cmp	w9, #6
	b.ne	.LBB58_129
	sub	w9, w22, #3
	add	x10, sp, #448
	sub	w11, w22, #2
	sub	w12, w22, #1
	add	x9, x10, w9, uxth #4
	add	x11, x10, w11, uxth #4
	lsr	w13, w8, #3
	lsr	w14, w8, #2
	add	x10, x10, w12, uxth #4
	lsr	w15, w8, #1
	ldr	x12, [x9, #32]
	ldr	x17, [x11, #32]
	ubfx	w16, w8, #4, #1
	and	w13, w13, #0x10
	and	w14, w14, #0x10
	ldr	x18, [x10, #32]
	orr	x12, x12, x13
	and	w13, w15, #0x10
	orr	x14, x17, x14
	str	x12, [x9, #32]
	lsl	x12, x16, x21
	str	x14, [x11, #32]
	orr	x9, x18, x13
	ubfx	w11, w8, #3, #1
	and	x13, x21, #0xffff
	orr	w14, w21, #0x1
	str	x9, [x10, #32]
	tst	x13, #0x40
	and	x13, x14, #0xffff
	ubfx	w10, w8, #2, #1
	lsl	x11, x11, x14
	csel	x14, xzr, x12, ne
	csel	x12, x12, xzr, ne
	tst	x13, #0x40
	add	w13, w21, #2
	ubfx	w15, w8, #1, #1
	lsl	x10, x10, x13
	and	x13, x13, #0xffff
	add	w16, w21, #3
	csel	x9, xzr, x11, ne
	csel	x11, x11, xzr, ne
	tst	x13, #0x40
	lsl	x13, x15, x16
	and	x15, x16, #0xffff
	csel	x17, x10, xzr, ne
	csel	x10, xzr, x10, ne
	tst	x15, #0x40
	orr	x11, x11, x12
	ldp	x18, x15, [sp, #480]
	csel	x0, xzr, x13, ne
	csel	x13, x13, xzr, ne
	orr	x9, x9, x14
	orr	x10, x10, x0
	orr	x12, x17, x13
	and	x8, x8, #0x1
	orr	x9, x9, x10
	orr	x11, x11, x12
	lsl	x8, x8, x16
	orr	x9, x9, x18
	orr	x10, x11, x15
	ldp	x13, x11, [sp, #496]
	csel	x12, x8, xzr, ne
	stp	x9, x10, [sp, #480]
	csel	x8, xzr, x8, ne
	orr	x9, x11, x12
	orr	x8, x13, x8
	str	x9, [sp, #504]
.LBB58_71:
	str	x8, [sp, #496]
.LBB58_72:
	and	w8, w22, #0x3
	cmp	w8, #2
	b.ne	.LBB58_75
	and	w8, w21, #0x3
	cmp	w8, #2
	b.ne	.LBB58_75
	add	x10, sp, #448
	add	w8, w21, #2
	mov	w9, #1
	add	x10, x10, w22, uxth #4
	lsl	x11, x9, x8
	and	x8, x8, #0xffff
	add	w12, w21, #3
	tst	x8, #0x40
	ldp	x13, x14, [x10]
	lsl	x9, x9, x12
	and	x8, x12, #0xffff
	csel	x12, xzr, x11, ne
	csel	x11, x11, xzr, ne
	tst	x8, #0x40
	orr	x8, x13, x12
	ldp	x12, x13, [x10, #16]
	orr	x11, x14, x11
	csel	x14, xzr, x9, ne
	stp	x8, x11, [x10]
	csel	x8, x9, xzr, ne
	orr	x9, x12, x14
	orr	x8, x13, x8
	stp	x9, x8, [x10, #16]
.LBB58_75:
	mov	x14, #-1
	cmp	w30, #128
	add	w15, w28, #1
	lsr	x12, x14, #1
	b.hi	.LBB58_79
	cbz	w27, .LBB58_143
	ldr	x26, [sp, #368]
	mov	x2, xzr
	mov	x9, xzr
	mov	x29, xzr
	mov	x8, xzr
	mov	w13, wzr
	add	w16, w28, #2
.LBB58_78:
	mul	w17, w13, w16
	mov	w18, #1
	add	w13, w13, #1
	lsl	x0, x18, x17
	and	x1, x17, #0xffff
	add	w17, w17, w15
	tst	x1, #0x40
	lsl	x18, x18, x17
	and	x17, x17, #0xffff
	csel	x1, xzr, x0, ne
	csel	x0, x0, xzr, ne
	tst	x17, #0x40
	csel	x17, x18, xzr, ne
	csel	x18, xzr, x18, ne
	orr	x11, x8, x0
	orr	x10, x29, x1
	orr	x9, x0, x9
	cmp	w27, w13, uxth
	orr	x2, x1, x2
	orr	x8, x11, x17
	orr	x29, x10, x18
	b.hi	.LBB58_78
	b	.LBB58_144
.LBB58_79:
	mov	w13, #1
	and	x8, x15, #0xffff
	add	w3, w28, #2
	lsl	x9, x13, x15
	tst	x8, #0x40
	lsl	x10, x13, x3
	and	x11, x3, #0xffff
	add	w16, w15, w3
	lsl	w0, w3, #1
	lsl	x18, x13, x16
	csel	x8, xzr, x9, ne
	csel	x9, x9, xzr, ne
	tst	x11, #0x40
	and	x11, x16, #0xffff
	and	x1, x0, #0xfffe
	csel	x16, x10, xzr, ne
	csel	x17, xzr, x10, ne
	tst	x11, #0x40
	csel	x10, xzr, x18, ne
	csel	x11, x18, xzr, ne
	and	x18, x0, #0x3e
	lsl	x18, x13, x18
	add	w2, w0, w15
	tst	x1, #0x40
	lsl	x4, x13, x2
	and	x5, x2, #0xffff
	mov	w25, #144
	csel	x1, x18, xzr, ne
	csel	x2, xzr, x18, ne
	tst	x5, #0x40
	add	w5, w0, w3
	csel	x18, x4, xzr, ne
	csel	x0, xzr, x4, ne
	lsl	x4, x13, x5
	and	x6, x5, #0xffff
	add	w5, w5, w15
	lsl	w3, w3, #2
	tst	x6, #0x40
	lsl	x7, x13, x5
	and	x5, x5, #0xffff
	csel	x6, xzr, x4, ne
	csel	x4, x4, xzr, ne
	tst	x5, #0x40
	and	x20, x3, #0xfffc
	and	x5, x3, #0x3c
	csel	x19, xzr, x7, ne
	csel	x7, x7, xzr, ne
	tst	x20, #0x40
	add	w20, w28, w28, lsl #2
	lsl	x5, x13, x5
	add	w3, w3, w15
	lsl	x23, x13, x3
	and	x3, x3, #0xffff
	orr	x17, x17, x2
	add	w20, w20, #10
	csel	x22, x5, xzr, ne
	csel	x5, xzr, x5, ne
	tst	x3, #0x40
	lsl	x3, x13, x20
	and	x20, x20, #0xffff
	csel	x24, x23, xzr, ne
	csel	x23, xzr, x23, ne
	tst	x20, #0x40
	orr	x2, x6, x5
	orr	x16, x16, x1
	orr	x1, x4, x22
	orr	x9, x9, x11
	csel	x20, xzr, x3, ne
	csel	x3, x3, xzr, ne
	sub	w25, w25, w30
	mov	w29, #65535
	orr	x17, x17, x2
	orr	x16, x16, x1
	orr	x10, x8, x10
	orr	x9, x9, x18
	lsr	w29, w29, w25
	orr	x1, x16, x3
	orr	x10, x10, x0
	orr	x11, x17, x20
	orr	x16, x9, x7
	orr	x10, x10, x19
	orr	x17, x11, #0x1
	orr	x11, x16, x24
	sub	w16, w30, #129
	orr	x10, x10, x23
	mov	w18, w29
	lsl	w23, w13, w16
	ldr	x26, [sp, #368]
	orr	x8, x1, x11
	mov	x9, x1
	str	x17, [sp, #184]
	orr	x29, x17, x10
	and	w16, w18, #0x55555555
	mov	x17, #6148914691236517205
	mov	x0, #6148914691236517205
	mov	x10, #-1
	mov	x22, #-1
	str	w18, [sp, #288]
	str	x10, [sp, #136]
	b	.LBB58_145
.LBB58_80:
	ldp	x2, x3, [sp, #464]
	mov	w16, #131
	sub	w17, w1, #132
	sub	w16, w16, w1
	lsl	x6, x18, #1
	mvn	w15, w13
	lsr	x0, x0, x13
	lsr	x18, x18, x13
	extr	x4, x3, x2, #63
	ubfx	x5, x2, #0, #63
	lsl	x1, x2, #1
	and	x7, x13, #0xffff
	tst	x16, #0x40
	lsl	x6, x6, x15
	lsl	x4, x4, x16
	lsr	x5, x5, x17
	lsl	x1, x1, x16
	lsr	x2, x2, x13
	orr	x0, x6, x0
	ldr	w25, [sp, #284]
	orr	x4, x4, x5
	lsl	x5, x3, #1
	lsr	x3, x3, x13
	csel	x4, x1, x4, ne
	csel	x1, xzr, x1, ne
	tst	x7, #0x40
	lsl	x5, x5, x15
	csel	x7, xzr, x18, ne
	orr	x12, x1, x12
	orr	x14, x7, x14
	csel	x18, x18, x0, ne
	add	x24, sp, #1, lsl #12
	orr	x2, x5, x2
	orr	x14, x14, x4
	orr	x12, x18, x12
	csel	x0, x3, x2, ne
	stp	x12, x14, [x9]
	csel	x14, xzr, x3, ne
	orr	x10, x0, x10
	orr	x11, x14, x11
	ldr	x14, [sp, #480]
	stp	x10, x11, [x9, #16]
	add	x24, x24, #816
	ldp	x10, x11, [sp, #488]
	ldr	x12, [sp, #504]
	lsr	x14, x14, x13
	lsl	x2, x12, #1
	lsr	x0, x12, x13
	lsl	x18, x10, #1
	lsr	x1, x11, x13
	lsr	x10, x10, x13
	extr	x12, x12, x11, #63
	csel	x13, xzr, x0, ne
	lsl	x18, x18, x15
	lsl	x15, x2, x15
	csel	x2, xzr, x10, ne
	lsl	x12, x12, x16
	orr	x14, x18, x14
	ubfx	x18, x11, #0, #63
	lsl	x11, x11, #1
	csel	x10, x10, x14, ne
	orr	x14, x15, x1
	lsr	x15, x18, x17
	lsl	x11, x11, x16
	csel	x14, x0, x14, ne
	tst	x16, #0x40
	orr	x12, x12, x15
	ldp	x15, x17, [x9, #32]
	csel	x16, xzr, x11, ne
	csel	x11, x11, x12, ne
	orr	x12, x2, x17
	orr	x15, x16, x15
	orr	x11, x12, x11
	orr	x10, x10, x15
	ldp	x15, x12, [x9, #48]
	stp	x10, x11, [x9, #32]
	orr	x11, x12, x13
	orr	x10, x15, x14
.LBB58_81:
	stp	x10, x11, [x9, #48]
	add	w12, w22, #2
	and	w10, w12, #0xffff
	cmp	w10, #5
	and	w10, w21, #0x7
	b.lo	.LBB58_134
	and	w11, w21, #0xffff
	eor	w13, w10, #0x4
	mov	w14, #4
	cmp	w11, #128
	sub	w11, w14, w13
	and	x12, x12, #0xffff
	b.hs	.LBB58_132
	mov	w14, #127
	add	x13, sp, #448
	mov	w16, #4
	sub	w14, w14, w21
	add	x15, x13, #128
.LBB58_84:
	ldr	x17, [x15], #32
	add	w18, w11, w16
	mvn	w0, w21
	and	x18, x18, #0xffff
	and	x2, x21, #0xffff
	ubfx	x1, x17, #1, #3
	and	x17, x17, #0xf
	add	x18, x13, x18, lsl #5
	lsl	x17, x17, x21
	and	x3, x14, #0xffff
	tst	x2, #0x40
	lsr	x0, x1, x0
	lsr	x1, x1, x14
	add	x16, x16, #1
	csel	x0, x17, x0, ne
	csel	x17, xzr, x17, ne
	tst	x3, #0x40
	ldp	x2, x3, [x18]
	csel	x1, xzr, x1, ne
	cmp	x12, x16
	orr	x17, x17, x2
	ldr	x2, [x18, #16]
	orr	x0, x0, x3
	stp	x17, x0, [x18]
	orr	x17, x1, x2
	str	x17, [x18, #16]
	b.ne	.LBB58_84
	b	.LBB58_134
.LBB58_85:
	cbnz	w10, .LBB58_88
	cmp	w9, #6
	b.ne	.LBB58_88
	dup	v0.2s, w21
	adrp	x9, .LCPI58_1
	dup	v2.2s, w8
	ldr	d1, [x9, :lo12:.LCPI58_1]
	adrp	x9, .LCPI58_3
	adrp	x10, .LCPI58_2
	ldr	d3, [x10, :lo12:.LCPI58_2]
	movi	v5.2d, #0x0000000000ffff
	add	x10, sp, #448
	ubfx	x11, x8, #6, #1
	lsr	w8, w8, #3
	orr	v0.8b, v0.8b, v1.8b
	ldr	d1, [x9, :lo12:.LCPI58_3]
	adrp	x9, .LCPI58_4
	ldr	d4, [x9, :lo12:.LCPI58_4]
	ushl	v3.2s, v2.2s, v3.2s
	sub	w9, w22, #1
	ushl	v1.2s, v2.2s, v1.2s
	add	x9, x10, w9, uxth #3
	orr	w10, w21, #0x3
	ushll	v0.2d, v0.2s, #0
	ushl	v2.2s, v2.2s, v4.2s
	and	x13, x10, #0xffff
	bic	v3.2s, #126
	lsl	x10, x11, x10
	ldr	x12, [x9, #16]
	bic	v1.2s, #254
	and	w8, w8, #0x10
	and	v0.16b, v0.16b, v5.16b
	bic	v2.2s, #254
	dup	v5.2d, x13
	ushll	v3.2d, v3.2s, #0
	orr	x8, x10, x8
	ushll	v1.2d, v1.2s, #0
	orr	x8, x12, x8
	ext	v4.16b, v0.16b, v0.16b, #8
	ushll	v2.2d, v2.2s, #0
	str	x8, [x9, #16]
	ushl	v0.2d, v1.2d, v0.2d
	ushl	v2.2d, v2.2d, v5.2d
	ushl	v1.2d, v3.2d, v4.2d
	ldr	q3, [sp, #464]
	orr	v0.16b, v0.16b, v2.16b
	orr	v1.16b, v3.16b, v1.16b
	orr	v0.16b, v1.16b, v0.16b
	str	q0, [sp, #464]
.LBB58_88:
	and	w8, w22, #0x3
	cmp	w8, #2
	b.ne	.LBB58_91
	and	w8, w21, #0x3
	cmp	w8, #2
	b.ne	.LBB58_91
	dup	v0.2s, w21
	adrp	x8, .LCPI58_6
	add	x9, sp, #448
	ldr	d1, [x8, :lo12:.LCPI58_6]
	mov	w8, #1
	add	v0.2s, v0.2s, v1.2s
	movi	v1.2d, #0x0000000000ffff
	ushll	v0.2d, v0.2s, #0
	and	v0.16b, v0.16b, v1.16b
	dup	v1.2d, x8
	and	x8, x22, #0xffff
	lsl	x8, x8, #3
	ushl	v0.2d, v1.2d, v0.2d
	ldr	q1, [x9, x8]
	orr	v0.16b, v1.16b, v0.16b
	str	q0, [x9, x8]
.LBB58_91:
	mov	x12, #-1
	cmp	w30, #128
	add	w15, w28, #1
	lsr	x14, x12, #1
	b.hi	.LBB58_95
	cbz	w27, .LBB58_96
	ldr	x29, [sp, #368]
	mov	x2, xzr
	mov	x9, xzr
	mov	x23, xzr
	mov	x8, xzr
	mov	w13, wzr
	add	w16, w28, #2
.LBB58_94:
	mul	w17, w13, w16
	mov	w18, #1
	add	w13, w13, #1
	lsl	x0, x18, x17
	and	x1, x17, #0xffff
	add	w17, w17, w15
	tst	x1, #0x40
	lsl	x18, x18, x17
	and	x17, x17, #0xffff
	csel	x1, xzr, x0, ne
	csel	x0, x0, xzr, ne
	tst	x17, #0x40
	csel	x17, x18, xzr, ne
	csel	x18, xzr, x18, ne
	orr	x11, x8, x0
	orr	x10, x23, x1
	orr	x9, x0, x9
	cmp	w27, w13, uxth
	orr	x2, x1, x2
	orr	x8, x11, x17
	orr	x23, x10, x18
	b.hi	.LBB58_94
	b	.LBB58_97
.LBB58_95:
	mov	w13, #1
	and	x8, x15, #0xffff
	add	w3, w28, #2
	lsl	x9, x13, x15
	tst	x8, #0x40
	lsl	x10, x13, x3
	and	x11, x3, #0xffff
	add	w16, w15, w3
	lsl	w0, w3, #1
	lsl	x18, x13, x16
	csel	x8, xzr, x9, ne
	csel	x9, x9, xzr, ne
	tst	x11, #0x40
	and	x11, x16, #0xffff
	and	x1, x0, #0xfffe
	csel	x16, x10, xzr, ne
	csel	x17, xzr, x10, ne
	tst	x11, #0x40
	csel	x10, xzr, x18, ne
	csel	x11, x18, xzr, ne
	and	x18, x0, #0x3e
	lsl	x18, x13, x18
	add	w2, w0, w15
	tst	x1, #0x40
	lsl	x4, x13, x2
	and	x5, x2, #0xffff
	mov	w25, #144
	csel	x1, x18, xzr, ne
	csel	x2, xzr, x18, ne
	tst	x5, #0x40
	add	w5, w0, w3
	csel	x18, x4, xzr, ne
	csel	x0, xzr, x4, ne
	lsl	x4, x13, x5
	and	x6, x5, #0xffff
	add	w5, w5, w15
	lsl	w3, w3, #2
	tst	x6, #0x40
	lsl	x7, x13, x5
	and	x5, x5, #0xffff
	csel	x6, xzr, x4, ne
	csel	x4, x4, xzr, ne
	tst	x5, #0x40
	and	x20, x3, #0xfffc
	and	x5, x3, #0x3c
	csel	x19, xzr, x7, ne
	csel	x7, x7, xzr, ne
	tst	x20, #0x40
	add	w20, w28, w28, lsl #2
	lsl	x5, x13, x5
	add	w3, w3, w15
	lsl	x23, x13, x3
	and	x3, x3, #0xffff
	orr	x17, x17, x2
	add	w20, w20, #10
	csel	x22, x5, xzr, ne
	csel	x5, xzr, x5, ne
	tst	x3, #0x40
	lsl	x3, x13, x20
	and	x20, x20, #0xffff
	csel	x24, x23, xzr, ne
	csel	x23, xzr, x23, ne
	tst	x20, #0x40
	orr	x2, x6, x5
	orr	x16, x16, x1
	orr	x1, x4, x22
	orr	x9, x9, x11
	csel	x20, xzr, x3, ne
	csel	x3, x3, xzr, ne
	sub	w25, w25, w30
	mov	w29, #65535
	orr	x17, x17, x2
	orr	x16, x16, x1
	orr	x10, x8, x10
	orr	x9, x9, x18
	lsr	w29, w29, w25
	orr	x1, x16, x3
	orr	x10, x10, x0
	orr	x11, x17, x20
	orr	x16, x9, x7
	orr	x10, x10, x19
	orr	x17, x11, #0x1
	orr	x11, x16, x24
	sub	w16, w30, #129
	ldr	w25, [sp, #284]
	ldr	x20, [sp, #160]
	mov	w19, w29
	orr	x10, x10, x23
	lsl	w22, w13, w16
	and	w16, w29, #0x55555555
	ldr	x29, [sp, #368]
	orr	x8, x1, x11
	mov	x9, x1
	str	x17, [sp, #256]
	orr	x23, x17, x10
	mov	x17, #6148914691236517205
	mov	x0, #6148914691236517205
	mov	x24, #-1
	mov	x10, #-1
	str	x10, [sp, #248]
	b	.LBB58_98
.LBB58_96:
	ldr	x29, [sp, #368]
	mov	x23, xzr
	mov	x8, xzr
	mov	x2, xzr
	mov	x9, xzr
.LBB58_97:
	mvn	w13, w30
	lsl	x17, x12, x30
	tst	x30, #0x40
	lsr	x13, x14, x13
	mov	x18, #6148914691236517205
	mov	w22, wzr
	mov	w16, wzr
	mov	w19, wzr
	orr	x13, x17, x13
	csel	x13, x17, x13, ne
	csel	x17, xzr, x17, ne
	mvn	x10, x13
	mvn	x24, x17
	bic	x0, x18, x13
	stp	x10, x2, [sp, #248]
	bic	x17, x18, x17
.LBB58_98:
	movi	v0.2d, #0000000000000000
	sub	w18, w27, #1
	stp	x9, x8, [sp, #264]
	tst	w18, #0xffff
	str	q0, [sp, #4976]
	str	q0, [sp, #4960]
	str	q0, [sp, #4944]
	str	q0, [sp, #4928]
	str	q0, [sp, #4912]
	b.eq	.LBB58_101
	mov	x13, xzr
	add	w1, w28, #2
	and	x2, x18, #0xffff
.LBB58_100:
	madd	w3, w1, w13, w15
	mvn	w4, w3
	lsl	x5, x12, x3
	and	x3, x3, #0xffff
	lsr	x4, x14, x4
	tst	x3, #0x40
	add	x3, sp, #1, lsl #12
	add	x3, x3, #816
	csel	x6, xzr, x5, ne
	orr	x4, x5, x4
	add	x3, x3, x13, lsl #4
	add	x13, x13, #1
	csel	x4, x5, x4, ne
	mvn	x5, x6
	cmp	x2, x13
	mvn	x4, x4
	stp	x5, x4, [x3]
	b.ne	.LBB58_100
.LBB58_101:
	ldr	x26, [sp, #248]
	mov	x8, x28
	mov	x28, x20
	cbz	w28, .LBB58_225
	add	w10, w25, #1
	mov	x9, x8
	add	w6, w25, #2
	add	w8, w9, w9, lsl #2
	ands	w15, w10, #0xffff
	csel	x13, x26, x0, eq
	csel	x17, x24, x17, eq
	csel	w16, w19, w16, eq
	stp	x17, x13, [sp, #224]
	lsl	x13, x12, x8
	and	x14, x8, #0xffff
	tst	x14, #0x40
	lsl	x14, x12, x9
	str	w16, [sp, #216]
	csel	x13, xzr, x13, ne
	tst	x9, #0x40
	lsl	x16, x12, x21
	and	x17, x21, #0xffff
	csel	x12, xzr, x14, ne
	tst	x17, #0x40
	csel	x14, xzr, x16, ne
	cmp	w15, #1
	b.ls	.LBB58_111
	cmp	w30, #129
	and	x7, x10, #0xffff
	add	w21, w25, #1
	add	w10, w25, #2
	str	x7, [sp, #400]
	str	w10, [sp, #184]
	b.hs	.LBB58_113
	ldp	x27, x10, [sp, #224]
	tst	w18, #0xffff
	ldr	w30, [sp, #216]
	mvn	x12, x14
	mov	x14, xzr
	b.eq	.LBB58_229
	and	x15, x18, #0xffff
.LBB58_106:
	mul	w16, w6, w14
	ldr	x8, [sp, #440]
	mov	w17, #-1
	madd	w17, w25, w14, w17
	ldr	x11, [sp, #256]
	add	x13, x29, w16, uxth #4
	and	x18, x16, #0xffff
	stp	x27, x10, [x13]
	strh	w30, [x8, x18, lsl #1]
	ldp	x9, x8, [sp, #264]
	mov	w18, #1
.LBB58_107:
	add	w0, w17, w18
	add	x1, sp, #448
	mov	x13, xzr
	add	x0, x1, w0, uxth #3
	add	x1, sp, #1, lsl #12
	mov	x2, x15
	add	x1, x1, #816
	ldr	x0, [x0, #16]
	and	x0, x12, x0, lsr #4
	lsl	x0, x0, #1
.LBB58_108:
	ldp	x3, x4, [x1], #16
	and	x3, x3, x0
	and	x4, x4, x13
	subs	x0, x0, x3
	sbc	x13, x13, x4
	extr	x13, x13, x0, #62
	adds	x0, x3, x0, lsl #2
	adc	x13, x13, x4
	subs	x2, x2, #1
	b.ne	.LBB58_108
	tst	w18, #0x1
	add	w1, w16, w18
	sbfx	w4, w18, #0, #1
	csel	x2, x9, x8, eq
	add	x3, x29, w1, uxth #4
	csel	x5, x11, x23, eq
	orr	x13, x13, x2
	orr	x0, x0, x5
	add	x18, x18, #1
	stp	x0, x13, [x3]
	and	x13, x1, #0xffff
	ldr	x1, [sp, #440]
	cmp	x18, x7
	and	w0, w4, w22
	strh	w0, [x1, x13, lsl #1]
	b.ne	.LBB58_107
	add	w13, w16, w21
	add	x14, x14, #1
	ldr	x8, [sp, #440]
	add	x16, x29, w13, uxth #4
	and	x13, x13, #0xffff
	cmp	x14, x28
	stp	x24, x26, [x16]
	strh	w19, [x8, x13, lsl #1]
	b.ne	.LBB58_106
	b	.LBB58_225
.LBB58_111:
	ldp	x15, x14, [sp, #224]
	mov	x8, xzr
	ldr	w16, [sp, #216]
	mov	x13, x10
.LBB58_112:
	mul	w9, w6, w8
	add	x8, x8, #1
	cmp	x28, x8
	add	x10, x29, w9, uxth #4
	add	w11, w9, w13
	and	x9, x9, #0xffff
	add	x12, x29, w11, uxth #4
	stp	x15, x14, [x10]
	ldr	x10, [sp, #440]
	strh	w16, [x10, x9, lsl #1]
	and	x9, x11, #0xffff
	stp	x24, x26, [x12]
	strh	w19, [x10, x9, lsl #1]
	b.ne	.LBB58_112
	b	.LBB58_225
.LBB58_113:
	ldr	x9, [sp, #440]
	mvn	x30, x13
	mov	w13, #117
	mvn	x3, x12
	add	x12, x29, x7, lsl #4
	sub	w27, w13, w8
	add	w20, w8, #11
	add	x13, x9, x7, lsl #1
	str	x8, [sp, #240]
	and	x8, x8, #0xffff
	dup	v0.4h, w22
	ldr	x18, [sp, #4928]
	stp	x8, x30, [sp, #288]
	sub	x8, x12, #16
	sub	x11, x7, #2
	sub	x9, x7, #1
	str	x8, [sp, #144]
	sub	x8, x13, #2
	ldr	x14, [sp, #4912]
	ldr	x0, [sp, #4936]
	ldr	x2, [sp, #4944]
	ldr	x4, [sp, #4968]
	ldr	x17, [sp, #4952]
	ldr	x10, [sp, #4960]
	stp	x8, x11, [sp, #168]
	and	x8, x9, #0xfffffffffffffffc
	mov	x5, xzr
	sub	x11, x7, #1
	stp	x18, x8, [sp, #344]
	and	x8, x20, #0xffff
	stp	x14, x17, [sp, #416]
	stp	x11, x8, [sp, #112]
	str	w19, [sp, #136]
	str	w22, [sp, #128]
	stp	x21, x24, [sp, #200]
	str	x20, [sp, #192]
	str	x26, [sp, #248]
	stp	x0, x2, [sp, #328]
	stp	x23, x4, [sp, #312]
	str	x27, [sp, #104]
.LBB58_114:
	mul	w8, w6, w5
	and	w13, w21, #0xffff
	cmp	w13, #5
	mov	w15, #-1
	madd	w21, w25, w5, w15
	mov	w24, w19
	mov	x1, x28
	add	x12, x29, w8, uxth #4
	str	x8, [sp, #432]
	and	x13, x8, #0xffff
	ldp	x8, x9, [sp, #224]
	stp	x8, x9, [x12]
	ldr	x8, [sp, #440]
	ldr	w9, [sp, #216]
	strh	w9, [x8, x13, lsl #1]
	b.hs	.LBB58_117
	mov	w16, #1
.LBB58_116:
	ldp	x9, x26, [sp, #264]
	mov	x8, x3
	ldr	x3, [sp, #256]
	ldr	x28, [sp, #240]
	mov	x25, x10
	ldr	x19, [sp, #432]
	mov	w11, w21
	b	.LBB58_127
.LBB58_117:
	mov	w12, #-2
	ldr	x8, [sp, #176]
	mov	w16, #1
	msub	w12, w6, w5, w12
	and	w12, w12, #0xffff
	cmp	w12, w8, uxth
	b.lo	.LBB58_116
	mul	w12, w25, w5
	ldr	x19, [sp, #432]
	mov	x15, x3
	and	w12, w12, #0xffff
	add	w12, w12, w8, uxth
	lsr	w12, w12, #16
	tbnz	w12, #0, .LBB58_123
	ldp	x9, x26, [sp, #264]
	lsr	x12, x8, #16
	ldr	x3, [sp, #256]
	ldr	x28, [sp, #240]
	mov	x25, x10
	ldr	x20, [sp, #192]
	mov	x8, x15
	mov	w11, w21
	cbnz	x12, .LBB58_127
	add	w12, w19, #1
	ldr	x8, [sp, #168]
	and	x13, x12, #0xffff
	lsl	x12, x13, #4
	lsl	x13, x13, #1
	add	x16, x29, x12
	add	x17, x8, x13
	cmp	x16, x17
	b.hs	.LBB58_124
	ldr	x8, [sp, #144]
	add	x12, x8, x12
	ldr	x8, [sp, #440]
	add	x13, x8, x13
	cmp	x13, x12
	b.hs	.LBB58_124
	ldr	x17, [sp, #424]
	mov	w16, #1
.LBB58_123:
	ldp	x9, x26, [sp, #264]
	mov	x25, x10
	ldr	x3, [sp, #256]
	ldr	x28, [sp, #240]
	mov	x8, x15
	ldr	x20, [sp, #192]
	mov	w11, w21
	b	.LBB58_127
.LBB58_124:
	adrp	x12, .LCPI58_0
	ldp	x9, x26, [sp, #264]
	ldr	d1, [x12, :lo12:.LCPI58_0]
	ldr	x3, [sp, #256]
	mov	x13, xzr
	ldr	x17, [sp, #120]
	mov	x25, x10
	mov	x8, x15
	and	x10, x27, #0xffff
	mov	w11, w21
	str	x5, [sp, #152]
	str	x10, [sp, #304]
.LBB58_125:
	orr	w10, w13, #0x1
	str	x13, [sp, #408]
	add	x12, sp, #448
	add	w13, w11, w10
	umov	w15, v1.h[2]
	ldr	x16, [sp, #344]
	add	x12, x12, w13, uxth #3
	ldr	x22, [sp, #328]
	ldr	x27, [sp, #288]
	ldr	x24, [sp, #424]
	str	w10, [sp, #392]
	mvn	w10, w17
	ldp	q4, q2, [x12, #16]
	str	w15, [sp, #384]
	ushr	v3.2d, v2.2d, #4
	ushr	v2.2d, v4.2d, #4
	movi	v4.4h, #4
	mov	x0, v3.d[1]
	mov	x4, v2.d[1]
	fmov	x18, d3
	fmov	x12, d2
	movi	v3.4h, #1
	and	x2, x30, x18
	and	x13, x30, x0
	and	x1, x30, x12
	lsl	x2, x2, #1
	lsl	x13, x13, #1
	and	x19, x30, x4
	lsl	x1, x1, #1
	lsl	x19, x19, #1
	and	x29, x2, x14
	lsr	x0, x0, x27
	and	x20, x13, x14
	and	x30, x1, x14
	and	v3.8b, v1.8b, v3.8b
	subs	x13, x13, x20
	and	x15, x19, x14
	ngc	x14, xzr
	subs	x2, x2, x29
	ngc	x5, xzr
	subs	x19, x19, x15
	extr	x14, x14, x13, #62
	ngc	x6, xzr
	subs	x1, x1, x30
	extr	x5, x5, x2, #62
	ngc	x7, xzr
	adds	x13, x20, x13, lsl #2
	extr	x6, x6, x19, #62
	cinc	x14, x14, hs
	adds	x2, x29, x2, lsl #2
	extr	x7, x7, x1, #62
	cinc	x5, x5, hs
	adds	x15, x15, x19, lsl #2
	and	x20, x13, x16
	cinc	x6, x6, hs
	adds	x1, x30, x1, lsl #2
	and	x19, x14, x22
	and	x30, x2, x16
	cinc	x7, x7, hs
	subs	x13, x13, x20
	and	x29, x5, x22
	and	x28, x15, x16
	sbc	x14, x14, x19
	subs	x2, x2, x30
	and	x21, x6, x22
	and	x23, x1, x16
	sbc	x5, x5, x29
	subs	x15, x15, x28
	and	x22, x7, x22
	extr	x14, x14, x13, #62
	sbc	x6, x6, x21
	subs	x1, x1, x23
	extr	x5, x5, x2, #62
	sbc	x7, x7, x22
	adds	x20, x20, x13, lsl #2
	lsr	x13, x12, x27
	adc	x12, x14, x19
	adds	x14, x30, x2, lsl #2
	extr	x2, x6, x15, #62
	ldr	x16, [sp, #336]
	extr	x6, x7, x1, #62
	adc	x5, x5, x29
	adds	x15, x28, x15, lsl #2
	and	x7, x12, x24
	and	x19, x20, x16
	adc	x2, x2, x21
	adds	x1, x23, x1, lsl #2
	and	x23, x14, x16
	adc	x6, x6, x22
	subs	x20, x20, x19
	and	x21, x5, x24
	and	x28, x15, x16
	sbc	x12, x12, x7
	subs	x14, x14, x23
	and	x22, x2, x24
	and	x30, x1, x16
	sbc	x5, x5, x21
	subs	x15, x15, x28
	and	x29, x6, x24
	extr	x12, x12, x20, #62
	sbc	x2, x2, x22
	subs	x1, x1, x30
	extr	x5, x5, x14, #62
	sbc	x6, x6, x29
	adds	x19, x19, x20, lsl #2
	extr	x2, x2, x15, #62
	adc	x12, x12, x7
	adds	x14, x23, x14, lsl #2
	extr	x6, x6, x1, #62
	adc	x5, x5, x21
	adds	x15, x28, x15, lsl #2
	ldr	x16, [sp, #320]
	and	x20, x19, x25
	adc	x2, x2, x22
	adds	x1, x30, x1, lsl #2
	and	x22, x14, x25
	and	x28, x15, x25
	and	x7, x12, x16
	adc	x6, x6, x29
	subs	x19, x19, x20
	and	x21, x5, x16
	sbc	x12, x12, x7
	subs	x14, x14, x22
	and	x23, x2, x16
	and	x30, x1, x25
	sbc	x5, x5, x21
	subs	x15, x15, x28
	and	x29, x6, x16
	extr	x12, x12, x19, #62
	sbc	x2, x2, x23
	subs	x24, x1, x30
	extr	x1, x5, x14, #62
	sbc	x5, x6, x29
	adds	x19, x20, x19, lsl #2
	extr	x6, x2, x15, #62
	adc	x2, x12, x7
	adds	x20, x22, x14, lsl #2
	extr	x14, x5, x24, #62
	adc	x1, x1, x21
	adds	x12, x28, x15, lsl #2
	lsr	x5, x4, x27
	lsr	x15, x18, x27
	mov	x16, x8
	cmeq	v3.4h, v3.4h, #0
	str	x12, [sp, #376]
	adc	x12, x6, x23
	adds	x30, x30, x24, lsl #2
	adc	x4, x14, x29
	tst	x27, #0x40
	str	x12, [sp, #360]
	csel	x13, xzr, x13, ne
	csel	x5, xzr, x5, ne
	csel	x15, xzr, x15, ne
	and	x13, x13, x8
	tst	x27, #0x40
	and	x5, x5, x8
	lsr	x6, x13, #1
	csel	x0, xzr, x0, ne
	and	x15, x15, x8
	lsr	x21, x5, #1
	ldr	x27, [sp, #304]
	mvn	w12, w17
	and	x0, x0, x8
	lsl	x7, x13, x17
	lsr	x23, x15, #1
	lsr	x6, x6, x12
	mvn	w8, w17
	tst	x17, #0x40
	lsl	x22, x5, x17
	lsr	x28, x0, #1
	lsl	x29, x0, x17
	mov	w12, w11
	mov	x11, x25
	lsr	x25, x0, x27
	lsr	x0, x21, x8
	mvn	w8, w17
	lsl	x24, x15, x17
	csel	x21, xzr, x7, ne
	lsr	x23, x23, x8
	csel	x6, x7, x6, ne
	tst	x17, #0x40
	lsr	x28, x28, x10
	lsr	x15, x15, x27
	csel	x18, x22, x0, ne
	csel	x0, xzr, x22, ne
	tst	x17, #0x40
	lsr	x5, x5, x27
	csel	x7, x24, x23, ne
	csel	x22, xzr, x24, ne
	tst	x17, #0x40
	lsr	x13, x13, x27
	umov	w14, v1.h[0]
	csel	x23, x29, x28, ne
	csel	x24, xzr, x29, ne
	tst	x27, #0x40
	csel	x25, xzr, x25, ne
	csel	x15, xzr, x15, ne
	csel	x5, xzr, x5, ne
	tst	x27, #0x40
	umov	w28, v1.h[1]
	ldr	x27, [sp, #312]
	csel	x13, xzr, x13, ne
	tst	w14, #0x1
	ldr	w8, [sp, #384]
	fmov	s2, w13
	umov	w29, v1.h[3]
	csel	x13, x9, x26, eq
	csel	x14, x3, x27, eq
	orr	x13, x6, x13
	bic	v3.8b, v0.8b, v3.8b
	tst	w28, #0x1
	orr	x14, x21, x14
	orr	x13, x13, x4
	mov	v2.h[1], w5
	csel	x5, x9, x26, eq
	csel	x28, x3, x27, eq
	tst	w8, #0x1
	orr	x14, x14, x30
	add	v1.4h, v1.4h, v4.4h
	csel	x8, x9, x26, eq
	csel	x10, x3, x27, eq
	tst	w29, #0x1
	orr	x7, x7, x8
	ldr	x8, [sp, #432]
	ldr	x29, [sp, #368]
	mov	v2.h[2], w15
	ldr	w15, [sp, #392]
	orr	x10, x22, x10
	csel	x21, x3, x27, eq
	csel	x6, x9, x26, eq
	orr	x10, x10, x20
	add	w15, w8, w15
	orr	x21, x24, x21
	orr	x6, x23, x6
	add	x4, x29, w15, uxth #4
	orr	x1, x7, x1
	mov	x8, x16
	mov	v2.h[3], w25
	mov	x25, x11
	mov	w11, w12
	stp	x10, x1, [x4, #32]
	orr	x10, x21, x19
	ldr	x12, [sp, #376]
	stp	x14, x13, [x4]
	orr	x14, x0, x28
	orr	x0, x6, x2
	ldr	x16, [sp, #360]
	stp	x10, x0, [x4, #48]
	orr	x10, x18, x5
	orr	x12, x14, x12
	ldr	x30, [sp, #296]
	orr	x10, x10, x16
	orr	v2.8b, v3.8b, v2.8b
	stp	x12, x10, [x4, #16]
	ldp	x12, x14, [sp, #408]
	and	x10, x15, #0xffff
	lsl	x10, x10, #1
	add	x13, x12, #4
	str	x13, [sp, #408]
	ldr	x12, [sp, #352]
	cmp	x12, x13
	ldr	x12, [sp, #440]
	str	d2, [x12, x10]
	b.ne	.LBB58_125
	ldp	x27, x10, [sp, #104]
	ldr	w24, [sp, #136]
	ldp	x18, x12, [sp, #344]
	ldr	w22, [sp, #128]
	ldr	w6, [sp, #184]
	ldr	x7, [sp, #400]
	ldr	x28, [sp, #240]
	ldr	x20, [sp, #192]
	ldp	x5, x1, [sp, #152]
	cmp	x10, x12
	orr	x16, x12, #0x1
	ldp	x23, x4, [sp, #312]
	ldp	x0, x2, [sp, #328]
	ldp	x17, x19, [sp, #424]
	b.eq	.LBB58_128
.LBB58_127:
	add	w10, w11, w16
	add	x12, sp, #448
	mov	w21, w11
	add	x10, x12, w10, uxth #3
	mov	x11, x8
	ldr	x10, [x10, #16]
	lsr	x10, x10, #4
	and	x12, x10, x30
	lsr	x10, x10, x28
	lsl	x12, x12, #1
	and	x13, x12, x14
	subs	x12, x12, x13
	ngc	x14, xzr
	adds	x13, x13, x12, lsl #2
	extr	x12, x14, x12, #62
	and	x14, x13, x18
	cinc	x12, x12, hs
	subs	x13, x13, x14
	and	x15, x12, x0
	sbc	x12, x12, x15
	adds	x14, x14, x13, lsl #2
	extr	x12, x12, x13, #62
	and	x13, x14, x2
	adc	x12, x12, x15
	subs	x14, x14, x13
	and	x15, x12, x17
	and	x17, x28, #0xffff
	sbc	x12, x12, x15
	adds	x13, x13, x14, lsl #2
	extr	x12, x12, x14, #62
	and	x14, x13, x25
	adc	x12, x12, x15
	subs	x13, x13, x14
	and	x15, x12, x4
	sbc	x12, x12, x15
	extr	x12, x12, x13, #62
	adds	x13, x14, x13, lsl #2
	adc	x12, x12, x15
	tst	x17, #0x40
	mvn	w15, w20
	csel	x10, xzr, x10, ne
	and	x17, x20, #0xffff
	and	x10, x10, x8
	mov	x8, x25
	mov	x25, x18
	lsr	x14, x10, #1
	lsl	x18, x10, x20
	tst	x17, #0x40
	lsr	x10, x10, x27
	lsr	x14, x14, x15
	and	x15, x27, #0xffff
	csel	x17, xzr, x18, ne
	csel	x14, x18, x14, ne
	tst	x15, #0x40
	add	w15, w19, w16
	csel	x10, xzr, x10, ne
	tst	w16, #0x1
	mov	x19, x4
	csel	x18, x9, x26, eq
	mov	x4, x2
	mov	x2, x0
	csel	x0, x3, x23, eq
	orr	x14, x14, x18
	sbfx	w18, w16, #0, #1
	orr	x17, x17, x0
	add	x0, x29, w15, uxth #4
	orr	x12, x14, x12
	orr	x13, x17, x13
	ldp	x14, x17, [sp, #416]
	stp	x13, x12, [x0]
	mov	x0, x2
	mov	x2, x4
	mov	x4, x19
	ldp	x19, x12, [sp, #432]
	add	x16, x16, #1
	and	x15, x15, #0xffff
	and	w13, w18, w22
	mov	x18, x25
	mov	x25, x8
	mov	x8, x11
	mov	w11, w21
	cmp	x7, x16
	orr	w10, w13, w10
	strh	w10, [x12, x15, lsl #1]
	b.ne	.LBB58_127
.LBB58_128:
	ldp	x9, x21, [sp, #200]
	mov	x3, x8
	ldr	x26, [sp, #248]
	ldr	x8, [sp, #440]
	add	x5, x5, #1
	cmp	x5, x1
	mov	x28, x1
	add	w10, w19, w9
	mov	w19, w24
	add	x12, x29, w10, uxth #4
	and	x10, x10, #0xffff
	stp	x21, x26, [x12]
	mov	x21, x9
	strh	w24, [x8, x10, lsl #1]
	mov	x10, x25
	ldr	w25, [sp, #284]
	b.ne	.LBB58_114
	b	.LBB58_225
.LBB58_129:
	cmp	w10, #4
	b.ne	.LBB58_176
	cmp	w9, #6
	b.ne	.LBB58_176
	sub	w9, w22, #3
	add	x10, sp, #448
	sub	w11, w22, #2
	add	x9, x10, w9, uxth #4
	sub	w12, w22, #1
	lsr	w13, w8, #3
	add	x11, x10, w11, uxth #4
	lsr	w14, w8, #2
	add	x10, x10, w12, uxth #4
	ldr	x12, [x9, #32]
	lsr	w15, w8, #1
	and	w13, w13, #0x10
	ldr	x16, [x11, #32]
	and	w14, w14, #0x10
	orr	x12, x12, x13
	ldr	x13, [x10, #32]
	and	w15, w15, #0x10
	orr	x14, x16, x14
	str	x12, [x9, #32]
	orr	w12, w21, #0x3
	orr	x9, x13, x15
	str	x14, [x11, #32]
	ubfx	w11, w8, #4, #1
	str	x9, [x10, #32]
	orr	w9, w21, #0x2
	ubfx	w10, w8, #3, #1
	lsl	x11, x11, x9
	and	x9, x9, #0xffff
	ubfx	w15, w8, #2, #1
	tst	x9, #0x40
	lsl	x9, x10, x12
	and	x10, x12, #0xffff
	csel	x13, xzr, x11, ne
	csel	x11, x11, xzr, ne
	tst	x10, #0x40
	csel	x14, x9, xzr, ne
	csel	x9, xzr, x9, ne
	orr	x11, x14, x11
	ldp	x14, x10, [sp, #480]
	orr	x9, x9, x13
	orr	x10, x10, x11
	orr	x9, x14, x9
	lsl	x11, x15, x12
	stp	x9, x10, [sp, #480]
	ldp	x10, x13, [sp, #496]
	csel	x9, x11, xzr, ne
	csel	x11, xzr, x11, ne
	orr	x9, x13, x9
	ubfx	w13, w8, #1, #1
	orr	x10, x10, x11
	stp	x10, x9, [sp, #496]
	ldr	x10, [sp, #520]
	ldr	x11, [sp, #512]
	lsl	x9, x13, x12
	and	x8, x8, #0x1
	lsl	x8, x8, x12
	csel	x13, x9, xzr, ne
	csel	x9, xzr, x9, ne
	orr	x9, x11, x9
	orr	x10, x10, x13
	b	.LBB58_67
.LBB58_132:
	add	x13, sp, #448
	sub	w14, w21, #128
	mov	w16, #4
	add	x15, x13, #128
.LBB58_133:
	add	w17, w11, w16
	ldr	x18, [x15], #32
	and	x17, x17, #0xffff
	mvn	w1, w14
	and	x2, x14, #0xffff
	and	x0, x18, #0xf
	add	x17, x13, x17, lsl #5
	ubfx	x18, x18, #1, #3
	lsl	x0, x0, x14
	tst	x2, #0x40
	add	x16, x16, #1
	lsr	x18, x18, x1
	ldp	x1, x3, [x17, #16]
	csel	x2, xzr, x0, ne
	csel	x18, x0, x18, ne
	cmp	x12, x16
	orr	x0, x2, x1
	orr	x18, x18, x3
	stp	x0, x18, [x17, #16]
	b.ne	.LBB58_133
.LBB58_134:
	ldp	x14, x11, [x9, #64]
	cmp	w10, #4
	ldr	x12, [sp, #520]
	ldr	x13, [sp, #512]
	ldr	x15, [sp, #536]
	ldr	x16, [sp, #528]
	orr	x11, x11, x12
	ldp	x17, x12, [x9, #80]
	orr	x13, x14, x13
	str	x11, [sp, #520]
	str	x13, [sp, #512]
	ldr	x13, [sp, #552]
	orr	x11, x12, x15
	orr	x12, x17, x16
	ldr	x15, [sp, #560]
	str	x11, [sp, #536]
	ldr	x17, [sp, #624]
	str	x12, [sp, #528]
	ldr	x12, [sp, #544]
	ldp	x11, x14, [x9, #96]
	orr	x11, x11, x12
	orr	x12, x14, x13
	ldr	x14, [sp, #568]
	ldp	x16, x13, [x9, #112]
	str	x12, [sp, #552]
	str	x11, [sp, #544]
	orr	x12, x13, x14
	orr	x11, x16, x15
	ldr	x13, [sp, #584]
	str	x12, [sp, #568]
	ldr	x12, [sp, #576]
	ldr	x15, [sp, #592]
	str	x11, [sp, #560]
	ldp	x11, x14, [x9, #128]
	orr	x11, x11, x12
	orr	x12, x14, x13
	ldr	x14, [sp, #600]
	ldp	x16, x13, [x9, #144]
	str	x12, [sp, #584]
	str	x11, [sp, #576]
	orr	x12, x13, x14
	orr	x11, x16, x15
	add	x15, sp, #1, lsl #12
	str	x12, [sp, #600]
	ldr	x12, [sp, #616]
	add	x15, x15, #816
	str	x11, [sp, #592]
	ldr	x16, [sp, #632]
	ldr	x13, [sp, #608]
	ldp	x14, x11, [x9, #160]
	ldp	x9, x18, [x9, #176]
	orr	x11, x11, x12
	mov	w12, #4224
	orr	x13, x14, x13
	str	x11, [sp, #616]
	ldrb	w11, [x15, x12]
	orr	x12, x9, x17
	orr	x9, x18, x16
	str	x13, [sp, #608]
	str	x9, [sp, #632]
	ldrb	w1, [x29, x11]
	add	x9, sp, #2, lsl #12
	add	x9, x9, #976
	str	x12, [sp, #624]
	b.ne	.LBB58_137
	cmp	w8, #4
	b.ne	.LBB58_137
	sub	w8, w22, #1
	sub	w11, w21, #2
	mov	w10, #1
	strh	w8, [x24, #4256]
	strh	w8, [x24, #4260]
	strh	w8, [x24, #4264]
	mov	w8, #2
	stur	w8, [x9, #10]
	strh	w11, [x9, #14]
	sub	w11, w21, #1
	strh	w8, [x9, #24]
	mov	w8, #3
	strh	wzr, [x24, #4258]
	strh	w10, [x24, #4262]
	strh	wzr, [x9, #16]
	strh	w11, [x9, #18]
	strh	w10, [x9, #20]
	strh	w11, [x9, #22]
	strh	w11, [x9, #26]
	strh	w8, [x9, #28]
	strh	w11, [x9, #30]
	b	.LBB58_183
.LBB58_137:
	cmp	w10, #6
	b.ne	.LBB58_140
	cmp	w8, #6
	b.ne	.LBB58_140
	movi	v0.2d, #0000000000000000
	sub	w11, w22, #1
	sub	w8, w22, #3
	sub	w10, w22, #2
	strh	w8, [x9]
	sub	w8, w21, #4
	strh	w10, [x9, #4]
	sub	w10, w21, #3
	strh	w8, [x9, #14]
	sub	w8, w21, #2
	mov	v0.h[1], w11
	strh	w10, [x9, #18]
	mov	w10, #1
	strh	w8, [x9, #22]
	sub	w8, w21, #1
	strh	wzr, [x9, #2]
	strh	wzr, [x9, #16]
	strh	wzr, [x9, #20]
	stur	d0, [x9, #6]
	strh	wzr, [x9, #24]
	strh	w8, [x9, #26]
	strh	w10, [x9, #28]
	strh	w8, [x9, #30]
	b	.LBB58_183
.LBB58_140:
	cmp	w10, #4
	b.ne	.LBB58_179
	cmp	w8, #6
	b.ne	.LBB58_179
	movi	v0.2d, #0000000000000000
	sub	w8, w22, #3
	sub	w11, w22, #1
	strh	w8, [x9]
	sub	w8, w21, #2
	sub	w10, w22, #2
	strh	w8, [x9, #14]
	mov	w8, #1
	strh	w8, [x9, #20]
	mov	w8, #2
	mov	v0.h[1], w11
	strh	w10, [x9, #4]
	sub	w10, w21, #1
	strh	w8, [x9, #24]
	mov	w8, #3
	strh	wzr, [x9, #2]
	strh	wzr, [x9, #16]
	strh	w10, [x9, #18]
	strh	w10, [x9, #22]
	stur	d0, [x9, #6]
	strh	w10, [x9, #26]
	strh	w8, [x9, #28]
	b	.LBB58_182
.LBB58_143:
	ldr	x26, [sp, #368]
	mov	x29, xzr
	mov	x8, xzr
	mov	x2, xzr
	mov	x9, xzr
.LBB58_144:
	mvn	w13, w30
	lsl	x17, x14, x30
	tst	x30, #0x40
	lsr	x13, x12, x13
	mov	x18, #6148914691236517205
	str	x2, [sp, #184]
	mov	w23, wzr
	mov	w16, wzr
	str	wzr, [sp, #288]
	orr	x13, x17, x13
	csel	x13, x17, x13, ne
	csel	x17, xzr, x17, ne
	mvn	x10, x17
	mvn	x22, x13
	bic	x0, x18, x13
	str	x10, [sp, #136]
	bic	x17, x18, x17
.LBB58_145:
	movi	v0.2d, #0000000000000000
	sub	w18, w27, #1
	stp	x8, x9, [sp, #312]
	tst	w18, #0xffff
	str	q0, [sp, #4976]
	str	q0, [sp, #4960]
	str	q0, [sp, #4944]
	str	q0, [sp, #4928]
	str	q0, [sp, #4912]
	b.eq	.LBB58_148
	mov	x13, xzr
	add	w1, w28, #2
	and	x2, x18, #0xffff
.LBB58_147:
	madd	w3, w1, w13, w15
	mvn	w4, w3
	lsl	x5, x14, x3
	and	x3, x3, #0xffff
	lsr	x4, x12, x4
	tst	x3, #0x40
	add	x3, sp, #1, lsl #12
	add	x3, x3, #816
	csel	x6, xzr, x5, ne
	orr	x4, x5, x4
	add	x3, x3, x13, lsl #4
	add	x13, x13, #1
	csel	x4, x5, x4, ne
	mvn	x5, x6
	cmp	x2, x13
	mvn	x4, x4
	stp	x5, x4, [x3]
	b.ne	.LBB58_147
.LBB58_148:
	ldr	x24, [sp, #136]
	ldr	w9, [sp, #284]
	ldr	x8, [sp, #160]
	cbz	w8, .LBB58_225
	add	w3, w28, w28, lsl #2
	add	w10, w9, #1
	ldr	w8, [sp, #288]
	ands	w4, w10, #0xffff
	mvn	w13, w28
	lsl	x1, x14, x28
	mvn	w15, w3
	lsl	x2, x14, x21
	lsl	x5, x14, x3
	lsr	x14, x12, x15
	csel	x15, x22, x0, eq
	lsr	x13, x12, x13
	str	x15, [sp, #168]
	and	x15, x3, #0xffff
	csel	w11, w8, w16, eq
	mvn	w16, w21
	csel	x6, x24, x17, eq
	tst	x15, #0x40
	orr	x14, x5, x14
	lsr	x16, x12, x16
	orr	x13, x1, x13
	csel	x14, x5, x14, ne
	csel	x15, xzr, x5, ne
	tst	x28, #0x40
	and	x17, x21, #0xffff
	csel	x12, x1, x13, ne
	csel	x13, xzr, x1, ne
	orr	x16, x2, x16
	tst	x17, #0x40
	mov	x20, x22
	csel	x16, x2, x16, ne
	csel	x17, xzr, x2, ne
	cmp	w4, #1
	add	w25, w9, #2
	b.ls	.LBB58_158
	cmp	w30, #129
	and	x10, x10, #0xffff
	add	w5, w9, #1
	str	x29, [sp, #328]
	stp	x6, x20, [sp, #120]
	str	w11, [sp, #152]
	str	x10, [sp, #176]
	b.hs	.LBB58_160
	tst	w18, #0xffff
	mvn	x12, x17
	mvn	x14, x16
	mov	x15, xzr
	b.eq	.LBB58_243
	ldr	x7, [sp, #160]
	ldr	w8, [sp, #284]
	and	x16, x18, #0xffff
.LBB58_153:
	mul	w13, w25, w15
	mov	w17, #-1
	mov	x20, x5
	madd	w17, w8, w15, w17
	ldp	x8, x10, [sp, #168]
	mov	x21, x6
	add	x18, x26, w13, uxth #4
	and	x0, x13, #0xffff
	stp	x6, x8, [x18]
	ldr	x8, [sp, #440]
	mov	w18, #1
	strh	w11, [x8, x0, lsl #1]
	ldp	x8, x9, [sp, #312]
	ldr	x11, [sp, #184]
.LBB58_154:
	add	w0, w17, w18
	add	x1, sp, #448
	mov	x3, x16
	add	x0, x1, w0, uxth #4
	ldp	x1, x0, [x0, #32]
	extr	x1, x0, x1, #4
	and	x0, x14, x0, lsr #4
	and	x2, x1, x12
	extr	x1, x0, x2, #63
	lsl	x0, x2, #1
	add	x2, sp, #1, lsl #12
	add	x2, x2, #816
.LBB58_155:
	ldp	x4, x5, [x2], #16
	and	x4, x4, x0
	and	x5, x5, x1
	subs	x0, x0, x4
	sbc	x1, x1, x5
	extr	x1, x1, x0, #62
	adds	x0, x4, x0, lsl #2
	adc	x1, x1, x5
	subs	x3, x3, #1
	b.ne	.LBB58_155
	tst	w18, #0x1
	add	w2, w13, w18
	sbfx	w5, w18, #0, #1
	csel	x3, x9, x8, eq
	add	x4, x26, w2, uxth #4
	csel	x6, x11, x29, eq
	orr	x1, x1, x3
	orr	x0, x0, x6
	add	x18, x18, #1
	stp	x0, x1, [x4]
	and	x1, x2, #0xffff
	ldr	x2, [sp, #440]
	cmp	x18, x10
	and	w0, w5, w23
	strh	w0, [x2, x1, lsl #1]
	b.ne	.LBB58_154
	mov	x5, x20
	ldr	x8, [sp, #440]
	ldr	w9, [sp, #288]
	add	w13, w13, w5
	add	x15, x15, #1
	ldr	w11, [sp, #152]
	add	x17, x26, w13, uxth #4
	and	x13, x13, #0xffff
	cmp	x15, x7
	mov	x6, x21
	stp	x24, x22, [x17]
	strh	w9, [x8, x13, lsl #1]
	ldr	w8, [sp, #284]
	add	w25, w8, #2
	b.ne	.LBB58_153
	b	.LBB58_225
.LBB58_158:
	mov	x16, x20
	ldp	x20, x14, [sp, #160]
	mov	x8, xzr
	mov	x13, x10
	mov	w15, w11
.LBB58_159:
	mul	w9, w25, w8
	add	x8, x8, #1
	cmp	x20, x8
	add	x10, x26, w9, uxth #4
	add	w11, w9, w13
	and	x9, x9, #0xffff
	add	x12, x26, w11, uxth #4
	stp	x6, x14, [x10]
	ldr	x10, [sp, #440]
	strh	w15, [x10, x9, lsl #1]
	and	x9, x11, #0xffff
	ldr	w11, [sp, #288]
	stp	x24, x16, [x12]
	strh	w11, [x10, x9, lsl #1]
	b.ne	.LBB58_159
	b	.LBB58_225
.LBB58_160:
	ldr	x9, [sp, #440]
	mvn	x27, x14
	mov	w14, #117
	mvn	x4, x13
	add	x13, x26, x10, lsl #4
	sub	w30, w14, w3
	add	x14, x9, x10, lsl #1
	dup	v0.4h, w23
	mvn	x17, x15
	sub	x13, x13, #16
	sub	x15, x10, #2
	ldr	x18, [sp, #4920]
	str	x13, [sp, #72]
	sub	x13, x14, #2
	ldr	x0, [sp, #4912]
	ldr	x1, [sp, #4936]
	ldr	x2, [sp, #4928]
	ldr	x7, [sp, #4952]
	ldr	x28, [sp, #4944]
	ldr	x22, [sp, #4968]
	ldr	x21, [sp, #4960]
	sub	x10, x10, #1
	stp	x13, x15, [sp, #80]
	ldr	w13, [sp, #284]
	mov	x16, xzr
	mvn	x8, x12
	add	w12, w3, #11
	str	x10, [sp, #56]
	and	x10, x10, #0xfffffffffffffffc
	mov	w9, w25
	stp	x1, x10, [sp, #264]
	stp	x22, x27, [sp, #424]
	str	w23, [sp, #64]
	str	x5, [sp, #112]
	str	w25, [sp, #104]
	str	x24, [sp, #136]
	str	x8, [sp, #96]
	str	x21, [sp, #416]
	stp	x7, x2, [sp, #248]
	stp	x17, x28, [sp, #232]
	stp	x18, x0, [sp, #216]
.LBB58_161:
	mul	w25, w9, w16
	mov	w10, w13
	mov	w15, #-1
	mov	w24, w9
	ldr	x9, [sp, #168]
	madd	w15, w13, w16, w15
	and	w14, w5, #0xffff
	str	x16, [sp, #144]
	add	x13, x26, w25, uxth #4
	cmp	w14, #5
	and	x14, x25, #0xffff
	stp	x6, x9, [x13]
	ldr	x9, [sp, #440]
	strh	w11, [x9, x14, lsl #1]
	b.hs	.LBB58_163
	mov	x11, x4
	ldp	x4, x19, [sp, #176]
	ldp	x21, x6, [sp, #312]
	mov	w14, #1
	mov	x5, x25
	mov	w24, w15
	b	.LBB58_174
.LBB58_163:
	mov	w13, #-2
	str	w15, [sp, #304]
	ldr	x15, [sp, #88]
	msub	w13, w24, w16, w13
	mov	w14, #1
	and	w13, w13, #0xffff
	cmp	w13, w15, uxth
	b.lo	.LBB58_173
	mov	w9, w10
	str	x25, [sp, #296]
	mov	x25, x4
	mul	w13, w9, w16
	and	w13, w13, #0xffff
	add	w13, w13, w15, uxth
	lsr	w13, w13, #16
	tbnz	w13, #0, .LBB58_169
	ldp	x4, x19, [sp, #176]
	lsr	x13, x15, #16
	ldp	x21, x6, [sp, #312]
	mov	x11, x25
	ldr	x8, [sp, #96]
	ldr	x5, [sp, #296]
	ldr	w24, [sp, #304]
	cbnz	x13, .LBB58_174
	add	w13, w5, #1
	ldr	x8, [sp, #80]
	and	x14, x13, #0xffff
	lsl	x13, x14, #4
	lsl	x14, x14, #1
	add	x15, x26, x13
	add	x16, x8, x14
	cmp	x15, x16
	b.hs	.LBB58_170
	ldr	x8, [sp, #72]
	add	x13, x8, x13
	ldr	x8, [sp, #440]
	add	x14, x8, x14
	cmp	x14, x13
	b.hs	.LBB58_170
	mov	w14, #1
.LBB58_169:
	ldp	x4, x19, [sp, #176]
	mov	x11, x25
	ldp	x21, x6, [sp, #312]
	ldr	x8, [sp, #96]
	ldr	x5, [sp, #296]
	ldr	w24, [sp, #304]
	b	.LBB58_174
.LBB58_170:
	adrp	x13, .LCPI58_0
	and	x10, x30, #0xffff
	ldr	x19, [sp, #184]
	ldr	d1, [x13, :lo12:.LCPI58_0]
	ldr	x8, [sp, #96]
	str	x10, [sp, #208]
	and	x10, x12, #0xffff
	ldr	w24, [sp, #304]
	mov	x9, xzr
	mov	x11, x25
	str	x10, [sp, #200]
	and	x10, x3, #0xffff
	str	x10, [sp, #192]
.LBB58_171:
	orr	w10, w9, #0x1
	add	x13, sp, #448
	movi	v3.4h, #1
	add	w14, w24, w10
	orr	w10, w9, #0x1
	movi	v4.4h, #4
	add	x13, x13, w14, uxth #4
	str	w10, [sp, #408]
	ldp	x14, x16, [x13, #32]
	and	v3.8b, v1.8b, v3.8b
	ldp	x15, x17, [x13, #80]
	ldp	x18, x0, [x13, #48]
	ldp	x2, x4, [x13, #64]
	mov	x13, x9
	extr	x10, x17, x15, #4
	extr	x15, x16, x14, #4
	ldr	x9, [sp, #232]
	lsr	x1, x17, #4
	lsr	x17, x16, #4
	lsr	x16, x0, #4
	extr	x20, x4, x2, #4
	extr	x2, x0, x18, #4
	str	x10, [sp, #336]
	lsr	x14, x4, #4
	and	x18, x15, x9
	and	x5, x10, x9
	and	x0, x2, x9
	and	x4, x20, x9
	and	x22, x1, x27
	ldp	x10, x9, [sp, #216]
	lsl	x23, x5, #1
	and	x21, x14, x27
	extr	x5, x22, x5, #63
	lsl	x22, x4, #1
	and	x6, x17, x27
	and	x7, x16, x27
	lsl	x24, x0, #1
	extr	x4, x21, x4, #63
	and	x26, x23, x9
	extr	x6, x6, x18, #63
	lsl	x18, x18, #1
	extr	x0, x7, x0, #63
	and	x27, x22, x9
	and	x28, x5, x10
	subs	x23, x23, x26
	and	x25, x24, x9
	and	x29, x4, x10
	sbc	x5, x5, x28
	subs	x22, x22, x27
	and	x7, x6, x10
	and	x21, x18, x9
	and	x10, x0, x10
	sbc	x4, x4, x29
	subs	x24, x24, x25
	extr	x5, x5, x23, #62
	sbc	x0, x0, x10
	subs	x18, x18, x21
	extr	x4, x4, x22, #62
	sbc	x6, x6, x7
	adds	x23, x26, x23, lsl #2
	extr	x0, x0, x24, #62
	adc	x5, x5, x28
	adds	x22, x27, x22, lsl #2
	extr	x6, x6, x18, #62
	adc	x4, x4, x29
	ldp	x29, x9, [sp, #256]
	adds	x24, x25, x24, lsl #2
	cmeq	v3.4h, v3.4h, #0
	adc	x10, x0, x10
	adds	x18, x21, x18, lsl #2
	and	x25, x23, x29
	adc	x0, x6, x7
	and	x26, x5, x9
	and	x27, x22, x29
	subs	x23, x23, x25
	and	x21, x4, x9
	and	x28, x24, x29
	sbc	x5, x5, x26
	subs	x22, x22, x27
	and	x6, x10, x9
	and	x29, x18, x29
	sbc	x4, x4, x21
	subs	x24, x24, x28
	and	x7, x0, x9
	extr	x5, x5, x23, #62
	sbc	x10, x10, x6
	subs	x18, x18, x29
	extr	x4, x4, x22, #62
	sbc	x0, x0, x7
	adds	x23, x25, x23, lsl #2
	extr	x10, x10, x24, #62
	adc	x5, x5, x26
	adds	x22, x27, x22, lsl #2
	extr	x0, x0, x18, #62
	adc	x4, x4, x21
	adds	x21, x28, x24, lsl #2
	bic	v3.8b, v0.8b, v3.8b
	adc	x10, x10, x6
	adds	x18, x29, x18, lsl #2
	ldp	x29, x9, [sp, #240]
	adc	x0, x0, x7
	and	x25, x23, x29
	and	x26, x5, x9
	and	x27, x22, x29
	subs	x23, x23, x25
	and	x24, x4, x9
	and	x28, x21, x29
	sbc	x5, x5, x26
	subs	x22, x22, x27
	and	x7, x10, x9
	and	x29, x18, x29
	sbc	x4, x4, x24
	subs	x21, x21, x28
	and	x6, x0, x9
	sbc	x10, x10, x7
	subs	x18, x18, x29
	extr	x5, x5, x23, #62
	sbc	x0, x0, x6
	extr	x4, x4, x22, #62
	adds	x23, x25, x23, lsl #2
	extr	x10, x10, x21, #62
	extr	x0, x0, x18, #62
	adc	x5, x5, x26
	adds	x22, x27, x22, lsl #2
	ldp	x9, x26, [sp, #416]
	adc	x4, x4, x24
	adds	x21, x28, x21, lsl #2
	adc	x10, x10, x7
	adds	x18, x29, x18, lsl #2
	adc	x0, x0, x6
	and	x25, x23, x9
	and	x7, x10, x26
	and	x6, x0, x26
	and	x24, x4, x26
	and	x26, x5, x26
	and	x27, x22, x9
	subs	x23, x23, x25
	and	x28, x21, x9
	sbc	x5, x5, x26
	subs	x22, x22, x27
	and	x29, x18, x9
	sbc	x4, x4, x24
	subs	x21, x21, x28
	mov	x9, x13
	sbc	x10, x10, x7
	subs	x18, x18, x29
	extr	x5, x5, x23, #62
	sbc	x0, x0, x6
	adds	x13, x25, x23, lsl #2
	extr	x4, x4, x22, #62
	extr	x10, x10, x21, #62
	extr	x0, x0, x18, #62
	str	x13, [sp, #384]
	adc	x13, x5, x26
	ldp	x5, x25, [sp, #192]
	str	x13, [sp, #392]
	adds	x13, x27, x22, lsl #2
	ldr	x26, [sp, #368]
	lsr	x15, x15, x5
	lsr	x2, x2, x5
	add	x9, x9, #4
	str	x13, [sp, #376]
	adc	x13, x4, x24
	adds	x28, x28, x21, lsl #2
	lsl	x4, x17, #1
	adc	x10, x10, x7
	str	x13, [sp, #360]
	str	x10, [sp, #400]
	mvn	w10, w5
	adds	x13, x29, x18, lsl #2
	lsl	x10, x4, x10
	mvn	w18, w5
	lsr	x17, x17, x5
	str	x13, [sp, #344]
	adc	x13, x0, x6
	lsl	x0, x14, #1
	orr	x10, x10, x15
	lsl	x15, x16, #1
	str	x13, [sp, #352]
	lsr	x13, x20, x5
	tst	x5, #0x40
	lsr	x16, x16, x5
	lsl	x15, x15, x18
	mvn	w18, w5
	csel	x10, x17, x10, ne
	lsl	x18, x0, x18
	mvn	w0, w5
	csel	x17, xzr, x17, ne
	orr	x15, x15, x2
	ldr	x2, [sp, #336]
	tst	x5, #0x40
	orr	x13, x18, x13
	lsl	x18, x1, #1
	lsr	x14, x14, x5
	lsr	x2, x2, x5
	csel	x15, x16, x15, ne
	csel	x16, xzr, x16, ne
	lsl	x18, x18, x0
	tst	x5, #0x40
	lsr	x0, x1, x5
	csel	x13, x14, x13, ne
	csel	x14, xzr, x14, ne
	tst	x5, #0x40
	orr	x18, x18, x2
	and	x2, x10, x11
	and	x5, x13, x11
	lsr	x10, x2, #1
	and	x13, x15, x11
	and	x20, x17, x8
	mvn	w15, w25
	csel	x18, x0, x18, ne
	csel	x0, xzr, x0, ne
	lsr	x10, x10, x15
	lsl	x15, x20, x25
	and	x4, x14, x8
	lsr	x14, x13, #1
	and	x6, x18, x11
	and	x18, x0, x8
	and	x0, x16, x8
	lsl	x16, x2, x25
	orr	x10, x15, x10
	mvn	w15, w25
	tst	x25, #0x40
	lsl	x7, x0, x25
	lsr	x14, x14, x15
	csel	x17, x16, x10, ne
	csel	x15, xzr, x16, ne
	lsr	x10, x5, #1
	lsl	x16, x13, x25
	tst	x25, #0x40
	orr	x14, x7, x14
	mvn	w7, w25
	ldr	x24, [sp, #208]
	lsr	x10, x10, x7
	lsl	x7, x4, x25
	csel	x14, x16, x14, ne
	str	x14, [sp, #336]
	lsl	x14, x5, x25
	csel	x16, xzr, x16, ne
	orr	x10, x7, x10
	tst	x25, #0x40
	lsr	x7, x6, #1
	lsl	x21, x18, #1
	csel	x1, x14, x10, ne
	mvn	w10, w25
	mvn	w22, w24
	lsr	x10, x7, x10
	lsl	x7, x18, x25
	lsl	x21, x21, x22
	lsr	x22, x6, x24
	lsl	x23, x6, x25
	lsl	x6, x4, #1
	csel	x14, xzr, x14, ne
	orr	x10, x7, x10
	tst	x25, #0x40
	orr	x7, x21, x22
	mvn	w21, w24
	lsl	x21, x6, x21
	csel	x6, x23, x10, ne
	lsr	x10, x18, x24
	csel	x18, xzr, x23, ne
	tst	x24, #0x40
	lsr	x22, x5, x24
	csel	x5, x10, x7, ne
	lsr	x10, x4, x24
	tst	x24, #0x40
	orr	x4, x21, x22
	lsl	x7, x0, #1
	lsl	x21, x20, #1
	csel	x10, x10, x4, ne
	mvn	w4, w24
	lsr	x13, x13, x24
	lsl	x4, x7, x4
	mvn	w7, w24
	lsr	x0, x0, x24
	lsl	x7, x21, x7
	lsr	x2, x2, x24
	tst	x24, #0x40
	orr	x13, x4, x13
	lsr	x4, x20, x24
	ldr	x29, [sp, #328]
	csel	x13, x0, x13, ne
	orr	x0, x7, x2
	tst	x24, #0x40
	csel	x0, x4, x0, ne
	ldp	x21, x22, [sp, #312]
	fmov	s2, w0
	umov	w0, v1.h[1]
	umov	w2, v1.h[2]
	umov	w4, v1.h[3]
	ldr	x27, [sp, #432]
	ldr	w24, [sp, #304]
	mov	v2.h[1], w13
	umov	w13, v1.h[0]
	add	v1.4h, v1.4h, v4.4h
	tst	w13, #0x1
	mov	v2.h[2], w10
	csel	x10, x19, x29, eq
	csel	x13, x22, x21, eq
	tst	w0, #0x1
	csel	x0, x19, x29, eq
	csel	x7, x22, x21, eq
	tst	w2, #0x1
	csel	x2, x19, x29, eq
	csel	x20, x22, x21, eq
	tst	w4, #0x1
	csel	x4, x22, x21, eq
	mov	v2.h[3], w5
	orr	x5, x1, x20
	orr	x4, x6, x4
	ldr	x1, [sp, #296]
	ldr	w6, [sp, #408]
	orr	x13, x17, x13
	csel	x17, x19, x29, eq
	orr	x14, x14, x2
	add	w6, w1, w6
	ldr	x1, [sp, #376]
	orr	x10, x15, x10
	ldr	x15, [sp, #360]
	orr	x17, x18, x17
	add	x18, x26, w6, uxth #4
	orr	x14, x14, x1
	ldr	x1, [sp, #344]
	orr	v2.8b, v3.8b, v2.8b
	orr	x15, x5, x15
	orr	x10, x10, x1
	stp	x14, x15, [x18, #32]
	ldr	x14, [sp, #352]
	str	x10, [x18]
	orr	x10, x16, x0
	ldp	x16, x15, [sp, #392]
	orr	x13, x13, x14
	ldr	x14, [sp, #384]
	orr	x10, x10, x28
	str	x13, [x18, #8]
	ldr	x13, [sp, #272]
	orr	x14, x17, x14
	orr	x16, x4, x16
	stp	x14, x16, [x18, #48]
	ldr	x14, [sp, #336]
	cmp	x13, x9
	ldr	x13, [sp, #440]
	orr	x14, x14, x7
	orr	x14, x14, x15
	stp	x10, x14, [x18, #16]
	and	x10, x6, #0xffff
	lsl	x10, x10, #1
	str	d2, [x13, x10]
	b.ne	.LBB58_171
	ldp	x1, x9, [sp, #264]
	ldr	x10, [sp, #56]
	ldp	x0, x17, [sp, #224]
	ldr	w23, [sp, #64]
	ldr	x4, [sp, #176]
	ldr	x18, [sp, #216]
	ldr	x28, [sp, #240]
	cmp	x10, x9
	orr	x14, x9, #0x1
	ldr	x6, [sp, #320]
	ldr	x5, [sp, #296]
	ldp	x7, x2, [sp, #248]
	b.ne	.LBB58_174
	b	.LBB58_175
.LBB58_173:
	mov	x11, x4
	ldp	x4, x19, [sp, #176]
	ldp	x21, x6, [sp, #312]
	mov	x5, x25
	ldr	w24, [sp, #304]
.LBB58_174:
	add	w10, w24, w14
	add	x13, sp, #448
	mov	x25, x18
	add	x10, x13, w10, uxth #4
	ldr	x9, [sp, #416]
	mov	x20, x28
	mov	x22, x7
	ldp	x13, x10, [x10, #32]
	extr	x13, x10, x13, #4
	lsr	x10, x10, #4
	and	x15, x13, x17
	and	x16, x10, x27
	mov	x27, x17
	lsl	x17, x15, #1
	extr	x15, x16, x15, #63
	and	x16, x17, x0
	and	x18, x15, x18
	subs	x17, x17, x16
	sbc	x15, x15, x18
	adds	x16, x16, x17, lsl #2
	extr	x15, x15, x17, #62
	and	x17, x16, x2
	adc	x15, x15, x18
	subs	x16, x16, x17
	and	x18, x15, x1
	sbc	x15, x15, x18
	adds	x17, x17, x16, lsl #2
	extr	x15, x15, x16, #62
	and	x16, x17, x28
	mov	x28, x0
	ldr	x0, [sp, #424]
	adc	x15, x15, x18
	subs	x17, x17, x16
	and	x18, x15, x7
	mov	x7, x1
	mvn	w1, w3
	sbc	x15, x15, x18
	adds	x16, x16, x17, lsl #2
	extr	x15, x15, x17, #62
	and	x17, x16, x9
	mov	x9, x26
	mov	x26, x19
	adc	x15, x15, x18
	lsl	x18, x10, #1
	subs	x16, x16, x17
	and	x0, x15, x0
	mov	x19, x5
	mov	x5, x6
	sbc	x15, x15, x0
	mov	x6, x21
	mov	x21, x2
	lsr	x2, x13, x3
	lsl	x18, x18, x1
	extr	x15, x15, x16, #62
	and	x1, x3, #0xffff
	lsr	x10, x10, x3
	adds	x13, x17, x16, lsl #2
	orr	x16, x18, x2
	adc	x15, x15, x0
	tst	x1, #0x40
	csel	x16, x10, x16, ne
	csel	x10, xzr, x10, ne
	mvn	w18, w12
	and	x16, x16, x11
	and	x10, x10, x8
	mvn	w1, w30
	lsr	x17, x16, #1
	lsl	x0, x10, #1
	lsl	x2, x10, x12
	lsr	x10, x10, x30
	lsr	x17, x17, x18
	and	x18, x12, #0xffff
	lsl	x0, x0, x1
	lsr	x1, x16, x30
	lsl	x16, x16, x12
	tst	x18, #0x40
	orr	x17, x2, x17
	and	x18, x30, #0xffff
	mov	x2, x21
	orr	x0, x0, x1
	csel	x1, xzr, x16, ne
	csel	x16, x16, x17, ne
	tst	x18, #0x40
	mov	x21, x6
	mov	x6, x5
	mov	x5, x19
	mov	x19, x26
	csel	x10, x10, x0, ne
	tst	w14, #0x1
	add	w17, w5, w14
	mov	x26, x9
	csel	x18, x19, x29, eq
	add	x0, x9, w17, uxth #4
	orr	x18, x1, x18
	csel	x1, x6, x21, eq
	orr	x16, x16, x1
	orr	x13, x18, x13
	mov	x1, x7
	orr	x15, x16, x15
	mov	x7, x22
	mov	x18, x25
	stp	x13, x15, [x0]
	sbfx	w13, w14, #0, #1
	and	x15, x17, #0xffff
	mov	x17, x27
	add	x14, x14, #1
	mov	x0, x28
	and	w13, w13, w23
	mov	x28, x20
	cmp	x4, x14
	orr	w10, w13, w10
	ldp	x27, x13, [sp, #432]
	strh	w10, [x13, x15, lsl #1]
	b.ne	.LBB58_174
.LBB58_175:
	ldp	x9, x6, [sp, #112]
	mov	x4, x11
	ldp	x24, x16, [sp, #136]
	ldr	x19, [sp, #128]
	ldr	x22, [sp, #160]
	ldr	w11, [sp, #152]
	add	w10, w5, w9
	mov	x5, x9
	ldr	w9, [sp, #288]
	add	x13, x26, w10, uxth #4
	and	x10, x10, #0xffff
	add	x16, x16, #1
	cmp	x16, x22
	stp	x24, x19, [x13]
	ldr	x13, [sp, #440]
	strh	w9, [x13, x10, lsl #1]
	ldr	w13, [sp, #284]
	ldr	w9, [sp, #104]
	b.ne	.LBB58_161
	b	.LBB58_225
.LBB58_176:
	cbnz	w10, .LBB58_72
	cmp	w9, #6
	b.ne	.LBB58_72
	sub	w10, w22, #1
	add	x12, sp, #448
	ubfx	w13, w8, #5, #1
	ubfx	w15, w8, #2, #1
	add	x10, x12, w10, uxth #4
	orr	w14, w21, #0x1
	ubfx	w0, w8, #4, #1
	ubfx	w1, w8, #1, #1
	ubfx	w12, w8, #6, #1
	and	x16, x14, #0xffff
	lsl	x13, x13, x14
	lsl	x14, x15, x14
	orr	w15, w21, #0x2
	lsr	w11, w8, #3
	orr	w9, w21, #0x3
	ldp	x18, x17, [x10, #32]
	tst	x16, #0x40
	lsl	x0, x0, x15
	and	x2, x15, #0xffff
	lsl	x15, x1, x15
	lsl	x12, x12, x9
	csel	x16, xzr, x13, ne
	csel	x13, x13, xzr, ne
	csel	x3, x14, xzr, ne
	csel	x14, xzr, x14, ne
	tst	x2, #0x40
	and	x1, x9, #0xffff
	csel	x2, x0, xzr, ne
	csel	x0, xzr, x0, ne
	csel	x4, xzr, x15, ne
	csel	x15, x15, xzr, ne
	tst	x1, #0x40
	and	w11, w11, #0x10
	csel	x1, x12, xzr, ne
	csel	x12, xzr, x12, ne
	orr	x11, x18, x11
	ubfx	w5, w8, #3, #1
	orr	x17, x17, x1
	orr	x11, x11, x12
	and	x8, x8, #0x1
	stp	x11, x17, [x10, #32]
	lsl	x12, x5, x9
	lsl	x8, x8, x9
	ldp	x17, x11, [sp, #480]
	csel	x10, xzr, x12, ne
	csel	x12, x12, xzr, ne
	orr	x10, x0, x10
	orr	x12, x2, x12
	orr	x11, x11, x13
	orr	x13, x17, x16
	orr	x11, x11, x12
	orr	x9, x13, x10
	stp	x9, x11, [sp, #480]
	ldp	x9, x10, [sp, #496]
	csel	x11, x8, xzr, ne
	csel	x8, xzr, x8, ne
	orr	x11, x3, x11
	orr	x8, x14, x8
	orr	x10, x10, x15
	orr	x9, x9, x4
	orr	x10, x10, x11
	orr	x8, x9, x8
	str	x10, [sp, #504]
	b	.LBB58_71
.LBB58_179:
	cbnz	w10, .LBB58_184
	cmp	w8, #6
	b.ne	.LBB58_184
	sub	w8, w22, #1
	sub	w10, w21, #1
	sub	w11, w21, #2
	strh	w8, [x9]
	mov	w12, #1
	strh	w8, [x9, #4]
	sub	w8, w21, #3
	strh	wzr, [x9, #2]
	strh	w10, [x9, #6]
	strh	wzr, [x9, #8]
	strh	w8, [x9, #10]
	strh	wzr, [x9, #12]
	strh	w11, [x9, #14]
	strh	wzr, [x9, #16]
	strh	w10, [x9, #18]
	strh	w12, [x9, #20]
	strh	w8, [x9, #22]
	strh	w12, [x9, #24]
	strh	w11, [x9, #26]
	strh	w12, [x9, #28]
.LBB58_182:
	strh	w10, [x9, #30]
.LBB58_183:
	add	x2, sp, #2, lsl #12
	add	x0, sp, #448
	add	x2, x2, #976
	bl	"dm_layout::symbols::laying::put_cells::<#3c42656d14ec8a1f>"
.LBB58_184:
	and	w8, w22, #0x3
	ldr	x30, [sp, #424]
	cmp	w8, #2
	b.ne	.LBB58_187
	and	w8, w21, #0x3
	cmp	w8, #2
	b.ne	.LBB58_187
	and	x8, x22, #0xffff
	add	x9, sp, #448
	add	w10, w21, #2
	mov	w11, #1
	add	x8, x9, x8, lsl #5
	and	x12, x10, #0xffff
	lsl	x9, x11, x10
	sub	w13, w21, #126
	tst	x12, #0x40
	lsl	x12, x11, x13
	and	x13, x13, #0xffff
	and	w10, w10, #0xffff
	csel	x14, x9, xzr, ne
	csel	x9, xzr, x9, ne
	tst	x13, #0x40
	csel	x13, x12, xzr, ne
	csel	x12, xzr, x12, ne
	cmp	w10, #128
	ldp	x15, x10, [x8]
	csel	x14, x14, xzr, lo
	csel	x9, x9, xzr, lo
	csel	x12, xzr, x12, lo
	csel	x13, xzr, x13, lo
	orr	x10, x10, x14
	ldp	x14, x16, [x8, #16]
	orr	x9, x15, x9
	stp	x9, x10, [x8]
	sub	w9, w21, #125
	orr	x12, x14, x12
	add	w14, w21, #3
	orr	x13, x16, x13
	lsl	x15, x11, x14
	and	x16, x14, #0xffff
	lsl	x11, x11, x9
	tst	x16, #0x40
	and	x9, x9, #0xffff
	stp	x12, x13, [x8, #16]
	csel	x10, x15, xzr, ne
	csel	x15, xzr, x15, ne
	tst	x9, #0x40
	and	w9, w14, #0xffff
	csel	x12, x11, xzr, ne
	csel	x11, xzr, x11, ne
	cmp	w9, #128
	ldp	x9, x14, [x8, #32]
	csel	x13, x15, xzr, lo
	csel	x10, x10, xzr, lo
	csel	x11, xzr, x11, lo
	orr	x9, x9, x13
	orr	x10, x14, x10
	ldp	x13, x14, [x8, #48]
	stp	x9, x10, [x8, #32]
	csel	x9, xzr, x12, lo
	orr	x11, x13, x11
	orr	x9, x14, x9
	stp	x11, x9, [x8, #48]
.LBB58_187:
	mov	x12, #-1
	add	w26, w28, w28, lsl #2
	cmp	w30, #128
	lsr	x14, x12, #1
	add	w15, w28, #1
	str	x28, [sp, #416]
	b.hi	.LBB58_191
	cbz	w27, .LBB58_192
	add	w16, w28, #2
	ldr	x28, [sp, #368]
	ldr	x9, [sp, #160]
	mov	x29, xzr
	mov	x23, xzr
	mov	x11, xzr
	mov	w13, wzr
	str	xzr, [sp, #432]
.LBB58_190:
	mul	w17, w13, w16
	mov	w18, #1
	ldr	x8, [sp, #432]
	add	w13, w13, #1
	lsl	x0, x18, x17
	and	x1, x17, #0xffff
	add	w17, w17, w15
	tst	x1, #0x40
	lsl	x18, x18, x17
	and	x17, x17, #0xffff
	csel	x1, xzr, x0, ne
	csel	x0, x0, xzr, ne
	tst	x17, #0x40
	csel	x17, x18, xzr, ne
	csel	x18, xzr, x18, ne
	orr	x11, x11, x0
	orr	x10, x8, x1
	orr	x23, x0, x23
	cmp	w27, w13, uxth
	orr	x29, x1, x29
	orr	x11, x11, x17
	orr	x8, x10, x18
	str	x8, [sp, #432]
	b.hi	.LBB58_190
	b	.LBB58_193
.LBB58_191:
	mov	w13, #1
	add	w0, w28, #2
	and	x8, x15, #0xffff
	lsl	x9, x13, x15
	tst	x8, #0x40
	lsl	x10, x13, x0
	and	x11, x0, #0xffff
	add	w16, w15, w0
	lsl	w18, w0, #1
	csel	x8, xzr, x9, ne
	csel	x9, x9, xzr, ne
	tst	x11, #0x40
	and	x1, x16, #0xffff
	lsl	x11, x13, x16
	csel	x16, x10, xzr, ne
	csel	x17, xzr, x10, ne
	tst	x1, #0x40
	and	x1, x18, #0x3e
	lsl	x2, x13, x1
	and	x1, x18, #0xfffe
	add	w4, w18, w15
	csel	x10, xzr, x11, ne
	csel	x11, x11, xzr, ne
	tst	x1, #0x40
	lsl	x5, x13, x4
	and	x4, x4, #0xffff
	csel	x1, x2, xzr, ne
	csel	x6, xzr, x2, ne
	tst	x4, #0x40
	add	w4, w18, w0
	lsl	w0, w0, #2
	lsl	x7, x13, x4
	and	x19, x4, #0xffff
	add	w4, w4, w15
	csel	x18, x5, xzr, ne
	csel	x2, xzr, x5, ne
	tst	x19, #0x40
	lsl	x19, x13, x4
	and	x4, x4, #0xffff
	and	x20, x0, #0x3c
	csel	x5, xzr, x7, ne
	csel	x7, x7, xzr, ne
	tst	x4, #0x40
	lsl	x4, x13, x20
	and	x20, x0, #0xfffc
	add	w0, w0, w15
	csel	x22, xzr, x19, ne
	csel	x19, x19, xzr, ne
	tst	x20, #0x40
	lsl	x23, x13, x0
	and	x0, x0, #0xffff
	add	w24, w26, #10
	csel	x20, x4, xzr, ne
	csel	x4, xzr, x4, ne
	tst	x0, #0x40
	lsl	x0, x13, x24
	and	x24, x24, #0xffff
	csel	x25, x23, xzr, ne
	csel	x23, xzr, x23, ne
	tst	x24, #0x40
	orr	x17, x17, x6
	orr	x4, x5, x4
	orr	x16, x16, x1
	orr	x1, x7, x20
	orr	x9, x9, x11
	orr	x10, x8, x10
	csel	x24, xzr, x0, ne
	csel	x0, x0, xzr, ne
	orr	x17, x17, x4
	orr	x16, x16, x1
	orr	x10, x10, x2
	orr	x9, x9, x18
	orr	x8, x16, x0
	orr	x11, x17, x24
	orr	x16, x9, x19
	orr	x10, x10, x22
	mov	w3, #144
	orr	x9, x11, #0x1
	orr	x10, x10, x23
	orr	x11, x16, x25
	sub	w3, w3, w30
	mov	w29, #65535
	mov	x23, x8
	orr	x11, x8, x11
	orr	x8, x9, x10
	sub	w16, w30, #129
	lsr	w3, w29, w3
	str	x8, [sp, #432]
	lsl	w8, w13, w16
	ldr	w25, [sp, #284]
	mov	x29, x9
	ldr	x28, [sp, #368]
	ldr	x9, [sp, #160]
	str	w8, [sp, #152]
	mov	w10, w3
	and	w13, w3, #0x55555555
	mov	x17, #6148914691236517205
	mov	x18, #6148914691236517205
	mov	x8, #-1
	stp	x8, x8, [sp, #136]
	b	.LBB58_194
.LBB58_192:
	ldr	x28, [sp, #368]
	ldr	x9, [sp, #160]
	mov	x11, xzr
	str	xzr, [sp, #432]
	mov	x29, xzr
	mov	x23, xzr
.LBB58_193:
	mvn	w16, w30
	lsl	x17, x12, x30
	tst	x30, #0x40
	lsr	x16, x14, x16
	mov	x0, #6148914691236517205
	str	wzr, [sp, #152]
	mov	w13, wzr
	mov	w10, wzr
	orr	x16, x17, x16
	csel	x16, x17, x16, ne
	csel	x17, xzr, x17, ne
	mvn	x8, x16
	bic	x18, x0, x16
	str	x8, [sp, #136]
	mvn	x8, x17
	bic	x17, x0, x17
	str	x8, [sp, #144]
.LBB58_194:
	movi	v0.2d, #0000000000000000
	sub	w16, w27, #1
	tst	w16, #0xffff
	str	q0, [sp, #4976]
	str	q0, [sp, #4960]
	str	q0, [sp, #4944]
	str	q0, [sp, #4928]
	str	q0, [sp, #4912]
	b.eq	.LBB58_197
	ldr	x8, [sp, #416]
	mov	x0, xzr
	and	x2, x16, #0xffff
	add	w1, w8, #2
.LBB58_196:
	madd	w4, w1, w0, w15
	mvn	w5, w4
	lsl	x6, x12, x4
	and	x4, x4, #0xffff
	lsr	x5, x14, x5
	tst	x4, #0x40
	add	x4, sp, #1, lsl #12
	add	x4, x4, #816
	csel	x7, xzr, x6, ne
	orr	x5, x6, x5
	add	x4, x4, x0, lsl #4
	add	x0, x0, #1
	csel	x5, x6, x5, ne
	mvn	x6, x7
	cmp	x2, x0
	mvn	x5, x5
	stp	x6, x5, [x4]
	b.ne	.LBB58_196
.LBB58_197:
	ldp	x5, x3, [sp, #136]
	str	x11, [sp, #288]
	cbz	w9, .LBB58_225
	add	w9, w25, #1
	mvn	w15, w26
	lsl	x0, x12, x26
	ands	w2, w9, #0xffff
	lsr	x15, x14, x15
	and	x1, x26, #0xffff
	csel	x8, x5, x18, eq
	csel	x4, x3, x17, eq
	mov	w7, w10
	str	x8, [sp, #104]
	csel	w8, w10, w13, eq
	tst	x1, #0x40
	str	w8, [sp, #128]
	ldr	x8, [sp, #416]
	orr	x15, x0, x15
	csel	x15, x0, x15, ne
	csel	x17, xzr, x0, ne
	mvn	w0, w21
	mvn	w13, w8
	lsl	x18, x12, x8
	lsl	x1, x12, x21
	lsr	x13, x14, x13
	lsr	x14, x14, x0
	tst	x8, #0x40
	and	x0, x21, #0xffff
	csel	x12, xzr, x18, ne
	orr	x13, x18, x13
	orr	x14, x1, x14
	csel	x13, x18, x13, ne
	tst	x0, #0x40
	add	w0, w25, #2
	csel	x14, x1, x14, ne
	csel	x18, xzr, x1, ne
	cmp	w2, #1
	b.ls	.LBB58_207
	add	w8, w25, #1
	mov	w6, w25
	cmp	w30, #129
	str	x8, [sp, #96]
	ldr	w8, [sp, #128]
	and	x10, x9, #0xffff
	str	x4, [sp, #120]
	str	x10, [sp, #376]
	b.hs	.LBB58_209
	mov	w2, w8
	tst	w16, #0xffff
	mvn	x12, x18
	mvn	x14, x14
	b.eq	.LBB58_257
	ldr	x8, [sp, #120]
	ldr	x11, [sp, #104]
	mov	x13, xzr
	ldr	x19, [sp, #160]
	and	x15, x16, #0xffff
	mov	w9, w6
.LBB58_202:
	mul	w16, w0, w13
	mov	w17, #-1
	madd	w17, w9, w13, w17
	add	x18, x28, w16, uxth #4
	and	x0, x16, #0xffff
	stp	x8, x11, [x18]
	ldr	x8, [sp, #440]
	ldr	w11, [sp, #152]
	mov	w18, #1
	strh	w2, [x8, x0, lsl #1]
	ldr	x8, [sp, #288]
.LBB58_203:
	add	w0, w17, w18
	add	x1, sp, #448
	mov	x3, x15
	and	x0, x0, #0xffff
	add	x0, x1, x0, lsl #5
	ldr	x2, [x0, #64]
	ldp	x0, x1, [x0, #72]
	extr	x1, x1, x0, #4
	extr	x0, x0, x2, #4
	add	x2, sp, #1, lsl #12
	add	x2, x2, #816
	and	x0, x0, x12
	and	x1, x1, x14
	extr	x1, x1, x0, #63
	lsl	x0, x0, #1
.LBB58_204:
	ldp	x4, x5, [x2], #16
	and	x4, x4, x0
	and	x5, x5, x1
	subs	x0, x0, x4
	sbc	x1, x1, x5
	extr	x1, x1, x0, #62
	adds	x0, x4, x0, lsl #2
	adc	x1, x1, x5
	subs	x3, x3, #1
	b.ne	.LBB58_204
	ldr	x6, [sp, #432]
	tst	w18, #0x1
	add	w2, w16, w18
	csel	x3, x23, x8, eq
	add	x4, x28, w2, uxth #4
	sbfx	w5, w18, #0, #1
	csel	x6, x29, x6, eq
	orr	x1, x1, x3
	add	x18, x18, #1
	orr	x0, x0, x6
	cmp	x18, x10
	stp	x0, x1, [x4]
	and	x1, x2, #0xffff
	ldr	x2, [sp, #440]
	and	w0, w5, w11
	strh	w0, [x2, x1, lsl #1]
	b.ne	.LBB58_203
	ldp	x8, x11, [sp, #96]
	add	x13, x13, #1
	ldr	w2, [sp, #128]
	cmp	x13, x19
	add	w0, w9, #2
	add	w16, w16, w8
	ldr	x8, [sp, #136]
	add	x17, x28, w16, uxth #4
	and	x16, x16, #0xffff
	str	x8, [x17, #8]
	ldr	x8, [sp, #144]
	str	x8, [x17]
	ldr	x8, [sp, #440]
	strh	w7, [x8, x16, lsl #1]
	ldr	x8, [sp, #120]
	b.ne	.LBB58_202
	b	.LBB58_225
.LBB58_207:
	ldr	x14, [sp, #104]
	ldr	w15, [sp, #128]
	mov	x8, xzr
	ldr	x17, [sp, #160]
	mov	x13, x9
	mov	x16, x5
.LBB58_208:
	mul	w9, w0, w8
	add	x8, x8, #1
	cmp	x17, x8
	add	x10, x28, w9, uxth #4
	add	w11, w9, w13
	and	x9, x9, #0xffff
	add	x12, x28, w11, uxth #4
	stp	x4, x14, [x10]
	ldr	x10, [sp, #440]
	strh	w15, [x10, x9, lsl #1]
	and	x9, x11, #0xffff
	stp	x3, x16, [x12]
	strh	w7, [x10, x9, lsl #1]
	b.ne	.LBB58_208
	b	.LBB58_225
.LBB58_209:
	mvn	x9, x13
	mov	w13, #117
	mvn	x1, x15
	str	x9, [sp, #384]
	add	w9, w26, #11
	sub	w25, w13, w26
	and	x11, x9, #0xffff
	add	x13, x28, x10, lsl #4
	mvn	x18, x17
	ldr	w9, [sp, #152]
	ldr	x19, [sp, #4920]
	mvn	x17, x12
	mov	w30, w6
	sub	x6, x10, #1
	dup	v0.4h, w9
	ldr	x9, [sp, #440]
	ldr	x20, [sp, #4912]
	ldr	x4, [sp, #4936]
	mov	x16, x5
	ldr	x5, [sp, #4928]
	add	x15, x9, x10, lsl #1
	sub	x9, x10, #2
	ldr	x21, [sp, #4952]
	str	x9, [sp, #48]
	sub	x9, x13, #16
	ldr	x2, [sp, #4944]
	stp	x11, x9, [sp, #24]
	sub	x9, x15, #2
	ldr	x24, [sp, #4968]
	str	x9, [sp, #40]
	sub	x9, x10, #1
	ldr	x27, [sp, #4960]
	ldp	x15, x12, [sp, #96]
	mov	w14, #128
	str	x9, [sp, #8]
	and	x9, x6, #0xfffffffffffffffc
	ldr	x6, [sp, #120]
	mov	x11, xzr
	sub	w22, w14, w26
	stp	x19, x9, [sp, #264]
	and	x9, x26, #0xffff
	stp	x29, x23, [sp, #168]
	str	x9, [sp, #16]
	str	w7, [sp, #72]
	str	w0, [sp, #80]
	stp	x17, x24, [sp, #392]
	stp	x25, x22, [sp, #56]
	stp	x21, x4, [sp, #248]
	stp	x1, x27, [sp, #232]
	stp	x5, x20, [sp, #216]
	str	x26, [sp, #88]
	stp	x16, x3, [sp, #136]
	str	x2, [sp, #408]
	str	x18, [sp, #208]
.LBB58_210:
	mul	w9, w0, w11
	and	w15, w15, #0xffff
	mov	w16, #-1
	mov	x3, x6
	madd	w6, w30, w11, w16
	cmp	w15, #9
	str	x11, [sp, #112]
	add	x13, x28, w9, uxth #4
	str	x9, [sp, #424]
	and	x15, x9, #0xffff
	ldr	x9, [sp, #440]
	str	w6, [sp, #416]
	stp	x3, x12, [x13]
	strh	w8, [x9, x15, lsl #1]
	b.hs	.LBB58_213
	ldr	x14, [sp, #88]
	mov	w13, #1
.LBB58_212:
	ldr	x0, [sp, #288]
	ldr	w30, [sp, #152]
	add	w3, w14, #11
	b	.LBB58_223
.LBB58_213:
	mov	w13, #-2
	ldr	x16, [sp, #48]
	ldr	x14, [sp, #88]
	msub	w13, w0, w11, w13
	and	w13, w13, #0xffff
	cmp	w13, w16, uxth
	mov	w13, #1
	b.lo	.LBB58_212
	mul	w15, w30, w11
	ldr	x10, [sp, #424]
	and	w15, w15, #0xffff
	add	w15, w15, w16, uxth
	lsr	w15, w15, #16
	tbnz	w15, #0, .LBB58_219
	ldp	x25, x22, [sp, #56]
	lsr	x15, x16, #16
	ldr	x0, [sp, #288]
	ldr	w30, [sp, #152]
	add	w3, w14, #11
	cbnz	x15, .LBB58_223
	add	w13, w10, #1
	ldr	x10, [sp, #40]
	and	x15, x13, #0xffff
	lsl	x13, x15, #4
	lsl	x15, x15, #1
	add	x16, x28, x13
	add	x17, x10, x15
	cmp	x16, x17
	b.hs	.LBB58_220
	ldr	x10, [sp, #32]
	add	x13, x10, x13
	ldr	x10, [sp, #440]
	add	x15, x10, x15
	cmp	x15, x13
	b.hs	.LBB58_220
	mov	w13, #1
.LBB58_219:
	ldp	x25, x22, [sp, #56]
	add	w3, w14, #11
	ldr	x0, [sp, #288]
	ldr	w30, [sp, #152]
	b	.LBB58_223
.LBB58_220:
	ldp	x10, x8, [sp, #56]
	adrp	x13, .LCPI58_0
	mov	x11, xzr
	ldp	x2, x3, [sp, #16]
	ldr	d1, [x13, :lo12:.LCPI58_0]
	and	x9, x10, #0xffff
	add	w10, w6, #4
	str	w10, [sp, #200]
	and	x8, x8, #0xffff
	stp	x8, x9, [sp, #184]
.LBB58_221:
	ldr	w8, [sp, #200]
	orr	w9, w11, #0x1
	add	w13, w6, w11
	add	w16, w6, w9
	add	x17, sp, #448
	add	w18, w13, #2
	add	w15, w11, w8
	and	x16, x16, #0xffff
	add	w13, w13, #3
	and	x15, x15, #0xffff
	add	x16, x17, x16, lsl #5
	and	x18, x18, #0xffff
	and	x13, x13, #0xffff
	add	x15, x17, x15, lsl #5
	add	x18, x17, x18, lsl #5
	add	x13, x17, x13, lsl #5
	ldp	x1, x5, [x16, #64]
	ldr	x0, [x16, #80]
	ldp	x16, x17, [x15, #64]
	ldr	x14, [x15, #80]
	ldp	x6, x7, [x18, #64]
	ldp	x20, x21, [x13, #64]
	ldr	x18, [x18, #80]
	ldr	x15, [x13, #80]
	ldp	x4, x8, [sp, #224]
	str	w9, [sp, #352]
	extr	x13, x14, x17, #4
	extr	x19, x17, x16, #4
	ldr	x9, [sp, #208]
	extr	x17, x0, x5, #4
	extr	x30, x5, x1, #4
	extr	x16, x21, x20, #4
	extr	x20, x18, x7, #4
	extr	x1, x7, x6, #4
	extr	x5, x15, x21, #4
	and	x27, x19, x9
	and	x28, x13, x8
	and	x6, x30, x9
	and	x7, x17, x8
	and	x21, x1, x9
	and	x22, x20, x8
	and	x23, x16, x9
	and	x26, x5, x8
	extr	x28, x28, x27, #63
	lsl	x27, x27, #1
	extr	x26, x26, x23, #63
	extr	x7, x7, x6, #63
	extr	x22, x22, x21, #63
	lsl	x23, x23, #1
	ldr	x8, [sp, #264]
	lsl	x21, x21, #1
	and	x10, x27, x4
	str	x11, [sp, #360]
	lsl	x6, x6, #1
	subs	x27, x27, x10
	and	x29, x7, x8
	and	x25, x22, x8
	and	x24, x26, x8
	and	x11, x28, x8
	and	x8, x23, x4
	and	x9, x21, x4
	sbc	x28, x28, x11
	subs	x23, x23, x8
	and	x4, x6, x4
	sbc	x26, x26, x24
	subs	x21, x21, x9
	extr	x28, x28, x27, #62
	sbc	x22, x22, x25
	subs	x6, x6, x4
	extr	x26, x26, x23, #62
	sbc	x7, x7, x29
	adds	x10, x10, x27, lsl #2
	extr	x22, x22, x21, #62
	adc	x11, x28, x11
	adds	x8, x8, x23, lsl #2
	extr	x7, x7, x6, #62
	adc	x23, x26, x24
	adds	x9, x9, x21, lsl #2
	ldr	x26, [sp, #256]
	adc	x21, x22, x25
	adds	x4, x4, x6, lsl #2
	lsr	x16, x16, x2
	adc	x6, x7, x29
	ldr	x29, [sp, #216]
	and	x22, x21, x26
	and	x7, x6, x26
	and	x24, x23, x26
	and	x26, x11, x26
	and	x25, x10, x29
	and	x27, x8, x29
	and	x28, x9, x29
	subs	x10, x10, x25
	and	x29, x4, x29
	lsr	x1, x1, x2
	sbc	x11, x11, x26
	subs	x8, x8, x27
	movi	v3.4h, #1
	sbc	x23, x23, x24
	subs	x9, x9, x28
	extr	x11, x11, x10, #62
	sbc	x21, x21, x22
	subs	x4, x4, x29
	extr	x23, x23, x8, #62
	sbc	x6, x6, x7
	adds	x10, x25, x10, lsl #2
	extr	x21, x21, x9, #62
	adc	x11, x11, x26
	adds	x8, x27, x8, lsl #2
	extr	x6, x6, x4, #62
	adc	x23, x23, x24
	adds	x9, x28, x9, lsl #2
	ldr	x26, [sp, #248]
	adc	x21, x21, x22
	adds	x4, x29, x4, lsl #2
	ldr	x29, [sp, #408]
	adc	x6, x6, x7
	and	x22, x21, x26
	and	x24, x23, x26
	and	x25, x10, x29
	and	x7, x6, x26
	and	x26, x11, x26
	and	x27, x8, x29
	subs	x10, x10, x25
	and	x28, x9, x29
	sbc	x11, x11, x26
	subs	x8, x8, x27
	and	x29, x4, x29
	sbc	x23, x23, x24
	subs	x9, x9, x28
	extr	x11, x11, x10, #62
	sbc	x21, x21, x22
	subs	x4, x4, x29
	extr	x23, x23, x8, #62
	sbc	x6, x6, x7
	adds	x10, x25, x10, lsl #2
	extr	x21, x21, x9, #62
	adc	x11, x11, x26
	adds	x8, x27, x8, lsl #2
	extr	x6, x6, x4, #62
	adc	x23, x23, x24
	adds	x9, x28, x9, lsl #2
	ldr	x26, [sp, #400]
	adc	x21, x21, x22
	adds	x4, x29, x4, lsl #2
	ldr	x29, [sp, #240]
	adc	x6, x6, x7
	and	x22, x21, x26
	and	x24, x23, x26
	and	x25, x10, x29
	and	x7, x6, x26
	and	x26, x11, x26
	and	x27, x8, x29
	subs	x10, x10, x25
	and	x28, x9, x29
	sbc	x11, x11, x26
	subs	x8, x8, x27
	and	x29, x4, x29
	sbc	x23, x23, x24
	subs	x9, x9, x28
	extr	x11, x11, x10, #62
	sbc	x21, x21, x22
	subs	x4, x4, x29
	and	v3.8b, v1.8b, v3.8b
	sbc	x6, x6, x7
	adds	x10, x25, x10, lsl #2
	ldr	x25, [sp, #184]
	movi	v4.4h, #4
	str	x10, [sp, #336]
	adc	x10, x11, x26
	extr	x11, x21, x9, #62
	str	x10, [sp, #344]
	extr	x10, x23, x8, #62
	adds	x8, x27, x8, lsl #2
	lsr	x21, x13, x2
	cmeq	v3.4h, v3.4h, #0
	adc	x10, x10, x24
	adds	x9, x28, x9, lsl #2
	stp	x10, x8, [sp, #320]
	extr	x10, x6, x4, #62
	adc	x27, x11, x22
	str	x9, [sp, #296]
	lsl	x9, x13, #1
	mvn	w11, w2
	adds	x6, x29, x4, lsl #2
	lsr	x4, x19, x2
	lsr	x8, x0, #4
	lsl	x9, x9, x11
	adc	x10, x10, x7
	mvn	w11, w2
	stp	x10, x6, [sp, #304]
	lsl	x10, x5, #1
	tst	x2, #0x40
	orr	x9, x9, x4
	lsl	x4, x20, #1
	ubfx	x7, x0, #4, #8
	lsl	x10, x10, x11
	mvn	w11, w2
	csel	x13, x21, x9, ne
	lsl	x11, x4, x11
	lsr	x9, x5, x2
	mvn	w5, w2
	orr	x10, x10, x16
	csel	x16, xzr, x21, ne
	tst	x2, #0x40
	csel	x0, x9, x10, ne
	orr	x10, x11, x1
	lsl	x11, x17, #1
	lsr	x4, x14, #4
	csel	x1, xzr, x9, ne
	lsr	x9, x20, x2
	lsr	x20, x30, x2
	lsl	x11, x11, x5
	lsr	x6, x15, #4
	tst	x2, #0x40
	lsr	x19, x18, #4
	ubfx	x5, x15, #4, #8
	ubfx	x21, x14, #4, #8
	csel	x15, x9, x10, ne
	orr	x10, x11, x20
	lsr	x11, x17, x2
	ubfx	x17, x4, #1, #7
	mvn	w4, w25
	ubfx	x6, x6, #1, #7
	csel	x9, xzr, x9, ne
	tst	x2, #0x40
	lsr	x17, x17, x4
	lsl	x4, x21, x25
	ubfx	x18, x18, #4, #8
	mvn	w20, w25
	ubfx	x19, x19, #1, #7
	csel	x10, x11, x10, ne
	csel	x11, xzr, x11, ne
	tst	x25, #0x40
	lsr	x6, x6, x20
	lsl	x5, x5, x25
	mvn	w20, w25
	ubfx	x8, x8, #1, #7
	csel	x17, x4, x17, ne
	csel	x4, xzr, x4, ne
	tst	x25, #0x40
	lsr	x19, x19, x20
	lsl	x18, x18, x25
	mvn	w20, w25
	csel	x6, x5, x6, ne
	csel	x5, xzr, x5, ne
	tst	x25, #0x40
	lsr	x8, x8, x20
	lsl	x7, x7, x25
	csel	x19, x18, x19, ne
	csel	x18, xzr, x18, ne
	tst	x25, #0x40
	orr	x9, x19, x9
	csel	x8, x7, x8, ne
	csel	x7, xzr, x7, ne
	orr	x13, x4, x13
	orr	x10, x7, x10
	ldp	x14, x7, [sp, #384]
	orr	x8, x8, x11
	orr	x11, x18, x15
	orr	x18, x5, x0
	orr	x15, x6, x1
	tst	x3, #0x40
	orr	x16, x17, x16
	and	x20, x18, x7
	and	x18, x10, x7
	and	x5, x11, x7
	and	x1, x9, x14
	lsr	x9, x18, #1
	and	x0, x8, x14
	mvn	w8, w3
	lsr	x10, x5, #1
	lsl	x11, x0, x3
	lsr	x8, x9, x8
	mvn	w9, w3
	lsl	x4, x18, x3
	lsl	x6, x1, x3
	lsr	x9, x10, x9
	and	x21, x15, x14
	orr	x8, x11, x8
	mvn	w11, w3
	csel	x15, xzr, x4, ne
	csel	x17, x4, x8, ne
	orr	x8, x6, x9
	lsr	x9, x20, #1
	lsl	x10, x5, x3
	lsl	x4, x21, x3
	tst	x3, #0x40
	lsr	x9, x9, x11
	and	x11, x13, x7
	and	x19, x16, x14
	csel	x13, x10, x8, ne
	csel	x16, xzr, x10, ne
	lsl	x10, x20, x3
	orr	x8, x4, x9
	lsr	x9, x11, #1
	mvn	w4, w3
	ldr	x25, [sp, #192]
	tst	x3, #0x40
	lsl	x7, x19, x3
	lsr	x9, x9, x4
	lsl	x4, x19, #1
	csel	x6, x10, x8, ne
	mvn	w8, w25
	lsr	x5, x5, x25
	lsr	x18, x18, x25
	orr	x9, x7, x9
	lsr	x7, x11, x25
	lsl	x4, x4, x8
	csel	x8, xzr, x10, ne
	lsl	x10, x11, x3
	lsl	x11, x21, #1
	tst	x3, #0x40
	orr	x4, x4, x7
	mvn	w7, w25
	lsl	x11, x11, x7
	csel	x7, x10, x9, ne
	lsr	x9, x19, x25
	csel	x19, xzr, x10, ne
	tst	x25, #0x40
	lsr	x10, x20, x25
	csel	x20, x9, x4, ne
	lsr	x9, x21, x25
	tst	x25, #0x40
	orr	x10, x11, x10
	lsl	x11, x1, #1
	lsl	x4, x0, #1
	csel	x9, x9, x10, ne
	mvn	w10, w25
	lsr	x1, x1, x25
	lsl	x10, x11, x10
	mvn	w11, w25
	tst	x25, #0x40
	lsl	x11, x4, x11
	lsr	x0, x0, x25
	ldr	x22, [sp, #368]
	orr	x10, x10, x5
	ldp	x24, x12, [sp, #168]
	csel	x10, x1, x10, ne
	orr	x11, x11, x18
	tst	x25, #0x40
	csel	x11, x0, x11, ne
	ldp	x26, x28, [sp, #424]
	fmov	s2, w11
	umov	w11, v1.h[1]
	umov	w18, v1.h[2]
	umov	w0, v1.h[3]
	ldr	x5, [sp, #288]
	mov	x23, x12
	bic	v3.8b, v0.8b, v3.8b
	str	x28, [sp, #432]
	mov	v2.h[1], w10
	umov	w10, v1.h[0]
	add	v1.4h, v1.4h, v4.4h
	tst	w10, #0x1
	mov	v2.h[2], w9
	csel	x9, x24, x28, eq
	csel	x10, x12, x5, eq
	tst	w11, #0x1
	csel	x11, x24, x28, eq
	csel	x1, x12, x5, eq
	tst	w18, #0x1
	csel	x18, x24, x28, eq
	csel	x4, x12, x5, eq
	tst	w0, #0x1
	csel	x0, x12, x5, eq
	ldr	w5, [sp, #352]
	orr	x9, x15, x9
	ldr	x15, [sp, #320]
	mov	x12, x26
	orr	x4, x6, x4
	add	w5, w12, w5
	orr	x8, x8, x18
	orr	x10, x17, x10
	orr	x15, x4, x15
	ldr	x4, [sp, #328]
	add	x18, x22, w5, uxth #4
	csel	x17, x24, x28, eq
	orr	x0, x7, x0
	mov	v2.h[3], w20
	orr	x8, x8, x4
	orr	x17, x19, x17
	stp	x8, x15, [x18, #32]
	ldp	x8, x4, [sp, #304]
	ldr	w6, [sp, #416]
	orr	x9, x9, x4
	orr	x8, x10, x8
	orr	v2.8b, v3.8b, v2.8b
	stp	x9, x8, [x18]
	orr	x9, x16, x11
	ldp	x10, x11, [sp, #336]
	orr	x10, x17, x10
	ldr	x8, [sp, #272]
	orr	x11, x0, x11
	stp	x10, x11, [x18, #48]
	orr	x10, x13, x1
	ldr	x13, [sp, #296]
	ldr	x11, [sp, #360]
	orr	x10, x10, x27
	orr	x9, x9, x13
	stp	x9, x10, [x18, #16]
	and	x9, x5, #0xffff
	add	x11, x11, #4
	lsl	x9, x9, #1
	cmp	x8, x11
	ldr	x8, [sp, #440]
	str	d2, [x8, x9]
	b.ne	.LBB58_221
	ldp	x19, x9, [sp, #264]
	mov	x28, x22
	ldr	x8, [sp, #8]
	ldp	x18, x5, [sp, #208]
	ldp	x20, x1, [sp, #224]
	mov	x29, x24
	ldp	x21, x4, [sp, #248]
	cmp	x8, x9
	ldr	x14, [sp, #88]
	orr	x13, x9, #0x1
	ldr	x0, [sp, #288]
	ldp	x25, x22, [sp, #56]
	ldr	w30, [sp, #152]
	add	w3, w14, #11
	ldr	x2, [sp, #408]
	ldr	x27, [sp, #240]
	b.eq	.LBB58_224
.LBB58_223:
	add	w8, w6, w13
	add	x9, sp, #448
	mov	x6, x21
	and	x8, x8, #0xffff
	mov	x26, x27
	mov	x7, x22
	add	x8, x9, x8, lsl #5
	mov	x24, x28
	ldr	x12, [sp, #424]
	ldp	x9, x10, [x8, #64]
	ldr	x16, [x8, #80]
	extr	x8, x10, x9, #4
	extr	x15, x16, x10, #4
	and	x9, x8, x18
	and	x10, x15, x1
	lsr	x8, x8, x14
	lsl	x11, x9, #1
	extr	x9, x10, x9, #63
	and	x10, x11, x20
	and	x17, x9, x19
	subs	x11, x11, x10
	sbc	x9, x9, x17
	adds	x10, x10, x11, lsl #2
	extr	x9, x9, x11, #62
	and	x11, x10, x5
	adc	x9, x9, x17
	subs	x10, x10, x11
	and	x17, x9, x4
	sbc	x9, x9, x17
	adds	x11, x11, x10, lsl #2
	extr	x9, x9, x10, #62
	and	x10, x11, x2
	mov	x2, x0
	lsl	x0, x15, #1
	adc	x9, x9, x17
	subs	x11, x11, x10
	and	x17, x9, x21
	mov	x21, x19
	mov	x19, x18
	sbc	x9, x9, x17
	adds	x10, x10, x11, lsl #2
	lsr	x18, x16, #4
	extr	x9, x9, x11, #62
	mvn	w11, w14
	lsl	x11, x0, x11
	and	x0, x10, x27
	mov	x27, x5
	mov	x5, x4
	mov	x4, x20
	mov	x20, x1
	ldr	x1, [sp, #400]
	adc	x9, x9, x17
	ubfx	x18, x18, #1, #7
	subs	x10, x10, x0
	mvn	w17, w22
	orr	x8, x11, x8
	and	x1, x9, x1
	lsr	x17, x18, x17
	ubfx	x18, x16, #4, #8
	sbc	x9, x9, x1
	and	x11, x14, #0xffff
	adds	x16, x0, x10, lsl #2
	extr	x9, x9, x10, #62
	lsr	x0, x15, x14
	and	x10, x22, #0xffff
	lsl	x18, x18, x22
	mov	x22, x23
	mov	x23, x29
	adc	x15, x9, x1
	tst	x11, #0x40
	mov	x1, x20
	csel	x8, x0, x8, ne
	csel	x9, xzr, x0, ne
	tst	x10, #0x40
	csel	x10, xzr, x18, ne
	csel	x11, x18, x17, ne
	mvn	w18, w25
	orr	x8, x10, x8
	ldp	x29, x10, [sp, #384]
	orr	x9, x11, x9
	mvn	w11, w3
	mov	x20, x4
	mov	x4, x5
	mov	x5, x27
	mov	x27, x26
	and	x8, x8, x10
	and	x9, x9, x29
	mov	x29, x23
	lsr	x10, x8, #1
	lsl	x17, x9, #1
	lsl	x0, x9, x3
	ldp	x28, x26, [sp, #432]
	lsr	x9, x9, x25
	lsr	x10, x10, x11
	and	x11, x3, #0xffff
	lsl	x17, x17, x18
	lsr	x18, x8, x25
	lsl	x8, x8, x3
	tst	x11, #0x40
	orr	x10, x0, x10
	and	x11, x25, #0xffff
	mov	x0, x2
	orr	x17, x17, x18
	csel	x18, xzr, x8, ne
	csel	x8, x8, x10, ne
	tst	x11, #0x40
	add	w10, w12, w13
	csel	x9, x9, x17, ne
	tst	w13, #0x1
	add	x17, x24, w10, uxth #4
	csel	x11, x23, x28, eq
	mov	x28, x24
	mov	x23, x22
	orr	x11, x18, x11
	csel	x18, x22, x2, eq
	ldr	x2, [sp, #408]
	orr	x8, x8, x18
	orr	x11, x11, x16
	mov	x18, x19
	orr	x8, x8, x15
	mov	x19, x21
	mov	x21, x6
	stp	x11, x8, [x17]
	sbfx	w11, w13, #0, #1
	ldr	x17, [sp, #376]
	ldr	w6, [sp, #416]
	add	x13, x13, #1
	mov	x22, x7
	and	x8, x10, #0xffff
	and	w10, w11, w30
	cmp	x17, x13
	orr	w9, w10, w9
	strh	w9, [x26, x8, lsl #1]
	b.ne	.LBB58_223
.LBB58_224:
	ldr	x15, [sp, #96]
	ldp	x16, x3, [sp, #136]
	ldr	x10, [sp, #440]
	ldr	x13, [sp, #160]
	ldr	w7, [sp, #72]
	add	w8, w12, w15
	str	w30, [sp, #152]
	ldr	w0, [sp, #80]
	add	x9, x28, w8, uxth #4
	and	x8, x8, #0xffff
	ldr	w30, [sp, #284]
	ldp	x12, x11, [sp, #104]
	ldr	x6, [sp, #120]
	stp	x3, x16, [x9]
	strh	w7, [x10, x8, lsl #1]
	ldr	w8, [sp, #128]
	add	x11, x11, #1
	cmp	x11, x13
	b.ne	.LBB58_210
.LBB58_225:
	add	sp, sp, #2, lsl #12
	.cfi_def_cfa_offset 1104
	add	sp, sp, #1008
	.cfi_def_cfa_offset 96
	ldp	x20, x19, [sp, #80]
	ldp	x22, x21, [sp, #64]
	ldp	x24, x23, [sp, #48]
	ldp	x26, x25, [sp, #32]
	ldp	x28, x27, [sp, #16]
	ldp	x29, x30, [sp], #96
	.cfi_def_cfa_offset 0
	.cfi_restore w19
	.cfi_restore w20
	.cfi_restore w21
	.cfi_restore w22
	.cfi_restore w23
	.cfi_restore w24
	.cfi_restore w25
	.cfi_restore w26
	.cfi_restore w27
	.cfi_restore w28
	.cfi_restore w30
	.cfi_restore w29
	ret
.LBB58_226:
	.cfi_restore_state
	dup	v0.2d, x12
	and	x18, x14, #0xfffffffffffffffe
	mov	x17, xzr
	add	x15, x18, #4
	add	w0, w13, #4
.LBB58_227:
	mov	w1, #15
	ldr	q2, [x16], #16
	dup	v1.2d, x1
	add	w1, w17, w0
	add	x2, sp, #448
	and	x1, x1, #0xffff
	add	x17, x17, #2
	lsl	x1, x1, #3
	cmp	x18, x17
	and	v1.16b, v2.16b, v1.16b
	ldr	q2, [x2, x1]
	ushl	v1.2d, v1.2d, v0.2d
	orr	v1.16b, v1.16b, v2.16b
	str	q1, [x2, x1]
	b.ne	.LBB58_227
	cmp	x14, x18
	b.ne	.LBB58_41
	b	.LBB58_42
.LBB58_229:
	ldr	x8, [sp, #440]
	dup	v0.4h, w22
	add	x13, x29, x7, lsl #4
	sub	x15, x7, #2
	add	x16, x8, x7, lsl #1
	sub	x8, x7, #1
	sub	x18, x13, #16
	and	x3, x8, #0xfffffffffffffffc
	str	x8, [sp, #432]
	sub	x0, x16, #2
.LBB58_230:
	mul	w4, w6, w14
	mov	w1, #-1
	and	w16, w21, #0xffff
	madd	w5, w25, w14, w1
	ldr	x8, [sp, #440]
	cmp	w16, #5
	add	x13, x29, w4, uxth #4
	and	x16, x4, #0xffff
	stp	x27, x10, [x13]
	strh	w30, [x8, x16, lsl #1]
	b.hs	.LBB58_234
	ldp	x9, x8, [sp, #264]
	mov	w13, #1
	ldr	x11, [sp, #256]
.LBB58_232:
	add	w16, w5, w13
	add	x1, sp, #448
	tst	w13, #0x1
	add	x16, x1, w16, uxth #3
	csel	x2, x11, x23, eq
	ldr	x17, [sp, #400]
	add	w1, w4, w13
	csel	x7, x9, x8, eq
	ldr	x16, [x16, #16]
	add	x6, x29, w1, uxth #4
	and	x1, x1, #0xffff
	and	x16, x12, x16, lsr #4
	orr	x16, x2, x16, lsl #1
	sbfx	w2, w13, #0, #1
	add	x13, x13, #1
	cmp	x17, x13
	ldr	x17, [sp, #440]
	stp	x16, x7, [x6]
	and	w16, w2, w22
	strh	w16, [x17, x1, lsl #1]
	b.ne	.LBB58_232
.LBB58_233:
	add	w13, w4, w21
	add	x14, x14, #1
	ldr	x8, [sp, #440]
	add	x16, x29, w13, uxth #4
	ldr	w6, [sp, #184]
	and	x13, x13, #0xffff
	cmp	x14, x28
	stp	x24, x26, [x16]
	strh	w19, [x8, x13, lsl #1]
	b.ne	.LBB58_230
	b	.LBB58_225
.LBB58_234:
	mov	w13, #-2
	ldp	x9, x8, [sp, #264]
	msub	w13, w6, w14, w13
	ldr	x11, [sp, #256]
	and	w13, w13, #0xffff
	cmp	w13, w15, uxth
	mov	w13, #1
	b.lo	.LBB58_232
	mul	w16, w25, w14
	and	w16, w16, #0xffff
	add	w16, w16, w15, uxth
	lsr	w16, w16, #16
	tbnz	w16, #0, .LBB58_232
	lsr	x16, x15, #16
	cbnz	x16, .LBB58_232
	add	w13, w4, #1
	and	x16, x13, #0xffff
	lsl	x13, x16, #4
	lsl	x16, x16, #1
	add	x1, x29, x13
	add	x2, x0, x16
	cmp	x1, x2
	b.hs	.LBB58_240
	ldr	x17, [sp, #440]
	add	x13, x18, x13
	add	x16, x17, x16
	cmp	x16, x13
	b.hs	.LBB58_240
	mov	w13, #1
	b	.LBB58_232
.LBB58_240:
	adrp	x13, .LCPI58_0
	mov	x17, x21
	mov	x30, x24
	ldr	d1, [x13, :lo12:.LCPI58_0]
	mov	w28, w22
	mov	w27, w19
	mov	x16, xzr
.LBB58_241:
	orr	w13, w16, #0x1
	add	x1, sp, #448
	movi	v4.4h, #1
	add	w2, w5, w13
	umov	w6, v1.h[2]
	umov	w20, v1.h[1]
	add	x1, x1, w2, uxth #3
	umov	w2, v1.h[3]
	umov	w19, v1.h[0]
	mov	x10, x23
	add	w13, w4, w13
	add	x16, x16, #4
	ldp	q2, q3, [x1, #16]
	tst	w2, #0x1
	ushr	v3.2d, v3.2d, #4
	ushr	v2.2d, v2.2d, #4
	csel	x2, x9, x8, eq
	csel	x23, x11, x23, eq
	tst	w6, #0x1
	and	x6, x13, #0xffff
	csel	x24, x9, x8, eq
	csel	x25, x11, x10, eq
	tst	w20, #0x1
	mov	x21, v3.d[1]
	fmov	x22, d3
	and	v3.8b, v1.8b, v4.8b
	mov	x7, v2.d[1]
	fmov	x1, d2
	movi	v2.4h, #4
	add	x13, x29, w13, uxth #4
	lsl	x6, x6, #1
	and	x20, x12, x22
	csel	x22, x9, x8, eq
	cmeq	v3.4h, v3.4h, #0
	orr	x20, x25, x20, lsl #1
	csel	x25, x11, x10, eq
	tst	w19, #0x1
	and	x19, x12, x21
	and	x7, x12, x7
	and	x1, x12, x1
	orr	x19, x23, x19, lsl #1
	add	v1.4h, v1.4h, v2.4h
	orr	x7, x25, x7, lsl #1
	mov	x23, x10
	bic	v3.8b, v0.8b, v3.8b
	stp	x20, x24, [x13, #32]
	stp	x19, x2, [x13, #48]
	csel	x2, x11, x10, eq
	ldr	x10, [sp, #440]
	orr	x1, x2, x1, lsl #1
	csel	x20, x9, x8, eq
	cmp	x3, x16
	stp	x7, x22, [x13, #16]
	stp	x1, x20, [x13]
	str	d3, [x10, x6]
	b.ne	.LBB58_241
	ldr	x10, [sp, #432]
	mov	w19, w27
	mov	w22, w28
	ldr	w25, [sp, #284]
	mov	x24, x30
	ldr	x26, [sp, #248]
	cmp	x10, x3
	ldr	x10, [sp, #160]
	ldr	w30, [sp, #216]
	orr	x13, x3, #0x1
	mov	x21, x17
	mov	x28, x10
	ldp	x27, x10, [sp, #224]
	b.ne	.LBB58_232
	b	.LBB58_233
.LBB58_243:
	add	x13, x26, x10, lsl #4
	ldr	x8, [sp, #440]
	dup	v0.4h, w23
	sub	x9, x10, #1
	ldr	x20, [sp, #160]
	sub	x16, x10, #2
	add	x0, x8, x10, lsl #1
	sub	x8, x13, #16
	and	x1, x9, #0xfffffffffffffffc
	stp	x9, x8, [sp, #424]
	ldr	w8, [sp, #284]
	sub	x30, x0, #2
	mov	w0, w25
.LBB58_244:
	mul	w2, w0, w15
	mov	w3, #-1
	mov	w21, w8
	madd	w3, w8, w15, w3
	ldr	x8, [sp, #168]
	and	w4, w5, #0xffff
	cmp	w4, #5
	add	x13, x26, w2, uxth #4
	and	x4, x2, #0xffff
	stp	x6, x8, [x13]
	ldr	x8, [sp, #440]
	strh	w11, [x8, x4, lsl #1]
	b.hs	.LBB58_248
	ldp	x10, x11, [sp, #176]
	mov	x22, x5
	ldp	x8, x9, [sp, #312]
	mov	w13, #1
.LBB58_246:
	add	w4, w3, w13
	add	x5, sp, #448
	tst	w13, #0x1
	add	x4, x5, w4, uxth #4
	add	w6, w2, w13
	csel	x7, x11, x29, eq
	csel	x19, x9, x8, eq
	ldr	x18, [sp, #440]
	ldp	x5, x4, [x4, #32]
	extr	x5, x4, x5, #4
	and	x4, x14, x4, lsr #4
	and	x5, x5, x12
	extr	x4, x4, x5, #63
	orr	x5, x7, x5, lsl #1
	add	x7, x26, w6, uxth #4
	orr	x4, x19, x4
	sbfx	w19, w13, #0, #1
	add	x13, x13, #1
	stp	x5, x4, [x7]
	and	x5, x6, #0xffff
	cmp	x10, x13
	and	w4, w19, w23
	strh	w4, [x18, x5, lsl #1]
	b.ne	.LBB58_246
.LBB58_247:
	mov	x5, x22
	ldp	x6, x10, [sp, #120]
	add	w13, w2, w5
	ldr	x8, [sp, #440]
	add	x15, x15, #1
	add	x2, x26, w13, uxth #4
	and	x13, x13, #0xffff
	ldr	w9, [sp, #288]
	ldr	w11, [sp, #152]
	cmp	x15, x20
	stp	x24, x10, [x2]
	strh	w9, [x8, x13, lsl #1]
	mov	w8, w21
	b.ne	.LBB58_244
	b	.LBB58_225
.LBB58_248:
	mov	w13, #-2
	ldp	x10, x11, [sp, #176]
	msub	w13, w0, w15, w13
	ldp	x8, x9, [sp, #312]
	mov	x22, x5
	and	w13, w13, #0xffff
	cmp	w13, w16, uxth
	mov	w13, #1
	b.lo	.LBB58_246
	mul	w4, w21, w15
	and	w4, w4, #0xffff
	add	w4, w4, w16, uxth
	lsr	w4, w4, #16
	tbnz	w4, #0, .LBB58_246
	lsr	x4, x16, #16
	cbnz	x4, .LBB58_246
	add	w13, w2, #1
	and	x4, x13, #0xffff
	lsl	x13, x4, #4
	lsl	x4, x4, #1
	add	x5, x26, x13
	add	x6, x30, x4
	cmp	x5, x6
	b.hs	.LBB58_254
	ldp	x5, x18, [sp, #432]
	add	x13, x5, x13
	add	x4, x18, x4
	cmp	x4, x13
	b.hs	.LBB58_254
	mov	w13, #1
	b	.LBB58_246
.LBB58_254:
	adrp	x13, .LCPI58_0
	mov	x18, x22
	mov	w17, w23
	ldr	d1, [x13, :lo12:.LCPI58_0]
	mov	x4, xzr
	mov	x10, x26
.LBB58_255:
	orr	w13, w4, #0x1
	add	x5, sp, #448
	umov	w27, v1.h[3]
	add	w6, w3, w13
	movi	v2.4h, #1
	umov	w19, v1.h[2]
	add	x6, x5, w6, uxth #4
	umov	w7, v1.h[1]
	umov	w5, v1.h[0]
	movi	v3.4h, #4
	add	w13, w2, w13
	add	x4, x4, #4
	ldp	x20, x21, [x6, #32]
	tst	w27, #0x1
	ldp	x22, x23, [x6, #48]
	and	v2.8b, v1.8b, v2.8b
	ldp	x24, x25, [x6, #64]
	csel	x27, x11, x29, eq
	ldp	x26, x6, [x6, #80]
	csel	x28, x9, x8, eq
	extr	x22, x23, x22, #4
	tst	w19, #0x1
	and	x23, x14, x23, lsr #4
	extr	x24, x25, x24, #4
	and	x25, x14, x25, lsr #4
	csel	x19, x11, x29, eq
	extr	x26, x6, x26, #4
	and	x6, x14, x6, lsr #4
	csel	x29, x9, x8, eq
	and	x24, x24, x12
	tst	w7, #0x1
	extr	x20, x21, x20, #4
	and	x26, x26, x12
	extr	x25, x25, x24, #63
	and	x22, x22, x12
	extr	x6, x6, x26, #63
	orr	x7, x27, x26, lsl #1
	ldr	x27, [sp, #328]
	add	x26, x10, w13, uxth #4
	and	x21, x14, x21, lsr #4
	extr	x23, x23, x22, #63
	cmeq	v2.4h, v2.4h, #0
	csel	x27, x11, x27, eq
	orr	x19, x19, x24, lsl #1
	orr	x6, x28, x6
	orr	x24, x29, x25
	ldr	x29, [sp, #328]
	and	x20, x20, x12
	orr	x22, x27, x22, lsl #1
	stp	x7, x6, [x26, #48]
	csel	x7, x9, x8, eq
	tst	w5, #0x1
	add	v1.4h, v1.4h, v3.4h
	extr	x21, x21, x20, #63
	orr	x5, x7, x23
	csel	x7, x11, x29, eq
	and	x13, x13, #0xffff
	stp	x22, x5, [x26, #16]
	bic	v2.8b, v0.8b, v2.8b
	csel	x6, x9, x8, eq
	orr	x7, x7, x20, lsl #1
	lsl	x13, x13, #1
	ldr	x5, [sp, #440]
	orr	x6, x6, x21
	cmp	x1, x4
	stp	x19, x24, [x26, #32]
	stp	x7, x6, [x26]
	str	d2, [x5, x13]
	b.ne	.LBB58_255
	ldr	x13, [sp, #424]
	mov	x26, x10
	ldr	x20, [sp, #160]
	ldr	w21, [sp, #284]
	ldr	x24, [sp, #136]
	mov	w23, w17
	ldr	x10, [sp, #176]
	cmp	x13, x1
	orr	x13, x1, #0x1
	mov	x22, x18
	b.ne	.LBB58_246
	b	.LBB58_247
.LBB58_257:
	ldr	w8, [sp, #152]
	add	x13, x28, x10, lsl #4
	sub	x17, x10, #1
	and	x1, x17, #0xfffffffffffffffc
	ldr	x17, [sp, #120]
	ldr	x25, [sp, #160]
	dup	v0.4h, w8
	ldr	x8, [sp, #440]
	mov	x15, xzr
	sub	x16, x10, #2
	add	w9, w6, #2
	mov	w19, w6
	add	x0, x8, x10, lsl #1
	sub	x8, x13, #16
	str	w9, [sp, #80]
	str	x8, [sp, #424]
	sub	x8, x10, #1
	sub	x26, x0, #2
	ldp	x0, x18, [sp, #96]
	stp	x26, x8, [sp, #408]
	mov	w8, w2
.LBB58_258:
	mul	w2, w9, w15
	mov	w3, #-1
	and	w4, w0, #0xffff
	madd	w3, w19, w15, w3
	mov	x20, x18
	cmp	w4, #17
	add	x13, x28, w2, uxth #4
	and	x4, x2, #0xffff
	stp	x17, x18, [x13]
	ldr	x13, [sp, #440]
	strh	w8, [x13, x4, lsl #1]
	b.hs	.LBB58_262
	ldr	x21, [sp, #288]
	ldr	w8, [sp, #152]
	mov	w13, #1
.LBB58_260:
	add	w17, w3, w13
	add	x18, sp, #448
	ldr	x5, [sp, #432]
	and	x17, x17, #0xffff
	tst	w13, #0x1
	add	x17, x18, x17, lsl #5
	csel	x5, x29, x5, eq
	csel	x6, x23, x21, eq
	ldr	x4, [x17, #64]
	ldp	x17, x18, [x17, #72]
	extr	x18, x18, x17, #4
	extr	x17, x17, x4, #4
	add	w4, w2, w13
	and	x17, x17, x12
	and	x18, x18, x14
	extr	x18, x18, x17, #63
	orr	x17, x5, x17, lsl #1
	add	x5, x28, w4, uxth #4
	orr	x18, x18, x6
	sbfx	w6, w13, #0, #1
	add	x13, x13, #1
	stp	x17, x18, [x5]
	and	x17, x4, #0xffff
	ldr	x4, [sp, #440]
	cmp	x10, x13
	and	w18, w6, w8
	strh	w18, [x4, x17, lsl #1]
	b.ne	.LBB58_260
.LBB58_261:
	add	w13, w2, w0
	str	w8, [sp, #152]
	ldr	x8, [sp, #136]
	add	x17, x28, w13, uxth #4
	and	x13, x13, #0xffff
	add	x15, x15, #1
	cmp	x15, x25
	mov	x18, x20
	str	x8, [x17, #8]
	ldr	x8, [sp, #144]
	str	x8, [x17]
	ldr	x8, [sp, #440]
	ldr	x17, [sp, #120]
	strh	w7, [x8, x13, lsl #1]
	ldr	w8, [sp, #128]
	b.ne	.LBB58_258
	b	.LBB58_225
.LBB58_262:
	mov	w13, #-2
	ldr	x21, [sp, #288]
	ldr	w8, [sp, #152]
	msub	w13, w9, w15, w13
	and	w13, w13, #0xffff
	cmp	w13, w16, uxth
	mov	w13, #1
	b.lo	.LBB58_260
	mul	w4, w19, w15
	and	w4, w4, #0xffff
	add	w4, w4, w16, uxth
	lsr	w4, w4, #16
	tbnz	w4, #0, .LBB58_260
	lsr	x4, x16, #16
	cbnz	x4, .LBB58_260
	add	w13, w2, #1
	and	x4, x13, #0xffff
	lsl	x13, x4, #4
	lsl	x4, x4, #1
	add	x5, x28, x13
	add	x6, x26, x4
	cmp	x5, x6
	b.hs	.LBB58_268
	ldr	x17, [sp, #424]
	add	x13, x17, x13
	ldr	x17, [sp, #440]
	add	x4, x17, x4
	cmp	x4, x13
	b.hs	.LBB58_268
	mov	w13, #1
	b	.LBB58_260
.LBB58_268:
	adrp	x4, .LCPI58_0
	mov	w0, w7
	mov	x13, xzr
	ldr	d1, [x4, :lo12:.LCPI58_0]
	add	w4, w3, #4
	mov	x8, x23
	mov	x9, x29
.LBB58_269:
	orr	w20, w13, #0x1
	add	w21, w3, w13
	add	w22, w13, w4
	add	w23, w3, w20
	add	w24, w21, #2
	add	x25, sp, #448
	and	x22, x22, #0xffff
	add	w21, w21, #3
	and	x23, x23, #0xffff
	and	x24, x24, #0xffff
	add	x22, x25, x22, lsl #5
	and	x21, x21, #0xffff
	add	x23, x25, x23, lsl #5
	add	x24, x25, x24, lsl #5
	umov	w19, v1.h[3]
	add	x21, x25, x21, lsl #5
	ldp	x29, x30, [x22, #64]
	ldp	x25, x26, [x23, #64]
	ldr	x22, [x22, #80]
	ldp	x27, x28, [x24, #64]
	movi	v2.4h, #1
	umov	w7, v1.h[2]
	ldp	x17, x18, [x21, #64]
	umov	w6, v1.h[1]
	ldr	x23, [x23, #80]
	ldr	x24, [x24, #80]
	ldr	x21, [x21, #80]
	extr	x22, x22, x30, #4
	extr	x29, x30, x29, #4
	ldr	x10, [sp, #432]
	extr	x25, x26, x25, #4
	extr	x27, x28, x27, #4
	tst	w19, #0x1
	umov	w5, v1.h[0]
	extr	x17, x18, x17, #4
	extr	x23, x23, x26, #4
	extr	x18, x21, x18, #4
	extr	x21, x24, x28, #4
	and	x26, x29, x12
	ldr	x29, [sp, #368]
	and	x22, x22, x14
	csel	x19, x9, x10, eq
	ldr	x10, [sp, #432]
	and	v2.8b, v1.8b, v2.8b
	and	x24, x25, x12
	and	x25, x27, x12
	extr	x22, x22, x26, #63
	csel	x27, x8, x11, eq
	tst	w7, #0x1
	add	w20, w2, w20
	movi	v3.4h, #4
	and	x17, x17, x12
	and	x18, x18, x14
	and	x21, x21, x14
	csel	x7, x9, x10, eq
	csel	x30, x8, x11, eq
	tst	w6, #0x1
	orr	x6, x19, x26, lsl #1
	add	x19, x29, w20, uxth #4
	ldr	x10, [sp, #432]
	and	x23, x23, x14
	extr	x18, x18, x17, #63
	extr	x21, x21, x25, #63
	orr	x22, x22, x27
	cmeq	v2.4h, v2.4h, #0
	extr	x23, x23, x24, #63
	csel	x26, x9, x10, eq
	orr	x17, x7, x17, lsl #1
	stp	x6, x22, [x19, #48]
	csel	x6, x8, x11, eq
	tst	w5, #0x1
	ldr	x10, [sp, #432]
	orr	x7, x26, x25, lsl #1
	orr	x18, x18, x30
	orr	x5, x21, x6
	csel	x6, x8, x11, eq
	add	v1.4h, v1.4h, v3.4h
	stp	x17, x18, [x19, #32]
	csel	x17, x9, x10, eq
	orr	x18, x23, x6
	and	x6, x20, #0xffff
	bic	v2.8b, v0.8b, v2.8b
	stp	x7, x5, [x19, #16]
	orr	x17, x17, x24, lsl #1
	lsl	x5, x6, #1
	add	x13, x13, #4
	ldr	x10, [sp, #440]
	cmp	x1, x13
	stp	x17, x18, [x19]
	str	d2, [x10, x5]
	b.ne	.LBB58_269
	ldp	x26, x10, [sp, #408]
	mov	w7, w0
	ldp	x0, x20, [sp, #96]
	mov	x28, x29
	ldr	x25, [sp, #160]
	ldr	w19, [sp, #284]
	mov	x23, x8
	cmp	x10, x1
	mov	x29, x9
	ldr	w8, [sp, #152]
	ldr	w9, [sp, #80]
	ldr	x10, [sp, #376]
	mov	x21, x11
	orr	x13, x1, #0x1
	b.ne	.LBB58_260
	b	.LBB58_261
.Lfunc_end58:
	.size	"dm_layout::symbols::placing::lay_list", .Lfunc_end58-"dm_layout::symbols::placing::lay_list"
	.cfi_endproc

	.p2align	2
	.type	"dm_layout::symbols::laying::put_cells::<#3c42656d14ec8a1f>",@function
"dm_layout::symbols::laying::put_cells::<#3c42656d14ec8a1f>":
	.cfi_startproc
	ldrh	w9, [x2, #2]
	ubfx	w10, w1, #7, #1
	ldrh	w8, [x2]
	add	w11, w9, #4
	sub	w9, w9, #124
	add	x8, x0, x8, lsl #5
	lsl	x12, x10, x11
	and	x13, x11, #0xffff
	lsl	x10, x10, x9
	and	x9, x9, #0xffff
	tst	x13, #0x40
	csel	x13, xzr, x12, ne
	csel	x12, x12, xzr, ne
	tst	x9, #0x40
	and	w9, w11, #0xffff
	csel	x11, xzr, x10, ne
	csel	x10, x10, xzr, ne
	cmp	w9, #128
	ldp	x14, x9, [x8, #64]
	csel	x12, x12, xzr, lo
	csel	x13, x13, xzr, lo
	csel	x10, xzr, x10, lo
	orr	x13, x13, x14
	orr	x9, x12, x9
	ldp	x14, x12, [x8, #80]
	stp	x13, x9, [x8, #64]
	csel	x9, xzr, x11, lo
	orr	x10, x10, x12
	orr	x9, x9, x14
	stp	x9, x10, [x8, #80]
	ubfx	w10, w1, #6, #1
	ldrh	w9, [x2, #6]
	ldrh	w8, [x2, #4]
	add	w11, w9, #4
	sub	w9, w9, #124
	add	x8, x0, x8, lsl #5
	lsl	x12, x10, x11
	and	x13, x11, #0xffff
	lsl	x10, x10, x9
	and	x9, x9, #0xffff
	tst	x13, #0x40
	csel	x13, xzr, x12, ne
	csel	x12, x12, xzr, ne
	tst	x9, #0x40
	and	w9, w11, #0xffff
	csel	x11, xzr, x10, ne
	csel	x10, x10, xzr, ne
	cmp	w9, #128
	ldp	x14, x9, [x8, #64]
	csel	x12, x12, xzr, lo
	csel	x13, x13, xzr, lo
	csel	x10, xzr, x10, lo
	orr	x9, x12, x9
	orr	x13, x13, x14
	ldp	x14, x12, [x8, #80]
	stp	x13, x9, [x8, #64]
	csel	x9, xzr, x11, lo
	orr	x10, x10, x12
	orr	x9, x9, x14
	stp	x9, x10, [x8, #80]
	ubfx	w10, w1, #5, #1
	ldrh	w9, [x2, #10]
	ldrh	w8, [x2, #8]
	add	w11, w9, #4
	sub	w9, w9, #124
	add	x8, x0, x8, lsl #5
	lsl	x12, x10, x11
	and	x13, x11, #0xffff
	lsl	x10, x10, x9
	tst	x13, #0x40
	and	x9, x9, #0xffff
	csel	x13, xzr, x12, ne
	csel	x12, x12, xzr, ne
	tst	x9, #0x40
	and	w9, w11, #0xffff
	csel	x11, xzr, x10, ne
	csel	x10, x10, xzr, ne
	cmp	w9, #128
	ldp	x14, x9, [x8, #64]
	csel	x12, x12, xzr, lo
	csel	x13, x13, xzr, lo
	csel	x10, xzr, x10, lo
	orr	x9, x12, x9
	orr	x13, x13, x14
	ldp	x14, x12, [x8, #80]
	stp	x13, x9, [x8, #64]
	csel	x9, xzr, x11, lo
	orr	x10, x10, x12
	orr	x9, x9, x14
	stp	x9, x10, [x8, #80]
	ubfx	w10, w1, #4, #1
	ldrh	w9, [x2, #14]
	ldrh	w8, [x2, #12]
	add	w11, w9, #4
	sub	w9, w9, #124
	add	x8, x0, x8, lsl #5
	lsl	x12, x10, x11
	and	x13, x11, #0xffff
	lsl	x10, x10, x9
	tst	x13, #0x40
	and	x9, x9, #0xffff
	csel	x13, x12, xzr, ne
	csel	x12, xzr, x12, ne
	tst	x9, #0x40
	and	w9, w11, #0xffff
	csel	x11, xzr, x10, ne
	csel	x10, x10, xzr, ne
	cmp	w9, #128
	ldp	x9, x14, [x8, #64]
	csel	x12, x12, xzr, lo
	csel	x13, x13, xzr, lo
	csel	x10, xzr, x10, lo
	orr	x9, x12, x9
	orr	x13, x13, x14
	ldp	x14, x12, [x8, #80]
	stp	x9, x13, [x8, #64]
	csel	x9, xzr, x11, lo
	orr	x10, x10, x12
	orr	x9, x9, x14
	stp	x9, x10, [x8, #80]
	ubfx	w10, w1, #3, #1
	ldrh	w9, [x2, #18]
	ldrh	w8, [x2, #16]
	add	w11, w9, #4
	sub	w9, w9, #124
	add	x8, x0, x8, lsl #5
	lsl	x12, x10, x11
	and	x13, x11, #0xffff
	lsl	x10, x10, x9
	tst	x13, #0x40
	and	x9, x9, #0xffff
	csel	x13, xzr, x12, ne
	csel	x12, x12, xzr, ne
	tst	x9, #0x40
	and	w9, w11, #0xffff
	csel	x11, xzr, x10, ne
	csel	x10, x10, xzr, ne
	cmp	w9, #128
	ldp	x14, x9, [x8, #64]
	csel	x12, x12, xzr, lo
	csel	x13, x13, xzr, lo
	csel	x10, xzr, x10, lo
	orr	x9, x12, x9
	orr	x13, x13, x14
	ldp	x14, x12, [x8, #80]
	stp	x13, x9, [x8, #64]
	csel	x9, xzr, x11, lo
	orr	x10, x10, x12
	orr	x9, x9, x14
	stp	x9, x10, [x8, #80]
	ubfx	w10, w1, #2, #1
	ldrh	w9, [x2, #22]
	ldrh	w8, [x2, #20]
	add	w11, w9, #4
	sub	w9, w9, #124
	add	x8, x0, x8, lsl #5
	lsl	x12, x10, x11
	and	x13, x11, #0xffff
	lsl	x10, x10, x9
	tst	x13, #0x40
	and	x9, x9, #0xffff
	csel	x13, xzr, x12, ne
	csel	x12, x12, xzr, ne
	tst	x9, #0x40
	and	w9, w11, #0xffff
	csel	x11, xzr, x10, ne
	csel	x10, x10, xzr, ne
	cmp	w9, #128
	ldp	x14, x9, [x8, #64]
	csel	x12, x12, xzr, lo
	csel	x13, x13, xzr, lo
	csel	x10, xzr, x10, lo
	orr	x9, x12, x9
	orr	x13, x13, x14
	ldp	x14, x12, [x8, #80]
	stp	x13, x9, [x8, #64]
	csel	x9, xzr, x11, lo
	orr	x10, x10, x12
	orr	x9, x9, x14
	stp	x9, x10, [x8, #80]
	ubfx	w10, w1, #1, #1
	ldrh	w9, [x2, #26]
	ldrh	w8, [x2, #24]
	add	w11, w9, #4
	sub	w9, w9, #124
	add	x8, x0, x8, lsl #5
	lsl	x12, x10, x11
	and	x13, x11, #0xffff
	lsl	x10, x10, x9
	tst	x13, #0x40
	and	x9, x9, #0xffff
	csel	x13, xzr, x12, ne
	csel	x12, x12, xzr, ne
	tst	x9, #0x40
	and	w9, w11, #0xffff
	csel	x11, xzr, x10, ne
	csel	x10, x10, xzr, ne
	cmp	w9, #128
	ldp	x14, x9, [x8, #64]
	csel	x12, x12, xzr, lo
	csel	x13, x13, xzr, lo
	csel	x10, xzr, x10, lo
	orr	x9, x12, x9
	orr	x13, x13, x14
	ldp	x14, x12, [x8, #80]
	stp	x13, x9, [x8, #64]
	csel	x9, xzr, x11, lo
	and	x11, x1, #0x1
	orr	x10, x10, x12
	orr	x9, x9, x14
	stp	x9, x10, [x8, #80]
	ldrh	w9, [x2, #30]
	ldrh	w8, [x2, #28]
	add	w10, w9, #4
	sub	w9, w9, #124
	add	x8, x0, x8, lsl #5
	lsl	x12, x11, x10
	and	x13, x10, #0xffff
	lsl	x11, x11, x9
	tst	x13, #0x40
	and	x9, x9, #0xffff
	csel	x13, xzr, x12, ne
	csel	x12, x12, xzr, ne
	tst	x9, #0x40
	and	w9, w10, #0xffff
	csel	x10, xzr, x11, ne
	csel	x11, x11, xzr, ne
	cmp	w9, #128
	ldp	x14, x9, [x8, #64]
	csel	x12, x12, xzr, lo
	csel	x13, x13, xzr, lo
	csel	x11, xzr, x11, lo
	orr	x9, x12, x9
	orr	x13, x13, x14
	ldp	x14, x12, [x8, #80]
	stp	x13, x9, [x8, #64]
	csel	x9, xzr, x10, lo
	orr	x10, x11, x12
	orr	x9, x9, x14
	stp	x9, x10, [x8, #80]
	ret
.Lfunc_end59:
	.size	"dm_layout::symbols::laying::put_cells::<#3c42656d14ec8a1f>", .Lfunc_end59-"dm_layout::symbols::laying::put_cells::<#3c42656d14ec8a1f>"
	.cfi_endproc

	.section	.rodata.cst16,"aM",@progbits,16
	.p2align	4, 0x0
.LCPI60_0:
	.byte	0
	.byte	0
	.byte	0
	.byte	0
	.byte	0
	.byte	0
	.byte	0
	.byte	0
	.byte	1
	.byte	1
	.byte	1
	.byte	1
	.byte	1
	.byte	1
	.byte	1
	.byte	1
.LCPI60_1:
	.byte	1
	.byte	2
	.byte	4
	.byte	8
	.byte	16
	.byte	32
	.byte	64
	.byte	128
	.byte	1
	.byte	2
	.byte	4
	.byte	8
	.byte	16
	.byte	32
	.byte	64
	.byte	128
	.text
	.p2align	2
	.type	"ecc200_calls::writing::show_words::<=52,=288>",@function
"ecc200_calls::writing::show_words::<=52,=288>":
	.cfi_startproc
	stp	x29, x30, [sp, #-96]!
	.cfi_def_cfa_offset 96
	stp	x28, x27, [sp, #16]
	stp	x26, x25, [sp, #32]
	stp	x24, x23, [sp, #48]
	stp	x22, x21, [sp, #64]
	stp	x20, x19, [sp, #80]
	.cfi_offset w19, -8
	.cfi_offset w20, -16
	.cfi_offset w21, -24
	.cfi_offset w22, -32
	.cfi_offset w23, -40
	.cfi_offset w24, -48
	.cfi_offset w25, -56
	.cfi_offset w26, -64
	.cfi_offset w27, -72
	.cfi_offset w28, -80
	.cfi_offset w30, -88
	.cfi_offset w29, -96
	sub	sp, sp, #1472
	.cfi_def_cfa_offset 1568
	movi	v0.2d, #0000000000000000
	str	xzr, [sp]
	add	x25, sp, #1004
	add	x29, sp, #16
	mov	x20, x2
	mov	x21, x1
	mov	x19, x0
	add	x23, x25, #20
	ldrh	w24, [x0]
	ldrh	w26, [x0, #14]
	ldr	w27, [x0, #16]
	add	x0, x29, #20
	mov	w1, wzr
	mov	w2, #844
	mov	x22, x3
	stp	q0, q0, [x23, #240]
	add	x28, sp, #1312
	str	q0, [x23, #272]
	stur	q0, [x25, #20]
	stur	q0, [x25, #36]
	stur	q0, [x25, #52]
	stur	q0, [x25, #68]
	stur	q0, [x25, #84]
	stur	q0, [x25, #100]
	stur	q0, [x25, #116]
	stur	q0, [x25, #132]
	stur	q0, [x25, #148]
	stur	q0, [x25, #164]
	stur	q0, [x25, #180]
	stur	q0, [x25, #196]
	stur	q0, [x25, #212]
	stur	q0, [x25, #228]
	stur	q0, [x25, #244]
	bl	memset
	movi	v0.2d, #0000000000000000
	ldur	x8, [x19, #2]
	ldur	w9, [x19, #10]
	add	x0, x25, #20
	add	x1, sp, #1312
	mov	x2, x21
	mov	x3, x20
	strh	w24, [sp, #1312]
	add	x19, x29, #864
	stur	x8, [x28, #2]
	stp	q0, q0, [sp, #880]
	stp	q0, q0, [sp, #912]
	stp	q0, q0, [sp, #944]
	str	q0, [sp, #976]
	stur	w9, [x28, #10]
	strh	w26, [sp, #1326]
	str	w27, [sp, #1328]
	strh	w24, [sp, #1004]
	add	x24, sp, #1312
	stur	w9, [x25, #10]
	stur	x8, [x25, #2]
	strh	w26, [sp, #1018]
	str	w27, [sp, #1020]
	bl	"dm_symbol::symbol::writing::complete_in"
	ldr	q0, [x25]
	ldr	w8, [sp, #1020]
	add	x20, x29, #32
	add	x0, sp, #1004
	mov	x1, x23
	mov	x2, x20
	mov	x3, x19
	str	q0, [sp, #16]
	str	w8, [sp, #32]
	bl	"dm_layout::symbols::placing::lay_list"
	movi	v0.2d, #0000000000000000
	ldrh	w23, [sp, #16]
	ldrh	w21, [sp, #18]
	strh	w21, [x22, #8]
	mov	v0.h[3], w23
	str	d0, [x22], #90
	cbz	x23, .LBB60_29
	umull	x25, w21, w23
	sub	x8, x21, #145
	add	x26, x21, #16
	and	x27, x8, #0xfffffffffffffff0
	b	.LBB60_4
.LBB60_2:
	sub	x0, x22, #80
	add	x1, sp, #1312
	mov	x2, x21
	bl	memcpy
.LBB60_3:
	add	x20, x20, #16
	subs	x23, x23, #1
	add	x19, x19, #2
	add	x22, x22, x21
	add	x26, x26, x21
	b.eq	.LBB60_29
.LBB60_4:
	cmp	x26, x25
	b.ls	.LBB60_17
	movi	v0.2d, #0000000000000000
	str	q0, [sp, #1456]
	str	q0, [sp, #1440]
	str	q0, [sp, #1424]
	str	q0, [sp, #1408]
	str	q0, [sp, #1392]
	str	q0, [sp, #1376]
	str	q0, [sp, #1360]
	str	q0, [sp, #1344]
	str	q0, [sp, #1328]
	str	q0, [sp, #1312]
	cbz	w21, .LBB60_2
	ldp	x10, x9, [x20]
	adrp	x8, .LCPI60_0
	ldr	q0, [x8, :lo12:.LCPI60_0]
	adrp	x8, .LCPI60_1
	cmp	w21, #17
	fmov	s1, w10
	tbl	v2.16b, { v1.16b }, v0.16b
	ldr	q1, [x8, :lo12:.LCPI60_1]
	ldrh	w8, [x19]
	and	v3.16b, v2.16b, v1.16b
	movi	v2.16b, #1
	cmeq	v3.16b, v3.16b, #0
	bic	v3.16b, v2.16b, v3.16b
	str	q3, [sp, #1312]
	b.lo	.LBB60_14
	lsr	x11, x10, #16
	cmp	w21, #33
	fmov	s3, w11
	tbl	v3.16b, { v3.16b }, v0.16b
	and	v3.16b, v3.16b, v1.16b
	cmeq	v3.16b, v3.16b, #0
	bic	v2.16b, v2.16b, v3.16b
	str	q2, [sp, #1328]
	b.lo	.LBB60_14
	lsr	x11, x10, #32
	cmp	w21, #49
	fmov	s2, w11
	tbl	v2.16b, { v2.16b }, v0.16b
	and	v3.16b, v2.16b, v1.16b
	movi	v2.16b, #1
	cmeq	v3.16b, v3.16b, #0
	bic	v3.16b, v2.16b, v3.16b
	str	q3, [sp, #1344]
	b.lo	.LBB60_14
	lsr	x10, x10, #48
	cmp	w21, #65
	fmov	s3, w10
	tbl	v3.16b, { v3.16b }, v0.16b
	and	v3.16b, v3.16b, v1.16b
	cmeq	v3.16b, v3.16b, #0
	bic	v2.16b, v2.16b, v3.16b
	str	q2, [sp, #1360]
	b.lo	.LBB60_14
	fmov	s2, w9
	cmp	w21, #81
	tbl	v2.16b, { v2.16b }, v0.16b
	and	v3.16b, v2.16b, v1.16b
	movi	v2.16b, #1
	cmeq	v3.16b, v3.16b, #0
	bic	v3.16b, v2.16b, v3.16b
	str	q3, [sp, #1376]
	b.lo	.LBB60_14
	lsr	x10, x9, #16
	cmp	w21, #97
	fmov	s3, w10
	tbl	v3.16b, { v3.16b }, v0.16b
	and	v3.16b, v3.16b, v1.16b
	cmeq	v3.16b, v3.16b, #0
	bic	v2.16b, v2.16b, v3.16b
	str	q2, [sp, #1392]
	b.lo	.LBB60_14
	lsr	x10, x9, #32
	cmp	w21, #113
	fmov	s2, w10
	tbl	v2.16b, { v2.16b }, v0.16b
	and	v3.16b, v2.16b, v1.16b
	movi	v2.16b, #1
	cmeq	v3.16b, v3.16b, #0
	bic	v3.16b, v2.16b, v3.16b
	str	q3, [sp, #1408]
	b.lo	.LBB60_14
	lsr	x9, x9, #48
	fmov	s3, w9
	tbl	v3.16b, { v3.16b }, v0.16b
	and	v3.16b, v3.16b, v1.16b
	cmeq	v3.16b, v3.16b, #0
	bic	v2.16b, v2.16b, v3.16b
	str	q2, [sp, #1424]
.LBB60_14:
	cmp	w21, #129
	b.lo	.LBB60_2
	fmov	s2, w8
	cmp	w21, #145
	tbl	v0.16b, { v2.16b }, v0.16b
	and	v0.16b, v0.16b, v1.16b
	movi	v1.16b, #1
	cmeq	v0.16b, v0.16b, #0
	bic	v0.16b, v1.16b, v0.16b
	str	q0, [sp, #1440]
	b.lo	.LBB60_2
	add	x0, x24, #144
	add	x2, x27, #16
	mov	w1, wzr
	bl	memset
	b	.LBB60_2
.LBB60_17:
	cbz	w21, .LBB60_3
	ldp	x10, x9, [x20]
	adrp	x8, .LCPI60_0
	ldr	q0, [x8, :lo12:.LCPI60_0]
	adrp	x8, .LCPI60_1
	cmp	w21, #17
	fmov	s1, w10
	tbl	v2.16b, { v1.16b }, v0.16b
	ldr	q1, [x8, :lo12:.LCPI60_1]
	ldrh	w8, [x19]
	and	v3.16b, v2.16b, v1.16b
	movi	v2.16b, #1
	cmeq	v3.16b, v3.16b, #0
	bic	v3.16b, v2.16b, v3.16b
	stur	q3, [x22, #-80]
	b.lo	.LBB60_26
	lsr	x11, x10, #16
	cmp	w21, #33
	fmov	s3, w11
	tbl	v3.16b, { v3.16b }, v0.16b
	and	v3.16b, v3.16b, v1.16b
	cmeq	v3.16b, v3.16b, #0
	bic	v2.16b, v2.16b, v3.16b
	stur	q2, [x22, #-64]
	b.lo	.LBB60_26
	lsr	x11, x10, #32
	cmp	w21, #49
	fmov	s2, w11
	tbl	v2.16b, { v2.16b }, v0.16b
	and	v3.16b, v2.16b, v1.16b
	movi	v2.16b, #1
	cmeq	v3.16b, v3.16b, #0
	bic	v3.16b, v2.16b, v3.16b
	stur	q3, [x22, #-48]
	b.lo	.LBB60_26
	lsr	x10, x10, #48
	cmp	w21, #65
	fmov	s3, w10
	tbl	v3.16b, { v3.16b }, v0.16b
	and	v3.16b, v3.16b, v1.16b
	cmeq	v3.16b, v3.16b, #0
	bic	v2.16b, v2.16b, v3.16b
	stur	q2, [x22, #-32]
	b.lo	.LBB60_26
	fmov	s2, w9
	cmp	w21, #81
	tbl	v2.16b, { v2.16b }, v0.16b
	and	v3.16b, v2.16b, v1.16b
	movi	v2.16b, #1
	cmeq	v3.16b, v3.16b, #0
	bic	v3.16b, v2.16b, v3.16b
	stur	q3, [x22, #-16]
	b.lo	.LBB60_26
	lsr	x10, x9, #16
	cmp	w21, #97
	fmov	s3, w10
	tbl	v3.16b, { v3.16b }, v0.16b
	and	v3.16b, v3.16b, v1.16b
	cmeq	v3.16b, v3.16b, #0
	bic	v2.16b, v2.16b, v3.16b
	str	q2, [x22]
	b.lo	.LBB60_26
	lsr	x10, x9, #32
	cmp	w21, #113
	fmov	s2, w10
	tbl	v2.16b, { v2.16b }, v0.16b
	and	v3.16b, v2.16b, v1.16b
	movi	v2.16b, #1
	cmeq	v3.16b, v3.16b, #0
	bic	v3.16b, v2.16b, v3.16b
	str	q3, [x22, #16]
	b.lo	.LBB60_26
	lsr	x9, x9, #48
	fmov	s3, w9
	tbl	v3.16b, { v3.16b }, v0.16b
	and	v3.16b, v3.16b, v1.16b
	cmeq	v3.16b, v3.16b, #0
	bic	v2.16b, v2.16b, v3.16b
	str	q2, [x22, #32]
.LBB60_26:
	cmp	w21, #129
	b.lo	.LBB60_3
	fmov	s2, w8
	cmp	w21, #145
	tbl	v0.16b, { v2.16b }, v0.16b
	and	v0.16b, v0.16b, v1.16b
	movi	v1.16b, #1
	cmeq	v0.16b, v0.16b, #0
	bic	v0.16b, v1.16b, v0.16b
	str	q0, [x22, #48]
	b.lo	.LBB60_3
	add	x0, x22, #64
	add	x2, x27, #16
	mov	w1, wzr
	bl	memset
	b	.LBB60_3
.LBB60_29:
	add	sp, sp, #1472
	.cfi_def_cfa_offset 96
	ldp	x20, x19, [sp, #80]
	ldp	x22, x21, [sp, #64]
	ldp	x24, x23, [sp, #48]
	ldp	x26, x25, [sp, #32]
	ldp	x28, x27, [sp, #16]
	ldp	x29, x30, [sp], #96
	.cfi_def_cfa_offset 0
	.cfi_restore w19
	.cfi_restore w20
	.cfi_restore w21
	.cfi_restore w22
	.cfi_restore w23
	.cfi_restore w24
	.cfi_restore w25
	.cfi_restore w26
	.cfi_restore w27
	.cfi_restore w28
	.cfi_restore w30
	.cfi_restore w29
	ret
.Lfunc_end60:
	.size	"ecc200_calls::writing::show_words::<=52,=288>", .Lfunc_end60-"ecc200_calls::writing::show_words::<=52,=288>"
	.cfi_endproc

	.section	.rodata.cst16,"aM",@progbits,16
	.p2align	4, 0x0
.LCPI61_0:
	.byte	0
	.byte	0
	.byte	0
	.byte	0
	.byte	0
	.byte	0
	.byte	0
	.byte	0
	.byte	1
	.byte	1
	.byte	1
	.byte	1
	.byte	1
	.byte	1
	.byte	1
	.byte	1
.LCPI61_1:
	.byte	1
	.byte	2
	.byte	4
	.byte	8
	.byte	16
	.byte	32
	.byte	64
	.byte	128
	.byte	1
	.byte	2
	.byte	4
	.byte	8
	.byte	16
	.byte	32
	.byte	64
	.byte	128
	.text
	.p2align	2
	.type	"ecc200_calls::writing::show_words::<=104,=1152>",@function
"ecc200_calls::writing::show_words::<=104,=1152>":
	.cfi_startproc
	stp	x29, x30, [sp, #-96]!
	.cfi_def_cfa_offset 96
	stp	x28, x27, [sp, #16]
	stp	x26, x25, [sp, #32]
	stp	x24, x23, [sp, #48]
	stp	x22, x21, [sp, #64]
	stp	x20, x19, [sp, #80]
	.cfi_offset w19, -8
	.cfi_offset w20, -16
	.cfi_offset w21, -24
	.cfi_offset w22, -32
	.cfi_offset w23, -40
	.cfi_offset w24, -48
	.cfi_offset w25, -56
	.cfi_offset w26, -64
	.cfi_offset w27, -72
	.cfi_offset w28, -80
	.cfi_offset w30, -88
	.cfi_offset w29, -96
	sub	sp, sp, #3072
	.cfi_def_cfa_offset 3168
	str	xzr, [sp], #-176
	.cfi_def_cfa_offset 3344
	add	x24, sp, #1916
	mov	x20, x2
	mov	x21, x1
	mov	x19, x0
	ldrh	w23, [x0]
	ldrh	w25, [x0, #14]
	ldr	w26, [x0, #16]
	add	x0, x24, #20
	mov	w1, wzr
	mov	w2, #1152
	mov	x22, x3
	add	x27, sp, #3088
	bl	memset
	mov	x28, sp
	mov	w1, wzr
	mov	w2, #1676
	add	x0, x28, #20
	bl	memset
	movi	v0.2d, #0000000000000000
	ldur	x8, [x19, #2]
	ldur	w9, [x19, #10]
	add	x0, x24, #20
	add	x1, sp, #3088
	mov	x2, x21
	mov	x3, x20
	strh	w23, [sp, #3088]
	add	x19, x28, #1696
	stur	x8, [x27, #2]
	str	q0, [sp, #1696]
	str	q0, [sp, #1712]
	str	q0, [sp, #1728]
	str	q0, [sp, #1744]
	str	q0, [sp, #1760]
	str	q0, [sp, #1776]
	str	q0, [sp, #1792]
	str	q0, [sp, #1808]
	str	q0, [sp, #1824]
	str	q0, [sp, #1840]
	str	q0, [sp, #1856]
	str	q0, [sp, #1872]
	str	q0, [sp, #1888]
	stur	w9, [x27, #10]
	strh	w25, [sp, #3102]
	str	w26, [sp, #3104]
	strh	w23, [sp, #1916]
	add	x23, sp, #3088
	stur	w9, [x24, #10]
	stur	x8, [x24, #2]
	strh	w25, [sp, #1930]
	str	w26, [sp, #1932]
	bl	"dm_symbol::symbol::writing::complete_in"
	ldr	q0, [x24]
	ldr	w8, [sp, #1932]
	add	x20, x28, #32
	add	x0, sp, #1916
	add	x1, x24, #20
	mov	x2, x20
	mov	x3, x19
	str	q0, [sp]
	str	w8, [sp, #16]
	bl	"dm_layout::symbols::placing::lay_list"
	movi	v0.2d, #0000000000000000
	ldrh	w24, [sp]
	ldrh	w21, [sp, #2]
	strh	w21, [x22, #8]
	mov	v0.h[3], w24
	str	d0, [x22], #90
	cbz	x24, .LBB61_29
	umull	x25, w21, w24
	sub	x8, x21, #145
	add	x26, x21, #16
	and	x27, x8, #0xfffffffffffffff0
	b	.LBB61_4
.LBB61_2:
	sub	x0, x22, #80
	add	x1, sp, #3088
	mov	x2, x21
	bl	memcpy
.LBB61_3:
	add	x20, x20, #16
	subs	x24, x24, #1
	add	x19, x19, #2
	add	x22, x22, x21
	add	x26, x26, x21
	b.eq	.LBB61_29
.LBB61_4:
	cmp	x26, x25
	b.ls	.LBB61_17
	movi	v0.2d, #0000000000000000
	str	q0, [sp, #3232]
	str	q0, [sp, #3216]
	str	q0, [sp, #3200]
	str	q0, [sp, #3184]
	str	q0, [sp, #3168]
	str	q0, [sp, #3152]
	str	q0, [sp, #3136]
	str	q0, [sp, #3120]
	str	q0, [sp, #3104]
	str	q0, [sp, #3088]
	cbz	w21, .LBB61_2
	ldp	x10, x9, [x20]
	adrp	x8, .LCPI61_0
	ldr	q0, [x8, :lo12:.LCPI61_0]
	adrp	x8, .LCPI61_1
	cmp	w21, #17
	fmov	s1, w10
	tbl	v2.16b, { v1.16b }, v0.16b
	ldr	q1, [x8, :lo12:.LCPI61_1]
	ldrh	w8, [x19]
	and	v3.16b, v2.16b, v1.16b
	movi	v2.16b, #1
	cmeq	v3.16b, v3.16b, #0
	bic	v3.16b, v2.16b, v3.16b
	str	q3, [sp, #3088]
	b.lo	.LBB61_14
	lsr	x11, x10, #16
	cmp	w21, #33
	fmov	s3, w11
	tbl	v3.16b, { v3.16b }, v0.16b
	and	v3.16b, v3.16b, v1.16b
	cmeq	v3.16b, v3.16b, #0
	bic	v2.16b, v2.16b, v3.16b
	str	q2, [sp, #3104]
	b.lo	.LBB61_14
	lsr	x11, x10, #32
	cmp	w21, #49
	fmov	s2, w11
	tbl	v2.16b, { v2.16b }, v0.16b
	and	v3.16b, v2.16b, v1.16b
	movi	v2.16b, #1
	cmeq	v3.16b, v3.16b, #0
	bic	v3.16b, v2.16b, v3.16b
	str	q3, [sp, #3120]
	b.lo	.LBB61_14
	lsr	x10, x10, #48
	cmp	w21, #65
	fmov	s3, w10
	tbl	v3.16b, { v3.16b }, v0.16b
	and	v3.16b, v3.16b, v1.16b
	cmeq	v3.16b, v3.16b, #0
	bic	v2.16b, v2.16b, v3.16b
	str	q2, [sp, #3136]
	b.lo	.LBB61_14
	fmov	s2, w9
	cmp	w21, #81
	tbl	v2.16b, { v2.16b }, v0.16b
	and	v3.16b, v2.16b, v1.16b
	movi	v2.16b, #1
	cmeq	v3.16b, v3.16b, #0
	bic	v3.16b, v2.16b, v3.16b
	str	q3, [sp, #3152]
	b.lo	.LBB61_14
	lsr	x10, x9, #16
	cmp	w21, #97
	fmov	s3, w10
	tbl	v3.16b, { v3.16b }, v0.16b
	and	v3.16b, v3.16b, v1.16b
	cmeq	v3.16b, v3.16b, #0
	bic	v2.16b, v2.16b, v3.16b
	str	q2, [sp, #3168]
	b.lo	.LBB61_14
	lsr	x10, x9, #32
	cmp	w21, #113
	fmov	s2, w10
	tbl	v2.16b, { v2.16b }, v0.16b
	and	v3.16b, v2.16b, v1.16b
	movi	v2.16b, #1
	cmeq	v3.16b, v3.16b, #0
	bic	v3.16b, v2.16b, v3.16b
	str	q3, [sp, #3184]
	b.lo	.LBB61_14
	lsr	x9, x9, #48
	fmov	s3, w9
	tbl	v3.16b, { v3.16b }, v0.16b
	and	v3.16b, v3.16b, v1.16b
	cmeq	v3.16b, v3.16b, #0
	bic	v2.16b, v2.16b, v3.16b
	str	q2, [sp, #3200]
.LBB61_14:
	cmp	w21, #129
	b.lo	.LBB61_2
	fmov	s2, w8
	cmp	w21, #145
	tbl	v0.16b, { v2.16b }, v0.16b
	and	v0.16b, v0.16b, v1.16b
	movi	v1.16b, #1
	cmeq	v0.16b, v0.16b, #0
	bic	v0.16b, v1.16b, v0.16b
	str	q0, [sp, #3216]
	b.lo	.LBB61_2
	add	x0, x23, #144
	add	x2, x27, #16
	mov	w1, wzr
	bl	memset
	b	.LBB61_2
.LBB61_17:
	cbz	w21, .LBB61_3
	ldp	x10, x9, [x20]
	adrp	x8, .LCPI61_0
	ldr	q0, [x8, :lo12:.LCPI61_0]
	adrp	x8, .LCPI61_1
	cmp	w21, #17
	fmov	s1, w10
	tbl	v2.16b, { v1.16b }, v0.16b
	ldr	q1, [x8, :lo12:.LCPI61_1]
	ldrh	w8, [x19]
	and	v3.16b, v2.16b, v1.16b
	movi	v2.16b, #1
	cmeq	v3.16b, v3.16b, #0
	bic	v3.16b, v2.16b, v3.16b
	stur	q3, [x22, #-80]
	b.lo	.LBB61_26
	lsr	x11, x10, #16
	cmp	w21, #33
	fmov	s3, w11
	tbl	v3.16b, { v3.16b }, v0.16b
	and	v3.16b, v3.16b, v1.16b
	cmeq	v3.16b, v3.16b, #0
	bic	v2.16b, v2.16b, v3.16b
	stur	q2, [x22, #-64]
	b.lo	.LBB61_26
	lsr	x11, x10, #32
	cmp	w21, #49
	fmov	s2, w11
	tbl	v2.16b, { v2.16b }, v0.16b
	and	v3.16b, v2.16b, v1.16b
	movi	v2.16b, #1
	cmeq	v3.16b, v3.16b, #0
	bic	v3.16b, v2.16b, v3.16b
	stur	q3, [x22, #-48]
	b.lo	.LBB61_26
	lsr	x10, x10, #48
	cmp	w21, #65
	fmov	s3, w10
	tbl	v3.16b, { v3.16b }, v0.16b
	and	v3.16b, v3.16b, v1.16b
	cmeq	v3.16b, v3.16b, #0
	bic	v2.16b, v2.16b, v3.16b
	stur	q2, [x22, #-32]
	b.lo	.LBB61_26
	fmov	s2, w9
	cmp	w21, #81
	tbl	v2.16b, { v2.16b }, v0.16b
	and	v3.16b, v2.16b, v1.16b
	movi	v2.16b, #1
	cmeq	v3.16b, v3.16b, #0
	bic	v3.16b, v2.16b, v3.16b
	stur	q3, [x22, #-16]
	b.lo	.LBB61_26
	lsr	x10, x9, #16
	cmp	w21, #97
	fmov	s3, w10
	tbl	v3.16b, { v3.16b }, v0.16b
	and	v3.16b, v3.16b, v1.16b
	cmeq	v3.16b, v3.16b, #0
	bic	v2.16b, v2.16b, v3.16b
	str	q2, [x22]
	b.lo	.LBB61_26
	lsr	x10, x9, #32
	cmp	w21, #113
	fmov	s2, w10
	tbl	v2.16b, { v2.16b }, v0.16b
	and	v3.16b, v2.16b, v1.16b
	movi	v2.16b, #1
	cmeq	v3.16b, v3.16b, #0
	bic	v3.16b, v2.16b, v3.16b
	str	q3, [x22, #16]
	b.lo	.LBB61_26
	lsr	x9, x9, #48
	fmov	s3, w9
	tbl	v3.16b, { v3.16b }, v0.16b
	and	v3.16b, v3.16b, v1.16b
	cmeq	v3.16b, v3.16b, #0
	bic	v2.16b, v2.16b, v3.16b
	str	q2, [x22, #32]
.LBB61_26:
	cmp	w21, #129
	b.lo	.LBB61_3
	fmov	s2, w8
	cmp	w21, #145
	tbl	v0.16b, { v2.16b }, v0.16b
	and	v0.16b, v0.16b, v1.16b
	movi	v1.16b, #1
	cmeq	v0.16b, v0.16b, #0
	bic	v0.16b, v1.16b, v0.16b
	str	q0, [x22, #48]
	b.lo	.LBB61_3
	add	x0, x22, #64
	add	x2, x27, #16
	mov	w1, wzr
	bl	memset
	b	.LBB61_3
.LBB61_29:
	add	sp, sp, #3248
	.cfi_def_cfa_offset 96
	ldp	x20, x19, [sp, #80]
	ldp	x22, x21, [sp, #64]
	ldp	x24, x23, [sp, #48]
	ldp	x26, x25, [sp, #32]
	ldp	x28, x27, [sp, #16]
	ldp	x29, x30, [sp], #96
	.cfi_def_cfa_offset 0
	.cfi_restore w19
	.cfi_restore w20
	.cfi_restore w21
	.cfi_restore w22
	.cfi_restore w23
	.cfi_restore w24
	.cfi_restore w25
	.cfi_restore w26
	.cfi_restore w27
	.cfi_restore w28
	.cfi_restore w30
	.cfi_restore w29
	ret
.Lfunc_end61:
	.size	"ecc200_calls::writing::show_words::<=104,=1152>", .Lfunc_end61-"ecc200_calls::writing::show_words::<=104,=1152>"
	.cfi_endproc

	.section	.rodata.cst16,"aM",@progbits,16
	.p2align	4, 0x0
.LCPI62_0:
	.byte	0
	.byte	0
	.byte	0
	.byte	0
	.byte	0
	.byte	0
	.byte	0
	.byte	0
	.byte	1
	.byte	1
	.byte	1
	.byte	1
	.byte	1
	.byte	1
	.byte	1
	.byte	1
.LCPI62_1:
	.byte	1
	.byte	2
	.byte	4
	.byte	8
	.byte	16
	.byte	32
	.byte	64
	.byte	128
	.byte	1
	.byte	2
	.byte	4
	.byte	8
	.byte	16
	.byte	32
	.byte	64
	.byte	128
	.text
	.p2align	2
	.type	"ecc200_calls::writing::show_words::<=144,=2178>",@function
"ecc200_calls::writing::show_words::<=144,=2178>":
	.cfi_startproc
	stp	x29, x30, [sp, #-96]!
	.cfi_def_cfa_offset 96
	stp	x28, x27, [sp, #16]
	stp	x26, x25, [sp, #32]
	stp	x24, x23, [sp, #48]
	stp	x22, x21, [sp, #64]
	stp	x20, x19, [sp, #80]
	.cfi_offset w19, -8
	.cfi_offset w20, -16
	.cfi_offset w21, -24
	.cfi_offset w22, -32
	.cfi_offset w23, -40
	.cfi_offset w24, -48
	.cfi_offset w25, -56
	.cfi_offset w26, -64
	.cfi_offset w27, -72
	.cfi_offset w28, -80
	.cfi_offset w30, -88
	.cfi_offset w29, -96
	sub	sp, sp, #3072
	.cfi_def_cfa_offset 3168
	str	xzr, [sp]
	sub	sp, sp, #1920
	.cfi_def_cfa_offset 5088
	str	xzr, [sp]
	add	x24, sp, #2632
	mov	x20, x2
	mov	x21, x1
	mov	x19, x0
	ldrh	w23, [x0]
	ldrh	w25, [x0, #14]
	ldr	w26, [x0, #16]
	add	x27, sp, #1, lsl #12
	add	x0, x24, #20
	mov	w1, wzr
	mov	w2, #2178
	mov	x22, x3
	add	x27, x27, #736
	bl	memset
	mov	x28, sp
	mov	w1, wzr
	mov	w2, #2316
	add	x0, x28, #20
	bl	memset
	movi	v0.2d, #0000000000000000
	ldur	x8, [x19, #2]
	ldur	w9, [x19, #10]
	add	x1, sp, #1, lsl #12
	strh	w23, [sp, #4832]
	add	x0, x24, #20
	strh	w23, [sp, #2632]
	add	x1, x1, #736
	mov	x2, x21
	mov	x3, x20
	add	x23, sp, #1, lsl #12
	stur	x8, [x27, #2]
	str	q0, [sp, #2336]
	add	x19, x28, #2336
	add	x23, x23, #736
	str	q0, [sp, #2352]
	str	q0, [sp, #2368]
	str	q0, [sp, #2384]
	str	q0, [sp, #2400]
	str	q0, [sp, #2416]
	str	q0, [sp, #2432]
	str	q0, [sp, #2448]
	str	q0, [sp, #2464]
	str	q0, [sp, #2480]
	str	q0, [sp, #2496]
	str	q0, [sp, #2512]
	str	q0, [sp, #2528]
	str	q0, [sp, #2544]
	str	q0, [sp, #2560]
	str	q0, [sp, #2576]
	str	q0, [sp, #2592]
	str	q0, [sp, #2608]
	stur	w9, [x27, #10]
	strh	w25, [sp, #4846]
	str	w26, [sp, #4848]
	stur	x8, [x24, #2]
	stur	w9, [x24, #10]
	strh	w25, [sp, #2646]
	str	w26, [sp, #2648]
	bl	"dm_symbol::symbol::writing::complete_in"
	ldr	q0, [x24]
	ldr	w8, [sp, #2648]
	add	x20, x28, #32
	add	x0, sp, #2632
	add	x1, x24, #20
	mov	x2, x20
	mov	x3, x19
	str	q0, [sp]
	str	w8, [sp, #16]
	bl	"dm_layout::symbols::placing::lay_list"
	movi	v0.2d, #0000000000000000
	ldrh	w24, [sp]
	ldrh	w21, [sp, #2]
	strh	w21, [x22, #8]
	mov	v0.h[3], w24
	str	d0, [x22], #90
	cbz	x24, .LBB62_29
	umull	x25, w21, w24
	sub	x8, x21, #145
	add	x26, x21, #16
	and	x27, x8, #0xfffffffffffffff0
	b	.LBB62_4
.LBB62_2:
	add	x1, sp, #1, lsl #12
	sub	x0, x22, #80
	mov	x2, x21
	add	x1, x1, #736
	bl	memcpy
.LBB62_3:
	add	x20, x20, #16
	subs	x24, x24, #1
	add	x19, x19, #2
	add	x22, x22, x21
	add	x26, x26, x21
	b.eq	.LBB62_29
.LBB62_4:
	cmp	x26, x25
	b.ls	.LBB62_17
	movi	v0.2d, #0000000000000000
	str	q0, [sp, #4976]
	str	q0, [sp, #4960]
	str	q0, [sp, #4944]
	str	q0, [sp, #4928]
	str	q0, [sp, #4912]
	str	q0, [sp, #4896]
	str	q0, [sp, #4880]
	str	q0, [sp, #4864]
	str	q0, [sp, #4848]
	str	q0, [sp, #4832]
	cbz	w21, .LBB62_2
	ldp	x10, x9, [x20]
	adrp	x8, .LCPI62_0
	ldr	q0, [x8, :lo12:.LCPI62_0]
	adrp	x8, .LCPI62_1
	cmp	w21, #17
	fmov	s1, w10
	tbl	v2.16b, { v1.16b }, v0.16b
	ldr	q1, [x8, :lo12:.LCPI62_1]
	ldrh	w8, [x19]
	and	v3.16b, v2.16b, v1.16b
	movi	v2.16b, #1
	cmeq	v3.16b, v3.16b, #0
	bic	v3.16b, v2.16b, v3.16b
	str	q3, [sp, #4832]
	b.lo	.LBB62_14
	lsr	x11, x10, #16
	cmp	w21, #33
	fmov	s3, w11
	tbl	v3.16b, { v3.16b }, v0.16b
	and	v3.16b, v3.16b, v1.16b
	cmeq	v3.16b, v3.16b, #0
	bic	v2.16b, v2.16b, v3.16b
	str	q2, [sp, #4848]
	b.lo	.LBB62_14
	lsr	x11, x10, #32
	cmp	w21, #49
	fmov	s2, w11
	tbl	v2.16b, { v2.16b }, v0.16b
	and	v3.16b, v2.16b, v1.16b
	movi	v2.16b, #1
	cmeq	v3.16b, v3.16b, #0
	bic	v3.16b, v2.16b, v3.16b
	str	q3, [sp, #4864]
	b.lo	.LBB62_14
	lsr	x10, x10, #48
	cmp	w21, #65
	fmov	s3, w10
	tbl	v3.16b, { v3.16b }, v0.16b
	and	v3.16b, v3.16b, v1.16b
	cmeq	v3.16b, v3.16b, #0
	bic	v2.16b, v2.16b, v3.16b
	str	q2, [sp, #4880]
	b.lo	.LBB62_14
	fmov	s2, w9
	cmp	w21, #81
	tbl	v2.16b, { v2.16b }, v0.16b
	and	v3.16b, v2.16b, v1.16b
	movi	v2.16b, #1
	cmeq	v3.16b, v3.16b, #0
	bic	v3.16b, v2.16b, v3.16b
	str	q3, [sp, #4896]
	b.lo	.LBB62_14
	lsr	x10, x9, #16
	cmp	w21, #97
	fmov	s3, w10
	tbl	v3.16b, { v3.16b }, v0.16b
	and	v3.16b, v3.16b, v1.16b
	cmeq	v3.16b, v3.16b, #0
	bic	v2.16b, v2.16b, v3.16b
	str	q2, [sp, #4912]
	b.lo	.LBB62_14
	lsr	x10, x9, #32
	cmp	w21, #113
	fmov	s2, w10
	tbl	v2.16b, { v2.16b }, v0.16b
	and	v3.16b, v2.16b, v1.16b
	movi	v2.16b, #1
	cmeq	v3.16b, v3.16b, #0
	bic	v3.16b, v2.16b, v3.16b
	str	q3, [sp, #4928]
	b.lo	.LBB62_14
	lsr	x9, x9, #48
	fmov	s3, w9
	tbl	v3.16b, { v3.16b }, v0.16b
	and	v3.16b, v3.16b, v1.16b
	cmeq	v3.16b, v3.16b, #0
	bic	v2.16b, v2.16b, v3.16b
	str	q2, [sp, #4944]
.LBB62_14:
	cmp	w21, #129
	b.lo	.LBB62_2
	fmov	s2, w8
	cmp	w21, #145
	tbl	v0.16b, { v2.16b }, v0.16b
	and	v0.16b, v0.16b, v1.16b
	movi	v1.16b, #1
	cmeq	v0.16b, v0.16b, #0
	bic	v0.16b, v1.16b, v0.16b
	str	q0, [sp, #4960]
	b.lo	.LBB62_2
	add	x0, x23, #144
	add	x2, x27, #16
	mov	w1, wzr
	bl	memset
	b	.LBB62_2
.LBB62_17:
	cbz	w21, .LBB62_3
	ldp	x10, x9, [x20]
	adrp	x8, .LCPI62_0
	ldr	q0, [x8, :lo12:.LCPI62_0]
	adrp	x8, .LCPI62_1
	cmp	w21, #17
	fmov	s1, w10
	tbl	v2.16b, { v1.16b }, v0.16b
	ldr	q1, [x8, :lo12:.LCPI62_1]
	ldrh	w8, [x19]
	and	v3.16b, v2.16b, v1.16b
	movi	v2.16b, #1
	cmeq	v3.16b, v3.16b, #0
	bic	v3.16b, v2.16b, v3.16b
	stur	q3, [x22, #-80]
	b.lo	.LBB62_26
	lsr	x11, x10, #16
	cmp	w21, #33
	fmov	s3, w11
	tbl	v3.16b, { v3.16b }, v0.16b
	and	v3.16b, v3.16b, v1.16b
	cmeq	v3.16b, v3.16b, #0
	bic	v2.16b, v2.16b, v3.16b
	stur	q2, [x22, #-64]
	b.lo	.LBB62_26
	lsr	x11, x10, #32
	cmp	w21, #49
	fmov	s2, w11
	tbl	v2.16b, { v2.16b }, v0.16b
	and	v3.16b, v2.16b, v1.16b
	movi	v2.16b, #1
	cmeq	v3.16b, v3.16b, #0
	bic	v3.16b, v2.16b, v3.16b
	stur	q3, [x22, #-48]
	b.lo	.LBB62_26
	lsr	x10, x10, #48
	cmp	w21, #65
	fmov	s3, w10
	tbl	v3.16b, { v3.16b }, v0.16b
	and	v3.16b, v3.16b, v1.16b
	cmeq	v3.16b, v3.16b, #0
	bic	v2.16b, v2.16b, v3.16b
	stur	q2, [x22, #-32]
	b.lo	.LBB62_26
	fmov	s2, w9
	cmp	w21, #81
	tbl	v2.16b, { v2.16b }, v0.16b
	and	v3.16b, v2.16b, v1.16b
	movi	v2.16b, #1
	cmeq	v3.16b, v3.16b, #0
	bic	v3.16b, v2.16b, v3.16b
	stur	q3, [x22, #-16]
	b.lo	.LBB62_26
	lsr	x10, x9, #16
	cmp	w21, #97
	fmov	s3, w10
	tbl	v3.16b, { v3.16b }, v0.16b
	and	v3.16b, v3.16b, v1.16b
	cmeq	v3.16b, v3.16b, #0
	bic	v2.16b, v2.16b, v3.16b
	str	q2, [x22]
	b.lo	.LBB62_26
	lsr	x10, x9, #32
	cmp	w21, #113
	fmov	s2, w10
	tbl	v2.16b, { v2.16b }, v0.16b
	and	v3.16b, v2.16b, v1.16b
	movi	v2.16b, #1
	cmeq	v3.16b, v3.16b, #0
	bic	v3.16b, v2.16b, v3.16b
	str	q3, [x22, #16]
	b.lo	.LBB62_26
	lsr	x9, x9, #48
	fmov	s3, w9
	tbl	v3.16b, { v3.16b }, v0.16b
	and	v3.16b, v3.16b, v1.16b
	cmeq	v3.16b, v3.16b, #0
	bic	v2.16b, v2.16b, v3.16b
	str	q2, [x22, #32]
.LBB62_26:
	cmp	w21, #129
	b.lo	.LBB62_3
	fmov	s2, w8
	cmp	w21, #145
	tbl	v0.16b, { v2.16b }, v0.16b
	and	v0.16b, v0.16b, v1.16b
	movi	v1.16b, #1
	cmeq	v0.16b, v0.16b, #0
	bic	v0.16b, v1.16b, v0.16b
	str	q0, [x22, #48]
	b.lo	.LBB62_3
	add	x0, x22, #64
	add	x2, x27, #16
	mov	w1, wzr
	bl	memset
	b	.LBB62_3
.LBB62_29:
	add	sp, sp, #1, lsl #12
	.cfi_def_cfa_offset 992
	add	sp, sp, #896
	.cfi_def_cfa_offset 96
	ldp	x20, x19, [sp, #80]
	ldp	x22, x21, [sp, #64]
	ldp	x24, x23, [sp, #48]
	ldp	x26, x25, [sp, #32]
	ldp	x28, x27, [sp, #16]
	ldp	x29, x30, [sp], #96
	.cfi_def_cfa_offset 0
	.cfi_restore w19
	.cfi_restore w20
	.cfi_restore w21
	.cfi_restore w22
	.cfi_restore w23
	.cfi_restore w24
	.cfi_restore w25
	.cfi_restore w26
	.cfi_restore w27
	.cfi_restore w28
	.cfi_restore w30
	.cfi_restore w29
	ret
.Lfunc_end62:
	.size	"ecc200_calls::writing::show_words::<=144,=2178>", .Lfunc_end62-"ecc200_calls::writing::show_words::<=144,=2178>"
	.cfi_endproc

	.p2align	2
	.type	"ecc200_calls::answer::answer_given::<#e937d748901de80e>",@function
"ecc200_calls::answer::answer_given::<#e937d748901de80e>":
	.cfi_startproc
	sub	sp, sp, #480
	.cfi_def_cfa_offset 480
	stp	x29, x30, [sp, #448]
	stp	x20, x19, [sp, #464]
	.cfi_offset w19, -8
	.cfi_offset w20, -16
	.cfi_offset w30, -24
	.cfi_offset w29, -32
	.cfi_remember_state
	ldr	q0, [x6]
	ldr	x8, [x1]
	mov	x19, x7
	ldrh	w9, [x1, #8]
	mov	x20, x0
	add	x0, sp, #16
	str	q0, [sp, #400]
	movi	v0.2d, #0000000000000000
	add	x1, sp, #432
	str	x8, [sp, #432]
	ldur	x8, [x6, #14]
	add	x6, sp, #400
	strh	w9, [sp, #440]
	add	x9, sp, #159
	add	x7, sp, #92
	stur	x8, [x9, #255]
	add	x8, sp, #92
	add	x9, x8, #20
	stur	q0, [x8, #52]
	stur	q0, [x8, #68]
	stur	q0, [x8, #84]
	stur	q0, [x8, #100]
	stur	q0, [x8, #116]
	stur	q0, [x8, #132]
	stur	q0, [x8, #148]
	stur	q0, [x8, #164]
	stur	q0, [x8, #180]
	stur	q0, [x8, #196]
	stur	q0, [x8, #212]
	stur	q0, [x8, #228]
	stur	q0, [x8, #244]
	add	x8, sp, #32
	str	xzr, [sp, #16]
	strh	wzr, [sp, #24]
	stp	q0, q0, [x9, #240]
	str	q0, [x9, #272]
	stp	q0, q0, [sp, #112]
	str	xzr, [sp, #80]
	stp	q0, q0, [sp, #48]
	str	q0, [sp, #32]
	str	x8, [sp]
	bl	"ecc200_calls::restoring::restore_given::<=52,=288>"
	ldrb	w8, [sp, #16]
	cbz	w8, .LBB63_6
	ldrb	w9, [sp, #18]
	ldrh	w8, [sp, #20]
	cbz	w9, .LBB63_7
	cmp	w9, #2
	b.ne	.LBB63_8
	and	w8, w8, #0xff
	ldrh	w9, [sp, #22]
	cmp	w8, #2
	b.eq	.LBB63_9
	cmp	w8, #1
	b.ne	.LBB63_12
	mov	w8, wzr
	mov	w11, #20
	b	.LBB63_10
.LBB63_6:
	ldrb	w1, [sp, #436]
	add	x2, sp, #92
	mov	x0, x20
	mov	x3, x19
	bl	"ecc200_calls::answer::answer_words::<#d32d35a8039035b6>"
	b	.LBB63_11
.LBB63_7:
	mov	w11, #5
	b	.LBB63_10
.LBB63_8:
	ldrb	w9, [sp, #19]
	mov	w8, wzr
	mov	w11, #6
	b	.LBB63_10
.LBB63_9:
	mov	w8, wzr
	mov	w11, #21
.LBB63_10:
	strh	w11, [x19]
	strh	w8, [x19, #2]
	strh	w9, [x19, #4]
	stur	wzr, [x19, #6]
.LBB63_11:
	ldp	x20, x19, [sp, #464]
	ldp	x29, x30, [sp, #448]
	add	sp, sp, #480
	.cfi_def_cfa_offset 0
	.cfi_restore w19
	.cfi_restore w20
	.cfi_restore w30
	.cfi_restore w29
	ret
.LBB63_12:
	.cfi_restore_state
	ldrh	w10, [sp, #24]
	and	w8, w9, #0xff
	cmp	w8, #2
	b.le	.LBB63_16
	cmp	w8, #4
	b.gt	.LBB63_19
	cmp	w8, #3
	b.ne	.LBB63_23
	mov	w8, wzr
	mov	w11, #10
	mov	w9, w10
	b	.LBB63_10
.LBB63_16:
	cbz	w8, .LBB63_21
	cmp	w8, #1
	b.ne	.LBB63_22
	lsr	w8, w9, #8
	mov	w11, #8
	mov	w9, w10
	b	.LBB63_10
.LBB63_19:
	cmp	w8, #5
	b.ne	.LBB63_24
	mov	w8, wzr
	mov	w11, #12
	mov	w9, w10
	b	.LBB63_10
.LBB63_21:
	mov	w11, #7
	mov	w9, w10
	b	.LBB63_10
.LBB63_22:
	mov	w8, wzr
	mov	w11, #9
	mov	w9, w10
	b	.LBB63_10
.LBB63_23:
	mov	w8, wzr
	mov	w11, #11
	mov	w9, w10
	b	.LBB63_10
.LBB63_24:
	mov	w8, wzr
	mov	w11, #13
	mov	w9, w10
	b	.LBB63_10
.Lfunc_end63:
	.size	"ecc200_calls::answer::answer_given::<#e937d748901de80e>", .Lfunc_end63-"ecc200_calls::answer::answer_given::<#e937d748901de80e>"
	.cfi_endproc

	.p2align	2
	.type	"ecc200_calls::restoring::restore_given::<=52,=288>",@function
"ecc200_calls::restoring::restore_given::<=52,=288>":
	.cfi_startproc
	stp	x29, x30, [sp, #-96]!
	.cfi_def_cfa_offset 96
	stp	x28, x27, [sp, #16]
	stp	x26, x25, [sp, #32]
	stp	x24, x23, [sp, #48]
	stp	x22, x21, [sp, #64]
	stp	x20, x19, [sp, #80]
	.cfi_offset w19, -8
	.cfi_offset w20, -16
	.cfi_offset w21, -24
	.cfi_offset w22, -32
	.cfi_offset w23, -40
	.cfi_offset w24, -48
	.cfi_offset w25, -56
	.cfi_offset w26, -64
	.cfi_offset w27, -72
	.cfi_offset w28, -80
	.cfi_offset w30, -88
	.cfi_offset w29, -96
	sub	sp, sp, #2096
	.cfi_def_cfa_offset 2192
	ldr	x8, [sp, #2192]
	str	xzr, [sp]
	add	x23, sp, #1024
	ldrb	w9, [x1, #4]
	ldur	q0, [x6, #2]
	mov	x28, x2
	str	x8, [sp, #40]
	ldrh	w8, [x1, #8]
	mov	x19, x0
	ldrb	w29, [x1, #6]
	ldrh	w22, [x6]
	add	x0, x23, #20
	stp	w8, w9, [sp, #32]
	ldrh	w8, [x6, #18]
	mov	w1, wzr
	ldrb	w21, [x6, #20]
	mov	w2, #844
	mov	x20, x7
	mov	x26, x6
	mov	x24, x5
	mov	x25, x4
	mov	x27, x3
	stur	q0, [x23, #2]
	strh	w8, [sp, #1042]
	bl	memset
	movi	v0.2d, #0000000000000000
	add	x0, sp, #1024
	mov	x1, x28
	mov	x2, x27
	strh	w22, [sp, #1024]
	str	q0, [sp, #1888]
	str	q0, [sp, #1904]
	str	q0, [sp, #1920]
	str	q0, [sp, #1936]
	str	q0, [sp, #1952]
	str	q0, [sp, #1968]
	str	q0, [sp, #1984]
	bl	"ecc200_calls::modules::put_modules::<=52>"
	tbz	w21, #0, .LBB64_3
	ldurh	w8, [x26, #18]
	ldur	q0, [x26, #2]
	mov	w1, wzr
	mov	w2, #956
	strh	w22, [sp, #48]
	strh	w8, [sp, #66]
	add	x8, sp, #48
	add	x0, x8, #20
	stur	q0, [sp, #50]
	bl	memset
	add	x0, sp, #48
	mov	x1, x25
	mov	x2, x24
	bl	"ecc200_calls::modules::put_modules::<=52>"
	add	x0, sp, #2032
	add	x2, sp, #1024
	add	x4, sp, #48
	strh	wzr, [sp, #2040]
	str	xzr, [sp, #2032]
	cbz	w29, .LBB64_5
	ldr	w1, [sp, #36]
	ldr	x6, [sp, #40]
	mov	w3, #1
	mov	x5, x20
	bl	"ecc200_calls::restoring::restore_surely::<=52,=288>"
	b	.LBB64_6
.LBB64_3:
	strh	wzr, [sp, #2008]
	str	xzr, [sp, #2000]
	cbz	w29, .LBB64_7
	ldr	w1, [sp, #36]
	ldr	x6, [sp, #40]
	add	x0, sp, #2000
	add	x2, sp, #1024
	mov	w3, wzr
	mov	x4, xzr
	mov	x5, x20
	bl	"ecc200_calls::restoring::restore_surely::<=52,=288>"
	ldrb	w8, [sp, #2000]
	ldrb	w9, [sp, #2002]
	ldrb	w10, [sp, #2003]
	ldrh	w11, [sp, #2004]
	ldrh	w12, [sp, #2006]
	ldrh	w13, [sp, #2008]
	b	.LBB64_8
.LBB64_5:
	ldp	w5, w1, [sp, #32]
	ldr	x7, [sp, #40]
	mov	w3, #1
	mov	x6, x20
	bl	"ecc200_calls::restoring::restore_within::<=52,=288>"
.LBB64_6:
	ldrb	w8, [sp, #2032]
	ldrb	w9, [sp, #2034]
	ldrb	w10, [sp, #2035]
	ldrh	w11, [sp, #2036]
	ldrh	w12, [sp, #2038]
	ldrh	w13, [sp, #2040]
	b	.LBB64_8
.LBB64_7:
	ldr	x8, [sp, #1024]
	ldur	x9, [x23, #6]
	mov	w2, wzr
	ldrh	w10, [sp, #1038]
	ldr	x7, [sp, #40]
	mov	x3, xzr
	str	x8, [x20]
	ldr	w8, [sp, #1040]
	add	x0, sp, #2016
	ldp	w5, w4, [sp, #32]
	str	w8, [x20, #16]
	ldr	q0, [sp, #1024]
	add	x1, sp, #2032
	str	w8, [sp, #2048]
	add	x8, sp, #1024
	add	x6, x20, #20
	add	x8, x8, #32
	stur	x9, [x20, #6]
	mov	w9, #52
	str	x8, [sp, #2056]
	add	x8, x23, #864
	strh	w10, [x20, #14]
	add	x10, x7, #48
	str	x8, [sp, #2072]
	add	x8, x7, #8
	strh	wzr, [sp, #2024]
	str	xzr, [sp, #2016]
	str	q0, [sp, #2032]
	str	wzr, [sp, #2052]
	str	x9, [sp, #2064]
	str	x9, [sp, #2080]
	stp	x8, x10, [sp]
	bl	"dm_symbol::symbol::reading::restore"
	ldrb	w8, [sp, #2016]
	ldrb	w9, [sp, #2018]
	ldrb	w10, [sp, #2019]
	ldrh	w11, [sp, #2020]
	ldrh	w12, [sp, #2022]
	ldrh	w13, [sp, #2024]
.LBB64_8:
	strb	w8, [x19]
	strb	w9, [x19, #2]
	strb	w10, [x19, #3]
	strh	w11, [x19, #4]
	strh	w12, [x19, #6]
	strh	w13, [x19, #8]
	add	sp, sp, #2096
	.cfi_def_cfa_offset 96
	ldp	x20, x19, [sp, #80]
	ldp	x22, x21, [sp, #64]
	ldp	x24, x23, [sp, #48]
	ldp	x26, x25, [sp, #32]
	ldp	x28, x27, [sp, #16]
	ldp	x29, x30, [sp], #96
	.cfi_def_cfa_offset 0
	.cfi_restore w19
	.cfi_restore w20
	.cfi_restore w21
	.cfi_restore w22
	.cfi_restore w23
	.cfi_restore w24
	.cfi_restore w25
	.cfi_restore w26
	.cfi_restore w27
	.cfi_restore w28
	.cfi_restore w30
	.cfi_restore w29
	ret
.Lfunc_end64:
	.size	"ecc200_calls::restoring::restore_given::<=52,=288>", .Lfunc_end64-"ecc200_calls::restoring::restore_given::<=52,=288>"
	.cfi_endproc

	.p2align	2
	.type	"ecc200_calls::restoring::restore_within::<=52,=288>",@function
"ecc200_calls::restoring::restore_within::<=52,=288>":
	.cfi_startproc
	sub	sp, sp, #256
	.cfi_def_cfa_offset 256
	str	x30, [sp, #192]
	stp	x24, x23, [sp, #208]
	stp	x22, x21, [sp, #224]
	stp	x20, x19, [sp, #240]
	.cfi_offset w19, -8
	.cfi_offset w20, -16
	.cfi_offset w21, -24
	.cfi_offset w22, -32
	.cfi_offset w23, -40
	.cfi_offset w24, -48
	.cfi_offset w30, -64
	ldp	x9, x8, [x2]
	mov	x20, x7
	ldr	w10, [x2, #16]
	mov	x21, x6
	mov	w23, w5
	mov	w22, w1
	mov	x19, x0
	tst	w3, #0xff
	stp	x9, x8, [x6]
	add	x9, x2, #32
	str	w10, [x6, #16]
	ldr	w8, [x2, #16]
	ldr	q0, [x2]
	strh	wzr, [sp, #24]
	str	xzr, [sp, #16]
	stp	w8, wzr, [sp, #176]
	ldr	x8, [sp, #176]
	str	q0, [sp, #160]
	str	q0, [sp, #96]
	stp	x8, x9, [sp, #112]
	mov	w9, #52
	add	x8, x2, #864
	stp	x9, x8, [sp, #128]
	add	x8, x7, #8
	str	x9, [sp, #144]
	b.eq	.LBB65_4
	ldr	w8, [x4, #16]
	ldr	q0, [x4]
	mov	w9, #52
	add	x0, sp, #96
	add	x2, sp, #32
	mov	w1, #1
	stp	w8, wzr, [sp, #48]
	add	x8, x4, #32
	mov	w24, #1
	stp	x8, x9, [sp, #56]
	add	x8, x4, #864
	str	q0, [sp, #32]
	stp	x8, x9, [sp, #72]
	bl	"dm_layout::symbols::border::border_faults"
	and	w8, w23, #0xffff
	cmp	w8, w0, uxth
	b.hs	.LBB65_5
	mov	w8, wzr
	mov	w9, wzr
	mov	w1, wzr
.LBB65_3:
	mov	w21, wzr
	b	.LBB65_12
.LBB65_4:
	add	x9, x20, #48
	mov	w2, wzr
	mov	x3, xzr
	add	x0, sp, #16
	add	x1, sp, #96
	add	x6, x21, #20
	mov	w4, w22
	mov	w5, w23
	mov	x7, x20
	stp	x8, x9, [sp]
	bl	"dm_symbol::symbol::reading::restore"
	ldrb	w24, [sp, #16]
	ldrb	w21, [sp, #18]
	ldrb	w1, [sp, #19]
	ldrh	w0, [sp, #20]
	ldrh	w9, [sp, #22]
	ldrh	w8, [sp, #24]
	b	.LBB65_12
.LBB65_5:
	ldrh	w8, [sp, #108]
	ldrh	w9, [sp, #110]
	add	x1, x21, #20
	strh	w0, [x20, #48]
	add	x0, sp, #96
	add	w23, w9, w8
	bl	"dm_layout::symbols::placing::lift_to"
	add	x0, sp, #160
	add	x1, x21, #20
	and	x2, x23, #0xffff
	add	x4, sp, #32
	add	x5, x20, #8
	mov	w3, wzr
	strb	wzr, [x20]
	bl	"dm_symbol::symbol::reading::restore_doubtful"
	and	w8, w0, #0xff
	cmp	w8, #1
	b.ne	.LBB65_9
	tst	w22, #0xff
	b.eq	.LBB65_10
	mov	w22, w1
	add	x0, sp, #96
	add	x2, sp, #32
	add	x3, x21, #20
	and	x4, x23, #0xffff
	add	x5, x20, #8
	mov	w1, #1
	mov	w21, #1
	bl	"dm_symbol::symbol::dealing::restore_restarted"
	mov	w8, wzr
	mov	w9, wzr
	cbz	w0, .LBB65_11
	mov	w0, wzr
	mov	w1, wzr
	mov	w24, wzr
	strb	w21, [x20]
	b	.LBB65_3
.LBB65_9:
	mov	w8, wzr
	mov	w9, wzr
	mov	w0, wzr
	mov	w1, wzr
	mov	w21, wzr
	mov	w24, wzr
	b	.LBB65_12
.LBB65_10:
	mov	w8, wzr
	mov	w9, wzr
	mov	w0, wzr
	mov	w21, #1
	mov	w24, #1
	b	.LBB65_12
.LBB65_11:
	mov	w24, #1
	mov	w1, w22
.LBB65_12:
	strb	w24, [x19]
	ldp	x24, x23, [sp, #208]
	strb	w21, [x19, #2]
	ldr	x30, [sp, #192]
	strb	w1, [x19, #3]
	ldp	x22, x21, [sp, #224]
	strh	w0, [x19, #4]
	strh	w9, [x19, #6]
	strh	w8, [x19, #8]
	ldp	x20, x19, [sp, #240]
	add	sp, sp, #256
	.cfi_def_cfa_offset 0
	.cfi_restore w19
	.cfi_restore w20
	.cfi_restore w21
	.cfi_restore w22
	.cfi_restore w23
	.cfi_restore w24
	.cfi_restore w30
	ret
.Lfunc_end65:
	.size	"ecc200_calls::restoring::restore_within::<=52,=288>", .Lfunc_end65-"ecc200_calls::restoring::restore_within::<=52,=288>"
	.cfi_endproc

	.p2align	2
	.type	"ecc200_calls::restoring::restore_surely::<=52,=288>",@function
"ecc200_calls::restoring::restore_surely::<=52,=288>":
	.cfi_startproc
	sub	sp, sp, #112
	.cfi_def_cfa_offset 112
	str	x30, [sp, #32]
	stp	x26, x25, [sp, #48]
	stp	x24, x23, [sp, #64]
	stp	x22, x21, [sp, #80]
	stp	x20, x19, [sp, #96]
	.cfi_offset w19, -8
	.cfi_offset w20, -16
	.cfi_offset w21, -24
	.cfi_offset w22, -32
	.cfi_offset w23, -40
	.cfi_offset w24, -48
	.cfi_offset w25, -56
	.cfi_offset w26, -64
	.cfi_offset w30, -80
	.cfi_remember_state
	ldrh	w8, [x2]
	ldrh	w9, [x2, #2]
	mov	x21, x6
	mov	x22, x5
	mov	x19, x0
	mov	x0, sp
	add	w8, w9, w8
	mov	x6, x22
	mov	x7, x21
	lsr	w5, w8, #3
	mov	x23, x4
	mov	x24, x2
	mov	w25, w3
	mov	w26, w1
	strh	wzr, [sp, #8]
	str	xzr, [sp]
	bl	"ecc200_calls::restoring::restore_within::<=52,=288>"
	ldrb	w8, [sp]
	cbz	w8, .LBB66_4
	ldrb	w8, [sp, #2]
	cmp	w8, #2
	b.eq	.LBB66_5
	cmp	w8, #1
	b.ne	.LBB66_6
	ldrb	w10, [sp, #3]
	mov	w20, wzr
	mov	w9, wzr
	mov	w11, wzr
	mov	w12, #1
	b	.LBB66_13
.LBB66_4:
	mov	w12, wzr
	mov	w10, wzr
	mov	w20, wzr
	b	.LBB66_12
.LBB66_5:
	ldrb	w20, [sp, #4]
	ldrh	w9, [sp, #6]
	mov	w10, wzr
	ldrh	w11, [sp, #8]
	mov	w12, #2
	mov	w8, #1
	b	.LBB66_13
.LBB66_6:
	ldrh	w20, [sp, #4]
	add	x0, sp, #16
	mov	w1, w26
	mov	x2, x24
	mov	w3, w25
	mov	x4, x23
	mov	w5, w20
	mov	x6, x22
	mov	x7, x21
	strh	wzr, [sp, #24]
	str	xzr, [sp, #16]
	bl	"ecc200_calls::restoring::restore_within::<=52,=288>"
	ldrb	w8, [sp, #16]
	cbnz	w8, .LBB66_10
	ldr	x8, [x21, #40]
	add	x9, x21, #10
	add	x8, x8, #1
.LBB66_8:
	subs	x8, x8, #1
	b.eq	.LBB66_14
	ldrb	w10, [x9], #3
	cmp	w10, #1
	b.hi	.LBB66_8
.LBB66_10:
	mov	w8, #1
.LBB66_11:
	mov	w12, wzr
	mov	w10, wzr
.LBB66_12:
	mov	w9, wzr
	mov	w11, wzr
.LBB66_13:
	strb	w8, [x19]
	ldp	x22, x21, [sp, #80]
	strb	w12, [x19, #2]
	ldr	x30, [sp, #32]
	strb	w10, [x19, #3]
	ldp	x24, x23, [sp, #64]
	strh	w20, [x19, #4]
	ldp	x26, x25, [sp, #48]
	strh	w9, [x19, #6]
	strh	w11, [x19, #8]
	ldp	x20, x19, [sp, #96]
	add	sp, sp, #112
	.cfi_def_cfa_offset 0
	.cfi_restore w19
	.cfi_restore w20
	.cfi_restore w21
	.cfi_restore w22
	.cfi_restore w23
	.cfi_restore w24
	.cfi_restore w25
	.cfi_restore w26
	.cfi_restore w30
	ret
.LBB66_14:
	.cfi_restore_state
	mov	w20, wzr
	b	.LBB66_11
.Lfunc_end66:
	.size	"ecc200_calls::restoring::restore_surely::<=52,=288>", .Lfunc_end66-"ecc200_calls::restoring::restore_surely::<=52,=288>"
	.cfi_endproc

	.p2align	2
	.type	"ecc200_calls::answer::answer_words::<#d32d35a8039035b6>",@function
"ecc200_calls::answer::answer_words::<#d32d35a8039035b6>":
	.cfi_startproc
	str	x29, [sp, #-80]!
	.cfi_def_cfa_offset 80
	stp	x30, x25, [sp, #16]
	stp	x24, x23, [sp, #32]
	stp	x22, x21, [sp, #48]
	stp	x20, x19, [sp, #64]
	.cfi_offset w19, -8
	.cfi_offset w20, -16
	.cfi_offset w21, -24
	.cfi_offset w22, -32
	.cfi_offset w23, -40
	.cfi_offset w24, -48
	.cfi_offset w25, -56
	.cfi_offset w30, -64
	.cfi_offset w29, -80
	sub	sp, sp, #1712
	.cfi_def_cfa_offset 1792
	.cfi_remember_state
	str	xzr, [sp]
	mov	x21, x2
	mov	w22, w1
	mov	x20, x0
	ldrh	w23, [x2, #12]
	add	x0, sp, #8
	mov	w1, wzr
	mov	w2, #1664
	mov	x19, x3
	add	x24, sp, #1680
	add	x25, sp, #8
	bl	memset
	movi	v0.2d, #0000000000000000
	add	x0, sp, #1680
	add	x2, x21, #20
	orr	x4, x25, #0x6
	add	x5, x25, #848
	mov	w1, w22
	mov	x3, x23
	stp	q0, q0, [x24]
	bl	"dm_words::contents::reading::read_content"
	ldrb	w8, [sp, #1680]
	cbz	w8, .LBB67_4
	ldrb	w8, [sp, #1682]
	ldrh	w10, [sp, #1684]
	cmp	w8, #2
	b.eq	.LBB67_5
	cmp	w8, #1
	b.ne	.LBB67_8
	mov	w8, wzr
	mov	w11, #20
	b	.LBB67_6
.LBB67_4:
	ldr	x8, [sp, #1688]
	ldrb	w11, [x20]
	add	x0, sp, #1680
	ldr	x2, [sp, #1696]
	ldr	x4, [sp, #1704]
	orr	x1, x25, #0x6
	lsr	x9, x8, #8
	lsr	x10, x8, #16
	lsl	x5, x11, #8
	add	x3, x25, #848
	mov	x6, x19
	strb	w8, [sp, #8]
	str	x2, [sp, #848]
	str	x4, [sp, #1672]
	strb	w9, [sp, #9]
	stur	w10, [sp, #10]
	strb	w8, [sp, #1680]
	strb	w9, [sp, #1681]
	stur	w10, [x24, #2]
	bl	"ecc200_calls::writing::write_content"
	b	.LBB67_7
.LBB67_5:
	mov	w8, wzr
	mov	w11, #21
.LBB67_6:
	strh	w11, [x19]
	strh	w8, [x19, #2]
	strh	w10, [x19, #4]
	stur	wzr, [x19, #6]
.LBB67_7:
	add	sp, sp, #1712
	.cfi_def_cfa_offset 80
	ldp	x20, x19, [sp, #64]
	ldp	x22, x21, [sp, #48]
	ldp	x24, x23, [sp, #32]
	ldp	x30, x25, [sp, #16]
	ldr	x29, [sp], #80
	.cfi_def_cfa_offset 0
	.cfi_restore w19
	.cfi_restore w20
	.cfi_restore w21
	.cfi_restore w22
	.cfi_restore w23
	.cfi_restore w24
	.cfi_restore w25
	.cfi_restore w30
	.cfi_restore w29
	ret
.LBB67_8:
	.cfi_restore_state
	ldrh	w9, [sp, #1686]
	and	w8, w10, #0xff
	cmp	w8, #2
	b.le	.LBB67_12
	cmp	w8, #4
	b.gt	.LBB67_15
	cmp	w8, #3
	b.ne	.LBB67_19
	mov	w8, wzr
	mov	w11, #10
	mov	w10, w9
	b	.LBB67_6
.LBB67_12:
	cbz	w8, .LBB67_17
	cmp	w8, #1
	b.ne	.LBB67_18
	lsr	w8, w10, #8
	mov	w11, #8
	mov	w10, w9
	b	.LBB67_6
.LBB67_15:
	cmp	w8, #5
	b.ne	.LBB67_20
	mov	w8, wzr
	mov	w11, #12
	mov	w10, w9
	b	.LBB67_6
.LBB67_17:
	mov	w11, #7
	mov	w10, w9
	b	.LBB67_6
.LBB67_18:
	mov	w8, wzr
	mov	w11, #9
	mov	w10, w9
	b	.LBB67_6
.LBB67_19:
	mov	w8, wzr
	mov	w11, #11
	mov	w10, w9
	b	.LBB67_6
.LBB67_20:
	mov	w8, wzr
	mov	w11, #13
	mov	w10, w9
	b	.LBB67_6
.Lfunc_end67:
	.size	"ecc200_calls::answer::answer_words::<#d32d35a8039035b6>", .Lfunc_end67-"ecc200_calls::answer::answer_words::<#d32d35a8039035b6>"
	.cfi_endproc

	.p2align	2
	.type	"ecc200_calls::answer::answer_given::<#1120882bd96666a5>",@function
"ecc200_calls::answer::answer_given::<#1120882bd96666a5>":
	.cfi_startproc
	str	x29, [sp, #-80]!
	.cfi_def_cfa_offset 80
	stp	x30, x25, [sp, #16]
	stp	x24, x23, [sp, #32]
	stp	x22, x21, [sp, #48]
	stp	x20, x19, [sp, #64]
	.cfi_offset w19, -8
	.cfi_offset w20, -16
	.cfi_offset w21, -24
	.cfi_offset w22, -32
	.cfi_offset w23, -40
	.cfi_offset w24, -48
	.cfi_offset w25, -56
	.cfi_offset w30, -64
	.cfi_offset w29, -80
	sub	sp, sp, #1312
	.cfi_def_cfa_offset 1392
	.cfi_remember_state
	str	xzr, [sp]
	mov	x24, x2
	mov	x20, x0
	ldr	x8, [x1]
	ldrh	w9, [x1, #8]
	ldr	q0, [x6]
	mov	w1, wzr
	mov	w2, #1152
	mov	x19, x7
	str	x8, [sp, #1296]
	ldur	x8, [x6, #14]
	mov	x21, x5
	strh	w9, [sp, #1304]
	add	x9, sp, #1023
	mov	x22, x4
	str	q0, [sp, #1264]
	mov	x23, x3
	stur	x8, [x9, #255]
	add	x8, sp, #92
	add	x0, x8, #20
	str	xzr, [sp, #16]
	add	x25, x8, #20
	strh	wzr, [sp, #24]
	bl	memset
	movi	v0.2d, #0000000000000000
	add	x8, sp, #32
	add	x0, sp, #16
	add	x1, sp, #1296
	add	x6, sp, #1264
	add	x7, sp, #92
	mov	x2, x24
	mov	x3, x23
	mov	x4, x22
	mov	x5, x21
	str	xzr, [sp, #80]
	stp	q0, q0, [sp, #32]
	str	q0, [sp, #64]
	str	x8, [sp]
	bl	"ecc200_calls::restoring::restore_given::<=104,=1152>"
	ldrb	w8, [sp, #16]
	cbz	w8, .LBB68_6
	ldrb	w9, [sp, #18]
	ldrh	w8, [sp, #20]
	cbz	w9, .LBB68_9
	cmp	w9, #2
	b.ne	.LBB68_10
	and	w8, w8, #0xff
	ldrh	w9, [sp, #22]
	cmp	w8, #2
	b.eq	.LBB68_13
	cmp	w8, #1
	b.ne	.LBB68_15
	mov	w8, wzr
	mov	w11, #20
	b	.LBB68_14
.LBB68_6:
	ldrh	w8, [sp, #104]
	ldrb	w1, [sp, #1300]
	cbz	w8, .LBB68_29
	cmp	w8, #4
	b.hs	.LBB68_11
	mov	w10, wzr
	mov	x9, xzr
	b	.LBB68_26
.LBB68_9:
	mov	w11, #5
	b	.LBB68_14
.LBB68_10:
	ldrb	w9, [sp, #19]
	mov	w8, wzr
	mov	w11, #6
	b	.LBB68_14
.LBB68_11:
	cmp	w8, #16
	b.hs	.LBB68_19
	mov	x9, xzr
	mov	w10, wzr
	b	.LBB68_23
.LBB68_13:
	mov	w8, wzr
	mov	w11, #21
.LBB68_14:
	strh	w11, [x19]
	strh	w8, [x19, #2]
	strh	w9, [x19, #4]
	stur	wzr, [x19, #6]
	b	.LBB68_31
.LBB68_15:
	ldrh	w10, [sp, #24]
	and	w8, w9, #0xff
	cmp	w8, #2
	b.le	.LBB68_32
	cmp	w8, #4
	b.gt	.LBB68_35
	cmp	w8, #3
	b.ne	.LBB68_39
	mov	w8, wzr
	mov	w11, #10
	mov	w9, w10
	b	.LBB68_14
.LBB68_19:
	movi	v0.2d, #0000000000000000
	movi	v1.2d, #0000000000000000
	and	x11, x8, #0xc
	and	x9, x8, #0xfff0
	and	x10, x8, #0xfff0
.LBB68_20:
	movi	v2.16b, #241
	ldr	q3, [x25], #16
	subs	x10, x10, #16
	cmeq	v2.16b, v3.16b, v2.16b
	movi	v3.8h, #1
	ushll	v4.8h, v2.8b, #0
	ushll2	v2.8h, v2.16b, #0
	and	v4.16b, v4.16b, v3.16b
	and	v2.16b, v2.16b, v3.16b
	add	v0.8h, v0.8h, v2.8h
	add	v1.8h, v1.8h, v4.8h
	b.ne	.LBB68_20
	add	v0.8h, v1.8h, v0.8h
	cmp	x9, x8
	addv	h0, v0.8h
	fmov	w10, s0
	b.eq	.LBB68_28
	cbz	x11, .LBB68_26
.LBB68_23:
	movi	v0.2d, #0000000000000000
	add	x11, sp, #92
	mov	v0.h[0], w10
	mov	x10, x9
	and	x9, x8, #0xfffc
	add	x11, x10, x11
	sub	x10, x10, x9
	add	x11, x11, #20
.LBB68_24:
	ldr	s1, [x11], #4
	movi	v2.4h, #241
	adds	x10, x10, #4
	ushll	v1.8h, v1.8b, #0
	cmeq	v1.4h, v1.4h, v2.4h
	sub	v0.4h, v0.4h, v1.4h
	b.ne	.LBB68_24
	addv	h0, v0.4h
	cmp	x9, x8
	fmov	w10, s0
	b.eq	.LBB68_28
.LBB68_26:
	add	x11, sp, #92
	sub	x8, x8, x9
	add	x11, x9, x11
	add	x9, x11, #20
.LBB68_27:
	ldrb	w11, [x9], #1
	cmp	w11, #241
	cinc	w10, w10, eq
	subs	x8, x8, #1
	b.ne	.LBB68_27
.LBB68_28:
	and	w8, w10, #0xffff
	cmp	w8, #31
	b.hi	.LBB68_30
.LBB68_29:
	add	x2, sp, #92
	mov	x0, x20
	mov	x3, x19
	bl	"ecc200_calls::answer::answer_words::<#abb34201b1c45561>"
	b	.LBB68_31
.LBB68_30:
	add	x2, sp, #92
	mov	x0, x20
	mov	x3, x19
	bl	"ecc200_calls::answer::answer_words::<#06d3767e809611ad>"
.LBB68_31:
	add	sp, sp, #1312
	.cfi_def_cfa_offset 80
	ldp	x20, x19, [sp, #64]
	ldp	x22, x21, [sp, #48]
	ldp	x24, x23, [sp, #32]
	ldp	x30, x25, [sp, #16]
	ldr	x29, [sp], #80
	.cfi_def_cfa_offset 0
	.cfi_restore w19
	.cfi_restore w20
	.cfi_restore w21
	.cfi_restore w22
	.cfi_restore w23
	.cfi_restore w24
	.cfi_restore w25
	.cfi_restore w30
	.cfi_restore w29
	ret
.LBB68_32:
	.cfi_restore_state
	cbz	w8, .LBB68_37
	cmp	w8, #1
	b.ne	.LBB68_38
	lsr	w8, w9, #8
	mov	w11, #8
	mov	w9, w10
	b	.LBB68_14
.LBB68_35:
	cmp	w8, #5
	b.ne	.LBB68_40
	mov	w8, wzr
	mov	w11, #12
	mov	w9, w10
	b	.LBB68_14
.LBB68_37:
	mov	w11, #7
	mov	w9, w10
	b	.LBB68_14
.LBB68_38:
	mov	w8, wzr
	mov	w11, #9
	mov	w9, w10
	b	.LBB68_14
.LBB68_39:
	mov	w8, wzr
	mov	w11, #11
	mov	w9, w10
	b	.LBB68_14
.LBB68_40:
	mov	w8, wzr
	mov	w11, #13
	mov	w9, w10
	b	.LBB68_14
.Lfunc_end68:
	.size	"ecc200_calls::answer::answer_given::<#1120882bd96666a5>", .Lfunc_end68-"ecc200_calls::answer::answer_given::<#1120882bd96666a5>"
	.cfi_endproc

	.p2align	2
	.type	"ecc200_calls::restoring::restore_given::<=104,=1152>",@function
"ecc200_calls::restoring::restore_given::<=104,=1152>":
	.cfi_startproc
	stp	x29, x30, [sp, #-96]!
	.cfi_def_cfa_offset 96
	stp	x28, x27, [sp, #16]
	stp	x26, x25, [sp, #32]
	stp	x24, x23, [sp, #48]
	stp	x22, x21, [sp, #64]
	stp	x20, x19, [sp, #80]
	.cfi_offset w19, -8
	.cfi_offset w20, -16
	.cfi_offset w21, -24
	.cfi_offset w22, -32
	.cfi_offset w23, -40
	.cfi_offset w24, -48
	.cfi_offset w25, -56
	.cfi_offset w26, -64
	.cfi_offset w27, -72
	.cfi_offset w28, -80
	.cfi_offset w30, -88
	.cfi_offset w29, -96
	sub	sp, sp, #3072
	.cfi_def_cfa_offset 3168
	str	xzr, [sp]
	sub	sp, sp, #880
	.cfi_def_cfa_offset 4048
	ldr	x8, [sp, #4048]
	ldrb	w9, [x1, #4]
	add	x23, sp, #1952
	ldur	q0, [x6, #2]
	mov	x28, x2
	mov	x19, x0
	str	x8, [sp, #40]
	ldrh	w8, [x1, #8]
	ldrb	w29, [x1, #6]
	ldrh	w22, [x6]
	ldrb	w21, [x6, #20]
	add	x0, x23, #20
	stp	w8, w9, [sp, #32]
	ldrh	w8, [x6, #18]
	mov	w1, wzr
	mov	w2, #1676
	mov	x20, x7
	mov	x26, x6
	mov	x24, x5
	mov	x25, x4
	mov	x27, x3
	stur	q0, [x23, #2]
	strh	w8, [sp, #1970]
	bl	memset
	movi	v0.2d, #0000000000000000
	add	x0, sp, #1952
	mov	x1, x28
	mov	x2, x27
	strh	w22, [sp, #1952]
	str	q0, [sp, #3648]
	str	q0, [sp, #3664]
	str	q0, [sp, #3680]
	str	q0, [sp, #3696]
	str	q0, [sp, #3712]
	str	q0, [sp, #3728]
	str	q0, [sp, #3744]
	str	q0, [sp, #3760]
	str	q0, [sp, #3776]
	str	q0, [sp, #3792]
	str	q0, [sp, #3808]
	str	q0, [sp, #3824]
	str	q0, [sp, #3840]
	bl	"ecc200_calls::modules::put_modules::<=104>"
	tbz	w21, #0, .LBB69_3
	ldurh	w8, [x26, #18]
	ldur	q0, [x26, #2]
	mov	w1, wzr
	mov	w2, #1884
	strh	w22, [sp, #48]
	strh	w8, [sp, #66]
	add	x8, sp, #48
	add	x0, x8, #20
	stur	q0, [sp, #50]
	bl	memset
	add	x0, sp, #48
	mov	x1, x25
	mov	x2, x24
	bl	"ecc200_calls::modules::put_modules::<=104>"
	add	x0, sp, #3888
	add	x2, sp, #1952
	add	x4, sp, #48
	strh	wzr, [sp, #3896]
	str	xzr, [sp, #3888]
	cbz	w29, .LBB69_5
	ldr	w1, [sp, #36]
	ldr	x6, [sp, #40]
	mov	w3, #1
	mov	x5, x20
	bl	"ecc200_calls::restoring::restore_surely::<=104,=1152>"
	b	.LBB69_6
.LBB69_3:
	strh	wzr, [sp, #3864]
	str	xzr, [sp, #3856]
	cbz	w29, .LBB69_7
	ldr	w1, [sp, #36]
	ldr	x6, [sp, #40]
	add	x0, sp, #3856
	add	x2, sp, #1952
	mov	w3, wzr
	mov	x4, xzr
	mov	x5, x20
	bl	"ecc200_calls::restoring::restore_surely::<=104,=1152>"
	ldrb	w8, [sp, #3856]
	ldrb	w9, [sp, #3858]
	ldrb	w10, [sp, #3859]
	ldrh	w11, [sp, #3860]
	ldrh	w12, [sp, #3862]
	ldrh	w13, [sp, #3864]
	b	.LBB69_8
.LBB69_5:
	ldp	w5, w1, [sp, #32]
	ldr	x7, [sp, #40]
	mov	w3, #1
	mov	x6, x20
	bl	"ecc200_calls::restoring::restore_within::<=104,=1152>"
.LBB69_6:
	ldrb	w8, [sp, #3888]
	ldrb	w9, [sp, #3890]
	ldrb	w10, [sp, #3891]
	ldrh	w11, [sp, #3892]
	ldrh	w12, [sp, #3894]
	ldrh	w13, [sp, #3896]
	b	.LBB69_8
.LBB69_7:
	ldr	x8, [sp, #1952]
	ldur	x9, [x23, #6]
	mov	w2, wzr
	ldrh	w10, [sp, #1966]
	ldr	x7, [sp, #40]
	mov	x3, xzr
	str	x8, [x20]
	ldr	w8, [sp, #1968]
	add	x0, sp, #3872
	ldp	w5, w4, [sp, #32]
	str	w8, [x20, #16]
	ldr	q0, [sp, #1952]
	add	x1, sp, #3888
	str	w8, [sp, #3904]
	add	x8, sp, #1952
	add	x6, x20, #20
	add	x8, x8, #32
	stur	x9, [x20, #6]
	mov	w9, #104
	str	x8, [sp, #3912]
	add	x8, x23, #1696
	strh	w10, [x20, #14]
	add	x10, x7, #48
	str	x8, [sp, #3928]
	add	x8, x7, #8
	strh	wzr, [sp, #3880]
	str	xzr, [sp, #3872]
	str	q0, [sp, #3888]
	str	wzr, [sp, #3908]
	str	x9, [sp, #3920]
	str	x9, [sp, #3936]
	stp	x8, x10, [sp]
	bl	"dm_symbol::symbol::reading::restore"
	ldrb	w8, [sp, #3872]
	ldrb	w9, [sp, #3874]
	ldrb	w10, [sp, #3875]
	ldrh	w11, [sp, #3876]
	ldrh	w12, [sp, #3878]
	ldrh	w13, [sp, #3880]
.LBB69_8:
	strb	w8, [x19]
	strb	w9, [x19, #2]
	strb	w10, [x19, #3]
	strh	w11, [x19, #4]
	strh	w12, [x19, #6]
	strh	w13, [x19, #8]
	add	sp, sp, #3952
	.cfi_def_cfa_offset 96
	ldp	x20, x19, [sp, #80]
	ldp	x22, x21, [sp, #64]
	ldp	x24, x23, [sp, #48]
	ldp	x26, x25, [sp, #32]
	ldp	x28, x27, [sp, #16]
	ldp	x29, x30, [sp], #96
	.cfi_def_cfa_offset 0
	.cfi_restore w19
	.cfi_restore w20
	.cfi_restore w21
	.cfi_restore w22
	.cfi_restore w23
	.cfi_restore w24
	.cfi_restore w25
	.cfi_restore w26
	.cfi_restore w27
	.cfi_restore w28
	.cfi_restore w30
	.cfi_restore w29
	ret
.Lfunc_end69:
	.size	"ecc200_calls::restoring::restore_given::<=104,=1152>", .Lfunc_end69-"ecc200_calls::restoring::restore_given::<=104,=1152>"
	.cfi_endproc

	.p2align	2
	.type	"ecc200_calls::restoring::restore_within::<=104,=1152>",@function
"ecc200_calls::restoring::restore_within::<=104,=1152>":
	.cfi_startproc
	sub	sp, sp, #256
	.cfi_def_cfa_offset 256
	str	x30, [sp, #192]
	stp	x24, x23, [sp, #208]
	stp	x22, x21, [sp, #224]
	stp	x20, x19, [sp, #240]
	.cfi_offset w19, -8
	.cfi_offset w20, -16
	.cfi_offset w21, -24
	.cfi_offset w22, -32
	.cfi_offset w23, -40
	.cfi_offset w24, -48
	.cfi_offset w30, -64
	ldp	x9, x8, [x2]
	mov	x20, x7
	ldr	w10, [x2, #16]
	mov	x21, x6
	mov	w23, w5
	mov	w22, w1
	mov	x19, x0
	tst	w3, #0xff
	stp	x9, x8, [x6]
	add	x9, x2, #32
	str	w10, [x6, #16]
	ldr	w8, [x2, #16]
	ldr	q0, [x2]
	strh	wzr, [sp, #24]
	str	xzr, [sp, #16]
	stp	w8, wzr, [sp, #176]
	ldr	x8, [sp, #176]
	str	q0, [sp, #160]
	str	q0, [sp, #96]
	stp	x8, x9, [sp, #112]
	mov	w9, #104
	add	x8, x2, #1696
	stp	x9, x8, [sp, #128]
	add	x8, x7, #8
	str	x9, [sp, #144]
	b.eq	.LBB70_4
	ldr	w8, [x4, #16]
	ldr	q0, [x4]
	mov	w9, #104
	add	x0, sp, #96
	add	x2, sp, #32
	mov	w1, #1
	stp	w8, wzr, [sp, #48]
	add	x8, x4, #32
	mov	w24, #1
	stp	x8, x9, [sp, #56]
	add	x8, x4, #1696
	str	q0, [sp, #32]
	stp	x8, x9, [sp, #72]
	bl	"dm_layout::symbols::border::border_faults"
	and	w8, w23, #0xffff
	cmp	w8, w0, uxth
	b.hs	.LBB70_5
	mov	w8, wzr
	mov	w9, wzr
	mov	w1, wzr
.LBB70_3:
	mov	w21, wzr
	b	.LBB70_12
.LBB70_4:
	add	x9, x20, #48
	mov	w2, wzr
	mov	x3, xzr
	add	x0, sp, #16
	add	x1, sp, #96
	add	x6, x21, #20
	mov	w4, w22
	mov	w5, w23
	mov	x7, x20
	stp	x8, x9, [sp]
	bl	"dm_symbol::symbol::reading::restore"
	ldrb	w24, [sp, #16]
	ldrb	w21, [sp, #18]
	ldrb	w1, [sp, #19]
	ldrh	w0, [sp, #20]
	ldrh	w9, [sp, #22]
	ldrh	w8, [sp, #24]
	b	.LBB70_12
.LBB70_5:
	ldrh	w8, [sp, #108]
	ldrh	w9, [sp, #110]
	add	x1, x21, #20
	strh	w0, [x20, #48]
	add	x0, sp, #96
	add	w23, w9, w8
	bl	"dm_layout::symbols::placing::lift_to"
	add	x0, sp, #160
	add	x1, x21, #20
	and	x2, x23, #0xffff
	add	x4, sp, #32
	add	x5, x20, #8
	mov	w3, wzr
	strb	wzr, [x20]
	bl	"dm_symbol::symbol::reading::restore_doubtful"
	and	w8, w0, #0xff
	cmp	w8, #1
	b.ne	.LBB70_9
	tst	w22, #0xff
	b.eq	.LBB70_10
	mov	w22, w1
	add	x0, sp, #96
	add	x2, sp, #32
	add	x3, x21, #20
	and	x4, x23, #0xffff
	add	x5, x20, #8
	mov	w1, #1
	mov	w21, #1
	bl	"dm_symbol::symbol::dealing::restore_restarted"
	mov	w8, wzr
	mov	w9, wzr
	cbz	w0, .LBB70_11
	mov	w0, wzr
	mov	w1, wzr
	mov	w24, wzr
	strb	w21, [x20]
	b	.LBB70_3
.LBB70_9:
	mov	w8, wzr
	mov	w9, wzr
	mov	w0, wzr
	mov	w1, wzr
	mov	w21, wzr
	mov	w24, wzr
	b	.LBB70_12
.LBB70_10:
	mov	w8, wzr
	mov	w9, wzr
	mov	w0, wzr
	mov	w21, #1
	mov	w24, #1
	b	.LBB70_12
.LBB70_11:
	mov	w24, #1
	mov	w1, w22
.LBB70_12:
	strb	w24, [x19]
	ldp	x24, x23, [sp, #208]
	strb	w21, [x19, #2]
	ldr	x30, [sp, #192]
	strb	w1, [x19, #3]
	ldp	x22, x21, [sp, #224]
	strh	w0, [x19, #4]
	strh	w9, [x19, #6]
	strh	w8, [x19, #8]
	ldp	x20, x19, [sp, #240]
	add	sp, sp, #256
	.cfi_def_cfa_offset 0
	.cfi_restore w19
	.cfi_restore w20
	.cfi_restore w21
	.cfi_restore w22
	.cfi_restore w23
	.cfi_restore w24
	.cfi_restore w30
	ret
.Lfunc_end70:
	.size	"ecc200_calls::restoring::restore_within::<=104,=1152>", .Lfunc_end70-"ecc200_calls::restoring::restore_within::<=104,=1152>"
	.cfi_endproc

	.p2align	2
	.type	"ecc200_calls::restoring::restore_surely::<=104,=1152>",@function
"ecc200_calls::restoring::restore_surely::<=104,=1152>":
	.cfi_startproc
	sub	sp, sp, #112
	.cfi_def_cfa_offset 112
	str	x30, [sp, #32]
	stp	x26, x25, [sp, #48]
	stp	x24, x23, [sp, #64]
	stp	x22, x21, [sp, #80]
	stp	x20, x19, [sp, #96]
	.cfi_offset w19, -8
	.cfi_offset w20, -16
	.cfi_offset w21, -24
	.cfi_offset w22, -32
	.cfi_offset w23, -40
	.cfi_offset w24, -48
	.cfi_offset w25, -56
	.cfi_offset w26, -64
	.cfi_offset w30, -80
	.cfi_remember_state
	ldrh	w8, [x2]
	ldrh	w9, [x2, #2]
	mov	x21, x6
	mov	x22, x5
	mov	x19, x0
	mov	x0, sp
	add	w8, w9, w8
	mov	x6, x22
	mov	x7, x21
	lsr	w5, w8, #3
	mov	x23, x4
	mov	x24, x2
	mov	w25, w3
	mov	w26, w1
	strh	wzr, [sp, #8]
	str	xzr, [sp]
	bl	"ecc200_calls::restoring::restore_within::<=104,=1152>"
	ldrb	w8, [sp]
	cbz	w8, .LBB71_4
	ldrb	w8, [sp, #2]
	cmp	w8, #2
	b.eq	.LBB71_5
	cmp	w8, #1
	b.ne	.LBB71_6
	ldrb	w10, [sp, #3]
	mov	w20, wzr
	mov	w9, wzr
	mov	w11, wzr
	mov	w12, #1
	b	.LBB71_13
.LBB71_4:
	mov	w12, wzr
	mov	w10, wzr
	mov	w20, wzr
	b	.LBB71_12
.LBB71_5:
	ldrb	w20, [sp, #4]
	ldrh	w9, [sp, #6]
	mov	w10, wzr
	ldrh	w11, [sp, #8]
	mov	w12, #2
	mov	w8, #1
	b	.LBB71_13
.LBB71_6:
	ldrh	w20, [sp, #4]
	add	x0, sp, #16
	mov	w1, w26
	mov	x2, x24
	mov	w3, w25
	mov	x4, x23
	mov	w5, w20
	mov	x6, x22
	mov	x7, x21
	strh	wzr, [sp, #24]
	str	xzr, [sp, #16]
	bl	"ecc200_calls::restoring::restore_within::<=104,=1152>"
	ldrb	w8, [sp, #16]
	cbnz	w8, .LBB71_10
	ldr	x8, [x21, #40]
	add	x9, x21, #10
	add	x8, x8, #1
.LBB71_8:
	subs	x8, x8, #1
	b.eq	.LBB71_14
	ldrb	w10, [x9], #3
	cmp	w10, #1
	b.hi	.LBB71_8
.LBB71_10:
	mov	w8, #1
.LBB71_11:
	mov	w12, wzr
	mov	w10, wzr
.LBB71_12:
	mov	w9, wzr
	mov	w11, wzr
.LBB71_13:
	strb	w8, [x19]
	ldp	x22, x21, [sp, #80]
	strb	w12, [x19, #2]
	ldr	x30, [sp, #32]
	strb	w10, [x19, #3]
	ldp	x24, x23, [sp, #64]
	strh	w20, [x19, #4]
	ldp	x26, x25, [sp, #48]
	strh	w9, [x19, #6]
	strh	w11, [x19, #8]
	ldp	x20, x19, [sp, #96]
	add	sp, sp, #112
	.cfi_def_cfa_offset 0
	.cfi_restore w19
	.cfi_restore w20
	.cfi_restore w21
	.cfi_restore w22
	.cfi_restore w23
	.cfi_restore w24
	.cfi_restore w25
	.cfi_restore w26
	.cfi_restore w30
	ret
.LBB71_14:
	.cfi_restore_state
	mov	w20, wzr
	b	.LBB71_11
.Lfunc_end71:
	.size	"ecc200_calls::restoring::restore_surely::<=104,=1152>", .Lfunc_end71-"ecc200_calls::restoring::restore_surely::<=104,=1152>"
	.cfi_endproc

	.p2align	2
	.type	"ecc200_calls::answer::answer_words::<#abb34201b1c45561>",@function
"ecc200_calls::answer::answer_words::<#abb34201b1c45561>":
	.cfi_startproc
	stp	x29, x30, [sp, #-64]!
	.cfi_def_cfa_offset 64
	stp	x24, x23, [sp, #16]
	stp	x22, x21, [sp, #32]
	stp	x20, x19, [sp, #48]
	.cfi_offset w19, -8
	.cfi_offset w20, -16
	.cfi_offset w21, -24
	.cfi_offset w22, -32
	.cfi_offset w23, -40
	.cfi_offset w24, -48
	.cfi_offset w30, -56
	.cfi_offset w29, -64
	sub	sp, sp, #3072
	.cfi_def_cfa_offset 3136
	str	xzr, [sp]
	sub	sp, sp, #512
	.cfi_def_cfa_offset 3648
	.cfi_remember_state
	mov	x21, x2
	mov	w22, w1
	ldrh	w23, [x2, #12]
	mov	x20, x0
	mov	x0, sp
	mov	w1, wzr
	mov	w2, #3544
	mov	x19, x3
	mov	x24, sp
	bl	memset
	movi	v0.2d, #0000000000000000
	add	x0, sp, #3552
	add	x2, x21, #20
	orr	x4, x24, #0x6
	add	x5, x24, #3296
	mov	w1, w22
	mov	x3, x23
	str	q0, [sp, #3568]
	str	q0, [sp, #3552]
	bl	"dm_words::contents::reading::read_content"
	ldrb	w8, [sp, #3552]
	cbz	w8, .LBB72_4
	ldrb	w8, [sp, #3554]
	ldrh	w10, [sp, #3556]
	cmp	w8, #2
	b.eq	.LBB72_5
	cmp	w8, #1
	b.ne	.LBB72_8
	mov	w8, wzr
	mov	w11, #20
	b	.LBB72_6
.LBB72_4:
	ldr	x8, [sp, #3560]
	ldrb	w11, [x20]
	add	x0, sp, #3552
	ldr	x2, [sp, #3568]
	ldr	x4, [sp, #3576]
	orr	x1, x24, #0x6
	lsr	x9, x8, #8
	lsr	x10, x8, #16
	lsl	x5, x11, #8
	strb	w8, [sp]
	add	x3, x24, #3296
	mov	x6, x19
	strb	w8, [sp, #3552]
	add	x8, sp, #3299
	str	x2, [sp, #3288]
	str	x4, [sp, #3544]
	strb	w9, [sp, #1]
	stur	w10, [sp, #2]
	strb	w9, [sp, #3553]
	stur	w10, [x8, #255]
	bl	"ecc200_calls::writing::write_content"
	b	.LBB72_7
.LBB72_5:
	mov	w8, wzr
	mov	w11, #21
.LBB72_6:
	strh	w11, [x19]
	strh	w8, [x19, #2]
	strh	w10, [x19, #4]
	stur	wzr, [x19, #6]
.LBB72_7:
	add	sp, sp, #3584
	.cfi_def_cfa_offset 64
	ldp	x20, x19, [sp, #48]
	ldp	x22, x21, [sp, #32]
	ldp	x24, x23, [sp, #16]
	ldp	x29, x30, [sp], #64
	.cfi_def_cfa_offset 0
	.cfi_restore w19
	.cfi_restore w20
	.cfi_restore w21
	.cfi_restore w22
	.cfi_restore w23
	.cfi_restore w24
	.cfi_restore w30
	.cfi_restore w29
	ret
.LBB72_8:
	.cfi_restore_state
	ldrh	w9, [sp, #3558]
	and	w8, w10, #0xff
	cmp	w8, #2
	b.le	.LBB72_12
	cmp	w8, #4
	b.gt	.LBB72_15
	cmp	w8, #3
	b.ne	.LBB72_19
	mov	w8, wzr
	mov	w11, #10
	mov	w10, w9
	b	.LBB72_6
.LBB72_12:
	cbz	w8, .LBB72_17
	cmp	w8, #1
	b.ne	.LBB72_18
	lsr	w8, w10, #8
	mov	w11, #8
	mov	w10, w9
	b	.LBB72_6
.LBB72_15:
	cmp	w8, #5
	b.ne	.LBB72_20
	mov	w8, wzr
	mov	w11, #12
	mov	w10, w9
	b	.LBB72_6
.LBB72_17:
	mov	w11, #7
	mov	w10, w9
	b	.LBB72_6
.LBB72_18:
	mov	w8, wzr
	mov	w11, #9
	mov	w10, w9
	b	.LBB72_6
.LBB72_19:
	mov	w8, wzr
	mov	w11, #11
	mov	w10, w9
	b	.LBB72_6
.LBB72_20:
	mov	w8, wzr
	mov	w11, #13
	mov	w10, w9
	b	.LBB72_6
.Lfunc_end72:
	.size	"ecc200_calls::answer::answer_words::<#abb34201b1c45561>", .Lfunc_end72-"ecc200_calls::answer::answer_words::<#abb34201b1c45561>"
	.cfi_endproc

	.p2align	2
	.type	"ecc200_calls::answer::answer_words::<#06d3767e809611ad>",@function
"ecc200_calls::answer::answer_words::<#06d3767e809611ad>":
	.cfi_startproc
	str	x29, [sp, #-80]!
	.cfi_def_cfa_offset 80
	stp	x30, x25, [sp, #16]
	stp	x24, x23, [sp, #32]
	stp	x22, x21, [sp, #48]
	stp	x20, x19, [sp, #64]
	.cfi_offset w19, -8
	.cfi_offset w20, -16
	.cfi_offset w21, -24
	.cfi_offset w22, -32
	.cfi_offset w23, -40
	.cfi_offset w24, -48
	.cfi_offset w25, -56
	.cfi_offset w30, -64
	.cfi_offset w29, -80
	sub	sp, sp, #3072
	.cfi_def_cfa_offset 3152
	str	xzr, [sp]
	sub	sp, sp, #3072
	.cfi_def_cfa_offset 6224
	str	xzr, [sp]
	sub	sp, sp, #464
	.cfi_def_cfa_offset 6688
	.cfi_remember_state
	mov	x21, x2
	mov	w22, w1
	mov	x20, x0
	ldrh	w23, [x2, #12]
	add	x24, sp, #1, lsl #12
	add	x0, sp, #8
	mov	w1, wzr
	mov	w2, #6560
	mov	x19, x3
	add	x24, x24, #2480
	add	x25, sp, #8
	bl	memset
	movi	v0.2d, #0000000000000000
	add	x0, sp, #1, lsl #12
	add	x2, x21, #20
	add	x0, x0, #2480
	orr	x4, x25, #0x6
	add	x5, x25, #3296
	mov	w1, w22
	mov	x3, x23
	stp	q0, q0, [x24]
	bl	"dm_words::contents::reading::read_content"
	ldrb	w8, [x24]
	cbz	w8, .LBB73_4
	ldrb	w8, [x24, #2]
	ldrh	w10, [sp, #6580]
	cmp	w8, #2
	b.eq	.LBB73_5
	cmp	w8, #1
	b.ne	.LBB73_8
	mov	w8, wzr
	mov	w11, #20
	b	.LBB73_6
.LBB73_4:
	ldr	x8, [sp, #6584]
	ldrb	w11, [x20]
	add	x0, sp, #1, lsl #12
	ldr	x2, [sp, #6592]
	ldr	x4, [sp, #6600]
	add	x0, x0, #2480
	lsr	x9, x8, #8
	lsr	x10, x8, #16
	lsl	x5, x11, #8
	orr	x1, x25, #0x6
	add	x3, x25, #3296
	mov	x6, x19
	strb	w8, [sp, #8]
	str	x2, [sp, #3296]
	str	x4, [sp, #6568]
	strb	w9, [sp, #9]
	stur	w10, [sp, #10]
	strb	w8, [x24]
	strb	w9, [x24, #1]
	stur	w10, [x24, #2]
	bl	"ecc200_calls::writing::write_content"
	b	.LBB73_7
.LBB73_5:
	mov	w8, wzr
	mov	w11, #21
.LBB73_6:
	strh	w11, [x19]
	strh	w8, [x19, #2]
	strh	w10, [x19, #4]
	stur	wzr, [x19, #6]
.LBB73_7:
	add	sp, sp, #1, lsl #12
	.cfi_def_cfa_offset 2592
	add	sp, sp, #2512
	.cfi_def_cfa_offset 80
	ldp	x20, x19, [sp, #64]
	ldp	x22, x21, [sp, #48]
	ldp	x24, x23, [sp, #32]
	ldp	x30, x25, [sp, #16]
	ldr	x29, [sp], #80
	.cfi_def_cfa_offset 0
	.cfi_restore w19
	.cfi_restore w20
	.cfi_restore w21
	.cfi_restore w22
	.cfi_restore w23
	.cfi_restore w24
	.cfi_restore w25
	.cfi_restore w30
	.cfi_restore w29
	ret
.LBB73_8:
	.cfi_restore_state
	ldrh	w9, [sp, #6582]
	and	w8, w10, #0xff
	cmp	w8, #2
	b.le	.LBB73_12
	cmp	w8, #4
	b.gt	.LBB73_15
	cmp	w8, #3
	b.ne	.LBB73_19
	mov	w8, wzr
	mov	w11, #10
	mov	w10, w9
	b	.LBB73_6
.LBB73_12:
	cbz	w8, .LBB73_17
	cmp	w8, #1
	b.ne	.LBB73_18
	lsr	w8, w10, #8
	mov	w11, #8
	mov	w10, w9
	b	.LBB73_6
.LBB73_15:
	cmp	w8, #5
	b.ne	.LBB73_20
	mov	w8, wzr
	mov	w11, #12
	mov	w10, w9
	b	.LBB73_6
.LBB73_17:
	mov	w11, #7
	mov	w10, w9
	b	.LBB73_6
.LBB73_18:
	mov	w8, wzr
	mov	w11, #9
	mov	w10, w9
	b	.LBB73_6
.LBB73_19:
	mov	w8, wzr
	mov	w11, #11
	mov	w10, w9
	b	.LBB73_6
.LBB73_20:
	mov	w8, wzr
	mov	w11, #13
	mov	w10, w9
	b	.LBB73_6
.Lfunc_end73:
	.size	"ecc200_calls::answer::answer_words::<#06d3767e809611ad>", .Lfunc_end73-"ecc200_calls::answer::answer_words::<#06d3767e809611ad>"
	.cfi_endproc

	.p2align	2
	.type	"ecc200_calls::answer::answer_given::<#c193b66836f70129>",@function
"ecc200_calls::answer::answer_given::<#c193b66836f70129>":
	.cfi_startproc
	str	x29, [sp, #-80]!
	.cfi_def_cfa_offset 80
	stp	x30, x25, [sp, #16]
	stp	x24, x23, [sp, #32]
	stp	x22, x21, [sp, #48]
	stp	x20, x19, [sp, #64]
	.cfi_offset w19, -8
	.cfi_offset w20, -16
	.cfi_offset w21, -24
	.cfi_offset w22, -32
	.cfi_offset w23, -40
	.cfi_offset w24, -48
	.cfi_offset w25, -56
	.cfi_offset w30, -64
	.cfi_offset w29, -80
	sub	sp, sp, #2336
	.cfi_def_cfa_offset 2416
	.cfi_remember_state
	str	xzr, [sp]
	mov	x24, x2
	mov	x20, x0
	ldr	x8, [x1]
	ldrh	w9, [x1, #8]
	ldr	q0, [x6]
	mov	w1, wzr
	mov	w2, #2178
	mov	x19, x7
	str	x8, [sp, #2320]
	ldur	x8, [x6, #14]
	mov	x21, x5
	strh	w9, [sp, #2328]
	add	x9, sp, #2047
	mov	x22, x4
	str	q0, [sp, #2288]
	mov	x23, x3
	stur	x8, [x9, #255]
	add	x8, sp, #90
	add	x0, x8, #20
	str	xzr, [sp, #16]
	add	x25, x8, #20
	strh	wzr, [sp, #24]
	bl	memset
	movi	v0.2d, #0000000000000000
	add	x8, sp, #32
	add	x0, sp, #16
	add	x1, sp, #2320
	add	x6, sp, #2288
	add	x7, sp, #90
	mov	x2, x24
	mov	x3, x23
	mov	x4, x22
	mov	x5, x21
	str	xzr, [sp, #80]
	stp	q0, q0, [sp, #32]
	str	q0, [sp, #64]
	str	x8, [sp]
	bl	"ecc200_calls::restoring::restore_given::<=144,=2178>"
	ldrb	w8, [sp, #16]
	cbz	w8, .LBB74_6
	ldrb	w9, [sp, #18]
	ldrh	w8, [sp, #20]
	cbz	w9, .LBB74_9
	cmp	w9, #2
	b.ne	.LBB74_10
	and	w8, w8, #0xff
	ldrh	w9, [sp, #22]
	cmp	w8, #2
	b.eq	.LBB74_13
	cmp	w8, #1
	b.ne	.LBB74_15
	mov	w8, wzr
	mov	w11, #20
	b	.LBB74_14
.LBB74_6:
	ldrh	w8, [sp, #102]
	ldrb	w1, [sp, #2324]
	cbz	w8, .LBB74_29
	cmp	w8, #4
	b.hs	.LBB74_11
	mov	w10, wzr
	mov	x9, xzr
	b	.LBB74_26
.LBB74_9:
	mov	w11, #5
	b	.LBB74_14
.LBB74_10:
	ldrb	w9, [sp, #19]
	mov	w8, wzr
	mov	w11, #6
	b	.LBB74_14
.LBB74_11:
	cmp	w8, #16
	b.hs	.LBB74_19
	mov	x9, xzr
	mov	w10, wzr
	b	.LBB74_23
.LBB74_13:
	mov	w8, wzr
	mov	w11, #21
.LBB74_14:
	strh	w11, [x19]
	strh	w8, [x19, #2]
	strh	w9, [x19, #4]
	stur	wzr, [x19, #6]
	b	.LBB74_31
.LBB74_15:
	ldrh	w10, [sp, #24]
	and	w8, w9, #0xff
	cmp	w8, #2
	b.le	.LBB74_32
	cmp	w8, #4
	b.gt	.LBB74_35
	cmp	w8, #3
	b.ne	.LBB74_39
	mov	w8, wzr
	mov	w11, #10
	mov	w9, w10
	b	.LBB74_14
.LBB74_19:
	movi	v0.2d, #0000000000000000
	movi	v1.2d, #0000000000000000
	and	x11, x8, #0xc
	and	x9, x8, #0xfff0
	and	x10, x8, #0xfff0
.LBB74_20:
	movi	v2.16b, #241
	ldr	q3, [x25], #16
	subs	x10, x10, #16
	cmeq	v2.16b, v3.16b, v2.16b
	movi	v3.8h, #1
	ushll	v4.8h, v2.8b, #0
	ushll2	v2.8h, v2.16b, #0
	and	v4.16b, v4.16b, v3.16b
	and	v2.16b, v2.16b, v3.16b
	add	v0.8h, v0.8h, v2.8h
	add	v1.8h, v1.8h, v4.8h
	b.ne	.LBB74_20
	add	v0.8h, v1.8h, v0.8h
	cmp	x9, x8
	addv	h0, v0.8h
	fmov	w10, s0
	b.eq	.LBB74_28
	cbz	x11, .LBB74_26
.LBB74_23:
	movi	v0.2d, #0000000000000000
	add	x11, sp, #90
	mov	v0.h[0], w10
	mov	x10, x9
	and	x9, x8, #0xfffc
	add	x11, x10, x11
	sub	x10, x10, x9
	add	x11, x11, #20
.LBB74_24:
	ldr	s1, [x11], #4
	movi	v2.4h, #241
	adds	x10, x10, #4
	ushll	v1.8h, v1.8b, #0
	cmeq	v1.4h, v1.4h, v2.4h
	sub	v0.4h, v0.4h, v1.4h
	b.ne	.LBB74_24
	addv	h0, v0.4h
	cmp	x9, x8
	fmov	w10, s0
	b.eq	.LBB74_28
.LBB74_26:
	add	x11, sp, #90
	sub	x8, x8, x9
	add	x11, x9, x11
	add	x9, x11, #20
.LBB74_27:
	ldrb	w11, [x9], #1
	cmp	w11, #241
	cinc	w10, w10, eq
	subs	x8, x8, #1
	b.ne	.LBB74_27
.LBB74_28:
	and	w8, w10, #0xffff
	cmp	w8, #31
	b.hi	.LBB74_30
.LBB74_29:
	add	x2, sp, #90
	mov	x0, x20
	mov	x3, x19
	bl	"ecc200_calls::answer::answer_words::<#c41e22b9ba7768f4>"
	b	.LBB74_31
.LBB74_30:
	add	x2, sp, #90
	mov	x0, x20
	mov	x3, x19
	bl	"ecc200_calls::answer::answer_words::<#bcaba02e1eec002d>"
.LBB74_31:
	add	sp, sp, #2336
	.cfi_def_cfa_offset 80
	ldp	x20, x19, [sp, #64]
	ldp	x22, x21, [sp, #48]
	ldp	x24, x23, [sp, #32]
	ldp	x30, x25, [sp, #16]
	ldr	x29, [sp], #80
	.cfi_def_cfa_offset 0
	.cfi_restore w19
	.cfi_restore w20
	.cfi_restore w21
	.cfi_restore w22
	.cfi_restore w23
	.cfi_restore w24
	.cfi_restore w25
	.cfi_restore w30
	.cfi_restore w29
	ret
.LBB74_32:
	.cfi_restore_state
	cbz	w8, .LBB74_37
	cmp	w8, #1
	b.ne	.LBB74_38
	lsr	w8, w9, #8
	mov	w11, #8
	mov	w9, w10
	b	.LBB74_14
.LBB74_35:
	cmp	w8, #5
	b.ne	.LBB74_40
	mov	w8, wzr
	mov	w11, #12
	mov	w9, w10
	b	.LBB74_14
.LBB74_37:
	mov	w11, #7
	mov	w9, w10
	b	.LBB74_14
.LBB74_38:
	mov	w8, wzr
	mov	w11, #9
	mov	w9, w10
	b	.LBB74_14
.LBB74_39:
	mov	w8, wzr
	mov	w11, #11
	mov	w9, w10
	b	.LBB74_14
.LBB74_40:
	mov	w8, wzr
	mov	w11, #13
	mov	w9, w10
	b	.LBB74_14
.Lfunc_end74:
	.size	"ecc200_calls::answer::answer_given::<#c193b66836f70129>", .Lfunc_end74-"ecc200_calls::answer::answer_given::<#c193b66836f70129>"
	.cfi_endproc

	.p2align	2
	.type	"ecc200_calls::restoring::restore_given::<=144,=2178>",@function
"ecc200_calls::restoring::restore_given::<=144,=2178>":
	.cfi_startproc
	stp	x29, x30, [sp, #-96]!
	.cfi_def_cfa_offset 96
	stp	x28, x27, [sp, #16]
	stp	x26, x25, [sp, #32]
	stp	x24, x23, [sp, #48]
	stp	x22, x21, [sp, #64]
	stp	x20, x19, [sp, #80]
	.cfi_offset w19, -8
	.cfi_offset w20, -16
	.cfi_offset w21, -24
	.cfi_offset w22, -32
	.cfi_offset w23, -40
	.cfi_offset w24, -48
	.cfi_offset w25, -56
	.cfi_offset w26, -64
	.cfi_offset w27, -72
	.cfi_offset w28, -80
	.cfi_offset w30, -88
	.cfi_offset w29, -96
	sub	sp, sp, #3072
	.cfi_def_cfa_offset 3168
	str	xzr, [sp]
	sub	sp, sp, #2320
	.cfi_def_cfa_offset 5488
	ldr	x8, [sp, #5488]
	str	xzr, [sp]
	add	x29, sp, #2672
	ldrb	w9, [x1, #4]
	ldur	q0, [x6, #2]
	mov	x28, x2
	str	x8, [sp, #40]
	ldrh	w8, [x1, #8]
	mov	x19, x0
	ldrb	w23, [x1, #6]
	ldrh	w22, [x6]
	add	x0, x29, #20
	stp	w8, w9, [sp, #32]
	ldrh	w8, [x6, #18]
	mov	w1, wzr
	ldrb	w21, [x6, #20]
	mov	w2, #2316
	mov	x20, x7
	mov	x26, x6
	mov	x24, x5
	mov	x25, x4
	mov	x27, x3
	stur	q0, [x29, #2]
	strh	w8, [sp, #2690]
	bl	memset
	movi	v0.2d, #0000000000000000
	add	x0, sp, #2672
	mov	x1, x28
	mov	x2, x27
	strh	w22, [sp, #2672]
	str	q0, [sp, #5008]
	str	q0, [sp, #5024]
	str	q0, [sp, #5040]
	str	q0, [sp, #5056]
	str	q0, [sp, #5072]
	str	q0, [sp, #5088]
	str	q0, [sp, #5104]
	str	q0, [sp, #5120]
	str	q0, [sp, #5136]
	str	q0, [sp, #5152]
	str	q0, [sp, #5168]
	str	q0, [sp, #5184]
	str	q0, [sp, #5200]
	str	q0, [sp, #5216]
	str	q0, [sp, #5232]
	str	q0, [sp, #5248]
	str	q0, [sp, #5264]
	str	q0, [sp, #5280]
	bl	"ecc200_calls::modules::put_modules::<=144>"
	tbz	w21, #0, .LBB75_3
	ldurh	w8, [x26, #18]
	ldur	q0, [x26, #2]
	mov	w1, wzr
	mov	w2, #2604
	strh	w22, [sp, #48]
	strh	w8, [sp, #66]
	add	x8, sp, #48
	add	x0, x8, #20
	stur	q0, [sp, #50]
	bl	memset
	add	x0, sp, #48
	mov	x1, x25
	mov	x2, x24
	bl	"ecc200_calls::modules::put_modules::<=144>"
	add	x0, sp, #1, lsl #12
	add	x2, sp, #2672
	add	x4, sp, #48
	add	x0, x0, #1232
	strh	wzr, [sp, #5336]
	str	xzr, [sp, #5328]
	cbz	w23, .LBB75_5
	ldr	w1, [sp, #36]
	ldr	x6, [sp, #40]
	mov	w3, #1
	mov	x5, x20
	bl	"ecc200_calls::restoring::restore_surely::<=144,=2178>"
	b	.LBB75_6
.LBB75_3:
	strh	wzr, [sp, #5304]
	str	xzr, [sp, #5296]
	cbz	w23, .LBB75_7
	add	x0, sp, #1, lsl #12
	ldr	w1, [sp, #36]
	ldr	x6, [sp, #40]
	add	x0, x0, #1200
	add	x2, sp, #2672
	mov	w3, wzr
	mov	x4, xzr
	mov	x5, x20
	bl	"ecc200_calls::restoring::restore_surely::<=144,=2178>"
	ldrb	w8, [x29, #2624]
	ldrb	w9, [x29, #2626]
	ldrb	w10, [x29, #2627]
	ldrh	w11, [sp, #5300]
	ldrh	w12, [sp, #5302]
	ldrh	w13, [sp, #5304]
	b	.LBB75_8
.LBB75_5:
	ldp	w5, w1, [sp, #32]
	ldr	x7, [sp, #40]
	mov	w3, #1
	mov	x6, x20
	bl	"ecc200_calls::restoring::restore_within::<=144,=2178>"
.LBB75_6:
	ldrb	w8, [x29, #2656]
	ldrb	w9, [x29, #2658]
	ldrb	w10, [x29, #2659]
	ldrh	w11, [sp, #5332]
	ldrh	w12, [sp, #5334]
	ldrh	w13, [sp, #5336]
	b	.LBB75_8
.LBB75_7:
	ldr	x8, [sp, #2672]
	ldur	x9, [x29, #6]
	add	x0, sp, #1, lsl #12
	ldrh	w10, [sp, #2686]
	ldr	x7, [sp, #40]
	add	x1, sp, #1, lsl #12
	str	x8, [x20]
	ldr	w8, [sp, #2688]
	mov	w2, wzr
	ldp	w5, w4, [sp, #32]
	str	w8, [x20, #16]
	ldr	q0, [sp, #2672]
	mov	x3, xzr
	str	w8, [sp, #5344]
	add	x8, sp, #2672
	add	x0, x0, #1216
	add	x8, x8, #32
	stur	x9, [x20, #6]
	mov	w9, #144
	str	x8, [sp, #5352]
	add	x8, x29, #2336
	add	x1, x1, #1232
	strh	w10, [x20, #14]
	add	x10, x7, #48
	add	x6, x20, #20
	str	x8, [sp, #5368]
	add	x8, x7, #8
	strh	wzr, [sp, #5320]
	str	xzr, [sp, #5312]
	str	q0, [sp, #5328]
	str	wzr, [sp, #5348]
	str	x9, [sp, #5360]
	str	x9, [sp, #5376]
	stp	x8, x10, [sp]
	bl	"dm_symbol::symbol::reading::restore"
	ldrb	w8, [x29, #2640]
	ldrb	w9, [x29, #2642]
	ldrb	w10, [x29, #2643]
	ldrh	w11, [sp, #5316]
	ldrh	w12, [sp, #5318]
	ldrh	w13, [sp, #5320]
.LBB75_8:
	strb	w8, [x19]
	strb	w9, [x19, #2]
	strb	w10, [x19, #3]
	strh	w11, [x19, #4]
	strh	w12, [x19, #6]
	strh	w13, [x19, #8]
	add	sp, sp, #1, lsl #12
	.cfi_def_cfa_offset 1392
	add	sp, sp, #1296
	.cfi_def_cfa_offset 96
	ldp	x20, x19, [sp, #80]
	ldp	x22, x21, [sp, #64]
	ldp	x24, x23, [sp, #48]
	ldp	x26, x25, [sp, #32]
	ldp	x28, x27, [sp, #16]
	ldp	x29, x30, [sp], #96
	.cfi_def_cfa_offset 0
	.cfi_restore w19
	.cfi_restore w20
	.cfi_restore w21
	.cfi_restore w22
	.cfi_restore w23
	.cfi_restore w24
	.cfi_restore w25
	.cfi_restore w26
	.cfi_restore w27
	.cfi_restore w28
	.cfi_restore w30
	.cfi_restore w29
	ret
.Lfunc_end75:
	.size	"ecc200_calls::restoring::restore_given::<=144,=2178>", .Lfunc_end75-"ecc200_calls::restoring::restore_given::<=144,=2178>"
	.cfi_endproc

	.p2align	2
	.type	"ecc200_calls::restoring::restore_within::<=144,=2178>",@function
"ecc200_calls::restoring::restore_within::<=144,=2178>":
	.cfi_startproc
	sub	sp, sp, #256
	.cfi_def_cfa_offset 256
	str	x30, [sp, #192]
	stp	x24, x23, [sp, #208]
	stp	x22, x21, [sp, #224]
	stp	x20, x19, [sp, #240]
	.cfi_offset w19, -8
	.cfi_offset w20, -16
	.cfi_offset w21, -24
	.cfi_offset w22, -32
	.cfi_offset w23, -40
	.cfi_offset w24, -48
	.cfi_offset w30, -64
	ldp	x9, x8, [x2]
	mov	x20, x7
	ldr	w10, [x2, #16]
	mov	x21, x6
	mov	w23, w5
	mov	w22, w1
	mov	x19, x0
	tst	w3, #0xff
	stp	x9, x8, [x6]
	add	x9, x2, #32
	str	w10, [x6, #16]
	ldr	w8, [x2, #16]
	ldr	q0, [x2]
	strh	wzr, [sp, #24]
	str	xzr, [sp, #16]
	stp	w8, wzr, [sp, #176]
	ldr	x8, [sp, #176]
	str	q0, [sp, #160]
	str	q0, [sp, #96]
	stp	x8, x9, [sp, #112]
	mov	w9, #144
	add	x8, x2, #2336
	stp	x9, x8, [sp, #128]
	add	x8, x7, #8
	str	x9, [sp, #144]
	b.eq	.LBB76_4
	ldr	w8, [x4, #16]
	ldr	q0, [x4]
	mov	w9, #144
	add	x0, sp, #96
	add	x2, sp, #32
	mov	w1, #1
	stp	w8, wzr, [sp, #48]
	add	x8, x4, #32
	mov	w24, #1
	stp	x8, x9, [sp, #56]
	add	x8, x4, #2336
	str	q0, [sp, #32]
	stp	x8, x9, [sp, #72]
	bl	"dm_layout::symbols::border::border_faults"
	and	w8, w23, #0xffff
	cmp	w8, w0, uxth
	b.hs	.LBB76_5
	mov	w8, wzr
	mov	w9, wzr
	mov	w1, wzr
.LBB76_3:
	mov	w21, wzr
	b	.LBB76_12
.LBB76_4:
	add	x9, x20, #48
	mov	w2, wzr
	mov	x3, xzr
	add	x0, sp, #16
	add	x1, sp, #96
	add	x6, x21, #20
	mov	w4, w22
	mov	w5, w23
	mov	x7, x20
	stp	x8, x9, [sp]
	bl	"dm_symbol::symbol::reading::restore"
	ldrb	w24, [sp, #16]
	ldrb	w21, [sp, #18]
	ldrb	w1, [sp, #19]
	ldrh	w0, [sp, #20]
	ldrh	w9, [sp, #22]
	ldrh	w8, [sp, #24]
	b	.LBB76_12
.LBB76_5:
	ldrh	w8, [sp, #108]
	ldrh	w9, [sp, #110]
	add	x1, x21, #20
	strh	w0, [x20, #48]
	add	x0, sp, #96
	add	w23, w9, w8
	bl	"dm_layout::symbols::placing::lift_to"
	add	x0, sp, #160
	add	x1, x21, #20
	and	x2, x23, #0xffff
	add	x4, sp, #32
	add	x5, x20, #8
	mov	w3, wzr
	strb	wzr, [x20]
	bl	"dm_symbol::symbol::reading::restore_doubtful"
	and	w8, w0, #0xff
	cmp	w8, #1
	b.ne	.LBB76_9
	tst	w22, #0xff
	b.eq	.LBB76_10
	mov	w22, w1
	add	x0, sp, #96
	add	x2, sp, #32
	add	x3, x21, #20
	and	x4, x23, #0xffff
	add	x5, x20, #8
	mov	w1, #1
	mov	w21, #1
	bl	"dm_symbol::symbol::dealing::restore_restarted"
	mov	w8, wzr
	mov	w9, wzr
	cbz	w0, .LBB76_11
	mov	w0, wzr
	mov	w1, wzr
	mov	w24, wzr
	strb	w21, [x20]
	b	.LBB76_3
.LBB76_9:
	mov	w8, wzr
	mov	w9, wzr
	mov	w0, wzr
	mov	w1, wzr
	mov	w21, wzr
	mov	w24, wzr
	b	.LBB76_12
.LBB76_10:
	mov	w8, wzr
	mov	w9, wzr
	mov	w0, wzr
	mov	w21, #1
	mov	w24, #1
	b	.LBB76_12
.LBB76_11:
	mov	w24, #1
	mov	w1, w22
.LBB76_12:
	strb	w24, [x19]
	ldp	x24, x23, [sp, #208]
	strb	w21, [x19, #2]
	ldr	x30, [sp, #192]
	strb	w1, [x19, #3]
	ldp	x22, x21, [sp, #224]
	strh	w0, [x19, #4]
	strh	w9, [x19, #6]
	strh	w8, [x19, #8]
	ldp	x20, x19, [sp, #240]
	add	sp, sp, #256
	.cfi_def_cfa_offset 0
	.cfi_restore w19
	.cfi_restore w20
	.cfi_restore w21
	.cfi_restore w22
	.cfi_restore w23
	.cfi_restore w24
	.cfi_restore w30
	ret
.Lfunc_end76:
	.size	"ecc200_calls::restoring::restore_within::<=144,=2178>", .Lfunc_end76-"ecc200_calls::restoring::restore_within::<=144,=2178>"
	.cfi_endproc

	.p2align	2
	.type	"ecc200_calls::restoring::restore_surely::<=144,=2178>",@function
"ecc200_calls::restoring::restore_surely::<=144,=2178>":
	.cfi_startproc
	sub	sp, sp, #112
	.cfi_def_cfa_offset 112
	str	x30, [sp, #32]
	stp	x26, x25, [sp, #48]
	stp	x24, x23, [sp, #64]
	stp	x22, x21, [sp, #80]
	stp	x20, x19, [sp, #96]
	.cfi_offset w19, -8
	.cfi_offset w20, -16
	.cfi_offset w21, -24
	.cfi_offset w22, -32
	.cfi_offset w23, -40
	.cfi_offset w24, -48
	.cfi_offset w25, -56
	.cfi_offset w26, -64
	.cfi_offset w30, -80
	.cfi_remember_state
	ldrh	w8, [x2]
	ldrh	w9, [x2, #2]
	mov	x21, x6
	mov	x22, x5
	mov	x19, x0
	mov	x0, sp
	add	w8, w9, w8
	mov	x6, x22
	mov	x7, x21
	lsr	w5, w8, #3
	mov	x23, x4
	mov	x24, x2
	mov	w25, w3
	mov	w26, w1
	strh	wzr, [sp, #8]
	str	xzr, [sp]
	bl	"ecc200_calls::restoring::restore_within::<=144,=2178>"
	ldrb	w8, [sp]
	cbz	w8, .LBB77_4
	ldrb	w8, [sp, #2]
	cmp	w8, #2
	b.eq	.LBB77_5
	cmp	w8, #1
	b.ne	.LBB77_6
	ldrb	w10, [sp, #3]
	mov	w20, wzr
	mov	w9, wzr
	mov	w11, wzr
	mov	w12, #1
	b	.LBB77_13
.LBB77_4:
	mov	w12, wzr
	mov	w10, wzr
	mov	w20, wzr
	b	.LBB77_12
.LBB77_5:
	ldrb	w20, [sp, #4]
	ldrh	w9, [sp, #6]
	mov	w10, wzr
	ldrh	w11, [sp, #8]
	mov	w12, #2
	mov	w8, #1
	b	.LBB77_13
.LBB77_6:
	ldrh	w20, [sp, #4]
	add	x0, sp, #16
	mov	w1, w26
	mov	x2, x24
	mov	w3, w25
	mov	x4, x23
	mov	w5, w20
	mov	x6, x22
	mov	x7, x21
	strh	wzr, [sp, #24]
	str	xzr, [sp, #16]
	bl	"ecc200_calls::restoring::restore_within::<=144,=2178>"
	ldrb	w8, [sp, #16]
	cbnz	w8, .LBB77_10
	ldr	x8, [x21, #40]
	add	x9, x21, #10
	add	x8, x8, #1
.LBB77_8:
	subs	x8, x8, #1
	b.eq	.LBB77_14
	ldrb	w10, [x9], #3
	cmp	w10, #1
	b.hi	.LBB77_8
.LBB77_10:
	mov	w8, #1
.LBB77_11:
	mov	w12, wzr
	mov	w10, wzr
.LBB77_12:
	mov	w9, wzr
	mov	w11, wzr
.LBB77_13:
	strb	w8, [x19]
	ldp	x22, x21, [sp, #80]
	strb	w12, [x19, #2]
	ldr	x30, [sp, #32]
	strb	w10, [x19, #3]
	ldp	x24, x23, [sp, #64]
	strh	w20, [x19, #4]
	ldp	x26, x25, [sp, #48]
	strh	w9, [x19, #6]
	strh	w11, [x19, #8]
	ldp	x20, x19, [sp, #96]
	add	sp, sp, #112
	.cfi_def_cfa_offset 0
	.cfi_restore w19
	.cfi_restore w20
	.cfi_restore w21
	.cfi_restore w22
	.cfi_restore w23
	.cfi_restore w24
	.cfi_restore w25
	.cfi_restore w26
	.cfi_restore w30
	ret
.LBB77_14:
	.cfi_restore_state
	mov	w20, wzr
	b	.LBB77_11
.Lfunc_end77:
	.size	"ecc200_calls::restoring::restore_surely::<=144,=2178>", .Lfunc_end77-"ecc200_calls::restoring::restore_surely::<=144,=2178>"
	.cfi_endproc

	.p2align	2
	.type	"ecc200_calls::answer::answer_words::<#c41e22b9ba7768f4>",@function
"ecc200_calls::answer::answer_words::<#c41e22b9ba7768f4>":
	.cfi_startproc
	stp	x29, x30, [sp, #-80]!
	.cfi_def_cfa_offset 80
	stp	x26, x25, [sp, #16]
	stp	x24, x23, [sp, #32]
	stp	x22, x21, [sp, #48]
	stp	x20, x19, [sp, #64]
	.cfi_offset w19, -8
	.cfi_offset w20, -16
	.cfi_offset w21, -24
	.cfi_offset w22, -32
	.cfi_offset w23, -40
	.cfi_offset w24, -48
	.cfi_offset w25, -56
	.cfi_offset w26, -64
	.cfi_offset w30, -72
	.cfi_offset w29, -80
	sub	sp, sp, #3072
	.cfi_def_cfa_offset 3152
	str	xzr, [sp]
	sub	sp, sp, #3072
	.cfi_def_cfa_offset 6224
	str	xzr, [sp]
	sub	sp, sp, #416
	.cfi_def_cfa_offset 6640
	.cfi_remember_state
	mov	x21, x2
	mov	w22, w1
	mov	x20, x0
	ldrh	w23, [x2, #12]
	add	x24, sp, #1, lsl #12
	add	x0, sp, #8
	mov	w1, wzr
	mov	w2, #6512
	mov	x19, x3
	add	x24, x24, #2432
	add	x25, sp, #8
	bl	memset
	movi	v0.2d, #0000000000000000
	mov	w26, #6264
	add	x0, sp, #1, lsl #12
	add	x0, x0, #2432
	add	x2, x21, #20
	orr	x4, x25, #0x6
	add	x5, x25, x26
	mov	w1, w22
	mov	x3, x23
	stp	q0, q0, [x24]
	bl	"dm_words::contents::reading::read_content"
	ldrb	w8, [x24]
	cbz	w8, .LBB78_4
	ldrb	w8, [x24, #2]
	ldrh	w10, [sp, #6532]
	cmp	w8, #2
	b.eq	.LBB78_5
	cmp	w8, #1
	b.ne	.LBB78_8
	mov	w8, wzr
	mov	w11, #20
	b	.LBB78_6
.LBB78_4:
	ldr	x8, [sp, #6536]
	ldrb	w11, [x20]
	add	x0, sp, #1, lsl #12
	ldr	x2, [sp, #6544]
	ldr	x4, [sp, #6552]
	add	x0, x0, #2432
	lsr	x9, x8, #8
	lsr	x10, x8, #16
	lsl	x5, x11, #8
	orr	x1, x25, #0x6
	add	x3, x25, x26
	mov	x6, x19
	strb	w8, [sp, #8]
	str	x2, [sp, #6264]
	str	x4, [sp, #6520]
	strb	w9, [sp, #9]
	stur	w10, [sp, #10]
	strb	w8, [x24]
	strb	w9, [x24, #1]
	stur	w10, [x24, #2]
	bl	"ecc200_calls::writing::write_content"
	b	.LBB78_7
.LBB78_5:
	mov	w8, wzr
	mov	w11, #21
.LBB78_6:
	strh	w11, [x19]
	strh	w8, [x19, #2]
	strh	w10, [x19, #4]
	stur	wzr, [x19, #6]
.LBB78_7:
	add	sp, sp, #1, lsl #12
	.cfi_def_cfa_offset 2544
	add	sp, sp, #2464
	.cfi_def_cfa_offset 80
	ldp	x20, x19, [sp, #64]
	ldp	x22, x21, [sp, #48]
	ldp	x24, x23, [sp, #32]
	ldp	x26, x25, [sp, #16]
	ldp	x29, x30, [sp], #80
	.cfi_def_cfa_offset 0
	.cfi_restore w19
	.cfi_restore w20
	.cfi_restore w21
	.cfi_restore w22
	.cfi_restore w23
	.cfi_restore w24
	.cfi_restore w25
	.cfi_restore w26
	.cfi_restore w30
	.cfi_restore w29
	ret
.LBB78_8:
	.cfi_restore_state
	ldrh	w9, [sp, #6534]
	and	w8, w10, #0xff
	cmp	w8, #2
	b.le	.LBB78_12
	cmp	w8, #4
	b.gt	.LBB78_15
	cmp	w8, #3
	b.ne	.LBB78_19
	mov	w8, wzr
	mov	w11, #10
	mov	w10, w9
	b	.LBB78_6
.LBB78_12:
	cbz	w8, .LBB78_17
	cmp	w8, #1
	b.ne	.LBB78_18
	lsr	w8, w10, #8
	mov	w11, #8
	mov	w10, w9
	b	.LBB78_6
.LBB78_15:
	cmp	w8, #5
	b.ne	.LBB78_20
	mov	w8, wzr
	mov	w11, #12
	mov	w10, w9
	b	.LBB78_6
.LBB78_17:
	mov	w11, #7
	mov	w10, w9
	b	.LBB78_6
.LBB78_18:
	mov	w8, wzr
	mov	w11, #9
	mov	w10, w9
	b	.LBB78_6
.LBB78_19:
	mov	w8, wzr
	mov	w11, #11
	mov	w10, w9
	b	.LBB78_6
.LBB78_20:
	mov	w8, wzr
	mov	w11, #13
	mov	w10, w9
	b	.LBB78_6
.Lfunc_end78:
	.size	"ecc200_calls::answer::answer_words::<#c41e22b9ba7768f4>", .Lfunc_end78-"ecc200_calls::answer::answer_words::<#c41e22b9ba7768f4>"
	.cfi_endproc

	.p2align	2
	.type	"ecc200_calls::answer::answer_words::<#bcaba02e1eec002d>",@function
"ecc200_calls::answer::answer_words::<#bcaba02e1eec002d>":
	.cfi_startproc
	stp	x29, x30, [sp, #-80]!
	.cfi_def_cfa_offset 80
	stp	x26, x25, [sp, #16]
	stp	x24, x23, [sp, #32]
	stp	x22, x21, [sp, #48]
	stp	x20, x19, [sp, #64]
	.cfi_offset w19, -8
	.cfi_offset w20, -16
	.cfi_offset w21, -24
	.cfi_offset w22, -32
	.cfi_offset w23, -40
	.cfi_offset w24, -48
	.cfi_offset w25, -56
	.cfi_offset w26, -64
	.cfi_offset w30, -72
	.cfi_offset w29, -80
	sub	sp, sp, #3072
	.cfi_def_cfa_offset 3152
	str	xzr, [sp]
	sub	sp, sp, #3072
	.cfi_def_cfa_offset 6224
	str	xzr, [sp]
	sub	sp, sp, #3072
	.cfi_def_cfa_offset 9296
	str	xzr, [sp]
	sub	sp, sp, #3072
	.cfi_def_cfa_offset 12368
	str	xzr, [sp], #-256
	.cfi_def_cfa_offset 12624
	.cfi_remember_state
	mov	x21, x2
	mov	w22, w1
	mov	x20, x0
	ldrh	w23, [x2, #12]
	add	x0, sp, #8
	mov	w1, wzr
	mov	w2, #12496
	mov	x19, x3
	add	x24, sp, #3, lsl #12
	add	x25, sp, #8
	bl	memset
	movi	v0.2d, #0000000000000000
	mov	w26, #6264
	add	x0, sp, #3, lsl #12
	add	x0, x0, #224
	add	x2, x21, #20
	orr	x4, x25, #0x6
	add	x5, x25, x26
	mov	w1, w22
	mov	x3, x23
	stp	q0, q0, [x24, #224]!
	bl	"dm_words::contents::reading::read_content"
	ldrb	w8, [x24]
	cbz	w8, .LBB79_4
	ldrb	w8, [x24, #2]
	ldrh	w10, [x24, #4]
	cmp	w8, #2
	b.eq	.LBB79_5
	cmp	w8, #1
	b.ne	.LBB79_8
	mov	w8, wzr
	mov	w11, #20
	b	.LBB79_6
.LBB79_4:
	ldr	x8, [sp, #12520]
	ldrb	w11, [x20]
	add	x0, sp, #3, lsl #12
	ldr	x2, [sp, #12528]
	ldr	x4, [sp, #12536]
	add	x0, x0, #224
	lsr	x9, x8, #8
	lsr	x10, x8, #16
	lsl	x5, x11, #8
	orr	x1, x25, #0x6
	add	x3, x25, x26
	mov	x6, x19
	strb	w8, [sp, #8]
	str	x2, [sp, #6264]
	str	x4, [sp, #12504]
	strb	w9, [sp, #9]
	stur	w10, [sp, #10]
	strb	w8, [x24]
	strb	w9, [x24, #1]
	stur	w10, [x24, #2]
	bl	"ecc200_calls::writing::write_content"
	b	.LBB79_7
.LBB79_5:
	mov	w8, wzr
	mov	w11, #21
.LBB79_6:
	strh	w11, [x19]
	strh	w8, [x19, #2]
	strh	w10, [x19, #4]
	stur	wzr, [x19, #6]
.LBB79_7:
	add	sp, sp, #3, lsl #12
	.cfi_def_cfa_offset 336
	add	sp, sp, #256
	.cfi_def_cfa_offset 80
	ldp	x20, x19, [sp, #64]
	ldp	x22, x21, [sp, #48]
	ldp	x24, x23, [sp, #32]
	ldp	x26, x25, [sp, #16]
	ldp	x29, x30, [sp], #80
	.cfi_def_cfa_offset 0
	.cfi_restore w19
	.cfi_restore w20
	.cfi_restore w21
	.cfi_restore w22
	.cfi_restore w23
	.cfi_restore w24
	.cfi_restore w25
	.cfi_restore w26
	.cfi_restore w30
	.cfi_restore w29
	ret
.LBB79_8:
	.cfi_restore_state
	ldrh	w9, [x24, #6]
	and	w8, w10, #0xff
	cmp	w8, #2
	b.le	.LBB79_12
	cmp	w8, #4
	b.gt	.LBB79_15
	cmp	w8, #3
	b.ne	.LBB79_19
	mov	w8, wzr
	mov	w11, #10
	mov	w10, w9
	b	.LBB79_6
.LBB79_12:
	cbz	w8, .LBB79_17
	cmp	w8, #1
	b.ne	.LBB79_18
	lsr	w8, w10, #8
	mov	w11, #8
	mov	w10, w9
	b	.LBB79_6
.LBB79_15:
	cmp	w8, #5
	b.ne	.LBB79_20
	mov	w8, wzr
	mov	w11, #12
	mov	w10, w9
	b	.LBB79_6
.LBB79_17:
	mov	w11, #7
	mov	w10, w9
	b	.LBB79_6
.LBB79_18:
	mov	w8, wzr
	mov	w11, #9
	mov	w10, w9
	b	.LBB79_6
.LBB79_19:
	mov	w8, wzr
	mov	w11, #11
	mov	w10, w9
	b	.LBB79_6
.LBB79_20:
	mov	w8, wzr
	mov	w11, #13
	mov	w10, w9
	b	.LBB79_6
.Lfunc_end79:
	.size	"ecc200_calls::answer::answer_words::<#bcaba02e1eec002d>", .Lfunc_end79-"ecc200_calls::answer::answer_words::<#bcaba02e1eec002d>"
	.cfi_endproc

	.p2align	2
	.type	"ecc200_calls::answer::answer_given::<#7b928245427000c4>",@function
"ecc200_calls::answer::answer_given::<#7b928245427000c4>":
	.cfi_startproc
	sub	sp, sp, #288
	.cfi_def_cfa_offset 288
	str	x29, [sp, #256]
	stp	x30, x19, [sp, #272]
	.cfi_offset w19, -8
	.cfi_offset w30, -16
	.cfi_offset w29, -32
	.cfi_remember_state
	ldr	q0, [x5]
	ldr	x9, [x0]
	mov	x8, x4
	ldrh	w10, [x0, #8]
	mov	x19, x6
	mov	x4, x3
	str	q0, [sp, #208]
	movi	v0.2d, #0000000000000000
	mov	x3, x2
	str	x9, [sp, #240]
	ldur	x9, [x5, #14]
	mov	x2, x1
	strh	w10, [sp, #248]
	add	x10, sp, #90
	add	x0, sp, #16
	stur	x9, [x10, #132]
	add	x9, sp, #32
	add	x1, sp, #240
	add	x6, sp, #208
	add	x7, sp, #90
	mov	x5, x8
	str	xzr, [sp, #16]
	strh	wzr, [sp, #24]
	stur	q0, [sp, #110]
	stur	q0, [sp, #126]
	stur	q0, [sp, #142]
	stur	q0, [x10, #68]
	stur	q0, [x10, #84]
	stur	q0, [x10, #100]
	strh	wzr, [sp, #206]
	str	xzr, [sp, #80]
	stp	q0, q0, [sp, #48]
	str	q0, [sp, #32]
	str	x9, [sp]
	bl	"ecc200_calls::restoring::restore_given::<=32,=98>"
	ldrb	w8, [sp, #16]
	cbz	w8, .LBB80_6
	ldrb	w9, [sp, #18]
	ldrh	w8, [sp, #20]
	cbz	w9, .LBB80_7
	cmp	w9, #2
	b.ne	.LBB80_8
	and	w8, w8, #0xff
	ldrh	w9, [sp, #22]
	cmp	w8, #2
	b.eq	.LBB80_9
	cmp	w8, #1
	b.ne	.LBB80_12
	mov	w8, wzr
	mov	w11, #20
	b	.LBB80_10
.LBB80_6:
	ldrb	w0, [sp, #244]
	add	x1, sp, #90
	add	x2, sp, #32
	mov	x3, x19
	bl	"ecc200_calls::answer::answer_words::<#8a72db146def817a>"
	b	.LBB80_11
.LBB80_7:
	mov	w11, #5
	b	.LBB80_10
.LBB80_8:
	ldrb	w9, [sp, #19]
	mov	w8, wzr
	mov	w11, #6
	b	.LBB80_10
.LBB80_9:
	mov	w8, wzr
	mov	w11, #21
.LBB80_10:
	strh	w11, [x19]
	strh	w8, [x19, #2]
	strh	w9, [x19, #4]
	stur	xzr, [x19, #6]
	stur	xzr, [x19, #22]
	stur	xzr, [x19, #14]
.LBB80_11:
	ldp	x30, x19, [sp, #272]
	ldr	x29, [sp, #256]
	add	sp, sp, #288
	.cfi_def_cfa_offset 0
	.cfi_restore w19
	.cfi_restore w30
	.cfi_restore w29
	ret
.LBB80_12:
	.cfi_restore_state
	ldrh	w10, [sp, #24]
	and	w8, w9, #0xff
	cmp	w8, #2
	b.le	.LBB80_16
	cmp	w8, #4
	b.gt	.LBB80_19
	cmp	w8, #3
	b.ne	.LBB80_23
	mov	w8, wzr
	mov	w11, #10
	mov	w9, w10
	b	.LBB80_10
.LBB80_16:
	cbz	w8, .LBB80_21
	cmp	w8, #1
	b.ne	.LBB80_22
	lsr	w8, w9, #8
	mov	w11, #8
	mov	w9, w10
	b	.LBB80_10
.LBB80_19:
	cmp	w8, #5
	b.ne	.LBB80_24
	mov	w8, wzr
	mov	w11, #12
	mov	w9, w10
	b	.LBB80_10
.LBB80_21:
	mov	w11, #7
	mov	w9, w10
	b	.LBB80_10
.LBB80_22:
	mov	w8, wzr
	mov	w11, #9
	mov	w9, w10
	b	.LBB80_10
.LBB80_23:
	mov	w8, wzr
	mov	w11, #11
	mov	w9, w10
	b	.LBB80_10
.LBB80_24:
	mov	w8, wzr
	mov	w11, #13
	mov	w9, w10
	b	.LBB80_10
.Lfunc_end80:
	.size	"ecc200_calls::answer::answer_given::<#7b928245427000c4>", .Lfunc_end80-"ecc200_calls::answer::answer_given::<#7b928245427000c4>"
	.cfi_endproc

	.p2align	2
	.type	"ecc200_calls::answer::answer_words::<#8a72db146def817a>",@function
"ecc200_calls::answer::answer_words::<#8a72db146def817a>":
	.cfi_startproc
	stp	x29, x30, [sp, #-80]!
	.cfi_def_cfa_offset 80
	stp	x26, x25, [sp, #16]
	stp	x24, x23, [sp, #32]
	stp	x22, x21, [sp, #48]
	stp	x20, x19, [sp, #64]
	.cfi_offset w19, -8
	.cfi_offset w20, -16
	.cfi_offset w21, -24
	.cfi_offset w22, -32
	.cfi_offset w23, -40
	.cfi_offset w24, -48
	.cfi_offset w25, -56
	.cfi_offset w26, -64
	.cfi_offset w30, -72
	.cfi_offset w29, -80
	sub	sp, sp, #656
	.cfi_def_cfa_offset 736
	.cfi_remember_state
	movi	v0.2d, #0000000000000000
	mov	x20, x2
	mov	x21, x1
	mov	w25, w0
	ldrh	w24, [x1, #12]
	add	x26, x1, #20
	add	x0, sp, #88
	mov	w1, wzr
	mov	w2, #528
	mov	x19, x3
	add	x22, sp, #88
	stp	q0, q0, [sp, #16]
	stp	q0, q0, [sp, #48]
	str	q0, [sp]
	bl	memset
	movi	v0.2d, #0000000000000000
	orr	x23, x22, #0x6
	add	x22, x22, #280
	add	x0, sp, #624
	add	x2, x21, #20
	mov	w1, w25
	mov	x3, x24
	mov	x4, x23
	mov	x5, x22
	stp	q0, q0, [sp, #624]
	bl	"dm_words::contents::reading::read_content"
	ldrb	w8, [sp, #624]
	cbz	w8, .LBB81_4
	ldrb	w8, [sp, #626]
	ldrh	w10, [sp, #628]
	cmp	w8, #2
	b.eq	.LBB81_7
	cmp	w8, #1
	b.ne	.LBB81_9
	mov	w8, wzr
	mov	w11, #20
	b	.LBB81_8
.LBB81_4:
	ldr	x9, [sp, #632]
	mov	w12, #4
	ldr	x8, [sp, #640]
	lsr	x10, x9, #8
	lsr	x11, x9, #16
	strb	w9, [sp, #88]
	str	x8, [sp, #360]
	tst	w10, #0xff
	strb	w10, [sp, #89]
	csinc	x13, x12, xzr, ne
	tst	w9, #0xff
	ldr	x12, [sp, #648]
	csel	x13, xzr, x13, eq
	stur	w11, [sp, #90]
	subs	x14, x24, x13
	str	x12, [sp, #616]
	b.eq	.LBB81_39
	cmp	x14, #1
	add	x15, x26, x13
	b.ne	.LBB81_13
	ldrb	w13, [x15]
	cmp	w13, #232
	mov	w13, #1
	cinc	w13, w13, eq
	b	.LBB81_40
.LBB81_7:
	mov	w8, wzr
	mov	w11, #21
.LBB81_8:
	strh	w11, [x19]
	strh	w8, [x19, #2]
	strh	w10, [x19, #4]
	stur	xzr, [x19, #6]
	stur	xzr, [x19, #22]
	stur	xzr, [x19, #14]
	b	.LBB81_41
.LBB81_9:
	ldrh	w9, [sp, #630]
	and	w8, w10, #0xff
	cmp	w8, #2
	b.le	.LBB81_15
	cmp	w8, #4
	b.gt	.LBB81_23
	cmp	w8, #3
	b.ne	.LBB81_27
	mov	w8, wzr
	mov	w11, #10
	mov	w10, w9
	b	.LBB81_8
.LBB81_13:
	ldrb	w13, [x15]
	cmp	w13, #232
	b.ne	.LBB81_18
	mov	w13, #2
	b	.LBB81_40
.LBB81_15:
	cbz	w8, .LBB81_25
	cmp	w8, #1
	b.ne	.LBB81_26
	lsr	w8, w10, #8
	mov	w11, #8
	mov	w10, w9
	b	.LBB81_8
.LBB81_18:
	ldrb	w15, [x15, #1]
	cmp	w15, #232
	b.ne	.LBB81_39
	cmp	w13, #235
	sub	x14, x14, #2
	b.le	.LBB81_29
	cmp	w13, #239
	b.gt	.LBB81_36
	sub	w15, w13, #236
	cmp	w15, #2
	b.lo	.LBB81_43
	sub	w15, w13, #238
	cmp	w15, #2
	b.lo	.LBB81_33
	b	.LBB81_38
.LBB81_23:
	cmp	w8, #5
	b.ne	.LBB81_28
	mov	w8, wzr
	mov	w11, #12
	mov	w10, w9
	b	.LBB81_8
.LBB81_25:
	mov	w11, #7
	mov	w10, w9
	b	.LBB81_8
.LBB81_26:
	mov	w8, wzr
	mov	w11, #9
	mov	w10, w9
	b	.LBB81_8
.LBB81_27:
	mov	w8, wzr
	mov	w11, #11
	mov	w10, w9
	b	.LBB81_8
.LBB81_28:
	mov	w8, wzr
	mov	w11, #13
	mov	w10, w9
	b	.LBB81_8
.LBB81_29:
	cmp	w13, #229
	b.le	.LBB81_34
	cmp	w13, #230
	b.eq	.LBB81_33
	cmp	w13, #231
	b.eq	.LBB81_39
	cmp	w13, #235
	b.eq	.LBB81_39
	b	.LBB81_38
.LBB81_33:
	cbnz	x14, .LBB81_39
	b	.LBB81_43
.LBB81_34:
	cbz	w13, .LBB81_39
	cmp	w13, #129
	b.eq	.LBB81_39
	b	.LBB81_38
.LBB81_36:
	cmp	w13, #240
	b.eq	.LBB81_42
	cmp	w13, #241
	b.eq	.LBB81_39
.LBB81_38:
	cmp	w13, #230
	b.lo	.LBB81_43
.LBB81_39:
	mov	w13, #1
.LBB81_40:
	ldr	q0, [x21]
	ldr	w14, [x21, #16]
	cmp	x12, #0
	stp	x23, x8, [sp, #32]
	add	w8, w13, #3
	mov	x0, sp
	csel	w8, w13, w8, eq
	mov	x1, x19
	strb	w9, [sp, #20]
	str	q0, [sp]
	str	w14, [sp, #16]
	strb	w10, [sp, #21]
	stur	w11, [sp, #22]
	stp	x22, x12, [sp, #48]
	strb	w8, [sp, #64]
	str	x20, [sp, #72]
	bl	"ecc200_calls::reading::ReadingAnswer::show"
.LBB81_41:
	add	sp, sp, #656
	.cfi_def_cfa_offset 80
	ldp	x20, x19, [sp, #64]
	ldp	x22, x21, [sp, #48]
	ldp	x24, x23, [sp, #32]
	ldp	x26, x25, [sp, #16]
	ldp	x29, x30, [sp], #80
	.cfi_def_cfa_offset 0
	.cfi_restore w19
	.cfi_restore w20
	.cfi_restore w21
	.cfi_restore w22
	.cfi_restore w23
	.cfi_restore w24
	.cfi_restore w25
	.cfi_restore w26
	.cfi_restore w30
	.cfi_restore w29
	ret
.LBB81_42:
	.cfi_restore_state
	cmp	x14, #2
	b.hs	.LBB81_39
.LBB81_43:
	mov	w13, #3
	b	.LBB81_40
.Lfunc_end81:
	.size	"ecc200_calls::answer::answer_words::<#8a72db146def817a>", .Lfunc_end81-"ecc200_calls::answer::answer_words::<#8a72db146def817a>"
	.cfi_endproc

	.p2align	2
	.type	"ecc200_calls::reading::ReadingAnswer::show",@function
"ecc200_calls::reading::ReadingAnswer::show":
	.cfi_startproc
	ldr	x8, [x0, #72]
	ldr	x9, [x8, #40]
	str	wzr, [x1]
	strh	wzr, [x1, #4]
	ldrh	w10, [x0]
	strh	w10, [x1, #6]
	ldrh	w10, [x0, #2]
	strh	w10, [x1, #8]
	ldrh	w10, [x8, #48]
	strh	w9, [x1, #12]
	strh	w10, [x1, #10]
	cbz	x9, .LBB82_5
	cmp	x9, #16
	b.hs	.LBB82_9
.LBB82_2:
	mov	x10, xzr
.LBB82_3:
	add	x11, x10, x10, lsl #1
	add	x12, x10, x1
	sub	x9, x9, x10
	add	x11, x11, x8
	add	x10, x11, #10
	add	x11, x12, #30
.LBB82_4:
	ldurb	w12, [x10, #-2]
	subs	x9, x9, #1
	strb	w12, [x11]
	ldurb	w12, [x10, #-1]
	strb	w12, [x11, #10]
	ldrb	w12, [x10], #3
	strb	w12, [x11, #20]
	add	x11, x11, #1
	b.ne	.LBB82_4
.LBB82_5:
	ldrb	w9, [x0, #64]
	strh	w9, [x1, #18]
	ldrb	w8, [x8]
	cmp	w8, #0
	cset	w8, ne
	strh	w8, [x1, #20]
	ldrb	w9, [x0, #20]
	ldr	x8, [x0, #40]
	ldr	x10, [x0, #56]
	cbz	w9, .LBB82_8
	ldrb	w9, [x0, #21]
	cmp	w9, #1
	b.ne	.LBB82_20
	ldur	w9, [x0, #22]
	and	w11, w9, #0xffff0000
	bfxil	w11, w9, #8, #8
	lsl	x11, x11, #32
	bfi	x11, x9, #16, #8
	orr	x12, x11, #0x1
	b	.LBB82_21
.LBB82_8:
	mov	x12, xzr
	b	.LBB82_21
.LBB82_9:
	sub	x10, x9, #1
	mov	w11, #3
	umulh	x12, x10, x11
	add	x13, x10, x10, lsl #1
	add	x11, x8, #8
	add	x10, x11, x13
	cmp	xzr, x12
	cset	w12, ne
	cmp	x10, x11
	mov	x10, xzr
	b.lo	.LBB82_3
	tbnz	w12, #0, .LBB82_3
	add	x14, x8, #9
	add	x15, x14, x13
	cmp	x15, x14
	b.lo	.LBB82_3
	tbnz	w12, #0, .LBB82_3
	add	x14, x8, #10
	add	x13, x14, x13
	cmp	x13, x14
	b.lo	.LBB82_3
	tbnz	w12, #0, .LBB82_3
	add	x10, x9, x9, lsl #1
	add	x12, x1, #30
	add	x10, x8, x10
	add	x10, x10, #8
	cmp	x12, x10
	b.hs	.LBB82_17
	add	x10, x1, x9
	add	x10, x10, #50
	cmp	x11, x10
	b.lo	.LBB82_2
.LBB82_17:
	add	x12, x1, #50
	and	x10, x9, #0xfffffffffffffff8
	and	x13, x9, #0xfffffffffffffff8
.LBB82_18:
	ld3	{ v0.8b, v1.8b, v2.8b }, [x11], #24
	subs	x13, x13, #8
	stur	d0, [x12, #-20]
	stur	d1, [x12, #-10]
	str	d2, [x12], #8
	b.ne	.LBB82_18
	cmp	x9, x10
	b.ne	.LBB82_3
	b	.LBB82_5
.LBB82_20:
	mov	w12, #2
.LBB82_21:
	ldr	x9, [x0, #32]
	ldr	x11, [x0, #48]
	stur	x12, [x1, #22]
	strh	w10, [x1, #16]
	cbz	x10, .LBB82_26
	cmp	x10, #17
	b.hs	.LBB82_32
.LBB82_23:
	mov	x12, xzr
.LBB82_24:
	lsl	x13, x12, #3
	sub	x10, x10, x12
	add	x14, x13, x1
	add	x13, x13, x11
	add	x11, x14, #64
	add	x12, x13, #4
.LBB82_25:
	ldr	w13, [x12]
	ldurh	w14, [x12, #-4]
	subs	x10, x10, #1
	add	x12, x12, #8
	stp	w13, w14, [x11, #-4]
	add	x11, x11, #8
	b.ne	.LBB82_25
.LBB82_26:
	strh	w8, [x1, #14]
	cbz	x8, .LBB82_31
	cmp	x8, #8
	b.hs	.LBB82_38
.LBB82_28:
	mov	x10, xzr
.LBB82_29:
	lsl	x11, x10, #1
	mov	w12, #6292
	sub	x8, x8, x10
	add	x12, x1, x12
	add	x13, x11, x9
	add	x9, x11, x12
	add	x10, x13, #1
.LBB82_30:
	ldurb	w11, [x10, #-1]
	ldrb	w12, [x10], #2
	cmp	w11, #1
	mov	w11, #256
	csel	w11, w12, w11, eq
	subs	x8, x8, #1
	strh	w11, [x9], #2
	b.ne	.LBB82_30
.LBB82_31:
	ret
.LBB82_32:
	sub	x13, x10, #1
	add	x12, x11, x13, lsl #3
	cmp	x12, x11
	mov	x12, xzr
	b.lo	.LBB82_24
	lsr	x13, x13, #61
	cbnz	x13, .LBB82_24
	lsl	x12, x10, #3
	add	x13, x1, #60
	add	x14, x11, x12
	cmp	x13, x14
	b.hs	.LBB82_36
	add	x12, x1, x12
	add	x12, x12, #60
	cmp	x11, x12
	b.lo	.LBB82_23
.LBB82_36:
	ands	x12, x10, #0x7
	mov	w14, #8
	csel	x12, x14, x12, eq
	add	x14, x11, #32
	sub	x12, x10, x12
	mov	x15, x12
.LBB82_37:
	ldr	h0, [x14]
	add	x16, x14, #8
	ldur	h1, [x14, #-32]
	add	x17, x14, #24
	ldur	q2, [x14, #4]
	ldur	q4, [x14, #-28]
	ld1	{ v0.h }[1], [x16]
	add	x16, x14, #16
	subs	x15, x15, #8
	ld1	{ v0.h }[2], [x16]
	sub	x16, x14, #24
	ld1	{ v1.h }[1], [x16]
	sub	x16, x14, #16
	ld1	{ v0.h }[3], [x17]
	add	x17, x13, #64
	ld1	{ v1.h }[2], [x16]
	sub	x16, x14, #8
	ushll	v3.4s, v0.4h, #0
	ldur	q0, [x14, #-12]
	mov	v2.s[1], v2.s[2]
	ld1	{ v1.h }[3], [x16]
	add	x16, x14, #20
	ushll	v6.4s, v1.4h, #0
	ld1	{ v2.s }[2], [x16]
	uzp1	v5.4s, v4.4s, v0.4s
	add	x16, x14, #28
	add	x14, x14, #64
	ld1	{ v2.s }[3], [x16]
	st2	{ v5.4s, v6.4s }, [x13], #32
	st2	{ v2.4s, v3.4s }, [x13]
	mov	x13, x17
	b.ne	.LBB82_37
	b	.LBB82_24
.LBB82_38:
	sub	x11, x8, #1
	lsl	x12, x11, #1
	add	x10, x9, x12
	cmp	x10, x9
	mov	x10, xzr
	b.lo	.LBB82_29
	add	x13, x9, #1
	add	x12, x13, x12
	cmp	x12, x13
	b.lo	.LBB82_29
	tbnz	x11, #63, .LBB82_29
	lsl	x10, x8, #1
	mov	w11, #6292
	add	x11, x1, x11
	add	x12, x9, x10
	cmp	x11, x12
	b.hs	.LBB82_43
	mov	w12, #6292
	add	x12, x1, x12
	add	x10, x12, x10
	cmp	x9, x10
	b.lo	.LBB82_28
.LBB82_43:
	cmp	x8, #16
	b.hs	.LBB82_48
	mov	x10, xzr
.LBB82_45:
	lsl	x13, x10, #1
	mov	w12, #6292
	mov	x11, x10
	and	x10, x8, #0xfffffffffffffff8
	add	x12, x1, x12
	sub	x11, x11, x10
	add	x12, x13, x12
	add	x13, x9, x13
.LBB82_46:
	ld2	{ v0.8b, v1.8b }, [x13], #16
	movi	v2.8b, #1
	movi	v3.8h, #1, lsl #8
	adds	x11, x11, #8
	cmeq	v2.8b, v0.8b, v2.8b
	ushll	v0.8h, v1.8b, #0
	sshll	v2.8h, v2.8b, #0
	bif	v0.16b, v3.16b, v2.16b
	str	q0, [x12], #16
	b.ne	.LBB82_46
	cmp	x8, x10
	b.ne	.LBB82_29
	b	.LBB82_31
.LBB82_48:
	and	x10, x8, #0xfffffffffffffff0
	mov	x12, x9
	and	x13, x8, #0xfffffffffffffff0
.LBB82_49:
	ld2	{ v0.16b, v1.16b }, [x12], #32
	movi	v2.16b, #1
	movi	v3.8h, #1, lsl #8
	subs	x13, x13, #16
	cmeq	v2.16b, v0.16b, v2.16b
	ushll2	v4.8h, v1.16b, #0
	ushll	v0.8h, v1.8b, #0
	sshll2	v5.8h, v2.16b, #0
	sshll	v1.8h, v2.8b, #0
	mov	v2.16b, v5.16b
	bif	v0.16b, v3.16b, v1.16b
	bsl	v2.16b, v4.16b, v3.16b
	stp	q0, q2, [x11], #32
	b.ne	.LBB82_49
	cmp	x8, x10
	b.eq	.LBB82_31
	tbz	w8, #3, .LBB82_29
	b	.LBB82_45
.Lfunc_end82:
	.size	"ecc200_calls::reading::ReadingAnswer::show", .Lfunc_end82-"ecc200_calls::reading::ReadingAnswer::show"
	.cfi_endproc

	.p2align	2
	.type	"ecc200_calls::answer::answer_given::<#d2faac338cf57797>",@function
"ecc200_calls::answer::answer_given::<#d2faac338cf57797>":
	.cfi_startproc
	sub	sp, sp, #480
	.cfi_def_cfa_offset 480
	str	x29, [sp, #448]
	stp	x30, x19, [sp, #464]
	.cfi_offset w19, -8
	.cfi_offset w30, -16
	.cfi_offset w29, -32
	.cfi_remember_state
	ldr	q0, [x5]
	ldr	x9, [x0]
	mov	x8, x4
	ldrh	w10, [x0, #8]
	mov	x19, x6
	mov	x4, x3
	str	q0, [sp, #400]
	movi	v0.2d, #0000000000000000
	mov	x3, x2
	str	x9, [sp, #432]
	ldur	x9, [x5, #14]
	mov	x2, x1
	strh	w10, [sp, #440]
	add	x10, sp, #159
	add	x0, sp, #16
	stur	x9, [x10, #255]
	add	x9, sp, #92
	add	x1, sp, #432
	add	x10, x9, #20
	stur	q0, [x9, #52]
	add	x6, sp, #400
	stur	q0, [x9, #68]
	add	x7, sp, #92
	mov	x5, x8
	stur	q0, [x9, #84]
	stur	q0, [x9, #100]
	stur	q0, [x9, #116]
	stur	q0, [x9, #132]
	stur	q0, [x9, #148]
	stur	q0, [x9, #164]
	stur	q0, [x9, #180]
	stur	q0, [x9, #196]
	stur	q0, [x9, #212]
	stur	q0, [x9, #228]
	stur	q0, [x9, #244]
	add	x9, sp, #32
	str	xzr, [sp, #16]
	strh	wzr, [sp, #24]
	stp	q0, q0, [x10, #240]
	str	q0, [x10, #272]
	stp	q0, q0, [sp, #112]
	str	xzr, [sp, #80]
	stp	q0, q0, [sp, #48]
	str	q0, [sp, #32]
	str	x9, [sp]
	bl	"ecc200_calls::restoring::restore_given::<=52,=288>"
	ldrb	w8, [sp, #16]
	cbz	w8, .LBB83_6
	ldrb	w9, [sp, #18]
	ldrh	w8, [sp, #20]
	cbz	w9, .LBB83_7
	cmp	w9, #2
	b.ne	.LBB83_8
	and	w8, w8, #0xff
	ldrh	w9, [sp, #22]
	cmp	w8, #2
	b.eq	.LBB83_9
	cmp	w8, #1
	b.ne	.LBB83_12
	mov	w8, wzr
	mov	w11, #20
	b	.LBB83_10
.LBB83_6:
	ldrb	w0, [sp, #436]
	add	x1, sp, #92
	add	x2, sp, #32
	mov	x3, x19
	bl	"ecc200_calls::answer::answer_words::<#89b91c89c42b4f6f>"
	b	.LBB83_11
.LBB83_7:
	mov	w11, #5
	b	.LBB83_10
.LBB83_8:
	ldrb	w9, [sp, #19]
	mov	w8, wzr
	mov	w11, #6
	b	.LBB83_10
.LBB83_9:
	mov	w8, wzr
	mov	w11, #21
.LBB83_10:
	strh	w11, [x19]
	strh	w8, [x19, #2]
	strh	w9, [x19, #4]
	stur	xzr, [x19, #6]
	stur	xzr, [x19, #22]
	stur	xzr, [x19, #14]
.LBB83_11:
	ldp	x30, x19, [sp, #464]
	ldr	x29, [sp, #448]
	add	sp, sp, #480
	.cfi_def_cfa_offset 0
	.cfi_restore w19
	.cfi_restore w30
	.cfi_restore w29
	ret
.LBB83_12:
	.cfi_restore_state
	ldrh	w10, [sp, #24]
	and	w8, w9, #0xff
	cmp	w8, #2
	b.le	.LBB83_16
	cmp	w8, #4
	b.gt	.LBB83_19
	cmp	w8, #3
	b.ne	.LBB83_23
	mov	w8, wzr
	mov	w11, #10
	mov	w9, w10
	b	.LBB83_10
.LBB83_16:
	cbz	w8, .LBB83_21
	cmp	w8, #1
	b.ne	.LBB83_22
	lsr	w8, w9, #8
	mov	w11, #8
	mov	w9, w10
	b	.LBB83_10
.LBB83_19:
	cmp	w8, #5
	b.ne	.LBB83_24
	mov	w8, wzr
	mov	w11, #12
	mov	w9, w10
	b	.LBB83_10
.LBB83_21:
	mov	w11, #7
	mov	w9, w10
	b	.LBB83_10
.LBB83_22:
	mov	w8, wzr
	mov	w11, #9
	mov	w9, w10
	b	.LBB83_10
.LBB83_23:
	mov	w8, wzr
	mov	w11, #11
	mov	w9, w10
	b	.LBB83_10
.LBB83_24:
	mov	w8, wzr
	mov	w11, #13
	mov	w9, w10
	b	.LBB83_10
.Lfunc_end83:
	.size	"ecc200_calls::answer::answer_given::<#d2faac338cf57797>", .Lfunc_end83-"ecc200_calls::answer::answer_given::<#d2faac338cf57797>"
	.cfi_endproc

	.p2align	2
	.type	"ecc200_calls::answer::answer_words::<#89b91c89c42b4f6f>",@function
"ecc200_calls::answer::answer_words::<#89b91c89c42b4f6f>":
	.cfi_startproc
	stp	x29, x30, [sp, #-80]!
	.cfi_def_cfa_offset 80
	stp	x26, x25, [sp, #16]
	stp	x24, x23, [sp, #32]
	stp	x22, x21, [sp, #48]
	stp	x20, x19, [sp, #64]
	.cfi_offset w19, -8
	.cfi_offset w20, -16
	.cfi_offset w21, -24
	.cfi_offset w22, -32
	.cfi_offset w23, -40
	.cfi_offset w24, -48
	.cfi_offset w25, -56
	.cfi_offset w26, -64
	.cfi_offset w30, -72
	.cfi_offset w29, -80
	sub	sp, sp, #1792
	.cfi_def_cfa_offset 1872
	.cfi_remember_state
	movi	v0.2d, #0000000000000000
	str	xzr, [sp]
	mov	x20, x2
	mov	x21, x1
	mov	w25, w0
	ldrh	w24, [x1, #12]
	add	x26, x1, #20
	add	x0, sp, #88
	mov	w1, wzr
	mov	w2, #1664
	mov	x19, x3
	add	x22, sp, #88
	stp	q0, q0, [sp, #16]
	stp	q0, q0, [sp, #48]
	str	q0, [sp]
	bl	memset
	movi	v0.2d, #0000000000000000
	orr	x23, x22, #0x6
	add	x22, x22, #848
	add	x0, sp, #1760
	add	x2, x21, #20
	mov	w1, w25
	mov	x3, x24
	mov	x4, x23
	mov	x5, x22
	str	q0, [sp, #1776]
	str	q0, [sp, #1760]
	bl	"dm_words::contents::reading::read_content"
	ldrb	w8, [sp, #1760]
	cbz	w8, .LBB84_4
	ldrb	w8, [sp, #1762]
	ldrh	w10, [sp, #1764]
	cmp	w8, #2
	b.eq	.LBB84_7
	cmp	w8, #1
	b.ne	.LBB84_9
	mov	w8, wzr
	mov	w11, #20
	b	.LBB84_8
.LBB84_4:
	ldr	x9, [sp, #1768]
	mov	w12, #4
	ldr	x8, [sp, #1776]
	lsr	x10, x9, #8
	lsr	x11, x9, #16
	strb	w9, [sp, #88]
	str	x8, [sp, #928]
	tst	w10, #0xff
	strb	w10, [sp, #89]
	csinc	x13, x12, xzr, ne
	tst	w9, #0xff
	ldr	x12, [sp, #1784]
	csel	x13, xzr, x13, eq
	stur	w11, [sp, #90]
	subs	x14, x24, x13
	str	x12, [sp, #1752]
	b.eq	.LBB84_39
	cmp	x14, #1
	add	x15, x26, x13
	b.ne	.LBB84_13
	ldrb	w13, [x15]
	cmp	w13, #232
	mov	w13, #1
	cinc	w13, w13, eq
	b	.LBB84_40
.LBB84_7:
	mov	w8, wzr
	mov	w11, #21
.LBB84_8:
	strh	w11, [x19]
	strh	w8, [x19, #2]
	strh	w10, [x19, #4]
	stur	xzr, [x19, #6]
	stur	xzr, [x19, #22]
	stur	xzr, [x19, #14]
	b	.LBB84_41
.LBB84_9:
	ldrh	w9, [sp, #1766]
	and	w8, w10, #0xff
	cmp	w8, #2
	b.le	.LBB84_15
	cmp	w8, #4
	b.gt	.LBB84_23
	cmp	w8, #3
	b.ne	.LBB84_27
	mov	w8, wzr
	mov	w11, #10
	mov	w10, w9
	b	.LBB84_8
.LBB84_13:
	ldrb	w13, [x15]
	cmp	w13, #232
	b.ne	.LBB84_18
	mov	w13, #2
	b	.LBB84_40
.LBB84_15:
	cbz	w8, .LBB84_25
	cmp	w8, #1
	b.ne	.LBB84_26
	lsr	w8, w10, #8
	mov	w11, #8
	mov	w10, w9
	b	.LBB84_8
.LBB84_18:
	ldrb	w15, [x15, #1]
	cmp	w15, #232
	b.ne	.LBB84_39
	cmp	w13, #235
	sub	x14, x14, #2
	b.le	.LBB84_29
	cmp	w13, #239
	b.gt	.LBB84_36
	sub	w15, w13, #236
	cmp	w15, #2
	b.lo	.LBB84_43
	sub	w15, w13, #238
	cmp	w15, #2
	b.lo	.LBB84_33
	b	.LBB84_38
.LBB84_23:
	cmp	w8, #5
	b.ne	.LBB84_28
	mov	w8, wzr
	mov	w11, #12
	mov	w10, w9
	b	.LBB84_8
.LBB84_25:
	mov	w11, #7
	mov	w10, w9
	b	.LBB84_8
.LBB84_26:
	mov	w8, wzr
	mov	w11, #9
	mov	w10, w9
	b	.LBB84_8
.LBB84_27:
	mov	w8, wzr
	mov	w11, #11
	mov	w10, w9
	b	.LBB84_8
.LBB84_28:
	mov	w8, wzr
	mov	w11, #13
	mov	w10, w9
	b	.LBB84_8
.LBB84_29:
	cmp	w13, #229
	b.le	.LBB84_34
	cmp	w13, #230
	b.eq	.LBB84_33
	cmp	w13, #231
	b.eq	.LBB84_39
	cmp	w13, #235
	b.eq	.LBB84_39
	b	.LBB84_38
.LBB84_33:
	cbnz	x14, .LBB84_39
	b	.LBB84_43
.LBB84_34:
	cbz	w13, .LBB84_39
	cmp	w13, #129
	b.eq	.LBB84_39
	b	.LBB84_38
.LBB84_36:
	cmp	w13, #240
	b.eq	.LBB84_42
	cmp	w13, #241
	b.eq	.LBB84_39
.LBB84_38:
	cmp	w13, #230
	b.lo	.LBB84_43
.LBB84_39:
	mov	w13, #1
.LBB84_40:
	ldr	q0, [x21]
	ldr	w14, [x21, #16]
	cmp	x12, #0
	stp	x23, x8, [sp, #32]
	add	w8, w13, #3
	mov	x0, sp
	csel	w8, w13, w8, eq
	mov	x1, x19
	strb	w9, [sp, #20]
	str	q0, [sp]
	str	w14, [sp, #16]
	strb	w10, [sp, #21]
	stur	w11, [sp, #22]
	stp	x22, x12, [sp, #48]
	strb	w8, [sp, #64]
	str	x20, [sp, #72]
	bl	"ecc200_calls::reading::ReadingAnswer::show"
.LBB84_41:
	add	sp, sp, #1792
	.cfi_def_cfa_offset 80
	ldp	x20, x19, [sp, #64]
	ldp	x22, x21, [sp, #48]
	ldp	x24, x23, [sp, #32]
	ldp	x26, x25, [sp, #16]
	ldp	x29, x30, [sp], #80
	.cfi_def_cfa_offset 0
	.cfi_restore w19
	.cfi_restore w20
	.cfi_restore w21
	.cfi_restore w22
	.cfi_restore w23
	.cfi_restore w24
	.cfi_restore w25
	.cfi_restore w26
	.cfi_restore w30
	.cfi_restore w29
	ret
.LBB84_42:
	.cfi_restore_state
	cmp	x14, #2
	b.hs	.LBB84_39
.LBB84_43:
	mov	w13, #3
	b	.LBB84_40
.Lfunc_end84:
	.size	"ecc200_calls::answer::answer_words::<#89b91c89c42b4f6f>", .Lfunc_end84-"ecc200_calls::answer::answer_words::<#89b91c89c42b4f6f>"
	.cfi_endproc

	.p2align	2
	.type	"ecc200_calls::answer::answer_given::<#a1ea276ad3ef9c9c>",@function
"ecc200_calls::answer::answer_given::<#a1ea276ad3ef9c9c>":
	.cfi_startproc
	stp	x29, x30, [sp, #-64]!
	.cfi_def_cfa_offset 64
	stp	x24, x23, [sp, #16]
	stp	x22, x21, [sp, #32]
	stp	x20, x19, [sp, #48]
	.cfi_offset w19, -8
	.cfi_offset w20, -16
	.cfi_offset w21, -24
	.cfi_offset w22, -32
	.cfi_offset w23, -40
	.cfi_offset w24, -48
	.cfi_offset w30, -56
	.cfi_offset w29, -64
	sub	sp, sp, #1312
	.cfi_def_cfa_offset 1376
	.cfi_remember_state
	str	xzr, [sp]
	mov	x22, x2
	mov	x23, x1
	ldr	x8, [x0]
	ldrh	w9, [x0, #8]
	ldr	q0, [x5]
	mov	w1, wzr
	mov	w2, #1152
	mov	x19, x6
	str	x8, [sp, #1296]
	ldur	x8, [x5, #14]
	mov	x20, x4
	strh	w9, [sp, #1304]
	add	x9, sp, #1023
	mov	x21, x3
	str	q0, [sp, #1264]
	stur	x8, [x9, #255]
	add	x8, sp, #92
	add	x0, x8, #20
	str	xzr, [sp, #16]
	add	x24, x8, #20
	strh	wzr, [sp, #24]
	bl	memset
	movi	v0.2d, #0000000000000000
	add	x8, sp, #32
	add	x0, sp, #16
	add	x1, sp, #1296
	add	x6, sp, #1264
	add	x7, sp, #92
	mov	x2, x23
	mov	x3, x22
	mov	x4, x21
	mov	x5, x20
	str	xzr, [sp, #80]
	stp	q0, q0, [sp, #32]
	str	q0, [sp, #64]
	str	x8, [sp]
	bl	"ecc200_calls::restoring::restore_given::<=104,=1152>"
	ldrb	w8, [sp, #16]
	cbz	w8, .LBB85_6
	ldrb	w9, [sp, #18]
	ldrh	w8, [sp, #20]
	cbz	w9, .LBB85_9
	cmp	w9, #2
	b.ne	.LBB85_10
	and	w8, w8, #0xff
	ldrh	w9, [sp, #22]
	cmp	w8, #2
	b.eq	.LBB85_13
	cmp	w8, #1
	b.ne	.LBB85_15
	mov	w8, wzr
	mov	w11, #20
	b	.LBB85_14
.LBB85_6:
	ldrh	w8, [sp, #104]
	ldrb	w0, [sp, #1300]
	cbz	w8, .LBB85_29
	cmp	w8, #4
	b.hs	.LBB85_11
	mov	w10, wzr
	mov	x9, xzr
	b	.LBB85_26
.LBB85_9:
	mov	w11, #5
	b	.LBB85_14
.LBB85_10:
	ldrb	w9, [sp, #19]
	mov	w8, wzr
	mov	w11, #6
	b	.LBB85_14
.LBB85_11:
	cmp	w8, #16
	b.hs	.LBB85_19
	mov	x9, xzr
	mov	w10, wzr
	b	.LBB85_23
.LBB85_13:
	mov	w8, wzr
	mov	w11, #21
.LBB85_14:
	strh	w11, [x19]
	strh	w8, [x19, #2]
	strh	w9, [x19, #4]
	stur	xzr, [x19, #6]
	stur	xzr, [x19, #22]
	stur	xzr, [x19, #14]
	b	.LBB85_31
.LBB85_15:
	ldrh	w10, [sp, #24]
	and	w8, w9, #0xff
	cmp	w8, #2
	b.le	.LBB85_32
	cmp	w8, #4
	b.gt	.LBB85_35
	cmp	w8, #3
	b.ne	.LBB85_39
	mov	w8, wzr
	mov	w11, #10
	mov	w9, w10
	b	.LBB85_14
.LBB85_19:
	movi	v0.2d, #0000000000000000
	movi	v1.2d, #0000000000000000
	and	x11, x8, #0xc
	and	x9, x8, #0xfff0
	and	x10, x8, #0xfff0
.LBB85_20:
	movi	v2.16b, #241
	ldr	q3, [x24], #16
	subs	x10, x10, #16
	cmeq	v2.16b, v3.16b, v2.16b
	movi	v3.8h, #1
	ushll	v4.8h, v2.8b, #0
	ushll2	v2.8h, v2.16b, #0
	and	v4.16b, v4.16b, v3.16b
	and	v2.16b, v2.16b, v3.16b
	add	v0.8h, v0.8h, v2.8h
	add	v1.8h, v1.8h, v4.8h
	b.ne	.LBB85_20
	add	v0.8h, v1.8h, v0.8h
	cmp	x9, x8
	addv	h0, v0.8h
	fmov	w10, s0
	b.eq	.LBB85_28
	cbz	x11, .LBB85_26
.LBB85_23:
	movi	v0.2d, #0000000000000000
	add	x11, sp, #92
	mov	v0.h[0], w10
	mov	x10, x9
	and	x9, x8, #0xfffc
	add	x11, x10, x11
	sub	x10, x10, x9
	add	x11, x11, #20
.LBB85_24:
	ldr	s1, [x11], #4
	movi	v2.4h, #241
	adds	x10, x10, #4
	ushll	v1.8h, v1.8b, #0
	cmeq	v1.4h, v1.4h, v2.4h
	sub	v0.4h, v0.4h, v1.4h
	b.ne	.LBB85_24
	addv	h0, v0.4h
	cmp	x9, x8
	fmov	w10, s0
	b.eq	.LBB85_28
.LBB85_26:
	add	x11, sp, #92
	sub	x8, x8, x9
	add	x11, x9, x11
	add	x9, x11, #20
.LBB85_27:
	ldrb	w11, [x9], #1
	cmp	w11, #241
	cinc	w10, w10, eq
	subs	x8, x8, #1
	b.ne	.LBB85_27
.LBB85_28:
	and	w8, w10, #0xffff
	cmp	w8, #31
	b.hi	.LBB85_30
.LBB85_29:
	add	x1, sp, #92
	add	x2, sp, #32
	mov	x3, x19
	bl	"ecc200_calls::answer::answer_words::<#2daa1641b6f7fb38>"
	b	.LBB85_31
.LBB85_30:
	add	x1, sp, #92
	add	x2, sp, #32
	mov	x3, x19
	bl	"ecc200_calls::answer::answer_words::<#2d40c0c0409bdcb2>"
.LBB85_31:
	add	sp, sp, #1312
	.cfi_def_cfa_offset 64
	ldp	x20, x19, [sp, #48]
	ldp	x22, x21, [sp, #32]
	ldp	x24, x23, [sp, #16]
	ldp	x29, x30, [sp], #64
	.cfi_def_cfa_offset 0
	.cfi_restore w19
	.cfi_restore w20
	.cfi_restore w21
	.cfi_restore w22
	.cfi_restore w23
	.cfi_restore w24
	.cfi_restore w30
	.cfi_restore w29
	ret
.LBB85_32:
	.cfi_restore_state
	cbz	w8, .LBB85_37
	cmp	w8, #1
	b.ne	.LBB85_38
	lsr	w8, w9, #8
	mov	w11, #8
	mov	w9, w10
	b	.LBB85_14
.LBB85_35:
	cmp	w8, #5
	b.ne	.LBB85_40
	mov	w8, wzr
	mov	w11, #12
	mov	w9, w10
	b	.LBB85_14
.LBB85_37:
	mov	w11, #7
	mov	w9, w10
	b	.LBB85_14
.LBB85_38:
	mov	w8, wzr
	mov	w11, #9
	mov	w9, w10
	b	.LBB85_14
.LBB85_39:
	mov	w8, wzr
	mov	w11, #11
	mov	w9, w10
	b	.LBB85_14
.LBB85_40:
	mov	w8, wzr
	mov	w11, #13
	mov	w9, w10
	b	.LBB85_14
.Lfunc_end85:
	.size	"ecc200_calls::answer::answer_given::<#a1ea276ad3ef9c9c>", .Lfunc_end85-"ecc200_calls::answer::answer_given::<#a1ea276ad3ef9c9c>"
	.cfi_endproc

	.p2align	2
	.type	"ecc200_calls::answer::answer_words::<#2daa1641b6f7fb38>",@function
"ecc200_calls::answer::answer_words::<#2daa1641b6f7fb38>":
	.cfi_startproc
	stp	x29, x30, [sp, #-80]!
	.cfi_def_cfa_offset 80
	stp	x26, x25, [sp, #16]
	stp	x24, x23, [sp, #32]
	stp	x22, x21, [sp, #48]
	stp	x20, x19, [sp, #64]
	.cfi_offset w19, -8
	.cfi_offset w20, -16
	.cfi_offset w21, -24
	.cfi_offset w22, -32
	.cfi_offset w23, -40
	.cfi_offset w24, -48
	.cfi_offset w25, -56
	.cfi_offset w26, -64
	.cfi_offset w30, -72
	.cfi_offset w29, -80
	sub	sp, sp, #3072
	.cfi_def_cfa_offset 3152
	str	xzr, [sp]
	sub	sp, sp, #592
	.cfi_def_cfa_offset 3744
	.cfi_remember_state
	movi	v0.2d, #0000000000000000
	mov	x20, x2
	mov	x21, x1
	mov	w25, w0
	ldrh	w24, [x1, #12]
	add	x26, x1, #20
	add	x0, sp, #80
	mov	w1, wzr
	mov	w2, #3544
	mov	x19, x3
	add	x22, sp, #80
	stp	q0, q0, [sp, #16]
	stp	q0, q0, [sp, #48]
	str	q0, [sp]
	bl	memset
	movi	v0.2d, #0000000000000000
	orr	x23, x22, #0x6
	add	x22, x22, #3296
	add	x0, sp, #3632
	add	x2, x21, #20
	mov	w1, w25
	mov	x3, x24
	mov	x4, x23
	mov	x5, x22
	str	q0, [sp, #3648]
	str	q0, [sp, #3632]
	bl	"dm_words::contents::reading::read_content"
	ldrb	w8, [sp, #3632]
	cbz	w8, .LBB86_4
	ldrb	w8, [sp, #3634]
	ldrh	w10, [sp, #3636]
	cmp	w8, #2
	b.eq	.LBB86_7
	cmp	w8, #1
	b.ne	.LBB86_9
	mov	w8, wzr
	mov	w11, #20
	b	.LBB86_8
.LBB86_4:
	ldr	x9, [sp, #3640]
	mov	w12, #4
	ldr	x8, [sp, #3648]
	lsr	x10, x9, #8
	lsr	x11, x9, #16
	strb	w9, [sp, #80]
	str	x8, [sp, #3368]
	tst	w10, #0xff
	strb	w10, [sp, #81]
	csinc	x13, x12, xzr, ne
	tst	w9, #0xff
	ldr	x12, [sp, #3656]
	csel	x13, xzr, x13, eq
	stur	w11, [sp, #82]
	subs	x14, x24, x13
	str	x12, [sp, #3624]
	b.eq	.LBB86_39
	cmp	x14, #1
	add	x15, x26, x13
	b.ne	.LBB86_13
	ldrb	w13, [x15]
	cmp	w13, #232
	mov	w13, #1
	cinc	w13, w13, eq
	b	.LBB86_40
.LBB86_7:
	mov	w8, wzr
	mov	w11, #21
.LBB86_8:
	strh	w11, [x19]
	strh	w8, [x19, #2]
	strh	w10, [x19, #4]
	stur	xzr, [x19, #6]
	stur	xzr, [x19, #22]
	stur	xzr, [x19, #14]
	b	.LBB86_41
.LBB86_9:
	ldrh	w9, [sp, #3638]
	and	w8, w10, #0xff
	cmp	w8, #2
	b.le	.LBB86_15
	cmp	w8, #4
	b.gt	.LBB86_23
	cmp	w8, #3
	b.ne	.LBB86_27
	mov	w8, wzr
	mov	w11, #10
	mov	w10, w9
	b	.LBB86_8
.LBB86_13:
	ldrb	w13, [x15]
	cmp	w13, #232
	b.ne	.LBB86_18
	mov	w13, #2
	b	.LBB86_40
.LBB86_15:
	cbz	w8, .LBB86_25
	cmp	w8, #1
	b.ne	.LBB86_26
	lsr	w8, w10, #8
	mov	w11, #8
	mov	w10, w9
	b	.LBB86_8
.LBB86_18:
	ldrb	w15, [x15, #1]
	cmp	w15, #232
	b.ne	.LBB86_39
	cmp	w13, #235
	sub	x14, x14, #2
	b.le	.LBB86_29
	cmp	w13, #239
	b.gt	.LBB86_36
	sub	w15, w13, #236
	cmp	w15, #2
	b.lo	.LBB86_43
	sub	w15, w13, #238
	cmp	w15, #2
	b.lo	.LBB86_33
	b	.LBB86_38
.LBB86_23:
	cmp	w8, #5
	b.ne	.LBB86_28
	mov	w8, wzr
	mov	w11, #12
	mov	w10, w9
	b	.LBB86_8
.LBB86_25:
	mov	w11, #7
	mov	w10, w9
	b	.LBB86_8
.LBB86_26:
	mov	w8, wzr
	mov	w11, #9
	mov	w10, w9
	b	.LBB86_8
.LBB86_27:
	mov	w8, wzr
	mov	w11, #11
	mov	w10, w9
	b	.LBB86_8
.LBB86_28:
	mov	w8, wzr
	mov	w11, #13
	mov	w10, w9
	b	.LBB86_8
.LBB86_29:
	cmp	w13, #229
	b.le	.LBB86_34
	cmp	w13, #230
	b.eq	.LBB86_33
	cmp	w13, #231
	b.eq	.LBB86_39
	cmp	w13, #235
	b.eq	.LBB86_39
	b	.LBB86_38
.LBB86_33:
	cbnz	x14, .LBB86_39
	b	.LBB86_43
.LBB86_34:
	cbz	w13, .LBB86_39
	cmp	w13, #129
	b.eq	.LBB86_39
	b	.LBB86_38
.LBB86_36:
	cmp	w13, #240
	b.eq	.LBB86_42
	cmp	w13, #241
	b.eq	.LBB86_39
.LBB86_38:
	cmp	w13, #230
	b.lo	.LBB86_43
.LBB86_39:
	mov	w13, #1
.LBB86_40:
	ldr	q0, [x21]
	ldr	w14, [x21, #16]
	cmp	x12, #0
	stp	x23, x8, [sp, #32]
	add	w8, w13, #3
	mov	x0, sp
	csel	w8, w13, w8, eq
	mov	x1, x19
	strb	w9, [sp, #20]
	str	q0, [sp]
	str	w14, [sp, #16]
	strb	w10, [sp, #21]
	stur	w11, [sp, #22]
	stp	x22, x12, [sp, #48]
	strb	w8, [sp, #64]
	str	x20, [sp, #72]
	bl	"ecc200_calls::reading::ReadingAnswer::show"
.LBB86_41:
	add	sp, sp, #3664
	.cfi_def_cfa_offset 80
	ldp	x20, x19, [sp, #64]
	ldp	x22, x21, [sp, #48]
	ldp	x24, x23, [sp, #32]
	ldp	x26, x25, [sp, #16]
	ldp	x29, x30, [sp], #80
	.cfi_def_cfa_offset 0
	.cfi_restore w19
	.cfi_restore w20
	.cfi_restore w21
	.cfi_restore w22
	.cfi_restore w23
	.cfi_restore w24
	.cfi_restore w25
	.cfi_restore w26
	.cfi_restore w30
	.cfi_restore w29
	ret
.LBB86_42:
	.cfi_restore_state
	cmp	x14, #2
	b.hs	.LBB86_39
.LBB86_43:
	mov	w13, #3
	b	.LBB86_40
.Lfunc_end86:
	.size	"ecc200_calls::answer::answer_words::<#2daa1641b6f7fb38>", .Lfunc_end86-"ecc200_calls::answer::answer_words::<#2daa1641b6f7fb38>"
	.cfi_endproc

	.p2align	2
	.type	"ecc200_calls::answer::answer_words::<#2d40c0c0409bdcb2>",@function
"ecc200_calls::answer::answer_words::<#2d40c0c0409bdcb2>":
	.cfi_startproc
	str	x29, [sp, #-96]!
	.cfi_def_cfa_offset 96
	stp	x30, x27, [sp, #16]
	stp	x26, x25, [sp, #32]
	stp	x24, x23, [sp, #48]
	stp	x22, x21, [sp, #64]
	stp	x20, x19, [sp, #80]
	.cfi_offset w19, -8
	.cfi_offset w20, -16
	.cfi_offset w21, -24
	.cfi_offset w22, -32
	.cfi_offset w23, -40
	.cfi_offset w24, -48
	.cfi_offset w25, -56
	.cfi_offset w26, -64
	.cfi_offset w27, -72
	.cfi_offset w30, -80
	.cfi_offset w29, -96
	sub	sp, sp, #3072
	.cfi_def_cfa_offset 3168
	str	xzr, [sp]
	sub	sp, sp, #3072
	.cfi_def_cfa_offset 6240
	str	xzr, [sp]
	sub	sp, sp, #544
	.cfi_def_cfa_offset 6784
	.cfi_remember_state
	movi	v0.2d, #0000000000000000
	mov	x20, x2
	mov	x21, x1
	mov	w25, w0
	ldrh	w24, [x1, #12]
	add	x27, sp, #1, lsl #12
	add	x26, x1, #20
	add	x0, sp, #88
	mov	w1, wzr
	mov	w2, #6560
	mov	x19, x3
	add	x27, x27, #2560
	stp	q0, q0, [sp, #16]
	add	x22, sp, #88
	stp	q0, q0, [sp, #48]
	str	q0, [sp]
	bl	memset
	movi	v0.2d, #0000000000000000
	orr	x23, x22, #0x6
	add	x22, x22, #3296
	add	x0, sp, #1, lsl #12
	add	x2, x21, #20
	mov	w1, w25
	add	x0, x0, #2560
	mov	x3, x24
	mov	x4, x23
	mov	x5, x22
	str	q0, [sp, #6672]
	str	q0, [sp, #6656]
	bl	"dm_words::contents::reading::read_content"
	ldrb	w8, [x27]
	cbz	w8, .LBB87_4
	ldrb	w8, [x27, #2]
	ldrh	w10, [sp, #6660]
	cmp	w8, #2
	b.eq	.LBB87_7
	cmp	w8, #1
	b.ne	.LBB87_9
	mov	w8, wzr
	mov	w11, #20
	b	.LBB87_8
.LBB87_4:
	ldr	x9, [sp, #6664]
	mov	w12, #4
	ldr	x8, [sp, #6672]
	lsr	x10, x9, #8
	lsr	x11, x9, #16
	strb	w9, [sp, #88]
	str	x8, [sp, #3376]
	tst	w10, #0xff
	strb	w10, [sp, #89]
	csinc	x13, x12, xzr, ne
	tst	w9, #0xff
	ldr	x12, [sp, #6680]
	csel	x13, xzr, x13, eq
	stur	w11, [sp, #90]
	subs	x14, x24, x13
	str	x12, [sp, #6648]
	b.eq	.LBB87_39
	cmp	x14, #1
	add	x15, x26, x13
	b.ne	.LBB87_13
	ldrb	w13, [x15]
	cmp	w13, #232
	mov	w13, #1
	cinc	w13, w13, eq
	b	.LBB87_40
.LBB87_7:
	mov	w8, wzr
	mov	w11, #21
.LBB87_8:
	strh	w11, [x19]
	strh	w8, [x19, #2]
	strh	w10, [x19, #4]
	stur	xzr, [x19, #6]
	stur	xzr, [x19, #22]
	stur	xzr, [x19, #14]
	b	.LBB87_41
.LBB87_9:
	ldrh	w9, [sp, #6662]
	and	w8, w10, #0xff
	cmp	w8, #2
	b.le	.LBB87_15
	cmp	w8, #4
	b.gt	.LBB87_23
	cmp	w8, #3
	b.ne	.LBB87_27
	mov	w8, wzr
	mov	w11, #10
	mov	w10, w9
	b	.LBB87_8
.LBB87_13:
	ldrb	w13, [x15]
	cmp	w13, #232
	b.ne	.LBB87_18
	mov	w13, #2
	b	.LBB87_40
.LBB87_15:
	cbz	w8, .LBB87_25
	cmp	w8, #1
	b.ne	.LBB87_26
	lsr	w8, w10, #8
	mov	w11, #8
	mov	w10, w9
	b	.LBB87_8
.LBB87_18:
	ldrb	w15, [x15, #1]
	cmp	w15, #232
	b.ne	.LBB87_39
	cmp	w13, #235
	sub	x14, x14, #2
	b.le	.LBB87_29
	cmp	w13, #239
	b.gt	.LBB87_36
	sub	w15, w13, #236
	cmp	w15, #2
	b.lo	.LBB87_43
	sub	w15, w13, #238
	cmp	w15, #2
	b.lo	.LBB87_33
	b	.LBB87_38
.LBB87_23:
	cmp	w8, #5
	b.ne	.LBB87_28
	mov	w8, wzr
	mov	w11, #12
	mov	w10, w9
	b	.LBB87_8
.LBB87_25:
	mov	w11, #7
	mov	w10, w9
	b	.LBB87_8
.LBB87_26:
	mov	w8, wzr
	mov	w11, #9
	mov	w10, w9
	b	.LBB87_8
.LBB87_27:
	mov	w8, wzr
	mov	w11, #11
	mov	w10, w9
	b	.LBB87_8
.LBB87_28:
	mov	w8, wzr
	mov	w11, #13
	mov	w10, w9
	b	.LBB87_8
.LBB87_29:
	cmp	w13, #229
	b.le	.LBB87_34
	cmp	w13, #230
	b.eq	.LBB87_33
	cmp	w13, #231
	b.eq	.LBB87_39
	cmp	w13, #235
	b.eq	.LBB87_39
	b	.LBB87_38
.LBB87_33:
	cbnz	x14, .LBB87_39
	b	.LBB87_43
.LBB87_34:
	cbz	w13, .LBB87_39
	cmp	w13, #129
	b.eq	.LBB87_39
	b	.LBB87_38
.LBB87_36:
	cmp	w13, #240
	b.eq	.LBB87_42
	cmp	w13, #241
	b.eq	.LBB87_39
.LBB87_38:
	cmp	w13, #230
	b.lo	.LBB87_43
.LBB87_39:
	mov	w13, #1
.LBB87_40:
	ldr	q0, [x21]
	ldr	w14, [x21, #16]
	cmp	x12, #0
	stp	x23, x8, [sp, #32]
	add	w8, w13, #3
	mov	x0, sp
	csel	w8, w13, w8, eq
	mov	x1, x19
	strb	w9, [sp, #20]
	str	q0, [sp]
	str	w14, [sp, #16]
	strb	w10, [sp, #21]
	stur	w11, [sp, #22]
	stp	x22, x12, [sp, #48]
	strb	w8, [sp, #64]
	str	x20, [sp, #72]
	bl	"ecc200_calls::reading::ReadingAnswer::show"
.LBB87_41:
	add	sp, sp, #1, lsl #12
	.cfi_def_cfa_offset 2688
	add	sp, sp, #2592
	.cfi_def_cfa_offset 96
	ldp	x20, x19, [sp, #80]
	ldp	x22, x21, [sp, #64]
	ldp	x24, x23, [sp, #48]
	ldp	x26, x25, [sp, #32]
	ldp	x30, x27, [sp, #16]
	ldr	x29, [sp], #96
	.cfi_def_cfa_offset 0
	.cfi_restore w19
	.cfi_restore w20
	.cfi_restore w21
	.cfi_restore w22
	.cfi_restore w23
	.cfi_restore w24
	.cfi_restore w25
	.cfi_restore w26
	.cfi_restore w27
	.cfi_restore w30
	.cfi_restore w29
	ret
.LBB87_42:
	.cfi_restore_state
	cmp	x14, #2
	b.hs	.LBB87_39
.LBB87_43:
	mov	w13, #3
	b	.LBB87_40
.Lfunc_end87:
	.size	"ecc200_calls::answer::answer_words::<#2d40c0c0409bdcb2>", .Lfunc_end87-"ecc200_calls::answer::answer_words::<#2d40c0c0409bdcb2>"
	.cfi_endproc

	.p2align	2
	.type	"ecc200_calls::answer::answer_given::<#bf8ac5d4f1318e40>",@function
"ecc200_calls::answer::answer_given::<#bf8ac5d4f1318e40>":
	.cfi_startproc
	stp	x29, x30, [sp, #-64]!
	.cfi_def_cfa_offset 64
	stp	x24, x23, [sp, #16]
	stp	x22, x21, [sp, #32]
	stp	x20, x19, [sp, #48]
	.cfi_offset w19, -8
	.cfi_offset w20, -16
	.cfi_offset w21, -24
	.cfi_offset w22, -32
	.cfi_offset w23, -40
	.cfi_offset w24, -48
	.cfi_offset w30, -56
	.cfi_offset w29, -64
	sub	sp, sp, #2336
	.cfi_def_cfa_offset 2400
	.cfi_remember_state
	str	xzr, [sp]
	mov	x22, x2
	mov	x23, x1
	ldr	x8, [x0]
	ldrh	w9, [x0, #8]
	ldr	q0, [x5]
	mov	w1, wzr
	mov	w2, #2178
	mov	x19, x6
	str	x8, [sp, #2320]
	ldur	x8, [x5, #14]
	mov	x20, x4
	strh	w9, [sp, #2328]
	add	x9, sp, #2047
	mov	x21, x3
	str	q0, [sp, #2288]
	stur	x8, [x9, #255]
	add	x8, sp, #90
	add	x0, x8, #20
	str	xzr, [sp, #16]
	add	x24, x8, #20
	strh	wzr, [sp, #24]
	bl	memset
	movi	v0.2d, #0000000000000000
	add	x8, sp, #32
	add	x0, sp, #16
	add	x1, sp, #2320
	add	x6, sp, #2288
	add	x7, sp, #90
	mov	x2, x23
	mov	x3, x22
	mov	x4, x21
	mov	x5, x20
	str	xzr, [sp, #80]
	stp	q0, q0, [sp, #32]
	str	q0, [sp, #64]
	str	x8, [sp]
	bl	"ecc200_calls::restoring::restore_given::<=144,=2178>"
	ldrb	w8, [sp, #16]
	cbz	w8, .LBB88_6
	ldrb	w9, [sp, #18]
	ldrh	w8, [sp, #20]
	cbz	w9, .LBB88_9
	cmp	w9, #2
	b.ne	.LBB88_10
	and	w8, w8, #0xff
	ldrh	w9, [sp, #22]
	cmp	w8, #2
	b.eq	.LBB88_13
	cmp	w8, #1
	b.ne	.LBB88_15
	mov	w8, wzr
	mov	w11, #20
	b	.LBB88_14
.LBB88_6:
	ldrh	w8, [sp, #102]
	ldrb	w0, [sp, #2324]
	cbz	w8, .LBB88_29
	cmp	w8, #4
	b.hs	.LBB88_11
	mov	w10, wzr
	mov	x9, xzr
	b	.LBB88_26
.LBB88_9:
	mov	w11, #5
	b	.LBB88_14
.LBB88_10:
	ldrb	w9, [sp, #19]
	mov	w8, wzr
	mov	w11, #6
	b	.LBB88_14
.LBB88_11:
	cmp	w8, #16
	b.hs	.LBB88_19
	mov	x9, xzr
	mov	w10, wzr
	b	.LBB88_23
.LBB88_13:
	mov	w8, wzr
	mov	w11, #21
.LBB88_14:
	strh	w11, [x19]
	strh	w8, [x19, #2]
	strh	w9, [x19, #4]
	stur	xzr, [x19, #6]
	stur	xzr, [x19, #22]
	stur	xzr, [x19, #14]
	b	.LBB88_31
.LBB88_15:
	ldrh	w10, [sp, #24]
	and	w8, w9, #0xff
	cmp	w8, #2
	b.le	.LBB88_32
	cmp	w8, #4
	b.gt	.LBB88_35
	cmp	w8, #3
	b.ne	.LBB88_39
	mov	w8, wzr
	mov	w11, #10
	mov	w9, w10
	b	.LBB88_14
.LBB88_19:
	movi	v0.2d, #0000000000000000
	movi	v1.2d, #0000000000000000
	and	x11, x8, #0xc
	and	x9, x8, #0xfff0
	and	x10, x8, #0xfff0
.LBB88_20:
	movi	v2.16b, #241
	ldr	q3, [x24], #16
	subs	x10, x10, #16
	cmeq	v2.16b, v3.16b, v2.16b
	movi	v3.8h, #1
	ushll	v4.8h, v2.8b, #0
	ushll2	v2.8h, v2.16b, #0
	and	v4.16b, v4.16b, v3.16b
	and	v2.16b, v2.16b, v3.16b
	add	v0.8h, v0.8h, v2.8h
	add	v1.8h, v1.8h, v4.8h
	b.ne	.LBB88_20
	add	v0.8h, v1.8h, v0.8h
	cmp	x9, x8
	addv	h0, v0.8h
	fmov	w10, s0
	b.eq	.LBB88_28
	cbz	x11, .LBB88_26
.LBB88_23:
	movi	v0.2d, #0000000000000000
	add	x11, sp, #90
	mov	v0.h[0], w10
	mov	x10, x9
	and	x9, x8, #0xfffc
	add	x11, x10, x11
	sub	x10, x10, x9
	add	x11, x11, #20
.LBB88_24:
	ldr	s1, [x11], #4
	movi	v2.4h, #241
	adds	x10, x10, #4
	ushll	v1.8h, v1.8b, #0
	cmeq	v1.4h, v1.4h, v2.4h
	sub	v0.4h, v0.4h, v1.4h
	b.ne	.LBB88_24
	addv	h0, v0.4h
	cmp	x9, x8
	fmov	w10, s0
	b.eq	.LBB88_28
.LBB88_26:
	add	x11, sp, #90
	sub	x8, x8, x9
	add	x11, x9, x11
	add	x9, x11, #20
.LBB88_27:
	ldrb	w11, [x9], #1
	cmp	w11, #241
	cinc	w10, w10, eq
	subs	x8, x8, #1
	b.ne	.LBB88_27
.LBB88_28:
	and	w8, w10, #0xffff
	cmp	w8, #31
	b.hi	.LBB88_30
.LBB88_29:
	add	x1, sp, #90
	add	x2, sp, #32
	mov	x3, x19
	bl	"ecc200_calls::answer::answer_words::<#567d55e21e7b6b5b>"
	b	.LBB88_31
.LBB88_30:
	add	x1, sp, #90
	add	x2, sp, #32
	mov	x3, x19
	bl	"ecc200_calls::answer::answer_words::<#26b4767b40623cca>"
.LBB88_31:
	add	sp, sp, #2336
	.cfi_def_cfa_offset 64
	ldp	x20, x19, [sp, #48]
	ldp	x22, x21, [sp, #32]
	ldp	x24, x23, [sp, #16]
	ldp	x29, x30, [sp], #64
	.cfi_def_cfa_offset 0
	.cfi_restore w19
	.cfi_restore w20
	.cfi_restore w21
	.cfi_restore w22
	.cfi_restore w23
	.cfi_restore w24
	.cfi_restore w30
	.cfi_restore w29
	ret
.LBB88_32:
	.cfi_restore_state
	cbz	w8, .LBB88_37
	cmp	w8, #1
	b.ne	.LBB88_38
	lsr	w8, w9, #8
	mov	w11, #8
	mov	w9, w10
	b	.LBB88_14
.LBB88_35:
	cmp	w8, #5
	b.ne	.LBB88_40
	mov	w8, wzr
	mov	w11, #12
	mov	w9, w10
	b	.LBB88_14
.LBB88_37:
	mov	w11, #7
	mov	w9, w10
	b	.LBB88_14
.LBB88_38:
	mov	w8, wzr
	mov	w11, #9
	mov	w9, w10
	b	.LBB88_14
.LBB88_39:
	mov	w8, wzr
	mov	w11, #11
	mov	w9, w10
	b	.LBB88_14
.LBB88_40:
	mov	w8, wzr
	mov	w11, #13
	mov	w9, w10
	b	.LBB88_14
.Lfunc_end88:
	.size	"ecc200_calls::answer::answer_given::<#bf8ac5d4f1318e40>", .Lfunc_end88-"ecc200_calls::answer::answer_given::<#bf8ac5d4f1318e40>"
	.cfi_endproc

	.p2align	2
	.type	"ecc200_calls::answer::answer_words::<#567d55e21e7b6b5b>",@function
"ecc200_calls::answer::answer_words::<#567d55e21e7b6b5b>":
	.cfi_startproc
	str	x29, [sp, #-96]!
	.cfi_def_cfa_offset 96
	stp	x30, x27, [sp, #16]
	stp	x26, x25, [sp, #32]
	stp	x24, x23, [sp, #48]
	stp	x22, x21, [sp, #64]
	stp	x20, x19, [sp, #80]
	.cfi_offset w19, -8
	.cfi_offset w20, -16
	.cfi_offset w21, -24
	.cfi_offset w22, -32
	.cfi_offset w23, -40
	.cfi_offset w24, -48
	.cfi_offset w25, -56
	.cfi_offset w26, -64
	.cfi_offset w27, -72
	.cfi_offset w30, -80
	.cfi_offset w29, -96
	sub	sp, sp, #3072
	.cfi_def_cfa_offset 3168
	str	xzr, [sp]
	sub	sp, sp, #3072
	.cfi_def_cfa_offset 6240
	str	xzr, [sp]
	sub	sp, sp, #496
	.cfi_def_cfa_offset 6736
	.cfi_remember_state
	movi	v0.2d, #0000000000000000
	mov	x20, x2
	mov	x21, x1
	mov	w25, w0
	ldrh	w24, [x1, #12]
	add	x27, sp, #1, lsl #12
	add	x26, x1, #20
	add	x0, sp, #88
	mov	w1, wzr
	mov	w2, #6512
	mov	x19, x3
	add	x27, x27, #2512
	stp	q0, q0, [sp, #16]
	add	x22, sp, #88
	stp	q0, q0, [sp, #48]
	str	q0, [sp]
	bl	memset
	movi	v0.2d, #0000000000000000
	mov	w8, #6264
	orr	x23, x22, #0x6
	add	x22, x22, x8
	add	x0, sp, #1, lsl #12
	add	x2, x21, #20
	add	x0, x0, #2512
	mov	w1, w25
	mov	x3, x24
	mov	x4, x23
	mov	x5, x22
	str	q0, [sp, #6624]
	str	q0, [sp, #6608]
	bl	"dm_words::contents::reading::read_content"
	ldrb	w8, [x27]
	cbz	w8, .LBB89_4
	ldrb	w8, [x27, #2]
	ldrh	w10, [sp, #6612]
	cmp	w8, #2
	b.eq	.LBB89_7
	cmp	w8, #1
	b.ne	.LBB89_9
	mov	w8, wzr
	mov	w11, #20
	b	.LBB89_8
.LBB89_4:
	ldr	x9, [sp, #6616]
	mov	w12, #4
	ldr	x8, [sp, #6624]
	lsr	x10, x9, #8
	lsr	x11, x9, #16
	strb	w9, [sp, #88]
	str	x8, [sp, #6344]
	tst	w10, #0xff
	strb	w10, [sp, #89]
	csinc	x13, x12, xzr, ne
	tst	w9, #0xff
	ldr	x12, [sp, #6632]
	csel	x13, xzr, x13, eq
	stur	w11, [sp, #90]
	subs	x14, x24, x13
	str	x12, [sp, #6600]
	b.eq	.LBB89_39
	cmp	x14, #1
	add	x15, x26, x13
	b.ne	.LBB89_13
	ldrb	w13, [x15]
	cmp	w13, #232
	mov	w13, #1
	cinc	w13, w13, eq
	b	.LBB89_40
.LBB89_7:
	mov	w8, wzr
	mov	w11, #21
.LBB89_8:
	strh	w11, [x19]
	strh	w8, [x19, #2]
	strh	w10, [x19, #4]
	stur	xzr, [x19, #6]
	stur	xzr, [x19, #22]
	stur	xzr, [x19, #14]
	b	.LBB89_41
.LBB89_9:
	ldrh	w9, [sp, #6614]
	and	w8, w10, #0xff
	cmp	w8, #2
	b.le	.LBB89_15
	cmp	w8, #4
	b.gt	.LBB89_23
	cmp	w8, #3
	b.ne	.LBB89_27
	mov	w8, wzr
	mov	w11, #10
	mov	w10, w9
	b	.LBB89_8
.LBB89_13:
	ldrb	w13, [x15]
	cmp	w13, #232
	b.ne	.LBB89_18
	mov	w13, #2
	b	.LBB89_40
.LBB89_15:
	cbz	w8, .LBB89_25
	cmp	w8, #1
	b.ne	.LBB89_26
	lsr	w8, w10, #8
	mov	w11, #8
	mov	w10, w9
	b	.LBB89_8
.LBB89_18:
	ldrb	w15, [x15, #1]
	cmp	w15, #232
	b.ne	.LBB89_39
	cmp	w13, #235
	sub	x14, x14, #2
	b.le	.LBB89_29
	cmp	w13, #239
	b.gt	.LBB89_36
	sub	w15, w13, #236
	cmp	w15, #2
	b.lo	.LBB89_43
	sub	w15, w13, #238
	cmp	w15, #2
	b.lo	.LBB89_33
	b	.LBB89_38
.LBB89_23:
	cmp	w8, #5
	b.ne	.LBB89_28
	mov	w8, wzr
	mov	w11, #12
	mov	w10, w9
	b	.LBB89_8
.LBB89_25:
	mov	w11, #7
	mov	w10, w9
	b	.LBB89_8
.LBB89_26:
	mov	w8, wzr
	mov	w11, #9
	mov	w10, w9
	b	.LBB89_8
.LBB89_27:
	mov	w8, wzr
	mov	w11, #11
	mov	w10, w9
	b	.LBB89_8
.LBB89_28:
	mov	w8, wzr
	mov	w11, #13
	mov	w10, w9
	b	.LBB89_8
.LBB89_29:
	cmp	w13, #229
	b.le	.LBB89_34
	cmp	w13, #230
	b.eq	.LBB89_33
	cmp	w13, #231
	b.eq	.LBB89_39
	cmp	w13, #235
	b.eq	.LBB89_39
	b	.LBB89_38
.LBB89_33:
	cbnz	x14, .LBB89_39
	b	.LBB89_43
.LBB89_34:
	cbz	w13, .LBB89_39
	cmp	w13, #129
	b.eq	.LBB89_39
	b	.LBB89_38
.LBB89_36:
	cmp	w13, #240
	b.eq	.LBB89_42
	cmp	w13, #241
	b.eq	.LBB89_39
.LBB89_38:
	cmp	w13, #230
	b.lo	.LBB89_43
.LBB89_39:
	mov	w13, #1
.LBB89_40:
	ldr	q0, [x21]
	ldr	w14, [x21, #16]
	cmp	x12, #0
	stp	x23, x8, [sp, #32]
	add	w8, w13, #3
	mov	x0, sp
	csel	w8, w13, w8, eq
	mov	x1, x19
	strb	w9, [sp, #20]
	str	q0, [sp]
	str	w14, [sp, #16]
	strb	w10, [sp, #21]
	stur	w11, [sp, #22]
	stp	x22, x12, [sp, #48]
	strb	w8, [sp, #64]
	str	x20, [sp, #72]
	bl	"ecc200_calls::reading::ReadingAnswer::show"
.LBB89_41:
	add	sp, sp, #1, lsl #12
	.cfi_def_cfa_offset 2640
	add	sp, sp, #2544
	.cfi_def_cfa_offset 96
	ldp	x20, x19, [sp, #80]
	ldp	x22, x21, [sp, #64]
	ldp	x24, x23, [sp, #48]
	ldp	x26, x25, [sp, #32]
	ldp	x30, x27, [sp, #16]
	ldr	x29, [sp], #96
	.cfi_def_cfa_offset 0
	.cfi_restore w19
	.cfi_restore w20
	.cfi_restore w21
	.cfi_restore w22
	.cfi_restore w23
	.cfi_restore w24
	.cfi_restore w25
	.cfi_restore w26
	.cfi_restore w27
	.cfi_restore w30
	.cfi_restore w29
	ret
.LBB89_42:
	.cfi_restore_state
	cmp	x14, #2
	b.hs	.LBB89_39
.LBB89_43:
	mov	w13, #3
	b	.LBB89_40
.Lfunc_end89:
	.size	"ecc200_calls::answer::answer_words::<#567d55e21e7b6b5b>", .Lfunc_end89-"ecc200_calls::answer::answer_words::<#567d55e21e7b6b5b>"
	.cfi_endproc

	.p2align	2
	.type	"ecc200_calls::answer::answer_words::<#26b4767b40623cca>",@function
"ecc200_calls::answer::answer_words::<#26b4767b40623cca>":
	.cfi_startproc
	str	x29, [sp, #-96]!
	.cfi_def_cfa_offset 96
	stp	x30, x27, [sp, #16]
	stp	x26, x25, [sp, #32]
	stp	x24, x23, [sp, #48]
	stp	x22, x21, [sp, #64]
	stp	x20, x19, [sp, #80]
	.cfi_offset w19, -8
	.cfi_offset w20, -16
	.cfi_offset w21, -24
	.cfi_offset w22, -32
	.cfi_offset w23, -40
	.cfi_offset w24, -48
	.cfi_offset w25, -56
	.cfi_offset w26, -64
	.cfi_offset w27, -72
	.cfi_offset w30, -80
	.cfi_offset w29, -96
	sub	sp, sp, #3072
	.cfi_def_cfa_offset 3168
	str	xzr, [sp]
	sub	sp, sp, #3072
	.cfi_def_cfa_offset 6240
	str	xzr, [sp]
	sub	sp, sp, #3072
	.cfi_def_cfa_offset 9312
	str	xzr, [sp]
	sub	sp, sp, #3072
	.cfi_def_cfa_offset 12384
	str	xzr, [sp]
	sub	sp, sp, #336
	.cfi_def_cfa_offset 12720
	.cfi_remember_state
	movi	v0.2d, #0000000000000000
	mov	x20, x2
	mov	x21, x1
	mov	w25, w0
	ldrh	w24, [x1, #12]
	add	x27, sp, #3, lsl #12
	add	x26, x1, #20
	add	x0, sp, #88
	mov	w1, wzr
	mov	w2, #12496
	mov	x19, x3
	add	x27, x27, #304
	stp	q0, q0, [sp, #16]
	add	x22, sp, #88
	stp	q0, q0, [sp, #48]
	str	q0, [sp]
	bl	memset
	movi	v0.2d, #0000000000000000
	mov	w8, #6264
	orr	x23, x22, #0x6
	add	x22, x22, x8
	add	x0, sp, #3, lsl #12
	add	x2, x21, #20
	add	x0, x0, #304
	mov	w1, w25
	mov	x3, x24
	mov	x4, x23
	mov	x5, x22
	str	q0, [sp, #12608]
	str	q0, [sp, #12592]
	bl	"dm_words::contents::reading::read_content"
	ldrb	w8, [x27]
	cbz	w8, .LBB90_4
	ldrb	w8, [x27, #2]
	ldrh	w10, [x27, #4]
	cmp	w8, #2
	b.eq	.LBB90_7
	cmp	w8, #1
	b.ne	.LBB90_9
	mov	w8, wzr
	mov	w11, #20
	b	.LBB90_8
.LBB90_4:
	ldr	x9, [sp, #12600]
	mov	w12, #4
	ldr	x8, [sp, #12608]
	lsr	x10, x9, #8
	lsr	x11, x9, #16
	strb	w9, [sp, #88]
	str	x8, [sp, #6344]
	tst	w10, #0xff
	strb	w10, [sp, #89]
	csinc	x13, x12, xzr, ne
	tst	w9, #0xff
	ldr	x12, [sp, #12616]
	csel	x13, xzr, x13, eq
	stur	w11, [sp, #90]
	subs	x14, x24, x13
	str	x12, [sp, #12584]
	b.eq	.LBB90_39
	cmp	x14, #1
	add	x15, x26, x13
	b.ne	.LBB90_13
	ldrb	w13, [x15]
	cmp	w13, #232
	mov	w13, #1
	cinc	w13, w13, eq
	b	.LBB90_40
.LBB90_7:
	mov	w8, wzr
	mov	w11, #21
.LBB90_8:
	strh	w11, [x19]
	strh	w8, [x19, #2]
	strh	w10, [x19, #4]
	stur	xzr, [x19, #6]
	stur	xzr, [x19, #22]
	stur	xzr, [x19, #14]
	b	.LBB90_41
.LBB90_9:
	ldrh	w9, [x27, #6]
	and	w8, w10, #0xff
	cmp	w8, #2
	b.le	.LBB90_15
	cmp	w8, #4
	b.gt	.LBB90_23
	cmp	w8, #3
	b.ne	.LBB90_27
	mov	w8, wzr
	mov	w11, #10
	mov	w10, w9
	b	.LBB90_8
.LBB90_13:
	ldrb	w13, [x15]
	cmp	w13, #232
	b.ne	.LBB90_18
	mov	w13, #2
	b	.LBB90_40
.LBB90_15:
	cbz	w8, .LBB90_25
	cmp	w8, #1
	b.ne	.LBB90_26
	lsr	w8, w10, #8
	mov	w11, #8
	mov	w10, w9
	b	.LBB90_8
.LBB90_18:
	ldrb	w15, [x15, #1]
	cmp	w15, #232
	b.ne	.LBB90_39
	cmp	w13, #235
	sub	x14, x14, #2
	b.le	.LBB90_29
	cmp	w13, #239
	b.gt	.LBB90_36
	sub	w15, w13, #236
	cmp	w15, #2
	b.lo	.LBB90_43
	sub	w15, w13, #238
	cmp	w15, #2
	b.lo	.LBB90_33
	b	.LBB90_38
.LBB90_23:
	cmp	w8, #5
	b.ne	.LBB90_28
	mov	w8, wzr
	mov	w11, #12
	mov	w10, w9
	b	.LBB90_8
.LBB90_25:
	mov	w11, #7
	mov	w10, w9
	b	.LBB90_8
.LBB90_26:
	mov	w8, wzr
	mov	w11, #9
	mov	w10, w9
	b	.LBB90_8
.LBB90_27:
	mov	w8, wzr
	mov	w11, #11
	mov	w10, w9
	b	.LBB90_8
.LBB90_28:
	mov	w8, wzr
	mov	w11, #13
	mov	w10, w9
	b	.LBB90_8
.LBB90_29:
	cmp	w13, #229
	b.le	.LBB90_34
	cmp	w13, #230
	b.eq	.LBB90_33
	cmp	w13, #231
	b.eq	.LBB90_39
	cmp	w13, #235
	b.eq	.LBB90_39
	b	.LBB90_38
.LBB90_33:
	cbnz	x14, .LBB90_39
	b	.LBB90_43
.LBB90_34:
	cbz	w13, .LBB90_39
	cmp	w13, #129
	b.eq	.LBB90_39
	b	.LBB90_38
.LBB90_36:
	cmp	w13, #240
	b.eq	.LBB90_42
	cmp	w13, #241
	b.eq	.LBB90_39
.LBB90_38:
	cmp	w13, #230
	b.lo	.LBB90_43
.LBB90_39:
	mov	w13, #1
.LBB90_40:
	ldr	q0, [x21]
	ldr	w14, [x21, #16]
	cmp	x12, #0
	stp	x23, x8, [sp, #32]
	add	w8, w13, #3
	mov	x0, sp
	csel	w8, w13, w8, eq
	mov	x1, x19
	strb	w9, [sp, #20]
	str	q0, [sp]
	str	w14, [sp, #16]
	strb	w10, [sp, #21]
	stur	w11, [sp, #22]
	stp	x22, x12, [sp, #48]
	strb	w8, [sp, #64]
	str	x20, [sp, #72]
	bl	"ecc200_calls::reading::ReadingAnswer::show"
.LBB90_41:
	add	sp, sp, #3, lsl #12
	.cfi_def_cfa_offset 432
	add	sp, sp, #336
	.cfi_def_cfa_offset 96
	ldp	x20, x19, [sp, #80]
	ldp	x22, x21, [sp, #64]
	ldp	x24, x23, [sp, #48]
	ldp	x26, x25, [sp, #32]
	ldp	x30, x27, [sp, #16]
	ldr	x29, [sp], #96
	.cfi_def_cfa_offset 0
	.cfi_restore w19
	.cfi_restore w20
	.cfi_restore w21
	.cfi_restore w22
	.cfi_restore w23
	.cfi_restore w24
	.cfi_restore w25
	.cfi_restore w26
	.cfi_restore w27
	.cfi_restore w30
	.cfi_restore w29
	ret
.LBB90_42:
	.cfi_restore_state
	cmp	x14, #2
	b.hs	.LBB90_39
.LBB90_43:
	mov	w13, #3
	b	.LBB90_40
.Lfunc_end90:
	.size	"ecc200_calls::answer::answer_words::<#26b4767b40623cca>", .Lfunc_end90-"ecc200_calls::answer::answer_words::<#26b4767b40623cca>"
	.cfi_endproc

	.p2align	2
	.type	"ecc200_calls::how::check_how",@function
"ecc200_calls::how::check_how":
	.cfi_startproc
	ldrh	w10, [x1]
	ldrh	w8, [x1, #2]
	ldrh	w14, [x1, #4]
	ldrh	w9, [x1, #6]
	ldur	x12, [x1, #10]
	cbz	w10, .LBB91_3
	cmp	w10, #2
	b.eq	.LBB91_4
	cmp	w10, #1
	b.ne	.LBB91_7
.LBB91_3:
	mov	w11, wzr
	b	.LBB91_10
.LBB91_4:
	ldrh	w10, [x1, #8]
	cbz	w10, .LBB91_8
	cmp	w10, #1
	b.ne	.LBB91_36
	mov	w10, wzr
	b	.LBB91_9
.LBB91_7:
	mov	w8, #16
	b	.LBB91_37
.LBB91_8:
	mov	w10, #1
.LBB91_9:
	mov	w11, #1
.LBB91_10:
	cmp	w8, #1
	b.le	.LBB91_15
	cmp	w8, #2
	b.eq	.LBB91_18
	cmp	w8, #3
	b.eq	.LBB91_19
	cmp	w8, #4
	b.ne	.LBB91_35
	mov	w13, #4
	mov	w8, w14
	b	.LBB91_21
.LBB91_15:
	cbz	w8, .LBB91_20
	cmp	w8, #1
	b.ne	.LBB91_35
	mov	w8, wzr
	mov	w9, wzr
	mov	w13, #1
	b	.LBB91_21
.LBB91_18:
	mov	w8, wzr
	mov	w9, wzr
	mov	w13, #2
	b	.LBB91_21
.LBB91_19:
	mov	w8, wzr
	mov	w9, wzr
	mov	w13, #3
	b	.LBB91_21
.LBB91_20:
	mov	w13, wzr
	mov	w9, w8
.LBB91_21:
	and	w14, w12, #0xffff
	cmp	w14, #2
	b.eq	.LBB91_33
	cmp	w14, #1
	b.eq	.LBB91_26
	cbnz	w14, .LBB91_43
	cmp	x12, #16, lsl #12
	b.hs	.LBB91_43
	mov	w12, wzr
	mov	w14, wzr
	mov	w15, wzr
	b	.LBB91_42
.LBB91_26:
	lsr	w14, w12, #16
	cmp	w14, #16
	b.hi	.LBB91_43
	lsr	x15, x12, #32
	and	w14, w15, #0xffff
	cmp	w14, #16
	b.hi	.LBB91_43
	ubfx	w17, w12, #16, #8
	lsr	x16, x12, #56
	cbz	w17, .LBB91_39
	ubfx	x14, x12, #48, #8
	sub	w14, w14, #1
	cmp	w14, #253
	mov	w14, wzr
	b.hi	.LBB91_40
	ubfx	x18, x12, #32, #8
	cmp	w17, w18
	b.hi	.LBB91_40
	sub	w17, w18, #2
	cmp	w17, #14
	b.hi	.LBB91_40
	sub	w14, w16, #1
	cmp	w14, #254
	cset	w14, lo
	b	.LBB91_40
.LBB91_33:
	cmp	x12, #16, lsl #12
	cset	w15, lo
	b.hs	.LBB91_43
	mov	w12, wzr
	mov	w14, wzr
	b	.LBB91_42
.LBB91_35:
	mov	w9, #1
	strh	w8, [x0, #4]
	movk	w9, #18, lsl #16
	str	w9, [x0]
	b	.LBB91_38
.LBB91_36:
	mov	w8, #17
.LBB91_37:
	mov	w9, #1
	strh	w8, [x0, #2]
	strh	w9, [x0]
	strh	w10, [x0, #4]
.LBB91_38:
	stur	xzr, [x0, #6]
	strh	wzr, [x0, #14]
	ret
.LBB91_39:
	mov	w14, wzr
.LBB91_40:
	lsr	x17, x12, #48
	lsl	w16, w16, #24
	cmp	w14, #0
	bfi	w16, w17, #16, #8
	bfi	w16, w15, #8, #5
	bfxil	w16, w12, #16, #5
	csel	w12, w16, wzr, ne
	cbz	w14, .LBB91_43
	mov	w15, w14
.LBB91_42:
	orr	w10, w11, w10, lsl #8
	strh	wzr, [x0]
	strh	w13, [x0, #4]
	strh	w10, [x0, #2]
	strh	w8, [x0, #6]
	strh	w9, [x0, #8]
	strb	w15, [x0, #10]
	strb	w14, [x0, #11]
	str	w12, [x0, #12]
	ret
.LBB91_43:
	mov	w8, #1
	stur	xzr, [x0, #4]
	movk	w8, #23, lsl #16
	str	wzr, [x0, #12]
	str	w8, [x0]
	ret
.Lfunc_end91:
	.size	"ecc200_calls::how::check_how", .Lfunc_end91-"ecc200_calls::how::check_how"
	.cfi_endproc

	.p2align	2
	.type	"ecc200_calls::writing::write_content_of::<#d4a6cd8012f658d3>",@function
"ecc200_calls::writing::write_content_of::<#d4a6cd8012f658d3>":
	.cfi_startproc
	sub	sp, sp, #304
	.cfi_def_cfa_offset 304
	stp	x29, x30, [sp, #288]
	.cfi_offset w30, -8
	.cfi_offset w29, -16
	.cfi_remember_state
	movi	v0.2d, #0000000000000000
	ldrh	w10, [x5]
	ldur	w11, [x5, #2]
	mov	x9, x4
	mov	x4, x3
	mov	x8, x1
	strh	w10, [sp, #276]
	add	x10, sp, #23
	stur	w11, [x10, #255]
	stp	q0, q0, [sp]
	stp	q0, q0, [sp, #32]
	stp	q0, q0, [sp, #64]
	stp	q0, q0, [sp, #96]
	stp	q0, q0, [sp, #128]
	stp	q0, q0, [sp, #160]
	stp	q0, q0, [sp, #192]
	stp	q0, q0, [sp, #224]
	stur	xzr, [sp, #254]
	cbz	x1, .LBB92_5
	cmp	x8, #8
	b.hs	.LBB92_10
	mov	x10, xzr
.LBB92_3:
	lsl	x12, x10, #1
	mov	x11, sp
	sub	x10, x8, x10
	add	x11, x12, x11
	add	x12, x0, x12
	orr	x11, x11, #0x1
.LBB92_4:
	ldrh	w13, [x12], #2
	mov	w14, #256
	cmp	w13, #256
	cset	w15, lo
	csel	w13, w13, w14, lo
	subs	x10, x10, #1
	sturb	w15, [x11, #-1]
	strb	w13, [x11], #2
	b.ne	.LBB92_4
.LBB92_5:
	cbz	x4, .LBB92_9
	add	x10, sp, #284
	add	x11, x2, #4
	mov	x12, x4
	add	x10, x10, #4
.LBB92_7:
	ldp	w14, w13, [x11, #-4]
	subs	x12, x12, #1
	add	x11, x11, #8
	sturh	wzr, [x10, #-2]
	str	w14, [x10], #8
	b.ne	.LBB92_7
	strh	w13, [sp, #284]
.LBB92_9:
	add	x0, sp, #276
	mov	x1, sp
	add	x3, sp, #284
	mov	x2, x8
	mov	x5, x9
	bl	"ecc200_calls::writing::write_content"
	ldp	x29, x30, [sp, #288]
	add	sp, sp, #304
	.cfi_def_cfa_offset 0
	.cfi_restore w30
	.cfi_restore w29
	ret
.LBB92_10:
	.cfi_restore_state
	mov	x10, sp
	sub	x11, x8, #1
	orr	x10, x10, #0x1
	add	x12, x10, x11, lsl #1
	cmp	x12, x10
	mov	x10, xzr
	b.lo	.LBB92_3
	tbnz	x11, #63, .LBB92_3
	cmp	x8, #16
	b.hs	.LBB92_17
	mov	x10, xzr
.LBB92_14:
	lsl	x13, x10, #1
	mov	x11, x10
	and	x10, x8, #0xfffffffffffffff8
	mov	x12, sp
	sub	x11, x11, x10
	add	x12, x12, x13
	add	x13, x0, x13
.LBB92_15:
	movi	v0.8h, #1, lsl #8
	ldr	q1, [x13], #16
	movi	v3.8b, #1
	adds	x11, x11, #8
	cmhi	v2.8h, v0.8h, v1.8h
	umin	v0.8h, v1.8h, v0.8h
	xtn	v2.8b, v2.8h
	and	v1.8b, v2.8b, v3.8b
	xtn	v2.8b, v0.8h
	st2	{ v1.8b, v2.8b }, [x12], #16
	b.ne	.LBB92_15
	cmp	x8, x10
	b.ne	.LBB92_3
	b	.LBB92_5
.LBB92_17:
	and	x10, x8, #0xfffffffffffffff0
	mov	x11, sp
	mov	x12, x0
	and	x13, x8, #0xfffffffffffffff0
.LBB92_18:
	movi	v0.8h, #1, lsl #8
	subs	x13, x13, #16
	ldp	q1, q2, [x12], #32
	cmhi	v3.8h, v0.8h, v2.8h
	cmhi	v4.8h, v0.8h, v1.8h
	umin	v2.8h, v2.8h, v0.8h
	umin	v0.8h, v1.8h, v0.8h
	uzp1	v3.16b, v4.16b, v3.16b
	movi	v4.16b, #1
	and	v3.16b, v3.16b, v4.16b
	uzp1	v4.16b, v0.16b, v2.16b
	st2	{ v3.16b, v4.16b }, [x11], #32
	b.ne	.LBB92_18
	cmp	x8, x10
	b.eq	.LBB92_5
	tbz	w8, #3, .LBB92_3
	b	.LBB92_14
.Lfunc_end92:
	.size	"ecc200_calls::writing::write_content_of::<#d4a6cd8012f658d3>", .Lfunc_end92-"ecc200_calls::writing::write_content_of::<#d4a6cd8012f658d3>"
	.cfi_endproc

	.p2align	2
	.type	"ecc200_calls::writing::write_content_of::<#b76b4ae358bda620>",@function
"ecc200_calls::writing::write_content_of::<#b76b4ae358bda620>":
	.cfi_startproc
	stp	x29, x30, [sp, #-64]!
	.cfi_def_cfa_offset 64
	stp	x24, x23, [sp, #16]
	stp	x22, x21, [sp, #32]
	stp	x20, x19, [sp, #48]
	.cfi_offset w19, -8
	.cfi_offset w20, -16
	.cfi_offset w21, -24
	.cfi_offset w22, -32
	.cfi_offset w23, -40
	.cfi_offset w24, -48
	.cfi_offset w30, -56
	.cfi_offset w29, -64
	sub	sp, sp, #848
	.cfi_def_cfa_offset 912
	.cfi_remember_state
	ldrh	w8, [x5]
	ldur	w9, [x5, #2]
	mov	x23, x2
	mov	x22, x1
	mov	x24, x0
	add	x0, sp, #6
	strh	w8, [sp, #836]
	add	x8, sp, #583
	mov	w1, wzr
	mov	w2, #830
	mov	x19, x6
	mov	x20, x4
	mov	x21, x3
	stur	w9, [x8, #255]
	bl	memset
	cbz	x22, .LBB93_5
	cmp	x22, #8
	b.hs	.LBB93_10
	mov	x8, xzr
.LBB93_3:
	lsl	x10, x8, #1
	add	x9, sp, #6
	sub	x8, x22, x8
	add	x9, x10, x9
	add	x10, x24, x10
	add	x9, x9, #1
.LBB93_4:
	ldrh	w11, [x10], #2
	mov	w12, #256
	cmp	w11, #256
	cset	w13, lo
	csel	w11, w11, w12, lo
	subs	x8, x8, #1
	sturb	w13, [x9, #-1]
	strb	w11, [x9], #2
	b.ne	.LBB93_4
.LBB93_5:
	cbz	x21, .LBB93_9
	add	x8, sp, #844
	add	x9, x23, #4
	mov	x10, x21
	add	x8, x8, #4
.LBB93_7:
	ldp	w12, w11, [x9, #-4]
	subs	x10, x10, #1
	add	x9, x9, #8
	sturh	wzr, [x8, #-2]
	str	w12, [x8], #8
	b.ne	.LBB93_7
	strh	w11, [sp, #844]
.LBB93_9:
	add	x0, sp, #836
	add	x1, sp, #6
	add	x3, sp, #844
	mov	x2, x22
	mov	x4, x21
	mov	x5, x20
	mov	x6, x19
	bl	"ecc200_calls::writing::write_content"
	add	sp, sp, #848
	.cfi_def_cfa_offset 64
	ldp	x20, x19, [sp, #48]
	ldp	x22, x21, [sp, #32]
	ldp	x24, x23, [sp, #16]
	ldp	x29, x30, [sp], #64
	.cfi_def_cfa_offset 0
	.cfi_restore w19
	.cfi_restore w20
	.cfi_restore w21
	.cfi_restore w22
	.cfi_restore w23
	.cfi_restore w24
	.cfi_restore w30
	.cfi_restore w29
	ret
.LBB93_10:
	.cfi_restore_state
	add	x8, sp, #6
	sub	x9, x22, #1
	add	x8, x8, #1
	add	x10, x8, x9, lsl #1
	cmp	x10, x8
	mov	x8, xzr
	b.lo	.LBB93_3
	tbnz	x9, #63, .LBB93_3
	cmp	x22, #16
	b.hs	.LBB93_17
	mov	x8, xzr
.LBB93_14:
	lsl	x11, x8, #1
	mov	x9, x8
	and	x8, x22, #0xfffffffffffffff8
	add	x10, sp, #6
	sub	x9, x9, x8
	add	x10, x10, x11
	add	x11, x24, x11
.LBB93_15:
	movi	v0.8h, #1, lsl #8
	ldr	q1, [x11], #16
	movi	v3.8b, #1
	adds	x9, x9, #8
	cmhi	v2.8h, v0.8h, v1.8h
	umin	v0.8h, v1.8h, v0.8h
	xtn	v2.8b, v2.8h
	and	v1.8b, v2.8b, v3.8b
	xtn	v2.8b, v0.8h
	st2	{ v1.8b, v2.8b }, [x10], #16
	b.ne	.LBB93_15
	cmp	x22, x8
	b.ne	.LBB93_3
	b	.LBB93_5
.LBB93_17:
	and	x8, x22, #0xfffffffffffffff0
	add	x9, sp, #6
	mov	x10, x24
	and	x11, x22, #0xfffffffffffffff0
.LBB93_18:
	movi	v0.8h, #1, lsl #8
	subs	x11, x11, #16
	ldp	q1, q2, [x10], #32
	cmhi	v3.8h, v0.8h, v2.8h
	cmhi	v4.8h, v0.8h, v1.8h
	umin	v2.8h, v2.8h, v0.8h
	umin	v0.8h, v1.8h, v0.8h
	uzp1	v3.16b, v4.16b, v3.16b
	movi	v4.16b, #1
	and	v3.16b, v3.16b, v4.16b
	uzp1	v4.16b, v0.16b, v2.16b
	st2	{ v3.16b, v4.16b }, [x9], #32
	b.ne	.LBB93_18
	cmp	x22, x8
	b.eq	.LBB93_5
	tbz	w22, #3, .LBB93_3
	b	.LBB93_14
.Lfunc_end93:
	.size	"ecc200_calls::writing::write_content_of::<#b76b4ae358bda620>", .Lfunc_end93-"ecc200_calls::writing::write_content_of::<#b76b4ae358bda620>"
	.cfi_endproc

	.p2align	2
	.type	"ecc200_calls::writing::write_content_of::<#568124f4bcd00b97>",@function
"ecc200_calls::writing::write_content_of::<#568124f4bcd00b97>":
	.cfi_startproc
	stp	x29, x30, [sp, #-64]!
	.cfi_def_cfa_offset 64
	stp	x24, x23, [sp, #16]
	stp	x22, x21, [sp, #32]
	stp	x20, x19, [sp, #48]
	.cfi_offset w19, -8
	.cfi_offset w20, -16
	.cfi_offset w21, -24
	.cfi_offset w22, -32
	.cfi_offset w23, -40
	.cfi_offset w24, -48
	.cfi_offset w30, -56
	.cfi_offset w29, -64
	sub	sp, sp, #3072
	.cfi_def_cfa_offset 3136
	str	xzr, [sp], #-224
	.cfi_def_cfa_offset 3360
	.cfi_remember_state
	ldrh	w8, [x5]
	ldur	w9, [x5, #2]
	mov	x23, x2
	mov	x22, x1
	mov	x24, x0
	add	x0, sp, #6
	strh	w8, [sp, #3284]
	add	x8, sp, #3031
	mov	w1, wzr
	mov	w2, #3278
	mov	x19, x6
	mov	x20, x4
	mov	x21, x3
	stur	w9, [x8, #255]
	bl	memset
	cbz	x22, .LBB94_5
	cmp	x22, #8
	b.hs	.LBB94_10
	mov	x8, xzr
.LBB94_3:
	lsl	x10, x8, #1
	add	x9, sp, #6
	sub	x8, x22, x8
	add	x9, x10, x9
	add	x10, x24, x10
	add	x9, x9, #1
.LBB94_4:
	ldrh	w11, [x10], #2
	mov	w12, #256
	cmp	w11, #256
	cset	w13, lo
	csel	w11, w11, w12, lo
	subs	x8, x8, #1
	sturb	w13, [x9, #-1]
	strb	w11, [x9], #2
	b.ne	.LBB94_4
.LBB94_5:
	cbz	x21, .LBB94_9
	add	x8, sp, #3292
	add	x9, x23, #4
	mov	x10, x21
	add	x8, x8, #4
.LBB94_7:
	ldp	w12, w11, [x9, #-4]
	subs	x10, x10, #1
	add	x9, x9, #8
	sturh	wzr, [x8, #-2]
	str	w12, [x8], #8
	b.ne	.LBB94_7
	strh	w11, [sp, #3292]
.LBB94_9:
	add	x0, sp, #3284
	add	x1, sp, #6
	add	x3, sp, #3292
	mov	x2, x22
	mov	x4, x21
	mov	x5, x20
	mov	x6, x19
	bl	"ecc200_calls::writing::write_content"
	add	sp, sp, #3296
	.cfi_def_cfa_offset 64
	ldp	x20, x19, [sp, #48]
	ldp	x22, x21, [sp, #32]
	ldp	x24, x23, [sp, #16]
	ldp	x29, x30, [sp], #64
	.cfi_def_cfa_offset 0
	.cfi_restore w19
	.cfi_restore w20
	.cfi_restore w21
	.cfi_restore w22
	.cfi_restore w23
	.cfi_restore w24
	.cfi_restore w30
	.cfi_restore w29
	ret
.LBB94_10:
	.cfi_restore_state
	add	x8, sp, #6
	sub	x9, x22, #1
	add	x8, x8, #1
	add	x10, x8, x9, lsl #1
	cmp	x10, x8
	mov	x8, xzr
	b.lo	.LBB94_3
	tbnz	x9, #63, .LBB94_3
	cmp	x22, #16
	b.hs	.LBB94_17
	mov	x8, xzr
.LBB94_14:
	lsl	x11, x8, #1
	mov	x9, x8
	and	x8, x22, #0xfffffffffffffff8
	add	x10, sp, #6
	sub	x9, x9, x8
	add	x10, x10, x11
	add	x11, x24, x11
.LBB94_15:
	movi	v0.8h, #1, lsl #8
	ldr	q1, [x11], #16
	movi	v3.8b, #1
	adds	x9, x9, #8
	cmhi	v2.8h, v0.8h, v1.8h
	umin	v0.8h, v1.8h, v0.8h
	xtn	v2.8b, v2.8h
	and	v1.8b, v2.8b, v3.8b
	xtn	v2.8b, v0.8h
	st2	{ v1.8b, v2.8b }, [x10], #16
	b.ne	.LBB94_15
	cmp	x22, x8
	b.ne	.LBB94_3
	b	.LBB94_5
.LBB94_17:
	and	x8, x22, #0xfffffffffffffff0
	add	x9, sp, #6
	mov	x10, x24
	and	x11, x22, #0xfffffffffffffff0
.LBB94_18:
	movi	v0.8h, #1, lsl #8
	subs	x11, x11, #16
	ldp	q1, q2, [x10], #32
	cmhi	v3.8h, v0.8h, v2.8h
	cmhi	v4.8h, v0.8h, v1.8h
	umin	v2.8h, v2.8h, v0.8h
	umin	v0.8h, v1.8h, v0.8h
	uzp1	v3.16b, v4.16b, v3.16b
	movi	v4.16b, #1
	and	v3.16b, v3.16b, v4.16b
	uzp1	v4.16b, v0.16b, v2.16b
	st2	{ v3.16b, v4.16b }, [x9], #32
	b.ne	.LBB94_18
	cmp	x22, x8
	b.eq	.LBB94_5
	tbz	w22, #3, .LBB94_3
	b	.LBB94_14
.Lfunc_end94:
	.size	"ecc200_calls::writing::write_content_of::<#568124f4bcd00b97>", .Lfunc_end94-"ecc200_calls::writing::write_content_of::<#568124f4bcd00b97>"
	.cfi_endproc

	.p2align	2
	.type	"ecc200_calls::writing::write_content_of::<#5bc803b6b7c4bd57>",@function
"ecc200_calls::writing::write_content_of::<#5bc803b6b7c4bd57>":
	.cfi_startproc
	stp	x29, x30, [sp, #-64]!
	.cfi_def_cfa_offset 64
	stp	x24, x23, [sp, #16]
	stp	x22, x21, [sp, #32]
	stp	x20, x19, [sp, #48]
	.cfi_offset w19, -8
	.cfi_offset w20, -16
	.cfi_offset w21, -24
	.cfi_offset w22, -32
	.cfi_offset w23, -40
	.cfi_offset w24, -48
	.cfi_offset w30, -56
	.cfi_offset w29, -64
	sub	sp, sp, #3072
	.cfi_def_cfa_offset 3136
	str	xzr, [sp]
	sub	sp, sp, #3072
	.cfi_def_cfa_offset 6208
	str	xzr, [sp], #-128
	.cfi_def_cfa_offset 6336
	.cfi_remember_state
	ldrh	w8, [x5]
	ldur	w9, [x5, #2]
	mov	x23, x2
	mov	x22, x1
	mov	x24, x0
	add	x0, sp, #14
	strh	w8, [sp, #6260]
	add	x8, sp, #1, lsl #12
	mov	w1, wzr
	add	x8, x8, #1911
	mov	w2, #6246
	mov	x19, x6
	mov	x20, x4
	mov	x21, x3
	stur	w9, [x8, #255]
	bl	memset
	cbz	x22, .LBB95_5
	cmp	x22, #8
	b.hs	.LBB95_10
	mov	x8, xzr
.LBB95_3:
	lsl	x10, x8, #1
	add	x9, sp, #14
	sub	x8, x22, x8
	add	x9, x10, x9
	add	x10, x24, x10
	add	x9, x9, #1
.LBB95_4:
	ldrh	w11, [x10], #2
	mov	w12, #256
	cmp	w11, #256
	cset	w13, lo
	csel	w11, w11, w12, lo
	subs	x8, x8, #1
	sturb	w13, [x9, #-1]
	strb	w11, [x9], #2
	b.ne	.LBB95_4
.LBB95_5:
	cbz	x21, .LBB95_9
	add	x8, sp, #1, lsl #12
	add	x9, x23, #4
	mov	x10, x21
	add	x8, x8, #2172
	add	x8, x8, #4
.LBB95_7:
	ldp	w12, w11, [x9, #-4]
	subs	x10, x10, #1
	add	x9, x9, #8
	sturh	wzr, [x8, #-2]
	str	w12, [x8], #8
	b.ne	.LBB95_7
	strh	w11, [sp, #6268]
.LBB95_9:
	add	x0, sp, #1, lsl #12
	add	x3, sp, #1, lsl #12
	add	x1, sp, #14
	add	x0, x0, #2164
	add	x3, x3, #2172
	mov	x2, x22
	mov	x4, x21
	mov	x5, x20
	mov	x6, x19
	bl	"ecc200_calls::writing::write_content"
	add	sp, sp, #1, lsl #12
	.cfi_def_cfa_offset 2240
	add	sp, sp, #2176
	.cfi_def_cfa_offset 64
	ldp	x20, x19, [sp, #48]
	ldp	x22, x21, [sp, #32]
	ldp	x24, x23, [sp, #16]
	ldp	x29, x30, [sp], #64
	.cfi_def_cfa_offset 0
	.cfi_restore w19
	.cfi_restore w20
	.cfi_restore w21
	.cfi_restore w22
	.cfi_restore w23
	.cfi_restore w24
	.cfi_restore w30
	.cfi_restore w29
	ret
.LBB95_10:
	.cfi_restore_state
	add	x8, sp, #14
	sub	x9, x22, #1
	add	x8, x8, #1
	add	x10, x8, x9, lsl #1
	cmp	x10, x8
	mov	x8, xzr
	b.lo	.LBB95_3
	tbnz	x9, #63, .LBB95_3
	cmp	x22, #16
	b.hs	.LBB95_17
	mov	x8, xzr
.LBB95_14:
	lsl	x11, x8, #1
	mov	x9, x8
	and	x8, x22, #0xfffffffffffffff8
	add	x10, sp, #14
	sub	x9, x9, x8
	add	x10, x10, x11
	add	x11, x24, x11
.LBB95_15:
	movi	v0.8h, #1, lsl #8
	ldr	q1, [x11], #16
	movi	v3.8b, #1
	adds	x9, x9, #8
	cmhi	v2.8h, v0.8h, v1.8h
	umin	v0.8h, v1.8h, v0.8h
	xtn	v2.8b, v2.8h
	and	v1.8b, v2.8b, v3.8b
	xtn	v2.8b, v0.8h
	st2	{ v1.8b, v2.8b }, [x10], #16
	b.ne	.LBB95_15
	cmp	x22, x8
	b.ne	.LBB95_3
	b	.LBB95_5
.LBB95_17:
	and	x8, x22, #0xfffffffffffffff0
	add	x9, sp, #14
	mov	x10, x24
	and	x11, x22, #0xfffffffffffffff0
.LBB95_18:
	movi	v0.8h, #1, lsl #8
	subs	x11, x11, #16
	ldp	q1, q2, [x10], #32
	cmhi	v3.8h, v0.8h, v2.8h
	cmhi	v4.8h, v0.8h, v1.8h
	umin	v2.8h, v2.8h, v0.8h
	umin	v0.8h, v1.8h, v0.8h
	uzp1	v3.16b, v4.16b, v3.16b
	movi	v4.16b, #1
	and	v3.16b, v3.16b, v4.16b
	uzp1	v4.16b, v0.16b, v2.16b
	st2	{ v3.16b, v4.16b }, [x9], #32
	b.ne	.LBB95_18
	cmp	x22, x8
	b.eq	.LBB95_5
	tbz	w22, #3, .LBB95_3
	b	.LBB95_14
.Lfunc_end95:
	.size	"ecc200_calls::writing::write_content_of::<#5bc803b6b7c4bd57>", .Lfunc_end95-"ecc200_calls::writing::write_content_of::<#5bc803b6b7c4bd57>"
	.cfi_endproc

	.p2align	2
	.type	"ecc200_calls::writing::write_content_of::<#653d8e9eeee73d5b>",@function
"ecc200_calls::writing::write_content_of::<#653d8e9eeee73d5b>":
	.cfi_startproc
	stp	x29, x30, [sp, #-16]!
	.cfi_def_cfa_offset 16
	.cfi_offset w30, -8
	.cfi_offset w29, -16
	sub	sp, sp, #528
	.cfi_def_cfa_offset 544
	.cfi_remember_state
	ldrh	w10, [x5]
	movi	v0.2d, #0000000000000000
	ldur	w11, [x5, #2]
	mov	x9, x4
	mov	x4, x3
	mov	x8, x1
	strh	w10, [sp, #520]
	add	x10, sp, #267
	stur	w11, [x10, #255]
	add	x10, sp, #255
	stp	q0, q0, [sp, #16]
	stp	q0, q0, [sp, #48]
	stp	q0, q0, [sp, #80]
	stp	q0, q0, [sp, #112]
	stp	q0, q0, [sp, #144]
	stp	q0, q0, [sp, #176]
	stp	q0, q0, [sp, #208]
	stp	q0, q0, [sp, #256]
	stp	q0, q0, [sp, #288]
	stp	q0, q0, [sp, #320]
	stp	q0, q0, [sp, #352]
	stp	q0, q0, [sp, #384]
	stp	q0, q0, [sp, #416]
	stp	q0, q0, [sp, #448]
	stp	q0, q0, [sp, #480]
	stur	xzr, [x10, #255]
	str	xzr, [sp, #240]
	str	q0, [sp]
	cbz	x1, .LBB96_5
	cmp	x8, #8
	b.hs	.LBB96_9
	mov	x10, xzr
.LBB96_3:
	lsl	x12, x10, #1
	add	x11, sp, #256
	sub	x10, x8, x10
	add	x11, x12, x11
	add	x12, x0, x12
	orr	x11, x11, #0x1
.LBB96_4:
	ldrh	w13, [x12], #2
	mov	w14, #256
	cmp	w13, #256
	cset	w15, lo
	csel	w13, w13, w14, lo
	subs	x10, x10, #1
	sturb	w15, [x11, #-1]
	strb	w13, [x11], #2
	b.ne	.LBB96_4
.LBB96_5:
	cbz	x4, .LBB96_8
	mov	x10, sp
	add	x11, x2, #4
	mov	x12, x4
	orr	x10, x10, #0x4
.LBB96_7:
	ldp	w14, w13, [x11, #-4]
	subs	x12, x12, #1
	add	x11, x11, #8
	sturh	wzr, [x10, #-2]
	sturh	w13, [x10, #-4]
	str	w14, [x10], #8
	b.ne	.LBB96_7
.LBB96_8:
	add	x0, sp, #520
	add	x1, sp, #256
	mov	x3, sp
	mov	x2, x8
	mov	x5, x9
	bl	"ecc200_calls::writing::write_content"
	add	sp, sp, #528
	.cfi_def_cfa_offset 16
	ldp	x29, x30, [sp], #16
	.cfi_def_cfa_offset 0
	.cfi_restore w30
	.cfi_restore w29
	ret
.LBB96_9:
	.cfi_restore_state
	add	x10, sp, #256
	sub	x11, x8, #1
	orr	x10, x10, #0x1
	add	x12, x10, x11, lsl #1
	cmp	x12, x10
	mov	x10, xzr
	b.lo	.LBB96_3
	tbnz	x11, #63, .LBB96_3
	cmp	x8, #16
	b.hs	.LBB96_16
	mov	x10, xzr
.LBB96_13:
	lsl	x13, x10, #1
	mov	x11, x10
	and	x10, x8, #0xfffffffffffffff8
	add	x12, sp, #256
	sub	x11, x11, x10
	add	x12, x12, x13
	add	x13, x0, x13
.LBB96_14:
	movi	v0.8h, #1, lsl #8
	ldr	q1, [x13], #16
	movi	v3.8b, #1
	adds	x11, x11, #8
	cmhi	v2.8h, v0.8h, v1.8h
	umin	v0.8h, v1.8h, v0.8h
	xtn	v2.8b, v2.8h
	and	v1.8b, v2.8b, v3.8b
	xtn	v2.8b, v0.8h
	st2	{ v1.8b, v2.8b }, [x12], #16
	b.ne	.LBB96_14
	cmp	x8, x10
	b.ne	.LBB96_3
	b	.LBB96_5
.LBB96_16:
	and	x10, x8, #0xfffffffffffffff0
	add	x11, sp, #256
	mov	x12, x0
	and	x13, x8, #0xfffffffffffffff0
.LBB96_17:
	movi	v0.8h, #1, lsl #8
	subs	x13, x13, #16
	ldp	q1, q2, [x12], #32
	cmhi	v3.8h, v0.8h, v2.8h
	cmhi	v4.8h, v0.8h, v1.8h
	umin	v2.8h, v2.8h, v0.8h
	umin	v0.8h, v1.8h, v0.8h
	uzp1	v3.16b, v4.16b, v3.16b
	movi	v4.16b, #1
	and	v3.16b, v3.16b, v4.16b
	uzp1	v4.16b, v0.16b, v2.16b
	st2	{ v3.16b, v4.16b }, [x11], #32
	b.ne	.LBB96_17
	cmp	x8, x10
	b.eq	.LBB96_5
	tbz	w8, #3, .LBB96_3
	b	.LBB96_13
.Lfunc_end96:
	.size	"ecc200_calls::writing::write_content_of::<#653d8e9eeee73d5b>", .Lfunc_end96-"ecc200_calls::writing::write_content_of::<#653d8e9eeee73d5b>"
	.cfi_endproc

	.p2align	2
	.type	"ecc200_calls::writing::write_content_of::<#063e8a381f980aa9>",@function
"ecc200_calls::writing::write_content_of::<#063e8a381f980aa9>":
	.cfi_startproc
	stp	x29, x30, [sp, #-64]!
	.cfi_def_cfa_offset 64
	stp	x24, x23, [sp, #16]
	stp	x22, x21, [sp, #32]
	stp	x20, x19, [sp, #48]
	.cfi_offset w19, -8
	.cfi_offset w20, -16
	.cfi_offset w21, -24
	.cfi_offset w22, -32
	.cfi_offset w23, -40
	.cfi_offset w24, -48
	.cfi_offset w30, -56
	.cfi_offset w29, -64
	sub	sp, sp, #1664
	.cfi_def_cfa_offset 1728
	.cfi_remember_state
	str	xzr, [sp]
	mov	x23, x2
	mov	x22, x1
	ldrh	w8, [x5]
	ldur	w9, [x5, #2]
	mov	x24, x0
	add	x0, sp, #826
	mov	w1, wzr
	mov	w2, #830
	strh	w8, [sp, #1656]
	add	x8, sp, #1403
	mov	x19, x6
	mov	x20, x4
	mov	x21, x3
	stur	w9, [x8, #255]
	bl	memset
	add	x0, sp, #8
	mov	w1, wzr
	mov	w2, #816
	bl	memset
	cbz	x22, .LBB97_5
	cmp	x22, #8
	b.hs	.LBB97_9
	mov	x8, xzr
.LBB97_3:
	lsl	x10, x8, #1
	add	x9, sp, #826
	sub	x8, x22, x8
	add	x9, x10, x9
	add	x10, x24, x10
	add	x9, x9, #1
.LBB97_4:
	ldrh	w11, [x10], #2
	mov	w12, #256
	cmp	w11, #256
	cset	w13, lo
	csel	w11, w11, w12, lo
	subs	x8, x8, #1
	sturb	w13, [x9, #-1]
	strb	w11, [x9], #2
	b.ne	.LBB97_4
.LBB97_5:
	cbz	x21, .LBB97_8
	add	x8, sp, #8
	add	x9, x23, #4
	mov	x10, x21
	add	x8, x8, #4
.LBB97_7:
	ldp	w12, w11, [x9, #-4]
	subs	x10, x10, #1
	add	x9, x9, #8
	sturh	wzr, [x8, #-2]
	sturh	w11, [x8, #-4]
	str	w12, [x8], #8
	b.ne	.LBB97_7
.LBB97_8:
	add	x0, sp, #1656
	add	x1, sp, #826
	add	x3, sp, #8
	mov	x2, x22
	mov	x4, x21
	mov	x5, x20
	mov	x6, x19
	bl	"ecc200_calls::writing::write_content"
	add	sp, sp, #1664
	.cfi_def_cfa_offset 64
	ldp	x20, x19, [sp, #48]
	ldp	x22, x21, [sp, #32]
	ldp	x24, x23, [sp, #16]
	ldp	x29, x30, [sp], #64
	.cfi_def_cfa_offset 0
	.cfi_restore w19
	.cfi_restore w20
	.cfi_restore w21
	.cfi_restore w22
	.cfi_restore w23
	.cfi_restore w24
	.cfi_restore w30
	.cfi_restore w29
	ret
.LBB97_9:
	.cfi_restore_state
	add	x8, sp, #826
	sub	x9, x22, #1
	add	x8, x8, #1
	add	x10, x8, x9, lsl #1
	cmp	x10, x8
	mov	x8, xzr
	b.lo	.LBB97_3
	tbnz	x9, #63, .LBB97_3
	cmp	x22, #16
	b.hs	.LBB97_16
	mov	x8, xzr
.LBB97_13:
	lsl	x11, x8, #1
	mov	x9, x8
	and	x8, x22, #0xfffffffffffffff8
	add	x10, sp, #826
	sub	x9, x9, x8
	add	x10, x10, x11
	add	x11, x24, x11
.LBB97_14:
	movi	v0.8h, #1, lsl #8
	ldr	q1, [x11], #16
	movi	v3.8b, #1
	adds	x9, x9, #8
	cmhi	v2.8h, v0.8h, v1.8h
	umin	v0.8h, v1.8h, v0.8h
	xtn	v2.8b, v2.8h
	and	v1.8b, v2.8b, v3.8b
	xtn	v2.8b, v0.8h
	st2	{ v1.8b, v2.8b }, [x10], #16
	b.ne	.LBB97_14
	cmp	x22, x8
	b.ne	.LBB97_3
	b	.LBB97_5
.LBB97_16:
	and	x8, x22, #0xfffffffffffffff0
	add	x9, sp, #826
	mov	x10, x24
	and	x11, x22, #0xfffffffffffffff0
.LBB97_17:
	movi	v0.8h, #1, lsl #8
	subs	x11, x11, #16
	ldp	q1, q2, [x10], #32
	cmhi	v3.8h, v0.8h, v2.8h
	cmhi	v4.8h, v0.8h, v1.8h
	umin	v2.8h, v2.8h, v0.8h
	umin	v0.8h, v1.8h, v0.8h
	uzp1	v3.16b, v4.16b, v3.16b
	movi	v4.16b, #1
	and	v3.16b, v3.16b, v4.16b
	uzp1	v4.16b, v0.16b, v2.16b
	st2	{ v3.16b, v4.16b }, [x9], #32
	b.ne	.LBB97_17
	cmp	x22, x8
	b.eq	.LBB97_5
	tbz	w22, #3, .LBB97_3
	b	.LBB97_13
.Lfunc_end97:
	.size	"ecc200_calls::writing::write_content_of::<#063e8a381f980aa9>", .Lfunc_end97-"ecc200_calls::writing::write_content_of::<#063e8a381f980aa9>"
	.cfi_endproc

	.p2align	2
	.type	"ecc200_calls::writing::write_content_of::<#74b909a45ce937fb>",@function
"ecc200_calls::writing::write_content_of::<#74b909a45ce937fb>":
	.cfi_startproc
	stp	x29, x30, [sp, #-64]!
	.cfi_def_cfa_offset 64
	stp	x24, x23, [sp, #16]
	stp	x22, x21, [sp, #32]
	stp	x20, x19, [sp, #48]
	.cfi_offset w19, -8
	.cfi_offset w20, -16
	.cfi_offset w21, -24
	.cfi_offset w22, -32
	.cfi_offset w23, -40
	.cfi_offset w24, -48
	.cfi_offset w30, -56
	.cfi_offset w29, -64
	sub	sp, sp, #3072
	.cfi_def_cfa_offset 3136
	str	xzr, [sp]
	sub	sp, sp, #3072
	.cfi_def_cfa_offset 6208
	str	xzr, [sp]
	sub	sp, sp, #416
	.cfi_def_cfa_offset 6624
	.cfi_remember_state
	ldrh	w8, [x5]
	ldur	w9, [x5, #2]
	mov	x23, x2
	mov	x22, x1
	mov	x24, x0
	add	x0, sp, #3274
	strh	w8, [sp, #6552]
	add	x8, sp, #1, lsl #12
	mov	w1, wzr
	add	x8, x8, #2203
	mov	w2, #3278
	mov	x19, x6
	mov	x20, x4
	mov	x21, x3
	stur	w9, [x8, #255]
	bl	memset
	add	x0, sp, #8
	mov	w1, wzr
	mov	w2, #3264
	bl	memset
	cbz	x22, .LBB98_5
	cmp	x22, #8
	b.hs	.LBB98_9
	mov	x8, xzr
.LBB98_3:
	lsl	x10, x8, #1
	add	x9, sp, #3274
	sub	x8, x22, x8
	add	x9, x10, x9
	add	x10, x24, x10
	add	x9, x9, #1
.LBB98_4:
	ldrh	w11, [x10], #2
	mov	w12, #256
	cmp	w11, #256
	cset	w13, lo
	csel	w11, w11, w12, lo
	subs	x8, x8, #1
	sturb	w13, [x9, #-1]
	strb	w11, [x9], #2
	b.ne	.LBB98_4
.LBB98_5:
	cbz	x21, .LBB98_8
	add	x8, sp, #8
	add	x9, x23, #4
	mov	x10, x21
	add	x8, x8, #4
.LBB98_7:
	ldp	w12, w11, [x9, #-4]
	subs	x10, x10, #1
	add	x9, x9, #8
	sturh	wzr, [x8, #-2]
	sturh	w11, [x8, #-4]
	str	w12, [x8], #8
	b.ne	.LBB98_7
.LBB98_8:
	add	x0, sp, #1, lsl #12
	add	x1, sp, #3274
	add	x3, sp, #8
	add	x0, x0, #2456
	mov	x2, x22
	mov	x4, x21
	mov	x5, x20
	mov	x6, x19
	bl	"ecc200_calls::writing::write_content"
	add	sp, sp, #1, lsl #12
	.cfi_def_cfa_offset 2528
	add	sp, sp, #2464
	.cfi_def_cfa_offset 64
	ldp	x20, x19, [sp, #48]
	ldp	x22, x21, [sp, #32]
	ldp	x24, x23, [sp, #16]
	ldp	x29, x30, [sp], #64
	.cfi_def_cfa_offset 0
	.cfi_restore w19
	.cfi_restore w20
	.cfi_restore w21
	.cfi_restore w22
	.cfi_restore w23
	.cfi_restore w24
	.cfi_restore w30
	.cfi_restore w29
	ret
.LBB98_9:
	.cfi_restore_state
	add	x8, sp, #3274
	sub	x9, x22, #1
	add	x8, x8, #1
	add	x10, x8, x9, lsl #1
	cmp	x10, x8
	mov	x8, xzr
	b.lo	.LBB98_3
	tbnz	x9, #63, .LBB98_3
	cmp	x22, #16
	b.hs	.LBB98_16
	mov	x8, xzr
.LBB98_13:
	lsl	x11, x8, #1
	mov	x9, x8
	and	x8, x22, #0xfffffffffffffff8
	add	x10, sp, #3274
	sub	x9, x9, x8
	add	x10, x10, x11
	add	x11, x24, x11
.LBB98_14:
	movi	v0.8h, #1, lsl #8
	ldr	q1, [x11], #16
	movi	v3.8b, #1
	adds	x9, x9, #8
	cmhi	v2.8h, v0.8h, v1.8h
	umin	v0.8h, v1.8h, v0.8h
	xtn	v2.8b, v2.8h
	and	v1.8b, v2.8b, v3.8b
	xtn	v2.8b, v0.8h
	st2	{ v1.8b, v2.8b }, [x10], #16
	b.ne	.LBB98_14
	cmp	x22, x8
	b.ne	.LBB98_3
	b	.LBB98_5
.LBB98_16:
	and	x8, x22, #0xfffffffffffffff0
	add	x9, sp, #3274
	mov	x10, x24
	and	x11, x22, #0xfffffffffffffff0
.LBB98_17:
	movi	v0.8h, #1, lsl #8
	subs	x11, x11, #16
	ldp	q1, q2, [x10], #32
	cmhi	v3.8h, v0.8h, v2.8h
	cmhi	v4.8h, v0.8h, v1.8h
	umin	v2.8h, v2.8h, v0.8h
	umin	v0.8h, v1.8h, v0.8h
	uzp1	v3.16b, v4.16b, v3.16b
	movi	v4.16b, #1
	and	v3.16b, v3.16b, v4.16b
	uzp1	v4.16b, v0.16b, v2.16b
	st2	{ v3.16b, v4.16b }, [x9], #32
	b.ne	.LBB98_17
	cmp	x22, x8
	b.eq	.LBB98_5
	tbz	w22, #3, .LBB98_3
	b	.LBB98_13
.Lfunc_end98:
	.size	"ecc200_calls::writing::write_content_of::<#74b909a45ce937fb>", .Lfunc_end98-"ecc200_calls::writing::write_content_of::<#74b909a45ce937fb>"
	.cfi_endproc

	.p2align	2
	.type	"ecc200_calls::writing::write_content_of::<#8e2329e1c5119cbe>",@function
"ecc200_calls::writing::write_content_of::<#8e2329e1c5119cbe>":
	.cfi_startproc
	stp	x29, x30, [sp, #-64]!
	.cfi_def_cfa_offset 64
	stp	x24, x23, [sp, #16]
	stp	x22, x21, [sp, #32]
	stp	x20, x19, [sp, #48]
	.cfi_offset w19, -8
	.cfi_offset w20, -16
	.cfi_offset w21, -24
	.cfi_offset w22, -32
	.cfi_offset w23, -40
	.cfi_offset w24, -48
	.cfi_offset w30, -56
	.cfi_offset w29, -64
	sub	sp, sp, #3072
	.cfi_def_cfa_offset 3136
	str	xzr, [sp]
	sub	sp, sp, #3072
	.cfi_def_cfa_offset 6208
	str	xzr, [sp]
	sub	sp, sp, #3072
	.cfi_def_cfa_offset 9280
	str	xzr, [sp]
	sub	sp, sp, #3072
	.cfi_def_cfa_offset 12352
	str	xzr, [sp], #-208
	.cfi_def_cfa_offset 12560
	.cfi_remember_state
	mov	x24, x0
	ldrh	w8, [x5]
	ldur	w10, [x5, #2]
	add	x0, sp, #1, lsl #12
	mov	x23, x2
	mov	x22, x1
	add	x9, sp, #3, lsl #12
	add	x0, x0, #2146
	mov	w1, wzr
	mov	w2, #6246
	mov	x19, x6
	mov	x20, x4
	mov	x21, x3
	strh	w8, [x9, #200]!
	stur	w10, [x9, #2]
	bl	memset
	add	x0, sp, #8
	mov	w1, wzr
	mov	w2, #6232
	bl	memset
	cbz	x22, .LBB99_5
	cmp	x22, #8
	b.hs	.LBB99_9
	mov	x8, xzr
.LBB99_3:
	lsl	x10, x8, #1
	add	x9, sp, #1, lsl #12
	sub	x8, x22, x8
	add	x9, x9, #2146
	add	x9, x10, x9
	add	x10, x24, x10
	add	x9, x9, #1
.LBB99_4:
	ldrh	w11, [x10], #2
	mov	w12, #256
	cmp	w11, #256
	cset	w13, lo
	csel	w11, w11, w12, lo
	subs	x8, x8, #1
	sturb	w13, [x9, #-1]
	strb	w11, [x9], #2
	b.ne	.LBB99_4
.LBB99_5:
	cbz	x21, .LBB99_8
	add	x8, sp, #8
	add	x9, x23, #4
	mov	x10, x21
	add	x8, x8, #4
.LBB99_7:
	ldp	w12, w11, [x9, #-4]
	subs	x10, x10, #1
	add	x9, x9, #8
	sturh	wzr, [x8, #-2]
	sturh	w11, [x8, #-4]
	str	w12, [x8], #8
	b.ne	.LBB99_7
.LBB99_8:
	add	x0, sp, #3, lsl #12
	add	x1, sp, #1, lsl #12
	add	x3, sp, #8
	add	x0, x0, #200
	add	x1, x1, #2146
	mov	x2, x22
	mov	x4, x21
	mov	x5, x20
	mov	x6, x19
	bl	"ecc200_calls::writing::write_content"
	add	sp, sp, #3, lsl #12
	.cfi_def_cfa_offset 272
	add	sp, sp, #208
	.cfi_def_cfa_offset 64
	ldp	x20, x19, [sp, #48]
	ldp	x22, x21, [sp, #32]
	ldp	x24, x23, [sp, #16]
	ldp	x29, x30, [sp], #64
	.cfi_def_cfa_offset 0
	.cfi_restore w19
	.cfi_restore w20
	.cfi_restore w21
	.cfi_restore w22
	.cfi_restore w23
	.cfi_restore w24
	.cfi_restore w30
	.cfi_restore w29
	ret
.LBB99_9:
	.cfi_restore_state
	add	x8, sp, #1, lsl #12
	sub	x9, x22, #1
	add	x8, x8, #2146
	add	x8, x8, #1
	add	x10, x8, x9, lsl #1
	cmp	x10, x8
	mov	x8, xzr
	b.lo	.LBB99_3
	tbnz	x9, #63, .LBB99_3
	cmp	x22, #16
	b.hs	.LBB99_16
	mov	x8, xzr
.LBB99_13:
	lsl	x11, x8, #1
	add	x10, sp, #1, lsl #12
	mov	x9, x8
	and	x8, x22, #0xfffffffffffffff8
	add	x10, x10, #2146
	sub	x9, x9, x8
	add	x10, x10, x11
	add	x11, x24, x11
.LBB99_14:
	movi	v0.8h, #1, lsl #8
	ldr	q1, [x11], #16
	movi	v3.8b, #1
	adds	x9, x9, #8
	cmhi	v2.8h, v0.8h, v1.8h
	umin	v0.8h, v1.8h, v0.8h
	xtn	v2.8b, v2.8h
	and	v1.8b, v2.8b, v3.8b
	xtn	v2.8b, v0.8h
	st2	{ v1.8b, v2.8b }, [x10], #16
	b.ne	.LBB99_14
	cmp	x22, x8
	b.ne	.LBB99_3
	b	.LBB99_5
.LBB99_16:
	add	x9, sp, #1, lsl #12
	and	x8, x22, #0xfffffffffffffff0
	mov	x10, x24
	add	x9, x9, #2146
	and	x11, x22, #0xfffffffffffffff0
.LBB99_17:
	movi	v0.8h, #1, lsl #8
	subs	x11, x11, #16
	ldp	q1, q2, [x10], #32
	cmhi	v3.8h, v0.8h, v2.8h
	cmhi	v4.8h, v0.8h, v1.8h
	umin	v2.8h, v2.8h, v0.8h
	umin	v0.8h, v1.8h, v0.8h
	uzp1	v3.16b, v4.16b, v3.16b
	movi	v4.16b, #1
	and	v3.16b, v3.16b, v4.16b
	uzp1	v4.16b, v0.16b, v2.16b
	st2	{ v3.16b, v4.16b }, [x9], #32
	b.ne	.LBB99_17
	cmp	x22, x8
	b.eq	.LBB99_5
	tbz	w22, #3, .LBB99_3
	b	.LBB99_13
.Lfunc_end99:
	.size	"ecc200_calls::writing::write_content_of::<#8e2329e1c5119cbe>", .Lfunc_end99-"ecc200_calls::writing::write_content_of::<#8e2329e1c5119cbe>"
	.cfi_endproc

	.p2align	2
	.type	"ecc200_calls::writing::write_content_of::<#f7f46bcb0d4b0fd2>",@function
"ecc200_calls::writing::write_content_of::<#f7f46bcb0d4b0fd2>":
	.cfi_startproc
	sub	sp, sp, #304
	.cfi_def_cfa_offset 304
	stp	x29, x30, [sp, #288]
	.cfi_offset w30, -8
	.cfi_offset w29, -16
	.cfi_remember_state
	movi	v0.2d, #0000000000000000
	ldrh	w8, [x3]
	ldur	w9, [x3, #2]
	mov	x6, x4
	mov	x5, x2
	mov	x2, x1
	strh	w8, [sp, #276]
	add	x8, sp, #23
	stur	w9, [x8, #255]
	stp	q0, q0, [sp]
	stp	q0, q0, [sp, #32]
	stp	q0, q0, [sp, #64]
	stp	q0, q0, [sp, #96]
	stp	q0, q0, [sp, #128]
	stp	q0, q0, [sp, #160]
	stp	q0, q0, [sp, #192]
	stp	q0, q0, [sp, #224]
	stur	xzr, [sp, #254]
	cbz	x1, .LBB100_5
	cmp	x2, #8
	b.hs	.LBB100_6
	mov	x8, xzr
.LBB100_3:
	mov	x9, sp
	add	x10, x9, x8, lsl #1
	sub	x9, x2, x8
	add	x8, x0, x8
	orr	x10, x10, #0x1
.LBB100_4:
	ldrb	w11, [x8], #1
	mov	w12, #1
	subs	x9, x9, #1
	sturb	w12, [x10, #-1]
	strb	w11, [x10], #2
	b.ne	.LBB100_4
.LBB100_5:
	add	x0, sp, #276
	mov	x1, sp
	add	x3, sp, #284
	mov	x4, xzr
	bl	"ecc200_calls::writing::write_content"
	ldp	x29, x30, [sp, #288]
	add	sp, sp, #304
	.cfi_def_cfa_offset 0
	.cfi_restore w30
	.cfi_restore w29
	ret
.LBB100_6:
	.cfi_restore_state
	mov	x8, sp
	sub	x9, x2, #1
	orr	x8, x8, #0x1
	add	x10, x8, x9, lsl #1
	cmp	x10, x8
	mov	x8, xzr
	b.lo	.LBB100_3
	tbnz	x9, #63, .LBB100_3
	cmp	x2, #16
	b.hs	.LBB100_13
	mov	x8, xzr
.LBB100_10:
	mov	x11, x8
	mov	x9, sp
	and	x8, x2, #0xfffffffffffffff8
	add	x9, x9, x11, lsl #1
	sub	x10, x11, x8
	add	x11, x0, x11
.LBB100_11:
	ldr	d1, [x11], #8
	adds	x10, x10, #8
	movi	v0.8b, #1
	st2	{ v0.8b, v1.8b }, [x9], #16
	b.ne	.LBB100_11
	cmp	x2, x8
	b.ne	.LBB100_3
	b	.LBB100_5
.LBB100_13:
	and	x8, x2, #0xfffffffffffffff0
	mov	x9, sp
	mov	x10, x0
	and	x11, x2, #0xfffffffffffffff0
.LBB100_14:
	ldr	q1, [x10], #16
	subs	x11, x11, #16
	movi	v0.16b, #1
	st2	{ v0.16b, v1.16b }, [x9], #32
	b.ne	.LBB100_14
	cmp	x2, x8
	b.eq	.LBB100_5
	tbz	w2, #3, .LBB100_3
	b	.LBB100_10
.Lfunc_end100:
	.size	"ecc200_calls::writing::write_content_of::<#f7f46bcb0d4b0fd2>", .Lfunc_end100-"ecc200_calls::writing::write_content_of::<#f7f46bcb0d4b0fd2>"
	.cfi_endproc

	.p2align	2
	.type	"ecc200_calls::writing::write_content_of::<#dbd28265ffd20b3d>",@function
"ecc200_calls::writing::write_content_of::<#dbd28265ffd20b3d>":
	.cfi_startproc
	stp	x29, x30, [sp, #-48]!
	.cfi_def_cfa_offset 48
	stp	x22, x21, [sp, #16]
	stp	x20, x19, [sp, #32]
	.cfi_offset w19, -8
	.cfi_offset w20, -16
	.cfi_offset w21, -24
	.cfi_offset w22, -32
	.cfi_offset w30, -40
	.cfi_offset w29, -48
	sub	sp, sp, #848
	.cfi_def_cfa_offset 896
	.cfi_remember_state
	ldrh	w8, [x3]
	ldur	w9, [x3, #2]
	mov	x20, x2
	mov	x21, x1
	mov	x22, x0
	add	x0, sp, #6
	strh	w8, [sp, #836]
	add	x8, sp, #583
	mov	w1, wzr
	mov	w2, #830
	mov	x19, x4
	stur	w9, [x8, #255]
	bl	memset
	cbz	x21, .LBB101_5
	cmp	x21, #8
	b.hs	.LBB101_6
	mov	x8, xzr
.LBB101_3:
	add	x9, sp, #6
	add	x10, x9, x8, lsl #1
	sub	x9, x21, x8
	add	x8, x22, x8
	add	x10, x10, #1
.LBB101_4:
	ldrb	w11, [x8], #1
	mov	w12, #1
	subs	x9, x9, #1
	sturb	w12, [x10, #-1]
	strb	w11, [x10], #2
	b.ne	.LBB101_4
.LBB101_5:
	add	x0, sp, #836
	add	x1, sp, #6
	add	x3, sp, #844
	mov	x2, x21
	mov	x4, xzr
	mov	x5, x20
	mov	x6, x19
	bl	"ecc200_calls::writing::write_content"
	add	sp, sp, #848
	.cfi_def_cfa_offset 48
	ldp	x20, x19, [sp, #32]
	ldp	x22, x21, [sp, #16]
	ldp	x29, x30, [sp], #48
	.cfi_def_cfa_offset 0
	.cfi_restore w19
	.cfi_restore w20
	.cfi_restore w21
	.cfi_restore w22
	.cfi_restore w30
	.cfi_restore w29
	ret
.LBB101_6:
	.cfi_restore_state
	add	x8, sp, #6
	sub	x9, x21, #1
	add	x8, x8, #1
	add	x10, x8, x9, lsl #1
	cmp	x10, x8
	mov	x8, xzr
	b.lo	.LBB101_3
	tbnz	x9, #63, .LBB101_3
	cmp	x21, #16
	b.hs	.LBB101_13
	mov	x8, xzr
.LBB101_10:
	mov	x11, x8
	add	x9, sp, #6
	and	x8, x21, #0xfffffffffffffff8
	add	x9, x9, x11, lsl #1
	sub	x10, x11, x8
	add	x11, x22, x11
.LBB101_11:
	ldr	d1, [x11], #8
	adds	x10, x10, #8
	movi	v0.8b, #1
	st2	{ v0.8b, v1.8b }, [x9], #16
	b.ne	.LBB101_11
	cmp	x21, x8
	b.ne	.LBB101_3
	b	.LBB101_5
.LBB101_13:
	and	x8, x21, #0xfffffffffffffff0
	add	x9, sp, #6
	mov	x10, x22
	and	x11, x21, #0xfffffffffffffff0
.LBB101_14:
	ldr	q1, [x10], #16
	subs	x11, x11, #16
	movi	v0.16b, #1
	st2	{ v0.16b, v1.16b }, [x9], #32
	b.ne	.LBB101_14
	cmp	x21, x8
	b.eq	.LBB101_5
	tbz	w21, #3, .LBB101_3
	b	.LBB101_10
.Lfunc_end101:
	.size	"ecc200_calls::writing::write_content_of::<#dbd28265ffd20b3d>", .Lfunc_end101-"ecc200_calls::writing::write_content_of::<#dbd28265ffd20b3d>"
	.cfi_endproc

	.p2align	2
	.type	"ecc200_calls::writing::write_content_of::<#b97095b23881e008>",@function
"ecc200_calls::writing::write_content_of::<#b97095b23881e008>":
	.cfi_startproc
	stp	x29, x30, [sp, #-48]!
	.cfi_def_cfa_offset 48
	stp	x22, x21, [sp, #16]
	stp	x20, x19, [sp, #32]
	.cfi_offset w19, -8
	.cfi_offset w20, -16
	.cfi_offset w21, -24
	.cfi_offset w22, -32
	.cfi_offset w30, -40
	.cfi_offset w29, -48
	sub	sp, sp, #3072
	.cfi_def_cfa_offset 3120
	str	xzr, [sp], #-224
	.cfi_def_cfa_offset 3344
	.cfi_remember_state
	ldrh	w8, [x3]
	ldur	w9, [x3, #2]
	mov	x20, x2
	mov	x21, x1
	mov	x22, x0
	add	x0, sp, #6
	strh	w8, [sp, #3284]
	add	x8, sp, #3031
	mov	w1, wzr
	mov	w2, #3278
	mov	x19, x4
	stur	w9, [x8, #255]
	bl	memset
	cbz	x21, .LBB102_5
	cmp	x21, #8
	b.hs	.LBB102_6
	mov	x8, xzr
.LBB102_3:
	add	x9, sp, #6
	add	x10, x9, x8, lsl #1
	sub	x9, x21, x8
	add	x8, x22, x8
	add	x10, x10, #1
.LBB102_4:
	ldrb	w11, [x8], #1
	mov	w12, #1
	subs	x9, x9, #1
	sturb	w12, [x10, #-1]
	strb	w11, [x10], #2
	b.ne	.LBB102_4
.LBB102_5:
	add	x0, sp, #3284
	add	x1, sp, #6
	add	x3, sp, #3292
	mov	x2, x21
	mov	x4, xzr
	mov	x5, x20
	mov	x6, x19
	bl	"ecc200_calls::writing::write_content"
	add	sp, sp, #3296
	.cfi_def_cfa_offset 48
	ldp	x20, x19, [sp, #32]
	ldp	x22, x21, [sp, #16]
	ldp	x29, x30, [sp], #48
	.cfi_def_cfa_offset 0
	.cfi_restore w19
	.cfi_restore w20
	.cfi_restore w21
	.cfi_restore w22
	.cfi_restore w30
	.cfi_restore w29
	ret
.LBB102_6:
	.cfi_restore_state
	add	x8, sp, #6
	sub	x9, x21, #1
	add	x8, x8, #1
	add	x10, x8, x9, lsl #1
	cmp	x10, x8
	mov	x8, xzr
	b.lo	.LBB102_3
	tbnz	x9, #63, .LBB102_3
	cmp	x21, #16
	b.hs	.LBB102_13
	mov	x8, xzr
.LBB102_10:
	mov	x11, x8
	add	x9, sp, #6
	and	x8, x21, #0xfffffffffffffff8
	add	x9, x9, x11, lsl #1
	sub	x10, x11, x8
	add	x11, x22, x11
.LBB102_11:
	ldr	d1, [x11], #8
	adds	x10, x10, #8
	movi	v0.8b, #1
	st2	{ v0.8b, v1.8b }, [x9], #16
	b.ne	.LBB102_11
	cmp	x21, x8
	b.ne	.LBB102_3
	b	.LBB102_5
.LBB102_13:
	and	x8, x21, #0xfffffffffffffff0
	add	x9, sp, #6
	mov	x10, x22
	and	x11, x21, #0xfffffffffffffff0
.LBB102_14:
	ldr	q1, [x10], #16
	subs	x11, x11, #16
	movi	v0.16b, #1
	st2	{ v0.16b, v1.16b }, [x9], #32
	b.ne	.LBB102_14
	cmp	x21, x8
	b.eq	.LBB102_5
	tbz	w21, #3, .LBB102_3
	b	.LBB102_10
.Lfunc_end102:
	.size	"ecc200_calls::writing::write_content_of::<#b97095b23881e008>", .Lfunc_end102-"ecc200_calls::writing::write_content_of::<#b97095b23881e008>"
	.cfi_endproc

	.p2align	2
	.type	"ecc200_calls::writing::write_content_of::<#9f02d14f3d055ac0>",@function
"ecc200_calls::writing::write_content_of::<#9f02d14f3d055ac0>":
	.cfi_startproc
	stp	x29, x30, [sp, #-48]!
	.cfi_def_cfa_offset 48
	stp	x22, x21, [sp, #16]
	stp	x20, x19, [sp, #32]
	.cfi_offset w19, -8
	.cfi_offset w20, -16
	.cfi_offset w21, -24
	.cfi_offset w22, -32
	.cfi_offset w30, -40
	.cfi_offset w29, -48
	sub	sp, sp, #3072
	.cfi_def_cfa_offset 3120
	str	xzr, [sp]
	sub	sp, sp, #3072
	.cfi_def_cfa_offset 6192
	str	xzr, [sp], #-128
	.cfi_def_cfa_offset 6320
	.cfi_remember_state
	ldrh	w8, [x3]
	ldur	w9, [x3, #2]
	mov	x20, x2
	mov	x21, x1
	mov	x22, x0
	add	x0, sp, #14
	strh	w8, [sp, #6260]
	add	x8, sp, #1, lsl #12
	mov	w1, wzr
	add	x8, x8, #1911
	mov	w2, #6246
	mov	x19, x4
	stur	w9, [x8, #255]
	bl	memset
	cbz	x21, .LBB103_5
	cmp	x21, #8
	b.hs	.LBB103_6
	mov	x8, xzr
.LBB103_3:
	add	x9, sp, #14
	add	x10, x9, x8, lsl #1
	sub	x9, x21, x8
	add	x8, x22, x8
	add	x10, x10, #1
.LBB103_4:
	ldrb	w11, [x8], #1
	mov	w12, #1
	subs	x9, x9, #1
	sturb	w12, [x10, #-1]
	strb	w11, [x10], #2
	b.ne	.LBB103_4
.LBB103_5:
	add	x0, sp, #1, lsl #12
	add	x3, sp, #1, lsl #12
	add	x1, sp, #14
	add	x0, x0, #2164
	add	x3, x3, #2172
	mov	x2, x21
	mov	x4, xzr
	mov	x5, x20
	mov	x6, x19
	bl	"ecc200_calls::writing::write_content"
	add	sp, sp, #1, lsl #12
	.cfi_def_cfa_offset 2224
	add	sp, sp, #2176
	.cfi_def_cfa_offset 48
	ldp	x20, x19, [sp, #32]
	ldp	x22, x21, [sp, #16]
	ldp	x29, x30, [sp], #48
	.cfi_def_cfa_offset 0
	.cfi_restore w19
	.cfi_restore w20
	.cfi_restore w21
	.cfi_restore w22
	.cfi_restore w30
	.cfi_restore w29
	ret
.LBB103_6:
	.cfi_restore_state
	add	x8, sp, #14
	sub	x9, x21, #1
	add	x8, x8, #1
	add	x10, x8, x9, lsl #1
	cmp	x10, x8
	mov	x8, xzr
	b.lo	.LBB103_3
	tbnz	x9, #63, .LBB103_3
	cmp	x21, #16
	b.hs	.LBB103_13
	mov	x8, xzr
.LBB103_10:
	mov	x11, x8
	add	x9, sp, #14
	and	x8, x21, #0xfffffffffffffff8
	add	x9, x9, x11, lsl #1
	sub	x10, x11, x8
	add	x11, x22, x11
.LBB103_11:
	ldr	d1, [x11], #8
	adds	x10, x10, #8
	movi	v0.8b, #1
	st2	{ v0.8b, v1.8b }, [x9], #16
	b.ne	.LBB103_11
	cmp	x21, x8
	b.ne	.LBB103_3
	b	.LBB103_5
.LBB103_13:
	and	x8, x21, #0xfffffffffffffff0
	add	x9, sp, #14
	mov	x10, x22
	and	x11, x21, #0xfffffffffffffff0
.LBB103_14:
	ldr	q1, [x10], #16
	subs	x11, x11, #16
	movi	v0.16b, #1
	st2	{ v0.16b, v1.16b }, [x9], #32
	b.ne	.LBB103_14
	cmp	x21, x8
	b.eq	.LBB103_5
	tbz	w21, #3, .LBB103_3
	b	.LBB103_10
.Lfunc_end103:
	.size	"ecc200_calls::writing::write_content_of::<#9f02d14f3d055ac0>", .Lfunc_end103-"ecc200_calls::writing::write_content_of::<#9f02d14f3d055ac0>"
	.cfi_endproc

	.globl	ecc200_abi
	.p2align	2
	.type	ecc200_abi,@function
ecc200_abi:
	.cfi_startproc
	mov	w0, #1
	ret
.Lfunc_end104:
	.size	ecc200_abi, .Lfunc_end104-ecc200_abi
	.cfi_endproc

	.globl	ecc200_inspect
	.p2align	2
	.type	ecc200_inspect,@function
ecc200_inspect:
	.cfi_startproc
	sub	sp, sp, #48
	.cfi_def_cfa_offset 48
	stp	x30, x19, [sp, #32]
	.cfi_offset w19, -8
	.cfi_offset w30, -16
	.cfi_remember_state
	and	x8, x4, #0xffff
	and	x9, x5, #0xffff
	cmp	x0, #0
	umull	x9, w9, w8
	mov	w10, #4096
	csel	x8, x10, xzr, eq
	cmp	x2, #0
	csel	x14, x10, xzr, eq
	cmp	x1, x9
	b.ne	.LBB105_8
	and	w9, w5, #0xffff
	and	w10, w4, #0xffff
	mov	x15, x2
	add	x2, x2, x14
	adrp	x13, .Lstatic.0
	add	x13, x13, :lo12:.Lstatic.0
	mov	x11, #-49
.LBB105_2:
	adds	x11, x11, #1
	b.hs	.LBB105_9
	mov	x12, x13
	ldrh	w13, [x13]
	cmp	w13, w10
	add	x13, x12, #20
	b.ne	.LBB105_2
	ldrh	w16, [x12, #2]
	cmp	w16, w9
	b.ne	.LBB105_2
	ldrh	w17, [x12, #18]
	ldur	d0, [x12, #4]
	ldrh	w11, [x12, #12]
	ldrh	w16, [x12, #14]
	ldrh	w13, [x12, #16]
	cmp	w17, #1
	cset	w12, eq
	cbz	x3, .LBB105_12
	cmp	x3, x1
	b.eq	.LBB105_12
	mov	w10, wzr
	mov	w9, wzr
	mov	w8, #19
	b	.LBB105_10
.LBB105_8:
	mov	w10, wzr
	mov	w9, wzr
	mov	w8, #3
	b	.LBB105_10
.LBB105_9:
	mov	w8, #4
.LBB105_10:
	strh	w8, [x6]
	strh	w10, [x6, #2]
	strh	w9, [x6, #4]
	stur	xzr, [x6, #6]
	stur	xzr, [x6, #12]
.LBB105_11:
	ldp	x30, x19, [sp, #32]
	ldrh	w0, [x6]
	add	sp, sp, #48
	.cfi_def_cfa_offset 0
	.cfi_restore w19
	.cfi_restore w30
	ret
.LBB105_12:
	.cfi_restore_state
	cbz	x3, .LBB105_15
	cmp	x3, #4
	b.hs	.LBB105_16
	mov	w18, wzr
	mov	x17, xzr
	b	.LBB105_25
.LBB105_15:
	mov	w18, wzr
	b	.LBB105_27
.LBB105_16:
	cmp	x3, #16
	b.hs	.LBB105_18
	mov	x17, xzr
	mov	w18, wzr
	b	.LBB105_22
.LBB105_18:
	movi	v1.2d, #0000000000000000
	and	x4, x3, #0xc
	and	x17, x3, #0xfffffffffffffff0
	add	x18, x15, x14
	and	x5, x3, #0xfffffffffffffff0
.LBB105_19:
	ldr	q2, [x18], #16
	subs	x5, x5, #16
	cmeq	v2.16b, v2.16b, #0
	orn	v1.16b, v1.16b, v2.16b
	b.ne	.LBB105_19
	shl	v1.16b, v1.16b, #7
	cmp	x3, x17
	cmlt	v1.16b, v1.16b, #0
	umaxv	b1, v1.16b
	fmov	w18, s1
	and	w18, w18, #0x1
	b.eq	.LBB105_27
	cbz	x4, .LBB105_25
.LBB105_22:
	movi	v1.2d, #0000000000000000
	mov	v1.h[0], w18
	mov	x18, x17
	and	x17, x3, #0xfffffffffffffffc
	add	x4, x14, x18
	sub	x18, x18, x17
	add	x4, x15, x4
.LBB105_23:
	ldr	s2, [x4], #4
	adds	x18, x18, #4
	ushll	v2.8h, v2.8b, #0
	cmeq	v2.4h, v2.4h, #0
	orn	v1.8b, v1.8b, v2.8b
	b.ne	.LBB105_23
	shl	v1.4h, v1.4h, #15
	cmp	x3, x17
	cmlt	v1.4h, v1.4h, #0
	umaxv	h1, v1.4h
	fmov	w18, s1
	and	w18, w18, #0x1
	b.eq	.LBB105_27
.LBB105_25:
	add	x4, x14, x17
	sub	x14, x3, x17
	add	x15, x15, x4
.LBB105_26:
	ldrb	w17, [x15], #1
	cmp	w17, #0
	cset	w17, ne
	subs	x14, x14, #1
	orr	w18, w18, w17
	b.ne	.LBB105_26
.LBB105_27:
	strh	w9, [sp, #10]
	cmp	w11, #817
	mov	w9, #2
	cinc	w9, w9, hs
	cmp	w11, #205
	strh	w10, [sp, #8]
	csinc	w9, w9, wzr, hs
	cmp	w11, #63
	and	w10, w18, #0x1
	csel	w9, wzr, w9, lo
	add	x0, x0, x8
	add	x4, sp, #8
	cmp	w9, #1
	mov	x5, x6
	mov	x19, x6
	stur	d0, [sp, #12]
	strh	w11, [sp, #20]
	strh	w16, [sp, #22]
	strh	w13, [sp, #24]
	strb	w12, [sp, #26]
	strb	wzr, [sp, #27]
	strb	w10, [sp, #28]
	strb	wzr, [sp, #29]
	b.gt	.LBB105_30
	cbnz	w9, .LBB105_32
	bl	"ecc200_calls::inspection::inspect_given::<=32,=98,=131,=31>"
	b	.LBB105_34
.LBB105_30:
	cmp	w9, #2
	b.ne	.LBB105_33
	bl	"ecc200_calls::inspection::inspect_given::<=104,=1152,=1639,=408>"
	b	.LBB105_34
.LBB105_32:
	bl	"ecc200_calls::inspection::inspect_given::<=52,=288,=415,=102>"
	b	.LBB105_34
.LBB105_33:
	bl	"ecc200_calls::inspection::inspect_given::<=144,=2178,=3123,=779>"
.LBB105_34:
	mov	x6, x19
	b	.LBB105_11
.Lfunc_end105:
	.size	ecc200_inspect, .Lfunc_end105-ecc200_inspect
	.cfi_endproc

	.globl	ecc200_normal
	.p2align	2
	.type	ecc200_normal,@function
ecc200_normal:
	.cfi_startproc
	cmp	x0, #0
	mov	w9, #4096
	ldrh	w11, [x4]
	csel	x10, x9, xzr, eq
	cmp	x2, #0
	ldrh	w13, [x4, #8]
	ldrh	w12, [x4, #2]
	ldrh	w16, [x4, #4]
	ldrh	w14, [x4, #6]
	mov	x8, x3
	mov	x3, x1
	csel	x15, x9, xzr, eq
	cbz	w13, .LBB106_3
	cmp	w13, #1
	b.ne	.LBB106_10
	mov	w13, wzr
	b	.LBB106_4
.LBB106_3:
	mov	w13, #1
.LBB106_4:
	cmp	w16, #1
	mov	w9, #24
	b.gt	.LBB106_8
	cbz	w16, .LBB106_12
	cmp	w16, #1
	b.ne	.LBB106_11
	mov	w14, wzr
	mov	w9, #1
	b	.LBB106_15
.LBB106_8:
	cmp	w16, #2
	b.eq	.LBB106_14
	cmp	w16, #3
	b.eq	.LBB106_13
	b	.LBB106_11
.LBB106_10:
	mov	w9, #17
	mov	w16, w13
.LBB106_11:
	strh	w9, [x6]
	strh	w16, [x6, #2]
	b	.LBB106_27
.LBB106_12:
	add	w9, w12, w11
	lsr	w14, w9, #3
.LBB106_13:
	mov	w9, wzr
	b	.LBB106_15
.LBB106_14:
	mov	w9, wzr
	mov	w14, #65535
.LBB106_15:
	ands	w16, w5, #0xffff
	b.eq	.LBB106_17
	cmp	w16, #1
	b.ne	.LBB106_26
.LBB106_17:
	sub	sp, sp, #80
	.cfi_def_cfa_offset 80
	stp	x30, x21, [sp, #48]
	stp	x20, x19, [sp, #64]
	.cfi_offset w19, -8
	.cfi_offset w20, -16
	.cfi_offset w21, -24
	.cfi_offset w30, -32
	.cfi_remember_state
	umull	x17, w12, w11
	cmp	x3, x17
	b.ne	.LBB106_25
	add	x4, x2, x15
	adrp	x1, .Lstatic.0
	add	x1, x1, :lo12:.Lstatic.0
	mov	x17, #-49
.LBB106_19:
	adds	x17, x17, #1
	b.hs	.LBB106_28
	mov	x18, x1
	ldrh	w1, [x1]
	cmp	w1, w11
	add	x1, x18, #20
	b.ne	.LBB106_19
	ldrh	w5, [x18, #2]
	cmp	w5, w12
	b.ne	.LBB106_19
	ldrh	w7, [x18, #18]
	ldur	d0, [x18, #4]
	ldrh	w17, [x18, #12]
	ldrh	w5, [x18, #14]
	ldrh	w1, [x18, #16]
	cmp	w7, #1
	cset	w18, eq
	cbz	x8, .LBB106_31
	cmp	x8, x3
	b.eq	.LBB106_31
	mov	w11, wzr
	mov	w12, wzr
	mov	w9, #19
	b	.LBB106_29
.LBB106_25:
	mov	w11, wzr
	mov	w12, wzr
	mov	w9, #3
	b	.LBB106_29
.LBB106_26:
	.cfi_def_cfa wsp, 0
	.cfi_same_value w19
	.cfi_same_value w20
	.cfi_same_value w21
	.cfi_same_value w30
	mov	w9, #16
	strh	w5, [x6, #2]
	strh	w9, [x6]
.LBB106_27:
	mov	w0, w9
	str	wzr, [x6, #4]
	strh	wzr, [x6, #8]
	ret
.LBB106_28:
	.cfi_restore_state
	.cfi_remember_state
	mov	w9, #4
.LBB106_29:
	strh	w9, [x6]
	strh	w11, [x6, #2]
	strh	w12, [x6, #4]
	stur	wzr, [x6, #6]
.LBB106_30:
	ldp	x20, x19, [sp, #64]
	ldp	x30, x21, [sp, #48]
	add	sp, sp, #80
	.cfi_def_cfa_offset 0
	.cfi_restore w19
	.cfi_restore w20
	.cfi_restore w21
	.cfi_restore w30
	mov	w0, w9
	ret
.LBB106_31:
	.cfi_restore_state
	cbz	x8, .LBB106_34
	cmp	x8, #4
	b.hs	.LBB106_35
	mov	w19, wzr
	mov	x7, xzr
	b	.LBB106_44
.LBB106_34:
	mov	w19, wzr
	b	.LBB106_46
.LBB106_35:
	cmp	x8, #16
	b.hs	.LBB106_37
	mov	x7, xzr
	mov	w19, wzr
	b	.LBB106_41
.LBB106_37:
	movi	v1.2d, #0000000000000000
	and	x20, x8, #0xc
	and	x7, x8, #0xfffffffffffffff0
	add	x19, x2, x15
	and	x21, x8, #0xfffffffffffffff0
.LBB106_38:
	ldr	q2, [x19], #16
	subs	x21, x21, #16
	cmeq	v2.16b, v2.16b, #0
	orn	v1.16b, v1.16b, v2.16b
	b.ne	.LBB106_38
	shl	v1.16b, v1.16b, #7
	cmp	x8, x7
	cmlt	v1.16b, v1.16b, #0
	umaxv	b1, v1.16b
	fmov	w19, s1
	and	w19, w19, #0x1
	b.eq	.LBB106_46
	cbz	x20, .LBB106_44
.LBB106_41:
	movi	v1.2d, #0000000000000000
	mov	v1.h[0], w19
	mov	x19, x7
	and	x7, x8, #0xfffffffffffffffc
	add	x20, x15, x19
	sub	x19, x19, x7
	add	x20, x2, x20
.LBB106_42:
	ldr	s2, [x20], #4
	adds	x19, x19, #4
	ushll	v2.8h, v2.8b, #0
	cmeq	v2.4h, v2.4h, #0
	orn	v1.8b, v1.8b, v2.8b
	b.ne	.LBB106_42
	shl	v1.4h, v1.4h, #15
	cmp	x8, x7
	cmlt	v1.4h, v1.4h, #0
	umaxv	h1, v1.4h
	fmov	w19, s1
	and	w19, w19, #0x1
	b.eq	.LBB106_46
.LBB106_44:
	add	x20, x15, x7
	sub	x15, x8, x7
	add	x2, x2, x20
.LBB106_45:
	ldrb	w7, [x2], #1
	cmp	w7, #0
	cset	w7, ne
	subs	x15, x15, #1
	orr	w19, w19, w7
	b.ne	.LBB106_45
.LBB106_46:
	strh	w9, [sp, #42]
	cmp	w17, #817
	mov	w9, #2
	cinc	w9, w9, hs
	cmp	w17, #205
	strh	w11, [sp, #36]
	csinc	w9, w9, wzr, hs
	cmp	w17, #63
	strh	w12, [sp, #38]
	strh	w11, [sp, #12]
	csel	w11, wzr, w9, lo
	mov	x9, x0
	strh	w12, [sp, #14]
	and	w12, w19, #0x1
	mov	x19, x6
	strh	w5, [sp, #26]
	cmp	w11, #1
	add	x0, sp, #8
	strh	w1, [sp, #28]
	add	x1, sp, #36
	add	x2, x9, x10
	add	x6, sp, #12
	mov	x5, x8
	mov	x7, x19
	strb	w16, [sp, #8]
	strb	w13, [sp, #40]
	strb	wzr, [sp, #41]
	strh	w14, [sp, #44]
	stur	d0, [sp, #16]
	strh	w17, [sp, #24]
	strb	w18, [sp, #30]
	strb	wzr, [sp, #31]
	strb	w12, [sp, #32]
	strb	wzr, [sp, #33]
	b.gt	.LBB106_49
	cbnz	w11, .LBB106_51
	bl	"ecc200_calls::answer::answer_given::<#67f27f8c38696f0b>"
	b	.LBB106_53
.LBB106_49:
	cmp	w11, #2
	b.ne	.LBB106_52
	bl	"ecc200_calls::answer::answer_given::<#1120882bd96666a5>"
	b	.LBB106_53
.LBB106_51:
	bl	"ecc200_calls::answer::answer_given::<#e937d748901de80e>"
	b	.LBB106_53
.LBB106_52:
	bl	"ecc200_calls::answer::answer_given::<#c193b66836f70129>"
.LBB106_53:
	ldrh	w9, [x19]
	b	.LBB106_30
.Lfunc_end106:
	.size	ecc200_normal, .Lfunc_end106-ecc200_normal
	.cfi_endproc

	.section	.rodata.cst16,"aM",@progbits,16
	.p2align	4, 0x0
.LCPI107_0:
	.xword	2
	.xword	3
.LCPI107_1:
	.xword	0
	.xword	1
	.section	.rodata.cst8,"aM",@progbits,8
	.p2align	3, 0x0
.LCPI107_2:
	.hword	0
	.hword	1
	.hword	2
	.hword	3
	.text
	.globl	ecc200_places
	.p2align	2
	.type	ecc200_places,@function
ecc200_places:
	.cfi_startproc
	sub	sp, sp, #224
	.cfi_def_cfa_offset 224
	stp	x29, x30, [sp, #128]
	stp	x28, x27, [sp, #144]
	stp	x26, x25, [sp, #160]
	stp	x24, x23, [sp, #176]
	stp	x22, x21, [sp, #192]
	stp	x20, x19, [sp, #208]
	.cfi_offset w19, -8
	.cfi_offset w20, -16
	.cfi_offset w21, -24
	.cfi_offset w22, -32
	.cfi_offset w23, -40
	.cfi_offset w24, -48
	.cfi_offset w25, -56
	.cfi_offset w26, -64
	.cfi_offset w27, -72
	.cfi_offset w28, -80
	.cfi_offset w30, -88
	.cfi_offset w29, -96
	.cfi_remember_state
	adrp	x9, .Lstatic.0
	add	x9, x9, :lo12:.Lstatic.0
	and	w8, w1, #0xffff
	sub	x10, x9, #16
	and	w12, w0, #0xffff
	mov	x9, #-49
.LBB107_1:
	adds	x9, x9, #1
	b.hs	.LBB107_26
	mov	x11, x10
	ldrh	w10, [x10, #16]
	cmp	w10, w12
	add	x10, x11, #20
	b.ne	.LBB107_1
	ldrh	w11, [x11, #18]
	cmp	w11, w8
	b.ne	.LBB107_1
	ldrh	w11, [x10]
	ldrh	w9, [x10, #2]
	ldrh	w15, [x10, #6]
	stp	w9, w11, [sp, #120]
	ldrh	w9, [x10, #4]
	add	x10, x2, #10
	str	wzr, [x2]
	strh	wzr, [x2, #4]
	strh	w12, [x2, #6]
	str	x10, [sp, #104]
	strh	w8, [x2, #8]
	cbz	w12, .LBB107_27
	cbz	w8, .LBB107_27
	ldr	w10, [sp, #124]
	add	w13, w10, #2
	tst	w13, #0xffff
	b.eq	.LBB107_113
	ldr	w10, [sp, #120]
	add	w14, w10, #2
	tst	w14, #0xffff
	b.eq	.LBB107_113
	ldp	w11, w10, [sp, #120]
	dup	v0.4h, w14
	lsl	x18, x8, #2
	ldr	x3, [sp, #104]
	mov	x16, xzr
	and	x1, x8, #0xfffc
	add	w17, w11, #1
	add	w0, w10, #1
	and	x2, x18, #0x3fff0
	dup	v1.4h, w17
	b	.LBB107_10
.LBB107_9:
	add	x16, x16, #1
	add	x3, x3, x18
	cmp	x16, x12
	b.eq	.LBB107_27
.LBB107_10:
	and	w10, w16, #0xffff
	and	w11, w13, #0xffff
	udiv	w4, w10, w11
	msub	w10, w4, w11, w10
	mov	w11, #33554432
	mov	w4, #50331648
	tst	w10, #0x1
	csel	w4, w4, w11, ne
	cmp	w10, w0, uxth
	b.ne	.LBB107_13
	cmp	w8, #4
	b.hs	.LBB107_16
	mov	x10, xzr
	b	.LBB107_19
.LBB107_13:
	tst	w10, #0xffff
	b.eq	.LBB107_20
	cmp	w8, #4
	b.hs	.LBB107_22
	mov	x10, xzr
	b	.LBB107_25
.LBB107_16:
	mov	x10, xzr
.LBB107_17:
	movi	v2.4s, #3, lsl #24
	str	q2, [x3, x10]
	add	x10, x10, #16
	cmp	x2, x10
	b.ne	.LBB107_17
	cmp	x1, x8
	and	x10, x8, #0xfffc
	b.eq	.LBB107_9
.LBB107_19:
	mov	w11, #50331648
	str	w11, [x3, x10, lsl #2]
	add	x10, x10, #1
	cmp	x8, x10
	b.ne	.LBB107_19
	b	.LBB107_9
.LBB107_20:
	mov	x10, xzr
.LBB107_21:
	and	w11, w10, #0xffff
	and	w4, w14, #0xffff
	udiv	w5, w11, w4
	msub	w11, w5, w4, w11
	mov	w4, #33554432
	tst	w11, #0x1
	mov	w11, #50331648
	csel	w11, w4, w11, ne
	str	w11, [x3, x10, lsl #2]
	add	x10, x10, #1
	cmp	x8, x10
	b.ne	.LBB107_21
	b	.LBB107_9
.LBB107_22:
	dup	v2.2d, x16
	adrp	x10, .LCPI107_0
	adrp	x11, .LCPI107_1
	adrp	x5, .LCPI107_2
	dup	v3.4s, w4
	ldr	q4, [x10, :lo12:.LCPI107_0]
	ldr	q5, [x11, :lo12:.LCPI107_1]
	ldr	d6, [x5, :lo12:.LCPI107_2]
	mov	x11, x3
	and	x5, x8, #0xfffc
.LBB107_23:
	umov	w19, v0.h[0]
	umov	w20, v6.h[0]
	subs	x5, x5, #4
	umov	w10, v0.h[1]
	umov	w6, v6.h[1]
	umov	w22, v0.h[2]
	umov	w23, v6.h[2]
	umov	w25, v0.h[3]
	umov	w26, v6.h[3]
	cmeq	v16.2d, v5.2d, v2.2d
	cmeq	v17.2d, v4.2d, v2.2d
	movi	v18.4s, #5, lsl #24
	udiv	w21, w20, w19
	uzp1	v16.4s, v16.4s, v17.4s
	movi	v17.4s, #4, lsl #24
	bsl	v16.16b, v18.16b, v17.16b
	movi	v18.4h, #4
	udiv	w7, w6, w10
	msub	w19, w21, w19, w20
	add	v6.4h, v6.4h, v18.4h
	fmov	s7, w19
	udiv	w24, w23, w22
	msub	w10, w7, w10, w6
	mov	v7.h[1], w10
	udiv	w6, w26, w25
	msub	w10, w24, w22, w23
	mov	v7.h[2], w10
	msub	w10, w6, w25, w26
	mov	v7.h[3], w10
	mov	w10, #4
	cmeq	v19.4h, v7.4h, v1.4h
	cmeq	v7.4h, v7.4h, #0
	sshll	v17.4s, v19.4h, #0
	sshll	v7.4s, v7.4h, #0
	dup	v19.2d, x10
	bit	v16.16b, v3.16b, v17.16b
	movi	v17.4s, #3, lsl #24
	add	v4.2d, v4.2d, v19.2d
	add	v5.2d, v5.2d, v19.2d
	bsl	v7.16b, v17.16b, v16.16b
	str	q7, [x11], #16
	b.ne	.LBB107_23
	cmp	x1, x8
	and	x10, x8, #0xfffc
	b.eq	.LBB107_9
.LBB107_25:
	and	w11, w10, #0xffff
	and	w5, w14, #0xffff
	cmp	x16, x10
	udiv	w6, w11, w5
	mul	w5, w6, w5
	mov	w6, #83886080
	sub	w11, w11, w5
	mov	w5, #67108864
	csel	w5, w6, w5, eq
	ands	w6, w11, #0xffff
	cmp	w6, w17, uxth
	csel	w5, w4, w5, eq
	tst	w11, #0xffff
	mov	w11, #50331648
	csel	w11, w11, w5, eq
	str	w11, [x3, x10, lsl #2]
	add	x10, x10, #1
	cmp	x8, x10
	b.ne	.LBB107_25
	b	.LBB107_9
.LBB107_26:
	mov	w0, #4
	strh	w12, [x2, #2]
	strh	w0, [x2]
	strh	w8, [x2, #4]
	stur	wzr, [x2, #6]
	b	.LBB107_112
.LBB107_27:
	ldr	w10, [sp, #124]
	mov	w12, wzr
	mov	w24, wzr
	mov	w2, wzr
	str	wzr, [sp, #116]
	mul	w14, w9, w10
	ldr	w9, [sp, #120]
	mul	w27, w15, w9
	and	w18, w14, #0x7
	sub	w1, w14, #2
	eor	w0, w18, #0x4
	cmp	w18, #6
	sub	w10, w27, w0
	cset	w9, eq
	cmp	w18, #4
	str	w10, [sp, #44]
	neg	w10, w0
	add	w16, w27, w14
	str	w10, [sp, #36]
	cset	w10, eq
	ands	w19, w27, #0x7
	csel	w11, wzr, w9, ne
	cmp	w19, #6
	eor	w3, w19, #0x4
	str	w11, [sp, #72]
	cset	w11, eq
	csel	w20, wzr, w9, ne
	cmp	w19, #4
	sub	w17, w14, w3
	sub	w5, w27, #2
	csel	w22, wzr, w9, ne
	add	w9, w3, #2
	csinc	w23, w11, wzr, ne
	str	w9, [sp, #12]
	eor	w9, w18, #0x4
	add	w11, w17, #2
	str	w9, [sp, #40]
	eor	w9, w19, #0xfffffffb
	sub	w4, w27, #1
	str	w11, [sp, #28]
	eor	w11, w18, #0xfffffffb
	add	w9, w14, w9
	str	w11, [sp, #24]
	eor	w11, w19, #0x4
	add	w13, w0, #2
	str	w11, [sp, #32]
	add	w11, w3, #1
	add	w9, w9, #4
	csel	w26, wzr, w10, ne
	stp	w9, w11, [sp, #16]
	stp	w13, w22, [sp, #64]
	stp	w23, w26, [sp, #56]
	stp	w19, w20, [sp, #48]
.LBB107_28:
	mov	w3, w2
	b	.LBB107_31
.LBB107_29:
	mov	w28, wzr
	mov	w6, wzr
	mov	w24, wzr
	mov	w9, wzr
	mov	w0, wzr
	add	w12, w12, #4
.LBB107_30:
	and	w10, w0, #0xff
	cmp	w10, #1
	b.eq	.LBB107_66
.LBB107_31:
	add	w9, w12, #1
	and	w9, w9, #0xffff
	cmp	w9, w16, uxth
	b.hs	.LBB107_111
	and	w9, w24, #0xff
	cmp	w9, #2
	b.eq	.LBB107_39
	cmp	w9, #1
	b.ne	.LBB107_44
	and	w9, w27, #0xffff
	cmp	w9, w3, uxth
	b.ls	.LBB107_29
	and	w9, w12, #0xffff
	cmp	w9, w3, uxth
	b.lo	.LBB107_29
	cmp	w18, #6
	add	w2, w3, #2
	sub	w28, w12, w3
	b.ne	.LBB107_79
	and	w9, w1, #0xffff
	and	w10, w28, #0xffff
	tst	w3, #0xffff
	ccmp	w10, w9, #0, eq
	csel	w9, wzr, w23, ne
	tbz	w9, #0, .LBB107_50
	mov	w28, wzr
	mov	w6, wzr
	mov	w9, wzr
	mov	w0, wzr
	mov	w3, #2
	mov	w24, #1
	b	.LBB107_30
.LBB107_39:
	and	w9, w14, #0xffff
	cmp	w9, w3, uxth
	b.ls	.LBB107_29
	and	w9, w12, #0xffff
	cmp	w9, w3, uxth
	b.lo	.LBB107_29
	cmp	w18, #6
	add	w2, w3, #2
	sub	w6, w12, w3
	b.ne	.LBB107_78
	and	w9, w1, #0xffff
	and	w10, w3, #0xffff
	tst	w6, #0xffff
	ccmp	w10, w9, #0, eq
	csel	w9, wzr, w23, ne
	tbz	w9, #0, .LBB107_54
	mov	w28, wzr
	mov	w6, wzr
	mov	w9, wzr
	mov	w0, wzr
	b	.LBB107_64
.LBB107_44:
	and	w9, w12, #0xffff
	cmp	w9, w14, uxth
	csel	w10, wzr, w26, ne
	tbz	w10, #0, .LBB107_46
	mov	w9, #1
	mov	w0, #1
	b	.LBB107_59
.LBB107_46:
	cmp	w9, w1, uxth
	csel	w9, wzr, w20, ne
	tbz	w9, #0, .LBB107_48
	mov	w0, #1
	mov	w9, #2
	b	.LBB107_59
.LBB107_48:
	and	w9, w12, #0xffff
	cmp	w9, w1, uxth
	csel	w10, wzr, w22, ne
	tbz	w10, #0, .LBB107_58
	mov	w0, #1
	mov	w9, #3
	b	.LBB107_59
.LBB107_50:
	and	w9, w19, #0xffff
	cmp	w9, #6
	b.ne	.LBB107_62
	and	w9, w3, #0xffff
	cmp	w9, w5, uxth
	b.ne	.LBB107_62
	tst	w28, #0xffff
	b.ne	.LBB107_62
	mov	w28, wzr
	mov	w6, wzr
	mov	w9, wzr
	mov	w0, wzr
	mov	w24, #1
	b	.LBB107_65
.LBB107_54:
	and	w9, w19, #0xffff
	cmp	w9, #6
	b.ne	.LBB107_63
	tst	w3, #0xffff
	b.ne	.LBB107_63
	and	w9, w6, #0xffff
	cmp	w9, w5, uxth
	b.ne	.LBB107_63
	mov	w28, wzr
	mov	w6, wzr
	mov	w9, wzr
	mov	w0, wzr
	mov	w24, #2
	mov	w3, #2
	b	.LBB107_30
.LBB107_58:
	add	w10, w14, #6
	cmp	w9, w10, uxth
	ldr	w10, [sp, #72]
	cset	w9, eq
	ands	w0, w9, w10
	mov	w9, #4
	csel	w9, w9, wzr, ne
.LBB107_59:
	and	w10, w12, #0x7
	cmp	w10, #4
	b.ne	.LBB107_61
	sub	w10, w12, w14
	and	w11, w12, #0xffff
	mov	w28, wzr
	and	w10, w10, #0xfffffffe
	cmp	w11, w14, uxth
	mov	w6, wzr
	add	w10, w10, #2
	mov	w24, #1
	csel	w3, wzr, w10, lo
	b	.LBB107_30
.LBB107_61:
	sub	w10, w12, w27
	and	w11, w12, #0xffff
	mov	w28, wzr
	add	w10, w10, #1
	cmp	w11, w27, uxth
	mov	w6, wzr
	orr	w10, w10, #0x1
	mov	w24, #2
	csinc	w3, w10, wzr, hs
	b	.LBB107_30
.LBB107_62:
	tst	w19, #0xffff
	and	w10, w3, #0xffff
	and	w11, w28, #0xffff
	cset	w17, eq
	cmp	w10, w4, uxth
	mov	w9, wzr
	ccmp	w11, #1, #0, eq
	mov	w24, #1
	cset	w10, eq
	ands	w10, w17, w10
	csel	w28, wzr, w28, ne
	eor	w0, w10, #0x1
	csel	w6, wzr, w3, ne
	b	.LBB107_65
.LBB107_63:
	tst	w19, #0xffff
	and	w10, w3, #0xffff
	and	w11, w4, #0xffff
	cset	w17, eq
	cmp	w10, #1
	and	w10, w6, #0xffff
	ccmp	w10, w11, #0, eq
	mov	w9, wzr
	cset	w10, eq
	ands	w10, w17, w10
	csel	w28, wzr, w3, ne
	eor	w0, w10, #0x1
	csel	w6, wzr, w6, ne
.LBB107_64:
	mov	w24, #2
.LBB107_65:
	mov	w3, w2
	b	.LBB107_30
.LBB107_66:
	cmp	w9, #1
	b.le	.LBB107_70
	cmp	w9, #2
	b.eq	.LBB107_72
	cmp	w9, #3
	b.ne	.LBB107_74
	mov	w18, wzr
	mov	w1, wzr
	mov	w9, wzr
	mov	w16, wzr
	mov	w15, wzr
	mov	w25, #3
	mov	w21, #2
	mov	w28, #1
	mov	w2, w3
	sub	w29, w14, #3
	sub	w4, w14, #2
	sub	w11, w14, #1
	sub	w0, w27, #2
	sub	w7, w27, #1
	sub	w10, w27, #1
	b	.LBB107_73
.LBB107_70:
	cbnz	w9, .LBB107_75
	mov	w2, w3
	b	.LBB107_80
.LBB107_72:
	mov	w18, wzr
	mov	w1, wzr
	mov	w9, wzr
	mov	w16, wzr
	mov	w15, wzr
	mov	w28, wzr
	mov	w21, wzr
	mov	w25, #1
	mov	w2, w3
	sub	w29, w14, #3
	sub	w4, w14, #2
	sub	w11, w14, #1
	sub	w0, w27, #4
	sub	w7, w27, #3
	sub	w10, w27, #2
.LBB107_73:
	str	w10, [sp, #100]
	b	.LBB107_76
.LBB107_74:
	sub	w10, w27, #3
	mov	w18, wzr
	mov	w11, wzr
	mov	w16, wzr
	mov	w15, wzr
	mov	w28, #1
	mov	w2, w3
	sub	w29, w14, #1
	sub	w4, w14, #1
	sub	w1, w27, #1
	sub	w9, w27, #3
	sub	w0, w27, #2
	sub	w7, w27, #1
	str	w10, [sp, #100]
	mov	w21, #1
	sub	w10, w27, #2
	mov	w25, #1
	b	.LBB107_77
.LBB107_75:
	sub	w10, w27, #1
	mov	w18, wzr
	mov	w16, wzr
	mov	w15, wzr
	mov	w25, #3
	mov	w9, #2
	mov	w1, #1
	mov	w2, w3
	sub	w29, w14, #1
	sub	w4, w14, #1
	sub	w11, w14, #1
	sub	w0, w27, #2
	sub	w7, w27, #1
	mov	w28, #1
	str	w10, [sp, #100]
	mov	w21, #2
.LBB107_76:
	sub	w10, w27, #1
.LBB107_77:
	str	w10, [sp, #96]
	sub	w6, w27, #1
	b	.LBB107_104
.LBB107_78:
	mov	w28, w3
	b	.LBB107_80
.LBB107_79:
	mov	w6, w3
.LBB107_80:
	and	w9, w28, #0xffff
	cmp	w9, #2
	b.lo	.LBB107_83
	and	w10, w6, #0xffff
	cmp	w10, #2
	b.lo	.LBB107_83
	sub	w10, w6, #2
	sub	w29, w28, #2
	sub	w18, w6, #2
	str	w10, [sp, #100]
	sub	w10, w6, #1
	sub	w1, w6, #1
	sub	w11, w28, #1
	sub	w4, w28, #2
	sub	w9, w6, #2
	sub	w16, w28, #1
	sub	w0, w6, #1
	sub	w15, w28, #1
	mov	w7, w6
	mov	w21, w28
	str	w10, [sp, #96]
	mov	w25, w28
	b	.LBB107_104
.LBB107_83:
	cmp	w9, #1
	b.hi	.LBB107_86
	add	w9, w6, #4
	ldr	w0, [sp, #36]
	and	w3, w28, #0xffff
	ldp	w16, w15, [sp, #24]
	and	w10, w9, #0xffff
	cmp	w10, w13
	ldp	w7, w18, [sp, #40]
	csel	w11, w15, w1, lo
	add	w17, w11, w28
	and	w11, w14, #0xffff
	csel	w18, w18, w0, lo
	cmp	w11, w17, uxth
	csel	w0, wzr, w14, hi
	cmp	w10, w7
	add	w18, w6, w18
	csel	w1, w1, w15, hi
	csel	w4, wzr, w27, hi
	sub	w29, w17, w0
	add	w1, w1, w28
	add	w17, w9, w16
	add	w16, w18, #2
	cmp	w11, w1, uxth
	add	w17, w17, w4
	csel	w0, wzr, w14, hi
	sub	w4, w1, w0
	mov	w1, w17
	cbz	w3, .LBB107_107
	mov	w3, w16
	b	.LBB107_92
.LBB107_86:
	and	w10, w6, #0xffff
	cmp	w10, #2
	b.hs	.LBB107_89
	add	w9, w28, #4
	ldr	w11, [sp, #12]
	add	w3, w6, w5
	and	w9, w9, #0xffff
	subs	w9, w9, w11, uxth
	csel	w9, wzr, w9, lo
	cmp	w9, w14, uxth
	csel	w11, wzr, w14, lo
	sub	w29, w9, w11
	cbz	w10, .LBB107_109
	sub	w9, w28, #2
	b	.LBB107_90
.LBB107_89:
	sub	w9, w28, #2
	and	w10, w14, #0xffff
	sub	w3, w6, #2
	cmp	w10, w9, uxth
	csel	w10, wzr, w14, hi
	sub	w29, w9, w10
.LBB107_90:
	sub	w1, w6, #1
.LBB107_91:
	and	w10, w14, #0xffff
	cmp	w10, w9, uxth
	csel	w10, wzr, w14, hi
	sub	w4, w9, w10
.LBB107_92:
	and	w11, w6, #0xffff
	cmp	w11, #1
	b.hi	.LBB107_95
	add	w9, w28, #4
	ldr	w10, [sp, #20]
	add	w16, w6, w5
	and	w9, w9, #0xffff
	subs	w9, w9, w10, uxth
	csel	w10, wzr, w9, lo
	cmp	w10, w14, uxth
	csel	w9, wzr, w14, lo
	sub	w9, w10, w9
	str	w9, [sp, #92]
	sub	w9, w28, #1
	cbnz	w11, .LBB107_96
	sub	w0, w27, #1
	b	.LBB107_97
.LBB107_95:
	sub	w9, w28, #1
	and	w10, w14, #0xffff
	sub	w16, w6, #2
	cmp	w10, w9, uxth
	csel	w10, wzr, w14, hi
	sub	w10, w9, w10
	str	w10, [sp, #92]
.LBB107_96:
	sub	w0, w6, #1
	mov	w10, w9
.LBB107_97:
	and	w11, w14, #0xffff
	mov	w7, w6
	cmp	w11, w10, uxth
	csel	w11, wzr, w14, hi
	sub	w10, w10, w11
	str	w10, [sp, #88]
.LBB107_98:
	and	w11, w14, #0xffff
	and	w18, w6, #0xffff
	cmp	w11, w9, uxth
	csel	w10, wzr, w14, hi
	cmp	w18, #2
	b.hs	.LBB107_101
	add	w11, w28, #4
	ldr	w17, [sp, #32]
	add	w15, w6, w5
	and	w11, w11, #0xffff
	mov	w5, w0
	str	w15, [sp, #100]
	subs	w11, w11, w17, uxth
	csel	w17, wzr, w11, lo
	cmp	w17, w14, uxth
	csel	w11, wzr, w14, lo
	sub	w11, w17, w11
	cbnz	w18, .LBB107_102
	sub	w15, w27, #1
	b	.LBB107_103
.LBB107_101:
	cmp	w11, w28, uxth
	sub	w15, w6, #2
	mov	w5, w0
	csel	w11, wzr, w14, hi
	str	w15, [sp, #100]
	sub	w11, w28, w11
.LBB107_102:
	sub	w15, w6, #1
	mov	w17, w28
.LBB107_103:
	str	w15, [sp, #96]
	and	w18, w14, #0xffff
	sub	w15, w9, w10
	mov	w9, w16
	cmp	w18, w17, uxth
	csel	w0, wzr, w14, hi
	cmp	w18, w28, uxth
	mov	w18, w3
	csel	w10, wzr, w14, hi
	sub	w21, w17, w0
	mov	w0, w5
	sub	w25, w28, w10
	mov	w28, w11
	ldp	w16, w11, [sp, #88]
.LBB107_104:
	ldr	w10, [sp, #124]
	tst	w10, #0xffff
	b.eq	.LBB107_113
	ldp	w19, w10, [sp, #116]
	cbz	w10, .LBB107_113
	ldp	w30, w13, [sp, #120]
	and	w10, w29, #0xffff
	mov	w17, w29
	mov	w26, w16
	mov	w22, w21
	mov	w23, w25
	and	w25, w25, #0xffff
	and	w29, w13, #0xffff
	udiv	w10, w10, w29
	str	w10, [sp, #92]
	and	w10, w18, #0xffff
	udiv	w5, w10, w30
	and	w10, w4, #0xffff
	udiv	w13, w10, w29
	and	w10, w1, #0xffff
	add	w5, w18, w5, lsl #1
	add	w5, w5, #1
	udiv	w20, w10, w30
	and	w10, w11, #0xffff
	add	w18, w4, w13, lsl #1
	ldr	x13, [sp, #104]
	mov	w4, #260
	add	w18, w18, #1
	and	x18, x18, #0xffff
	umull	x18, w18, w8
	udiv	w3, w10, w29
	and	w10, w9, #0xffff
	add	w20, w1, w20, lsl #1
	add	w20, w20, #1
	add	x18, x18, w20, uxth
	udiv	w10, w10, w30
	add	w3, w11, w3, lsl #1
	add	w3, w3, #1
	and	x3, x3, #0xffff
	umull	x3, w3, w8
	str	w10, [sp, #88]
	and	w10, w16, #0xffff
	udiv	w11, w10, w29
	and	w10, w0, #0xffff
	udiv	w10, w10, w30
	stp	w11, w10, [sp, #80]
	and	w10, w15, #0xffff
	udiv	w10, w10, w29
	str	w10, [sp, #76]
	and	w10, w28, #0xffff
	udiv	w16, w10, w29
	and	w10, w21, #0xffff
	ldr	w21, [sp, #92]
	add	w17, w17, w21, lsl #1
	ldr	w21, [sp, #100]
	add	w17, w17, #1
	and	w11, w21, #0xffff
	and	x17, x17, #0xffff
	umull	x17, w17, w8
	udiv	w10, w10, w29
	add	x17, x17, w5, uxth
	add	x17, x13, x17, lsl #2
	strh	w19, [x17]
	udiv	w5, w11, w30
	ldr	w11, [sp, #88]
	add	w11, w9, w11, lsl #1
	mov	w9, #257
	strh	w9, [x17, #2]
	ldr	w9, [sp, #80]
	add	x17, x13, x18, lsl #2
	add	w11, w11, #1
	add	w20, w26, w9, lsl #1
	ldr	w9, [sp, #84]
	add	x11, x3, w11, uxth
	mov	w26, #258
	strh	w19, [x17]
	add	w18, w20, #1
	add	w3, w0, w9, lsl #1
	ldr	w9, [sp, #76]
	udiv	w29, w25, w29
	and	w25, w7, #0xffff
	and	x18, x18, #0xffff
	umull	x18, w18, w8
	add	w1, w15, w9, lsl #1
	add	w3, w3, #1
	strh	w26, [x17, #2]
	add	x11, x13, x11, lsl #2
	ldr	w0, [sp, #96]
	add	w1, w1, #1
	add	w9, w22, w10, lsl #1
	add	x17, x18, w3, uxth
	mov	w18, #259
	strh	w19, [x11]
	strh	w18, [x11, #2]
	and	w20, w0, #0xffff
	and	w3, w6, #0xffff
	add	x11, x13, x17, lsl #2
	and	x17, x1, #0xffff
	add	w1, w28, w16, lsl #1
	umull	x17, w17, w8
	add	w9, w9, #1
	add	w16, w27, w14
	udiv	w25, w25, w30
	add	w1, w1, #1
	strh	w19, [x11]
	strh	w4, [x11, #2]
	and	x9, x9, #0xffff
	sub	w4, w27, #1
	umull	x9, w9, w8
	add	w18, w7, w25, lsl #1
	udiv	w20, w20, w30
	add	w18, w18, #1
	add	x17, x17, w18, uxth
	and	x18, x1, #0xffff
	add	w1, w21, w5, lsl #1
	umull	x18, w18, w8
	sub	w5, w27, #2
	add	x10, x13, x17, lsl #2
	add	w17, w23, w29, lsl #1
	add	w11, w1, #1
	ldp	w23, w26, [sp, #56]
	add	w17, w17, #1
	add	x11, x18, w11, uxth
	strh	w19, [x10]
	udiv	w3, w3, w30
	and	x17, x17, #0xffff
	add	w18, w0, w20, lsl #1
	umull	x17, w17, w8
	mov	w0, #261
	add	x11, x13, x11, lsl #2
	add	w18, w18, #1
	strh	w0, [x10, #2]
	add	x9, x9, w18, uxth
	strh	w19, [x11]
	mov	w18, #262
	strh	w18, [x11, #2]
	mov	w11, #263
	and	w18, w14, #0x7
	add	x9, x13, x9, lsl #2
	strh	w19, [x9]
	add	w1, w6, w3, lsl #1
	strh	w11, [x9, #2]
	mov	w9, #264
	add	w10, w1, #1
	sub	w1, w14, #2
	add	x10, x17, w10, uxth
	add	x10, x13, x10, lsl #2
	ldp	w13, w22, [sp, #64]
	strh	w19, [x10]
	add	w19, w19, #1
	str	w19, [sp, #116]
	ldp	w19, w20, [sp, #48]
	strh	w9, [x10, #2]
	b	.LBB107_28
.LBB107_107:
	ldr	w15, [sp, #16]
	cmp	w10, w13
	sub	w0, w14, #1
	csel	w17, w15, w0, lo
	cmp	w11, w17, uxth
	csel	w18, wzr, w14, hi
	cmp	w10, w7
	csel	w0, w0, w15, hi
	cmp	w11, w0, uxth
	csel	w11, wzr, w14, hi
	cmp	w10, w7
	sub	w10, w17, w18
	str	w10, [sp, #92]
	sub	w10, w0, w11
	str	w10, [sp, #88]
	b.hs	.LBB107_110
	ldr	w10, [sp, #44]
	mov	w0, w1
	mov	w3, w16
	add	w7, w9, w10
	ldr	w9, [sp, #16]
	b	.LBB107_98
.LBB107_109:
	sub	w1, w27, #1
	b	.LBB107_91
.LBB107_110:
	sub	w7, w9, w7
	mov	w0, w1
	mov	w3, w16
	sub	w9, w14, #1
	b	.LBB107_98
.LBB107_111:
	mov	w0, wzr
.LBB107_112:
	ldp	x20, x19, [sp, #208]
	ldp	x22, x21, [sp, #192]
	ldp	x24, x23, [sp, #176]
	ldp	x26, x25, [sp, #160]
	ldp	x28, x27, [sp, #144]
	ldp	x29, x30, [sp, #128]
	add	sp, sp, #224
	.cfi_def_cfa_offset 0
	.cfi_restore w19
	.cfi_restore w20
	.cfi_restore w21
	.cfi_restore w22
	.cfi_restore w23
	.cfi_restore w24
	.cfi_restore w25
	.cfi_restore w26
	.cfi_restore w27
	.cfi_restore w28
	.cfi_restore w30
	.cfi_restore w29
	ret
.LBB107_113:
	.cfi_restore_state
	brk	#0x1
.Lfunc_end107:
	.size	ecc200_places, .Lfunc_end107-ecc200_places
	.cfi_endproc

	.globl	ecc200_read
	.p2align	2
	.type	ecc200_read,@function
ecc200_read:
	.cfi_startproc
	cmp	x0, #0
	mov	w8, #4096
	ldrh	w11, [x4]
	csel	x10, x8, xzr, eq
	cmp	x2, #0
	ldrh	w13, [x4, #8]
	ldrh	w12, [x4, #2]
	ldrh	w16, [x4, #4]
	ldrh	w14, [x4, #6]
	mov	x9, x3
	csel	x15, x8, xzr, eq
	cbz	w13, .LBB108_3
	cmp	w13, #1
	b.ne	.LBB108_10
	mov	w13, wzr
	b	.LBB108_4
.LBB108_3:
	mov	w13, #1
.LBB108_4:
	cmp	w16, #1
	mov	w8, #24
	b.gt	.LBB108_8
	cbz	w16, .LBB108_12
	cmp	w16, #1
	b.ne	.LBB108_11
	mov	w14, wzr
	mov	w8, #1
	b	.LBB108_15
.LBB108_8:
	cmp	w16, #2
	b.eq	.LBB108_14
	cmp	w16, #3
	b.eq	.LBB108_13
	b	.LBB108_11
.LBB108_10:
	mov	w8, #17
	mov	w16, w13
.LBB108_11:
	mov	w0, w8
	strh	w8, [x5]
	strh	w16, [x5, #2]
	stur	xzr, [x5, #4]
	stur	xzr, [x5, #20]
	stur	xzr, [x5, #12]
	strh	wzr, [x5, #28]
	ret
.LBB108_12:
	add	w8, w12, w11
	lsr	w14, w8, #3
.LBB108_13:
	mov	w8, wzr
	b	.LBB108_15
.LBB108_14:
	mov	w8, wzr
	mov	w14, #65535
.LBB108_15:
	sub	sp, sp, #80
	.cfi_def_cfa_offset 80
	str	x30, [sp, #48]
	stp	x20, x19, [sp, #64]
	.cfi_offset w19, -8
	.cfi_offset w20, -16
	.cfi_offset w30, -32
	.cfi_remember_state
	umull	x16, w12, w11
	cmp	x1, x16
	b.ne	.LBB108_23
	add	x3, x2, x15
	adrp	x18, .Lstatic.0
	add	x18, x18, :lo12:.Lstatic.0
	mov	x16, #-49
.LBB108_17:
	adds	x16, x16, #1
	b.hs	.LBB108_24
	mov	x17, x18
	ldrh	w18, [x18]
	cmp	w18, w11
	add	x18, x17, #20
	b.ne	.LBB108_17
	ldrh	w4, [x17, #2]
	cmp	w4, w12
	b.ne	.LBB108_17
	ldrh	w6, [x17, #18]
	ldur	d0, [x17, #4]
	ldrh	w16, [x17, #12]
	ldrh	w4, [x17, #14]
	ldrh	w18, [x17, #16]
	cmp	w6, #1
	cset	w17, eq
	cbz	x9, .LBB108_27
	cmp	x9, x1
	b.eq	.LBB108_27
	mov	w11, wzr
	mov	w12, wzr
	mov	w8, #19
	b	.LBB108_25
.LBB108_23:
	mov	w11, wzr
	mov	w12, wzr
	mov	w8, #3
	b	.LBB108_25
.LBB108_24:
	mov	w8, #4
.LBB108_25:
	strh	w8, [x5]
	strh	w11, [x5, #2]
	strh	w12, [x5, #4]
	stur	xzr, [x5, #6]
	stur	xzr, [x5, #22]
	stur	xzr, [x5, #14]
.LBB108_26:
	ldp	x20, x19, [sp, #64]
	ldr	x30, [sp, #48]
	add	sp, sp, #80
	.cfi_def_cfa_offset 0
	.cfi_restore w19
	.cfi_restore w20
	.cfi_restore w30
	mov	w0, w8
	ret
.LBB108_27:
	.cfi_restore_state
	cbz	x9, .LBB108_30
	cmp	x9, #4
	b.hs	.LBB108_31
	mov	w7, wzr
	mov	x6, xzr
	b	.LBB108_40
.LBB108_30:
	mov	w7, wzr
	b	.LBB108_42
.LBB108_31:
	cmp	x9, #16
	b.hs	.LBB108_33
	mov	x6, xzr
	mov	w7, wzr
	b	.LBB108_37
.LBB108_33:
	movi	v1.2d, #0000000000000000
	and	x19, x9, #0xc
	and	x6, x9, #0xfffffffffffffff0
	add	x7, x2, x15
	and	x20, x9, #0xfffffffffffffff0
.LBB108_34:
	ldr	q2, [x7], #16
	subs	x20, x20, #16
	cmeq	v2.16b, v2.16b, #0
	orn	v1.16b, v1.16b, v2.16b
	b.ne	.LBB108_34
	shl	v1.16b, v1.16b, #7
	cmp	x9, x6
	cmlt	v1.16b, v1.16b, #0
	umaxv	b1, v1.16b
	fmov	w7, s1
	and	w7, w7, #0x1
	b.eq	.LBB108_42
	cbz	x19, .LBB108_40
.LBB108_37:
	movi	v1.2d, #0000000000000000
	mov	v1.h[0], w7
	mov	x7, x6
	and	x6, x9, #0xfffffffffffffffc
	add	x19, x15, x7
	sub	x7, x7, x6
	add	x19, x2, x19
.LBB108_38:
	ldr	s2, [x19], #4
	adds	x7, x7, #4
	ushll	v2.8h, v2.8b, #0
	cmeq	v2.4h, v2.4h, #0
	orn	v1.8b, v1.8b, v2.8b
	b.ne	.LBB108_38
	shl	v1.4h, v1.4h, #15
	cmp	x9, x6
	cmlt	v1.4h, v1.4h, #0
	umaxv	h1, v1.4h
	fmov	w7, s1
	and	w7, w7, #0x1
	b.eq	.LBB108_42
.LBB108_40:
	add	x19, x15, x6
	sub	x15, x9, x6
	add	x2, x2, x19
.LBB108_41:
	ldrb	w6, [x2], #1
	cmp	w6, #0
	cset	w6, ne
	subs	x15, x15, #1
	orr	w7, w7, w6
	b.ne	.LBB108_41
.LBB108_42:
	strh	w8, [sp, #42]
	cmp	w16, #817
	mov	w8, #2
	cinc	w8, w8, hs
	cmp	w16, #205
	strh	w11, [sp, #36]
	csinc	w8, w8, wzr, hs
	cmp	w16, #63
	strh	w11, [sp, #12]
	csel	w11, wzr, w8, lo
	mov	x8, x0
	mov	x19, x5
	strh	w12, [sp, #38]
	cmp	w11, #1
	mov	x2, x1
	strh	w12, [sp, #14]
	and	w12, w7, #0x1
	add	x0, sp, #36
	strh	w4, [sp, #26]
	add	x1, x8, x10
	add	x5, sp, #12
	mov	x4, x9
	mov	x6, x19
	strb	w13, [sp, #40]
	strb	wzr, [sp, #41]
	strh	w14, [sp, #44]
	stur	d0, [sp, #16]
	strh	w16, [sp, #24]
	strh	w18, [sp, #28]
	strb	w17, [sp, #30]
	strb	wzr, [sp, #31]
	strb	w12, [sp, #32]
	strb	wzr, [sp, #33]
	b.gt	.LBB108_45
	cbnz	w11, .LBB108_47
	bl	"ecc200_calls::answer::answer_given::<#7b928245427000c4>"
	b	.LBB108_49
.LBB108_45:
	cmp	w11, #2
	b.ne	.LBB108_48
	bl	"ecc200_calls::answer::answer_given::<#a1ea276ad3ef9c9c>"
	b	.LBB108_49
.LBB108_47:
	bl	"ecc200_calls::answer::answer_given::<#d2faac338cf57797>"
	b	.LBB108_49
.LBB108_48:
	bl	"ecc200_calls::answer::answer_given::<#bf8ac5d4f1318e40>"
.LBB108_49:
	ldrh	w8, [x19]
	b	.LBB108_26
.Lfunc_end108:
	.size	ecc200_read, .Lfunc_end108-ecc200_read
	.cfi_endproc

	.section	.rodata.cst16,"aM",@progbits,16
	.p2align	4, 0x0
.LCPI109_0:
	.hword	10
	.hword	10
	.hword	8
	.hword	8
	.hword	1
	.hword	1
	.hword	3
	.hword	5
	.text
	.globl	ecc200_sizes
	.p2align	2
	.type	ecc200_sizes,@function
ecc200_sizes:
	.cfi_startproc
	str	x29, [sp, #-48]!
	.cfi_def_cfa_offset 48
	stp	x30, x21, [sp, #16]
	stp	x20, x19, [sp, #32]
	.cfi_offset w19, -8
	.cfi_offset w20, -16
	.cfi_offset w21, -24
	.cfi_offset w30, -32
	.cfi_offset w29, -48
	sub	sp, sp, #2880
	.cfi_def_cfa_offset 2928
	.cfi_remember_state
	mov	x19, x0
	add	x20, sp, #1920
	add	x0, sp, #960
	mov	w1, wzr
	mov	w2, #960
	str	xzr, [sp]
	add	x21, x20, #260
	bl	memset
	mov	x0, sp
	mov	w1, wzr
	mov	w2, #960
	bl	memset
	add	x0, sp, #1920
	mov	w1, wzr
	mov	w2, #960
	bl	memset
	adrp	x9, .LCPI109_0
	add	x10, x20, #920
	mov	x8, xzr
	ldr	q0, [x9, :lo12:.LCPI109_0]
	add	x9, x20, #520
	str	q0, [x9]
	add	x9, x20, #540
	str	q0, [x9]
	add	x9, x20, #600
	str	q0, [x9]
	add	x9, x20, #620
	str	q0, [x9]
	add	x9, x20, #680
	str	q0, [x9]
	add	x9, x20, #700
	str	q0, [x9]
	add	x9, x20, #760
	str	q0, [x9]
	add	x9, x20, #780
	str	q0, [x9]
	add	x9, x20, #840
	str	q0, [x9]
	add	x9, x20, #860
	str	q0, [x9]
	mov	w9, #1
	str	q0, [x10]
	add	x10, x20, #940
	str	q0, [sp, #1920]
	stur	q0, [x20, #20]
	str	w9, [sp, #1936]
	str	w9, [sp, #1956]
	stur	q0, [x20, #40]
	stur	q0, [x20, #60]
	str	w9, [sp, #1976]
	str	w9, [sp, #1996]
	str	q0, [sp, #2000]
	stur	q0, [x20, #100]
	str	w9, [sp, #2016]
	str	w9, [sp, #2036]
	stur	q0, [x20, #120]
	stur	q0, [x20, #140]
	str	w9, [sp, #2056]
	str	w9, [sp, #2076]
	str	q0, [sp, #2080]
	stur	q0, [x20, #180]
	str	w9, [sp, #2096]
	str	w9, [sp, #2116]
	stur	q0, [x20, #200]
	stur	q0, [x20, #220]
	str	w9, [sp, #2136]
	str	w9, [sp, #2156]
	str	q0, [sp, #2160]
	str	w9, [sp, #2176]
	str	q0, [x21]
	str	w9, [sp, #2196]
	stur	q0, [x21, #20]
	str	w9, [sp, #2216]
	stur	q0, [x21, #40]
	str	w9, [sp, #2236]
	str	q0, [sp, #2240]
	str	w9, [sp, #2256]
	str	q0, [x21, #80]
	str	w9, [sp, #2276]
	stur	q0, [x21, #100]
	str	w9, [sp, #2296]
	stur	q0, [x21, #120]
	str	w9, [sp, #2316]
	str	q0, [sp, #2320]
	str	w9, [sp, #2336]
	str	q0, [x21, #160]
	str	w9, [sp, #2356]
	stur	q0, [x21, #180]
	str	w9, [sp, #2376]
	stur	q0, [x21, #200]
	str	w9, [sp, #2396]
	str	q0, [sp, #2400]
	str	w9, [sp, #2416]
	str	q0, [x21, #240]
	str	w9, [sp, #2436]
	str	w9, [sp, #2456]
	str	w9, [sp, #2476]
	str	q0, [sp, #2480]
	str	w9, [sp, #2496]
	str	q0, [x21, #320]
	str	w9, [sp, #2516]
	str	w9, [sp, #2536]
	str	w9, [sp, #2556]
	str	q0, [sp, #2560]
	str	w9, [sp, #2576]
	str	q0, [x21, #400]
	str	w9, [sp, #2596]
	str	w9, [sp, #2616]
	str	w9, [sp, #2636]
	str	q0, [sp, #2640]
	str	w9, [sp, #2656]
	str	q0, [x21, #480]
	str	w9, [sp, #2676]
	str	w9, [sp, #2696]
	str	w9, [sp, #2716]
	str	q0, [sp, #2720]
	str	w9, [sp, #2736]
	str	q0, [x21, #560]
	str	w9, [sp, #2756]
	str	w9, [sp, #2776]
	str	w9, [sp, #2796]
	str	q0, [sp, #2800]
	str	w9, [sp, #2816]
	str	q0, [x21, #640]
	str	w9, [sp, #2836]
	str	w9, [sp, #2856]
	str	q0, [x10]
	str	w9, [sp, #2876]
.LBB109_1:
	adrp	x9, .Lstatic.0
	add	x9, x9, :lo12:.Lstatic.0
	add	x11, x20, x8
	add	x9, x9, x8
	add	x8, x8, #20
	strb	wzr, [x11, #19]
	ldrh	w10, [x9, #18]
	ldr	q0, [x9]
	ldrh	w9, [x9, #16]
	cmp	w10, #1
	strh	w9, [x11, #16]
	cset	w9, eq
	cmp	x8, #960
	str	q0, [x11]
	strb	w9, [x11, #18]
	b.ne	.LBB109_1
	add	x0, sp, #960
	add	x1, sp, #1920
	mov	w2, #960
	bl	memcpy
	mov	x0, sp
	add	x1, sp, #960
	mov	w2, #960
	mov	x20, sp
	bl	memcpy
	add	x8, x19, #12
	add	x9, x20, #10
	mov	w10, #48
.LBB109_3:
	ldrh	w11, [x9, #6]
	cbz	w11, .LBB109_6
	ldrh	w12, [x9, #4]
	ldur	d0, [x9, #-10]
	subs	x10, x10, #1
	ldurh	w14, [x9, #-2]
	ldrh	w17, [x9]
	strh	w11, [x8, #8]
	udiv	w13, w12, w11
	umov	w15, v0.h[2]
	umov	w16, v0.h[3]
	sturh	w14, [x8, #-4]
	ldrh	w18, [x9, #2]
	strh	w12, [x8, #6]
	ldrb	w12, [x9, #8]
	add	x9, x9, #20
	stur	d0, [x8, #-12]
	mul	w11, w15, w14
	and	w12, w12, #0x1
	sturh	w17, [x8, #-2]
	mul	w14, w16, w17
	strh	w18, [x8, #4]
	strh	w12, [x8, #12]
	strh	w11, [x8]
	lsr	w11, w13, #1
	strh	w14, [x8, #2]
	strh	w11, [x8, #10]
	add	x8, x8, #26
	b.ne	.LBB109_3
	add	sp, sp, #2880
	.cfi_def_cfa_offset 48
	ldp	x20, x19, [sp, #32]
	ldp	x30, x21, [sp, #16]
	ldr	x29, [sp], #48
	.cfi_def_cfa_offset 0
	.cfi_restore w19
	.cfi_restore w20
	.cfi_restore w21
	.cfi_restore w30
	.cfi_restore w29
	ret
.LBB109_6:
	.cfi_restore_state
	brk	#0x1
.Lfunc_end109:
	.size	ecc200_sizes, .Lfunc_end109-ecc200_sizes
	.cfi_endproc

	.globl	ecc200_usual_limit
	.p2align	2
	.type	ecc200_usual_limit,@function
ecc200_usual_limit:
	.cfi_startproc
	and	w8, w1, #0xffff
	add	w8, w8, w0, uxth
	lsr	w0, w8, #3
	ret
.Lfunc_end110:
	.size	ecc200_usual_limit, .Lfunc_end110-ecc200_usual_limit
	.cfi_endproc

	.globl	ecc200_write
	.p2align	2
	.type	ecc200_write,@function
ecc200_write:
	.cfi_startproc
	sub	sp, sp, #128
	.cfi_def_cfa_offset 128
	str	x30, [sp, #48]
	stp	x26, x25, [sp, #64]
	stp	x24, x23, [sp, #80]
	stp	x22, x21, [sp, #96]
	stp	x20, x19, [sp, #112]
	.cfi_offset w19, -8
	.cfi_offset w20, -16
	.cfi_offset w21, -24
	.cfi_offset w22, -32
	.cfi_offset w23, -40
	.cfi_offset w24, -48
	.cfi_offset w25, -56
	.cfi_offset w26, -64
	.cfi_offset w30, -80
	.cfi_remember_state
	ldr	q0, [x4]
	mov	w8, #4096
	cmp	x0, #0
	ldrh	w9, [x4, #16]
	mov	x23, x0
	mov	x20, x1
	csel	x25, x8, xzr, eq
	cmp	x2, #0
	add	x0, sp, #32
	mov	x1, sp
	mov	x19, x5
	mov	x22, x3
	mov	x21, x2
	str	q0, [sp]
	csel	x24, x8, xzr, eq
	strh	w9, [sp, #16]
	add	x26, sp, #32
	bl	"ecc200_calls::how::check_how"
	ldrb	w8, [sp, #32]
	cbz	w8, .LBB111_4
	orr	x8, x26, #0x2
	ldr	w9, [x8]
	ldrh	w8, [x8, #4]
	str	w9, [x19]
	strh	w8, [x19, #4]
.LBB111_2:
	stur	wzr, [x19, #6]
.LBB111_3:
	ldrh	w0, [x19]
	ldp	x20, x19, [sp, #112]
	ldp	x22, x21, [sp, #96]
	ldr	x30, [sp, #48]
	ldp	x24, x23, [sp, #80]
	ldp	x26, x25, [sp, #64]
	add	sp, sp, #128
	.cfi_def_cfa_offset 0
	.cfi_restore w19
	.cfi_restore w20
	.cfi_restore w21
	.cfi_restore w22
	.cfi_restore w23
	.cfi_restore w24
	.cfi_restore w25
	.cfi_restore w26
	.cfi_restore w30
	ret
.LBB111_4:
	.cfi_restore_state
	ldrh	w8, [sp, #34]
	ldrb	w9, [sp, #36]
	add	x0, x23, x25
	ldur	w10, [sp, #38]
	ldrb	w12, [sp, #42]
	ldrb	w13, [sp, #43]
	ldr	w11, [sp, #44]
	cbz	x20, .LBB111_8
	mov	x14, xzr
.LBB111_6:
	ldrh	w15, [x0, x14, lsl #1]
	cmp	w15, #256
	b.hi	.LBB111_20
	add	x14, x14, #1
	cmp	x20, x14
	b.ne	.LBB111_6
.LBB111_8:
	cbz	x22, .LBB111_14
	add	x16, x24, x21
	mov	x15, xzr
	mov	x14, xzr
	add	x16, x16, #4
.LBB111_10:
	mov	x17, x15
	ldr	w15, [x16]
	cmp	x17, x15
	b.hi	.LBB111_21
	cmp	x20, x15
	b.lo	.LBB111_21
	ldur	w17, [x16, #-4]
	mov	w18, #16959
	movk	w18, #15, lsl #16
	cmp	w17, w18
	b.hi	.LBB111_21
	add	x14, x14, #1
	add	x16, x16, #8
	cmp	x22, x14
	b.ne	.LBB111_10
.LBB111_14:
	cmp	x20, #3123
	strb	w12, [sp, #56]
	strb	w13, [sp, #57]
	stur	w11, [sp, #58]
	b.hi	.LBB111_22
	cmp	x22, #780
	b.hs	.LBB111_22
	lsl	x10, x10, #32
	cbz	x22, .LBB111_23
	cmp	x20, #131
	b.hi	.LBB111_26
	cmp	x22, #32
	b.hs	.LBB111_26
	orr	x8, x8, x9, lsl #16
	add	x2, x21, x24
	add	x5, sp, #56
	mov	x1, x20
	mov	x3, x22
	mov	x6, x19
	orr	x4, x8, x10
	bl	"ecc200_calls::writing::write_content_of::<#653d8e9eeee73d5b>"
	b	.LBB111_3
.LBB111_20:
	mov	w9, #65535
	ldrh	w8, [x0, x14, lsl #1]
	mov	w10, #15
	cmp	x14, x9
	strh	w10, [x19]
	csel	x9, x14, x9, lo
	strh	w8, [x19, #2]
	strh	w9, [x19, #4]
	b	.LBB111_2
.LBB111_21:
	mov	w8, #65535
	mov	w9, #22
	cmp	x14, x8
	str	w9, [x19]
	csel	x8, x14, x8, lo
	strh	w8, [x19, #4]
	b	.LBB111_2
.LBB111_22:
	mov	w8, #14
	stur	xzr, [x19, #2]
	strh	w8, [x19]
	b	.LBB111_3
.LBB111_23:
	cmp	x20, #1640
	mov	w11, #2
	orr	x8, x8, x9, lsl #16
	cinc	w11, w11, hs
	cmp	x20, #416
	add	x2, x21, x24
	csinc	w11, w11, wzr, hs
	cmp	x20, #132
	orr	x4, x8, x10
	csel	w11, wzr, w11, lo
	add	x5, sp, #56
	mov	x1, x20
	cmp	w11, #1
	b.gt	.LBB111_29
	mov	x3, xzr
	mov	x6, x19
	cbnz	w11, .LBB111_34
	bl	"ecc200_calls::writing::write_content_of::<#d4a6cd8012f658d3>"
	b	.LBB111_3
.LBB111_26:
	cmp	x20, #415
	b.hi	.LBB111_31
	cmp	x22, #103
	b.hs	.LBB111_31
	orr	x8, x8, x9, lsl #16
	add	x2, x21, x24
	add	x5, sp, #56
	mov	x1, x20
	mov	x3, x22
	mov	x6, x19
	orr	x4, x8, x10
	bl	"ecc200_calls::writing::write_content_of::<#063e8a381f980aa9>"
	b	.LBB111_3
.LBB111_29:
	cmp	w11, #2
	b.ne	.LBB111_35
	mov	x3, xzr
	mov	x6, x19
	bl	"ecc200_calls::writing::write_content_of::<#568124f4bcd00b97>"
	b	.LBB111_3
.LBB111_31:
	orr	x8, x8, x9, lsl #16
	cmp	x20, #1639
	b.hi	.LBB111_36
	cmp	x22, #409
	b.hs	.LBB111_36
	add	x2, x21, x24
	orr	x4, x8, x10
	add	x5, sp, #56
	mov	x1, x20
	mov	x3, x22
	mov	x6, x19
	bl	"ecc200_calls::writing::write_content_of::<#74b909a45ce937fb>"
	b	.LBB111_3
.LBB111_34:
	bl	"ecc200_calls::writing::write_content_of::<#b76b4ae358bda620>"
	b	.LBB111_3
.LBB111_35:
	mov	x3, xzr
	mov	x6, x19
	bl	"ecc200_calls::writing::write_content_of::<#5bc803b6b7c4bd57>"
	b	.LBB111_3
.LBB111_36:
	add	x2, x21, x24
	orr	x4, x8, x10
	add	x5, sp, #56
	mov	x1, x20
	mov	x3, x22
	mov	x6, x19
	bl	"ecc200_calls::writing::write_content_of::<#8e2329e1c5119cbe>"
	b	.LBB111_3
.Lfunc_end111:
	.size	ecc200_write, .Lfunc_end111-ecc200_write
	.cfi_endproc

	.globl	ecc200_write_bytes
	.p2align	2
	.type	ecc200_write_bytes,@function
ecc200_write_bytes:
	.cfi_startproc
	sub	sp, sp, #96
	.cfi_def_cfa_offset 96
	stp	x30, x23, [sp, #48]
	stp	x22, x21, [sp, #64]
	stp	x20, x19, [sp, #80]
	.cfi_offset w19, -8
	.cfi_offset w20, -16
	.cfi_offset w21, -24
	.cfi_offset w22, -32
	.cfi_offset w23, -40
	.cfi_offset w30, -48
	.cfi_remember_state
	ldr	q0, [x2]
	ldrh	w8, [x2, #16]
	mov	x20, x1
	mov	x21, x0
	mov	w9, #4096
	cmp	x0, #0
	add	x0, sp, #24
	mov	x1, sp
	mov	x19, x3
	str	q0, [sp]
	csel	x22, x9, xzr, eq
	add	x23, sp, #24
	strh	w8, [sp, #16]
	bl	"ecc200_calls::how::check_how"
	ldrb	w8, [sp, #24]
	cbz	w8, .LBB112_2
	orr	x8, x23, #0x2
	stur	wzr, [x19, #6]
	ldr	w9, [x8]
	ldrh	w8, [x8, #4]
	str	w9, [x19]
	strh	w8, [x19, #4]
	b	.LBB112_7
.LBB112_2:
	ldrh	w11, [sp, #34]
	ldrh	w8, [sp, #26]
	cmp	x20, #3124
	ldrb	w9, [sp, #28]
	ldr	w12, [sp, #36]
	ldur	w10, [sp, #30]
	strh	w11, [sp, #40]
	stur	w12, [sp, #42]
	b.hs	.LBB112_6
	cmp	x20, #1640
	mov	w11, #2
	orr	x9, x8, x9, lsl #16
	cinc	w11, w11, hs
	cmp	x20, #416
	add	x0, x21, x22
	csinc	w11, w11, wzr, hs
	cmp	x20, #132
	orr	x2, x9, x10, lsl #32
	csel	w8, wzr, w11, lo
	add	x3, sp, #40
	mov	x1, x20
	mov	x4, x19
	cmp	w8, #1
	b.gt	.LBB112_8
	cbnz	w8, .LBB112_10
	bl	"ecc200_calls::writing::write_content_of::<#f7f46bcb0d4b0fd2>"
	b	.LBB112_7
.LBB112_6:
	mov	w8, #14
	stur	xzr, [x19, #2]
	strh	w8, [x19]
.LBB112_7:
	ldrh	w0, [x19]
	ldp	x20, x19, [sp, #80]
	ldp	x22, x21, [sp, #64]
	ldp	x30, x23, [sp, #48]
	add	sp, sp, #96
	.cfi_def_cfa_offset 0
	.cfi_restore w19
	.cfi_restore w20
	.cfi_restore w21
	.cfi_restore w22
	.cfi_restore w23
	.cfi_restore w30
	ret
.LBB112_8:
	.cfi_restore_state
	cmp	w8, #2
	b.ne	.LBB112_11
	bl	"ecc200_calls::writing::write_content_of::<#b97095b23881e008>"
	b	.LBB112_7
.LBB112_10:
	bl	"ecc200_calls::writing::write_content_of::<#dbd28265ffd20b3d>"
	b	.LBB112_7
.LBB112_11:
	bl	"ecc200_calls::writing::write_content_of::<#9f02d14f3d055ac0>"
	b	.LBB112_7
.Lfunc_end112:
	.size	ecc200_write_bytes, .Lfunc_end112-ecc200_write_bytes
	.cfi_endproc

	.type	.Lstatic.0,@object
	.section	.rodata,"a",@progbits
	.p2align	1, 0x0
.Lstatic.0:
	.asciz	"\n\000\n\000\b\000\b\000\001\000\001\000\003\000\005\000\001\000\000\000\f\000\f\000\n\000\n\000\001\000\001\000\005\000\007\000\001\000\000\000\b\000\022\000\006\000\020\000\001\000\001\000\005\000\007\000\001\000\000\000\016\000\016\000\f\000\f\000\001\000\001\000\b\000\n\000\001\000\000\000\020\000\020\000\016\000\016\000\001\000\001\000\f\000\f\000\001\000\000\000\b\000 \000\006\000\016\000\001\000\002\000\n\000\013\000\001\000\000\000\f\000\032\000\n\000\030\000\001\000\001\000\020\000\016\000\001\000\000\000\022\000\022\000\020\000\020\000\001\000\001\000\022\000\016\000\001\000\000\000\b\0000\000\006\000\026\000\001\000\002\000\022\000\017\000\001\000\001\000\024\000\024\000\022\000\022\000\001\000\001\000\026\000\022\000\001\000\000\000\f\000$\000\n\000\020\000\001\000\002\000\026\000\022\000\001\000\000\000\026\000\026\000\024\000\024\000\001\000\001\000\036\000\024\000\001\000\000\000\b\000@\000\006\000\016\000\001\000\004\000\030\000\022\000\001\000\001\000\030\000\030\000\026\000\026\000\001\000\001\000$\000\030\000\001\000\000\000\020\000$\000\016\000\020\000\001\000\002\000 \000\030\000\001\000\000\000\b\000P\000\006\000\022\000\001\000\004\000 \000\026\000\001\000\001\000\032\000\032\000\030\000\030\000\001\000\001\000,\000\034\000\001\000\000\000\024\000$\000\022\000\020\000\001\000\002\000,\000\034\000\001\000\001\000\020\0000\000\016\000\026\000\001\000\002\0001\000\034\000\001\000\000\000\f\000@\000\n\000\016\000\001\000\004\000+\000\033\000\001\000\001\000\b\000`\000\006\000\026\000\001\000\004\000&\000\034\000\001\000\001\000\024\000,\000\022\000\024\000\001\000\002\0008\000\"\000\001\000\001\000\b\000x\000\006\000\022\000\001\000\006\0001\000 \000\001\000\001\000 \000 \000\016\000\016\000\002\000\002\000>\000$\000\001\000\000\000\020\000@\000\016\000\016\000\001\000\004\000>\000$\000\001\000\001\000\032\000(\000\030\000\022\000\001\000\002\000F\000&\000\001\000\001\000\026\0000\000\024\000\026\000\001\000\002\000H\000&\000\001\000\001\000\f\000X\000\n\000\024\000\001\000\004\000@\000$\000\001\000\001\000\030\0000\000\026\000\026\000\001\000\002\000P\000)\000\001\000\001\000\b\000\220\000\006\000\026\000\001\000\006\000?\000$\000\001\000\001\000\032\0000\000\030\000\026\000\001\000\002\000Z\000*\000\001\000\001\000\024\000@\000\022\000\016\000\001\000\004\000T\000*\000\001\000\001\000$\000$\000\020\000\020\000\002\000\002\000V\000*\000\001\000\000\000\030\000@\000\026\000\016\000\001\000\004\000l\000.\000\001\000\001\000(\000(\000\022\000\022\000\002\000\002\000r\0000\000\001\000\000\000\032\000@\000\030\000\016\000\001\000\004\000v\0002\000\001\000\001\000,\000,\000\024\000\024\000\002\000\002\000\220\0008\000\001\000\000\0000\0000\000\026\000\026\000\002\000\002\000\256\000D\000\001\000\000\0004\0004\000\030\000\030\000\002\000\002\000\314\000T\000\002\000\000\000@\000@\000\016\000\016\000\004\000\004\000\030\001p\000\002\000\000\000H\000H\000\020\000\020\000\004\000\004\000p\001\220\000\004\000\000\000P\000P\000\022\000\022\000\004\000\004\000\310\001\300\000\004\000\000\000X\000X\000\024\000\024\000\004\000\004\000@\002\340\000\004\000\000\000`\000`\000\026\000\026\000\004\000\004\000\270\002\020\001\004\000\000\000h\000h\000\030\000\030\000\004\000\004\0000\003P\001\006\000\000\000x\000x\000\022\000\022\000\006\000\006\000\032\004\230\001\006\000\000\000\204\000\204\000\024\000\024\000\006\000\006\000\030\005\360\001\b\000\000\000\220\000\220\000\026\000\026\000\006\000\006\000\026\006l\002\n\000\000"
	.size	.Lstatic.0, 960

	.type	.Lstatic.2,@object
.Lstatic.2:
	.ascii	"\000\200@\300 \240`\340\020\220P\3200\260p\360\b\210H\310(\250h\350\030\230X\3308\270x\370\004\204D\304$\244d\344\024\224T\3244\264t\364\f\214L\314,\254l\354\034\234\\\334<\274|\374\002\202B\302\"\242b\342\022\222R\3222\262r\362\n\212J\312*\252j\352\032\232Z\332:\272z\372\006\206F\306&\246f\346\026\226V\3266\266v\366\016\216N\316.\256n\356\036\236^\336>\276~\376\001\201A\301!\241a\341\021\221Q\3211\261q\361\t\211I\311)\251i\351\031\231Y\3319\271y\371\005\205E\305%\245e\345\025\225U\3255\265u\365\r\215M\315-\255m\355\035\235]\335=\275}\375\003\203C\303#\243c\343\023\223S\3233\263s\363\013\213K\313+\253k\353\033\233[\333;\273{\373\007\207G\307'\247g\347\027\227W\3277\267w\367\017\217O\317/\257o\357\037\237_\337?\277\177\377"
	.size	.Lstatic.2, 256

	.type	.Lstatic.3,@object
	.p2align	1, 0x0
.Lstatic.3:
	.ascii	" \000\020\000\000\000\b\000\030\000(\0008\000`\000P\000@\0000\000!\000\021\000\001\000\t\000\031\000)\0009\000H\000X\000h\000x\000\240\000\220\000\200\000p\000a\000Q\000A\0001\000\"\000\022\000\002\000\n\000\032\000*\000:\000I\000Y\000i\000y\000\210\000\230\000\250\000\270\000\340\000\320\000\300\000\260\000\241\000\221\000\201\000q\000b\000R\000B\0002\000#\000\023\000\003\000\013\000\033\000+\000;\000J\000Z\000j\000z\000\211\000\231\000\251\000\271\000\310\000\330\000\350\000\370\000 \001\020\001\000\001\360\000\341\000\321\000\301\000\261\000\242\000\222\000\202\000r\000c\000S\000C\0003\000$\000\024\000\004\000\f\000\034\000,\000<\000K\000[\000k\000{\000\212\000\232\000\252\000\272\000\311\000\331\000\351\000\371\000\b\001\030\001(\0018\001`\001P\001@\0010\001!\001\021\001\001\001\361\000\342\000\322\000\302\000\262\000\243\000\223\000\203\000s\000d\000T\000D\0004\000%\000\025\000\005\000\r\000\035\000-\000=\000L\000\\\000l\000|\000\213\000\233\000\253\000\273\000\312\000\332\000\352\000\372\000\t\001\031\001)\0019\001H\001X\001h\001x\001\240\001\220\001\200\001p\001a\001Q\001A\0011\001\"\001\022\001\002\001\362\000\343\000\323\000\303\000\263\000\244\000\224\000\204\000t\000e\000U\000E\0005\000&\000\026\000\006\000\016\000\036\000.\000>\000M\000]\000m\000}\000\214\000\234\000\254\000\274\000\313\000\333\000\353\000\373\000\n\001\032\001*\001:\001I\001Y\001i\001y\001\210\001\230\001\250\001\270\001\260\001\241\001\221\001\201\001q\001b\001R\001B\0012\001#\001\023\001\003\001\363\000\344\000\324\000\304\000\264\000\245\000\225\000\205\000u\000f\000V\000F\0006\000N\000^\000n\000~\000\215\000\235\000\255\000\275\000\314\000\334\000\354\000\374\000\013\001\033\001+\001;\001J\001Z\001j\001z\001\211\001\231\001\251\001\271\001\261\001\242\001\222\001\202\001r\001c\001S\001C\0013\001$\001\024\001\004\001\364\000\345\000\325\000\305\000\265\000\246\000\226\000\206\000v\000\216\000\236\000\256\000\276\000\315\000\335\000\355\000\375\000\f\001\034\001,\001<\001K\001[\001k\001{\001\212\001\232\001\252\001\272\001\262\001\243\001\223\001\203\001s\001d\001T\001D\0014\001%\001\025\001\005\001\365\000\346\000\326\000\306\000\266\000\316\000\336\000\356\000\376\000\r\001\035\001-\001=\001L\001\\\001l\001|\001\213\001\233\001\253\001\273\001\263\001\244\001\224\001\204\001t\001e\001U\001E\0015\001&\001\026\001\006\001\366\000\016\001\036\001.\001>\001M\001]\001m\001}\001\214\001\234\001\254\001\274\001\264\001\245\001\225\001\205\001u\001f\001V\001F\0016\001N\001^\001n\001~\001\215\001\235\001\255\001\275\001\265\001\246\001\226\001\206\001v\001\216\001\236\001\256\001\276\001\266\001"
	.size	.Lstatic.3, 784

	.type	.Lstatic.4,@object
	.p2align	1, 0x0
.Lstatic.4:
	.ascii	"@\000 \000\000\000\020\0000\000P\000p\000\300\000\240\000\200\000`\000A\000!\000\001\000\021\0001\000Q\000q\000\220\000\260\000\320\000\360\000@\001 \001\000\001\340\000\301\000\241\000\201\000a\000B\000\"\000\002\000\022\0002\000R\000r\000\221\000\261\000\321\000\361\000\020\0010\001P\001p\001\300\001\240\001\200\001`\001A\001!\001\001\001\341\000\302\000\242\000\202\000b\000C\000#\000\003\000\023\0003\000S\000s\000\222\000\262\000\322\000\362\000\021\0011\001Q\001q\001\220\001\260\001\320\001\360\001@\002 \002\000\002\340\001\301\001\241\001\201\001a\001B\001\"\001\002\001\342\000\303\000\243\000\203\000c\000D\000$\000\004\000\024\0004\000T\000t\000\223\000\263\000\323\000\363\000\022\0012\001R\001r\001\221\001\261\001\321\001\361\001\020\0020\002P\002p\002\300\002\240\002\200\002`\002A\002!\002\001\002\341\001\302\001\242\001\202\001b\001C\001#\001\003\001\343\000\304\000\244\000\204\000d\000E\000%\000\005\000\025\0005\000U\000u\000\224\000\264\000\324\000\364\000\023\0013\001S\001s\001\222\001\262\001\322\001\362\001\021\0021\002Q\002q\002\220\002\260\002\320\002\360\002@\003 \003\000\003\340\002\301\002\241\002\201\002a\002B\002\"\002\002\002\342\001\303\001\243\001\203\001c\001D\001$\001\004\001\344\000\305\000\245\000\205\000e\000F\000&\000\006\000\026\0006\000V\000v\000\225\000\265\000\325\000\365\000\024\0014\001T\001t\001\223\001\263\001\323\001\363\001\022\0022\002R\002r\002\221\002\261\002\321\002\361\002\020\0030\003P\003p\003\300\003\240\003\200\003`\003A\003!\003\001\003\341\002\302\002\242\002\202\002b\002C\002#\002\003\002\343\001\304\001\244\001\204\001d\001E\001%\001\005\001\345\000\306\000\246\000\206\000f\000G\000'\000\007\000\027\0007\000W\000w\000\226\000\266\000\326\000\366\000\025\0015\001U\001u\001\224\001\264\001\324\001\364\001\023\0023\002S\002s\002\222\002\262\002\322\002\362\002\021\0031\003Q\003q\003\220\003\260\003\320\003\360\003@\004 \004\000\004\340\003\301\003\241\003\201\003a\003B\003\"\003\002\003\342\002\303\002\243\002\203\002c\002D\002$\002\004\002\344\001\305\001\245\001\205\001e\001F\001&\001\006\001\346\000\307\000\247\000\207\000g\000H\000(\000\b\000\030\0008\000X\000x\000\227\000\267\000\327\000\367\000\026\0016\001V\001v\001\225\001\265\001\325\001\365\001\024\0024\002T\002t\002\223\002\263\002\323\002\363\002\022\0032\003R\003r\003\221\003\261\003\321\003\361\003\020\0040\004P\004p\004\300\004\240\004\200\004`\004A\004!\004\001\004\341\003\302\003\242\003\202\003b\003C\003#\003\003\003\343\002\304\002\244\002\204\002d\002E\002%\002\005\002\345\001\306\001\246\001\206\001f\001G\001'\001\007\001\347\000\310\000\250\000\210\000h\000I\000)\000\t\000\031\0009\000Y\000y\000\230\000\270\000\330\000\370\000\027\0017\001W\001w\001\226\001\266\001\326\001\366\001\025\0025\002U\002u\002\224\002\264\002\324\002\364\002\023\0033\003S\003s\003\222\003\262\003\322\003\362\003\021\0041\004Q\004q\004\220\004\260\004\320\004\360\004@\005 \005\000\005\340\004\301\004\241\004\201\004a\004B\004\"\004\002\004\342\003\303\003\243\003\203\003c\003D\003$\003\004\003\344\002\305\002\245\002\205\002e\002F\002&\002\006\002\346\001\307\001\247\001\207\001g\001H\001(\001\b\001\350\000\311\000\251\000\211\000i\000J\000*\000\n\000\032\000:\000Z\000z\000\231\000\271\000\331\000\371\000\030\0018\001X\001x\001\227\001\267\001\327\001\367\001\026\0026\002V\002v\002\225\002\265\002\325\002\365\002\024\0034\003T\003t\003\223\003\263\003\323\003\363\003\022\0042\004R\004r\004\221\004\261\004\321\004\361\004\020\0050\005P\005p\005\300\005\240\005\200\005`\005A\005!\005\001\005\341\004\302\004\242\004\202\004b\004C\004#\004\003\004\343\003\304\003\244\003\204\003d\003E\003%\003\005\003\345\002\306\002\246\002\206\002f\002G\002'\002\007\002\347\001\310\001\250\001\210\001h\001I\001)\001\t\001\351\000\312\000\252\000\212\000j\000K\000+\000\013\000\033\000;\000[\000{\000\232\000\272\000\332\000\372\000\031\0019\001Y\001y\001\230\001\270\001\330\001\370\001\027\0027\002W\002w\002\226\002\266\002\326\002\366\002\025\0035\003U\003u\003\224\003\264\003\324\003\364\003\023\0043\004S\004s\004\222\004\262\004\322\004\362\004\021\0051\005Q\005q\005\220\005\260\005\320\005\360\005@\006 \006\000\006\340\005\301\005\241\005\201\005a\005B\005\"\005\002\005\342\004\303\004\243\004\203\004c\004D\004$\004\004\004\344\003\305\003\245\003\205\003e\003F\003&\003\006\003\346\002\307\002\247\002\207\002g\002H\002(\002\b\002\350\001\311\001\251\001\211\001i\001J\001*\001\n\001\352\000\313\000\253\000\213\000k\000L\000,\000\f\000\034\000<\000\\\000|\000\233\000\273\000\333\000\373\000\032\001:\001Z\001z\001\231\001\271\001\331\001\371\001\030\0028\002X\002x\002\227\002\267\002\327\002\367\002\026\0036\003V\003v\003\225\003\265\003\325\003\365\003\024\0044\004T\004t\004\223\004\263\004\323\004\363\004\022\0052\005R\005r\005\221\005\261\005\321\005\361\005\020\0060\006P\006p\006\300\006\240\006\200\006`\006A\006!\006\001\006\341\005\302\005\242\005\202\005b\005C\005#\005\003\005\343\004\304\004\244\004\204\004d\004E\004%\004\005\004\345\003\306\003\246\003\206\003f\003G\003'\003\007\003\347\002\310\002\250\002\210\002h\002I\002)\002\t\002\351\001\312\001\252\001\212\001j\001K\001+\001\013\001\353\000\314\000\254\000\214\000l\000M\000-\000\r\000\035\000=\000]\000}\000\234\000\274\000\334\000\374\000\033\001;\001[\001{\001\232\001\272\001\332\001\372\001\031\0029\002Y\002y\002\230\002\270\002\330\002\370\002\027\0037\003W\003w\003\226\003\266\003\326\003\366\003\025\0045\004U\004u\004\224\004\264\004\324\004\364\004\023\0053\005S\005s\005\222\005\262\005\322\005\362\005\021\0061\006Q\006q\006\220\006\260\006\320\006\360\006@\007 \007\000\007\340\006\301\006\241\006\201\006a\006B\006\"\006\002\006\342\005\303\005\243\005\203\005c\005D\005$\005\004\005\344\004\305\004\245\004\205\004e\004F\004&\004\006\004\346\003\307\003\247\003\207\003g\003H\003(\003\b\003\350\002\311\002\251\002\211\002i\002J\002*\002\n\002\352\001\313\001\253\001\213\001k\001L\001,\001\f\001\354\000\315\000\255\000\215\000m\000N\000.\000\016\000\036\000>\000^\000~\000\235\000\275\000\335\000\375\000\034\001<\001\\\001|\001\233\001\273\001\333\001\373\001\032\002:\002Z\002z\002\231\002\271\002\331\002\371\002\030\0038\003X\003x\003\227\003\267\003\327\003\367\003\026\0046\004V\004v\004\225\004\265\004\325\004\365\004\024\0054\005T\005t\005\223\005\263\005\323\005\363\005\022\0062\006R\006r\006\221\006\261\006\321\006\361\006\020\0070\007P\007p\007`\007A\007!\007\001\007\341\006\302\006\242\006\202\006b\006C\006#\006\003\006\343\005\304\005\244\005\204\005d\005E\005%\005\005\005\345\004\306\004\246\004\206\004f\004G\004'\004\007\004\347\003\310\003\250\003\210\003h\003I\003)\003\t\003\351\002\312\002\252\002\212\002j\002K\002+\002\013\002\353\001\314\001\254\001\214\001l\001M\001-\001\r\001\355\000\316\000\256\000\216\000n\000\236\000\276\000\336\000\376\000\035\001=\001]\001}\001\234\001\274\001\334\001\374\001\033\002;\002[\002{\002\232\002\272\002\332\002\372\002\031\0039\003Y\003y\003\230\003\270\003\330\003\370\003\027\0047\004W\004w\004\226\004\266\004\326\004\366\004\025\0055\005U\005u\005\224\005\264\005\324\005\364\005\023\0063\006S\006s\006\222\006\262\006\322\006\362\006\021\0071\007Q\007q\007a\007B\007\"\007\002\007\342\006\303\006\243\006\203\006c\006D\006$\006\004\006\344\005\305\005\245\005\205\005e\005F\005&\005\006\005\346\004\307\004\247\004\207\004g\004H\004(\004\b\004\350\003\311\003\251\003\211\003i\003J\003*\003\n\003\352\002\313\002\253\002\213\002k\002L\002,\002\f\002\354\001\315\001\255\001\215\001m\001N\001.\001\016\001\356\000\036\001>\001^\001~\001\235\001\275\001\335\001\375\001\034\002<\002\\\002|\002\233\002\273\002\333\002\373\002\032\003:\003Z\003z\003\231\003\271\003\331\003\371\003\030\0048\004X\004x\004\227\004\267\004\327\004\367\004\026\0056\005V\005v\005\225\005\265\005\325\005\365\005\024\0064\006T\006t\006\223\006\263\006\323\006\363\006\022\0072\007R\007r\007b\007C\007#\007\003\007\343\006\304\006\244\006\204\006d\006E\006%\006\005\006\345\005\306\005\246\005\206\005f\005G\005'\005\007\005\347\004\310\004\250\004\210\004h\004I\004)\004\t\004\351\003\312\003\252\003\212\003j\003K\003+\003\013\003\353\002\314\002\254\002\214\002l\002M\002-\002\r\002\355\001\316\001\256\001\216\001n\001\236\001\276\001\336\001\376\001\035\002=\002]\002}\002\234\002\274\002\334\002\374\002\033\003;\003[\003{\003\232\003\272\003\332\003\372\003\031\0049\004Y\004y\004\230\004\270\004\330\004\370\004\027\0057\005W\005w\005\226\005\266\005\326\005\366\005\025\0065\006U\006u\006\224\006\264\006\324\006\364\006\023\0073\007S\007s\007c\007D\007$\007\004\007\344\006\305\006\245\006\205\006e\006F\006&\006\006\006\346\005\307\005\247\005\207\005g\005H\005(\005\b\005\350\004\311\004\251\004\211\004i\004J\004*\004\n\004\352\003\313\003\253\003\213\003k\003L\003,\003\f\003\354\002\315\002\255\002\215\002m\002N\002.\002\016\002\356\001\036\002>\002^\002~\002\235\002\275\002\335\002\375\002\034\003<\003\\\003|\003\233\003\273\003\333\003\373\003\032\004:\004Z\004z\004\231\004\271\004\331\004\371\004\030\0058\005X\005x\005\227\005\267\005\327\005\367\005\026\0066\006V\006v\006\225\006\265\006\325\006\365\006\024\0074\007T\007t\007d\007E\007%\007\005\007\345\006\306\006\246\006\206\006f\006G\006'\006\007\006\347\005\310\005\250\005\210\005h\005I\005)\005\t\005\351\004\312\004\252\004\212\004j\004K\004+\004\013\004\353\003\314\003\254\003\214\003l\003M\003-\003\r\003\355\002\316\002\256\002\216\002n\002\236\002\276\002\336\002\376\002\035\003=\003]\003}\003\234\003\274\003\334\003\374\003\033\004;\004[\004{\004\232\004\272\004\332\004\372\004\031\0059\005Y\005y\005\230\005\270\005\330\005\370\005\027\0067\006W\006w\006\226\006\266\006\326\006\366\006\025\0075\007U\007u\007e\007F\007&\007\006\007\346\006\307\006\247\006\207\006g\006H\006(\006\b\006\350\005\311\005\251\005\211\005i\005J\005*\005\n\005\352\004\313\004\253\004\213\004k\004L\004,\004\f\004\354\003\315\003\255\003\215\003m\003N\003.\003\016\003\356\002\036\003>\003^\003~\003\235\003\275\003\335\003\375\003\034\004<\004\\\004|\004\233\004\273\004\333\004\373\004\032\005:\005Z\005z\005\231\005\271\005\331\005\371\005\030\0068\006X\006x\006\227\006\267\006\327\006\367\006\026\0076\007V\007v\007f\007G\007'\007\007\007\347\006\310\006\250\006\210\006h\006I\006)\006\t\006\351\005\312\005\252\005\212\005j\005K\005+\005\013\005\353\004\314\004\254\004\214\004l\004M\004-\004\r\004\355\003\316\003\256\003\216\003n\003\236\003\276\003\336\003\376\003\035\004=\004]\004}\004\234\004\274\004\334\004\374\004\033\005;\005[\005{\005\232\005\272\005\332\005\372\005\031\0069\006Y\006y\006\230\006\270\006\330\006\370\006\027\0077\007W\007w\007g\007H\007(\007\b\007\350\006\311\006\251\006\211\006i\006J\006*\006\n\006\352\005\313\005\253\005\213\005k\005L\005,\005\f\005\354\004\315\004\255\004\215\004m\004N\004.\004\016\004\356\003\036\004>\004^\004~\004\235\004\275\004\335\004\375\004\034\005<\005\\\005|\005\233\005\273\005\333\005\373\005\032\006:\006Z\006z\006\231\006\271\006\331\006\371\006\030\0078\007X\007x\007h\007I\007)\007\t\007\351\006\312\006\252\006\212\006j\006K\006+\006\013\006\353\005\314\005\254\005\214\005l\005M\005-\005\r\005\355\004\316\004\256\004\216\004n\004\236\004\276\004\336\004\376\004\035\005=\005]\005}\005\234\005\274\005\334\005\374\005\033\006;\006[\006{\006\232\006\272\006\332\006\372\006\031\0079\007Y\007y\007i\007J\007*\007\n\007\352\006\313\006\253\006\213\006k\006L\006,\006\f\006\354\005\315\005\255\005\215\005m\005N\005.\005\016\005\356\004\036\005>\005^\005~\005\235\005\275\005\335\005\375\005\034\006<\006\\\006|\006\233\006\273\006\333\006\373\006\032\007:\007Z\007z\007j\007K\007+\007\013\007\353\006\314\006\254\006\214\006l\006M\006-\006\r\006\355\005\316\005\256\005\216\005n\005\236\005\276\005\336\005\376\005\035\006=\006]\006}\006\234\006\274\006\334\006\374\006\033\007;\007[\007{\007k\007L\007,\007\f\007\354\006\315\006\255\006\215\006m\006N\006.\006\016\006\356\005\036\006>\006^\006~\006\235\006\275\006\335\006\375\006\034\007<\007\\\007|\007l\007M\007-\007\r\007\355\006\316\006\256\006\216\006n\006\236\006\276\006\336\006\376\006\035\007=\007]\007}\007m\007N\007.\007\016\007\356\006\036\007>\007^\007~\007n\007"
	.size	.Lstatic.4, 3600

	.type	.Lstatic.5,@object
	.p2align	1, 0x0
.Lstatic.5:
	.size	.Lstatic.5, 0

	.type	.Lstatic.6,@object
	.section	.rodata.cst16,"aM",@progbits,16
	.p2align	1, 0x0
.Lstatic.6:
	.asciz	" \000\020\000\000\000\b\000\030\000(\0008\0000"
	.size	.Lstatic.6, 16

	.type	.Lstatic.7,@object
	.section	.rodata,"a",@progbits
	.p2align	1, 0x0
.Lstatic.7:
	.asciz	" \000\020\000\000\000\b\000\030\000(\0008\000@\0000\000!\0009\000H"
	.size	.Lstatic.7, 24

	.type	.Lstatic.8,@object
	.p2align	1, 0x0
.Lstatic.8:
	.asciz	" \000\020\000\000\000\b\000\030\000(\0008\000\300\001P\000@\0000\000!\000\021\000)\0009\000H\000X\000Q"
	.size	.Lstatic.8, 36

	.type	.Lstatic.9,@object
	.p2align	1, 0x0
.Lstatic.9:
	.asciz	" \000\020\000\000\000\b\000\030\000(\0008\000\300\001P\000@\0000\000!\000\021\000\031\000)\0009\000H\000X\000h\000a\000Q\000A\000Y\000i"
	.size	.Lstatic.9, 48

	.type	.Lstatic.10,@object
	.p2align	1, 0x0
.Lstatic.10:
	.asciz	" \000\020\000\000\000\b\000\030\000(\0008\000`\000P\000@\0000\000!\000\021\000\001\000\t\000\031\000)\0009\000H\000X\000h\000x\000p\000a\000Q\000A\0001\000I\000Y\000i\000y\000q"
	.size	.Lstatic.10, 64

	.type	.Lstatic.11,@object
	.p2align	1, 0x0
.Lstatic.11:
	.asciz	" \000\020\000\000\000\b\000\030\000(\0008\000`\000P\000@\0000\000!\000\021\000\001\000\t\000\031\000)\0009\000H\000X\000h\000x\000\200\000p\000a\000Q\000A\0001\000\"\000:\000I\000Y\000i\000y\000\210\000\201\000q\000b\000z\000\211"
	.size	.Lstatic.11, 80

	.type	.Lstatic.12,@object
	.p2align	1, 0x0
.Lstatic.12:
	.asciz	" \000\020\000\000\000\b\000\030\000(\0008\000`\000P\000@\0000\000!\000\021\000\001\000\t\000\031\000)\0009\000H\000X\000h\000x\000\300\001\220\000\200\000p\000a\000Q\000A\0001\000\"\000\022\000*\000:\000I\000Y\000i\000y\000\210\000\230\000\221\000\201\000q\000b\000R\000j\000z\000\211\000\231\000\222"
	.size	.Lstatic.12, 100

	.type	.Lstatic.13,@object
	.p2align	1, 0x0
.Lstatic.13:
	.asciz	" \000\020\000\000\000\b\000\030\000(\0008\000`\000P\000@\0000\000!\000\021\000\001\000\t\000\031\000)\0009\000H\000X\000h\000x\000\300\001\220\000\200\000p\000a\000Q\000A\0001\000\"\000\022\000\032\000*\000:\000I\000Y\000i\000y\000\210\000\230\000\250\000\241\000\221\000\201\000q\000b\000R\000B\000Z\000j\000z\000\211\000\231\000\251\000\242\000\222\000\202\000\232\000\252"
	.size	.Lstatic.13, 120

	.type	.Lstatic.14,@object
	.p2align	1, 0x0
.Lstatic.14:
	.asciz	" \000\020\000\000\000\b\000\030\000(\0008\000`\000P\000@\0000\000!\000\021\000\001\000\t\000\031\000)\0009\000H\000X\000h\000x\000\240\000\220\000\200\000p\000a\000Q\000A\0001\000\"\000\022\000\002\000\n\000\032\000*\000:\000I\000Y\000i\000y\000\210\000\230\000\250\000\270\000\260\000\241\000\221\000\201\000q\000b\000R\000B\0002\000J\000Z\000j\000z\000\211\000\231\000\251\000\271\000\261\000\242\000\222\000\202\000r\000\212\000\232\000\252\000\272\000\262"
	.size	.Lstatic.14, 144

	.type	.Lstatic.15,@object
	.p2align	1, 0x0
.Lstatic.15:
	.asciz	" \000\020\000\000\000\b\000\030\000(\0008\000`\000P\000@\0000\000!\000\021\000\001\000\t\000\031\000)\0009\000H\000X\000h\000x\000\240\000\220\000\200\000p\000a\000Q\000A\0001\000\"\000\022\000\002\000\n\000\032\000*\000:\000I\000Y\000i\000y\000\210\000\230\000\250\000\270\000\300\001\320\000\300\000\260\000\241\000\221\000\201\000q\000b\000R\000B\0002\000#\000\023\000+\000;\000J\000Z\000j\000z\000\211\000\231\000\251\000\271\000\310\000\330\000\321\000\301\000\261\000\242\000\222\000\202\000r\000c\000S\000k\000{\000\212\000\232\000\252\000\272\000\311\000\331\000\322\000\302\000\262\000\243\000\223\000\253\000\273\000\312\000\332\000\323"
	.size	.Lstatic.15, 196

	.type	.Lstatic.16,@object
	.p2align	1, 0x0
.Lstatic.16:
	.ascii	" \000\020\000\000\000\b\000\030\000(\0008\000`\000P\000@\0000\000!\000\021\000\001\000\t\000\031\000)\0009\000H\000X\000h\000x\000\240\000\220\000\200\000p\000a\000Q\000A\0001\000\"\000\022\000\002\000\n\000\032\000*\000:\000I\000Y\000i\000y\000\210\000\230\000\250\000\270\000\340\000\320\000\300\000\260\000\241\000\221\000\201\000q\000b\000R\000B\0002\000#\000\023\000\003\000\013\000\033\000+\000;\000J\000Z\000j\000z\000\211\000\231\000\251\000\271\000\310\000\330\000\350\000\370\000\300\001\020\001\000\001\360\000\341\000\321\000\301\000\261\000\242\000\222\000\202\000r\000c\000S\000C\0003\000$\000\024\000,\000<\000K\000[\000k\000{\000\212\000\232\000\252\000\272\000\311\000\331\000\351\000\371\000\b\001\030\001\021\001\001\001\361\000\342\000\322\000\302\000\262\000\243\000\223\000\203\000s\000d\000T\000l\000|\000\213\000\233\000\253\000\273\000\312\000\332\000\352\000\372\000\t\001\031\001\022\001\002\001\362\000\343\000\323\000\303\000\263\000\244\000\224\000\254\000\274\000\313\000\333\000\353\000\373\000\n\001\032\001\023\001\003\001\363\000\344\000\324\000\354\000\374\000\013\001\033\001\024\001"
	.size	.Lstatic.16, 324

	.type	.Lstatic.17,@object
	.p2align	1, 0x0
.Lstatic.17:
	.ascii	" \000\020\000\000\000\b\000\030\000(\0008\000`\000P\000@\0000\000!\000\021\000\001\000\t\000\031\000)\0009\000H\000X\000h\000x\000\240\000\220\000\200\000p\000a\000Q\000A\0001\000\"\000\022\000\002\000\n\000\032\000*\000:\000I\000Y\000i\000y\000\210\000\230\000\250\000\270\000\340\000\320\000\300\000\260\000\241\000\221\000\201\000q\000b\000R\000B\0002\000#\000\023\000\003\000\013\000\033\000+\000;\000J\000Z\000j\000z\000\211\000\231\000\251\000\271\000\310\000\330\000\350\000\370\000 \001\020\001\000\001\360\000\341\000\321\000\301\000\261\000\242\000\222\000\202\000r\000c\000S\000C\0003\000$\000\024\000\004\000\f\000\034\000,\000<\000K\000[\000k\000{\000\212\000\232\000\252\000\272\000\311\000\331\000\351\000\371\000\b\001\030\001(\0018\001\300\001P\001@\0010\001!\001\021\001\001\001\361\000\342\000\322\000\302\000\262\000\243\000\223\000\203\000s\000d\000T\000D\0004\000%\000\025\000-\000=\000L\000\\\000l\000|\000\213\000\233\000\253\000\273\000\312\000\332\000\352\000\372\000\t\001\031\001)\0019\001H\001X\001Q\001A\0011\001\"\001\022\001\002\001\362\000\343\000\323\000\303\000\263\000\244\000\224\000\204\000t\000e\000U\000m\000}\000\214\000\234\000\254\000\274\000\313\000\333\000\353\000\373\000\n\001\032\001*\001:\001I\001Y\001R\001B\0012\001#\001\023\001\003\001\363\000\344\000\324\000\304\000\264\000\245\000\225\000\255\000\275\000\314\000\334\000\354\000\374\000\013\001\033\001+\001;\001J\001Z\001S\001C\0013\001$\001\024\001\004\001\364\000\345\000\325\000\355\000\375\000\f\001\034\001,\001<\001K\001[\001T\001D\0014\001%\001\025\001-\001=\001L\001\\\001U\001"
	.size	.Lstatic.17, 484

	.type	.Lstatic.18,@object
	.p2align	1, 0x0
.Lstatic.18:
	.ascii	"@\000 \000\000\000\020\0000\000P\000p\000\300\000\240\000\200\000`\000A\000!\000\001\000\021\0001\000Q\000q\000\220\000\260\000\320\000\360\000@\001 \001\000\001\340\000\301\000\241\000\201\000a\000B\000\"\000\002\000\022\0002\000R\000r\000\221\000\261\000\321\000\361\000\020\0010\001P\001p\001\300\001\240\001\200\001`\001A\001!\001\001\001\341\000\302\000\242\000\202\000b\000C\000#\000\003\000\023\0003\000S\000s\000\222\000\262\000\322\000\362\000\021\0011\001Q\001q\001\220\001\260\001\320\001\360\001@\002 \002\000\002\340\001\301\001\241\001\201\001a\001B\001\"\001\002\001\342\000\303\000\243\000\203\000c\000D\000$\000\004\000\024\0004\000T\000t\000\223\000\263\000\323\000\363\000\022\0012\001R\001r\001\221\001\261\001\321\001\361\001\020\0020\002P\002p\002\300\002\240\002\200\002`\002A\002!\002\001\002\341\001\302\001\242\001\202\001b\001C\001#\001\003\001\343\000\304\000\244\000\204\000d\000E\000%\000\005\000\025\0005\000U\000u\000\224\000\264\000\324\000\364\000\023\0013\001S\001s\001\222\001\262\001\322\001\362\001\021\0021\002Q\002q\002\220\002\260\002\320\002\360\002@\003 \003\000\003\340\002\301\002\241\002\201\002a\002B\002\"\002\002\002\342\001\303\001\243\001\203\001c\001D\001$\001\004\001\344\000\305\000\245\000\205\000e\000F\000&\000\006\000\026\0006\000V\000v\000\225\000\265\000\325\000\365\000\024\0014\001T\001t\001\223\001\263\001\323\001\363\001\022\0022\002R\002r\002\221\002\261\002\321\002\361\002\020\0030\003P\003p\003\300\003\240\003\200\003`\003A\003!\003\001\003\341\002\302\002\242\002\202\002b\002C\002#\002\003\002\343\001\304\001\244\001\204\001d\001E\001%\001\005\001\345\000\306\000\246\000\206\000f\000G\000'\000\007\000\027\0007\000W\000w\000\226\000\266\000\326\000\366\000\025\0015\001U\001u\001\224\001\264\001\324\001\364\001\023\0023\002S\002s\002\222\002\262\002\322\002\362\002\021\0031\003Q\003q\003\220\003\260\003\320\003\360\003@\004 \004\000\004\340\003\301\003\241\003\201\003a\003B\003\"\003\002\003\342\002\303\002\243\002\203\002c\002D\002$\002\004\002\344\001\305\001\245\001\205\001e\001F\001&\001\006\001\346\000\307\000\247\000\207\000g\000H\000(\000\b\000\030\0008\000X\000x\000\227\000\267\000\327\000\367\000\026\0016\001V\001v\001\225\001\265\001\325\001\365\001\024\0024\002T\002t\002\223\002\263\002\323\002\363\002\022\0032\003R\003r\003\221\003\261\003\321\003\361\003\020\0040\004P\004p\004\300\004\240\004\200\004`\004A\004!\004\001\004\341\003\302\003\242\003\202\003b\003C\003#\003\003\003\343\002\304\002\244\002\204\002d\002E\002%\002\005\002\345\001\306\001\246\001\206\001f\001G\001'\001\007\001\347\000\310\000\250\000\210\000h\000I\000)\000\t\000\031\0009\000Y\000y\000\230\000\270\000\330\000\370\000\027\0017\001W\001w\001\226\001\266\001\326\001\366\001\025\0025\002U\002u\002\224\002\264\002\324\002\364\002\023\0033\003S\003s\003\222\003\262\003\322\003\362\003\021\0041\004Q\004q\004\220\004\260\004\320\004\360\004@\005 \005\000\005\340\004\301\004\241\004\201\004a\004B\004\"\004\002\004\342\003\303\003\243\003\203\003c\003D\003$\003\004\003\344\002\305\002\245\002\205\002e\002F\002&\002\006\002\346\001\307\001\247\001\207\001g\001H\001(\001\b\001\350\000\311\000\251\000\211\000i\000J\000*\000\n\000\032\000:\000Z\000z\000\231\000\271\000\331\000\371\000\030\0018\001X\001x\001\227\001\267\001\327\001\367\001\026\0026\002V\002v\002\225\002\265\002\325\002\365\002\024\0034\003T\003t\003\223\003\263\003\323\003\363\003\022\0042\004R\004r\004\221\004\261\004\321\004\361\004\020\0050\005P\005p\005\300\005\240\005\200\005`\005A\005!\005\001\005\341\004\302\004\242\004\202\004b\004C\004#\004\003\004\343\003\304\003\244\003\204\003d\003E\003%\003\005\003\345\002\306\002\246\002\206\002f\002G\002'\002\007\002\347\001\310\001\250\001\210\001h\001I\001)\001\t\001\351\000\312\000\252\000\212\000j\000K\000+\000\013\000\033\000;\000[\000{\000\232\000\272\000\332\000\372\000\031\0019\001Y\001y\001\230\001\270\001\330\001\370\001\027\0027\002W\002w\002\226\002\266\002\326\002\366\002\025\0035\003U\003u\003\224\003\264\003\324\003\364\003\023\0043\004S\004s\004\222\004\262\004\322\004\362\004\021\0051\005Q\005q\005\220\005\260\005\320\005\360\005@\006 \006\000\006\340\005\301\005\241\005\201\005a\005B\005\"\005\002\005\342\004\303\004\243\004\203\004c\004D\004$\004\004\004\344\003\305\003\245\003\205\003e\003F\003&\003\006\003\346\002\307\002\247\002\207\002g\002H\002(\002\b\002\350\001\311\001\251\001\211\001i\001J\001*\001\n\001\352\000\313\000\253\000\213\000k\000L\000,\000\f\000\034\000<\000\\\000|\000\233\000\273\000\333\000\373\000\032\001:\001Z\001z\001\231\001\271\001\331\001\371\001\030\0028\002X\002x\002\227\002\267\002\327\002\367\002\026\0036\003V\003v\003\225\003\265\003\325\003\365\003\024\0044\004T\004t\004\223\004\263\004\323\004\363\004\022\0052\005R\005r\005\221\005\261\005\321\005\361\005\020\0060\006P\006p\006\200\007\240\006\200\006`\006A\006!\006\001\006\341\005\302\005\242\005\202\005b\005C\005#\005\003\005\343\004\304\004\244\004\204\004d\004E\004%\004\005\004\345\003\306\003\246\003\206\003f\003G\003'\003\007\003\347\002\310\002\250\002\210\002h\002I\002)\002\t\002\351\001\312\001\252\001\212\001j\001K\001+\001\013\001\353\000\314\000\254\000\214\000l\000M\000-\000]\000}\000\234\000\274\000\334\000\374\000\033\001;\001[\001{\001\232\001\272\001\332\001\372\001\031\0029\002Y\002y\002\230\002\270\002\330\002\370\002\027\0037\003W\003w\003\226\003\266\003\326\003\366\003\025\0045\004U\004u\004\224\004\264\004\324\004\364\004\023\0053\005S\005s\005\222\005\262\005\322\005\362\005\021\0061\006Q\006q\006\220\006\260\006\241\006\201\006a\006B\006\"\006\002\006\342\005\303\005\243\005\203\005c\005D\005$\005\004\005\344\004\305\004\245\004\205\004e\004F\004&\004\006\004\346\003\307\003\247\003\207\003g\003H\003(\003\b\003\350\002\311\002\251\002\211\002i\002J\002*\002\n\002\352\001\313\001\253\001\213\001k\001L\001,\001\f\001\354\000\315\000\255\000\335\000\375\000\034\001<\001\\\001|\001\233\001\273\001\333\001\373\001\032\002:\002Z\002z\002\231\002\271\002\331\002\371\002\030\0038\003X\003x\003\227\003\267\003\327\003\367\003\026\0046\004V\004v\004\225\004\265\004\325\004\365\004\024\0054\005T\005t\005\223\005\263\005\323\005\363\005\022\0062\006R\006r\006\221\006\261\006\242\006\202\006b\006C\006#\006\003\006\343\005\304\005\244\005\204\005d\005E\005%\005\005\005\345\004\306\004\246\004\206\004f\004G\004'\004\007\004\347\003\310\003\250\003\210\003h\003I\003)\003\t\003\351\002\312\002\252\002\212\002j\002K\002+\002\013\002\353\001\314\001\254\001\214\001l\001M\001-\001]\001}\001\234\001\274\001\334\001\374\001\033\002;\002[\002{\002\232\002\272\002\332\002\372\002\031\0039\003Y\003y\003\230\003\270\003\330\003\370\003\027\0047\004W\004w\004\226\004\266\004\326\004\366\004\025\0055\005U\005u\005\224\005\264\005\324\005\364\005\023\0063\006S\006s\006\222\006\262\006\243\006\203\006c\006D\006$\006\004\006\344\005\305\005\245\005\205\005e\005F\005&\005\006\005\346\004\307\004\247\004\207\004g\004H\004(\004\b\004\350\003\311\003\251\003\211\003i\003J\003*\003\n\003\352\002\313\002\253\002\213\002k\002L\002,\002\f\002\354\001\315\001\255\001\335\001\375\001\034\002<\002\\\002|\002\233\002\273\002\333\002\373\002\032\003:\003Z\003z\003\231\003\271\003\331\003\371\003\030\0048\004X\004x\004\227\004\267\004\327\004\367\004\026\0056\005V\005v\005\225\005\265\005\325\005\365\005\024\0064\006T\006t\006\223\006\263\006\244\006\204\006d\006E\006%\006\005\006\345\005\306\005\246\005\206\005f\005G\005'\005\007\005\347\004\310\004\250\004\210\004h\004I\004)\004\t\004\351\003\312\003\252\003\212\003j\003K\003+\003\013\003\353\002\314\002\254\002\214\002l\002M\002-\002]\002}\002\234\002\274\002\334\002\374\002\033\003;\003[\003{\003\232\003\272\003\332\003\372\003\031\0049\004Y\004y\004\230\004\270\004\330\004\370\004\027\0057\005W\005w\005\226\005\266\005\326\005\366\005\025\0065\006U\006u\006\224\006\264\006\245\006\205\006e\006F\006&\006\006\006\346\005\307\005\247\005\207\005g\005H\005(\005\b\005\350\004\311\004\251\004\211\004i\004J\004*\004\n\004\352\003\313\003\253\003\213\003k\003L\003,\003\f\003\354\002\315\002\255\002\335\002\375\002\034\003<\003\\\003|\003\233\003\273\003\333\003\373\003\032\004:\004Z\004z\004\231\004\271\004\331\004\371\004\030\0058\005X\005x\005\227\005\267\005\327\005\367\005\026\0066\006V\006v\006\225\006\265\006\246\006\206\006f\006G\006'\006\007\006\347\005\310\005\250\005\210\005h\005I\005)\005\t\005\351\004\312\004\252\004\212\004j\004K\004+\004\013\004\353\003\314\003\254\003\214\003l\003M\003-\003]\003}\003\234\003\274\003\334\003\374\003\033\004;\004[\004{\004\232\004\272\004\332\004\372\004\031\0059\005Y\005y\005\230\005\270\005\330\005\370\005\027\0067\006W\006w\006\226\006\266\006\247\006\207\006g\006H\006(\006\b\006\350\005\311\005\251\005\211\005i\005J\005*\005\n\005\352\004\313\004\253\004\213\004k\004L\004,\004\f\004\354\003\315\003\255\003\335\003\375\003\034\004<\004\\\004|\004\233\004\273\004\333\004\373\004\032\005:\005Z\005z\005\231\005\271\005\331\005\371\005\030\0068\006X\006x\006\227\006\267\006\250\006\210\006h\006I\006)\006\t\006\351\005\312\005\252\005\212\005j\005K\005+\005\013\005\353\004\314\004\254\004\214\004l\004M\004-\004]\004}\004\234\004\274\004\334\004\374\004\033\005;\005[\005{\005\232\005\272\005\332\005\372\005\031\0069\006Y\006y\006\230\006\270\006\251\006\211\006i\006J\006*\006\n\006\352\005\313\005\253\005\213\005k\005L\005,\005\f\005\354\004\315\004\255\004\335\004\375\004\034\005<\005\\\005|\005\233\005\273\005\333\005\373\005\032\006:\006Z\006z\006\231\006\271\006\252\006\212\006j\006K\006+\006\013\006\353\005\314\005\254\005\214\005l\005M\005-\005]\005}\005\234\005\274\005\334\005\374\005\033\006;\006[\006{\006\232\006\272\006\253\006\213\006k\006L\006,\006\f\006\354\005\315\005\255\005\335\005\375\005\034\006<\006\\\006|\006\233\006\273\006\254\006\214\006l\006M\006-\006]\006}\006\234\006\274\006\255\006"
	.size	.Lstatic.18, 2916

	.type	.Lstatic.19,@object
	.p2align	1, 0x0
.Lstatic.19:
	.ascii	"\200\000@\000\000\000 \000`\000\240\000\340\000\200\001@\001\000\001\300\000\201\000A\000\001\000!\000a\000\241\000\341\000 \001`\001\240\001\340\001\200\002@\002\000\002\300\001\201\001A\001\001\001\301\000\202\000B\000\002\000\"\000b\000\242\000\342\000!\001a\001\241\001\341\001 \002`\002\240\002\340\002\200\003@\003\000\003\300\002\201\002A\002\001\002\301\001\202\001B\001\002\001\302\000\203\000C\000\003\000#\000c\000\243\000\343\000\"\001b\001\242\001\342\001!\002a\002\241\002\341\002 \003`\003\240\003\340\003\200\004@\004\000\004\300\003\201\003A\003\001\003\301\002\202\002B\002\002\002\302\001\203\001C\001\003\001\303\000\204\000D\000\004\000$\000d\000\244\000\344\000#\001c\001\243\001\343\001\"\002b\002\242\002\342\002!\003a\003\241\003\341\003 \004`\004\240\004\340\004\200\005@\005\000\005\300\004\201\004A\004\001\004\301\003\202\003B\003\002\003\302\002\203\002C\002\003\002\303\001\204\001D\001\004\001\304\000\205\000E\000\005\000%\000e\000\245\000\345\000$\001d\001\244\001\344\001#\002c\002\243\002\343\002\"\003b\003\242\003\342\003!\004a\004\241\004\341\004 \005`\005\240\005\340\005\200\006@\006\000\006\300\005\201\005A\005\001\005\301\004\202\004B\004\002\004\302\003\203\003C\003\003\003\303\002\204\002D\002\004\002\304\001\205\001E\001\005\001\305\000\206\000F\000\006\000&\000f\000\246\000\346\000%\001e\001\245\001\345\001$\002d\002\244\002\344\002#\003c\003\243\003\343\003\"\004b\004\242\004\342\004!\005a\005\241\005\341\005 \006`\006\240\006\340\006\200\007@\007\000\007\300\006\201\006A\006\001\006\301\005\202\005B\005\002\005\302\004\203\004C\004\003\004\303\003\204\003D\003\004\003\304\002\205\002E\002\005\002\305\001\206\001F\001\006\001\306\000\207\000G\000\007\000'\000g\000\247\000\347\000&\001f\001\246\001\346\001%\002e\002\245\002\345\002$\003d\003\244\003\344\003#\004c\004\243\004\343\004\"\005b\005\242\005\342\005!\006a\006\241\006\341\006 \007`\007\240\007\340\007\200\b@\b\000\b\300\007\201\007A\007\001\007\301\006\202\006B\006\002\006\302\005\203\005C\005\003\005\303\004\204\004D\004\004\004\304\003\205\003E\003\005\003\305\002\206\002F\002\006\002\306\001\207\001G\001\007\001\307\000\210\000H\000\b\000(\000h\000\250\000\350\000'\001g\001\247\001\347\001&\002f\002\246\002\346\002%\003e\003\245\003\345\003$\004d\004\244\004\344\004#\005c\005\243\005\343\005\"\006b\006\242\006\342\006!\007a\007\241\007\341\007 \b`\b\240\b\340\b\200\t@\t\000\t\300\b\201\bA\b\001\b\301\007\202\007B\007\002\007\302\006\203\006C\006\003\006\303\005\204\005D\005\004\005\304\004\205\004E\004\005\004\305\003\206\003F\003\006\003\306\002\207\002G\002\007\002\307\001\210\001H\001\b\001\310\000\211\000I\000\t\000)\000i\000\251\000\351\000(\001h\001\250\001\350\001'\002g\002\247\002\347\002&\003f\003\246\003\346\003%\004e\004\245\004\345\004$\005d\005\244\005\344\005#\006c\006\243\006\343\006\"\007b\007\242\007\342\007!\ba\b\241\b\341\b \t`\t\240\t\340\t\200\n@\n\000\n\300\t\201\tA\t\001\t\301\b\202\bB\b\002\b\302\007\203\007C\007\003\007\303\006\204\006D\006\004\006\304\005\205\005E\005\005\005\305\004\206\004F\004\006\004\306\003\207\003G\003\007\003\307\002\210\002H\002\b\002\310\001\211\001I\001\t\001\311\000\212\000J\000\n\000*\000j\000\252\000\352\000)\001i\001\251\001\351\001(\002h\002\250\002\350\002'\003g\003\247\003\347\003&\004f\004\246\004\346\004%\005e\005\245\005\345\005$\006d\006\244\006\344\006#\007c\007\243\007\343\007\"\bb\b\242\b\342\b!\ta\t\241\t\341\t \n`\n\240\n\340\n\200\013@\013\000\013\300\n\201\nA\n\001\n\301\t\202\tB\t\002\t\302\b\203\bC\b\003\b\303\007\204\007D\007\004\007\304\006\205\006E\006\005\006\305\005\206\005F\005\006\005\306\004\207\004G\004\007\004\307\003\210\003H\003\b\003\310\002\211\002I\002\t\002\311\001\212\001J\001\n\001\312\000\213\000K\000\013\000+\000k\000\253\000\353\000*\001j\001\252\001\352\001)\002i\002\251\002\351\002(\003h\003\250\003\350\003'\004g\004\247\004\347\004&\005f\005\246\005\346\005%\006e\006\245\006\345\006$\007d\007\244\007\344\007#\bc\b\243\b\343\b\"\tb\t\242\t\342\t!\na\n\241\n\341\n \013`\013\240\013\340\013\200\f@\f\000\f\300\013\201\013A\013\001\013\301\n\202\nB\n\002\n\302\t\203\tC\t\003\t\303\b\204\bD\b\004\b\304\007\205\007E\007\005\007\305\006\206\006F\006\006\006\306\005\207\005G\005\007\005\307\004\210\004H\004\b\004\310\003\211\003I\003\t\003\311\002\212\002J\002\n\002\312\001\213\001K\001\013\001\313\000\214\000L\000\f\000,\000l\000\254\000\354\000+\001k\001\253\001\353\001*\002j\002\252\002\352\002)\003i\003\251\003\351\003(\004h\004\250\004\350\004'\005g\005\247\005\347\005&\006f\006\246\006\346\006%\007e\007\245\007\345\007$\bd\b\244\b\344\b#\tc\t\243\t\343\t\"\nb\n\242\n\342\n!\013a\013\241\013\341\013 \f`\f\240\f\340\f\200\r@\r\000\r\300\f\201\fA\f\001\f\301\013\202\013B\013\002\013\302\n\203\nC\n\003\n\303\t\204\tD\t\004\t\304\b\205\bE\b\005\b\305\007\206\007F\007\006\007\306\006\207\006G\006\007\006\307\005\210\005H\005\b\005\310\004\211\004I\004\t\004\311\003\212\003J\003\n\003\312\002\213\002K\002\013\002\313\001\214\001L\001\f\001\314\000\215\000M\000\r\000-\000m\000\255\000\355\000,\001l\001\254\001\354\001+\002k\002\253\002\353\002*\003j\003\252\003\352\003)\004i\004\251\004\351\004(\005h\005\250\005\350\005'\006g\006\247\006\347\006&\007f\007\246\007\346\007%\be\b\245\b\345\b$\td\t\244\t\344\t#\nc\n\243\n\343\n\"\013b\013\242\013\342\013!\fa\f\241\f\341\f \r`\r\240\r\340\r\200\016@\016\000\016\300\r\201\rA\r\001\r\301\f\202\fB\f\002\f\302\013\203\013C\013\003\013\303\n\204\nD\n\004\n\304\t\205\tE\t\005\t\305\b\206\bF\b\006\b\306\007\207\007G\007\007\007\307\006\210\006H\006\b\006\310\005\211\005I\005\t\005\311\004\212\004J\004\n\004\312\003\213\003K\003\013\003\313\002\214\002L\002\f\002\314\001\215\001M\001\r\001\315\000\216\000N\000\016\000.\000n\000\256\000\356\000-\001m\001\255\001\355\001,\002l\002\254\002\354\002+\003k\003\253\003\353\003*\004j\004\252\004\352\004)\005i\005\251\005\351\005(\006h\006\250\006\350\006'\007g\007\247\007\347\007&\bf\b\246\b\346\b%\te\t\245\t\345\t$\nd\n\244\n\344\n#\013c\013\243\013\343\013\"\fb\f\242\f\342\f!\ra\r\241\r\341\r \016`\016\240\016\340\016\200\017@\017\000\017\300\016\201\016A\016\001\016\301\r\202\rB\r\002\r\302\f\203\fC\f\003\f\303\013\204\013D\013\004\013\304\n\205\nE\n\005\n\305\t\206\tF\t\006\t\306\b\207\bG\b\007\b\307\007\210\007H\007\b\007\310\006\211\006I\006\t\006\311\005\212\005J\005\n\005\312\004\213\004K\004\013\004\313\003\214\003L\003\f\003\314\002\215\002M\002\r\002\315\001\216\001N\001\016\001\316\000\217\000O\000\017\000/\000o\000\257\000\357\000.\001n\001\256\001\356\001-\002m\002\255\002\355\002,\003l\003\254\003\354\003+\004k\004\253\004\353\004*\005j\005\252\005\352\005)\006i\006\251\006\351\006(\007h\007\250\007\350\007'\bg\b\247\b\347\b&\tf\t\246\t\346\t%\ne\n\245\n\345\n$\013d\013\244\013\344\013#\fc\f\243\f\343\f\"\rb\r\242\r\342\r!\016a\016\241\016\341\016 \017`\017\240\017\340\017\200\020@\020\000\020\300\017\201\017A\017\001\017\301\016\202\016B\016\002\016\302\r\203\rC\r\003\r\303\f\204\fD\f\004\f\304\013\205\013E\013\005\013\305\n\206\nF\n\006\n\306\t\207\tG\t\007\t\307\b\210\bH\b\b\b\310\007\211\007I\007\t\007\311\006\212\006J\006\n\006\312\005\213\005K\005\013\005\313\004\214\004L\004\f\004\314\003\215\003M\003\r\003\315\002\216\002N\002\016\002\316\001\217\001O\001\017\001\317\000\220\000P\000\260\000\360\000/\001o\001\257\001\357\001.\002n\002\256\002\356\002-\003m\003\255\003\355\003,\004l\004\254\004\354\004+\005k\005\253\005\353\005*\006j\006\252\006\352\006)\007i\007\251\007\351\007(\bh\b\250\b\350\b'\tg\t\247\t\347\t&\nf\n\246\n\346\n%\013e\013\245\013\345\013$\fd\f\244\f\344\f#\rc\r\243\r\343\r\"\016b\016\242\016\342\016!\017a\017\241\017\341\017 \020`\020A\020\001\020\301\017\202\017B\017\002\017\302\016\203\016C\016\003\016\303\r\204\rD\r\004\r\304\f\205\fE\f\005\f\305\013\206\013F\013\006\013\306\n\207\nG\n\007\n\307\t\210\tH\t\b\t\310\b\211\bI\b\t\b\311\007\212\007J\007\n\007\312\006\213\006K\006\013\006\313\005\214\005L\005\f\005\314\004\215\004M\004\r\004\315\003\216\003N\003\016\003\316\002\217\002O\002\017\002\317\001\220\001P\001\260\001\360\001/\002o\002\257\002\357\002.\003n\003\256\003\356\003-\004m\004\255\004\355\004,\005l\005\254\005\354\005+\006k\006\253\006\353\006*\007j\007\252\007\352\007)\bi\b\251\b\351\b(\th\t\250\t\350\t'\ng\n\247\n\347\n&\013f\013\246\013\346\013%\fe\f\245\f\345\f$\rd\r\244\r\344\r#\016c\016\243\016\343\016\"\017b\017\242\017\342\017!\020a\020B\020\002\020\302\017\203\017C\017\003\017\303\016\204\016D\016\004\016\304\r\205\rE\r\005\r\305\f\206\fF\f\006\f\306\013\207\013G\013\007\013\307\n\210\nH\n\b\n\310\t\211\tI\t\t\t\311\b\212\bJ\b\n\b\312\007\213\007K\007\013\007\313\006\214\006L\006\f\006\314\005\215\005M\005\r\005\315\004\216\004N\004\016\004\316\003\217\003O\003\017\003\317\002\220\002P\002\260\002\360\002/\003o\003\257\003\357\003.\004n\004\256\004\356\004-\005m\005\255\005\355\005,\006l\006\254\006\354\006+\007k\007\253\007\353\007*\bj\b\252\b\352\b)\ti\t\251\t\351\t(\nh\n\250\n\350\n'\013g\013\247\013\347\013&\ff\f\246\f\346\f%\re\r\245\r\345\r$\016d\016\244\016\344\016#\017c\017\243\017\343\017\"\020b\020C\020\003\020\303\017\204\017D\017\004\017\304\016\205\016E\016\005\016\305\r\206\rF\r\006\r\306\f\207\fG\f\007\f\307\013\210\013H\013\b\013\310\n\211\nI\n\t\n\311\t\212\tJ\t\n\t\312\b\213\bK\b\013\b\313\007\214\007L\007\f\007\314\006\215\006M\006\r\006\315\005\216\005N\005\016\005\316\004\217\004O\004\017\004\317\003\220\003P\003\260\003\360\003/\004o\004\257\004\357\004.\005n\005\256\005\356\005-\006m\006\255\006\355\006,\007l\007\254\007\354\007+\bk\b\253\b\353\b*\tj\t\252\t\352\t)\ni\n\251\n\351\n(\013h\013\250\013\350\013'\fg\f\247\f\347\f&\rf\r\246\r\346\r%\016e\016\245\016\345\016$\017d\017\244\017\344\017#\020c\020D\020\004\020\304\017\205\017E\017\005\017\305\016\206\016F\016\006\016\306\r\207\rG\r\007\r\307\f\210\fH\f\b\f\310\013\211\013I\013\t\013\311\n\212\nJ\n\n\n\312\t\213\tK\t\013\t\313\b\214\bL\b\f\b\314\007\215\007M\007\r\007\315\006\216\006N\006\016\006\316\005\217\005O\005\017\005\317\004\220\004P\004\260\004\360\004/\005o\005\257\005\357\005.\006n\006\256\006\356\006-\007m\007\255\007\355\007,\bl\b\254\b\354\b+\tk\t\253\t\353\t*\nj\n\252\n\352\n)\013i\013\251\013\351\013(\fh\f\250\f\350\f'\rg\r\247\r\347\r&\016f\016\246\016\346\016%\017e\017\245\017\345\017$\020d\020E\020\005\020\305\017\206\017F\017\006\017\306\016\207\016G\016\007\016\307\r\210\rH\r\b\r\310\f\211\fI\f\t\f\311\013\212\013J\013\n\013\312\n\213\nK\n\013\n\313\t\214\tL\t\f\t\314\b\215\bM\b\r\b\315\007\216\007N\007\016\007\316\006\217\006O\006\017\006\317\005\220\005P\005\260\005\360\005/\006o\006\257\006\357\006.\007n\007\256\007\356\007-\bm\b\255\b\355\b,\tl\t\254\t\354\t+\nk\n\253\n\353\n*\013j\013\252\013\352\013)\fi\f\251\f\351\f(\rh\r\250\r\350\r'\016g\016\247\016\347\016&\017f\017\246\017\346\017%\020e\020F\020\006\020\306\017\207\017G\017\007\017\307\016\210\016H\016\b\016\310\r\211\rI\r\t\r\311\f\212\fJ\f\n\f\312\013\213\013K\013\013\013\313\n\214\nL\n\f\n\314\t\215\tM\t\r\t\315\b\216\bN\b\016\b\316\007\217\007O\007\017\007\317\006\220\006P\006\260\006\360\006/\007o\007\257\007\357\007.\bn\b\256\b\356\b-\tm\t\255\t\355\t,\nl\n\254\n\354\n+\013k\013\253\013\353\013*\fj\f\252\f\352\f)\ri\r\251\r\351\r(\016h\016\250\016\350\016'\017g\017\247\017\347\017&\020f\020G\020\007\020\307\017\210\017H\017\b\017\310\016\211\016I\016\t\016\311\r\212\rJ\r\n\r\312\f\213\fK\f\013\f\313\013\214\013L\013\f\013\314\n\215\nM\n\r\n\315\t\216\tN\t\016\t\316\b\217\bO\b\017\b\317\007\220\007P\007\260\007\360\007/\bo\b\257\b\357\b.\tn\t\256\t\356\t-\nm\n\255\n\355\n,\013l\013\254\013\354\013+\fk\f\253\f\353\f*\rj\r\252\r\352\r)\016i\016\251\016\351\016(\017h\017\250\017\350\017'\020g\020H\020\b\020\310\017\211\017I\017\t\017\311\016\212\016J\016\n\016\312\r\213\rK\r\013\r\313\f\214\fL\f\f\f\314\013\215\013M\013\r\013\315\n\216\nN\n\016\n\316\t\217\tO\t\017\t\317\b\220\bP\b\260\b\360\b/\to\t\257\t\357\t.\nn\n\256\n\356\n-\013m\013\255\013\355\013,\fl\f\254\f\354\f+\rk\r\253\r\353\r*\016j\016\252\016\352\016)\017i\017\251\017\351\017(\020h\020I\020\t\020\311\017\212\017J\017\n\017\312\016\213\016K\016\013\016\313\r\214\rL\r\f\r\314\f\215\fM\f\r\f\315\013\216\013N\013\016\013\316\n\217\nO\n\017\n\317\t\220\tP\t\260\t\360\t/\no\n\257\n\357\n.\013n\013\256\013\356\013-\fm\f\255\f\355\f,\rl\r\254\r\354\r+\016k\016\253\016\353\016*\017j\017\252\017\352\017)\020i\020J\020\n\020\312\017\213\017K\017\013\017\313\016\214\016L\016\f\016\314\r\215\rM\r\r\r\315\f\216\fN\f\016\f\316\013\217\013O\013\017\013\317\n\220\nP\n\260\n\360\n/\013o\013\257\013\357\013.\fn\f\256\f\356\f-\rm\r\255\r\355\r,\016l\016\254\016\354\016+\017k\017\253\017\353\017*\020j\020K\020\013\020\313\017\214\017L\017\f\017\314\016\215\016M\016\r\016\315\r\216\rN\r\016\r\316\f\217\fO\f\017\f\317\013\220\013P\013\260\013\360\013/\fo\f\257\f\357\f.\rn\r\256\r\356\r-\016m\016\255\016\355\016,\017l\017\254\017\354\017+\020k\020L\020\f\020\314\017\215\017M\017\r\017\315\016\216\016N\016\016\016\316\r\217\rO\r\017\r\317\f\220\fP\f\260\f\360\f/\ro\r\257\r\357\r.\016n\016\256\016\356\016-\017m\017\255\017\355\017,\020l\020M\020\r\020\315\017\216\017N\017\016\017\316\016\217\016O\016\017\016\317\r\220\rP\r\260\r\360\r/\016o\016\257\016\357\016.\017n\017\256\017\356\017-\020m\020N\020\016\020\316\017\217\017O\017\017\017\317\016\220\016P\016\260\016\360\016/\017o\017\257\017\357\017.\020n\020O\020\017\020\317\017\220\017P\017\260\017\360\017/\020o\020P\020"
	.size	.Lstatic.19, 4356

	.type	.Lstatic.20,@object
	.p2align	1, 0x0
.Lstatic.20:
	.asciz	" \000\020\000\000\000\b\000\030\000(\000\300\001!\000\021\000\001\000\031\000)"
	.size	.Lstatic.20, 24

	.type	.Lstatic.21,@object
	.p2align	1, 0x0
.Lstatic.21:
	.asciz	"\300\001\020\000\000\000\b\000\030\000(\000!\000\021\000\001\000\t\000\031\000)\000\"\000\022\000\002\000\n\000\032\000*\000#\000\023\000+"
	.size	.Lstatic.21, 42

	.type	.Lstatic.22,@object
	.p2align	1, 0x0
.Lstatic.22:
	.asciz	"\300\001\020\000\000\000\b\000\030\000(\000!\000\021\000\001\000\t\000\031\000)\000\"\000\022\000\002\000\n\000\032\000*\000#\000\023\000\003\000\013\000\033\000+\000$\000\024\000\004\000\f\000\034\000,\000%\000\025\000-"
	.size	.Lstatic.22, 66

	.type	.Lstatic.23,@object
	.p2align	1, 0x0
.Lstatic.23:
	.asciz	" \000\020\000\000\000\b\000\030\000(\000\300\001!\000\021\000\001\000\t\000\031\000)\000\"\000\022\000\002\000\n\000\032\000*\000#\000\023\000\003\000\013\000\033\000+\000$\000\024\000\004\000\f\000\034\000,\000%\000\025\000\005\000\r\000\035\000-\000&\000\026\000\006\000\036\000."
	.size	.Lstatic.23, 84

	.type	.Lstatic.24,@object
	.p2align	1, 0x0
.Lstatic.24:
	.asciz	"@\000 \000\000\000\020\0000\000P\000\200\007A\000!\000\001\000\021\0001\000Q\000B\000\"\000\002\000\022\0002\000R\000C\000#\000\003\000\023\0003\000S\000D\000$\000\004\000\024\0004\000T\000E\000%\000\005\000\025\0005\000U\000F\000&\000\006\000\026\0006\000V\000G\000'\000\007\000\027\0007\000W\000H\000(\000\b\0008\000X"
	.size	.Lstatic.24, 108

	.type	.Lstatic.25,@object
	.p2align	1, 0x0
.Lstatic.25:
	.asciz	"@\000 \000\000\000\020\0000\000P\000\200\007A\000!\000\001\000\021\0001\000Q\000B\000\"\000\002\000\022\0002\000R\000C\000#\000\003\000\023\0003\000S\000D\000$\000\004\000\024\0004\000T\000E\000%\000\005\000\025\0005\000U\000F\000&\000\006\000\026\0006\000V\000G\000'\000\007\000\027\0007\000W\000H\000(\000\b\000\030\0008\000X\000I\000)\000\t\000\031\0009\000Y\000J\000*\000\n\000:\000Z"
	.size	.Lstatic.25, 132

	.type	.Lstatic.26,@object
	.p2align	1, 0x0
.Lstatic.26:
	.asciz	"\200\007 \000\000\000\020\0000\000P\000A\000!\000\001\000\021\0001\000Q\000B\000\"\000\002\000\022\0002\000R\000C\000#\000\003\000\023\0003\000S\000D\000$\000\004\000\024\0004\000T\000E\000%\000\005\000\025\0005\000U\000F\000&\000\006\000\026\0006\000V\000G\000'\000\007\000\027\0007\000W\000H\000(\000\b\000\030\0008\000X\000I\000)\000\t\000\031\0009\000Y\000J\000*\000\n\000\032\000:\000Z\000K\000+\000\013\000\033\000;\000[\000L\000,\000\f\000\034\000<\000\\\000M\000-\000]"
	.size	.Lstatic.26, 162

	.type	.Lstatic.27,@object
	.p2align	1, 0x0
.Lstatic.27:
	.asciz	"\200\020@\000\000\000 \000`\000\240\000\201\000A\000\001\000!\000a\000\241\000\202\000B\000\002\000\"\000b\000\242\000\203\000C\000\003\000#\000c\000\243\000\204\000D\000\004\000$\000d\000\244\000\205\000E\000\005\000%\000e\000\245\000\206\000F\000\006\000&\000f\000\246\000\207\000G\000\007\000'\000g\000\247\000\210\000H\000\b\000(\000h\000\250\000\211\000I\000\t\000)\000i\000\251\000\212\000J\000\n\000*\000j\000\252\000\213\000K\000\013\000+\000k\000\253\000\214\000L\000\f\000,\000l\000\254\000\215\000M\000\r\000-\000m\000\255\000\216\000N\000\016\000.\000n\000\256\000\217\000O\000\017\000/\000o\000\257\000\220\000P\000\260"
	.size	.Lstatic.27, 198

	.type	.Lstatic.28,@object
	.p2align	1, 0x0
.Lstatic.28:
	.asciz	" \000\020\000\000\000\b\000\030\000(\0008\000@\0000\000!\000\021\000\001\000\t\000\031\000)\0009\000H\000A\0001\000\"\000\022\000\002\000\n\000\032\000*\000:\000I\000B\0002\000J"
	.size	.Lstatic.28, 60

	.type	.Lstatic.29,@object
	.p2align	1, 0x0
.Lstatic.29:
	.asciz	" \000\020\000\000\000\b\000\030\000(\0008\000@\0000\000!\000\021\000\001\000\t\000\031\000)\0009\000H\000A\0001\000\"\000\022\000\002\000\n\000\032\000*\000:\000I\000B\0002\000#\000\023\000\003\000\013\000\033\000+\000;\000J\000C\0003\000K"
	.size	.Lstatic.29, 80

	.type	.Lstatic.30,@object
	.p2align	1, 0x0
.Lstatic.30:
	.asciz	" \000\020\000\000\000\b\000\030\000(\0008\000@\0000\000!\000\021\000\001\000\t\000\031\000)\0009\000H\000A\0001\000\"\000\022\000\002\000\n\000\032\000*\000:\000I\000B\0002\000#\000\023\000\003\000\013\000\033\000+\000;\000J\000C\0003\000$\000\024\000\004\000\f\000\034\000,\000<\000K\000D\0004\000%\000\025\000\005\000\r\000\035\000-\000=\000L\000E\0005\000&\000\026\000\006\000\016\000\036\000.\000>\000M\000F\0006\000N"
	.size	.Lstatic.30, 140

	.type	.Lstatic.31,@object
	.p2align	1, 0x0
.Lstatic.31:
	.asciz	"@\000 \000\000\000\020\0000\000P\000p\000\200\000`\000A\000!\000\001\000\021\0001\000Q\000q\000\220\000\201\000a\000B\000\"\000\002\000\022\0002\000R\000r\000\221\000\202\000b\000C\000#\000\003\000\023\0003\000S\000s\000\222\000\203\000c\000D\000$\000\004\000\024\0004\000T\000t\000\223\000\204\000d\000E\000%\000\005\000\025\0005\000U\000u\000\224\000\205\000e\000F\000&\000\006\000\026\0006\000V\000v\000\225\000\206\000f\000G\000'\000\007\000\027\0007\000W\000w\000\226\000\207\000g\000H\000(\000\b\000\030\0008\000X\000x\000\227\000\210\000h\000I\000)\000\t\000\031\0009\000Y\000y\000\230\000\211\000i\000\231"
	.size	.Lstatic.31, 200

	.type	.Lstatic.32,@object
	.p2align	1, 0x0
.Lstatic.32:
	.asciz	" \000\020\000\000\000\b\000\030\000(\0008\000`\000P\000@\0000\000!\000\021\000\001\000\t\000\031\000)\0009\000H\000X\000h\000\300\001a\000Q\000A\0001\000\"\000\022\000\002\000\n\000\032\000*\000:\000I\000Y\000i\000b\000R\000B\0002\000#\000\023\000\003\000\033\000+\000;\000J\000Z\000j\000c\000S\000C\0003\000K\000[\000k"
	.size	.Lstatic.32, 112

	.type	.Lstatic.33,@object
	.p2align	1, 0x0
.Lstatic.33:
	.asciz	" \000\020\000\000\000\b\000\030\000(\0008\000\300\001P\000@\0000\000!\000\021\000\001\000\t\000\031\000)\0009\000H\000X\000h\000a\000Q\000A\0001\000\"\000\022\000\002\000\n\000\032\000*\000:\000I\000Y\000i\000b\000R\000B\0002\000#\000\023\000\003\000\013\000\033\000+\000;\000J\000Z\000j\000c\000S\000C\0003\000$\000\024\000\004\000\f\000\034\000,\000<\000K\000[\000k\000d\000T\000D\0004\000%\000\025\000-\000=\000L\000\\\000l\000e\000U\000m"
	.size	.Lstatic.33, 154

	.type	.Lstatic.34,@object
	.p2align	1, 0x0
.Lstatic.34:
	.asciz	" \000\020\000\000\000\b\000\030\000(\0008\000`\000P\000@\0000\000!\000\021\000\001\000\t\000\031\000)\0009\000H\000X\000h\000\300\001a\000Q\000A\0001\000\"\000\022\000\002\000\n\000\032\000*\000:\000I\000Y\000i\000b\000R\000B\0002\000#\000\023\000\003\000\013\000\033\000+\000;\000J\000Z\000j\000c\000S\000C\0003\000$\000\024\000\004\000\f\000\034\000,\000<\000K\000[\000k\000d\000T\000D\0004\000%\000\025\000\005\000\r\000\035\000-\000=\000L\000\\\000l\000e\000U\000E\0005\000&\000\026\000\006\000\036\000.\000>\000M\000]\000m\000f\000V\000F\0006\000N\000^\000n"
	.size	.Lstatic.34, 196

	.type	.Lstatic.35,@object
	.p2align	1, 0x0
.Lstatic.35:
	.asciz	" \000\020\000\000\000\b\000\030\000(\0008\000`\000P\000@\0000\000!\000\021\000\001\000\t\000\031\000)\0009\000H\000X\000h\000x\000\200\000p\000a\000Q\000A\0001\000\"\000\022\000\002\000\n\000\032\000*\000:\000I\000Y\000i\000y\000\210\000\201\000q\000b\000R\000B\0002\000#\000\023\000\003\000\013\000\033\000+\000;\000J\000Z\000j\000z\000\211\000\202\000r\000c\000S\000C\0003\000K\000[\000k\000{\000\212\000\203\000s\000\213"
	.size	.Lstatic.35, 144

	.type	.Lstatic.36,@object
	.p2align	1, 0x0
.Lstatic.36:
	.asciz	" \000\020\000\000\000\b\000\030\000(\0008\000`\000P\000@\0000\000!\000\021\000\001\000\t\000\031\000)\0009\000H\000X\000h\000x\000\200\000p\000a\000Q\000A\0001\000\"\000\022\000\002\000\n\000\032\000*\000:\000I\000Y\000i\000y\000\210\000\201\000q\000b\000R\000B\0002\000#\000\023\000\003\000\013\000\033\000+\000;\000J\000Z\000j\000z\000\211\000\202\000r\000c\000S\000C\0003\000$\000\024\000\004\000\f\000\034\000,\000<\000K\000[\000k\000{\000\212\000\203\000s\000d\000T\000D\0004\000L\000\\\000l\000|\000\213\000\204\000t\000\214"
	.size	.Lstatic.36, 180

	.type	.Lstatic.37,@object
	.p2align	1, 0x0
.Lstatic.37:
	.asciz	" \000\020\000\000\000\b\000\030\000(\0008\000`\000P\000@\0000\000!\000\021\000\001\000\t\000\031\000)\0009\000H\000X\000h\000x\000\200\000p\000a\000Q\000A\0001\000\"\000\022\000\002\000\n\000\032\000*\000:\000I\000Y\000i\000y\000\210\000\201\000q\000b\000R\000B\0002\000#\000\023\000\003\000\013\000\033\000+\000;\000J\000Z\000j\000z\000\211\000\202\000r\000c\000S\000C\0003\000$\000\024\000\004\000\f\000\034\000,\000<\000K\000[\000k\000{\000\212\000\203\000s\000d\000T\000D\0004\000%\000\025\000\005\000\r\000\035\000-\000=\000L\000\\\000l\000|\000\213\000\204\000t\000e\000U\000E\0005\000&\000\026\000\006\000\016\000\036\000.\000>\000M\000]\000m\000}\000\214\000\205\000u\000f\000V\000F\0006\000N\000^\000n\000~\000\215\000\206\000v\000\216"
	.size	.Lstatic.37, 252

	.type	.Lstatic.38,@object
	.p2align	1, 0x0
.Lstatic.38:
	.asciz	" \000\020\000\000\000\b\000\030\000(\0008\000`\000P\000@\0000\000!\000\021\000\001\000\t\000\031\000)\0009\000H\000X\000h\000x\000\300\001\220\000\200\000p\000a\000Q\000A\0001\000\"\000\022\000\002\000\n\000\032\000*\000:\000I\000Y\000i\000y\000\210\000\230\000\221\000\201\000q\000b\000R\000B\0002\000#\000\023\000\003\000\013\000\033\000+\000;\000J\000Z\000j\000z\000\211\000\231\000\222\000\202\000r\000c\000S\000C\0003\000$\000\024\000\004\000\f\000\034\000,\000<\000K\000[\000k\000{\000\212\000\232\000\223\000\203\000s\000d\000T\000D\0004\000%\000\025\000-\000=\000L\000\\\000l\000|\000\213\000\233\000\224\000\204\000t\000e\000U\000m\000}\000\214\000\234\000\225"
	.size	.Lstatic.38, 220

	.type	.Lstatic.39,@object
	.p2align	1, 0x0
.Lstatic.39:
	.asciz	" \000\020\000\000\000\b\000\030\000(\0008\000`\000P\000@\0000\000!\000\021\000\001\000\t\000\031\000)\0009\000H\000X\000h\000x\000\300\001\220\000\200\000p\000a\000Q\000A\0001\000\"\000\022\000\002\000\n\000\032\000*\000:\000I\000Y\000i\000y\000\210\000\230\000\250\000\241\000\221\000\201\000q\000b\000R\000B\0002\000#\000\023\000\003\000\013\000\033\000+\000;\000J\000Z\000j\000z\000\211\000\231\000\251\000\242\000\222\000\202\000r\000c\000S\000C\0003\000$\000\024\000\004\000\f\000\034\000,\000<\000K\000[\000k\000{\000\212\000\232\000\252\000\243\000\223\000\203\000s\000d\000T\000D\0004\000%\000\025\000-\000=\000L\000\\\000l\000|\000\213\000\233\000\253\000\244\000\224\000\204\000t\000e\000U\000m\000}\000\214\000\234\000\254\000\245\000\225\000\255"
	.size	.Lstatic.39, 242

	.type	.Lstatic.40,@object
	.p2align	1, 0x0
.Lstatic.40:
	.asciz	" \000\020\000\000\000\b\000\030\000(\0008\000`\000P\000@\0000\000!\000\021\000\001\000\t\000\031\000)\0009\000H\000X\000h\000x\000\240\000\220\000\200\000p\000a\000Q\000A\0001\000\"\000\022\000\002\000\n\000\032\000*\000:\000I\000Y\000i\000y\000\210\000\230\000\250\000\300\001\241\000\221\000\201\000q\000b\000R\000B\0002\000#\000\023\000\003\000\013\000\033\000+\000;\000J\000Z\000j\000z\000\211\000\231\000\251\000\242\000\222\000\202\000r\000c\000S\000C\0003\000$\000\024\000\004\000\f\000\034\000,\000<\000K\000[\000k\000{\000\212\000\232\000\252\000\243\000\223\000\203\000s\000d\000T\000D\0004\000%\000\025\000\005\000\r\000\035\000-\000=\000L\000\\\000l\000|\000\213\000\233\000\253\000\244\000\224\000\204\000t\000e\000U\000E\0005\000&\000\026\000\006\000\036\000.\000>\000M\000]\000m\000}\000\214\000\234\000\254\000\245\000\225\000\205\000u\000f\000V\000F\0006\000N\000^\000n\000~\000\215\000\235\000\255\000\246\000\226\000\206\000v\000\216\000\236\000\256"
	.size	.Lstatic.40, 308

	.type	.Lstatic.41,@object
	.p2align	1, 0x0
.Lstatic.41:
	.asciz	" \000\020\000\000\000\b\000\030\000(\0008\000`\000P\000@\0000\000!\000\021\000\001\000\t\000\031\000)\0009\000H\000X\000h\000x\000\240\000\220\000\200\000p\000a\000Q\000A\0001\000\"\000\022\000\002\000\n\000\032\000*\000:\000I\000Y\000i\000y\000\210\000\230\000\250\000\270\000\260\000\241\000\221\000\201\000q\000b\000R\000B\0002\000#\000\023\000\003\000\013\000\033\000+\000;\000J\000Z\000j\000z\000\211\000\231\000\251\000\271\000\261\000\242\000\222\000\202\000r\000c\000S\000C\0003\000$\000\024\000,\000<\000K\000[\000k\000{\000\212\000\232\000\252\000\272\000\262\000\243\000\223\000\203\000s\000d\000T\000l\000|\000\213\000\233\000\253\000\273\000\263\000\244\000\224\000\254\000\274"
	.size	.Lstatic.41, 216

	.type	.Lstatic.42,@object
	.p2align	1, 0x0
.Lstatic.42:
	.asciz	" \000\020\000\000\000\b\000\030\000(\0008\000`\000P\000@\0000\000!\000\021\000\001\000\t\000\031\000)\0009\000H\000X\000h\000x\000\240\000\220\000\200\000p\000a\000Q\000A\0001\000\"\000\022\000\002\000\n\000\032\000*\000:\000I\000Y\000i\000y\000\210\000\230\000\250\000\270\000\260\000\241\000\221\000\201\000q\000b\000R\000B\0002\000#\000\023\000\003\000\013\000\033\000+\000;\000J\000Z\000j\000z\000\211\000\231\000\251\000\271\000\261\000\242\000\222\000\202\000r\000c\000S\000C\0003\000$\000\024\000\004\000\f\000\034\000,\000<\000K\000[\000k\000{\000\212\000\232\000\252\000\272\000\262\000\243\000\223\000\203\000s\000d\000T\000D\0004\000%\000\025\000-\000=\000L\000\\\000l\000|\000\213\000\233\000\253\000\273\000\263\000\244\000\224\000\204\000t\000e\000U\000m\000}\000\214\000\234\000\254\000\274\000\264\000\245\000\225\000\255\000\275"
	.size	.Lstatic.42, 264

	.type	.Lstatic.43,@object
	.p2align	1, 0x0
.Lstatic.43:
	.asciz	" \000\020\000\000\000\b\000\030\000(\0008\000`\000P\000@\0000\000!\000\021\000\001\000\t\000\031\000)\0009\000H\000X\000h\000x\000\240\000\220\000\200\000p\000a\000Q\000A\0001\000\"\000\022\000\002\000\n\000\032\000*\000:\000I\000Y\000i\000y\000\210\000\230\000\250\000\270\000\260\000\241\000\221\000\201\000q\000b\000R\000B\0002\000#\000\023\000\003\000\013\000\033\000+\000;\000J\000Z\000j\000z\000\211\000\231\000\251\000\271\000\261\000\242\000\222\000\202\000r\000c\000S\000C\0003\000$\000\024\000\004\000\f\000\034\000,\000<\000K\000[\000k\000{\000\212\000\232\000\252\000\272\000\262\000\243\000\223\000\203\000s\000d\000T\000D\0004\000%\000\025\000\005\000\r\000\035\000-\000=\000L\000\\\000l\000|\000\213\000\233\000\253\000\273\000\263\000\244\000\224\000\204\000t\000e\000U\000E\0005\000&\000\026\000\006\000\016\000\036\000.\000>\000M\000]\000m\000}\000\214\000\234\000\254\000\274\000\264\000\245\000\225\000\205\000u\000f\000V\000F\0006\000N\000^\000n\000~\000\215\000\235\000\255\000\275\000\265\000\246\000\226\000\206\000v\000\216\000\236\000\256\000\276\000\266"
	.size	.Lstatic.43, 336

	.type	.Lstatic.44,@object
.Lstatic.44:
	.ascii	"\000\000\000\000\000\000\000\000\000\000\000\000\000\000\000\000\000\001\002\003\004\005\006\007\b\t\n\013\f\r\016\017\000\002\004\006\b\n\f\016\020\022\024\026\030\032\034\036\000\003\006\005\f\017\n\t\030\033\036\035\024\027\022\021\000\004\b\f\020\024\030\034 $(,048<\000\005\n\017\024\021\036\033(-\"'<963\000\006\f\n\030\036\024\02206<:(.$\"\000\007\016\t\034\033\022\0258?61$#*-\000\b\020\030 (08@HPX`hpx\000\t\022\033$-6?HAZSle~w\000\n\024\036(\"<6PZDNxrlf\000\013\026\035,':1XSNEt\177bi\000\f\030\0240<($`lxtP\\HD\000\r\032\02749.#her\177\\QFK\000\016\034\02286$*p~lbHFTZ\000\017\036\021<3\"-xwfiDKZU\000\020 0@P`p\200\220\240\260\300\320\340\360\000\021\"3DUfw\210\231\252\273\314\335\356\377\000\022$6HZl~\220\202\264\246\330\312\374\356\000\023&5L_jy\230\213\276\255\324\307\362\341\000\024(<PDxl\240\264\210\234\360\344\330\314\000\025*?TA~k\250\275\202\227\374\351\326\303\000\026,:XNtb\260\246\234\212\350\376\304\322\000\027.9\\Kre\270\257\226\201\344\363\312\335\000\0300(`xPH\300\330\360\350\240\270\220\210\000\0312+d}VO\310\321\372\343\254\265\236\207\000\0324.hr\\F\320\312\344\376\270\242\214\226\000\0336-lwZA\330\303\356\365\264\257\202\231\000\0348$plHT\340\374\330\304\220\214\250\264\000\035:'tiNS\350\365\322\317\234\201\246\273\000\036<\"xfDZ\360\356\314\322\210\226\264\252\000\037>!|cB]\370\347\306\331\204\233\272\245\000 @`\200\240\300\340-\rmM\255\215\355\315\000!Bc\204\245\306\347%\004gF\241\200\343\302\000\"Df\210\252\314\356=\037y[\265\227\361\323\000#Fe\214\257\312\3515\026sP\271\232\377\334\000$Hl\220\264\330\374\r)Ea\235\271\325\361\000%Jo\224\261\336\373\005 Oj\221\264\333\376\000&Lj\230\276\324\362\035;Qw\205\243\311\357\000'Ni\234\273\322\365\0252[|\211\256\307\340\000(Px\240\210\360\330mE=\025\315\345\235\265\000)R{\244\215\366\337eL7\036\301\350\223\272\000*T~\250\202\374\326}W)\003\325\377\201\253\000+V}\254\207\372\321u^#\b\331\362\217\244\000,Xt\260\234\350\304Ma\0259\375\321\245\211\000-Zw\264\231\356\303Eh\0372\361\334\253\206\000.\\r\270\226\344\312]s\001/\345\313\271\227\000/^q\274\223\342\315Uz\013$\351\306\267\230\0000`P\300\360\240\220\255\235\315\375m]\r=\0001bS\304\365\246\227\245\224\307\366aP\0032\0002dV\310\372\254\236\275\217\331\353uG\021#\0003fU\314\377\252\231\265\206\323\340yJ\037,\0004h\\\320\344\270\214\215\271\345\321]i5\001\0005j_\324\341\276\213\205\260\357\332Qd;\016\0006lZ\330\356\264\202\235\253\361\307Es)\037\0007nY\334\353\262\205\225\242\373\314I~'\020\0008pH\340\330\220\250\355\325\235\245\r5}E\0009rK\344\335\226\257\345\334\227\256\0018sJ\000:tN\350\322\234\246\375\307\211\263\025/a[\000;vM\354\327\232\241\365\316\203\270\031\"oT\000<xD\360\314\210\264\315\361\265\211=\001Ey\000=zG\364\311\216\263\305\370\277\2021\fKv\000>|B\370\306\204\272\335\343\241\237%\033Yg\000?~A\374\303\202\275\325\352\253\224)\026Wh\000@\200\300-m\255\355Z\032\332\232w7\367\267\000A\202\303)h\253\352R\023\320\221{:\371\270\000B\204\306%g\241\343J\b\316\214o-\353\251\000C\206\305!b\247\344B\001\304\207c \345\246\000D\210\314=y\265\361z>\362\266G\003\317\213\000E\212\3179|\263\366r7\370\275K\016\301\204\000F\214\3125s\271\377j,\346\240_\031\323\225\000G\216\3111v\277\370b%\354\253S\024\335\232\000H\220\330\rE\235\325\032R\212\302\027_\207\317\000I\222\333\t@\233\322\022[\200\311\033R\211\300\000J\224\336\005O\221\333\n@\236\324\017E\233\321\000K\226\335\001J\227\334\002I\224\337\003H\225\336\000L\230\324\035Q\205\311:v\242\356'k\277\363\000M\232\327\031T\203\3162\177\250\345+f\261\374\000N\234\322\025[\211\307*d\266\370?q\243\355\000O\236\321\021^\217\300\"m\274\3633|\255\342\000P\240\360m=\315\235\332\212z*\267\347\027G\000Q\242\363i8\313\232\322\203p!\273\352\031H\000R\244\366e7\301\223\312\230n<\257\375\013Y\000S\246\365a2\307\224\302\221d7\243\360\005V\000T\250\374})\325\201\372\256R\006\207\323/{\000U\252\377y,\323\206\362\247X\r\213\336!t\000V\254\372u#\331\217\352\274F\020\237\3113e\000W\256\371q&\337\210\342\265L\033\223\304=j\000X\260\350M\025\375\245\232\302*r\327\217g?\000Y\262\353I\020\373\242\222\313 y\333\202i0\000Z\264\356E\037\361\253\212\320>d\317\225{!\000[\266\355A\032\367\254\202\3314o\303\230u.\000\\\270\344]\001\345\271\272\346\002^\347\273_\003\000]\272\347Y\004\343\276\262\357\bU\353\266Q\f\000^\274\342U\013\351\267\252\364\026H\377\241C\035\000_\276\341Q\016\357\260\242\375\034C\363\254M\022\000`\300\240\255\315m\rw\027\267\327\332\272\032z\000a\302\243\251\310k\n\177\036\275\334\326\267\024u\000b\304\246\245\307a\003g\005\243\301\302\240\006d\000c\306\245\241\302g\004o\f\251\312\316\255\bk\000d\310\254\275\331u\021W3\237\373\352\216\"F\000e\312\257\271\334s\026_:\225\360\346\203,I\000f\314\252\265\323y\037G!\213\355\362\224>X\000g\316\251\261\326\177\030O(\201\346\376\2310W\000h\320\270\215\345]57_\347\217\272\322j\002\000i\322\273\211\340[2?V\355\204\266\337d\r\000j\324\276\205\357Q;'M\363\231\242\310v\034\000k\326\275\201\352W</D\371\222\256\305x\023\000l\330\264\235\361E)\027{\317\243\212\346R>\000m\332\267\231\364C.\037r\305\250\206\353\\1\000n\334\262\225\373I'\007i\333\265\222\374N \000o\336\261\221\376O \017`\321\276\236\361@/\000p\340\220\355\235\r}\367\207\027g\032j\372\212\000q\342\223\351\230\013z\377\216\035l\026g\364\205\000r\344\226\345\227\001s\347\225\003q\002p\346\224\000s\346\225\341\222\007t\357\234\tz\016}\350\233\000t\350\234\375\211\025a\327\243?K*^\302\266\000u\352\237\371\214\023f\337\2525@&S\314\271\000v\354\232\365\203\031o\307\261+]2D\336\250\000w\356\231\361\206\037h\317\270!V>I\320\247\000x\360\210\315\265=E\267\317G?z\002\212\362\000y\362\213\311\260;B\277\306M4v\017\204\375\000z\364\216\305\2771K\247\335S)b\030\226\354\000{\366\215\301\2727L\257\324Y\"n\025\230\343\000|\370\204\335\241%Y\227\353o\023J6\262\316\000}\372\207\331\244#^\237\342e\030F;\274\301\000~\374\202\325\253)W\207\371{\005R,\256\320\000\177\376\201\321\256/P\217\360q\016^!\240\337\000\200-\255Z\332w\367\2644\231\031\356n\303C\000\201/\256^\337q\360\274=\223\022\342c\315L\000\202)\253R\320{\371\244&\215\017\366t\337]\000\203+\250V\325}\376\254/\207\004\372y\321R\000\204%\241J\316o\353\224\020\2615\336Z\373\177\000\205'\242N\313i\354\234\031\273>\322W\365p\000\206!\247B\304c\345\204\002\245#\306@\347a\000\207#\244F\301e\342\214\013\257(\312M\351n\000\210=\265z\362G\317\364|\311A\216\006\263;\000\211?\266~\367A\310\374u\303J\202\013\2754\000\2129\263r\370K\301\344n\335W\226\034\257%\000\213;\260v\375M\306\354g\327\\\232\021\241*\000\2145\271j\346_\323\324X\341m\2762\213\007\000\2157\272n\343Y\324\334Q\353f\262?\205\b\000\2161\277b\354S\335\304J\365{\246(\227\031\000\2173\274f\351U\332\314C\377p\252%\231\026\000\220\r\235\032\212\027\2074\2449\251.\276#\263\000\221\017\236\036\217\021\200<\2553\242\"\263-\274\000\222\t\233\022\200\033\211$\266-\2776\244?\255\000\223\013\230\026\205\035\216,\277'\264:\2511\242\000\224\005\221\n\236\017\233\024\200\021\205\036\212\033\217\000\225\007\222\016\233\t\234\034\211\033\216\022\207\025\200\000\226\001\227\002\224\003\225\004\222\005\223\006\220\007\221\000\227\003\224\006\221\005\222\f\233\017\230\n\235\t\236\000\230\035\205:\242'\277t\354i\361N\326S\313\000\231\037\206>\247!\270|\345c\372B\333]\304\000\232\031\2032\250+\261d\376}\347V\314O\325\000\233\033\2006\255-\266l\367w\354Z\301A\332\000\234\025\211*\266?\243T\310A\335~\342k\367\000\235\027\212.\2639\244\\\301K\326r\357e\370\000\236\021\217\"\2743\255D\332U\313f\370w\351\000\237\023\214&\2715\252L\323_\300j\365y\346\000\240m\315\332z\267\027\2319\364TC\343.\216\000\241o\316\336\177\261\020\2210\376_O\356 \201\000\242i\313\322p\273\031\211+\340B[\3712\220\000\243k\310\326u\275\036\201\"\352IW\364<\237\000\244e\301\312n\257\013\271\035\334xs\327\026\262\000\245g\302\316k\251\f\261\024\326s\177\332\030\275\000\246a\307\302d\243\005\251\017\310nk\315\n\254\000\247c\304\306a\245\002\241\006\302eg\300\004\243\000\250}\325\372R\207/\331q\244\f#\213^\366\000\251\177\326\376W\201(\321x\256\007/\206P\371\000\252y\323\362X\213!\311c\260\032;\221B\350\000\253{\320\366]\215&\301j\272\0217\234L\347\000\254u\331\352F\2373\371U\214 \023\277f\312\000\255w\332\356C\2314\361\\\206+\037\262h\305\000\256q\337\342L\223=\351G\2306\013\245z\324\000\257s\334\346I\225:\341N\222=\007\250t\333\000\260M\375\232*\327g\031\251T\344\2033\316~\000\261O\376\236/\321`\021\240^\357\217>\300q\000\262I\373\222 \333i\t\273@\362\233)\322`\000\263K\370\226%\335n\001\262J\371\227$\334o\000\264E\361\212>\317{9\215|\310\263\007\366B\000\265G\362\216;\311|1\204v\303\277\n\370M\000\266A\367\2024\303u)\237h\336\253\035\352\\\000\267C\364\2061\305r!\226b\325\247\020\344S\000\270]\345\272\002\347_Y\341\004\274\343[\276\006\000\271_\346\276\007\341XQ\350\016\267\357V\260\t\000\272Y\343\262\b\353QI\363\020\252\373A\242\030\000\273[\340\266\r\355VA\372\032\241\367L\254\027\000\274U\351\252\026\377Cy\305,\220\323o\206:\000\275W\352\256\023\371Dq\314&\233\337b\2105\000\276Q\357\242\034\363Mi\3278\206\313u\232$\000\277S\354\246\031\365Ja\3362\215\307x\224+\000\300\255mw\267\332\032\356.C\203\231Y4\364\000\301\257ns\262\334\035\346'I\210\225T:\373\000\302\251k\177\275\326\024\376<W\225\201C(\352\000\303\253h{\270\320\023\3665]\236\215N&\345\000\304\245ag\243\302\006\316\nk\257\251m\f\310\000\305\247bc\246\304\001\306\003a\244\245`\002\307\000\306\241go\251\316\b\336\030\177\271\261w\020\326\000\307\243dk\254\310\017\326\021u\262\275z\036\331\000\310\275uW\237\352\"\256f\023\333\3711D\214\000\311\277vS\232\354%\246o\031\320\365<J\203\000\312\271s_\225\346,\276t\007\315\341+X\222\000\313\273p[\220\340+\266}\r\306\355&V\235\000\314\265yG\213\362>\216B;\367\311\005|\260\000\315\267zC\216\3649\206K1\374\305\br\277\000\316\261\177O\201\3760\236P/\341\321\037`\256\000\317\263|K\204\3707\226Y%\352\335\022n\241\000\320\215]7\347\272jn\276\3433Y\211\324\004\000\321\217^3\342\274mf\267\3518U\204\332\013\000\322\211[?\355\266d~\254\367%A\223\310\032\000\323\213X;\350\260cv\245\375.M\236\306\025\000\324\205Q'\363\242vN\232\313\037i\275\3548\000\325\207R#\366\244qF\223\301\024e\260\3427\000\326\201W/\371\256x^\210\337\tq\247\360&\000\327\203T+\374\250\177V\201\325\002}\252\376)\000\330\235E\027\317\212R.\366\263k9\341\244|\000\331\237F\023\312\214U&\377\271`5\354\252s\000\332\231C\037\305\206\\>\344\247}!\373\270b\000\333\233@\033\300\200[6\355\255v-\366\266m\000\334\225I\007\333\222N\016\322\233G\t\325\234@\000\335\227J\003\336\224I\006\333\221L\005\330\222O\000\336\221O\017\321\236@\036\300\217Q\021\317\200^\000\337\223L\013\324\230G\026\311\205Z\035\302\216Q\000\340\355\r\367\027\032\372\303#.\3164\324\3319\000\341\357\016\363\022\034\375\313*$\3058\331\3276\000\342\351\013\377\035\026\364\3231:\330,\316\305'\000\343\353\b\373\030\020\363\33380\323 \303\313(\000\344\345\001\347\003\002\346\343\007\006\342\004\340\341\005\000\345\347\002\343\006\004\341\353\016\f\351\b\355\357\n\000\346\341\007\357\t\016\350\363\025\022\364\034\372\375\033\000\347\343\004\353\f\b\357\373\034\030\377\020\367\363\024\000\350\375\025\327?*\302\203k~\226T\274\251A\000\351\377\026\323:,\305\213bt\235X\261\247N\000\352\371\023\3375&\314\223yj\200L\246\265_\000\353\373\020\3330 \313\233p`\213@\253\273P\000\354\365\031\307+2\336\243OV\272d\210\221}\000\355\367\032\303.4\331\253F\\\261h\205\237r\000\356\361\037\317!>\320\263]B\254|\222\215c\000\357\363\034\313$8\327\273TH\247p\237\203l\000\360\315=\267Gz\212C\263\216~\364\0049\311\000\361\317>\263B|\215K\272\204u\370\t7\306\000\362\311;\277Mv\204S\241\232h\354\036%\327\000\363\3138\273Hp\203[\250\220c\340\023+\330\000\364\3051\247Sb\226c\227\246R\3040\001\365\000\365\3072\243Vd\221k\236\254Y\310=\017\372\000\366\3017\257Yn\230s\205\262D\334*\035\353\000\367\3034\253\\h\237{\214\270O\320'\023\344\000\370\335%\227oJ\262\003\373\336&\224lI\261\000\371\337&\223jL\265\013\362\324-\230aG\276\000\372\331#\237eF\274\023\351\3120\214vU\257\000\373\333 \233`@\273\033\340\300;\200{[\240\000\374\325)\207{R\256#\337\366\n\244Xq\215\000\375\327*\203~T\251+\326\374\001\250U\177\202\000\376\321/\217q^\2403\315\342\034\274Bm\223\000\377\323,\213tX\247;\304\350\027\260Oc\234"
	.size	.Lstatic.44, 4096

	.type	.Lstatic.45,@object
.Lstatic.45:
	.ascii	"\000\000\000\000\000\000\000\000\000\000\000\000\000\000\000\000\000\020 0@P`p\200\220\240\260\300\320\340\360\000 @`\200\240\300\340-\rmM\255\215\355\315\0000`P\300\360\240\220\255\235\315\375m]\r=\000@\200\300-m\255\355Z\032\332\232w7\367\267\000P\240\360m=\315\235\332\212z*\267\347\027G\000`\300\240\255\315m\rw\027\267\327\332\272\032z\000p\340\220\355\235\r}\367\207\027g\032j\372\212\000\200-\255Z\332w\367\2644\231\031\356n\303C\000\220\r\235\032\212\027\2074\2449\251.\276#\263\000\240m\315\332z\267\027\2319\364TC\343.\216\000\260M\375\232*\327g\031\251T\344\2033\316~\000\300\255mw\267\332\032\356.C\203\231Y4\364\000\320\215]7\347\272jn\276\3433Y\211\324\004\000\340\355\r\367\027\032\372\303#.\3164\324\3319\000\360\315=\267Gz\212C\263\216~\364\0049\311\000-Zw\264\231\356\303Eh\0372\361\334\253\206\000=zG\364\311\216\263\305\370\277\2021\fKv\000\r\032\02749.#her\177\\QFK\000\035:'tiNS\350\365\322\317\234\201\246\273\000m\332\267\231\364C.\037r\305\250\206\353\\1\000}\372\207\331\244#^\237\342e\030F;\274\301\000M\232\327\031T\203\3162\177\250\345+f\261\374\000]\272\347Y\004\343\276\262\357\bU\353\266Q\f\000\255w\332\356C\2314\361\\\206+\037\262h\305\000\275W\352\256\023\371Dq\314&\233\337b\2105\000\2157\272n\343Y\324\334Q\353f\262?\205\b\000\235\027\212.\2639\244\\\301K\326r\357e\370\000\355\367\032\303.4\331\253F\\\261h\205\237r\000\375\327*\203~T\251+\326\374\001\250U\177\202\000\315\267zC\216\3649\206K1\374\305\br\277\000\335\227J\003\336\224I\006\333\221L\005\330\222O\000Z\264\356E\037\361\253\212\320>d\317\225{!\000J\224\336\005O\221\333\n@\236\324\017E\233\321\000z\364\216\305\2771K\247\335S)b\030\226\354\000j\324\276\205\357Q;'M\363\231\242\310v\034\000\0324.hr\\F\320\312\344\376\270\242\214\226\000\n\024\036(\"<6PZDNxrlf\000:tN\350\322\234\246\375\307\211\263\025/a[\000*T~\250\202\374\326}W)\003\325\377\201\253\000\332\231C\037\305\206\\>\344\247}!\373\270b\000\312\271s_\225\346,\276t\007\315\341+X\222\000\372\331#\237eF\274\023\351\3120\214vU\257\000\352\371\023\3375&\314\223yj\200L\246\265_\000\232\031\2032\250+\261d\376}\347V\314O\325\000\2129\263r\370K\301\344n\335W\226\034\257%\000\272Y\343\262\b\353QI\363\020\252\373A\242\030\000\252y\323\362X\213!\311c\260\032;\221B\350\000w\356\231\361\206\037h\317\270!V>I\320\247\000g\316\251\261\326\177\030O(\201\346\376\2310W\000W\256\371q&\337\210\342\265L\033\223\304=j\000G\216\3111v\277\370b%\354\253S\024\335\232\0007nY\334\353\262\205\225\242\373\314I~'\020\000'Ni\234\273\322\365\0252[|\211\256\307\340\000\027.9\\Kre\270\257\226\201\344\363\312\335\000\007\016\t\034\033\022\0258?61$#*-\000\367\3034\253\\h\237{\214\270O\320'\023\344\000\347\343\004\353\f\b\357\373\034\030\377\020\367\363\024\000\327\203T+\374\250\177V\201\325\002}\252\376)\000\307\243dk\254\310\017\326\021u\262\275z\036\331\000\267C\364\2061\305r!\226b\325\247\020\344S\000\247c\304\306a\245\002\241\006\302eg\300\004\243\000\227\003\224\006\221\005\222\f\233\017\230\n\235\t\236\000\207#\244F\301e\342\214\013\257(\312M\351n\000\264E\361\212>\317{9\215|\310\263\007\366B\000\244e\301\312n\257\013\271\035\334xs\327\026\262\000\224\005\221\n\236\017\233\024\200\021\205\036\212\033\217\000\204%\241J\316o\353\224\020\2615\336Z\373\177\000\364\3051\247Sb\226c\227\246R\3040\001\365\000\344\345\001\347\003\002\346\343\007\006\342\004\340\341\005\000\324\205Q'\363\242vN\232\313\037i\275\3548\000\304\245ag\243\302\006\316\nk\257\251m\f\310\0004h\\\320\344\270\214\215\271\345\321]i5\001\000$Hl\220\264\330\374\r)Ea\235\271\325\361\000\024(<PDxl\240\264\210\234\360\344\330\314\000\004\b\f\020\024\030\034 $(,048<\000t\350\234\375\211\025a\327\243?K*^\302\266\000d\310\254\275\331u\021W3\237\373\352\216\"F\000T\250\374})\325\201\372\256R\006\207\323/{\000D\210\314=y\265\361z>\362\266G\003\317\213\000\231\037\206>\247!\270|\345c\372B\333]\304\000\211?\266~\367A\310\374u\303J\202\013\2754\000\271_\346\276\007\341XQ\350\016\267\357V\260\t\000\251\177\326\376W\201(\321x\256\007/\206P\371\000\331\237F\023\312\214U&\377\271`5\354\252s\000\311\277vS\232\354%\246o\031\320\365<J\203\000\371\337&\223jL\265\013\362\324-\230aG\276\000\351\377\026\323:,\305\213bt\235X\261\247N\000\0312+d}VO\310\321\372\343\254\265\236\207\000\t\022\033$-6?HAZSle~w\0009rK\344\335\226\257\345\334\227\256\0018sJ\000)R{\244\215\366\337eL7\036\301\350\223\272\000Y\262\353I\020\373\242\222\313 y\333\202i0\000I\222\333\t@\233\322\022[\200\311\033R\211\300\000y\362\213\311\260;B\277\306M4v\017\204\375\000i\322\273\211\340[2?V\355\204\266\337d\r\000\356\361\037\317!>\320\263]B\254|\222\215c\000\376\321/\217q^\2403\315\342\034\274Bm\223\000\316\261\177O\201\3760\236P/\341\321\037`\256\000\336\221O\017\321\236@\036\300\217Q\021\317\200^\000\256q\337\342L\223=\351G\2306\013\245z\324\000\276Q\357\242\034\363Mi\3278\206\313u\232$\000\2161\277b\354S\335\304J\365{\246(\227\031\000\236\021\217\"\2743\255D\332U\313f\370w\351\000n\334\262\225\373I'\007i\333\265\222\374N \000~\374\202\325\253)W\207\371{\005R,\256\320\000N\234\322\025[\211\307*d\266\370?q\243\355\000^\274\342U\013\351\267\252\364\026H\377\241C\035\000.\\r\270\226\344\312]s\001/\345\313\271\227\000>|B\370\306\204\272\335\343\241\237%\033Yg\000\016\034\02286$*p~lbHFTZ\000\036<\"xfDZ\360\356\314\322\210\226\264\252\000\303\253h{\270\320\023\3665]\236\215N&\345\000\323\213X;\350\260cv\245\375.M\236\306\025\000\343\353\b\373\030\020\363\33380\323 \303\313(\000\363\3138\273Hp\203[\250\220c\340\023+\330\000\203+\250V\325}\376\254/\207\004\372y\321R\000\223\013\230\026\205\035\216,\277'\264:\2511\242\000\243k\310\326u\275\036\201\"\352IW\364<\237\000\263K\370\226%\335n\001\262J\371\227$\334o\000C\206\305!b\247\344B\001\304\207c \345\246\000S\246\365a2\307\224\302\221d7\243\360\005V\000c\306\245\241\302g\004o\f\251\312\316\255\bk\000s\346\225\341\222\007t\357\234\tz\016}\350\233\000\003\006\005\f\017\n\t\030\033\036\035\024\027\022\021\000\023&5L_jy\230\213\276\255\324\307\362\341\000#Fe\214\257\312\3515\026sP\271\232\377\334\0003fU\314\377\252\231\265\206\323\340yJ\037,\000E\212\3179|\263\366r7\370\275K\016\301\204\000U\252\377y,\323\206\362\247X\r\213\336!t\000e\312\257\271\334s\026_:\225\360\346\203,I\000u\352\237\371\214\023f\337\2525@&S\314\271\000\005\n\017\024\021\036\033(-\"'<963\000\025*?TA~k\250\275\202\227\374\351\326\303\000%Jo\224\261\336\373\005 Oj\221\264\333\376\0005j_\324\341\276\213\205\260\357\332Qd;\016\000\305\247bc\246\304\001\306\003a\244\245`\002\307\000\325\207R#\366\244qF\223\301\024e\260\3427\000\345\347\002\343\006\004\341\353\016\f\351\b\355\357\n\000\365\3072\243Vd\221k\236\254Y\310=\017\372\000\205'\242N\313i\354\234\031\273>\322W\365p\000\225\007\222\016\233\t\234\034\211\033\216\022\207\025\200\000\245g\302\316k\251\f\261\024\326s\177\332\030\275\000\265G\362\216;\311|1\204v\303\277\n\370M\000h\320\270\215\345]57_\347\217\272\322j\002\000x\360\210\315\265=E\267\317G?z\002\212\362\000H\220\330\rE\235\325\032R\212\302\027_\207\317\000X\260\350M\025\375\245\232\302*r\327\217g?\000(Px\240\210\360\330mE=\025\315\345\235\265\0008pH\340\330\220\250\355\325\235\245\r5}E\000\b\020\030 (08@HPX`hpx\000\0300(`xPH\300\330\360\350\240\270\220\210\000\350\375\025\327?*\302\203k~\226T\274\251A\000\370\335%\227oJ\262\003\373\336&\224lI\261\000\310\275uW\237\352\"\256f\023\333\3711D\214\000\330\235E\027\317\212R.\366\263k9\341\244|\000\250}\325\372R\207/\331q\244\f#\213^\366\000\270]\345\272\002\347_Y\341\004\274\343[\276\006\000\210=\265z\362G\317\364|\311A\216\006\263;\000\230\035\205:\242'\277t\354i\361N\326S\313\000\037>!|cB]\370\347\306\331\204\233\272\245\000\017\036\021<3\"-xwfiDKZU\000?~A\374\303\202\275\325\352\253\224)\026Wh\000/^q\274\223\342\315Uz\013$\351\306\267\230\000_\276\341Q\016\357\260\242\375\034C\363\254M\022\000O\236\321\021^\217\300\"m\274\3633|\255\342\000\177\376\201\321\256/P\217\360q\016^!\240\337\000o\336\261\221\376O \017`\321\276\236\361@/\000\237\023\214&\2715\252L\323_\300j\365y\346\000\2173\274f\351U\332\314C\377p\252%\231\026\000\277S\354\246\031\365Ja\3362\215\307x\224+\000\257s\334\346I\225:\341N\222=\007\250t\333\000\337\223L\013\324\230G\026\311\205Z\035\302\216Q\000\317\263|K\204\3707\226Y%\352\335\022n\241\000\377\323,\213tX\247;\304\350\027\260Oc\234\000\357\363\034\313$8\327\273TH\247p\237\203l\0002dV\310\372\254\236\275\217\331\353uG\021#\000\"Df\210\252\314\356=\037y[\265\227\361\323\000\022$6HZl~\220\202\264\246\330\312\374\356\000\002\004\006\b\n\f\016\020\022\024\026\030\032\034\036\000r\344\226\345\227\001s\347\225\003q\002p\346\224\000b\304\246\245\307a\003g\005\243\301\302\240\006d\000R\244\366e7\301\223\312\230n<\257\375\013Y\000B\204\306%g\241\343J\b\316\214o-\353\251\000\262I\373\222 \333i\t\273@\362\233)\322`\000\242i\313\322p\273\031\211+\340B[\3712\220\000\222\t\233\022\200\033\211$\266-\2776\244?\255\000\202)\253R\320{\371\244&\215\017\366t\337]\000\362\311;\277Mv\204S\241\232h\354\036%\327\000\342\351\013\377\035\026\364\3231:\330,\316\305'\000\322\211[?\355\266d~\254\367%A\223\310\032\000\302\251k\177\275\326\024\376<W\225\201C(\352\000\361\317>\263B|\215K\272\204u\370\t7\306\000\341\357\016\363\022\034\375\313*$\3058\331\3276\000\321\217^3\342\274mf\267\3518U\204\332\013\000\301\257ns\262\334\035\346'I\210\225T:\373\000\261O\376\236/\321`\021\240^\357\217>\300q\000\241o\316\336\177\261\020\2210\376_O\356 \201\000\221\017\236\036\217\021\200<\2553\242\"\263-\274\000\201/\256^\337q\360\274=\223\022\342c\315L\000q\342\223\351\230\013z\377\216\035l\026g\364\205\000a\302\243\251\310k\n\177\036\275\334\326\267\024u\000Q\242\363i8\313\232\322\203p!\273\352\031H\000A\202\303)h\253\352R\023\320\221{:\371\270\0001bS\304\365\246\227\245\224\307\366aP\0032\000!Bc\204\245\306\347%\004gF\241\200\343\302\000\021\"3DUfw\210\231\252\273\314\335\356\377\000\001\002\003\004\005\006\007\b\t\n\013\f\r\016\017\000\334\225I\007\333\222N\016\322\233G\t\325\234@\000\314\265yG\213\362>\216B;\367\311\005|\260\000\374\325)\207{R\256#\337\366\n\244Xq\215\000\354\365\031\307+2\336\243OV\272d\210\221}\000\234\025\211*\266?\243T\310A\335~\342k\367\000\2145\271j\346_\323\324X\341m\2762\213\007\000\274U\351\252\026\377Cy\305,\220\323o\206:\000\254u\331\352F\2373\371U\214 \023\277f\312\000\\\270\344]\001\345\271\272\346\002^\347\273_\003\000L\230\324\035Q\205\311:v\242\356'k\277\363\000|\370\204\335\241%Y\227\353o\023J6\262\316\000l\330\264\235\361E)\027{\317\243\212\346R>\000\0348$plHT\340\374\330\304\220\214\250\264\000\f\030\0240<($`lxtP\\HD\000<xD\360\314\210\264\315\361\265\211=\001Ey\000,Xt\260\234\350\304Ma\0259\375\321\245\211\000\253{\320\366]\215&\301j\272\0217\234L\347\000\273[\340\266\r\355VA\372\032\241\367L\254\027\000\213;\260v\375M\306\354g\327\\\232\021\241*\000\233\033\2006\255-\266l\367w\354Z\301A\332\000\353\373\020\3330 \313\233p`\213@\253\273P\000\373\333 \233`@\273\033\340\300;\200{[\240\000\313\273p[\220\340+\266}\r\306\355&V\235\000\333\233@\033\300\200[6\355\255v-\366\266m\000+V}\254\207\372\321u^#\b\331\362\217\244\000;vM\354\327\232\241\365\316\203\270\031\"oT\000\013\026\035,':1XSNEt\177bi\000\0336-lwZA\330\303\356\365\264\257\202\231\000k\326\275\201\352W</D\371\222\256\305x\023\000{\366\215\301\2727L\257\324Y\"n\025\230\343\000K\226\335\001J\227\334\002I\224\337\003H\225\336\000[\266\355A\032\367\254\202\3314o\303\230u.\000\206!\247B\304c\345\204\002\245#\306@\347a\000\226\001\227\002\224\003\225\004\222\005\223\006\220\007\221\000\246a\307\302d\243\005\251\017\310nk\315\n\254\000\266A\367\2024\303u)\237h\336\253\035\352\\\000\306\241go\251\316\b\336\030\177\271\261w\020\326\000\326\201W/\371\256x^\210\337\tq\247\360&\000\346\341\007\357\t\016\350\363\025\022\364\034\372\375\033\000\366\3017\257Yn\230s\205\262D\334*\035\353\000\006\f\n\030\036\024\02206<:(.$\"\000\026,:XNtb\260\246\234\212\350\376\304\322\000&Lj\230\276\324\362\035;Qw\205\243\311\357\0006lZ\330\356\264\202\235\253\361\307Es)\037\000F\214\3125s\271\377j,\346\240_\031\323\225\000V\254\372u#\331\217\352\274F\020\237\3113e\000f\314\252\265\323y\037G!\213\355\362\224>X\000v\354\232\365\203\031o\307\261+]2D\336\250"
	.size	.Lstatic.45, 4096

	.type	.Lstatic.46,@object
.Lstatic.46:
	.asciz	"\000\000\000\000\000\000\000\000\000\000\000\000\000\000\000\000\000\000\000\000\000\000\000\000\000\000\000\000\000\000\000\000\000\000\000\000\000\000\000\000\000\000\000\000\000\000\000\000\000\000\000\000\000\000\000\000\000\000\000\000\000\000\000\000\000\000\000\000\000\000\000\000\000\000\000\000\000\000\000\000\002\000\000\000\000\000\000\000\000\000\000\000\000\000\000\000\000\000\000\000\000\000\000\000\000\000\000\000\000\000\000\000\000\000\000\000\000\000\000\000\000\000\000\000\000\000\000\000\000\000\000\000\000\000\000\000\000\000\000\000\000\000\000\000\000\000\000\000\000\000\000\000\000\000\000\000\000\000\000\000\006\b\000\000\000\000\000\000\000\000\000\000\000\000\000\000\000\000\000\000\000\000\000\000\000\000\000\000\000\000\000\000\000\000\000\000\000\000\000\000\000\000\000\000\000\000\000\000\000\000\000\000\000\000\000\000\000\000\000\000\000\000\000\000\000\000\000\000\000\000\000\000\000\000\000\000\000\000\000\000\0168@\000\000\000\000\000\000\000\000\000\000\000\000\000\000\000\000\000\000\000\000\000\000\000\000\000\000\000\000\000\000\000\000\000\000\000\000\000\000\000\000\000\000\000\000\000\000\000\000\000\000\000\000\000\000\000\000\000\000\000\000\000\000\000\000\000\000\000\000\000\000\000\000\000\000\000\000\000\036\330\267\264\000\000\000\000\000\000\000\000\000\000\000\000\000\000\000\000\000\000\000\000\000\000\000\000\000\000\000\000\000\000\000\000\000\000\000\000\000\000\000\000\000\000\000\000\000\000\000\000\000\000\000\000\000\000\000\000\000\000\000\000\000\000\000\000\000\000\000\000\000\000\000\000\000\000\000\000>o\0170\344\000\000\000\000\000\000\000\000\000\000\000\000\000\000\000\000\000\000\000\000\000\000\000\000\000\000\000\000\000\000\000\000\000\000\000\000\000\000\000\000\000\000\000\000\000\000\000\000\000\000\000\000\000\000\000\000\000\000\000\000\000\000\000\000\000\000\000\000\000\000\000\000\000\000\000~iw\207\025\333\000\000\000\000\000\000\000\000\000\000\000\000\000\000\000\000\000\000\000\000\000\000\000\000\000\000\000\000\000\000\000\000\000\000\000\000\000\000\000\000\000\000\000\000\000\000\000\000\000\000\000\000\000\000\000\000\000\000\000\000\000\000\000\000\000\000\000\000\000\000\000\000\000\000\376\\\360\206\220D\027\000\000\000\000\000\000\000\000\000\000\000\000\000\000\000\000\000\000\000\000\000\000\000\000\000\000\000\000\000\000\000\000\000\000\000\000\000\000\000\000\000\000\000\000\000\000\000\000\000\000\000\000\000\000\000\000\000\000\000\000\000\000\000\000\000\000\000\000\000\000\000\000\000\323\322\371\243\232*\321I\000\000\000\000\000\000\000\000\000\000\000\000\000\000\000\000\000\000\000\000\000\000\000\000\000\000\000\000\000\000\000\000\000\000\000\000\000\000\000\000\000\000\000\000\000\000\000\000\000\000\000\000\000\000\000\000\000\000\000\000\000\000\000\000\000\000\000\000\000\000\000\000\211\004u9\343\310\235+4\000\000\000\000\000\000\000\000\000\000\000\000\000\000\000\000\000\000\000\000\000\000\000\000\000\000\000\000\000\000\000\000\000\000\000\000\000\000\000\000\000\000\000\000\000\000\000\000\000\000\000\000\000\000\000\000\000\000\000\000\000\000\000\000\000\000\000\000\000\000\000=n\377t\370\337\246\271\030\034\000\000\000\000\000\000\000\000\000\000\000\000\000\000\000\000\000\000\000\000\000\000\000\000\000\000\000\000\000\000\000\000\000\000\000\000\000\000\000\000\000\000\000\000\000\000\000\000\000\000\000\000\000\000\000\000\000\000\000\000\000\000\000\000\000\000\000\000\000\000xa<\365'\250\302\f\315\212\257\000\000\000\000\000\000\000\000\000\000\000\000\000\000\000\000\000\000\000\000\000\000\000\000\000\000\000\000\000\000\000\000\000\000\000\000\000\000\000\000\000\000\000\000\000\000\000\000\000\000\000\000\000\000\000\000\000\000\000\000\000\000\000\000\000\000\000\000\000\362d\262a\325\216*=[\236\231)\000\000\000\000\000\000\000\000\000\000\000\000\000\000\000\000\000\000\000\000\000\000\000\000\000\000\000\000\000\000\000\000\000\000\000\000\000\000\000\000\000\000\000\000\000\000\000\000\000\000\000\000\000\000\000\000\000\000\000\000\000\000\000\000\000\000\000\000\313\002^\354\344\244\242Ig<\366\351?\000\000\000\000\000\000\000\000\000\000\000\000\000\000\000\000\000\000\000\000\000\000\000\000\000\000\000\000\000\000\000\000\000\000\000\000\000\000\000\000\000\000\000\000\000\000\000\000\000\000\000\000\000\000\000\000\000\000\000\000\000\000\000\000\000\000\000\271S\272\022-\212w\235\t_\374\300a\234\000\000\000\000\000\000\000\000\000\000\000\000\000\000\000\000\000\000\000\000\000\000\000\000\000\000\000\000\000\000\000\000\000\000\000\000\000\000\000\000\000\000\000\000\000\000\000\000\000\000\000\000\000\000\000\000\000\000\000\000\000\000\000\000\000\000]\337\213\237#\221\352\260\231X\311\224!Xt\000\000\000\000\000\000\000\000\000\000\000\000\000\000\000\000\000\000\000\000\000\000\000\000\000\000\000\000\000\000\000\000\000\000\000\000\000\000\000\000\000\000\000\000\000\000\000\000\000\000\000\000\000\000\000\000\000\000\000\000\000\000\000\000\000\270R\372m\311H\357\347\242\266B\032\"f\377X\000\000\000\000\000\000\000\000\000\000\000\000\000\000\000\000\000\000\000\000\000\000\000\000\000\000\000\000\000\000\000\000\000\000\000\000\000\000\000\000\000\000\000\000\000\000\000\000\000\000\000\000\000\000\000\000\000\000\000\000\000\000\000\000_\337\331\030\276y\017E\373\370<\342\341\036w!;\000\000\000\000\000\000\000\000\000\000\000\000\000\000\000\000\000\000\000\000\000\000\000\000\000\000\000\000\000\000\000\000\000\000\000\000\000\000\000\000\000\000\000\000\000\000\000\000\000\000\000\000\000\000\000\000\000\000\000\000\000\000\000\274Z0\341\376^\201m\325\361=BK\274'd\303S\000\000\000\000\000\000\000\000\000\000\000\000\000\000\000\000\000\000\000\000\000\000\000\000\000\000\000\000\000\000\000\000\000\000\000\000\000\000\000\000\000\000\000\000\000\000\000\000\000\000\000\000\000\000\000\000\000\000\000\000\000\000W\357'\314\227|M^$nO\304\334[\222\231B\367g\000\000\000\000\000\000\000\000\000\000\000\000\000\000\000\000\000\000\000\000\000\000\000\000\000\000\000\000\000\000\000\000\000\000\000\000\000\000\000\000\000\000\000\000\000\000\000\000\000\000\000\000\000\000\000\000\000\000\000\000\000\254\272\256\033RlO\375\221\231\240\274\002\250G\351\t\364\303\017\000\000\000\000\000\000\000\000\000\000\000\000\000\000\000\000\000\000\000\000\000\000\000\000\000\000\000\000\000\000\000\000\000\000\000\000\000\000\000\000\000\000\000\000\000\000\000\000\000\000\000\000\000\000\000\000\000\000\000\000wX\240bH\006'\rY96s\2143\276/\266\031\346\305m\000\000\000\000\000\000\000\000\000\000\000\000\000\000\000\000\000\000\000\000\000\000\000\000\000\000\000\000\000\000\000\000\000\000\000\000\000\000\000\000\000\000\000\000\000\000\000\000\000\000\000\000\000\000\000\000\000\000\000\354\274\003\321\331}\n&\230\001\204\033^G{\005\361_\311L\371K\000\000\000\000\000\000\000\000\000\000\000\000\000\000\000\000\000\000\000\000\000\000\000\000\000\000\000\000\000\000\000\000\000\000\000\000\000\000\000\000\000\000\000\000\000\000\000\000\000\000\000\000\000\000\000\000\000\000\367ma\374-Q\001\310\325\030\237+6v\024T\206\274\343\375cp\333\000\000\000\000\000\000\000\000\000\000\000\000\000\000\000\000\000\000\000\000\000\000\000\000\000\000\000\000\000\000\000\000\000\000\000\000\000\000\000\000\000\000\000\000\000\000\000\000\000\000\000\000\000\000\000\000\000\3012`\270\265\f|\376\254\005\025\233\337\373\305\233\025\260'm\315X\2764\000\000\000\000\000\000\000\000\000\000\000\000\000\000\000\000\000\000\000\000\000\000\000\000\000\000\000\000\000\000\000\000\000\000\000\000\000\000\000\000\000\000\000\000\000\000\000\000\000\000\000\000\000\000\000\000\255\273\312\\\215\322\366\276i\216\344D\017\016\361\217\305o\b\030\317[?I\357\000\000\000\000\000\000\000\000\000\000\000\000\000\000\000\000\000\000\000\000\000\000\000\000\000\000\000\000\000\000\000\000\000\000\000\000\000\000\000\000\000\000\000\000\000\000\000\000\000\000\000\000\000\000\000uX\377\b\265\211\3207\223\235\372\fErUT\003G\2216\275\300U\321D#\000\000\000\000\000\000\000\000\000\000\000\000\000\000\000\000\000\000\000\000\000\000\000\000\000\000\000\000\000\000\000\000\000\000\000\000\000\000\000\000\000\000\000\000\000\000\000\000\000\000\000\000\000\000\350\264\241\366\351\206Hl\322\366\364A7{\035\345/\315\217Ja\223\266`\202\267\327\000\000\000\000\000\000\000\000\000\000\000\000\000\000\000\000\000\000\000\000\000\000\000\000\000\000\000\000\000\000\000\000\000\000\000\000\000\000\000\000\000\000\000\000\000\000\000\000\000\000\000\000\000\377]\250\351\227x\210\215\325n\212\021y\371\"K5\252\227%\256g`Ga+\347\323\000\000\000\000\000\000\000\000\000\000\000\000\000\000\000\000\000\000\000\000\000\000\000\000\000\000\000\000\000\000\000\000\000\000\000\000\000\000\000\000\000\000\000\000\000\000\000\000\000\000\000\000\321\322k\244FA\204\231W\271\330Y\355\333IN\250\337\206\034a\316A\254\031\356\221\2733\000\000\000\000\000\000\000\000\000\000\000\000\000\000\000\000\000\000\000\000\000\000\000\000\000\000\000\000\000\000\000\000\000\000\000\000\000\000\000\000\000\000\000\000\000\000\000\000\000\000\000\215\fQ\001;\355\221Vz\020Ga\033\t\225\341\276E\007k\337i\305\271\336Q\247,\024\017\000\000\000\000\000\000\000\000\000\000\000\000\000\000\000\000\000\000\000\000\000\000\000\000\000\000\000\000\000\000\000\000\000\000\000\000\000\000\000\000\000\000\000\000\000\000\000\000\000\0005^\262\231\203\252\030U\275}\365\254x\007tX\324\t\2274\270F\377 \315\306?3\276\007\006\000\000\000\000\000\000\000\000\000\000\000\000\000\000\000\000\000\000\000\000\000\000\000\000\000\000\000\000\000\000\000\000\000\000\000\000\000\000\000\000\000\000\000\000\000\000\000\000\000h\201\243\3527_\220\256\371\002\221h\023g\312\323&\002x\321:=\025\354_k\307\344\202\237\270\343\000\000\000\000\000\000\000\000\000\000\000\000\000\000\000\000\000\000\000\000\000\000\000\000\000\000\000\000\000\000\000\000\000\000\000\000\000\000\000\000\000\000\000\000\000\000\000\000\322\323=$\030\225\b\030v\\\310dA\026\200\365a\340!\021$\266\317v\233\363v\203\017\342\026\025\334\000\000\000\000\000\000\000\000\000\000\000\000\000\000\000\000\000\000\000\000\000\000\000\000\000\000\000\000\000\000\000\000\000\000\000\000\000\000\000\000\000\000\000\000\000\000\000\213\004\263\275C\016Y\212\355\230>\232>kr\275\006\217_Zt\355g*_\313\352G\254\322\332\347\305\276\000\000\000\000\000\000\000\000\000\000\000\000\000\000\000\000\000\000\000\000\000\000\000\000\000\000\000\000\000\000\000\000\000\000\000\000\000\000\000\000\000\000\000\000\000\0009f!\340\314\275\213k=M\265~\374\217\354\212\211T\257`n\001\262/;\361\300\373\215\375YmPFt\000\000\000\000\000\000\000\000\000\000\000\000\000\000\000\000\000\000\000\000\000\000\000\000\000\000\000\000\000\000\000\000\000\000\000\000\000\000\000\000\000\000\000\000\000pQb\341\031;\270\257,sw_\211e!D\004\002\022\345\266P\373\334\263Txf\265\242\372\202\332\362\177\365\000\000\000\000\000\000\000\000\000\000\000\000\000\000\000\000\000\000\000\000\000\000\000\000\000\000\000\000\000\000\000\000\000\000\000\000\000\000\000\000\000\000\000\000\342\204\265u\f\305\337I\013\3259\003a\311<F\033\020\033\244\261\211\276\254\332\r/\2273\340y`\311\200\271\215O\000\000\000\000\000\000\000\000\000\000\000\000\000\000\000\000\000\000\000\000\000\000\000\000\000\000\000\000\000\000\000\000\000\000\000\000\000\000\000\000\000\000\000\353\265\245\361\246\251\334\200P\206\252\337z\327S\2677\323\213g\254)\313{\217\351J\355\250fZ\246\336\357\215e\036m\000\000\000\000\000\000\000\000\000\000\000\000\000\000\000\000\000\000\000\000\000\000\000\000\000\000\000\000\000\000\000\000\000\000\000\000\000\000\000\000\000\000\371U\200\331\377\267,\t8\277\256\031\305@|\2706\272\354\251\374\203S\201\no\216m$\204\030+\300B%\307j\234\344\000\000\000\000\000\000\000\000\000\000\000\000\000\000\000\000\000\000\000\000\000\000\000\000\000\000\000\000\000\000\000\000\000\000\000\000\000\000\000\000\000\335\352F\tt\320.\240\021\234\241(\366L\024c\305LW\2701\210\357\237\376*#h\301 X<\225\372\005G.\205\263\034\000\000\000\000\000\000\000\000\000\000\000\000\000\000\000\000\000\000\000\000\000\000\000\000\000\000\000\000\000\000\000\000\000\000\000\000\000\000\000\000\225\334\371D&QGO\364\340\017\205\204\320\323Z\245T\220\211\372\234xe\210\254\301\330c50\302\336\006\216\002+j{\025#\000\000\000\000\000\000\000\000\000\000\000\000\000\000\000\000\000\000\000\000\000\000\000\000\000\000\000\000\000\000\000\000\000\000\000\000\000\000\000\005\t\005\342\261\2262E\312\370e69\375\001\025y9o\326i\247\td_\257\b\362\205\365\002zi\367\231\026&\023\037\211\301M\000\000\000\000\000\000\000\000\000\000\000\000\000\000\000\000\000\000\000\000\000\000\000\000\000\000\000\000\000\000\000\000\000\000\000\000\000\000\b0`\333\177\250\242\002\304\323\t\265J\305T\030\2206W'\316x\311\001\321\003\240\232\233\242?`q(\276\315\330\260\330\022\312\031f\000\000\000\000\000\000\000\000\000\000\000\000\000\000\000\000\000\000\000\000\000\000\000\000\000\000\000\000\000\000\000\000\000\000\000\000\000\022\340\332\202\276\352\231\335\360\t\030\177^O\224\223\315g\261\202\277F\315y\313&\216q.\r\340L(\346Y'\310_\276\375sO!\005\000\000\000\000\000\000\000\000\000\000\000\000\000\000\000\000\000\000\000\000\000\000\000\000\000\000\000\000\000\000\000\000\000\000\000\000&\277\375\031C\023[\306\347\031\241\305\332\221I\3413G\217zB\213\251Y\367\276X\321\237V\211k\251\005\306u*\233T\004\n\226\374_\344\000\000\000\000\000\000\000\000\000\000\000\000\000\000\000\000\000\000\000\000\000\000\000\000\000\000\000\000\000\000\000\000\000\000\000N>J\353r>\215\262(b\220v\255\212H+\025M/\177\202\316!\335S\253\207\035\013=/3o\201#\272\350\240\262r\207q\310\305\035\303\000\000\000\000\000\000\000\000\000\000\000\000\000\000\000\000\000\000\000\000\000\000\000\000\000\000\000\000\000\000\000\000\000\000\236\355\327\017\335\375\0205\342\231\217\244Y\230\245B\263v\241\356\310M\374\230\017-/y^\016\357\242{\027\375rLR)\270D\025V\242\363\226T\000\000\000\000\000\000\000\000\000\000\000\000\000\000\000\000\000\000\000\000\000\000\000\000\000\000\000\000\000\000\000\000\000\023\341\375\\\325E\257\240\223\273W\260,R\360\272\212BdxX\203\315\252Z%\027v\223\020j\277W\355\274\315\347\356\205\356\026u `\337\254\204\365\000\000\000\000\000\000\000\000\000\000\000\000\000\000\000\000\000\000\000\000\000\000\000\000\000\000\000\000\000\000\000\000$\277\340\017\207\215X\206\245\335\252.\035\025\205\227@\201\026\266\330\r\254\360\227\305\362\3644vmVvs\350\265\275A\210=\033\300\336n\315\237\373\021\306\000\000\000\000\000\000\000\000\000\000\000\000\000\000\000\000\000\000\000\000\000\000\000\000\000\000\000\000\000\000\000J6\242[\247\332\324\267\234J\020\231O\347p\034\031\271\b\361\363LP\016\315\234Ar\373\361\016\216\t\020p\346$\337\336J\365{\226f\247+\245\376\246\001\000\000\000\000\000\000\000\000\000\000\000\000\000\000\000\000\000\000\000\000\000\000\000\000\000\000\000\000\000\000\226\335\024\026\214L\303<\026\277\373\205a\327\226H\fw\036\377\233\261)bQ\331\264\336:\002f\022u\302l\262\036\340\022Z\036\024\205\b}\275\332\375\216K\334\000\000\000\000\000\000\000\000\000\000\000\000\000\000\000\000\000\000\000\000\000\000\000\000\000\000\000\000\000\003\001\246 \275\2631\243L\216\336N\027\322?\224\360e*\322^\352\031\233\306\224\bu\032Qa\213J\361f0\274\315oe\3359\263~a\222\370\323L\263\262'\000\000\000\000\000\000\000\000\000\000\000\000\000\000\000\000\000\000\000\000\000\000\000\000\000\000\000\000\004\b\241%]\367_4RG\003\016\320\267[)k\357<\004:]\325\324p\234\223M|\027\373\201\214*\353/,\216VE\313p\034\0206\230qa/z\334N\365\000\000\000\000\000\000\000\000\000\000\000\000\000\000\000\000\000\000\000\000\000\000\000\000\000\000\000\n0\321\005\206\246LygL\336\034\204c\277\\\370\227\277A\002<\2046\234f\370|\315\2451\332A\241j\224\233+\301v\n&\346\270\326\261\"\225;\315J\322V\017\000\000\000\000\000\000\000\000\000\000\000\000\000\000\000\000\000\000\000\000\000\000\000\000\000\000\026\350\313\234\352EX*B,\2151\371\270\257YF\005\255D\335\004\016\355\316\260\204\356\204A\001\334\034~*x\255\251\362\002\233\376Yo\207|\217Z\021\023\256\311\353i\264\000\000\000\000\000\000\000\000\000\000\000\000\000\000\000\000\000\000\000\000\000\000\000\000\000.\2175\351k\313+\233\034\367C\177\365\211\r\244\317>u\311\226\026\356\220\350\035\313u\352\332\222\3446\204\310&\337$\237\226\353\327\300\346\252\257\035d\320\334\021\f\356\337\t\257\000\000\000\000\000\000\000\000\000\000\000\000\000\000\000\000\000\000\000\000\000\000\000\000^\336I\034\312|\301WN.\333\224l\361|\316\1779\347G\234. L\335\314b\237d\353\3131\375\341\323\\y\340\331)\323\226\363k\201\345\312\315\355\222E\277\364\003\315(\327\000\000\000\000\000\000\000\000\000\000\000\000\000\000\000\000\000\000\000\000\000\000\000\276Z\f\311Ue\323\200\351\001y\306\361H{\334\221&\024\361\220p\2027\037\204a\3777\221I\310\315\322\177\315\020\345\225\226\213\007\203\201\302\304\221\324\016\n\302^\334\023\300\313of\000\000\000\000\000\000\000\000\000\000\000\000\000\000\000\000\000\000\000\000\000\000S\347\352\241}\361\312\217F\337\224\314\253F\021!\354\037\326I\236\244\316oK\215\r%\246\305pO\b9\235\363\373\236#lk\031Z4\200]<\355\330\225\236\307\371n\241\245\260#\003\000\000\000\000\000\000\000\000\000\000\000\000\000\000\000\000\000\000\000\000\000\244\212h\0048N\326\353\321\030Z\342\247\273\326 \332\322\304\013\2752\327\240\301mY\002;\037\360\327CB&Q$:\265\231\3258 \325\034.B\n\342\304GQ\272\t\334\340^g\3664\000\000\000\000\000\000\000\000\000\000\000\000\000\000\000\000\000\000\000\000g\270\323.C\326\203ou\217m\r6\341\300\244u\333;\345#\364\022\347\210;\313\205\220\357\324,\004Y\376.U\356\206\251\307\324\270z\360b\313\322\277U\2511\313\334\3519d\3639\037\025\000\000\000\000\000\000\000\000\000\000\000\000\000\000\000\000\000\000\000\314\013/V|\340\246^\007\350k\004\252\260\037\243\021\274\202(\nW?3\332\033\006\223,\241Gr@\257\335\271j\372\276\305?\365\346\206p\271%\304l\217\275\311\274\312v'\322\2202\251]\362\000\000\000\000\000\000\000\000\000\000\000\000\000\000\000\000\000\000\267k\rS\331\372N`\r\244,!k\340e3\225\264\2261C\016\341E\302?W\244=)5\337\302N7\321\304\244|'\213\203\307Y\250\315\213\230\243\346\261\246f\336!dx\033\256\312\200um\000\000\000\000\000\000\000\000\000\000\000\000\000\000\000\000\000A\007Gy\347\205\347\222\003\216\221\034|\252\230d\245\370\315J\262\326\374Nt\342\2735\200\004Q\201\323\223\305N\310\027\301\023\3624\003\335$\254\275/\305\303\"\244\032\276\306s\331\200\f\305.\206\334$\000\000\000\000\000\000\000\000\000\000\000\000\000\000\000\000\2005Z\227=O\236X\206\340`\367\b\302\365\250\312n\035&\b\274\371\355\275l\303x<\317\"R\331$\201\304\001\311=\352}\255~\263\2510\f\276\321It\344M\0269\227J~\307P\244S\313h\234\000\000\000\000\000\000\000\000\000\000\000\000\000\000\000/\216\017!S\373\216xC\316\343\317^#\366\215c\214Qan]Y\317\226c\374\324\n\324\211\322\216\365\224\320\227f\003^l\322\236\020\3226\020\271\002y\361\325(uC\305$'d\032\200\3753%ES\000\000\000\000\000\000\000\000\000\000\000\000\000\000\\\336\274\272\353&,\313/\340\353q%\203\250REi\004Zm\305l\033\355\314\031\002\370\335{\025{F\336\231\204\272t\313\314\254kP!\303/J\375\237\356~\251QR\353V\r\333\213z\246\226\210\034z\335\000\000\000\000\000\000\000\000\000\000\000\000\000\272Rg`?\204\231l6@\275\323\3501\031\2544;\361\265\357\337\210\347\322`\350\334\031\263\247\312\271\231\213B\354\343\240\017\325]zD\261\236\305\352\264\370\210\325\177I$\232\364\223!Y8\237\225\373Y\255\344\334\000\000\000\000\000\000\000\000\000\000\000"
	.size	.Lstatic.46, 5520

	.type	.Lstatic.47,@object
.Lstatic.47:
	.ascii	"\001\001\001\001\001\001\001\001\001\001\001\001\001\001\001\001\001\001\001\001\001\001\001\001\001\001\001\001\001\001\001\001\001\001\001\001\001\001\001\001\001\001\001\001\001\001\001\001\001\001\001\001\001\001\001\001\001\001\001\001\001\001\001\001\001\001\001\001\001\001\001\001\001\001\001\001\001\001\001\001\001\001\001\001\001\001\001\001\001\001\001\001\001\001\001\001\001\001\001\001\001\001\001\001\001\001\001\001\001\001\001\001\001\001\001\001\001\001\001\001\001\001\001\001\001\001\001\001\001\001\001\001\001\001\001\001\001\001\001\001\001\001\001\001\001\001\001\001\001\001\001\001\001\001\001\001\001\001\001\001\001\001\001\001\001\001\001\001\001\001\001\001\001\001\001\001\001\001\001\001\001\001\001\001\001\001\001\001\001\001\001\001\001\001\001\001\001\001\001\001\001\001\001\001\001\001\001\001\001\001\001\001\001\001\001\001\001\001\001\001\001\001\001\001\001\001\001\001\001\001\001\001\001\001\001\001\001\001\001\001\001\001\001\001\001\001\001\001\001\001\001\001\001\001\001\001\001\002\004\b\020 @\200-Z\264E\2129r\344\345\347\343\353\373\333\233\0336l\330\235\027.\\\270]\272Y\262I\222\t\022$H\220\r\0324h\320\2157n\334\225\007\016\0348p\340\355\367\303\253{\366\301\257s\346\341\357\363\313\273[\266A\202)R\244e\312\271_\276Q\242i\322\211?~\374\325\207#F\2145j\324\205'N\234\025*T\250}\372\331\237\023&L\230\035:t\350\375\327\203+V\254u\352\371\337\223\013\026,X\260M\232\0312d\310\275W\256q\342\351\377\323\213;v\354\365\307\243k\326\201/^\274U\252y\362\311\277S\246a\302\251\177\376\321\2173f\314\265G\2161b\304\245g\316\261O\236\021\"D\210=z\364\305\247c\306\241o\336\221\017\036<x\360\315\267C\206!B\204%J\224\005\n\024(P\240m\332\231\037>|\370\335\227\003\006\f\0300`\300\255w\356\361\317\263K\226\001\001\004\020@-\264\212r\345\343\373\2336\330\027\\]YI\t$\220\032h\215n\225\0168\340\367\253\366\257\346\357\313[A)\244\312_Qi\211~\325#\214j\205N\025T}\331\023L\035t\375\203Vu\371\223\026XM\031d\275\256\342\377\213v\365\243\326/\274\252\362\277\246\302\177\3213\314G1\304g\261\236\"\210z\305c\241\336\017<\360\267\206B%\224\n(\240\332\037|\335\003\f0\300w\361\263\226\002\b \200ZE9\344\347\353\333\033l\235.\270\272\262\222\022H\r4\3207\334\007\034p\355\303{\301s\341\363\273\266\202Re\271\276\242\322?\374\207F5\324'\234*\250\372\237&\230:\350\327+\254\352\337\013,\260\2322\310Wq\351\323;\354\307k\201^Uy\311Sa\251\376\217f\265\216b\245\316O\021D=\364\247\306o\221\036x\315C!\204J\005\024Pm\231>\370\227\006\030`\255\356\317K\001\001\b@Z\212\344\343\3336\235\\\272I\022\2204\215\334\016p\367{\257\341\313\266)e_\242\211\374#5\205\234T\372\023\230t\327V\352\223,M2\275q\377;\365k/U\362S\302\3763\2651\245\261\021\210\364co\017x\267!%\005(m\037\370\003\030\300\356\263\001\b@Z\212\344\343\3336\235\\\272I\022\2204\215\334\016p\367{\257\341\313\266)e_\242\211\374#5\205\234T\372\023\230t\327V\352\223,M2\275q\377;\365k/U\362S\302\3763\2651\245\261\021\210\364co\017x\267!%\005(m\037\370\003\030\300\356\263\001\b@Z\212\344\343\3336\235\\\272I\022\2204\215\334\016p\367{\257\341\313\266)e_\242\211\374#5\205\234T\372\023\230t\327V\352\223,M2\275q\377;\365k/U\362S\302\3763\2651\245\261\021\210\364co\017x\267!%\005(m\037\370\003\030\300\356\263\001\001\020-\212\345\3736\027]I$\032\215\2258\367\366\346\313A\244_i~#jNT\331Lt\203u\223X\031\275\342\213\365\326\274\362\246\1773G\304\261\"zc\336<\267B\224(\332|\0030w\263\002 Z9\347\333l.\272\222H47\007p\303\301\341\273\202e\276\322\374F\324\234\250\237\230\350+\352\013\2602W\351;\307\201U\311a\376f\216\245OD\364\306\221xC\204\005P\231\370\006`\356K\004@\264r\343\233\330\\Y\t\220hn\016\340\253\257\357[)\312Q\211\325\214\205\025}\023\035\375V\371\026Md\256\377v\243/\252\277\302\321\3141g\236\210\305\241\017\360\206%\n\240\037\335\f\300\361\226\b\200E\344\353\033\235\270\262\022\r\320\334\034\355{s\363\266R\271\242?\2075'*\372&:\327\254\337,\232\310q\323\354k^yS\251\217\265b\316\021=\247o\036\315!J\024m>\227\030\255\317\001\001 \264\344\373l\\\262$4n\034\367\301\357\266\244\276\211\207j\234}&t+\371,\031W\377\354\326U\277\2513\216g\021z\306\017\315B\005\240>\003`\361\001 \264\344\373l\\\262$4n\034\367\301\357\266\244\276\211\207j\234}&t+\371,\031W\377\354\326U\277\2513\216g\021z\306\017\315B\005\240>\003`\361\001 \264\344\373l\\\262$4n\034\367\301\357\266\244\276\211\207j\234}&t+\371,\031W\377\354\326U\277\2513\216g\021z\306\017\315B\005\240>\003`\361\001 \264\344\373l\\\262$4n\034\367\301\357\266\244\276\211\207j\234}&t+\371,\031W\377\354\326U\277\2513\216g\021z\306\017\315B\005\240>\003`\361\001 \264\344\373l\\\262$4n\034\367\301\357\266\244\276\211\207j\234}&t+\371,\031W\377\354\326U\277\2513\216g\021z\306\017\315B\005\240>\003`\361\001\001@\212\3436\\I\220\215\016\367\257\313)_\211#\205T\023tV\223M\275\377\365/\362\30231\261\210c\017\267%(\037\003\300\263\bZ\344\333\235\272\0224\334p{\341\266e\242\3745\234\372\230\327\352,2q;kUS\376\265\245\021\364ox!\005m\370\030\356\001@\212\3436\\I\220\215\016\367\257\313)_\211#\205T\023tV\223M\275\377\365/\362\30231\261\210c\017\267%(\037\003\300\263\bZ\344\333\235\272\0224\334p{\341\266e\242\3745\234\372\230\327\352,2q;kUS\376\265\245\021\364ox!\005m\370\030\356\001@\212\3436\\I\220\215\016\367\257\313)_\211#\205T\023tV\223M\275\377\365/\362\30231\261\210c\017\267%(\037\003\300\263\bZ\344\333\235\272\0224\334p{\341\266e\242\3745\234\372\230\327\352,2q;kUS\376\265\245\021\364ox!\005m\370\030\356\001\001\200r\333\027\262\22078{\357\202_?\214\234\331:V\013\031qv\201\362\251\314\245\"\247\017C\224m\335`\263\020E\343l]\022h\007\367s[ei\207\205\250L\327\371\260\275\323\243U\246\2171Ozo\360\204(>\f\356\002-\344\233.I\rnp\366\363)\276~5\025\237t\254\0262\342\354/\311\177\265gDc\036\206\005\332\227\300K \212\353\330\272$\320\016\303\346\266\312\322#'}\230\203\337MW\213k\252a3b\236\364\336\315%P|\030\361\004Z\345\033\\\222\032\334\340\301\313RQ\374j*\023\350u,d\351\365^\277\376G\316\210\306<!\n\231\003\255\226@9\373\235YH\215\034\253\341A\271\211FN\372\035+\223\232\256;\326y\302f\304\021\305\221\267J\240\3700\317\b\264\3476\270\t4\225\355\257\273\244\242\325\324T&\375\352X\310\377\307\274S\321\216\261=\241xB\024\037\006w\001\001-\3456]$\2158\366\313\244i#N\331tuX\275\213\326\362\177G\261z\336\267\224\332\003w\002Z\347l\272H7p\301\273e\322F\234\237\350\352\260W;\201\311\376\216O\364\221C\005\231\006\356\004\264\343\330Y\220n\340\257[\312\211\214\025\023\375\371M\256v/\277\3211\236\305\017\206\n\037\f\361\bE\353\235\262\r\334\355s\266\271?5*&\327\337\232q\354^S\217b\021\247\036!\024>\030\317\020\212\373\027I\032\225\367\346A_~jTL\203\223\031\342\365\274\2463\304\"c<B(|0\263 9\333.\2224\007\303\341\202\276\374\324\250\230+\0132\351\307Uaf\245D\306x\204P\370`K@r\233\\\th\016\253\357)Q\325\205}\035V\026d\377\243\252\302\314g\210\241\360%\240\335\300\226\200\344\033\270\022\320\034{\363R\242\207'\372:\254,\310\323ky\251\265\316=o\315Jm\227\255\001\001Z\343\235I4\016{\313e\2115T\230V,\275;/S3\245\210o\267\005\037\030\263@\3446\272\220\334\367\341)\242#\234\023\327\2232\377k\362\3761\021cx%m\003\356\b\212\333\\\022\215p\257\266_\374\205\372t\352Mq\365U\302\265\261\364\017!(\370\300\001Z\343\235I4\016{\313e\2115T\230V,\275;/S3\245\210o\267\005\037\030\263@\3446\272\220\334\367\341)\242#\234\023\327\2232\377k\362\3761\021cx%m\003\356\b\212\333\\\022\215p\257\266_\374\205\372t\352Mq\365U\302\265\261\364\017!(\370\300\001Z\343\235I4\016{\313e\2115T\230V,\275;/S3\245\210o\267\005\037\030\263@\3446\272\220\334\367\341)\242#\234\023\327\2232\377k\362\3761\021cx%m\003\356\b\212\333\\\022\215p\257\266_\374\205\372t\352Mq\365U\302\265\261\364\017!(\370\300\001\001\264\373\\$n\367\357\244\211j}t\371\031\377\326\2773gz\017B\240\003\361 \344l\2624\034\301\266\276\207\234&+,W\354U\251\216\021\306\315\005>`\001\264\373\\$n\367\357\244\211j}t\371\031\377\326\2773gz\017B\240\003\361 \344l\2624\034\301\266\276\207\234&+,W\354U\251\216\021\306\315\005>`\001\264\373\\$n\367\357\244\211j}t\371\031\377\326\2773gz\017B\240\003\361 \344l\2624\034\301\266\276\207\234&+,W\354U\251\216\021\306\315\005>`\001\264\373\\$n\367\357\244\211j}t\371\031\377\326\2773gz\017B\240\003\361 \344l\2624\034\301\266\276\207\234&+,W\354U\251\216\021\306\315\005>`\001\264\373\\$n\367\357\244\211j}t\371\031\377\326\2773gz\017B\240\003\361 \344l\2624\034\301\266\276\207\234&+,W\354U\251\216\021\306\315\005>`\001\001E\233\272\032\034\257\202i5}\350\223\310vU\177b\210\221Bm\fKZ\373\270\220\007\366\266QFT:\3712\213^\302\216\"o\206P\003\317\200\343.$\334\253\273_\207\025\230u\232\377\201\246\265\236\306\267\024\335\356 \345\235\t7\367\363\312\374N&V\260\342k\277f\261\247\360\005|\255\brlI\320\340\341\244?\205\237\203,\256\307\362\217g\364<J\037`\002\212\033Y48s)\322j\372\375\013\275\354\252\376\304=\017\204\332\030\226\264\333]\r\016\301A\242\214\250t\337d;\274\2511D\336!\240\006\263-\353\\H\225{[\276#*\035\352\031\323/aG\021\241C(\227\361@\347\027\022n\303\313\271\325\234L\254M\351\326S\314Oc\315\n\370w\020\344\330\222\215\355\357e~'\023+Xq\243\3113\316\305x\224>\300\00496\262hp\346R\211\324\331\327\026W\365y\321\245z\036%\2310\001\001\2126I\215\367\313_#Tt\223\275\365\3623\261c\267(\003\263Z\333\2724p\341e\374\234\230\3522;U\376\245\364x\005\370\356@\343\\\220\016\257)\211\205\023VM\377/\3021\210\017%\037\300\b\344\235\022\334{\266\2425\372\327,qkS\265\021o!m\030\001\2126I\215\367\313_#Tt\223\275\365\3623\261c\267(\003\263Z\333\2724p\341e\374\234\230\3522;U\376\245\364x\005\370\356@\343\\\220\016\257)\211\205\023VM\377/\3021\210\017%\037\300\b\344\235\022\334{\266\2425\372\327,qkS\265\021o!m\030\001\2126I\215\367\313_#Tt\223\275\365\3623\261c\267(\003\263Z\333\2724p\341e\374\234\230\3522;U\376\245\364x\005\370\356@\343\\\220\016\257)\211\205\023VM\377/\3021\210\017%\037\300\b\344\235\022\334{\266\2425\372\327,qkS\265\021o!m\030\001\0019\330\022\225\301)?N\230\371\310\365\311\314\021\336\204\037\255 \343\270\032p\357\271#\250\375,\342\201\302bzx\n\227\263\264\033I7\253\266i\324\023\254\031;\252\217\261\306\206m0\004\344\027H\016s\244\374\025:\223W\243SGD\017J|\356\200\373\272h\355\313\276\214\372\203\260\377^\177\245\305\315(\006\226\212l\t\334\366\202\211'L\352d\354\362f\236oB\231\300\020\347\\\r8\341\312\207T\350\026q\326a1=<\005\335\317Z\233\262\215\303[\242j\237V\232\213U\321\316cC\240\030\002r\235$\007\257R~\234\035\337\275\307\277\265\"\221%>w@\353]4\340\363_F}\327X\351/\251\304\364\360\024\003KE6\222n{A\322\205&u2vy3O\241!\332`\b\345.\220\034\346e\325*t\013\256k\246\216\210\036\224\370\361-\333Y\320\367\273Q5\331+M\323\274\376g\247\267P\f\001\001r\027\2208\357_\214\331V\031v\362\314\"\017\224\335\263El\022\007se\207\250\327\260\323U\217Oo\204>\356-\233In\366)~\025t\026\342/\177gc\206\332\300 \353\272\320\303\266\322'\230\337Wkab\364\315P\030\004\345\\\032\340\313Qj\023ud\365\277G\210<\n\003\2269\235H\034\341\271F\372+\232;yf\021\221J\370\317\2646\t\225\257\244\325T\375X\377\274\321\261\241B\037w\200\333\2627{\202?\234:\013q\201\251\245\247Cm`\020\343]h\367[i\205L\371\275\243\2461z\360(\f\002\344.\rp\363\2765\237\2542\354\311\265D\036\005\227K\212\330$\016\346\312#}\203M\213\2523\236\336%|\361Z\033\222\334\301R\374*\350,\351^\376\316\306!\231\255@\373Y\215\253A\211N\035\223\256\326\302\304\305\267\2400\b\347\2704\355\273\242\324&\352\310\307S\216=x\024\006\001\001\344\\4\367\266\211\234t,\377U3\021\017\005\003\001\344\\4\367\266\211\234t,\377U3\021\017\005\003\001\344\\4\367\266\211\234t,\377U3\021\017\005\003\001\344\\4\367\266\211\234t,\377U3\021\017\005\003\001\344\\4\367\266\211\234t,\377U3\021\017\005\003\001\344\\4\367\266\211\234t,\377U3\021\017\005\003\001\344\\4\367\266\211\234t,\377U3\021\017\005\003\001\344\\4\367\266\211\234t,\377U3\021\017\005\003\001\344\\4\367\266\211\234t,\377U3\021\017\005\003\001\344\\4\367\266\211\234t,\377U3\021\017\005\003\001\344\\4\367\266\211\234t,\377U3\021\017\005\003\001\344\\4\367\266\211\234t,\377U3\021\017\005\003\001\344\\4\367\266\211\234t,\377U3\021\017\005\003\001\344\\4\367\266\211\234t,\377U3\021\017\005\003\001\344\\4\367\266\211\234t,\377U3\021\017\005\003\001\001\345]\215\366\244#\331u\275\326\177\261\336\224\003\002\347\2727\301eF\237\352W\201\376O\221\005\006\004\343Yn\257\312\214\023\371\256/\321\236\017\n\f\b\353\262\334s\2715&\337q^\217\021\036\024\030\020\373I\225\346_jL\223\342\2743\"<(0 \333\222\007\341\276\324\230\013\351UfDxP`@\233\t\016\357Q\205\035\026\377\252\314\210\360\240\300\200\033\022\034\363\242':,\323y\265=\315m\255-6$8\313iNtX\213\362Gz\267\332wZlHp\273\322\234\350\260;\311\216\364C\231\356\264\330\220\340[\211\025\375Mv\2771\305\206\037\361E\235\r\355\266?*\327\232\354Sb\247!>\317\212\027\032\367A~T\203\031\365\246\304cB|\2639.4\303\202\374\250+2\307a\245\306\204\370Kr\\h\253)\325}Vd\243\302g\241%\335\226\344\270\320{R\207\372\254\310k\251\316oJ\227\001\001\347Y\334\346\276\205:X;\277bc\204\335\001\347Y\334\346\276\205:X;\277bc\204\335\001\347Y\334\346\276\205:X;\277bc\204\335\001\347Y\334\346\276\205:X;\277bc\204\335\001\347Y\334\346\276\205:X;\277bc\204\335\001\347Y\334\346\276\205:X;\277bc\204\335\001\347Y\334\346\276\205:X;\277bc\204\335\001\347Y\334\346\276\205:X;\277bc\204\335\001\347Y\334\346\276\205:X;\277bc\204\335\001\347Y\334\346\276\205:X;\277bc\204\335\001\347Y\334\346\276\205:X;\277bc\204\335\001\347Y\334\346\276\205:X;\277bc\204\335\001\347Y\334\346\276\205:X;\277bc\204\335\001\347Y\334\346\276\205:X;\277bc\204\335\001\347Y\334\346\276\205:X;\277bc\204\335\001\347Y\334\346\276\205:X;\277bc\204\335\001\347Y\334\346\276\205:X;\277bc\204\335\001\001\343I\016\313\211TV\275/3\210\267\037\263\344\272\334\341\242\234\3272k\376\021xm\356\212\\\215\257_\205tM\365\302\261\017(\300Z\2354{e5\230,;S\245o\005\030@6\220\367)#\023\223\377\3621c%\003\b\333\022p\266\374\372\352qU\265\364!\370\001\343I\016\313\211TV\275/3\210\267\037\263\344\272\334\341\242\234\3272k\376\021xm\356\212\\\215\257_\205tM\365\302\261\017(\300Z\2354{e5\230,;S\245o\005\030@6\220\367)#\023\223\377\3621c%\003\b\333\022p\266\374\372\352qU\265\364!\370\001\343I\016\313\211TV\275/3\210\267\037\263\344\272\334\341\242\234\3272k\376\021xm\356\212\\\215\257_\205tM\365\302\261\017(\300Z\2354{e5\230,;S\245o\005\030@6\220\367)#\023\223\377\3621c%\003\b\333\022p\266\374\372\352qU\265\364!\370\001\001\353\tpA\207\023\013\213Sg\221(\255E\\7\346\242\025+\275^\314\364B\227\b\233H\367R\214\230X\354\302O<m\361r\272\225\363\211\250uq\252\216cJ\f@l\032{\312\324t\232\243\376\"\315\037K\347I\034[\374\331\337\377\311\304o\n`Z\027\320\257\276N\327d\2013=\206\370\002\373\022\340\202#&\026;\246\316\017Pw\212\270n\341i*VW\274\265\305\204\003\020\033\220\303\2445\035\260\365\251\236x\332\317\344Y\007\313?}\352\342y1\306\224\030\200\3304\366\271\205\350\031k\321D\267>\226\343\2228\266\325\237\223\323\277\245\336\024\300\264.\215sQ\234\203\310/fz!\335\004\333$\355)FL,va\261\036\240\3569]\334\357\322T\254\256UG\247%\006 6\r\253ej:M\307\177\021\360\231\263\345\262\016\273~\372\371\351\362b\241\0050-\235h\301_'\3752\326\217\210C|\001\001\373$\367\244jt\031\3263zB\003 l4\301\276\234+WU\216\306\005`\264\\n\357\211}\371\377\277g\017\240\361\344\262\034\266\207&,\354\251\021\315>\001\373$\367\244jt\031\3263zB\003 l4\301\276\234+WU\216\306\005`\264\\n\357\211}\371\377\277g\017\240\361\344\262\034\266\207&,\354\251\021\315>\001\373$\367\244jt\031\3263zB\003 l4\301\276\234+WU\216\306\005`\264\\n\357\211}\371\377\277g\017\240\361\344\262\034\266\207&,\354\251\021\315>\001\373$\367\244jt\031\3263zB\003 l4\301\276\234+WU\216\306\005`\264\\n\357\211}\371\377\277g\017\240\361\344\262\034\266\207&,\354\251\021\315>\001\373$\367\244jt\031\3263zB\003 l4\301\276\234+WU\216\306\005`\264\\n\357\211}\371\377\277g\017\240\361\344\262\034\266\207&,\354\251\021\315>\001\001\333\220{_\234Vq\362\245\017m\263\343\022\367e\205\327\275U1o(\356\344Ip)5t2/\265c\005\300\212\272\016\266#\230Mk3\364%\030Z\\\334\313\374\023,\365\376\210!\003@\235\215\341\211\372\223;\302\021\267\370\b64\257\242T\352\377S\261x\037\001\333\220{_\234Vq\362\245\017m\263\343\022\367e\205\327\275U1o(\356\344Ip)5t2/\265c\005\300\212\272\016\266#\230Mk3\364%\030Z\\\334\313\374\023,\365\376\210!\003@\235\215\341\211\372\223;\302\021\267\370\b64\257\242T\352\377S\261x\037\001\333\220{_\234Vq\362\245\017m\263\343\022\367e\205\327\275U1o(\356\344Ip)5t2/\265c\005\300\212\272\016\266#\230Mk3\364%\030Z\\\334\313\374\023,\365\376\210!\003@\235\215\341\211\372\223;\302\021\267\370\b64\257\242T\352\377S\261x\037\001\001\233\032\257i}\223v\177\210B\fZ\270\007\266F:2^\216oP\317\343$\253_\025u\377\246\236\267\335 \2357\363\374&\260kf\247\005\255rI\340\244\205\203\256\362g<\037\002\0334s\322\372\013\354\376=\204\030\264]\016A\214td\2741\336\240\263\353H{\276*\352\323a\021C\227@\027n\313\325LM\326\314c\nw\344\222\355e'+q\311\316x>\0046h\346\211\331\026\365\321z%0E\272\034\2025\350\310Ub\221mK\373\220\366QT\371\213\302\"\206\003\200.\334\273\207\230\232\201\265\306\024\356\345\t\367\312NV\342\277\261\360|\bl\320\341?\237,\307\217\364J`\212Y8)j\375\275\252\304\017\332\226\333\r\301\242\250\337;\251D!\006-\\\225[#\035\031/G\241(\361\347\022\303\271\234\254\351SO\315\370\020\330\215\357~\023X\2433\305\224\3009\262pR\324\327Wy\245\036\231\001\001\033h\341~&M\201Go\240K\333\032s\211\237Xk\314\306(\317\353\220\301i\372\026\3073\247\n\356\347${Q\250\223\354\321\364\224\255\344\t\303_*\371;\177=%`9I\355\312\234u\323\302DB\030EYp\244'V\351\246\021\206\006Z]\034)\324\203q\277O\267\227\200\\\007A5\375W\362\316\360\370 \027\334[Ft\310\252\245<>\b\3307\313\207\0352\274b\017\231\0026\320\357\374L\232/\216\336m\226\2334\346?\023\260\326\265\241P\263\373\r\257\322\331,\243fc\024\361\343H\366\242}\013\365\217\305\005w\345\022\253\276T\337v\376zJ\300r\222\367\271\025\352\213\251\210\2040\212\262\340eN\254\377a\"!\f\264\2728R\205+\342S\236C\003-\270\016\202j\327\256\311\261\315\335@.\225\266\214\350\275ygx|\020\235n\273#:dU\304\036\037\004l\215\363\325\230\031^1\221\332\001\0016\215\313#t\275\362\261\267\003Z\272pe\234\352;\376\364\005\356\343\220\257\211\023M/1\017\037\b\235\334\2665\327qS\021!\030\212I\367_T\223\3653c(\263\3334\341\374\2302U\245x\370@\\\016)\205V\377\302\210%\300\344\022{\242\372,k\265om\0016\215\313#t\275\362\261\267\003Z\272pe\234\352;\376\364\005\356\343\220\257\211\023M/1\017\037\b\235\334\2665\327qS\021!\030\212I\367_T\223\3653c(\263\3334\341\374\2302U\245x\370@\\\016)\205V\377\302\210%\300\344\022{\242\372,k\265om\0016\215\313#t\275\362\261\267\003Z\272pe\234\352;\376\364\005\356\343\220\257\211\023M/1\017\037\b\235\334\2665\327qS\021!\030\212I\367_T\223\3653c(\263\3334\341\374\2302U\245x\370@\\\016)\205V\377\302\210%\300\344\022{\242\372,k\265om\001\001ln\266j+\377\251z\005\361\3734\357\207tW\277\021B`\344$\301\211&\031Ug\315\003\264\262\367\276},\326\216\017> \\\034\244\234\371\3543\306\240\001ln\266j+\377\251z\005\361\3734\357\207tW\277\021B`\344$\301\211&\031Ug\315\003\264\262\367\276},\326\216\017> \\\034\244\234\371\3543\306\240\001ln\266j+\377\251z\005\361\3734\357\207tW\277\021B`\344$\301\211&\031Ug\315\003\264\262\367\276},\326\216\017> \\\034\244\234\371\3543\306\240\001ln\266j+\377\251z\005\361\3734\357\207tW\277\021B`\344$\301\211&\031Ug\315\003\264\262\367\276},\326\216\017> \\\034\244\234\371\3543\306\240\001ln\266j+\377\251z\005\361\3734\357\207tW\277\021B`\344$\301\211&\031Ug\315\003\264\262\367\276},\326\216\017> \\\034\244\234\371\3543\306\240\001\001\330\225)N\371\365\314\336\037 \270p\271\250,\201bx\227\264I\253i\023\031\252\261\2060\344Hs\374:WSDJ\356\373h\313\214\203\377\177\305(\226l\334\202'\352\354fo\231\020\\8\312T\026\3261<\335Z\262\303\242\237\232U\316C\030r$\257~\035\275\277\"%w\3534\363F\327\351\251\364\024K6nA\205uv3\241\332\b.\034e*\013k\216\036\370-Y\367Q\331M\274g\267\f9\022\301?\230\310\311\021\204\255\343\032\357#\375\342\302z\n\263\0337\266\324\254;\217\306m\004\027\016\244\025\223\243G\017|\200\272\355\276\372\260^\245\315\006\212\t\366\211Ld\362\236B\300\347\r\341\207\350qa=\005\317\233\215[jV\213\321c\240\002\235\007R\234\337\307\265\221>@]\340_}X/\304\360\003E\222{\322&2yO!`\345\220\346\325t\256\246\210\224\361\333\320\2735+\323\376\247P\001\001\235\016eT,/\245\267\030\344\220\341#\327\377\376cm\b\\p_\372MU\261!\300\3434\3135V;3o\037@\272\367\242\0232\362\021%\356\333\215\266\205\352\365\265\017\370ZI{\211\230\275S\210\005\2636\334)\234\223k1x\003\212\022\257\374tq\302\364(\001\235\016eT,/\245\267\030\344\220\341#\327\377\376cm\b\\p_\372MU\261!\300\3434\3135V;3o\037@\272\367\242\0232\362\021%\356\333\215\266\205\352\365\265\017\370ZI{\211\230\275S\210\005\2636\334)\234\223k1x\003\212\022\257\374tq\302\364(\001\235\016eT,/\245\267\030\344\220\341#\327\377\376cm\b\\p_\372MU\261!\300\3434\3135V;3o\037@\272\367\242\0232\362\021%\356\333\215\266\205\352\365\265\017\370ZI{\211\230\275S\210\005\2636\334)\234\223k1x\003\212\022\257\374tq\302\364(\001\001\0278_\331\031\362\"\224\263l\007e\250\260UO\204\356\233n)\025\026/g\206\300\353\320\266'\337kb\315\030\345\032\313ju\365G<\0039H\341F+;f\221\370\264\t\257\325\375\377\321\241\037\200\262{?:q\251\247m\020]\367iL\275\246z(\002.p\276\2372\311D\005K\330\016\312}M\252\236%\361\033\334R*,^\316!\255\373\215AN\223\326\304\2670\3474\273\324\352\307\216x\006r\220\357\214Vv\314\017\335E\022s\207\327\323\217o>-I\366~t\342\177c\332 \272\303\322\230Wa\364P\004\\\340Q\023d\277\210\n\226\235\034\271\372\232y\021J\3176\225\244TX\274\261Bw\3337\202\234\013\201\245C`\343h[\205\371\2431\360\f\344\r\3635\254\354\265\036\227\212$\346#\203\2133\336|Z\222\301\374\350\351\376\306\231@Y\253\211\035\256\302\305\240\b\270\355\242&\310S=\024\001\001.\340\242LW\302\247\332@\262\366\374\375\3233\221\335\212H\3575u\3071\3150\343\320A\234\026^\261\204\3616\007\312\372\031\311\210\024\002\\\355i\230\256\251c\231\200I\301\325\327\213f\017\2279\220\363j\352\243b\267`\353\215\202\025,\274O%\317l\016\271\3312\277=(\004\270\367\322\035q\177\306\037-\222\257\207\203;\314\036\003r\r\313\324\371k\304C\300\3737)*XU\236J\263\330\034_\237dSzP\b]\303\211:\342\376\241>Z\ts#+v\265<\006\344\032\273\205\337\326\245\206\255\333nRT\260\252\021\224K\2358\276\023\310\246\364\240\020\272\253?t\351\321o|\264\022\346FV\354Gx\f\3454['\223\201g!w\233\334\244\250My\"\005\226\027pQ&\275a\305m Y{~\350\377\217\336\370E$\341\214\254\365\216\360\030\347h\266N\013/\316B\356\033\225e}\232\362D\n\001\001\\\367\211t\3773\017\003\3444\266\234,U\021\005\001\\\367\211t\3773\017\003\3444\266\234,U\021\005\001\\\367\211t\3773\017\003\3444\266\234,U\021\005\001\\\367\211t\3773\017\003\3444\266\234,U\021\005\001\\\367\211t\3773\017\003\3444\266\234,U\021\005\001\\\367\211t\3773\017\003\3444\266\234,U\021\005\001\\\367\211t\3773\017\003\3444\266\234,U\021\005\001\\\367\211t\3773\017\003\3444\266\234,U\021\005\001\\\367\211t\3773\017\003\3444\266\234,U\021\005\001\\\367\211t\3773\017\003\3444\266\234,U\021\005\001\\\367\211t\3773\017\003\3444\266\234,U\021\005\001\\\367\211t\3773\017\003\3444\266\234,U\021\005\001\\\367\211t\3773\017\003\3444\266\234,U\021\005\001\\\367\211t\3773\017\003\3444\266\234,U\021\005\001\\\367\211t\3773\017\003\3444\266\234,U\021\005\001\001\270\253\374\203\3541Cw6\034Q\230\342\217\017\006\347\215R}2\246\247\037\264H\313'\026U\"\024\bY\301#\254\243\245B\317\235\340\322t\323\314x0\373\334\312\237\275\251\241\3709\032\266\025\260\362=\240@\222\3465\371\201\261J\226\\\303~\327v\216\267\255\033\016\276Lq\321\221\003\345\320)\250\031S\305\231Z$\363\205\013\274\021\n\004\272\366\207V\307\304!\361\330pi:\377f<\030\353ne\331\310\302\306|\212\r[\234Xy\210P Is\214\352\326\316%K.\367?\375;G\315\300\233\007_&\256\376\336\227\344h\202T\232\277\364\332-\022\357\324\223^\236\005\002]{\325+\365b\206\356l8\242\035\3513\036\f\3437\244\372dac>E\220\273N,\252D(\020\262\257Fukg\204\263\027\355\211\350\213\265\360`\333\225\271\023W\177o\335r4A*M\311zm\200\t\341j\337/O\224\001\001]\366#u\326\261\224\002\272\301F\352\201O\005\004Y\257\214\371/\236\n\b\262s5\337^\021\024\020I\346j\223\274\"( \222\341\324\013UDP@\t\357\205\026\252\210\240\200\022\363',y=m-$\313NX\362z\332ZH\273\234\260\311\364\231\264\220[\025M\277\305\037E\r\266*\232S\247>\212\032AT\031\246c|94\202\2502a\306\370rh)}d\302\241\335\344\320R\372\310\251o\227\345\215\244\331\275\177\336\003\3477e\237W\376\221\006\343n\312\023\256\321\017\f\353\334\271&q\217\036\030\373\225_L\3423<0\333\007\276\230\351fx`\233\016Q\035\377\314\360\300\033\034\242:\323\265\315\25568it\213G\267wlp\322\350;\216C\356\330\340\211\375v1\206\361\235\355?\327\354b!\317\027\367~\203\365\304B\263.\303\374+\307\245\204K\\\253\325V\243g%\226\270{\207\254k\316J\001\001\272\2575\223U\210mZ\220\266T2\302o\003\343\334_\230\377\265\267\356\235\367\374Vk\261\005\bI\341\205,\362\364\037\2124)\372\275\376\017\030\333\016\242t;1!\263\\{#\352/\021(@\022\313\234MSc\370\344\215e\023q3x\3006p\211\327\365\245%\001\272\2575\223U\210mZ\220\266T2\302o\003\343\334_\230\377\265\267\356\235\367\374Vk\261\005\bI\341\205,\362\364\037\2124)\372\275\376\017\030\333\016\242t;1!\263\\{#\352/\021(@\022\313\234MSc\370\344\215e\023q3x\3006p\211\327\365\245%\001\272\2575\223U\210mZ\220\266T2\302o\003\343\334_\230\377\265\267\356\235\367\374Vk\261\005\bI\341\205,\362\364\037\2124)\372\275\376\017\030\333\016\242t;1!\263\\{#\352/\021(@\022\313\234MSc\370\344\215e\023q3x\3006p\211\327\365\245%\001\001Y\346\205X\277c\335\347\334\276:;b\204\001Y\346\205X\277c\335\347\334\276:;b\204\001Y\346\205X\277c\335\347\334\276:;b\204\001Y\346\205X\277c\335\347\334\276:;b\204\001Y\346\205X\277c\335\347\334\276:;b\204\001Y\346\205X\277c\335\347\334\276:;b\204\001Y\346\205X\277c\335\347\334\276:;b\204\001Y\346\205X\277c\335\347\334\276:;b\204\001Y\346\205X\277c\335\347\334\276:;b\204\001Y\346\205X\277c\335\347\334\276:;b\204\001Y\346\205X\277c\335\347\334\276:;b\204\001Y\346\205X\277c\335\347\334\276:;b\204\001Y\346\205X\277c\335\347\334\276:;b\204\001Y\346\205X\277c\335\347\334\276:;b\204\001Y\346\205X\277c\335\347\334\276:;b\204\001Y\346\205X\277c\335\347\334\276:;b\204\001Y\346\205X\277c\335\347\334\276:;b\204\001"
	.size	.Lstatic.47, 8960

	.type	.Lstatic.48,@object
.Lstatic.48:
	.ascii	"\000\000\001\360\002\341\3615\003&\342\205\362+6\322\004\303'r\343j\206\034\363\214,\0277v\323\352\005\333\304`(\336sg\344Nk}\207\b\035\242\364\272\215\264-c\03018\rw\231\324\307\353[\006L\334\331\305\013a\270)$\337\375t\212h\301\345VO\253l\245~\221\210\"\tJ\036 \243T\365\255\273\314\216Q\265\276.Xd\237\031\3472\3179\223\016Cx\200\232\370\325\247\310?\354n\\\260\007\241M|\335f\332_\306Z\f\230b0\271\263*\321%\204\3404\376\357u\351\213\026i\033\302q\346\316W\236P\275\254\313m\257\246>\177\367\222B\211\300#\374\n\267K\330\037S!I\244\220U\252\366A\256=\274\312\315\235\217\251RH\266\327\277\373/\262Y\227e^\240{\032p\350\0253\356\320\203:E\224\022\017\020D\021y\225\201\023\233;\371F\326\372\250G\311\234@<\355\202o\024]z\261\226"
	.size	.Lstatic.48, 256

	.type	.Lstatic.49,@object
.Lstatic.49:
	.ascii	"\001\002\004\b\020 @\200-Z\264E\2129r\344\345\347\343\353\373\333\233\0336l\330\235\027.\\\270]\272Y\262I\222\t\022$H\220\r\0324h\320\2157n\334\225\007\016\0348p\340\355\367\303\253{\366\301\257s\346\341\357\363\313\273[\266A\202)R\244e\312\271_\276Q\242i\322\211?~\374\325\207#F\2145j\324\205'N\234\025*T\250}\372\331\237\023&L\230\035:t\350\375\327\203+V\254u\352\371\337\223\013\026,X\260M\232\0312d\310\275W\256q\342\351\377\323\213;v\354\365\307\243k\326\201/^\274U\252y\362\311\277S\246a\302\251\177\376\321\2173f\314\265G\2161b\304\245g\316\261O\236\021\"D\210=z\364\305\247c\306\241o\336\221\017\036<x\360\315\267C\206!B\204%J\224\005\n\024(P\240m\332\231\037>|\370\335\227\003\006\f\0300`\300\255w\356\361\317\263K\226"
	.size	.Lstatic.49, 255

	.type	.Lstatic.51,@object
.Lstatic.51:
	.asciz	"\000\000\000\000\000\000\000\000\000\000\000\000\000\004\000\000\000\000\000\000\000\000\000\000\000\000\000\000\000\000\000\000\017\b\b\b\b\b\b\b\b\b\f\b\b\b\b\b\017\017\017\017\017\017\017\017\017\017\b\b\b\b\f\b\b\r\r\r\r\r\r\r\r\r\r\r\r\r\r\r\r\r\r\r\r\r\r\r\r\r\r\b\b\b\b\000\000\002\002\002\002\002\002\002\002\002\002\002\002\002\002\002\002\002\002\002\002\002\002\002\002\002\002\000\000\000\000\000\000\000\000\000\000\000\000\000\000\000\000\000\000\000\000\000\000\000\000\000\000\000\000\000\000\000\000\000\000\000\000\000\000\000\000\000\000\000\000\000\000\000\000\000\000\000\000\000\000\000\000\000\000\000\000\000\000\000\000\000\000\000\000\000\000\000\000\000\000\000\000\000\000\000\000\000\000\000\000\000\000\000\000\000\000\000\000\000\000\000\000\000\000\000\000\000\000\000\000\000\000\000\000\000\000\000\000\000\000\000\000\000\000\000\000\000\000\000\000\000\000\000\000\000\000\000\000"
	.size	.Lstatic.51, 256

	.section	".note.GNU-stack","",@progbits
