/* The library ecc200 1.0.0, made by library/build of the proved source with the toolchain of logic dac8208d650f15bf. Not written by hand: `make compiled` makes it anew. */
	.text
	.p2align	5
	.text
	.p2align	4
	.type	"ecc200_calls::inspection::inspect_given::<=32,=98,=131,=31>",@function
"ecc200_calls::inspection::inspect_given::<=32,=98,=131,=31>":
	.cfi_startproc
	pushq	%rbp
	.cfi_def_cfa_offset 16
	pushq	%r15
	.cfi_def_cfa_offset 24
	pushq	%r14
	.cfi_def_cfa_offset 32
	pushq	%r13
	.cfi_def_cfa_offset 40
	pushq	%r12
	.cfi_def_cfa_offset 48
	pushq	%rbx
	.cfi_def_cfa_offset 56
	subq	$1240, %rsp
	.cfi_def_cfa_offset 1296
	.cfi_offset %rbx, -56
	.cfi_offset %r12, -48
	.cfi_offset %r13, -40
	.cfi_offset %r14, -32
	.cfi_offset %r15, -24
	.cfi_offset %rbp, -16
	movq	%r9, %rbx
	movq	%r8, %r12
	movq	%rcx, 8(%rsp)
	movq	%rdx, (%rsp)
	movq	%rsi, %r13
	movq	%rdi, %rbp
	movzwl	(%r8), %r14d
	movzwl	18(%r8), %eax
	movzbl	20(%r8), %r15d
	movw	%ax, 34(%rsp)
	movups	2(%r8), %xmm0
	movups	%xmm0, 18(%rsp)
	leaq	36(%rsp), %rdi
	movl	$524, %edx
	xorl	%esi, %esi
	callq	memset@PLT
	movw	%r14w, 16(%rsp)
	xorps	%xmm0, %xmm0
	movaps	%xmm0, 560(%rsp)
	movaps	%xmm0, 576(%rsp)
	movaps	%xmm0, 592(%rsp)
	movaps	%xmm0, 608(%rsp)
	leaq	16(%rsp), %rdi
	movq	%rbp, %rsi
	movq	%r13, %rdx
	callq	"ecc200_calls::modules::put_modules::<=32>"
	testb	$1, %r15b
	je	.LBB0_2
	addq	$2, %r12
	movw	%r14w, 624(%rsp)
	movups	(%r12), %xmm0
	movups	%xmm0, 626(%rsp)
	movzwl	16(%r12), %eax
	movw	%ax, 642(%rsp)
	leaq	644(%rsp), %rdi
	movl	$588, %edx
	xorl	%esi, %esi
	callq	memset@PLT
	leaq	624(%rsp), %r12
	movq	%r12, %rdi
	movq	(%rsp), %rsi
	movq	8(%rsp), %rdx
	callq	"ecc200_calls::modules::put_modules::<=32>"
	leaq	16(%rsp), %rdi
	movl	$1, %esi
	movq	%r12, %rdx
	jmp	.LBB0_3
.LBB0_2:
	leaq	16(%rsp), %rdi
	xorl	%esi, %esi
	xorl	%edx, %edx
.LBB0_3:
	movq	%rbx, %rcx
	callq	"ecc200_calls::inspection::inspect_symbol::<=32,=98>"
	addq	$1240, %rsp
	.cfi_def_cfa_offset 56
	popq	%rbx
	.cfi_def_cfa_offset 48
	popq	%r12
	.cfi_def_cfa_offset 40
	popq	%r13
	.cfi_def_cfa_offset 32
	popq	%r14
	.cfi_def_cfa_offset 24
	popq	%r15
	.cfi_def_cfa_offset 16
	popq	%rbp
	.cfi_def_cfa_offset 8
	retq
.Lfunc_end0:
	.size	"ecc200_calls::inspection::inspect_given::<=32,=98,=131,=31>", .Lfunc_end0-"ecc200_calls::inspection::inspect_given::<=32,=98,=131,=31>"
	.cfi_endproc

	.p2align	4
	.type	"ecc200_calls::modules::put_modules::<=32>",@function
"ecc200_calls::modules::put_modules::<=32>":
	.cfi_startproc
	pushq	%rbp
	.cfi_def_cfa_offset 16
	pushq	%r15
	.cfi_def_cfa_offset 24
	pushq	%r14
	.cfi_def_cfa_offset 32
	pushq	%r13
	.cfi_def_cfa_offset 40
	pushq	%r12
	.cfi_def_cfa_offset 48
	pushq	%rbx
	.cfi_def_cfa_offset 56
	.cfi_offset %rbx, -56
	.cfi_offset %r12, -48
	.cfi_offset %r13, -40
	.cfi_offset %r14, -32
	.cfi_offset %r15, -24
	.cfi_offset %rbp, -16
	movq	%rsi, -56(%rsp)
	movq	%rdi, -64(%rsp)
	movzwl	(%rdi), %eax
	movq	%rax, -16(%rsp)
	testq	%rax, %rax
	je	.LBB1_77
	movq	%rdx, %r8
	movq	-64(%rsp), %rax
	movzwl	2(%rax), %r15d
	cmpq	$128, %r15
	movl	$128, %r11d
	cmovbq	%r15, %r11
	movq	-56(%rsp), %rax
	leaq	(%rax,%rdx), %r10
	leaq	-64(%rdx), %r12
	addq	$-65, %rdx
	movq	%rdx, -72(%rsp)
	leaq	-128(%r8), %rdi
	leaq	-129(%r8), %rsi
	movq	%rsi, -32(%rsp)
	addq	%r8, %rax
	decq	%rax
	movq	%rax, -128(%rsp)
	xorl	%r13d, %r13d
	movq	%rdi, -40(%rsp)
	movq	%r8, %rsi
	movq	%r12, -24(%rsp)
	movq	%r8, -88(%rsp)
	movq	%r15, -96(%rsp)
	movq	%r11, -112(%rsp)
	jmp	.LBB1_6
	.p2align	4
.LBB1_66:
	xorl	%eax, %eax
	movq	-88(%rsp), %r8
	movq	-80(%rsp), %rsi
.LBB1_5:
	movq	%r13, %rcx
	shlq	$4, %rcx
	movq	-64(%rsp), %rdx
	movq	%r12, 40(%rdx,%rcx)
	movq	%rbx, 32(%rdx,%rcx)
	movw	%ax, 544(%rdx,%r13,2)
	incq	%r13
	movq	-8(%rsp), %r12
	subq	%r15, %r12
	subq	%r15, %rsi
	subq	%r15, %rdi
	cmpq	-16(%rsp), %r13
	je	.LBB1_77
.LBB1_6:
	movq	%r13, %rdx
	imulq	%r15, %rdx
	movq	%r8, %r14
	subq	%rdx, %r14
	movq	-56(%rsp), %rax
	addq	%rdx, %rax
	cmpq	$63, %r14
	movq	%r12, -8(%rsp)
	ja	.LBB1_20
	testq	%r15, %r15
	je	.LBB1_2
	movq	%rdi, -48(%rsp)
	movl	%r12d, %ecx
	andl	$1, %ecx
	movq	%rsi, -80(%rsp)
	subq	%rcx, %rsi
	movq	%rdx, -120(%rsp)
	movq	%rdx, %r15
	subq	%r8, %r15
	xorl	%edi, %edi
	xorl	%ebx, %ebx
	xorl	%r12d, %r12d
	xorl	%ecx, %ecx
	jmp	.LBB1_11
	.p2align	4
.LBB1_9:
	movdqu	(%rax,%rcx), %xmm0
	pxor	%xmm1, %xmm1
	pcmpeqb	%xmm0, %xmm1
	pmovmskb	%xmm1, %ebp
	notl	%ebp
.LBB1_10:
	movzwl	%bp, %edx
	xorl	%r8d, %r8d
	shldq	%cl, %rdx, %r8
	shlq	%cl, %rdx
	xorl	%r9d, %r9d
	testb	$64, %cl
	cmovneq	%rdx, %r8
	cmovneq	%r9, %rdx
	orq	%r8, %r12
	orq	%rdx, %rbx
	addq	$16, %rcx
	incq	%rdi
	addq	$-16, %rsi
	cmpq	%r11, %rcx
	jae	.LBB1_65
.LBB1_11:
	movq	%r14, %rdx
	subq	%rcx, %rdx
	cmpq	$15, %rdx
	ja	.LBB1_9
	cmpq	%rcx, %r14
	jne	.LBB1_14
	xorl	%ebp, %ebp
	jmp	.LBB1_10
	.p2align	4
.LBB1_14:
	movq	%rdi, %rdx
	shlq	$4, %rdx
	negq	%rdx
	decq	%rdx
	xorl	%ebp, %ebp
	cmpq	%rdx, %r15
	jne	.LBB1_16
	xorl	%r9d, %r9d
	jmp	.LBB1_19
.LBB1_16:
	movq	-128(%rsp), %r11
	xorl	%r9d, %r9d
	.p2align	4
.LBB1_17:
	xorl	%r8d, %r8d
	cmpb	$0, (%r11)
	setne	%r8b
	addl	%r8d, %r8d
	leal	(%r8,%rbp,4), %r8d
	movq	%r9, %rdx
	xorq	$-2, %rdx
	xorl	%ebp, %ebp
	cmpb	$0, (%r10,%rdx)
	setne	%bpl
	orl	%r8d, %ebp
	addq	$2, %r9
	addq	$-2, %r11
	cmpq	%r9, %rsi
	jne	.LBB1_17
	testb	$1, %r14b
	movq	-112(%rsp), %r11
	je	.LBB1_10
.LBB1_19:
	notq	%r9
	xorl	%edx, %edx
	cmpb	$0, (%r10,%r9)
	setne	%dl
	leal	(%rdx,%rbp,2), %ebp
	jmp	.LBB1_10
	.p2align	4
.LBB1_20:
	movq	%rdx, -120(%rsp)
	movdqu	(%rax), %xmm0
	movdqu	16(%rax), %xmm1
	movdqu	32(%rax), %xmm2
	movdqu	48(%rax), %xmm3
	pxor	%xmm4, %xmm4
	pcmpeqb	%xmm4, %xmm3
	pcmpeqb	%xmm4, %xmm2
	pcmpeqb	%xmm4, %xmm1
	pcmpeqb	%xmm4, %xmm0
	pmovmskb	%xmm0, %ecx
	xorl	$65535, %ecx
	pmovmskb	%xmm1, %edx
	notl	%edx
	shll	$16, %edx
	orl	%ecx, %edx
	pmovmskb	%xmm2, %ecx
	xorl	$65535, %ecx
	shlq	$32, %rcx
	orq	%rdx, %rcx
	pmovmskb	%xmm3, %ebx
	notl	%ebx
	shlq	$48, %rbx
	orq	%rcx, %rbx
	cmpw	$65, %r15w
	jb	.LBB1_3
	movq	%rsi, -80(%rsp)
	movq	%r12, %rcx
	andq	$-2, %rcx
	movq	-24(%rsp), %rbp
	movq	-120(%rsp), %rdx
	subq	%rdx, %rbp
	movq	%r14, %rsi
	andq	$-16, %rsi
	cmpq	$64, %rsi
	movq	%rdi, -48(%rsp)
	jne	.LBB1_24
	cmpq	$64, %r14
	jne	.LBB1_25
	xorl	%edi, %edi
	jmp	.LBB1_31
.LBB1_2:
	xorl	%ebx, %ebx
.LBB1_3:
	xorl	%r12d, %r12d
.LBB1_4:
	xorl	%eax, %eax
	jmp	.LBB1_5
.LBB1_24:
	movdqu	64(%rax), %xmm0
	pxor	%xmm1, %xmm1
	pcmpeqb	%xmm0, %xmm1
	pmovmskb	%xmm1, %edi
	notl	%edi
	jmp	.LBB1_31
.LBB1_25:
	cmpq	%rdx, -72(%rsp)
	jne	.LBB1_27
	xorl	%edi, %edi
	xorl	%edx, %edx
	jmp	.LBB1_30
.LBB1_27:
	xorl	%edi, %edi
	movq	-128(%rsp), %r11
	xorl	%edx, %edx
	.p2align	4
.LBB1_28:
	xorl	%r8d, %r8d
	cmpb	$0, (%r11)
	setne	%r8b
	addl	%r8d, %r8d
	leal	(%r8,%rdi,4), %r8d
	movq	%rdx, %r9
	xorq	$-2, %r9
	xorl	%edi, %edi
	cmpb	$0, (%r10,%r9)
	setne	%dil
	orl	%r8d, %edi
	addq	$2, %rdx
	addq	$-2, %r11
	cmpq	%rdx, %rcx
	jne	.LBB1_28
	testb	$1, %bpl
	movq	-112(%rsp), %r11
	je	.LBB1_31
.LBB1_30:
	notq	%rdx
	xorl	%r8d, %r8d
	cmpb	$0, (%r10,%rdx)
	setne	%r8b
	leal	(%r8,%rdi,2), %edi
	.p2align	4
.LBB1_31:
	movzwl	%di, %r12d
	cmpw	$81, %r15w
	jb	.LBB1_65
	movq	-72(%rsp), %r9
	subq	-120(%rsp), %r9
	cmpq	$80, %rsi
	jne	.LBB1_35
	cmpq	$80, %r14
	jne	.LBB1_36
	xorl	%edi, %edi
	jmp	.LBB1_42
.LBB1_35:
	movdqu	80(%rax), %xmm0
	pxor	%xmm1, %xmm1
	pcmpeqb	%xmm0, %xmm1
	pmovmskb	%xmm1, %edi
	notl	%edi
	jmp	.LBB1_42
.LBB1_36:
	cmpq	$16, %r9
	jne	.LBB1_38
	xorl	%edi, %edi
	xorl	%edx, %edx
	jmp	.LBB1_41
.LBB1_38:
	movq	%r9, -104(%rsp)
	leaq	-16(%rcx), %r15
	xorl	%edi, %edi
	movq	-128(%rsp), %r11
	xorl	%edx, %edx
	.p2align	4
.LBB1_39:
	xorl	%r8d, %r8d
	cmpb	$0, (%r11)
	setne	%r8b
	addl	%r8d, %r8d
	leal	(%r8,%rdi,4), %r8d
	movq	%rdx, %r9
	xorq	$-2, %r9
	xorl	%edi, %edi
	cmpb	$0, (%r10,%r9)
	setne	%dil
	orl	%r8d, %edi
	addq	$2, %rdx
	addq	$-2, %r11
	cmpq	%rdx, %r15
	jne	.LBB1_39
	testb	$1, %bpl
	movq	-96(%rsp), %r15
	movq	-112(%rsp), %r11
	movq	-104(%rsp), %r9
	je	.LBB1_42
.LBB1_41:
	notq	%rdx
	xorl	%r8d, %r8d
	cmpb	$0, (%r10,%rdx)
	setne	%r8b
	leal	(%r8,%rdi,2), %edi
.LBB1_42:
	shll	$16, %edi
	orq	%rdi, %r12
	cmpw	$97, %r15w
	jb	.LBB1_65
	cmpq	$96, %rsi
	jne	.LBB1_46
	cmpq	$96, %r14
	jne	.LBB1_47
	xorl	%edi, %edi
	jmp	.LBB1_53
.LBB1_46:
	movdqu	96(%rax), %xmm0
	pxor	%xmm1, %xmm1
	pcmpeqb	%xmm0, %xmm1
	pmovmskb	%xmm1, %edi
	notl	%edi
	jmp	.LBB1_53
.LBB1_47:
	cmpq	$32, %r9
	jne	.LBB1_49
	xorl	%edi, %edi
	xorl	%edx, %edx
	jmp	.LBB1_52
.LBB1_49:
	movq	%r9, -104(%rsp)
	leaq	-32(%rcx), %r15
	xorl	%edi, %edi
	movq	-128(%rsp), %r11
	xorl	%edx, %edx
	.p2align	4
.LBB1_50:
	xorl	%r8d, %r8d
	cmpb	$0, (%r11)
	setne	%r8b
	addl	%r8d, %r8d
	leal	(%r8,%rdi,4), %r8d
	movq	%rdx, %r9
	xorq	$-2, %r9
	xorl	%edi, %edi
	cmpb	$0, (%r10,%r9)
	setne	%dil
	orl	%r8d, %edi
	addq	$2, %rdx
	addq	$-2, %r11
	cmpq	%rdx, %r15
	jne	.LBB1_50
	testb	$1, %bpl
	movq	-96(%rsp), %r15
	movq	-112(%rsp), %r11
	movq	-104(%rsp), %r9
	je	.LBB1_53
.LBB1_52:
	notq	%rdx
	xorl	%r8d, %r8d
	cmpb	$0, (%r10,%rdx)
	setne	%r8b
	leal	(%r8,%rdi,2), %edi
.LBB1_53:
	movzwl	%di, %edx
	shlq	$32, %rdx
	orq	%rdx, %r12
	cmpw	$113, %r15w
	jb	.LBB1_65
	cmpq	$112, %rsi
	jne	.LBB1_57
	cmpq	$112, %r14
	jne	.LBB1_58
	xorl	%esi, %esi
	jmp	.LBB1_64
.LBB1_57:
	movdqu	112(%rax), %xmm0
	pxor	%xmm1, %xmm1
	pcmpeqb	%xmm0, %xmm1
	pmovmskb	%xmm1, %esi
	notl	%esi
	jmp	.LBB1_64
.LBB1_58:
	cmpq	$48, %r9
	jne	.LBB1_60
	xorl	%esi, %esi
	xorl	%edx, %edx
	jmp	.LBB1_63
.LBB1_60:
	addq	$-48, %rcx
	xorl	%esi, %esi
	movq	-128(%rsp), %rdi
	xorl	%edx, %edx
	.p2align	4
.LBB1_61:
	xorl	%r8d, %r8d
	cmpb	$0, (%rdi)
	setne	%r8b
	addl	%r8d, %r8d
	leal	(%r8,%rsi,4), %r8d
	movq	%rdx, %r9
	xorq	$-2, %r9
	xorl	%esi, %esi
	cmpb	$0, (%r10,%r9)
	setne	%sil
	orl	%r8d, %esi
	addq	$2, %rdx
	addq	$-2, %rdi
	cmpq	%rdx, %rcx
	jne	.LBB1_61
	testb	$1, %bpl
	je	.LBB1_64
.LBB1_63:
	notq	%rdx
	xorl	%ecx, %ecx
	cmpb	$0, (%r10,%rdx)
	setne	%cl
	leal	(%rcx,%rsi,2), %esi
.LBB1_64:
	movzwl	%si, %ecx
	shlq	$48, %rcx
	orq	%rcx, %r12
	.p2align	4
.LBB1_65:
	movq	-96(%rsp), %r15
	cmpl	$129, %r15d
	movq	-48(%rsp), %rdi
	jb	.LBB1_66
	addq	$-128, %r14
	cmpq	$15, %r14
	movq	-88(%rsp), %r8
	movq	-80(%rsp), %rsi
	ja	.LBB1_71
	testq	%r14, %r14
	je	.LBB1_4
	movq	-120(%rsp), %rax
	cmpq	%rax, -32(%rsp)
	jne	.LBB1_73
	xorl	%eax, %eax
	xorl	%ecx, %ecx
	jmp	.LBB1_76
.LBB1_71:
	movdqu	128(%rax), %xmm0
	pxor	%xmm1, %xmm1
	pcmpeqb	%xmm0, %xmm1
	pmovmskb	%xmm1, %eax
	notl	%eax
	jmp	.LBB1_5
.LBB1_73:
	movq	%rsi, %rbp
	movq	%rdi, %r14
	movq	%rdi, %rsi
	andq	$-2, %rsi
	movq	-40(%rsp), %rdx
	subq	%rax, %rdx
	xorl	%eax, %eax
	movq	-128(%rsp), %rdi
	xorl	%ecx, %ecx
	.p2align	4
.LBB1_74:
	xorl	%r8d, %r8d
	cmpb	$0, (%rdi)
	setne	%r8b
	addl	%r8d, %r8d
	leal	(%r8,%rax,4), %r8d
	movq	%rcx, %r9
	xorq	$-2, %r9
	xorl	%eax, %eax
	cmpb	$0, (%r10,%r9)
	setne	%al
	orl	%r8d, %eax
	addq	$2, %rcx
	addq	$-2, %rdi
	cmpq	%rcx, %rsi
	jne	.LBB1_74
	testb	$1, %dl
	movq	-88(%rsp), %r8
	movq	%r14, %rdi
	movq	%rbp, %rsi
	je	.LBB1_5
.LBB1_76:
	notq	%rcx
	xorl	%edx, %edx
	cmpb	$0, (%r10,%rcx)
	setne	%dl
	leal	(%rdx,%rax,2), %eax
	jmp	.LBB1_5
.LBB1_77:
	popq	%rbx
	.cfi_def_cfa_offset 48
	popq	%r12
	.cfi_def_cfa_offset 40
	popq	%r13
	.cfi_def_cfa_offset 32
	popq	%r14
	.cfi_def_cfa_offset 24
	popq	%r15
	.cfi_def_cfa_offset 16
	popq	%rbp
	.cfi_def_cfa_offset 8
	retq
.Lfunc_end1:
	.size	"ecc200_calls::modules::put_modules::<=32>", .Lfunc_end1-"ecc200_calls::modules::put_modules::<=32>"
	.cfi_endproc

	.section	.rodata.cst16,"aM",@progbits,16
	.p2align	4, 0x0
.LCPI2_0:
	.byte	1
	.byte	1
	.byte	1
	.byte	1
	.byte	1
	.byte	1
	.byte	1
	.byte	1
	.zero	1
	.zero	1
	.zero	1
	.zero	1
	.zero	1
	.zero	1
	.zero	1
	.zero	1
.LCPI2_1:
	.zero	16,241
.LCPI2_2:
	.zero	16,1
.LCPI2_3:
	.byte	241
	.byte	241
	.byte	241
	.byte	241
	.zero	1
	.zero	1
	.zero	1
	.zero	1
	.zero	1
	.zero	1
	.zero	1
	.zero	1
	.zero	1
	.zero	1
	.zero	1
	.zero	1
.LCPI2_4:
	.quad	4294967297
	.quad	4294967297
.LCPI2_5:
	.byte	241
	.byte	241
	.byte	241
	.byte	241
	.byte	241
	.byte	241
	.byte	241
	.byte	241
	.zero	1
	.zero	1
	.zero	1
	.zero	1
	.zero	1
	.zero	1
	.zero	1
	.zero	1
.LCPI2_6:
	.short	1
	.short	1
	.short	1
	.short	1
	.short	1
	.short	1
	.short	1
	.short	1
	.text
	.p2align	4
	.type	"ecc200_calls::inspection::inspect_symbol::<=32,=98>",@function
"ecc200_calls::inspection::inspect_symbol::<=32,=98>":
	.cfi_startproc
	pushq	%rbp
	.cfi_def_cfa_offset 16
	pushq	%r15
	.cfi_def_cfa_offset 24
	pushq	%r14
	.cfi_def_cfa_offset 32
	pushq	%r13
	.cfi_def_cfa_offset 40
	pushq	%r12
	.cfi_def_cfa_offset 48
	pushq	%rbx
	.cfi_def_cfa_offset 56
	subq	$520, %rsp
	.cfi_def_cfa_offset 576
	.cfi_offset %rbx, -56
	.cfi_offset %r12, -48
	.cfi_offset %r13, -40
	.cfi_offset %r14, -32
	.cfi_offset %r15, -24
	.cfi_offset %rbp, -16
	movq	%rcx, %rbx
	xorps	%xmm0, %xmm0
	movups	%xmm0, 136(%rsp)
	movups	%xmm0, 120(%rsp)
	movups	%xmm0, 104(%rsp)
	movups	%xmm0, 88(%rsp)
	movups	%xmm0, 72(%rsp)
	movups	%xmm0, 56(%rsp)
	movups	%xmm0, 40(%rsp)
	movups	%xmm0, 24(%rsp)
	movzwl	(%rdi), %r15d
	movzwl	2(%rdi), %r14d
	movzwl	12(%rdi), %eax
	movw	%ax, 20(%rsp)
	movq	4(%rdi), %rax
	movq	%rax, 12(%rsp)
	movzwl	14(%rdi), %eax
	movw	$0, 468(%rsp)
	movb	$0, 470(%rsp)
	movzwl	12(%rdi), %ecx
	movw	%cx, 138(%rsp)
	movq	4(%rdi), %rcx
	movq	%rcx, 130(%rsp)
	movups	%xmm0, 471(%rsp)
	movups	%xmm0, 487(%rsp)
	movups	%xmm0, 503(%rsp)
	movw	%r15w, 8(%rsp)
	movw	%r14w, 10(%rsp)
	movw	%ax, 22(%rsp)
	leaq	28(%rsp), %rbp
	movups	%xmm0, 28(%rsp)
	movups	%xmm0, 44(%rsp)
	movups	%xmm0, 60(%rsp)
	movups	%xmm0, 76(%rsp)
	movups	%xmm0, 92(%rsp)
	movups	%xmm0, 108(%rsp)
	movw	$0, 124(%rsp)
	movups	%xmm0, 226(%rsp)
	movups	%xmm0, 210(%rsp)
	movups	%xmm0, 194(%rsp)
	movups	%xmm0, 178(%rsp)
	movups	%xmm0, 162(%rsp)
	movups	%xmm0, 146(%rsp)
	movl	$0, 241(%rsp)
	movl	515(%rsp), %eax
	movl	%eax, 292(%rsp)
	movups	468(%rsp), %xmm0
	movdqu	484(%rsp), %xmm1
	movdqu	500(%rsp), %xmm2
	movdqu	%xmm2, 277(%rsp)
	movdqu	%xmm1, 261(%rsp)
	movups	%xmm0, 245(%rsp)
	movq	$0, 296(%rsp)
	movl	16(%rdi), %eax
	movl	%eax, 384(%rsp)
	movdqu	(%rdi), %xmm0
	movdqa	%xmm0, 368(%rsp)
	leaq	32(%rdi), %rax
	leaq	544(%rdi), %rcx
	movl	$0, 388(%rsp)
	movdqa	%xmm0, 304(%rsp)
	movq	384(%rsp), %r8
	movq	%r8, 320(%rsp)
	movq	%rax, 328(%rsp)
	movq	$32, 336(%rsp)
	movq	%rcx, 344(%rsp)
	movq	$32, 352(%rsp)
	testb	$1, %sil
	je	.LBB2_6
	movl	16(%rdx), %eax
	movl	%eax, 416(%rsp)
	movdqu	(%rdx), %xmm0
	movdqa	%xmm0, 400(%rsp)
	leaq	32(%rdx), %rax
	addq	$544, %rdx
	movl	$0, 420(%rsp)
	movq	%rax, 424(%rsp)
	movq	$32, 432(%rsp)
	movq	%rdx, 440(%rsp)
	movq	$32, 448(%rsp)
	movq	(%rdi), %rax
	movq	6(%rdi), %rcx
	movq	%rcx, 104(%rbp)
	movq	%rax, 98(%rbp)
	movq	%rbp, %r12
	movzwl	318(%rsp), %r13d
	movl	320(%rsp), %eax
	movq	(%rdi), %rcx
	movq	6(%rdi), %rdx
	movq	%rcx, 8(%rsp)
	movq	%rdx, 14(%rsp)
	movw	%r13w, 22(%rsp)
	movl	%eax, 24(%rsp)
	movw	%r13w, 140(%rsp)
	movl	%eax, 142(%rsp)
	leaq	304(%rsp), %rbp
	leaq	400(%rsp), %rdx
	movq	%rbp, %rdi
	movl	$1, %esi
	callq	"dm_layout::symbols::border::border_faults"
	movw	%ax, 296(%rsp)
	addw	316(%rsp), %r13w
	movzwl	%r13w, %r13d
	movq	%rbp, %rdi
	movq	%r12, %rsi
	callq	"dm_layout::symbols::placing::lift_to"
	cmpw	$119, %r13w
	jb	.LBB2_7
	movq	%r12, %rbp
	movl	%r13d, %eax
	andl	$-8, %eax
	xorl	%ecx, %ecx
	.p2align	4
.LBB2_3:
	movq	28(%rsp,%rcx), %rdx
	movq	%rdx, 146(%rsp,%rcx)
	addq	$8, %rcx
	cmpq	%rcx, %rax
	jne	.LBB2_3
	cmpl	%r13d, %eax
	leaq	248(%rsp), %r12
	je	.LBB2_8
	.p2align	4
.LBB2_5:
	movzbl	28(%rsp,%rax), %ecx
	movb	%cl, 146(%rsp,%rax)
	incq	%rax
	cmpq	%rax, %r13
	jne	.LBB2_5
	jmp	.LBB2_8
.LBB2_6:
	movq	(%rdi), %rax
	movq	6(%rdi), %rcx
	movq	%rcx, 104(%rbp)
	movq	%rax, 98(%rbp)
	movzwl	318(%rsp), %eax
	movl	320(%rsp), %ecx
	movq	(%rdi), %rdx
	movq	6(%rdi), %rsi
	movq	%rdx, 8(%rsp)
	movq	%rsi, 14(%rsp)
	movw	%ax, 22(%rsp)
	movl	%ecx, 24(%rsp)
	movw	%ax, 140(%rsp)
	movl	%ecx, 142(%rsp)
	leaq	304(%rsp), %r12
	movq	%r12, %rdi
	xorl	%esi, %esi
	xorl	%edx, %edx
	callq	"dm_layout::symbols::border::border_faults"
	movw	%ax, 296(%rsp)
	leaq	248(%rsp), %r9
	movq	%r12, %rdi
	xorl	%esi, %esi
	xorl	%edx, %edx
	movq	%rbp, %rcx
	leaq	146(%rsp), %r8
	callq	"dm_symbol::symbol::inspection::mend"
	jmp	.LBB2_12
.LBB2_7:
	leaq	146(%rsp), %rdi
	movq	%r12, %rbp
	movq	%r12, %rsi
	movq	%r13, %rdx
	callq	memmove@PLT
	leaq	248(%rsp), %r12
.LBB2_8:
	leaq	368(%rsp), %rdi
	leaq	400(%rsp), %rcx
	leaq	146(%rsp), %rsi
	movq	%r13, %rdx
	movq	%r12, %r8
	callq	"dm_symbol::symbol::inspection::mend_doubtful"
	xorl	%eax, %eax
	movq	288(%rsp), %rcx
	.p2align	4
.LBB2_9:
	cmpq	%rax, %rcx
	je	.LBB2_13
	cmpb	$1, 248(%rsp,%rax,4)
	leaq	1(%rax), %rax
	je	.LBB2_9
	leaq	304(%rsp), %rdi
	leaq	400(%rsp), %rdx
	movl	$1, %esi
	leaq	146(%rsp), %rcx
	movq	%r13, %r8
	movq	%r12, %r9
	callq	"dm_symbol::symbol::inspection::mend_restarted"
.LBB2_12:
	jmp	.LBB2_14
.LBB2_13:
	xorl	%eax, %eax
.LBB2_14:
	movb	%al, 244(%rsp)
	movq	288(%rsp), %r12
	pxor	%xmm0, %xmm0
	pinsrw	$3, %r15d, %xmm0
	movq	%xmm0, (%rbx)
	movw	%r14w, 8(%rbx)
	movzwl	296(%rsp), %ecx
	movw	%cx, 10(%rbx)
	movw	%r12w, 12(%rbx)
	movzwl	22(%rsp), %ecx
	addw	20(%rsp), %cx
	movw	%cx, 14(%rbx)
	movzbl	%al, %eax
	movw	%ax, 16(%rbx)
	movw	$0, 18(%rbx)
	testq	%r12, %r12
	je	.LBB2_21
	cmpq	$8, %r12
	jae	.LBB2_17
	xorl	%eax, %eax
	jmp	.LBB2_19
.LBB2_17:
	movq	%r12, %rax
	andq	$-8, %rax
	xorl	%edx, %edx
	.p2align	4
.LBB2_18:
	movd	248(%rsp,%rdx,4), %xmm0
	pinsrb	$1, 252(%rsp,%rdx,4), %xmm0
	pinsrb	$2, 256(%rsp,%rdx,4), %xmm0
	pinsrb	$3, 260(%rsp,%rdx,4), %xmm0
	pinsrb	$4, 264(%rsp,%rdx,4), %xmm0
	pinsrb	$5, 268(%rsp,%rdx,4), %xmm0
	pinsrb	$6, 272(%rsp,%rdx,4), %xmm0
	pinsrb	$7, 276(%rsp,%rdx,4), %xmm0
	movzbl	249(%rsp,%rdx,4), %esi
	movd	%esi, %xmm1
	pinsrb	$1, 253(%rsp,%rdx,4), %xmm1
	pinsrb	$2, 257(%rsp,%rdx,4), %xmm1
	pinsrb	$3, 261(%rsp,%rdx,4), %xmm1
	pinsrb	$4, 265(%rsp,%rdx,4), %xmm1
	pinsrb	$5, 269(%rsp,%rdx,4), %xmm1
	pinsrb	$6, 273(%rsp,%rdx,4), %xmm1
	pinsrb	$7, 277(%rsp,%rdx,4), %xmm1
	movzbl	254(%rsp,%rdx,4), %esi
	movzbl	250(%rsp,%rdx,4), %edi
	movd	%edi, %xmm2
	pinsrb	$1, %esi, %xmm2
	movzbl	258(%rsp,%rdx,4), %esi
	pinsrb	$2, %esi, %xmm2
	movzbl	262(%rsp,%rdx,4), %esi
	pinsrb	$3, %esi, %xmm2
	movzbl	266(%rsp,%rdx,4), %esi
	pinsrb	$4, %esi, %xmm2
	movzbl	270(%rsp,%rdx,4), %esi
	pinsrb	$5, %esi, %xmm2
	movzbl	274(%rsp,%rdx,4), %esi
	pinsrb	$6, %esi, %xmm2
	movzbl	278(%rsp,%rdx,4), %esi
	pinsrb	$7, %esi, %xmm2
	movzbl	255(%rsp,%rdx,4), %esi
	movzbl	251(%rsp,%rdx,4), %edi
	movd	%edi, %xmm3
	pinsrb	$1, %esi, %xmm3
	movzbl	259(%rsp,%rdx,4), %esi
	pinsrb	$2, %esi, %xmm3
	movzbl	263(%rsp,%rdx,4), %esi
	pinsrb	$3, %esi, %xmm3
	movzbl	267(%rsp,%rdx,4), %esi
	pinsrb	$4, %esi, %xmm3
	movzbl	271(%rsp,%rdx,4), %esi
	pinsrb	$5, %esi, %xmm3
	movzbl	275(%rsp,%rdx,4), %esi
	pinsrb	$6, %esi, %xmm3
	movzbl	279(%rsp,%rdx,4), %esi
	pinsrb	$7, %esi, %xmm3
	pcmpeqb	.LCPI2_0(%rip), %xmm0
	pcmpeqd	%xmm4, %xmm4
	pblendvb	%xmm0, %xmm1, %xmm4
	pand	%xmm0, %xmm2
	pand	%xmm3, %xmm0
	movq	%xmm4, 6252(%rbx,%rdx)
	movq	%xmm2, 6262(%rbx,%rdx)
	movq	%xmm0, 6272(%rbx,%rdx)
	addq	$8, %rdx
	cmpq	%rdx, %rax
	jne	.LBB2_18
	jmp	.LBB2_20
.LBB2_19:
	xorl	%edx, %edx
	cmpb	$1, 248(%rsp,%rax,4)
	movzbl	249(%rsp,%rax,4), %esi
	movl	$255, %edi
	cmovel	%esi, %edi
	movzbl	250(%rsp,%rax,4), %esi
	cmovnel	%edx, %esi
	movzbl	251(%rsp,%rax,4), %r8d
	cmovnel	%edx, %r8d
	movb	%dil, 6252(%rbx,%rax)
	movb	%sil, 6262(%rbx,%rax)
	movb	%r8b, 6272(%rbx,%rax)
	incq	%rax
.LBB2_20:
	cmpq	%rax, %r12
	jne	.LBB2_19
.LBB2_21:
	leaq	6282(%rbx), %rdi
	movzwl	%cx, %edx
	movq	%rbp, %rsi
	callq	memcpy@PLT
	leaq	8460(%rbx), %rdi
	movzwl	138(%rsp), %r15d
	movzwl	140(%rsp), %eax
	addw	%r15w, %ax
	movzwl	%ax, %edx
	leaq	146(%rsp), %rsi
	callq	memcpy@PLT
	xorl	%eax, %eax
	.p2align	4
.LBB2_22:
	cmpq	%rax, %r12
	je	.LBB2_25
	cmpb	$1, 248(%rsp,%rax,4)
	leaq	1(%rax), %rax
	je	.LBB2_22
	jmp	.LBB2_41
.LBB2_25:
	testq	%r15, %r15
	je	.LBB2_41
	cmpw	$4, %r15w
	jae	.LBB2_28
	xorl	%ecx, %ecx
	xorl	%eax, %eax
	jmp	.LBB2_37
.LBB2_28:
	cmpw	$16, %r15w
	jae	.LBB2_30
	xorl	%eax, %eax
	xorl	%ecx, %ecx
	jmp	.LBB2_34
.LBB2_30:
	movl	%r15d, %eax
	andl	$-16, %eax
	pxor	%xmm0, %xmm0
	xorl	%ecx, %ecx
	.p2align	4
.LBB2_31:
	movdqu	146(%rsp,%rcx), %xmm1
	pcmpeqb	.LCPI2_1(%rip), %xmm1
	por	%xmm1, %xmm0
	addq	$16, %rcx
	cmpq	%rcx, %rax
	jne	.LBB2_31
	ptest	.LCPI2_2(%rip), %xmm0
	setne	%cl
	cmpl	%r15d, %eax
	je	.LBB2_38
	testb	$12, %r15b
	je	.LBB2_37
.LBB2_34:
	movq	%rax, %rdx
	movl	%r15d, %eax
	andl	$-4, %eax
	movzbl	%cl, %ecx
	movd	%ecx, %xmm0
	.p2align	4
.LBB2_35:
	movd	146(%rsp,%rdx), %xmm1
	pcmpeqb	.LCPI2_3(%rip), %xmm1
	pmovsxbd	%xmm1, %xmm1
	por	%xmm1, %xmm0
	addq	$4, %rdx
	cmpq	%rdx, %rax
	jne	.LBB2_35
	ptest	.LCPI2_4(%rip), %xmm0
	setne	%cl
	cmpl	%r15d, %eax
	je	.LBB2_38
	.p2align	4
.LBB2_37:
	cmpb	$-15, 146(%rsp,%rax)
	sete	%dl
	orb	%dl, %cl
	incq	%rax
	cmpq	%rax, %r15
	jne	.LBB2_37
.LBB2_38:
	testb	$1, %cl
	je	.LBB2_41
	cmpw	$8, %r15w
	jae	.LBB2_43
	xorl	%ecx, %ecx
	xorl	%eax, %eax
	jmp	.LBB2_46
.LBB2_41:
	movw	$0, 18(%rbx)
.LBB2_42:
	addq	$520, %rsp
	.cfi_def_cfa_offset 56
	popq	%rbx
	.cfi_def_cfa_offset 48
	popq	%r12
	.cfi_def_cfa_offset 40
	popq	%r13
	.cfi_def_cfa_offset 32
	popq	%r14
	.cfi_def_cfa_offset 24
	popq	%r15
	.cfi_def_cfa_offset 16
	popq	%rbp
	.cfi_def_cfa_offset 8
	retq
.LBB2_43:
	.cfi_def_cfa_offset 576
	movl	%r15d, %eax
	andl	$-8, %eax
	pxor	%xmm0, %xmm0
	xorl	%ecx, %ecx
	.p2align	4
.LBB2_44:
	movq	146(%rsp,%rcx), %xmm1
	pcmpeqb	.LCPI2_5(%rip), %xmm1
	pmovzxbw	%xmm1, %xmm1
	pand	.LCPI2_6(%rip), %xmm1
	paddw	%xmm1, %xmm0
	addq	$8, %rcx
	cmpq	%rcx, %rax
	jne	.LBB2_44
	pshufd	$238, %xmm0, %xmm1
	paddw	%xmm0, %xmm1
	pshufd	$85, %xmm1, %xmm0
	paddw	%xmm1, %xmm0
	movdqa	%xmm0, %xmm1
	psrld	$16, %xmm1
	paddw	%xmm0, %xmm1
	movd	%xmm1, %ecx
	cmpl	%r15d, %eax
	je	.LBB2_47
	.p2align	4
.LBB2_46:
	xorl	%edx, %edx
	cmpb	$-15, 146(%rsp,%rax)
	sete	%dl
	addl	%edx, %ecx
	incq	%rax
	cmpq	%rax, %r15
	jne	.LBB2_46
.LBB2_47:
	movq	%rbx, %rdi
	leaq	146(%rsp), %rsi
	movq	%r15, %rdx
	cmpw	$31, %cx
	ja	.LBB2_49
	callq	"ecc200_calls::inspection::find_designators::<=31>"
	jmp	.LBB2_42
.LBB2_49:
	callq	"ecc200_calls::inspection::find_designators::<=779>"
	jmp	.LBB2_42
.Lfunc_end2:
	.size	"ecc200_calls::inspection::inspect_symbol::<=32,=98>", .Lfunc_end2-"ecc200_calls::inspection::inspect_symbol::<=32,=98>"
	.cfi_endproc

	.p2align	4
	.type	"dm_layout::symbols::border::border_faults",@function
"dm_layout::symbols::border::border_faults":
	.cfi_startproc
	pushq	%rbp
	.cfi_def_cfa_offset 16
	pushq	%r15
	.cfi_def_cfa_offset 24
	pushq	%r14
	.cfi_def_cfa_offset 32
	pushq	%r13
	.cfi_def_cfa_offset 40
	pushq	%r12
	.cfi_def_cfa_offset 48
	pushq	%rbx
	.cfi_def_cfa_offset 56
	subq	$32, %rsp
	.cfi_def_cfa_offset 88
	.cfi_offset %rbx, -56
	.cfi_offset %r12, -48
	.cfi_offset %r13, -40
	.cfi_offset %r14, -32
	.cfi_offset %r15, -24
	.cfi_offset %rbp, -16
	movq	%rdx, -72(%rsp)
	movl	(%rdi), %ebp
	movzwl	4(%rdi), %ebx
	movzwl	6(%rdi), %r15d
	movzwl	8(%rdi), %eax
	movq	%rax, -16(%rsp)
	movzwl	10(%rdi), %eax
	movl	%ebp, %r13d
	shrl	$16, %r13d
	testb	$1, %sil
	movl	%ebp, -40(%rsp)
	movq	%rdi, -56(%rsp)
	je	.LBB3_5
	cmpl	$8454143, %ebp
	ja	.LBB3_9
	testw	%ax, %ax
	je	.LBB3_11
	leal	2(%r15), %r11d
	cmpw	$1, %ax
	movq	%r15, -32(%rsp)
	jne	.LBB3_13
	xorl	%r12d, %r12d
	xorl	%r10d, %r10d
	xorl	%r15d, %r15d
	xorl	%r14d, %r14d
	xorl	%r8d, %r8d
	jmp	.LBB3_16
.LBB3_5:
	cmpl	$8454143, %ebp
	ja	.LBB3_10
	testw	%ax, %ax
	je	.LBB3_12
	leal	2(%r15), %ecx
	cmpw	$1, %ax
	movq	%r15, -32(%rsp)
	jne	.LBB3_30
	xorl	%esi, %esi
	xorl	%r15d, %r15d
	xorl	%r14d, %r14d
	xorl	%r9d, %r9d
	xorl	%edx, %edx
	jmp	.LBB3_33
.LBB3_9:
	leal	1(%r15), %ecx
	movl	$1, %r12d
	xorl	%esi, %esi
	shldq	%cl, %r12, %rsi
	leal	2(%r15), %eax
	movl	$1, %edx
	shlq	%cl, %rdx
	xorl	%r8d, %r8d
	testb	$64, %cl
	cmovneq	%rdx, %rsi
	movq	%rsi, -104(%rsp)
	cmovneq	%r8, %rdx
	xorl	%r8d, %r8d
	movq	%rdx, -120(%rsp)
	xorl	%edx, %edx
	movl	%eax, %ecx
	shldq	%cl, %r12, %rdx
	movl	$1, %esi
	shlq	%cl, %rsi
	testb	$64, %al
	cmovneq	%rsi, %rdx
	movq	%rdx, -80(%rsp)
	cmovneq	%r8, %rsi
	movq	%rsi, -112(%rsp)
	leal	3(,%r15,2), %ecx
	xorl	%r14d, %r14d
	shldq	%cl, %r12, %r14
	movl	$1, %esi
	shlq	%cl, %rsi
	testb	$64, %cl
	cmovneq	%rsi, %r14
	movl	$0, %edx
	cmovneq	%rdx, %rsi
	movq	%rsi, -64(%rsp)
	leal	4(,%r15,2), %ecx
	xorl	%r9d, %r9d
	shldq	%cl, %r12, %r9
	movl	$1, %ebp
	shlq	%cl, %rbp
	testb	$64, %cl
	cmovneq	%rbp, %r9
	cmovneq	%rdx, %rbp
	leal	(%r15,%r15,2), %ecx
	addl	$5, %ecx
	xorl	%esi, %esi
	shldq	%cl, %r12, %rsi
	movl	$1, %edx
	shlq	%cl, %rdx
	testb	$64, %cl
	cmovneq	%rdx, %rsi
	movq	%rsi, -24(%rsp)
	movl	$0, %esi
	cmovneq	%rsi, %rdx
	movq	%rdx, -88(%rsp)
	leal	(%rax,%rax,2), %ecx
	movq	%rbx, -96(%rsp)
	xorl	%ebx, %ebx
	shldq	%cl, %r12, %rbx
	movl	$1, %r10d
	shlq	%cl, %r10
	testb	$64, %cl
	cmovneq	%r10, %rbx
	cmovneq	%rsi, %r10
	xorl	%eax, %eax
	addl	%r15d, %ecx
	incl	%ecx
	movl	%r13d, -124(%rsp)
	xorl	%r13d, %r13d
	shldq	%cl, %r12, %r13
	movl	$1, %r11d
	shlq	%cl, %r11
	testb	$64, %cl
	cmovneq	%r11, %r13
	cmovneq	%rax, %r11
	xorl	%edx, %edx
	leal	8(,%r15,4), %ecx
	xorl	%esi, %esi
	shldq	%cl, %r12, %rsi
	movl	$1, %eax
	shlq	%cl, %rax
	testb	$64, %cl
	cmovneq	%rax, %rsi
	cmovneq	%rdx, %rax
	leal	(%r15,%r15,4), %ecx
	addl	$9, %ecx
	xorl	%r8d, %r8d
	shldq	%cl, %r12, %r8
	movl	$1, %edx
	shlq	%cl, %rdx
	testb	$64, %cl
	cmovneq	%rdx, %r8
	movl	$0, %ecx
	cmovneq	%rcx, %rdx
	leal	(%r15,%r15,4), %ecx
	addb	$10, %cl
	xorl	%edi, %edi
	shldq	%cl, %r12, %rdi
	shlq	%cl, %r12
	testb	$64, %cl
	cmovneq	%r12, %rdi
	movl	$0, %ecx
	cmovneq	%rcx, %r12
	orq	-80(%rsp), %r9
	orq	%rbx, %r9
	movq	-96(%rsp), %rbx
	orq	-112(%rsp), %rbp
	orq	%r10, %rbp
	movq	%rdi, %r10
	movq	-56(%rsp), %rdi
	movq	-64(%rsp), %r15
	orq	%rsi, %r10
	orq	%r9, %r10
	orq	%rax, %r12
	orq	%rbp, %r12
	orq	-104(%rsp), %r14
	orq	-24(%rsp), %r14
	orq	%r13, %r14
	movq	$-1, %r13
	orq	%r8, %r14
	movabsq	$6148914691236517205, %rax
	movb	$-112, %cl
	movl	-124(%rsp), %r8d
	subb	%r8b, %cl
	orq	-120(%rsp), %r15
	movl	$65535, %esi
	shrl	%cl, %esi
	orq	$1, %r12
	orq	-88(%rsp), %r15
	orq	%r11, %r15
	orq	%rdx, %r15
	orq	%r10, %r14
	orq	%r12, %r15
	movl	%r8d, %ecx
	addb	$127, %cl
	movl	$1, %edx
	shll	%cl, %edx
	movq	%rdx, -112(%rsp)
	movl	%esi, -44(%rsp)
	movl	%esi, %ecx
	andl	$21845, %ecx
	movq	%rcx, -8(%rsp)
	movq	%rax, -88(%rsp)
	movq	%rax, -24(%rsp)
	movq	$-1, %rbp
	jmp	.LBB3_18
.LBB3_10:
	leal	1(%r15), %ecx
	movl	$1, %esi
	xorl	%edi, %edi
	shldq	%cl, %rsi, %rdi
	leal	2(%r15), %eax
	movl	$1, %edx
	shlq	%cl, %rdx
	xorl	%r8d, %r8d
	testb	$64, %cl
	cmovneq	%rdx, %rdi
	movq	%rdi, -104(%rsp)
	cmovneq	%r8, %rdx
	xorl	%r8d, %r8d
	movq	%rdx, -120(%rsp)
	xorl	%edx, %edx
	movl	%eax, %ecx
	shldq	%cl, %rsi, %rdx
	movl	$1, %edi
	shlq	%cl, %rdi
	testb	$64, %al
	cmovneq	%rdi, %rdx
	movq	%rdx, -80(%rsp)
	cmovneq	%r8, %rdi
	movq	%rdi, -112(%rsp)
	leal	3(,%r15,2), %ecx
	xorl	%r9d, %r9d
	shldq	%cl, %rsi, %r9
	movl	$1, %r14d
	shlq	%cl, %r14
	testb	$64, %cl
	cmovneq	%r14, %r9
	movl	$0, %edi
	cmovneq	%rdi, %r14
	leal	4(,%r15,2), %ecx
	xorl	%ebp, %ebp
	shldq	%cl, %rsi, %rbp
	movl	$1, %edx
	shlq	%cl, %rdx
	testb	$64, %cl
	cmovneq	%rdx, %rbp
	cmovneq	%rdi, %rdx
	leal	(%r15,%r15,2), %ecx
	addl	$5, %ecx
	xorl	%r8d, %r8d
	shldq	%cl, %rsi, %r8
	movl	$1, %edi
	shlq	%cl, %rdi
	testb	$64, %cl
	cmovneq	%rdi, %r8
	movq	%r8, -72(%rsp)
	movl	$0, %r8d
	cmovneq	%r8, %rdi
	movq	%rdi, -64(%rsp)
	leal	(%rax,%rax,2), %ecx
	xorl	%edi, %edi
	shldq	%cl, %rsi, %rdi
	movl	$1, %r11d
	shlq	%cl, %r11
	testb	$64, %cl
	cmovneq	%r11, %rdi
	cmovneq	%r8, %r11
	xorl	%eax, %eax
	addl	%r15d, %ecx
	incl	%ecx
	movl	%r13d, -124(%rsp)
	xorl	%r13d, %r13d
	shldq	%cl, %rsi, %r13
	movq	%rbx, -96(%rsp)
	movl	$1, %ebx
	shlq	%cl, %rbx
	testb	$64, %cl
	cmovneq	%rbx, %r13
	cmovneq	%rax, %rbx
	xorl	%r10d, %r10d
	leal	8(,%r15,4), %ecx
	xorl	%r8d, %r8d
	shldq	%cl, %rsi, %r8
	movl	$1, %eax
	shlq	%cl, %rax
	testb	$64, %cl
	cmovneq	%rax, %r8
	cmovneq	%r10, %rax
	leal	(%r15,%r15,4), %ecx
	addl	$9, %ecx
	xorl	%r10d, %r10d
	shldq	%cl, %rsi, %r10
	movl	$1, %r12d
	shlq	%cl, %r12
	testb	$64, %cl
	cmovneq	%r12, %r10
	movl	$0, %ecx
	cmovneq	%rcx, %r12
	leal	(%r15,%r15,4), %ecx
	addb	$10, %cl
	xorl	%r15d, %r15d
	shldq	%cl, %rsi, %r15
	shlq	%cl, %rsi
	testb	$64, %cl
	cmovneq	%rsi, %r15
	movl	$0, %ecx
	cmovneq	%rcx, %rsi
	orq	-80(%rsp), %rbp
	orq	%rdi, %rbp
	movq	-56(%rsp), %rdi
	orq	-112(%rsp), %rdx
	orq	%r11, %rdx
	orq	%r8, %r15
	orq	%rbp, %r15
	movl	-40(%rsp), %ebp
	orq	%rax, %rsi
	orq	%rdx, %rsi
	orq	-104(%rsp), %r9
	orq	-72(%rsp), %r9
	orq	%r13, %r9
	movq	$-1, %r13
	orq	%r10, %r9
	movabsq	$6148914691236517205, %rax
	movb	$-112, %cl
	movl	-124(%rsp), %edx
	subb	%dl, %cl
	orq	-120(%rsp), %r14
	movl	$65535, %r8d
	shrl	%cl, %r8d
	orq	$1, %rsi
	orq	-64(%rsp), %r14
	orq	%rbx, %r14
	movq	-96(%rsp), %rbx
	orq	%r12, %r14
	orq	%r15, %r9
	orq	%rsi, %r14
	movl	%edx, %ecx
	addb	$127, %cl
	movl	$1, %r11d
	shll	%cl, %r11d
	movl	%r8d, %ecx
	andl	$21845, %ecx
	movq	%rcx, -72(%rsp)
	movq	%rax, -104(%rsp)
	movq	%rax, -112(%rsp)
	movq	$-1, %r10
	jmp	.LBB3_35
.LBB3_11:
	xorl	%r15d, %r15d
	xorl	%r14d, %r14d
	xorl	%r12d, %r12d
	xorl	%r10d, %r10d
	jmp	.LBB3_17
.LBB3_12:
	xorl	%r14d, %r14d
	xorl	%r9d, %r9d
	xorl	%esi, %esi
	xorl	%r15d, %r15d
	jmp	.LBB3_34
.LBB3_13:
	movl	%r13d, -124(%rsp)
	movq	%rbx, -96(%rsp)
	movl	%eax, -88(%rsp)
	andl	$65534, %eax
	movl	%eax, -120(%rsp)
	leal	3(,%r15,2), %eax
	movq	%rax, -104(%rsp)
	leal	4(,%r15,2), %eax
	movq	%rax, -112(%rsp)
	leal	1(%r15), %eax
	movq	%rax, -80(%rsp)
	xorl	%r9d, %r9d
	xorl	%esi, %esi
	xorl	%r10d, %r10d
	xorl	%r15d, %r15d
	xorl	%r14d, %r14d
	xorl	%r8d, %r8d
	.p2align	4
.LBB3_14:
	movl	$1, %eax
	xorl	%edx, %edx
	movl	%r9d, %ecx
	shldq	%cl, %rax, %rdx
	xorl	%edi, %edi
	movl	$1, %r12d
	shlq	%cl, %r12
	testb	$64, %r9b
	cmovneq	%r12, %rdx
	cmovneq	%rdi, %r12
	xorl	%edi, %edi
	movq	-80(%rsp), %rcx
	addl	%r9d, %ecx
	xorl	%ebx, %ebx
	shldq	%cl, %rax, %rbx
	orq	%rdx, %r10
	orq	%r12, %rsi
	movl	$1, %r13d
	shlq	%cl, %r13
	testb	$64, %cl
	cmovneq	%r13, %rbx
	cmovneq	%rdi, %r13
	leal	(%r11,%r9), %ecx
	xorl	%ebp, %ebp
	shldq	%cl, %rax, %rbp
	orq	%r14, %rbx
	orq	%r15, %r13
	movq	%r11, %rdi
	movl	$1, %r11d
	shlq	%cl, %r11
	testb	$64, %cl
	cmovneq	%r11, %rbp
	movl	$0, %r15d
	cmovneq	%r15, %r11
	orq	%rbp, %r10
	movq	-104(%rsp), %rcx
	addl	%r9d, %ecx
	xorl	%r14d, %r14d
	shldq	%cl, %rax, %r14
	shlq	%cl, %rax
	orq	%r11, %rsi
	testb	$64, %cl
	cmovneq	%rax, %r14
	cmovneq	%r15, %rax
	orq	%rdx, %r14
	orq	%rbx, %r14
	orq	%r12, %rax
	orq	%r13, %rax
	orq	%rbp, %r14
	movq	%rax, %r15
	orq	%r11, %r15
	movq	%rdi, %r11
	addl	$2, %r8d
	movq	-112(%rsp), %rax
	addl	%eax, %r9d
	cmpw	%r8w, -120(%rsp)
	jne	.LBB3_14
	movq	%rsi, %r12
	testb	$1, -88(%rsp)
	movq	-96(%rsp), %rbx
	movl	-124(%rsp), %r13d
	movq	-56(%rsp), %rdi
	je	.LBB3_17
.LBB3_16:
	imull	%r11d, %r8d
	movl	$1, %edx
	xorl	%eax, %eax
	movl	%r8d, %ecx
	shldq	%cl, %rdx, %rax
	movq	-32(%rsp), %r11
	incl	%r11d
	xorl	%r9d, %r9d
	movl	$1, %esi
	shlq	%cl, %rsi
	testb	$64, %r8b
	cmovneq	%rsi, %rax
	cmovneq	%r9, %rsi
	orq	%rax, %r10
	addl	%r8d, %r11d
	xorl	%r8d, %r8d
	movl	%r11d, %ecx
	shldq	%cl, %rdx, %r8
	shlq	%cl, %rdx
	orq	%rsi, %r12
	testb	$64, %r11b
	cmovneq	%rdx, %r8
	cmovneq	%r9, %rdx
	orq	%r14, %rax
	orq	%r8, %rax
	orq	%r15, %rsi
	orq	%rdx, %rsi
	movq	%rsi, %r15
	movq	%rax, %r14
.LBB3_17:
	movq	$-1, %rbp
	movq	$-1, %rax
	movl	%r13d, %ecx
	shlq	%cl, %rax
	movq	$0, -112(%rsp)
	testb	$64, %r13b
	cmovneq	%rax, %rbp
	movl	$0, %r13d
	cmoveq	%rax, %r13
	notq	%r13
	notq	%rbp
	movabsq	$6148914691236517205, %rax
	movq	%rbp, %rcx
	andq	%rax, %rcx
	movq	%rcx, -24(%rsp)
	andq	%r13, %rax
	movq	%rax, -88(%rsp)
	movq	$0, -8(%rsp)
	movl	$0, -44(%rsp)
.LBB3_18:
	cmpq	$0, -16(%rsp)
	je	.LBB3_44
	leal	1(%rbx), %eax
	addl	$2, %ebx
	movq	%rax, 8(%rsp)
	movzwl	%ax, %ecx
	testw	%cx, %cx
	movq	-24(%rsp), %rax
	cmoveq	%rbp, %rax
	movq	%rax, -24(%rsp)
	movq	-88(%rsp), %rax
	cmoveq	%r13, %rax
	movq	%rax, -88(%rsp)
	movq	-8(%rsp), %rax
	cmovel	-44(%rsp), %eax
	movq	%rax, -8(%rsp)
	movq	24(%rdi), %r11
	movq	-72(%rsp), %rax
	movq	24(%rax), %rsi
	shrl	%ecx
	movq	%rcx, (%rsp)
	movw	$2, %r8w
	xorl	%ecx, %ecx
	xorl	%edx, %edx
	movl	-40(%rsp), %r9d
	movq	%rbx, -96(%rsp)
	movq	%r13, 24(%rsp)
	movq	%rbp, 16(%rsp)
	movq	%rsi, -120(%rsp)
	jmp	.LBB3_22
	.p2align	4
.LBB3_20:
	addl	%edx, %edx
	movq	-56(%rsp), %rdi
	movq	40(%rdi), %rsi
	movzwl	(%rsi,%rdx), %esi
	movq	-72(%rsp), %rbx
	movq	40(%rbx), %rbx
	movzwl	(%rbx,%rdx), %edx
	notl	%esi
	andl	-44(%rsp), %esi
	notl	%edx
	andl	%esi, %edx
	movzwl	%dx, %edx
	popcntq	%rcx, %rcx
	xorl	%esi, %esi
	popcntq	%rax, %rsi
	xorl	%eax, %eax
	popcntl	%edx, %eax
	addl	%ecx, %eax
	addl	%esi, %eax
	movq	-120(%rsp), %rsi
	movq	-96(%rsp), %rbx
.LBB3_21:
	movzwl	%ax, %eax
	addl	-124(%rsp), %eax
	addl	%r8d, %eax
	movq	-64(%rsp), %rcx
	incq	%rcx
	movl	-80(%rsp), %r8d
	addl	%ebx, %r8d
	movl	%eax, %edx
	cmpq	-16(%rsp), %rcx
	je	.LBB3_45
.LBB3_22:
	movl	%edx, -124(%rsp)
	movl	%ebx, %eax
	movq	%rcx, -64(%rsp)
	imull	%ecx, %eax
	movzwl	%ax, %ebx
	movl	%ebx, %edx
	shll	$4, %edx
	movq	8(%r11,%rdx), %rax
	xorq	-24(%rsp), %rax
	movq	(%r11,%rdx), %rcx
	xorq	-88(%rsp), %rcx
	pcmpeqd	%xmm0, %xmm0
	pxor	(%rsi,%rdx), %xmm0
	pextrq	$1, %xmm0, %rdx
	movq	%xmm0, %rsi
	andq	%rbp, %rax
	andq	%rdx, %rax
	andq	%r13, %rcx
	andq	%rsi, %rcx
	cmpl	$8454143, %r9d
	movl	%r8d, -80(%rsp)
	movq	%rbx, -32(%rsp)
	ja	.LBB3_25
	popcntq	%rcx, %rcx
	xorl	%ebx, %ebx
	popcntq	%rax, %rbx
	addl	%ecx, %ebx
	cmpl	$4259840, %r9d
	cmovbl	%ecx, %ebx
	movl	%r8d, %ecx
	movq	(%rsp), %rax
	movq	%rax, %rdx
	movl	%ebx, %r8d
	testq	%rax, %rax
	movq	-120(%rsp), %rsi
	je	.LBB3_27
	.p2align	4
.LBB3_24:
	leal	-1(%rcx), %eax
	movzwl	%ax, %eax
	shll	$4, %eax
	movdqa	(%rsi,%rax), %xmm0
	por	(%r11,%rax), %xmm0
	pcmpeqd	%xmm1, %xmm1
	pxor	%xmm1, %xmm0
	pextrq	$1, %xmm0, %rax
	movzwl	%cx, %edi
	shll	$4, %edi
	movq	8(%r11,%rdi), %r8
	xorq	%r10, %r8
	movq	(%r11,%rdi), %r9
	pxor	(%rsi,%rdi), %xmm1
	xorq	%r12, %r9
	pextrq	$1, %xmm1, %rdi
	andq	%r14, %r8
	andq	%rdi, %r8
	movq	%xmm1, %rdi
	andq	%r15, %r9
	andq	%rdi, %r9
	movq	%xmm0, %rdi
	andq	%r14, %rax
	andq	%r15, %rdi
	popcntq	%rdi, %rdi
	popcntq	%rax, %rax
	addl	%edi, %eax
	popcntq	%r9, %r9
	popcntq	%r8, %r8
	addl	%r9d, %r8d
	cmpl	$4259840, -40(%rsp)
	cmovbl	%edi, %eax
	cmovbl	%r9d, %r8d
	addl	%ebx, %r8d
	addl	%eax, %r8d
	addl	$2, %ecx
	movl	%r8d, %ebx
	decq	%rdx
	jne	.LBB3_24
	jmp	.LBB3_27
	.p2align	4
.LBB3_25:
	leal	(%rbx,%rbx), %esi
	movq	40(%rdi), %rdi
	movq	-72(%rsp), %rdx
	movq	40(%rdx), %rdx
	movl	%r8d, %ebx
	movzwl	(%rdx,%rsi), %r8d
	movq	%rdi, -104(%rsp)
	movzwl	(%rdi,%rsi), %edi
	xorw	-8(%rsp), %di
	movl	-44(%rsp), %r9d
	andl	%edi, %r9d
	notl	%r8d
	andl	%r9d, %r8d
	movzwl	%r8w, %edi
	popcntq	%rcx, %rcx
	popcntq	%rax, %rax
	xorl	%r8d, %r8d
	popcntl	%edi, %r8d
	addl	%ecx, %r8d
	addl	%eax, %r8d
	movl	%ebx, %ebp
	movq	(%rsp), %rax
	movq	%rax, %rcx
	testq	%rax, %rax
	movq	-120(%rsp), %rsi
	je	.LBB3_27
	.p2align	4
.LBB3_26:
	leal	-1(%rbp), %eax
	movzwl	%ax, %eax
	movl	%eax, %edi
	shll	$4, %edi
	movdqa	(%rsi,%rdi), %xmm1
	por	(%r11,%rdi), %xmm1
	pcmpeqd	%xmm0, %xmm0
	movzwl	%bp, %edi
	movl	%edi, %r9d
	shll	$4, %r9d
	movq	(%r11,%r9), %rsi
	xorq	%r12, %rsi
	movq	%r12, %r13
	movq	8(%r11,%r9), %r12
	xorq	%r10, %r12
	movq	-120(%rsp), %rbx
	movdqa	(%rbx,%r9), %xmm2
	pxor	%xmm0, %xmm2
	movq	%xmm2, %r9
	andq	%r15, %rsi
	andq	%r9, %rsi
	pextrq	$1, %xmm2, %r9
	andq	%r14, %r12
	andq	%r9, %r12
	addl	%edi, %edi
	popcntq	%r12, %r12
	xorl	%r9d, %r9d
	popcntq	%rsi, %r9
	addl	%r12d, %r9d
	movq	%r13, %r12
	movzwl	(%rdx,%rdi), %esi
	movd	%esi, %xmm2
	movq	-104(%rsp), %rbx
	movzwl	(%rbx,%rdi), %esi
	movq	-112(%rsp), %rdi
	andw	%di, %si
	movd	%esi, %xmm3
	pxor	%xmm0, %xmm1
	addl	%eax, %eax
	pinsrw	$1, (%rdx,%rax), %xmm2
	movzwl	(%rbx,%rax), %eax
	notl	%eax
	andl	%edi, %eax
	pinsrw	$1, %eax, %xmm3
	movq	%xmm1, %rax
	andq	%r15, %rax
	popcntq	%rax, %rax
	addl	%eax, %r8d
	pextrq	$1, %xmm1, %rax
	andq	%r14, %rax
	popcntq	%rax, %rax
	addl	%eax, %r8d
	pandn	%xmm3, %xmm2
	pxor	%xmm1, %xmm1
	pcmpeqw	%xmm2, %xmm1
	pxor	%xmm0, %xmm1
	pmovsxwq	%xmm1, %xmm0
	addl	%r9d, %r8d
	movmskpd	%xmm0, %eax
	movl	%eax, %esi
	andl	$1, %eax
	addl	%eax, %r8d
	shrb	%sil
	movzbl	%sil, %eax
	movq	-120(%rsp), %rsi
	addl	%eax, %r8d
	addl	$2, %ebp
	decq	%rcx
	jne	.LBB3_26
.LBB3_27:
	movq	8(%rsp), %rax
	movq	-32(%rsp), %rcx
	addl	%ecx, %eax
	movzwl	%ax, %edx
	movl	%edx, %eax
	shll	$4, %eax
	movdqa	(%rsi,%rax), %xmm0
	por	(%r11,%rax), %xmm0
	pcmpeqd	%xmm1, %xmm1
	pxor	%xmm0, %xmm1
	pextrq	$1, %xmm1, %rax
	movq	%xmm1, %rcx
	movq	16(%rsp), %rbp
	andq	%rbp, %rax
	movq	24(%rsp), %r13
	andq	%r13, %rcx
	movl	-40(%rsp), %r9d
	cmpl	$8454143, %r9d
	ja	.LBB3_20
	popcntq	%rcx, %rcx
	popcntq	%rax, %rax
	addl	%ecx, %eax
	cmpl	$4259840, %r9d
	cmovbl	%ecx, %eax
	movq	-96(%rsp), %rbx
	movq	-56(%rsp), %rdi
	jmp	.LBB3_21
.LBB3_30:
	movl	%r13d, -124(%rsp)
	movq	%rbx, -96(%rsp)
	movl	%eax, -88(%rsp)
	andl	$65534, %eax
	movl	%eax, -104(%rsp)
	leal	3(,%r15,2), %eax
	movq	%rax, -112(%rsp)
	leal	4(,%r15,2), %eax
	movq	%rax, -80(%rsp)
	leal	1(%r15), %eax
	movq	%rax, -64(%rsp)
	xorl	%r8d, %r8d
	xorl	%esi, %esi
	xorl	%r15d, %r15d
	xorl	%r14d, %r14d
	xorl	%r9d, %r9d
	xorl	%edx, %edx
	movq	%rcx, -120(%rsp)
	.p2align	4
.LBB3_31:
	movl	$1, %eax
	xorl	%r10d, %r10d
	movl	%r8d, %ecx
	shldq	%cl, %rax, %r10
	xorl	%r11d, %r11d
	movl	$1, %edi
	shlq	%cl, %rdi
	testb	$64, %r8b
	cmovneq	%rdi, %r10
	cmovneq	%r11, %rdi
	movq	-64(%rsp), %rcx
	addl	%r8d, %ecx
	xorl	%r12d, %r12d
	shldq	%cl, %rax, %r12
	orq	%r10, %r15
	orq	%rdi, %rsi
	movl	$1, %r13d
	shlq	%cl, %r13
	testb	$64, %cl
	cmovneq	%r13, %r12
	cmovneq	%r11, %r13
	movq	-120(%rsp), %rcx
	addl	%r8d, %ecx
	xorl	%ebp, %ebp
	shldq	%cl, %rax, %rbp
	orq	%r9, %r12
	orq	%r14, %r13
	movl	$1, %ebx
	shlq	%cl, %rbx
	testb	$64, %cl
	cmovneq	%rbx, %rbp
	cmovneq	%r11, %rbx
	orq	%rbp, %r15
	movq	-112(%rsp), %rcx
	addl	%r8d, %ecx
	xorl	%r9d, %r9d
	shldq	%cl, %rax, %r9
	shlq	%cl, %rax
	orq	%rbx, %rsi
	testb	$64, %cl
	cmovneq	%rax, %r9
	cmovneq	%r11, %rax
	orq	%r10, %r9
	orq	%r12, %r9
	orq	%rdi, %rax
	orq	%r13, %rax
	orq	%rbp, %r9
	movq	%rax, %r14
	orq	%rbx, %r14
	addl	$2, %edx
	movq	-80(%rsp), %rax
	addl	%eax, %r8d
	cmpw	%dx, -104(%rsp)
	jne	.LBB3_31
	testb	$1, -88(%rsp)
	movq	-96(%rsp), %rbx
	movl	-40(%rsp), %ebp
	movq	-56(%rsp), %rdi
	movl	-124(%rsp), %r13d
	movq	-120(%rsp), %rcx
	je	.LBB3_34
.LBB3_33:
	imull	%ecx, %edx
	movl	$1, %r11d
	xorl	%eax, %eax
	movl	%edx, %ecx
	shldq	%cl, %r11, %rax
	movq	-32(%rsp), %r12
	incl	%r12d
	xorl	%r10d, %r10d
	movl	$1, %r8d
	shlq	%cl, %r8
	testb	$64, %dl
	cmovneq	%r8, %rax
	cmovneq	%r10, %r8
	orq	%rax, %r15
	addl	%edx, %r12d
	xorl	%edx, %edx
	movl	%r12d, %ecx
	shldq	%cl, %r11, %rdx
	shlq	%cl, %r11
	orq	%r8, %rsi
	testb	$64, %r12b
	cmovneq	%r11, %rdx
	cmovneq	%r10, %r11
	orq	%r9, %rax
	orq	%rdx, %rax
	orq	%r14, %r8
	orq	%r11, %r8
	movq	%r8, %r14
	movq	%rax, %r9
.LBB3_34:
	movq	$-1, %r10
	movq	$-1, %rax
	movl	%r13d, %ecx
	shlq	%cl, %rax
	xorl	%r11d, %r11d
	testb	$64, %r13b
	cmovneq	%rax, %r10
	movl	$0, %r13d
	cmoveq	%rax, %r13
	notq	%r13
	notq	%r10
	movabsq	$6148914691236517205, %rax
	movq	%r10, %rcx
	andq	%rax, %rcx
	movq	%rcx, -112(%rsp)
	andq	%r13, %rax
	movq	%rax, -104(%rsp)
	movq	$0, -72(%rsp)
	xorl	%r8d, %r8d
.LBB3_35:
	cmpq	$0, -16(%rsp)
	je	.LBB3_44
	leal	1(%rbx), %eax
	addl	$2, %ebx
	movl	%eax, -124(%rsp)
	movzwl	%ax, %ecx
	testw	%cx, %cx
	movq	-112(%rsp), %rax
	cmoveq	%r10, %rax
	movq	%rax, -112(%rsp)
	movq	-104(%rsp), %rax
	cmoveq	%r13, %rax
	movq	%rax, -104(%rsp)
	movq	-72(%rsp), %rax
	cmovel	%r8d, %eax
	movq	%rax, -72(%rsp)
	shrl	%ecx
	movq	%rcx, -120(%rsp)
	movq	24(%rdi), %r12
	cmpl	$8454143, %ebp
	movq	%rbx, -96(%rsp)
	movq	%r13, -80(%rsp)
	movq	%r10, -64(%rsp)
	ja	.LBB3_46
	movw	$2, %di
	xorl	%r8d, %r8d
	xorl	%ecx, %ecx
	jmp	.LBB3_39
	.p2align	4
.LBB3_38:
	addl	-124(%rsp), %r11d
	movzwl	%r11w, %edx
	shll	$4, %edx
	pcmpeqd	%xmm0, %xmm0
	pxor	(%r12,%rdx), %xmm0
	movq	%xmm0, %rdx
	pextrq	$1, %xmm0, %r10
	movq	-64(%rsp), %r11
	andq	%r11, %r10
	movq	-80(%rsp), %r13
	andq	%r13, %rdx
	popcntq	%rdx, %rdx
	popcntq	%r10, %r10
	addl	%edx, %r10d
	movl	-40(%rsp), %ebp
	cmpl	$4259840, %ebp
	cmovbl	%edx, %r10d
	addl	%ecx, %eax
	addl	%r10d, %eax
	movq	%r11, %r10
	incq	%r8
	movq	-96(%rsp), %rbx
	addl	%ebx, %edi
	movl	%eax, %ecx
	cmpq	-16(%rsp), %r8
	je	.LBB3_45
.LBB3_39:
	movl	%ebx, %r11d
	imull	%r8d, %r11d
	movzwl	%r11w, %eax
	shll	$4, %eax
	movq	(%r12,%rax), %rdx
	xorq	-104(%rsp), %rdx
	movq	8(%r12,%rax), %rax
	xorq	-112(%rsp), %rax
	andq	%r10, %rax
	andq	%r13, %rdx
	movl	%ebp, %r10d
	xorl	%ebp, %ebp
	popcntq	%rdx, %rbp
	xorl	%edx, %edx
	popcntq	%rax, %rdx
	addl	%ebp, %edx
	cmpl	$4259840, %r10d
	movl	%edx, %eax
	cmovbl	%ebp, %eax
	movq	-120(%rsp), %r13
	testq	%r13, %r13
	je	.LBB3_38
	movl	%edi, %ebx
	cmpl	$4259840, %r10d
	jae	.LBB3_43
	movl	%edi, %edx
	movq	-120(%rsp), %r10
	.p2align	4
.LBB3_42:
	leal	-1(%rdx), %eax
	movzwl	%ax, %eax
	shll	$4, %eax
	movq	(%r12,%rax), %rax
	notq	%rax
	andq	%r14, %rax
	xorl	%ebx, %ebx
	popcntq	%rax, %rbx
	movzwl	%dx, %eax
	shll	$4, %eax
	movq	(%r12,%rax), %rax
	xorq	%rsi, %rax
	andq	%r14, %rax
	popcntq	%rax, %rax
	addl	%ebp, %eax
	addl	%ebx, %eax
	addl	$2, %edx
	movl	%eax, %ebp
	decq	%r10
	jne	.LBB3_42
	jmp	.LBB3_38
	.p2align	4
.LBB3_43:
	leal	-1(%rbx), %eax
	movzwl	%ax, %eax
	shll	$4, %eax
	pcmpeqd	%xmm0, %xmm0
	pxor	(%r12,%rax), %xmm0
	pextrq	$1, %xmm0, %rax
	movq	%xmm0, %r10
	andq	%r14, %r10
	andq	%r9, %rax
	popcntq	%rax, %rax
	popcntq	%r10, %r10
	addl	%r10d, %edx
	addl	%eax, %edx
	movzwl	%bx, %eax
	shll	$4, %eax
	movq	8(%r12,%rax), %r10
	xorq	%r15, %r10
	movq	(%r12,%rax), %rax
	xorq	%rsi, %rax
	andq	%r14, %rax
	andq	%r9, %r10
	popcntq	%r10, %r10
	popcntq	%rax, %rax
	addl	%r10d, %eax
	addl	%edx, %eax
	addl	$2, %ebx
	movl	%eax, %edx
	decq	%r13
	jne	.LBB3_43
	jmp	.LBB3_38
.LBB3_44:
	xorl	%eax, %eax
.LBB3_45:
	addq	$32, %rsp
	.cfi_def_cfa_offset 56
	popq	%rbx
	.cfi_def_cfa_offset 48
	popq	%r12
	.cfi_def_cfa_offset 40
	popq	%r13
	.cfi_def_cfa_offset 32
	popq	%r14
	.cfi_def_cfa_offset 24
	popq	%r15
	.cfi_def_cfa_offset 16
	popq	%rbp
	.cfi_def_cfa_offset 8
	retq
.LBB3_46:
	.cfi_def_cfa_offset 88
	movq	40(%rdi), %rbp
	movw	$2, %ax
	movl	%eax, -56(%rsp)
	xorl	%ecx, %ecx
	xorl	%edx, %edx
	movl	%r8d, -88(%rsp)
	jmp	.LBB3_48
	.p2align	4
.LBB3_47:
	addl	-124(%rsp), %r13d
	movzwl	%r13w, %ecx
	movl	%ecx, %edx
	shll	$4, %edx
	pcmpeqd	%xmm0, %xmm0
	pxor	(%r12,%rdx), %xmm0
	movzwl	(%rbp,%rcx,2), %ecx
	pextrq	$1, %xmm0, %rdx
	movq	%xmm0, %rdi
	movq	-80(%rsp), %r13
	andq	%r13, %rdi
	movq	-64(%rsp), %r10
	andq	%r10, %rdx
	notl	%ecx
	movl	-88(%rsp), %r8d
	andl	%r8d, %ecx
	popcntq	%rdx, %rdx
	popcntq	%rdi, %rdi
	movzwl	%cx, %ecx
	popcntl	%ecx, %ecx
	addl	%edi, %ecx
	addl	%edx, %ecx
	addl	-32(%rsp), %eax
	addl	%ecx, %eax
	movq	-40(%rsp), %rcx
	incq	%rcx
	movq	-96(%rsp), %rbx
	addl	%ebx, -56(%rsp)
	movl	%eax, %edx
	cmpq	-16(%rsp), %rcx
	je	.LBB3_45
.LBB3_48:
	movl	%edx, -32(%rsp)
	movq	%r13, %rdi
	movl	%ebx, %r13d
	movq	%rcx, -40(%rsp)
	imull	%ecx, %r13d
	movzwl	%r13w, %eax
	movzwl	(%rbp,%rax,2), %ecx
	shll	$4, %eax
	xorw	-72(%rsp), %cx
	movl	%r8d, %edx
	andl	%ecx, %edx
	movq	8(%r12,%rax), %rcx
	xorq	-112(%rsp), %rcx
	movq	(%r12,%rax), %rax
	xorq	-104(%rsp), %rax
	andq	%rdi, %rax
	andq	%r10, %rcx
	popcntq	%rcx, %rcx
	xorl	%r10d, %r10d
	popcntq	%rax, %r10
	addl	%ecx, %r10d
	movzwl	%dx, %eax
	popcntl	%eax, %eax
	addl	%r10d, %eax
	movq	-120(%rsp), %rbx
	testq	%rbx, %rbx
	je	.LBB3_47
	movl	-56(%rsp), %ecx
	movl	%ecx, %edx
	.p2align	4
.LBB3_50:
	leal	-1(%rdx), %ecx
	movzwl	%cx, %r10d
	movl	%r10d, %ecx
	shll	$4, %ecx
	pcmpeqd	%xmm0, %xmm0
	pxor	(%r12,%rcx), %xmm0
	movzwl	%dx, %edi
	movl	%edi, %ecx
	shll	$4, %ecx
	movq	8(%r12,%rcx), %r8
	xorq	%r15, %r8
	movq	(%r12,%rcx), %rcx
	xorq	%rsi, %rcx
	andq	%r14, %rcx
	andq	%r9, %r8
	popcntq	%r8, %r8
	popcntq	%rcx, %rcx
	addl	%r8d, %ecx
	movq	%xmm0, %r8
	andq	%r14, %r8
	popcntq	%r8, %r8
	addl	%r8d, %eax
	pextrq	$1, %xmm0, %r8
	andq	%r9, %r8
	popcntq	%r8, %r8
	addl	%r8d, %eax
	movzwl	(%rbp,%r10,2), %r8d
	movzwl	(%rbp,%rdi,2), %edi
	notl	%r8d
	andl	%r11d, %r8d
	andw	%r11w, %di
	cmpw	$1, %r8w
	sbbw	$-1, %ax
	addl	%ecx, %eax
	cmpw	$1, %di
	sbbw	$-1, %ax
	addl	$2, %edx
	decq	%rbx
	jne	.LBB3_50
	jmp	.LBB3_47
.Lfunc_end3:
	.size	"dm_layout::symbols::border::border_faults", .Lfunc_end3-"dm_layout::symbols::border::border_faults"
	.cfi_endproc

	.p2align	4
	.type	"dm_symbol::symbol::inspection::mend",@function
"dm_symbol::symbol::inspection::mend":
	.cfi_startproc
	pushq	%rbp
	.cfi_def_cfa_offset 16
	pushq	%r15
	.cfi_def_cfa_offset 24
	pushq	%r14
	.cfi_def_cfa_offset 32
	pushq	%r13
	.cfi_def_cfa_offset 40
	pushq	%r12
	.cfi_def_cfa_offset 48
	pushq	%rbx
	.cfi_def_cfa_offset 56
	subq	$104, %rsp
	.cfi_def_cfa_offset 160
	.cfi_offset %rbx, -56
	.cfi_offset %r12, -48
	.cfi_offset %r13, -40
	.cfi_offset %r14, -32
	.cfi_offset %r15, -24
	.cfi_offset %rbp, -16
	movq	%r9, %rbx
	movq	%r8, %r14
	movq	%rcx, %r15
	movq	%rdx, %rbp
	movl	%esi, 4(%rsp)
	movq	%rdi, %r12
	movzwl	14(%rdi), %eax
	addw	12(%rdi), %ax
	movzwl	%ax, %r13d
	movq	%rcx, %rsi
	callq	"dm_layout::symbols::placing::lift_to"
	movq	%r14, %rax
	subq	%r15, %rax
	cmpq	%r13, %rax
	jae	.LBB4_3
	cmpw	$4, %r13w
	setb	%cl
	cmpq	$32, %rax
	setb	%al
	orb	%cl, %al
	je	.LBB4_4
	xorl	%eax, %eax
	jmp	.LBB4_13
.LBB4_3:
	movq	%r14, %rdi
	movq	%r15, %rsi
	movq	%r13, %rdx
	callq	memmove@PLT
	jmp	.LBB4_18
.LBB4_4:
	cmpw	$16, %r13w
	jae	.LBB4_6
	xorl	%eax, %eax
	jmp	.LBB4_10
.LBB4_6:
	movl	%r13d, %eax
	andl	$-16, %eax
	xorl	%ecx, %ecx
	.p2align	4
.LBB4_7:
	movups	(%r15,%rcx), %xmm0
	movups	%xmm0, (%r14,%rcx)
	addq	$16, %rcx
	cmpq	%rcx, %rax
	jne	.LBB4_7
	cmpl	%r13d, %eax
	je	.LBB4_18
	testb	$12, %r13b
	je	.LBB4_13
.LBB4_10:
	movq	%rax, %rcx
	movl	%r13d, %eax
	andl	$-4, %eax
	.p2align	4
.LBB4_11:
	movl	(%r15,%rcx), %edx
	movl	%edx, (%r14,%rcx)
	addq	$4, %rcx
	cmpq	%rcx, %rax
	jne	.LBB4_11
	cmpl	%r13d, %eax
	je	.LBB4_18
.LBB4_13:
	movq	%r13, %rdx
	movq	%rax, %rcx
	andq	$3, %rdx
	je	.LBB4_16
	movq	%rax, %rcx
	.p2align	4
.LBB4_15:
	movzbl	(%r15,%rcx), %esi
	movb	%sil, (%r14,%rcx)
	incq	%rcx
	decq	%rdx
	jne	.LBB4_15
.LBB4_16:
	subl	%r13d, %eax
	cmpl	$-4, %eax
	ja	.LBB4_18
	.p2align	4
.LBB4_17:
	movzbl	(%r15,%rcx), %eax
	movb	%al, (%r14,%rcx)
	movzbl	1(%r15,%rcx), %eax
	movb	%al, 1(%r14,%rcx)
	movzbl	2(%r15,%rcx), %eax
	movb	%al, 2(%r14,%rcx)
	movzbl	3(%r15,%rcx), %eax
	movb	%al, 3(%r14,%rcx)
	addq	$4, %rcx
	cmpq	%rcx, %r13
	jne	.LBB4_17
.LBB4_18:
	movl	16(%r12), %eax
	movl	%eax, 64(%rsp)
	movups	(%r12), %xmm0
	movaps	%xmm0, 48(%rsp)
	testb	$1, 4(%rsp)
	je	.LBB4_20
	leaq	48(%rsp), %rdi
	movq	%r14, %rsi
	movq	%r13, %rdx
	movq	%rbp, %rcx
	movq	%rbx, %r8
	callq	"dm_symbol::symbol::inspection::mend_doubtful"
	movq	40(%rbx), %rax
	jmp	.LBB4_28
.LBB4_20:
	movq	%rbp, 8(%rsp)
	movups	(%r12), %xmm0
	movaps	%xmm0, 16(%rsp)
	movl	16(%r12), %eax
	movl	%eax, 32(%rsp)
	movl	$0, (%rsp)
	movq	40(%rbx), %rdx
	testq	%rdx, %rdx
	je	.LBB4_22
	shlq	$2, %rdx
	movq	%rbx, %rdi
	xorl	%esi, %esi
	callq	memset@PLT
	movq	$0, 40(%rbx)
.LBB4_22:
	movzwl	32(%rsp), %ebp
	testq	%rbp, %rbp
	je	.LBB4_26
	xorl	%r15d, %r15d
	.p2align	4
.LBB4_24:
	xorps	%xmm0, %xmm0
	movaps	%xmm0, 80(%rsp)
	movq	$0, 96(%rsp)
	movq	%rsp, %rdi
	leaq	16(%rsp), %rsi
	leaq	80(%rsp), %r8
	movq	%r14, %rdx
	movq	%r13, %rcx
	movq	%r15, %r9
	callq	"dm_symbol::symbol::correction::restore_block"
	movzwl	1(%rsp), %ecx
	movzbl	(%rsp), %edx
	movzbl	3(%rsp), %esi
	movq	40(%rbx), %rax
	movb	%dl, (%rbx,%rax,4)
	movb	%sil, 3(%rbx,%rax,4)
	movw	%cx, 1(%rbx,%rax,4)
	incq	%rax
	movq	%rax, 40(%rbx)
	incq	%r15
	cmpq	%r15, %rbp
	jne	.LBB4_24
	jmp	.LBB4_27
.LBB4_26:
	xorl	%eax, %eax
.LBB4_27:
	movq	8(%rsp), %rbp
.LBB4_28:
	xorl	%ecx, %ecx
	.p2align	4
.LBB4_29:
	cmpq	%rcx, %rax
	je	.LBB4_32
	cmpb	$1, (%rbx,%rcx,4)
	leaq	1(%rcx), %rcx
	je	.LBB4_29
	movzbl	4(%rsp), %esi
	movq	%r12, %rdi
	movq	%rbp, %rdx
	movq	%r14, %rcx
	movq	%r13, %r8
	movq	%rbx, %r9
	callq	"dm_symbol::symbol::inspection::mend_restarted"
	jmp	.LBB4_33
.LBB4_32:
	xorl	%eax, %eax
.LBB4_33:
	addq	$104, %rsp
	.cfi_def_cfa_offset 56
	popq	%rbx
	.cfi_def_cfa_offset 48
	popq	%r12
	.cfi_def_cfa_offset 40
	popq	%r13
	.cfi_def_cfa_offset 32
	popq	%r14
	.cfi_def_cfa_offset 24
	popq	%r15
	.cfi_def_cfa_offset 16
	popq	%rbp
	.cfi_def_cfa_offset 8
	retq
.Lfunc_end4:
	.size	"dm_symbol::symbol::inspection::mend", .Lfunc_end4-"dm_symbol::symbol::inspection::mend"
	.cfi_endproc

	.section	.rodata.cst16,"aM",@progbits,16
	.p2align	4, 0x0
.LCPI5_0:
	.short	65535
	.short	0
	.short	65535
	.short	65535
	.short	0
	.short	65533
	.short	0
	.zero	2
.LCPI5_1:
	.zero	2
	.short	0
	.zero	2
	.zero	2
	.short	0
	.zero	2
	.short	0
	.short	65534
.LCPI5_2:
	.short	1
	.short	1
	.short	1
	.zero	2
	.zero	2
	.zero	2
	.zero	2
	.zero	2
.LCPI5_3:
	.byte	0
	.byte	0
	.byte	0
	.byte	0
	.byte	0
	.byte	0
	.byte	0
	.byte	0
	.byte	1
	.byte	0
	.byte	0
	.byte	0
	.byte	0
	.byte	0
	.byte	0
	.byte	0
.LCPI5_4:
	.quad	7
	.quad	7
.LCPI5_5:
	.quad	4
	.quad	4
.LCPI5_6:
	.quad	2
	.quad	2
.LCPI5_7:
	.zero	16,3
.LCPI5_8:
	.zero	16,28
.LCPI5_9:
	.zero	16,224
	.text
	.p2align	4
	.type	"dm_layout::symbols::placing::lift_to",@function
"dm_layout::symbols::placing::lift_to":
	.cfi_startproc
	pushq	%rbp
	.cfi_def_cfa_offset 16
	pushq	%r15
	.cfi_def_cfa_offset 24
	pushq	%r14
	.cfi_def_cfa_offset 32
	pushq	%r13
	.cfi_def_cfa_offset 40
	pushq	%r12
	.cfi_def_cfa_offset 48
	pushq	%rbx
	.cfi_def_cfa_offset 56
	subq	$3072, %rsp
	.cfi_adjust_cfa_offset 3072
	movq	$0, (%rsp)
	subq	$3072, %rsp
	.cfi_adjust_cfa_offset 3072
	movq	$0, (%rsp)
	subq	$3016, %rsp
	.cfi_def_cfa_offset 9216
	.cfi_offset %rbx, -56
	.cfi_offset %r12, -48
	.cfi_offset %r13, -40
	.cfi_offset %r14, -32
	.cfi_offset %r15, -24
	.cfi_offset %rbp, -16
	movq	%rsi, %r15
	movzwl	6(%rdi), %eax
	movzwl	10(%rdi), %ecx
	movl	%ecx, 12(%rsp)
	movl	%ecx, %r13d
	movq	%rax, 48(%rsp)
	imull	%eax, %r13d
	movl	%r13d, %ebp
	cmpw	$56, %r13w
	movq	%r13, 40(%rsp)
	movq	%rdi, 344(%rsp)
	ja	.LBB5_58
	movzwl	4(%rdi), %ebx
	movzwl	8(%rdi), %r14d
	movl	%r14d, %r12d
	imull	%ebx, %r12d
	leaq	480(%rsp), %rdi
	movl	$496, %edx
	xorl	%esi, %esi
	callq	memset@PLT
	movl	%r13d, %eax
	andl	$7, %eax
	movl	%eax, 56(%rsp)
	movzwl	%r12w, %r11d
	movq	%r14, 136(%rsp)
	testq	%r14, %r14
	je	.LBB5_24
	movq	%r11, 264(%rsp)
	movq	%r12, 272(%rsp)
	movw	%bp, 38(%rsp)
	movq	%r15, 128(%rsp)
	movl	56(%rsp), %eax
	xorl	$4, %eax
	movl	%eax, 68(%rsp)
	movq	$-1, %rdx
	movq	48(%rsp), %rcx
	shlq	%cl, %rdx
	xorl	%esi, %esi
	testb	$64, %cl
	movq	%rdx, %r8
	movl	$0, %eax
	movq	%rax, 200(%rsp)
	cmovneq	%rsi, %r8
	movq	$-1, %rax
	cmoveq	%rax, %rdx
	notq	%rdx
	movq	%rdx, 120(%rsp)
	notq	%r8
	leal	2(%rcx), %eax
	movl	%eax, 72(%rsp)
	leal	3(%rcx), %r15d
	leal	5(%rcx,%rcx), %eax
	movl	%eax, 184(%rsp)
	leal	(%rcx,%rcx), %eax
	movq	%rax, 24(%rsp)
	leal	7(%rcx,%rcx,2), %eax
	movl	%eax, 32(%rsp)
	leal	(%rcx,%rcx,2), %eax
	movl	%eax, 168(%rsp)
	leal	(%rcx,%rcx,4), %eax
	movl	$117, %edx
	movl	%eax, 92(%rsp)
	subl	%eax, %edx
	movl	%edx, 88(%rsp)
	movl	12(%rsp), %edx
	decl	%edx
	leal	2(%rbx), %eax
	movzwl	%ax, %eax
	movq	%rax, 280(%rsp)
	movl	%edx, 224(%rsp)
	movl	%edx, %eax
	andl	$-2, %eax
	negl	%eax
	movq	%rax, 248(%rsp)
	leal	9(,%rcx,4), %eax
	movl	%eax, 84(%rsp)
	leal	(,%rcx,4), %eax
	movl	%eax, 80(%rsp)
	leal	11(%rcx,%rcx,4), %eax
	movl	%eax, 76(%rsp)
	leal	4(%rcx,%rcx), %eax
	movq	%rax, 296(%rsp)
	movl	$1, %eax
	movq	%rax, 176(%rsp)
	movl	$2, %eax
	movq	%rax, 216(%rsp)
	movl	$0, 144(%rsp)
	movl	%ebx, %ecx
	movl	$1, %eax
	movq	%rax, 192(%rsp)
	xorl	%edx, %edx
	movq	%rbx, 152(%rsp)
	movl	%r15d, 232(%rsp)
	movq	%r8, 112(%rsp)
	jmp	.LBB5_3
	.p2align	4
.LBB5_20:
	movq	96(%rsp), %rdx
	incq	%rdx
	incq	192(%rsp)
	movq	152(%rsp), %rbx
	movq	240(%rsp), %rcx
	addl	%ebx, %ecx
	addl	%ebx, 144(%rsp)
	movq	176(%rsp), %rax
	addq	280(%rsp), %rax
	movq	%rax, 176(%rsp)
	addq	$2, 216(%rsp)
	movq	200(%rsp), %rax
	addl	$2, %eax
	movq	%rax, 200(%rsp)
	cmpq	136(%rsp), %rdx
	je	.LBB5_21
.LBB5_3:
	movzwl	%cx, %ecx
	movq	%rcx, 240(%rsp)
	movq	%rdx, 96(%rsp)
	movl	%edx, %eax
	imull	%ebx, %eax
	leal	(%rax,%rbx), %ecx
	cmpw	%cx, %ax
	jae	.LBB5_20
	movq	344(%rsp), %rsi
	cmpw	$128, 2(%rsi)
	movq	24(%rsi), %r11
	movq	%r11, 104(%rsp)
	ja	.LBB5_18
	movq	96(%rsp), %rcx
	leal	1(,%rcx,2), %ebx
	movzwl	%ax, %r10d
	cmpw	$2, 12(%rsp)
	jb	.LBB5_13
	movq	152(%rsp), %rax
	imull	192(%rsp), %eax
	movzwl	%ax, %edx
	movq	%rbx, 160(%rsp)
	movq	%rdx, 208(%rsp)
	jmp	.LBB5_7
	.p2align	4
.LBB5_11:
	movl	%edi, %ecx
	imull	72(%rsp), %ecx
	incb	%cl
	shrdq	%cl, %r9, %rsi
	shrq	%cl, %r9
	testb	$64, %cl
	cmoveq	%rsi, %r9
	andq	%r8, %r9
	movq	48(%rsp), %rax
	movl	%eax, %ecx
	imull	%edi, %ecx
	shlq	%cl, %r9
	xorl	%eax, %eax
	testb	$64, %cl
	cmoveq	%r9, %rax
	orq	%rax, %rbp
.LBB5_12:
	shlq	$4, %rbp
	movq	%rbp, 496(%rsp,%r10,8)
	incq	%r10
	cmpq	%rdx, %r10
	je	.LBB5_20
.LBB5_7:
	leal	(%rbx,%r10), %eax
	movzwl	%ax, %eax
	shll	$4, %eax
	movq	(%r11,%rax), %rsi
	movq	8(%r11,%rax), %r9
	movq	%r9, %rbp
	shldq	$63, %rsi, %rbp
	andq	%r8, %rbp
	movw	$1, %di
	cmpw	$2, 12(%rsp)
	je	.LBB5_11
	movq	%r10, 288(%rsp)
	movq	%r9, %rax
	shrq	%rax
	andq	120(%rsp), %rax
	movw	$1, %di
	movl	%r15d, %r14d
	movq	48(%rsp), %r12
	movl	184(%rsp), %ecx
	movl	%ecx, %r13d
	movq	%rsi, 16(%rsp)
	movq	24(%rsp), %rsi
	.p2align	4
.LBB5_9:
	movq	16(%rsp), %r15
	movq	%r15, %rdx
	movl	%r14d, %ecx
	shrdq	%cl, %r9, %rdx
	movq	%r9, %r10
	shrq	%cl, %r10
	xorl	%ebx, %ebx
	testb	$64, %r14b
	cmovneq	%r10, %rdx
	cmovneq	%rbx, %r10
	movq	112(%rsp), %r8
	andq	%r8, %rdx
	movq	120(%rsp), %r11
	andq	%r11, %r10
	movl	%r12d, %ecx
	shldq	%cl, %rdx, %r10
	shlq	%cl, %rdx
	testb	$64, %r12b
	cmovneq	%rdx, %r10
	cmovneq	%rbx, %rdx
	orq	%rbp, %rdx
	movq	%r15, %rbp
	movl	%r13d, %ecx
	shrdq	%cl, %r9, %rbp
	orq	%rax, %r10
	movq	%r9, %rax
	shrq	%cl, %rax
	testb	$64, %r13b
	cmovneq	%rax, %rbp
	cmovneq	%rbx, %rax
	andq	%r8, %rbp
	andq	%r11, %rax
	movl	%esi, %ecx
	shldq	%cl, %rbp, %rax
	shlq	%cl, %rbp
	testb	$64, %sil
	cmovneq	%rbp, %rax
	cmovneq	%rbx, %rbp
	orq	%r10, %rax
	orq	%rdx, %rbp
	movq	24(%rsp), %rcx
	addl	%ecx, %esi
	movq	296(%rsp), %rdx
	addl	%edx, %r13d
	addl	%ecx, %r12d
	addl	%edx, %r14d
	movl	%edi, %ecx
	addl	$2, %edi
	movq	248(%rsp), %rdx
	addl	%edx, %ecx
	addl	$2, %ecx
	cmpw	$1, %cx
	jne	.LBB5_9
	testb	$1, 224(%rsp)
	movl	232(%rsp), %r15d
	movq	112(%rsp), %r8
	movq	104(%rsp), %r11
	movq	288(%rsp), %r10
	movq	160(%rsp), %rbx
	movq	208(%rsp), %rdx
	movq	16(%rsp), %rsi
	jne	.LBB5_11
	jmp	.LBB5_12
	.p2align	4
.LBB5_18:
	movzwl	144(%rsp), %ecx
	leaq	496(%rsp), %rax
	leaq	(%rax,%rcx,8), %rax
	movq	%rax, 16(%rsp)
	movq	240(%rsp), %rdx
	subq	%rcx, %rdx
	movq	40(%rsi), %rsi
	xorl	%edi, %edi
	.p2align	4
.LBB5_19:
	movq	176(%rsp), %rax
	leal	(%rax,%rdi), %ecx
	movzwl	%cx, %r10d
	movl	%r10d, %r9d
	shll	$4, %r9d
	movq	8(%r11,%r9), %rax
	movq	%rax, %rbx
	movl	%r15d, %ecx
	shrq	%cl, %rbx
	movq	(%r11,%r9), %r14
	movq	%rax, %r9
	movq	%r14, %r13
	shrdq	%cl, %rax, %r13
	shldq	$63, %r14, %r9
	andq	%r8, %r9
	testb	$64, %r15b
	cmovneq	%rbx, %r13
	andq	%r8, %r13
	movq	48(%rsp), %rcx
	shlq	%cl, %r13
	xorl	%r12d, %r12d
	testb	$64, %cl
	cmovneq	%r12, %r13
	movq	%rax, %rbx
	movl	184(%rsp), %ecx
	shrq	%cl, %rbx
	orq	%r9, %r13
	movq	%r14, %r9
	shrdq	%cl, %rax, %r9
	testb	$64, %cl
	cmovneq	%rbx, %r9
	andq	%r8, %r9
	movq	24(%rsp), %rcx
	shlq	%cl, %r9
	testb	$64, %cl
	cmovneq	%r12, %r9
	movq	%rax, %rbx
	movl	32(%rsp), %ecx
	shrq	%cl, %rbx
	movq	%r14, %rbp
	shrdq	%cl, %rax, %rbp
	testb	$64, %cl
	cmovneq	%rbx, %rbp
	andq	%r8, %rbp
	movl	168(%rsp), %ecx
	shlq	%cl, %rbp
	testb	$64, %cl
	cmovneq	%r12, %rbp
	movq	%rax, %r11
	movl	84(%rsp), %ecx
	shrq	%cl, %r11
	movq	%r14, %rbx
	shrdq	%cl, %rax, %rbx
	orq	%r9, %rbp
	orq	%r13, %rbp
	testb	$64, %cl
	cmovneq	%r11, %rbx
	movq	104(%rsp), %r11
	andq	%r8, %rbx
	movl	80(%rsp), %ecx
	shlq	%cl, %rbx
	testb	$64, %cl
	cmovneq	%r12, %rbx
	movq	%rax, %r9
	movl	76(%rsp), %ecx
	shrq	%cl, %r9
	shrdq	%cl, %rax, %r14
	testb	$64, %cl
	cmovneq	%r9, %r14
	movzwl	(%rsi,%r10,2), %eax
	movl	88(%rsp), %ecx
	shlq	%cl, %rax
	testb	$64, %cl
	cmovneq	%r12, %rax
	orq	%r14, %rax
	andq	%r8, %rax
	movl	92(%rsp), %ecx
	shlq	%cl, %rax
	testb	$64, %cl
	cmovneq	%r12, %rax
	orq	%rbx, %rax
	orq	%rbp, %rax
	shlq	$4, %rax
	movq	16(%rsp), %rcx
	movq	%rax, (%rcx,%rdi,8)
	incq	%rdi
	cmpq	%rdi, %rdx
	jne	.LBB5_19
	jmp	.LBB5_20
.LBB5_13:
	movq	152(%rsp), %rdx
	imulq	%rdx, %rcx
	addl	%ecx, %edx
	movzwl	%dx, %edx
	movq	%rdx, %rsi
	subq	%rcx, %rsi
	testb	$1, %sil
	je	.LBB5_15
	addl	%eax, %ebx
	movzwl	%bx, %eax
	shll	$4, %eax
	movq	(%r11,%rax), %rax
	shrq	%rax
	andq	%r8, %rax
	shlq	$4, %rax
	movq	%rax, 496(%rsp,%r10,8)
	incq	%r10
.LBB5_15:
	movzwl	%cx, %eax
	decl	%edx
	cmpl	%edx, %eax
	je	.LBB5_20
	movzwl	200(%rsp), %eax
	incq	%rax
	.p2align	4
.LBB5_17:
	leal	(%rax,%r10), %ecx
	movzwl	%cx, %ecx
	shll	$4, %ecx
	movq	(%r11,%rcx), %rcx
	shrq	%rcx
	andq	%r8, %rcx
	shlq	$4, %rcx
	movq	%rcx, 496(%rsp,%r10,8)
	movq	216(%rsp), %rcx
	addl	%r10d, %ecx
	movzwl	%cx, %ecx
	shll	$4, %ecx
	movq	(%r11,%rcx), %rcx
	shrq	%rcx
	andq	%r8, %rcx
	shlq	$4, %rcx
	movq	%rcx, 504(%rsp,%r10,8)
	addq	$2, %r10
	cmpq	%r10, 240(%rsp)
	jne	.LBB5_17
	jmp	.LBB5_20
.LBB5_58:
	movl	%r13d, %eax
	andl	$7, %eax
	movl	%eax, %r14d
	xorl	$4, %r14d
	cmpw	$120, %bp
	ja	.LBB5_111
	pxor	%xmm0, %xmm0
	movdqa	%xmm0, 320(%rsp)
	movdqa	%xmm0, 304(%rsp)
	movq	$0, 336(%rsp)
	movzwl	4(%rdi), %ebp
	movq	%r15, %r13
	movl	%eax, %r15d
	movzwl	8(%rdi), %r12d
	movl	%r12d, %ebx
	imull	%ebp, %ebx
	leaq	480(%rsp), %rdi
	movl	$2016, %edx
	xorl	%esi, %esi
	callq	memset@PLT
	movzwl	%bx, %eax
	movq	%rax, 272(%rsp)
	movq	%r12, 136(%rsp)
	testq	%r12, %r12
	movl	%r15d, %r12d
	movq	%r13, %r15
	movq	40(%rsp), %r13
	movq	%rbx, 56(%rsp)
	je	.LBB5_82
	movl	%r14d, 260(%rsp)
	movl	%r12d, 68(%rsp)
	movq	%r15, 128(%rsp)
	movq	$-1, %r13
	movq	48(%rsp), %rcx
	shlq	%cl, %r13
	xorl	%edx, %edx
	testb	$64, %cl
	movq	%r13, %rdi
	movl	$0, %eax
	movq	%rax, 96(%rsp)
	cmovneq	%rdx, %rdi
	movq	$-1, %rax
	cmoveq	%rax, %r13
	notq	%r13
	notq	%rdi
	leal	2(%rcx), %eax
	movl	%eax, 72(%rsp)
	leal	3(%rcx), %eax
	movl	%eax, 176(%rsp)
	leal	5(%rcx,%rcx), %eax
	movl	%eax, 32(%rsp)
	leal	(%rcx,%rcx), %r15d
	leal	7(%rcx,%rcx,2), %eax
	movl	%eax, 92(%rsp)
	leal	(%rcx,%rcx,2), %eax
	movl	%eax, 88(%rsp)
	leal	9(,%rcx,4), %eax
	movl	%eax, 84(%rsp)
	leal	(,%rcx,4), %eax
	movl	%eax, 80(%rsp)
	leal	(%rcx,%rcx,4), %eax
	movl	$117, %edx
	movl	%eax, 76(%rsp)
	subl	%eax, %edx
	movl	%edx, 240(%rsp)
	movl	12(%rsp), %eax
	decl	%eax
	movl	%eax, 224(%rsp)
	andl	$-2, %eax
	negl	%eax
	movq	%rax, 248(%rsp)
	leal	(%rcx,%rcx,4), %eax
	addl	$11, %eax
	movl	%eax, 288(%rsp)
	leal	2(%rbp), %eax
	movl	%eax, 280(%rsp)
	leal	4(%rcx,%rcx), %eax
	movq	%rax, 296(%rsp)
	movl	$1, %eax
	movq	%rax, 144(%rsp)
	movw	$2, %ax
	movq	%rax, 232(%rsp)
	movw	$1, %ax
	movl	%eax, 160(%rsp)
	movw	$1, %ax
	movl	%eax, 192(%rsp)
	movl	%ebp, %ecx
	xorl	%edx, %edx
	movq	%rbp, 152(%rsp)
	movq	%r15, 24(%rsp)
	movq	%rdi, 120(%rsp)
	movq	%r13, 112(%rsp)
	jmp	.LBB5_61
	.p2align	4
.LBB5_78:
	movq	208(%rsp), %rdx
	incq	%rdx
	incq	144(%rsp)
	movq	152(%rsp), %rbp
	movq	216(%rsp), %rcx
	addl	%ebp, %ecx
	movq	96(%rsp), %rax
	addl	%ebp, %eax
	movq	%rax, 96(%rsp)
	movl	160(%rsp), %eax
	addl	280(%rsp), %eax
	movl	%eax, 160(%rsp)
	movq	232(%rsp), %rax
	addl	$2, %eax
	movq	%rax, 232(%rsp)
	addl	$2, 192(%rsp)
	cmpq	136(%rsp), %rdx
	je	.LBB5_79
.LBB5_61:
	movzwl	%cx, %ecx
	movq	%rcx, 216(%rsp)
	movq	%rdx, 208(%rsp)
	imull	%ebp, %edx
	leal	(%rdx,%rbp), %eax
	cmpw	%ax, %dx
	jae	.LBB5_78
	movq	344(%rsp), %rax
	cmpw	$128, 2(%rax)
	movq	24(%rax), %r8
	movq	%r8, 184(%rsp)
	ja	.LBB5_76
	movq	208(%rsp), %rax
	leal	1(,%rax,2), %ebx
	movzwl	%dx, %r10d
	cmpw	$2, 12(%rsp)
	jb	.LBB5_71
	movq	152(%rsp), %rax
	imull	144(%rsp), %eax
	movzwl	%ax, %edx
	movq	%rbx, 168(%rsp)
	movq	%rdx, 200(%rsp)
	jmp	.LBB5_65
	.p2align	4
.LBB5_69:
	movl	%r9d, %ecx
	imull	72(%rsp), %ecx
	incb	%cl
	shrdq	%cl, %r11, %r14
	shrq	%cl, %r11
	xorl	%esi, %esi
	testb	$64, %cl
	cmovneq	%r11, %r14
	cmovneq	%rsi, %r11
	andq	%rdi, %r14
	andq	%r13, %r11
	movq	48(%rsp), %rcx
	imull	%r9d, %ecx
	shldq	%cl, %r14, %r11
	shlq	%cl, %r14
	testb	$64, %cl
	cmovneq	%r14, %r11
	cmovneq	%rsi, %r14
	orq	%r11, %rbp
	orq	%r14, %rax
.LBB5_70:
	shldq	$4, %rax, %rbp
	shlq	$4, %rax
	movq	%r10, %rcx
	shlq	$4, %rcx
	movq	%rax, 512(%rsp,%rcx)
	movq	%rbp, 520(%rsp,%rcx)
	incq	%r10
	cmpq	%rdx, %r10
	je	.LBB5_78
.LBB5_65:
	leal	(%rbx,%r10), %eax
	movzwl	%ax, %eax
	shll	$4, %eax
	movq	(%r8,%rax), %r14
	movq	8(%r8,%rax), %r11
	movq	%r11, %rax
	shldq	$63, %r14, %rax
	movq	%r11, %rbp
	shrq	%rbp
	andq	%r13, %rbp
	andq	%rdi, %rax
	movw	$1, %r9w
	cmpw	$2, 12(%rsp)
	je	.LBB5_69
	movq	%r10, 104(%rsp)
	movw	$1, %r9w
	movl	176(%rsp), %ecx
	movq	%r14, 16(%rsp)
	movl	%ecx, %r14d
	movq	48(%rsp), %r12
	movl	32(%rsp), %ecx
	movl	%ecx, %r13d
	.p2align	4
.LBB5_67:
	movq	16(%rsp), %rdi
	movq	%rdi, %rsi
	movl	%r14d, %ecx
	shrdq	%cl, %r11, %rsi
	movq	%r11, %r10
	shrq	%cl, %r10
	xorl	%ebx, %ebx
	testb	$64, %r14b
	cmovneq	%r10, %rsi
	cmovneq	%rbx, %r10
	movq	120(%rsp), %r8
	andq	%r8, %rsi
	movq	112(%rsp), %rdx
	andq	%rdx, %r10
	movl	%r12d, %ecx
	shldq	%cl, %rsi, %r10
	shlq	%cl, %rsi
	testb	$64, %r12b
	cmovneq	%rsi, %r10
	cmovneq	%rbx, %rsi
	orq	%rax, %rsi
	movq	%rdi, %rax
	movl	%r13d, %ecx
	shrdq	%cl, %r11, %rax
	orq	%rbp, %r10
	movq	%r11, %rbp
	shrq	%cl, %rbp
	testb	$64, %r13b
	cmovneq	%rbp, %rax
	cmovneq	%rbx, %rbp
	andq	%r8, %rax
	andq	%rdx, %rbp
	movl	%r15d, %ecx
	shldq	%cl, %rax, %rbp
	shlq	%cl, %rax
	testb	$64, %r15b
	cmovneq	%rax, %rbp
	cmovneq	%rbx, %rax
	orq	%r10, %rbp
	orq	%rsi, %rax
	movq	24(%rsp), %rcx
	addl	%ecx, %r15d
	movq	296(%rsp), %rdx
	addl	%edx, %r13d
	addl	%ecx, %r12d
	addl	%edx, %r14d
	movl	%r9d, %ecx
	addl	$2, %r9d
	movq	248(%rsp), %rdx
	addl	%edx, %ecx
	addl	$2, %ecx
	cmpw	$1, %cx
	jne	.LBB5_67
	testb	$1, 224(%rsp)
	movq	24(%rsp), %r15
	movq	112(%rsp), %r13
	movq	120(%rsp), %rdi
	movq	184(%rsp), %r8
	movq	104(%rsp), %r10
	movq	168(%rsp), %rbx
	movq	200(%rsp), %rdx
	movq	16(%rsp), %r14
	jne	.LBB5_69
	jmp	.LBB5_70
	.p2align	4
.LBB5_76:
	movzwl	96(%rsp), %ebx
	movq	216(%rsp), %rdx
	subq	%rbx, %rdx
	shll	$4, %ebx
	leaq	512(%rsp), %rcx
	addq	%rcx, %rbx
	movq	40(%rax), %rax
	movq	%rax, 168(%rsp)
	movl	160(%rsp), %eax
	movl	%eax, %r12d
	.p2align	4
.LBB5_77:
	movq	%rdx, 16(%rsp)
	movzwl	%r12w, %eax
	movq	%rax, 104(%rsp)
	shll	$4, %eax
	movq	(%r8,%rax), %rsi
	movq	8(%r8,%rax), %r10
	movq	%r10, %rax
	movq	%r10, %r11
	movq	%r10, %rbp
	shrq	%rax
	movl	176(%rsp), %ecx
	shrq	%cl, %rbp
	shldq	$63, %rsi, %r11
	movq	%r15, %r8
	movq	%rsi, %r15
	shrdq	%cl, %r10, %r15
	andq	%rdi, %r11
	andq	%r13, %rax
	xorl	%edx, %edx
	testb	$64, %cl
	cmovneq	%rbp, %r15
	cmovneq	%rdx, %rbp
	andq	%rdi, %r15
	andq	%r13, %rbp
	movq	48(%rsp), %rcx
	shldq	%cl, %r15, %rbp
	shlq	%cl, %r15
	testb	$64, %cl
	cmovneq	%r15, %rbp
	movq	%r10, %r9
	cmovneq	%rdx, %r15
	movl	32(%rsp), %ecx
	shrq	%cl, %r9
	movq	%rsi, %r14
	shrdq	%cl, %r10, %r14
	orq	%rax, %rbp
	orq	%r11, %r15
	testb	$64, %cl
	cmovneq	%r9, %r14
	cmovneq	%rdx, %r9
	andq	%rdi, %r14
	andq	%r13, %r9
	movl	%r8d, %ecx
	shldq	%cl, %r14, %r9
	shlq	%cl, %r14
	testb	$64, %r8b
	cmovneq	%r14, %r9
	movq	%rdi, %r8
	movq	%r13, %rdi
	movq	%r10, %r13
	cmovneq	%rdx, %r14
	movl	92(%rsp), %ecx
	shrq	%cl, %r13
	movq	%rsi, %rax
	shrdq	%cl, %r10, %rax
	testb	$64, %cl
	cmovneq	%r13, %rax
	cmovneq	%rdx, %r13
	andq	%r8, %rax
	andq	%rdi, %r13
	movl	88(%rsp), %ecx
	shldq	%cl, %rax, %r13
	shlq	%cl, %rax
	testb	$64, %cl
	cmovneq	%rax, %r13
	movq	%r10, %r11
	cmovneq	%rdx, %rax
	movl	84(%rsp), %ecx
	shrq	%cl, %r11
	orq	%r9, %r13
	movq	%rsi, %r9
	shrdq	%cl, %r10, %r9
	orq	%rbp, %r13
	orq	%r14, %rax
	orq	%r15, %rax
	testb	$64, %cl
	cmovneq	%r11, %r9
	cmovneq	%rdx, %r11
	andq	%r8, %r9
	andq	%rdi, %r11
	movl	80(%rsp), %ecx
	shldq	%cl, %r9, %r11
	shlq	%cl, %r9
	testb	$64, %cl
	cmovneq	%r9, %r11
	cmovneq	%rdx, %r9
	movq	%r10, %r15
	movl	288(%rsp), %ecx
	shrq	%cl, %r15
	shrdq	%cl, %r10, %rsi
	movq	168(%rsp), %r10
	movq	104(%rsp), %r14
	movzwl	(%r10,%r14,2), %r10d
	testb	$64, %cl
	cmovneq	%r15, %rsi
	cmovneq	%rdx, %r15
	xorl	%r14d, %r14d
	movl	240(%rsp), %ecx
	shldq	%cl, %r10, %r14
	shlq	%cl, %r10
	testb	$64, %cl
	cmovneq	%r10, %r14
	cmovneq	%rdx, %r10
	orq	%r15, %r14
	orq	%rsi, %r10
	andq	%r8, %r10
	andq	%rdi, %r14
	movl	76(%rsp), %ecx
	shldq	%cl, %r10, %r14
	shlq	%cl, %r10
	testb	$64, %cl
	cmovneq	%r10, %r14
	cmovneq	%rdx, %r10
	movq	16(%rsp), %rdx
	orq	%r11, %r14
	orq	%r13, %r14
	movq	24(%rsp), %r15
	movq	%rdi, %r13
	movq	%r8, %rdi
	movq	184(%rsp), %r8
	orq	%r9, %r10
	orq	%rax, %r10
	shldq	$4, %r10, %r14
	shlq	$4, %r10
	movq	%r10, (%rbx)
	movq	%r14, 8(%rbx)
	addq	$16, %rbx
	incl	%r12d
	decq	%rdx
	jne	.LBB5_77
	jmp	.LBB5_78
.LBB5_71:
	movq	152(%rsp), %rcx
	imulq	%rcx, %rax
	addl	%eax, %ecx
	movzwl	%cx, %ecx
	movq	%rcx, %rsi
	subq	%rax, %rsi
	testb	$1, %sil
	je	.LBB5_73
	addl	%edx, %ebx
	movzwl	%bx, %edx
	shll	$4, %edx
	movq	(%r8,%rdx), %rsi
	movq	8(%r8,%rdx), %rdx
	shrdq	$1, %rdx, %rsi
	shrq	%rdx
	andq	%rdi, %rsi
	andq	%r13, %rdx
	shldq	$4, %rsi, %rdx
	shlq	$4, %rsi
	movl	%r10d, %r9d
	shll	$4, %r9d
	movq	%rsi, 512(%rsp,%r9)
	movq	%rdx, 520(%rsp,%r9)
	incq	%r10
.LBB5_73:
	movzwl	%ax, %eax
	decl	%ecx
	cmpl	%ecx, %eax
	je	.LBB5_78
	movq	216(%rsp), %rax
	subq	%r10, %rax
	movl	%r10d, %ecx
	shll	$4, %ecx
	leaq	528(%rsp), %rdx
	addq	%rdx, %rcx
	movq	232(%rsp), %rdx
	addl	%r10d, %edx
	addl	192(%rsp), %r10d
	.p2align	4
.LBB5_75:
	movzwl	%r10w, %esi
	shll	$4, %esi
	movq	(%r8,%rsi), %r9
	movq	8(%r8,%rsi), %rsi
	shrdq	$1, %rsi, %r9
	shrq	%rsi
	andq	%rdi, %r9
	andq	%r13, %rsi
	shldq	$4, %r9, %rsi
	shlq	$4, %r9
	movq	%r9, -16(%rcx)
	movq	%rsi, -8(%rcx)
	movzwl	%dx, %esi
	shll	$4, %esi
	movq	(%r8,%rsi), %r9
	movq	8(%r8,%rsi), %rsi
	shrdq	$1, %rsi, %r9
	shrq	%rsi
	andq	%rdi, %r9
	andq	%r13, %rsi
	shldq	$4, %r9, %rsi
	shlq	$4, %r9
	movq	%r9, (%rcx)
	movq	%rsi, 8(%rcx)
	addq	$32, %rcx
	addl	$2, %edx
	addl	$2, %r10d
	addq	$-2, %rax
	jne	.LBB5_75
	jmp	.LBB5_78
.LBB5_21:
	movq	272(%rsp), %r12
	testw	%r12w, %r12w
	movq	128(%rsp), %r15
	movzwl	38(%rsp), %ebp
	movq	264(%rsp), %r11
	je	.LBB5_24
	leal	2(%r12), %eax
	movzwl	%bp, %ecx
	leal	(,%r11,8), %edx
	movzwl	68(%rsp), %edi
	movl	$6, %esi
	subl	%edi, %esi
	xorl	%edi, %edi
	xorl	%r8d, %r8d
	.p2align	4
.LBB5_23:
	cmpw	%si, %ax
	movl	%r12d, %r9d
	cmoval	%edi, %r9d
	movl	%esi, %r10d
	subl	%r9d, %r10d
	movzwl	%r10w, %r9d
	movq	480(%rsp,%r9,8), %r9
	shrq	%cl, %r9
	orq	%r9, 496(%rsp,%r8)
	addq	$8, %r8
	incl	%esi
	cmpq	%r8, %rdx
	jne	.LBB5_23
.LBB5_24:
	movl	%ebp, %r13d
	movl	%r12d, %ebx
	andl	$7, %ebx
	movl	%ebx, %eax
	xorl	$4, %eax
	movdqu	480(%rsp,%r11,8), %xmm0
	movd	%eax, %xmm1
	psllq	%xmm1, %xmm0
	psrlq	$4, %xmm0
	movdqa	%xmm0, 480(%rsp)
	leaq	4904(%rsp), %rdi
	xorl	%r14d, %r14d
	movl	$456, %edx
	xorl	%esi, %esi
	movq	%r11, %rbp
	callq	memset@PLT
	testw	%r12w, %r12w
	je	.LBB5_25
	cmpl	$1, %ebp
	jne	.LBB5_28
	movq	40(%rsp), %r11
	jmp	.LBB5_31
.LBB5_111:
	movl	%eax, 68(%rsp)
	movq	%r15, 128(%rsp)
	pxor	%xmm0, %xmm0
	movdqa	%xmm0, 320(%rsp)
	movdqa	%xmm0, 304(%rsp)
	movq	$0, 336(%rsp)
	movzwl	4(%rdi), %ebx
	movzwl	8(%rdi), %r15d
	movl	%r15d, %r12d
	imull	%ebx, %r12d
	leaq	480(%rsp), %rdi
	movl	$4416, %edx
	xorl	%esi, %esi
	callq	memset@PLT
	movzwl	%r12w, %eax
	movq	%rax, 136(%rsp)
	movq	%r15, 56(%rsp)
	testq	%r15, %r15
	movq	%r12, 264(%rsp)
	je	.LBB5_137
	movl	%r14d, 260(%rsp)
	movw	%bp, 38(%rsp)
	movq	$-1, %r9
	movq	48(%rsp), %rcx
	shlq	%cl, %r9
	movq	$-1, %rax
	xorl	%esi, %esi
	testb	$64, %cl
	movq	%r9, %r8
	movl	$0, %edx
	movq	%rdx, 160(%rsp)
	cmovneq	%rsi, %r8
	cmoveq	%rax, %r9
	notq	%r9
	notq	%r8
	leal	2(%rcx), %eax
	movl	%eax, 216(%rsp)
	leal	3(%rcx), %eax
	movl	%eax, 176(%rsp)
	leal	5(%rcx,%rcx), %eax
	movl	%eax, 32(%rsp)
	leal	(%rcx,%rcx), %ebp
	leal	7(%rcx,%rcx,2), %eax
	movl	%eax, 92(%rsp)
	leal	(%rcx,%rcx,2), %eax
	movl	%eax, 88(%rsp)
	leal	9(,%rcx,4), %eax
	movl	%eax, 84(%rsp)
	leal	(%rcx,%rcx,4), %eax
	movl	$117, %edx
	subl	%eax, %edx
	movl	%edx, 76(%rsp)
	movl	$128, %edx
	movl	%eax, 80(%rsp)
	subl	%eax, %edx
	movl	%edx, 240(%rsp)
	movl	12(%rsp), %eax
	decl	%eax
	movl	%eax, 152(%rsp)
	andl	$-2, %eax
	negl	%eax
	movq	%rax, 248(%rsp)
	leal	(,%rcx,4), %eax
	movl	%eax, 288(%rsp)
	leal	(%rcx,%rcx,4), %eax
	addl	$11, %eax
	movl	%eax, 72(%rsp)
	leal	2(%rbx), %eax
	movl	%eax, 272(%rsp)
	leal	4(%rcx,%rcx), %eax
	movq	%rax, 296(%rsp)
	movl	$1, %eax
	movq	%rax, 192(%rsp)
	movw	$2, %ax
	movq	%rax, 224(%rsp)
	movw	$1, %ax
	movl	%eax, 208(%rsp)
	movw	$1, %ax
	movl	%eax, 280(%rsp)
	movl	%ebx, %ecx
	xorl	%edx, %edx
	movq	%rbp, 24(%rsp)
	movq	%rbx, 144(%rsp)
	movq	%r9, 120(%rsp)
	movq	%r8, 112(%rsp)
	jmp	.LBB5_113
	.p2align	4
.LBB5_130:
	movq	200(%rsp), %rdx
	incq	%rdx
	incq	192(%rsp)
	movq	144(%rsp), %rbx
	movq	96(%rsp), %rcx
	addl	%ebx, %ecx
	movq	160(%rsp), %rax
	addl	%ebx, %eax
	movq	%rax, 160(%rsp)
	movl	208(%rsp), %eax
	addl	272(%rsp), %eax
	movl	%eax, 208(%rsp)
	movq	224(%rsp), %rax
	addl	$2, %eax
	movq	%rax, 224(%rsp)
	addl	$2, 280(%rsp)
	cmpq	56(%rsp), %rdx
	je	.LBB5_131
.LBB5_113:
	movzwl	%cx, %ecx
	movq	%rcx, 96(%rsp)
	movq	%rdx, 200(%rsp)
	imull	%ebx, %edx
	leal	(%rdx,%rbx), %eax
	cmpw	%ax, %dx
	jae	.LBB5_130
	movq	344(%rsp), %rax
	cmpw	$128, 2(%rax)
	movq	24(%rax), %r11
	movq	%r11, 104(%rsp)
	ja	.LBB5_128
	movq	200(%rsp), %rax
	leal	1(,%rax,2), %edi
	movzwl	%dx, %r14d
	cmpw	$2, 12(%rsp)
	jb	.LBB5_123
	movq	144(%rsp), %rax
	imull	192(%rsp), %eax
	movzwl	%ax, %r15d
	movq	%rdi, 168(%rsp)
	movq	%r15, 232(%rsp)
	jmp	.LBB5_117
	.p2align	4
.LBB5_121:
	movl	%r10d, %ecx
	imull	216(%rsp), %ecx
	incb	%cl
	shrdq	%cl, %r13, %rdx
	shrq	%cl, %r13
	xorl	%esi, %esi
	testb	$64, %cl
	cmovneq	%r13, %rdx
	cmovneq	%rsi, %r13
	andq	%r8, %rdx
	andq	%r9, %r13
	movq	48(%rsp), %rcx
	imull	%r10d, %ecx
	shldq	%cl, %rdx, %r13
	shlq	%cl, %rdx
	testb	$64, %cl
	cmovneq	%rdx, %r13
	cmovneq	%rsi, %rdx
	orq	%r13, %rbx
	orq	%rdx, %rax
.LBB5_122:
	movq	%rbx, %rcx
	shldq	$4, %rax, %rcx
	shlq	$4, %rax
	shrq	$60, %rbx
	movq	%r14, %rdx
	shlq	$5, %rdx
	movq	%rax, 544(%rsp,%rdx)
	movq	%rcx, 552(%rsp,%rdx)
	movq	%rbx, 560(%rsp,%rdx)
	movq	$0, 568(%rsp,%rdx)
	incq	%r14
	cmpq	%r15, %r14
	je	.LBB5_130
.LBB5_117:
	leal	(%rdi,%r14), %eax
	movzwl	%ax, %eax
	shll	$4, %eax
	movq	(%r11,%rax), %rdx
	movq	8(%r11,%rax), %r13
	movq	%r13, %rax
	shldq	$63, %rdx, %rax
	movq	%r13, %rbx
	shrq	%rbx
	andq	%r9, %rbx
	andq	%r8, %rax
	movw	$1, %r10w
	cmpw	$2, 12(%rsp)
	je	.LBB5_121
	movq	%r14, 184(%rsp)
	movw	$1, %r10w
	movl	176(%rsp), %ecx
	movl	%ecx, %r14d
	movq	48(%rsp), %r12
	movl	32(%rsp), %ecx
	movl	%ecx, %edi
	movl	%ebp, %r15d
	movq	%rdx, 16(%rsp)
	.p2align	4
.LBB5_119:
	movq	16(%rsp), %rdx
	movq	%rdx, %rsi
	movl	%r14d, %ecx
	shrdq	%cl, %r13, %rsi
	movq	%r13, %r11
	shrq	%cl, %r11
	xorl	%ebp, %ebp
	testb	$64, %r14b
	cmovneq	%r11, %rsi
	cmovneq	%rbp, %r11
	movq	112(%rsp), %r8
	andq	%r8, %rsi
	movq	120(%rsp), %r9
	andq	%r9, %r11
	movl	%r12d, %ecx
	shldq	%cl, %rsi, %r11
	shlq	%cl, %rsi
	testb	$64, %r12b
	cmovneq	%rsi, %r11
	cmovneq	%rbp, %rsi
	orq	%rax, %rsi
	movq	%rdx, %rax
	movl	%edi, %ecx
	shrdq	%cl, %r13, %rax
	orq	%rbx, %r11
	movq	%r13, %rbx
	shrq	%cl, %rbx
	testb	$64, %dil
	cmovneq	%rbx, %rax
	cmovneq	%rbp, %rbx
	andq	%r8, %rax
	andq	%r9, %rbx
	movl	%r15d, %ecx
	shldq	%cl, %rax, %rbx
	shlq	%cl, %rax
	testb	$64, %r15b
	cmovneq	%rax, %rbx
	cmovneq	%rbp, %rax
	movq	24(%rsp), %rbp
	orq	%r11, %rbx
	orq	%rsi, %rax
	addl	%ebp, %r15d
	movq	296(%rsp), %rcx
	addl	%ecx, %edi
	addl	%ebp, %r12d
	addl	%ecx, %r14d
	movl	%r10d, %ecx
	addl	$2, %r10d
	movq	248(%rsp), %rdx
	addl	%edx, %ecx
	addl	$2, %ecx
	cmpw	$1, %cx
	jne	.LBB5_119
	testb	$1, 152(%rsp)
	movq	120(%rsp), %r9
	movq	112(%rsp), %r8
	movq	104(%rsp), %r11
	movq	184(%rsp), %r14
	movq	168(%rsp), %rdi
	movq	232(%rsp), %r15
	movq	16(%rsp), %rdx
	jne	.LBB5_121
	jmp	.LBB5_122
	.p2align	4
.LBB5_128:
	movzwl	160(%rsp), %edi
	movq	96(%rsp), %rdx
	subq	%rdi, %rdx
	shll	$5, %edi
	leaq	560(%rsp), %rcx
	addq	%rcx, %rdi
	movq	40(%rax), %rax
	movq	%rax, 168(%rsp)
	movl	208(%rsp), %eax
	movl	%eax, %r12d
	.p2align	4
.LBB5_129:
	movq	%rdx, 16(%rsp)
	movzwl	%r12w, %eax
	movq	%rax, 184(%rsp)
	shll	$4, %eax
	movq	(%r11,%rax), %rsi
	movq	104(%rsp), %rcx
	movq	8(%rcx,%rax), %r11
	movq	%r11, %r15
	movq	%r11, %r13
	movq	%r11, %rbx
	shrq	%r15
	movl	176(%rsp), %ecx
	shrq	%cl, %rbx
	shldq	$63, %rsi, %r13
	movq	%rsi, %rax
	shrdq	%cl, %r11, %rax
	andq	%r8, %r13
	andq	%r9, %r15
	xorl	%edx, %edx
	testb	$64, %cl
	cmovneq	%rbx, %rax
	cmovneq	%rdx, %rbx
	andq	%r8, %rax
	andq	%r9, %rbx
	movq	48(%rsp), %rcx
	shldq	%cl, %rax, %rbx
	shlq	%cl, %rax
	testb	$64, %cl
	cmovneq	%rax, %rbx
	movq	%r11, %r10
	cmovneq	%rdx, %rax
	movl	32(%rsp), %ecx
	shrq	%cl, %r10
	movq	%rsi, %r14
	shrdq	%cl, %r11, %r14
	orq	%r15, %rbx
	orq	%r13, %rax
	testb	$64, %cl
	cmovneq	%r10, %r14
	cmovneq	%rdx, %r10
	andq	%r8, %r14
	andq	%r9, %r10
	movl	%ebp, %ecx
	shldq	%cl, %r14, %r10
	shlq	%cl, %r14
	testb	$64, %bpl
	cmovneq	%r14, %r10
	movq	%r11, %r13
	cmovneq	%rdx, %r14
	movl	92(%rsp), %ecx
	shrq	%cl, %r13
	movq	%rsi, %rbp
	shrdq	%cl, %r11, %rbp
	testb	$64, %cl
	cmovneq	%r13, %rbp
	cmovneq	%rdx, %r13
	andq	%r8, %rbp
	andq	%r9, %r13
	movl	88(%rsp), %ecx
	shldq	%cl, %rbp, %r13
	shlq	%cl, %rbp
	testb	$64, %cl
	cmovneq	%rbp, %r13
	movq	%r11, %r15
	cmovneq	%rdx, %rbp
	movl	84(%rsp), %ecx
	shrq	%cl, %r15
	orq	%r10, %r13
	movq	%rsi, %r10
	shrdq	%cl, %r11, %r10
	orq	%rbx, %r13
	orq	%r14, %rbp
	orq	%rax, %rbp
	testb	$64, %cl
	cmovneq	%r15, %r10
	cmovneq	%rdx, %r15
	andq	%r8, %r10
	andq	%r9, %r15
	movl	288(%rsp), %ecx
	shldq	%cl, %r10, %r15
	shlq	%cl, %r10
	testb	$64, %cl
	cmovneq	%r10, %r15
	cmovneq	%rdx, %r10
	movq	%r11, %rbx
	movl	72(%rsp), %ecx
	shrq	%cl, %rbx
	shrdq	%cl, %r11, %rsi
	movq	168(%rsp), %rax
	movq	184(%rsp), %r11
	movzwl	(%rax,%r11,2), %eax
	testb	$64, %cl
	cmovneq	%rbx, %rsi
	cmovneq	%rdx, %rbx
	xorl	%r11d, %r11d
	movl	76(%rsp), %ecx
	shldq	%cl, %rax, %r11
	shlq	%cl, %rax
	testb	$64, %cl
	cmovneq	%rax, %r11
	cmovneq	%rdx, %rax
	orq	%rbx, %r11
	orq	%rsi, %rax
	andq	%r8, %rax
	andq	%r9, %r11
	movq	%r11, %rsi
	movq	%rax, %rbx
	movl	80(%rsp), %ecx
	shldq	%cl, %rax, %rsi
	shlq	%cl, %rbx
	testb	$64, %cl
	cmovneq	%rbx, %rsi
	cmovneq	%rdx, %rbx
	movq	16(%rsp), %rdx
	orq	%r15, %rsi
	orq	%r13, %rsi
	orq	%r10, %rbx
	orq	%rbp, %rbx
	movq	24(%rsp), %rbp
	movl	240(%rsp), %ecx
	shrdq	%cl, %r11, %rax
	shrq	%cl, %r11
	testb	$64, %cl
	cmoveq	%rax, %r11
	movzbl	%r11b, %eax
	movq	104(%rsp), %r11
	shldq	$4, %rsi, %rax
	shldq	$4, %rbx, %rsi
	shlq	$4, %rbx
	movq	%rbx, -16(%rdi)
	movq	%rsi, -8(%rdi)
	movq	%rax, (%rdi)
	movq	$0, 8(%rdi)
	addq	$32, %rdi
	incl	%r12d
	decq	%rdx
	jne	.LBB5_129
	jmp	.LBB5_130
.LBB5_123:
	movq	144(%rsp), %rcx
	imulq	%rcx, %rax
	addl	%eax, %ecx
	movzwl	%cx, %ecx
	movq	%rcx, %rsi
	subq	%rax, %rsi
	testb	$1, %sil
	je	.LBB5_125
	addl	%edx, %edi
	movzwl	%di, %edx
	shll	$4, %edx
	movq	(%r11,%rdx), %rsi
	movq	8(%r11,%rdx), %rdx
	shrdq	$1, %rdx, %rsi
	shrq	%rdx
	andq	%r8, %rsi
	andq	%r9, %rdx
	movq	%rdx, %rdi
	shldq	$4, %rsi, %rdi
	shlq	$4, %rsi
	shrq	$60, %rdx
	movl	%r14d, %r10d
	shll	$5, %r10d
	movq	%rsi, 544(%rsp,%r10)
	movq	%rdi, 552(%rsp,%r10)
	movq	%rdx, 560(%rsp,%r10)
	movq	$0, 568(%rsp,%r10)
	incq	%r14
.LBB5_125:
	movzwl	%ax, %eax
	decl	%ecx
	cmpl	%ecx, %eax
	je	.LBB5_130
	movq	96(%rsp), %rax
	subq	%r14, %rax
	movl	%r14d, %ecx
	shll	$5, %ecx
	leaq	592(%rsp), %rdx
	addq	%rdx, %rcx
	movq	224(%rsp), %rdx
	addl	%r14d, %edx
	addl	280(%rsp), %r14d
	.p2align	4
.LBB5_127:
	movzwl	%r14w, %esi
	shll	$4, %esi
	movq	(%r11,%rsi), %rdi
	movq	8(%r11,%rsi), %rsi
	shrdq	$1, %rsi, %rdi
	shrq	%rsi
	andq	%r8, %rdi
	andq	%r9, %rsi
	movq	%rsi, %r10
	shldq	$4, %rdi, %r10
	shlq	$4, %rdi
	shrq	$60, %rsi
	movq	%rdi, -48(%rcx)
	movq	%r10, -40(%rcx)
	movq	%rsi, -32(%rcx)
	movq	$0, -24(%rcx)
	movzwl	%dx, %esi
	shll	$4, %esi
	movq	(%r11,%rsi), %rdi
	movq	8(%r11,%rsi), %rsi
	shrdq	$1, %rsi, %rdi
	shrq	%rsi
	andq	%r8, %rdi
	andq	%r9, %rsi
	movq	%rsi, %r10
	shldq	$4, %rdi, %r10
	shlq	$4, %rdi
	shrq	$60, %rsi
	movq	%rdi, -16(%rcx)
	movq	%r10, -8(%rcx)
	movq	%rsi, (%rcx)
	movq	$0, 8(%rcx)
	addq	$64, %rcx
	addl	$2, %edx
	addl	$2, %r14d
	addq	$-2, %rax
	jne	.LBB5_127
	jmp	.LBB5_130
.LBB5_25:
	movq	40(%rsp), %r11
	jmp	.LBB5_44
.LBB5_28:
	movl	%ebp, %r14d
	andl	$-2, %r14d
	movdqa	.LCPI5_3(%rip), %xmm0
	xorl	%eax, %eax
	.p2align	4
.LBB5_29:
	movdqa	%xmm0, %xmm2
	paddq	%xmm2, %xmm2
	paddq	%xmm0, %xmm2
	pand	.LCPI5_4(%rip), %xmm2
	pxor	.LCPI5_5(%rip), %xmm2
	movdqa	.LCPI5_6(%rip), %xmm1
	paddq	%xmm1, %xmm2
	movdqa	480(%rsp,%rax,8), %xmm3
	movdqa	%xmm3, %xmm4
	psrlq	%xmm2, %xmm4
	pshufd	$238, %xmm2, %xmm5
	psrlq	%xmm5, %xmm3
	pblendw	$15, %xmm4, %xmm3
	movdqu	488(%rsp,%rax,8), %xmm4
	movdqa	%xmm4, %xmm6
	psrlq	%xmm2, %xmm6
	movdqa	496(%rsp,%rax,8), %xmm7
	movdqa	%xmm7, %xmm8
	psrlq	%xmm2, %xmm8
	pand	.LCPI5_7(%rip), %xmm3
	psrlq	%xmm5, %xmm4
	pblendw	$15, %xmm6, %xmm4
	psllq	$2, %xmm4
	pand	.LCPI5_8(%rip), %xmm4
	por	%xmm3, %xmm4
	psrlq	%xmm5, %xmm7
	pblendw	$15, %xmm8, %xmm7
	psllq	$5, %xmm7
	pand	.LCPI5_9(%rip), %xmm7
	por	%xmm4, %xmm7
	movdqu	%xmm7, 4904(%rsp,%rax,8)
	addq	$2, %rax
	paddq	%xmm1, %xmm0
	cmpq	%rax, %r14
	jne	.LBB5_29
	cmpl	%ebp, %r14d
	movq	40(%rsp), %r11
	je	.LBB5_33
.LBB5_31:
	leaq	(%r14,%r14,2), %rax
	.p2align	4
.LBB5_32:
	movl	%eax, %ecx
	andb	$7, %cl
	xorb	$4, %cl
	addb	$2, %cl
	movq	480(%rsp,%r14,8), %rdx
	shrq	%cl, %rdx
	movq	488(%rsp,%r14,8), %rsi
	movabsq	$217020518514230019, %rdi
	andq	%rdx, %rdi
	shrq	%cl, %rsi
	movabsq	$506381209866536711, %rdx
	andq	%rsi, %rdx
	leaq	(%rdi,%rdx,4), %rdx
	movq	496(%rsp,%r14,8), %rsi
	shrq	%cl, %rsi
	shlq	$5, %rsi
	movabsq	$-2242545357980376864, %rcx
	andq	%rsi, %rcx
	orq	%rdx, %rcx
	movq	%rcx, 4904(%rsp,%r14,8)
	incq	%r14
	addq	$3, %rax
	cmpq	%r14, %rbp
	jne	.LBB5_32
.LBB5_33:
	movzwl	%bx, %eax
	movl	%eax, %esi
	xorl	$4, %esi
	movzwl	56(%rsp), %edx
	movl	%edx, %ecx
	xorl	$4, %ecx
	orw	%cx, %si
	jne	.LBB5_37
	leal	-1(%r12), %eax
	movzwl	%ax, %eax
	movq	496(%rsp,%rax,8), %rax
	movl	%eax, %ecx
	shrl	$3, %ecx
	andl	$2, %ecx
	shrq	$5, %rax
	movl	%eax, %edx
	andl	$1, %edx
	orl	%ecx, %edx
	andl	$2, %eax
	leal	(%rax,%rdx,4), %eax
.LBB5_35:
	movl	%r11d, %ecx
	orb	$2, %cl
	movzbl	%cl, %ecx
	movq	496(%rsp), %rdx
	movq	504(%rsp), %rsi
	xorl	%edi, %edi
	btq	%rcx, %rdx
	setb	%dil
	orl	%eax, %edi
	movl	%r11d, %ecx
	orb	$3, %cl
	shrq	%cl, %rdx
	addl	%edx, %edx
	andl	$2, %edx
	leal	(%rdx,%rdi,4), %eax
	movzbl	%cl, %ecx
	xorl	%edx, %edx
	btq	%rcx, %rsi
	setb	%dl
	orq	%rax, %rdx
	movq	512(%rsp), %rax
	shrq	%cl, %rax
	andl	$1, %eax
	addq	%rax, %rax
	leaq	(%rax,%rdx,4), %rax
	movq	520(%rsp), %rdx
	jmp	.LBB5_36
.LBB5_37:
	xorl	$6, %eax
	xorl	$6, %edx
	orw	%ax, %dx
	jne	.LBB5_39
	leal	-3(%r12), %eax
	leal	-2(%r12), %ecx
	leal	-1(%r12), %edx
	movzwl	%ax, %eax
	movl	496(%rsp,%rax,8), %eax
	shrl	$3, %eax
	andl	$2, %eax
	movzwl	%cx, %ecx
	movl	496(%rsp,%rcx,8), %ecx
	shrl	$4, %ecx
	andl	$1, %ecx
	orl	%eax, %ecx
	movzwl	%dx, %eax
	movl	496(%rsp,%rax,8), %eax
	shrl	$3, %eax
	andl	$2, %eax
	leal	(%rax,%rcx,4), %esi
	movzwl	%r13w, %ecx
	movq	496(%rsp), %rax
	xorl	%edi, %edi
	btq	%rcx, %rax
	setb	%dil
	movl	%r11d, %ecx
	orb	$1, %cl
	movq	%rax, %r8
	shrq	%cl, %r8
	movq	504(%rsp), %rdx
	orl	%esi, %edi
	addl	%r8d, %r8d
	andl	$2, %r8d
	leal	(%r8,%rdi,4), %ecx
	leal	2(%r11), %esi
	movzbl	%sil, %esi
	xorl	%edi, %edi
	btq	%rsi, %rax
	setb	%dil
	orq	%rcx, %rdi
	leal	3(%r11), %ecx
	shrq	%cl, %rax
	andl	$1, %eax
	addq	%rax, %rax
	leaq	(%rax,%rdi,4), %rax
	movzbl	%cl, %ecx
.LBB5_36:
	xorl	%ebp, %ebp
	btq	%rcx, %rdx
	setb	%bpl
	orq	%rax, %rbp
.LBB5_44:
	leaq	.Lstatic.2(%rip), %rbx
	movzbl	(%rbp,%rbx), %eax
	orb	%al, 5352(%rsp)
	leaq	304(%rsp), %rdi
	movl	%r12d, %esi
	movl	%r11d, %edx
	callq	"dm_layout::symbols::slots::order"
	movq	312(%rsp), %rax
	testq	%rax, %rax
	je	.LBB5_51
	movq	304(%rsp), %rcx
	cmpq	$1, %rax
	jne	.LBB5_47
	xorl	%edx, %edx
	jmp	.LBB5_50
.LBB5_79:
	movq	56(%rsp), %rbx
	testw	%bx, %bx
	movq	128(%rsp), %r15
	movq	40(%rsp), %r13
	movl	68(%rsp), %r12d
	movl	260(%rsp), %ecx
	je	.LBB5_82
	leal	2(%rbx), %eax
	movq	272(%rsp), %rdx
	shll	$4, %edx
	movzwl	%cx, %ecx
	movl	$6, %esi
	subl	%ecx, %esi
	xorl	%edi, %edi
	xorl	%r8d, %r8d
	.p2align	4
.LBB5_81:
	cmpw	%si, %ax
	movl	%ebx, %ecx
	cmoval	%edi, %ecx
	movl	%esi, %r9d
	subl	%ecx, %r9d
	movzwl	%r9w, %ecx
	shll	$4, %ecx
	movq	480(%rsp,%rcx), %r9
	movq	488(%rsp,%rcx), %r10
	movq	%r10, %r11
	movl	%r13d, %ecx
	shrq	%cl, %r11
	shrdq	%cl, %r10, %r9
	testb	$64, %r13b
	cmovneq	%r11, %r9
	movl	$0, %ecx
	cmoveq	%r11, %rcx
	orq	%r9, 512(%rsp,%r8)
	orq	%rcx, 520(%rsp,%r8)
	addq	$16, %r8
	incl	%esi
	cmpq	%r8, %rdx
	jne	.LBB5_81
.LBB5_82:
	movq	%rbx, %r14
	movl	%r14d, %ecx
	andl	$7, %ecx
	movq	272(%rsp), %rbp
	movl	%ebp, %eax
	shll	$4, %eax
	movq	480(%rsp,%rax), %rdx
	movq	488(%rsp,%rax), %rsi
	movl	%ecx, 24(%rsp)
	xorb	$4, %cl
	movq	%rdx, %rdi
	shlq	%cl, %rdi
	shldq	%cl, %rdx, %rsi
	shrdq	$4, %rsi, %rdi
	shrq	$4, %rsi
	movq	%rdi, 480(%rsp)
	movq	%rsi, 488(%rsp)
	movq	496(%rsp,%rax), %rdx
	movq	504(%rsp,%rax), %rax
	shldq	%cl, %rdx, %rax
	shlq	%cl, %rdx
	shrdq	$4, %rax, %rdx
	shrq	$4, %rax
	movq	%rax, 504(%rsp)
	movq	%rdx, 496(%rsp)
	leaq	4904(%rsp), %rdi
	xorl	%ebx, %ebx
	movl	$1936, %edx
	xorl	%esi, %esi
	callq	memset@PLT
	testw	%r14w, %r14w
	je	.LBB5_83
	movabsq	$-2242545357980376864, %rax
	movabsq	$2025524839466146844, %rdx
	movabsq	$217020518514230019, %rsi
	shll	$4, %ebp
	xorl	%edi, %edi
	xorl	%r8d, %r8d
	.p2align	4
.LBB5_85:
	movq	480(%rsp,%r8), %r9
	movq	488(%rsp,%r8), %r10
	movl	%edi, %ecx
	andb	$7, %cl
	xorb	$4, %cl
	addb	$2, %cl
	movq	%r10, %rbx
	shrq	%cl, %rbx
	shrdq	%cl, %r10, %r9
	andq	%rsi, %r9
	andq	%rsi, %rbx
	movq	504(%rsp,%r8), %r14
	movq	496(%rsp,%r8), %r11
	shrdq	%cl, %r14, %r11
	shrq	%cl, %r14
	shldq	$2, %r11, %r14
	shlq	$2, %r11
	andq	%rdx, %r11
	orq	%r9, %r11
	movq	520(%rsp,%r8), %r9
	movq	512(%rsp,%r8), %r10
	shrdq	%cl, %r9, %r10
	shrq	%cl, %r9
	andq	%rdx, %r14
	orq	%rbx, %r14
	shldq	$5, %r10, %r9
	andq	%rax, %r9
	orq	%r14, %r9
	shlq	$5, %r10
	andq	%rax, %r10
	orq	%r11, %r10
	movq	%r9, %rcx
	shldq	$8, %r10, %rcx
	movq	%rcx, %xmm1
	movq	%r9, %rcx
	shldq	$16, %r10, %rcx
	movq	%rcx, %xmm0
	movq	%r9, %rcx
	shldq	$24, %r10, %rcx
	movq	%rcx, %xmm2
	movq	%r9, %rcx
	shldq	$32, %r10, %rcx
	movq	%rcx, %xmm3
	movq	%r9, %rcx
	shldq	$40, %r10, %rcx
	movq	%rcx, %xmm5
	movq	%r9, %rcx
	shldq	$48, %r10, %rcx
	movq	%rcx, %xmm6
	movq	%r9, %rcx
	shldq	$56, %r10, %rcx
	movq	%rcx, %xmm7
	movq	%r10, %xmm4
	movq	%r9, %rcx
	shrq	$56, %rcx
	movd	%ecx, %xmm8
	movq	%r9, %rcx
	shrq	$48, %rcx
	movd	%ecx, %xmm9
	movq	%r9, %rcx
	shrq	$40, %rcx
	movd	%ecx, %xmm10
	movq	%r9, %xmm11
	shrq	$32, %r9
	movd	%r9d, %xmm12
	punpcklbw	%xmm1, %xmm0
	punpcklbw	%xmm2, %xmm3
	psllq	$48, %xmm0
	pshufd	$80, %xmm3, %xmm1
	pblendw	$8, %xmm0, %xmm1
	punpcklbw	%xmm5, %xmm6
	punpcklbw	%xmm7, %xmm4
	punpcklwd	%xmm6, %xmm4
	pblendw	$12, %xmm1, %xmm4
	punpcklbw	%xmm8, %xmm9
	punpcklbw	%xmm10, %xmm12
	pslldq	$14, %xmm9
	pshufd	$0, %xmm12, %xmm0
	pblendw	$128, %xmm9, %xmm0
	pshufd	$68, %xmm11, %xmm1
	pblendw	$192, %xmm0, %xmm1
	pblendw	$15, %xmm4, %xmm1
	movdqu	%xmm1, 4904(%rsp,%r8)
	addq	$16, %r8
	addl	$3, %edi
	cmpq	%r8, %rbp
	jne	.LBB5_85
	movzwl	24(%rsp), %eax
	movl	%eax, %esi
	xorl	$4, %esi
	movzwl	%r12w, %edx
	movl	%edx, %ecx
	xorl	$4, %ecx
	orw	%cx, %si
	jne	.LBB5_89
	movl	%r13d, %ecx
	orb	$3, %cl
	movq	552(%rsp), %rax
	movq	544(%rsp), %rsi
	shrdq	%cl, %rax, %rsi
	movq	568(%rsp), %rbx
	movq	560(%rsp), %rdx
	shrdq	%cl, %rbx, %rdx
	shrq	%cl, %rbx
	testb	$64, %cl
	cmoveq	%rdx, %rbx
	shrq	%cl, %rax
	testb	$64, %cl
	movq	536(%rsp), %rdx
	movq	528(%rsp), %rdi
	cmoveq	%rsi, %rax
	shrdq	%cl, %rdx, %rdi
	shrq	%cl, %rdx
	testb	$64, %cl
	movq	512(%rsp), %r14
	movq	520(%rsp), %r8
	cmoveq	%rdi, %rdx
	movq	%r14, %r9
	shrdq	%cl, %r8, %r9
	movq	%r8, %rdi
	shrq	%cl, %rdi
	testb	$64, %cl
	cmoveq	%r9, %rdi
	movq	56(%rsp), %rsi
	leal	-1(%rsi), %ecx
	movzwl	%cx, %ecx
	shll	$4, %ecx
	movq	512(%rsp,%rcx), %r9
	movl	%r9d, %ecx
	shrl	$3, %ecx
	andl	$2, %ecx
	shrq	$5, %r9
	movl	%r9d, %r10d
	andl	$1, %r10d
	orl	%ecx, %r10d
	andl	$2, %r9d
	movl	%r13d, %ecx
	orb	$2, %cl
	movq	%r8, %r11
	shrq	%cl, %r11
	shrdq	%cl, %r8, %r14
	leal	(%r9,%r10,4), %r8d
.LBB5_88:
	testb	$64, %cl
	cmovneq	%r11, %r14
	andl	$1, %r14d
	orl	%r8d, %r14d
	addl	%edi, %edi
	andl	$2, %edi
	leal	(%rdi,%r14,4), %ecx
	andl	$1, %edx
	orq	%rcx, %rdx
	andl	$1, %eax
	addq	%rax, %rax
	leaq	(%rax,%rdx,4), %rax
	jmp	.LBB5_96
.LBB5_131:
	movq	264(%rsp), %r12
	testw	%r12w, %r12w
	movzwl	38(%rsp), %ecx
	movl	260(%rsp), %edi
	je	.LBB5_137
	leal	2(%r12), %edx
	subw	$128, %cx
	jae	.LBB5_133
	movl	$127, %eax
	subl	40(%rsp), %eax
	movq	136(%rsp), %rsi
	shll	$5, %esi
	movzwl	%di, %ecx
	movl	$6, %edi
	subl	%ecx, %edi
	xorl	%r8d, %r8d
	xorl	%r9d, %r9d
	.p2align	4
.LBB5_136:
	cmpw	%di, %dx
	movl	%r12d, %ecx
	cmoval	%r8d, %ecx
	movl	%edi, %r10d
	subl	%ecx, %r10d
	movzwl	%r10w, %r12d
	shll	$5, %r12d
	movq	504(%rsp,%r12), %r10
	movq	%r10, %r13
	movq	40(%rsp), %rcx
	shrq	%cl, %r13
	movq	496(%rsp,%r12), %rbx
	testb	$64, %cl
	movq	%r13, %r11
	cmovneq	%r8, %r11
	movq	%rbx, %r14
	shrdq	%cl, %r10, %r14
	movq	480(%rsp,%r12), %r15
	movq	488(%rsp,%r12), %r12
	testb	$64, %cl
	cmovneq	%r13, %r14
	movq	%r12, %r13
	shrq	%cl, %r13
	testb	$64, %cl
	movq	%r13, %rbp
	cmovneq	%r8, %rbp
	shrdq	%cl, %r12, %r15
	movq	264(%rsp), %r12
	testb	$64, %cl
	cmovneq	%r13, %r15
	shldq	$1, %rbx, %r10
	addq	%rbx, %rbx
	movl	%eax, %ecx
	shldq	%cl, %rbx, %r10
	shlq	%cl, %rbx
	testb	$64, %al
	cmovneq	%rbx, %r10
	cmovneq	%r8, %rbx
	orq	%r15, %rbx
	orq	%rbx, 544(%rsp,%r9)
	orq	%rbp, %r10
	orq	%r10, 552(%rsp,%r9)
	orq	%r14, 560(%rsp,%r9)
	orq	%r11, 568(%rsp,%r9)
	addq	$32, %r9
	incl	%edi
	cmpq	%r9, %rsi
	jne	.LBB5_136
	jmp	.LBB5_137
.LBB5_47:
	movq	%rax, %rsi
	andq	$-2, %rsi
	xorl	%edx, %edx
	.p2align	4
.LBB5_48:
	movzwl	(%rcx,%rdx,2), %edi
	movzbl	4904(%rsp,%rdi), %edi
	movzbl	(%rdi,%rbx), %edi
	movb	%dil, (%r15,%rdx)
	movzwl	2(%rcx,%rdx,2), %edi
	movzbl	4904(%rsp,%rdi), %edi
	movzbl	(%rdi,%rbx), %edi
	movb	%dil, 1(%r15,%rdx)
	addq	$2, %rdx
	cmpq	%rdx, %rsi
	jne	.LBB5_48
	testb	$1, %al
	je	.LBB5_51
.LBB5_50:
	movzwl	(%rcx,%rdx,2), %ecx
	movzbl	4904(%rsp,%rcx), %ecx
	movzbl	(%rcx,%rbx), %ecx
	movb	%cl, (%r15,%rdx)
.LBB5_51:
	movq	328(%rsp), %rdi
	testq	%rdi, %rdi
	je	.LBB5_164
	movq	320(%rsp), %rdx
	movq	336(%rsp), %rcx
	cmpq	$1, %rdi
	jne	.LBB5_54
	xorl	%esi, %esi
	jmp	.LBB5_57
.LBB5_54:
	movq	%rdi, %r8
	andq	$-2, %r8
	leaq	(%rax,%r15), %r9
	incq	%r9
	xorl	%esi, %esi
	.p2align	4
.LBB5_55:
	movzwl	(%rdx,%rsi,2), %r10d
	subq	%rcx, %r10
	movzbl	4904(%rsp,%r10), %r10d
	movzbl	(%r10,%rbx), %r10d
	movb	%r10b, -1(%r9,%rsi)
	movzwl	2(%rdx,%rsi,2), %r10d
	subq	%rcx, %r10
	movzbl	4904(%rsp,%r10), %r10d
	movzbl	(%r10,%rbx), %r10d
	movb	%r10b, (%r9,%rsi)
	addq	$2, %rsi
	cmpq	%rsi, %r8
	jne	.LBB5_55
	testb	$1, %dil
	je	.LBB5_164
.LBB5_57:
	addq	%rax, %r15
	movzwl	(%rdx,%rsi,2), %eax
	subq	%rcx, %rax
	movzbl	4904(%rsp,%rax), %eax
	movzbl	(%rax,%rbx), %eax
	movb	%al, (%r15,%rsi)
	jmp	.LBB5_164
.LBB5_83:
	movq	56(%rsp), %rsi
	jmp	.LBB5_97
.LBB5_39:
	orw	%ax, %cx
	jne	.LBB5_41
	leal	-3(%r12), %eax
	leal	-2(%r12), %ecx
	leal	-1(%r12), %edx
	movzwl	%ax, %eax
	movl	496(%rsp,%rax,8), %eax
	shrl	$3, %eax
	andl	$2, %eax
	movzwl	%cx, %ecx
	movl	496(%rsp,%rcx,8), %ecx
	shrl	$4, %ecx
	andl	$1, %ecx
	orl	%eax, %ecx
	movzwl	%dx, %eax
	movl	496(%rsp,%rax,8), %eax
	shrl	$3, %eax
	andl	$2, %eax
	leal	(%rax,%rcx,4), %eax
	jmp	.LBB5_35
.LBB5_89:
	xorl	$6, %eax
	xorl	$6, %edx
	orw	%ax, %dx
	movq	56(%rsp), %rsi
	jne	.LBB5_91
	leal	-3(%rsi), %eax
	leal	-2(%rsi), %ecx
	leal	-1(%rsi), %edx
	movzwl	%ax, %eax
	shll	$4, %eax
	movl	512(%rsp,%rax), %eax
	shrl	$3, %eax
	andl	$2, %eax
	movzwl	%cx, %ecx
	shll	$4, %ecx
	movl	512(%rsp,%rcx), %edi
	shrl	$4, %edi
	andl	$1, %edi
	orl	%eax, %edi
	movzwl	%dx, %eax
	shll	$4, %eax
	movl	512(%rsp,%rax), %r8d
	movq	520(%rsp), %rdx
	movq	%rdx, %r9
	movl	%r13d, %ecx
	shrq	%cl, %r9
	shrl	$3, %r8d
	movq	512(%rsp), %rax
	movq	%rax, %r11
	shrdq	%cl, %rdx, %r11
	andl	$2, %r8d
	testb	$64, %r13b
	cmovneq	%r9, %r11
	orb	$1, %cl
	movq	%rdx, %r10
	shrq	%cl, %r10
	movq	%rax, %r9
	shrdq	%cl, %rdx, %r9
	leal	(%r8,%rdi,4), %edi
	andl	$1, %r11d
	orl	%edi, %r11d
	testb	$64, %cl
	cmovneq	%r10, %r9
	leal	2(%r13), %ecx
	movq	%rdx, %r8
	shrq	%cl, %r8
	addl	%r9d, %r9d
	movq	%rax, %rdi
	shrdq	%cl, %rdx, %rdi
	andl	$2, %r9d
	testb	$64, %cl
	cmovneq	%r8, %rdi
	leal	(%r9,%r11,4), %r9d
	leal	3(%r13), %ecx
	movq	%rdx, %r8
	shrq	%cl, %r8
	shrdq	%cl, %rdx, %rax
	andl	$1, %edi
	movq	536(%rsp), %rbx
	movq	528(%rsp), %rdx
	shrdq	%cl, %rbx, %rdx
	shrq	%cl, %rbx
	orq	%r9, %rdi
	testb	$64, %cl
	cmovneq	%r8, %rax
	cmoveq	%rdx, %rbx
	andl	$1, %eax
	addq	%rax, %rax
	leaq	(%rax,%rdi,4), %rax
.LBB5_96:
	andl	$1, %ebx
	orq	%rax, %rbx
.LBB5_97:
	leaq	.Lstatic.2(%rip), %r14
	movzbl	(%rbx,%r14), %eax
	orb	%al, 6824(%rsp)
	leaq	304(%rsp), %rdi
	movl	%r13d, %edx
	callq	"dm_layout::symbols::slots::order"
	movq	312(%rsp), %rax
	testq	%rax, %rax
	je	.LBB5_104
	movq	304(%rsp), %rcx
	cmpq	$1, %rax
	jne	.LBB5_100
	xorl	%edx, %edx
	jmp	.LBB5_103
.LBB5_100:
	movq	%rax, %rsi
	andq	$-2, %rsi
	xorl	%edx, %edx
	.p2align	4
.LBB5_101:
	movzwl	(%rcx,%rdx,2), %edi
	movzbl	4904(%rsp,%rdi), %edi
	movzbl	(%rdi,%r14), %edi
	movb	%dil, (%r15,%rdx)
	movzwl	2(%rcx,%rdx,2), %edi
	movzbl	4904(%rsp,%rdi), %edi
	movzbl	(%rdi,%r14), %edi
	movb	%dil, 1(%r15,%rdx)
	addq	$2, %rdx
	cmpq	%rdx, %rsi
	jne	.LBB5_101
	testb	$1, %al
	je	.LBB5_104
.LBB5_103:
	movzwl	(%rcx,%rdx,2), %ecx
	movzbl	4904(%rsp,%rcx), %ecx
	movzbl	(%rcx,%r14), %ecx
	movb	%cl, (%r15,%rdx)
.LBB5_104:
	movq	328(%rsp), %rdi
	testq	%rdi, %rdi
	je	.LBB5_164
	movq	320(%rsp), %rdx
	movq	336(%rsp), %rcx
	cmpq	$1, %rdi
	jne	.LBB5_107
	xorl	%esi, %esi
	jmp	.LBB5_110
.LBB5_107:
	movq	%rdi, %r8
	andq	$-2, %r8
	leaq	(%rax,%r15), %r9
	incq	%r9
	xorl	%esi, %esi
	.p2align	4
.LBB5_108:
	movzwl	(%rdx,%rsi,2), %r10d
	subq	%rcx, %r10
	movzbl	4904(%rsp,%r10), %r10d
	movzbl	(%r10,%r14), %r10d
	movb	%r10b, -1(%r9,%rsi)
	movzwl	2(%rdx,%rsi,2), %r10d
	subq	%rcx, %r10
	movzbl	4904(%rsp,%r10), %r10d
	movzbl	(%r10,%r14), %r10d
	movb	%r10b, (%r9,%rsi)
	addq	$2, %rsi
	cmpq	%rsi, %r8
	jne	.LBB5_108
	testb	$1, %dil
	je	.LBB5_164
.LBB5_110:
	addq	%rax, %r15
	movzwl	(%rdx,%rsi,2), %eax
	subq	%rcx, %rax
	movzbl	4904(%rsp,%rax), %eax
	movzbl	(%rax,%r14), %eax
	movb	%al, (%r15,%rsi)
	jmp	.LBB5_164
.LBB5_133:
	movq	136(%rsp), %rax
	shll	$5, %eax
	movzwl	%di, %edi
	movl	$6, %esi
	subl	%edi, %esi
	xorl	%edi, %edi
	xorl	%r8d, %r8d
	.p2align	4
.LBB5_134:
	cmpw	%si, %dx
	movl	%r12d, %r10d
	cmoval	%edi, %r10d
	movl	%esi, %r9d
	subl	%r10d, %r9d
	movzwl	%r9w, %r10d
	shll	$5, %r10d
	movq	496(%rsp,%r10), %r9
	movq	504(%rsp,%r10), %r10
	movq	%r10, %r11
	shrq	%cl, %r11
	shrdq	%cl, %r10, %r9
	testb	$64, %cl
	cmovneq	%r11, %r9
	movl	$0, %r10d
	cmoveq	%r11, %r10
	orq	%r9, 544(%rsp,%r8)
	orq	%r10, 552(%rsp,%r8)
	addq	$32, %r8
	incl	%esi
	cmpq	%r8, %rax
	jne	.LBB5_134
.LBB5_137:
	movl	%r12d, %ebp
	andl	$7, %ebp
	movq	136(%rsp), %rbx
	movl	%ebx, %esi
	shll	$5, %esi
	movq	480(%rsp,%rsi), %rdx
	movl	%ebp, %eax
	xorb	$4, %al
	movq	%rdx, %rdi
	movl	%eax, %ecx
	shlq	%cl, %rdi
	movq	488(%rsp,%rsi), %r8
	movq	%r8, %r9
	shldq	%cl, %rdx, %r9
	movq	496(%rsp,%rsi), %r10
	movq	504(%rsp,%rsi), %r11
	shldq	%cl, %r10, %r11
	shlq	%cl, %r10
	shrq	%r8
	movl	%ebp, %edx
	xorb	$59, %dl
	movl	%edx, %ecx
	shrq	%cl, %r8
	orq	%r10, %r8
	shrdq	$4, %r9, %rdi
	shrdq	$4, %r8, %r9
	shrdq	$4, %r11, %r8
	shrq	$4, %r11
	movq	%r9, 488(%rsp)
	movq	%rdi, 480(%rsp)
	movq	%r11, 504(%rsp)
	movq	%r8, 496(%rsp)
	movq	512(%rsp,%rsi), %rdi
	movq	%rdi, %r8
	movl	%eax, %ecx
	shlq	%cl, %r8
	movq	520(%rsp,%rsi), %r9
	movq	%r9, %r10
	shldq	%cl, %rdi, %r10
	movq	536(%rsp,%rsi), %rdi
	movq	528(%rsp,%rsi), %rsi
	shldq	%cl, %rsi, %rdi
	shlq	%cl, %rsi
	shrq	%r9
	movl	%edx, %ecx
	shrq	%cl, %r9
	orq	%rsi, %r9
	movq	%rdi, %rax
	shldq	$60, %r9, %rax
	shldq	$60, %r10, %r9
	shldq	$60, %r8, %r10
	shrq	$4, %rdi
	movq	%r10, 512(%rsp)
	movq	%r9, 520(%rsp)
	movq	%rdi, 536(%rsp)
	movq	%rax, 528(%rsp)
	leaq	4904(%rsp), %rdi
	movl	$4256, %edx
	xorl	%esi, %esi
	callq	memset@PLT
	testw	%r12w, %r12w
	je	.LBB5_165
	movl	%ebp, 248(%rsp)
	shll	$5, %ebx
	xorl	%ecx, %ecx
	xorl	%r10d, %r10d
	movq	%rbx, 136(%rsp)
	.p2align	4
.LBB5_139:
	movq	%rcx, 24(%rsp)
	movq	504(%rsp,%r10), %r13
	movq	496(%rsp,%r10), %rdi
	movq	480(%rsp,%r10), %rdx
	movq	488(%rsp,%r10), %r8
	movq	24(%rsp), %rsi
	andb	$7, %sil
	xorb	$4, %sil
	leal	2(%rsi), %eax
	movl	%eax, %ecx
	shrdq	%cl, %r8, %rdx
	movq	%rdx, 16(%rsp)
	shrq	%cl, %r8
	movq	%r8, 112(%rsp)
	leaq	(%rdi,%rdi), %r8
	movb	$125, %dl
	subb	%sil, %dl
	movl	%edx, %ecx
	shlq	%cl, %r8
	movl	%eax, %ecx
	shrdq	%cl, %r13, %rdi
	movq	%rdi, 120(%rsp)
	shrq	%cl, %r13
	movq	520(%rsp,%r10), %rbp
	movq	512(%rsp,%r10), %rdi
	shrdq	%cl, %rbp, %rdi
	shrq	%cl, %rbp
	movq	536(%rsp,%r10), %rsi
	movq	528(%rsp,%r10), %rbx
	leaq	(%rbx,%rbx), %r12
	movl	%edx, %ecx
	shlq	%cl, %r12
	movl	%eax, %ecx
	shrdq	%cl, %rsi, %rbx
	shrq	%cl, %rsi
	movq	552(%rsp,%r10), %r9
	movq	544(%rsp,%r10), %r15
	shrdq	%cl, %r9, %r15
	movq	560(%rsp,%r10), %r11
	shrq	%cl, %r9
	leaq	(%r11,%r11), %r14
	movl	%edx, %ecx
	shlq	%cl, %r14
	orq	112(%rsp), %r8
	orq	%rbp, %r12
	orq	%r9, %r14
	movabsq	$217020518514230019, %rdx
	andq	%rdx, %r8
	shldq	$2, %rdi, %r12
	movabsq	$2025524839466146844, %r9
	andq	%r9, %r12
	orq	%r8, %r12
	movq	16(%rsp), %rcx
	andq	%rdx, %rcx
	shlq	$2, %rdi
	andq	%r9, %rdi
	orq	%rcx, %rdi
	movq	120(%rsp), %r8
	andq	%rdx, %r8
	andq	%rdx, %r13
	shldq	$2, %rbx, %rsi
	andq	%r9, %rsi
	orq	%r13, %rsi
	movq	568(%rsp,%r10), %rdx
	movl	%eax, %ecx
	shrdq	%cl, %rdx, %r11
	shlq	$2, %rbx
	andq	%r9, %rbx
	shldq	$5, %r15, %r14
	orq	%r8, %rbx
	movabsq	$-2242545357980376864, %r8
	andq	%r8, %r14
	orq	%r12, %r14
	shrq	%cl, %rdx
	shlq	$5, %r15
	andq	%r8, %r15
	orq	%rdi, %r15
	shldq	$5, %r11, %rdx
	andq	%r8, %rdx
	orq	%rsi, %rdx
	movq	24(%rsp), %rcx
	shlq	$5, %r11
	andq	%r8, %r11
	orq	%rbx, %r11
	movq	136(%rsp), %rbx
	movq	%r14, %rax
	shldq	$8, %r15, %rax
	movq	%rax, %xmm8
	movq	%r14, %rax
	shldq	$16, %r15, %rax
	movq	%rax, %xmm7
	movq	%r14, %rax
	shldq	$24, %r15, %rax
	movq	%rax, %xmm9
	movq	%r14, %rax
	shldq	$32, %r15, %rax
	movq	%rax, %xmm10
	movq	%r14, %rax
	shldq	$40, %r15, %rax
	movq	%rax, %xmm11
	movq	%r14, %rax
	shldq	$48, %r15, %rax
	movq	%rax, %xmm3
	movq	%r14, %rax
	shldq	$56, %r15, %rax
	movq	%rax, %xmm6
	movq	%r15, %xmm0
	movq	%r14, %rax
	shrq	$56, %rax
	movd	%eax, %xmm4
	movq	%r14, %rax
	shrq	$48, %rax
	movd	%eax, %xmm1
	movq	%r14, %rax
	shrq	$40, %rax
	movd	%eax, %xmm5
	movq	%r14, %xmm2
	shrq	$32, %r14
	punpcklbw	%xmm8, %xmm7
	psllq	$48, %xmm7
	punpcklbw	%xmm9, %xmm10
	pshufd	$80, %xmm10, %xmm9
	pblendw	$8, %xmm7, %xmm9
	punpcklbw	%xmm11, %xmm3
	movd	%r14d, %xmm7
	movq	%rdx, %rax
	shldq	$8, %r11, %rax
	movq	%rax, %xmm10
	movq	%rdx, %rax
	shldq	$16, %r11, %rax
	movq	%rax, %xmm8
	movq	%rdx, %rax
	shldq	$24, %r11, %rax
	movq	%rax, %xmm11
	movq	%rdx, %rax
	shldq	$32, %r11, %rax
	movq	%rax, %xmm12
	movq	%rdx, %rax
	shldq	$40, %r11, %rax
	movq	%rax, %xmm13
	movq	%rdx, %rax
	shldq	$48, %r11, %rax
	movq	%rax, %xmm14
	movq	%rdx, %rax
	shldq	$56, %r11, %rax
	movq	%rax, %xmm15
	punpcklbw	%xmm6, %xmm0
	movq	%r11, %xmm6
	movq	%rdx, %rax
	punpcklwd	%xmm3, %xmm0
	shrq	$56, %rax
	movd	%eax, %xmm3
	movq	%rdx, %rax
	pblendw	$12, %xmm9, %xmm0
	shrq	$48, %rax
	movd	%eax, %xmm9
	movq	%rdx, %rax
	punpcklbw	%xmm4, %xmm1
	shrq	$40, %rax
	movd	%eax, %xmm4
	punpcklbw	%xmm5, %xmm7
	movq	%rdx, %xmm5
	pslldq	$14, %xmm1
	pshufd	$0, %xmm7, %xmm7
	pblendw	$128, %xmm1, %xmm7
	shrq	$32, %rdx
	movd	%edx, %xmm1
	pshufd	$68, %xmm2, %xmm2
	pblendw	$192, %xmm7, %xmm2
	pblendw	$15, %xmm0, %xmm2
	movdqu	%xmm2, 4904(%rsp,%r10)
	punpcklbw	%xmm10, %xmm8
	punpcklbw	%xmm11, %xmm12
	psllq	$48, %xmm8
	pshufd	$80, %xmm12, %xmm0
	pblendw	$8, %xmm8, %xmm0
	punpcklbw	%xmm13, %xmm14
	punpcklbw	%xmm15, %xmm6
	punpcklwd	%xmm14, %xmm6
	pblendw	$12, %xmm0, %xmm6
	punpcklbw	%xmm3, %xmm9
	punpcklbw	%xmm4, %xmm1
	pslldq	$14, %xmm9
	pshufd	$0, %xmm1, %xmm0
	pblendw	$128, %xmm9, %xmm0
	pshufd	$68, %xmm5, %xmm1
	pblendw	$192, %xmm0, %xmm1
	pblendw	$15, %xmm6, %xmm1
	movdqu	%xmm1, 4920(%rsp,%r10)
	addq	$32, %r10
	addl	$3, %ecx
	cmpq	%r10, %rbx
	jne	.LBB5_139
	movzwl	248(%rsp), %eax
	movl	%eax, %esi
	xorl	$4, %esi
	movl	68(%rsp), %edi
	movzwl	%di, %edx
	movl	%edx, %ecx
	xorl	$4, %ecx
	orw	%cx, %si
	jne	.LBB5_142
	movq	264(%rsp), %r12
	leal	-1(%r12), %eax
	movq	40(%rsp), %r15
	leal	-2(%r15), %ecx
	leal	-1(%r15), %edx
	movw	%ax, 352(%rsp)
	movw	$0, 354(%rsp)
	movw	%ax, 356(%rsp)
	movw	$1, 358(%rsp)
	movw	%ax, 360(%rsp)
	movl	$2, 362(%rsp)
	movw	%cx, 366(%rsp)
	movw	$0, 368(%rsp)
	movw	%dx, 370(%rsp)
	movw	$1, 372(%rsp)
	movw	%dx, 374(%rsp)
	movw	$2, 376(%rsp)
	movw	%dx, 378(%rsp)
	movw	$3, 380(%rsp)
	movw	%dx, 382(%rsp)
	leaq	480(%rsp), %rdi
	leaq	352(%rsp), %rsi
	callq	"dm_layout::symbols::slots::word_of_cells::<#3c42656d14ec8a1f>"
	movq	128(%rsp), %r14
	jmp	.LBB5_150
.LBB5_165:
	xorl	%eax, %eax
	movq	128(%rsp), %r14
	movq	40(%rsp), %r15
	jmp	.LBB5_150
.LBB5_142:
	xorl	$6, %eax
	xorl	$6, %edx
	orw	%ax, %dx
	movq	128(%rsp), %r14
	movq	40(%rsp), %r15
	movq	264(%rsp), %r12
	jne	.LBB5_144
	leal	-3(%r12), %eax
	leal	-2(%r12), %ecx
	leal	-4(%r15), %edx
	leal	-3(%r15), %esi
	leal	-2(%r15), %edi
	leal	-1(%r15), %r8d
	movw	%ax, 416(%rsp)
	movw	$0, 418(%rsp)
	movw	%cx, 420(%rsp)
	leal	-1(%r12), %eax
	pxor	%xmm0, %xmm0
	pinsrw	$1, %eax, %xmm0
	movq	%xmm0, 422(%rsp)
	movw	%dx, 430(%rsp)
	movw	$0, 432(%rsp)
	movw	%si, 434(%rsp)
	movw	$0, 436(%rsp)
	movw	%di, 438(%rsp)
	movw	$0, 440(%rsp)
	movw	%r8w, 442(%rsp)
	movw	$1, 444(%rsp)
	movw	%r8w, 446(%rsp)
	leaq	480(%rsp), %rdi
	leaq	416(%rsp), %rsi
	jmp	.LBB5_149
.LBB5_41:
	movl	56(%rsp), %ecx
	orw	%ax, %cx
	jne	.LBB5_42
	leal	-1(%r12), %eax
	movzwl	%ax, %eax
	movq	496(%rsp,%rax,8), %rcx
	movl	%ecx, %esi
	shrl	$3, %esi
	andl	$2, %esi
	movl	%r11d, %eax
	orb	$3, %al
	movzbl	%al, %eax
	xorl	%r9d, %r9d
	btq	%rax, %rcx
	setb	%r9b
	movl	%r11d, %edx
	orb	$1, %dl
	movq	496(%rsp), %r8
	movq	%r8, %r10
	movl	%edx, %ecx
	shrq	%cl, %r10
	orl	%esi, %r9d
	movq	504(%rsp), %rdi
	andl	$1, %r10d
	addl	%r10d, %r10d
	leal	(%r10,%r9,4), %ecx
	movl	%r11d, %esi
	orb	$2, %sil
	movzbl	%sil, %esi
	xorl	%r9d, %r9d
	btq	%rsi, %r8
	setb	%r9b
	orl	%ecx, %r9d
	movl	%eax, %ecx
	shrq	%cl, %r8
	addl	%r8d, %r8d
	andl	$2, %r8d
	leal	(%r8,%r9,4), %r8d
	movzbl	%dl, %ecx
	xorl	%edx, %edx
	btq	%rcx, %rdi
	setb	%dl
	movq	%rdi, %r9
	movl	%esi, %ecx
	shrq	%cl, %r9
	orq	%r8, %rdx
	andl	$1, %r9d
	addq	%r9, %r9
	leaq	(%r9,%rdx,4), %rcx
	xorl	%ebp, %ebp
	btq	%rax, %rdi
	setb	%bpl
	orq	%rcx, %rbp
	jmp	.LBB5_44
.LBB5_91:
	orw	%ax, %cx
	jne	.LBB5_93
	movl	%r13d, %ecx
	orb	$3, %cl
	movq	552(%rsp), %rax
	movq	544(%rsp), %r8
	shrdq	%cl, %rax, %r8
	movq	568(%rsp), %rbx
	movq	560(%rsp), %rdx
	shrdq	%cl, %rbx, %rdx
	shrq	%cl, %rbx
	testb	$64, %cl
	cmoveq	%rdx, %rbx
	shrq	%cl, %rax
	testb	$64, %cl
	movq	536(%rsp), %rdx
	movq	528(%rsp), %rdi
	cmoveq	%r8, %rax
	shrdq	%cl, %rdx, %rdi
	shrq	%cl, %rdx
	testb	$64, %cl
	movq	512(%rsp), %r14
	movq	520(%rsp), %r8
	cmoveq	%rdi, %rdx
	movq	%r14, %r9
	shrdq	%cl, %r8, %r9
	movq	%r8, %rdi
	shrq	%cl, %rdi
	testb	$64, %cl
	cmoveq	%r9, %rdi
	leal	-3(%rsi), %ecx
	movzwl	%cx, %ecx
	leal	-2(%rsi), %r9d
	leal	-1(%rsi), %r10d
	shll	$4, %ecx
	movl	512(%rsp,%rcx), %ecx
	movzwl	%r9w, %r9d
	shrl	$3, %ecx
	andl	$2, %ecx
	shll	$4, %r9d
	movl	512(%rsp,%r9), %r9d
	movzwl	%r10w, %r10d
	shrl	$4, %r9d
	andl	$1, %r9d
	orl	%ecx, %r9d
	shll	$4, %r10d
	movl	512(%rsp,%r10), %r10d
	shrl	$3, %r10d
	andl	$2, %r10d
	movl	%r13d, %ecx
	orb	$2, %cl
	movq	%r8, %r11
	shrq	%cl, %r11
	shrdq	%cl, %r8, %r14
	leal	(%r10,%r9,4), %r8d
	jmp	.LBB5_88
.LBB5_144:
	orw	%ax, %cx
	jne	.LBB5_146
	leal	-3(%r12), %eax
	leal	-2(%r12), %ecx
	leal	-2(%r15), %edx
	leal	-1(%r15), %esi
	movw	%ax, 384(%rsp)
	movw	$0, 386(%rsp)
	movw	%cx, 388(%rsp)
	leal	-1(%r12), %eax
	pxor	%xmm0, %xmm0
	pinsrw	$1, %eax, %xmm0
	movq	%xmm0, 390(%rsp)
	movw	%dx, 398(%rsp)
	movw	$0, 400(%rsp)
	movw	%si, 402(%rsp)
	movw	$1, 404(%rsp)
	movw	%si, 406(%rsp)
	movw	$2, 408(%rsp)
	movw	%si, 410(%rsp)
	movw	$3, 412(%rsp)
	movw	%si, 414(%rsp)
	leaq	480(%rsp), %rdi
	leaq	384(%rsp), %rsi
	jmp	.LBB5_149
.LBB5_42:
	xorl	%ebp, %ebp
	jmp	.LBB5_44
.LBB5_93:
	orw	%ax, %r12w
	jne	.LBB5_94
	movl	%r13d, %ecx
	orb	$3, %cl
	movq	536(%rsp), %rbp
	movq	528(%rsp), %r9
	movq	%r9, %rax
	shrdq	%cl, %rbp, %rax
	movq	%rbp, %rbx
	shrq	%cl, %rbx
	testb	$64, %cl
	movq	512(%rsp), %r10
	movq	520(%rsp), %rdi
	cmoveq	%rax, %rbx
	movq	%r10, %rax
	shrdq	%cl, %rdi, %rax
	movq	%rdi, %r8
	shrq	%cl, %r8
	testb	$64, %cl
	cmoveq	%rax, %r8
	leal	-1(%rsi), %eax
	movzwl	%ax, %eax
	shll	$4, %eax
	movq	512(%rsp,%rax), %r14
	movq	520(%rsp,%rax), %r11
	movq	%r14, %rax
	shrdq	%cl, %r11, %rax
	shrq	%cl, %r11
	testb	$64, %cl
	cmoveq	%rax, %r11
	movl	%r13d, %eax
	orb	$1, %al
	movq	%rdi, %r13
	movl	%eax, %ecx
	shrq	%cl, %r13
	movq	%r10, %r12
	shrdq	%cl, %rdi, %r12
	movq	40(%rsp), %rcx
	movl	%ecx, %edx
	orb	$2, %dl
	movl	%edx, %ecx
	shrdq	%cl, %rdi, %r10
	shrq	%cl, %rdi
	shrl	$3, %r14d
	movq	%r9, %rsi
	movl	%eax, %ecx
	shrdq	%cl, %rbp, %rsi
	andl	$2, %r14d
	andl	$1, %r11d
	movq	%r15, 128(%rsp)
	movq	%rbp, %r15
	shrq	%cl, %r15
	movl	%edx, %ecx
	shrdq	%cl, %rbp, %r9
	shrq	%cl, %rbp
	orl	%r14d, %r11d
	testb	$64, %dl
	cmoveq	%r10, %rdi
	cmoveq	%r9, %rbp
	testb	$64, %al
	cmovneq	%r13, %r12
	movq	40(%rsp), %r13
	cmoveq	%rsi, %r15
	movq	56(%rsp), %rsi
	andl	$1, %r12d
	addl	%r12d, %r12d
	leal	(%r12,%r11,4), %eax
	andl	$1, %edi
	orl	%eax, %edi
	addl	%r8d, %r8d
	andl	$2, %r8d
	leal	(%r8,%rdi,4), %eax
	andl	$1, %r15d
	orq	%rax, %r15
	andl	$1, %ebp
	addq	%rbp, %rbp
	leaq	(,%r15,4), %rax
	addq	%rbp, %rax
	movq	128(%rsp), %r15
	jmp	.LBB5_96
.LBB5_146:
	orw	%ax, %di
	jne	.LBB5_147
	movdqa	.LCPI5_0(%rip), %xmm0
	pinsrw	$7, %r15d, %xmm0
	pshufd	$255, %xmm0, %xmm1
	pblendw	$215, .LCPI5_1(%rip), %xmm1
	pinsrw	$0, %r12d, %xmm1
	pshuflw	$196, %xmm1, %xmm1
	paddw	%xmm0, %xmm1
	leal	-1(%r15), %eax
	movdqa	%xmm1, 448(%rsp)
	movw	$0, 464(%rsp)
	movw	%ax, 466(%rsp)
	pshufhw	$237, %xmm1, %xmm0
	pshufd	$170, %xmm0, %xmm0
	movdqa	.LCPI5_2(%rip), %xmm1
	punpcklwd	%xmm0, %xmm1
	movq	%xmm1, 468(%rsp)
	movw	$1, 476(%rsp)
	movw	%ax, 478(%rsp)
	leaq	480(%rsp), %rdi
	leaq	448(%rsp), %rsi
.LBB5_149:
	callq	"dm_layout::symbols::slots::word_of_cells::<#3c42656d14ec8a1f>"
.LBB5_150:
	movzbl	%al, %eax
	leaq	.Lstatic.2(%rip), %rbx
	movzbl	(%rax,%rbx), %eax
	orb	%al, 9128(%rsp)
	leaq	304(%rsp), %rdi
	movl	%r12d, %esi
	movl	%r15d, %edx
	callq	"dm_layout::symbols::slots::order"
	movq	312(%rsp), %rax
	testq	%rax, %rax
	je	.LBB5_157
	movq	304(%rsp), %rcx
	cmpq	$1, %rax
	jne	.LBB5_153
	xorl	%edx, %edx
	jmp	.LBB5_156
.LBB5_153:
	movq	%rax, %rsi
	andq	$-2, %rsi
	xorl	%edx, %edx
	.p2align	4
.LBB5_154:
	movzwl	(%rcx,%rdx,2), %edi
	movzbl	4904(%rsp,%rdi), %edi
	movzbl	(%rdi,%rbx), %edi
	movb	%dil, (%r14,%rdx)
	movzwl	2(%rcx,%rdx,2), %edi
	movzbl	4904(%rsp,%rdi), %edi
	movzbl	(%rdi,%rbx), %edi
	movb	%dil, 1(%r14,%rdx)
	addq	$2, %rdx
	cmpq	%rdx, %rsi
	jne	.LBB5_154
	testb	$1, %al
	je	.LBB5_157
.LBB5_156:
	movzwl	(%rcx,%rdx,2), %ecx
	movzbl	4904(%rsp,%rcx), %ecx
	movzbl	(%rcx,%rbx), %ecx
	movb	%cl, (%r14,%rdx)
.LBB5_157:
	movq	328(%rsp), %rdi
	testq	%rdi, %rdi
	je	.LBB5_164
	movq	320(%rsp), %rdx
	movq	336(%rsp), %rcx
	cmpq	$1, %rdi
	jne	.LBB5_160
	xorl	%esi, %esi
	jmp	.LBB5_163
.LBB5_160:
	movq	%rdi, %r8
	andq	$-2, %r8
	leaq	(%rax,%r14), %r9
	incq	%r9
	xorl	%esi, %esi
	.p2align	4
.LBB5_161:
	movzwl	(%rdx,%rsi,2), %r10d
	subq	%rcx, %r10
	movzbl	4904(%rsp,%r10), %r10d
	movzbl	(%r10,%rbx), %r10d
	movb	%r10b, -1(%r9,%rsi)
	movzwl	2(%rdx,%rsi,2), %r10d
	subq	%rcx, %r10
	movzbl	4904(%rsp,%r10), %r10d
	movzbl	(%r10,%rbx), %r10d
	movb	%r10b, (%r9,%rsi)
	addq	$2, %rsi
	cmpq	%rsi, %r8
	jne	.LBB5_161
	testb	$1, %dil
	je	.LBB5_164
.LBB5_163:
	addq	%rax, %r14
	movzwl	(%rdx,%rsi,2), %eax
	subq	%rcx, %rax
	movzbl	4904(%rsp,%rax), %eax
	movzbl	(%rax,%rbx), %eax
	movb	%al, (%r14,%rsi)
.LBB5_164:
	addq	$9160, %rsp
	.cfi_def_cfa_offset 56
	popq	%rbx
	.cfi_def_cfa_offset 48
	popq	%r12
	.cfi_def_cfa_offset 40
	popq	%r13
	.cfi_def_cfa_offset 32
	popq	%r14
	.cfi_def_cfa_offset 24
	popq	%r15
	.cfi_def_cfa_offset 16
	popq	%rbp
	.cfi_def_cfa_offset 8
	retq
.LBB5_94:
	.cfi_def_cfa_offset 9216
	xorl	%ebx, %ebx
	jmp	.LBB5_97
.LBB5_147:
	xorl	%eax, %eax
	jmp	.LBB5_150
.Lfunc_end5:
	.size	"dm_layout::symbols::placing::lift_to", .Lfunc_end5-"dm_layout::symbols::placing::lift_to"
	.cfi_endproc

	.p2align	4
	.type	"dm_layout::symbols::slots::order",@function
"dm_layout::symbols::slots::order":
	.cfi_startproc
	cmpw	%dx, %si
	jne	.LBB6_7
	leal	-25(%rsi), %eax
	cmpw	$95, %ax
	ja	.LBB6_7
	movl	%esi, %eax
	andl	$7, %eax
	jne	.LBB6_7
	movzwl	%si, %edx
	movl	%edx, %r9d
	imull	%r9d, %r9d
	movl	%r9d, %r8d
	shrl	$4, %r8d
	shrl	$3, %r9d
	cmpw	$56, %si
	ja	.LBB6_6
	leaq	.Lstatic.3(%rip), %rcx
	movq	%rcx, %rax
	subq	%r9, %rax
	addq	$784, %rax
	movl	$56, %r9d
	subl	%edx, %r9d
	shrl	$3, %r9d
	movq	%r9, %rsi
	shlq	$6, %rsi
	jmp	.LBB6_5
.LBB6_7:
	cmpw	%dx, %si
	jne	.LBB6_28
	movzwl	%si, %edx
	leaq	.Lstatic.5(%rip), %rax
	leal	-8(%rdx), %ecx
	cmpl	$100, %ecx
	ja	.LBB6_27
	leaq	.LJTI6_1(%rip), %rsi
	movslq	(%rsi,%rcx,4), %rcx
	addq	%rsi, %rcx
	jmpq	*%rcx
.LBB6_10:
	leaq	.Lstatic.6(%rip), %rcx
	jmp	.LBB6_71
.LBB6_6:
	leaq	.Lstatic.4(%rip), %rcx
	movq	%rcx, %rax
	subq	%r9, %rax
	addq	$3600, %rax
	movl	$120, %r9d
	subl	%edx, %r9d
	shrl	$3, %r9d
	movq	%r9, %rsi
	shlq	$7, %rsi
.LBB6_5:
	addq	%r9, %rsi
	movq	%r8, %rdx
	jmp	.LBB6_72
.LBB6_28:
	addl	$-6, %esi
	rorw	%si
	leaq	.Lstatic.5(%rip), %rax
	cmpw	$8, %si
	ja	.LBB6_66
	movzwl	%si, %ecx
	leaq	.LJTI6_0(%rip), %rsi
	movslq	(%rsi,%rcx,4), %rcx
	addq	%rsi, %rcx
	jmpq	*%rcx
.LBB6_31:
	movzwl	%dx, %ecx
	cmpl	$55, %ecx
	jle	.LBB6_32
	cmpl	$87, %ecx
	jg	.LBB6_41
	cmpl	$56, %ecx
	je	.LBB6_45
	cmpl	$72, %ecx
	jne	.LBB6_47
	leaq	.Lstatic.24(%rip), %rcx
	movl	$54, %edx
	jmp	.LBB6_71
.LBB6_55:
	cmpw	$32, %dx
	je	.LBB6_56
	movzwl	%dx, %ecx
	cmpl	$44, %ecx
	jne	.LBB6_59
	leaq	.Lstatic.33(%rip), %rcx
	movl	$77, %edx
	jmp	.LBB6_71
.LBB6_65:
	cmpw	$44, %dx
	movl	$121, %ecx
	movl	$154, %edx
	cmoveq	%rcx, %rdx
	leaq	.Lstatic.39(%rip), %rsi
	leaq	.Lstatic.40(%rip), %rcx
	cmoveq	%rsi, %rcx
	jmp	.LBB6_71
.LBB6_66:
	cmpw	$36, %dx
	je	.LBB6_67
	movzwl	%dx, %ecx
	cmpl	$44, %ecx
	jne	.LBB6_70
	leaq	.Lstatic.42(%rip), %rcx
	movl	$132, %edx
	jmp	.LBB6_71
.LBB6_48:
	cmpw	$24, %dx
	je	.LBB6_49
	movzwl	%dx, %ecx
	cmpl	$56, %ecx
	je	.LBB6_53
	cmpl	$32, %ecx
	jne	.LBB6_54
	leaq	.Lstatic.29(%rip), %rcx
	movl	$40, %edx
	jmp	.LBB6_71
.LBB6_60:
	cmpw	$32, %dx
	je	.LBB6_61
	movzwl	%dx, %ecx
	cmpl	$40, %ecx
	jne	.LBB6_64
	leaq	.Lstatic.36(%rip), %rcx
	movl	$90, %edx
	jmp	.LBB6_71
.LBB6_30:
	leaq	.Lstatic.38(%rip), %rcx
	movl	$110, %edx
	jmp	.LBB6_71
.LBB6_24:
	leaq	.Lstatic.16(%rip), %rcx
	movl	$162, %edx
	jmp	.LBB6_71
.LBB6_15:
	leaq	.Lstatic.10(%rip), %rcx
	movl	$32, %edx
	jmp	.LBB6_71
.LBB6_26:
	leaq	.Lstatic.18(%rip), %rcx
	movl	$1458, %edx
	jmp	.LBB6_71
.LBB6_16:
	leaq	.Lstatic.11(%rip), %rcx
	movl	$40, %edx
	jmp	.LBB6_71
.LBB6_25:
	leaq	.Lstatic.17(%rip), %rcx
	movl	$242, %edx
	jmp	.LBB6_71
.LBB6_14:
	leaq	.Lstatic.9(%rip), %rcx
	movl	$24, %edx
	jmp	.LBB6_71
.LBB6_27:
	leaq	.Lstatic.19(%rip), %rcx
	movl	$2178, %edx
	jmp	.LBB6_71
.LBB6_13:
	leaq	.Lstatic.8(%rip), %rcx
	movl	$18, %edx
	jmp	.LBB6_71
.LBB6_11:
	leaq	.Lstatic.7(%rip), %rcx
	movl	$12, %edx
	jmp	.LBB6_71
.LBB6_18:
	leaq	.Lstatic.12(%rip), %rcx
	movl	$50, %edx
	jmp	.LBB6_71
.LBB6_19:
	leaq	.Lstatic.13(%rip), %rcx
	movl	$60, %edx
	jmp	.LBB6_71
.LBB6_22:
	leaq	.Lstatic.15(%rip), %rcx
	movl	$98, %edx
	jmp	.LBB6_71
.LBB6_20:
	leaq	.Lstatic.14(%rip), %rcx
	movl	$72, %edx
	jmp	.LBB6_71
.LBB6_32:
	cmpl	$16, %ecx
	je	.LBB6_33
	cmpl	$28, %ecx
	je	.LBB6_44
	cmpl	$44, %ecx
	jne	.LBB6_47
	leaq	.Lstatic.22(%rip), %rcx
	movl	$33, %edx
	jmp	.LBB6_71
.LBB6_56:
	leaq	.Lstatic.32(%rip), %rcx
	movl	$56, %edx
	jmp	.LBB6_71
.LBB6_67:
	leaq	.Lstatic.41(%rip), %rcx
	movl	$108, %edx
	jmp	.LBB6_71
.LBB6_59:
	leaq	.Lstatic.34(%rip), %rcx
	movl	$98, %edx
	jmp	.LBB6_71
.LBB6_61:
	leaq	.Lstatic.35(%rip), %rcx
	movl	$72, %edx
	jmp	.LBB6_71
.LBB6_70:
	leaq	.Lstatic.43(%rip), %rcx
	movl	$168, %edx
	jmp	.LBB6_71
.LBB6_64:
	leaq	.Lstatic.37(%rip), %rcx
	movl	$126, %edx
	jmp	.LBB6_71
.LBB6_41:
	cmpl	$88, %ecx
	je	.LBB6_46
	cmpl	$108, %ecx
	jne	.LBB6_47
	leaq	.Lstatic.26(%rip), %rcx
	movl	$81, %edx
	jmp	.LBB6_71
.LBB6_53:
	leaq	.Lstatic.30(%rip), %rcx
	movl	$70, %edx
	jmp	.LBB6_71
.LBB6_49:
	leaq	.Lstatic.28(%rip), %rcx
	movl	$30, %edx
	jmp	.LBB6_71
.LBB6_54:
	leaq	.Lstatic.31(%rip), %rcx
	movl	$100, %edx
	jmp	.LBB6_71
.LBB6_33:
	leaq	.Lstatic.20(%rip), %rcx
	movl	$12, %edx
	jmp	.LBB6_71
.LBB6_47:
	leaq	.Lstatic.27(%rip), %rcx
	movl	$99, %edx
	jmp	.LBB6_71
.LBB6_45:
	leaq	.Lstatic.23(%rip), %rcx
	movl	$42, %edx
	jmp	.LBB6_71
.LBB6_46:
	leaq	.Lstatic.25(%rip), %rcx
	movl	$66, %edx
	jmp	.LBB6_71
.LBB6_44:
	leaq	.Lstatic.21(%rip), %rcx
	movl	$21, %edx
.LBB6_71:
	xorl	%esi, %esi
	xorl	%r8d, %r8d
.LBB6_72:
	movq	%rcx, (%rdi)
	movq	%rdx, 8(%rdi)
	movq	%rax, 16(%rdi)
	movq	%r8, 24(%rdi)
	movq	%rsi, 32(%rdi)
	retq
.Lfunc_end6:
	.size	"dm_layout::symbols::slots::order", .Lfunc_end6-"dm_layout::symbols::slots::order"
	.cfi_endproc
	.section	.rodata,"a",@progbits
	.p2align	2, 0x0
.LJTI6_0:
	.long	.LBB6_31-.LJTI6_0
	.long	.LBB6_66-.LJTI6_0
	.long	.LBB6_48-.LJTI6_0
	.long	.LBB6_66-.LJTI6_0
	.long	.LBB6_55-.LJTI6_0
	.long	.LBB6_66-.LJTI6_0
	.long	.LBB6_60-.LJTI6_0
	.long	.LBB6_30-.LJTI6_0
	.long	.LBB6_65-.LJTI6_0
.LJTI6_1:
	.long	.LBB6_10-.LJTI6_1
	.long	.LBB6_27-.LJTI6_1
	.long	.LBB6_11-.LJTI6_1
	.long	.LBB6_27-.LJTI6_1
	.long	.LBB6_13-.LJTI6_1
	.long	.LBB6_27-.LJTI6_1
	.long	.LBB6_14-.LJTI6_1
	.long	.LBB6_27-.LJTI6_1
	.long	.LBB6_15-.LJTI6_1
	.long	.LBB6_27-.LJTI6_1
	.long	.LBB6_16-.LJTI6_1
	.long	.LBB6_27-.LJTI6_1
	.long	.LBB6_18-.LJTI6_1
	.long	.LBB6_27-.LJTI6_1
	.long	.LBB6_19-.LJTI6_1
	.long	.LBB6_27-.LJTI6_1
	.long	.LBB6_20-.LJTI6_1
	.long	.LBB6_27-.LJTI6_1
	.long	.LBB6_27-.LJTI6_1
	.long	.LBB6_27-.LJTI6_1
	.long	.LBB6_22-.LJTI6_1
	.long	.LBB6_27-.LJTI6_1
	.long	.LBB6_27-.LJTI6_1
	.long	.LBB6_27-.LJTI6_1
	.long	.LBB6_27-.LJTI6_1
	.long	.LBB6_27-.LJTI6_1
	.long	.LBB6_27-.LJTI6_1
	.long	.LBB6_27-.LJTI6_1
	.long	.LBB6_24-.LJTI6_1
	.long	.LBB6_27-.LJTI6_1
	.long	.LBB6_27-.LJTI6_1
	.long	.LBB6_27-.LJTI6_1
	.long	.LBB6_27-.LJTI6_1
	.long	.LBB6_27-.LJTI6_1
	.long	.LBB6_27-.LJTI6_1
	.long	.LBB6_27-.LJTI6_1
	.long	.LBB6_25-.LJTI6_1
	.long	.LBB6_27-.LJTI6_1
	.long	.LBB6_27-.LJTI6_1
	.long	.LBB6_27-.LJTI6_1
	.long	.LBB6_27-.LJTI6_1
	.long	.LBB6_27-.LJTI6_1
	.long	.LBB6_27-.LJTI6_1
	.long	.LBB6_27-.LJTI6_1
	.long	.LBB6_27-.LJTI6_1
	.long	.LBB6_27-.LJTI6_1
	.long	.LBB6_27-.LJTI6_1
	.long	.LBB6_27-.LJTI6_1
	.long	.LBB6_27-.LJTI6_1
	.long	.LBB6_27-.LJTI6_1
	.long	.LBB6_27-.LJTI6_1
	.long	.LBB6_27-.LJTI6_1
	.long	.LBB6_27-.LJTI6_1
	.long	.LBB6_27-.LJTI6_1
	.long	.LBB6_27-.LJTI6_1
	.long	.LBB6_27-.LJTI6_1
	.long	.LBB6_27-.LJTI6_1
	.long	.LBB6_27-.LJTI6_1
	.long	.LBB6_27-.LJTI6_1
	.long	.LBB6_27-.LJTI6_1
	.long	.LBB6_27-.LJTI6_1
	.long	.LBB6_27-.LJTI6_1
	.long	.LBB6_27-.LJTI6_1
	.long	.LBB6_27-.LJTI6_1
	.long	.LBB6_27-.LJTI6_1
	.long	.LBB6_27-.LJTI6_1
	.long	.LBB6_27-.LJTI6_1
	.long	.LBB6_27-.LJTI6_1
	.long	.LBB6_27-.LJTI6_1
	.long	.LBB6_27-.LJTI6_1
	.long	.LBB6_27-.LJTI6_1
	.long	.LBB6_27-.LJTI6_1
	.long	.LBB6_27-.LJTI6_1
	.long	.LBB6_27-.LJTI6_1
	.long	.LBB6_27-.LJTI6_1
	.long	.LBB6_27-.LJTI6_1
	.long	.LBB6_27-.LJTI6_1
	.long	.LBB6_27-.LJTI6_1
	.long	.LBB6_27-.LJTI6_1
	.long	.LBB6_27-.LJTI6_1
	.long	.LBB6_27-.LJTI6_1
	.long	.LBB6_27-.LJTI6_1
	.long	.LBB6_27-.LJTI6_1
	.long	.LBB6_27-.LJTI6_1
	.long	.LBB6_27-.LJTI6_1
	.long	.LBB6_27-.LJTI6_1
	.long	.LBB6_27-.LJTI6_1
	.long	.LBB6_27-.LJTI6_1
	.long	.LBB6_27-.LJTI6_1
	.long	.LBB6_27-.LJTI6_1
	.long	.LBB6_27-.LJTI6_1
	.long	.LBB6_27-.LJTI6_1
	.long	.LBB6_27-.LJTI6_1
	.long	.LBB6_27-.LJTI6_1
	.long	.LBB6_27-.LJTI6_1
	.long	.LBB6_27-.LJTI6_1
	.long	.LBB6_27-.LJTI6_1
	.long	.LBB6_27-.LJTI6_1
	.long	.LBB6_27-.LJTI6_1
	.long	.LBB6_27-.LJTI6_1
	.long	.LBB6_26-.LJTI6_1

	.text
	.p2align	4
	.type	"dm_layout::symbols::slots::word_of_cells::<#3c42656d14ec8a1f>",@function
"dm_layout::symbols::slots::word_of_cells::<#3c42656d14ec8a1f>":
	.cfi_startproc
	movzwl	(%rsi), %edx
	movzwl	2(%rsi), %ecx
	leal	4(%rcx), %eax
	shll	$5, %edx
	cmpw	$127, %ax
	ja	.LBB7_2
	movq	64(%rdi,%rdx), %r8
	movq	72(%rdi,%rdx), %rdx
	movq	%rdx, %r9
	movl	%eax, %ecx
	shrq	%cl, %r9
	shrdq	%cl, %rdx, %r8
	testb	$64, %al
	cmovneq	%r9, %r8
	jmp	.LBB7_3
.LBB7_2:
	movq	80(%rdi,%rdx), %r8
	movq	88(%rdi,%rdx), %rax
	addb	$-124, %cl
	movq	%rax, %rdx
	shrq	%cl, %rdx
	shrdq	%cl, %rax, %r8
	testb	$64, %cl
	cmovneq	%rdx, %r8
.LBB7_3:
	movzwl	4(%rsi), %edx
	movzwl	6(%rsi), %ecx
	leal	4(%rcx), %eax
	shll	$5, %edx
	movzwl	%ax, %r9d
	cmpl	$128, %r9d
	jae	.LBB7_4
	movq	64(%rdi,%rdx), %r9
	movq	72(%rdi,%rdx), %rdx
	movq	%rdx, %r10
	movl	%eax, %ecx
	shrq	%cl, %r10
	shrdq	%cl, %rdx, %r9
	testb	$64, %al
	cmovneq	%r10, %r9
	jmp	.LBB7_6
.LBB7_4:
	movq	80(%rdi,%rdx), %r9
	movq	88(%rdi,%rdx), %rax
	addb	$-124, %cl
	movq	%rax, %rdx
	shrq	%cl, %rdx
	shrdq	%cl, %rax, %r9
	testb	$64, %cl
	cmovneq	%rdx, %r9
.LBB7_6:
	movzwl	8(%rsi), %edx
	movzwl	10(%rsi), %ecx
	leal	4(%rcx), %eax
	shll	$5, %edx
	movzwl	%ax, %r10d
	cmpl	$128, %r10d
	jae	.LBB7_7
	movq	64(%rdi,%rdx), %r10
	movq	72(%rdi,%rdx), %rdx
	movq	%rdx, %r11
	movl	%eax, %ecx
	shrq	%cl, %r11
	shrdq	%cl, %rdx, %r10
	testb	$64, %al
	cmovneq	%r11, %r10
	jmp	.LBB7_9
.LBB7_7:
	movq	80(%rdi,%rdx), %r10
	movq	88(%rdi,%rdx), %rax
	addb	$-124, %cl
	movq	%rax, %rdx
	shrq	%cl, %rdx
	shrdq	%cl, %rax, %r10
	testb	$64, %cl
	cmovneq	%rdx, %r10
.LBB7_9:
	pushq	%rbp
	.cfi_def_cfa_offset 16
	pushq	%r15
	.cfi_def_cfa_offset 24
	pushq	%r14
	.cfi_def_cfa_offset 32
	pushq	%r12
	.cfi_def_cfa_offset 40
	pushq	%rbx
	.cfi_def_cfa_offset 48
	.cfi_offset %rbx, -48
	.cfi_offset %r12, -40
	.cfi_offset %r14, -32
	.cfi_offset %r15, -24
	.cfi_offset %rbp, -16
	movzwl	12(%rsi), %edx
	movzwl	14(%rsi), %ecx
	leal	4(%rcx), %eax
	shll	$5, %edx
	movzwl	%ax, %r11d
	cmpl	$128, %r11d
	jae	.LBB7_10
	movq	64(%rdi,%rdx), %r11
	movq	72(%rdi,%rdx), %rdx
	movq	%rdx, %rbx
	movl	%eax, %ecx
	shrq	%cl, %rbx
	shrdq	%cl, %rdx, %r11
	testb	$64, %al
	cmovneq	%rbx, %r11
	jmp	.LBB7_12
.LBB7_10:
	movq	80(%rdi,%rdx), %r11
	movq	88(%rdi,%rdx), %rax
	addb	$-124, %cl
	movq	%rax, %rdx
	shrq	%cl, %rdx
	shrdq	%cl, %rax, %r11
	testb	$64, %cl
	cmovneq	%rdx, %r11
.LBB7_12:
	movzwl	16(%rsi), %edx
	movzwl	18(%rsi), %ecx
	leal	4(%rcx), %eax
	shll	$5, %edx
	movzwl	%ax, %ebx
	cmpl	$128, %ebx
	jae	.LBB7_13
	movq	64(%rdi,%rdx), %rbx
	movq	72(%rdi,%rdx), %rdx
	movq	%rdx, %r14
	movl	%eax, %ecx
	shrq	%cl, %r14
	shrdq	%cl, %rdx, %rbx
	testb	$64, %al
	cmovneq	%r14, %rbx
	jmp	.LBB7_15
.LBB7_13:
	movq	80(%rdi,%rdx), %rbx
	movq	88(%rdi,%rdx), %rax
	addb	$-124, %cl
	movq	%rax, %rdx
	shrq	%cl, %rdx
	shrdq	%cl, %rax, %rbx
	testb	$64, %cl
	cmovneq	%rdx, %rbx
.LBB7_15:
	movzwl	20(%rsi), %edx
	movzwl	22(%rsi), %ecx
	leal	4(%rcx), %eax
	shll	$5, %edx
	movzwl	%ax, %ebp
	cmpl	$128, %ebp
	jae	.LBB7_16
	movq	64(%rdi,%rdx), %r14
	movq	72(%rdi,%rdx), %rdx
	movq	%rdx, %r15
	movl	%eax, %ecx
	shrq	%cl, %r15
	shrdq	%cl, %rdx, %r14
	testb	$64, %al
	cmovneq	%r15, %r14
	jmp	.LBB7_18
.LBB7_16:
	movq	80(%rdi,%rdx), %r14
	movq	88(%rdi,%rdx), %rax
	addb	$-124, %cl
	movq	%rax, %rdx
	shrq	%cl, %rdx
	shrdq	%cl, %rax, %r14
	testb	$64, %cl
	cmovneq	%rdx, %r14
.LBB7_18:
	movzwl	24(%rsi), %edx
	movzwl	26(%rsi), %ecx
	leal	4(%rcx), %eax
	shll	$5, %edx
	movzwl	%ax, %ebp
	cmpl	$128, %ebp
	jae	.LBB7_19
	movq	64(%rdi,%rdx), %r15
	movq	72(%rdi,%rdx), %rdx
	movq	%rdx, %r12
	movl	%eax, %ecx
	shrq	%cl, %r12
	shrdq	%cl, %rdx, %r15
	testb	$64, %al
	cmovneq	%r12, %r15
	jmp	.LBB7_21
.LBB7_19:
	movq	80(%rdi,%rdx), %r15
	movq	88(%rdi,%rdx), %rax
	addb	$-124, %cl
	movq	%rax, %rdx
	shrq	%cl, %rdx
	shrdq	%cl, %rax, %r15
	testb	$64, %cl
	cmovneq	%rdx, %r15
.LBB7_21:
	movzwl	28(%rsi), %r12d
	movzwl	30(%rsi), %ecx
	leal	4(%rcx), %edx
	shll	$5, %r12d
	movzwl	%dx, %eax
	cmpl	$128, %eax
	jae	.LBB7_22
	movq	64(%rdi,%r12), %rax
	movq	72(%rdi,%r12), %rsi
	movq	%rsi, %rdi
	movl	%edx, %ecx
	shrq	%cl, %rdi
	shrdq	%cl, %rsi, %rax
	testb	$64, %dl
	cmovneq	%rdi, %rax
	jmp	.LBB7_24
.LBB7_22:
	movq	80(%rdi,%r12), %rax
	movq	88(%rdi,%r12), %rdx
	addb	$-124, %cl
	movq	%rdx, %rsi
	shrq	%cl, %rsi
	shrdq	%cl, %rdx, %rax
	testb	$64, %cl
	cmovneq	%rsi, %rax
.LBB7_24:
	andb	$1, %r14b
	andb	$1, %r11b
	andb	$1, %r9b
	addb	%r8b, %r8b
	andb	$2, %r8b
	orb	%r9b, %r8b
	shlb	$2, %r8b
	addb	%r10b, %r10b
	andb	$2, %r10b
	orb	%r8b, %r10b
	orb	%r11b, %r10b
	shlb	$2, %r10b
	addb	%bl, %bl
	andb	$2, %bl
	orb	%r10b, %bl
	orb	%r14b, %bl
	shlb	$2, %bl
	addb	%r15b, %r15b
	andb	$2, %r15b
	orb	%bl, %r15b
	andb	$1, %al
	orb	%r15b, %al
	popq	%rbx
	.cfi_def_cfa_offset 40
	popq	%r12
	.cfi_def_cfa_offset 32
	popq	%r14
	.cfi_def_cfa_offset 24
	popq	%r15
	.cfi_def_cfa_offset 16
	popq	%rbp
	.cfi_def_cfa_offset 8
	retq
.Lfunc_end7:
	.size	"dm_layout::symbols::slots::word_of_cells::<#3c42656d14ec8a1f>", .Lfunc_end7-"dm_layout::symbols::slots::word_of_cells::<#3c42656d14ec8a1f>"
	.cfi_endproc

	.section	.rodata.cst16,"aM",@progbits,16
	.p2align	4, 0x0
.LCPI8_0:
	.zero	16,15
	.text
	.p2align	4
	.type	"dm_symbol::symbol::correction::restore_block",@function
"dm_symbol::symbol::correction::restore_block":
	.cfi_startproc
	pushq	%rbp
	.cfi_def_cfa_offset 16
	pushq	%r15
	.cfi_def_cfa_offset 24
	pushq	%r14
	.cfi_def_cfa_offset 32
	pushq	%r13
	.cfi_def_cfa_offset 40
	pushq	%r12
	.cfi_def_cfa_offset 48
	pushq	%rbx
	.cfi_def_cfa_offset 56
	subq	$3072, %rsp
	.cfi_adjust_cfa_offset 3072
	movq	$0, (%rsp)
	subq	$3016, %rsp
	.cfi_def_cfa_offset 6144
	.cfi_offset %rbx, -56
	.cfi_offset %r12, -48
	.cfi_offset %r13, -40
	.cfi_offset %r14, -32
	.cfi_offset %r15, -24
	.cfi_offset %rbp, -16
	movq	%r9, 8(%rsp)
	movq	%rcx, %r13
	movq	%rdx, %rbx
	movzwl	14(%rsi), %ebp
	movzwl	16(%rsi), %r14d
	cmpb	$0, (%r8)
	movq	%rdi, 248(%rsp)
	je	.LBB8_5
	movq	%rbx, 32(%rsp)
	movq	8(%r8), %rbx
	movq	16(%r8), %r15
	leaq	2664(%rsp), %rdi
	movl	$272, %edx
	xorl	%esi, %esi
	callq	memset@PLT
	leaq	5817(%rsp), %rdi
	movl	$271, %edx
	xorl	%esi, %esi
	callq	memset@PLT
	movl	$0, 16(%rsp)
	movb	$0, 20(%rsp)
	leaq	5288(%rsp), %rdi
	movl	$264, %edx
	xorl	%esi, %esi
	callq	memset@PLT
	leaq	4224(%rsp), %rdi
	movl	$264, %edx
	xorl	%esi, %esi
	callq	memset@PLT
	testq	%r14, %r14
	je	.LBB8_189
	movl	%ebp, %eax
	xorl	%edx, %edx
	divw	%r14w
	movl	%eax, %ebp
	leaq	256(%rsp), %rdi
	movl	$264, %edx
	xorl	%esi, %esi
	callq	memset@PLT
	movq	8(%rsp), %r12
	notq	%r12
	addq	%r14, %r12
	addq	%r12, %r15
	cmpq	%r14, %r15
	jb	.LBB8_21
	movq	%r15, %rax
	shrq	$32, %rax
	je	.LBB8_12
	movq	%r15, %rax
	xorl	%edx, %edx
	divq	%r14
	jmp	.LBB8_13
.LBB8_5:
	testq	%r14, %r14
	je	.LBB8_189
	movl	%ebp, %eax
	xorl	%edx, %edx
	divw	%r14w
	movl	%eax, %r15d
	leaq	3712(%rsp), %rdi
	movl	$264, %edx
	xorl	%esi, %esi
	callq	memset@PLT
	movzwl	%r15w, %r12d
	cmpq	$1, %r14
	jne	.LBB8_9
	xorps	%xmm0, %xmm0
	movaps	%xmm0, 1568(%rsp)
	movaps	%xmm0, 1584(%rsp)
	movaps	%xmm0, 1600(%rsp)
	movaps	%xmm0, 1616(%rsp)
	movaps	%xmm0, 1632(%rsp)
	movaps	%xmm0, 1648(%rsp)
	movq	%r13, %rdx
	subq	%r12, %rdx
	leaq	(%rbx,%rdx), %rbp
	leaq	1568(%rsp), %rdi
	movq	%rbx, %rsi
	movq	%r12, %rcx
	callq	"dm_code::encoding::divide"
	xorps	%xmm0, %xmm0
	movaps	%xmm0, 336(%rsp)
	movaps	%xmm0, 320(%rsp)
	movaps	%xmm0, 304(%rsp)
	movaps	%xmm0, 288(%rsp)
	movaps	%xmm0, 272(%rsp)
	movaps	%xmm0, 256(%rsp)
	leaq	256(%rsp), %rdi
	movq	%rbp, %rsi
	movq	%r12, %rdx
	callq	memcpy@PLT
	movaps	1568(%rsp), %xmm0
	movdqa	1584(%rsp), %xmm1
	movdqa	1600(%rsp), %xmm2
	movdqa	1616(%rsp), %xmm3
	xorps	256(%rsp), %xmm0
	pxor	272(%rsp), %xmm1
	movaps	%xmm0, 1568(%rsp)
	movdqa	%xmm1, 1584(%rsp)
	pxor	288(%rsp), %xmm2
	movdqa	%xmm2, 1600(%rsp)
	pxor	304(%rsp), %xmm3
	movdqa	%xmm3, 1616(%rsp)
	movdqa	1632(%rsp), %xmm0
	pxor	320(%rsp), %xmm0
	movdqa	%xmm0, 1632(%rsp)
	movdqa	1648(%rsp), %xmm4
	pxor	336(%rsp), %xmm4
	movdqa	%xmm4, 1648(%rsp)
	por	1568(%rsp), %xmm1
	por	%xmm2, %xmm3
	por	%xmm1, %xmm3
	por	%xmm0, %xmm4
	por	%xmm3, %xmm4
	ptest	%xmm4, %xmm4
	je	.LBB8_104
	leaq	1568(%rsp), %rcx
	leaq	3712(%rsp), %r9
	movq	%rbx, %rdi
	movq	%r13, %rsi
	jmp	.LBB8_102
.LBB8_9:
	leaq	256(%rsp), %rdi
	movl	$264, %edx
	xorl	%esi, %esi
	callq	memset@PLT
	movq	8(%rsp), %rax
	notq	%rax
	addq	%rax, %r13
	addq	%r14, %r13
	jb	.LBB8_100
	movq	%r13, %rax
	shrq	$32, %rax
	je	.LBB8_91
	movq	%r13, %rax
	xorl	%edx, %edx
	divq	%r14
	jmp	.LBB8_92
.LBB8_12:
	movl	%r15d, %eax
	xorl	%edx, %edx
	divl	%r14d
.LBB8_13:
	cmpq	$1, %rax
	movq	%rax, %rdx
	adcq	$0, %rdx
	movl	%edx, %ecx
	andl	$3, %ecx
	cmpq	$4, %rax
	jae	.LBB8_15
	xorl	%eax, %eax
	jmp	.LBB8_19
.LBB8_15:
	movq	8(%rsp), %rax
	leaq	(%rbx,%rax), %rsi
	andq	$-4, %rdx
	leaq	(%r14,%r14,2), %rdi
	leal	(,%r14,4), %r8d
	negq	%rdx
	movl	$2, %eax
	.p2align	4
.LBB8_16:
	movzbl	(%rsi), %r9d
	movb	%r9b, 254(%rsp,%rax)
	leaq	-1(%rax), %r9
	movq	%r9, 512(%rsp)
	movzbl	(%rsi,%r14), %r9d
	movb	%r9b, 255(%rsp,%rax)
	movq	%rax, 512(%rsp)
	movzbl	(%rsi,%r14,2), %r9d
	movb	%r9b, 256(%rsp,%rax)
	leaq	1(%rax), %r9
	movq	%r9, 512(%rsp)
	movzbl	(%rsi,%rdi), %r9d
	movb	%r9b, 257(%rsp,%rax)
	leaq	2(%rax), %r9
	movq	%r9, 512(%rsp)
	addq	%r8, %rsi
	leaq	(%rdx,%rax), %r9
	addq	$4, %r9
	addq	$4, %rax
	cmpq	$2, %r9
	jne	.LBB8_16
	testq	%rcx, %rcx
	je	.LBB8_21
	addq	$-2, %rax
.LBB8_19:
	leaq	1(%rax), %rdx
	imulq	%r14, %rax
	addq	8(%rsp), %rax
	addq	%rax, %rbx
	.p2align	4
.LBB8_20:
	movzbl	(%rbx), %eax
	movb	%al, 255(%rsp,%rdx)
	movq	%rdx, 512(%rsp)
	incq	%rdx
	addq	%r14, %rbx
	decq	%rcx
	jne	.LBB8_20
.LBB8_21:
	leaq	3200(%rsp), %rdi
	leaq	256(%rsp), %rsi
	movl	$264, %edx
	callq	memcpy@PLT
	leaq	256(%rsp), %rdi
	movl	$264, %edx
	xorl	%esi, %esi
	callq	memset@PLT
	movq	3456(%rsp), %rcx
	testq	%rcx, %rcx
	movq	32(%rsp), %rbx
	je	.LBB8_28
	cmpq	$1, %rcx
	jne	.LBB8_24
	xorl	%eax, %eax
	jmp	.LBB8_27
.LBB8_24:
	movq	%rcx, %rdx
	andq	$-2, %rdx
	xorl	%eax, %eax
	.p2align	4
.LBB8_25:
	cmpb	$0, 3200(%rsp,%rax)
	setne	256(%rsp,%rax)
	leaq	1(%rax), %rsi
	cmpb	$0, 3201(%rsp,%rax)
	movq	%rsi, 512(%rsp)
	setne	257(%rsp,%rax)
	addq	$2, %rax
	movq	%rax, 512(%rsp)
	cmpq	%rax, %rdx
	jne	.LBB8_25
	testb	$1, %cl
	je	.LBB8_28
.LBB8_27:
	cmpb	$0, 3200(%rsp,%rax)
	setne	256(%rsp,%rax)
	incq	%rax
	movq	%rax, 512(%rsp)
.LBB8_28:
	movzwl	%bp, %r15d
	leaq	4488(%rsp), %rdi
	leaq	256(%rsp), %rsi
	movl	$264, %edx
	callq	memcpy@PLT
	leaq	256(%rsp), %rdi
	movl	$264, %edx
	xorl	%esi, %esi
	callq	memset@PLT
	addq	%r13, %r12
	movq	8(%rsp), %rax
	leaq	(%rbx,%rax), %r10
	cmpq	%r14, %r12
	jb	.LBB8_40
	movq	%r12, %rax
	shrq	$32, %rax
	je	.LBB8_31
	movq	%r12, %rax
	xorl	%edx, %edx
	divq	%r14
	jmp	.LBB8_32
.LBB8_31:
	movl	%r12d, %eax
	xorl	%edx, %edx
	divl	%r14d
.LBB8_32:
	cmpq	$1, %rax
	movq	%rax, %rdx
	adcq	$0, %rdx
	movl	%edx, %ecx
	andl	$3, %ecx
	cmpq	$4, %rax
	jae	.LBB8_34
	xorl	%eax, %eax
	jmp	.LBB8_38
.LBB8_34:
	andq	$-4, %rdx
	leaq	(%r14,%r14,2), %rsi
	leal	(,%r14,4), %edi
	negq	%rdx
	movl	$2, %eax
	movq	%r10, %r8
	.p2align	4
.LBB8_35:
	movzbl	(%r8), %r9d
	movb	%r9b, 254(%rsp,%rax)
	leaq	-1(%rax), %r9
	movq	%r9, 512(%rsp)
	movzbl	(%r8,%r14), %r9d
	movb	%r9b, 255(%rsp,%rax)
	movq	%rax, 512(%rsp)
	movzbl	(%r8,%r14,2), %r9d
	movb	%r9b, 256(%rsp,%rax)
	leaq	1(%rax), %r9
	movq	%r9, 512(%rsp)
	movzbl	(%r8,%rsi), %r9d
	movb	%r9b, 257(%rsp,%rax)
	leaq	2(%rax), %r9
	movq	%r9, 512(%rsp)
	addq	%rdi, %r8
	leaq	(%rdx,%rax), %r9
	addq	$4, %r9
	addq	$4, %rax
	cmpq	$2, %r9
	jne	.LBB8_35
	testq	%rcx, %rcx
	je	.LBB8_40
	addq	$-2, %rax
.LBB8_38:
	leaq	1(%rax), %rdx
	imulq	%r14, %rax
	movq	8(%rsp), %rsi
	addq	%rbx, %rsi
	addq	%rsi, %rax
	.p2align	4
.LBB8_39:
	movzbl	(%rax), %esi
	movb	%sil, 255(%rsp,%rdx)
	movq	%rdx, 512(%rsp)
	incq	%rdx
	addq	%r14, %rax
	decq	%rcx
	jne	.LBB8_39
.LBB8_40:
	movq	%r10, 56(%rsp)
	leaq	5288(%rsp), %rbx
	leaq	256(%rsp), %rsi
	movl	$264, %edx
	movq	%rbx, %rdi
	callq	memcpy@PLT
	leaq	4224(%rsp), %rdi
	movl	$264, %edx
	movq	%rbx, %rsi
	callq	memcpy@PLT
	movq	4480(%rsp), %rbp
	movq	4744(%rsp), %rbx
	leaq	4753(%rsp), %rdi
	movl	$271, %edx
	xorl	%esi, %esi
	callq	memset@PLT
	movl	$0, 24(%rsp)
	movb	$0, 28(%rsp)
	leaq	256(%rsp), %rdi
	movl	$264, %edx
	xorl	%esi, %esi
	callq	memset@PLT
	testq	%rbx, %rbx
	je	.LBB8_52
	cmpq	$1, %rbx
	jne	.LBB8_43
	xorl	%eax, %eax
	xorl	%ecx, %ecx
	jmp	.LBB8_50
.LBB8_43:
	movq	%rbx, %rdx
	andq	$-2, %rdx
	xorl	%eax, %eax
	xorl	%ecx, %ecx
	jmp	.LBB8_45
	.p2align	4
.LBB8_44:
	addq	$2, %rcx
	cmpq	%rcx, %rdx
	je	.LBB8_49
.LBB8_45:
	cmpb	$1, 4488(%rsp,%rcx)
	jne	.LBB8_47
	movb	%cl, 256(%rsp,%rax)
	incq	%rax
	movq	%rax, 512(%rsp)
.LBB8_47:
	cmpb	$1, 4489(%rsp,%rcx)
	jne	.LBB8_44
	leal	1(%rcx), %esi
	movb	%sil, 256(%rsp,%rax)
	incq	%rax
	movq	%rax, 512(%rsp)
	jmp	.LBB8_44
.LBB8_49:
	testb	$1, %bl
	je	.LBB8_52
.LBB8_50:
	cmpb	$1, 4488(%rsp,%rcx)
	jne	.LBB8_52
	movb	%cl, 256(%rsp,%rax)
	incq	%rax
	movq	%rax, 512(%rsp)
.LBB8_52:
	leaq	2936(%rsp), %rdi
	leaq	256(%rsp), %rsi
	movl	$264, %edx
	callq	memcpy@PLT
	movq	3192(%rsp), %r13
	movq	%r15, %r12
	subq	%r13, %r12
	jb	.LBB8_81
	leaq	2384(%rsp), %rdi
	movl	$280, %edx
	xorl	%esi, %esi
	callq	memset@PLT
	leaq	3712(%rsp), %rdi
	movl	$512, %edx
	xorl	%esi, %esi
	callq	memset@PLT
	leaq	1840(%rsp), %rdi
	movl	$280, %edx
	xorl	%esi, %esi
	callq	memset@PLT
	testq	%r13, %r13
	je	.LBB8_80
	pxor	%xmm0, %xmm0
	movdqu	%xmm0, 257(%rsp)
	movdqu	%xmm0, 273(%rsp)
	movdqu	%xmm0, 289(%rsp)
	movdqu	%xmm0, 305(%rsp)
	movdqu	%xmm0, 321(%rsp)
	movb	$1, 256(%rsp)
	xorl	%eax, %eax
	testb	$15, %r13b
	setne	%al
	shll	$4, %eax
	addq	%r13, %rax
	shrq	$4, %rax
	je	.LBB8_63
	leaq	(%rsp,%r13), %rcx
	addq	$2936, %rcx
	movq	%rax, %rdx
	andq	$-2, %rdx
	xorl	%esi, %esi
	jmp	.LBB8_59
	.p2align	4
.LBB8_56:
	xorl	%edi, %edi
.LBB8_57:
	shlq	$4, %rdi
	movdqu	1312(%rsp,%rdi), %xmm2
	movdqa	.LCPI8_0(%rip), %xmm3
	movdqa	%xmm2, %xmm4
	pand	%xmm3, %xmm4
	pshufb	%xmm4, %xmm1
	psrlw	$4, %xmm2
	pand	%xmm3, %xmm2
	pshufb	%xmm2, %xmm0
	pxor	%xmm1, %xmm0
	movdqu	257(%rsp,%rdi), %xmm1
	pxor	%xmm0, %xmm1
	movdqu	%xmm1, 257(%rsp,%rdi)
.LBB8_58:
	incq	%rsi
	cmpq	%r13, %rsi
	je	.LBB8_63
.LBB8_59:
	movq	%rsi, %rdi
	notq	%rdi
	movzbl	(%rcx,%rdi), %edi
	notl	%edi
	addl	%ebp, %edi
	movzwl	%di, %r8d
	imull	$32897, %r8d, %r8d
	shrl	$23, %r8d
	movl	%r8d, %r9d
	shll	$8, %r9d
	subl	%r9d, %r8d
	addl	%edi, %r8d
	movzwl	%r8w, %edi
	leaq	.Lstatic.49(%rip), %r8
	movzbl	(%rdi,%r8), %edi
	shll	$4, %edi
	movzbl	336(%rsp), %r8d
	movb	%r8b, 1392(%rsp)
	movups	320(%rsp), %xmm0
	movaps	%xmm0, 1376(%rsp)
	movups	256(%rsp), %xmm0
	movups	272(%rsp), %xmm1
	movdqu	288(%rsp), %xmm2
	movdqu	304(%rsp), %xmm3
	movdqa	%xmm3, 1360(%rsp)
	movdqa	%xmm2, 1344(%rsp)
	movaps	%xmm1, 1328(%rsp)
	movaps	%xmm0, 1312(%rsp)
	leaq	.Lstatic.44(%rip), %r8
	movdqu	(%rdi,%r8), %xmm1
	leaq	.Lstatic.45(%rip), %r8
	movdqu	(%rdi,%r8), %xmm0
	cmpq	$1, %rax
	je	.LBB8_56
	movl	$16, %r8d
	xorl	%edi, %edi
	.p2align	4
.LBB8_61:
	movdqa	.LCPI8_0(%rip), %xmm2
	movdqu	1296(%rsp,%r8), %xmm3
	movdqu	1312(%rsp,%r8), %xmm4
	movdqa	%xmm3, %xmm5
	pand	%xmm2, %xmm5
	movdqa	%xmm1, %xmm6
	pshufb	%xmm5, %xmm6
	psrlw	$4, %xmm3
	pand	%xmm2, %xmm3
	movdqa	%xmm0, %xmm5
	pshufb	%xmm3, %xmm5
	movdqu	241(%rsp,%r8), %xmm3
	pxor	%xmm6, %xmm3
	pxor	%xmm5, %xmm3
	movdqu	257(%rsp,%r8), %xmm5
	movdqu	%xmm3, 241(%rsp,%r8)
	movdqa	%xmm4, %xmm3
	pand	%xmm2, %xmm3
	movdqa	%xmm1, %xmm6
	pshufb	%xmm3, %xmm6
	pxor	%xmm5, %xmm6
	psrlw	$4, %xmm4
	pand	%xmm2, %xmm4
	movdqa	%xmm0, %xmm2
	pshufb	%xmm4, %xmm2
	pxor	%xmm6, %xmm2
	movdqu	%xmm2, 257(%rsp,%r8)
	addq	$2, %rdi
	addq	$32, %r8
	cmpq	%rdi, %rdx
	jne	.LBB8_61
	testb	$1, %al
	jne	.LBB8_57
	jmp	.LBB8_58
.LBB8_63:
	movq	%r15, 48(%rsp)
	movzbl	336(%rsp), %eax
	movb	%al, 944(%rsp)
	movups	320(%rsp), %xmm0
	movaps	%xmm0, 928(%rsp)
	movzbl	256(%rsp), %eax
	movq	257(%rsp), %rcx
	movl	265(%rsp), %edx
	movzwl	269(%rsp), %esi
	movzbl	271(%rsp), %edi
	movdqu	272(%rsp), %xmm0
	movdqu	288(%rsp), %xmm1
	movdqu	304(%rsp), %xmm2
	movdqa	%xmm2, 912(%rsp)
	movdqa	%xmm1, 896(%rsp)
	movdqa	%xmm0, 880(%rsp)
	movb	%al, 864(%rsp)
	movq	%rcx, 865(%rsp)
	movl	%edx, 873(%rsp)
	movw	%si, 877(%rsp)
	movb	%dil, 879(%rsp)
	leaq	1(%r13), %rdx
	leaq	3712(%rsp), %rbx
	leaq	864(%rsp), %rsi
	movq	%rbx, %rdi
	movq	%rbp, %rcx
	callq	"dm_code::weighing::at_places"
	leaq	3200(%rsp), %rdi
	movl	$512, %edx
	movq	%rbx, %rsi
	callq	memcpy@PLT
	leaq	256(%rsp), %rdi
	movl	$264, %edx
	xorl	%esi, %esi
	callq	memset@PLT
	testq	%rbp, %rbp
	je	.LBB8_66
	movl	$1, %eax
	movq	%rbp, %rcx
	.p2align	4
.LBB8_65:
	movzbl	4223(%rsp,%rax), %edx
	movzbl	3199(%rsp,%rcx), %esi
	shll	$4, %edx
	movl	%esi, %edi
	andl	$15, %edi
	leaq	.Lstatic.44(%rip), %r8
	addq	%rdx, %r8
	shrl	$4, %esi
	leaq	.Lstatic.45(%rip), %r9
	addq	%rdx, %r9
	movzbl	(%rsi,%r9), %edx
	xorb	(%rdi,%r8), %dl
	movb	%dl, 255(%rsp,%rax)
	movq	%rax, 512(%rsp)
	incq	%rax
	decq	%rcx
	jne	.LBB8_65
.LBB8_66:
	leaq	5552(%rsp), %rbx
	leaq	256(%rsp), %rsi
	movl	$264, %edx
	movq	%rbx, %rdi
	callq	memcpy@PLT
	leaq	5024(%rsp), %r15
	movl	$264, %edx
	movq	%r15, %rdi
	movq	%rbx, %rsi
	callq	memcpy@PLT
	movq	5280(%rsp), %rdx
	leaq	1840(%rsp), %rdi
	movq	%r15, %rsi
	movq	%r12, %rcx
	callq	"dm_code::erasures::correct_rest::<#9f76af21849881bb>"
	cmpb	$0, 1840(%rsp)
	jne	.LBB8_81
	leaq	1848(%rsp), %rsi
	leaq	1568(%rsp), %rdi
	movl	$272, %edx
	callq	memcpy@PLT
	xorl	%eax, %eax
	movq	1824(%rsp), %r15
	.p2align	4
.LBB8_68:
	movzbl	2936(%rsp,%rax), %ecx
	cmpb	$0, 1568(%rsp,%rcx)
	jne	.LBB8_81
	incq	%rax
	cmpq	%rax, %r13
	jne	.LBB8_68
	leaq	256(%rsp), %rdi
	movl	$264, %edx
	xorl	%esi, %esi
	callq	memset@PLT
	cmpq	$255, %rbp
	ja	.LBB8_72
	leaq	256(%rsp), %rdi
	leaq	4224(%rsp), %rsi
	movq	%rbp, %rdx
	callq	memcpy@PLT
	movq	%rbp, 512(%rsp)
.LBB8_72:
	leaq	5552(%rsp), %rbx
	leaq	256(%rsp), %rsi
	movl	$264, %edx
	movq	%rbx, %rdi
	callq	memcpy@PLT
	leaq	2120(%rsp), %rdi
	movl	$264, %edx
	movq	%rbx, %rsi
	callq	memcpy@PLT
	testq	%r15, %r15
	je	.LBB8_83
	xorl	%eax, %eax
	jmp	.LBB8_77
	.p2align	4
.LBB8_74:
	leaq	.Lstatic.48(%rip), %rsi
	movzbl	(%rdx,%rsi), %esi
	xorl	$255, %esi
	leal	-255(%rsi), %edi
	cmpq	$1, %rdx
	cmovnel	%esi, %edi
	movzwl	%di, %edx
	leaq	.Lstatic.49(%rip), %rsi
	movzbl	(%rdx,%rsi), %edx
	shll	$4, %ecx
	movl	%edx, %esi
	andl	$15, %esi
	leaq	.Lstatic.44(%rip), %rdi
	addq	%rcx, %rdi
	shrl	$4, %edx
	leaq	.Lstatic.45(%rip), %r8
	addq	%rcx, %r8
	movzbl	(%rdx,%r8), %ecx
	xorb	(%rsi,%rdi), %cl
.LBB8_75:
	movb	%cl, 2120(%rsp,%rax)
.LBB8_76:
	incq	%rax
	decq	%r15
	je	.LBB8_83
.LBB8_77:
	movzbl	1568(%rsp,%rax), %ecx
	cmpb	5024(%rsp,%rax), %cl
	je	.LBB8_76
	movzbl	3199(%rsp,%r15), %edx
	testq	%rdx, %rdx
	jne	.LBB8_74
	xorl	%ecx, %ecx
	jmp	.LBB8_75
.LBB8_80:
	leaq	2384(%rsp), %rdi
	leaq	4224(%rsp), %rsi
	movq	%rbp, %rdx
	movq	%r15, %rcx
	callq	"dm_code::erasures::correct_rest::<#9f76af21849881bb>"
	leaq	2392(%rsp), %rsi
	leaq	4760(%rsp), %rdi
	movzbl	2384(%rsp), %ebx
	movl	$264, %edx
	callq	memcpy@PLT
	testb	%bl, %bl
	je	.LBB8_82
.LBB8_81:
	xorl	%r11d, %r11d
	xorl	%r15d, %r15d
	xorl	%r13d, %r13d
	xorl	%eax, %eax
	jmp	.LBB8_107
.LBB8_82:
	movq	%r15, 48(%rsp)
	xorl	%r15d, %r15d
	movzbl	2656(%rsp), %r13d
	jmp	.LBB8_157
.LBB8_83:
	movq	2376(%rsp), %r15
	pxor	%xmm0, %xmm0
	movdqa	%xmm0, 960(%rsp)
	movdqa	%xmm0, 976(%rsp)
	movdqa	%xmm0, 992(%rsp)
	movdqa	%xmm0, 1008(%rsp)
	movdqa	%xmm0, 1024(%rsp)
	movdqa	%xmm0, 1040(%rsp)
	movdqa	%xmm0, 1056(%rsp)
	movdqa	%xmm0, 1072(%rsp)
	movdqa	%xmm0, 1088(%rsp)
	movdqa	%xmm0, 1104(%rsp)
	movdqa	%xmm0, 1120(%rsp)
	movdqa	%xmm0, 1312(%rsp)
	movdqa	%xmm0, 1328(%rsp)
	movdqa	%xmm0, 1344(%rsp)
	movdqa	%xmm0, 1360(%rsp)
	movdqa	%xmm0, 1376(%rsp)
	movdqa	%xmm0, 1392(%rsp)
	movdqa	%xmm0, 1408(%rsp)
	movdqa	%xmm0, 1424(%rsp)
	movdqa	%xmm0, 1440(%rsp)
	movdqa	%xmm0, 1456(%rsp)
	movdqa	%xmm0, 1472(%rsp)
	movdqa	%xmm0, 1488(%rsp)
	movdqa	%xmm0, 1504(%rsp)
	movdqa	%xmm0, 1520(%rsp)
	movdqa	%xmm0, 1536(%rsp)
	movdqa	%xmm0, 1552(%rsp)
	movdqa	%xmm0, 1296(%rsp)
	movdqa	%xmm0, 1280(%rsp)
	movdqa	%xmm0, 1264(%rsp)
	movdqa	%xmm0, 1248(%rsp)
	movdqa	%xmm0, 1232(%rsp)
	movdqa	%xmm0, 1216(%rsp)
	leaq	256(%rsp), %rdi
	xorl	%ebx, %ebx
	movl	$512, %edx
	xorl	%esi, %esi
	callq	memset@PLT
	leaq	-1(%r13), %rcx
	movl	%r13d, %eax
	andl	$3, %eax
	cmpq	$3, %rcx
	jb	.LBB8_87
	movq	%r13, %rcx
	andq	$-4, %rcx
	xorl	%ebx, %ebx
	.p2align	4
.LBB8_85:
	movzbl	2936(%rsp,%rbx), %edx
	movb	$0, 2120(%rsp,%rdx)
	movzbl	2937(%rsp,%rbx), %edx
	movb	$0, 2120(%rsp,%rdx)
	movzbl	2938(%rsp,%rbx), %edx
	movb	$0, 2120(%rsp,%rdx)
	movzbl	2939(%rsp,%rbx), %edx
	movb	$0, 2120(%rsp,%rdx)
	addq	$4, %rbx
	cmpq	%rbx, %rcx
	jne	.LBB8_85
	testq	%rax, %rax
	je	.LBB8_89
.LBB8_87:
	leaq	(%rsp,%rbx), %rcx
	addq	$2936, %rcx
	xorl	%edx, %edx
	.p2align	4
.LBB8_88:
	movzbl	(%rcx,%rdx), %esi
	movb	$0, 2120(%rsp,%rsi)
	incq	%rdx
	cmpq	%rdx, %rax
	jne	.LBB8_88
.LBB8_89:
	pxor	%xmm0, %xmm0
	movdqa	%xmm0, 1200(%rsp)
	movdqa	%xmm0, 1184(%rsp)
	movdqa	%xmm0, 1168(%rsp)
	movdqa	%xmm0, 1152(%rsp)
	movdqa	%xmm0, 1136(%rsp)
	leaq	(,%r13,8), %rax
	cmpq	%r15, %rax
	movq	%r15, 40(%rsp)
	jbe	.LBB8_114
	movdqa	%xmm0, 768(%rsp)
	movdqa	%xmm0, 784(%rsp)
	movdqa	%xmm0, 800(%rsp)
	movdqa	%xmm0, 816(%rsp)
	movdqa	%xmm0, 832(%rsp)
	movdqa	%xmm0, 848(%rsp)
	movq	%r15, %rdx
	subq	%r13, %rdx
	leaq	(%rsp,%rdx), %rbx
	addq	$2120, %rbx
	leaq	768(%rsp), %r12
	leaq	2120(%rsp), %rsi
	movq	%r12, %rdi
	movq	%r13, %rcx
	callq	"dm_code::encoding::divide"
	pxor	%xmm0, %xmm0
	movdqa	%xmm0, 144(%rsp)
	movdqa	%xmm0, 128(%rsp)
	movdqa	%xmm0, 112(%rsp)
	movdqa	%xmm0, 96(%rsp)
	movdqa	%xmm0, 80(%rsp)
	movdqa	%xmm0, 64(%rsp)
	leaq	64(%rsp), %rdi
	movq	%rbx, %rsi
	movq	%r13, %rdx
	callq	memcpy@PLT
	movaps	768(%rsp), %xmm0
	movaps	784(%rsp), %xmm1
	movaps	800(%rsp), %xmm2
	movaps	816(%rsp), %xmm3
	xorps	64(%rsp), %xmm0
	xorps	80(%rsp), %xmm1
	movaps	%xmm0, 768(%rsp)
	movaps	%xmm1, 784(%rsp)
	xorps	96(%rsp), %xmm2
	movaps	%xmm2, 800(%rsp)
	xorps	112(%rsp), %xmm3
	movaps	%xmm3, 816(%rsp)
	movaps	832(%rsp), %xmm0
	xorps	128(%rsp), %xmm0
	movaps	%xmm0, 832(%rsp)
	movaps	848(%rsp), %xmm0
	xorps	144(%rsp), %xmm0
	movaps	%xmm0, 848(%rsp)
	leaq	1136(%rsp), %rdi
	movq	%r12, %rsi
	movq	%r13, %rdx
	movq	%r13, %rcx
	callq	"dm_code::syndrome::syndromes_of_short"
	movaps	1200(%rsp), %xmm0
	movaps	%xmm0, 224(%rsp)
	movdqa	1136(%rsp), %xmm0
	movdqa	1152(%rsp), %xmm1
	movdqa	1168(%rsp), %xmm2
	movdqa	1184(%rsp), %xmm3
	movdqa	%xmm3, 208(%rsp)
	movdqa	%xmm2, 192(%rsp)
	movdqa	%xmm1, 176(%rsp)
	movdqa	%xmm0, 160(%rsp)
	jmp	.LBB8_129
.LBB8_91:
	movl	%r13d, %eax
	xorl	%edx, %edx
	divl	%r14d
.LBB8_92:
	cmpq	$1, %rax
	movq	%rax, %rdx
	adcq	$0, %rdx
	movl	%edx, %ecx
	andl	$3, %ecx
	cmpq	$4, %rax
	jae	.LBB8_94
	xorl	%eax, %eax
	jmp	.LBB8_98
.LBB8_94:
	movq	8(%rsp), %rax
	leaq	(%rbx,%rax), %rsi
	andq	$-4, %rdx
	leaq	(%r14,%r14,2), %rdi
	leal	(,%r14,4), %r8d
	negq	%rdx
	movl	$2, %eax
	.p2align	4
.LBB8_95:
	movzbl	(%rsi), %r9d
	movb	%r9b, 254(%rsp,%rax)
	leaq	-1(%rax), %r9
	movq	%r9, 512(%rsp)
	movzbl	(%rsi,%r14), %r9d
	movb	%r9b, 255(%rsp,%rax)
	movq	%rax, 512(%rsp)
	movzbl	(%rsi,%r14,2), %r9d
	movb	%r9b, 256(%rsp,%rax)
	leaq	1(%rax), %r9
	movq	%r9, 512(%rsp)
	movzbl	(%rsi,%rdi), %r9d
	movb	%r9b, 257(%rsp,%rax)
	leaq	2(%rax), %r9
	movq	%r9, 512(%rsp)
	addq	%r8, %rsi
	leaq	(%rdx,%rax), %r9
	addq	$4, %r9
	addq	$4, %rax
	cmpq	$2, %r9
	jne	.LBB8_95
	testq	%rcx, %rcx
	je	.LBB8_100
	addq	$-2, %rax
.LBB8_98:
	leaq	1(%rax), %rdx
	imulq	%r14, %rax
	movq	8(%rsp), %rsi
	addq	%rbx, %rsi
	addq	%rsi, %rax
	.p2align	4
.LBB8_99:
	movzbl	(%rax), %esi
	movb	%sil, 255(%rsp,%rdx)
	movq	%rdx, 512(%rsp)
	incq	%rdx
	addq	%r14, %rax
	decq	%rcx
	jne	.LBB8_99
.LBB8_100:
	leaq	3200(%rsp), %rdi
	leaq	256(%rsp), %rbp
	movl	$264, %edx
	movq	%rbp, %rsi
	callq	memcpy@PLT
	movq	3456(%rsp), %rdx
	xorps	%xmm0, %xmm0
	movaps	%xmm0, 1840(%rsp)
	movaps	%xmm0, 1856(%rsp)
	movaps	%xmm0, 1872(%rsp)
	movaps	%xmm0, 1888(%rsp)
	movaps	%xmm0, 1904(%rsp)
	movaps	%xmm0, 1920(%rsp)
	movq	%rdx, 32(%rsp)
	subq	%r12, %rdx
	movq	%r15, %r13
	movq	%rbx, %r15
	leaq	(%rsp,%rdx), %rbx
	addq	$3200, %rbx
	leaq	1840(%rsp), %rdi
	movq	%rbp, %rsi
	movq	%r12, %rcx
	callq	"dm_code::encoding::divide"
	xorps	%xmm0, %xmm0
	movaps	%xmm0, 2464(%rsp)
	movaps	%xmm0, 2448(%rsp)
	movaps	%xmm0, 2432(%rsp)
	movaps	%xmm0, 2416(%rsp)
	movaps	%xmm0, 2400(%rsp)
	movaps	%xmm0, 2384(%rsp)
	leaq	2384(%rsp), %rdi
	movq	%rbx, %rsi
	movq	%r15, %rbx
	movq	%r13, %r15
	movq	%r12, %rdx
	callq	memcpy@PLT
	movaps	1840(%rsp), %xmm0
	movdqa	1856(%rsp), %xmm1
	movdqa	1872(%rsp), %xmm2
	movdqa	1888(%rsp), %xmm3
	xorps	2384(%rsp), %xmm0
	pxor	2400(%rsp), %xmm1
	movaps	%xmm0, 1840(%rsp)
	movdqa	%xmm1, 1856(%rsp)
	pxor	2416(%rsp), %xmm2
	movdqa	%xmm2, 1872(%rsp)
	pxor	2432(%rsp), %xmm3
	movdqa	%xmm3, 1888(%rsp)
	movdqa	1904(%rsp), %xmm0
	pxor	2448(%rsp), %xmm0
	movdqa	%xmm0, 1904(%rsp)
	movdqa	1920(%rsp), %xmm4
	pxor	2464(%rsp), %xmm4
	movdqa	%xmm4, 1920(%rsp)
	por	1840(%rsp), %xmm1
	por	%xmm2, %xmm3
	por	%xmm1, %xmm3
	por	%xmm0, %xmm4
	por	%xmm3, %xmm4
	ptest	%xmm4, %xmm4
	je	.LBB8_104
	leaq	3200(%rsp), %rdi
	leaq	1840(%rsp), %rcx
	leaq	3712(%rsp), %r9
	movq	32(%rsp), %rsi
.LBB8_102:
	movq	%r12, %rdx
	movq	%r12, %r8
	callq	"dm_code::correction::mend::<#9f76af21849881bb>"
	movl	%edx, %r13d
	testb	%al, %al
	je	.LBB8_108
	xorl	%r11d, %r11d
	xorl	%r13d, %r13d
	xorl	%eax, %eax
	jmp	.LBB8_106
.LBB8_108:
	testb	%r13b, %r13b
	je	.LBB8_104
	movq	3968(%rsp), %rax
	testq	%rax, %rax
	je	.LBB8_105
	movq	8(%rsp), %rcx
	addq	%rbx, %rcx
	cmpq	$4, %rax
	setae	%dl
	cmpw	$1, %r14w
	sete	%sil
	andb	%dl, %sil
	cmpb	$1, %sil
	jne	.LBB8_162
	cmpq	$16, %rax
	jae	.LBB8_176
	xorl	%edx, %edx
	jmp	.LBB8_180
.LBB8_104:
	xorl	%r13d, %r13d
.LBB8_105:
	leal	(,%r13,2), %eax
	subb	%al, %r15b
	movq	%r15, %r11
	movb	$1, %al
.LBB8_106:
	xorl	%r15d, %r15d
.LBB8_107:
	movzbl	%r11b, %ecx
	movq	248(%rsp), %rdx
	movb	%al, (%rdx)
	movb	%cl, 3(%rdx)
	shll	$16, %ecx
	movzbl	%r15b, %eax
	shll	$8, %eax
	orl	%ecx, %eax
	movzbl	%r13b, %ecx
	orl	%eax, %ecx
	movw	%cx, 1(%rdx)
	addq	$6088, %rsp
	.cfi_def_cfa_offset 56
	popq	%rbx
	.cfi_def_cfa_offset 48
	popq	%r12
	.cfi_def_cfa_offset 40
	popq	%r13
	.cfi_def_cfa_offset 32
	popq	%r14
	.cfi_def_cfa_offset 24
	popq	%r15
	.cfi_def_cfa_offset 16
	popq	%rbp
	.cfi_def_cfa_offset 8
	retq
.LBB8_114:
	.cfi_def_cfa_offset 6144
	movq	%r13, %rbp
	shrq	$4, %rbp
	movdqa	%xmm0, 64(%rsp)
	movdqa	%xmm0, 160(%rsp)
	movdqa	%xmm0, 176(%rsp)
	movdqa	%xmm0, 192(%rsp)
	movdqa	%xmm0, 208(%rsp)
	movdqa	%xmm0, 224(%rsp)
	je	.LBB8_119
	movl	$1, %r12d
	xorl	%r15d, %r15d
	movq	%rbp, %rbx
	jmp	.LBB8_117
	.p2align	4
.LBB8_116:
	addq	$16, %r12
	decq	%rbx
	je	.LBB8_119
.LBB8_117:
	leaq	64(%rsp), %rdi
	leaq	2120(%rsp), %rsi
	movq	40(%rsp), %rdx
	movq	%r12, %rcx
	callq	"dm_code::syndrome::values_from_root"
	leaq	-53(%r15), %rax
	cmpq	$16, %rax
	jb	.LBB8_116
	movdqa	64(%rsp), %xmm0
	movdqu	%xmm0, 160(%rsp,%r15)
	addq	$16, %r15
	movq	%r15, 232(%rsp)
	jmp	.LBB8_116
.LBB8_119:
	movq	40(%rsp), %r12
	andl	$15, %r12d
	leaq	64(%rsp), %rdi
	subq	%r12, %rdi
	addq	$16, %rdi
	pxor	%xmm0, %xmm0
	movdqa	%xmm0, 64(%rsp)
	leaq	2120(%rsp), %rsi
	movq	%r12, %rdx
	callq	memcpy@PLT
	shll	$4, %ebp
	incl	%ebp
	leal	1(%r13), %eax
	cmpw	%ax, %bp
	jae	.LBB8_129
	movdqa	64(%rsp), %xmm0
	movq	40(%rsp), %rax
	shrq	$4, %rax
	leaq	(%rsp,%r12), %rcx
	addq	$2120, %rcx
	movq	%rax, %rdx
	andq	$-2, %rdx
	leaq	(%rsp,%r12), %rsi
	addq	$2136, %rsi
	jmp	.LBB8_124
.LBB8_121:
	movdqa	%xmm0, %xmm1
.LBB8_122:
	movdqa	.LCPI8_0(%rip), %xmm4
	movdqa	%xmm1, %xmm5
	pand	%xmm4, %xmm5
	pshufb	%xmm5, %xmm3
	psrlw	$4, %xmm1
	pand	%xmm4, %xmm1
	pshufb	%xmm1, %xmm2
	pxor	%xmm3, %xmm2
	shlq	$4, %rdi
	movdqu	(%rcx,%rdi), %xmm1
	pxor	%xmm2, %xmm1
.LBB8_123:
	movd	%xmm1, %r9d
	movzwl	%bp, %edi
	imull	$32897, %edi, %edi
	shrl	$23, %edi
	movl	%edi, %r8d
	shll	$8, %r8d
	subl	%r8d, %edi
	addl	%ebp, %edi
	movzwl	%di, %edi
	leaq	.Lstatic.49(%rip), %r8
	movzbl	(%rdi,%r8), %r8d
	movl	%r8d, %edi
	andl	$15, %edi
	leaq	.Lstatic.44(%rip), %r10
	xorb	(%rdi,%r10), %r9b
	addq	%r10, %rdi
	shrl	$4, %r8d
	leaq	.Lstatic.45(%rip), %r10
	xorb	(%r8,%r10), %r9b
	addq	%r10, %r8
	pextrb	$1, %xmm1, %r10d
	movzbl	%r9b, %r9d
	shll	$4, %r9d
	xorb	(%r9,%rdi), %r10b
	xorb	(%r9,%r8), %r10b
	pextrb	$2, %xmm1, %r9d
	movzbl	%r10b, %r10d
	shll	$4, %r10d
	xorb	(%r10,%rdi), %r9b
	xorb	(%r10,%r8), %r9b
	pextrb	$3, %xmm1, %r10d
	movzbl	%r9b, %r9d
	shll	$4, %r9d
	xorb	(%r9,%rdi), %r10b
	xorb	(%r9,%r8), %r10b
	pextrb	$4, %xmm1, %r9d
	movzbl	%r10b, %r10d
	shll	$4, %r10d
	xorb	(%r10,%rdi), %r9b
	xorb	(%r10,%r8), %r9b
	pextrb	$5, %xmm1, %r10d
	movzbl	%r9b, %r9d
	shll	$4, %r9d
	xorb	(%r9,%rdi), %r10b
	xorb	(%r9,%r8), %r10b
	pextrb	$6, %xmm1, %r9d
	movzbl	%r10b, %r10d
	shll	$4, %r10d
	xorb	(%r10,%rdi), %r9b
	xorb	(%r10,%r8), %r9b
	pextrb	$7, %xmm1, %r10d
	movzbl	%r9b, %r9d
	shll	$4, %r9d
	xorb	(%r9,%rdi), %r10b
	xorb	(%r9,%r8), %r10b
	pextrb	$8, %xmm1, %r9d
	movzbl	%r10b, %r10d
	shll	$4, %r10d
	xorb	(%r10,%rdi), %r9b
	xorb	(%r10,%r8), %r9b
	pextrb	$9, %xmm1, %r10d
	movzbl	%r9b, %r9d
	shll	$4, %r9d
	xorb	(%r9,%rdi), %r10b
	xorb	(%r9,%r8), %r10b
	pextrb	$10, %xmm1, %r9d
	movzbl	%r10b, %r10d
	shll	$4, %r10d
	xorb	(%r10,%rdi), %r9b
	xorb	(%r10,%r8), %r9b
	pextrb	$11, %xmm1, %r10d
	movzbl	%r9b, %r9d
	shll	$4, %r9d
	xorb	(%r9,%rdi), %r10b
	xorb	(%r9,%r8), %r10b
	pextrb	$12, %xmm1, %r9d
	movzbl	%r10b, %r10d
	shll	$4, %r10d
	xorb	(%r10,%rdi), %r9b
	xorb	(%r10,%r8), %r9b
	pextrb	$13, %xmm1, %r10d
	movzbl	%r9b, %r9d
	shll	$4, %r9d
	xorb	(%r9,%rdi), %r10b
	xorb	(%r9,%r8), %r10b
	pextrb	$14, %xmm1, %r9d
	movzbl	%r10b, %r10d
	shll	$4, %r10d
	xorb	(%r10,%rdi), %r9b
	xorb	(%r10,%r8), %r9b
	pextrb	$15, %xmm1, %r10d
	movzbl	%r9b, %r9d
	shll	$4, %r9d
	xorb	(%r9,%rdi), %r10b
	xorb	(%r9,%r8), %r10b
	movq	232(%rsp), %rdi
	movb	%r10b, 160(%rsp,%rdi)
	incq	%rdi
	movq	%rdi, 232(%rsp)
	cmpw	%r13w, %bp
	leal	1(%rbp), %edi
	movl	%edi, %ebp
	je	.LBB8_129
.LBB8_124:
	movdqa	%xmm0, %xmm1
	testq	%rax, %rax
	je	.LBB8_123
	movl	%ebp, %edi
	shll	$4, %edi
	movzwl	%di, %r8d
	imull	$32897, %r8d, %r8d
	shrl	$23, %r8d
	movl	%r8d, %r9d
	shll	$8, %r9d
	subl	%r9d, %r8d
	addl	%edi, %r8d
	movzwl	%r8w, %edi
	leaq	.Lstatic.49(%rip), %r8
	movzbl	(%rdi,%r8), %edi
	shll	$4, %edi
	leaq	.Lstatic.44(%rip), %r8
	movdqu	(%rdi,%r8), %xmm3
	leaq	.Lstatic.45(%rip), %r8
	movdqu	(%rdi,%r8), %xmm2
	xorl	%edi, %edi
	cmpq	$1, %rax
	je	.LBB8_121
	movq	%rsi, %r8
	movdqa	%xmm0, %xmm1
	.p2align	4
.LBB8_127:
	movdqa	.LCPI8_0(%rip), %xmm4
	movdqa	%xmm1, %xmm5
	pand	%xmm4, %xmm5
	movdqa	%xmm3, %xmm6
	pshufb	%xmm5, %xmm6
	psrlw	$4, %xmm1
	pand	%xmm4, %xmm1
	movdqa	%xmm2, %xmm5
	pshufb	%xmm1, %xmm5
	pxor	%xmm6, %xmm5
	movdqu	-16(%r8), %xmm6
	pxor	%xmm5, %xmm6
	movdqu	(%r8), %xmm1
	movdqa	%xmm6, %xmm5
	pand	%xmm4, %xmm5
	movdqa	%xmm3, %xmm7
	pshufb	%xmm5, %xmm7
	pxor	%xmm1, %xmm7
	psrlw	$4, %xmm6
	pand	%xmm4, %xmm6
	movdqa	%xmm2, %xmm1
	pshufb	%xmm6, %xmm1
	pxor	%xmm7, %xmm1
	addq	$2, %rdi
	addq	$32, %r8
	cmpq	%rdi, %rdx
	jne	.LBB8_127
	testb	$1, %al
	jne	.LBB8_122
	jmp	.LBB8_123
.LBB8_129:
	movq	224(%rsp), %rax
	movq	%rax, 1024(%rsp)
	movq	232(%rsp), %rax
	movq	%rax, 1032(%rsp)
	movdqa	160(%rsp), %xmm0
	movdqa	176(%rsp), %xmm1
	movdqa	192(%rsp), %xmm2
	movdqa	208(%rsp), %xmm3
	movdqa	%xmm0, 960(%rsp)
	movdqa	%xmm1, 976(%rsp)
	movdqa	%xmm2, 992(%rsp)
	movdqa	%xmm3, 1008(%rsp)
	movq	1032(%rsp), %rax
	pxor	%xmm0, %xmm0
	movdqa	%xmm0, 144(%rsp)
	movdqa	%xmm0, 128(%rsp)
	movdqa	%xmm0, 112(%rsp)
	movdqa	%xmm0, 96(%rsp)
	movdqa	%xmm0, 80(%rsp)
	movdqa	%xmm0, 64(%rsp)
	testq	%rax, %rax
	movq	40(%rsp), %rbp
	je	.LBB8_139
	leaq	64(%rsp), %rcx
	xorl	%edx, %edx
	movq	%rax, %rsi
	jmp	.LBB8_134
	.p2align	4
.LBB8_131:
	xorl	%r9d, %r9d
.LBB8_132:
	leaq	(%rsp,%rdx), %rdi
	addq	$64, %rdi
	shlq	$4, %r9
	movdqu	864(%rsp,%r9), %xmm2
	movdqa	.LCPI8_0(%rip), %xmm3
	movdqa	%xmm2, %xmm4
	pand	%xmm3, %xmm4
	pshufb	%xmm4, %xmm1
	psrlw	$4, %xmm2
	pand	%xmm3, %xmm2
	pshufb	%xmm2, %xmm0
	pxor	%xmm1, %xmm0
	movdqu	(%rdi,%r9), %xmm1
	pxor	%xmm0, %xmm1
	movdqu	%xmm1, (%rdi,%r9)
.LBB8_133:
	incq	%rdx
	incq	%rcx
	decq	%rsi
	cmpq	%rax, %rdx
	je	.LBB8_139
.LBB8_134:
	movq	%rax, %rdi
	subq	%rdx, %rdi
	xorl	%r8d, %r8d
	testb	$15, %dil
	setne	%r8b
	shll	$4, %r8d
	addq	%r8, %rdi
	shrq	$4, %rdi
	je	.LBB8_133
	movzbl	960(%rsp,%rdx), %r9d
	shll	$4, %r9d
	leaq	.Lstatic.44(%rip), %r10
	movdqu	(%r9,%r10), %xmm1
	leaq	.Lstatic.45(%rip), %r10
	movdqu	(%r9,%r10), %xmm0
	cmpq	$1, %rdi
	je	.LBB8_131
	addq	%rsi, %r8
	shrq	$4, %r8
	andq	$-2, %r8
	movl	$16, %r10d
	xorl	%r9d, %r9d
	.p2align	4
.LBB8_137:
	movdqu	848(%rsp,%r10), %xmm2
	movdqa	.LCPI8_0(%rip), %xmm3
	movdqa	%xmm2, %xmm4
	pand	%xmm3, %xmm4
	movdqa	%xmm1, %xmm5
	pshufb	%xmm4, %xmm5
	psrlw	$4, %xmm2
	pand	%xmm3, %xmm2
	movdqa	%xmm0, %xmm4
	pshufb	%xmm2, %xmm4
	movdqu	-16(%rcx,%r10), %xmm2
	pxor	%xmm5, %xmm2
	pxor	%xmm4, %xmm2
	movdqu	(%rcx,%r10), %xmm4
	movdqu	%xmm2, -16(%rcx,%r10)
	movdqu	864(%rsp,%r10), %xmm2
	movdqa	%xmm2, %xmm5
	pand	%xmm3, %xmm5
	movdqa	%xmm1, %xmm6
	pshufb	%xmm5, %xmm6
	pxor	%xmm4, %xmm6
	psrlw	$4, %xmm2
	pand	%xmm3, %xmm2
	movdqa	%xmm0, %xmm3
	pshufb	%xmm2, %xmm3
	pxor	%xmm6, %xmm3
	movdqu	%xmm3, (%rcx,%r10)
	addq	$2, %r9
	addq	$32, %r10
	cmpq	%r9, %r8
	jne	.LBB8_137
	testb	$1, %dil
	jne	.LBB8_132
	jmp	.LBB8_133
.LBB8_139:
	movdqa	144(%rsp), %xmm0
	movdqa	%xmm0, 1296(%rsp)
	movdqa	128(%rsp), %xmm1
	movdqa	%xmm1, 1280(%rsp)
	movdqa	64(%rsp), %xmm2
	movdqa	80(%rsp), %xmm3
	movdqa	96(%rsp), %xmm4
	movdqa	112(%rsp), %xmm5
	movdqa	%xmm5, 1264(%rsp)
	movdqa	%xmm4, 1248(%rsp)
	movdqa	%xmm3, 1232(%rsp)
	movdqa	%xmm2, 1216(%rsp)
	movdqa	%xmm2, 1040(%rsp)
	movdqa	%xmm3, 1056(%rsp)
	movdqa	%xmm4, 1072(%rsp)
	movdqa	%xmm5, 1088(%rsp)
	movdqa	%xmm1, 1104(%rsp)
	movdqa	%xmm0, 1120(%rsp)
	leaq	(,%r13,8), %rax
	cmpq	%rbp, %rax
	jbe	.LBB8_145
	leaq	256(%rsp), %rbx
	leaq	1216(%rsp), %rsi
	movq	%rbx, %rdi
	movq	%r13, %rdx
	movq	%rbp, %rcx
	callq	"dm_code::weighing::at_places"
	leaq	1312(%rsp), %rdi
	movl	$256, %edx
	movq	%rbx, %rsi
	callq	memcpy@PLT
	xorl	%eax, %eax
	jmp	.LBB8_143
	.p2align	4
.LBB8_141:
	movzbl	1312(%rsp,%rsi), %esi
	leaq	.Lstatic.48(%rip), %rdi
	movzbl	(%rdx,%rdi), %edi
	xorl	$255, %edi
	leal	-255(%rdi), %r8d
	cmpq	$1, %rdx
	cmovnel	%edi, %r8d
	movzwl	%r8w, %edx
	leaq	.Lstatic.49(%rip), %rdi
	movzbl	(%rdx,%rdi), %edx
	shll	$4, %esi
	movl	%edx, %edi
	andl	$15, %edi
	leaq	.Lstatic.44(%rip), %r8
	addq	%rsi, %r8
	shrl	$4, %edx
	leaq	.Lstatic.45(%rip), %r9
	addq	%rsi, %r9
	movzbl	(%rdx,%r9), %edx
	xorb	(%rdi,%r8), %dl
.LBB8_142:
	movb	%dl, 2120(%rsp,%rcx)
	incq	%rax
	cmpq	%rax, %r13
	je	.LBB8_156
.LBB8_143:
	movzbl	2936(%rsp,%rax), %ecx
	movq	%rcx, %rsi
	notq	%rsi
	addq	%rbp, %rsi
	movzbl	3456(%rsp,%rsi), %edx
	testq	%rdx, %rdx
	jne	.LBB8_141
	xorl	%edx, %edx
	jmp	.LBB8_142
.LBB8_145:
	movq	%r13, %rax
	andq	$-2, %rax
	xorl	%ecx, %ecx
	jmp	.LBB8_148
	.p2align	4
.LBB8_146:
	leaq	.Lstatic.48(%rip), %r8
	movzbl	(%rsi,%r8), %r8d
	xorl	$255, %r8d
	leal	-255(%r8), %r9d
	cmpq	$1, %rsi
	cmovnel	%r8d, %r9d
	movzwl	%r9w, %esi
	movzbl	(%rsi,%rdi), %esi
	movzbl	%r11b, %edi
	shll	$4, %edi
	movl	%esi, %r8d
	andl	$15, %r8d
	leaq	.Lstatic.44(%rip), %r9
	addq	%rdi, %r9
	shrl	$4, %esi
	leaq	.Lstatic.45(%rip), %r10
	addq	%rdi, %r10
	movzbl	(%rsi,%r10), %esi
	xorb	(%r8,%r9), %sil
.LBB8_147:
	movb	%sil, 2120(%rsp,%rdx)
	incq	%rcx
	cmpq	%r13, %rcx
	je	.LBB8_156
.LBB8_148:
	movzbl	2936(%rsp,%rcx), %edx
	movq	%rdx, %rsi
	notq	%rsi
	addq	%rbp, %rsi
	movzwl	%si, %edi
	imull	$32897, %edi, %edi
	shrl	$23, %edi
	movl	%edi, %r8d
	shll	$8, %r8d
	subl	%r8d, %edi
	addl	%esi, %edi
	movzwl	%di, %r8d
	leaq	.Lstatic.49(%rip), %rdi
	movzbl	(%r8,%rdi), %r9d
	movl	%r9d, %r8d
	andl	$15, %r8d
	shrl	$4, %r9d
	leaq	-1(%r13), %r10
	xorl	%r11d, %r11d
	testq	%r10, %r10
	je	.LBB8_152
	xorl	%r10d, %r10d
	.p2align	4
.LBB8_150:
	movzbl	%r11b, %r11d
	shll	$4, %r11d
	leaq	(%r8,%r11), %rbx
	leaq	.Lstatic.44(%rip), %r15
	orq	%r9, %r11
	leaq	.Lstatic.45(%rip), %r12
	movzbl	(%r12,%r11), %r11d
	xorb	(%r15,%rbx), %r11b
	xorb	1040(%rsp,%r10), %r11b
	movzbl	%r11b, %r11d
	shll	$4, %r11d
	leaq	(%r8,%r11), %rbx
	orq	%r9, %r11
	movzbl	(%r12,%r11), %r11d
	xorb	(%r15,%rbx), %r11b
	xorb	1041(%rsp,%r10), %r11b
	addq	$2, %r10
	cmpq	%r10, %rax
	jne	.LBB8_150
	testb	$1, %r13b
	jne	.LBB8_153
	jmp	.LBB8_154
	.p2align	4
.LBB8_152:
	xorl	%r10d, %r10d
.LBB8_153:
	movzbl	%r11b, %r11d
	shll	$4, %r11d
	orq	%r11, %r8
	leaq	.Lstatic.44(%rip), %rbx
	orq	%r11, %r9
	leaq	.Lstatic.45(%rip), %r11
	movzbl	(%r11,%r9), %r11d
	xorb	(%rbx,%r8), %r11b
	xorb	1040(%rsp,%r10), %r11b
.LBB8_154:
	movzbl	3456(%rsp,%rsi), %esi
	testq	%rsi, %rsi
	jne	.LBB8_146
	xorl	%esi, %esi
	jmp	.LBB8_147
.LBB8_156:
	movzbl	1832(%rsp), %r13d
	leaq	4760(%rsp), %rdi
	leaq	2120(%rsp), %rsi
	movl	$264, %edx
	callq	memcpy@PLT
	movq	3192(%rsp), %r15
.LBB8_157:
	leaq	4760(%rsp), %rsi
	movzbl	%r13b, %r12d
	leal	(%r15,%r12,2), %eax
	movq	48(%rsp), %rbp
	subl	%eax, %ebp
	leaq	5824(%rsp), %rbx
	movl	$264, %edx
	movq	%rbx, %rdi
	callq	memcpy@PLT
	movl	24(%rsp), %eax
	movl	%eax, 16(%rsp)
	movzbl	28(%rsp), %eax
	movb	%al, 20(%rsp)
	leaq	2664(%rsp), %rdi
	movl	$264, %edx
	movq	%rbx, %rsi
	callq	memcpy@PLT
	movb	%r12b, 2928(%rsp)
	movb	%r15b, 2929(%rsp)
	movq	%rbp, %r11
	movb	%bpl, 2930(%rsp)
	movl	16(%rsp), %eax
	movl	%eax, 2931(%rsp)
	movzbl	20(%rsp), %eax
	movb	%al, 2935(%rsp)
	movq	2920(%rsp), %rcx
	movb	$1, %al
	testq	%rcx, %rcx
	je	.LBB8_107
	cmpq	$4, %rcx
	setae	%dl
	cmpw	$1, %r14w
	sete	%sil
	andb	%dl, %sil
	cmpb	$1, %sil
	jne	.LBB8_161
	cmpq	$16, %rcx
	movq	32(%rsp), %r9
	movq	56(%rsp), %rbx
	jae	.LBB8_163
	xorl	%edx, %edx
	jmp	.LBB8_167
.LBB8_161:
	xorl	%edx, %edx
	movq	32(%rsp), %r9
	movq	56(%rsp), %rbx
	jmp	.LBB8_170
.LBB8_162:
	xorl	%edx, %edx
	jmp	.LBB8_183
.LBB8_163:
	movq	%rcx, %rdx
	andq	$-16, %rdx
	xorl	%esi, %esi
	.p2align	4
.LBB8_164:
	movdqu	2664(%rsp,%rsi), %xmm0
	movdqu	%xmm0, (%rbx,%rsi)
	addq	$16, %rsi
	cmpq	%rsi, %rdx
	jne	.LBB8_164
	cmpq	%rdx, %rcx
	je	.LBB8_107
	testb	$12, %cl
	je	.LBB8_170
.LBB8_167:
	movq	%rdx, %rsi
	movq	%rcx, %rdx
	andq	$-4, %rdx
	.p2align	4
.LBB8_168:
	movl	2664(%rsp,%rsi), %edi
	movl	%edi, (%rbx,%rsi)
	addq	$4, %rsi
	cmpq	%rsi, %rdx
	jne	.LBB8_168
	cmpq	%rdx, %rcx
	je	.LBB8_107
.LBB8_170:
	movq	%rcx, %rdi
	movq	%rdx, %rsi
	andq	$3, %rdi
	je	.LBB8_173
	movq	%rdx, %rsi
	imulq	%r14, %rsi
	addq	8(%rsp), %r9
	addq	%rsi, %r9
	movq	%rdx, %rsi
	.p2align	4
.LBB8_172:
	movzbl	2664(%rsp,%rsi), %r8d
	movb	%r8b, (%r9)
	incq	%rsi
	addq	%r14, %r9
	decq	%rdi
	jne	.LBB8_172
.LBB8_173:
	subq	%rcx, %rdx
	cmpq	$-4, %rdx
	ja	.LBB8_107
	leaq	3(%rsi), %rdx
	imulq	%r14, %rdx
	leal	(,%r14,4), %edi
	leaq	2(%rsi), %r8
	imulq	%r14, %r8
	leaq	1(%rsi), %r9
	imulq	%r14, %r9
	imulq	%rsi, %r14
	.p2align	4
.LBB8_175:
	movzbl	2664(%rsp,%rsi), %r10d
	movb	%r10b, (%rbx,%r14)
	movzbl	2665(%rsp,%rsi), %r10d
	movb	%r10b, (%rbx,%r9)
	movzbl	2666(%rsp,%rsi), %r10d
	movb	%r10b, (%rbx,%r8)
	movzbl	2667(%rsp,%rsi), %r10d
	movb	%r10b, (%rbx,%rdx)
	addq	$4, %rsi
	addq	%rdi, %rbx
	cmpq	%rsi, %rcx
	jne	.LBB8_175
	jmp	.LBB8_107
.LBB8_176:
	movq	%rax, %rdx
	andq	$-16, %rdx
	xorl	%esi, %esi
	.p2align	4
.LBB8_177:
	movdqu	3712(%rsp,%rsi), %xmm0
	movdqu	%xmm0, (%rcx,%rsi)
	addq	$16, %rsi
	cmpq	%rsi, %rdx
	jne	.LBB8_177
	cmpq	%rdx, %rax
	je	.LBB8_105
	testb	$12, %al
	je	.LBB8_183
.LBB8_180:
	movq	%rdx, %rsi
	movq	%rax, %rdx
	andq	$-4, %rdx
	.p2align	4
.LBB8_181:
	movl	3712(%rsp,%rsi), %edi
	movl	%edi, (%rcx,%rsi)
	addq	$4, %rsi
	cmpq	%rsi, %rdx
	jne	.LBB8_181
	cmpq	%rdx, %rax
	je	.LBB8_105
.LBB8_183:
	movq	%rax, %rdi
	movq	%rdx, %rsi
	andq	$3, %rdi
	je	.LBB8_186
	movq	%rdx, %rsi
	imulq	%r14, %rsi
	addq	8(%rsp), %rbx
	addq	%rsi, %rbx
	movq	%rdx, %rsi
	.p2align	4
.LBB8_185:
	movzbl	3712(%rsp,%rsi), %r8d
	movb	%r8b, (%rbx)
	incq	%rsi
	addq	%r14, %rbx
	decq	%rdi
	jne	.LBB8_185
.LBB8_186:
	subq	%rax, %rdx
	cmpq	$-4, %rdx
	ja	.LBB8_105
	leaq	3(%rsi), %rdx
	imulq	%r14, %rdx
	leal	(,%r14,4), %edi
	leaq	2(%rsi), %r8
	imulq	%r14, %r8
	leaq	1(%rsi), %r9
	imulq	%r14, %r9
	imulq	%rsi, %r14
	.p2align	4
.LBB8_188:
	movzbl	3712(%rsp,%rsi), %r10d
	movb	%r10b, (%rcx,%r14)
	movzbl	3713(%rsp,%rsi), %r10d
	movb	%r10b, (%rcx,%r9)
	movzbl	3714(%rsp,%rsi), %r10d
	movb	%r10b, (%rcx,%r8)
	movzbl	3715(%rsp,%rsi), %r10d
	movb	%r10b, (%rcx,%rdx)
	addq	$4, %rsi
	addq	%rdi, %rcx
	cmpq	%rsi, %rax
	jne	.LBB8_188
	jmp	.LBB8_105
.LBB8_189:
	ud2
.Lfunc_end8:
	.size	"dm_symbol::symbol::correction::restore_block", .Lfunc_end8-"dm_symbol::symbol::correction::restore_block"
	.cfi_endproc

	.section	.rodata.cst16,"aM",@progbits,16
	.p2align	4, 0x0
.LCPI9_0:
	.zero	16,15
	.text
	.p2align	4
	.type	"dm_code::encoding::divide",@function
"dm_code::encoding::divide":
	.cfi_startproc
	subq	$184, %rsp
	.cfi_def_cfa_offset 192
	movq	%rcx, %r8
	shrq	$4, %r8
	movl	%ecx, %eax
	andl	$15, %eax
	cmpq	$1, %rax
	sbbq	$-1, %r8
	movl	%edx, %eax
	andl	$1, %eax
	decq	%r8
	cmpq	$3, %r8
	ja	.LBB9_10
	leaq	.LJTI9_0(%rip), %r9
	movslq	(%r9,%r8,4), %r8
	addq	%r9, %r8
	jmpq	*%r8
.LBB9_2:
	testq	%rax, %rax
	jne	.LBB9_21
	shlq	$4, %rcx
	leaq	(%rcx,%rcx,4), %r8
	leaq	.Lstatic.46(%rip), %rcx
	movdqu	(%rcx,%r8), %xmm2
	movdqa	.LCPI9_0(%rip), %xmm0
	movdqa	%xmm2, %xmm1
	pand	%xmm0, %xmm1
	movdqa	%xmm2, %xmm3
	psrlw	$4, %xmm3
	pand	%xmm0, %xmm3
	pxor	%xmm0, %xmm0
	jmp	.LBB9_22
.LBB9_4:
	testq	%rax, %rax
	jne	.LBB9_12
	shlq	$4, %rcx
	leaq	(%rcx,%rcx,4), %r8
	leaq	.Lstatic.46(%rip), %rcx
	movdqu	(%rcx,%r8), %xmm10
	movdqu	16(%rcx,%r8), %xmm5
	movdqu	32(%rcx,%r8), %xmm9
	movdqa	.LCPI9_0(%rip), %xmm0
	movdqa	%xmm10, %xmm11
	pand	%xmm0, %xmm11
	movdqa	%xmm10, %xmm13
	psrlw	$4, %xmm13
	pand	%xmm0, %xmm13
	movdqa	%xmm5, %xmm12
	pand	%xmm0, %xmm12
	psrlw	$4, %xmm5
	pand	%xmm0, %xmm5
	movdqa	%xmm9, %xmm6
	pand	%xmm0, %xmm6
	psrlw	$4, %xmm9
	pand	%xmm0, %xmm9
	pxor	%xmm3, %xmm3
	pxor	%xmm1, %xmm1
	pxor	%xmm0, %xmm0
	jmp	.LBB9_13
.LBB9_6:
	testq	%rax, %rax
	jne	.LBB9_17
	shlq	$4, %rcx
	leaq	(%rcx,%rcx,4), %r8
	leaq	.Lstatic.46(%rip), %rcx
	movdqu	(%rcx,%r8), %xmm5
	movdqu	16(%rcx,%r8), %xmm12
	movdqu	32(%rcx,%r8), %xmm10
	movdqu	48(%rcx,%r8), %xmm11
	movdqa	.LCPI9_0(%rip), %xmm0
	movdqa	%xmm5, %xmm7
	pand	%xmm0, %xmm7
	movdqa	%xmm5, %xmm8
	psrlw	$4, %xmm8
	pand	%xmm0, %xmm8
	movdqa	%xmm12, %xmm13
	pand	%xmm0, %xmm13
	psrlw	$4, %xmm12
	pand	%xmm0, %xmm12
	movdqa	%xmm10, %xmm1
	pand	%xmm0, %xmm1
	movdqa	%xmm1, -128(%rsp)
	psrlw	$4, %xmm10
	pand	%xmm0, %xmm10
	movdqa	%xmm11, %xmm4
	pand	%xmm0, %xmm4
	psrlw	$4, %xmm11
	pand	%xmm0, %xmm11
	pxor	%xmm14, %xmm14
	pxor	%xmm3, %xmm3
	pxor	%xmm1, %xmm1
	pxor	%xmm0, %xmm0
	jmp	.LBB9_18
.LBB9_8:
	testq	%rax, %rax
	jne	.LBB9_26
	shlq	$4, %rcx
	leaq	(%rcx,%rcx,4), %r8
	leaq	.Lstatic.46(%rip), %rcx
	movdqu	(%rcx,%r8), %xmm7
	movdqu	16(%rcx,%r8), %xmm3
	movdqa	.LCPI9_0(%rip), %xmm0
	movdqa	%xmm7, %xmm4
	pand	%xmm0, %xmm4
	movdqa	%xmm7, %xmm5
	psrlw	$4, %xmm5
	pand	%xmm0, %xmm5
	movdqa	%xmm3, %xmm13
	pand	%xmm0, %xmm13
	psrlw	$4, %xmm3
	pand	%xmm0, %xmm3
	pxor	%xmm1, %xmm1
	pxor	%xmm0, %xmm0
	jmp	.LBB9_27
.LBB9_10:
	testq	%rax, %rax
	jne	.LBB9_31
	shlq	$4, %rcx
	leaq	(%rcx,%rcx,4), %r9
	leaq	.Lstatic.46(%rip), %rcx
	movdqu	(%rcx,%r9), %xmm12
	movdqu	16(%rcx,%r9), %xmm9
	movdqu	32(%rcx,%r9), %xmm10
	movdqu	48(%rcx,%r9), %xmm13
	movdqu	64(%rcx,%r9), %xmm5
	movdqa	.LCPI9_0(%rip), %xmm0
	movdqa	%xmm12, %xmm1
	pand	%xmm0, %xmm1
	movdqa	%xmm1, 80(%rsp)
	movdqa	%xmm12, %xmm1
	psrlw	$4, %xmm1
	pand	%xmm0, %xmm1
	movdqa	%xmm1, 96(%rsp)
	movdqa	%xmm9, %xmm4
	pand	%xmm0, %xmm4
	psrlw	$4, %xmm9
	pand	%xmm0, %xmm9
	movdqa	%xmm10, %xmm1
	pand	%xmm0, %xmm1
	movdqa	%xmm1, -128(%rsp)
	psrlw	$4, %xmm10
	pand	%xmm0, %xmm10
	movdqa	%xmm13, %xmm11
	pand	%xmm0, %xmm11
	psrlw	$4, %xmm13
	pand	%xmm0, %xmm13
	movdqa	%xmm5, %xmm8
	pand	%xmm0, %xmm8
	movdqa	%xmm5, %xmm7
	psrlw	$4, %xmm7
	pand	%xmm0, %xmm7
	pxor	%xmm15, %xmm15
	pxor	%xmm14, %xmm14
	pxor	%xmm3, %xmm3
	pxor	%xmm1, %xmm1
	pxor	%xmm0, %xmm0
	jmp	.LBB9_32
.LBB9_12:
	movzbl	(%rsi), %r9d
	shlq	$4, %rcx
	leaq	(%rcx,%rcx,4), %r8
	leaq	.Lstatic.46(%rip), %rcx
	shll	$4, %r9d
	leaq	.Lstatic.44(%rip), %r10
	movdqu	(%r9,%r10), %xmm2
	leaq	.Lstatic.45(%rip), %r10
	movdqu	(%r9,%r10), %xmm3
	movdqu	(%rcx,%r8), %xmm10
	movdqu	16(%rcx,%r8), %xmm5
	movdqu	32(%rcx,%r8), %xmm9
	movdqa	.LCPI9_0(%rip), %xmm4
	movdqa	%xmm10, %xmm11
	pand	%xmm4, %xmm11
	movdqa	%xmm2, %xmm1
	pshufb	%xmm11, %xmm1
	movdqa	%xmm10, %xmm13
	psrlw	$4, %xmm13
	pand	%xmm4, %xmm13
	movdqa	%xmm3, %xmm0
	pshufb	%xmm13, %xmm0
	pxor	%xmm1, %xmm0
	movdqa	%xmm5, %xmm12
	pand	%xmm4, %xmm12
	movdqa	%xmm2, %xmm6
	pshufb	%xmm12, %xmm6
	psrlw	$4, %xmm5
	pand	%xmm4, %xmm5
	movdqa	%xmm3, %xmm1
	pshufb	%xmm5, %xmm1
	pxor	%xmm6, %xmm1
	movdqa	%xmm9, %xmm6
	pand	%xmm4, %xmm6
	pshufb	%xmm6, %xmm2
	psrlw	$4, %xmm9
	pand	%xmm4, %xmm9
	pshufb	%xmm9, %xmm3
	pxor	%xmm2, %xmm3
.LBB9_13:
	shrq	%rdx
	pxor	%xmm15, %xmm15
	je	.LBB9_35
	pextrb	$0, %xmm10, %r9d
	leaq	.Lstatic.46(%rip), %r10
	shll	$4, %r9d
	leaq	.Lstatic.44(%rip), %rcx
	movdqu	(%r9,%rcx), %xmm2
	movdqa	%xmm2, %xmm4
	pshufb	%xmm6, %xmm4
	movdqa	%xmm6, -128(%rsp)
	movdqu	1(%r8,%r10), %xmm6
	movdqu	17(%r8,%r10), %xmm7
	movdqu	33(%r8,%r10), %xmm8
	pxor	%xmm4, %xmm8
	leaq	.Lstatic.45(%rip), %r8
	movdqu	(%r9,%r8), %xmm10
	movdqa	%xmm10, %xmm14
	pshufb	%xmm9, %xmm14
	pxor	%xmm8, %xmm14
	movdqa	%xmm2, %xmm4
	pshufb	%xmm12, %xmm4
	pxor	%xmm7, %xmm4
	movdqa	%xmm10, %xmm7
	pshufb	%xmm5, %xmm7
	pxor	%xmm4, %xmm7
	pshufb	%xmm11, %xmm2
	pxor	%xmm6, %xmm2
	pshufb	%xmm13, %xmm10
	pxor	%xmm2, %xmm10
	addq	%rax, %rsi
	movdqa	.LCPI9_0(%rip), %xmm4
	movdqa	%xmm10, %xmm2
	pand	%xmm4, %xmm2
	movdqa	%xmm2, -112(%rsp)
	psrlw	$4, %xmm10
	pand	%xmm4, %xmm10
	movdqa	%xmm10, -80(%rsp)
	movdqa	%xmm7, %xmm2
	pand	%xmm4, %xmm2
	movdqa	%xmm2, -32(%rsp)
	psrlw	$4, %xmm7
	pand	%xmm4, %xmm7
	movdqa	%xmm7, -96(%rsp)
	movdqa	%xmm14, %xmm2
	pand	%xmm4, %xmm2
	movdqa	%xmm2, -48(%rsp)
	psrlw	$4, %xmm14
	pand	%xmm4, %xmm14
	movdqa	%xmm14, -64(%rsp)
	xorl	%eax, %eax
	movdqa	%xmm11, %xmm10
	movdqa	%xmm5, %xmm11
	movdqa	%xmm13, %xmm2
	.p2align	4
.LBB9_15:
	movzwl	(%rsi,%rax,2), %r9d
	movd	%r9d, %xmm4
	pxor	%xmm0, %xmm4
	pmovzxbw	%xmm4, %xmm4
	psllw	$4, %xmm4
	pextrw	$0, %xmm4, %r9d
	movdqu	(%r9,%rcx), %xmm6
	movdqu	(%r9,%r8), %xmm5
	pextrw	$1, %xmm4, %r9d
	movdqa	%xmm9, %xmm14
	movdqu	(%r9,%rcx), %xmm9
	movdqu	(%r9,%r8), %xmm13
	movdqa	%xmm5, %xmm7
	pshufb	-80(%rsp), %xmm7
	movdqa	%xmm9, %xmm4
	pshufb	%xmm10, %xmm4
	pxor	%xmm7, %xmm4
	movdqa	%xmm3, %xmm7
	palignr	$2, %xmm1, %xmm7
	palignr	$2, %xmm0, %xmm1
	movdqa	%xmm6, %xmm0
	pshufb	-112(%rsp), %xmm0
	pxor	%xmm0, %xmm1
	movdqa	%xmm13, %xmm8
	pshufb	%xmm2, %xmm8
	pxor	%xmm4, %xmm1
	movdqa	%xmm1, %xmm0
	pxor	%xmm8, %xmm0
	movdqa	%xmm5, %xmm1
	pshufb	-96(%rsp), %xmm1
	movdqa	%xmm9, %xmm4
	pshufb	%xmm12, %xmm4
	pxor	%xmm1, %xmm4
	movdqa	%xmm6, %xmm1
	pshufb	-32(%rsp), %xmm1
	pxor	%xmm7, %xmm1
	pxor	%xmm4, %xmm1
	movdqa	%xmm13, %xmm4
	pshufb	%xmm11, %xmm4
	pxor	%xmm4, %xmm1
	pshufb	-64(%rsp), %xmm5
	pshufb	-128(%rsp), %xmm9
	pxor	%xmm5, %xmm9
	pshufb	-48(%rsp), %xmm6
	psrldq	$2, %xmm3
	pxor	%xmm6, %xmm3
	pxor	%xmm9, %xmm3
	movdqa	%xmm14, %xmm9
	pshufb	%xmm14, %xmm13
	pxor	%xmm13, %xmm3
	incq	%rax
	cmpq	%rax, %rdx
	jne	.LBB9_15
.LBB9_35:
	pxor	%xmm14, %xmm14
	jmp	.LBB9_36
.LBB9_17:
	movzbl	(%rsi), %r9d
	shlq	$4, %rcx
	leaq	(%rcx,%rcx,4), %r8
	leaq	.Lstatic.46(%rip), %rcx
	shll	$4, %r9d
	leaq	.Lstatic.44(%rip), %r10
	movdqu	(%r9,%r10), %xmm2
	leaq	.Lstatic.45(%rip), %r10
	movdqu	(%r9,%r10), %xmm14
	movdqu	(%rcx,%r8), %xmm5
	movdqu	16(%rcx,%r8), %xmm12
	movdqu	32(%rcx,%r8), %xmm10
	movdqu	48(%rcx,%r8), %xmm11
	movdqa	.LCPI9_0(%rip), %xmm6
	movdqa	%xmm5, %xmm7
	pand	%xmm6, %xmm7
	movdqa	%xmm2, %xmm1
	pshufb	%xmm7, %xmm1
	movdqa	%xmm5, %xmm8
	psrlw	$4, %xmm8
	pand	%xmm6, %xmm8
	movdqa	%xmm14, %xmm0
	pshufb	%xmm8, %xmm0
	pxor	%xmm1, %xmm0
	movdqa	%xmm12, %xmm13
	pand	%xmm6, %xmm13
	movdqa	%xmm2, %xmm3
	pshufb	%xmm13, %xmm3
	psrlw	$4, %xmm12
	pand	%xmm6, %xmm12
	movdqa	%xmm14, %xmm1
	pshufb	%xmm12, %xmm1
	pxor	%xmm3, %xmm1
	movdqa	%xmm10, %xmm3
	pand	%xmm6, %xmm3
	movdqa	%xmm2, %xmm4
	movdqa	%xmm3, -128(%rsp)
	pshufb	%xmm3, %xmm4
	psrlw	$4, %xmm10
	pand	%xmm6, %xmm10
	movdqa	%xmm14, %xmm3
	pshufb	%xmm10, %xmm3
	pxor	%xmm4, %xmm3
	movdqa	%xmm11, %xmm4
	pand	%xmm6, %xmm4
	pshufb	%xmm4, %xmm2
	psrlw	$4, %xmm11
	pand	%xmm6, %xmm11
	pshufb	%xmm11, %xmm14
	pxor	%xmm2, %xmm14
.LBB9_18:
	shrq	%rdx
	pxor	%xmm15, %xmm15
	je	.LBB9_36
	leaq	.Lstatic.46(%rip), %r9
	pextrb	$0, %xmm5, %r10d
	shll	$4, %r10d
	leaq	.Lstatic.44(%rip), %rcx
	movdqu	(%r10,%rcx), %xmm5
	movdqa	%xmm5, %xmm2
	pshufb	%xmm4, %xmm2
	movdqa	%xmm4, -96(%rsp)
	movups	1(%r8,%r9), %xmm4
	movaps	%xmm4, -112(%rsp)
	movdqa	%xmm7, -80(%rsp)
	movdqu	17(%r8,%r9), %xmm7
	movdqa	%xmm8, -64(%rsp)
	movdqu	33(%r8,%r9), %xmm8
	movdqu	49(%r8,%r9), %xmm9
	pxor	%xmm2, %xmm9
	leaq	.Lstatic.45(%rip), %r8
	movdqu	(%r10,%r8), %xmm2
	movdqa	%xmm13, %xmm4
	movdqa	%xmm13, -16(%rsp)
	movdqa	%xmm2, %xmm13
	pshufb	%xmm11, %xmm13
	pxor	%xmm9, %xmm13
	movdqa	%xmm5, %xmm9
	pshufb	-128(%rsp), %xmm9
	pxor	%xmm8, %xmm9
	movdqa	%xmm2, %xmm6
	pshufb	%xmm10, %xmm6
	pxor	%xmm9, %xmm6
	movdqa	%xmm5, %xmm8
	pshufb	%xmm4, %xmm8
	pxor	%xmm7, %xmm8
	movdqa	-80(%rsp), %xmm7
	movdqa	%xmm2, %xmm9
	pshufb	%xmm12, %xmm9
	pxor	%xmm8, %xmm9
	pshufb	%xmm7, %xmm5
	pxor	-112(%rsp), %xmm5
	pshufb	-64(%rsp), %xmm2
	pxor	%xmm5, %xmm2
	movdqa	.LCPI9_0(%rip), %xmm4
	movdqa	%xmm2, %xmm5
	pand	%xmm4, %xmm5
	movdqa	%xmm5, 48(%rsp)
	psrlw	$4, %xmm2
	pand	%xmm4, %xmm2
	movdqa	%xmm2, -112(%rsp)
	movdqa	%xmm9, %xmm2
	pand	%xmm4, %xmm2
	movdqa	%xmm2, 32(%rsp)
	psrlw	$4, %xmm9
	pand	%xmm4, %xmm9
	movdqa	%xmm9, 64(%rsp)
	movdqa	%xmm6, %xmm2
	pand	%xmm4, %xmm2
	movdqa	%xmm2, 16(%rsp)
	psrlw	$4, %xmm6
	pand	%xmm4, %xmm6
	movdqa	%xmm6, -48(%rsp)
	movdqa	%xmm13, %xmm2
	pand	%xmm4, %xmm2
	movdqa	%xmm2, (%rsp)
	psrlw	$4, %xmm13
	pand	%xmm4, %xmm13
	movdqa	%xmm13, -32(%rsp)
	addq	%rax, %rsi
	xorl	%eax, %eax
	movdqa	-16(%rsp), %xmm13
	movdqa	%xmm10, %xmm6
	.p2align	4
.LBB9_20:
	movzwl	(%rsi,%rax,2), %r9d
	movd	%r9d, %xmm4
	pxor	%xmm0, %xmm4
	pmovzxbw	%xmm4, %xmm4
	psllw	$4, %xmm4
	pextrw	$0, %xmm4, %r9d
	movdqa	%xmm11, %xmm8
	movdqu	(%r9,%rcx), %xmm11
	movdqu	(%r9,%r8), %xmm10
	pextrw	$1, %xmm4, %r9d
	movdqu	(%r9,%rcx), %xmm5
	movdqu	(%r9,%r8), %xmm9
	movdqa	%xmm10, %xmm4
	pshufb	-112(%rsp), %xmm4
	movdqa	%xmm12, %xmm2
	movdqa	%xmm5, %xmm12
	pshufb	%xmm7, %xmm12
	pxor	%xmm4, %xmm12
	movdqa	%xmm14, %xmm4
	palignr	$2, %xmm3, %xmm4
	palignr	$2, %xmm1, %xmm3
	palignr	$2, %xmm0, %xmm1
	movdqa	%xmm11, %xmm0
	pshufb	48(%rsp), %xmm0
	pxor	%xmm0, %xmm1
	movdqa	%xmm9, %xmm7
	pshufb	-64(%rsp), %xmm7
	pxor	%xmm12, %xmm1
	movdqa	%xmm2, %xmm12
	movdqa	%xmm1, %xmm0
	pxor	%xmm7, %xmm0
	movdqa	%xmm10, %xmm1
	pshufb	64(%rsp), %xmm1
	movdqa	%xmm5, %xmm7
	pshufb	%xmm13, %xmm7
	pxor	%xmm1, %xmm7
	movdqa	%xmm11, %xmm1
	pshufb	32(%rsp), %xmm1
	pxor	%xmm3, %xmm1
	movdqa	%xmm9, %xmm3
	pshufb	%xmm2, %xmm3
	pxor	%xmm7, %xmm1
	pxor	%xmm3, %xmm1
	movdqa	%xmm10, %xmm3
	pshufb	-48(%rsp), %xmm3
	movdqa	%xmm5, %xmm7
	pshufb	-128(%rsp), %xmm7
	pxor	%xmm3, %xmm7
	movdqa	%xmm11, %xmm3
	pshufb	16(%rsp), %xmm3
	pxor	%xmm3, %xmm4
	pxor	%xmm7, %xmm4
	movdqa	%xmm9, %xmm7
	pshufb	%xmm6, %xmm7
	movdqa	%xmm4, %xmm3
	pxor	%xmm7, %xmm3
	movdqa	-80(%rsp), %xmm7
	pshufb	-32(%rsp), %xmm10
	pshufb	-96(%rsp), %xmm5
	pxor	%xmm10, %xmm5
	pshufb	(%rsp), %xmm11
	psrldq	$2, %xmm14
	pxor	%xmm11, %xmm14
	movdqa	%xmm8, %xmm11
	pxor	%xmm5, %xmm14
	pshufb	%xmm8, %xmm9
	pxor	%xmm9, %xmm14
	incq	%rax
	cmpq	%rax, %rdx
	jne	.LBB9_20
	jmp	.LBB9_36
.LBB9_21:
	movzbl	(%rsi), %r9d
	shlq	$4, %rcx
	leaq	(%rcx,%rcx,4), %r8
	leaq	.Lstatic.46(%rip), %rcx
	shll	$4, %r9d
	leaq	.Lstatic.44(%rip), %r10
	movdqu	(%r9,%r10), %xmm4
	leaq	.Lstatic.45(%rip), %r10
	movdqu	(%r9,%r10), %xmm0
	movdqu	(%rcx,%r8), %xmm2
	movdqa	.LCPI9_0(%rip), %xmm5
	movdqa	%xmm2, %xmm1
	pand	%xmm5, %xmm1
	pshufb	%xmm1, %xmm4
	movdqa	%xmm2, %xmm3
	psrlw	$4, %xmm3
	pand	%xmm5, %xmm3
	pshufb	%xmm3, %xmm0
	pxor	%xmm4, %xmm0
.LBB9_22:
	shrq	%rdx
	pxor	%xmm15, %xmm15
	je	.LBB9_25
	leaq	.Lstatic.46(%rip), %r9
	pextrb	$0, %xmm2, %r10d
	shll	$4, %r10d
	leaq	.Lstatic.44(%rip), %rcx
	movdqu	(%r10,%rcx), %xmm2
	pshufb	%xmm1, %xmm2
	movdqu	1(%r8,%r9), %xmm5
	pxor	%xmm2, %xmm5
	leaq	.Lstatic.45(%rip), %r8
	movdqu	(%r10,%r8), %xmm4
	pshufb	%xmm3, %xmm4
	pxor	%xmm5, %xmm4
	addq	%rax, %rsi
	movdqa	.LCPI9_0(%rip), %xmm5
	movdqa	%xmm4, %xmm2
	pand	%xmm5, %xmm2
	psrlw	$4, %xmm4
	pand	%xmm5, %xmm4
	xorl	%eax, %eax
	.p2align	4
.LBB9_24:
	movzwl	(%rsi,%rax,2), %r9d
	movd	%r9d, %xmm5
	pxor	%xmm0, %xmm5
	pmovzxbw	%xmm5, %xmm5
	psllw	$4, %xmm5
	pextrw	$0, %xmm5, %r9d
	movdqu	(%r9,%rcx), %xmm6
	pshufb	%xmm2, %xmm6
	movdqu	(%r9,%r8), %xmm7
	pextrw	$1, %xmm5, %r9d
	pshufb	%xmm4, %xmm7
	movdqu	(%r9,%rcx), %xmm5
	movdqu	(%r9,%r8), %xmm8
	pshufb	%xmm1, %xmm5
	pxor	%xmm7, %xmm5
	pshufb	%xmm3, %xmm8
	psrldq	$2, %xmm0
	pxor	%xmm6, %xmm0
	pxor	%xmm5, %xmm0
	pxor	%xmm8, %xmm0
	incq	%rax
	cmpq	%rax, %rdx
	jne	.LBB9_24
.LBB9_25:
	pxor	%xmm14, %xmm14
	pxor	%xmm3, %xmm3
	pxor	%xmm1, %xmm1
	jmp	.LBB9_36
.LBB9_26:
	movzbl	(%rsi), %r9d
	shlq	$4, %rcx
	leaq	(%rcx,%rcx,4), %r8
	leaq	.Lstatic.46(%rip), %rcx
	shll	$4, %r9d
	leaq	.Lstatic.44(%rip), %r10
	movdqu	(%r9,%r10), %xmm2
	leaq	.Lstatic.45(%rip), %r10
	movdqu	(%r9,%r10), %xmm1
	movdqu	(%rcx,%r8), %xmm7
	movdqu	16(%rcx,%r8), %xmm3
	movdqa	.LCPI9_0(%rip), %xmm8
	movdqa	%xmm7, %xmm4
	pand	%xmm8, %xmm4
	movdqa	%xmm2, %xmm6
	pshufb	%xmm4, %xmm6
	movdqa	%xmm7, %xmm5
	psrlw	$4, %xmm5
	pand	%xmm8, %xmm5
	movdqa	%xmm1, %xmm0
	pshufb	%xmm5, %xmm0
	pxor	%xmm6, %xmm0
	movdqa	%xmm3, %xmm13
	pand	%xmm8, %xmm13
	pshufb	%xmm13, %xmm2
	psrlw	$4, %xmm3
	pand	%xmm8, %xmm3
	pshufb	%xmm3, %xmm1
	pxor	%xmm2, %xmm1
.LBB9_27:
	shrq	%rdx
	pxor	%xmm15, %xmm15
	je	.LBB9_30
	leaq	.Lstatic.46(%rip), %r9
	pextrb	$0, %xmm7, %r10d
	shll	$4, %r10d
	leaq	.Lstatic.44(%rip), %rcx
	movdqu	(%r10,%rcx), %xmm2
	movdqa	%xmm2, %xmm7
	pshufb	%xmm13, %xmm7
	movdqu	1(%r8,%r9), %xmm9
	movdqu	17(%r8,%r9), %xmm10
	pxor	%xmm7, %xmm10
	leaq	.Lstatic.45(%rip), %r8
	movdqu	(%r10,%r8), %xmm7
	movdqa	%xmm7, %xmm8
	pshufb	%xmm3, %xmm8
	pxor	%xmm10, %xmm8
	pshufb	%xmm4, %xmm2
	pxor	%xmm9, %xmm2
	pshufb	%xmm5, %xmm7
	pxor	%xmm2, %xmm7
	addq	%rax, %rsi
	movdqa	.LCPI9_0(%rip), %xmm2
	movdqa	%xmm7, %xmm6
	pand	%xmm2, %xmm6
	movdqa	%xmm6, -128(%rsp)
	psrlw	$4, %xmm7
	pand	%xmm2, %xmm7
	movdqa	%xmm8, %xmm10
	pand	%xmm2, %xmm10
	psrlw	$4, %xmm8
	pand	%xmm2, %xmm8
	xorl	%eax, %eax
	movdqa	%xmm5, %xmm9
	.p2align	4
.LBB9_29:
	movzwl	(%rsi,%rax,2), %r9d
	movd	%r9d, %xmm2
	pxor	%xmm0, %xmm2
	pmovzxbw	%xmm2, %xmm11
	psllw	$4, %xmm11
	pextrw	$0, %xmm11, %r9d
	movdqu	(%r9,%rcx), %xmm2
	movdqu	(%r9,%r8), %xmm12
	pextrw	$1, %xmm11, %r9d
	movdqu	(%r9,%rcx), %xmm11
	movdqa	%xmm3, %xmm5
	movdqa	%xmm13, %xmm3
	movdqa	%xmm12, %xmm13
	pshufb	%xmm7, %xmm13
	movdqa	%xmm11, %xmm14
	pshufb	%xmm4, %xmm14
	pxor	%xmm13, %xmm14
	movdqa	%xmm1, %xmm13
	palignr	$2, %xmm0, %xmm13
	movdqa	%xmm2, %xmm0
	pshufb	-128(%rsp), %xmm0
	pxor	%xmm0, %xmm13
	movdqa	%xmm4, %xmm6
	movdqu	(%r9,%r8), %xmm4
	pxor	%xmm14, %xmm13
	movdqa	%xmm4, %xmm14
	pshufb	%xmm9, %xmm14
	movdqa	%xmm13, %xmm0
	movdqa	%xmm3, %xmm13
	movdqa	%xmm5, %xmm3
	pxor	%xmm14, %xmm0
	pshufb	%xmm8, %xmm12
	pshufb	%xmm13, %xmm11
	pxor	%xmm12, %xmm11
	pshufb	%xmm10, %xmm2
	psrldq	$2, %xmm1
	pxor	%xmm2, %xmm1
	pxor	%xmm11, %xmm1
	pshufb	%xmm5, %xmm4
	pxor	%xmm4, %xmm1
	movdqa	%xmm6, %xmm4
	incq	%rax
	cmpq	%rax, %rdx
	jne	.LBB9_29
.LBB9_30:
	pxor	%xmm14, %xmm14
	pxor	%xmm3, %xmm3
	jmp	.LBB9_36
.LBB9_31:
	movzbl	(%rsi), %r8d
	shlq	$4, %rcx
	leaq	(%rcx,%rcx,4), %r9
	leaq	.Lstatic.46(%rip), %rcx
	shll	$4, %r8d
	leaq	.Lstatic.44(%rip), %r10
	movdqu	(%r8,%r10), %xmm7
	leaq	.Lstatic.45(%rip), %r10
	movdqu	(%r8,%r10), %xmm15
	movdqu	(%rcx,%r9), %xmm12
	movdqu	16(%rcx,%r9), %xmm9
	movdqu	32(%rcx,%r9), %xmm10
	movdqu	48(%rcx,%r9), %xmm13
	movdqa	.LCPI9_0(%rip), %xmm8
	movdqa	%xmm12, %xmm0
	pand	%xmm8, %xmm0
	movdqa	%xmm7, %xmm1
	movdqa	%xmm0, 80(%rsp)
	pshufb	%xmm0, %xmm1
	movdqa	%xmm12, %xmm2
	psrlw	$4, %xmm2
	pand	%xmm8, %xmm2
	movdqa	%xmm15, %xmm0
	movdqa	%xmm2, 96(%rsp)
	pshufb	%xmm2, %xmm0
	pxor	%xmm1, %xmm0
	movdqa	%xmm9, %xmm4
	pand	%xmm8, %xmm4
	movdqa	%xmm7, %xmm2
	pshufb	%xmm4, %xmm2
	psrlw	$4, %xmm9
	pand	%xmm8, %xmm9
	movdqa	%xmm15, %xmm1
	pshufb	%xmm9, %xmm1
	pxor	%xmm2, %xmm1
	movdqa	%xmm10, %xmm3
	pand	%xmm8, %xmm3
	movdqa	%xmm7, %xmm2
	movdqa	%xmm3, -128(%rsp)
	pshufb	%xmm3, %xmm2
	psrlw	$4, %xmm10
	pand	%xmm8, %xmm10
	movdqa	%xmm15, %xmm3
	pshufb	%xmm10, %xmm3
	pxor	%xmm2, %xmm3
	movdqa	%xmm13, %xmm11
	pand	%xmm8, %xmm11
	movdqa	%xmm7, %xmm2
	pshufb	%xmm11, %xmm2
	psrlw	$4, %xmm13
	pand	%xmm8, %xmm13
	movdqa	%xmm15, %xmm14
	pshufb	%xmm13, %xmm14
	pxor	%xmm2, %xmm14
	movdqu	64(%rcx,%r9), %xmm5
	movdqa	%xmm5, %xmm2
	pand	%xmm8, %xmm2
	movdqa	%xmm5, %xmm6
	psrlw	$4, %xmm6
	pand	%xmm8, %xmm6
	movdqa	%xmm2, %xmm8
	pshufb	%xmm2, %xmm7
	pshufb	%xmm6, %xmm15
	pxor	%xmm7, %xmm15
	movdqa	%xmm6, %xmm7
.LBB9_32:
	shrq	%rdx
	je	.LBB9_36
	leaq	.Lstatic.46(%rip), %r10
	psrldq	$1, %xmm5
	pextrb	$0, %xmm12, %r11d
	shll	$4, %r11d
	leaq	.Lstatic.44(%rip), %rcx
	movdqu	(%r11,%rcx), %xmm2
	movdqa	%xmm4, %xmm12
	movdqa	%xmm2, %xmm4
	pshufb	%xmm8, %xmm4
	pxor	%xmm5, %xmm4
	leaq	.Lstatic.45(%rip), %r8
	movdqa	%xmm10, %xmm6
	movdqa	%xmm10, 112(%rsp)
	movdqu	(%r11,%r8), %xmm10
	movdqa	%xmm10, %xmm5
	pshufb	%xmm7, %xmm5
	pxor	%xmm4, %xmm5
	movdqa	%xmm2, %xmm4
	pshufb	%xmm11, %xmm4
	movdqa	%xmm9, -80(%rsp)
	movups	1(%r9,%r10), %xmm9
	movaps	%xmm9, -96(%rsp)
	movdqu	17(%r9,%r10), %xmm9
	movdqa	%xmm11, -32(%rsp)
	movdqa	%xmm7, -48(%rsp)
	movdqu	33(%r9,%r10), %xmm7
	movdqa	%xmm8, 64(%rsp)
	movdqu	49(%r9,%r10), %xmm8
	pxor	%xmm4, %xmm8
	movdqa	%xmm10, %xmm11
	pshufb	%xmm13, %xmm11
	pxor	%xmm8, %xmm11
	movdqa	%xmm2, %xmm4
	pshufb	-128(%rsp), %xmm4
	pxor	%xmm7, %xmm4
	movdqa	%xmm10, %xmm7
	pshufb	%xmm6, %xmm7
	pxor	%xmm4, %xmm7
	movdqa	%xmm2, %xmm4
	movdqa	%xmm12, -64(%rsp)
	pshufb	%xmm12, %xmm4
	pxor	%xmm9, %xmm4
	movdqa	%xmm10, %xmm6
	pshufb	-80(%rsp), %xmm6
	pxor	%xmm4, %xmm6
	movdqa	80(%rsp), %xmm9
	pshufb	%xmm9, %xmm2
	pxor	-96(%rsp), %xmm2
	movdqa	96(%rsp), %xmm8
	pshufb	%xmm8, %xmm10
	pxor	%xmm2, %xmm10
	movdqa	.LCPI9_0(%rip), %xmm2
	movdqa	%xmm10, %xmm4
	pand	%xmm2, %xmm4
	movdqa	%xmm4, (%rsp)
	psrlw	$4, %xmm10
	pand	%xmm2, %xmm10
	movdqa	%xmm10, -96(%rsp)
	movdqa	%xmm6, %xmm4
	pand	%xmm2, %xmm4
	movdqa	%xmm4, -16(%rsp)
	psrlw	$4, %xmm6
	pand	%xmm2, %xmm6
	movdqa	%xmm6, 16(%rsp)
	movdqa	%xmm7, %xmm4
	pand	%xmm2, %xmm4
	movdqa	%xmm4, 160(%rsp)
	psrlw	$4, %xmm7
	pand	%xmm2, %xmm7
	movdqa	%xmm7, 32(%rsp)
	movdqa	%xmm11, %xmm4
	pand	%xmm2, %xmm4
	movdqa	%xmm4, 144(%rsp)
	psrlw	$4, %xmm11
	pand	%xmm2, %xmm11
	movdqa	%xmm11, 48(%rsp)
	movdqa	%xmm5, %xmm4
	pand	%xmm2, %xmm4
	movdqa	%xmm4, 128(%rsp)
	psrlw	$4, %xmm5
	pand	%xmm2, %xmm5
	movdqa	%xmm5, -112(%rsp)
	addq	%rax, %rsi
	xorl	%eax, %eax
	movdqa	112(%rsp), %xmm11
	.p2align	4
.LBB9_34:
	movzwl	(%rsi,%rax,2), %r9d
	movd	%r9d, %xmm2
	pxor	%xmm0, %xmm2
	pmovzxbw	%xmm2, %xmm2
	psllw	$4, %xmm2
	pextrw	$0, %xmm2, %r9d
	movdqu	(%r9,%rcx), %xmm4
	movdqu	(%r9,%r8), %xmm6
	pextrw	$1, %xmm2, %r9d
	movdqu	(%r9,%rcx), %xmm7
	movdqu	(%r9,%r8), %xmm10
	movdqa	%xmm6, %xmm2
	pshufb	-96(%rsp), %xmm2
	movdqa	%xmm13, %xmm12
	movdqa	%xmm7, %xmm13
	pshufb	%xmm9, %xmm13
	pxor	%xmm2, %xmm13
	movdqa	%xmm15, %xmm2
	palignr	$2, %xmm14, %xmm2
	palignr	$2, %xmm3, %xmm14
	palignr	$2, %xmm1, %xmm3
	palignr	$2, %xmm0, %xmm1
	movdqa	%xmm4, %xmm0
	pshufb	(%rsp), %xmm0
	pxor	%xmm0, %xmm1
	movdqa	%xmm10, %xmm5
	pshufb	%xmm8, %xmm5
	pxor	%xmm13, %xmm1
	movdqa	%xmm1, %xmm0
	pxor	%xmm5, %xmm0
	movdqa	%xmm6, %xmm1
	pshufb	16(%rsp), %xmm1
	movdqa	%xmm7, %xmm5
	pshufb	-64(%rsp), %xmm5
	pxor	%xmm1, %xmm5
	movdqa	%xmm4, %xmm1
	pshufb	-16(%rsp), %xmm1
	pxor	%xmm3, %xmm1
	movdqa	%xmm10, %xmm3
	pshufb	-80(%rsp), %xmm3
	pxor	%xmm5, %xmm1
	pxor	%xmm3, %xmm1
	movdqa	%xmm6, %xmm3
	pshufb	32(%rsp), %xmm3
	movdqa	%xmm7, %xmm5
	pshufb	-128(%rsp), %xmm5
	pxor	%xmm3, %xmm5
	movdqa	%xmm4, %xmm3
	pshufb	160(%rsp), %xmm3
	pxor	%xmm3, %xmm14
	movdqa	%xmm10, %xmm13
	pshufb	%xmm11, %xmm13
	pxor	%xmm5, %xmm14
	movdqa	%xmm14, %xmm3
	pxor	%xmm13, %xmm3
	movdqa	%xmm6, %xmm5
	pshufb	48(%rsp), %xmm5
	movdqa	%xmm7, %xmm13
	pshufb	-32(%rsp), %xmm13
	pxor	%xmm5, %xmm13
	movdqa	%xmm4, %xmm14
	pshufb	144(%rsp), %xmm14
	pxor	%xmm2, %xmm14
	pxor	%xmm13, %xmm14
	movdqa	%xmm12, %xmm13
	movdqa	%xmm10, %xmm2
	pshufb	%xmm12, %xmm2
	pxor	%xmm2, %xmm14
	pshufb	-112(%rsp), %xmm6
	pshufb	64(%rsp), %xmm7
	pxor	%xmm6, %xmm7
	pshufb	128(%rsp), %xmm4
	psrldq	$2, %xmm15
	pxor	%xmm4, %xmm15
	pxor	%xmm7, %xmm15
	pshufb	-48(%rsp), %xmm10
	pxor	%xmm10, %xmm15
	incq	%rax
	cmpq	%rax, %rdx
	jne	.LBB9_34
.LBB9_36:
	movdqu	%xmm0, (%rdi)
	movdqu	%xmm1, 16(%rdi)
	movdqu	%xmm3, 32(%rdi)
	movdqu	%xmm14, 48(%rdi)
	movdqu	%xmm15, 64(%rdi)
	pxor	%xmm0, %xmm0
	movdqu	%xmm0, 80(%rdi)
	addq	$184, %rsp
	.cfi_def_cfa_offset 8
	retq
.Lfunc_end9:
	.size	"dm_code::encoding::divide", .Lfunc_end9-"dm_code::encoding::divide"
	.cfi_endproc
	.section	.rodata,"a",@progbits
	.p2align	2, 0x0
.LJTI9_0:
	.long	.LBB9_2-.LJTI9_0
	.long	.LBB9_8-.LJTI9_0
	.long	.LBB9_4-.LJTI9_0
	.long	.LBB9_6-.LJTI9_0

	.section	.rodata.cst16,"aM",@progbits,16
	.p2align	4, 0x0
.LCPI10_0:
	.zero	16,15
.LCPI10_1:
	.byte	0
	.byte	0
	.byte	0
	.byte	0
	.byte	0
	.byte	0
	.byte	0
	.byte	0
	.byte	1
	.byte	0
	.byte	0
	.byte	0
	.byte	0
	.byte	0
	.byte	0
	.byte	0
.LCPI10_2:
	.quad	2
	.quad	2
.LCPI10_3:
	.quad	-9223372036854775808
	.quad	-9223372036854775808
.LCPI10_4:
	.byte	0
	.byte	1
	.byte	0
	.byte	0
	.byte	0
	.byte	0
	.byte	0
	.byte	0
	.byte	0
	.byte	0
	.byte	0
	.byte	0
	.byte	0
	.byte	0
	.byte	0
	.byte	0
.LCPI10_5:
	.long	1
	.long	0
	.long	0
	.long	0
.LCPI10_6:
	.byte	15
	.byte	15
	.byte	0
	.byte	1
	.byte	2
	.byte	3
	.byte	4
	.byte	5
	.byte	6
	.byte	7
	.byte	8
	.byte	9
	.byte	10
	.byte	11
	.byte	12
	.byte	13
.LCPI10_7:
	.byte	15
	.byte	15
	.byte	15
	.byte	15
	.byte	0
	.byte	1
	.byte	2
	.byte	3
	.byte	4
	.byte	5
	.byte	6
	.byte	7
	.byte	8
	.byte	9
	.byte	10
	.byte	11
.LCPI10_8:
	.byte	15
	.byte	15
	.byte	15
	.byte	15
	.byte	15
	.byte	15
	.byte	15
	.byte	15
	.byte	0
	.byte	1
	.byte	2
	.byte	3
	.byte	4
	.byte	5
	.byte	6
	.byte	7
.LCPI10_9:
	.zero	16,1
.LCPI10_10:
	.quad	4294967297
	.quad	4294967297
	.text
	.p2align	4
	.type	"dm_code::correction::mend::<#9f76af21849881bb>",@function
"dm_code::correction::mend::<#9f76af21849881bb>":
	.cfi_startproc
	pushq	%rbp
	.cfi_def_cfa_offset 16
	pushq	%r15
	.cfi_def_cfa_offset 24
	pushq	%r14
	.cfi_def_cfa_offset 32
	pushq	%r13
	.cfi_def_cfa_offset 40
	pushq	%r12
	.cfi_def_cfa_offset 48
	pushq	%rbx
	.cfi_def_cfa_offset 56
	subq	$1576, %rsp
	.cfi_def_cfa_offset 1632
	.cfi_offset %rbx, -56
	.cfi_offset %r12, -48
	.cfi_offset %r13, -40
	.cfi_offset %r14, -32
	.cfi_offset %r15, -24
	.cfi_offset %rbp, -16
	movq	%r9, %r13
	movq	%rdx, %r12
	movq	%rsi, %rbx
	movq	%rdi, 48(%rsp)
	xorps	%xmm0, %xmm0
	movaps	%xmm0, 896(%rsp)
	movaps	%xmm0, 880(%rsp)
	movaps	%xmm0, 864(%rsp)
	movaps	%xmm0, 848(%rsp)
	movaps	%xmm0, 832(%rsp)
	movaps	%xmm0, 816(%rsp)
	movaps	%xmm0, 912(%rsp)
	movaps	%xmm0, 928(%rsp)
	movaps	%xmm0, 944(%rsp)
	movaps	%xmm0, 960(%rsp)
	movaps	%xmm0, 976(%rsp)
	movaps	%xmm0, 1280(%rsp)
	movaps	%xmm0, 1296(%rsp)
	movaps	%xmm0, 1312(%rsp)
	movaps	%xmm0, 1328(%rsp)
	movaps	%xmm0, 1344(%rsp)
	movaps	%xmm0, 992(%rsp)
	movaps	%xmm0, 1008(%rsp)
	movaps	%xmm0, 1024(%rsp)
	movaps	%xmm0, 1040(%rsp)
	movaps	%xmm0, 1056(%rsp)
	movaps	%xmm0, 1072(%rsp)
	movaps	%xmm0, 1424(%rsp)
	movaps	%xmm0, 1408(%rsp)
	movaps	%xmm0, 1392(%rsp)
	movaps	%xmm0, 1376(%rsp)
	movaps	%xmm0, 1360(%rsp)
	leaq	1280(%rsp), %rdi
	movq	%rcx, %rsi
	movq	%r8, %rdx
	movq	%r12, %rcx
	callq	"dm_code::syndrome::syndromes_of_short"
	movaps	1344(%rsp), %xmm0
	movaps	%xmm0, 1504(%rsp)
	movaps	1280(%rsp), %xmm0
	movaps	1296(%rsp), %xmm1
	movaps	1312(%rsp), %xmm2
	movaps	1328(%rsp), %xmm3
	movaps	%xmm3, 1488(%rsp)
	movaps	%xmm2, 1472(%rsp)
	movaps	%xmm1, 1456(%rsp)
	movaps	%xmm0, 1440(%rsp)
	movq	1512(%rsp), %r14
	movq	%r12, %rax
	shrq	%rax
	movq	%rax, 64(%rsp)
	xorps	%xmm0, %xmm0
	movaps	%xmm0, 1168(%rsp)
	movaps	%xmm0, 1152(%rsp)
	movaps	%xmm0, 1136(%rsp)
	movaps	%xmm0, 1120(%rsp)
	movaps	%xmm0, 1104(%rsp)
	movaps	%xmm0, 1088(%rsp)
	movaps	%xmm0, 304(%rsp)
	movaps	%xmm0, 320(%rsp)
	movaps	%xmm0, 336(%rsp)
	movaps	%xmm0, 1520(%rsp)
	movaps	%xmm0, 1536(%rsp)
	movaps	%xmm0, 1552(%rsp)
	movaps	%xmm0, 1184(%rsp)
	movaps	%xmm0, 1200(%rsp)
	movaps	%xmm0, 1216(%rsp)
	movaps	%xmm0, 1232(%rsp)
	movaps	%xmm0, 1248(%rsp)
	movaps	%xmm0, 1264(%rsp)
	movb	$1, 432(%rsp)
	movups	%xmm0, 433(%rsp)
	movups	%xmm0, 449(%rsp)
	movups	%xmm0, 465(%rsp)
	movups	%xmm0, 481(%rsp)
	movups	%xmm0, 497(%rsp)
	movups	%xmm0, 513(%rsp)
	movq	$0, 528(%rsp)
	movb	$1, 536(%rsp)
	movups	%xmm0, 537(%rsp)
	movups	%xmm0, 553(%rsp)
	movups	%xmm0, 568(%rsp)
	movb	$1, 584(%rsp)
	movl	$0, 585(%rsp)
	movl	$0, 588(%rsp)
	movq	$1, 592(%rsp)
	movaps	%xmm0, 192(%rsp)
	movaps	%xmm0, 176(%rsp)
	movaps	%xmm0, 160(%rsp)
	movaps	%xmm0, 144(%rsp)
	movaps	%xmm0, 128(%rsp)
	movaps	%xmm0, 112(%rsp)
	movaps	%xmm0, 96(%rsp)
	movaps	%xmm0, 80(%rsp)
	leaq	80(%rsp), %rdi
	leaq	1440(%rsp), %r15
	movq	%r15, %rsi
	movq	%r14, %rdx
	callq	memcpy@PLT
	xorps	%xmm0, %xmm0
	movaps	%xmm0, 224(%rsp)
	movaps	%xmm0, 240(%rsp)
	movaps	%xmm0, 256(%rsp)
	movaps	%xmm0, 272(%rsp)
	movaps	%xmm0, 288(%rsp)
	leaq	224(%rsp), %rdi
	movq	%r15, %rsi
	movq	%r14, %rdx
	callq	memcpy@PLT
	movaps	80(%rsp), %xmm0
	movaps	96(%rsp), %xmm1
	movaps	112(%rsp), %xmm2
	movaps	128(%rsp), %xmm3
	movaps	%xmm0, 608(%rsp)
	movaps	%xmm1, 624(%rsp)
	movaps	%xmm2, 640(%rsp)
	movaps	%xmm3, 656(%rsp)
	movaps	144(%rsp), %xmm0
	movaps	%xmm0, 672(%rsp)
	movaps	160(%rsp), %xmm0
	movaps	%xmm0, 688(%rsp)
	movaps	176(%rsp), %xmm0
	movaps	%xmm0, 704(%rsp)
	movaps	192(%rsp), %xmm0
	movaps	%xmm0, 720(%rsp)
	movaps	224(%rsp), %xmm0
	movdqa	240(%rsp), %xmm1
	movdqa	256(%rsp), %xmm2
	movdqa	272(%rsp), %xmm3
	movaps	%xmm0, 736(%rsp)
	movdqa	%xmm1, 752(%rsp)
	movdqa	%xmm2, 768(%rsp)
	movdqa	%xmm3, 784(%rsp)
	movdqa	288(%rsp), %xmm0
	movdqa	%xmm0, 800(%rsp)
	testq	%r14, %r14
	movq	%r12, 16(%rsp)
	movq	%r14, (%rsp)
	je	.LBB10_21
	movq	%r14, %r8
	movq	%rbx, 24(%rsp)
	movq	%r13, 8(%rsp)
	leaq	736(%rsp), %r9
	xorl	%r10d, %r10d
	testb	$15, %r8b
	setne	%r10b
	shll	$4, %r10d
	addq	%r14, %r10
	shrq	$4, %r10
	movl	$80, %eax
	subq	%r14, %rax
	xorl	%r15d, %r15d
	cmpq	$80, %r14
	cmovaeq	%r15, %rax
	movq	%rax, 72(%rsp)
	leaq	(%rsp,%r14), %rax
	addq	$80, %rax
	movq	%rax, 56(%rsp)
	movq	%r10, %rbx
	andq	$-2, %rbx
	movl	$1, %r13d
	xorl	%r11d, %r11d
	jmp	.LBB10_4
	.p2align	4
.LBB10_2:
	movq	%rbp, 528(%rsp)
	movdqa	80(%rsp), %xmm0
	movdqa	96(%rsp), %xmm1
	movdqa	112(%rsp), %xmm2
	leaq	536(%rsp), %rax
	movdqu	%xmm2, 32(%rax)
	movdqu	%xmm1, 16(%rax)
	movdqu	%xmm0, (%rax)
	leaq	.Lstatic.48(%rip), %rax
	movzbl	(%r12,%rax), %eax
	xorl	$255, %eax
	leal	-255(%rax), %ecx
	cmpq	$1, %r12
	cmovnel	%eax, %ecx
	movzwl	%cx, %eax
	leaq	.Lstatic.49(%rip), %rcx
	movzbl	(%rax,%rcx), %eax
	movb	%al, 584(%rsp)
	xorl	%r13d, %r13d
	movq	%rbp, %r15
.LBB10_3:
	incq	%r13
	movq	%r13, 592(%rsp)
	cmpq	%r8, %r11
	je	.LBB10_18
.LBB10_4:
	movzbl	608(%rsp,%r11), %r12d
	incq	%r11
	testq	%r12, %r12
	je	.LBB10_3
	movq	%r11, %rax
	subq	%r15, %rax
	cmpq	%r15, %rax
	movq	%r15, %rbp
	cmovaq	%rax, %rbp
	cmpq	%rbp, 64(%rsp)
	jb	.LBB10_113
	movzbl	584(%rsp), %ecx
	movl	%r12d, %edx
	shll	$4, %edx
	movl	%ecx, %esi
	andl	$15, %esi
	leaq	.Lstatic.44(%rip), %rdi
	addq	%rdx, %rdi
	shrl	$4, %ecx
	leaq	.Lstatic.45(%rip), %r14
	addq	%r14, %rdx
	movzbl	(%rcx,%rdx), %r14d
	xorb	(%rsi,%rdi), %r14b
	cmpq	%r15, %rax
	jbe	.LBB10_8
	movq	56(%rsp), %rdi
	xorl	%esi, %esi
	movq	72(%rsp), %rdx
	movq	%r12, 40(%rsp)
	movq	%r10, %r12
	movq	%r11, %r15
	callq	memset@PLT
	leaq	80(%rsp), %rdi
	leaq	608(%rsp), %rsi
	movq	(%rsp), %rdx
	callq	memcpy@PLT
	movq	%r15, %r11
	movq	%r12, %r10
	movq	40(%rsp), %r12
	leaq	736(%rsp), %r9
	movq	(%rsp), %r8
	movups	80(%rsp), %xmm0
	movups	96(%rsp), %xmm1
	movdqu	112(%rsp), %xmm2
	movdqu	128(%rsp), %xmm3
	movaps	%xmm0, 224(%rsp)
	movaps	%xmm1, 240(%rsp)
	movdqa	%xmm2, 256(%rsp)
	movdqa	%xmm3, 272(%rsp)
	movups	144(%rsp), %xmm0
	movaps	%xmm0, 288(%rsp)
	jmp	.LBB10_9
	.p2align	4
.LBB10_8:
	movups	64(%r9), %xmm0
	movaps	%xmm0, 288(%rsp)
	movups	(%r9), %xmm0
	movups	16(%r9), %xmm1
	movdqu	32(%r9), %xmm2
	movdqu	48(%r9), %xmm3
	movdqa	%xmm3, 272(%rsp)
	movdqa	%xmm2, 256(%rsp)
	movaps	%xmm1, 240(%rsp)
	movaps	%xmm0, 224(%rsp)
.LBB10_9:
	movzbl	%r14b, %eax
	shll	$4, %eax
	leaq	.Lstatic.44(%rip), %rcx
	movdqu	(%rax,%rcx), %xmm1
	leaq	.Lstatic.45(%rip), %rcx
	movdqu	(%rax,%rcx), %xmm0
	testq	%r10, %r10
	je	.LBB10_16
	cmpq	$1, %r10
	jne	.LBB10_12
	xorl	%eax, %eax
	jmp	.LBB10_15
	.p2align	4
.LBB10_12:
	leaq	608(%rsp), %rcx
	xorl	%eax, %eax
	.p2align	4
.LBB10_13:
	movdqu	128(%rcx), %xmm2
	movdqa	.LCPI10_0(%rip), %xmm3
	movdqa	%xmm2, %xmm4
	pand	%xmm3, %xmm4
	movdqa	%xmm1, %xmm5
	pshufb	%xmm4, %xmm5
	psrlw	$4, %xmm2
	pand	%xmm3, %xmm2
	movdqa	%xmm0, %xmm4
	pshufb	%xmm2, %xmm4
	movdqu	(%rcx,%r13), %xmm2
	pxor	%xmm5, %xmm2
	pxor	%xmm4, %xmm2
	movdqu	16(%rcx,%r13), %xmm4
	movdqu	%xmm2, (%rcx,%r13)
	movdqu	144(%rcx), %xmm2
	movdqa	%xmm2, %xmm5
	pand	%xmm3, %xmm5
	movdqa	%xmm1, %xmm6
	pshufb	%xmm5, %xmm6
	pxor	%xmm4, %xmm6
	psrlw	$4, %xmm2
	pand	%xmm3, %xmm2
	movdqa	%xmm0, %xmm3
	pshufb	%xmm2, %xmm3
	pxor	%xmm6, %xmm3
	movdqu	%xmm3, 16(%rcx,%r13)
	addq	$2, %rax
	addq	$32, %rcx
	cmpq	%rax, %rbx
	jne	.LBB10_13
	testb	$1, %r10b
	je	.LBB10_16
.LBB10_15:
	leaq	(%rsp,%r13), %rcx
	addq	$608, %rcx
	shlq	$4, %rax
	movdqu	736(%rsp,%rax), %xmm2
	movdqa	.LCPI10_0(%rip), %xmm3
	movdqa	%xmm2, %xmm4
	pand	%xmm3, %xmm4
	movdqa	%xmm1, %xmm5
	pshufb	%xmm4, %xmm5
	psrlw	$4, %xmm2
	pand	%xmm3, %xmm2
	movdqa	%xmm0, %xmm3
	pshufb	%xmm2, %xmm3
	movdqu	(%rcx,%rax), %xmm2
	pxor	%xmm5, %xmm2
	pxor	%xmm3, %xmm2
	movdqu	%xmm2, (%rcx,%rax)
.LBB10_16:
	movaps	288(%rsp), %xmm2
	movups	%xmm2, 64(%r9)
	movaps	224(%rsp), %xmm2
	movaps	240(%rsp), %xmm3
	movaps	256(%rsp), %xmm4
	movaps	272(%rsp), %xmm5
	movups	%xmm5, 48(%r9)
	movups	%xmm4, 32(%r9)
	movups	%xmm3, 16(%r9)
	movups	%xmm2, (%r9)
	movups	432(%rsp), %xmm2
	movups	448(%rsp), %xmm3
	movups	464(%rsp), %xmm4
	movdqu	536(%rsp), %xmm5
	movaps	%xmm4, 112(%rsp)
	movaps	%xmm3, 96(%rsp)
	movaps	%xmm2, 80(%rsp)
	movdqa	.LCPI10_0(%rip), %xmm2
	movdqa	%xmm5, %xmm3
	pand	%xmm2, %xmm3
	movdqa	%xmm1, %xmm4
	pshufb	%xmm3, %xmm4
	psrlw	$4, %xmm5
	pand	%xmm2, %xmm5
	movdqa	%xmm0, %xmm3
	pshufb	%xmm5, %xmm3
	movdqu	432(%rsp,%r13), %xmm5
	pxor	%xmm4, %xmm5
	pxor	%xmm3, %xmm5
	movdqu	%xmm5, 432(%rsp,%r13)
	movdqu	552(%rsp), %xmm3
	movdqa	%xmm3, %xmm4
	pand	%xmm2, %xmm4
	movdqa	%xmm1, %xmm5
	pshufb	%xmm4, %xmm5
	psrlw	$4, %xmm3
	pand	%xmm2, %xmm3
	movdqa	%xmm0, %xmm4
	pshufb	%xmm3, %xmm4
	movdqu	448(%rsp,%r13), %xmm3
	pxor	%xmm5, %xmm3
	pxor	%xmm4, %xmm3
	movdqu	%xmm3, 448(%rsp,%r13)
	movdqu	568(%rsp), %xmm3
	movdqa	%xmm3, %xmm4
	pand	%xmm2, %xmm4
	pshufb	%xmm4, %xmm1
	psrlw	$4, %xmm3
	pand	%xmm2, %xmm3
	pshufb	%xmm3, %xmm0
	movdqu	464(%rsp,%r13), %xmm2
	pxor	%xmm1, %xmm2
	pxor	%xmm0, %xmm2
	movdqu	%xmm2, 464(%rsp,%r13)
	movq	528(%rsp), %r15
	cmpq	%rbp, %r15
	jb	.LBB10_2
	movq	592(%rsp), %r13
	jmp	.LBB10_3
.LBB10_18:
	pxor	%xmm0, %xmm0
	movdqa	%xmm0, 96(%rsp)
	movdqa	%xmm0, 80(%rsp)
	movq	$0, 112(%rsp)
	cmpq	$34, %r15
	jbe	.LBB10_22
	movdqa	%xmm0, 336(%rsp)
	movdqa	%xmm0, 320(%rsp)
	movdqa	%xmm0, 304(%rsp)
	movdqa	%xmm0, 112(%rsp)
	movdqa	%xmm0, 96(%rsp)
	movdqa	%xmm0, 80(%rsp)
	cmpq	$-1, %r15
	movq	16(%rsp), %r12
	movq	8(%rsp), %r13
	movq	24(%rsp), %rbx
	jne	.LBB10_25
	xorl	%r15d, %r15d
	jmp	.LBB10_24
.LBB10_21:
	pxor	%xmm0, %xmm0
	movdqa	%xmm0, 96(%rsp)
	movdqa	%xmm0, 80(%rsp)
	movq	$0, 112(%rsp)
	xorl	%r15d, %r15d
	jmp	.LBB10_23
.LBB10_22:
	movq	16(%rsp), %r12
	movq	8(%rsp), %r13
	movq	24(%rsp), %rbx
.LBB10_23:
	leaq	80(%rsp), %rdi
	leaq	608(%rsp), %rsi
	movq	%r15, %rdx
	callq	memcpy@PLT
	movq	%r15, 120(%rsp)
	movdqa	80(%rsp), %xmm0
	movdqa	96(%rsp), %xmm1
	movdqa	%xmm0, 304(%rsp)
	movdqa	%xmm1, 320(%rsp)
	movq	112(%rsp), %rax
	movq	%rax, 336(%rsp)
	movq	120(%rsp), %rax
	movq	%rax, 344(%rsp)
	incq	%r15
	pxor	%xmm0, %xmm0
	movdqa	%xmm0, 96(%rsp)
	movdqa	%xmm0, 80(%rsp)
	movq	$0, 112(%rsp)
.LBB10_24:
	leaq	80(%rsp), %rdi
	leaq	432(%rsp), %rsi
	movq	%r15, %rdx
	callq	memcpy@PLT
	movq	%r15, 120(%rsp)
	movq	(%rsp), %r8
.LBB10_25:
	movaps	80(%rsp), %xmm0
	movaps	96(%rsp), %xmm1
	movaps	112(%rsp), %xmm2
	movaps	%xmm2, 1552(%rsp)
	movaps	%xmm0, 1184(%rsp)
	movaps	%xmm1, 1200(%rsp)
	movaps	%xmm2, 1216(%rsp)
	movaps	304(%rsp), %xmm3
	movaps	320(%rsp), %xmm4
	movdqa	336(%rsp), %xmm5
	movaps	%xmm3, 1232(%rsp)
	movaps	%xmm0, 1088(%rsp)
	movaps	%xmm1, 1104(%rsp)
	movaps	%xmm2, 1120(%rsp)
	movaps	%xmm3, 1136(%rsp)
	movaps	%xmm4, 1152(%rsp)
	movdqa	%xmm5, 1168(%rsp)
	movaps	1168(%rsp), %xmm0
	movaps	%xmm0, 1072(%rsp)
	movaps	1152(%rsp), %xmm0
	movaps	%xmm0, 1056(%rsp)
	movaps	1088(%rsp), %xmm0
	movaps	1104(%rsp), %xmm1
	movaps	1120(%rsp), %xmm2
	movaps	1136(%rsp), %xmm3
	movaps	%xmm3, 1040(%rsp)
	movaps	%xmm2, 1024(%rsp)
	movaps	%xmm1, 1008(%rsp)
	movaps	%xmm0, 992(%rsp)
	movaps	1072(%rsp), %xmm0
	movaps	%xmm0, 896(%rsp)
	movaps	1056(%rsp), %xmm0
	movaps	%xmm0, 880(%rsp)
	movaps	992(%rsp), %xmm0
	movaps	1008(%rsp), %xmm1
	movaps	1024(%rsp), %xmm2
	movaps	1040(%rsp), %xmm3
	movaps	%xmm3, 864(%rsp)
	movaps	%xmm2, 848(%rsp)
	movaps	%xmm1, 832(%rsp)
	movaps	%xmm0, 816(%rsp)
	movq	256(%r13), %rdx
	testq	%rdx, %rdx
	je	.LBB10_27
	movq	%r13, %rdi
	xorl	%esi, %esi
	callq	memset@PLT
	movq	(%rsp), %r8
	movq	$0, 256(%r13)
.LBB10_27:
	cmpq	$255, %rbx
	movq	48(%rsp), %rsi
	jbe	.LBB10_29
	xorl	%ebx, %ebx
	jmp	.LBB10_48
.LBB10_29:
	movq	%r13, %rax
	subq	%rsi, %rax
	cmpq	%rbx, %rax
	jae	.LBB10_32
	cmpq	$4, %rbx
	setb	%cl
	cmpq	$32, %rax
	setb	%al
	orb	%cl, %al
	je	.LBB10_33
	xorl	%eax, %eax
	jmp	.LBB10_42
.LBB10_32:
	movq	%r13, %rdi
	movq	%rbx, %rdx
	callq	memmove@PLT
	movq	(%rsp), %r8
	jmp	.LBB10_47
.LBB10_33:
	cmpq	$16, %rbx
	jae	.LBB10_35
	xorl	%eax, %eax
	jmp	.LBB10_39
.LBB10_35:
	movl	%ebx, %eax
	andl	$240, %eax
	xorl	%ecx, %ecx
	.p2align	4
.LBB10_36:
	movups	(%rsi,%rcx), %xmm0
	movups	%xmm0, (%r13,%rcx)
	addq	$16, %rcx
	cmpq	%rcx, %rax
	jne	.LBB10_36
	cmpq	%rax, %rbx
	je	.LBB10_47
	testb	$12, %bl
	je	.LBB10_42
.LBB10_39:
	movq	%rax, %rcx
	movl	%ebx, %eax
	andl	$252, %eax
	.p2align	4
.LBB10_40:
	movl	(%rsi,%rcx), %edx
	movl	%edx, (%r13,%rcx)
	addq	$4, %rcx
	cmpq	%rcx, %rax
	jne	.LBB10_40
	cmpq	%rax, %rbx
	je	.LBB10_47
.LBB10_42:
	movq	%rbx, %rdx
	movq	%rax, %rcx
	andq	$3, %rdx
	je	.LBB10_45
	movq	%rax, %rcx
	.p2align	4
.LBB10_44:
	movzbl	(%rsi,%rcx), %edi
	movb	%dil, (%r13,%rcx)
	incq	%rcx
	decq	%rdx
	jne	.LBB10_44
.LBB10_45:
	subq	%rbx, %rax
	cmpq	$-4, %rax
	ja	.LBB10_47
	.p2align	4
.LBB10_46:
	movzbl	(%rsi,%rcx), %eax
	movb	%al, (%r13,%rcx)
	movzbl	1(%rsi,%rcx), %eax
	movb	%al, 1(%r13,%rcx)
	movzbl	2(%rsi,%rcx), %eax
	movb	%al, 2(%r13,%rcx)
	movzbl	3(%rsi,%rcx), %eax
	movb	%al, 3(%r13,%rcx)
	addq	$4, %rcx
	cmpq	%rcx, %rbx
	jne	.LBB10_46
.LBB10_47:
	movq	%rbx, 256(%r13)
.LBB10_48:
	xorps	%xmm0, %xmm0
	movaps	%xmm0, 672(%rsp)
	movaps	%xmm0, 656(%rsp)
	movaps	%xmm0, 640(%rsp)
	movaps	%xmm0, 624(%rsp)
	movaps	%xmm0, 608(%rsp)
	leaq	608(%rsp), %rdi
	leaq	1440(%rsp), %rsi
	movq	%r8, %rdx
	callq	memcpy@PLT
	movdqa	672(%rsp), %xmm0
	movdqa	%xmm0, 1424(%rsp)
	movapd	608(%rsp), %xmm1
	movapd	624(%rsp), %xmm2
	movdqa	640(%rsp), %xmm3
	movapd	656(%rsp), %xmm4
	movapd	%xmm4, 1408(%rsp)
	movdqa	%xmm3, 1392(%rsp)
	movapd	%xmm2, 1376(%rsp)
	movapd	%xmm1, 1360(%rsp)
	movapd	%xmm1, 912(%rsp)
	movapd	%xmm2, 928(%rsp)
	movdqa	%xmm3, 944(%rsp)
	movapd	%xmm4, 960(%rsp)
	movdqa	%xmm0, 976(%rsp)
	movq	856(%rsp), %rcx
	testq	%rcx, %rcx
	je	.LBB10_51
	cmpq	$1, %rcx
	jne	.LBB10_52
	xorl	%eax, %eax
	xorl	%edx, %edx
	jmp	.LBB10_55
.LBB10_51:
	pxor	%xmm0, %xmm0
	movdqa	%xmm0, 608(%rsp)
	movdqa	%xmm0, 624(%rsp)
	movdqa	%xmm0, 640(%rsp)
	xorl	%r10d, %r10d
	xorl	%eax, %eax
	jmp	.LBB10_75
.LBB10_52:
	movq	%rcx, %rdx
	andq	$-2, %rdx
	movdqa	.LCPI10_1(%rip), %xmm2
	pxor	%xmm3, %xmm3
	xorl	%eax, %eax
	xorpd	%xmm1, %xmm1
	.p2align	4
.LBB10_53:
	pmovzxbq	816(%rsp,%rax), %xmm0
	movapd	%xmm1, %xmm4
	pcmpeqd	%xmm5, %xmm5
	movdqa	%xmm2, %xmm1
	psubq	%xmm5, %xmm1
	pcmpeqq	%xmm3, %xmm0
	blendvpd	%xmm0, %xmm4, %xmm1
	addq	$2, %rax
	paddq	.LCPI10_2(%rip), %xmm2
	cmpq	%rax, %rdx
	jne	.LBB10_53
	pshufd	$238, %xmm1, %xmm2
	movdqa	.LCPI10_3(%rip), %xmm3
	movdqa	%xmm1, %xmm0
	pxor	%xmm3, %xmm0
	pxor	%xmm2, %xmm3
	pcmpgtq	%xmm3, %xmm0
	blendvpd	%xmm0, %xmm1, %xmm2
	movq	%xmm2, %rax
	cmpq	%rdx, %rcx
	je	.LBB10_57
.LBB10_55:
	negq	%rcx
	incq	%rdx
	.p2align	4
.LBB10_56:
	cmpb	$0, 815(%rsp,%rdx)
	cmovneq	%rdx, %rax
	leaq	(%rcx,%rdx), %rsi
	incq	%rsi
	incq	%rdx
	cmpq	$1, %rsi
	jne	.LBB10_56
.LBB10_57:
	movq	904(%rsp), %rcx
	cmpq	$1, %rax
	movq	%rax, %r10
	adcq	$-1, %r10
	pxor	%xmm0, %xmm0
	movdqa	%xmm0, 608(%rsp)
	movdqa	%xmm0, 624(%rsp)
	movdqa	%xmm0, 640(%rsp)
	cmpq	$2, %rax
	jae	.LBB10_59
	xorl	%r10d, %r10d
	jmp	.LBB10_75
.LBB10_59:
	jne	.LBB10_61
	xorl	%edx, %edx
	jmp	.LBB10_71
.LBB10_61:
	movq	%r10, %rsi
	andq	$-2, %rsi
	xorl	%edi, %edi
	jmp	.LBB10_64
	.p2align	4
.LBB10_62:
	movzbl	865(%rsp,%rdx), %r8d
.LBB10_63:
	movb	%r8b, 609(%rsp,%rdx)
	incq	%rdi
	movq	%rdi, 648(%rsp)
	cmpq	%rsi, %rdi
	je	.LBB10_69
.LBB10_64:
	movq	%rdi, %rdx
	cmpq	%rcx, %rdi
	jae	.LBB10_66
	movzbl	864(%rsp,%rdx), %edi
	jmp	.LBB10_67
	.p2align	4
.LBB10_66:
	xorl	%edi, %edi
.LBB10_67:
	movb	%dil, 608(%rsp,%rdx)
	leaq	1(%rdx), %rdi
	movq	%rdi, 648(%rsp)
	cmpq	%rcx, %rdi
	jb	.LBB10_62
	xorl	%r8d, %r8d
	jmp	.LBB10_63
.LBB10_69:
	testb	$1, %r10b
	je	.LBB10_75
	addq	$2, %rdx
.LBB10_71:
	cmpq	%rcx, %rdx
	jae	.LBB10_73
	movzbl	864(%rsp,%rdx), %ecx
	jmp	.LBB10_74
.LBB10_73:
	xorl	%ecx, %ecx
.LBB10_74:
	movb	%cl, 608(%rsp,%rdx)
	incq	%rdx
	movq	%rdx, 648(%rsp)
.LBB10_75:
	xorl	%esi, %esi
	testb	$15, %r12b
	setne	%cl
	testq	%rbx, %rbx
	je	.LBB10_107
	movq	%r12, %rdx
	shrq	$4, %rdx
	movb	%cl, %sil
	addq	%rdx, %rsi
	leaq	15(%rbx), %rcx
	shrq	$4, %rcx
	movq	%rcx, 40(%rsp)
	movq	%rax, %r8
	shrq	%r8
	leaq	(%rsp,%rax), %r9
	addq	$816, %r9
	movq	%rax, %rcx
	shlq	$8, %rcx
	leaq	.Lstatic.47(%rip), %rdi
	addq	%rdi, %rcx
	addq	$-256, %rcx
	movq	%rcx, 56(%rsp)
	movq	%r10, %rdx
	shrq	%rdx
	leaq	(%rsp,%r10), %r14
	addq	$608, %r14
	movzbl	608(%rsp), %r11d
	movq	%r10, 384(%rsp)
	movq	%r10, %rcx
	shlq	$8, %rcx
	addq	%rdi, %rcx
	addq	$-256, %rcx
	movq	%rcx, 352(%rsp)
	shll	$4, %r11d
	movq	%r11, 360(%rsp)
	addq	%rbx, %r13
	movzbl	816(%rsp), %ecx
	shll	$4, %ecx
	movq	%rcx, 48(%rsp)
	movq	%rsi, 400(%rsp)
	andq	$-2, %rsi
	movq	%rsi, 392(%rsp)
	movq	%r8, 72(%rsp)
	negq	%r8
	movq	%rdx, 376(%rsp)
	negq	%rdx
	xorl	%ebp, %ebp
	xorl	%ecx, %ecx
	movq	%rbx, 24(%rsp)
	movq	%r14, (%rsp)
	movq	%rdx, 368(%rsp)
.LBB10_77:
	movq	%rcx, %rdx
	shlq	$4, %rdx
	movq	%rbx, %r11
	subq	%rdx, %r11
	leaq	(%rdx,%rdi), %rbx
	addq	$256, %rbx
	.p2align	4
.LBB10_78:
	cmpq	$0, 72(%rsp)
	je	.LBB10_81
	pxor	%xmm1, %xmm1
	xorl	%edx, %edx
	movq	%rbx, %rdi
	xorl	%r10d, %r10d
	pxor	%xmm0, %xmm0
	.p2align	4
.LBB10_80:
	movzbl	-1(%r9,%r10,2), %esi
	shll	$4, %esi
	leaq	.Lstatic.44(%rip), %r14
	movdqu	(%rsi,%r14), %xmm4
	movdqa	.LCPI10_0(%rip), %xmm2
	movdqu	-256(%rdi), %xmm5
	movdqu	(%rdi), %xmm3
	movdqa	%xmm5, %xmm6
	pand	%xmm2, %xmm6
	pshufb	%xmm6, %xmm4
	pxor	%xmm1, %xmm4
	leaq	.Lstatic.45(%rip), %r15
	movdqu	(%rsi,%r15), %xmm1
	psrlw	$4, %xmm5
	pand	%xmm2, %xmm5
	pshufb	%xmm5, %xmm1
	pxor	%xmm4, %xmm1
	movq	%rdx, %rsi
	xorq	$-2, %rsi
	movzbl	(%r9,%rsi), %esi
	shll	$4, %esi
	movdqu	(%rsi,%r14), %xmm4
	movdqa	%xmm3, %xmm5
	pand	%xmm2, %xmm5
	pshufb	%xmm5, %xmm4
	movdqu	(%rsi,%r15), %xmm5
	psrlw	$4, %xmm3
	pand	%xmm2, %xmm3
	pshufb	%xmm3, %xmm5
	pxor	%xmm4, %xmm5
	pxor	%xmm5, %xmm1
	pxor	%xmm5, %xmm0
	decq	%r10
	addq	$512, %rdi
	addq	$2, %rdx
	cmpq	%r10, %r8
	jne	.LBB10_80
	jmp	.LBB10_82
	.p2align	4
.LBB10_81:
	pxor	%xmm0, %xmm0
	pxor	%xmm1, %xmm1
.LBB10_82:
	movq	%rcx, %r10
	shlq	$4, %r10
	testb	$1, %al
	je	.LBB10_84
	movq	56(%rsp), %rdx
	movdqu	(%rdx,%r10), %xmm2
	leaq	.Lstatic.44(%rip), %rdx
	movq	48(%rsp), %rsi
	movdqu	(%rsi,%rdx), %xmm3
	movdqa	.LCPI10_0(%rip), %xmm4
	movdqa	%xmm2, %xmm5
	pand	%xmm4, %xmm5
	pshufb	%xmm5, %xmm3
	leaq	.Lstatic.45(%rip), %rdx
	movdqu	(%rsi,%rdx), %xmm5
	psrlw	$4, %xmm2
	pand	%xmm4, %xmm2
	pshufb	%xmm2, %xmm5
	pxor	%xmm1, %xmm3
	pxor	%xmm5, %xmm3
	movdqa	%xmm3, %xmm1
.LBB10_84:
	movq	(%rsp), %r14
	pxor	%xmm2, %xmm2
	movdqa	%xmm1, %xmm3
	pcmpeqb	%xmm2, %xmm3
	pmovmskb	%xmm3, %edx
	testl	%edx, %edx
	jne	.LBB10_86
	incq	%rcx
	addq	$-16, %r11
	addq	$16, %rbx
	cmpq	40(%rsp), %rcx
	jb	.LBB10_78
	jmp	.LBB10_108
	.p2align	4
.LBB10_86:
	movq	%r13, 8(%rsp)
	cmpq	$0, 376(%rsp)
	movq	368(%rsp), %r13
	je	.LBB10_89
	xorl	%edx, %edx
	xorl	%edi, %edi
	.p2align	4
.LBB10_88:
	movzbl	-1(%r14,%rdi,2), %esi
	shll	$4, %esi
	leaq	.Lstatic.44(%rip), %r14
	movdqu	(%rsi,%r14), %xmm5
	movdqa	.LCPI10_0(%rip), %xmm3
	movdqu	-256(%rbx), %xmm6
	movdqu	(%rbx), %xmm4
	movdqa	%xmm6, %xmm7
	pand	%xmm3, %xmm7
	pshufb	%xmm7, %xmm5
	pxor	%xmm2, %xmm5
	leaq	.Lstatic.45(%rip), %r15
	movdqu	(%rsi,%r15), %xmm7
	psrlw	$4, %xmm6
	pand	%xmm3, %xmm6
	pshufb	%xmm6, %xmm7
	pxor	%xmm5, %xmm7
	movq	%rdx, %rsi
	xorq	$-2, %rsi
	movq	(%rsp), %r12
	movzbl	(%r12,%rsi), %esi
	shll	$4, %esi
	movdqu	(%rsi,%r14), %xmm5
	movdqa	%xmm4, %xmm2
	pand	%xmm3, %xmm2
	pshufb	%xmm2, %xmm5
	movdqu	(%rsi,%r15), %xmm2
	movq	(%rsp), %r14
	psrlw	$4, %xmm4
	pand	%xmm3, %xmm4
	pshufb	%xmm4, %xmm2
	pxor	%xmm5, %xmm2
	pxor	%xmm7, %xmm2
	decq	%rdi
	addq	$512, %rbx
	addq	$2, %rdx
	cmpq	%rdi, %r13
	jne	.LBB10_88
.LBB10_89:
	testb	$1, 384(%rsp)
	je	.LBB10_91
	movq	352(%rsp), %rdx
	movdqu	(%rdx,%r10), %xmm3
	leaq	.Lstatic.44(%rip), %rdx
	movq	360(%rsp), %rsi
	movdqu	(%rsi,%rdx), %xmm4
	movdqa	.LCPI10_0(%rip), %xmm5
	movdqa	%xmm3, %xmm6
	pand	%xmm5, %xmm6
	pshufb	%xmm6, %xmm4
	leaq	.Lstatic.45(%rip), %rdx
	movdqu	(%rsi,%rdx), %xmm6
	psrlw	$4, %xmm3
	pand	%xmm5, %xmm3
	pshufb	%xmm3, %xmm6
	pxor	%xmm4, %xmm6
	pxor	%xmm6, %xmm2
.LBB10_91:
	movq	24(%rsp), %rbx
	movq	16(%rsp), %r12
	movq	8(%rsp), %r13
	movq	%xmm2, 1184(%rsp)
	pextrd	$2, %xmm2, 1192(%rsp)
	pextrb	$12, %xmm2, 1196(%rsp)
	movdqa	%xmm1, 432(%rsp)
	pextrb	$13, %xmm2, 1197(%rsp)
	movdqa	%xmm0, 80(%rsp)
	pextrb	$14, %xmm2, 1198(%rsp)
	pextrb	$15, %xmm2, 1199(%rsp)
	cmpq	%r10, %rbx
	jne	.LBB10_93
.LBB10_92:
	incq	%rcx
	cmpq	40(%rsp), %rcx
	leaq	.Lstatic.47(%rip), %rdi
	jb	.LBB10_77
	jmp	.LBB10_108
	.p2align	4
.LBB10_93:
	cmpq	$1, %r11
	adcq	$0, %r11
	cmpq	$16, %r11
	movl	$16, %esi
	cmovbq	%r11, %rsi
	xorl	%r11d, %r11d
	movq	%rsi, 424(%rsp)
	jmp	.LBB10_98
.LBB10_94:
	xorl	%edx, %edx
	movq	16(%rsp), %r12
	movq	8(%rsp), %r13
	movq	216(%rsp), %rbp
	movl	36(%rsp), %r14d
.LBB10_95:
	shlq	$4, %rdx
	movdqu	912(%rsp,%rdx), %xmm0
	pxor	%xmm2, %xmm0
	movdqu	%xmm0, 912(%rsp,%rdx)
.LBB10_96:
	cmpb	$1, %r14b
	sbbb	$-1, %bpl
	movq	24(%rsp), %rbx
	movq	424(%rsp), %rsi
.LBB10_97:
	incq	%r11
	cmpq	%rsi, %r11
	je	.LBB10_92
.LBB10_98:
	cmpb	$0, 432(%rsp,%r11)
	jne	.LBB10_97
	leaq	.Lstatic.49(%rip), %rdx
	movzbl	80(%rsp,%r11), %esi
	testq	%rsi, %rsi
	je	.LBB10_101
	movzbl	1184(%rsp,%r11), %edi
	leaq	.Lstatic.48(%rip), %rbx
	movzbl	(%rsi,%rbx), %ebx
	xorl	$255, %ebx
	movq	%rbp, %r14
	leal	-255(%rbx), %ebp
	cmpq	$1, %rsi
	cmovnel	%ebx, %ebp
	movzwl	%bp, %esi
	movq	%r14, %rbp
	movzbl	(%rsi,%rdx), %esi
	shll	$4, %edi
	movl	%esi, %ebx
	andl	$15, %ebx
	leaq	.Lstatic.44(%rip), %r14
	addq	%rdi, %r14
	shrl	$4, %esi
	leaq	.Lstatic.45(%rip), %r15
	addq	%rdi, %r15
	movzbl	(%rsi,%r15), %esi
	xorb	(%rbx,%r14), %sil
	movl	%esi, %r14d
	jmp	.LBB10_102
.LBB10_101:
	xorl	%r14d, %r14d
.LBB10_102:
	leaq	(%r11,%r10), %rsi
	movzwl	%si, %edi
	imull	$32897, %edi, %edi
	shrl	$23, %edi
	movl	%edi, %ebx
	shll	$8, %ebx
	subl	%ebx, %edi
	addl	%esi, %edi
	notq	%rsi
	movzwl	%di, %edi
	movzbl	(%rdi,%rdx), %r15d
	xorb	%r14b, (%r13,%rsi)
	testq	%r12, %r12
	je	.LBB10_96
	movq	%rbp, 216(%rsp)
	movl	%r14d, 36(%rsp)
	movzbl	%r14b, %esi
	shll	$4, %esi
	leaq	.Lstatic.45(%rip), %rbp
	leaq	(%rsi,%rbp), %rdi
	movl	%r15d, %edx
	shrl	$4, %edx
	leaq	.Lstatic.44(%rip), %rbx
	addq	%rbx, %rsi
	movl	%r15d, %r12d
	andl	$15, %r12d
	movzbl	(%r12,%rsi), %esi
	xorb	(%rdx,%rdi), %sil
	shll	$4, %r15d
	leaq	(%r15,%rbp), %rdi
	leaq	(%rbx,%r15), %r14
	movq	%r12, 408(%rsp)
	movzbl	(%r12,%r14), %r14d
	movq	%rdx, 416(%rsp)
	xorb	(%rdx,%rdi), %r14b
	movzbl	%r14b, %edi
	movl	%edi, %r13d
	shll	$4, %r13d
	movq	%rbp, %r14
	addq	%r13, %r14
	movl	%edi, %edx
	shrl	$4, %edx
	leaq	(%rbx,%r13), %r12
	andl	$15, %edi
	movzbl	(%rdi,%r12), %r12d
	xorb	(%rdx,%r14), %r12b
	movzbl	%sil, %edi
	movzbl	%r12b, %edx
	movl	%edx, %r14d
	shll	$4, %r14d
	movl	%edx, %r12d
	shrl	$4, %r12d
	leaq	(%rbx,%r14), %rsi
	andl	$15, %edx
	movzbl	(%rdx,%rsi), %edx
	leaq	(%r14,%rbp), %rsi
	xorb	(%r12,%rsi), %dl
	shll	$4, %edi
	movzbl	%dl, %esi
	shll	$4, %esi
	movdqu	(%rsi,%rbx), %xmm1
	movdqu	(%r14,%rbx), %xmm2
	movdqu	(%r15,%rbx), %xmm0
	pshufb	.LCPI10_4(%rip), %xmm0
	movdqu	(%r13,%rbx), %xmm3
	movzbl	(%r15,%rbp), %edx
	movd	%edx, %xmm4
	pxor	%xmm5, %xmm5
	pshufb	%xmm5, %xmm4
	pxor	%xmm0, %xmm4
	pxor	.LCPI10_5(%rip), %xmm4
	movdqa	%xmm4, %xmm5
	pshufb	.LCPI10_6(%rip), %xmm5
	movdqa	.LCPI10_0(%rip), %xmm0
	movdqa	%xmm5, %xmm6
	pand	%xmm0, %xmm6
	pshufb	%xmm6, %xmm3
	movdqu	(%r13,%rbp), %xmm6
	psrlw	$4, %xmm5
	pand	%xmm0, %xmm5
	pshufb	%xmm5, %xmm6
	pxor	%xmm4, %xmm3
	pxor	%xmm6, %xmm3
	movdqa	%xmm3, %xmm4
	pshufb	.LCPI10_7(%rip), %xmm4
	movdqa	%xmm4, %xmm5
	pand	%xmm0, %xmm5
	pshufb	%xmm5, %xmm2
	movdqu	(%r14,%rbp), %xmm5
	psrlw	$4, %xmm4
	pand	%xmm0, %xmm4
	pshufb	%xmm4, %xmm5
	pxor	%xmm3, %xmm2
	pxor	%xmm5, %xmm2
	movdqa	%xmm2, %xmm3
	pshufb	.LCPI10_8(%rip), %xmm3
	movdqa	%xmm3, %xmm4
	pand	%xmm0, %xmm4
	pshufb	%xmm4, %xmm1
	movdqu	(%rsi,%rbp), %xmm4
	psrlw	$4, %xmm3
	pand	%xmm0, %xmm3
	pshufb	%xmm3, %xmm4
	pxor	%xmm2, %xmm1
	pxor	%xmm4, %xmm1
	movdqu	(%rdi,%rbp), %xmm3
	movdqa	%xmm1, %xmm2
	psrlw	$4, %xmm2
	pand	%xmm0, %xmm2
	pshufb	%xmm2, %xmm3
	movdqu	(%rdi,%rbx), %xmm2
	movdqa	%xmm1, %xmm4
	pand	%xmm0, %xmm4
	pshufb	%xmm4, %xmm2
	pxor	%xmm3, %xmm2
	movq	400(%rsp), %rdi
	cmpq	$1, %rdi
	je	.LBB10_94
	pextrb	$15, %xmm1, %edx
	shll	$4, %edx
	leaq	(%rdx,%rbp), %rsi
	addq	%rbx, %rdx
	movq	408(%rsp), %r14
	movzbl	(%r14,%rdx), %edx
	movq	416(%rsp), %r14
	xorb	(%r14,%rsi), %dl
	movzbl	%dl, %edx
	shll	$4, %edx
	movdqu	(%rdx,%rbx), %xmm1
	movdqu	(%rdx,%rbp), %xmm3
	xorl	%edx, %edx
	leaq	928(%rsp), %rsi
	movq	392(%rsp), %rbx
	.p2align	4
.LBB10_105:
	movdqu	-16(%rsi), %xmm4
	movdqu	(%rsi), %xmm5
	pxor	%xmm2, %xmm4
	movdqu	%xmm4, -16(%rsi)
	movdqa	%xmm2, %xmm4
	pand	%xmm0, %xmm4
	movdqa	%xmm1, %xmm6
	pshufb	%xmm4, %xmm6
	psrlw	$4, %xmm2
	pand	%xmm0, %xmm2
	movdqa	%xmm3, %xmm4
	pshufb	%xmm2, %xmm4
	pxor	%xmm6, %xmm4
	pxor	%xmm4, %xmm5
	movdqu	%xmm5, (%rsi)
	movdqa	%xmm4, %xmm2
	pand	%xmm0, %xmm2
	movdqa	%xmm1, %xmm5
	pshufb	%xmm2, %xmm5
	psrlw	$4, %xmm4
	pand	%xmm0, %xmm4
	movdqa	%xmm3, %xmm2
	pshufb	%xmm4, %xmm2
	pxor	%xmm5, %xmm2
	addq	$2, %rdx
	addq	$32, %rsi
	cmpq	%rdx, %rbx
	jne	.LBB10_105
	testb	$1, %dil
	movq	16(%rsp), %r12
	movq	8(%rsp), %r13
	movq	216(%rsp), %rbp
	movl	36(%rsp), %r14d
	jne	.LBB10_95
	jmp	.LBB10_96
.LBB10_107:
	xorl	%ebp, %ebp
.LBB10_108:
	testq	%r12, %r12
	je	.LBB10_112
	cmpq	$4, %r12
	jae	.LBB10_114
	xorl	%ecx, %ecx
	xorl	%eax, %eax
	jmp	.LBB10_111
.LBB10_114:
	cmpq	$16, %r12
	jae	.LBB10_116
	xorl	%eax, %eax
	xorl	%ecx, %ecx
	jmp	.LBB10_120
.LBB10_116:
	movq	%r12, %rax
	andq	$-16, %rax
	pxor	%xmm0, %xmm0
	xorl	%ecx, %ecx
	pxor	%xmm1, %xmm1
	.p2align	4
.LBB10_117:
	movdqu	912(%rsp,%rcx), %xmm2
	pcmpeqb	%xmm0, %xmm2
	pcmpeqd	%xmm3, %xmm3
	pxor	%xmm2, %xmm3
	por	%xmm3, %xmm1
	addq	$16, %rcx
	cmpq	%rcx, %rax
	jne	.LBB10_117
	ptest	.LCPI10_9(%rip), %xmm1
	setne	%cl
	cmpq	%rax, %r12
	je	.LBB10_124
	testb	$12, %r12b
	je	.LBB10_111
.LBB10_120:
	movq	%rax, %rdx
	movq	%r12, %rax
	andq	$-4, %rax
	movzbl	%cl, %ecx
	movd	%ecx, %xmm0
	.p2align	4
.LBB10_121:
	movd	912(%rsp,%rdx), %xmm1
	xorpd	%xmm2, %xmm2
	pcmpeqb	%xmm1, %xmm2
	pcmpeqd	%xmm1, %xmm1
	pxor	%xmm2, %xmm1
	pmovsxbd	%xmm1, %xmm1
	por	%xmm1, %xmm0
	addq	$4, %rdx
	cmpq	%rdx, %rax
	jne	.LBB10_121
	ptest	.LCPI10_10(%rip), %xmm0
	setne	%cl
	jmp	.LBB10_123
.LBB10_111:
	cmpb	$0, 912(%rsp,%rax)
	setne	%dl
	orb	%dl, %cl
	incq	%rax
.LBB10_123:
	cmpq	%rax, %r12
	jne	.LBB10_111
.LBB10_124:
	testb	$1, %cl
	jne	.LBB10_113
.LBB10_112:
	movzbl	%bpl, %eax
	cmpq	%rax, 64(%rsp)
	jb	.LBB10_113
	xorl	%eax, %eax
	jmp	.LBB10_127
.LBB10_113:
	movb	$1, %al
	xorl	%ebp, %ebp
.LBB10_127:
	movl	%ebp, %edx
	addq	$1576, %rsp
	.cfi_def_cfa_offset 56
	popq	%rbx
	.cfi_def_cfa_offset 48
	popq	%r12
	.cfi_def_cfa_offset 40
	popq	%r13
	.cfi_def_cfa_offset 32
	popq	%r14
	.cfi_def_cfa_offset 24
	popq	%r15
	.cfi_def_cfa_offset 16
	popq	%rbp
	.cfi_def_cfa_offset 8
	retq
.Lfunc_end10:
	.size	"dm_code::correction::mend::<#9f76af21849881bb>", .Lfunc_end10-"dm_code::correction::mend::<#9f76af21849881bb>"
	.cfi_endproc

	.p2align	4
	.type	"dm_code::syndrome::syndromes_of_short",@function
"dm_code::syndrome::syndromes_of_short":
	.cfi_startproc
	pushq	%rbp
	.cfi_def_cfa_offset 16
	pushq	%r15
	.cfi_def_cfa_offset 24
	pushq	%r14
	.cfi_def_cfa_offset 32
	pushq	%r13
	.cfi_def_cfa_offset 40
	pushq	%r12
	.cfi_def_cfa_offset 48
	pushq	%rbx
	.cfi_def_cfa_offset 56
	subq	$136, %rsp
	.cfi_def_cfa_offset 192
	.cfi_offset %rbx, -56
	.cfi_offset %r12, -48
	.cfi_offset %r13, -40
	.cfi_offset %r14, -32
	.cfi_offset %r15, -24
	.cfi_offset %rbp, -16
	movq	%rcx, %r14
	movq	%rdx, 24(%rsp)
	movq	%rdi, 16(%rsp)
	xorps	%xmm0, %xmm0
	movaps	%xmm0, 32(%rsp)
	movaps	%xmm0, 48(%rsp)
	movaps	%xmm0, 64(%rsp)
	movaps	%xmm0, 80(%rsp)
	movaps	%xmm0, 96(%rsp)
	movaps	%xmm0, 112(%rsp)
	movq	%rcx, %rbx
	shrq	$4, %rbx
	movl	%r14d, %eax
	andl	$15, %eax
	cmpq	$1, %rax
	sbbq	$-1, %rbx
	testq	%rcx, %rcx
	je	.LBB11_5
	movq	%rsi, %r12
	movl	$1, %r13d
	movq	120(%rsp), %r15
	jmp	.LBB11_2
	.p2align	4
.LBB11_4:
	addq	$-16, %r14
	addq	$16, %r13
	decq	%rbx
	je	.LBB11_5
.LBB11_2:
	cmpq	$16, %r14
	movl	$16, %ebp
	cmovbq	%r14, %rbp
	leaq	32(%rsp), %rdi
	movq	%r12, %rsi
	movq	24(%rsp), %rdx
	movq	%r13, %rcx
	callq	"dm_code::syndrome::values_from_root"
	movaps	32(%rsp), %xmm0
	movaps	%xmm0, (%rsp)
	movl	$68, %eax
	subq	%r15, %rax
	cmpq	%rbp, %rax
	jb	.LBB11_4
	leaq	(%rsp,%r15), %rdi
	addq	$48, %rdi
	movq	%rsp, %rax
	movq	%rdi, %rcx
	subq	%rax, %rcx
	cmpq	%rbp, %rcx
	movq	%rsp, %rsi
	movq	%rbp, %rdx
	callq	memcpy@PLT
	addq	%rbp, %r15
	movq	%r15, 120(%rsp)
	jmp	.LBB11_4
.LBB11_5:
	movaps	112(%rsp), %xmm0
	movq	16(%rsp), %rax
	movups	%xmm0, 64(%rax)
	movaps	48(%rsp), %xmm0
	movaps	64(%rsp), %xmm1
	movaps	80(%rsp), %xmm2
	movaps	96(%rsp), %xmm3
	movups	%xmm3, 48(%rax)
	movups	%xmm2, 32(%rax)
	movups	%xmm1, 16(%rax)
	movups	%xmm0, (%rax)
	addq	$136, %rsp
	.cfi_def_cfa_offset 56
	popq	%rbx
	.cfi_def_cfa_offset 48
	popq	%r12
	.cfi_def_cfa_offset 40
	popq	%r13
	.cfi_def_cfa_offset 32
	popq	%r14
	.cfi_def_cfa_offset 24
	popq	%r15
	.cfi_def_cfa_offset 16
	popq	%rbp
	.cfi_def_cfa_offset 8
	retq
.Lfunc_end11:
	.size	"dm_code::syndrome::syndromes_of_short", .Lfunc_end11-"dm_code::syndrome::syndromes_of_short"
	.cfi_endproc

	.section	.rodata.cst16,"aM",@progbits,16
	.p2align	4, 0x0
.LCPI12_0:
	.zero	16,15
.LCPI12_1:
	.zero	16,1
.LCPI12_2:
	.zero	16,2
.LCPI12_3:
	.zero	16,4
.LCPI12_4:
	.zero	16,8
.LCPI12_5:
	.zero	16,16
.LCPI12_6:
	.zero	16,32
.LCPI12_7:
	.zero	16,64
.LCPI12_8:
	.zero	16,45
	.text
	.p2align	4
	.type	"dm_code::syndrome::values_from_root",@function
"dm_code::syndrome::values_from_root":
	.cfi_startproc
	pushq	%r15
	.cfi_def_cfa_offset 16
	pushq	%r14
	.cfi_def_cfa_offset 24
	pushq	%r13
	.cfi_def_cfa_offset 32
	pushq	%r12
	.cfi_def_cfa_offset 40
	pushq	%rbx
	.cfi_def_cfa_offset 48
	.cfi_offset %rbx, -48
	.cfi_offset %r12, -40
	.cfi_offset %r13, -32
	.cfi_offset %r14, -24
	.cfi_offset %r15, -16
	movl	%edx, %r8d
	andl	$31, %r8d
	leaq	.Lstatic.47(%rip), %r9
	movl	%r8d, %eax
	shrl	%eax
	je	.LBB12_1
	leaq	(%rsi,%r8), %r10
	addl	%eax, %eax
	leaq	(%rcx,%r9), %r11
	addq	$256, %r11
	leaq	(%rsi,%r8), %rbx
	decq	%rbx
	pxor	%xmm0, %xmm0
	xorl	%r14d, %r14d
	.p2align	4
.LBB12_3:
	movzbl	(%rbx), %r15d
	shll	$4, %r15d
	leaq	.Lstatic.44(%rip), %r12
	movdqu	(%r15,%r12), %xmm3
	movdqa	.LCPI12_0(%rip), %xmm1
	movdqu	-256(%r11), %xmm4
	movdqu	(%r11), %xmm2
	movdqa	%xmm4, %xmm5
	pand	%xmm1, %xmm5
	pshufb	%xmm5, %xmm3
	pxor	%xmm0, %xmm3
	leaq	.Lstatic.45(%rip), %r13
	movdqu	(%r15,%r13), %xmm5
	psrlw	$4, %xmm4
	pand	%xmm1, %xmm4
	pshufb	%xmm4, %xmm5
	pxor	%xmm3, %xmm5
	movq	%r14, %r15
	xorq	$-2, %r15
	movzbl	(%r10,%r15), %r15d
	shll	$4, %r15d
	movdqu	(%r15,%r12), %xmm3
	movdqa	%xmm2, %xmm0
	pand	%xmm1, %xmm0
	pshufb	%xmm0, %xmm3
	movdqu	(%r15,%r13), %xmm0
	psrlw	$4, %xmm2
	pand	%xmm1, %xmm2
	pshufb	%xmm2, %xmm0
	pxor	%xmm3, %xmm0
	pxor	%xmm5, %xmm0
	addq	$2, %r14
	addq	$512, %r11
	addq	$-2, %rbx
	cmpq	%r14, %rax
	jne	.LBB12_3
	jmp	.LBB12_4
.LBB12_1:
	pxor	%xmm0, %xmm0
.LBB12_4:
	testb	$1, %dl
	je	.LBB12_6
	movzbl	(%rsi), %eax
	movl	%r8d, %r10d
	shll	$8, %r10d
	addq	%r9, %r10
	movdqu	-256(%rcx,%r10), %xmm1
	shll	$4, %eax
	leaq	.Lstatic.44(%rip), %r10
	movdqu	(%rax,%r10), %xmm2
	movdqa	.LCPI12_0(%rip), %xmm3
	movdqa	%xmm1, %xmm4
	pand	%xmm3, %xmm4
	pshufb	%xmm4, %xmm2
	leaq	.Lstatic.45(%rip), %r10
	movdqu	(%rax,%r10), %xmm4
	psrlw	$4, %xmm1
	pand	%xmm3, %xmm1
	pshufb	%xmm1, %xmm4
	pxor	%xmm2, %xmm4
	pxor	%xmm4, %xmm0
.LBB12_6:
	shrq	$5, %rdx
	je	.LBB12_11
	movdqu	8192(%rcx,%r9), %xmm1
	leaq	(%rsi,%r8), %rax
	movdqa	.LCPI12_1(%rip), %xmm2
	pand	%xmm1, %xmm2
	movdqa	.LCPI12_2(%rip), %xmm3
	pand	%xmm1, %xmm3
	movdqa	.LCPI12_3(%rip), %xmm4
	pand	%xmm1, %xmm4
	movdqa	.LCPI12_4(%rip), %xmm5
	pand	%xmm1, %xmm5
	movdqa	.LCPI12_5(%rip), %xmm6
	pand	%xmm1, %xmm6
	movdqa	.LCPI12_6(%rip), %xmm7
	pand	%xmm1, %xmm7
	movdqa	.LCPI12_7(%rip), %xmm8
	pand	%xmm1, %xmm8
	addq	%r9, %rcx
	addq	$256, %rcx
	addq	%r8, %rsi
	addq	$31, %rsi
	xorl	%r8d, %r8d
	.p2align	4
.LBB12_8:
	movq	%r8, %r9
	shlq	$5, %r9
	addq	%rax, %r9
	addq	$32, %r9
	pxor	%xmm9, %xmm9
	xorl	%r10d, %r10d
	movq	%rsi, %r11
	movq	%rcx, %rbx
	.p2align	4
.LBB12_9:
	movzbl	(%r11), %r14d
	shll	$4, %r14d
	leaq	.Lstatic.44(%rip), %r15
	movdqu	(%r14,%r15), %xmm12
	movdqa	.LCPI12_0(%rip), %xmm10
	movdqu	-256(%rbx), %xmm13
	movdqu	(%rbx), %xmm11
	movdqa	%xmm13, %xmm14
	pand	%xmm10, %xmm14
	pshufb	%xmm14, %xmm12
	pxor	%xmm9, %xmm12
	leaq	.Lstatic.45(%rip), %r12
	movdqu	(%r14,%r12), %xmm14
	psrlw	$4, %xmm13
	pand	%xmm10, %xmm13
	pshufb	%xmm13, %xmm14
	pxor	%xmm12, %xmm14
	movq	%r10, %r14
	xorq	$-2, %r14
	movzbl	(%r9,%r14), %r14d
	shll	$4, %r14d
	movdqu	(%r14,%r15), %xmm12
	movdqa	%xmm11, %xmm9
	pand	%xmm10, %xmm9
	pshufb	%xmm9, %xmm12
	movdqu	(%r14,%r12), %xmm9
	psrlw	$4, %xmm11
	pand	%xmm10, %xmm11
	pshufb	%xmm11, %xmm9
	pxor	%xmm12, %xmm9
	pxor	%xmm14, %xmm9
	addq	$2, %r10
	addq	$512, %rbx
	addq	$-2, %r11
	cmpq	$32, %r10
	jne	.LBB12_9
	pxor	%xmm10, %xmm10
	movdqa	%xmm2, %xmm12
	pcmpgtb	%xmm10, %xmm12
	pand	%xmm0, %xmm12
	pxor	%xmm13, %xmm13
	pcmpgtb	%xmm0, %xmm13
	paddb	%xmm0, %xmm0
	movdqa	.LCPI12_8(%rip), %xmm11
	pand	%xmm11, %xmm13
	pxor	%xmm0, %xmm13
	movdqa	%xmm3, %xmm14
	pcmpgtb	%xmm10, %xmm14
	pand	%xmm13, %xmm14
	pxor	%xmm12, %xmm14
	paddb	%xmm13, %xmm13
	pxor	%xmm12, %xmm12
	pcmpgtb	%xmm0, %xmm12
	pand	%xmm11, %xmm12
	pxor	%xmm13, %xmm12
	movdqa	%xmm4, %xmm0
	pcmpgtb	%xmm10, %xmm0
	pand	%xmm12, %xmm0
	pxor	%xmm14, %xmm0
	paddb	%xmm12, %xmm12
	pxor	%xmm14, %xmm14
	pcmpgtb	%xmm13, %xmm14
	pand	%xmm11, %xmm14
	pxor	%xmm12, %xmm14
	movdqa	%xmm5, %xmm13
	pcmpgtb	%xmm10, %xmm13
	pand	%xmm14, %xmm13
	pxor	%xmm0, %xmm13
	paddb	%xmm14, %xmm14
	pxor	%xmm0, %xmm0
	pcmpgtb	%xmm12, %xmm0
	pand	%xmm11, %xmm0
	pxor	%xmm14, %xmm0
	movdqa	%xmm6, %xmm12
	pcmpgtb	%xmm10, %xmm12
	pand	%xmm0, %xmm12
	pxor	%xmm13, %xmm12
	paddb	%xmm0, %xmm0
	pxor	%xmm13, %xmm13
	pcmpgtb	%xmm14, %xmm13
	pand	%xmm11, %xmm13
	pxor	%xmm0, %xmm13
	movdqa	%xmm7, %xmm14
	pcmpgtb	%xmm10, %xmm14
	pand	%xmm13, %xmm14
	pxor	%xmm12, %xmm14
	paddb	%xmm13, %xmm13
	pxor	%xmm12, %xmm12
	pcmpgtb	%xmm0, %xmm12
	pand	%xmm11, %xmm12
	pxor	%xmm13, %xmm12
	movdqa	%xmm8, %xmm0
	pcmpgtb	%xmm10, %xmm0
	pand	%xmm12, %xmm0
	pxor	%xmm14, %xmm0
	paddb	%xmm12, %xmm12
	pxor	%xmm14, %xmm14
	pcmpgtb	%xmm13, %xmm14
	pand	%xmm11, %xmm14
	pxor	%xmm12, %xmm14
	pcmpgtb	%xmm1, %xmm10
	pand	%xmm14, %xmm10
	pxor	%xmm9, %xmm0
	pxor	%xmm10, %xmm0
	incq	%r8
	addq	$32, %rsi
	cmpq	%rdx, %r8
	jne	.LBB12_8
.LBB12_11:
	movdqu	%xmm0, (%rdi)
	popq	%rbx
	.cfi_def_cfa_offset 40
	popq	%r12
	.cfi_def_cfa_offset 32
	popq	%r13
	.cfi_def_cfa_offset 24
	popq	%r14
	.cfi_def_cfa_offset 16
	popq	%r15
	.cfi_def_cfa_offset 8
	retq
.Lfunc_end12:
	.size	"dm_code::syndrome::values_from_root", .Lfunc_end12-"dm_code::syndrome::values_from_root"
	.cfi_endproc

	.section	.rodata.cst16,"aM",@progbits,16
	.p2align	4, 0x0
.LCPI13_0:
	.zero	16,15
.LCPI13_1:
	.zero	16,1
.LCPI13_2:
	.zero	16,45
.LCPI13_3:
	.zero	16,2
.LCPI13_4:
	.zero	16,4
.LCPI13_5:
	.zero	16,8
.LCPI13_6:
	.zero	16,16
.LCPI13_7:
	.zero	16,32
.LCPI13_8:
	.zero	16,64
	.text
	.p2align	4
	.type	"dm_code::weighing::at_places",@function
"dm_code::weighing::at_places":
	.cfi_startproc
	pushq	%rbp
	.cfi_def_cfa_offset 16
	pushq	%r15
	.cfi_def_cfa_offset 24
	pushq	%r14
	.cfi_def_cfa_offset 32
	pushq	%r13
	.cfi_def_cfa_offset 40
	pushq	%r12
	.cfi_def_cfa_offset 48
	pushq	%rbx
	.cfi_def_cfa_offset 56
	subq	$1112, %rsp
	.cfi_def_cfa_offset 1168
	.cfi_offset %rbx, -56
	.cfi_offset %r12, -48
	.cfi_offset %r13, -40
	.cfi_offset %r14, -32
	.cfi_offset %r15, -24
	.cfi_offset %rbp, -16
	movq	%rdx, (%rsp)
	movq	%rsi, 24(%rsp)
	movq	%rdi, 56(%rsp)
	pxor	%xmm0, %xmm0
	movdqa	%xmm0, 320(%rsp)
	movdqa	%xmm0, 304(%rsp)
	movdqa	%xmm0, 288(%rsp)
	movdqa	%xmm0, 272(%rsp)
	movdqa	%xmm0, 256(%rsp)
	movdqa	%xmm0, 240(%rsp)
	movdqa	%xmm0, 224(%rsp)
	movdqa	%xmm0, 208(%rsp)
	movdqa	%xmm0, 192(%rsp)
	movdqa	%xmm0, 176(%rsp)
	movdqa	%xmm0, 160(%rsp)
	movdqa	%xmm0, 144(%rsp)
	movdqa	%xmm0, 128(%rsp)
	movdqa	%xmm0, 112(%rsp)
	movdqa	%xmm0, 96(%rsp)
	movdqa	%xmm0, 80(%rsp)
	movdqa	%xmm0, 336(%rsp)
	movdqa	%xmm0, 352(%rsp)
	movdqa	%xmm0, 368(%rsp)
	movdqa	%xmm0, 384(%rsp)
	movdqa	%xmm0, 400(%rsp)
	movdqa	%xmm0, 416(%rsp)
	movdqa	%xmm0, 432(%rsp)
	movdqa	%xmm0, 448(%rsp)
	movdqa	%xmm0, 464(%rsp)
	movdqa	%xmm0, 480(%rsp)
	movdqa	%xmm0, 496(%rsp)
	movdqa	%xmm0, 512(%rsp)
	movdqa	%xmm0, 528(%rsp)
	movdqa	%xmm0, 544(%rsp)
	movdqa	%xmm0, 560(%rsp)
	movdqa	%xmm0, 576(%rsp)
	xorl	%r14d, %r14d
	testb	$15, %cl
	setne	%al
	testq	%rcx, %rcx
	je	.LBB13_30
	shrq	$4, %rcx
	movb	%al, %r14b
	addq	%rcx, %r14
	movq	24(%rsp), %rsi
	movq	(%rsp), %rdx
	leaq	(%rsi,%rdx), %rax
	leaq	.Lstatic.47(%rip), %rcx
	cmpq	$35, %rdx
	jae	.LBB13_2
	movq	%rdx, %rdi
	shrq	%rdi
	movq	%rdx, %r8
	shlq	$8, %r8
	leaq	(%r8,%rcx), %r15
	addq	$-256, %r15
	testq	%rdi, %rdi
	je	.LBB13_6
	testb	$1, %dl
	jne	.LBB13_19
	negq	%rdi
	leaq	(%rdx,%rsi), %rcx
	decq	%rcx
	leaq	.Lstatic.47+256(%rip), %rdx
	xorl	%esi, %esi
	.p2align	4
.LBB13_16:
	movq	%rsi, %r8
	shlq	$4, %r8
	pxor	%xmm0, %xmm0
	xorl	%r9d, %r9d
	movq	%rdx, %r10
	xorl	%r11d, %r11d
	pxor	%xmm1, %xmm1
	.p2align	4
.LBB13_17:
	movzbl	(%rcx,%r11,2), %ebx
	shll	$4, %ebx
	leaq	.Lstatic.44(%rip), %r15
	movdqu	(%rbx,%r15), %xmm4
	movdqa	.LCPI13_0(%rip), %xmm2
	movdqu	-256(%r10), %xmm5
	movdqu	(%r10), %xmm3
	movdqa	%xmm5, %xmm6
	pand	%xmm2, %xmm6
	pshufb	%xmm6, %xmm4
	pxor	%xmm0, %xmm4
	leaq	.Lstatic.45(%rip), %r12
	movdqu	(%rbx,%r12), %xmm0
	psrlw	$4, %xmm5
	pand	%xmm2, %xmm5
	pshufb	%xmm5, %xmm0
	pxor	%xmm4, %xmm0
	movq	%r9, %rbx
	xorq	$-2, %rbx
	movzbl	(%rax,%rbx), %ebx
	shll	$4, %ebx
	movdqu	(%rbx,%r15), %xmm4
	movdqa	%xmm3, %xmm5
	pand	%xmm2, %xmm5
	pshufb	%xmm5, %xmm4
	movdqu	(%rbx,%r12), %xmm5
	psrlw	$4, %xmm3
	pand	%xmm2, %xmm3
	pshufb	%xmm3, %xmm5
	pxor	%xmm4, %xmm5
	pxor	%xmm5, %xmm0
	pxor	%xmm5, %xmm1
	decq	%r11
	addq	$512, %r10
	addq	$2, %r9
	cmpq	%r11, %rdi
	jne	.LBB13_17
	movdqu	%xmm0, 80(%rsp,%r8)
	movdqu	%xmm1, 336(%rsp,%r8)
	incq	%rsi
	addq	$16, %rdx
	cmpq	%r14, %rsi
	jne	.LBB13_16
	jmp	.LBB13_30
.LBB13_2:
	leaq	-34(%rdx), %r9
	movq	%r9, %r10
	shrq	%r10
	shlq	$8, %r9
	leaq	(%rsi,%rdx), %r8
	addq	$-34, %r8
	leaq	(%r9,%rcx), %rdi
	addq	$-256, %rdi
	movq	%rdi, 64(%rsp)
	movq	%r10, 32(%rsp)
	negq	%r10
	leaq	(%rdx,%rsi), %r11
	addq	$-35, %r11
	addq	%rsi, %rdx
	decq	%rdx
	movq	%rdx, 72(%rsp)
	leaq	.Lstatic.47+256(%rip), %r9
	xorl	%r13d, %r13d
	.p2align	4
.LBB13_3:
	movq	%r14, %rdx
	movq	%rcx, %r14
	cmpq	$0, 32(%rsp)
	je	.LBB13_4
	pxor	%xmm2, %xmm2
	xorl	%ebp, %ebp
	movq	%r9, %rbx
	xorl	%r15d, %r15d
	pxor	%xmm0, %xmm0
	.p2align	4
.LBB13_24:
	movzbl	(%r11,%r15,2), %r12d
	shll	$4, %r12d
	leaq	.Lstatic.44(%rip), %rcx
	movdqu	(%r12,%rcx), %xmm4
	movdqa	.LCPI13_0(%rip), %xmm1
	movdqu	-256(%rbx), %xmm5
	movdqu	(%rbx), %xmm3
	movdqa	%xmm5, %xmm6
	pand	%xmm1, %xmm6
	pshufb	%xmm6, %xmm4
	pxor	%xmm2, %xmm4
	leaq	.Lstatic.45(%rip), %rdi
	movdqu	(%r12,%rdi), %xmm2
	psrlw	$4, %xmm5
	pand	%xmm1, %xmm5
	pshufb	%xmm5, %xmm2
	pxor	%xmm4, %xmm2
	movq	%rbp, %r12
	xorq	$-2, %r12
	movzbl	(%r8,%r12), %r12d
	shll	$4, %r12d
	movdqu	(%r12,%rcx), %xmm4
	movdqa	%xmm3, %xmm5
	pand	%xmm1, %xmm5
	pshufb	%xmm5, %xmm4
	movdqu	(%r12,%rdi), %xmm5
	psrlw	$4, %xmm3
	pand	%xmm1, %xmm3
	pshufb	%xmm3, %xmm5
	pxor	%xmm4, %xmm5
	pxor	%xmm5, %xmm2
	pxor	%xmm5, %xmm0
	decq	%r15
	addq	$512, %rbx
	addq	$2, %rbp
	cmpq	%r15, %r10
	jne	.LBB13_24
	jmp	.LBB13_25
	.p2align	4
.LBB13_4:
	pxor	%xmm0, %xmm0
	pxor	%xmm2, %xmm2
.LBB13_25:
	movq	%r13, %rbp
	shlq	$4, %rbp
	testb	$1, (%rsp)
	je	.LBB13_27
	movq	24(%rsp), %rcx
	movzbl	(%rcx), %ecx
	movq	64(%rsp), %rsi
	movdqu	(%rsi,%rbp), %xmm1
	shll	$4, %ecx
	leaq	.Lstatic.44(%rip), %rdi
	movdqu	(%rcx,%rdi), %xmm3
	movdqa	.LCPI13_0(%rip), %xmm4
	movdqa	%xmm1, %xmm5
	pand	%xmm4, %xmm5
	pshufb	%xmm5, %xmm3
	leaq	.Lstatic.45(%rip), %rdi
	movdqu	(%rcx,%rdi), %xmm5
	psrlw	$4, %xmm1
	pand	%xmm4, %xmm1
	pshufb	%xmm1, %xmm5
	pxor	%xmm3, %xmm5
	pxor	%xmm5, %xmm2
.LBB13_27:
	pxor	%xmm5, %xmm5
	xorl	%ebx, %ebx
	movq	72(%rsp), %r15
	movq	%r9, %r12
	pxor	%xmm1, %xmm1
	.p2align	4
.LBB13_28:
	movzbl	(%r15), %ecx
	shll	$4, %ecx
	leaq	.Lstatic.44(%rip), %rdi
	movdqu	(%rcx,%rdi), %xmm6
	movdqa	.LCPI13_0(%rip), %xmm3
	movdqu	-256(%r12), %xmm7
	movdqu	(%r12), %xmm4
	movdqa	%xmm7, %xmm8
	pand	%xmm3, %xmm8
	pshufb	%xmm8, %xmm6
	pxor	%xmm5, %xmm6
	leaq	.Lstatic.45(%rip), %rsi
	movdqu	(%rcx,%rsi), %xmm5
	psrlw	$4, %xmm7
	pand	%xmm3, %xmm7
	pshufb	%xmm7, %xmm5
	pxor	%xmm6, %xmm5
	movq	%rbx, %rcx
	xorq	$-2, %rcx
	movzbl	(%rax,%rcx), %ecx
	shll	$4, %ecx
	movdqu	(%rcx,%rdi), %xmm6
	movdqa	%xmm4, %xmm7
	pand	%xmm3, %xmm7
	pshufb	%xmm7, %xmm6
	movdqu	(%rcx,%rsi), %xmm7
	psrlw	$4, %xmm4
	pand	%xmm3, %xmm4
	pshufb	%xmm4, %xmm7
	pxor	%xmm6, %xmm7
	pxor	%xmm7, %xmm5
	pxor	%xmm7, %xmm1
	addq	$2, %rbx
	addq	$512, %r12
	addq	$-2, %r15
	cmpq	$34, %rbx
	jne	.LBB13_28
	movq	%r14, %rcx
	movdqu	8704(%rbp,%r14), %xmm3
	movdqa	.LCPI13_1(%rip), %xmm7
	pand	%xmm3, %xmm7
	pxor	%xmm6, %xmm6
	pcmpeqb	%xmm6, %xmm7
	movdqa	%xmm7, %xmm10
	pandn	%xmm2, %xmm10
	pxor	%xmm9, %xmm9
	pcmpgtb	%xmm2, %xmm9
	paddb	%xmm2, %xmm2
	movdqa	.LCPI13_2(%rip), %xmm4
	pand	%xmm4, %xmm9
	pxor	%xmm2, %xmm9
	movdqa	.LCPI13_3(%rip), %xmm8
	pand	%xmm3, %xmm8
	pcmpeqb	%xmm6, %xmm8
	movdqa	%xmm8, %xmm11
	pandn	%xmm9, %xmm11
	pxor	%xmm10, %xmm11
	paddb	%xmm9, %xmm9
	pxor	%xmm10, %xmm10
	pcmpgtb	%xmm2, %xmm10
	movdqa	%xmm4, %xmm2
	pand	%xmm4, %xmm10
	pxor	%xmm9, %xmm10
	movdqa	.LCPI13_4(%rip), %xmm4
	pand	%xmm3, %xmm4
	pcmpeqb	%xmm6, %xmm4
	movdqa	%xmm4, %xmm12
	pandn	%xmm10, %xmm12
	pxor	%xmm11, %xmm12
	paddb	%xmm10, %xmm10
	pxor	%xmm11, %xmm11
	pcmpgtb	%xmm9, %xmm11
	pand	%xmm2, %xmm11
	pxor	%xmm10, %xmm11
	movdqa	.LCPI13_5(%rip), %xmm9
	pand	%xmm3, %xmm9
	pcmpeqb	%xmm6, %xmm9
	movdqa	%xmm9, %xmm13
	pandn	%xmm11, %xmm13
	pxor	%xmm12, %xmm13
	paddb	%xmm11, %xmm11
	pxor	%xmm12, %xmm12
	pcmpgtb	%xmm10, %xmm12
	pand	%xmm2, %xmm12
	pxor	%xmm11, %xmm12
	movdqa	.LCPI13_6(%rip), %xmm10
	pand	%xmm3, %xmm10
	pcmpeqb	%xmm6, %xmm10
	movdqa	%xmm10, %xmm15
	pandn	%xmm12, %xmm15
	pxor	%xmm13, %xmm15
	paddb	%xmm12, %xmm12
	pxor	%xmm14, %xmm14
	pcmpgtb	%xmm11, %xmm14
	movdqa	%xmm2, %xmm13
	pand	%xmm2, %xmm14
	pxor	%xmm12, %xmm14
	movdqa	.LCPI13_7(%rip), %xmm2
	pand	%xmm3, %xmm2
	pcmpeqb	%xmm6, %xmm2
	movdqa	%xmm2, %xmm11
	pandn	%xmm14, %xmm11
	pxor	%xmm15, %xmm11
	paddb	%xmm14, %xmm14
	pxor	%xmm15, %xmm15
	pcmpgtb	%xmm12, %xmm15
	pand	%xmm13, %xmm15
	pxor	%xmm12, %xmm12
	pcmpgtb	%xmm3, %xmm12
	pand	.LCPI13_8(%rip), %xmm3
	pxor	%xmm14, %xmm15
	pcmpeqb	%xmm6, %xmm3
	movdqa	%xmm3, %xmm13
	pandn	%xmm15, %xmm13
	pxor	%xmm11, %xmm13
	pxor	%xmm11, %xmm11
	pcmpgtb	%xmm14, %xmm11
	paddb	%xmm15, %xmm15
	movdqa	.LCPI13_2(%rip), %xmm14
	pand	%xmm14, %xmm11
	pxor	%xmm15, %xmm11
	pxor	%xmm5, %xmm13
	pand	%xmm12, %xmm11
	pxor	%xmm11, %xmm13
	pandn	%xmm0, %xmm7
	pxor	%xmm5, %xmm5
	pcmpgtb	%xmm0, %xmm5
	paddb	%xmm0, %xmm0
	pand	%xmm14, %xmm5
	pxor	%xmm0, %xmm5
	pandn	%xmm5, %xmm8
	pxor	%xmm7, %xmm8
	pxor	%xmm7, %xmm7
	pcmpgtb	%xmm0, %xmm7
	paddb	%xmm5, %xmm5
	pand	%xmm14, %xmm7
	pxor	%xmm5, %xmm7
	pandn	%xmm7, %xmm4
	pxor	%xmm8, %xmm4
	pxor	%xmm0, %xmm0
	pcmpgtb	%xmm5, %xmm0
	paddb	%xmm7, %xmm7
	pand	%xmm14, %xmm0
	pxor	%xmm7, %xmm0
	pandn	%xmm0, %xmm9
	pxor	%xmm4, %xmm9
	pxor	%xmm4, %xmm4
	pcmpgtb	%xmm7, %xmm4
	paddb	%xmm0, %xmm0
	pand	%xmm14, %xmm4
	pxor	%xmm0, %xmm4
	pandn	%xmm4, %xmm10
	pxor	%xmm9, %xmm10
	pxor	%xmm5, %xmm5
	pcmpgtb	%xmm0, %xmm5
	paddb	%xmm4, %xmm4
	pand	%xmm14, %xmm5
	pxor	%xmm4, %xmm5
	pandn	%xmm5, %xmm2
	pxor	%xmm10, %xmm2
	pxor	%xmm0, %xmm0
	pcmpgtb	%xmm4, %xmm0
	paddb	%xmm5, %xmm5
	pand	%xmm14, %xmm0
	pxor	%xmm5, %xmm0
	pandn	%xmm0, %xmm3
	pxor	%xmm2, %xmm3
	pcmpgtb	%xmm5, %xmm6
	pand	%xmm14, %xmm6
	paddb	%xmm0, %xmm0
	pxor	%xmm0, %xmm6
	pand	%xmm12, %xmm6
	pxor	%xmm1, %xmm3
	pxor	%xmm6, %xmm3
	movdqu	%xmm13, 80(%rsp,%rbp)
	movdqu	%xmm3, 336(%rsp,%rbp)
	incq	%r13
	addq	$16, %r9
	movq	%rdx, %r14
	cmpq	%rdx, %r13
	jne	.LBB13_3
	jmp	.LBB13_30
.LBB13_6:
	testb	$1, %dl
	jne	.LBB13_8
	shlq	$4, %r14
	leaq	80(%rsp), %rdi
	xorl	%esi, %esi
	movq	%r14, %rdx
	callq	memset@PLT
	leaq	336(%rsp), %rdi
	xorl	%esi, %esi
	movq	%r14, %rdx
	callq	memset@PLT
	jmp	.LBB13_30
.LBB13_19:
	movzbl	(%rsi), %r9d
	shll	$4, %r9d
	leaq	.Lstatic.44(%rip), %rcx
	movdqu	(%r9,%rcx), %xmm0
	leaq	.Lstatic.45(%rip), %r8
	movdqu	(%r9,%r8), %xmm1
	negq	%rdi
	addq	%rsi, %rdx
	decq	%rdx
	leaq	.Lstatic.47+256(%rip), %rsi
	xorl	%r9d, %r9d
	.p2align	4
.LBB13_20:
	movq	%r9, %r10
	shlq	$4, %r10
	pxor	%xmm2, %xmm2
	xorl	%r11d, %r11d
	movq	%rsi, %rbx
	xorl	%r12d, %r12d
	pxor	%xmm3, %xmm3
	.p2align	4
.LBB13_21:
	movzbl	(%rdx,%r12,2), %r13d
	shll	$4, %r13d
	movdqu	(%r13,%rcx), %xmm6
	movdqa	.LCPI13_0(%rip), %xmm4
	movdqu	-256(%rbx), %xmm7
	movdqu	(%rbx), %xmm5
	movdqa	%xmm7, %xmm8
	pand	%xmm4, %xmm8
	pshufb	%xmm8, %xmm6
	pxor	%xmm2, %xmm6
	movdqu	(%r13,%r8), %xmm2
	psrlw	$4, %xmm7
	pand	%xmm4, %xmm7
	pshufb	%xmm7, %xmm2
	pxor	%xmm6, %xmm2
	movq	%r11, %r13
	xorq	$-2, %r13
	movzbl	(%rax,%r13), %r13d
	shll	$4, %r13d
	movdqu	(%r13,%rcx), %xmm6
	movdqa	%xmm5, %xmm7
	pand	%xmm4, %xmm7
	pshufb	%xmm7, %xmm6
	movdqu	(%r13,%r8), %xmm7
	psrlw	$4, %xmm5
	pand	%xmm4, %xmm5
	pshufb	%xmm5, %xmm7
	pxor	%xmm6, %xmm7
	pxor	%xmm7, %xmm2
	pxor	%xmm7, %xmm3
	decq	%r12
	addq	$512, %rbx
	addq	$2, %r11
	cmpq	%r12, %rdi
	jne	.LBB13_21
	movdqu	(%r15,%r10), %xmm5
	movdqa	%xmm5, %xmm6
	pand	%xmm4, %xmm6
	movdqa	%xmm0, %xmm7
	pshufb	%xmm6, %xmm7
	psrlw	$4, %xmm5
	pand	%xmm4, %xmm5
	movdqa	%xmm1, %xmm4
	pshufb	%xmm5, %xmm4
	pxor	%xmm7, %xmm4
	pxor	%xmm2, %xmm4
	movdqu	%xmm4, 80(%rsp,%r10)
	movdqu	%xmm3, 336(%rsp,%r10)
	incq	%r9
	addq	$16, %rsi
	cmpq	%r14, %r9
	jne	.LBB13_20
	jmp	.LBB13_30
.LBB13_8:
	movzbl	(%rsi), %eax
	shll	$4, %eax
	leaq	.Lstatic.44(%rip), %rcx
	movups	(%rax,%rcx), %xmm0
	movaps	%xmm0, (%rsp)
	leaq	.Lstatic.45(%rip), %rcx
	movdqu	(%rax,%rcx), %xmm0
	movdqa	%xmm0, 32(%rsp)
	movq	%r14, %rdx
	shlq	$4, %rdx
	leaq	336(%rsp), %rdi
	xorl	%r12d, %r12d
	xorl	%esi, %esi
	callq	memset@PLT
	cmpq	$1, %r14
	jne	.LBB13_10
	movdqa	(%rsp), %xmm5
	movdqa	32(%rsp), %xmm6
	jmp	.LBB13_13
.LBB13_10:
	movq	%r14, %rax
	andq	$-2, %rax
	movl	$16, %ecx
	xorl	%r12d, %r12d
	movdqa	(%rsp), %xmm5
	movdqa	32(%rsp), %xmm6
	.p2align	4
.LBB13_11:
	movdqa	.LCPI13_0(%rip), %xmm0
	movdqu	-16(%r15,%rcx), %xmm1
	movdqu	(%r15,%rcx), %xmm2
	movdqa	%xmm1, %xmm3
	pand	%xmm0, %xmm3
	movdqa	%xmm5, %xmm4
	pshufb	%xmm3, %xmm4
	psrlw	$4, %xmm1
	pand	%xmm0, %xmm1
	movdqa	%xmm6, %xmm3
	pshufb	%xmm1, %xmm3
	pxor	%xmm4, %xmm3
	movdqu	%xmm3, 64(%rsp,%rcx)
	movdqa	%xmm2, %xmm1
	pand	%xmm0, %xmm1
	movdqa	%xmm5, %xmm3
	pshufb	%xmm1, %xmm3
	psrlw	$4, %xmm2
	pand	%xmm0, %xmm2
	movdqa	%xmm6, %xmm0
	pshufb	%xmm2, %xmm0
	pxor	%xmm3, %xmm0
	movdqu	%xmm0, 80(%rsp,%rcx)
	addq	$2, %r12
	addq	$32, %rcx
	cmpq	%r12, %rax
	jne	.LBB13_11
	testb	$1, %r14b
	je	.LBB13_30
.LBB13_13:
	shlq	$4, %r12
	movdqu	(%r15,%r12), %xmm0
	movdqa	.LCPI13_0(%rip), %xmm1
	movdqa	%xmm0, %xmm2
	pand	%xmm1, %xmm2
	pshufb	%xmm2, %xmm5
	psrlw	$4, %xmm0
	pand	%xmm1, %xmm0
	pshufb	%xmm0, %xmm6
	pxor	%xmm5, %xmm6
	movdqu	%xmm6, 80(%rsp,%r12)
.LBB13_30:
	leaq	600(%rsp), %r14
	leaq	80(%rsp), %rsi
	movl	$256, %edx
	movq	%r14, %rdi
	callq	memcpy@PLT
	leaq	856(%rsp), %rdi
	leaq	336(%rsp), %rsi
	movl	$256, %edx
	callq	memcpy@PLT
	movl	$512, %edx
	movq	56(%rsp), %rdi
	movq	%r14, %rsi
	callq	memcpy@PLT
	addq	$1112, %rsp
	.cfi_def_cfa_offset 56
	popq	%rbx
	.cfi_def_cfa_offset 48
	popq	%r12
	.cfi_def_cfa_offset 40
	popq	%r13
	.cfi_def_cfa_offset 32
	popq	%r14
	.cfi_def_cfa_offset 24
	popq	%r15
	.cfi_def_cfa_offset 16
	popq	%rbp
	.cfi_def_cfa_offset 8
	retq
.Lfunc_end13:
	.size	"dm_code::weighing::at_places", .Lfunc_end13-"dm_code::weighing::at_places"
	.cfi_endproc

	.p2align	4
	.type	"dm_code::erasures::correct_rest::<#9f76af21849881bb>",@function
"dm_code::erasures::correct_rest::<#9f76af21849881bb>":
	.cfi_startproc
	pushq	%rbp
	.cfi_def_cfa_offset 16
	pushq	%r15
	.cfi_def_cfa_offset 24
	pushq	%r14
	.cfi_def_cfa_offset 32
	pushq	%r13
	.cfi_def_cfa_offset 40
	pushq	%r12
	.cfi_def_cfa_offset 48
	pushq	%rbx
	.cfi_def_cfa_offset 56
	subq	$1432, %rsp
	.cfi_def_cfa_offset 1488
	.cfi_offset %rbx, -56
	.cfi_offset %r12, -48
	.cfi_offset %r13, -40
	.cfi_offset %r14, -32
	.cfi_offset %r15, -24
	.cfi_offset %rbp, -16
	movq	%rcx, %r12
	movq	%rdx, %r14
	movq	%rsi, %r15
	movq	%rdi, %rbx
	leaq	369(%rsp), %rdi
	movl	$271, %edx
	xorl	%esi, %esi
	callq	memset@PLT
	testq	%r12, %r12
	je	.LBB14_1
	leaq	904(%rsp), %rdi
	xorl	%r13d, %r13d
	movl	$264, %edx
	xorl	%esi, %esi
	callq	memset@PLT
	leaq	640(%rsp), %rdi
	movl	$264, %edx
	xorl	%esi, %esi
	callq	memset@PLT
	xorps	%xmm0, %xmm0
	movaps	%xmm0, (%rsp)
	movaps	%xmm0, 16(%rsp)
	movaps	%xmm0, 32(%rsp)
	movaps	%xmm0, 48(%rsp)
	movaps	%xmm0, 64(%rsp)
	movaps	%xmm0, 80(%rsp)
	movq	%r14, %rdx
	subq	%r12, %rdx
	leaq	(%r15,%rdx), %rbp
	movq	%rsp, %rdi
	movq	%r15, %rsi
	movq	%r12, %rcx
	callq	"dm_code::encoding::divide"
	movl	$96, %eax
	subq	%r12, %rax
	cmpq	$96, %r12
	cmovbq	%rax, %r13
	leaq	(%rsp,%r12), %rdi
	addq	$96, %rdi
	xorl	%esi, %esi
	movq	%r13, %rdx
	callq	memset@PLT
	leaq	96(%rsp), %rdi
	movq	%rbp, %rsi
	movq	%r12, %rdx
	callq	memcpy@PLT
	movaps	(%rsp), %xmm0
	movdqa	16(%rsp), %xmm1
	movdqa	32(%rsp), %xmm2
	movdqa	48(%rsp), %xmm3
	xorps	96(%rsp), %xmm0
	pxor	112(%rsp), %xmm1
	movaps	%xmm0, (%rsp)
	movdqa	%xmm1, 16(%rsp)
	pxor	128(%rsp), %xmm2
	movdqa	%xmm2, 32(%rsp)
	pxor	144(%rsp), %xmm3
	movdqa	%xmm3, 48(%rsp)
	movdqa	64(%rsp), %xmm0
	pxor	160(%rsp), %xmm0
	movdqa	%xmm0, 64(%rsp)
	movdqa	80(%rsp), %xmm4
	pxor	176(%rsp), %xmm4
	movdqa	%xmm4, 80(%rsp)
	por	(%rsp), %xmm1
	por	%xmm2, %xmm3
	por	%xmm1, %xmm3
	por	%xmm0, %xmm4
	por	%xmm3, %xmm4
	ptest	%xmm4, %xmm4
	je	.LBB14_7
	movq	%rsp, %rcx
	leaq	640(%rsp), %r9
	movq	%r15, %rdi
	movq	%r14, %rsi
	movq	%r12, %rdx
	movq	%r12, %r8
	callq	"dm_code::correction::mend::<#9f76af21849881bb>"
	testb	%al, %al
	je	.LBB14_6
	leaq	376(%rsp), %rdi
	xorl	%r14d, %r14d
	movl	$264, %edx
	xorl	%esi, %esi
	callq	memset@PLT
	movb	$1, %al
	jmp	.LBB14_11
.LBB14_1:
	leaq	96(%rsp), %rdi
	movl	$264, %edx
	xorl	%esi, %esi
	callq	memset@PLT
	cmpq	$255, %r14
	ja	.LBB14_3
	leaq	96(%rsp), %rdi
	movq	%r15, %rsi
	movq	%r14, %rdx
	callq	memcpy@PLT
	movq	%r14, 352(%rsp)
.LBB14_3:
	leaq	1168(%rsp), %r14
	leaq	96(%rsp), %rsi
	movl	$264, %edx
	movq	%r14, %rdi
	callq	memcpy@PLT
	movb	$0, (%rbx)
	leaq	8(%rbx), %rdi
	movl	$264, %edx
	movq	%r14, %rsi
	callq	memcpy@PLT
	movq	$0, 272(%rbx)
	jmp	.LBB14_12
.LBB14_6:
	testb	%dl, %dl
	je	.LBB14_7
	leaq	376(%rsp), %rdi
	leaq	640(%rsp), %rsi
	movl	%edx, %ebp
	movl	$264, %edx
	callq	memcpy@PLT
	movzbl	%bpl, %r14d
	xorl	%eax, %eax
	jmp	.LBB14_11
.LBB14_7:
	leaq	96(%rsp), %rdi
	movl	$264, %edx
	xorl	%esi, %esi
	callq	memset@PLT
	cmpq	$255, %r14
	ja	.LBB14_9
	leaq	96(%rsp), %rdi
	movq	%r15, %rsi
	movq	%r14, %rdx
	callq	memcpy@PLT
	movq	%r14, 352(%rsp)
.LBB14_9:
	leaq	904(%rsp), %r14
	leaq	96(%rsp), %rsi
	movl	$264, %edx
	movq	%r14, %rdi
	callq	memcpy@PLT
	leaq	376(%rsp), %rdi
	movl	$264, %edx
	movq	%r14, %rsi
	callq	memcpy@PLT
	xorl	%eax, %eax
	xorl	%r14d, %r14d
.LBB14_11:
	movb	%al, (%rbx)
	leaq	8(%rbx), %rdi
	leaq	376(%rsp), %rsi
	movl	$264, %edx
	callq	memcpy@PLT
	movq	%r14, 272(%rbx)
.LBB14_12:
	addq	$1432, %rsp
	.cfi_def_cfa_offset 56
	popq	%rbx
	.cfi_def_cfa_offset 48
	popq	%r12
	.cfi_def_cfa_offset 40
	popq	%r13
	.cfi_def_cfa_offset 32
	popq	%r14
	.cfi_def_cfa_offset 24
	popq	%r15
	.cfi_def_cfa_offset 16
	popq	%rbp
	.cfi_def_cfa_offset 8
	retq
.Lfunc_end14:
	.size	"dm_code::erasures::correct_rest::<#9f76af21849881bb>", .Lfunc_end14-"dm_code::erasures::correct_rest::<#9f76af21849881bb>"
	.cfi_endproc

	.p2align	4
	.type	"dm_symbol::symbol::inspection::mend_doubtful",@function
"dm_symbol::symbol::inspection::mend_doubtful":
	.cfi_startproc
	pushq	%rbp
	.cfi_def_cfa_offset 16
	pushq	%r15
	.cfi_def_cfa_offset 24
	pushq	%r14
	.cfi_def_cfa_offset 32
	pushq	%r13
	.cfi_def_cfa_offset 40
	pushq	%r12
	.cfi_def_cfa_offset 48
	pushq	%rbx
	.cfi_def_cfa_offset 56
	subq	$2248, %rsp
	.cfi_def_cfa_offset 2304
	.cfi_offset %rbx, -56
	.cfi_offset %r12, -48
	.cfi_offset %r13, -40
	.cfi_offset %r14, -32
	.cfi_offset %r15, -24
	.cfi_offset %rbp, -16
	movq	%r8, %rbx
	movq	%rcx, %r13
	movq	%rdx, %r14
	movq	%rsi, %r15
	movzwl	14(%rdi), %eax
	movl	16(%rdi), %ebp
	cmpq	$288, %rdx
	ja	.LBB15_6
	movq	(%rdi), %rcx
	movq	6(%rdi), %rdx
	movq	%rdx, 22(%rsp)
	movq	%rcx, 16(%rsp)
	movw	%ax, 30(%rsp)
	movl	%ebp, 32(%rsp)
	leaq	70(%rsp), %r12
	movl	$288, %edx
	movq	%r12, %rdi
	xorl	%esi, %esi
	callq	memset@PLT
	movq	%r13, %rdi
	movq	%r12, %rsi
	callq	"dm_layout::symbols::placing::lift_to"
	movl	$0, 12(%rsp)
	movq	40(%rbx), %rdx
	testq	%rdx, %rdx
	je	.LBB15_3
	shlq	$2, %rdx
	movq	%rbx, %rdi
	xorl	%esi, %esi
	callq	memset@PLT
	movq	$0, 40(%rbx)
.LBB15_3:
	testw	%bp, %bp
	je	.LBB15_11
	movzwl	%bp, %ebp
	xorl	%r13d, %r13d
	.p2align	4
.LBB15_5:
	movq	$1, 40(%rsp)
	movq	%r12, 48(%rsp)
	movq	%r14, 56(%rsp)
	leaq	12(%rsp), %rdi
	leaq	16(%rsp), %rsi
	leaq	40(%rsp), %r8
	movq	%r15, %rdx
	movq	%r14, %rcx
	movq	%r13, %r9
	callq	"dm_symbol::symbol::correction::restore_block"
	movzwl	13(%rsp), %eax
	movzbl	12(%rsp), %ecx
	movzbl	15(%rsp), %edx
	movq	40(%rbx), %rsi
	movb	%cl, (%rbx,%rsi,4)
	movb	%dl, 3(%rbx,%rsi,4)
	movw	%ax, 1(%rbx,%rsi,4)
	incq	%rsi
	movq	%rsi, 40(%rbx)
	incq	%r13
	cmpq	%r13, %rbp
	jne	.LBB15_5
	jmp	.LBB15_11
.LBB15_6:
	movq	(%rdi), %rcx
	movq	6(%rdi), %rdx
	movq	%rdx, 22(%rsp)
	movq	%rcx, 16(%rsp)
	movw	%ax, 30(%rsp)
	movl	%ebp, 32(%rsp)
	leaq	70(%rsp), %r12
	movl	$2178, %edx
	movq	%r12, %rdi
	xorl	%esi, %esi
	callq	memset@PLT
	movq	%r13, %rdi
	movq	%r12, %rsi
	callq	"dm_layout::symbols::placing::lift_to"
	movl	$0, 12(%rsp)
	movq	40(%rbx), %rdx
	testq	%rdx, %rdx
	je	.LBB15_8
	shlq	$2, %rdx
	movq	%rbx, %rdi
	xorl	%esi, %esi
	callq	memset@PLT
	movq	$0, 40(%rbx)
.LBB15_8:
	testw	%bp, %bp
	je	.LBB15_11
	movzwl	%bp, %ebp
	xorl	%r13d, %r13d
	.p2align	4
.LBB15_10:
	movq	$1, 40(%rsp)
	movq	%r12, 48(%rsp)
	movq	%r14, 56(%rsp)
	leaq	12(%rsp), %rdi
	leaq	16(%rsp), %rsi
	leaq	40(%rsp), %r8
	movq	%r15, %rdx
	movq	%r14, %rcx
	movq	%r13, %r9
	callq	"dm_symbol::symbol::correction::restore_block"
	movzwl	13(%rsp), %eax
	movzbl	12(%rsp), %ecx
	movzbl	15(%rsp), %edx
	movq	40(%rbx), %rsi
	movb	%cl, (%rbx,%rsi,4)
	movb	%dl, 3(%rbx,%rsi,4)
	movw	%ax, 1(%rbx,%rsi,4)
	incq	%rsi
	movq	%rsi, 40(%rbx)
	incq	%r13
	cmpq	%r13, %rbp
	jne	.LBB15_10
.LBB15_11:
	addq	$2248, %rsp
	.cfi_def_cfa_offset 56
	popq	%rbx
	.cfi_def_cfa_offset 48
	popq	%r12
	.cfi_def_cfa_offset 40
	popq	%r13
	.cfi_def_cfa_offset 32
	popq	%r14
	.cfi_def_cfa_offset 24
	popq	%r15
	.cfi_def_cfa_offset 16
	popq	%rbp
	.cfi_def_cfa_offset 8
	retq
.Lfunc_end15:
	.size	"dm_symbol::symbol::inspection::mend_doubtful", .Lfunc_end15-"dm_symbol::symbol::inspection::mend_doubtful"
	.cfi_endproc

	.p2align	4
	.type	"dm_symbol::symbol::inspection::mend_restarted",@function
"dm_symbol::symbol::inspection::mend_restarted":
	.cfi_startproc
	pushq	%rbp
	.cfi_def_cfa_offset 16
	pushq	%r15
	.cfi_def_cfa_offset 24
	pushq	%r14
	.cfi_def_cfa_offset 32
	pushq	%r13
	.cfi_def_cfa_offset 40
	pushq	%r12
	.cfi_def_cfa_offset 48
	pushq	%rbx
	.cfi_def_cfa_offset 56
	subq	$2248, %rsp
	.cfi_def_cfa_offset 2304
	.cfi_offset %rbx, -56
	.cfi_offset %r12, -48
	.cfi_offset %r13, -40
	.cfi_offset %r14, -32
	.cfi_offset %r15, -24
	.cfi_offset %rbp, -16
	movq	%r9, %rbx
	movq	%r8, %r15
	movq	%rcx, 8(%rsp)
	movq	%rdx, %r13
	movl	%esi, %ebp
	movq	%rdi, %r12
	leaq	70(%rsp), %rdi
	movl	$2178, %edx
	xorl	%esi, %esi
	callq	memset@PLT
	xorps	%xmm0, %xmm0
	movaps	%xmm0, 16(%rsp)
	movaps	%xmm0, 32(%rsp)
	movq	$0, 48(%rsp)
	leaq	16(%rsp), %r14
	movq	%r12, %rdi
	movl	%ebp, %esi
	movq	%r13, %rdx
	leaq	70(%rsp), %rcx
	movq	%r15, %r8
	movq	%r14, %r9
	callq	"dm_symbol::symbol::dealing::restore_restarted"
	testb	%al, %al
	je	.LBB16_8
	movl	%eax, %ebp
	leaq	70(%rsp), %rsi
	movq	8(%rsp), %rdi
	movq	%r15, %rdx
	callq	memcpy@PLT
	movq	48(%rsp), %r15
	movq	40(%rbx), %rdx
	testq	%rdx, %rdx
	je	.LBB16_3
	shlq	$2, %rdx
	movq	%rbx, %rdi
	xorl	%esi, %esi
	callq	memset@PLT
	movq	$0, 40(%rbx)
.LBB16_3:
	testq	%r15, %r15
	movl	%ebp, %eax
	je	.LBB16_8
	cmpq	$1, %r15
	jne	.LBB16_9
	xorl	%ecx, %ecx
	jmp	.LBB16_7
.LBB16_9:
	movq	%r15, %rdx
	andq	$-2, %rdx
	xorl	%ecx, %ecx
	.p2align	4
.LBB16_10:
	movzwl	(%r14), %esi
	movzbl	2(%r14), %edi
	movb	$1, (%rbx,%rcx,4)
	movb	%dil, 3(%rbx,%rcx,4)
	movw	%si, 1(%rbx,%rcx,4)
	leaq	1(%rcx), %rsi
	movq	%rsi, 40(%rbx)
	movzwl	3(%r14), %esi
	movzbl	5(%r14), %edi
	movb	$1, 4(%rbx,%rcx,4)
	movb	%dil, 7(%rbx,%rcx,4)
	movw	%si, 5(%rbx,%rcx,4)
	addq	$2, %rcx
	movq	%rcx, 40(%rbx)
	addq	$6, %r14
	cmpq	%rcx, %rdx
	jne	.LBB16_10
	testb	$1, %r15b
	je	.LBB16_8
.LBB16_7:
	leaq	(%rcx,%rcx,2), %rdx
	movzwl	16(%rsp,%rdx), %esi
	movzbl	18(%rsp,%rdx), %edx
	movb	$1, (%rbx,%rcx,4)
	movb	%dl, 3(%rbx,%rcx,4)
	movw	%si, 1(%rbx,%rcx,4)
	incq	%rcx
	movq	%rcx, 40(%rbx)
.LBB16_8:
	addq	$2248, %rsp
	.cfi_def_cfa_offset 56
	popq	%rbx
	.cfi_def_cfa_offset 48
	popq	%r12
	.cfi_def_cfa_offset 40
	popq	%r13
	.cfi_def_cfa_offset 32
	popq	%r14
	.cfi_def_cfa_offset 24
	popq	%r15
	.cfi_def_cfa_offset 16
	popq	%rbp
	.cfi_def_cfa_offset 8
	retq
.Lfunc_end16:
	.size	"dm_symbol::symbol::inspection::mend_restarted", .Lfunc_end16-"dm_symbol::symbol::inspection::mend_restarted"
	.cfi_endproc

	.p2align	4
	.type	"dm_symbol::symbol::dealing::restore_restarted",@function
"dm_symbol::symbol::dealing::restore_restarted":
	.cfi_startproc
	pushq	%rbp
	.cfi_def_cfa_offset 16
	pushq	%r15
	.cfi_def_cfa_offset 24
	pushq	%r14
	.cfi_def_cfa_offset 32
	pushq	%r13
	.cfi_def_cfa_offset 40
	pushq	%r12
	.cfi_def_cfa_offset 48
	pushq	%rbx
	.cfi_def_cfa_offset 56
	subq	$728, %rsp
	.cfi_def_cfa_offset 784
	.cfi_offset %rbx, -56
	.cfi_offset %r12, -48
	.cfi_offset %r13, -40
	.cfi_offset %r14, -32
	.cfi_offset %r15, -24
	.cfi_offset %rbp, -16
	movq	%r8, 8(%rsp)
	movq	%rcx, %rbx
	movl	%esi, %r13d
	movzwl	(%rdi), %esi
	movzwl	2(%rdi), %ecx
	movups	4(%rdi), %xmm0
	movaps	%xmm0, 48(%rsp)
	xorl	%eax, %eax
	cmpw	$144, %si
	jne	.LBB17_21
	movzwl	%cx, %ecx
	cmpl	$144, %ecx
	jne	.LBB17_21
	movq	%r9, %r15
	movq	%rdx, 16(%rsp)
	movq	%rbx, %rsi
	callq	"dm_layout::symbols::placing::lift_to"
	leaq	96(%rsp), %rdi
	xorl	%r14d, %r14d
	movl	$632, %edx
	xorl	%esi, %esi
	callq	memset@PLT
	leaq	3116(%rbx), %rdi
	movl	$1558, %ecx
	.p2align	4
.LBB17_3:
	movabsq	$-3689348814741910323, %rbp
	movq	%r14, %rax
	mulq	%rbp
	movq	%rdx, %rsi
	shrq	$2, %rsi
	andq	$-2, %rsi
	movq	%rcx, %rax
	mulq	%rbp
	leaq	(%rsi,%rsi,4), %rax
	shrq	$2, %rdx
	andq	$-2, %rdx
	leaq	(%rdx,%rdx,4), %rdx
	subq	%rdx, %rax
	addq	%rdi, %rax
	movzbl	(%r14,%rax), %eax
	movb	%al, 96(%rsp,%r14)
	incq	%r14
	incq	%rcx
	cmpq	$620, %r14
	jne	.LBB17_3
	leaq	1558(%rbx), %r12
	leaq	96(%rsp), %rsi
	movl	$620, %edx
	movq	%r12, %rdi
	callq	memcpy@PLT
	movl	$9437328, 76(%rsp)
	movaps	48(%rsp), %xmm0
	movups	%xmm0, 80(%rsp)
	testb	$1, %r13b
	je	.LBB17_6
	leaq	76(%rsp), %rdi
	movq	%rbx, %rsi
	movq	8(%rsp), %rdx
	movl	$1, %ecx
	movq	16(%rsp), %r8
	movq	%r15, %r9
	callq	"dm_symbol::symbol::reading::restore_doubtful"
	jmp	.LBB17_16
.LBB17_6:
	movl	$9437328, 28(%rsp)
	movaps	48(%rsp), %xmm0
	movups	%xmm0, 32(%rsp)
	movl	$0, 4(%rsp)
	movq	32(%r15), %rax
	testq	%rax, %rax
	je	.LBB17_8
	leaq	(%rax,%rax,2), %rdx
	movq	%r15, %rdi
	xorl	%esi, %esi
	callq	memset@PLT
	movq	$0, 32(%r15)
.LBB17_8:
	movzbl	44(%rsp), %r14d
	testq	%r14, %r14
	je	.LBB17_13
	leaq	5(%rsp), %r12
	xorl	%r13d, %r13d
	.p2align	4
.LBB17_10:
	xorps	%xmm0, %xmm0
	movaps	%xmm0, 96(%rsp)
	movq	$0, 112(%rsp)
	leaq	4(%rsp), %rdi
	leaq	28(%rsp), %rsi
	leaq	96(%rsp), %r8
	movq	%rbx, %rdx
	movq	8(%rsp), %rcx
	movq	%r13, %r9
	callq	"dm_symbol::symbol::correction::restore_block"
	cmpb	$1, 4(%rsp)
	jne	.LBB17_14
	movq	32(%r15), %rax
	leaq	(%rax,%rax,2), %rcx
	movzbl	2(%r12), %edx
	movb	%dl, 2(%r15,%rcx)
	movzwl	(%r12), %edx
	movw	%dx, (%r15,%rcx)
	incq	%rax
	movq	%rax, 32(%r15)
	incq	%r13
	cmpq	%r13, %r14
	jne	.LBB17_10
	xorl	%eax, %eax
	jmp	.LBB17_15
.LBB17_13:
	xorl	%eax, %eax
	jmp	.LBB17_16
.LBB17_14:
	movb	$1, %al
.LBB17_15:
	leaq	1558(%rbx), %r12
.LBB17_16:
	testb	%al, %al
	je	.LBB17_18
	xorl	%eax, %eax
	jmp	.LBB17_21
.LBB17_18:
	leaq	96(%rsp), %rdi
	xorl	%r15d, %r15d
	movl	$632, %edx
	xorl	%esi, %esi
	callq	memset@PLT
	addq	$1560, %rbx
	movl	$2, %ecx
	.p2align	4
.LBB17_19:
	movq	%r15, %rax
	mulq	%rbp
	movq	%rdx, %rsi
	shrq	$2, %rsi
	andq	$-2, %rsi
	movq	%rcx, %rax
	mulq	%rbp
	leaq	(%rsi,%rsi,4), %rax
	shrq	$2, %rdx
	andq	$-2, %rdx
	leaq	(%rdx,%rdx,4), %rdx
	subq	%rdx, %rax
	addq	%rbx, %rax
	movzbl	(%r15,%rax), %eax
	movb	%al, 96(%rsp,%r15)
	incq	%r15
	incq	%rcx
	cmpq	$620, %r15
	jne	.LBB17_19
	leaq	96(%rsp), %rsi
	movl	$620, %edx
	movq	%r12, %rdi
	callq	memcpy@PLT
	movb	$1, %al
.LBB17_21:
	addq	$728, %rsp
	.cfi_def_cfa_offset 56
	popq	%rbx
	.cfi_def_cfa_offset 48
	popq	%r12
	.cfi_def_cfa_offset 40
	popq	%r13
	.cfi_def_cfa_offset 32
	popq	%r14
	.cfi_def_cfa_offset 24
	popq	%r15
	.cfi_def_cfa_offset 16
	popq	%rbp
	.cfi_def_cfa_offset 8
	retq
.Lfunc_end17:
	.size	"dm_symbol::symbol::dealing::restore_restarted", .Lfunc_end17-"dm_symbol::symbol::dealing::restore_restarted"
	.cfi_endproc

	.p2align	4
	.type	"dm_symbol::symbol::reading::restore_doubtful",@function
"dm_symbol::symbol::reading::restore_doubtful":
	.cfi_startproc
	pushq	%rbp
	.cfi_def_cfa_offset 16
	pushq	%r15
	.cfi_def_cfa_offset 24
	pushq	%r14
	.cfi_def_cfa_offset 32
	pushq	%r13
	.cfi_def_cfa_offset 40
	pushq	%r12
	.cfi_def_cfa_offset 48
	pushq	%rbx
	.cfi_def_cfa_offset 56
	subq	$2872, %rsp
	.cfi_def_cfa_offset 2928
	.cfi_offset %rbx, -56
	.cfi_offset %r12, -48
	.cfi_offset %r13, -40
	.cfi_offset %r14, -32
	.cfi_offset %r15, -24
	.cfi_offset %rbp, -16
	movq	%r9, %rbx
	movq	%r8, %r13
	movl	%ecx, %ebp
	movq	%rdx, %r14
	movq	%rsi, %r15
	movq	%rdi, %r12
	movzwl	14(%rdi), %eax
	movw	%ax, 18(%rsp)
	movl	16(%rdi), %eax
	movl	%eax, 20(%rsp)
	cmpq	$288, %rdx
	ja	.LBB18_12
	leaq	56(%rsp), %rdi
	movl	$288, %edx
	xorl	%esi, %esi
	callq	memset@PLT
	movq	%r13, %rdi
	leaq	56(%rsp), %rsi
	callq	"dm_layout::symbols::placing::lift_to"
	cmpb	$1, %bpl
	jne	.LBB18_5
	leaq	688(%rsp), %rdi
	xorl	%ebp, %ebp
	movl	$632, %edx
	xorl	%esi, %esi
	callq	memset@PLT
	movl	$1558, %ecx
	leaq	3172(%rsp), %rdi
	.p2align	4
.LBB18_3:
	movabsq	$-3689348814741910323, %r8
	movq	%rbp, %rax
	mulq	%r8
	movq	%rdx, %rsi
	shrq	$2, %rsi
	andq	$-2, %rsi
	movq	%rcx, %rax
	mulq	%r8
	leaq	(%rsi,%rsi,4), %rax
	shrq	$2, %rdx
	andq	$-2, %rdx
	leaq	(%rdx,%rdx,4), %rdx
	subq	%rdx, %rax
	addq	%rdi, %rax
	movzbl	(%rbp,%rax), %eax
	movb	%al, 688(%rsp,%rbp)
	incq	%rbp
	incq	%rcx
	cmpq	$620, %rbp
	jne	.LBB18_3
	leaq	1614(%rsp), %rdi
	leaq	688(%rsp), %rsi
	movl	$620, %edx
	callq	memcpy@PLT
.LBB18_5:
	movq	(%r12), %rax
	movq	6(%r12), %rcx
	movq	%rax, 24(%rsp)
	movq	%rcx, 30(%rsp)
	movzwl	18(%rsp), %eax
	movw	%ax, 38(%rsp)
	movl	20(%rsp), %ebp
	movl	%ebp, 40(%rsp)
	movl	$0, 12(%rsp)
	movq	32(%rbx), %rax
	testq	%rax, %rax
	je	.LBB18_7
	leaq	(%rax,%rax,2), %rdx
	movq	%rbx, %rdi
	xorl	%esi, %esi
	callq	memset@PLT
	movq	$0, 32(%rbx)
.LBB18_7:
	andw	$255, %bp
	je	.LBB18_8
	leaq	13(%rsp), %r13
	movzwl	%bp, %ebp
	xorl	%r12d, %r12d
	.p2align	4
.LBB18_10:
	movq	$1, 688(%rsp)
	leaq	56(%rsp), %rax
	movq	%rax, 696(%rsp)
	movq	%r14, 704(%rsp)
	leaq	12(%rsp), %rdi
	leaq	24(%rsp), %rsi
	leaq	688(%rsp), %r8
	movq	%r15, %rdx
	movq	%r14, %rcx
	movq	%r12, %r9
	callq	"dm_symbol::symbol::correction::restore_block"
	cmpb	$1, 12(%rsp)
	jne	.LBB18_22
	movq	32(%rbx), %rax
	leaq	(%rax,%rax,2), %rcx
	movzbl	2(%r13), %edx
	movb	%dl, 2(%rbx,%rcx)
	movzwl	(%r13), %edx
	movw	%dx, (%rbx,%rcx)
	incq	%rax
	movq	%rax, 32(%rbx)
	incq	%r12
	cmpq	%r12, %rbp
	jne	.LBB18_10
	jmp	.LBB18_8
.LBB18_12:
	movq	%r12, 48(%rsp)
	leaq	688(%rsp), %r12
	movl	$2178, %edx
	movq	%r12, %rdi
	xorl	%esi, %esi
	callq	memset@PLT
	movq	%r13, %rdi
	movq	%r12, %rsi
	movq	48(%rsp), %r12
	callq	"dm_layout::symbols::placing::lift_to"
	cmpb	$1, %bpl
	jne	.LBB18_16
	leaq	56(%rsp), %rdi
	xorl	%ebp, %ebp
	movl	$632, %edx
	xorl	%esi, %esi
	callq	memset@PLT
	movl	$1558, %ecx
	leaq	3804(%rsp), %rdi
	.p2align	4
.LBB18_14:
	movabsq	$-3689348814741910323, %r8
	movq	%rbp, %rax
	mulq	%r8
	movq	%rdx, %rsi
	shrq	$2, %rsi
	andq	$-2, %rsi
	movq	%rcx, %rax
	mulq	%r8
	leaq	(%rsi,%rsi,4), %rax
	shrq	$2, %rdx
	andq	$-2, %rdx
	leaq	(%rdx,%rdx,4), %rdx
	subq	%rdx, %rax
	addq	%rdi, %rax
	movzbl	(%rbp,%rax), %eax
	movb	%al, 56(%rsp,%rbp)
	incq	%rbp
	incq	%rcx
	cmpq	$620, %rbp
	jne	.LBB18_14
	leaq	2246(%rsp), %rdi
	leaq	56(%rsp), %rsi
	movl	$620, %edx
	callq	memcpy@PLT
.LBB18_16:
	movq	(%r12), %rax
	movq	6(%r12), %rcx
	movq	%rax, 24(%rsp)
	movq	%rcx, 30(%rsp)
	movzwl	18(%rsp), %eax
	movw	%ax, 38(%rsp)
	movl	20(%rsp), %ebp
	movl	%ebp, 40(%rsp)
	movl	$0, 12(%rsp)
	movq	32(%rbx), %rax
	testq	%rax, %rax
	je	.LBB18_18
	leaq	(%rax,%rax,2), %rdx
	movq	%rbx, %rdi
	xorl	%esi, %esi
	callq	memset@PLT
	movq	$0, 32(%rbx)
.LBB18_18:
	andw	$255, %bp
	je	.LBB18_8
	leaq	13(%rsp), %r13
	movzwl	%bp, %ebp
	xorl	%r12d, %r12d
	.p2align	4
.LBB18_20:
	movq	$1, 56(%rsp)
	leaq	688(%rsp), %rax
	movq	%rax, 64(%rsp)
	movq	%r14, 72(%rsp)
	leaq	12(%rsp), %rdi
	leaq	24(%rsp), %rsi
	leaq	56(%rsp), %r8
	movq	%r15, %rdx
	movq	%r14, %rcx
	movq	%r12, %r9
	callq	"dm_symbol::symbol::correction::restore_block"
	cmpb	$1, 12(%rsp)
	jne	.LBB18_22
	movq	32(%rbx), %rax
	leaq	(%rax,%rax,2), %rcx
	movzbl	2(%r13), %edx
	movb	%dl, 2(%rbx,%rcx)
	movzwl	(%r13), %edx
	movw	%dx, (%rbx,%rcx)
	incq	%rax
	movq	%rax, 32(%rbx)
	incq	%r12
	cmpq	%r12, %rbp
	jne	.LBB18_20
.LBB18_8:
	xorl	%r12d, %r12d
	xorl	%eax, %eax
	jmp	.LBB18_23
.LBB18_22:
	movb	$1, %al
.LBB18_23:
	movl	%r12d, %edx
	addq	$2872, %rsp
	.cfi_def_cfa_offset 56
	popq	%rbx
	.cfi_def_cfa_offset 48
	popq	%r12
	.cfi_def_cfa_offset 40
	popq	%r13
	.cfi_def_cfa_offset 32
	popq	%r14
	.cfi_def_cfa_offset 24
	popq	%r15
	.cfi_def_cfa_offset 16
	popq	%rbp
	.cfi_def_cfa_offset 8
	retq
.Lfunc_end18:
	.size	"dm_symbol::symbol::reading::restore_doubtful", .Lfunc_end18-"dm_symbol::symbol::reading::restore_doubtful"
	.cfi_endproc

	.p2align	4
	.type	"ecc200_calls::inspection::find_designators::<=31>",@function
"ecc200_calls::inspection::find_designators::<=31>":
	.cfi_startproc
	pushq	%rbx
	.cfi_def_cfa_offset 16
	subq	$256, %rsp
	.cfi_def_cfa_offset 272
	.cfi_offset %rbx, -16
	movq	%rdi, %rbx
	pxor	%xmm0, %xmm0
	movdqa	%xmm0, 224(%rsp)
	movdqa	%xmm0, 208(%rsp)
	movdqa	%xmm0, 192(%rsp)
	movdqa	%xmm0, 176(%rsp)
	movdqa	%xmm0, 160(%rsp)
	movdqa	%xmm0, 144(%rsp)
	movdqa	%xmm0, 128(%rsp)
	movdqa	%xmm0, 112(%rsp)
	movdqa	%xmm0, 96(%rsp)
	movdqa	%xmm0, 80(%rsp)
	movdqa	%xmm0, 64(%rsp)
	movdqa	%xmm0, 48(%rsp)
	movdqa	%xmm0, 32(%rsp)
	movdqa	%xmm0, 16(%rsp)
	movdqa	%xmm0, (%rsp)
	movq	$0, 240(%rsp)
	movq	%rsp, %rax
	movq	%rsi, %rdi
	movq	%rdx, %rsi
	movq	%rax, %rdx
	callq	"dm_words::contents::designation::designations_to"
	movw	%ax, 18(%rbx)
	testq	%rax, %rax
	je	.LBB19_6
	cmpq	$3, %rax
	jae	.LBB19_3
	xorl	%ecx, %ecx
	jmp	.LBB19_5
.LBB19_3:
	movq	%rax, %rcx
	orq	$-2, %rcx
	addq	%rax, %rcx
	xorl	%edx, %edx
	.p2align	4
.LBB19_4:
	movd	(%rsp,%rdx,8), %xmm0
	pinsrw	$1, 8(%rsp,%rdx,8), %xmm0
	movdqu	4(%rsp,%rdx,8), %xmm1
	pmovzxwd	%xmm0, %xmm0
	pshufd	$80, %xmm0, %xmm0
	pblendw	$51, %xmm1, %xmm0
	movdqu	%xmm0, 20(%rbx,%rdx,8)
	addq	$2, %rdx
	cmpq	%rdx, %rcx
	jne	.LBB19_4
	.p2align	4
.LBB19_5:
	movzwl	(%rsp,%rcx,8), %edx
	movl	4(%rsp,%rcx,8), %esi
	movl	%esi, 20(%rbx,%rcx,8)
	movl	%edx, 24(%rbx,%rcx,8)
	incq	%rcx
	cmpq	%rcx, %rax
	jne	.LBB19_5
.LBB19_6:
	addq	$256, %rsp
	.cfi_def_cfa_offset 16
	popq	%rbx
	.cfi_def_cfa_offset 8
	retq
.Lfunc_end19:
	.size	"ecc200_calls::inspection::find_designators::<=31>", .Lfunc_end19-"ecc200_calls::inspection::find_designators::<=31>"
	.cfi_endproc

	.p2align	4
	.type	"dm_words::contents::designation::designations_to",@function
"dm_words::contents::designation::designations_to":
	.cfi_startproc
	pushq	%r15
	.cfi_def_cfa_offset 16
	pushq	%r14
	.cfi_def_cfa_offset 24
	pushq	%r13
	.cfi_def_cfa_offset 32
	pushq	%r12
	.cfi_def_cfa_offset 40
	pushq	%rbx
	.cfi_def_cfa_offset 48
	subq	$3072, %rsp
	.cfi_adjust_cfa_offset 3072
	movq	$0, (%rsp)
	subq	$3072, %rsp
	.cfi_adjust_cfa_offset 3072
	movq	$0, (%rsp)
	subq	$160, %rsp
	.cfi_def_cfa_offset 6352
	.cfi_offset %rbx, -48
	.cfi_offset %r12, -40
	.cfi_offset %r13, -32
	.cfi_offset %r14, -24
	.cfi_offset %r15, -16
	movq	%rdx, %rbx
	movq	%rsi, %r14
	movq	%rdi, %r15
	xorps	%xmm0, %xmm0
	movaps	%xmm0, 16(%rsp)
	movq	$0, 32(%rsp)
	testq	%rsi, %rsi
	je	.LBB20_5
	movzbl	(%r15), %eax
	testb	%al, %al
	je	.LBB20_5
	cmpb	$-127, %al
	jb	.LBB20_4
	sete	%cl
	cmpb	$-26, %al
	setae	%al
	orb	%cl, %al
	jne	.LBB20_5
.LBB20_4:
	xorl	%r12d, %r12d
	jmp	.LBB20_7
.LBB20_5:
	leaq	16(%rsp), %rdi
	movq	%r15, %rsi
	movq	%r14, %rdx
	callq	"dm_words::contents::opening::opening_asked"
	cmpb	$1, 16(%rsp)
	jne	.LBB20_36
	movq	32(%rsp), %r12
.LBB20_7:
	xorl	%r13d, %r13d
	jmp	.LBB20_9
	.p2align	4
.LBB20_8:
	addq	%rax, %r12
.LBB20_9:
	cmpq	%r14, %r12
	jae	.LBB20_18
	movzbl	(%r15,%r12), %ecx
	testl	%ecx, %ecx
	je	.LBB20_18
	cmpl	$241, %ecx
	jne	.LBB20_16
	leaq	1(%r12), %rdx
	movq	%r14, %rsi
	subq	%rdx, %rsi
	je	.LBB20_36
	movzbl	(%r15,%rdx), %ecx
	testl	%ecx, %ecx
	je	.LBB20_36
	testb	%cl, %cl
	js	.LBB20_21
	decl	%ecx
	movl	$2, %eax
	jmp	.LBB20_32
.LBB20_16:
	movl	$1, %eax
	cmpb	$-127, %cl
	jb	.LBB20_8
	setne	%dl
	cmpb	$-26, %cl
	setb	%cl
	testb	%cl, %dl
	jne	.LBB20_8
	.p2align	4
.LBB20_18:
	xorps	%xmm0, %xmm0
	movaps	%xmm0, 16(%rsp)
	movq	$0, 32(%rsp)
	movq	$0, 48(%rsp)
	leaq	48(%rsp), %rax
	movq	%rax, (%rsp)
	leaq	16(%rsp), %rdi
	leaq	58(%rsp), %r9
	movl	$1, %esi
	movq	%r15, %rdx
	movq	%r14, %rcx
	movq	%r12, %r8
	callq	"dm_words::reading::next_part"
	movzbl	16(%rsp), %eax
	testb	%al, %al
	jne	.LBB20_33
	cmpb	$1, 24(%rsp)
	jne	.LBB20_33
	movq	32(%rsp), %rax
	jmp	.LBB20_8
.LBB20_21:
	cmpb	$-65, %cl
	ja	.LBB20_25
	cmpq	$1, %rsi
	je	.LBB20_36
	movzbl	1(%r15,%rdx), %eax
	leal	-1(%rax), %edx
	cmpb	$-3, %dl
	ja	.LBB20_36
	leal	(%rcx,%rcx), %edx
	shll	$8, %ecx
	subl	%edx, %ecx
	addl	%eax, %ecx
	addl	$-32386, %ecx
	movl	$3, %eax
	jmp	.LBB20_32
.LBB20_25:
	xorl	%eax, %eax
	cmpq	$1, %rsi
	je	.LBB20_37
	cmpb	$-49, %cl
	ja	.LBB20_37
	cmpq	$3, %rsi
	jb	.LBB20_36
	movzbl	1(%r15,%rdx), %esi
	leal	-1(%rsi), %edi
	xorl	%eax, %eax
	cmpb	$-3, %dil
	ja	.LBB20_37
	movzbl	2(%r15,%rdx), %edx
	leal	-1(%rdx), %edi
	cmpb	$-3, %dil
	ja	.LBB20_37
	imull	$64516, %ecx, %eax
	leal	(%rsi,%rsi), %ecx
	shll	$8, %esi
	subl	%ecx, %esi
	addl	%eax, %esi
	leal	(%rsi,%rdx), %eax
	cmpl	$13370943, %eax
	ja	.LBB20_36
	leal	(%rdx,%rsi), %ecx
	addl	$-12370944, %ecx
	movl	$4, %eax
.LBB20_32:
	movw	%r12w, (%rbx,%r13,8)
	movw	$0, 2(%rbx,%r13,8)
	movl	%ecx, 4(%rbx,%r13,8)
	incq	%r13
	addq	%rax, %r12
	jmp	.LBB20_9
.LBB20_36:
	xorl	%eax, %eax
	jmp	.LBB20_37
.LBB20_33:
	xorl	%ecx, %ecx
	testb	%al, %al
	cmovneq	%rcx, %r13
	movq	%r13, %rax
.LBB20_37:
	addq	$6304, %rsp
	.cfi_def_cfa_offset 48
	popq	%rbx
	.cfi_def_cfa_offset 40
	popq	%r12
	.cfi_def_cfa_offset 32
	popq	%r13
	.cfi_def_cfa_offset 24
	popq	%r14
	.cfi_def_cfa_offset 16
	popq	%r15
	.cfi_def_cfa_offset 8
	retq
.Lfunc_end20:
	.size	"dm_words::contents::designation::designations_to", .Lfunc_end20-"dm_words::contents::designation::designations_to"
	.cfi_endproc

	.p2align	4
	.type	"dm_words::contents::opening::opening_asked",@function
"dm_words::contents::opening::opening_asked":
	.cfi_startproc
	xorl	%eax, %eax
	testq	%rdx, %rdx
	je	.LBB21_5
	movzbl	(%rsi), %ecx
	cmpl	$233, %ecx
	je	.LBB21_6
	cmpl	$234, %ecx
	jne	.LBB21_11
	movl	$1, %ecx
	xorl	%edx, %edx
.LBB21_4:
	movq	$1, (%rdi)
	movb	$1, 8(%rdi)
	movb	%dl, 9(%rdi)
	movl	%eax, 10(%rdi)
	movq	%rcx, 16(%rdi)
	retq
.LBB21_5:
	xorl	%r9d, %r9d
	xorl	%r8d, %r8d
	jmp	.LBB21_25
.LBB21_6:
	cmpq	$1, %rdx
	je	.LBB21_21
	cmpq	$3, %rdx
	jb	.LBB21_21
	je	.LBB21_21
	movzbl	1(%rsi), %r8d
	movzbl	2(%rsi), %eax
	movzbl	3(%rsi), %esi
	movl	%r8d, %ecx
	shrb	$4, %cl
	andl	$15, %r8d
	movl	$17, %edx
	subl	%r8d, %edx
	cmpb	%dl, %cl
	setb	%r9b
	testl	%r8d, %r8d
	setne	%r8b
	leal	-1(%rax), %r10d
	cmpb	$-2, %r10b
	setb	%r10b
	andb	%r8b, %r10b
	andb	%r9b, %r10b
	leal	-1(%rsi), %r8d
	cmpb	$-2, %r8b
	setb	%r8b
	testb	%r8b, %r10b
	je	.LBB21_21
	shll	$24, %esi
	shll	$16, %eax
	orl	%esi, %eax
	shll	$8, %edx
	orl	%eax, %edx
	movzbl	%cl, %eax
	addl	%edx, %eax
	incl	%eax
	movl	$4, %ecx
	movb	$1, %dl
	jmp	.LBB21_4
.LBB21_11:
	movl	$1, %ecx
	.p2align	4
.LBB21_12:
	movzbl	-1(%rsi,%rcx), %r9d
	cmpl	$236, %r9d
	je	.LBB21_23
	cmpl	$237, %r9d
	je	.LBB21_22
	cmpq	%rdx, %rcx
	jae	.LBB21_16
	cmpb	$-2, (%rsi,%rcx)
	sete	%r10b
	jmp	.LBB21_17
	.p2align	4
.LBB21_16:
	xorl	%r10d, %r10d
.LBB21_17:
	xorl	%r8d, %r8d
	xorl	%eax, %eax
	addl	$-230, %r9d
	cmpl	$9, %r9d
	ja	.LBB21_27
	movl	$769, %r11d
	btl	%r9d, %r11d
	movl	$0, %r9d
	jae	.LBB21_25
	cmpq	%rdx, %rcx
	setae	%r9b
	xorb	$1, %r10b
	xorl	%r8d, %r8d
	xorl	%eax, %eax
	orb	%r9b, %r10b
	jne	.LBB21_27
	leaq	1(%rcx), %r10
	addq	$2, %rcx
	movl	$0, %r9d
	cmpq	%rdx, %r10
	jb	.LBB21_12
	jmp	.LBB21_25
.LBB21_21:
	movq	$0, 16(%rdi)
	movq	$0, (%rdi)
	movq	$0, 6(%rdi)
	retq
.LBB21_22:
	movb	$2, %r9b
	movb	$54, %al
	jmp	.LBB21_24
.LBB21_23:
	movb	$2, %r9b
	movb	$53, %al
.LBB21_24:
	movq	%rcx, %r8
	jmp	.LBB21_25
.LBB21_27:
	xorl	%r9d, %r9d
.LBB21_25:
	movq	$1, (%rdi)
	movb	%r9b, 8(%rdi)
	movb	%al, 9(%rdi)
	movl	$0, 10(%rdi)
	movq	%r8, 16(%rdi)
	retq
.Lfunc_end21:
	.size	"dm_words::contents::opening::opening_asked", .Lfunc_end21-"dm_words::contents::opening::opening_asked"
	.cfi_endproc

	.p2align	4
	.type	"dm_words::reading::next_part",@function
"dm_words::reading::next_part":
	.cfi_startproc
	pushq	%rbp
	.cfi_def_cfa_offset 16
	pushq	%r15
	.cfi_def_cfa_offset 24
	pushq	%r14
	.cfi_def_cfa_offset 32
	pushq	%r13
	.cfi_def_cfa_offset 40
	pushq	%r12
	.cfi_def_cfa_offset 48
	pushq	%rbx
	.cfi_def_cfa_offset 56
	subq	$2408, %rsp
	.cfi_def_cfa_offset 2464
	.cfi_offset %rbx, -56
	.cfi_offset %r12, -48
	.cfi_offset %r13, -40
	.cfi_offset %r14, -32
	.cfi_offset %r15, -24
	.cfi_offset %rbp, -16
	movq	%rcx, %rax
	subq	%r8, %rax
	jbe	.LBB22_5
	movq	2464(%rsp), %r12
	movzbl	(%rdx,%r8), %ebx
	movzbl	%bl, %r10d
	xorl	%ebp, %ebp
	leal	-230(%r10), %r11d
	cmpl	$11, %r11d
	ja	.LBB22_10
	leaq	.LJTI22_0(%rip), %r10
	movslq	(%r10,%r11,4), %r11
	addq	%r10, %r11
	jmpq	*%r11
.LBB22_3:
	incl	%r8d
	movw	$1, %si
.LBB22_4:
	movb	$1, %bpl
	xorl	%r11d, %r11d
	movl	%r8d, %r10d
	jmp	.LBB22_8
.LBB22_5:
	xorl	%ebp, %ebp
.LBB22_6:
	xorl	%ebx, %ebx
	xorl	%r10d, %r10d
	xorl	%esi, %esi
.LBB22_7:
	xorl	%r11d, %r11d
.LBB22_8:
	xorl	%eax, %eax
.LBB22_9:
	movw	%si, (%rdi)
	movb	%bpl, 2(%rdi)
	movb	%bl, 3(%rdi)
	movw	%r10w, 4(%rdi)
	movq	%r11, 8(%rdi)
	movq	%rax, 16(%rdi)
	addq	$2408, %rsp
	.cfi_def_cfa_offset 56
	popq	%rbx
	.cfi_def_cfa_offset 48
	popq	%r12
	.cfi_def_cfa_offset 40
	popq	%r13
	.cfi_def_cfa_offset 32
	popq	%r14
	.cfi_def_cfa_offset 24
	popq	%r15
	.cfi_def_cfa_offset 16
	popq	%rbp
	.cfi_def_cfa_offset 8
	retq
.LBB22_10:
	.cfi_def_cfa_offset 2464
	testl	%r10d, %r10d
	je	.LBB22_53
	cmpl	$129, %r10d
	je	.LBB22_6
.LBB22_12:
	cmpb	$-127, %bl
	jae	.LBB22_46
	decb	%bl
	movq	(%r12), %rax
	movb	$1, (%r9,%rax,2)
	movb	%bl, 1(%r9,%rax,2)
	jmp	.LBB22_48
.LBB22_14:
	movb	$1, %bpl
	jmp	.LBB22_31
.LBB22_15:
	leal	1(%r8), %r10d
	movq	%rax, %r11
	movw	$1, %si
	movb	$5, %bpl
	decq	%r11
	je	.LBB22_50
	leaq	1(%r8), %rbx
	imull	$149, %ebx, %ebx
	movl	%ebx, %r14d
	addl	$149, %ebx
	movl	$2155905153, %r15d
	imulq	%rbx, %r15
	shrq	$39, %r15
	leal	(%r14,%r15), %ebx
	addl	$149, %ebx
	notb	%bl
	addb	1(%rdx,%r8), %bl
	je	.LBB22_54
	movzbl	%bl, %ecx
	cmpb	$-7, %cl
	ja	.LBB22_57
	addq	$-2, %rax
	cmpq	%rcx, %rax
	jb	.LBB22_50
	movq	(%r12), %rax
	imull	$107, %r8d, %esi
	addb	$64, %sil
	imull	$149, %r8d, %r10d
	addl	$447, %r10d
	addq	%r8, %rdx
	addq	$2, %rdx
	xorl	%r8d, %r8d
.LBB22_20:
	movl	%r10d, %r11d
	movl	$2155905153, %ebx
	imulq	%r11, %rbx
	shrq	$39, %rbx
	movl	%esi, %r11d
	subb	%bl, %r11b
	addb	(%rdx,%r8), %r11b
	movb	$1, (%r9,%rax,2)
	movb	%r11b, 1(%r9,%rax,2)
	movq	(%r12), %rax
	incq	%rax
	movq	%rax, (%r12)
	incq	%r8
	addb	$107, %sil
	addl	$149, %r10d
	cmpq	%r8, %rcx
	jne	.LBB22_20
	addq	$2, %rcx
	jmp	.LBB22_63
.LBB22_22:
	leal	1(%r8), %r10d
	incq	%r8
	movw	$1, %si
	cmpq	%rcx, %r8
	jae	.LBB22_49
	movzbl	(%rdx,%r8), %eax
	movzbl	%al, %ecx
	movb	$2, %bpl
	xorl	%r11d, %r11d
	xorl	%ebx, %ebx
	leal	-230(%rcx), %edx
	cmpl	$11, %edx
	ja	.LBB22_25
	movl	$4071, %r8d
	btl	%edx, %r8d
	jb	.LBB22_8
.LBB22_25:
	testl	%ecx, %ecx
	je	.LBB22_8
	cmpl	$129, %ecx
	je	.LBB22_8
	cmpb	$-128, %al
	ja	.LBB22_50
	addb	$127, %al
	movq	(%r12), %rcx
	movb	$1, (%r9,%rcx,2)
	movb	%al, 1(%r9,%rcx,2)
	incq	(%r12)
	movl	$2, %eax
	movl	$1, %r11d
	jmp	.LBB22_70
.LBB22_29:
	movq	(%r12), %rax
	movw	$0, (%r9,%rax,2)
	jmp	.LBB22_48
.LBB22_30:
	movb	$2, %bpl
.LBB22_31:
	movl	%esi, %r12d
	movq	%rdx, %r14
	movq	%r8, %rbx
	movq	%r9, %r13
	movq	%rdi, 56(%rsp)
	xorps	%xmm0, %xmm0
	movaps	%xmm0, 32(%rsp)
	movq	%rcx, %r15
	leaq	71(%rsp), %rdi
	cmpq	$204, %rcx
	ja	.LBB22_33
	movl	$306, %edx
	jmp	.LBB22_34
.LBB22_33:
	movl	$2337, %edx
.LBB22_34:
	xorl	%esi, %esi
	callq	memset@PLT
	movq	2464(%rsp), %rax
	movq	%rax, 16(%rsp)
	movq	%r13, 8(%rsp)
	leaq	71(%rsp), %rax
	movq	%rax, (%rsp)
	movzbl	%r12b, %esi
	movzbl	%bpl, %edx
	leaq	32(%rsp), %rdi
	movq	%r14, %rcx
	movq	%r15, %r8
	movq	%rbx, %r9
	callq	"dm_words::c40::run::run_by"
	movzbl	32(%rsp), %esi
	testw	%si, %si
	movq	56(%rsp), %rdi
	je	.LBB22_36
	movzbl	34(%rsp), %ebp
	movzbl	35(%rsp), %ebx
	movzwl	36(%rsp), %r10d
	jmp	.LBB22_7
.LBB22_36:
	xorl	%ebp, %ebp
	movq	40(%rsp), %rax
	movl	$1, %r11d
	jmp	.LBB22_71
.LBB22_37:
	testb	%sil, %sil
	je	.LBB22_51
	leaq	1(%r8), %rax
	movq	%rcx, %r10
	subq	%rax, %r10
	cmpq	$3, %r10
	jb	.LBB22_69
	movq	%r8, %r10
	notq	%r10
	addq	%r8, %rdx
	addq	$3, %rdx
.LBB22_40:
	movzbl	-2(%rdx), %eax
	movl	%eax, %r14d
	shrb	$2, %r14b
	cmpb	$31, %r14b
	je	.LBB22_66
	movzbl	-1(%rdx), %ebx
	movzbl	(%rdx), %r11d
	leal	64(%r14), %ebp
	cmpb	$124, %al
	movzbl	%r14b, %r14d
	movzbl	%bpl, %ebp
	cmovael	%r14d, %ebp
	movq	(%r12), %r14
	movb	$1, (%r9,%r14,2)
	movb	%bpl, 1(%r9,%r14,2)
	movq	(%r12), %r14
	leaq	1(%r14), %r15
	movq	%r15, (%r12)
	movl	%ebx, %ebp
	shrb	$4, %bpl
	shlb	$4, %al
	orb	%bpl, %al
	andb	$63, %al
	cmpb	$31, %al
	je	.LBB22_67
	leal	64(%rax), %ebp
	cmpb	$31, %al
	movzbl	%al, %eax
	movzbl	%bpl, %ebp
	cmovael	%eax, %ebp
	movb	$1, 2(%r9,%r14,2)
	movb	%bpl, 3(%r9,%r14,2)
	movq	(%r12), %r14
	leaq	1(%r14), %rax
	movq	%rax, (%r12)
	movl	%r11d, %eax
	shrb	$6, %al
	shlb	$2, %bl
	orb	%al, %bl
	andb	$63, %bl
	movl	$3, %eax
	cmpb	$31, %bl
	je	.LBB22_68
	leal	64(%rbx), %ebp
	cmpb	$31, %bl
	movzbl	%bl, %ebx
	movzbl	%bpl, %ebp
	cmovael	%ebx, %ebp
	movb	$1, 2(%r9,%r14,2)
	movb	%bpl, 3(%r9,%r14,2)
	movq	(%r12), %rbx
	leaq	1(%rbx), %r14
	movq	%r14, (%r12)
	andb	$63, %r11b
	cmpb	$31, %r11b
	je	.LBB22_68
	leal	64(%r11), %eax
	cmpb	$31, %r11b
	movzbl	%r11b, %r11d
	movzbl	%al, %eax
	cmovael	%r11d, %eax
	movb	$1, 2(%r9,%rbx,2)
	movb	%al, 3(%r9,%rbx,2)
	incq	(%r12)
	leaq	(%rcx,%r10), %rax
	addq	$-3, %rax
	addq	$-3, %r10
	addq	$3, %rdx
	cmpq	$2, %rax
	ja	.LBB22_40
	negq	%r10
	movq	%r10, %rax
	jmp	.LBB22_69
.LBB22_46:
	cmpb	$-26, %bl
	jae	.LBB22_52
	addb	$126, %bl
	movzbl	%bl, %eax
	imull	$205, %eax, %ecx
	shrl	$11, %ecx
	leal	48(%rcx), %edx
	movq	(%r12), %rsi
	movb	$1, (%r9,%rsi,2)
	movb	%dl, 1(%r9,%rsi,2)
	movq	(%r12), %rdx
	leaq	1(%rdx), %rsi
	movq	%rsi, (%r12)
	addl	%ecx, %ecx
	leal	(%rcx,%rcx,4), %ecx
	subb	%cl, %al
	orb	$48, %al
	movb	$1, 2(%r9,%rdx,2)
	movb	%al, 3(%r9,%rdx,2)
.LBB22_48:
	incq	(%r12)
	movl	$1, %r11d
	xorl	%ebp, %ebp
	xorl	%ebx, %ebx
	xorl	%r10d, %r10d
	xorl	%esi, %esi
	movl	$1, %eax
	jmp	.LBB22_9
.LBB22_49:
	movb	$6, %bpl
.LBB22_50:
	xorl	%ebx, %ebx
	jmp	.LBB22_7
.LBB22_51:
	incl	%r8d
	movw	$1, %si
	movb	$-16, %bl
	jmp	.LBB22_4
.LBB22_52:
	cmpb	$-21, %bl
	jb	.LBB22_3
.LBB22_53:
	incl	%r8d
	movw	$1, %si
	xorl	%ebp, %ebp
	xorl	%ebx, %ebx
	movl	%r8d, %r10d
	jmp	.LBB22_7
.LBB22_54:
	movl	$1, %r11d
	cmpq	$2, %rax
	je	.LBB22_65
	movq	(%r12), %r10
	leaq	2(%r8), %rsi
	imull	$107, %r8d, %ebx
	addb	$64, %bl
	imull	$149, %r8d, %r8d
	addl	$447, %r8d
.LBB22_56:
	movl	%r8d, %r14d
	movl	$2155905153, %r15d
	imulq	%r14, %r15
	shrq	$39, %r15
	movl	%ebx, %ebp
	subb	%r15b, %bpl
	addb	(%rdx,%rsi), %bpl
	movb	$1, (%r9,%r10,2)
	movb	%bpl, 1(%r9,%r10,2)
	movq	(%r12), %r10
	incq	%r10
	movq	%r10, (%r12)
	incq	%rsi
	addb	$107, %bl
	addl	$149, %r8d
	xorl	%ebp, %ebp
	cmpq	%rsi, %rcx
	jne	.LBB22_56
	jmp	.LBB22_71
.LBB22_57:
	cmpq	$1, %r11
	je	.LBB22_50
	leaq	2(%r8), %r11
	imull	$149, %r11d, %r11d
	movl	%r11d, %ebx
	addl	$149, %r11d
	movl	$2155905153, %r14d
	imulq	%r11, %r14
	shrq	$39, %r14
	addl	%ebx, %r14d
	addl	$149, %r14d
	notb	%r14b
	addb	2(%rdx,%r8), %r14b
	xorl	%r11d, %r11d
	movl	$0, %ebx
	cmpb	$-7, %r14b
	ja	.LBB22_8
	movzbl	%r14b, %r14d
	imulq	$250, %rcx, %rcx
	addq	%r14, %rcx
	addq	$-62250, %rcx
	addq	$-3, %rax
	cmpq	%rcx, %rax
	movl	$0, %eax
	jb	.LBB22_9
	movq	(%r12), %rax
	imull	$107, %r8d, %esi
	addb	$-85, %sil
	imull	$149, %r8d, %r10d
	addl	$596, %r10d
	addq	%r8, %rdx
	addq	$3, %rdx
	xorl	%r8d, %r8d
.LBB22_61:
	movl	%r10d, %r11d
	movl	$2155905153, %ebx
	imulq	%r11, %rbx
	shrq	$39, %rbx
	movl	%esi, %r11d
	subb	%bl, %r11b
	addb	(%rdx,%r8), %r11b
	movb	$1, (%r9,%rax,2)
	movb	%r11b, 1(%r9,%rax,2)
	movq	(%r12), %rax
	incq	%rax
	movq	%rax, (%r12)
	incq	%r8
	addb	$107, %sil
	addl	$149, %r10d
	cmpq	%r8, %rcx
	jne	.LBB22_61
	addq	$3, %rcx
.LBB22_63:
	movl	$1, %r11d
	xorl	%ebp, %ebp
	xorl	%ebx, %ebx
	xorl	%r10d, %r10d
	xorl	%esi, %esi
	movq	%rcx, %rax
	jmp	.LBB22_9
.LBB22_65:
	movl	$2, %eax
	jmp	.LBB22_70
.LBB22_66:
	movl	$1, %eax
	jmp	.LBB22_68
.LBB22_67:
	movl	$2, %eax
.LBB22_68:
	subq	%r10, %rax
.LBB22_69:
	subq	%r8, %rax
	movzbl	%sil, %r11d
.LBB22_70:
	xorl	%ebp, %ebp
.LBB22_71:
	xorl	%ebx, %ebx
	xorl	%r10d, %r10d
	xorl	%esi, %esi
	jmp	.LBB22_9
.Lfunc_end22:
	.size	"dm_words::reading::next_part", .Lfunc_end22-"dm_words::reading::next_part"
	.cfi_endproc
	.section	.rodata,"a",@progbits
	.p2align	2, 0x0
.LJTI22_0:
	.long	.LBB22_31-.LJTI22_0
	.long	.LBB22_15-.LJTI22_0
	.long	.LBB22_29-.LJTI22_0
	.long	.LBB22_12-.LJTI22_0
	.long	.LBB22_12-.LJTI22_0
	.long	.LBB22_22-.LJTI22_0
	.long	.LBB22_3-.LJTI22_0
	.long	.LBB22_3-.LJTI22_0
	.long	.LBB22_30-.LJTI22_0
	.long	.LBB22_14-.LJTI22_0
	.long	.LBB22_37-.LJTI22_0
	.long	.LBB22_3-.LJTI22_0

	.text
	.p2align	4
	.type	"dm_words::c40::run::run_by",@function
"dm_words::c40::run::run_by":
	.cfi_startproc
	pushq	%rbp
	.cfi_def_cfa_offset 16
	pushq	%r15
	.cfi_def_cfa_offset 24
	pushq	%r14
	.cfi_def_cfa_offset 32
	pushq	%r13
	.cfi_def_cfa_offset 40
	pushq	%r12
	.cfi_def_cfa_offset 48
	pushq	%rbx
	.cfi_def_cfa_offset 56
	.cfi_offset %rbx, -56
	.cfi_offset %r12, -48
	.cfi_offset %r13, -40
	.cfi_offset %r14, -32
	.cfi_offset %r15, -24
	.cfi_offset %rbp, -16
	leaq	1(%r9), %rax
	subq	%rax, %r8
	jne	.LBB23_2
	xorl	%eax, %eax
	movb	$1, %r8b
	jmp	.LBB23_93
.LBB23_2:
	movl	%esi, -4(%rsp)
	movq	72(%rsp), %rsi
	movq	64(%rsp), %r11
	movq	56(%rsp), %rbx
	addq	%r9, %rcx
	addq	$2, %rcx
	xorl	%eax, %eax
	xorl	%r14d, %r14d
	.p2align	4
.LBB23_3:
	movzbl	-1(%rcx,%rax), %ebp
	movzwl	%bp, %r15d
	cmpl	$254, %r15d
	je	.LBB23_8
	leaq	1(%rax), %r12
	cmpq	%r8, %r12
	jae	.LBB23_7
	movzbl	(%rcx,%rax), %r12d
	shll	$8, %r15d
	leal	(%r15,%r12), %ebp
	addl	$1535, %ebp
	movzwl	%bp, %ebp
	cmpl	$1536, %ebp
	jb	.LBB23_9
	orl	%r12d, %r15d
	decl	%r15d
	movzwl	%r15w, %ebp
	imull	$52429, %ebp, %r12d
	shrl	$6, %ebp
	imull	$2622, %ebp, %ebp
	shrl	$16, %ebp
	shrl	$21, %r12d
	imull	$1639, %r12d, %r13d
	shrl	$13, %r13d
	andl	$-8, %r13d
	leal	(%r13,%r13,4), %r13d
	movl	%r12d, %r10d
	subl	%r13d, %r10d
	shll	$3, %r12d
	leal	(%r12,%r12,4), %r12d
	subl	%r12d, %r15d
	movb	%bpl, (%rbx,%r14)
	movb	%r10b, 1(%rbx,%r14)
	movb	%r15b, 2(%rbx,%r14)
	addq	$3, %r14
	addq	$2, %rax
	cmpq	%r8, %rax
	jb	.LBB23_3
.LBB23_7:
	movb	$1, %r8b
	xorl	%ebp, %ebp
	jmp	.LBB23_10
.LBB23_8:
	xorl	%ebp, %ebp
	xorl	%r8d, %r8d
	jmp	.LBB23_10
.LBB23_9:
	movb	$2, %r8b
	movb	$1, %bpl
.LBB23_10:
	testq	%r14, %r14
	je	.LBB23_86
	xorl	%r15d, %r15d
	jmp	.LBB23_14
.LBB23_12:
	shll	$3, %ecx
	movl	$540944909, %r10d
	shrl	%cl, %r10d
	movb	$1, %r12b
	movl	$1, %r13d
	movl	%r10d, %ecx
	.p2align	4
.LBB23_13:
	movq	(%rsi), %r10
	movb	%r12b, (%r11,%r10,2)
	movb	%cl, 1(%r11,%r10,2)
	incq	(%rsi)
	addq	%r13, %r15
	cmpq	%r14, %r15
	jae	.LBB23_86
.LBB23_14:
	movzbl	(%rbx,%r15), %ecx
	testb	%dl, %dl
	je	.LBB23_22
	movzbl	%dl, %r10d
	cmpl	$1, %r10d
	jne	.LBB23_27
	movb	$1, %r12b
	movl	$1, %r13d
	cmpl	$3, %ecx
	ja	.LBB23_46
	movl	%ecx, %ecx
	leaq	.LJTI23_1(%rip), %r10
	movslq	(%r10,%rcx,4), %rcx
	addq	%r10, %rcx
	jmpq	*%rcx
.LBB23_18:
	leaq	1(%r15), %rcx
	cmpq	%r14, %rcx
	jae	.LBB23_86
	movzbl	(%rbx,%rcx), %ecx
	testb	%cl, %cl
	je	.LBB23_56
	cmpb	$26, %cl
	ja	.LBB23_55
	orb	$64, %cl
	movl	$2, %r13d
	jmp	.LBB23_13
	.p2align	4
.LBB23_22:
	cmpl	$3, %ecx
	ja	.LBB23_28
	movb	$1, %r12b
	movl	%ecx, %ecx
	leaq	.LJTI23_0(%rip), %r10
	movslq	(%r10,%rcx,4), %rcx
	addq	%r10, %rcx
	jmpq	*%rcx
.LBB23_24:
	leaq	1(%r15), %rcx
	cmpq	%r14, %rcx
	jae	.LBB23_86
	movzbl	(%rbx,%rcx), %ecx
	cmpb	$32, %cl
	jae	.LBB23_89
	movb	$1, %r12b
	movl	$2, %r13d
	jmp	.LBB23_13
	.p2align	4
.LBB23_27:
	cmpb	$4, %cl
	jb	.LBB23_12
.LBB23_28:
	cmpb	$14, %cl
	jb	.LBB23_47
	addb	$51, %cl
	jmp	.LBB23_48
.LBB23_30:
	leaq	1(%r15), %rcx
	cmpq	%r14, %rcx
	jae	.LBB23_86
	movzbl	(%rbx,%rcx), %ecx
	movl	$2, %r13d
	cmpl	$27, %ecx
	je	.LBB23_49
	cmpl	$30, %ecx
	jne	.LBB23_50
	leaq	2(%r15), %rcx
	cmpq	%r14, %rcx
	jae	.LBB23_91
	movzbl	(%rbx,%rcx), %ecx
	testb	%dl, %dl
	je	.LBB23_57
	cmpl	$3, %ecx
	ja	.LBB23_69
	movl	%ecx, %ecx
	leaq	.LJTI23_2(%rip), %r10
	movslq	(%r10,%rcx,4), %rcx
	addq	%r10, %rcx
	jmpq	*%rcx
.LBB23_37:
	leaq	3(%r15), %rcx
	cmpq	%r14, %rcx
	jae	.LBB23_91
	movzbl	(%rbx,%rcx), %ecx
	testb	%cl, %cl
	je	.LBB23_82
	cmpb	$26, %cl
	ja	.LBB23_81
	orb	$64, %cl
	jmp	.LBB23_83
.LBB23_41:
	leaq	1(%r15), %rcx
	cmpq	%r14, %rcx
	jae	.LBB23_86
	movzbl	(%rbx,%rcx), %ecx
	cmpb	$32, %cl
	jae	.LBB23_89
	orb	$96, %cl
	movl	$2, %r13d
	jmp	.LBB23_13
.LBB23_44:
	movb	$32, %cl
	jmp	.LBB23_13
.LBB23_45:
	movb	$32, %cl
	movl	$1, %r13d
	jmp	.LBB23_13
.LBB23_46:
	cmpb	$14, %cl
	jae	.LBB23_52
.LBB23_47:
	addb	$44, %cl
.LBB23_48:
	movb	$1, %r12b
	movl	$1, %r13d
	jmp	.LBB23_13
.LBB23_49:
	xorl	%r12d, %r12d
	xorl	%ecx, %ecx
	jmp	.LBB23_13
.LBB23_50:
	cmpb	$14, %cl
	ja	.LBB23_53
	addb	$33, %cl
	movb	$1, %r12b
	jmp	.LBB23_13
.LBB23_52:
	addb	$83, %cl
	jmp	.LBB23_13
.LBB23_53:
	cmpb	$21, %cl
	ja	.LBB23_61
	addb	$43, %cl
	movb	$1, %r12b
	jmp	.LBB23_13
.LBB23_55:
	cmpb	$31, %cl
	ja	.LBB23_89
.LBB23_56:
	addb	$96, %cl
	movl	$2, %r13d
	jmp	.LBB23_13
.LBB23_57:
	cmpl	$3, %ecx
	ja	.LBB23_77
	movl	%ecx, %ecx
	leaq	.LJTI23_3(%rip), %r10
	movslq	(%r10,%rcx,4), %rcx
	addq	%r10, %rcx
	jmpq	*%rcx
.LBB23_59:
	leaq	3(%r15), %rcx
	cmpq	%r14, %rcx
	jae	.LBB23_91
	movzbl	(%rbx,%rcx), %ecx
	cmpb	$31, %cl
	jbe	.LBB23_83
	jmp	.LBB23_98
.LBB23_61:
	cmpb	$27, %cl
	jae	.LBB23_89
	addb	$69, %cl
	movb	$1, %r12b
	jmp	.LBB23_13
.LBB23_68:
	movb	$32, %cl
	jmp	.LBB23_85
.LBB23_63:
	leaq	3(%r15), %rcx
	cmpq	%r14, %rcx
	jae	.LBB23_91
	movzbl	(%rbx,%rcx), %ecx
	cmpl	$27, %ecx
	je	.LBB23_95
	cmpl	$30, %ecx
	je	.LBB23_95
	cmpb	$14, %cl
	ja	.LBB23_71
	addb	$33, %cl
	jmp	.LBB23_83
.LBB23_69:
	cmpb	$14, %cl
	jb	.LBB23_78
	addb	$83, %cl
	jmp	.LBB23_85
.LBB23_71:
	cmpb	$21, %cl
	ja	.LBB23_79
	addb	$43, %cl
	jmp	.LBB23_83
.LBB23_73:
	leaq	3(%r15), %rcx
	cmpq	%r14, %rcx
	jae	.LBB23_91
	movzbl	(%rbx,%rcx), %ecx
	cmpb	$32, %cl
	jae	.LBB23_98
	orb	$96, %cl
	jmp	.LBB23_83
.LBB23_77:
	cmpb	$14, %cl
	jae	.LBB23_84
.LBB23_78:
	addb	$44, %cl
	jmp	.LBB23_85
.LBB23_79:
	cmpb	$27, %cl
	jae	.LBB23_98
	addb	$69, %cl
	jmp	.LBB23_83
.LBB23_81:
	cmpb	$31, %cl
	ja	.LBB23_98
.LBB23_82:
	addb	$96, %cl
.LBB23_83:
	addb	$-128, %cl
	movb	$1, %r12b
	movl	$4, %r13d
	jmp	.LBB23_13
.LBB23_84:
	addb	$51, %cl
.LBB23_85:
	addb	$-128, %cl
	movb	$1, %r12b
	movl	$3, %r13d
	jmp	.LBB23_13
.LBB23_86:
	testb	%bpl, %bpl
	je	.LBB23_93
.LBB23_87:
	leal	(%rax,%r9), %ecx
	addl	$2, %ecx
	movb	$3, %dl
.LBB23_88:
	movw	$1, %si
	xorl	%eax, %eax
	jmp	.LBB23_94
.LBB23_89:
	movw	$1, %ax
.LBB23_90:
	movzwl	%ax, %eax
	addl	%r15d, %eax
	movzwl	%ax, %eax
	imull	$43691, %eax, %eax
	shrl	$17, %eax
	leal	(%r9,%rax,2), %ecx
	addl	$2, %ecx
	movb	$4, %dl
	jmp	.LBB23_88
.LBB23_91:
	testb	%bpl, %bpl
	jne	.LBB23_87
	cmpb	$0, -4(%rsp)
	je	.LBB23_96
.LBB23_93:
	cmpb	$1, %r8b
	adcq	$1, %rax
	xorl	%esi, %esi
	xorl	%edx, %edx
	xorl	%ecx, %ecx
.LBB23_94:
	movw	%si, (%rdi)
	movb	%dl, 2(%rdi)
	movb	$0, 3(%rdi)
	movw	%cx, 4(%rdi)
	movq	%rax, 8(%rdi)
	popq	%rbx
	.cfi_def_cfa_offset 48
	popq	%r12
	.cfi_def_cfa_offset 40
	popq	%r13
	.cfi_def_cfa_offset 32
	popq	%r14
	.cfi_def_cfa_offset 24
	popq	%r15
	.cfi_def_cfa_offset 16
	popq	%rbp
	.cfi_def_cfa_offset 8
	retq
.LBB23_95:
	.cfi_def_cfa_offset 56
	incl	%r15d
	movzwl	%r15w, %eax
	imull	$43691, %eax, %eax
	shrl	$17, %eax
	leal	(%r9,%rax,2), %ecx
	addl	$2, %ecx
	movb	$2, %dl
	jmp	.LBB23_88
.LBB23_98:
	movw	$3, %ax
	jmp	.LBB23_90
.LBB23_96:
	incl	%r15d
	movzwl	%r15w, %eax
	imull	$43691, %eax, %eax
	shrl	$17, %eax
	leal	(%r9,%rax,2), %ecx
	addl	$2, %ecx
	movb	$6, %dl
	jmp	.LBB23_88
.Lfunc_end23:
	.size	"dm_words::c40::run::run_by", .Lfunc_end23-"dm_words::c40::run::run_by"
	.cfi_endproc
	.section	.rodata,"a",@progbits
	.p2align	2, 0x0
.LJTI23_0:
	.long	.LBB23_24-.LJTI23_0
	.long	.LBB23_30-.LJTI23_0
	.long	.LBB23_41-.LJTI23_0
	.long	.LBB23_45-.LJTI23_0
.LJTI23_1:
	.long	.LBB23_24-.LJTI23_1
	.long	.LBB23_30-.LJTI23_1
	.long	.LBB23_18-.LJTI23_1
	.long	.LBB23_44-.LJTI23_1
.LJTI23_2:
	.long	.LBB23_59-.LJTI23_2
	.long	.LBB23_63-.LJTI23_2
	.long	.LBB23_37-.LJTI23_2
	.long	.LBB23_68-.LJTI23_2
.LJTI23_3:
	.long	.LBB23_59-.LJTI23_3
	.long	.LBB23_63-.LJTI23_3
	.long	.LBB23_73-.LJTI23_3
	.long	.LBB23_68-.LJTI23_3

	.text
	.p2align	4
	.type	"ecc200_calls::inspection::find_designators::<=779>",@function
"ecc200_calls::inspection::find_designators::<=779>":
	.cfi_startproc
	pushq	%r15
	.cfi_def_cfa_offset 16
	pushq	%r14
	.cfi_def_cfa_offset 24
	pushq	%r12
	.cfi_def_cfa_offset 32
	pushq	%rbx
	.cfi_def_cfa_offset 40
	subq	$3072, %rsp
	.cfi_adjust_cfa_offset 3072
	movq	$0, (%rsp)
	subq	$3072, %rsp
	.cfi_adjust_cfa_offset 3072
	movq	$0, (%rsp)
	subq	$88, %rsp
	.cfi_def_cfa_offset 6272
	.cfi_offset %rbx, -40
	.cfi_offset %r12, -32
	.cfi_offset %r14, -24
	.cfi_offset %r15, -16
	movq	%rdx, %r14
	movq	%rsi, %r15
	movq	%rdi, %rbx
	movq	%rsp, %r12
	movl	$6232, %edx
	movq	%r12, %rdi
	xorl	%esi, %esi
	callq	memset@PLT
	movq	%r15, %rdi
	movq	%r14, %rsi
	movq	%r12, %rdx
	callq	"dm_words::contents::designation::designations_to"
	movw	%ax, 18(%rbx)
	testq	%rax, %rax
	je	.LBB24_6
	cmpq	$3, %rax
	jae	.LBB24_3
	xorl	%ecx, %ecx
	jmp	.LBB24_5
.LBB24_3:
	movq	%rax, %rcx
	orq	$-2, %rcx
	addq	%rax, %rcx
	xorl	%edx, %edx
	.p2align	4
.LBB24_4:
	movd	(%rsp,%rdx,8), %xmm0
	pinsrw	$1, 8(%rsp,%rdx,8), %xmm0
	movdqu	4(%rsp,%rdx,8), %xmm1
	pmovzxwd	%xmm0, %xmm0
	pshufd	$80, %xmm0, %xmm0
	pblendw	$51, %xmm1, %xmm0
	movdqu	%xmm0, 20(%rbx,%rdx,8)
	addq	$2, %rdx
	cmpq	%rdx, %rcx
	jne	.LBB24_4
	.p2align	4
.LBB24_5:
	movzwl	(%rsp,%rcx,8), %edx
	movl	4(%rsp,%rcx,8), %esi
	movl	%esi, 20(%rbx,%rcx,8)
	movl	%edx, 24(%rbx,%rcx,8)
	incq	%rcx
	cmpq	%rcx, %rax
	jne	.LBB24_5
.LBB24_6:
	addq	$6232, %rsp
	.cfi_def_cfa_offset 40
	popq	%rbx
	.cfi_def_cfa_offset 32
	popq	%r12
	.cfi_def_cfa_offset 24
	popq	%r14
	.cfi_def_cfa_offset 16
	popq	%r15
	.cfi_def_cfa_offset 8
	retq
.Lfunc_end24:
	.size	"ecc200_calls::inspection::find_designators::<=779>", .Lfunc_end24-"ecc200_calls::inspection::find_designators::<=779>"
	.cfi_endproc

	.p2align	4
	.type	"ecc200_calls::inspection::inspect_given::<=52,=288,=415,=102>",@function
"ecc200_calls::inspection::inspect_given::<=52,=288,=415,=102>":
	.cfi_startproc
	pushq	%rbp
	.cfi_def_cfa_offset 16
	pushq	%r15
	.cfi_def_cfa_offset 24
	pushq	%r14
	.cfi_def_cfa_offset 32
	pushq	%r13
	.cfi_def_cfa_offset 40
	pushq	%r12
	.cfi_def_cfa_offset 48
	pushq	%rbx
	.cfi_def_cfa_offset 56
	subq	$1976, %rsp
	.cfi_def_cfa_offset 2032
	.cfi_offset %rbx, -56
	.cfi_offset %r12, -48
	.cfi_offset %r13, -40
	.cfi_offset %r14, -32
	.cfi_offset %r15, -24
	.cfi_offset %rbp, -16
	movq	%r9, %rbx
	movq	%r8, %r12
	movq	%rcx, 8(%rsp)
	movq	%rdx, (%rsp)
	movq	%rsi, %r13
	movq	%rdi, %rbp
	movzwl	(%r8), %r14d
	movzwl	18(%r8), %eax
	movzbl	20(%r8), %r15d
	movw	%ax, 34(%rsp)
	movups	2(%r8), %xmm0
	movups	%xmm0, 18(%rsp)
	leaq	36(%rsp), %rdi
	movl	$844, %edx
	xorl	%esi, %esi
	callq	memset@PLT
	movw	%r14w, 16(%rsp)
	xorps	%xmm0, %xmm0
	movaps	%xmm0, 880(%rsp)
	movaps	%xmm0, 896(%rsp)
	movaps	%xmm0, 912(%rsp)
	movaps	%xmm0, 928(%rsp)
	movaps	%xmm0, 944(%rsp)
	movaps	%xmm0, 960(%rsp)
	movaps	%xmm0, 976(%rsp)
	leaq	16(%rsp), %rdi
	movq	%rbp, %rsi
	movq	%r13, %rdx
	callq	"ecc200_calls::modules::put_modules::<=52>"
	testb	$1, %r15b
	je	.LBB25_2
	addq	$2, %r12
	movw	%r14w, 992(%rsp)
	movups	(%r12), %xmm0
	movups	%xmm0, 994(%rsp)
	movzwl	16(%r12), %eax
	movw	%ax, 1010(%rsp)
	leaq	1012(%rsp), %rdi
	movl	$956, %edx
	xorl	%esi, %esi
	callq	memset@PLT
	leaq	992(%rsp), %r12
	movq	%r12, %rdi
	movq	(%rsp), %rsi
	movq	8(%rsp), %rdx
	callq	"ecc200_calls::modules::put_modules::<=52>"
	leaq	16(%rsp), %rdi
	movl	$1, %esi
	movq	%r12, %rdx
	jmp	.LBB25_3
.LBB25_2:
	leaq	16(%rsp), %rdi
	xorl	%esi, %esi
	xorl	%edx, %edx
.LBB25_3:
	movq	%rbx, %rcx
	callq	"ecc200_calls::inspection::inspect_symbol::<=52,=288>"
	addq	$1976, %rsp
	.cfi_def_cfa_offset 56
	popq	%rbx
	.cfi_def_cfa_offset 48
	popq	%r12
	.cfi_def_cfa_offset 40
	popq	%r13
	.cfi_def_cfa_offset 32
	popq	%r14
	.cfi_def_cfa_offset 24
	popq	%r15
	.cfi_def_cfa_offset 16
	popq	%rbp
	.cfi_def_cfa_offset 8
	retq
.Lfunc_end25:
	.size	"ecc200_calls::inspection::inspect_given::<=52,=288,=415,=102>", .Lfunc_end25-"ecc200_calls::inspection::inspect_given::<=52,=288,=415,=102>"
	.cfi_endproc

	.p2align	4
	.type	"ecc200_calls::modules::put_modules::<=52>",@function
"ecc200_calls::modules::put_modules::<=52>":
	.cfi_startproc
	pushq	%rbp
	.cfi_def_cfa_offset 16
	pushq	%r15
	.cfi_def_cfa_offset 24
	pushq	%r14
	.cfi_def_cfa_offset 32
	pushq	%r13
	.cfi_def_cfa_offset 40
	pushq	%r12
	.cfi_def_cfa_offset 48
	pushq	%rbx
	.cfi_def_cfa_offset 56
	.cfi_offset %rbx, -56
	.cfi_offset %r12, -48
	.cfi_offset %r13, -40
	.cfi_offset %r14, -32
	.cfi_offset %r15, -24
	.cfi_offset %rbp, -16
	movq	%rsi, -56(%rsp)
	movq	%rdi, -64(%rsp)
	movzwl	(%rdi), %eax
	movq	%rax, -16(%rsp)
	testq	%rax, %rax
	je	.LBB26_77
	movq	%rdx, %r8
	movq	-64(%rsp), %rax
	movzwl	2(%rax), %r15d
	cmpq	$128, %r15
	movl	$128, %r11d
	cmovbq	%r15, %r11
	movq	-56(%rsp), %rax
	leaq	(%rax,%rdx), %r10
	leaq	-64(%rdx), %r12
	addq	$-65, %rdx
	movq	%rdx, -72(%rsp)
	leaq	-128(%r8), %rdi
	leaq	-129(%r8), %rsi
	movq	%rsi, -32(%rsp)
	addq	%r8, %rax
	decq	%rax
	movq	%rax, -128(%rsp)
	xorl	%r13d, %r13d
	movq	%rdi, -40(%rsp)
	movq	%r8, %rsi
	movq	%r12, -24(%rsp)
	movq	%r8, -88(%rsp)
	movq	%r15, -96(%rsp)
	movq	%r11, -112(%rsp)
	jmp	.LBB26_6
	.p2align	4
.LBB26_66:
	xorl	%eax, %eax
	movq	-88(%rsp), %r8
	movq	-80(%rsp), %rsi
.LBB26_5:
	movq	%r13, %rcx
	shlq	$4, %rcx
	movq	-64(%rsp), %rdx
	movq	%r12, 40(%rdx,%rcx)
	movq	%rbx, 32(%rdx,%rcx)
	movw	%ax, 864(%rdx,%r13,2)
	incq	%r13
	movq	-8(%rsp), %r12
	subq	%r15, %r12
	subq	%r15, %rsi
	subq	%r15, %rdi
	cmpq	-16(%rsp), %r13
	je	.LBB26_77
.LBB26_6:
	movq	%r13, %rdx
	imulq	%r15, %rdx
	movq	%r8, %r14
	subq	%rdx, %r14
	movq	-56(%rsp), %rax
	addq	%rdx, %rax
	cmpq	$63, %r14
	movq	%r12, -8(%rsp)
	ja	.LBB26_20
	testq	%r15, %r15
	je	.LBB26_2
	movq	%rdi, -48(%rsp)
	movl	%r12d, %ecx
	andl	$1, %ecx
	movq	%rsi, -80(%rsp)
	subq	%rcx, %rsi
	movq	%rdx, -120(%rsp)
	movq	%rdx, %r15
	subq	%r8, %r15
	xorl	%edi, %edi
	xorl	%ebx, %ebx
	xorl	%r12d, %r12d
	xorl	%ecx, %ecx
	jmp	.LBB26_11
	.p2align	4
.LBB26_9:
	movdqu	(%rax,%rcx), %xmm0
	pxor	%xmm1, %xmm1
	pcmpeqb	%xmm0, %xmm1
	pmovmskb	%xmm1, %ebp
	notl	%ebp
.LBB26_10:
	movzwl	%bp, %edx
	xorl	%r8d, %r8d
	shldq	%cl, %rdx, %r8
	shlq	%cl, %rdx
	xorl	%r9d, %r9d
	testb	$64, %cl
	cmovneq	%rdx, %r8
	cmovneq	%r9, %rdx
	orq	%r8, %r12
	orq	%rdx, %rbx
	addq	$16, %rcx
	incq	%rdi
	addq	$-16, %rsi
	cmpq	%r11, %rcx
	jae	.LBB26_65
.LBB26_11:
	movq	%r14, %rdx
	subq	%rcx, %rdx
	cmpq	$15, %rdx
	ja	.LBB26_9
	cmpq	%rcx, %r14
	jne	.LBB26_14
	xorl	%ebp, %ebp
	jmp	.LBB26_10
	.p2align	4
.LBB26_14:
	movq	%rdi, %rdx
	shlq	$4, %rdx
	negq	%rdx
	decq	%rdx
	xorl	%ebp, %ebp
	cmpq	%rdx, %r15
	jne	.LBB26_16
	xorl	%r9d, %r9d
	jmp	.LBB26_19
.LBB26_16:
	movq	-128(%rsp), %r11
	xorl	%r9d, %r9d
	.p2align	4
.LBB26_17:
	xorl	%r8d, %r8d
	cmpb	$0, (%r11)
	setne	%r8b
	addl	%r8d, %r8d
	leal	(%r8,%rbp,4), %r8d
	movq	%r9, %rdx
	xorq	$-2, %rdx
	xorl	%ebp, %ebp
	cmpb	$0, (%r10,%rdx)
	setne	%bpl
	orl	%r8d, %ebp
	addq	$2, %r9
	addq	$-2, %r11
	cmpq	%r9, %rsi
	jne	.LBB26_17
	testb	$1, %r14b
	movq	-112(%rsp), %r11
	je	.LBB26_10
.LBB26_19:
	notq	%r9
	xorl	%edx, %edx
	cmpb	$0, (%r10,%r9)
	setne	%dl
	leal	(%rdx,%rbp,2), %ebp
	jmp	.LBB26_10
	.p2align	4
.LBB26_20:
	movq	%rdx, -120(%rsp)
	movdqu	(%rax), %xmm0
	movdqu	16(%rax), %xmm1
	movdqu	32(%rax), %xmm2
	movdqu	48(%rax), %xmm3
	pxor	%xmm4, %xmm4
	pcmpeqb	%xmm4, %xmm3
	pcmpeqb	%xmm4, %xmm2
	pcmpeqb	%xmm4, %xmm1
	pcmpeqb	%xmm4, %xmm0
	pmovmskb	%xmm0, %ecx
	xorl	$65535, %ecx
	pmovmskb	%xmm1, %edx
	notl	%edx
	shll	$16, %edx
	orl	%ecx, %edx
	pmovmskb	%xmm2, %ecx
	xorl	$65535, %ecx
	shlq	$32, %rcx
	orq	%rdx, %rcx
	pmovmskb	%xmm3, %ebx
	notl	%ebx
	shlq	$48, %rbx
	orq	%rcx, %rbx
	cmpw	$65, %r15w
	jb	.LBB26_3
	movq	%rsi, -80(%rsp)
	movq	%r12, %rcx
	andq	$-2, %rcx
	movq	-24(%rsp), %rbp
	movq	-120(%rsp), %rdx
	subq	%rdx, %rbp
	movq	%r14, %rsi
	andq	$-16, %rsi
	cmpq	$64, %rsi
	movq	%rdi, -48(%rsp)
	jne	.LBB26_24
	cmpq	$64, %r14
	jne	.LBB26_25
	xorl	%edi, %edi
	jmp	.LBB26_31
.LBB26_2:
	xorl	%ebx, %ebx
.LBB26_3:
	xorl	%r12d, %r12d
.LBB26_4:
	xorl	%eax, %eax
	jmp	.LBB26_5
.LBB26_24:
	movdqu	64(%rax), %xmm0
	pxor	%xmm1, %xmm1
	pcmpeqb	%xmm0, %xmm1
	pmovmskb	%xmm1, %edi
	notl	%edi
	jmp	.LBB26_31
.LBB26_25:
	cmpq	%rdx, -72(%rsp)
	jne	.LBB26_27
	xorl	%edi, %edi
	xorl	%edx, %edx
	jmp	.LBB26_30
.LBB26_27:
	xorl	%edi, %edi
	movq	-128(%rsp), %r11
	xorl	%edx, %edx
	.p2align	4
.LBB26_28:
	xorl	%r8d, %r8d
	cmpb	$0, (%r11)
	setne	%r8b
	addl	%r8d, %r8d
	leal	(%r8,%rdi,4), %r8d
	movq	%rdx, %r9
	xorq	$-2, %r9
	xorl	%edi, %edi
	cmpb	$0, (%r10,%r9)
	setne	%dil
	orl	%r8d, %edi
	addq	$2, %rdx
	addq	$-2, %r11
	cmpq	%rdx, %rcx
	jne	.LBB26_28
	testb	$1, %bpl
	movq	-112(%rsp), %r11
	je	.LBB26_31
.LBB26_30:
	notq	%rdx
	xorl	%r8d, %r8d
	cmpb	$0, (%r10,%rdx)
	setne	%r8b
	leal	(%r8,%rdi,2), %edi
	.p2align	4
.LBB26_31:
	movzwl	%di, %r12d
	cmpw	$81, %r15w
	jb	.LBB26_65
	movq	-72(%rsp), %r9
	subq	-120(%rsp), %r9
	cmpq	$80, %rsi
	jne	.LBB26_35
	cmpq	$80, %r14
	jne	.LBB26_36
	xorl	%edi, %edi
	jmp	.LBB26_42
.LBB26_35:
	movdqu	80(%rax), %xmm0
	pxor	%xmm1, %xmm1
	pcmpeqb	%xmm0, %xmm1
	pmovmskb	%xmm1, %edi
	notl	%edi
	jmp	.LBB26_42
.LBB26_36:
	cmpq	$16, %r9
	jne	.LBB26_38
	xorl	%edi, %edi
	xorl	%edx, %edx
	jmp	.LBB26_41
.LBB26_38:
	movq	%r9, -104(%rsp)
	leaq	-16(%rcx), %r15
	xorl	%edi, %edi
	movq	-128(%rsp), %r11
	xorl	%edx, %edx
	.p2align	4
.LBB26_39:
	xorl	%r8d, %r8d
	cmpb	$0, (%r11)
	setne	%r8b
	addl	%r8d, %r8d
	leal	(%r8,%rdi,4), %r8d
	movq	%rdx, %r9
	xorq	$-2, %r9
	xorl	%edi, %edi
	cmpb	$0, (%r10,%r9)
	setne	%dil
	orl	%r8d, %edi
	addq	$2, %rdx
	addq	$-2, %r11
	cmpq	%rdx, %r15
	jne	.LBB26_39
	testb	$1, %bpl
	movq	-96(%rsp), %r15
	movq	-112(%rsp), %r11
	movq	-104(%rsp), %r9
	je	.LBB26_42
.LBB26_41:
	notq	%rdx
	xorl	%r8d, %r8d
	cmpb	$0, (%r10,%rdx)
	setne	%r8b
	leal	(%r8,%rdi,2), %edi
.LBB26_42:
	shll	$16, %edi
	orq	%rdi, %r12
	cmpw	$97, %r15w
	jb	.LBB26_65
	cmpq	$96, %rsi
	jne	.LBB26_46
	cmpq	$96, %r14
	jne	.LBB26_47
	xorl	%edi, %edi
	jmp	.LBB26_53
.LBB26_46:
	movdqu	96(%rax), %xmm0
	pxor	%xmm1, %xmm1
	pcmpeqb	%xmm0, %xmm1
	pmovmskb	%xmm1, %edi
	notl	%edi
	jmp	.LBB26_53
.LBB26_47:
	cmpq	$32, %r9
	jne	.LBB26_49
	xorl	%edi, %edi
	xorl	%edx, %edx
	jmp	.LBB26_52
.LBB26_49:
	movq	%r9, -104(%rsp)
	leaq	-32(%rcx), %r15
	xorl	%edi, %edi
	movq	-128(%rsp), %r11
	xorl	%edx, %edx
	.p2align	4
.LBB26_50:
	xorl	%r8d, %r8d
	cmpb	$0, (%r11)
	setne	%r8b
	addl	%r8d, %r8d
	leal	(%r8,%rdi,4), %r8d
	movq	%rdx, %r9
	xorq	$-2, %r9
	xorl	%edi, %edi
	cmpb	$0, (%r10,%r9)
	setne	%dil
	orl	%r8d, %edi
	addq	$2, %rdx
	addq	$-2, %r11
	cmpq	%rdx, %r15
	jne	.LBB26_50
	testb	$1, %bpl
	movq	-96(%rsp), %r15
	movq	-112(%rsp), %r11
	movq	-104(%rsp), %r9
	je	.LBB26_53
.LBB26_52:
	notq	%rdx
	xorl	%r8d, %r8d
	cmpb	$0, (%r10,%rdx)
	setne	%r8b
	leal	(%r8,%rdi,2), %edi
.LBB26_53:
	movzwl	%di, %edx
	shlq	$32, %rdx
	orq	%rdx, %r12
	cmpw	$113, %r15w
	jb	.LBB26_65
	cmpq	$112, %rsi
	jne	.LBB26_57
	cmpq	$112, %r14
	jne	.LBB26_58
	xorl	%esi, %esi
	jmp	.LBB26_64
.LBB26_57:
	movdqu	112(%rax), %xmm0
	pxor	%xmm1, %xmm1
	pcmpeqb	%xmm0, %xmm1
	pmovmskb	%xmm1, %esi
	notl	%esi
	jmp	.LBB26_64
.LBB26_58:
	cmpq	$48, %r9
	jne	.LBB26_60
	xorl	%esi, %esi
	xorl	%edx, %edx
	jmp	.LBB26_63
.LBB26_60:
	addq	$-48, %rcx
	xorl	%esi, %esi
	movq	-128(%rsp), %rdi
	xorl	%edx, %edx
	.p2align	4
.LBB26_61:
	xorl	%r8d, %r8d
	cmpb	$0, (%rdi)
	setne	%r8b
	addl	%r8d, %r8d
	leal	(%r8,%rsi,4), %r8d
	movq	%rdx, %r9
	xorq	$-2, %r9
	xorl	%esi, %esi
	cmpb	$0, (%r10,%r9)
	setne	%sil
	orl	%r8d, %esi
	addq	$2, %rdx
	addq	$-2, %rdi
	cmpq	%rdx, %rcx
	jne	.LBB26_61
	testb	$1, %bpl
	je	.LBB26_64
.LBB26_63:
	notq	%rdx
	xorl	%ecx, %ecx
	cmpb	$0, (%r10,%rdx)
	setne	%cl
	leal	(%rcx,%rsi,2), %esi
.LBB26_64:
	movzwl	%si, %ecx
	shlq	$48, %rcx
	orq	%rcx, %r12
	.p2align	4
.LBB26_65:
	movq	-96(%rsp), %r15
	cmpl	$129, %r15d
	movq	-48(%rsp), %rdi
	jb	.LBB26_66
	addq	$-128, %r14
	cmpq	$15, %r14
	movq	-88(%rsp), %r8
	movq	-80(%rsp), %rsi
	ja	.LBB26_71
	testq	%r14, %r14
	je	.LBB26_4
	movq	-120(%rsp), %rax
	cmpq	%rax, -32(%rsp)
	jne	.LBB26_73
	xorl	%eax, %eax
	xorl	%ecx, %ecx
	jmp	.LBB26_76
.LBB26_71:
	movdqu	128(%rax), %xmm0
	pxor	%xmm1, %xmm1
	pcmpeqb	%xmm0, %xmm1
	pmovmskb	%xmm1, %eax
	notl	%eax
	jmp	.LBB26_5
.LBB26_73:
	movq	%rsi, %rbp
	movq	%rdi, %r14
	movq	%rdi, %rsi
	andq	$-2, %rsi
	movq	-40(%rsp), %rdx
	subq	%rax, %rdx
	xorl	%eax, %eax
	movq	-128(%rsp), %rdi
	xorl	%ecx, %ecx
	.p2align	4
.LBB26_74:
	xorl	%r8d, %r8d
	cmpb	$0, (%rdi)
	setne	%r8b
	addl	%r8d, %r8d
	leal	(%r8,%rax,4), %r8d
	movq	%rcx, %r9
	xorq	$-2, %r9
	xorl	%eax, %eax
	cmpb	$0, (%r10,%r9)
	setne	%al
	orl	%r8d, %eax
	addq	$2, %rcx
	addq	$-2, %rdi
	cmpq	%rcx, %rsi
	jne	.LBB26_74
	testb	$1, %dl
	movq	-88(%rsp), %r8
	movq	%r14, %rdi
	movq	%rbp, %rsi
	je	.LBB26_5
.LBB26_76:
	notq	%rcx
	xorl	%edx, %edx
	cmpb	$0, (%r10,%rcx)
	setne	%dl
	leal	(%rdx,%rax,2), %eax
	jmp	.LBB26_5
.LBB26_77:
	popq	%rbx
	.cfi_def_cfa_offset 48
	popq	%r12
	.cfi_def_cfa_offset 40
	popq	%r13
	.cfi_def_cfa_offset 32
	popq	%r14
	.cfi_def_cfa_offset 24
	popq	%r15
	.cfi_def_cfa_offset 16
	popq	%rbp
	.cfi_def_cfa_offset 8
	retq
.Lfunc_end26:
	.size	"ecc200_calls::modules::put_modules::<=52>", .Lfunc_end26-"ecc200_calls::modules::put_modules::<=52>"
	.cfi_endproc

	.section	.rodata.cst16,"aM",@progbits,16
	.p2align	4, 0x0
.LCPI27_0:
	.byte	1
	.byte	1
	.byte	1
	.byte	1
	.byte	1
	.byte	1
	.byte	1
	.byte	1
	.zero	1
	.zero	1
	.zero	1
	.zero	1
	.zero	1
	.zero	1
	.zero	1
	.zero	1
.LCPI27_1:
	.zero	16,241
.LCPI27_2:
	.zero	16,1
.LCPI27_3:
	.byte	241
	.byte	241
	.byte	241
	.byte	241
	.zero	1
	.zero	1
	.zero	1
	.zero	1
	.zero	1
	.zero	1
	.zero	1
	.zero	1
	.zero	1
	.zero	1
	.zero	1
	.zero	1
.LCPI27_4:
	.quad	4294967297
	.quad	4294967297
.LCPI27_5:
	.byte	241
	.byte	241
	.byte	241
	.byte	241
	.byte	241
	.byte	241
	.byte	241
	.byte	241
	.zero	1
	.zero	1
	.zero	1
	.zero	1
	.zero	1
	.zero	1
	.zero	1
	.zero	1
.LCPI27_6:
	.short	1
	.short	1
	.short	1
	.short	1
	.short	1
	.short	1
	.short	1
	.short	1
	.text
	.p2align	4
	.type	"ecc200_calls::inspection::inspect_symbol::<=52,=288>",@function
"ecc200_calls::inspection::inspect_symbol::<=52,=288>":
	.cfi_startproc
	pushq	%rbp
	.cfi_def_cfa_offset 16
	pushq	%r15
	.cfi_def_cfa_offset 24
	pushq	%r14
	.cfi_def_cfa_offset 32
	pushq	%r13
	.cfi_def_cfa_offset 40
	pushq	%r12
	.cfi_def_cfa_offset 48
	pushq	%rbx
	.cfi_def_cfa_offset 56
	subq	$904, %rsp
	.cfi_def_cfa_offset 960
	.cfi_offset %rbx, -56
	.cfi_offset %r12, -48
	.cfi_offset %r13, -40
	.cfi_offset %r14, -32
	.cfi_offset %r15, -24
	.cfi_offset %rbp, -16
	movq	%rcx, %rbx
	movq	%rdx, %rbp
	movl	%esi, %r14d
	movq	%rdi, %r12
	leaq	240(%rsp), %r13
	movl	$312, %edx
	movq	%r13, %rdi
	xorl	%esi, %esi
	callq	memset@PLT
	movzwl	(%r12), %esi
	movzwl	2(%r12), %edx
	movzwl	12(%r12), %eax
	movw	%ax, 236(%rsp)
	movq	4(%r12), %rax
	movq	%rax, 228(%rsp)
	movzwl	14(%r12), %eax
	movl	$0, 171(%rsp)
	movl	$0, 168(%rsp)
	movq	4(%r12), %rcx
	movq	%rcx, 536(%rsp)
	movzwl	12(%r12), %ecx
	movw	%cx, 544(%rsp)
	xorps	%xmm0, %xmm0
	movups	%xmm0, 207(%rsp)
	movups	%xmm0, 191(%rsp)
	movups	%xmm0, 175(%rsp)
	movl	%esi, 12(%rsp)
	movw	%si, 224(%rsp)
	movw	%dx, 10(%rsp)
	movw	%dx, 226(%rsp)
	movw	%ax, 238(%rsp)
	leaq	244(%rsp), %rdi
	movl	$288, %edx
	xorl	%esi, %esi
	callq	memset@PLT
	leaq	552(%rsp), %r15
	movl	$289, %edx
	movq	%r15, %rdi
	xorl	%esi, %esi
	callq	memset@PLT
	movups	168(%rsp), %xmm0
	movdqu	184(%rsp), %xmm1
	movdqu	200(%rsp), %xmm2
	movups	%xmm0, 841(%rsp)
	movdqu	%xmm1, 857(%rsp)
	movdqu	%xmm2, 873(%rsp)
	movq	215(%rsp), %rax
	movq	%rax, 888(%rsp)
	movq	$0, 896(%rsp)
	movl	16(%r12), %eax
	movl	%eax, 96(%rsp)
	movdqu	(%r12), %xmm0
	movdqa	%xmm0, 80(%rsp)
	leaq	32(%r12), %rax
	leaq	864(%r12), %rcx
	movl	$0, 100(%rsp)
	movdqa	%xmm0, 16(%rsp)
	movq	96(%rsp), %rdx
	movq	%rdx, 32(%rsp)
	movq	%rax, 40(%rsp)
	movq	$52, 48(%rsp)
	movq	%rcx, 56(%rsp)
	movq	$52, 64(%rsp)
	testb	$1, %r14b
	je	.LBB27_9
	movl	16(%rbp), %eax
	movl	%eax, 128(%rsp)
	movdqu	(%rbp), %xmm0
	movdqa	%xmm0, 112(%rsp)
	leaq	32(%rbp), %rax
	addq	$864, %rbp
	movl	$0, 132(%rsp)
	movq	%rax, 136(%rsp)
	movq	$52, 144(%rsp)
	movq	%rbp, 152(%rsp)
	movq	$52, 160(%rsp)
	movq	(%r12), %rax
	movq	6(%r12), %rcx
	movq	%rcx, 298(%r13)
	movq	%rax, 292(%r13)
	movzwl	30(%rsp), %ebp
	movl	32(%rsp), %eax
	movq	(%r12), %rcx
	movq	6(%r12), %rdx
	movq	%rcx, 224(%rsp)
	movq	%rdx, 230(%rsp)
	movw	%bp, 238(%rsp)
	movl	%eax, 240(%rsp)
	movw	%bp, 546(%rsp)
	movl	%eax, 548(%rsp)
	leaq	16(%rsp), %r14
	leaq	112(%rsp), %rdx
	movq	%r14, %rdi
	movl	$1, %esi
	callq	"dm_layout::symbols::border::border_faults"
	movw	%ax, 896(%rsp)
	leaq	848(%rsp), %r12
	addw	28(%rsp), %bp
	movzwl	%bp, %r13d
	movq	%r14, %rdi
	leaq	244(%rsp), %r14
	movq	%r14, %rsi
	callq	"dm_layout::symbols::placing::lift_to"
	cmpl	$309, %r13d
	jb	.LBB27_10
	movl	%r13d, %eax
	andl	$-16, %eax
	xorl	%ecx, %ecx
	movq	%r15, %rbp
	.p2align	4
.LBB27_3:
	movdqu	244(%rsp,%rcx), %xmm0
	movdqu	%xmm0, 552(%rsp,%rcx)
	addq	$16, %rcx
	cmpq	%rcx, %rax
	jne	.LBB27_3
	cmpl	%r13d, %eax
	je	.LBB27_13
	testb	$12, %r13b
	je	.LBB27_11
	movl	%r13d, %ecx
	andl	$-4, %ecx
	.p2align	4
.LBB27_7:
	movl	244(%rsp,%rax), %edx
	movl	%edx, 552(%rsp,%rax)
	addq	$4, %rax
	cmpq	%rax, %rcx
	jne	.LBB27_7
	cmpl	%r13d, %ecx
	jne	.LBB27_12
	jmp	.LBB27_13
.LBB27_9:
	movq	(%r12), %rax
	movq	6(%r12), %rcx
	movq	%rcx, 298(%r13)
	movq	%rax, 292(%r13)
	movzwl	30(%rsp), %eax
	movl	32(%rsp), %ecx
	movq	(%r12), %rdx
	movq	6(%r12), %rsi
	movq	%rdx, 224(%rsp)
	movq	%rsi, 230(%rsp)
	movw	%ax, 238(%rsp)
	movl	%ecx, 240(%rsp)
	movw	%ax, 546(%rsp)
	movl	%ecx, 548(%rsp)
	leaq	16(%rsp), %r14
	movq	%r14, %rdi
	xorl	%esi, %esi
	xorl	%edx, %edx
	callq	"dm_layout::symbols::border::border_faults"
	movw	%ax, 896(%rsp)
	leaq	848(%rsp), %r9
	movq	%r14, %rdi
	xorl	%esi, %esi
	xorl	%edx, %edx
	leaq	244(%rsp), %r14
	movq	%r14, %rcx
	movq	%r15, %r8
	callq	"dm_symbol::symbol::inspection::mend"
	movb	%al, 840(%rsp)
	movq	%r15, %rbp
	jmp	.LBB27_19
.LBB27_10:
	movq	%r15, %rbp
	movq	%r15, %rdi
	movq	%r14, %rsi
	movq	%r13, %rdx
	callq	memmove@PLT
	jmp	.LBB27_13
.LBB27_11:
	movq	%rax, %rcx
	.p2align	4
.LBB27_12:
	movzbl	244(%rsp,%rcx), %eax
	movb	%al, 552(%rsp,%rcx)
	incq	%rcx
	cmpq	%rcx, %r13
	jne	.LBB27_12
.LBB27_13:
	leaq	80(%rsp), %rdi
	leaq	112(%rsp), %rcx
	movq	%rbp, %rsi
	movq	%r13, %rdx
	movq	%r12, %r8
	callq	"dm_symbol::symbol::inspection::mend_doubtful"
	xorl	%eax, %eax
	movq	888(%rsp), %rcx
	.p2align	4
.LBB27_14:
	cmpq	%rax, %rcx
	je	.LBB27_17
	cmpb	$1, 848(%rsp,%rax,4)
	leaq	1(%rax), %rax
	je	.LBB27_14
	leaq	16(%rsp), %rdi
	leaq	112(%rsp), %rdx
	movl	$1, %esi
	movq	%rbp, %rcx
	movq	%r13, %r8
	movq	%r12, %r9
	callq	"dm_symbol::symbol::inspection::mend_restarted"
	jmp	.LBB27_18
.LBB27_17:
	xorl	%eax, %eax
.LBB27_18:
	movb	%al, 840(%rsp)
.LBB27_19:
	movq	%r14, %r9
	movq	888(%rsp), %r14
	pxor	%xmm0, %xmm0
	pinsrw	$3, 12(%rsp), %xmm0
	movq	%xmm0, (%rbx)
	movzwl	10(%rsp), %ecx
	movw	%cx, 8(%rbx)
	movzwl	896(%rsp), %ecx
	movw	%cx, 10(%rbx)
	movw	%r14w, 12(%rbx)
	movzwl	238(%rsp), %ecx
	addw	236(%rsp), %cx
	movw	%cx, 14(%rbx)
	movzbl	%al, %eax
	movw	%ax, 16(%rbx)
	movw	$0, 18(%rbx)
	testq	%r14, %r14
	je	.LBB27_26
	cmpq	$8, %r14
	jae	.LBB27_22
	xorl	%eax, %eax
	jmp	.LBB27_24
.LBB27_22:
	movq	%r14, %rax
	andq	$-8, %rax
	xorl	%edx, %edx
	.p2align	4
.LBB27_23:
	movd	848(%rsp,%rdx,4), %xmm0
	pinsrb	$1, 852(%rsp,%rdx,4), %xmm0
	pinsrb	$2, 856(%rsp,%rdx,4), %xmm0
	pinsrb	$3, 860(%rsp,%rdx,4), %xmm0
	pinsrb	$4, 864(%rsp,%rdx,4), %xmm0
	pinsrb	$5, 868(%rsp,%rdx,4), %xmm0
	pinsrb	$6, 872(%rsp,%rdx,4), %xmm0
	pinsrb	$7, 876(%rsp,%rdx,4), %xmm0
	movzbl	849(%rsp,%rdx,4), %esi
	movd	%esi, %xmm1
	pinsrb	$1, 853(%rsp,%rdx,4), %xmm1
	pinsrb	$2, 857(%rsp,%rdx,4), %xmm1
	pinsrb	$3, 861(%rsp,%rdx,4), %xmm1
	pinsrb	$4, 865(%rsp,%rdx,4), %xmm1
	pinsrb	$5, 869(%rsp,%rdx,4), %xmm1
	pinsrb	$6, 873(%rsp,%rdx,4), %xmm1
	pinsrb	$7, 877(%rsp,%rdx,4), %xmm1
	movzbl	854(%rsp,%rdx,4), %esi
	movzbl	850(%rsp,%rdx,4), %edi
	movd	%edi, %xmm2
	pinsrb	$1, %esi, %xmm2
	movzbl	858(%rsp,%rdx,4), %esi
	pinsrb	$2, %esi, %xmm2
	movzbl	862(%rsp,%rdx,4), %esi
	pinsrb	$3, %esi, %xmm2
	movzbl	866(%rsp,%rdx,4), %esi
	pinsrb	$4, %esi, %xmm2
	movzbl	870(%rsp,%rdx,4), %esi
	pinsrb	$5, %esi, %xmm2
	movzbl	874(%rsp,%rdx,4), %esi
	pinsrb	$6, %esi, %xmm2
	movzbl	878(%rsp,%rdx,4), %esi
	pinsrb	$7, %esi, %xmm2
	movzbl	855(%rsp,%rdx,4), %esi
	movzbl	851(%rsp,%rdx,4), %edi
	movd	%edi, %xmm3
	pinsrb	$1, %esi, %xmm3
	movzbl	859(%rsp,%rdx,4), %esi
	pinsrb	$2, %esi, %xmm3
	movzbl	863(%rsp,%rdx,4), %esi
	pinsrb	$3, %esi, %xmm3
	movzbl	867(%rsp,%rdx,4), %esi
	pinsrb	$4, %esi, %xmm3
	movzbl	871(%rsp,%rdx,4), %esi
	pinsrb	$5, %esi, %xmm3
	movzbl	875(%rsp,%rdx,4), %esi
	pinsrb	$6, %esi, %xmm3
	movzbl	879(%rsp,%rdx,4), %esi
	pinsrb	$7, %esi, %xmm3
	pcmpeqb	.LCPI27_0(%rip), %xmm0
	pcmpeqd	%xmm4, %xmm4
	pblendvb	%xmm0, %xmm1, %xmm4
	pand	%xmm0, %xmm2
	pand	%xmm3, %xmm0
	movq	%xmm4, 6252(%rbx,%rdx)
	movq	%xmm2, 6262(%rbx,%rdx)
	movq	%xmm0, 6272(%rbx,%rdx)
	addq	$8, %rdx
	cmpq	%rdx, %rax
	jne	.LBB27_23
	jmp	.LBB27_25
.LBB27_24:
	xorl	%edx, %edx
	cmpb	$1, 848(%rsp,%rax,4)
	movzbl	849(%rsp,%rax,4), %esi
	movl	$255, %edi
	cmovel	%esi, %edi
	movzbl	850(%rsp,%rax,4), %esi
	cmovnel	%edx, %esi
	movzbl	851(%rsp,%rax,4), %r8d
	cmovnel	%edx, %r8d
	movb	%dil, 6252(%rbx,%rax)
	movb	%sil, 6262(%rbx,%rax)
	movb	%r8b, 6272(%rbx,%rax)
	incq	%rax
.LBB27_25:
	cmpq	%rax, %r14
	jne	.LBB27_24
.LBB27_26:
	leaq	6282(%rbx), %rdi
	movzwl	%cx, %edx
	movq	%r9, %rsi
	callq	memcpy@PLT
	leaq	8460(%rbx), %rdi
	movzwl	544(%rsp), %r15d
	movzwl	546(%rsp), %eax
	addw	%r15w, %ax
	movzwl	%ax, %edx
	movq	%rbp, %rsi
	callq	memcpy@PLT
	xorl	%eax, %eax
	.p2align	4
.LBB27_27:
	cmpq	%rax, %r14
	je	.LBB27_30
	cmpb	$1, 848(%rsp,%rax,4)
	leaq	1(%rax), %rax
	je	.LBB27_27
	jmp	.LBB27_46
.LBB27_30:
	testq	%r15, %r15
	je	.LBB27_46
	cmpw	$4, %r15w
	jae	.LBB27_33
	xorl	%ecx, %ecx
	xorl	%eax, %eax
	jmp	.LBB27_42
.LBB27_33:
	cmpw	$16, %r15w
	jae	.LBB27_35
	xorl	%eax, %eax
	xorl	%ecx, %ecx
	jmp	.LBB27_39
.LBB27_35:
	movl	%r15d, %eax
	andl	$-16, %eax
	pxor	%xmm0, %xmm0
	xorl	%ecx, %ecx
	.p2align	4
.LBB27_36:
	movdqu	552(%rsp,%rcx), %xmm1
	pcmpeqb	.LCPI27_1(%rip), %xmm1
	por	%xmm1, %xmm0
	addq	$16, %rcx
	cmpq	%rcx, %rax
	jne	.LBB27_36
	ptest	.LCPI27_2(%rip), %xmm0
	setne	%cl
	cmpl	%r15d, %eax
	je	.LBB27_43
	testb	$12, %r15b
	je	.LBB27_42
.LBB27_39:
	movq	%rax, %rdx
	movl	%r15d, %eax
	andl	$-4, %eax
	movzbl	%cl, %ecx
	movd	%ecx, %xmm0
	.p2align	4
.LBB27_40:
	movd	552(%rsp,%rdx), %xmm1
	pcmpeqb	.LCPI27_3(%rip), %xmm1
	pmovsxbd	%xmm1, %xmm1
	por	%xmm1, %xmm0
	addq	$4, %rdx
	cmpq	%rdx, %rax
	jne	.LBB27_40
	ptest	.LCPI27_4(%rip), %xmm0
	setne	%cl
	cmpl	%r15d, %eax
	je	.LBB27_43
	.p2align	4
.LBB27_42:
	cmpb	$-15, 552(%rsp,%rax)
	sete	%dl
	orb	%dl, %cl
	incq	%rax
	cmpq	%rax, %r15
	jne	.LBB27_42
.LBB27_43:
	testb	$1, %cl
	je	.LBB27_46
	cmpw	$8, %r15w
	jae	.LBB27_48
	xorl	%ecx, %ecx
	xorl	%eax, %eax
	jmp	.LBB27_51
.LBB27_46:
	movw	$0, 18(%rbx)
.LBB27_47:
	addq	$904, %rsp
	.cfi_def_cfa_offset 56
	popq	%rbx
	.cfi_def_cfa_offset 48
	popq	%r12
	.cfi_def_cfa_offset 40
	popq	%r13
	.cfi_def_cfa_offset 32
	popq	%r14
	.cfi_def_cfa_offset 24
	popq	%r15
	.cfi_def_cfa_offset 16
	popq	%rbp
	.cfi_def_cfa_offset 8
	retq
.LBB27_48:
	.cfi_def_cfa_offset 960
	movl	%r15d, %eax
	andl	$-8, %eax
	pxor	%xmm0, %xmm0
	xorl	%ecx, %ecx
	.p2align	4
.LBB27_49:
	movq	552(%rsp,%rcx), %xmm1
	pcmpeqb	.LCPI27_5(%rip), %xmm1
	pmovzxbw	%xmm1, %xmm1
	pand	.LCPI27_6(%rip), %xmm1
	paddw	%xmm1, %xmm0
	addq	$8, %rcx
	cmpq	%rcx, %rax
	jne	.LBB27_49
	pshufd	$238, %xmm0, %xmm1
	paddw	%xmm0, %xmm1
	pshufd	$85, %xmm1, %xmm0
	paddw	%xmm1, %xmm0
	movdqa	%xmm0, %xmm1
	psrld	$16, %xmm1
	paddw	%xmm0, %xmm1
	movd	%xmm1, %ecx
	cmpl	%r15d, %eax
	je	.LBB27_52
	.p2align	4
.LBB27_51:
	xorl	%edx, %edx
	cmpb	$-15, 552(%rsp,%rax)
	sete	%dl
	addl	%edx, %ecx
	incq	%rax
	cmpq	%rax, %r15
	jne	.LBB27_51
.LBB27_52:
	movq	%rbx, %rdi
	movq	%rbp, %rsi
	movq	%r15, %rdx
	cmpw	$31, %cx
	ja	.LBB27_54
	callq	"ecc200_calls::inspection::find_designators::<=31>"
	jmp	.LBB27_47
.LBB27_54:
	callq	"ecc200_calls::inspection::find_designators::<=779>"
	jmp	.LBB27_47
.Lfunc_end27:
	.size	"ecc200_calls::inspection::inspect_symbol::<=52,=288>", .Lfunc_end27-"ecc200_calls::inspection::inspect_symbol::<=52,=288>"
	.cfi_endproc

	.p2align	4
	.type	"ecc200_calls::inspection::inspect_given::<=104,=1152,=1639,=408>",@function
"ecc200_calls::inspection::inspect_given::<=104,=1152,=1639,=408>":
	.cfi_startproc
	pushq	%rbp
	.cfi_def_cfa_offset 16
	pushq	%r15
	.cfi_def_cfa_offset 24
	pushq	%r14
	.cfi_def_cfa_offset 32
	pushq	%r13
	.cfi_def_cfa_offset 40
	pushq	%r12
	.cfi_def_cfa_offset 48
	pushq	%rbx
	.cfi_def_cfa_offset 56
	subq	$3072, %rsp
	.cfi_adjust_cfa_offset 3072
	movq	$0, (%rsp)
	subq	$760, %rsp
	.cfi_def_cfa_offset 3888
	.cfi_offset %rbx, -56
	.cfi_offset %r12, -48
	.cfi_offset %r13, -40
	.cfi_offset %r14, -32
	.cfi_offset %r15, -24
	.cfi_offset %rbp, -16
	movq	%r9, %rbx
	movq	%r8, %r12
	movq	%rcx, 8(%rsp)
	movq	%rdx, (%rsp)
	movq	%rsi, %r13
	movq	%rdi, %rbp
	movzwl	(%r8), %r14d
	movzwl	18(%r8), %eax
	movzbl	20(%r8), %r15d
	movw	%ax, 34(%rsp)
	movups	2(%r8), %xmm0
	movups	%xmm0, 18(%rsp)
	leaq	36(%rsp), %rdi
	movl	$1676, %edx
	xorl	%esi, %esi
	callq	memset@PLT
	movw	%r14w, 16(%rsp)
	xorps	%xmm0, %xmm0
	movaps	%xmm0, 1712(%rsp)
	movaps	%xmm0, 1728(%rsp)
	movaps	%xmm0, 1744(%rsp)
	movaps	%xmm0, 1760(%rsp)
	movaps	%xmm0, 1776(%rsp)
	movaps	%xmm0, 1792(%rsp)
	movaps	%xmm0, 1808(%rsp)
	movaps	%xmm0, 1824(%rsp)
	movaps	%xmm0, 1840(%rsp)
	movaps	%xmm0, 1856(%rsp)
	movaps	%xmm0, 1872(%rsp)
	movaps	%xmm0, 1888(%rsp)
	movaps	%xmm0, 1904(%rsp)
	leaq	16(%rsp), %rdi
	movq	%rbp, %rsi
	movq	%r13, %rdx
	callq	"ecc200_calls::modules::put_modules::<=104>"
	testb	$1, %r15b
	je	.LBB28_2
	addq	$2, %r12
	movw	%r14w, 1920(%rsp)
	movups	(%r12), %xmm0
	movups	%xmm0, 1922(%rsp)
	movzwl	16(%r12), %eax
	movw	%ax, 1938(%rsp)
	leaq	1940(%rsp), %rdi
	movl	$1884, %edx
	xorl	%esi, %esi
	callq	memset@PLT
	leaq	1920(%rsp), %r12
	movq	%r12, %rdi
	movq	(%rsp), %rsi
	movq	8(%rsp), %rdx
	callq	"ecc200_calls::modules::put_modules::<=104>"
	leaq	16(%rsp), %rdi
	movl	$1, %esi
	movq	%r12, %rdx
	jmp	.LBB28_3
.LBB28_2:
	leaq	16(%rsp), %rdi
	xorl	%esi, %esi
	xorl	%edx, %edx
.LBB28_3:
	movq	%rbx, %rcx
	callq	"ecc200_calls::inspection::inspect_symbol::<=104,=1152>"
	addq	$3832, %rsp
	.cfi_def_cfa_offset 56
	popq	%rbx
	.cfi_def_cfa_offset 48
	popq	%r12
	.cfi_def_cfa_offset 40
	popq	%r13
	.cfi_def_cfa_offset 32
	popq	%r14
	.cfi_def_cfa_offset 24
	popq	%r15
	.cfi_def_cfa_offset 16
	popq	%rbp
	.cfi_def_cfa_offset 8
	retq
.Lfunc_end28:
	.size	"ecc200_calls::inspection::inspect_given::<=104,=1152,=1639,=408>", .Lfunc_end28-"ecc200_calls::inspection::inspect_given::<=104,=1152,=1639,=408>"
	.cfi_endproc

	.p2align	4
	.type	"ecc200_calls::modules::put_modules::<=104>",@function
"ecc200_calls::modules::put_modules::<=104>":
	.cfi_startproc
	pushq	%rbp
	.cfi_def_cfa_offset 16
	pushq	%r15
	.cfi_def_cfa_offset 24
	pushq	%r14
	.cfi_def_cfa_offset 32
	pushq	%r13
	.cfi_def_cfa_offset 40
	pushq	%r12
	.cfi_def_cfa_offset 48
	pushq	%rbx
	.cfi_def_cfa_offset 56
	.cfi_offset %rbx, -56
	.cfi_offset %r12, -48
	.cfi_offset %r13, -40
	.cfi_offset %r14, -32
	.cfi_offset %r15, -24
	.cfi_offset %rbp, -16
	movq	%rsi, -56(%rsp)
	movq	%rdi, -64(%rsp)
	movzwl	(%rdi), %eax
	movq	%rax, -16(%rsp)
	testq	%rax, %rax
	je	.LBB29_77
	movq	%rdx, %r8
	movq	-64(%rsp), %rax
	movzwl	2(%rax), %r15d
	cmpq	$128, %r15
	movl	$128, %r11d
	cmovbq	%r15, %r11
	movq	-56(%rsp), %rax
	leaq	(%rax,%rdx), %r10
	leaq	-64(%rdx), %r12
	addq	$-65, %rdx
	movq	%rdx, -72(%rsp)
	leaq	-128(%r8), %rdi
	leaq	-129(%r8), %rsi
	movq	%rsi, -32(%rsp)
	addq	%r8, %rax
	decq	%rax
	movq	%rax, -128(%rsp)
	xorl	%r13d, %r13d
	movq	%rdi, -40(%rsp)
	movq	%r8, %rsi
	movq	%r12, -24(%rsp)
	movq	%r8, -88(%rsp)
	movq	%r15, -96(%rsp)
	movq	%r11, -112(%rsp)
	jmp	.LBB29_6
	.p2align	4
.LBB29_66:
	xorl	%eax, %eax
	movq	-88(%rsp), %r8
	movq	-80(%rsp), %rsi
.LBB29_5:
	movq	%r13, %rcx
	shlq	$4, %rcx
	movq	-64(%rsp), %rdx
	movq	%r12, 40(%rdx,%rcx)
	movq	%rbx, 32(%rdx,%rcx)
	movw	%ax, 1696(%rdx,%r13,2)
	incq	%r13
	movq	-8(%rsp), %r12
	subq	%r15, %r12
	subq	%r15, %rsi
	subq	%r15, %rdi
	cmpq	-16(%rsp), %r13
	je	.LBB29_77
.LBB29_6:
	movq	%r13, %rdx
	imulq	%r15, %rdx
	movq	%r8, %r14
	subq	%rdx, %r14
	movq	-56(%rsp), %rax
	addq	%rdx, %rax
	cmpq	$63, %r14
	movq	%r12, -8(%rsp)
	ja	.LBB29_20
	testq	%r15, %r15
	je	.LBB29_2
	movq	%rdi, -48(%rsp)
	movl	%r12d, %ecx
	andl	$1, %ecx
	movq	%rsi, -80(%rsp)
	subq	%rcx, %rsi
	movq	%rdx, -120(%rsp)
	movq	%rdx, %r15
	subq	%r8, %r15
	xorl	%edi, %edi
	xorl	%ebx, %ebx
	xorl	%r12d, %r12d
	xorl	%ecx, %ecx
	jmp	.LBB29_11
	.p2align	4
.LBB29_9:
	movdqu	(%rax,%rcx), %xmm0
	pxor	%xmm1, %xmm1
	pcmpeqb	%xmm0, %xmm1
	pmovmskb	%xmm1, %ebp
	notl	%ebp
.LBB29_10:
	movzwl	%bp, %edx
	xorl	%r8d, %r8d
	shldq	%cl, %rdx, %r8
	shlq	%cl, %rdx
	xorl	%r9d, %r9d
	testb	$64, %cl
	cmovneq	%rdx, %r8
	cmovneq	%r9, %rdx
	orq	%r8, %r12
	orq	%rdx, %rbx
	addq	$16, %rcx
	incq	%rdi
	addq	$-16, %rsi
	cmpq	%r11, %rcx
	jae	.LBB29_65
.LBB29_11:
	movq	%r14, %rdx
	subq	%rcx, %rdx
	cmpq	$15, %rdx
	ja	.LBB29_9
	cmpq	%rcx, %r14
	jne	.LBB29_14
	xorl	%ebp, %ebp
	jmp	.LBB29_10
	.p2align	4
.LBB29_14:
	movq	%rdi, %rdx
	shlq	$4, %rdx
	negq	%rdx
	decq	%rdx
	xorl	%ebp, %ebp
	cmpq	%rdx, %r15
	jne	.LBB29_16
	xorl	%r9d, %r9d
	jmp	.LBB29_19
.LBB29_16:
	movq	-128(%rsp), %r11
	xorl	%r9d, %r9d
	.p2align	4
.LBB29_17:
	xorl	%r8d, %r8d
	cmpb	$0, (%r11)
	setne	%r8b
	addl	%r8d, %r8d
	leal	(%r8,%rbp,4), %r8d
	movq	%r9, %rdx
	xorq	$-2, %rdx
	xorl	%ebp, %ebp
	cmpb	$0, (%r10,%rdx)
	setne	%bpl
	orl	%r8d, %ebp
	addq	$2, %r9
	addq	$-2, %r11
	cmpq	%r9, %rsi
	jne	.LBB29_17
	testb	$1, %r14b
	movq	-112(%rsp), %r11
	je	.LBB29_10
.LBB29_19:
	notq	%r9
	xorl	%edx, %edx
	cmpb	$0, (%r10,%r9)
	setne	%dl
	leal	(%rdx,%rbp,2), %ebp
	jmp	.LBB29_10
	.p2align	4
.LBB29_20:
	movq	%rdx, -120(%rsp)
	movdqu	(%rax), %xmm0
	movdqu	16(%rax), %xmm1
	movdqu	32(%rax), %xmm2
	movdqu	48(%rax), %xmm3
	pxor	%xmm4, %xmm4
	pcmpeqb	%xmm4, %xmm3
	pcmpeqb	%xmm4, %xmm2
	pcmpeqb	%xmm4, %xmm1
	pcmpeqb	%xmm4, %xmm0
	pmovmskb	%xmm0, %ecx
	xorl	$65535, %ecx
	pmovmskb	%xmm1, %edx
	notl	%edx
	shll	$16, %edx
	orl	%ecx, %edx
	pmovmskb	%xmm2, %ecx
	xorl	$65535, %ecx
	shlq	$32, %rcx
	orq	%rdx, %rcx
	pmovmskb	%xmm3, %ebx
	notl	%ebx
	shlq	$48, %rbx
	orq	%rcx, %rbx
	cmpw	$65, %r15w
	jb	.LBB29_3
	movq	%rsi, -80(%rsp)
	movq	%r12, %rcx
	andq	$-2, %rcx
	movq	-24(%rsp), %rbp
	movq	-120(%rsp), %rdx
	subq	%rdx, %rbp
	movq	%r14, %rsi
	andq	$-16, %rsi
	cmpq	$64, %rsi
	movq	%rdi, -48(%rsp)
	jne	.LBB29_24
	cmpq	$64, %r14
	jne	.LBB29_25
	xorl	%edi, %edi
	jmp	.LBB29_31
.LBB29_2:
	xorl	%ebx, %ebx
.LBB29_3:
	xorl	%r12d, %r12d
.LBB29_4:
	xorl	%eax, %eax
	jmp	.LBB29_5
.LBB29_24:
	movdqu	64(%rax), %xmm0
	pxor	%xmm1, %xmm1
	pcmpeqb	%xmm0, %xmm1
	pmovmskb	%xmm1, %edi
	notl	%edi
	jmp	.LBB29_31
.LBB29_25:
	cmpq	%rdx, -72(%rsp)
	jne	.LBB29_27
	xorl	%edi, %edi
	xorl	%edx, %edx
	jmp	.LBB29_30
.LBB29_27:
	xorl	%edi, %edi
	movq	-128(%rsp), %r11
	xorl	%edx, %edx
	.p2align	4
.LBB29_28:
	xorl	%r8d, %r8d
	cmpb	$0, (%r11)
	setne	%r8b
	addl	%r8d, %r8d
	leal	(%r8,%rdi,4), %r8d
	movq	%rdx, %r9
	xorq	$-2, %r9
	xorl	%edi, %edi
	cmpb	$0, (%r10,%r9)
	setne	%dil
	orl	%r8d, %edi
	addq	$2, %rdx
	addq	$-2, %r11
	cmpq	%rdx, %rcx
	jne	.LBB29_28
	testb	$1, %bpl
	movq	-112(%rsp), %r11
	je	.LBB29_31
.LBB29_30:
	notq	%rdx
	xorl	%r8d, %r8d
	cmpb	$0, (%r10,%rdx)
	setne	%r8b
	leal	(%r8,%rdi,2), %edi
	.p2align	4
.LBB29_31:
	movzwl	%di, %r12d
	cmpw	$81, %r15w
	jb	.LBB29_65
	movq	-72(%rsp), %r9
	subq	-120(%rsp), %r9
	cmpq	$80, %rsi
	jne	.LBB29_35
	cmpq	$80, %r14
	jne	.LBB29_36
	xorl	%edi, %edi
	jmp	.LBB29_42
.LBB29_35:
	movdqu	80(%rax), %xmm0
	pxor	%xmm1, %xmm1
	pcmpeqb	%xmm0, %xmm1
	pmovmskb	%xmm1, %edi
	notl	%edi
	jmp	.LBB29_42
.LBB29_36:
	cmpq	$16, %r9
	jne	.LBB29_38
	xorl	%edi, %edi
	xorl	%edx, %edx
	jmp	.LBB29_41
.LBB29_38:
	movq	%r9, -104(%rsp)
	leaq	-16(%rcx), %r15
	xorl	%edi, %edi
	movq	-128(%rsp), %r11
	xorl	%edx, %edx
	.p2align	4
.LBB29_39:
	xorl	%r8d, %r8d
	cmpb	$0, (%r11)
	setne	%r8b
	addl	%r8d, %r8d
	leal	(%r8,%rdi,4), %r8d
	movq	%rdx, %r9
	xorq	$-2, %r9
	xorl	%edi, %edi
	cmpb	$0, (%r10,%r9)
	setne	%dil
	orl	%r8d, %edi
	addq	$2, %rdx
	addq	$-2, %r11
	cmpq	%rdx, %r15
	jne	.LBB29_39
	testb	$1, %bpl
	movq	-96(%rsp), %r15
	movq	-112(%rsp), %r11
	movq	-104(%rsp), %r9
	je	.LBB29_42
.LBB29_41:
	notq	%rdx
	xorl	%r8d, %r8d
	cmpb	$0, (%r10,%rdx)
	setne	%r8b
	leal	(%r8,%rdi,2), %edi
.LBB29_42:
	shll	$16, %edi
	orq	%rdi, %r12
	cmpw	$97, %r15w
	jb	.LBB29_65
	cmpq	$96, %rsi
	jne	.LBB29_46
	cmpq	$96, %r14
	jne	.LBB29_47
	xorl	%edi, %edi
	jmp	.LBB29_53
.LBB29_46:
	movdqu	96(%rax), %xmm0
	pxor	%xmm1, %xmm1
	pcmpeqb	%xmm0, %xmm1
	pmovmskb	%xmm1, %edi
	notl	%edi
	jmp	.LBB29_53
.LBB29_47:
	cmpq	$32, %r9
	jne	.LBB29_49
	xorl	%edi, %edi
	xorl	%edx, %edx
	jmp	.LBB29_52
.LBB29_49:
	movq	%r9, -104(%rsp)
	leaq	-32(%rcx), %r15
	xorl	%edi, %edi
	movq	-128(%rsp), %r11
	xorl	%edx, %edx
	.p2align	4
.LBB29_50:
	xorl	%r8d, %r8d
	cmpb	$0, (%r11)
	setne	%r8b
	addl	%r8d, %r8d
	leal	(%r8,%rdi,4), %r8d
	movq	%rdx, %r9
	xorq	$-2, %r9
	xorl	%edi, %edi
	cmpb	$0, (%r10,%r9)
	setne	%dil
	orl	%r8d, %edi
	addq	$2, %rdx
	addq	$-2, %r11
	cmpq	%rdx, %r15
	jne	.LBB29_50
	testb	$1, %bpl
	movq	-96(%rsp), %r15
	movq	-112(%rsp), %r11
	movq	-104(%rsp), %r9
	je	.LBB29_53
.LBB29_52:
	notq	%rdx
	xorl	%r8d, %r8d
	cmpb	$0, (%r10,%rdx)
	setne	%r8b
	leal	(%r8,%rdi,2), %edi
.LBB29_53:
	movzwl	%di, %edx
	shlq	$32, %rdx
	orq	%rdx, %r12
	cmpw	$113, %r15w
	jb	.LBB29_65
	cmpq	$112, %rsi
	jne	.LBB29_57
	cmpq	$112, %r14
	jne	.LBB29_58
	xorl	%esi, %esi
	jmp	.LBB29_64
.LBB29_57:
	movdqu	112(%rax), %xmm0
	pxor	%xmm1, %xmm1
	pcmpeqb	%xmm0, %xmm1
	pmovmskb	%xmm1, %esi
	notl	%esi
	jmp	.LBB29_64
.LBB29_58:
	cmpq	$48, %r9
	jne	.LBB29_60
	xorl	%esi, %esi
	xorl	%edx, %edx
	jmp	.LBB29_63
.LBB29_60:
	addq	$-48, %rcx
	xorl	%esi, %esi
	movq	-128(%rsp), %rdi
	xorl	%edx, %edx
	.p2align	4
.LBB29_61:
	xorl	%r8d, %r8d
	cmpb	$0, (%rdi)
	setne	%r8b
	addl	%r8d, %r8d
	leal	(%r8,%rsi,4), %r8d
	movq	%rdx, %r9
	xorq	$-2, %r9
	xorl	%esi, %esi
	cmpb	$0, (%r10,%r9)
	setne	%sil
	orl	%r8d, %esi
	addq	$2, %rdx
	addq	$-2, %rdi
	cmpq	%rdx, %rcx
	jne	.LBB29_61
	testb	$1, %bpl
	je	.LBB29_64
.LBB29_63:
	notq	%rdx
	xorl	%ecx, %ecx
	cmpb	$0, (%r10,%rdx)
	setne	%cl
	leal	(%rcx,%rsi,2), %esi
.LBB29_64:
	movzwl	%si, %ecx
	shlq	$48, %rcx
	orq	%rcx, %r12
	.p2align	4
.LBB29_65:
	movq	-96(%rsp), %r15
	cmpl	$129, %r15d
	movq	-48(%rsp), %rdi
	jb	.LBB29_66
	addq	$-128, %r14
	cmpq	$15, %r14
	movq	-88(%rsp), %r8
	movq	-80(%rsp), %rsi
	ja	.LBB29_71
	testq	%r14, %r14
	je	.LBB29_4
	movq	-120(%rsp), %rax
	cmpq	%rax, -32(%rsp)
	jne	.LBB29_73
	xorl	%eax, %eax
	xorl	%ecx, %ecx
	jmp	.LBB29_76
.LBB29_71:
	movdqu	128(%rax), %xmm0
	pxor	%xmm1, %xmm1
	pcmpeqb	%xmm0, %xmm1
	pmovmskb	%xmm1, %eax
	notl	%eax
	jmp	.LBB29_5
.LBB29_73:
	movq	%rsi, %rbp
	movq	%rdi, %r14
	movq	%rdi, %rsi
	andq	$-2, %rsi
	movq	-40(%rsp), %rdx
	subq	%rax, %rdx
	xorl	%eax, %eax
	movq	-128(%rsp), %rdi
	xorl	%ecx, %ecx
	.p2align	4
.LBB29_74:
	xorl	%r8d, %r8d
	cmpb	$0, (%rdi)
	setne	%r8b
	addl	%r8d, %r8d
	leal	(%r8,%rax,4), %r8d
	movq	%rcx, %r9
	xorq	$-2, %r9
	xorl	%eax, %eax
	cmpb	$0, (%r10,%r9)
	setne	%al
	orl	%r8d, %eax
	addq	$2, %rcx
	addq	$-2, %rdi
	cmpq	%rcx, %rsi
	jne	.LBB29_74
	testb	$1, %dl
	movq	-88(%rsp), %r8
	movq	%r14, %rdi
	movq	%rbp, %rsi
	je	.LBB29_5
.LBB29_76:
	notq	%rcx
	xorl	%edx, %edx
	cmpb	$0, (%r10,%rcx)
	setne	%dl
	leal	(%rdx,%rax,2), %eax
	jmp	.LBB29_5
.LBB29_77:
	popq	%rbx
	.cfi_def_cfa_offset 48
	popq	%r12
	.cfi_def_cfa_offset 40
	popq	%r13
	.cfi_def_cfa_offset 32
	popq	%r14
	.cfi_def_cfa_offset 24
	popq	%r15
	.cfi_def_cfa_offset 16
	popq	%rbp
	.cfi_def_cfa_offset 8
	retq
.Lfunc_end29:
	.size	"ecc200_calls::modules::put_modules::<=104>", .Lfunc_end29-"ecc200_calls::modules::put_modules::<=104>"
	.cfi_endproc

	.section	.rodata.cst16,"aM",@progbits,16
	.p2align	4, 0x0
.LCPI30_0:
	.byte	1
	.byte	1
	.byte	1
	.byte	1
	.byte	1
	.byte	1
	.byte	1
	.byte	1
	.zero	1
	.zero	1
	.zero	1
	.zero	1
	.zero	1
	.zero	1
	.zero	1
	.zero	1
.LCPI30_1:
	.zero	16,241
.LCPI30_2:
	.zero	16,1
.LCPI30_3:
	.byte	241
	.byte	241
	.byte	241
	.byte	241
	.zero	1
	.zero	1
	.zero	1
	.zero	1
	.zero	1
	.zero	1
	.zero	1
	.zero	1
	.zero	1
	.zero	1
	.zero	1
	.zero	1
.LCPI30_4:
	.quad	4294967297
	.quad	4294967297
.LCPI30_5:
	.byte	241
	.byte	241
	.byte	241
	.byte	241
	.byte	241
	.byte	241
	.byte	241
	.byte	241
	.zero	1
	.zero	1
	.zero	1
	.zero	1
	.zero	1
	.zero	1
	.zero	1
	.zero	1
.LCPI30_6:
	.short	1
	.short	1
	.short	1
	.short	1
	.short	1
	.short	1
	.short	1
	.short	1
	.text
	.p2align	4
	.type	"ecc200_calls::inspection::inspect_symbol::<=104,=1152>",@function
"ecc200_calls::inspection::inspect_symbol::<=104,=1152>":
	.cfi_startproc
	pushq	%rbp
	.cfi_def_cfa_offset 16
	pushq	%r15
	.cfi_def_cfa_offset 24
	pushq	%r14
	.cfi_def_cfa_offset 32
	pushq	%r13
	.cfi_def_cfa_offset 40
	pushq	%r12
	.cfi_def_cfa_offset 48
	pushq	%rbx
	.cfi_def_cfa_offset 56
	subq	$2632, %rsp
	.cfi_def_cfa_offset 2688
	.cfi_offset %rbx, -56
	.cfi_offset %r12, -48
	.cfi_offset %r13, -40
	.cfi_offset %r14, -32
	.cfi_offset %r15, -24
	.cfi_offset %rbp, -16
	movq	%rcx, %rbx
	movq	%rdx, %rbp
	movl	%esi, %r14d
	movq	%rdi, %r12
	leaq	240(%rsp), %r13
	movl	$1176, %edx
	movq	%r13, %rdi
	xorl	%esi, %esi
	callq	memset@PLT
	movzwl	(%r12), %esi
	movzwl	2(%r12), %edx
	movzwl	12(%r12), %eax
	movw	%ax, 236(%rsp)
	movq	4(%r12), %rax
	movq	%rax, 228(%rsp)
	movzwl	14(%r12), %eax
	movl	$0, 171(%rsp)
	movl	$0, 168(%rsp)
	movq	4(%r12), %rcx
	movq	%rcx, 1400(%rsp)
	movzwl	12(%r12), %ecx
	movw	%cx, 1408(%rsp)
	xorps	%xmm0, %xmm0
	movups	%xmm0, 207(%rsp)
	movups	%xmm0, 191(%rsp)
	movups	%xmm0, 175(%rsp)
	movl	%esi, 12(%rsp)
	movw	%si, 224(%rsp)
	movw	%dx, 10(%rsp)
	movw	%dx, 226(%rsp)
	movw	%ax, 238(%rsp)
	leaq	244(%rsp), %rdi
	movl	$1152, %edx
	xorl	%esi, %esi
	callq	memset@PLT
	leaq	1416(%rsp), %r15
	movl	$1153, %edx
	movq	%r15, %rdi
	xorl	%esi, %esi
	callq	memset@PLT
	movups	168(%rsp), %xmm0
	movdqu	184(%rsp), %xmm1
	movdqu	200(%rsp), %xmm2
	movups	%xmm0, 2569(%rsp)
	movdqu	%xmm1, 2585(%rsp)
	movdqu	%xmm2, 2601(%rsp)
	movq	215(%rsp), %rax
	movq	%rax, 2616(%rsp)
	movq	$0, 2624(%rsp)
	movl	16(%r12), %eax
	movl	%eax, 96(%rsp)
	movdqu	(%r12), %xmm0
	movdqa	%xmm0, 80(%rsp)
	leaq	32(%r12), %rax
	leaq	1696(%r12), %rcx
	movl	$0, 100(%rsp)
	movdqa	%xmm0, 16(%rsp)
	movq	96(%rsp), %rdx
	movq	%rdx, 32(%rsp)
	movq	%rax, 40(%rsp)
	movq	$104, 48(%rsp)
	movq	%rcx, 56(%rsp)
	movq	$104, 64(%rsp)
	testb	$1, %r14b
	je	.LBB30_9
	movl	16(%rbp), %eax
	movl	%eax, 128(%rsp)
	movdqu	(%rbp), %xmm0
	movdqa	%xmm0, 112(%rsp)
	leaq	32(%rbp), %rax
	addq	$1696, %rbp
	movl	$0, 132(%rsp)
	movq	%rax, 136(%rsp)
	movq	$104, 144(%rsp)
	movq	%rbp, 152(%rsp)
	movq	$104, 160(%rsp)
	movq	(%r12), %rax
	movq	6(%r12), %rcx
	movq	%rcx, 1162(%r13)
	movq	%rax, 1156(%r13)
	movzwl	30(%rsp), %ebp
	movl	32(%rsp), %eax
	movq	(%r12), %rcx
	movq	6(%r12), %rdx
	movq	%rcx, 224(%rsp)
	movq	%rdx, 230(%rsp)
	movw	%bp, 238(%rsp)
	movl	%eax, 240(%rsp)
	movw	%bp, 1410(%rsp)
	movl	%eax, 1412(%rsp)
	leaq	16(%rsp), %r14
	leaq	112(%rsp), %rdx
	movq	%r14, %rdi
	movl	$1, %esi
	callq	"dm_layout::symbols::border::border_faults"
	movw	%ax, 2624(%rsp)
	leaq	2576(%rsp), %r12
	addw	28(%rsp), %bp
	movzwl	%bp, %r13d
	movq	%r14, %rdi
	leaq	244(%rsp), %r14
	movq	%r14, %rsi
	callq	"dm_layout::symbols::placing::lift_to"
	cmpl	$1173, %r13d
	jb	.LBB30_10
	movl	%r13d, %eax
	andl	$-16, %eax
	xorl	%ecx, %ecx
	movq	%r15, %rbp
	.p2align	4
.LBB30_3:
	movdqu	244(%rsp,%rcx), %xmm0
	movdqu	%xmm0, 1416(%rsp,%rcx)
	addq	$16, %rcx
	cmpq	%rcx, %rax
	jne	.LBB30_3
	cmpl	%r13d, %eax
	je	.LBB30_13
	testb	$12, %r13b
	je	.LBB30_11
	movl	%r13d, %ecx
	andl	$-4, %ecx
	.p2align	4
.LBB30_7:
	movl	244(%rsp,%rax), %edx
	movl	%edx, 1416(%rsp,%rax)
	addq	$4, %rax
	cmpq	%rax, %rcx
	jne	.LBB30_7
	cmpl	%r13d, %ecx
	jne	.LBB30_12
	jmp	.LBB30_13
.LBB30_9:
	movq	(%r12), %rax
	movq	6(%r12), %rcx
	movq	%rcx, 1162(%r13)
	movq	%rax, 1156(%r13)
	movzwl	30(%rsp), %eax
	movl	32(%rsp), %ecx
	movq	(%r12), %rdx
	movq	6(%r12), %rsi
	movq	%rdx, 224(%rsp)
	movq	%rsi, 230(%rsp)
	movw	%ax, 238(%rsp)
	movl	%ecx, 240(%rsp)
	movw	%ax, 1410(%rsp)
	movl	%ecx, 1412(%rsp)
	leaq	16(%rsp), %r14
	movq	%r14, %rdi
	xorl	%esi, %esi
	xorl	%edx, %edx
	callq	"dm_layout::symbols::border::border_faults"
	movw	%ax, 2624(%rsp)
	leaq	2576(%rsp), %r9
	movq	%r14, %rdi
	xorl	%esi, %esi
	xorl	%edx, %edx
	leaq	244(%rsp), %r14
	movq	%r14, %rcx
	movq	%r15, %r8
	callq	"dm_symbol::symbol::inspection::mend"
	movb	%al, 2568(%rsp)
	movq	%r15, %rbp
	jmp	.LBB30_19
.LBB30_10:
	movq	%r15, %rbp
	movq	%r15, %rdi
	movq	%r14, %rsi
	movq	%r13, %rdx
	callq	memmove@PLT
	jmp	.LBB30_13
.LBB30_11:
	movq	%rax, %rcx
	.p2align	4
.LBB30_12:
	movzbl	244(%rsp,%rcx), %eax
	movb	%al, 1416(%rsp,%rcx)
	incq	%rcx
	cmpq	%rcx, %r13
	jne	.LBB30_12
.LBB30_13:
	leaq	80(%rsp), %rdi
	leaq	112(%rsp), %rcx
	movq	%rbp, %rsi
	movq	%r13, %rdx
	movq	%r12, %r8
	callq	"dm_symbol::symbol::inspection::mend_doubtful"
	xorl	%eax, %eax
	movq	2616(%rsp), %rcx
	.p2align	4
.LBB30_14:
	cmpq	%rax, %rcx
	je	.LBB30_17
	cmpb	$1, 2576(%rsp,%rax,4)
	leaq	1(%rax), %rax
	je	.LBB30_14
	leaq	16(%rsp), %rdi
	leaq	112(%rsp), %rdx
	movl	$1, %esi
	movq	%rbp, %rcx
	movq	%r13, %r8
	movq	%r12, %r9
	callq	"dm_symbol::symbol::inspection::mend_restarted"
	jmp	.LBB30_18
.LBB30_17:
	xorl	%eax, %eax
.LBB30_18:
	movb	%al, 2568(%rsp)
.LBB30_19:
	movq	%r14, %r9
	movq	2616(%rsp), %r14
	pxor	%xmm0, %xmm0
	pinsrw	$3, 12(%rsp), %xmm0
	movq	%xmm0, (%rbx)
	movzwl	10(%rsp), %ecx
	movw	%cx, 8(%rbx)
	movzwl	2624(%rsp), %ecx
	movw	%cx, 10(%rbx)
	movw	%r14w, 12(%rbx)
	movzwl	238(%rsp), %ecx
	addw	236(%rsp), %cx
	movw	%cx, 14(%rbx)
	movzbl	%al, %eax
	movw	%ax, 16(%rbx)
	movw	$0, 18(%rbx)
	testq	%r14, %r14
	je	.LBB30_26
	cmpq	$8, %r14
	jae	.LBB30_22
	xorl	%eax, %eax
	jmp	.LBB30_24
.LBB30_22:
	movq	%r14, %rax
	andq	$-8, %rax
	xorl	%edx, %edx
	.p2align	4
.LBB30_23:
	movd	2576(%rsp,%rdx,4), %xmm0
	pinsrb	$1, 2580(%rsp,%rdx,4), %xmm0
	pinsrb	$2, 2584(%rsp,%rdx,4), %xmm0
	pinsrb	$3, 2588(%rsp,%rdx,4), %xmm0
	pinsrb	$4, 2592(%rsp,%rdx,4), %xmm0
	pinsrb	$5, 2596(%rsp,%rdx,4), %xmm0
	pinsrb	$6, 2600(%rsp,%rdx,4), %xmm0
	pinsrb	$7, 2604(%rsp,%rdx,4), %xmm0
	movzbl	2577(%rsp,%rdx,4), %esi
	movd	%esi, %xmm1
	pinsrb	$1, 2581(%rsp,%rdx,4), %xmm1
	pinsrb	$2, 2585(%rsp,%rdx,4), %xmm1
	pinsrb	$3, 2589(%rsp,%rdx,4), %xmm1
	pinsrb	$4, 2593(%rsp,%rdx,4), %xmm1
	pinsrb	$5, 2597(%rsp,%rdx,4), %xmm1
	pinsrb	$6, 2601(%rsp,%rdx,4), %xmm1
	pinsrb	$7, 2605(%rsp,%rdx,4), %xmm1
	movzbl	2582(%rsp,%rdx,4), %esi
	movzbl	2578(%rsp,%rdx,4), %edi
	movd	%edi, %xmm2
	pinsrb	$1, %esi, %xmm2
	movzbl	2586(%rsp,%rdx,4), %esi
	pinsrb	$2, %esi, %xmm2
	movzbl	2590(%rsp,%rdx,4), %esi
	pinsrb	$3, %esi, %xmm2
	movzbl	2594(%rsp,%rdx,4), %esi
	pinsrb	$4, %esi, %xmm2
	movzbl	2598(%rsp,%rdx,4), %esi
	pinsrb	$5, %esi, %xmm2
	movzbl	2602(%rsp,%rdx,4), %esi
	pinsrb	$6, %esi, %xmm2
	movzbl	2606(%rsp,%rdx,4), %esi
	pinsrb	$7, %esi, %xmm2
	movzbl	2583(%rsp,%rdx,4), %esi
	movzbl	2579(%rsp,%rdx,4), %edi
	movd	%edi, %xmm3
	pinsrb	$1, %esi, %xmm3
	movzbl	2587(%rsp,%rdx,4), %esi
	pinsrb	$2, %esi, %xmm3
	movzbl	2591(%rsp,%rdx,4), %esi
	pinsrb	$3, %esi, %xmm3
	movzbl	2595(%rsp,%rdx,4), %esi
	pinsrb	$4, %esi, %xmm3
	movzbl	2599(%rsp,%rdx,4), %esi
	pinsrb	$5, %esi, %xmm3
	movzbl	2603(%rsp,%rdx,4), %esi
	pinsrb	$6, %esi, %xmm3
	movzbl	2607(%rsp,%rdx,4), %esi
	pinsrb	$7, %esi, %xmm3
	pcmpeqb	.LCPI30_0(%rip), %xmm0
	pcmpeqd	%xmm4, %xmm4
	pblendvb	%xmm0, %xmm1, %xmm4
	pand	%xmm0, %xmm2
	pand	%xmm3, %xmm0
	movq	%xmm4, 6252(%rbx,%rdx)
	movq	%xmm2, 6262(%rbx,%rdx)
	movq	%xmm0, 6272(%rbx,%rdx)
	addq	$8, %rdx
	cmpq	%rdx, %rax
	jne	.LBB30_23
	jmp	.LBB30_25
.LBB30_24:
	xorl	%edx, %edx
	cmpb	$1, 2576(%rsp,%rax,4)
	movzbl	2577(%rsp,%rax,4), %esi
	movl	$255, %edi
	cmovel	%esi, %edi
	movzbl	2578(%rsp,%rax,4), %esi
	cmovnel	%edx, %esi
	movzbl	2579(%rsp,%rax,4), %r8d
	cmovnel	%edx, %r8d
	movb	%dil, 6252(%rbx,%rax)
	movb	%sil, 6262(%rbx,%rax)
	movb	%r8b, 6272(%rbx,%rax)
	incq	%rax
.LBB30_25:
	cmpq	%rax, %r14
	jne	.LBB30_24
.LBB30_26:
	leaq	6282(%rbx), %rdi
	movzwl	%cx, %edx
	movq	%r9, %rsi
	callq	memcpy@PLT
	leaq	8460(%rbx), %rdi
	movzwl	1408(%rsp), %r15d
	movzwl	1410(%rsp), %eax
	addw	%r15w, %ax
	movzwl	%ax, %edx
	movq	%rbp, %rsi
	callq	memcpy@PLT
	xorl	%eax, %eax
	.p2align	4
.LBB30_27:
	cmpq	%rax, %r14
	je	.LBB30_30
	cmpb	$1, 2576(%rsp,%rax,4)
	leaq	1(%rax), %rax
	je	.LBB30_27
	jmp	.LBB30_46
.LBB30_30:
	testq	%r15, %r15
	je	.LBB30_46
	cmpw	$4, %r15w
	jae	.LBB30_33
	xorl	%ecx, %ecx
	xorl	%eax, %eax
	jmp	.LBB30_42
.LBB30_33:
	cmpw	$16, %r15w
	jae	.LBB30_35
	xorl	%eax, %eax
	xorl	%ecx, %ecx
	jmp	.LBB30_39
.LBB30_35:
	movl	%r15d, %eax
	andl	$-16, %eax
	pxor	%xmm0, %xmm0
	xorl	%ecx, %ecx
	.p2align	4
.LBB30_36:
	movdqu	1416(%rsp,%rcx), %xmm1
	pcmpeqb	.LCPI30_1(%rip), %xmm1
	por	%xmm1, %xmm0
	addq	$16, %rcx
	cmpq	%rcx, %rax
	jne	.LBB30_36
	ptest	.LCPI30_2(%rip), %xmm0
	setne	%cl
	cmpl	%r15d, %eax
	je	.LBB30_43
	testb	$12, %r15b
	je	.LBB30_42
.LBB30_39:
	movq	%rax, %rdx
	movl	%r15d, %eax
	andl	$-4, %eax
	movzbl	%cl, %ecx
	movd	%ecx, %xmm0
	.p2align	4
.LBB30_40:
	movd	1416(%rsp,%rdx), %xmm1
	pcmpeqb	.LCPI30_3(%rip), %xmm1
	pmovsxbd	%xmm1, %xmm1
	por	%xmm1, %xmm0
	addq	$4, %rdx
	cmpq	%rdx, %rax
	jne	.LBB30_40
	ptest	.LCPI30_4(%rip), %xmm0
	setne	%cl
	cmpl	%r15d, %eax
	je	.LBB30_43
	.p2align	4
.LBB30_42:
	cmpb	$-15, 1416(%rsp,%rax)
	sete	%dl
	orb	%dl, %cl
	incq	%rax
	cmpq	%rax, %r15
	jne	.LBB30_42
.LBB30_43:
	testb	$1, %cl
	je	.LBB30_46
	cmpw	$8, %r15w
	jae	.LBB30_48
	xorl	%ecx, %ecx
	xorl	%eax, %eax
	jmp	.LBB30_51
.LBB30_46:
	movw	$0, 18(%rbx)
.LBB30_47:
	addq	$2632, %rsp
	.cfi_def_cfa_offset 56
	popq	%rbx
	.cfi_def_cfa_offset 48
	popq	%r12
	.cfi_def_cfa_offset 40
	popq	%r13
	.cfi_def_cfa_offset 32
	popq	%r14
	.cfi_def_cfa_offset 24
	popq	%r15
	.cfi_def_cfa_offset 16
	popq	%rbp
	.cfi_def_cfa_offset 8
	retq
.LBB30_48:
	.cfi_def_cfa_offset 2688
	movl	%r15d, %eax
	andl	$-8, %eax
	pxor	%xmm0, %xmm0
	xorl	%ecx, %ecx
	.p2align	4
.LBB30_49:
	movq	1416(%rsp,%rcx), %xmm1
	pcmpeqb	.LCPI30_5(%rip), %xmm1
	pmovzxbw	%xmm1, %xmm1
	pand	.LCPI30_6(%rip), %xmm1
	paddw	%xmm1, %xmm0
	addq	$8, %rcx
	cmpq	%rcx, %rax
	jne	.LBB30_49
	pshufd	$238, %xmm0, %xmm1
	paddw	%xmm0, %xmm1
	pshufd	$85, %xmm1, %xmm0
	paddw	%xmm1, %xmm0
	movdqa	%xmm0, %xmm1
	psrld	$16, %xmm1
	paddw	%xmm0, %xmm1
	movd	%xmm1, %ecx
	cmpl	%r15d, %eax
	je	.LBB30_52
	.p2align	4
.LBB30_51:
	xorl	%edx, %edx
	cmpb	$-15, 1416(%rsp,%rax)
	sete	%dl
	addl	%edx, %ecx
	incq	%rax
	cmpq	%rax, %r15
	jne	.LBB30_51
.LBB30_52:
	movq	%rbx, %rdi
	movq	%rbp, %rsi
	movq	%r15, %rdx
	cmpw	$31, %cx
	ja	.LBB30_54
	callq	"ecc200_calls::inspection::find_designators::<=31>"
	jmp	.LBB30_47
.LBB30_54:
	callq	"ecc200_calls::inspection::find_designators::<=779>"
	jmp	.LBB30_47
.Lfunc_end30:
	.size	"ecc200_calls::inspection::inspect_symbol::<=104,=1152>", .Lfunc_end30-"ecc200_calls::inspection::inspect_symbol::<=104,=1152>"
	.cfi_endproc

	.p2align	4
	.type	"ecc200_calls::inspection::inspect_given::<=144,=2178,=3123,=779>",@function
"ecc200_calls::inspection::inspect_given::<=144,=2178,=3123,=779>":
	.cfi_startproc
	pushq	%rbp
	.cfi_def_cfa_offset 16
	pushq	%r15
	.cfi_def_cfa_offset 24
	pushq	%r14
	.cfi_def_cfa_offset 32
	pushq	%r13
	.cfi_def_cfa_offset 40
	pushq	%r12
	.cfi_def_cfa_offset 48
	pushq	%rbx
	.cfi_def_cfa_offset 56
	subq	$3072, %rsp
	.cfi_adjust_cfa_offset 3072
	movq	$0, (%rsp)
	subq	$2200, %rsp
	.cfi_def_cfa_offset 5328
	.cfi_offset %rbx, -56
	.cfi_offset %r12, -48
	.cfi_offset %r13, -40
	.cfi_offset %r14, -32
	.cfi_offset %r15, -24
	.cfi_offset %rbp, -16
	movq	%r9, %rbx
	movq	%r8, %r12
	movq	%rcx, 8(%rsp)
	movq	%rdx, (%rsp)
	movq	%rsi, %r13
	movq	%rdi, %rbp
	movzwl	(%r8), %r14d
	movzwl	18(%r8), %eax
	movzbl	20(%r8), %r15d
	movw	%ax, 34(%rsp)
	movups	2(%r8), %xmm0
	movups	%xmm0, 18(%rsp)
	leaq	36(%rsp), %rdi
	movl	$2316, %edx
	xorl	%esi, %esi
	callq	memset@PLT
	movw	%r14w, 16(%rsp)
	leaq	2352(%rsp), %rdi
	movl	$288, %edx
	xorl	%esi, %esi
	callq	memset@PLT
	leaq	16(%rsp), %rdi
	movq	%rbp, %rsi
	movq	%r13, %rdx
	callq	"ecc200_calls::modules::put_modules::<=144>"
	testb	$1, %r15b
	je	.LBB31_2
	addq	$2, %r12
	movw	%r14w, 2640(%rsp)
	movups	(%r12), %xmm0
	movups	%xmm0, 2642(%rsp)
	movzwl	16(%r12), %eax
	movw	%ax, 2658(%rsp)
	leaq	2660(%rsp), %rdi
	movl	$2604, %edx
	xorl	%esi, %esi
	callq	memset@PLT
	leaq	2640(%rsp), %r12
	movq	%r12, %rdi
	movq	(%rsp), %rsi
	movq	8(%rsp), %rdx
	callq	"ecc200_calls::modules::put_modules::<=144>"
	leaq	16(%rsp), %rdi
	movl	$1, %esi
	movq	%r12, %rdx
	jmp	.LBB31_3
.LBB31_2:
	leaq	16(%rsp), %rdi
	xorl	%esi, %esi
	xorl	%edx, %edx
.LBB31_3:
	movq	%rbx, %rcx
	callq	"ecc200_calls::inspection::inspect_symbol::<=144,=2178>"
	addq	$5272, %rsp
	.cfi_def_cfa_offset 56
	popq	%rbx
	.cfi_def_cfa_offset 48
	popq	%r12
	.cfi_def_cfa_offset 40
	popq	%r13
	.cfi_def_cfa_offset 32
	popq	%r14
	.cfi_def_cfa_offset 24
	popq	%r15
	.cfi_def_cfa_offset 16
	popq	%rbp
	.cfi_def_cfa_offset 8
	retq
.Lfunc_end31:
	.size	"ecc200_calls::inspection::inspect_given::<=144,=2178,=3123,=779>", .Lfunc_end31-"ecc200_calls::inspection::inspect_given::<=144,=2178,=3123,=779>"
	.cfi_endproc

	.p2align	4
	.type	"ecc200_calls::modules::put_modules::<=144>",@function
"ecc200_calls::modules::put_modules::<=144>":
	.cfi_startproc
	pushq	%rbp
	.cfi_def_cfa_offset 16
	pushq	%r15
	.cfi_def_cfa_offset 24
	pushq	%r14
	.cfi_def_cfa_offset 32
	pushq	%r13
	.cfi_def_cfa_offset 40
	pushq	%r12
	.cfi_def_cfa_offset 48
	pushq	%rbx
	.cfi_def_cfa_offset 56
	.cfi_offset %rbx, -56
	.cfi_offset %r12, -48
	.cfi_offset %r13, -40
	.cfi_offset %r14, -32
	.cfi_offset %r15, -24
	.cfi_offset %rbp, -16
	movq	%rsi, -56(%rsp)
	movq	%rdi, -64(%rsp)
	movzwl	(%rdi), %eax
	movq	%rax, -16(%rsp)
	testq	%rax, %rax
	je	.LBB32_77
	movq	%rdx, %r8
	movq	-64(%rsp), %rax
	movzwl	2(%rax), %r15d
	cmpq	$128, %r15
	movl	$128, %r11d
	cmovbq	%r15, %r11
	movq	-56(%rsp), %rax
	leaq	(%rax,%rdx), %r10
	leaq	-64(%rdx), %r12
	addq	$-65, %rdx
	movq	%rdx, -72(%rsp)
	leaq	-128(%r8), %rdi
	leaq	-129(%r8), %rsi
	movq	%rsi, -32(%rsp)
	addq	%r8, %rax
	decq	%rax
	movq	%rax, -128(%rsp)
	xorl	%r13d, %r13d
	movq	%rdi, -40(%rsp)
	movq	%r8, %rsi
	movq	%r12, -24(%rsp)
	movq	%r8, -88(%rsp)
	movq	%r15, -96(%rsp)
	movq	%r11, -112(%rsp)
	jmp	.LBB32_6
	.p2align	4
.LBB32_66:
	xorl	%eax, %eax
	movq	-88(%rsp), %r8
	movq	-80(%rsp), %rsi
.LBB32_5:
	movq	%r13, %rcx
	shlq	$4, %rcx
	movq	-64(%rsp), %rdx
	movq	%r12, 40(%rdx,%rcx)
	movq	%rbx, 32(%rdx,%rcx)
	movw	%ax, 2336(%rdx,%r13,2)
	incq	%r13
	movq	-8(%rsp), %r12
	subq	%r15, %r12
	subq	%r15, %rsi
	subq	%r15, %rdi
	cmpq	-16(%rsp), %r13
	je	.LBB32_77
.LBB32_6:
	movq	%r13, %rdx
	imulq	%r15, %rdx
	movq	%r8, %r14
	subq	%rdx, %r14
	movq	-56(%rsp), %rax
	addq	%rdx, %rax
	cmpq	$63, %r14
	movq	%r12, -8(%rsp)
	ja	.LBB32_20
	testq	%r15, %r15
	je	.LBB32_2
	movq	%rdi, -48(%rsp)
	movl	%r12d, %ecx
	andl	$1, %ecx
	movq	%rsi, -80(%rsp)
	subq	%rcx, %rsi
	movq	%rdx, -120(%rsp)
	movq	%rdx, %r15
	subq	%r8, %r15
	xorl	%edi, %edi
	xorl	%ebx, %ebx
	xorl	%r12d, %r12d
	xorl	%ecx, %ecx
	jmp	.LBB32_11
	.p2align	4
.LBB32_9:
	movdqu	(%rax,%rcx), %xmm0
	pxor	%xmm1, %xmm1
	pcmpeqb	%xmm0, %xmm1
	pmovmskb	%xmm1, %ebp
	notl	%ebp
.LBB32_10:
	movzwl	%bp, %edx
	xorl	%r8d, %r8d
	shldq	%cl, %rdx, %r8
	shlq	%cl, %rdx
	xorl	%r9d, %r9d
	testb	$64, %cl
	cmovneq	%rdx, %r8
	cmovneq	%r9, %rdx
	orq	%r8, %r12
	orq	%rdx, %rbx
	addq	$16, %rcx
	incq	%rdi
	addq	$-16, %rsi
	cmpq	%r11, %rcx
	jae	.LBB32_65
.LBB32_11:
	movq	%r14, %rdx
	subq	%rcx, %rdx
	cmpq	$15, %rdx
	ja	.LBB32_9
	cmpq	%rcx, %r14
	jne	.LBB32_14
	xorl	%ebp, %ebp
	jmp	.LBB32_10
	.p2align	4
.LBB32_14:
	movq	%rdi, %rdx
	shlq	$4, %rdx
	negq	%rdx
	decq	%rdx
	xorl	%ebp, %ebp
	cmpq	%rdx, %r15
	jne	.LBB32_16
	xorl	%r9d, %r9d
	jmp	.LBB32_19
.LBB32_16:
	movq	-128(%rsp), %r11
	xorl	%r9d, %r9d
	.p2align	4
.LBB32_17:
	xorl	%r8d, %r8d
	cmpb	$0, (%r11)
	setne	%r8b
	addl	%r8d, %r8d
	leal	(%r8,%rbp,4), %r8d
	movq	%r9, %rdx
	xorq	$-2, %rdx
	xorl	%ebp, %ebp
	cmpb	$0, (%r10,%rdx)
	setne	%bpl
	orl	%r8d, %ebp
	addq	$2, %r9
	addq	$-2, %r11
	cmpq	%r9, %rsi
	jne	.LBB32_17
	testb	$1, %r14b
	movq	-112(%rsp), %r11
	je	.LBB32_10
.LBB32_19:
	notq	%r9
	xorl	%edx, %edx
	cmpb	$0, (%r10,%r9)
	setne	%dl
	leal	(%rdx,%rbp,2), %ebp
	jmp	.LBB32_10
	.p2align	4
.LBB32_20:
	movq	%rdx, -120(%rsp)
	movdqu	(%rax), %xmm0
	movdqu	16(%rax), %xmm1
	movdqu	32(%rax), %xmm2
	movdqu	48(%rax), %xmm3
	pxor	%xmm4, %xmm4
	pcmpeqb	%xmm4, %xmm3
	pcmpeqb	%xmm4, %xmm2
	pcmpeqb	%xmm4, %xmm1
	pcmpeqb	%xmm4, %xmm0
	pmovmskb	%xmm0, %ecx
	xorl	$65535, %ecx
	pmovmskb	%xmm1, %edx
	notl	%edx
	shll	$16, %edx
	orl	%ecx, %edx
	pmovmskb	%xmm2, %ecx
	xorl	$65535, %ecx
	shlq	$32, %rcx
	orq	%rdx, %rcx
	pmovmskb	%xmm3, %ebx
	notl	%ebx
	shlq	$48, %rbx
	orq	%rcx, %rbx
	cmpw	$65, %r15w
	jb	.LBB32_3
	movq	%rsi, -80(%rsp)
	movq	%r12, %rcx
	andq	$-2, %rcx
	movq	-24(%rsp), %rbp
	movq	-120(%rsp), %rdx
	subq	%rdx, %rbp
	movq	%r14, %rsi
	andq	$-16, %rsi
	cmpq	$64, %rsi
	movq	%rdi, -48(%rsp)
	jne	.LBB32_24
	cmpq	$64, %r14
	jne	.LBB32_25
	xorl	%edi, %edi
	jmp	.LBB32_31
.LBB32_2:
	xorl	%ebx, %ebx
.LBB32_3:
	xorl	%r12d, %r12d
.LBB32_4:
	xorl	%eax, %eax
	jmp	.LBB32_5
.LBB32_24:
	movdqu	64(%rax), %xmm0
	pxor	%xmm1, %xmm1
	pcmpeqb	%xmm0, %xmm1
	pmovmskb	%xmm1, %edi
	notl	%edi
	jmp	.LBB32_31
.LBB32_25:
	cmpq	%rdx, -72(%rsp)
	jne	.LBB32_27
	xorl	%edi, %edi
	xorl	%edx, %edx
	jmp	.LBB32_30
.LBB32_27:
	xorl	%edi, %edi
	movq	-128(%rsp), %r11
	xorl	%edx, %edx
	.p2align	4
.LBB32_28:
	xorl	%r8d, %r8d
	cmpb	$0, (%r11)
	setne	%r8b
	addl	%r8d, %r8d
	leal	(%r8,%rdi,4), %r8d
	movq	%rdx, %r9
	xorq	$-2, %r9
	xorl	%edi, %edi
	cmpb	$0, (%r10,%r9)
	setne	%dil
	orl	%r8d, %edi
	addq	$2, %rdx
	addq	$-2, %r11
	cmpq	%rdx, %rcx
	jne	.LBB32_28
	testb	$1, %bpl
	movq	-112(%rsp), %r11
	je	.LBB32_31
.LBB32_30:
	notq	%rdx
	xorl	%r8d, %r8d
	cmpb	$0, (%r10,%rdx)
	setne	%r8b
	leal	(%r8,%rdi,2), %edi
	.p2align	4
.LBB32_31:
	movzwl	%di, %r12d
	cmpw	$81, %r15w
	jb	.LBB32_65
	movq	-72(%rsp), %r9
	subq	-120(%rsp), %r9
	cmpq	$80, %rsi
	jne	.LBB32_35
	cmpq	$80, %r14
	jne	.LBB32_36
	xorl	%edi, %edi
	jmp	.LBB32_42
.LBB32_35:
	movdqu	80(%rax), %xmm0
	pxor	%xmm1, %xmm1
	pcmpeqb	%xmm0, %xmm1
	pmovmskb	%xmm1, %edi
	notl	%edi
	jmp	.LBB32_42
.LBB32_36:
	cmpq	$16, %r9
	jne	.LBB32_38
	xorl	%edi, %edi
	xorl	%edx, %edx
	jmp	.LBB32_41
.LBB32_38:
	movq	%r9, -104(%rsp)
	leaq	-16(%rcx), %r15
	xorl	%edi, %edi
	movq	-128(%rsp), %r11
	xorl	%edx, %edx
	.p2align	4
.LBB32_39:
	xorl	%r8d, %r8d
	cmpb	$0, (%r11)
	setne	%r8b
	addl	%r8d, %r8d
	leal	(%r8,%rdi,4), %r8d
	movq	%rdx, %r9
	xorq	$-2, %r9
	xorl	%edi, %edi
	cmpb	$0, (%r10,%r9)
	setne	%dil
	orl	%r8d, %edi
	addq	$2, %rdx
	addq	$-2, %r11
	cmpq	%rdx, %r15
	jne	.LBB32_39
	testb	$1, %bpl
	movq	-96(%rsp), %r15
	movq	-112(%rsp), %r11
	movq	-104(%rsp), %r9
	je	.LBB32_42
.LBB32_41:
	notq	%rdx
	xorl	%r8d, %r8d
	cmpb	$0, (%r10,%rdx)
	setne	%r8b
	leal	(%r8,%rdi,2), %edi
.LBB32_42:
	shll	$16, %edi
	orq	%rdi, %r12
	cmpw	$97, %r15w
	jb	.LBB32_65
	cmpq	$96, %rsi
	jne	.LBB32_46
	cmpq	$96, %r14
	jne	.LBB32_47
	xorl	%edi, %edi
	jmp	.LBB32_53
.LBB32_46:
	movdqu	96(%rax), %xmm0
	pxor	%xmm1, %xmm1
	pcmpeqb	%xmm0, %xmm1
	pmovmskb	%xmm1, %edi
	notl	%edi
	jmp	.LBB32_53
.LBB32_47:
	cmpq	$32, %r9
	jne	.LBB32_49
	xorl	%edi, %edi
	xorl	%edx, %edx
	jmp	.LBB32_52
.LBB32_49:
	movq	%r9, -104(%rsp)
	leaq	-32(%rcx), %r15
	xorl	%edi, %edi
	movq	-128(%rsp), %r11
	xorl	%edx, %edx
	.p2align	4
.LBB32_50:
	xorl	%r8d, %r8d
	cmpb	$0, (%r11)
	setne	%r8b
	addl	%r8d, %r8d
	leal	(%r8,%rdi,4), %r8d
	movq	%rdx, %r9
	xorq	$-2, %r9
	xorl	%edi, %edi
	cmpb	$0, (%r10,%r9)
	setne	%dil
	orl	%r8d, %edi
	addq	$2, %rdx
	addq	$-2, %r11
	cmpq	%rdx, %r15
	jne	.LBB32_50
	testb	$1, %bpl
	movq	-96(%rsp), %r15
	movq	-112(%rsp), %r11
	movq	-104(%rsp), %r9
	je	.LBB32_53
.LBB32_52:
	notq	%rdx
	xorl	%r8d, %r8d
	cmpb	$0, (%r10,%rdx)
	setne	%r8b
	leal	(%r8,%rdi,2), %edi
.LBB32_53:
	movzwl	%di, %edx
	shlq	$32, %rdx
	orq	%rdx, %r12
	cmpw	$113, %r15w
	jb	.LBB32_65
	cmpq	$112, %rsi
	jne	.LBB32_57
	cmpq	$112, %r14
	jne	.LBB32_58
	xorl	%esi, %esi
	jmp	.LBB32_64
.LBB32_57:
	movdqu	112(%rax), %xmm0
	pxor	%xmm1, %xmm1
	pcmpeqb	%xmm0, %xmm1
	pmovmskb	%xmm1, %esi
	notl	%esi
	jmp	.LBB32_64
.LBB32_58:
	cmpq	$48, %r9
	jne	.LBB32_60
	xorl	%esi, %esi
	xorl	%edx, %edx
	jmp	.LBB32_63
.LBB32_60:
	addq	$-48, %rcx
	xorl	%esi, %esi
	movq	-128(%rsp), %rdi
	xorl	%edx, %edx
	.p2align	4
.LBB32_61:
	xorl	%r8d, %r8d
	cmpb	$0, (%rdi)
	setne	%r8b
	addl	%r8d, %r8d
	leal	(%r8,%rsi,4), %r8d
	movq	%rdx, %r9
	xorq	$-2, %r9
	xorl	%esi, %esi
	cmpb	$0, (%r10,%r9)
	setne	%sil
	orl	%r8d, %esi
	addq	$2, %rdx
	addq	$-2, %rdi
	cmpq	%rdx, %rcx
	jne	.LBB32_61
	testb	$1, %bpl
	je	.LBB32_64
.LBB32_63:
	notq	%rdx
	xorl	%ecx, %ecx
	cmpb	$0, (%r10,%rdx)
	setne	%cl
	leal	(%rcx,%rsi,2), %esi
.LBB32_64:
	movzwl	%si, %ecx
	shlq	$48, %rcx
	orq	%rcx, %r12
	.p2align	4
.LBB32_65:
	movq	-96(%rsp), %r15
	cmpl	$129, %r15d
	movq	-48(%rsp), %rdi
	jb	.LBB32_66
	addq	$-128, %r14
	cmpq	$15, %r14
	movq	-88(%rsp), %r8
	movq	-80(%rsp), %rsi
	ja	.LBB32_71
	testq	%r14, %r14
	je	.LBB32_4
	movq	-120(%rsp), %rax
	cmpq	%rax, -32(%rsp)
	jne	.LBB32_73
	xorl	%eax, %eax
	xorl	%ecx, %ecx
	jmp	.LBB32_76
.LBB32_71:
	movdqu	128(%rax), %xmm0
	pxor	%xmm1, %xmm1
	pcmpeqb	%xmm0, %xmm1
	pmovmskb	%xmm1, %eax
	notl	%eax
	jmp	.LBB32_5
.LBB32_73:
	movq	%rsi, %rbp
	movq	%rdi, %r14
	movq	%rdi, %rsi
	andq	$-2, %rsi
	movq	-40(%rsp), %rdx
	subq	%rax, %rdx
	xorl	%eax, %eax
	movq	-128(%rsp), %rdi
	xorl	%ecx, %ecx
	.p2align	4
.LBB32_74:
	xorl	%r8d, %r8d
	cmpb	$0, (%rdi)
	setne	%r8b
	addl	%r8d, %r8d
	leal	(%r8,%rax,4), %r8d
	movq	%rcx, %r9
	xorq	$-2, %r9
	xorl	%eax, %eax
	cmpb	$0, (%r10,%r9)
	setne	%al
	orl	%r8d, %eax
	addq	$2, %rcx
	addq	$-2, %rdi
	cmpq	%rcx, %rsi
	jne	.LBB32_74
	testb	$1, %dl
	movq	-88(%rsp), %r8
	movq	%r14, %rdi
	movq	%rbp, %rsi
	je	.LBB32_5
.LBB32_76:
	notq	%rcx
	xorl	%edx, %edx
	cmpb	$0, (%r10,%rcx)
	setne	%dl
	leal	(%rdx,%rax,2), %eax
	jmp	.LBB32_5
.LBB32_77:
	popq	%rbx
	.cfi_def_cfa_offset 48
	popq	%r12
	.cfi_def_cfa_offset 40
	popq	%r13
	.cfi_def_cfa_offset 32
	popq	%r14
	.cfi_def_cfa_offset 24
	popq	%r15
	.cfi_def_cfa_offset 16
	popq	%rbp
	.cfi_def_cfa_offset 8
	retq
.Lfunc_end32:
	.size	"ecc200_calls::modules::put_modules::<=144>", .Lfunc_end32-"ecc200_calls::modules::put_modules::<=144>"
	.cfi_endproc

	.section	.rodata.cst16,"aM",@progbits,16
	.p2align	4, 0x0
.LCPI33_0:
	.byte	1
	.byte	1
	.byte	1
	.byte	1
	.byte	1
	.byte	1
	.byte	1
	.byte	1
	.zero	1
	.zero	1
	.zero	1
	.zero	1
	.zero	1
	.zero	1
	.zero	1
	.zero	1
.LCPI33_1:
	.zero	16,241
.LCPI33_2:
	.zero	16,1
.LCPI33_3:
	.byte	241
	.byte	241
	.byte	241
	.byte	241
	.zero	1
	.zero	1
	.zero	1
	.zero	1
	.zero	1
	.zero	1
	.zero	1
	.zero	1
	.zero	1
	.zero	1
	.zero	1
	.zero	1
.LCPI33_4:
	.quad	4294967297
	.quad	4294967297
.LCPI33_5:
	.byte	241
	.byte	241
	.byte	241
	.byte	241
	.byte	241
	.byte	241
	.byte	241
	.byte	241
	.zero	1
	.zero	1
	.zero	1
	.zero	1
	.zero	1
	.zero	1
	.zero	1
	.zero	1
.LCPI33_6:
	.short	1
	.short	1
	.short	1
	.short	1
	.short	1
	.short	1
	.short	1
	.short	1
	.text
	.p2align	4
	.type	"ecc200_calls::inspection::inspect_symbol::<=144,=2178>",@function
"ecc200_calls::inspection::inspect_symbol::<=144,=2178>":
	.cfi_startproc
	pushq	%rbp
	.cfi_def_cfa_offset 16
	pushq	%r15
	.cfi_def_cfa_offset 24
	pushq	%r14
	.cfi_def_cfa_offset 32
	pushq	%r13
	.cfi_def_cfa_offset 40
	pushq	%r12
	.cfi_def_cfa_offset 48
	pushq	%rbx
	.cfi_def_cfa_offset 56
	subq	$3072, %rsp
	.cfi_adjust_cfa_offset 3072
	movq	$0, (%rsp)
	subq	$1608, %rsp
	.cfi_def_cfa_offset 4736
	.cfi_offset %rbx, -56
	.cfi_offset %r12, -48
	.cfi_offset %r13, -40
	.cfi_offset %r14, -32
	.cfi_offset %r15, -24
	.cfi_offset %rbp, -16
	movq	%rcx, %rbx
	movq	%rdx, %rbp
	movl	%esi, %r14d
	movq	%rdi, %r12
	leaq	240(%rsp), %r13
	movl	$2208, %edx
	movq	%r13, %rdi
	xorl	%esi, %esi
	callq	memset@PLT
	movzwl	(%r12), %esi
	movzwl	2(%r12), %edx
	movzwl	12(%r12), %eax
	movw	%ax, 236(%rsp)
	movq	4(%r12), %rax
	movq	%rax, 228(%rsp)
	movzwl	14(%r12), %eax
	movb	$0, 174(%rsp)
	movw	$0, 172(%rsp)
	movq	4(%r12), %rcx
	movq	%rcx, 2426(%rsp)
	movzwl	12(%r12), %ecx
	movw	%cx, 2434(%rsp)
	xorps	%xmm0, %xmm0
	movups	%xmm0, 207(%rsp)
	movups	%xmm0, 191(%rsp)
	movups	%xmm0, 175(%rsp)
	movl	%esi, 12(%rsp)
	movw	%si, 224(%rsp)
	movw	%dx, 10(%rsp)
	movw	%dx, 226(%rsp)
	movw	%ax, 238(%rsp)
	leaq	244(%rsp), %rdi
	movl	$2178, %edx
	xorl	%esi, %esi
	callq	memset@PLT
	leaq	2442(%rsp), %r15
	movl	$2179, %edx
	movq	%r15, %rdi
	xorl	%esi, %esi
	callq	memset@PLT
	movups	172(%rsp), %xmm0
	movdqu	188(%rsp), %xmm1
	movdqu	204(%rsp), %xmm2
	movups	%xmm0, 4621(%rsp)
	movdqu	%xmm1, 4637(%rsp)
	movdqu	%xmm2, 4653(%rsp)
	movl	219(%rsp), %eax
	movl	%eax, 4668(%rsp)
	movq	$0, 4672(%rsp)
	movl	16(%r12), %eax
	movl	%eax, 96(%rsp)
	movdqu	(%r12), %xmm0
	movdqa	%xmm0, 80(%rsp)
	leaq	32(%r12), %rax
	leaq	2336(%r12), %rcx
	movl	$0, 100(%rsp)
	movdqa	%xmm0, 16(%rsp)
	movq	96(%rsp), %rdx
	movq	%rdx, 32(%rsp)
	movq	%rax, 40(%rsp)
	movq	$144, 48(%rsp)
	movq	%rcx, 56(%rsp)
	movq	$144, 64(%rsp)
	testb	$1, %r14b
	je	.LBB33_9
	movl	16(%rbp), %eax
	movl	%eax, 128(%rsp)
	movdqu	(%rbp), %xmm0
	movdqa	%xmm0, 112(%rsp)
	leaq	32(%rbp), %rax
	addq	$2336, %rbp
	movl	$0, 132(%rsp)
	movq	%rax, 136(%rsp)
	movq	$144, 144(%rsp)
	movq	%rbp, 152(%rsp)
	movq	$144, 160(%rsp)
	movq	(%r12), %rax
	movq	6(%r12), %rcx
	movq	%rcx, 2188(%r13)
	movq	%rax, 2182(%r13)
	movzwl	30(%rsp), %ebp
	movl	32(%rsp), %eax
	movq	(%r12), %rcx
	movq	6(%r12), %rdx
	movq	%rcx, 224(%rsp)
	movq	%rdx, 230(%rsp)
	movw	%bp, 238(%rsp)
	movl	%eax, 240(%rsp)
	movw	%bp, 2436(%rsp)
	movl	%eax, 2438(%rsp)
	leaq	16(%rsp), %r14
	leaq	112(%rsp), %rdx
	movq	%r14, %rdi
	movl	$1, %esi
	callq	"dm_layout::symbols::border::border_faults"
	movw	%ax, 4672(%rsp)
	leaq	4624(%rsp), %r12
	addw	28(%rsp), %bp
	movzwl	%bp, %r13d
	movq	%r14, %rdi
	leaq	244(%rsp), %r14
	movq	%r14, %rsi
	callq	"dm_layout::symbols::placing::lift_to"
	cmpl	$2199, %r13d
	jb	.LBB33_10
	movl	%r13d, %eax
	andl	$-16, %eax
	xorl	%ecx, %ecx
	movq	%r15, %rbp
	.p2align	4
.LBB33_3:
	movdqu	244(%rsp,%rcx), %xmm0
	movdqu	%xmm0, 2442(%rsp,%rcx)
	addq	$16, %rcx
	cmpq	%rcx, %rax
	jne	.LBB33_3
	cmpl	%r13d, %eax
	je	.LBB33_13
	testb	$12, %r13b
	je	.LBB33_11
	movl	%r13d, %ecx
	andl	$-4, %ecx
	.p2align	4
.LBB33_7:
	movl	244(%rsp,%rax), %edx
	movl	%edx, 2442(%rsp,%rax)
	addq	$4, %rax
	cmpq	%rax, %rcx
	jne	.LBB33_7
	cmpl	%r13d, %ecx
	jne	.LBB33_12
	jmp	.LBB33_13
.LBB33_9:
	movq	(%r12), %rax
	movq	6(%r12), %rcx
	movq	%rcx, 2188(%r13)
	movq	%rax, 2182(%r13)
	movzwl	30(%rsp), %eax
	movl	32(%rsp), %ecx
	movq	(%r12), %rdx
	movq	6(%r12), %rsi
	movq	%rdx, 224(%rsp)
	movq	%rsi, 230(%rsp)
	movw	%ax, 238(%rsp)
	movl	%ecx, 240(%rsp)
	movw	%ax, 2436(%rsp)
	movl	%ecx, 2438(%rsp)
	leaq	16(%rsp), %r14
	movq	%r14, %rdi
	xorl	%esi, %esi
	xorl	%edx, %edx
	callq	"dm_layout::symbols::border::border_faults"
	movw	%ax, 4672(%rsp)
	leaq	4624(%rsp), %r9
	movq	%r14, %rdi
	xorl	%esi, %esi
	xorl	%edx, %edx
	leaq	244(%rsp), %r14
	movq	%r14, %rcx
	movq	%r15, %r8
	callq	"dm_symbol::symbol::inspection::mend"
	movb	%al, 4620(%rsp)
	movq	%r15, %rbp
	jmp	.LBB33_19
.LBB33_10:
	movq	%r15, %rbp
	movq	%r15, %rdi
	movq	%r14, %rsi
	movq	%r13, %rdx
	callq	memmove@PLT
	jmp	.LBB33_13
.LBB33_11:
	movq	%rax, %rcx
	.p2align	4
.LBB33_12:
	movzbl	244(%rsp,%rcx), %eax
	movb	%al, 2442(%rsp,%rcx)
	incq	%rcx
	cmpq	%rcx, %r13
	jne	.LBB33_12
.LBB33_13:
	leaq	80(%rsp), %rdi
	leaq	112(%rsp), %rcx
	movq	%rbp, %rsi
	movq	%r13, %rdx
	movq	%r12, %r8
	callq	"dm_symbol::symbol::inspection::mend_doubtful"
	xorl	%eax, %eax
	movq	4664(%rsp), %rcx
	.p2align	4
.LBB33_14:
	cmpq	%rax, %rcx
	je	.LBB33_17
	cmpb	$1, 4624(%rsp,%rax,4)
	leaq	1(%rax), %rax
	je	.LBB33_14
	leaq	16(%rsp), %rdi
	leaq	112(%rsp), %rdx
	movl	$1, %esi
	movq	%rbp, %rcx
	movq	%r13, %r8
	movq	%r12, %r9
	callq	"dm_symbol::symbol::inspection::mend_restarted"
	jmp	.LBB33_18
.LBB33_17:
	xorl	%eax, %eax
.LBB33_18:
	movb	%al, 4620(%rsp)
.LBB33_19:
	movq	%r14, %r9
	movq	4664(%rsp), %r14
	pxor	%xmm0, %xmm0
	pinsrw	$3, 12(%rsp), %xmm0
	movq	%xmm0, (%rbx)
	movzwl	10(%rsp), %ecx
	movw	%cx, 8(%rbx)
	movzwl	4672(%rsp), %ecx
	movw	%cx, 10(%rbx)
	movw	%r14w, 12(%rbx)
	movzwl	238(%rsp), %ecx
	addw	236(%rsp), %cx
	movw	%cx, 14(%rbx)
	movzbl	%al, %eax
	movw	%ax, 16(%rbx)
	movw	$0, 18(%rbx)
	testq	%r14, %r14
	je	.LBB33_26
	cmpq	$8, %r14
	jae	.LBB33_22
	xorl	%eax, %eax
	jmp	.LBB33_24
.LBB33_22:
	movq	%r14, %rax
	andq	$-8, %rax
	xorl	%edx, %edx
	.p2align	4
.LBB33_23:
	movd	4624(%rsp,%rdx,4), %xmm0
	pinsrb	$1, 4628(%rsp,%rdx,4), %xmm0
	pinsrb	$2, 4632(%rsp,%rdx,4), %xmm0
	pinsrb	$3, 4636(%rsp,%rdx,4), %xmm0
	pinsrb	$4, 4640(%rsp,%rdx,4), %xmm0
	pinsrb	$5, 4644(%rsp,%rdx,4), %xmm0
	pinsrb	$6, 4648(%rsp,%rdx,4), %xmm0
	pinsrb	$7, 4652(%rsp,%rdx,4), %xmm0
	movzbl	4625(%rsp,%rdx,4), %esi
	movd	%esi, %xmm1
	pinsrb	$1, 4629(%rsp,%rdx,4), %xmm1
	pinsrb	$2, 4633(%rsp,%rdx,4), %xmm1
	pinsrb	$3, 4637(%rsp,%rdx,4), %xmm1
	pinsrb	$4, 4641(%rsp,%rdx,4), %xmm1
	pinsrb	$5, 4645(%rsp,%rdx,4), %xmm1
	pinsrb	$6, 4649(%rsp,%rdx,4), %xmm1
	pinsrb	$7, 4653(%rsp,%rdx,4), %xmm1
	movzbl	4630(%rsp,%rdx,4), %esi
	movzbl	4626(%rsp,%rdx,4), %edi
	movd	%edi, %xmm2
	pinsrb	$1, %esi, %xmm2
	movzbl	4634(%rsp,%rdx,4), %esi
	pinsrb	$2, %esi, %xmm2
	movzbl	4638(%rsp,%rdx,4), %esi
	pinsrb	$3, %esi, %xmm2
	movzbl	4642(%rsp,%rdx,4), %esi
	pinsrb	$4, %esi, %xmm2
	movzbl	4646(%rsp,%rdx,4), %esi
	pinsrb	$5, %esi, %xmm2
	movzbl	4650(%rsp,%rdx,4), %esi
	pinsrb	$6, %esi, %xmm2
	movzbl	4654(%rsp,%rdx,4), %esi
	pinsrb	$7, %esi, %xmm2
	movzbl	4631(%rsp,%rdx,4), %esi
	movzbl	4627(%rsp,%rdx,4), %edi
	movd	%edi, %xmm3
	pinsrb	$1, %esi, %xmm3
	movzbl	4635(%rsp,%rdx,4), %esi
	pinsrb	$2, %esi, %xmm3
	movzbl	4639(%rsp,%rdx,4), %esi
	pinsrb	$3, %esi, %xmm3
	movzbl	4643(%rsp,%rdx,4), %esi
	pinsrb	$4, %esi, %xmm3
	movzbl	4647(%rsp,%rdx,4), %esi
	pinsrb	$5, %esi, %xmm3
	movzbl	4651(%rsp,%rdx,4), %esi
	pinsrb	$6, %esi, %xmm3
	movzbl	4655(%rsp,%rdx,4), %esi
	pinsrb	$7, %esi, %xmm3
	pcmpeqb	.LCPI33_0(%rip), %xmm0
	pcmpeqd	%xmm4, %xmm4
	pblendvb	%xmm0, %xmm1, %xmm4
	pand	%xmm0, %xmm2
	pand	%xmm3, %xmm0
	movq	%xmm4, 6252(%rbx,%rdx)
	movq	%xmm2, 6262(%rbx,%rdx)
	movq	%xmm0, 6272(%rbx,%rdx)
	addq	$8, %rdx
	cmpq	%rdx, %rax
	jne	.LBB33_23
	jmp	.LBB33_25
.LBB33_24:
	xorl	%edx, %edx
	cmpb	$1, 4624(%rsp,%rax,4)
	movzbl	4625(%rsp,%rax,4), %esi
	movl	$255, %edi
	cmovel	%esi, %edi
	movzbl	4626(%rsp,%rax,4), %esi
	cmovnel	%edx, %esi
	movzbl	4627(%rsp,%rax,4), %r8d
	cmovnel	%edx, %r8d
	movb	%dil, 6252(%rbx,%rax)
	movb	%sil, 6262(%rbx,%rax)
	movb	%r8b, 6272(%rbx,%rax)
	incq	%rax
.LBB33_25:
	cmpq	%rax, %r14
	jne	.LBB33_24
.LBB33_26:
	leaq	6282(%rbx), %rdi
	movzwl	%cx, %edx
	movq	%r9, %rsi
	callq	memcpy@PLT
	leaq	8460(%rbx), %rdi
	movzwl	2434(%rsp), %r15d
	movzwl	2436(%rsp), %eax
	addw	%r15w, %ax
	movzwl	%ax, %edx
	movq	%rbp, %rsi
	callq	memcpy@PLT
	xorl	%eax, %eax
	.p2align	4
.LBB33_27:
	cmpq	%rax, %r14
	je	.LBB33_30
	cmpb	$1, 4624(%rsp,%rax,4)
	leaq	1(%rax), %rax
	je	.LBB33_27
	jmp	.LBB33_46
.LBB33_30:
	testq	%r15, %r15
	je	.LBB33_46
	cmpw	$4, %r15w
	jae	.LBB33_33
	xorl	%ecx, %ecx
	xorl	%eax, %eax
	jmp	.LBB33_42
.LBB33_33:
	cmpw	$16, %r15w
	jae	.LBB33_35
	xorl	%eax, %eax
	xorl	%ecx, %ecx
	jmp	.LBB33_39
.LBB33_35:
	movl	%r15d, %eax
	andl	$-16, %eax
	pxor	%xmm0, %xmm0
	xorl	%ecx, %ecx
	.p2align	4
.LBB33_36:
	movdqu	2442(%rsp,%rcx), %xmm1
	pcmpeqb	.LCPI33_1(%rip), %xmm1
	por	%xmm1, %xmm0
	addq	$16, %rcx
	cmpq	%rcx, %rax
	jne	.LBB33_36
	ptest	.LCPI33_2(%rip), %xmm0
	setne	%cl
	cmpl	%r15d, %eax
	je	.LBB33_43
	testb	$12, %r15b
	je	.LBB33_42
.LBB33_39:
	movq	%rax, %rdx
	movl	%r15d, %eax
	andl	$-4, %eax
	movzbl	%cl, %ecx
	movd	%ecx, %xmm0
	.p2align	4
.LBB33_40:
	movd	2442(%rsp,%rdx), %xmm1
	pcmpeqb	.LCPI33_3(%rip), %xmm1
	pmovsxbd	%xmm1, %xmm1
	por	%xmm1, %xmm0
	addq	$4, %rdx
	cmpq	%rdx, %rax
	jne	.LBB33_40
	ptest	.LCPI33_4(%rip), %xmm0
	setne	%cl
	cmpl	%r15d, %eax
	je	.LBB33_43
	.p2align	4
.LBB33_42:
	cmpb	$-15, 2442(%rsp,%rax)
	sete	%dl
	orb	%dl, %cl
	incq	%rax
	cmpq	%rax, %r15
	jne	.LBB33_42
.LBB33_43:
	testb	$1, %cl
	je	.LBB33_46
	cmpw	$8, %r15w
	jae	.LBB33_48
	xorl	%ecx, %ecx
	xorl	%eax, %eax
	jmp	.LBB33_51
.LBB33_46:
	movw	$0, 18(%rbx)
.LBB33_47:
	addq	$4680, %rsp
	.cfi_def_cfa_offset 56
	popq	%rbx
	.cfi_def_cfa_offset 48
	popq	%r12
	.cfi_def_cfa_offset 40
	popq	%r13
	.cfi_def_cfa_offset 32
	popq	%r14
	.cfi_def_cfa_offset 24
	popq	%r15
	.cfi_def_cfa_offset 16
	popq	%rbp
	.cfi_def_cfa_offset 8
	retq
.LBB33_48:
	.cfi_def_cfa_offset 4736
	movl	%r15d, %eax
	andl	$-8, %eax
	pxor	%xmm0, %xmm0
	xorl	%ecx, %ecx
	.p2align	4
.LBB33_49:
	movq	2442(%rsp,%rcx), %xmm1
	pcmpeqb	.LCPI33_5(%rip), %xmm1
	pmovzxbw	%xmm1, %xmm1
	pand	.LCPI33_6(%rip), %xmm1
	paddw	%xmm1, %xmm0
	addq	$8, %rcx
	cmpq	%rcx, %rax
	jne	.LBB33_49
	pshufd	$238, %xmm0, %xmm1
	paddw	%xmm0, %xmm1
	pshufd	$85, %xmm1, %xmm0
	paddw	%xmm1, %xmm0
	movdqa	%xmm0, %xmm1
	psrld	$16, %xmm1
	paddw	%xmm0, %xmm1
	movd	%xmm1, %ecx
	cmpl	%r15d, %eax
	je	.LBB33_52
	.p2align	4
.LBB33_51:
	xorl	%edx, %edx
	cmpb	$-15, 2442(%rsp,%rax)
	sete	%dl
	addl	%edx, %ecx
	incq	%rax
	cmpq	%rax, %r15
	jne	.LBB33_51
.LBB33_52:
	movq	%rbx, %rdi
	movq	%rbp, %rsi
	movq	%r15, %rdx
	cmpw	$31, %cx
	ja	.LBB33_54
	callq	"ecc200_calls::inspection::find_designators::<=31>"
	jmp	.LBB33_47
.LBB33_54:
	callq	"ecc200_calls::inspection::find_designators::<=779>"
	jmp	.LBB33_47
.Lfunc_end33:
	.size	"ecc200_calls::inspection::inspect_symbol::<=144,=2178>", .Lfunc_end33-"ecc200_calls::inspection::inspect_symbol::<=144,=2178>"
	.cfi_endproc

	.p2align	4
	.type	"ecc200_calls::answer::answer_given::<#67f27f8c38696f0b>",@function
"ecc200_calls::answer::answer_given::<#67f27f8c38696f0b>":
	.cfi_startproc
	pushq	%r14
	.cfi_def_cfa_offset 16
	pushq	%rbx
	.cfi_def_cfa_offset 24
	subq	$264, %rsp
	.cfi_def_cfa_offset 288
	.cfi_offset %rbx, -24
	.cfi_offset %r14, -16
	movq	%rdi, %r14
	movq	296(%rsp), %rbx
	movq	288(%rsp), %rax
	movzwl	8(%rsi), %edi
	movw	%di, 56(%rsp)
	movq	(%rsi), %rsi
	movq	%rsi, 48(%rsp)
	movups	(%rax), %xmm0
	movaps	%xmm0, 64(%rsp)
	movq	14(%rax), %rax
	movq	%rax, 78(%rsp)
	movq	$0, 32(%rsp)
	movw	$0, 40(%rsp)
	xorps	%xmm0, %xmm0
	movups	%xmm0, 166(%rsp)
	movups	%xmm0, 182(%rsp)
	movups	%xmm0, 198(%rsp)
	movups	%xmm0, 214(%rsp)
	movups	%xmm0, 230(%rsp)
	movups	%xmm0, 246(%rsp)
	movw	$0, 262(%rsp)
	movups	%xmm0, 89(%rsp)
	movups	%xmm0, 105(%rsp)
	movups	%xmm0, 120(%rsp)
	movb	$0, 88(%rsp)
	movq	$0, 136(%rsp)
	leaq	88(%rsp), %rax
	movq	%rax, 16(%rsp)
	leaq	146(%rsp), %rax
	movq	%rax, 8(%rsp)
	leaq	64(%rsp), %rax
	movq	%rax, (%rsp)
	leaq	32(%rsp), %rdi
	leaq	48(%rsp), %rsi
	callq	"ecc200_calls::restoring::restore_given::<=32,=98>"
	cmpb	$0, 32(%rsp)
	je	.LBB34_1
	movzbl	34(%rsp), %ecx
	movzwl	36(%rsp), %eax
	testl	%ecx, %ecx
	je	.LBB34_3
	cmpl	$2, %ecx
	jne	.LBB34_5
	movzwl	38(%rsp), %edx
	cmpb	$2, %al
	je	.LBB34_18
	movzbl	%al, %eax
	cmpl	$1, %eax
	jne	.LBB34_9
	movw	$20, %cx
	jmp	.LBB34_19
.LBB34_1:
	movl	52(%rsp), %esi
	leaq	146(%rsp), %rdx
	movq	%r14, %rdi
	movq	%rbx, %rcx
	callq	"ecc200_calls::answer::answer_words::<#b7053eec525c6199>"
	jmp	.LBB34_21
.LBB34_3:
	xorl	%edx, %edx
	movw	$5, %cx
	jmp	.LBB34_20
.LBB34_5:
	movzbl	35(%rsp), %edx
	movw	$6, %cx
	jmp	.LBB34_19
.LBB34_18:
	movw	$21, %cx
.LBB34_19:
	xorl	%eax, %eax
.LBB34_20:
	movw	%cx, (%rbx)
	movw	%ax, 2(%rbx)
	movw	%dx, 4(%rbx)
	movl	$0, 6(%rbx)
.LBB34_21:
	addq	$264, %rsp
	.cfi_def_cfa_offset 24
	popq	%rbx
	.cfi_def_cfa_offset 16
	popq	%r14
	.cfi_def_cfa_offset 8
	retq
.LBB34_9:
	.cfi_def_cfa_offset 288
	movzwl	40(%rsp), %esi
	movzwl	%dx, %eax
	movzbl	%al, %ecx
	leaq	.LJTI34_0(%rip), %rdx
	movslq	(%rdx,%rcx,4), %rcx
	addq	%rdx, %rcx
	jmpq	*%rcx
.LBB34_10:
	movw	$7, %cx
	jmp	.LBB34_11
.LBB34_15:
	movw	$11, %cx
	jmp	.LBB34_11
.LBB34_13:
	movw	$9, %cx
	jmp	.LBB34_11
.LBB34_14:
	movw	$10, %cx
	jmp	.LBB34_11
.LBB34_12:
	shrl	$8, %eax
	movw	$8, %cx
	movl	%esi, %edx
	jmp	.LBB34_20
.LBB34_16:
	movw	$12, %cx
	jmp	.LBB34_11
.LBB34_17:
	movw	$13, %cx
.LBB34_11:
	xorl	%eax, %eax
	movl	%esi, %edx
	jmp	.LBB34_20
.Lfunc_end34:
	.size	"ecc200_calls::answer::answer_given::<#67f27f8c38696f0b>", .Lfunc_end34-"ecc200_calls::answer::answer_given::<#67f27f8c38696f0b>"
	.cfi_endproc
	.section	.rodata,"a",@progbits
	.p2align	2, 0x0
.LJTI34_0:
	.long	.LBB34_10-.LJTI34_0
	.long	.LBB34_12-.LJTI34_0
	.long	.LBB34_13-.LJTI34_0
	.long	.LBB34_14-.LJTI34_0
	.long	.LBB34_15-.LJTI34_0
	.long	.LBB34_16-.LJTI34_0
	.long	.LBB34_17-.LJTI34_0

	.text
	.p2align	4
	.type	"ecc200_calls::restoring::restore_given::<=32,=98>",@function
"ecc200_calls::restoring::restore_given::<=32,=98>":
	.cfi_startproc
	pushq	%rbp
	.cfi_def_cfa_offset 16
	pushq	%r15
	.cfi_def_cfa_offset 24
	pushq	%r14
	.cfi_def_cfa_offset 32
	pushq	%r13
	.cfi_def_cfa_offset 40
	pushq	%r12
	.cfi_def_cfa_offset 48
	pushq	%rbx
	.cfi_def_cfa_offset 56
	subq	$1384, %rsp
	.cfi_def_cfa_offset 1440
	.cfi_offset %rbx, -56
	.cfi_offset %r12, -48
	.cfi_offset %r13, -40
	.cfi_offset %r14, -32
	.cfi_offset %r15, -24
	.cfi_offset %rbp, -16
	movq	%r9, 152(%rsp)
	movq	%r8, 144(%rsp)
	movq	%rcx, %r14
	movq	%rdx, %r13
	movq	%rdi, %rbx
	movq	1440(%rsp), %r15
	movzbl	4(%rsi), %eax
	movb	%al, 46(%rsp)
	movzbl	6(%rsi), %eax
	movb	%al, 47(%rsp)
	movzwl	8(%rsi), %eax
	movl	%eax, 76(%rsp)
	movzwl	(%r15), %r12d
	movzwl	18(%r15), %eax
	movzbl	20(%r15), %ebp
	movw	%ax, 178(%rsp)
	movups	2(%r15), %xmm0
	movups	%xmm0, 162(%rsp)
	leaq	180(%rsp), %rdi
	movl	$524, %edx
	xorl	%esi, %esi
	callq	memset@PLT
	movw	%r12w, 160(%rsp)
	xorps	%xmm0, %xmm0
	movaps	%xmm0, 704(%rsp)
	movaps	%xmm0, 720(%rsp)
	movaps	%xmm0, 736(%rsp)
	movaps	%xmm0, 752(%rsp)
	leaq	160(%rsp), %rdi
	movq	%r13, %rsi
	movq	%r14, %rdx
	callq	"ecc200_calls::modules::put_modules::<=32>"
	movq	1456(%rsp), %r13
	movq	1448(%rsp), %r14
	testb	$1, %bpl
	je	.LBB35_5
	addq	$2, %r15
	movw	%r12w, 768(%rsp)
	movups	(%r15), %xmm0
	movups	%xmm0, 770(%rsp)
	movzwl	16(%r15), %eax
	movw	%ax, 786(%rsp)
	leaq	788(%rsp), %rdi
	movl	$588, %edx
	xorl	%esi, %esi
	callq	memset@PLT
	leaq	768(%rsp), %rdi
	movq	144(%rsp), %rsi
	movq	152(%rsp), %rdx
	callq	"ecc200_calls::modules::put_modules::<=32>"
	movw	$0, 88(%rsp)
	movq	$0, 80(%rsp)
	cmpb	$0, 47(%rsp)
	je	.LBB35_2
	movq	%r13, (%rsp)
	movzbl	46(%rsp), %esi
	leaq	80(%rsp), %rdi
	leaq	160(%rsp), %rdx
	leaq	768(%rsp), %r8
	movl	$1, %ecx
	movq	%r14, %r9
	callq	"ecc200_calls::restoring::restore_surely::<=32,=98>"
	jmp	.LBB35_4
.LBB35_5:
	movw	$0, 56(%rsp)
	movq	$0, 48(%rsp)
	cmpb	$0, 47(%rsp)
	je	.LBB35_6
	movq	%r13, (%rsp)
	movzbl	46(%rsp), %esi
	leaq	48(%rsp), %rdi
	leaq	160(%rsp), %rdx
	xorl	%ecx, %ecx
	xorl	%r8d, %r8d
	movq	%r14, %r9
	callq	"ecc200_calls::restoring::restore_surely::<=32,=98>"
	movzbl	48(%rsp), %eax
	movzbl	50(%rsp), %ecx
	movzbl	51(%rsp), %edx
	movss	52(%rsp), %xmm0
	movzwl	56(%rsp), %esi
	jmp	.LBB35_8
.LBB35_2:
	movq	%r13, 8(%rsp)
	movq	%r14, (%rsp)
	movzbl	46(%rsp), %esi
	leaq	80(%rsp), %rdi
	leaq	160(%rsp), %rdx
	leaq	768(%rsp), %r8
	movl	$1, %ecx
	movl	76(%rsp), %r9d
	callq	"ecc200_calls::restoring::restore_within::<=32,=98>"
.LBB35_4:
	movzbl	80(%rsp), %eax
	movzbl	82(%rsp), %ecx
	movzbl	83(%rsp), %edx
	movss	84(%rsp), %xmm0
	movzwl	88(%rsp), %esi
	jmp	.LBB35_8
.LBB35_6:
	leaq	704(%rsp), %rax
	leaq	8(%r13), %rcx
	leaq	48(%r13), %rdx
	movw	$0, 72(%rsp)
	movq	$0, 64(%rsp)
	movzwl	174(%rsp), %esi
	movl	176(%rsp), %edi
	movq	160(%rsp), %r8
	movq	166(%rsp), %r9
	movq	%r9, 6(%r14)
	movq	%r8, (%r14)
	movw	%si, 14(%r14)
	movl	%edi, 16(%r14)
	addq	$20, %r14
	movl	176(%rsp), %esi
	movl	%esi, 96(%rsp)
	movaps	160(%rsp), %xmm0
	movaps	%xmm0, 80(%rsp)
	leaq	192(%rsp), %rsi
	movl	$0, 100(%rsp)
	movq	%rsi, 104(%rsp)
	movq	$32, 112(%rsp)
	movq	%rax, 120(%rsp)
	movq	$32, 128(%rsp)
	movq	%rdx, 24(%rsp)
	movq	%rcx, 16(%rsp)
	movq	%r13, 8(%rsp)
	movq	%r14, (%rsp)
	movzbl	46(%rsp), %r8d
	leaq	64(%rsp), %rdi
	leaq	80(%rsp), %rsi
	xorl	%edx, %edx
	xorl	%ecx, %ecx
	movl	76(%rsp), %r9d
	callq	"dm_symbol::symbol::reading::restore"
	movzbl	64(%rsp), %eax
	movzbl	66(%rsp), %ecx
	movzbl	67(%rsp), %edx
	movss	68(%rsp), %xmm0
	movzwl	72(%rsp), %esi
.LBB35_8:
	movb	%al, (%rbx)
	movb	%cl, 2(%rbx)
	movb	%dl, 3(%rbx)
	movss	%xmm0, 4(%rbx)
	movw	%si, 8(%rbx)
	addq	$1384, %rsp
	.cfi_def_cfa_offset 56
	popq	%rbx
	.cfi_def_cfa_offset 48
	popq	%r12
	.cfi_def_cfa_offset 40
	popq	%r13
	.cfi_def_cfa_offset 32
	popq	%r14
	.cfi_def_cfa_offset 24
	popq	%r15
	.cfi_def_cfa_offset 16
	popq	%rbp
	.cfi_def_cfa_offset 8
	retq
.Lfunc_end35:
	.size	"ecc200_calls::restoring::restore_given::<=32,=98>", .Lfunc_end35-"ecc200_calls::restoring::restore_given::<=32,=98>"
	.cfi_endproc

	.p2align	4
	.type	"ecc200_calls::restoring::restore_within::<=32,=98>",@function
"ecc200_calls::restoring::restore_within::<=32,=98>":
	.cfi_startproc
	pushq	%rbp
	.cfi_def_cfa_offset 16
	pushq	%r15
	.cfi_def_cfa_offset 24
	pushq	%r14
	.cfi_def_cfa_offset 32
	pushq	%r13
	.cfi_def_cfa_offset 40
	pushq	%r12
	.cfi_def_cfa_offset 48
	pushq	%rbx
	.cfi_def_cfa_offset 56
	subq	$200, %rsp
	.cfi_def_cfa_offset 256
	.cfi_offset %rbx, -56
	.cfi_offset %r12, -48
	.cfi_offset %r13, -40
	.cfi_offset %r14, -32
	.cfi_offset %r15, -24
	.cfi_offset %rbp, -16
	movl	%r9d, %r12d
	movl	%esi, %ebp
	movq	%rdi, %rbx
	movq	264(%rsp), %r13
	movq	256(%rsp), %r14
	leaq	8(%r13), %r15
	movw	$0, 40(%rsp)
	movq	$0, 32(%rsp)
	movl	16(%rdx), %eax
	movq	(%rdx), %rsi
	movq	8(%rdx), %rdi
	movq	%rdi, 8(%r14)
	movq	%rsi, (%r14)
	movl	%eax, 16(%r14)
	addq	$20, %r14
	movl	16(%rdx), %eax
	movl	%eax, 128(%rsp)
	movups	(%rdx), %xmm0
	movaps	%xmm0, 112(%rsp)
	leaq	32(%rdx), %rax
	addq	$544, %rdx
	movl	$0, 132(%rsp)
	movaps	%xmm0, 48(%rsp)
	movq	128(%rsp), %rsi
	movq	%rsi, 64(%rsp)
	movq	%rax, 72(%rsp)
	movq	$32, 80(%rsp)
	movq	%rdx, 88(%rsp)
	movq	$32, 96(%rsp)
	testb	%cl, %cl
	je	.LBB36_1
	movl	16(%r8), %eax
	movl	%eax, 160(%rsp)
	movdqu	(%r8), %xmm0
	movdqa	%xmm0, 144(%rsp)
	leaq	32(%r8), %rax
	addq	$544, %r8
	movl	$0, 164(%rsp)
	movq	%rax, 168(%rsp)
	movq	$32, 176(%rsp)
	movq	%r8, 184(%rsp)
	movq	$32, 192(%rsp)
	leaq	48(%rsp), %rdi
	leaq	144(%rsp), %rdx
	movl	$1, %esi
	callq	"dm_layout::symbols::border::border_faults"
	cmpw	%ax, %r12w
	jae	.LBB36_4
	xorl	%r15d, %r15d
	movzwl	%ax, %eax
	movd	%eax, %xmm0
	movb	$1, %al
	xorl	%edx, %edx
	xorl	%r12d, %r12d
	jmp	.LBB36_12
.LBB36_1:
	leaq	48(%r13), %rax
	movq	%rax, 24(%rsp)
	movq	%r15, 16(%rsp)
	movq	%r13, 8(%rsp)
	movq	%r14, (%rsp)
	movzbl	%bpl, %r8d
	leaq	32(%rsp), %rdi
	leaq	48(%rsp), %rsi
	xorl	%edx, %edx
	xorl	%ecx, %ecx
	movl	%r12d, %r9d
	callq	"dm_symbol::symbol::reading::restore"
	movzbl	32(%rsp), %eax
	movzbl	34(%rsp), %r12d
	movzbl	35(%rsp), %edx
	movd	36(%rsp), %xmm0
	movzwl	40(%rsp), %r15d
	jmp	.LBB36_12
.LBB36_4:
	movw	%ax, 48(%r13)
	movzwl	62(%rsp), %eax
	addw	60(%rsp), %ax
	movzwl	%ax, %r12d
	leaq	48(%rsp), %rdi
	movq	%r14, %rsi
	callq	"dm_layout::symbols::placing::lift_to"
	movb	$0, (%r13)
	leaq	112(%rsp), %rdi
	movq	%r15, %r9
	xorl	%r15d, %r15d
	leaq	144(%rsp), %r8
	movq	%r14, %rsi
	movq	%r12, %rdx
	xorl	%ecx, %ecx
	callq	"dm_symbol::symbol::reading::restore_doubtful"
	pxor	%xmm0, %xmm0
	cmpb	$1, %al
	jne	.LBB36_5
	movq	%r12, %r8
	movb	$1, %r12b
	testb	%bpl, %bpl
	je	.LBB36_7
	movl	%edx, %ebp
	leaq	48(%rsp), %rdi
	leaq	144(%rsp), %rdx
	movl	$1, %esi
	movq	%r14, %rcx
	leaq	8(%r13), %r9
	callq	"dm_symbol::symbol::dealing::restore_restarted"
	testb	%al, %al
	je	.LBB36_9
	movb	$1, (%r13)
	xorl	%r15d, %r15d
	xorl	%edx, %edx
	xorl	%r12d, %r12d
	xorl	%eax, %eax
	jmp	.LBB36_11
.LBB36_5:
	xorl	%edx, %edx
	xorl	%r12d, %r12d
	xorl	%eax, %eax
	jmp	.LBB36_12
.LBB36_7:
	xorl	%r15d, %r15d
	movb	$1, %al
	jmp	.LBB36_12
.LBB36_9:
	xorl	%r15d, %r15d
	movb	$1, %al
	movl	%ebp, %edx
.LBB36_11:
	pxor	%xmm0, %xmm0
.LBB36_12:
	movb	%al, (%rbx)
	movb	%r12b, 2(%rbx)
	movb	%dl, 3(%rbx)
	movd	%xmm0, 4(%rbx)
	movw	%r15w, 8(%rbx)
	addq	$200, %rsp
	.cfi_def_cfa_offset 56
	popq	%rbx
	.cfi_def_cfa_offset 48
	popq	%r12
	.cfi_def_cfa_offset 40
	popq	%r13
	.cfi_def_cfa_offset 32
	popq	%r14
	.cfi_def_cfa_offset 24
	popq	%r15
	.cfi_def_cfa_offset 16
	popq	%rbp
	.cfi_def_cfa_offset 8
	retq
.Lfunc_end36:
	.size	"ecc200_calls::restoring::restore_within::<=32,=98>", .Lfunc_end36-"ecc200_calls::restoring::restore_within::<=32,=98>"
	.cfi_endproc

	.p2align	4
	.type	"dm_symbol::symbol::reading::restore",@function
"dm_symbol::symbol::reading::restore":
	.cfi_startproc
	pushq	%rbp
	.cfi_def_cfa_offset 16
	pushq	%r15
	.cfi_def_cfa_offset 24
	pushq	%r14
	.cfi_def_cfa_offset 32
	pushq	%r13
	.cfi_def_cfa_offset 40
	pushq	%r12
	.cfi_def_cfa_offset 48
	pushq	%rbx
	.cfi_def_cfa_offset 56
	subq	$120, %rsp
	.cfi_def_cfa_offset 176
	.cfi_offset %rbx, -56
	.cfi_offset %r12, -48
	.cfi_offset %r13, -40
	.cfi_offset %r14, -32
	.cfi_offset %r15, -24
	.cfi_offset %rbp, -16
	movl	%r9d, %r14d
	movl	%r8d, %r13d
	movq	%rcx, %r12
	movl	%edx, %ebp
	movq	%rsi, %r15
	movq	%rdi, %rbx
	movq	%rsi, %rdi
	movl	%edx, %esi
	movq	%rcx, %rdx
	callq	"dm_layout::symbols::border::border_faults"
	cmpw	%ax, %r14w
	jae	.LBB37_2
	movb	$1, (%rbx)
	movw	$0, 2(%rbx)
	movw	%ax, 4(%rbx)
	movl	$0, 6(%rbx)
	jmp	.LBB37_21
.LBB37_2:
	movl	%r13d, 12(%rsp)
	movq	200(%rsp), %rcx
	movq	192(%rsp), %r13
	movq	176(%rsp), %rsi
	movw	%ax, (%rcx)
	movzwl	14(%r15), %eax
	addw	12(%r15), %ax
	movzwl	%ax, %r14d
	movq	%r15, %rdi
	callq	"dm_layout::symbols::placing::lift_to"
	movq	184(%rsp), %rax
	movb	$0, (%rax)
	movl	16(%r15), %eax
	movl	%eax, 80(%rsp)
	movups	(%r15), %xmm0
	movaps	%xmm0, 64(%rsp)
	testb	$1, %bpl
	movq	%r14, 24(%rsp)
	je	.LBB37_4
	leaq	64(%rsp), %rdi
	movq	176(%rsp), %rsi
	movq	%r14, %rdx
	xorl	%ecx, %ecx
	movq	%r12, %r8
	movq	%r13, %r9
	callq	"dm_symbol::symbol::reading::restore_doubtful"
	movl	%edx, %r14d
	jmp	.LBB37_15
.LBB37_4:
	movl	%ebp, 8(%rsp)
	movups	(%r15), %xmm0
	movaps	%xmm0, 32(%rsp)
	movl	16(%r15), %eax
	movl	%eax, 48(%rsp)
	movl	$0, 4(%rsp)
	movq	32(%r13), %rax
	testq	%rax, %rax
	je	.LBB37_6
	leaq	(%rax,%rax,2), %rdx
	movq	%r13, %rdi
	xorl	%esi, %esi
	callq	memset@PLT
	movq	$0, 32(%r13)
.LBB37_6:
	movzbl	48(%rsp), %ebp
	testq	%rbp, %rbp
	je	.LBB37_11
	movq	%r12, 16(%rsp)
	leaq	5(%rsp), %r12
	xorl	%r14d, %r14d
	.p2align	4
.LBB37_8:
	xorps	%xmm0, %xmm0
	movaps	%xmm0, 96(%rsp)
	movq	$0, 112(%rsp)
	leaq	4(%rsp), %rdi
	leaq	32(%rsp), %rsi
	leaq	96(%rsp), %r8
	movq	176(%rsp), %rdx
	movq	24(%rsp), %rcx
	movq	%r14, %r9
	callq	"dm_symbol::symbol::correction::restore_block"
	cmpb	$1, 4(%rsp)
	jne	.LBB37_12
	movq	32(%r13), %rax
	leaq	(%rax,%rax,2), %rcx
	movzbl	2(%r12), %edx
	movb	%dl, 2(%r13,%rcx)
	movzwl	(%r12), %edx
	movw	%dx, (%r13,%rcx)
	incq	%rax
	movq	%rax, 32(%r13)
	incq	%r14
	cmpq	%r14, %rbp
	jne	.LBB37_8
	xorl	%r14d, %r14d
	xorl	%eax, %eax
	jmp	.LBB37_13
.LBB37_11:
	xorl	%r14d, %r14d
	xorl	%eax, %eax
	jmp	.LBB37_14
.LBB37_12:
	movb	$1, %al
.LBB37_13:
	movq	16(%rsp), %r12
.LBB37_14:
	movl	8(%rsp), %ebp
.LBB37_15:
	cmpb	$1, %al
	jne	.LBB37_19
	movl	%ebp, %eax
	movb	$1, %bpl
	cmpb	$0, 12(%rsp)
	je	.LBB37_20
	movzbl	%al, %esi
	movq	%r15, %rdi
	movq	%r12, %rdx
	movq	176(%rsp), %rcx
	movq	24(%rsp), %r8
	movq	%r13, %r9
	callq	"dm_symbol::symbol::dealing::restore_restarted"
	testb	%al, %al
	je	.LBB37_20
	movq	184(%rsp), %rax
	movb	$1, (%rax)
.LBB37_19:
	xorl	%ebp, %ebp
	xorl	%r14d, %r14d
.LBB37_20:
	movb	%bpl, (%rbx)
	movb	%bpl, 2(%rbx)
	movb	%r14b, 3(%rbx)
	movl	$0, 4(%rbx)
	movw	$0, 8(%rbx)
.LBB37_21:
	addq	$120, %rsp
	.cfi_def_cfa_offset 56
	popq	%rbx
	.cfi_def_cfa_offset 48
	popq	%r12
	.cfi_def_cfa_offset 40
	popq	%r13
	.cfi_def_cfa_offset 32
	popq	%r14
	.cfi_def_cfa_offset 24
	popq	%r15
	.cfi_def_cfa_offset 16
	popq	%rbp
	.cfi_def_cfa_offset 8
	retq
.Lfunc_end37:
	.size	"dm_symbol::symbol::reading::restore", .Lfunc_end37-"dm_symbol::symbol::reading::restore"
	.cfi_endproc

	.p2align	4
	.type	"ecc200_calls::restoring::restore_surely::<=32,=98>",@function
"ecc200_calls::restoring::restore_surely::<=32,=98>":
	.cfi_startproc
	pushq	%rbp
	.cfi_def_cfa_offset 16
	pushq	%r15
	.cfi_def_cfa_offset 24
	pushq	%r14
	.cfi_def_cfa_offset 32
	pushq	%r13
	.cfi_def_cfa_offset 40
	pushq	%r12
	.cfi_def_cfa_offset 48
	pushq	%rbx
	.cfi_def_cfa_offset 56
	subq	$56, %rsp
	.cfi_def_cfa_offset 112
	.cfi_offset %rbx, -56
	.cfi_offset %r12, -48
	.cfi_offset %r13, -40
	.cfi_offset %r14, -32
	.cfi_offset %r15, -24
	.cfi_offset %rbp, -16
	movq	%r9, %r13
	movl	%ecx, %r12d
	movq	%rdx, %r15
	movl	%esi, %ebp
	movq	%rdi, %rbx
	movq	112(%rsp), %r14
	movw	$0, 24(%rsp)
	movq	$0, 16(%rsp)
	movzwl	(%rdx), %eax
	movzwl	2(%rdx), %r9d
	addl	%eax, %r9d
	shrl	$3, %r9d
	movq	%r14, 8(%rsp)
	movq	%r13, (%rsp)
	leaq	16(%rsp), %rdi
	movq	%r8, 48(%rsp)
	callq	"ecc200_calls::restoring::restore_within::<=32,=98>"
	xorps	%xmm0, %xmm0
	cmpb	$0, 16(%rsp)
	je	.LBB38_4
	movzbl	18(%rsp), %eax
	cmpl	$2, %eax
	je	.LBB38_5
	cmpl	$1, %eax
	jne	.LBB38_6
	movb	$1, %al
	movzbl	19(%rsp), %edx
	xorl	%ebp, %ebp
	movb	$1, %cl
	jmp	.LBB38_15
.LBB38_4:
	xorl	%eax, %eax
	xorl	%ecx, %ecx
	xorl	%edx, %edx
	xorl	%ebp, %ebp
	jmp	.LBB38_15
.LBB38_5:
	movzbl	20(%rsp), %ebp
	movb	$2, %cl
	movb	$1, %al
	movss	22(%rsp), %xmm0
	jmp	.LBB38_14
.LBB38_6:
	movzwl	20(%rsp), %eax
	movw	$0, 40(%rsp)
	movq	$0, 32(%rsp)
	movq	%r14, 8(%rsp)
	movq	%r13, (%rsp)
	movzbl	%bpl, %esi
	movl	%eax, %ebp
	movzbl	%r12b, %ecx
	leaq	32(%rsp), %rdi
	movq	%r15, %rdx
	movq	48(%rsp), %r8
	movl	%eax, %r9d
	callq	"ecc200_calls::restoring::restore_within::<=32,=98>"
	movb	$1, %al
	cmpb	$0, 32(%rsp)
	je	.LBB38_8
	xorps	%xmm0, %xmm0
	jmp	.LBB38_13
.LBB38_8:
	movq	40(%r14), %rax
	addq	$10, %r14
	incq	%rax
	xorps	%xmm0, %xmm0
	.p2align	4
.LBB38_9:
	decq	%rax
	je	.LBB38_11
	cmpb	$1, (%r14)
	leaq	3(%r14), %r14
	ja	.LBB38_9
	jmp	.LBB38_12
.LBB38_11:
	xorl	%ebp, %ebp
.LBB38_12:
	testq	%rax, %rax
	setne	%al
.LBB38_13:
	xorl	%ecx, %ecx
.LBB38_14:
	xorl	%edx, %edx
.LBB38_15:
	movb	%al, (%rbx)
	movb	%cl, 2(%rbx)
	movb	%dl, 3(%rbx)
	movw	%bp, 4(%rbx)
	movss	%xmm0, 6(%rbx)
	addq	$56, %rsp
	.cfi_def_cfa_offset 56
	popq	%rbx
	.cfi_def_cfa_offset 48
	popq	%r12
	.cfi_def_cfa_offset 40
	popq	%r13
	.cfi_def_cfa_offset 32
	popq	%r14
	.cfi_def_cfa_offset 24
	popq	%r15
	.cfi_def_cfa_offset 16
	popq	%rbp
	.cfi_def_cfa_offset 8
	retq
.Lfunc_end38:
	.size	"ecc200_calls::restoring::restore_surely::<=32,=98>", .Lfunc_end38-"ecc200_calls::restoring::restore_surely::<=32,=98>"
	.cfi_endproc

	.p2align	4
	.type	"ecc200_calls::answer::answer_words::<#b7053eec525c6199>",@function
"ecc200_calls::answer::answer_words::<#b7053eec525c6199>":
	.cfi_startproc
	pushq	%rbp
	.cfi_def_cfa_offset 16
	pushq	%r15
	.cfi_def_cfa_offset 24
	pushq	%r14
	.cfi_def_cfa_offset 32
	pushq	%r13
	.cfi_def_cfa_offset 40
	pushq	%r12
	.cfi_def_cfa_offset 48
	pushq	%rbx
	.cfi_def_cfa_offset 56
	subq	$584, %rsp
	.cfi_def_cfa_offset 640
	.cfi_offset %rbx, -56
	.cfi_offset %r12, -48
	.cfi_offset %r13, -40
	.cfi_offset %r14, -32
	.cfi_offset %r15, -24
	.cfi_offset %rbp, -16
	movq	%rcx, %rbx
	movq	%rdx, %r13
	movl	%esi, %ebp
	movq	%rdi, %r14
	movzwl	12(%rdx), %r15d
	addq	$20, %r13
	leaq	48(%rsp), %rdi
	movl	$528, %edx
	xorl	%esi, %esi
	callq	memset@PLT
	xorps	%xmm0, %xmm0
	movaps	%xmm0, 32(%rsp)
	movaps	%xmm0, 16(%rsp)
	leaq	54(%rsp), %r12
	leaq	328(%rsp), %rax
	leaq	16(%rsp), %rdi
	movl	%ebp, %esi
	movq	%r13, %rdx
	movq	%r15, %rcx
	movq	%rax, %r15
	movq	%r12, %r8
	movq	%rax, %r9
	callq	"dm_words::contents::reading::read_content"
	cmpb	$0, 16(%rsp)
	je	.LBB39_4
	movzbl	18(%rsp), %eax
	movzwl	20(%rsp), %esi
	cmpl	$2, %eax
	je	.LBB39_5
	cmpl	$1, %eax
	jne	.LBB39_6
	xorl	%eax, %eax
	movw	$20, %cx
	jmp	.LBB39_16
.LBB39_4:
	movq	24(%rsp), %rax
	movq	32(%rsp), %rdx
	movq	40(%rsp), %r8
	movl	%eax, %ecx
	movl	%eax, %esi
	shrl	$8, %esi
	shrq	$16, %rax
	movb	%cl, 48(%rsp)
	movb	%sil, 49(%rsp)
	movl	%eax, 50(%rsp)
	movq	%rdx, 320(%rsp)
	movq	%r8, 576(%rsp)
	movzbl	(%r14), %r9d
	movb	%cl, 16(%rsp)
	movb	%sil, 17(%rsp)
	movl	%eax, 18(%rsp)
	shll	$8, %r9d
	movq	%rbx, (%rsp)
	leaq	16(%rsp), %rdi
	movq	%r12, %rsi
	movq	%r15, %rcx
	callq	"ecc200_calls::writing::write_content"
	jmp	.LBB39_17
.LBB39_5:
	movw	$21, %cx
	xorl	%eax, %eax
	jmp	.LBB39_16
.LBB39_6:
	movzwl	22(%rsp), %edx
	movzwl	%si, %eax
	movzbl	%al, %ecx
	leaq	.LJTI39_0(%rip), %rsi
	movslq	(%rsi,%rcx,4), %rcx
	addq	%rsi, %rcx
	jmpq	*%rcx
.LBB39_7:
	movw	$7, %cx
	jmp	.LBB39_14
.LBB39_8:
	movw	$11, %cx
	jmp	.LBB39_14
.LBB39_9:
	movw	$9, %cx
	jmp	.LBB39_14
.LBB39_10:
	movw	$10, %cx
	jmp	.LBB39_14
.LBB39_11:
	shrl	$8, %eax
	movw	$8, %cx
	jmp	.LBB39_15
.LBB39_12:
	movw	$12, %cx
	jmp	.LBB39_14
.LBB39_13:
	movw	$13, %cx
.LBB39_14:
	xorl	%eax, %eax
.LBB39_15:
	movl	%edx, %esi
.LBB39_16:
	movw	%cx, (%rbx)
	movw	%ax, 2(%rbx)
	movw	%si, 4(%rbx)
	movl	$0, 6(%rbx)
.LBB39_17:
	addq	$584, %rsp
	.cfi_def_cfa_offset 56
	popq	%rbx
	.cfi_def_cfa_offset 48
	popq	%r12
	.cfi_def_cfa_offset 40
	popq	%r13
	.cfi_def_cfa_offset 32
	popq	%r14
	.cfi_def_cfa_offset 24
	popq	%r15
	.cfi_def_cfa_offset 16
	popq	%rbp
	.cfi_def_cfa_offset 8
	retq
.Lfunc_end39:
	.size	"ecc200_calls::answer::answer_words::<#b7053eec525c6199>", .Lfunc_end39-"ecc200_calls::answer::answer_words::<#b7053eec525c6199>"
	.cfi_endproc
	.section	.rodata,"a",@progbits
	.p2align	2, 0x0
.LJTI39_0:
	.long	.LBB39_7-.LJTI39_0
	.long	.LBB39_11-.LJTI39_0
	.long	.LBB39_9-.LJTI39_0
	.long	.LBB39_10-.LJTI39_0
	.long	.LBB39_8-.LJTI39_0
	.long	.LBB39_12-.LJTI39_0
	.long	.LBB39_13-.LJTI39_0

	.text
	.p2align	4
	.type	"dm_words::contents::reading::read_content",@function
"dm_words::contents::reading::read_content":
	.cfi_startproc
	pushq	%rbp
	.cfi_def_cfa_offset 16
	pushq	%r15
	.cfi_def_cfa_offset 24
	pushq	%r14
	.cfi_def_cfa_offset 32
	pushq	%r13
	.cfi_def_cfa_offset 40
	pushq	%r12
	.cfi_def_cfa_offset 48
	pushq	%rbx
	.cfi_def_cfa_offset 56
	subq	$104, %rsp
	.cfi_def_cfa_offset 160
	.cfi_offset %rbx, -56
	.cfi_offset %r12, -48
	.cfi_offset %r13, -40
	.cfi_offset %r14, -32
	.cfi_offset %r15, -24
	.cfi_offset %rbp, -16
	movq	%r8, %r14
	movq	%rcx, %r12
	movq	%rdx, %r13
	movq	%rdi, %r15
	xorps	%xmm0, %xmm0
	movaps	%xmm0, 32(%rsp)
	movq	$0, 48(%rsp)
	testb	%sil, %sil
	je	.LBB40_5
	testq	%r12, %r12
	je	.LBB40_6
	movzbl	(%r13), %eax
	testb	%al, %al
	je	.LBB40_6
	cmpb	$-127, %al
	jb	.LBB40_5
	sete	%cl
	cmpb	$-26, %al
	setae	%al
	orb	%cl, %al
	jne	.LBB40_6
.LBB40_5:
	movq	%r15, 16(%rsp)
	xorl	%eax, %eax
	xorl	%ebp, %ebp
	xorl	%r11d, %r11d
	xorl	%r10d, %r10d
	xorl	%ebx, %ebx
	xorl	%r15d, %r15d
	jmp	.LBB40_12
.LBB40_6:
	movl	%esi, %ebx
	movq	%r9, %rbp
	leaq	32(%rsp), %rdi
	movq	%r13, %rsi
	movq	%r12, %rdx
	callq	"dm_words::contents::opening::opening_asked"
	cmpb	$1, 32(%rsp)
	jne	.LBB40_9
	movq	%r15, 16(%rsp)
	movzbl	40(%rsp), %r11d
	movzbl	41(%rsp), %r10d
	movl	42(%rsp), %ecx
	movq	48(%rsp), %r15
	cmpb	$2, %r11b
	jne	.LBB40_10
	movabsq	$2162077470818392833, %rax
	movq	%rax, (%r14)
	movw	$12289, 8(%r14)
	movq	$5, 64(%rsp)
	movb	$1, 10(%r14)
	movb	%r10b, 11(%r14)
	movw	$7425, 12(%r14)
	movb	$2, %r11b
	movl	$7, %eax
	movq	%rbp, %r9
	movb	$1, %bpl
	jmp	.LBB40_11
.LBB40_9:
	movl	$131073, (%r15)
	movw	$1, 4(%r15)
	xorps	%xmm0, %xmm0
	movups	%xmm0, 6(%r15)
	movups	%xmm0, 16(%r15)
	jmp	.LBB40_58
.LBB40_10:
	xorl	%eax, %eax
	movq	%rbp, %r9
	xorl	%ebp, %ebp
.LBB40_11:
	movl	%ebx, %esi
	movl	%ecx, %ebx
.LBB40_12:
	cmpq	%r12, %r15
	jb	.LBB40_48
.LBB40_13:
	movq	%rax, 64(%rsp)
	cmpq	%r12, %r15
	jae	.LBB40_54
	movq	%r9, 80(%rsp)
	xorl	%r9d, %r9d
	movq	%r11, 88(%rsp)
	movl	%ebx, 28(%rsp)
	movq	%rbp, 72(%rsp)
.LBB40_15:
	movzbl	(%r13,%r15), %ecx
	cmpl	$241, %ecx
	je	.LBB40_20
	cmpl	$129, %ecx
	je	.LBB40_55
	movq	%r9, 96(%rsp)
	movq	%r13, %rdx
	movq	%r12, %rcx
	movq	%r10, %rbp
	xorps	%xmm0, %xmm0
	movaps	%xmm0, 32(%rsp)
	movq	$0, 48(%rsp)
	leaq	64(%rsp), %rax
	movq	%rax, (%rsp)
	movl	%esi, %ebx
	movzbl	%sil, %esi
	leaq	32(%rsp), %rdi
	movq	%r15, %r8
	movq	%r14, %r9
	callq	"dm_words::reading::next_part"
	cmpb	$0, 32(%rsp)
	jne	.LBB40_61
	cmpb	$1, 40(%rsp)
	movq	64(%rsp), %rax
	movq	%rbp, %r10
	movq	88(%rsp), %r11
	movq	96(%rsp), %r9
	jne	.LBB40_63
	movq	48(%rsp), %rcx
	movl	%ebx, %esi
	movl	28(%rsp), %ebx
	movq	72(%rsp), %rbp
	jmp	.LBB40_37
	.p2align	4
.LBB40_20:
	testb	%sil, %sil
	je	.LBB40_60
	leaq	1(%r15), %rcx
	movq	%r12, %rdi
	subq	%rcx, %rdi
	je	.LBB40_59
	movzbl	(%r13,%rcx), %edx
	testl	%edx, %edx
	je	.LBB40_59
	testb	%dl, %dl
	js	.LBB40_25
	decl	%edx
	movl	$2, %ecx
	jmp	.LBB40_36
.LBB40_25:
	cmpb	$-65, %dl
	ja	.LBB40_29
	cmpq	$1, %rdi
	je	.LBB40_59
	movzbl	1(%r13,%rcx), %ecx
	leal	-1(%rcx), %edi
	cmpb	$-3, %dil
	ja	.LBB40_59
	leal	(%rdx,%rdx), %edi
	shll	$8, %edx
	subl	%edi, %edx
	addl	%ecx, %edx
	addl	$-32386, %edx
	movl	$3, %ecx
	jmp	.LBB40_36
.LBB40_29:
	cmpq	$1, %rdi
	je	.LBB40_59
	cmpb	$-49, %dl
	ja	.LBB40_59
	cmpq	$3, %rdi
	jb	.LBB40_59
	movzbl	1(%r13,%rcx), %r8d
	leal	-1(%r8), %edi
	cmpb	$-3, %dil
	ja	.LBB40_59
	movzbl	2(%r13,%rcx), %ecx
	leal	-1(%rcx), %edi
	cmpb	$-3, %dil
	ja	.LBB40_59
	imull	$64516, %edx, %edx
	leal	(%r8,%r8), %edi
	shll	$8, %r8d
	subl	%edi, %r8d
	addl	%edx, %r8d
	leal	(%r8,%rcx), %edx
	cmpl	$13370943, %edx
	ja	.LBB40_59
	leal	(%rcx,%r8), %edx
	addl	$-12370944, %edx
	movl	$4, %ecx
	.p2align	4
.LBB40_36:
	movq	80(%rsp), %rdi
	movw	%ax, (%rdi,%r9,8)
	movw	$0, 2(%rdi,%r9,8)
	movl	%edx, 4(%rdi,%r9,8)
	incq	%r9
.LBB40_37:
	addq	%r15, %rcx
	cmpq	%r12, %rcx
	jb	.LBB40_41
.LBB40_38:
	movq	%rax, 64(%rsp)
	movq	%rcx, %r15
	cmpq	%r12, %rcx
	jb	.LBB40_15
	jmp	.LBB40_55
	.p2align	4
.LBB40_39:
	decb	%dl
	movb	$1, (%r14,%rax,2)
	movb	%dl, 1(%r14,%rax,2)
	incq	%rax
.LBB40_40:
	incq	%rcx
	cmpq	%rcx, %r12
	je	.LBB40_55
.LBB40_41:
	movzbl	(%r13,%rcx), %edx
	testb	%dl, %dl
	je	.LBB40_38
	cmpb	$-127, %dl
	jb	.LBB40_39
	je	.LBB40_38
	cmpb	$-26, %dl
	jae	.LBB40_38
	addb	$126, %dl
	movzbl	%dl, %edx
	imull	$205, %edx, %r8d
	shrl	$11, %r8d
	leal	48(%r8), %edi
	movb	$1, (%r14,%rax,2)
	movb	%dil, 1(%r14,%rax,2)
	addl	%r8d, %r8d
	leal	(%r8,%r8,4), %edi
	subb	%dil, %dl
	orb	$48, %dl
	movb	$1, 2(%r14,%rax,2)
	movb	%dl, 3(%r14,%rax,2)
	addq	$2, %rax
	jmp	.LBB40_40
	.p2align	4
.LBB40_46:
	decb	%cl
	movb	$1, (%r14,%rax,2)
	movb	%cl, 1(%r14,%rax,2)
	incq	%rax
.LBB40_47:
	incq	%r15
	cmpq	%r15, %r12
	je	.LBB40_54
.LBB40_48:
	movzbl	(%r13,%r15), %ecx
	testb	%cl, %cl
	je	.LBB40_13
	cmpb	$-127, %cl
	jb	.LBB40_46
	je	.LBB40_13
	cmpb	$-26, %cl
	jae	.LBB40_13
	addb	$126, %cl
	movzbl	%cl, %ecx
	imull	$205, %ecx, %edx
	shrl	$11, %edx
	leal	48(%rdx), %edi
	movb	$1, (%r14,%rax,2)
	movb	%dil, 1(%r14,%rax,2)
	addl	%edx, %edx
	leal	(%rdx,%rdx,4), %edx
	subb	%dl, %cl
	orb	$48, %cl
	movb	$1, 2(%r14,%rax,2)
	movb	%cl, 3(%r14,%rax,2)
	addq	$2, %rax
	jmp	.LBB40_47
.LBB40_54:
	xorl	%r9d, %r9d
.LBB40_55:
	testb	%bpl, %bpl
	je	.LBB40_57
	movl	$67182081, (%r14,%rax,2)
	addq	$2, %rax
.LBB40_57:
	movq	16(%rsp), %r8
	movl	%ebx, %ecx
	shlq	$16, %rcx
	xorl	%edx, %edx
	xorl	%esi, %esi
	cmpb	$1, %r11b
	sete	%sil
	movzbl	%r10b, %edi
	cmovnel	%edx, %edi
	cmoveq	%rcx, %rdx
	movzbl	%dil, %ecx
	shll	$8, %ecx
	orq	%rsi, %rcx
	orq	%rdx, %rcx
	movq	$0, (%r8)
	movq	%rcx, 8(%r8)
	movq	%rax, 16(%r8)
	movq	%r9, 24(%r8)
.LBB40_58:
	addq	$104, %rsp
	.cfi_def_cfa_offset 56
	popq	%rbx
	.cfi_def_cfa_offset 48
	popq	%r12
	.cfi_def_cfa_offset 40
	popq	%r13
	.cfi_def_cfa_offset 32
	popq	%r14
	.cfi_def_cfa_offset 24
	popq	%r15
	.cfi_def_cfa_offset 16
	popq	%rbp
	.cfi_def_cfa_offset 8
	retq
.LBB40_59:
	.cfi_def_cfa_offset 160
	incl	%r15d
	movw	$1, %ax
	xorl	%ecx, %ecx
	jmp	.LBB40_62
.LBB40_60:
	incl	%r15d
	xorl	%eax, %eax
	movl	%r15d, %ecx
	movw	$-3839, %r15w
	jmp	.LBB40_62
.LBB40_61:
	movzwl	34(%rsp), %r15d
	movzwl	36(%rsp), %ecx
	xorl	%eax, %eax
.LBB40_62:
	movq	16(%rsp), %rdx
	movw	$1, (%rdx)
	movw	%ax, 2(%rdx)
	movw	%r15w, 4(%rdx)
	movw	%cx, 6(%rdx)
	xorps	%xmm0, %xmm0
	movups	%xmm0, 8(%rdx)
	movq	$0, 24(%rdx)
	jmp	.LBB40_58
.LBB40_63:
	movl	28(%rsp), %ebx
	movq	72(%rsp), %rbp
	jmp	.LBB40_55
.Lfunc_end40:
	.size	"dm_words::contents::reading::read_content", .Lfunc_end40-"dm_words::contents::reading::read_content"
	.cfi_endproc

	.section	.rodata.cst16,"aM",@progbits,16
	.p2align	4, 0x0
.LCPI41_0:
	.zero	16,1
.LCPI41_1:
	.byte	1
	.byte	1
	.byte	1
	.byte	1
	.zero	1
	.zero	1
	.zero	1
	.zero	1
	.zero	1
	.zero	1
	.zero	1
	.zero	1
	.zero	1
	.zero	1
	.zero	1
	.zero	1
.LCPI41_2:
	.long	12
	.long	13
	.long	14
	.long	15
.LCPI41_3:
	.long	8
	.long	9
	.long	10
	.long	11
.LCPI41_4:
	.long	4
	.long	5
	.long	6
	.long	7
.LCPI41_5:
	.long	0
	.long	1
	.long	2
	.long	3
.LCPI41_6:
	.long	149
	.long	149
	.long	149
	.long	149
.LCPI41_7:
	.long	16976156
	.long	16976156
	.long	16976156
	.long	16976156
.LCPI41_8:
	.long	253
	.long	253
	.long	253
	.long	253
.LCPI41_9:
	.long	125
	.long	125
	.long	125
	.long	125
.LCPI41_10:
	.zero	16,132
.LCPI41_11:
	.zero	16,130
.LCPI41_12:
	.long	16
	.long	16
	.long	16
	.long	16
.LCPI41_13:
	.long	124
	.long	124
	.long	124
	.long	124
.LCPI41_14:
	.byte	132
	.byte	132
	.byte	132
	.byte	132
	.zero	1
	.zero	1
	.zero	1
	.zero	1
	.zero	1
	.zero	1
	.zero	1
	.zero	1
	.zero	1
	.zero	1
	.zero	1
	.zero	1
.LCPI41_15:
	.byte	130
	.byte	130
	.byte	130
	.byte	130
	.zero	1
	.zero	1
	.zero	1
	.zero	1
	.zero	1
	.zero	1
	.zero	1
	.zero	1
	.zero	1
	.zero	1
	.zero	1
	.zero	1
.LCPI41_16:
	.long	4
	.long	4
	.long	4
	.long	4
	.text
	.p2align	4
	.type	"ecc200_calls::writing::write_content",@function
"ecc200_calls::writing::write_content":
	.cfi_startproc
	pushq	%rbp
	.cfi_def_cfa_offset 16
	pushq	%r15
	.cfi_def_cfa_offset 24
	pushq	%r14
	.cfi_def_cfa_offset 32
	pushq	%r13
	.cfi_def_cfa_offset 40
	pushq	%r12
	.cfi_def_cfa_offset 48
	pushq	%rbx
	.cfi_def_cfa_offset 56
	subq	$1704, %rsp
	.cfi_def_cfa_offset 1760
	.cfi_offset %rbx, -56
	.cfi_offset %r12, -48
	.cfi_offset %r13, -40
	.cfi_offset %r14, -32
	.cfi_offset %r15, -24
	.cfi_offset %rbp, -16
	movq	%r9, %r12
	movq	%r8, 104(%rsp)
	movq	%rcx, 96(%rsp)
	movq	%rdx, 80(%rsp)
	movq	%rsi, %r15
	movzbl	(%rdi), %eax
	movb	%al, 31(%rsp)
	movzbl	1(%rdi), %r13d
	movl	2(%rdi), %ebp
	movq	%r9, %rax
	shrq	$8, %rax
	movq	%rax, 72(%rsp)
	movq	%r9, %r14
	shrq	$16, %r14
	movq	%r9, %rbx
	shrq	$32, %rbx
	leaq	146(%rsp), %rdi
	movl	$1558, %edx
	xorl	%esi, %esi
	callq	memset@PLT
	testb	%r12b, %r12b
	je	.LBB41_3
	movzbl	%r14b, %eax
	movzbl	31(%rsp), %ecx
	movb	%cl, 60(%rsp)
	movb	%r13b, 61(%rsp)
	movl	%ebp, 62(%rsp)
	movw	%ax, 66(%rsp)
	movl	%ebx, 68(%rsp)
	pxor	%xmm0, %xmm0
	movdqa	%xmm0, 32(%rsp)
	movq	$0, 46(%rsp)
	movdqa	%xmm0, 112(%rsp)
	movq	$0, 126(%rsp)
	movq	80(%rsp), %r8
	cmpq	$64, %r8
	setae	%al
	movq	104(%rsp), %rdx
	cmpq	$32, %rdx
	setae	%cl
	orb	%al, %cl
	jne	.LBB41_7
	leaq	146(%rsp), %rax
	movq	%rax, 16(%rsp)
	leaq	66(%rsp), %rax
	movq	%rax, 8(%rsp)
	movq	%rdx, (%rsp)
	movzbl	72(%rsp), %esi
	leaq	32(%rsp), %rdi
	leaq	60(%rsp), %rdx
	movq	%r15, %rcx
	movq	96(%rsp), %r9
	callq	"dm_words::smallest::smallest_in::<=64,=31>"
	movzbl	32(%rsp), %eax
	jmp	.LBB41_13
.LBB41_3:
	movq	%r12, 88(%rsp)
	movzbl	31(%rsp), %edi
	testb	%dil, %dil
	setne	%al
	movq	104(%rsp), %rcx
	testq	%rcx, %rcx
	setne	%dl
	orb	%al, %dl
	jne	.LBB41_9
	movq	80(%rsp), %r10
	cmpq	$780, %r10
	jae	.LBB41_17
	testq	%r10, %r10
	movq	88(%rsp), %rbp
	movq	%rbx, %r12
	jne	.LBB41_29
	xorl	%eax, %eax
	jmp	.LBB41_73
.LBB41_7:
	cmpq	$512, %r8
	setae	%al
	cmpq	$103, %rdx
	setae	%cl
	orb	%al, %cl
	movq	96(%rsp), %r9
	leaq	146(%rsp), %rax
	jne	.LBB41_11
	movq	%rax, 16(%rsp)
	leaq	66(%rsp), %rax
	movq	%rax, 8(%rsp)
	movq	%rdx, (%rsp)
	movzbl	72(%rsp), %esi
	leaq	112(%rsp), %rdi
	leaq	60(%rsp), %rdx
	movq	%r15, %rcx
	callq	"dm_words::smallest::smallest_in::<=512,=102>"
	jmp	.LBB41_12
.LBB41_9:
	xorl	%eax, %eax
	testb	%r13b, %r13b
	setne	%al
	xorl	%r12d, %r12d
	testb	%dil, %dil
	movb	%dil, 32(%rsp)
	movb	%r13b, 33(%rsp)
	movl	%ebp, 34(%rsp)
	leaq	1(%rax,%rax,2), %rax
	cmovneq	%rax, %r12
	movq	%r15, %rdi
	movq	80(%rsp), %r13
	movq	%r13, %rsi
	movq	96(%rsp), %rbp
	movq	%rbp, %rdx
	callq	"dm_words::contents::normal_form::marked_length"
	addq	%r12, %rax
	cmpq	$1558, %rax
	ja	.LBB41_14
	leaq	32(%rsp), %rdi
	leaq	146(%rsp), %r9
	movq	%r15, %rsi
	movq	%r13, %rdx
	movq	%rbp, %rcx
	movq	104(%rsp), %r8
	callq	"dm_words::contents::normal_form::write_form"
	movq	88(%rsp), %rbp
	movq	%rbx, %r12
	jmp	.LBB41_73
.LBB41_11:
	movq	%rax, 16(%rsp)
	leaq	66(%rsp), %rax
	movq	%rax, 8(%rsp)
	movq	%rdx, (%rsp)
	movzbl	72(%rsp), %esi
	leaq	112(%rsp), %rdi
	leaq	60(%rsp), %rdx
	movq	%r15, %rcx
	callq	"dm_words::smallest::smallest_in::<=3124,=779>"
.LBB41_12:
	movzbl	112(%rsp), %eax
	movdqu	114(%rsp), %xmm0
	movdqu	%xmm0, 34(%rsp)
	movl	130(%rsp), %ecx
	movl	%ecx, 50(%rsp)
.LBB41_13:
	testb	%al, %al
	je	.LBB41_16
.LBB41_14:
	movq	1760(%rsp), %rax
	movw	$14, (%rax)
	movq	$0, 2(%rax)
.LBB41_15:
	addq	$1704, %rsp
	.cfi_def_cfa_offset 56
	popq	%rbx
	.cfi_def_cfa_offset 48
	popq	%r12
	.cfi_def_cfa_offset 40
	popq	%r13
	.cfi_def_cfa_offset 32
	popq	%r14
	.cfi_def_cfa_offset 24
	popq	%r15
	.cfi_def_cfa_offset 16
	popq	%rbp
	.cfi_def_cfa_offset 8
	retq
.LBB41_16:
	.cfi_def_cfa_offset 1760
	movzwl	34(%rsp), %ecx
	movzwl	36(%rsp), %esi
	movq	38(%rsp), %rdi
	movzwl	46(%rsp), %r10d
	movzwl	%r10w, %edx
	movl	48(%rsp), %r8d
	movzbl	52(%rsp), %r9d
	movzbl	53(%rsp), %eax
	jmp	.LBB41_112
.LBB41_17:
	cmpq	$1558, %r10
	movq	88(%rsp), %rbp
	movq	%rbx, %r12
	ja	.LBB41_45
	movl	%r10d, %eax
	andl	$2032, %eax
	leal	(%r10,%r10), %ecx
	andl	$4064, %ecx
	pxor	%xmm0, %xmm0
	xorl	%edx, %edx
	.p2align	4
.LBB41_19:
	movzbl	(%r15,%rdx), %esi
	movd	%esi, %xmm1
	pinsrb	$1, 2(%r15,%rdx), %xmm1
	pinsrb	$2, 4(%r15,%rdx), %xmm1
	pinsrb	$3, 6(%r15,%rdx), %xmm1
	pinsrb	$4, 8(%r15,%rdx), %xmm1
	pinsrb	$5, 10(%r15,%rdx), %xmm1
	pinsrb	$6, 12(%r15,%rdx), %xmm1
	pinsrb	$7, 14(%r15,%rdx), %xmm1
	pinsrb	$8, 16(%r15,%rdx), %xmm1
	pinsrb	$9, 18(%r15,%rdx), %xmm1
	pinsrb	$10, 20(%r15,%rdx), %xmm1
	pinsrb	$11, 22(%r15,%rdx), %xmm1
	pinsrb	$12, 24(%r15,%rdx), %xmm1
	pinsrb	$13, 26(%r15,%rdx), %xmm1
	pinsrb	$14, 28(%r15,%rdx), %xmm1
	pinsrb	$15, 30(%r15,%rdx), %xmm1
	movzbl	3(%r15,%rdx), %esi
	movzbl	1(%r15,%rdx), %edi
	movd	%edi, %xmm2
	pinsrb	$1, %esi, %xmm2
	movzbl	5(%r15,%rdx), %esi
	pinsrb	$2, %esi, %xmm2
	movzbl	7(%r15,%rdx), %esi
	pinsrb	$3, %esi, %xmm2
	movzbl	9(%r15,%rdx), %esi
	pinsrb	$4, %esi, %xmm2
	movzbl	11(%r15,%rdx), %esi
	pinsrb	$5, %esi, %xmm2
	movzbl	13(%r15,%rdx), %esi
	pinsrb	$6, %esi, %xmm2
	movzbl	15(%r15,%rdx), %esi
	pinsrb	$7, %esi, %xmm2
	movzbl	17(%r15,%rdx), %esi
	pinsrb	$8, %esi, %xmm2
	movzbl	19(%r15,%rdx), %esi
	pinsrb	$9, %esi, %xmm2
	movzbl	21(%r15,%rdx), %esi
	pinsrb	$10, %esi, %xmm2
	movzbl	23(%r15,%rdx), %esi
	pinsrb	$11, %esi, %xmm2
	movzbl	25(%r15,%rdx), %esi
	pinsrb	$12, %esi, %xmm2
	movzbl	27(%r15,%rdx), %esi
	pinsrb	$13, %esi, %xmm2
	movzbl	29(%r15,%rdx), %esi
	pinsrb	$14, %esi, %xmm2
	movzbl	31(%r15,%rdx), %esi
	pinsrb	$15, %esi, %xmm2
	pcmpeqb	.LCPI41_0(%rip), %xmm1
	pand	%xmm2, %xmm1
	pmaxub	%xmm1, %xmm0
	addq	$32, %rdx
	cmpq	%rdx, %rcx
	jne	.LBB41_19
	pcmpeqd	%xmm1, %xmm1
	pxor	%xmm1, %xmm0
	movdqa	%xmm0, %xmm1
	psrlw	$8, %xmm1
	pminub	%xmm0, %xmm1
	phminposuw	%xmm1, %xmm0
	movd	%xmm0, %edx
	notb	%dl
	cmpq	%rax, %r10
	je	.LBB41_28
	testb	$12, %r10b
	je	.LBB41_25
	movl	%r10d, %ecx
	andl	$2044, %ecx
	movzbl	%dl, %edx
	movd	%edx, %xmm0
	punpcklbw	%xmm0, %xmm0
	pshuflw	$0, %xmm0, %xmm0
	.p2align	4
.LBB41_23:
	movzbl	(%r15,%rax,2), %edx
	movd	%edx, %xmm1
	pinsrb	$1, 2(%r15,%rax,2), %xmm1
	pinsrb	$2, 4(%r15,%rax,2), %xmm1
	pinsrb	$3, 6(%r15,%rax,2), %xmm1
	movzbl	3(%r15,%rax,2), %edx
	movzbl	1(%r15,%rax,2), %esi
	movd	%esi, %xmm2
	pinsrb	$1, %edx, %xmm2
	movzbl	5(%r15,%rax,2), %edx
	pinsrb	$2, %edx, %xmm2
	movzbl	7(%r15,%rax,2), %edx
	pinsrb	$3, %edx, %xmm2
	pxor	%xmm3, %xmm3
	pblendw	$3, %xmm2, %xmm3
	pcmpeqb	.LCPI41_1(%rip), %xmm1
	pand	%xmm3, %xmm1
	pmaxub	%xmm1, %xmm0
	addq	$4, %rax
	cmpq	%rax, %rcx
	jne	.LBB41_23
	movdqa	%xmm0, %xmm1
	psrld	$16, %xmm1
	pmaxub	%xmm0, %xmm1
	movdqa	%xmm1, %xmm0
	psrlw	$8, %xmm0
	pmaxub	%xmm1, %xmm0
	movd	%xmm0, %edx
	cmpq	%rcx, %r10
	jne	.LBB41_26
	jmp	.LBB41_28
.LBB41_25:
	movq	%rax, %rcx
.LBB41_26:
	movl	%edx, %eax
	.p2align	4
.LBB41_27:
	xorl	%esi, %esi
	cmpb	$1, (%r15,%rcx,2)
	movzbl	1(%r15,%rcx,2), %edx
	cmovnel	%esi, %edx
	movzbl	%al, %eax
	cmpb	%al, %dl
	cmovbel	%eax, %edx
	incq	%rcx
	movl	%edx, %eax
	cmpq	%rcx, %r10
	jne	.LBB41_27
.LBB41_28:
	testb	%dl, %dl
	js	.LBB41_45
.LBB41_29:
	xorl	%eax, %eax
	xorl	%ecx, %ecx
	xorl	%edx, %edx
	jmp	.LBB41_32
	.p2align	4
.LBB41_30:
	movb	$-24, 146(%rsp,%rax)
	incq	%rax
	movl	$1, %esi
	movb	$1, %dl
.LBB41_31:
	addq	%rsi, %rcx
	cmpq	%r10, %rcx
	jae	.LBB41_42
.LBB41_32:
	cmpb	$1, (%r15,%rcx,2)
	jne	.LBB41_30
	movzbl	1(%r15,%rcx,2), %esi
	leaq	1(%rcx), %rdi
	cmpq	%r10, %rdi
	jae	.LBB41_38
	leal	-48(%rsi), %edi
	cmpb	$9, %dil
	ja	.LBB41_38
	cmpb	$1, 2(%r15,%rcx,2)
	jne	.LBB41_40
	movzbl	3(%r15,%rcx,2), %edi
	leal	-48(%rdi), %r8d
	cmpb	$10, %r8b
	jae	.LBB41_40
	movzbl	%sil, %esi
	addl	%esi, %esi
	leal	(%rsi,%rsi,4), %esi
	addb	%dil, %sil
	addb	$114, %sil
	movb	%sil, 146(%rsp,%rax)
	incq	%rax
	movl	$2, %esi
	jmp	.LBB41_31
	.p2align	4
.LBB41_38:
	testb	%sil, %sil
	movl	$1, %r8d
	movl	$129, %edi
	cmovnsl	%r8d, %edi
	addb	%sil, %dil
	testb	%sil, %sil
	jns	.LBB41_41
	movb	$-21, 146(%rsp,%rax)
	movb	%dil, 147(%rsp,%rax)
	addq	$2, %rax
	movl	$1, %esi
	jmp	.LBB41_31
.LBB41_40:
	incb	%sil
	movl	%esi, %edi
.LBB41_41:
	movb	%dil, 146(%rsp,%rax)
	incq	%rax
	movl	$1, %esi
	jmp	.LBB41_31
.LBB41_42:
	xorb	$1, %dl
	cmpq	$250, %r10
	movl	$3, %ecx
	sbbq	$0, %rcx
	addq	%r10, %rcx
	cmpq	%rax, %rcx
	setb	%sil
	movq	72(%rsp), %rdi
	andb	%dl, %dil
	andb	%sil, %dil
	cmpb	$1, %dil
	jne	.LBB41_73
	movb	$-25, 146(%rsp)
	cmpq	$250, %r10
	jae	.LBB41_64
	leal	44(%r10), %esi
	movl	$2, %eax
	jmp	.LBB41_65
.LBB41_45:
	xorl	%edx, %edx
	xorl	%ecx, %ecx
	xorl	%eax, %eax
	jmp	.LBB41_49
	.p2align	4
.LBB41_46:
	testb	%dil, %dil
	js	.LBB41_57
.LBB41_47:
	incq	%rax
.LBB41_48:
	movq	%rsi, %rdx
	cmpq	%r10, %rsi
	jae	.LBB41_58
.LBB41_49:
	cmpb	$1, (%r15,%rdx,2)
	jne	.LBB41_55
	movzbl	1(%r15,%rdx,2), %edi
	leaq	1(%rdx), %rsi
	cmpq	%r10, %rsi
	jae	.LBB41_46
	leal	-48(%rdi), %r8d
	cmpb	$9, %r8b
	ja	.LBB41_46
	cmpb	$1, 2(%r15,%rdx,2)
	jne	.LBB41_47
	movzbl	3(%r15,%rdx,2), %edi
	addb	$-48, %dil
	cmpb	$10, %dil
	jae	.LBB41_47
	incq	%rax
	addq	$2, %rdx
	jmp	.LBB41_56
	.p2align	4
.LBB41_55:
	incq	%rax
	incq	%rdx
	movb	$1, %cl
.LBB41_56:
	movq	%rdx, %rsi
	jmp	.LBB41_48
.LBB41_57:
	addq	$2, %rax
	jmp	.LBB41_48
.LBB41_58:
	xorb	$1, %cl
	leaq	3(%r10), %rdx
	cmpq	%rax, %rdx
	setb	%sil
	movq	72(%rsp), %rdi
	andb	%cl, %dil
	movq	%rdi, %rcx
	andb	%sil, %cl
	cmovneq	%rdx, %rax
	cmpq	$1558, %rax
	ja	.LBB41_14
	testb	%cl, %cl
	je	.LBB41_87
	movq	%rdx, %rcx
	movb	$-25, 146(%rsp)
	movq	%r10, %rax
	shrq	%rax
	movabsq	$2361183241434822607, %rdx
	mulq	%rdx
	shrq	$4, %rdx
	leal	37(%rdx), %eax
	movb	%al, 147(%rsp)
	imull	$250, %edx, %eax
	movl	%r10d, %edx
	subl	%eax, %edx
	addb	$-63, %dl
	movb	%dl, 148(%rsp)
	movq	%r10, %rax
	andq	$-2, %rax
	movl	$87, %edi
	xorl	%esi, %esi
	xorl	%edx, %edx
	.p2align	4
.LBB41_61:
	cmpb	$1, (%r15,%rdx,2)
	movzbl	1(%r15,%rdx,2), %r8d
	cmovnel	%esi, %r8d
	addl	%edi, %r8d
	movb	%r8b, 149(%rsp,%rdx)
	leal	-106(%rdi), %r8d
	leal	149(%rdi), %r9d
	cmpl	$107, %edi
	cmovael	%r8d, %r9d
	cmpb	$1, 2(%r15,%rdx,2)
	movzbl	3(%r15,%rdx,2), %edi
	cmovnel	%esi, %edi
	addl	%r9d, %edi
	movb	%dil, 150(%rsp,%rdx)
	leal	-106(%r9), %r8d
	leal	149(%r9), %edi
	cmpl	$107, %r9d
	cmovael	%r8d, %edi
	addq	$2, %rdx
	cmpq	%rdx, %rax
	jne	.LBB41_61
	testb	$1, %r10b
	movq	%rcx, %rax
	je	.LBB41_73
	xorl	%ecx, %ecx
	cmpb	$1, (%r15,%rdx,2)
	movzbl	1(%r15,%rdx,2), %esi
	cmovnel	%ecx, %esi
	addb	%sil, %dil
	movb	%dil, 149(%rsp,%rdx)
	jmp	.LBB41_73
.LBB41_64:
	movq	%r10, %rax
	shrq	%rax
	movabsq	$2361183241434822607, %rdx
	mulq	%rdx
	shrq	$4, %rdx
	leal	37(%rdx), %esi
	imull	$250, %edx, %eax
	movl	%r10d, %edx
	subl	%eax, %edx
	addb	$-63, %dl
	movb	%dl, 148(%rsp)
	movl	$3, %eax
.LBB41_65:
	movb	%sil, 147(%rsp)
	imull	$149, %eax, %edx
	leal	149(%rdx), %esi
	imull	$1029, %esi, %esi
	shrl	$18, %esi
	movl	%esi, %edi
	shll	$8, %edi
	subl	%edi, %esi
	addl	%esi, %edx
	addl	$150, %edx
	movzwl	%dx, %esi
	xorl	%edx, %edx
	cmpq	$1, %r10
	jne	.LBB41_67
	xorl	%edi, %edi
	jmp	.LBB41_71
.LBB41_67:
	movq	%r10, %r8
	andq	$-2, %r8
	leaq	146(%rsp), %rdi
	leaq	(%rax,%rdi), %r9
	incq	%r9
	xorl	%r10d, %r10d
	xorl	%edi, %edi
	.p2align	4
.LBB41_68:
	cmpb	$1, (%r15,%rdi,2)
	movzbl	1(%r15,%rdi,2), %r11d
	cmovnel	%r10d, %r11d
	addl	%esi, %r11d
	movb	%r11b, -1(%r9,%rdi)
	leal	-106(%rsi), %r11d
	leal	149(%rsi), %ebx
	cmpl	$107, %esi
	cmovael	%r11d, %ebx
	cmpb	$1, 2(%r15,%rdi,2)
	movzbl	3(%r15,%rdi,2), %esi
	cmovnel	%r10d, %esi
	addl	%ebx, %esi
	movb	%sil, (%r9,%rdi)
	leal	-106(%rbx), %r11d
	leal	149(%rbx), %esi
	cmpl	$107, %ebx
	cmovael	%r11d, %esi
	addq	$2, %rdi
	cmpq	%rdi, %r8
	jne	.LBB41_68
	testb	$1, 80(%rsp)
	je	.LBB41_72
	addq	%rdi, %rax
.LBB41_71:
	cmpb	$1, (%r15,%rdi,2)
	movzbl	1(%r15,%rdi,2), %edi
	cmovel	%edi, %edx
	addb	%dl, %sil
	movb	%sil, 146(%rsp,%rax)
.LBB41_72:
	movq	%rcx, %rax
	jmp	.LBB41_73
.LBB41_87:
	xorl	%ecx, %ecx
	xorl	%edx, %edx
	.p2align	4
.LBB41_88:
	cmpb	$1, (%r15,%rdx,2)
	jne	.LBB41_94
	movzbl	1(%r15,%rdx,2), %esi
	leaq	1(%rdx), %rdi
	cmpq	%r10, %rdi
	jae	.LBB41_95
	leal	-48(%rsi), %edi
	cmpb	$9, %dil
	ja	.LBB41_95
	cmpb	$1, 2(%r15,%rdx,2)
	jne	.LBB41_97
	movzbl	3(%r15,%rdx,2), %edi
	leal	-48(%rdi), %r8d
	cmpb	$10, %r8b
	jae	.LBB41_97
	movzbl	%sil, %esi
	addl	%esi, %esi
	leal	(%rsi,%rsi,4), %esi
	addb	%dil, %sil
	addb	$114, %sil
	movb	%sil, 146(%rsp,%rcx)
	incq	%rcx
	movl	$2, %esi
	jmp	.LBB41_101
	.p2align	4
.LBB41_94:
	movb	$-24, 146(%rsp,%rcx)
	jmp	.LBB41_99
.LBB41_95:
	testb	%sil, %sil
	movl	$1, %r8d
	movl	$129, %edi
	cmovnsl	%r8d, %edi
	addb	%sil, %dil
	testb	%sil, %sil
	jns	.LBB41_98
	movb	$-21, 146(%rsp,%rcx)
	movb	%dil, 147(%rsp,%rcx)
	addq	$2, %rcx
	jmp	.LBB41_100
.LBB41_97:
	incb	%sil
	movl	%esi, %edi
.LBB41_98:
	movb	%dil, 146(%rsp,%rcx)
.LBB41_99:
	incq	%rcx
.LBB41_100:
	movl	$1, %esi
.LBB41_101:
	addq	%rsi, %rdx
	cmpq	%r10, %rdx
	jb	.LBB41_88
.LBB41_73:
	shrq	$48, %rbp
	xorl	%r8d, %r8d
	jmp	.LBB41_76
.LBB41_74:
	cmpw	%si, %cx
	jne	.LBB41_82
	.p2align	4
.LBB41_75:
	addq	$20, %r8
	cmpq	$960, %r8
	je	.LBB41_14
.LBB41_76:
	leaq	.Lstatic.0(%rip), %r9
	movzwl	12(%r8,%r9), %edx
	cmpw	%ax, %dx
	jb	.LBB41_75
	movzwl	(%r8,%r9), %ecx
	movzwl	2(%r8,%r9), %esi
	movzwl	18(%r8,%r9), %r10d
	movzbl	%r14b, %edi
	leaq	.LJTI41_0(%rip), %r11
	movslq	(%r11,%rdi,4), %rdi
	addq	%r11, %rdi
	jmpq	*%rdi
.LBB41_78:
	cmpw	%si, %cx
	movl	%ecx, %esi
	jne	.LBB41_75
	jmp	.LBB41_82
.LBB41_79:
	xorl	%r12d, %ecx
	xorl	%ebp, %esi
	orw	%cx, %si
	jne	.LBB41_75
	jmp	.LBB41_81
.LBB41_80:
	cmpw	$1, %r10w
	setne	%dil
	cmpw	%si, %cx
	setne	%r11b
	testb	%dil, %r11b
	je	.LBB41_75
	jmp	.LBB41_82
.LBB41_81:
	movl	%r12d, %ecx
	movl	%ebp, %esi
.LBB41_82:
	movq	4(%r8,%r9), %rdi
	movl	14(%r8,%r9), %r8d
	cmpw	$1, %r10w
	sete	%r9b
	cmpq	%rdx, %rax
	jae	.LBB41_111
	movb	$-127, 146(%rsp,%rax)
	leaq	1(%rax), %r10
	cmpq	%rdx, %r10
	jae	.LBB41_111
	notq	%rax
	addq	%rdx, %rax
	cmpq	$4, %rax
	jb	.LBB41_110
	cmpq	$16, %rax
	jae	.LBB41_103
	xorl	%r11d, %r11d
	movq	%r10, %rbx
	jmp	.LBB41_107
.LBB41_103:
	movq	%rax, %r11
	andq	$-16, %r11
	leaq	(%r10,%r11), %rbx
	movd	%r10d, %xmm0
	pshufd	$0, %xmm0, %xmm1
	movdqa	.LCPI41_2(%rip), %xmm2
	paddd	%xmm1, %xmm2
	movdqa	.LCPI41_3(%rip), %xmm3
	paddd	%xmm1, %xmm3
	movdqa	.LCPI41_4(%rip), %xmm4
	paddd	%xmm1, %xmm4
	paddd	.LCPI41_5(%rip), %xmm1
	leaq	(%rsp,%r10), %r14
	addq	$146, %r14
	xorl	%r15d, %r15d
.LBB41_104:
	pcmpeqd	%xmm0, %xmm0
	movdqa	%xmm1, %xmm5
	psubd	%xmm0, %xmm5
	movdqa	%xmm4, %xmm7
	psubd	%xmm0, %xmm7
	movdqa	%xmm3, %xmm6
	psubd	%xmm0, %xmm6
	movdqa	%xmm2, %xmm8
	psubd	%xmm0, %xmm8
	pxor	%xmm0, %xmm0
	pblendw	$170, %xmm0, %xmm8
	pblendw	$170, %xmm0, %xmm6
	pblendw	$170, %xmm0, %xmm7
	pblendw	$170, %xmm0, %xmm5
	movdqa	.LCPI41_6(%rip), %xmm0
	pmulld	%xmm0, %xmm5
	pmulld	%xmm0, %xmm7
	pmulld	%xmm0, %xmm6
	pmulld	%xmm0, %xmm8
	pshufd	$245, %xmm8, %xmm9
	movdqa	.LCPI41_7(%rip), %xmm0
	pmuludq	%xmm0, %xmm9
	movdqa	%xmm8, %xmm10
	pmuludq	%xmm0, %xmm10
	pshufd	$245, %xmm10, %xmm10
	pblendw	$204, %xmm9, %xmm10
	movdqa	.LCPI41_8(%rip), %xmm9
	pmulld	%xmm9, %xmm10
	psubd	%xmm10, %xmm8
	pshufd	$245, %xmm6, %xmm10
	pmuludq	%xmm0, %xmm10
	movdqa	%xmm6, %xmm11
	pmuludq	%xmm0, %xmm11
	pshufd	$245, %xmm11, %xmm11
	pblendw	$204, %xmm10, %xmm11
	pmulld	%xmm9, %xmm11
	psubd	%xmm11, %xmm6
	pshufd	$245, %xmm7, %xmm10
	pmuludq	%xmm0, %xmm10
	movdqa	%xmm7, %xmm11
	pmuludq	%xmm0, %xmm11
	pshufd	$245, %xmm11, %xmm11
	pblendw	$204, %xmm10, %xmm11
	pmulld	%xmm9, %xmm11
	psubd	%xmm11, %xmm7
	pshufd	$245, %xmm5, %xmm10
	pmuludq	%xmm0, %xmm10
	pmuludq	%xmm5, %xmm0
	pshufd	$245, %xmm0, %xmm0
	pblendw	$204, %xmm10, %xmm0
	pmulld	%xmm9, %xmm0
	psubd	%xmm0, %xmm5
	movdqa	.LCPI41_9(%rip), %xmm9
	movdqa	%xmm9, %xmm0
	pcmpgtd	%xmm5, %xmm0
	movdqa	%xmm9, %xmm10
	pcmpgtd	%xmm7, %xmm10
	packssdw	%xmm10, %xmm0
	movdqa	%xmm9, %xmm10
	pcmpgtd	%xmm6, %xmm10
	pcmpgtd	%xmm8, %xmm9
	packssdw	%xmm9, %xmm10
	packsswb	%xmm10, %xmm0
	packusdw	%xmm7, %xmm5
	packusdw	%xmm8, %xmm6
	packuswb	%xmm6, %xmm5
	movdqa	.LCPI41_10(%rip), %xmm6
	pblendvb	%xmm0, .LCPI41_11(%rip), %xmm6
	paddb	%xmm5, %xmm6
	movdqu	%xmm6, (%r14,%r15)
	addq	$16, %r15
	movdqa	.LCPI41_12(%rip), %xmm0
	paddd	%xmm0, %xmm1
	paddd	%xmm0, %xmm4
	paddd	%xmm0, %xmm3
	paddd	%xmm0, %xmm2
	cmpq	%r15, %r11
	jne	.LBB41_104
	cmpq	%r11, %rax
	je	.LBB41_111
	testb	$12, %al
	je	.LBB41_117
.LBB41_107:
	movq	%rax, %r14
	andq	$-4, %r14
	movd	%ebx, %xmm0
	pshufd	$0, %xmm0, %xmm1
	paddd	.LCPI41_5(%rip), %xmm1
	leaq	(%rsp,%r10), %rbx
	addq	$146, %rbx
	addq	%r14, %r10
	.p2align	4
.LBB41_108:
	pcmpeqd	%xmm3, %xmm3
	movdqa	%xmm1, %xmm0
	psubd	%xmm3, %xmm0
	pxor	%xmm2, %xmm2
	pblendw	$85, %xmm0, %xmm2
	pmulld	.LCPI41_6(%rip), %xmm2
	pshufd	$245, %xmm2, %xmm0
	movdqa	.LCPI41_7(%rip), %xmm4
	pmuludq	%xmm4, %xmm0
	pmuludq	%xmm2, %xmm4
	pshufd	$245, %xmm4, %xmm4
	pblendw	$204, %xmm0, %xmm4
	pmulld	.LCPI41_8(%rip), %xmm4
	psubd	%xmm4, %xmm2
	movdqa	%xmm2, %xmm0
	pcmpgtd	.LCPI41_13(%rip), %xmm0
	packssdw	%xmm0, %xmm0
	pxor	%xmm3, %xmm0
	packsswb	%xmm0, %xmm0
	movdqa	.LCPI41_14(%rip), %xmm3
	pblendvb	%xmm0, .LCPI41_15(%rip), %xmm3
	packusdw	%xmm2, %xmm2
	packuswb	%xmm2, %xmm2
	paddb	%xmm2, %xmm3
	movd	%xmm3, (%rbx,%r11)
	addq	$4, %r11
	paddd	.LCPI41_16(%rip), %xmm1
	cmpq	%r11, %r14
	jne	.LBB41_108
	cmpq	%r14, %rax
	je	.LBB41_111
	.p2align	4
.LBB41_110:
	movq	%r10, %rax
	incq	%r10
	movzwl	%r10w, %r11d
	imull	$149, %r11d, %r11d
	imulq	$16976156, %r11, %rbx
	shrq	$32, %rbx
	imull	$253, %ebx, %ebx
	subl	%ebx, %r11d
	cmpl	$125, %r11d
	setae	%bl
	addb	%bl, %bl
	addb	%r11b, %bl
	addb	$-126, %bl
	movb	%bl, 146(%rsp,%rax)
	cmpq	%r10, %rdx
	jne	.LBB41_110
.LBB41_111:
	xorl	%eax, %eax
	movl	%edx, %r10d
.LBB41_112:
	movw	%cx, 32(%rsp)
	movw	%si, 34(%rsp)
	movq	%rdi, 36(%rsp)
	movw	%r10w, 44(%rsp)
	movl	%r8d, 46(%rsp)
	movb	%r9b, 50(%rsp)
	movb	%al, 51(%rsp)
	movzwl	%r10w, %eax
	cmpl	$817, %eax
	setb	%cl
	xorb	$3, %cl
	cmpl	$205, %eax
	movzbl	%cl, %ecx
	movl	$1, %esi
	cmovael	%ecx, %esi
	xorl	%ecx, %ecx
	cmpw	$63, %ax
	cmovael	%esi, %ecx
	movzbl	%cl, %eax
	leaq	.LJTI41_1(%rip), %rcx
	movslq	(%rcx,%rax,4), %rax
	addq	%rcx, %rax
	jmpq	*%rax
.LBB41_113:
	leaq	32(%rsp), %rdi
	leaq	146(%rsp), %rsi
	movq	1760(%rsp), %rcx
	callq	"ecc200_calls::writing::show_words::<=32,=98>"
	jmp	.LBB41_15
.LBB41_114:
	leaq	32(%rsp), %rdi
	leaq	146(%rsp), %rsi
	movq	1760(%rsp), %rcx
	callq	"ecc200_calls::writing::show_words::<=104,=1152>"
	jmp	.LBB41_15
.LBB41_115:
	leaq	32(%rsp), %rdi
	leaq	146(%rsp), %rsi
	movq	1760(%rsp), %rcx
	callq	"ecc200_calls::writing::show_words::<=144,=2178>"
	jmp	.LBB41_15
.LBB41_116:
	leaq	32(%rsp), %rdi
	leaq	146(%rsp), %rsi
	movq	1760(%rsp), %rcx
	callq	"ecc200_calls::writing::show_words::<=52,=288>"
	jmp	.LBB41_15
.LBB41_117:
	addq	%r11, %r10
	jmp	.LBB41_110
.Lfunc_end41:
	.size	"ecc200_calls::writing::write_content", .Lfunc_end41-"ecc200_calls::writing::write_content"
	.cfi_endproc
	.section	.rodata,"a",@progbits
	.p2align	2, 0x0
.LJTI41_0:
	.long	.LBB41_78-.LJTI41_0
	.long	.LBB41_80-.LJTI41_0
	.long	.LBB41_74-.LJTI41_0
	.long	.LBB41_82-.LJTI41_0
	.long	.LBB41_79-.LJTI41_0
.LJTI41_1:
	.long	.LBB41_113-.LJTI41_1
	.long	.LBB41_116-.LJTI41_1
	.long	.LBB41_114-.LJTI41_1
	.long	.LBB41_115-.LJTI41_1

	.text
	.p2align	4
	.type	"dm_words::contents::normal_form::marked_length",@function
"dm_words::contents::normal_form::marked_length":
	.cfi_startproc
	pushq	%rbp
	.cfi_def_cfa_offset 16
	pushq	%r15
	.cfi_def_cfa_offset 24
	pushq	%r14
	.cfi_def_cfa_offset 32
	pushq	%r12
	.cfi_def_cfa_offset 40
	pushq	%rbx
	.cfi_def_cfa_offset 48
	.cfi_offset %rbx, -48
	.cfi_offset %r12, -40
	.cfi_offset %r14, -32
	.cfi_offset %r15, -24
	.cfi_offset %rbp, -16
	testq	%rcx, %rcx
	je	.LBB42_1
	xorl	%r8d, %r8d
	xorl	%r10d, %r10d
	xorl	%r9d, %r9d
	jmp	.LBB42_3
	.p2align	4
.LBB42_4:
	xorl	%r10d, %r10d
.LBB42_18:
	movl	4(%rdx,%r9,8), %r11d
	cmpl	$16383, %r11d
	movl	$4, %ebx
	sbbq	$0, %rbx
	cmpl	$127, %r11d
	movl	$2, %r11d
	cmovaeq	%rbx, %r11
	addq	%r10, %r8
	addq	%r11, %r8
	incq	%r9
	movq	%rax, %r10
	cmpq	%rcx, %r9
	je	.LBB42_19
.LBB42_3:
	movzwl	(%rdx,%r9,8), %eax
	movq	%rax, %r11
	subq	%r10, %r11
	je	.LBB42_4
	leaq	(%rdi,%r10,2), %rbx
	xorl	%r14d, %r14d
	xorl	%r10d, %r10d
	jmp	.LBB42_6
	.p2align	4
.LBB42_12:
	testb	%r12b, %r12b
	js	.LBB42_14
.LBB42_13:
	incq	%r10
.LBB42_17:
	movq	%r15, %r14
	cmpq	%r11, %r15
	jae	.LBB42_18
.LBB42_6:
	cmpb	$1, (%rbx,%r14,2)
	jne	.LBB42_15
	movzbl	1(%rbx,%r14,2), %r12d
	leaq	1(%r14), %r15
	cmpq	%r11, %r15
	jae	.LBB42_12
	leal	-48(%r12), %ebp
	cmpb	$9, %bpl
	ja	.LBB42_12
	cmpb	$1, 2(%rbx,%r14,2)
	jne	.LBB42_13
	movzbl	3(%rbx,%r14,2), %ebp
	addb	$-48, %bpl
	cmpb	$10, %bpl
	jae	.LBB42_13
	incq	%r10
	addq	$2, %r14
	jmp	.LBB42_16
	.p2align	4
.LBB42_15:
	incq	%r10
	incq	%r14
.LBB42_16:
	movq	%r14, %r15
	jmp	.LBB42_17
.LBB42_14:
	addq	$2, %r10
	jmp	.LBB42_17
.LBB42_1:
	xorl	%eax, %eax
	xorl	%r8d, %r8d
.LBB42_19:
	subq	%rax, %rsi
	jne	.LBB42_21
	xorl	%eax, %eax
.LBB42_34:
	addq	%r8, %rax
	popq	%rbx
	.cfi_def_cfa_offset 40
	popq	%r12
	.cfi_def_cfa_offset 32
	popq	%r14
	.cfi_def_cfa_offset 24
	popq	%r15
	.cfi_def_cfa_offset 16
	popq	%rbp
	.cfi_def_cfa_offset 8
	retq
.LBB42_21:
	.cfi_def_cfa_offset 48
	leaq	(%rdi,%rax,2), %rcx
	xorl	%edx, %edx
	xorl	%eax, %eax
	jmp	.LBB42_22
	.p2align	4
.LBB42_28:
	testb	%r9b, %r9b
	js	.LBB42_30
.LBB42_29:
	incq	%rax
.LBB42_33:
	movq	%rdi, %rdx
	cmpq	%rsi, %rdi
	jae	.LBB42_34
.LBB42_22:
	cmpb	$1, (%rcx,%rdx,2)
	jne	.LBB42_31
	movzbl	1(%rcx,%rdx,2), %r9d
	leaq	1(%rdx), %rdi
	cmpq	%rsi, %rdi
	jae	.LBB42_28
	leal	-48(%r9), %r10d
	cmpb	$9, %r10b
	ja	.LBB42_28
	cmpb	$1, 2(%rcx,%rdx,2)
	jne	.LBB42_29
	movzbl	3(%rcx,%rdx,2), %r9d
	addb	$-48, %r9b
	cmpb	$10, %r9b
	jae	.LBB42_29
	incq	%rax
	addq	$2, %rdx
	jmp	.LBB42_32
	.p2align	4
.LBB42_31:
	incq	%rax
	incq	%rdx
.LBB42_32:
	movq	%rdx, %rdi
	jmp	.LBB42_33
.LBB42_30:
	addq	$2, %rax
	jmp	.LBB42_33
.Lfunc_end42:
	.size	"dm_words::contents::normal_form::marked_length", .Lfunc_end42-"dm_words::contents::normal_form::marked_length"
	.cfi_endproc

	.p2align	4
	.type	"dm_words::contents::normal_form::write_form",@function
"dm_words::contents::normal_form::write_form":
	.cfi_startproc
	pushq	%rbp
	.cfi_def_cfa_offset 16
	pushq	%r15
	.cfi_def_cfa_offset 24
	pushq	%r14
	.cfi_def_cfa_offset 32
	pushq	%r13
	.cfi_def_cfa_offset 40
	pushq	%r12
	.cfi_def_cfa_offset 48
	pushq	%rbx
	.cfi_def_cfa_offset 56
	subq	$56, %rsp
	.cfi_def_cfa_offset 112
	.cfi_offset %rbx, -56
	.cfi_offset %r12, -48
	.cfi_offset %r13, -40
	.cfi_offset %r14, -32
	.cfi_offset %r15, -24
	.cfi_offset %rbp, -16
	movq	%r9, %rbx
	movq	%r8, 8(%rsp)
	movq	%rcx, %rbp
	movq	%rsi, (%rsp)
	cmpb	$0, (%rdi)
	je	.LBB43_3
	cmpb	$0, 1(%rdi)
	je	.LBB43_4
	movl	2(%rdi), %ecx
	movl	%ecx, %esi
	shrl	$8, %esi
	movl	%ecx, %eax
	shlb	$4, %al
	subb	%sil, %al
	incb	%al
	shrl	$16, %ecx
	movl	$4, %r15d
	movb	$-23, %sil
	jmp	.LBB43_5
.LBB43_3:
	xorl	%eax, %eax
	xorl	%ecx, %ecx
	xorl	%esi, %esi
	xorl	%r15d, %r15d
	jmp	.LBB43_5
.LBB43_4:
	movl	$1, %r15d
	movb	$-22, %sil
	xorl	%eax, %eax
	xorl	%ecx, %ecx
.LBB43_5:
	movq	%rdx, 48(%rsp)
	movb	%sil, 16(%rsp)
	movb	%al, 17(%rsp)
	movw	%cx, 18(%rsp)
	movl	$0, 20(%rsp)
	movq	%r15, 24(%rsp)
	leaq	16(%rsp), %rsi
	movq	%rbx, %rdi
	movq	%r15, %rdx
	callq	memcpy@PLT
	cmpq	$0, 8(%rsp)
	je	.LBB43_30
	xorl	%r14d, %r14d
	xorl	%r13d, %r13d
	jmp	.LBB43_9
	.p2align	4
.LBB43_7:
	incb	%al
	movl	$1, %r12d
	xorl	%ecx, %ecx
	xorl	%edx, %edx
.LBB43_8:
	leaq	35(%rsp), %rsi
	movb	$0, 4(%rsi)
	movl	$0, (%rsi)
	movb	%al, 32(%rsp)
	movb	%cl, 33(%rsp)
	movb	%dl, 34(%rsp)
	movq	%r12, 40(%rsp)
	leaq	(%rbx,%r15), %rdi
	incq	%rdi
	leaq	32(%rsp), %rsi
	movq	%r12, %rdx
	callq	memcpy@PLT
	addq	%r12, %r15
	incq	%r15
	incq	%r13
	cmpq	8(%rsp), %r13
	je	.LBB43_31
.LBB43_9:
	movq	%r14, %rcx
	movzwl	(%rbp,%r13,8), %r14d
	movq	%r14, %rax
	subq	%rcx, %rax
	je	.LBB43_10
	movq	(%rsp), %rdx
	leaq	(%rdx,%rcx,2), %rcx
	xorl	%edx, %edx
	.p2align	4
.LBB43_14:
	cmpb	$1, (%rcx,%rdx,2)
	jne	.LBB43_20
	movzbl	1(%rcx,%rdx,2), %esi
	leaq	1(%rdx), %rdi
	cmpq	%rax, %rdi
	jae	.LBB43_21
	leal	-48(%rsi), %edi
	cmpb	$9, %dil
	ja	.LBB43_21
	cmpb	$1, 2(%rcx,%rdx,2)
	jne	.LBB43_23
	movzbl	3(%rcx,%rdx,2), %edi
	leal	-48(%rdi), %r8d
	cmpb	$10, %r8b
	jae	.LBB43_23
	movzbl	%sil, %esi
	addl	%esi, %esi
	leal	(%rsi,%rsi,4), %esi
	addb	%dil, %sil
	addb	$114, %sil
	movb	%sil, (%rbx,%r15)
	incq	%r15
	movl	$2, %esi
	jmp	.LBB43_27
	.p2align	4
.LBB43_20:
	movb	$-24, (%rbx,%r15)
	jmp	.LBB43_25
	.p2align	4
.LBB43_21:
	testb	%sil, %sil
	movl	$1, %r8d
	movl	$129, %edi
	cmovnsl	%r8d, %edi
	addb	%sil, %dil
	testb	%sil, %sil
	jns	.LBB43_24
	movb	$-21, (%rbx,%r15)
	movb	%dil, 1(%rbx,%r15)
	addq	$2, %r15
	jmp	.LBB43_26
.LBB43_23:
	incb	%sil
	movl	%esi, %edi
.LBB43_24:
	movb	%dil, (%rbx,%r15)
.LBB43_25:
	incq	%r15
.LBB43_26:
	movl	$1, %esi
.LBB43_27:
	addq	%rsi, %rdx
	cmpq	%rax, %rdx
	jb	.LBB43_14
.LBB43_10:
	movl	4(%rbp,%r13,8), %eax
	movb	$-15, (%rbx,%r15)
	cmpl	$126, %eax
	jbe	.LBB43_7
	cmpl	$16382, %eax
	ja	.LBB43_29
	leal	-127(%rax), %ecx
	movzwl	%cx, %ecx
	shrl	%ecx
	imull	$33027, %ecx, %edx
	shrl	$22, %edx
	leal	(%rax,%rdx,2), %ecx
	addl	$-127, %ecx
	leal	-128(%rdx), %eax
	incb	%cl
	movl	$2, %r12d
	xorl	%edx, %edx
	jmp	.LBB43_8
	.p2align	4
.LBB43_29:
	leal	-16383(%rax), %edx
	movl	%edx, %ecx
	shrl	$2, %ecx
	shrl	%edx
	movl	$2164392969, %esi
	imulq	%rdx, %rsi
	shrq	$38, %rsi
	leal	(%rax,%rsi,2), %edx
	addl	$-16383, %edx
	imulq	$1090717717, %rcx, %rax
	shrq	$44, %rax
	addb	$-64, %al
	imulq	$33818641, %rsi, %rcx
	shrq	$32, %rcx
	andl	$254, %ecx
	addl	%esi, %ecx
	incb	%cl
	incb	%dl
	movl	$3, %r12d
	jmp	.LBB43_8
.LBB43_30:
	xorl	%r14d, %r14d
.LBB43_31:
	movq	48(%rsp), %r8
	subq	%r14, %r8
	je	.LBB43_32
	movq	(%rsp), %rax
	leaq	(%rax,%r14,2), %rax
	xorl	%ecx, %ecx
	.p2align	4
.LBB43_34:
	cmpb	$1, (%rax,%rcx,2)
	jne	.LBB43_40
	movzbl	1(%rax,%rcx,2), %edx
	leaq	1(%rcx), %rsi
	cmpq	%r8, %rsi
	jae	.LBB43_41
	leal	-48(%rdx), %esi
	cmpb	$9, %sil
	ja	.LBB43_41
	cmpb	$1, 2(%rax,%rcx,2)
	jne	.LBB43_43
	movzbl	3(%rax,%rcx,2), %esi
	leal	-48(%rsi), %edi
	cmpb	$10, %dil
	jae	.LBB43_43
	movzbl	%dl, %edx
	addl	%edx, %edx
	leal	(%rdx,%rdx,4), %edx
	addb	%sil, %dl
	addb	$114, %dl
	movb	%dl, (%rbx,%r15)
	incq	%r15
	movl	$2, %edx
	jmp	.LBB43_47
	.p2align	4
.LBB43_40:
	movb	$-24, (%rbx,%r15)
	jmp	.LBB43_45
	.p2align	4
.LBB43_41:
	testb	%dl, %dl
	movl	$1, %edi
	movl	$129, %esi
	cmovnsl	%edi, %esi
	addb	%dl, %sil
	testb	%dl, %dl
	jns	.LBB43_44
	movb	$-21, (%rbx,%r15)
	movb	%sil, 1(%rbx,%r15)
	addq	$2, %r15
	jmp	.LBB43_46
.LBB43_43:
	incb	%dl
	movl	%edx, %esi
.LBB43_44:
	movb	%sil, (%rbx,%r15)
.LBB43_45:
	incq	%r15
.LBB43_46:
	movl	$1, %edx
.LBB43_47:
	addq	%rdx, %rcx
	cmpq	%r8, %rcx
	jb	.LBB43_34
.LBB43_32:
	movq	%r15, %rax
	addq	$56, %rsp
	.cfi_def_cfa_offset 56
	popq	%rbx
	.cfi_def_cfa_offset 48
	popq	%r12
	.cfi_def_cfa_offset 40
	popq	%r13
	.cfi_def_cfa_offset 32
	popq	%r14
	.cfi_def_cfa_offset 24
	popq	%r15
	.cfi_def_cfa_offset 16
	popq	%rbp
	.cfi_def_cfa_offset 8
	retq
.Lfunc_end43:
	.size	"dm_words::contents::normal_form::write_form", .Lfunc_end43-"dm_words::contents::normal_form::write_form"
	.cfi_endproc

	.p2align	4
	.type	"dm_words::smallest::smallest_in::<=64,=31>",@function
"dm_words::smallest::smallest_in::<=64,=31>":
	.cfi_startproc
	pushq	%rbp
	.cfi_def_cfa_offset 16
	pushq	%rbx
	.cfi_def_cfa_offset 24
	subq	$376, %rsp
	.cfi_def_cfa_offset 400
	.cfi_offset %rbx, -24
	.cfi_offset %rbp, -16
	movq	%rdi, %rbx
	movq	416(%rsp), %rdi
	movq	400(%rsp), %rax
	movq	408(%rsp), %r11
	movzbl	(%rdx), %r10d
	movb	%r10b, 42(%rsp)
	movzbl	1(%rdx), %ebp
	movb	%bpl, 43(%rsp)
	movl	2(%rdx), %edx
	movl	%edx, 44(%rsp)
	movzbl	(%r11), %edx
	movw	%dx, 36(%rsp)
	movl	2(%r11), %edx
	movl	%edx, 38(%rsp)
	xorps	%xmm0, %xmm0
	movaps	%xmm0, 80(%rsp)
	movq	$0, 94(%rsp)
	movaps	%xmm0, 48(%rsp)
	movq	$0, 62(%rsp)
	movaps	%xmm0, 176(%rsp)
	movaps	%xmm0, 192(%rsp)
	movaps	%xmm0, 208(%rsp)
	movaps	%xmm0, 224(%rsp)
	movaps	%xmm0, 240(%rsp)
	movaps	%xmm0, 256(%rsp)
	movaps	%xmm0, 272(%rsp)
	movaps	%xmm0, 288(%rsp)
	movaps	%xmm0, 304(%rsp)
	movaps	%xmm0, 320(%rsp)
	movaps	%xmm0, 336(%rsp)
	movaps	%xmm0, 352(%rsp)
	movups	%xmm0, 158(%rsp)
	movaps	%xmm0, 144(%rsp)
	movaps	%xmm0, 128(%rsp)
	movaps	%xmm0, 112(%rsp)
	testb	%r10b, %r10b
	sete	%dl
	testq	%rax, %rax
	sete	%r10b
	testb	%dl, %r10b
	je	.LBB44_2
	movq	%rdi, (%rsp)
	movzbl	%sil, %esi
	leaq	80(%rsp), %rdi
	leaq	36(%rsp), %rax
	leaq	176(%rsp), %r9
	movq	%rcx, %rdx
	movq	%r8, %rcx
	movq	%rax, %r8
	callq	"dm_words::smallest::smallest_items_to"
	movzbl	80(%rsp), %eax
	movb	%al, (%rbx)
	movups	82(%rsp), %xmm0
	movups	%xmm0, 2(%rbx)
	movl	98(%rsp), %eax
	jmp	.LBB44_6
.LBB44_2:
	testb	%sil, %sil
	je	.LBB44_3
	movq	%rdi, 24(%rsp)
	leaq	176(%rsp), %rdx
	movq	%rdx, 16(%rsp)
	leaq	112(%rsp), %rdx
	movq	%rdx, 8(%rsp)
	leaq	36(%rsp), %rdx
	movq	%rdx, (%rsp)
	leaq	48(%rsp), %rdi
	leaq	42(%rsp), %rsi
	movq	%rcx, %rdx
	movq	%r8, %rcx
	movq	%r9, %r8
	movq	%rax, %r9
	callq	"dm_words::smallest::contents::smallest_marked_to"
	movzbl	48(%rsp), %eax
	jmp	.LBB44_5
.LBB44_3:
	movb	$1, %al
.LBB44_5:
	movb	%al, (%rbx)
	movups	50(%rsp), %xmm0
	movups	%xmm0, 2(%rbx)
	movl	66(%rsp), %eax
.LBB44_6:
	movl	%eax, 18(%rbx)
	addq	$376, %rsp
	.cfi_def_cfa_offset 24
	popq	%rbx
	.cfi_def_cfa_offset 16
	popq	%rbp
	.cfi_def_cfa_offset 8
	retq
.Lfunc_end44:
	.size	"dm_words::smallest::smallest_in::<=64,=31>", .Lfunc_end44-"dm_words::smallest::smallest_in::<=64,=31>"
	.cfi_endproc

	.section	.rodata.cst16,"aM",@progbits,16
	.p2align	4, 0x0
.LCPI45_0:
	.long	12
	.long	13
	.long	14
	.long	15
.LCPI45_1:
	.long	8
	.long	9
	.long	10
	.long	11
.LCPI45_2:
	.long	4
	.long	5
	.long	6
	.long	7
.LCPI45_3:
	.long	0
	.long	1
	.long	2
	.long	3
.LCPI45_4:
	.long	149
	.long	149
	.long	149
	.long	149
.LCPI45_5:
	.long	16976156
	.long	16976156
	.long	16976156
	.long	16976156
.LCPI45_6:
	.long	253
	.long	253
	.long	253
	.long	253
.LCPI45_7:
	.long	125
	.long	125
	.long	125
	.long	125
.LCPI45_8:
	.zero	16,132
.LCPI45_9:
	.zero	16,130
.LCPI45_10:
	.long	16
	.long	16
	.long	16
	.long	16
.LCPI45_11:
	.long	124
	.long	124
	.long	124
	.long	124
.LCPI45_12:
	.byte	132
	.byte	132
	.byte	132
	.byte	132
	.zero	1
	.zero	1
	.zero	1
	.zero	1
	.zero	1
	.zero	1
	.zero	1
	.zero	1
	.zero	1
	.zero	1
	.zero	1
	.zero	1
.LCPI45_13:
	.byte	130
	.byte	130
	.byte	130
	.byte	130
	.zero	1
	.zero	1
	.zero	1
	.zero	1
	.zero	1
	.zero	1
	.zero	1
	.zero	1
	.zero	1
	.zero	1
	.zero	1
	.zero	1
.LCPI45_14:
	.long	4
	.long	4
	.long	4
	.long	4
	.text
	.p2align	4
	.type	"dm_words::smallest::smallest_items_to",@function
"dm_words::smallest::smallest_items_to":
	.cfi_startproc
	pushq	%rbp
	.cfi_def_cfa_offset 16
	pushq	%r15
	.cfi_def_cfa_offset 24
	pushq	%r14
	.cfi_def_cfa_offset 32
	pushq	%r13
	.cfi_def_cfa_offset 40
	pushq	%r12
	.cfi_def_cfa_offset 48
	pushq	%rbx
	.cfi_def_cfa_offset 56
	subq	$56, %rsp
	.cfi_def_cfa_offset 112
	.cfi_offset %rbx, -56
	.cfi_offset %r12, -48
	.cfi_offset %r13, -40
	.cfi_offset %r14, -32
	.cfi_offset %r15, -24
	.cfi_offset %rbp, -16
	movq	%r9, %rbp
	movq	%rcx, %r12
	movq	%rdx, %r13
	movl	%esi, %r15d
	movq	%rdi, 40(%rsp)
	movzbl	(%r8), %ebx
	movzwl	2(%r8), %eax
	movl	%eax, 32(%rsp)
	movzwl	4(%r8), %eax
	movl	%eax, 8(%rsp)
	movl	%esi, %edi
	xorl	%esi, %esi
	movq	%r9, %r8
	callq	"dm_words::smallest::plan::plan_to"
	movl	%eax, %r14d
	movw	%dx, 20(%rsp)
	testb	%r15b, %r15b
	je	.LBB45_5
	movq	%r13, %rdi
	movq	%r12, %rsi
	movl	$53, %edx
	callq	"dm_words::macros::is_framed"
	movb	$-20, %cl
	testb	%al, %al
	jne	.LBB45_3
	movq	%r13, %rdi
	movq	%r12, %rsi
	movl	$54, %edx
	callq	"dm_words::macros::is_framed"
	movb	$-19, %cl
	testb	%al, %al
	je	.LBB45_5
.LBB45_3:
	movl	%ecx, (%rsp)
	leaq	14(%r13), %rdx
	leaq	-9(%r12), %rcx
	movzbl	%r15b, %r15d
	movl	$0, 4(%rsp)
	movl	%r15d, %edi
	xorl	%esi, %esi
	movq	%rbp, %r8
	callq	"dm_words::smallest::plan::plan_to"
	incl	%eax
	cmpw	%r14w, %ax
	jbe	.LBB45_7
	movl	$0, (%rsp)
	movl	%r15d, %edi
	xorl	%esi, %esi
	movq	%r13, %rdx
	movq	%r12, %rcx
	movq	%rbp, %r8
	callq	"dm_words::smallest::plan::plan_to"
	jmp	.LBB45_6
.LBB45_5:
	movl	$0, (%rsp)
.LBB45_6:
	movb	$1, %al
	movl	%eax, 4(%rsp)
	movl	%r14d, %eax
.LBB45_7:
	movq	%rbp, %r10
	movq	112(%rsp), %rcx
	xorl	%r9d, %r9d
	movl	32(%rsp), %r11d
	jmp	.LBB45_10
.LBB45_8:
	cmpw	%bp, %r15w
	jne	.LBB45_17
	.p2align	4
.LBB45_9:
	addq	$20, %r9
	cmpq	$960, %r9
	je	.LBB45_15
.LBB45_10:
	leaq	.Lstatic.0(%rip), %rdx
	movzwl	12(%r9,%rdx), %r14d
	cmpw	%r14w, %ax
	ja	.LBB45_9
	movzwl	(%r9,%rdx), %r15d
	movzwl	2(%r9,%rdx), %ebp
	movzwl	18(%r9,%rdx), %esi
	movl	%ebx, %edi
	leaq	.LJTI45_0(%rip), %r8
	movslq	(%r8,%rdi,4), %rdi
	addq	%r8, %rdi
	jmpq	*%rdi
.LBB45_12:
	cmpw	%bp, %r15w
	movl	%r15d, %ebp
	jne	.LBB45_9
	jmp	.LBB45_17
.LBB45_13:
	xorl	%r11d, %r15d
	xorl	8(%rsp), %ebp
	orw	%r15w, %bp
	jne	.LBB45_9
	jmp	.LBB45_16
.LBB45_14:
	cmpw	$1, %si
	setne	%dil
	cmpw	%bp, %r15w
	setne	%r8b
	testb	%dil, %r8b
	je	.LBB45_9
	jmp	.LBB45_17
.LBB45_15:
	movb	$1, %al
	xorl	%r15d, %r15d
	xorl	%ebp, %ebp
	xorl	%r10d, %r10d
	xorl	%r14d, %r14d
	xorl	%r11d, %r11d
	xorl	%ecx, %ecx
	movq	40(%rsp), %rbx
	jmp	.LBB45_56
.LBB45_16:
	movl	%r11d, %r15d
	movl	8(%rsp), %ebp
.LBB45_17:
	movq	4(%r9,%rdx), %rdi
	movl	14(%r9,%rdx), %r11d
	cmpw	$1, %si
	sete	%al
	movq	%rax, 8(%rsp)
	cmpw	20(%rsp), %r14w
	jae	.LBB45_20
	movl	%r11d, 20(%rsp)
	movq	%rdi, 32(%rsp)
	movq	$0, 24(%rsp)
	cmpb	$0, 4(%rsp)
	movq	40(%rsp), %rbx
	movq	%r10, 48(%rsp)
	je	.LBB45_37
	leaq	24(%rsp), %r9
	movq	%r13, %rdi
	movq	%r12, %rsi
	movq	%r10, %rdx
	movq	%r14, %r8
	callq	"dm_words::smallest::parts::write_parts"
	leaq	(%r14,%r14), %rcx
	cmpq	%r12, %rcx
	setb	%cl
	orb	%al, %cl
	je	.LBB45_38
	jmp	.LBB45_40
.LBB45_20:
	movq	%rdi, %r10
	testq	%r12, %r12
	movq	40(%rsp), %rbx
	je	.LBB45_41
	xorl	%eax, %eax
	xorl	%r8d, %r8d
	.p2align	4
.LBB45_22:
	cmpb	$1, (%r13,%r8,2)
	jne	.LBB45_28
	movzbl	1(%r13,%r8,2), %edx
	leaq	1(%r8), %rsi
	cmpq	%r12, %rsi
	jae	.LBB45_29
	leal	-48(%rdx), %esi
	cmpb	$9, %sil
	ja	.LBB45_29
	cmpb	$1, 2(%r13,%r8,2)
	jne	.LBB45_31
	movzbl	3(%r13,%r8,2), %esi
	leal	-48(%rsi), %edi
	cmpb	$10, %dil
	jae	.LBB45_31
	movzbl	%dl, %edx
	addl	%edx, %edx
	leal	(%rdx,%rdx,4), %edx
	addb	%sil, %dl
	addb	$114, %dl
	movb	%dl, (%rcx,%rax)
	incq	%rax
	movl	$2, %edx
	jmp	.LBB45_35
	.p2align	4
.LBB45_28:
	movb	$-24, (%rcx,%rax)
	jmp	.LBB45_33
	.p2align	4
.LBB45_29:
	testb	%dl, %dl
	movl	$1, %edi
	movl	$129, %esi
	cmovnsl	%edi, %esi
	addb	%dl, %sil
	testb	%dl, %dl
	jns	.LBB45_32
	movb	$-21, (%rcx,%rax)
	movb	%sil, 1(%rcx,%rax)
	addq	$2, %rax
	jmp	.LBB45_34
.LBB45_31:
	incb	%dl
	movl	%edx, %esi
.LBB45_32:
	movb	%sil, (%rcx,%rax)
.LBB45_33:
	incq	%rax
.LBB45_34:
	movl	$1, %edx
.LBB45_35:
	addq	%rdx, %r8
	cmpq	%r12, %r8
	jb	.LBB45_22
	jmp	.LBB45_42
.LBB45_37:
	movl	(%rsp), %eax
	movb	%al, (%rcx)
	movq	$1, 24(%rsp)
	leaq	14(%r13), %rdi
	leaq	-9(%r12), %rsi
	leaq	24(%rsp), %r9
	movq	%r10, %rdx
	movq	%r14, %r8
	callq	"dm_words::smallest::parts::write_parts"
	leal	(%r14,%r14), %eax
	cmpq	%r12, %rax
	jb	.LBB45_40
.LBB45_38:
	xorl	%edi, %edi
	xorl	%esi, %esi
	movq	%r13, %rdx
	movq	%r12, %rcx
	movq	48(%rsp), %r8
	callq	"dm_words::smallest::plan::plan_to"
	cmpw	%ax, %r14w
	jb	.LBB45_40
	movq	$0, 24(%rsp)
	leaq	24(%rsp), %r9
	movq	%r13, %rdi
	movq	%r12, %rsi
	movq	48(%rsp), %rdx
	movq	112(%rsp), %rcx
	movq	%r14, %r8
	callq	"dm_words::smallest::parts::write_parts"
.LBB45_40:
	movq	24(%rsp), %rax
	movq	112(%rsp), %rcx
	movq	32(%rsp), %r10
	movl	20(%rsp), %r11d
	jmp	.LBB45_42
.LBB45_41:
	xorl	%eax, %eax
.LBB45_42:
	cmpq	%r14, %rax
	jae	.LBB45_55
	movb	$-127, (%rcx,%rax)
	leaq	1(%rax), %r9
	cmpq	%r14, %r9
	jae	.LBB45_55
	notq	%rax
	addq	%r14, %rax
	cmpq	$4, %rax
	jb	.LBB45_54
	cmpq	$16, %rax
	jae	.LBB45_47
	xorl	%edx, %edx
	movq	%r9, %rsi
	jmp	.LBB45_51
.LBB45_47:
	movq	%rax, %rdx
	andq	$-16, %rdx
	leaq	(%r9,%rdx), %rsi
	movd	%r9d, %xmm0
	pshufd	$0, %xmm0, %xmm1
	movdqa	.LCPI45_0(%rip), %xmm2
	paddd	%xmm1, %xmm2
	movdqa	.LCPI45_1(%rip), %xmm3
	paddd	%xmm1, %xmm3
	movdqa	.LCPI45_2(%rip), %xmm4
	paddd	%xmm1, %xmm4
	paddd	.LCPI45_3(%rip), %xmm1
	leaq	(%rcx,%r9), %rdi
	xorl	%r8d, %r8d
	.p2align	4
.LBB45_48:
	pcmpeqd	%xmm0, %xmm0
	movdqa	%xmm1, %xmm5
	psubd	%xmm0, %xmm5
	movdqa	%xmm4, %xmm7
	psubd	%xmm0, %xmm7
	movdqa	%xmm3, %xmm6
	psubd	%xmm0, %xmm6
	movdqa	%xmm2, %xmm8
	psubd	%xmm0, %xmm8
	pxor	%xmm0, %xmm0
	pblendw	$170, %xmm0, %xmm8
	pblendw	$170, %xmm0, %xmm6
	pblendw	$170, %xmm0, %xmm7
	pblendw	$170, %xmm0, %xmm5
	movdqa	.LCPI45_4(%rip), %xmm0
	pmulld	%xmm0, %xmm5
	pmulld	%xmm0, %xmm7
	pmulld	%xmm0, %xmm6
	pmulld	%xmm0, %xmm8
	pshufd	$245, %xmm8, %xmm9
	movdqa	.LCPI45_5(%rip), %xmm0
	pmuludq	%xmm0, %xmm9
	movdqa	%xmm8, %xmm10
	pmuludq	%xmm0, %xmm10
	pshufd	$245, %xmm10, %xmm10
	pblendw	$204, %xmm9, %xmm10
	movdqa	.LCPI45_6(%rip), %xmm9
	pmulld	%xmm9, %xmm10
	psubd	%xmm10, %xmm8
	pshufd	$245, %xmm6, %xmm10
	pmuludq	%xmm0, %xmm10
	movdqa	%xmm6, %xmm11
	pmuludq	%xmm0, %xmm11
	pshufd	$245, %xmm11, %xmm11
	pblendw	$204, %xmm10, %xmm11
	pmulld	%xmm9, %xmm11
	psubd	%xmm11, %xmm6
	pshufd	$245, %xmm7, %xmm10
	pmuludq	%xmm0, %xmm10
	movdqa	%xmm7, %xmm11
	pmuludq	%xmm0, %xmm11
	pshufd	$245, %xmm11, %xmm11
	pblendw	$204, %xmm10, %xmm11
	pmulld	%xmm9, %xmm11
	psubd	%xmm11, %xmm7
	pshufd	$245, %xmm5, %xmm10
	pmuludq	%xmm0, %xmm10
	pmuludq	%xmm5, %xmm0
	pshufd	$245, %xmm0, %xmm0
	pblendw	$204, %xmm10, %xmm0
	pmulld	%xmm9, %xmm0
	psubd	%xmm0, %xmm5
	movdqa	.LCPI45_7(%rip), %xmm9
	movdqa	%xmm9, %xmm0
	pcmpgtd	%xmm5, %xmm0
	movdqa	%xmm9, %xmm10
	pcmpgtd	%xmm7, %xmm10
	packssdw	%xmm10, %xmm0
	movdqa	%xmm9, %xmm10
	pcmpgtd	%xmm6, %xmm10
	pcmpgtd	%xmm8, %xmm9
	packssdw	%xmm9, %xmm10
	packsswb	%xmm10, %xmm0
	packusdw	%xmm7, %xmm5
	packusdw	%xmm8, %xmm6
	packuswb	%xmm6, %xmm5
	movdqa	.LCPI45_8(%rip), %xmm6
	pblendvb	%xmm0, .LCPI45_9(%rip), %xmm6
	paddb	%xmm5, %xmm6
	movdqu	%xmm6, (%rdi,%r8)
	addq	$16, %r8
	movdqa	.LCPI45_10(%rip), %xmm0
	paddd	%xmm0, %xmm1
	paddd	%xmm0, %xmm4
	paddd	%xmm0, %xmm3
	paddd	%xmm0, %xmm2
	cmpq	%r8, %rdx
	jne	.LBB45_48
	cmpq	%rdx, %rax
	je	.LBB45_55
	testb	$12, %al
	je	.LBB45_57
.LBB45_51:
	movq	%rax, %rdi
	andq	$-4, %rdi
	movd	%esi, %xmm0
	pshufd	$0, %xmm0, %xmm1
	paddd	.LCPI45_3(%rip), %xmm1
	leaq	(%rcx,%r9), %rsi
	addq	%rdi, %r9
	.p2align	4
.LBB45_52:
	pcmpeqd	%xmm3, %xmm3
	movdqa	%xmm1, %xmm0
	psubd	%xmm3, %xmm0
	pxor	%xmm2, %xmm2
	pblendw	$85, %xmm0, %xmm2
	pmulld	.LCPI45_4(%rip), %xmm2
	pshufd	$245, %xmm2, %xmm0
	movdqa	.LCPI45_5(%rip), %xmm4
	pmuludq	%xmm4, %xmm0
	pmuludq	%xmm2, %xmm4
	pshufd	$245, %xmm4, %xmm4
	pblendw	$204, %xmm0, %xmm4
	pmulld	.LCPI45_6(%rip), %xmm4
	psubd	%xmm4, %xmm2
	movdqa	%xmm2, %xmm0
	pcmpgtd	.LCPI45_11(%rip), %xmm0
	packssdw	%xmm0, %xmm0
	pxor	%xmm3, %xmm0
	packsswb	%xmm0, %xmm0
	movdqa	.LCPI45_12(%rip), %xmm3
	pblendvb	%xmm0, .LCPI45_13(%rip), %xmm3
	packusdw	%xmm2, %xmm2
	packuswb	%xmm2, %xmm2
	paddb	%xmm2, %xmm3
	movd	%xmm3, (%rsi,%rdx)
	addq	$4, %rdx
	paddd	.LCPI45_14(%rip), %xmm1
	cmpq	%rdx, %rdi
	jne	.LBB45_52
	cmpq	%rdi, %rax
	je	.LBB45_55
	.p2align	4
.LBB45_54:
	movq	%r9, %rax
	incq	%r9
	movzwl	%r9w, %edx
	imull	$149, %edx, %edx
	imulq	$16976156, %rdx, %rsi
	shrq	$32, %rsi
	imull	$253, %esi, %esi
	subl	%esi, %edx
	cmpl	$125, %edx
	setae	%sil
	addb	%sil, %sil
	addb	%dl, %sil
	addb	$-126, %sil
	movb	%sil, (%rcx,%rax)
	cmpq	%r9, %r14
	jne	.LBB45_54
.LBB45_55:
	xorl	%eax, %eax
	movq	8(%rsp), %rcx
.LBB45_56:
	movb	%al, (%rbx)
	movw	%r15w, 2(%rbx)
	movw	%bp, 4(%rbx)
	movq	%r10, 6(%rbx)
	movw	%r14w, 14(%rbx)
	movl	%r11d, 16(%rbx)
	movb	%cl, 20(%rbx)
	movb	$0, 21(%rbx)
	addq	$56, %rsp
	.cfi_def_cfa_offset 56
	popq	%rbx
	.cfi_def_cfa_offset 48
	popq	%r12
	.cfi_def_cfa_offset 40
	popq	%r13
	.cfi_def_cfa_offset 32
	popq	%r14
	.cfi_def_cfa_offset 24
	popq	%r15
	.cfi_def_cfa_offset 16
	popq	%rbp
	.cfi_def_cfa_offset 8
	retq
.LBB45_57:
	.cfi_def_cfa_offset 112
	addq	%rdx, %r9
	jmp	.LBB45_54
.Lfunc_end45:
	.size	"dm_words::smallest::smallest_items_to", .Lfunc_end45-"dm_words::smallest::smallest_items_to"
	.cfi_endproc
	.section	.rodata,"a",@progbits
	.p2align	2, 0x0
.LJTI45_0:
	.long	.LBB45_12-.LJTI45_0
	.long	.LBB45_14-.LJTI45_0
	.long	.LBB45_8-.LJTI45_0
	.long	.LBB45_17-.LJTI45_0
	.long	.LBB45_13-.LJTI45_0

	.section	.rodata.cst16,"aM",@progbits,16
	.p2align	4, 0x0
.LCPI46_0:
	.short	16384
	.short	16384
	.short	16384
	.short	16384
	.short	16384
	.short	16384
	.short	16384
	.zero	2
.LCPI46_1:
	.short	1
	.short	0
	.short	0
	.short	2
	.short	0
	.short	0
	.short	65535
	.short	0
.LCPI46_2:
	.short	1
	.short	0
	.short	0
	.short	1
	.short	0
	.short	0
	.short	65535
	.short	0
.LCPI46_3:
	.short	16384
	.short	16384
	.short	16384
	.short	16384
	.short	16384
	.short	16384
	.short	16384
	.short	0
.LCPI46_4:
	.short	2
	.short	2
	.short	2
	.short	2
	.short	2
	.short	2
	.short	1
	.short	1
.LCPI46_5:
	.short	2
	.short	4
	.short	2
	.short	2
	.short	4
	.short	2
	.short	1
	.short	1
.LCPI46_6:
	.byte	2
	.byte	3
	.byte	4
	.byte	5
	.byte	0
	.byte	1
	.byte	8
	.byte	9
	.byte	10
	.byte	11
	.byte	6
	.byte	7
	.byte	12
	.byte	13
	.byte	14
	.byte	15
.LCPI46_7:
	.short	1
	.short	1
	.short	1
	.short	2
	.short	2
	.short	2
	.short	0
	.short	0
.LCPI46_8:
	.short	0
	.short	2
	.short	0
	.short	0
	.short	2
	.short	0
	.short	1
	.short	1
.LCPI46_9:
	.short	0
	.short	2
	.short	2
	.short	0
	.short	2
	.short	2
	.short	1
	.short	1
.LCPI46_10:
	.byte	4
	.byte	5
	.byte	0
	.byte	1
	.byte	2
	.byte	3
	.byte	10
	.byte	11
	.byte	6
	.byte	7
	.byte	8
	.byte	9
	.byte	12
	.byte	13
	.byte	14
	.byte	15
.LCPI46_11:
	.short	0
	.short	2
	.short	0
	.short	0
	.short	1
	.short	1
	.short	1
	.short	0
.LCPI46_12:
	.byte	2
	.byte	3
	.byte	4
	.byte	5
	.byte	0
	.byte	1
	.byte	8
	.byte	9
	.byte	10
	.byte	11
	.byte	12
	.byte	13
	.byte	6
	.byte	7
	.byte	14
	.byte	15
.LCPI46_13:
	.short	4
	.short	4
	.short	4
	.short	8
	.short	8
	.short	8
	.short	8
	.short	0
.LCPI46_14:
	.byte	4
	.byte	5
	.byte	0
	.byte	1
	.byte	2
	.byte	3
	.byte	10
	.byte	11
	.byte	6
	.byte	7
	.byte	8
	.byte	9
	.zero	1
	.zero	1
	.zero	1
	.zero	1
.LCPI46_15:
	.short	16384
	.short	16384
	.short	16384
	.short	16384
	.short	16384
	.short	16384
	.short	16384
	.short	16384
.LCPI46_16:
	.short	2
	.short	0
	.short	2
	.short	2
	.short	0
	.short	2
	.short	0
	.short	0
.LCPI46_17:
	.zero	2
	.zero	2
	.short	1
	.short	1
	.short	1
	.short	1
	.short	2
	.short	2
.LCPI46_18:
	.zero	2
	.zero	2
	.short	1
	.short	1
	.short	1
	.short	1
	.short	3
	.short	2
.LCPI46_19:
	.byte	14
	.byte	15
	.byte	14
	.byte	15
	.byte	0
	.byte	1
	.byte	6
	.byte	7
	.zero	1
	.zero	1
	.zero	1
	.zero	1
	.zero	1
	.zero	1
	.zero	1
	.zero	1
	.text
	.p2align	4
	.type	"dm_words::smallest::plan::plan_to",@function
"dm_words::smallest::plan::plan_to":
	.cfi_startproc
	movl	%esi, %eax
	xorl	%esi, %esi
	testw	%ax, %ax
	setne	%sil
	shll	$14, %esi
	movdqa	.LCPI46_0(%rip), %xmm2
	pinsrw	$7, %esi, %xmm2
	movd	%eax, %xmm0
	pshuflw	$0, %xmm0, %xmm0
	pshufd	$68, %xmm0, %xmm1
	movdqa	.LCPI46_1(%rip), %xmm0
	pminuw	%xmm1, %xmm0
	pcmpeqw	%xmm1, %xmm0
	paddw	%xmm1, %xmm0
	pcmpeqd	%xmm3, %xmm3
	psubw	%xmm3, %xmm0
	pblendw	$182, %xmm3, %xmm0
	movdqa	.LCPI46_2(%rip), %xmm4
	pminuw	%xmm1, %xmm4
	pcmpeqw	%xmm1, %xmm4
	paddw	%xmm1, %xmm4
	psubw	%xmm3, %xmm4
	pblendw	$182, %xmm3, %xmm4
	pminuw	%xmm4, %xmm2
	pcmpeqw	%xmm2, %xmm4
	packsswb	%xmm4, %xmm4
	pmovmskb	%xmm4, %r9d
	movdqa	.LCPI46_3(%rip), %xmm1
	pminuw	%xmm0, %xmm1
	pcmpeqw	%xmm1, %xmm0
	packsswb	%xmm0, %xmm0
	pmovmskb	%xmm0, %r10d
	leaq	(%rcx,%rcx,2), %rsi
	movb	$0, (%r8,%rsi)
	movb	%r9b, 1(%r8,%rsi)
	movb	%r10b, 2(%r8,%rsi)
	testq	%rcx, %rcx
	je	.LBB46_1
	pushq	%rbp
	.cfi_def_cfa_offset 16
	pushq	%r15
	.cfi_def_cfa_offset 24
	pushq	%r14
	.cfi_def_cfa_offset 32
	pushq	%r13
	.cfi_def_cfa_offset 40
	pushq	%r12
	.cfi_def_cfa_offset 48
	pushq	%rbx
	.cfi_def_cfa_offset 56
	.cfi_offset %rbx, -56
	.cfi_offset %r12, -48
	.cfi_offset %r13, -40
	.cfi_offset %r14, -32
	.cfi_offset %r15, -24
	.cfi_offset %rbp, -16
	xorl	%r9d, %r9d
	cmpb	$1, %dil
	sete	%r9b
	leal	7(,%r9,8), %edi
	movl	%edi, -4(%rsp)
	addq	%rsi, %r8
	decq	%r8
	movw	$16384, %r15w
	xorl	%r14d, %r14d
	xorl	%esi, %esi
	xorl	%ebp, %ebp
	xorl	%r10d, %r10d
	movl	%eax, %r9d
	jmp	.LBB46_4
	.p2align	4
.LBB46_12:
	movdqa	.LCPI46_18(%rip), %xmm0
.LBB46_13:
	decq	%rcx
	andb	%al, %bl
	incl	%r15d
	movzbl	%sil, %esi
	leal	(%r9,%rsi), %eax
	incl	%ebp
	addl	%r11d, %esi
	testb	%bl, %r14b
	movl	$16384, %edi
	cmovnel	%r15d, %edi
	pinsrw	$0, %edi, %xmm0
	pinsrw	$1, %eax, %xmm0
	movdqa	%xmm1, %xmm2
	pshufb	.LCPI46_19(%rip), %xmm2
	pshuflw	$236, %xmm3, %xmm4
	pshufd	$236, %xmm4, %xmm4
	punpckldq	%xmm4, %xmm2
	paddw	%xmm0, %xmm2
	phminposuw	%xmm2, %xmm0
	movd	%xmm0, %eax
	cmovnel	%ebp, %esi
	andl	$32767, %eax
	movd	%eax, %xmm0
	pshuflw	$0, %xmm0, %xmm0
	pshufd	$68, %xmm0, %xmm0
	pcmpeqw	%xmm0, %xmm2
	packsswb	%xmm2, %xmm2
	pmovmskb	%xmm2, %edi
	movzbl	%dil, %edi
	movl	$64, %r14d
	rep		bsfq	%rdi, %r14
	movdqa	.LCPI46_2(%rip), %xmm4
	pminuw	%xmm0, %xmm4
	pcmpeqw	%xmm0, %xmm4
	paddw	%xmm0, %xmm4
	pcmpeqd	%xmm5, %xmm5
	psubw	%xmm5, %xmm4
	pblendw	$182, %xmm5, %xmm4
	movdqa	%xmm3, %xmm2
	pminuw	%xmm4, %xmm2
	pcmpeqw	%xmm2, %xmm4
	packsswb	%xmm4, %xmm4
	pmovmskb	%xmm4, %ebp
	movdqa	.LCPI46_1(%rip), %xmm4
	pminuw	%xmm0, %xmm4
	pcmpeqw	%xmm0, %xmm4
	paddw	%xmm0, %xmm4
	psubw	%xmm5, %xmm4
	pblendw	$182, %xmm5, %xmm4
	pminuw	%xmm4, %xmm1
	pcmpeqw	%xmm1, %xmm4
	packsswb	%xmm4, %xmm4
	movb	%r14b, -2(%r8)
	pextrw	$6, %xmm3, %edi
	xorl	%r14d, %r14d
	cmpw	%di, %ax
	pmovmskb	%xmm4, %edi
	cmovbel	%r14d, %r10d
	movb	%bpl, -1(%r8)
	movb	%dil, (%r8)
	addq	$-3, %r8
	movl	%ebx, %r14d
	movl	%r11d, %ebp
	movl	%r9d, %r15d
	movl	%eax, %r9d
	testq	%rcx, %rcx
	je	.LBB46_14
.LBB46_4:
	movl	%esi, %r11d
	movzbl	-2(%rdx,%rcx,2), %esi
	movzbl	-1(%rdx,%rcx,2), %r12d
	testb	%sil, %sil
	setne	%bl
	leal	-48(%r12), %eax
	cmpb	$10, %al
	setb	%al
	movzbl	%r12b, %r12d
	testb	%sil, %sil
	je	.LBB46_5
	testb	%r12b, %r12b
	js	.LBB46_8
	leaq	.Lstatic.51(%rip), %r13
	movzbl	(%r12,%r13), %r13d
	movdqa	.LCPI46_8(%rip), %xmm3
	paddw	%xmm2, %xmm3
	pshufb	.LCPI46_6(%rip), %xmm3
	paddw	.LCPI46_9(%rip), %xmm2
	pshufb	.LCPI46_10(%rip), %xmm2
	movd	%r13d, %xmm0
	pshuflw	$0, %xmm0, %xmm0
	pshufd	$68, %xmm0, %xmm4
	pand	.LCPI46_7(%rip), %xmm4
	pxor	%xmm0, %xmm0
	pcmpeqw	%xmm4, %xmm0
	pblendvb	%xmm0, %xmm2, %xmm3
	jmp	.LBB46_9
	.p2align	4
.LBB46_5:
	pshufb	.LCPI46_14(%rip), %xmm2
	pblendw	$192, .LCPI46_15(%rip), %xmm2
	paddw	.LCPI46_16(%rip), %xmm2
	movdqa	.LCPI46_3(%rip), %xmm1
	xorl	%r10d, %r10d
	movdqa	%xmm2, %xmm3
	jmp	.LBB46_10
	.p2align	4
.LBB46_8:
	movl	%r12d, %r13d
	andl	$127, %r13d
	leaq	.Lstatic.51(%rip), %rdi
	movdqa	.LCPI46_4(%rip), %xmm3
	paddw	%xmm2, %xmm3
	paddw	.LCPI46_5(%rip), %xmm2
	pshufb	.LCPI46_6(%rip), %xmm2
	movzbl	(%r13,%rdi), %r13d
	movd	%r13d, %xmm0
	pshuflw	$0, %xmm0, %xmm0
	pshufd	$68, %xmm0, %xmm4
	pand	.LCPI46_7(%rip), %xmm4
	pxor	%xmm0, %xmm0
	pcmpeqw	%xmm4, %xmm0
	pblendvb	%xmm0, %xmm2, %xmm3
	movzbl	(%r12,%rdi), %r13d
.LBB46_9:
	movzwl	-4(%rsp), %edi
	movzwl	%r13w, %r13d
	paddw	.LCPI46_11(%rip), %xmm1
	andl	%edi, %r13d
	pshufb	.LCPI46_12(%rip), %xmm1
	movd	%r13d, %xmm0
	pshuflw	$0, %xmm0, %xmm0
	pshufd	$68, %xmm0, %xmm2
	pand	.LCPI46_13(%rip), %xmm2
	pxor	%xmm0, %xmm0
	pcmpeqw	%xmm2, %xmm0
	pblendvb	%xmm0, .LCPI46_3(%rip), %xmm1
	incl	%r10d
.LBB46_10:
	shrb	$7, %r12b
	incb	%r12b
	testb	%sil, %sil
	movzbl	%r12b, %edi
	movl	$1, %esi
	cmovnel	%edi, %esi
	movzwl	%r10w, %edi
	cmpl	$250, %edi
	jae	.LBB46_12
	movdqa	.LCPI46_17(%rip), %xmm0
	jmp	.LBB46_13
.LBB46_14:
	popq	%rbx
	.cfi_def_cfa_offset 48
	popq	%r12
	.cfi_def_cfa_offset 40
	popq	%r13
	.cfi_def_cfa_offset 32
	popq	%r14
	.cfi_def_cfa_offset 24
	popq	%r15
	.cfi_def_cfa_offset 16
	popq	%rbp
	.cfi_def_cfa_offset 8
	.cfi_restore %rbx
	.cfi_restore %r12
	.cfi_restore %r13
	.cfi_restore %r14
	.cfi_restore %r15
	.cfi_restore %rbp
	movl	%esi, %edx
	retq
.LBB46_1:
	xorl	%esi, %esi
	movl	%esi, %edx
	retq
.Lfunc_end46:
	.size	"dm_words::smallest::plan::plan_to", .Lfunc_end46-"dm_words::smallest::plan::plan_to"
	.cfi_endproc

	.p2align	4
	.type	"dm_words::macros::is_framed",@function
"dm_words::macros::is_framed":
	.cfi_startproc
	cmpq	$8, %rsi
	ja	.LBB47_3
.LBB47_1:
	xorl	%eax, %eax
.LBB47_2:
	retq
.LBB47_3:
	xorl	%eax, %eax
	cmpb	$1, (%rdi)
	jne	.LBB47_2
	cmpb	$91, 1(%rdi)
	jne	.LBB47_2
	xorl	%eax, %eax
	cmpb	$1, 2(%rdi)
	jne	.LBB47_2
	cmpb	$41, 3(%rdi)
	jne	.LBB47_2
	xorl	%eax, %eax
	cmpb	$1, 4(%rdi)
	jne	.LBB47_2
	cmpb	$62, 5(%rdi)
	jne	.LBB47_2
	xorl	%eax, %eax
	cmpb	$1, 6(%rdi)
	jne	.LBB47_2
	cmpb	$30, 7(%rdi)
	jne	.LBB47_2
	xorl	%eax, %eax
	cmpb	$1, 8(%rdi)
	jne	.LBB47_2
	cmpb	$48, 9(%rdi)
	jne	.LBB47_2
	xorl	%eax, %eax
	cmpb	$1, 10(%rdi)
	jne	.LBB47_2
	cmpb	%dl, 11(%rdi)
	jne	.LBB47_2
	xorl	%eax, %eax
	cmpb	$1, 12(%rdi)
	jne	.LBB47_2
	cmpb	$29, 13(%rdi)
	jne	.LBB47_2
	cmpq	$9, %rsi
	je	.LBB47_19
	cmpb	$0, 14(%rdi)
	je	.LBB47_1
.LBB47_19:
	xorl	%eax, %eax
	cmpb	$1, -4(%rdi,%rsi,2)
	jne	.LBB47_2
	cmpb	$30, -3(%rdi,%rsi,2)
	jne	.LBB47_2
	movzbl	-2(%rdi,%rsi,2), %eax
	movzbl	-1(%rdi,%rsi,2), %ecx
	xorb	$1, %al
	xorb	$4, %cl
	orb	%al, %cl
	sete	%al
	retq
.Lfunc_end47:
	.size	"dm_words::macros::is_framed", .Lfunc_end47-"dm_words::macros::is_framed"
	.cfi_endproc

	.p2align	4
	.type	"dm_words::smallest::parts::write_parts",@function
"dm_words::smallest::parts::write_parts":
	.cfi_startproc
	pushq	%rbp
	.cfi_def_cfa_offset 16
	pushq	%r15
	.cfi_def_cfa_offset 24
	pushq	%r14
	.cfi_def_cfa_offset 32
	pushq	%r13
	.cfi_def_cfa_offset 40
	pushq	%r12
	.cfi_def_cfa_offset 48
	pushq	%rbx
	.cfi_def_cfa_offset 56
	subq	$56, %rsp
	.cfi_def_cfa_offset 112
	.cfi_offset %rbx, -56
	.cfi_offset %r12, -48
	.cfi_offset %r13, -40
	.cfi_offset %r14, -32
	.cfi_offset %r15, -24
	.cfi_offset %rbp, -16
	movq	%rsi, 24(%rsp)
	testq	%rsi, %rsi
	je	.LBB48_1
	movq	%r9, %r14
	movq	%r8, %rbp
	movq	%rcx, %r12
	movq	%rdx, %r11
	movq	%rdi, %r15
	leaq	4(%rdx), %rax
	movq	%rax, 40(%rsp)
	leaq	5(%rdx), %rax
	movq	%rax, 48(%rsp)
	movb	$1, %bl
	xorl	%r13d, %r13d
	movq	%rdx, 16(%rsp)
	movq	%r8, 32(%rsp)
	jmp	.LBB48_3
.LBB48_6:
	movb	$2, %al
.LBB48_14:
	movq	%r14, (%rsp)
	movzbl	%al, %edx
	movq	%r15, %rdi
	movq	%r13, %rsi
	movq	%r11, %rcx
	movq	%r12, %r8
	movq	%rbp, %r9
	callq	"dm_words::smallest::run::write_run"
	movq	16(%rsp), %r11
	movq	%rax, %r13
.LBB48_34:
	movb	$1, %al
.LBB48_35:
	andb	%al, %bl
	cmpq	24(%rsp), %r13
	jae	.LBB48_36
.LBB48_3:
	leaq	(,%r13,2), %rax
	addq	%r13, %rax
	movzbl	(%r11,%rax), %ecx
	cmpq	$6, %rcx
	ja	.LBB48_32
	leaq	.LJTI48_0(%rip), %rdx
	movslq	(%rdx,%rcx,4), %rcx
	addq	%rdx, %rcx
	jmpq	*%rcx
.LBB48_33:
	movzbl	1(%r15,%r13,2), %eax
	addl	%eax, %eax
	xorl	%ecx, %ecx
	cmpb	$1, (%r15,%r13,2)
	movzbl	3(%r15,%r13,2), %edx
	leal	(%rax,%rax,4), %eax
	cmovnel	%ecx, %eax
	addb	$114, %dl
	cmpb	$1, 2(%r15,%r13,2)
	movzbl	%dl, %ecx
	movl	$114, %edx
	cmovel	%ecx, %edx
	addb	%al, %dl
	movq	(%r14), %rax
	movb	%dl, (%r12,%rax)
	incq	(%r14)
	addq	$2, %r13
	jmp	.LBB48_34
.LBB48_13:
	xorl	%eax, %eax
	jmp	.LBB48_14
.LBB48_5:
	movb	$1, %al
	jmp	.LBB48_14
.LBB48_7:
	movzbl	1(%r15,%r13,2), %eax
	movl	%eax, %ecx
	shrb	$6, %cl
	andb	$2, %cl
	testb	%al, %al
	movl	$1, %edx
	movl	$129, %esi
	cmovnsl	%edx, %esi
	addb	%al, %sil
	xorl	%edi, %edi
	cmpb	$0, (%r15,%r13,2)
	movzbl	%cl, %eax
	movl	$3, %edx
	cmovnel	%eax, %edx
	movzbl	%sil, %eax
	cmovel	%edi, %eax
	movq	(%r14), %rcx
	cmpb	$3, %dl
	je	.LBB48_11
	movzbl	%dl, %edx
	cmpl	$2, %edx
	jne	.LBB48_9
	movb	$-21, (%r12,%rcx)
	movq	(%r14), %rcx
	leaq	1(%rcx), %rdx
	movq	%rdx, (%r14)
	movb	%al, 1(%r12,%rcx)
	jmp	.LBB48_12
.LBB48_15:
	movq	(%r14), %rax
	movb	$-16, (%r12,%rax)
	movq	(%r14), %rax
	incq	%rax
	movq	%rax, (%r14)
	jmp	.LBB48_16
	.p2align	4
.LBB48_20:
	testb	$8, (%r8)
	jne	.LBB48_21
.LBB48_16:
	movzbl	1(%r15,%r13,2), %ecx
	andb	$63, %cl
	xorl	%edx, %edx
	cmpb	$1, (%r15,%r13,2)
	movzbl	%cl, %ecx
	cmovnel	%edx, %ecx
	movb	$1, %dl
.LBB48_17:
	leaq	(,%r13,2), %r8
	addq	%r13, %r8
	incq	%r13
	addq	48(%rsp), %r8
	xorl	%edi, %edi
	xorl	%esi, %esi
	.p2align	4
.LBB48_18:
	movzbl	%dl, %r9d
	leal	-1(%r9), %r10d
	cmpl	$2, %r10d
	jae	.LBB48_19
	movzbl	1(%r15,%r13,2), %esi
	andb	$63, %sil
	xorl	%r9d, %r9d
	cmpb	$1, (%r15,%r13,2)
	movzbl	%sil, %esi
	cmovnel	%r9d, %esi
	cmpb	$2, %dl
	movzbl	%dil, %edi
	cmovnel	%esi, %edi
	cmovnel	%r9d, %esi
	sete	%dl
	orb	$2, %dl
	incq	%r13
	addq	$3, %r8
	jmp	.LBB48_18
	.p2align	4
.LBB48_19:
	cmpl	$3, %r9d
	jne	.LBB48_20
	testb	$64, (%r8)
	jne	.LBB48_28
	movzbl	1(%r15,%r13,2), %r8d
	andb	$63, %r8b
	xorl	%edx, %edx
	cmpb	$1, (%r15,%r13,2)
	movzbl	%r8b, %r8d
	cmovnel	%edx, %r8d
	shlb	$2, %cl
	movl	%edi, %r9d
	shrb	$4, %r9b
	addb	%cl, %r9b
	movb	%r9b, (%r12,%rax)
	movq	(%r14), %rax
	leaq	1(%rax), %rcx
	movq	%rcx, (%r14)
	shlb	$4, %dil
	movl	%esi, %ecx
	shrb	$2, %cl
	addb	%dil, %cl
	movb	%cl, 1(%r12,%rax)
	movq	(%r14), %rax
	leaq	1(%rax), %rcx
	movq	%rcx, (%r14)
	shlb	$6, %sil
	orb	%r8b, %sil
	movb	%sil, 1(%r12,%rax)
	movq	(%r14), %rax
	incq	%rax
	movq	%rax, (%r14)
	xorl	%ecx, %ecx
	jmp	.LBB48_17
.LBB48_29:
	movq	%rbp, %rcx
	addq	40(%rsp), %rax
	xorl	%ebp, %ebp
	.p2align	4
.LBB48_30:
	incq	%rbp
	testb	$64, (%rax)
	leaq	3(%rax), %rax
	je	.LBB48_30
	leaq	(%r15,%r13,2), %rdi
	movq	%rbp, %rsi
	movq	%r12, %rdx
	movq	%r14, %r8
	callq	"dm_words::smallest::segment::write_segment"
	addq	%rbp, %r13
	movq	32(%rsp), %rbp
	movb	$1, %al
	movq	16(%rsp), %r11
	jmp	.LBB48_35
.LBB48_21:
	movq	%rbp, %rcx
	subq	%rax, %rcx
	cmpq	$3, %rcx
	jb	.LBB48_22
	movb	$124, (%r12,%rax)
	jmp	.LBB48_27
.LBB48_28:
	shlb	$2, %cl
	movl	%edi, %edx
	shrb	$4, %dl
	addb	%cl, %dl
	movb	%dl, (%r12,%rax)
	movq	(%r14), %rax
	leaq	1(%rax), %rcx
	movq	%rcx, (%r14)
	shlb	$4, %dil
	movl	%esi, %ecx
	shrb	$2, %cl
	addb	%dil, %cl
	movb	%cl, 1(%r12,%rax)
	movq	(%r14), %rax
	leaq	1(%rax), %rcx
	movq	%rcx, (%r14)
	shlb	$6, %sil
	orb	$31, %sil
	movb	%sil, 1(%r12,%rax)
.LBB48_27:
	incq	(%r14)
	xorl	%eax, %eax
	jmp	.LBB48_35
.LBB48_11:
	movb	$-24, (%r12,%rcx)
	jmp	.LBB48_12
.LBB48_9:
	movb	%al, (%r12,%rcx)
.LBB48_12:
	incq	(%r14)
	incq	%r13
	jmp	.LBB48_34
.LBB48_22:
	xorl	%eax, %eax
	jmp	.LBB48_35
.LBB48_1:
	movb	$1, %bl
.LBB48_36:
	andb	$1, %bl
	movl	%ebx, %eax
	addq	$56, %rsp
	.cfi_def_cfa_offset 56
	popq	%rbx
	.cfi_def_cfa_offset 48
	popq	%r12
	.cfi_def_cfa_offset 40
	popq	%r13
	.cfi_def_cfa_offset 32
	popq	%r14
	.cfi_def_cfa_offset 24
	popq	%r15
	.cfi_def_cfa_offset 16
	popq	%rbp
	.cfi_def_cfa_offset 8
	retq
.LBB48_32:
	.cfi_def_cfa_offset 112
	leaq	(%r15,%r13,2), %rdi
	movq	24(%rsp), %rsi
	subq	%r13, %rsi
	movq	%r12, %rdx
	movq	%rbp, %rcx
	movq	%r14, %r8
	callq	"dm_words::smallest::segment::write_segment"
	jmp	.LBB48_36
.Lfunc_end48:
	.size	"dm_words::smallest::parts::write_parts", .Lfunc_end48-"dm_words::smallest::parts::write_parts"
	.cfi_endproc
	.section	.rodata,"a",@progbits
	.p2align	2, 0x0
.LJTI48_0:
	.long	.LBB48_33-.LJTI48_0
	.long	.LBB48_7-.LJTI48_0
	.long	.LBB48_13-.LJTI48_0
	.long	.LBB48_5-.LJTI48_0
	.long	.LBB48_6-.LJTI48_0
	.long	.LBB48_15-.LJTI48_0
	.long	.LBB48_29-.LJTI48_0

	.text
	.p2align	4
	.type	"dm_words::smallest::run::write_run",@function
"dm_words::smallest::run::write_run":
	.cfi_startproc
	pushq	%rbp
	.cfi_def_cfa_offset 16
	pushq	%r15
	.cfi_def_cfa_offset 24
	pushq	%r14
	.cfi_def_cfa_offset 32
	pushq	%r13
	.cfi_def_cfa_offset 40
	pushq	%r12
	.cfi_def_cfa_offset 48
	pushq	%rbx
	.cfi_def_cfa_offset 56
	subq	$24, %rsp
	.cfi_def_cfa_offset 80
	.cfi_offset %rbx, -56
	.cfi_offset %r12, -48
	.cfi_offset %r13, -40
	.cfi_offset %r14, -32
	.cfi_offset %r15, -24
	.cfi_offset %rbp, -16
	movq	%r9, 8(%rsp)
	movq	%r8, %rbp
	movq	%rcx, %r13
	movl	%edx, %r14d
	movq	80(%rsp), %r8
	leal	(,%r14,8), %ecx
	movl	$15658982, %eax
	shrl	%cl, %eax
	movq	(%r8), %rcx
	movb	%al, (%rbp,%rcx)
	incq	(%r8)
	movq	%rsi, %r15
	movq	%rdi, %r12
	movzbl	1(%rdi,%rsi,2), %edx
	movzbl	(%rdi,%rsi,2), %esi
	movq	%r8, (%rsp)
	movl	%r14d, %edi
	xorl	%ecx, %ecx
	xorl	%r8d, %r8d
	movq	%rbp, %r9
	callq	"dm_words::smallest::run::push_spelling"
	movl	%edx, %ebx
	cmpb	$1, %r14b
	setne	%cl
	shlb	$5, %cl
	orb	$-97, %cl
	movq	%rcx, 16(%rsp)
	leaq	(%r15,%r15,2), %rcx
	incq	%r15
	addq	%rcx, %r13
	addq	$5, %r13
	jmp	.LBB49_1
	.p2align	4
.LBB49_26:
	movq	80(%rsp), %rsi
	movq	%rsi, (%rsp)
	movzbl	%r14b, %edi
	movzbl	%cl, %esi
	movzbl	%al, %ecx
	movl	%ebx, %r8d
	movq	%rbp, %r9
	callq	"dm_words::smallest::run::push_spelling"
	movl	%edx, %ebx
.LBB49_25:
	incq	%r15
	addq	$3, %r13
.LBB49_1:
	testb	%al, %al
	jne	.LBB49_9
	cmpb	$2, %r14b
	je	.LBB49_6
	movzbl	%r14b, %ecx
	cmpl	$1, %ecx
	jne	.LBB49_4
	movzbl	-1(%r13), %ecx
	andb	$8, %cl
	jmp	.LBB49_8
.LBB49_6:
	movzbl	(%r13), %ecx
	jmp	.LBB49_7
.LBB49_4:
	movzbl	-1(%r13), %ecx
.LBB49_7:
	andb	$1, %cl
.LBB49_8:
	testb	%cl, %cl
	jne	.LBB49_27
.LBB49_9:
	movzbl	(%r12,%r15,2), %ecx
	movzbl	1(%r12,%r15,2), %edx
	cmpb	$1, %cl
	jne	.LBB49_26
	movq	16(%rsp), %rsi
	addl	%edx, %esi
	cmpb	$25, %sil
	ja	.LBB49_12
	addb	$14, %sil
	jmp	.LBB49_22
	.p2align	4
.LBB49_12:
	movb	$3, %sil
	cmpl	$32, %edx
	je	.LBB49_22
	leal	-48(%rdx), %esi
	cmpb	$9, %sil
	ja	.LBB49_15
	addb	$-44, %dl
	movl	%edx, %esi
	.p2align	4
.LBB49_22:
	shll	$3, %ebx
	leal	(%rbx,%rbx,4), %ecx
	movzbl	%sil, %ebx
	addl	%ecx, %ebx
	cmpb	$1, %al
	ja	.LBB49_24
	incb	%al
	jmp	.LBB49_25
	.p2align	4
.LBB49_24:
	incl	%ebx
	movq	80(%rsp), %rdx
	movq	(%rdx), %rax
	movb	%bh, (%rbp,%rax)
	movq	(%rdx), %rax
	leaq	1(%rax), %rcx
	movq	%rcx, (%rdx)
	movb	%bl, 1(%rbp,%rax)
	incq	(%rdx)
	xorl	%ebx, %ebx
	xorl	%eax, %eax
	jmp	.LBB49_25
.LBB49_15:
	cmpb	$2, %r14b
	jne	.LBB49_26
	cmpl	$13, %edx
	je	.LBB49_17
	cmpl	$62, %edx
	je	.LBB49_21
	cmpl	$42, %edx
	jne	.LBB49_26
	movb	$1, %sil
	jmp	.LBB49_22
.LBB49_21:
	movb	$2, %sil
	jmp	.LBB49_22
.LBB49_17:
	xorl	%esi, %esi
	jmp	.LBB49_22
.LBB49_27:
	movq	80(%rsp), %rdx
	movq	(%rdx), %rax
	movq	8(%rsp), %rcx
	subq	%rax, %rcx
	cmpq	$2, %rcx
	jb	.LBB49_29
	movb	$-2, (%rbp,%rax)
	incq	(%rdx)
.LBB49_29:
	movq	%r15, %rax
	addq	$24, %rsp
	.cfi_def_cfa_offset 56
	popq	%rbx
	.cfi_def_cfa_offset 48
	popq	%r12
	.cfi_def_cfa_offset 40
	popq	%r13
	.cfi_def_cfa_offset 32
	popq	%r14
	.cfi_def_cfa_offset 24
	popq	%r15
	.cfi_def_cfa_offset 16
	popq	%rbp
	.cfi_def_cfa_offset 8
	retq
.Lfunc_end49:
	.size	"dm_words::smallest::run::write_run", .Lfunc_end49-"dm_words::smallest::run::write_run"
	.cfi_endproc

	.p2align	4
	.type	"dm_words::smallest::run::push_spelling",@function
"dm_words::smallest::run::push_spelling":
	.cfi_startproc
	pushq	%rbx
	.cfi_def_cfa_offset 16
	.cfi_offset %rbx, -16
	movl	%ecx, %eax
	movl	%edx, %ecx
	movq	%r9, %rbx
	movl	%r8d, %edx
	movl	$2, %r8d
	movb	$1, %r9b
	testb	%sil, %sil
	je	.LBB50_4
	testb	%cl, %cl
	js	.LBB50_6
	cmpb	$1, %dil
	setne	%r11b
	shlb	$5, %r11b
	addb	%cl, %r11b
	addb	$-97, %r11b
	cmpb	$25, %r11b
	ja	.LBB50_8
	addb	$14, %r11b
	movl	$1, %r8d
	xorl	%esi, %esi
	xorl	%r10d, %r10d
	xorl	%ecx, %ecx
	movl	%r11d, %r9d
	jmp	.LBB50_16
.LBB50_4:
	movb	$27, %sil
.LBB50_5:
	xorl	%r10d, %r10d
	xorl	%ecx, %ecx
	jmp	.LBB50_16
.LBB50_6:
	andb	$127, %cl
	cmpb	$1, %dil
	setne	%r10b
	shlb	$5, %r10b
	addb	%cl, %r10b
	addb	$-97, %r10b
	cmpb	$25, %r10b
	ja	.LBB50_10
	addb	$14, %r10b
	movl	$3, %r8d
	movb	$30, %sil
	xorl	%ecx, %ecx
	jmp	.LBB50_16
.LBB50_8:
	cmpb	$32, %cl
	jne	.LBB50_12
	movb	$3, %r9b
	jmp	.LBB50_14
.LBB50_10:
	movl	$3, %r8d
	movb	$30, %sil
	cmpb	$32, %cl
	jne	.LBB50_22
	movb	$3, %r10b
	xorl	%ecx, %ecx
	jmp	.LBB50_16
.LBB50_12:
	leal	-48(%rcx), %esi
	cmpb	$9, %sil
	ja	.LBB50_24
	movl	%ecx, %r9d
	addb	$-44, %r9b
.LBB50_14:
	xorl	%esi, %esi
	xorl	%r10d, %r10d
	xorl	%ecx, %ecx
.LBB50_15:
	movl	$1, %r8d
.LBB50_16:
	movq	16(%rsp), %rdi
	movb	%r9b, -16(%rsp)
	movb	%sil, -15(%rsp)
	movb	%r10b, -14(%rsp)
	movb	%cl, -13(%rsp)
	movl	$0, -12(%rsp)
	movq	%r8, -8(%rsp)
	xorl	%ecx, %ecx
	jmp	.LBB50_19
	.p2align	4
.LBB50_17:
	incl	%edx
	movq	(%rdi), %rax
	movb	%dh, (%rbx,%rax)
	movq	(%rdi), %rax
	leaq	1(%rax), %rsi
	movq	%rsi, (%rdi)
	movb	%dl, 1(%rbx,%rax)
	incq	(%rdi)
	xorl	%edx, %edx
	xorl	%eax, %eax
.LBB50_18:
	incq	%rcx
	cmpq	%rcx, %r8
	je	.LBB50_21
.LBB50_19:
	movzbl	-16(%rsp,%rcx), %esi
	shll	$3, %edx
	leal	(%rdx,%rdx,4), %edx
	addl	%esi, %edx
	cmpb	$1, %al
	ja	.LBB50_17
	incb	%al
	jmp	.LBB50_18
.LBB50_21:
	popq	%rbx
	.cfi_def_cfa_offset 8
	retq
.LBB50_22:
	.cfi_def_cfa_offset 16
	leal	-48(%rcx), %r10d
	cmpb	$9, %r10b
	ja	.LBB50_30
	addb	$-44, %cl
	movl	%ecx, %r10d
	xorl	%ecx, %ecx
	jmp	.LBB50_16
.LBB50_24:
	cmpb	$2, %dil
	jne	.LBB50_28
	cmpb	$13, %cl
	je	.LBB50_44
	movzbl	%cl, %esi
	cmpl	$62, %esi
	je	.LBB50_43
	cmpl	$42, %esi
	je	.LBB50_14
.LBB50_28:
	cmpb	$32, %cl
	jae	.LBB50_37
	xorl	%r10d, %r10d
	movl	%ecx, %esi
	xorl	%ecx, %ecx
	xorl	%r9d, %r9d
	jmp	.LBB50_16
.LBB50_30:
	cmpb	$2, %dil
	jne	.LBB50_35
	cmpb	$13, %cl
	je	.LBB50_5
	movzbl	%cl, %edi
	cmpl	$62, %edi
	je	.LBB50_50
	cmpl	$42, %edi
	jne	.LBB50_35
	movb	$1, %r10b
	xorl	%ecx, %ecx
	movb	$1, %r9b
	jmp	.LBB50_16
.LBB50_35:
	movl	$4, %r8d
	cmpb	$32, %cl
	jae	.LBB50_39
	xorl	%r10d, %r10d
	jmp	.LBB50_16
.LBB50_37:
	cmpb	$47, %cl
	ja	.LBB50_41
	addb	$-33, %cl
	jmp	.LBB50_59
.LBB50_39:
	cmpb	$47, %cl
	ja	.LBB50_45
	addb	$-33, %cl
	jmp	.LBB50_47
.LBB50_41:
	cmpb	$64, %cl
	ja	.LBB50_48
	addb	$-43, %cl
	jmp	.LBB50_59
.LBB50_43:
	movb	$2, %r9b
	jmp	.LBB50_14
.LBB50_44:
	xorl	%esi, %esi
	xorl	%r10d, %r10d
	xorl	%ecx, %ecx
	xorl	%r9d, %r9d
	jmp	.LBB50_15
.LBB50_45:
	cmpb	$64, %cl
	ja	.LBB50_51
	addb	$-43, %cl
.LBB50_47:
	movb	$1, %r10b
	movb	$1, %r9b
	jmp	.LBB50_16
.LBB50_48:
	cmpb	$90, %cl
	ja	.LBB50_53
	addb	$-64, %cl
	jmp	.LBB50_58
.LBB50_50:
	movb	$2, %r10b
	xorl	%ecx, %ecx
	jmp	.LBB50_16
.LBB50_51:
	cmpb	$90, %cl
	ja	.LBB50_55
	addb	$-64, %cl
	jmp	.LBB50_61
.LBB50_53:
	cmpb	$95, %cl
	ja	.LBB50_57
	addb	$-69, %cl
	jmp	.LBB50_59
.LBB50_55:
	cmpb	$95, %cl
	ja	.LBB50_60
	addb	$-69, %cl
	jmp	.LBB50_47
.LBB50_57:
	addb	$-96, %cl
.LBB50_58:
	movb	$2, %r9b
.LBB50_59:
	xorl	%r10d, %r10d
	movl	%ecx, %esi
	xorl	%ecx, %ecx
	jmp	.LBB50_16
.LBB50_60:
	addb	$-96, %cl
.LBB50_61:
	movb	$2, %r10b
	jmp	.LBB50_16
.Lfunc_end50:
	.size	"dm_words::smallest::run::push_spelling", .Lfunc_end50-"dm_words::smallest::run::push_spelling"
	.cfi_endproc

	.p2align	4
	.type	"dm_words::smallest::segment::write_segment",@function
"dm_words::smallest::segment::write_segment":
	.cfi_startproc
	movq	(%r8), %rax
	movb	$-25, (%rdx,%rax)
	movq	(%r8), %r9
	incq	%r9
	movq	%r9, (%r8)
	cmpq	$250, %rsi
	jb	.LBB51_5
	leaq	(%rsi,%r9), %rax
	incq	%rax
	cmpq	%rcx, %rax
	jne	.LBB51_3
	imull	$149, %r9d, %eax
	movl	%eax, %ecx
	addl	$149, %eax
	movl	$2155905153, %r10d
	imulq	%rax, %r10
	shrq	$39, %r10
	leal	(%rcx,%r10), %eax
	addl	$149, %eax
	incb	%al
	movb	%al, (%rdx,%r9)
	jmp	.LBB51_4
.LBB51_5:
	imull	$149, %r9d, %eax
	movl	%eax, %ecx
	addl	$149, %eax
	movl	$2155905153, %r10d
	imulq	%rax, %r10
	shrq	$39, %r10
	leal	(%rcx,%r10), %eax
	addl	$149, %eax
	addb	%sil, %al
	incb	%al
	movb	%al, (%rdx,%r9)
	movq	(%r8), %rax
	incq	%rax
	movq	%rax, (%r8)
	testq	%rsi, %rsi
	jne	.LBB51_6
	jmp	.LBB51_8
.LBB51_3:
	movq	%rsi, %rax
	shrq	%rax
	movabsq	$2361183241434822607, %r10
	movq	%rdx, %rcx
	mulq	%r10
	movq	%rdx, %rax
	movq	%rcx, %rdx
	shrq	$4, %rax
	imull	$149, %r9d, %ecx
	movl	%ecx, %r10d
	addl	$149, %ecx
	movl	$2155905153, %r11d
	imulq	%r11, %rcx
	shrq	$39, %rcx
	addl	%r10d, %ecx
	addl	$149, %ecx
	addb	%al, %cl
	addb	$-6, %cl
	movb	%cl, (%rdx,%r9)
	movq	(%r8), %rcx
	leaq	1(%rcx), %r9
	movq	%r9, (%r8)
	imull	$250, %eax, %eax
	movl	%esi, %r10d
	subl	%eax, %r10d
	imull	$149, %r9d, %eax
	movl	%eax, %r9d
	addl	$149, %eax
	imulq	%r11, %rax
	shrq	$39, %rax
	addl	%r9d, %eax
	addl	$149, %eax
	addb	%r10b, %al
	incb	%al
	movb	%al, 1(%rdx,%rcx)
.LBB51_4:
	movq	(%r8), %rax
	incq	%rax
	movq	%rax, (%r8)
.LBB51_6:
	imull	$149, %eax, %ecx
	leal	149(%rcx), %r9d
	movl	$2155905153, %r10d
	imulq	%r9, %r10
	shrq	$39, %r10
	movl	%r10d, %r9d
	shll	$8, %r9d
	subl	%r9d, %r10d
	addl	%ecx, %r10d
	addl	$150, %r10d
	xorl	%ecx, %ecx
	xorl	%r9d, %r9d
	.p2align	4
.LBB51_7:
	cmpb	$1, (%rdi,%r9,2)
	movzbl	1(%rdi,%r9,2), %r11d
	cmovnel	%ecx, %r11d
	addl	%r10d, %r11d
	movb	%r11b, (%rdx,%rax)
	movq	(%r8), %rax
	incq	%rax
	leal	-106(%r10), %r11d
	cmpl	$107, %r10d
	leal	149(%r10), %r10d
	cmovael	%r11d, %r10d
	movq	%rax, (%r8)
	incq	%r9
	cmpq	%r9, %rsi
	jne	.LBB51_7
.LBB51_8:
	retq
.Lfunc_end51:
	.size	"dm_words::smallest::segment::write_segment", .Lfunc_end51-"dm_words::smallest::segment::write_segment"
	.cfi_endproc

	.section	.rodata.cst16,"aM",@progbits,16
	.p2align	4, 0x0
.LCPI52_0:
	.long	12
	.long	13
	.long	14
	.long	15
.LCPI52_1:
	.long	8
	.long	9
	.long	10
	.long	11
.LCPI52_2:
	.long	4
	.long	5
	.long	6
	.long	7
.LCPI52_3:
	.long	0
	.long	1
	.long	2
	.long	3
.LCPI52_4:
	.long	149
	.long	149
	.long	149
	.long	149
.LCPI52_5:
	.long	16976156
	.long	16976156
	.long	16976156
	.long	16976156
.LCPI52_6:
	.long	253
	.long	253
	.long	253
	.long	253
.LCPI52_7:
	.long	125
	.long	125
	.long	125
	.long	125
.LCPI52_8:
	.zero	16,132
.LCPI52_9:
	.zero	16,130
.LCPI52_10:
	.long	16
	.long	16
	.long	16
	.long	16
.LCPI52_11:
	.long	124
	.long	124
	.long	124
	.long	124
.LCPI52_12:
	.byte	132
	.byte	132
	.byte	132
	.byte	132
	.zero	1
	.zero	1
	.zero	1
	.zero	1
	.zero	1
	.zero	1
	.zero	1
	.zero	1
	.zero	1
	.zero	1
	.zero	1
	.zero	1
.LCPI52_13:
	.byte	130
	.byte	130
	.byte	130
	.byte	130
	.zero	1
	.zero	1
	.zero	1
	.zero	1
	.zero	1
	.zero	1
	.zero	1
	.zero	1
	.zero	1
	.zero	1
	.zero	1
	.zero	1
.LCPI52_14:
	.long	4
	.long	4
	.long	4
	.long	4
	.text
	.p2align	4
	.type	"dm_words::smallest::contents::smallest_marked_to",@function
"dm_words::smallest::contents::smallest_marked_to":
	.cfi_startproc
	pushq	%rbp
	.cfi_def_cfa_offset 16
	pushq	%r15
	.cfi_def_cfa_offset 24
	pushq	%r14
	.cfi_def_cfa_offset 32
	pushq	%r13
	.cfi_def_cfa_offset 40
	pushq	%r12
	.cfi_def_cfa_offset 48
	pushq	%rbx
	.cfi_def_cfa_offset 56
	subq	$152, %rsp
	.cfi_def_cfa_offset 208
	.cfi_offset %rbx, -56
	.cfi_offset %r12, -48
	.cfi_offset %r13, -40
	.cfi_offset %r14, -32
	.cfi_offset %r15, -24
	.cfi_offset %rbp, -16
	movq	%r8, %r15
	movq	%rdx, 72(%rsp)
	movq	%rdi, 120(%rsp)
	movq	224(%rsp), %r8
	movq	216(%rsp), %rbp
	movq	208(%rsp), %rax
	movzbl	(%rsi), %r10d
	movzbl	1(%rsi), %edi
	movl	2(%rsi), %esi
	movq	%rsi, 144(%rsp)
	movzbl	(%rax), %esi
	movl	%esi, 56(%rsp)
	movzwl	2(%rax), %esi
	movl	%esi, 48(%rsp)
	movzwl	4(%rax), %eax
	movl	%eax, 64(%rsp)
	xorl	%eax, %eax
	movb	%dil, 47(%rsp)
	testb	%dil, %dil
	setne	%al
	xorl	%esi, %esi
	movb	%r10b, 39(%rsp)
	testb	%r10b, %r10b
	leal	1(%rax,%rax,2), %eax
	cmovel	%esi, %eax
	movl	%eax, 40(%rsp)
	testq	%r9, %r9
	movq	%rcx, 96(%rsp)
	movq	%r9, 88(%rsp)
	je	.LBB52_3
	xorl	%esi, %esi
	movq	%r9, %r14
	movq	72(%rsp), %r13
	.p2align	4
.LBB52_2:
	leaq	-1(%r14), %r12
	movzwl	-8(%r15,%r14,8), %ebx
	leaq	(,%rbx,2), %rdx
	addq	%r13, %rdx
	subq	%rbx, %rcx
	movl	$1, %edi
	movq	224(%rsp), %r8
	callq	"dm_words::smallest::plan::plan_to"
	movq	224(%rsp), %r8
	movl	-4(%r15,%r14,8), %ecx
	cmpl	$16383, %ecx
	movw	$4, %dx
	sbbw	$0, %dx
	cmpl	$127, %ecx
	movl	$2, %esi
	cmovael	%edx, %esi
	addl	%eax, %esi
	movw	%si, -2(%rbp,%r14,2)
	movq	%rbx, %rcx
	movq	%r12, %r14
	testq	%r12, %r12
	jne	.LBB52_2
	jmp	.LBB52_4
.LBB52_3:
	movq	%rcx, %rbx
	movq	72(%rsp), %r13
.LBB52_4:
	movl	$1, %edi
	movq	%r13, %rdx
	movq	%rbx, %rcx
	callq	"dm_words::smallest::plan::plan_to"
	movzwl	40(%rsp), %ebp
	addl	%eax, %ebp
	movb	$1, %bl
	cmpb	$0, 39(%rsp)
	je	.LBB52_16
.LBB52_5:
	xorl	%r11d, %r11d
	movl	%ebp, %eax
.LBB52_6:
	movl	48(%rsp), %r13d
.LBB52_7:
	xorl	%ecx, %ecx
	movl	64(%rsp), %r9d
	movl	56(%rsp), %r10d
	jmp	.LBB52_10
.LBB52_8:
	cmpw	%r12w, %bp
	jne	.LBB52_32
	.p2align	4
.LBB52_9:
	addq	$20, %rcx
	cmpq	$960, %rcx
	je	.LBB52_15
.LBB52_10:
	leaq	.Lstatic.0(%rip), %rdx
	movzwl	12(%rcx,%rdx), %r14d
	cmpw	%r14w, %ax
	ja	.LBB52_9
	movzwl	(%rcx,%rdx), %ebp
	movzwl	2(%rcx,%rdx), %r12d
	movzwl	18(%rcx,%rdx), %esi
	movl	%r10d, %edi
	leaq	.LJTI52_0(%rip), %r8
	movslq	(%r8,%rdi,4), %rdi
	addq	%r8, %rdi
	jmpq	*%rdi
.LBB52_12:
	cmpw	%r12w, %bp
	movl	%ebp, %r12d
	jne	.LBB52_9
	jmp	.LBB52_32
.LBB52_13:
	xorl	%r13d, %ebp
	xorl	%r9d, %r12d
	orw	%bp, %r12w
	jne	.LBB52_9
	jmp	.LBB52_31
.LBB52_14:
	cmpw	$1, %si
	setne	%dil
	cmpw	%r12w, %bp
	setne	%r8b
	testb	%dil, %r8b
	je	.LBB52_9
	jmp	.LBB52_32
.LBB52_15:
	movb	$1, %al
	xorl	%ebp, %ebp
	xorl	%r12d, %r12d
	xorl	%edx, %edx
	xorl	%r14d, %r14d
	xorl	%esi, %esi
	xorl	%ecx, %ecx
	movq	120(%rsp), %r9
	jmp	.LBB52_58
.LBB52_16:
	movq	%r13, %rdi
	movq	96(%rsp), %r14
	movq	%r14, %rsi
	movl	$53, %edx
	callq	"dm_words::macros::is_framed"
	movb	$-20, %r9b
	testb	%al, %al
	jne	.LBB52_18
	movq	%r13, %rdi
	movq	%r14, %rsi
	movl	$54, %edx
	callq	"dm_words::macros::is_framed"
	movb	$-19, %r9b
	testb	%al, %al
	je	.LBB52_5
.LBB52_18:
	movq	88(%rsp), %r12
	testq	%r12, %r12
	je	.LBB52_28
	leaq	-2(%r14), %rax
	xorl	%ecx, %ecx
	.p2align	4
.LBB52_20:
	movzwl	(%r15,%rcx,8), %edx
	cmpq	$7, %rdx
	jb	.LBB52_30
	cmpq	%rdx, %rax
	jb	.LBB52_30
	incq	%rcx
	cmpq	%rcx, %r12
	jne	.LBB52_20
	movl	%ebp, 40(%rsp)
	movl	%r9d, 84(%rsp)
	addq	$14, %r13
	addq	$-9, %r14
	xorl	%esi, %esi
	movq	216(%rsp), %rbx
	.p2align	4
.LBB52_24:
	movq	%r14, %rcx
	leaq	-1(%r12), %rbp
	movzwl	-8(%r15,%r12,8), %r14d
	leaq	-14(,%r14,2), %rdx
	addq	%r13, %rdx
	addq	$-7, %r14
	subq	%r14, %rcx
	movl	$1, %edi
	movq	224(%rsp), %r8
	callq	"dm_words::smallest::plan::plan_to"
	movq	224(%rsp), %r8
	movl	-4(%r15,%r12,8), %ecx
	cmpl	$16383, %ecx
	movw	$4, %dx
	sbbw	$0, %dx
	cmpl	$127, %ecx
	movl	$2, %esi
	cmovael	%edx, %esi
	addl	%eax, %esi
	movw	%si, -2(%rbx,%r12,2)
	movq	%rbp, %r12
	testq	%rbp, %rbp
	jne	.LBB52_24
	movl	$1, %edi
	movq	%r13, %rdx
	movq	%r14, %rcx
	callq	"dm_words::smallest::plan::plan_to"
	incl	%eax
	cmpw	40(%rsp), %ax
	movl	48(%rsp), %r13d
	jbe	.LBB52_39
	xorl	%ebx, %ebx
	movq	96(%rsp), %rcx
	movq	88(%rsp), %r12
	.p2align	4
.LBB52_27:
	leaq	-1(%r12), %rbp
	movzwl	-8(%r15,%r12,8), %r14d
	movq	72(%rsp), %rax
	leaq	(%rax,%r14,2), %rdx
	subq	%r14, %rcx
	movl	$1, %edi
	movl	%ebx, %esi
	movq	224(%rsp), %r8
	callq	"dm_words::smallest::plan::plan_to"
	movl	-4(%r15,%r12,8), %ecx
	cmpl	$16383, %ecx
	movw	$4, %dx
	sbbw	$0, %dx
	cmpl	$127, %ecx
	movl	$2, %ebx
	cmovael	%edx, %ebx
	addl	%eax, %ebx
	movq	216(%rsp), %rax
	movw	%bx, -2(%rax,%r12,2)
	movq	%r14, %rcx
	movq	%rbp, %r12
	testq	%rbp, %rbp
	jne	.LBB52_27
	jmp	.LBB52_29
.LBB52_28:
	leaq	14(%r13), %rdx
	leaq	-9(%r14), %rcx
	xorl	%ebx, %ebx
	movl	$1, %edi
	xorl	%esi, %esi
	movq	224(%rsp), %r8
	movl	%ebp, %r12d
	movl	%r9d, %ebp
	callq	"dm_words::smallest::plan::plan_to"
	movl	%ebp, %r11d
	incl	%eax
	movl	%r12d, 40(%rsp)
	cmpw	%r12w, %ax
	movl	48(%rsp), %r13d
	jbe	.LBB52_7
.LBB52_29:
	movl	$1, %edi
	movl	%ebx, %esi
	movq	72(%rsp), %rdx
	movq	%r14, %rcx
	movq	224(%rsp), %r8
	callq	"dm_words::smallest::plan::plan_to"
	xorl	%r11d, %r11d
	movl	40(%rsp), %eax
	movb	$1, %bl
	jmp	.LBB52_7
.LBB52_30:
	movl	%ebp, %eax
	xorl	%r11d, %r11d
	jmp	.LBB52_6
.LBB52_31:
	movl	%r13d, %ebp
	movl	%r9d, %r12d
.LBB52_32:
	movl	%r11d, 84(%rsp)
	xorl	%eax, %eax
	movzbl	47(%rsp), %edi
	testb	%dil, %dil
	setne	%al
	cmpw	$1, %si
	sete	%sil
	movq	%rsi, 64(%rsp)
	xorl	%r9d, %r9d
	movzbl	39(%rsp), %r8d
	testb	%r8b, %r8b
	movq	4(%rcx,%rdx), %rsi
	movq	%rsi, 56(%rsp)
	movl	14(%rcx,%rdx), %ecx
	movl	%ecx, 40(%rsp)
	movb	%r8b, 106(%rsp)
	movb	%dil, 107(%rsp)
	movq	144(%rsp), %rcx
	movl	%ecx, 108(%rsp)
	leaq	1(%rax,%rax,2), %rax
	cmovneq	%rax, %r9
	movq	%r9, 48(%rsp)
	movq	72(%rsp), %r13
	movq	%r13, %rdi
	movq	96(%rsp), %rsi
	movq	%r15, %rdx
	movq	88(%rsp), %rcx
	callq	"dm_words::contents::normal_form::marked_length"
	addq	48(%rsp), %rax
	cmpq	%r14, %rax
	jbe	.LBB52_37
	testb	%bl, %bl
	je	.LBB52_38
	cmpb	$0, 39(%rsp)
	movq	232(%rsp), %r13
	je	.LBB52_40
	cmpb	$0, 47(%rsp)
	je	.LBB52_41
	movq	144(%rsp), %rsi
	movl	%esi, %edx
	shrl	$8, %edx
	movl	%esi, %ecx
	shrl	$16, %ecx
	movl	%esi, %eax
	shrl	$24, %eax
	shlb	$4, %sil
	subb	%dl, %sil
	incb	%sil
	movb	$-23, %dl
	movl	$4, %ebx
	jmp	.LBB52_42
.LBB52_37:
	leaq	106(%rsp), %rdi
	movq	%r13, %rsi
	movq	96(%rsp), %rdx
	movq	%r15, %rcx
	movq	88(%rsp), %r8
	movq	232(%rsp), %r13
	movq	%r13, %r9
	callq	"dm_words::contents::normal_form::write_form"
	jmp	.LBB52_44
.LBB52_38:
	movq	232(%rsp), %r13
	movl	84(%rsp), %eax
	movb	%al, (%r13)
	movq	$1, 112(%rsp)
	movq	72(%rsp), %rsi
	addq	$14, %rsi
	movq	96(%rsp), %rdx
	addq	$-9, %rdx
	leaq	112(%rsp), %rax
	movq	%rax, 24(%rsp)
	movq	%r14, 16(%rsp)
	movq	%r13, 8(%rsp)
	movq	224(%rsp), %rax
	movq	%rax, (%rsp)
	movl	$7, %edi
	jmp	.LBB52_43
.LBB52_39:
	xorl	%ebx, %ebx
	movl	84(%rsp), %r11d
	jmp	.LBB52_7
.LBB52_40:
	xorl	%eax, %eax
	xorl	%ecx, %ecx
	xorl	%ebx, %ebx
	xorl	%esi, %esi
	xorl	%edx, %edx
	jmp	.LBB52_42
.LBB52_41:
	movb	$-22, %dl
	movl	$1, %ebx
	xorl	%eax, %eax
	xorl	%ecx, %ecx
	xorl	%esi, %esi
.LBB52_42:
	movb	%dl, 128(%rsp)
	movb	%sil, 129(%rsp)
	movb	%cl, 130(%rsp)
	movb	%al, 131(%rsp)
	movl	$0, 132(%rsp)
	movq	%rbx, 136(%rsp)
	leaq	128(%rsp), %rsi
	movq	%r13, %rdi
	movq	%rbx, %rdx
	callq	memcpy@PLT
	movq	%rbx, 112(%rsp)
	leaq	112(%rsp), %rax
	movq	%rax, 24(%rsp)
	movq	%r14, 16(%rsp)
	movq	%r13, 8(%rsp)
	movq	224(%rsp), %rax
	movq	%rax, (%rsp)
	xorl	%edi, %edi
	movq	72(%rsp), %rsi
	movq	96(%rsp), %rdx
.LBB52_43:
	movq	%r15, %rcx
	movq	88(%rsp), %r8
	movq	216(%rsp), %r9
	callq	"dm_words::smallest::contents::write_texts"
	movq	112(%rsp), %rax
.LBB52_44:
	movq	120(%rsp), %r9
	cmpq	%r14, %rax
	jae	.LBB52_57
	movb	$-127, (%r13,%rax)
	leaq	1(%rax), %rcx
	cmpq	%r14, %rcx
	jae	.LBB52_57
	notq	%rax
	addq	%r14, %rax
	cmpq	$4, %rax
	jb	.LBB52_56
	cmpq	$16, %rax
	jae	.LBB52_49
	xorl	%edx, %edx
	movq	%rcx, %rsi
	jmp	.LBB52_53
.LBB52_49:
	movq	%rax, %rdx
	andq	$-16, %rdx
	leaq	(%rcx,%rdx), %rsi
	movd	%ecx, %xmm0
	pshufd	$0, %xmm0, %xmm1
	movdqa	.LCPI52_0(%rip), %xmm2
	paddd	%xmm1, %xmm2
	movdqa	.LCPI52_1(%rip), %xmm3
	paddd	%xmm1, %xmm3
	movdqa	.LCPI52_2(%rip), %xmm4
	paddd	%xmm1, %xmm4
	paddd	.LCPI52_3(%rip), %xmm1
	leaq	(%rcx,%r13), %rdi
	xorl	%r8d, %r8d
	.p2align	4
.LBB52_50:
	pcmpeqd	%xmm0, %xmm0
	movdqa	%xmm1, %xmm5
	psubd	%xmm0, %xmm5
	movdqa	%xmm4, %xmm7
	psubd	%xmm0, %xmm7
	movdqa	%xmm3, %xmm6
	psubd	%xmm0, %xmm6
	movdqa	%xmm2, %xmm8
	psubd	%xmm0, %xmm8
	pxor	%xmm0, %xmm0
	pblendw	$170, %xmm0, %xmm8
	pblendw	$170, %xmm0, %xmm6
	pblendw	$170, %xmm0, %xmm7
	pblendw	$170, %xmm0, %xmm5
	movdqa	.LCPI52_4(%rip), %xmm0
	pmulld	%xmm0, %xmm5
	pmulld	%xmm0, %xmm7
	pmulld	%xmm0, %xmm6
	pmulld	%xmm0, %xmm8
	pshufd	$245, %xmm8, %xmm9
	movdqa	.LCPI52_5(%rip), %xmm0
	pmuludq	%xmm0, %xmm9
	movdqa	%xmm8, %xmm10
	pmuludq	%xmm0, %xmm10
	pshufd	$245, %xmm10, %xmm10
	pblendw	$204, %xmm9, %xmm10
	movdqa	.LCPI52_6(%rip), %xmm9
	pmulld	%xmm9, %xmm10
	psubd	%xmm10, %xmm8
	pshufd	$245, %xmm6, %xmm10
	pmuludq	%xmm0, %xmm10
	movdqa	%xmm6, %xmm11
	pmuludq	%xmm0, %xmm11
	pshufd	$245, %xmm11, %xmm11
	pblendw	$204, %xmm10, %xmm11
	pmulld	%xmm9, %xmm11
	psubd	%xmm11, %xmm6
	pshufd	$245, %xmm7, %xmm10
	pmuludq	%xmm0, %xmm10
	movdqa	%xmm7, %xmm11
	pmuludq	%xmm0, %xmm11
	pshufd	$245, %xmm11, %xmm11
	pblendw	$204, %xmm10, %xmm11
	pmulld	%xmm9, %xmm11
	psubd	%xmm11, %xmm7
	pshufd	$245, %xmm5, %xmm10
	pmuludq	%xmm0, %xmm10
	pmuludq	%xmm5, %xmm0
	pshufd	$245, %xmm0, %xmm0
	pblendw	$204, %xmm10, %xmm0
	pmulld	%xmm9, %xmm0
	psubd	%xmm0, %xmm5
	movdqa	.LCPI52_7(%rip), %xmm9
	movdqa	%xmm9, %xmm0
	pcmpgtd	%xmm5, %xmm0
	movdqa	%xmm9, %xmm10
	pcmpgtd	%xmm7, %xmm10
	packssdw	%xmm10, %xmm0
	movdqa	%xmm9, %xmm10
	pcmpgtd	%xmm6, %xmm10
	pcmpgtd	%xmm8, %xmm9
	packssdw	%xmm9, %xmm10
	packsswb	%xmm10, %xmm0
	packusdw	%xmm7, %xmm5
	packusdw	%xmm8, %xmm6
	packuswb	%xmm6, %xmm5
	movdqa	.LCPI52_8(%rip), %xmm6
	pblendvb	%xmm0, .LCPI52_9(%rip), %xmm6
	paddb	%xmm5, %xmm6
	movdqu	%xmm6, (%rdi,%r8)
	addq	$16, %r8
	movdqa	.LCPI52_10(%rip), %xmm0
	paddd	%xmm0, %xmm1
	paddd	%xmm0, %xmm4
	paddd	%xmm0, %xmm3
	paddd	%xmm0, %xmm2
	cmpq	%r8, %rdx
	jne	.LBB52_50
	cmpq	%rdx, %rax
	je	.LBB52_57
	testb	$12, %al
	je	.LBB52_59
.LBB52_53:
	movq	%rax, %rdi
	andq	$-4, %rdi
	movd	%esi, %xmm0
	pshufd	$0, %xmm0, %xmm1
	paddd	.LCPI52_3(%rip), %xmm1
	leaq	(%rcx,%r13), %rsi
	addq	%rdi, %rcx
	.p2align	4
.LBB52_54:
	pcmpeqd	%xmm3, %xmm3
	movdqa	%xmm1, %xmm0
	psubd	%xmm3, %xmm0
	pxor	%xmm2, %xmm2
	pblendw	$85, %xmm0, %xmm2
	pmulld	.LCPI52_4(%rip), %xmm2
	pshufd	$245, %xmm2, %xmm0
	movdqa	.LCPI52_5(%rip), %xmm4
	pmuludq	%xmm4, %xmm0
	pmuludq	%xmm2, %xmm4
	pshufd	$245, %xmm4, %xmm4
	pblendw	$204, %xmm0, %xmm4
	pmulld	.LCPI52_6(%rip), %xmm4
	psubd	%xmm4, %xmm2
	movdqa	%xmm2, %xmm0
	pcmpgtd	.LCPI52_11(%rip), %xmm0
	packssdw	%xmm0, %xmm0
	pxor	%xmm3, %xmm0
	packsswb	%xmm0, %xmm0
	movdqa	.LCPI52_12(%rip), %xmm3
	pblendvb	%xmm0, .LCPI52_13(%rip), %xmm3
	packusdw	%xmm2, %xmm2
	packuswb	%xmm2, %xmm2
	paddb	%xmm2, %xmm3
	movd	%xmm3, (%rsi,%rdx)
	addq	$4, %rdx
	paddd	.LCPI52_14(%rip), %xmm1
	cmpq	%rdx, %rdi
	jne	.LBB52_54
	cmpq	%rdi, %rax
	je	.LBB52_57
	.p2align	4
.LBB52_56:
	movq	%rcx, %rax
	incq	%rcx
	movzwl	%cx, %edx
	imull	$149, %edx, %edx
	imulq	$16976156, %rdx, %rsi
	shrq	$32, %rsi
	imull	$253, %esi, %esi
	subl	%esi, %edx
	cmpl	$125, %edx
	setae	%sil
	addb	%sil, %sil
	addb	%dl, %sil
	addb	$-126, %sil
	movb	%sil, (%r13,%rax)
	cmpq	%rcx, %r14
	jne	.LBB52_56
.LBB52_57:
	xorl	%eax, %eax
	movq	64(%rsp), %rcx
	movq	56(%rsp), %rdx
	movl	40(%rsp), %esi
.LBB52_58:
	movb	%al, (%r9)
	movw	%bp, 2(%r9)
	movw	%r12w, 4(%r9)
	movq	%rdx, 6(%r9)
	movw	%r14w, 14(%r9)
	movl	%esi, 16(%r9)
	movb	%cl, 20(%r9)
	movb	$0, 21(%r9)
	addq	$152, %rsp
	.cfi_def_cfa_offset 56
	popq	%rbx
	.cfi_def_cfa_offset 48
	popq	%r12
	.cfi_def_cfa_offset 40
	popq	%r13
	.cfi_def_cfa_offset 32
	popq	%r14
	.cfi_def_cfa_offset 24
	popq	%r15
	.cfi_def_cfa_offset 16
	popq	%rbp
	.cfi_def_cfa_offset 8
	retq
.LBB52_59:
	.cfi_def_cfa_offset 208
	addq	%rdx, %rcx
	jmp	.LBB52_56
.Lfunc_end52:
	.size	"dm_words::smallest::contents::smallest_marked_to", .Lfunc_end52-"dm_words::smallest::contents::smallest_marked_to"
	.cfi_endproc
	.section	.rodata,"a",@progbits
	.p2align	2, 0x0
.LJTI52_0:
	.long	.LBB52_12-.LJTI52_0
	.long	.LBB52_14-.LJTI52_0
	.long	.LBB52_8-.LJTI52_0
	.long	.LBB52_32-.LJTI52_0
	.long	.LBB52_13-.LJTI52_0

	.text
	.p2align	4
	.type	"dm_words::smallest::contents::write_texts",@function
"dm_words::smallest::contents::write_texts":
	.cfi_startproc
	pushq	%rbp
	.cfi_def_cfa_offset 16
	pushq	%r15
	.cfi_def_cfa_offset 24
	pushq	%r14
	.cfi_def_cfa_offset 32
	pushq	%r13
	.cfi_def_cfa_offset 40
	pushq	%r12
	.cfi_def_cfa_offset 48
	pushq	%rbx
	.cfi_def_cfa_offset 56
	subq	$88, %rsp
	.cfi_def_cfa_offset 144
	.cfi_offset %rbx, -56
	.cfi_offset %r12, -48
	.cfi_offset %r13, -40
	.cfi_offset %r14, -32
	.cfi_offset %r15, -24
	.cfi_offset %rbp, -16
	movq	%r9, 72(%rsp)
	movq	%rcx, 24(%rsp)
	movq	%rdx, 48(%rsp)
	movq	%rsi, (%rsp)
	movq	%rdi, 56(%rsp)
	movq	168(%rsp), %r13
	movq	160(%rsp), %rax
	movq	%rax, 16(%rsp)
	movq	152(%rsp), %rbx
	movq	144(%rsp), %rax
	movq	%rax, 8(%rsp)
	movq	%r8, 64(%rsp)
	xorl	%ecx, %ecx
	testq	%r8, %r8
	je	.LBB53_8
	xorl	%r14d, %r14d
	jmp	.LBB53_2
	.p2align	4
.LBB53_3:
	incb	%al
	movl	$1, %ebp
	xorl	%ecx, %ecx
	xorl	%edx, %edx
.LBB53_7:
	movq	(%r13), %r15
	leaq	35(%rsp), %rsi
	movb	$0, 4(%rsi)
	movl	$0, (%rsi)
	movb	%al, 32(%rsp)
	movb	%cl, 33(%rsp)
	movb	%dl, 34(%rsp)
	movq	%rbp, 40(%rsp)
	leaq	(%rbx,%r15), %rdi
	incq	%rdi
	leaq	32(%rsp), %rsi
	movq	%rbp, %rdx
	callq	memcpy@PLT
	leaq	(%r15,%rbp), %rax
	incq	%rax
	movq	%rax, (%r13)
	incq	%r14
	cmpq	%r14, 64(%rsp)
	movq	80(%rsp), %rcx
	je	.LBB53_8
.LBB53_2:
	movq	%rcx, %rax
	movq	24(%rsp), %rcx
	movzwl	(%rcx,%r14,8), %r15d
	subq	56(%rsp), %r15
	movq	(%rsp), %rcx
	leaq	(%rcx,%rax,2), %rbp
	movq	%r15, 80(%rsp)
	subq	%rax, %r15
	movq	72(%rsp), %rax
	movzwl	(%rax,%r14,2), %esi
	movl	$1, %edi
	movq	%rbp, %rdx
	movq	%r15, %rcx
	movq	8(%rsp), %r12
	movq	%r12, %r8
	callq	"dm_words::smallest::plan::plan_to"
	movq	%rbp, %rdi
	movq	%r15, %rsi
	movq	%r12, %rdx
	movq	%rbx, %rcx
	movq	16(%rsp), %r8
	movq	%r13, %r9
	callq	"dm_words::smallest::parts::write_parts"
	movq	24(%rsp), %rax
	movl	4(%rax,%r14,8), %eax
	movq	(%r13), %rcx
	movb	$-15, (%rbx,%rcx)
	cmpl	$126, %eax
	jbe	.LBB53_3
	cmpl	$16382, %eax
	ja	.LBB53_6
	leal	-127(%rax), %ecx
	movzwl	%cx, %ecx
	shrl	%ecx
	imull	$33027, %ecx, %edx
	shrl	$22, %edx
	leal	(%rax,%rdx,2), %ecx
	addl	$-127, %ecx
	leal	-128(%rdx), %eax
	incb	%cl
	movl	$2, %ebp
	xorl	%edx, %edx
	jmp	.LBB53_7
	.p2align	4
.LBB53_6:
	leal	-16383(%rax), %edx
	movl	%edx, %ecx
	shrl	$2, %ecx
	shrl	%edx
	movl	$2164392969, %esi
	imulq	%rdx, %rsi
	shrq	$38, %rsi
	leal	(%rax,%rsi,2), %edx
	addl	$-16383, %edx
	imulq	$1090717717, %rcx, %rax
	shrq	$44, %rax
	addb	$-64, %al
	imulq	$33818641, %rsi, %rcx
	shrq	$32, %rcx
	andl	$254, %ecx
	addl	%esi, %ecx
	incb	%cl
	incb	%dl
	movl	$3, %ebp
	jmp	.LBB53_7
.LBB53_8:
	movq	(%rsp), %rax
	leaq	(%rax,%rcx,2), %r14
	movq	48(%rsp), %r15
	subq	%rcx, %r15
	movl	$1, %edi
	xorl	%esi, %esi
	movq	%r14, %rdx
	movq	%r15, %rcx
	movq	8(%rsp), %r12
	movq	%r12, %r8
	callq	"dm_words::smallest::plan::plan_to"
	movq	%r14, %rdi
	movq	%r15, %rsi
	movq	%r12, %rdx
	movq	%rbx, %rcx
	movq	16(%rsp), %r8
	movq	%r13, %r9
	addq	$88, %rsp
	.cfi_def_cfa_offset 56
	popq	%rbx
	.cfi_def_cfa_offset 48
	popq	%r12
	.cfi_def_cfa_offset 40
	popq	%r13
	.cfi_def_cfa_offset 32
	popq	%r14
	.cfi_def_cfa_offset 24
	popq	%r15
	.cfi_def_cfa_offset 16
	popq	%rbp
	.cfi_def_cfa_offset 8
	jmp	"dm_words::smallest::parts::write_parts"
.Lfunc_end53:
	.size	"dm_words::smallest::contents::write_texts", .Lfunc_end53-"dm_words::smallest::contents::write_texts"
	.cfi_endproc

	.p2align	4
	.type	"dm_words::smallest::smallest_in::<=512,=102>",@function
"dm_words::smallest::smallest_in::<=512,=102>":
	.cfi_startproc
	pushq	%rbp
	.cfi_def_cfa_offset 16
	pushq	%r15
	.cfi_def_cfa_offset 24
	pushq	%r14
	.cfi_def_cfa_offset 32
	pushq	%r13
	.cfi_def_cfa_offset 40
	pushq	%r12
	.cfi_def_cfa_offset 48
	pushq	%rbx
	.cfi_def_cfa_offset 56
	subq	$1864, %rsp
	.cfi_def_cfa_offset 1920
	.cfi_offset %rbx, -56
	.cfi_offset %r12, -48
	.cfi_offset %r13, -40
	.cfi_offset %r14, -32
	.cfi_offset %r15, -24
	.cfi_offset %rbp, -16
	movq	%r9, 104(%rsp)
	movq	%r8, %r15
	movq	%rcx, %r13
	movl	%esi, %ebp
	movq	%rdi, %rbx
	movq	1920(%rsp), %r14
	movq	1928(%rsp), %rax
	movzbl	(%rdx), %r12d
	movb	%r12b, 42(%rsp)
	movzbl	1(%rdx), %ecx
	movb	%cl, 43(%rsp)
	movl	2(%rdx), %ecx
	movl	%ecx, 44(%rsp)
	movzbl	(%rax), %ecx
	movw	%cx, 36(%rsp)
	movl	2(%rax), %eax
	movl	%eax, 38(%rsp)
	xorps	%xmm0, %xmm0
	movaps	%xmm0, 80(%rsp)
	movq	$0, 94(%rsp)
	movaps	%xmm0, 48(%rsp)
	movq	$0, 62(%rsp)
	leaq	328(%rsp), %rdi
	movl	$1536, %edx
	xorl	%esi, %esi
	callq	memset@PLT
	xorps	%xmm0, %xmm0
	movaps	%xmm0, 112(%rsp)
	movaps	%xmm0, 128(%rsp)
	movaps	%xmm0, 144(%rsp)
	movaps	%xmm0, 160(%rsp)
	movaps	%xmm0, 176(%rsp)
	movaps	%xmm0, 192(%rsp)
	movaps	%xmm0, 208(%rsp)
	movaps	%xmm0, 224(%rsp)
	movaps	%xmm0, 240(%rsp)
	movaps	%xmm0, 256(%rsp)
	movaps	%xmm0, 272(%rsp)
	movaps	%xmm0, 288(%rsp)
	movups	%xmm0, 300(%rsp)
	testb	%r12b, %r12b
	sete	%al
	testq	%r14, %r14
	sete	%cl
	testb	%al, %cl
	je	.LBB54_2
	movq	1936(%rsp), %rax
	movq	%rax, (%rsp)
	movzbl	%bpl, %esi
	leaq	80(%rsp), %rdi
	leaq	36(%rsp), %r8
	leaq	328(%rsp), %r9
	movq	%r13, %rdx
	movq	%r15, %rcx
	callq	"dm_words::smallest::smallest_items_to"
	movzbl	80(%rsp), %eax
	movb	%al, (%rbx)
	movups	82(%rsp), %xmm0
	movups	%xmm0, 2(%rbx)
	movl	98(%rsp), %eax
	jmp	.LBB54_6
.LBB54_2:
	movq	1936(%rsp), %rax
	testb	%bpl, %bpl
	je	.LBB54_3
	movq	%rax, 24(%rsp)
	leaq	328(%rsp), %rax
	movq	%rax, 16(%rsp)
	leaq	112(%rsp), %rax
	movq	%rax, 8(%rsp)
	leaq	36(%rsp), %rax
	movq	%rax, (%rsp)
	leaq	48(%rsp), %rdi
	leaq	42(%rsp), %rsi
	movq	%r13, %rdx
	movq	%r15, %rcx
	movq	104(%rsp), %r8
	movq	%r14, %r9
	callq	"dm_words::smallest::contents::smallest_marked_to"
	movzbl	48(%rsp), %eax
	jmp	.LBB54_5
.LBB54_3:
	movb	$1, %al
.LBB54_5:
	movb	%al, (%rbx)
	movups	50(%rsp), %xmm0
	movups	%xmm0, 2(%rbx)
	movl	66(%rsp), %eax
.LBB54_6:
	movl	%eax, 18(%rbx)
	addq	$1864, %rsp
	.cfi_def_cfa_offset 56
	popq	%rbx
	.cfi_def_cfa_offset 48
	popq	%r12
	.cfi_def_cfa_offset 40
	popq	%r13
	.cfi_def_cfa_offset 32
	popq	%r14
	.cfi_def_cfa_offset 24
	popq	%r15
	.cfi_def_cfa_offset 16
	popq	%rbp
	.cfi_def_cfa_offset 8
	retq
.Lfunc_end54:
	.size	"dm_words::smallest::smallest_in::<=512,=102>", .Lfunc_end54-"dm_words::smallest::smallest_in::<=512,=102>"
	.cfi_endproc

	.p2align	4
	.type	"dm_words::smallest::smallest_in::<=3124,=779>",@function
"dm_words::smallest::smallest_in::<=3124,=779>":
	.cfi_startproc
	pushq	%rbp
	.cfi_def_cfa_offset 16
	pushq	%r15
	.cfi_def_cfa_offset 24
	pushq	%r14
	.cfi_def_cfa_offset 32
	pushq	%r13
	.cfi_def_cfa_offset 40
	pushq	%r12
	.cfi_def_cfa_offset 48
	pushq	%rbx
	.cfi_def_cfa_offset 56
	subq	$3072, %rsp
	.cfi_adjust_cfa_offset 3072
	movq	$0, (%rsp)
	subq	$3072, %rsp
	.cfi_adjust_cfa_offset 3072
	movq	$0, (%rsp)
	subq	$3072, %rsp
	.cfi_adjust_cfa_offset 3072
	movq	$0, (%rsp)
	subq	$1832, %rsp
	.cfi_def_cfa_offset 11104
	.cfi_offset %rbx, -56
	.cfi_offset %r12, -48
	.cfi_offset %r13, -40
	.cfi_offset %r14, -32
	.cfi_offset %r15, -24
	.cfi_offset %rbp, -16
	movq	%r9, 104(%rsp)
	movq	%r8, %r15
	movq	%rcx, %r13
	movl	%esi, %ebp
	movq	%rdi, %rbx
	movq	11112(%rsp), %rax
	movzbl	(%rdx), %r14d
	movb	%r14b, 42(%rsp)
	movzbl	1(%rdx), %ecx
	movb	%cl, 43(%rsp)
	movl	2(%rdx), %ecx
	movl	%ecx, 44(%rsp)
	movzbl	(%rax), %ecx
	movw	%cx, 36(%rsp)
	movl	2(%rax), %eax
	movl	%eax, 38(%rsp)
	xorps	%xmm0, %xmm0
	movaps	%xmm0, 80(%rsp)
	movq	$0, 94(%rsp)
	movaps	%xmm0, 48(%rsp)
	movq	$0, 62(%rsp)
	leaq	1676(%rsp), %rdi
	movl	$9372, %edx
	xorl	%esi, %esi
	callq	memset@PLT
	leaq	118(%rsp), %r12
	movl	$1558, %edx
	movq	%r12, %rdi
	xorl	%esi, %esi
	callq	memset@PLT
	movq	11104(%rsp), %r9
	testb	%r14b, %r14b
	sete	%al
	testq	%r9, %r9
	sete	%cl
	testb	%al, %cl
	je	.LBB55_2
	movq	11120(%rsp), %rax
	movq	%rax, (%rsp)
	movzbl	%bpl, %esi
	leaq	80(%rsp), %rdi
	leaq	36(%rsp), %r8
	leaq	1676(%rsp), %r9
	movq	%r13, %rdx
	movq	%r15, %rcx
	callq	"dm_words::smallest::smallest_items_to"
	movzbl	80(%rsp), %eax
	movb	%al, (%rbx)
	movups	82(%rsp), %xmm0
	movups	%xmm0, 2(%rbx)
	movl	98(%rsp), %eax
	jmp	.LBB55_6
.LBB55_2:
	movq	11120(%rsp), %rax
	testb	%bpl, %bpl
	je	.LBB55_3
	movq	%rax, 24(%rsp)
	leaq	1676(%rsp), %rax
	movq	%rax, 16(%rsp)
	movq	%r12, 8(%rsp)
	leaq	36(%rsp), %rax
	movq	%rax, (%rsp)
	leaq	48(%rsp), %rdi
	leaq	42(%rsp), %rsi
	movq	%r13, %rdx
	movq	%r15, %rcx
	movq	104(%rsp), %r8
	callq	"dm_words::smallest::contents::smallest_marked_to"
	movzbl	48(%rsp), %eax
	jmp	.LBB55_5
.LBB55_3:
	movb	$1, %al
.LBB55_5:
	movb	%al, (%rbx)
	movups	50(%rsp), %xmm0
	movups	%xmm0, 2(%rbx)
	movl	66(%rsp), %eax
.LBB55_6:
	movl	%eax, 18(%rbx)
	addq	$11048, %rsp
	.cfi_def_cfa_offset 56
	popq	%rbx
	.cfi_def_cfa_offset 48
	popq	%r12
	.cfi_def_cfa_offset 40
	popq	%r13
	.cfi_def_cfa_offset 32
	popq	%r14
	.cfi_def_cfa_offset 24
	popq	%r15
	.cfi_def_cfa_offset 16
	popq	%rbp
	.cfi_def_cfa_offset 8
	retq
.Lfunc_end55:
	.size	"dm_words::smallest::smallest_in::<=3124,=779>", .Lfunc_end55-"dm_words::smallest::smallest_in::<=3124,=779>"
	.cfi_endproc

	.section	.rodata.cst16,"aM",@progbits,16
	.p2align	4, 0x0
.LCPI56_0:
	.byte	0
	.byte	0
	.byte	0
	.byte	0
	.byte	0
	.byte	0
	.byte	0
	.byte	0
	.byte	1
	.byte	1
	.byte	1
	.byte	1
	.byte	1
	.byte	1
	.byte	1
	.byte	1
.LCPI56_1:
	.byte	1
	.byte	2
	.byte	4
	.byte	8
	.byte	16
	.byte	32
	.byte	64
	.byte	128
	.byte	1
	.byte	2
	.byte	4
	.byte	8
	.byte	16
	.byte	32
	.byte	64
	.byte	128
.LCPI56_2:
	.zero	16,1
.LCPI56_3:
	.byte	2
	.byte	2
	.byte	2
	.byte	2
	.byte	2
	.byte	2
	.byte	2
	.byte	2
	.byte	3
	.byte	3
	.byte	3
	.byte	3
	.byte	3
	.byte	3
	.byte	3
	.byte	3
	.text
	.p2align	4
	.type	"ecc200_calls::writing::show_words::<=32,=98>",@function
"ecc200_calls::writing::show_words::<=32,=98>":
	.cfi_startproc
	pushq	%rbp
	.cfi_def_cfa_offset 16
	pushq	%r15
	.cfi_def_cfa_offset 24
	pushq	%r14
	.cfi_def_cfa_offset 32
	pushq	%r13
	.cfi_def_cfa_offset 40
	pushq	%r12
	.cfi_def_cfa_offset 48
	pushq	%rbx
	.cfi_def_cfa_offset 56
	subq	$936, %rsp
	.cfi_def_cfa_offset 992
	.cfi_offset %rbx, -56
	.cfi_offset %r12, -48
	.cfi_offset %r13, -40
	.cfi_offset %r14, -32
	.cfi_offset %r15, -24
	.cfi_offset %rbp, -16
	movq	%rcx, %r14
	movq	%rdx, 8(%rsp)
	movq	%rsi, %r12
	movq	%rdi, %r13
	movzwl	(%rdi), %ebx
	movzwl	14(%rdi), %r15d
	movl	16(%rdi), %ebp
	xorps	%xmm0, %xmm0
	movups	%xmm0, 302(%rsp)
	movups	%xmm0, 286(%rsp)
	movups	%xmm0, 270(%rsp)
	movups	%xmm0, 254(%rsp)
	movups	%xmm0, 238(%rsp)
	movups	%xmm0, 222(%rsp)
	movw	$0, 318(%rsp)
	leaq	340(%rsp), %rdi
	movl	$524, %edx
	xorl	%esi, %esi
	callq	memset@PLT
	xorps	%xmm0, %xmm0
	movaps	%xmm0, 864(%rsp)
	movaps	%xmm0, 880(%rsp)
	movaps	%xmm0, 896(%rsp)
	movaps	%xmm0, 912(%rsp)
	movw	%bx, 32(%rsp)
	movq	2(%r13), %rax
	movq	%rax, 34(%rsp)
	movl	10(%r13), %eax
	movl	%eax, 42(%rsp)
	movw	%r15w, 46(%rsp)
	movl	%ebp, 48(%rsp)
	movw	%bx, 202(%rsp)
	movq	2(%r13), %rax
	movq	%rax, 204(%rsp)
	movl	10(%r13), %eax
	movl	%eax, 212(%rsp)
	movw	%r15w, 216(%rsp)
	movq	%r14, %r15
	movl	%ebp, 218(%rsp)
	leaq	32(%rsp), %rsi
	leaq	222(%rsp), %rbx
	movq	%rbx, %rdi
	movq	%r12, %rdx
	movq	8(%rsp), %rcx
	callq	"dm_symbol::symbol::writing::complete_in"
	movl	218(%rsp), %eax
	movl	%eax, 336(%rsp)
	movdqu	202(%rsp), %xmm0
	movdqa	%xmm0, 320(%rsp)
	leaq	352(%rsp), %rdx
	leaq	202(%rsp), %rdi
	movq	%rbx, %rsi
	leaq	864(%rsp), %rcx
	callq	"dm_layout::symbols::placing::lay_list"
	movzwl	320(%rsp), %edi
	pxor	%xmm0, %xmm0
	pinsrw	$3, %edi, %xmm0
	movzwl	322(%rsp), %r12d
	movq	%xmm0, (%r14)
	movw	%r12w, 8(%r14)
	testq	%rdi, %rdi
	je	.LBB56_42
	leaq	10(%r15), %r14
	movzwl	%r12w, %ebx
	movq	%rbx, %r13
	imulq	%rdi, %r13
	testw	%r12w, %r12w
	je	.LBB56_15
	leaq	-145(%rbx), %rax
	andq	$-16, %rax
	addq	$16, %rax
	movq	%rax, 16(%rsp)
	addl	%edi, %edi
	xorl	%r15d, %r15d
	xorl	%ebp, %ebp
	movq	%rdi, 8(%rsp)
	jmp	.LBB56_3
	.p2align	4
.LBB56_39:
	leaq	(%r14,%r15), %rdi
	leaq	32(%rsp), %rsi
	movq	%rbx, %rdx
	callq	memcpy@PLT
.LBB56_40:
	movq	8(%rsp), %rdi
.LBB56_41:
	addq	$2, %rbp
	addq	%rbx, %r15
	cmpq	%rbp, %rdi
	je	.LBB56_42
.LBB56_3:
	leaq	16(%rbx), %rax
	addq	%r15, %rax
	cmpq	%r13, %rax
	jbe	.LBB56_4
	pxor	%xmm0, %xmm0
	movdqa	%xmm0, 176(%rsp)
	movdqa	%xmm0, 160(%rsp)
	movdqa	%xmm0, 144(%rsp)
	movdqa	%xmm0, 128(%rsp)
	movdqa	%xmm0, 112(%rsp)
	movdqa	%xmm0, 96(%rsp)
	movdqa	%xmm0, 80(%rsp)
	movdqa	%xmm0, 64(%rsp)
	movdqa	%xmm0, 48(%rsp)
	movzwl	864(%rsp,%rbp), %eax
	movq	352(%rsp,%rbp,8), %rdx
	movd	%edx, %xmm1
	pshufb	.LCPI56_0(%rip), %xmm1
	movq	360(%rsp,%rbp,8), %rcx
	movdqa	.LCPI56_1(%rip), %xmm0
	pand	%xmm0, %xmm1
	pcmpeqb	%xmm0, %xmm1
	pand	.LCPI56_2(%rip), %xmm1
	movdqa	%xmm1, 32(%rsp)
	cmpw	$17, %r12w
	jb	.LBB56_36
	movd	%edx, %xmm1
	pshufb	.LCPI56_3(%rip), %xmm1
	pand	%xmm0, %xmm1
	pcmpeqb	%xmm0, %xmm1
	pand	.LCPI56_2(%rip), %xmm1
	movdqa	%xmm1, 48(%rsp)
	cmpw	$33, %r12w
	jb	.LBB56_36
	movq	%rdx, %rsi
	shrq	$32, %rsi
	movd	%esi, %xmm1
	pshufb	.LCPI56_0(%rip), %xmm1
	pand	%xmm0, %xmm1
	pcmpeqb	%xmm0, %xmm1
	pand	.LCPI56_2(%rip), %xmm1
	movdqa	%xmm1, 64(%rsp)
	cmpw	$49, %r12w
	jb	.LBB56_36
	shrq	$48, %rdx
	movd	%edx, %xmm1
	pshufb	.LCPI56_0(%rip), %xmm1
	pand	%xmm0, %xmm1
	pcmpeqb	%xmm0, %xmm1
	pand	.LCPI56_2(%rip), %xmm1
	movdqa	%xmm1, 80(%rsp)
	cmpw	$65, %r12w
	jb	.LBB56_36
	movd	%ecx, %xmm1
	pshufb	.LCPI56_0(%rip), %xmm1
	pand	%xmm0, %xmm1
	pcmpeqb	%xmm0, %xmm1
	pand	.LCPI56_2(%rip), %xmm1
	movdqa	%xmm1, 96(%rsp)
	cmpw	$81, %r12w
	jb	.LBB56_36
	movd	%ecx, %xmm1
	pshufb	.LCPI56_3(%rip), %xmm1
	pand	%xmm0, %xmm1
	pcmpeqb	%xmm0, %xmm1
	pand	.LCPI56_2(%rip), %xmm1
	movdqa	%xmm1, 112(%rsp)
	cmpw	$97, %r12w
	jb	.LBB56_36
	movq	%rcx, %rdx
	shrq	$32, %rdx
	movd	%edx, %xmm1
	pshufb	.LCPI56_0(%rip), %xmm1
	pand	%xmm0, %xmm1
	pcmpeqb	%xmm0, %xmm1
	pand	.LCPI56_2(%rip), %xmm1
	movdqa	%xmm1, 128(%rsp)
	cmpw	$113, %r12w
	jb	.LBB56_36
	shrq	$48, %rcx
	movd	%ecx, %xmm1
	pshufb	.LCPI56_0(%rip), %xmm1
	pand	%xmm0, %xmm1
	pcmpeqb	%xmm0, %xmm1
	pand	.LCPI56_2(%rip), %xmm1
	movdqa	%xmm1, 144(%rsp)
	.p2align	4
.LBB56_36:
	cmpl	$129, %ebx
	jb	.LBB56_39
	movd	%eax, %xmm1
	pshufb	.LCPI56_0(%rip), %xmm1
	pand	%xmm0, %xmm1
	pcmpeqb	%xmm0, %xmm1
	pand	.LCPI56_2(%rip), %xmm1
	movdqa	%xmm1, 160(%rsp)
	cmpl	$145, %ebx
	jb	.LBB56_39
	leaq	176(%rsp), %rdi
	xorl	%esi, %esi
	movq	16(%rsp), %rdx
	callq	memset@PLT
	jmp	.LBB56_39
	.p2align	4
.LBB56_4:
	movzwl	864(%rsp,%rbp), %eax
	movq	352(%rsp,%rbp,8), %rdx
	movd	%edx, %xmm1
	pshufb	.LCPI56_0(%rip), %xmm1
	movq	360(%rsp,%rbp,8), %rcx
	movdqa	.LCPI56_1(%rip), %xmm0
	pand	%xmm0, %xmm1
	pcmpeqb	%xmm0, %xmm1
	pand	.LCPI56_2(%rip), %xmm1
	movdqu	%xmm1, (%r14,%r15)
	cmpw	$17, %r12w
	jb	.LBB56_12
	movd	%edx, %xmm1
	pshufb	.LCPI56_3(%rip), %xmm1
	pand	%xmm0, %xmm1
	pcmpeqb	%xmm0, %xmm1
	pand	.LCPI56_2(%rip), %xmm1
	movdqu	%xmm1, 16(%r14,%r15)
	cmpw	$33, %r12w
	jb	.LBB56_12
	movq	%rdx, %rsi
	shrq	$32, %rsi
	movd	%esi, %xmm1
	pshufb	.LCPI56_0(%rip), %xmm1
	pand	%xmm0, %xmm1
	pcmpeqb	%xmm0, %xmm1
	pand	.LCPI56_2(%rip), %xmm1
	movdqu	%xmm1, 32(%r14,%r15)
	cmpw	$49, %r12w
	jb	.LBB56_12
	shrq	$48, %rdx
	movd	%edx, %xmm1
	pshufb	.LCPI56_0(%rip), %xmm1
	pand	%xmm0, %xmm1
	pcmpeqb	%xmm0, %xmm1
	pand	.LCPI56_2(%rip), %xmm1
	movdqu	%xmm1, 48(%r14,%r15)
	cmpw	$65, %r12w
	jb	.LBB56_12
	movd	%ecx, %xmm1
	pshufb	.LCPI56_0(%rip), %xmm1
	pand	%xmm0, %xmm1
	pcmpeqb	%xmm0, %xmm1
	pand	.LCPI56_2(%rip), %xmm1
	movdqu	%xmm1, 64(%r14,%r15)
	cmpw	$81, %r12w
	jb	.LBB56_12
	movd	%ecx, %xmm1
	pshufb	.LCPI56_3(%rip), %xmm1
	pand	%xmm0, %xmm1
	pcmpeqb	%xmm0, %xmm1
	pand	.LCPI56_2(%rip), %xmm1
	movdqu	%xmm1, 80(%r14,%r15)
	cmpw	$97, %r12w
	jb	.LBB56_12
	movq	%rcx, %rdx
	shrq	$32, %rdx
	movd	%edx, %xmm1
	pshufb	.LCPI56_0(%rip), %xmm1
	pand	%xmm0, %xmm1
	pcmpeqb	%xmm0, %xmm1
	pand	.LCPI56_2(%rip), %xmm1
	movdqu	%xmm1, 96(%r14,%r15)
	cmpw	$113, %r12w
	jb	.LBB56_12
	shrq	$48, %rcx
	movd	%ecx, %xmm1
	pshufb	.LCPI56_0(%rip), %xmm1
	pand	%xmm0, %xmm1
	pcmpeqb	%xmm0, %xmm1
	pand	.LCPI56_2(%rip), %xmm1
	movdqu	%xmm1, 112(%r14,%r15)
	.p2align	4
.LBB56_12:
	cmpl	$129, %ebx
	jb	.LBB56_41
	movd	%eax, %xmm1
	pshufb	.LCPI56_0(%rip), %xmm1
	pand	%xmm0, %xmm1
	pcmpeqb	%xmm0, %xmm1
	pand	.LCPI56_2(%rip), %xmm1
	movdqu	%xmm1, 128(%r14,%r15)
	cmpl	$145, %ebx
	jb	.LBB56_41
	leaq	(%r14,%r15), %rdi
	addq	$144, %rdi
	xorl	%esi, %esi
	movq	16(%rsp), %rdx
	callq	memset@PLT
	jmp	.LBB56_40
.LBB56_15:
	movl	%edi, %r12d
	andl	$3, %r12d
	cmpw	$4, %di
	jae	.LBB56_17
	xorl	%ebp, %ebp
	jmp	.LBB56_24
.LBB56_17:
	movq	%r15, 24(%rsp)
	andl	$-4, %edi
	leal	(,%rbx,4), %eax
	movq	%rax, 8(%rsp)
	leal	(%rbx,%rbx), %eax
	movq	%rax, 16(%rsp)
	xorl	%ebp, %ebp
	movq	%rdi, %r15
	jmp	.LBB56_18
	.p2align	4
.LBB56_22:
	addq	$4, %rbp
	addq	8(%rsp), %r14
	cmpq	%rbp, %r15
	je	.LBB56_23
.LBB56_18:
	cmpl	%ebx, %r13d
	ja	.LBB56_20
	movq	%r14, %rdi
	xorl	%esi, %esi
	movq	%rbx, %rdx
	callq	memset@PLT
	leaq	(%r14,%rbx), %rdi
	xorl	%esi, %esi
	movq	%rbx, %rdx
	callq	memset@PLT
.LBB56_20:
	cmpl	%ebx, %r13d
	ja	.LBB56_22
	movq	16(%rsp), %rax
	leaq	(%r14,%rax), %rdi
	xorl	%esi, %esi
	movq	%rbx, %rdx
	callq	memset@PLT
	leaq	(%rbx,%rbx,2), %rax
	leaq	(%r14,%rax), %rdi
	xorl	%esi, %esi
	movq	%rbx, %rdx
	callq	memset@PLT
	jmp	.LBB56_22
.LBB56_23:
	testq	%r12, %r12
	movq	24(%rsp), %r15
	je	.LBB56_42
.LBB56_24:
	imulq	%rbx, %rbp
	leaq	(%r15,%rbp), %r14
	addq	$10, %r14
	jmp	.LBB56_25
	.p2align	4
.LBB56_27:
	addq	%rbx, %r14
	decq	%r12
	je	.LBB56_42
.LBB56_25:
	cmpl	%ebx, %r13d
	ja	.LBB56_27
	movq	%r14, %rdi
	xorl	%esi, %esi
	movq	%rbx, %rdx
	callq	memset@PLT
	jmp	.LBB56_27
.LBB56_42:
	addq	$936, %rsp
	.cfi_def_cfa_offset 56
	popq	%rbx
	.cfi_def_cfa_offset 48
	popq	%r12
	.cfi_def_cfa_offset 40
	popq	%r13
	.cfi_def_cfa_offset 32
	popq	%r14
	.cfi_def_cfa_offset 24
	popq	%r15
	.cfi_def_cfa_offset 16
	popq	%rbp
	.cfi_def_cfa_offset 8
	retq
.Lfunc_end56:
	.size	"ecc200_calls::writing::show_words::<=32,=98>", .Lfunc_end56-"ecc200_calls::writing::show_words::<=32,=98>"
	.cfi_endproc

	.p2align	4
	.type	"dm_symbol::symbol::writing::complete_in",@function
"dm_symbol::symbol::writing::complete_in":
	.cfi_startproc
	pushq	%rbp
	.cfi_def_cfa_offset 16
	pushq	%r15
	.cfi_def_cfa_offset 24
	pushq	%r14
	.cfi_def_cfa_offset 32
	pushq	%r13
	.cfi_def_cfa_offset 40
	pushq	%r12
	.cfi_def_cfa_offset 48
	pushq	%rbx
	.cfi_def_cfa_offset 56
	subq	$808, %rsp
	.cfi_def_cfa_offset 864
	.cfi_offset %rbx, -56
	.cfi_offset %r12, -48
	.cfi_offset %r13, -40
	.cfi_offset %r14, -32
	.cfi_offset %r15, -24
	.cfi_offset %rbp, -16
	movq	%rdi, %r14
	movzwl	12(%rsi), %r15d
	movzwl	14(%rsi), %ebx
	movzwl	16(%rsi), %r12d
	movq	%rdi, %rax
	subq	%rdx, %rax
	cmpq	%rcx, %rax
	jae	.LBB57_50
	cmpq	$4, %rcx
	setb	%sil
	cmpq	$32, %rax
	setb	%al
	orb	%sil, %al
	je	.LBB57_3
	xorl	%eax, %eax
	jmp	.LBB57_12
.LBB57_50:
	movq	%r14, %rdi
	movq	%rdx, %rsi
	movq	%rcx, %rdx
	callq	memmove@PLT
	jmp	.LBB57_17
.LBB57_3:
	cmpq	$16, %rcx
	jae	.LBB57_5
	xorl	%eax, %eax
	jmp	.LBB57_9
.LBB57_5:
	movl	%ecx, %eax
	andl	$65520, %eax
	xorl	%esi, %esi
	.p2align	4
.LBB57_6:
	movups	(%rdx,%rsi), %xmm0
	movups	%xmm0, (%r14,%rsi)
	addq	$16, %rsi
	cmpq	%rsi, %rax
	jne	.LBB57_6
	cmpq	%rax, %rcx
	je	.LBB57_17
	testb	$12, %cl
	je	.LBB57_12
.LBB57_9:
	movq	%rax, %rsi
	movl	%ecx, %eax
	andl	$65532, %eax
	.p2align	4
.LBB57_10:
	movl	(%rdx,%rsi), %edi
	movl	%edi, (%r14,%rsi)
	addq	$4, %rsi
	cmpq	%rsi, %rax
	jne	.LBB57_10
	cmpq	%rax, %rcx
	je	.LBB57_17
.LBB57_12:
	movq	%rcx, %rdi
	movq	%rax, %rsi
	andq	$3, %rdi
	je	.LBB57_15
	movq	%rax, %rsi
	.p2align	4
.LBB57_14:
	movzbl	(%rdx,%rsi), %r8d
	movb	%r8b, (%r14,%rsi)
	incq	%rsi
	decq	%rdi
	jne	.LBB57_14
.LBB57_15:
	subq	%rcx, %rax
	cmpq	$-4, %rax
	ja	.LBB57_17
	.p2align	4
.LBB57_16:
	movzbl	(%rdx,%rsi), %eax
	movb	%al, (%r14,%rsi)
	movzbl	1(%rdx,%rsi), %eax
	movb	%al, 1(%r14,%rsi)
	movzbl	2(%rdx,%rsi), %eax
	movb	%al, 2(%r14,%rsi)
	movzbl	3(%rdx,%rsi), %eax
	movb	%al, 3(%r14,%rsi)
	addq	$4, %rsi
	cmpq	%rsi, %rcx
	jne	.LBB57_16
.LBB57_17:
	cmpl	$1, %r12d
	jne	.LBB57_22
	xorps	%xmm0, %xmm0
	movaps	%xmm0, 352(%rsp)
	movaps	%xmm0, 336(%rsp)
	movaps	%xmm0, 320(%rsp)
	movaps	%xmm0, 304(%rsp)
	movaps	%xmm0, 288(%rsp)
	movaps	%xmm0, 272(%rsp)
	leaq	272(%rsp), %rdi
	movq	%r14, %rsi
	movq	%r15, %rdx
	movq	%rbx, %rcx
	callq	"dm_code::encoding::divide"
	xorps	%xmm0, %xmm0
	movaps	%xmm0, 608(%rsp)
	movaps	%xmm0, 592(%rsp)
	movaps	%xmm0, 576(%rsp)
	movaps	%xmm0, 560(%rsp)
	movaps	%xmm0, 544(%rsp)
	cmpw	$68, %bx
	jbe	.LBB57_20
	xorl	%ebx, %ebx
	jmp	.LBB57_21
.LBB57_22:
	movq	%r14, (%rsp)
	testq	%r12, %r12
	je	.LBB57_49
	leal	(%rbx,%r15), %eax
	movzwl	%ax, %eax
	addq	%r12, %rax
	movq	%rax, 16(%rsp)
	addl	%r12d, %r15d
	movq	%r15, 24(%rsp)
	xorl	%ebp, %ebp
	movl	%ebx, %eax
	xorl	%edx, %edx
	divw	%r12w
	movzwl	%ax, %eax
	movq	%rax, 8(%rsp)
	leal	(,%r12,4), %r13d
	movq	(%rsp), %rbx
	jmp	.LBB57_24
	.p2align	4
.LBB57_48:
	incq	%rbp
	incq	%rbx
	cmpq	%r12, %rbp
	je	.LBB57_49
.LBB57_24:
	xorps	%xmm0, %xmm0
	movaps	%xmm0, 32(%rsp)
	movaps	%xmm0, 48(%rsp)
	movaps	%xmm0, 64(%rsp)
	movaps	%xmm0, 80(%rsp)
	movaps	%xmm0, 96(%rsp)
	movaps	%xmm0, 192(%rsp)
	movaps	%xmm0, 208(%rsp)
	movaps	%xmm0, 224(%rsp)
	movaps	%xmm0, 240(%rsp)
	movaps	%xmm0, 256(%rsp)
	leaq	272(%rsp), %rdi
	movl	$264, %edx
	xorl	%esi, %esi
	callq	memset@PLT
	movq	%rbp, %rax
	notq	%rax
	addq	16(%rsp), %rax
	cmpq	%r12, %rax
	jb	.LBB57_36
	movq	%rax, %rcx
	shrq	$32, %rcx
	je	.LBB57_26
	xorl	%edx, %edx
	divq	%r12
	jmp	.LBB57_28
.LBB57_26:
	xorl	%edx, %edx
	divl	%r12d
.LBB57_28:
	leaq	(%r12,%r12,2), %r8
	cmpq	$1, %rax
	movq	%rax, %rdx
	adcq	$0, %rdx
	movl	%edx, %ecx
	andl	$3, %ecx
	cmpq	$4, %rax
	jae	.LBB57_30
	xorl	%eax, %eax
	jmp	.LBB57_34
	.p2align	4
.LBB57_30:
	andq	$-4, %rdx
	negq	%rdx
	movl	$2, %eax
	movq	%rbx, %rsi
	.p2align	4
.LBB57_31:
	movzbl	(%rsi), %edi
	movb	%dil, 270(%rsp,%rax)
	leaq	-1(%rax), %rdi
	movq	%rdi, 528(%rsp)
	movzbl	(%rsi,%r12), %edi
	movb	%dil, 271(%rsp,%rax)
	movq	%rax, 528(%rsp)
	movzbl	(%rsi,%r12,2), %edi
	movb	%dil, 272(%rsp,%rax)
	leaq	1(%rax), %rdi
	movq	%rdi, 528(%rsp)
	movzbl	(%rsi,%r8), %edi
	movb	%dil, 273(%rsp,%rax)
	leaq	2(%rax), %rdi
	movq	%rdi, 528(%rsp)
	addq	%r13, %rsi
	leaq	(%rdx,%rax), %rdi
	addq	$4, %rdi
	addq	$4, %rax
	cmpq	$2, %rdi
	jne	.LBB57_31
	testq	%rcx, %rcx
	je	.LBB57_36
	addq	$-2, %rax
.LBB57_34:
	movq	%r12, %rdx
	imulq	%rax, %rdx
	incq	%rax
	addq	%rbx, %rdx
	.p2align	4
.LBB57_35:
	movzbl	(%rdx), %esi
	movb	%sil, 271(%rsp,%rax)
	movq	%rax, 528(%rsp)
	incq	%rax
	addq	%r12, %rdx
	decq	%rcx
	jne	.LBB57_35
.LBB57_36:
	leaq	544(%rsp), %rdi
	leaq	272(%rsp), %rsi
	movl	$264, %edx
	callq	memcpy@PLT
	movl	%ebp, %eax
	notl	%eax
	addl	24(%rsp), %eax
	xorl	%edx, %edx
	divw	%r12w
	movzwl	%ax, %r15d
	movq	800(%rsp), %rdx
	movq	%rdx, %rax
	subq	%r15, %rax
	jbe	.LBB57_38
	leaq	(%rsp,%r15), %rdi
	addq	$544, %rdi
	xorl	%esi, %esi
	movq	%rax, %rdx
	callq	memset@PLT
	movq	%r15, 800(%rsp)
	movq	%r15, %rdx
.LBB57_38:
	xorps	%xmm0, %xmm0
	movaps	%xmm0, 352(%rsp)
	movaps	%xmm0, 336(%rsp)
	movaps	%xmm0, 320(%rsp)
	movaps	%xmm0, 304(%rsp)
	movaps	%xmm0, 288(%rsp)
	movaps	%xmm0, 272(%rsp)
	leaq	272(%rsp), %rdi
	leaq	544(%rsp), %rsi
	movq	8(%rsp), %r14
	movq	%r14, %rcx
	callq	"dm_code::encoding::divide"
	xorps	%xmm0, %xmm0
	movaps	%xmm0, 176(%rsp)
	movaps	%xmm0, 160(%rsp)
	movaps	%xmm0, 144(%rsp)
	movaps	%xmm0, 128(%rsp)
	movaps	%xmm0, 112(%rsp)
	cmpw	$68, %r14w
	ja	.LBB57_40
	leaq	112(%rsp), %rdi
	leaq	272(%rsp), %rsi
	movq	8(%rsp), %r14
	movq	%r14, %rdx
	callq	memcpy@PLT
	movq	%r14, 184(%rsp)
.LBB57_40:
	movaps	176(%rsp), %xmm0
	movaps	%xmm0, 256(%rsp)
	movaps	112(%rsp), %xmm1
	movaps	128(%rsp), %xmm2
	movaps	144(%rsp), %xmm3
	movaps	160(%rsp), %xmm4
	movaps	%xmm4, 240(%rsp)
	movaps	%xmm3, 224(%rsp)
	movaps	%xmm2, 208(%rsp)
	movaps	%xmm1, 192(%rsp)
	movaps	%xmm0, 96(%rsp)
	movaps	%xmm1, 32(%rsp)
	movaps	%xmm2, 48(%rsp)
	movaps	%xmm3, 64(%rsp)
	movaps	%xmm4, 80(%rsp)
	movq	104(%rsp), %rsi
	testq	%rsi, %rsi
	je	.LBB57_48
	movq	(%rsp), %rax
	addq	%rbp, %rax
	movl	%esi, %ecx
	andl	$3, %ecx
	cmpq	$4, %rsi
	jae	.LBB57_43
	xorl	%edx, %edx
	jmp	.LBB57_46
	.p2align	4
.LBB57_43:
	andq	$-4, %rsi
	xorl	%edx, %edx
	.p2align	4
.LBB57_44:
	movzbl	32(%rsp,%rdx), %edi
	leaq	(%rdx,%r15), %r8
	imulq	%r12, %r8
	movb	%dil, (%rax,%r8)
	movzbl	33(%rsp,%rdx), %edi
	leaq	(%rdx,%r15), %r8
	incq	%r8
	imulq	%r12, %r8
	movb	%dil, (%rax,%r8)
	movzbl	34(%rsp,%rdx), %edi
	leaq	(%rdx,%r15), %r8
	addq	$2, %r8
	imulq	%r12, %r8
	movb	%dil, (%rax,%r8)
	movzbl	35(%rsp,%rdx), %edi
	leaq	(%rdx,%r15), %r8
	addq	$3, %r8
	imulq	%r12, %r8
	movb	%dil, (%rax,%r8)
	addq	$4, %rdx
	cmpq	%rdx, %rsi
	jne	.LBB57_44
	testq	%rcx, %rcx
	je	.LBB57_48
.LBB57_46:
	leaq	(%rsp,%rdx), %rsi
	addq	$32, %rsi
	xorl	%edi, %edi
	.p2align	4
.LBB57_47:
	movzbl	(%rsi,%rdi), %r8d
	leaq	(%rdx,%r15), %r9
	imulq	%r12, %r9
	movb	%r8b, (%rax,%r9)
	incq	%rdx
	incq	%rdi
	cmpq	%rdi, %rcx
	jne	.LBB57_47
	jmp	.LBB57_48
.LBB57_20:
	leaq	544(%rsp), %rdi
	leaq	272(%rsp), %rsi
	movq	%rbx, %rdx
	callq	memcpy@PLT
	movq	%rbx, 616(%rsp)
.LBB57_21:
	addq	%r15, %r14
	leaq	544(%rsp), %rsi
	movq	%r14, %rdi
	movq	%rbx, %rdx
	callq	memcpy@PLT
.LBB57_49:
	addq	$808, %rsp
	.cfi_def_cfa_offset 56
	popq	%rbx
	.cfi_def_cfa_offset 48
	popq	%r12
	.cfi_def_cfa_offset 40
	popq	%r13
	.cfi_def_cfa_offset 32
	popq	%r14
	.cfi_def_cfa_offset 24
	popq	%r15
	.cfi_def_cfa_offset 16
	popq	%rbp
	.cfi_def_cfa_offset 8
	retq
.Lfunc_end57:
	.size	"dm_symbol::symbol::writing::complete_in", .Lfunc_end57-"dm_symbol::symbol::writing::complete_in"
	.cfi_endproc

	.section	.rodata.cst16,"aM",@progbits,16
	.p2align	4, 0x0
.LCPI58_0:
	.long	15
	.long	0
	.long	0
	.long	0
.LCPI58_1:
	.short	65535
	.short	0
	.short	65535
	.short	65535
	.short	0
	.short	65533
	.short	0
	.zero	2
.LCPI58_2:
	.zero	2
	.short	0
	.zero	2
	.zero	2
	.short	0
	.zero	2
	.short	0
	.short	65534
.LCPI58_3:
	.short	1
	.short	1
	.short	1
	.zero	2
	.zero	2
	.zero	2
	.zero	2
	.zero	2
.LCPI58_4:
	.quad	15
	.quad	15
.LCPI58_5:
	.byte	1
	.byte	1
	.zero	1
	.zero	1
	.zero	1
	.zero	1
	.zero	1
	.zero	1
	.zero	1
	.zero	1
	.zero	1
	.zero	1
	.zero	1
	.zero	1
	.zero	1
	.zero	1
.LCPI58_6:
	.short	2
	.short	3
	.zero	2
	.zero	2
	.zero	2
	.zero	2
	.zero	2
	.zero	2
.LCPI58_7:
	.quad	1
	.quad	1
	.section	.rodata.cst4,"aM",@progbits,4
	.p2align	2, 0x0
.LCPI58_8:
	.long	15
	.text
	.p2align	4
	.type	"dm_layout::symbols::placing::lay_list",@function
"dm_layout::symbols::placing::lay_list":
	.cfi_startproc
	pushq	%rbp
	.cfi_def_cfa_offset 16
	pushq	%r15
	.cfi_def_cfa_offset 24
	pushq	%r14
	.cfi_def_cfa_offset 32
	pushq	%r13
	.cfi_def_cfa_offset 40
	pushq	%r12
	.cfi_def_cfa_offset 48
	pushq	%rbx
	.cfi_def_cfa_offset 56
	subq	$3072, %rsp
	.cfi_adjust_cfa_offset 3072
	movq	$0, (%rsp)
	subq	$3072, %rsp
	.cfi_adjust_cfa_offset 3072
	movq	$0, (%rsp)
	subq	$2888, %rsp
	.cfi_def_cfa_offset 9088
	.cfi_offset %rbx, -56
	.cfi_offset %r12, -48
	.cfi_offset %r13, -40
	.cfi_offset %r14, -32
	.cfi_offset %r15, -24
	.cfi_offset %rbp, -16
	movq	%rdx, 104(%rsp)
	movq	%rsi, %r12
	movzwl	2(%rdi), %edx
	movzwl	4(%rdi), %r15d
	movzwl	6(%rdi), %eax
	movq	%rax, 8(%rsp)
	movzwl	8(%rdi), %r14d
	movzwl	10(%rdi), %ebp
	movl	%ebp, %ebx
	imull	%eax, %ebx
	movl	%ebx, %r13d
	movw	%dx, 128(%rsp)
	movzwl	%dx, %eax
	movl	%eax, 80(%rsp)
	cmpw	$56, %bx
	movq	%rcx, 96(%rsp)
	movq	%r14, 112(%rsp)
	movq	%r15, 120(%rsp)
	movl	%ebp, 56(%rsp)
	movq	%rbx, 16(%rsp)
	ja	.LBB58_94
	movw	%r13w, 48(%rsp)
	leaq	352(%rsp), %rdi
	movl	$496, %edx
	xorl	%esi, %esi
	callq	memset@PLT
	movq	%r15, %r13
	imull	%r14d, %r15d
	leaq	4768(%rsp), %rdi
	movl	$456, %edx
	xorl	%esi, %esi
	callq	memset@PLT
	leaq	312(%rsp), %rdi
	movq	%r15, (%rsp)
	movl	%r15d, %esi
	movl	%ebx, %edx
	callq	"dm_layout::symbols::slots::order"
	movq	320(%rsp), %rax
	testq	%rax, %rax
	je	.LBB58_8
	movq	312(%rsp), %rcx
	cmpq	$1, %rax
	jne	.LBB58_4
	xorl	%edx, %edx
	jmp	.LBB58_7
.LBB58_94:
	imull	%r14d, %r15d
	cmpw	$120, %r13w
	movq	%r15, 32(%rsp)
	ja	.LBB58_176
	leaq	352(%rsp), %r14
	movl	$2016, %edx
	movq	%r14, %rdi
	xorl	%esi, %esi
	callq	memset@PLT
	leaq	4768(%rsp), %rdi
	movl	$1936, %edx
	xorl	%esi, %esi
	callq	memset@PLT
	leaq	312(%rsp), %rdi
	movl	%r15d, %esi
	movq	16(%rsp), %rdx
	callq	"dm_layout::symbols::slots::order"
	movq	320(%rsp), %rax
	testq	%rax, %rax
	je	.LBB58_102
	movq	312(%rsp), %rcx
	cmpq	$1, %rax
	jne	.LBB58_98
	xorl	%edx, %edx
	jmp	.LBB58_101
.LBB58_176:
	movw	%r13w, 48(%rsp)
	leaq	352(%rsp), %r14
	movl	$4416, %edx
	movq	%r14, %rdi
	xorl	%esi, %esi
	callq	memset@PLT
	leaq	4768(%rsp), %rdi
	movl	$4256, %edx
	xorl	%esi, %esi
	callq	memset@PLT
	leaq	312(%rsp), %rdi
	movl	%r15d, %esi
	movq	16(%rsp), %rdx
	callq	"dm_layout::symbols::slots::order"
	movq	320(%rsp), %rax
	testq	%rax, %rax
	je	.LBB58_183
	movq	312(%rsp), %rcx
	cmpq	$1, %rax
	jne	.LBB58_179
	xorl	%edx, %edx
	jmp	.LBB58_182
.LBB58_4:
	movq	%rax, %rsi
	andq	$-2, %rsi
	xorl	%edx, %edx
	.p2align	4
.LBB58_5:
	movzwl	(%rcx,%rdx,2), %edi
	movzbl	(%r12,%rdx), %r8d
	leaq	.Lstatic.2(%rip), %r9
	movzbl	(%r8,%r9), %r8d
	orb	%r8b, 4768(%rsp,%rdi)
	movzwl	2(%rcx,%rdx,2), %edi
	movzbl	1(%r12,%rdx), %r8d
	movzbl	(%r8,%r9), %r8d
	orb	%r8b, 4768(%rsp,%rdi)
	addq	$2, %rdx
	cmpq	%rdx, %rsi
	jne	.LBB58_5
	testb	$1, %al
	je	.LBB58_8
.LBB58_7:
	movzwl	(%rcx,%rdx,2), %ecx
	movzbl	(%r12,%rdx), %edx
	leaq	.Lstatic.2(%rip), %rsi
	movzbl	(%rdx,%rsi), %edx
	orb	%dl, 4768(%rsp,%rcx)
.LBB58_8:
	movq	336(%rsp), %rdi
	testq	%rdi, %rdi
	movq	(%rsp), %r11
	movq	%r13, %r15
	movabsq	$217020518514230019, %r13
	je	.LBB58_15
	movq	328(%rsp), %rdx
	movq	344(%rsp), %rcx
	cmpq	$1, %rdi
	jne	.LBB58_11
	xorl	%esi, %esi
	jmp	.LBB58_14
.LBB58_11:
	movq	%rdi, %r8
	andq	$-2, %r8
	leaq	(%rax,%r12), %r9
	incq	%r9
	xorl	%esi, %esi
	.p2align	4
.LBB58_12:
	movzwl	(%rdx,%rsi,2), %r10d
	subq	%rcx, %r10
	movzbl	-1(%r9,%rsi), %r11d
	leaq	.Lstatic.2(%rip), %rbx
	movzbl	(%r11,%rbx), %r11d
	orb	%r11b, 4768(%rsp,%r10)
	movzwl	2(%rdx,%rsi,2), %r10d
	subq	%rcx, %r10
	movzbl	(%r9,%rsi), %r11d
	movzbl	(%r11,%rbx), %r11d
	orb	%r11b, 4768(%rsp,%r10)
	addq	$2, %rsi
	cmpq	%rsi, %r8
	jne	.LBB58_12
	testb	$1, %dil
	movq	(%rsp), %r11
	je	.LBB58_15
.LBB58_14:
	addq	%rax, %r12
	movzwl	(%rdx,%rsi,2), %eax
	subq	%rcx, %rax
	movzbl	(%r12,%rsi), %ecx
	leaq	.Lstatic.2(%rip), %rdx
	movzbl	(%rcx,%rdx), %ecx
	orb	%cl, 4768(%rsp,%rax)
.LBB58_15:
	movzwl	%r11w, %esi
	testw	%r11w, %r11w
	je	.LBB58_16
	movabsq	$506381209866536711, %rax
	movq	360(%rsp), %r9
	xorl	%edx, %edx
	xorl	%edi, %edi
	movq	16(%rsp), %r12
	.p2align	4
.LBB58_18:
	movq	4768(%rsp,%rdi,8), %r8
	movq	%r8, %r10
	andq	%r13, %r10
	movl	%edx, %ecx
	andb	$7, %cl
	xorb	$4, %cl
	addb	$2, %cl
	shlq	%cl, %r10
	orq	%r10, 352(%rsp,%rdi,8)
	movq	%r8, %r10
	shrq	$2, %r10
	andq	%rax, %r10
	shlq	%cl, %r10
	orq	%r9, %r10
	shrq	$5, %r8
	andq	%rax, %r8
	shlq	%cl, %r8
	movq	%r10, 360(%rsp,%rdi,8)
	orq	368(%rsp,%rdi,8), %r8
	movq	%r8, 368(%rsp,%rdi,8)
	incq	%rdi
	addq	$3, %rdx
	movq	%r8, %r9
	cmpq	%rdi, %rsi
	jne	.LBB58_18
	movl	%r11d, %eax
	andl	$7, %eax
	movl	%eax, %ecx
	xorl	$4, %ecx
	movq	352(%rsp), %rdi
	leaq	(%rsp,%rsi,8), %r13
	addq	$352, %r13
	movq	352(%rsp,%rsi,8), %rdx
	cmpw	$4, %cx
	ja	.LBB58_22
	movq	8(%r13), %r8
	movzwl	%cx, %ecx
	movl	$4, %r9d
	subl	%ecx, %r9d
	movslq	%r9d, %rcx
	jmp	.LBB58_21
.LBB58_16:
	xorl	%r8d, %r8d
	xorl	%edx, %edx
	xorl	%edi, %edi
	xorl	%ecx, %ecx
	xorl	%eax, %eax
	movq	16(%rsp), %r12
	leaq	352(%rsp), %r13
.LBB58_21:
	shlq	%cl, %rdi
	orq	%rdx, %rdi
	movq	%rdi, (%r13)
	movq	360(%rsp), %rdx
	shlq	%cl, %rdx
	orq	%r8, %rdx
	jmp	.LBB58_23
.LBB58_22:
	addb	$-4, %cl
	shrq	%cl, %rdi
	orq	%rdi, %rdx
	movq	%rdx, (%r13)
	movq	360(%rsp), %rdx
	shrq	%cl, %rdx
	orq	8(%r13), %rdx
.LBB58_23:
	movq	%rdx, 8(%r13)
	leal	2(%r11), %edi
	movl	%r12d, %edx
	andl	$7, %edx
	cmpw	$5, %di
	jb	.LBB58_38
	movzwl	%dx, %r8d
	xorl	$65531, %r8d
	movzwl	48(%rsp), %ecx
	movzwl	%di, %edi
	leaq	-4(%rdi), %r10
	movl	$4, %r9d
	cmpq	$14, %r10
	jae	.LBB58_25
.LBB58_33:
	movl	%edi, %r11d
	subl	%r9d, %r11d
	movq	%r9, %r10
	testb	$1, %r11b
	je	.LBB58_35
	movl	%r8d, %r10d
	addl	$5, %r10d
	addl	%r9d, %r10d
	movq	352(%rsp,%r9,8), %r11
	andl	$15, %r11d
	shlq	%cl, %r11
	movzwl	%r10w, %r10d
	orq	%r11, 352(%rsp,%r10,8)
	leaq	1(%r9), %r10
.LBB58_35:
	leal	-1(%rdi), %r11d
	cmpl	%r11d, %r9d
	je	.LBB58_38
	movswq	%r8w, %r8
	leaq	6(%r8), %r9
	addq	$5, %r8
	.p2align	4
.LBB58_37:
	leal	(%r8,%r10), %r11d
	movq	352(%rsp,%r10,8), %rbx
	andl	$15, %ebx
	shlq	%cl, %rbx
	movzwl	%r11w, %r11d
	orq	%rbx, 352(%rsp,%r11,8)
	leal	(%r9,%r10), %r11d
	movq	360(%rsp,%r10,8), %rbx
	andl	$15, %ebx
	shlq	%cl, %rbx
	movzwl	%r11w, %r11d
	orq	%rbx, 352(%rsp,%r11,8)
	addq	$2, %r10
	cmpq	%r10, %rdi
	jne	.LBB58_37
.LBB58_38:
	movups	16(%r13), %xmm0
	movups	368(%rsp), %xmm1
	orps	%xmm0, %xmm1
	movdqu	384(%rsp), %xmm0
	movups	%xmm1, 368(%rsp)
	movdqu	32(%r13), %xmm1
	por	%xmm0, %xmm1
	movdqu	%xmm1, 384(%rsp)
	movzbl	5216(%rsp), %ecx
	leaq	.Lstatic.2(%rip), %rdi
	movzbl	(%rcx,%rdi), %edi
	cmpw	$4, %dx
	jne	.LBB58_41
	cmpw	$4, %ax
	jne	.LBB58_41
	movq	(%rsp), %r10
	leal	-1(%r10), %ecx
	movl	%edi, %eax
	shrl	$3, %eax
	movl	%eax, %r8d
	andb	$16, %r8b
	movzwl	%cx, %ecx
	movl	%edi, %edx
	shrb	%dl
	movl	%edx, %r9d
	andb	$32, %r9b
	orb	%r8b, %r9b
	leal	(%rdi,%rdi), %r8d
	andb	$64, %r8b
	orb	%r9b, %r8b
	movzbl	%r8b, %r8d
	orq	%r8, 368(%rsp,%rcx,8)
	movl	%edi, %r8d
	shrl	$4, %r8d
	andl	$1, %r8d
	movl	%r12d, %ecx
	orb	$2, %cl
	shlq	%cl, %r8
	movl	%r12d, %ecx
	orl	$3, %ecx
	andl	$1, %eax
	shlq	%cl, %rax
	movzbl	%dl, %edx
	movl	%edi, %r9d
	shrl	$2, %r9d
	andl	$1, %r9d
	shlq	%cl, %r9
	movzwl	%cx, %ecx
	orq	%r8, %rax
	movq	%rax, %xmm0
	movq	%r9, %xmm1
	punpcklqdq	%xmm1, %xmm0
	movdqu	368(%rsp), %xmm1
	por	%xmm0, %xmm1
	movdqu	384(%rsp), %xmm0
	movdqu	%xmm1, 368(%rsp)
	movd	%edx, %xmm1
	pinsrb	$1, %edi, %xmm1
	pand	.LCPI58_5(%rip), %xmm1
	pmovzxbq	%xmm1, %xmm1
	movd	%ecx, %xmm2
	psllq	%xmm2, %xmm1
	por	%xmm0, %xmm1
	movdqu	%xmm1, 384(%rsp)
	movq	8(%rsp), %rbx
	movq	96(%rsp), %r11
	movl	80(%rsp), %r13d
	jmp	.LBB58_50
.LBB58_41:
	cmpw	$6, %dx
	movq	8(%rsp), %rbx
	movq	96(%rsp), %r11
	movl	80(%rsp), %r13d
	movq	(%rsp), %r10
	jne	.LBB58_44
	cmpw	$6, %ax
	jne	.LBB58_44
	leal	-3(%r10), %eax
	leal	-2(%r10), %r8d
	leal	-1(%r10), %ecx
	movl	%edi, %edx
	shrl	$3, %edx
	movl	%edx, %r9d
	andl	$-16, %r9d
	movzwl	%ax, %eax
	orq	%r9, 368(%rsp,%rax,8)
	movl	%edi, %eax
	shrl	$2, %eax
	movl	%eax, %r9d
	andl	$16, %r9d
	movzwl	%r8w, %r8d
	orq	%r9, 368(%rsp,%r8,8)
	movl	%edi, %r8d
	shrl	%r8d
	movl	%r8d, %r9d
	andl	$16, %r9d
	movzwl	%cx, %ecx
	orq	%r9, 368(%rsp,%rcx,8)
	movl	%edi, %ecx
	shrb	$4, %cl
	andb	$1, %cl
	movzbl	%cl, %r9d
	movl	%r12d, %ecx
	shlq	%cl, %r9
	andl	$1, %edx
	orb	$1, %cl
	shlq	%cl, %rdx
	andl	$1, %eax
	leal	2(%r12), %ecx
	shlq	%cl, %rax
	orq	%rdx, %rax
	andl	$1, %r8d
	leal	3(%r12), %ecx
	shlq	%cl, %r8
	andl	$1, %edi
	shlq	%cl, %rdi
	orq	%r9, %rax
	orq	%rax, %r8
	movdqu	368(%rsp), %xmm0
	movq	%r8, %xmm1
	movq	%rdi, %xmm2
	punpcklqdq	%xmm2, %xmm1
	por	%xmm0, %xmm1
	movdqu	%xmm1, 368(%rsp)
	jmp	.LBB58_50
.LBB58_44:
	cmpw	$4, %dx
	jne	.LBB58_47
	cmpw	$6, %ax
	jne	.LBB58_47
	leal	-3(%r10), %ecx
	leal	-2(%r10), %r9d
	leal	-1(%r10), %r8d
	movl	%edi, %eax
	shrl	$3, %eax
	movl	%eax, %edx
	andl	$-16, %edx
	movzwl	%cx, %ecx
	orq	%rdx, 368(%rsp,%rcx,8)
	movl	%edi, %edx
	shrl	$2, %edx
	movl	%edx, %ecx
	andl	$16, %ecx
	movzwl	%r9w, %r9d
	orq	%rcx, 368(%rsp,%r9,8)
	movl	%edi, %ecx
	shrb	%cl
	movl	%ecx, %r9d
	andb	$16, %r9b
	movzbl	%r9b, %r9d
	movzwl	%r8w, %r8d
	orq	%r9, 368(%rsp,%r8,8)
	movzbl	%cl, %r8d
	movl	%edi, %ecx
	shrb	$4, %cl
	andb	$1, %cl
	movzbl	%cl, %r9d
	movl	%r12d, %ecx
	orb	$2, %cl
	shlq	%cl, %r9
	movl	%r12d, %ecx
	orl	$3, %ecx
	andl	$1, %eax
	shlq	%cl, %rax
	andl	$1, %edx
	shlq	%cl, %rdx
	movzwl	%cx, %ecx
	orq	%r9, %rax
	movq	%rax, %xmm0
	movq	%rdx, %xmm1
	punpcklqdq	%xmm1, %xmm0
	movdqu	368(%rsp), %xmm1
	por	%xmm0, %xmm1
	movdqu	384(%rsp), %xmm0
	movdqu	%xmm1, 368(%rsp)
	movd	%r8d, %xmm1
	pinsrb	$1, %edi, %xmm1
	pand	.LCPI58_5(%rip), %xmm1
	pmovzxbq	%xmm1, %xmm1
	movd	%ecx, %xmm2
	psllq	%xmm2, %xmm1
	por	%xmm0, %xmm1
	movdqu	%xmm1, 384(%rsp)
	jmp	.LBB58_50
.LBB58_25:
	leaq	-5(%rdi), %rbx
	movswl	%r8w, %r11d
	movl	$-10, %ebp
	subl	%r11d, %ebp
	cmpw	%bx, %bp
	jb	.LBB58_26
	cmpl	$65535, %ebx
	movl	56(%rsp), %ebp
	ja	.LBB58_33
	leal	72(,%r11,8), %r11d
	movzwl	%r11w, %r11d
	leaq	(%rsp,%r11), %r14
	addq	$352, %r14
	leaq	(%rsp,%rdi,8), %rbx
	addq	$352, %rbx
	cmpq	%rbx, %r14
	movq	112(%rsp), %r14
	jae	.LBB58_30
	addq	%rbx, %r11
	addq	$-32, %r11
	leaq	384(%rsp), %rbx
	cmpq	%r11, %rbx
	jb	.LBB58_33
.LBB58_30:
	movq	%r10, %r11
	andq	$-2, %r11
	leaq	4(%r11), %r9
	movd	%ecx, %xmm0
	movswq	%r8w, %rbx
	addq	$9, %rbx
	xorl	%r14d, %r14d
	.p2align	4
.LBB58_31:
	leal	(%rbx,%r14), %ebp
	movdqu	384(%rsp,%r14,8), %xmm1
	pand	.LCPI58_4(%rip), %xmm1
	psllq	%xmm0, %xmm1
	movzwl	%bp, %r15d
	movdqu	352(%rsp,%r15,8), %xmm2
	por	%xmm1, %xmm2
	movdqu	%xmm2, 352(%rsp,%r15,8)
	addq	$2, %r14
	cmpq	%r14, %r11
	jne	.LBB58_31
	cmpl	%r11d, %r10d
	movq	112(%rsp), %r14
	movq	120(%rsp), %r15
	movl	56(%rsp), %ebp
	jne	.LBB58_33
	jmp	.LBB58_38
.LBB58_98:
	movq	%rax, %rsi
	andq	$-2, %rsi
	xorl	%edx, %edx
	.p2align	4
.LBB58_99:
	movzwl	(%rcx,%rdx,2), %edi
	movzbl	(%r12,%rdx), %r8d
	leaq	.Lstatic.2(%rip), %r9
	movzbl	(%r8,%r9), %r8d
	orb	%r8b, 4768(%rsp,%rdi)
	movzwl	2(%rcx,%rdx,2), %edi
	movzbl	1(%r12,%rdx), %r8d
	movzbl	(%r8,%r9), %r8d
	orb	%r8b, 4768(%rsp,%rdi)
	addq	$2, %rdx
	cmpq	%rdx, %rsi
	jne	.LBB58_99
	testb	$1, %al
	je	.LBB58_102
.LBB58_101:
	movzwl	(%rcx,%rdx,2), %ecx
	movzbl	(%r12,%rdx), %edx
	leaq	.Lstatic.2(%rip), %rsi
	movzbl	(%rdx,%rsi), %edx
	orb	%dl, 4768(%rsp,%rcx)
.LBB58_102:
	movq	336(%rsp), %rdi
	testq	%rdi, %rdi
	je	.LBB58_109
	movq	328(%rsp), %rdx
	movq	344(%rsp), %rcx
	cmpq	$1, %rdi
	jne	.LBB58_105
	xorl	%esi, %esi
	jmp	.LBB58_108
.LBB58_179:
	movq	%rax, %rsi
	andq	$-2, %rsi
	xorl	%edx, %edx
	.p2align	4
.LBB58_180:
	movzwl	(%rcx,%rdx,2), %edi
	movzbl	(%r12,%rdx), %r8d
	leaq	.Lstatic.2(%rip), %r9
	movzbl	(%r8,%r9), %r8d
	orb	%r8b, 4768(%rsp,%rdi)
	movzwl	2(%rcx,%rdx,2), %edi
	movzbl	1(%r12,%rdx), %r8d
	movzbl	(%r8,%r9), %r8d
	orb	%r8b, 4768(%rsp,%rdi)
	addq	$2, %rdx
	cmpq	%rdx, %rsi
	jne	.LBB58_180
	testb	$1, %al
	je	.LBB58_183
.LBB58_182:
	movzwl	(%rcx,%rdx,2), %ecx
	movzbl	(%r12,%rdx), %edx
	leaq	.Lstatic.2(%rip), %rsi
	movzbl	(%rdx,%rsi), %edx
	orb	%dl, 4768(%rsp,%rcx)
.LBB58_183:
	movq	336(%rsp), %rdi
	testq	%rdi, %rdi
	je	.LBB58_190
	movq	328(%rsp), %rdx
	movq	344(%rsp), %rcx
	cmpq	$1, %rdi
	jne	.LBB58_186
	xorl	%esi, %esi
	jmp	.LBB58_189
.LBB58_105:
	movq	%rdi, %r8
	andq	$-2, %r8
	leaq	(%rax,%r12), %r9
	incq	%r9
	xorl	%esi, %esi
	.p2align	4
.LBB58_106:
	movzwl	(%rdx,%rsi,2), %r10d
	subq	%rcx, %r10
	movzbl	-1(%r9,%rsi), %r11d
	leaq	.Lstatic.2(%rip), %rbx
	movzbl	(%r11,%rbx), %r11d
	orb	%r11b, 4768(%rsp,%r10)
	movzwl	2(%rdx,%rsi,2), %r10d
	subq	%rcx, %r10
	movzbl	(%r9,%rsi), %r11d
	movzbl	(%r11,%rbx), %r11d
	orb	%r11b, 4768(%rsp,%r10)
	addq	$2, %rsi
	cmpq	%rsi, %r8
	jne	.LBB58_106
	testb	$1, %dil
	je	.LBB58_109
.LBB58_108:
	addq	%rax, %r12
	movzwl	(%rdx,%rsi,2), %eax
	subq	%rcx, %rax
	movzbl	(%r12,%rsi), %ecx
	leaq	.Lstatic.2(%rip), %rdx
	movzbl	(%rcx,%rdx), %ecx
	orb	%cl, 4768(%rsp,%rax)
.LBB58_109:
	testw	%r15w, %r15w
	je	.LBB58_110
	movabsq	$506381209866536711, %rdx
	movzwl	%r15w, %eax
	movq	368(%rsp), %r11
	movq	376(%rsp), %rbx
	leaq	(%rax,%rax,2), %rsi
	xorl	%edi, %edi
	xorl	%r8d, %r8d
	movabsq	$217020518514230019, %r13
	.p2align	4
.LBB58_112:
	movq	4768(%rsp,%r8), %r9
	movq	4776(%rsp,%r8), %r10
	movq	%r9, %r14
	andq	%r13, %r14
	movq	%r10, %r15
	andq	%r13, %r15
	movl	%edi, %ecx
	andb	$7, %cl
	xorb	$4, %cl
	addb	$2, %cl
	shldq	%cl, %r14, %r15
	shlq	%cl, %r14
	orq	%r14, 352(%rsp,%r8)
	movq	%r10, %r14
	shrq	$2, %r14
	movq	%r9, %r12
	shrq	$2, %r12
	andq	%rdx, %r12
	andq	%rdx, %r14
	shldq	%cl, %r12, %r14
	orq	%r15, 360(%rsp,%r8)
	orq	%rbx, %r14
	shlq	%cl, %r12
	orq	%r11, %r12
	movq	%r14, 376(%rsp,%r8)
	movq	%r12, 368(%rsp,%r8)
	shrq	$5, %r10
	shrq	$5, %r9
	andq	%rdx, %r9
	andq	%rdx, %r10
	shldq	%cl, %r9, %r10
	shlq	%cl, %r9
	orq	392(%rsp,%r8), %r10
	orq	384(%rsp,%r8), %r9
	movq	%r9, 384(%rsp,%r8)
	movq	%r10, 392(%rsp,%r8)
	addq	$3, %rdi
	addq	$16, %r8
	movq	%r9, %r11
	movq	%r10, %rbx
	cmpq	%rdi, %rsi
	jne	.LBB58_112
	shll	$4, %eax
	movq	32(%rsp), %r15
	movl	%r15d, %edx
	andl	$7, %edx
	movl	%edx, %ecx
	xorl	$4, %ecx
	movq	352(%rsp), %rsi
	movq	360(%rsp), %rdi
	leaq	(%rsp,%rax), %r14
	addq	$352, %r14
	movq	352(%rsp,%rax), %r8
	movq	360(%rsp,%rax), %rax
	cmpw	$4, %cx
	ja	.LBB58_116
	movq	16(%r14), %r9
	movq	%r9, (%rsp)
	movq	24(%r14), %r10
	movzwl	%cx, %r11d
	movl	$4, %ecx
	subl	%r11d, %ecx
	jmp	.LBB58_115
.LBB58_110:
	movq	$0, (%rsp)
	xorl	%r10d, %r10d
	xorl	%r8d, %r8d
	xorl	%eax, %eax
	xorl	%esi, %esi
	xorl	%edi, %edi
	xorl	%ecx, %ecx
	xorl	%edx, %edx
.LBB58_115:
	movq	16(%rsp), %r12
	movq	%r14, %r13
	movq	%rsi, %r11
	shlq	%cl, %r11
	xorl	%ebx, %ebx
	testb	$64, %cl
	movq	%r11, %r14
	cmovneq	%rbx, %r14
	orq	%r8, %r14
	movq	%r14, (%r13)
	movq	368(%rsp), %r8
	movq	%r8, %r14
	shlq	%cl, %r14
	testb	$64, %cl
	cmoveq	%r14, %rbx
	shldq	%cl, %rsi, %rdi
	testb	$64, %cl
	cmovneq	%r11, %rdi
	orq	%rax, %rdi
	movq	%rdi, 8(%r13)
	movq	376(%rsp), %r11
	shldq	%cl, %r8, %r11
	testb	$64, %cl
	cmovneq	%r14, %r11
	orq	%r10, %r11
	orq	(%rsp), %rbx
	movq	%r13, %r14
	jmp	.LBB58_117
.LBB58_186:
	movq	%rdi, %r8
	andq	$-2, %r8
	leaq	(%rax,%r12), %r9
	incq	%r9
	xorl	%esi, %esi
	.p2align	4
.LBB58_187:
	movzwl	(%rdx,%rsi,2), %r10d
	subq	%rcx, %r10
	movzbl	-1(%r9,%rsi), %r11d
	leaq	.Lstatic.2(%rip), %rbx
	movzbl	(%r11,%rbx), %r11d
	orb	%r11b, 4768(%rsp,%r10)
	movzwl	2(%rdx,%rsi,2), %r10d
	subq	%rcx, %r10
	movzbl	(%r9,%rsi), %r11d
	movzbl	(%r11,%rbx), %r11d
	orb	%r11b, 4768(%rsp,%r10)
	addq	$2, %rsi
	cmpq	%rsi, %r8
	jne	.LBB58_187
	testb	$1, %dil
	je	.LBB58_190
.LBB58_189:
	addq	%rax, %r12
	movzwl	(%rdx,%rsi,2), %eax
	subq	%rcx, %rax
	movzbl	(%r12,%rsi), %ecx
	leaq	.Lstatic.2(%rip), %rdx
	movzbl	(%rcx,%rdx), %ecx
	orb	%cl, 4768(%rsp,%rax)
.LBB58_190:
	movzwl	%r15w, %eax
	testw	%r15w, %r15w
	movq	%rax, 88(%rsp)
	je	.LBB58_191
	leaq	(%rax,%rax,2), %rax
	movq	%rax, 24(%rsp)
	xorl	%r8d, %r8d
	xorl	%r9d, %r9d
	.p2align	4
.LBB58_193:
	movq	%r8, (%rsp)
	movq	4784(%rsp,%r9), %r10
	movq	4768(%rsp,%r9), %rbp
	movq	4776(%rsp,%r9), %r11
	movq	4792(%rsp,%r9), %rdi
	movq	%rbp, %r13
	movabsq	$217020518514230019, %rdx
	andq	%rdx, %r13
	movq	%r11, %r15
	andq	%rdx, %r15
	movq	%r10, %r12
	movq	(%rsp), %r8
	andb	$7, %r8b
	xorb	$4, %r8b
	leal	2(%r8), %eax
	movq	%r15, %r14
	movl	%eax, %ecx
	shldq	%cl, %r13, %r14
	andq	%rdx, %r12
	movq	%rdi, %rbx
	andq	%rdx, %rbx
	shlq	%cl, %r13
	shldq	%cl, %r12, %rbx
	movb	$125, %dl
	subb	%r8b, %dl
	shlq	%cl, %r12
	shrq	%r15
	movl	%edx, %ecx
	shrq	%cl, %r15
	orq	368(%rsp,%r9), %r15
	orq	%r13, 352(%rsp,%r9)
	orq	%r14, 360(%rsp,%r9)
	movq	%r11, %r13
	shrq	$2, %r13
	movq	%rbp, %r14
	shrq	$2, %r14
	orq	%rbx, 376(%rsp,%r9)
	movq	%rdi, %rbx
	shrq	$2, %rbx
	orq	%r12, %r15
	movq	%r10, %r12
	movabsq	$506381209866536711, %rsi
	andq	%rsi, %r14
	andq	%rsi, %r13
	movq	%r15, 368(%rsp,%r9)
	movq	%r13, %r8
	movl	%eax, %ecx
	shldq	%cl, %r14, %r8
	shrq	$2, %r12
	andq	%rsi, %r12
	andq	%rsi, %rbx
	shlq	%cl, %r14
	shldq	%cl, %r12, %rbx
	orq	%r14, 384(%rsp,%r9)
	shlq	%cl, %r12
	shrq	%r13
	movl	%edx, %ecx
	shrq	%cl, %r13
	orq	%r12, %r13
	orq	%r8, 392(%rsp,%r9)
	orq	%rbx, 408(%rsp,%r9)
	shrq	$5, %r11
	shrq	$5, %rbp
	orq	%r13, 400(%rsp,%r9)
	andq	%rsi, %rbp
	andq	%rsi, %r11
	movq	%r11, %r8
	movl	%eax, %ecx
	shldq	%cl, %rbp, %r8
	shlq	%cl, %rbp
	orq	%rbp, 416(%rsp,%r9)
	orq	%r8, 424(%rsp,%r9)
	movq	(%rsp), %r8
	shrq	$5, %rdi
	shrq	$5, %r10
	andq	%rsi, %r10
	andq	%rsi, %rdi
	shldq	%cl, %r10, %rdi
	orq	%rdi, 440(%rsp,%r9)
	shlq	%cl, %r10
	shrq	%r11
	movl	%edx, %ecx
	shrq	%cl, %r11
	orq	%r10, %r11
	orq	%r11, 432(%rsp,%r9)
	addq	$3, %r8
	addq	$32, %r9
	cmpq	%r8, 24(%rsp)
	jne	.LBB58_193
	movq	88(%rsp), %rax
	shll	$5, %eax
	movq	32(%rsp), %rcx
	movl	%ecx, %edx
	andl	$7, %edx
	movl	%edx, %ecx
	xorl	$4, %ecx
	leaq	(%rsp,%rax), %r14
	addq	$352, %r14
	movq	352(%rsp,%rax), %rsi
	movq	%rsi, 24(%rsp)
	movq	360(%rsp,%rax), %r13
	movq	376(%rsp,%rax), %rsi
	movq	%rsi, 64(%rsp)
	movq	368(%rsp,%rax), %r10
	movq	352(%rsp), %rdi
	movq	360(%rsp), %r8
	cmpw	$4, %cx
	movl	%edx, (%rsp)
	ja	.LBB58_197
	leaq	(%rsp,%rax), %rbp
	addq	$368, %rbp
	leaq	384(%rsp,%rax), %r11
	movq	368(%rsp), %r12
	movq	376(%rsp), %rsi
	movq	(%r11), %rax
	movq	%rax, 40(%rsp)
	movq	8(%r11), %rax
	movq	%rax, 184(%rsp)
	jmp	.LBB58_196
.LBB58_191:
	leaq	368(%rsp), %rbp
	movw	$4, %cx
	leaq	384(%rsp), %r11
	movq	$0, 40(%rsp)
	movq	$0, 184(%rsp)
	xorl	%r12d, %r12d
	xorl	%esi, %esi
	xorl	%edi, %edi
	xorl	%r8d, %r8d
	xorl	%r10d, %r10d
	movq	$0, 64(%rsp)
	movq	$0, 24(%rsp)
	xorl	%r13d, %r13d
	movl	$0, (%rsp)
.LBB58_196:
	movb	$4, %al
	subb	%cl, %al
	movq	%r8, %r9
	movq	%rcx, %rdx
	movl	%eax, %ecx
	shldq	%cl, %rdi, %r9
	movq	%r8, %r15
	shldq	$63, %rdi, %r15
	shlq	%cl, %rdi
	shldq	%cl, %r12, %rsi
	shlq	%cl, %r12
	shrq	%r8
	addb	$123, %dl
	movl	%edx, %ecx
	shrdq	%cl, %r8, %r15
	shrq	%cl, %r8
	xorl	%ebx, %ebx
	testb	$64, %dl
	cmovneq	%r8, %r15
	cmovneq	%rbx, %r8
	orq	24(%rsp), %rdi
	orq	%r13, %r9
	orq	%r10, %r12
	orq	%r15, %r12
	orq	64(%rsp), %rsi
	orq	%r8, %rsi
	movq	%r14, %r13
	movq	%r9, 8(%r14)
	movq	%rdi, (%r14)
	movq	%rsi, 8(%rbp)
	movq	%r12, (%rbp)
	movq	392(%rsp), %rsi
	movq	%rsi, %r9
	shrq	%r9
	movq	%r9, %r10
	shrq	%cl, %r10
	movq	384(%rsp), %rdi
	testb	$64, %dl
	cmoveq	%r10, %rbx
	movq	%rsi, %r8
	shldq	$63, %rdi, %r8
	shrdq	%cl, %r9, %r8
	testb	$64, %dl
	cmovneq	%r10, %r8
	movl	%eax, %ecx
	shldq	%cl, %rdi, %rsi
	shlq	%cl, %rdi
	movq	408(%rsp), %rdx
	movq	400(%rsp), %r9
	movq	%r9, %r10
	shlq	%cl, %r10
	shldq	%cl, %r9, %rdx
	orq	184(%rsp), %rsi
	orq	40(%rsp), %rdi
	orq	%r8, %r10
	orq	%rbx, %rdx
	orq	48(%r14), %r10
	orq	56(%r14), %rdx
	movq	%rsi, 8(%r11)
	movq	%rdi, (%r11)
	movq	%rdx, 56(%r14)
	movq	%r10, 48(%r14)
	jmp	.LBB58_198
.LBB58_116:
	addb	$-4, %cl
	movq	%rdi, %r9
	shrq	%cl, %r9
	xorl	%r11d, %r11d
	testb	$64, %cl
	movq	%r9, %r10
	cmovneq	%r11, %r10
	orq	%r10, %rax
	movq	%rax, 8(%r14)
	movq	376(%rsp), %rax
	movq	%rax, %r10
	shrq	%cl, %r10
	testb	$64, %cl
	cmoveq	%r10, %r11
	shrdq	%cl, %rdi, %rsi
	testb	$64, %cl
	cmovneq	%r9, %rsi
	orq	%rsi, %r8
	movq	%r8, (%r14)
	movq	368(%rsp), %rbx
	shrdq	%cl, %rax, %rbx
	testb	$64, %cl
	cmovneq	%r10, %rbx
	orq	16(%r14), %rbx
	orq	24(%r14), %r11
	movq	16(%rsp), %r12
.LBB58_117:
	movq	%rbx, 16(%r14)
	movq	%r11, 24(%r14)
	leal	2(%r15), %ecx
	movl	%r12d, %esi
	andl	$7, %esi
	cmpw	$5, %cx
	jb	.LBB58_120
	movzwl	%si, %eax
	xorl	$-5, %eax
	movzwl	%cx, %edi
	addq	$-4, %rdi
	leaq	416(%rsp), %r8
	addl	$9, %eax
	.p2align	4
.LBB58_119:
	movdqa	(%r8), %xmm0
	pand	.LCPI58_0(%rip), %xmm0
	movq	%xmm0, %r9
	pextrq	$1, %xmm0, %r10
	movl	%r12d, %ecx
	shldq	%cl, %r9, %r10
	shlq	%cl, %r9
	xorl	%ecx, %ecx
	testb	$64, %r12b
	cmovneq	%r9, %r10
	cmoveq	%r9, %rcx
	movzwl	%ax, %r9d
	shll	$4, %r9d
	orq	%rcx, 352(%rsp,%r9)
	orq	%r10, 360(%rsp,%r9)
	addq	$16, %r8
	incl	%eax
	decq	%rdi
	jne	.LBB58_119
.LBB58_120:
	movaps	384(%rsp), %xmm0
	movdqa	432(%rsp), %xmm1
	orps	32(%r14), %xmm0
	movaps	%xmm0, 384(%rsp)
	movq	56(%r14), %xmm0
	movq	48(%r14), %xmm2
	punpcklqdq	%xmm0, %xmm2
	por	400(%rsp), %xmm2
	pextrq	$1, %xmm2, 408(%rsp)
	movq	%xmm2, 400(%rsp)
	movq	72(%r14), %xmm0
	movq	64(%r14), %xmm2
	punpcklqdq	%xmm0, %xmm2
	por	416(%rsp), %xmm2
	movdqa	%xmm2, 416(%rsp)
	por	80(%r14), %xmm1
	movdqa	%xmm1, 432(%rsp)
	movzbl	6688(%rsp), %eax
	leaq	.Lstatic.2(%rip), %rcx
	movzbl	(%rax,%rcx), %eax
	cmpw	$4, %si
	jne	.LBB58_124
	cmpw	$4, %dx
	jne	.LBB58_124
	movl	%r12d, %ecx
	orb	$3, %cl
	movl	%eax, %edx
	andb	$1, %dl
	movzbl	%dl, %r8d
	movq	%r8, %r9
	shlq	%cl, %r9
	xorl	%edx, %edx
	testb	$64, %cl
	movq	%r9, %rdi
	cmovneq	%rdx, %rdi
	xorl	%esi, %esi
	shldq	%cl, %r8, %rsi
	testb	$64, %cl
	cmovneq	%r9, %rsi
	movl	%eax, %r11d
	shrb	%r11b
	movl	%r11d, %r8d
	andb	$1, %r8b
	movzbl	%r8b, %r10d
	movq	%r10, %rbx
	shlq	%cl, %rbx
	testb	$64, %cl
	movq	%rbx, %rdx
	movl	$0, %r8d
	cmovneq	%r8, %rdx
	xorl	%r9d, %r9d
	shldq	%cl, %r10, %r9
	testb	$64, %cl
	cmovneq	%rbx, %r9
	movl	%eax, %r10d
	shrb	$2, %r10b
	andb	$1, %r10b
	movzbl	%r10b, %r14d
	movq	%r14, %r15
	shlq	%cl, %r15
	testb	$64, %cl
	movq	%r15, %r10
	cmovneq	%r8, %r10
	xorl	%r8d, %r8d
	xorl	%ebx, %ebx
	shldq	%cl, %r14, %rbx
	testb	$64, %cl
	cmovneq	%r15, %rbx
	movl	%eax, %ebp
	shrb	$3, %bpl
	movl	%ebp, %r14d
	andb	$1, %r14b
	movzbl	%r14b, %r12d
	movq	%r12, %r13
	shlq	%cl, %r13
	testb	$64, %cl
	movq	%r13, %r14
	cmovneq	%r8, %r14
	xorl	%r15d, %r15d
	shldq	%cl, %r12, %r15
	testb	$64, %cl
	cmovneq	%r13, %r15
	movq	32(%rsp), %r8
	leal	-1(%r8), %ecx
	movzwl	%cx, %r12d
	andb	$16, %bpl
	shll	$4, %r12d
	andb	$32, %r11b
	orb	%bpl, %r11b
	movl	56(%rsp), %ebp
	leal	(%rax,%rax), %ecx
	andb	$64, %cl
	orb	%r11b, %cl
	movzbl	%cl, %r11d
	shrb	$4, %al
	andb	$1, %al
	movzbl	%al, %eax
	movq	16(%rsp), %rcx
	orb	$2, %cl
	xorl	%r13d, %r13d
	shldq	%cl, %rax, %r13
	orq	%r11, 384(%rsp,%r12)
	movq	16(%rsp), %r12
	shlq	%cl, %rax
	testb	$64, %cl
	cmovneq	%rax, %r13
	movl	$0, %ecx
	cmovneq	%rcx, %rax
	orq	%r15, %r13
	orq	%r13, 392(%rsp)
	movl	80(%rsp), %r13d
	orq	%r14, %rax
	orq	%rax, 384(%rsp)
	orq	%rbx, 408(%rsp)
	orq	%r10, 400(%rsp)
	orq	%r9, 424(%rsp)
	orq	%rdx, 416(%rsp)
.LBB58_123:
	orq	%rsi, 440(%rsp)
	orq	%rdi, 432(%rsp)
	jmp	.LBB58_133
.LBB58_124:
	cmpw	$6, %si
	jne	.LBB58_127
	cmpw	$6, %dx
	jne	.LBB58_127
	leal	3(%r12), %ecx
	movl	%eax, %edx
	andb	$1, %dl
	movzbl	%dl, %r8d
	movq	%r8, %r9
	shlq	%cl, %r9
	xorl	%edi, %edi
	testb	$64, %cl
	movq	%r9, %rdx
	cmovneq	%rdi, %rdx
	xorl	%esi, %esi
	shldq	%cl, %r8, %rsi
	testb	$64, %cl
	cmovneq	%r9, %rsi
	movl	%eax, %ebx
	shrb	%bl
	movl	%ebx, %r8d
	andb	$1, %r8b
	movzbl	%r8b, %r10d
	movq	%r10, %r11
	shlq	%cl, %r11
	testb	$64, %cl
	movq	%r11, %r13
	cmovneq	%rdi, %r13
	xorl	%r9d, %r9d
	shldq	%cl, %r10, %r9
	testb	$64, %cl
	cmovneq	%r11, %r9
	movq	32(%rsp), %r8
	leal	-3(%r8), %ecx
	movl	%eax, %r11d
	shrb	$3, %r11b
	movl	%r11d, %r10d
	andb	$16, %r10b
	movzbl	%r10b, %r10d
	movzwl	%cx, %ecx
	shll	$4, %ecx
	orq	%r10, 384(%rsp,%rcx)
	leal	-2(%r8), %ecx
	leal	-1(%r8), %ebp
	movl	%eax, %r10d
	shrb	$2, %r10b
	movl	%r10d, %r14d
	andb	$16, %r14b
	movzbl	%r14b, %r14d
	movzwl	%cx, %ecx
	shll	$4, %ecx
	orq	%r14, 384(%rsp,%rcx)
	andb	$16, %bl
	movzbl	%bl, %ecx
	movzwl	%bp, %ebx
	movl	56(%rsp), %ebp
	shll	$4, %ebx
	orq	%rcx, 384(%rsp,%rbx)
	shrb	$4, %al
	andb	$1, %al
	movzbl	%al, %eax
	xorl	%ebx, %ebx
	movl	%r12d, %ecx
	shldq	%cl, %rax, %rbx
	shlq	%cl, %rax
	testb	$64, %r12b
	cmovneq	%rax, %rbx
	cmovneq	%rdi, %rax
	andb	$1, %r11b
	movzbl	%r11b, %r11d
	orb	$1, %cl
	xorl	%r14d, %r14d
	shldq	%cl, %r11, %r14
	shlq	%cl, %r11
	testb	$64, %cl
	cmovneq	%r11, %r14
	cmovneq	%rdi, %r11
	andb	$1, %r10b
	movzbl	%r10b, %r10d
	leal	2(%r12), %ecx
	xorl	%r15d, %r15d
	shldq	%cl, %r10, %r15
	shlq	%cl, %r10
	testb	$64, %cl
	cmovneq	%r10, %r15
	cmovneq	%rdi, %r10
	orq	%rbx, %r14
	orq	%rax, %r11
	orq	%r9, %r15
	orq	%r14, %r15
	orq	%r13, %r10
	orq	%r15, 392(%rsp)
	orq	%r11, %r10
	orq	%r10, 384(%rsp)
	orq	%rsi, 408(%rsp)
	orq	%rdx, 400(%rsp)
	movl	80(%rsp), %r13d
.LBB58_133:
	movl	%r8d, %eax
	andl	$3, %eax
	xorl	$2, %eax
	movl	%r12d, %ecx
	andl	$3, %ecx
	xorl	$2, %ecx
	orw	%ax, %cx
	movq	8(%rsp), %rbx
	jne	.LBB58_135
	leal	2(%r12), %ecx
	movl	$1, %eax
	xorl	%edx, %edx
	shldq	%cl, %rax, %rdx
	movl	$1, %esi
	shlq	%cl, %rsi
	xorl	%edi, %edi
	testb	$64, %cl
	cmovneq	%rsi, %rdx
	cmovneq	%rdi, %rsi
	movzwl	%r8w, %r8d
	shll	$4, %r8d
	orq	%rsi, 352(%rsp,%r8)
	leal	3(%r12), %ecx
	xorl	%esi, %esi
	shldq	%cl, %rax, %rsi
	orq	%rdx, 360(%rsp,%r8)
	shlq	%cl, %rax
	testb	$64, %cl
	cmovneq	%rax, %rsi
	cmovneq	%rdi, %rax
	orq	%rax, 368(%rsp,%r8)
	orq	%rsi, 376(%rsp,%r8)
.LBB58_135:
	leal	1(%rbx), %r10d
	cmpl	$128, %r13d
	movq	%r10, (%rsp)
	ja	.LBB58_145
	testw	%bp, %bp
	movq	112(%rsp), %r9
	je	.LBB58_137
	leal	2(%rbx), %r13d
	cmpw	$1, %bp
	jne	.LBB58_140
	xorl	%r11d, %r11d
	xorl	%r10d, %r10d
	movq	$0, 40(%rsp)
	xorl	%ebx, %ebx
	xorl	%edx, %edx
	jmp	.LBB58_143
.LBB58_145:
	movl	$1, %r11d
	xorl	%esi, %esi
	movl	%r10d, %ecx
	shldq	%cl, %r11, %rsi
	leal	2(%rbx), %edx
	movl	$1, %eax
	shlq	%cl, %rax
	xorl	%ecx, %ecx
	testb	$64, %r10b
	cmovneq	%rax, %rsi
	movq	%rsi, 32(%rsp)
	cmovneq	%rcx, %rax
	xorl	%edi, %edi
	movq	%rax, 24(%rsp)
	xorl	%eax, %eax
	movl	%edx, %ecx
	shldq	%cl, %r11, %rax
	movl	$1, %esi
	shlq	%cl, %rsi
	testb	$64, %dl
	cmovneq	%rsi, %rax
	movq	%rax, 88(%rsp)
	cmovneq	%rdi, %rsi
	movq	%rsi, 48(%rsp)
	movq	8(%rsp), %rax
	leal	(%r10,%rax), %ecx
	addl	$2, %ecx
	xorl	%r13d, %r13d
	shldq	%cl, %r11, %r13
	movl	$1, %r9d
	shlq	%cl, %r9
	testb	$64, %cl
	cmovneq	%r9, %r13
	movl	$0, %esi
	cmovneq	%rsi, %r9
	movq	8(%rsp), %rax
	leal	4(,%rax,2), %ecx
	xorl	%r14d, %r14d
	shldq	%cl, %r11, %r14
	movl	$1, %r15d
	shlq	%cl, %r15
	testb	$64, %cl
	cmovneq	%r15, %r14
	cmovneq	%rsi, %r15
	movq	8(%rsp), %rax
	leal	(%r10,%rax,2), %ecx
	addl	$4, %ecx
	xorl	%eax, %eax
	shldq	%cl, %r11, %rax
	movl	$1, %r12d
	shlq	%cl, %r12
	testb	$64, %cl
	cmovneq	%r12, %rax
	movq	%rax, 64(%rsp)
	movl	$0, %eax
	cmovneq	%rax, %r12
	leal	(%rdx,%rdx,2), %ecx
	xorl	%r8d, %r8d
	shldq	%cl, %r11, %r8
	movl	$1, %ebx
	shlq	%cl, %rbx
	testb	$64, %cl
	cmovneq	%rbx, %r8
	cmovneq	%rax, %rbx
	xorl	%edx, %edx
	addl	%r10d, %ecx
	xorl	%eax, %eax
	shldq	%cl, %r11, %rax
	movl	$1, %ebp
	shlq	%cl, %rbp
	testb	$64, %cl
	cmovneq	%rbp, %rax
	movq	%rax, 40(%rsp)
	cmovneq	%rdx, %rbp
	xorl	%edx, %edx
	movq	8(%rsp), %rax
	leal	8(,%rax,4), %ecx
	xorl	%edi, %edi
	shldq	%cl, %r11, %rdi
	movl	$1, %esi
	shlq	%cl, %rsi
	testb	$64, %cl
	cmovneq	%rsi, %rdi
	cmovneq	%rdx, %rsi
	movq	8(%rsp), %rcx
	leal	(%r10,%rcx,4), %ecx
	addl	$8, %ecx
	xorl	%edx, %edx
	shldq	%cl, %r11, %rdx
	movl	$1, %eax
	shlq	%cl, %rax
	testb	$64, %cl
	cmovneq	%rax, %rdx
	movl	$0, %ecx
	cmovneq	%rcx, %rax
	movq	8(%rsp), %rcx
	leal	(%rcx,%rcx,4), %ecx
	addb	$10, %cl
	xorl	%r10d, %r10d
	shldq	%cl, %r11, %r10
	shlq	%cl, %r11
	testb	$64, %cl
	cmovneq	%r11, %r10
	movl	$0, %ecx
	cmovneq	%rcx, %r11
	orq	88(%rsp), %r14
	orq	%r8, %r14
	orq	48(%rsp), %r15
	orq	%rbx, %r15
	orq	%rdi, %r10
	orq	%r14, %r10
	orq	%rsi, %r11
	orq	%r15, %r11
	orq	32(%rsp), %r13
	orq	64(%rsp), %r13
	movb	$-112, %cl
	movzwl	128(%rsp), %esi
	subb	%sil, %cl
	orq	24(%rsp), %r9
	movl	$65535, %ebx
	shrl	%cl, %ebx
	orq	%r12, %r9
	movq	16(%rsp), %r12
	movabsq	$6148914691236517205, %r14
	orq	$1, %r11
	orq	40(%rsp), %rdx
	orq	%r13, %rdx
	orq	%rbp, %rax
	movl	56(%rsp), %ebp
	orq	%r9, %rax
	orq	%r10, %rdx
	movq	%rdx, 48(%rsp)
	orq	%r11, %rax
	movq	%rax, 40(%rsp)
	addb	$127, %sil
	movl	$1, %eax
	movl	%esi, %ecx
	shll	%cl, %eax
	movq	%rax, 64(%rsp)
	movl	%ebx, %esi
	andl	$21845, %esi
	movq	%r14, %r13
	movq	$-1, 160(%rsp)
	movq	$-1, %r15
	movq	112(%rsp), %r9
	jmp	.LBB58_146
.LBB58_197:
	movq	368(%rsp), %r11
	leal	-4(%rcx), %edx
	movq	%r8, %r9
	movq	%rcx, %rsi
	movl	%edx, %ecx
	shrq	%cl, %r9
	movq	%r10, 40(%rsp)
	movq	376(%rsp), %r10
	movq	%r10, %rbx
	shldq	$1, %r11, %rbx
	leaq	(%r11,%r11), %r12
	movb	$-125, %al
	subb	%sil, %al
	movl	%eax, %ecx
	shldq	%cl, %r12, %rbx
	shlq	%cl, %r12
	xorl	%esi, %esi
	testb	$64, %al
	cmovneq	%r12, %rbx
	cmovneq	%rsi, %r12
	movq	%r10, %rbp
	movl	%edx, %ecx
	shrq	%cl, %rbp
	testb	$64, %dl
	movq	%r9, %rcx
	cmovneq	%rsi, %rcx
	movq	%rbp, %r15
	cmovneq	%rsi, %r15
	orq	%r13, %rcx
	orq	%rbx, %rcx
	orq	64(%rsp), %r15
	movq	%rcx, 8(%r14)
	movq	%r15, 24(%r14)
	movq	408(%rsp), %rbx
	movq	%rbx, %r13
	movl	%edx, %ecx
	shrq	%cl, %r13
	testb	$64, %dl
	movq	%r13, %rcx
	cmovneq	%rsi, %rcx
	movq	%rcx, 64(%rsp)
	movl	%edx, %ecx
	shrdq	%cl, %r10, %r11
	testb	$64, %dl
	cmovneq	%rbp, %r11
	shrdq	%cl, %r8, %rdi
	testb	$64, %dl
	cmovneq	%r9, %rdi
	orq	%r12, %rdi
	movq	392(%rsp), %r10
	orq	24(%rsp), %rdi
	orq	40(%rsp), %r11
	movq	%rdi, (%r14)
	movq	%r11, 16(%r14)
	movq	400(%rsp), %r9
	movq	%r9, %rdi
	shrdq	%cl, %rbx, %rdi
	movq	384(%rsp), %r8
	testb	$64, %dl
	cmovneq	%r13, %rdi
	movq	%r10, %r11
	shrq	%cl, %r11
	testb	$64, %dl
	movq	%r11, %r15
	cmovneq	%rsi, %r15
	shrdq	%cl, %r10, %r8
	testb	$64, %dl
	cmovneq	%r11, %r8
	leaq	(%r9,%r9), %rdx
	movq	%rdx, %r10
	movl	%eax, %ecx
	shlq	%cl, %r10
	testb	$64, %al
	cmoveq	%r10, %rsi
	shldq	$1, %r9, %rbx
	shldq	%cl, %rdx, %rbx
	testb	$64, %al
	cmovneq	%r10, %rbx
	orq	%r8, %rsi
	orq	%rsi, 32(%r14)
	orq	%r15, %rbx
	orq	%rbx, 40(%r14)
	orq	%rdi, 48(%r14)
	movq	64(%rsp), %rax
	orq	%rax, 56(%r14)
	movq	%r14, %r13
.LBB58_198:
	movq	32(%rsp), %rax
	leal	2(%rax), %ecx
	movq	16(%rsp), %r12
	movl	%r12d, %edx
	andl	$7, %edx
	cmpw	$5, %cx
	movl	56(%rsp), %ebp
	movl	80(%rsp), %r15d
	jb	.LBB58_207
	movzwl	%dx, %r8d
	xorl	$4, %r8d
	movzwl	%cx, %edi
	movzwl	48(%rsp), %eax
	subw	$128, %ax
	jae	.LBB58_202
	movl	$127, %eax
	subl	%r12d, %eax
	addq	$-4, %rdi
	leaq	480(%rsp), %rsi
	movzwl	%r8w, %ecx
	movl	$8, %r8d
	subl	%ecx, %r8d
	.p2align	4
.LBB58_201:
	movq	(%rsi), %r9
	andl	$15, %r9d
	xorl	%r10d, %r10d
	movl	%r12d, %ecx
	shldq	%cl, %r9, %r10
	movzwl	%r8w, %r11d
	shll	$5, %r11d
	movq	%r9, %rbx
	shlq	%cl, %rbx
	xorl	%r14d, %r14d
	testb	$64, %r12b
	cmovneq	%rbx, %r10
	cmovneq	%r14, %rbx
	shrl	%r9d
	movl	%eax, %ecx
	shrdq	%cl, %r14, %r9
	testb	$64, %al
	cmovneq	%r14, %r9
	orq	%rbx, 352(%rsp,%r11)
	orq	%r10, 360(%rsp,%r11)
	orq	%r9, 368(%rsp,%r11)
	addq	$32, %rsi
	incl	%r8d
	decq	%rdi
	jne	.LBB58_201
	jmp	.LBB58_207
.LBB58_47:
	testw	%dx, %dx
	jne	.LBB58_50
	cmpw	$6, %ax
	jne	.LBB58_50
	leal	-1(%r10), %eax
	movl	%edi, %r8d
	shrl	$3, %r8d
	movl	%r8d, %edx
	andl	$-16, %edx
	movzwl	%ax, %r9d
	movl	%edi, %r10d
	shrl	$6, %r10d
	andl	$1, %r10d
	movl	%r12d, %eax
	orb	$3, %al
	movl	%eax, %ecx
	shlq	%cl, %r10
	orq	%rdx, %r10
	orq	%r10, 368(%rsp,%r9,8)
	movl	%edi, %r9d
	shrl	$5, %r9d
	movl	%edi, %r11d
	shrb	$4, %r11b
	movl	%edi, %r10d
	shrl	$2, %r10d
	movl	%edi, %ebx
	andl	$1, %r10d
	movl	%r12d, %edx
	orb	$1, %dl
	movl	%edx, %ecx
	shlq	%cl, %r10
	andb	$1, %r11b
	movzbl	%r11b, %r11d
	movl	%r12d, %ecx
	orb	$2, %cl
	shlq	%cl, %r11
	shrb	%bl
	andb	$1, %bl
	andl	$1, %r9d
	movzbl	%bl, %ebx
	shlq	%cl, %rbx
	movl	%edx, %ecx
	shlq	%cl, %r9
	movdqu	368(%rsp), %xmm0
	andl	$1, %edi
	andl	$1, %r8d
	movl	%eax, %ecx
	shlq	%cl, %rdi
	orq	%r10, %rdi
	movq	8(%rsp), %rdx
	shlq	%cl, %r8
	orq	%rbx, %rdi
	movq	%rdx, %rbx
	movq	(%rsp), %r10
	orq	%r9, %r8
	orq	%r11, %r8
	movq	96(%rsp), %r11
	movq	%rdi, %xmm1
	movq	%r8, %xmm2
	punpcklqdq	%xmm1, %xmm2
	por	%xmm0, %xmm2
	movdqu	%xmm2, 368(%rsp)
.LBB58_50:
	andl	$3, %r10d
	xorl	$2, %r10d
	movl	%r12d, %eax
	andl	$3, %eax
	xorl	$2, %eax
	orw	%r10w, %ax
	jne	.LBB58_52
	movd	%r12d, %xmm0
	pshuflw	$0, %xmm0, %xmm0
	paddw	.LCPI58_6(%rip), %xmm0
	pmovzxwq	%xmm0, %xmm0
	movdqa	.LCPI58_7(%rip), %xmm1
	movdqa	%xmm1, %xmm2
	psllq	%xmm0, %xmm2
	pshufd	$238, %xmm0, %xmm0
	psllq	%xmm0, %xmm1
	pblendw	$15, %xmm2, %xmm1
	movdqu	352(%rsp,%rsi,8), %xmm0
	por	%xmm1, %xmm0
	movdqu	%xmm0, 352(%rsp,%rsi,8)
.LBB58_52:
	movabsq	$6148914691236517205, %r9
	leal	1(%rbx), %r10d
	cmpl	$128, %r13d
	movq	%r10, 40(%rsp)
	ja	.LBB58_62
	testw	%bp, %bp
	movq	104(%rsp), %r12
	je	.LBB58_54
	leal	2(%rbx), %eax
	cmpw	$1, %bp
	jne	.LBB58_57
	xorl	%ebx, %ebx
	xorl	%r10d, %r10d
	movq	$0, 24(%rsp)
	xorl	%r13d, %r13d
	xorl	%edx, %edx
	jmp	.LBB58_60
.LBB58_62:
	movl	$1, %esi
	xorl	%edi, %edi
	movl	%r10d, %ecx
	shldq	%cl, %rsi, %rdi
	leal	2(%rbx), %edx
	movl	$1, %eax
	shlq	%cl, %rax
	xorl	%ecx, %ecx
	testb	$64, %r10b
	cmovneq	%rax, %rdi
	movq	%rdi, 24(%rsp)
	cmovneq	%rcx, %rax
	xorl	%r8d, %r8d
	movq	%rax, (%rsp)
	xorl	%eax, %eax
	movl	%edx, %ecx
	shldq	%cl, %rsi, %rax
	movl	$1, %edi
	shlq	%cl, %rdi
	testb	$64, %dl
	cmovneq	%rdi, %rax
	movq	%rax, 48(%rsp)
	cmovneq	%r8, %rdi
	movq	%rdi, 32(%rsp)
	movq	8(%rsp), %rax
	leal	(%r10,%rax), %ecx
	addl	$2, %ecx
	xorl	%r12d, %r12d
	shldq	%cl, %rsi, %r12
	movl	$1, %r9d
	shlq	%cl, %r9
	testb	$64, %cl
	cmovneq	%r9, %r12
	movl	$0, %edi
	cmovneq	%rdi, %r9
	movq	8(%rsp), %rax
	leal	4(,%rax,2), %ecx
	xorl	%r14d, %r14d
	shldq	%cl, %rsi, %r14
	movl	$1, %r15d
	shlq	%cl, %r15
	testb	$64, %cl
	cmovneq	%r15, %r14
	cmovneq	%rdi, %r15
	movq	8(%rsp), %rax
	leal	(%r10,%rax,2), %ecx
	addl	$4, %ecx
	xorl	%edi, %edi
	shldq	%cl, %rsi, %rdi
	movl	$1, %eax
	shlq	%cl, %rax
	testb	$64, %cl
	cmovneq	%rax, %rdi
	movq	%rdi, 64(%rsp)
	movl	$0, %edi
	cmovneq	%rdi, %rax
	movq	%rax, 88(%rsp)
	leal	(%rdx,%rdx,2), %ecx
	xorl	%r11d, %r11d
	shldq	%cl, %rsi, %r11
	movl	$1, %ebx
	shlq	%cl, %rbx
	testb	$64, %cl
	cmovneq	%rbx, %r11
	cmovneq	%rdi, %rbx
	xorl	%eax, %eax
	addl	%r10d, %ecx
	xorl	%r13d, %r13d
	shldq	%cl, %rsi, %r13
	movl	$1, %ebp
	shlq	%cl, %rbp
	testb	$64, %cl
	cmovneq	%rbp, %r13
	cmovneq	%rax, %rbp
	xorl	%edx, %edx
	movq	8(%rsp), %rax
	leal	8(,%rax,4), %ecx
	xorl	%r8d, %r8d
	shldq	%cl, %rsi, %r8
	movl	$1, %edi
	shlq	%cl, %rdi
	testb	$64, %cl
	cmovneq	%rdi, %r8
	cmovneq	%rdx, %rdi
	movq	8(%rsp), %rcx
	leal	(%r10,%rcx,4), %ecx
	addl	$8, %ecx
	xorl	%edx, %edx
	shldq	%cl, %rsi, %rdx
	movl	$1, %eax
	shlq	%cl, %rax
	testb	$64, %cl
	cmovneq	%rax, %rdx
	movl	$0, %ecx
	cmovneq	%rcx, %rax
	movq	8(%rsp), %rcx
	leal	(%rcx,%rcx,4), %ecx
	addb	$10, %cl
	xorl	%r10d, %r10d
	shldq	%cl, %rsi, %r10
	shlq	%cl, %rsi
	testb	$64, %cl
	cmovneq	%rsi, %r10
	movl	$0, %ecx
	cmovneq	%rcx, %rsi
	orq	48(%rsp), %r14
	orq	%r11, %r14
	orq	32(%rsp), %r15
	orq	%rbx, %r15
	movabsq	$6148914691236517205, %rbx
	orq	%r8, %r10
	orq	%r14, %r10
	movq	112(%rsp), %r14
	orq	%rdi, %rsi
	orq	%r15, %rsi
	movq	120(%rsp), %r15
	orq	24(%rsp), %r12
	movb	$-112, %cl
	movzwl	128(%rsp), %edi
	subb	%dil, %cl
	orq	64(%rsp), %r12
	movq	96(%rsp), %r11
	movl	$65535, %r8d
	shrl	%cl, %r8d
	orq	(%rsp), %r9
	orq	88(%rsp), %r9
	orq	$1, %rsi
	orq	%r13, %rdx
	orq	%r12, %rdx
	orq	%rbp, %rax
	movl	56(%rsp), %ebp
	orq	%r9, %rax
	orq	%r10, %rdx
	movq	%rdx, 88(%rsp)
	movq	%rsi, 32(%rsp)
	orq	%rsi, %rax
	movq	%rax, 24(%rsp)
	addb	$127, %dil
	movl	$1, %esi
	movl	%edi, %ecx
	shll	%cl, %esi
	movl	%r8d, %eax
	andl	$21845, %eax
	movq	%rax, 248(%rsp)
	movq	%rbx, %r13
	movq	$-1, 256(%rsp)
	movq	$-1, %r9
	movq	104(%rsp), %r12
	jmp	.LBB58_63
.LBB58_54:
	movq	$0, 24(%rsp)
	xorl	%r13d, %r13d
	xorl	%ebx, %ebx
	xorl	%r10d, %r10d
	jmp	.LBB58_61
.LBB58_57:
	andl	$65534, %ebp
	movl	%ebp, 24(%rsp)
	leal	3(,%rbx,2), %ecx
	movq	%rcx, 32(%rsp)
	leal	4(,%rbx,2), %ecx
	movq	%rcx, 48(%rsp)
	xorl	%esi, %esi
	xorl	%edi, %edi
	xorl	%r10d, %r10d
	xorl	%ebp, %ebp
	xorl	%r8d, %r8d
	xorl	%edx, %edx
	movq	40(%rsp), %r9
	movq	%rax, (%rsp)
	.p2align	4
.LBB58_58:
	movl	$1, %r11d
	xorl	%eax, %eax
	movl	%esi, %ecx
	shldq	%cl, %r11, %rax
	xorl	%r14d, %r14d
	movl	$1, %ebx
	shlq	%cl, %rbx
	testb	$64, %sil
	cmovneq	%rbx, %rax
	cmovneq	%r14, %rbx
	leal	(%r9,%rsi), %ecx
	xorl	%r15d, %r15d
	shldq	%cl, %r11, %r15
	orq	%rax, %r10
	orq	%rbx, %rdi
	movl	$1, %r12d
	shlq	%cl, %r12
	testb	$64, %cl
	cmovneq	%r12, %r15
	cmovneq	%r14, %r12
	movq	(%rsp), %rcx
	addl	%esi, %ecx
	xorl	%r13d, %r13d
	shldq	%cl, %r11, %r13
	orq	%r8, %r15
	orq	%rbp, %r12
	movl	$1, %ebp
	shlq	%cl, %rbp
	testb	$64, %cl
	cmovneq	%rbp, %r13
	cmovneq	%r14, %rbp
	orq	%r13, %r10
	movq	32(%rsp), %rcx
	addl	%esi, %ecx
	xorl	%r8d, %r8d
	shldq	%cl, %r11, %r8
	shlq	%cl, %r11
	orq	%rbp, %rdi
	testb	$64, %cl
	cmovneq	%r11, %r8
	cmovneq	%r14, %r11
	orq	%rax, %r8
	orq	%r15, %r8
	orq	%rbx, %r11
	orq	%r12, %r11
	orq	%r13, %r8
	orq	%rbp, %r11
	movq	%r11, %rbp
	addl	$2, %edx
	movq	48(%rsp), %rax
	addl	%eax, %esi
	cmpw	%dx, 24(%rsp)
	jne	.LBB58_58
	movq	%rbp, 24(%rsp)
	movl	56(%rsp), %ebp
	testb	$1, %bpl
	movq	96(%rsp), %r11
	movq	104(%rsp), %r12
	movq	112(%rsp), %r14
	movq	120(%rsp), %r15
	movabsq	$6148914691236517205, %r9
	movq	%rdi, %rbx
	movq	%r8, %r13
	movq	(%rsp), %rax
	je	.LBB58_61
.LBB58_60:
	imull	%eax, %edx
	movl	$1, %esi
	xorl	%eax, %eax
	movl	%edx, %ecx
	shldq	%cl, %rsi, %rax
	xorl	%r8d, %r8d
	movl	$1, %edi
	shlq	%cl, %rdi
	testb	$64, %dl
	cmovneq	%rdi, %rax
	cmovneq	%r8, %rdi
	orq	%rax, %r10
	movq	40(%rsp), %rcx
	addl	%edx, %ecx
	xorl	%edx, %edx
	shldq	%cl, %rsi, %rdx
	shlq	%cl, %rsi
	orq	%rdi, %rbx
	testb	$64, %cl
	cmovneq	%rsi, %rdx
	cmovneq	%r8, %rsi
	orq	%r13, %rax
	orq	%rdx, %rax
	orq	24(%rsp), %rdi
	orq	%rsi, %rdi
	movq	%rdi, 24(%rsp)
	movq	%rax, %r13
.LBB58_61:
	movq	%r13, 88(%rsp)
	movq	%rbx, 32(%rsp)
	movq	$-1, %rdx
	movzwl	128(%rsp), %ecx
	shldq	%cl, %rdx, %rdx
	movq	$-1, %rax
	shlq	%cl, %rax
	xorl	%esi, %esi
	testb	$64, %cl
	cmovneq	%rax, %rdx
	movl	$0, %ecx
	cmoveq	%rax, %rcx
	notq	%rdx
	notq	%rcx
	movq	%rdx, %rax
	andq	%r9, %rax
	movq	%rcx, 256(%rsp)
	andq	%rcx, %r9
	movq	%r9, %r13
	movq	%rdx, %r9
	movq	%rax, %rbx
	movq	$0, 248(%rsp)
	xorl	%r8d, %r8d
.LBB58_63:
	movq	%rsi, 64(%rsp)
	movq	%r10, 48(%rsp)
	pxor	%xmm0, %xmm0
	movdqa	%xmm0, 4832(%rsp)
	movdqa	%xmm0, 4816(%rsp)
	movdqa	%xmm0, 4800(%rsp)
	movdqa	%xmm0, 4784(%rsp)
	movdqa	%xmm0, 4768(%rsp)
	decw	%bp
	movq	%r8, 272(%rsp)
	movq	%r9, 160(%rsp)
	movq	256(%rsp), %r10
	je	.LBB58_70
	cmpw	$1, %bp
	jne	.LBB58_66
	xorl	%edi, %edi
	jmp	.LBB58_69
.LBB58_66:
	movq	%rbx, 136(%rsp)
	movzwl	%bp, %r8d
	movl	%r8d, %r9d
	andl	$-2, %r9d
	movq	8(%rsp), %rax
	leal	3(,%rax,2), %edx
	leal	4(,%rax,2), %eax
	leaq	4784(%rsp), %r10
	xorl	%edi, %edi
	movq	40(%rsp), %rsi
	.p2align	4
.LBB58_67:
	movq	$-1, %r14
	movl	%esi, %ecx
	shldq	%cl, %r14, %r14
	movq	$-1, %r11
	shlq	%cl, %r11
	xorl	%ebx, %ebx
	testb	$64, %sil
	cmovneq	%r11, %r14
	cmovneq	%rbx, %r11
	movq	$-1, %r15
	movl	%edx, %ecx
	shldq	%cl, %r15, %r15
	notq	%r14
	movq	%r14, -8(%r10)
	movq	$-1, %r14
	shlq	%cl, %r14
	notq	%r11
	testb	$64, %dl
	cmovneq	%r14, %r15
	movq	%r11, -16(%r10)
	cmovneq	%rbx, %r14
	notq	%r15
	notq	%r14
	movq	%r15, 8(%r10)
	movq	%r14, (%r10)
	addq	$2, %rdi
	addl	%eax, %edx
	addq	$32, %r10
	addl	%eax, %esi
	cmpq	%rdi, %r9
	jne	.LBB58_67
	testb	$1, %r8b
	movq	112(%rsp), %r14
	movq	120(%rsp), %r15
	movq	96(%rsp), %r11
	movq	136(%rsp), %rbx
	movq	272(%rsp), %r8
	movq	160(%rsp), %r9
	movq	256(%rsp), %r10
	je	.LBB58_70
.LBB58_69:
	movq	8(%rsp), %rax
	addl	$2, %eax
	imull	%edi, %eax
	movq	40(%rsp), %rcx
	addl	%eax, %ecx
	movq	$-1, %rax
	shldq	%cl, %rax, %rax
	movq	$-1, %rdx
	shlq	%cl, %rdx
	xorl	%esi, %esi
	testb	$64, %cl
	cmovneq	%rdx, %rax
	cmoveq	%rdx, %rsi
	notq	%rax
	notq	%rsi
	shlq	$4, %rdi
	movq	%rax, 4776(%rsp,%rdi)
	movq	%rsi, 4768(%rsp,%rdi)
.LBB58_70:
	testq	%r14, %r14
	movq	248(%rsp), %rdi
	je	.LBB58_74
	incl	%r15d
	testw	%r15w, %r15w
	cmoveq	%r9, %rbx
	cmoveq	%r10, %r13
	cmovel	%r8d, %edi
	movq	8(%rsp), %rsi
	leal	(%rsi,%rsi,4), %eax
	movq	$-1, %rdx
	movl	%eax, %ecx
	shlq	%cl, %rdx
	xorl	%ecx, %ecx
	testb	$64, %al
	cmovneq	%rcx, %rdx
	movq	%rdx, (%rsp)
	movq	$-1, %rdx
	movl	%esi, %ecx
	shlq	%cl, %rdx
	testb	$64, %sil
	movl	$0, %ecx
	cmovneq	%rcx, %rdx
	movq	16(%rsp), %rcx
	movq	$-1, %rsi
	shlq	%cl, %rsi
	testb	$64, %cl
	movl	$0, %ecx
	cmovneq	%rcx, %rsi
	movq	120(%rsp), %rcx
	addl	$2, %ecx
	movq	%rcx, 72(%rsp)
	cmpw	$1, %r15w
	jbe	.LBB58_72
	movzwl	%r15w, %ecx
	movq	%rcx, 40(%rsp)
	cmpl	$129, 80(%rsp)
	movq	%rbx, 136(%rsp)
	movq	%rdi, 248(%rsp)
	movq	%r13, 144(%rsp)
	movq	%r15, 152(%rsp)
	jae	.LBB58_76
	notq	%rsi
	movq	%rsi, (%rsp)
	testw	%bp, %bp
	movq	72(%rsp), %r8
	je	.LBB58_81
	movzwl	%bp, %eax
	movl	%eax, %ecx
	andl	$-2, %ecx
	xorl	%r13d, %r13d
	movl	%ebp, %edx
	movq	144(%rsp), %r14
	movq	120(%rsp), %rsi
	jmp	.LBB58_86
	.p2align	4
.LBB58_93:
	addl	152(%rsp), %edi
	movzwl	%di, %edi
	movl	%edi, %r8d
	shll	$4, %r8d
	movq	160(%rsp), %r9
	movq	%r9, 8(%r12,%r8)
	movq	256(%rsp), %r9
	movq	%r9, (%r12,%r8)
	movq	272(%rsp), %r8
	movw	%r8w, (%r11,%rdi,2)
	incq	%r13
	cmpq	112(%rsp), %r13
	movq	120(%rsp), %rsi
	movq	136(%rsp), %rbx
	movq	248(%rsp), %rdi
	movq	144(%rsp), %r14
	movq	72(%rsp), %r8
	je	.LBB58_74
.LBB58_86:
	movq	%rdi, %r10
	movl	%r8d, %edi
	imull	%r13d, %edi
	movzwl	%di, %r8d
	movl	%r8d, %r9d
	shll	$4, %r9d
	movq	%rbx, 8(%r12,%r9)
	movq	%r14, (%r12,%r9)
	movw	%r10w, (%r11,%r8,2)
	movl	%esi, %r8d
	imull	%r13d, %r8d
	decl	%r8d
	movl	$1, %r9d
	jmp	.LBB58_87
	.p2align	4
.LBB58_91:
	shlq	$4, %rbx
	movq	4776(%rsp,%rbx), %r14
	andq	%r11, %r14
	movq	4768(%rsp,%rbx), %rbx
	andq	%r10, %rbx
	subq	%rbx, %r10
	sbbq	%r14, %r11
	shldq	$2, %r10, %r11
	shlq	$2, %r10
	addq	%rbx, %r10
	adcq	%r14, %r11
.LBB58_92:
	movl	%r9d, %ebx
	andl	$1, %ebx
	movl	%ebx, %ebp
	negl	%ebp
	movq	64(%rsp), %rsi
	movl	%esi, %r14d
	andl	%ebp, %r14d
	testl	%ebx, %ebx
	movq	88(%rsp), %rbx
	cmoveq	48(%rsp), %rbx
	movq	24(%rsp), %r15
	cmoveq	32(%rsp), %r15
	orq	%r10, %r15
	orq	%r11, %rbx
	leal	(%rdi,%r9), %r10d
	movzwl	%r10w, %r10d
	movl	%r10d, %r11d
	shll	$4, %r11d
	movq	%rbx, 8(%r12,%r11)
	movq	%r15, (%r12,%r11)
	movq	96(%rsp), %r11
	movw	%r14w, (%r11,%r10,2)
	incq	%r9
	cmpq	40(%rsp), %r9
	movl	%edx, %ebp
	je	.LBB58_93
.LBB58_87:
	leal	(%r8,%r9), %r10d
	movzwl	%r10w, %r10d
	movq	368(%rsp,%r10,8), %r10
	shrq	$4, %r10
	andq	(%rsp), %r10
	addq	%r10, %r10
	xorl	%r11d, %r11d
	xorl	%ebx, %ebx
	cmpw	$1, %bp
	je	.LBB58_91
	leaq	4784(%rsp), %r14
	.p2align	4
.LBB58_89:
	movq	-8(%r14), %r15
	andq	%r11, %r15
	movq	-16(%r14), %r12
	andq	%r10, %r12
	subq	%r12, %r10
	sbbq	%r15, %r11
	shldq	$2, %r10, %r11
	shlq	$2, %r10
	addq	%r12, %r10
	adcq	%r15, %r11
	movq	8(%r14), %r15
	andq	%r11, %r15
	movq	(%r14), %r12
	andq	%r10, %r12
	subq	%r12, %r10
	sbbq	%r15, %r11
	shldq	$2, %r10, %r11
	shlq	$2, %r10
	addq	%r12, %r10
	adcq	%r15, %r11
	addq	$2, %rbx
	addq	$32, %r14
	cmpq	%rbx, %rcx
	jne	.LBB58_89
	testb	$1, %al
	movq	104(%rsp), %r12
	jne	.LBB58_91
	jmp	.LBB58_92
.LBB58_72:
	xorl	%eax, %eax
	movq	%r15, %rsi
	movq	72(%rsp), %r15
	.p2align	4
.LBB58_73:
	movzwl	%ax, %ecx
	movl	%ecx, %edx
	shll	$4, %edx
	movq	%rbx, 8(%r12,%rdx)
	movq	%r13, (%r12,%rdx)
	movw	%di, (%r11,%rcx,2)
	leal	(%rsi,%rax), %ecx
	movzwl	%cx, %ecx
	movl	%ecx, %edx
	shll	$4, %edx
	movq	%r9, 8(%r12,%rdx)
	movq	%r10, (%r12,%rdx)
	movw	%r8w, (%r11,%rcx,2)
	addl	%r15d, %eax
	decq	%r14
	jne	.LBB58_73
	jmp	.LBB58_74
.LBB58_76:
	movq	%rdx, %rcx
	movl	$117, %edx
	movl	%eax, 16(%rsp)
	subl	%eax, %edx
	movl	%edx, 176(%rsp)
	movq	(%rsp), %r15
	notq	%r15
	movq	4768(%rsp), %rax
	movq	4792(%rsp), %rdx
	movq	%rdx, 56(%rsp)
	movq	4784(%rsp), %rdx
	movq	%rdx, 128(%rsp)
	movq	4808(%rsp), %rdx
	movq	%rdx, 80(%rsp)
	movq	4800(%rsp), %rdx
	movq	%rdx, 184(%rsp)
	movq	4824(%rsp), %rdx
	movq	%rdx, 264(%rsp)
	movq	4816(%rsp), %rdx
	movq	%rdx, 288(%rsp)
	notq	%rcx
	movq	%rcx, (%rsp)
	movq	8(%rsp), %rcx
	leal	11(%rcx,%rcx,4), %esi
	movq	72(%rsp), %rcx
	movzwl	%cx, %edx
	movq	%rdx, 168(%rsp)
	xorl	%edx, %edx
	xorl	%r14d, %r14d
	xorl	%r8d, %r8d
	.p2align	4
.LBB58_77:
	movq	%r8, 240(%rsp)
	imull	%r8d, %ecx
	movl	%ecx, 232(%rsp)
	movzwl	%cx, %ecx
	movq	%rdi, %r8
	movl	%ecx, %edi
	shll	$4, %edi
	movq	%rbx, 8(%r12,%rdi)
	movq	%r13, (%r12,%rdi)
	movw	%r8w, (%r11,%rcx,2)
	movl	$1, %r13d
	movq	%rdx, 8(%rsp)
	movl	%edx, %ebx
	movl	176(%rsp), %edx
	.p2align	4
.LBB58_78:
	movzwl	%bx, %ecx
	movq	368(%rsp,%rcx,8), %r9
	shrq	$4, %r9
	movq	%r14, %r12
	movq	%r9, %r14
	andq	%r15, %r14
	addq	%r14, %r14
	movq	%r14, %rcx
	andq	%rax, %rcx
	xorl	%ebp, %ebp
	movl	$0, %edi
	subq	%rcx, %r14
	sbbq	%rdi, %rdi
	shldq	$2, %r14, %rdi
	shlq	$2, %r14
	addq	%rcx, %r14
	adcq	$0, %rdi
	movq	%rdi, %rcx
	movq	%r14, %r8
	andq	56(%rsp), %rcx
	andq	128(%rsp), %r8
	subq	%r8, %r14
	sbbq	%rcx, %rdi
	shldq	$2, %r14, %rdi
	shlq	$2, %r14
	addq	%r8, %r14
	adcq	%rcx, %rdi
	movq	%rdi, %rcx
	andq	80(%rsp), %rcx
	movq	%r14, %r8
	andq	184(%rsp), %r8
	subq	%r8, %r14
	sbbq	%rcx, %rdi
	shldq	$2, %r14, %rdi
	shlq	$2, %r14
	addq	%r8, %r14
	adcq	%rcx, %rdi
	movq	%rdi, %rcx
	movq	%r14, %r8
	andq	264(%rsp), %rcx
	andq	288(%rsp), %r8
	subq	%r8, %r14
	sbbq	%rcx, %rdi
	shldq	$2, %r14, %rdi
	shlq	$2, %r14
	addq	%r8, %r14
	adcq	%rcx, %rdi
	movl	16(%rsp), %ecx
	shrdq	%cl, %rbp, %r9
	testb	$64, %cl
	cmovneq	%rbp, %r9
	andq	(%rsp), %r9
	xorl	%r8d, %r8d
	movl	%esi, %ecx
	shldq	%cl, %r9, %r8
	movq	%r15, %r10
	movq	%r9, %r15
	shlq	%cl, %r15
	testb	$64, %sil
	cmovneq	%r15, %r8
	cmovneq	%rbp, %r15
	movl	%edx, %ecx
	shrdq	%cl, %rbp, %r9
	testb	$64, %dl
	cmovneq	%rbp, %r9
	movl	%r13d, %ebp
	andl	$1, %ebp
	movl	%ebp, %r11d
	negl	%r11d
	movq	64(%rsp), %rcx
	andl	%r11d, %ecx
	testl	%ebp, %ebp
	movq	88(%rsp), %r11
	cmoveq	48(%rsp), %r11
	movq	24(%rsp), %rbp
	cmoveq	32(%rsp), %rbp
	orq	%r15, %rbp
	movq	%r10, %r15
	orq	%r8, %r11
	orq	%r14, %rbp
	movq	%r12, %r14
	orq	%rdi, %r11
	leal	(%r12,%r13), %edi
	movzwl	%di, %edi
	movl	%edi, %r8d
	shll	$4, %r8d
	movq	104(%rsp), %r10
	movq	%rbp, (%r10,%r8)
	movq	%r11, 8(%r10,%r8)
	orl	%r9d, %ecx
	movq	96(%rsp), %r8
	movw	%cx, (%r8,%rdi,2)
	incq	%r13
	incl	%ebx
	cmpq	%r13, 40(%rsp)
	jne	.LBB58_78
	movl	232(%rsp), %ecx
	addl	152(%rsp), %ecx
	movzwl	%cx, %ecx
	movl	%ecx, %edi
	shll	$4, %edi
	movq	160(%rsp), %r8
	movq	104(%rsp), %r12
	movq	%r8, 8(%r12,%rdi)
	movq	256(%rsp), %r8
	movq	%r8, (%r12,%rdi)
	movq	272(%rsp), %rdi
	movq	96(%rsp), %r11
	movw	%di, (%r11,%rcx,2)
	movq	240(%rsp), %r8
	incq	%r8
	addq	168(%rsp), %r14
	movq	8(%rsp), %rdx
	addl	120(%rsp), %edx
	cmpq	112(%rsp), %r8
	movq	136(%rsp), %rbx
	movq	248(%rsp), %rdi
	movq	144(%rsp), %r13
	movq	72(%rsp), %rcx
	jne	.LBB58_77
	jmp	.LBB58_74
.LBB58_127:
	cmpw	$4, %si
	jne	.LBB58_130
	cmpw	$6, %dx
	jne	.LBB58_130
	movl	%r12d, %ecx
	orb	$3, %cl
	movl	%eax, %edx
	andb	$1, %dl
	movzbl	%dl, %r8d
	movq	%r8, %r9
	shlq	%cl, %r9
	xorl	%edx, %edx
	testb	$64, %cl
	movq	%r9, %rdi
	cmovneq	%rdx, %rdi
	xorl	%edx, %edx
	xorl	%esi, %esi
	shldq	%cl, %r8, %rsi
	testb	$64, %cl
	cmovneq	%r9, %rsi
	movl	%eax, %ebx
	shrb	%bl
	movl	%ebx, %r8d
	andb	$1, %r8b
	movzbl	%r8b, %r10d
	movq	%r10, %r11
	shlq	%cl, %r11
	testb	$64, %cl
	movq	%r11, %r8
	cmovneq	%rdx, %r8
	xorl	%edx, %edx
	xorl	%r9d, %r9d
	shldq	%cl, %r10, %r9
	testb	$64, %cl
	cmovneq	%r11, %r9
	movl	%eax, %ebp
	shrb	$2, %bpl
	movl	%ebp, %r10d
	andb	$1, %r10b
	movzbl	%r10b, %r14d
	movq	%r14, %r15
	shlq	%cl, %r15
	testb	$64, %cl
	movq	%r15, %r10
	cmovneq	%rdx, %r10
	xorl	%r11d, %r11d
	shldq	%cl, %r14, %r11
	testb	$64, %cl
	cmovneq	%r15, %r11
	movl	%eax, %r12d
	shrb	$3, %r12b
	movl	%r12d, %r14d
	andb	$1, %r14b
	movzbl	%r14b, %edx
	movq	%rdx, %r13
	shlq	%cl, %r13
	testb	$64, %cl
	movq	%r13, %r14
	movl	$0, %r15d
	cmovneq	%r15, %r14
	xorl	%r15d, %r15d
	shldq	%cl, %rdx, %r15
	testb	$64, %cl
	cmovneq	%r13, %r15
	movq	32(%rsp), %r13
	leal	-3(%r13), %ecx
	andb	$16, %r12b
	movzbl	%r12b, %edx
	movzwl	%cx, %ecx
	shll	$4, %ecx
	orq	%rdx, 384(%rsp,%rcx)
	leal	-2(%r13), %ecx
	andb	$16, %bpl
	movzbl	%bpl, %edx
	movl	56(%rsp), %ebp
	movzwl	%cx, %ecx
	shll	$4, %ecx
	orq	%rdx, 384(%rsp,%rcx)
	leal	-1(%r13), %ecx
	andb	$16, %bl
	movzbl	%bl, %edx
	movzwl	%cx, %ebx
	shll	$4, %ebx
	shrb	$4, %al
	andb	$1, %al
	movzbl	%al, %eax
	movq	16(%rsp), %rcx
	orb	$2, %cl
	xorl	%r12d, %r12d
	shldq	%cl, %rax, %r12
	orq	%rdx, 384(%rsp,%rbx)
	shlq	%cl, %rax
	testb	$64, %cl
	cmovneq	%rax, %r12
	movl	$0, %ecx
	cmovneq	%rcx, %rax
	orq	%r15, %r12
	orq	%r12, 392(%rsp)
	movq	16(%rsp), %r12
	orq	%r14, %rax
	orq	%rax, 384(%rsp)
	orq	%r11, 408(%rsp)
	orq	%r10, 400(%rsp)
	orq	%r9, 424(%rsp)
	orq	%r8, 416(%rsp)
	movq	%r13, %r8
	movl	80(%rsp), %r13d
	jmp	.LBB58_123
.LBB58_202:
	movw	%ax, 48(%rsp)
	movl	$4, %eax
	cmpw	$5, %cx
	je	.LBB58_206
	movq	%r13, 24(%rsp)
	movl	%edi, %esi
	andl	$-2, %esi
	movl	%r8d, 64(%rsp)
	movzwl	%r8w, %eax
	movl	$9, %r9d
	subl	%eax, %r9d
	movl	$4, %eax
	leaq	512(%rsp), %r10
	movzwl	48(%rsp), %r8d
	.p2align	4
.LBB58_204:
	leal	-1(%r9), %ecx
	movd	.LCPI58_8(%rip), %xmm1
	movdqa	-32(%r10), %xmm0
	pand	%xmm1, %xmm0
	movq	%xmm0, %rbx
	movzwl	%cx, %r11d
	shll	$5, %r11d
	movq	%rbx, %r15
	movl	%r8d, %ecx
	shlq	%cl, %r15
	xorl	%r14d, %r14d
	testb	$64, %r8b
	movq	%r15, %rcx
	cmovneq	%r14, %rcx
	orq	%rcx, 368(%rsp,%r11)
	movq	(%r10), %xmm2
	pand	%xmm1, %xmm2
	movq	%xmm2, %r12
	movq	%r12, %r13
	movl	%r8d, %ecx
	shlq	%cl, %r13
	pextrq	$1, %xmm2, %rbp
	testb	$64, %r8b
	cmoveq	%r13, %r14
	shldq	%cl, %r12, %rbp
	pextrq	$1, %xmm0, %r12
	testb	$64, %r8b
	cmovneq	%r13, %rbp
	shldq	%cl, %rbx, %r12
	testb	$64, %r8b
	cmovneq	%r15, %r12
	movzwl	%r9w, %ecx
	orq	%r12, 376(%rsp,%r11)
	shll	$5, %ecx
	orq	%rbp, 376(%rsp,%rcx)
	orq	%r14, 368(%rsp,%rcx)
	addq	$2, %rax
	addl	$2, %r9d
	addq	$64, %r10
	cmpq	%rax, %rsi
	jne	.LBB58_204
	testb	$1, %dil
	movl	56(%rsp), %ebp
	movl	80(%rsp), %r15d
	movq	16(%rsp), %r12
	movq	24(%rsp), %r13
	movl	64(%rsp), %r8d
	je	.LBB58_207
.LBB58_206:
	movl	$4, %ecx
	subl	%r8d, %ecx
	movswl	%cx, %esi
	addl	%eax, %esi
	shlq	$5, %rax
	movdqa	352(%rsp,%rax), %xmm0
	pand	.LCPI58_0(%rip), %xmm0
	movq	%xmm0, %rax
	pextrq	$1, %xmm0, %rdi
	movzwl	48(%rsp), %ecx
	shldq	%cl, %rax, %rdi
	shlq	%cl, %rax
	movzwl	%si, %r8d
	shll	$5, %r8d
	xorl	%esi, %esi
	testb	$64, %cl
	cmovneq	%rax, %rdi
	cmoveq	%rax, %rsi
	orq	%rsi, 368(%rsp,%r8)
	orq	%rdi, 376(%rsp,%r8)
.LBB58_207:
	movaps	64(%r13), %xmm0
	movaps	80(%r13), %xmm1
	orps	416(%rsp), %xmm0
	orps	432(%rsp), %xmm1
	movaps	%xmm0, 416(%rsp)
	movaps	%xmm1, 432(%rsp)
	movsd	104(%r13), %xmm0
	movsd	96(%r13), %xmm1
	movlhps	%xmm0, %xmm1
	orps	448(%rsp), %xmm1
	movq	120(%r13), %xmm0
	movq	112(%r13), %xmm2
	punpcklqdq	%xmm0, %xmm2
	por	464(%rsp), %xmm2
	movaps	%xmm1, 448(%rsp)
	movdqa	%xmm2, 464(%rsp)
	movaps	128(%r13), %xmm0
	movaps	144(%r13), %xmm1
	orps	480(%rsp), %xmm0
	orps	496(%rsp), %xmm1
	movaps	%xmm0, 480(%rsp)
	movaps	%xmm1, 496(%rsp)
	movdqa	160(%r13), %xmm0
	movdqa	176(%r13), %xmm1
	por	512(%rsp), %xmm0
	por	528(%rsp), %xmm1
	movdqa	%xmm0, 512(%rsp)
	movdqa	%xmm1, 528(%rsp)
	movzbl	8992(%rsp), %eax
	leaq	.Lstatic.2(%rip), %rcx
	movzbl	(%rax,%rcx), %eax
	cmpw	$4, %dx
	movl	(%rsp), %ecx
	jne	.LBB58_210
	cmpw	$4, %cx
	jne	.LBB58_210
	movq	32(%rsp), %rbx
	leal	-1(%rbx), %ecx
	leal	-2(%r12), %edx
	leal	-1(%r12), %esi
	movw	%cx, 192(%rsp)
	movw	$0, 194(%rsp)
	movw	%cx, 196(%rsp)
	movw	$1, 198(%rsp)
	movw	%cx, 200(%rsp)
	movl	$2, 202(%rsp)
	movw	%dx, 206(%rsp)
	movw	$0, 208(%rsp)
	movw	%si, 210(%rsp)
	movw	$1, 212(%rsp)
	movw	%si, 214(%rsp)
	movw	$2, 216(%rsp)
	movw	%si, 218(%rsp)
	movw	$3, 220(%rsp)
	movw	%si, 222(%rsp)
	jmp	.LBB58_219
.LBB58_210:
	cmpw	$6, %dx
	jne	.LBB58_213
	cmpw	$6, %cx
	jne	.LBB58_213
	movq	32(%rsp), %rbx
	leal	-3(%rbx), %ecx
	leal	-2(%rbx), %edx
	leal	-4(%r12), %esi
	leal	-3(%r12), %edi
	leal	-2(%r12), %r8d
	leal	-1(%r12), %r9d
	movw	%cx, 192(%rsp)
	movw	$0, 194(%rsp)
	movw	%dx, 196(%rsp)
	leal	-1(%rbx), %ecx
	pxor	%xmm0, %xmm0
	pinsrw	$1, %ecx, %xmm0
	movq	%xmm0, 198(%rsp)
	movw	%si, 206(%rsp)
	movw	$0, 208(%rsp)
	movw	%di, 210(%rsp)
	movw	$0, 212(%rsp)
	movw	%r8w, 214(%rsp)
	movw	$0, 216(%rsp)
	movw	%r9w, 218(%rsp)
	movw	$1, 220(%rsp)
	movw	%r9w, 222(%rsp)
	jmp	.LBB58_219
.LBB58_213:
	cmpw	$4, %dx
	jne	.LBB58_216
	cmpw	$6, %cx
	jne	.LBB58_216
	movq	32(%rsp), %rbx
	leal	-3(%rbx), %ecx
	leal	-2(%rbx), %edx
	leal	-2(%r12), %esi
	leal	-1(%r12), %edi
	movw	%cx, 192(%rsp)
	movw	$0, 194(%rsp)
	movw	%dx, 196(%rsp)
	leal	-1(%rbx), %ecx
	pxor	%xmm0, %xmm0
	pinsrw	$1, %ecx, %xmm0
	movq	%xmm0, 198(%rsp)
	movw	%si, 206(%rsp)
	movw	$0, 208(%rsp)
	movw	%di, 210(%rsp)
	movw	$1, 212(%rsp)
	movw	%di, 214(%rsp)
	movw	$2, 216(%rsp)
	movw	%di, 218(%rsp)
	movw	$3, 220(%rsp)
	movw	%di, 222(%rsp)
	jmp	.LBB58_219
.LBB58_137:
	movq	$0, 40(%rsp)
	xorl	%ebx, %ebx
	xorl	%r11d, %r11d
	xorl	%r10d, %r10d
	jmp	.LBB58_144
.LBB58_140:
	andl	$65534, %ebp
	movl	%ebp, 24(%rsp)
	leal	3(,%rbx,2), %eax
	movq	%rax, 32(%rsp)
	leal	4(,%rbx,2), %eax
	movq	%rax, 48(%rsp)
	xorl	%esi, %esi
	xorl	%edi, %edi
	xorl	%r10d, %r10d
	xorl	%r9d, %r9d
	xorl	%r8d, %r8d
	xorl	%edx, %edx
	.p2align	4
.LBB58_141:
	movl	$1, %r11d
	xorl	%eax, %eax
	movl	%esi, %ecx
	shldq	%cl, %r11, %rax
	xorl	%r14d, %r14d
	movl	$1, %ebx
	shlq	%cl, %rbx
	testb	$64, %sil
	cmovneq	%rbx, %rax
	cmovneq	%r14, %rbx
	xorl	%r14d, %r14d
	movq	(%rsp), %rcx
	addl	%esi, %ecx
	xorl	%r15d, %r15d
	shldq	%cl, %r11, %r15
	orq	%rax, %r10
	orq	%rbx, %rdi
	movl	$1, %r12d
	shlq	%cl, %r12
	testb	$64, %cl
	cmovneq	%r12, %r15
	cmovneq	%r14, %r12
	leal	(%rsi,%r13), %ecx
	movq	%r13, %r14
	xorl	%r13d, %r13d
	shldq	%cl, %r11, %r13
	orq	%r8, %r15
	orq	%r9, %r12
	movl	$1, %ebp
	shlq	%cl, %rbp
	testb	$64, %cl
	cmovneq	%rbp, %r13
	movl	$0, %r9d
	cmovneq	%r9, %rbp
	orq	%r13, %r10
	movq	32(%rsp), %rcx
	addl	%esi, %ecx
	xorl	%r8d, %r8d
	shldq	%cl, %r11, %r8
	shlq	%cl, %r11
	orq	%rbp, %rdi
	testb	$64, %cl
	cmovneq	%r11, %r8
	cmovneq	%r9, %r11
	orq	%rax, %r8
	orq	%r15, %r8
	orq	%rbx, %r11
	orq	%r12, %r11
	orq	%r13, %r8
	movq	%r14, %r13
	movq	%r11, %r9
	orq	%rbp, %r9
	addl	$2, %edx
	movq	48(%rsp), %rax
	addl	%eax, %esi
	cmpw	%dx, 24(%rsp)
	jne	.LBB58_141
	movq	%r9, 40(%rsp)
	movl	56(%rsp), %ebp
	testb	$1, %bpl
	movq	112(%rsp), %r9
	movq	16(%rsp), %r12
	movq	%rdi, %r11
	movq	%r8, %rbx
	je	.LBB58_144
.LBB58_143:
	imull	%r13d, %edx
	movl	$1, %esi
	xorl	%eax, %eax
	movl	%edx, %ecx
	shldq	%cl, %rsi, %rax
	xorl	%r8d, %r8d
	movl	$1, %edi
	shlq	%cl, %rdi
	testb	$64, %dl
	cmovneq	%rdi, %rax
	cmovneq	%r8, %rdi
	orq	%rax, %r10
	movq	(%rsp), %rcx
	addl	%edx, %ecx
	xorl	%edx, %edx
	shldq	%cl, %rsi, %rdx
	shlq	%cl, %rsi
	orq	%rdi, %r11
	testb	$64, %cl
	cmovneq	%rsi, %rdx
	cmovneq	%r8, %rsi
	orq	%rbx, %rax
	orq	%rdx, %rax
	orq	40(%rsp), %rdi
	orq	%rsi, %rdi
	movq	%rdi, 40(%rsp)
	movq	%rax, %rbx
.LBB58_144:
	movq	%rbx, 48(%rsp)
	movq	$-1, %r15
	movzwl	128(%rsp), %ecx
	shldq	%cl, %r15, %r15
	movq	$-1, %rax
	shlq	%cl, %rax
	movq	$0, 64(%rsp)
	testb	$64, %cl
	cmovneq	%rax, %r15
	movl	$0, %ecx
	cmoveq	%rax, %rcx
	notq	%r15
	notq	%rcx
	movabsq	$6148914691236517205, %r14
	movq	%r15, %r13
	andq	%r14, %r13
	movq	%rcx, 160(%rsp)
	andq	%rcx, %r14
	xorl	%esi, %esi
	xorl	%ebx, %ebx
.LBB58_146:
	movq	%r10, 32(%rsp)
	movq	%r11, 24(%rsp)
	pxor	%xmm0, %xmm0
	movdqa	%xmm0, 4832(%rsp)
	movdqa	%xmm0, 4816(%rsp)
	movdqa	%xmm0, 4800(%rsp)
	movdqa	%xmm0, 4784(%rsp)
	movdqa	%xmm0, 4768(%rsp)
	decw	%bp
	movq	%rbx, 136(%rsp)
	movq	%r15, 144(%rsp)
	movq	160(%rsp), %r10
	movq	%r13, %r11
	je	.LBB58_153
	cmpw	$1, %bp
	jne	.LBB58_149
	xorl	%edi, %edi
	jmp	.LBB58_152
.LBB58_149:
	movq	%rsi, 72(%rsp)
	movq	%r14, 152(%rsp)
	movzwl	%bp, %r8d
	movl	%r8d, %r9d
	andl	$-2, %r9d
	movq	8(%rsp), %rax
	leal	3(,%rax,2), %edx
	leal	4(,%rax,2), %eax
	leaq	4784(%rsp), %r10
	xorl	%edi, %edi
	movq	(%rsp), %rsi
	.p2align	4
.LBB58_150:
	movq	$-1, %r14
	movl	%esi, %ecx
	shldq	%cl, %r14, %r14
	movq	$-1, %r11
	shlq	%cl, %r11
	xorl	%ebx, %ebx
	testb	$64, %sil
	cmovneq	%r11, %r14
	cmovneq	%rbx, %r11
	movq	$-1, %r15
	movl	%edx, %ecx
	shldq	%cl, %r15, %r15
	notq	%r14
	movq	%r14, -8(%r10)
	movq	$-1, %r14
	shlq	%cl, %r14
	notq	%r11
	testb	$64, %dl
	cmovneq	%r14, %r15
	movq	%r11, -16(%r10)
	cmovneq	%rbx, %r14
	notq	%r15
	notq	%r14
	movq	%r15, 8(%r10)
	movq	%r14, (%r10)
	addq	$2, %rdi
	addl	%eax, %edx
	addq	$32, %r10
	addl	%eax, %esi
	cmpq	%rdi, %r9
	jne	.LBB58_150
	testb	$1, %r8b
	movq	112(%rsp), %r9
	movq	152(%rsp), %r14
	movq	136(%rsp), %rbx
	movq	144(%rsp), %r15
	movq	160(%rsp), %r10
	movq	%r13, %r11
	movq	72(%rsp), %rsi
	je	.LBB58_153
.LBB58_152:
	movq	8(%rsp), %rax
	addl	$2, %eax
	imull	%edi, %eax
	movq	(%rsp), %rcx
	addl	%eax, %ecx
	movq	$-1, %rax
	shldq	%cl, %rax, %rax
	movq	$-1, %rdx
	shlq	%cl, %rdx
	xorl	%r8d, %r8d
	testb	$64, %cl
	cmovneq	%rdx, %rax
	cmoveq	%rdx, %r8
	notq	%rax
	notq	%r8
	shlq	$4, %rdi
	movq	%rax, 4776(%rsp,%rdi)
	movq	%r8, 4768(%rsp,%rdi)
.LBB58_153:
	testq	%r9, %r9
	je	.LBB58_74
	movq	120(%rsp), %rdi
	leal	1(%rdi), %r13d
	testw	%r13w, %r13w
	cmoveq	%r15, %r11
	cmoveq	%r10, %r14
	cmovel	%ebx, %esi
	movq	%rsi, 72(%rsp)
	movq	8(%rsp), %rdx
	leal	(%rdx,%rdx,4), %eax
	movq	$-1, %r8
	movl	%eax, %ecx
	shldq	%cl, %r8, %r8
	movq	$-1, %rsi
	shlq	%cl, %rsi
	xorl	%ecx, %ecx
	testb	$64, %al
	cmovneq	%rsi, %r8
	movq	%r8, 16(%rsp)
	cmovneq	%rcx, %rsi
	movq	%rsi, (%rsp)
	movq	$-1, %rsi
	movl	%edx, %ecx
	shldq	%cl, %rsi, %rsi
	movq	$-1, %r8
	shlq	%cl, %r8
	testb	$64, %dl
	cmovneq	%r8, %rsi
	movl	$0, %ecx
	cmovneq	%rcx, %r8
	movq	%r8, 56(%rsp)
	movq	$-1, %rdx
	movl	%r12d, %ecx
	shldq	%cl, %rdx, %rdx
	movq	$-1, %r8
	shlq	%cl, %r8
	testb	$64, %r12b
	cmovneq	%r8, %rdx
	movl	$0, %ecx
	cmovneq	%rcx, %r8
	leal	2(%rdi), %ecx
	cmpw	$1, %r13w
	jbe	.LBB58_155
	movq	%rdx, 128(%rsp)
	movzwl	%r13w, %edx
	movq	%rdx, 88(%rsp)
	cmpl	$129, 80(%rsp)
	movq	%r14, 152(%rsp)
	movq	%r11, 240(%rsp)
	movq	%r13, 232(%rsp)
	movq	%rcx, 176(%rsp)
	jae	.LBB58_158
	notq	128(%rsp)
	notq	%r8
	movq	%r8, (%rsp)
	testw	%bp, %bp
	je	.LBB58_163
	movzwl	%bp, %edi
	movq	%rcx, %r8
	movl	%edi, %ecx
	andl	$-2, %ecx
	xorl	%r15d, %r15d
	movq	104(%rsp), %rbx
	movl	%ebp, %esi
	movq	72(%rsp), %rax
	movq	96(%rsp), %rdx
	jmp	.LBB58_168
	.p2align	4
.LBB58_175:
	addl	232(%rsp), %r8d
	movzwl	%r8w, %r8d
	movl	%r8d, %r9d
	shll	$4, %r9d
	movq	144(%rsp), %rax
	movq	%rax, 8(%rbx,%r9)
	movq	160(%rsp), %rax
	movq	%rax, (%rbx,%r9)
	movq	136(%rsp), %rax
	movw	%ax, (%rdx,%r8,2)
	movq	16(%rsp), %r15
	incq	%r15
	cmpq	112(%rsp), %r15
	movq	152(%rsp), %r14
	movq	240(%rsp), %r11
	movq	72(%rsp), %rax
	movq	176(%rsp), %r8
	je	.LBB58_74
.LBB58_168:
	imull	%r15d, %r8d
	movzwl	%r8w, %r9d
	movl	%r9d, %r10d
	shll	$4, %r10d
	movq	%r11, 8(%rbx,%r10)
	movq	%r14, (%rbx,%r10)
	movw	%ax, (%rdx,%r9,2)
	movq	120(%rsp), %r9
	movq	%r15, 16(%rsp)
	imull	%r15d, %r9d
	decl	%r9d
	movl	$1, %r10d
	movq	40(%rsp), %rax
	movq	64(%rsp), %r13
	jmp	.LBB58_169
	.p2align	4
.LBB58_173:
	shlq	$4, %r14
	movq	4776(%rsp,%r14), %r15
	andq	%rbx, %r15
	movq	4768(%rsp,%r14), %r14
	andq	%r11, %r14
	subq	%r14, %r11
	sbbq	%r15, %rbx
	shldq	$2, %r11, %rbx
	shlq	$2, %r11
	addq	%r14, %r11
	adcq	%r15, %rbx
.LBB58_174:
	movl	%r10d, %ebp
	andl	$1, %ebp
	movl	%ebp, %r14d
	negl	%r14d
	movl	%r13d, %r15d
	andl	%r14d, %r15d
	testl	%ebp, %ebp
	movq	48(%rsp), %r14
	cmoveq	32(%rsp), %r14
	movq	%rax, %r12
	cmoveq	24(%rsp), %r12
	orq	%r11, %r12
	orq	%rbx, %r14
	leal	(%r8,%r10), %r11d
	movzwl	%r11w, %r11d
	movl	%r11d, %ebx
	shll	$4, %ebx
	movq	104(%rsp), %rbp
	movq	%r14, 8(%rbp,%rbx)
	movq	%r12, (%rbp,%rbx)
	movq	%rbp, %rbx
	movw	%r15w, (%rdx,%r11,2)
	incq	%r10
	cmpq	88(%rsp), %r10
	movl	%esi, %ebp
	je	.LBB58_175
.LBB58_169:
	leal	(%r9,%r10), %r11d
	movzwl	%r11w, %ebx
	shll	$4, %ebx
	movq	384(%rsp,%rbx), %r11
	movq	392(%rsp,%rbx), %rbx
	shrdq	$4, %rbx, %r11
	shrq	$4, %rbx
	andq	(%rsp), %r11
	andq	128(%rsp), %rbx
	shldq	$1, %r11, %rbx
	addq	%r11, %r11
	xorl	%r14d, %r14d
	cmpw	$1, %bp
	je	.LBB58_173
	leaq	4784(%rsp), %r15
	.p2align	4
.LBB58_171:
	movq	-8(%r15), %r12
	andq	%rbx, %r12
	movq	-16(%r15), %r13
	andq	%r11, %r13
	subq	%r13, %r11
	sbbq	%r12, %rbx
	shldq	$2, %r11, %rbx
	shlq	$2, %r11
	addq	%r13, %r11
	adcq	%r12, %rbx
	movq	8(%r15), %r12
	andq	%rbx, %r12
	movq	(%r15), %r13
	andq	%r11, %r13
	subq	%r13, %r11
	sbbq	%r12, %rbx
	shldq	$2, %r11, %rbx
	shlq	$2, %r11
	addq	%r13, %r11
	adcq	%r12, %rbx
	addq	$2, %r14
	addq	$32, %r15
	cmpq	%r14, %rcx
	jne	.LBB58_171
	testb	$1, %dil
	movq	96(%rsp), %rdx
	movq	64(%rsp), %r13
	jne	.LBB58_173
	jmp	.LBB58_174
.LBB58_155:
	xorl	%eax, %eax
	movq	104(%rsp), %rsi
	movq	72(%rsp), %rdi
	movq	96(%rsp), %r8
	movq	%rcx, %r12
	.p2align	4
.LBB58_156:
	movzwl	%ax, %ecx
	movl	%ecx, %edx
	shll	$4, %edx
	movq	%r11, 8(%rsi,%rdx)
	movq	%r14, (%rsi,%rdx)
	movw	%di, (%r8,%rcx,2)
	leal	(%rax,%r13), %ecx
	movzwl	%cx, %ecx
	movl	%ecx, %edx
	shll	$4, %edx
	movq	%r15, 8(%rsi,%rdx)
	movq	%r10, (%rsi,%rdx)
	movw	%bx, (%r8,%rcx,2)
	addl	%r12d, %eax
	decq	%r9
	jne	.LBB58_156
	jmp	.LBB58_74
.LBB58_158:
	movl	$117, %edx
	subl	%eax, %edx
	movl	%edx, 80(%rsp)
	movq	16(%rsp), %r10
	notq	%r10
	movq	(%rsp), %rbx
	notq	%rbx
	movq	4768(%rsp), %r12
	movq	4776(%rsp), %rdx
	movq	4792(%rsp), %rdi
	movq	%rdi, 184(%rsp)
	movq	4784(%rsp), %rdi
	movq	%rdi, 264(%rsp)
	movq	4808(%rsp), %rdi
	movq	%rdi, 288(%rsp)
	movq	4800(%rsp), %rdi
	movq	%rdi, 256(%rsp)
	movq	4824(%rsp), %rdi
	movq	%rdi, 248(%rsp)
	movq	4816(%rsp), %rdi
	movq	%rdi, 272(%rsp)
	notq	%rsi
	movq	%rsi, 128(%rsp)
	notq	56(%rsp)
	movq	8(%rsp), %rsi
	leal	11(%rsi,%rsi,4), %esi
	movl	%esi, 284(%rsp)
	movzwl	%cx, %esi
	movq	%rsi, 296(%rsp)
	xorl	%ebp, %ebp
	xorl	%esi, %esi
	xorl	%edi, %edi
	movq	72(%rsp), %r8
	movq	96(%rsp), %r9
	movq	%r10, 16(%rsp)
	.p2align	4
.LBB58_159:
	movq	%rsi, (%rsp)
	movq	%rdi, 168(%rsp)
	imull	%edi, %ecx
	movl	%ecx, 304(%rsp)
	movzwl	%cx, %ecx
	movl	%ecx, %edi
	shll	$4, %edi
	movq	104(%rsp), %r15
	movq	%r11, 8(%r15,%rdi)
	movq	%r14, (%r15,%rdi)
	movw	%r8w, (%r9,%rcx,2)
	movl	$1, %r13d
	movq	%rbp, 8(%rsp)
	movl	284(%rsp), %r15d
	.p2align	4
.LBB58_160:
	movzwl	%bp, %ecx
	shll	$4, %ecx
	movq	384(%rsp,%rcx), %r9
	movq	392(%rsp,%rcx), %rdi
	shrdq	$4, %rdi, %r9
	shrq	$4, %rdi
	movq	%r9, %r8
	andq	%rbx, %r8
	movq	%rdi, %r14
	andq	%r10, %r14
	shldq	$1, %r8, %r14
	addq	%r8, %r8
	movq	%r14, %rcx
	andq	%rdx, %rcx
	movq	%r8, %r10
	andq	%r12, %r10
	subq	%r10, %r8
	sbbq	%rcx, %r14
	shldq	$2, %r8, %r14
	shlq	$2, %r8
	addq	%r10, %r8
	adcq	%rcx, %r14
	movq	%r14, %rcx
	movq	%r8, %r10
	andq	184(%rsp), %rcx
	andq	264(%rsp), %r10
	subq	%r10, %r8
	sbbq	%rcx, %r14
	shldq	$2, %r8, %r14
	shlq	$2, %r8
	addq	%r10, %r8
	adcq	%rcx, %r14
	movq	%r14, %rcx
	andq	288(%rsp), %rcx
	movq	%r8, %r10
	andq	256(%rsp), %r10
	subq	%r10, %r8
	sbbq	%rcx, %r14
	shldq	$2, %r8, %r14
	shlq	$2, %r8
	addq	%r10, %r8
	adcq	%rcx, %r14
	movq	%r14, %rcx
	movq	%r8, %r10
	andq	248(%rsp), %rcx
	andq	272(%rsp), %r10
	subq	%r10, %r8
	sbbq	%rcx, %r14
	shldq	$2, %r8, %r14
	shlq	$2, %r8
	addq	%r10, %r8
	adcq	%rcx, %r14
	movl	%eax, %ecx
	shrdq	%cl, %rdi, %r9
	shrq	%cl, %rdi
	movq	%r12, %rsi
	movq	%rbx, %r12
	xorl	%ebx, %ebx
	testb	$64, %al
	cmovneq	%rdi, %r9
	cmovneq	%rbx, %rdi
	andq	56(%rsp), %r9
	andq	128(%rsp), %rdi
	movq	%rdi, %r11
	movq	%r9, %r10
	movl	%r15d, %ecx
	shldq	%cl, %r9, %r11
	shlq	%cl, %r10
	testb	$64, %r15b
	cmovneq	%r10, %r11
	cmovneq	%rbx, %r10
	movl	80(%rsp), %ecx
	shrdq	%cl, %rdi, %r9
	shrq	%cl, %rdi
	testb	$64, %cl
	cmoveq	%r9, %rdi
	movl	%r13d, %r9d
	andl	$1, %r9d
	movl	%r9d, %ebx
	negl	%ebx
	movq	64(%rsp), %rcx
	andl	%ebx, %ecx
	testl	%r9d, %r9d
	movq	48(%rsp), %r9
	cmoveq	32(%rsp), %r9
	movq	40(%rsp), %rbx
	cmoveq	24(%rsp), %rbx
	orq	%r10, %rbx
	orq	%r11, %r9
	orq	%r8, %rbx
	orq	%r14, %r9
	movq	(%rsp), %r8
	addl	%r13d, %r8d
	movzwl	%r8w, %r8d
	movl	%r8d, %r10d
	shll	$4, %r10d
	movq	104(%rsp), %r11
	movq	%rbx, (%r11,%r10)
	movq	%r12, %rbx
	movq	%rsi, %r12
	movq	%r9, 8(%r11,%r10)
	movq	16(%rsp), %r10
	orl	%edi, %ecx
	movq	96(%rsp), %rsi
	movw	%cx, (%rsi,%r8,2)
	incq	%r13
	incl	%ebp
	cmpq	%r13, 88(%rsp)
	jne	.LBB58_160
	movl	304(%rsp), %ecx
	addl	232(%rsp), %ecx
	movzwl	%cx, %ecx
	movl	%ecx, %edi
	shll	$4, %edi
	movq	144(%rsp), %r8
	movq	104(%rsp), %rsi
	movq	%r8, 8(%rsi,%rdi)
	movq	160(%rsp), %r8
	movq	%r8, (%rsi,%rdi)
	movq	136(%rsp), %rdi
	movq	96(%rsp), %r9
	movw	%di, (%r9,%rcx,2)
	movq	168(%rsp), %rdi
	incq	%rdi
	movq	(%rsp), %r15
	addq	296(%rsp), %r15
	movq	8(%rsp), %rbp
	addl	120(%rsp), %ebp
	cmpq	112(%rsp), %rdi
	movq	152(%rsp), %r14
	movq	240(%rsp), %r11
	movq	72(%rsp), %r8
	movq	176(%rsp), %rcx
	movq	%r15, %rsi
	jne	.LBB58_159
	jmp	.LBB58_74
.LBB58_130:
	testw	%si, %si
	movq	32(%rsp), %r8
	movl	80(%rsp), %r13d
	jne	.LBB58_133
	cmpw	$6, %dx
	jne	.LBB58_133
	movl	%r12d, %ecx
	orb	$3, %cl
	movl	%eax, %edx
	andb	$1, %dl
	movzbl	%dl, %edx
	movq	%rdx, %r8
	shlq	%cl, %r8
	xorl	%r9d, %r9d
	testb	$64, %cl
	movq	%r8, %rsi
	cmovneq	%r9, %rsi
	movq	%rsi, (%rsp)
	xorl	%r14d, %r14d
	shldq	%cl, %rdx, %r14
	testb	$64, %cl
	cmovneq	%r8, %r14
	movl	%eax, %r8d
	shrb	$3, %r8b
	movl	%r8d, %edx
	andb	$1, %dl
	movzbl	%dl, %edx
	movq	%rdx, %r11
	shlq	%cl, %r11
	testb	$64, %cl
	movq	%r11, %rsi
	cmovneq	%r9, %rsi
	movq	%rsi, 24(%rsp)
	xorl	%r10d, %r10d
	shldq	%cl, %rdx, %r10
	testb	$64, %cl
	cmovneq	%r11, %r10
	movl	%eax, %edx
	shrb	$6, %dl
	andb	$1, %dl
	movzbl	%dl, %edx
	movq	%rdx, %r11
	shlq	%cl, %r11
	testb	$64, %cl
	movq	%r11, %rsi
	cmovneq	%r9, %rsi
	movq	%rsi, 48(%rsp)
	xorl	%ebx, %ebx
	shldq	%cl, %rdx, %rbx
	testb	$64, %cl
	cmovneq	%r11, %rbx
	movl	%r12d, %ecx
	orb	$2, %cl
	movl	%eax, %edx
	shrb	%dl
	andb	$1, %dl
	movzbl	%dl, %edx
	movq	%rdx, %r12
	shlq	%cl, %r12
	testb	$64, %cl
	movq	%r12, %r11
	cmovneq	%r9, %r11
	xorl	%r15d, %r15d
	shldq	%cl, %rdx, %r15
	testb	$64, %cl
	cmovneq	%r12, %r15
	movl	%eax, %edx
	shrb	$4, %dl
	andb	$1, %dl
	movzbl	%dl, %edx
	movq	%rdx, %rbp
	shlq	%cl, %rbp
	testb	$64, %cl
	movq	%rbp, %r12
	cmovneq	%r9, %r12
	xorl	%r13d, %r13d
	shldq	%cl, %rdx, %r13
	testb	$64, %cl
	cmovneq	%rbp, %r13
	movq	16(%rsp), %rcx
	orb	$1, %cl
	movl	%eax, %edx
	shrb	$2, %dl
	andb	$1, %dl
	movzbl	%dl, %edi
	movq	%rdi, %rsi
	shlq	%cl, %rsi
	testb	$64, %cl
	movq	%rsi, %rbp
	cmovneq	%r9, %rbp
	xorl	%edx, %edx
	shldq	%cl, %rdi, %rdx
	testb	$64, %cl
	cmovneq	%rsi, %rdx
	shrb	$5, %al
	andb	$1, %al
	movzbl	%al, %esi
	movq	%rsi, %rdi
	shlq	%cl, %rdi
	testb	$64, %cl
	movq	%rdi, %rax
	cmovneq	%r9, %rax
	shldq	%cl, %rsi, %r9
	testb	$64, %cl
	cmovneq	%rdi, %r9
	andb	$16, %r8b
	movzbl	%r8b, %ecx
	movq	32(%rsp), %r8
	addq	48(%rsp), %rcx
	leal	-1(%r8), %esi
	movzwl	%si, %esi
	shll	$4, %esi
	orq	%rcx, 384(%rsp,%rsi)
	orq	%rbx, 392(%rsp,%rsi)
	orq	%r10, %r13
	orq	24(%rsp), %r12
	orq	%rax, %r12
	orq	%r12, 384(%rsp)
	movq	16(%rsp), %r12
	orq	%r9, %r13
	orq	%r13, 392(%rsp)
	movl	80(%rsp), %r13d
	orq	%r14, %rdx
	orq	%r15, %rdx
	orq	(%rsp), %rbp
	orq	%rdx, 408(%rsp)
	orq	%r11, %rbp
	orq	%rbp, 400(%rsp)
	movl	56(%rsp), %ebp
	jmp	.LBB58_133
.LBB58_216:
	testw	%dx, %dx
	movq	32(%rsp), %rbx
	jne	.LBB58_220
	cmpw	$6, %cx
	jne	.LBB58_220
	movdqa	.LCPI58_1(%rip), %xmm0
	pinsrw	$7, %r12d, %xmm0
	pshufd	$255, %xmm0, %xmm1
	pblendw	$215, .LCPI58_2(%rip), %xmm1
	pinsrw	$0, %ebx, %xmm1
	pshuflw	$196, %xmm1, %xmm1
	paddw	%xmm0, %xmm1
	leal	-1(%r12), %ecx
	movdqa	%xmm1, 192(%rsp)
	movw	$0, 208(%rsp)
	movw	%cx, 210(%rsp)
	pshufhw	$237, %xmm1, %xmm0
	pshufd	$170, %xmm0, %xmm0
	movdqa	.LCPI58_3(%rip), %xmm1
	punpcklwd	%xmm0, %xmm1
	movq	%xmm1, 212(%rsp)
	movw	$1, 220(%rsp)
	movw	%cx, 222(%rsp)
.LBB58_219:
	movzbl	%al, %esi
	leaq	352(%rsp), %rdi
	leaq	192(%rsp), %rdx
	callq	"dm_layout::symbols::laying::put_cells::<#3c42656d14ec8a1f>"
.LBB58_220:
	andl	$3, %ebx
	xorl	$2, %ebx
	movl	%r12d, %eax
	andl	$3, %eax
	xorl	$2, %eax
	orw	%bx, %ax
	movq	8(%rsp), %r14
	jne	.LBB58_228
	leal	2(%r12), %ecx
	movq	88(%rsp), %r8
	shll	$5, %r8d
	cmpw	$127, %cx
	ja	.LBB58_223
	movl	$1, %edx
	xorl	%edi, %edi
	shldq	%cl, %rdx, %rdi
	shlq	%cl, %rdx
	xorl	%eax, %eax
	testb	$64, %cl
	cmovneq	%rdx, %rdi
	cmovneq	%rax, %rdx
	xorl	%esi, %esi
	jmp	.LBB58_224
.LBB58_223:
	leal	-126(%r12), %ecx
	movl	$1, %eax
	xorl	%esi, %esi
	shldq	%cl, %rax, %rsi
	shlq	%cl, %rax
	xorl	%edx, %edx
	testb	$64, %cl
	cmovneq	%rax, %rsi
	cmovneq	%rdx, %rax
	xorl	%edi, %edi
.LBB58_224:
	orq	%rdx, 352(%rsp,%r8)
	orq	%rdi, 360(%rsp,%r8)
	orq	%rax, 368(%rsp,%r8)
	orq	%rsi, 376(%rsp,%r8)
	leal	3(%r12), %ecx
	cmpw	$127, %cx
	ja	.LBB58_226
	movl	$1, %edx
	xorl	%edi, %edi
	shldq	%cl, %rdx, %rdi
	shlq	%cl, %rdx
	xorl	%eax, %eax
	testb	$64, %cl
	cmovneq	%rdx, %rdi
	cmovneq	%rax, %rdx
	xorl	%esi, %esi
	jmp	.LBB58_227
.LBB58_226:
	leal	-125(%r12), %ecx
	movl	$1, %eax
	xorl	%esi, %esi
	shldq	%cl, %rax, %rsi
	shlq	%cl, %rax
	xorl	%edx, %edx
	testb	$64, %cl
	cmovneq	%rax, %rsi
	cmovneq	%rdx, %rax
	xorl	%edi, %edi
.LBB58_227:
	orq	%rdx, 384(%rsp,%r8)
	orq	%rdi, 392(%rsp,%r8)
	orq	%rax, 400(%rsp,%r8)
	orq	%rsi, 408(%rsp,%r8)
.LBB58_228:
	leal	1(%r14), %r10d
	cmpl	$128, %r15d
	movq	%r10, (%rsp)
	ja	.LBB58_238
	testw	%bp, %bp
	movq	96(%rsp), %r13
	movq	104(%rsp), %r12
	movq	112(%rsp), %r9
	movq	120(%rsp), %r11
	je	.LBB58_230
	leal	2(%r14), %eax
	cmpw	$1, %bp
	jne	.LBB58_233
	xorl	%ebx, %ebx
	xorl	%r10d, %r10d
	movq	$0, 40(%rsp)
	xorl	%r14d, %r14d
	xorl	%edx, %edx
	jmp	.LBB58_236
.LBB58_238:
	movl	$1, %ebx
	xorl	%esi, %esi
	movl	%r10d, %ecx
	shldq	%cl, %rbx, %rsi
	leal	2(%r14), %edx
	movl	$1, %eax
	shlq	%cl, %rax
	xorl	%ecx, %ecx
	testb	$64, %r10b
	cmovneq	%rax, %rsi
	movq	%rsi, 32(%rsp)
	cmovneq	%rcx, %rax
	xorl	%edi, %edi
	movq	%rax, 24(%rsp)
	xorl	%eax, %eax
	movl	%edx, %ecx
	shldq	%cl, %rbx, %rax
	movl	$1, %esi
	shlq	%cl, %rsi
	testb	$64, %dl
	cmovneq	%rsi, %rax
	movq	%rax, 88(%rsp)
	cmovneq	%rdi, %rsi
	movq	%rsi, 48(%rsp)
	movq	8(%rsp), %rax
	leal	(%r10,%rax), %ecx
	addl	$2, %ecx
	xorl	%r12d, %r12d
	shldq	%cl, %rbx, %r12
	movl	$1, %r9d
	shlq	%cl, %r9
	testb	$64, %cl
	cmovneq	%r9, %r12
	movl	$0, %esi
	cmovneq	%rsi, %r9
	movq	8(%rsp), %rax
	leal	4(,%rax,2), %ecx
	xorl	%r14d, %r14d
	shldq	%cl, %rbx, %r14
	movl	$1, %r15d
	shlq	%cl, %r15
	testb	$64, %cl
	cmovneq	%r15, %r14
	cmovneq	%rsi, %r15
	movq	8(%rsp), %rax
	leal	(%r10,%rax,2), %ecx
	addl	$4, %ecx
	xorl	%esi, %esi
	shldq	%cl, %rbx, %rsi
	movl	$1, %eax
	shlq	%cl, %rax
	testb	$64, %cl
	cmovneq	%rax, %rsi
	movq	%rsi, 40(%rsp)
	movl	$0, %esi
	cmovneq	%rsi, %rax
	movq	%rax, 64(%rsp)
	leal	(%rdx,%rdx,2), %ecx
	xorl	%r11d, %r11d
	shldq	%cl, %rbx, %r11
	movl	$1, %r8d
	shlq	%cl, %r8
	testb	$64, %cl
	cmovneq	%r8, %r11
	cmovneq	%rsi, %r8
	xorl	%eax, %eax
	addl	%r10d, %ecx
	xorl	%r13d, %r13d
	shldq	%cl, %rbx, %r13
	movl	$1, %ebp
	shlq	%cl, %rbp
	testb	$64, %cl
	cmovneq	%rbp, %r13
	cmovneq	%rax, %rbp
	xorl	%edx, %edx
	movq	8(%rsp), %rax
	leal	8(,%rax,4), %ecx
	xorl	%edi, %edi
	shldq	%cl, %rbx, %rdi
	movl	$1, %esi
	shlq	%cl, %rsi
	testb	$64, %cl
	cmovneq	%rsi, %rdi
	cmovneq	%rdx, %rsi
	movq	8(%rsp), %rcx
	leal	(%r10,%rcx,4), %ecx
	addl	$8, %ecx
	xorl	%edx, %edx
	shldq	%cl, %rbx, %rdx
	movl	$1, %eax
	shlq	%cl, %rax
	testb	$64, %cl
	cmovneq	%rax, %rdx
	movl	$0, %ecx
	cmovneq	%rcx, %rax
	movq	8(%rsp), %rcx
	leal	(%rcx,%rcx,4), %ecx
	addb	$10, %cl
	xorl	%r10d, %r10d
	shldq	%cl, %rbx, %r10
	shlq	%cl, %rbx
	testb	$64, %cl
	cmovneq	%rbx, %r10
	movl	$0, %ecx
	cmovneq	%rcx, %rbx
	orq	88(%rsp), %r14
	orq	%r11, %r14
	orq	48(%rsp), %r15
	orq	%r8, %r15
	orq	%rdi, %r10
	orq	%r14, %r10
	orq	%rsi, %rbx
	orq	%r15, %rbx
	orq	32(%rsp), %r12
	orq	40(%rsp), %r12
	movb	$-112, %cl
	movzwl	128(%rsp), %esi
	subb	%sil, %cl
	orq	24(%rsp), %r9
	movl	$65535, %r8d
	shrl	%cl, %r8d
	orq	64(%rsp), %r9
	movabsq	$6148914691236517205, %r14
	orq	$1, %rbx
	orq	%r13, %rdx
	orq	%r12, %rdx
	orq	%rbp, %rax
	movl	56(%rsp), %ebp
	orq	%r9, %rax
	orq	%r10, %rdx
	movq	%rdx, 88(%rsp)
	orq	%rbx, %rax
	movq	%rax, 40(%rsp)
	addb	$127, %sil
	movl	%esi, %ecx
	movl	$1, %edx
	shll	%cl, %edx
	movl	%r8d, %eax
	andl	$21845, %eax
	movq	%rax, 168(%rsp)
	movq	%r14, 72(%rsp)
	movq	$-1, 136(%rsp)
	movq	$-1, %r15
	movq	96(%rsp), %r13
	movq	104(%rsp), %r12
	movq	112(%rsp), %r9
	movq	120(%rsp), %r11
	jmp	.LBB58_239
.LBB58_230:
	movq	$0, 40(%rsp)
	xorl	%r14d, %r14d
	xorl	%ebx, %ebx
	xorl	%r10d, %r10d
	jmp	.LBB58_237
.LBB58_233:
	andl	$65534, %ebp
	movl	%ebp, 32(%rsp)
	leal	3(,%r14,2), %ecx
	movq	%rcx, 48(%rsp)
	leal	4(,%r14,2), %ecx
	movq	%rcx, 88(%rsp)
	xorl	%esi, %esi
	xorl	%edi, %edi
	xorl	%r10d, %r10d
	xorl	%r9d, %r9d
	xorl	%r8d, %r8d
	xorl	%edx, %edx
	movq	%rax, 24(%rsp)
	.p2align	4
.LBB58_234:
	movl	$1, %r11d
	xorl	%eax, %eax
	movl	%esi, %ecx
	shldq	%cl, %r11, %rax
	xorl	%r14d, %r14d
	movl	$1, %ebx
	shlq	%cl, %rbx
	testb	$64, %sil
	cmovneq	%rbx, %rax
	cmovneq	%r14, %rbx
	movq	(%rsp), %rcx
	addl	%esi, %ecx
	xorl	%r15d, %r15d
	shldq	%cl, %r11, %r15
	orq	%rax, %r10
	orq	%rbx, %rdi
	movl	$1, %r12d
	shlq	%cl, %r12
	testb	$64, %cl
	cmovneq	%r12, %r15
	cmovneq	%r14, %r12
	movq	24(%rsp), %rcx
	addl	%esi, %ecx
	xorl	%r13d, %r13d
	shldq	%cl, %r11, %r13
	orq	%r8, %r15
	orq	%r9, %r12
	movl	$1, %ebp
	shlq	%cl, %rbp
	testb	$64, %cl
	cmovneq	%rbp, %r13
	cmovneq	%r14, %rbp
	orq	%r13, %r10
	movq	48(%rsp), %rcx
	addl	%esi, %ecx
	xorl	%r8d, %r8d
	shldq	%cl, %r11, %r8
	shlq	%cl, %r11
	orq	%rbp, %rdi
	testb	$64, %cl
	cmovneq	%r11, %r8
	cmovneq	%r14, %r11
	orq	%rax, %r8
	orq	%r15, %r8
	orq	%rbx, %r11
	orq	%r12, %r11
	orq	%r13, %r8
	movq	%r11, %r9
	orq	%rbp, %r9
	addl	$2, %edx
	movq	88(%rsp), %rax
	addl	%eax, %esi
	cmpw	%dx, 32(%rsp)
	jne	.LBB58_234
	movq	%r9, 40(%rsp)
	movl	56(%rsp), %ebp
	testb	$1, %bpl
	movq	96(%rsp), %r13
	movq	104(%rsp), %r12
	movq	112(%rsp), %r9
	movq	120(%rsp), %r11
	movq	%rdi, %rbx
	movq	%r8, %r14
	movq	24(%rsp), %rax
	je	.LBB58_237
.LBB58_236:
	imull	%eax, %edx
	movl	$1, %esi
	xorl	%eax, %eax
	movl	%edx, %ecx
	shldq	%cl, %rsi, %rax
	xorl	%r8d, %r8d
	movl	$1, %edi
	shlq	%cl, %rdi
	testb	$64, %dl
	cmovneq	%rdi, %rax
	cmovneq	%r8, %rdi
	orq	%rax, %r10
	movq	(%rsp), %rcx
	addl	%edx, %ecx
	xorl	%edx, %edx
	shldq	%cl, %rsi, %rdx
	shlq	%cl, %rsi
	orq	%rdi, %rbx
	testb	$64, %cl
	cmovneq	%rsi, %rdx
	cmovneq	%r8, %rsi
	orq	%r14, %rax
	orq	%rdx, %rax
	orq	40(%rsp), %rdi
	orq	%rsi, %rdi
	movq	%rdi, 40(%rsp)
	movq	%rax, %r14
.LBB58_237:
	movq	%r14, 88(%rsp)
	movq	$-1, %r15
	movzwl	128(%rsp), %ecx
	shldq	%cl, %r15, %r15
	movq	$-1, %rax
	shlq	%cl, %rax
	xorl	%edx, %edx
	testb	$64, %cl
	cmovneq	%rax, %r15
	movl	$0, %ecx
	cmoveq	%rax, %rcx
	notq	%r15
	notq	%rcx
	movabsq	$6148914691236517205, %r14
	movq	%r15, %rax
	andq	%r14, %rax
	movq	%rax, 72(%rsp)
	movq	%rcx, 136(%rsp)
	andq	%rcx, %r14
	movq	$0, 168(%rsp)
	xorl	%r8d, %r8d
.LBB58_239:
	movq	%rdx, 64(%rsp)
	movq	%r10, 48(%rsp)
	movq	%rbx, 32(%rsp)
	pxor	%xmm0, %xmm0
	movdqa	%xmm0, 4832(%rsp)
	movdqa	%xmm0, 4816(%rsp)
	movdqa	%xmm0, 4800(%rsp)
	movdqa	%xmm0, 4784(%rsp)
	movdqa	%xmm0, 4768(%rsp)
	decw	%bp
	movq	%r8, 144(%rsp)
	movq	%r15, 152(%rsp)
	movq	136(%rsp), %r10
	movq	72(%rsp), %rbx
	je	.LBB58_246
	cmpw	$1, %bp
	jne	.LBB58_242
	xorl	%edi, %edi
	jmp	.LBB58_245
.LBB58_242:
	movq	%r14, 232(%rsp)
	movzwl	%bp, %r8d
	movl	%r8d, %r9d
	andl	$-2, %r9d
	movq	8(%rsp), %rax
	leal	3(,%rax,2), %edx
	leal	4(,%rax,2), %eax
	leaq	4784(%rsp), %r10
	xorl	%edi, %edi
	movq	(%rsp), %rsi
	.p2align	4
.LBB58_243:
	movq	$-1, %r14
	movl	%esi, %ecx
	shldq	%cl, %r14, %r14
	movq	$-1, %r11
	shlq	%cl, %r11
	xorl	%ebx, %ebx
	testb	$64, %sil
	cmovneq	%r11, %r14
	cmovneq	%rbx, %r11
	movq	$-1, %r15
	movl	%edx, %ecx
	shldq	%cl, %r15, %r15
	notq	%r14
	movq	%r14, -8(%r10)
	movq	$-1, %r14
	shlq	%cl, %r14
	notq	%r11
	testb	$64, %dl
	cmovneq	%r14, %r15
	movq	%r11, -16(%r10)
	cmovneq	%rbx, %r14
	notq	%r15
	notq	%r14
	movq	%r15, 8(%r10)
	movq	%r14, (%r10)
	addq	$2, %rdi
	addl	%eax, %edx
	addq	$32, %r10
	addl	%eax, %esi
	cmpq	%rdi, %r9
	jne	.LBB58_243
	testb	$1, %r8b
	movq	112(%rsp), %r9
	movq	120(%rsp), %r11
	movq	232(%rsp), %r14
	movq	144(%rsp), %r8
	movq	152(%rsp), %r15
	movq	136(%rsp), %r10
	movq	72(%rsp), %rbx
	je	.LBB58_246
.LBB58_245:
	movq	8(%rsp), %rax
	addl	$2, %eax
	imull	%edi, %eax
	movq	(%rsp), %rcx
	addl	%eax, %ecx
	movq	$-1, %rax
	shldq	%cl, %rax, %rax
	movq	$-1, %rdx
	shlq	%cl, %rdx
	xorl	%esi, %esi
	testb	$64, %cl
	cmovneq	%rdx, %rax
	cmoveq	%rdx, %rsi
	notq	%rax
	notq	%rsi
	shlq	$4, %rdi
	movq	%rax, 4776(%rsp,%rdi)
	movq	%rsi, 4768(%rsp,%rdi)
.LBB58_246:
	testq	%r9, %r9
	movq	168(%rsp), %rcx
	je	.LBB58_74
	leal	1(%r11), %eax
	movq	%rax, 240(%rsp)
	testw	%ax, %ax
	cmoveq	%r15, %rbx
	cmoveq	%r10, %r14
	cmovel	%r8d, %ecx
	movq	%rcx, 168(%rsp)
	movq	8(%rsp), %rdi
	leal	(%rdi,%rdi,4), %eax
	movq	$-1, %rdx
	movl	%eax, %ecx
	shldq	%cl, %rdx, %rdx
	movq	%r11, %rsi
	movq	$-1, %r11
	shlq	%cl, %r11
	xorl	%ecx, %ecx
	testb	$64, %al
	cmovneq	%r11, %rdx
	movq	%rdx, (%rsp)
	cmovneq	%rcx, %r11
	movq	%r11, 56(%rsp)
	movq	$-1, %r11
	movl	%edi, %ecx
	shldq	%cl, %r11, %r11
	movq	$-1, %rdx
	shlq	%cl, %rdx
	testb	$64, %dil
	cmovneq	%rdx, %r11
	movl	$0, %ecx
	cmovneq	%rcx, %rdx
	movq	%rdx, 128(%rsp)
	movq	$-1, %rdx
	movq	16(%rsp), %rcx
	shldq	%cl, %rdx, %rdx
	movq	$-1, %rdi
	shlq	%cl, %rdi
	testb	$64, %cl
	movq	240(%rsp), %rcx
	cmovneq	%rdi, %rdx
	movq	%rdx, 16(%rsp)
	movl	$0, %edx
	cmovneq	%rdx, %rdi
	addl	$2, %esi
	cmpw	$1, %cx
	movq	168(%rsp), %rdx
	jbe	.LBB58_248
	movq	%rsi, 176(%rsp)
	movzwl	%cx, %esi
	movq	%rsi, 24(%rsp)
	cmpl	$129, 80(%rsp)
	movq	%r14, 232(%rsp)
	movq	%rbx, 72(%rsp)
	jae	.LBB58_251
	movq	16(%rsp), %r15
	notq	%r15
	notq	%rdi
	movq	%rdi, (%rsp)
	testw	%bp, %bp
	movq	%r15, 16(%rsp)
	je	.LBB58_256
	movzwl	%bp, %edi
	movl	%edi, %ecx
	andl	$-2, %ecx
	xorl	%eax, %eax
	movl	%ebp, %esi
	movq	168(%rsp), %rdx
	movq	176(%rsp), %r8
	movq	120(%rsp), %r11
	jmp	.LBB58_261
	.p2align	4
.LBB58_268:
	addl	240(%rsp), %r8d
	movzwl	%r8w, %r8d
	movl	%r8d, %r9d
	shll	$4, %r9d
	movq	152(%rsp), %rax
	movq	%rax, 8(%r12,%r9)
	movq	136(%rsp), %rax
	movq	%rax, (%r12,%r9)
	movq	144(%rsp), %rax
	movw	%ax, (%r13,%r8,2)
	movq	56(%rsp), %rax
	incq	%rax
	cmpq	112(%rsp), %rax
	movq	120(%rsp), %r11
	movq	232(%rsp), %r14
	movq	72(%rsp), %rbx
	movq	176(%rsp), %r8
	je	.LBB58_74
.LBB58_261:
	imull	%eax, %r8d
	movzwl	%r8w, %r9d
	movl	%r9d, %r10d
	shll	$4, %r10d
	movq	%rbx, 8(%r12,%r10)
	movq	%r14, (%r12,%r10)
	movw	%dx, (%r13,%r9,2)
	movl	%r11d, %r9d
	movq	%rax, 56(%rsp)
	imull	%eax, %r9d
	decl	%r9d
	movl	$1, %r10d
	movq	40(%rsp), %rax
	jmp	.LBB58_262
	.p2align	4
.LBB58_266:
	shlq	$4, %r14
	movq	4776(%rsp,%r14), %r15
	andq	%r11, %r15
	movq	4768(%rsp,%r14), %r14
	andq	%rbx, %r14
	subq	%r14, %rbx
	sbbq	%r15, %r11
	shldq	$2, %rbx, %r11
	shlq	$2, %rbx
	addq	%r14, %rbx
	adcq	%r15, %r11
.LBB58_267:
	movl	%r10d, %ebp
	andl	$1, %ebp
	movl	%ebp, %r14d
	negl	%r14d
	movq	64(%rsp), %r15
	andl	%r14d, %r15d
	testl	%ebp, %ebp
	movq	88(%rsp), %r14
	cmoveq	48(%rsp), %r14
	movq	%rax, %r12
	cmoveq	32(%rsp), %r12
	orq	%rbx, %r12
	orq	%r11, %r14
	leal	(%r8,%r10), %r11d
	movzwl	%r11w, %r11d
	movl	%r11d, %ebx
	shll	$4, %ebx
	movq	104(%rsp), %rbp
	movq	%r14, 8(%rbp,%rbx)
	movq	%r12, (%rbp,%rbx)
	movq	%rbp, %r12
	movw	%r15w, (%r13,%r11,2)
	incq	%r10
	cmpq	24(%rsp), %r10
	movl	%esi, %ebp
	movq	16(%rsp), %r15
	je	.LBB58_268
.LBB58_262:
	leal	(%r9,%r10), %r11d
	movzwl	%r11w, %r14d
	shll	$5, %r14d
	movq	432(%rsp,%r14), %r11
	movq	416(%rsp,%r14), %rbx
	movq	424(%rsp,%r14), %r14
	shldq	$60, %r14, %r11
	shrdq	$4, %r14, %rbx
	andq	%r15, %r11
	andq	(%rsp), %rbx
	shldq	$1, %rbx, %r11
	addq	%rbx, %rbx
	xorl	%r14d, %r14d
	cmpw	$1, %bp
	je	.LBB58_266
	leaq	4784(%rsp), %r15
	.p2align	4
.LBB58_264:
	movq	-8(%r15), %r12
	andq	%r11, %r12
	movq	-16(%r15), %r13
	andq	%rbx, %r13
	subq	%r13, %rbx
	sbbq	%r12, %r11
	shldq	$2, %rbx, %r11
	shlq	$2, %rbx
	addq	%r13, %rbx
	adcq	%r12, %r11
	movq	8(%r15), %r12
	andq	%r11, %r12
	movq	(%r15), %r13
	andq	%rbx, %r13
	subq	%r13, %rbx
	sbbq	%r12, %r11
	shldq	$2, %rbx, %r11
	shlq	$2, %rbx
	addq	%r13, %rbx
	adcq	%r12, %r11
	addq	$2, %r14
	addq	$32, %r15
	cmpq	%r14, %rcx
	jne	.LBB58_264
	testb	$1, %dil
	movq	96(%rsp), %r13
	jne	.LBB58_266
	jmp	.LBB58_267
.LBB58_248:
	xorl	%eax, %eax
	movq	%rsi, %r11
	movq	%rdx, %rsi
	movq	%rcx, %rdi
	.p2align	4
.LBB58_249:
	movzwl	%ax, %ecx
	movl	%ecx, %edx
	shll	$4, %edx
	movq	%rbx, 8(%r12,%rdx)
	movq	%r14, (%r12,%rdx)
	movw	%si, (%r13,%rcx,2)
	leal	(%rdi,%rax), %ecx
	movzwl	%cx, %ecx
	movl	%ecx, %edx
	shll	$4, %edx
	movq	%r15, 8(%r12,%rdx)
	movq	%r10, (%r12,%rdx)
	movw	%r8w, (%r13,%rcx,2)
	addl	%r11d, %eax
	decq	%r9
	jne	.LBB58_249
	jmp	.LBB58_74
.LBB58_251:
	movq	%rdx, %r8
	movl	$128, %edx
	subl	%eax, %edx
	movl	$117, %esi
	subl	%eax, %esi
	movq	(%rsp), %r15
	notq	%r15
	notq	56(%rsp)
	movq	4768(%rsp), %rcx
	movq	%rcx, 80(%rsp)
	movq	4776(%rsp), %rcx
	movq	%rcx, 184(%rsp)
	movq	4792(%rsp), %rcx
	movq	%rcx, 264(%rsp)
	movq	4784(%rsp), %rcx
	movq	%rcx, 288(%rsp)
	movq	4808(%rsp), %rcx
	movq	%rcx, 256(%rsp)
	movq	4800(%rsp), %rcx
	movq	%rcx, 248(%rsp)
	movq	4824(%rsp), %rcx
	movq	%rcx, 272(%rsp)
	movq	4816(%rsp), %rcx
	movq	%rcx, 160(%rsp)
	notq	%r11
	movq	%r11, 16(%rsp)
	notq	128(%rsp)
	movq	8(%rsp), %rcx
	leal	11(%rcx,%rcx,4), %edi
	movq	176(%rsp), %rcx
	movzwl	%cx, %r9d
	movq	%r9, 296(%rsp)
	xorl	%r10d, %r10d
	xorl	%r9d, %r9d
	xorl	%r11d, %r11d
	.p2align	4
.LBB58_252:
	movq	%r9, (%rsp)
	movq	%r11, 304(%rsp)
	imull	%r11d, %ecx
	movl	%ecx, 284(%rsp)
	movzwl	%cx, %ecx
	movl	%ecx, %r9d
	shll	$4, %r9d
	movq	%rbx, 8(%r12,%r9)
	movq	%r14, (%r12,%r9)
	movw	%r8w, (%r13,%rcx,2)
	movl	$1, %ebp
	movq	%r10, 8(%rsp)
	movl	%r10d, %r9d
	.p2align	4
.LBB58_253:
	movzwl	%r9w, %ecx
	shll	$5, %ecx
	movq	432(%rsp,%rcx), %r13
	movq	424(%rsp,%rcx), %r11
	movq	%r13, %r10
	shldq	$60, %r11, %r10
	movq	416(%rsp,%rcx), %r14
	shrdq	$4, %r11, %r14
	movq	%r14, %r12
	andq	56(%rsp), %r12
	movq	%r10, %r11
	andq	%r15, %r11
	shrl	$4, %r13d
	shldq	$1, %r12, %r11
	addq	%r12, %r12
	movq	%r11, %rcx
	andq	184(%rsp), %rcx
	movq	%r12, %rbx
	andq	80(%rsp), %rbx
	subq	%rbx, %r12
	sbbq	%rcx, %r11
	shldq	$2, %r12, %r11
	shlq	$2, %r12
	addq	%rbx, %r12
	adcq	%rcx, %r11
	movq	%r11, %rcx
	movq	%r12, %rbx
	andq	264(%rsp), %rcx
	andq	288(%rsp), %rbx
	subq	%rbx, %r12
	sbbq	%rcx, %r11
	shldq	$2, %r12, %r11
	shlq	$2, %r12
	addq	%rbx, %r12
	adcq	%rcx, %r11
	movq	%r11, %rcx
	andq	256(%rsp), %rcx
	movq	%r12, %rbx
	andq	248(%rsp), %rbx
	subq	%rbx, %r12
	sbbq	%rcx, %r11
	shldq	$2, %r12, %r11
	shlq	$2, %r12
	addq	%rbx, %r12
	adcq	%rcx, %r11
	movq	%r11, %rcx
	movq	%r12, %rbx
	andq	272(%rsp), %rcx
	andq	160(%rsp), %rbx
	subq	%rbx, %r12
	sbbq	%rcx, %r11
	shldq	$2, %r12, %r11
	shlq	$2, %r12
	addq	%rbx, %r12
	adcq	%rcx, %r11
	movl	%eax, %ecx
	shrdq	%cl, %r10, %r14
	shrq	%cl, %r10
	movq	%r15, %r8
	movzbl	%r13b, %r15d
	xorl	%ebx, %ebx
	testb	$64, %al
	cmovneq	%r10, %r14
	cmovneq	%rbx, %r10
	xorl	%r13d, %r13d
	movl	%edx, %ecx
	shldq	%cl, %r15, %r13
	shlq	%cl, %r15
	testb	$64, %dl
	cmovneq	%r15, %r13
	cmovneq	%rbx, %r15
	orq	%r10, %r13
	orq	%r14, %r15
	andq	16(%rsp), %r13
	andq	128(%rsp), %r15
	movq	%r13, %r10
	movq	%r15, %r14
	movl	%edi, %ecx
	shldq	%cl, %r15, %r10
	shlq	%cl, %r14
	testb	$64, %dil
	cmovneq	%r14, %r10
	cmovneq	%rbx, %r14
	movl	%esi, %ecx
	shrdq	%cl, %r13, %r15
	shrq	%cl, %r13
	testb	$64, %sil
	cmoveq	%r15, %r13
	movl	%ebp, %ebx
	andl	$1, %ebx
	movl	%ebx, %r15d
	negl	%r15d
	movq	64(%rsp), %rcx
	andl	%r15d, %ecx
	testl	%ebx, %ebx
	movq	88(%rsp), %rbx
	cmoveq	48(%rsp), %rbx
	movq	40(%rsp), %r15
	cmoveq	32(%rsp), %r15
	orq	%r14, %r15
	orq	%r10, %rbx
	orq	%r12, %r15
	movq	104(%rsp), %r12
	orq	%r11, %rbx
	movq	(%rsp), %r10
	addl	%ebp, %r10d
	movzwl	%r10w, %r10d
	movl	%r10d, %r11d
	shll	$4, %r11d
	movq	%r15, (%r12,%r11)
	movq	%r8, %r15
	movq	%rbx, 8(%r12,%r11)
	orl	%r13d, %ecx
	movq	96(%rsp), %r13
	movw	%cx, (%r13,%r10,2)
	incq	%rbp
	incl	%r9d
	cmpq	%rbp, 24(%rsp)
	jne	.LBB58_253
	movl	284(%rsp), %ecx
	addl	240(%rsp), %ecx
	movzwl	%cx, %ecx
	movl	%ecx, %r9d
	shll	$4, %r9d
	movq	152(%rsp), %r8
	movq	%r8, 8(%r12,%r9)
	movq	136(%rsp), %r8
	movq	%r8, (%r12,%r9)
	movq	144(%rsp), %r8
	movw	%r8w, (%r13,%rcx,2)
	movq	304(%rsp), %r11
	incq	%r11
	movq	(%rsp), %r9
	addq	296(%rsp), %r9
	movq	8(%rsp), %r10
	addl	120(%rsp), %r10d
	cmpq	112(%rsp), %r11
	movq	232(%rsp), %r14
	movq	72(%rsp), %rbx
	movq	168(%rsp), %r8
	movq	176(%rsp), %rcx
	jne	.LBB58_252
	jmp	.LBB58_74
.LBB58_26:
	movl	56(%rsp), %ebp
	jmp	.LBB58_33
.LBB58_81:
	movzwl	%r8w, %eax
	movq	%rax, 80(%rsp)
	xorl	%edx, %edx
	xorl	%r14d, %r14d
	xorl	%esi, %esi
	movq	144(%rsp), %rax
	.p2align	4
.LBB58_82:
	movl	%r8d, %ecx
	movq	%rsi, 56(%rsp)
	imull	%esi, %ecx
	movl	%ecx, 128(%rsp)
	movzwl	%cx, %r8d
	movl	%r8d, %r9d
	shll	$4, %r9d
	movq	%rbx, 8(%r12,%r9)
	movq	%rax, (%r12,%r9)
	movw	%di, (%r11,%r8,2)
	movl	$1, %r8d
	movq	%rdx, 16(%rsp)
	movl	%edx, %r9d
	movq	32(%rsp), %r15
	movq	48(%rsp), %rcx
	movq	88(%rsp), %rax
	movq	24(%rsp), %rdi
	movq	64(%rsp), %rsi
	movq	40(%rsp), %rdx
	movq	%r12, %r13
	.p2align	4
.LBB58_83:
	movzwl	%r9w, %r10d
	movq	368(%rsp,%r10,8), %r10
	shrq	$4, %r10
	andq	(%rsp), %r10
	addq	%r10, %r10
	movl	%r8d, %r11d
	andl	$1, %r11d
	movl	%r11d, %ebx
	negl	%ebx
	movl	%esi, %ebp
	andl	%ebx, %ebp
	testl	%r11d, %r11d
	movq	%rax, %r11
	cmoveq	%rcx, %r11
	movq	%rdi, %rbx
	cmoveq	%r15, %rbx
	orq	%r10, %rbx
	leal	(%r14,%r8), %r10d
	movzwl	%r10w, %r10d
	movq	%r14, %r12
	movl	%r10d, %r14d
	shll	$4, %r14d
	movq	%r11, 8(%r13,%r14)
	movq	96(%rsp), %r11
	movq	%rbx, (%r13,%r14)
	movq	%r12, %r14
	movw	%bp, (%r11,%r10,2)
	incq	%r8
	incl	%r9d
	cmpq	%r8, %rdx
	jne	.LBB58_83
	movl	128(%rsp), %eax
	addl	152(%rsp), %eax
	movzwl	%ax, %edi
	movl	%edi, %r8d
	shll	$4, %r8d
	movq	160(%rsp), %rax
	movq	%rax, 8(%r13,%r8)
	movq	256(%rsp), %rax
	movq	%rax, (%r13,%r8)
	movq	272(%rsp), %rax
	movw	%ax, (%r11,%rdi,2)
	movq	56(%rsp), %rsi
	incq	%rsi
	addq	80(%rsp), %r14
	movq	120(%rsp), %rcx
	movq	16(%rsp), %rdx
	addl	%ecx, %edx
	cmpq	112(%rsp), %rsi
	movq	136(%rsp), %rbx
	movq	248(%rsp), %rdi
	movq	144(%rsp), %rax
	movq	72(%rsp), %r8
	movq	%r13, %r12
	jne	.LBB58_82
	jmp	.LBB58_74
.LBB58_163:
	movzwl	%cx, %eax
	movq	%rax, 264(%rsp)
	xorl	%edx, %edx
	xorl	%esi, %esi
	xorl	%edi, %edi
	movq	104(%rsp), %rbx
	movq	72(%rsp), %rax
	.p2align	4
.LBB58_164:
	movq	%rsi, 16(%rsp)
	movq	%rdi, 80(%rsp)
	imull	%edi, %ecx
	movl	%ecx, 184(%rsp)
	movzwl	%cx, %r9d
	movl	%r9d, %r10d
	shll	$4, %r10d
	movq	%r11, 8(%rbx,%r10)
	movq	%r14, (%rbx,%r10)
	movq	96(%rsp), %rcx
	movw	%ax, (%rcx,%r9,2)
	movl	$1, %r9d
	movq	%rdx, 56(%rsp)
	movl	%edx, %r10d
	movq	24(%rsp), %rcx
	movq	32(%rsp), %r8
	movq	48(%rsp), %rax
	movq	40(%rsp), %r13
	movq	64(%rsp), %rdx
	movq	88(%rsp), %rsi
	movq	128(%rsp), %rdi
	.p2align	4
.LBB58_165:
	movzwl	%r10w, %ebx
	shll	$4, %ebx
	movq	384(%rsp,%rbx), %r11
	movq	392(%rsp,%rbx), %rbx
	shrdq	$4, %rbx, %r11
	shrq	$4, %rbx
	andq	(%rsp), %r11
	andq	%rdi, %rbx
	shldq	$1, %r11, %rbx
	addq	%r11, %r11
	movl	%r9d, %ebp
	andl	$1, %ebp
	movl	%ebp, %r14d
	negl	%r14d
	movl	%edx, %r15d
	andl	%r14d, %r15d
	testl	%ebp, %ebp
	movq	%r13, %r14
	cmoveq	%rcx, %r14
	movq	%rax, %r12
	cmoveq	%r8, %r12
	orq	%rbx, %r12
	orq	%r11, %r14
	movq	16(%rsp), %r11
	addl	%r9d, %r11d
	movzwl	%r11w, %r11d
	movl	%r11d, %ebx
	shll	$4, %ebx
	movq	104(%rsp), %rbp
	movq	%r14, (%rbp,%rbx)
	movq	104(%rsp), %r14
	movq	%r12, 8(%r14,%rbx)
	movq	104(%rsp), %rbx
	movq	96(%rsp), %r14
	movw	%r15w, (%r14,%r11,2)
	incq	%r9
	incl	%r10d
	cmpq	%r9, %rsi
	jne	.LBB58_165
	movl	184(%rsp), %eax
	addl	232(%rsp), %eax
	movzwl	%ax, %r8d
	movl	%r8d, %r9d
	shll	$4, %r9d
	movq	144(%rsp), %rax
	movq	%rax, 8(%rbx,%r9)
	movq	160(%rsp), %rax
	movq	%rax, (%rbx,%r9)
	movq	136(%rsp), %rax
	movq	96(%rsp), %rcx
	movw	%ax, (%rcx,%r8,2)
	movq	80(%rsp), %rdi
	incq	%rdi
	movq	16(%rsp), %rsi
	addq	264(%rsp), %rsi
	movq	56(%rsp), %rdx
	addl	120(%rsp), %edx
	cmpq	112(%rsp), %rdi
	movq	152(%rsp), %r14
	movq	240(%rsp), %r11
	movq	72(%rsp), %rax
	movq	176(%rsp), %rcx
	jne	.LBB58_164
	jmp	.LBB58_74
.LBB58_256:
	movq	176(%rsp), %rcx
	movzwl	%cx, %eax
	movq	%rax, 264(%rsp)
	xorl	%edx, %edx
	xorl	%esi, %esi
	xorl	%edi, %edi
	movq	168(%rsp), %rax
	.p2align	4
.LBB58_257:
	movq	%rsi, 56(%rsp)
	movq	%rdi, 80(%rsp)
	imull	%edi, %ecx
	movl	%ecx, 184(%rsp)
	movzwl	%cx, %r9d
	movl	%r9d, %r10d
	shll	$4, %r10d
	movq	%rbx, 8(%r12,%r10)
	movq	%r14, (%r12,%r10)
	movw	%ax, (%r13,%r9,2)
	movl	$1, %r9d
	movq	%rdx, 128(%rsp)
	movl	%edx, %r10d
	movq	(%rsp), %rdi
	movq	32(%rsp), %rcx
	movq	48(%rsp), %r8
	movq	88(%rsp), %rax
	movq	40(%rsp), %rdx
	movq	64(%rsp), %rsi
	.p2align	4
.LBB58_258:
	movzwl	%r10w, %ebx
	shll	$5, %ebx
	movq	432(%rsp,%rbx), %r14
	movq	416(%rsp,%rbx), %r11
	movq	424(%rsp,%rbx), %rbx
	shldq	$60, %rbx, %r14
	shrdq	$4, %rbx, %r11
	andq	%rdi, %r11
	andq	%r15, %r14
	shldq	$1, %r11, %r14
	addq	%r11, %r11
	movl	%r9d, %ebx
	andl	$1, %ebx
	movl	%ebx, %ebp
	negl	%ebp
	movl	%esi, %r15d
	andl	%ebp, %r15d
	testl	%ebx, %ebx
	movq	%rdx, %rbx
	cmoveq	%rcx, %rbx
	movq	%rax, %r12
	cmoveq	%r8, %r12
	orq	%r14, %r12
	orq	%r11, %rbx
	movq	56(%rsp), %r11
	addl	%r9d, %r11d
	movzwl	%r11w, %r11d
	movl	%r11d, %r14d
	shll	$4, %r14d
	movq	104(%rsp), %rbp
	movq	%rbx, (%rbp,%r14)
	movq	104(%rsp), %rbx
	movq	%r12, 8(%rbx,%r14)
	movq	104(%rsp), %r12
	movw	%r15w, (%r13,%r11,2)
	movq	16(%rsp), %r15
	incq	%r9
	incl	%r10d
	cmpq	%r9, 24(%rsp)
	jne	.LBB58_258
	movl	184(%rsp), %eax
	addl	240(%rsp), %eax
	movzwl	%ax, %r8d
	movl	%r8d, %r9d
	shll	$4, %r9d
	movq	152(%rsp), %rax
	movq	%rax, 8(%r12,%r9)
	movq	136(%rsp), %rax
	movq	%rax, (%r12,%r9)
	movq	144(%rsp), %rax
	movw	%ax, (%r13,%r8,2)
	movq	80(%rsp), %rdi
	incq	%rdi
	movq	56(%rsp), %rsi
	addq	264(%rsp), %rsi
	movq	128(%rsp), %rdx
	addl	120(%rsp), %edx
	cmpq	112(%rsp), %rdi
	movq	232(%rsp), %r14
	movq	72(%rsp), %rbx
	movq	168(%rsp), %rax
	movq	176(%rsp), %rcx
	jne	.LBB58_257
.LBB58_74:
	addq	$9032, %rsp
	.cfi_def_cfa_offset 56
	popq	%rbx
	.cfi_def_cfa_offset 48
	popq	%r12
	.cfi_def_cfa_offset 40
	popq	%r13
	.cfi_def_cfa_offset 32
	popq	%r14
	.cfi_def_cfa_offset 24
	popq	%r15
	.cfi_def_cfa_offset 16
	popq	%rbp
	.cfi_def_cfa_offset 8
	retq
.Lfunc_end58:
	.size	"dm_layout::symbols::placing::lay_list", .Lfunc_end58-"dm_layout::symbols::placing::lay_list"
	.cfi_endproc

	.p2align	4
	.type	"dm_layout::symbols::laying::put_cells::<#3c42656d14ec8a1f>",@function
"dm_layout::symbols::laying::put_cells::<#3c42656d14ec8a1f>":
	.cfi_startproc
	movzwl	(%rdx), %r8d
	movzwl	2(%rdx), %ecx
	leal	4(%rcx), %eax
	movl	%esi, %r9d
	shrb	$7, %r9b
	shll	$5, %r8d
	cmpw	$127, %ax
	ja	.LBB59_2
	movzbl	%r9b, %r10d
	xorl	%r11d, %r11d
	movl	%eax, %ecx
	shldq	%cl, %r10, %r11
	shlq	%cl, %r10
	xorl	%r9d, %r9d
	testb	$64, %al
	cmovneq	%r10, %r11
	cmovneq	%r9, %r10
	xorl	%eax, %eax
	jmp	.LBB59_3
.LBB59_2:
	movzbl	%r9b, %r9d
	addb	$-124, %cl
	xorl	%eax, %eax
	shldq	%cl, %r9, %rax
	shlq	%cl, %r9
	xorl	%r10d, %r10d
	testb	$64, %cl
	cmovneq	%r9, %rax
	cmovneq	%r10, %r9
	xorl	%r11d, %r11d
.LBB59_3:
	orq	%r10, 64(%rdi,%r8)
	orq	%r11, 72(%rdi,%r8)
	orq	%r9, 80(%rdi,%r8)
	orq	%rax, 88(%rdi,%r8)
	movzwl	4(%rdx), %r8d
	movzwl	6(%rdx), %ecx
	leal	4(%rcx), %eax
	movl	%esi, %r9d
	shrb	$6, %r9b
	andb	$1, %r9b
	shll	$5, %r8d
	movzwl	%ax, %r10d
	cmpl	$128, %r10d
	jae	.LBB59_4
	movzbl	%r9b, %r10d
	xorl	%r11d, %r11d
	movl	%eax, %ecx
	shldq	%cl, %r10, %r11
	shlq	%cl, %r10
	xorl	%r9d, %r9d
	testb	$64, %al
	cmovneq	%r10, %r11
	cmovneq	%r9, %r10
	xorl	%eax, %eax
	jmp	.LBB59_6
.LBB59_4:
	movzbl	%r9b, %r9d
	addb	$-124, %cl
	xorl	%eax, %eax
	shldq	%cl, %r9, %rax
	shlq	%cl, %r9
	xorl	%r10d, %r10d
	testb	$64, %cl
	cmovneq	%r9, %rax
	cmovneq	%r10, %r9
	xorl	%r11d, %r11d
.LBB59_6:
	orq	%r10, 64(%rdi,%r8)
	orq	%r11, 72(%rdi,%r8)
	orq	%r9, 80(%rdi,%r8)
	orq	%rax, 88(%rdi,%r8)
	movzwl	8(%rdx), %r8d
	movzwl	10(%rdx), %ecx
	leal	4(%rcx), %eax
	movl	%esi, %r9d
	shrb	$5, %r9b
	andb	$1, %r9b
	shll	$5, %r8d
	movzwl	%ax, %r10d
	cmpl	$128, %r10d
	jae	.LBB59_7
	movzbl	%r9b, %r10d
	xorl	%r11d, %r11d
	movl	%eax, %ecx
	shldq	%cl, %r10, %r11
	shlq	%cl, %r10
	xorl	%r9d, %r9d
	testb	$64, %al
	cmovneq	%r10, %r11
	cmovneq	%r9, %r10
	xorl	%eax, %eax
	jmp	.LBB59_9
.LBB59_7:
	movzbl	%r9b, %r9d
	addb	$-124, %cl
	xorl	%eax, %eax
	shldq	%cl, %r9, %rax
	shlq	%cl, %r9
	xorl	%r10d, %r10d
	testb	$64, %cl
	cmovneq	%r9, %rax
	cmovneq	%r10, %r9
	xorl	%r11d, %r11d
.LBB59_9:
	orq	%r10, 64(%rdi,%r8)
	orq	%r11, 72(%rdi,%r8)
	orq	%r9, 80(%rdi,%r8)
	orq	%rax, 88(%rdi,%r8)
	movzwl	12(%rdx), %r8d
	movzwl	14(%rdx), %ecx
	leal	4(%rcx), %eax
	movl	%esi, %r9d
	shrb	$4, %r9b
	andb	$1, %r9b
	shll	$5, %r8d
	movzwl	%ax, %r10d
	cmpl	$128, %r10d
	jae	.LBB59_10
	movzbl	%r9b, %r10d
	xorl	%r11d, %r11d
	movl	%eax, %ecx
	shldq	%cl, %r10, %r11
	shlq	%cl, %r10
	xorl	%r9d, %r9d
	testb	$64, %al
	cmovneq	%r10, %r11
	cmovneq	%r9, %r10
	xorl	%eax, %eax
	jmp	.LBB59_12
.LBB59_10:
	movzbl	%r9b, %r9d
	addb	$-124, %cl
	xorl	%eax, %eax
	shldq	%cl, %r9, %rax
	shlq	%cl, %r9
	xorl	%r10d, %r10d
	testb	$64, %cl
	cmovneq	%r9, %rax
	cmovneq	%r10, %r9
	xorl	%r11d, %r11d
.LBB59_12:
	orq	%r10, 64(%rdi,%r8)
	orq	%r11, 72(%rdi,%r8)
	orq	%r9, 80(%rdi,%r8)
	orq	%rax, 88(%rdi,%r8)
	movzwl	16(%rdx), %r8d
	movzwl	18(%rdx), %ecx
	leal	4(%rcx), %eax
	movl	%esi, %r9d
	shrb	$3, %r9b
	andb	$1, %r9b
	shll	$5, %r8d
	movzwl	%ax, %r10d
	cmpl	$128, %r10d
	jae	.LBB59_13
	movzbl	%r9b, %r10d
	xorl	%r11d, %r11d
	movl	%eax, %ecx
	shldq	%cl, %r10, %r11
	shlq	%cl, %r10
	xorl	%r9d, %r9d
	testb	$64, %al
	cmovneq	%r10, %r11
	cmovneq	%r9, %r10
	xorl	%eax, %eax
	jmp	.LBB59_15
.LBB59_13:
	movzbl	%r9b, %r9d
	addb	$-124, %cl
	xorl	%eax, %eax
	shldq	%cl, %r9, %rax
	shlq	%cl, %r9
	xorl	%r10d, %r10d
	testb	$64, %cl
	cmovneq	%r9, %rax
	cmovneq	%r10, %r9
	xorl	%r11d, %r11d
.LBB59_15:
	orq	%r10, 64(%rdi,%r8)
	orq	%r11, 72(%rdi,%r8)
	orq	%r9, 80(%rdi,%r8)
	orq	%rax, 88(%rdi,%r8)
	movzwl	20(%rdx), %r8d
	movzwl	22(%rdx), %ecx
	leal	4(%rcx), %eax
	movl	%esi, %r9d
	shrb	$2, %r9b
	andb	$1, %r9b
	shll	$5, %r8d
	movzwl	%ax, %r10d
	cmpl	$128, %r10d
	jae	.LBB59_16
	movzbl	%r9b, %r10d
	xorl	%r11d, %r11d
	movl	%eax, %ecx
	shldq	%cl, %r10, %r11
	shlq	%cl, %r10
	xorl	%r9d, %r9d
	testb	$64, %al
	cmovneq	%r10, %r11
	cmovneq	%r9, %r10
	xorl	%eax, %eax
	jmp	.LBB59_18
.LBB59_16:
	movzbl	%r9b, %r9d
	addb	$-124, %cl
	xorl	%eax, %eax
	shldq	%cl, %r9, %rax
	shlq	%cl, %r9
	xorl	%r10d, %r10d
	testb	$64, %cl
	cmovneq	%r9, %rax
	cmovneq	%r10, %r9
	xorl	%r11d, %r11d
.LBB59_18:
	orq	%r10, 64(%rdi,%r8)
	orq	%r11, 72(%rdi,%r8)
	orq	%r9, 80(%rdi,%r8)
	orq	%rax, 88(%rdi,%r8)
	movzwl	24(%rdx), %r8d
	movzwl	26(%rdx), %ecx
	leal	4(%rcx), %eax
	movl	%esi, %r9d
	shrb	%r9b
	andb	$1, %r9b
	shll	$5, %r8d
	movzwl	%ax, %r10d
	cmpl	$128, %r10d
	jae	.LBB59_19
	movzbl	%r9b, %r10d
	xorl	%r11d, %r11d
	movl	%eax, %ecx
	shldq	%cl, %r10, %r11
	shlq	%cl, %r10
	xorl	%r9d, %r9d
	testb	$64, %al
	cmovneq	%r10, %r11
	cmovneq	%r9, %r10
	xorl	%eax, %eax
	jmp	.LBB59_21
.LBB59_19:
	movzbl	%r9b, %r9d
	addb	$-124, %cl
	xorl	%eax, %eax
	shldq	%cl, %r9, %rax
	shlq	%cl, %r9
	xorl	%r10d, %r10d
	testb	$64, %cl
	cmovneq	%r9, %rax
	cmovneq	%r10, %r9
	xorl	%r11d, %r11d
.LBB59_21:
	orq	%r10, 64(%rdi,%r8)
	orq	%r11, 72(%rdi,%r8)
	orq	%r9, 80(%rdi,%r8)
	orq	%rax, 88(%rdi,%r8)
	movzwl	28(%rdx), %r8d
	movzwl	30(%rdx), %ecx
	leal	4(%rcx), %eax
	andb	$1, %sil
	movzwl	%ax, %edx
	cmpl	$128, %edx
	jae	.LBB59_22
	movzbl	%sil, %esi
	xorl	%r9d, %r9d
	movl	%eax, %ecx
	shldq	%cl, %rsi, %r9
	shlq	%cl, %rsi
	xorl	%edx, %edx
	testb	$64, %al
	cmovneq	%rsi, %r9
	cmovneq	%rdx, %rsi
	xorl	%eax, %eax
	jmp	.LBB59_24
.LBB59_22:
	movzbl	%sil, %edx
	addb	$-124, %cl
	xorl	%eax, %eax
	shldq	%cl, %rdx, %rax
	shlq	%cl, %rdx
	xorl	%esi, %esi
	testb	$64, %cl
	cmovneq	%rdx, %rax
	cmovneq	%rsi, %rdx
	xorl	%r9d, %r9d
.LBB59_24:
	shll	$5, %r8d
	orq	%rsi, 64(%rdi,%r8)
	orq	%r9, 72(%rdi,%r8)
	orq	%rdx, 80(%rdi,%r8)
	orq	%rax, 88(%rdi,%r8)
	retq
.Lfunc_end59:
	.size	"dm_layout::symbols::laying::put_cells::<#3c42656d14ec8a1f>", .Lfunc_end59-"dm_layout::symbols::laying::put_cells::<#3c42656d14ec8a1f>"
	.cfi_endproc

	.section	.rodata.cst16,"aM",@progbits,16
	.p2align	4, 0x0
.LCPI60_0:
	.byte	0
	.byte	0
	.byte	0
	.byte	0
	.byte	0
	.byte	0
	.byte	0
	.byte	0
	.byte	1
	.byte	1
	.byte	1
	.byte	1
	.byte	1
	.byte	1
	.byte	1
	.byte	1
.LCPI60_1:
	.byte	1
	.byte	2
	.byte	4
	.byte	8
	.byte	16
	.byte	32
	.byte	64
	.byte	128
	.byte	1
	.byte	2
	.byte	4
	.byte	8
	.byte	16
	.byte	32
	.byte	64
	.byte	128
.LCPI60_2:
	.zero	16,1
.LCPI60_3:
	.byte	2
	.byte	2
	.byte	2
	.byte	2
	.byte	2
	.byte	2
	.byte	2
	.byte	2
	.byte	3
	.byte	3
	.byte	3
	.byte	3
	.byte	3
	.byte	3
	.byte	3
	.byte	3
	.text
	.p2align	4
	.type	"ecc200_calls::writing::show_words::<=52,=288>",@function
"ecc200_calls::writing::show_words::<=52,=288>":
	.cfi_startproc
	pushq	%rbp
	.cfi_def_cfa_offset 16
	pushq	%r15
	.cfi_def_cfa_offset 24
	pushq	%r14
	.cfi_def_cfa_offset 32
	pushq	%r13
	.cfi_def_cfa_offset 40
	pushq	%r12
	.cfi_def_cfa_offset 48
	pushq	%rbx
	.cfi_def_cfa_offset 56
	subq	$1496, %rsp
	.cfi_def_cfa_offset 1552
	.cfi_offset %rbx, -56
	.cfi_offset %r12, -48
	.cfi_offset %r13, -40
	.cfi_offset %r14, -32
	.cfi_offset %r15, -24
	.cfi_offset %rbp, -16
	movq	%rcx, %r14
	movq	%rdx, 8(%rsp)
	movq	%rsi, %r12
	movq	%rdi, %r13
	movzwl	(%rdi), %ebx
	movzwl	14(%rdi), %r15d
	movl	16(%rdi), %ebp
	leaq	224(%rsp), %rdi
	movl	$288, %edx
	xorl	%esi, %esi
	callq	memset@PLT
	leaq	532(%rsp), %rdi
	movl	$844, %edx
	xorl	%esi, %esi
	callq	memset@PLT
	xorps	%xmm0, %xmm0
	movaps	%xmm0, 1376(%rsp)
	movaps	%xmm0, 1392(%rsp)
	movaps	%xmm0, 1408(%rsp)
	movaps	%xmm0, 1424(%rsp)
	movaps	%xmm0, 1440(%rsp)
	movaps	%xmm0, 1456(%rsp)
	movaps	%xmm0, 1472(%rsp)
	movw	%bx, 32(%rsp)
	movq	2(%r13), %rax
	movq	%rax, 34(%rsp)
	movl	10(%r13), %eax
	movl	%eax, 42(%rsp)
	movw	%r15w, 46(%rsp)
	movl	%ebp, 48(%rsp)
	movw	%bx, 204(%rsp)
	movq	2(%r13), %rax
	movq	%rax, 206(%rsp)
	movl	10(%r13), %eax
	movl	%eax, 214(%rsp)
	movw	%r15w, 218(%rsp)
	movq	%r14, %r15
	movl	%ebp, 220(%rsp)
	leaq	32(%rsp), %rsi
	leaq	224(%rsp), %rbx
	movq	%rbx, %rdi
	movq	%r12, %rdx
	movq	8(%rsp), %rcx
	callq	"dm_symbol::symbol::writing::complete_in"
	movl	220(%rsp), %eax
	movl	%eax, 528(%rsp)
	movdqu	204(%rsp), %xmm0
	movdqa	%xmm0, 512(%rsp)
	leaq	544(%rsp), %rdx
	leaq	204(%rsp), %rdi
	movq	%rbx, %rsi
	leaq	1376(%rsp), %rcx
	callq	"dm_layout::symbols::placing::lay_list"
	movzwl	512(%rsp), %edi
	pxor	%xmm0, %xmm0
	pinsrw	$3, %edi, %xmm0
	movzwl	514(%rsp), %r12d
	movq	%xmm0, (%r14)
	movw	%r12w, 8(%r14)
	testq	%rdi, %rdi
	je	.LBB60_42
	leaq	10(%r15), %r14
	movzwl	%r12w, %ebx
	movq	%rbx, %r13
	imulq	%rdi, %r13
	testw	%r12w, %r12w
	je	.LBB60_15
	leaq	-145(%rbx), %rax
	andq	$-16, %rax
	addq	$16, %rax
	movq	%rax, 16(%rsp)
	addl	%edi, %edi
	xorl	%r15d, %r15d
	xorl	%ebp, %ebp
	movq	%rdi, 8(%rsp)
	jmp	.LBB60_3
	.p2align	4
.LBB60_39:
	leaq	(%r14,%r15), %rdi
	leaq	32(%rsp), %rsi
	movq	%rbx, %rdx
	callq	memcpy@PLT
.LBB60_40:
	movq	8(%rsp), %rdi
.LBB60_41:
	addq	$2, %rbp
	addq	%rbx, %r15
	cmpq	%rbp, %rdi
	je	.LBB60_42
.LBB60_3:
	leaq	16(%rbx), %rax
	addq	%r15, %rax
	cmpq	%r13, %rax
	jbe	.LBB60_4
	pxor	%xmm0, %xmm0
	movdqa	%xmm0, 176(%rsp)
	movdqa	%xmm0, 160(%rsp)
	movdqa	%xmm0, 144(%rsp)
	movdqa	%xmm0, 128(%rsp)
	movdqa	%xmm0, 112(%rsp)
	movdqa	%xmm0, 96(%rsp)
	movdqa	%xmm0, 80(%rsp)
	movdqa	%xmm0, 64(%rsp)
	movdqa	%xmm0, 48(%rsp)
	movzwl	1376(%rsp,%rbp), %eax
	movq	544(%rsp,%rbp,8), %rdx
	movd	%edx, %xmm1
	pshufb	.LCPI60_0(%rip), %xmm1
	movq	552(%rsp,%rbp,8), %rcx
	movdqa	.LCPI60_1(%rip), %xmm0
	pand	%xmm0, %xmm1
	pcmpeqb	%xmm0, %xmm1
	pand	.LCPI60_2(%rip), %xmm1
	movdqa	%xmm1, 32(%rsp)
	cmpw	$17, %r12w
	jb	.LBB60_36
	movd	%edx, %xmm1
	pshufb	.LCPI60_3(%rip), %xmm1
	pand	%xmm0, %xmm1
	pcmpeqb	%xmm0, %xmm1
	pand	.LCPI60_2(%rip), %xmm1
	movdqa	%xmm1, 48(%rsp)
	cmpw	$33, %r12w
	jb	.LBB60_36
	movq	%rdx, %rsi
	shrq	$32, %rsi
	movd	%esi, %xmm1
	pshufb	.LCPI60_0(%rip), %xmm1
	pand	%xmm0, %xmm1
	pcmpeqb	%xmm0, %xmm1
	pand	.LCPI60_2(%rip), %xmm1
	movdqa	%xmm1, 64(%rsp)
	cmpw	$49, %r12w
	jb	.LBB60_36
	shrq	$48, %rdx
	movd	%edx, %xmm1
	pshufb	.LCPI60_0(%rip), %xmm1
	pand	%xmm0, %xmm1
	pcmpeqb	%xmm0, %xmm1
	pand	.LCPI60_2(%rip), %xmm1
	movdqa	%xmm1, 80(%rsp)
	cmpw	$65, %r12w
	jb	.LBB60_36
	movd	%ecx, %xmm1
	pshufb	.LCPI60_0(%rip), %xmm1
	pand	%xmm0, %xmm1
	pcmpeqb	%xmm0, %xmm1
	pand	.LCPI60_2(%rip), %xmm1
	movdqa	%xmm1, 96(%rsp)
	cmpw	$81, %r12w
	jb	.LBB60_36
	movd	%ecx, %xmm1
	pshufb	.LCPI60_3(%rip), %xmm1
	pand	%xmm0, %xmm1
	pcmpeqb	%xmm0, %xmm1
	pand	.LCPI60_2(%rip), %xmm1
	movdqa	%xmm1, 112(%rsp)
	cmpw	$97, %r12w
	jb	.LBB60_36
	movq	%rcx, %rdx
	shrq	$32, %rdx
	movd	%edx, %xmm1
	pshufb	.LCPI60_0(%rip), %xmm1
	pand	%xmm0, %xmm1
	pcmpeqb	%xmm0, %xmm1
	pand	.LCPI60_2(%rip), %xmm1
	movdqa	%xmm1, 128(%rsp)
	cmpw	$113, %r12w
	jb	.LBB60_36
	shrq	$48, %rcx
	movd	%ecx, %xmm1
	pshufb	.LCPI60_0(%rip), %xmm1
	pand	%xmm0, %xmm1
	pcmpeqb	%xmm0, %xmm1
	pand	.LCPI60_2(%rip), %xmm1
	movdqa	%xmm1, 144(%rsp)
	.p2align	4
.LBB60_36:
	cmpl	$129, %ebx
	jb	.LBB60_39
	movd	%eax, %xmm1
	pshufb	.LCPI60_0(%rip), %xmm1
	pand	%xmm0, %xmm1
	pcmpeqb	%xmm0, %xmm1
	pand	.LCPI60_2(%rip), %xmm1
	movdqa	%xmm1, 160(%rsp)
	cmpl	$145, %ebx
	jb	.LBB60_39
	leaq	176(%rsp), %rdi
	xorl	%esi, %esi
	movq	16(%rsp), %rdx
	callq	memset@PLT
	jmp	.LBB60_39
	.p2align	4
.LBB60_4:
	movzwl	1376(%rsp,%rbp), %eax
	movq	544(%rsp,%rbp,8), %rdx
	movd	%edx, %xmm1
	pshufb	.LCPI60_0(%rip), %xmm1
	movq	552(%rsp,%rbp,8), %rcx
	movdqa	.LCPI60_1(%rip), %xmm0
	pand	%xmm0, %xmm1
	pcmpeqb	%xmm0, %xmm1
	pand	.LCPI60_2(%rip), %xmm1
	movdqu	%xmm1, (%r14,%r15)
	cmpw	$17, %r12w
	jb	.LBB60_12
	movd	%edx, %xmm1
	pshufb	.LCPI60_3(%rip), %xmm1
	pand	%xmm0, %xmm1
	pcmpeqb	%xmm0, %xmm1
	pand	.LCPI60_2(%rip), %xmm1
	movdqu	%xmm1, 16(%r14,%r15)
	cmpw	$33, %r12w
	jb	.LBB60_12
	movq	%rdx, %rsi
	shrq	$32, %rsi
	movd	%esi, %xmm1
	pshufb	.LCPI60_0(%rip), %xmm1
	pand	%xmm0, %xmm1
	pcmpeqb	%xmm0, %xmm1
	pand	.LCPI60_2(%rip), %xmm1
	movdqu	%xmm1, 32(%r14,%r15)
	cmpw	$49, %r12w
	jb	.LBB60_12
	shrq	$48, %rdx
	movd	%edx, %xmm1
	pshufb	.LCPI60_0(%rip), %xmm1
	pand	%xmm0, %xmm1
	pcmpeqb	%xmm0, %xmm1
	pand	.LCPI60_2(%rip), %xmm1
	movdqu	%xmm1, 48(%r14,%r15)
	cmpw	$65, %r12w
	jb	.LBB60_12
	movd	%ecx, %xmm1
	pshufb	.LCPI60_0(%rip), %xmm1
	pand	%xmm0, %xmm1
	pcmpeqb	%xmm0, %xmm1
	pand	.LCPI60_2(%rip), %xmm1
	movdqu	%xmm1, 64(%r14,%r15)
	cmpw	$81, %r12w
	jb	.LBB60_12
	movd	%ecx, %xmm1
	pshufb	.LCPI60_3(%rip), %xmm1
	pand	%xmm0, %xmm1
	pcmpeqb	%xmm0, %xmm1
	pand	.LCPI60_2(%rip), %xmm1
	movdqu	%xmm1, 80(%r14,%r15)
	cmpw	$97, %r12w
	jb	.LBB60_12
	movq	%rcx, %rdx
	shrq	$32, %rdx
	movd	%edx, %xmm1
	pshufb	.LCPI60_0(%rip), %xmm1
	pand	%xmm0, %xmm1
	pcmpeqb	%xmm0, %xmm1
	pand	.LCPI60_2(%rip), %xmm1
	movdqu	%xmm1, 96(%r14,%r15)
	cmpw	$113, %r12w
	jb	.LBB60_12
	shrq	$48, %rcx
	movd	%ecx, %xmm1
	pshufb	.LCPI60_0(%rip), %xmm1
	pand	%xmm0, %xmm1
	pcmpeqb	%xmm0, %xmm1
	pand	.LCPI60_2(%rip), %xmm1
	movdqu	%xmm1, 112(%r14,%r15)
	.p2align	4
.LBB60_12:
	cmpl	$129, %ebx
	jb	.LBB60_41
	movd	%eax, %xmm1
	pshufb	.LCPI60_0(%rip), %xmm1
	pand	%xmm0, %xmm1
	pcmpeqb	%xmm0, %xmm1
	pand	.LCPI60_2(%rip), %xmm1
	movdqu	%xmm1, 128(%r14,%r15)
	cmpl	$145, %ebx
	jb	.LBB60_41
	leaq	(%r14,%r15), %rdi
	addq	$144, %rdi
	xorl	%esi, %esi
	movq	16(%rsp), %rdx
	callq	memset@PLT
	jmp	.LBB60_40
.LBB60_15:
	movl	%edi, %r12d
	andl	$3, %r12d
	cmpw	$4, %di
	jae	.LBB60_17
	xorl	%ebp, %ebp
	jmp	.LBB60_24
.LBB60_17:
	movq	%r15, 24(%rsp)
	andl	$-4, %edi
	leal	(,%rbx,4), %eax
	movq	%rax, 8(%rsp)
	leal	(%rbx,%rbx), %eax
	movq	%rax, 16(%rsp)
	xorl	%ebp, %ebp
	movq	%rdi, %r15
	jmp	.LBB60_18
	.p2align	4
.LBB60_22:
	addq	$4, %rbp
	addq	8(%rsp), %r14
	cmpq	%rbp, %r15
	je	.LBB60_23
.LBB60_18:
	cmpl	%ebx, %r13d
	ja	.LBB60_20
	movq	%r14, %rdi
	xorl	%esi, %esi
	movq	%rbx, %rdx
	callq	memset@PLT
	leaq	(%r14,%rbx), %rdi
	xorl	%esi, %esi
	movq	%rbx, %rdx
	callq	memset@PLT
.LBB60_20:
	cmpl	%ebx, %r13d
	ja	.LBB60_22
	movq	16(%rsp), %rax
	leaq	(%r14,%rax), %rdi
	xorl	%esi, %esi
	movq	%rbx, %rdx
	callq	memset@PLT
	leaq	(%rbx,%rbx,2), %rax
	leaq	(%r14,%rax), %rdi
	xorl	%esi, %esi
	movq	%rbx, %rdx
	callq	memset@PLT
	jmp	.LBB60_22
.LBB60_23:
	testq	%r12, %r12
	movq	24(%rsp), %r15
	je	.LBB60_42
.LBB60_24:
	imulq	%rbx, %rbp
	leaq	(%r15,%rbp), %r14
	addq	$10, %r14
	jmp	.LBB60_25
	.p2align	4
.LBB60_27:
	addq	%rbx, %r14
	decq	%r12
	je	.LBB60_42
.LBB60_25:
	cmpl	%ebx, %r13d
	ja	.LBB60_27
	movq	%r14, %rdi
	xorl	%esi, %esi
	movq	%rbx, %rdx
	callq	memset@PLT
	jmp	.LBB60_27
.LBB60_42:
	addq	$1496, %rsp
	.cfi_def_cfa_offset 56
	popq	%rbx
	.cfi_def_cfa_offset 48
	popq	%r12
	.cfi_def_cfa_offset 40
	popq	%r13
	.cfi_def_cfa_offset 32
	popq	%r14
	.cfi_def_cfa_offset 24
	popq	%r15
	.cfi_def_cfa_offset 16
	popq	%rbp
	.cfi_def_cfa_offset 8
	retq
.Lfunc_end60:
	.size	"ecc200_calls::writing::show_words::<=52,=288>", .Lfunc_end60-"ecc200_calls::writing::show_words::<=52,=288>"
	.cfi_endproc

	.section	.rodata.cst16,"aM",@progbits,16
	.p2align	4, 0x0
.LCPI61_0:
	.byte	0
	.byte	0
	.byte	0
	.byte	0
	.byte	0
	.byte	0
	.byte	0
	.byte	0
	.byte	1
	.byte	1
	.byte	1
	.byte	1
	.byte	1
	.byte	1
	.byte	1
	.byte	1
.LCPI61_1:
	.byte	1
	.byte	2
	.byte	4
	.byte	8
	.byte	16
	.byte	32
	.byte	64
	.byte	128
	.byte	1
	.byte	2
	.byte	4
	.byte	8
	.byte	16
	.byte	32
	.byte	64
	.byte	128
.LCPI61_2:
	.zero	16,1
.LCPI61_3:
	.byte	2
	.byte	2
	.byte	2
	.byte	2
	.byte	2
	.byte	2
	.byte	2
	.byte	2
	.byte	3
	.byte	3
	.byte	3
	.byte	3
	.byte	3
	.byte	3
	.byte	3
	.byte	3
	.text
	.p2align	4
	.type	"ecc200_calls::writing::show_words::<=104,=1152>",@function
"ecc200_calls::writing::show_words::<=104,=1152>":
	.cfi_startproc
	pushq	%rbp
	.cfi_def_cfa_offset 16
	pushq	%r15
	.cfi_def_cfa_offset 24
	pushq	%r14
	.cfi_def_cfa_offset 32
	pushq	%r13
	.cfi_def_cfa_offset 40
	pushq	%r12
	.cfi_def_cfa_offset 48
	pushq	%rbx
	.cfi_def_cfa_offset 56
	subq	$3072, %rsp
	.cfi_adjust_cfa_offset 3072
	movq	$0, (%rsp)
	subq	$200, %rsp
	.cfi_def_cfa_offset 3328
	.cfi_offset %rbx, -56
	.cfi_offset %r12, -48
	.cfi_offset %r13, -40
	.cfi_offset %r14, -32
	.cfi_offset %r15, -24
	.cfi_offset %rbp, -16
	movq	%rcx, %r14
	movq	%rdx, 8(%rsp)
	movq	%rsi, %r12
	movq	%rdi, %r13
	movzwl	(%rdi), %ebx
	movzwl	14(%rdi), %r15d
	movl	16(%rdi), %ebp
	leaq	2120(%rsp), %rdi
	movl	$1152, %edx
	xorl	%esi, %esi
	callq	memset@PLT
	leaq	212(%rsp), %rdi
	movl	$1676, %edx
	xorl	%esi, %esi
	callq	memset@PLT
	xorps	%xmm0, %xmm0
	movaps	%xmm0, 1888(%rsp)
	movaps	%xmm0, 1904(%rsp)
	movaps	%xmm0, 1920(%rsp)
	movaps	%xmm0, 1936(%rsp)
	movaps	%xmm0, 1952(%rsp)
	movaps	%xmm0, 1968(%rsp)
	movaps	%xmm0, 1984(%rsp)
	movaps	%xmm0, 2000(%rsp)
	movaps	%xmm0, 2016(%rsp)
	movaps	%xmm0, 2032(%rsp)
	movaps	%xmm0, 2048(%rsp)
	movaps	%xmm0, 2064(%rsp)
	movaps	%xmm0, 2080(%rsp)
	movw	%bx, 32(%rsp)
	movq	2(%r13), %rax
	movq	%rax, 34(%rsp)
	movl	10(%r13), %eax
	movl	%eax, 42(%rsp)
	movw	%r15w, 46(%rsp)
	movl	%ebp, 48(%rsp)
	movw	%bx, 2100(%rsp)
	movl	10(%r13), %eax
	movl	%eax, 2110(%rsp)
	movq	2(%r13), %rax
	movq	%rax, 2102(%rsp)
	movw	%r15w, 2114(%rsp)
	movq	%r14, %r15
	movl	%ebp, 2116(%rsp)
	leaq	32(%rsp), %rsi
	leaq	2120(%rsp), %rbx
	movq	%rbx, %rdi
	movq	%r12, %rdx
	movq	8(%rsp), %rcx
	callq	"dm_symbol::symbol::writing::complete_in"
	movl	2116(%rsp), %eax
	movl	%eax, 208(%rsp)
	movdqu	2100(%rsp), %xmm0
	movdqa	%xmm0, 192(%rsp)
	leaq	224(%rsp), %rdx
	leaq	2100(%rsp), %rdi
	movq	%rbx, %rsi
	leaq	1888(%rsp), %rcx
	callq	"dm_layout::symbols::placing::lay_list"
	movzwl	192(%rsp), %edi
	pxor	%xmm0, %xmm0
	pinsrw	$3, %edi, %xmm0
	movzwl	194(%rsp), %r12d
	movq	%xmm0, (%r14)
	movw	%r12w, 8(%r14)
	testq	%rdi, %rdi
	je	.LBB61_42
	leaq	10(%r15), %r14
	movzwl	%r12w, %ebx
	movq	%rbx, %r13
	imulq	%rdi, %r13
	testw	%r12w, %r12w
	je	.LBB61_15
	leaq	-145(%rbx), %rax
	andq	$-16, %rax
	addq	$16, %rax
	movq	%rax, 16(%rsp)
	addl	%edi, %edi
	xorl	%r15d, %r15d
	xorl	%ebp, %ebp
	movq	%rdi, 8(%rsp)
	jmp	.LBB61_3
	.p2align	4
.LBB61_39:
	leaq	(%r14,%r15), %rdi
	leaq	32(%rsp), %rsi
	movq	%rbx, %rdx
	callq	memcpy@PLT
.LBB61_40:
	movq	8(%rsp), %rdi
.LBB61_41:
	addq	$2, %rbp
	addq	%rbx, %r15
	cmpq	%rbp, %rdi
	je	.LBB61_42
.LBB61_3:
	leaq	16(%rbx), %rax
	addq	%r15, %rax
	cmpq	%r13, %rax
	jbe	.LBB61_4
	pxor	%xmm0, %xmm0
	movdqa	%xmm0, 176(%rsp)
	movdqa	%xmm0, 160(%rsp)
	movdqa	%xmm0, 144(%rsp)
	movdqa	%xmm0, 128(%rsp)
	movdqa	%xmm0, 112(%rsp)
	movdqa	%xmm0, 96(%rsp)
	movdqa	%xmm0, 80(%rsp)
	movdqa	%xmm0, 64(%rsp)
	movdqa	%xmm0, 48(%rsp)
	movzwl	1888(%rsp,%rbp), %eax
	movq	224(%rsp,%rbp,8), %rdx
	movd	%edx, %xmm1
	pshufb	.LCPI61_0(%rip), %xmm1
	movq	232(%rsp,%rbp,8), %rcx
	movdqa	.LCPI61_1(%rip), %xmm0
	pand	%xmm0, %xmm1
	pcmpeqb	%xmm0, %xmm1
	pand	.LCPI61_2(%rip), %xmm1
	movdqa	%xmm1, 32(%rsp)
	cmpw	$17, %r12w
	jb	.LBB61_36
	movd	%edx, %xmm1
	pshufb	.LCPI61_3(%rip), %xmm1
	pand	%xmm0, %xmm1
	pcmpeqb	%xmm0, %xmm1
	pand	.LCPI61_2(%rip), %xmm1
	movdqa	%xmm1, 48(%rsp)
	cmpw	$33, %r12w
	jb	.LBB61_36
	movq	%rdx, %rsi
	shrq	$32, %rsi
	movd	%esi, %xmm1
	pshufb	.LCPI61_0(%rip), %xmm1
	pand	%xmm0, %xmm1
	pcmpeqb	%xmm0, %xmm1
	pand	.LCPI61_2(%rip), %xmm1
	movdqa	%xmm1, 64(%rsp)
	cmpw	$49, %r12w
	jb	.LBB61_36
	shrq	$48, %rdx
	movd	%edx, %xmm1
	pshufb	.LCPI61_0(%rip), %xmm1
	pand	%xmm0, %xmm1
	pcmpeqb	%xmm0, %xmm1
	pand	.LCPI61_2(%rip), %xmm1
	movdqa	%xmm1, 80(%rsp)
	cmpw	$65, %r12w
	jb	.LBB61_36
	movd	%ecx, %xmm1
	pshufb	.LCPI61_0(%rip), %xmm1
	pand	%xmm0, %xmm1
	pcmpeqb	%xmm0, %xmm1
	pand	.LCPI61_2(%rip), %xmm1
	movdqa	%xmm1, 96(%rsp)
	cmpw	$81, %r12w
	jb	.LBB61_36
	movd	%ecx, %xmm1
	pshufb	.LCPI61_3(%rip), %xmm1
	pand	%xmm0, %xmm1
	pcmpeqb	%xmm0, %xmm1
	pand	.LCPI61_2(%rip), %xmm1
	movdqa	%xmm1, 112(%rsp)
	cmpw	$97, %r12w
	jb	.LBB61_36
	movq	%rcx, %rdx
	shrq	$32, %rdx
	movd	%edx, %xmm1
	pshufb	.LCPI61_0(%rip), %xmm1
	pand	%xmm0, %xmm1
	pcmpeqb	%xmm0, %xmm1
	pand	.LCPI61_2(%rip), %xmm1
	movdqa	%xmm1, 128(%rsp)
	cmpw	$113, %r12w
	jb	.LBB61_36
	shrq	$48, %rcx
	movd	%ecx, %xmm1
	pshufb	.LCPI61_0(%rip), %xmm1
	pand	%xmm0, %xmm1
	pcmpeqb	%xmm0, %xmm1
	pand	.LCPI61_2(%rip), %xmm1
	movdqa	%xmm1, 144(%rsp)
	.p2align	4
.LBB61_36:
	cmpl	$129, %ebx
	jb	.LBB61_39
	movd	%eax, %xmm1
	pshufb	.LCPI61_0(%rip), %xmm1
	pand	%xmm0, %xmm1
	pcmpeqb	%xmm0, %xmm1
	pand	.LCPI61_2(%rip), %xmm1
	movdqa	%xmm1, 160(%rsp)
	cmpl	$145, %ebx
	jb	.LBB61_39
	leaq	176(%rsp), %rdi
	xorl	%esi, %esi
	movq	16(%rsp), %rdx
	callq	memset@PLT
	jmp	.LBB61_39
	.p2align	4
.LBB61_4:
	movzwl	1888(%rsp,%rbp), %eax
	movq	224(%rsp,%rbp,8), %rdx
	movd	%edx, %xmm1
	pshufb	.LCPI61_0(%rip), %xmm1
	movq	232(%rsp,%rbp,8), %rcx
	movdqa	.LCPI61_1(%rip), %xmm0
	pand	%xmm0, %xmm1
	pcmpeqb	%xmm0, %xmm1
	pand	.LCPI61_2(%rip), %xmm1
	movdqu	%xmm1, (%r14,%r15)
	cmpw	$17, %r12w
	jb	.LBB61_12
	movd	%edx, %xmm1
	pshufb	.LCPI61_3(%rip), %xmm1
	pand	%xmm0, %xmm1
	pcmpeqb	%xmm0, %xmm1
	pand	.LCPI61_2(%rip), %xmm1
	movdqu	%xmm1, 16(%r14,%r15)
	cmpw	$33, %r12w
	jb	.LBB61_12
	movq	%rdx, %rsi
	shrq	$32, %rsi
	movd	%esi, %xmm1
	pshufb	.LCPI61_0(%rip), %xmm1
	pand	%xmm0, %xmm1
	pcmpeqb	%xmm0, %xmm1
	pand	.LCPI61_2(%rip), %xmm1
	movdqu	%xmm1, 32(%r14,%r15)
	cmpw	$49, %r12w
	jb	.LBB61_12
	shrq	$48, %rdx
	movd	%edx, %xmm1
	pshufb	.LCPI61_0(%rip), %xmm1
	pand	%xmm0, %xmm1
	pcmpeqb	%xmm0, %xmm1
	pand	.LCPI61_2(%rip), %xmm1
	movdqu	%xmm1, 48(%r14,%r15)
	cmpw	$65, %r12w
	jb	.LBB61_12
	movd	%ecx, %xmm1
	pshufb	.LCPI61_0(%rip), %xmm1
	pand	%xmm0, %xmm1
	pcmpeqb	%xmm0, %xmm1
	pand	.LCPI61_2(%rip), %xmm1
	movdqu	%xmm1, 64(%r14,%r15)
	cmpw	$81, %r12w
	jb	.LBB61_12
	movd	%ecx, %xmm1
	pshufb	.LCPI61_3(%rip), %xmm1
	pand	%xmm0, %xmm1
	pcmpeqb	%xmm0, %xmm1
	pand	.LCPI61_2(%rip), %xmm1
	movdqu	%xmm1, 80(%r14,%r15)
	cmpw	$97, %r12w
	jb	.LBB61_12
	movq	%rcx, %rdx
	shrq	$32, %rdx
	movd	%edx, %xmm1
	pshufb	.LCPI61_0(%rip), %xmm1
	pand	%xmm0, %xmm1
	pcmpeqb	%xmm0, %xmm1
	pand	.LCPI61_2(%rip), %xmm1
	movdqu	%xmm1, 96(%r14,%r15)
	cmpw	$113, %r12w
	jb	.LBB61_12
	shrq	$48, %rcx
	movd	%ecx, %xmm1
	pshufb	.LCPI61_0(%rip), %xmm1
	pand	%xmm0, %xmm1
	pcmpeqb	%xmm0, %xmm1
	pand	.LCPI61_2(%rip), %xmm1
	movdqu	%xmm1, 112(%r14,%r15)
	.p2align	4
.LBB61_12:
	cmpl	$129, %ebx
	jb	.LBB61_41
	movd	%eax, %xmm1
	pshufb	.LCPI61_0(%rip), %xmm1
	pand	%xmm0, %xmm1
	pcmpeqb	%xmm0, %xmm1
	pand	.LCPI61_2(%rip), %xmm1
	movdqu	%xmm1, 128(%r14,%r15)
	cmpl	$145, %ebx
	jb	.LBB61_41
	leaq	(%r14,%r15), %rdi
	addq	$144, %rdi
	xorl	%esi, %esi
	movq	16(%rsp), %rdx
	callq	memset@PLT
	jmp	.LBB61_40
.LBB61_15:
	movl	%edi, %r12d
	andl	$3, %r12d
	cmpw	$4, %di
	jae	.LBB61_17
	xorl	%ebp, %ebp
	jmp	.LBB61_24
.LBB61_17:
	movq	%r15, 24(%rsp)
	andl	$-4, %edi
	leal	(,%rbx,4), %eax
	movq	%rax, 8(%rsp)
	leal	(%rbx,%rbx), %eax
	movq	%rax, 16(%rsp)
	xorl	%ebp, %ebp
	movq	%rdi, %r15
	jmp	.LBB61_18
	.p2align	4
.LBB61_22:
	addq	$4, %rbp
	addq	8(%rsp), %r14
	cmpq	%rbp, %r15
	je	.LBB61_23
.LBB61_18:
	cmpl	%ebx, %r13d
	ja	.LBB61_20
	movq	%r14, %rdi
	xorl	%esi, %esi
	movq	%rbx, %rdx
	callq	memset@PLT
	leaq	(%r14,%rbx), %rdi
	xorl	%esi, %esi
	movq	%rbx, %rdx
	callq	memset@PLT
.LBB61_20:
	cmpl	%ebx, %r13d
	ja	.LBB61_22
	movq	16(%rsp), %rax
	leaq	(%r14,%rax), %rdi
	xorl	%esi, %esi
	movq	%rbx, %rdx
	callq	memset@PLT
	leaq	(%rbx,%rbx,2), %rax
	leaq	(%r14,%rax), %rdi
	xorl	%esi, %esi
	movq	%rbx, %rdx
	callq	memset@PLT
	jmp	.LBB61_22
.LBB61_23:
	testq	%r12, %r12
	movq	24(%rsp), %r15
	je	.LBB61_42
.LBB61_24:
	imulq	%rbx, %rbp
	leaq	(%r15,%rbp), %r14
	addq	$10, %r14
	jmp	.LBB61_25
	.p2align	4
.LBB61_27:
	addq	%rbx, %r14
	decq	%r12
	je	.LBB61_42
.LBB61_25:
	cmpl	%ebx, %r13d
	ja	.LBB61_27
	movq	%r14, %rdi
	xorl	%esi, %esi
	movq	%rbx, %rdx
	callq	memset@PLT
	jmp	.LBB61_27
.LBB61_42:
	addq	$3272, %rsp
	.cfi_def_cfa_offset 56
	popq	%rbx
	.cfi_def_cfa_offset 48
	popq	%r12
	.cfi_def_cfa_offset 40
	popq	%r13
	.cfi_def_cfa_offset 32
	popq	%r14
	.cfi_def_cfa_offset 24
	popq	%r15
	.cfi_def_cfa_offset 16
	popq	%rbp
	.cfi_def_cfa_offset 8
	retq
.Lfunc_end61:
	.size	"ecc200_calls::writing::show_words::<=104,=1152>", .Lfunc_end61-"ecc200_calls::writing::show_words::<=104,=1152>"
	.cfi_endproc

	.section	.rodata.cst16,"aM",@progbits,16
	.p2align	4, 0x0
.LCPI62_0:
	.byte	0
	.byte	0
	.byte	0
	.byte	0
	.byte	0
	.byte	0
	.byte	0
	.byte	0
	.byte	1
	.byte	1
	.byte	1
	.byte	1
	.byte	1
	.byte	1
	.byte	1
	.byte	1
.LCPI62_1:
	.byte	1
	.byte	2
	.byte	4
	.byte	8
	.byte	16
	.byte	32
	.byte	64
	.byte	128
	.byte	1
	.byte	2
	.byte	4
	.byte	8
	.byte	16
	.byte	32
	.byte	64
	.byte	128
.LCPI62_2:
	.zero	16,1
.LCPI62_3:
	.byte	2
	.byte	2
	.byte	2
	.byte	2
	.byte	2
	.byte	2
	.byte	2
	.byte	2
	.byte	3
	.byte	3
	.byte	3
	.byte	3
	.byte	3
	.byte	3
	.byte	3
	.byte	3
	.text
	.p2align	4
	.type	"ecc200_calls::writing::show_words::<=144,=2178>",@function
"ecc200_calls::writing::show_words::<=144,=2178>":
	.cfi_startproc
	pushq	%rbp
	.cfi_def_cfa_offset 16
	pushq	%r15
	.cfi_def_cfa_offset 24
	pushq	%r14
	.cfi_def_cfa_offset 32
	pushq	%r13
	.cfi_def_cfa_offset 40
	pushq	%r12
	.cfi_def_cfa_offset 48
	pushq	%rbx
	.cfi_def_cfa_offset 56
	subq	$3072, %rsp
	.cfi_adjust_cfa_offset 3072
	movq	$0, (%rsp)
	subq	$1944, %rsp
	.cfi_def_cfa_offset 5072
	.cfi_offset %rbx, -56
	.cfi_offset %r12, -48
	.cfi_offset %r13, -40
	.cfi_offset %r14, -32
	.cfi_offset %r15, -24
	.cfi_offset %rbp, -16
	movq	%rcx, %r14
	movq	%rdx, 8(%rsp)
	movq	%rsi, %r12
	movq	%rdi, %r13
	movzwl	(%rdi), %ebx
	movzwl	14(%rdi), %r15d
	movl	16(%rdi), %ebp
	leaq	2838(%rsp), %rdi
	movl	$2178, %edx
	xorl	%esi, %esi
	callq	memset@PLT
	leaq	212(%rsp), %rdi
	movl	$2316, %edx
	xorl	%esi, %esi
	callq	memset@PLT
	leaq	2528(%rsp), %rdi
	movl	$288, %edx
	xorl	%esi, %esi
	callq	memset@PLT
	movw	%bx, 32(%rsp)
	movq	2(%r13), %rax
	movq	%rax, 34(%rsp)
	movl	10(%r13), %eax
	movl	%eax, 42(%rsp)
	movw	%r15w, 46(%rsp)
	movl	%ebp, 48(%rsp)
	movw	%bx, 2818(%rsp)
	movq	2(%r13), %rax
	movq	%rax, 2820(%rsp)
	movl	10(%r13), %eax
	movl	%eax, 2828(%rsp)
	movw	%r15w, 2832(%rsp)
	movq	%r14, %r15
	movl	%ebp, 2834(%rsp)
	leaq	32(%rsp), %rsi
	leaq	2838(%rsp), %rbx
	movq	%rbx, %rdi
	movq	%r12, %rdx
	movq	8(%rsp), %rcx
	callq	"dm_symbol::symbol::writing::complete_in"
	movl	2834(%rsp), %eax
	movl	%eax, 208(%rsp)
	movdqu	2818(%rsp), %xmm0
	movdqa	%xmm0, 192(%rsp)
	leaq	224(%rsp), %rdx
	leaq	2818(%rsp), %rdi
	movq	%rbx, %rsi
	leaq	2528(%rsp), %rcx
	callq	"dm_layout::symbols::placing::lay_list"
	movzwl	192(%rsp), %edi
	pxor	%xmm0, %xmm0
	pinsrw	$3, %edi, %xmm0
	movzwl	194(%rsp), %r12d
	movq	%xmm0, (%r14)
	movw	%r12w, 8(%r14)
	testq	%rdi, %rdi
	je	.LBB62_42
	leaq	10(%r15), %r14
	movzwl	%r12w, %ebx
	movq	%rbx, %r13
	imulq	%rdi, %r13
	testw	%r12w, %r12w
	je	.LBB62_15
	leaq	-145(%rbx), %rax
	andq	$-16, %rax
	addq	$16, %rax
	movq	%rax, 16(%rsp)
	addl	%edi, %edi
	xorl	%r15d, %r15d
	xorl	%ebp, %ebp
	movq	%rdi, 8(%rsp)
	jmp	.LBB62_3
	.p2align	4
.LBB62_39:
	leaq	(%r14,%r15), %rdi
	leaq	32(%rsp), %rsi
	movq	%rbx, %rdx
	callq	memcpy@PLT
.LBB62_40:
	movq	8(%rsp), %rdi
.LBB62_41:
	addq	$2, %rbp
	addq	%rbx, %r15
	cmpq	%rbp, %rdi
	je	.LBB62_42
.LBB62_3:
	leaq	16(%rbx), %rax
	addq	%r15, %rax
	cmpq	%r13, %rax
	jbe	.LBB62_4
	pxor	%xmm0, %xmm0
	movdqa	%xmm0, 176(%rsp)
	movdqa	%xmm0, 160(%rsp)
	movdqa	%xmm0, 144(%rsp)
	movdqa	%xmm0, 128(%rsp)
	movdqa	%xmm0, 112(%rsp)
	movdqa	%xmm0, 96(%rsp)
	movdqa	%xmm0, 80(%rsp)
	movdqa	%xmm0, 64(%rsp)
	movdqa	%xmm0, 48(%rsp)
	movzwl	2528(%rsp,%rbp), %eax
	movq	224(%rsp,%rbp,8), %rdx
	movd	%edx, %xmm1
	pshufb	.LCPI62_0(%rip), %xmm1
	movq	232(%rsp,%rbp,8), %rcx
	movdqa	.LCPI62_1(%rip), %xmm0
	pand	%xmm0, %xmm1
	pcmpeqb	%xmm0, %xmm1
	pand	.LCPI62_2(%rip), %xmm1
	movdqa	%xmm1, 32(%rsp)
	cmpw	$17, %r12w
	jb	.LBB62_36
	movd	%edx, %xmm1
	pshufb	.LCPI62_3(%rip), %xmm1
	pand	%xmm0, %xmm1
	pcmpeqb	%xmm0, %xmm1
	pand	.LCPI62_2(%rip), %xmm1
	movdqa	%xmm1, 48(%rsp)
	cmpw	$33, %r12w
	jb	.LBB62_36
	movq	%rdx, %rsi
	shrq	$32, %rsi
	movd	%esi, %xmm1
	pshufb	.LCPI62_0(%rip), %xmm1
	pand	%xmm0, %xmm1
	pcmpeqb	%xmm0, %xmm1
	pand	.LCPI62_2(%rip), %xmm1
	movdqa	%xmm1, 64(%rsp)
	cmpw	$49, %r12w
	jb	.LBB62_36
	shrq	$48, %rdx
	movd	%edx, %xmm1
	pshufb	.LCPI62_0(%rip), %xmm1
	pand	%xmm0, %xmm1
	pcmpeqb	%xmm0, %xmm1
	pand	.LCPI62_2(%rip), %xmm1
	movdqa	%xmm1, 80(%rsp)
	cmpw	$65, %r12w
	jb	.LBB62_36
	movd	%ecx, %xmm1
	pshufb	.LCPI62_0(%rip), %xmm1
	pand	%xmm0, %xmm1
	pcmpeqb	%xmm0, %xmm1
	pand	.LCPI62_2(%rip), %xmm1
	movdqa	%xmm1, 96(%rsp)
	cmpw	$81, %r12w
	jb	.LBB62_36
	movd	%ecx, %xmm1
	pshufb	.LCPI62_3(%rip), %xmm1
	pand	%xmm0, %xmm1
	pcmpeqb	%xmm0, %xmm1
	pand	.LCPI62_2(%rip), %xmm1
	movdqa	%xmm1, 112(%rsp)
	cmpw	$97, %r12w
	jb	.LBB62_36
	movq	%rcx, %rdx
	shrq	$32, %rdx
	movd	%edx, %xmm1
	pshufb	.LCPI62_0(%rip), %xmm1
	pand	%xmm0, %xmm1
	pcmpeqb	%xmm0, %xmm1
	pand	.LCPI62_2(%rip), %xmm1
	movdqa	%xmm1, 128(%rsp)
	cmpw	$113, %r12w
	jb	.LBB62_36
	shrq	$48, %rcx
	movd	%ecx, %xmm1
	pshufb	.LCPI62_0(%rip), %xmm1
	pand	%xmm0, %xmm1
	pcmpeqb	%xmm0, %xmm1
	pand	.LCPI62_2(%rip), %xmm1
	movdqa	%xmm1, 144(%rsp)
	.p2align	4
.LBB62_36:
	cmpl	$129, %ebx
	jb	.LBB62_39
	movd	%eax, %xmm1
	pshufb	.LCPI62_0(%rip), %xmm1
	pand	%xmm0, %xmm1
	pcmpeqb	%xmm0, %xmm1
	pand	.LCPI62_2(%rip), %xmm1
	movdqa	%xmm1, 160(%rsp)
	cmpl	$145, %ebx
	jb	.LBB62_39
	leaq	176(%rsp), %rdi
	xorl	%esi, %esi
	movq	16(%rsp), %rdx
	callq	memset@PLT
	jmp	.LBB62_39
	.p2align	4
.LBB62_4:
	movzwl	2528(%rsp,%rbp), %eax
	movq	224(%rsp,%rbp,8), %rdx
	movd	%edx, %xmm1
	pshufb	.LCPI62_0(%rip), %xmm1
	movq	232(%rsp,%rbp,8), %rcx
	movdqa	.LCPI62_1(%rip), %xmm0
	pand	%xmm0, %xmm1
	pcmpeqb	%xmm0, %xmm1
	pand	.LCPI62_2(%rip), %xmm1
	movdqu	%xmm1, (%r14,%r15)
	cmpw	$17, %r12w
	jb	.LBB62_12
	movd	%edx, %xmm1
	pshufb	.LCPI62_3(%rip), %xmm1
	pand	%xmm0, %xmm1
	pcmpeqb	%xmm0, %xmm1
	pand	.LCPI62_2(%rip), %xmm1
	movdqu	%xmm1, 16(%r14,%r15)
	cmpw	$33, %r12w
	jb	.LBB62_12
	movq	%rdx, %rsi
	shrq	$32, %rsi
	movd	%esi, %xmm1
	pshufb	.LCPI62_0(%rip), %xmm1
	pand	%xmm0, %xmm1
	pcmpeqb	%xmm0, %xmm1
	pand	.LCPI62_2(%rip), %xmm1
	movdqu	%xmm1, 32(%r14,%r15)
	cmpw	$49, %r12w
	jb	.LBB62_12
	shrq	$48, %rdx
	movd	%edx, %xmm1
	pshufb	.LCPI62_0(%rip), %xmm1
	pand	%xmm0, %xmm1
	pcmpeqb	%xmm0, %xmm1
	pand	.LCPI62_2(%rip), %xmm1
	movdqu	%xmm1, 48(%r14,%r15)
	cmpw	$65, %r12w
	jb	.LBB62_12
	movd	%ecx, %xmm1
	pshufb	.LCPI62_0(%rip), %xmm1
	pand	%xmm0, %xmm1
	pcmpeqb	%xmm0, %xmm1
	pand	.LCPI62_2(%rip), %xmm1
	movdqu	%xmm1, 64(%r14,%r15)
	cmpw	$81, %r12w
	jb	.LBB62_12
	movd	%ecx, %xmm1
	pshufb	.LCPI62_3(%rip), %xmm1
	pand	%xmm0, %xmm1
	pcmpeqb	%xmm0, %xmm1
	pand	.LCPI62_2(%rip), %xmm1
	movdqu	%xmm1, 80(%r14,%r15)
	cmpw	$97, %r12w
	jb	.LBB62_12
	movq	%rcx, %rdx
	shrq	$32, %rdx
	movd	%edx, %xmm1
	pshufb	.LCPI62_0(%rip), %xmm1
	pand	%xmm0, %xmm1
	pcmpeqb	%xmm0, %xmm1
	pand	.LCPI62_2(%rip), %xmm1
	movdqu	%xmm1, 96(%r14,%r15)
	cmpw	$113, %r12w
	jb	.LBB62_12
	shrq	$48, %rcx
	movd	%ecx, %xmm1
	pshufb	.LCPI62_0(%rip), %xmm1
	pand	%xmm0, %xmm1
	pcmpeqb	%xmm0, %xmm1
	pand	.LCPI62_2(%rip), %xmm1
	movdqu	%xmm1, 112(%r14,%r15)
	.p2align	4
.LBB62_12:
	cmpl	$129, %ebx
	jb	.LBB62_41
	movd	%eax, %xmm1
	pshufb	.LCPI62_0(%rip), %xmm1
	pand	%xmm0, %xmm1
	pcmpeqb	%xmm0, %xmm1
	pand	.LCPI62_2(%rip), %xmm1
	movdqu	%xmm1, 128(%r14,%r15)
	cmpl	$145, %ebx
	jb	.LBB62_41
	leaq	(%r14,%r15), %rdi
	addq	$144, %rdi
	xorl	%esi, %esi
	movq	16(%rsp), %rdx
	callq	memset@PLT
	jmp	.LBB62_40
.LBB62_15:
	movl	%edi, %r12d
	andl	$3, %r12d
	cmpw	$4, %di
	jae	.LBB62_17
	xorl	%ebp, %ebp
	jmp	.LBB62_24
.LBB62_17:
	movq	%r15, 24(%rsp)
	andl	$-4, %edi
	leal	(,%rbx,4), %eax
	movq	%rax, 8(%rsp)
	leal	(%rbx,%rbx), %eax
	movq	%rax, 16(%rsp)
	xorl	%ebp, %ebp
	movq	%rdi, %r15
	jmp	.LBB62_18
	.p2align	4
.LBB62_22:
	addq	$4, %rbp
	addq	8(%rsp), %r14
	cmpq	%rbp, %r15
	je	.LBB62_23
.LBB62_18:
	cmpl	%ebx, %r13d
	ja	.LBB62_20
	movq	%r14, %rdi
	xorl	%esi, %esi
	movq	%rbx, %rdx
	callq	memset@PLT
	leaq	(%r14,%rbx), %rdi
	xorl	%esi, %esi
	movq	%rbx, %rdx
	callq	memset@PLT
.LBB62_20:
	cmpl	%ebx, %r13d
	ja	.LBB62_22
	movq	16(%rsp), %rax
	leaq	(%r14,%rax), %rdi
	xorl	%esi, %esi
	movq	%rbx, %rdx
	callq	memset@PLT
	leaq	(%rbx,%rbx,2), %rax
	leaq	(%r14,%rax), %rdi
	xorl	%esi, %esi
	movq	%rbx, %rdx
	callq	memset@PLT
	jmp	.LBB62_22
.LBB62_23:
	testq	%r12, %r12
	movq	24(%rsp), %r15
	je	.LBB62_42
.LBB62_24:
	imulq	%rbx, %rbp
	leaq	(%r15,%rbp), %r14
	addq	$10, %r14
	jmp	.LBB62_25
	.p2align	4
.LBB62_27:
	addq	%rbx, %r14
	decq	%r12
	je	.LBB62_42
.LBB62_25:
	cmpl	%ebx, %r13d
	ja	.LBB62_27
	movq	%r14, %rdi
	xorl	%esi, %esi
	movq	%rbx, %rdx
	callq	memset@PLT
	jmp	.LBB62_27
.LBB62_42:
	addq	$5016, %rsp
	.cfi_def_cfa_offset 56
	popq	%rbx
	.cfi_def_cfa_offset 48
	popq	%r12
	.cfi_def_cfa_offset 40
	popq	%r13
	.cfi_def_cfa_offset 32
	popq	%r14
	.cfi_def_cfa_offset 24
	popq	%r15
	.cfi_def_cfa_offset 16
	popq	%rbp
	.cfi_def_cfa_offset 8
	retq
.Lfunc_end62:
	.size	"ecc200_calls::writing::show_words::<=144,=2178>", .Lfunc_end62-"ecc200_calls::writing::show_words::<=144,=2178>"
	.cfi_endproc

	.p2align	4
	.type	"ecc200_calls::answer::answer_given::<#e937d748901de80e>",@function
"ecc200_calls::answer::answer_given::<#e937d748901de80e>":
	.cfi_startproc
	pushq	%rbp
	.cfi_def_cfa_offset 16
	pushq	%r15
	.cfi_def_cfa_offset 24
	pushq	%r14
	.cfi_def_cfa_offset 32
	pushq	%r13
	.cfi_def_cfa_offset 40
	pushq	%r12
	.cfi_def_cfa_offset 48
	pushq	%rbx
	.cfi_def_cfa_offset 56
	subq	$456, %rsp
	.cfi_def_cfa_offset 512
	.cfi_offset %rbx, -56
	.cfi_offset %r12, -48
	.cfi_offset %r13, -40
	.cfi_offset %r14, -32
	.cfi_offset %r15, -24
	.cfi_offset %rbp, -16
	movq	%r9, %r15
	movq	%r8, %r12
	movq	%rcx, %r13
	movq	%rdx, %rbp
	movq	%rdi, %r14
	movq	520(%rsp), %rbx
	movq	512(%rsp), %rax
	movzwl	8(%rsi), %ecx
	movw	%cx, 56(%rsp)
	movq	(%rsi), %rcx
	movq	%rcx, 48(%rsp)
	movups	(%rax), %xmm0
	movaps	%xmm0, 64(%rsp)
	movq	14(%rax), %rax
	movq	%rax, 78(%rsp)
	movq	$0, 32(%rsp)
	movw	$0, 40(%rsp)
	leaq	168(%rsp), %rdi
	movl	$288, %edx
	xorl	%esi, %esi
	callq	memset@PLT
	xorps	%xmm0, %xmm0
	movups	%xmm0, 89(%rsp)
	movups	%xmm0, 105(%rsp)
	movups	%xmm0, 120(%rsp)
	movb	$0, 88(%rsp)
	movq	$0, 136(%rsp)
	leaq	88(%rsp), %rax
	movq	%rax, 16(%rsp)
	leaq	148(%rsp), %rax
	movq	%rax, 8(%rsp)
	leaq	64(%rsp), %rax
	movq	%rax, (%rsp)
	leaq	32(%rsp), %rdi
	leaq	48(%rsp), %rsi
	movq	%rbp, %rdx
	movq	%r13, %rcx
	movq	%r12, %r8
	movq	%r15, %r9
	callq	"ecc200_calls::restoring::restore_given::<=52,=288>"
	cmpb	$0, 32(%rsp)
	je	.LBB63_1
	movzbl	34(%rsp), %ecx
	movzwl	36(%rsp), %eax
	testl	%ecx, %ecx
	je	.LBB63_3
	cmpl	$2, %ecx
	jne	.LBB63_5
	movzwl	38(%rsp), %edx
	cmpb	$2, %al
	je	.LBB63_18
	movzbl	%al, %eax
	cmpl	$1, %eax
	jne	.LBB63_9
	movw	$20, %cx
	jmp	.LBB63_19
.LBB63_1:
	movl	52(%rsp), %esi
	leaq	148(%rsp), %rdx
	movq	%r14, %rdi
	movq	%rbx, %rcx
	callq	"ecc200_calls::answer::answer_words::<#d32d35a8039035b6>"
	jmp	.LBB63_21
.LBB63_3:
	xorl	%edx, %edx
	movw	$5, %cx
	jmp	.LBB63_20
.LBB63_5:
	movzbl	35(%rsp), %edx
	movw	$6, %cx
	jmp	.LBB63_19
.LBB63_18:
	movw	$21, %cx
.LBB63_19:
	xorl	%eax, %eax
.LBB63_20:
	movw	%cx, (%rbx)
	movw	%ax, 2(%rbx)
	movw	%dx, 4(%rbx)
	movl	$0, 6(%rbx)
.LBB63_21:
	addq	$456, %rsp
	.cfi_def_cfa_offset 56
	popq	%rbx
	.cfi_def_cfa_offset 48
	popq	%r12
	.cfi_def_cfa_offset 40
	popq	%r13
	.cfi_def_cfa_offset 32
	popq	%r14
	.cfi_def_cfa_offset 24
	popq	%r15
	.cfi_def_cfa_offset 16
	popq	%rbp
	.cfi_def_cfa_offset 8
	retq
.LBB63_9:
	.cfi_def_cfa_offset 512
	movzwl	40(%rsp), %esi
	movzwl	%dx, %eax
	movzbl	%al, %ecx
	leaq	.LJTI63_0(%rip), %rdx
	movslq	(%rdx,%rcx,4), %rcx
	addq	%rdx, %rcx
	jmpq	*%rcx
.LBB63_10:
	movw	$7, %cx
	jmp	.LBB63_11
.LBB63_15:
	movw	$11, %cx
	jmp	.LBB63_11
.LBB63_13:
	movw	$9, %cx
	jmp	.LBB63_11
.LBB63_14:
	movw	$10, %cx
	jmp	.LBB63_11
.LBB63_12:
	shrl	$8, %eax
	movw	$8, %cx
	movl	%esi, %edx
	jmp	.LBB63_20
.LBB63_16:
	movw	$12, %cx
	jmp	.LBB63_11
.LBB63_17:
	movw	$13, %cx
.LBB63_11:
	xorl	%eax, %eax
	movl	%esi, %edx
	jmp	.LBB63_20
.Lfunc_end63:
	.size	"ecc200_calls::answer::answer_given::<#e937d748901de80e>", .Lfunc_end63-"ecc200_calls::answer::answer_given::<#e937d748901de80e>"
	.cfi_endproc
	.section	.rodata,"a",@progbits
	.p2align	2, 0x0
.LJTI63_0:
	.long	.LBB63_10-.LJTI63_0
	.long	.LBB63_12-.LJTI63_0
	.long	.LBB63_13-.LJTI63_0
	.long	.LBB63_14-.LJTI63_0
	.long	.LBB63_15-.LJTI63_0
	.long	.LBB63_16-.LJTI63_0
	.long	.LBB63_17-.LJTI63_0

	.text
	.p2align	4
	.type	"ecc200_calls::restoring::restore_given::<=52,=288>",@function
"ecc200_calls::restoring::restore_given::<=52,=288>":
	.cfi_startproc
	pushq	%rbp
	.cfi_def_cfa_offset 16
	pushq	%r15
	.cfi_def_cfa_offset 24
	pushq	%r14
	.cfi_def_cfa_offset 32
	pushq	%r13
	.cfi_def_cfa_offset 40
	pushq	%r12
	.cfi_def_cfa_offset 48
	pushq	%rbx
	.cfi_def_cfa_offset 56
	subq	$2120, %rsp
	.cfi_def_cfa_offset 2176
	.cfi_offset %rbx, -56
	.cfi_offset %r12, -48
	.cfi_offset %r13, -40
	.cfi_offset %r14, -32
	.cfi_offset %r15, -24
	.cfi_offset %rbp, -16
	movq	%r9, 152(%rsp)
	movq	%r8, 144(%rsp)
	movq	%rcx, %r14
	movq	%rdx, %r13
	movq	%rdi, %rbx
	movq	2176(%rsp), %r15
	movzbl	4(%rsi), %eax
	movb	%al, 46(%rsp)
	movzbl	6(%rsi), %eax
	movb	%al, 47(%rsp)
	movzwl	8(%rsi), %eax
	movl	%eax, 76(%rsp)
	movzwl	(%r15), %r12d
	movzwl	18(%r15), %eax
	movzbl	20(%r15), %ebp
	movw	%ax, 178(%rsp)
	movups	2(%r15), %xmm0
	movups	%xmm0, 162(%rsp)
	leaq	180(%rsp), %rdi
	movl	$844, %edx
	xorl	%esi, %esi
	callq	memset@PLT
	movw	%r12w, 160(%rsp)
	xorps	%xmm0, %xmm0
	movaps	%xmm0, 1024(%rsp)
	movaps	%xmm0, 1040(%rsp)
	movaps	%xmm0, 1056(%rsp)
	movaps	%xmm0, 1072(%rsp)
	movaps	%xmm0, 1088(%rsp)
	movaps	%xmm0, 1104(%rsp)
	movaps	%xmm0, 1120(%rsp)
	leaq	160(%rsp), %rdi
	movq	%r13, %rsi
	movq	%r14, %rdx
	callq	"ecc200_calls::modules::put_modules::<=52>"
	movq	2192(%rsp), %r13
	movq	2184(%rsp), %r14
	testb	$1, %bpl
	je	.LBB64_5
	addq	$2, %r15
	movw	%r12w, 1136(%rsp)
	movups	(%r15), %xmm0
	movups	%xmm0, 1138(%rsp)
	movzwl	16(%r15), %eax
	movw	%ax, 1154(%rsp)
	leaq	1156(%rsp), %rdi
	movl	$956, %edx
	xorl	%esi, %esi
	callq	memset@PLT
	leaq	1136(%rsp), %rdi
	movq	144(%rsp), %rsi
	movq	152(%rsp), %rdx
	callq	"ecc200_calls::modules::put_modules::<=52>"
	movw	$0, 88(%rsp)
	movq	$0, 80(%rsp)
	cmpb	$0, 47(%rsp)
	je	.LBB64_2
	movq	%r13, (%rsp)
	movzbl	46(%rsp), %esi
	leaq	80(%rsp), %rdi
	leaq	160(%rsp), %rdx
	leaq	1136(%rsp), %r8
	movl	$1, %ecx
	movq	%r14, %r9
	callq	"ecc200_calls::restoring::restore_surely::<=52,=288>"
	jmp	.LBB64_4
.LBB64_5:
	movw	$0, 56(%rsp)
	movq	$0, 48(%rsp)
	cmpb	$0, 47(%rsp)
	je	.LBB64_6
	movq	%r13, (%rsp)
	movzbl	46(%rsp), %esi
	leaq	48(%rsp), %rdi
	leaq	160(%rsp), %rdx
	xorl	%ecx, %ecx
	xorl	%r8d, %r8d
	movq	%r14, %r9
	callq	"ecc200_calls::restoring::restore_surely::<=52,=288>"
	movzbl	48(%rsp), %eax
	movzbl	50(%rsp), %ecx
	movzbl	51(%rsp), %edx
	movss	52(%rsp), %xmm0
	movzwl	56(%rsp), %esi
	jmp	.LBB64_8
.LBB64_2:
	movq	%r13, 8(%rsp)
	movq	%r14, (%rsp)
	movzbl	46(%rsp), %esi
	leaq	80(%rsp), %rdi
	leaq	160(%rsp), %rdx
	leaq	1136(%rsp), %r8
	movl	$1, %ecx
	movl	76(%rsp), %r9d
	callq	"ecc200_calls::restoring::restore_within::<=52,=288>"
.LBB64_4:
	movzbl	80(%rsp), %eax
	movzbl	82(%rsp), %ecx
	movzbl	83(%rsp), %edx
	movss	84(%rsp), %xmm0
	movzwl	88(%rsp), %esi
	jmp	.LBB64_8
.LBB64_6:
	leaq	1024(%rsp), %rax
	leaq	8(%r13), %rcx
	leaq	48(%r13), %rdx
	movw	$0, 72(%rsp)
	movq	$0, 64(%rsp)
	movzwl	174(%rsp), %esi
	movl	176(%rsp), %edi
	movq	160(%rsp), %r8
	movq	166(%rsp), %r9
	movq	%r9, 6(%r14)
	movq	%r8, (%r14)
	movw	%si, 14(%r14)
	movl	%edi, 16(%r14)
	addq	$20, %r14
	movl	176(%rsp), %esi
	movl	%esi, 96(%rsp)
	movaps	160(%rsp), %xmm0
	movaps	%xmm0, 80(%rsp)
	leaq	192(%rsp), %rsi
	movl	$0, 100(%rsp)
	movq	%rsi, 104(%rsp)
	movq	$52, 112(%rsp)
	movq	%rax, 120(%rsp)
	movq	$52, 128(%rsp)
	movq	%rdx, 24(%rsp)
	movq	%rcx, 16(%rsp)
	movq	%r13, 8(%rsp)
	movq	%r14, (%rsp)
	movzbl	46(%rsp), %r8d
	leaq	64(%rsp), %rdi
	leaq	80(%rsp), %rsi
	xorl	%edx, %edx
	xorl	%ecx, %ecx
	movl	76(%rsp), %r9d
	callq	"dm_symbol::symbol::reading::restore"
	movzbl	64(%rsp), %eax
	movzbl	66(%rsp), %ecx
	movzbl	67(%rsp), %edx
	movss	68(%rsp), %xmm0
	movzwl	72(%rsp), %esi
.LBB64_8:
	movb	%al, (%rbx)
	movb	%cl, 2(%rbx)
	movb	%dl, 3(%rbx)
	movss	%xmm0, 4(%rbx)
	movw	%si, 8(%rbx)
	addq	$2120, %rsp
	.cfi_def_cfa_offset 56
	popq	%rbx
	.cfi_def_cfa_offset 48
	popq	%r12
	.cfi_def_cfa_offset 40
	popq	%r13
	.cfi_def_cfa_offset 32
	popq	%r14
	.cfi_def_cfa_offset 24
	popq	%r15
	.cfi_def_cfa_offset 16
	popq	%rbp
	.cfi_def_cfa_offset 8
	retq
.Lfunc_end64:
	.size	"ecc200_calls::restoring::restore_given::<=52,=288>", .Lfunc_end64-"ecc200_calls::restoring::restore_given::<=52,=288>"
	.cfi_endproc

	.p2align	4
	.type	"ecc200_calls::restoring::restore_within::<=52,=288>",@function
"ecc200_calls::restoring::restore_within::<=52,=288>":
	.cfi_startproc
	pushq	%rbp
	.cfi_def_cfa_offset 16
	pushq	%r15
	.cfi_def_cfa_offset 24
	pushq	%r14
	.cfi_def_cfa_offset 32
	pushq	%r13
	.cfi_def_cfa_offset 40
	pushq	%r12
	.cfi_def_cfa_offset 48
	pushq	%rbx
	.cfi_def_cfa_offset 56
	subq	$200, %rsp
	.cfi_def_cfa_offset 256
	.cfi_offset %rbx, -56
	.cfi_offset %r12, -48
	.cfi_offset %r13, -40
	.cfi_offset %r14, -32
	.cfi_offset %r15, -24
	.cfi_offset %rbp, -16
	movl	%r9d, %r12d
	movl	%esi, %ebp
	movq	%rdi, %rbx
	movq	264(%rsp), %r13
	movq	256(%rsp), %r14
	leaq	8(%r13), %r15
	movw	$0, 40(%rsp)
	movq	$0, 32(%rsp)
	movl	16(%rdx), %eax
	movq	(%rdx), %rsi
	movq	8(%rdx), %rdi
	movq	%rdi, 8(%r14)
	movq	%rsi, (%r14)
	movl	%eax, 16(%r14)
	addq	$20, %r14
	movl	16(%rdx), %eax
	movl	%eax, 128(%rsp)
	movups	(%rdx), %xmm0
	movaps	%xmm0, 112(%rsp)
	leaq	32(%rdx), %rax
	addq	$864, %rdx
	movl	$0, 132(%rsp)
	movaps	%xmm0, 48(%rsp)
	movq	128(%rsp), %rsi
	movq	%rsi, 64(%rsp)
	movq	%rax, 72(%rsp)
	movq	$52, 80(%rsp)
	movq	%rdx, 88(%rsp)
	movq	$52, 96(%rsp)
	testb	%cl, %cl
	je	.LBB65_1
	movl	16(%r8), %eax
	movl	%eax, 160(%rsp)
	movdqu	(%r8), %xmm0
	movdqa	%xmm0, 144(%rsp)
	leaq	32(%r8), %rax
	addq	$864, %r8
	movl	$0, 164(%rsp)
	movq	%rax, 168(%rsp)
	movq	$52, 176(%rsp)
	movq	%r8, 184(%rsp)
	movq	$52, 192(%rsp)
	leaq	48(%rsp), %rdi
	leaq	144(%rsp), %rdx
	movl	$1, %esi
	callq	"dm_layout::symbols::border::border_faults"
	cmpw	%ax, %r12w
	jae	.LBB65_4
	xorl	%r15d, %r15d
	movzwl	%ax, %eax
	movd	%eax, %xmm0
	movb	$1, %al
	xorl	%edx, %edx
	xorl	%r12d, %r12d
	jmp	.LBB65_12
.LBB65_1:
	leaq	48(%r13), %rax
	movq	%rax, 24(%rsp)
	movq	%r15, 16(%rsp)
	movq	%r13, 8(%rsp)
	movq	%r14, (%rsp)
	movzbl	%bpl, %r8d
	leaq	32(%rsp), %rdi
	leaq	48(%rsp), %rsi
	xorl	%edx, %edx
	xorl	%ecx, %ecx
	movl	%r12d, %r9d
	callq	"dm_symbol::symbol::reading::restore"
	movzbl	32(%rsp), %eax
	movzbl	34(%rsp), %r12d
	movzbl	35(%rsp), %edx
	movd	36(%rsp), %xmm0
	movzwl	40(%rsp), %r15d
	jmp	.LBB65_12
.LBB65_4:
	movw	%ax, 48(%r13)
	movzwl	62(%rsp), %eax
	addw	60(%rsp), %ax
	movzwl	%ax, %r12d
	leaq	48(%rsp), %rdi
	movq	%r14, %rsi
	callq	"dm_layout::symbols::placing::lift_to"
	movb	$0, (%r13)
	leaq	112(%rsp), %rdi
	movq	%r15, %r9
	xorl	%r15d, %r15d
	leaq	144(%rsp), %r8
	movq	%r14, %rsi
	movq	%r12, %rdx
	xorl	%ecx, %ecx
	callq	"dm_symbol::symbol::reading::restore_doubtful"
	pxor	%xmm0, %xmm0
	cmpb	$1, %al
	jne	.LBB65_5
	movq	%r12, %r8
	movb	$1, %r12b
	testb	%bpl, %bpl
	je	.LBB65_7
	movl	%edx, %ebp
	leaq	48(%rsp), %rdi
	leaq	144(%rsp), %rdx
	movl	$1, %esi
	movq	%r14, %rcx
	leaq	8(%r13), %r9
	callq	"dm_symbol::symbol::dealing::restore_restarted"
	testb	%al, %al
	je	.LBB65_9
	movb	$1, (%r13)
	xorl	%r15d, %r15d
	xorl	%edx, %edx
	xorl	%r12d, %r12d
	xorl	%eax, %eax
	jmp	.LBB65_11
.LBB65_5:
	xorl	%edx, %edx
	xorl	%r12d, %r12d
	xorl	%eax, %eax
	jmp	.LBB65_12
.LBB65_7:
	xorl	%r15d, %r15d
	movb	$1, %al
	jmp	.LBB65_12
.LBB65_9:
	xorl	%r15d, %r15d
	movb	$1, %al
	movl	%ebp, %edx
.LBB65_11:
	pxor	%xmm0, %xmm0
.LBB65_12:
	movb	%al, (%rbx)
	movb	%r12b, 2(%rbx)
	movb	%dl, 3(%rbx)
	movd	%xmm0, 4(%rbx)
	movw	%r15w, 8(%rbx)
	addq	$200, %rsp
	.cfi_def_cfa_offset 56
	popq	%rbx
	.cfi_def_cfa_offset 48
	popq	%r12
	.cfi_def_cfa_offset 40
	popq	%r13
	.cfi_def_cfa_offset 32
	popq	%r14
	.cfi_def_cfa_offset 24
	popq	%r15
	.cfi_def_cfa_offset 16
	popq	%rbp
	.cfi_def_cfa_offset 8
	retq
.Lfunc_end65:
	.size	"ecc200_calls::restoring::restore_within::<=52,=288>", .Lfunc_end65-"ecc200_calls::restoring::restore_within::<=52,=288>"
	.cfi_endproc

	.p2align	4
	.type	"ecc200_calls::restoring::restore_surely::<=52,=288>",@function
"ecc200_calls::restoring::restore_surely::<=52,=288>":
	.cfi_startproc
	pushq	%rbp
	.cfi_def_cfa_offset 16
	pushq	%r15
	.cfi_def_cfa_offset 24
	pushq	%r14
	.cfi_def_cfa_offset 32
	pushq	%r13
	.cfi_def_cfa_offset 40
	pushq	%r12
	.cfi_def_cfa_offset 48
	pushq	%rbx
	.cfi_def_cfa_offset 56
	subq	$56, %rsp
	.cfi_def_cfa_offset 112
	.cfi_offset %rbx, -56
	.cfi_offset %r12, -48
	.cfi_offset %r13, -40
	.cfi_offset %r14, -32
	.cfi_offset %r15, -24
	.cfi_offset %rbp, -16
	movq	%r9, %r13
	movl	%ecx, %r12d
	movq	%rdx, %r15
	movl	%esi, %ebp
	movq	%rdi, %rbx
	movq	112(%rsp), %r14
	movw	$0, 24(%rsp)
	movq	$0, 16(%rsp)
	movzwl	(%rdx), %eax
	movzwl	2(%rdx), %r9d
	addl	%eax, %r9d
	shrl	$3, %r9d
	movq	%r14, 8(%rsp)
	movq	%r13, (%rsp)
	leaq	16(%rsp), %rdi
	movq	%r8, 48(%rsp)
	callq	"ecc200_calls::restoring::restore_within::<=52,=288>"
	xorps	%xmm0, %xmm0
	cmpb	$0, 16(%rsp)
	je	.LBB66_4
	movzbl	18(%rsp), %eax
	cmpl	$2, %eax
	je	.LBB66_5
	cmpl	$1, %eax
	jne	.LBB66_6
	movb	$1, %al
	movzbl	19(%rsp), %edx
	xorl	%ebp, %ebp
	movb	$1, %cl
	jmp	.LBB66_15
.LBB66_4:
	xorl	%eax, %eax
	xorl	%ecx, %ecx
	xorl	%edx, %edx
	xorl	%ebp, %ebp
	jmp	.LBB66_15
.LBB66_5:
	movzbl	20(%rsp), %ebp
	movb	$2, %cl
	movb	$1, %al
	movss	22(%rsp), %xmm0
	jmp	.LBB66_14
.LBB66_6:
	movzwl	20(%rsp), %eax
	movw	$0, 40(%rsp)
	movq	$0, 32(%rsp)
	movq	%r14, 8(%rsp)
	movq	%r13, (%rsp)
	movzbl	%bpl, %esi
	movl	%eax, %ebp
	movzbl	%r12b, %ecx
	leaq	32(%rsp), %rdi
	movq	%r15, %rdx
	movq	48(%rsp), %r8
	movl	%eax, %r9d
	callq	"ecc200_calls::restoring::restore_within::<=52,=288>"
	movb	$1, %al
	cmpb	$0, 32(%rsp)
	je	.LBB66_8
	xorps	%xmm0, %xmm0
	jmp	.LBB66_13
.LBB66_8:
	movq	40(%r14), %rax
	addq	$10, %r14
	incq	%rax
	xorps	%xmm0, %xmm0
	.p2align	4
.LBB66_9:
	decq	%rax
	je	.LBB66_11
	cmpb	$1, (%r14)
	leaq	3(%r14), %r14
	ja	.LBB66_9
	jmp	.LBB66_12
.LBB66_11:
	xorl	%ebp, %ebp
.LBB66_12:
	testq	%rax, %rax
	setne	%al
.LBB66_13:
	xorl	%ecx, %ecx
.LBB66_14:
	xorl	%edx, %edx
.LBB66_15:
	movb	%al, (%rbx)
	movb	%cl, 2(%rbx)
	movb	%dl, 3(%rbx)
	movw	%bp, 4(%rbx)
	movss	%xmm0, 6(%rbx)
	addq	$56, %rsp
	.cfi_def_cfa_offset 56
	popq	%rbx
	.cfi_def_cfa_offset 48
	popq	%r12
	.cfi_def_cfa_offset 40
	popq	%r13
	.cfi_def_cfa_offset 32
	popq	%r14
	.cfi_def_cfa_offset 24
	popq	%r15
	.cfi_def_cfa_offset 16
	popq	%rbp
	.cfi_def_cfa_offset 8
	retq
.Lfunc_end66:
	.size	"ecc200_calls::restoring::restore_surely::<=52,=288>", .Lfunc_end66-"ecc200_calls::restoring::restore_surely::<=52,=288>"
	.cfi_endproc

	.p2align	4
	.type	"ecc200_calls::answer::answer_words::<#d32d35a8039035b6>",@function
"ecc200_calls::answer::answer_words::<#d32d35a8039035b6>":
	.cfi_startproc
	pushq	%rbp
	.cfi_def_cfa_offset 16
	pushq	%r15
	.cfi_def_cfa_offset 24
	pushq	%r14
	.cfi_def_cfa_offset 32
	pushq	%r13
	.cfi_def_cfa_offset 40
	pushq	%r12
	.cfi_def_cfa_offset 48
	pushq	%rbx
	.cfi_def_cfa_offset 56
	subq	$1720, %rsp
	.cfi_def_cfa_offset 1776
	.cfi_offset %rbx, -56
	.cfi_offset %r12, -48
	.cfi_offset %r13, -40
	.cfi_offset %r14, -32
	.cfi_offset %r15, -24
	.cfi_offset %rbp, -16
	movq	%rcx, %rbx
	movq	%rdx, %r13
	movl	%esi, %ebp
	movq	%rdi, %r14
	movzwl	12(%rdx), %r15d
	addq	$20, %r13
	leaq	48(%rsp), %rdi
	movl	$1664, %edx
	xorl	%esi, %esi
	callq	memset@PLT
	xorps	%xmm0, %xmm0
	movaps	%xmm0, 32(%rsp)
	movaps	%xmm0, 16(%rsp)
	leaq	54(%rsp), %r12
	leaq	896(%rsp), %rax
	leaq	16(%rsp), %rdi
	movl	%ebp, %esi
	movq	%r13, %rdx
	movq	%r15, %rcx
	movq	%rax, %r15
	movq	%r12, %r8
	movq	%rax, %r9
	callq	"dm_words::contents::reading::read_content"
	cmpb	$0, 16(%rsp)
	je	.LBB67_4
	movzbl	18(%rsp), %eax
	movzwl	20(%rsp), %esi
	cmpl	$2, %eax
	je	.LBB67_5
	cmpl	$1, %eax
	jne	.LBB67_6
	xorl	%eax, %eax
	movw	$20, %cx
	jmp	.LBB67_16
.LBB67_4:
	movq	24(%rsp), %rax
	movq	32(%rsp), %rdx
	movq	40(%rsp), %r8
	movl	%eax, %ecx
	movl	%eax, %esi
	shrl	$8, %esi
	shrq	$16, %rax
	movb	%cl, 48(%rsp)
	movb	%sil, 49(%rsp)
	movl	%eax, 50(%rsp)
	movq	%rdx, 888(%rsp)
	movq	%r8, 1712(%rsp)
	movzbl	(%r14), %r9d
	movb	%cl, 16(%rsp)
	movb	%sil, 17(%rsp)
	movl	%eax, 18(%rsp)
	shll	$8, %r9d
	movq	%rbx, (%rsp)
	leaq	16(%rsp), %rdi
	movq	%r12, %rsi
	movq	%r15, %rcx
	callq	"ecc200_calls::writing::write_content"
	jmp	.LBB67_17
.LBB67_5:
	movw	$21, %cx
	xorl	%eax, %eax
	jmp	.LBB67_16
.LBB67_6:
	movzwl	22(%rsp), %edx
	movzwl	%si, %eax
	movzbl	%al, %ecx
	leaq	.LJTI67_0(%rip), %rsi
	movslq	(%rsi,%rcx,4), %rcx
	addq	%rsi, %rcx
	jmpq	*%rcx
.LBB67_7:
	movw	$7, %cx
	jmp	.LBB67_14
.LBB67_8:
	movw	$11, %cx
	jmp	.LBB67_14
.LBB67_9:
	movw	$9, %cx
	jmp	.LBB67_14
.LBB67_10:
	movw	$10, %cx
	jmp	.LBB67_14
.LBB67_11:
	shrl	$8, %eax
	movw	$8, %cx
	jmp	.LBB67_15
.LBB67_12:
	movw	$12, %cx
	jmp	.LBB67_14
.LBB67_13:
	movw	$13, %cx
.LBB67_14:
	xorl	%eax, %eax
.LBB67_15:
	movl	%edx, %esi
.LBB67_16:
	movw	%cx, (%rbx)
	movw	%ax, 2(%rbx)
	movw	%si, 4(%rbx)
	movl	$0, 6(%rbx)
.LBB67_17:
	addq	$1720, %rsp
	.cfi_def_cfa_offset 56
	popq	%rbx
	.cfi_def_cfa_offset 48
	popq	%r12
	.cfi_def_cfa_offset 40
	popq	%r13
	.cfi_def_cfa_offset 32
	popq	%r14
	.cfi_def_cfa_offset 24
	popq	%r15
	.cfi_def_cfa_offset 16
	popq	%rbp
	.cfi_def_cfa_offset 8
	retq
.Lfunc_end67:
	.size	"ecc200_calls::answer::answer_words::<#d32d35a8039035b6>", .Lfunc_end67-"ecc200_calls::answer::answer_words::<#d32d35a8039035b6>"
	.cfi_endproc
	.section	.rodata,"a",@progbits
	.p2align	2, 0x0
.LJTI67_0:
	.long	.LBB67_7-.LJTI67_0
	.long	.LBB67_11-.LJTI67_0
	.long	.LBB67_9-.LJTI67_0
	.long	.LBB67_10-.LJTI67_0
	.long	.LBB67_8-.LJTI67_0
	.long	.LBB67_12-.LJTI67_0
	.long	.LBB67_13-.LJTI67_0

	.section	.rodata.cst16,"aM",@progbits,16
	.p2align	4, 0x0
.LCPI68_0:
	.byte	241
	.byte	241
	.byte	241
	.byte	241
	.byte	241
	.byte	241
	.byte	241
	.byte	241
	.zero	1
	.zero	1
	.zero	1
	.zero	1
	.zero	1
	.zero	1
	.zero	1
	.zero	1
.LCPI68_1:
	.short	1
	.short	1
	.short	1
	.short	1
	.short	1
	.short	1
	.short	1
	.short	1
	.text
	.p2align	4
	.type	"ecc200_calls::answer::answer_given::<#1120882bd96666a5>",@function
"ecc200_calls::answer::answer_given::<#1120882bd96666a5>":
	.cfi_startproc
	pushq	%rbp
	.cfi_def_cfa_offset 16
	pushq	%r15
	.cfi_def_cfa_offset 24
	pushq	%r14
	.cfi_def_cfa_offset 32
	pushq	%r13
	.cfi_def_cfa_offset 40
	pushq	%r12
	.cfi_def_cfa_offset 48
	pushq	%rbx
	.cfi_def_cfa_offset 56
	subq	$1320, %rsp
	.cfi_def_cfa_offset 1376
	.cfi_offset %rbx, -56
	.cfi_offset %r12, -48
	.cfi_offset %r13, -40
	.cfi_offset %r14, -32
	.cfi_offset %r15, -24
	.cfi_offset %rbp, -16
	movq	%r9, %r15
	movq	%r8, %r12
	movq	%rcx, %r13
	movq	%rdx, %rbp
	movq	%rdi, %r14
	movq	1384(%rsp), %rbx
	movq	1376(%rsp), %rax
	movzwl	8(%rsi), %ecx
	movw	%cx, 56(%rsp)
	movq	(%rsi), %rcx
	movq	%rcx, 48(%rsp)
	movdqu	(%rax), %xmm0
	movdqa	%xmm0, 64(%rsp)
	movq	14(%rax), %rax
	movq	%rax, 78(%rsp)
	movq	$0, 32(%rsp)
	movw	$0, 40(%rsp)
	leaq	168(%rsp), %rdi
	movl	$1152, %edx
	xorl	%esi, %esi
	callq	memset@PLT
	pxor	%xmm0, %xmm0
	movdqu	%xmm0, 89(%rsp)
	movdqu	%xmm0, 105(%rsp)
	movdqu	%xmm0, 120(%rsp)
	movb	$0, 88(%rsp)
	movq	$0, 136(%rsp)
	leaq	88(%rsp), %rax
	movq	%rax, 16(%rsp)
	leaq	148(%rsp), %rax
	movq	%rax, 8(%rsp)
	leaq	64(%rsp), %rax
	movq	%rax, (%rsp)
	leaq	32(%rsp), %rdi
	leaq	48(%rsp), %rsi
	movq	%rbp, %rdx
	movq	%r13, %rcx
	movq	%r12, %r8
	movq	%r15, %r9
	callq	"ecc200_calls::restoring::restore_given::<=104,=1152>"
	cmpb	$0, 32(%rsp)
	je	.LBB68_1
	movzbl	34(%rsp), %ecx
	movzwl	36(%rsp), %eax
	testl	%ecx, %ecx
	je	.LBB68_12
	cmpl	$2, %ecx
	jne	.LBB68_14
	movzwl	38(%rsp), %edx
	cmpb	$2, %al
	je	.LBB68_27
	movzbl	%al, %eax
	cmpl	$1, %eax
	jne	.LBB68_18
	movw	$20, %cx
	jmp	.LBB68_28
.LBB68_1:
	movzbl	52(%rsp), %eax
	movzwl	160(%rsp), %ecx
	testq	%rcx, %rcx
	je	.LBB68_9
	cmpw	$8, %cx
	jae	.LBB68_4
	xorl	%esi, %esi
	xorl	%edx, %edx
	jmp	.LBB68_7
.LBB68_12:
	xorl	%edx, %edx
	movw	$5, %cx
	jmp	.LBB68_29
.LBB68_14:
	movzbl	35(%rsp), %edx
	movw	$6, %cx
	jmp	.LBB68_28
.LBB68_4:
	movl	%ecx, %edx
	andl	$-8, %edx
	pxor	%xmm0, %xmm0
	xorl	%esi, %esi
	.p2align	4
.LBB68_5:
	movq	168(%rsp,%rsi), %xmm1
	pcmpeqb	.LCPI68_0(%rip), %xmm1
	pmovzxbw	%xmm1, %xmm1
	pand	.LCPI68_1(%rip), %xmm1
	paddw	%xmm1, %xmm0
	addq	$8, %rsi
	cmpq	%rsi, %rdx
	jne	.LBB68_5
	pshufd	$238, %xmm0, %xmm1
	paddw	%xmm0, %xmm1
	pshufd	$85, %xmm1, %xmm0
	paddw	%xmm1, %xmm0
	movdqa	%xmm0, %xmm1
	psrld	$16, %xmm1
	paddw	%xmm0, %xmm1
	movd	%xmm1, %esi
	cmpl	%ecx, %edx
	je	.LBB68_8
	.p2align	4
.LBB68_7:
	xorl	%edi, %edi
	cmpb	$-15, 168(%rsp,%rdx)
	sete	%dil
	addl	%edi, %esi
	incq	%rdx
	cmpq	%rdx, %rcx
	jne	.LBB68_7
.LBB68_8:
	cmpw	$31, %si
	ja	.LBB68_10
.LBB68_9:
	movzbl	%al, %esi
	leaq	148(%rsp), %rdx
	movq	%r14, %rdi
	movq	%rbx, %rcx
	callq	"ecc200_calls::answer::answer_words::<#abb34201b1c45561>"
	jmp	.LBB68_30
.LBB68_10:
	movzbl	%al, %esi
	leaq	148(%rsp), %rdx
	movq	%r14, %rdi
	movq	%rbx, %rcx
	callq	"ecc200_calls::answer::answer_words::<#06d3767e809611ad>"
	jmp	.LBB68_30
.LBB68_27:
	movw	$21, %cx
.LBB68_28:
	xorl	%eax, %eax
.LBB68_29:
	movw	%cx, (%rbx)
	movw	%ax, 2(%rbx)
	movw	%dx, 4(%rbx)
	movl	$0, 6(%rbx)
.LBB68_30:
	addq	$1320, %rsp
	.cfi_def_cfa_offset 56
	popq	%rbx
	.cfi_def_cfa_offset 48
	popq	%r12
	.cfi_def_cfa_offset 40
	popq	%r13
	.cfi_def_cfa_offset 32
	popq	%r14
	.cfi_def_cfa_offset 24
	popq	%r15
	.cfi_def_cfa_offset 16
	popq	%rbp
	.cfi_def_cfa_offset 8
	retq
.LBB68_18:
	.cfi_def_cfa_offset 1376
	movzwl	40(%rsp), %esi
	movzwl	%dx, %eax
	movzbl	%al, %ecx
	leaq	.LJTI68_0(%rip), %rdx
	movslq	(%rdx,%rcx,4), %rcx
	addq	%rdx, %rcx
	jmpq	*%rcx
.LBB68_19:
	movw	$7, %cx
	jmp	.LBB68_20
.LBB68_24:
	movw	$11, %cx
	jmp	.LBB68_20
.LBB68_22:
	movw	$9, %cx
	jmp	.LBB68_20
.LBB68_23:
	movw	$10, %cx
	jmp	.LBB68_20
.LBB68_21:
	shrl	$8, %eax
	movw	$8, %cx
	movl	%esi, %edx
	jmp	.LBB68_29
.LBB68_25:
	movw	$12, %cx
	jmp	.LBB68_20
.LBB68_26:
	movw	$13, %cx
.LBB68_20:
	xorl	%eax, %eax
	movl	%esi, %edx
	jmp	.LBB68_29
.Lfunc_end68:
	.size	"ecc200_calls::answer::answer_given::<#1120882bd96666a5>", .Lfunc_end68-"ecc200_calls::answer::answer_given::<#1120882bd96666a5>"
	.cfi_endproc
	.section	.rodata,"a",@progbits
	.p2align	2, 0x0
.LJTI68_0:
	.long	.LBB68_19-.LJTI68_0
	.long	.LBB68_21-.LJTI68_0
	.long	.LBB68_22-.LJTI68_0
	.long	.LBB68_23-.LJTI68_0
	.long	.LBB68_24-.LJTI68_0
	.long	.LBB68_25-.LJTI68_0
	.long	.LBB68_26-.LJTI68_0

	.text
	.p2align	4
	.type	"ecc200_calls::restoring::restore_given::<=104,=1152>",@function
"ecc200_calls::restoring::restore_given::<=104,=1152>":
	.cfi_startproc
	pushq	%rbp
	.cfi_def_cfa_offset 16
	pushq	%r15
	.cfi_def_cfa_offset 24
	pushq	%r14
	.cfi_def_cfa_offset 32
	pushq	%r13
	.cfi_def_cfa_offset 40
	pushq	%r12
	.cfi_def_cfa_offset 48
	pushq	%rbx
	.cfi_def_cfa_offset 56
	subq	$3072, %rsp
	.cfi_adjust_cfa_offset 3072
	movq	$0, (%rsp)
	subq	$904, %rsp
	.cfi_def_cfa_offset 4032
	.cfi_offset %rbx, -56
	.cfi_offset %r12, -48
	.cfi_offset %r13, -40
	.cfi_offset %r14, -32
	.cfi_offset %r15, -24
	.cfi_offset %rbp, -16
	movq	%r9, 152(%rsp)
	movq	%r8, 144(%rsp)
	movq	%rcx, %r14
	movq	%rdx, %r13
	movq	%rdi, %rbx
	movq	4032(%rsp), %r15
	movzbl	4(%rsi), %eax
	movb	%al, 46(%rsp)
	movzbl	6(%rsi), %eax
	movb	%al, 47(%rsp)
	movzwl	8(%rsi), %eax
	movl	%eax, 76(%rsp)
	movzwl	(%r15), %r12d
	movzwl	18(%r15), %eax
	movzbl	20(%r15), %ebp
	movw	%ax, 178(%rsp)
	movups	2(%r15), %xmm0
	movups	%xmm0, 162(%rsp)
	leaq	180(%rsp), %rdi
	movl	$1676, %edx
	xorl	%esi, %esi
	callq	memset@PLT
	movw	%r12w, 160(%rsp)
	xorps	%xmm0, %xmm0
	movaps	%xmm0, 1856(%rsp)
	movaps	%xmm0, 1872(%rsp)
	movaps	%xmm0, 1888(%rsp)
	movaps	%xmm0, 1904(%rsp)
	movaps	%xmm0, 1920(%rsp)
	movaps	%xmm0, 1936(%rsp)
	movaps	%xmm0, 1952(%rsp)
	movaps	%xmm0, 1968(%rsp)
	movaps	%xmm0, 1984(%rsp)
	movaps	%xmm0, 2000(%rsp)
	movaps	%xmm0, 2016(%rsp)
	movaps	%xmm0, 2032(%rsp)
	movaps	%xmm0, 2048(%rsp)
	leaq	160(%rsp), %rdi
	movq	%r13, %rsi
	movq	%r14, %rdx
	callq	"ecc200_calls::modules::put_modules::<=104>"
	movq	4048(%rsp), %r13
	movq	4040(%rsp), %r14
	testb	$1, %bpl
	je	.LBB69_5
	addq	$2, %r15
	movw	%r12w, 2064(%rsp)
	movups	(%r15), %xmm0
	movups	%xmm0, 2066(%rsp)
	movzwl	16(%r15), %eax
	movw	%ax, 2082(%rsp)
	leaq	2084(%rsp), %rdi
	movl	$1884, %edx
	xorl	%esi, %esi
	callq	memset@PLT
	leaq	2064(%rsp), %rdi
	movq	144(%rsp), %rsi
	movq	152(%rsp), %rdx
	callq	"ecc200_calls::modules::put_modules::<=104>"
	movw	$0, 88(%rsp)
	movq	$0, 80(%rsp)
	cmpb	$0, 47(%rsp)
	je	.LBB69_2
	movq	%r13, (%rsp)
	movzbl	46(%rsp), %esi
	leaq	80(%rsp), %rdi
	leaq	160(%rsp), %rdx
	leaq	2064(%rsp), %r8
	movl	$1, %ecx
	movq	%r14, %r9
	callq	"ecc200_calls::restoring::restore_surely::<=104,=1152>"
	jmp	.LBB69_4
.LBB69_5:
	movw	$0, 56(%rsp)
	movq	$0, 48(%rsp)
	cmpb	$0, 47(%rsp)
	je	.LBB69_6
	movq	%r13, (%rsp)
	movzbl	46(%rsp), %esi
	leaq	48(%rsp), %rdi
	leaq	160(%rsp), %rdx
	xorl	%ecx, %ecx
	xorl	%r8d, %r8d
	movq	%r14, %r9
	callq	"ecc200_calls::restoring::restore_surely::<=104,=1152>"
	movzbl	48(%rsp), %eax
	movzbl	50(%rsp), %ecx
	movzbl	51(%rsp), %edx
	movss	52(%rsp), %xmm0
	movzwl	56(%rsp), %esi
	jmp	.LBB69_8
.LBB69_2:
	movq	%r13, 8(%rsp)
	movq	%r14, (%rsp)
	movzbl	46(%rsp), %esi
	leaq	80(%rsp), %rdi
	leaq	160(%rsp), %rdx
	leaq	2064(%rsp), %r8
	movl	$1, %ecx
	movl	76(%rsp), %r9d
	callq	"ecc200_calls::restoring::restore_within::<=104,=1152>"
.LBB69_4:
	movzbl	80(%rsp), %eax
	movzbl	82(%rsp), %ecx
	movzbl	83(%rsp), %edx
	movss	84(%rsp), %xmm0
	movzwl	88(%rsp), %esi
	jmp	.LBB69_8
.LBB69_6:
	leaq	1856(%rsp), %rax
	leaq	8(%r13), %rcx
	leaq	48(%r13), %rdx
	movw	$0, 72(%rsp)
	movq	$0, 64(%rsp)
	movzwl	174(%rsp), %esi
	movl	176(%rsp), %edi
	movq	160(%rsp), %r8
	movq	166(%rsp), %r9
	movq	%r9, 6(%r14)
	movq	%r8, (%r14)
	movw	%si, 14(%r14)
	movl	%edi, 16(%r14)
	addq	$20, %r14
	movl	176(%rsp), %esi
	movl	%esi, 96(%rsp)
	movaps	160(%rsp), %xmm0
	movaps	%xmm0, 80(%rsp)
	leaq	192(%rsp), %rsi
	movl	$0, 100(%rsp)
	movq	%rsi, 104(%rsp)
	movq	$104, 112(%rsp)
	movq	%rax, 120(%rsp)
	movq	$104, 128(%rsp)
	movq	%rdx, 24(%rsp)
	movq	%rcx, 16(%rsp)
	movq	%r13, 8(%rsp)
	movq	%r14, (%rsp)
	movzbl	46(%rsp), %r8d
	leaq	64(%rsp), %rdi
	leaq	80(%rsp), %rsi
	xorl	%edx, %edx
	xorl	%ecx, %ecx
	movl	76(%rsp), %r9d
	callq	"dm_symbol::symbol::reading::restore"
	movzbl	64(%rsp), %eax
	movzbl	66(%rsp), %ecx
	movzbl	67(%rsp), %edx
	movss	68(%rsp), %xmm0
	movzwl	72(%rsp), %esi
.LBB69_8:
	movb	%al, (%rbx)
	movb	%cl, 2(%rbx)
	movb	%dl, 3(%rbx)
	movss	%xmm0, 4(%rbx)
	movw	%si, 8(%rbx)
	addq	$3976, %rsp
	.cfi_def_cfa_offset 56
	popq	%rbx
	.cfi_def_cfa_offset 48
	popq	%r12
	.cfi_def_cfa_offset 40
	popq	%r13
	.cfi_def_cfa_offset 32
	popq	%r14
	.cfi_def_cfa_offset 24
	popq	%r15
	.cfi_def_cfa_offset 16
	popq	%rbp
	.cfi_def_cfa_offset 8
	retq
.Lfunc_end69:
	.size	"ecc200_calls::restoring::restore_given::<=104,=1152>", .Lfunc_end69-"ecc200_calls::restoring::restore_given::<=104,=1152>"
	.cfi_endproc

	.p2align	4
	.type	"ecc200_calls::restoring::restore_within::<=104,=1152>",@function
"ecc200_calls::restoring::restore_within::<=104,=1152>":
	.cfi_startproc
	pushq	%rbp
	.cfi_def_cfa_offset 16
	pushq	%r15
	.cfi_def_cfa_offset 24
	pushq	%r14
	.cfi_def_cfa_offset 32
	pushq	%r13
	.cfi_def_cfa_offset 40
	pushq	%r12
	.cfi_def_cfa_offset 48
	pushq	%rbx
	.cfi_def_cfa_offset 56
	subq	$200, %rsp
	.cfi_def_cfa_offset 256
	.cfi_offset %rbx, -56
	.cfi_offset %r12, -48
	.cfi_offset %r13, -40
	.cfi_offset %r14, -32
	.cfi_offset %r15, -24
	.cfi_offset %rbp, -16
	movl	%r9d, %r12d
	movl	%esi, %ebp
	movq	%rdi, %rbx
	movq	264(%rsp), %r13
	movq	256(%rsp), %r14
	leaq	8(%r13), %r15
	movw	$0, 40(%rsp)
	movq	$0, 32(%rsp)
	movl	16(%rdx), %eax
	movq	(%rdx), %rsi
	movq	8(%rdx), %rdi
	movq	%rdi, 8(%r14)
	movq	%rsi, (%r14)
	movl	%eax, 16(%r14)
	addq	$20, %r14
	movl	16(%rdx), %eax
	movl	%eax, 128(%rsp)
	movups	(%rdx), %xmm0
	movaps	%xmm0, 112(%rsp)
	leaq	32(%rdx), %rax
	addq	$1696, %rdx
	movl	$0, 132(%rsp)
	movaps	%xmm0, 48(%rsp)
	movq	128(%rsp), %rsi
	movq	%rsi, 64(%rsp)
	movq	%rax, 72(%rsp)
	movq	$104, 80(%rsp)
	movq	%rdx, 88(%rsp)
	movq	$104, 96(%rsp)
	testb	%cl, %cl
	je	.LBB70_1
	movl	16(%r8), %eax
	movl	%eax, 160(%rsp)
	movdqu	(%r8), %xmm0
	movdqa	%xmm0, 144(%rsp)
	leaq	32(%r8), %rax
	addq	$1696, %r8
	movl	$0, 164(%rsp)
	movq	%rax, 168(%rsp)
	movq	$104, 176(%rsp)
	movq	%r8, 184(%rsp)
	movq	$104, 192(%rsp)
	leaq	48(%rsp), %rdi
	leaq	144(%rsp), %rdx
	movl	$1, %esi
	callq	"dm_layout::symbols::border::border_faults"
	cmpw	%ax, %r12w
	jae	.LBB70_4
	xorl	%r15d, %r15d
	movzwl	%ax, %eax
	movd	%eax, %xmm0
	movb	$1, %al
	xorl	%edx, %edx
	xorl	%r12d, %r12d
	jmp	.LBB70_12
.LBB70_1:
	leaq	48(%r13), %rax
	movq	%rax, 24(%rsp)
	movq	%r15, 16(%rsp)
	movq	%r13, 8(%rsp)
	movq	%r14, (%rsp)
	movzbl	%bpl, %r8d
	leaq	32(%rsp), %rdi
	leaq	48(%rsp), %rsi
	xorl	%edx, %edx
	xorl	%ecx, %ecx
	movl	%r12d, %r9d
	callq	"dm_symbol::symbol::reading::restore"
	movzbl	32(%rsp), %eax
	movzbl	34(%rsp), %r12d
	movzbl	35(%rsp), %edx
	movd	36(%rsp), %xmm0
	movzwl	40(%rsp), %r15d
	jmp	.LBB70_12
.LBB70_4:
	movw	%ax, 48(%r13)
	movzwl	62(%rsp), %eax
	addw	60(%rsp), %ax
	movzwl	%ax, %r12d
	leaq	48(%rsp), %rdi
	movq	%r14, %rsi
	callq	"dm_layout::symbols::placing::lift_to"
	movb	$0, (%r13)
	leaq	112(%rsp), %rdi
	movq	%r15, %r9
	xorl	%r15d, %r15d
	leaq	144(%rsp), %r8
	movq	%r14, %rsi
	movq	%r12, %rdx
	xorl	%ecx, %ecx
	callq	"dm_symbol::symbol::reading::restore_doubtful"
	pxor	%xmm0, %xmm0
	cmpb	$1, %al
	jne	.LBB70_5
	movq	%r12, %r8
	movb	$1, %r12b
	testb	%bpl, %bpl
	je	.LBB70_7
	movl	%edx, %ebp
	leaq	48(%rsp), %rdi
	leaq	144(%rsp), %rdx
	movl	$1, %esi
	movq	%r14, %rcx
	leaq	8(%r13), %r9
	callq	"dm_symbol::symbol::dealing::restore_restarted"
	testb	%al, %al
	je	.LBB70_9
	movb	$1, (%r13)
	xorl	%r15d, %r15d
	xorl	%edx, %edx
	xorl	%r12d, %r12d
	xorl	%eax, %eax
	jmp	.LBB70_11
.LBB70_5:
	xorl	%edx, %edx
	xorl	%r12d, %r12d
	xorl	%eax, %eax
	jmp	.LBB70_12
.LBB70_7:
	xorl	%r15d, %r15d
	movb	$1, %al
	jmp	.LBB70_12
.LBB70_9:
	xorl	%r15d, %r15d
	movb	$1, %al
	movl	%ebp, %edx
.LBB70_11:
	pxor	%xmm0, %xmm0
.LBB70_12:
	movb	%al, (%rbx)
	movb	%r12b, 2(%rbx)
	movb	%dl, 3(%rbx)
	movd	%xmm0, 4(%rbx)
	movw	%r15w, 8(%rbx)
	addq	$200, %rsp
	.cfi_def_cfa_offset 56
	popq	%rbx
	.cfi_def_cfa_offset 48
	popq	%r12
	.cfi_def_cfa_offset 40
	popq	%r13
	.cfi_def_cfa_offset 32
	popq	%r14
	.cfi_def_cfa_offset 24
	popq	%r15
	.cfi_def_cfa_offset 16
	popq	%rbp
	.cfi_def_cfa_offset 8
	retq
.Lfunc_end70:
	.size	"ecc200_calls::restoring::restore_within::<=104,=1152>", .Lfunc_end70-"ecc200_calls::restoring::restore_within::<=104,=1152>"
	.cfi_endproc

	.p2align	4
	.type	"ecc200_calls::restoring::restore_surely::<=104,=1152>",@function
"ecc200_calls::restoring::restore_surely::<=104,=1152>":
	.cfi_startproc
	pushq	%rbp
	.cfi_def_cfa_offset 16
	pushq	%r15
	.cfi_def_cfa_offset 24
	pushq	%r14
	.cfi_def_cfa_offset 32
	pushq	%r13
	.cfi_def_cfa_offset 40
	pushq	%r12
	.cfi_def_cfa_offset 48
	pushq	%rbx
	.cfi_def_cfa_offset 56
	subq	$56, %rsp
	.cfi_def_cfa_offset 112
	.cfi_offset %rbx, -56
	.cfi_offset %r12, -48
	.cfi_offset %r13, -40
	.cfi_offset %r14, -32
	.cfi_offset %r15, -24
	.cfi_offset %rbp, -16
	movq	%r9, %r13
	movl	%ecx, %r12d
	movq	%rdx, %r15
	movl	%esi, %ebp
	movq	%rdi, %rbx
	movq	112(%rsp), %r14
	movw	$0, 24(%rsp)
	movq	$0, 16(%rsp)
	movzwl	(%rdx), %eax
	movzwl	2(%rdx), %r9d
	addl	%eax, %r9d
	shrl	$3, %r9d
	movq	%r14, 8(%rsp)
	movq	%r13, (%rsp)
	leaq	16(%rsp), %rdi
	movq	%r8, 48(%rsp)
	callq	"ecc200_calls::restoring::restore_within::<=104,=1152>"
	xorps	%xmm0, %xmm0
	cmpb	$0, 16(%rsp)
	je	.LBB71_4
	movzbl	18(%rsp), %eax
	cmpl	$2, %eax
	je	.LBB71_5
	cmpl	$1, %eax
	jne	.LBB71_6
	movb	$1, %al
	movzbl	19(%rsp), %edx
	xorl	%ebp, %ebp
	movb	$1, %cl
	jmp	.LBB71_15
.LBB71_4:
	xorl	%eax, %eax
	xorl	%ecx, %ecx
	xorl	%edx, %edx
	xorl	%ebp, %ebp
	jmp	.LBB71_15
.LBB71_5:
	movzbl	20(%rsp), %ebp
	movb	$2, %cl
	movb	$1, %al
	movss	22(%rsp), %xmm0
	jmp	.LBB71_14
.LBB71_6:
	movzwl	20(%rsp), %eax
	movw	$0, 40(%rsp)
	movq	$0, 32(%rsp)
	movq	%r14, 8(%rsp)
	movq	%r13, (%rsp)
	movzbl	%bpl, %esi
	movl	%eax, %ebp
	movzbl	%r12b, %ecx
	leaq	32(%rsp), %rdi
	movq	%r15, %rdx
	movq	48(%rsp), %r8
	movl	%eax, %r9d
	callq	"ecc200_calls::restoring::restore_within::<=104,=1152>"
	movb	$1, %al
	cmpb	$0, 32(%rsp)
	je	.LBB71_8
	xorps	%xmm0, %xmm0
	jmp	.LBB71_13
.LBB71_8:
	movq	40(%r14), %rax
	addq	$10, %r14
	incq	%rax
	xorps	%xmm0, %xmm0
	.p2align	4
.LBB71_9:
	decq	%rax
	je	.LBB71_11
	cmpb	$1, (%r14)
	leaq	3(%r14), %r14
	ja	.LBB71_9
	jmp	.LBB71_12
.LBB71_11:
	xorl	%ebp, %ebp
.LBB71_12:
	testq	%rax, %rax
	setne	%al
.LBB71_13:
	xorl	%ecx, %ecx
.LBB71_14:
	xorl	%edx, %edx
.LBB71_15:
	movb	%al, (%rbx)
	movb	%cl, 2(%rbx)
	movb	%dl, 3(%rbx)
	movw	%bp, 4(%rbx)
	movss	%xmm0, 6(%rbx)
	addq	$56, %rsp
	.cfi_def_cfa_offset 56
	popq	%rbx
	.cfi_def_cfa_offset 48
	popq	%r12
	.cfi_def_cfa_offset 40
	popq	%r13
	.cfi_def_cfa_offset 32
	popq	%r14
	.cfi_def_cfa_offset 24
	popq	%r15
	.cfi_def_cfa_offset 16
	popq	%rbp
	.cfi_def_cfa_offset 8
	retq
.Lfunc_end71:
	.size	"ecc200_calls::restoring::restore_surely::<=104,=1152>", .Lfunc_end71-"ecc200_calls::restoring::restore_surely::<=104,=1152>"
	.cfi_endproc

	.p2align	4
	.type	"ecc200_calls::answer::answer_words::<#abb34201b1c45561>",@function
"ecc200_calls::answer::answer_words::<#abb34201b1c45561>":
	.cfi_startproc
	pushq	%rbp
	.cfi_def_cfa_offset 16
	pushq	%r15
	.cfi_def_cfa_offset 24
	pushq	%r14
	.cfi_def_cfa_offset 32
	pushq	%r13
	.cfi_def_cfa_offset 40
	pushq	%r12
	.cfi_def_cfa_offset 48
	pushq	%rbx
	.cfi_def_cfa_offset 56
	subq	$3072, %rsp
	.cfi_adjust_cfa_offset 3072
	movq	$0, (%rsp)
	subq	$536, %rsp
	.cfi_def_cfa_offset 3664
	.cfi_offset %rbx, -56
	.cfi_offset %r12, -48
	.cfi_offset %r13, -40
	.cfi_offset %r14, -32
	.cfi_offset %r15, -24
	.cfi_offset %rbp, -16
	movq	%rcx, %rbx
	movq	%rdx, %r13
	movl	%esi, %ebp
	movq	%rdi, %r14
	movzwl	12(%rdx), %r15d
	addq	$20, %r13
	leaq	56(%rsp), %rdi
	movl	$3544, %edx
	xorl	%esi, %esi
	callq	memset@PLT
	xorps	%xmm0, %xmm0
	movaps	%xmm0, 32(%rsp)
	movaps	%xmm0, 16(%rsp)
	leaq	62(%rsp), %r12
	leaq	3352(%rsp), %rax
	leaq	16(%rsp), %rdi
	movl	%ebp, %esi
	movq	%r13, %rdx
	movq	%r15, %rcx
	movq	%rax, %r15
	movq	%r12, %r8
	movq	%rax, %r9
	callq	"dm_words::contents::reading::read_content"
	cmpb	$0, 16(%rsp)
	je	.LBB72_4
	movzbl	18(%rsp), %eax
	movzwl	20(%rsp), %esi
	cmpl	$2, %eax
	je	.LBB72_5
	cmpl	$1, %eax
	jne	.LBB72_6
	xorl	%eax, %eax
	movw	$20, %cx
	jmp	.LBB72_16
.LBB72_4:
	movq	24(%rsp), %rax
	movq	32(%rsp), %rdx
	movq	40(%rsp), %r8
	movl	%eax, %ecx
	movl	%eax, %esi
	shrl	$8, %esi
	shrq	$16, %rax
	movb	%cl, 56(%rsp)
	movb	%sil, 57(%rsp)
	movl	%eax, 58(%rsp)
	movq	%rdx, 3344(%rsp)
	movq	%r8, 3600(%rsp)
	movzbl	(%r14), %r9d
	movb	%cl, 16(%rsp)
	movb	%sil, 17(%rsp)
	movl	%eax, 18(%rsp)
	shll	$8, %r9d
	movq	%rbx, (%rsp)
	leaq	16(%rsp), %rdi
	movq	%r12, %rsi
	movq	%r15, %rcx
	callq	"ecc200_calls::writing::write_content"
	jmp	.LBB72_17
.LBB72_5:
	movw	$21, %cx
	xorl	%eax, %eax
	jmp	.LBB72_16
.LBB72_6:
	movzwl	22(%rsp), %edx
	movzwl	%si, %eax
	movzbl	%al, %ecx
	leaq	.LJTI72_0(%rip), %rsi
	movslq	(%rsi,%rcx,4), %rcx
	addq	%rsi, %rcx
	jmpq	*%rcx
.LBB72_7:
	movw	$7, %cx
	jmp	.LBB72_14
.LBB72_8:
	movw	$11, %cx
	jmp	.LBB72_14
.LBB72_9:
	movw	$9, %cx
	jmp	.LBB72_14
.LBB72_10:
	movw	$10, %cx
	jmp	.LBB72_14
.LBB72_11:
	shrl	$8, %eax
	movw	$8, %cx
	jmp	.LBB72_15
.LBB72_12:
	movw	$12, %cx
	jmp	.LBB72_14
.LBB72_13:
	movw	$13, %cx
.LBB72_14:
	xorl	%eax, %eax
.LBB72_15:
	movl	%edx, %esi
.LBB72_16:
	movw	%cx, (%rbx)
	movw	%ax, 2(%rbx)
	movw	%si, 4(%rbx)
	movl	$0, 6(%rbx)
.LBB72_17:
	addq	$3608, %rsp
	.cfi_def_cfa_offset 56
	popq	%rbx
	.cfi_def_cfa_offset 48
	popq	%r12
	.cfi_def_cfa_offset 40
	popq	%r13
	.cfi_def_cfa_offset 32
	popq	%r14
	.cfi_def_cfa_offset 24
	popq	%r15
	.cfi_def_cfa_offset 16
	popq	%rbp
	.cfi_def_cfa_offset 8
	retq
.Lfunc_end72:
	.size	"ecc200_calls::answer::answer_words::<#abb34201b1c45561>", .Lfunc_end72-"ecc200_calls::answer::answer_words::<#abb34201b1c45561>"
	.cfi_endproc
	.section	.rodata,"a",@progbits
	.p2align	2, 0x0
.LJTI72_0:
	.long	.LBB72_7-.LJTI72_0
	.long	.LBB72_11-.LJTI72_0
	.long	.LBB72_9-.LJTI72_0
	.long	.LBB72_10-.LJTI72_0
	.long	.LBB72_8-.LJTI72_0
	.long	.LBB72_12-.LJTI72_0
	.long	.LBB72_13-.LJTI72_0

	.text
	.p2align	4
	.type	"ecc200_calls::answer::answer_words::<#06d3767e809611ad>",@function
"ecc200_calls::answer::answer_words::<#06d3767e809611ad>":
	.cfi_startproc
	pushq	%rbp
	.cfi_def_cfa_offset 16
	pushq	%r15
	.cfi_def_cfa_offset 24
	pushq	%r14
	.cfi_def_cfa_offset 32
	pushq	%r13
	.cfi_def_cfa_offset 40
	pushq	%r12
	.cfi_def_cfa_offset 48
	pushq	%rbx
	.cfi_def_cfa_offset 56
	subq	$3072, %rsp
	.cfi_adjust_cfa_offset 3072
	movq	$0, (%rsp)
	subq	$3072, %rsp
	.cfi_adjust_cfa_offset 3072
	movq	$0, (%rsp)
	subq	$472, %rsp
	.cfi_def_cfa_offset 6672
	.cfi_offset %rbx, -56
	.cfi_offset %r12, -48
	.cfi_offset %r13, -40
	.cfi_offset %r14, -32
	.cfi_offset %r15, -24
	.cfi_offset %rbp, -16
	movq	%rcx, %rbx
	movq	%rdx, %r13
	movl	%esi, %ebp
	movq	%rdi, %r14
	movzwl	12(%rdx), %r15d
	addq	$20, %r13
	leaq	48(%rsp), %rdi
	movl	$6560, %edx
	xorl	%esi, %esi
	callq	memset@PLT
	xorps	%xmm0, %xmm0
	movaps	%xmm0, 32(%rsp)
	movaps	%xmm0, 16(%rsp)
	leaq	54(%rsp), %r12
	leaq	3344(%rsp), %rax
	leaq	16(%rsp), %rdi
	movl	%ebp, %esi
	movq	%r13, %rdx
	movq	%r15, %rcx
	movq	%rax, %r15
	movq	%r12, %r8
	movq	%rax, %r9
	callq	"dm_words::contents::reading::read_content"
	cmpb	$0, 16(%rsp)
	je	.LBB73_4
	movzbl	18(%rsp), %eax
	movzwl	20(%rsp), %esi
	cmpl	$2, %eax
	je	.LBB73_5
	cmpl	$1, %eax
	jne	.LBB73_6
	xorl	%eax, %eax
	movw	$20, %cx
	jmp	.LBB73_16
.LBB73_4:
	movq	24(%rsp), %rax
	movq	32(%rsp), %rdx
	movq	40(%rsp), %r8
	movl	%eax, %ecx
	movl	%eax, %esi
	shrl	$8, %esi
	shrq	$16, %rax
	movb	%cl, 48(%rsp)
	movb	%sil, 49(%rsp)
	movl	%eax, 50(%rsp)
	movq	%rdx, 3336(%rsp)
	movq	%r8, 6608(%rsp)
	movzbl	(%r14), %r9d
	movb	%cl, 16(%rsp)
	movb	%sil, 17(%rsp)
	movl	%eax, 18(%rsp)
	shll	$8, %r9d
	movq	%rbx, (%rsp)
	leaq	16(%rsp), %rdi
	movq	%r12, %rsi
	movq	%r15, %rcx
	callq	"ecc200_calls::writing::write_content"
	jmp	.LBB73_17
.LBB73_5:
	movw	$21, %cx
	xorl	%eax, %eax
	jmp	.LBB73_16
.LBB73_6:
	movzwl	22(%rsp), %edx
	movzwl	%si, %eax
	movzbl	%al, %ecx
	leaq	.LJTI73_0(%rip), %rsi
	movslq	(%rsi,%rcx,4), %rcx
	addq	%rsi, %rcx
	jmpq	*%rcx
.LBB73_7:
	movw	$7, %cx
	jmp	.LBB73_14
.LBB73_8:
	movw	$11, %cx
	jmp	.LBB73_14
.LBB73_9:
	movw	$9, %cx
	jmp	.LBB73_14
.LBB73_10:
	movw	$10, %cx
	jmp	.LBB73_14
.LBB73_11:
	shrl	$8, %eax
	movw	$8, %cx
	jmp	.LBB73_15
.LBB73_12:
	movw	$12, %cx
	jmp	.LBB73_14
.LBB73_13:
	movw	$13, %cx
.LBB73_14:
	xorl	%eax, %eax
.LBB73_15:
	movl	%edx, %esi
.LBB73_16:
	movw	%cx, (%rbx)
	movw	%ax, 2(%rbx)
	movw	%si, 4(%rbx)
	movl	$0, 6(%rbx)
.LBB73_17:
	addq	$6616, %rsp
	.cfi_def_cfa_offset 56
	popq	%rbx
	.cfi_def_cfa_offset 48
	popq	%r12
	.cfi_def_cfa_offset 40
	popq	%r13
	.cfi_def_cfa_offset 32
	popq	%r14
	.cfi_def_cfa_offset 24
	popq	%r15
	.cfi_def_cfa_offset 16
	popq	%rbp
	.cfi_def_cfa_offset 8
	retq
.Lfunc_end73:
	.size	"ecc200_calls::answer::answer_words::<#06d3767e809611ad>", .Lfunc_end73-"ecc200_calls::answer::answer_words::<#06d3767e809611ad>"
	.cfi_endproc
	.section	.rodata,"a",@progbits
	.p2align	2, 0x0
.LJTI73_0:
	.long	.LBB73_7-.LJTI73_0
	.long	.LBB73_11-.LJTI73_0
	.long	.LBB73_9-.LJTI73_0
	.long	.LBB73_10-.LJTI73_0
	.long	.LBB73_8-.LJTI73_0
	.long	.LBB73_12-.LJTI73_0
	.long	.LBB73_13-.LJTI73_0

	.section	.rodata.cst16,"aM",@progbits,16
	.p2align	4, 0x0
.LCPI74_0:
	.byte	241
	.byte	241
	.byte	241
	.byte	241
	.byte	241
	.byte	241
	.byte	241
	.byte	241
	.zero	1
	.zero	1
	.zero	1
	.zero	1
	.zero	1
	.zero	1
	.zero	1
	.zero	1
.LCPI74_1:
	.short	1
	.short	1
	.short	1
	.short	1
	.short	1
	.short	1
	.short	1
	.short	1
	.text
	.p2align	4
	.type	"ecc200_calls::answer::answer_given::<#c193b66836f70129>",@function
"ecc200_calls::answer::answer_given::<#c193b66836f70129>":
	.cfi_startproc
	pushq	%rbp
	.cfi_def_cfa_offset 16
	pushq	%r15
	.cfi_def_cfa_offset 24
	pushq	%r14
	.cfi_def_cfa_offset 32
	pushq	%r13
	.cfi_def_cfa_offset 40
	pushq	%r12
	.cfi_def_cfa_offset 48
	pushq	%rbx
	.cfi_def_cfa_offset 56
	subq	$2344, %rsp
	.cfi_def_cfa_offset 2400
	.cfi_offset %rbx, -56
	.cfi_offset %r12, -48
	.cfi_offset %r13, -40
	.cfi_offset %r14, -32
	.cfi_offset %r15, -24
	.cfi_offset %rbp, -16
	movq	%r9, %r15
	movq	%r8, %r12
	movq	%rcx, %r13
	movq	%rdx, %rbp
	movq	%rdi, %r14
	movq	2408(%rsp), %rbx
	movq	2400(%rsp), %rax
	movzwl	8(%rsi), %ecx
	movw	%cx, 56(%rsp)
	movq	(%rsi), %rcx
	movq	%rcx, 48(%rsp)
	movdqu	(%rax), %xmm0
	movdqa	%xmm0, 64(%rsp)
	movq	14(%rax), %rax
	movq	%rax, 78(%rsp)
	movq	$0, 32(%rsp)
	movw	$0, 40(%rsp)
	leaq	166(%rsp), %rdi
	movl	$2178, %edx
	xorl	%esi, %esi
	callq	memset@PLT
	pxor	%xmm0, %xmm0
	movdqu	%xmm0, 89(%rsp)
	movdqu	%xmm0, 105(%rsp)
	movdqu	%xmm0, 120(%rsp)
	movb	$0, 88(%rsp)
	movq	$0, 136(%rsp)
	leaq	88(%rsp), %rax
	movq	%rax, 16(%rsp)
	leaq	146(%rsp), %rax
	movq	%rax, 8(%rsp)
	leaq	64(%rsp), %rax
	movq	%rax, (%rsp)
	leaq	32(%rsp), %rdi
	leaq	48(%rsp), %rsi
	movq	%rbp, %rdx
	movq	%r13, %rcx
	movq	%r12, %r8
	movq	%r15, %r9
	callq	"ecc200_calls::restoring::restore_given::<=144,=2178>"
	cmpb	$0, 32(%rsp)
	je	.LBB74_1
	movzbl	34(%rsp), %ecx
	movzwl	36(%rsp), %eax
	testl	%ecx, %ecx
	je	.LBB74_12
	cmpl	$2, %ecx
	jne	.LBB74_14
	movzwl	38(%rsp), %edx
	cmpb	$2, %al
	je	.LBB74_27
	movzbl	%al, %eax
	cmpl	$1, %eax
	jne	.LBB74_18
	movw	$20, %cx
	jmp	.LBB74_28
.LBB74_1:
	movzbl	52(%rsp), %eax
	movzwl	158(%rsp), %ecx
	testq	%rcx, %rcx
	je	.LBB74_9
	cmpw	$8, %cx
	jae	.LBB74_4
	xorl	%esi, %esi
	xorl	%edx, %edx
	jmp	.LBB74_7
.LBB74_12:
	xorl	%edx, %edx
	movw	$5, %cx
	jmp	.LBB74_29
.LBB74_14:
	movzbl	35(%rsp), %edx
	movw	$6, %cx
	jmp	.LBB74_28
.LBB74_4:
	movl	%ecx, %edx
	andl	$-8, %edx
	pxor	%xmm0, %xmm0
	xorl	%esi, %esi
	.p2align	4
.LBB74_5:
	movq	166(%rsp,%rsi), %xmm1
	pcmpeqb	.LCPI74_0(%rip), %xmm1
	pmovzxbw	%xmm1, %xmm1
	pand	.LCPI74_1(%rip), %xmm1
	paddw	%xmm1, %xmm0
	addq	$8, %rsi
	cmpq	%rsi, %rdx
	jne	.LBB74_5
	pshufd	$238, %xmm0, %xmm1
	paddw	%xmm0, %xmm1
	pshufd	$85, %xmm1, %xmm0
	paddw	%xmm1, %xmm0
	movdqa	%xmm0, %xmm1
	psrld	$16, %xmm1
	paddw	%xmm0, %xmm1
	movd	%xmm1, %esi
	cmpl	%ecx, %edx
	je	.LBB74_8
	.p2align	4
.LBB74_7:
	xorl	%edi, %edi
	cmpb	$-15, 166(%rsp,%rdx)
	sete	%dil
	addl	%edi, %esi
	incq	%rdx
	cmpq	%rdx, %rcx
	jne	.LBB74_7
.LBB74_8:
	cmpw	$31, %si
	ja	.LBB74_10
.LBB74_9:
	movzbl	%al, %esi
	leaq	146(%rsp), %rdx
	movq	%r14, %rdi
	movq	%rbx, %rcx
	callq	"ecc200_calls::answer::answer_words::<#c41e22b9ba7768f4>"
	jmp	.LBB74_30
.LBB74_10:
	movzbl	%al, %esi
	leaq	146(%rsp), %rdx
	movq	%r14, %rdi
	movq	%rbx, %rcx
	callq	"ecc200_calls::answer::answer_words::<#bcaba02e1eec002d>"
	jmp	.LBB74_30
.LBB74_27:
	movw	$21, %cx
.LBB74_28:
	xorl	%eax, %eax
.LBB74_29:
	movw	%cx, (%rbx)
	movw	%ax, 2(%rbx)
	movw	%dx, 4(%rbx)
	movl	$0, 6(%rbx)
.LBB74_30:
	addq	$2344, %rsp
	.cfi_def_cfa_offset 56
	popq	%rbx
	.cfi_def_cfa_offset 48
	popq	%r12
	.cfi_def_cfa_offset 40
	popq	%r13
	.cfi_def_cfa_offset 32
	popq	%r14
	.cfi_def_cfa_offset 24
	popq	%r15
	.cfi_def_cfa_offset 16
	popq	%rbp
	.cfi_def_cfa_offset 8
	retq
.LBB74_18:
	.cfi_def_cfa_offset 2400
	movzwl	40(%rsp), %esi
	movzwl	%dx, %eax
	movzbl	%al, %ecx
	leaq	.LJTI74_0(%rip), %rdx
	movslq	(%rdx,%rcx,4), %rcx
	addq	%rdx, %rcx
	jmpq	*%rcx
.LBB74_19:
	movw	$7, %cx
	jmp	.LBB74_20
.LBB74_24:
	movw	$11, %cx
	jmp	.LBB74_20
.LBB74_22:
	movw	$9, %cx
	jmp	.LBB74_20
.LBB74_23:
	movw	$10, %cx
	jmp	.LBB74_20
.LBB74_21:
	shrl	$8, %eax
	movw	$8, %cx
	movl	%esi, %edx
	jmp	.LBB74_29
.LBB74_25:
	movw	$12, %cx
	jmp	.LBB74_20
.LBB74_26:
	movw	$13, %cx
.LBB74_20:
	xorl	%eax, %eax
	movl	%esi, %edx
	jmp	.LBB74_29
.Lfunc_end74:
	.size	"ecc200_calls::answer::answer_given::<#c193b66836f70129>", .Lfunc_end74-"ecc200_calls::answer::answer_given::<#c193b66836f70129>"
	.cfi_endproc
	.section	.rodata,"a",@progbits
	.p2align	2, 0x0
.LJTI74_0:
	.long	.LBB74_19-.LJTI74_0
	.long	.LBB74_21-.LJTI74_0
	.long	.LBB74_22-.LJTI74_0
	.long	.LBB74_23-.LJTI74_0
	.long	.LBB74_24-.LJTI74_0
	.long	.LBB74_25-.LJTI74_0
	.long	.LBB74_26-.LJTI74_0

	.text
	.p2align	4
	.type	"ecc200_calls::restoring::restore_given::<=144,=2178>",@function
"ecc200_calls::restoring::restore_given::<=144,=2178>":
	.cfi_startproc
	pushq	%rbp
	.cfi_def_cfa_offset 16
	pushq	%r15
	.cfi_def_cfa_offset 24
	pushq	%r14
	.cfi_def_cfa_offset 32
	pushq	%r13
	.cfi_def_cfa_offset 40
	pushq	%r12
	.cfi_def_cfa_offset 48
	pushq	%rbx
	.cfi_def_cfa_offset 56
	subq	$3072, %rsp
	.cfi_adjust_cfa_offset 3072
	movq	$0, (%rsp)
	subq	$2344, %rsp
	.cfi_def_cfa_offset 5472
	.cfi_offset %rbx, -56
	.cfi_offset %r12, -48
	.cfi_offset %r13, -40
	.cfi_offset %r14, -32
	.cfi_offset %r15, -24
	.cfi_offset %rbp, -16
	movq	%r9, 152(%rsp)
	movq	%r8, 144(%rsp)
	movq	%rcx, %r14
	movq	%rdx, %rbp
	movq	%rdi, %rbx
	movq	5472(%rsp), %r15
	movzbl	4(%rsi), %eax
	movb	%al, 46(%rsp)
	movzbl	6(%rsi), %eax
	movb	%al, 47(%rsp)
	movzwl	8(%rsi), %eax
	movl	%eax, 76(%rsp)
	movzwl	(%r15), %r12d
	movzwl	18(%r15), %eax
	movzbl	20(%r15), %r13d
	movw	%ax, 178(%rsp)
	movups	2(%r15), %xmm0
	movups	%xmm0, 162(%rsp)
	leaq	180(%rsp), %rdi
	movl	$2316, %edx
	xorl	%esi, %esi
	callq	memset@PLT
	movw	%r12w, 160(%rsp)
	leaq	2496(%rsp), %rdi
	movl	$288, %edx
	xorl	%esi, %esi
	callq	memset@PLT
	leaq	160(%rsp), %rdi
	movq	%rbp, %rsi
	movq	%r14, %rdx
	callq	"ecc200_calls::modules::put_modules::<=144>"
	movq	5488(%rsp), %rbp
	movq	5480(%rsp), %r14
	testb	$1, %r13b
	je	.LBB75_5
	addq	$2, %r15
	movw	%r12w, 2784(%rsp)
	movups	(%r15), %xmm0
	movups	%xmm0, 2786(%rsp)
	movzwl	16(%r15), %eax
	movw	%ax, 2802(%rsp)
	leaq	2804(%rsp), %rdi
	movl	$2604, %edx
	xorl	%esi, %esi
	callq	memset@PLT
	leaq	2784(%rsp), %rdi
	movq	144(%rsp), %rsi
	movq	152(%rsp), %rdx
	callq	"ecc200_calls::modules::put_modules::<=144>"
	movw	$0, 88(%rsp)
	movq	$0, 80(%rsp)
	cmpb	$0, 47(%rsp)
	je	.LBB75_2
	movq	%rbp, (%rsp)
	movzbl	46(%rsp), %esi
	leaq	80(%rsp), %rdi
	leaq	160(%rsp), %rdx
	leaq	2784(%rsp), %r8
	movl	$1, %ecx
	movq	%r14, %r9
	callq	"ecc200_calls::restoring::restore_surely::<=144,=2178>"
	jmp	.LBB75_4
.LBB75_5:
	movw	$0, 56(%rsp)
	movq	$0, 48(%rsp)
	cmpb	$0, 47(%rsp)
	je	.LBB75_6
	movq	%rbp, (%rsp)
	movzbl	46(%rsp), %esi
	leaq	48(%rsp), %rdi
	leaq	160(%rsp), %rdx
	xorl	%ecx, %ecx
	xorl	%r8d, %r8d
	movq	%r14, %r9
	callq	"ecc200_calls::restoring::restore_surely::<=144,=2178>"
	movzbl	48(%rsp), %eax
	movzbl	50(%rsp), %ecx
	movzbl	51(%rsp), %edx
	movss	52(%rsp), %xmm0
	movzwl	56(%rsp), %esi
	jmp	.LBB75_8
.LBB75_2:
	movq	%rbp, 8(%rsp)
	movq	%r14, (%rsp)
	movzbl	46(%rsp), %esi
	leaq	80(%rsp), %rdi
	leaq	160(%rsp), %rdx
	leaq	2784(%rsp), %r8
	movl	$1, %ecx
	movl	76(%rsp), %r9d
	callq	"ecc200_calls::restoring::restore_within::<=144,=2178>"
.LBB75_4:
	movzbl	80(%rsp), %eax
	movzbl	82(%rsp), %ecx
	movzbl	83(%rsp), %edx
	movss	84(%rsp), %xmm0
	movzwl	88(%rsp), %esi
	jmp	.LBB75_8
.LBB75_6:
	leaq	8(%rbp), %rax
	leaq	48(%rbp), %rcx
	movw	$0, 72(%rsp)
	movq	$0, 64(%rsp)
	movzwl	174(%rsp), %edx
	movl	176(%rsp), %esi
	movq	160(%rsp), %rdi
	movq	166(%rsp), %r8
	movq	%r8, 6(%r14)
	movq	%rdi, (%r14)
	movw	%dx, 14(%r14)
	movl	%esi, 16(%r14)
	addq	$20, %r14
	movl	176(%rsp), %edx
	movl	%edx, 96(%rsp)
	movaps	160(%rsp), %xmm0
	movaps	%xmm0, 80(%rsp)
	leaq	192(%rsp), %rdx
	movl	$0, 100(%rsp)
	movq	%rdx, 104(%rsp)
	movq	$144, 112(%rsp)
	leaq	2496(%rsp), %rdx
	movq	%rdx, 120(%rsp)
	movq	$144, 128(%rsp)
	movq	%rcx, 24(%rsp)
	movq	%rax, 16(%rsp)
	movq	%rbp, 8(%rsp)
	movq	%r14, (%rsp)
	movzbl	46(%rsp), %r8d
	leaq	64(%rsp), %rdi
	leaq	80(%rsp), %rsi
	xorl	%edx, %edx
	xorl	%ecx, %ecx
	movl	76(%rsp), %r9d
	callq	"dm_symbol::symbol::reading::restore"
	movzbl	64(%rsp), %eax
	movzbl	66(%rsp), %ecx
	movzbl	67(%rsp), %edx
	movss	68(%rsp), %xmm0
	movzwl	72(%rsp), %esi
.LBB75_8:
	movb	%al, (%rbx)
	movb	%cl, 2(%rbx)
	movb	%dl, 3(%rbx)
	movss	%xmm0, 4(%rbx)
	movw	%si, 8(%rbx)
	addq	$5416, %rsp
	.cfi_def_cfa_offset 56
	popq	%rbx
	.cfi_def_cfa_offset 48
	popq	%r12
	.cfi_def_cfa_offset 40
	popq	%r13
	.cfi_def_cfa_offset 32
	popq	%r14
	.cfi_def_cfa_offset 24
	popq	%r15
	.cfi_def_cfa_offset 16
	popq	%rbp
	.cfi_def_cfa_offset 8
	retq
.Lfunc_end75:
	.size	"ecc200_calls::restoring::restore_given::<=144,=2178>", .Lfunc_end75-"ecc200_calls::restoring::restore_given::<=144,=2178>"
	.cfi_endproc

	.p2align	4
	.type	"ecc200_calls::restoring::restore_within::<=144,=2178>",@function
"ecc200_calls::restoring::restore_within::<=144,=2178>":
	.cfi_startproc
	pushq	%rbp
	.cfi_def_cfa_offset 16
	pushq	%r15
	.cfi_def_cfa_offset 24
	pushq	%r14
	.cfi_def_cfa_offset 32
	pushq	%r13
	.cfi_def_cfa_offset 40
	pushq	%r12
	.cfi_def_cfa_offset 48
	pushq	%rbx
	.cfi_def_cfa_offset 56
	subq	$200, %rsp
	.cfi_def_cfa_offset 256
	.cfi_offset %rbx, -56
	.cfi_offset %r12, -48
	.cfi_offset %r13, -40
	.cfi_offset %r14, -32
	.cfi_offset %r15, -24
	.cfi_offset %rbp, -16
	movl	%r9d, %r12d
	movl	%esi, %ebp
	movq	%rdi, %rbx
	movq	264(%rsp), %r13
	movq	256(%rsp), %r14
	leaq	8(%r13), %r15
	movw	$0, 40(%rsp)
	movq	$0, 32(%rsp)
	movl	16(%rdx), %eax
	movq	(%rdx), %rsi
	movq	8(%rdx), %rdi
	movq	%rdi, 8(%r14)
	movq	%rsi, (%r14)
	movl	%eax, 16(%r14)
	addq	$20, %r14
	movl	16(%rdx), %eax
	movl	%eax, 128(%rsp)
	movups	(%rdx), %xmm0
	movaps	%xmm0, 112(%rsp)
	leaq	32(%rdx), %rax
	addq	$2336, %rdx
	movl	$0, 132(%rsp)
	movaps	%xmm0, 48(%rsp)
	movq	128(%rsp), %rsi
	movq	%rsi, 64(%rsp)
	movq	%rax, 72(%rsp)
	movq	$144, 80(%rsp)
	movq	%rdx, 88(%rsp)
	movq	$144, 96(%rsp)
	testb	%cl, %cl
	je	.LBB76_1
	movl	16(%r8), %eax
	movl	%eax, 160(%rsp)
	movdqu	(%r8), %xmm0
	movdqa	%xmm0, 144(%rsp)
	leaq	32(%r8), %rax
	addq	$2336, %r8
	movl	$0, 164(%rsp)
	movq	%rax, 168(%rsp)
	movq	$144, 176(%rsp)
	movq	%r8, 184(%rsp)
	movq	$144, 192(%rsp)
	leaq	48(%rsp), %rdi
	leaq	144(%rsp), %rdx
	movl	$1, %esi
	callq	"dm_layout::symbols::border::border_faults"
	cmpw	%ax, %r12w
	jae	.LBB76_4
	xorl	%r15d, %r15d
	movzwl	%ax, %eax
	movd	%eax, %xmm0
	movb	$1, %al
	xorl	%edx, %edx
	xorl	%r12d, %r12d
	jmp	.LBB76_12
.LBB76_1:
	leaq	48(%r13), %rax
	movq	%rax, 24(%rsp)
	movq	%r15, 16(%rsp)
	movq	%r13, 8(%rsp)
	movq	%r14, (%rsp)
	movzbl	%bpl, %r8d
	leaq	32(%rsp), %rdi
	leaq	48(%rsp), %rsi
	xorl	%edx, %edx
	xorl	%ecx, %ecx
	movl	%r12d, %r9d
	callq	"dm_symbol::symbol::reading::restore"
	movzbl	32(%rsp), %eax
	movzbl	34(%rsp), %r12d
	movzbl	35(%rsp), %edx
	movd	36(%rsp), %xmm0
	movzwl	40(%rsp), %r15d
	jmp	.LBB76_12
.LBB76_4:
	movw	%ax, 48(%r13)
	movzwl	62(%rsp), %eax
	addw	60(%rsp), %ax
	movzwl	%ax, %r12d
	leaq	48(%rsp), %rdi
	movq	%r14, %rsi
	callq	"dm_layout::symbols::placing::lift_to"
	movb	$0, (%r13)
	leaq	112(%rsp), %rdi
	movq	%r15, %r9
	xorl	%r15d, %r15d
	leaq	144(%rsp), %r8
	movq	%r14, %rsi
	movq	%r12, %rdx
	xorl	%ecx, %ecx
	callq	"dm_symbol::symbol::reading::restore_doubtful"
	pxor	%xmm0, %xmm0
	cmpb	$1, %al
	jne	.LBB76_5
	movq	%r12, %r8
	movb	$1, %r12b
	testb	%bpl, %bpl
	je	.LBB76_7
	movl	%edx, %ebp
	leaq	48(%rsp), %rdi
	leaq	144(%rsp), %rdx
	movl	$1, %esi
	movq	%r14, %rcx
	leaq	8(%r13), %r9
	callq	"dm_symbol::symbol::dealing::restore_restarted"
	testb	%al, %al
	je	.LBB76_9
	movb	$1, (%r13)
	xorl	%r15d, %r15d
	xorl	%edx, %edx
	xorl	%r12d, %r12d
	xorl	%eax, %eax
	jmp	.LBB76_11
.LBB76_5:
	xorl	%edx, %edx
	xorl	%r12d, %r12d
	xorl	%eax, %eax
	jmp	.LBB76_12
.LBB76_7:
	xorl	%r15d, %r15d
	movb	$1, %al
	jmp	.LBB76_12
.LBB76_9:
	xorl	%r15d, %r15d
	movb	$1, %al
	movl	%ebp, %edx
.LBB76_11:
	pxor	%xmm0, %xmm0
.LBB76_12:
	movb	%al, (%rbx)
	movb	%r12b, 2(%rbx)
	movb	%dl, 3(%rbx)
	movd	%xmm0, 4(%rbx)
	movw	%r15w, 8(%rbx)
	addq	$200, %rsp
	.cfi_def_cfa_offset 56
	popq	%rbx
	.cfi_def_cfa_offset 48
	popq	%r12
	.cfi_def_cfa_offset 40
	popq	%r13
	.cfi_def_cfa_offset 32
	popq	%r14
	.cfi_def_cfa_offset 24
	popq	%r15
	.cfi_def_cfa_offset 16
	popq	%rbp
	.cfi_def_cfa_offset 8
	retq
.Lfunc_end76:
	.size	"ecc200_calls::restoring::restore_within::<=144,=2178>", .Lfunc_end76-"ecc200_calls::restoring::restore_within::<=144,=2178>"
	.cfi_endproc

	.p2align	4
	.type	"ecc200_calls::restoring::restore_surely::<=144,=2178>",@function
"ecc200_calls::restoring::restore_surely::<=144,=2178>":
	.cfi_startproc
	pushq	%rbp
	.cfi_def_cfa_offset 16
	pushq	%r15
	.cfi_def_cfa_offset 24
	pushq	%r14
	.cfi_def_cfa_offset 32
	pushq	%r13
	.cfi_def_cfa_offset 40
	pushq	%r12
	.cfi_def_cfa_offset 48
	pushq	%rbx
	.cfi_def_cfa_offset 56
	subq	$56, %rsp
	.cfi_def_cfa_offset 112
	.cfi_offset %rbx, -56
	.cfi_offset %r12, -48
	.cfi_offset %r13, -40
	.cfi_offset %r14, -32
	.cfi_offset %r15, -24
	.cfi_offset %rbp, -16
	movq	%r9, %r13
	movl	%ecx, %r12d
	movq	%rdx, %r15
	movl	%esi, %ebp
	movq	%rdi, %rbx
	movq	112(%rsp), %r14
	movw	$0, 24(%rsp)
	movq	$0, 16(%rsp)
	movzwl	(%rdx), %eax
	movzwl	2(%rdx), %r9d
	addl	%eax, %r9d
	shrl	$3, %r9d
	movq	%r14, 8(%rsp)
	movq	%r13, (%rsp)
	leaq	16(%rsp), %rdi
	movq	%r8, 48(%rsp)
	callq	"ecc200_calls::restoring::restore_within::<=144,=2178>"
	xorps	%xmm0, %xmm0
	cmpb	$0, 16(%rsp)
	je	.LBB77_4
	movzbl	18(%rsp), %eax
	cmpl	$2, %eax
	je	.LBB77_5
	cmpl	$1, %eax
	jne	.LBB77_6
	movb	$1, %al
	movzbl	19(%rsp), %edx
	xorl	%ebp, %ebp
	movb	$1, %cl
	jmp	.LBB77_15
.LBB77_4:
	xorl	%eax, %eax
	xorl	%ecx, %ecx
	xorl	%edx, %edx
	xorl	%ebp, %ebp
	jmp	.LBB77_15
.LBB77_5:
	movzbl	20(%rsp), %ebp
	movb	$2, %cl
	movb	$1, %al
	movss	22(%rsp), %xmm0
	jmp	.LBB77_14
.LBB77_6:
	movzwl	20(%rsp), %eax
	movw	$0, 40(%rsp)
	movq	$0, 32(%rsp)
	movq	%r14, 8(%rsp)
	movq	%r13, (%rsp)
	movzbl	%bpl, %esi
	movl	%eax, %ebp
	movzbl	%r12b, %ecx
	leaq	32(%rsp), %rdi
	movq	%r15, %rdx
	movq	48(%rsp), %r8
	movl	%eax, %r9d
	callq	"ecc200_calls::restoring::restore_within::<=144,=2178>"
	movb	$1, %al
	cmpb	$0, 32(%rsp)
	je	.LBB77_8
	xorps	%xmm0, %xmm0
	jmp	.LBB77_13
.LBB77_8:
	movq	40(%r14), %rax
	addq	$10, %r14
	incq	%rax
	xorps	%xmm0, %xmm0
	.p2align	4
.LBB77_9:
	decq	%rax
	je	.LBB77_11
	cmpb	$1, (%r14)
	leaq	3(%r14), %r14
	ja	.LBB77_9
	jmp	.LBB77_12
.LBB77_11:
	xorl	%ebp, %ebp
.LBB77_12:
	testq	%rax, %rax
	setne	%al
.LBB77_13:
	xorl	%ecx, %ecx
.LBB77_14:
	xorl	%edx, %edx
.LBB77_15:
	movb	%al, (%rbx)
	movb	%cl, 2(%rbx)
	movb	%dl, 3(%rbx)
	movw	%bp, 4(%rbx)
	movss	%xmm0, 6(%rbx)
	addq	$56, %rsp
	.cfi_def_cfa_offset 56
	popq	%rbx
	.cfi_def_cfa_offset 48
	popq	%r12
	.cfi_def_cfa_offset 40
	popq	%r13
	.cfi_def_cfa_offset 32
	popq	%r14
	.cfi_def_cfa_offset 24
	popq	%r15
	.cfi_def_cfa_offset 16
	popq	%rbp
	.cfi_def_cfa_offset 8
	retq
.Lfunc_end77:
	.size	"ecc200_calls::restoring::restore_surely::<=144,=2178>", .Lfunc_end77-"ecc200_calls::restoring::restore_surely::<=144,=2178>"
	.cfi_endproc

	.p2align	4
	.type	"ecc200_calls::answer::answer_words::<#c41e22b9ba7768f4>",@function
"ecc200_calls::answer::answer_words::<#c41e22b9ba7768f4>":
	.cfi_startproc
	pushq	%rbp
	.cfi_def_cfa_offset 16
	pushq	%r15
	.cfi_def_cfa_offset 24
	pushq	%r14
	.cfi_def_cfa_offset 32
	pushq	%r13
	.cfi_def_cfa_offset 40
	pushq	%r12
	.cfi_def_cfa_offset 48
	pushq	%rbx
	.cfi_def_cfa_offset 56
	subq	$3072, %rsp
	.cfi_adjust_cfa_offset 3072
	movq	$0, (%rsp)
	subq	$3072, %rsp
	.cfi_adjust_cfa_offset 3072
	movq	$0, (%rsp)
	subq	$424, %rsp
	.cfi_def_cfa_offset 6624
	.cfi_offset %rbx, -56
	.cfi_offset %r12, -48
	.cfi_offset %r13, -40
	.cfi_offset %r14, -32
	.cfi_offset %r15, -24
	.cfi_offset %rbp, -16
	movq	%rcx, %rbx
	movq	%rdx, %r13
	movl	%esi, %ebp
	movq	%rdi, %r14
	movzwl	12(%rdx), %r15d
	addq	$20, %r13
	leaq	48(%rsp), %rdi
	movl	$6512, %edx
	xorl	%esi, %esi
	callq	memset@PLT
	xorps	%xmm0, %xmm0
	movaps	%xmm0, 32(%rsp)
	movaps	%xmm0, 16(%rsp)
	leaq	54(%rsp), %r12
	leaq	6312(%rsp), %rax
	leaq	16(%rsp), %rdi
	movl	%ebp, %esi
	movq	%r13, %rdx
	movq	%r15, %rcx
	movq	%rax, %r15
	movq	%r12, %r8
	movq	%rax, %r9
	callq	"dm_words::contents::reading::read_content"
	cmpb	$0, 16(%rsp)
	je	.LBB78_4
	movzbl	18(%rsp), %eax
	movzwl	20(%rsp), %esi
	cmpl	$2, %eax
	je	.LBB78_5
	cmpl	$1, %eax
	jne	.LBB78_6
	xorl	%eax, %eax
	movw	$20, %cx
	jmp	.LBB78_16
.LBB78_4:
	movq	24(%rsp), %rax
	movq	32(%rsp), %rdx
	movq	40(%rsp), %r8
	movl	%eax, %ecx
	movl	%eax, %esi
	shrl	$8, %esi
	shrq	$16, %rax
	movb	%cl, 48(%rsp)
	movb	%sil, 49(%rsp)
	movl	%eax, 50(%rsp)
	movq	%rdx, 6304(%rsp)
	movq	%r8, 6560(%rsp)
	movzbl	(%r14), %r9d
	movb	%cl, 16(%rsp)
	movb	%sil, 17(%rsp)
	movl	%eax, 18(%rsp)
	shll	$8, %r9d
	movq	%rbx, (%rsp)
	leaq	16(%rsp), %rdi
	movq	%r12, %rsi
	movq	%r15, %rcx
	callq	"ecc200_calls::writing::write_content"
	jmp	.LBB78_17
.LBB78_5:
	movw	$21, %cx
	xorl	%eax, %eax
	jmp	.LBB78_16
.LBB78_6:
	movzwl	22(%rsp), %edx
	movzwl	%si, %eax
	movzbl	%al, %ecx
	leaq	.LJTI78_0(%rip), %rsi
	movslq	(%rsi,%rcx,4), %rcx
	addq	%rsi, %rcx
	jmpq	*%rcx
.LBB78_7:
	movw	$7, %cx
	jmp	.LBB78_14
.LBB78_8:
	movw	$11, %cx
	jmp	.LBB78_14
.LBB78_9:
	movw	$9, %cx
	jmp	.LBB78_14
.LBB78_10:
	movw	$10, %cx
	jmp	.LBB78_14
.LBB78_11:
	shrl	$8, %eax
	movw	$8, %cx
	jmp	.LBB78_15
.LBB78_12:
	movw	$12, %cx
	jmp	.LBB78_14
.LBB78_13:
	movw	$13, %cx
.LBB78_14:
	xorl	%eax, %eax
.LBB78_15:
	movl	%edx, %esi
.LBB78_16:
	movw	%cx, (%rbx)
	movw	%ax, 2(%rbx)
	movw	%si, 4(%rbx)
	movl	$0, 6(%rbx)
.LBB78_17:
	addq	$6568, %rsp
	.cfi_def_cfa_offset 56
	popq	%rbx
	.cfi_def_cfa_offset 48
	popq	%r12
	.cfi_def_cfa_offset 40
	popq	%r13
	.cfi_def_cfa_offset 32
	popq	%r14
	.cfi_def_cfa_offset 24
	popq	%r15
	.cfi_def_cfa_offset 16
	popq	%rbp
	.cfi_def_cfa_offset 8
	retq
.Lfunc_end78:
	.size	"ecc200_calls::answer::answer_words::<#c41e22b9ba7768f4>", .Lfunc_end78-"ecc200_calls::answer::answer_words::<#c41e22b9ba7768f4>"
	.cfi_endproc
	.section	.rodata,"a",@progbits
	.p2align	2, 0x0
.LJTI78_0:
	.long	.LBB78_7-.LJTI78_0
	.long	.LBB78_11-.LJTI78_0
	.long	.LBB78_9-.LJTI78_0
	.long	.LBB78_10-.LJTI78_0
	.long	.LBB78_8-.LJTI78_0
	.long	.LBB78_12-.LJTI78_0
	.long	.LBB78_13-.LJTI78_0

	.text
	.p2align	4
	.type	"ecc200_calls::answer::answer_words::<#bcaba02e1eec002d>",@function
"ecc200_calls::answer::answer_words::<#bcaba02e1eec002d>":
	.cfi_startproc
	pushq	%rbp
	.cfi_def_cfa_offset 16
	pushq	%r15
	.cfi_def_cfa_offset 24
	pushq	%r14
	.cfi_def_cfa_offset 32
	pushq	%r13
	.cfi_def_cfa_offset 40
	pushq	%r12
	.cfi_def_cfa_offset 48
	pushq	%rbx
	.cfi_def_cfa_offset 56
	subq	$3072, %rsp
	.cfi_adjust_cfa_offset 3072
	movq	$0, (%rsp)
	subq	$3072, %rsp
	.cfi_adjust_cfa_offset 3072
	movq	$0, (%rsp)
	subq	$3072, %rsp
	.cfi_adjust_cfa_offset 3072
	movq	$0, (%rsp)
	subq	$3072, %rsp
	.cfi_adjust_cfa_offset 3072
	movq	$0, (%rsp)
	subq	$264, %rsp
	.cfi_def_cfa_offset 12608
	.cfi_offset %rbx, -56
	.cfi_offset %r12, -48
	.cfi_offset %r13, -40
	.cfi_offset %r14, -32
	.cfi_offset %r15, -24
	.cfi_offset %rbp, -16
	movq	%rcx, %rbx
	movq	%rdx, %r13
	movl	%esi, %ebp
	movq	%rdi, %r14
	movzwl	12(%rdx), %r15d
	addq	$20, %r13
	leaq	48(%rsp), %rdi
	movl	$12496, %edx
	xorl	%esi, %esi
	callq	memset@PLT
	xorps	%xmm0, %xmm0
	movaps	%xmm0, 32(%rsp)
	movaps	%xmm0, 16(%rsp)
	leaq	54(%rsp), %r12
	leaq	6312(%rsp), %rax
	leaq	16(%rsp), %rdi
	movl	%ebp, %esi
	movq	%r13, %rdx
	movq	%r15, %rcx
	movq	%rax, %r15
	movq	%r12, %r8
	movq	%rax, %r9
	callq	"dm_words::contents::reading::read_content"
	cmpb	$0, 16(%rsp)
	je	.LBB79_4
	movzbl	18(%rsp), %eax
	movzwl	20(%rsp), %esi
	cmpl	$2, %eax
	je	.LBB79_5
	cmpl	$1, %eax
	jne	.LBB79_6
	xorl	%eax, %eax
	movw	$20, %cx
	jmp	.LBB79_16
.LBB79_4:
	movq	24(%rsp), %rax
	movq	32(%rsp), %rdx
	movq	40(%rsp), %r8
	movl	%eax, %ecx
	movl	%eax, %esi
	shrl	$8, %esi
	shrq	$16, %rax
	movb	%cl, 48(%rsp)
	movb	%sil, 49(%rsp)
	movl	%eax, 50(%rsp)
	movq	%rdx, 6304(%rsp)
	movq	%r8, 12544(%rsp)
	movzbl	(%r14), %r9d
	movb	%cl, 16(%rsp)
	movb	%sil, 17(%rsp)
	movl	%eax, 18(%rsp)
	shll	$8, %r9d
	movq	%rbx, (%rsp)
	leaq	16(%rsp), %rdi
	movq	%r12, %rsi
	movq	%r15, %rcx
	callq	"ecc200_calls::writing::write_content"
	jmp	.LBB79_17
.LBB79_5:
	movw	$21, %cx
	xorl	%eax, %eax
	jmp	.LBB79_16
.LBB79_6:
	movzwl	22(%rsp), %edx
	movzwl	%si, %eax
	movzbl	%al, %ecx
	leaq	.LJTI79_0(%rip), %rsi
	movslq	(%rsi,%rcx,4), %rcx
	addq	%rsi, %rcx
	jmpq	*%rcx
.LBB79_7:
	movw	$7, %cx
	jmp	.LBB79_14
.LBB79_8:
	movw	$11, %cx
	jmp	.LBB79_14
.LBB79_9:
	movw	$9, %cx
	jmp	.LBB79_14
.LBB79_10:
	movw	$10, %cx
	jmp	.LBB79_14
.LBB79_11:
	shrl	$8, %eax
	movw	$8, %cx
	jmp	.LBB79_15
.LBB79_12:
	movw	$12, %cx
	jmp	.LBB79_14
.LBB79_13:
	movw	$13, %cx
.LBB79_14:
	xorl	%eax, %eax
.LBB79_15:
	movl	%edx, %esi
.LBB79_16:
	movw	%cx, (%rbx)
	movw	%ax, 2(%rbx)
	movw	%si, 4(%rbx)
	movl	$0, 6(%rbx)
.LBB79_17:
	addq	$12552, %rsp
	.cfi_def_cfa_offset 56
	popq	%rbx
	.cfi_def_cfa_offset 48
	popq	%r12
	.cfi_def_cfa_offset 40
	popq	%r13
	.cfi_def_cfa_offset 32
	popq	%r14
	.cfi_def_cfa_offset 24
	popq	%r15
	.cfi_def_cfa_offset 16
	popq	%rbp
	.cfi_def_cfa_offset 8
	retq
.Lfunc_end79:
	.size	"ecc200_calls::answer::answer_words::<#bcaba02e1eec002d>", .Lfunc_end79-"ecc200_calls::answer::answer_words::<#bcaba02e1eec002d>"
	.cfi_endproc
	.section	.rodata,"a",@progbits
	.p2align	2, 0x0
.LJTI79_0:
	.long	.LBB79_7-.LJTI79_0
	.long	.LBB79_11-.LJTI79_0
	.long	.LBB79_9-.LJTI79_0
	.long	.LBB79_10-.LJTI79_0
	.long	.LBB79_8-.LJTI79_0
	.long	.LBB79_12-.LJTI79_0
	.long	.LBB79_13-.LJTI79_0

	.text
	.p2align	4
	.type	"ecc200_calls::answer::answer_given::<#7b928245427000c4>",@function
"ecc200_calls::answer::answer_given::<#7b928245427000c4>":
	.cfi_startproc
	pushq	%rbx
	.cfi_def_cfa_offset 16
	subq	$272, %rsp
	.cfi_def_cfa_offset 288
	.cfi_offset %rbx, -16
	movq	%r8, %rax
	movq	%rcx, %r8
	movq	%rdx, %rcx
	movq	%rsi, %rdx
	movq	288(%rsp), %rbx
	movzwl	8(%rdi), %esi
	movw	%si, 56(%rsp)
	movq	(%rdi), %rsi
	movq	%rsi, 48(%rsp)
	movups	(%r9), %xmm0
	movaps	%xmm0, 64(%rsp)
	movq	14(%r9), %rsi
	movq	%rsi, 78(%rsp)
	movq	$0, 32(%rsp)
	movw	$0, 40(%rsp)
	xorps	%xmm0, %xmm0
	movups	%xmm0, 174(%rsp)
	movups	%xmm0, 190(%rsp)
	movups	%xmm0, 206(%rsp)
	movups	%xmm0, 222(%rsp)
	movups	%xmm0, 238(%rsp)
	movups	%xmm0, 254(%rsp)
	movw	$0, 270(%rsp)
	movups	%xmm0, 97(%rsp)
	movups	%xmm0, 113(%rsp)
	movups	%xmm0, 128(%rsp)
	movb	$0, 96(%rsp)
	movq	$0, 144(%rsp)
	leaq	96(%rsp), %rsi
	movq	%rsi, 16(%rsp)
	leaq	154(%rsp), %rsi
	movq	%rsi, 8(%rsp)
	leaq	64(%rsp), %rsi
	movq	%rsi, (%rsp)
	leaq	32(%rsp), %rdi
	leaq	48(%rsp), %rsi
	movq	%rax, %r9
	callq	"ecc200_calls::restoring::restore_given::<=32,=98>"
	cmpb	$0, 32(%rsp)
	je	.LBB80_1
	movzbl	34(%rsp), %ecx
	movzwl	36(%rsp), %eax
	testl	%ecx, %ecx
	je	.LBB80_3
	cmpl	$2, %ecx
	jne	.LBB80_5
	movzwl	38(%rsp), %edx
	cmpb	$2, %al
	je	.LBB80_18
	movzbl	%al, %eax
	cmpl	$1, %eax
	jne	.LBB80_9
	movw	$20, %cx
	jmp	.LBB80_19
.LBB80_1:
	movl	52(%rsp), %edi
	leaq	154(%rsp), %rsi
	leaq	96(%rsp), %rdx
	movq	%rbx, %rcx
	callq	"ecc200_calls::answer::answer_words::<#8a72db146def817a>"
	jmp	.LBB80_21
.LBB80_3:
	xorl	%edx, %edx
	movw	$5, %cx
	jmp	.LBB80_20
.LBB80_5:
	movzbl	35(%rsp), %edx
	movw	$6, %cx
	jmp	.LBB80_19
.LBB80_18:
	movw	$21, %cx
.LBB80_19:
	xorl	%eax, %eax
.LBB80_20:
	movw	%cx, (%rbx)
	movw	%ax, 2(%rbx)
	movw	%dx, 4(%rbx)
	xorps	%xmm0, %xmm0
	movups	%xmm0, 6(%rbx)
	movq	$0, 22(%rbx)
.LBB80_21:
	addq	$272, %rsp
	.cfi_def_cfa_offset 16
	popq	%rbx
	.cfi_def_cfa_offset 8
	retq
.LBB80_9:
	.cfi_def_cfa_offset 288
	movzwl	40(%rsp), %esi
	movzwl	%dx, %eax
	movzbl	%al, %ecx
	leaq	.LJTI80_0(%rip), %rdx
	movslq	(%rdx,%rcx,4), %rcx
	addq	%rdx, %rcx
	jmpq	*%rcx
.LBB80_10:
	movw	$7, %cx
	jmp	.LBB80_11
.LBB80_15:
	movw	$11, %cx
	jmp	.LBB80_11
.LBB80_13:
	movw	$9, %cx
	jmp	.LBB80_11
.LBB80_14:
	movw	$10, %cx
	jmp	.LBB80_11
.LBB80_12:
	shrl	$8, %eax
	movw	$8, %cx
	movl	%esi, %edx
	jmp	.LBB80_20
.LBB80_16:
	movw	$12, %cx
	jmp	.LBB80_11
.LBB80_17:
	movw	$13, %cx
.LBB80_11:
	xorl	%eax, %eax
	movl	%esi, %edx
	jmp	.LBB80_20
.Lfunc_end80:
	.size	"ecc200_calls::answer::answer_given::<#7b928245427000c4>", .Lfunc_end80-"ecc200_calls::answer::answer_given::<#7b928245427000c4>"
	.cfi_endproc
	.section	.rodata,"a",@progbits
	.p2align	2, 0x0
.LJTI80_0:
	.long	.LBB80_10-.LJTI80_0
	.long	.LBB80_12-.LJTI80_0
	.long	.LBB80_13-.LJTI80_0
	.long	.LBB80_14-.LJTI80_0
	.long	.LBB80_15-.LJTI80_0
	.long	.LBB80_16-.LJTI80_0
	.long	.LBB80_17-.LJTI80_0

	.text
	.p2align	4
	.type	"ecc200_calls::answer::answer_words::<#8a72db146def817a>",@function
"ecc200_calls::answer::answer_words::<#8a72db146def817a>":
	.cfi_startproc
	pushq	%rbp
	.cfi_def_cfa_offset 16
	pushq	%r15
	.cfi_def_cfa_offset 24
	pushq	%r14
	.cfi_def_cfa_offset 32
	pushq	%r13
	.cfi_def_cfa_offset 40
	pushq	%r12
	.cfi_def_cfa_offset 48
	pushq	%rbx
	.cfi_def_cfa_offset 56
	subq	$664, %rsp
	.cfi_def_cfa_offset 720
	.cfi_offset %rbx, -56
	.cfi_offset %r12, -48
	.cfi_offset %r13, -40
	.cfi_offset %r14, -32
	.cfi_offset %r15, -24
	.cfi_offset %rbp, -16
	movq	%rcx, 8(%rsp)
	movq	%rdx, %r13
	movq	%rsi, %r15
	movl	%edi, %r12d
	xorps	%xmm0, %xmm0
	movaps	%xmm0, 112(%rsp)
	movaps	%xmm0, 96(%rsp)
	movaps	%xmm0, 80(%rsp)
	movaps	%xmm0, 64(%rsp)
	movaps	%xmm0, 48(%rsp)
	leaq	20(%rsi), %rbx
	movzwl	12(%rsi), %ebp
	leaq	128(%rsp), %rdi
	movl	$528, %edx
	xorl	%esi, %esi
	callq	memset@PLT
	xorps	%xmm0, %xmm0
	movaps	%xmm0, 32(%rsp)
	movaps	%xmm0, 16(%rsp)
	leaq	134(%rsp), %r14
	leaq	408(%rsp), %rax
	leaq	16(%rsp), %rdi
	movl	%r12d, %esi
	movq	%rax, %r12
	movq	%rbx, %rdx
	movq	%rbp, %rcx
	movq	%r14, %r8
	movq	%rax, %r9
	callq	"dm_words::contents::reading::read_content"
	cmpb	$0, 16(%rsp)
	je	.LBB81_4
	movzbl	18(%rsp), %eax
	movzwl	20(%rsp), %esi
	cmpl	$2, %eax
	je	.LBB81_7
	cmpl	$1, %eax
	jne	.LBB81_8
	xorl	%eax, %eax
	movw	$20, %cx
	jmp	.LBB81_23
.LBB81_4:
	movq	24(%rsp), %rdx
	movq	32(%rsp), %rcx
	movq	40(%rsp), %rax
	movl	%edx, %edi
	shrl	$8, %edi
	movq	%rdx, %rsi
	shrq	$16, %rsi
	movb	%dl, 128(%rsp)
	movb	%dil, 129(%rsp)
	movl	%esi, 130(%rsp)
	movq	%rcx, 400(%rsp)
	movq	%rax, 656(%rsp)
	xorl	%r8d, %r8d
	testb	%dil, %dil
	setne	%r8b
	xorl	%r9d, %r9d
	testb	%dl, %dl
	leaq	1(%r8,%r8,2), %rdi
	cmovneq	%rdi, %r9
	movb	$1, %dil
	subq	%r9, %rbp
	je	.LBB81_28
	cmpq	$1, %rbp
	jne	.LBB81_10
	cmpb	$-24, (%rbx,%r9)
	sete	%dil
	incb	%dil
	jmp	.LBB81_28
.LBB81_7:
	movw	$21, %cx
	xorl	%eax, %eax
	jmp	.LBB81_23
.LBB81_8:
	movzwl	22(%rsp), %edx
	movzwl	%si, %eax
	movzbl	%al, %ecx
	leaq	.LJTI81_0(%rip), %rsi
	movslq	(%rsi,%rcx,4), %rcx
	addq	%rsi, %rcx
	jmpq	*%rcx
.LBB81_9:
	movw	$7, %cx
	jmp	.LBB81_21
.LBB81_10:
	movzbl	(%rbx,%r9), %r8d
	movb	$2, %dil
	cmpl	$232, %r8d
	je	.LBB81_28
	cmpb	$-24, 1(%rbx,%r9)
	jne	.LBB81_27
	movb	$3, %dil
	leal	-230(%r8), %r9d
	cmpl	$11, %r9d
	ja	.LBB81_24
	addq	$-2, %rbp
	leaq	.LJTI81_1(%rip), %r10
	movslq	(%r10,%r9,4), %r9
	addq	%r10, %r9
	jmpq	*%r9
.LBB81_14:
	testq	%rbp, %rbp
	jne	.LBB81_27
	jmp	.LBB81_28
.LBB81_15:
	movw	$11, %cx
	jmp	.LBB81_21
.LBB81_16:
	movw	$9, %cx
	jmp	.LBB81_21
.LBB81_17:
	movw	$10, %cx
	jmp	.LBB81_21
.LBB81_18:
	shrl	$8, %eax
	movw	$8, %cx
	jmp	.LBB81_22
.LBB81_19:
	movw	$12, %cx
	jmp	.LBB81_21
.LBB81_20:
	movw	$13, %cx
.LBB81_21:
	xorl	%eax, %eax
.LBB81_22:
	movl	%edx, %esi
.LBB81_23:
	movq	8(%rsp), %rdx
	movw	%cx, (%rdx)
	movw	%ax, 2(%rdx)
	movw	%si, 4(%rdx)
	xorps	%xmm0, %xmm0
	movups	%xmm0, 6(%rdx)
	movq	$0, 22(%rdx)
	jmp	.LBB81_29
.LBB81_24:
	testl	%r8d, %r8d
	je	.LBB81_27
	cmpl	$129, %r8d
	je	.LBB81_27
.LBB81_26:
	cmpb	$-26, %r8b
	jb	.LBB81_28
.LBB81_27:
	movb	$1, %dil
.LBB81_28:
	leal	3(%rdi), %r8d
	testq	%rax, %rax
	movzbl	%dil, %edi
	movzbl	%r8b, %r8d
	cmovel	%edi, %r8d
	movl	16(%r15), %edi
	movl	%edi, 64(%rsp)
	movups	(%r15), %xmm0
	movaps	%xmm0, 48(%rsp)
	movw	%dx, 68(%rsp)
	movl	%esi, 70(%rsp)
	movq	%r14, 80(%rsp)
	movq	%rcx, 88(%rsp)
	movq	%r12, 96(%rsp)
	movq	%rax, 104(%rsp)
	movb	%r8b, 112(%rsp)
	movq	%r13, 120(%rsp)
	leaq	48(%rsp), %rdi
	movq	8(%rsp), %rsi
	callq	"ecc200_calls::reading::ReadingAnswer::show"
.LBB81_29:
	addq	$664, %rsp
	.cfi_def_cfa_offset 56
	popq	%rbx
	.cfi_def_cfa_offset 48
	popq	%r12
	.cfi_def_cfa_offset 40
	popq	%r13
	.cfi_def_cfa_offset 32
	popq	%r14
	.cfi_def_cfa_offset 24
	popq	%r15
	.cfi_def_cfa_offset 16
	popq	%rbp
	.cfi_def_cfa_offset 8
	retq
.LBB81_30:
	.cfi_def_cfa_offset 720
	cmpq	$2, %rbp
	jae	.LBB81_27
	jmp	.LBB81_28
.Lfunc_end81:
	.size	"ecc200_calls::answer::answer_words::<#8a72db146def817a>", .Lfunc_end81-"ecc200_calls::answer::answer_words::<#8a72db146def817a>"
	.cfi_endproc
	.section	.rodata,"a",@progbits
	.p2align	2, 0x0
.LJTI81_0:
	.long	.LBB81_9-.LJTI81_0
	.long	.LBB81_18-.LJTI81_0
	.long	.LBB81_16-.LJTI81_0
	.long	.LBB81_17-.LJTI81_0
	.long	.LBB81_15-.LJTI81_0
	.long	.LBB81_19-.LJTI81_0
	.long	.LBB81_20-.LJTI81_0
.LJTI81_1:
	.long	.LBB81_14-.LJTI81_1
	.long	.LBB81_27-.LJTI81_1
	.long	.LBB81_26-.LJTI81_1
	.long	.LBB81_26-.LJTI81_1
	.long	.LBB81_26-.LJTI81_1
	.long	.LBB81_27-.LJTI81_1
	.long	.LBB81_28-.LJTI81_1
	.long	.LBB81_28-.LJTI81_1
	.long	.LBB81_14-.LJTI81_1
	.long	.LBB81_14-.LJTI81_1
	.long	.LBB81_30-.LJTI81_1
	.long	.LBB81_27-.LJTI81_1

	.section	.rodata.cst16,"aM",@progbits,16
	.p2align	4, 0x0
.LCPI82_0:
	.byte	1
	.byte	1
	.byte	1
	.byte	1
	.byte	1
	.byte	1
	.byte	1
	.byte	1
	.zero	1
	.zero	1
	.zero	1
	.zero	1
	.zero	1
	.zero	1
	.zero	1
	.zero	1
.LCPI82_1:
	.short	256
	.short	256
	.short	256
	.short	256
	.short	256
	.short	256
	.short	256
	.short	256
	.text
	.p2align	4
	.type	"ecc200_calls::reading::ReadingAnswer::show",@function
"ecc200_calls::reading::ReadingAnswer::show":
	.cfi_startproc
	pushq	%rbx
	.cfi_def_cfa_offset 16
	.cfi_offset %rbx, -16
	movq	72(%rdi), %rcx
	movq	40(%rcx), %r8
	movl	$0, (%rsi)
	movw	$0, 4(%rsi)
	movzwl	(%rdi), %eax
	movw	%ax, 6(%rsi)
	movzwl	2(%rdi), %eax
	movw	%ax, 8(%rsi)
	movzwl	48(%rcx), %eax
	movw	%ax, 10(%rsi)
	movw	%r8w, 12(%rsi)
	testq	%r8, %r8
	je	.LBB82_8
	leaq	8(%rcx), %r9
	cmpq	$40, %r8
	jae	.LBB82_15
.LBB82_2:
	xorl	%edx, %edx
.LBB82_3:
	movq	%rdx, %rax
	orq	$1, %rax
	testb	$1, %r8b
	je	.LBB82_5
	leaq	(%rdx,%rdx,2), %r10
	movzbl	(%r9,%r10), %r11d
	movb	%r11b, 30(%rsi,%rdx)
	movzbl	1(%r9,%r10), %r11d
	movb	%r11b, 40(%rsi,%rdx)
	movzbl	2(%r9,%r10), %r9d
	movb	%r9b, 50(%rsi,%rdx)
	movq	%rax, %rdx
.LBB82_5:
	cmpq	%rax, %r8
	je	.LBB82_8
	leaq	(%rdx,%rdx,2), %rax
	addq	%rcx, %rax
	addq	$13, %rax
	.p2align	4
.LBB82_7:
	movzbl	-5(%rax), %r9d
	movb	%r9b, 30(%rsi,%rdx)
	movzbl	-4(%rax), %r9d
	movb	%r9b, 40(%rsi,%rdx)
	movzbl	-3(%rax), %r9d
	movb	%r9b, 50(%rsi,%rdx)
	movzbl	-2(%rax), %r9d
	movb	%r9b, 31(%rsi,%rdx)
	movzbl	-1(%rax), %r9d
	movb	%r9b, 41(%rsi,%rdx)
	movzbl	(%rax), %r9d
	movb	%r9b, 51(%rsi,%rdx)
	addq	$2, %rdx
	addq	$6, %rax
	cmpq	%rdx, %r8
	jne	.LBB82_7
.LBB82_8:
	movzbl	64(%rdi), %eax
	movw	%ax, 18(%rsi)
	xorl	%eax, %eax
	cmpb	$0, (%rcx)
	setne	%al
	movw	%ax, 20(%rsi)
	movq	56(%rdi), %rdx
	cmpb	$0, 20(%rdi)
	je	.LBB82_11
	movl	$2, %r8d
	cmpb	$1, 21(%rdi)
	jne	.LBB82_12
	movl	22(%rdi), %eax
	movl	%eax, %ecx
	movzbl	%al, %r8d
	shrl	$8, %eax
	andl	$-65536, %ecx
	shlq	$32, %rcx
	movzbl	%al, %eax
	shlq	$32, %rax
	shll	$16, %r8d
	orq	%rax, %r8
	orq	%rcx, %r8
	orq	$1, %r8
	jmp	.LBB82_12
.LBB82_11:
	xorl	%r8d, %r8d
.LBB82_12:
	movq	32(%rdi), %rax
	movq	40(%rdi), %rcx
	movq	48(%rdi), %rdi
	movq	%r8, 22(%rsi)
	movw	%dx, 16(%rsi)
	testq	%rdx, %rdx
	je	.LBB82_36
	leaq	60(%rsi), %r8
	cmpq	$33, %rdx
	jb	.LBB82_14
	leaq	-1(%rdx), %r9
	shrq	$61, %r9
	setne	%r9b
	leaq	(%rdi,%rdx,8), %r10
	addq	$-8, %r10
	cmpq	%rdi, %r10
	setb	%r10b
	orb	%r9b, %r10b
	jne	.LBB82_14
	leaq	(%rsi,%rdx,8), %r9
	addq	$60, %r9
	leaq	(%rdi,%rdx,8), %r10
	cmpq	%r10, %r8
	setb	%r10b
	cmpq	%r9, %rdi
	setb	%r9b
	testb	%r9b, %r10b
	je	.LBB82_30
.LBB82_14:
	xorl	%r9d, %r9d
.LBB82_32:
	movl	%edx, %r11d
	subl	%r9d, %r11d
	leaq	1(%r9), %r10
	testb	$1, %r11b
	je	.LBB82_34
	movzwl	(%rdi,%r9,8), %r11d
	movl	4(%rdi,%r9,8), %ebx
	movl	%ebx, (%r8,%r9,8)
	movl	%r11d, 4(%r8,%r9,8)
	movq	%r10, %r9
.LBB82_34:
	cmpq	%r10, %rdx
	je	.LBB82_36
	.p2align	4
.LBB82_35:
	movzwl	(%rdi,%r9,8), %r8d
	movl	4(%rdi,%r9,8), %r10d
	movl	%r10d, 60(%rsi,%r9,8)
	movl	%r8d, 64(%rsi,%r9,8)
	movzwl	8(%rdi,%r9,8), %r8d
	movl	12(%rdi,%r9,8), %r10d
	movl	%r10d, 68(%rsi,%r9,8)
	movl	%r8d, 72(%rsi,%r9,8)
	addq	$2, %r9
	cmpq	%r9, %rdx
	jne	.LBB82_35
.LBB82_36:
	movw	%cx, 14(%rsi)
	testq	%rcx, %rcx
	je	.LBB82_43
	leaq	6292(%rsi), %rdi
	cmpq	$40, %rcx
	jae	.LBB82_44
.LBB82_38:
	xorl	%edx, %edx
.LBB82_39:
	movq	%rdx, %r8
	orq	$1, %r8
	testb	$1, %cl
	je	.LBB82_41
	cmpb	$1, (%rax,%rdx,2)
	movzbl	1(%rax,%rdx,2), %r9d
	movl	$256, %r10d
	cmovel	%r9d, %r10d
	movw	%r10w, (%rdi,%rdx,2)
	movq	%r8, %rdx
.LBB82_41:
	cmpq	%r8, %rcx
	je	.LBB82_43
	.p2align	4
.LBB82_42:
	cmpb	$1, (%rax,%rdx,2)
	movzbl	1(%rax,%rdx,2), %edi
	movl	$256, %r8d
	cmovnel	%r8d, %edi
	movw	%di, 6292(%rsi,%rdx,2)
	cmpb	$1, 2(%rax,%rdx,2)
	movzbl	3(%rax,%rdx,2), %edi
	cmovnel	%r8d, %edi
	movw	%di, 6294(%rsi,%rdx,2)
	addq	$2, %rdx
	cmpq	%rdx, %rcx
	jne	.LBB82_42
.LBB82_43:
	popq	%rbx
	.cfi_def_cfa_offset 8
	retq
.LBB82_15:
	.cfi_def_cfa_offset 16
	leaq	-1(%r8), %rax
	movl	$3, %edx
	mulq	%rdx
	seto	%r10b
	leaq	(%r9,%rax), %r11
	xorl	%edx, %edx
	cmpq	%r9, %r11
	jb	.LBB82_3
	testb	%r10b, %r10b
	jne	.LBB82_3
	leaq	9(%rcx), %r11
	leaq	(%rcx,%rax), %rbx
	addq	$9, %rbx
	cmpq	%r11, %rbx
	jb	.LBB82_3
	testb	%r10b, %r10b
	jne	.LBB82_3
	leaq	10(%rcx), %r11
	addq	%rcx, %rax
	addq	$10, %rax
	cmpq	%r11, %rax
	jb	.LBB82_3
	testb	%r10b, %r10b
	jne	.LBB82_3
	leaq	30(%rsi), %rax
	leaq	(%rsi,%r8), %rdx
	addq	$50, %rdx
	leaq	(%r8,%r8,2), %r10
	addq	%rcx, %r10
	addq	$8, %r10
	cmpq	%r10, %rax
	setb	%r10b
	cmpq	%rdx, %r9
	setb	%dl
	testb	%dl, %r10b
	jne	.LBB82_2
	movq	%r8, %rdx
	andq	$-8, %rdx
	leaq	31(%rcx), %r10
	xorl	%r11d, %r11d
	.p2align	4
.LBB82_28:
	movzbl	-23(%r10), %ebx
	movd	%ebx, %xmm0
	pinsrb	$1, -20(%r10), %xmm0
	pinsrb	$2, -17(%r10), %xmm0
	pinsrb	$3, -14(%r10), %xmm0
	pinsrb	$4, -11(%r10), %xmm0
	pinsrb	$5, -8(%r10), %xmm0
	pinsrb	$6, -5(%r10), %xmm0
	pinsrb	$7, -2(%r10), %xmm0
	movq	%xmm0, (%rax,%r11)
	movzbl	-22(%r10), %ebx
	movd	%ebx, %xmm0
	pinsrb	$1, -19(%r10), %xmm0
	pinsrb	$2, -16(%r10), %xmm0
	pinsrb	$3, -13(%r10), %xmm0
	pinsrb	$4, -10(%r10), %xmm0
	pinsrb	$5, -7(%r10), %xmm0
	pinsrb	$6, -4(%r10), %xmm0
	pinsrb	$7, -1(%r10), %xmm0
	movq	%xmm0, 10(%rax,%r11)
	movzbl	-21(%r10), %ebx
	movd	%ebx, %xmm0
	pinsrb	$1, -18(%r10), %xmm0
	pinsrb	$2, -15(%r10), %xmm0
	pinsrb	$3, -12(%r10), %xmm0
	pinsrb	$4, -9(%r10), %xmm0
	pinsrb	$5, -6(%r10), %xmm0
	pinsrb	$6, -3(%r10), %xmm0
	pinsrb	$7, (%r10), %xmm0
	movq	%xmm0, 20(%rax,%r11)
	addq	$8, %r11
	addq	$24, %r10
	cmpq	%r11, %rdx
	jne	.LBB82_28
	cmpq	%rdx, %r8
	jne	.LBB82_3
	jmp	.LBB82_8
.LBB82_44:
	leaq	(%rax,%rcx,2), %r8
	addq	$-2, %r8
	xorl	%edx, %edx
	cmpq	%rax, %r8
	jb	.LBB82_39
	leaq	1(%rax), %r8
	leaq	(%rax,%rcx,2), %r9
	decq	%r9
	cmpq	%r8, %r9
	jb	.LBB82_39
	movq	%rcx, %r8
	decq	%r8
	js	.LBB82_39
	leaq	(%rsi,%rcx,2), %rdx
	addq	$6292, %rdx
	leaq	(%rax,%rcx,2), %r8
	cmpq	%r8, %rdi
	setb	%r8b
	cmpq	%rdx, %rax
	setb	%dl
	testb	%dl, %r8b
	jne	.LBB82_38
	movq	%rcx, %rdx
	andq	$-8, %rdx
	xorl	%r8d, %r8d
	.p2align	4
.LBB82_50:
	movzbl	(%rax,%r8,2), %r9d
	movd	%r9d, %xmm0
	pinsrb	$1, 2(%rax,%r8,2), %xmm0
	pinsrb	$2, 4(%rax,%r8,2), %xmm0
	pinsrb	$3, 6(%rax,%r8,2), %xmm0
	pinsrb	$4, 8(%rax,%r8,2), %xmm0
	pinsrb	$5, 10(%rax,%r8,2), %xmm0
	pinsrb	$6, 12(%rax,%r8,2), %xmm0
	pinsrb	$7, 14(%rax,%r8,2), %xmm0
	movzbl	1(%rax,%r8,2), %r9d
	movd	%r9d, %xmm1
	pinsrb	$2, 3(%rax,%r8,2), %xmm1
	pinsrb	$4, 5(%rax,%r8,2), %xmm1
	pinsrb	$6, 7(%rax,%r8,2), %xmm1
	pinsrb	$8, 9(%rax,%r8,2), %xmm1
	pinsrb	$10, 11(%rax,%r8,2), %xmm1
	pinsrb	$12, 13(%rax,%r8,2), %xmm1
	pinsrb	$14, 15(%rax,%r8,2), %xmm1
	pcmpeqb	.LCPI82_0(%rip), %xmm0
	pmovsxbw	%xmm0, %xmm0
	movdqa	.LCPI82_1(%rip), %xmm2
	pblendvb	%xmm0, %xmm1, %xmm2
	movdqu	%xmm2, (%rdi,%r8,2)
	addq	$8, %r8
	cmpq	%r8, %rdx
	jne	.LBB82_50
	cmpq	%rdx, %rcx
	jne	.LBB82_39
	jmp	.LBB82_43
.LBB82_30:
	movq	%rdx, %r9
	orq	$-2, %r9
	addq	%rdx, %r9
	xorl	%r10d, %r10d
	.p2align	4
.LBB82_31:
	movzwl	(%rdi,%r10,8), %r11d
	movd	%r11d, %xmm0
	pinsrw	$1, 8(%rdi,%r10,8), %xmm0
	movdqu	4(%rdi,%r10,8), %xmm1
	pmovzxwd	%xmm0, %xmm0
	pshufd	$80, %xmm0, %xmm0
	pblendw	$51, %xmm1, %xmm0
	movdqu	%xmm0, (%r8,%r10,8)
	addq	$2, %r10
	cmpq	%r10, %r9
	jne	.LBB82_31
	jmp	.LBB82_32
.Lfunc_end82:
	.size	"ecc200_calls::reading::ReadingAnswer::show", .Lfunc_end82-"ecc200_calls::reading::ReadingAnswer::show"
	.cfi_endproc

	.p2align	4
	.type	"ecc200_calls::answer::answer_given::<#d2faac338cf57797>",@function
"ecc200_calls::answer::answer_given::<#d2faac338cf57797>":
	.cfi_startproc
	pushq	%r15
	.cfi_def_cfa_offset 16
	pushq	%r14
	.cfi_def_cfa_offset 24
	pushq	%r13
	.cfi_def_cfa_offset 32
	pushq	%r12
	.cfi_def_cfa_offset 40
	pushq	%rbx
	.cfi_def_cfa_offset 48
	subq	$464, %rsp
	.cfi_def_cfa_offset 512
	.cfi_offset %rbx, -48
	.cfi_offset %r12, -40
	.cfi_offset %r13, -32
	.cfi_offset %r14, -24
	.cfi_offset %r15, -16
	movq	%r8, %r14
	movq	%rcx, %r15
	movq	%rdx, %r12
	movq	%rsi, %r13
	movq	512(%rsp), %rbx
	movzwl	8(%rdi), %eax
	movw	%ax, 56(%rsp)
	movq	(%rdi), %rax
	movq	%rax, 48(%rsp)
	movups	(%r9), %xmm0
	movaps	%xmm0, 64(%rsp)
	movq	14(%r9), %rax
	movq	%rax, 78(%rsp)
	movq	$0, 32(%rsp)
	movw	$0, 40(%rsp)
	leaq	176(%rsp), %rdi
	movl	$288, %edx
	xorl	%esi, %esi
	callq	memset@PLT
	xorps	%xmm0, %xmm0
	movups	%xmm0, 97(%rsp)
	movups	%xmm0, 113(%rsp)
	movups	%xmm0, 128(%rsp)
	movb	$0, 96(%rsp)
	movq	$0, 144(%rsp)
	leaq	96(%rsp), %rax
	movq	%rax, 16(%rsp)
	leaq	156(%rsp), %rax
	movq	%rax, 8(%rsp)
	leaq	64(%rsp), %rax
	movq	%rax, (%rsp)
	leaq	32(%rsp), %rdi
	leaq	48(%rsp), %rsi
	movq	%r13, %rdx
	movq	%r12, %rcx
	movq	%r15, %r8
	movq	%r14, %r9
	callq	"ecc200_calls::restoring::restore_given::<=52,=288>"
	cmpb	$0, 32(%rsp)
	je	.LBB83_1
	movzbl	34(%rsp), %ecx
	movzwl	36(%rsp), %eax
	testl	%ecx, %ecx
	je	.LBB83_3
	cmpl	$2, %ecx
	jne	.LBB83_5
	movzwl	38(%rsp), %edx
	cmpb	$2, %al
	je	.LBB83_18
	movzbl	%al, %eax
	cmpl	$1, %eax
	jne	.LBB83_9
	movw	$20, %cx
	jmp	.LBB83_19
.LBB83_1:
	movl	52(%rsp), %edi
	leaq	156(%rsp), %rsi
	leaq	96(%rsp), %rdx
	movq	%rbx, %rcx
	callq	"ecc200_calls::answer::answer_words::<#89b91c89c42b4f6f>"
	jmp	.LBB83_21
.LBB83_3:
	xorl	%edx, %edx
	movw	$5, %cx
	jmp	.LBB83_20
.LBB83_5:
	movzbl	35(%rsp), %edx
	movw	$6, %cx
	jmp	.LBB83_19
.LBB83_18:
	movw	$21, %cx
.LBB83_19:
	xorl	%eax, %eax
.LBB83_20:
	movw	%cx, (%rbx)
	movw	%ax, 2(%rbx)
	movw	%dx, 4(%rbx)
	xorps	%xmm0, %xmm0
	movups	%xmm0, 6(%rbx)
	movq	$0, 22(%rbx)
.LBB83_21:
	addq	$464, %rsp
	.cfi_def_cfa_offset 48
	popq	%rbx
	.cfi_def_cfa_offset 40
	popq	%r12
	.cfi_def_cfa_offset 32
	popq	%r13
	.cfi_def_cfa_offset 24
	popq	%r14
	.cfi_def_cfa_offset 16
	popq	%r15
	.cfi_def_cfa_offset 8
	retq
.LBB83_9:
	.cfi_def_cfa_offset 512
	movzwl	40(%rsp), %esi
	movzwl	%dx, %eax
	movzbl	%al, %ecx
	leaq	.LJTI83_0(%rip), %rdx
	movslq	(%rdx,%rcx,4), %rcx
	addq	%rdx, %rcx
	jmpq	*%rcx
.LBB83_10:
	movw	$7, %cx
	jmp	.LBB83_11
.LBB83_15:
	movw	$11, %cx
	jmp	.LBB83_11
.LBB83_13:
	movw	$9, %cx
	jmp	.LBB83_11
.LBB83_14:
	movw	$10, %cx
	jmp	.LBB83_11
.LBB83_12:
	shrl	$8, %eax
	movw	$8, %cx
	movl	%esi, %edx
	jmp	.LBB83_20
.LBB83_16:
	movw	$12, %cx
	jmp	.LBB83_11
.LBB83_17:
	movw	$13, %cx
.LBB83_11:
	xorl	%eax, %eax
	movl	%esi, %edx
	jmp	.LBB83_20
.Lfunc_end83:
	.size	"ecc200_calls::answer::answer_given::<#d2faac338cf57797>", .Lfunc_end83-"ecc200_calls::answer::answer_given::<#d2faac338cf57797>"
	.cfi_endproc
	.section	.rodata,"a",@progbits
	.p2align	2, 0x0
.LJTI83_0:
	.long	.LBB83_10-.LJTI83_0
	.long	.LBB83_12-.LJTI83_0
	.long	.LBB83_13-.LJTI83_0
	.long	.LBB83_14-.LJTI83_0
	.long	.LBB83_15-.LJTI83_0
	.long	.LBB83_16-.LJTI83_0
	.long	.LBB83_17-.LJTI83_0

	.text
	.p2align	4
	.type	"ecc200_calls::answer::answer_words::<#89b91c89c42b4f6f>",@function
"ecc200_calls::answer::answer_words::<#89b91c89c42b4f6f>":
	.cfi_startproc
	pushq	%rbp
	.cfi_def_cfa_offset 16
	pushq	%r15
	.cfi_def_cfa_offset 24
	pushq	%r14
	.cfi_def_cfa_offset 32
	pushq	%r13
	.cfi_def_cfa_offset 40
	pushq	%r12
	.cfi_def_cfa_offset 48
	pushq	%rbx
	.cfi_def_cfa_offset 56
	subq	$1800, %rsp
	.cfi_def_cfa_offset 1856
	.cfi_offset %rbx, -56
	.cfi_offset %r12, -48
	.cfi_offset %r13, -40
	.cfi_offset %r14, -32
	.cfi_offset %r15, -24
	.cfi_offset %rbp, -16
	movq	%rcx, 8(%rsp)
	movq	%rdx, %r13
	movq	%rsi, %r15
	movl	%edi, %r12d
	xorps	%xmm0, %xmm0
	movaps	%xmm0, 112(%rsp)
	movaps	%xmm0, 96(%rsp)
	movaps	%xmm0, 80(%rsp)
	movaps	%xmm0, 64(%rsp)
	movaps	%xmm0, 48(%rsp)
	leaq	20(%rsi), %rbx
	movzwl	12(%rsi), %ebp
	leaq	128(%rsp), %rdi
	movl	$1664, %edx
	xorl	%esi, %esi
	callq	memset@PLT
	xorps	%xmm0, %xmm0
	movaps	%xmm0, 32(%rsp)
	movaps	%xmm0, 16(%rsp)
	leaq	134(%rsp), %r14
	leaq	976(%rsp), %rax
	leaq	16(%rsp), %rdi
	movl	%r12d, %esi
	movq	%rax, %r12
	movq	%rbx, %rdx
	movq	%rbp, %rcx
	movq	%r14, %r8
	movq	%rax, %r9
	callq	"dm_words::contents::reading::read_content"
	cmpb	$0, 16(%rsp)
	je	.LBB84_4
	movzbl	18(%rsp), %eax
	movzwl	20(%rsp), %esi
	cmpl	$2, %eax
	je	.LBB84_7
	cmpl	$1, %eax
	jne	.LBB84_8
	xorl	%eax, %eax
	movw	$20, %cx
	jmp	.LBB84_23
.LBB84_4:
	movq	24(%rsp), %rdx
	movq	32(%rsp), %rcx
	movq	40(%rsp), %rax
	movl	%edx, %edi
	shrl	$8, %edi
	movq	%rdx, %rsi
	shrq	$16, %rsi
	movb	%dl, 128(%rsp)
	movb	%dil, 129(%rsp)
	movl	%esi, 130(%rsp)
	movq	%rcx, 968(%rsp)
	movq	%rax, 1792(%rsp)
	xorl	%r8d, %r8d
	testb	%dil, %dil
	setne	%r8b
	xorl	%r9d, %r9d
	testb	%dl, %dl
	leaq	1(%r8,%r8,2), %rdi
	cmovneq	%rdi, %r9
	movb	$1, %dil
	subq	%r9, %rbp
	je	.LBB84_28
	cmpq	$1, %rbp
	jne	.LBB84_10
	cmpb	$-24, (%rbx,%r9)
	sete	%dil
	incb	%dil
	jmp	.LBB84_28
.LBB84_7:
	movw	$21, %cx
	xorl	%eax, %eax
	jmp	.LBB84_23
.LBB84_8:
	movzwl	22(%rsp), %edx
	movzwl	%si, %eax
	movzbl	%al, %ecx
	leaq	.LJTI84_0(%rip), %rsi
	movslq	(%rsi,%rcx,4), %rcx
	addq	%rsi, %rcx
	jmpq	*%rcx
.LBB84_9:
	movw	$7, %cx
	jmp	.LBB84_21
.LBB84_10:
	movzbl	(%rbx,%r9), %r8d
	movb	$2, %dil
	cmpl	$232, %r8d
	je	.LBB84_28
	cmpb	$-24, 1(%rbx,%r9)
	jne	.LBB84_27
	movb	$3, %dil
	leal	-230(%r8), %r9d
	cmpl	$11, %r9d
	ja	.LBB84_24
	addq	$-2, %rbp
	leaq	.LJTI84_1(%rip), %r10
	movslq	(%r10,%r9,4), %r9
	addq	%r10, %r9
	jmpq	*%r9
.LBB84_14:
	testq	%rbp, %rbp
	jne	.LBB84_27
	jmp	.LBB84_28
.LBB84_15:
	movw	$11, %cx
	jmp	.LBB84_21
.LBB84_16:
	movw	$9, %cx
	jmp	.LBB84_21
.LBB84_17:
	movw	$10, %cx
	jmp	.LBB84_21
.LBB84_18:
	shrl	$8, %eax
	movw	$8, %cx
	jmp	.LBB84_22
.LBB84_19:
	movw	$12, %cx
	jmp	.LBB84_21
.LBB84_20:
	movw	$13, %cx
.LBB84_21:
	xorl	%eax, %eax
.LBB84_22:
	movl	%edx, %esi
.LBB84_23:
	movq	8(%rsp), %rdx
	movw	%cx, (%rdx)
	movw	%ax, 2(%rdx)
	movw	%si, 4(%rdx)
	xorps	%xmm0, %xmm0
	movups	%xmm0, 6(%rdx)
	movq	$0, 22(%rdx)
	jmp	.LBB84_29
.LBB84_24:
	testl	%r8d, %r8d
	je	.LBB84_27
	cmpl	$129, %r8d
	je	.LBB84_27
.LBB84_26:
	cmpb	$-26, %r8b
	jb	.LBB84_28
.LBB84_27:
	movb	$1, %dil
.LBB84_28:
	leal	3(%rdi), %r8d
	testq	%rax, %rax
	movzbl	%dil, %edi
	movzbl	%r8b, %r8d
	cmovel	%edi, %r8d
	movl	16(%r15), %edi
	movl	%edi, 64(%rsp)
	movups	(%r15), %xmm0
	movaps	%xmm0, 48(%rsp)
	movw	%dx, 68(%rsp)
	movl	%esi, 70(%rsp)
	movq	%r14, 80(%rsp)
	movq	%rcx, 88(%rsp)
	movq	%r12, 96(%rsp)
	movq	%rax, 104(%rsp)
	movb	%r8b, 112(%rsp)
	movq	%r13, 120(%rsp)
	leaq	48(%rsp), %rdi
	movq	8(%rsp), %rsi
	callq	"ecc200_calls::reading::ReadingAnswer::show"
.LBB84_29:
	addq	$1800, %rsp
	.cfi_def_cfa_offset 56
	popq	%rbx
	.cfi_def_cfa_offset 48
	popq	%r12
	.cfi_def_cfa_offset 40
	popq	%r13
	.cfi_def_cfa_offset 32
	popq	%r14
	.cfi_def_cfa_offset 24
	popq	%r15
	.cfi_def_cfa_offset 16
	popq	%rbp
	.cfi_def_cfa_offset 8
	retq
.LBB84_30:
	.cfi_def_cfa_offset 1856
	cmpq	$2, %rbp
	jae	.LBB84_27
	jmp	.LBB84_28
.Lfunc_end84:
	.size	"ecc200_calls::answer::answer_words::<#89b91c89c42b4f6f>", .Lfunc_end84-"ecc200_calls::answer::answer_words::<#89b91c89c42b4f6f>"
	.cfi_endproc
	.section	.rodata,"a",@progbits
	.p2align	2, 0x0
.LJTI84_0:
	.long	.LBB84_9-.LJTI84_0
	.long	.LBB84_18-.LJTI84_0
	.long	.LBB84_16-.LJTI84_0
	.long	.LBB84_17-.LJTI84_0
	.long	.LBB84_15-.LJTI84_0
	.long	.LBB84_19-.LJTI84_0
	.long	.LBB84_20-.LJTI84_0
.LJTI84_1:
	.long	.LBB84_14-.LJTI84_1
	.long	.LBB84_27-.LJTI84_1
	.long	.LBB84_26-.LJTI84_1
	.long	.LBB84_26-.LJTI84_1
	.long	.LBB84_26-.LJTI84_1
	.long	.LBB84_27-.LJTI84_1
	.long	.LBB84_28-.LJTI84_1
	.long	.LBB84_28-.LJTI84_1
	.long	.LBB84_14-.LJTI84_1
	.long	.LBB84_14-.LJTI84_1
	.long	.LBB84_30-.LJTI84_1
	.long	.LBB84_27-.LJTI84_1

	.section	.rodata.cst16,"aM",@progbits,16
	.p2align	4, 0x0
.LCPI85_0:
	.byte	241
	.byte	241
	.byte	241
	.byte	241
	.byte	241
	.byte	241
	.byte	241
	.byte	241
	.zero	1
	.zero	1
	.zero	1
	.zero	1
	.zero	1
	.zero	1
	.zero	1
	.zero	1
.LCPI85_1:
	.short	1
	.short	1
	.short	1
	.short	1
	.short	1
	.short	1
	.short	1
	.short	1
	.text
	.p2align	4
	.type	"ecc200_calls::answer::answer_given::<#a1ea276ad3ef9c9c>",@function
"ecc200_calls::answer::answer_given::<#a1ea276ad3ef9c9c>":
	.cfi_startproc
	pushq	%r15
	.cfi_def_cfa_offset 16
	pushq	%r14
	.cfi_def_cfa_offset 24
	pushq	%r13
	.cfi_def_cfa_offset 32
	pushq	%r12
	.cfi_def_cfa_offset 40
	pushq	%rbx
	.cfi_def_cfa_offset 48
	subq	$1312, %rsp
	.cfi_def_cfa_offset 1360
	.cfi_offset %rbx, -48
	.cfi_offset %r12, -40
	.cfi_offset %r13, -32
	.cfi_offset %r14, -24
	.cfi_offset %r15, -16
	movq	%r8, %r14
	movq	%rcx, %r15
	movq	%rdx, %r12
	movq	%rsi, %r13
	movq	1360(%rsp), %rbx
	movzwl	8(%rdi), %eax
	movw	%ax, 48(%rsp)
	movq	(%rdi), %rax
	movq	%rax, 40(%rsp)
	movdqu	(%r9), %xmm0
	movdqa	%xmm0, 112(%rsp)
	movq	14(%r9), %rax
	movq	%rax, 126(%rsp)
	movq	$0, 24(%rsp)
	movw	$0, 32(%rsp)
	leaq	160(%rsp), %rdi
	movl	$1152, %edx
	xorl	%esi, %esi
	callq	memset@PLT
	pxor	%xmm0, %xmm0
	movdqu	%xmm0, 57(%rsp)
	movdqu	%xmm0, 73(%rsp)
	movdqu	%xmm0, 88(%rsp)
	movb	$0, 56(%rsp)
	movq	$0, 104(%rsp)
	leaq	56(%rsp), %rax
	movq	%rax, 16(%rsp)
	leaq	140(%rsp), %rax
	movq	%rax, 8(%rsp)
	leaq	112(%rsp), %rax
	movq	%rax, (%rsp)
	leaq	24(%rsp), %rdi
	leaq	40(%rsp), %rsi
	movq	%r13, %rdx
	movq	%r12, %rcx
	movq	%r15, %r8
	movq	%r14, %r9
	callq	"ecc200_calls::restoring::restore_given::<=104,=1152>"
	cmpb	$0, 24(%rsp)
	je	.LBB85_1
	movzbl	26(%rsp), %ecx
	movzwl	28(%rsp), %eax
	testl	%ecx, %ecx
	je	.LBB85_12
	cmpl	$2, %ecx
	jne	.LBB85_14
	movzwl	30(%rsp), %edx
	cmpb	$2, %al
	je	.LBB85_27
	movzbl	%al, %eax
	cmpl	$1, %eax
	jne	.LBB85_18
	movw	$20, %cx
	jmp	.LBB85_28
.LBB85_1:
	movzbl	44(%rsp), %eax
	movzwl	152(%rsp), %ecx
	testq	%rcx, %rcx
	je	.LBB85_9
	cmpw	$8, %cx
	jae	.LBB85_4
	xorl	%esi, %esi
	xorl	%edx, %edx
	jmp	.LBB85_7
.LBB85_12:
	xorl	%edx, %edx
	movw	$5, %cx
	jmp	.LBB85_29
.LBB85_14:
	movzbl	27(%rsp), %edx
	movw	$6, %cx
	jmp	.LBB85_28
.LBB85_4:
	movl	%ecx, %edx
	andl	$-8, %edx
	pxor	%xmm0, %xmm0
	xorl	%esi, %esi
	.p2align	4
.LBB85_5:
	movq	160(%rsp,%rsi), %xmm1
	pcmpeqb	.LCPI85_0(%rip), %xmm1
	pmovzxbw	%xmm1, %xmm1
	pand	.LCPI85_1(%rip), %xmm1
	paddw	%xmm1, %xmm0
	addq	$8, %rsi
	cmpq	%rsi, %rdx
	jne	.LBB85_5
	pshufd	$238, %xmm0, %xmm1
	paddw	%xmm0, %xmm1
	pshufd	$85, %xmm1, %xmm0
	paddw	%xmm1, %xmm0
	movdqa	%xmm0, %xmm1
	psrld	$16, %xmm1
	paddw	%xmm0, %xmm1
	movd	%xmm1, %esi
	cmpl	%ecx, %edx
	je	.LBB85_8
	.p2align	4
.LBB85_7:
	xorl	%edi, %edi
	cmpb	$-15, 160(%rsp,%rdx)
	sete	%dil
	addl	%edi, %esi
	incq	%rdx
	cmpq	%rdx, %rcx
	jne	.LBB85_7
.LBB85_8:
	cmpw	$31, %si
	ja	.LBB85_10
.LBB85_9:
	movzbl	%al, %edi
	leaq	140(%rsp), %rsi
	leaq	56(%rsp), %rdx
	movq	%rbx, %rcx
	callq	"ecc200_calls::answer::answer_words::<#2daa1641b6f7fb38>"
	jmp	.LBB85_30
.LBB85_10:
	movzbl	%al, %edi
	leaq	140(%rsp), %rsi
	leaq	56(%rsp), %rdx
	movq	%rbx, %rcx
	callq	"ecc200_calls::answer::answer_words::<#2d40c0c0409bdcb2>"
	jmp	.LBB85_30
.LBB85_27:
	movw	$21, %cx
.LBB85_28:
	xorl	%eax, %eax
.LBB85_29:
	movw	%cx, (%rbx)
	movw	%ax, 2(%rbx)
	movw	%dx, 4(%rbx)
	pxor	%xmm0, %xmm0
	movdqu	%xmm0, 6(%rbx)
	movq	$0, 22(%rbx)
.LBB85_30:
	addq	$1312, %rsp
	.cfi_def_cfa_offset 48
	popq	%rbx
	.cfi_def_cfa_offset 40
	popq	%r12
	.cfi_def_cfa_offset 32
	popq	%r13
	.cfi_def_cfa_offset 24
	popq	%r14
	.cfi_def_cfa_offset 16
	popq	%r15
	.cfi_def_cfa_offset 8
	retq
.LBB85_18:
	.cfi_def_cfa_offset 1360
	movzwl	32(%rsp), %esi
	movzwl	%dx, %eax
	movzbl	%al, %ecx
	leaq	.LJTI85_0(%rip), %rdx
	movslq	(%rdx,%rcx,4), %rcx
	addq	%rdx, %rcx
	jmpq	*%rcx
.LBB85_19:
	movw	$7, %cx
	jmp	.LBB85_20
.LBB85_24:
	movw	$11, %cx
	jmp	.LBB85_20
.LBB85_22:
	movw	$9, %cx
	jmp	.LBB85_20
.LBB85_23:
	movw	$10, %cx
	jmp	.LBB85_20
.LBB85_21:
	shrl	$8, %eax
	movw	$8, %cx
	movl	%esi, %edx
	jmp	.LBB85_29
.LBB85_25:
	movw	$12, %cx
	jmp	.LBB85_20
.LBB85_26:
	movw	$13, %cx
.LBB85_20:
	xorl	%eax, %eax
	movl	%esi, %edx
	jmp	.LBB85_29
.Lfunc_end85:
	.size	"ecc200_calls::answer::answer_given::<#a1ea276ad3ef9c9c>", .Lfunc_end85-"ecc200_calls::answer::answer_given::<#a1ea276ad3ef9c9c>"
	.cfi_endproc
	.section	.rodata,"a",@progbits
	.p2align	2, 0x0
.LJTI85_0:
	.long	.LBB85_19-.LJTI85_0
	.long	.LBB85_21-.LJTI85_0
	.long	.LBB85_22-.LJTI85_0
	.long	.LBB85_23-.LJTI85_0
	.long	.LBB85_24-.LJTI85_0
	.long	.LBB85_25-.LJTI85_0
	.long	.LBB85_26-.LJTI85_0

	.text
	.p2align	4
	.type	"ecc200_calls::answer::answer_words::<#2daa1641b6f7fb38>",@function
"ecc200_calls::answer::answer_words::<#2daa1641b6f7fb38>":
	.cfi_startproc
	pushq	%rbp
	.cfi_def_cfa_offset 16
	pushq	%r15
	.cfi_def_cfa_offset 24
	pushq	%r14
	.cfi_def_cfa_offset 32
	pushq	%r13
	.cfi_def_cfa_offset 40
	pushq	%r12
	.cfi_def_cfa_offset 48
	pushq	%rbx
	.cfi_def_cfa_offset 56
	subq	$3072, %rsp
	.cfi_adjust_cfa_offset 3072
	movq	$0, (%rsp)
	subq	$616, %rsp
	.cfi_def_cfa_offset 3744
	.cfi_offset %rbx, -56
	.cfi_offset %r12, -48
	.cfi_offset %r13, -40
	.cfi_offset %r14, -32
	.cfi_offset %r15, -24
	.cfi_offset %rbp, -16
	movq	%rcx, 8(%rsp)
	movq	%rdx, %r13
	movq	%rsi, %r15
	movl	%edi, %r12d
	xorps	%xmm0, %xmm0
	movaps	%xmm0, 112(%rsp)
	movaps	%xmm0, 96(%rsp)
	movaps	%xmm0, 80(%rsp)
	movaps	%xmm0, 64(%rsp)
	movaps	%xmm0, 48(%rsp)
	leaq	20(%rsi), %rbx
	movzwl	12(%rsi), %ebp
	leaq	136(%rsp), %rdi
	movl	$3544, %edx
	xorl	%esi, %esi
	callq	memset@PLT
	xorps	%xmm0, %xmm0
	movaps	%xmm0, 32(%rsp)
	movaps	%xmm0, 16(%rsp)
	leaq	142(%rsp), %r14
	leaq	3432(%rsp), %rax
	leaq	16(%rsp), %rdi
	movl	%r12d, %esi
	movq	%rax, %r12
	movq	%rbx, %rdx
	movq	%rbp, %rcx
	movq	%r14, %r8
	movq	%rax, %r9
	callq	"dm_words::contents::reading::read_content"
	cmpb	$0, 16(%rsp)
	je	.LBB86_4
	movzbl	18(%rsp), %eax
	movzwl	20(%rsp), %esi
	cmpl	$2, %eax
	je	.LBB86_7
	cmpl	$1, %eax
	jne	.LBB86_8
	xorl	%eax, %eax
	movw	$20, %cx
	jmp	.LBB86_23
.LBB86_4:
	movq	24(%rsp), %rdx
	movq	32(%rsp), %rcx
	movq	40(%rsp), %rax
	movl	%edx, %edi
	shrl	$8, %edi
	movq	%rdx, %rsi
	shrq	$16, %rsi
	movb	%dl, 136(%rsp)
	movb	%dil, 137(%rsp)
	movl	%esi, 138(%rsp)
	movq	%rcx, 3424(%rsp)
	movq	%rax, 3680(%rsp)
	xorl	%r8d, %r8d
	testb	%dil, %dil
	setne	%r8b
	xorl	%r9d, %r9d
	testb	%dl, %dl
	leaq	1(%r8,%r8,2), %rdi
	cmovneq	%rdi, %r9
	movb	$1, %dil
	subq	%r9, %rbp
	je	.LBB86_28
	cmpq	$1, %rbp
	jne	.LBB86_10
	cmpb	$-24, (%rbx,%r9)
	sete	%dil
	incb	%dil
	jmp	.LBB86_28
.LBB86_7:
	movw	$21, %cx
	xorl	%eax, %eax
	jmp	.LBB86_23
.LBB86_8:
	movzwl	22(%rsp), %edx
	movzwl	%si, %eax
	movzbl	%al, %ecx
	leaq	.LJTI86_0(%rip), %rsi
	movslq	(%rsi,%rcx,4), %rcx
	addq	%rsi, %rcx
	jmpq	*%rcx
.LBB86_9:
	movw	$7, %cx
	jmp	.LBB86_21
.LBB86_10:
	movzbl	(%rbx,%r9), %r8d
	movb	$2, %dil
	cmpl	$232, %r8d
	je	.LBB86_28
	cmpb	$-24, 1(%rbx,%r9)
	jne	.LBB86_27
	movb	$3, %dil
	leal	-230(%r8), %r9d
	cmpl	$11, %r9d
	ja	.LBB86_24
	addq	$-2, %rbp
	leaq	.LJTI86_1(%rip), %r10
	movslq	(%r10,%r9,4), %r9
	addq	%r10, %r9
	jmpq	*%r9
.LBB86_14:
	testq	%rbp, %rbp
	jne	.LBB86_27
	jmp	.LBB86_28
.LBB86_15:
	movw	$11, %cx
	jmp	.LBB86_21
.LBB86_16:
	movw	$9, %cx
	jmp	.LBB86_21
.LBB86_17:
	movw	$10, %cx
	jmp	.LBB86_21
.LBB86_18:
	shrl	$8, %eax
	movw	$8, %cx
	jmp	.LBB86_22
.LBB86_19:
	movw	$12, %cx
	jmp	.LBB86_21
.LBB86_20:
	movw	$13, %cx
.LBB86_21:
	xorl	%eax, %eax
.LBB86_22:
	movl	%edx, %esi
.LBB86_23:
	movq	8(%rsp), %rdx
	movw	%cx, (%rdx)
	movw	%ax, 2(%rdx)
	movw	%si, 4(%rdx)
	xorps	%xmm0, %xmm0
	movups	%xmm0, 6(%rdx)
	movq	$0, 22(%rdx)
	jmp	.LBB86_29
.LBB86_24:
	testl	%r8d, %r8d
	je	.LBB86_27
	cmpl	$129, %r8d
	je	.LBB86_27
.LBB86_26:
	cmpb	$-26, %r8b
	jb	.LBB86_28
.LBB86_27:
	movb	$1, %dil
.LBB86_28:
	leal	3(%rdi), %r8d
	testq	%rax, %rax
	movzbl	%dil, %edi
	movzbl	%r8b, %r8d
	cmovel	%edi, %r8d
	movl	16(%r15), %edi
	movl	%edi, 64(%rsp)
	movups	(%r15), %xmm0
	movaps	%xmm0, 48(%rsp)
	movw	%dx, 68(%rsp)
	movl	%esi, 70(%rsp)
	movq	%r14, 80(%rsp)
	movq	%rcx, 88(%rsp)
	movq	%r12, 96(%rsp)
	movq	%rax, 104(%rsp)
	movb	%r8b, 112(%rsp)
	movq	%r13, 120(%rsp)
	leaq	48(%rsp), %rdi
	movq	8(%rsp), %rsi
	callq	"ecc200_calls::reading::ReadingAnswer::show"
.LBB86_29:
	addq	$3688, %rsp
	.cfi_def_cfa_offset 56
	popq	%rbx
	.cfi_def_cfa_offset 48
	popq	%r12
	.cfi_def_cfa_offset 40
	popq	%r13
	.cfi_def_cfa_offset 32
	popq	%r14
	.cfi_def_cfa_offset 24
	popq	%r15
	.cfi_def_cfa_offset 16
	popq	%rbp
	.cfi_def_cfa_offset 8
	retq
.LBB86_30:
	.cfi_def_cfa_offset 3744
	cmpq	$2, %rbp
	jae	.LBB86_27
	jmp	.LBB86_28
.Lfunc_end86:
	.size	"ecc200_calls::answer::answer_words::<#2daa1641b6f7fb38>", .Lfunc_end86-"ecc200_calls::answer::answer_words::<#2daa1641b6f7fb38>"
	.cfi_endproc
	.section	.rodata,"a",@progbits
	.p2align	2, 0x0
.LJTI86_0:
	.long	.LBB86_9-.LJTI86_0
	.long	.LBB86_18-.LJTI86_0
	.long	.LBB86_16-.LJTI86_0
	.long	.LBB86_17-.LJTI86_0
	.long	.LBB86_15-.LJTI86_0
	.long	.LBB86_19-.LJTI86_0
	.long	.LBB86_20-.LJTI86_0
.LJTI86_1:
	.long	.LBB86_14-.LJTI86_1
	.long	.LBB86_27-.LJTI86_1
	.long	.LBB86_26-.LJTI86_1
	.long	.LBB86_26-.LJTI86_1
	.long	.LBB86_26-.LJTI86_1
	.long	.LBB86_27-.LJTI86_1
	.long	.LBB86_28-.LJTI86_1
	.long	.LBB86_28-.LJTI86_1
	.long	.LBB86_14-.LJTI86_1
	.long	.LBB86_14-.LJTI86_1
	.long	.LBB86_30-.LJTI86_1
	.long	.LBB86_27-.LJTI86_1

	.text
	.p2align	4
	.type	"ecc200_calls::answer::answer_words::<#2d40c0c0409bdcb2>",@function
"ecc200_calls::answer::answer_words::<#2d40c0c0409bdcb2>":
	.cfi_startproc
	pushq	%rbp
	.cfi_def_cfa_offset 16
	pushq	%r15
	.cfi_def_cfa_offset 24
	pushq	%r14
	.cfi_def_cfa_offset 32
	pushq	%r13
	.cfi_def_cfa_offset 40
	pushq	%r12
	.cfi_def_cfa_offset 48
	pushq	%rbx
	.cfi_def_cfa_offset 56
	subq	$3072, %rsp
	.cfi_adjust_cfa_offset 3072
	movq	$0, (%rsp)
	subq	$3072, %rsp
	.cfi_adjust_cfa_offset 3072
	movq	$0, (%rsp)
	subq	$552, %rsp
	.cfi_def_cfa_offset 6752
	.cfi_offset %rbx, -56
	.cfi_offset %r12, -48
	.cfi_offset %r13, -40
	.cfi_offset %r14, -32
	.cfi_offset %r15, -24
	.cfi_offset %rbp, -16
	movq	%rcx, 8(%rsp)
	movq	%rdx, %r13
	movq	%rsi, %r15
	movl	%edi, %r12d
	xorps	%xmm0, %xmm0
	movaps	%xmm0, 112(%rsp)
	movaps	%xmm0, 96(%rsp)
	movaps	%xmm0, 80(%rsp)
	movaps	%xmm0, 64(%rsp)
	movaps	%xmm0, 48(%rsp)
	leaq	20(%rsi), %rbx
	movzwl	12(%rsi), %ebp
	leaq	128(%rsp), %rdi
	movl	$6560, %edx
	xorl	%esi, %esi
	callq	memset@PLT
	xorps	%xmm0, %xmm0
	movaps	%xmm0, 32(%rsp)
	movaps	%xmm0, 16(%rsp)
	leaq	134(%rsp), %r14
	leaq	3424(%rsp), %rax
	leaq	16(%rsp), %rdi
	movl	%r12d, %esi
	movq	%rax, %r12
	movq	%rbx, %rdx
	movq	%rbp, %rcx
	movq	%r14, %r8
	movq	%rax, %r9
	callq	"dm_words::contents::reading::read_content"
	cmpb	$0, 16(%rsp)
	je	.LBB87_4
	movzbl	18(%rsp), %eax
	movzwl	20(%rsp), %esi
	cmpl	$2, %eax
	je	.LBB87_7
	cmpl	$1, %eax
	jne	.LBB87_8
	xorl	%eax, %eax
	movw	$20, %cx
	jmp	.LBB87_23
.LBB87_4:
	movq	24(%rsp), %rdx
	movq	32(%rsp), %rcx
	movq	40(%rsp), %rax
	movl	%edx, %edi
	shrl	$8, %edi
	movq	%rdx, %rsi
	shrq	$16, %rsi
	movb	%dl, 128(%rsp)
	movb	%dil, 129(%rsp)
	movl	%esi, 130(%rsp)
	movq	%rcx, 3416(%rsp)
	movq	%rax, 6688(%rsp)
	xorl	%r8d, %r8d
	testb	%dil, %dil
	setne	%r8b
	xorl	%r9d, %r9d
	testb	%dl, %dl
	leaq	1(%r8,%r8,2), %rdi
	cmovneq	%rdi, %r9
	movb	$1, %dil
	subq	%r9, %rbp
	je	.LBB87_28
	cmpq	$1, %rbp
	jne	.LBB87_10
	cmpb	$-24, (%rbx,%r9)
	sete	%dil
	incb	%dil
	jmp	.LBB87_28
.LBB87_7:
	movw	$21, %cx
	xorl	%eax, %eax
	jmp	.LBB87_23
.LBB87_8:
	movzwl	22(%rsp), %edx
	movzwl	%si, %eax
	movzbl	%al, %ecx
	leaq	.LJTI87_0(%rip), %rsi
	movslq	(%rsi,%rcx,4), %rcx
	addq	%rsi, %rcx
	jmpq	*%rcx
.LBB87_9:
	movw	$7, %cx
	jmp	.LBB87_21
.LBB87_10:
	movzbl	(%rbx,%r9), %r8d
	movb	$2, %dil
	cmpl	$232, %r8d
	je	.LBB87_28
	cmpb	$-24, 1(%rbx,%r9)
	jne	.LBB87_27
	movb	$3, %dil
	leal	-230(%r8), %r9d
	cmpl	$11, %r9d
	ja	.LBB87_24
	addq	$-2, %rbp
	leaq	.LJTI87_1(%rip), %r10
	movslq	(%r10,%r9,4), %r9
	addq	%r10, %r9
	jmpq	*%r9
.LBB87_14:
	testq	%rbp, %rbp
	jne	.LBB87_27
	jmp	.LBB87_28
.LBB87_15:
	movw	$11, %cx
	jmp	.LBB87_21
.LBB87_16:
	movw	$9, %cx
	jmp	.LBB87_21
.LBB87_17:
	movw	$10, %cx
	jmp	.LBB87_21
.LBB87_18:
	shrl	$8, %eax
	movw	$8, %cx
	jmp	.LBB87_22
.LBB87_19:
	movw	$12, %cx
	jmp	.LBB87_21
.LBB87_20:
	movw	$13, %cx
.LBB87_21:
	xorl	%eax, %eax
.LBB87_22:
	movl	%edx, %esi
.LBB87_23:
	movq	8(%rsp), %rdx
	movw	%cx, (%rdx)
	movw	%ax, 2(%rdx)
	movw	%si, 4(%rdx)
	xorps	%xmm0, %xmm0
	movups	%xmm0, 6(%rdx)
	movq	$0, 22(%rdx)
	jmp	.LBB87_29
.LBB87_24:
	testl	%r8d, %r8d
	je	.LBB87_27
	cmpl	$129, %r8d
	je	.LBB87_27
.LBB87_26:
	cmpb	$-26, %r8b
	jb	.LBB87_28
.LBB87_27:
	movb	$1, %dil
.LBB87_28:
	leal	3(%rdi), %r8d
	testq	%rax, %rax
	movzbl	%dil, %edi
	movzbl	%r8b, %r8d
	cmovel	%edi, %r8d
	movl	16(%r15), %edi
	movl	%edi, 64(%rsp)
	movups	(%r15), %xmm0
	movaps	%xmm0, 48(%rsp)
	movw	%dx, 68(%rsp)
	movl	%esi, 70(%rsp)
	movq	%r14, 80(%rsp)
	movq	%rcx, 88(%rsp)
	movq	%r12, 96(%rsp)
	movq	%rax, 104(%rsp)
	movb	%r8b, 112(%rsp)
	movq	%r13, 120(%rsp)
	leaq	48(%rsp), %rdi
	movq	8(%rsp), %rsi
	callq	"ecc200_calls::reading::ReadingAnswer::show"
.LBB87_29:
	addq	$6696, %rsp
	.cfi_def_cfa_offset 56
	popq	%rbx
	.cfi_def_cfa_offset 48
	popq	%r12
	.cfi_def_cfa_offset 40
	popq	%r13
	.cfi_def_cfa_offset 32
	popq	%r14
	.cfi_def_cfa_offset 24
	popq	%r15
	.cfi_def_cfa_offset 16
	popq	%rbp
	.cfi_def_cfa_offset 8
	retq
.LBB87_30:
	.cfi_def_cfa_offset 6752
	cmpq	$2, %rbp
	jae	.LBB87_27
	jmp	.LBB87_28
.Lfunc_end87:
	.size	"ecc200_calls::answer::answer_words::<#2d40c0c0409bdcb2>", .Lfunc_end87-"ecc200_calls::answer::answer_words::<#2d40c0c0409bdcb2>"
	.cfi_endproc
	.section	.rodata,"a",@progbits
	.p2align	2, 0x0
.LJTI87_0:
	.long	.LBB87_9-.LJTI87_0
	.long	.LBB87_18-.LJTI87_0
	.long	.LBB87_16-.LJTI87_0
	.long	.LBB87_17-.LJTI87_0
	.long	.LBB87_15-.LJTI87_0
	.long	.LBB87_19-.LJTI87_0
	.long	.LBB87_20-.LJTI87_0
.LJTI87_1:
	.long	.LBB87_14-.LJTI87_1
	.long	.LBB87_27-.LJTI87_1
	.long	.LBB87_26-.LJTI87_1
	.long	.LBB87_26-.LJTI87_1
	.long	.LBB87_26-.LJTI87_1
	.long	.LBB87_27-.LJTI87_1
	.long	.LBB87_28-.LJTI87_1
	.long	.LBB87_28-.LJTI87_1
	.long	.LBB87_14-.LJTI87_1
	.long	.LBB87_14-.LJTI87_1
	.long	.LBB87_30-.LJTI87_1
	.long	.LBB87_27-.LJTI87_1

	.section	.rodata.cst16,"aM",@progbits,16
	.p2align	4, 0x0
.LCPI88_0:
	.byte	241
	.byte	241
	.byte	241
	.byte	241
	.byte	241
	.byte	241
	.byte	241
	.byte	241
	.zero	1
	.zero	1
	.zero	1
	.zero	1
	.zero	1
	.zero	1
	.zero	1
	.zero	1
.LCPI88_1:
	.short	1
	.short	1
	.short	1
	.short	1
	.short	1
	.short	1
	.short	1
	.short	1
	.text
	.p2align	4
	.type	"ecc200_calls::answer::answer_given::<#bf8ac5d4f1318e40>",@function
"ecc200_calls::answer::answer_given::<#bf8ac5d4f1318e40>":
	.cfi_startproc
	pushq	%r15
	.cfi_def_cfa_offset 16
	pushq	%r14
	.cfi_def_cfa_offset 24
	pushq	%r13
	.cfi_def_cfa_offset 32
	pushq	%r12
	.cfi_def_cfa_offset 40
	pushq	%rbx
	.cfi_def_cfa_offset 48
	subq	$2336, %rsp
	.cfi_def_cfa_offset 2384
	.cfi_offset %rbx, -48
	.cfi_offset %r12, -40
	.cfi_offset %r13, -32
	.cfi_offset %r14, -24
	.cfi_offset %r15, -16
	movq	%r8, %r14
	movq	%rcx, %r15
	movq	%rdx, %r12
	movq	%rsi, %r13
	movq	2384(%rsp), %rbx
	movzwl	8(%rdi), %eax
	movw	%ax, 48(%rsp)
	movq	(%rdi), %rax
	movq	%rax, 40(%rsp)
	movdqu	(%r9), %xmm0
	movdqa	%xmm0, 112(%rsp)
	movq	14(%r9), %rax
	movq	%rax, 126(%rsp)
	movq	$0, 24(%rsp)
	movw	$0, 32(%rsp)
	leaq	158(%rsp), %rdi
	movl	$2178, %edx
	xorl	%esi, %esi
	callq	memset@PLT
	pxor	%xmm0, %xmm0
	movdqu	%xmm0, 57(%rsp)
	movdqu	%xmm0, 73(%rsp)
	movdqu	%xmm0, 88(%rsp)
	movb	$0, 56(%rsp)
	movq	$0, 104(%rsp)
	leaq	56(%rsp), %rax
	movq	%rax, 16(%rsp)
	leaq	138(%rsp), %rax
	movq	%rax, 8(%rsp)
	leaq	112(%rsp), %rax
	movq	%rax, (%rsp)
	leaq	24(%rsp), %rdi
	leaq	40(%rsp), %rsi
	movq	%r13, %rdx
	movq	%r12, %rcx
	movq	%r15, %r8
	movq	%r14, %r9
	callq	"ecc200_calls::restoring::restore_given::<=144,=2178>"
	cmpb	$0, 24(%rsp)
	je	.LBB88_1
	movzbl	26(%rsp), %ecx
	movzwl	28(%rsp), %eax
	testl	%ecx, %ecx
	je	.LBB88_12
	cmpl	$2, %ecx
	jne	.LBB88_14
	movzwl	30(%rsp), %edx
	cmpb	$2, %al
	je	.LBB88_27
	movzbl	%al, %eax
	cmpl	$1, %eax
	jne	.LBB88_18
	movw	$20, %cx
	jmp	.LBB88_28
.LBB88_1:
	movzbl	44(%rsp), %eax
	movzwl	150(%rsp), %ecx
	testq	%rcx, %rcx
	je	.LBB88_9
	cmpw	$8, %cx
	jae	.LBB88_4
	xorl	%esi, %esi
	xorl	%edx, %edx
	jmp	.LBB88_7
.LBB88_12:
	xorl	%edx, %edx
	movw	$5, %cx
	jmp	.LBB88_29
.LBB88_14:
	movzbl	27(%rsp), %edx
	movw	$6, %cx
	jmp	.LBB88_28
.LBB88_4:
	movl	%ecx, %edx
	andl	$-8, %edx
	pxor	%xmm0, %xmm0
	xorl	%esi, %esi
	.p2align	4
.LBB88_5:
	movq	158(%rsp,%rsi), %xmm1
	pcmpeqb	.LCPI88_0(%rip), %xmm1
	pmovzxbw	%xmm1, %xmm1
	pand	.LCPI88_1(%rip), %xmm1
	paddw	%xmm1, %xmm0
	addq	$8, %rsi
	cmpq	%rsi, %rdx
	jne	.LBB88_5
	pshufd	$238, %xmm0, %xmm1
	paddw	%xmm0, %xmm1
	pshufd	$85, %xmm1, %xmm0
	paddw	%xmm1, %xmm0
	movdqa	%xmm0, %xmm1
	psrld	$16, %xmm1
	paddw	%xmm0, %xmm1
	movd	%xmm1, %esi
	cmpl	%ecx, %edx
	je	.LBB88_8
	.p2align	4
.LBB88_7:
	xorl	%edi, %edi
	cmpb	$-15, 158(%rsp,%rdx)
	sete	%dil
	addl	%edi, %esi
	incq	%rdx
	cmpq	%rdx, %rcx
	jne	.LBB88_7
.LBB88_8:
	cmpw	$31, %si
	ja	.LBB88_10
.LBB88_9:
	movzbl	%al, %edi
	leaq	138(%rsp), %rsi
	leaq	56(%rsp), %rdx
	movq	%rbx, %rcx
	callq	"ecc200_calls::answer::answer_words::<#567d55e21e7b6b5b>"
	jmp	.LBB88_30
.LBB88_10:
	movzbl	%al, %edi
	leaq	138(%rsp), %rsi
	leaq	56(%rsp), %rdx
	movq	%rbx, %rcx
	callq	"ecc200_calls::answer::answer_words::<#26b4767b40623cca>"
	jmp	.LBB88_30
.LBB88_27:
	movw	$21, %cx
.LBB88_28:
	xorl	%eax, %eax
.LBB88_29:
	movw	%cx, (%rbx)
	movw	%ax, 2(%rbx)
	movw	%dx, 4(%rbx)
	pxor	%xmm0, %xmm0
	movdqu	%xmm0, 6(%rbx)
	movq	$0, 22(%rbx)
.LBB88_30:
	addq	$2336, %rsp
	.cfi_def_cfa_offset 48
	popq	%rbx
	.cfi_def_cfa_offset 40
	popq	%r12
	.cfi_def_cfa_offset 32
	popq	%r13
	.cfi_def_cfa_offset 24
	popq	%r14
	.cfi_def_cfa_offset 16
	popq	%r15
	.cfi_def_cfa_offset 8
	retq
.LBB88_18:
	.cfi_def_cfa_offset 2384
	movzwl	32(%rsp), %esi
	movzwl	%dx, %eax
	movzbl	%al, %ecx
	leaq	.LJTI88_0(%rip), %rdx
	movslq	(%rdx,%rcx,4), %rcx
	addq	%rdx, %rcx
	jmpq	*%rcx
.LBB88_19:
	movw	$7, %cx
	jmp	.LBB88_20
.LBB88_24:
	movw	$11, %cx
	jmp	.LBB88_20
.LBB88_22:
	movw	$9, %cx
	jmp	.LBB88_20
.LBB88_23:
	movw	$10, %cx
	jmp	.LBB88_20
.LBB88_21:
	shrl	$8, %eax
	movw	$8, %cx
	movl	%esi, %edx
	jmp	.LBB88_29
.LBB88_25:
	movw	$12, %cx
	jmp	.LBB88_20
.LBB88_26:
	movw	$13, %cx
.LBB88_20:
	xorl	%eax, %eax
	movl	%esi, %edx
	jmp	.LBB88_29
.Lfunc_end88:
	.size	"ecc200_calls::answer::answer_given::<#bf8ac5d4f1318e40>", .Lfunc_end88-"ecc200_calls::answer::answer_given::<#bf8ac5d4f1318e40>"
	.cfi_endproc
	.section	.rodata,"a",@progbits
	.p2align	2, 0x0
.LJTI88_0:
	.long	.LBB88_19-.LJTI88_0
	.long	.LBB88_21-.LJTI88_0
	.long	.LBB88_22-.LJTI88_0
	.long	.LBB88_23-.LJTI88_0
	.long	.LBB88_24-.LJTI88_0
	.long	.LBB88_25-.LJTI88_0
	.long	.LBB88_26-.LJTI88_0

	.text
	.p2align	4
	.type	"ecc200_calls::answer::answer_words::<#567d55e21e7b6b5b>",@function
"ecc200_calls::answer::answer_words::<#567d55e21e7b6b5b>":
	.cfi_startproc
	pushq	%rbp
	.cfi_def_cfa_offset 16
	pushq	%r15
	.cfi_def_cfa_offset 24
	pushq	%r14
	.cfi_def_cfa_offset 32
	pushq	%r13
	.cfi_def_cfa_offset 40
	pushq	%r12
	.cfi_def_cfa_offset 48
	pushq	%rbx
	.cfi_def_cfa_offset 56
	subq	$3072, %rsp
	.cfi_adjust_cfa_offset 3072
	movq	$0, (%rsp)
	subq	$3072, %rsp
	.cfi_adjust_cfa_offset 3072
	movq	$0, (%rsp)
	subq	$504, %rsp
	.cfi_def_cfa_offset 6704
	.cfi_offset %rbx, -56
	.cfi_offset %r12, -48
	.cfi_offset %r13, -40
	.cfi_offset %r14, -32
	.cfi_offset %r15, -24
	.cfi_offset %rbp, -16
	movq	%rcx, 8(%rsp)
	movq	%rdx, %r13
	movq	%rsi, %r15
	movl	%edi, %r12d
	xorps	%xmm0, %xmm0
	movaps	%xmm0, 112(%rsp)
	movaps	%xmm0, 96(%rsp)
	movaps	%xmm0, 80(%rsp)
	movaps	%xmm0, 64(%rsp)
	movaps	%xmm0, 48(%rsp)
	leaq	20(%rsi), %rbx
	movzwl	12(%rsi), %ebp
	leaq	128(%rsp), %rdi
	movl	$6512, %edx
	xorl	%esi, %esi
	callq	memset@PLT
	xorps	%xmm0, %xmm0
	movaps	%xmm0, 32(%rsp)
	movaps	%xmm0, 16(%rsp)
	leaq	134(%rsp), %r14
	leaq	6392(%rsp), %rax
	leaq	16(%rsp), %rdi
	movl	%r12d, %esi
	movq	%rax, %r12
	movq	%rbx, %rdx
	movq	%rbp, %rcx
	movq	%r14, %r8
	movq	%rax, %r9
	callq	"dm_words::contents::reading::read_content"
	cmpb	$0, 16(%rsp)
	je	.LBB89_4
	movzbl	18(%rsp), %eax
	movzwl	20(%rsp), %esi
	cmpl	$2, %eax
	je	.LBB89_7
	cmpl	$1, %eax
	jne	.LBB89_8
	xorl	%eax, %eax
	movw	$20, %cx
	jmp	.LBB89_23
.LBB89_4:
	movq	24(%rsp), %rdx
	movq	32(%rsp), %rcx
	movq	40(%rsp), %rax
	movl	%edx, %edi
	shrl	$8, %edi
	movq	%rdx, %rsi
	shrq	$16, %rsi
	movb	%dl, 128(%rsp)
	movb	%dil, 129(%rsp)
	movl	%esi, 130(%rsp)
	movq	%rcx, 6384(%rsp)
	movq	%rax, 6640(%rsp)
	xorl	%r8d, %r8d
	testb	%dil, %dil
	setne	%r8b
	xorl	%r9d, %r9d
	testb	%dl, %dl
	leaq	1(%r8,%r8,2), %rdi
	cmovneq	%rdi, %r9
	movb	$1, %dil
	subq	%r9, %rbp
	je	.LBB89_28
	cmpq	$1, %rbp
	jne	.LBB89_10
	cmpb	$-24, (%rbx,%r9)
	sete	%dil
	incb	%dil
	jmp	.LBB89_28
.LBB89_7:
	movw	$21, %cx
	xorl	%eax, %eax
	jmp	.LBB89_23
.LBB89_8:
	movzwl	22(%rsp), %edx
	movzwl	%si, %eax
	movzbl	%al, %ecx
	leaq	.LJTI89_0(%rip), %rsi
	movslq	(%rsi,%rcx,4), %rcx
	addq	%rsi, %rcx
	jmpq	*%rcx
.LBB89_9:
	movw	$7, %cx
	jmp	.LBB89_21
.LBB89_10:
	movzbl	(%rbx,%r9), %r8d
	movb	$2, %dil
	cmpl	$232, %r8d
	je	.LBB89_28
	cmpb	$-24, 1(%rbx,%r9)
	jne	.LBB89_27
	movb	$3, %dil
	leal	-230(%r8), %r9d
	cmpl	$11, %r9d
	ja	.LBB89_24
	addq	$-2, %rbp
	leaq	.LJTI89_1(%rip), %r10
	movslq	(%r10,%r9,4), %r9
	addq	%r10, %r9
	jmpq	*%r9
.LBB89_14:
	testq	%rbp, %rbp
	jne	.LBB89_27
	jmp	.LBB89_28
.LBB89_15:
	movw	$11, %cx
	jmp	.LBB89_21
.LBB89_16:
	movw	$9, %cx
	jmp	.LBB89_21
.LBB89_17:
	movw	$10, %cx
	jmp	.LBB89_21
.LBB89_18:
	shrl	$8, %eax
	movw	$8, %cx
	jmp	.LBB89_22
.LBB89_19:
	movw	$12, %cx
	jmp	.LBB89_21
.LBB89_20:
	movw	$13, %cx
.LBB89_21:
	xorl	%eax, %eax
.LBB89_22:
	movl	%edx, %esi
.LBB89_23:
	movq	8(%rsp), %rdx
	movw	%cx, (%rdx)
	movw	%ax, 2(%rdx)
	movw	%si, 4(%rdx)
	xorps	%xmm0, %xmm0
	movups	%xmm0, 6(%rdx)
	movq	$0, 22(%rdx)
	jmp	.LBB89_29
.LBB89_24:
	testl	%r8d, %r8d
	je	.LBB89_27
	cmpl	$129, %r8d
	je	.LBB89_27
.LBB89_26:
	cmpb	$-26, %r8b
	jb	.LBB89_28
.LBB89_27:
	movb	$1, %dil
.LBB89_28:
	leal	3(%rdi), %r8d
	testq	%rax, %rax
	movzbl	%dil, %edi
	movzbl	%r8b, %r8d
	cmovel	%edi, %r8d
	movl	16(%r15), %edi
	movl	%edi, 64(%rsp)
	movups	(%r15), %xmm0
	movaps	%xmm0, 48(%rsp)
	movw	%dx, 68(%rsp)
	movl	%esi, 70(%rsp)
	movq	%r14, 80(%rsp)
	movq	%rcx, 88(%rsp)
	movq	%r12, 96(%rsp)
	movq	%rax, 104(%rsp)
	movb	%r8b, 112(%rsp)
	movq	%r13, 120(%rsp)
	leaq	48(%rsp), %rdi
	movq	8(%rsp), %rsi
	callq	"ecc200_calls::reading::ReadingAnswer::show"
.LBB89_29:
	addq	$6648, %rsp
	.cfi_def_cfa_offset 56
	popq	%rbx
	.cfi_def_cfa_offset 48
	popq	%r12
	.cfi_def_cfa_offset 40
	popq	%r13
	.cfi_def_cfa_offset 32
	popq	%r14
	.cfi_def_cfa_offset 24
	popq	%r15
	.cfi_def_cfa_offset 16
	popq	%rbp
	.cfi_def_cfa_offset 8
	retq
.LBB89_30:
	.cfi_def_cfa_offset 6704
	cmpq	$2, %rbp
	jae	.LBB89_27
	jmp	.LBB89_28
.Lfunc_end89:
	.size	"ecc200_calls::answer::answer_words::<#567d55e21e7b6b5b>", .Lfunc_end89-"ecc200_calls::answer::answer_words::<#567d55e21e7b6b5b>"
	.cfi_endproc
	.section	.rodata,"a",@progbits
	.p2align	2, 0x0
.LJTI89_0:
	.long	.LBB89_9-.LJTI89_0
	.long	.LBB89_18-.LJTI89_0
	.long	.LBB89_16-.LJTI89_0
	.long	.LBB89_17-.LJTI89_0
	.long	.LBB89_15-.LJTI89_0
	.long	.LBB89_19-.LJTI89_0
	.long	.LBB89_20-.LJTI89_0
.LJTI89_1:
	.long	.LBB89_14-.LJTI89_1
	.long	.LBB89_27-.LJTI89_1
	.long	.LBB89_26-.LJTI89_1
	.long	.LBB89_26-.LJTI89_1
	.long	.LBB89_26-.LJTI89_1
	.long	.LBB89_27-.LJTI89_1
	.long	.LBB89_28-.LJTI89_1
	.long	.LBB89_28-.LJTI89_1
	.long	.LBB89_14-.LJTI89_1
	.long	.LBB89_14-.LJTI89_1
	.long	.LBB89_30-.LJTI89_1
	.long	.LBB89_27-.LJTI89_1

	.text
	.p2align	4
	.type	"ecc200_calls::answer::answer_words::<#26b4767b40623cca>",@function
"ecc200_calls::answer::answer_words::<#26b4767b40623cca>":
	.cfi_startproc
	pushq	%rbp
	.cfi_def_cfa_offset 16
	pushq	%r15
	.cfi_def_cfa_offset 24
	pushq	%r14
	.cfi_def_cfa_offset 32
	pushq	%r13
	.cfi_def_cfa_offset 40
	pushq	%r12
	.cfi_def_cfa_offset 48
	pushq	%rbx
	.cfi_def_cfa_offset 56
	subq	$3072, %rsp
	.cfi_adjust_cfa_offset 3072
	movq	$0, (%rsp)
	subq	$3072, %rsp
	.cfi_adjust_cfa_offset 3072
	movq	$0, (%rsp)
	subq	$3072, %rsp
	.cfi_adjust_cfa_offset 3072
	movq	$0, (%rsp)
	subq	$3072, %rsp
	.cfi_adjust_cfa_offset 3072
	movq	$0, (%rsp)
	subq	$344, %rsp
	.cfi_def_cfa_offset 12688
	.cfi_offset %rbx, -56
	.cfi_offset %r12, -48
	.cfi_offset %r13, -40
	.cfi_offset %r14, -32
	.cfi_offset %r15, -24
	.cfi_offset %rbp, -16
	movq	%rcx, 8(%rsp)
	movq	%rdx, %r13
	movq	%rsi, %r15
	movl	%edi, %r12d
	xorps	%xmm0, %xmm0
	movaps	%xmm0, 112(%rsp)
	movaps	%xmm0, 96(%rsp)
	movaps	%xmm0, 80(%rsp)
	movaps	%xmm0, 64(%rsp)
	movaps	%xmm0, 48(%rsp)
	leaq	20(%rsi), %rbx
	movzwl	12(%rsi), %ebp
	leaq	128(%rsp), %rdi
	movl	$12496, %edx
	xorl	%esi, %esi
	callq	memset@PLT
	xorps	%xmm0, %xmm0
	movaps	%xmm0, 32(%rsp)
	movaps	%xmm0, 16(%rsp)
	leaq	134(%rsp), %r14
	leaq	6392(%rsp), %rax
	leaq	16(%rsp), %rdi
	movl	%r12d, %esi
	movq	%rax, %r12
	movq	%rbx, %rdx
	movq	%rbp, %rcx
	movq	%r14, %r8
	movq	%rax, %r9
	callq	"dm_words::contents::reading::read_content"
	cmpb	$0, 16(%rsp)
	je	.LBB90_4
	movzbl	18(%rsp), %eax
	movzwl	20(%rsp), %esi
	cmpl	$2, %eax
	je	.LBB90_7
	cmpl	$1, %eax
	jne	.LBB90_8
	xorl	%eax, %eax
	movw	$20, %cx
	jmp	.LBB90_23
.LBB90_4:
	movq	24(%rsp), %rdx
	movq	32(%rsp), %rcx
	movq	40(%rsp), %rax
	movl	%edx, %edi
	shrl	$8, %edi
	movq	%rdx, %rsi
	shrq	$16, %rsi
	movb	%dl, 128(%rsp)
	movb	%dil, 129(%rsp)
	movl	%esi, 130(%rsp)
	movq	%rcx, 6384(%rsp)
	movq	%rax, 12624(%rsp)
	xorl	%r8d, %r8d
	testb	%dil, %dil
	setne	%r8b
	xorl	%r9d, %r9d
	testb	%dl, %dl
	leaq	1(%r8,%r8,2), %rdi
	cmovneq	%rdi, %r9
	movb	$1, %dil
	subq	%r9, %rbp
	je	.LBB90_28
	cmpq	$1, %rbp
	jne	.LBB90_10
	cmpb	$-24, (%rbx,%r9)
	sete	%dil
	incb	%dil
	jmp	.LBB90_28
.LBB90_7:
	movw	$21, %cx
	xorl	%eax, %eax
	jmp	.LBB90_23
.LBB90_8:
	movzwl	22(%rsp), %edx
	movzwl	%si, %eax
	movzbl	%al, %ecx
	leaq	.LJTI90_0(%rip), %rsi
	movslq	(%rsi,%rcx,4), %rcx
	addq	%rsi, %rcx
	jmpq	*%rcx
.LBB90_9:
	movw	$7, %cx
	jmp	.LBB90_21
.LBB90_10:
	movzbl	(%rbx,%r9), %r8d
	movb	$2, %dil
	cmpl	$232, %r8d
	je	.LBB90_28
	cmpb	$-24, 1(%rbx,%r9)
	jne	.LBB90_27
	movb	$3, %dil
	leal	-230(%r8), %r9d
	cmpl	$11, %r9d
	ja	.LBB90_24
	addq	$-2, %rbp
	leaq	.LJTI90_1(%rip), %r10
	movslq	(%r10,%r9,4), %r9
	addq	%r10, %r9
	jmpq	*%r9
.LBB90_14:
	testq	%rbp, %rbp
	jne	.LBB90_27
	jmp	.LBB90_28
.LBB90_15:
	movw	$11, %cx
	jmp	.LBB90_21
.LBB90_16:
	movw	$9, %cx
	jmp	.LBB90_21
.LBB90_17:
	movw	$10, %cx
	jmp	.LBB90_21
.LBB90_18:
	shrl	$8, %eax
	movw	$8, %cx
	jmp	.LBB90_22
.LBB90_19:
	movw	$12, %cx
	jmp	.LBB90_21
.LBB90_20:
	movw	$13, %cx
.LBB90_21:
	xorl	%eax, %eax
.LBB90_22:
	movl	%edx, %esi
.LBB90_23:
	movq	8(%rsp), %rdx
	movw	%cx, (%rdx)
	movw	%ax, 2(%rdx)
	movw	%si, 4(%rdx)
	xorps	%xmm0, %xmm0
	movups	%xmm0, 6(%rdx)
	movq	$0, 22(%rdx)
	jmp	.LBB90_29
.LBB90_24:
	testl	%r8d, %r8d
	je	.LBB90_27
	cmpl	$129, %r8d
	je	.LBB90_27
.LBB90_26:
	cmpb	$-26, %r8b
	jb	.LBB90_28
.LBB90_27:
	movb	$1, %dil
.LBB90_28:
	leal	3(%rdi), %r8d
	testq	%rax, %rax
	movzbl	%dil, %edi
	movzbl	%r8b, %r8d
	cmovel	%edi, %r8d
	movl	16(%r15), %edi
	movl	%edi, 64(%rsp)
	movups	(%r15), %xmm0
	movaps	%xmm0, 48(%rsp)
	movw	%dx, 68(%rsp)
	movl	%esi, 70(%rsp)
	movq	%r14, 80(%rsp)
	movq	%rcx, 88(%rsp)
	movq	%r12, 96(%rsp)
	movq	%rax, 104(%rsp)
	movb	%r8b, 112(%rsp)
	movq	%r13, 120(%rsp)
	leaq	48(%rsp), %rdi
	movq	8(%rsp), %rsi
	callq	"ecc200_calls::reading::ReadingAnswer::show"
.LBB90_29:
	addq	$12632, %rsp
	.cfi_def_cfa_offset 56
	popq	%rbx
	.cfi_def_cfa_offset 48
	popq	%r12
	.cfi_def_cfa_offset 40
	popq	%r13
	.cfi_def_cfa_offset 32
	popq	%r14
	.cfi_def_cfa_offset 24
	popq	%r15
	.cfi_def_cfa_offset 16
	popq	%rbp
	.cfi_def_cfa_offset 8
	retq
.LBB90_30:
	.cfi_def_cfa_offset 12688
	cmpq	$2, %rbp
	jae	.LBB90_27
	jmp	.LBB90_28
.Lfunc_end90:
	.size	"ecc200_calls::answer::answer_words::<#26b4767b40623cca>", .Lfunc_end90-"ecc200_calls::answer::answer_words::<#26b4767b40623cca>"
	.cfi_endproc
	.section	.rodata,"a",@progbits
	.p2align	2, 0x0
.LJTI90_0:
	.long	.LBB90_9-.LJTI90_0
	.long	.LBB90_18-.LJTI90_0
	.long	.LBB90_16-.LJTI90_0
	.long	.LBB90_17-.LJTI90_0
	.long	.LBB90_15-.LJTI90_0
	.long	.LBB90_19-.LJTI90_0
	.long	.LBB90_20-.LJTI90_0
.LJTI90_1:
	.long	.LBB90_14-.LJTI90_1
	.long	.LBB90_27-.LJTI90_1
	.long	.LBB90_26-.LJTI90_1
	.long	.LBB90_26-.LJTI90_1
	.long	.LBB90_26-.LJTI90_1
	.long	.LBB90_27-.LJTI90_1
	.long	.LBB90_28-.LJTI90_1
	.long	.LBB90_28-.LJTI90_1
	.long	.LBB90_14-.LJTI90_1
	.long	.LBB90_14-.LJTI90_1
	.long	.LBB90_30-.LJTI90_1
	.long	.LBB90_27-.LJTI90_1

	.text
	.p2align	4
	.type	"ecc200_calls::how::check_how",@function
"ecc200_calls::how::check_how":
	.cfi_startproc
	movzwl	(%rsi), %eax
	movzwl	2(%rsi), %ecx
	movss	4(%rsi), %xmm1
	movq	10(%rsi), %rdx
	testl	%eax, %eax
	je	.LBB91_10
	cmpl	$2, %eax
	je	.LBB91_4
	movw	$16, %si
	cmpl	$1, %eax
	jne	.LBB91_8
	movw	$256, %ax
	jmp	.LBB91_10
.LBB91_4:
	movzwl	8(%rsi), %eax
	testl	%eax, %eax
	je	.LBB91_5
	cmpl	$1, %eax
	jne	.LBB91_7
	movw	$1, %ax
	jmp	.LBB91_10
.LBB91_5:
	movw	$257, %ax
.LBB91_10:
	movzwl	%cx, %esi
	xorps	%xmm0, %xmm0
	cmpl	$4, %esi
	jb	.LBB91_12
	movaps	%xmm1, %xmm0
	jne	.LBB91_29
.LBB91_12:
	cmpw	$2, %dx
	je	.LBB91_25
	movzwl	%dx, %esi
	cmpl	$1, %esi
	je	.LBB91_16
	testl	%esi, %esi
	jne	.LBB91_31
	cmpq	$65536, %rdx
	setb	%r10b
	xorl	%edx, %edx
	xorl	%r8d, %r8d
	jmp	.LBB91_26
.LBB91_16:
	movq	%rdx, %r8
	shrq	$16, %r8
	movq	%rdx, %r9
	shrq	$32, %r9
	cmpw	$17, %r8w
	setae	%sil
	cmpw	$17, %r9w
	setae	%r10b
	orb	%sil, %r10b
	jne	.LBB91_31
	movq	%rdx, %r11
	shrq	$48, %r11
	shrq	$56, %rdx
	xorl	%esi, %esi
	testb	%r8b, %r8b
	je	.LBB91_18
	pushq	%rbx
	.cfi_def_cfa_offset 16
	.cfi_offset %rbx, -16
	leal	-1(%r11), %ebx
	xorl	%r10d, %r10d
	cmpb	$-3, %bl
	ja	.LBB91_24
	cmpb	%r9b, %r8b
	ja	.LBB91_24
	leal	-2(%r9), %ebx
	cmpb	$14, %bl
	ja	.LBB91_24
	leal	-1(%rdx), %r10d
	cmpb	$-2, %r10b
	setb	%r10b
.LBB91_24:
	popq	%rbx
	.cfi_def_cfa_offset 8
	.cfi_restore %rbx
	jmp	.LBB91_19
.LBB91_25:
	cmpq	$65536, %rdx
	setb	%r10b
	xorl	%r8d, %r8d
	movl	%r10d, %edx
.LBB91_26:
	xorl	%esi, %esi
.LBB91_27:
	testb	%r10b, %r10b
	je	.LBB91_31
	movw	$0, (%rdi)
	movw	%ax, 2(%rdi)
	movw	%cx, 4(%rdi)
	movss	%xmm0, 6(%rdi)
	movb	%dl, 10(%rdi)
	movb	%r8b, 11(%rdi)
	movl	%esi, 12(%rdi)
	retq
.LBB91_31:
	movl	$1507329, (%rdi)
	movq	$0, 4(%rdi)
	movl	$0, 12(%rdi)
	retq
.LBB91_29:
	movl	$1179649, (%rdi)
	movw	%cx, 4(%rdi)
	jmp	.LBB91_30
.LBB91_7:
	movw	$17, %si
.LBB91_8:
	movw	$1, (%rdi)
	movw	%si, 2(%rdi)
	movw	%ax, 4(%rdi)
.LBB91_30:
	movq	$0, 6(%rdi)
	movw	$0, 14(%rdi)
	retq
.LBB91_18:
	xorl	%r10d, %r10d
.LBB91_19:
	shll	$24, %edx
	movzbl	%r11b, %r11d
	shll	$16, %r11d
	orl	%edx, %r11d
	andl	$31, %r9d
	shll	$8, %r9d
	orl	%r11d, %r9d
	andl	$31, %r8d
	orl	%r9d, %r8d
	testb	%r10b, %r10b
	cmovnel	%r8d, %esi
	movl	%r10d, %edx
	movl	%r10d, %r8d
	jmp	.LBB91_27
.Lfunc_end91:
	.size	"ecc200_calls::how::check_how", .Lfunc_end91-"ecc200_calls::how::check_how"
	.cfi_endproc

	.section	.rodata.cst16,"aM",@progbits,16
	.p2align	4, 0x0
.LCPI92_0:
	.short	255
	.short	255
	.short	255
	.short	255
	.short	255
	.short	255
	.short	255
	.short	255
.LCPI92_1:
	.byte	1
	.byte	1
	.byte	1
	.byte	1
	.byte	1
	.byte	1
	.byte	1
	.byte	1
	.zero	1
	.zero	1
	.zero	1
	.zero	1
	.zero	1
	.zero	1
	.zero	1
	.zero	1
.LCPI92_2:
	.short	256
	.short	256
	.short	256
	.short	256
	.short	256
	.short	256
	.short	256
	.short	256
.LCPI92_3:
	.byte	0
	.byte	2
	.byte	4
	.byte	6
	.byte	8
	.byte	10
	.byte	12
	.byte	14
	.zero	1
	.zero	1
	.zero	1
	.zero	1
	.zero	1
	.zero	1
	.zero	1
	.zero	1
	.text
	.p2align	4
	.type	"ecc200_calls::writing::write_content_of::<#d4a6cd8012f658d3>",@function
"ecc200_calls::writing::write_content_of::<#d4a6cd8012f658d3>":
	.cfi_startproc
	pushq	%r15
	.cfi_def_cfa_offset 16
	pushq	%r14
	.cfi_def_cfa_offset 24
	pushq	%r13
	.cfi_def_cfa_offset 32
	pushq	%r12
	.cfi_def_cfa_offset 40
	pushq	%rbx
	.cfi_def_cfa_offset 48
	subq	$288, %rsp
	.cfi_def_cfa_offset 336
	.cfi_offset %rbx, -48
	.cfi_offset %r12, -40
	.cfi_offset %r13, -32
	.cfi_offset %r14, -24
	.cfi_offset %r15, -16
	movq	%r8, %rbx
	movq	%rcx, %r14
	movq	%rdx, %r12
	movq	%rsi, %r15
	movq	%rdi, %r13
	movzbl	(%r9), %eax
	movb	%al, 20(%rsp)
	movzbl	1(%r9), %eax
	movb	%al, 21(%rsp)
	movl	2(%r9), %eax
	movl	%eax, 22(%rsp)
	leaq	26(%rsp), %rdi
	movl	$262, %edx
	xorl	%esi, %esi
	callq	memset@PLT
	testq	%r15, %r15
	je	.LBB92_12
	cmpq	$16, %r15
	jb	.LBB92_2
	movq	%r15, %rax
	decq	%rax
	leaq	27(%rsp), %rax
	sets	%cl
	leaq	(%rsp,%r15,2), %rdx
	addq	$25, %rdx
	cmpq	%rax, %rdx
	setb	%al
	orb	%cl, %al
	je	.LBB92_5
.LBB92_2:
	xorl	%eax, %eax
.LBB92_8:
	movq	%rax, %rcx
	orq	$1, %rcx
	testb	$1, %r15b
	je	.LBB92_10
	movzwl	(%r13,%rax,2), %edx
	cmpl	$256, %edx
	movl	$256, %esi
	setb	26(%rsp,%rax,2)
	cmovbl	%edx, %esi
	movb	%sil, 27(%rsp,%rax,2)
	movq	%rcx, %rax
.LBB92_10:
	cmpq	%rcx, %r15
	je	.LBB92_12
	.p2align	4
.LBB92_11:
	movzwl	(%r13,%rax,2), %ecx
	cmpl	$256, %ecx
	movl	$256, %edx
	cmovael	%edx, %ecx
	setb	26(%rsp,%rax,2)
	movb	%cl, 27(%rsp,%rax,2)
	movzwl	2(%r13,%rax,2), %ecx
	cmpl	$256, %ecx
	cmovbl	%ecx, %edx
	setb	28(%rsp,%rax,2)
	movb	%dl, 29(%rsp,%rax,2)
	addq	$2, %rax
	cmpq	%rax, %r15
	jne	.LBB92_11
	jmp	.LBB92_12
.LBB92_5:
	movq	%r15, %rax
	andq	$-8, %rax
	xorl	%ecx, %ecx
	.p2align	4
.LBB92_6:
	movdqu	(%r13,%rcx,2), %xmm0
	movdqa	.LCPI92_0(%rip), %xmm1
	pminuw	%xmm0, %xmm1
	pcmpeqw	%xmm0, %xmm1
	packsswb	%xmm1, %xmm1
	pand	.LCPI92_1(%rip), %xmm1
	pminuw	.LCPI92_2(%rip), %xmm0
	pshufb	.LCPI92_3(%rip), %xmm0
	punpcklbw	%xmm0, %xmm1
	movdqu	%xmm1, 26(%rsp,%rcx,2)
	addq	$8, %rcx
	cmpq	%rcx, %rax
	jne	.LBB92_6
	cmpq	%rax, %r15
	jne	.LBB92_8
.LBB92_12:
	movq	336(%rsp), %rax
	testq	%r14, %r14
	je	.LBB92_21
	movl	%r14d, %ecx
	andl	$3, %ecx
	cmpq	$4, %r14
	jae	.LBB92_15
	xorl	%edx, %edx
	jmp	.LBB92_18
.LBB92_15:
	movq	%r14, %rdi
	andq	$-4, %rdi
	xorl	%edx, %edx
	.p2align	4
.LBB92_16:
	movl	(%r12,%rdx,8), %esi
	movw	$0, 18(%rsp,%rdx,8)
	movl	%esi, 20(%rsp,%rdx,8)
	movl	8(%r12,%rdx,8), %esi
	movw	$0, 26(%rsp,%rdx,8)
	movl	%esi, 28(%rsp,%rdx,8)
	movl	16(%r12,%rdx,8), %esi
	movw	$0, 34(%rsp,%rdx,8)
	movl	%esi, 36(%rsp,%rdx,8)
	movl	24(%r12,%rdx,8), %r8d
	movl	28(%r12,%rdx,8), %esi
	movw	$0, 42(%rsp,%rdx,8)
	movl	%r8d, 44(%rsp,%rdx,8)
	addq	$4, %rdx
	cmpq	%rdx, %rdi
	jne	.LBB92_16
	testq	%rcx, %rcx
	je	.LBB92_20
.LBB92_18:
	leaq	(%rsp,%rdx,8), %rdi
	addq	$20, %rdi
	leaq	(%r12,%rdx,8), %rdx
	addq	$4, %rdx
	xorl	%r8d, %r8d
	.p2align	4
.LBB92_19:
	movl	-4(%rdx,%r8,8), %r9d
	movl	(%rdx,%r8,8), %esi
	movw	$0, -2(%rdi,%r8,8)
	movl	%r9d, (%rdi,%r8,8)
	incq	%r8
	cmpq	%r8, %rcx
	jne	.LBB92_19
.LBB92_20:
	movw	%si, 16(%rsp)
.LBB92_21:
	movq	%rax, (%rsp)
	leaq	20(%rsp), %rdi
	leaq	26(%rsp), %rsi
	leaq	16(%rsp), %rcx
	movq	%r15, %rdx
	movq	%r14, %r8
	movq	%rbx, %r9
	callq	"ecc200_calls::writing::write_content"
	addq	$288, %rsp
	.cfi_def_cfa_offset 48
	popq	%rbx
	.cfi_def_cfa_offset 40
	popq	%r12
	.cfi_def_cfa_offset 32
	popq	%r13
	.cfi_def_cfa_offset 24
	popq	%r14
	.cfi_def_cfa_offset 16
	popq	%r15
	.cfi_def_cfa_offset 8
	retq
.Lfunc_end92:
	.size	"ecc200_calls::writing::write_content_of::<#d4a6cd8012f658d3>", .Lfunc_end92-"ecc200_calls::writing::write_content_of::<#d4a6cd8012f658d3>"
	.cfi_endproc

	.section	.rodata.cst16,"aM",@progbits,16
	.p2align	4, 0x0
.LCPI93_0:
	.short	255
	.short	255
	.short	255
	.short	255
	.short	255
	.short	255
	.short	255
	.short	255
.LCPI93_1:
	.byte	1
	.byte	1
	.byte	1
	.byte	1
	.byte	1
	.byte	1
	.byte	1
	.byte	1
	.zero	1
	.zero	1
	.zero	1
	.zero	1
	.zero	1
	.zero	1
	.zero	1
	.zero	1
.LCPI93_2:
	.short	256
	.short	256
	.short	256
	.short	256
	.short	256
	.short	256
	.short	256
	.short	256
.LCPI93_3:
	.byte	0
	.byte	2
	.byte	4
	.byte	6
	.byte	8
	.byte	10
	.byte	12
	.byte	14
	.zero	1
	.zero	1
	.zero	1
	.zero	1
	.zero	1
	.zero	1
	.zero	1
	.zero	1
	.text
	.p2align	4
	.type	"ecc200_calls::writing::write_content_of::<#b76b4ae358bda620>",@function
"ecc200_calls::writing::write_content_of::<#b76b4ae358bda620>":
	.cfi_startproc
	pushq	%r15
	.cfi_def_cfa_offset 16
	pushq	%r14
	.cfi_def_cfa_offset 24
	pushq	%r13
	.cfi_def_cfa_offset 32
	pushq	%r12
	.cfi_def_cfa_offset 40
	pushq	%rbx
	.cfi_def_cfa_offset 48
	subq	$848, %rsp
	.cfi_def_cfa_offset 896
	.cfi_offset %rbx, -48
	.cfi_offset %r12, -40
	.cfi_offset %r13, -32
	.cfi_offset %r14, -24
	.cfi_offset %r15, -16
	movq	%r8, %rbx
	movq	%rcx, %r14
	movq	%rdx, %r12
	movq	%rsi, %r15
	movq	%rdi, %r13
	movzbl	(%r9), %eax
	movb	%al, 12(%rsp)
	movzbl	1(%r9), %eax
	movb	%al, 13(%rsp)
	movl	2(%r9), %eax
	movl	%eax, 14(%rsp)
	leaq	18(%rsp), %rdi
	movl	$830, %edx
	xorl	%esi, %esi
	callq	memset@PLT
	testq	%r15, %r15
	je	.LBB93_12
	cmpq	$16, %r15
	jb	.LBB93_2
	movq	%r15, %rax
	decq	%rax
	leaq	19(%rsp), %rax
	sets	%cl
	leaq	(%rsp,%r15,2), %rdx
	addq	$17, %rdx
	cmpq	%rax, %rdx
	setb	%al
	orb	%cl, %al
	je	.LBB93_5
.LBB93_2:
	xorl	%eax, %eax
.LBB93_8:
	movq	%rax, %rcx
	orq	$1, %rcx
	testb	$1, %r15b
	je	.LBB93_10
	movzwl	(%r13,%rax,2), %edx
	cmpl	$256, %edx
	movl	$256, %esi
	setb	18(%rsp,%rax,2)
	cmovbl	%edx, %esi
	movb	%sil, 19(%rsp,%rax,2)
	movq	%rcx, %rax
.LBB93_10:
	cmpq	%rcx, %r15
	je	.LBB93_12
	.p2align	4
.LBB93_11:
	movzwl	(%r13,%rax,2), %ecx
	cmpl	$256, %ecx
	movl	$256, %edx
	cmovael	%edx, %ecx
	setb	18(%rsp,%rax,2)
	movb	%cl, 19(%rsp,%rax,2)
	movzwl	2(%r13,%rax,2), %ecx
	cmpl	$256, %ecx
	cmovbl	%ecx, %edx
	setb	20(%rsp,%rax,2)
	movb	%dl, 21(%rsp,%rax,2)
	addq	$2, %rax
	cmpq	%rax, %r15
	jne	.LBB93_11
	jmp	.LBB93_12
.LBB93_5:
	movq	%r15, %rax
	andq	$-8, %rax
	xorl	%ecx, %ecx
	.p2align	4
.LBB93_6:
	movdqu	(%r13,%rcx,2), %xmm0
	movdqa	.LCPI93_0(%rip), %xmm1
	pminuw	%xmm0, %xmm1
	pcmpeqw	%xmm0, %xmm1
	packsswb	%xmm1, %xmm1
	pand	.LCPI93_1(%rip), %xmm1
	pminuw	.LCPI93_2(%rip), %xmm0
	pshufb	.LCPI93_3(%rip), %xmm0
	punpcklbw	%xmm0, %xmm1
	movdqu	%xmm1, 18(%rsp,%rcx,2)
	addq	$8, %rcx
	cmpq	%rcx, %rax
	jne	.LBB93_6
	cmpq	%rax, %r15
	jne	.LBB93_8
.LBB93_12:
	movq	896(%rsp), %rax
	testq	%r14, %r14
	je	.LBB93_21
	movl	%r14d, %ecx
	andl	$3, %ecx
	cmpq	$4, %r14
	jae	.LBB93_15
	xorl	%edx, %edx
	jmp	.LBB93_18
.LBB93_15:
	movq	%r14, %rdi
	andq	$-4, %rdi
	xorl	%edx, %edx
	.p2align	4
.LBB93_16:
	movl	(%r12,%rdx,8), %esi
	movw	$0, 10(%rsp,%rdx,8)
	movl	%esi, 12(%rsp,%rdx,8)
	movl	8(%r12,%rdx,8), %esi
	movw	$0, 18(%rsp,%rdx,8)
	movl	%esi, 20(%rsp,%rdx,8)
	movl	16(%r12,%rdx,8), %esi
	movw	$0, 26(%rsp,%rdx,8)
	movl	%esi, 28(%rsp,%rdx,8)
	movl	24(%r12,%rdx,8), %r8d
	movl	28(%r12,%rdx,8), %esi
	movw	$0, 34(%rsp,%rdx,8)
	movl	%r8d, 36(%rsp,%rdx,8)
	addq	$4, %rdx
	cmpq	%rdx, %rdi
	jne	.LBB93_16
	testq	%rcx, %rcx
	je	.LBB93_20
.LBB93_18:
	leaq	(%rsp,%rdx,8), %rdi
	addq	$12, %rdi
	leaq	(%r12,%rdx,8), %rdx
	addq	$4, %rdx
	xorl	%r8d, %r8d
	.p2align	4
.LBB93_19:
	movl	-4(%rdx,%r8,8), %r9d
	movl	(%rdx,%r8,8), %esi
	movw	$0, -2(%rdi,%r8,8)
	movl	%r9d, (%rdi,%r8,8)
	incq	%r8
	cmpq	%r8, %rcx
	jne	.LBB93_19
.LBB93_20:
	movw	%si, 8(%rsp)
.LBB93_21:
	movq	%rax, (%rsp)
	leaq	12(%rsp), %rdi
	leaq	18(%rsp), %rsi
	leaq	8(%rsp), %rcx
	movq	%r15, %rdx
	movq	%r14, %r8
	movq	%rbx, %r9
	callq	"ecc200_calls::writing::write_content"
	addq	$848, %rsp
	.cfi_def_cfa_offset 48
	popq	%rbx
	.cfi_def_cfa_offset 40
	popq	%r12
	.cfi_def_cfa_offset 32
	popq	%r13
	.cfi_def_cfa_offset 24
	popq	%r14
	.cfi_def_cfa_offset 16
	popq	%r15
	.cfi_def_cfa_offset 8
	retq
.Lfunc_end93:
	.size	"ecc200_calls::writing::write_content_of::<#b76b4ae358bda620>", .Lfunc_end93-"ecc200_calls::writing::write_content_of::<#b76b4ae358bda620>"
	.cfi_endproc

	.section	.rodata.cst16,"aM",@progbits,16
	.p2align	4, 0x0
.LCPI94_0:
	.short	255
	.short	255
	.short	255
	.short	255
	.short	255
	.short	255
	.short	255
	.short	255
.LCPI94_1:
	.byte	1
	.byte	1
	.byte	1
	.byte	1
	.byte	1
	.byte	1
	.byte	1
	.byte	1
	.zero	1
	.zero	1
	.zero	1
	.zero	1
	.zero	1
	.zero	1
	.zero	1
	.zero	1
.LCPI94_2:
	.short	256
	.short	256
	.short	256
	.short	256
	.short	256
	.short	256
	.short	256
	.short	256
.LCPI94_3:
	.byte	0
	.byte	2
	.byte	4
	.byte	6
	.byte	8
	.byte	10
	.byte	12
	.byte	14
	.zero	1
	.zero	1
	.zero	1
	.zero	1
	.zero	1
	.zero	1
	.zero	1
	.zero	1
	.text
	.p2align	4
	.type	"ecc200_calls::writing::write_content_of::<#568124f4bcd00b97>",@function
"ecc200_calls::writing::write_content_of::<#568124f4bcd00b97>":
	.cfi_startproc
	pushq	%r15
	.cfi_def_cfa_offset 16
	pushq	%r14
	.cfi_def_cfa_offset 24
	pushq	%r13
	.cfi_def_cfa_offset 32
	pushq	%r12
	.cfi_def_cfa_offset 40
	pushq	%rbx
	.cfi_def_cfa_offset 48
	subq	$3072, %rsp
	.cfi_adjust_cfa_offset 3072
	movq	$0, (%rsp)
	subq	$224, %rsp
	.cfi_def_cfa_offset 3344
	.cfi_offset %rbx, -48
	.cfi_offset %r12, -40
	.cfi_offset %r13, -32
	.cfi_offset %r14, -24
	.cfi_offset %r15, -16
	movq	%r8, %rbx
	movq	%rcx, %r14
	movq	%rdx, %r12
	movq	%rsi, %r15
	movq	%rdi, %r13
	movzbl	(%r9), %eax
	movb	%al, 12(%rsp)
	movzbl	1(%r9), %eax
	movb	%al, 13(%rsp)
	movl	2(%r9), %eax
	movl	%eax, 14(%rsp)
	leaq	18(%rsp), %rdi
	movl	$3278, %edx
	xorl	%esi, %esi
	callq	memset@PLT
	testq	%r15, %r15
	je	.LBB94_12
	cmpq	$16, %r15
	jb	.LBB94_2
	movq	%r15, %rax
	decq	%rax
	leaq	19(%rsp), %rax
	sets	%cl
	leaq	(%rsp,%r15,2), %rdx
	addq	$17, %rdx
	cmpq	%rax, %rdx
	setb	%al
	orb	%cl, %al
	je	.LBB94_5
.LBB94_2:
	xorl	%eax, %eax
.LBB94_8:
	movq	%rax, %rcx
	orq	$1, %rcx
	testb	$1, %r15b
	je	.LBB94_10
	movzwl	(%r13,%rax,2), %edx
	cmpl	$256, %edx
	movl	$256, %esi
	setb	18(%rsp,%rax,2)
	cmovbl	%edx, %esi
	movb	%sil, 19(%rsp,%rax,2)
	movq	%rcx, %rax
.LBB94_10:
	cmpq	%rcx, %r15
	je	.LBB94_12
	.p2align	4
.LBB94_11:
	movzwl	(%r13,%rax,2), %ecx
	cmpl	$256, %ecx
	movl	$256, %edx
	cmovael	%edx, %ecx
	setb	18(%rsp,%rax,2)
	movb	%cl, 19(%rsp,%rax,2)
	movzwl	2(%r13,%rax,2), %ecx
	cmpl	$256, %ecx
	cmovbl	%ecx, %edx
	setb	20(%rsp,%rax,2)
	movb	%dl, 21(%rsp,%rax,2)
	addq	$2, %rax
	cmpq	%rax, %r15
	jne	.LBB94_11
	jmp	.LBB94_12
.LBB94_5:
	movq	%r15, %rax
	andq	$-8, %rax
	xorl	%ecx, %ecx
	.p2align	4
.LBB94_6:
	movdqu	(%r13,%rcx,2), %xmm0
	movdqa	.LCPI94_0(%rip), %xmm1
	pminuw	%xmm0, %xmm1
	pcmpeqw	%xmm0, %xmm1
	packsswb	%xmm1, %xmm1
	pand	.LCPI94_1(%rip), %xmm1
	pminuw	.LCPI94_2(%rip), %xmm0
	pshufb	.LCPI94_3(%rip), %xmm0
	punpcklbw	%xmm0, %xmm1
	movdqu	%xmm1, 18(%rsp,%rcx,2)
	addq	$8, %rcx
	cmpq	%rcx, %rax
	jne	.LBB94_6
	cmpq	%rax, %r15
	jne	.LBB94_8
.LBB94_12:
	movq	3344(%rsp), %rax
	testq	%r14, %r14
	je	.LBB94_21
	movl	%r14d, %ecx
	andl	$3, %ecx
	cmpq	$4, %r14
	jae	.LBB94_15
	xorl	%edx, %edx
	jmp	.LBB94_18
.LBB94_15:
	movq	%r14, %rdi
	andq	$-4, %rdi
	xorl	%edx, %edx
	.p2align	4
.LBB94_16:
	movl	(%r12,%rdx,8), %esi
	movw	$0, 10(%rsp,%rdx,8)
	movl	%esi, 12(%rsp,%rdx,8)
	movl	8(%r12,%rdx,8), %esi
	movw	$0, 18(%rsp,%rdx,8)
	movl	%esi, 20(%rsp,%rdx,8)
	movl	16(%r12,%rdx,8), %esi
	movw	$0, 26(%rsp,%rdx,8)
	movl	%esi, 28(%rsp,%rdx,8)
	movl	24(%r12,%rdx,8), %r8d
	movl	28(%r12,%rdx,8), %esi
	movw	$0, 34(%rsp,%rdx,8)
	movl	%r8d, 36(%rsp,%rdx,8)
	addq	$4, %rdx
	cmpq	%rdx, %rdi
	jne	.LBB94_16
	testq	%rcx, %rcx
	je	.LBB94_20
.LBB94_18:
	leaq	(%rsp,%rdx,8), %rdi
	addq	$12, %rdi
	leaq	(%r12,%rdx,8), %rdx
	addq	$4, %rdx
	xorl	%r8d, %r8d
	.p2align	4
.LBB94_19:
	movl	-4(%rdx,%r8,8), %r9d
	movl	(%rdx,%r8,8), %esi
	movw	$0, -2(%rdi,%r8,8)
	movl	%r9d, (%rdi,%r8,8)
	incq	%r8
	cmpq	%r8, %rcx
	jne	.LBB94_19
.LBB94_20:
	movw	%si, 8(%rsp)
.LBB94_21:
	movq	%rax, (%rsp)
	leaq	12(%rsp), %rdi
	leaq	18(%rsp), %rsi
	leaq	8(%rsp), %rcx
	movq	%r15, %rdx
	movq	%r14, %r8
	movq	%rbx, %r9
	callq	"ecc200_calls::writing::write_content"
	addq	$3296, %rsp
	.cfi_def_cfa_offset 48
	popq	%rbx
	.cfi_def_cfa_offset 40
	popq	%r12
	.cfi_def_cfa_offset 32
	popq	%r13
	.cfi_def_cfa_offset 24
	popq	%r14
	.cfi_def_cfa_offset 16
	popq	%r15
	.cfi_def_cfa_offset 8
	retq
.Lfunc_end94:
	.size	"ecc200_calls::writing::write_content_of::<#568124f4bcd00b97>", .Lfunc_end94-"ecc200_calls::writing::write_content_of::<#568124f4bcd00b97>"
	.cfi_endproc

	.section	.rodata.cst16,"aM",@progbits,16
	.p2align	4, 0x0
.LCPI95_0:
	.short	255
	.short	255
	.short	255
	.short	255
	.short	255
	.short	255
	.short	255
	.short	255
.LCPI95_1:
	.byte	1
	.byte	1
	.byte	1
	.byte	1
	.byte	1
	.byte	1
	.byte	1
	.byte	1
	.zero	1
	.zero	1
	.zero	1
	.zero	1
	.zero	1
	.zero	1
	.zero	1
	.zero	1
.LCPI95_2:
	.short	256
	.short	256
	.short	256
	.short	256
	.short	256
	.short	256
	.short	256
	.short	256
.LCPI95_3:
	.byte	0
	.byte	2
	.byte	4
	.byte	6
	.byte	8
	.byte	10
	.byte	12
	.byte	14
	.zero	1
	.zero	1
	.zero	1
	.zero	1
	.zero	1
	.zero	1
	.zero	1
	.zero	1
	.text
	.p2align	4
	.type	"ecc200_calls::writing::write_content_of::<#5bc803b6b7c4bd57>",@function
"ecc200_calls::writing::write_content_of::<#5bc803b6b7c4bd57>":
	.cfi_startproc
	pushq	%r15
	.cfi_def_cfa_offset 16
	pushq	%r14
	.cfi_def_cfa_offset 24
	pushq	%r13
	.cfi_def_cfa_offset 32
	pushq	%r12
	.cfi_def_cfa_offset 40
	pushq	%rbx
	.cfi_def_cfa_offset 48
	subq	$3072, %rsp
	.cfi_adjust_cfa_offset 3072
	movq	$0, (%rsp)
	subq	$3072, %rsp
	.cfi_adjust_cfa_offset 3072
	movq	$0, (%rsp)
	subq	$128, %rsp
	.cfi_def_cfa_offset 6320
	.cfi_offset %rbx, -48
	.cfi_offset %r12, -40
	.cfi_offset %r13, -32
	.cfi_offset %r14, -24
	.cfi_offset %r15, -16
	movq	%r8, %rbx
	movq	%rcx, %r14
	movq	%rdx, %r12
	movq	%rsi, %r15
	movq	%rdi, %r13
	movzbl	(%r9), %eax
	movb	%al, 20(%rsp)
	movzbl	1(%r9), %eax
	movb	%al, 21(%rsp)
	movl	2(%r9), %eax
	movl	%eax, 22(%rsp)
	leaq	26(%rsp), %rdi
	movl	$6246, %edx
	xorl	%esi, %esi
	callq	memset@PLT
	testq	%r15, %r15
	je	.LBB95_12
	cmpq	$16, %r15
	jb	.LBB95_2
	movq	%r15, %rax
	decq	%rax
	leaq	27(%rsp), %rax
	sets	%cl
	leaq	(%rsp,%r15,2), %rdx
	addq	$25, %rdx
	cmpq	%rax, %rdx
	setb	%al
	orb	%cl, %al
	je	.LBB95_5
.LBB95_2:
	xorl	%eax, %eax
.LBB95_8:
	movq	%rax, %rcx
	orq	$1, %rcx
	testb	$1, %r15b
	je	.LBB95_10
	movzwl	(%r13,%rax,2), %edx
	cmpl	$256, %edx
	movl	$256, %esi
	setb	26(%rsp,%rax,2)
	cmovbl	%edx, %esi
	movb	%sil, 27(%rsp,%rax,2)
	movq	%rcx, %rax
.LBB95_10:
	cmpq	%rcx, %r15
	je	.LBB95_12
	.p2align	4
.LBB95_11:
	movzwl	(%r13,%rax,2), %ecx
	cmpl	$256, %ecx
	movl	$256, %edx
	cmovael	%edx, %ecx
	setb	26(%rsp,%rax,2)
	movb	%cl, 27(%rsp,%rax,2)
	movzwl	2(%r13,%rax,2), %ecx
	cmpl	$256, %ecx
	cmovbl	%ecx, %edx
	setb	28(%rsp,%rax,2)
	movb	%dl, 29(%rsp,%rax,2)
	addq	$2, %rax
	cmpq	%rax, %r15
	jne	.LBB95_11
	jmp	.LBB95_12
.LBB95_5:
	movq	%r15, %rax
	andq	$-8, %rax
	xorl	%ecx, %ecx
	.p2align	4
.LBB95_6:
	movdqu	(%r13,%rcx,2), %xmm0
	movdqa	.LCPI95_0(%rip), %xmm1
	pminuw	%xmm0, %xmm1
	pcmpeqw	%xmm0, %xmm1
	packsswb	%xmm1, %xmm1
	pand	.LCPI95_1(%rip), %xmm1
	pminuw	.LCPI95_2(%rip), %xmm0
	pshufb	.LCPI95_3(%rip), %xmm0
	punpcklbw	%xmm0, %xmm1
	movdqu	%xmm1, 26(%rsp,%rcx,2)
	addq	$8, %rcx
	cmpq	%rcx, %rax
	jne	.LBB95_6
	cmpq	%rax, %r15
	jne	.LBB95_8
.LBB95_12:
	movq	6320(%rsp), %rax
	testq	%r14, %r14
	je	.LBB95_21
	movl	%r14d, %ecx
	andl	$3, %ecx
	cmpq	$4, %r14
	jae	.LBB95_15
	xorl	%edx, %edx
	jmp	.LBB95_18
.LBB95_15:
	movq	%r14, %rdi
	andq	$-4, %rdi
	xorl	%edx, %edx
	.p2align	4
.LBB95_16:
	movl	(%r12,%rdx,8), %esi
	movw	$0, 18(%rsp,%rdx,8)
	movl	%esi, 20(%rsp,%rdx,8)
	movl	8(%r12,%rdx,8), %esi
	movw	$0, 26(%rsp,%rdx,8)
	movl	%esi, 28(%rsp,%rdx,8)
	movl	16(%r12,%rdx,8), %esi
	movw	$0, 34(%rsp,%rdx,8)
	movl	%esi, 36(%rsp,%rdx,8)
	movl	24(%r12,%rdx,8), %r8d
	movl	28(%r12,%rdx,8), %esi
	movw	$0, 42(%rsp,%rdx,8)
	movl	%r8d, 44(%rsp,%rdx,8)
	addq	$4, %rdx
	cmpq	%rdx, %rdi
	jne	.LBB95_16
	testq	%rcx, %rcx
	je	.LBB95_20
.LBB95_18:
	leaq	(%rsp,%rdx,8), %rdi
	addq	$20, %rdi
	leaq	(%r12,%rdx,8), %rdx
	addq	$4, %rdx
	xorl	%r8d, %r8d
	.p2align	4
.LBB95_19:
	movl	-4(%rdx,%r8,8), %r9d
	movl	(%rdx,%r8,8), %esi
	movw	$0, -2(%rdi,%r8,8)
	movl	%r9d, (%rdi,%r8,8)
	incq	%r8
	cmpq	%r8, %rcx
	jne	.LBB95_19
.LBB95_20:
	movw	%si, 16(%rsp)
.LBB95_21:
	movq	%rax, (%rsp)
	leaq	20(%rsp), %rdi
	leaq	26(%rsp), %rsi
	leaq	16(%rsp), %rcx
	movq	%r15, %rdx
	movq	%r14, %r8
	movq	%rbx, %r9
	callq	"ecc200_calls::writing::write_content"
	addq	$6272, %rsp
	.cfi_def_cfa_offset 48
	popq	%rbx
	.cfi_def_cfa_offset 40
	popq	%r12
	.cfi_def_cfa_offset 32
	popq	%r13
	.cfi_def_cfa_offset 24
	popq	%r14
	.cfi_def_cfa_offset 16
	popq	%r15
	.cfi_def_cfa_offset 8
	retq
.Lfunc_end95:
	.size	"ecc200_calls::writing::write_content_of::<#5bc803b6b7c4bd57>", .Lfunc_end95-"ecc200_calls::writing::write_content_of::<#5bc803b6b7c4bd57>"
	.cfi_endproc

	.section	.rodata.cst16,"aM",@progbits,16
	.p2align	4, 0x0
.LCPI96_0:
	.short	255
	.short	255
	.short	255
	.short	255
	.short	255
	.short	255
	.short	255
	.short	255
.LCPI96_1:
	.byte	1
	.byte	1
	.byte	1
	.byte	1
	.byte	1
	.byte	1
	.byte	1
	.byte	1
	.zero	1
	.zero	1
	.zero	1
	.zero	1
	.zero	1
	.zero	1
	.zero	1
	.zero	1
.LCPI96_2:
	.short	256
	.short	256
	.short	256
	.short	256
	.short	256
	.short	256
	.short	256
	.short	256
.LCPI96_3:
	.byte	0
	.byte	2
	.byte	4
	.byte	6
	.byte	8
	.byte	10
	.byte	12
	.byte	14
	.zero	1
	.zero	1
	.zero	1
	.zero	1
	.zero	1
	.zero	1
	.zero	1
	.zero	1
	.text
	.p2align	4
	.type	"ecc200_calls::writing::write_content_of::<#653d8e9eeee73d5b>",@function
"ecc200_calls::writing::write_content_of::<#653d8e9eeee73d5b>":
	.cfi_startproc
	pushq	%r15
	.cfi_def_cfa_offset 16
	pushq	%r14
	.cfi_def_cfa_offset 24
	pushq	%r13
	.cfi_def_cfa_offset 32
	pushq	%r12
	.cfi_def_cfa_offset 40
	pushq	%rbx
	.cfi_def_cfa_offset 48
	subq	$528, %rsp
	.cfi_def_cfa_offset 576
	.cfi_offset %rbx, -48
	.cfi_offset %r12, -40
	.cfi_offset %r13, -32
	.cfi_offset %r14, -24
	.cfi_offset %r15, -16
	movq	%r8, %rbx
	movq	%rcx, %r14
	movq	%rdx, %r12
	movq	%rsi, %r15
	movq	%rdi, %r13
	movzbl	(%r9), %eax
	movb	%al, 10(%rsp)
	movzbl	1(%r9), %eax
	movb	%al, 11(%rsp)
	movl	2(%r9), %eax
	movl	%eax, 12(%rsp)
	leaq	266(%rsp), %rdi
	movl	$262, %edx
	xorl	%esi, %esi
	callq	memset@PLT
	pxor	%xmm0, %xmm0
	movdqa	%xmm0, 16(%rsp)
	movdqa	%xmm0, 32(%rsp)
	movdqa	%xmm0, 48(%rsp)
	movdqa	%xmm0, 64(%rsp)
	movdqa	%xmm0, 80(%rsp)
	movdqa	%xmm0, 96(%rsp)
	movdqa	%xmm0, 112(%rsp)
	movdqa	%xmm0, 128(%rsp)
	movdqa	%xmm0, 144(%rsp)
	movdqa	%xmm0, 160(%rsp)
	movdqa	%xmm0, 176(%rsp)
	movdqa	%xmm0, 192(%rsp)
	movdqa	%xmm0, 208(%rsp)
	movdqa	%xmm0, 224(%rsp)
	movdqa	%xmm0, 240(%rsp)
	movq	$0, 256(%rsp)
	testq	%r15, %r15
	je	.LBB96_12
	cmpq	$16, %r15
	jb	.LBB96_2
	movq	%r15, %rax
	decq	%rax
	leaq	267(%rsp), %rax
	sets	%cl
	leaq	(%rsp,%r15,2), %rdx
	addq	$265, %rdx
	cmpq	%rax, %rdx
	setb	%al
	orb	%cl, %al
	je	.LBB96_5
.LBB96_2:
	xorl	%eax, %eax
.LBB96_8:
	movq	%rax, %rcx
	orq	$1, %rcx
	testb	$1, %r15b
	je	.LBB96_10
	movzwl	(%r13,%rax,2), %edx
	cmpl	$256, %edx
	movl	$256, %esi
	setb	266(%rsp,%rax,2)
	cmovbl	%edx, %esi
	movb	%sil, 267(%rsp,%rax,2)
	movq	%rcx, %rax
.LBB96_10:
	cmpq	%rcx, %r15
	je	.LBB96_12
	.p2align	4
.LBB96_11:
	movzwl	(%r13,%rax,2), %ecx
	cmpl	$256, %ecx
	movl	$256, %edx
	cmovael	%edx, %ecx
	setb	266(%rsp,%rax,2)
	movb	%cl, 267(%rsp,%rax,2)
	movzwl	2(%r13,%rax,2), %ecx
	cmpl	$256, %ecx
	cmovbl	%ecx, %edx
	setb	268(%rsp,%rax,2)
	movb	%dl, 269(%rsp,%rax,2)
	addq	$2, %rax
	cmpq	%rax, %r15
	jne	.LBB96_11
	jmp	.LBB96_12
.LBB96_5:
	movq	%r15, %rax
	andq	$-8, %rax
	xorl	%ecx, %ecx
	.p2align	4
.LBB96_6:
	movdqu	(%r13,%rcx,2), %xmm0
	movdqa	.LCPI96_0(%rip), %xmm1
	pminuw	%xmm0, %xmm1
	pcmpeqw	%xmm0, %xmm1
	packsswb	%xmm1, %xmm1
	pand	.LCPI96_1(%rip), %xmm1
	pminuw	.LCPI96_2(%rip), %xmm0
	pshufb	.LCPI96_3(%rip), %xmm0
	punpcklbw	%xmm0, %xmm1
	movdqu	%xmm1, 266(%rsp,%rcx,2)
	addq	$8, %rcx
	cmpq	%rcx, %rax
	jne	.LBB96_6
	cmpq	%rax, %r15
	jne	.LBB96_8
.LBB96_12:
	movq	576(%rsp), %rax
	testq	%r14, %r14
	je	.LBB96_19
	cmpq	$1, %r14
	jne	.LBB96_15
	xorl	%ecx, %ecx
	jmp	.LBB96_18
.LBB96_15:
	movq	%r14, %rdx
	andq	$-2, %rdx
	xorl	%ecx, %ecx
	.p2align	4
.LBB96_16:
	movzwl	4(%r12,%rcx,8), %esi
	movl	(%r12,%rcx,8), %edi
	movw	%si, 16(%rsp,%rcx,8)
	movw	$0, 18(%rsp,%rcx,8)
	movl	%edi, 20(%rsp,%rcx,8)
	movzwl	12(%r12,%rcx,8), %esi
	movl	8(%r12,%rcx,8), %edi
	movw	%si, 24(%rsp,%rcx,8)
	movw	$0, 26(%rsp,%rcx,8)
	movl	%edi, 28(%rsp,%rcx,8)
	addq	$2, %rcx
	cmpq	%rcx, %rdx
	jne	.LBB96_16
	testb	$1, %r14b
	je	.LBB96_19
.LBB96_18:
	movzwl	4(%r12,%rcx,8), %edx
	movl	(%r12,%rcx,8), %esi
	movw	%dx, 16(%rsp,%rcx,8)
	movw	$0, 18(%rsp,%rcx,8)
	movl	%esi, 20(%rsp,%rcx,8)
.LBB96_19:
	movq	%rax, (%rsp)
	leaq	10(%rsp), %rdi
	leaq	266(%rsp), %rsi
	leaq	16(%rsp), %rcx
	movq	%r15, %rdx
	movq	%r14, %r8
	movq	%rbx, %r9
	callq	"ecc200_calls::writing::write_content"
	addq	$528, %rsp
	.cfi_def_cfa_offset 48
	popq	%rbx
	.cfi_def_cfa_offset 40
	popq	%r12
	.cfi_def_cfa_offset 32
	popq	%r13
	.cfi_def_cfa_offset 24
	popq	%r14
	.cfi_def_cfa_offset 16
	popq	%r15
	.cfi_def_cfa_offset 8
	retq
.Lfunc_end96:
	.size	"ecc200_calls::writing::write_content_of::<#653d8e9eeee73d5b>", .Lfunc_end96-"ecc200_calls::writing::write_content_of::<#653d8e9eeee73d5b>"
	.cfi_endproc

	.section	.rodata.cst16,"aM",@progbits,16
	.p2align	4, 0x0
.LCPI97_0:
	.short	255
	.short	255
	.short	255
	.short	255
	.short	255
	.short	255
	.short	255
	.short	255
.LCPI97_1:
	.byte	1
	.byte	1
	.byte	1
	.byte	1
	.byte	1
	.byte	1
	.byte	1
	.byte	1
	.zero	1
	.zero	1
	.zero	1
	.zero	1
	.zero	1
	.zero	1
	.zero	1
	.zero	1
.LCPI97_2:
	.short	256
	.short	256
	.short	256
	.short	256
	.short	256
	.short	256
	.short	256
	.short	256
.LCPI97_3:
	.byte	0
	.byte	2
	.byte	4
	.byte	6
	.byte	8
	.byte	10
	.byte	12
	.byte	14
	.zero	1
	.zero	1
	.zero	1
	.zero	1
	.zero	1
	.zero	1
	.zero	1
	.zero	1
	.text
	.p2align	4
	.type	"ecc200_calls::writing::write_content_of::<#063e8a381f980aa9>",@function
"ecc200_calls::writing::write_content_of::<#063e8a381f980aa9>":
	.cfi_startproc
	pushq	%r15
	.cfi_def_cfa_offset 16
	pushq	%r14
	.cfi_def_cfa_offset 24
	pushq	%r13
	.cfi_def_cfa_offset 32
	pushq	%r12
	.cfi_def_cfa_offset 40
	pushq	%rbx
	.cfi_def_cfa_offset 48
	subq	$1664, %rsp
	.cfi_def_cfa_offset 1712
	.cfi_offset %rbx, -48
	.cfi_offset %r12, -40
	.cfi_offset %r13, -32
	.cfi_offset %r14, -24
	.cfi_offset %r15, -16
	movq	%r8, %rbx
	movq	%rcx, %r14
	movq	%rdx, %r12
	movq	%rsi, %r15
	movq	%rdi, %r13
	movzbl	(%r9), %eax
	movb	%al, 10(%rsp)
	movzbl	1(%r9), %eax
	movb	%al, 11(%rsp)
	movl	2(%r9), %eax
	movl	%eax, 12(%rsp)
	leaq	834(%rsp), %rdi
	movl	$830, %edx
	xorl	%esi, %esi
	callq	memset@PLT
	leaq	16(%rsp), %rdi
	movl	$816, %edx
	xorl	%esi, %esi
	callq	memset@PLT
	testq	%r15, %r15
	je	.LBB97_12
	cmpq	$16, %r15
	jb	.LBB97_2
	movq	%r15, %rax
	decq	%rax
	leaq	835(%rsp), %rax
	sets	%cl
	leaq	(%rsp,%r15,2), %rdx
	addq	$833, %rdx
	cmpq	%rax, %rdx
	setb	%al
	orb	%cl, %al
	je	.LBB97_5
.LBB97_2:
	xorl	%eax, %eax
.LBB97_8:
	movq	%rax, %rcx
	orq	$1, %rcx
	testb	$1, %r15b
	je	.LBB97_10
	movzwl	(%r13,%rax,2), %edx
	cmpl	$256, %edx
	movl	$256, %esi
	setb	834(%rsp,%rax,2)
	cmovbl	%edx, %esi
	movb	%sil, 835(%rsp,%rax,2)
	movq	%rcx, %rax
.LBB97_10:
	cmpq	%rcx, %r15
	je	.LBB97_12
	.p2align	4
.LBB97_11:
	movzwl	(%r13,%rax,2), %ecx
	cmpl	$256, %ecx
	movl	$256, %edx
	cmovael	%edx, %ecx
	setb	834(%rsp,%rax,2)
	movb	%cl, 835(%rsp,%rax,2)
	movzwl	2(%r13,%rax,2), %ecx
	cmpl	$256, %ecx
	cmovbl	%ecx, %edx
	setb	836(%rsp,%rax,2)
	movb	%dl, 837(%rsp,%rax,2)
	addq	$2, %rax
	cmpq	%rax, %r15
	jne	.LBB97_11
	jmp	.LBB97_12
.LBB97_5:
	movq	%r15, %rax
	andq	$-8, %rax
	xorl	%ecx, %ecx
	.p2align	4
.LBB97_6:
	movdqu	(%r13,%rcx,2), %xmm0
	movdqa	.LCPI97_0(%rip), %xmm1
	pminuw	%xmm0, %xmm1
	pcmpeqw	%xmm0, %xmm1
	packsswb	%xmm1, %xmm1
	pand	.LCPI97_1(%rip), %xmm1
	pminuw	.LCPI97_2(%rip), %xmm0
	pshufb	.LCPI97_3(%rip), %xmm0
	punpcklbw	%xmm0, %xmm1
	movdqu	%xmm1, 834(%rsp,%rcx,2)
	addq	$8, %rcx
	cmpq	%rcx, %rax
	jne	.LBB97_6
	cmpq	%rax, %r15
	jne	.LBB97_8
.LBB97_12:
	movq	1712(%rsp), %rax
	testq	%r14, %r14
	je	.LBB97_19
	cmpq	$1, %r14
	jne	.LBB97_15
	xorl	%ecx, %ecx
	jmp	.LBB97_18
.LBB97_15:
	movq	%r14, %rdx
	andq	$-2, %rdx
	xorl	%ecx, %ecx
	.p2align	4
.LBB97_16:
	movzwl	4(%r12,%rcx,8), %esi
	movl	(%r12,%rcx,8), %edi
	movw	%si, 16(%rsp,%rcx,8)
	movw	$0, 18(%rsp,%rcx,8)
	movl	%edi, 20(%rsp,%rcx,8)
	movzwl	12(%r12,%rcx,8), %esi
	movl	8(%r12,%rcx,8), %edi
	movw	%si, 24(%rsp,%rcx,8)
	movw	$0, 26(%rsp,%rcx,8)
	movl	%edi, 28(%rsp,%rcx,8)
	addq	$2, %rcx
	cmpq	%rcx, %rdx
	jne	.LBB97_16
	testb	$1, %r14b
	je	.LBB97_19
.LBB97_18:
	movzwl	4(%r12,%rcx,8), %edx
	movl	(%r12,%rcx,8), %esi
	movw	%dx, 16(%rsp,%rcx,8)
	movw	$0, 18(%rsp,%rcx,8)
	movl	%esi, 20(%rsp,%rcx,8)
.LBB97_19:
	movq	%rax, (%rsp)
	leaq	10(%rsp), %rdi
	leaq	834(%rsp), %rsi
	leaq	16(%rsp), %rcx
	movq	%r15, %rdx
	movq	%r14, %r8
	movq	%rbx, %r9
	callq	"ecc200_calls::writing::write_content"
	addq	$1664, %rsp
	.cfi_def_cfa_offset 48
	popq	%rbx
	.cfi_def_cfa_offset 40
	popq	%r12
	.cfi_def_cfa_offset 32
	popq	%r13
	.cfi_def_cfa_offset 24
	popq	%r14
	.cfi_def_cfa_offset 16
	popq	%r15
	.cfi_def_cfa_offset 8
	retq
.Lfunc_end97:
	.size	"ecc200_calls::writing::write_content_of::<#063e8a381f980aa9>", .Lfunc_end97-"ecc200_calls::writing::write_content_of::<#063e8a381f980aa9>"
	.cfi_endproc

	.section	.rodata.cst16,"aM",@progbits,16
	.p2align	4, 0x0
.LCPI98_0:
	.short	255
	.short	255
	.short	255
	.short	255
	.short	255
	.short	255
	.short	255
	.short	255
.LCPI98_1:
	.byte	1
	.byte	1
	.byte	1
	.byte	1
	.byte	1
	.byte	1
	.byte	1
	.byte	1
	.zero	1
	.zero	1
	.zero	1
	.zero	1
	.zero	1
	.zero	1
	.zero	1
	.zero	1
.LCPI98_2:
	.short	256
	.short	256
	.short	256
	.short	256
	.short	256
	.short	256
	.short	256
	.short	256
.LCPI98_3:
	.byte	0
	.byte	2
	.byte	4
	.byte	6
	.byte	8
	.byte	10
	.byte	12
	.byte	14
	.zero	1
	.zero	1
	.zero	1
	.zero	1
	.zero	1
	.zero	1
	.zero	1
	.zero	1
	.text
	.p2align	4
	.type	"ecc200_calls::writing::write_content_of::<#74b909a45ce937fb>",@function
"ecc200_calls::writing::write_content_of::<#74b909a45ce937fb>":
	.cfi_startproc
	pushq	%r15
	.cfi_def_cfa_offset 16
	pushq	%r14
	.cfi_def_cfa_offset 24
	pushq	%r13
	.cfi_def_cfa_offset 32
	pushq	%r12
	.cfi_def_cfa_offset 40
	pushq	%rbx
	.cfi_def_cfa_offset 48
	subq	$3072, %rsp
	.cfi_adjust_cfa_offset 3072
	movq	$0, (%rsp)
	subq	$3072, %rsp
	.cfi_adjust_cfa_offset 3072
	movq	$0, (%rsp)
	subq	$416, %rsp
	.cfi_def_cfa_offset 6608
	.cfi_offset %rbx, -48
	.cfi_offset %r12, -40
	.cfi_offset %r13, -32
	.cfi_offset %r14, -24
	.cfi_offset %r15, -16
	movq	%r8, %rbx
	movq	%rcx, %r14
	movq	%rdx, %r12
	movq	%rsi, %r15
	movq	%rdi, %r13
	movzbl	(%r9), %eax
	movb	%al, 10(%rsp)
	movzbl	1(%r9), %eax
	movb	%al, 11(%rsp)
	movl	2(%r9), %eax
	movl	%eax, 12(%rsp)
	leaq	3282(%rsp), %rdi
	movl	$3278, %edx
	xorl	%esi, %esi
	callq	memset@PLT
	leaq	16(%rsp), %rdi
	movl	$3264, %edx
	xorl	%esi, %esi
	callq	memset@PLT
	testq	%r15, %r15
	je	.LBB98_12
	cmpq	$16, %r15
	jb	.LBB98_2
	movq	%r15, %rax
	decq	%rax
	leaq	3283(%rsp), %rax
	sets	%cl
	leaq	(%rsp,%r15,2), %rdx
	addq	$3281, %rdx
	cmpq	%rax, %rdx
	setb	%al
	orb	%cl, %al
	je	.LBB98_5
.LBB98_2:
	xorl	%eax, %eax
.LBB98_8:
	movq	%rax, %rcx
	orq	$1, %rcx
	testb	$1, %r15b
	je	.LBB98_10
	movzwl	(%r13,%rax,2), %edx
	cmpl	$256, %edx
	movl	$256, %esi
	setb	3282(%rsp,%rax,2)
	cmovbl	%edx, %esi
	movb	%sil, 3283(%rsp,%rax,2)
	movq	%rcx, %rax
.LBB98_10:
	cmpq	%rcx, %r15
	je	.LBB98_12
	.p2align	4
.LBB98_11:
	movzwl	(%r13,%rax,2), %ecx
	cmpl	$256, %ecx
	movl	$256, %edx
	cmovael	%edx, %ecx
	setb	3282(%rsp,%rax,2)
	movb	%cl, 3283(%rsp,%rax,2)
	movzwl	2(%r13,%rax,2), %ecx
	cmpl	$256, %ecx
	cmovbl	%ecx, %edx
	setb	3284(%rsp,%rax,2)
	movb	%dl, 3285(%rsp,%rax,2)
	addq	$2, %rax
	cmpq	%rax, %r15
	jne	.LBB98_11
	jmp	.LBB98_12
.LBB98_5:
	movq	%r15, %rax
	andq	$-8, %rax
	xorl	%ecx, %ecx
	.p2align	4
.LBB98_6:
	movdqu	(%r13,%rcx,2), %xmm0
	movdqa	.LCPI98_0(%rip), %xmm1
	pminuw	%xmm0, %xmm1
	pcmpeqw	%xmm0, %xmm1
	packsswb	%xmm1, %xmm1
	pand	.LCPI98_1(%rip), %xmm1
	pminuw	.LCPI98_2(%rip), %xmm0
	pshufb	.LCPI98_3(%rip), %xmm0
	punpcklbw	%xmm0, %xmm1
	movdqu	%xmm1, 3282(%rsp,%rcx,2)
	addq	$8, %rcx
	cmpq	%rcx, %rax
	jne	.LBB98_6
	cmpq	%rax, %r15
	jne	.LBB98_8
.LBB98_12:
	movq	6608(%rsp), %rax
	testq	%r14, %r14
	je	.LBB98_19
	cmpq	$1, %r14
	jne	.LBB98_15
	xorl	%ecx, %ecx
	jmp	.LBB98_18
.LBB98_15:
	movq	%r14, %rdx
	andq	$-2, %rdx
	xorl	%ecx, %ecx
	.p2align	4
.LBB98_16:
	movzwl	4(%r12,%rcx,8), %esi
	movl	(%r12,%rcx,8), %edi
	movw	%si, 16(%rsp,%rcx,8)
	movw	$0, 18(%rsp,%rcx,8)
	movl	%edi, 20(%rsp,%rcx,8)
	movzwl	12(%r12,%rcx,8), %esi
	movl	8(%r12,%rcx,8), %edi
	movw	%si, 24(%rsp,%rcx,8)
	movw	$0, 26(%rsp,%rcx,8)
	movl	%edi, 28(%rsp,%rcx,8)
	addq	$2, %rcx
	cmpq	%rcx, %rdx
	jne	.LBB98_16
	testb	$1, %r14b
	je	.LBB98_19
.LBB98_18:
	movzwl	4(%r12,%rcx,8), %edx
	movl	(%r12,%rcx,8), %esi
	movw	%dx, 16(%rsp,%rcx,8)
	movw	$0, 18(%rsp,%rcx,8)
	movl	%esi, 20(%rsp,%rcx,8)
.LBB98_19:
	movq	%rax, (%rsp)
	leaq	10(%rsp), %rdi
	leaq	3282(%rsp), %rsi
	leaq	16(%rsp), %rcx
	movq	%r15, %rdx
	movq	%r14, %r8
	movq	%rbx, %r9
	callq	"ecc200_calls::writing::write_content"
	addq	$6560, %rsp
	.cfi_def_cfa_offset 48
	popq	%rbx
	.cfi_def_cfa_offset 40
	popq	%r12
	.cfi_def_cfa_offset 32
	popq	%r13
	.cfi_def_cfa_offset 24
	popq	%r14
	.cfi_def_cfa_offset 16
	popq	%r15
	.cfi_def_cfa_offset 8
	retq
.Lfunc_end98:
	.size	"ecc200_calls::writing::write_content_of::<#74b909a45ce937fb>", .Lfunc_end98-"ecc200_calls::writing::write_content_of::<#74b909a45ce937fb>"
	.cfi_endproc

	.section	.rodata.cst16,"aM",@progbits,16
	.p2align	4, 0x0
.LCPI99_0:
	.short	255
	.short	255
	.short	255
	.short	255
	.short	255
	.short	255
	.short	255
	.short	255
.LCPI99_1:
	.byte	1
	.byte	1
	.byte	1
	.byte	1
	.byte	1
	.byte	1
	.byte	1
	.byte	1
	.zero	1
	.zero	1
	.zero	1
	.zero	1
	.zero	1
	.zero	1
	.zero	1
	.zero	1
.LCPI99_2:
	.short	256
	.short	256
	.short	256
	.short	256
	.short	256
	.short	256
	.short	256
	.short	256
.LCPI99_3:
	.byte	0
	.byte	2
	.byte	4
	.byte	6
	.byte	8
	.byte	10
	.byte	12
	.byte	14
	.zero	1
	.zero	1
	.zero	1
	.zero	1
	.zero	1
	.zero	1
	.zero	1
	.zero	1
	.text
	.p2align	4
	.type	"ecc200_calls::writing::write_content_of::<#8e2329e1c5119cbe>",@function
"ecc200_calls::writing::write_content_of::<#8e2329e1c5119cbe>":
	.cfi_startproc
	pushq	%r15
	.cfi_def_cfa_offset 16
	pushq	%r14
	.cfi_def_cfa_offset 24
	pushq	%r13
	.cfi_def_cfa_offset 32
	pushq	%r12
	.cfi_def_cfa_offset 40
	pushq	%rbx
	.cfi_def_cfa_offset 48
	subq	$3072, %rsp
	.cfi_adjust_cfa_offset 3072
	movq	$0, (%rsp)
	subq	$3072, %rsp
	.cfi_adjust_cfa_offset 3072
	movq	$0, (%rsp)
	subq	$3072, %rsp
	.cfi_adjust_cfa_offset 3072
	movq	$0, (%rsp)
	subq	$3072, %rsp
	.cfi_adjust_cfa_offset 3072
	movq	$0, (%rsp)
	subq	$208, %rsp
	.cfi_def_cfa_offset 12544
	.cfi_offset %rbx, -48
	.cfi_offset %r12, -40
	.cfi_offset %r13, -32
	.cfi_offset %r14, -24
	.cfi_offset %r15, -16
	movq	%r8, %rbx
	movq	%rcx, %r14
	movq	%rdx, %r12
	movq	%rsi, %r15
	movq	%rdi, %r13
	movzbl	(%r9), %eax
	movb	%al, 10(%rsp)
	movzbl	1(%r9), %eax
	movb	%al, 11(%rsp)
	movl	2(%r9), %eax
	movl	%eax, 12(%rsp)
	leaq	6250(%rsp), %rdi
	movl	$6246, %edx
	xorl	%esi, %esi
	callq	memset@PLT
	leaq	16(%rsp), %rdi
	movl	$6232, %edx
	xorl	%esi, %esi
	callq	memset@PLT
	testq	%r15, %r15
	je	.LBB99_12
	cmpq	$16, %r15
	jb	.LBB99_2
	movq	%r15, %rax
	decq	%rax
	leaq	6251(%rsp), %rax
	sets	%cl
	leaq	(%rsp,%r15,2), %rdx
	addq	$6249, %rdx
	cmpq	%rax, %rdx
	setb	%al
	orb	%cl, %al
	je	.LBB99_5
.LBB99_2:
	xorl	%eax, %eax
.LBB99_8:
	movq	%rax, %rcx
	orq	$1, %rcx
	testb	$1, %r15b
	je	.LBB99_10
	movzwl	(%r13,%rax,2), %edx
	cmpl	$256, %edx
	movl	$256, %esi
	setb	6250(%rsp,%rax,2)
	cmovbl	%edx, %esi
	movb	%sil, 6251(%rsp,%rax,2)
	movq	%rcx, %rax
.LBB99_10:
	cmpq	%rcx, %r15
	je	.LBB99_12
	.p2align	4
.LBB99_11:
	movzwl	(%r13,%rax,2), %ecx
	cmpl	$256, %ecx
	movl	$256, %edx
	cmovael	%edx, %ecx
	setb	6250(%rsp,%rax,2)
	movb	%cl, 6251(%rsp,%rax,2)
	movzwl	2(%r13,%rax,2), %ecx
	cmpl	$256, %ecx
	cmovbl	%ecx, %edx
	setb	6252(%rsp,%rax,2)
	movb	%dl, 6253(%rsp,%rax,2)
	addq	$2, %rax
	cmpq	%rax, %r15
	jne	.LBB99_11
	jmp	.LBB99_12
.LBB99_5:
	movq	%r15, %rax
	andq	$-8, %rax
	xorl	%ecx, %ecx
	.p2align	4
.LBB99_6:
	movdqu	(%r13,%rcx,2), %xmm0
	movdqa	.LCPI99_0(%rip), %xmm1
	pminuw	%xmm0, %xmm1
	pcmpeqw	%xmm0, %xmm1
	packsswb	%xmm1, %xmm1
	pand	.LCPI99_1(%rip), %xmm1
	pminuw	.LCPI99_2(%rip), %xmm0
	pshufb	.LCPI99_3(%rip), %xmm0
	punpcklbw	%xmm0, %xmm1
	movdqu	%xmm1, 6250(%rsp,%rcx,2)
	addq	$8, %rcx
	cmpq	%rcx, %rax
	jne	.LBB99_6
	cmpq	%rax, %r15
	jne	.LBB99_8
.LBB99_12:
	movq	12544(%rsp), %rax
	testq	%r14, %r14
	je	.LBB99_19
	cmpq	$1, %r14
	jne	.LBB99_15
	xorl	%ecx, %ecx
	jmp	.LBB99_18
.LBB99_15:
	movq	%r14, %rdx
	andq	$-2, %rdx
	xorl	%ecx, %ecx
	.p2align	4
.LBB99_16:
	movzwl	4(%r12,%rcx,8), %esi
	movl	(%r12,%rcx,8), %edi
	movw	%si, 16(%rsp,%rcx,8)
	movw	$0, 18(%rsp,%rcx,8)
	movl	%edi, 20(%rsp,%rcx,8)
	movzwl	12(%r12,%rcx,8), %esi
	movl	8(%r12,%rcx,8), %edi
	movw	%si, 24(%rsp,%rcx,8)
	movw	$0, 26(%rsp,%rcx,8)
	movl	%edi, 28(%rsp,%rcx,8)
	addq	$2, %rcx
	cmpq	%rcx, %rdx
	jne	.LBB99_16
	testb	$1, %r14b
	je	.LBB99_19
.LBB99_18:
	movzwl	4(%r12,%rcx,8), %edx
	movl	(%r12,%rcx,8), %esi
	movw	%dx, 16(%rsp,%rcx,8)
	movw	$0, 18(%rsp,%rcx,8)
	movl	%esi, 20(%rsp,%rcx,8)
.LBB99_19:
	movq	%rax, (%rsp)
	leaq	10(%rsp), %rdi
	leaq	6250(%rsp), %rsi
	leaq	16(%rsp), %rcx
	movq	%r15, %rdx
	movq	%r14, %r8
	movq	%rbx, %r9
	callq	"ecc200_calls::writing::write_content"
	addq	$12496, %rsp
	.cfi_def_cfa_offset 48
	popq	%rbx
	.cfi_def_cfa_offset 40
	popq	%r12
	.cfi_def_cfa_offset 32
	popq	%r13
	.cfi_def_cfa_offset 24
	popq	%r14
	.cfi_def_cfa_offset 16
	popq	%r15
	.cfi_def_cfa_offset 8
	retq
.Lfunc_end99:
	.size	"ecc200_calls::writing::write_content_of::<#8e2329e1c5119cbe>", .Lfunc_end99-"ecc200_calls::writing::write_content_of::<#8e2329e1c5119cbe>"
	.cfi_endproc

	.section	.rodata.cst16,"aM",@progbits,16
	.p2align	4, 0x0
.LCPI100_0:
	.byte	1
	.byte	1
	.byte	1
	.byte	1
	.byte	1
	.byte	1
	.byte	1
	.byte	1
	.zero	1
	.zero	1
	.zero	1
	.zero	1
	.zero	1
	.zero	1
	.zero	1
	.zero	1
	.text
	.p2align	4
	.type	"ecc200_calls::writing::write_content_of::<#f7f46bcb0d4b0fd2>",@function
"ecc200_calls::writing::write_content_of::<#f7f46bcb0d4b0fd2>":
	.cfi_startproc
	pushq	%r15
	.cfi_def_cfa_offset 16
	pushq	%r14
	.cfi_def_cfa_offset 24
	pushq	%r12
	.cfi_def_cfa_offset 32
	pushq	%rbx
	.cfi_def_cfa_offset 40
	subq	$280, %rsp
	.cfi_def_cfa_offset 320
	.cfi_offset %rbx, -40
	.cfi_offset %r12, -32
	.cfi_offset %r14, -24
	.cfi_offset %r15, -16
	movq	%r8, %r15
	movq	%rdx, %rbx
	movq	%rsi, %r14
	movq	%rdi, %r12
	movzbl	(%rcx), %eax
	movb	%al, 12(%rsp)
	movzbl	1(%rcx), %eax
	movb	%al, 13(%rsp)
	movl	2(%rcx), %eax
	movl	%eax, 14(%rsp)
	leaq	18(%rsp), %rdi
	movl	$262, %edx
	xorl	%esi, %esi
	callq	memset@PLT
	testq	%r14, %r14
	je	.LBB100_13
	cmpq	$24, %r14
	jb	.LBB100_2
	movq	%r14, %rax
	decq	%rax
	leaq	19(%rsp), %rax
	sets	%cl
	leaq	(%rsp,%r14,2), %rdx
	addq	$17, %rdx
	cmpq	%rax, %rdx
	setb	%al
	orb	%cl, %al
	je	.LBB100_5
.LBB100_2:
	xorl	%eax, %eax
.LBB100_8:
	movq	%r14, %rdx
	movq	%rax, %rcx
	andq	$3, %rdx
	je	.LBB100_11
	movq	%rax, %rcx
	.p2align	4
.LBB100_10:
	movzbl	(%r12,%rcx), %esi
	movb	$1, 18(%rsp,%rcx,2)
	movb	%sil, 19(%rsp,%rcx,2)
	incq	%rcx
	decq	%rdx
	jne	.LBB100_10
.LBB100_11:
	subq	%r14, %rax
	cmpq	$-4, %rax
	ja	.LBB100_13
	.p2align	4
.LBB100_12:
	movzbl	(%r12,%rcx), %eax
	movb	$1, 18(%rsp,%rcx,2)
	movb	%al, 19(%rsp,%rcx,2)
	movzbl	1(%r12,%rcx), %eax
	movb	$1, 20(%rsp,%rcx,2)
	movb	%al, 21(%rsp,%rcx,2)
	movzbl	2(%r12,%rcx), %eax
	movb	$1, 22(%rsp,%rcx,2)
	movb	%al, 23(%rsp,%rcx,2)
	movzbl	3(%r12,%rcx), %eax
	movb	$1, 24(%rsp,%rcx,2)
	movb	%al, 25(%rsp,%rcx,2)
	addq	$4, %rcx
	cmpq	%rcx, %r14
	jne	.LBB100_12
	jmp	.LBB100_13
.LBB100_5:
	movq	%r14, %rax
	andq	$-8, %rax
	xorl	%ecx, %ecx
	.p2align	4
.LBB100_6:
	movq	(%r12,%rcx), %xmm0
	movdqa	.LCPI100_0(%rip), %xmm1
	punpcklbw	%xmm0, %xmm1
	movdqu	%xmm1, 18(%rsp,%rcx,2)
	addq	$8, %rcx
	cmpq	%rcx, %rax
	jne	.LBB100_6
	cmpq	%rax, %r14
	jne	.LBB100_8
.LBB100_13:
	movq	%r15, (%rsp)
	leaq	12(%rsp), %rdi
	leaq	18(%rsp), %rsi
	leaq	8(%rsp), %rcx
	movq	%r14, %rdx
	xorl	%r8d, %r8d
	movq	%rbx, %r9
	callq	"ecc200_calls::writing::write_content"
	addq	$280, %rsp
	.cfi_def_cfa_offset 40
	popq	%rbx
	.cfi_def_cfa_offset 32
	popq	%r12
	.cfi_def_cfa_offset 24
	popq	%r14
	.cfi_def_cfa_offset 16
	popq	%r15
	.cfi_def_cfa_offset 8
	retq
.Lfunc_end100:
	.size	"ecc200_calls::writing::write_content_of::<#f7f46bcb0d4b0fd2>", .Lfunc_end100-"ecc200_calls::writing::write_content_of::<#f7f46bcb0d4b0fd2>"
	.cfi_endproc

	.section	.rodata.cst16,"aM",@progbits,16
	.p2align	4, 0x0
.LCPI101_0:
	.byte	1
	.byte	1
	.byte	1
	.byte	1
	.byte	1
	.byte	1
	.byte	1
	.byte	1
	.zero	1
	.zero	1
	.zero	1
	.zero	1
	.zero	1
	.zero	1
	.zero	1
	.zero	1
	.text
	.p2align	4
	.type	"ecc200_calls::writing::write_content_of::<#dbd28265ffd20b3d>",@function
"ecc200_calls::writing::write_content_of::<#dbd28265ffd20b3d>":
	.cfi_startproc
	pushq	%r15
	.cfi_def_cfa_offset 16
	pushq	%r14
	.cfi_def_cfa_offset 24
	pushq	%r12
	.cfi_def_cfa_offset 32
	pushq	%rbx
	.cfi_def_cfa_offset 40
	subq	$856, %rsp
	.cfi_def_cfa_offset 896
	.cfi_offset %rbx, -40
	.cfi_offset %r12, -32
	.cfi_offset %r14, -24
	.cfi_offset %r15, -16
	movq	%r8, %r15
	movq	%rdx, %rbx
	movq	%rsi, %r14
	movq	%rdi, %r12
	movzbl	(%rcx), %eax
	movb	%al, 20(%rsp)
	movzbl	1(%rcx), %eax
	movb	%al, 21(%rsp)
	movl	2(%rcx), %eax
	movl	%eax, 22(%rsp)
	leaq	26(%rsp), %rdi
	movl	$830, %edx
	xorl	%esi, %esi
	callq	memset@PLT
	testq	%r14, %r14
	je	.LBB101_13
	cmpq	$24, %r14
	jb	.LBB101_2
	movq	%r14, %rax
	decq	%rax
	leaq	27(%rsp), %rax
	sets	%cl
	leaq	(%rsp,%r14,2), %rdx
	addq	$25, %rdx
	cmpq	%rax, %rdx
	setb	%al
	orb	%cl, %al
	je	.LBB101_5
.LBB101_2:
	xorl	%eax, %eax
.LBB101_8:
	movq	%r14, %rdx
	movq	%rax, %rcx
	andq	$3, %rdx
	je	.LBB101_11
	movq	%rax, %rcx
	.p2align	4
.LBB101_10:
	movzbl	(%r12,%rcx), %esi
	movb	$1, 26(%rsp,%rcx,2)
	movb	%sil, 27(%rsp,%rcx,2)
	incq	%rcx
	decq	%rdx
	jne	.LBB101_10
.LBB101_11:
	subq	%r14, %rax
	cmpq	$-4, %rax
	ja	.LBB101_13
	.p2align	4
.LBB101_12:
	movzbl	(%r12,%rcx), %eax
	movb	$1, 26(%rsp,%rcx,2)
	movb	%al, 27(%rsp,%rcx,2)
	movzbl	1(%r12,%rcx), %eax
	movb	$1, 28(%rsp,%rcx,2)
	movb	%al, 29(%rsp,%rcx,2)
	movzbl	2(%r12,%rcx), %eax
	movb	$1, 30(%rsp,%rcx,2)
	movb	%al, 31(%rsp,%rcx,2)
	movzbl	3(%r12,%rcx), %eax
	movb	$1, 32(%rsp,%rcx,2)
	movb	%al, 33(%rsp,%rcx,2)
	addq	$4, %rcx
	cmpq	%rcx, %r14
	jne	.LBB101_12
	jmp	.LBB101_13
.LBB101_5:
	movq	%r14, %rax
	andq	$-8, %rax
	xorl	%ecx, %ecx
	.p2align	4
.LBB101_6:
	movq	(%r12,%rcx), %xmm0
	movdqa	.LCPI101_0(%rip), %xmm1
	punpcklbw	%xmm0, %xmm1
	movdqu	%xmm1, 26(%rsp,%rcx,2)
	addq	$8, %rcx
	cmpq	%rcx, %rax
	jne	.LBB101_6
	cmpq	%rax, %r14
	jne	.LBB101_8
.LBB101_13:
	movq	%r15, (%rsp)
	leaq	20(%rsp), %rdi
	leaq	26(%rsp), %rsi
	leaq	16(%rsp), %rcx
	movq	%r14, %rdx
	xorl	%r8d, %r8d
	movq	%rbx, %r9
	callq	"ecc200_calls::writing::write_content"
	addq	$856, %rsp
	.cfi_def_cfa_offset 40
	popq	%rbx
	.cfi_def_cfa_offset 32
	popq	%r12
	.cfi_def_cfa_offset 24
	popq	%r14
	.cfi_def_cfa_offset 16
	popq	%r15
	.cfi_def_cfa_offset 8
	retq
.Lfunc_end101:
	.size	"ecc200_calls::writing::write_content_of::<#dbd28265ffd20b3d>", .Lfunc_end101-"ecc200_calls::writing::write_content_of::<#dbd28265ffd20b3d>"
	.cfi_endproc

	.section	.rodata.cst16,"aM",@progbits,16
	.p2align	4, 0x0
.LCPI102_0:
	.byte	1
	.byte	1
	.byte	1
	.byte	1
	.byte	1
	.byte	1
	.byte	1
	.byte	1
	.zero	1
	.zero	1
	.zero	1
	.zero	1
	.zero	1
	.zero	1
	.zero	1
	.zero	1
	.text
	.p2align	4
	.type	"ecc200_calls::writing::write_content_of::<#b97095b23881e008>",@function
"ecc200_calls::writing::write_content_of::<#b97095b23881e008>":
	.cfi_startproc
	pushq	%r15
	.cfi_def_cfa_offset 16
	pushq	%r14
	.cfi_def_cfa_offset 24
	pushq	%r12
	.cfi_def_cfa_offset 32
	pushq	%rbx
	.cfi_def_cfa_offset 40
	subq	$3072, %rsp
	.cfi_adjust_cfa_offset 3072
	movq	$0, (%rsp)
	subq	$232, %rsp
	.cfi_def_cfa_offset 3344
	.cfi_offset %rbx, -40
	.cfi_offset %r12, -32
	.cfi_offset %r14, -24
	.cfi_offset %r15, -16
	movq	%r8, %r15
	movq	%rdx, %rbx
	movq	%rsi, %r14
	movq	%rdi, %r12
	movzbl	(%rcx), %eax
	movb	%al, 20(%rsp)
	movzbl	1(%rcx), %eax
	movb	%al, 21(%rsp)
	movl	2(%rcx), %eax
	movl	%eax, 22(%rsp)
	leaq	26(%rsp), %rdi
	movl	$3278, %edx
	xorl	%esi, %esi
	callq	memset@PLT
	testq	%r14, %r14
	je	.LBB102_13
	cmpq	$24, %r14
	jb	.LBB102_2
	movq	%r14, %rax
	decq	%rax
	leaq	27(%rsp), %rax
	sets	%cl
	leaq	(%rsp,%r14,2), %rdx
	addq	$25, %rdx
	cmpq	%rax, %rdx
	setb	%al
	orb	%cl, %al
	je	.LBB102_5
.LBB102_2:
	xorl	%eax, %eax
.LBB102_8:
	movq	%r14, %rdx
	movq	%rax, %rcx
	andq	$3, %rdx
	je	.LBB102_11
	movq	%rax, %rcx
	.p2align	4
.LBB102_10:
	movzbl	(%r12,%rcx), %esi
	movb	$1, 26(%rsp,%rcx,2)
	movb	%sil, 27(%rsp,%rcx,2)
	incq	%rcx
	decq	%rdx
	jne	.LBB102_10
.LBB102_11:
	subq	%r14, %rax
	cmpq	$-4, %rax
	ja	.LBB102_13
	.p2align	4
.LBB102_12:
	movzbl	(%r12,%rcx), %eax
	movb	$1, 26(%rsp,%rcx,2)
	movb	%al, 27(%rsp,%rcx,2)
	movzbl	1(%r12,%rcx), %eax
	movb	$1, 28(%rsp,%rcx,2)
	movb	%al, 29(%rsp,%rcx,2)
	movzbl	2(%r12,%rcx), %eax
	movb	$1, 30(%rsp,%rcx,2)
	movb	%al, 31(%rsp,%rcx,2)
	movzbl	3(%r12,%rcx), %eax
	movb	$1, 32(%rsp,%rcx,2)
	movb	%al, 33(%rsp,%rcx,2)
	addq	$4, %rcx
	cmpq	%rcx, %r14
	jne	.LBB102_12
	jmp	.LBB102_13
.LBB102_5:
	movq	%r14, %rax
	andq	$-8, %rax
	xorl	%ecx, %ecx
	.p2align	4
.LBB102_6:
	movq	(%r12,%rcx), %xmm0
	movdqa	.LCPI102_0(%rip), %xmm1
	punpcklbw	%xmm0, %xmm1
	movdqu	%xmm1, 26(%rsp,%rcx,2)
	addq	$8, %rcx
	cmpq	%rcx, %rax
	jne	.LBB102_6
	cmpq	%rax, %r14
	jne	.LBB102_8
.LBB102_13:
	movq	%r15, (%rsp)
	leaq	20(%rsp), %rdi
	leaq	26(%rsp), %rsi
	leaq	16(%rsp), %rcx
	movq	%r14, %rdx
	xorl	%r8d, %r8d
	movq	%rbx, %r9
	callq	"ecc200_calls::writing::write_content"
	addq	$3304, %rsp
	.cfi_def_cfa_offset 40
	popq	%rbx
	.cfi_def_cfa_offset 32
	popq	%r12
	.cfi_def_cfa_offset 24
	popq	%r14
	.cfi_def_cfa_offset 16
	popq	%r15
	.cfi_def_cfa_offset 8
	retq
.Lfunc_end102:
	.size	"ecc200_calls::writing::write_content_of::<#b97095b23881e008>", .Lfunc_end102-"ecc200_calls::writing::write_content_of::<#b97095b23881e008>"
	.cfi_endproc

	.section	.rodata.cst16,"aM",@progbits,16
	.p2align	4, 0x0
.LCPI103_0:
	.byte	1
	.byte	1
	.byte	1
	.byte	1
	.byte	1
	.byte	1
	.byte	1
	.byte	1
	.zero	1
	.zero	1
	.zero	1
	.zero	1
	.zero	1
	.zero	1
	.zero	1
	.zero	1
	.text
	.p2align	4
	.type	"ecc200_calls::writing::write_content_of::<#9f02d14f3d055ac0>",@function
"ecc200_calls::writing::write_content_of::<#9f02d14f3d055ac0>":
	.cfi_startproc
	pushq	%r15
	.cfi_def_cfa_offset 16
	pushq	%r14
	.cfi_def_cfa_offset 24
	pushq	%r12
	.cfi_def_cfa_offset 32
	pushq	%rbx
	.cfi_def_cfa_offset 40
	subq	$3072, %rsp
	.cfi_adjust_cfa_offset 3072
	movq	$0, (%rsp)
	subq	$3072, %rsp
	.cfi_adjust_cfa_offset 3072
	movq	$0, (%rsp)
	subq	$120, %rsp
	.cfi_def_cfa_offset 6304
	.cfi_offset %rbx, -40
	.cfi_offset %r12, -32
	.cfi_offset %r14, -24
	.cfi_offset %r15, -16
	movq	%r8, %r15
	movq	%rdx, %rbx
	movq	%rsi, %r14
	movq	%rdi, %r12
	movzbl	(%rcx), %eax
	movb	%al, 12(%rsp)
	movzbl	1(%rcx), %eax
	movb	%al, 13(%rsp)
	movl	2(%rcx), %eax
	movl	%eax, 14(%rsp)
	leaq	18(%rsp), %rdi
	movl	$6246, %edx
	xorl	%esi, %esi
	callq	memset@PLT
	testq	%r14, %r14
	je	.LBB103_13
	cmpq	$24, %r14
	jb	.LBB103_2
	movq	%r14, %rax
	decq	%rax
	leaq	19(%rsp), %rax
	sets	%cl
	leaq	(%rsp,%r14,2), %rdx
	addq	$17, %rdx
	cmpq	%rax, %rdx
	setb	%al
	orb	%cl, %al
	je	.LBB103_5
.LBB103_2:
	xorl	%eax, %eax
.LBB103_8:
	movq	%r14, %rdx
	movq	%rax, %rcx
	andq	$3, %rdx
	je	.LBB103_11
	movq	%rax, %rcx
	.p2align	4
.LBB103_10:
	movzbl	(%r12,%rcx), %esi
	movb	$1, 18(%rsp,%rcx,2)
	movb	%sil, 19(%rsp,%rcx,2)
	incq	%rcx
	decq	%rdx
	jne	.LBB103_10
.LBB103_11:
	subq	%r14, %rax
	cmpq	$-4, %rax
	ja	.LBB103_13
	.p2align	4
.LBB103_12:
	movzbl	(%r12,%rcx), %eax
	movb	$1, 18(%rsp,%rcx,2)
	movb	%al, 19(%rsp,%rcx,2)
	movzbl	1(%r12,%rcx), %eax
	movb	$1, 20(%rsp,%rcx,2)
	movb	%al, 21(%rsp,%rcx,2)
	movzbl	2(%r12,%rcx), %eax
	movb	$1, 22(%rsp,%rcx,2)
	movb	%al, 23(%rsp,%rcx,2)
	movzbl	3(%r12,%rcx), %eax
	movb	$1, 24(%rsp,%rcx,2)
	movb	%al, 25(%rsp,%rcx,2)
	addq	$4, %rcx
	cmpq	%rcx, %r14
	jne	.LBB103_12
	jmp	.LBB103_13
.LBB103_5:
	movq	%r14, %rax
	andq	$-8, %rax
	xorl	%ecx, %ecx
	.p2align	4
.LBB103_6:
	movq	(%r12,%rcx), %xmm0
	movdqa	.LCPI103_0(%rip), %xmm1
	punpcklbw	%xmm0, %xmm1
	movdqu	%xmm1, 18(%rsp,%rcx,2)
	addq	$8, %rcx
	cmpq	%rcx, %rax
	jne	.LBB103_6
	cmpq	%rax, %r14
	jne	.LBB103_8
.LBB103_13:
	movq	%r15, (%rsp)
	leaq	12(%rsp), %rdi
	leaq	18(%rsp), %rsi
	leaq	8(%rsp), %rcx
	movq	%r14, %rdx
	xorl	%r8d, %r8d
	movq	%rbx, %r9
	callq	"ecc200_calls::writing::write_content"
	addq	$6264, %rsp
	.cfi_def_cfa_offset 40
	popq	%rbx
	.cfi_def_cfa_offset 32
	popq	%r12
	.cfi_def_cfa_offset 24
	popq	%r14
	.cfi_def_cfa_offset 16
	popq	%r15
	.cfi_def_cfa_offset 8
	retq
.Lfunc_end103:
	.size	"ecc200_calls::writing::write_content_of::<#9f02d14f3d055ac0>", .Lfunc_end103-"ecc200_calls::writing::write_content_of::<#9f02d14f3d055ac0>"
	.cfi_endproc

	.globl	ecc200_abi
	.p2align	4
	.type	ecc200_abi,@function
ecc200_abi:
	.cfi_startproc
	movw	$1, %ax
	retq
.Lfunc_end104:
	.size	ecc200_abi, .Lfunc_end104-ecc200_abi
	.cfi_endproc

	.section	.rodata.cst16,"aM",@progbits,16
	.p2align	4, 0x0
.LCPI105_0:
	.zero	16,1
.LCPI105_1:
	.quad	4294967297
	.quad	4294967297
	.text
	.globl	ecc200_inspect
	.p2align	4
	.type	ecc200_inspect,@function
ecc200_inspect:
	.cfi_startproc
	pushq	%rbp
	.cfi_def_cfa_offset 16
	pushq	%r15
	.cfi_def_cfa_offset 24
	pushq	%r14
	.cfi_def_cfa_offset 32
	pushq	%r12
	.cfi_def_cfa_offset 40
	pushq	%rbx
	.cfi_def_cfa_offset 48
	subq	$32, %rsp
	.cfi_def_cfa_offset 80
	.cfi_offset %rbx, -48
	.cfi_offset %r12, -40
	.cfi_offset %r14, -32
	.cfi_offset %r15, -24
	.cfi_offset %rbp, -16
	movq	80(%rsp), %rbx
	xorl	%r10d, %r10d
	testq	%rdi, %rdi
	sete	%bpl
	xorl	%eax, %eax
	testq	%rdx, %rdx
	sete	%r11b
	movzwl	%r8w, %r14d
	movzwl	%r9w, %r15d
	imulq	%r14, %r15
	cmpq	%r15, %rsi
	jne	.LBB105_1
	movb	%bpl, %r10b
	shll	$12, %r10d
	addq	%r10, %rdi
	movb	%r11b, %al
	shll	$12, %eax
	addq	%rax, %rdx
	leaq	.Lstatic.0(%rip), %r11
	movq	$-50, %r10
	.p2align	4
.LBB105_5:
	addq	$2, %r10
	je	.LBB105_6
	movq	%r11, %rax
	cmpw	%r8w, (%r11)
	jne	.LBB105_9
	cmpw	%r9w, 2(%rax)
	je	.LBB105_12
.LBB105_9:
	leaq	40(%rax), %r11
	cmpw	%r8w, 20(%rax)
	jne	.LBB105_5
	cmpw	%r9w, 22(%rax)
	jne	.LBB105_5
	addq	$-20, %r11
	movq	%r11, %rax
.LBB105_12:
	movsd	4(%rax), %xmm0
	movss	12(%rax), %xmm1
	movzwl	12(%rax), %r10d
	movzwl	16(%rax), %r11d
	cmpw	$1, 18(%rax)
	sete	%bpl
	testq	%rcx, %rcx
	je	.LBB105_15
	cmpq	%rsi, %rcx
	je	.LBB105_15
	xorl	%r8d, %r8d
	movw	$19, %ax
	jmp	.LBB105_2
.LBB105_1:
	movw	$3, %ax
	xorl	%r8d, %r8d
.LBB105_2:
	xorl	%r9d, %r9d
	jmp	.LBB105_3
.LBB105_6:
	movw	$4, %ax
.LBB105_3:
	movw	%ax, (%rbx)
	movw	%r8w, 2(%rbx)
	movw	%r9w, 4(%rbx)
	movq	$0, 6(%rbx)
	movq	$0, 12(%rbx)
.LBB105_36:
	movzwl	(%rbx), %eax
	addq	$32, %rsp
	.cfi_def_cfa_offset 48
	popq	%rbx
	.cfi_def_cfa_offset 40
	popq	%r12
	.cfi_def_cfa_offset 32
	popq	%r14
	.cfi_def_cfa_offset 24
	popq	%r15
	.cfi_def_cfa_offset 16
	popq	%rbp
	.cfi_def_cfa_offset 8
	retq
.LBB105_15:
	.cfi_def_cfa_offset 80
	xorl	%eax, %eax
	testq	%rcx, %rcx
	je	.LBB105_16
	cmpq	$4, %rcx
	jae	.LBB105_20
	xorl	%r15d, %r15d
	xorl	%r14d, %r14d
	jmp	.LBB105_19
.LBB105_16:
	xorl	%r15d, %r15d
	jmp	.LBB105_31
.LBB105_20:
	cmpq	$16, %rcx
	jae	.LBB105_22
	xorl	%r14d, %r14d
	xorl	%r15d, %r15d
	jmp	.LBB105_26
.LBB105_22:
	movq	%rcx, %r14
	andq	$-16, %r14
	pxor	%xmm2, %xmm2
	xorl	%r15d, %r15d
	pxor	%xmm3, %xmm3
	.p2align	4
.LBB105_23:
	movdqu	(%rdx,%r15), %xmm4
	pcmpeqb	%xmm2, %xmm4
	pcmpeqd	%xmm5, %xmm5
	pxor	%xmm4, %xmm5
	por	%xmm5, %xmm3
	addq	$16, %r15
	cmpq	%r15, %r14
	jne	.LBB105_23
	ptest	.LCPI105_0(%rip), %xmm3
	setne	%r15b
	cmpq	%r14, %rcx
	je	.LBB105_30
	testb	$12, %cl
	je	.LBB105_19
.LBB105_26:
	movq	%r14, %r12
	movq	%rcx, %r14
	andq	$-4, %r14
	movzbl	%r15b, %r15d
	movd	%r15d, %xmm2
	.p2align	4
.LBB105_27:
	movd	(%rdx,%r12), %xmm3
	pxor	%xmm4, %xmm4
	pcmpeqb	%xmm3, %xmm4
	pcmpeqd	%xmm3, %xmm3
	pxor	%xmm4, %xmm3
	pmovsxbd	%xmm3, %xmm3
	por	%xmm3, %xmm2
	addq	$4, %r12
	cmpq	%r12, %r14
	jne	.LBB105_27
	ptest	.LCPI105_1(%rip), %xmm2
	setne	%r15b
	jmp	.LBB105_29
.LBB105_19:
	cmpb	$0, (%rdx,%r14)
	setne	%r12b
	orb	%r12b, %r15b
	incq	%r14
.LBB105_29:
	cmpq	%r14, %rcx
	jne	.LBB105_19
.LBB105_30:
	andb	$1, %r15b
.LBB105_31:
	movw	%r8w, 10(%rsp)
	movw	%r9w, 12(%rsp)
	movlps	%xmm0, 14(%rsp)
	movss	%xmm1, 22(%rsp)
	movw	%r11w, 26(%rsp)
	movb	%bpl, 28(%rsp)
	movb	$0, 29(%rsp)
	movb	%r15b, 30(%rsp)
	movzwl	%r10w, %r8d
	cmpl	$817, %r8d
	setb	%r9b
	xorb	$3, %r9b
	cmpl	$205, %r8d
	movzbl	%r9b, %r9d
	movl	$1, %r10d
	cmovael	%r9d, %r10d
	movb	$0, 31(%rsp)
	cmpw	$63, %r8w
	cmovbl	%eax, %r10d
	movzbl	%r10b, %eax
	leaq	.LJTI105_0(%rip), %r8
	movslq	(%r8,%rax,4), %rax
	addq	%r8, %rax
	jmpq	*%rax
.LBB105_32:
	leaq	10(%rsp), %r8
	movq	%rbx, %r9
	callq	"ecc200_calls::inspection::inspect_given::<=32,=98,=131,=31>"
	jmp	.LBB105_36
.LBB105_34:
	leaq	10(%rsp), %r8
	movq	%rbx, %r9
	callq	"ecc200_calls::inspection::inspect_given::<=104,=1152,=1639,=408>"
	jmp	.LBB105_36
.LBB105_35:
	leaq	10(%rsp), %r8
	movq	%rbx, %r9
	callq	"ecc200_calls::inspection::inspect_given::<=144,=2178,=3123,=779>"
	jmp	.LBB105_36
.LBB105_33:
	leaq	10(%rsp), %r8
	movq	%rbx, %r9
	callq	"ecc200_calls::inspection::inspect_given::<=52,=288,=415,=102>"
	jmp	.LBB105_36
.Lfunc_end105:
	.size	ecc200_inspect, .Lfunc_end105-ecc200_inspect
	.cfi_endproc
	.section	.rodata,"a",@progbits
	.p2align	2, 0x0
.LJTI105_0:
	.long	.LBB105_32-.LJTI105_0
	.long	.LBB105_33-.LJTI105_0
	.long	.LBB105_34-.LJTI105_0
	.long	.LBB105_35-.LJTI105_0

	.section	.rodata.cst16,"aM",@progbits,16
	.p2align	4, 0x0
.LCPI106_0:
	.zero	16,1
.LCPI106_1:
	.quad	4294967297
	.quad	4294967297
	.text
	.globl	ecc200_normal
	.p2align	4
	.type	ecc200_normal,@function
ecc200_normal:
	.cfi_startproc
	pushq	%rbp
	.cfi_def_cfa_offset 16
	pushq	%r15
	.cfi_def_cfa_offset 24
	pushq	%r14
	.cfi_def_cfa_offset 32
	pushq	%r13
	.cfi_def_cfa_offset 40
	pushq	%r12
	.cfi_def_cfa_offset 48
	pushq	%rbx
	.cfi_def_cfa_offset 56
	subq	$88, %rsp
	.cfi_def_cfa_offset 144
	.cfi_offset %rbx, -56
	.cfi_offset %r12, -48
	.cfi_offset %r13, -40
	.cfi_offset %r14, -32
	.cfi_offset %r15, -24
	.cfi_offset %rbp, -16
	movq	%rdx, %r10
	movq	144(%rsp), %r12
	xorl	%r14d, %r14d
	testq	%rdi, %rdi
	sete	%al
	xorl	%r15d, %r15d
	testq	%rdx, %rdx
	sete	%r13b
	movzwl	(%r8), %ebp
	movzwl	2(%r8), %r11d
	movzwl	4(%r8), %ebx
	movzwl	6(%r8), %edx
	movzwl	8(%r8), %r8d
	testl	%r8d, %r8d
	je	.LBB106_1
	cmpl	$1, %r8d
	jne	.LBB106_3
	movl	%edx, 32(%rsp)
	movq	%rdi, 48(%rsp)
	movq	%rcx, %rdx
	xorl	%ecx, %ecx
	jmp	.LBB106_6
.LBB106_1:
	movl	%edx, 32(%rsp)
	movq	%rdi, 48(%rsp)
	movq	%rcx, %rdx
	movb	$1, %cl
.LBB106_6:
	movl	%ebx, %edi
	movzwl	%bx, %ebx
	cmpl	$3, %ebx
	ja	.LBB106_7
	movl	%ecx, 84(%rsp)
	movq	%rsi, %rcx
	movzwl	%bp, %r8d
	movzwl	%r11w, %esi
	movl	%ebx, %ebx
	leaq	.LJTI106_0(%rip), %r12
	movslq	(%r12,%rbx,4), %rbx
	addq	%r12, %rbx
	jmpq	*%rbx
.LBB106_10:
	leal	(%rsi,%r8), %edi
	shrl	$3, %edi
	jmp	.LBB106_12
.LBB106_3:
	movw	$17, %ax
	jmp	.LBB106_4
.LBB106_9:
	movl	$0, 32(%rsp)
	jmp	.LBB106_14
.LBB106_11:
	movw	$-1, %di
.LBB106_12:
	movl	%edi, 32(%rsp)
.LBB106_13:
	xorl	%edi, %edi
.LBB106_14:
	testw	%r9w, %r9w
	movq	144(%rsp), %r12
	je	.LBB106_15
	movzwl	%r9w, %ebx
	cmpl	$1, %ebx
	jne	.LBB106_53
	movb	$1, %bl
	jmp	.LBB106_18
.LBB106_15:
	xorl	%ebx, %ebx
.LBB106_18:
	imulq	%r8, %rsi
	cmpq	%rsi, %rcx
	jne	.LBB106_19
	movq	%rdx, %r9
	movb	%al, %r14b
	movb	%r13b, %r15b
	shll	$12, %r14d
	shll	$12, %r15d
	addq	%r14, 48(%rsp)
	addq	%r15, %r10
	leaq	.Lstatic.0(%rip), %r8
	movq	$-50, %rdx
	.p2align	4
.LBB106_23:
	addq	$2, %rdx
	je	.LBB106_24
	movq	%r8, %rax
	cmpw	%bp, (%r8)
	jne	.LBB106_27
	cmpw	%r11w, 2(%rax)
	je	.LBB106_30
.LBB106_27:
	leaq	40(%rax), %r8
	cmpw	%bp, 20(%rax)
	jne	.LBB106_23
	cmpw	%r11w, 22(%rax)
	jne	.LBB106_23
	addq	$-20, %r8
	movq	%r8, %rax
.LBB106_30:
	movsd	4(%rax), %xmm0
	movss	12(%rax), %xmm1
	movzwl	12(%rax), %esi
	movzwl	16(%rax), %r14d
	cmpw	$1, 18(%rax)
	sete	%r13b
	testq	%r9, %r9
	movl	32(%rsp), %eax
	je	.LBB106_33
	cmpq	%rcx, %r9
	je	.LBB106_33
	xorl	%ebp, %ebp
	movw	$19, %ax
	jmp	.LBB106_20
.LBB106_19:
	movw	$3, %ax
	xorl	%ebp, %ebp
.LBB106_20:
	xorl	%r11d, %r11d
	jmp	.LBB106_21
.LBB106_53:
	movw	$16, (%r12)
	movw	%r9w, 2(%r12)
	movl	$0, 4(%r12)
	movw	$0, 8(%r12)
	movw	$16, %ax
	jmp	.LBB106_54
.LBB106_7:
	movw	$24, %ax
	movl	%edi, %r8d
.LBB106_4:
	movw	%ax, (%r12)
	movw	%r8w, 2(%r12)
	movl	$0, 4(%r12)
	movw	$0, 8(%r12)
	jmp	.LBB106_54
.LBB106_24:
	movw	$4, %ax
.LBB106_21:
	movw	%ax, (%r12)
	movw	%bp, 2(%r12)
	movw	%r11w, 4(%r12)
	movl	$0, 6(%r12)
.LBB106_54:
	addq	$88, %rsp
	.cfi_def_cfa_offset 56
	popq	%rbx
	.cfi_def_cfa_offset 48
	popq	%r12
	.cfi_def_cfa_offset 40
	popq	%r13
	.cfi_def_cfa_offset 32
	popq	%r14
	.cfi_def_cfa_offset 24
	popq	%r15
	.cfi_def_cfa_offset 16
	popq	%rbp
	.cfi_def_cfa_offset 8
	retq
.LBB106_33:
	.cfi_def_cfa_offset 144
	xorl	%r8d, %r8d
	testq	%r9, %r9
	je	.LBB106_34
	cmpq	$4, %r9
	jae	.LBB106_37
	xorl	%r15d, %r15d
	xorl	%eax, %eax
	jmp	.LBB106_46
.LBB106_34:
	xorl	%r15d, %r15d
	jmp	.LBB106_48
.LBB106_37:
	cmpq	$16, %r9
	jae	.LBB106_39
	xorl	%eax, %eax
	xorl	%r15d, %r15d
	jmp	.LBB106_43
.LBB106_39:
	movq	%r9, %rax
	andq	$-16, %rax
	pxor	%xmm2, %xmm2
	xorl	%edx, %edx
	pxor	%xmm3, %xmm3
	.p2align	4
.LBB106_40:
	movdqu	(%r10,%rdx), %xmm4
	pcmpeqb	%xmm2, %xmm4
	pcmpeqd	%xmm5, %xmm5
	pxor	%xmm4, %xmm5
	por	%xmm5, %xmm3
	addq	$16, %rdx
	cmpq	%rdx, %rax
	jne	.LBB106_40
	ptest	.LCPI106_0(%rip), %xmm3
	setne	%r15b
	cmpq	%rax, %r9
	je	.LBB106_47
	testb	$12, %r9b
	je	.LBB106_46
.LBB106_43:
	movq	%rax, %rdx
	movq	%r9, %rax
	andq	$-4, %rax
	movzbl	%r15b, %r8d
	movd	%r8d, %xmm2
	.p2align	4
.LBB106_44:
	movd	(%r10,%rdx), %xmm3
	pxor	%xmm4, %xmm4
	pcmpeqb	%xmm3, %xmm4
	pcmpeqd	%xmm3, %xmm3
	pxor	%xmm4, %xmm3
	pmovsxbd	%xmm3, %xmm3
	por	%xmm3, %xmm2
	addq	$4, %rdx
	cmpq	%rdx, %rax
	jne	.LBB106_44
	ptest	.LCPI106_1(%rip), %xmm2
	setne	%r15b
	cmpq	%rax, %r9
	movl	$0, %r8d
	je	.LBB106_47
	.p2align	4
.LBB106_46:
	cmpb	$0, (%r10,%rax)
	setne	%dl
	orb	%dl, %r15b
	incq	%rax
	cmpq	%rax, %r9
	jne	.LBB106_46
.LBB106_47:
	andb	$1, %r15b
	movl	32(%rsp), %eax
.LBB106_48:
	movb	%bl, 31(%rsp)
	movw	%bp, 38(%rsp)
	movw	%r11w, 40(%rsp)
	movl	84(%rsp), %edx
	movb	%dl, 42(%rsp)
	movb	$0, 43(%rsp)
	movw	%di, 44(%rsp)
	movw	%ax, 46(%rsp)
	movw	%bp, 62(%rsp)
	movw	%r11w, 64(%rsp)
	movlps	%xmm0, 66(%rsp)
	movss	%xmm1, 74(%rsp)
	movw	%r14w, 78(%rsp)
	movb	%r13b, 80(%rsp)
	movb	$0, 81(%rsp)
	movb	%r15b, 82(%rsp)
	movzwl	%si, %eax
	cmpl	$817, %eax
	setb	%dl
	xorb	$3, %dl
	cmpl	$205, %eax
	movzbl	%dl, %edx
	movl	$1, %esi
	cmovael	%edx, %esi
	movb	$0, 83(%rsp)
	cmpw	$63, %ax
	cmovbl	%r8d, %esi
	movzbl	%sil, %eax
	leaq	.LJTI106_1(%rip), %rdx
	movslq	(%rdx,%rax,4), %rax
	addq	%rdx, %rax
	jmpq	*%rax
.LBB106_49:
	movq	%r12, 8(%rsp)
	leaq	62(%rsp), %rax
	movq	%rax, (%rsp)
	leaq	31(%rsp), %rdi
	leaq	38(%rsp), %rsi
	movq	48(%rsp), %rdx
	movq	%r10, %r8
	callq	"ecc200_calls::answer::answer_given::<#67f27f8c38696f0b>"
	movzwl	(%r12), %eax
	jmp	.LBB106_54
.LBB106_51:
	movq	%r12, 8(%rsp)
	leaq	62(%rsp), %rax
	movq	%rax, (%rsp)
	leaq	31(%rsp), %rdi
	leaq	38(%rsp), %rsi
	movq	48(%rsp), %rdx
	movq	%r10, %r8
	callq	"ecc200_calls::answer::answer_given::<#1120882bd96666a5>"
	movzwl	(%r12), %eax
	jmp	.LBB106_54
.LBB106_52:
	movq	%r12, 8(%rsp)
	leaq	62(%rsp), %rax
	movq	%rax, (%rsp)
	leaq	31(%rsp), %rdi
	leaq	38(%rsp), %rsi
	movq	48(%rsp), %rdx
	movq	%r10, %r8
	callq	"ecc200_calls::answer::answer_given::<#c193b66836f70129>"
	movzwl	(%r12), %eax
	jmp	.LBB106_54
.LBB106_50:
	movq	%r12, 8(%rsp)
	leaq	62(%rsp), %rax
	movq	%rax, (%rsp)
	leaq	31(%rsp), %rdi
	leaq	38(%rsp), %rsi
	movq	48(%rsp), %rdx
	movq	%r10, %r8
	callq	"ecc200_calls::answer::answer_given::<#e937d748901de80e>"
	movzwl	(%r12), %eax
	jmp	.LBB106_54
.Lfunc_end106:
	.size	ecc200_normal, .Lfunc_end106-ecc200_normal
	.cfi_endproc
	.section	.rodata,"a",@progbits
	.p2align	2, 0x0
.LJTI106_0:
	.long	.LBB106_10-.LJTI106_0
	.long	.LBB106_9-.LJTI106_0
	.long	.LBB106_11-.LJTI106_0
	.long	.LBB106_13-.LJTI106_0
.LJTI106_1:
	.long	.LBB106_49-.LJTI106_1
	.long	.LBB106_50-.LJTI106_1
	.long	.LBB106_51-.LJTI106_1
	.long	.LBB106_52-.LJTI106_1

	.section	.rodata.cst16,"aM",@progbits,16
	.p2align	4, 0x0
.LCPI107_0:
	.long	50331648
	.long	50331648
	.long	50331648
	.long	50331648
	.text
	.globl	ecc200_places
	.p2align	4
	.type	ecc200_places,@function
ecc200_places:
	.cfi_startproc
	pushq	%rbp
	.cfi_def_cfa_offset 16
	pushq	%r15
	.cfi_def_cfa_offset 24
	pushq	%r14
	.cfi_def_cfa_offset 32
	pushq	%r13
	.cfi_def_cfa_offset 40
	pushq	%r12
	.cfi_def_cfa_offset 48
	pushq	%rbx
	.cfi_def_cfa_offset 56
	subq	$136, %rsp
	.cfi_def_cfa_offset 192
	.cfi_offset %rbx, -56
	.cfi_offset %r12, -48
	.cfi_offset %r13, -40
	.cfi_offset %r14, -32
	.cfi_offset %r15, -24
	.cfi_offset %rbp, -16
	leaq	.Lstatic.0(%rip), %r8
	movq	$-50, %rcx
	.p2align	4
.LBB107_1:
	addq	$2, %rcx
	je	.LBB107_110
	movq	%r8, %rax
	cmpw	%di, (%r8)
	jne	.LBB107_4
	cmpw	%si, 2(%rax)
	je	.LBB107_7
.LBB107_4:
	leaq	40(%rax), %r8
	cmpw	%di, 20(%rax)
	jne	.LBB107_1
	cmpw	%si, 22(%rax)
	jne	.LBB107_1
	addq	$-20, %r8
	movq	%r8, %rax
.LBB107_7:
	movzwl	4(%rax), %ecx
	movq	%rcx, 16(%rsp)
	movzwl	6(%rax), %ecx
	movq	%rcx, 64(%rsp)
	movzwl	8(%rax), %ecx
	movq	%rcx, 72(%rsp)
	movzwl	10(%rax), %eax
	movq	%rax, 48(%rsp)
	movl	$0, (%rdx)
	movw	$0, 4(%rdx)
	movw	%di, 6(%rdx)
	movw	%si, 8(%rdx)
	addq	$10, %rdx
	movq	%rdx, 80(%rsp)
	movzwl	%si, %ebx
	testw	%di, %di
	je	.LBB107_29
	testw	%si, %si
	je	.LBB107_29
	movq	16(%rsp), %rax
	addl	$2, %eax
	movl	%eax, -120(%rsp)
	testw	%ax, %ax
	movq	64(%rsp), %rax
	je	.LBB107_112
	leal	2(%rax), %ebp
	testw	%bp, %bp
	je	.LBB107_112
	leal	1(%rax), %r15d
	movq	16(%rsp), %rax
	incl	%eax
	movl	%eax, -16(%rsp)
	movzwl	%di, %eax
	movq	%rax, 56(%rsp)
	movl	%ebx, %r14d
	andl	$-2, %r14d
	movl	%ebx, %eax
	andl	$-4, %eax
	movq	%rax, (%rsp)
	leal	(,%rbx,4), %ecx
	movl	%ecx, %r10d
	andl	$-16, %r10d
	xorl	%edi, %edi
	movq	80(%rsp), %r11
	jmp	.LBB107_14
.LBB107_12:
	movq	%rdi, %r9
	imulq	%rbx, %r9
	movl	%r8d, %eax
	xorl	%edx, %edx
	divw	%bp
	notb	%dl
	movzbl	%dl, %eax
	andl	$1, %eax
	orl	$2, %eax
	shll	$24, %eax
	addq	%r8, %r9
	movq	80(%rsp), %rdx
	movl	%eax, (%rdx,%r9,4)
	.p2align	4
.LBB107_13:
	incq	%rdi
	addq	%rcx, %r11
	cmpq	56(%rsp), %rdi
	je	.LBB107_29
.LBB107_14:
	movl	%edi, %eax
	xorl	%edx, %edx
	divw	-120(%rsp)
	cmpw	-16(%rsp), %dx
	jne	.LBB107_19
	xorl	%eax, %eax
	cmpw	$4, %si
	jb	.LBB107_18
	.p2align	4
.LBB107_16:
	movaps	.LCPI107_0(%rip), %xmm0
	movups	%xmm0, (%r11,%rax)
	addq	$16, %rax
	cmpq	%rax, %r10
	jne	.LBB107_16
	movq	(%rsp), %rdx
	movq	%rdx, %rax
	cmpl	%ebx, %edx
	je	.LBB107_13
	.p2align	4
.LBB107_18:
	movl	$50331648, (%r11,%rax,4)
	incq	%rax
	cmpq	%rax, %rbx
	jne	.LBB107_18
	jmp	.LBB107_13
	.p2align	4
.LBB107_19:
	movl	%edx, %r12d
	testw	%dx, %dx
	je	.LBB107_26
	andl	$1, %r12d
	orl	$2, %r12d
	shll	$24, %r12d
	xorl	%r9d, %r9d
	jmp	.LBB107_22
	.p2align	4
.LBB107_21:
	movl	%eax, (%r11,%r9,4)
	incq	%r9
	cmpq	%r9, %rbx
	je	.LBB107_13
.LBB107_22:
	movl	%r9d, %eax
	xorl	%edx, %edx
	divw	%bp
	xorl	%eax, %eax
	cmpq	%r9, %rdi
	sete	%r13b
	movl	%r12d, %r8d
	cmpw	%r15w, %dx
	je	.LBB107_24
	movb	%r13b, %al
	orl	$4, %eax
	shll	$24, %eax
	movl	%eax, %r8d
.LBB107_24:
	movl	$50331648, %eax
	testw	%dx, %dx
	je	.LBB107_21
	movl	%r8d, %eax
	jmp	.LBB107_21
.LBB107_26:
	xorl	%r8d, %r8d
	cmpw	$1, %si
	je	.LBB107_12
	.p2align	4
.LBB107_27:
	movl	%r8d, %eax
	xorl	%edx, %edx
	divw	%bp
	notb	%dl
	movzbl	%dl, %eax
	andl	$1, %eax
	orl	$2, %eax
	shll	$24, %eax
	movl	%eax, (%r11,%r8,4)
	leal	1(%r8), %eax
	xorl	%edx, %edx
	divw	%bp
	notb	%dl
	movzbl	%dl, %eax
	andl	$1, %eax
	orl	$2, %eax
	shll	$24, %eax
	movl	%eax, 4(%r11,%r8,4)
	addq	$2, %r8
	cmpq	%r8, %r14
	jne	.LBB107_27
	testb	$1, %bl
	jne	.LBB107_12
	jmp	.LBB107_13
.LBB107_29:
	movq	72(%rsp), %r15
	imull	16(%rsp), %r15d
	movq	48(%rsp), %r8
	imull	64(%rsp), %r8d
	movl	%r15d, %ebp
	andl	$7, %ebp
	cmpw	$6, %bp
	sete	%cl
	movl	%r8d, %esi
	andl	$7, %esi
	cmpw	$6, %si
	sete	%dl
	movl	%esi, %eax
	xorw	$4, %ax
	sete	%al
	movl	%ecx, %edi
	andb	%dl, %dil
	movb	%dil, -107(%rsp)
	orb	%al, %dl
	movb	%dl, 56(%rsp)
	testl	%esi, %esi
	sete	%dil
	movl	%ebp, %edx
	xorw	$4, %dx
	sete	%dl
	andb	%cl, %dil
	movb	%dil, -109(%rsp)
	andb	%al, %cl
	movb	%cl, -108(%rsp)
	movl	%esi, %ecx
	xorl	$4, %ecx
	movw	%cx, -10(%rsp)
	leal	2(%rcx), %edi
	movl	%edi, 92(%rsp)
	movl	%ebp, %edi
	xorl	$4, %edi
	movw	%di, -106(%rsp)
	leal	2(%rdi), %r9d
	movl	%r9d, 36(%rsp)
	movl	%r15d, %r9d
	subl	%ecx, %r9d
	addl	$2, %r9d
	movl	%r9d, 100(%rsp)
	movl	%r8d, %r9d
	subl	%edi, %r9d
	movl	%r9d, 32(%rsp)
	movl	%ebp, %r9d
	xorl	$65531, %r9d
	movl	%r9d, 96(%rsp)
	incl	%ecx
	movq	%rcx, 120(%rsp)
	movl	%esi, (%rsp)
	movl	%esi, %ecx
	xorl	$-5, %ecx
	addl	%r15d, %ecx
	addl	$4, %ecx
	movl	%ecx, 28(%rsp)
	negl	%edi
	movq	%rdi, 128(%rsp)
	andb	%al, %dl
	movb	%dl, -16(%rsp)
	leal	(%r8,%r15), %r11d
	leal	-2(%r15), %eax
	movl	%eax, -120(%rsp)
	leal	-2(%r8), %eax
	movq	%rax, -56(%rsp)
	leal	-1(%r8), %eax
	movl	%eax, -124(%rsp)
	leal	6(%r15), %eax
	movl	%eax, 116(%rsp)
	leal	-1(%r15), %eax
	movl	%eax, -116(%rsp)
	leal	-3(%r8), %eax
	movl	%eax, 44(%rsp)
	leal	-3(%r15), %eax
	movl	%eax, 40(%rsp)
	leal	-4(%r8), %eax
	movl	%eax, 104(%rsp)
	xorl	%r12d, %r12d
	xorl	%r9d, %r9d
	xorl	%r13d, %r13d
	xorl	%edx, %edx
	movq	%r8, 48(%rsp)
	movl	%ebp, 112(%rsp)
	movq	%r15, 72(%rsp)
	movl	%r11d, 108(%rsp)
.LBB107_30:
	movl	%r13d, %eax
	movq	%rdx, %rdi
	jmp	.LBB107_34
.LBB107_31:
	movl	%r12d, %esi
	subw	%r8w, %si
	incl	%esi
	orl	$1, %esi
	cmpw	%r8w, %r12w
	movl	$1, %eax
	cmovael	%esi, %eax
	movb	$2, %r9b
	xorl	%esi, %esi
.LBB107_32:
	xorl	%r10d, %r10d
.LBB107_33:
	testb	%dl, %dl
	movq	%rdi, %rdx
	jne	.LBB107_69
.LBB107_34:
	leal	1(%r12), %ecx
	cmpw	%r11w, %cx
	jae	.LBB107_109
	cmpb	$2, %r9b
	je	.LBB107_42
	movzbl	%r9b, %ecx
	cmpl	$1, %ecx
	jne	.LBB107_50
	cmpw	%ax, %r8w
	jbe	.LBB107_47
	cmpw	%ax, %r12w
	jb	.LBB107_47
	movl	%r12d, %r10d
	subl	%eax, %r10d
	leal	2(%rax), %r13d
	cmpw	$6, %bp
	jne	.LBB107_78
	movl	%r10d, %ecx
	xorl	-120(%rsp), %ecx
	orw	%ax, %cx
	sete	%cl
	movb	$1, %r9b
	testb	%cl, 56(%rsp)
	je	.LBB107_57
	movw	$2, %ax
	jmp	.LBB107_48
	.p2align	4
.LBB107_42:
	cmpw	%ax, %r15w
	jbe	.LBB107_47
	cmpw	%ax, %r12w
	jb	.LBB107_47
	movl	%r12d, %esi
	subl	%eax, %esi
	leal	2(%rax), %r13d
	cmpw	$6, %bp
	jne	.LBB107_77
	movl	%eax, %ecx
	xorl	-120(%rsp), %ecx
	orw	%si, %cx
	sete	%cl
	movb	$2, %r9b
	testb	%cl, 56(%rsp)
	je	.LBB107_61
	xorl	%esi, %esi
	movl	%r13d, %eax
	jmp	.LBB107_49
	.p2align	4
.LBB107_47:
	addl	$4, %r12d
	xorl	%r9d, %r9d
.LBB107_48:
	xorl	%esi, %esi
.LBB107_49:
	xorl	%r10d, %r10d
	xorl	%ecx, %ecx
	xorl	%edx, %edx
	jmp	.LBB107_33
	.p2align	4
.LBB107_50:
	movl	%r12d, %eax
	subw	%r15w, %ax
	sete	%cl
	movb	$1, %dl
	testb	%cl, -16(%rsp)
	je	.LBB107_52
	movb	$1, %cl
	jmp	.LBB107_55
.LBB107_52:
	movl	-120(%rsp), %r9d
	cmpw	%r9w, %r12w
	sete	%sil
	movb	$2, %cl
	testb	%sil, -107(%rsp)
	jne	.LBB107_55
	cmpw	%r9w, %r12w
	sete	%sil
	movb	$3, %cl
	testb	%sil, -108(%rsp)
	jne	.LBB107_55
	cmpw	116(%rsp), %r12w
	sete	%dl
	andb	-109(%rsp), %dl
	leal	(,%rdx,4), %ecx
	.p2align	4
.LBB107_55:
	movl	%r12d, %esi
	andl	$7, %esi
	cmpw	$4, %si
	jne	.LBB107_31
	andl	$-2, %eax
	addl	$2, %eax
	xorl	%esi, %esi
	cmpw	%r15w, %r12w
	cmovbl	%esi, %eax
	movb	$1, %r9b
	jmp	.LBB107_32
.LBB107_57:
	xorl	%ecx, %ecx
	cmpw	$6, (%rsp)
	jne	.LBB107_66
	cmpw	-56(%rsp), %ax
	jne	.LBB107_66
	testw	%r10w, %r10w
	jne	.LBB107_66
	movl	%r13d, %eax
	jmp	.LBB107_65
.LBB107_61:
	xorl	%ecx, %ecx
	cmpw	$6, (%rsp)
	jne	.LBB107_67
	testw	%ax, %ax
	jne	.LBB107_67
	cmpw	-56(%rsp), %si
	jne	.LBB107_67
	movw	$2, %ax
.LBB107_65:
	xorl	%esi, %esi
	xorl	%r10d, %r10d
	xorl	%edx, %edx
	jmp	.LBB107_33
.LBB107_66:
	movl	%r10d, %edx
	xorl	$1, %edx
	movl	%eax, %esi
	xorl	-124(%rsp), %esi
	orl	%edx, %esi
	orw	(%rsp), %si
	setne	%dl
	cmovel	%ecx, %r10d
	cmovel	%ecx, %eax
	movl	%eax, %esi
	jmp	.LBB107_68
.LBB107_67:
	movl	%eax, %edx
	xorl	$1, %edx
	movl	%esi, %r10d
	xorl	-124(%rsp), %r10d
	orl	%edx, %r10d
	orw	(%rsp), %r10w
	setne	%dl
	cmovel	%ecx, %eax
	movl	%eax, %r10d
	cmovel	%ecx, %esi
.LBB107_68:
	movl	%r13d, %eax
	jmp	.LBB107_33
	.p2align	4
.LBB107_69:
	movw	$2, %bp
	movzbl	%cl, %ecx
	leaq	.LJTI107_0(%rip), %rdx
	movslq	(%rdx,%rcx,4), %rcx
	addq	%rdx, %rcx
	jmpq	*%rcx
.LBB107_70:
	movl	%eax, %r13d
	movq	48(%rsp), %r8
	movq	%rdi, %rdx
	jmp	.LBB107_79
.LBB107_71:
	movw	$1, %r10w
	movq	$0, -88(%rsp)
	movl	%eax, %r13d
	movl	-116(%rsp), %eax
	movl	%eax, %r8d
	movq	%rax, -24(%rsp)
	movl	-124(%rsp), %ecx
	movl	%ecx, %eax
	movq	%rax, -96(%rsp)
	movq	$0, -48(%rsp)
	movl	44(%rsp), %edx
	movl	%edx, %eax
	movq	%rax, -80(%rsp)
	movq	$0, -32(%rsp)
	movq	-56(%rsp), %rax
	movl	%eax, %esi
	movq	%rsi, -72(%rsp)
	xorl	%r14d, %r14d
	movl	%ecx, %esi
	movq	%rsi, -64(%rsp)
	movq	%rdx, -40(%rsp)
	movw	$1, %bp
	movq	%rax, -8(%rsp)
	movw	$1, %ax
	movq	%rax, -104(%rsp)
	movq	%r8, %rcx
	jmp	.LBB107_73
.LBB107_72:
	movw	$1, %cx
	movq	%rcx, -104(%rsp)
	movq	$0, -88(%rsp)
	movl	%eax, %r13d
	movl	40(%rsp), %eax
	movl	%eax, %ecx
	movl	-120(%rsp), %eax
	movq	%rax, -24(%rsp)
	movq	$0, -96(%rsp)
	movl	-116(%rsp), %eax
	movq	%rax, -48(%rsp)
	movq	$0, -80(%rsp)
	movq	$0, -32(%rsp)
	movl	104(%rsp), %eax
	movq	%rax, -72(%rsp)
	xorl	%r14d, %r14d
	movl	44(%rsp), %eax
	movq	%rax, -64(%rsp)
	xorl	%r10d, %r10d
	movq	-56(%rsp), %rax
	movq	%rax, -40(%rsp)
	xorl	%ebp, %ebp
	movl	-124(%rsp), %eax
	movl	%eax, %edx
	movq	%rdx, -8(%rsp)
	movl	%eax, %esi
.LBB107_73:
	movq	%rdi, %rdx
	jmp	.LBB107_101
.LBB107_74:
	movw	$3, %cx
	movq	%rcx, -104(%rsp)
	movq	$0, -88(%rsp)
	movl	%eax, %r13d
	movl	40(%rsp), %eax
	movl	%eax, %ecx
	movl	-120(%rsp), %eax
	movq	%rax, -24(%rsp)
	movq	$0, -96(%rsp)
	movl	-116(%rsp), %eax
	movq	%rax, -48(%rsp)
	movq	$0, -80(%rsp)
	jmp	.LBB107_76
.LBB107_75:
	movw	$3, %cx
	movq	%rcx, -104(%rsp)
	movq	$0, -88(%rsp)
	movl	%eax, %r13d
	movl	-116(%rsp), %eax
	movl	%eax, %edx
	movl	%eax, %ecx
	movq	%rcx, -24(%rsp)
	movq	%rdx, %rcx
	movw	$1, %dx
	movq	%rdx, -96(%rsp)
	movq	%rax, -48(%rsp)
	movw	$2, %ax
	movq	%rax, -80(%rsp)
.LBB107_76:
	movq	$0, -32(%rsp)
	movq	-56(%rsp), %rax
	movq	%rax, -72(%rsp)
	xorl	%r14d, %r14d
	movl	-124(%rsp), %eax
	movl	%eax, %edx
	movq	%rdx, -64(%rsp)
	movq	%rdx, -40(%rsp)
	movq	%rdx, -8(%rsp)
	movl	%eax, %esi
	movq	%rdi, %rdx
	movw	$1, %r10w
	jmp	.LBB107_101
.LBB107_77:
	movl	%eax, %r10d
	jmp	.LBB107_79
.LBB107_78:
	movl	%eax, %esi
.LBB107_79:
	cmpw	$2, %si
	jb	.LBB107_82
	cmpw	$2, %r10w
	jb	.LBB107_82
	leal	-2(%r10), %ecx
	leal	-2(%rsi), %edi
	leal	-1(%rsi), %r8d
	leal	-1(%r10), %r14d
	movl	%ecx, %eax
	movq	%rax, -24(%rsp)
	movl	%edi, %eax
	movq	%rax, -80(%rsp)
	movl	%r14d, %eax
	movq	%rax, -32(%rsp)
	movl	%r8d, %eax
	movq	%rax, -72(%rsp)
	movq	%r14, -48(%rsp)
	movl	%esi, %eax
	movq	%rax, -64(%rsp)
	movq	%rdi, -88(%rsp)
	movq	%rdi, -40(%rsp)
	movl	%r10d, %ebp
	movq	%r8, -96(%rsp)
	movq	%r8, -8(%rsp)
	movl	%r10d, %eax
	movq	%rax, -104(%rsp)
	jmp	.LBB107_101
.LBB107_82:
	cmpw	$1, %r10w
	movl	-120(%rsp), %edx
	ja	.LBB107_85
	leal	4(%rsi), %eax
	movq	%rax, -64(%rsp)
	cmpw	36(%rsp), %ax
	movl	%edx, %eax
	movq	%r10, -104(%rsp)
	movl	100(%rsp), %r10d
	cmovbl	%r10d, %eax
	movq	128(%rsp), %rcx
	cmovbl	32(%rsp), %ecx
	addl	-104(%rsp), %eax
	cmpw	%ax, %r15w
	movl	%r15d, %edx
	movl	$0, %r14d
	cmoval	%r14d, %edx
	subl	%edx, %eax
	movq	%rax, 8(%rsp)
	movq	-64(%rsp), %rax
	cmpw	-106(%rsp), %ax
	movl	-120(%rsp), %eax
	cmovbel	%r10d, %eax
	movl	%r8d, %edx
	movl	$0, %r8d
	cmoval	%r8d, %edx
	xorl	%r14d, %r14d
	addl	-104(%rsp), %eax
	movswl	96(%rsp), %r10d
	leal	(%rsi,%r10), %r8d
	addl	$4, %r8d
	movq	-104(%rsp), %r10
	addl	%edx, %r8d
	cmpw	%ax, %r15w
	movl	%r15d, %edx
	cmoval	%r14d, %edx
	subl	%edx, %eax
	movq	%rax, %rdx
	leal	(%rsi,%rcx), %eax
	addl	$2, %eax
	movq	%rax, -88(%rsp)
	testw	%r10w, %r10w
	je	.LBB107_104
	movl	%r8d, %eax
	movq	%rax, -96(%rsp)
	movq	8(%rsp), %rcx
	jmp	.LBB107_91
.LBB107_85:
	cmpw	$2, %si
	jae	.LBB107_88
	leal	4(%r10), %edx
	xorl	%eax, %eax
	subw	92(%rsp), %dx
	cmovbl	%eax, %edx
	cmpw	%dx, %r15w
	cmovbel	%r15d, %eax
	movq	-56(%rsp), %rcx
	addl	%esi, %ecx
	movq	%rcx, -88(%rsp)
	movl	%edx, %ecx
	subl	%eax, %ecx
	testw	%si, %si
	je	.LBB107_106
	leal	-2(%r10), %edx
	jmp	.LBB107_89
.LBB107_88:
	leal	-2(%r10), %edx
	xorl	%eax, %eax
	cmpw	%dx, %r15w
	cmovbel	%r15d, %eax
	leal	-2(%rsi), %ecx
	movq	%rcx, -88(%rsp)
	movl	%edx, %ecx
	subl	%eax, %ecx
.LBB107_89:
	leal	-1(%rsi), %eax
.LBB107_90:
	movq	%rax, -96(%rsp)
	xorl	%eax, %eax
	cmpw	%dx, %r15w
	cmovbel	%r15d, %eax
	subl	%eax, %edx
.LBB107_91:
	cmpw	$1, %si
	movq	%rdx, -24(%rsp)
	movq	%rcx, 8(%rsp)
	ja	.LBB107_93
	leal	4(%r10), %edx
	xorl	%eax, %eax
	subw	120(%rsp), %dx
	cmovbl	%eax, %edx
	movq	-56(%rsp), %rcx
	addl	%esi, %ecx
	movq	%rcx, -80(%rsp)
	cmpw	%dx, %r15w
	cmovbel	%r15d, %eax
	movl	%edx, %ecx
	subl	%eax, %ecx
	movq	%rcx, -48(%rsp)
	leal	-1(%r10), %r14d
	movl	-124(%rsp), %eax
	testw	%si, %si
	jne	.LBB107_94
	jmp	.LBB107_95
.LBB107_93:
	leal	-1(%r10), %r14d
	xorl	%eax, %eax
	cmpw	%r14w, %r15w
	cmovbel	%r15d, %eax
	leal	-2(%rsi), %ecx
	movq	%rcx, -80(%rsp)
	movl	%r14d, %ecx
	subl	%eax, %ecx
	movq	%rcx, -48(%rsp)
.LBB107_94:
	leal	-1(%rsi), %eax
	movl	%r14d, %edx
.LBB107_95:
	movq	%rax, -72(%rsp)
	xorl	%eax, %eax
	cmpw	%dx, %r15w
	cmovbel	%r15d, %eax
	subl	%eax, %edx
	movq	%rdx, -32(%rsp)
	movl	%esi, %ecx
.LBB107_96:
	movq	%rcx, -64(%rsp)
	xorl	%edx, %edx
	cmpw	%r14w, %r15w
	movl	%r15d, %eax
	cmoval	%edx, %eax
	cmpw	$2, %si
	jae	.LBB107_98
	leal	4(%r10), %ebp
	subw	-10(%rsp), %bp
	cmovbl	%edx, %ebp
	movq	-56(%rsp), %rcx
	addl	%esi, %ecx
	movq	%rcx, -40(%rsp)
	cmpw	%bp, %r15w
	cmovbel	%r15d, %edx
	movl	%ebp, %ecx
	subl	%edx, %ecx
	movl	-124(%rsp), %edx
	testw	%si, %si
	jne	.LBB107_99
	jmp	.LBB107_100
.LBB107_98:
	cmpw	%r10w, %r15w
	cmovbel	%r15d, %edx
	leal	-2(%rsi), %ecx
	movq	%rcx, -40(%rsp)
	movl	%r10d, %ecx
	subl	%edx, %ecx
.LBB107_99:
	leal	-1(%rsi), %edx
	movl	%r10d, %ebp
.LBB107_100:
	movq	%rdx, -8(%rsp)
	subl	%eax, %r14d
	xorl	%eax, %eax
	cmpw	%bp, %r15w
	movl	%r15d, %edx
	cmoval	%eax, %edx
	subl	%edx, %ebp
	cmpw	%r10w, %r15w
	cmovbel	%r15d, %eax
	subl	%eax, %r10d
	movq	%r10, -104(%rsp)
	movl	%ecx, %r10d
	movq	%rdi, %rdx
	movq	8(%rsp), %rcx
.LBB107_101:
	movq	%rbp, 8(%rsp)
	cmpw	$0, 16(%rsp)
	je	.LBB107_112
	movq	64(%rsp), %r15
	testw	%r15w, %r15w
	je	.LBB107_112
	movq	%r10, %rbp
	movq	%rdx, %rdi
	movl	%ecx, %eax
	xorl	%edx, %edx
	movq	16(%rsp), %r10
	divw	%r10w
	leal	(%rcx,%rax,2), %ecx
	incl	%ecx
	movq	-88(%rsp), %r8
	movl	%r8d, %eax
	xorl	%edx, %edx
	divw	%r15w
	leal	(%r8,%rax,2), %eax
	incl	%eax
	movzwl	%cx, %ecx
	movzwl	%ax, %eax
	imulq	%rbx, %rcx
	addq	%rax, %rcx
	movq	80(%rsp), %r11
	movw	%di, (%r11,%rcx,4)
	movw	$257, 2(%r11,%rcx,4)
	movq	-24(%rsp), %rcx
	movl	%ecx, %eax
	xorl	%edx, %edx
	divw	%r10w
	leal	(%rcx,%rax,2), %ecx
	incl	%ecx
	movq	-96(%rsp), %r8
	movl	%r8d, %eax
	xorl	%edx, %edx
	divw	%r15w
	leal	(%r8,%rax,2), %eax
	incl	%eax
	movzwl	%cx, %ecx
	movzwl	%ax, %eax
	imulq	%rbx, %rcx
	addq	%rax, %rcx
	movw	%di, (%r11,%rcx,4)
	movw	$258, 2(%r11,%rcx,4)
	movq	-48(%rsp), %rcx
	movl	%ecx, %eax
	xorl	%edx, %edx
	divw	%r10w
	leal	(%rcx,%rax,2), %ecx
	incl	%ecx
	movq	-80(%rsp), %r8
	movl	%r8d, %eax
	xorl	%edx, %edx
	divw	%r15w
	leal	(%r8,%rax,2), %eax
	incl	%eax
	movzwl	%cx, %ecx
	movzwl	%ax, %eax
	imulq	%rbx, %rcx
	addq	%rax, %rcx
	movw	%di, (%r11,%rcx,4)
	movw	$259, 2(%r11,%rcx,4)
	movq	-32(%rsp), %rcx
	movl	%ecx, %eax
	xorl	%edx, %edx
	divw	%r10w
	leal	(%rcx,%rax,2), %ecx
	incl	%ecx
	movq	-72(%rsp), %r8
	movl	%r8d, %eax
	xorl	%edx, %edx
	divw	%r15w
	leal	(%r8,%rax,2), %eax
	incl	%eax
	movzwl	%cx, %ecx
	movzwl	%ax, %eax
	imulq	%rbx, %rcx
	addq	%rax, %rcx
	movw	%di, (%r11,%rcx,4)
	movw	$260, 2(%r11,%rcx,4)
	movl	%r14d, %eax
	xorl	%edx, %edx
	divw	%r10w
	leal	(%r14,%rax,2), %ecx
	incl	%ecx
	movq	-64(%rsp), %r8
	movl	%r8d, %eax
	xorl	%edx, %edx
	divw	%r15w
	leal	(%r8,%rax,2), %eax
	incl	%eax
	movzwl	%cx, %ecx
	movzwl	%ax, %eax
	imulq	%rbx, %rcx
	addq	%rax, %rcx
	movw	%di, (%r11,%rcx,4)
	movw	$261, 2(%r11,%rcx,4)
	movl	%ebp, %eax
	xorl	%edx, %edx
	divw	%r10w
	leal	1(%rbp,%rax,2), %ecx
	movq	-40(%rsp), %r8
	movl	%r8d, %eax
	xorl	%edx, %edx
	divw	%r15w
	leal	(%r8,%rax,2), %eax
	incl	%eax
	movzwl	%cx, %ecx
	movzwl	%ax, %eax
	imulq	%rbx, %rcx
	addq	%rax, %rcx
	movw	%di, (%r11,%rcx,4)
	movw	$262, 2(%r11,%rcx,4)
	movq	8(%rsp), %rcx
	movl	%ecx, %eax
	xorl	%edx, %edx
	divw	%r10w
	leal	(%rcx,%rax,2), %ecx
	incl	%ecx
	movq	-8(%rsp), %r8
	movl	%r8d, %eax
	xorl	%edx, %edx
	divw	%r15w
	leal	(%r8,%rax,2), %eax
	incl	%eax
	movzwl	%cx, %ecx
	movzwl	%ax, %eax
	imulq	%rbx, %rcx
	addq	%rax, %rcx
	movw	%di, (%r11,%rcx,4)
	movw	$263, 2(%r11,%rcx,4)
	movq	-104(%rsp), %rcx
	movl	%ecx, %eax
	xorl	%edx, %edx
	divw	%r10w
	leal	(%rcx,%rax,2), %ecx
	incl	%ecx
	movl	%esi, %eax
	xorl	%edx, %edx
	divw	%r15w
	leal	(%rsi,%rax,2), %eax
	incl	%eax
	movzwl	%cx, %ecx
	movzwl	%ax, %eax
	imulq	%rbx, %rcx
	addq	%rax, %rcx
	movw	%di, (%r11,%rcx,4)
	movw	$264, 2(%r11,%rcx,4)
	incl	%edi
	movq	72(%rsp), %r15
	movq	48(%rsp), %r8
	movl	112(%rsp), %ebp
	movq	%rdi, %rdx
	movl	108(%rsp), %r11d
	jmp	.LBB107_30
.LBB107_104:
	movq	%r8, -72(%rsp)
	movq	%rdx, -24(%rsp)
	movq	-64(%rsp), %r14
	cmpw	36(%rsp), %r14w
	movl	-116(%rsp), %eax
	movl	28(%rsp), %edx
	cmovbl	%edx, %eax
	cmpw	%ax, %r15w
	movl	%r15d, %ecx
	movl	$0, %r8d
	cmoval	%r8d, %ecx
	subl	%ecx, %eax
	movq	%rax, -48(%rsp)
	movzwl	-106(%rsp), %ecx
	cmpw	%cx, %r14w
	movl	%edx, %eax
	cmoval	-116(%rsp), %eax
	cmpw	%ax, %r15w
	cmovbel	%r15d, %r8d
	subl	%r8d, %eax
	movq	%rax, -32(%rsp)
	cmpw	%cx, %r14w
	movl	%ecx, %eax
	movq	%r14, %rcx
	jae	.LBB107_107
	addl	32(%rsp), %ecx
	movq	-72(%rsp), %rax
	movq	%rax, -96(%rsp)
	movq	-88(%rsp), %rax
	movq	%rax, -80(%rsp)
	movl	28(%rsp), %eax
	jmp	.LBB107_108
.LBB107_106:
	movl	-124(%rsp), %eax
	jmp	.LBB107_90
.LBB107_107:
	movzwl	%ax, %eax
	subl	%eax, %ecx
	movq	-72(%rsp), %rax
	movq	%rax, -96(%rsp)
	movq	-88(%rsp), %rax
	movq	%rax, -80(%rsp)
	movl	-116(%rsp), %eax
.LBB107_108:
	movl	%eax, %r14d
	jmp	.LBB107_96
.LBB107_109:
	xorl	%eax, %eax
	jmp	.LBB107_111
.LBB107_110:
	movw	$4, (%rdx)
	movw	%di, 2(%rdx)
	movw	%si, 4(%rdx)
	movl	$0, 6(%rdx)
	movw	$4, %ax
.LBB107_111:
	addq	$136, %rsp
	.cfi_def_cfa_offset 56
	popq	%rbx
	.cfi_def_cfa_offset 48
	popq	%r12
	.cfi_def_cfa_offset 40
	popq	%r13
	.cfi_def_cfa_offset 32
	popq	%r14
	.cfi_def_cfa_offset 24
	popq	%r15
	.cfi_def_cfa_offset 16
	popq	%rbp
	.cfi_def_cfa_offset 8
	retq
.LBB107_112:
	.cfi_def_cfa_offset 192
	ud2
.Lfunc_end107:
	.size	ecc200_places, .Lfunc_end107-ecc200_places
	.cfi_endproc
	.section	.rodata,"a",@progbits
	.p2align	2, 0x0
.LJTI107_0:
	.long	.LBB107_70-.LJTI107_0
	.long	.LBB107_75-.LJTI107_0
	.long	.LBB107_72-.LJTI107_0
	.long	.LBB107_74-.LJTI107_0
	.long	.LBB107_71-.LJTI107_0

	.section	.rodata.cst16,"aM",@progbits,16
	.p2align	4, 0x0
.LCPI108_0:
	.zero	16,1
.LCPI108_1:
	.quad	4294967297
	.quad	4294967297
	.text
	.globl	ecc200_read
	.p2align	4
	.type	ecc200_read,@function
ecc200_read:
	.cfi_startproc
	pushq	%rbp
	.cfi_def_cfa_offset 16
	pushq	%r15
	.cfi_def_cfa_offset 24
	pushq	%r14
	.cfi_def_cfa_offset 32
	pushq	%r13
	.cfi_def_cfa_offset 40
	pushq	%r12
	.cfi_def_cfa_offset 48
	pushq	%rbx
	.cfi_def_cfa_offset 56
	subq	$72, %rsp
	.cfi_def_cfa_offset 128
	.cfi_offset %rbx, -56
	.cfi_offset %r12, -48
	.cfi_offset %r13, -40
	.cfi_offset %r14, -32
	.cfi_offset %r15, -24
	.cfi_offset %rbp, -16
	movq	%r9, 32(%rsp)
	movq	%rdx, %r12
	xorl	%r14d, %r14d
	testq	%rdi, %rdi
	sete	%r9b
	xorl	%r15d, %r15d
	testq	%rdx, %rdx
	sete	%bpl
	movzwl	(%r8), %r11d
	movzwl	2(%r8), %r10d
	movzwl	4(%r8), %ebx
	movzwl	6(%r8), %eax
	movzwl	8(%r8), %r8d
	testl	%r8d, %r8d
	je	.LBB108_1
	cmpl	$1, %r8d
	jne	.LBB108_3
	movl	%eax, 16(%rsp)
	xorl	%eax, %eax
	jmp	.LBB108_6
.LBB108_1:
	movl	%eax, 16(%rsp)
	movb	$1, %al
.LBB108_6:
	movzwl	%bx, %edx
	cmpl	$3, %edx
	ja	.LBB108_7
	movl	%eax, 68(%rsp)
	movl	%ebx, %eax
	movzwl	%r11w, %r13d
	movzwl	%r10w, %r8d
	movl	%edx, %edx
	leaq	.LJTI108_0(%rip), %rbx
	movslq	(%rbx,%rdx,4), %rdx
	addq	%rbx, %rdx
	jmpq	*%rdx
.LBB108_10:
	movl	%r8d, %eax
	addl	%r13d, %eax
	shrl	$3, %eax
	jmp	.LBB108_12
.LBB108_3:
	movw	$17, %ax
	movl	%r8d, %ebx
	jmp	.LBB108_4
.LBB108_9:
	movl	$0, 16(%rsp)
	movq	%rsi, %rdx
	movl	%eax, %ebx
	jmp	.LBB108_14
.LBB108_11:
	movw	$-1, %ax
.LBB108_12:
	movl	%eax, 16(%rsp)
.LBB108_13:
	xorl	%ebx, %ebx
	movq	%rsi, %rdx
.LBB108_14:
	imulq	%r13, %r8
	cmpq	%r8, %rdx
	jne	.LBB108_15
	movq	%rcx, %r8
	movb	%r9b, %r14b
	movb	%bpl, %r15b
	shll	$12, %r14d
	shll	$12, %r15d
	movq	%rdi, %rsi
	addq	%r14, %rsi
	addq	%r15, %r12
	leaq	.Lstatic.0(%rip), %r15
	movq	$-50, %r14
	.p2align	4
.LBB108_19:
	addq	$2, %r14
	je	.LBB108_20
	movq	%r15, %rax
	cmpw	%r11w, (%r15)
	jne	.LBB108_23
	cmpw	%r10w, 2(%rax)
	je	.LBB108_26
.LBB108_23:
	leaq	40(%rax), %r15
	cmpw	%r11w, 20(%rax)
	jne	.LBB108_19
	cmpw	%r10w, 22(%rax)
	jne	.LBB108_19
	addq	$-20, %r15
	movq	%r15, %rax
.LBB108_26:
	movsd	4(%rax), %xmm0
	movss	12(%rax), %xmm1
	movzwl	12(%rax), %r14d
	movzwl	16(%rax), %r15d
	cmpw	$1, 18(%rax)
	sete	%cl
	testq	%r8, %r8
	je	.LBB108_29
	cmpq	%rdx, %r8
	je	.LBB108_29
	xorl	%r11d, %r11d
	movw	$19, %ax
	jmp	.LBB108_16
.LBB108_15:
	movw	$3, %ax
	xorl	%r11d, %r11d
.LBB108_16:
	xorl	%r10d, %r10d
	jmp	.LBB108_17
.LBB108_7:
	movw	$24, %ax
.LBB108_4:
	movq	32(%rsp), %rcx
	movw	%ax, (%rcx)
	movw	%bx, 2(%rcx)
	xorps	%xmm0, %xmm0
	movups	%xmm0, 4(%rcx)
	movups	%xmm0, 14(%rcx)
	jmp	.LBB108_51
.LBB108_20:
	movw	$4, %ax
.LBB108_17:
	movq	32(%rsp), %rcx
	movw	%ax, (%rcx)
	movw	%r11w, 2(%rcx)
	movw	%r10w, 4(%rcx)
	xorps	%xmm0, %xmm0
	movups	%xmm0, 6(%rcx)
	movq	$0, 22(%rcx)
.LBB108_51:
	addq	$72, %rsp
	.cfi_def_cfa_offset 56
	popq	%rbx
	.cfi_def_cfa_offset 48
	popq	%r12
	.cfi_def_cfa_offset 40
	popq	%r13
	.cfi_def_cfa_offset 32
	popq	%r14
	.cfi_def_cfa_offset 24
	popq	%r15
	.cfi_def_cfa_offset 16
	popq	%rbp
	.cfi_def_cfa_offset 8
	retq
.LBB108_29:
	.cfi_def_cfa_offset 128
	xorl	%r9d, %r9d
	testq	%r8, %r8
	je	.LBB108_30
	movq	%rsi, %rdi
	cmpq	$4, %r8
	jae	.LBB108_34
	xorl	%ebp, %ebp
	xorl	%r13d, %r13d
	jmp	.LBB108_33
.LBB108_30:
	xorl	%ebp, %ebp
	jmp	.LBB108_45
.LBB108_34:
	cmpq	$16, %r8
	jae	.LBB108_36
	xorl	%r13d, %r13d
	xorl	%ebp, %ebp
	jmp	.LBB108_40
.LBB108_36:
	movq	%r8, %r13
	andq	$-16, %r13
	pxor	%xmm2, %xmm2
	xorl	%eax, %eax
	pxor	%xmm3, %xmm3
	.p2align	4
.LBB108_37:
	movdqu	(%r12,%rax), %xmm4
	pcmpeqb	%xmm2, %xmm4
	pcmpeqd	%xmm5, %xmm5
	pxor	%xmm4, %xmm5
	por	%xmm5, %xmm3
	addq	$16, %rax
	cmpq	%rax, %r13
	jne	.LBB108_37
	ptest	.LCPI108_0(%rip), %xmm3
	setne	%bpl
	cmpq	%r13, %r8
	je	.LBB108_44
	testb	$12, %r8b
	je	.LBB108_33
.LBB108_40:
	movq	%r13, %rax
	movq	%r8, %r13
	andq	$-4, %r13
	movzbl	%bpl, %esi
	movd	%esi, %xmm2
	.p2align	4
.LBB108_41:
	movd	(%r12,%rax), %xmm3
	pxor	%xmm4, %xmm4
	pcmpeqb	%xmm3, %xmm4
	pcmpeqd	%xmm3, %xmm3
	pxor	%xmm4, %xmm3
	pmovsxbd	%xmm3, %xmm3
	por	%xmm3, %xmm2
	addq	$4, %rax
	cmpq	%rax, %r13
	jne	.LBB108_41
	ptest	.LCPI108_1(%rip), %xmm2
	setne	%bpl
	jmp	.LBB108_43
.LBB108_33:
	cmpb	$0, (%r12,%r13)
	setne	%sil
	orb	%sil, %bpl
	incq	%r13
.LBB108_43:
	cmpq	%r13, %r8
	jne	.LBB108_33
.LBB108_44:
	andb	$1, %bpl
	movq	%rdi, %rsi
.LBB108_45:
	movw	%r11w, 22(%rsp)
	movw	%r10w, 24(%rsp)
	movl	68(%rsp), %eax
	movb	%al, 26(%rsp)
	movb	$0, 27(%rsp)
	movw	%bx, 28(%rsp)
	movl	16(%rsp), %eax
	movw	%ax, 30(%rsp)
	movw	%r11w, 46(%rsp)
	movw	%r10w, 48(%rsp)
	movlps	%xmm0, 50(%rsp)
	movss	%xmm1, 58(%rsp)
	movw	%r15w, 62(%rsp)
	movb	%cl, 64(%rsp)
	movb	$0, 65(%rsp)
	movb	%bpl, 66(%rsp)
	movzwl	%r14w, %r10d
	cmpl	$817, %r10d
	setb	%dil
	xorb	$3, %dil
	cmpl	$205, %r10d
	movzbl	%dil, %edi
	movl	$1, %eax
	cmovael	%edi, %eax
	movb	$0, 67(%rsp)
	cmpw	$63, %r10w
	cmovbl	%r9d, %eax
	movzbl	%al, %eax
	leaq	.LJTI108_1(%rip), %rdi
	movslq	(%rdi,%rax,4), %rax
	addq	%rdi, %rax
	jmpq	*%rax
.LBB108_46:
	movq	32(%rsp), %rbx
	movq	%rbx, (%rsp)
	leaq	22(%rsp), %rdi
	leaq	46(%rsp), %r9
	movq	%r12, %rcx
	callq	"ecc200_calls::answer::answer_given::<#7b928245427000c4>"
	jmp	.LBB108_50
.LBB108_48:
	movq	32(%rsp), %rbx
	movq	%rbx, (%rsp)
	leaq	22(%rsp), %rdi
	leaq	46(%rsp), %r9
	movq	%r12, %rcx
	callq	"ecc200_calls::answer::answer_given::<#a1ea276ad3ef9c9c>"
	jmp	.LBB108_50
.LBB108_49:
	movq	32(%rsp), %rbx
	movq	%rbx, (%rsp)
	leaq	22(%rsp), %rdi
	leaq	46(%rsp), %r9
	movq	%r12, %rcx
	callq	"ecc200_calls::answer::answer_given::<#bf8ac5d4f1318e40>"
	jmp	.LBB108_50
.LBB108_47:
	movq	32(%rsp), %rbx
	movq	%rbx, (%rsp)
	leaq	22(%rsp), %rdi
	leaq	46(%rsp), %r9
	movq	%r12, %rcx
	callq	"ecc200_calls::answer::answer_given::<#d2faac338cf57797>"
.LBB108_50:
	movzwl	(%rbx), %eax
	jmp	.LBB108_51
.Lfunc_end108:
	.size	ecc200_read, .Lfunc_end108-ecc200_read
	.cfi_endproc
	.section	.rodata,"a",@progbits
	.p2align	2, 0x0
.LJTI108_0:
	.long	.LBB108_10-.LJTI108_0
	.long	.LBB108_9-.LJTI108_0
	.long	.LBB108_11-.LJTI108_0
	.long	.LBB108_13-.LJTI108_0
.LJTI108_1:
	.long	.LBB108_46-.LJTI108_1
	.long	.LBB108_47-.LJTI108_1
	.long	.LBB108_48-.LJTI108_1
	.long	.LBB108_49-.LJTI108_1

	.section	.rodata.cst16,"aM",@progbits,16
	.p2align	4, 0x0
.LCPI109_0:
	.short	10
	.short	10
	.short	8
	.short	8
	.short	1
	.short	1
	.short	3
	.short	5
	.text
	.globl	ecc200_sizes
	.p2align	4
	.type	ecc200_sizes,@function
ecc200_sizes:
	.cfi_startproc
	pushq	%r14
	.cfi_def_cfa_offset 16
	pushq	%rbx
	.cfi_def_cfa_offset 24
	subq	$2888, %rsp
	.cfi_def_cfa_offset 2912
	.cfi_offset %rbx, -24
	.cfi_offset %r14, -16
	movq	%rdi, %rbx
	leaq	1928(%rsp), %rdi
	movl	$960, %edx
	xorl	%esi, %esi
	callq	memset@PLT
	leaq	968(%rsp), %rdi
	movl	$960, %edx
	xorl	%esi, %esi
	callq	memset@PLT
	movq	%rsp, %rdi
	movl	$960, %edx
	xorl	%esi, %esi
	callq	memset@PLT
	movaps	.LCPI109_0(%rip), %xmm0
	movaps	%xmm0, (%rsp)
	movl	$1, 16(%rsp)
	movups	%xmm0, 20(%rsp)
	movl	$1, 36(%rsp)
	movups	%xmm0, 40(%rsp)
	movl	$1, 56(%rsp)
	movups	%xmm0, 60(%rsp)
	movl	$1, 76(%rsp)
	movaps	%xmm0, 80(%rsp)
	movl	$1, 96(%rsp)
	movups	%xmm0, 100(%rsp)
	movl	$1, 116(%rsp)
	movups	%xmm0, 120(%rsp)
	movl	$1, 136(%rsp)
	movups	%xmm0, 140(%rsp)
	movl	$1, 156(%rsp)
	movaps	%xmm0, 160(%rsp)
	movl	$1, 176(%rsp)
	movups	%xmm0, 180(%rsp)
	movl	$1, 196(%rsp)
	movups	%xmm0, 200(%rsp)
	movl	$1, 216(%rsp)
	movups	%xmm0, 220(%rsp)
	movl	$1, 236(%rsp)
	movaps	%xmm0, 240(%rsp)
	movl	$1, 256(%rsp)
	movups	%xmm0, 260(%rsp)
	movl	$1, 276(%rsp)
	movups	%xmm0, 280(%rsp)
	movl	$1, 296(%rsp)
	movups	%xmm0, 300(%rsp)
	movl	$1, 316(%rsp)
	movaps	%xmm0, 320(%rsp)
	movl	$1, 336(%rsp)
	movups	%xmm0, 340(%rsp)
	movl	$1, 356(%rsp)
	movups	%xmm0, 360(%rsp)
	movl	$1, 376(%rsp)
	movups	%xmm0, 380(%rsp)
	movl	$1, 396(%rsp)
	movaps	%xmm0, 400(%rsp)
	movl	$1, 416(%rsp)
	movups	%xmm0, 420(%rsp)
	movl	$1, 436(%rsp)
	movups	%xmm0, 440(%rsp)
	movl	$1, 456(%rsp)
	movups	%xmm0, 460(%rsp)
	movl	$1, 476(%rsp)
	movaps	%xmm0, 480(%rsp)
	movl	$1, 496(%rsp)
	movups	%xmm0, 500(%rsp)
	movl	$1, 516(%rsp)
	movups	%xmm0, 520(%rsp)
	movl	$1, 536(%rsp)
	movups	%xmm0, 540(%rsp)
	movl	$1, 556(%rsp)
	movaps	%xmm0, 560(%rsp)
	movl	$1, 576(%rsp)
	movups	%xmm0, 580(%rsp)
	movl	$1, 596(%rsp)
	movups	%xmm0, 600(%rsp)
	movl	$1, 616(%rsp)
	movups	%xmm0, 620(%rsp)
	movl	$1, 636(%rsp)
	movaps	%xmm0, 640(%rsp)
	movl	$1, 656(%rsp)
	movups	%xmm0, 660(%rsp)
	movl	$1, 676(%rsp)
	movups	%xmm0, 680(%rsp)
	movl	$1, 696(%rsp)
	movups	%xmm0, 700(%rsp)
	movl	$1, 716(%rsp)
	movaps	%xmm0, 720(%rsp)
	movl	$1, 736(%rsp)
	movups	%xmm0, 740(%rsp)
	movl	$1, 756(%rsp)
	movups	%xmm0, 760(%rsp)
	movl	$1, 776(%rsp)
	movups	%xmm0, 780(%rsp)
	movl	$1, 796(%rsp)
	movaps	%xmm0, 800(%rsp)
	movl	$1, 816(%rsp)
	movups	%xmm0, 820(%rsp)
	movl	$1, 836(%rsp)
	movups	%xmm0, 840(%rsp)
	movl	$1, 856(%rsp)
	movups	%xmm0, 860(%rsp)
	movl	$1, 876(%rsp)
	movaps	%xmm0, 880(%rsp)
	movl	$1, 896(%rsp)
	movups	%xmm0, 900(%rsp)
	movl	$1, 916(%rsp)
	movups	%xmm0, 920(%rsp)
	movl	$1, 936(%rsp)
	movups	%xmm0, 940(%rsp)
	movl	$1, 956(%rsp)
	movl	$39, %eax
	.p2align	4
.LBB109_1:
	leaq	.Lstatic.0(%rip), %rcx
	movzwl	-23(%rax,%rcx), %edx
	cmpw	$1, -21(%rax,%rcx)
	movups	-39(%rax,%rcx), %xmm0
	movups	%xmm0, -39(%rsp,%rax)
	movw	%dx, -23(%rsp,%rax)
	sete	-21(%rsp,%rax)
	movb	$0, -20(%rsp,%rax)
	movzwl	-3(%rax,%rcx), %edx
	cmpw	$1, -1(%rax,%rcx)
	movups	-19(%rax,%rcx), %xmm0
	movups	%xmm0, -19(%rsp,%rax)
	movw	%dx, -3(%rsp,%rax)
	sete	-1(%rsp,%rax)
	movb	$0, (%rsp,%rax)
	addq	$40, %rax
	cmpq	$999, %rax
	jne	.LBB109_1
	leaq	1928(%rsp), %r14
	movq	%rsp, %rsi
	movl	$960, %edx
	movq	%r14, %rdi
	callq	memcpy@PLT
	leaq	968(%rsp), %rdi
	movl	$960, %edx
	movq	%r14, %rsi
	callq	memcpy@PLT
	addq	$24, %rbx
	movl	$18, %ecx
	.p2align	4
.LBB109_3:
	movzwl	966(%rsp,%rcx), %esi
	testw	%si, %si
	je	.LBB109_6
	movzbl	968(%rsp,%rcx), %edi
	andl	$1, %edi
	movl	950(%rsp,%rcx), %eax
	movl	%eax, -24(%rbx)
	movd	958(%rsp,%rcx), %xmm0
	movd	954(%rsp,%rcx), %xmm1
	pmullw	%xmm0, %xmm1
	movsd	954(%rsp,%rcx), %xmm0
	movlps	%xmm0, -20(%rbx)
	movd	%xmm1, -12(%rbx)
	movzwl	964(%rsp,%rcx), %eax
	movl	962(%rsp,%rcx), %r8d
	xorl	%edx, %edx
	divw	%si
	movzwl	%ax, %eax
	shrl	%eax
	movl	%r8d, -8(%rbx)
	movw	%si, -4(%rbx)
	movw	%ax, -2(%rbx)
	movw	%di, (%rbx)
	addq	$20, %rcx
	addq	$26, %rbx
	cmpq	$978, %rcx
	jne	.LBB109_3
	addq	$2888, %rsp
	.cfi_def_cfa_offset 24
	popq	%rbx
	.cfi_def_cfa_offset 16
	popq	%r14
	.cfi_def_cfa_offset 8
	retq
.LBB109_6:
	.cfi_def_cfa_offset 2912
	ud2
.Lfunc_end109:
	.size	ecc200_sizes, .Lfunc_end109-ecc200_sizes
	.cfi_endproc

	.globl	ecc200_usual_limit
	.p2align	4
	.type	ecc200_usual_limit,@function
ecc200_usual_limit:
	.cfi_startproc
	movzwl	%di, %ecx
	movzwl	%si, %eax
	addl	%ecx, %eax
	shrl	$3, %eax
	retq
.Lfunc_end110:
	.size	ecc200_usual_limit, .Lfunc_end110-ecc200_usual_limit
	.cfi_endproc

	.section	.rodata.cst16,"aM",@progbits,16
	.p2align	4, 0x0
.LCPI111_0:
	.long	15
	.long	0
	.long	0
	.long	0
	.section	.rodata.cst4,"aM",@progbits,4
	.p2align	2, 0x0
.LCPI111_1:
	.long	15
	.text
	.globl	ecc200_write
	.p2align	4
	.type	ecc200_write,@function
ecc200_write:
	.cfi_startproc
	pushq	%rbp
	.cfi_def_cfa_offset 16
	pushq	%r15
	.cfi_def_cfa_offset 24
	pushq	%r14
	.cfi_def_cfa_offset 32
	pushq	%r13
	.cfi_def_cfa_offset 40
	pushq	%r12
	.cfi_def_cfa_offset 48
	pushq	%rbx
	.cfi_def_cfa_offset 56
	subq	$72, %rsp
	.cfi_def_cfa_offset 128
	.cfi_offset %rbx, -56
	.cfi_offset %r12, -48
	.cfi_offset %r13, -40
	.cfi_offset %r14, -32
	.cfi_offset %r15, -24
	.cfi_offset %rbp, -16
	movq	%r9, %r14
	movq	%rcx, 40(%rsp)
	movq	%rdx, %rbp
	movq	%rsi, %r12
	movq	%rdi, %r15
	xorl	%ebx, %ebx
	testq	%rdi, %rdi
	sete	%r13b
	testq	%rdx, %rdx
	sete	9(%rsp)
	movzwl	16(%r8), %eax
	movw	%ax, 64(%rsp)
	movdqu	(%r8), %xmm0
	movdqa	%xmm0, 48(%rsp)
	leaq	16(%rsp), %rdi
	leaq	48(%rsp), %rsi
	callq	"ecc200_calls::how::check_how"
	cmpb	$0, 16(%rsp)
	je	.LBB111_1
	leaq	18(%rsp), %rax
	movzwl	4(%rax), %ecx
	movw	%cx, 4(%r14)
	movl	(%rax), %eax
	movl	%eax, (%r14)
.LBB111_27:
	movl	$0, 6(%r14)
.LBB111_28:
	movzwl	(%r14), %eax
	addq	$72, %rsp
	.cfi_def_cfa_offset 56
	popq	%rbx
	.cfi_def_cfa_offset 48
	popq	%r12
	.cfi_def_cfa_offset 40
	popq	%r13
	.cfi_def_cfa_offset 32
	popq	%r14
	.cfi_def_cfa_offset 24
	popq	%r15
	.cfi_def_cfa_offset 16
	popq	%rbp
	.cfi_def_cfa_offset 8
	retq
.LBB111_1:
	.cfi_def_cfa_offset 128
	movb	%r13b, %bl
	shll	$12, %ebx
	addq	%rbx, %r15
	movzwl	18(%rsp), %r10d
	movzbl	20(%rsp), %r8d
	movl	22(%rsp), %eax
	movzbl	26(%rsp), %r13d
	movzbl	27(%rsp), %esi
	movl	28(%rsp), %edi
	testq	%r12, %r12
	movq	%rbp, %rdx
	movq	40(%rsp), %rcx
	movl	$0, %ebp
	movzbl	9(%rsp), %r11d
	je	.LBB111_5
	xorl	%r9d, %r9d
	.p2align	4
.LBB111_3:
	cmpw	$256, (%r15,%r9,2)
	ja	.LBB111_29
	incq	%r9
	cmpq	%r9, %r12
	jne	.LBB111_3
.LBB111_5:
	movq	%r10, 32(%rsp)
	movb	%r11b, %bpl
	shll	$12, %ebp
	testq	%rcx, %rcx
	je	.LBB111_11
	leaq	(%rdx,%rbp), %r10
	addq	$4, %r10
	xorl	%r11d, %r11d
	xorl	%r9d, %r9d
	.p2align	4
.LBB111_7:
	movq	%r11, %rbx
	movl	(%r10,%r9,8), %r11d
	cmpq	%r11, %rbx
	ja	.LBB111_30
	cmpq	%r11, %r12
	jb	.LBB111_30
	cmpl	$999999, -4(%r10,%r9,8)
	ja	.LBB111_30
	incq	%r9
	cmpq	%r9, %rcx
	jne	.LBB111_7
.LBB111_11:
	movb	%r13b, 10(%rsp)
	movb	%sil, 11(%rsp)
	movl	%edi, 12(%rsp)
	cmpq	$3124, %r12
	setb	%dil
	cmpq	$780, %rcx
	setb	%sil
	testb	%sil, %dil
	je	.LBB111_12
	addq	%rbp, %rdx
	shlq	$32, %rax
	testq	%rcx, %rcx
	je	.LBB111_14
	cmpq	$132, %r12
	setb	%dil
	cmpq	$32, %rcx
	setb	%sil
	testb	%sil, %dil
	movq	32(%rsp), %rbp
	je	.LBB111_20
	shll	$16, %r8d
	orq	%rbp, %r8
	orq	%rax, %r8
	movq	%r14, (%rsp)
	leaq	10(%rsp), %r9
	movq	%r15, %rdi
	movq	%r12, %rsi
	callq	"ecc200_calls::writing::write_content_of::<#653d8e9eeee73d5b>"
	jmp	.LBB111_28
.LBB111_29:
	cmpq	$65535, %r9
	movl	$65535, %eax
	cmovbq	%r9, %rax
	movd	.LCPI111_1(%rip), %xmm0
	pinsrw	$1, (%r15,%r9,2), %xmm0
	pinsrw	$2, %eax, %xmm0
	movq	%xmm0, (%r14)
	movw	$0, 8(%r14)
	jmp	.LBB111_28
.LBB111_30:
	cmpq	$65535, %r9
	movl	$65535, %eax
	cmovbq	%r9, %rax
	movl	$22, (%r14)
	movw	%ax, 4(%r14)
	jmp	.LBB111_27
.LBB111_12:
	movw	$14, (%r14)
	movq	$0, 2(%r14)
	jmp	.LBB111_28
.LBB111_14:
	cmpq	$1640, %r12
	setb	%sil
	xorb	$3, %sil
	cmpq	$416, %r12
	movzbl	%sil, %edi
	movl	$1, %esi
	cmovael	%edi, %esi
	xorl	%edi, %edi
	cmpq	$132, %r12
	cmovael	%esi, %edi
	shll	$16, %r8d
	addq	32(%rsp), %r8
	orq	%rax, %r8
	movzbl	%dil, %eax
	leaq	.LJTI111_0(%rip), %rcx
	movslq	(%rcx,%rax,4), %rax
	addq	%rcx, %rax
	jmpq	*%rax
.LBB111_15:
	movq	%r14, (%rsp)
	leaq	10(%rsp), %r9
	movq	%r15, %rdi
	movq	%r12, %rsi
	xorl	%ecx, %ecx
	callq	"ecc200_calls::writing::write_content_of::<#d4a6cd8012f658d3>"
	jmp	.LBB111_28
.LBB111_20:
	cmpq	$416, %r12
	setb	%r9b
	cmpq	$103, %rcx
	setb	%sil
	testb	%sil, %r9b
	je	.LBB111_21
	shll	$16, %r8d
	orq	%rbp, %r8
	orq	%rax, %r8
	movq	%r14, (%rsp)
	leaq	10(%rsp), %r9
	movq	%r15, %rdi
	movq	%r12, %rsi
	callq	"ecc200_calls::writing::write_content_of::<#063e8a381f980aa9>"
	jmp	.LBB111_28
.LBB111_21:
	cmpq	$1640, %r12
	setb	%r9b
	cmpq	$409, %rcx
	setb	%sil
	shll	$16, %r8d
	orq	%rbp, %r8
	orq	%rax, %r8
	testb	%sil, %r9b
	je	.LBB111_25
	movq	%r14, (%rsp)
	leaq	10(%rsp), %r9
	movq	%r15, %rdi
	movq	%r12, %rsi
	callq	"ecc200_calls::writing::write_content_of::<#74b909a45ce937fb>"
	jmp	.LBB111_28
.LBB111_17:
	movq	%r14, (%rsp)
	leaq	10(%rsp), %r9
	movq	%r15, %rdi
	movq	%r12, %rsi
	xorl	%ecx, %ecx
	callq	"ecc200_calls::writing::write_content_of::<#568124f4bcd00b97>"
	jmp	.LBB111_28
.LBB111_18:
	movq	%r14, (%rsp)
	leaq	10(%rsp), %r9
	movq	%r15, %rdi
	movq	%r12, %rsi
	xorl	%ecx, %ecx
	callq	"ecc200_calls::writing::write_content_of::<#5bc803b6b7c4bd57>"
	jmp	.LBB111_28
.LBB111_16:
	movq	%r14, (%rsp)
	leaq	10(%rsp), %r9
	movq	%r15, %rdi
	movq	%r12, %rsi
	xorl	%ecx, %ecx
	callq	"ecc200_calls::writing::write_content_of::<#b76b4ae358bda620>"
	jmp	.LBB111_28
.LBB111_25:
	movq	%r14, (%rsp)
	leaq	10(%rsp), %r9
	movq	%r15, %rdi
	movq	%r12, %rsi
	callq	"ecc200_calls::writing::write_content_of::<#8e2329e1c5119cbe>"
	jmp	.LBB111_28
.Lfunc_end111:
	.size	ecc200_write, .Lfunc_end111-ecc200_write
	.cfi_endproc
	.section	.rodata,"a",@progbits
	.p2align	2, 0x0
.LJTI111_0:
	.long	.LBB111_15-.LJTI111_0
	.long	.LBB111_16-.LJTI111_0
	.long	.LBB111_17-.LJTI111_0
	.long	.LBB111_18-.LJTI111_0

	.text
	.globl	ecc200_write_bytes
	.p2align	4
	.type	ecc200_write_bytes,@function
ecc200_write_bytes:
	.cfi_startproc
	pushq	%rbp
	.cfi_def_cfa_offset 16
	pushq	%r15
	.cfi_def_cfa_offset 24
	pushq	%r14
	.cfi_def_cfa_offset 32
	pushq	%r12
	.cfi_def_cfa_offset 40
	pushq	%rbx
	.cfi_def_cfa_offset 48
	subq	$64, %rsp
	.cfi_def_cfa_offset 112
	.cfi_offset %rbx, -48
	.cfi_offset %r12, -40
	.cfi_offset %r14, -32
	.cfi_offset %r15, -24
	.cfi_offset %rbp, -16
	movq	%rcx, %rbx
	movq	%rsi, %r14
	movq	%rdi, %r15
	xorl	%r12d, %r12d
	testq	%rdi, %rdi
	sete	%bpl
	movzwl	16(%rdx), %eax
	movw	%ax, 48(%rsp)
	movups	(%rdx), %xmm0
	movaps	%xmm0, 32(%rsp)
	leaq	16(%rsp), %rdi
	leaq	32(%rsp), %rsi
	callq	"ecc200_calls::how::check_how"
	cmpb	$0, 16(%rsp)
	je	.LBB112_1
	leaq	18(%rsp), %rax
	movzwl	4(%rax), %ecx
	movw	%cx, 4(%rbx)
	movl	(%rax), %eax
	movl	%eax, (%rbx)
	movl	$0, 6(%rbx)
	jmp	.LBB112_9
.LBB112_1:
	movzwl	18(%rsp), %eax
	movzbl	20(%rsp), %edx
	movl	22(%rsp), %ecx
	movzwl	26(%rsp), %esi
	movl	28(%rsp), %edi
	movw	%si, 10(%rsp)
	movl	%edi, 12(%rsp)
	cmpq	$3124, %r14
	jae	.LBB112_2
	movb	%bpl, %r12b
	shll	$12, %r12d
	addq	%r12, %r15
	shlq	$32, %rcx
	cmpq	$1640, %r14
	setb	%sil
	xorb	$3, %sil
	cmpq	$416, %r14
	movzbl	%sil, %esi
	movl	$1, %edi
	cmovael	%esi, %edi
	xorl	%esi, %esi
	cmpq	$132, %r14
	cmovael	%edi, %esi
	shll	$16, %edx
	orq	%rax, %rdx
	orq	%rcx, %rdx
	movzbl	%sil, %eax
	leaq	.LJTI112_0(%rip), %rcx
	movslq	(%rcx,%rax,4), %rax
	addq	%rcx, %rax
	jmpq	*%rax
.LBB112_4:
	leaq	10(%rsp), %rcx
	movq	%r15, %rdi
	movq	%r14, %rsi
	movq	%rbx, %r8
	callq	"ecc200_calls::writing::write_content_of::<#f7f46bcb0d4b0fd2>"
	jmp	.LBB112_9
.LBB112_2:
	movw	$14, (%rbx)
	movq	$0, 2(%rbx)
.LBB112_9:
	movzwl	(%rbx), %eax
	addq	$64, %rsp
	.cfi_def_cfa_offset 48
	popq	%rbx
	.cfi_def_cfa_offset 40
	popq	%r12
	.cfi_def_cfa_offset 32
	popq	%r14
	.cfi_def_cfa_offset 24
	popq	%r15
	.cfi_def_cfa_offset 16
	popq	%rbp
	.cfi_def_cfa_offset 8
	retq
.LBB112_6:
	.cfi_def_cfa_offset 112
	leaq	10(%rsp), %rcx
	movq	%r15, %rdi
	movq	%r14, %rsi
	movq	%rbx, %r8
	callq	"ecc200_calls::writing::write_content_of::<#b97095b23881e008>"
	jmp	.LBB112_9
.LBB112_7:
	leaq	10(%rsp), %rcx
	movq	%r15, %rdi
	movq	%r14, %rsi
	movq	%rbx, %r8
	callq	"ecc200_calls::writing::write_content_of::<#9f02d14f3d055ac0>"
	jmp	.LBB112_9
.LBB112_5:
	leaq	10(%rsp), %rcx
	movq	%r15, %rdi
	movq	%r14, %rsi
	movq	%rbx, %r8
	callq	"ecc200_calls::writing::write_content_of::<#dbd28265ffd20b3d>"
	jmp	.LBB112_9
.Lfunc_end112:
	.size	ecc200_write_bytes, .Lfunc_end112-ecc200_write_bytes
	.cfi_endproc
	.section	.rodata,"a",@progbits
	.p2align	2, 0x0
.LJTI112_0:
	.long	.LBB112_4-.LJTI112_0
	.long	.LBB112_5-.LJTI112_0
	.long	.LBB112_6-.LJTI112_0
	.long	.LBB112_7-.LJTI112_0

	.type	.Lstatic.0,@object
	.p2align	1, 0x0
.Lstatic.0:
	.asciz	"\n\000\n\000\b\000\b\000\001\000\001\000\003\000\005\000\001\000\000\000\f\000\f\000\n\000\n\000\001\000\001\000\005\000\007\000\001\000\000\000\b\000\022\000\006\000\020\000\001\000\001\000\005\000\007\000\001\000\000\000\016\000\016\000\f\000\f\000\001\000\001\000\b\000\n\000\001\000\000\000\020\000\020\000\016\000\016\000\001\000\001\000\f\000\f\000\001\000\000\000\b\000 \000\006\000\016\000\001\000\002\000\n\000\013\000\001\000\000\000\f\000\032\000\n\000\030\000\001\000\001\000\020\000\016\000\001\000\000\000\022\000\022\000\020\000\020\000\001\000\001\000\022\000\016\000\001\000\000\000\b\0000\000\006\000\026\000\001\000\002\000\022\000\017\000\001\000\001\000\024\000\024\000\022\000\022\000\001\000\001\000\026\000\022\000\001\000\000\000\f\000$\000\n\000\020\000\001\000\002\000\026\000\022\000\001\000\000\000\026\000\026\000\024\000\024\000\001\000\001\000\036\000\024\000\001\000\000\000\b\000@\000\006\000\016\000\001\000\004\000\030\000\022\000\001\000\001\000\030\000\030\000\026\000\026\000\001\000\001\000$\000\030\000\001\000\000\000\020\000$\000\016\000\020\000\001\000\002\000 \000\030\000\001\000\000\000\b\000P\000\006\000\022\000\001\000\004\000 \000\026\000\001\000\001\000\032\000\032\000\030\000\030\000\001\000\001\000,\000\034\000\001\000\000\000\024\000$\000\022\000\020\000\001\000\002\000,\000\034\000\001\000\001\000\020\0000\000\016\000\026\000\001\000\002\0001\000\034\000\001\000\000\000\f\000@\000\n\000\016\000\001\000\004\000+\000\033\000\001\000\001\000\b\000`\000\006\000\026\000\001\000\004\000&\000\034\000\001\000\001\000\024\000,\000\022\000\024\000\001\000\002\0008\000\"\000\001\000\001\000\b\000x\000\006\000\022\000\001\000\006\0001\000 \000\001\000\001\000 \000 \000\016\000\016\000\002\000\002\000>\000$\000\001\000\000\000\020\000@\000\016\000\016\000\001\000\004\000>\000$\000\001\000\001\000\032\000(\000\030\000\022\000\001\000\002\000F\000&\000\001\000\001\000\026\0000\000\024\000\026\000\001\000\002\000H\000&\000\001\000\001\000\f\000X\000\n\000\024\000\001\000\004\000@\000$\000\001\000\001\000\030\0000\000\026\000\026\000\001\000\002\000P\000)\000\001\000\001\000\b\000\220\000\006\000\026\000\001\000\006\000?\000$\000\001\000\001\000\032\0000\000\030\000\026\000\001\000\002\000Z\000*\000\001\000\001\000\024\000@\000\022\000\016\000\001\000\004\000T\000*\000\001\000\001\000$\000$\000\020\000\020\000\002\000\002\000V\000*\000\001\000\000\000\030\000@\000\026\000\016\000\001\000\004\000l\000.\000\001\000\001\000(\000(\000\022\000\022\000\002\000\002\000r\0000\000\001\000\000\000\032\000@\000\030\000\016\000\001\000\004\000v\0002\000\001\000\001\000,\000,\000\024\000\024\000\002\000\002\000\220\0008\000\001\000\000\0000\0000\000\026\000\026\000\002\000\002\000\256\000D\000\001\000\000\0004\0004\000\030\000\030\000\002\000\002\000\314\000T\000\002\000\000\000@\000@\000\016\000\016\000\004\000\004\000\030\001p\000\002\000\000\000H\000H\000\020\000\020\000\004\000\004\000p\001\220\000\004\000\000\000P\000P\000\022\000\022\000\004\000\004\000\310\001\300\000\004\000\000\000X\000X\000\024\000\024\000\004\000\004\000@\002\340\000\004\000\000\000`\000`\000\026\000\026\000\004\000\004\000\270\002\020\001\004\000\000\000h\000h\000\030\000\030\000\004\000\004\0000\003P\001\006\000\000\000x\000x\000\022\000\022\000\006\000\006\000\032\004\230\001\006\000\000\000\204\000\204\000\024\000\024\000\006\000\006\000\030\005\360\001\b\000\000\000\220\000\220\000\026\000\026\000\006\000\006\000\026\006l\002\n\000\000"
	.size	.Lstatic.0, 960

	.type	.Lstatic.2,@object
.Lstatic.2:
	.ascii	"\000\200@\300 \240`\340\020\220P\3200\260p\360\b\210H\310(\250h\350\030\230X\3308\270x\370\004\204D\304$\244d\344\024\224T\3244\264t\364\f\214L\314,\254l\354\034\234\\\334<\274|\374\002\202B\302\"\242b\342\022\222R\3222\262r\362\n\212J\312*\252j\352\032\232Z\332:\272z\372\006\206F\306&\246f\346\026\226V\3266\266v\366\016\216N\316.\256n\356\036\236^\336>\276~\376\001\201A\301!\241a\341\021\221Q\3211\261q\361\t\211I\311)\251i\351\031\231Y\3319\271y\371\005\205E\305%\245e\345\025\225U\3255\265u\365\r\215M\315-\255m\355\035\235]\335=\275}\375\003\203C\303#\243c\343\023\223S\3233\263s\363\013\213K\313+\253k\353\033\233[\333;\273{\373\007\207G\307'\247g\347\027\227W\3277\267w\367\017\217O\317/\257o\357\037\237_\337?\277\177\377"
	.size	.Lstatic.2, 256

	.type	.Lstatic.3,@object
	.p2align	1, 0x0
.Lstatic.3:
	.ascii	" \000\020\000\000\000\b\000\030\000(\0008\000`\000P\000@\0000\000!\000\021\000\001\000\t\000\031\000)\0009\000H\000X\000h\000x\000\240\000\220\000\200\000p\000a\000Q\000A\0001\000\"\000\022\000\002\000\n\000\032\000*\000:\000I\000Y\000i\000y\000\210\000\230\000\250\000\270\000\340\000\320\000\300\000\260\000\241\000\221\000\201\000q\000b\000R\000B\0002\000#\000\023\000\003\000\013\000\033\000+\000;\000J\000Z\000j\000z\000\211\000\231\000\251\000\271\000\310\000\330\000\350\000\370\000 \001\020\001\000\001\360\000\341\000\321\000\301\000\261\000\242\000\222\000\202\000r\000c\000S\000C\0003\000$\000\024\000\004\000\f\000\034\000,\000<\000K\000[\000k\000{\000\212\000\232\000\252\000\272\000\311\000\331\000\351\000\371\000\b\001\030\001(\0018\001`\001P\001@\0010\001!\001\021\001\001\001\361\000\342\000\322\000\302\000\262\000\243\000\223\000\203\000s\000d\000T\000D\0004\000%\000\025\000\005\000\r\000\035\000-\000=\000L\000\\\000l\000|\000\213\000\233\000\253\000\273\000\312\000\332\000\352\000\372\000\t\001\031\001)\0019\001H\001X\001h\001x\001\240\001\220\001\200\001p\001a\001Q\001A\0011\001\"\001\022\001\002\001\362\000\343\000\323\000\303\000\263\000\244\000\224\000\204\000t\000e\000U\000E\0005\000&\000\026\000\006\000\016\000\036\000.\000>\000M\000]\000m\000}\000\214\000\234\000\254\000\274\000\313\000\333\000\353\000\373\000\n\001\032\001*\001:\001I\001Y\001i\001y\001\210\001\230\001\250\001\270\001\260\001\241\001\221\001\201\001q\001b\001R\001B\0012\001#\001\023\001\003\001\363\000\344\000\324\000\304\000\264\000\245\000\225\000\205\000u\000f\000V\000F\0006\000N\000^\000n\000~\000\215\000\235\000\255\000\275\000\314\000\334\000\354\000\374\000\013\001\033\001+\001;\001J\001Z\001j\001z\001\211\001\231\001\251\001\271\001\261\001\242\001\222\001\202\001r\001c\001S\001C\0013\001$\001\024\001\004\001\364\000\345\000\325\000\305\000\265\000\246\000\226\000\206\000v\000\216\000\236\000\256\000\276\000\315\000\335\000\355\000\375\000\f\001\034\001,\001<\001K\001[\001k\001{\001\212\001\232\001\252\001\272\001\262\001\243\001\223\001\203\001s\001d\001T\001D\0014\001%\001\025\001\005\001\365\000\346\000\326\000\306\000\266\000\316\000\336\000\356\000\376\000\r\001\035\001-\001=\001L\001\\\001l\001|\001\213\001\233\001\253\001\273\001\263\001\244\001\224\001\204\001t\001e\001U\001E\0015\001&\001\026\001\006\001\366\000\016\001\036\001.\001>\001M\001]\001m\001}\001\214\001\234\001\254\001\274\001\264\001\245\001\225\001\205\001u\001f\001V\001F\0016\001N\001^\001n\001~\001\215\001\235\001\255\001\275\001\265\001\246\001\226\001\206\001v\001\216\001\236\001\256\001\276\001\266\001"
	.size	.Lstatic.3, 784

	.type	.Lstatic.4,@object
	.p2align	1, 0x0
.Lstatic.4:
	.ascii	"@\000 \000\000\000\020\0000\000P\000p\000\300\000\240\000\200\000`\000A\000!\000\001\000\021\0001\000Q\000q\000\220\000\260\000\320\000\360\000@\001 \001\000\001\340\000\301\000\241\000\201\000a\000B\000\"\000\002\000\022\0002\000R\000r\000\221\000\261\000\321\000\361\000\020\0010\001P\001p\001\300\001\240\001\200\001`\001A\001!\001\001\001\341\000\302\000\242\000\202\000b\000C\000#\000\003\000\023\0003\000S\000s\000\222\000\262\000\322\000\362\000\021\0011\001Q\001q\001\220\001\260\001\320\001\360\001@\002 \002\000\002\340\001\301\001\241\001\201\001a\001B\001\"\001\002\001\342\000\303\000\243\000\203\000c\000D\000$\000\004\000\024\0004\000T\000t\000\223\000\263\000\323\000\363\000\022\0012\001R\001r\001\221\001\261\001\321\001\361\001\020\0020\002P\002p\002\300\002\240\002\200\002`\002A\002!\002\001\002\341\001\302\001\242\001\202\001b\001C\001#\001\003\001\343\000\304\000\244\000\204\000d\000E\000%\000\005\000\025\0005\000U\000u\000\224\000\264\000\324\000\364\000\023\0013\001S\001s\001\222\001\262\001\322\001\362\001\021\0021\002Q\002q\002\220\002\260\002\320\002\360\002@\003 \003\000\003\340\002\301\002\241\002\201\002a\002B\002\"\002\002\002\342\001\303\001\243\001\203\001c\001D\001$\001\004\001\344\000\305\000\245\000\205\000e\000F\000&\000\006\000\026\0006\000V\000v\000\225\000\265\000\325\000\365\000\024\0014\001T\001t\001\223\001\263\001\323\001\363\001\022\0022\002R\002r\002\221\002\261\002\321\002\361\002\020\0030\003P\003p\003\300\003\240\003\200\003`\003A\003!\003\001\003\341\002\302\002\242\002\202\002b\002C\002#\002\003\002\343\001\304\001\244\001\204\001d\001E\001%\001\005\001\345\000\306\000\246\000\206\000f\000G\000'\000\007\000\027\0007\000W\000w\000\226\000\266\000\326\000\366\000\025\0015\001U\001u\001\224\001\264\001\324\001\364\001\023\0023\002S\002s\002\222\002\262\002\322\002\362\002\021\0031\003Q\003q\003\220\003\260\003\320\003\360\003@\004 \004\000\004\340\003\301\003\241\003\201\003a\003B\003\"\003\002\003\342\002\303\002\243\002\203\002c\002D\002$\002\004\002\344\001\305\001\245\001\205\001e\001F\001&\001\006\001\346\000\307\000\247\000\207\000g\000H\000(\000\b\000\030\0008\000X\000x\000\227\000\267\000\327\000\367\000\026\0016\001V\001v\001\225\001\265\001\325\001\365\001\024\0024\002T\002t\002\223\002\263\002\323\002\363\002\022\0032\003R\003r\003\221\003\261\003\321\003\361\003\020\0040\004P\004p\004\300\004\240\004\200\004`\004A\004!\004\001\004\341\003\302\003\242\003\202\003b\003C\003#\003\003\003\343\002\304\002\244\002\204\002d\002E\002%\002\005\002\345\001\306\001\246\001\206\001f\001G\001'\001\007\001\347\000\310\000\250\000\210\000h\000I\000)\000\t\000\031\0009\000Y\000y\000\230\000\270\000\330\000\370\000\027\0017\001W\001w\001\226\001\266\001\326\001\366\001\025\0025\002U\002u\002\224\002\264\002\324\002\364\002\023\0033\003S\003s\003\222\003\262\003\322\003\362\003\021\0041\004Q\004q\004\220\004\260\004\320\004\360\004@\005 \005\000\005\340\004\301\004\241\004\201\004a\004B\004\"\004\002\004\342\003\303\003\243\003\203\003c\003D\003$\003\004\003\344\002\305\002\245\002\205\002e\002F\002&\002\006\002\346\001\307\001\247\001\207\001g\001H\001(\001\b\001\350\000\311\000\251\000\211\000i\000J\000*\000\n\000\032\000:\000Z\000z\000\231\000\271\000\331\000\371\000\030\0018\001X\001x\001\227\001\267\001\327\001\367\001\026\0026\002V\002v\002\225\002\265\002\325\002\365\002\024\0034\003T\003t\003\223\003\263\003\323\003\363\003\022\0042\004R\004r\004\221\004\261\004\321\004\361\004\020\0050\005P\005p\005\300\005\240\005\200\005`\005A\005!\005\001\005\341\004\302\004\242\004\202\004b\004C\004#\004\003\004\343\003\304\003\244\003\204\003d\003E\003%\003\005\003\345\002\306\002\246\002\206\002f\002G\002'\002\007\002\347\001\310\001\250\001\210\001h\001I\001)\001\t\001\351\000\312\000\252\000\212\000j\000K\000+\000\013\000\033\000;\000[\000{\000\232\000\272\000\332\000\372\000\031\0019\001Y\001y\001\230\001\270\001\330\001\370\001\027\0027\002W\002w\002\226\002\266\002\326\002\366\002\025\0035\003U\003u\003\224\003\264\003\324\003\364\003\023\0043\004S\004s\004\222\004\262\004\322\004\362\004\021\0051\005Q\005q\005\220\005\260\005\320\005\360\005@\006 \006\000\006\340\005\301\005\241\005\201\005a\005B\005\"\005\002\005\342\004\303\004\243\004\203\004c\004D\004$\004\004\004\344\003\305\003\245\003\205\003e\003F\003&\003\006\003\346\002\307\002\247\002\207\002g\002H\002(\002\b\002\350\001\311\001\251\001\211\001i\001J\001*\001\n\001\352\000\313\000\253\000\213\000k\000L\000,\000\f\000\034\000<\000\\\000|\000\233\000\273\000\333\000\373\000\032\001:\001Z\001z\001\231\001\271\001\331\001\371\001\030\0028\002X\002x\002\227\002\267\002\327\002\367\002\026\0036\003V\003v\003\225\003\265\003\325\003\365\003\024\0044\004T\004t\004\223\004\263\004\323\004\363\004\022\0052\005R\005r\005\221\005\261\005\321\005\361\005\020\0060\006P\006p\006\300\006\240\006\200\006`\006A\006!\006\001\006\341\005\302\005\242\005\202\005b\005C\005#\005\003\005\343\004\304\004\244\004\204\004d\004E\004%\004\005\004\345\003\306\003\246\003\206\003f\003G\003'\003\007\003\347\002\310\002\250\002\210\002h\002I\002)\002\t\002\351\001\312\001\252\001\212\001j\001K\001+\001\013\001\353\000\314\000\254\000\214\000l\000M\000-\000\r\000\035\000=\000]\000}\000\234\000\274\000\334\000\374\000\033\001;\001[\001{\001\232\001\272\001\332\001\372\001\031\0029\002Y\002y\002\230\002\270\002\330\002\370\002\027\0037\003W\003w\003\226\003\266\003\326\003\366\003\025\0045\004U\004u\004\224\004\264\004\324\004\364\004\023\0053\005S\005s\005\222\005\262\005\322\005\362\005\021\0061\006Q\006q\006\220\006\260\006\320\006\360\006@\007 \007\000\007\340\006\301\006\241\006\201\006a\006B\006\"\006\002\006\342\005\303\005\243\005\203\005c\005D\005$\005\004\005\344\004\305\004\245\004\205\004e\004F\004&\004\006\004\346\003\307\003\247\003\207\003g\003H\003(\003\b\003\350\002\311\002\251\002\211\002i\002J\002*\002\n\002\352\001\313\001\253\001\213\001k\001L\001,\001\f\001\354\000\315\000\255\000\215\000m\000N\000.\000\016\000\036\000>\000^\000~\000\235\000\275\000\335\000\375\000\034\001<\001\\\001|\001\233\001\273\001\333\001\373\001\032\002:\002Z\002z\002\231\002\271\002\331\002\371\002\030\0038\003X\003x\003\227\003\267\003\327\003\367\003\026\0046\004V\004v\004\225\004\265\004\325\004\365\004\024\0054\005T\005t\005\223\005\263\005\323\005\363\005\022\0062\006R\006r\006\221\006\261\006\321\006\361\006\020\0070\007P\007p\007`\007A\007!\007\001\007\341\006\302\006\242\006\202\006b\006C\006#\006\003\006\343\005\304\005\244\005\204\005d\005E\005%\005\005\005\345\004\306\004\246\004\206\004f\004G\004'\004\007\004\347\003\310\003\250\003\210\003h\003I\003)\003\t\003\351\002\312\002\252\002\212\002j\002K\002+\002\013\002\353\001\314\001\254\001\214\001l\001M\001-\001\r\001\355\000\316\000\256\000\216\000n\000\236\000\276\000\336\000\376\000\035\001=\001]\001}\001\234\001\274\001\334\001\374\001\033\002;\002[\002{\002\232\002\272\002\332\002\372\002\031\0039\003Y\003y\003\230\003\270\003\330\003\370\003\027\0047\004W\004w\004\226\004\266\004\326\004\366\004\025\0055\005U\005u\005\224\005\264\005\324\005\364\005\023\0063\006S\006s\006\222\006\262\006\322\006\362\006\021\0071\007Q\007q\007a\007B\007\"\007\002\007\342\006\303\006\243\006\203\006c\006D\006$\006\004\006\344\005\305\005\245\005\205\005e\005F\005&\005\006\005\346\004\307\004\247\004\207\004g\004H\004(\004\b\004\350\003\311\003\251\003\211\003i\003J\003*\003\n\003\352\002\313\002\253\002\213\002k\002L\002,\002\f\002\354\001\315\001\255\001\215\001m\001N\001.\001\016\001\356\000\036\001>\001^\001~\001\235\001\275\001\335\001\375\001\034\002<\002\\\002|\002\233\002\273\002\333\002\373\002\032\003:\003Z\003z\003\231\003\271\003\331\003\371\003\030\0048\004X\004x\004\227\004\267\004\327\004\367\004\026\0056\005V\005v\005\225\005\265\005\325\005\365\005\024\0064\006T\006t\006\223\006\263\006\323\006\363\006\022\0072\007R\007r\007b\007C\007#\007\003\007\343\006\304\006\244\006\204\006d\006E\006%\006\005\006\345\005\306\005\246\005\206\005f\005G\005'\005\007\005\347\004\310\004\250\004\210\004h\004I\004)\004\t\004\351\003\312\003\252\003\212\003j\003K\003+\003\013\003\353\002\314\002\254\002\214\002l\002M\002-\002\r\002\355\001\316\001\256\001\216\001n\001\236\001\276\001\336\001\376\001\035\002=\002]\002}\002\234\002\274\002\334\002\374\002\033\003;\003[\003{\003\232\003\272\003\332\003\372\003\031\0049\004Y\004y\004\230\004\270\004\330\004\370\004\027\0057\005W\005w\005\226\005\266\005\326\005\366\005\025\0065\006U\006u\006\224\006\264\006\324\006\364\006\023\0073\007S\007s\007c\007D\007$\007\004\007\344\006\305\006\245\006\205\006e\006F\006&\006\006\006\346\005\307\005\247\005\207\005g\005H\005(\005\b\005\350\004\311\004\251\004\211\004i\004J\004*\004\n\004\352\003\313\003\253\003\213\003k\003L\003,\003\f\003\354\002\315\002\255\002\215\002m\002N\002.\002\016\002\356\001\036\002>\002^\002~\002\235\002\275\002\335\002\375\002\034\003<\003\\\003|\003\233\003\273\003\333\003\373\003\032\004:\004Z\004z\004\231\004\271\004\331\004\371\004\030\0058\005X\005x\005\227\005\267\005\327\005\367\005\026\0066\006V\006v\006\225\006\265\006\325\006\365\006\024\0074\007T\007t\007d\007E\007%\007\005\007\345\006\306\006\246\006\206\006f\006G\006'\006\007\006\347\005\310\005\250\005\210\005h\005I\005)\005\t\005\351\004\312\004\252\004\212\004j\004K\004+\004\013\004\353\003\314\003\254\003\214\003l\003M\003-\003\r\003\355\002\316\002\256\002\216\002n\002\236\002\276\002\336\002\376\002\035\003=\003]\003}\003\234\003\274\003\334\003\374\003\033\004;\004[\004{\004\232\004\272\004\332\004\372\004\031\0059\005Y\005y\005\230\005\270\005\330\005\370\005\027\0067\006W\006w\006\226\006\266\006\326\006\366\006\025\0075\007U\007u\007e\007F\007&\007\006\007\346\006\307\006\247\006\207\006g\006H\006(\006\b\006\350\005\311\005\251\005\211\005i\005J\005*\005\n\005\352\004\313\004\253\004\213\004k\004L\004,\004\f\004\354\003\315\003\255\003\215\003m\003N\003.\003\016\003\356\002\036\003>\003^\003~\003\235\003\275\003\335\003\375\003\034\004<\004\\\004|\004\233\004\273\004\333\004\373\004\032\005:\005Z\005z\005\231\005\271\005\331\005\371\005\030\0068\006X\006x\006\227\006\267\006\327\006\367\006\026\0076\007V\007v\007f\007G\007'\007\007\007\347\006\310\006\250\006\210\006h\006I\006)\006\t\006\351\005\312\005\252\005\212\005j\005K\005+\005\013\005\353\004\314\004\254\004\214\004l\004M\004-\004\r\004\355\003\316\003\256\003\216\003n\003\236\003\276\003\336\003\376\003\035\004=\004]\004}\004\234\004\274\004\334\004\374\004\033\005;\005[\005{\005\232\005\272\005\332\005\372\005\031\0069\006Y\006y\006\230\006\270\006\330\006\370\006\027\0077\007W\007w\007g\007H\007(\007\b\007\350\006\311\006\251\006\211\006i\006J\006*\006\n\006\352\005\313\005\253\005\213\005k\005L\005,\005\f\005\354\004\315\004\255\004\215\004m\004N\004.\004\016\004\356\003\036\004>\004^\004~\004\235\004\275\004\335\004\375\004\034\005<\005\\\005|\005\233\005\273\005\333\005\373\005\032\006:\006Z\006z\006\231\006\271\006\331\006\371\006\030\0078\007X\007x\007h\007I\007)\007\t\007\351\006\312\006\252\006\212\006j\006K\006+\006\013\006\353\005\314\005\254\005\214\005l\005M\005-\005\r\005\355\004\316\004\256\004\216\004n\004\236\004\276\004\336\004\376\004\035\005=\005]\005}\005\234\005\274\005\334\005\374\005\033\006;\006[\006{\006\232\006\272\006\332\006\372\006\031\0079\007Y\007y\007i\007J\007*\007\n\007\352\006\313\006\253\006\213\006k\006L\006,\006\f\006\354\005\315\005\255\005\215\005m\005N\005.\005\016\005\356\004\036\005>\005^\005~\005\235\005\275\005\335\005\375\005\034\006<\006\\\006|\006\233\006\273\006\333\006\373\006\032\007:\007Z\007z\007j\007K\007+\007\013\007\353\006\314\006\254\006\214\006l\006M\006-\006\r\006\355\005\316\005\256\005\216\005n\005\236\005\276\005\336\005\376\005\035\006=\006]\006}\006\234\006\274\006\334\006\374\006\033\007;\007[\007{\007k\007L\007,\007\f\007\354\006\315\006\255\006\215\006m\006N\006.\006\016\006\356\005\036\006>\006^\006~\006\235\006\275\006\335\006\375\006\034\007<\007\\\007|\007l\007M\007-\007\r\007\355\006\316\006\256\006\216\006n\006\236\006\276\006\336\006\376\006\035\007=\007]\007}\007m\007N\007.\007\016\007\356\006\036\007>\007^\007~\007n\007"
	.size	.Lstatic.4, 3600

	.type	.Lstatic.5,@object
	.p2align	1, 0x0
.Lstatic.5:
	.size	.Lstatic.5, 0

	.type	.Lstatic.6,@object
	.section	.rodata.cst16,"aM",@progbits,16
	.p2align	1, 0x0
.Lstatic.6:
	.asciz	" \000\020\000\000\000\b\000\030\000(\0008\0000"
	.size	.Lstatic.6, 16

	.type	.Lstatic.7,@object
	.section	.rodata,"a",@progbits
	.p2align	1, 0x0
.Lstatic.7:
	.asciz	" \000\020\000\000\000\b\000\030\000(\0008\000@\0000\000!\0009\000H"
	.size	.Lstatic.7, 24

	.type	.Lstatic.8,@object
	.p2align	1, 0x0
.Lstatic.8:
	.asciz	" \000\020\000\000\000\b\000\030\000(\0008\000\300\001P\000@\0000\000!\000\021\000)\0009\000H\000X\000Q"
	.size	.Lstatic.8, 36

	.type	.Lstatic.9,@object
	.p2align	1, 0x0
.Lstatic.9:
	.asciz	" \000\020\000\000\000\b\000\030\000(\0008\000\300\001P\000@\0000\000!\000\021\000\031\000)\0009\000H\000X\000h\000a\000Q\000A\000Y\000i"
	.size	.Lstatic.9, 48

	.type	.Lstatic.10,@object
	.p2align	1, 0x0
.Lstatic.10:
	.asciz	" \000\020\000\000\000\b\000\030\000(\0008\000`\000P\000@\0000\000!\000\021\000\001\000\t\000\031\000)\0009\000H\000X\000h\000x\000p\000a\000Q\000A\0001\000I\000Y\000i\000y\000q"
	.size	.Lstatic.10, 64

	.type	.Lstatic.11,@object
	.p2align	1, 0x0
.Lstatic.11:
	.asciz	" \000\020\000\000\000\b\000\030\000(\0008\000`\000P\000@\0000\000!\000\021\000\001\000\t\000\031\000)\0009\000H\000X\000h\000x\000\200\000p\000a\000Q\000A\0001\000\"\000:\000I\000Y\000i\000y\000\210\000\201\000q\000b\000z\000\211"
	.size	.Lstatic.11, 80

	.type	.Lstatic.12,@object
	.p2align	1, 0x0
.Lstatic.12:
	.asciz	" \000\020\000\000\000\b\000\030\000(\0008\000`\000P\000@\0000\000!\000\021\000\001\000\t\000\031\000)\0009\000H\000X\000h\000x\000\300\001\220\000\200\000p\000a\000Q\000A\0001\000\"\000\022\000*\000:\000I\000Y\000i\000y\000\210\000\230\000\221\000\201\000q\000b\000R\000j\000z\000\211\000\231\000\222"
	.size	.Lstatic.12, 100

	.type	.Lstatic.13,@object
	.p2align	1, 0x0
.Lstatic.13:
	.asciz	" \000\020\000\000\000\b\000\030\000(\0008\000`\000P\000@\0000\000!\000\021\000\001\000\t\000\031\000)\0009\000H\000X\000h\000x\000\300\001\220\000\200\000p\000a\000Q\000A\0001\000\"\000\022\000\032\000*\000:\000I\000Y\000i\000y\000\210\000\230\000\250\000\241\000\221\000\201\000q\000b\000R\000B\000Z\000j\000z\000\211\000\231\000\251\000\242\000\222\000\202\000\232\000\252"
	.size	.Lstatic.13, 120

	.type	.Lstatic.14,@object
	.p2align	1, 0x0
.Lstatic.14:
	.asciz	" \000\020\000\000\000\b\000\030\000(\0008\000`\000P\000@\0000\000!\000\021\000\001\000\t\000\031\000)\0009\000H\000X\000h\000x\000\240\000\220\000\200\000p\000a\000Q\000A\0001\000\"\000\022\000\002\000\n\000\032\000*\000:\000I\000Y\000i\000y\000\210\000\230\000\250\000\270\000\260\000\241\000\221\000\201\000q\000b\000R\000B\0002\000J\000Z\000j\000z\000\211\000\231\000\251\000\271\000\261\000\242\000\222\000\202\000r\000\212\000\232\000\252\000\272\000\262"
	.size	.Lstatic.14, 144

	.type	.Lstatic.15,@object
	.p2align	1, 0x0
.Lstatic.15:
	.asciz	" \000\020\000\000\000\b\000\030\000(\0008\000`\000P\000@\0000\000!\000\021\000\001\000\t\000\031\000)\0009\000H\000X\000h\000x\000\240\000\220\000\200\000p\000a\000Q\000A\0001\000\"\000\022\000\002\000\n\000\032\000*\000:\000I\000Y\000i\000y\000\210\000\230\000\250\000\270\000\300\001\320\000\300\000\260\000\241\000\221\000\201\000q\000b\000R\000B\0002\000#\000\023\000+\000;\000J\000Z\000j\000z\000\211\000\231\000\251\000\271\000\310\000\330\000\321\000\301\000\261\000\242\000\222\000\202\000r\000c\000S\000k\000{\000\212\000\232\000\252\000\272\000\311\000\331\000\322\000\302\000\262\000\243\000\223\000\253\000\273\000\312\000\332\000\323"
	.size	.Lstatic.15, 196

	.type	.Lstatic.16,@object
	.p2align	1, 0x0
.Lstatic.16:
	.ascii	" \000\020\000\000\000\b\000\030\000(\0008\000`\000P\000@\0000\000!\000\021\000\001\000\t\000\031\000)\0009\000H\000X\000h\000x\000\240\000\220\000\200\000p\000a\000Q\000A\0001\000\"\000\022\000\002\000\n\000\032\000*\000:\000I\000Y\000i\000y\000\210\000\230\000\250\000\270\000\340\000\320\000\300\000\260\000\241\000\221\000\201\000q\000b\000R\000B\0002\000#\000\023\000\003\000\013\000\033\000+\000;\000J\000Z\000j\000z\000\211\000\231\000\251\000\271\000\310\000\330\000\350\000\370\000\300\001\020\001\000\001\360\000\341\000\321\000\301\000\261\000\242\000\222\000\202\000r\000c\000S\000C\0003\000$\000\024\000,\000<\000K\000[\000k\000{\000\212\000\232\000\252\000\272\000\311\000\331\000\351\000\371\000\b\001\030\001\021\001\001\001\361\000\342\000\322\000\302\000\262\000\243\000\223\000\203\000s\000d\000T\000l\000|\000\213\000\233\000\253\000\273\000\312\000\332\000\352\000\372\000\t\001\031\001\022\001\002\001\362\000\343\000\323\000\303\000\263\000\244\000\224\000\254\000\274\000\313\000\333\000\353\000\373\000\n\001\032\001\023\001\003\001\363\000\344\000\324\000\354\000\374\000\013\001\033\001\024\001"
	.size	.Lstatic.16, 324

	.type	.Lstatic.17,@object
	.p2align	1, 0x0
.Lstatic.17:
	.ascii	" \000\020\000\000\000\b\000\030\000(\0008\000`\000P\000@\0000\000!\000\021\000\001\000\t\000\031\000)\0009\000H\000X\000h\000x\000\240\000\220\000\200\000p\000a\000Q\000A\0001\000\"\000\022\000\002\000\n\000\032\000*\000:\000I\000Y\000i\000y\000\210\000\230\000\250\000\270\000\340\000\320\000\300\000\260\000\241\000\221\000\201\000q\000b\000R\000B\0002\000#\000\023\000\003\000\013\000\033\000+\000;\000J\000Z\000j\000z\000\211\000\231\000\251\000\271\000\310\000\330\000\350\000\370\000 \001\020\001\000\001\360\000\341\000\321\000\301\000\261\000\242\000\222\000\202\000r\000c\000S\000C\0003\000$\000\024\000\004\000\f\000\034\000,\000<\000K\000[\000k\000{\000\212\000\232\000\252\000\272\000\311\000\331\000\351\000\371\000\b\001\030\001(\0018\001\300\001P\001@\0010\001!\001\021\001\001\001\361\000\342\000\322\000\302\000\262\000\243\000\223\000\203\000s\000d\000T\000D\0004\000%\000\025\000-\000=\000L\000\\\000l\000|\000\213\000\233\000\253\000\273\000\312\000\332\000\352\000\372\000\t\001\031\001)\0019\001H\001X\001Q\001A\0011\001\"\001\022\001\002\001\362\000\343\000\323\000\303\000\263\000\244\000\224\000\204\000t\000e\000U\000m\000}\000\214\000\234\000\254\000\274\000\313\000\333\000\353\000\373\000\n\001\032\001*\001:\001I\001Y\001R\001B\0012\001#\001\023\001\003\001\363\000\344\000\324\000\304\000\264\000\245\000\225\000\255\000\275\000\314\000\334\000\354\000\374\000\013\001\033\001+\001;\001J\001Z\001S\001C\0013\001$\001\024\001\004\001\364\000\345\000\325\000\355\000\375\000\f\001\034\001,\001<\001K\001[\001T\001D\0014\001%\001\025\001-\001=\001L\001\\\001U\001"
	.size	.Lstatic.17, 484

	.type	.Lstatic.18,@object
	.p2align	1, 0x0
.Lstatic.18:
	.ascii	"@\000 \000\000\000\020\0000\000P\000p\000\300\000\240\000\200\000`\000A\000!\000\001\000\021\0001\000Q\000q\000\220\000\260\000\320\000\360\000@\001 \001\000\001\340\000\301\000\241\000\201\000a\000B\000\"\000\002\000\022\0002\000R\000r\000\221\000\261\000\321\000\361\000\020\0010\001P\001p\001\300\001\240\001\200\001`\001A\001!\001\001\001\341\000\302\000\242\000\202\000b\000C\000#\000\003\000\023\0003\000S\000s\000\222\000\262\000\322\000\362\000\021\0011\001Q\001q\001\220\001\260\001\320\001\360\001@\002 \002\000\002\340\001\301\001\241\001\201\001a\001B\001\"\001\002\001\342\000\303\000\243\000\203\000c\000D\000$\000\004\000\024\0004\000T\000t\000\223\000\263\000\323\000\363\000\022\0012\001R\001r\001\221\001\261\001\321\001\361\001\020\0020\002P\002p\002\300\002\240\002\200\002`\002A\002!\002\001\002\341\001\302\001\242\001\202\001b\001C\001#\001\003\001\343\000\304\000\244\000\204\000d\000E\000%\000\005\000\025\0005\000U\000u\000\224\000\264\000\324\000\364\000\023\0013\001S\001s\001\222\001\262\001\322\001\362\001\021\0021\002Q\002q\002\220\002\260\002\320\002\360\002@\003 \003\000\003\340\002\301\002\241\002\201\002a\002B\002\"\002\002\002\342\001\303\001\243\001\203\001c\001D\001$\001\004\001\344\000\305\000\245\000\205\000e\000F\000&\000\006\000\026\0006\000V\000v\000\225\000\265\000\325\000\365\000\024\0014\001T\001t\001\223\001\263\001\323\001\363\001\022\0022\002R\002r\002\221\002\261\002\321\002\361\002\020\0030\003P\003p\003\300\003\240\003\200\003`\003A\003!\003\001\003\341\002\302\002\242\002\202\002b\002C\002#\002\003\002\343\001\304\001\244\001\204\001d\001E\001%\001\005\001\345\000\306\000\246\000\206\000f\000G\000'\000\007\000\027\0007\000W\000w\000\226\000\266\000\326\000\366\000\025\0015\001U\001u\001\224\001\264\001\324\001\364\001\023\0023\002S\002s\002\222\002\262\002\322\002\362\002\021\0031\003Q\003q\003\220\003\260\003\320\003\360\003@\004 \004\000\004\340\003\301\003\241\003\201\003a\003B\003\"\003\002\003\342\002\303\002\243\002\203\002c\002D\002$\002\004\002\344\001\305\001\245\001\205\001e\001F\001&\001\006\001\346\000\307\000\247\000\207\000g\000H\000(\000\b\000\030\0008\000X\000x\000\227\000\267\000\327\000\367\000\026\0016\001V\001v\001\225\001\265\001\325\001\365\001\024\0024\002T\002t\002\223\002\263\002\323\002\363\002\022\0032\003R\003r\003\221\003\261\003\321\003\361\003\020\0040\004P\004p\004\300\004\240\004\200\004`\004A\004!\004\001\004\341\003\302\003\242\003\202\003b\003C\003#\003\003\003\343\002\304\002\244\002\204\002d\002E\002%\002\005\002\345\001\306\001\246\001\206\001f\001G\001'\001\007\001\347\000\310\000\250\000\210\000h\000I\000)\000\t\000\031\0009\000Y\000y\000\230\000\270\000\330\000\370\000\027\0017\001W\001w\001\226\001\266\001\326\001\366\001\025\0025\002U\002u\002\224\002\264\002\324\002\364\002\023\0033\003S\003s\003\222\003\262\003\322\003\362\003\021\0041\004Q\004q\004\220\004\260\004\320\004\360\004@\005 \005\000\005\340\004\301\004\241\004\201\004a\004B\004\"\004\002\004\342\003\303\003\243\003\203\003c\003D\003$\003\004\003\344\002\305\002\245\002\205\002e\002F\002&\002\006\002\346\001\307\001\247\001\207\001g\001H\001(\001\b\001\350\000\311\000\251\000\211\000i\000J\000*\000\n\000\032\000:\000Z\000z\000\231\000\271\000\331\000\371\000\030\0018\001X\001x\001\227\001\267\001\327\001\367\001\026\0026\002V\002v\002\225\002\265\002\325\002\365\002\024\0034\003T\003t\003\223\003\263\003\323\003\363\003\022\0042\004R\004r\004\221\004\261\004\321\004\361\004\020\0050\005P\005p\005\300\005\240\005\200\005`\005A\005!\005\001\005\341\004\302\004\242\004\202\004b\004C\004#\004\003\004\343\003\304\003\244\003\204\003d\003E\003%\003\005\003\345\002\306\002\246\002\206\002f\002G\002'\002\007\002\347\001\310\001\250\001\210\001h\001I\001)\001\t\001\351\000\312\000\252\000\212\000j\000K\000+\000\013\000\033\000;\000[\000{\000\232\000\272\000\332\000\372\000\031\0019\001Y\001y\001\230\001\270\001\330\001\370\001\027\0027\002W\002w\002\226\002\266\002\326\002\366\002\025\0035\003U\003u\003\224\003\264\003\324\003\364\003\023\0043\004S\004s\004\222\004\262\004\322\004\362\004\021\0051\005Q\005q\005\220\005\260\005\320\005\360\005@\006 \006\000\006\340\005\301\005\241\005\201\005a\005B\005\"\005\002\005\342\004\303\004\243\004\203\004c\004D\004$\004\004\004\344\003\305\003\245\003\205\003e\003F\003&\003\006\003\346\002\307\002\247\002\207\002g\002H\002(\002\b\002\350\001\311\001\251\001\211\001i\001J\001*\001\n\001\352\000\313\000\253\000\213\000k\000L\000,\000\f\000\034\000<\000\\\000|\000\233\000\273\000\333\000\373\000\032\001:\001Z\001z\001\231\001\271\001\331\001\371\001\030\0028\002X\002x\002\227\002\267\002\327\002\367\002\026\0036\003V\003v\003\225\003\265\003\325\003\365\003\024\0044\004T\004t\004\223\004\263\004\323\004\363\004\022\0052\005R\005r\005\221\005\261\005\321\005\361\005\020\0060\006P\006p\006\200\007\240\006\200\006`\006A\006!\006\001\006\341\005\302\005\242\005\202\005b\005C\005#\005\003\005\343\004\304\004\244\004\204\004d\004E\004%\004\005\004\345\003\306\003\246\003\206\003f\003G\003'\003\007\003\347\002\310\002\250\002\210\002h\002I\002)\002\t\002\351\001\312\001\252\001\212\001j\001K\001+\001\013\001\353\000\314\000\254\000\214\000l\000M\000-\000]\000}\000\234\000\274\000\334\000\374\000\033\001;\001[\001{\001\232\001\272\001\332\001\372\001\031\0029\002Y\002y\002\230\002\270\002\330\002\370\002\027\0037\003W\003w\003\226\003\266\003\326\003\366\003\025\0045\004U\004u\004\224\004\264\004\324\004\364\004\023\0053\005S\005s\005\222\005\262\005\322\005\362\005\021\0061\006Q\006q\006\220\006\260\006\241\006\201\006a\006B\006\"\006\002\006\342\005\303\005\243\005\203\005c\005D\005$\005\004\005\344\004\305\004\245\004\205\004e\004F\004&\004\006\004\346\003\307\003\247\003\207\003g\003H\003(\003\b\003\350\002\311\002\251\002\211\002i\002J\002*\002\n\002\352\001\313\001\253\001\213\001k\001L\001,\001\f\001\354\000\315\000\255\000\335\000\375\000\034\001<\001\\\001|\001\233\001\273\001\333\001\373\001\032\002:\002Z\002z\002\231\002\271\002\331\002\371\002\030\0038\003X\003x\003\227\003\267\003\327\003\367\003\026\0046\004V\004v\004\225\004\265\004\325\004\365\004\024\0054\005T\005t\005\223\005\263\005\323\005\363\005\022\0062\006R\006r\006\221\006\261\006\242\006\202\006b\006C\006#\006\003\006\343\005\304\005\244\005\204\005d\005E\005%\005\005\005\345\004\306\004\246\004\206\004f\004G\004'\004\007\004\347\003\310\003\250\003\210\003h\003I\003)\003\t\003\351\002\312\002\252\002\212\002j\002K\002+\002\013\002\353\001\314\001\254\001\214\001l\001M\001-\001]\001}\001\234\001\274\001\334\001\374\001\033\002;\002[\002{\002\232\002\272\002\332\002\372\002\031\0039\003Y\003y\003\230\003\270\003\330\003\370\003\027\0047\004W\004w\004\226\004\266\004\326\004\366\004\025\0055\005U\005u\005\224\005\264\005\324\005\364\005\023\0063\006S\006s\006\222\006\262\006\243\006\203\006c\006D\006$\006\004\006\344\005\305\005\245\005\205\005e\005F\005&\005\006\005\346\004\307\004\247\004\207\004g\004H\004(\004\b\004\350\003\311\003\251\003\211\003i\003J\003*\003\n\003\352\002\313\002\253\002\213\002k\002L\002,\002\f\002\354\001\315\001\255\001\335\001\375\001\034\002<\002\\\002|\002\233\002\273\002\333\002\373\002\032\003:\003Z\003z\003\231\003\271\003\331\003\371\003\030\0048\004X\004x\004\227\004\267\004\327\004\367\004\026\0056\005V\005v\005\225\005\265\005\325\005\365\005\024\0064\006T\006t\006\223\006\263\006\244\006\204\006d\006E\006%\006\005\006\345\005\306\005\246\005\206\005f\005G\005'\005\007\005\347\004\310\004\250\004\210\004h\004I\004)\004\t\004\351\003\312\003\252\003\212\003j\003K\003+\003\013\003\353\002\314\002\254\002\214\002l\002M\002-\002]\002}\002\234\002\274\002\334\002\374\002\033\003;\003[\003{\003\232\003\272\003\332\003\372\003\031\0049\004Y\004y\004\230\004\270\004\330\004\370\004\027\0057\005W\005w\005\226\005\266\005\326\005\366\005\025\0065\006U\006u\006\224\006\264\006\245\006\205\006e\006F\006&\006\006\006\346\005\307\005\247\005\207\005g\005H\005(\005\b\005\350\004\311\004\251\004\211\004i\004J\004*\004\n\004\352\003\313\003\253\003\213\003k\003L\003,\003\f\003\354\002\315\002\255\002\335\002\375\002\034\003<\003\\\003|\003\233\003\273\003\333\003\373\003\032\004:\004Z\004z\004\231\004\271\004\331\004\371\004\030\0058\005X\005x\005\227\005\267\005\327\005\367\005\026\0066\006V\006v\006\225\006\265\006\246\006\206\006f\006G\006'\006\007\006\347\005\310\005\250\005\210\005h\005I\005)\005\t\005\351\004\312\004\252\004\212\004j\004K\004+\004\013\004\353\003\314\003\254\003\214\003l\003M\003-\003]\003}\003\234\003\274\003\334\003\374\003\033\004;\004[\004{\004\232\004\272\004\332\004\372\004\031\0059\005Y\005y\005\230\005\270\005\330\005\370\005\027\0067\006W\006w\006\226\006\266\006\247\006\207\006g\006H\006(\006\b\006\350\005\311\005\251\005\211\005i\005J\005*\005\n\005\352\004\313\004\253\004\213\004k\004L\004,\004\f\004\354\003\315\003\255\003\335\003\375\003\034\004<\004\\\004|\004\233\004\273\004\333\004\373\004\032\005:\005Z\005z\005\231\005\271\005\331\005\371\005\030\0068\006X\006x\006\227\006\267\006\250\006\210\006h\006I\006)\006\t\006\351\005\312\005\252\005\212\005j\005K\005+\005\013\005\353\004\314\004\254\004\214\004l\004M\004-\004]\004}\004\234\004\274\004\334\004\374\004\033\005;\005[\005{\005\232\005\272\005\332\005\372\005\031\0069\006Y\006y\006\230\006\270\006\251\006\211\006i\006J\006*\006\n\006\352\005\313\005\253\005\213\005k\005L\005,\005\f\005\354\004\315\004\255\004\335\004\375\004\034\005<\005\\\005|\005\233\005\273\005\333\005\373\005\032\006:\006Z\006z\006\231\006\271\006\252\006\212\006j\006K\006+\006\013\006\353\005\314\005\254\005\214\005l\005M\005-\005]\005}\005\234\005\274\005\334\005\374\005\033\006;\006[\006{\006\232\006\272\006\253\006\213\006k\006L\006,\006\f\006\354\005\315\005\255\005\335\005\375\005\034\006<\006\\\006|\006\233\006\273\006\254\006\214\006l\006M\006-\006]\006}\006\234\006\274\006\255\006"
	.size	.Lstatic.18, 2916

	.type	.Lstatic.19,@object
	.p2align	1, 0x0
.Lstatic.19:
	.ascii	"\200\000@\000\000\000 \000`\000\240\000\340\000\200\001@\001\000\001\300\000\201\000A\000\001\000!\000a\000\241\000\341\000 \001`\001\240\001\340\001\200\002@\002\000\002\300\001\201\001A\001\001\001\301\000\202\000B\000\002\000\"\000b\000\242\000\342\000!\001a\001\241\001\341\001 \002`\002\240\002\340\002\200\003@\003\000\003\300\002\201\002A\002\001\002\301\001\202\001B\001\002\001\302\000\203\000C\000\003\000#\000c\000\243\000\343\000\"\001b\001\242\001\342\001!\002a\002\241\002\341\002 \003`\003\240\003\340\003\200\004@\004\000\004\300\003\201\003A\003\001\003\301\002\202\002B\002\002\002\302\001\203\001C\001\003\001\303\000\204\000D\000\004\000$\000d\000\244\000\344\000#\001c\001\243\001\343\001\"\002b\002\242\002\342\002!\003a\003\241\003\341\003 \004`\004\240\004\340\004\200\005@\005\000\005\300\004\201\004A\004\001\004\301\003\202\003B\003\002\003\302\002\203\002C\002\003\002\303\001\204\001D\001\004\001\304\000\205\000E\000\005\000%\000e\000\245\000\345\000$\001d\001\244\001\344\001#\002c\002\243\002\343\002\"\003b\003\242\003\342\003!\004a\004\241\004\341\004 \005`\005\240\005\340\005\200\006@\006\000\006\300\005\201\005A\005\001\005\301\004\202\004B\004\002\004\302\003\203\003C\003\003\003\303\002\204\002D\002\004\002\304\001\205\001E\001\005\001\305\000\206\000F\000\006\000&\000f\000\246\000\346\000%\001e\001\245\001\345\001$\002d\002\244\002\344\002#\003c\003\243\003\343\003\"\004b\004\242\004\342\004!\005a\005\241\005\341\005 \006`\006\240\006\340\006\200\007@\007\000\007\300\006\201\006A\006\001\006\301\005\202\005B\005\002\005\302\004\203\004C\004\003\004\303\003\204\003D\003\004\003\304\002\205\002E\002\005\002\305\001\206\001F\001\006\001\306\000\207\000G\000\007\000'\000g\000\247\000\347\000&\001f\001\246\001\346\001%\002e\002\245\002\345\002$\003d\003\244\003\344\003#\004c\004\243\004\343\004\"\005b\005\242\005\342\005!\006a\006\241\006\341\006 \007`\007\240\007\340\007\200\b@\b\000\b\300\007\201\007A\007\001\007\301\006\202\006B\006\002\006\302\005\203\005C\005\003\005\303\004\204\004D\004\004\004\304\003\205\003E\003\005\003\305\002\206\002F\002\006\002\306\001\207\001G\001\007\001\307\000\210\000H\000\b\000(\000h\000\250\000\350\000'\001g\001\247\001\347\001&\002f\002\246\002\346\002%\003e\003\245\003\345\003$\004d\004\244\004\344\004#\005c\005\243\005\343\005\"\006b\006\242\006\342\006!\007a\007\241\007\341\007 \b`\b\240\b\340\b\200\t@\t\000\t\300\b\201\bA\b\001\b\301\007\202\007B\007\002\007\302\006\203\006C\006\003\006\303\005\204\005D\005\004\005\304\004\205\004E\004\005\004\305\003\206\003F\003\006\003\306\002\207\002G\002\007\002\307\001\210\001H\001\b\001\310\000\211\000I\000\t\000)\000i\000\251\000\351\000(\001h\001\250\001\350\001'\002g\002\247\002\347\002&\003f\003\246\003\346\003%\004e\004\245\004\345\004$\005d\005\244\005\344\005#\006c\006\243\006\343\006\"\007b\007\242\007\342\007!\ba\b\241\b\341\b \t`\t\240\t\340\t\200\n@\n\000\n\300\t\201\tA\t\001\t\301\b\202\bB\b\002\b\302\007\203\007C\007\003\007\303\006\204\006D\006\004\006\304\005\205\005E\005\005\005\305\004\206\004F\004\006\004\306\003\207\003G\003\007\003\307\002\210\002H\002\b\002\310\001\211\001I\001\t\001\311\000\212\000J\000\n\000*\000j\000\252\000\352\000)\001i\001\251\001\351\001(\002h\002\250\002\350\002'\003g\003\247\003\347\003&\004f\004\246\004\346\004%\005e\005\245\005\345\005$\006d\006\244\006\344\006#\007c\007\243\007\343\007\"\bb\b\242\b\342\b!\ta\t\241\t\341\t \n`\n\240\n\340\n\200\013@\013\000\013\300\n\201\nA\n\001\n\301\t\202\tB\t\002\t\302\b\203\bC\b\003\b\303\007\204\007D\007\004\007\304\006\205\006E\006\005\006\305\005\206\005F\005\006\005\306\004\207\004G\004\007\004\307\003\210\003H\003\b\003\310\002\211\002I\002\t\002\311\001\212\001J\001\n\001\312\000\213\000K\000\013\000+\000k\000\253\000\353\000*\001j\001\252\001\352\001)\002i\002\251\002\351\002(\003h\003\250\003\350\003'\004g\004\247\004\347\004&\005f\005\246\005\346\005%\006e\006\245\006\345\006$\007d\007\244\007\344\007#\bc\b\243\b\343\b\"\tb\t\242\t\342\t!\na\n\241\n\341\n \013`\013\240\013\340\013\200\f@\f\000\f\300\013\201\013A\013\001\013\301\n\202\nB\n\002\n\302\t\203\tC\t\003\t\303\b\204\bD\b\004\b\304\007\205\007E\007\005\007\305\006\206\006F\006\006\006\306\005\207\005G\005\007\005\307\004\210\004H\004\b\004\310\003\211\003I\003\t\003\311\002\212\002J\002\n\002\312\001\213\001K\001\013\001\313\000\214\000L\000\f\000,\000l\000\254\000\354\000+\001k\001\253\001\353\001*\002j\002\252\002\352\002)\003i\003\251\003\351\003(\004h\004\250\004\350\004'\005g\005\247\005\347\005&\006f\006\246\006\346\006%\007e\007\245\007\345\007$\bd\b\244\b\344\b#\tc\t\243\t\343\t\"\nb\n\242\n\342\n!\013a\013\241\013\341\013 \f`\f\240\f\340\f\200\r@\r\000\r\300\f\201\fA\f\001\f\301\013\202\013B\013\002\013\302\n\203\nC\n\003\n\303\t\204\tD\t\004\t\304\b\205\bE\b\005\b\305\007\206\007F\007\006\007\306\006\207\006G\006\007\006\307\005\210\005H\005\b\005\310\004\211\004I\004\t\004\311\003\212\003J\003\n\003\312\002\213\002K\002\013\002\313\001\214\001L\001\f\001\314\000\215\000M\000\r\000-\000m\000\255\000\355\000,\001l\001\254\001\354\001+\002k\002\253\002\353\002*\003j\003\252\003\352\003)\004i\004\251\004\351\004(\005h\005\250\005\350\005'\006g\006\247\006\347\006&\007f\007\246\007\346\007%\be\b\245\b\345\b$\td\t\244\t\344\t#\nc\n\243\n\343\n\"\013b\013\242\013\342\013!\fa\f\241\f\341\f \r`\r\240\r\340\r\200\016@\016\000\016\300\r\201\rA\r\001\r\301\f\202\fB\f\002\f\302\013\203\013C\013\003\013\303\n\204\nD\n\004\n\304\t\205\tE\t\005\t\305\b\206\bF\b\006\b\306\007\207\007G\007\007\007\307\006\210\006H\006\b\006\310\005\211\005I\005\t\005\311\004\212\004J\004\n\004\312\003\213\003K\003\013\003\313\002\214\002L\002\f\002\314\001\215\001M\001\r\001\315\000\216\000N\000\016\000.\000n\000\256\000\356\000-\001m\001\255\001\355\001,\002l\002\254\002\354\002+\003k\003\253\003\353\003*\004j\004\252\004\352\004)\005i\005\251\005\351\005(\006h\006\250\006\350\006'\007g\007\247\007\347\007&\bf\b\246\b\346\b%\te\t\245\t\345\t$\nd\n\244\n\344\n#\013c\013\243\013\343\013\"\fb\f\242\f\342\f!\ra\r\241\r\341\r \016`\016\240\016\340\016\200\017@\017\000\017\300\016\201\016A\016\001\016\301\r\202\rB\r\002\r\302\f\203\fC\f\003\f\303\013\204\013D\013\004\013\304\n\205\nE\n\005\n\305\t\206\tF\t\006\t\306\b\207\bG\b\007\b\307\007\210\007H\007\b\007\310\006\211\006I\006\t\006\311\005\212\005J\005\n\005\312\004\213\004K\004\013\004\313\003\214\003L\003\f\003\314\002\215\002M\002\r\002\315\001\216\001N\001\016\001\316\000\217\000O\000\017\000/\000o\000\257\000\357\000.\001n\001\256\001\356\001-\002m\002\255\002\355\002,\003l\003\254\003\354\003+\004k\004\253\004\353\004*\005j\005\252\005\352\005)\006i\006\251\006\351\006(\007h\007\250\007\350\007'\bg\b\247\b\347\b&\tf\t\246\t\346\t%\ne\n\245\n\345\n$\013d\013\244\013\344\013#\fc\f\243\f\343\f\"\rb\r\242\r\342\r!\016a\016\241\016\341\016 \017`\017\240\017\340\017\200\020@\020\000\020\300\017\201\017A\017\001\017\301\016\202\016B\016\002\016\302\r\203\rC\r\003\r\303\f\204\fD\f\004\f\304\013\205\013E\013\005\013\305\n\206\nF\n\006\n\306\t\207\tG\t\007\t\307\b\210\bH\b\b\b\310\007\211\007I\007\t\007\311\006\212\006J\006\n\006\312\005\213\005K\005\013\005\313\004\214\004L\004\f\004\314\003\215\003M\003\r\003\315\002\216\002N\002\016\002\316\001\217\001O\001\017\001\317\000\220\000P\000\260\000\360\000/\001o\001\257\001\357\001.\002n\002\256\002\356\002-\003m\003\255\003\355\003,\004l\004\254\004\354\004+\005k\005\253\005\353\005*\006j\006\252\006\352\006)\007i\007\251\007\351\007(\bh\b\250\b\350\b'\tg\t\247\t\347\t&\nf\n\246\n\346\n%\013e\013\245\013\345\013$\fd\f\244\f\344\f#\rc\r\243\r\343\r\"\016b\016\242\016\342\016!\017a\017\241\017\341\017 \020`\020A\020\001\020\301\017\202\017B\017\002\017\302\016\203\016C\016\003\016\303\r\204\rD\r\004\r\304\f\205\fE\f\005\f\305\013\206\013F\013\006\013\306\n\207\nG\n\007\n\307\t\210\tH\t\b\t\310\b\211\bI\b\t\b\311\007\212\007J\007\n\007\312\006\213\006K\006\013\006\313\005\214\005L\005\f\005\314\004\215\004M\004\r\004\315\003\216\003N\003\016\003\316\002\217\002O\002\017\002\317\001\220\001P\001\260\001\360\001/\002o\002\257\002\357\002.\003n\003\256\003\356\003-\004m\004\255\004\355\004,\005l\005\254\005\354\005+\006k\006\253\006\353\006*\007j\007\252\007\352\007)\bi\b\251\b\351\b(\th\t\250\t\350\t'\ng\n\247\n\347\n&\013f\013\246\013\346\013%\fe\f\245\f\345\f$\rd\r\244\r\344\r#\016c\016\243\016\343\016\"\017b\017\242\017\342\017!\020a\020B\020\002\020\302\017\203\017C\017\003\017\303\016\204\016D\016\004\016\304\r\205\rE\r\005\r\305\f\206\fF\f\006\f\306\013\207\013G\013\007\013\307\n\210\nH\n\b\n\310\t\211\tI\t\t\t\311\b\212\bJ\b\n\b\312\007\213\007K\007\013\007\313\006\214\006L\006\f\006\314\005\215\005M\005\r\005\315\004\216\004N\004\016\004\316\003\217\003O\003\017\003\317\002\220\002P\002\260\002\360\002/\003o\003\257\003\357\003.\004n\004\256\004\356\004-\005m\005\255\005\355\005,\006l\006\254\006\354\006+\007k\007\253\007\353\007*\bj\b\252\b\352\b)\ti\t\251\t\351\t(\nh\n\250\n\350\n'\013g\013\247\013\347\013&\ff\f\246\f\346\f%\re\r\245\r\345\r$\016d\016\244\016\344\016#\017c\017\243\017\343\017\"\020b\020C\020\003\020\303\017\204\017D\017\004\017\304\016\205\016E\016\005\016\305\r\206\rF\r\006\r\306\f\207\fG\f\007\f\307\013\210\013H\013\b\013\310\n\211\nI\n\t\n\311\t\212\tJ\t\n\t\312\b\213\bK\b\013\b\313\007\214\007L\007\f\007\314\006\215\006M\006\r\006\315\005\216\005N\005\016\005\316\004\217\004O\004\017\004\317\003\220\003P\003\260\003\360\003/\004o\004\257\004\357\004.\005n\005\256\005\356\005-\006m\006\255\006\355\006,\007l\007\254\007\354\007+\bk\b\253\b\353\b*\tj\t\252\t\352\t)\ni\n\251\n\351\n(\013h\013\250\013\350\013'\fg\f\247\f\347\f&\rf\r\246\r\346\r%\016e\016\245\016\345\016$\017d\017\244\017\344\017#\020c\020D\020\004\020\304\017\205\017E\017\005\017\305\016\206\016F\016\006\016\306\r\207\rG\r\007\r\307\f\210\fH\f\b\f\310\013\211\013I\013\t\013\311\n\212\nJ\n\n\n\312\t\213\tK\t\013\t\313\b\214\bL\b\f\b\314\007\215\007M\007\r\007\315\006\216\006N\006\016\006\316\005\217\005O\005\017\005\317\004\220\004P\004\260\004\360\004/\005o\005\257\005\357\005.\006n\006\256\006\356\006-\007m\007\255\007\355\007,\bl\b\254\b\354\b+\tk\t\253\t\353\t*\nj\n\252\n\352\n)\013i\013\251\013\351\013(\fh\f\250\f\350\f'\rg\r\247\r\347\r&\016f\016\246\016\346\016%\017e\017\245\017\345\017$\020d\020E\020\005\020\305\017\206\017F\017\006\017\306\016\207\016G\016\007\016\307\r\210\rH\r\b\r\310\f\211\fI\f\t\f\311\013\212\013J\013\n\013\312\n\213\nK\n\013\n\313\t\214\tL\t\f\t\314\b\215\bM\b\r\b\315\007\216\007N\007\016\007\316\006\217\006O\006\017\006\317\005\220\005P\005\260\005\360\005/\006o\006\257\006\357\006.\007n\007\256\007\356\007-\bm\b\255\b\355\b,\tl\t\254\t\354\t+\nk\n\253\n\353\n*\013j\013\252\013\352\013)\fi\f\251\f\351\f(\rh\r\250\r\350\r'\016g\016\247\016\347\016&\017f\017\246\017\346\017%\020e\020F\020\006\020\306\017\207\017G\017\007\017\307\016\210\016H\016\b\016\310\r\211\rI\r\t\r\311\f\212\fJ\f\n\f\312\013\213\013K\013\013\013\313\n\214\nL\n\f\n\314\t\215\tM\t\r\t\315\b\216\bN\b\016\b\316\007\217\007O\007\017\007\317\006\220\006P\006\260\006\360\006/\007o\007\257\007\357\007.\bn\b\256\b\356\b-\tm\t\255\t\355\t,\nl\n\254\n\354\n+\013k\013\253\013\353\013*\fj\f\252\f\352\f)\ri\r\251\r\351\r(\016h\016\250\016\350\016'\017g\017\247\017\347\017&\020f\020G\020\007\020\307\017\210\017H\017\b\017\310\016\211\016I\016\t\016\311\r\212\rJ\r\n\r\312\f\213\fK\f\013\f\313\013\214\013L\013\f\013\314\n\215\nM\n\r\n\315\t\216\tN\t\016\t\316\b\217\bO\b\017\b\317\007\220\007P\007\260\007\360\007/\bo\b\257\b\357\b.\tn\t\256\t\356\t-\nm\n\255\n\355\n,\013l\013\254\013\354\013+\fk\f\253\f\353\f*\rj\r\252\r\352\r)\016i\016\251\016\351\016(\017h\017\250\017\350\017'\020g\020H\020\b\020\310\017\211\017I\017\t\017\311\016\212\016J\016\n\016\312\r\213\rK\r\013\r\313\f\214\fL\f\f\f\314\013\215\013M\013\r\013\315\n\216\nN\n\016\n\316\t\217\tO\t\017\t\317\b\220\bP\b\260\b\360\b/\to\t\257\t\357\t.\nn\n\256\n\356\n-\013m\013\255\013\355\013,\fl\f\254\f\354\f+\rk\r\253\r\353\r*\016j\016\252\016\352\016)\017i\017\251\017\351\017(\020h\020I\020\t\020\311\017\212\017J\017\n\017\312\016\213\016K\016\013\016\313\r\214\rL\r\f\r\314\f\215\fM\f\r\f\315\013\216\013N\013\016\013\316\n\217\nO\n\017\n\317\t\220\tP\t\260\t\360\t/\no\n\257\n\357\n.\013n\013\256\013\356\013-\fm\f\255\f\355\f,\rl\r\254\r\354\r+\016k\016\253\016\353\016*\017j\017\252\017\352\017)\020i\020J\020\n\020\312\017\213\017K\017\013\017\313\016\214\016L\016\f\016\314\r\215\rM\r\r\r\315\f\216\fN\f\016\f\316\013\217\013O\013\017\013\317\n\220\nP\n\260\n\360\n/\013o\013\257\013\357\013.\fn\f\256\f\356\f-\rm\r\255\r\355\r,\016l\016\254\016\354\016+\017k\017\253\017\353\017*\020j\020K\020\013\020\313\017\214\017L\017\f\017\314\016\215\016M\016\r\016\315\r\216\rN\r\016\r\316\f\217\fO\f\017\f\317\013\220\013P\013\260\013\360\013/\fo\f\257\f\357\f.\rn\r\256\r\356\r-\016m\016\255\016\355\016,\017l\017\254\017\354\017+\020k\020L\020\f\020\314\017\215\017M\017\r\017\315\016\216\016N\016\016\016\316\r\217\rO\r\017\r\317\f\220\fP\f\260\f\360\f/\ro\r\257\r\357\r.\016n\016\256\016\356\016-\017m\017\255\017\355\017,\020l\020M\020\r\020\315\017\216\017N\017\016\017\316\016\217\016O\016\017\016\317\r\220\rP\r\260\r\360\r/\016o\016\257\016\357\016.\017n\017\256\017\356\017-\020m\020N\020\016\020\316\017\217\017O\017\017\017\317\016\220\016P\016\260\016\360\016/\017o\017\257\017\357\017.\020n\020O\020\017\020\317\017\220\017P\017\260\017\360\017/\020o\020P\020"
	.size	.Lstatic.19, 4356

	.type	.Lstatic.20,@object
	.p2align	1, 0x0
.Lstatic.20:
	.asciz	" \000\020\000\000\000\b\000\030\000(\000\300\001!\000\021\000\001\000\031\000)"
	.size	.Lstatic.20, 24

	.type	.Lstatic.21,@object
	.p2align	1, 0x0
.Lstatic.21:
	.asciz	"\300\001\020\000\000\000\b\000\030\000(\000!\000\021\000\001\000\t\000\031\000)\000\"\000\022\000\002\000\n\000\032\000*\000#\000\023\000+"
	.size	.Lstatic.21, 42

	.type	.Lstatic.22,@object
	.p2align	1, 0x0
.Lstatic.22:
	.asciz	"\300\001\020\000\000\000\b\000\030\000(\000!\000\021\000\001\000\t\000\031\000)\000\"\000\022\000\002\000\n\000\032\000*\000#\000\023\000\003\000\013\000\033\000+\000$\000\024\000\004\000\f\000\034\000,\000%\000\025\000-"
	.size	.Lstatic.22, 66

	.type	.Lstatic.23,@object
	.p2align	1, 0x0
.Lstatic.23:
	.asciz	" \000\020\000\000\000\b\000\030\000(\000\300\001!\000\021\000\001\000\t\000\031\000)\000\"\000\022\000\002\000\n\000\032\000*\000#\000\023\000\003\000\013\000\033\000+\000$\000\024\000\004\000\f\000\034\000,\000%\000\025\000\005\000\r\000\035\000-\000&\000\026\000\006\000\036\000."
	.size	.Lstatic.23, 84

	.type	.Lstatic.24,@object
	.p2align	1, 0x0
.Lstatic.24:
	.asciz	"@\000 \000\000\000\020\0000\000P\000\200\007A\000!\000\001\000\021\0001\000Q\000B\000\"\000\002\000\022\0002\000R\000C\000#\000\003\000\023\0003\000S\000D\000$\000\004\000\024\0004\000T\000E\000%\000\005\000\025\0005\000U\000F\000&\000\006\000\026\0006\000V\000G\000'\000\007\000\027\0007\000W\000H\000(\000\b\0008\000X"
	.size	.Lstatic.24, 108

	.type	.Lstatic.25,@object
	.p2align	1, 0x0
.Lstatic.25:
	.asciz	"@\000 \000\000\000\020\0000\000P\000\200\007A\000!\000\001\000\021\0001\000Q\000B\000\"\000\002\000\022\0002\000R\000C\000#\000\003\000\023\0003\000S\000D\000$\000\004\000\024\0004\000T\000E\000%\000\005\000\025\0005\000U\000F\000&\000\006\000\026\0006\000V\000G\000'\000\007\000\027\0007\000W\000H\000(\000\b\000\030\0008\000X\000I\000)\000\t\000\031\0009\000Y\000J\000*\000\n\000:\000Z"
	.size	.Lstatic.25, 132

	.type	.Lstatic.26,@object
	.p2align	1, 0x0
.Lstatic.26:
	.asciz	"\200\007 \000\000\000\020\0000\000P\000A\000!\000\001\000\021\0001\000Q\000B\000\"\000\002\000\022\0002\000R\000C\000#\000\003\000\023\0003\000S\000D\000$\000\004\000\024\0004\000T\000E\000%\000\005\000\025\0005\000U\000F\000&\000\006\000\026\0006\000V\000G\000'\000\007\000\027\0007\000W\000H\000(\000\b\000\030\0008\000X\000I\000)\000\t\000\031\0009\000Y\000J\000*\000\n\000\032\000:\000Z\000K\000+\000\013\000\033\000;\000[\000L\000,\000\f\000\034\000<\000\\\000M\000-\000]"
	.size	.Lstatic.26, 162

	.type	.Lstatic.27,@object
	.p2align	1, 0x0
.Lstatic.27:
	.asciz	"\200\020@\000\000\000 \000`\000\240\000\201\000A\000\001\000!\000a\000\241\000\202\000B\000\002\000\"\000b\000\242\000\203\000C\000\003\000#\000c\000\243\000\204\000D\000\004\000$\000d\000\244\000\205\000E\000\005\000%\000e\000\245\000\206\000F\000\006\000&\000f\000\246\000\207\000G\000\007\000'\000g\000\247\000\210\000H\000\b\000(\000h\000\250\000\211\000I\000\t\000)\000i\000\251\000\212\000J\000\n\000*\000j\000\252\000\213\000K\000\013\000+\000k\000\253\000\214\000L\000\f\000,\000l\000\254\000\215\000M\000\r\000-\000m\000\255\000\216\000N\000\016\000.\000n\000\256\000\217\000O\000\017\000/\000o\000\257\000\220\000P\000\260"
	.size	.Lstatic.27, 198

	.type	.Lstatic.28,@object
	.p2align	1, 0x0
.Lstatic.28:
	.asciz	" \000\020\000\000\000\b\000\030\000(\0008\000@\0000\000!\000\021\000\001\000\t\000\031\000)\0009\000H\000A\0001\000\"\000\022\000\002\000\n\000\032\000*\000:\000I\000B\0002\000J"
	.size	.Lstatic.28, 60

	.type	.Lstatic.29,@object
	.p2align	1, 0x0
.Lstatic.29:
	.asciz	" \000\020\000\000\000\b\000\030\000(\0008\000@\0000\000!\000\021\000\001\000\t\000\031\000)\0009\000H\000A\0001\000\"\000\022\000\002\000\n\000\032\000*\000:\000I\000B\0002\000#\000\023\000\003\000\013\000\033\000+\000;\000J\000C\0003\000K"
	.size	.Lstatic.29, 80

	.type	.Lstatic.30,@object
	.p2align	1, 0x0
.Lstatic.30:
	.asciz	" \000\020\000\000\000\b\000\030\000(\0008\000@\0000\000!\000\021\000\001\000\t\000\031\000)\0009\000H\000A\0001\000\"\000\022\000\002\000\n\000\032\000*\000:\000I\000B\0002\000#\000\023\000\003\000\013\000\033\000+\000;\000J\000C\0003\000$\000\024\000\004\000\f\000\034\000,\000<\000K\000D\0004\000%\000\025\000\005\000\r\000\035\000-\000=\000L\000E\0005\000&\000\026\000\006\000\016\000\036\000.\000>\000M\000F\0006\000N"
	.size	.Lstatic.30, 140

	.type	.Lstatic.31,@object
	.p2align	1, 0x0
.Lstatic.31:
	.asciz	"@\000 \000\000\000\020\0000\000P\000p\000\200\000`\000A\000!\000\001\000\021\0001\000Q\000q\000\220\000\201\000a\000B\000\"\000\002\000\022\0002\000R\000r\000\221\000\202\000b\000C\000#\000\003\000\023\0003\000S\000s\000\222\000\203\000c\000D\000$\000\004\000\024\0004\000T\000t\000\223\000\204\000d\000E\000%\000\005\000\025\0005\000U\000u\000\224\000\205\000e\000F\000&\000\006\000\026\0006\000V\000v\000\225\000\206\000f\000G\000'\000\007\000\027\0007\000W\000w\000\226\000\207\000g\000H\000(\000\b\000\030\0008\000X\000x\000\227\000\210\000h\000I\000)\000\t\000\031\0009\000Y\000y\000\230\000\211\000i\000\231"
	.size	.Lstatic.31, 200

	.type	.Lstatic.32,@object
	.p2align	1, 0x0
.Lstatic.32:
	.asciz	" \000\020\000\000\000\b\000\030\000(\0008\000`\000P\000@\0000\000!\000\021\000\001\000\t\000\031\000)\0009\000H\000X\000h\000\300\001a\000Q\000A\0001\000\"\000\022\000\002\000\n\000\032\000*\000:\000I\000Y\000i\000b\000R\000B\0002\000#\000\023\000\003\000\033\000+\000;\000J\000Z\000j\000c\000S\000C\0003\000K\000[\000k"
	.size	.Lstatic.32, 112

	.type	.Lstatic.33,@object
	.p2align	1, 0x0
.Lstatic.33:
	.asciz	" \000\020\000\000\000\b\000\030\000(\0008\000\300\001P\000@\0000\000!\000\021\000\001\000\t\000\031\000)\0009\000H\000X\000h\000a\000Q\000A\0001\000\"\000\022\000\002\000\n\000\032\000*\000:\000I\000Y\000i\000b\000R\000B\0002\000#\000\023\000\003\000\013\000\033\000+\000;\000J\000Z\000j\000c\000S\000C\0003\000$\000\024\000\004\000\f\000\034\000,\000<\000K\000[\000k\000d\000T\000D\0004\000%\000\025\000-\000=\000L\000\\\000l\000e\000U\000m"
	.size	.Lstatic.33, 154

	.type	.Lstatic.34,@object
	.p2align	1, 0x0
.Lstatic.34:
	.asciz	" \000\020\000\000\000\b\000\030\000(\0008\000`\000P\000@\0000\000!\000\021\000\001\000\t\000\031\000)\0009\000H\000X\000h\000\300\001a\000Q\000A\0001\000\"\000\022\000\002\000\n\000\032\000*\000:\000I\000Y\000i\000b\000R\000B\0002\000#\000\023\000\003\000\013\000\033\000+\000;\000J\000Z\000j\000c\000S\000C\0003\000$\000\024\000\004\000\f\000\034\000,\000<\000K\000[\000k\000d\000T\000D\0004\000%\000\025\000\005\000\r\000\035\000-\000=\000L\000\\\000l\000e\000U\000E\0005\000&\000\026\000\006\000\036\000.\000>\000M\000]\000m\000f\000V\000F\0006\000N\000^\000n"
	.size	.Lstatic.34, 196

	.type	.Lstatic.35,@object
	.p2align	1, 0x0
.Lstatic.35:
	.asciz	" \000\020\000\000\000\b\000\030\000(\0008\000`\000P\000@\0000\000!\000\021\000\001\000\t\000\031\000)\0009\000H\000X\000h\000x\000\200\000p\000a\000Q\000A\0001\000\"\000\022\000\002\000\n\000\032\000*\000:\000I\000Y\000i\000y\000\210\000\201\000q\000b\000R\000B\0002\000#\000\023\000\003\000\013\000\033\000+\000;\000J\000Z\000j\000z\000\211\000\202\000r\000c\000S\000C\0003\000K\000[\000k\000{\000\212\000\203\000s\000\213"
	.size	.Lstatic.35, 144

	.type	.Lstatic.36,@object
	.p2align	1, 0x0
.Lstatic.36:
	.asciz	" \000\020\000\000\000\b\000\030\000(\0008\000`\000P\000@\0000\000!\000\021\000\001\000\t\000\031\000)\0009\000H\000X\000h\000x\000\200\000p\000a\000Q\000A\0001\000\"\000\022\000\002\000\n\000\032\000*\000:\000I\000Y\000i\000y\000\210\000\201\000q\000b\000R\000B\0002\000#\000\023\000\003\000\013\000\033\000+\000;\000J\000Z\000j\000z\000\211\000\202\000r\000c\000S\000C\0003\000$\000\024\000\004\000\f\000\034\000,\000<\000K\000[\000k\000{\000\212\000\203\000s\000d\000T\000D\0004\000L\000\\\000l\000|\000\213\000\204\000t\000\214"
	.size	.Lstatic.36, 180

	.type	.Lstatic.37,@object
	.p2align	1, 0x0
.Lstatic.37:
	.asciz	" \000\020\000\000\000\b\000\030\000(\0008\000`\000P\000@\0000\000!\000\021\000\001\000\t\000\031\000)\0009\000H\000X\000h\000x\000\200\000p\000a\000Q\000A\0001\000\"\000\022\000\002\000\n\000\032\000*\000:\000I\000Y\000i\000y\000\210\000\201\000q\000b\000R\000B\0002\000#\000\023\000\003\000\013\000\033\000+\000;\000J\000Z\000j\000z\000\211\000\202\000r\000c\000S\000C\0003\000$\000\024\000\004\000\f\000\034\000,\000<\000K\000[\000k\000{\000\212\000\203\000s\000d\000T\000D\0004\000%\000\025\000\005\000\r\000\035\000-\000=\000L\000\\\000l\000|\000\213\000\204\000t\000e\000U\000E\0005\000&\000\026\000\006\000\016\000\036\000.\000>\000M\000]\000m\000}\000\214\000\205\000u\000f\000V\000F\0006\000N\000^\000n\000~\000\215\000\206\000v\000\216"
	.size	.Lstatic.37, 252

	.type	.Lstatic.38,@object
	.p2align	1, 0x0
.Lstatic.38:
	.asciz	" \000\020\000\000\000\b\000\030\000(\0008\000`\000P\000@\0000\000!\000\021\000\001\000\t\000\031\000)\0009\000H\000X\000h\000x\000\300\001\220\000\200\000p\000a\000Q\000A\0001\000\"\000\022\000\002\000\n\000\032\000*\000:\000I\000Y\000i\000y\000\210\000\230\000\221\000\201\000q\000b\000R\000B\0002\000#\000\023\000\003\000\013\000\033\000+\000;\000J\000Z\000j\000z\000\211\000\231\000\222\000\202\000r\000c\000S\000C\0003\000$\000\024\000\004\000\f\000\034\000,\000<\000K\000[\000k\000{\000\212\000\232\000\223\000\203\000s\000d\000T\000D\0004\000%\000\025\000-\000=\000L\000\\\000l\000|\000\213\000\233\000\224\000\204\000t\000e\000U\000m\000}\000\214\000\234\000\225"
	.size	.Lstatic.38, 220

	.type	.Lstatic.39,@object
	.p2align	1, 0x0
.Lstatic.39:
	.asciz	" \000\020\000\000\000\b\000\030\000(\0008\000`\000P\000@\0000\000!\000\021\000\001\000\t\000\031\000)\0009\000H\000X\000h\000x\000\300\001\220\000\200\000p\000a\000Q\000A\0001\000\"\000\022\000\002\000\n\000\032\000*\000:\000I\000Y\000i\000y\000\210\000\230\000\250\000\241\000\221\000\201\000q\000b\000R\000B\0002\000#\000\023\000\003\000\013\000\033\000+\000;\000J\000Z\000j\000z\000\211\000\231\000\251\000\242\000\222\000\202\000r\000c\000S\000C\0003\000$\000\024\000\004\000\f\000\034\000,\000<\000K\000[\000k\000{\000\212\000\232\000\252\000\243\000\223\000\203\000s\000d\000T\000D\0004\000%\000\025\000-\000=\000L\000\\\000l\000|\000\213\000\233\000\253\000\244\000\224\000\204\000t\000e\000U\000m\000}\000\214\000\234\000\254\000\245\000\225\000\255"
	.size	.Lstatic.39, 242

	.type	.Lstatic.40,@object
	.p2align	1, 0x0
.Lstatic.40:
	.asciz	" \000\020\000\000\000\b\000\030\000(\0008\000`\000P\000@\0000\000!\000\021\000\001\000\t\000\031\000)\0009\000H\000X\000h\000x\000\240\000\220\000\200\000p\000a\000Q\000A\0001\000\"\000\022\000\002\000\n\000\032\000*\000:\000I\000Y\000i\000y\000\210\000\230\000\250\000\300\001\241\000\221\000\201\000q\000b\000R\000B\0002\000#\000\023\000\003\000\013\000\033\000+\000;\000J\000Z\000j\000z\000\211\000\231\000\251\000\242\000\222\000\202\000r\000c\000S\000C\0003\000$\000\024\000\004\000\f\000\034\000,\000<\000K\000[\000k\000{\000\212\000\232\000\252\000\243\000\223\000\203\000s\000d\000T\000D\0004\000%\000\025\000\005\000\r\000\035\000-\000=\000L\000\\\000l\000|\000\213\000\233\000\253\000\244\000\224\000\204\000t\000e\000U\000E\0005\000&\000\026\000\006\000\036\000.\000>\000M\000]\000m\000}\000\214\000\234\000\254\000\245\000\225\000\205\000u\000f\000V\000F\0006\000N\000^\000n\000~\000\215\000\235\000\255\000\246\000\226\000\206\000v\000\216\000\236\000\256"
	.size	.Lstatic.40, 308

	.type	.Lstatic.41,@object
	.p2align	1, 0x0
.Lstatic.41:
	.asciz	" \000\020\000\000\000\b\000\030\000(\0008\000`\000P\000@\0000\000!\000\021\000\001\000\t\000\031\000)\0009\000H\000X\000h\000x\000\240\000\220\000\200\000p\000a\000Q\000A\0001\000\"\000\022\000\002\000\n\000\032\000*\000:\000I\000Y\000i\000y\000\210\000\230\000\250\000\270\000\260\000\241\000\221\000\201\000q\000b\000R\000B\0002\000#\000\023\000\003\000\013\000\033\000+\000;\000J\000Z\000j\000z\000\211\000\231\000\251\000\271\000\261\000\242\000\222\000\202\000r\000c\000S\000C\0003\000$\000\024\000,\000<\000K\000[\000k\000{\000\212\000\232\000\252\000\272\000\262\000\243\000\223\000\203\000s\000d\000T\000l\000|\000\213\000\233\000\253\000\273\000\263\000\244\000\224\000\254\000\274"
	.size	.Lstatic.41, 216

	.type	.Lstatic.42,@object
	.p2align	1, 0x0
.Lstatic.42:
	.asciz	" \000\020\000\000\000\b\000\030\000(\0008\000`\000P\000@\0000\000!\000\021\000\001\000\t\000\031\000)\0009\000H\000X\000h\000x\000\240\000\220\000\200\000p\000a\000Q\000A\0001\000\"\000\022\000\002\000\n\000\032\000*\000:\000I\000Y\000i\000y\000\210\000\230\000\250\000\270\000\260\000\241\000\221\000\201\000q\000b\000R\000B\0002\000#\000\023\000\003\000\013\000\033\000+\000;\000J\000Z\000j\000z\000\211\000\231\000\251\000\271\000\261\000\242\000\222\000\202\000r\000c\000S\000C\0003\000$\000\024\000\004\000\f\000\034\000,\000<\000K\000[\000k\000{\000\212\000\232\000\252\000\272\000\262\000\243\000\223\000\203\000s\000d\000T\000D\0004\000%\000\025\000-\000=\000L\000\\\000l\000|\000\213\000\233\000\253\000\273\000\263\000\244\000\224\000\204\000t\000e\000U\000m\000}\000\214\000\234\000\254\000\274\000\264\000\245\000\225\000\255\000\275"
	.size	.Lstatic.42, 264

	.type	.Lstatic.43,@object
	.p2align	1, 0x0
.Lstatic.43:
	.asciz	" \000\020\000\000\000\b\000\030\000(\0008\000`\000P\000@\0000\000!\000\021\000\001\000\t\000\031\000)\0009\000H\000X\000h\000x\000\240\000\220\000\200\000p\000a\000Q\000A\0001\000\"\000\022\000\002\000\n\000\032\000*\000:\000I\000Y\000i\000y\000\210\000\230\000\250\000\270\000\260\000\241\000\221\000\201\000q\000b\000R\000B\0002\000#\000\023\000\003\000\013\000\033\000+\000;\000J\000Z\000j\000z\000\211\000\231\000\251\000\271\000\261\000\242\000\222\000\202\000r\000c\000S\000C\0003\000$\000\024\000\004\000\f\000\034\000,\000<\000K\000[\000k\000{\000\212\000\232\000\252\000\272\000\262\000\243\000\223\000\203\000s\000d\000T\000D\0004\000%\000\025\000\005\000\r\000\035\000-\000=\000L\000\\\000l\000|\000\213\000\233\000\253\000\273\000\263\000\244\000\224\000\204\000t\000e\000U\000E\0005\000&\000\026\000\006\000\016\000\036\000.\000>\000M\000]\000m\000}\000\214\000\234\000\254\000\274\000\264\000\245\000\225\000\205\000u\000f\000V\000F\0006\000N\000^\000n\000~\000\215\000\235\000\255\000\275\000\265\000\246\000\226\000\206\000v\000\216\000\236\000\256\000\276\000\266"
	.size	.Lstatic.43, 336

	.type	.Lstatic.44,@object
.Lstatic.44:
	.ascii	"\000\000\000\000\000\000\000\000\000\000\000\000\000\000\000\000\000\001\002\003\004\005\006\007\b\t\n\013\f\r\016\017\000\002\004\006\b\n\f\016\020\022\024\026\030\032\034\036\000\003\006\005\f\017\n\t\030\033\036\035\024\027\022\021\000\004\b\f\020\024\030\034 $(,048<\000\005\n\017\024\021\036\033(-\"'<963\000\006\f\n\030\036\024\02206<:(.$\"\000\007\016\t\034\033\022\0258?61$#*-\000\b\020\030 (08@HPX`hpx\000\t\022\033$-6?HAZSle~w\000\n\024\036(\"<6PZDNxrlf\000\013\026\035,':1XSNEt\177bi\000\f\030\0240<($`lxtP\\HD\000\r\032\02749.#her\177\\QFK\000\016\034\02286$*p~lbHFTZ\000\017\036\021<3\"-xwfiDKZU\000\020 0@P`p\200\220\240\260\300\320\340\360\000\021\"3DUfw\210\231\252\273\314\335\356\377\000\022$6HZl~\220\202\264\246\330\312\374\356\000\023&5L_jy\230\213\276\255\324\307\362\341\000\024(<PDxl\240\264\210\234\360\344\330\314\000\025*?TA~k\250\275\202\227\374\351\326\303\000\026,:XNtb\260\246\234\212\350\376\304\322\000\027.9\\Kre\270\257\226\201\344\363\312\335\000\0300(`xPH\300\330\360\350\240\270\220\210\000\0312+d}VO\310\321\372\343\254\265\236\207\000\0324.hr\\F\320\312\344\376\270\242\214\226\000\0336-lwZA\330\303\356\365\264\257\202\231\000\0348$plHT\340\374\330\304\220\214\250\264\000\035:'tiNS\350\365\322\317\234\201\246\273\000\036<\"xfDZ\360\356\314\322\210\226\264\252\000\037>!|cB]\370\347\306\331\204\233\272\245\000 @`\200\240\300\340-\rmM\255\215\355\315\000!Bc\204\245\306\347%\004gF\241\200\343\302\000\"Df\210\252\314\356=\037y[\265\227\361\323\000#Fe\214\257\312\3515\026sP\271\232\377\334\000$Hl\220\264\330\374\r)Ea\235\271\325\361\000%Jo\224\261\336\373\005 Oj\221\264\333\376\000&Lj\230\276\324\362\035;Qw\205\243\311\357\000'Ni\234\273\322\365\0252[|\211\256\307\340\000(Px\240\210\360\330mE=\025\315\345\235\265\000)R{\244\215\366\337eL7\036\301\350\223\272\000*T~\250\202\374\326}W)\003\325\377\201\253\000+V}\254\207\372\321u^#\b\331\362\217\244\000,Xt\260\234\350\304Ma\0259\375\321\245\211\000-Zw\264\231\356\303Eh\0372\361\334\253\206\000.\\r\270\226\344\312]s\001/\345\313\271\227\000/^q\274\223\342\315Uz\013$\351\306\267\230\0000`P\300\360\240\220\255\235\315\375m]\r=\0001bS\304\365\246\227\245\224\307\366aP\0032\0002dV\310\372\254\236\275\217\331\353uG\021#\0003fU\314\377\252\231\265\206\323\340yJ\037,\0004h\\\320\344\270\214\215\271\345\321]i5\001\0005j_\324\341\276\213\205\260\357\332Qd;\016\0006lZ\330\356\264\202\235\253\361\307Es)\037\0007nY\334\353\262\205\225\242\373\314I~'\020\0008pH\340\330\220\250\355\325\235\245\r5}E\0009rK\344\335\226\257\345\334\227\256\0018sJ\000:tN\350\322\234\246\375\307\211\263\025/a[\000;vM\354\327\232\241\365\316\203\270\031\"oT\000<xD\360\314\210\264\315\361\265\211=\001Ey\000=zG\364\311\216\263\305\370\277\2021\fKv\000>|B\370\306\204\272\335\343\241\237%\033Yg\000?~A\374\303\202\275\325\352\253\224)\026Wh\000@\200\300-m\255\355Z\032\332\232w7\367\267\000A\202\303)h\253\352R\023\320\221{:\371\270\000B\204\306%g\241\343J\b\316\214o-\353\251\000C\206\305!b\247\344B\001\304\207c \345\246\000D\210\314=y\265\361z>\362\266G\003\317\213\000E\212\3179|\263\366r7\370\275K\016\301\204\000F\214\3125s\271\377j,\346\240_\031\323\225\000G\216\3111v\277\370b%\354\253S\024\335\232\000H\220\330\rE\235\325\032R\212\302\027_\207\317\000I\222\333\t@\233\322\022[\200\311\033R\211\300\000J\224\336\005O\221\333\n@\236\324\017E\233\321\000K\226\335\001J\227\334\002I\224\337\003H\225\336\000L\230\324\035Q\205\311:v\242\356'k\277\363\000M\232\327\031T\203\3162\177\250\345+f\261\374\000N\234\322\025[\211\307*d\266\370?q\243\355\000O\236\321\021^\217\300\"m\274\3633|\255\342\000P\240\360m=\315\235\332\212z*\267\347\027G\000Q\242\363i8\313\232\322\203p!\273\352\031H\000R\244\366e7\301\223\312\230n<\257\375\013Y\000S\246\365a2\307\224\302\221d7\243\360\005V\000T\250\374})\325\201\372\256R\006\207\323/{\000U\252\377y,\323\206\362\247X\r\213\336!t\000V\254\372u#\331\217\352\274F\020\237\3113e\000W\256\371q&\337\210\342\265L\033\223\304=j\000X\260\350M\025\375\245\232\302*r\327\217g?\000Y\262\353I\020\373\242\222\313 y\333\202i0\000Z\264\356E\037\361\253\212\320>d\317\225{!\000[\266\355A\032\367\254\202\3314o\303\230u.\000\\\270\344]\001\345\271\272\346\002^\347\273_\003\000]\272\347Y\004\343\276\262\357\bU\353\266Q\f\000^\274\342U\013\351\267\252\364\026H\377\241C\035\000_\276\341Q\016\357\260\242\375\034C\363\254M\022\000`\300\240\255\315m\rw\027\267\327\332\272\032z\000a\302\243\251\310k\n\177\036\275\334\326\267\024u\000b\304\246\245\307a\003g\005\243\301\302\240\006d\000c\306\245\241\302g\004o\f\251\312\316\255\bk\000d\310\254\275\331u\021W3\237\373\352\216\"F\000e\312\257\271\334s\026_:\225\360\346\203,I\000f\314\252\265\323y\037G!\213\355\362\224>X\000g\316\251\261\326\177\030O(\201\346\376\2310W\000h\320\270\215\345]57_\347\217\272\322j\002\000i\322\273\211\340[2?V\355\204\266\337d\r\000j\324\276\205\357Q;'M\363\231\242\310v\034\000k\326\275\201\352W</D\371\222\256\305x\023\000l\330\264\235\361E)\027{\317\243\212\346R>\000m\332\267\231\364C.\037r\305\250\206\353\\1\000n\334\262\225\373I'\007i\333\265\222\374N \000o\336\261\221\376O \017`\321\276\236\361@/\000p\340\220\355\235\r}\367\207\027g\032j\372\212\000q\342\223\351\230\013z\377\216\035l\026g\364\205\000r\344\226\345\227\001s\347\225\003q\002p\346\224\000s\346\225\341\222\007t\357\234\tz\016}\350\233\000t\350\234\375\211\025a\327\243?K*^\302\266\000u\352\237\371\214\023f\337\2525@&S\314\271\000v\354\232\365\203\031o\307\261+]2D\336\250\000w\356\231\361\206\037h\317\270!V>I\320\247\000x\360\210\315\265=E\267\317G?z\002\212\362\000y\362\213\311\260;B\277\306M4v\017\204\375\000z\364\216\305\2771K\247\335S)b\030\226\354\000{\366\215\301\2727L\257\324Y\"n\025\230\343\000|\370\204\335\241%Y\227\353o\023J6\262\316\000}\372\207\331\244#^\237\342e\030F;\274\301\000~\374\202\325\253)W\207\371{\005R,\256\320\000\177\376\201\321\256/P\217\360q\016^!\240\337\000\200-\255Z\332w\367\2644\231\031\356n\303C\000\201/\256^\337q\360\274=\223\022\342c\315L\000\202)\253R\320{\371\244&\215\017\366t\337]\000\203+\250V\325}\376\254/\207\004\372y\321R\000\204%\241J\316o\353\224\020\2615\336Z\373\177\000\205'\242N\313i\354\234\031\273>\322W\365p\000\206!\247B\304c\345\204\002\245#\306@\347a\000\207#\244F\301e\342\214\013\257(\312M\351n\000\210=\265z\362G\317\364|\311A\216\006\263;\000\211?\266~\367A\310\374u\303J\202\013\2754\000\2129\263r\370K\301\344n\335W\226\034\257%\000\213;\260v\375M\306\354g\327\\\232\021\241*\000\2145\271j\346_\323\324X\341m\2762\213\007\000\2157\272n\343Y\324\334Q\353f\262?\205\b\000\2161\277b\354S\335\304J\365{\246(\227\031\000\2173\274f\351U\332\314C\377p\252%\231\026\000\220\r\235\032\212\027\2074\2449\251.\276#\263\000\221\017\236\036\217\021\200<\2553\242\"\263-\274\000\222\t\233\022\200\033\211$\266-\2776\244?\255\000\223\013\230\026\205\035\216,\277'\264:\2511\242\000\224\005\221\n\236\017\233\024\200\021\205\036\212\033\217\000\225\007\222\016\233\t\234\034\211\033\216\022\207\025\200\000\226\001\227\002\224\003\225\004\222\005\223\006\220\007\221\000\227\003\224\006\221\005\222\f\233\017\230\n\235\t\236\000\230\035\205:\242'\277t\354i\361N\326S\313\000\231\037\206>\247!\270|\345c\372B\333]\304\000\232\031\2032\250+\261d\376}\347V\314O\325\000\233\033\2006\255-\266l\367w\354Z\301A\332\000\234\025\211*\266?\243T\310A\335~\342k\367\000\235\027\212.\2639\244\\\301K\326r\357e\370\000\236\021\217\"\2743\255D\332U\313f\370w\351\000\237\023\214&\2715\252L\323_\300j\365y\346\000\240m\315\332z\267\027\2319\364TC\343.\216\000\241o\316\336\177\261\020\2210\376_O\356 \201\000\242i\313\322p\273\031\211+\340B[\3712\220\000\243k\310\326u\275\036\201\"\352IW\364<\237\000\244e\301\312n\257\013\271\035\334xs\327\026\262\000\245g\302\316k\251\f\261\024\326s\177\332\030\275\000\246a\307\302d\243\005\251\017\310nk\315\n\254\000\247c\304\306a\245\002\241\006\302eg\300\004\243\000\250}\325\372R\207/\331q\244\f#\213^\366\000\251\177\326\376W\201(\321x\256\007/\206P\371\000\252y\323\362X\213!\311c\260\032;\221B\350\000\253{\320\366]\215&\301j\272\0217\234L\347\000\254u\331\352F\2373\371U\214 \023\277f\312\000\255w\332\356C\2314\361\\\206+\037\262h\305\000\256q\337\342L\223=\351G\2306\013\245z\324\000\257s\334\346I\225:\341N\222=\007\250t\333\000\260M\375\232*\327g\031\251T\344\2033\316~\000\261O\376\236/\321`\021\240^\357\217>\300q\000\262I\373\222 \333i\t\273@\362\233)\322`\000\263K\370\226%\335n\001\262J\371\227$\334o\000\264E\361\212>\317{9\215|\310\263\007\366B\000\265G\362\216;\311|1\204v\303\277\n\370M\000\266A\367\2024\303u)\237h\336\253\035\352\\\000\267C\364\2061\305r!\226b\325\247\020\344S\000\270]\345\272\002\347_Y\341\004\274\343[\276\006\000\271_\346\276\007\341XQ\350\016\267\357V\260\t\000\272Y\343\262\b\353QI\363\020\252\373A\242\030\000\273[\340\266\r\355VA\372\032\241\367L\254\027\000\274U\351\252\026\377Cy\305,\220\323o\206:\000\275W\352\256\023\371Dq\314&\233\337b\2105\000\276Q\357\242\034\363Mi\3278\206\313u\232$\000\277S\354\246\031\365Ja\3362\215\307x\224+\000\300\255mw\267\332\032\356.C\203\231Y4\364\000\301\257ns\262\334\035\346'I\210\225T:\373\000\302\251k\177\275\326\024\376<W\225\201C(\352\000\303\253h{\270\320\023\3665]\236\215N&\345\000\304\245ag\243\302\006\316\nk\257\251m\f\310\000\305\247bc\246\304\001\306\003a\244\245`\002\307\000\306\241go\251\316\b\336\030\177\271\261w\020\326\000\307\243dk\254\310\017\326\021u\262\275z\036\331\000\310\275uW\237\352\"\256f\023\333\3711D\214\000\311\277vS\232\354%\246o\031\320\365<J\203\000\312\271s_\225\346,\276t\007\315\341+X\222\000\313\273p[\220\340+\266}\r\306\355&V\235\000\314\265yG\213\362>\216B;\367\311\005|\260\000\315\267zC\216\3649\206K1\374\305\br\277\000\316\261\177O\201\3760\236P/\341\321\037`\256\000\317\263|K\204\3707\226Y%\352\335\022n\241\000\320\215]7\347\272jn\276\3433Y\211\324\004\000\321\217^3\342\274mf\267\3518U\204\332\013\000\322\211[?\355\266d~\254\367%A\223\310\032\000\323\213X;\350\260cv\245\375.M\236\306\025\000\324\205Q'\363\242vN\232\313\037i\275\3548\000\325\207R#\366\244qF\223\301\024e\260\3427\000\326\201W/\371\256x^\210\337\tq\247\360&\000\327\203T+\374\250\177V\201\325\002}\252\376)\000\330\235E\027\317\212R.\366\263k9\341\244|\000\331\237F\023\312\214U&\377\271`5\354\252s\000\332\231C\037\305\206\\>\344\247}!\373\270b\000\333\233@\033\300\200[6\355\255v-\366\266m\000\334\225I\007\333\222N\016\322\233G\t\325\234@\000\335\227J\003\336\224I\006\333\221L\005\330\222O\000\336\221O\017\321\236@\036\300\217Q\021\317\200^\000\337\223L\013\324\230G\026\311\205Z\035\302\216Q\000\340\355\r\367\027\032\372\303#.\3164\324\3319\000\341\357\016\363\022\034\375\313*$\3058\331\3276\000\342\351\013\377\035\026\364\3231:\330,\316\305'\000\343\353\b\373\030\020\363\33380\323 \303\313(\000\344\345\001\347\003\002\346\343\007\006\342\004\340\341\005\000\345\347\002\343\006\004\341\353\016\f\351\b\355\357\n\000\346\341\007\357\t\016\350\363\025\022\364\034\372\375\033\000\347\343\004\353\f\b\357\373\034\030\377\020\367\363\024\000\350\375\025\327?*\302\203k~\226T\274\251A\000\351\377\026\323:,\305\213bt\235X\261\247N\000\352\371\023\3375&\314\223yj\200L\246\265_\000\353\373\020\3330 \313\233p`\213@\253\273P\000\354\365\031\307+2\336\243OV\272d\210\221}\000\355\367\032\303.4\331\253F\\\261h\205\237r\000\356\361\037\317!>\320\263]B\254|\222\215c\000\357\363\034\313$8\327\273TH\247p\237\203l\000\360\315=\267Gz\212C\263\216~\364\0049\311\000\361\317>\263B|\215K\272\204u\370\t7\306\000\362\311;\277Mv\204S\241\232h\354\036%\327\000\363\3138\273Hp\203[\250\220c\340\023+\330\000\364\3051\247Sb\226c\227\246R\3040\001\365\000\365\3072\243Vd\221k\236\254Y\310=\017\372\000\366\3017\257Yn\230s\205\262D\334*\035\353\000\367\3034\253\\h\237{\214\270O\320'\023\344\000\370\335%\227oJ\262\003\373\336&\224lI\261\000\371\337&\223jL\265\013\362\324-\230aG\276\000\372\331#\237eF\274\023\351\3120\214vU\257\000\373\333 \233`@\273\033\340\300;\200{[\240\000\374\325)\207{R\256#\337\366\n\244Xq\215\000\375\327*\203~T\251+\326\374\001\250U\177\202\000\376\321/\217q^\2403\315\342\034\274Bm\223\000\377\323,\213tX\247;\304\350\027\260Oc\234"
	.size	.Lstatic.44, 4096

	.type	.Lstatic.45,@object
.Lstatic.45:
	.ascii	"\000\000\000\000\000\000\000\000\000\000\000\000\000\000\000\000\000\020 0@P`p\200\220\240\260\300\320\340\360\000 @`\200\240\300\340-\rmM\255\215\355\315\0000`P\300\360\240\220\255\235\315\375m]\r=\000@\200\300-m\255\355Z\032\332\232w7\367\267\000P\240\360m=\315\235\332\212z*\267\347\027G\000`\300\240\255\315m\rw\027\267\327\332\272\032z\000p\340\220\355\235\r}\367\207\027g\032j\372\212\000\200-\255Z\332w\367\2644\231\031\356n\303C\000\220\r\235\032\212\027\2074\2449\251.\276#\263\000\240m\315\332z\267\027\2319\364TC\343.\216\000\260M\375\232*\327g\031\251T\344\2033\316~\000\300\255mw\267\332\032\356.C\203\231Y4\364\000\320\215]7\347\272jn\276\3433Y\211\324\004\000\340\355\r\367\027\032\372\303#.\3164\324\3319\000\360\315=\267Gz\212C\263\216~\364\0049\311\000-Zw\264\231\356\303Eh\0372\361\334\253\206\000=zG\364\311\216\263\305\370\277\2021\fKv\000\r\032\02749.#her\177\\QFK\000\035:'tiNS\350\365\322\317\234\201\246\273\000m\332\267\231\364C.\037r\305\250\206\353\\1\000}\372\207\331\244#^\237\342e\030F;\274\301\000M\232\327\031T\203\3162\177\250\345+f\261\374\000]\272\347Y\004\343\276\262\357\bU\353\266Q\f\000\255w\332\356C\2314\361\\\206+\037\262h\305\000\275W\352\256\023\371Dq\314&\233\337b\2105\000\2157\272n\343Y\324\334Q\353f\262?\205\b\000\235\027\212.\2639\244\\\301K\326r\357e\370\000\355\367\032\303.4\331\253F\\\261h\205\237r\000\375\327*\203~T\251+\326\374\001\250U\177\202\000\315\267zC\216\3649\206K1\374\305\br\277\000\335\227J\003\336\224I\006\333\221L\005\330\222O\000Z\264\356E\037\361\253\212\320>d\317\225{!\000J\224\336\005O\221\333\n@\236\324\017E\233\321\000z\364\216\305\2771K\247\335S)b\030\226\354\000j\324\276\205\357Q;'M\363\231\242\310v\034\000\0324.hr\\F\320\312\344\376\270\242\214\226\000\n\024\036(\"<6PZDNxrlf\000:tN\350\322\234\246\375\307\211\263\025/a[\000*T~\250\202\374\326}W)\003\325\377\201\253\000\332\231C\037\305\206\\>\344\247}!\373\270b\000\312\271s_\225\346,\276t\007\315\341+X\222\000\372\331#\237eF\274\023\351\3120\214vU\257\000\352\371\023\3375&\314\223yj\200L\246\265_\000\232\031\2032\250+\261d\376}\347V\314O\325\000\2129\263r\370K\301\344n\335W\226\034\257%\000\272Y\343\262\b\353QI\363\020\252\373A\242\030\000\252y\323\362X\213!\311c\260\032;\221B\350\000w\356\231\361\206\037h\317\270!V>I\320\247\000g\316\251\261\326\177\030O(\201\346\376\2310W\000W\256\371q&\337\210\342\265L\033\223\304=j\000G\216\3111v\277\370b%\354\253S\024\335\232\0007nY\334\353\262\205\225\242\373\314I~'\020\000'Ni\234\273\322\365\0252[|\211\256\307\340\000\027.9\\Kre\270\257\226\201\344\363\312\335\000\007\016\t\034\033\022\0258?61$#*-\000\367\3034\253\\h\237{\214\270O\320'\023\344\000\347\343\004\353\f\b\357\373\034\030\377\020\367\363\024\000\327\203T+\374\250\177V\201\325\002}\252\376)\000\307\243dk\254\310\017\326\021u\262\275z\036\331\000\267C\364\2061\305r!\226b\325\247\020\344S\000\247c\304\306a\245\002\241\006\302eg\300\004\243\000\227\003\224\006\221\005\222\f\233\017\230\n\235\t\236\000\207#\244F\301e\342\214\013\257(\312M\351n\000\264E\361\212>\317{9\215|\310\263\007\366B\000\244e\301\312n\257\013\271\035\334xs\327\026\262\000\224\005\221\n\236\017\233\024\200\021\205\036\212\033\217\000\204%\241J\316o\353\224\020\2615\336Z\373\177\000\364\3051\247Sb\226c\227\246R\3040\001\365\000\344\345\001\347\003\002\346\343\007\006\342\004\340\341\005\000\324\205Q'\363\242vN\232\313\037i\275\3548\000\304\245ag\243\302\006\316\nk\257\251m\f\310\0004h\\\320\344\270\214\215\271\345\321]i5\001\000$Hl\220\264\330\374\r)Ea\235\271\325\361\000\024(<PDxl\240\264\210\234\360\344\330\314\000\004\b\f\020\024\030\034 $(,048<\000t\350\234\375\211\025a\327\243?K*^\302\266\000d\310\254\275\331u\021W3\237\373\352\216\"F\000T\250\374})\325\201\372\256R\006\207\323/{\000D\210\314=y\265\361z>\362\266G\003\317\213\000\231\037\206>\247!\270|\345c\372B\333]\304\000\211?\266~\367A\310\374u\303J\202\013\2754\000\271_\346\276\007\341XQ\350\016\267\357V\260\t\000\251\177\326\376W\201(\321x\256\007/\206P\371\000\331\237F\023\312\214U&\377\271`5\354\252s\000\311\277vS\232\354%\246o\031\320\365<J\203\000\371\337&\223jL\265\013\362\324-\230aG\276\000\351\377\026\323:,\305\213bt\235X\261\247N\000\0312+d}VO\310\321\372\343\254\265\236\207\000\t\022\033$-6?HAZSle~w\0009rK\344\335\226\257\345\334\227\256\0018sJ\000)R{\244\215\366\337eL7\036\301\350\223\272\000Y\262\353I\020\373\242\222\313 y\333\202i0\000I\222\333\t@\233\322\022[\200\311\033R\211\300\000y\362\213\311\260;B\277\306M4v\017\204\375\000i\322\273\211\340[2?V\355\204\266\337d\r\000\356\361\037\317!>\320\263]B\254|\222\215c\000\376\321/\217q^\2403\315\342\034\274Bm\223\000\316\261\177O\201\3760\236P/\341\321\037`\256\000\336\221O\017\321\236@\036\300\217Q\021\317\200^\000\256q\337\342L\223=\351G\2306\013\245z\324\000\276Q\357\242\034\363Mi\3278\206\313u\232$\000\2161\277b\354S\335\304J\365{\246(\227\031\000\236\021\217\"\2743\255D\332U\313f\370w\351\000n\334\262\225\373I'\007i\333\265\222\374N \000~\374\202\325\253)W\207\371{\005R,\256\320\000N\234\322\025[\211\307*d\266\370?q\243\355\000^\274\342U\013\351\267\252\364\026H\377\241C\035\000.\\r\270\226\344\312]s\001/\345\313\271\227\000>|B\370\306\204\272\335\343\241\237%\033Yg\000\016\034\02286$*p~lbHFTZ\000\036<\"xfDZ\360\356\314\322\210\226\264\252\000\303\253h{\270\320\023\3665]\236\215N&\345\000\323\213X;\350\260cv\245\375.M\236\306\025\000\343\353\b\373\030\020\363\33380\323 \303\313(\000\363\3138\273Hp\203[\250\220c\340\023+\330\000\203+\250V\325}\376\254/\207\004\372y\321R\000\223\013\230\026\205\035\216,\277'\264:\2511\242\000\243k\310\326u\275\036\201\"\352IW\364<\237\000\263K\370\226%\335n\001\262J\371\227$\334o\000C\206\305!b\247\344B\001\304\207c \345\246\000S\246\365a2\307\224\302\221d7\243\360\005V\000c\306\245\241\302g\004o\f\251\312\316\255\bk\000s\346\225\341\222\007t\357\234\tz\016}\350\233\000\003\006\005\f\017\n\t\030\033\036\035\024\027\022\021\000\023&5L_jy\230\213\276\255\324\307\362\341\000#Fe\214\257\312\3515\026sP\271\232\377\334\0003fU\314\377\252\231\265\206\323\340yJ\037,\000E\212\3179|\263\366r7\370\275K\016\301\204\000U\252\377y,\323\206\362\247X\r\213\336!t\000e\312\257\271\334s\026_:\225\360\346\203,I\000u\352\237\371\214\023f\337\2525@&S\314\271\000\005\n\017\024\021\036\033(-\"'<963\000\025*?TA~k\250\275\202\227\374\351\326\303\000%Jo\224\261\336\373\005 Oj\221\264\333\376\0005j_\324\341\276\213\205\260\357\332Qd;\016\000\305\247bc\246\304\001\306\003a\244\245`\002\307\000\325\207R#\366\244qF\223\301\024e\260\3427\000\345\347\002\343\006\004\341\353\016\f\351\b\355\357\n\000\365\3072\243Vd\221k\236\254Y\310=\017\372\000\205'\242N\313i\354\234\031\273>\322W\365p\000\225\007\222\016\233\t\234\034\211\033\216\022\207\025\200\000\245g\302\316k\251\f\261\024\326s\177\332\030\275\000\265G\362\216;\311|1\204v\303\277\n\370M\000h\320\270\215\345]57_\347\217\272\322j\002\000x\360\210\315\265=E\267\317G?z\002\212\362\000H\220\330\rE\235\325\032R\212\302\027_\207\317\000X\260\350M\025\375\245\232\302*r\327\217g?\000(Px\240\210\360\330mE=\025\315\345\235\265\0008pH\340\330\220\250\355\325\235\245\r5}E\000\b\020\030 (08@HPX`hpx\000\0300(`xPH\300\330\360\350\240\270\220\210\000\350\375\025\327?*\302\203k~\226T\274\251A\000\370\335%\227oJ\262\003\373\336&\224lI\261\000\310\275uW\237\352\"\256f\023\333\3711D\214\000\330\235E\027\317\212R.\366\263k9\341\244|\000\250}\325\372R\207/\331q\244\f#\213^\366\000\270]\345\272\002\347_Y\341\004\274\343[\276\006\000\210=\265z\362G\317\364|\311A\216\006\263;\000\230\035\205:\242'\277t\354i\361N\326S\313\000\037>!|cB]\370\347\306\331\204\233\272\245\000\017\036\021<3\"-xwfiDKZU\000?~A\374\303\202\275\325\352\253\224)\026Wh\000/^q\274\223\342\315Uz\013$\351\306\267\230\000_\276\341Q\016\357\260\242\375\034C\363\254M\022\000O\236\321\021^\217\300\"m\274\3633|\255\342\000\177\376\201\321\256/P\217\360q\016^!\240\337\000o\336\261\221\376O \017`\321\276\236\361@/\000\237\023\214&\2715\252L\323_\300j\365y\346\000\2173\274f\351U\332\314C\377p\252%\231\026\000\277S\354\246\031\365Ja\3362\215\307x\224+\000\257s\334\346I\225:\341N\222=\007\250t\333\000\337\223L\013\324\230G\026\311\205Z\035\302\216Q\000\317\263|K\204\3707\226Y%\352\335\022n\241\000\377\323,\213tX\247;\304\350\027\260Oc\234\000\357\363\034\313$8\327\273TH\247p\237\203l\0002dV\310\372\254\236\275\217\331\353uG\021#\000\"Df\210\252\314\356=\037y[\265\227\361\323\000\022$6HZl~\220\202\264\246\330\312\374\356\000\002\004\006\b\n\f\016\020\022\024\026\030\032\034\036\000r\344\226\345\227\001s\347\225\003q\002p\346\224\000b\304\246\245\307a\003g\005\243\301\302\240\006d\000R\244\366e7\301\223\312\230n<\257\375\013Y\000B\204\306%g\241\343J\b\316\214o-\353\251\000\262I\373\222 \333i\t\273@\362\233)\322`\000\242i\313\322p\273\031\211+\340B[\3712\220\000\222\t\233\022\200\033\211$\266-\2776\244?\255\000\202)\253R\320{\371\244&\215\017\366t\337]\000\362\311;\277Mv\204S\241\232h\354\036%\327\000\342\351\013\377\035\026\364\3231:\330,\316\305'\000\322\211[?\355\266d~\254\367%A\223\310\032\000\302\251k\177\275\326\024\376<W\225\201C(\352\000\361\317>\263B|\215K\272\204u\370\t7\306\000\341\357\016\363\022\034\375\313*$\3058\331\3276\000\321\217^3\342\274mf\267\3518U\204\332\013\000\301\257ns\262\334\035\346'I\210\225T:\373\000\261O\376\236/\321`\021\240^\357\217>\300q\000\241o\316\336\177\261\020\2210\376_O\356 \201\000\221\017\236\036\217\021\200<\2553\242\"\263-\274\000\201/\256^\337q\360\274=\223\022\342c\315L\000q\342\223\351\230\013z\377\216\035l\026g\364\205\000a\302\243\251\310k\n\177\036\275\334\326\267\024u\000Q\242\363i8\313\232\322\203p!\273\352\031H\000A\202\303)h\253\352R\023\320\221{:\371\270\0001bS\304\365\246\227\245\224\307\366aP\0032\000!Bc\204\245\306\347%\004gF\241\200\343\302\000\021\"3DUfw\210\231\252\273\314\335\356\377\000\001\002\003\004\005\006\007\b\t\n\013\f\r\016\017\000\334\225I\007\333\222N\016\322\233G\t\325\234@\000\314\265yG\213\362>\216B;\367\311\005|\260\000\374\325)\207{R\256#\337\366\n\244Xq\215\000\354\365\031\307+2\336\243OV\272d\210\221}\000\234\025\211*\266?\243T\310A\335~\342k\367\000\2145\271j\346_\323\324X\341m\2762\213\007\000\274U\351\252\026\377Cy\305,\220\323o\206:\000\254u\331\352F\2373\371U\214 \023\277f\312\000\\\270\344]\001\345\271\272\346\002^\347\273_\003\000L\230\324\035Q\205\311:v\242\356'k\277\363\000|\370\204\335\241%Y\227\353o\023J6\262\316\000l\330\264\235\361E)\027{\317\243\212\346R>\000\0348$plHT\340\374\330\304\220\214\250\264\000\f\030\0240<($`lxtP\\HD\000<xD\360\314\210\264\315\361\265\211=\001Ey\000,Xt\260\234\350\304Ma\0259\375\321\245\211\000\253{\320\366]\215&\301j\272\0217\234L\347\000\273[\340\266\r\355VA\372\032\241\367L\254\027\000\213;\260v\375M\306\354g\327\\\232\021\241*\000\233\033\2006\255-\266l\367w\354Z\301A\332\000\353\373\020\3330 \313\233p`\213@\253\273P\000\373\333 \233`@\273\033\340\300;\200{[\240\000\313\273p[\220\340+\266}\r\306\355&V\235\000\333\233@\033\300\200[6\355\255v-\366\266m\000+V}\254\207\372\321u^#\b\331\362\217\244\000;vM\354\327\232\241\365\316\203\270\031\"oT\000\013\026\035,':1XSNEt\177bi\000\0336-lwZA\330\303\356\365\264\257\202\231\000k\326\275\201\352W</D\371\222\256\305x\023\000{\366\215\301\2727L\257\324Y\"n\025\230\343\000K\226\335\001J\227\334\002I\224\337\003H\225\336\000[\266\355A\032\367\254\202\3314o\303\230u.\000\206!\247B\304c\345\204\002\245#\306@\347a\000\226\001\227\002\224\003\225\004\222\005\223\006\220\007\221\000\246a\307\302d\243\005\251\017\310nk\315\n\254\000\266A\367\2024\303u)\237h\336\253\035\352\\\000\306\241go\251\316\b\336\030\177\271\261w\020\326\000\326\201W/\371\256x^\210\337\tq\247\360&\000\346\341\007\357\t\016\350\363\025\022\364\034\372\375\033\000\366\3017\257Yn\230s\205\262D\334*\035\353\000\006\f\n\030\036\024\02206<:(.$\"\000\026,:XNtb\260\246\234\212\350\376\304\322\000&Lj\230\276\324\362\035;Qw\205\243\311\357\0006lZ\330\356\264\202\235\253\361\307Es)\037\000F\214\3125s\271\377j,\346\240_\031\323\225\000V\254\372u#\331\217\352\274F\020\237\3113e\000f\314\252\265\323y\037G!\213\355\362\224>X\000v\354\232\365\203\031o\307\261+]2D\336\250"
	.size	.Lstatic.45, 4096

	.type	.Lstatic.46,@object
.Lstatic.46:
	.asciz	"\000\000\000\000\000\000\000\000\000\000\000\000\000\000\000\000\000\000\000\000\000\000\000\000\000\000\000\000\000\000\000\000\000\000\000\000\000\000\000\000\000\000\000\000\000\000\000\000\000\000\000\000\000\000\000\000\000\000\000\000\000\000\000\000\000\000\000\000\000\000\000\000\000\000\000\000\000\000\000\000\002\000\000\000\000\000\000\000\000\000\000\000\000\000\000\000\000\000\000\000\000\000\000\000\000\000\000\000\000\000\000\000\000\000\000\000\000\000\000\000\000\000\000\000\000\000\000\000\000\000\000\000\000\000\000\000\000\000\000\000\000\000\000\000\000\000\000\000\000\000\000\000\000\000\000\000\000\000\000\000\006\b\000\000\000\000\000\000\000\000\000\000\000\000\000\000\000\000\000\000\000\000\000\000\000\000\000\000\000\000\000\000\000\000\000\000\000\000\000\000\000\000\000\000\000\000\000\000\000\000\000\000\000\000\000\000\000\000\000\000\000\000\000\000\000\000\000\000\000\000\000\000\000\000\000\000\000\000\000\000\0168@\000\000\000\000\000\000\000\000\000\000\000\000\000\000\000\000\000\000\000\000\000\000\000\000\000\000\000\000\000\000\000\000\000\000\000\000\000\000\000\000\000\000\000\000\000\000\000\000\000\000\000\000\000\000\000\000\000\000\000\000\000\000\000\000\000\000\000\000\000\000\000\000\000\000\000\000\000\036\330\267\264\000\000\000\000\000\000\000\000\000\000\000\000\000\000\000\000\000\000\000\000\000\000\000\000\000\000\000\000\000\000\000\000\000\000\000\000\000\000\000\000\000\000\000\000\000\000\000\000\000\000\000\000\000\000\000\000\000\000\000\000\000\000\000\000\000\000\000\000\000\000\000\000\000\000\000\000>o\0170\344\000\000\000\000\000\000\000\000\000\000\000\000\000\000\000\000\000\000\000\000\000\000\000\000\000\000\000\000\000\000\000\000\000\000\000\000\000\000\000\000\000\000\000\000\000\000\000\000\000\000\000\000\000\000\000\000\000\000\000\000\000\000\000\000\000\000\000\000\000\000\000\000\000\000\000~iw\207\025\333\000\000\000\000\000\000\000\000\000\000\000\000\000\000\000\000\000\000\000\000\000\000\000\000\000\000\000\000\000\000\000\000\000\000\000\000\000\000\000\000\000\000\000\000\000\000\000\000\000\000\000\000\000\000\000\000\000\000\000\000\000\000\000\000\000\000\000\000\000\000\000\000\000\000\376\\\360\206\220D\027\000\000\000\000\000\000\000\000\000\000\000\000\000\000\000\000\000\000\000\000\000\000\000\000\000\000\000\000\000\000\000\000\000\000\000\000\000\000\000\000\000\000\000\000\000\000\000\000\000\000\000\000\000\000\000\000\000\000\000\000\000\000\000\000\000\000\000\000\000\000\000\000\000\323\322\371\243\232*\321I\000\000\000\000\000\000\000\000\000\000\000\000\000\000\000\000\000\000\000\000\000\000\000\000\000\000\000\000\000\000\000\000\000\000\000\000\000\000\000\000\000\000\000\000\000\000\000\000\000\000\000\000\000\000\000\000\000\000\000\000\000\000\000\000\000\000\000\000\000\000\000\000\211\004u9\343\310\235+4\000\000\000\000\000\000\000\000\000\000\000\000\000\000\000\000\000\000\000\000\000\000\000\000\000\000\000\000\000\000\000\000\000\000\000\000\000\000\000\000\000\000\000\000\000\000\000\000\000\000\000\000\000\000\000\000\000\000\000\000\000\000\000\000\000\000\000\000\000\000\000=n\377t\370\337\246\271\030\034\000\000\000\000\000\000\000\000\000\000\000\000\000\000\000\000\000\000\000\000\000\000\000\000\000\000\000\000\000\000\000\000\000\000\000\000\000\000\000\000\000\000\000\000\000\000\000\000\000\000\000\000\000\000\000\000\000\000\000\000\000\000\000\000\000\000\000\000\000\000xa<\365'\250\302\f\315\212\257\000\000\000\000\000\000\000\000\000\000\000\000\000\000\000\000\000\000\000\000\000\000\000\000\000\000\000\000\000\000\000\000\000\000\000\000\000\000\000\000\000\000\000\000\000\000\000\000\000\000\000\000\000\000\000\000\000\000\000\000\000\000\000\000\000\000\000\000\000\362d\262a\325\216*=[\236\231)\000\000\000\000\000\000\000\000\000\000\000\000\000\000\000\000\000\000\000\000\000\000\000\000\000\000\000\000\000\000\000\000\000\000\000\000\000\000\000\000\000\000\000\000\000\000\000\000\000\000\000\000\000\000\000\000\000\000\000\000\000\000\000\000\000\000\000\000\313\002^\354\344\244\242Ig<\366\351?\000\000\000\000\000\000\000\000\000\000\000\000\000\000\000\000\000\000\000\000\000\000\000\000\000\000\000\000\000\000\000\000\000\000\000\000\000\000\000\000\000\000\000\000\000\000\000\000\000\000\000\000\000\000\000\000\000\000\000\000\000\000\000\000\000\000\000\271S\272\022-\212w\235\t_\374\300a\234\000\000\000\000\000\000\000\000\000\000\000\000\000\000\000\000\000\000\000\000\000\000\000\000\000\000\000\000\000\000\000\000\000\000\000\000\000\000\000\000\000\000\000\000\000\000\000\000\000\000\000\000\000\000\000\000\000\000\000\000\000\000\000\000\000\000]\337\213\237#\221\352\260\231X\311\224!Xt\000\000\000\000\000\000\000\000\000\000\000\000\000\000\000\000\000\000\000\000\000\000\000\000\000\000\000\000\000\000\000\000\000\000\000\000\000\000\000\000\000\000\000\000\000\000\000\000\000\000\000\000\000\000\000\000\000\000\000\000\000\000\000\000\000\270R\372m\311H\357\347\242\266B\032\"f\377X\000\000\000\000\000\000\000\000\000\000\000\000\000\000\000\000\000\000\000\000\000\000\000\000\000\000\000\000\000\000\000\000\000\000\000\000\000\000\000\000\000\000\000\000\000\000\000\000\000\000\000\000\000\000\000\000\000\000\000\000\000\000\000\000_\337\331\030\276y\017E\373\370<\342\341\036w!;\000\000\000\000\000\000\000\000\000\000\000\000\000\000\000\000\000\000\000\000\000\000\000\000\000\000\000\000\000\000\000\000\000\000\000\000\000\000\000\000\000\000\000\000\000\000\000\000\000\000\000\000\000\000\000\000\000\000\000\000\000\000\000\274Z0\341\376^\201m\325\361=BK\274'd\303S\000\000\000\000\000\000\000\000\000\000\000\000\000\000\000\000\000\000\000\000\000\000\000\000\000\000\000\000\000\000\000\000\000\000\000\000\000\000\000\000\000\000\000\000\000\000\000\000\000\000\000\000\000\000\000\000\000\000\000\000\000\000W\357'\314\227|M^$nO\304\334[\222\231B\367g\000\000\000\000\000\000\000\000\000\000\000\000\000\000\000\000\000\000\000\000\000\000\000\000\000\000\000\000\000\000\000\000\000\000\000\000\000\000\000\000\000\000\000\000\000\000\000\000\000\000\000\000\000\000\000\000\000\000\000\000\000\254\272\256\033RlO\375\221\231\240\274\002\250G\351\t\364\303\017\000\000\000\000\000\000\000\000\000\000\000\000\000\000\000\000\000\000\000\000\000\000\000\000\000\000\000\000\000\000\000\000\000\000\000\000\000\000\000\000\000\000\000\000\000\000\000\000\000\000\000\000\000\000\000\000\000\000\000\000wX\240bH\006'\rY96s\2143\276/\266\031\346\305m\000\000\000\000\000\000\000\000\000\000\000\000\000\000\000\000\000\000\000\000\000\000\000\000\000\000\000\000\000\000\000\000\000\000\000\000\000\000\000\000\000\000\000\000\000\000\000\000\000\000\000\000\000\000\000\000\000\000\000\354\274\003\321\331}\n&\230\001\204\033^G{\005\361_\311L\371K\000\000\000\000\000\000\000\000\000\000\000\000\000\000\000\000\000\000\000\000\000\000\000\000\000\000\000\000\000\000\000\000\000\000\000\000\000\000\000\000\000\000\000\000\000\000\000\000\000\000\000\000\000\000\000\000\000\000\367ma\374-Q\001\310\325\030\237+6v\024T\206\274\343\375cp\333\000\000\000\000\000\000\000\000\000\000\000\000\000\000\000\000\000\000\000\000\000\000\000\000\000\000\000\000\000\000\000\000\000\000\000\000\000\000\000\000\000\000\000\000\000\000\000\000\000\000\000\000\000\000\000\000\000\3012`\270\265\f|\376\254\005\025\233\337\373\305\233\025\260'm\315X\2764\000\000\000\000\000\000\000\000\000\000\000\000\000\000\000\000\000\000\000\000\000\000\000\000\000\000\000\000\000\000\000\000\000\000\000\000\000\000\000\000\000\000\000\000\000\000\000\000\000\000\000\000\000\000\000\000\255\273\312\\\215\322\366\276i\216\344D\017\016\361\217\305o\b\030\317[?I\357\000\000\000\000\000\000\000\000\000\000\000\000\000\000\000\000\000\000\000\000\000\000\000\000\000\000\000\000\000\000\000\000\000\000\000\000\000\000\000\000\000\000\000\000\000\000\000\000\000\000\000\000\000\000\000uX\377\b\265\211\3207\223\235\372\fErUT\003G\2216\275\300U\321D#\000\000\000\000\000\000\000\000\000\000\000\000\000\000\000\000\000\000\000\000\000\000\000\000\000\000\000\000\000\000\000\000\000\000\000\000\000\000\000\000\000\000\000\000\000\000\000\000\000\000\000\000\000\000\350\264\241\366\351\206Hl\322\366\364A7{\035\345/\315\217Ja\223\266`\202\267\327\000\000\000\000\000\000\000\000\000\000\000\000\000\000\000\000\000\000\000\000\000\000\000\000\000\000\000\000\000\000\000\000\000\000\000\000\000\000\000\000\000\000\000\000\000\000\000\000\000\000\000\000\000\377]\250\351\227x\210\215\325n\212\021y\371\"K5\252\227%\256g`Ga+\347\323\000\000\000\000\000\000\000\000\000\000\000\000\000\000\000\000\000\000\000\000\000\000\000\000\000\000\000\000\000\000\000\000\000\000\000\000\000\000\000\000\000\000\000\000\000\000\000\000\000\000\000\000\321\322k\244FA\204\231W\271\330Y\355\333IN\250\337\206\034a\316A\254\031\356\221\2733\000\000\000\000\000\000\000\000\000\000\000\000\000\000\000\000\000\000\000\000\000\000\000\000\000\000\000\000\000\000\000\000\000\000\000\000\000\000\000\000\000\000\000\000\000\000\000\000\000\000\000\215\fQ\001;\355\221Vz\020Ga\033\t\225\341\276E\007k\337i\305\271\336Q\247,\024\017\000\000\000\000\000\000\000\000\000\000\000\000\000\000\000\000\000\000\000\000\000\000\000\000\000\000\000\000\000\000\000\000\000\000\000\000\000\000\000\000\000\000\000\000\000\000\000\000\000\0005^\262\231\203\252\030U\275}\365\254x\007tX\324\t\2274\270F\377 \315\306?3\276\007\006\000\000\000\000\000\000\000\000\000\000\000\000\000\000\000\000\000\000\000\000\000\000\000\000\000\000\000\000\000\000\000\000\000\000\000\000\000\000\000\000\000\000\000\000\000\000\000\000\000h\201\243\3527_\220\256\371\002\221h\023g\312\323&\002x\321:=\025\354_k\307\344\202\237\270\343\000\000\000\000\000\000\000\000\000\000\000\000\000\000\000\000\000\000\000\000\000\000\000\000\000\000\000\000\000\000\000\000\000\000\000\000\000\000\000\000\000\000\000\000\000\000\000\000\322\323=$\030\225\b\030v\\\310dA\026\200\365a\340!\021$\266\317v\233\363v\203\017\342\026\025\334\000\000\000\000\000\000\000\000\000\000\000\000\000\000\000\000\000\000\000\000\000\000\000\000\000\000\000\000\000\000\000\000\000\000\000\000\000\000\000\000\000\000\000\000\000\000\000\213\004\263\275C\016Y\212\355\230>\232>kr\275\006\217_Zt\355g*_\313\352G\254\322\332\347\305\276\000\000\000\000\000\000\000\000\000\000\000\000\000\000\000\000\000\000\000\000\000\000\000\000\000\000\000\000\000\000\000\000\000\000\000\000\000\000\000\000\000\000\000\000\000\0009f!\340\314\275\213k=M\265~\374\217\354\212\211T\257`n\001\262/;\361\300\373\215\375YmPFt\000\000\000\000\000\000\000\000\000\000\000\000\000\000\000\000\000\000\000\000\000\000\000\000\000\000\000\000\000\000\000\000\000\000\000\000\000\000\000\000\000\000\000\000\000pQb\341\031;\270\257,sw_\211e!D\004\002\022\345\266P\373\334\263Txf\265\242\372\202\332\362\177\365\000\000\000\000\000\000\000\000\000\000\000\000\000\000\000\000\000\000\000\000\000\000\000\000\000\000\000\000\000\000\000\000\000\000\000\000\000\000\000\000\000\000\000\000\342\204\265u\f\305\337I\013\3259\003a\311<F\033\020\033\244\261\211\276\254\332\r/\2273\340y`\311\200\271\215O\000\000\000\000\000\000\000\000\000\000\000\000\000\000\000\000\000\000\000\000\000\000\000\000\000\000\000\000\000\000\000\000\000\000\000\000\000\000\000\000\000\000\000\353\265\245\361\246\251\334\200P\206\252\337z\327S\2677\323\213g\254)\313{\217\351J\355\250fZ\246\336\357\215e\036m\000\000\000\000\000\000\000\000\000\000\000\000\000\000\000\000\000\000\000\000\000\000\000\000\000\000\000\000\000\000\000\000\000\000\000\000\000\000\000\000\000\000\371U\200\331\377\267,\t8\277\256\031\305@|\2706\272\354\251\374\203S\201\no\216m$\204\030+\300B%\307j\234\344\000\000\000\000\000\000\000\000\000\000\000\000\000\000\000\000\000\000\000\000\000\000\000\000\000\000\000\000\000\000\000\000\000\000\000\000\000\000\000\000\000\335\352F\tt\320.\240\021\234\241(\366L\024c\305LW\2701\210\357\237\376*#h\301 X<\225\372\005G.\205\263\034\000\000\000\000\000\000\000\000\000\000\000\000\000\000\000\000\000\000\000\000\000\000\000\000\000\000\000\000\000\000\000\000\000\000\000\000\000\000\000\000\225\334\371D&QGO\364\340\017\205\204\320\323Z\245T\220\211\372\234xe\210\254\301\330c50\302\336\006\216\002+j{\025#\000\000\000\000\000\000\000\000\000\000\000\000\000\000\000\000\000\000\000\000\000\000\000\000\000\000\000\000\000\000\000\000\000\000\000\000\000\000\000\005\t\005\342\261\2262E\312\370e69\375\001\025y9o\326i\247\td_\257\b\362\205\365\002zi\367\231\026&\023\037\211\301M\000\000\000\000\000\000\000\000\000\000\000\000\000\000\000\000\000\000\000\000\000\000\000\000\000\000\000\000\000\000\000\000\000\000\000\000\000\000\b0`\333\177\250\242\002\304\323\t\265J\305T\030\2206W'\316x\311\001\321\003\240\232\233\242?`q(\276\315\330\260\330\022\312\031f\000\000\000\000\000\000\000\000\000\000\000\000\000\000\000\000\000\000\000\000\000\000\000\000\000\000\000\000\000\000\000\000\000\000\000\000\000\022\340\332\202\276\352\231\335\360\t\030\177^O\224\223\315g\261\202\277F\315y\313&\216q.\r\340L(\346Y'\310_\276\375sO!\005\000\000\000\000\000\000\000\000\000\000\000\000\000\000\000\000\000\000\000\000\000\000\000\000\000\000\000\000\000\000\000\000\000\000\000\000&\277\375\031C\023[\306\347\031\241\305\332\221I\3413G\217zB\213\251Y\367\276X\321\237V\211k\251\005\306u*\233T\004\n\226\374_\344\000\000\000\000\000\000\000\000\000\000\000\000\000\000\000\000\000\000\000\000\000\000\000\000\000\000\000\000\000\000\000\000\000\000\000N>J\353r>\215\262(b\220v\255\212H+\025M/\177\202\316!\335S\253\207\035\013=/3o\201#\272\350\240\262r\207q\310\305\035\303\000\000\000\000\000\000\000\000\000\000\000\000\000\000\000\000\000\000\000\000\000\000\000\000\000\000\000\000\000\000\000\000\000\000\236\355\327\017\335\375\0205\342\231\217\244Y\230\245B\263v\241\356\310M\374\230\017-/y^\016\357\242{\027\375rLR)\270D\025V\242\363\226T\000\000\000\000\000\000\000\000\000\000\000\000\000\000\000\000\000\000\000\000\000\000\000\000\000\000\000\000\000\000\000\000\000\023\341\375\\\325E\257\240\223\273W\260,R\360\272\212BdxX\203\315\252Z%\027v\223\020j\277W\355\274\315\347\356\205\356\026u `\337\254\204\365\000\000\000\000\000\000\000\000\000\000\000\000\000\000\000\000\000\000\000\000\000\000\000\000\000\000\000\000\000\000\000\000$\277\340\017\207\215X\206\245\335\252.\035\025\205\227@\201\026\266\330\r\254\360\227\305\362\3644vmVvs\350\265\275A\210=\033\300\336n\315\237\373\021\306\000\000\000\000\000\000\000\000\000\000\000\000\000\000\000\000\000\000\000\000\000\000\000\000\000\000\000\000\000\000\000J6\242[\247\332\324\267\234J\020\231O\347p\034\031\271\b\361\363LP\016\315\234Ar\373\361\016\216\t\020p\346$\337\336J\365{\226f\247+\245\376\246\001\000\000\000\000\000\000\000\000\000\000\000\000\000\000\000\000\000\000\000\000\000\000\000\000\000\000\000\000\000\000\226\335\024\026\214L\303<\026\277\373\205a\327\226H\fw\036\377\233\261)bQ\331\264\336:\002f\022u\302l\262\036\340\022Z\036\024\205\b}\275\332\375\216K\334\000\000\000\000\000\000\000\000\000\000\000\000\000\000\000\000\000\000\000\000\000\000\000\000\000\000\000\000\000\003\001\246 \275\2631\243L\216\336N\027\322?\224\360e*\322^\352\031\233\306\224\bu\032Qa\213J\361f0\274\315oe\3359\263~a\222\370\323L\263\262'\000\000\000\000\000\000\000\000\000\000\000\000\000\000\000\000\000\000\000\000\000\000\000\000\000\000\000\000\004\b\241%]\367_4RG\003\016\320\267[)k\357<\004:]\325\324p\234\223M|\027\373\201\214*\353/,\216VE\313p\034\0206\230qa/z\334N\365\000\000\000\000\000\000\000\000\000\000\000\000\000\000\000\000\000\000\000\000\000\000\000\000\000\000\000\n0\321\005\206\246LygL\336\034\204c\277\\\370\227\277A\002<\2046\234f\370|\315\2451\332A\241j\224\233+\301v\n&\346\270\326\261\"\225;\315J\322V\017\000\000\000\000\000\000\000\000\000\000\000\000\000\000\000\000\000\000\000\000\000\000\000\000\000\000\026\350\313\234\352EX*B,\2151\371\270\257YF\005\255D\335\004\016\355\316\260\204\356\204A\001\334\034~*x\255\251\362\002\233\376Yo\207|\217Z\021\023\256\311\353i\264\000\000\000\000\000\000\000\000\000\000\000\000\000\000\000\000\000\000\000\000\000\000\000\000\000.\2175\351k\313+\233\034\367C\177\365\211\r\244\317>u\311\226\026\356\220\350\035\313u\352\332\222\3446\204\310&\337$\237\226\353\327\300\346\252\257\035d\320\334\021\f\356\337\t\257\000\000\000\000\000\000\000\000\000\000\000\000\000\000\000\000\000\000\000\000\000\000\000\000^\336I\034\312|\301WN.\333\224l\361|\316\1779\347G\234. L\335\314b\237d\353\3131\375\341\323\\y\340\331)\323\226\363k\201\345\312\315\355\222E\277\364\003\315(\327\000\000\000\000\000\000\000\000\000\000\000\000\000\000\000\000\000\000\000\000\000\000\000\276Z\f\311Ue\323\200\351\001y\306\361H{\334\221&\024\361\220p\2027\037\204a\3777\221I\310\315\322\177\315\020\345\225\226\213\007\203\201\302\304\221\324\016\n\302^\334\023\300\313of\000\000\000\000\000\000\000\000\000\000\000\000\000\000\000\000\000\000\000\000\000\000S\347\352\241}\361\312\217F\337\224\314\253F\021!\354\037\326I\236\244\316oK\215\r%\246\305pO\b9\235\363\373\236#lk\031Z4\200]<\355\330\225\236\307\371n\241\245\260#\003\000\000\000\000\000\000\000\000\000\000\000\000\000\000\000\000\000\000\000\000\000\244\212h\0048N\326\353\321\030Z\342\247\273\326 \332\322\304\013\2752\327\240\301mY\002;\037\360\327CB&Q$:\265\231\3258 \325\034.B\n\342\304GQ\272\t\334\340^g\3664\000\000\000\000\000\000\000\000\000\000\000\000\000\000\000\000\000\000\000\000g\270\323.C\326\203ou\217m\r6\341\300\244u\333;\345#\364\022\347\210;\313\205\220\357\324,\004Y\376.U\356\206\251\307\324\270z\360b\313\322\277U\2511\313\334\3519d\3639\037\025\000\000\000\000\000\000\000\000\000\000\000\000\000\000\000\000\000\000\000\314\013/V|\340\246^\007\350k\004\252\260\037\243\021\274\202(\nW?3\332\033\006\223,\241Gr@\257\335\271j\372\276\305?\365\346\206p\271%\304l\217\275\311\274\312v'\322\2202\251]\362\000\000\000\000\000\000\000\000\000\000\000\000\000\000\000\000\000\000\267k\rS\331\372N`\r\244,!k\340e3\225\264\2261C\016\341E\302?W\244=)5\337\302N7\321\304\244|'\213\203\307Y\250\315\213\230\243\346\261\246f\336!dx\033\256\312\200um\000\000\000\000\000\000\000\000\000\000\000\000\000\000\000\000\000A\007Gy\347\205\347\222\003\216\221\034|\252\230d\245\370\315J\262\326\374Nt\342\2735\200\004Q\201\323\223\305N\310\027\301\023\3624\003\335$\254\275/\305\303\"\244\032\276\306s\331\200\f\305.\206\334$\000\000\000\000\000\000\000\000\000\000\000\000\000\000\000\000\2005Z\227=O\236X\206\340`\367\b\302\365\250\312n\035&\b\274\371\355\275l\303x<\317\"R\331$\201\304\001\311=\352}\255~\263\2510\f\276\321It\344M\0269\227J~\307P\244S\313h\234\000\000\000\000\000\000\000\000\000\000\000\000\000\000\000/\216\017!S\373\216xC\316\343\317^#\366\215c\214Qan]Y\317\226c\374\324\n\324\211\322\216\365\224\320\227f\003^l\322\236\020\3226\020\271\002y\361\325(uC\305$'d\032\200\3753%ES\000\000\000\000\000\000\000\000\000\000\000\000\000\000\\\336\274\272\353&,\313/\340\353q%\203\250REi\004Zm\305l\033\355\314\031\002\370\335{\025{F\336\231\204\272t\313\314\254kP!\303/J\375\237\356~\251QR\353V\r\333\213z\246\226\210\034z\335\000\000\000\000\000\000\000\000\000\000\000\000\000\272Rg`?\204\231l6@\275\323\3501\031\2544;\361\265\357\337\210\347\322`\350\334\031\263\247\312\271\231\213B\354\343\240\017\325]zD\261\236\305\352\264\370\210\325\177I$\232\364\223!Y8\237\225\373Y\255\344\334\000\000\000\000\000\000\000\000\000\000\000"
	.size	.Lstatic.46, 5520

	.type	.Lstatic.47,@object
.Lstatic.47:
	.ascii	"\001\001\001\001\001\001\001\001\001\001\001\001\001\001\001\001\001\001\001\001\001\001\001\001\001\001\001\001\001\001\001\001\001\001\001\001\001\001\001\001\001\001\001\001\001\001\001\001\001\001\001\001\001\001\001\001\001\001\001\001\001\001\001\001\001\001\001\001\001\001\001\001\001\001\001\001\001\001\001\001\001\001\001\001\001\001\001\001\001\001\001\001\001\001\001\001\001\001\001\001\001\001\001\001\001\001\001\001\001\001\001\001\001\001\001\001\001\001\001\001\001\001\001\001\001\001\001\001\001\001\001\001\001\001\001\001\001\001\001\001\001\001\001\001\001\001\001\001\001\001\001\001\001\001\001\001\001\001\001\001\001\001\001\001\001\001\001\001\001\001\001\001\001\001\001\001\001\001\001\001\001\001\001\001\001\001\001\001\001\001\001\001\001\001\001\001\001\001\001\001\001\001\001\001\001\001\001\001\001\001\001\001\001\001\001\001\001\001\001\001\001\001\001\001\001\001\001\001\001\001\001\001\001\001\001\001\001\001\001\001\001\001\001\001\001\001\001\001\001\001\001\001\001\001\001\001\001\002\004\b\020 @\200-Z\264E\2129r\344\345\347\343\353\373\333\233\0336l\330\235\027.\\\270]\272Y\262I\222\t\022$H\220\r\0324h\320\2157n\334\225\007\016\0348p\340\355\367\303\253{\366\301\257s\346\341\357\363\313\273[\266A\202)R\244e\312\271_\276Q\242i\322\211?~\374\325\207#F\2145j\324\205'N\234\025*T\250}\372\331\237\023&L\230\035:t\350\375\327\203+V\254u\352\371\337\223\013\026,X\260M\232\0312d\310\275W\256q\342\351\377\323\213;v\354\365\307\243k\326\201/^\274U\252y\362\311\277S\246a\302\251\177\376\321\2173f\314\265G\2161b\304\245g\316\261O\236\021\"D\210=z\364\305\247c\306\241o\336\221\017\036<x\360\315\267C\206!B\204%J\224\005\n\024(P\240m\332\231\037>|\370\335\227\003\006\f\0300`\300\255w\356\361\317\263K\226\001\001\004\020@-\264\212r\345\343\373\2336\330\027\\]YI\t$\220\032h\215n\225\0168\340\367\253\366\257\346\357\313[A)\244\312_Qi\211~\325#\214j\205N\025T}\331\023L\035t\375\203Vu\371\223\026XM\031d\275\256\342\377\213v\365\243\326/\274\252\362\277\246\302\177\3213\314G1\304g\261\236\"\210z\305c\241\336\017<\360\267\206B%\224\n(\240\332\037|\335\003\f0\300w\361\263\226\002\b \200ZE9\344\347\353\333\033l\235.\270\272\262\222\022H\r4\3207\334\007\034p\355\303{\301s\341\363\273\266\202Re\271\276\242\322?\374\207F5\324'\234*\250\372\237&\230:\350\327+\254\352\337\013,\260\2322\310Wq\351\323;\354\307k\201^Uy\311Sa\251\376\217f\265\216b\245\316O\021D=\364\247\306o\221\036x\315C!\204J\005\024Pm\231>\370\227\006\030`\255\356\317K\001\001\b@Z\212\344\343\3336\235\\\272I\022\2204\215\334\016p\367{\257\341\313\266)e_\242\211\374#5\205\234T\372\023\230t\327V\352\223,M2\275q\377;\365k/U\362S\302\3763\2651\245\261\021\210\364co\017x\267!%\005(m\037\370\003\030\300\356\263\001\b@Z\212\344\343\3336\235\\\272I\022\2204\215\334\016p\367{\257\341\313\266)e_\242\211\374#5\205\234T\372\023\230t\327V\352\223,M2\275q\377;\365k/U\362S\302\3763\2651\245\261\021\210\364co\017x\267!%\005(m\037\370\003\030\300\356\263\001\b@Z\212\344\343\3336\235\\\272I\022\2204\215\334\016p\367{\257\341\313\266)e_\242\211\374#5\205\234T\372\023\230t\327V\352\223,M2\275q\377;\365k/U\362S\302\3763\2651\245\261\021\210\364co\017x\267!%\005(m\037\370\003\030\300\356\263\001\001\020-\212\345\3736\027]I$\032\215\2258\367\366\346\313A\244_i~#jNT\331Lt\203u\223X\031\275\342\213\365\326\274\362\246\1773G\304\261\"zc\336<\267B\224(\332|\0030w\263\002 Z9\347\333l.\272\222H47\007p\303\301\341\273\202e\276\322\374F\324\234\250\237\230\350+\352\013\2602W\351;\307\201U\311a\376f\216\245OD\364\306\221xC\204\005P\231\370\006`\356K\004@\264r\343\233\330\\Y\t\220hn\016\340\253\257\357[)\312Q\211\325\214\205\025}\023\035\375V\371\026Md\256\377v\243/\252\277\302\321\3141g\236\210\305\241\017\360\206%\n\240\037\335\f\300\361\226\b\200E\344\353\033\235\270\262\022\r\320\334\034\355{s\363\266R\271\242?\2075'*\372&:\327\254\337,\232\310q\323\354k^yS\251\217\265b\316\021=\247o\036\315!J\024m>\227\030\255\317\001\001 \264\344\373l\\\262$4n\034\367\301\357\266\244\276\211\207j\234}&t+\371,\031W\377\354\326U\277\2513\216g\021z\306\017\315B\005\240>\003`\361\001 \264\344\373l\\\262$4n\034\367\301\357\266\244\276\211\207j\234}&t+\371,\031W\377\354\326U\277\2513\216g\021z\306\017\315B\005\240>\003`\361\001 \264\344\373l\\\262$4n\034\367\301\357\266\244\276\211\207j\234}&t+\371,\031W\377\354\326U\277\2513\216g\021z\306\017\315B\005\240>\003`\361\001 \264\344\373l\\\262$4n\034\367\301\357\266\244\276\211\207j\234}&t+\371,\031W\377\354\326U\277\2513\216g\021z\306\017\315B\005\240>\003`\361\001 \264\344\373l\\\262$4n\034\367\301\357\266\244\276\211\207j\234}&t+\371,\031W\377\354\326U\277\2513\216g\021z\306\017\315B\005\240>\003`\361\001\001@\212\3436\\I\220\215\016\367\257\313)_\211#\205T\023tV\223M\275\377\365/\362\30231\261\210c\017\267%(\037\003\300\263\bZ\344\333\235\272\0224\334p{\341\266e\242\3745\234\372\230\327\352,2q;kUS\376\265\245\021\364ox!\005m\370\030\356\001@\212\3436\\I\220\215\016\367\257\313)_\211#\205T\023tV\223M\275\377\365/\362\30231\261\210c\017\267%(\037\003\300\263\bZ\344\333\235\272\0224\334p{\341\266e\242\3745\234\372\230\327\352,2q;kUS\376\265\245\021\364ox!\005m\370\030\356\001@\212\3436\\I\220\215\016\367\257\313)_\211#\205T\023tV\223M\275\377\365/\362\30231\261\210c\017\267%(\037\003\300\263\bZ\344\333\235\272\0224\334p{\341\266e\242\3745\234\372\230\327\352,2q;kUS\376\265\245\021\364ox!\005m\370\030\356\001\001\200r\333\027\262\22078{\357\202_?\214\234\331:V\013\031qv\201\362\251\314\245\"\247\017C\224m\335`\263\020E\343l]\022h\007\367s[ei\207\205\250L\327\371\260\275\323\243U\246\2171Ozo\360\204(>\f\356\002-\344\233.I\rnp\366\363)\276~5\025\237t\254\0262\342\354/\311\177\265gDc\036\206\005\332\227\300K \212\353\330\272$\320\016\303\346\266\312\322#'}\230\203\337MW\213k\252a3b\236\364\336\315%P|\030\361\004Z\345\033\\\222\032\334\340\301\313RQ\374j*\023\350u,d\351\365^\277\376G\316\210\306<!\n\231\003\255\226@9\373\235YH\215\034\253\341A\271\211FN\372\035+\223\232\256;\326y\302f\304\021\305\221\267J\240\3700\317\b\264\3476\270\t4\225\355\257\273\244\242\325\324T&\375\352X\310\377\307\274S\321\216\261=\241xB\024\037\006w\001\001-\3456]$\2158\366\313\244i#N\331tuX\275\213\326\362\177G\261z\336\267\224\332\003w\002Z\347l\272H7p\301\273e\322F\234\237\350\352\260W;\201\311\376\216O\364\221C\005\231\006\356\004\264\343\330Y\220n\340\257[\312\211\214\025\023\375\371M\256v/\277\3211\236\305\017\206\n\037\f\361\bE\353\235\262\r\334\355s\266\271?5*&\327\337\232q\354^S\217b\021\247\036!\024>\030\317\020\212\373\027I\032\225\367\346A_~jTL\203\223\031\342\365\274\2463\304\"c<B(|0\263 9\333.\2224\007\303\341\202\276\374\324\250\230+\0132\351\307Uaf\245D\306x\204P\370`K@r\233\\\th\016\253\357)Q\325\205}\035V\026d\377\243\252\302\314g\210\241\360%\240\335\300\226\200\344\033\270\022\320\034{\363R\242\207'\372:\254,\310\323ky\251\265\316=o\315Jm\227\255\001\001Z\343\235I4\016{\313e\2115T\230V,\275;/S3\245\210o\267\005\037\030\263@\3446\272\220\334\367\341)\242#\234\023\327\2232\377k\362\3761\021cx%m\003\356\b\212\333\\\022\215p\257\266_\374\205\372t\352Mq\365U\302\265\261\364\017!(\370\300\001Z\343\235I4\016{\313e\2115T\230V,\275;/S3\245\210o\267\005\037\030\263@\3446\272\220\334\367\341)\242#\234\023\327\2232\377k\362\3761\021cx%m\003\356\b\212\333\\\022\215p\257\266_\374\205\372t\352Mq\365U\302\265\261\364\017!(\370\300\001Z\343\235I4\016{\313e\2115T\230V,\275;/S3\245\210o\267\005\037\030\263@\3446\272\220\334\367\341)\242#\234\023\327\2232\377k\362\3761\021cx%m\003\356\b\212\333\\\022\215p\257\266_\374\205\372t\352Mq\365U\302\265\261\364\017!(\370\300\001\001\264\373\\$n\367\357\244\211j}t\371\031\377\326\2773gz\017B\240\003\361 \344l\2624\034\301\266\276\207\234&+,W\354U\251\216\021\306\315\005>`\001\264\373\\$n\367\357\244\211j}t\371\031\377\326\2773gz\017B\240\003\361 \344l\2624\034\301\266\276\207\234&+,W\354U\251\216\021\306\315\005>`\001\264\373\\$n\367\357\244\211j}t\371\031\377\326\2773gz\017B\240\003\361 \344l\2624\034\301\266\276\207\234&+,W\354U\251\216\021\306\315\005>`\001\264\373\\$n\367\357\244\211j}t\371\031\377\326\2773gz\017B\240\003\361 \344l\2624\034\301\266\276\207\234&+,W\354U\251\216\021\306\315\005>`\001\264\373\\$n\367\357\244\211j}t\371\031\377\326\2773gz\017B\240\003\361 \344l\2624\034\301\266\276\207\234&+,W\354U\251\216\021\306\315\005>`\001\001E\233\272\032\034\257\202i5}\350\223\310vU\177b\210\221Bm\fKZ\373\270\220\007\366\266QFT:\3712\213^\302\216\"o\206P\003\317\200\343.$\334\253\273_\207\025\230u\232\377\201\246\265\236\306\267\024\335\356 \345\235\t7\367\363\312\374N&V\260\342k\277f\261\247\360\005|\255\brlI\320\340\341\244?\205\237\203,\256\307\362\217g\364<J\037`\002\212\033Y48s)\322j\372\375\013\275\354\252\376\304=\017\204\332\030\226\264\333]\r\016\301A\242\214\250t\337d;\274\2511D\336!\240\006\263-\353\\H\225{[\276#*\035\352\031\323/aG\021\241C(\227\361@\347\027\022n\303\313\271\325\234L\254M\351\326S\314Oc\315\n\370w\020\344\330\222\215\355\357e~'\023+Xq\243\3113\316\305x\224>\300\00496\262hp\346R\211\324\331\327\026W\365y\321\245z\036%\2310\001\001\2126I\215\367\313_#Tt\223\275\365\3623\261c\267(\003\263Z\333\2724p\341e\374\234\230\3522;U\376\245\364x\005\370\356@\343\\\220\016\257)\211\205\023VM\377/\3021\210\017%\037\300\b\344\235\022\334{\266\2425\372\327,qkS\265\021o!m\030\001\2126I\215\367\313_#Tt\223\275\365\3623\261c\267(\003\263Z\333\2724p\341e\374\234\230\3522;U\376\245\364x\005\370\356@\343\\\220\016\257)\211\205\023VM\377/\3021\210\017%\037\300\b\344\235\022\334{\266\2425\372\327,qkS\265\021o!m\030\001\2126I\215\367\313_#Tt\223\275\365\3623\261c\267(\003\263Z\333\2724p\341e\374\234\230\3522;U\376\245\364x\005\370\356@\343\\\220\016\257)\211\205\023VM\377/\3021\210\017%\037\300\b\344\235\022\334{\266\2425\372\327,qkS\265\021o!m\030\001\0019\330\022\225\301)?N\230\371\310\365\311\314\021\336\204\037\255 \343\270\032p\357\271#\250\375,\342\201\302bzx\n\227\263\264\033I7\253\266i\324\023\254\031;\252\217\261\306\206m0\004\344\027H\016s\244\374\025:\223W\243SGD\017J|\356\200\373\272h\355\313\276\214\372\203\260\377^\177\245\305\315(\006\226\212l\t\334\366\202\211'L\352d\354\362f\236oB\231\300\020\347\\\r8\341\312\207T\350\026q\326a1=<\005\335\317Z\233\262\215\303[\242j\237V\232\213U\321\316cC\240\030\002r\235$\007\257R~\234\035\337\275\307\277\265\"\221%>w@\353]4\340\363_F}\327X\351/\251\304\364\360\024\003KE6\222n{A\322\205&u2vy3O\241!\332`\b\345.\220\034\346e\325*t\013\256k\246\216\210\036\224\370\361-\333Y\320\367\273Q5\331+M\323\274\376g\247\267P\f\001\001r\027\2208\357_\214\331V\031v\362\314\"\017\224\335\263El\022\007se\207\250\327\260\323U\217Oo\204>\356-\233In\366)~\025t\026\342/\177gc\206\332\300 \353\272\320\303\266\322'\230\337Wkab\364\315P\030\004\345\\\032\340\313Qj\023ud\365\277G\210<\n\003\2269\235H\034\341\271F\372+\232;yf\021\221J\370\317\2646\t\225\257\244\325T\375X\377\274\321\261\241B\037w\200\333\2627{\202?\234:\013q\201\251\245\247Cm`\020\343]h\367[i\205L\371\275\243\2461z\360(\f\002\344.\rp\363\2765\237\2542\354\311\265D\036\005\227K\212\330$\016\346\312#}\203M\213\2523\236\336%|\361Z\033\222\334\301R\374*\350,\351^\376\316\306!\231\255@\373Y\215\253A\211N\035\223\256\326\302\304\305\267\2400\b\347\2704\355\273\242\324&\352\310\307S\216=x\024\006\001\001\344\\4\367\266\211\234t,\377U3\021\017\005\003\001\344\\4\367\266\211\234t,\377U3\021\017\005\003\001\344\\4\367\266\211\234t,\377U3\021\017\005\003\001\344\\4\367\266\211\234t,\377U3\021\017\005\003\001\344\\4\367\266\211\234t,\377U3\021\017\005\003\001\344\\4\367\266\211\234t,\377U3\021\017\005\003\001\344\\4\367\266\211\234t,\377U3\021\017\005\003\001\344\\4\367\266\211\234t,\377U3\021\017\005\003\001\344\\4\367\266\211\234t,\377U3\021\017\005\003\001\344\\4\367\266\211\234t,\377U3\021\017\005\003\001\344\\4\367\266\211\234t,\377U3\021\017\005\003\001\344\\4\367\266\211\234t,\377U3\021\017\005\003\001\344\\4\367\266\211\234t,\377U3\021\017\005\003\001\344\\4\367\266\211\234t,\377U3\021\017\005\003\001\344\\4\367\266\211\234t,\377U3\021\017\005\003\001\001\345]\215\366\244#\331u\275\326\177\261\336\224\003\002\347\2727\301eF\237\352W\201\376O\221\005\006\004\343Yn\257\312\214\023\371\256/\321\236\017\n\f\b\353\262\334s\2715&\337q^\217\021\036\024\030\020\373I\225\346_jL\223\342\2743\"<(0 \333\222\007\341\276\324\230\013\351UfDxP`@\233\t\016\357Q\205\035\026\377\252\314\210\360\240\300\200\033\022\034\363\242':,\323y\265=\315m\255-6$8\313iNtX\213\362Gz\267\332wZlHp\273\322\234\350\260;\311\216\364C\231\356\264\330\220\340[\211\025\375Mv\2771\305\206\037\361E\235\r\355\266?*\327\232\354Sb\247!>\317\212\027\032\367A~T\203\031\365\246\304cB|\2639.4\303\202\374\250+2\307a\245\306\204\370Kr\\h\253)\325}Vd\243\302g\241%\335\226\344\270\320{R\207\372\254\310k\251\316oJ\227\001\001\347Y\334\346\276\205:X;\277bc\204\335\001\347Y\334\346\276\205:X;\277bc\204\335\001\347Y\334\346\276\205:X;\277bc\204\335\001\347Y\334\346\276\205:X;\277bc\204\335\001\347Y\334\346\276\205:X;\277bc\204\335\001\347Y\334\346\276\205:X;\277bc\204\335\001\347Y\334\346\276\205:X;\277bc\204\335\001\347Y\334\346\276\205:X;\277bc\204\335\001\347Y\334\346\276\205:X;\277bc\204\335\001\347Y\334\346\276\205:X;\277bc\204\335\001\347Y\334\346\276\205:X;\277bc\204\335\001\347Y\334\346\276\205:X;\277bc\204\335\001\347Y\334\346\276\205:X;\277bc\204\335\001\347Y\334\346\276\205:X;\277bc\204\335\001\347Y\334\346\276\205:X;\277bc\204\335\001\347Y\334\346\276\205:X;\277bc\204\335\001\347Y\334\346\276\205:X;\277bc\204\335\001\001\343I\016\313\211TV\275/3\210\267\037\263\344\272\334\341\242\234\3272k\376\021xm\356\212\\\215\257_\205tM\365\302\261\017(\300Z\2354{e5\230,;S\245o\005\030@6\220\367)#\023\223\377\3621c%\003\b\333\022p\266\374\372\352qU\265\364!\370\001\343I\016\313\211TV\275/3\210\267\037\263\344\272\334\341\242\234\3272k\376\021xm\356\212\\\215\257_\205tM\365\302\261\017(\300Z\2354{e5\230,;S\245o\005\030@6\220\367)#\023\223\377\3621c%\003\b\333\022p\266\374\372\352qU\265\364!\370\001\343I\016\313\211TV\275/3\210\267\037\263\344\272\334\341\242\234\3272k\376\021xm\356\212\\\215\257_\205tM\365\302\261\017(\300Z\2354{e5\230,;S\245o\005\030@6\220\367)#\023\223\377\3621c%\003\b\333\022p\266\374\372\352qU\265\364!\370\001\001\353\tpA\207\023\013\213Sg\221(\255E\\7\346\242\025+\275^\314\364B\227\b\233H\367R\214\230X\354\302O<m\361r\272\225\363\211\250uq\252\216cJ\f@l\032{\312\324t\232\243\376\"\315\037K\347I\034[\374\331\337\377\311\304o\n`Z\027\320\257\276N\327d\2013=\206\370\002\373\022\340\202#&\026;\246\316\017Pw\212\270n\341i*VW\274\265\305\204\003\020\033\220\303\2445\035\260\365\251\236x\332\317\344Y\007\313?}\352\342y1\306\224\030\200\3304\366\271\205\350\031k\321D\267>\226\343\2228\266\325\237\223\323\277\245\336\024\300\264.\215sQ\234\203\310/fz!\335\004\333$\355)FL,va\261\036\240\3569]\334\357\322T\254\256UG\247%\006 6\r\253ej:M\307\177\021\360\231\263\345\262\016\273~\372\371\351\362b\241\0050-\235h\301_'\3752\326\217\210C|\001\001\373$\367\244jt\031\3263zB\003 l4\301\276\234+WU\216\306\005`\264\\n\357\211}\371\377\277g\017\240\361\344\262\034\266\207&,\354\251\021\315>\001\373$\367\244jt\031\3263zB\003 l4\301\276\234+WU\216\306\005`\264\\n\357\211}\371\377\277g\017\240\361\344\262\034\266\207&,\354\251\021\315>\001\373$\367\244jt\031\3263zB\003 l4\301\276\234+WU\216\306\005`\264\\n\357\211}\371\377\277g\017\240\361\344\262\034\266\207&,\354\251\021\315>\001\373$\367\244jt\031\3263zB\003 l4\301\276\234+WU\216\306\005`\264\\n\357\211}\371\377\277g\017\240\361\344\262\034\266\207&,\354\251\021\315>\001\373$\367\244jt\031\3263zB\003 l4\301\276\234+WU\216\306\005`\264\\n\357\211}\371\377\277g\017\240\361\344\262\034\266\207&,\354\251\021\315>\001\001\333\220{_\234Vq\362\245\017m\263\343\022\367e\205\327\275U1o(\356\344Ip)5t2/\265c\005\300\212\272\016\266#\230Mk3\364%\030Z\\\334\313\374\023,\365\376\210!\003@\235\215\341\211\372\223;\302\021\267\370\b64\257\242T\352\377S\261x\037\001\333\220{_\234Vq\362\245\017m\263\343\022\367e\205\327\275U1o(\356\344Ip)5t2/\265c\005\300\212\272\016\266#\230Mk3\364%\030Z\\\334\313\374\023,\365\376\210!\003@\235\215\341\211\372\223;\302\021\267\370\b64\257\242T\352\377S\261x\037\001\333\220{_\234Vq\362\245\017m\263\343\022\367e\205\327\275U1o(\356\344Ip)5t2/\265c\005\300\212\272\016\266#\230Mk3\364%\030Z\\\334\313\374\023,\365\376\210!\003@\235\215\341\211\372\223;\302\021\267\370\b64\257\242T\352\377S\261x\037\001\001\233\032\257i}\223v\177\210B\fZ\270\007\266F:2^\216oP\317\343$\253_\025u\377\246\236\267\335 \2357\363\374&\260kf\247\005\255rI\340\244\205\203\256\362g<\037\002\0334s\322\372\013\354\376=\204\030\264]\016A\214td\2741\336\240\263\353H{\276*\352\323a\021C\227@\027n\313\325LM\326\314c\nw\344\222\355e'+q\311\316x>\0046h\346\211\331\026\365\321z%0E\272\034\2025\350\310Ub\221mK\373\220\366QT\371\213\302\"\206\003\200.\334\273\207\230\232\201\265\306\024\356\345\t\367\312NV\342\277\261\360|\bl\320\341?\237,\307\217\364J`\212Y8)j\375\275\252\304\017\332\226\333\r\301\242\250\337;\251D!\006-\\\225[#\035\031/G\241(\361\347\022\303\271\234\254\351SO\315\370\020\330\215\357~\023X\2433\305\224\3009\262pR\324\327Wy\245\036\231\001\001\033h\341~&M\201Go\240K\333\032s\211\237Xk\314\306(\317\353\220\301i\372\026\3073\247\n\356\347${Q\250\223\354\321\364\224\255\344\t\303_*\371;\177=%`9I\355\312\234u\323\302DB\030EYp\244'V\351\246\021\206\006Z]\034)\324\203q\277O\267\227\200\\\007A5\375W\362\316\360\370 \027\334[Ft\310\252\245<>\b\3307\313\207\0352\274b\017\231\0026\320\357\374L\232/\216\336m\226\2334\346?\023\260\326\265\241P\263\373\r\257\322\331,\243fc\024\361\343H\366\242}\013\365\217\305\005w\345\022\253\276T\337v\376zJ\300r\222\367\271\025\352\213\251\210\2040\212\262\340eN\254\377a\"!\f\264\2728R\205+\342S\236C\003-\270\016\202j\327\256\311\261\315\335@.\225\266\214\350\275ygx|\020\235n\273#:dU\304\036\037\004l\215\363\325\230\031^1\221\332\001\0016\215\313#t\275\362\261\267\003Z\272pe\234\352;\376\364\005\356\343\220\257\211\023M/1\017\037\b\235\334\2665\327qS\021!\030\212I\367_T\223\3653c(\263\3334\341\374\2302U\245x\370@\\\016)\205V\377\302\210%\300\344\022{\242\372,k\265om\0016\215\313#t\275\362\261\267\003Z\272pe\234\352;\376\364\005\356\343\220\257\211\023M/1\017\037\b\235\334\2665\327qS\021!\030\212I\367_T\223\3653c(\263\3334\341\374\2302U\245x\370@\\\016)\205V\377\302\210%\300\344\022{\242\372,k\265om\0016\215\313#t\275\362\261\267\003Z\272pe\234\352;\376\364\005\356\343\220\257\211\023M/1\017\037\b\235\334\2665\327qS\021!\030\212I\367_T\223\3653c(\263\3334\341\374\2302U\245x\370@\\\016)\205V\377\302\210%\300\344\022{\242\372,k\265om\001\001ln\266j+\377\251z\005\361\3734\357\207tW\277\021B`\344$\301\211&\031Ug\315\003\264\262\367\276},\326\216\017> \\\034\244\234\371\3543\306\240\001ln\266j+\377\251z\005\361\3734\357\207tW\277\021B`\344$\301\211&\031Ug\315\003\264\262\367\276},\326\216\017> \\\034\244\234\371\3543\306\240\001ln\266j+\377\251z\005\361\3734\357\207tW\277\021B`\344$\301\211&\031Ug\315\003\264\262\367\276},\326\216\017> \\\034\244\234\371\3543\306\240\001ln\266j+\377\251z\005\361\3734\357\207tW\277\021B`\344$\301\211&\031Ug\315\003\264\262\367\276},\326\216\017> \\\034\244\234\371\3543\306\240\001ln\266j+\377\251z\005\361\3734\357\207tW\277\021B`\344$\301\211&\031Ug\315\003\264\262\367\276},\326\216\017> \\\034\244\234\371\3543\306\240\001\001\330\225)N\371\365\314\336\037 \270p\271\250,\201bx\227\264I\253i\023\031\252\261\2060\344Hs\374:WSDJ\356\373h\313\214\203\377\177\305(\226l\334\202'\352\354fo\231\020\\8\312T\026\3261<\335Z\262\303\242\237\232U\316C\030r$\257~\035\275\277\"%w\3534\363F\327\351\251\364\024K6nA\205uv3\241\332\b.\034e*\013k\216\036\370-Y\367Q\331M\274g\267\f9\022\301?\230\310\311\021\204\255\343\032\357#\375\342\302z\n\263\0337\266\324\254;\217\306m\004\027\016\244\025\223\243G\017|\200\272\355\276\372\260^\245\315\006\212\t\366\211Ld\362\236B\300\347\r\341\207\350qa=\005\317\233\215[jV\213\321c\240\002\235\007R\234\337\307\265\221>@]\340_}X/\304\360\003E\222{\322&2yO!`\345\220\346\325t\256\246\210\224\361\333\320\2735+\323\376\247P\001\001\235\016eT,/\245\267\030\344\220\341#\327\377\376cm\b\\p_\372MU\261!\300\3434\3135V;3o\037@\272\367\242\0232\362\021%\356\333\215\266\205\352\365\265\017\370ZI{\211\230\275S\210\005\2636\334)\234\223k1x\003\212\022\257\374tq\302\364(\001\235\016eT,/\245\267\030\344\220\341#\327\377\376cm\b\\p_\372MU\261!\300\3434\3135V;3o\037@\272\367\242\0232\362\021%\356\333\215\266\205\352\365\265\017\370ZI{\211\230\275S\210\005\2636\334)\234\223k1x\003\212\022\257\374tq\302\364(\001\235\016eT,/\245\267\030\344\220\341#\327\377\376cm\b\\p_\372MU\261!\300\3434\3135V;3o\037@\272\367\242\0232\362\021%\356\333\215\266\205\352\365\265\017\370ZI{\211\230\275S\210\005\2636\334)\234\223k1x\003\212\022\257\374tq\302\364(\001\001\0278_\331\031\362\"\224\263l\007e\250\260UO\204\356\233n)\025\026/g\206\300\353\320\266'\337kb\315\030\345\032\313ju\365G<\0039H\341F+;f\221\370\264\t\257\325\375\377\321\241\037\200\262{?:q\251\247m\020]\367iL\275\246z(\002.p\276\2372\311D\005K\330\016\312}M\252\236%\361\033\334R*,^\316!\255\373\215AN\223\326\304\2670\3474\273\324\352\307\216x\006r\220\357\214Vv\314\017\335E\022s\207\327\323\217o>-I\366~t\342\177c\332 \272\303\322\230Wa\364P\004\\\340Q\023d\277\210\n\226\235\034\271\372\232y\021J\3176\225\244TX\274\261Bw\3337\202\234\013\201\245C`\343h[\205\371\2431\360\f\344\r\3635\254\354\265\036\227\212$\346#\203\2133\336|Z\222\301\374\350\351\376\306\231@Y\253\211\035\256\302\305\240\b\270\355\242&\310S=\024\001\001.\340\242LW\302\247\332@\262\366\374\375\3233\221\335\212H\3575u\3071\3150\343\320A\234\026^\261\204\3616\007\312\372\031\311\210\024\002\\\355i\230\256\251c\231\200I\301\325\327\213f\017\2279\220\363j\352\243b\267`\353\215\202\025,\274O%\317l\016\271\3312\277=(\004\270\367\322\035q\177\306\037-\222\257\207\203;\314\036\003r\r\313\324\371k\304C\300\3737)*XU\236J\263\330\034_\237dSzP\b]\303\211:\342\376\241>Z\ts#+v\265<\006\344\032\273\205\337\326\245\206\255\333nRT\260\252\021\224K\2358\276\023\310\246\364\240\020\272\253?t\351\321o|\264\022\346FV\354Gx\f\3454['\223\201g!w\233\334\244\250My\"\005\226\027pQ&\275a\305m Y{~\350\377\217\336\370E$\341\214\254\365\216\360\030\347h\266N\013/\316B\356\033\225e}\232\362D\n\001\001\\\367\211t\3773\017\003\3444\266\234,U\021\005\001\\\367\211t\3773\017\003\3444\266\234,U\021\005\001\\\367\211t\3773\017\003\3444\266\234,U\021\005\001\\\367\211t\3773\017\003\3444\266\234,U\021\005\001\\\367\211t\3773\017\003\3444\266\234,U\021\005\001\\\367\211t\3773\017\003\3444\266\234,U\021\005\001\\\367\211t\3773\017\003\3444\266\234,U\021\005\001\\\367\211t\3773\017\003\3444\266\234,U\021\005\001\\\367\211t\3773\017\003\3444\266\234,U\021\005\001\\\367\211t\3773\017\003\3444\266\234,U\021\005\001\\\367\211t\3773\017\003\3444\266\234,U\021\005\001\\\367\211t\3773\017\003\3444\266\234,U\021\005\001\\\367\211t\3773\017\003\3444\266\234,U\021\005\001\\\367\211t\3773\017\003\3444\266\234,U\021\005\001\\\367\211t\3773\017\003\3444\266\234,U\021\005\001\001\270\253\374\203\3541Cw6\034Q\230\342\217\017\006\347\215R}2\246\247\037\264H\313'\026U\"\024\bY\301#\254\243\245B\317\235\340\322t\323\314x0\373\334\312\237\275\251\241\3709\032\266\025\260\362=\240@\222\3465\371\201\261J\226\\\303~\327v\216\267\255\033\016\276Lq\321\221\003\345\320)\250\031S\305\231Z$\363\205\013\274\021\n\004\272\366\207V\307\304!\361\330pi:\377f<\030\353ne\331\310\302\306|\212\r[\234Xy\210P Is\214\352\326\316%K.\367?\375;G\315\300\233\007_&\256\376\336\227\344h\202T\232\277\364\332-\022\357\324\223^\236\005\002]{\325+\365b\206\356l8\242\035\3513\036\f\3437\244\372dac>E\220\273N,\252D(\020\262\257Fukg\204\263\027\355\211\350\213\265\360`\333\225\271\023W\177o\335r4A*M\311zm\200\t\341j\337/O\224\001\001]\366#u\326\261\224\002\272\301F\352\201O\005\004Y\257\214\371/\236\n\b\262s5\337^\021\024\020I\346j\223\274\"( \222\341\324\013UDP@\t\357\205\026\252\210\240\200\022\363',y=m-$\313NX\362z\332ZH\273\234\260\311\364\231\264\220[\025M\277\305\037E\r\266*\232S\247>\212\032AT\031\246c|94\202\2502a\306\370rh)}d\302\241\335\344\320R\372\310\251o\227\345\215\244\331\275\177\336\003\3477e\237W\376\221\006\343n\312\023\256\321\017\f\353\334\271&q\217\036\030\373\225_L\3423<0\333\007\276\230\351fx`\233\016Q\035\377\314\360\300\033\034\242:\323\265\315\25568it\213G\267wlp\322\350;\216C\356\330\340\211\375v1\206\361\235\355?\327\354b!\317\027\367~\203\365\304B\263.\303\374+\307\245\204K\\\253\325V\243g%\226\270{\207\254k\316J\001\001\272\2575\223U\210mZ\220\266T2\302o\003\343\334_\230\377\265\267\356\235\367\374Vk\261\005\bI\341\205,\362\364\037\2124)\372\275\376\017\030\333\016\242t;1!\263\\{#\352/\021(@\022\313\234MSc\370\344\215e\023q3x\3006p\211\327\365\245%\001\272\2575\223U\210mZ\220\266T2\302o\003\343\334_\230\377\265\267\356\235\367\374Vk\261\005\bI\341\205,\362\364\037\2124)\372\275\376\017\030\333\016\242t;1!\263\\{#\352/\021(@\022\313\234MSc\370\344\215e\023q3x\3006p\211\327\365\245%\001\272\2575\223U\210mZ\220\266T2\302o\003\343\334_\230\377\265\267\356\235\367\374Vk\261\005\bI\341\205,\362\364\037\2124)\372\275\376\017\030\333\016\242t;1!\263\\{#\352/\021(@\022\313\234MSc\370\344\215e\023q3x\3006p\211\327\365\245%\001\001Y\346\205X\277c\335\347\334\276:;b\204\001Y\346\205X\277c\335\347\334\276:;b\204\001Y\346\205X\277c\335\347\334\276:;b\204\001Y\346\205X\277c\335\347\334\276:;b\204\001Y\346\205X\277c\335\347\334\276:;b\204\001Y\346\205X\277c\335\347\334\276:;b\204\001Y\346\205X\277c\335\347\334\276:;b\204\001Y\346\205X\277c\335\347\334\276:;b\204\001Y\346\205X\277c\335\347\334\276:;b\204\001Y\346\205X\277c\335\347\334\276:;b\204\001Y\346\205X\277c\335\347\334\276:;b\204\001Y\346\205X\277c\335\347\334\276:;b\204\001Y\346\205X\277c\335\347\334\276:;b\204\001Y\346\205X\277c\335\347\334\276:;b\204\001Y\346\205X\277c\335\347\334\276:;b\204\001Y\346\205X\277c\335\347\334\276:;b\204\001Y\346\205X\277c\335\347\334\276:;b\204\001"
	.size	.Lstatic.47, 8960

	.type	.Lstatic.48,@object
.Lstatic.48:
	.ascii	"\000\000\001\360\002\341\3615\003&\342\205\362+6\322\004\303'r\343j\206\034\363\214,\0277v\323\352\005\333\304`(\336sg\344Nk}\207\b\035\242\364\272\215\264-c\03018\rw\231\324\307\353[\006L\334\331\305\013a\270)$\337\375t\212h\301\345VO\253l\245~\221\210\"\tJ\036 \243T\365\255\273\314\216Q\265\276.Xd\237\031\3472\3179\223\016Cx\200\232\370\325\247\310?\354n\\\260\007\241M|\335f\332_\306Z\f\230b0\271\263*\321%\204\3404\376\357u\351\213\026i\033\302q\346\316W\236P\275\254\313m\257\246>\177\367\222B\211\300#\374\n\267K\330\037S!I\244\220U\252\366A\256=\274\312\315\235\217\251RH\266\327\277\373/\262Y\227e^\240{\032p\350\0253\356\320\203:E\224\022\017\020D\021y\225\201\023\233;\371F\326\372\250G\311\234@<\355\202o\024]z\261\226"
	.size	.Lstatic.48, 256

	.type	.Lstatic.49,@object
.Lstatic.49:
	.ascii	"\001\002\004\b\020 @\200-Z\264E\2129r\344\345\347\343\353\373\333\233\0336l\330\235\027.\\\270]\272Y\262I\222\t\022$H\220\r\0324h\320\2157n\334\225\007\016\0348p\340\355\367\303\253{\366\301\257s\346\341\357\363\313\273[\266A\202)R\244e\312\271_\276Q\242i\322\211?~\374\325\207#F\2145j\324\205'N\234\025*T\250}\372\331\237\023&L\230\035:t\350\375\327\203+V\254u\352\371\337\223\013\026,X\260M\232\0312d\310\275W\256q\342\351\377\323\213;v\354\365\307\243k\326\201/^\274U\252y\362\311\277S\246a\302\251\177\376\321\2173f\314\265G\2161b\304\245g\316\261O\236\021\"D\210=z\364\305\247c\306\241o\336\221\017\036<x\360\315\267C\206!B\204%J\224\005\n\024(P\240m\332\231\037>|\370\335\227\003\006\f\0300`\300\255w\356\361\317\263K\226"
	.size	.Lstatic.49, 255

	.type	.Lstatic.51,@object
.Lstatic.51:
	.asciz	"\000\000\000\000\000\000\000\000\000\000\000\000\000\004\000\000\000\000\000\000\000\000\000\000\000\000\000\000\000\000\000\000\017\b\b\b\b\b\b\b\b\b\f\b\b\b\b\b\017\017\017\017\017\017\017\017\017\017\b\b\b\b\f\b\b\r\r\r\r\r\r\r\r\r\r\r\r\r\r\r\r\r\r\r\r\r\r\r\r\r\r\b\b\b\b\000\000\002\002\002\002\002\002\002\002\002\002\002\002\002\002\002\002\002\002\002\002\002\002\002\002\002\002\000\000\000\000\000\000\000\000\000\000\000\000\000\000\000\000\000\000\000\000\000\000\000\000\000\000\000\000\000\000\000\000\000\000\000\000\000\000\000\000\000\000\000\000\000\000\000\000\000\000\000\000\000\000\000\000\000\000\000\000\000\000\000\000\000\000\000\000\000\000\000\000\000\000\000\000\000\000\000\000\000\000\000\000\000\000\000\000\000\000\000\000\000\000\000\000\000\000\000\000\000\000\000\000\000\000\000\000\000\000\000\000\000\000\000\000\000\000\000\000\000\000\000\000\000\000\000\000\000\000\000\000"
	.size	.Lstatic.51, 256

	.section	".note.GNU-stack","",@progbits
