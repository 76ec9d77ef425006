/* The library ecc200 1.0.0, made by library/build of the proved source with the toolchain of logic dac8208d650f15bf. Not written by hand: `make compiled` makes it anew. */
	.def	@feat.00;
	.scl	3;
	.type	0;
	.endef
	.globl	@feat.00
@feat.00 = 0
	.def	"ecc200_calls::inspection::inspect_given::<=32,=98,=131,=31>";
	.scl	3;
	.type	32;
	.endef
	.text
	.p2align	4
"ecc200_calls::inspection::inspect_given::<=32,=98,=131,=31>":
.seh_proc "ecc200_calls::inspection::inspect_given::<=32,=98,=131,=31>"
	pushq	%r15
	.seh_pushreg %r15
	pushq	%r14
	.seh_pushreg %r14
	pushq	%r12
	.seh_pushreg %r12
	pushq	%rsi
	.seh_pushreg %rsi
	pushq	%rdi
	.seh_pushreg %rdi
	pushq	%rbp
	.seh_pushreg %rbp
	pushq	%rbx
	.seh_pushreg %rbx
	subq	$1248, %rsp
	.seh_stackalloc 1248
	.seh_endprologue
	movq	%r9, %rsi
	movq	%r8, %rdi
	movq	%rdx, %rbx
	movq	%rcx, %r14
	movq	1344(%rsp), %r15
	movzwl	(%r15), %ebp
	movzwl	18(%r15), %eax
	movzbl	20(%r15), %r12d
	movw	%ax, 50(%rsp)
	movups	2(%r15), %xmm0
	movups	%xmm0, 34(%rsp)
	leaq	52(%rsp), %rcx
	movl	$524, %r8d
	xorl	%edx, %edx
	callq	memset
	movw	%bp, 32(%rsp)
	xorps	%xmm0, %xmm0
	movaps	%xmm0, 576(%rsp)
	movaps	%xmm0, 592(%rsp)
	movaps	%xmm0, 608(%rsp)
	movaps	%xmm0, 624(%rsp)
	leaq	32(%rsp), %rcx
	movq	%r14, %rdx
	movq	%rbx, %r8
	callq	"ecc200_calls::modules::put_modules::<=32>"
	movq	1352(%rsp), %rbx
	testb	$1, %r12b
	je	.LBB0_2
	addq	$2, %r15
	movw	%bp, 640(%rsp)
	movups	(%r15), %xmm0
	movups	%xmm0, 642(%rsp)
	movzwl	16(%r15), %eax
	movw	%ax, 658(%rsp)
	leaq	660(%rsp), %rcx
	movl	$588, %r8d
	xorl	%edx, %edx
	callq	memset
	leaq	640(%rsp), %r14
	movq	%r14, %rcx
	movq	%rdi, %rdx
	movq	%rsi, %r8
	callq	"ecc200_calls::modules::put_modules::<=32>"
	leaq	32(%rsp), %rcx
	movb	$1, %dl
	movq	%r14, %r8
	jmp	.LBB0_3
.LBB0_2:
	leaq	32(%rsp), %rcx
	xorl	%edx, %edx
	xorl	%r8d, %r8d
.LBB0_3:
	movq	%rbx, %r9
	callq	"ecc200_calls::inspection::inspect_symbol::<=32,=98>"
	nop
	addq	$1248, %rsp
	popq	%rbx
	popq	%rbp
	popq	%rdi
	popq	%rsi
	popq	%r12
	popq	%r14
	popq	%r15
	retq
	.seh_endproc

	.def	"ecc200_calls::modules::put_modules::<=32>";
	.scl	3;
	.type	32;
	.endef
	.p2align	4
"ecc200_calls::modules::put_modules::<=32>":
.seh_proc "ecc200_calls::modules::put_modules::<=32>"
	pushq	%r15
	.seh_pushreg %r15
	pushq	%r14
	.seh_pushreg %r14
	pushq	%r13
	.seh_pushreg %r13
	pushq	%r12
	.seh_pushreg %r12
	pushq	%rsi
	.seh_pushreg %rsi
	pushq	%rdi
	.seh_pushreg %rdi
	pushq	%rbp
	.seh_pushreg %rbp
	pushq	%rbx
	.seh_pushreg %rbx
	subq	$128, %rsp
	.seh_stackalloc 128
	.seh_endprologue
	movq	%rdx, 64(%rsp)
	movq	%rcx, 56(%rsp)
	movzwl	(%rcx), %eax
	movq	%rax, 104(%rsp)
	testq	%rax, %rax
	je	.LBB1_73
	movq	56(%rsp), %rax
	movzwl	2(%rax), %r15d
	cmpq	$128, %r15
	movl	$128, %edi
	cmovbq	%r15, %rdi
	movq	64(%rsp), %rax
	leaq	(%rax,%r8), %rsi
	leaq	-64(%r8), %rcx
	leaq	-65(%r8), %rdx
	movq	%rdx, 48(%rsp)
	leaq	-128(%r8), %r10
	leaq	-129(%r8), %r9
	movq	%r9, 88(%rsp)
	addq	%r8, %rax
	decq	%rax
	movq	%rax, (%rsp)
	xorl	%r13d, %r13d
	movq	%r10, 80(%rsp)
	movq	%r8, %r12
	movq	%rcx, 96(%rsp)
	movq	%rcx, %rdx
	movq	%r8, 8(%rsp)
	movq	%r15, 40(%rsp)
	movq	%rdi, 24(%rsp)
	jmp	.LBB1_2
.LBB1_4:
	xorl	%ebx, %ebx
.LBB1_17:
	xorl	%r12d, %r12d
	xorl	%eax, %eax
.LBB1_72:
	movq	%r13, %rcx
	shlq	$4, %rcx
	movq	56(%rsp), %rdx
	movq	%r12, 40(%rdx,%rcx)
	movq	%rbx, 32(%rdx,%rcx)
	movw	%ax, 544(%rdx,%r13,2)
	incq	%r13
	movq	112(%rsp), %rdx
	subq	%r15, %rdx
	movq	120(%rsp), %r12
	subq	%r15, %r12
	subq	%r15, %r10
	cmpq	104(%rsp), %r13
	je	.LBB1_73
.LBB1_2:
	movq	%r13, %r11
	imulq	%r15, %r11
	movq	%r8, %r14
	subq	%r11, %r14
	movq	64(%rsp), %rax
	leaq	(%rax,%r11), %r9
	cmpq	$63, %r14
	movq	%r12, 120(%rsp)
	movq	%rdx, 112(%rsp)
	ja	.LBB1_16
	testq	%r15, %r15
	je	.LBB1_4
	movq	%r10, 72(%rsp)
	movl	%edx, %ecx
	andl	$1, %ecx
	movq	%r12, %rdx
	subq	%rcx, %rdx
	movq	%r11, 16(%rsp)
	movq	%r11, %r15
	subq	%r8, %r15
	xorl	%r10d, %r10d
	xorl	%ebx, %ebx
	xorl	%r12d, %r12d
	xorl	%ecx, %ecx
	jmp	.LBB1_6
	.p2align	4
.LBB1_74:
	movdqu	(%r9,%rcx), %xmm0
	pxor	%xmm1, %xmm1
	pcmpeqb	%xmm0, %xmm1
	pmovmskb	%xmm1, %ebp
	notl	%ebp
.LBB1_15:
	movzwl	%bp, %eax
	xorl	%r8d, %r8d
	shldq	%cl, %rax, %r8
	shlq	%cl, %rax
	xorl	%r11d, %r11d
	testb	$64, %cl
	cmovneq	%rax, %r8
	cmovneq	%r11, %rax
	orq	%r8, %r12
	orq	%rax, %rbx
	addq	$16, %rcx
	incq	%r10
	addq	$-16, %rdx
	cmpq	%rdi, %rcx
	jae	.LBB1_61
.LBB1_6:
	movq	%r14, %r8
	subq	%rcx, %r8
	cmpq	$15, %r8
	ja	.LBB1_74
	cmpq	%rcx, %r14
	jne	.LBB1_9
	xorl	%ebp, %ebp
	jmp	.LBB1_15
	.p2align	4
.LBB1_9:
	movq	%r10, %r8
	shlq	$4, %r8
	negq	%r8
	decq	%r8
	xorl	%ebp, %ebp
	cmpq	%r8, %r15
	jne	.LBB1_11
	xorl	%r11d, %r11d
	jmp	.LBB1_14
.LBB1_11:
	movq	(%rsp), %rdi
	xorl	%r11d, %r11d
	.p2align	4
.LBB1_12:
	xorl	%eax, %eax
	cmpb	$0, (%rdi)
	setne	%al
	addl	%eax, %eax
	leal	(%rax,%rbp,4), %eax
	movq	%r11, %r8
	xorq	$-2, %r8
	xorl	%ebp, %ebp
	cmpb	$0, (%rsi,%r8)
	setne	%bpl
	orl	%eax, %ebp
	addq	$2, %r11
	addq	$-2, %rdi
	cmpq	%r11, %rdx
	jne	.LBB1_12
	testb	$1, %r14b
	movq	24(%rsp), %rdi
	je	.LBB1_15
.LBB1_14:
	notq	%r11
	xorl	%eax, %eax
	cmpb	$0, (%rsi,%r11)
	setne	%al
	leal	(%rax,%rbp,2), %ebp
	jmp	.LBB1_15
	.p2align	4
.LBB1_16:
	movq	%r11, 16(%rsp)
	movdqu	(%r9), %xmm0
	movdqu	16(%r9), %xmm1
	movdqu	32(%r9), %xmm2
	movdqu	48(%r9), %xmm3
	pxor	%xmm4, %xmm4
	pcmpeqb	%xmm4, %xmm3
	pcmpeqb	%xmm4, %xmm2
	pcmpeqb	%xmm4, %xmm1
	pcmpeqb	%xmm4, %xmm0
	pmovmskb	%xmm0, %eax
	xorl	$65535, %eax
	pmovmskb	%xmm1, %ecx
	notl	%ecx
	shll	$16, %ecx
	orl	%eax, %ecx
	pmovmskb	%xmm2, %eax
	xorl	$65535, %eax
	shlq	$32, %rax
	orq	%rcx, %rax
	pmovmskb	%xmm3, %ebx
	notl	%ebx
	shlq	$48, %rbx
	orq	%rax, %rbx
	cmpw	$65, %r15w
	jb	.LBB1_17
	movq	%rdx, %rcx
	andq	$-2, %rcx
	movq	96(%rsp), %rbp
	subq	16(%rsp), %rbp
	movq	%r14, %rdx
	andq	$-16, %rdx
	cmpq	$64, %rdx
	movq	%r10, 72(%rsp)
	jne	.LBB1_75
	cmpq	$64, %r14
	jne	.LBB1_21
	xorl	%r10d, %r10d
	jmp	.LBB1_27
.LBB1_75:
	movdqu	64(%r9), %xmm0
	pxor	%xmm1, %xmm1
	pcmpeqb	%xmm0, %xmm1
	pmovmskb	%xmm1, %r10d
	notl	%r10d
	jmp	.LBB1_27
.LBB1_21:
	movq	16(%rsp), %rax
	cmpq	%rax, 48(%rsp)
	jne	.LBB1_23
	xorl	%r10d, %r10d
	xorl	%r8d, %r8d
	jmp	.LBB1_26
.LBB1_23:
	xorl	%r10d, %r10d
	movq	(%rsp), %rdi
	xorl	%r8d, %r8d
	.p2align	4
.LBB1_24:
	xorl	%eax, %eax
	cmpb	$0, (%rdi)
	setne	%al
	addl	%eax, %eax
	leal	(%rax,%r10,4), %eax
	movq	%r8, %r11
	xorq	$-2, %r11
	xorl	%r10d, %r10d
	cmpb	$0, (%rsi,%r11)
	setne	%r10b
	orl	%eax, %r10d
	addq	$2, %r8
	addq	$-2, %rdi
	cmpq	%r8, %rcx
	jne	.LBB1_24
	testb	$1, %bpl
	movq	24(%rsp), %rdi
	je	.LBB1_27
.LBB1_26:
	notq	%r8
	xorl	%eax, %eax
	cmpb	$0, (%rsi,%r8)
	setne	%al
	leal	(%rax,%r10,2), %r10d
	.p2align	4
.LBB1_27:
	movzwl	%r10w, %r12d
	cmpw	$81, %r15w
	jb	.LBB1_61
	movq	48(%rsp), %r11
	subq	16(%rsp), %r11
	cmpq	$80, %rdx
	jne	.LBB1_29
	cmpq	$80, %r14
	jne	.LBB1_32
	xorl	%r10d, %r10d
	jmp	.LBB1_38
.LBB1_29:
	movdqu	80(%r9), %xmm0
	pxor	%xmm1, %xmm1
	pcmpeqb	%xmm0, %xmm1
	pmovmskb	%xmm1, %r10d
	notl	%r10d
	jmp	.LBB1_38
.LBB1_32:
	cmpq	$16, %r11
	jne	.LBB1_34
	xorl	%r10d, %r10d
	xorl	%r8d, %r8d
	jmp	.LBB1_37
.LBB1_34:
	movq	%r11, 32(%rsp)
	leaq	-16(%rcx), %r15
	xorl	%r10d, %r10d
	movq	(%rsp), %rdi
	xorl	%r8d, %r8d
	.p2align	4
.LBB1_35:
	xorl	%eax, %eax
	cmpb	$0, (%rdi)
	setne	%al
	addl	%eax, %eax
	leal	(%rax,%r10,4), %eax
	movq	%r8, %r11
	xorq	$-2, %r11
	xorl	%r10d, %r10d
	cmpb	$0, (%rsi,%r11)
	setne	%r10b
	orl	%eax, %r10d
	addq	$2, %r8
	addq	$-2, %rdi
	cmpq	%r8, %r15
	jne	.LBB1_35
	testb	$1, %bpl
	movq	40(%rsp), %r15
	movq	24(%rsp), %rdi
	movq	32(%rsp), %r11
	je	.LBB1_38
.LBB1_37:
	notq	%r8
	xorl	%eax, %eax
	cmpb	$0, (%rsi,%r8)
	setne	%al
	leal	(%rax,%r10,2), %r10d
.LBB1_38:
	shll	$16, %r10d
	orq	%r10, %r12
	cmpw	$97, %r15w
	jb	.LBB1_61
	cmpq	$96, %rdx
	jne	.LBB1_40
	cmpq	$96, %r14
	jne	.LBB1_43
	xorl	%r10d, %r10d
	jmp	.LBB1_49
.LBB1_40:
	movdqu	96(%r9), %xmm0
	pxor	%xmm1, %xmm1
	pcmpeqb	%xmm0, %xmm1
	pmovmskb	%xmm1, %r10d
	notl	%r10d
	jmp	.LBB1_49
.LBB1_43:
	cmpq	$32, %r11
	jne	.LBB1_45
	xorl	%r10d, %r10d
	xorl	%r8d, %r8d
	jmp	.LBB1_48
.LBB1_45:
	movq	%r11, 32(%rsp)
	leaq	-32(%rcx), %r15
	xorl	%r10d, %r10d
	movq	(%rsp), %rdi
	xorl	%r8d, %r8d
	.p2align	4
.LBB1_46:
	xorl	%eax, %eax
	cmpb	$0, (%rdi)
	setne	%al
	addl	%eax, %eax
	leal	(%rax,%r10,4), %eax
	movq	%r8, %r11
	xorq	$-2, %r11
	xorl	%r10d, %r10d
	cmpb	$0, (%rsi,%r11)
	setne	%r10b
	orl	%eax, %r10d
	addq	$2, %r8
	addq	$-2, %rdi
	cmpq	%r8, %r15
	jne	.LBB1_46
	testb	$1, %bpl
	movq	40(%rsp), %r15
	movq	24(%rsp), %rdi
	movq	32(%rsp), %r11
	je	.LBB1_49
.LBB1_48:
	notq	%r8
	xorl	%eax, %eax
	cmpb	$0, (%rsi,%r8)
	setne	%al
	leal	(%rax,%r10,2), %r10d
.LBB1_49:
	movzwl	%r10w, %eax
	shlq	$32, %rax
	orq	%rax, %r12
	cmpw	$113, %r15w
	jb	.LBB1_61
	cmpq	$112, %rdx
	jne	.LBB1_51
	cmpq	$112, %r14
	jne	.LBB1_54
	xorl	%edx, %edx
	jmp	.LBB1_60
.LBB1_51:
	movdqu	112(%r9), %xmm0
	pxor	%xmm1, %xmm1
	pcmpeqb	%xmm0, %xmm1
	pmovmskb	%xmm1, %edx
	notl	%edx
	jmp	.LBB1_60
.LBB1_54:
	cmpq	$48, %r11
	jne	.LBB1_56
	xorl	%edx, %edx
	xorl	%r8d, %r8d
	jmp	.LBB1_59
.LBB1_56:
	addq	$-48, %rcx
	xorl	%edx, %edx
	movq	(%rsp), %r10
	xorl	%r8d, %r8d
	.p2align	4
.LBB1_57:
	xorl	%eax, %eax
	cmpb	$0, (%r10)
	setne	%al
	addl	%eax, %eax
	leal	(%rax,%rdx,4), %eax
	movq	%r8, %r11
	xorq	$-2, %r11
	xorl	%edx, %edx
	cmpb	$0, (%rsi,%r11)
	setne	%dl
	orl	%eax, %edx
	addq	$2, %r8
	addq	$-2, %r10
	cmpq	%r8, %rcx
	jne	.LBB1_57
	testb	$1, %bpl
	je	.LBB1_60
.LBB1_59:
	notq	%r8
	xorl	%eax, %eax
	cmpb	$0, (%rsi,%r8)
	setne	%al
	leal	(%rax,%rdx,2), %edx
.LBB1_60:
	movzwl	%dx, %eax
	shlq	$48, %rax
	orq	%rax, %r12
	.p2align	4
.LBB1_61:
	movq	40(%rsp), %r15
	cmpl	$129, %r15d
	movq	72(%rsp), %r10
	jae	.LBB1_63
.LBB1_62:
	xorl	%eax, %eax
	jmp	.LBB1_71
	.p2align	4
.LBB1_63:
	addq	$-128, %r14
	cmpq	$15, %r14
	ja	.LBB1_76
	testq	%r14, %r14
	je	.LBB1_62
	movq	16(%rsp), %rax
	cmpq	%rax, 88(%rsp)
	jne	.LBB1_67
	xorl	%eax, %eax
	xorl	%ecx, %ecx
	jmp	.LBB1_70
.LBB1_76:
	movdqu	128(%r9), %xmm0
	pxor	%xmm1, %xmm1
	pcmpeqb	%xmm0, %xmm1
	pmovmskb	%xmm1, %eax
	notl	%eax
	jmp	.LBB1_71
.LBB1_67:
	movq	%r10, %r14
	movq	%r10, %r8
	andq	$-2, %r8
	movq	80(%rsp), %rdx
	subq	%rax, %rdx
	xorl	%eax, %eax
	movq	(%rsp), %r9
	xorl	%ecx, %ecx
	.p2align	4
.LBB1_68:
	xorl	%r10d, %r10d
	cmpb	$0, (%r9)
	setne	%r10b
	addl	%r10d, %r10d
	leal	(%r10,%rax,4), %r10d
	movq	%rcx, %r11
	xorq	$-2, %r11
	xorl	%eax, %eax
	cmpb	$0, (%rsi,%r11)
	setne	%al
	orl	%r10d, %eax
	addq	$2, %rcx
	addq	$-2, %r9
	cmpq	%rcx, %r8
	jne	.LBB1_68
	testb	$1, %dl
	movq	%r14, %r10
	je	.LBB1_71
.LBB1_70:
	notq	%rcx
	xorl	%edx, %edx
	cmpb	$0, (%rsi,%rcx)
	setne	%dl
	leal	(%rdx,%rax,2), %eax
	.p2align	4
.LBB1_71:
	movq	8(%rsp), %r8
	jmp	.LBB1_72
.LBB1_73:
	addq	$128, %rsp
	popq	%rbx
	popq	%rbp
	popq	%rdi
	popq	%rsi
	popq	%r12
	popq	%r13
	popq	%r14
	popq	%r15
	retq
	.seh_endproc

	.def	"ecc200_calls::inspection::inspect_symbol::<=32,=98>";
	.scl	3;
	.type	32;
	.endef
	.section	.rdata,"dr"
	.p2align	4, 0x0
.LCPI2_0:
	.byte	1
	.byte	1
	.byte	1
	.byte	1
	.byte	1
	.byte	1
	.byte	1
	.byte	1
	.zero	1
	.zero	1
	.zero	1
	.zero	1
	.zero	1
	.zero	1
	.zero	1
	.zero	1
.LCPI2_1:
	.zero	16,241
.LCPI2_2:
	.zero	16,1
.LCPI2_3:
	.byte	241
	.byte	241
	.byte	241
	.byte	241
	.zero	1
	.zero	1
	.zero	1
	.zero	1
	.zero	1
	.zero	1
	.zero	1
	.zero	1
	.zero	1
	.zero	1
	.zero	1
	.zero	1
.LCPI2_4:
	.quad	4294967297
	.quad	4294967297
.LCPI2_5:
	.byte	241
	.byte	241
	.byte	241
	.byte	241
	.byte	241
	.byte	241
	.byte	241
	.byte	241
	.zero	1
	.zero	1
	.zero	1
	.zero	1
	.zero	1
	.zero	1
	.zero	1
	.zero	1
.LCPI2_6:
	.short	1
	.short	1
	.short	1
	.short	1
	.short	1
	.short	1
	.short	1
	.short	1
	.text
	.p2align	4
"ecc200_calls::inspection::inspect_symbol::<=32,=98>":
.seh_proc "ecc200_calls::inspection::inspect_symbol::<=32,=98>"
	pushq	%r15
	.seh_pushreg %r15
	pushq	%r14
	.seh_pushreg %r14
	pushq	%r13
	.seh_pushreg %r13
	pushq	%r12
	.seh_pushreg %r12
	pushq	%rsi
	.seh_pushreg %rsi
	pushq	%rdi
	.seh_pushreg %rdi
	pushq	%rbp
	.seh_pushreg %rbp
	pushq	%rbx
	.seh_pushreg %rbx
	subq	$568, %rsp
	.seh_stackalloc 568
	.seh_endprologue
	movq	%r9, %rsi
	xorps	%xmm0, %xmm0
	movups	%xmm0, 184(%rsp)
	movups	%xmm0, 168(%rsp)
	movups	%xmm0, 152(%rsp)
	movups	%xmm0, 136(%rsp)
	movups	%xmm0, 120(%rsp)
	movups	%xmm0, 104(%rsp)
	movups	%xmm0, 88(%rsp)
	movups	%xmm0, 72(%rsp)
	movzwl	(%rcx), %r12d
	movzwl	2(%rcx), %ebp
	movzwl	12(%rcx), %eax
	movw	%ax, 68(%rsp)
	movq	4(%rcx), %rax
	movq	%rax, 60(%rsp)
	movzwl	14(%rcx), %eax
	movw	$0, 516(%rsp)
	movb	$0, 518(%rsp)
	movzwl	12(%rcx), %r9d
	movw	%r9w, 186(%rsp)
	movq	4(%rcx), %r9
	movq	%r9, 178(%rsp)
	movups	%xmm0, 519(%rsp)
	movups	%xmm0, 535(%rsp)
	movups	%xmm0, 551(%rsp)
	movw	%r12w, 56(%rsp)
	movw	%bp, 58(%rsp)
	movw	%ax, 70(%rsp)
	leaq	76(%rsp), %rbx
	movups	%xmm0, 76(%rsp)
	movups	%xmm0, 92(%rsp)
	movups	%xmm0, 108(%rsp)
	movups	%xmm0, 124(%rsp)
	movups	%xmm0, 140(%rsp)
	movups	%xmm0, 156(%rsp)
	movw	$0, 172(%rsp)
	leaq	194(%rsp), %rdi
	movups	%xmm0, 274(%rsp)
	movups	%xmm0, 258(%rsp)
	movups	%xmm0, 242(%rsp)
	movups	%xmm0, 226(%rsp)
	movups	%xmm0, 210(%rsp)
	movups	%xmm0, 194(%rsp)
	movl	$0, 289(%rsp)
	movl	563(%rsp), %eax
	movl	%eax, 340(%rsp)
	movups	516(%rsp), %xmm0
	movdqu	532(%rsp), %xmm1
	movdqu	548(%rsp), %xmm2
	movdqu	%xmm2, 325(%rsp)
	movdqu	%xmm1, 309(%rsp)
	movups	%xmm0, 293(%rsp)
	movq	$0, 344(%rsp)
	movl	16(%rcx), %eax
	movl	%eax, 432(%rsp)
	movdqu	(%rcx), %xmm0
	movdqa	%xmm0, 416(%rsp)
	leaq	32(%rcx), %rax
	leaq	544(%rcx), %r9
	movl	$0, 436(%rsp)
	movdqa	%xmm0, 352(%rsp)
	movq	432(%rsp), %r10
	movq	%r10, 368(%rsp)
	movq	%rax, 376(%rsp)
	movq	$32, 384(%rsp)
	movq	%r9, 392(%rsp)
	movq	$32, 400(%rsp)
	testb	$1, %dl
	je	.LBB2_6
	movl	16(%r8), %eax
	movl	%eax, 464(%rsp)
	movdqu	(%r8), %xmm0
	movdqa	%xmm0, 448(%rsp)
	leaq	32(%r8), %rax
	addq	$544, %r8
	movl	$0, 468(%rsp)
	movq	%rax, 472(%rsp)
	movq	$32, 480(%rsp)
	movq	%r8, 488(%rsp)
	movq	$32, 496(%rsp)
	movq	(%rcx), %rax
	movq	6(%rcx), %rdx
	movq	%rdx, 104(%rbx)
	movq	%rax, 98(%rbx)
	movzwl	366(%rsp), %r14d
	movl	368(%rsp), %eax
	movq	(%rcx), %rdx
	movq	6(%rcx), %rcx
	movq	%rdx, 56(%rsp)
	movq	%rcx, 62(%rsp)
	movw	%r14w, 70(%rsp)
	movl	%eax, 72(%rsp)
	movw	%r14w, 188(%rsp)
	movl	%eax, 190(%rsp)
	leaq	352(%rsp), %r15
	leaq	448(%rsp), %r8
	movq	%r15, %rcx
	movb	$1, %dl
	callq	"dm_layout::symbols::border::border_faults"
	movw	%ax, 344(%rsp)
	leaq	296(%rsp), %r13
	addw	364(%rsp), %r14w
	movzwl	%r14w, %r14d
	movq	%r15, %rcx
	movq	%rbx, %rdx
	callq	"dm_layout::symbols::placing::lift_to"
	cmpw	$119, %r14w
	jb	.LBB2_7
	movl	%r14d, %eax
	andl	$-8, %eax
	xorl	%ecx, %ecx
	.p2align	4
.LBB2_3:
	movq	76(%rsp,%rcx), %rdx
	movq	%rdx, 194(%rsp,%rcx)
	addq	$8, %rcx
	cmpq	%rcx, %rax
	jne	.LBB2_3
	cmpl	%r14d, %eax
	je	.LBB2_8
	.p2align	4
.LBB2_5:
	movzbl	76(%rsp,%rax), %ecx
	movb	%cl, 194(%rsp,%rax)
	incq	%rax
	cmpq	%rax, %r14
	jne	.LBB2_5
	jmp	.LBB2_8
.LBB2_6:
	movq	(%rcx), %rax
	movq	6(%rcx), %rdx
	movq	%rdx, 104(%rbx)
	movq	%rax, 98(%rbx)
	movzwl	366(%rsp), %eax
	movl	368(%rsp), %edx
	movq	(%rcx), %r8
	movq	6(%rcx), %rcx
	movq	%r8, 56(%rsp)
	movq	%rcx, 62(%rsp)
	movw	%ax, 70(%rsp)
	movl	%edx, 72(%rsp)
	movw	%ax, 188(%rsp)
	movl	%edx, 190(%rsp)
	leaq	352(%rsp), %r14
	movq	%r14, %rcx
	xorl	%edx, %edx
	xorl	%r8d, %r8d
	callq	"dm_layout::symbols::border::border_faults"
	movw	%ax, 344(%rsp)
	leaq	296(%rsp), %rax
	movq	%rax, 40(%rsp)
	movq	%rdi, 32(%rsp)
	movq	%r14, %rcx
	xorl	%edx, %edx
	xorl	%r8d, %r8d
	movq	%rbx, %r9
	callq	"dm_symbol::symbol::inspection::mend"
	jmp	.LBB2_12
.LBB2_7:
	movq	%rdi, %rcx
	movq	%rbx, %rdx
	movq	%r14, %r8
	callq	memmove
.LBB2_8:
	movq	%r13, 32(%rsp)
	leaq	416(%rsp), %rcx
	leaq	448(%rsp), %r9
	movq	%rdi, %rdx
	movq	%r14, %r8
	callq	"dm_symbol::symbol::inspection::mend_doubtful"
	xorl	%eax, %eax
	movq	336(%rsp), %rcx
	.p2align	4
.LBB2_9:
	cmpq	%rax, %rcx
	je	.LBB2_13
	cmpb	$1, 296(%rsp,%rax,4)
	leaq	1(%rax), %rax
	je	.LBB2_9
	movq	%r13, 40(%rsp)
	movq	%r14, 32(%rsp)
	leaq	352(%rsp), %rcx
	leaq	448(%rsp), %r8
	movb	$1, %dl
	movq	%rdi, %r9
	callq	"dm_symbol::symbol::inspection::mend_restarted"
.LBB2_12:
	jmp	.LBB2_14
.LBB2_13:
	xorl	%eax, %eax
.LBB2_14:
	movb	%al, 292(%rsp)
	movq	336(%rsp), %r14
	pxor	%xmm0, %xmm0
	pinsrw	$3, %r12d, %xmm0
	movq	%xmm0, (%rsi)
	movw	%bp, 8(%rsi)
	movzwl	344(%rsp), %ecx
	movw	%cx, 10(%rsi)
	movw	%r14w, 12(%rsi)
	movzwl	70(%rsp), %edx
	addw	68(%rsp), %dx
	movw	%dx, 14(%rsi)
	movzbl	%al, %eax
	movw	%ax, 16(%rsi)
	movw	$0, 18(%rsi)
	testq	%r14, %r14
	je	.LBB2_21
	cmpq	$8, %r14
	jae	.LBB2_17
	xorl	%eax, %eax
	jmp	.LBB2_19
.LBB2_17:
	movq	%r14, %rax
	andq	$-8, %rax
	xorl	%ecx, %ecx
	.p2align	4
.LBB2_18:
	movd	296(%rsp,%rcx,4), %xmm0
	pinsrb	$1, 300(%rsp,%rcx,4), %xmm0
	pinsrb	$2, 304(%rsp,%rcx,4), %xmm0
	pinsrb	$3, 308(%rsp,%rcx,4), %xmm0
	pinsrb	$4, 312(%rsp,%rcx,4), %xmm0
	pinsrb	$5, 316(%rsp,%rcx,4), %xmm0
	pinsrb	$6, 320(%rsp,%rcx,4), %xmm0
	pinsrb	$7, 324(%rsp,%rcx,4), %xmm0
	movzbl	297(%rsp,%rcx,4), %r8d
	movd	%r8d, %xmm1
	pinsrb	$1, 301(%rsp,%rcx,4), %xmm1
	pinsrb	$2, 305(%rsp,%rcx,4), %xmm1
	pinsrb	$3, 309(%rsp,%rcx,4), %xmm1
	pinsrb	$4, 313(%rsp,%rcx,4), %xmm1
	pinsrb	$5, 317(%rsp,%rcx,4), %xmm1
	pinsrb	$6, 321(%rsp,%rcx,4), %xmm1
	pinsrb	$7, 325(%rsp,%rcx,4), %xmm1
	movzbl	302(%rsp,%rcx,4), %r8d
	movzbl	298(%rsp,%rcx,4), %r9d
	movd	%r9d, %xmm2
	pinsrb	$1, %r8d, %xmm2
	movzbl	306(%rsp,%rcx,4), %r8d
	pinsrb	$2, %r8d, %xmm2
	movzbl	310(%rsp,%rcx,4), %r8d
	pinsrb	$3, %r8d, %xmm2
	movzbl	314(%rsp,%rcx,4), %r8d
	pinsrb	$4, %r8d, %xmm2
	movzbl	318(%rsp,%rcx,4), %r8d
	pinsrb	$5, %r8d, %xmm2
	movzbl	322(%rsp,%rcx,4), %r8d
	pinsrb	$6, %r8d, %xmm2
	movzbl	326(%rsp,%rcx,4), %r8d
	pinsrb	$7, %r8d, %xmm2
	movzbl	303(%rsp,%rcx,4), %r8d
	movzbl	299(%rsp,%rcx,4), %r9d
	movd	%r9d, %xmm3
	pinsrb	$1, %r8d, %xmm3
	movzbl	307(%rsp,%rcx,4), %r8d
	pinsrb	$2, %r8d, %xmm3
	movzbl	311(%rsp,%rcx,4), %r8d
	pinsrb	$3, %r8d, %xmm3
	movzbl	315(%rsp,%rcx,4), %r8d
	pinsrb	$4, %r8d, %xmm3
	movzbl	319(%rsp,%rcx,4), %r8d
	pinsrb	$5, %r8d, %xmm3
	movzbl	323(%rsp,%rcx,4), %r8d
	pinsrb	$6, %r8d, %xmm3
	movzbl	327(%rsp,%rcx,4), %r8d
	pinsrb	$7, %r8d, %xmm3
	pcmpeqb	.LCPI2_0(%rip), %xmm0
	pcmpeqd	%xmm4, %xmm4
	pblendvb	%xmm0, %xmm1, %xmm4
	pand	%xmm0, %xmm2
	pand	%xmm3, %xmm0
	movq	%xmm4, 6252(%rsi,%rcx)
	movq	%xmm2, 6262(%rsi,%rcx)
	movq	%xmm0, 6272(%rsi,%rcx)
	addq	$8, %rcx
	cmpq	%rcx, %rax
	jne	.LBB2_18
	jmp	.LBB2_20
.LBB2_19:
	xorl	%ecx, %ecx
	cmpb	$1, 296(%rsp,%rax,4)
	movzbl	297(%rsp,%rax,4), %r8d
	movl	$255, %r9d
	cmovel	%r8d, %r9d
	movzbl	298(%rsp,%rax,4), %r8d
	cmovnel	%ecx, %r8d
	movzbl	299(%rsp,%rax,4), %r10d
	cmovnel	%ecx, %r10d
	movb	%r9b, 6252(%rsi,%rax)
	movb	%r8b, 6262(%rsi,%rax)
	movb	%r10b, 6272(%rsi,%rax)
	incq	%rax
.LBB2_20:
	cmpq	%rax, %r14
	jne	.LBB2_19
.LBB2_21:
	leaq	6282(%rsi), %rcx
	movzwl	%dx, %r8d
	movq	%rbx, %rdx
	callq	memcpy
	leaq	8460(%rsi), %rcx
	movzwl	186(%rsp), %ebx
	movzwl	188(%rsp), %eax
	addw	%bx, %ax
	movzwl	%ax, %r8d
	movq	%rdi, %rdx
	callq	memcpy
	xorl	%eax, %eax
	.p2align	4
.LBB2_22:
	cmpq	%rax, %r14
	je	.LBB2_25
	cmpb	$1, 296(%rsp,%rax,4)
	leaq	1(%rax), %rax
	je	.LBB2_22
	jmp	.LBB2_41
.LBB2_25:
	testq	%rbx, %rbx
	je	.LBB2_41
	cmpw	$4, %bx
	jae	.LBB2_28
	xorl	%ecx, %ecx
	xorl	%eax, %eax
	jmp	.LBB2_37
.LBB2_28:
	cmpw	$16, %bx
	jae	.LBB2_30
	xorl	%eax, %eax
	xorl	%ecx, %ecx
	jmp	.LBB2_34
.LBB2_30:
	movl	%ebx, %eax
	andl	$-16, %eax
	pxor	%xmm0, %xmm0
	xorl	%ecx, %ecx
	.p2align	4
.LBB2_31:
	movdqu	194(%rsp,%rcx), %xmm1
	pcmpeqb	.LCPI2_1(%rip), %xmm1
	por	%xmm1, %xmm0
	addq	$16, %rcx
	cmpq	%rcx, %rax
	jne	.LBB2_31
	ptest	.LCPI2_2(%rip), %xmm0
	setne	%cl
	cmpl	%ebx, %eax
	je	.LBB2_38
	testb	$12, %bl
	je	.LBB2_37
.LBB2_34:
	movq	%rax, %rdx
	movl	%ebx, %eax
	andl	$-4, %eax
	movzbl	%cl, %ecx
	movd	%ecx, %xmm0
	.p2align	4
.LBB2_35:
	movd	194(%rsp,%rdx), %xmm1
	pcmpeqb	.LCPI2_3(%rip), %xmm1
	pmovsxbd	%xmm1, %xmm1
	por	%xmm1, %xmm0
	addq	$4, %rdx
	cmpq	%rdx, %rax
	jne	.LBB2_35
	ptest	.LCPI2_4(%rip), %xmm0
	setne	%cl
	cmpl	%ebx, %eax
	je	.LBB2_38
	.p2align	4
.LBB2_37:
	cmpb	$-15, 194(%rsp,%rax)
	sete	%dl
	orb	%dl, %cl
	incq	%rax
	cmpq	%rax, %rbx
	jne	.LBB2_37
.LBB2_38:
	testb	$1, %cl
	je	.LBB2_41
	cmpw	$8, %bx
	jae	.LBB2_43
	xorl	%ecx, %ecx
	xorl	%eax, %eax
	jmp	.LBB2_46
.LBB2_41:
	movw	$0, 18(%rsi)
.LBB2_42:
	addq	$568, %rsp
	popq	%rbx
	popq	%rbp
	popq	%rdi
	popq	%rsi
	popq	%r12
	popq	%r13
	popq	%r14
	popq	%r15
	retq
.LBB2_43:
	movl	%ebx, %eax
	andl	$-8, %eax
	pxor	%xmm0, %xmm0
	xorl	%ecx, %ecx
	.p2align	4
.LBB2_44:
	movq	194(%rsp,%rcx), %xmm1
	pcmpeqb	.LCPI2_5(%rip), %xmm1
	pmovzxbw	%xmm1, %xmm1
	pand	.LCPI2_6(%rip), %xmm1
	paddw	%xmm1, %xmm0
	addq	$8, %rcx
	cmpq	%rcx, %rax
	jne	.LBB2_44
	pshufd	$238, %xmm0, %xmm1
	paddw	%xmm0, %xmm1
	pshufd	$85, %xmm1, %xmm0
	paddw	%xmm1, %xmm0
	movdqa	%xmm0, %xmm1
	psrld	$16, %xmm1
	paddw	%xmm0, %xmm1
	movd	%xmm1, %ecx
	cmpl	%ebx, %eax
	je	.LBB2_47
	.p2align	4
.LBB2_46:
	xorl	%edx, %edx
	cmpb	$-15, 194(%rsp,%rax)
	sete	%dl
	addl	%edx, %ecx
	incq	%rax
	cmpq	%rax, %rbx
	jne	.LBB2_46
.LBB2_47:
	cmpw	$31, %cx
	ja	.LBB2_49
	movq	%rsi, %rcx
	movq	%rdi, %rdx
	movq	%rbx, %r8
	callq	"ecc200_calls::inspection::find_designators::<=31>"
	jmp	.LBB2_42
.LBB2_49:
	movq	%rsi, %rcx
	movq	%rdi, %rdx
	movq	%rbx, %r8
	callq	"ecc200_calls::inspection::find_designators::<=779>"
	jmp	.LBB2_42
	.seh_endproc

	.def	"dm_layout::symbols::border::border_faults";
	.scl	3;
	.type	32;
	.endef
	.p2align	4
"dm_layout::symbols::border::border_faults":
.seh_proc "dm_layout::symbols::border::border_faults"
	pushq	%r15
	.seh_pushreg %r15
	pushq	%r14
	.seh_pushreg %r14
	pushq	%r13
	.seh_pushreg %r13
	pushq	%r12
	.seh_pushreg %r12
	pushq	%rsi
	.seh_pushreg %rsi
	pushq	%rdi
	.seh_pushreg %rdi
	pushq	%rbp
	.seh_pushreg %rbp
	pushq	%rbx
	.seh_pushreg %rbx
	subq	$176, %rsp
	.seh_stackalloc 176
	.seh_endprologue
	movq	%r8, 72(%rsp)
	movq	%rcx, %rbp
	movl	(%rcx), %ecx
	movzwl	4(%rbp), %r12d
	movzwl	6(%rbp), %r15d
	movzwl	8(%rbp), %eax
	movq	%rax, 112(%rsp)
	movzwl	10(%rbp), %eax
	movl	%ecx, %r9d
	shrl	$16, %r9d
	cmpb	$1, %dl
	movl	%ecx, 104(%rsp)
	movq	%rbp, 80(%rsp)
	jne	.LBB3_5
	cmpl	$8454143, %ecx
	ja	.LBB3_9
	testw	%ax, %ax
	je	.LBB3_11
	leal	2(%r15), %r13d
	cmpw	$1, %ax
	movq	%r15, 88(%rsp)
	jne	.LBB3_13
	xorl	%edx, %edx
	xorl	%r15d, %r15d
	xorl	%esi, %esi
	movq	$0, 96(%rsp)
	xorl	%eax, %eax
	jmp	.LBB3_16
.LBB3_5:
	cmpl	$8454143, %ecx
	ja	.LBB3_10
	testw	%ax, %ax
	je	.LBB3_12
	leal	2(%r15), %edi
	cmpw	$1, %ax
	movq	%r15, 88(%rsp)
	jne	.LBB3_30
	xorl	%edx, %edx
	xorl	%r15d, %r15d
	xorl	%r14d, %r14d
	xorl	%r11d, %r11d
	xorl	%eax, %eax
	jmp	.LBB3_33
.LBB3_9:
	leal	1(%r15), %ecx
	movl	$1, %eax
	xorl	%r10d, %r10d
	shldq	%cl, %rax, %r10
	leal	2(%r15), %r8d
	movl	$1, %edx
	shlq	%cl, %rdx
	xorl	%r11d, %r11d
	testb	$64, %cl
	cmovneq	%rdx, %r10
	movq	%r10, 16(%rsp)
	cmovneq	%r11, %rdx
	xorl	%r11d, %r11d
	movq	%rdx, 24(%rsp)
	xorl	%edx, %edx
	movl	%r8d, %ecx
	shldq	%cl, %rax, %rdx
	movl	$1, %r10d
	shlq	%cl, %r10
	testb	$64, %r8b
	cmovneq	%r10, %rdx
	movq	%rdx, 8(%rsp)
	cmovneq	%r11, %r10
	movq	%r10, 40(%rsp)
	leal	3(,%r15,2), %ecx
	xorl	%edx, %edx
	shldq	%cl, %rax, %rdx
	movl	$1, %esi
	shlq	%cl, %rsi
	testb	$64, %cl
	cmovneq	%rsi, %rdx
	movl	$0, %r10d
	cmovneq	%r10, %rsi
	leal	4(,%r15,2), %ecx
	xorl	%r13d, %r13d
	shldq	%cl, %rax, %r13
	movl	$1, %ebp
	shlq	%cl, %rbp
	testb	$64, %cl
	cmovneq	%rbp, %r13
	cmovneq	%r10, %rbp
	leal	(%r15,%r15,2), %ecx
	addl	$5, %ecx
	xorl	%r11d, %r11d
	shldq	%cl, %rax, %r11
	movl	$1, %r10d
	shlq	%cl, %r10
	testb	$64, %cl
	cmovneq	%r10, %r11
	movq	%r11, (%rsp)
	movl	$0, %r11d
	cmovneq	%r11, %r10
	movq	%r10, 48(%rsp)
	leal	(%r8,%r8,2), %ecx
	xorl	%ebx, %ebx
	shldq	%cl, %rax, %rbx
	movl	$1, %edi
	shlq	%cl, %rdi
	testb	$64, %cl
	cmovneq	%rdi, %rbx
	cmovneq	%r11, %rdi
	xorl	%r10d, %r10d
	addl	%r15d, %ecx
	incl	%ecx
	movl	%r9d, 32(%rsp)
	xorl	%r8d, %r8d
	shldq	%cl, %rax, %r8
	movl	$1, %r14d
	shlq	%cl, %r14
	testb	$64, %cl
	cmovneq	%r14, %r8
	movq	%r8, 64(%rsp)
	cmovneq	%r10, %r14
	xorl	%r9d, %r9d
	leal	8(,%r15,4), %ecx
	xorl	%r10d, %r10d
	shldq	%cl, %rax, %r10
	movl	$1, %r8d
	shlq	%cl, %r8
	testb	$64, %cl
	cmovneq	%r8, %r10
	cmovneq	%r9, %r8
	leal	(%r15,%r15,4), %ecx
	addl	$9, %ecx
	xorl	%r11d, %r11d
	shldq	%cl, %rax, %r11
	movl	$1, %r9d
	shlq	%cl, %r9
	testb	$64, %cl
	cmovneq	%r9, %r11
	movl	$0, %ecx
	cmovneq	%rcx, %r9
	leal	(%r15,%r15,4), %ecx
	addb	$10, %cl
	xorl	%r15d, %r15d
	shldq	%cl, %rax, %r15
	shlq	%cl, %rax
	testb	$64, %cl
	cmovneq	%rax, %r15
	movl	$0, %ecx
	cmovneq	%rcx, %rax
	orq	8(%rsp), %r13
	orq	%rbx, %r13
	orq	40(%rsp), %rbp
	orq	%rdi, %rbp
	orq	%r10, %r15
	orq	%r13, %r15
	orq	%r8, %rax
	orq	%rbp, %rax
	movq	80(%rsp), %rbp
	orq	16(%rsp), %rdx
	orq	(%rsp), %rdx
	orq	64(%rsp), %rdx
	movq	$-1, %rbx
	orq	%r11, %rdx
	movabsq	$6148914691236517205, %r8
	movb	$-112, %cl
	movl	32(%rsp), %r11d
	subb	%r11b, %cl
	orq	24(%rsp), %rsi
	movl	$65535, %r10d
	shrl	%cl, %r10d
	orq	$1, %rax
	orq	48(%rsp), %rsi
	orq	%r14, %rsi
	orq	%r9, %rsi
	orq	%r15, %rdx
	movq	%rdx, 96(%rsp)
	movq	%rax, 24(%rsp)
	orq	%rax, %rsi
	movl	%r11d, %ecx
	addb	$127, %cl
	movl	$1, %eax
	shll	%cl, %eax
	movq	%rax, 16(%rsp)
	movl	%r10d, 60(%rsp)
	movl	%r10d, %eax
	andl	$21845, %eax
	movq	%rax, 120(%rsp)
	movq	%r8, (%rsp)
	movq	%r8, 64(%rsp)
	movq	$-1, %r11
	jmp	.LBB3_18
.LBB3_10:
	leal	1(%r15), %ecx
	movl	$1, %edx
	xorl	%r10d, %r10d
	shldq	%cl, %rdx, %r10
	leal	2(%r15), %eax
	movl	$1, %r8d
	shlq	%cl, %r8
	xorl	%r11d, %r11d
	testb	$64, %cl
	cmovneq	%r8, %r10
	movq	%r10, 16(%rsp)
	cmovneq	%r11, %r8
	xorl	%r11d, %r11d
	movq	%r8, 24(%rsp)
	xorl	%r8d, %r8d
	movl	%eax, %ecx
	shldq	%cl, %rdx, %r8
	movl	$1, %r10d
	shlq	%cl, %r10
	testb	$64, %al
	cmovneq	%r10, %r8
	movq	%r8, 48(%rsp)
	cmovneq	%r11, %r10
	movq	%r10, 8(%rsp)
	leal	3(,%r15,2), %ecx
	xorl	%r11d, %r11d
	shldq	%cl, %rdx, %r11
	movl	$1, %r14d
	shlq	%cl, %r14
	testb	$64, %cl
	cmovneq	%r14, %r11
	movl	$0, %r8d
	cmovneq	%r8, %r14
	leal	4(,%r15,2), %ecx
	xorl	%r13d, %r13d
	shldq	%cl, %rdx, %r13
	movl	$1, %ebp
	shlq	%cl, %rbp
	testb	$64, %cl
	cmovneq	%rbp, %r13
	cmovneq	%r8, %rbp
	leal	(%r15,%r15,2), %ecx
	addl	$5, %ecx
	xorl	%r10d, %r10d
	shldq	%cl, %rdx, %r10
	movl	$1, %r8d
	shlq	%cl, %r8
	testb	$64, %cl
	cmovneq	%r8, %r10
	movq	%r10, (%rsp)
	movl	$0, %r10d
	cmovneq	%r10, %r8
	movq	%r8, 72(%rsp)
	leal	(%rax,%rax,2), %ecx
	movl	%r9d, 32(%rsp)
	xorl	%ebx, %ebx
	shldq	%cl, %rdx, %rbx
	movl	$1, %esi
	shlq	%cl, %rsi
	testb	$64, %cl
	cmovneq	%rsi, %rbx
	cmovneq	%r10, %rsi
	xorl	%eax, %eax
	addl	%r15d, %ecx
	incl	%ecx
	movq	%r12, 40(%rsp)
	xorl	%r12d, %r12d
	shldq	%cl, %rdx, %r12
	movl	$1, %edi
	shlq	%cl, %rdi
	testb	$64, %cl
	cmovneq	%rdi, %r12
	cmovneq	%rax, %rdi
	xorl	%r8d, %r8d
	leal	8(,%r15,4), %ecx
	xorl	%r9d, %r9d
	shldq	%cl, %rdx, %r9
	movl	$1, %eax
	shlq	%cl, %rax
	testb	$64, %cl
	cmovneq	%rax, %r9
	cmovneq	%r8, %rax
	leal	(%r15,%r15,4), %ecx
	addl	$9, %ecx
	xorl	%r10d, %r10d
	shldq	%cl, %rdx, %r10
	movl	$1, %r8d
	shlq	%cl, %r8
	testb	$64, %cl
	cmovneq	%r8, %r10
	movl	$0, %ecx
	cmovneq	%rcx, %r8
	leal	(%r15,%r15,4), %ecx
	addb	$10, %cl
	xorl	%r15d, %r15d
	shldq	%cl, %rdx, %r15
	shlq	%cl, %rdx
	testb	$64, %cl
	cmovneq	%rdx, %r15
	movl	$0, %ecx
	cmovneq	%rcx, %rdx
	orq	48(%rsp), %r13
	orq	%rbx, %r13
	orq	8(%rsp), %rbp
	orq	%rsi, %rbp
	orq	%r9, %r15
	orq	%r13, %r15
	orq	%rax, %rdx
	orq	%rbp, %rdx
	movq	80(%rsp), %rbp
	orq	16(%rsp), %r11
	orq	(%rsp), %r11
	orq	%r12, %r11
	movq	40(%rsp), %r12
	movq	$-1, %rsi
	orq	%r10, %r11
	movabsq	$6148914691236517205, %rax
	movb	$-112, %cl
	movl	32(%rsp), %r9d
	subb	%r9b, %cl
	orq	24(%rsp), %r14
	movl	$65535, %r10d
	shrl	%cl, %r10d
	orq	$1, %rdx
	orq	72(%rsp), %r14
	orq	%rdi, %r14
	orq	%r8, %r14
	orq	%r15, %r11
	orq	%rdx, %r14
	movl	%r9d, %ecx
	addb	$127, %cl
	movl	$1, %edi
	shll	%cl, %edi
	movl	%r10d, %ecx
	andl	$21845, %ecx
	movq	%rcx, (%rsp)
	movq	%rax, 16(%rsp)
	movq	%rax, 8(%rsp)
	movq	$-1, %r13
	jmp	.LBB3_35
.LBB3_11:
	xorl	%esi, %esi
	movq	$0, 96(%rsp)
	xorl	%edx, %edx
	xorl	%r15d, %r15d
	jmp	.LBB3_17
.LBB3_12:
	xorl	%r14d, %r14d
	xorl	%r11d, %r11d
	xorl	%edx, %edx
	xorl	%r15d, %r15d
	jmp	.LBB3_34
.LBB3_13:
	movl	%r9d, 32(%rsp)
	movl	%eax, (%rsp)
	andl	$65534, %eax
	movl	%eax, 24(%rsp)
	leal	3(,%r15,2), %eax
	movq	%rax, 16(%rsp)
	leal	4(,%r15,2), %eax
	movq	%rax, 40(%rsp)
	leal	1(%r15), %eax
	movq	%rax, 8(%rsp)
	xorl	%r11d, %r11d
	xorl	%edx, %edx
	xorl	%r8d, %r8d
	xorl	%esi, %esi
	xorl	%ecx, %ecx
	xorl	%eax, %eax
	.p2align	4
.LBB3_14:
	movl	$1, %ebp
	xorl	%r10d, %r10d
	movq	%rcx, %r14
	movl	%r11d, %ecx
	shldq	%cl, %rbp, %r10
	xorl	%edi, %edi
	movl	$1, %r9d
	shlq	%cl, %r9
	testb	$64, %r11b
	cmovneq	%r9, %r10
	cmovneq	%rdi, %r9
	xorl	%r15d, %r15d
	movq	8(%rsp), %rcx
	addl	%r11d, %ecx
	xorl	%edi, %edi
	shldq	%cl, %rbp, %rdi
	orq	%r10, %r8
	orq	%r9, %rdx
	movl	$1, %ebx
	shlq	%cl, %rbx
	testb	$64, %cl
	cmovneq	%rbx, %rdi
	cmovneq	%r15, %rbx
	leal	(%r11,%r13), %ecx
	movq	%r13, %r15
	xorl	%r13d, %r13d
	shldq	%cl, %rbp, %r13
	orq	%r14, %rdi
	orq	%rsi, %rbx
	movl	$1, %esi
	shlq	%cl, %rsi
	testb	$64, %cl
	cmovneq	%rsi, %r13
	movl	$0, %ecx
	cmovneq	%rcx, %rsi
	orq	%r13, %r8
	movq	16(%rsp), %rcx
	addl	%r11d, %ecx
	xorl	%r14d, %r14d
	shldq	%cl, %rbp, %r14
	shlq	%cl, %rbp
	orq	%rsi, %rdx
	testb	$64, %cl
	movq	%r14, %rcx
	cmovneq	%rbp, %rcx
	movl	$0, %r14d
	cmovneq	%r14, %rbp
	orq	%r10, %rcx
	orq	%rdi, %rcx
	orq	%r9, %rbp
	orq	%rbx, %rbp
	orq	%r13, %rcx
	movq	%r15, %r13
	orq	%rsi, %rbp
	movq	%rbp, %rsi
	addl	$2, %eax
	movq	40(%rsp), %r9
	addl	%r9d, %r11d
	cmpw	%ax, 24(%rsp)
	jne	.LBB3_14
	movq	%rcx, 96(%rsp)
	testb	$1, (%rsp)
	movq	80(%rsp), %rbp
	movl	32(%rsp), %r9d
	movq	%r8, %r15
	je	.LBB3_17
.LBB3_16:
	imull	%r13d, %eax
	movl	%r9d, %ebx
	movl	$1, %r9d
	xorl	%r8d, %r8d
	movl	%eax, %ecx
	shldq	%cl, %r9, %r8
	movq	88(%rsp), %rdi
	incl	%edi
	xorl	%r11d, %r11d
	movl	$1, %r10d
	shlq	%cl, %r10
	testb	$64, %al
	cmovneq	%r10, %r8
	cmovneq	%r11, %r10
	orq	%r8, %r15
	addl	%eax, %edi
	xorl	%eax, %eax
	movl	%edi, %ecx
	shldq	%cl, %r9, %rax
	shlq	%cl, %r9
	orq	%r10, %rdx
	testb	$64, %dil
	cmovneq	%r9, %rax
	cmovneq	%r11, %r9
	orq	96(%rsp), %r8
	orq	%rax, %r8
	orq	%rsi, %r10
	orq	%r9, %r10
	movl	%ebx, %r9d
	movq	%r10, %rsi
	movq	%r8, 96(%rsp)
.LBB3_17:
	movq	%rdx, 24(%rsp)
	movq	$-1, %r11
	movq	$-1, %rax
	movl	%r9d, %ecx
	shlq	%cl, %rax
	movq	$0, 16(%rsp)
	testb	$64, %r9b
	cmovneq	%rax, %r11
	movl	$0, %ebx
	cmoveq	%rax, %rbx
	notq	%rbx
	notq	%r11
	movabsq	$6148914691236517205, %rax
	movq	%r11, %rcx
	andq	%rax, %rcx
	movq	%rcx, 64(%rsp)
	andq	%rbx, %rax
	movq	%rax, (%rsp)
	movq	$0, 120(%rsp)
	movl	$0, 60(%rsp)
.LBB3_18:
	cmpq	$0, 112(%rsp)
	je	.LBB3_44
	movq	%rsi, 136(%rsp)
	movq	%r15, 144(%rsp)
	leal	1(%r12), %eax
	addl	$2, %r12d
	movq	%rax, 152(%rsp)
	movzwl	%ax, %ecx
	testw	%cx, %cx
	movq	64(%rsp), %rax
	cmoveq	%r11, %rax
	movq	%rax, 64(%rsp)
	movq	(%rsp), %rax
	cmoveq	%rbx, %rax
	movq	%rax, (%rsp)
	movq	120(%rsp), %rax
	cmovel	60(%rsp), %eax
	movq	%rax, 120(%rsp)
	movq	24(%rbp), %rdi
	movq	72(%rsp), %rax
	movq	24(%rax), %rsi
	shrl	%ecx
	movq	%rcx, 128(%rsp)
	movw	$2, %r14w
	xorl	%ecx, %ecx
	xorl	%edx, %edx
	movq	%r12, 40(%rsp)
	movq	%rbx, 168(%rsp)
	movq	%r11, 160(%rsp)
	jmp	.LBB3_22
	.p2align	4
.LBB3_20:
	addl	%r8d, %r8d
	movq	80(%rsp), %rbp
	movq	40(%rbp), %rdx
	movzwl	(%rdx,%r8), %edx
	movq	72(%rsp), %r10
	movq	40(%r10), %r10
	movzwl	(%r10,%r8), %r8d
	notl	%edx
	andl	60(%rsp), %edx
	notl	%r8d
	andl	%edx, %r8d
	movzwl	%r8w, %edx
	popcntq	%rcx, %rcx
	xorl	%r8d, %r8d
	popcntq	%rax, %r8
	xorl	%eax, %eax
	popcntl	%edx, %eax
	addl	%ecx, %eax
	addl	%r8d, %eax
	movq	40(%rsp), %r12
.LBB3_21:
	movl	8(%rsp), %r14d
	movl	32(%rsp), %ecx
	movzwl	%ax, %eax
	addl	%ecx, %eax
	addl	%r9d, %eax
	movq	48(%rsp), %rcx
	incq	%rcx
	addl	%r12d, %r14d
	movl	%eax, %edx
	cmpq	112(%rsp), %rcx
	je	.LBB3_45
.LBB3_22:
	movl	%edx, 32(%rsp)
	movl	%r12d, %eax
	movq	%rcx, 48(%rsp)
	imull	%ecx, %eax
	movzwl	%ax, %edx
	movl	%edx, %r8d
	shll	$4, %r8d
	movq	8(%rdi,%r8), %rax
	xorq	64(%rsp), %rax
	movq	(%rdi,%r8), %rcx
	xorq	(%rsp), %rcx
	pcmpeqd	%xmm0, %xmm0
	pxor	(%rsi,%r8), %xmm0
	pextrq	$1, %xmm0, %r8
	movq	%xmm0, %r9
	andq	%r11, %rax
	andq	%r8, %rax
	andq	%rbx, %rcx
	andq	%r9, %rcx
	movl	104(%rsp), %r12d
	cmpl	$8454143, %r12d
	movl	%r14d, 8(%rsp)
	movq	%rdx, 88(%rsp)
	ja	.LBB3_25
	popcntq	%rcx, %rcx
	xorl	%r10d, %r10d
	popcntq	%rax, %r10
	addl	%ecx, %r10d
	cmpl	$4259840, %r12d
	cmovbl	%ecx, %r10d
	movl	%r14d, %ecx
	movq	128(%rsp), %rax
	movq	%rax, %r8
	movl	%r10d, %r9d
	testq	%rax, %rax
	movq	24(%rsp), %rdx
	movq	144(%rsp), %r15
	movq	136(%rsp), %r14
	movq	96(%rsp), %r13
	je	.LBB3_27
	.p2align	4
.LBB3_24:
	leal	-1(%rcx), %eax
	movzwl	%ax, %eax
	shll	$4, %eax
	movdqa	(%rsi,%rax), %xmm0
	por	(%rdi,%rax), %xmm0
	pcmpeqd	%xmm1, %xmm1
	pxor	%xmm1, %xmm0
	pextrq	$1, %xmm0, %rax
	movzwl	%cx, %r9d
	shll	$4, %r9d
	movq	8(%rdi,%r9), %r11
	xorq	%r15, %r11
	movq	(%rdi,%r9), %rbx
	pxor	(%rsi,%r9), %xmm1
	xorq	%rdx, %rbx
	pextrq	$1, %xmm1, %r9
	andq	%r13, %r11
	andq	%r9, %r11
	movq	%xmm1, %r9
	andq	%r14, %rbx
	andq	%r9, %rbx
	movq	%xmm0, %r9
	andq	%r13, %rax
	andq	%r14, %r9
	xorl	%ebp, %ebp
	popcntq	%r9, %rbp
	popcntq	%rax, %rax
	addl	%ebp, %eax
	popcntq	%rbx, %rbx
	xorl	%r9d, %r9d
	popcntq	%r11, %r9
	addl	%ebx, %r9d
	cmpl	$4259840, %r12d
	cmovbl	%ebp, %eax
	cmovbl	%ebx, %r9d
	addl	%r10d, %r9d
	addl	%eax, %r9d
	addl	$2, %ecx
	movl	%r9d, %r10d
	decq	%r8
	jne	.LBB3_24
	jmp	.LBB3_27
	.p2align	4
.LBB3_25:
	leal	(%rdx,%rdx), %r9d
	movq	40(%rbp), %r10
	movq	72(%rsp), %rdx
	movq	40(%rdx), %r8
	movzwl	(%r8,%r9), %r11d
	movzwl	(%r10,%r9), %r9d
	xorw	120(%rsp), %r9w
	movl	60(%rsp), %ebx
	andl	%r9d, %ebx
	notl	%r11d
	andl	%ebx, %r11d
	movzwl	%r11w, %r9d
	popcntq	%rcx, %rcx
	popcntq	%rax, %rax
	popcntl	%r9d, %r9d
	addl	%ecx, %r9d
	addl	%eax, %r9d
	movl	%r14d, %ebp
	movq	128(%rsp), %rax
	movq	%rax, %rcx
	testq	%rax, %rax
	movq	144(%rsp), %r15
	movq	136(%rsp), %r14
	movq	96(%rsp), %r13
	je	.LBB3_27
	.p2align	4
.LBB3_26:
	leal	-1(%rbp), %eax
	movzwl	%ax, %eax
	movl	%eax, %r11d
	shll	$4, %r11d
	movdqa	(%rsi,%r11), %xmm1
	por	(%rdi,%r11), %xmm1
	pcmpeqd	%xmm0, %xmm0
	movzwl	%bp, %ebx
	movl	%ebx, %r11d
	shll	$4, %r11d
	movq	(%rdi,%r11), %rdx
	xorq	24(%rsp), %rdx
	movq	8(%rdi,%r11), %r12
	xorq	%r15, %r12
	movdqa	(%rsi,%r11), %xmm2
	pxor	%xmm0, %xmm2
	movq	%xmm2, %r11
	andq	%r14, %rdx
	andq	%r11, %rdx
	pextrq	$1, %xmm2, %r11
	andq	%r13, %r12
	andq	%r11, %r12
	addl	%ebx, %ebx
	popcntq	%r12, %r12
	xorl	%r11d, %r11d
	popcntq	%rdx, %r11
	addl	%r12d, %r11d
	movl	104(%rsp), %r12d
	movzwl	(%r8,%rbx), %edx
	movd	%edx, %xmm2
	movzwl	(%r10,%rbx), %edx
	movq	16(%rsp), %rbx
	andw	%bx, %dx
	movd	%edx, %xmm3
	pxor	%xmm0, %xmm1
	addl	%eax, %eax
	pinsrw	$1, (%r8,%rax), %xmm2
	movzwl	(%r10,%rax), %eax
	notl	%eax
	andl	%ebx, %eax
	pinsrw	$1, %eax, %xmm3
	movq	%xmm1, %rax
	andq	%r14, %rax
	popcntq	%rax, %rax
	addl	%eax, %r9d
	pextrq	$1, %xmm1, %rax
	andq	%r13, %rax
	popcntq	%rax, %rax
	addl	%eax, %r9d
	pandn	%xmm3, %xmm2
	pxor	%xmm1, %xmm1
	pcmpeqw	%xmm2, %xmm1
	pxor	%xmm0, %xmm1
	pmovsxwq	%xmm1, %xmm0
	addl	%r11d, %r9d
	movmskpd	%xmm0, %eax
	movl	%eax, %edx
	andl	$1, %eax
	addl	%eax, %r9d
	shrb	%dl
	movzbl	%dl, %eax
	addl	%eax, %r9d
	addl	$2, %ebp
	decq	%rcx
	jne	.LBB3_26
.LBB3_27:
	movq	152(%rsp), %rax
	movq	88(%rsp), %rcx
	addl	%ecx, %eax
	movzwl	%ax, %r8d
	movl	%r8d, %eax
	shll	$4, %eax
	movdqa	(%rsi,%rax), %xmm0
	por	(%rdi,%rax), %xmm0
	pcmpeqd	%xmm1, %xmm1
	pxor	%xmm0, %xmm1
	pextrq	$1, %xmm1, %rax
	movq	%xmm1, %rcx
	movq	160(%rsp), %r11
	andq	%r11, %rax
	movq	168(%rsp), %rbx
	andq	%rbx, %rcx
	cmpl	$8454143, %r12d
	ja	.LBB3_20
	popcntq	%rcx, %rcx
	popcntq	%rax, %rax
	addl	%ecx, %eax
	cmpl	$4259840, %r12d
	cmovbl	%ecx, %eax
	movq	40(%rsp), %r12
	movq	80(%rsp), %rbp
	jmp	.LBB3_21
.LBB3_30:
	movl	%r9d, 32(%rsp)
	movq	%r12, 40(%rsp)
	movl	%eax, (%rsp)
	andl	$65534, %eax
	movl	%eax, 24(%rsp)
	leal	3(,%r15,2), %eax
	movq	%rax, 16(%rsp)
	leal	4(,%r15,2), %eax
	movq	%rax, 8(%rsp)
	leal	1(%r15), %eax
	movq	%rax, 48(%rsp)
	xorl	%r8d, %r8d
	xorl	%edx, %edx
	xorl	%r15d, %r15d
	xorl	%r14d, %r14d
	xorl	%r11d, %r11d
	xorl	%eax, %eax
	.p2align	4
.LBB3_31:
	movl	$1, %ebp
	xorl	%r10d, %r10d
	movl	%r8d, %ecx
	shldq	%cl, %rbp, %r10
	xorl	%esi, %esi
	movl	$1, %r9d
	shlq	%cl, %r9
	testb	$64, %r8b
	cmovneq	%r9, %r10
	cmovneq	%rsi, %r9
	xorl	%esi, %esi
	movq	48(%rsp), %rcx
	addl	%r8d, %ecx
	xorl	%ebx, %ebx
	shldq	%cl, %rbp, %rbx
	orq	%r10, %r15
	orq	%r9, %rdx
	movl	$1, %r12d
	shlq	%cl, %r12
	testb	$64, %cl
	cmovneq	%r12, %rbx
	cmovneq	%rsi, %r12
	leal	(%rdi,%r8), %ecx
	xorl	%r13d, %r13d
	shldq	%cl, %rbp, %r13
	orq	%r11, %rbx
	orq	%r14, %r12
	movq	%rdi, %rsi
	movl	$1, %edi
	shlq	%cl, %rdi
	testb	$64, %cl
	cmovneq	%rdi, %r13
	movl	$0, %r14d
	cmovneq	%r14, %rdi
	orq	%r13, %r15
	movq	16(%rsp), %rcx
	addl	%r8d, %ecx
	xorl	%r11d, %r11d
	shldq	%cl, %rbp, %r11
	shlq	%cl, %rbp
	orq	%rdi, %rdx
	testb	$64, %cl
	cmovneq	%rbp, %r11
	cmovneq	%r14, %rbp
	orq	%r10, %r11
	orq	%rbx, %r11
	orq	%r9, %rbp
	orq	%r12, %rbp
	orq	%r13, %r11
	movq	%rbp, %r14
	orq	%rdi, %r14
	movq	%rsi, %rdi
	addl	$2, %eax
	movq	8(%rsp), %rcx
	addl	%ecx, %r8d
	cmpw	%ax, 24(%rsp)
	jne	.LBB3_31
	testb	$1, (%rsp)
	movq	40(%rsp), %r12
	movq	80(%rsp), %rbp
	movl	32(%rsp), %r9d
	je	.LBB3_34
.LBB3_33:
	imull	%edi, %eax
	movl	%r9d, %ebx
	movl	$1, %r9d
	xorl	%r8d, %r8d
	movl	%eax, %ecx
	shldq	%cl, %r9, %r8
	movq	88(%rsp), %rdi
	incl	%edi
	xorl	%esi, %esi
	movl	$1, %r10d
	shlq	%cl, %r10
	testb	$64, %al
	cmovneq	%r10, %r8
	cmovneq	%rsi, %r10
	orq	%r8, %r15
	addl	%eax, %edi
	xorl	%eax, %eax
	movl	%edi, %ecx
	shldq	%cl, %r9, %rax
	shlq	%cl, %r9
	orq	%r10, %rdx
	testb	$64, %dil
	cmovneq	%r9, %rax
	cmovneq	%rsi, %r9
	orq	%r11, %r8
	orq	%rax, %r8
	orq	%r14, %r10
	orq	%r9, %r10
	movl	%ebx, %r9d
	movq	%r10, %r14
	movq	%r8, %r11
.LBB3_34:
	movq	$-1, %r13
	movq	$-1, %rax
	movl	%r9d, %ecx
	shlq	%cl, %rax
	xorl	%edi, %edi
	testb	$64, %r9b
	cmovneq	%rax, %r13
	movl	$0, %esi
	cmoveq	%rax, %rsi
	notq	%rsi
	notq	%r13
	movabsq	$6148914691236517205, %rax
	movq	%r13, %rcx
	andq	%rax, %rcx
	movq	%rcx, 8(%rsp)
	andq	%rsi, %rax
	movq	%rax, 16(%rsp)
	movq	$0, (%rsp)
	xorl	%r10d, %r10d
.LBB3_35:
	cmpq	$0, 112(%rsp)
	je	.LBB3_44
	leal	1(%r12), %eax
	addl	$2, %r12d
	movl	%eax, 88(%rsp)
	movzwl	%ax, %ecx
	testw	%cx, %cx
	movq	8(%rsp), %rax
	cmoveq	%r13, %rax
	movq	%rax, 8(%rsp)
	movq	16(%rsp), %rax
	cmoveq	%rsi, %rax
	movq	%rax, 16(%rsp)
	movq	(%rsp), %rax
	cmovel	%r10d, %eax
	movq	%rax, (%rsp)
	shrl	%ecx
	movq	%rcx, 24(%rsp)
	movq	24(%rbp), %rbx
	cmpl	$8454143, 104(%rsp)
	movq	%r12, 40(%rsp)
	movq	%rsi, 48(%rsp)
	movq	%r13, 32(%rsp)
	ja	.LBB3_46
	movw	$2, %r9w
	xorl	%r10d, %r10d
	xorl	%ecx, %ecx
	jmp	.LBB3_39
	.p2align	4
.LBB3_38:
	addl	88(%rsp), %edi
	movzwl	%di, %r8d
	shll	$4, %r8d
	pcmpeqd	%xmm0, %xmm0
	pxor	(%rbx,%r8), %xmm0
	movq	%xmm0, %r8
	pextrq	$1, %xmm0, %rsi
	movq	32(%rsp), %r13
	andq	%r13, %rsi
	movq	48(%rsp), %rdi
	andq	%rdi, %r8
	popcntq	%r8, %r8
	popcntq	%rsi, %rsi
	addl	%r8d, %esi
	cmpl	$4259840, 104(%rsp)
	cmovbl	%r8d, %esi
	addl	%ecx, %eax
	addl	%esi, %eax
	movq	%rdi, %rsi
	incq	%r10
	movq	40(%rsp), %r12
	addl	%r12d, %r9d
	movl	%eax, %ecx
	cmpq	112(%rsp), %r10
	je	.LBB3_45
.LBB3_39:
	movl	%r12d, %edi
	imull	%r10d, %edi
	movzwl	%di, %eax
	shll	$4, %eax
	movq	(%rbx,%rax), %r8
	xorq	16(%rsp), %r8
	movq	8(%rbx,%rax), %rax
	xorq	8(%rsp), %rax
	andq	%r13, %rax
	andq	%rsi, %r8
	xorl	%ebp, %ebp
	popcntq	%r8, %rbp
	xorl	%r8d, %r8d
	popcntq	%rax, %r8
	addl	%ebp, %r8d
	movl	104(%rsp), %r12d
	cmpl	$4259840, %r12d
	movl	%r8d, %eax
	cmovbl	%ebp, %eax
	movq	24(%rsp), %r13
	testq	%r13, %r13
	je	.LBB3_38
	movl	%r9d, %esi
	cmpl	$4259840, %r12d
	jae	.LBB3_43
	movl	%r9d, %r8d
	movq	24(%rsp), %rsi
	.p2align	4
.LBB3_42:
	leal	-1(%r8), %eax
	movzwl	%ax, %eax
	shll	$4, %eax
	movq	(%rbx,%rax), %rax
	notq	%rax
	andq	%r14, %rax
	xorl	%r12d, %r12d
	popcntq	%rax, %r12
	movzwl	%r8w, %eax
	shll	$4, %eax
	movq	(%rbx,%rax), %rax
	xorq	%rdx, %rax
	andq	%r14, %rax
	popcntq	%rax, %rax
	addl	%ebp, %eax
	addl	%r12d, %eax
	addl	$2, %r8d
	movl	%eax, %ebp
	decq	%rsi
	jne	.LBB3_42
	jmp	.LBB3_38
	.p2align	4
.LBB3_43:
	leal	-1(%rsi), %eax
	movzwl	%ax, %eax
	shll	$4, %eax
	pcmpeqd	%xmm0, %xmm0
	pxor	(%rbx,%rax), %xmm0
	pextrq	$1, %xmm0, %rax
	movq	%xmm0, %r12
	andq	%r14, %r12
	andq	%r11, %rax
	popcntq	%rax, %rax
	popcntq	%r12, %r12
	addl	%r12d, %r8d
	addl	%eax, %r8d
	movzwl	%si, %eax
	shll	$4, %eax
	movq	8(%rbx,%rax), %r12
	xorq	%r15, %r12
	movq	(%rbx,%rax), %rax
	xorq	%rdx, %rax
	andq	%r14, %rax
	andq	%r11, %r12
	popcntq	%r12, %r12
	popcntq	%rax, %rax
	addl	%r12d, %eax
	addl	%r8d, %eax
	addl	$2, %esi
	movl	%eax, %r8d
	decq	%r13
	jne	.LBB3_43
	jmp	.LBB3_38
.LBB3_44:
	xorl	%eax, %eax
.LBB3_45:
	addq	$176, %rsp
	popq	%rbx
	popq	%rbp
	popq	%rdi
	popq	%rsi
	popq	%r12
	popq	%r13
	popq	%r14
	popq	%r15
	retq
.LBB3_46:
	movq	40(%rbp), %rbp
	movw	$2, %ax
	movl	%eax, 72(%rsp)
	xorl	%ecx, %ecx
	xorl	%r8d, %r8d
	movl	%r10d, 64(%rsp)
	jmp	.LBB3_48
	.p2align	4
.LBB3_47:
	addl	88(%rsp), %r13d
	movzwl	%r13w, %ecx
	movl	%ecx, %r8d
	shll	$4, %r8d
	pcmpeqd	%xmm0, %xmm0
	pxor	(%rbx,%r8), %xmm0
	movzwl	(%rbp,%rcx,2), %ecx
	pextrq	$1, %xmm0, %r8
	movq	%xmm0, %r9
	movq	48(%rsp), %rsi
	andq	%rsi, %r9
	movq	32(%rsp), %r13
	andq	%r13, %r8
	notl	%ecx
	movl	64(%rsp), %r10d
	andl	%r10d, %ecx
	popcntq	%r8, %r8
	popcntq	%r9, %r9
	movzwl	%cx, %ecx
	popcntl	%ecx, %ecx
	addl	%r9d, %ecx
	addl	%r8d, %ecx
	addl	80(%rsp), %eax
	addl	%ecx, %eax
	movq	104(%rsp), %rcx
	incq	%rcx
	movq	40(%rsp), %r12
	addl	%r12d, 72(%rsp)
	movl	%eax, %r8d
	cmpq	112(%rsp), %rcx
	je	.LBB3_45
.LBB3_48:
	movl	%r8d, 80(%rsp)
	movq	%r13, %r9
	movl	%r12d, %r13d
	movq	%rcx, 104(%rsp)
	imull	%ecx, %r13d
	movzwl	%r13w, %eax
	movzwl	(%rbp,%rax,2), %ecx
	shll	$4, %eax
	xorw	(%rsp), %cx
	movl	%r10d, %r8d
	andl	%ecx, %r8d
	movq	8(%rbx,%rax), %rcx
	xorq	8(%rsp), %rcx
	movq	(%rbx,%rax), %rax
	xorq	16(%rsp), %rax
	andq	%rsi, %rax
	andq	%r9, %rcx
	popcntq	%rcx, %rcx
	xorl	%esi, %esi
	popcntq	%rax, %rsi
	addl	%ecx, %esi
	movzwl	%r8w, %eax
	popcntl	%eax, %eax
	addl	%esi, %eax
	movq	24(%rsp), %rsi
	testq	%rsi, %rsi
	je	.LBB3_47
	movl	72(%rsp), %ecx
	movl	%ecx, %r8d
	.p2align	4
.LBB3_50:
	leal	-1(%r8), %ecx
	movzwl	%cx, %r12d
	movl	%r12d, %ecx
	shll	$4, %ecx
	pcmpeqd	%xmm0, %xmm0
	pxor	(%rbx,%rcx), %xmm0
	movzwl	%r8w, %r10d
	movl	%r10d, %ecx
	shll	$4, %ecx
	movq	8(%rbx,%rcx), %r9
	xorq	%r15, %r9
	movq	(%rbx,%rcx), %rcx
	xorq	%rdx, %rcx
	andq	%r14, %rcx
	andq	%r11, %r9
	popcntq	%r9, %r9
	popcntq	%rcx, %rcx
	addl	%r9d, %ecx
	movq	%xmm0, %r9
	andq	%r14, %r9
	popcntq	%r9, %r9
	addl	%r9d, %eax
	pextrq	$1, %xmm0, %r9
	andq	%r11, %r9
	popcntq	%r9, %r9
	addl	%r9d, %eax
	movzwl	(%rbp,%r12,2), %r9d
	movzwl	(%rbp,%r10,2), %r10d
	notl	%r9d
	andl	%edi, %r9d
	andw	%di, %r10w
	cmpw	$1, %r9w
	sbbw	$-1, %ax
	addl	%ecx, %eax
	cmpw	$1, %r10w
	sbbw	$-1, %ax
	addl	$2, %r8d
	decq	%rsi
	jne	.LBB3_50
	jmp	.LBB3_47
	.seh_endproc

	.def	"dm_symbol::symbol::inspection::mend";
	.scl	3;
	.type	32;
	.endef
	.p2align	4
"dm_symbol::symbol::inspection::mend":
.seh_proc "dm_symbol::symbol::inspection::mend"
	pushq	%r15
	.seh_pushreg %r15
	pushq	%r14
	.seh_pushreg %r14
	pushq	%r13
	.seh_pushreg %r13
	pushq	%r12
	.seh_pushreg %r12
	pushq	%rsi
	.seh_pushreg %rsi
	pushq	%rdi
	.seh_pushreg %rdi
	pushq	%rbp
	.seh_pushreg %rbp
	pushq	%rbx
	.seh_pushreg %rbx
	subq	$152, %rsp
	.seh_stackalloc 152
	.seh_endprologue
	movq	%r9, %r12
	movq	%r8, %rsi
	movl	%edx, %ebx
	movq	%rcx, %r14
	movq	256(%rsp), %rdi
	movzwl	14(%rcx), %eax
	addw	12(%rcx), %ax
	movzwl	%ax, %r15d
	movq	%r9, %rdx
	callq	"dm_layout::symbols::placing::lift_to"
	movq	%rdi, %rax
	subq	%r12, %rax
	cmpq	%r15, %rax
	jae	.LBB4_31
	cmpw	$4, %r15w
	setb	%cl
	cmpq	$32, %rax
	setb	%al
	orb	%cl, %al
	je	.LBB4_3
	xorl	%eax, %eax
	jmp	.LBB4_12
.LBB4_31:
	movq	%rdi, %rcx
	movq	%r12, %rdx
	movq	%r15, %r8
	callq	memmove
	jmp	.LBB4_17
.LBB4_3:
	cmpw	$16, %r15w
	jae	.LBB4_5
	xorl	%eax, %eax
	jmp	.LBB4_9
.LBB4_5:
	movl	%r15d, %eax
	andl	$-16, %eax
	xorl	%ecx, %ecx
	.p2align	4
.LBB4_6:
	movups	(%r12,%rcx), %xmm0
	movups	%xmm0, (%rdi,%rcx)
	addq	$16, %rcx
	cmpq	%rcx, %rax
	jne	.LBB4_6
	cmpl	%r15d, %eax
	je	.LBB4_17
	testb	$12, %r15b
	je	.LBB4_12
.LBB4_9:
	movq	%rax, %rcx
	movl	%r15d, %eax
	andl	$-4, %eax
	.p2align	4
.LBB4_10:
	movl	(%r12,%rcx), %edx
	movl	%edx, (%rdi,%rcx)
	addq	$4, %rcx
	cmpq	%rcx, %rax
	jne	.LBB4_10
	cmpl	%r15d, %eax
	je	.LBB4_17
.LBB4_12:
	movq	%r15, %rdx
	movq	%rax, %rcx
	andq	$3, %rdx
	je	.LBB4_15
	movq	%rax, %rcx
	.p2align	4
.LBB4_14:
	movzbl	(%r12,%rcx), %r8d
	movb	%r8b, (%rdi,%rcx)
	incq	%rcx
	decq	%rdx
	jne	.LBB4_14
.LBB4_15:
	subl	%r15d, %eax
	cmpl	$-4, %eax
	ja	.LBB4_17
	.p2align	4
.LBB4_16:
	movzbl	(%r12,%rcx), %eax
	movb	%al, (%rdi,%rcx)
	movzbl	1(%r12,%rcx), %eax
	movb	%al, 1(%rdi,%rcx)
	movzbl	2(%r12,%rcx), %eax
	movb	%al, 2(%rdi,%rcx)
	movzbl	3(%r12,%rcx), %eax
	movb	%al, 3(%rdi,%rcx)
	addq	$4, %rcx
	cmpq	%rcx, %r15
	jne	.LBB4_16
.LBB4_17:
	movq	264(%rsp), %r12
	movl	16(%r14), %eax
	movl	%eax, 112(%rsp)
	movups	(%r14), %xmm0
	movaps	%xmm0, 96(%rsp)
	testb	$1, %bl
	je	.LBB4_18
	movq	%r12, 32(%rsp)
	leaq	96(%rsp), %rcx
	movq	%rdi, %rdx
	movq	%r15, %r8
	movq	%rsi, %r9
	callq	"dm_symbol::symbol::inspection::mend_doubtful"
	movq	40(%r12), %rax
	jmp	.LBB4_25
.LBB4_18:
	movups	(%r14), %xmm0
	movaps	%xmm0, 64(%rsp)
	movl	16(%r14), %eax
	movl	%eax, 80(%rsp)
	movl	$0, 60(%rsp)
	movq	40(%r12), %r8
	testq	%r8, %r8
	je	.LBB4_20
	shlq	$2, %r8
	movq	%r12, %rcx
	xorl	%edx, %edx
	callq	memset
	movq	$0, 40(%r12)
.LBB4_20:
	movzwl	80(%rsp), %r13d
	testq	%r13, %r13
	je	.LBB4_21
	xorl	%ebp, %ebp
	.p2align	4
.LBB4_23:
	xorps	%xmm0, %xmm0
	movaps	%xmm0, 128(%rsp)
	movq	$0, 144(%rsp)
	movq	%rbp, 40(%rsp)
	leaq	128(%rsp), %rax
	movq	%rax, 32(%rsp)
	leaq	60(%rsp), %rcx
	leaq	64(%rsp), %rdx
	movq	%rdi, %r8
	movq	%r15, %r9
	callq	"dm_symbol::symbol::correction::restore_block"
	movzwl	61(%rsp), %ecx
	movzbl	60(%rsp), %edx
	movzbl	63(%rsp), %r8d
	movq	40(%r12), %rax
	movb	%dl, (%r12,%rax,4)
	movb	%r8b, 3(%r12,%rax,4)
	movw	%cx, 1(%r12,%rax,4)
	incq	%rax
	movq	%rax, 40(%r12)
	incq	%rbp
	cmpq	%rbp, %r13
	jne	.LBB4_23
	jmp	.LBB4_25
.LBB4_21:
	xorl	%eax, %eax
.LBB4_25:
	xorl	%ecx, %ecx
	.p2align	4
.LBB4_26:
	cmpq	%rcx, %rax
	je	.LBB4_27
	cmpb	$1, (%r12,%rcx,4)
	leaq	1(%rcx), %rcx
	je	.LBB4_26
	movq	%r12, 40(%rsp)
	movq	%r15, 32(%rsp)
	movq	%r14, %rcx
	movl	%ebx, %edx
	movq	%rsi, %r8
	movq	%rdi, %r9
	callq	"dm_symbol::symbol::inspection::mend_restarted"
	jmp	.LBB4_30
.LBB4_27:
	xorl	%eax, %eax
.LBB4_30:
	addq	$152, %rsp
	popq	%rbx
	popq	%rbp
	popq	%rdi
	popq	%rsi
	popq	%r12
	popq	%r13
	popq	%r14
	popq	%r15
	retq
	.seh_endproc

	.def	"dm_layout::symbols::placing::lift_to";
	.scl	3;
	.type	32;
	.endef
	.section	.rdata,"dr"
	.p2align	4, 0x0
.LCPI5_0:
	.short	65535
	.short	0
	.short	65535
	.short	65535
	.short	0
	.short	65533
	.short	0
	.zero	2
.LCPI5_1:
	.zero	2
	.short	0
	.zero	2
	.zero	2
	.short	0
	.zero	2
	.short	0
	.short	65534
.LCPI5_2:
	.short	1
	.short	1
	.short	1
	.zero	2
	.zero	2
	.zero	2
	.zero	2
	.zero	2
.LCPI5_3:
	.byte	0
	.byte	0
	.byte	0
	.byte	0
	.byte	0
	.byte	0
	.byte	0
	.byte	0
	.byte	1
	.byte	0
	.byte	0
	.byte	0
	.byte	0
	.byte	0
	.byte	0
	.byte	0
.LCPI5_4:
	.quad	7
	.quad	7
.LCPI5_5:
	.quad	4
	.quad	4
.LCPI5_6:
	.quad	2
	.quad	2
.LCPI5_7:
	.zero	16,3
.LCPI5_8:
	.zero	16,28
.LCPI5_9:
	.zero	16,224
	.text
	.p2align	4
"dm_layout::symbols::placing::lift_to":
.seh_proc "dm_layout::symbols::placing::lift_to"
	pushq	%r15
	.seh_pushreg %r15
	pushq	%r14
	.seh_pushreg %r14
	pushq	%r13
	.seh_pushreg %r13
	pushq	%r12
	.seh_pushreg %r12
	pushq	%rsi
	.seh_pushreg %rsi
	pushq	%rdi
	.seh_pushreg %rdi
	pushq	%rbp
	.seh_pushreg %rbp
	pushq	%rbx
	.seh_pushreg %rbx
	movl	$9336, %eax
	callq	___chkstk_ms
	subq	%rax, %rsp
	.seh_stackalloc 9336
	movdqa	%xmm15, 9312(%rsp)
	.seh_savexmm %xmm15, 9312
	movdqa	%xmm14, 9296(%rsp)
	.seh_savexmm %xmm14, 9296
	movdqa	%xmm13, 9280(%rsp)
	.seh_savexmm %xmm13, 9280
	movdqa	%xmm12, 9264(%rsp)
	.seh_savexmm %xmm12, 9264
	movdqa	%xmm11, 9248(%rsp)
	.seh_savexmm %xmm11, 9248
	movdqa	%xmm10, 9232(%rsp)
	.seh_savexmm %xmm10, 9232
	movdqa	%xmm9, 9216(%rsp)
	.seh_savexmm %xmm9, 9216
	movdqa	%xmm8, 9200(%rsp)
	.seh_savexmm %xmm8, 9200
	movdqa	%xmm7, 9184(%rsp)
	.seh_savexmm %xmm7, 9184
	movdqa	%xmm6, 9168(%rsp)
	.seh_savexmm %xmm6, 9168
	.seh_endprologue
	movq	%rdx, %r12
	movzwl	6(%rcx), %eax
	movzwl	10(%rcx), %edx
	movl	%edx, 36(%rsp)
	movl	%edx, %r13d
	movq	%rax, 56(%rsp)
	imull	%eax, %r13d
	cmpw	$56, %r13w
	movq	%r13, 136(%rsp)
	movq	%rcx, 360(%rsp)
	ja	.LBB5_55
	movzwl	4(%rcx), %esi
	movzwl	8(%rcx), %edi
	movl	%edi, %ebx
	imull	%esi, %ebx
	leaq	496(%rsp), %rcx
	movl	$496, %r8d
	xorl	%edx, %edx
	callq	memset
	movl	%r13d, %ebp
	andl	$7, %ebp
	movzwl	%bx, %r14d
	movq	%rdi, 144(%rsp)
	testq	%rdi, %rdi
	je	.LBB5_24
	movq	%r14, 304(%rsp)
	movq	%rbx, 208(%rsp)
	movq	%r12, 128(%rsp)
	movl	%ebp, 288(%rsp)
	xorl	$4, %ebp
	movl	%ebp, 72(%rsp)
	movq	$-1, %rdx
	movq	56(%rsp), %rcx
	shlq	%cl, %rdx
	xorl	%r8d, %r8d
	testb	$64, %cl
	movq	%rdx, %r10
	movl	$0, %eax
	movq	%rax, 224(%rsp)
	cmovneq	%r8, %r10
	movq	$-1, %rax
	cmoveq	%rax, %rdx
	notq	%rdx
	movq	%rdx, 48(%rsp)
	notq	%r10
	leal	2(%rcx), %eax
	movl	%eax, 76(%rsp)
	leal	3(%rcx), %ebx
	leal	5(%rcx,%rcx), %eax
	movl	%eax, 200(%rsp)
	leal	(%rcx,%rcx), %edi
	leal	7(%rcx,%rcx,2), %eax
	movl	%eax, 176(%rsp)
	leal	(%rcx,%rcx,2), %eax
	movl	%eax, 100(%rsp)
	leal	(%rcx,%rcx,4), %eax
	movl	$117, %edx
	movl	%eax, 96(%rsp)
	subl	%eax, %edx
	movl	%edx, 92(%rsp)
	movl	36(%rsp), %edx
	decl	%edx
	leal	2(%rsi), %eax
	movzwl	%ax, %eax
	movq	%rax, 296(%rsp)
	movl	%edx, 248(%rsp)
	movl	%edx, %eax
	andl	$-2, %eax
	negl	%eax
	movq	%rax, 272(%rsp)
	leal	9(,%rcx,4), %eax
	movl	%eax, 88(%rsp)
	leal	(,%rcx,4), %eax
	movl	%eax, 84(%rsp)
	leal	11(%rcx,%rcx,4), %eax
	movl	%eax, 80(%rsp)
	leal	4(%rcx,%rcx), %eax
	movq	%rax, 312(%rsp)
	movl	$1, %eax
	movq	%rax, 192(%rsp)
	movl	$2, %eax
	movq	%rax, 240(%rsp)
	movl	$0, 152(%rsp)
	movl	%esi, %ecx
	movl	$1, %eax
	movq	%rax, 216(%rsp)
	xorl	%edx, %edx
	movq	%rsi, 160(%rsp)
	movl	%ebx, 256(%rsp)
	movq	%r10, 120(%rsp)
	movq	%rdi, 112(%rsp)
	jmp	.LBB5_3
	.p2align	4
.LBB5_20:
	movq	104(%rsp), %rdx
	incq	%rdx
	incq	216(%rsp)
	movq	160(%rsp), %rsi
	movq	264(%rsp), %rcx
	addl	%esi, %ecx
	addl	%esi, 152(%rsp)
	movq	192(%rsp), %rax
	addq	296(%rsp), %rax
	movq	%rax, 192(%rsp)
	addq	$2, 240(%rsp)
	movq	224(%rsp), %rax
	addl	$2, %eax
	movq	%rax, 224(%rsp)
	cmpq	144(%rsp), %rdx
	je	.LBB5_21
.LBB5_3:
	movzwl	%cx, %ecx
	movq	%rcx, 264(%rsp)
	movq	%rdx, 104(%rsp)
	movl	%edx, %eax
	imull	%esi, %eax
	leal	(%rax,%rsi), %ecx
	cmpw	%cx, %ax
	jae	.LBB5_20
	movq	360(%rsp), %r8
	cmpw	$128, 2(%r8)
	movq	24(%r8), %r14
	movq	%r14, 64(%rsp)
	ja	.LBB5_18
	movq	104(%rsp), %rcx
	leal	1(,%rcx,2), %r15d
	movzwl	%ax, %esi
	cmpw	$2, 36(%rsp)
	jb	.LBB5_13
	movq	160(%rsp), %rax
	imull	216(%rsp), %eax
	movzwl	%ax, %edx
	movq	%r15, 168(%rsp)
	movq	%rdx, 232(%rsp)
	jmp	.LBB5_7
	.p2align	4
.LBB5_11:
	movl	%r9d, %ecx
	imull	76(%rsp), %ecx
	incb	%cl
	shrdq	%cl, %r11, %r8
	shrq	%cl, %r11
	testb	$64, %cl
	cmoveq	%r8, %r11
	andq	%r10, %r11
	movq	56(%rsp), %rax
	movl	%eax, %ecx
	imull	%r9d, %ecx
	shlq	%cl, %r11
	xorl	%eax, %eax
	testb	$64, %cl
	cmoveq	%r11, %rax
	orq	%rax, %r13
.LBB5_12:
	shlq	$4, %r13
	movq	%r13, 512(%rsp,%rsi,8)
	incq	%rsi
	cmpq	%rdx, %rsi
	je	.LBB5_20
.LBB5_7:
	leal	(%r15,%rsi), %eax
	movzwl	%ax, %eax
	shll	$4, %eax
	movq	(%r14,%rax), %r8
	movq	8(%r14,%rax), %r11
	movq	%r11, %r13
	shldq	$63, %r8, %r13
	andq	%r10, %r13
	movw	$1, %r9w
	cmpw	$2, 36(%rsp)
	je	.LBB5_11
	movq	%rsi, 184(%rsp)
	movq	%r11, %rax
	shrq	%rax
	andq	48(%rsp), %rax
	movw	$1, %r9w
	movq	%rdi, %rdx
	movl	%ebx, %edi
	movq	56(%rsp), %r14
	movl	200(%rsp), %ecx
	movl	%ecx, %r15d
	movq	%r8, 40(%rsp)
	movl	%edx, %r8d
	.p2align	4
.LBB5_9:
	movq	40(%rsp), %rbx
	movq	%rbx, %rdx
	movl	%edi, %ecx
	shrdq	%cl, %r11, %rdx
	movq	%r11, %rsi
	shrq	%cl, %rsi
	xorl	%r12d, %r12d
	testb	$64, %dil
	cmovneq	%rsi, %rdx
	cmovneq	%r12, %rsi
	movq	120(%rsp), %r10
	andq	%r10, %rdx
	movq	48(%rsp), %rbp
	andq	%rbp, %rsi
	movl	%r14d, %ecx
	shldq	%cl, %rdx, %rsi
	shlq	%cl, %rdx
	testb	$64, %r14b
	cmovneq	%rdx, %rsi
	cmovneq	%r12, %rdx
	orq	%r13, %rdx
	movq	%rbx, %r13
	movl	%r15d, %ecx
	shrdq	%cl, %r11, %r13
	orq	%rax, %rsi
	movq	%r11, %rax
	shrq	%cl, %rax
	testb	$64, %r15b
	cmovneq	%rax, %r13
	cmovneq	%r12, %rax
	andq	%r10, %r13
	andq	%rbp, %rax
	movl	%r8d, %ecx
	shldq	%cl, %r13, %rax
	shlq	%cl, %r13
	testb	$64, %r8b
	cmovneq	%r13, %rax
	cmovneq	%r12, %r13
	orq	%rsi, %rax
	orq	%rdx, %r13
	movq	112(%rsp), %rcx
	addl	%ecx, %r8d
	movq	312(%rsp), %rdx
	addl	%edx, %r15d
	addl	%ecx, %r14d
	addl	%edx, %edi
	movl	%r9d, %ecx
	addl	$2, %r9d
	movq	272(%rsp), %rdx
	addl	%edx, %ecx
	addl	$2, %ecx
	cmpw	$1, %cx
	jne	.LBB5_9
	testb	$1, 248(%rsp)
	movl	256(%rsp), %ebx
	movq	112(%rsp), %rdi
	movq	120(%rsp), %r10
	movq	64(%rsp), %r14
	movq	184(%rsp), %rsi
	movq	168(%rsp), %r15
	movq	232(%rsp), %rdx
	movq	40(%rsp), %r8
	jne	.LBB5_11
	jmp	.LBB5_12
	.p2align	4
.LBB5_18:
	movzwl	152(%rsp), %ecx
	leaq	512(%rsp), %rax
	leaq	(%rax,%rcx,8), %rax
	movq	%rax, 40(%rsp)
	movq	264(%rsp), %rdx
	subq	%rcx, %rdx
	movq	40(%r8), %rax
	movq	%rax, 184(%rsp)
	xorl	%r9d, %r9d
	.p2align	4
.LBB5_19:
	movq	192(%rsp), %rax
	leal	(%rax,%r9), %ecx
	movzwl	%cx, %esi
	movl	%esi, %r11d
	shll	$4, %r11d
	movq	8(%r14,%r11), %rax
	movq	%rax, %r15
	movl	%ebx, %ecx
	shrq	%cl, %r15
	movq	64(%rsp), %rcx
	movq	(%rcx,%r11), %r14
	movq	%rax, %r11
	movq	%r14, %r13
	movl	%ebx, %ecx
	shrdq	%cl, %rax, %r13
	shldq	$63, %r14, %r11
	andq	%r10, %r11
	testb	$64, %bl
	cmovneq	%r15, %r13
	andq	%r10, %r13
	movq	56(%rsp), %rcx
	shlq	%cl, %r13
	xorl	%r15d, %r15d
	testb	$64, %cl
	cmovneq	%r15, %r13
	movq	%rax, %r12
	movl	200(%rsp), %ecx
	shrq	%cl, %r12
	orq	%r11, %r13
	movq	%r14, %r11
	shrdq	%cl, %rax, %r11
	testb	$64, %cl
	cmovneq	%r12, %r11
	andq	%r10, %r11
	movl	%edi, %ecx
	shlq	%cl, %r11
	testb	$64, %dil
	cmovneq	%r15, %r11
	movq	%rax, %r12
	movl	176(%rsp), %ecx
	shrq	%cl, %r12
	movq	%r14, %rbp
	shrdq	%cl, %rax, %rbp
	testb	$64, %cl
	cmovneq	%r12, %rbp
	andq	%r10, %rbp
	movl	100(%rsp), %ecx
	shlq	%cl, %rbp
	testb	$64, %cl
	cmovneq	%r15, %rbp
	movq	%r10, %r8
	movq	%rdi, %r10
	movq	%rax, %rdi
	movl	88(%rsp), %ecx
	shrq	%cl, %rdi
	movq	%r14, %r12
	shrdq	%cl, %rax, %r12
	orq	%r11, %rbp
	orq	%r13, %rbp
	testb	$64, %cl
	cmovneq	%rdi, %r12
	movq	%r10, %rdi
	movq	%r8, %r10
	andq	%r8, %r12
	movl	84(%rsp), %ecx
	shlq	%cl, %r12
	testb	$64, %cl
	cmovneq	%r15, %r12
	movq	%rax, %r11
	movl	80(%rsp), %ecx
	shrq	%cl, %r11
	shrdq	%cl, %rax, %r14
	testb	$64, %cl
	cmovneq	%r11, %r14
	movq	184(%rsp), %rax
	movzwl	(%rax,%rsi,2), %eax
	movl	92(%rsp), %ecx
	shlq	%cl, %rax
	testb	$64, %cl
	cmovneq	%r15, %rax
	orq	%r14, %rax
	movq	64(%rsp), %r14
	andq	%r8, %rax
	movl	96(%rsp), %ecx
	shlq	%cl, %rax
	testb	$64, %cl
	cmovneq	%r15, %rax
	orq	%r12, %rax
	orq	%rbp, %rax
	shlq	$4, %rax
	movq	40(%rsp), %rcx
	movq	%rax, (%rcx,%r9,8)
	incq	%r9
	cmpq	%r9, %rdx
	jne	.LBB5_19
	jmp	.LBB5_20
.LBB5_13:
	movq	160(%rsp), %rdx
	imulq	%rdx, %rcx
	addl	%ecx, %edx
	movzwl	%dx, %edx
	movq	%rdx, %r8
	subq	%rcx, %r8
	testb	$1, %r8b
	je	.LBB5_15
	addl	%eax, %r15d
	movzwl	%r15w, %eax
	shll	$4, %eax
	movq	(%r14,%rax), %rax
	shrq	%rax
	andq	%r10, %rax
	shlq	$4, %rax
	movq	%rax, 512(%rsp,%rsi,8)
	incq	%rsi
.LBB5_15:
	movzwl	%cx, %eax
	decl	%edx
	cmpl	%edx, %eax
	je	.LBB5_20
	movzwl	224(%rsp), %eax
	incq	%rax
	.p2align	4
.LBB5_17:
	leal	(%rax,%rsi), %ecx
	movzwl	%cx, %ecx
	shll	$4, %ecx
	movq	(%r14,%rcx), %rcx
	shrq	%rcx
	andq	%r10, %rcx
	shlq	$4, %rcx
	movq	%rcx, 512(%rsp,%rsi,8)
	movq	240(%rsp), %rcx
	addl	%esi, %ecx
	movzwl	%cx, %ecx
	shll	$4, %ecx
	movq	(%r14,%rcx), %rcx
	shrq	%rcx
	andq	%r10, %rcx
	shlq	$4, %rcx
	movq	%rcx, 520(%rsp,%rsi,8)
	addq	$2, %rsi
	cmpq	%rsi, 264(%rsp)
	jne	.LBB5_17
	jmp	.LBB5_20
.LBB5_55:
	movl	%r13d, %ebp
	andl	$7, %ebp
	movl	%ebp, %esi
	xorl	$4, %esi
	cmpw	$120, %r13w
	ja	.LBB5_107
	pxor	%xmm0, %xmm0
	movdqa	%xmm0, 336(%rsp)
	movdqa	%xmm0, 320(%rsp)
	movq	$0, 352(%rsp)
	movzwl	4(%rcx), %edi
	movzwl	8(%rcx), %r15d
	movl	%r15d, %r14d
	imull	%edi, %r14d
	leaq	496(%rsp), %rcx
	movl	$2016, %r8d
	xorl	%edx, %edx
	callq	memset
	movzwl	%r14w, %ebx
	movq	%r15, 144(%rsp)
	testq	%r15, %r15
	movq	%r14, 208(%rsp)
	je	.LBB5_79
	movq	%rbx, 304(%rsp)
	movl	%esi, 284(%rsp)
	movl	%ebp, 72(%rsp)
	movq	%r12, 128(%rsp)
	movq	$-1, %r10
	movq	56(%rsp), %rcx
	shlq	%cl, %r10
	xorl	%edx, %edx
	testb	$64, %cl
	movq	%r10, %r9
	movl	$0, %eax
	movq	%rax, 104(%rsp)
	cmovneq	%rdx, %r9
	movq	$-1, %rax
	cmoveq	%rax, %r10
	notq	%r10
	notq	%r9
	leal	2(%rcx), %eax
	movl	%eax, 76(%rsp)
	leal	3(%rcx), %eax
	movl	%eax, 192(%rsp)
	leal	5(%rcx,%rcx), %eax
	movl	%eax, 184(%rsp)
	leal	(%rcx,%rcx), %eax
	movq	%rax, 40(%rsp)
	leal	7(%rcx,%rcx,2), %eax
	movl	%eax, 100(%rsp)
	leal	(%rcx,%rcx,2), %eax
	movl	%eax, 96(%rsp)
	leal	9(,%rcx,4), %eax
	movl	%eax, 92(%rsp)
	leal	(,%rcx,4), %eax
	movl	%eax, 88(%rsp)
	leal	(%rcx,%rcx,4), %eax
	movl	$117, %edx
	movl	%eax, 84(%rsp)
	subl	%eax, %edx
	movl	%edx, 80(%rsp)
	movl	36(%rsp), %eax
	decl	%eax
	movl	%eax, 248(%rsp)
	andl	$-2, %eax
	negl	%eax
	movq	%rax, 272(%rsp)
	leal	(%rcx,%rcx,4), %eax
	addl	$11, %eax
	movl	%eax, 264(%rsp)
	leal	2(%rdi), %eax
	movl	%eax, 296(%rsp)
	leal	4(%rcx,%rcx), %eax
	movq	%rax, 312(%rsp)
	movl	$1, %eax
	movq	%rax, 152(%rsp)
	movw	$2, %ax
	movq	%rax, 256(%rsp)
	movw	$1, %ax
	movl	%eax, 168(%rsp)
	movw	$1, %ax
	movl	%eax, 216(%rsp)
	movl	%edi, %ecx
	xorl	%edx, %edx
	movq	%rdi, 160(%rsp)
	movq	%r9, 120(%rsp)
	movq	%r10, 112(%rsp)
	jmp	.LBB5_58
	.p2align	4
.LBB5_75:
	movq	232(%rsp), %rdx
	incq	%rdx
	incq	152(%rsp)
	movq	160(%rsp), %rdi
	movq	240(%rsp), %rcx
	addl	%edi, %ecx
	movq	104(%rsp), %rax
	addl	%edi, %eax
	movq	%rax, 104(%rsp)
	movl	168(%rsp), %eax
	addl	296(%rsp), %eax
	movl	%eax, 168(%rsp)
	movq	256(%rsp), %rax
	addl	$2, %eax
	movq	%rax, 256(%rsp)
	addl	$2, 216(%rsp)
	cmpq	144(%rsp), %rdx
	je	.LBB5_76
.LBB5_58:
	movzwl	%cx, %ecx
	movq	%rcx, 240(%rsp)
	movq	%rdx, 232(%rsp)
	imull	%edi, %edx
	leal	(%rdx,%rdi), %eax
	cmpw	%ax, %dx
	jae	.LBB5_75
	movq	360(%rsp), %rax
	cmpw	$128, 2(%rax)
	movq	24(%rax), %rsi
	movq	%rsi, 64(%rsp)
	ja	.LBB5_73
	movq	232(%rsp), %rax
	leal	1(,%rax,2), %ebx
	movzwl	%dx, %edi
	cmpw	$2, 36(%rsp)
	jb	.LBB5_68
	movq	160(%rsp), %rax
	imull	152(%rsp), %eax
	movzwl	%ax, %edx
	movq	%rbx, 176(%rsp)
	movq	%rdx, 224(%rsp)
	jmp	.LBB5_62
	.p2align	4
.LBB5_66:
	movl	%r11d, %ecx
	imull	76(%rsp), %ecx
	incb	%cl
	shrdq	%cl, %rbp, %r14
	shrq	%cl, %rbp
	xorl	%r8d, %r8d
	testb	$64, %cl
	cmovneq	%rbp, %r14
	cmovneq	%r8, %rbp
	andq	%r9, %r14
	andq	%r10, %rbp
	movq	56(%rsp), %rcx
	imull	%r11d, %ecx
	shldq	%cl, %r14, %rbp
	shlq	%cl, %r14
	testb	$64, %cl
	cmovneq	%r14, %rbp
	cmovneq	%r8, %r14
	orq	%rbp, %r13
	orq	%r14, %rax
.LBB5_67:
	shldq	$4, %rax, %r13
	shlq	$4, %rax
	movq	%rdi, %rcx
	shlq	$4, %rcx
	movq	%rax, 528(%rsp,%rcx)
	movq	%r13, 536(%rsp,%rcx)
	incq	%rdi
	cmpq	%rdx, %rdi
	je	.LBB5_75
.LBB5_62:
	leal	(%rbx,%rdi), %eax
	movzwl	%ax, %eax
	shll	$4, %eax
	movq	(%rsi,%rax), %r14
	movq	8(%rsi,%rax), %rbp
	movq	%rbp, %rax
	shldq	$63, %r14, %rax
	movq	%rbp, %r13
	shrq	%r13
	andq	%r10, %r13
	andq	%r9, %rax
	movw	$1, %r11w
	cmpw	$2, 36(%rsp)
	je	.LBB5_66
	movq	%rdi, 200(%rsp)
	movw	$1, %r11w
	movl	192(%rsp), %ecx
	movl	%ecx, %edi
	movq	%r14, 48(%rsp)
	movq	56(%rsp), %r14
	movl	184(%rsp), %ecx
	movl	%ecx, %r15d
	movq	40(%rsp), %rbx
	.p2align	4
.LBB5_64:
	movq	48(%rsp), %r9
	movq	%r9, %r8
	movl	%edi, %ecx
	shrdq	%cl, %rbp, %r8
	movq	%rbp, %rsi
	shrq	%cl, %rsi
	xorl	%r12d, %r12d
	testb	$64, %dil
	cmovneq	%rsi, %r8
	cmovneq	%r12, %rsi
	movq	120(%rsp), %r10
	andq	%r10, %r8
	movq	112(%rsp), %rdx
	andq	%rdx, %rsi
	movl	%r14d, %ecx
	shldq	%cl, %r8, %rsi
	shlq	%cl, %r8
	testb	$64, %r14b
	cmovneq	%r8, %rsi
	cmovneq	%r12, %r8
	orq	%rax, %r8
	movq	%r9, %rax
	movl	%r15d, %ecx
	shrdq	%cl, %rbp, %rax
	orq	%r13, %rsi
	movq	%rbp, %r13
	shrq	%cl, %r13
	testb	$64, %r15b
	cmovneq	%r13, %rax
	cmovneq	%r12, %r13
	andq	%r10, %rax
	andq	%rdx, %r13
	movl	%ebx, %ecx
	shldq	%cl, %rax, %r13
	shlq	%cl, %rax
	testb	$64, %bl
	cmovneq	%rax, %r13
	cmovneq	%r12, %rax
	orq	%rsi, %r13
	orq	%r8, %rax
	movq	40(%rsp), %rcx
	addl	%ecx, %ebx
	movq	312(%rsp), %rdx
	addl	%edx, %r15d
	addl	%ecx, %r14d
	addl	%edx, %edi
	movl	%r11d, %ecx
	addl	$2, %r11d
	movq	272(%rsp), %rdx
	addl	%edx, %ecx
	addl	$2, %ecx
	cmpw	$1, %cx
	jne	.LBB5_64
	testb	$1, 248(%rsp)
	movq	112(%rsp), %r10
	movq	120(%rsp), %r9
	movq	64(%rsp), %rsi
	movq	200(%rsp), %rdi
	movq	176(%rsp), %rbx
	movq	224(%rsp), %rdx
	movq	48(%rsp), %r14
	jne	.LBB5_66
	jmp	.LBB5_67
	.p2align	4
.LBB5_73:
	movzwl	104(%rsp), %edi
	movq	240(%rsp), %rdx
	subq	%rdi, %rdx
	shll	$4, %edi
	leaq	528(%rsp), %rcx
	addq	%rcx, %rdi
	movq	40(%rax), %rax
	movq	%rax, 176(%rsp)
	movl	168(%rsp), %eax
	movl	%eax, %r15d
	.p2align	4
.LBB5_74:
	movq	%rdx, 48(%rsp)
	movzwl	%r15w, %eax
	movq	%rax, 200(%rsp)
	shll	$4, %eax
	movq	(%rsi,%rax), %r8
	movq	64(%rsp), %rcx
	movq	8(%rcx,%rax), %rsi
	movq	%rsi, %rax
	movq	%rsi, %r12
	movq	%rsi, %rbp
	shrq	%rax
	movl	192(%rsp), %ecx
	shrq	%cl, %rbp
	shldq	$63, %r8, %r12
	movq	%r8, %r14
	shrdq	%cl, %rsi, %r14
	andq	%r9, %r12
	andq	%r10, %rax
	xorl	%edx, %edx
	testb	$64, %cl
	cmovneq	%rbp, %r14
	cmovneq	%rdx, %rbp
	andq	%r9, %r14
	andq	%r10, %rbp
	movq	56(%rsp), %rcx
	shldq	%cl, %r14, %rbp
	shlq	%cl, %r14
	testb	$64, %cl
	cmovneq	%r14, %rbp
	movq	%rsi, %r11
	cmovneq	%rdx, %r14
	movl	184(%rsp), %ecx
	shrq	%cl, %r11
	movq	%r8, %rbx
	shrdq	%cl, %rsi, %rbx
	orq	%rax, %rbp
	orq	%r12, %r14
	testb	$64, %cl
	cmovneq	%r11, %rbx
	cmovneq	%rdx, %r11
	andq	%r9, %rbx
	andq	%r10, %r11
	movq	40(%rsp), %rcx
	shldq	%cl, %rbx, %r11
	shlq	%cl, %rbx
	testb	$64, %cl
	cmovneq	%rbx, %r11
	movq	%rsi, %r13
	cmovneq	%rdx, %rbx
	movl	100(%rsp), %ecx
	shrq	%cl, %r13
	movq	%r8, %rax
	shrdq	%cl, %rsi, %rax
	testb	$64, %cl
	cmovneq	%r13, %rax
	cmovneq	%rdx, %r13
	andq	%r9, %rax
	andq	%r10, %r13
	movl	96(%rsp), %ecx
	shldq	%cl, %rax, %r13
	shlq	%cl, %rax
	testb	$64, %cl
	cmovneq	%rax, %r13
	movq	%rsi, %r12
	cmovneq	%rdx, %rax
	movl	92(%rsp), %ecx
	shrq	%cl, %r12
	orq	%r11, %r13
	movq	%r8, %r11
	shrdq	%cl, %rsi, %r11
	orq	%rbp, %r13
	orq	%rbx, %rax
	orq	%r14, %rax
	testb	$64, %cl
	cmovneq	%r12, %r11
	cmovneq	%rdx, %r12
	andq	%r9, %r11
	andq	%r10, %r12
	movl	88(%rsp), %ecx
	shldq	%cl, %r11, %r12
	shlq	%cl, %r11
	testb	$64, %cl
	cmovneq	%r11, %r12
	cmovneq	%rdx, %r11
	movq	%rsi, %r14
	movl	264(%rsp), %ecx
	shrq	%cl, %r14
	shrdq	%cl, %rsi, %r8
	movq	176(%rsp), %rsi
	movq	200(%rsp), %rbx
	movzwl	(%rsi,%rbx,2), %esi
	testb	$64, %cl
	cmovneq	%r14, %r8
	cmovneq	%rdx, %r14
	xorl	%ebx, %ebx
	movl	80(%rsp), %ecx
	shldq	%cl, %rsi, %rbx
	shlq	%cl, %rsi
	testb	$64, %cl
	cmovneq	%rsi, %rbx
	cmovneq	%rdx, %rsi
	orq	%r14, %rbx
	orq	%r8, %rsi
	andq	%r9, %rsi
	andq	%r10, %rbx
	movl	84(%rsp), %ecx
	shldq	%cl, %rsi, %rbx
	shlq	%cl, %rsi
	testb	$64, %cl
	cmovneq	%rsi, %rbx
	cmovneq	%rdx, %rsi
	movq	48(%rsp), %rdx
	orq	%r12, %rbx
	orq	%r13, %rbx
	orq	%r11, %rsi
	orq	%rax, %rsi
	shldq	$4, %rsi, %rbx
	shlq	$4, %rsi
	movq	%rsi, (%rdi)
	movq	64(%rsp), %rsi
	movq	%rbx, 8(%rdi)
	addq	$16, %rdi
	incl	%r15d
	decq	%rdx
	jne	.LBB5_74
	jmp	.LBB5_75
.LBB5_68:
	movq	160(%rsp), %rcx
	imulq	%rcx, %rax
	addl	%eax, %ecx
	movzwl	%cx, %ecx
	movq	%rcx, %r8
	subq	%rax, %r8
	testb	$1, %r8b
	je	.LBB5_70
	addl	%edx, %ebx
	movzwl	%bx, %edx
	shll	$4, %edx
	movq	(%rsi,%rdx), %r8
	movq	8(%rsi,%rdx), %rdx
	shrdq	$1, %rdx, %r8
	shrq	%rdx
	andq	%r9, %r8
	andq	%r10, %rdx
	shldq	$4, %r8, %rdx
	shlq	$4, %r8
	movl	%edi, %r11d
	shll	$4, %r11d
	movq	%r8, 528(%rsp,%r11)
	movq	%rdx, 536(%rsp,%r11)
	incq	%rdi
.LBB5_70:
	movzwl	%ax, %eax
	decl	%ecx
	cmpl	%ecx, %eax
	je	.LBB5_75
	movq	240(%rsp), %rax
	subq	%rdi, %rax
	movl	%edi, %ecx
	shll	$4, %ecx
	leaq	544(%rsp), %rdx
	addq	%rdx, %rcx
	movq	256(%rsp), %rdx
	addl	%edi, %edx
	addl	216(%rsp), %edi
	.p2align	4
.LBB5_72:
	movzwl	%di, %r8d
	shll	$4, %r8d
	movq	(%rsi,%r8), %r11
	movq	8(%rsi,%r8), %r8
	shrdq	$1, %r8, %r11
	shrq	%r8
	andq	%r9, %r11
	andq	%r10, %r8
	shldq	$4, %r11, %r8
	shlq	$4, %r11
	movq	%r11, -16(%rcx)
	movq	%r8, -8(%rcx)
	movzwl	%dx, %r8d
	shll	$4, %r8d
	movq	(%rsi,%r8), %r11
	movq	8(%rsi,%r8), %r8
	shrdq	$1, %r8, %r11
	shrq	%r8
	andq	%r9, %r11
	andq	%r10, %r8
	shldq	$4, %r11, %r8
	shlq	$4, %r11
	movq	%r11, (%rcx)
	movq	%r8, 8(%rcx)
	addq	$32, %rcx
	addl	$2, %edx
	addl	$2, %edi
	addq	$-2, %rax
	jne	.LBB5_72
	jmp	.LBB5_75
.LBB5_21:
	movq	208(%rsp), %rbx
	testw	%bx, %bx
	movq	128(%rsp), %r12
	movq	136(%rsp), %r13
	movq	304(%rsp), %r14
	movl	288(%rsp), %ebp
	je	.LBB5_24
	leal	2(%rbx), %eax
	movzwl	%r13w, %ecx
	leal	(,%r14,8), %edx
	movzwl	72(%rsp), %r9d
	movl	$6, %r8d
	subl	%r9d, %r8d
	xorl	%r9d, %r9d
	xorl	%r10d, %r10d
	.p2align	4
.LBB5_23:
	cmpw	%r8w, %ax
	movl	%ebx, %r11d
	cmoval	%r9d, %r11d
	movl	%r8d, %esi
	subl	%r11d, %esi
	movzwl	%si, %r11d
	movq	496(%rsp,%r11,8), %r11
	shrq	%cl, %r11
	orq	%r11, 512(%rsp,%r10)
	addq	$8, %r10
	incl	%r8d
	cmpq	%r10, %rdx
	jne	.LBB5_23
.LBB5_24:
	movl	%ebx, %esi
	andl	$7, %esi
	movl	%esi, %eax
	xorl	$4, %eax
	movdqu	496(%rsp,%r14,8), %xmm0
	movd	%eax, %xmm1
	psllq	%xmm1, %xmm0
	psrlq	$4, %xmm0
	movdqa	%xmm0, 496(%rsp)
	xorl	%edi, %edi
	leaq	4912(%rsp), %rcx
	movl	$456, %r8d
	xorl	%edx, %edx
	callq	memset
	testw	%bx, %bx
	je	.LBB5_41
	cmpl	$1, %r14d
	je	.LBB5_29
	movl	%r14d, %edi
	andl	$-2, %edi
	movdqa	.LCPI5_3(%rip), %xmm0
	xorl	%eax, %eax
	.p2align	4
.LBB5_27:
	movdqa	%xmm0, %xmm2
	paddq	%xmm2, %xmm2
	paddq	%xmm0, %xmm2
	pand	.LCPI5_4(%rip), %xmm2
	pxor	.LCPI5_5(%rip), %xmm2
	movdqa	.LCPI5_6(%rip), %xmm1
	paddq	%xmm1, %xmm2
	movdqa	496(%rsp,%rax,8), %xmm3
	movdqa	%xmm3, %xmm4
	psrlq	%xmm2, %xmm4
	pshufd	$238, %xmm2, %xmm5
	psrlq	%xmm5, %xmm3
	pblendw	$15, %xmm4, %xmm3
	movdqu	504(%rsp,%rax,8), %xmm4
	movdqa	%xmm4, %xmm6
	psrlq	%xmm2, %xmm6
	movdqa	512(%rsp,%rax,8), %xmm7
	movdqa	%xmm7, %xmm8
	psrlq	%xmm2, %xmm8
	pand	.LCPI5_7(%rip), %xmm3
	psrlq	%xmm5, %xmm4
	pblendw	$15, %xmm6, %xmm4
	psllq	$2, %xmm4
	pand	.LCPI5_8(%rip), %xmm4
	por	%xmm3, %xmm4
	psrlq	%xmm5, %xmm7
	pblendw	$15, %xmm8, %xmm7
	psllq	$5, %xmm7
	pand	.LCPI5_9(%rip), %xmm7
	por	%xmm4, %xmm7
	movdqu	%xmm7, 4912(%rsp,%rax,8)
	addq	$2, %rax
	paddq	%xmm1, %xmm0
	cmpq	%rax, %rdi
	jne	.LBB5_27
	cmpl	%r14d, %edi
	je	.LBB5_31
.LBB5_29:
	leaq	(%rdi,%rdi,2), %rax
	.p2align	4
.LBB5_30:
	movl	%eax, %ecx
	andb	$7, %cl
	xorb	$4, %cl
	addb	$2, %cl
	movq	496(%rsp,%rdi,8), %rdx
	shrq	%cl, %rdx
	movq	504(%rsp,%rdi,8), %r8
	movabsq	$217020518514230019, %r9
	andq	%rdx, %r9
	shrq	%cl, %r8
	movabsq	$506381209866536711, %rdx
	andq	%r8, %rdx
	leaq	(%r9,%rdx,4), %rdx
	movq	512(%rsp,%rdi,8), %r8
	shrq	%cl, %r8
	shlq	$5, %r8
	movabsq	$-2242545357980376864, %rcx
	andq	%r8, %rcx
	orq	%rdx, %rcx
	movq	%rcx, 4912(%rsp,%rdi,8)
	incq	%rdi
	addq	$3, %rax
	cmpq	%rdi, %r14
	jne	.LBB5_30
.LBB5_31:
	movzwl	%si, %eax
	movl	%eax, %r8d
	xorl	$4, %r8d
	movzwl	%bp, %edx
	movl	%edx, %ecx
	xorl	$4, %ecx
	orw	%cx, %r8w
	jne	.LBB5_34
	movl	%ebx, %eax
	decl	%eax
	movzwl	%ax, %eax
	movq	512(%rsp,%rax,8), %rax
	movl	%eax, %ecx
	shrl	$3, %ecx
	andl	$2, %ecx
	shrq	$5, %rax
	movl	%eax, %edx
	andl	$1, %edx
	orl	%ecx, %edx
	andl	$2, %eax
	leal	(%rax,%rdx,4), %eax
.LBB5_33:
	movl	%r13d, %ecx
	orb	$2, %cl
	movzbl	%cl, %ecx
	movq	512(%rsp), %rdx
	movq	520(%rsp), %r8
	xorl	%r9d, %r9d
	btq	%rcx, %rdx
	setb	%r9b
	orl	%eax, %r9d
	movl	%r13d, %ecx
	orb	$3, %cl
	shrq	%cl, %rdx
	addl	%edx, %edx
	andl	$2, %edx
	leal	(%rdx,%r9,4), %eax
	movzbl	%cl, %ecx
	xorl	%edx, %edx
	btq	%rcx, %r8
	setb	%dl
	orq	%rax, %rdx
	movq	528(%rsp), %rax
	shrq	%cl, %rax
	andl	$1, %eax
	addq	%rax, %rax
	leaq	(%rax,%rdx,4), %rax
	movq	536(%rsp), %rdx
	xorl	%r14d, %r14d
	btq	%rcx, %rdx
	setb	%r14b
	orq	%rax, %r14
	jmp	.LBB5_41
.LBB5_107:
	movl	%ebp, 72(%rsp)
	movq	%r12, 128(%rsp)
	pxor	%xmm0, %xmm0
	movdqa	%xmm0, 336(%rsp)
	movdqa	%xmm0, 320(%rsp)
	movq	$0, 352(%rsp)
	movzwl	4(%rcx), %edi
	movzwl	8(%rcx), %r14d
	movl	%r14d, %ebx
	imull	%edi, %ebx
	leaq	496(%rsp), %rcx
	movl	$4416, %r8d
	xorl	%edx, %edx
	callq	memset
	movzwl	%bx, %eax
	movq	%rax, 144(%rsp)
	movq	%r14, 208(%rsp)
	testq	%r14, %r14
	movq	%rbx, 288(%rsp)
	je	.LBB5_133
	movl	%esi, 284(%rsp)
	movq	$-1, %r12
	movq	56(%rsp), %rcx
	shlq	%cl, %r12
	movq	$-1, %rax
	xorl	%r8d, %r8d
	testb	$64, %cl
	movq	%r12, %r11
	movl	$0, %edx
	movq	%rdx, 168(%rsp)
	cmovneq	%r8, %r11
	cmoveq	%rax, %r12
	notq	%r12
	notq	%r11
	leal	2(%rcx), %eax
	movl	%eax, 240(%rsp)
	leal	3(%rcx), %eax
	movl	%eax, 192(%rsp)
	leal	5(%rcx,%rcx), %eax
	movl	%eax, 184(%rsp)
	leal	(%rcx,%rcx), %eax
	movq	%rax, 40(%rsp)
	leal	7(%rcx,%rcx,2), %eax
	movl	%eax, 100(%rsp)
	leal	(%rcx,%rcx,2), %eax
	movl	%eax, 96(%rsp)
	leal	9(,%rcx,4), %eax
	movl	%eax, 92(%rsp)
	leal	(%rcx,%rcx,4), %eax
	movl	$117, %edx
	subl	%eax, %edx
	movl	%edx, 84(%rsp)
	movl	$128, %edx
	movl	%eax, 88(%rsp)
	subl	%eax, %edx
	movl	%edx, 80(%rsp)
	movl	36(%rsp), %eax
	decl	%eax
	movl	%eax, 160(%rsp)
	andl	$-2, %eax
	negl	%eax
	movq	%rax, 272(%rsp)
	leal	(,%rcx,4), %eax
	movl	%eax, 264(%rsp)
	leal	(%rcx,%rcx,4), %eax
	addl	$11, %eax
	movl	%eax, 76(%rsp)
	leal	2(%rdi), %eax
	movl	%eax, 304(%rsp)
	leal	4(%rcx,%rcx), %eax
	movq	%rax, 312(%rsp)
	movl	$1, %eax
	movq	%rax, 216(%rsp)
	movw	$2, %ax
	movq	%rax, 248(%rsp)
	movw	$1, %ax
	movl	%eax, 232(%rsp)
	movw	$1, %ax
	movl	%eax, 296(%rsp)
	movl	%edi, %ecx
	xorl	%edx, %edx
	movq	%rdi, 152(%rsp)
	movq	%r11, 120(%rsp)
	movq	%r12, 112(%rsp)
	jmp	.LBB5_109
	.p2align	4
.LBB5_126:
	movq	224(%rsp), %rdx
	incq	%rdx
	incq	216(%rsp)
	movq	152(%rsp), %rdi
	movq	104(%rsp), %rcx
	addl	%edi, %ecx
	movq	168(%rsp), %rax
	addl	%edi, %eax
	movq	%rax, 168(%rsp)
	movl	232(%rsp), %eax
	addl	304(%rsp), %eax
	movl	%eax, 232(%rsp)
	movq	248(%rsp), %rax
	addl	$2, %eax
	movq	%rax, 248(%rsp)
	addl	$2, 296(%rsp)
	cmpq	208(%rsp), %rdx
	je	.LBB5_127
.LBB5_109:
	movzwl	%cx, %ecx
	movq	%rcx, 104(%rsp)
	movq	%rdx, 224(%rsp)
	imull	%edi, %edx
	leal	(%rdx,%rdi), %eax
	cmpw	%ax, %dx
	jae	.LBB5_126
	movq	360(%rsp), %rax
	cmpw	$128, 2(%rax)
	movq	24(%rax), %rdi
	movq	%rdi, 200(%rsp)
	ja	.LBB5_124
	movq	224(%rsp), %rax
	leal	1(,%rax,2), %r9d
	movzwl	%dx, %ebx
	cmpw	$2, 36(%rsp)
	jb	.LBB5_119
	movq	152(%rsp), %rax
	imull	216(%rsp), %eax
	movzwl	%ax, %r14d
	movq	%r9, 176(%rsp)
	movq	%r14, 256(%rsp)
	jmp	.LBB5_113
	.p2align	4
.LBB5_117:
	movl	%ebp, %ecx
	imull	240(%rsp), %ecx
	incb	%cl
	shrdq	%cl, %r13, %r10
	shrq	%cl, %r13
	xorl	%r8d, %r8d
	testb	$64, %cl
	cmovneq	%r13, %r10
	cmovneq	%r8, %r13
	andq	%r11, %r10
	andq	%r12, %r13
	movq	56(%rsp), %rcx
	imull	%ebp, %ecx
	shldq	%cl, %r10, %r13
	shlq	%cl, %r10
	testb	$64, %cl
	cmovneq	%r10, %r13
	cmovneq	%r8, %r10
	orq	%r13, %rsi
	orq	%r10, %rax
.LBB5_118:
	movq	%rsi, %rcx
	shldq	$4, %rax, %rcx
	shlq	$4, %rax
	shrq	$60, %rsi
	movq	%rbx, %rdx
	shlq	$5, %rdx
	movq	%rax, 560(%rsp,%rdx)
	movq	%rcx, 568(%rsp,%rdx)
	movq	%rsi, 576(%rsp,%rdx)
	movq	$0, 584(%rsp,%rdx)
	incq	%rbx
	cmpq	%r14, %rbx
	je	.LBB5_126
.LBB5_113:
	leal	(%r9,%rbx), %eax
	movzwl	%ax, %eax
	shll	$4, %eax
	movq	(%rdi,%rax), %r10
	movq	8(%rdi,%rax), %r13
	movq	%r13, %rax
	shldq	$63, %r10, %rax
	movq	%r13, %rsi
	shrq	%rsi
	andq	%r12, %rsi
	andq	%r11, %rax
	movw	$1, %bp
	cmpw	$2, 36(%rsp)
	je	.LBB5_117
	movq	%rbx, 64(%rsp)
	movw	$1, %bp
	movl	192(%rsp), %ecx
	movl	%ecx, %edi
	movq	56(%rsp), %r14
	movl	184(%rsp), %ecx
	movl	%ecx, %r9d
	movq	40(%rsp), %rbx
	movq	%r10, 48(%rsp)
	.p2align	4
.LBB5_115:
	movq	48(%rsp), %rdx
	movq	%rdx, %r8
	movl	%edi, %ecx
	shrdq	%cl, %r13, %r8
	movq	%r13, %r12
	shrq	%cl, %r12
	xorl	%r15d, %r15d
	testb	$64, %dil
	cmovneq	%r12, %r8
	cmovneq	%r15, %r12
	movq	120(%rsp), %r10
	andq	%r10, %r8
	movq	112(%rsp), %r11
	andq	%r11, %r12
	movl	%r14d, %ecx
	shldq	%cl, %r8, %r12
	shlq	%cl, %r8
	testb	$64, %r14b
	cmovneq	%r8, %r12
	cmovneq	%r15, %r8
	orq	%rax, %r8
	movq	%rdx, %rax
	movl	%r9d, %ecx
	shrdq	%cl, %r13, %rax
	orq	%rsi, %r12
	movq	%r13, %rsi
	shrq	%cl, %rsi
	testb	$64, %r9b
	cmovneq	%rsi, %rax
	cmovneq	%r15, %rsi
	andq	%r10, %rax
	andq	%r11, %rsi
	movl	%ebx, %ecx
	shldq	%cl, %rax, %rsi
	shlq	%cl, %rax
	testb	$64, %bl
	cmovneq	%rax, %rsi
	cmovneq	%r15, %rax
	orq	%r12, %rsi
	orq	%r8, %rax
	movq	40(%rsp), %rcx
	addl	%ecx, %ebx
	movq	312(%rsp), %rdx
	addl	%edx, %r9d
	addl	%ecx, %r14d
	addl	%edx, %edi
	movl	%ebp, %ecx
	addl	$2, %ebp
	movq	272(%rsp), %rdx
	addl	%edx, %ecx
	addl	$2, %ecx
	cmpw	$1, %cx
	jne	.LBB5_115
	testb	$1, 160(%rsp)
	movq	112(%rsp), %r12
	movq	120(%rsp), %r11
	movq	200(%rsp), %rdi
	movq	64(%rsp), %rbx
	movq	176(%rsp), %r9
	movq	256(%rsp), %r14
	movq	48(%rsp), %r10
	jne	.LBB5_117
	jmp	.LBB5_118
	.p2align	4
.LBB5_124:
	movzwl	168(%rsp), %r9d
	movq	104(%rsp), %rdx
	subq	%r9, %rdx
	shll	$5, %r9d
	leaq	576(%rsp), %rcx
	addq	%rcx, %r9
	movq	40(%rax), %rax
	movq	%rax, 176(%rsp)
	movl	232(%rsp), %eax
	movl	%eax, %r14d
	.p2align	4
.LBB5_125:
	movq	%rdx, 48(%rsp)
	movzwl	%r14w, %eax
	movq	%rax, 64(%rsp)
	shll	$4, %eax
	movq	(%rdi,%rax), %r8
	movq	%r12, %r10
	movq	8(%rdi,%rax), %r12
	movq	%r12, %rbx
	movq	%r12, %r13
	movq	%r12, %r15
	shrq	%rbx
	movl	192(%rsp), %ecx
	shrq	%cl, %r15
	shldq	$63, %r8, %r13
	movq	%r8, %rax
	shrdq	%cl, %r12, %rax
	andq	%r11, %r13
	andq	%r10, %rbx
	xorl	%edx, %edx
	testb	$64, %cl
	cmovneq	%r15, %rax
	cmovneq	%rdx, %r15
	andq	%r11, %rax
	andq	%r10, %r15
	movq	56(%rsp), %rcx
	shldq	%cl, %rax, %r15
	shlq	%cl, %rax
	testb	$64, %cl
	cmovneq	%rax, %r15
	movq	%r12, %rsi
	cmovneq	%rdx, %rax
	movl	184(%rsp), %ecx
	shrq	%cl, %rsi
	movq	%r8, %rdi
	shrdq	%cl, %r12, %rdi
	orq	%rbx, %r15
	orq	%r13, %rax
	testb	$64, %cl
	cmovneq	%rsi, %rdi
	cmovneq	%rdx, %rsi
	andq	%r11, %rdi
	andq	%r10, %rsi
	movq	40(%rsp), %rcx
	shldq	%cl, %rdi, %rsi
	shlq	%cl, %rdi
	testb	$64, %cl
	cmovneq	%rdi, %rsi
	movq	%r12, %r13
	cmovneq	%rdx, %rdi
	movl	100(%rsp), %ecx
	shrq	%cl, %r13
	movq	%r8, %rbp
	shrdq	%cl, %r12, %rbp
	testb	$64, %cl
	cmovneq	%r13, %rbp
	cmovneq	%rdx, %r13
	andq	%r11, %rbp
	andq	%r10, %r13
	movl	96(%rsp), %ecx
	shldq	%cl, %rbp, %r13
	shlq	%cl, %rbp
	testb	$64, %cl
	cmovneq	%rbp, %r13
	movq	%r12, %rbx
	cmovneq	%rdx, %rbp
	movl	92(%rsp), %ecx
	shrq	%cl, %rbx
	orq	%rsi, %r13
	movq	%r8, %rsi
	shrdq	%cl, %r12, %rsi
	orq	%r15, %r13
	orq	%rdi, %rbp
	orq	%rax, %rbp
	testb	$64, %cl
	cmovneq	%rbx, %rsi
	cmovneq	%rdx, %rbx
	andq	%r11, %rsi
	andq	%r10, %rbx
	movl	264(%rsp), %ecx
	shldq	%cl, %rsi, %rbx
	shlq	%cl, %rsi
	testb	$64, %cl
	cmovneq	%rsi, %rbx
	cmovneq	%rdx, %rsi
	movq	%r12, %r15
	movl	76(%rsp), %ecx
	shrq	%cl, %r15
	shrdq	%cl, %r12, %r8
	movq	%r10, %r12
	movq	176(%rsp), %rax
	movq	64(%rsp), %r10
	movzwl	(%rax,%r10,2), %eax
	testb	$64, %cl
	cmovneq	%r15, %r8
	cmovneq	%rdx, %r15
	xorl	%edi, %edi
	movl	84(%rsp), %ecx
	shldq	%cl, %rax, %rdi
	shlq	%cl, %rax
	testb	$64, %cl
	cmovneq	%rax, %rdi
	cmovneq	%rdx, %rax
	orq	%r15, %rdi
	orq	%r8, %rax
	andq	%r11, %rax
	andq	%r12, %rdi
	movq	%rdi, %r8
	movq	%rax, %r15
	movl	88(%rsp), %ecx
	shldq	%cl, %rax, %r8
	shlq	%cl, %r15
	testb	$64, %cl
	cmovneq	%r15, %r8
	cmovneq	%rdx, %r15
	movq	48(%rsp), %rdx
	orq	%rbx, %r8
	orq	%r13, %r8
	orq	%rsi, %r15
	orq	%rbp, %r15
	movl	80(%rsp), %ecx
	shrdq	%cl, %rdi, %rax
	shrq	%cl, %rdi
	testb	$64, %cl
	cmoveq	%rax, %rdi
	movzbl	%dil, %eax
	movq	200(%rsp), %rdi
	shldq	$4, %r8, %rax
	shldq	$4, %r15, %r8
	shlq	$4, %r15
	movq	%r15, -16(%r9)
	movq	%r8, -8(%r9)
	movq	%rax, (%r9)
	movq	$0, 8(%r9)
	addq	$32, %r9
	incl	%r14d
	decq	%rdx
	jne	.LBB5_125
	jmp	.LBB5_126
.LBB5_119:
	movq	152(%rsp), %rcx
	imulq	%rcx, %rax
	addl	%eax, %ecx
	movzwl	%cx, %ecx
	movq	%rcx, %r8
	subq	%rax, %r8
	testb	$1, %r8b
	je	.LBB5_121
	addl	%edx, %r9d
	movzwl	%r9w, %edx
	shll	$4, %edx
	movq	(%rdi,%rdx), %r8
	movq	8(%rdi,%rdx), %rdx
	shrdq	$1, %rdx, %r8
	shrq	%rdx
	andq	%r11, %r8
	andq	%r12, %rdx
	movq	%rdx, %r9
	shldq	$4, %r8, %r9
	shlq	$4, %r8
	shrq	$60, %rdx
	movl	%ebx, %esi
	shll	$5, %esi
	movq	%r8, 560(%rsp,%rsi)
	movq	%r9, 568(%rsp,%rsi)
	movq	%rdx, 576(%rsp,%rsi)
	movq	$0, 584(%rsp,%rsi)
	incq	%rbx
.LBB5_121:
	movzwl	%ax, %eax
	decl	%ecx
	cmpl	%ecx, %eax
	je	.LBB5_126
	movq	104(%rsp), %rax
	subq	%rbx, %rax
	movl	%ebx, %ecx
	shll	$5, %ecx
	leaq	608(%rsp), %rdx
	addq	%rdx, %rcx
	movq	248(%rsp), %rdx
	addl	%ebx, %edx
	addl	296(%rsp), %ebx
	.p2align	4
.LBB5_123:
	movzwl	%bx, %r8d
	shll	$4, %r8d
	movq	(%rdi,%r8), %r9
	movq	8(%rdi,%r8), %r8
	shrdq	$1, %r8, %r9
	shrq	%r8
	andq	%r11, %r9
	andq	%r12, %r8
	movq	%r8, %rsi
	shldq	$4, %r9, %rsi
	shlq	$4, %r9
	shrq	$60, %r8
	movq	%r9, -48(%rcx)
	movq	%rsi, -40(%rcx)
	movq	%r8, -32(%rcx)
	movq	$0, -24(%rcx)
	movzwl	%dx, %r8d
	shll	$4, %r8d
	movq	(%rdi,%r8), %r9
	movq	8(%rdi,%r8), %r8
	shrdq	$1, %r8, %r9
	shrq	%r8
	andq	%r11, %r9
	andq	%r12, %r8
	movq	%r8, %rsi
	shldq	$4, %r9, %rsi
	shlq	$4, %r9
	shrq	$60, %r8
	movq	%r9, -16(%rcx)
	movq	%rsi, -8(%rcx)
	movq	%r8, (%rcx)
	movq	$0, 8(%rcx)
	addq	$64, %rcx
	addl	$2, %edx
	addl	$2, %ebx
	addq	$-2, %rax
	jne	.LBB5_123
	jmp	.LBB5_126
.LBB5_34:
	xorl	$6, %eax
	xorl	$6, %edx
	orw	%ax, %dx
	jne	.LBB5_36
	leal	-3(%rbx), %eax
	leal	-2(%rbx), %ecx
	movl	%ebx, %edx
	decl	%edx
	movzwl	%ax, %eax
	movl	512(%rsp,%rax,8), %eax
	shrl	$3, %eax
	andl	$2, %eax
	movzwl	%cx, %ecx
	movl	512(%rsp,%rcx,8), %ecx
	shrl	$4, %ecx
	andl	$1, %ecx
	orl	%eax, %ecx
	movzwl	%dx, %eax
	movl	512(%rsp,%rax,8), %eax
	shrl	$3, %eax
	andl	$2, %eax
	leal	(%rax,%rcx,4), %r8d
	movzwl	%r13w, %ecx
	movq	512(%rsp), %rdx
	movq	520(%rsp), %rax
	xorl	%r9d, %r9d
	btq	%rcx, %rdx
	setb	%r9b
	movl	%r13d, %ecx
	orb	$1, %cl
	movq	%rdx, %r10
	shrq	%cl, %r10
	orl	%r8d, %r9d
	addl	%r10d, %r10d
	andl	$2, %r10d
	leal	(%r10,%r9,4), %ecx
	leal	2(%r13), %r8d
	movzbl	%r8b, %r8d
	xorl	%r9d, %r9d
	btq	%r8, %rdx
	setb	%r9b
	orq	%rcx, %r9
	movl	%r13d, %ecx
	addb	$3, %cl
	shrq	%cl, %rdx
	andl	$1, %edx
	addq	%rdx, %rdx
	leaq	(%rdx,%r9,4), %rdx
	movzbl	%cl, %ecx
	xorl	%r14d, %r14d
	btq	%rcx, %rax
	setb	%r14b
	orq	%rdx, %r14
.LBB5_41:
	leaq	.Lstatic.2(%rip), %rsi
	movzbl	(%r14,%rsi), %eax
	orb	%al, 5360(%rsp)
	leaq	320(%rsp), %rcx
	movl	%ebx, %edx
	movl	%r13d, %r8d
	callq	"dm_layout::symbols::slots::order"
	movq	328(%rsp), %rax
	testq	%rax, %rax
	je	.LBB5_48
	movq	320(%rsp), %rcx
	cmpq	$1, %rax
	jne	.LBB5_44
	xorl	%edx, %edx
	jmp	.LBB5_47
.LBB5_76:
	movq	208(%rsp), %r14
	testw	%r14w, %r14w
	movq	128(%rsp), %r12
	movq	136(%rsp), %r13
	movl	72(%rsp), %ebp
	movl	284(%rsp), %ecx
	movq	304(%rsp), %rbx
	je	.LBB5_79
	leal	2(%r14), %eax
	movl	%ebx, %edx
	shll	$4, %edx
	movzwl	%cx, %ecx
	movl	$6, %r8d
	subl	%ecx, %r8d
	xorl	%r9d, %r9d
	xorl	%r10d, %r10d
	.p2align	4
.LBB5_78:
	cmpw	%r8w, %ax
	movl	%r14d, %ecx
	cmoval	%r9d, %ecx
	movl	%r8d, %r11d
	subl	%ecx, %r11d
	movzwl	%r11w, %ecx
	shll	$4, %ecx
	movq	496(%rsp,%rcx), %r11
	movq	504(%rsp,%rcx), %rsi
	movq	%rsi, %rdi
	movl	%r13d, %ecx
	shrq	%cl, %rdi
	shrdq	%cl, %rsi, %r11
	testb	$64, %r13b
	cmovneq	%rdi, %r11
	movl	$0, %ecx
	cmoveq	%rdi, %rcx
	orq	%r11, 528(%rsp,%r10)
	orq	%rcx, 536(%rsp,%r10)
	addq	$16, %r10
	incl	%r8d
	cmpq	%r10, %rdx
	jne	.LBB5_78
.LBB5_79:
	movl	%r14d, %edi
	andl	$7, %edi
	movl	%ebx, %eax
	shll	$4, %eax
	movq	496(%rsp,%rax), %rdx
	movq	504(%rsp,%rax), %r8
	movl	%edi, %ecx
	xorb	$4, %cl
	movq	%rdx, %r9
	shlq	%cl, %r9
	shldq	%cl, %rdx, %r8
	shrdq	$4, %r8, %r9
	shrq	$4, %r8
	movq	%r9, 496(%rsp)
	movq	%r8, 504(%rsp)
	movq	512(%rsp,%rax), %rdx
	movq	520(%rsp,%rax), %rax
	shldq	%cl, %rdx, %rax
	shlq	%cl, %rdx
	shrdq	$4, %rax, %rdx
	shrq	$4, %rax
	movq	%rax, 520(%rsp)
	movq	%rdx, 512(%rsp)
	xorl	%esi, %esi
	leaq	4912(%rsp), %rcx
	movl	$1936, %r8d
	xorl	%edx, %edx
	callq	memset
	testw	%r14w, %r14w
	je	.LBB5_93
	movl	%edi, 40(%rsp)
	movabsq	$-2242545357980376864, %rax
	movabsq	$2025524839466146844, %rdx
	movabsq	$217020518514230019, %r8
	shll	$4, %ebx
	xorl	%r9d, %r9d
	xorl	%r10d, %r10d
	.p2align	4
.LBB5_81:
	movq	496(%rsp,%r10), %r11
	movq	504(%rsp,%r10), %rsi
	movl	%r9d, %ecx
	andb	$7, %cl
	xorb	$4, %cl
	addb	$2, %cl
	movq	%rsi, %r14
	shrq	%cl, %r14
	shrdq	%cl, %rsi, %r11
	andq	%r8, %r11
	andq	%r8, %r14
	movq	520(%rsp,%r10), %r15
	movq	%rbx, %rdi
	movq	512(%rsp,%r10), %rbx
	shrdq	%cl, %r15, %rbx
	shrq	%cl, %r15
	shldq	$2, %rbx, %r15
	shlq	$2, %rbx
	andq	%rdx, %rbx
	orq	%r11, %rbx
	movq	536(%rsp,%r10), %r11
	movq	528(%rsp,%r10), %rsi
	shrdq	%cl, %r11, %rsi
	shrq	%cl, %r11
	andq	%rdx, %r15
	orq	%r14, %r15
	shldq	$5, %rsi, %r11
	andq	%rax, %r11
	orq	%r15, %r11
	shlq	$5, %rsi
	andq	%rax, %rsi
	orq	%rbx, %rsi
	movq	%rdi, %rbx
	movq	%r11, %rcx
	shldq	$8, %rsi, %rcx
	movq	%rcx, %xmm1
	movq	%r11, %rcx
	shldq	$16, %rsi, %rcx
	movq	%rcx, %xmm0
	movq	%r11, %rcx
	shldq	$24, %rsi, %rcx
	movq	%rcx, %xmm2
	movq	%r11, %rcx
	shldq	$32, %rsi, %rcx
	movq	%rcx, %xmm3
	movq	%r11, %rcx
	shldq	$40, %rsi, %rcx
	movq	%rcx, %xmm5
	movq	%r11, %rcx
	shldq	$48, %rsi, %rcx
	movq	%rcx, %xmm6
	movq	%r11, %rcx
	shldq	$56, %rsi, %rcx
	movq	%rcx, %xmm7
	movq	%rsi, %xmm4
	movq	%r11, %rcx
	shrq	$56, %rcx
	movd	%ecx, %xmm8
	movq	%r11, %rcx
	shrq	$48, %rcx
	movd	%ecx, %xmm9
	movq	%r11, %rcx
	shrq	$40, %rcx
	movd	%ecx, %xmm10
	movq	%r11, %xmm11
	shrq	$32, %r11
	movd	%r11d, %xmm12
	punpcklbw	%xmm1, %xmm0
	punpcklbw	%xmm2, %xmm3
	psllq	$48, %xmm0
	pshufd	$80, %xmm3, %xmm1
	pblendw	$8, %xmm0, %xmm1
	punpcklbw	%xmm5, %xmm6
	punpcklbw	%xmm7, %xmm4
	punpcklwd	%xmm6, %xmm4
	pblendw	$12, %xmm1, %xmm4
	punpcklbw	%xmm8, %xmm9
	punpcklbw	%xmm10, %xmm12
	pslldq	$14, %xmm9
	pshufd	$0, %xmm12, %xmm0
	pblendw	$128, %xmm9, %xmm0
	pshufd	$68, %xmm11, %xmm1
	pblendw	$192, %xmm0, %xmm1
	pblendw	$15, %xmm4, %xmm1
	movdqu	%xmm1, 4912(%rsp,%r10)
	addq	$16, %r10
	addl	$3, %r9d
	cmpq	%r10, %rdi
	jne	.LBB5_81
	movzwl	40(%rsp), %eax
	movl	%eax, %r8d
	xorl	$4, %r8d
	movzwl	%bp, %edx
	movl	%edx, %ecx
	xorl	$4, %ecx
	orw	%cx, %r8w
	jne	.LBB5_85
	movl	%r13d, %ecx
	orb	$3, %cl
	movq	568(%rsp), %rax
	movq	560(%rsp), %r8
	shrdq	%cl, %rax, %r8
	movq	584(%rsp), %rsi
	movq	576(%rsp), %rdx
	shrdq	%cl, %rsi, %rdx
	shrq	%cl, %rsi
	testb	$64, %cl
	cmoveq	%rdx, %rsi
	shrq	%cl, %rax
	testb	$64, %cl
	movq	552(%rsp), %rdx
	movq	544(%rsp), %r9
	cmoveq	%r8, %rax
	shrdq	%cl, %rdx, %r9
	shrq	%cl, %rdx
	testb	$64, %cl
	movq	528(%rsp), %r8
	movq	536(%rsp), %r10
	cmoveq	%r9, %rdx
	movq	%r8, %r11
	shrdq	%cl, %r10, %r11
	movq	%r10, %r9
	shrq	%cl, %r9
	testb	$64, %cl
	cmoveq	%r11, %r9
	movq	208(%rsp), %r14
	movl	%r14d, %ecx
	decl	%ecx
	movzwl	%cx, %ecx
	shll	$4, %ecx
	movq	528(%rsp,%rcx), %r11
	movl	%r11d, %ecx
	shrl	$3, %ecx
	andl	$2, %ecx
	shrq	$5, %r11
	movl	%r11d, %edi
	andl	$1, %edi
	orl	%ecx, %edi
	andl	$2, %r11d
	movl	%r13d, %ecx
	orb	$2, %cl
	movq	%r10, %rbx
	shrq	%cl, %rbx
	shrdq	%cl, %r10, %r8
	leal	(%r11,%rdi,4), %r10d
.LBB5_84:
	testb	$64, %cl
	cmovneq	%rbx, %r8
	andl	$1, %r8d
	orl	%r10d, %r8d
	addl	%r9d, %r9d
	andl	$2, %r9d
	leal	(%r9,%r8,4), %ecx
	andl	$1, %edx
	orq	%rcx, %rdx
	andl	$1, %eax
	addq	%rax, %rax
	leaq	(%rax,%rdx,4), %rax
	jmp	.LBB5_92
.LBB5_127:
	movq	288(%rsp), %rbx
	testw	%bx, %bx
	movl	284(%rsp), %r9d
	je	.LBB5_133
	leal	2(%rbx), %edx
	movq	136(%rsp), %r8
	movl	%r8d, %ecx
	subw	$128, %cx
	jae	.LBB5_129
	movl	$127, %eax
	subl	%r8d, %eax
	movq	144(%rsp), %r8
	shll	$5, %r8d
	movzwl	%r9w, %ecx
	movl	$6, %r9d
	subl	%ecx, %r9d
	xorl	%r10d, %r10d
	xorl	%r11d, %r11d
	.p2align	4
.LBB5_132:
	cmpw	%r9w, %dx
	movl	%ebx, %ecx
	cmoval	%r10d, %ecx
	movl	%r9d, %esi
	subl	%ecx, %esi
	movzwl	%si, %r12d
	shll	$5, %r12d
	movq	520(%rsp,%r12), %rsi
	movq	%rsi, %r13
	movq	136(%rsp), %rcx
	shrq	%cl, %r13
	movq	512(%rsp,%r12), %rbx
	testb	$64, %cl
	movq	%r13, %rdi
	cmovneq	%r10, %rdi
	movq	%rbx, %r14
	shrdq	%cl, %rsi, %r14
	movq	496(%rsp,%r12), %r15
	movq	504(%rsp,%r12), %r12
	testb	$64, %cl
	cmovneq	%r13, %r14
	movq	%r12, %r13
	shrq	%cl, %r13
	testb	$64, %cl
	movq	%r13, %rbp
	cmovneq	%r10, %rbp
	shrdq	%cl, %r12, %r15
	testb	$64, %cl
	cmovneq	%r13, %r15
	shldq	$1, %rbx, %rsi
	addq	%rbx, %rbx
	movl	%eax, %ecx
	shldq	%cl, %rbx, %rsi
	shlq	%cl, %rbx
	testb	$64, %al
	cmovneq	%rbx, %rsi
	cmovneq	%r10, %rbx
	orq	%r15, %rbx
	orq	%rbx, 560(%rsp,%r11)
	movq	288(%rsp), %rbx
	orq	%rbp, %rsi
	orq	%rsi, 568(%rsp,%r11)
	orq	%r14, 576(%rsp,%r11)
	orq	%rdi, 584(%rsp,%r11)
	addq	$32, %r11
	incl	%r9d
	cmpq	%r11, %r8
	jne	.LBB5_132
	jmp	.LBB5_133
.LBB5_44:
	movq	%rax, %r8
	andq	$-2, %r8
	xorl	%edx, %edx
	.p2align	4
.LBB5_45:
	movzwl	(%rcx,%rdx,2), %r9d
	movzbl	4912(%rsp,%r9), %r9d
	movzbl	(%r9,%rsi), %r9d
	movb	%r9b, (%r12,%rdx)
	movzwl	2(%rcx,%rdx,2), %r9d
	movzbl	4912(%rsp,%r9), %r9d
	movzbl	(%r9,%rsi), %r9d
	movb	%r9b, 1(%r12,%rdx)
	addq	$2, %rdx
	cmpq	%rdx, %r8
	jne	.LBB5_45
	testb	$1, %al
	je	.LBB5_48
.LBB5_47:
	movzwl	(%rcx,%rdx,2), %ecx
	movzbl	4912(%rsp,%rcx), %ecx
	movzbl	(%rcx,%rsi), %ecx
	movb	%cl, (%r12,%rdx)
.LBB5_48:
	movq	344(%rsp), %r9
	testq	%r9, %r9
	je	.LBB5_160
	movq	336(%rsp), %rdx
	movq	352(%rsp), %rcx
	cmpq	$1, %r9
	jne	.LBB5_51
	xorl	%r8d, %r8d
	jmp	.LBB5_54
.LBB5_51:
	movq	%r9, %r10
	andq	$-2, %r10
	leaq	(%rax,%r12), %r11
	incq	%r11
	xorl	%r8d, %r8d
	.p2align	4
.LBB5_52:
	movzwl	(%rdx,%r8,2), %edi
	subq	%rcx, %rdi
	movzbl	4912(%rsp,%rdi), %edi
	movzbl	(%rdi,%rsi), %ebx
	movb	%bl, -1(%r11,%r8)
	movzwl	2(%rdx,%r8,2), %edi
	subq	%rcx, %rdi
	movzbl	4912(%rsp,%rdi), %edi
	movzbl	(%rdi,%rsi), %ebx
	movb	%bl, (%r11,%r8)
	addq	$2, %r8
	cmpq	%r8, %r10
	jne	.LBB5_52
	testb	$1, %r9b
	je	.LBB5_160
.LBB5_54:
	addq	%rax, %r12
	movzwl	(%rdx,%r8,2), %eax
	subq	%rcx, %rax
	movzbl	4912(%rsp,%rax), %eax
	movzbl	(%rax,%rsi), %eax
	movb	%al, (%r12,%r8)
	jmp	.LBB5_160
.LBB5_36:
	orw	%ax, %cx
	jne	.LBB5_38
	leal	-3(%rbx), %eax
	leal	-2(%rbx), %ecx
	movl	%ebx, %edx
	decl	%edx
	movzwl	%ax, %eax
	movl	512(%rsp,%rax,8), %eax
	shrl	$3, %eax
	andl	$2, %eax
	movzwl	%cx, %ecx
	movl	512(%rsp,%rcx,8), %ecx
	shrl	$4, %ecx
	andl	$1, %ecx
	orl	%eax, %ecx
	movzwl	%dx, %eax
	movl	512(%rsp,%rax,8), %eax
	shrl	$3, %eax
	andl	$2, %eax
	leal	(%rax,%rcx,4), %eax
	jmp	.LBB5_33
.LBB5_85:
	xorl	$6, %eax
	xorl	$6, %edx
	orw	%ax, %dx
	movq	208(%rsp), %r14
	jne	.LBB5_87
	leal	-3(%r14), %eax
	leal	-2(%r14), %ecx
	movl	%r14d, %edx
	decl	%edx
	movzwl	%ax, %eax
	shll	$4, %eax
	movl	528(%rsp,%rax), %eax
	shrl	$3, %eax
	andl	$2, %eax
	movzwl	%cx, %ecx
	shll	$4, %ecx
	movl	528(%rsp,%rcx), %r8d
	shrl	$4, %r8d
	andl	$1, %r8d
	orl	%eax, %r8d
	movzwl	%dx, %eax
	shll	$4, %eax
	movl	528(%rsp,%rax), %r10d
	movq	536(%rsp), %rdx
	movq	%rdx, %r11
	movl	%r13d, %ecx
	shrq	%cl, %r11
	shrl	$3, %r10d
	movq	528(%rsp), %rax
	movq	%rax, %r9
	shrdq	%cl, %rdx, %r9
	andl	$2, %r10d
	testb	$64, %r13b
	cmovneq	%r11, %r9
	orb	$1, %cl
	movq	%rdx, %rsi
	shrq	%cl, %rsi
	movq	%rax, %r11
	shrdq	%cl, %rdx, %r11
	leal	(%r10,%r8,4), %r8d
	andl	$1, %r9d
	orl	%r8d, %r9d
	testb	$64, %cl
	cmovneq	%rsi, %r11
	leal	2(%r13), %ecx
	movq	%rdx, %r10
	shrq	%cl, %r10
	addl	%r11d, %r11d
	andl	$2, %r11d
	movq	%rax, %r8
	shrdq	%cl, %rdx, %r8
	leal	(%r11,%r9,4), %r9d
	testb	$64, %cl
	cmovneq	%r10, %r8
	movl	%r13d, %ecx
	addb	$3, %cl
	movq	%rdx, %r10
	shrq	%cl, %r10
	shrdq	%cl, %rdx, %rax
	andl	$1, %r8d
	movq	552(%rsp), %rsi
	movq	544(%rsp), %rdx
	shrdq	%cl, %rsi, %rdx
	shrq	%cl, %rsi
	orq	%r9, %r8
	testb	$64, %cl
	cmovneq	%r10, %rax
	cmoveq	%rdx, %rsi
	andl	$1, %eax
	addq	%rax, %rax
	leaq	(%rax,%r8,4), %rax
.LBB5_92:
	andl	$1, %esi
	orq	%rax, %rsi
.LBB5_93:
	leaq	.Lstatic.2(%rip), %rdi
	movzbl	(%rsi,%rdi), %eax
	orb	%al, 6832(%rsp)
	leaq	320(%rsp), %rcx
	movl	%r14d, %edx
	movl	%r13d, %r8d
	callq	"dm_layout::symbols::slots::order"
	movq	328(%rsp), %rax
	testq	%rax, %rax
	je	.LBB5_100
	movq	320(%rsp), %rcx
	cmpq	$1, %rax
	jne	.LBB5_96
	xorl	%edx, %edx
	jmp	.LBB5_99
.LBB5_96:
	movq	%rax, %r8
	andq	$-2, %r8
	xorl	%edx, %edx
	.p2align	4
.LBB5_97:
	movzwl	(%rcx,%rdx,2), %r9d
	movzbl	4912(%rsp,%r9), %r9d
	movzbl	(%r9,%rdi), %r9d
	movb	%r9b, (%r12,%rdx)
	movzwl	2(%rcx,%rdx,2), %r9d
	movzbl	4912(%rsp,%r9), %r9d
	movzbl	(%r9,%rdi), %r9d
	movb	%r9b, 1(%r12,%rdx)
	addq	$2, %rdx
	cmpq	%rdx, %r8
	jne	.LBB5_97
	testb	$1, %al
	je	.LBB5_100
.LBB5_99:
	movzwl	(%rcx,%rdx,2), %ecx
	movzbl	4912(%rsp,%rcx), %ecx
	movzbl	(%rcx,%rdi), %ecx
	movb	%cl, (%r12,%rdx)
.LBB5_100:
	movq	344(%rsp), %r9
	testq	%r9, %r9
	je	.LBB5_160
	movq	336(%rsp), %rdx
	movq	352(%rsp), %rcx
	cmpq	$1, %r9
	jne	.LBB5_103
	xorl	%r8d, %r8d
	jmp	.LBB5_106
.LBB5_103:
	movq	%r9, %r10
	andq	$-2, %r10
	leaq	(%rax,%r12), %r11
	incq	%r11
	xorl	%r8d, %r8d
	.p2align	4
.LBB5_104:
	movzwl	(%rdx,%r8,2), %esi
	subq	%rcx, %rsi
	movzbl	4912(%rsp,%rsi), %esi
	movzbl	(%rsi,%rdi), %ebx
	movb	%bl, -1(%r11,%r8)
	movzwl	2(%rdx,%r8,2), %esi
	subq	%rcx, %rsi
	movzbl	4912(%rsp,%rsi), %esi
	movzbl	(%rsi,%rdi), %ebx
	movb	%bl, (%r11,%r8)
	addq	$2, %r8
	cmpq	%r8, %r10
	jne	.LBB5_104
	testb	$1, %r9b
	je	.LBB5_160
.LBB5_106:
	addq	%rax, %r12
	movzwl	(%rdx,%r8,2), %eax
	subq	%rcx, %rax
	movzbl	4912(%rsp,%rax), %eax
	movzbl	(%rax,%rdi), %eax
	movb	%al, (%r12,%r8)
	jmp	.LBB5_160
.LBB5_129:
	movq	144(%rsp), %rax
	shll	$5, %eax
	movzwl	%r9w, %r9d
	movl	$6, %r8d
	subl	%r9d, %r8d
	xorl	%r9d, %r9d
	xorl	%r10d, %r10d
	.p2align	4
.LBB5_130:
	cmpw	%r8w, %dx
	movl	%ebx, %r11d
	cmoval	%r9d, %r11d
	movl	%r8d, %esi
	subl	%r11d, %esi
	movzwl	%si, %r11d
	shll	$5, %r11d
	movq	512(%rsp,%r11), %rsi
	movq	520(%rsp,%r11), %r11
	movq	%r11, %rdi
	shrq	%cl, %rdi
	shrdq	%cl, %r11, %rsi
	testb	$64, %cl
	cmovneq	%rdi, %rsi
	movl	$0, %r11d
	cmoveq	%rdi, %r11
	orq	%rsi, 560(%rsp,%r10)
	orq	%r11, 568(%rsp,%r10)
	addq	$32, %r10
	incl	%r8d
	cmpq	%r10, %rax
	jne	.LBB5_130
.LBB5_133:
	movl	%ebx, %ebp
	andl	$7, %ebp
	movq	144(%rsp), %r14
	movl	%r14d, %r8d
	shll	$5, %r8d
	movq	496(%rsp,%r8), %rdx
	movl	%ebp, %eax
	xorb	$4, %al
	movq	%rdx, %r9
	movl	%eax, %ecx
	shlq	%cl, %r9
	movq	504(%rsp,%r8), %r10
	movq	%r10, %r11
	shldq	%cl, %rdx, %r11
	movq	512(%rsp,%r8), %rsi
	movq	520(%rsp,%r8), %rdi
	shldq	%cl, %rsi, %rdi
	shlq	%cl, %rsi
	shrq	%r10
	movl	%ebp, %edx
	xorb	$59, %dl
	movl	%edx, %ecx
	shrq	%cl, %r10
	orq	%rsi, %r10
	shrdq	$4, %r11, %r9
	shrdq	$4, %r10, %r11
	shrdq	$4, %rdi, %r10
	shrq	$4, %rdi
	movq	%r11, 504(%rsp)
	movq	%r9, 496(%rsp)
	movq	%rdi, 520(%rsp)
	movq	%r10, 512(%rsp)
	movq	528(%rsp,%r8), %r9
	movq	%r9, %r10
	movl	%eax, %ecx
	shlq	%cl, %r10
	movq	536(%rsp,%r8), %r11
	movq	%r11, %rsi
	shldq	%cl, %r9, %rsi
	movq	552(%rsp,%r8), %r9
	movq	544(%rsp,%r8), %r8
	shldq	%cl, %r8, %r9
	shlq	%cl, %r8
	shrq	%r11
	movl	%edx, %ecx
	shrq	%cl, %r11
	orq	%r8, %r11
	movq	%r9, %rax
	shldq	$60, %r11, %rax
	shldq	$60, %rsi, %r11
	shldq	$60, %r10, %rsi
	shrq	$4, %r9
	movq	%rsi, 528(%rsp)
	movq	%r11, 536(%rsp)
	movq	%r9, 552(%rsp)
	movq	%rax, 544(%rsp)
	leaq	4912(%rsp), %rcx
	movl	$4256, %r8d
	xorl	%edx, %edx
	callq	memset
	testw	%bx, %bx
	je	.LBB5_161
	movl	%ebp, 272(%rsp)
	shll	$5, %r14d
	xorl	%ecx, %ecx
	xorl	%edi, %edi
	movq	%r14, 144(%rsp)
	.p2align	4
.LBB5_135:
	movq	%rcx, 40(%rsp)
	movq	520(%rsp,%rdi), %r13
	movq	512(%rsp,%rdi), %r9
	movq	496(%rsp,%rdi), %rdx
	movq	504(%rsp,%rdi), %r10
	movq	40(%rsp), %r8
	andb	$7, %r8b
	xorb	$4, %r8b
	leal	2(%r8), %eax
	movl	%eax, %ecx
	shrdq	%cl, %r10, %rdx
	movq	%rdx, 48(%rsp)
	shrq	%cl, %r10
	movq	%r10, 112(%rsp)
	leaq	(%r9,%r9), %r10
	movb	$125, %dl
	subb	%r8b, %dl
	movl	%edx, %ecx
	shlq	%cl, %r10
	movl	%eax, %ecx
	shrdq	%cl, %r13, %r9
	movq	%r9, 120(%rsp)
	shrq	%cl, %r13
	movq	536(%rsp,%rdi), %rbp
	movq	528(%rsp,%rdi), %r9
	shrdq	%cl, %rbp, %r9
	shrq	%cl, %rbp
	movq	552(%rsp,%rdi), %r8
	movq	544(%rsp,%rdi), %rsi
	leaq	(%rsi,%rsi), %r12
	movl	%edx, %ecx
	shlq	%cl, %r12
	movl	%eax, %ecx
	shrdq	%cl, %r8, %rsi
	shrq	%cl, %r8
	movq	568(%rsp,%rdi), %r11
	movq	560(%rsp,%rdi), %r15
	shrdq	%cl, %r11, %r15
	movq	576(%rsp,%rdi), %rbx
	shrq	%cl, %r11
	leaq	(%rbx,%rbx), %r14
	movl	%edx, %ecx
	shlq	%cl, %r14
	orq	112(%rsp), %r10
	orq	%rbp, %r12
	orq	%r11, %r14
	movabsq	$217020518514230019, %rdx
	andq	%rdx, %r10
	shldq	$2, %r9, %r12
	movabsq	$2025524839466146844, %r11
	andq	%r11, %r12
	orq	%r10, %r12
	movq	48(%rsp), %rcx
	andq	%rdx, %rcx
	shlq	$2, %r9
	andq	%r11, %r9
	orq	%rcx, %r9
	movq	120(%rsp), %r10
	andq	%rdx, %r10
	andq	%rdx, %r13
	shldq	$2, %rsi, %r8
	andq	%r11, %r8
	orq	%r13, %r8
	movq	584(%rsp,%rdi), %rdx
	movl	%eax, %ecx
	shrdq	%cl, %rdx, %rbx
	shlq	$2, %rsi
	andq	%r11, %rsi
	shldq	$5, %r15, %r14
	orq	%r10, %rsi
	movabsq	$-2242545357980376864, %r10
	andq	%r10, %r14
	orq	%r12, %r14
	shrq	%cl, %rdx
	shlq	$5, %r15
	andq	%r10, %r15
	orq	%r9, %r15
	shldq	$5, %rbx, %rdx
	andq	%r10, %rdx
	orq	%r8, %rdx
	movq	40(%rsp), %rcx
	shlq	$5, %rbx
	andq	%r10, %rbx
	orq	%rsi, %rbx
	movq	%r14, %rax
	shldq	$8, %r15, %rax
	movq	%rax, %xmm8
	movq	%r14, %rax
	shldq	$16, %r15, %rax
	movq	%rax, %xmm7
	movq	%r14, %rax
	shldq	$24, %r15, %rax
	movq	%rax, %xmm9
	movq	%r14, %rax
	shldq	$32, %r15, %rax
	movq	%rax, %xmm10
	movq	%r14, %rax
	shldq	$40, %r15, %rax
	movq	%rax, %xmm11
	movq	%r14, %rax
	shldq	$48, %r15, %rax
	movq	%rax, %xmm3
	movq	%r14, %rax
	shldq	$56, %r15, %rax
	movq	%rax, %xmm6
	movq	%r15, %xmm0
	movq	%r14, %rax
	shrq	$56, %rax
	movd	%eax, %xmm4
	movq	%r14, %rax
	shrq	$48, %rax
	movd	%eax, %xmm1
	movq	%r14, %rax
	shrq	$40, %rax
	movd	%eax, %xmm5
	movq	%r14, %xmm2
	shrq	$32, %r14
	punpcklbw	%xmm8, %xmm7
	psllq	$48, %xmm7
	punpcklbw	%xmm9, %xmm10
	pshufd	$80, %xmm10, %xmm9
	pblendw	$8, %xmm7, %xmm9
	punpcklbw	%xmm11, %xmm3
	movd	%r14d, %xmm7
	movq	144(%rsp), %r14
	movq	%rdx, %rax
	shldq	$8, %rbx, %rax
	movq	%rax, %xmm10
	movq	%rdx, %rax
	shldq	$16, %rbx, %rax
	movq	%rax, %xmm8
	movq	%rdx, %rax
	shldq	$24, %rbx, %rax
	movq	%rax, %xmm11
	movq	%rdx, %rax
	shldq	$32, %rbx, %rax
	movq	%rax, %xmm12
	movq	%rdx, %rax
	shldq	$40, %rbx, %rax
	movq	%rax, %xmm13
	movq	%rdx, %rax
	shldq	$48, %rbx, %rax
	movq	%rax, %xmm14
	movq	%rdx, %rax
	shldq	$56, %rbx, %rax
	movq	%rax, %xmm15
	punpcklbw	%xmm6, %xmm0
	movq	%rbx, %xmm6
	movq	%rdx, %rax
	punpcklwd	%xmm3, %xmm0
	shrq	$56, %rax
	movd	%eax, %xmm3
	movq	%rdx, %rax
	pblendw	$12, %xmm9, %xmm0
	shrq	$48, %rax
	movd	%eax, %xmm9
	movq	%rdx, %rax
	punpcklbw	%xmm4, %xmm1
	shrq	$40, %rax
	movd	%eax, %xmm4
	punpcklbw	%xmm5, %xmm7
	movq	%rdx, %xmm5
	pslldq	$14, %xmm1
	pshufd	$0, %xmm7, %xmm7
	pblendw	$128, %xmm1, %xmm7
	shrq	$32, %rdx
	movd	%edx, %xmm1
	pshufd	$68, %xmm2, %xmm2
	pblendw	$192, %xmm7, %xmm2
	pblendw	$15, %xmm0, %xmm2
	movdqu	%xmm2, 4912(%rsp,%rdi)
	punpcklbw	%xmm10, %xmm8
	punpcklbw	%xmm11, %xmm12
	psllq	$48, %xmm8
	pshufd	$80, %xmm12, %xmm0
	pblendw	$8, %xmm8, %xmm0
	punpcklbw	%xmm13, %xmm14
	punpcklbw	%xmm15, %xmm6
	punpcklwd	%xmm14, %xmm6
	pblendw	$12, %xmm0, %xmm6
	punpcklbw	%xmm3, %xmm9
	punpcklbw	%xmm4, %xmm1
	pslldq	$14, %xmm9
	pshufd	$0, %xmm1, %xmm0
	pblendw	$128, %xmm9, %xmm0
	pshufd	$68, %xmm5, %xmm1
	pblendw	$192, %xmm0, %xmm1
	pblendw	$15, %xmm6, %xmm1
	movdqu	%xmm1, 4928(%rsp,%rdi)
	addq	$32, %rdi
	addl	$3, %ecx
	cmpq	%rdi, %r14
	jne	.LBB5_135
	movzwl	272(%rsp), %eax
	movl	%eax, %r8d
	xorl	$4, %r8d
	movl	72(%rsp), %r9d
	movzwl	%r9w, %edx
	movl	%edx, %ecx
	xorl	$4, %ecx
	orw	%cx, %r8w
	jne	.LBB5_138
	movq	288(%rsp), %rbx
	movl	%ebx, %eax
	decl	%eax
	movq	136(%rsp), %rdi
	leal	-2(%rdi), %ecx
	movl	%edi, %edx
	decl	%edx
	movw	%ax, 368(%rsp)
	movw	$0, 370(%rsp)
	movw	%ax, 372(%rsp)
	movw	$1, 374(%rsp)
	movw	%ax, 376(%rsp)
	movl	$2, 378(%rsp)
	movw	%cx, 382(%rsp)
	movw	$0, 384(%rsp)
	movw	%dx, 386(%rsp)
	movw	$1, 388(%rsp)
	movw	%dx, 390(%rsp)
	movw	$2, 392(%rsp)
	movw	%dx, 394(%rsp)
	movw	$3, 396(%rsp)
	movw	%dx, 398(%rsp)
	leaq	496(%rsp), %rcx
	leaq	368(%rsp), %rdx
	callq	"dm_layout::symbols::slots::word_of_cells::<#3c42656d14ec8a1f>"
	movq	128(%rsp), %r14
	jmp	.LBB5_146
.LBB5_161:
	xorl	%eax, %eax
	movq	128(%rsp), %r14
	movq	136(%rsp), %rdi
	jmp	.LBB5_146
.LBB5_138:
	xorl	$6, %eax
	xorl	$6, %edx
	orw	%ax, %dx
	movq	128(%rsp), %r14
	movq	136(%rsp), %rdi
	movq	288(%rsp), %rbx
	jne	.LBB5_140
	leal	-3(%rbx), %eax
	leal	-2(%rbx), %ecx
	leal	-4(%rdi), %edx
	leal	-3(%rdi), %r8d
	leal	-2(%rdi), %r9d
	movl	%edi, %r10d
	decl	%r10d
	movw	%ax, 432(%rsp)
	movw	$0, 434(%rsp)
	movw	%cx, 436(%rsp)
	movl	%ebx, %eax
	decl	%eax
	pxor	%xmm0, %xmm0
	pinsrw	$1, %eax, %xmm0
	movq	%xmm0, 438(%rsp)
	movw	%dx, 446(%rsp)
	movw	$0, 448(%rsp)
	movw	%r8w, 450(%rsp)
	movw	$0, 452(%rsp)
	movw	%r9w, 454(%rsp)
	movw	$0, 456(%rsp)
	movw	%r10w, 458(%rsp)
	movw	$1, 460(%rsp)
	movw	%r10w, 462(%rsp)
	leaq	496(%rsp), %rcx
	leaq	432(%rsp), %rdx
	jmp	.LBB5_145
.LBB5_38:
	orw	%ax, %bp
	jne	.LBB5_39
	movl	%ebx, %eax
	decl	%eax
	movzwl	%ax, %eax
	movq	512(%rsp,%rax,8), %rcx
	movl	%ecx, %r8d
	shrl	$3, %r8d
	andl	$2, %r8d
	movl	%r13d, %eax
	orb	$3, %al
	movzbl	%al, %eax
	xorl	%r11d, %r11d
	btq	%rax, %rcx
	setb	%r11b
	movl	%r13d, %edx
	orb	$1, %dl
	movq	512(%rsp), %r10
	movq	%r10, %rsi
	movl	%edx, %ecx
	shrq	%cl, %rsi
	orl	%r8d, %r11d
	movq	520(%rsp), %r9
	andl	$1, %esi
	addl	%esi, %esi
	leal	(%rsi,%r11,4), %ecx
	movl	%r13d, %r8d
	orb	$2, %r8b
	movzbl	%r8b, %r8d
	xorl	%r11d, %r11d
	btq	%r8, %r10
	setb	%r11b
	orl	%ecx, %r11d
	movl	%eax, %ecx
	shrq	%cl, %r10
	addl	%r10d, %r10d
	andl	$2, %r10d
	leal	(%r10,%r11,4), %r10d
	movzbl	%dl, %ecx
	xorl	%edx, %edx
	btq	%rcx, %r9
	setb	%dl
	movq	%r9, %r11
	movl	%r8d, %ecx
	shrq	%cl, %r11
	orq	%r10, %rdx
	andl	$1, %r11d
	addq	%r11, %r11
	leaq	(%r11,%rdx,4), %rcx
	xorl	%r14d, %r14d
	btq	%rax, %r9
	setb	%r14b
	orq	%rcx, %r14
	jmp	.LBB5_41
.LBB5_87:
	orw	%ax, %cx
	jne	.LBB5_89
	movl	%r13d, %ecx
	orb	$3, %cl
	movq	568(%rsp), %rax
	movq	560(%rsp), %r8
	shrdq	%cl, %rax, %r8
	movq	584(%rsp), %rsi
	movq	576(%rsp), %rdx
	shrdq	%cl, %rsi, %rdx
	shrq	%cl, %rsi
	testb	$64, %cl
	cmoveq	%rdx, %rsi
	shrq	%cl, %rax
	testb	$64, %cl
	movq	552(%rsp), %rdx
	movq	544(%rsp), %r9
	cmoveq	%r8, %rax
	shrdq	%cl, %rdx, %r9
	shrq	%cl, %rdx
	testb	$64, %cl
	movq	528(%rsp), %r8
	movq	536(%rsp), %r10
	cmoveq	%r9, %rdx
	movq	%r8, %r11
	shrdq	%cl, %r10, %r11
	movq	%r10, %r9
	shrq	%cl, %r9
	testb	$64, %cl
	cmoveq	%r11, %r9
	leal	-3(%r14), %ecx
	movzwl	%cx, %ecx
	leal	-2(%r14), %r11d
	movl	%r14d, %edi
	decl	%edi
	shll	$4, %ecx
	movl	528(%rsp,%rcx), %ecx
	movzwl	%r11w, %r11d
	shrl	$3, %ecx
	andl	$2, %ecx
	shll	$4, %r11d
	movl	528(%rsp,%r11), %r11d
	movzwl	%di, %edi
	shrl	$4, %r11d
	andl	$1, %r11d
	orl	%ecx, %r11d
	shll	$4, %edi
	movl	528(%rsp,%rdi), %edi
	shrl	$3, %edi
	andl	$2, %edi
	movl	%r13d, %ecx
	orb	$2, %cl
	movq	%r10, %rbx
	shrq	%cl, %rbx
	shrdq	%cl, %r10, %r8
	leal	(%rdi,%r11,4), %r10d
	jmp	.LBB5_84
.LBB5_140:
	orw	%ax, %cx
	jne	.LBB5_142
	leal	-3(%rbx), %eax
	leal	-2(%rbx), %ecx
	leal	-2(%rdi), %edx
	movl	%edi, %r8d
	decl	%r8d
	movw	%ax, 400(%rsp)
	movw	$0, 402(%rsp)
	movw	%cx, 404(%rsp)
	movl	%ebx, %eax
	decl	%eax
	pxor	%xmm0, %xmm0
	pinsrw	$1, %eax, %xmm0
	movq	%xmm0, 406(%rsp)
	movw	%dx, 414(%rsp)
	movw	$0, 416(%rsp)
	movw	%r8w, 418(%rsp)
	movw	$1, 420(%rsp)
	movw	%r8w, 422(%rsp)
	movw	$2, 424(%rsp)
	movw	%r8w, 426(%rsp)
	movw	$3, 428(%rsp)
	movw	%r8w, 430(%rsp)
	leaq	496(%rsp), %rcx
	leaq	400(%rsp), %rdx
	jmp	.LBB5_145
.LBB5_39:
	xorl	%r14d, %r14d
	jmp	.LBB5_41
.LBB5_89:
	orw	%ax, %bp
	jne	.LBB5_90
	movl	%r13d, %ecx
	orb	$3, %cl
	movq	552(%rsp), %r8
	movq	544(%rsp), %r11
	movq	%r11, %rax
	shrdq	%cl, %r8, %rax
	movq	%r8, %rsi
	shrq	%cl, %rsi
	testb	$64, %cl
	movq	528(%rsp), %rdi
	movq	536(%rsp), %r9
	cmoveq	%rax, %rsi
	movq	%rdi, %rax
	shrdq	%cl, %r9, %rax
	movq	%r9, %r10
	shrq	%cl, %r10
	testb	$64, %cl
	cmoveq	%rax, %r10
	movl	%r14d, %eax
	decl	%eax
	movzwl	%ax, %eax
	shll	$4, %eax
	movq	528(%rsp,%rax), %r14
	movq	536(%rsp,%rax), %rbx
	movq	%r14, %rax
	shrdq	%cl, %rbx, %rax
	shrq	%cl, %rbx
	testb	$64, %cl
	cmoveq	%rax, %rbx
	movl	%r13d, %eax
	orb	$1, %al
	movq	%r9, %r13
	movl	%eax, %ecx
	shrq	%cl, %r13
	movq	%r12, 128(%rsp)
	movq	%rdi, %r12
	shrdq	%cl, %r9, %r12
	movq	136(%rsp), %rcx
	movl	%ecx, %edx
	orb	$2, %dl
	movl	%edx, %ecx
	shrdq	%cl, %r9, %rdi
	shrq	%cl, %r9
	shrl	$3, %r14d
	movq	%r11, %rbp
	movl	%eax, %ecx
	shrdq	%cl, %r8, %rbp
	andl	$2, %r14d
	andl	$1, %ebx
	movq	%r8, %r15
	shrq	%cl, %r15
	movl	%edx, %ecx
	shrdq	%cl, %r8, %r11
	shrq	%cl, %r8
	orl	%r14d, %ebx
	movq	208(%rsp), %r14
	testb	$64, %dl
	cmoveq	%rdi, %r9
	cmoveq	%r11, %r8
	testb	$64, %al
	cmovneq	%r13, %r12
	movq	136(%rsp), %r13
	cmoveq	%rbp, %r15
	andl	$1, %r12d
	addl	%r12d, %r12d
	leal	(%r12,%rbx,4), %eax
	movq	128(%rsp), %r12
	andl	$1, %r9d
	orl	%eax, %r9d
	addl	%r10d, %r10d
	andl	$2, %r10d
	leal	(%r10,%r9,4), %eax
	andl	$1, %r15d
	orq	%rax, %r15
	andl	$1, %r8d
	addq	%r8, %r8
	leaq	(%r8,%r15,4), %rax
	jmp	.LBB5_92
.LBB5_142:
	orw	%ax, %r9w
	jne	.LBB5_143
	movdqa	.LCPI5_0(%rip), %xmm0
	pinsrw	$7, %edi, %xmm0
	pshufd	$255, %xmm0, %xmm1
	pblendw	$215, .LCPI5_1(%rip), %xmm1
	pinsrw	$0, %ebx, %xmm1
	pshuflw	$196, %xmm1, %xmm1
	paddw	%xmm0, %xmm1
	movl	%edi, %eax
	decl	%eax
	movdqa	%xmm1, 464(%rsp)
	movw	$0, 480(%rsp)
	movw	%ax, 482(%rsp)
	pshufhw	$237, %xmm1, %xmm0
	pshufd	$170, %xmm0, %xmm0
	movdqa	.LCPI5_2(%rip), %xmm1
	punpcklwd	%xmm0, %xmm1
	movq	%xmm1, 484(%rsp)
	movw	$1, 492(%rsp)
	movw	%ax, 494(%rsp)
	leaq	496(%rsp), %rcx
	leaq	464(%rsp), %rdx
.LBB5_145:
	callq	"dm_layout::symbols::slots::word_of_cells::<#3c42656d14ec8a1f>"
.LBB5_146:
	movzbl	%al, %eax
	leaq	.Lstatic.2(%rip), %rsi
	movzbl	(%rax,%rsi), %eax
	orb	%al, 9136(%rsp)
	leaq	320(%rsp), %rcx
	movl	%ebx, %edx
	movl	%edi, %r8d
	callq	"dm_layout::symbols::slots::order"
	movq	328(%rsp), %rax
	testq	%rax, %rax
	je	.LBB5_153
	movq	320(%rsp), %rcx
	cmpq	$1, %rax
	jne	.LBB5_149
	xorl	%edx, %edx
	jmp	.LBB5_152
.LBB5_149:
	movq	%rax, %r8
	andq	$-2, %r8
	xorl	%edx, %edx
	.p2align	4
.LBB5_150:
	movzwl	(%rcx,%rdx,2), %r9d
	movzbl	4912(%rsp,%r9), %r9d
	movzbl	(%r9,%rsi), %r9d
	movb	%r9b, (%r14,%rdx)
	movzwl	2(%rcx,%rdx,2), %r9d
	movzbl	4912(%rsp,%r9), %r9d
	movzbl	(%r9,%rsi), %r9d
	movb	%r9b, 1(%r14,%rdx)
	addq	$2, %rdx
	cmpq	%rdx, %r8
	jne	.LBB5_150
	testb	$1, %al
	je	.LBB5_153
.LBB5_152:
	movzwl	(%rcx,%rdx,2), %ecx
	movzbl	4912(%rsp,%rcx), %ecx
	movzbl	(%rcx,%rsi), %ecx
	movb	%cl, (%r14,%rdx)
.LBB5_153:
	movq	344(%rsp), %r9
	testq	%r9, %r9
	je	.LBB5_160
	movq	336(%rsp), %rdx
	movq	352(%rsp), %rcx
	cmpq	$1, %r9
	jne	.LBB5_156
	xorl	%r8d, %r8d
	jmp	.LBB5_159
.LBB5_156:
	movq	%r9, %r10
	andq	$-2, %r10
	leaq	(%rax,%r14), %r11
	incq	%r11
	xorl	%r8d, %r8d
	.p2align	4
.LBB5_157:
	movzwl	(%rdx,%r8,2), %edi
	subq	%rcx, %rdi
	movzbl	4912(%rsp,%rdi), %edi
	movzbl	(%rdi,%rsi), %ebx
	movb	%bl, -1(%r11,%r8)
	movzwl	2(%rdx,%r8,2), %edi
	subq	%rcx, %rdi
	movzbl	4912(%rsp,%rdi), %edi
	movzbl	(%rdi,%rsi), %ebx
	movb	%bl, (%r11,%r8)
	addq	$2, %r8
	cmpq	%r8, %r10
	jne	.LBB5_157
	testb	$1, %r9b
	je	.LBB5_160
.LBB5_159:
	addq	%rax, %r14
	movzwl	(%rdx,%r8,2), %eax
	subq	%rcx, %rax
	movzbl	4912(%rsp,%rax), %eax
	movzbl	(%rax,%rsi), %eax
	movb	%al, (%r14,%r8)
.LBB5_160:
	movaps	9168(%rsp), %xmm6
	movaps	9184(%rsp), %xmm7
	movaps	9200(%rsp), %xmm8
	movaps	9216(%rsp), %xmm9
	movaps	9232(%rsp), %xmm10
	movaps	9248(%rsp), %xmm11
	movaps	9264(%rsp), %xmm12
	movaps	9280(%rsp), %xmm13
	movaps	9296(%rsp), %xmm14
	movaps	9312(%rsp), %xmm15
	addq	$9336, %rsp
	popq	%rbx
	popq	%rbp
	popq	%rdi
	popq	%rsi
	popq	%r12
	popq	%r13
	popq	%r14
	popq	%r15
	retq
.LBB5_90:
	xorl	%esi, %esi
	jmp	.LBB5_93
.LBB5_143:
	xorl	%eax, %eax
	jmp	.LBB5_146
	.seh_endproc

	.def	"dm_layout::symbols::slots::order";
	.scl	3;
	.type	32;
	.endef
	.p2align	4
"dm_layout::symbols::slots::order":
	cmpw	%r8w, %dx
	jne	.LBB6_7
	leal	-25(%rdx), %eax
	cmpw	$95, %ax
	ja	.LBB6_7
	movl	%edx, %eax
	andl	$7, %eax
	jne	.LBB6_7
	movzwl	%dx, %r8d
	movl	%r8d, %r9d
	imull	%r9d, %r9d
	movl	%r9d, %r10d
	shrl	$4, %r10d
	shrl	$3, %r9d
	cmpw	$56, %dx
	ja	.LBB6_6
	leaq	.Lstatic.3(%rip), %rdx
	movq	%rdx, %rax
	subq	%r9, %rax
	addq	$784, %rax
	movl	$56, %r11d
	subl	%r8d, %r11d
	shrl	$3, %r11d
	movq	%r11, %r9
	shlq	$6, %r9
	jmp	.LBB6_5
.LBB6_7:
	cmpw	%r8w, %dx
	jne	.LBB6_28
	movzwl	%dx, %r8d
	leaq	.Lstatic.5(%rip), %rax
	leal	-8(%r8), %edx
	cmpl	$100, %edx
	ja	.LBB6_27
	leaq	.LJTI6_1(%rip), %r9
	movslq	(%r9,%rdx,4), %rdx
	addq	%r9, %rdx
	jmpq	*%rdx
.LBB6_10:
	leaq	.Lstatic.6(%rip), %rdx
	jmp	.LBB6_71
.LBB6_6:
	leaq	.Lstatic.4(%rip), %rdx
	movq	%rdx, %rax
	subq	%r9, %rax
	addq	$3600, %rax
	movl	$120, %r11d
	subl	%r8d, %r11d
	shrl	$3, %r11d
	movq	%r11, %r9
	shlq	$7, %r9
.LBB6_5:
	addq	%r11, %r9
	movq	%r10, %r8
	jmp	.LBB6_72
.LBB6_28:
	addl	$-6, %edx
	rorw	%dx
	leaq	.Lstatic.5(%rip), %rax
	cmpw	$8, %dx
	ja	.LBB6_66
	movzwl	%dx, %edx
	leaq	.LJTI6_0(%rip), %r9
	movslq	(%r9,%rdx,4), %rdx
	addq	%r9, %rdx
	jmpq	*%rdx
.LBB6_31:
	movzwl	%r8w, %edx
	cmpl	$55, %edx
	jle	.LBB6_32
	cmpl	$87, %edx
	jg	.LBB6_41
	cmpl	$56, %edx
	je	.LBB6_45
	cmpl	$72, %edx
	jne	.LBB6_47
	leaq	.Lstatic.24(%rip), %rdx
	movl	$54, %r8d
	jmp	.LBB6_71
.LBB6_55:
	cmpw	$32, %r8w
	je	.LBB6_56
	movzwl	%r8w, %edx
	cmpl	$44, %edx
	jne	.LBB6_59
	leaq	.Lstatic.33(%rip), %rdx
	movl	$77, %r8d
	jmp	.LBB6_71
.LBB6_65:
	cmpw	$44, %r8w
	movl	$121, %edx
	movl	$154, %r8d
	cmoveq	%rdx, %r8
	leaq	.Lstatic.39(%rip), %r9
	leaq	.Lstatic.40(%rip), %rdx
	cmoveq	%r9, %rdx
	jmp	.LBB6_71
.LBB6_66:
	cmpw	$36, %r8w
	je	.LBB6_67
	movzwl	%r8w, %edx
	cmpl	$44, %edx
	jne	.LBB6_70
	leaq	.Lstatic.42(%rip), %rdx
	movl	$132, %r8d
	jmp	.LBB6_71
.LBB6_48:
	cmpw	$24, %r8w
	je	.LBB6_49
	movzwl	%r8w, %edx
	cmpl	$56, %edx
	je	.LBB6_53
	cmpl	$32, %edx
	jne	.LBB6_54
	leaq	.Lstatic.29(%rip), %rdx
	movl	$40, %r8d
	jmp	.LBB6_71
.LBB6_60:
	cmpw	$32, %r8w
	je	.LBB6_61
	movzwl	%r8w, %edx
	cmpl	$40, %edx
	jne	.LBB6_64
	leaq	.Lstatic.36(%rip), %rdx
	movl	$90, %r8d
	jmp	.LBB6_71
.LBB6_30:
	leaq	.Lstatic.38(%rip), %rdx
	movl	$110, %r8d
	jmp	.LBB6_71
.LBB6_24:
	leaq	.Lstatic.16(%rip), %rdx
	movl	$162, %r8d
	jmp	.LBB6_71
.LBB6_15:
	leaq	.Lstatic.10(%rip), %rdx
	movl	$32, %r8d
	jmp	.LBB6_71
.LBB6_26:
	leaq	.Lstatic.18(%rip), %rdx
	movl	$1458, %r8d
	jmp	.LBB6_71
.LBB6_16:
	leaq	.Lstatic.11(%rip), %rdx
	movl	$40, %r8d
	jmp	.LBB6_71
.LBB6_25:
	leaq	.Lstatic.17(%rip), %rdx
	movl	$242, %r8d
	jmp	.LBB6_71
.LBB6_14:
	leaq	.Lstatic.9(%rip), %rdx
	movl	$24, %r8d
	jmp	.LBB6_71
.LBB6_27:
	leaq	.Lstatic.19(%rip), %rdx
	movl	$2178, %r8d
	jmp	.LBB6_71
.LBB6_13:
	leaq	.Lstatic.8(%rip), %rdx
	movl	$18, %r8d
	jmp	.LBB6_71
.LBB6_11:
	leaq	.Lstatic.7(%rip), %rdx
	movl	$12, %r8d
	jmp	.LBB6_71
.LBB6_18:
	leaq	.Lstatic.12(%rip), %rdx
	movl	$50, %r8d
	jmp	.LBB6_71
.LBB6_19:
	leaq	.Lstatic.13(%rip), %rdx
	movl	$60, %r8d
	jmp	.LBB6_71
.LBB6_22:
	leaq	.Lstatic.15(%rip), %rdx
	movl	$98, %r8d
	jmp	.LBB6_71
.LBB6_20:
	leaq	.Lstatic.14(%rip), %rdx
	movl	$72, %r8d
	jmp	.LBB6_71
.LBB6_32:
	cmpl	$16, %edx
	je	.LBB6_33
	cmpl	$28, %edx
	je	.LBB6_44
	cmpl	$44, %edx
	jne	.LBB6_47
	leaq	.Lstatic.22(%rip), %rdx
	movl	$33, %r8d
	jmp	.LBB6_71
.LBB6_56:
	leaq	.Lstatic.32(%rip), %rdx
	movl	$56, %r8d
	jmp	.LBB6_71
.LBB6_67:
	leaq	.Lstatic.41(%rip), %rdx
	movl	$108, %r8d
	jmp	.LBB6_71
.LBB6_59:
	leaq	.Lstatic.34(%rip), %rdx
	movl	$98, %r8d
	jmp	.LBB6_71
.LBB6_61:
	leaq	.Lstatic.35(%rip), %rdx
	movl	$72, %r8d
	jmp	.LBB6_71
.LBB6_70:
	leaq	.Lstatic.43(%rip), %rdx
	movl	$168, %r8d
	jmp	.LBB6_71
.LBB6_64:
	leaq	.Lstatic.37(%rip), %rdx
	movl	$126, %r8d
	jmp	.LBB6_71
.LBB6_41:
	cmpl	$88, %edx
	je	.LBB6_46
	cmpl	$108, %edx
	jne	.LBB6_47
	leaq	.Lstatic.26(%rip), %rdx
	movl	$81, %r8d
	jmp	.LBB6_71
.LBB6_53:
	leaq	.Lstatic.30(%rip), %rdx
	movl	$70, %r8d
	jmp	.LBB6_71
.LBB6_49:
	leaq	.Lstatic.28(%rip), %rdx
	movl	$30, %r8d
	jmp	.LBB6_71
.LBB6_54:
	leaq	.Lstatic.31(%rip), %rdx
	movl	$100, %r8d
	jmp	.LBB6_71
.LBB6_33:
	leaq	.Lstatic.20(%rip), %rdx
	movl	$12, %r8d
	jmp	.LBB6_71
.LBB6_47:
	leaq	.Lstatic.27(%rip), %rdx
	movl	$99, %r8d
	jmp	.LBB6_71
.LBB6_45:
	leaq	.Lstatic.23(%rip), %rdx
	movl	$42, %r8d
	jmp	.LBB6_71
.LBB6_46:
	leaq	.Lstatic.25(%rip), %rdx
	movl	$66, %r8d
	jmp	.LBB6_71
.LBB6_44:
	leaq	.Lstatic.21(%rip), %rdx
	movl	$21, %r8d
.LBB6_71:
	xorl	%r9d, %r9d
	xorl	%r10d, %r10d
.LBB6_72:
	movq	%rdx, (%rcx)
	movq	%r8, 8(%rcx)
	movq	%rax, 16(%rcx)
	movq	%r10, 24(%rcx)
	movq	%r9, 32(%rcx)
	retq
	.section	.rdata,"dr"
	.p2align	2, 0x0
.LJTI6_0:
	.long	.LBB6_31-.LJTI6_0
	.long	.LBB6_66-.LJTI6_0
	.long	.LBB6_48-.LJTI6_0
	.long	.LBB6_66-.LJTI6_0
	.long	.LBB6_55-.LJTI6_0
	.long	.LBB6_66-.LJTI6_0
	.long	.LBB6_60-.LJTI6_0
	.long	.LBB6_30-.LJTI6_0
	.long	.LBB6_65-.LJTI6_0
.LJTI6_1:
	.long	.LBB6_10-.LJTI6_1
	.long	.LBB6_27-.LJTI6_1
	.long	.LBB6_11-.LJTI6_1
	.long	.LBB6_27-.LJTI6_1
	.long	.LBB6_13-.LJTI6_1
	.long	.LBB6_27-.LJTI6_1
	.long	.LBB6_14-.LJTI6_1
	.long	.LBB6_27-.LJTI6_1
	.long	.LBB6_15-.LJTI6_1
	.long	.LBB6_27-.LJTI6_1
	.long	.LBB6_16-.LJTI6_1
	.long	.LBB6_27-.LJTI6_1
	.long	.LBB6_18-.LJTI6_1
	.long	.LBB6_27-.LJTI6_1
	.long	.LBB6_19-.LJTI6_1
	.long	.LBB6_27-.LJTI6_1
	.long	.LBB6_20-.LJTI6_1
	.long	.LBB6_27-.LJTI6_1
	.long	.LBB6_27-.LJTI6_1
	.long	.LBB6_27-.LJTI6_1
	.long	.LBB6_22-.LJTI6_1
	.long	.LBB6_27-.LJTI6_1
	.long	.LBB6_27-.LJTI6_1
	.long	.LBB6_27-.LJTI6_1
	.long	.LBB6_27-.LJTI6_1
	.long	.LBB6_27-.LJTI6_1
	.long	.LBB6_27-.LJTI6_1
	.long	.LBB6_27-.LJTI6_1
	.long	.LBB6_24-.LJTI6_1
	.long	.LBB6_27-.LJTI6_1
	.long	.LBB6_27-.LJTI6_1
	.long	.LBB6_27-.LJTI6_1
	.long	.LBB6_27-.LJTI6_1
	.long	.LBB6_27-.LJTI6_1
	.long	.LBB6_27-.LJTI6_1
	.long	.LBB6_27-.LJTI6_1
	.long	.LBB6_25-.LJTI6_1
	.long	.LBB6_27-.LJTI6_1
	.long	.LBB6_27-.LJTI6_1
	.long	.LBB6_27-.LJTI6_1
	.long	.LBB6_27-.LJTI6_1
	.long	.LBB6_27-.LJTI6_1
	.long	.LBB6_27-.LJTI6_1
	.long	.LBB6_27-.LJTI6_1
	.long	.LBB6_27-.LJTI6_1
	.long	.LBB6_27-.LJTI6_1
	.long	.LBB6_27-.LJTI6_1
	.long	.LBB6_27-.LJTI6_1
	.long	.LBB6_27-.LJTI6_1
	.long	.LBB6_27-.LJTI6_1
	.long	.LBB6_27-.LJTI6_1
	.long	.LBB6_27-.LJTI6_1
	.long	.LBB6_27-.LJTI6_1
	.long	.LBB6_27-.LJTI6_1
	.long	.LBB6_27-.LJTI6_1
	.long	.LBB6_27-.LJTI6_1
	.long	.LBB6_27-.LJTI6_1
	.long	.LBB6_27-.LJTI6_1
	.long	.LBB6_27-.LJTI6_1
	.long	.LBB6_27-.LJTI6_1
	.long	.LBB6_27-.LJTI6_1
	.long	.LBB6_27-.LJTI6_1
	.long	.LBB6_27-.LJTI6_1
	.long	.LBB6_27-.LJTI6_1
	.long	.LBB6_27-.LJTI6_1
	.long	.LBB6_27-.LJTI6_1
	.long	.LBB6_27-.LJTI6_1
	.long	.LBB6_27-.LJTI6_1
	.long	.LBB6_27-.LJTI6_1
	.long	.LBB6_27-.LJTI6_1
	.long	.LBB6_27-.LJTI6_1
	.long	.LBB6_27-.LJTI6_1
	.long	.LBB6_27-.LJTI6_1
	.long	.LBB6_27-.LJTI6_1
	.long	.LBB6_27-.LJTI6_1
	.long	.LBB6_27-.LJTI6_1
	.long	.LBB6_27-.LJTI6_1
	.long	.LBB6_27-.LJTI6_1
	.long	.LBB6_27-.LJTI6_1
	.long	.LBB6_27-.LJTI6_1
	.long	.LBB6_27-.LJTI6_1
	.long	.LBB6_27-.LJTI6_1
	.long	.LBB6_27-.LJTI6_1
	.long	.LBB6_27-.LJTI6_1
	.long	.LBB6_27-.LJTI6_1
	.long	.LBB6_27-.LJTI6_1
	.long	.LBB6_27-.LJTI6_1
	.long	.LBB6_27-.LJTI6_1
	.long	.LBB6_27-.LJTI6_1
	.long	.LBB6_27-.LJTI6_1
	.long	.LBB6_27-.LJTI6_1
	.long	.LBB6_27-.LJTI6_1
	.long	.LBB6_27-.LJTI6_1
	.long	.LBB6_27-.LJTI6_1
	.long	.LBB6_27-.LJTI6_1
	.long	.LBB6_27-.LJTI6_1
	.long	.LBB6_27-.LJTI6_1
	.long	.LBB6_27-.LJTI6_1
	.long	.LBB6_27-.LJTI6_1
	.long	.LBB6_27-.LJTI6_1
	.long	.LBB6_26-.LJTI6_1

	.def	"dm_layout::symbols::slots::word_of_cells::<#3c42656d14ec8a1f>";
	.scl	3;
	.type	32;
	.endef
	.text
	.p2align	4
"dm_layout::symbols::slots::word_of_cells::<#3c42656d14ec8a1f>":
.seh_proc "dm_layout::symbols::slots::word_of_cells::<#3c42656d14ec8a1f>"
	pushq	%r15
	.seh_pushreg %r15
	pushq	%r14
	.seh_pushreg %r14
	pushq	%r12
	.seh_pushreg %r12
	pushq	%rsi
	.seh_pushreg %rsi
	pushq	%rdi
	.seh_pushreg %rdi
	pushq	%rbp
	.seh_pushreg %rbp
	pushq	%rbx
	.seh_pushreg %rbx
	.seh_endprologue
	movq	%rcx, %r8
	movzwl	(%rdx), %r10d
	movzwl	2(%rdx), %ecx
	leal	4(%rcx), %eax
	shll	$5, %r10d
	cmpw	$127, %ax
	ja	.LBB7_2
	movq	64(%r8,%r10), %r9
	movq	72(%r8,%r10), %r10
	movq	%r10, %r11
	movl	%eax, %ecx
	shrq	%cl, %r11
	shrdq	%cl, %r10, %r9
	testb	$64, %al
	cmovneq	%r11, %r9
	jmp	.LBB7_3
.LBB7_2:
	movq	80(%r8,%r10), %r9
	movq	88(%r8,%r10), %rax
	addb	$-124, %cl
	movq	%rax, %r10
	shrq	%cl, %r10
	shrdq	%cl, %rax, %r9
	testb	$64, %cl
	cmovneq	%r10, %r9
.LBB7_3:
	movzwl	4(%rdx), %r11d
	movzwl	6(%rdx), %ecx
	leal	4(%rcx), %eax
	shll	$5, %r11d
	movzwl	%ax, %r10d
	cmpl	$128, %r10d
	jae	.LBB7_4
	movq	64(%r8,%r11), %r10
	movq	72(%r8,%r11), %r11
	movq	%r11, %rsi
	movl	%eax, %ecx
	shrq	%cl, %rsi
	shrdq	%cl, %r11, %r10
	testb	$64, %al
	cmovneq	%rsi, %r10
	jmp	.LBB7_6
.LBB7_4:
	movq	80(%r8,%r11), %r10
	movq	88(%r8,%r11), %rax
	addb	$-124, %cl
	movq	%rax, %r11
	shrq	%cl, %r11
	shrdq	%cl, %rax, %r10
	testb	$64, %cl
	cmovneq	%r11, %r10
.LBB7_6:
	movzwl	8(%rdx), %esi
	movzwl	10(%rdx), %ecx
	leal	4(%rcx), %eax
	shll	$5, %esi
	movzwl	%ax, %r11d
	cmpl	$128, %r11d
	jae	.LBB7_7
	movq	64(%r8,%rsi), %r11
	movq	72(%r8,%rsi), %rsi
	movq	%rsi, %rdi
	movl	%eax, %ecx
	shrq	%cl, %rdi
	shrdq	%cl, %rsi, %r11
	testb	$64, %al
	cmovneq	%rdi, %r11
	jmp	.LBB7_9
.LBB7_7:
	movq	80(%r8,%rsi), %r11
	movq	88(%r8,%rsi), %rax
	addb	$-124, %cl
	movq	%rax, %rsi
	shrq	%cl, %rsi
	shrdq	%cl, %rax, %r11
	testb	$64, %cl
	cmovneq	%rsi, %r11
.LBB7_9:
	movzwl	12(%rdx), %edi
	movzwl	14(%rdx), %ecx
	leal	4(%rcx), %eax
	shll	$5, %edi
	movzwl	%ax, %esi
	cmpl	$128, %esi
	jae	.LBB7_10
	movq	64(%r8,%rdi), %rsi
	movq	72(%r8,%rdi), %rdi
	movq	%rdi, %rbx
	movl	%eax, %ecx
	shrq	%cl, %rbx
	shrdq	%cl, %rdi, %rsi
	testb	$64, %al
	cmovneq	%rbx, %rsi
	jmp	.LBB7_12
.LBB7_10:
	movq	80(%r8,%rdi), %rsi
	movq	88(%r8,%rdi), %rax
	addb	$-124, %cl
	movq	%rax, %rdi
	shrq	%cl, %rdi
	shrdq	%cl, %rax, %rsi
	testb	$64, %cl
	cmovneq	%rdi, %rsi
.LBB7_12:
	movzwl	16(%rdx), %ebx
	movzwl	18(%rdx), %ecx
	leal	4(%rcx), %eax
	shll	$5, %ebx
	movzwl	%ax, %edi
	cmpl	$128, %edi
	jae	.LBB7_13
	movq	64(%r8,%rbx), %rdi
	movq	72(%r8,%rbx), %rbx
	movq	%rbx, %r14
	movl	%eax, %ecx
	shrq	%cl, %r14
	shrdq	%cl, %rbx, %rdi
	testb	$64, %al
	cmovneq	%r14, %rdi
	jmp	.LBB7_15
.LBB7_13:
	movq	80(%r8,%rbx), %rdi
	movq	88(%r8,%rbx), %rax
	addb	$-124, %cl
	movq	%rax, %rbx
	shrq	%cl, %rbx
	shrdq	%cl, %rax, %rdi
	testb	$64, %cl
	cmovneq	%rbx, %rdi
.LBB7_15:
	movzwl	20(%rdx), %r14d
	movzwl	22(%rdx), %ecx
	leal	4(%rcx), %eax
	shll	$5, %r14d
	movzwl	%ax, %ebx
	cmpl	$128, %ebx
	jae	.LBB7_16
	movq	64(%r8,%r14), %rbx
	movq	72(%r8,%r14), %r14
	movq	%r14, %r15
	movl	%eax, %ecx
	shrq	%cl, %r15
	shrdq	%cl, %r14, %rbx
	testb	$64, %al
	cmovneq	%r15, %rbx
	jmp	.LBB7_18
.LBB7_16:
	movq	80(%r8,%r14), %rbx
	movq	88(%r8,%r14), %rax
	addb	$-124, %cl
	movq	%rax, %r14
	shrq	%cl, %r14
	shrdq	%cl, %rax, %rbx
	testb	$64, %cl
	cmovneq	%r14, %rbx
.LBB7_18:
	movzwl	24(%rdx), %r15d
	movzwl	26(%rdx), %ecx
	leal	4(%rcx), %eax
	shll	$5, %r15d
	movzwl	%ax, %ebp
	cmpl	$128, %ebp
	jae	.LBB7_19
	movq	64(%r8,%r15), %r14
	movq	72(%r8,%r15), %r15
	movq	%r15, %r12
	movl	%eax, %ecx
	shrq	%cl, %r12
	shrdq	%cl, %r15, %r14
	testb	$64, %al
	cmovneq	%r12, %r14
	jmp	.LBB7_21
.LBB7_19:
	movq	80(%r8,%r15), %r14
	movq	88(%r8,%r15), %rax
	addb	$-124, %cl
	movq	%rax, %r15
	shrq	%cl, %r15
	shrdq	%cl, %rax, %r14
	testb	$64, %cl
	cmovneq	%r15, %r14
.LBB7_21:
	movzwl	28(%rdx), %r15d
	movzwl	30(%rdx), %ecx
	leal	4(%rcx), %edx
	shll	$5, %r15d
	movzwl	%dx, %eax
	cmpl	$128, %eax
	jae	.LBB7_22
	movq	64(%r8,%r15), %rax
	movq	72(%r8,%r15), %r8
	movq	%r8, %r15
	movl	%edx, %ecx
	shrq	%cl, %r15
	shrdq	%cl, %r8, %rax
	testb	$64, %dl
	cmovneq	%r15, %rax
	jmp	.LBB7_24
.LBB7_22:
	movq	80(%r8,%r15), %rax
	movq	88(%r8,%r15), %rdx
	addb	$-124, %cl
	movq	%rdx, %r8
	shrq	%cl, %r8
	shrdq	%cl, %rdx, %rax
	testb	$64, %cl
	cmovneq	%r8, %rax
.LBB7_24:
	andb	$1, %bl
	andb	$1, %sil
	andb	$1, %r10b
	addb	%r9b, %r9b
	andb	$2, %r9b
	orb	%r10b, %r9b
	shlb	$2, %r9b
	addb	%r11b, %r11b
	andb	$2, %r11b
	orb	%r9b, %r11b
	orb	%sil, %r11b
	shlb	$2, %r11b
	addb	%dil, %dil
	andb	$2, %dil
	orb	%r11b, %dil
	orb	%bl, %dil
	shlb	$2, %dil
	addb	%r14b, %r14b
	andb	$2, %r14b
	orb	%dil, %r14b
	andb	$1, %al
	orb	%r14b, %al
	popq	%rbx
	popq	%rbp
	popq	%rdi
	popq	%rsi
	popq	%r12
	popq	%r14
	popq	%r15
	retq
	.seh_endproc

	.def	"dm_symbol::symbol::correction::restore_block";
	.scl	3;
	.type	32;
	.endef
	.section	.rdata,"dr"
	.p2align	4, 0x0
.LCPI8_0:
	.zero	16,15
	.text
	.p2align	4
"dm_symbol::symbol::correction::restore_block":
.seh_proc "dm_symbol::symbol::correction::restore_block"
	pushq	%r15
	.seh_pushreg %r15
	pushq	%r14
	.seh_pushreg %r14
	pushq	%r13
	.seh_pushreg %r13
	pushq	%r12
	.seh_pushreg %r12
	pushq	%rsi
	.seh_pushreg %rsi
	pushq	%rdi
	.seh_pushreg %rdi
	pushq	%rbp
	.seh_pushreg %rbp
	pushq	%rbx
	.seh_pushreg %rbx
	movl	$6184, %eax
	callq	___chkstk_ms
	subq	%rax, %rsp
	.seh_stackalloc 6184
	movdqa	%xmm7, 6160(%rsp)
	.seh_savexmm %xmm7, 6160
	movdqa	%xmm6, 6144(%rsp)
	.seh_savexmm %xmm6, 6144
	.seh_endprologue
	movq	%r9, %r14
	movq	%r8, %rbp
	movq	%rcx, %rdi
	movq	6288(%rsp), %rax
	movzwl	14(%rdx), %ebx
	movzwl	16(%rdx), %esi
	cmpb	$0, (%rax)
	je	.LBB8_5
	movq	8(%rax), %r13
	movq	16(%rax), %r12
	leaq	2720(%rsp), %rcx
	movl	$272, %r8d
	xorl	%edx, %edx
	callq	memset
	leaq	5873(%rsp), %rcx
	movl	$271, %r8d
	xorl	%edx, %edx
	callq	memset
	movl	$0, 56(%rsp)
	movb	$0, 60(%rsp)
	leaq	5344(%rsp), %rcx
	movl	$264, %r8d
	xorl	%edx, %edx
	callq	memset
	leaq	4280(%rsp), %rcx
	movl	$264, %r8d
	xorl	%edx, %edx
	callq	memset
	testq	%rsi, %rsi
	je	.LBB8_189
	movl	%ebx, %eax
	xorl	%edx, %edx
	divw	%si
	movl	%eax, %ebx
	leaq	304(%rsp), %rcx
	movl	$264, %r8d
	xorl	%edx, %edx
	callq	memset
	movq	6296(%rsp), %r15
	notq	%r15
	addq	%rsi, %r15
	addq	%r15, %r12
	cmpq	%rsi, %r12
	jb	.LBB8_21
	movq	%r12, %rax
	shrq	$32, %rax
	je	.LBB8_12
	movq	%r12, %rax
	xorl	%edx, %edx
	divq	%rsi
	jmp	.LBB8_13
.LBB8_5:
	testq	%rsi, %rsi
	je	.LBB8_189
	movl	%ebx, %eax
	xorl	%edx, %edx
	divw	%si
	movl	%eax, %r12d
	leaq	3768(%rsp), %rcx
	movl	$264, %r8d
	xorl	%edx, %edx
	callq	memset
	movzwl	%r12w, %r15d
	cmpq	$1, %rsi
	jne	.LBB8_9
	pxor	%xmm6, %xmm6
	movdqa	%xmm6, 1616(%rsp)
	movdqa	%xmm6, 1632(%rsp)
	movdqa	%xmm6, 1648(%rsp)
	movdqa	%xmm6, 1664(%rsp)
	movdqa	%xmm6, 1680(%rsp)
	movdqa	%xmm6, 1696(%rsp)
	movq	%r14, %r8
	subq	%r15, %r8
	leaq	(%r8,%rbp), %r13
	leaq	1616(%rsp), %rcx
	movq	%rbp, %rdx
	movq	%r15, %r9
	callq	"dm_code::encoding::divide"
	movdqa	%xmm6, 384(%rsp)
	movdqa	%xmm6, 368(%rsp)
	movdqa	%xmm6, 352(%rsp)
	movdqa	%xmm6, 336(%rsp)
	movdqa	%xmm6, 320(%rsp)
	movdqa	%xmm6, 304(%rsp)
	leaq	304(%rsp), %rcx
	movq	%r13, %rdx
	movq	%r15, %r8
	callq	memcpy
	movaps	1616(%rsp), %xmm0
	movdqa	1632(%rsp), %xmm1
	movdqa	1648(%rsp), %xmm2
	movdqa	1664(%rsp), %xmm3
	xorps	304(%rsp), %xmm0
	pxor	320(%rsp), %xmm1
	movaps	%xmm0, 1616(%rsp)
	movdqa	%xmm1, 1632(%rsp)
	pxor	336(%rsp), %xmm2
	movdqa	%xmm2, 1648(%rsp)
	pxor	352(%rsp), %xmm3
	movdqa	%xmm3, 1664(%rsp)
	movdqa	1680(%rsp), %xmm0
	pxor	368(%rsp), %xmm0
	movdqa	%xmm0, 1680(%rsp)
	movdqa	1696(%rsp), %xmm4
	pxor	384(%rsp), %xmm4
	movdqa	%xmm4, 1696(%rsp)
	por	1616(%rsp), %xmm1
	por	%xmm2, %xmm3
	por	%xmm1, %xmm3
	por	%xmm0, %xmm4
	por	%xmm3, %xmm4
	ptest	%xmm4, %xmm4
	je	.LBB8_104
	leaq	3768(%rsp), %rax
	movq	%rax, 40(%rsp)
	movq	%r15, 32(%rsp)
	leaq	1616(%rsp), %r9
	movq	%rbp, %rcx
	jmp	.LBB8_102
.LBB8_9:
	leaq	304(%rsp), %rcx
	movl	$264, %r8d
	xorl	%edx, %edx
	callq	memset
	movq	6296(%rsp), %rax
	notq	%rax
	addq	%rax, %r14
	addq	%rsi, %r14
	jb	.LBB8_100
	movq	%r14, %rax
	shrq	$32, %rax
	je	.LBB8_91
	movq	%r14, %rax
	xorl	%edx, %edx
	divq	%rsi
	jmp	.LBB8_92
.LBB8_12:
	movl	%r12d, %eax
	xorl	%edx, %edx
	divl	%esi
.LBB8_13:
	cmpq	$1, %rax
	movq	%rax, %rdx
	adcq	$0, %rdx
	movl	%edx, %ecx
	andl	$3, %ecx
	cmpq	$4, %rax
	jae	.LBB8_15
	xorl	%eax, %eax
	jmp	.LBB8_19
.LBB8_15:
	movq	6296(%rsp), %rax
	leaq	(%rax,%r13), %r8
	andq	$-4, %rdx
	leaq	(%rsi,%rsi,2), %r9
	leal	(,%rsi,4), %r10d
	negq	%rdx
	movl	$2, %eax
	.p2align	4
.LBB8_16:
	movzbl	(%r8), %r11d
	movb	%r11b, 302(%rsp,%rax)
	leaq	-1(%rax), %r11
	movq	%r11, 560(%rsp)
	movzbl	(%r8,%rsi), %r11d
	movb	%r11b, 303(%rsp,%rax)
	movq	%rax, 560(%rsp)
	movzbl	(%r8,%rsi,2), %r11d
	movb	%r11b, 304(%rsp,%rax)
	leaq	1(%rax), %r11
	movq	%r11, 560(%rsp)
	movzbl	(%r8,%r9), %r11d
	movb	%r11b, 305(%rsp,%rax)
	leaq	2(%rax), %r11
	movq	%r11, 560(%rsp)
	addq	%r10, %r8
	leaq	(%rdx,%rax), %r11
	addq	$4, %r11
	addq	$4, %rax
	cmpq	$2, %r11
	jne	.LBB8_16
	testq	%rcx, %rcx
	je	.LBB8_21
	addq	$-2, %rax
.LBB8_19:
	leaq	1(%rax), %rdx
	imulq	%rsi, %rax
	addq	6296(%rsp), %rax
	addq	%rax, %r13
	.p2align	4
.LBB8_20:
	movzbl	(%r13), %eax
	movb	%al, 303(%rsp,%rdx)
	movq	%rdx, 560(%rsp)
	incq	%rdx
	addq	%rsi, %r13
	decq	%rcx
	jne	.LBB8_20
.LBB8_21:
	leaq	3256(%rsp), %rcx
	leaq	304(%rsp), %rdx
	movl	$264, %r8d
	callq	memcpy
	leaq	304(%rsp), %rcx
	movl	$264, %r8d
	xorl	%edx, %edx
	callq	memset
	movq	3512(%rsp), %rcx
	testq	%rcx, %rcx
	je	.LBB8_28
	cmpq	$1, %rcx
	jne	.LBB8_24
	xorl	%eax, %eax
	jmp	.LBB8_27
.LBB8_24:
	movq	%rcx, %rdx
	andq	$-2, %rdx
	xorl	%eax, %eax
	.p2align	4
.LBB8_25:
	cmpb	$0, 3256(%rsp,%rax)
	setne	304(%rsp,%rax)
	leaq	1(%rax), %r8
	cmpb	$0, 3257(%rsp,%rax)
	movq	%r8, 560(%rsp)
	setne	305(%rsp,%rax)
	addq	$2, %rax
	movq	%rax, 560(%rsp)
	cmpq	%rax, %rdx
	jne	.LBB8_25
	testb	$1, %cl
	je	.LBB8_28
.LBB8_27:
	cmpb	$0, 3256(%rsp,%rax)
	setne	304(%rsp,%rax)
	incq	%rax
	movq	%rax, 560(%rsp)
.LBB8_28:
	movzwl	%bx, %r13d
	leaq	4544(%rsp), %rcx
	leaq	304(%rsp), %rdx
	movl	$264, %r8d
	callq	memcpy
	leaq	304(%rsp), %rcx
	movl	$264, %r8d
	xorl	%edx, %edx
	callq	memset
	addq	%r14, %r15
	movq	6296(%rsp), %rax
	addq	%rbp, %rax
	movq	%rax, 80(%rsp)
	cmpq	%rsi, %r15
	jb	.LBB8_40
	movq	%r15, %rax
	shrq	$32, %rax
	je	.LBB8_31
	movq	%r15, %rax
	xorl	%edx, %edx
	divq	%rsi
	jmp	.LBB8_32
.LBB8_31:
	movl	%r15d, %eax
	xorl	%edx, %edx
	divl	%esi
.LBB8_32:
	cmpq	$1, %rax
	movq	%rax, %rdx
	adcq	$0, %rdx
	movl	%edx, %ecx
	andl	$3, %ecx
	cmpq	$4, %rax
	jae	.LBB8_34
	xorl	%eax, %eax
	jmp	.LBB8_38
.LBB8_34:
	andq	$-4, %rdx
	leaq	(%rsi,%rsi,2), %r8
	leal	(,%rsi,4), %r9d
	negq	%rdx
	movl	$2, %eax
	movq	80(%rsp), %r10
	.p2align	4
.LBB8_35:
	movzbl	(%r10), %r11d
	movb	%r11b, 302(%rsp,%rax)
	leaq	-1(%rax), %r11
	movq	%r11, 560(%rsp)
	movzbl	(%r10,%rsi), %r11d
	movb	%r11b, 303(%rsp,%rax)
	movq	%rax, 560(%rsp)
	movzbl	(%r10,%rsi,2), %r11d
	movb	%r11b, 304(%rsp,%rax)
	leaq	1(%rax), %r11
	movq	%r11, 560(%rsp)
	movzbl	(%r10,%r8), %r11d
	movb	%r11b, 305(%rsp,%rax)
	leaq	2(%rax), %r11
	movq	%r11, 560(%rsp)
	addq	%r9, %r10
	leaq	(%rdx,%rax), %r11
	addq	$4, %r11
	addq	$4, %rax
	cmpq	$2, %r11
	jne	.LBB8_35
	testq	%rcx, %rcx
	je	.LBB8_40
	addq	$-2, %rax
.LBB8_38:
	leaq	1(%rax), %rdx
	imulq	%rsi, %rax
	addq	6296(%rsp), %rax
	addq	%rbp, %rax
	.p2align	4
.LBB8_39:
	movzbl	(%rax), %r8d
	movb	%r8b, 303(%rsp,%rdx)
	movq	%rdx, 560(%rsp)
	incq	%rdx
	addq	%rsi, %rax
	decq	%rcx
	jne	.LBB8_39
.LBB8_40:
	leaq	5344(%rsp), %r14
	leaq	304(%rsp), %rdx
	movl	$264, %r8d
	movq	%r14, %rcx
	callq	memcpy
	leaq	4280(%rsp), %rcx
	movl	$264, %r8d
	movq	%r14, %rdx
	callq	memcpy
	movq	4536(%rsp), %r15
	movq	4800(%rsp), %r14
	leaq	4809(%rsp), %rcx
	movl	$271, %r8d
	xorl	%edx, %edx
	callq	memset
	movl	$0, 64(%rsp)
	movb	$0, 68(%rsp)
	leaq	304(%rsp), %rcx
	movl	$264, %r8d
	xorl	%edx, %edx
	callq	memset
	testq	%r14, %r14
	je	.LBB8_52
	cmpq	$1, %r14
	jne	.LBB8_43
	xorl	%eax, %eax
	xorl	%ecx, %ecx
	jmp	.LBB8_50
.LBB8_43:
	movq	%r14, %rdx
	andq	$-2, %rdx
	xorl	%eax, %eax
	xorl	%ecx, %ecx
	jmp	.LBB8_45
	.p2align	4
.LBB8_44:
	addq	$2, %rcx
	cmpq	%rcx, %rdx
	je	.LBB8_49
.LBB8_45:
	cmpb	$1, 4544(%rsp,%rcx)
	jne	.LBB8_47
	movb	%cl, 304(%rsp,%rax)
	incq	%rax
	movq	%rax, 560(%rsp)
.LBB8_47:
	cmpb	$1, 4545(%rsp,%rcx)
	jne	.LBB8_44
	leal	1(%rcx), %r8d
	movb	%r8b, 304(%rsp,%rax)
	incq	%rax
	movq	%rax, 560(%rsp)
	jmp	.LBB8_44
.LBB8_49:
	testb	$1, %r14b
	je	.LBB8_52
.LBB8_50:
	cmpb	$1, 4544(%rsp,%rcx)
	jne	.LBB8_52
	movb	%cl, 304(%rsp,%rax)
	incq	%rax
	movq	%rax, 560(%rsp)
.LBB8_52:
	leaq	2992(%rsp), %rcx
	leaq	304(%rsp), %rdx
	movl	$264, %r8d
	callq	memcpy
	movq	3248(%rsp), %rbx
	movq	%r13, %r12
	subq	%rbx, %r12
	jb	.LBB8_81
	leaq	2432(%rsp), %rcx
	movl	$280, %r8d
	xorl	%edx, %edx
	callq	memset
	leaq	3768(%rsp), %rcx
	movl	$512, %r8d
	xorl	%edx, %edx
	callq	memset
	leaq	1888(%rsp), %rcx
	movl	$280, %r8d
	xorl	%edx, %edx
	callq	memset
	testq	%rbx, %rbx
	je	.LBB8_80
	pxor	%xmm0, %xmm0
	movdqu	%xmm0, 305(%rsp)
	movdqu	%xmm0, 321(%rsp)
	movdqu	%xmm0, 337(%rsp)
	movdqu	%xmm0, 353(%rsp)
	movdqu	%xmm0, 369(%rsp)
	movb	$1, 304(%rsp)
	xorl	%eax, %eax
	testb	$15, %bl
	setne	%al
	shll	$4, %eax
	addq	%rbx, %rax
	shrq	$4, %rax
	je	.LBB8_63
	leaq	(%rsp,%rbx), %rcx
	addq	$2992, %rcx
	movq	%rax, %rdx
	andq	$-2, %rdx
	xorl	%r8d, %r8d
	jmp	.LBB8_59
	.p2align	4
.LBB8_56:
	xorl	%r9d, %r9d
.LBB8_57:
	shlq	$4, %r9
	movdqu	1360(%rsp,%r9), %xmm2
	movdqa	.LCPI8_0(%rip), %xmm3
	movdqa	%xmm2, %xmm4
	pand	%xmm3, %xmm4
	pshufb	%xmm4, %xmm1
	psrlw	$4, %xmm2
	pand	%xmm3, %xmm2
	pshufb	%xmm2, %xmm0
	pxor	%xmm1, %xmm0
	movdqu	305(%rsp,%r9), %xmm1
	pxor	%xmm0, %xmm1
	movdqu	%xmm1, 305(%rsp,%r9)
.LBB8_58:
	incq	%r8
	cmpq	%rbx, %r8
	je	.LBB8_63
.LBB8_59:
	movq	%r8, %r9
	notq	%r9
	movzbl	(%rcx,%r9), %r9d
	notl	%r9d
	addl	%r15d, %r9d
	movzwl	%r9w, %r10d
	imull	$32897, %r10d, %r10d
	shrl	$23, %r10d
	movl	%r10d, %r11d
	shll	$8, %r11d
	subl	%r11d, %r10d
	addl	%r9d, %r10d
	movzwl	%r10w, %r9d
	leaq	.Lstatic.49(%rip), %r10
	movzbl	(%r9,%r10), %r9d
	shll	$4, %r9d
	movzbl	384(%rsp), %r10d
	movb	%r10b, 1440(%rsp)
	movups	368(%rsp), %xmm0
	movaps	%xmm0, 1424(%rsp)
	movups	304(%rsp), %xmm0
	movups	320(%rsp), %xmm1
	movdqu	336(%rsp), %xmm2
	movdqu	352(%rsp), %xmm3
	movdqa	%xmm3, 1408(%rsp)
	movdqa	%xmm2, 1392(%rsp)
	movaps	%xmm1, 1376(%rsp)
	movaps	%xmm0, 1360(%rsp)
	leaq	.Lstatic.44(%rip), %r10
	movdqu	(%r9,%r10), %xmm1
	leaq	.Lstatic.45(%rip), %r10
	movdqu	(%r9,%r10), %xmm0
	cmpq	$1, %rax
	je	.LBB8_56
	movl	$16, %r10d
	xorl	%r9d, %r9d
	.p2align	4
.LBB8_61:
	movdqa	.LCPI8_0(%rip), %xmm2
	movdqu	1344(%rsp,%r10), %xmm3
	movdqu	1360(%rsp,%r10), %xmm4
	movdqa	%xmm3, %xmm5
	pand	%xmm2, %xmm5
	movdqa	%xmm1, %xmm6
	pshufb	%xmm5, %xmm6
	psrlw	$4, %xmm3
	pand	%xmm2, %xmm3
	movdqa	%xmm0, %xmm5
	pshufb	%xmm3, %xmm5
	movdqu	289(%rsp,%r10), %xmm3
	pxor	%xmm6, %xmm3
	pxor	%xmm5, %xmm3
	movdqu	305(%rsp,%r10), %xmm5
	movdqu	%xmm3, 289(%rsp,%r10)
	movdqa	%xmm4, %xmm3
	pand	%xmm2, %xmm3
	movdqa	%xmm1, %xmm6
	pshufb	%xmm3, %xmm6
	pxor	%xmm5, %xmm6
	psrlw	$4, %xmm4
	pand	%xmm2, %xmm4
	movdqa	%xmm0, %xmm2
	pshufb	%xmm4, %xmm2
	pxor	%xmm6, %xmm2
	movdqu	%xmm2, 305(%rsp,%r10)
	addq	$2, %r9
	addq	$32, %r10
	cmpq	%r9, %rdx
	jne	.LBB8_61
	testb	$1, %al
	jne	.LBB8_57
	jmp	.LBB8_58
.LBB8_63:
	movq	%r13, 88(%rsp)
	movq	%rbp, 96(%rsp)
	movzbl	384(%rsp), %eax
	movb	%al, 992(%rsp)
	movups	368(%rsp), %xmm0
	movaps	%xmm0, 976(%rsp)
	movzbl	304(%rsp), %eax
	movq	305(%rsp), %rcx
	movl	313(%rsp), %edx
	movzwl	317(%rsp), %r8d
	movzbl	319(%rsp), %r9d
	movdqu	320(%rsp), %xmm0
	movdqu	336(%rsp), %xmm1
	movdqu	352(%rsp), %xmm2
	movdqa	%xmm2, 960(%rsp)
	movdqa	%xmm1, 944(%rsp)
	movdqa	%xmm0, 928(%rsp)
	movb	%al, 912(%rsp)
	movq	%rcx, 913(%rsp)
	movl	%edx, 921(%rsp)
	movw	%r8w, 925(%rsp)
	movb	%r9b, 927(%rsp)
	leaq	1(%rbx), %r8
	leaq	3768(%rsp), %r13
	leaq	912(%rsp), %rdx
	movq	%r13, %rcx
	movq	%r15, %r9
	callq	"dm_code::weighing::at_places"
	leaq	3256(%rsp), %rcx
	movl	$512, %r8d
	movq	%r13, %rdx
	callq	memcpy
	leaq	304(%rsp), %rcx
	movl	$264, %r8d
	xorl	%edx, %edx
	callq	memset
	testq	%r15, %r15
	je	.LBB8_66
	movl	$1, %eax
	movq	%r15, %rcx
	.p2align	4
.LBB8_65:
	movzbl	4279(%rsp,%rax), %edx
	movzbl	3255(%rsp,%rcx), %r8d
	shll	$4, %edx
	movl	%r8d, %r9d
	andl	$15, %r9d
	leaq	.Lstatic.44(%rip), %r10
	addq	%rdx, %r10
	shrl	$4, %r8d
	leaq	.Lstatic.45(%rip), %r11
	addq	%rdx, %r11
	movzbl	(%r8,%r11), %edx
	xorb	(%r9,%r10), %dl
	movb	%dl, 303(%rsp,%rax)
	movq	%rax, 560(%rsp)
	incq	%rax
	decq	%rcx
	jne	.LBB8_65
.LBB8_66:
	leaq	5608(%rsp), %r13
	leaq	304(%rsp), %rdx
	movl	$264, %r8d
	movq	%r13, %rcx
	callq	memcpy
	leaq	5080(%rsp), %rbp
	movl	$264, %r8d
	movq	%rbp, %rcx
	movq	%r13, %rdx
	callq	memcpy
	movq	5336(%rsp), %r8
	leaq	1888(%rsp), %rcx
	movq	%rbp, %rdx
	movq	%r12, %r9
	callq	"dm_code::erasures::correct_rest::<#9f76af21849881bb>"
	cmpb	$0, 1888(%rsp)
	jne	.LBB8_81
	leaq	1896(%rsp), %rdx
	leaq	1616(%rsp), %rcx
	movl	$272, %r8d
	callq	memcpy
	xorl	%eax, %eax
	movq	1872(%rsp), %r12
	.p2align	4
.LBB8_68:
	movzbl	2992(%rsp,%rax), %ecx
	cmpb	$0, 1616(%rsp,%rcx)
	jne	.LBB8_81
	incq	%rax
	cmpq	%rax, %rbx
	jne	.LBB8_68
	leaq	304(%rsp), %rcx
	movl	$264, %r8d
	xorl	%edx, %edx
	callq	memset
	cmpq	$255, %r15
	ja	.LBB8_72
	leaq	304(%rsp), %rcx
	leaq	4280(%rsp), %rdx
	movq	%r15, %r8
	callq	memcpy
	movq	%r15, 560(%rsp)
.LBB8_72:
	leaq	5608(%rsp), %r15
	leaq	304(%rsp), %rdx
	movl	$264, %r8d
	movq	%r15, %rcx
	callq	memcpy
	leaq	2168(%rsp), %rcx
	movl	$264, %r8d
	movq	%r15, %rdx
	callq	memcpy
	testq	%r12, %r12
	je	.LBB8_83
	xorl	%eax, %eax
	jmp	.LBB8_77
	.p2align	4
.LBB8_74:
	leaq	.Lstatic.48(%rip), %r8
	movzbl	(%rdx,%r8), %r8d
	xorl	$255, %r8d
	leal	-255(%r8), %r9d
	cmpq	$1, %rdx
	cmovnel	%r8d, %r9d
	movzwl	%r9w, %edx
	leaq	.Lstatic.49(%rip), %r8
	movzbl	(%rdx,%r8), %edx
	shll	$4, %ecx
	movl	%edx, %r8d
	andl	$15, %r8d
	leaq	.Lstatic.44(%rip), %r9
	addq	%rcx, %r9
	shrl	$4, %edx
	leaq	.Lstatic.45(%rip), %r10
	addq	%rcx, %r10
	movzbl	(%rdx,%r10), %ecx
	xorb	(%r8,%r9), %cl
.LBB8_75:
	movb	%cl, 2168(%rsp,%rax)
.LBB8_76:
	incq	%rax
	decq	%r12
	je	.LBB8_83
.LBB8_77:
	movzbl	1616(%rsp,%rax), %ecx
	cmpb	5080(%rsp,%rax), %cl
	je	.LBB8_76
	movzbl	3255(%rsp,%r12), %edx
	testq	%rdx, %rdx
	jne	.LBB8_74
	xorl	%ecx, %ecx
	jmp	.LBB8_75
.LBB8_80:
	leaq	2432(%rsp), %rcx
	leaq	4280(%rsp), %rdx
	movq	%r15, %r8
	movq	%r13, %r9
	callq	"dm_code::erasures::correct_rest::<#9f76af21849881bb>"
	leaq	2440(%rsp), %rdx
	leaq	4816(%rsp), %rcx
	movzbl	2432(%rsp), %ebx
	movl	$264, %r8d
	callq	memcpy
	testb	%bl, %bl
	je	.LBB8_82
.LBB8_81:
	xorl	%r15d, %r15d
	xorl	%r12d, %r12d
	xorl	%r14d, %r14d
	xorl	%eax, %eax
	jmp	.LBB8_107
.LBB8_82:
	movq	%r13, 88(%rsp)
	xorl	%r12d, %r12d
	movzbl	2704(%rsp), %r14d
	jmp	.LBB8_157
.LBB8_83:
	movq	2424(%rsp), %r14
	pxor	%xmm0, %xmm0
	movdqa	%xmm0, 1008(%rsp)
	movdqa	%xmm0, 1024(%rsp)
	movdqa	%xmm0, 1040(%rsp)
	movdqa	%xmm0, 1056(%rsp)
	movdqa	%xmm0, 1072(%rsp)
	movdqa	%xmm0, 1088(%rsp)
	movdqa	%xmm0, 1104(%rsp)
	movdqa	%xmm0, 1120(%rsp)
	movdqa	%xmm0, 1136(%rsp)
	movdqa	%xmm0, 1152(%rsp)
	movdqa	%xmm0, 1168(%rsp)
	movdqa	%xmm0, 1360(%rsp)
	movdqa	%xmm0, 1376(%rsp)
	movdqa	%xmm0, 1392(%rsp)
	movdqa	%xmm0, 1408(%rsp)
	movdqa	%xmm0, 1424(%rsp)
	movdqa	%xmm0, 1440(%rsp)
	movdqa	%xmm0, 1456(%rsp)
	movdqa	%xmm0, 1472(%rsp)
	movdqa	%xmm0, 1488(%rsp)
	movdqa	%xmm0, 1504(%rsp)
	movdqa	%xmm0, 1520(%rsp)
	movdqa	%xmm0, 1536(%rsp)
	movdqa	%xmm0, 1552(%rsp)
	movdqa	%xmm0, 1568(%rsp)
	movdqa	%xmm0, 1584(%rsp)
	movdqa	%xmm0, 1600(%rsp)
	movdqa	%xmm0, 1344(%rsp)
	movdqa	%xmm0, 1328(%rsp)
	movdqa	%xmm0, 1312(%rsp)
	movdqa	%xmm0, 1296(%rsp)
	movdqa	%xmm0, 1280(%rsp)
	movdqa	%xmm0, 1264(%rsp)
	xorl	%r12d, %r12d
	leaq	304(%rsp), %rcx
	movl	$512, %r8d
	xorl	%edx, %edx
	callq	memset
	leaq	-1(%rbx), %rcx
	movl	%ebx, %eax
	andl	$3, %eax
	movq	%rcx, 296(%rsp)
	cmpq	$3, %rcx
	jb	.LBB8_87
	movq	%rbx, %rcx
	andq	$-4, %rcx
	xorl	%r12d, %r12d
	.p2align	4
.LBB8_85:
	movzbl	2992(%rsp,%r12), %edx
	movb	$0, 2168(%rsp,%rdx)
	movzbl	2993(%rsp,%r12), %edx
	movb	$0, 2168(%rsp,%rdx)
	movzbl	2994(%rsp,%r12), %edx
	movb	$0, 2168(%rsp,%rdx)
	movzbl	2995(%rsp,%r12), %edx
	movb	$0, 2168(%rsp,%rdx)
	addq	$4, %r12
	cmpq	%r12, %rcx
	jne	.LBB8_85
	testq	%rax, %rax
	je	.LBB8_89
.LBB8_87:
	leaq	(%rsp,%r12), %rcx
	addq	$2992, %rcx
	xorl	%edx, %edx
	.p2align	4
.LBB8_88:
	movzbl	(%rcx,%rdx), %r8d
	movb	$0, 2168(%rsp,%r8)
	incq	%rdx
	cmpq	%rdx, %rax
	jne	.LBB8_88
.LBB8_89:
	pxor	%xmm6, %xmm6
	movdqa	%xmm6, 1248(%rsp)
	movdqa	%xmm6, 1232(%rsp)
	movdqa	%xmm6, 1216(%rsp)
	movdqa	%xmm6, 1200(%rsp)
	movdqa	%xmm6, 1184(%rsp)
	leaq	(,%rbx,8), %rax
	cmpq	%r14, %rax
	movq	%r14, 72(%rsp)
	jbe	.LBB8_114
	movdqa	%xmm6, 816(%rsp)
	movdqa	%xmm6, 832(%rsp)
	movdqa	%xmm6, 848(%rsp)
	movdqa	%xmm6, 864(%rsp)
	movdqa	%xmm6, 880(%rsp)
	movdqa	%xmm6, 896(%rsp)
	movq	%r14, %r8
	subq	%rbx, %r8
	leaq	(%rsp,%r8), %r13
	addq	$2168, %r13
	leaq	816(%rsp), %r12
	leaq	2168(%rsp), %rdx
	movq	%r12, %rcx
	movq	%rbx, %r9
	callq	"dm_code::encoding::divide"
	movdqa	%xmm6, 192(%rsp)
	movdqa	%xmm6, 176(%rsp)
	movdqa	%xmm6, 160(%rsp)
	movdqa	%xmm6, 144(%rsp)
	movdqa	%xmm6, 128(%rsp)
	movdqa	%xmm6, 112(%rsp)
	leaq	112(%rsp), %rcx
	movq	%r13, %rdx
	movq	72(%rsp), %r13
	movq	%rbx, %r8
	callq	memcpy
	movaps	816(%rsp), %xmm0
	movaps	832(%rsp), %xmm1
	movaps	848(%rsp), %xmm2
	movaps	864(%rsp), %xmm3
	xorps	112(%rsp), %xmm0
	xorps	128(%rsp), %xmm1
	movaps	%xmm0, 816(%rsp)
	movaps	%xmm1, 832(%rsp)
	xorps	144(%rsp), %xmm2
	movaps	%xmm2, 848(%rsp)
	xorps	160(%rsp), %xmm3
	movaps	%xmm3, 864(%rsp)
	movaps	880(%rsp), %xmm0
	xorps	176(%rsp), %xmm0
	movaps	%xmm0, 880(%rsp)
	movaps	896(%rsp), %xmm0
	xorps	192(%rsp), %xmm0
	movaps	%xmm0, 896(%rsp)
	leaq	1184(%rsp), %rcx
	movq	%r12, %rdx
	movq	%rbx, %r8
	movq	%rbx, %r9
	callq	"dm_code::syndrome::syndromes_of_short"
	movaps	1248(%rsp), %xmm0
	movaps	%xmm0, 272(%rsp)
	movdqa	1184(%rsp), %xmm0
	movdqa	1200(%rsp), %xmm1
	movdqa	1216(%rsp), %xmm2
	movdqa	1232(%rsp), %xmm3
	movdqa	%xmm3, 256(%rsp)
	movdqa	%xmm2, 240(%rsp)
	movdqa	%xmm1, 224(%rsp)
	movdqa	%xmm0, 208(%rsp)
	jmp	.LBB8_129
.LBB8_91:
	movl	%r14d, %eax
	xorl	%edx, %edx
	divl	%esi
.LBB8_92:
	cmpq	$1, %rax
	movq	%rax, %rdx
	adcq	$0, %rdx
	movl	%edx, %ecx
	andl	$3, %ecx
	cmpq	$4, %rax
	jae	.LBB8_94
	xorl	%eax, %eax
	jmp	.LBB8_98
.LBB8_94:
	movq	6296(%rsp), %rax
	leaq	(%rax,%rbp), %r8
	andq	$-4, %rdx
	leaq	(%rsi,%rsi,2), %r9
	leal	(,%rsi,4), %r10d
	negq	%rdx
	movl	$2, %eax
	.p2align	4
.LBB8_95:
	movzbl	(%r8), %r11d
	movb	%r11b, 302(%rsp,%rax)
	leaq	-1(%rax), %r11
	movq	%r11, 560(%rsp)
	movzbl	(%r8,%rsi), %r11d
	movb	%r11b, 303(%rsp,%rax)
	movq	%rax, 560(%rsp)
	movzbl	(%r8,%rsi,2), %r11d
	movb	%r11b, 304(%rsp,%rax)
	leaq	1(%rax), %r11
	movq	%r11, 560(%rsp)
	movzbl	(%r8,%r9), %r11d
	movb	%r11b, 305(%rsp,%rax)
	leaq	2(%rax), %r11
	movq	%r11, 560(%rsp)
	addq	%r10, %r8
	leaq	(%rdx,%rax), %r11
	addq	$4, %r11
	addq	$4, %rax
	cmpq	$2, %r11
	jne	.LBB8_95
	testq	%rcx, %rcx
	je	.LBB8_100
	addq	$-2, %rax
.LBB8_98:
	leaq	1(%rax), %rdx
	imulq	%rsi, %rax
	addq	6296(%rsp), %rax
	addq	%rbp, %rax
	.p2align	4
.LBB8_99:
	movzbl	(%rax), %r8d
	movb	%r8b, 303(%rsp,%rdx)
	movq	%rdx, 560(%rsp)
	incq	%rdx
	addq	%rsi, %rax
	decq	%rcx
	jne	.LBB8_99
.LBB8_100:
	leaq	3256(%rsp), %rcx
	leaq	304(%rsp), %r13
	movl	$264, %r8d
	movq	%r13, %rdx
	callq	memcpy
	movq	3512(%rsp), %r14
	pxor	%xmm6, %xmm6
	movdqa	%xmm6, 1888(%rsp)
	movdqa	%xmm6, 1904(%rsp)
	movdqa	%xmm6, 1920(%rsp)
	movdqa	%xmm6, 1936(%rsp)
	movdqa	%xmm6, 1952(%rsp)
	movdqa	%xmm6, 1968(%rsp)
	movq	%r14, %r8
	subq	%r15, %r8
	movq	%rbp, %rbx
	leaq	(%rsp,%r8), %rbp
	addq	$3256, %rbp
	leaq	1888(%rsp), %rcx
	movq	%r13, %rdx
	movq	%r15, %r9
	callq	"dm_code::encoding::divide"
	movdqa	%xmm6, 2512(%rsp)
	movdqa	%xmm6, 2496(%rsp)
	movdqa	%xmm6, 2480(%rsp)
	movdqa	%xmm6, 2464(%rsp)
	movdqa	%xmm6, 2448(%rsp)
	movdqa	%xmm6, 2432(%rsp)
	leaq	2432(%rsp), %rcx
	movq	%rbp, %rdx
	movq	%rbx, %rbp
	movq	%r15, %r8
	callq	memcpy
	movaps	1888(%rsp), %xmm0
	movdqa	1904(%rsp), %xmm1
	movdqa	1920(%rsp), %xmm2
	movdqa	1936(%rsp), %xmm3
	xorps	2432(%rsp), %xmm0
	pxor	2448(%rsp), %xmm1
	movaps	%xmm0, 1888(%rsp)
	movdqa	%xmm1, 1904(%rsp)
	pxor	2464(%rsp), %xmm2
	movdqa	%xmm2, 1920(%rsp)
	pxor	2480(%rsp), %xmm3
	movdqa	%xmm3, 1936(%rsp)
	movdqa	1952(%rsp), %xmm0
	pxor	2496(%rsp), %xmm0
	movdqa	%xmm0, 1952(%rsp)
	movdqa	1968(%rsp), %xmm4
	pxor	2512(%rsp), %xmm4
	movdqa	%xmm4, 1968(%rsp)
	por	1888(%rsp), %xmm1
	por	%xmm2, %xmm3
	por	%xmm1, %xmm3
	por	%xmm0, %xmm4
	por	%xmm3, %xmm4
	ptest	%xmm4, %xmm4
	je	.LBB8_104
	leaq	3768(%rsp), %rax
	movq	%rax, 40(%rsp)
	movq	%r15, 32(%rsp)
	leaq	3256(%rsp), %rcx
	leaq	1888(%rsp), %r9
.LBB8_102:
	movq	%r14, %rdx
	movq	%r15, %r8
	callq	"dm_code::correction::mend::<#9f76af21849881bb>"
	movl	%edx, %r14d
	testb	%al, %al
	je	.LBB8_108
	xorl	%r15d, %r15d
	xorl	%r14d, %r14d
	xorl	%eax, %eax
	jmp	.LBB8_106
.LBB8_104:
	xorl	%r14d, %r14d
	movq	%r12, %r15
.LBB8_105:
	leal	(%r14,%r14), %eax
	subb	%al, %r15b
	movb	$1, %al
.LBB8_106:
	xorl	%r12d, %r12d
.LBB8_107:
	movzbl	%r15b, %ecx
	movb	%al, (%rdi)
	movb	%cl, 3(%rdi)
	shll	$16, %ecx
	movzbl	%r12b, %eax
	shll	$8, %eax
	orl	%ecx, %eax
	movzbl	%r14b, %ecx
	orl	%eax, %ecx
	movw	%cx, 1(%rdi)
	movaps	6144(%rsp), %xmm6
	movaps	6160(%rsp), %xmm7
	addq	$6184, %rsp
	popq	%rbx
	popq	%rbp
	popq	%rdi
	popq	%rsi
	popq	%r12
	popq	%r13
	popq	%r14
	popq	%r15
	retq
.LBB8_108:
	movq	%r12, %r15
	testb	%r14b, %r14b
	je	.LBB8_113
	movq	4024(%rsp), %rax
	testq	%rax, %rax
	je	.LBB8_105
	movq	6296(%rsp), %rcx
	addq	%rbp, %rcx
	cmpq	$4, %rax
	setae	%dl
	cmpw	$1, %si
	sete	%r8b
	andb	%dl, %r8b
	cmpb	$1, %r8b
	jne	.LBB8_162
	cmpq	$16, %rax
	jae	.LBB8_176
	xorl	%edx, %edx
	jmp	.LBB8_180
.LBB8_113:
	xorl	%r14d, %r14d
	jmp	.LBB8_105
.LBB8_114:
	movq	%rbx, %r15
	shrq	$4, %r15
	movdqa	%xmm6, 112(%rsp)
	movdqa	%xmm6, 208(%rsp)
	movdqa	%xmm6, 224(%rsp)
	movdqa	%xmm6, 240(%rsp)
	movdqa	%xmm6, 256(%rsp)
	movdqa	%xmm6, 272(%rsp)
	je	.LBB8_119
	movl	$1, %r12d
	xorl	%ebp, %ebp
	movq	%r15, %r13
	jmp	.LBB8_117
	.p2align	4
.LBB8_116:
	addq	$16, %r12
	decq	%r13
	je	.LBB8_119
.LBB8_117:
	leaq	112(%rsp), %rcx
	leaq	2168(%rsp), %rdx
	movq	72(%rsp), %r8
	movq	%r12, %r9
	callq	"dm_code::syndrome::values_from_root"
	leaq	-53(%rbp), %rax
	cmpq	$16, %rax
	jb	.LBB8_116
	movdqa	112(%rsp), %xmm0
	movdqu	%xmm0, 208(%rsp,%rbp)
	addq	$16, %rbp
	movq	%rbp, 280(%rsp)
	jmp	.LBB8_116
.LBB8_119:
	movq	72(%rsp), %r13
	movl	%r13d, %r12d
	andl	$15, %r12d
	leaq	112(%rsp), %rcx
	subq	%r12, %rcx
	addq	$16, %rcx
	pxor	%xmm0, %xmm0
	movdqa	%xmm0, 112(%rsp)
	leaq	2168(%rsp), %rdx
	movq	%r12, %r8
	callq	memcpy
	shll	$4, %r15d
	incl	%r15d
	leal	1(%rbx), %eax
	cmpw	%ax, %r15w
	jae	.LBB8_129
	movdqa	112(%rsp), %xmm0
	movq	%r13, %rax
	shrq	$4, %rax
	leaq	(%rsp,%r12), %rcx
	addq	$2168, %rcx
	movq	%rax, %rdx
	andq	$-2, %rdx
	leaq	(%rsp,%r12), %r8
	addq	$2184, %r8
	jmp	.LBB8_124
.LBB8_121:
	movdqa	%xmm0, %xmm1
.LBB8_122:
	movdqa	.LCPI8_0(%rip), %xmm4
	movdqa	%xmm1, %xmm5
	pand	%xmm4, %xmm5
	pshufb	%xmm5, %xmm3
	psrlw	$4, %xmm1
	pand	%xmm4, %xmm1
	pshufb	%xmm1, %xmm2
	pxor	%xmm3, %xmm2
	shlq	$4, %r9
	movdqu	(%rcx,%r9), %xmm1
	pxor	%xmm2, %xmm1
.LBB8_123:
	movd	%xmm1, %r11d
	movzwl	%r15w, %r9d
	imull	$32897, %r9d, %r9d
	shrl	$23, %r9d
	movl	%r9d, %r10d
	shll	$8, %r10d
	subl	%r10d, %r9d
	addl	%r15d, %r9d
	movzwl	%r9w, %r9d
	leaq	.Lstatic.49(%rip), %r10
	movzbl	(%r9,%r10), %r10d
	movl	%r10d, %r9d
	andl	$15, %r9d
	leaq	.Lstatic.44(%rip), %r12
	xorb	(%r9,%r12), %r11b
	addq	%r12, %r9
	shrl	$4, %r10d
	leaq	.Lstatic.45(%rip), %r12
	xorb	(%r10,%r12), %r11b
	addq	%r12, %r10
	pextrb	$1, %xmm1, %ebp
	movzbl	%r11b, %r11d
	shll	$4, %r11d
	xorb	(%r11,%r9), %bpl
	xorb	(%r11,%r10), %bpl
	pextrb	$2, %xmm1, %r11d
	movzbl	%bpl, %r12d
	shll	$4, %r12d
	xorb	(%r12,%r9), %r11b
	xorb	(%r12,%r10), %r11b
	pextrb	$3, %xmm1, %ebp
	movzbl	%r11b, %r11d
	shll	$4, %r11d
	xorb	(%r11,%r9), %bpl
	xorb	(%r11,%r10), %bpl
	pextrb	$4, %xmm1, %r11d
	movzbl	%bpl, %r12d
	shll	$4, %r12d
	xorb	(%r12,%r9), %r11b
	xorb	(%r12,%r10), %r11b
	pextrb	$5, %xmm1, %ebp
	movzbl	%r11b, %r11d
	shll	$4, %r11d
	xorb	(%r11,%r9), %bpl
	xorb	(%r11,%r10), %bpl
	pextrb	$6, %xmm1, %r11d
	movzbl	%bpl, %r12d
	shll	$4, %r12d
	xorb	(%r12,%r9), %r11b
	xorb	(%r12,%r10), %r11b
	pextrb	$7, %xmm1, %ebp
	movzbl	%r11b, %r11d
	shll	$4, %r11d
	xorb	(%r11,%r9), %bpl
	xorb	(%r11,%r10), %bpl
	pextrb	$8, %xmm1, %r11d
	movzbl	%bpl, %r12d
	shll	$4, %r12d
	xorb	(%r12,%r9), %r11b
	xorb	(%r12,%r10), %r11b
	pextrb	$9, %xmm1, %ebp
	movzbl	%r11b, %r11d
	shll	$4, %r11d
	xorb	(%r11,%r9), %bpl
	xorb	(%r11,%r10), %bpl
	pextrb	$10, %xmm1, %r11d
	movzbl	%bpl, %r12d
	shll	$4, %r12d
	xorb	(%r12,%r9), %r11b
	xorb	(%r12,%r10), %r11b
	pextrb	$11, %xmm1, %ebp
	movzbl	%r11b, %r11d
	shll	$4, %r11d
	xorb	(%r11,%r9), %bpl
	xorb	(%r11,%r10), %bpl
	pextrb	$12, %xmm1, %r11d
	movzbl	%bpl, %r12d
	shll	$4, %r12d
	xorb	(%r12,%r9), %r11b
	xorb	(%r12,%r10), %r11b
	pextrb	$13, %xmm1, %ebp
	movzbl	%r11b, %r11d
	shll	$4, %r11d
	xorb	(%r11,%r9), %bpl
	xorb	(%r11,%r10), %bpl
	pextrb	$14, %xmm1, %r11d
	movzbl	%bpl, %r12d
	shll	$4, %r12d
	xorb	(%r12,%r9), %r11b
	xorb	(%r12,%r10), %r11b
	pextrb	$15, %xmm1, %ebp
	movzbl	%r11b, %r11d
	shll	$4, %r11d
	xorb	(%r11,%r9), %bpl
	xorb	(%r11,%r10), %bpl
	movq	280(%rsp), %r9
	movb	%bpl, 208(%rsp,%r9)
	incq	%r9
	movq	%r9, 280(%rsp)
	cmpw	%bx, %r15w
	leal	1(%r15), %r9d
	movl	%r9d, %r15d
	je	.LBB8_129
.LBB8_124:
	movdqa	%xmm0, %xmm1
	testq	%rax, %rax
	je	.LBB8_123
	movl	%r15d, %r9d
	shll	$4, %r9d
	movzwl	%r9w, %r10d
	imull	$32897, %r10d, %r10d
	shrl	$23, %r10d
	movl	%r10d, %r11d
	shll	$8, %r11d
	subl	%r11d, %r10d
	addl	%r9d, %r10d
	movzwl	%r10w, %r9d
	leaq	.Lstatic.49(%rip), %r10
	movzbl	(%r9,%r10), %r9d
	shll	$4, %r9d
	leaq	.Lstatic.44(%rip), %r10
	movdqu	(%r9,%r10), %xmm3
	leaq	.Lstatic.45(%rip), %r10
	movdqu	(%r9,%r10), %xmm2
	xorl	%r9d, %r9d
	cmpq	$1, %rax
	je	.LBB8_121
	movq	%r8, %r10
	movdqa	%xmm0, %xmm1
	.p2align	4
.LBB8_127:
	movdqa	.LCPI8_0(%rip), %xmm4
	movdqa	%xmm1, %xmm5
	pand	%xmm4, %xmm5
	movdqa	%xmm3, %xmm6
	pshufb	%xmm5, %xmm6
	psrlw	$4, %xmm1
	pand	%xmm4, %xmm1
	movdqa	%xmm2, %xmm5
	pshufb	%xmm1, %xmm5
	pxor	%xmm6, %xmm5
	movdqu	-16(%r10), %xmm6
	pxor	%xmm5, %xmm6
	movdqu	(%r10), %xmm1
	movdqa	%xmm6, %xmm5
	pand	%xmm4, %xmm5
	movdqa	%xmm3, %xmm7
	pshufb	%xmm5, %xmm7
	pxor	%xmm1, %xmm7
	psrlw	$4, %xmm6
	pand	%xmm4, %xmm6
	movdqa	%xmm2, %xmm1
	pshufb	%xmm6, %xmm1
	pxor	%xmm7, %xmm1
	addq	$2, %r9
	addq	$32, %r10
	cmpq	%r9, %rdx
	jne	.LBB8_127
	testb	$1, %al
	jne	.LBB8_122
	jmp	.LBB8_123
.LBB8_129:
	movq	272(%rsp), %rax
	movq	%rax, 1072(%rsp)
	movq	280(%rsp), %rax
	movq	%rax, 1080(%rsp)
	movdqa	208(%rsp), %xmm0
	movdqa	224(%rsp), %xmm1
	movdqa	240(%rsp), %xmm2
	movdqa	256(%rsp), %xmm3
	movdqa	%xmm0, 1008(%rsp)
	movdqa	%xmm1, 1024(%rsp)
	movdqa	%xmm2, 1040(%rsp)
	movdqa	%xmm3, 1056(%rsp)
	movq	1080(%rsp), %rax
	pxor	%xmm0, %xmm0
	movdqa	%xmm0, 192(%rsp)
	movdqa	%xmm0, 176(%rsp)
	movdqa	%xmm0, 160(%rsp)
	movdqa	%xmm0, 144(%rsp)
	movdqa	%xmm0, 128(%rsp)
	movdqa	%xmm0, 112(%rsp)
	testq	%rax, %rax
	movq	96(%rsp), %rbp
	je	.LBB8_139
	leaq	112(%rsp), %rcx
	xorl	%edx, %edx
	movq	%rax, %r8
	jmp	.LBB8_134
	.p2align	4
.LBB8_131:
	xorl	%r11d, %r11d
.LBB8_132:
	leaq	(%rsp,%rdx), %r9
	addq	$112, %r9
	shlq	$4, %r11
	movdqu	912(%rsp,%r11), %xmm2
	movdqa	.LCPI8_0(%rip), %xmm3
	movdqa	%xmm2, %xmm4
	pand	%xmm3, %xmm4
	pshufb	%xmm4, %xmm1
	psrlw	$4, %xmm2
	pand	%xmm3, %xmm2
	pshufb	%xmm2, %xmm0
	pxor	%xmm1, %xmm0
	movdqu	(%r9,%r11), %xmm1
	pxor	%xmm0, %xmm1
	movdqu	%xmm1, (%r9,%r11)
.LBB8_133:
	incq	%rdx
	incq	%rcx
	decq	%r8
	cmpq	%rax, %rdx
	je	.LBB8_139
.LBB8_134:
	movq	%rax, %r9
	subq	%rdx, %r9
	xorl	%r10d, %r10d
	testb	$15, %r9b
	setne	%r10b
	shll	$4, %r10d
	addq	%r10, %r9
	shrq	$4, %r9
	je	.LBB8_133
	movzbl	1008(%rsp,%rdx), %r11d
	shll	$4, %r11d
	leaq	.Lstatic.44(%rip), %r15
	movdqu	(%r11,%r15), %xmm1
	leaq	.Lstatic.45(%rip), %r15
	movdqu	(%r11,%r15), %xmm0
	cmpq	$1, %r9
	je	.LBB8_131
	addq	%r8, %r10
	shrq	$4, %r10
	andq	$-2, %r10
	movl	$16, %r12d
	xorl	%r11d, %r11d
	.p2align	4
.LBB8_137:
	movdqu	896(%rsp,%r12), %xmm2
	movdqa	.LCPI8_0(%rip), %xmm3
	movdqa	%xmm2, %xmm4
	pand	%xmm3, %xmm4
	movdqa	%xmm1, %xmm5
	pshufb	%xmm4, %xmm5
	psrlw	$4, %xmm2
	pand	%xmm3, %xmm2
	movdqa	%xmm0, %xmm4
	pshufb	%xmm2, %xmm4
	movdqu	-16(%rcx,%r12), %xmm2
	pxor	%xmm5, %xmm2
	pxor	%xmm4, %xmm2
	movdqu	(%rcx,%r12), %xmm4
	movdqu	%xmm2, -16(%rcx,%r12)
	movdqu	912(%rsp,%r12), %xmm2
	movdqa	%xmm2, %xmm5
	pand	%xmm3, %xmm5
	movdqa	%xmm1, %xmm6
	pshufb	%xmm5, %xmm6
	pxor	%xmm4, %xmm6
	psrlw	$4, %xmm2
	pand	%xmm3, %xmm2
	movdqa	%xmm0, %xmm3
	pshufb	%xmm2, %xmm3
	pxor	%xmm6, %xmm3
	movdqu	%xmm3, (%rcx,%r12)
	addq	$2, %r11
	addq	$32, %r12
	cmpq	%r11, %r10
	jne	.LBB8_137
	testb	$1, %r9b
	jne	.LBB8_132
	jmp	.LBB8_133
.LBB8_139:
	movdqa	192(%rsp), %xmm0
	movdqa	%xmm0, 1344(%rsp)
	movdqa	176(%rsp), %xmm1
	movdqa	%xmm1, 1328(%rsp)
	movdqa	112(%rsp), %xmm2
	movdqa	128(%rsp), %xmm3
	movdqa	144(%rsp), %xmm4
	movdqa	160(%rsp), %xmm5
	movdqa	%xmm5, 1312(%rsp)
	movdqa	%xmm4, 1296(%rsp)
	movdqa	%xmm3, 1280(%rsp)
	movdqa	%xmm2, 1264(%rsp)
	movdqa	%xmm2, 1088(%rsp)
	movdqa	%xmm3, 1104(%rsp)
	movdqa	%xmm4, 1120(%rsp)
	movdqa	%xmm5, 1136(%rsp)
	movdqa	%xmm1, 1152(%rsp)
	movdqa	%xmm0, 1168(%rsp)
	leaq	(,%rbx,8), %rax
	cmpq	%r13, %rax
	jbe	.LBB8_145
	leaq	304(%rsp), %r12
	leaq	1264(%rsp), %rdx
	movq	%r12, %rcx
	movq	%rbx, %r8
	movq	%r13, %r9
	callq	"dm_code::weighing::at_places"
	leaq	1360(%rsp), %rcx
	movl	$256, %r8d
	movq	%r12, %rdx
	callq	memcpy
	xorl	%eax, %eax
	jmp	.LBB8_143
	.p2align	4
.LBB8_141:
	movzbl	1360(%rsp,%r8), %r8d
	leaq	.Lstatic.48(%rip), %r9
	movzbl	(%rdx,%r9), %r9d
	xorl	$255, %r9d
	leal	-255(%r9), %r10d
	cmpq	$1, %rdx
	cmovnel	%r9d, %r10d
	movzwl	%r10w, %edx
	leaq	.Lstatic.49(%rip), %r9
	movzbl	(%rdx,%r9), %edx
	shll	$4, %r8d
	movl	%edx, %r9d
	andl	$15, %r9d
	leaq	.Lstatic.44(%rip), %r10
	addq	%r8, %r10
	shrl	$4, %edx
	leaq	.Lstatic.45(%rip), %r11
	addq	%r8, %r11
	movzbl	(%rdx,%r11), %edx
	xorb	(%r9,%r10), %dl
.LBB8_142:
	movb	%dl, 2168(%rsp,%rcx)
	incq	%rax
	cmpq	%rax, %rbx
	je	.LBB8_156
.LBB8_143:
	movzbl	2992(%rsp,%rax), %ecx
	movq	%rcx, %r8
	notq	%r8
	addq	%r13, %r8
	movzbl	3512(%rsp,%r8), %edx
	testq	%rdx, %rdx
	jne	.LBB8_141
	xorl	%edx, %edx
	jmp	.LBB8_142
.LBB8_145:
	movq	%rbx, %rax
	andq	$-2, %rax
	xorl	%ecx, %ecx
	movq	%rbx, 104(%rsp)
	jmp	.LBB8_148
	.p2align	4
.LBB8_146:
	leaq	.Lstatic.48(%rip), %r10
	movzbl	(%r8,%r10), %r10d
	xorl	$255, %r10d
	leal	-255(%r10), %r11d
	cmpq	$1, %r8
	cmovnel	%r10d, %r11d
	movzwl	%r11w, %r8d
	movzbl	(%r8,%r9), %r8d
	movzbl	%r13b, %r9d
	shll	$4, %r9d
	movl	%r8d, %r10d
	andl	$15, %r10d
	leaq	.Lstatic.44(%rip), %r11
	addq	%r9, %r11
	shrl	$4, %r8d
	leaq	.Lstatic.45(%rip), %rdi
	addq	%r9, %rdi
	movzbl	(%r8,%rdi), %r8d
	xorb	(%r10,%r11), %r8b
.LBB8_147:
	movq	72(%rsp), %r13
	movb	%r8b, 2168(%rsp,%rdx)
	incq	%rcx
	cmpq	%rbx, %rcx
	movq	%r14, %rdi
	je	.LBB8_156
.LBB8_148:
	movq	%rdi, %r14
	movzbl	2992(%rsp,%rcx), %edx
	movq	%rdx, %r8
	notq	%r8
	addq	%r13, %r8
	movzwl	%r8w, %r9d
	imull	$32897, %r9d, %r9d
	shrl	$23, %r9d
	movl	%r9d, %r10d
	shll	$8, %r10d
	subl	%r10d, %r9d
	addl	%r8d, %r9d
	movzwl	%r9w, %r10d
	leaq	.Lstatic.49(%rip), %r9
	movzbl	(%r10,%r9), %r11d
	movl	%r11d, %r10d
	andl	$15, %r10d
	shrl	$4, %r11d
	cmpq	$0, 296(%rsp)
	je	.LBB8_152
	xorl	%r13d, %r13d
	xorl	%r12d, %r12d
	.p2align	4
.LBB8_150:
	movzbl	%r13b, %r15d
	shll	$4, %r15d
	leaq	(%r10,%r15), %r13
	leaq	.Lstatic.44(%rip), %rbp
	orq	%r11, %r15
	leaq	.Lstatic.45(%rip), %rbx
	movzbl	(%rbx,%r15), %r15d
	xorb	(%rbp,%r13), %r15b
	xorb	1088(%rsp,%r12), %r15b
	movzbl	%r15b, %r15d
	shll	$4, %r15d
	leaq	(%r10,%r15), %rdi
	orq	%r11, %r15
	movzbl	(%rbx,%r15), %r13d
	xorb	(%rbp,%rdi), %r13b
	xorb	1089(%rsp,%r12), %r13b
	addq	$2, %r12
	cmpq	%r12, %rax
	jne	.LBB8_150
	movq	104(%rsp), %rbx
	testb	$1, %bl
	movq	96(%rsp), %rbp
	jne	.LBB8_153
	jmp	.LBB8_154
	.p2align	4
.LBB8_152:
	xorl	%r13d, %r13d
	xorl	%r12d, %r12d
.LBB8_153:
	movzbl	%r13b, %edi
	shll	$4, %edi
	orq	%rdi, %r10
	leaq	.Lstatic.44(%rip), %rbx
	orq	%rdi, %r11
	leaq	.Lstatic.45(%rip), %rdi
	movzbl	(%rdi,%r11), %r13d
	xorb	(%rbx,%r10), %r13b
	movq	104(%rsp), %rbx
	xorb	1088(%rsp,%r12), %r13b
.LBB8_154:
	movzbl	3512(%rsp,%r8), %r8d
	testq	%r8, %r8
	jne	.LBB8_146
	xorl	%r8d, %r8d
	jmp	.LBB8_147
.LBB8_156:
	movzbl	1880(%rsp), %r14d
	leaq	4816(%rsp), %rcx
	leaq	2168(%rsp), %rdx
	movl	$264, %r8d
	callq	memcpy
	movq	3248(%rsp), %r12
.LBB8_157:
	leaq	4816(%rsp), %rdx
	movzbl	%r14b, %r13d
	leal	(%r12,%r13,2), %eax
	movq	88(%rsp), %rbx
	subl	%eax, %ebx
	leaq	5880(%rsp), %r15
	movl	$264, %r8d
	movq	%r15, %rcx
	callq	memcpy
	movl	64(%rsp), %eax
	movl	%eax, 56(%rsp)
	movzbl	68(%rsp), %eax
	movb	%al, 60(%rsp)
	leaq	2720(%rsp), %rcx
	movl	$264, %r8d
	movq	%r15, %rdx
	callq	memcpy
	movb	%r13b, 2984(%rsp)
	movq	%rbx, %r15
	movb	%r12b, 2985(%rsp)
	movb	%r15b, 2986(%rsp)
	movl	56(%rsp), %eax
	movl	%eax, 2987(%rsp)
	movzbl	60(%rsp), %eax
	movb	%al, 2991(%rsp)
	movq	2976(%rsp), %rcx
	movb	$1, %al
	testq	%rcx, %rcx
	je	.LBB8_107
	cmpq	$4, %rcx
	setae	%dl
	cmpw	$1, %si
	sete	%r8b
	andb	%dl, %r8b
	cmpb	$1, %r8b
	jne	.LBB8_161
	cmpq	$16, %rcx
	movq	80(%rsp), %r13
	jae	.LBB8_163
	xorl	%edx, %edx
	jmp	.LBB8_167
.LBB8_161:
	xorl	%edx, %edx
	movq	80(%rsp), %r13
	jmp	.LBB8_170
.LBB8_162:
	xorl	%edx, %edx
	jmp	.LBB8_183
.LBB8_163:
	movq	%rcx, %rdx
	andq	$-16, %rdx
	xorl	%r8d, %r8d
	.p2align	4
.LBB8_164:
	movdqu	2720(%rsp,%r8), %xmm0
	movdqu	%xmm0, (%r13,%r8)
	addq	$16, %r8
	cmpq	%r8, %rdx
	jne	.LBB8_164
	cmpq	%rdx, %rcx
	je	.LBB8_107
	testb	$12, %cl
	je	.LBB8_170
.LBB8_167:
	movq	%rdx, %r8
	movq	%rcx, %rdx
	andq	$-4, %rdx
	.p2align	4
.LBB8_168:
	movl	2720(%rsp,%r8), %r9d
	movl	%r9d, (%r13,%r8)
	addq	$4, %r8
	cmpq	%r8, %rdx
	jne	.LBB8_168
	cmpq	%rdx, %rcx
	je	.LBB8_107
.LBB8_170:
	movq	%rcx, %r9
	movq	%rdx, %r8
	andq	$3, %r9
	je	.LBB8_173
	movq	%rdx, %r8
	imulq	%rsi, %r8
	movq	6296(%rsp), %r10
	addq	%r8, %r10
	addq	%r10, %rbp
	movq	%rdx, %r8
	.p2align	4
.LBB8_172:
	movzbl	2720(%rsp,%r8), %r10d
	movb	%r10b, (%rbp)
	incq	%r8
	addq	%rsi, %rbp
	decq	%r9
	jne	.LBB8_172
.LBB8_173:
	subq	%rcx, %rdx
	cmpq	$-4, %rdx
	ja	.LBB8_107
	leaq	3(%r8), %rdx
	imulq	%rsi, %rdx
	leal	(,%rsi,4), %r9d
	leaq	2(%r8), %r10
	imulq	%rsi, %r10
	leaq	1(%r8), %r11
	imulq	%rsi, %r11
	imulq	%r8, %rsi
	.p2align	4
.LBB8_175:
	movzbl	2720(%rsp,%r8), %ebx
	movb	%bl, (%r13,%rsi)
	movzbl	2721(%rsp,%r8), %ebx
	movb	%bl, (%r13,%r11)
	movzbl	2722(%rsp,%r8), %ebx
	movb	%bl, (%r13,%r10)
	movzbl	2723(%rsp,%r8), %ebx
	movb	%bl, (%r13,%rdx)
	addq	$4, %r8
	addq	%r9, %r13
	cmpq	%r8, %rcx
	jne	.LBB8_175
	jmp	.LBB8_107
.LBB8_176:
	movq	%rax, %rdx
	andq	$-16, %rdx
	xorl	%r8d, %r8d
	.p2align	4
.LBB8_177:
	movdqu	3768(%rsp,%r8), %xmm0
	movdqu	%xmm0, (%rcx,%r8)
	addq	$16, %r8
	cmpq	%r8, %rdx
	jne	.LBB8_177
	cmpq	%rdx, %rax
	je	.LBB8_105
	testb	$12, %al
	je	.LBB8_183
.LBB8_180:
	movq	%rdx, %r8
	movq	%rax, %rdx
	andq	$-4, %rdx
	.p2align	4
.LBB8_181:
	movl	3768(%rsp,%r8), %r9d
	movl	%r9d, (%rcx,%r8)
	addq	$4, %r8
	cmpq	%r8, %rdx
	jne	.LBB8_181
	cmpq	%rdx, %rax
	je	.LBB8_105
.LBB8_183:
	movq	%rax, %r9
	movq	%rdx, %r8
	andq	$3, %r9
	je	.LBB8_186
	movq	%rdx, %r8
	imulq	%rsi, %r8
	movq	6296(%rsp), %r10
	addq	%r8, %r10
	addq	%r10, %rbp
	movq	%rdx, %r8
	.p2align	4
.LBB8_185:
	movzbl	3768(%rsp,%r8), %r10d
	movb	%r10b, (%rbp)
	incq	%r8
	addq	%rsi, %rbp
	decq	%r9
	jne	.LBB8_185
.LBB8_186:
	subq	%rax, %rdx
	cmpq	$-4, %rdx
	ja	.LBB8_105
	leaq	3(%r8), %rdx
	imulq	%rsi, %rdx
	leal	(,%rsi,4), %r9d
	leaq	2(%r8), %r10
	imulq	%rsi, %r10
	leaq	1(%r8), %r11
	imulq	%rsi, %r11
	imulq	%r8, %rsi
	.p2align	4
.LBB8_188:
	movzbl	3768(%rsp,%r8), %ebx
	movb	%bl, (%rcx,%rsi)
	movzbl	3769(%rsp,%r8), %ebx
	movb	%bl, (%rcx,%r11)
	movzbl	3770(%rsp,%r8), %ebx
	movb	%bl, (%rcx,%r10)
	movzbl	3771(%rsp,%r8), %ebx
	movb	%bl, (%rcx,%rdx)
	addq	$4, %r8
	addq	%r9, %rcx
	cmpq	%r8, %rax
	jne	.LBB8_188
	jmp	.LBB8_105
.LBB8_189:
	ud2
	.seh_endproc

	.def	"dm_code::encoding::divide";
	.scl	3;
	.type	32;
	.endef
	.section	.rdata,"dr"
	.p2align	4, 0x0
.LCPI9_0:
	.zero	16,15
	.text
	.p2align	4
"dm_code::encoding::divide":
.seh_proc "dm_code::encoding::divide"
	pushq	%rsi
	.seh_pushreg %rsi
	pushq	%rdi
	.seh_pushreg %rdi
	subq	$472, %rsp
	.seh_stackalloc 472
	movdqa	%xmm15, 448(%rsp)
	.seh_savexmm %xmm15, 448
	movdqa	%xmm14, 432(%rsp)
	.seh_savexmm %xmm14, 432
	movdqa	%xmm13, 416(%rsp)
	.seh_savexmm %xmm13, 416
	movdqa	%xmm12, 400(%rsp)
	.seh_savexmm %xmm12, 400
	movdqa	%xmm11, 384(%rsp)
	.seh_savexmm %xmm11, 384
	movdqa	%xmm10, 368(%rsp)
	.seh_savexmm %xmm10, 368
	movdqa	%xmm9, 352(%rsp)
	.seh_savexmm %xmm9, 352
	movdqa	%xmm8, 336(%rsp)
	.seh_savexmm %xmm8, 336
	movdqa	%xmm7, 320(%rsp)
	.seh_savexmm %xmm7, 320
	movdqa	%xmm6, 304(%rsp)
	.seh_savexmm %xmm6, 304
	.seh_endprologue
	movq	%r9, %r10
	shrq	$4, %r10
	movl	%r9d, %eax
	andl	$15, %eax
	cmpq	$1, %rax
	sbbq	$-1, %r10
	movl	%r8d, %eax
	andl	$1, %eax
	decq	%r10
	cmpq	$3, %r10
	ja	.LBB9_10
	leaq	.LJTI9_0(%rip), %r11
	movslq	(%r11,%r10,4), %r10
	addq	%r11, %r10
	jmpq	*%r10
.LBB9_2:
	testq	%rax, %rax
	jne	.LBB9_21
	shlq	$4, %r9
	leaq	(%r9,%r9,4), %r10
	leaq	.Lstatic.46(%rip), %r9
	movdqu	(%r9,%r10), %xmm2
	movdqa	.LCPI9_0(%rip), %xmm0
	movdqa	%xmm2, %xmm1
	pand	%xmm0, %xmm1
	movdqa	%xmm2, %xmm3
	psrlw	$4, %xmm3
	pand	%xmm0, %xmm3
	pxor	%xmm0, %xmm0
	jmp	.LBB9_22
.LBB9_4:
	testq	%rax, %rax
	jne	.LBB9_12
	shlq	$4, %r9
	leaq	(%r9,%r9,4), %r10
	leaq	.Lstatic.46(%rip), %r9
	movdqu	(%r9,%r10), %xmm10
	movdqu	16(%r9,%r10), %xmm5
	movdqu	32(%r9,%r10), %xmm9
	movdqa	.LCPI9_0(%rip), %xmm0
	movdqa	%xmm10, %xmm11
	pand	%xmm0, %xmm11
	movdqa	%xmm10, %xmm13
	psrlw	$4, %xmm13
	pand	%xmm0, %xmm13
	movdqa	%xmm5, %xmm12
	pand	%xmm0, %xmm12
	psrlw	$4, %xmm5
	pand	%xmm0, %xmm5
	movdqa	%xmm9, %xmm6
	pand	%xmm0, %xmm6
	psrlw	$4, %xmm9
	pand	%xmm0, %xmm9
	pxor	%xmm3, %xmm3
	pxor	%xmm1, %xmm1
	pxor	%xmm0, %xmm0
	jmp	.LBB9_13
.LBB9_6:
	testq	%rax, %rax
	jne	.LBB9_17
	shlq	$4, %r9
	leaq	(%r9,%r9,4), %r10
	leaq	.Lstatic.46(%rip), %r9
	movdqu	(%r9,%r10), %xmm5
	movdqu	16(%r9,%r10), %xmm12
	movdqu	32(%r9,%r10), %xmm10
	movdqu	48(%r9,%r10), %xmm11
	movdqa	.LCPI9_0(%rip), %xmm0
	movdqa	%xmm5, %xmm7
	pand	%xmm0, %xmm7
	movdqa	%xmm5, %xmm8
	psrlw	$4, %xmm8
	pand	%xmm0, %xmm8
	movdqa	%xmm12, %xmm13
	pand	%xmm0, %xmm13
	psrlw	$4, %xmm12
	pand	%xmm0, %xmm12
	movdqa	%xmm10, %xmm1
	pand	%xmm0, %xmm1
	movdqa	%xmm1, (%rsp)
	psrlw	$4, %xmm10
	pand	%xmm0, %xmm10
	movdqa	%xmm11, %xmm4
	pand	%xmm0, %xmm4
	psrlw	$4, %xmm11
	pand	%xmm0, %xmm11
	pxor	%xmm14, %xmm14
	pxor	%xmm3, %xmm3
	pxor	%xmm1, %xmm1
	pxor	%xmm0, %xmm0
	jmp	.LBB9_18
.LBB9_8:
	testq	%rax, %rax
	jne	.LBB9_26
	shlq	$4, %r9
	leaq	(%r9,%r9,4), %r10
	leaq	.Lstatic.46(%rip), %r9
	movdqu	(%r9,%r10), %xmm7
	movdqu	16(%r9,%r10), %xmm3
	movdqa	.LCPI9_0(%rip), %xmm0
	movdqa	%xmm7, %xmm4
	pand	%xmm0, %xmm4
	movdqa	%xmm7, %xmm5
	psrlw	$4, %xmm5
	pand	%xmm0, %xmm5
	movdqa	%xmm3, %xmm13
	pand	%xmm0, %xmm13
	psrlw	$4, %xmm3
	pand	%xmm0, %xmm3
	pxor	%xmm1, %xmm1
	pxor	%xmm0, %xmm0
	jmp	.LBB9_27
.LBB9_10:
	testq	%rax, %rax
	jne	.LBB9_31
	shlq	$4, %r9
	leaq	(%r9,%r9,4), %r11
	leaq	.Lstatic.46(%rip), %r9
	movdqu	(%r9,%r11), %xmm12
	movdqu	16(%r9,%r11), %xmm9
	movdqu	32(%r9,%r11), %xmm10
	movdqu	48(%r9,%r11), %xmm13
	movdqu	64(%r9,%r11), %xmm5
	movdqa	.LCPI9_0(%rip), %xmm0
	movdqa	%xmm12, %xmm1
	pand	%xmm0, %xmm1
	movdqa	%xmm1, 208(%rsp)
	movdqa	%xmm12, %xmm1
	psrlw	$4, %xmm1
	pand	%xmm0, %xmm1
	movdqa	%xmm1, 224(%rsp)
	movdqa	%xmm9, %xmm4
	pand	%xmm0, %xmm4
	psrlw	$4, %xmm9
	pand	%xmm0, %xmm9
	movdqa	%xmm10, %xmm1
	pand	%xmm0, %xmm1
	movdqa	%xmm1, (%rsp)
	psrlw	$4, %xmm10
	pand	%xmm0, %xmm10
	movdqa	%xmm13, %xmm11
	pand	%xmm0, %xmm11
	psrlw	$4, %xmm13
	pand	%xmm0, %xmm13
	movdqa	%xmm5, %xmm8
	pand	%xmm0, %xmm8
	movdqa	%xmm5, %xmm7
	psrlw	$4, %xmm7
	pand	%xmm0, %xmm7
	pxor	%xmm15, %xmm15
	pxor	%xmm14, %xmm14
	pxor	%xmm3, %xmm3
	pxor	%xmm1, %xmm1
	pxor	%xmm0, %xmm0
	jmp	.LBB9_32
.LBB9_12:
	movzbl	(%rdx), %r11d
	shlq	$4, %r9
	leaq	(%r9,%r9,4), %r10
	leaq	.Lstatic.46(%rip), %r9
	shll	$4, %r11d
	leaq	.Lstatic.44(%rip), %rsi
	movdqu	(%r11,%rsi), %xmm2
	leaq	.Lstatic.45(%rip), %rsi
	movdqu	(%r11,%rsi), %xmm3
	movdqu	(%r9,%r10), %xmm10
	movdqu	16(%r9,%r10), %xmm5
	movdqu	32(%r9,%r10), %xmm9
	movdqa	.LCPI9_0(%rip), %xmm4
	movdqa	%xmm10, %xmm11
	pand	%xmm4, %xmm11
	movdqa	%xmm2, %xmm1
	pshufb	%xmm11, %xmm1
	movdqa	%xmm10, %xmm13
	psrlw	$4, %xmm13
	pand	%xmm4, %xmm13
	movdqa	%xmm3, %xmm0
	pshufb	%xmm13, %xmm0
	pxor	%xmm1, %xmm0
	movdqa	%xmm5, %xmm12
	pand	%xmm4, %xmm12
	movdqa	%xmm2, %xmm6
	pshufb	%xmm12, %xmm6
	psrlw	$4, %xmm5
	pand	%xmm4, %xmm5
	movdqa	%xmm3, %xmm1
	pshufb	%xmm5, %xmm1
	pxor	%xmm6, %xmm1
	movdqa	%xmm9, %xmm6
	pand	%xmm4, %xmm6
	pshufb	%xmm6, %xmm2
	psrlw	$4, %xmm9
	pand	%xmm4, %xmm9
	pshufb	%xmm9, %xmm3
	pxor	%xmm2, %xmm3
.LBB9_13:
	shrq	%r8
	pxor	%xmm15, %xmm15
	je	.LBB9_35
	pextrb	$0, %xmm10, %r11d
	leaq	.Lstatic.46(%rip), %rsi
	shll	$4, %r11d
	leaq	.Lstatic.44(%rip), %r9
	movdqu	(%r11,%r9), %xmm2
	movdqa	%xmm2, %xmm4
	pshufb	%xmm6, %xmm4
	movdqa	%xmm6, (%rsp)
	movdqu	1(%r10,%rsi), %xmm6
	movdqu	17(%r10,%rsi), %xmm7
	movdqu	33(%r10,%rsi), %xmm8
	pxor	%xmm4, %xmm8
	leaq	.Lstatic.45(%rip), %r10
	movdqu	(%r11,%r10), %xmm10
	movdqa	%xmm10, %xmm14
	pshufb	%xmm9, %xmm14
	pxor	%xmm8, %xmm14
	movdqa	%xmm2, %xmm4
	pshufb	%xmm12, %xmm4
	pxor	%xmm7, %xmm4
	movdqa	%xmm10, %xmm7
	pshufb	%xmm5, %xmm7
	pxor	%xmm4, %xmm7
	pshufb	%xmm11, %xmm2
	pxor	%xmm6, %xmm2
	pshufb	%xmm13, %xmm10
	pxor	%xmm2, %xmm10
	addq	%rax, %rdx
	movdqa	.LCPI9_0(%rip), %xmm4
	movdqa	%xmm10, %xmm2
	pand	%xmm4, %xmm2
	movdqa	%xmm2, 16(%rsp)
	psrlw	$4, %xmm10
	pand	%xmm4, %xmm10
	movdqa	%xmm10, 48(%rsp)
	movdqa	%xmm7, %xmm2
	pand	%xmm4, %xmm2
	movdqa	%xmm2, 96(%rsp)
	psrlw	$4, %xmm7
	pand	%xmm4, %xmm7
	movdqa	%xmm7, 32(%rsp)
	movdqa	%xmm14, %xmm2
	pand	%xmm4, %xmm2
	movdqa	%xmm2, 80(%rsp)
	psrlw	$4, %xmm14
	pand	%xmm4, %xmm14
	movdqa	%xmm14, 64(%rsp)
	xorl	%eax, %eax
	movdqa	%xmm11, %xmm10
	movdqa	%xmm5, %xmm11
	movdqa	%xmm13, %xmm2
	.p2align	4
.LBB9_15:
	movzwl	(%rdx,%rax,2), %r11d
	movd	%r11d, %xmm4
	pxor	%xmm0, %xmm4
	pmovzxbw	%xmm4, %xmm4
	psllw	$4, %xmm4
	pextrw	$0, %xmm4, %r11d
	movdqu	(%r11,%r9), %xmm6
	movdqu	(%r11,%r10), %xmm5
	pextrw	$1, %xmm4, %r11d
	movdqa	%xmm9, %xmm14
	movdqu	(%r11,%r9), %xmm9
	movdqu	(%r11,%r10), %xmm13
	movdqa	%xmm5, %xmm7
	pshufb	48(%rsp), %xmm7
	movdqa	%xmm9, %xmm4
	pshufb	%xmm10, %xmm4
	pxor	%xmm7, %xmm4
	movdqa	%xmm3, %xmm7
	palignr	$2, %xmm1, %xmm7
	palignr	$2, %xmm0, %xmm1
	movdqa	%xmm6, %xmm0
	pshufb	16(%rsp), %xmm0
	pxor	%xmm0, %xmm1
	movdqa	%xmm13, %xmm8
	pshufb	%xmm2, %xmm8
	pxor	%xmm4, %xmm1
	movdqa	%xmm1, %xmm0
	pxor	%xmm8, %xmm0
	movdqa	%xmm5, %xmm1
	pshufb	32(%rsp), %xmm1
	movdqa	%xmm9, %xmm4
	pshufb	%xmm12, %xmm4
	pxor	%xmm1, %xmm4
	movdqa	%xmm6, %xmm1
	pshufb	96(%rsp), %xmm1
	pxor	%xmm7, %xmm1
	pxor	%xmm4, %xmm1
	movdqa	%xmm13, %xmm4
	pshufb	%xmm11, %xmm4
	pxor	%xmm4, %xmm1
	pshufb	64(%rsp), %xmm5
	pshufb	(%rsp), %xmm9
	pxor	%xmm5, %xmm9
	pshufb	80(%rsp), %xmm6
	psrldq	$2, %xmm3
	pxor	%xmm6, %xmm3
	pxor	%xmm9, %xmm3
	movdqa	%xmm14, %xmm9
	pshufb	%xmm14, %xmm13
	pxor	%xmm13, %xmm3
	incq	%rax
	cmpq	%rax, %r8
	jne	.LBB9_15
.LBB9_35:
	pxor	%xmm14, %xmm14
	jmp	.LBB9_36
.LBB9_17:
	movzbl	(%rdx), %r11d
	shlq	$4, %r9
	leaq	(%r9,%r9,4), %r10
	leaq	.Lstatic.46(%rip), %r9
	shll	$4, %r11d
	leaq	.Lstatic.44(%rip), %rsi
	movdqu	(%r11,%rsi), %xmm2
	leaq	.Lstatic.45(%rip), %rsi
	movdqu	(%r11,%rsi), %xmm14
	movdqu	(%r9,%r10), %xmm5
	movdqu	16(%r9,%r10), %xmm12
	movdqu	32(%r9,%r10), %xmm10
	movdqu	48(%r9,%r10), %xmm11
	movdqa	.LCPI9_0(%rip), %xmm6
	movdqa	%xmm5, %xmm7
	pand	%xmm6, %xmm7
	movdqa	%xmm2, %xmm1
	pshufb	%xmm7, %xmm1
	movdqa	%xmm5, %xmm8
	psrlw	$4, %xmm8
	pand	%xmm6, %xmm8
	movdqa	%xmm14, %xmm0
	pshufb	%xmm8, %xmm0
	pxor	%xmm1, %xmm0
	movdqa	%xmm12, %xmm13
	pand	%xmm6, %xmm13
	movdqa	%xmm2, %xmm3
	pshufb	%xmm13, %xmm3
	psrlw	$4, %xmm12
	pand	%xmm6, %xmm12
	movdqa	%xmm14, %xmm1
	pshufb	%xmm12, %xmm1
	pxor	%xmm3, %xmm1
	movdqa	%xmm10, %xmm3
	pand	%xmm6, %xmm3
	movdqa	%xmm2, %xmm4
	movdqa	%xmm3, (%rsp)
	pshufb	%xmm3, %xmm4
	psrlw	$4, %xmm10
	pand	%xmm6, %xmm10
	movdqa	%xmm14, %xmm3
	pshufb	%xmm10, %xmm3
	pxor	%xmm4, %xmm3
	movdqa	%xmm11, %xmm4
	pand	%xmm6, %xmm4
	pshufb	%xmm4, %xmm2
	psrlw	$4, %xmm11
	pand	%xmm6, %xmm11
	pshufb	%xmm11, %xmm14
	pxor	%xmm2, %xmm14
.LBB9_18:
	shrq	%r8
	pxor	%xmm15, %xmm15
	je	.LBB9_36
	leaq	.Lstatic.46(%rip), %r11
	pextrb	$0, %xmm5, %esi
	shll	$4, %esi
	leaq	.Lstatic.44(%rip), %r9
	movdqu	(%rsi,%r9), %xmm5
	movdqa	%xmm5, %xmm2
	pshufb	%xmm4, %xmm2
	movdqa	%xmm4, 32(%rsp)
	movups	1(%r10,%r11), %xmm4
	movaps	%xmm4, 16(%rsp)
	movdqa	%xmm7, 48(%rsp)
	movdqu	17(%r10,%r11), %xmm7
	movdqa	%xmm8, 64(%rsp)
	movdqu	33(%r10,%r11), %xmm8
	movdqu	49(%r10,%r11), %xmm9
	pxor	%xmm2, %xmm9
	leaq	.Lstatic.45(%rip), %r10
	movdqu	(%rsi,%r10), %xmm2
	movdqa	%xmm13, %xmm4
	movdqa	%xmm13, 112(%rsp)
	movdqa	%xmm2, %xmm13
	pshufb	%xmm11, %xmm13
	pxor	%xmm9, %xmm13
	movdqa	%xmm5, %xmm9
	pshufb	(%rsp), %xmm9
	pxor	%xmm8, %xmm9
	movdqa	%xmm2, %xmm6
	pshufb	%xmm10, %xmm6
	pxor	%xmm9, %xmm6
	movdqa	%xmm5, %xmm8
	pshufb	%xmm4, %xmm8
	pxor	%xmm7, %xmm8
	movdqa	48(%rsp), %xmm7
	movdqa	%xmm2, %xmm9
	pshufb	%xmm12, %xmm9
	pxor	%xmm8, %xmm9
	pshufb	%xmm7, %xmm5
	pxor	16(%rsp), %xmm5
	pshufb	64(%rsp), %xmm2
	pxor	%xmm5, %xmm2
	movdqa	.LCPI9_0(%rip), %xmm4
	movdqa	%xmm2, %xmm5
	pand	%xmm4, %xmm5
	movdqa	%xmm5, 176(%rsp)
	psrlw	$4, %xmm2
	pand	%xmm4, %xmm2
	movdqa	%xmm2, 16(%rsp)
	movdqa	%xmm9, %xmm2
	pand	%xmm4, %xmm2
	movdqa	%xmm2, 160(%rsp)
	psrlw	$4, %xmm9
	pand	%xmm4, %xmm9
	movdqa	%xmm9, 192(%rsp)
	movdqa	%xmm6, %xmm2
	pand	%xmm4, %xmm2
	movdqa	%xmm2, 144(%rsp)
	psrlw	$4, %xmm6
	pand	%xmm4, %xmm6
	movdqa	%xmm6, 80(%rsp)
	movdqa	%xmm13, %xmm2
	pand	%xmm4, %xmm2
	movdqa	%xmm2, 128(%rsp)
	psrlw	$4, %xmm13
	pand	%xmm4, %xmm13
	movdqa	%xmm13, 96(%rsp)
	addq	%rax, %rdx
	xorl	%eax, %eax
	movdqa	112(%rsp), %xmm13
	movdqa	%xmm10, %xmm6
	.p2align	4
.LBB9_20:
	movzwl	(%rdx,%rax,2), %r11d
	movd	%r11d, %xmm4
	pxor	%xmm0, %xmm4
	pmovzxbw	%xmm4, %xmm4
	psllw	$4, %xmm4
	pextrw	$0, %xmm4, %r11d
	movdqa	%xmm11, %xmm8
	movdqu	(%r11,%r9), %xmm11
	movdqu	(%r11,%r10), %xmm10
	pextrw	$1, %xmm4, %r11d
	movdqu	(%r11,%r9), %xmm5
	movdqu	(%r11,%r10), %xmm9
	movdqa	%xmm10, %xmm4
	pshufb	16(%rsp), %xmm4
	movdqa	%xmm12, %xmm2
	movdqa	%xmm5, %xmm12
	pshufb	%xmm7, %xmm12
	pxor	%xmm4, %xmm12
	movdqa	%xmm14, %xmm4
	palignr	$2, %xmm3, %xmm4
	palignr	$2, %xmm1, %xmm3
	palignr	$2, %xmm0, %xmm1
	movdqa	%xmm11, %xmm0
	pshufb	176(%rsp), %xmm0
	pxor	%xmm0, %xmm1
	movdqa	%xmm9, %xmm7
	pshufb	64(%rsp), %xmm7
	pxor	%xmm12, %xmm1
	movdqa	%xmm2, %xmm12
	movdqa	%xmm1, %xmm0
	pxor	%xmm7, %xmm0
	movdqa	%xmm10, %xmm1
	pshufb	192(%rsp), %xmm1
	movdqa	%xmm5, %xmm7
	pshufb	%xmm13, %xmm7
	pxor	%xmm1, %xmm7
	movdqa	%xmm11, %xmm1
	pshufb	160(%rsp), %xmm1
	pxor	%xmm3, %xmm1
	movdqa	%xmm9, %xmm3
	pshufb	%xmm2, %xmm3
	pxor	%xmm7, %xmm1
	pxor	%xmm3, %xmm1
	movdqa	%xmm10, %xmm3
	pshufb	80(%rsp), %xmm3
	movdqa	%xmm5, %xmm7
	pshufb	(%rsp), %xmm7
	pxor	%xmm3, %xmm7
	movdqa	%xmm11, %xmm3
	pshufb	144(%rsp), %xmm3
	pxor	%xmm3, %xmm4
	pxor	%xmm7, %xmm4
	movdqa	%xmm9, %xmm7
	pshufb	%xmm6, %xmm7
	movdqa	%xmm4, %xmm3
	pxor	%xmm7, %xmm3
	movdqa	48(%rsp), %xmm7
	pshufb	96(%rsp), %xmm10
	pshufb	32(%rsp), %xmm5
	pxor	%xmm10, %xmm5
	pshufb	128(%rsp), %xmm11
	psrldq	$2, %xmm14
	pxor	%xmm11, %xmm14
	movdqa	%xmm8, %xmm11
	pxor	%xmm5, %xmm14
	pshufb	%xmm8, %xmm9
	pxor	%xmm9, %xmm14
	incq	%rax
	cmpq	%rax, %r8
	jne	.LBB9_20
	jmp	.LBB9_36
.LBB9_21:
	movzbl	(%rdx), %r11d
	shlq	$4, %r9
	leaq	(%r9,%r9,4), %r10
	leaq	.Lstatic.46(%rip), %r9
	shll	$4, %r11d
	leaq	.Lstatic.44(%rip), %rsi
	movdqu	(%r11,%rsi), %xmm4
	leaq	.Lstatic.45(%rip), %rsi
	movdqu	(%r11,%rsi), %xmm0
	movdqu	(%r9,%r10), %xmm2
	movdqa	.LCPI9_0(%rip), %xmm5
	movdqa	%xmm2, %xmm1
	pand	%xmm5, %xmm1
	pshufb	%xmm1, %xmm4
	movdqa	%xmm2, %xmm3
	psrlw	$4, %xmm3
	pand	%xmm5, %xmm3
	pshufb	%xmm3, %xmm0
	pxor	%xmm4, %xmm0
.LBB9_22:
	shrq	%r8
	pxor	%xmm15, %xmm15
	je	.LBB9_25
	leaq	.Lstatic.46(%rip), %r11
	pextrb	$0, %xmm2, %esi
	shll	$4, %esi
	leaq	.Lstatic.44(%rip), %r9
	movdqu	(%rsi,%r9), %xmm2
	pshufb	%xmm1, %xmm2
	movdqu	1(%r10,%r11), %xmm5
	pxor	%xmm2, %xmm5
	leaq	.Lstatic.45(%rip), %r10
	movdqu	(%rsi,%r10), %xmm4
	pshufb	%xmm3, %xmm4
	pxor	%xmm5, %xmm4
	addq	%rax, %rdx
	movdqa	.LCPI9_0(%rip), %xmm5
	movdqa	%xmm4, %xmm2
	pand	%xmm5, %xmm2
	psrlw	$4, %xmm4
	pand	%xmm5, %xmm4
	xorl	%eax, %eax
	.p2align	4
.LBB9_24:
	movzwl	(%rdx,%rax,2), %r11d
	movd	%r11d, %xmm5
	pxor	%xmm0, %xmm5
	pmovzxbw	%xmm5, %xmm5
	psllw	$4, %xmm5
	pextrw	$0, %xmm5, %r11d
	movdqu	(%r11,%r9), %xmm6
	pshufb	%xmm2, %xmm6
	movdqu	(%r11,%r10), %xmm7
	pextrw	$1, %xmm5, %r11d
	pshufb	%xmm4, %xmm7
	movdqu	(%r11,%r9), %xmm5
	movdqu	(%r11,%r10), %xmm8
	pshufb	%xmm1, %xmm5
	pxor	%xmm7, %xmm5
	pshufb	%xmm3, %xmm8
	psrldq	$2, %xmm0
	pxor	%xmm6, %xmm0
	pxor	%xmm5, %xmm0
	pxor	%xmm8, %xmm0
	incq	%rax
	cmpq	%rax, %r8
	jne	.LBB9_24
.LBB9_25:
	pxor	%xmm14, %xmm14
	pxor	%xmm3, %xmm3
	pxor	%xmm1, %xmm1
	jmp	.LBB9_36
.LBB9_26:
	movzbl	(%rdx), %r11d
	shlq	$4, %r9
	leaq	(%r9,%r9,4), %r10
	leaq	.Lstatic.46(%rip), %r9
	shll	$4, %r11d
	leaq	.Lstatic.44(%rip), %rsi
	movdqu	(%r11,%rsi), %xmm2
	leaq	.Lstatic.45(%rip), %rsi
	movdqu	(%r11,%rsi), %xmm1
	movdqu	(%r9,%r10), %xmm7
	movdqu	16(%r9,%r10), %xmm3
	movdqa	.LCPI9_0(%rip), %xmm8
	movdqa	%xmm7, %xmm4
	pand	%xmm8, %xmm4
	movdqa	%xmm2, %xmm6
	pshufb	%xmm4, %xmm6
	movdqa	%xmm7, %xmm5
	psrlw	$4, %xmm5
	pand	%xmm8, %xmm5
	movdqa	%xmm1, %xmm0
	pshufb	%xmm5, %xmm0
	pxor	%xmm6, %xmm0
	movdqa	%xmm3, %xmm13
	pand	%xmm8, %xmm13
	pshufb	%xmm13, %xmm2
	psrlw	$4, %xmm3
	pand	%xmm8, %xmm3
	pshufb	%xmm3, %xmm1
	pxor	%xmm2, %xmm1
.LBB9_27:
	shrq	%r8
	pxor	%xmm15, %xmm15
	je	.LBB9_30
	leaq	.Lstatic.46(%rip), %r11
	pextrb	$0, %xmm7, %esi
	shll	$4, %esi
	leaq	.Lstatic.44(%rip), %r9
	movdqu	(%rsi,%r9), %xmm2
	movdqa	%xmm2, %xmm7
	pshufb	%xmm13, %xmm7
	movdqu	1(%r10,%r11), %xmm9
	movdqu	17(%r10,%r11), %xmm10
	pxor	%xmm7, %xmm10
	leaq	.Lstatic.45(%rip), %r10
	movdqu	(%rsi,%r10), %xmm7
	movdqa	%xmm7, %xmm8
	pshufb	%xmm3, %xmm8
	pxor	%xmm10, %xmm8
	pshufb	%xmm4, %xmm2
	pxor	%xmm9, %xmm2
	pshufb	%xmm5, %xmm7
	pxor	%xmm2, %xmm7
	addq	%rax, %rdx
	movdqa	.LCPI9_0(%rip), %xmm2
	movdqa	%xmm7, %xmm6
	pand	%xmm2, %xmm6
	movdqa	%xmm6, (%rsp)
	psrlw	$4, %xmm7
	pand	%xmm2, %xmm7
	movdqa	%xmm8, %xmm10
	pand	%xmm2, %xmm10
	psrlw	$4, %xmm8
	pand	%xmm2, %xmm8
	xorl	%eax, %eax
	movdqa	%xmm5, %xmm9
	.p2align	4
.LBB9_29:
	movzwl	(%rdx,%rax,2), %r11d
	movd	%r11d, %xmm2
	pxor	%xmm0, %xmm2
	pmovzxbw	%xmm2, %xmm11
	psllw	$4, %xmm11
	pextrw	$0, %xmm11, %r11d
	movdqu	(%r11,%r9), %xmm2
	movdqu	(%r11,%r10), %xmm12
	pextrw	$1, %xmm11, %r11d
	movdqu	(%r11,%r9), %xmm11
	movdqa	%xmm3, %xmm5
	movdqa	%xmm13, %xmm3
	movdqa	%xmm12, %xmm13
	pshufb	%xmm7, %xmm13
	movdqa	%xmm11, %xmm14
	pshufb	%xmm4, %xmm14
	pxor	%xmm13, %xmm14
	movdqa	%xmm1, %xmm13
	palignr	$2, %xmm0, %xmm13
	movdqa	%xmm2, %xmm0
	pshufb	(%rsp), %xmm0
	pxor	%xmm0, %xmm13
	movdqa	%xmm4, %xmm6
	movdqu	(%r11,%r10), %xmm4
	pxor	%xmm14, %xmm13
	movdqa	%xmm4, %xmm14
	pshufb	%xmm9, %xmm14
	movdqa	%xmm13, %xmm0
	movdqa	%xmm3, %xmm13
	movdqa	%xmm5, %xmm3
	pxor	%xmm14, %xmm0
	pshufb	%xmm8, %xmm12
	pshufb	%xmm13, %xmm11
	pxor	%xmm12, %xmm11
	pshufb	%xmm10, %xmm2
	psrldq	$2, %xmm1
	pxor	%xmm2, %xmm1
	pxor	%xmm11, %xmm1
	pshufb	%xmm5, %xmm4
	pxor	%xmm4, %xmm1
	movdqa	%xmm6, %xmm4
	incq	%rax
	cmpq	%rax, %r8
	jne	.LBB9_29
.LBB9_30:
	pxor	%xmm14, %xmm14
	pxor	%xmm3, %xmm3
	jmp	.LBB9_36
.LBB9_31:
	movzbl	(%rdx), %r10d
	shlq	$4, %r9
	leaq	(%r9,%r9,4), %r11
	leaq	.Lstatic.46(%rip), %r9
	shll	$4, %r10d
	leaq	.Lstatic.44(%rip), %rsi
	movdqu	(%r10,%rsi), %xmm7
	leaq	.Lstatic.45(%rip), %rsi
	movdqu	(%r10,%rsi), %xmm15
	movdqu	(%r9,%r11), %xmm12
	movdqu	16(%r9,%r11), %xmm9
	movdqu	32(%r9,%r11), %xmm10
	movdqu	48(%r9,%r11), %xmm13
	movdqa	.LCPI9_0(%rip), %xmm8
	movdqa	%xmm12, %xmm0
	pand	%xmm8, %xmm0
	movdqa	%xmm7, %xmm1
	movdqa	%xmm0, 208(%rsp)
	pshufb	%xmm0, %xmm1
	movdqa	%xmm12, %xmm2
	psrlw	$4, %xmm2
	pand	%xmm8, %xmm2
	movdqa	%xmm15, %xmm0
	movdqa	%xmm2, 224(%rsp)
	pshufb	%xmm2, %xmm0
	pxor	%xmm1, %xmm0
	movdqa	%xmm9, %xmm4
	pand	%xmm8, %xmm4
	movdqa	%xmm7, %xmm2
	pshufb	%xmm4, %xmm2
	psrlw	$4, %xmm9
	pand	%xmm8, %xmm9
	movdqa	%xmm15, %xmm1
	pshufb	%xmm9, %xmm1
	pxor	%xmm2, %xmm1
	movdqa	%xmm10, %xmm3
	pand	%xmm8, %xmm3
	movdqa	%xmm7, %xmm2
	movdqa	%xmm3, (%rsp)
	pshufb	%xmm3, %xmm2
	psrlw	$4, %xmm10
	pand	%xmm8, %xmm10
	movdqa	%xmm15, %xmm3
	pshufb	%xmm10, %xmm3
	pxor	%xmm2, %xmm3
	movdqa	%xmm13, %xmm11
	pand	%xmm8, %xmm11
	movdqa	%xmm7, %xmm2
	pshufb	%xmm11, %xmm2
	psrlw	$4, %xmm13
	pand	%xmm8, %xmm13
	movdqa	%xmm15, %xmm14
	pshufb	%xmm13, %xmm14
	pxor	%xmm2, %xmm14
	movdqu	64(%r9,%r11), %xmm5
	movdqa	%xmm5, %xmm2
	pand	%xmm8, %xmm2
	movdqa	%xmm5, %xmm6
	psrlw	$4, %xmm6
	pand	%xmm8, %xmm6
	movdqa	%xmm2, %xmm8
	pshufb	%xmm2, %xmm7
	pshufb	%xmm6, %xmm15
	pxor	%xmm7, %xmm15
	movdqa	%xmm6, %xmm7
.LBB9_32:
	shrq	%r8
	je	.LBB9_36
	leaq	.Lstatic.46(%rip), %rsi
	psrldq	$1, %xmm5
	pextrb	$0, %xmm12, %edi
	shll	$4, %edi
	leaq	.Lstatic.44(%rip), %r9
	movdqu	(%rdi,%r9), %xmm2
	movdqa	%xmm4, %xmm12
	movdqa	%xmm2, %xmm4
	pshufb	%xmm8, %xmm4
	pxor	%xmm5, %xmm4
	leaq	.Lstatic.45(%rip), %r10
	movdqa	%xmm10, %xmm6
	movdqa	%xmm10, 240(%rsp)
	movdqu	(%rdi,%r10), %xmm10
	movdqa	%xmm10, %xmm5
	pshufb	%xmm7, %xmm5
	pxor	%xmm4, %xmm5
	movdqa	%xmm2, %xmm4
	pshufb	%xmm11, %xmm4
	movdqa	%xmm9, 48(%rsp)
	movups	1(%r11,%rsi), %xmm9
	movaps	%xmm9, 32(%rsp)
	movdqu	17(%r11,%rsi), %xmm9
	movdqa	%xmm11, 96(%rsp)
	movdqa	%xmm7, 80(%rsp)
	movdqu	33(%r11,%rsi), %xmm7
	movdqa	%xmm8, 192(%rsp)
	movdqu	49(%r11,%rsi), %xmm8
	pxor	%xmm4, %xmm8
	movdqa	%xmm10, %xmm11
	pshufb	%xmm13, %xmm11
	pxor	%xmm8, %xmm11
	movdqa	%xmm2, %xmm4
	pshufb	(%rsp), %xmm4
	pxor	%xmm7, %xmm4
	movdqa	%xmm10, %xmm7
	pshufb	%xmm6, %xmm7
	pxor	%xmm4, %xmm7
	movdqa	%xmm2, %xmm4
	movdqa	%xmm12, 64(%rsp)
	pshufb	%xmm12, %xmm4
	pxor	%xmm9, %xmm4
	movdqa	%xmm10, %xmm6
	pshufb	48(%rsp), %xmm6
	pxor	%xmm4, %xmm6
	movdqa	208(%rsp), %xmm9
	pshufb	%xmm9, %xmm2
	pxor	32(%rsp), %xmm2
	movdqa	224(%rsp), %xmm8
	pshufb	%xmm8, %xmm10
	pxor	%xmm2, %xmm10
	movdqa	.LCPI9_0(%rip), %xmm2
	movdqa	%xmm10, %xmm4
	pand	%xmm2, %xmm4
	movdqa	%xmm4, 128(%rsp)
	psrlw	$4, %xmm10
	pand	%xmm2, %xmm10
	movdqa	%xmm10, 32(%rsp)
	movdqa	%xmm6, %xmm4
	pand	%xmm2, %xmm4
	movdqa	%xmm4, 112(%rsp)
	psrlw	$4, %xmm6
	pand	%xmm2, %xmm6
	movdqa	%xmm6, 144(%rsp)
	movdqa	%xmm7, %xmm4
	pand	%xmm2, %xmm4
	movdqa	%xmm4, 288(%rsp)
	psrlw	$4, %xmm7
	pand	%xmm2, %xmm7
	movdqa	%xmm7, 160(%rsp)
	movdqa	%xmm11, %xmm4
	pand	%xmm2, %xmm4
	movdqa	%xmm4, 272(%rsp)
	psrlw	$4, %xmm11
	pand	%xmm2, %xmm11
	movdqa	%xmm11, 176(%rsp)
	movdqa	%xmm5, %xmm4
	pand	%xmm2, %xmm4
	movdqa	%xmm4, 256(%rsp)
	psrlw	$4, %xmm5
	pand	%xmm2, %xmm5
	movdqa	%xmm5, 16(%rsp)
	addq	%rax, %rdx
	xorl	%eax, %eax
	movdqa	240(%rsp), %xmm11
	.p2align	4
.LBB9_34:
	movzwl	(%rdx,%rax,2), %r11d
	movd	%r11d, %xmm2
	pxor	%xmm0, %xmm2
	pmovzxbw	%xmm2, %xmm2
	psllw	$4, %xmm2
	pextrw	$0, %xmm2, %r11d
	movdqu	(%r11,%r9), %xmm4
	movdqu	(%r11,%r10), %xmm6
	pextrw	$1, %xmm2, %r11d
	movdqu	(%r11,%r9), %xmm7
	movdqu	(%r11,%r10), %xmm10
	movdqa	%xmm6, %xmm2
	pshufb	32(%rsp), %xmm2
	movdqa	%xmm13, %xmm12
	movdqa	%xmm7, %xmm13
	pshufb	%xmm9, %xmm13
	pxor	%xmm2, %xmm13
	movdqa	%xmm15, %xmm2
	palignr	$2, %xmm14, %xmm2
	palignr	$2, %xmm3, %xmm14
	palignr	$2, %xmm1, %xmm3
	palignr	$2, %xmm0, %xmm1
	movdqa	%xmm4, %xmm0
	pshufb	128(%rsp), %xmm0
	pxor	%xmm0, %xmm1
	movdqa	%xmm10, %xmm5
	pshufb	%xmm8, %xmm5
	pxor	%xmm13, %xmm1
	movdqa	%xmm1, %xmm0
	pxor	%xmm5, %xmm0
	movdqa	%xmm6, %xmm1
	pshufb	144(%rsp), %xmm1
	movdqa	%xmm7, %xmm5
	pshufb	64(%rsp), %xmm5
	pxor	%xmm1, %xmm5
	movdqa	%xmm4, %xmm1
	pshufb	112(%rsp), %xmm1
	pxor	%xmm3, %xmm1
	movdqa	%xmm10, %xmm3
	pshufb	48(%rsp), %xmm3
	pxor	%xmm5, %xmm1
	pxor	%xmm3, %xmm1
	movdqa	%xmm6, %xmm3
	pshufb	160(%rsp), %xmm3
	movdqa	%xmm7, %xmm5
	pshufb	(%rsp), %xmm5
	pxor	%xmm3, %xmm5
	movdqa	%xmm4, %xmm3
	pshufb	288(%rsp), %xmm3
	pxor	%xmm3, %xmm14
	movdqa	%xmm10, %xmm13
	pshufb	%xmm11, %xmm13
	pxor	%xmm5, %xmm14
	movdqa	%xmm14, %xmm3
	pxor	%xmm13, %xmm3
	movdqa	%xmm6, %xmm5
	pshufb	176(%rsp), %xmm5
	movdqa	%xmm7, %xmm13
	pshufb	96(%rsp), %xmm13
	pxor	%xmm5, %xmm13
	movdqa	%xmm4, %xmm14
	pshufb	272(%rsp), %xmm14
	pxor	%xmm2, %xmm14
	pxor	%xmm13, %xmm14
	movdqa	%xmm12, %xmm13
	movdqa	%xmm10, %xmm2
	pshufb	%xmm12, %xmm2
	pxor	%xmm2, %xmm14
	pshufb	16(%rsp), %xmm6
	pshufb	192(%rsp), %xmm7
	pxor	%xmm6, %xmm7
	pshufb	256(%rsp), %xmm4
	psrldq	$2, %xmm15
	pxor	%xmm4, %xmm15
	pxor	%xmm7, %xmm15
	pshufb	80(%rsp), %xmm10
	pxor	%xmm10, %xmm15
	incq	%rax
	cmpq	%rax, %r8
	jne	.LBB9_34
.LBB9_36:
	movdqu	%xmm0, (%rcx)
	movdqu	%xmm1, 16(%rcx)
	movdqu	%xmm3, 32(%rcx)
	movdqu	%xmm14, 48(%rcx)
	movdqu	%xmm15, 64(%rcx)
	pxor	%xmm0, %xmm0
	movdqu	%xmm0, 80(%rcx)
	movaps	304(%rsp), %xmm6
	movaps	320(%rsp), %xmm7
	movaps	336(%rsp), %xmm8
	movaps	352(%rsp), %xmm9
	movaps	368(%rsp), %xmm10
	movaps	384(%rsp), %xmm11
	movaps	400(%rsp), %xmm12
	movaps	416(%rsp), %xmm13
	movaps	432(%rsp), %xmm14
	movaps	448(%rsp), %xmm15
	addq	$472, %rsp
	popq	%rdi
	popq	%rsi
	retq
	.section	.rdata,"dr"
	.p2align	2, 0x0
.LJTI9_0:
	.long	.LBB9_2-.LJTI9_0
	.long	.LBB9_8-.LJTI9_0
	.long	.LBB9_4-.LJTI9_0
	.long	.LBB9_6-.LJTI9_0
	.text
	.seh_endproc

	.def	"dm_code::correction::mend::<#9f76af21849881bb>";
	.scl	3;
	.type	32;
	.endef
	.section	.rdata,"dr"
	.p2align	4, 0x0
.LCPI10_0:
	.zero	16,15
.LCPI10_1:
	.byte	0
	.byte	0
	.byte	0
	.byte	0
	.byte	0
	.byte	0
	.byte	0
	.byte	0
	.byte	1
	.byte	0
	.byte	0
	.byte	0
	.byte	0
	.byte	0
	.byte	0
	.byte	0
.LCPI10_2:
	.quad	2
	.quad	2
.LCPI10_3:
	.quad	-9223372036854775808
	.quad	-9223372036854775808
.LCPI10_4:
	.byte	0
	.byte	1
	.byte	0
	.byte	0
	.byte	0
	.byte	0
	.byte	0
	.byte	0
	.byte	0
	.byte	0
	.byte	0
	.byte	0
	.byte	0
	.byte	0
	.byte	0
	.byte	0
.LCPI10_5:
	.long	1
	.long	0
	.long	0
	.long	0
.LCPI10_6:
	.byte	15
	.byte	15
	.byte	0
	.byte	1
	.byte	2
	.byte	3
	.byte	4
	.byte	5
	.byte	6
	.byte	7
	.byte	8
	.byte	9
	.byte	10
	.byte	11
	.byte	12
	.byte	13
.LCPI10_7:
	.byte	15
	.byte	15
	.byte	15
	.byte	15
	.byte	0
	.byte	1
	.byte	2
	.byte	3
	.byte	4
	.byte	5
	.byte	6
	.byte	7
	.byte	8
	.byte	9
	.byte	10
	.byte	11
.LCPI10_8:
	.byte	15
	.byte	15
	.byte	15
	.byte	15
	.byte	15
	.byte	15
	.byte	15
	.byte	15
	.byte	0
	.byte	1
	.byte	2
	.byte	3
	.byte	4
	.byte	5
	.byte	6
	.byte	7
.LCPI10_9:
	.zero	16,1
.LCPI10_10:
	.quad	4294967297
	.quad	4294967297
	.text
	.p2align	4
"dm_code::correction::mend::<#9f76af21849881bb>":
.seh_proc "dm_code::correction::mend::<#9f76af21849881bb>"
	pushq	%r15
	.seh_pushreg %r15
	pushq	%r14
	.seh_pushreg %r14
	pushq	%r13
	.seh_pushreg %r13
	pushq	%r12
	.seh_pushreg %r12
	pushq	%rsi
	.seh_pushreg %rsi
	pushq	%rdi
	.seh_pushreg %rdi
	pushq	%rbp
	.seh_pushreg %rbp
	pushq	%rbx
	.seh_pushreg %rbx
	subq	$1640, %rsp
	.seh_stackalloc 1640
	movdqa	%xmm7, 1616(%rsp)
	.seh_savexmm %xmm7, 1616
	movdqa	%xmm6, 1600(%rsp)
	.seh_savexmm %xmm6, 1600
	.seh_endprologue
	movq	%r8, %rsi
	movq	%rdx, %r15
	movq	%rcx, %rdi
	movq	1744(%rsp), %r8
	pxor	%xmm6, %xmm6
	movdqa	%xmm6, 720(%rsp)
	movdqa	%xmm6, 704(%rsp)
	movdqa	%xmm6, 688(%rsp)
	movdqa	%xmm6, 672(%rsp)
	movdqa	%xmm6, 656(%rsp)
	movdqa	%xmm6, 640(%rsp)
	movdqa	%xmm6, 944(%rsp)
	movdqa	%xmm6, 960(%rsp)
	movdqa	%xmm6, 976(%rsp)
	movdqa	%xmm6, 992(%rsp)
	movdqa	%xmm6, 1008(%rsp)
	movdqa	%xmm6, 1312(%rsp)
	movdqa	%xmm6, 1328(%rsp)
	movdqa	%xmm6, 1344(%rsp)
	movdqa	%xmm6, 1360(%rsp)
	movdqa	%xmm6, 1376(%rsp)
	movdqa	%xmm6, 1024(%rsp)
	movdqa	%xmm6, 1040(%rsp)
	movdqa	%xmm6, 1056(%rsp)
	movdqa	%xmm6, 1072(%rsp)
	movdqa	%xmm6, 1088(%rsp)
	movdqa	%xmm6, 1104(%rsp)
	movdqa	%xmm6, 1456(%rsp)
	movdqa	%xmm6, 1440(%rsp)
	movdqa	%xmm6, 1424(%rsp)
	movdqa	%xmm6, 1408(%rsp)
	movdqa	%xmm6, 1392(%rsp)
	leaq	1312(%rsp), %rcx
	movq	%r9, %rdx
	movq	%rsi, %r9
	callq	"dm_code::syndrome::syndromes_of_short"
	movaps	1376(%rsp), %xmm0
	movaps	%xmm0, 1536(%rsp)
	movaps	1312(%rsp), %xmm0
	movaps	1328(%rsp), %xmm1
	movaps	1344(%rsp), %xmm2
	movaps	1360(%rsp), %xmm3
	movaps	%xmm3, 1520(%rsp)
	movaps	%xmm2, 1504(%rsp)
	movaps	%xmm1, 1488(%rsp)
	movaps	%xmm0, 1472(%rsp)
	movq	1544(%rsp), %r14
	movq	%rsi, 88(%rsp)
	shrq	%rsi
	movq	%rsi, 96(%rsp)
	movdqa	%xmm6, 1200(%rsp)
	movdqa	%xmm6, 1184(%rsp)
	movdqa	%xmm6, 1168(%rsp)
	movdqa	%xmm6, 1152(%rsp)
	movdqa	%xmm6, 1136(%rsp)
	movdqa	%xmm6, 1120(%rsp)
	movdqa	%xmm6, 320(%rsp)
	movdqa	%xmm6, 336(%rsp)
	movdqa	%xmm6, 352(%rsp)
	movdqa	%xmm6, 1552(%rsp)
	movdqa	%xmm6, 1568(%rsp)
	movdqa	%xmm6, 1584(%rsp)
	movdqa	%xmm6, 1216(%rsp)
	movdqa	%xmm6, 1232(%rsp)
	movdqa	%xmm6, 1248(%rsp)
	movdqa	%xmm6, 1264(%rsp)
	movdqa	%xmm6, 1280(%rsp)
	movdqa	%xmm6, 1296(%rsp)
	movb	$1, 464(%rsp)
	movdqu	%xmm6, 465(%rsp)
	movdqu	%xmm6, 481(%rsp)
	movdqu	%xmm6, 497(%rsp)
	movdqu	%xmm6, 513(%rsp)
	movdqu	%xmm6, 529(%rsp)
	movdqu	%xmm6, 545(%rsp)
	movq	$0, 560(%rsp)
	movb	$1, 568(%rsp)
	movdqu	%xmm6, 569(%rsp)
	movdqu	%xmm6, 585(%rsp)
	movdqu	%xmm6, 600(%rsp)
	movb	$1, 616(%rsp)
	movl	$0, 617(%rsp)
	movl	$0, 620(%rsp)
	movq	$1, 624(%rsp)
	movdqa	%xmm6, 224(%rsp)
	movdqa	%xmm6, 208(%rsp)
	movdqa	%xmm6, 192(%rsp)
	movdqa	%xmm6, 176(%rsp)
	movdqa	%xmm6, 160(%rsp)
	movdqa	%xmm6, 144(%rsp)
	movdqa	%xmm6, 128(%rsp)
	movdqa	%xmm6, 112(%rsp)
	leaq	112(%rsp), %rcx
	leaq	1472(%rsp), %rbx
	movq	%rbx, %rdx
	movq	%r14, %r8
	callq	memcpy
	movdqa	%xmm6, 240(%rsp)
	movdqa	%xmm6, 256(%rsp)
	movdqa	%xmm6, 272(%rsp)
	movdqa	%xmm6, 288(%rsp)
	movdqa	%xmm6, 304(%rsp)
	leaq	240(%rsp), %rcx
	movq	%rbx, %rdx
	movq	%r14, %r8
	callq	memcpy
	movaps	112(%rsp), %xmm0
	movaps	128(%rsp), %xmm1
	movaps	144(%rsp), %xmm2
	movaps	160(%rsp), %xmm3
	movaps	%xmm0, 736(%rsp)
	movaps	%xmm1, 752(%rsp)
	movaps	%xmm2, 768(%rsp)
	movaps	%xmm3, 784(%rsp)
	movaps	176(%rsp), %xmm0
	movaps	%xmm0, 800(%rsp)
	movaps	192(%rsp), %xmm0
	movaps	%xmm0, 816(%rsp)
	movaps	208(%rsp), %xmm0
	movaps	%xmm0, 832(%rsp)
	movaps	224(%rsp), %xmm0
	movaps	%xmm0, 848(%rsp)
	movaps	240(%rsp), %xmm0
	movdqa	256(%rsp), %xmm1
	movdqa	272(%rsp), %xmm2
	movdqa	288(%rsp), %xmm3
	movaps	%xmm0, 864(%rsp)
	movdqa	%xmm1, 880(%rsp)
	movdqa	%xmm2, 896(%rsp)
	movdqa	%xmm3, 912(%rsp)
	movdqa	304(%rsp), %xmm0
	movdqa	%xmm0, 928(%rsp)
	testq	%r14, %r14
	movq	%r14, 40(%rsp)
	je	.LBB10_21
	movq	%r14, %r10
	movq	%rdi, 72(%rsp)
	movq	%r15, 48(%rsp)
	leaq	864(%rsp), %r11
	xorl	%r15d, %r15d
	testb	$15, %r10b
	setne	%r15b
	shll	$4, %r15d
	addq	%r14, %r15
	shrq	$4, %r15
	movl	$80, %eax
	subq	%r14, %rax
	xorl	%r13d, %r13d
	cmpq	$80, %r14
	cmovaeq	%r13, %rax
	movq	%rax, 104(%rsp)
	leaq	(%rsp,%r14), %rax
	addq	$112, %rax
	movq	%rax, 80(%rsp)
	movq	%r15, %rbp
	andq	$-2, %rbp
	movl	$1, %ebx
	xorl	%esi, %esi
	jmp	.LBB10_4
	.p2align	4
.LBB10_2:
	movq	%r14, 560(%rsp)
	movdqa	112(%rsp), %xmm0
	movdqa	128(%rsp), %xmm1
	movdqa	144(%rsp), %xmm2
	leaq	568(%rsp), %rax
	movdqu	%xmm2, 32(%rax)
	movdqu	%xmm1, 16(%rax)
	movdqu	%xmm0, (%rax)
	leaq	.Lstatic.48(%rip), %rax
	movzbl	(%rdi,%rax), %eax
	xorl	$255, %eax
	leal	-255(%rax), %ecx
	cmpq	$1, %rdi
	cmovnel	%eax, %ecx
	movzwl	%cx, %eax
	leaq	.Lstatic.49(%rip), %rcx
	movzbl	(%rax,%rcx), %eax
	movb	%al, 616(%rsp)
	xorl	%ebx, %ebx
	movq	%r14, %r13
.LBB10_3:
	incq	%rbx
	movq	%rbx, 624(%rsp)
	cmpq	%r10, %rsi
	je	.LBB10_18
.LBB10_4:
	movzbl	736(%rsp,%rsi), %r8d
	incq	%rsi
	testq	%r8, %r8
	je	.LBB10_3
	movq	%rsi, %rax
	subq	%r13, %rax
	cmpq	%r13, %rax
	movq	%r13, %r14
	cmovaq	%rax, %r14
	cmpq	%r14, 96(%rsp)
	jb	.LBB10_127
	movzbl	616(%rsp), %ecx
	movq	%r8, %rdi
	movl	%r8d, %edx
	shll	$4, %edx
	movl	%ecx, %r8d
	andl	$15, %r8d
	leaq	.Lstatic.44(%rip), %r9
	addq	%rdx, %r9
	shrl	$4, %ecx
	leaq	.Lstatic.45(%rip), %r12
	addq	%r12, %rdx
	movzbl	(%rcx,%rdx), %r12d
	xorb	(%r8,%r9), %r12b
	cmpq	%r13, %rax
	jbe	.LBB10_8
	movq	80(%rsp), %rcx
	xorl	%edx, %edx
	movq	104(%rsp), %r8
	movq	%r11, %r13
	callq	memset
	leaq	112(%rsp), %rcx
	leaq	736(%rsp), %rdx
	movq	40(%rsp), %r8
	callq	memcpy
	movq	%r13, %r11
	movq	40(%rsp), %r10
	movups	112(%rsp), %xmm0
	movups	128(%rsp), %xmm1
	movdqu	144(%rsp), %xmm2
	movdqu	160(%rsp), %xmm3
	movaps	%xmm0, 240(%rsp)
	movaps	%xmm1, 256(%rsp)
	movdqa	%xmm2, 272(%rsp)
	movdqa	%xmm3, 288(%rsp)
	movups	176(%rsp), %xmm0
	movaps	%xmm0, 304(%rsp)
	jmp	.LBB10_9
	.p2align	4
.LBB10_8:
	movups	64(%r11), %xmm0
	movaps	%xmm0, 304(%rsp)
	movups	(%r11), %xmm0
	movups	16(%r11), %xmm1
	movdqu	32(%r11), %xmm2
	movdqu	48(%r11), %xmm3
	movdqa	%xmm3, 288(%rsp)
	movdqa	%xmm2, 272(%rsp)
	movaps	%xmm1, 256(%rsp)
	movaps	%xmm0, 240(%rsp)
.LBB10_9:
	movzbl	%r12b, %eax
	shll	$4, %eax
	leaq	.Lstatic.44(%rip), %rcx
	movdqu	(%rax,%rcx), %xmm1
	leaq	.Lstatic.45(%rip), %rcx
	movdqu	(%rax,%rcx), %xmm0
	testq	%r15, %r15
	je	.LBB10_16
	cmpq	$1, %r15
	jne	.LBB10_12
	xorl	%eax, %eax
	jmp	.LBB10_15
	.p2align	4
.LBB10_12:
	leaq	736(%rsp), %rcx
	xorl	%eax, %eax
	.p2align	4
.LBB10_13:
	movdqu	128(%rcx), %xmm2
	movdqa	.LCPI10_0(%rip), %xmm3
	movdqa	%xmm2, %xmm4
	pand	%xmm3, %xmm4
	movdqa	%xmm1, %xmm5
	pshufb	%xmm4, %xmm5
	psrlw	$4, %xmm2
	pand	%xmm3, %xmm2
	movdqa	%xmm0, %xmm4
	pshufb	%xmm2, %xmm4
	movdqu	(%rcx,%rbx), %xmm2
	pxor	%xmm5, %xmm2
	pxor	%xmm4, %xmm2
	movdqu	16(%rcx,%rbx), %xmm4
	movdqu	%xmm2, (%rcx,%rbx)
	movdqu	144(%rcx), %xmm2
	movdqa	%xmm2, %xmm5
	pand	%xmm3, %xmm5
	movdqa	%xmm1, %xmm6
	pshufb	%xmm5, %xmm6
	pxor	%xmm4, %xmm6
	psrlw	$4, %xmm2
	pand	%xmm3, %xmm2
	movdqa	%xmm0, %xmm3
	pshufb	%xmm2, %xmm3
	pxor	%xmm6, %xmm3
	movdqu	%xmm3, 16(%rcx,%rbx)
	addq	$2, %rax
	addq	$32, %rcx
	cmpq	%rax, %rbp
	jne	.LBB10_13
	testb	$1, %r15b
	je	.LBB10_16
.LBB10_15:
	leaq	(%rsp,%rbx), %rcx
	addq	$736, %rcx
	shlq	$4, %rax
	movdqu	864(%rsp,%rax), %xmm2
	movdqa	.LCPI10_0(%rip), %xmm3
	movdqa	%xmm2, %xmm4
	pand	%xmm3, %xmm4
	movdqa	%xmm1, %xmm5
	pshufb	%xmm4, %xmm5
	psrlw	$4, %xmm2
	pand	%xmm3, %xmm2
	movdqa	%xmm0, %xmm3
	pshufb	%xmm2, %xmm3
	movdqu	(%rcx,%rax), %xmm2
	pxor	%xmm5, %xmm2
	pxor	%xmm3, %xmm2
	movdqu	%xmm2, (%rcx,%rax)
.LBB10_16:
	movaps	304(%rsp), %xmm2
	movups	%xmm2, 64(%r11)
	movaps	240(%rsp), %xmm2
	movaps	256(%rsp), %xmm3
	movaps	272(%rsp), %xmm4
	movaps	288(%rsp), %xmm5
	movups	%xmm5, 48(%r11)
	movups	%xmm4, 32(%r11)
	movups	%xmm3, 16(%r11)
	movups	%xmm2, (%r11)
	movups	464(%rsp), %xmm2
	movups	480(%rsp), %xmm3
	movups	496(%rsp), %xmm4
	movdqu	568(%rsp), %xmm5
	movaps	%xmm4, 144(%rsp)
	movaps	%xmm3, 128(%rsp)
	movaps	%xmm2, 112(%rsp)
	movdqa	.LCPI10_0(%rip), %xmm2
	movdqa	%xmm5, %xmm3
	pand	%xmm2, %xmm3
	movdqa	%xmm1, %xmm4
	pshufb	%xmm3, %xmm4
	psrlw	$4, %xmm5
	pand	%xmm2, %xmm5
	movdqa	%xmm0, %xmm3
	pshufb	%xmm5, %xmm3
	movdqu	464(%rsp,%rbx), %xmm5
	pxor	%xmm4, %xmm5
	pxor	%xmm3, %xmm5
	movdqu	%xmm5, 464(%rsp,%rbx)
	movdqu	584(%rsp), %xmm3
	movdqa	%xmm3, %xmm4
	pand	%xmm2, %xmm4
	movdqa	%xmm1, %xmm5
	pshufb	%xmm4, %xmm5
	psrlw	$4, %xmm3
	pand	%xmm2, %xmm3
	movdqa	%xmm0, %xmm4
	pshufb	%xmm3, %xmm4
	movdqu	480(%rsp,%rbx), %xmm3
	pxor	%xmm5, %xmm3
	pxor	%xmm4, %xmm3
	movdqu	%xmm3, 480(%rsp,%rbx)
	movdqu	600(%rsp), %xmm3
	movdqa	%xmm3, %xmm4
	pand	%xmm2, %xmm4
	pshufb	%xmm4, %xmm1
	psrlw	$4, %xmm3
	pand	%xmm2, %xmm3
	pshufb	%xmm3, %xmm0
	movdqu	496(%rsp,%rbx), %xmm2
	pxor	%xmm1, %xmm2
	pxor	%xmm0, %xmm2
	movdqu	%xmm2, 496(%rsp,%rbx)
	movq	560(%rsp), %r13
	cmpq	%r14, %r13
	jb	.LBB10_2
	movq	624(%rsp), %rbx
	jmp	.LBB10_3
.LBB10_18:
	pxor	%xmm0, %xmm0
	movdqa	%xmm0, 128(%rsp)
	movdqa	%xmm0, 112(%rsp)
	movq	$0, 144(%rsp)
	cmpq	$34, %r13
	jbe	.LBB10_22
	movdqa	%xmm0, 352(%rsp)
	movdqa	%xmm0, 336(%rsp)
	movdqa	%xmm0, 320(%rsp)
	movdqa	%xmm0, 144(%rsp)
	movdqa	%xmm0, 128(%rsp)
	movdqa	%xmm0, 112(%rsp)
	cmpq	$-1, %r13
	movq	48(%rsp), %r15
	movq	72(%rsp), %rdi
	jne	.LBB10_25
	xorl	%r13d, %r13d
	jmp	.LBB10_24
.LBB10_21:
	movdqa	%xmm6, 128(%rsp)
	movdqa	%xmm6, 112(%rsp)
	movq	$0, 144(%rsp)
	xorl	%r13d, %r13d
	jmp	.LBB10_23
.LBB10_22:
	movq	48(%rsp), %r15
	movq	72(%rsp), %rdi
.LBB10_23:
	leaq	112(%rsp), %rcx
	leaq	736(%rsp), %rdx
	movq	%r13, %r8
	callq	memcpy
	movq	%r13, 152(%rsp)
	movdqa	112(%rsp), %xmm0
	movdqa	128(%rsp), %xmm1
	movdqa	%xmm0, 320(%rsp)
	movdqa	%xmm1, 336(%rsp)
	movq	144(%rsp), %rax
	movq	%rax, 352(%rsp)
	movq	152(%rsp), %rax
	movq	%rax, 360(%rsp)
	incq	%r13
	pxor	%xmm0, %xmm0
	movdqa	%xmm0, 128(%rsp)
	movdqa	%xmm0, 112(%rsp)
	movq	$0, 144(%rsp)
.LBB10_24:
	leaq	112(%rsp), %rcx
	leaq	464(%rsp), %rdx
	movq	%r13, %r8
	callq	memcpy
	movq	%r13, 152(%rsp)
	movq	40(%rsp), %r10
.LBB10_25:
	movq	1752(%rsp), %rsi
	movaps	112(%rsp), %xmm0
	movaps	128(%rsp), %xmm1
	movaps	144(%rsp), %xmm2
	movaps	%xmm2, 1584(%rsp)
	movaps	%xmm0, 1216(%rsp)
	movaps	%xmm1, 1232(%rsp)
	movaps	%xmm2, 1248(%rsp)
	movaps	320(%rsp), %xmm3
	movaps	336(%rsp), %xmm4
	movdqa	352(%rsp), %xmm5
	movaps	%xmm3, 1264(%rsp)
	movaps	%xmm0, 1120(%rsp)
	movaps	%xmm1, 1136(%rsp)
	movaps	%xmm2, 1152(%rsp)
	movaps	%xmm3, 1168(%rsp)
	movaps	%xmm4, 1184(%rsp)
	movdqa	%xmm5, 1200(%rsp)
	movaps	1200(%rsp), %xmm0
	movaps	%xmm0, 1104(%rsp)
	movaps	1184(%rsp), %xmm0
	movaps	%xmm0, 1088(%rsp)
	movaps	1120(%rsp), %xmm0
	movaps	1136(%rsp), %xmm1
	movaps	1152(%rsp), %xmm2
	movaps	1168(%rsp), %xmm3
	movaps	%xmm3, 1072(%rsp)
	movaps	%xmm2, 1056(%rsp)
	movaps	%xmm1, 1040(%rsp)
	movaps	%xmm0, 1024(%rsp)
	movaps	1104(%rsp), %xmm0
	movaps	%xmm0, 720(%rsp)
	movaps	1088(%rsp), %xmm0
	movaps	%xmm0, 704(%rsp)
	movaps	1024(%rsp), %xmm0
	movaps	1040(%rsp), %xmm1
	movaps	1056(%rsp), %xmm2
	movaps	1072(%rsp), %xmm3
	movaps	%xmm3, 688(%rsp)
	movaps	%xmm2, 672(%rsp)
	movaps	%xmm1, 656(%rsp)
	movaps	%xmm0, 640(%rsp)
	movq	256(%rsi), %r8
	testq	%r8, %r8
	je	.LBB10_27
	movq	%rsi, %rcx
	xorl	%edx, %edx
	callq	memset
	movq	40(%rsp), %r10
	movq	$0, 256(%rsi)
.LBB10_27:
	cmpq	$255, %r15
	movq	88(%rsp), %r13
	jbe	.LBB10_29
	xorl	%r15d, %r15d
	jmp	.LBB10_48
.LBB10_29:
	movq	%rsi, %rax
	subq	%rdi, %rax
	cmpq	%r15, %rax
	jae	.LBB10_32
	cmpq	$4, %r15
	setb	%cl
	cmpq	$32, %rax
	setb	%al
	orb	%cl, %al
	je	.LBB10_33
	xorl	%eax, %eax
	jmp	.LBB10_42
.LBB10_32:
	movq	%rsi, %rcx
	movq	%rdi, %rdx
	movq	%r15, %r8
	callq	memmove
	movq	40(%rsp), %r10
	jmp	.LBB10_47
.LBB10_33:
	cmpq	$16, %r15
	jae	.LBB10_35
	xorl	%eax, %eax
	jmp	.LBB10_39
.LBB10_35:
	movl	%r15d, %eax
	andl	$240, %eax
	xorl	%ecx, %ecx
	.p2align	4
.LBB10_36:
	movups	(%rdi,%rcx), %xmm0
	movups	%xmm0, (%rsi,%rcx)
	addq	$16, %rcx
	cmpq	%rcx, %rax
	jne	.LBB10_36
	cmpq	%rax, %r15
	je	.LBB10_47
	testb	$12, %r15b
	je	.LBB10_42
.LBB10_39:
	movq	%rax, %rcx
	movl	%r15d, %eax
	andl	$252, %eax
	.p2align	4
.LBB10_40:
	movl	(%rdi,%rcx), %edx
	movl	%edx, (%rsi,%rcx)
	addq	$4, %rcx
	cmpq	%rcx, %rax
	jne	.LBB10_40
	cmpq	%rax, %r15
	je	.LBB10_47
.LBB10_42:
	movq	%r15, %rdx
	movq	%rax, %rcx
	andq	$3, %rdx
	je	.LBB10_45
	movq	%rax, %rcx
	.p2align	4
.LBB10_44:
	movzbl	(%rdi,%rcx), %r8d
	movb	%r8b, (%rsi,%rcx)
	incq	%rcx
	decq	%rdx
	jne	.LBB10_44
.LBB10_45:
	subq	%r15, %rax
	cmpq	$-4, %rax
	ja	.LBB10_47
	.p2align	4
.LBB10_46:
	movzbl	(%rdi,%rcx), %eax
	movb	%al, (%rsi,%rcx)
	movzbl	1(%rdi,%rcx), %eax
	movb	%al, 1(%rsi,%rcx)
	movzbl	2(%rdi,%rcx), %eax
	movb	%al, 2(%rsi,%rcx)
	movzbl	3(%rdi,%rcx), %eax
	movb	%al, 3(%rsi,%rcx)
	addq	$4, %rcx
	cmpq	%rcx, %r15
	jne	.LBB10_46
.LBB10_47:
	movq	%r15, 256(%rsi)
.LBB10_48:
	pxor	%xmm6, %xmm6
	movdqa	%xmm6, 800(%rsp)
	movdqa	%xmm6, 784(%rsp)
	movdqa	%xmm6, 768(%rsp)
	movdqa	%xmm6, 752(%rsp)
	movdqa	%xmm6, 736(%rsp)
	leaq	736(%rsp), %rcx
	leaq	1472(%rsp), %rdx
	movq	%r10, %r8
	callq	memcpy
	movdqa	800(%rsp), %xmm0
	movdqa	%xmm0, 1456(%rsp)
	movapd	736(%rsp), %xmm1
	movapd	752(%rsp), %xmm2
	movdqa	768(%rsp), %xmm3
	movapd	784(%rsp), %xmm4
	movapd	%xmm4, 1440(%rsp)
	movdqa	%xmm3, 1424(%rsp)
	movapd	%xmm2, 1408(%rsp)
	movapd	%xmm1, 1392(%rsp)
	movapd	%xmm1, 944(%rsp)
	movapd	%xmm2, 960(%rsp)
	movdqa	%xmm3, 976(%rsp)
	movapd	%xmm4, 992(%rsp)
	movdqa	%xmm0, 1008(%rsp)
	movq	680(%rsp), %rcx
	testq	%rcx, %rcx
	je	.LBB10_51
	cmpq	$1, %rcx
	jne	.LBB10_52
	xorl	%eax, %eax
	xorl	%edx, %edx
	jmp	.LBB10_55
.LBB10_51:
	movdqa	%xmm6, 736(%rsp)
	movdqa	%xmm6, 752(%rsp)
	movdqa	%xmm6, 768(%rsp)
	xorl	%edi, %edi
	xorl	%eax, %eax
	jmp	.LBB10_75
.LBB10_52:
	movq	%rcx, %rdx
	andq	$-2, %rdx
	movdqa	.LCPI10_1(%rip), %xmm2
	pxor	%xmm3, %xmm3
	xorl	%eax, %eax
	xorpd	%xmm1, %xmm1
	.p2align	4
.LBB10_53:
	pmovzxbq	640(%rsp,%rax), %xmm0
	movapd	%xmm1, %xmm4
	pcmpeqd	%xmm5, %xmm5
	movdqa	%xmm2, %xmm1
	psubq	%xmm5, %xmm1
	pcmpeqq	%xmm3, %xmm0
	blendvpd	%xmm0, %xmm4, %xmm1
	addq	$2, %rax
	paddq	.LCPI10_2(%rip), %xmm2
	cmpq	%rax, %rdx
	jne	.LBB10_53
	pshufd	$238, %xmm1, %xmm2
	movdqa	.LCPI10_3(%rip), %xmm3
	movdqa	%xmm1, %xmm0
	pxor	%xmm3, %xmm0
	pxor	%xmm2, %xmm3
	pcmpgtq	%xmm3, %xmm0
	blendvpd	%xmm0, %xmm1, %xmm2
	movq	%xmm2, %rax
	cmpq	%rdx, %rcx
	je	.LBB10_57
.LBB10_55:
	negq	%rcx
	incq	%rdx
	.p2align	4
.LBB10_56:
	cmpb	$0, 639(%rsp,%rdx)
	cmovneq	%rdx, %rax
	leaq	(%rcx,%rdx), %r8
	incq	%r8
	incq	%rdx
	cmpq	$1, %r8
	jne	.LBB10_56
.LBB10_57:
	movq	728(%rsp), %rcx
	cmpq	$1, %rax
	movq	%rax, %rdi
	adcq	$-1, %rdi
	pxor	%xmm0, %xmm0
	movdqa	%xmm0, 736(%rsp)
	movdqa	%xmm0, 752(%rsp)
	movdqa	%xmm0, 768(%rsp)
	cmpq	$2, %rax
	jae	.LBB10_59
	xorl	%edi, %edi
	jmp	.LBB10_75
.LBB10_59:
	jne	.LBB10_61
	xorl	%edx, %edx
	jmp	.LBB10_71
.LBB10_61:
	movq	%rdi, %r8
	andq	$-2, %r8
	xorl	%r9d, %r9d
	jmp	.LBB10_64
	.p2align	4
.LBB10_62:
	movzbl	689(%rsp,%rdx), %r10d
.LBB10_63:
	movb	%r10b, 737(%rsp,%rdx)
	incq	%r9
	movq	%r9, 776(%rsp)
	cmpq	%r8, %r9
	je	.LBB10_69
.LBB10_64:
	movq	%r9, %rdx
	cmpq	%rcx, %r9
	jae	.LBB10_66
	movzbl	688(%rsp,%rdx), %r9d
	jmp	.LBB10_67
	.p2align	4
.LBB10_66:
	xorl	%r9d, %r9d
.LBB10_67:
	movb	%r9b, 736(%rsp,%rdx)
	leaq	1(%rdx), %r9
	movq	%r9, 776(%rsp)
	cmpq	%rcx, %r9
	jb	.LBB10_62
	xorl	%r10d, %r10d
	jmp	.LBB10_63
.LBB10_69:
	testb	$1, %dil
	je	.LBB10_75
	addq	$2, %rdx
.LBB10_71:
	cmpq	%rcx, %rdx
	jae	.LBB10_73
	movzbl	688(%rsp,%rdx), %ecx
	jmp	.LBB10_74
.LBB10_73:
	xorl	%ecx, %ecx
.LBB10_74:
	movb	%cl, 736(%rsp,%rdx)
	incq	%rdx
	movq	%rdx, 776(%rsp)
.LBB10_75:
	xorl	%r8d, %r8d
	testb	$15, %r13b
	setne	%cl
	testq	%r15, %r15
	je	.LBB10_107
	movq	%r13, %rdx
	shrq	$4, %rdx
	movb	%cl, %r8b
	addq	%rdx, %r8
	leaq	15(%r15), %rcx
	shrq	$4, %rcx
	movq	%rcx, 40(%rsp)
	movq	%rax, %r10
	shrq	%r10
	leaq	(%rsp,%rax), %r11
	addq	$640, %r11
	movq	%rax, %rcx
	shlq	$8, %rcx
	leaq	.Lstatic.47(%rip), %rdx
	addq	%rdx, %rcx
	addq	$-256, %rcx
	movq	%rcx, 72(%rsp)
	movq	%rdi, %r9
	shrq	%r9
	leaq	(%rsp,%rdi), %r14
	addq	$736, %r14
	movzbl	736(%rsp), %ebx
	movq	%rdi, 400(%rsp)
	movq	%rdi, %rcx
	shlq	$8, %rcx
	addq	%rdx, %rcx
	addq	$-256, %rcx
	movq	%rcx, 368(%rsp)
	shll	$4, %ebx
	movq	%rbx, 376(%rsp)
	addq	%r15, %rsi
	movq	%rsi, 448(%rsp)
	movq	%rdx, %rsi
	movzbl	640(%rsp), %ecx
	shll	$4, %ecx
	movq	%rcx, 456(%rsp)
	movq	%r8, 416(%rsp)
	andq	$-2, %r8
	movq	%r8, 408(%rsp)
	movq	%r10, 104(%rsp)
	negq	%r10
	movq	%r9, 392(%rsp)
	negq	%r9
	movq	$0, 56(%rsp)
	xorl	%ebp, %ebp
	movq	%r14, 80(%rsp)
	movq	%r9, 384(%rsp)
.LBB10_77:
	movq	%rbp, %rcx
	shlq	$4, %rcx
	movq	%r15, %rdx
	subq	%rcx, %rdx
	addq	%rcx, %rsi
	addq	$256, %rsi
	.p2align	4
.LBB10_78:
	cmpq	$0, 104(%rsp)
	je	.LBB10_81
	pxor	%xmm1, %xmm1
	xorl	%r9d, %r9d
	movq	%rsi, %rdi
	xorl	%ebx, %ebx
	pxor	%xmm0, %xmm0
	.p2align	4
.LBB10_80:
	movzbl	-1(%r11,%rbx,2), %ecx
	shll	$4, %ecx
	leaq	.Lstatic.44(%rip), %r8
	movdqu	(%rcx,%r8), %xmm4
	movdqa	.LCPI10_0(%rip), %xmm2
	movdqu	-256(%rdi), %xmm5
	movdqu	(%rdi), %xmm3
	movdqa	%xmm5, %xmm6
	pand	%xmm2, %xmm6
	pshufb	%xmm6, %xmm4
	pxor	%xmm1, %xmm4
	leaq	.Lstatic.45(%rip), %r14
	movdqu	(%rcx,%r14), %xmm1
	psrlw	$4, %xmm5
	pand	%xmm2, %xmm5
	pshufb	%xmm5, %xmm1
	pxor	%xmm4, %xmm1
	movq	%r9, %rcx
	xorq	$-2, %rcx
	movzbl	(%r11,%rcx), %ecx
	shll	$4, %ecx
	movdqu	(%rcx,%r8), %xmm4
	movdqa	%xmm3, %xmm5
	pand	%xmm2, %xmm5
	pshufb	%xmm5, %xmm4
	movdqu	(%rcx,%r14), %xmm5
	psrlw	$4, %xmm3
	pand	%xmm2, %xmm3
	pshufb	%xmm3, %xmm5
	pxor	%xmm4, %xmm5
	pxor	%xmm5, %xmm1
	pxor	%xmm5, %xmm0
	decq	%rbx
	addq	$512, %rdi
	addq	$2, %r9
	cmpq	%rbx, %r10
	jne	.LBB10_80
	jmp	.LBB10_82
	.p2align	4
.LBB10_81:
	pxor	%xmm0, %xmm0
	pxor	%xmm1, %xmm1
.LBB10_82:
	movq	%rbp, %r12
	shlq	$4, %r12
	testb	$1, %al
	je	.LBB10_84
	movq	72(%rsp), %rcx
	movdqu	(%rcx,%r12), %xmm2
	leaq	.Lstatic.44(%rip), %rcx
	movq	456(%rsp), %r8
	movdqu	(%r8,%rcx), %xmm3
	movdqa	.LCPI10_0(%rip), %xmm4
	movdqa	%xmm2, %xmm5
	pand	%xmm4, %xmm5
	pshufb	%xmm5, %xmm3
	leaq	.Lstatic.45(%rip), %rcx
	movdqu	(%r8,%rcx), %xmm5
	psrlw	$4, %xmm2
	pand	%xmm4, %xmm2
	pshufb	%xmm2, %xmm5
	pxor	%xmm1, %xmm3
	pxor	%xmm5, %xmm3
	movdqa	%xmm3, %xmm1
.LBB10_84:
	movq	80(%rsp), %r14
	pxor	%xmm2, %xmm2
	movdqa	%xmm1, %xmm3
	pcmpeqb	%xmm2, %xmm3
	pmovmskb	%xmm3, %ecx
	testl	%ecx, %ecx
	jne	.LBB10_86
	incq	%rbp
	addq	$-16, %rdx
	addq	$16, %rsi
	cmpq	40(%rsp), %rbp
	jb	.LBB10_78
	jmp	.LBB10_108
	.p2align	4
.LBB10_86:
	movq	%r15, 48(%rsp)
	cmpq	$0, 392(%rsp)
	movq	384(%rsp), %r15
	je	.LBB10_89
	xorl	%r9d, %r9d
	xorl	%edi, %edi
	.p2align	4
.LBB10_88:
	movzbl	-1(%r14,%rdi,2), %ecx
	shll	$4, %ecx
	leaq	.Lstatic.44(%rip), %r8
	movdqu	(%rcx,%r8), %xmm5
	movdqa	.LCPI10_0(%rip), %xmm3
	movdqu	-256(%rsi), %xmm6
	movdqu	(%rsi), %xmm4
	movdqa	%xmm6, %xmm7
	pand	%xmm3, %xmm7
	pshufb	%xmm7, %xmm5
	pxor	%xmm2, %xmm5
	leaq	.Lstatic.45(%rip), %rbx
	movdqu	(%rcx,%rbx), %xmm7
	psrlw	$4, %xmm6
	pand	%xmm3, %xmm6
	pshufb	%xmm6, %xmm7
	pxor	%xmm5, %xmm7
	movq	%r9, %rcx
	xorq	$-2, %rcx
	movzbl	(%r14,%rcx), %ecx
	shll	$4, %ecx
	movdqu	(%rcx,%r8), %xmm5
	movdqa	%xmm4, %xmm2
	pand	%xmm3, %xmm2
	pshufb	%xmm2, %xmm5
	movdqu	(%rcx,%rbx), %xmm2
	psrlw	$4, %xmm4
	pand	%xmm3, %xmm4
	pshufb	%xmm4, %xmm2
	pxor	%xmm5, %xmm2
	pxor	%xmm7, %xmm2
	decq	%rdi
	addq	$512, %rsi
	addq	$2, %r9
	cmpq	%rdi, %r15
	jne	.LBB10_88
.LBB10_89:
	testb	$1, 400(%rsp)
	movq	48(%rsp), %rdi
	je	.LBB10_91
	movq	368(%rsp), %rcx
	movdqu	(%rcx,%r12), %xmm3
	leaq	.Lstatic.44(%rip), %rcx
	movq	376(%rsp), %r8
	movdqu	(%r8,%rcx), %xmm4
	movdqa	.LCPI10_0(%rip), %xmm5
	movdqa	%xmm3, %xmm6
	pand	%xmm5, %xmm6
	pshufb	%xmm6, %xmm4
	leaq	.Lstatic.45(%rip), %rcx
	movdqu	(%r8,%rcx), %xmm6
	psrlw	$4, %xmm3
	pand	%xmm5, %xmm3
	pshufb	%xmm3, %xmm6
	pxor	%xmm4, %xmm6
	pxor	%xmm6, %xmm2
.LBB10_91:
	leaq	.Lstatic.47(%rip), %rsi
	movq	%xmm2, 1216(%rsp)
	pextrd	$2, %xmm2, 1224(%rsp)
	pextrb	$12, %xmm2, 1228(%rsp)
	movdqa	%xmm1, 464(%rsp)
	pextrb	$13, %xmm2, 1229(%rsp)
	movdqa	%xmm0, 112(%rsp)
	pextrb	$14, %xmm2, 1230(%rsp)
	pextrb	$15, %xmm2, 1231(%rsp)
	cmpq	%r12, %rdi
	jne	.LBB10_93
.LBB10_92:
	incq	%rbp
	cmpq	40(%rsp), %rbp
	movq	48(%rsp), %r15
	jb	.LBB10_77
	jmp	.LBB10_108
	.p2align	4
.LBB10_93:
	cmpq	$1, %rdx
	adcq	$0, %rdx
	cmpq	$16, %rdx
	movl	$16, %ecx
	cmovbq	%rdx, %rcx
	xorl	%r15d, %r15d
	movq	%rcx, 440(%rsp)
	jmp	.LBB10_98
.LBB10_94:
	xorl	%r9d, %r9d
	movq	88(%rsp), %r13
	leaq	.Lstatic.47(%rip), %rsi
	movl	68(%rsp), %edi
.LBB10_95:
	shlq	$4, %r9
	movdqu	944(%rsp,%r9), %xmm0
	pxor	%xmm2, %xmm0
	movdqu	%xmm0, 944(%rsp,%r9)
.LBB10_96:
	cmpb	$1, %dil
	movq	56(%rsp), %rcx
	sbbb	$-1, %cl
	movq	%rcx, 56(%rsp)
	movq	440(%rsp), %rcx
.LBB10_97:
	incq	%r15
	cmpq	%rcx, %r15
	je	.LBB10_92
.LBB10_98:
	cmpb	$0, 464(%rsp,%r15)
	jne	.LBB10_97
	leaq	.Lstatic.49(%rip), %r9
	movzbl	112(%rsp,%r15), %ecx
	testq	%rcx, %rcx
	je	.LBB10_101
	movzbl	1216(%rsp,%r15), %edx
	leaq	.Lstatic.48(%rip), %r8
	movzbl	(%rcx,%r8), %r8d
	xorl	$255, %r8d
	leal	-255(%r8), %esi
	cmpq	$1, %rcx
	cmovnel	%r8d, %esi
	movzwl	%si, %ecx
	movzbl	(%rcx,%r9), %ecx
	shll	$4, %edx
	movl	%ecx, %r8d
	andl	$15, %r8d
	leaq	.Lstatic.44(%rip), %rsi
	addq	%rdx, %rsi
	shrl	$4, %ecx
	leaq	.Lstatic.45(%rip), %rdi
	addq	%rdx, %rdi
	movzbl	(%rcx,%rdi), %edi
	xorb	(%r8,%rsi), %dil
	leaq	.Lstatic.47(%rip), %rsi
	jmp	.LBB10_102
.LBB10_101:
	xorl	%edi, %edi
.LBB10_102:
	leaq	(%r15,%r12), %rcx
	movzwl	%cx, %edx
	imull	$32897, %edx, %edx
	shrl	$23, %edx
	movl	%edx, %r8d
	shll	$8, %r8d
	subl	%r8d, %edx
	addl	%ecx, %edx
	notq	%rcx
	movzwl	%dx, %edx
	movzbl	(%rdx,%r9), %ebx
	movq	448(%rsp), %rdx
	xorb	%dil, (%rdx,%rcx)
	testq	%r13, %r13
	je	.LBB10_96
	movl	%edi, 68(%rsp)
	movzbl	%dil, %ecx
	shll	$4, %ecx
	leaq	.Lstatic.45(%rip), %rsi
	leaq	(%rsi,%rcx), %r8
	movl	%ebx, %r9d
	shrl	$4, %r9d
	leaq	.Lstatic.44(%rip), %r14
	addq	%r14, %rcx
	movl	%ebx, %edi
	andl	$15, %edi
	movzbl	(%rdi,%rcx), %edx
	xorb	(%r9,%r8), %dl
	shll	$4, %ebx
	leaq	(%rsi,%rbx), %rcx
	leaq	(%r14,%rbx), %r8
	movq	%rdi, 424(%rsp)
	movzbl	(%rdi,%r8), %r8d
	movq	%r9, 432(%rsp)
	xorb	(%r9,%rcx), %r8b
	movzbl	%r8b, %r8d
	movl	%r8d, %ecx
	shll	$4, %ecx
	leaq	(%rsi,%rcx), %rdi
	movl	%r8d, %r13d
	shrl	$4, %r13d
	leaq	(%r14,%rcx), %r9
	andl	$15, %r8d
	movzbl	(%r8,%r9), %r8d
	xorb	(%r13,%rdi), %r8b
	movzbl	%dl, %r9d
	movzbl	%r8b, %r8d
	movl	%r8d, %edx
	shll	$4, %edx
	movl	%r8d, %edi
	shrl	$4, %edi
	leaq	(%r14,%rdx), %r13
	andl	$15, %r8d
	movzbl	(%r8,%r13), %r8d
	leaq	(%rsi,%rdx), %r13
	xorb	(%rdi,%r13), %r8b
	shll	$4, %r9d
	movzbl	%r8b, %r8d
	shll	$4, %r8d
	movdqu	(%r8,%r14), %xmm1
	movdqu	(%rdx,%r14), %xmm2
	movdqu	(%rbx,%r14), %xmm0
	pshufb	.LCPI10_4(%rip), %xmm0
	movdqu	(%rcx,%r14), %xmm3
	movzbl	(%rbx,%rsi), %edi
	movd	%edi, %xmm4
	pxor	%xmm5, %xmm5
	pshufb	%xmm5, %xmm4
	pxor	%xmm0, %xmm4
	pxor	.LCPI10_5(%rip), %xmm4
	movdqa	%xmm4, %xmm5
	pshufb	.LCPI10_6(%rip), %xmm5
	movdqa	.LCPI10_0(%rip), %xmm0
	movdqa	%xmm5, %xmm6
	pand	%xmm0, %xmm6
	pshufb	%xmm6, %xmm3
	movdqu	(%rcx,%rsi), %xmm6
	psrlw	$4, %xmm5
	pand	%xmm0, %xmm5
	pshufb	%xmm5, %xmm6
	pxor	%xmm4, %xmm3
	pxor	%xmm6, %xmm3
	movdqa	%xmm3, %xmm4
	pshufb	.LCPI10_7(%rip), %xmm4
	movdqa	%xmm4, %xmm5
	pand	%xmm0, %xmm5
	pshufb	%xmm5, %xmm2
	movdqu	(%rdx,%rsi), %xmm5
	psrlw	$4, %xmm4
	pand	%xmm0, %xmm4
	pshufb	%xmm4, %xmm5
	pxor	%xmm3, %xmm2
	pxor	%xmm5, %xmm2
	movdqa	%xmm2, %xmm3
	pshufb	.LCPI10_8(%rip), %xmm3
	movdqa	%xmm3, %xmm4
	pand	%xmm0, %xmm4
	pshufb	%xmm4, %xmm1
	movdqu	(%r8,%rsi), %xmm4
	psrlw	$4, %xmm3
	pand	%xmm0, %xmm3
	pshufb	%xmm3, %xmm4
	pxor	%xmm2, %xmm1
	pxor	%xmm4, %xmm1
	movdqu	(%r9,%rsi), %xmm3
	movdqa	%xmm1, %xmm2
	psrlw	$4, %xmm2
	pand	%xmm0, %xmm2
	pshufb	%xmm2, %xmm3
	movdqu	(%r9,%r14), %xmm2
	movdqa	%xmm1, %xmm4
	pand	%xmm0, %xmm4
	pshufb	%xmm4, %xmm2
	pxor	%xmm3, %xmm2
	movq	416(%rsp), %r8
	cmpq	$1, %r8
	je	.LBB10_94
	pextrb	$15, %xmm1, %ecx
	shll	$4, %ecx
	leaq	(%rsi,%rcx), %rdx
	addq	%r14, %rcx
	movq	424(%rsp), %r9
	movzbl	(%r9,%rcx), %ecx
	movq	432(%rsp), %r9
	xorb	(%r9,%rdx), %cl
	movzbl	%cl, %ecx
	shll	$4, %ecx
	movdqu	(%rcx,%r14), %xmm1
	movdqu	(%rcx,%rsi), %xmm3
	xorl	%r9d, %r9d
	leaq	960(%rsp), %rcx
	movq	408(%rsp), %rdx
	.p2align	4
.LBB10_105:
	movdqu	-16(%rcx), %xmm4
	movdqu	(%rcx), %xmm5
	pxor	%xmm2, %xmm4
	movdqu	%xmm4, -16(%rcx)
	movdqa	%xmm2, %xmm4
	pand	%xmm0, %xmm4
	movdqa	%xmm1, %xmm6
	pshufb	%xmm4, %xmm6
	psrlw	$4, %xmm2
	pand	%xmm0, %xmm2
	movdqa	%xmm3, %xmm4
	pshufb	%xmm2, %xmm4
	pxor	%xmm6, %xmm4
	pxor	%xmm4, %xmm5
	movdqu	%xmm5, (%rcx)
	movdqa	%xmm4, %xmm2
	pand	%xmm0, %xmm2
	movdqa	%xmm1, %xmm5
	pshufb	%xmm2, %xmm5
	psrlw	$4, %xmm4
	pand	%xmm0, %xmm4
	movdqa	%xmm3, %xmm2
	pshufb	%xmm4, %xmm2
	pxor	%xmm5, %xmm2
	addq	$2, %r9
	addq	$32, %rcx
	cmpq	%r9, %rdx
	jne	.LBB10_105
	testb	$1, %r8b
	movq	88(%rsp), %r13
	leaq	.Lstatic.47(%rip), %rsi
	movl	68(%rsp), %edi
	jne	.LBB10_95
	jmp	.LBB10_96
.LBB10_107:
	movq	$0, 56(%rsp)
.LBB10_108:
	testq	%r13, %r13
	je	.LBB10_111
	cmpq	$4, %r13
	movq	56(%rsp), %rdx
	jae	.LBB10_113
	xorl	%ecx, %ecx
	xorl	%eax, %eax
	jmp	.LBB10_122
.LBB10_111:
	movq	56(%rsp), %rdx
	movzbl	%dl, %eax
	cmpq	%rax, 96(%rsp)
	jae	.LBB10_126
	jmp	.LBB10_127
.LBB10_113:
	cmpq	$16, %r13
	jae	.LBB10_115
	xorl	%eax, %eax
	xorl	%ecx, %ecx
	jmp	.LBB10_119
.LBB10_115:
	movq	%r13, %rax
	andq	$-16, %rax
	pxor	%xmm0, %xmm0
	xorl	%ecx, %ecx
	pxor	%xmm1, %xmm1
	.p2align	4
.LBB10_116:
	movdqu	944(%rsp,%rcx), %xmm2
	pcmpeqb	%xmm0, %xmm2
	pcmpeqd	%xmm3, %xmm3
	pxor	%xmm2, %xmm3
	por	%xmm3, %xmm1
	addq	$16, %rcx
	cmpq	%rcx, %rax
	jne	.LBB10_116
	ptest	.LCPI10_9(%rip), %xmm1
	setne	%cl
	cmpq	%rax, %r13
	je	.LBB10_124
	testb	$12, %r13b
	je	.LBB10_122
.LBB10_119:
	movq	%rax, %r8
	movq	%r13, %rax
	andq	$-4, %rax
	movzbl	%cl, %ecx
	movd	%ecx, %xmm0
	.p2align	4
.LBB10_120:
	movd	944(%rsp,%r8), %xmm1
	xorpd	%xmm2, %xmm2
	pcmpeqb	%xmm1, %xmm2
	pcmpeqd	%xmm1, %xmm1
	pxor	%xmm2, %xmm1
	pmovsxbd	%xmm1, %xmm1
	por	%xmm1, %xmm0
	addq	$4, %r8
	cmpq	%r8, %rax
	jne	.LBB10_120
	ptest	.LCPI10_10(%rip), %xmm0
	setne	%cl
	jmp	.LBB10_123
.LBB10_122:
	cmpb	$0, 944(%rsp,%rax)
	setne	%r8b
	orb	%r8b, %cl
	incq	%rax
.LBB10_123:
	cmpq	%rax, %r13
	jne	.LBB10_122
.LBB10_124:
	testb	$1, %cl
	jne	.LBB10_127
	movzbl	%dl, %eax
	cmpq	%rax, 96(%rsp)
	jb	.LBB10_127
.LBB10_126:
	xorl	%eax, %eax
	jmp	.LBB10_128
.LBB10_127:
	movb	$1, %al
	xorl	%edx, %edx
.LBB10_128:
	movaps	1600(%rsp), %xmm6
	movaps	1616(%rsp), %xmm7
	addq	$1640, %rsp
	popq	%rbx
	popq	%rbp
	popq	%rdi
	popq	%rsi
	popq	%r12
	popq	%r13
	popq	%r14
	popq	%r15
	retq
	.seh_endproc

	.def	"dm_code::syndrome::syndromes_of_short";
	.scl	3;
	.type	32;
	.endef
	.p2align	4
"dm_code::syndrome::syndromes_of_short":
.seh_proc "dm_code::syndrome::syndromes_of_short"
	pushq	%r15
	.seh_pushreg %r15
	pushq	%r14
	.seh_pushreg %r14
	pushq	%r13
	.seh_pushreg %r13
	pushq	%r12
	.seh_pushreg %r12
	pushq	%rsi
	.seh_pushreg %rsi
	pushq	%rdi
	.seh_pushreg %rdi
	pushq	%rbp
	.seh_pushreg %rbp
	pushq	%rbx
	.seh_pushreg %rbx
	subq	$152, %rsp
	.seh_stackalloc 152
	.seh_endprologue
	movq	%r9, %rdi
	movq	%rcx, %rsi
	xorps	%xmm0, %xmm0
	movaps	%xmm0, 48(%rsp)
	movaps	%xmm0, 64(%rsp)
	movaps	%xmm0, 80(%rsp)
	movaps	%xmm0, 96(%rsp)
	movaps	%xmm0, 112(%rsp)
	movaps	%xmm0, 128(%rsp)
	movq	%r9, %r13
	shrq	$4, %r13
	movl	%edi, %eax
	andl	$15, %eax
	cmpq	$1, %rax
	sbbq	$-1, %r13
	testq	%r9, %r9
	je	.LBB11_5
	movq	%r8, %rbx
	movq	%rdx, %r14
	movl	$1, %r15d
	movq	136(%rsp), %rbp
	jmp	.LBB11_2
	.p2align	4
.LBB11_4:
	addq	$-16, %rdi
	addq	$16, %r15
	decq	%r13
	je	.LBB11_5
.LBB11_2:
	cmpq	$16, %rdi
	movl	$16, %r12d
	cmovbq	%rdi, %r12
	leaq	48(%rsp), %rcx
	movq	%r14, %rdx
	movq	%rbx, %r8
	movq	%r15, %r9
	callq	"dm_code::syndrome::values_from_root"
	movaps	48(%rsp), %xmm0
	movaps	%xmm0, 32(%rsp)
	movl	$68, %eax
	subq	%rbp, %rax
	cmpq	%r12, %rax
	jb	.LBB11_4
	leaq	(%rsp,%rbp), %rcx
	addq	$64, %rcx
	leaq	32(%rsp), %rax
	movq	%rcx, %rdx
	subq	%rax, %rdx
	cmpq	%r12, %rdx
	leaq	32(%rsp), %rdx
	movq	%r12, %r8
	callq	memcpy
	addq	%r12, %rbp
	movq	%rbp, 136(%rsp)
	jmp	.LBB11_4
.LBB11_5:
	movaps	128(%rsp), %xmm0
	movups	%xmm0, 64(%rsi)
	movaps	64(%rsp), %xmm0
	movaps	80(%rsp), %xmm1
	movaps	96(%rsp), %xmm2
	movaps	112(%rsp), %xmm3
	movups	%xmm3, 48(%rsi)
	movups	%xmm2, 32(%rsi)
	movups	%xmm1, 16(%rsi)
	movups	%xmm0, (%rsi)
	addq	$152, %rsp
	popq	%rbx
	popq	%rbp
	popq	%rdi
	popq	%rsi
	popq	%r12
	popq	%r13
	popq	%r14
	popq	%r15
	retq
	.seh_endproc

	.def	"dm_code::syndrome::values_from_root";
	.scl	3;
	.type	32;
	.endef
	.section	.rdata,"dr"
	.p2align	4, 0x0
.LCPI12_0:
	.zero	16,15
.LCPI12_1:
	.zero	16,1
.LCPI12_2:
	.zero	16,2
.LCPI12_3:
	.zero	16,4
.LCPI12_4:
	.zero	16,8
.LCPI12_5:
	.zero	16,16
.LCPI12_6:
	.zero	16,32
.LCPI12_7:
	.zero	16,64
.LCPI12_8:
	.zero	16,45
	.text
	.p2align	4
"dm_code::syndrome::values_from_root":
.seh_proc "dm_code::syndrome::values_from_root"
	pushq	%r15
	.seh_pushreg %r15
	pushq	%r14
	.seh_pushreg %r14
	pushq	%r13
	.seh_pushreg %r13
	pushq	%r12
	.seh_pushreg %r12
	pushq	%rsi
	.seh_pushreg %rsi
	pushq	%rdi
	.seh_pushreg %rdi
	pushq	%rbx
	.seh_pushreg %rbx
	subq	$144, %rsp
	.seh_stackalloc 144
	movdqa	%xmm14, 128(%rsp)
	.seh_savexmm %xmm14, 128
	movdqa	%xmm13, 112(%rsp)
	.seh_savexmm %xmm13, 112
	movdqa	%xmm12, 96(%rsp)
	.seh_savexmm %xmm12, 96
	movdqa	%xmm11, 80(%rsp)
	.seh_savexmm %xmm11, 80
	movdqa	%xmm10, 64(%rsp)
	.seh_savexmm %xmm10, 64
	movdqa	%xmm9, 48(%rsp)
	.seh_savexmm %xmm9, 48
	movdqa	%xmm8, 32(%rsp)
	.seh_savexmm %xmm8, 32
	movdqa	%xmm7, 16(%rsp)
	.seh_savexmm %xmm7, 16
	movdqa	%xmm6, (%rsp)
	.seh_savexmm %xmm6, 0
	.seh_endprologue
	movl	%r8d, %r10d
	andl	$31, %r10d
	leaq	.Lstatic.47(%rip), %r11
	movl	%r10d, %eax
	shrl	%eax
	je	.LBB12_1
	leaq	(%rdx,%r10), %rsi
	addl	%eax, %eax
	leaq	(%r9,%r11), %rdi
	addq	$256, %rdi
	leaq	(%rdx,%r10), %rbx
	decq	%rbx
	pxor	%xmm0, %xmm0
	xorl	%r14d, %r14d
	.p2align	4
.LBB12_3:
	movzbl	(%rbx), %r15d
	shll	$4, %r15d
	leaq	.Lstatic.44(%rip), %r12
	movdqu	(%r15,%r12), %xmm3
	movdqa	.LCPI12_0(%rip), %xmm1
	movdqu	-256(%rdi), %xmm4
	movdqu	(%rdi), %xmm2
	movdqa	%xmm4, %xmm5
	pand	%xmm1, %xmm5
	pshufb	%xmm5, %xmm3
	pxor	%xmm0, %xmm3
	leaq	.Lstatic.45(%rip), %r13
	movdqu	(%r15,%r13), %xmm5
	psrlw	$4, %xmm4
	pand	%xmm1, %xmm4
	pshufb	%xmm4, %xmm5
	pxor	%xmm3, %xmm5
	movq	%r14, %r15
	xorq	$-2, %r15
	movzbl	(%rsi,%r15), %r15d
	shll	$4, %r15d
	movdqu	(%r15,%r12), %xmm3
	movdqa	%xmm2, %xmm0
	pand	%xmm1, %xmm0
	pshufb	%xmm0, %xmm3
	movdqu	(%r15,%r13), %xmm0
	psrlw	$4, %xmm2
	pand	%xmm1, %xmm2
	pshufb	%xmm2, %xmm0
	pxor	%xmm3, %xmm0
	pxor	%xmm5, %xmm0
	addq	$2, %r14
	addq	$512, %rdi
	addq	$-2, %rbx
	cmpq	%r14, %rax
	jne	.LBB12_3
	jmp	.LBB12_4
.LBB12_1:
	pxor	%xmm0, %xmm0
.LBB12_4:
	testb	$1, %r8b
	je	.LBB12_6
	movzbl	(%rdx), %eax
	movl	%r10d, %esi
	shll	$8, %esi
	addq	%r11, %rsi
	movdqu	-256(%r9,%rsi), %xmm1
	shll	$4, %eax
	leaq	.Lstatic.44(%rip), %rsi
	movdqu	(%rax,%rsi), %xmm2
	movdqa	.LCPI12_0(%rip), %xmm3
	movdqa	%xmm1, %xmm4
	pand	%xmm3, %xmm4
	pshufb	%xmm4, %xmm2
	leaq	.Lstatic.45(%rip), %rsi
	movdqu	(%rax,%rsi), %xmm4
	psrlw	$4, %xmm1
	pand	%xmm3, %xmm1
	pshufb	%xmm1, %xmm4
	pxor	%xmm2, %xmm4
	pxor	%xmm4, %xmm0
.LBB12_6:
	shrq	$5, %r8
	je	.LBB12_11
	movdqu	8192(%r9,%r11), %xmm1
	leaq	(%rdx,%r10), %rax
	movdqa	.LCPI12_1(%rip), %xmm2
	pand	%xmm1, %xmm2
	movdqa	.LCPI12_2(%rip), %xmm3
	pand	%xmm1, %xmm3
	movdqa	.LCPI12_3(%rip), %xmm4
	pand	%xmm1, %xmm4
	movdqa	.LCPI12_4(%rip), %xmm5
	pand	%xmm1, %xmm5
	movdqa	.LCPI12_5(%rip), %xmm6
	pand	%xmm1, %xmm6
	movdqa	.LCPI12_6(%rip), %xmm7
	pand	%xmm1, %xmm7
	movdqa	.LCPI12_7(%rip), %xmm8
	pand	%xmm1, %xmm8
	addq	%r11, %r9
	addq	$256, %r9
	addq	%r10, %rdx
	addq	$31, %rdx
	xorl	%r10d, %r10d
	.p2align	4
.LBB12_8:
	movq	%r10, %r11
	shlq	$5, %r11
	addq	%rax, %r11
	addq	$32, %r11
	pxor	%xmm9, %xmm9
	xorl	%esi, %esi
	movq	%rdx, %rdi
	movq	%r9, %rbx
	.p2align	4
.LBB12_9:
	movzbl	(%rdi), %r14d
	shll	$4, %r14d
	leaq	.Lstatic.44(%rip), %r15
	movdqu	(%r14,%r15), %xmm12
	movdqa	.LCPI12_0(%rip), %xmm10
	movdqu	-256(%rbx), %xmm13
	movdqu	(%rbx), %xmm11
	movdqa	%xmm13, %xmm14
	pand	%xmm10, %xmm14
	pshufb	%xmm14, %xmm12
	pxor	%xmm9, %xmm12
	leaq	.Lstatic.45(%rip), %r12
	movdqu	(%r14,%r12), %xmm14
	psrlw	$4, %xmm13
	pand	%xmm10, %xmm13
	pshufb	%xmm13, %xmm14
	pxor	%xmm12, %xmm14
	movq	%rsi, %r14
	xorq	$-2, %r14
	movzbl	(%r11,%r14), %r14d
	shll	$4, %r14d
	movdqu	(%r14,%r15), %xmm12
	movdqa	%xmm11, %xmm9
	pand	%xmm10, %xmm9
	pshufb	%xmm9, %xmm12
	movdqu	(%r14,%r12), %xmm9
	psrlw	$4, %xmm11
	pand	%xmm10, %xmm11
	pshufb	%xmm11, %xmm9
	pxor	%xmm12, %xmm9
	pxor	%xmm14, %xmm9
	addq	$2, %rsi
	addq	$512, %rbx
	addq	$-2, %rdi
	cmpq	$32, %rsi
	jne	.LBB12_9
	pxor	%xmm10, %xmm10
	movdqa	%xmm2, %xmm12
	pcmpgtb	%xmm10, %xmm12
	pand	%xmm0, %xmm12
	pxor	%xmm13, %xmm13
	pcmpgtb	%xmm0, %xmm13
	paddb	%xmm0, %xmm0
	movdqa	.LCPI12_8(%rip), %xmm11
	pand	%xmm11, %xmm13
	pxor	%xmm0, %xmm13
	movdqa	%xmm3, %xmm14
	pcmpgtb	%xmm10, %xmm14
	pand	%xmm13, %xmm14
	pxor	%xmm12, %xmm14
	paddb	%xmm13, %xmm13
	pxor	%xmm12, %xmm12
	pcmpgtb	%xmm0, %xmm12
	pand	%xmm11, %xmm12
	pxor	%xmm13, %xmm12
	movdqa	%xmm4, %xmm0
	pcmpgtb	%xmm10, %xmm0
	pand	%xmm12, %xmm0
	pxor	%xmm14, %xmm0
	paddb	%xmm12, %xmm12
	pxor	%xmm14, %xmm14
	pcmpgtb	%xmm13, %xmm14
	pand	%xmm11, %xmm14
	pxor	%xmm12, %xmm14
	movdqa	%xmm5, %xmm13
	pcmpgtb	%xmm10, %xmm13
	pand	%xmm14, %xmm13
	pxor	%xmm0, %xmm13
	paddb	%xmm14, %xmm14
	pxor	%xmm0, %xmm0
	pcmpgtb	%xmm12, %xmm0
	pand	%xmm11, %xmm0
	pxor	%xmm14, %xmm0
	movdqa	%xmm6, %xmm12
	pcmpgtb	%xmm10, %xmm12
	pand	%xmm0, %xmm12
	pxor	%xmm13, %xmm12
	paddb	%xmm0, %xmm0
	pxor	%xmm13, %xmm13
	pcmpgtb	%xmm14, %xmm13
	pand	%xmm11, %xmm13
	pxor	%xmm0, %xmm13
	movdqa	%xmm7, %xmm14
	pcmpgtb	%xmm10, %xmm14
	pand	%xmm13, %xmm14
	pxor	%xmm12, %xmm14
	paddb	%xmm13, %xmm13
	pxor	%xmm12, %xmm12
	pcmpgtb	%xmm0, %xmm12
	pand	%xmm11, %xmm12
	pxor	%xmm13, %xmm12
	movdqa	%xmm8, %xmm0
	pcmpgtb	%xmm10, %xmm0
	pand	%xmm12, %xmm0
	pxor	%xmm14, %xmm0
	paddb	%xmm12, %xmm12
	pxor	%xmm14, %xmm14
	pcmpgtb	%xmm13, %xmm14
	pand	%xmm11, %xmm14
	pxor	%xmm12, %xmm14
	pcmpgtb	%xmm1, %xmm10
	pand	%xmm14, %xmm10
	pxor	%xmm9, %xmm0
	pxor	%xmm10, %xmm0
	incq	%r10
	addq	$32, %rdx
	cmpq	%r8, %r10
	jne	.LBB12_8
.LBB12_11:
	movdqu	%xmm0, (%rcx)
	movaps	(%rsp), %xmm6
	movaps	16(%rsp), %xmm7
	movaps	32(%rsp), %xmm8
	movaps	48(%rsp), %xmm9
	movaps	64(%rsp), %xmm10
	movaps	80(%rsp), %xmm11
	movaps	96(%rsp), %xmm12
	movaps	112(%rsp), %xmm13
	movaps	128(%rsp), %xmm14
	addq	$144, %rsp
	popq	%rbx
	popq	%rdi
	popq	%rsi
	popq	%r12
	popq	%r13
	popq	%r14
	popq	%r15
	retq
	.seh_endproc

	.def	"dm_code::weighing::at_places";
	.scl	3;
	.type	32;
	.endef
	.section	.rdata,"dr"
	.p2align	4, 0x0
.LCPI13_0:
	.zero	16,15
.LCPI13_1:
	.zero	16,1
.LCPI13_2:
	.zero	16,45
.LCPI13_3:
	.zero	16,2
.LCPI13_4:
	.zero	16,4
.LCPI13_5:
	.zero	16,8
.LCPI13_6:
	.zero	16,16
.LCPI13_7:
	.zero	16,32
.LCPI13_8:
	.zero	16,64
	.text
	.p2align	4
"dm_code::weighing::at_places":
.seh_proc "dm_code::weighing::at_places"
	pushq	%r15
	.seh_pushreg %r15
	pushq	%r14
	.seh_pushreg %r14
	pushq	%r13
	.seh_pushreg %r13
	pushq	%r12
	.seh_pushreg %r12
	pushq	%rsi
	.seh_pushreg %rsi
	pushq	%rdi
	.seh_pushreg %rdi
	pushq	%rbp
	.seh_pushreg %rbp
	pushq	%rbx
	.seh_pushreg %rbx
	subq	$1272, %rsp
	.seh_stackalloc 1272
	movdqa	%xmm15, 1248(%rsp)
	.seh_savexmm %xmm15, 1248
	movdqa	%xmm14, 1232(%rsp)
	.seh_savexmm %xmm14, 1232
	movdqa	%xmm13, 1216(%rsp)
	.seh_savexmm %xmm13, 1216
	movdqa	%xmm12, 1200(%rsp)
	.seh_savexmm %xmm12, 1200
	movdqa	%xmm11, 1184(%rsp)
	.seh_savexmm %xmm11, 1184
	movdqa	%xmm10, 1168(%rsp)
	.seh_savexmm %xmm10, 1168
	movdqa	%xmm9, 1152(%rsp)
	.seh_savexmm %xmm9, 1152
	movdqa	%xmm8, 1136(%rsp)
	.seh_savexmm %xmm8, 1136
	movdqa	%xmm7, 1120(%rsp)
	.seh_savexmm %xmm7, 1120
	movdqa	%xmm6, 1104(%rsp)
	.seh_savexmm %xmm6, 1104
	.seh_endprologue
	movq	%r8, 40(%rsp)
	movq	%rdx, 32(%rsp)
	movq	%rcx, 48(%rsp)
	pxor	%xmm0, %xmm0
	movdqa	%xmm0, 320(%rsp)
	movdqa	%xmm0, 304(%rsp)
	movdqa	%xmm0, 288(%rsp)
	movdqa	%xmm0, 272(%rsp)
	movdqa	%xmm0, 256(%rsp)
	movdqa	%xmm0, 240(%rsp)
	movdqa	%xmm0, 224(%rsp)
	movdqa	%xmm0, 208(%rsp)
	movdqa	%xmm0, 192(%rsp)
	movdqa	%xmm0, 176(%rsp)
	movdqa	%xmm0, 160(%rsp)
	movdqa	%xmm0, 144(%rsp)
	movdqa	%xmm0, 128(%rsp)
	movdqa	%xmm0, 112(%rsp)
	movdqa	%xmm0, 96(%rsp)
	movdqa	%xmm0, 80(%rsp)
	movdqa	%xmm0, 336(%rsp)
	movdqa	%xmm0, 352(%rsp)
	movdqa	%xmm0, 368(%rsp)
	movdqa	%xmm0, 384(%rsp)
	movdqa	%xmm0, 400(%rsp)
	movdqa	%xmm0, 416(%rsp)
	movdqa	%xmm0, 432(%rsp)
	movdqa	%xmm0, 448(%rsp)
	movdqa	%xmm0, 464(%rsp)
	movdqa	%xmm0, 480(%rsp)
	movdqa	%xmm0, 496(%rsp)
	movdqa	%xmm0, 512(%rsp)
	movdqa	%xmm0, 528(%rsp)
	movdqa	%xmm0, 544(%rsp)
	movdqa	%xmm0, 560(%rsp)
	movdqa	%xmm0, 576(%rsp)
	xorl	%edi, %edi
	testb	$15, %r9b
	setne	%al
	testq	%r9, %r9
	je	.LBB13_29
	shrq	$4, %r9
	movb	%al, %dil
	addq	%r9, %rdi
	movq	32(%rsp), %rdx
	movq	40(%rsp), %r8
	leaq	(%rdx,%r8), %rax
	leaq	.Lstatic.47(%rip), %rcx
	cmpq	$35, %r8
	jae	.LBB13_2
	movq	%r8, %r9
	shrq	%r9
	movq	%r8, %r10
	shlq	$8, %r10
	leaq	(%r10,%rcx), %rbx
	addq	$-256, %rbx
	testq	%r9, %r9
	je	.LBB13_6
	testb	$1, %r8b
	jne	.LBB13_18
	negq	%r9
	leaq	(%r8,%rdx), %rcx
	decq	%rcx
	leaq	.Lstatic.47+256(%rip), %rdx
	xorl	%r8d, %r8d
	.p2align	4
.LBB13_15:
	movq	%r8, %r10
	shlq	$4, %r10
	pxor	%xmm0, %xmm0
	xorl	%r11d, %r11d
	movq	%rdx, %rsi
	xorl	%ebx, %ebx
	pxor	%xmm1, %xmm1
	.p2align	4
.LBB13_16:
	movzbl	(%rcx,%rbx,2), %r14d
	shll	$4, %r14d
	leaq	.Lstatic.44(%rip), %r15
	movdqu	(%r14,%r15), %xmm4
	movdqa	.LCPI13_0(%rip), %xmm2
	movdqu	-256(%rsi), %xmm5
	movdqu	(%rsi), %xmm3
	movdqa	%xmm5, %xmm6
	pand	%xmm2, %xmm6
	pshufb	%xmm6, %xmm4
	pxor	%xmm0, %xmm4
	leaq	.Lstatic.45(%rip), %r12
	movdqu	(%r14,%r12), %xmm0
	psrlw	$4, %xmm5
	pand	%xmm2, %xmm5
	pshufb	%xmm5, %xmm0
	pxor	%xmm4, %xmm0
	movq	%r11, %r14
	xorq	$-2, %r14
	movzbl	(%rax,%r14), %r14d
	shll	$4, %r14d
	movdqu	(%r14,%r15), %xmm4
	movdqa	%xmm3, %xmm5
	pand	%xmm2, %xmm5
	pshufb	%xmm5, %xmm4
	movdqu	(%r14,%r12), %xmm5
	psrlw	$4, %xmm3
	pand	%xmm2, %xmm3
	pshufb	%xmm3, %xmm5
	pxor	%xmm4, %xmm5
	pxor	%xmm5, %xmm0
	pxor	%xmm5, %xmm1
	decq	%rbx
	addq	$512, %rsi
	addq	$2, %r11
	cmpq	%rbx, %r9
	jne	.LBB13_16
	movdqu	%xmm0, 80(%rsp,%r10)
	movdqu	%xmm1, 336(%rsp,%r10)
	incq	%r8
	addq	$16, %rdx
	cmpq	%rdi, %r8
	jne	.LBB13_15
	jmp	.LBB13_29
.LBB13_2:
	leaq	-34(%r8), %r11
	movq	%r11, %rbx
	shrq	%rbx
	shlq	$8, %r11
	leaq	(%rdx,%r8), %r10
	addq	$-34, %r10
	leaq	(%r11,%rcx), %r9
	addq	$-256, %r9
	movq	%r9, 56(%rsp)
	movq	%rbx, 72(%rsp)
	negq	%rbx
	leaq	(%r8,%rdx), %r14
	addq	$-35, %r14
	addq	%r8, %rdx
	decq	%rdx
	movq	%rdx, 64(%rsp)
	leaq	.Lstatic.47+256(%rip), %r11
	xorl	%r13d, %r13d
	.p2align	4
.LBB13_3:
	movq	%rdi, %r8
	movq	%rcx, %rdi
	cmpq	$0, 72(%rsp)
	je	.LBB13_4
	pxor	%xmm2, %xmm2
	xorl	%ebp, %ebp
	movq	%r11, %rsi
	xorl	%r15d, %r15d
	pxor	%xmm0, %xmm0
	.p2align	4
.LBB13_23:
	movzbl	(%r14,%r15,2), %r12d
	shll	$4, %r12d
	leaq	.Lstatic.44(%rip), %rcx
	movdqu	(%r12,%rcx), %xmm4
	movdqa	.LCPI13_0(%rip), %xmm1
	movdqu	-256(%rsi), %xmm5
	movdqu	(%rsi), %xmm3
	movdqa	%xmm5, %xmm6
	pand	%xmm1, %xmm6
	pshufb	%xmm6, %xmm4
	pxor	%xmm2, %xmm4
	leaq	.Lstatic.45(%rip), %r9
	movdqu	(%r12,%r9), %xmm2
	psrlw	$4, %xmm5
	pand	%xmm1, %xmm5
	pshufb	%xmm5, %xmm2
	pxor	%xmm4, %xmm2
	movq	%rbp, %r12
	xorq	$-2, %r12
	movzbl	(%r10,%r12), %r12d
	shll	$4, %r12d
	movdqu	(%r12,%rcx), %xmm4
	movdqa	%xmm3, %xmm5
	pand	%xmm1, %xmm5
	pshufb	%xmm5, %xmm4
	movdqu	(%r12,%r9), %xmm5
	psrlw	$4, %xmm3
	pand	%xmm1, %xmm3
	pshufb	%xmm3, %xmm5
	pxor	%xmm4, %xmm5
	pxor	%xmm5, %xmm2
	pxor	%xmm5, %xmm0
	decq	%r15
	addq	$512, %rsi
	addq	$2, %rbp
	cmpq	%r15, %rbx
	jne	.LBB13_23
	jmp	.LBB13_24
	.p2align	4
.LBB13_4:
	pxor	%xmm0, %xmm0
	pxor	%xmm2, %xmm2
.LBB13_24:
	movq	%r13, %rbp
	shlq	$4, %rbp
	testb	$1, 40(%rsp)
	je	.LBB13_26
	movq	32(%rsp), %rcx
	movzbl	(%rcx), %ecx
	movq	56(%rsp), %rdx
	movdqu	(%rdx,%rbp), %xmm1
	shll	$4, %ecx
	leaq	.Lstatic.44(%rip), %r9
	movdqu	(%rcx,%r9), %xmm3
	movdqa	.LCPI13_0(%rip), %xmm4
	movdqa	%xmm1, %xmm5
	pand	%xmm4, %xmm5
	pshufb	%xmm5, %xmm3
	leaq	.Lstatic.45(%rip), %r9
	movdqu	(%rcx,%r9), %xmm5
	psrlw	$4, %xmm1
	pand	%xmm4, %xmm1
	pshufb	%xmm1, %xmm5
	pxor	%xmm3, %xmm5
	pxor	%xmm5, %xmm2
.LBB13_26:
	pxor	%xmm5, %xmm5
	xorl	%esi, %esi
	movq	64(%rsp), %r15
	movq	%r11, %r12
	pxor	%xmm1, %xmm1
	.p2align	4
.LBB13_27:
	movzbl	(%r15), %ecx
	shll	$4, %ecx
	leaq	.Lstatic.44(%rip), %r9
	movdqu	(%rcx,%r9), %xmm6
	movdqa	.LCPI13_0(%rip), %xmm3
	movdqu	-256(%r12), %xmm7
	movdqu	(%r12), %xmm4
	movdqa	%xmm7, %xmm8
	pand	%xmm3, %xmm8
	pshufb	%xmm8, %xmm6
	pxor	%xmm5, %xmm6
	leaq	.Lstatic.45(%rip), %rdx
	movdqu	(%rcx,%rdx), %xmm5
	psrlw	$4, %xmm7
	pand	%xmm3, %xmm7
	pshufb	%xmm7, %xmm5
	pxor	%xmm6, %xmm5
	movq	%rsi, %rcx
	xorq	$-2, %rcx
	movzbl	(%rax,%rcx), %ecx
	shll	$4, %ecx
	movdqu	(%rcx,%r9), %xmm6
	movdqa	%xmm4, %xmm7
	pand	%xmm3, %xmm7
	pshufb	%xmm7, %xmm6
	movdqu	(%rcx,%rdx), %xmm7
	psrlw	$4, %xmm4
	pand	%xmm3, %xmm4
	pshufb	%xmm4, %xmm7
	pxor	%xmm6, %xmm7
	pxor	%xmm7, %xmm5
	pxor	%xmm7, %xmm1
	addq	$2, %rsi
	addq	$512, %r12
	addq	$-2, %r15
	cmpq	$34, %rsi
	jne	.LBB13_27
	movq	%rdi, %rcx
	movdqu	8704(%rbp,%rdi), %xmm3
	movdqa	.LCPI13_1(%rip), %xmm7
	pand	%xmm3, %xmm7
	pxor	%xmm6, %xmm6
	pcmpeqb	%xmm6, %xmm7
	movdqa	%xmm7, %xmm10
	pandn	%xmm2, %xmm10
	pxor	%xmm9, %xmm9
	pcmpgtb	%xmm2, %xmm9
	paddb	%xmm2, %xmm2
	movdqa	.LCPI13_2(%rip), %xmm4
	pand	%xmm4, %xmm9
	pxor	%xmm2, %xmm9
	movdqa	.LCPI13_3(%rip), %xmm8
	pand	%xmm3, %xmm8
	pcmpeqb	%xmm6, %xmm8
	movdqa	%xmm8, %xmm11
	pandn	%xmm9, %xmm11
	pxor	%xmm10, %xmm11
	paddb	%xmm9, %xmm9
	pxor	%xmm10, %xmm10
	pcmpgtb	%xmm2, %xmm10
	movdqa	%xmm4, %xmm2
	pand	%xmm4, %xmm10
	pxor	%xmm9, %xmm10
	movdqa	.LCPI13_4(%rip), %xmm4
	pand	%xmm3, %xmm4
	pcmpeqb	%xmm6, %xmm4
	movdqa	%xmm4, %xmm12
	pandn	%xmm10, %xmm12
	pxor	%xmm11, %xmm12
	paddb	%xmm10, %xmm10
	pxor	%xmm11, %xmm11
	pcmpgtb	%xmm9, %xmm11
	pand	%xmm2, %xmm11
	pxor	%xmm10, %xmm11
	movdqa	.LCPI13_5(%rip), %xmm9
	pand	%xmm3, %xmm9
	pcmpeqb	%xmm6, %xmm9
	movdqa	%xmm9, %xmm13
	pandn	%xmm11, %xmm13
	pxor	%xmm12, %xmm13
	paddb	%xmm11, %xmm11
	pxor	%xmm12, %xmm12
	pcmpgtb	%xmm10, %xmm12
	pand	%xmm2, %xmm12
	pxor	%xmm11, %xmm12
	movdqa	.LCPI13_6(%rip), %xmm10
	pand	%xmm3, %xmm10
	pcmpeqb	%xmm6, %xmm10
	movdqa	%xmm10, %xmm15
	pandn	%xmm12, %xmm15
	pxor	%xmm13, %xmm15
	paddb	%xmm12, %xmm12
	pxor	%xmm14, %xmm14
	pcmpgtb	%xmm11, %xmm14
	movdqa	%xmm2, %xmm13
	pand	%xmm2, %xmm14
	pxor	%xmm12, %xmm14
	movdqa	.LCPI13_7(%rip), %xmm2
	pand	%xmm3, %xmm2
	pcmpeqb	%xmm6, %xmm2
	movdqa	%xmm2, %xmm11
	pandn	%xmm14, %xmm11
	pxor	%xmm15, %xmm11
	paddb	%xmm14, %xmm14
	pxor	%xmm15, %xmm15
	pcmpgtb	%xmm12, %xmm15
	pand	%xmm13, %xmm15
	pxor	%xmm12, %xmm12
	pcmpgtb	%xmm3, %xmm12
	pand	.LCPI13_8(%rip), %xmm3
	pxor	%xmm14, %xmm15
	pcmpeqb	%xmm6, %xmm3
	movdqa	%xmm3, %xmm13
	pandn	%xmm15, %xmm13
	pxor	%xmm11, %xmm13
	pxor	%xmm11, %xmm11
	pcmpgtb	%xmm14, %xmm11
	paddb	%xmm15, %xmm15
	movdqa	.LCPI13_2(%rip), %xmm14
	pand	%xmm14, %xmm11
	pxor	%xmm15, %xmm11
	pxor	%xmm5, %xmm13
	pand	%xmm12, %xmm11
	pxor	%xmm11, %xmm13
	pandn	%xmm0, %xmm7
	pxor	%xmm5, %xmm5
	pcmpgtb	%xmm0, %xmm5
	paddb	%xmm0, %xmm0
	pand	%xmm14, %xmm5
	pxor	%xmm0, %xmm5
	pandn	%xmm5, %xmm8
	pxor	%xmm7, %xmm8
	pxor	%xmm7, %xmm7
	pcmpgtb	%xmm0, %xmm7
	paddb	%xmm5, %xmm5
	pand	%xmm14, %xmm7
	pxor	%xmm5, %xmm7
	pandn	%xmm7, %xmm4
	pxor	%xmm8, %xmm4
	pxor	%xmm0, %xmm0
	pcmpgtb	%xmm5, %xmm0
	paddb	%xmm7, %xmm7
	pand	%xmm14, %xmm0
	pxor	%xmm7, %xmm0
	pandn	%xmm0, %xmm9
	pxor	%xmm4, %xmm9
	pxor	%xmm4, %xmm4
	pcmpgtb	%xmm7, %xmm4
	paddb	%xmm0, %xmm0
	pand	%xmm14, %xmm4
	pxor	%xmm0, %xmm4
	pandn	%xmm4, %xmm10
	pxor	%xmm9, %xmm10
	pxor	%xmm5, %xmm5
	pcmpgtb	%xmm0, %xmm5
	paddb	%xmm4, %xmm4
	pand	%xmm14, %xmm5
	pxor	%xmm4, %xmm5
	pandn	%xmm5, %xmm2
	pxor	%xmm10, %xmm2
	pxor	%xmm0, %xmm0
	pcmpgtb	%xmm4, %xmm0
	paddb	%xmm5, %xmm5
	pand	%xmm14, %xmm0
	pxor	%xmm5, %xmm0
	pandn	%xmm0, %xmm3
	pxor	%xmm2, %xmm3
	pcmpgtb	%xmm5, %xmm6
	pand	%xmm14, %xmm6
	paddb	%xmm0, %xmm0
	pxor	%xmm0, %xmm6
	pand	%xmm12, %xmm6
	pxor	%xmm1, %xmm3
	pxor	%xmm6, %xmm3
	movdqu	%xmm13, 80(%rsp,%rbp)
	movdqu	%xmm3, 336(%rsp,%rbp)
	incq	%r13
	addq	$16, %r11
	movq	%r8, %rdi
	cmpq	%r8, %r13
	jne	.LBB13_3
	jmp	.LBB13_29
.LBB13_6:
	testb	$1, %r8b
	jne	.LBB13_8
	shlq	$4, %rdi
	leaq	80(%rsp), %rcx
	xorl	%edx, %edx
	movq	%rdi, %r8
	callq	memset
	leaq	336(%rsp), %rcx
	xorl	%edx, %edx
	movq	%rdi, %r8
	callq	memset
	jmp	.LBB13_29
.LBB13_18:
	movzbl	(%rdx), %r11d
	shll	$4, %r11d
	leaq	.Lstatic.44(%rip), %rcx
	movdqu	(%r11,%rcx), %xmm0
	leaq	.Lstatic.45(%rip), %r10
	movdqu	(%r11,%r10), %xmm1
	negq	%r9
	addq	%r8, %rdx
	decq	%rdx
	leaq	.Lstatic.47+256(%rip), %r8
	xorl	%r11d, %r11d
	.p2align	4
.LBB13_19:
	movq	%r11, %r14
	shlq	$4, %r14
	pxor	%xmm2, %xmm2
	xorl	%esi, %esi
	movq	%r8, %r15
	xorl	%r12d, %r12d
	pxor	%xmm3, %xmm3
	.p2align	4
.LBB13_20:
	movzbl	(%rdx,%r12,2), %r13d
	shll	$4, %r13d
	movdqu	(%r13,%rcx), %xmm6
	movdqa	.LCPI13_0(%rip), %xmm4
	movdqu	-256(%r15), %xmm7
	movdqu	(%r15), %xmm5
	movdqa	%xmm7, %xmm8
	pand	%xmm4, %xmm8
	pshufb	%xmm8, %xmm6
	pxor	%xmm2, %xmm6
	movdqu	(%r13,%r10), %xmm2
	psrlw	$4, %xmm7
	pand	%xmm4, %xmm7
	pshufb	%xmm7, %xmm2
	pxor	%xmm6, %xmm2
	movq	%rsi, %r13
	xorq	$-2, %r13
	movzbl	(%rax,%r13), %r13d
	shll	$4, %r13d
	movdqu	(%r13,%rcx), %xmm6
	movdqa	%xmm5, %xmm7
	pand	%xmm4, %xmm7
	pshufb	%xmm7, %xmm6
	movdqu	(%r13,%r10), %xmm7
	psrlw	$4, %xmm5
	pand	%xmm4, %xmm5
	pshufb	%xmm5, %xmm7
	pxor	%xmm6, %xmm7
	pxor	%xmm7, %xmm2
	pxor	%xmm7, %xmm3
	decq	%r12
	addq	$512, %r15
	addq	$2, %rsi
	cmpq	%r12, %r9
	jne	.LBB13_20
	movdqu	(%rbx,%r14), %xmm5
	movdqa	%xmm5, %xmm6
	pand	%xmm4, %xmm6
	movdqa	%xmm0, %xmm7
	pshufb	%xmm6, %xmm7
	psrlw	$4, %xmm5
	pand	%xmm4, %xmm5
	movdqa	%xmm1, %xmm4
	pshufb	%xmm5, %xmm4
	pxor	%xmm7, %xmm4
	pxor	%xmm2, %xmm4
	movdqu	%xmm4, 80(%rsp,%r14)
	movdqu	%xmm3, 336(%rsp,%r14)
	incq	%r11
	addq	$16, %r8
	cmpq	%rdi, %r11
	jne	.LBB13_19
	jmp	.LBB13_29
.LBB13_8:
	movzbl	(%rdx), %eax
	shll	$4, %eax
	leaq	.Lstatic.44(%rip), %rcx
	movdqu	(%rax,%rcx), %xmm6
	leaq	.Lstatic.45(%rip), %rcx
	movdqu	(%rax,%rcx), %xmm7
	movq	%rdi, %r8
	shlq	$4, %r8
	xorl	%r14d, %r14d
	leaq	336(%rsp), %rcx
	xorl	%edx, %edx
	callq	memset
	cmpq	$1, %rdi
	je	.LBB13_12
	movq	%rdi, %rax
	andq	$-2, %rax
	movl	$16, %ecx
	xorl	%r14d, %r14d
	.p2align	4
.LBB13_10:
	movdqa	.LCPI13_0(%rip), %xmm0
	movdqu	-16(%rbx,%rcx), %xmm1
	movdqu	(%rbx,%rcx), %xmm2
	movdqa	%xmm1, %xmm3
	pand	%xmm0, %xmm3
	movdqa	%xmm6, %xmm4
	pshufb	%xmm3, %xmm4
	psrlw	$4, %xmm1
	pand	%xmm0, %xmm1
	movdqa	%xmm7, %xmm3
	pshufb	%xmm1, %xmm3
	pxor	%xmm4, %xmm3
	movdqu	%xmm3, 64(%rsp,%rcx)
	movdqa	%xmm2, %xmm1
	pand	%xmm0, %xmm1
	movdqa	%xmm6, %xmm3
	pshufb	%xmm1, %xmm3
	psrlw	$4, %xmm2
	pand	%xmm0, %xmm2
	movdqa	%xmm7, %xmm0
	pshufb	%xmm2, %xmm0
	pxor	%xmm3, %xmm0
	movdqu	%xmm0, 80(%rsp,%rcx)
	addq	$2, %r14
	addq	$32, %rcx
	cmpq	%r14, %rax
	jne	.LBB13_10
	testb	$1, %dil
	je	.LBB13_29
.LBB13_12:
	shlq	$4, %r14
	movdqu	(%rbx,%r14), %xmm0
	movdqa	.LCPI13_0(%rip), %xmm1
	movdqa	%xmm0, %xmm2
	pand	%xmm1, %xmm2
	pshufb	%xmm2, %xmm6
	psrlw	$4, %xmm0
	pand	%xmm1, %xmm0
	pshufb	%xmm0, %xmm7
	pxor	%xmm6, %xmm7
	movdqu	%xmm7, 80(%rsp,%r14)
.LBB13_29:
	leaq	592(%rsp), %rdi
	leaq	80(%rsp), %rdx
	movl	$256, %r8d
	movq	%rdi, %rcx
	callq	memcpy
	leaq	848(%rsp), %rcx
	leaq	336(%rsp), %rdx
	movl	$256, %r8d
	callq	memcpy
	movl	$512, %r8d
	movq	48(%rsp), %rcx
	movq	%rdi, %rdx
	callq	memcpy
	movaps	1104(%rsp), %xmm6
	movaps	1120(%rsp), %xmm7
	movaps	1136(%rsp), %xmm8
	movaps	1152(%rsp), %xmm9
	movaps	1168(%rsp), %xmm10
	movaps	1184(%rsp), %xmm11
	movaps	1200(%rsp), %xmm12
	movaps	1216(%rsp), %xmm13
	movaps	1232(%rsp), %xmm14
	movaps	1248(%rsp), %xmm15
	addq	$1272, %rsp
	popq	%rbx
	popq	%rbp
	popq	%rdi
	popq	%rsi
	popq	%r12
	popq	%r13
	popq	%r14
	popq	%r15
	retq
	.seh_endproc

	.def	"dm_code::erasures::correct_rest::<#9f76af21849881bb>";
	.scl	3;
	.type	32;
	.endef
	.p2align	4
"dm_code::erasures::correct_rest::<#9f76af21849881bb>":
.seh_proc "dm_code::erasures::correct_rest::<#9f76af21849881bb>"
	pushq	%r15
	.seh_pushreg %r15
	pushq	%r14
	.seh_pushreg %r14
	pushq	%r12
	.seh_pushreg %r12
	pushq	%rsi
	.seh_pushreg %rsi
	pushq	%rdi
	.seh_pushreg %rdi
	pushq	%rbx
	.seh_pushreg %rbx
	subq	$1480, %rsp
	.seh_stackalloc 1480
	.seh_endprologue
	movq	%r9, %r14
	movq	%r8, %rdi
	movq	%rdx, %rbx
	movq	%rcx, %rsi
	leaq	417(%rsp), %rcx
	movl	$271, %r8d
	xorl	%edx, %edx
	callq	memset
	testq	%r14, %r14
	je	.LBB14_1
	leaq	688(%rsp), %rcx
	movl	$264, %r8d
	xorl	%edx, %edx
	callq	memset
	leaq	952(%rsp), %r15
	movl	$264, %r8d
	movq	%r15, %rcx
	xorl	%edx, %edx
	callq	memset
	xorps	%xmm0, %xmm0
	movaps	%xmm0, 48(%rsp)
	movaps	%xmm0, 64(%rsp)
	movaps	%xmm0, 80(%rsp)
	movaps	%xmm0, 96(%rsp)
	movaps	%xmm0, 112(%rsp)
	movaps	%xmm0, 128(%rsp)
	movq	%rdi, %r8
	subq	%r14, %r8
	leaq	(%rbx,%r8), %r12
	leaq	48(%rsp), %rcx
	movq	%rbx, %rdx
	movq	%r14, %r9
	callq	"dm_code::encoding::divide"
	movl	$96, %eax
	subq	%r14, %rax
	cmpq	$96, %r14
	movl	$0, %r8d
	cmovbq	%rax, %r8
	leaq	(%rsp,%r14), %rcx
	addq	$144, %rcx
	xorl	%edx, %edx
	callq	memset
	leaq	144(%rsp), %rcx
	movq	%r12, %rdx
	movq	%r14, %r8
	callq	memcpy
	movaps	48(%rsp), %xmm0
	movdqa	64(%rsp), %xmm1
	movdqa	80(%rsp), %xmm2
	movdqa	96(%rsp), %xmm3
	xorps	144(%rsp), %xmm0
	pxor	160(%rsp), %xmm1
	movaps	%xmm0, 48(%rsp)
	movdqa	%xmm1, 64(%rsp)
	pxor	176(%rsp), %xmm2
	movdqa	%xmm2, 80(%rsp)
	pxor	192(%rsp), %xmm3
	movdqa	%xmm3, 96(%rsp)
	movdqa	112(%rsp), %xmm0
	pxor	208(%rsp), %xmm0
	movdqa	%xmm0, 112(%rsp)
	movdqa	128(%rsp), %xmm4
	pxor	224(%rsp), %xmm4
	movdqa	%xmm4, 128(%rsp)
	por	48(%rsp), %xmm1
	por	%xmm2, %xmm3
	por	%xmm1, %xmm3
	por	%xmm0, %xmm4
	por	%xmm3, %xmm4
	ptest	%xmm4, %xmm4
	je	.LBB14_7
	movq	%r15, 40(%rsp)
	movq	%r14, 32(%rsp)
	leaq	48(%rsp), %r9
	movq	%rbx, %rcx
	movq	%rdi, %rdx
	movq	%r14, %r8
	callq	"dm_code::correction::mend::<#9f76af21849881bb>"
	testb	%al, %al
	je	.LBB14_6
	leaq	424(%rsp), %rcx
	xorl	%edi, %edi
	movl	$264, %r8d
	xorl	%edx, %edx
	callq	memset
	movb	$1, %al
	jmp	.LBB14_11
.LBB14_1:
	leaq	144(%rsp), %rcx
	movl	$264, %r8d
	xorl	%edx, %edx
	callq	memset
	cmpq	$255, %rdi
	ja	.LBB14_3
	leaq	144(%rsp), %rcx
	movq	%rbx, %rdx
	movq	%rdi, %r8
	callq	memcpy
	movq	%rdi, 400(%rsp)
.LBB14_3:
	leaq	1216(%rsp), %rdi
	leaq	144(%rsp), %rdx
	movl	$264, %r8d
	movq	%rdi, %rcx
	callq	memcpy
	movb	$0, (%rsi)
	leaq	8(%rsi), %rcx
	movl	$264, %r8d
	movq	%rdi, %rdx
	callq	memcpy
	movq	$0, 272(%rsi)
	jmp	.LBB14_12
.LBB14_6:
	testb	%dl, %dl
	je	.LBB14_7
	leaq	424(%rsp), %rcx
	leaq	952(%rsp), %rax
	movl	$264, %r8d
	movl	%edx, %ebx
	movq	%rax, %rdx
	callq	memcpy
	movzbl	%bl, %edi
	xorl	%eax, %eax
	jmp	.LBB14_11
.LBB14_7:
	leaq	144(%rsp), %rcx
	movl	$264, %r8d
	xorl	%edx, %edx
	callq	memset
	cmpq	$255, %rdi
	ja	.LBB14_9
	leaq	144(%rsp), %rcx
	movq	%rbx, %rdx
	movq	%rdi, %r8
	callq	memcpy
	movq	%rdi, 400(%rsp)
.LBB14_9:
	leaq	688(%rsp), %rdi
	leaq	144(%rsp), %rdx
	movl	$264, %r8d
	movq	%rdi, %rcx
	callq	memcpy
	leaq	424(%rsp), %rcx
	movl	$264, %r8d
	movq	%rdi, %rdx
	callq	memcpy
	xorl	%eax, %eax
	xorl	%edi, %edi
.LBB14_11:
	movb	%al, (%rsi)
	leaq	8(%rsi), %rcx
	leaq	424(%rsp), %rdx
	movl	$264, %r8d
	callq	memcpy
	movq	%rdi, 272(%rsi)
.LBB14_12:
	addq	$1480, %rsp
	popq	%rbx
	popq	%rdi
	popq	%rsi
	popq	%r12
	popq	%r14
	popq	%r15
	retq
	.seh_endproc

	.def	"dm_symbol::symbol::inspection::mend_doubtful";
	.scl	3;
	.type	32;
	.endef
	.p2align	4
"dm_symbol::symbol::inspection::mend_doubtful":
.seh_proc "dm_symbol::symbol::inspection::mend_doubtful"
	pushq	%r15
	.seh_pushreg %r15
	pushq	%r14
	.seh_pushreg %r14
	pushq	%r12
	.seh_pushreg %r12
	pushq	%rsi
	.seh_pushreg %rsi
	pushq	%rdi
	.seh_pushreg %rdi
	pushq	%rbx
	.seh_pushreg %rbx
	subq	$2296, %rsp
	.seh_stackalloc 2296
	.seh_endprologue
	movq	%r9, %r15
	movq	%r8, %rsi
	movq	%rdx, %rdi
	movq	2384(%rsp), %rbx
	movzwl	14(%rcx), %eax
	movl	16(%rcx), %r12d
	cmpq	$288, %r8
	ja	.LBB15_6
	movq	(%rcx), %rdx
	movq	6(%rcx), %rcx
	movq	%rcx, 70(%rsp)
	movq	%rdx, 64(%rsp)
	movw	%ax, 78(%rsp)
	movl	%r12d, 80(%rsp)
	leaq	118(%rsp), %r14
	movl	$288, %r8d
	movq	%r14, %rcx
	xorl	%edx, %edx
	callq	memset
	movq	%r15, %rcx
	movq	%r14, %rdx
	callq	"dm_layout::symbols::placing::lift_to"
	movl	$0, 60(%rsp)
	movq	40(%rbx), %r8
	testq	%r8, %r8
	je	.LBB15_3
	shlq	$2, %r8
	movq	%rbx, %rcx
	xorl	%edx, %edx
	callq	memset
	movq	$0, 40(%rbx)
.LBB15_3:
	testw	%r12w, %r12w
	je	.LBB15_11
	movzwl	%r12w, %r15d
	xorl	%r12d, %r12d
	.p2align	4
.LBB15_5:
	movq	$1, 88(%rsp)
	movq	%r14, 96(%rsp)
	movq	%rsi, 104(%rsp)
	movq	%r12, 40(%rsp)
	leaq	88(%rsp), %rax
	movq	%rax, 32(%rsp)
	leaq	60(%rsp), %rcx
	leaq	64(%rsp), %rdx
	movq	%rdi, %r8
	movq	%rsi, %r9
	callq	"dm_symbol::symbol::correction::restore_block"
	movzwl	61(%rsp), %eax
	movzbl	60(%rsp), %ecx
	movzbl	63(%rsp), %edx
	movq	40(%rbx), %r8
	movb	%cl, (%rbx,%r8,4)
	movb	%dl, 3(%rbx,%r8,4)
	movw	%ax, 1(%rbx,%r8,4)
	incq	%r8
	movq	%r8, 40(%rbx)
	incq	%r12
	cmpq	%r12, %r15
	jne	.LBB15_5
	jmp	.LBB15_11
.LBB15_6:
	movq	(%rcx), %rdx
	movq	6(%rcx), %rcx
	movq	%rcx, 70(%rsp)
	movq	%rdx, 64(%rsp)
	movw	%ax, 78(%rsp)
	movl	%r12d, 80(%rsp)
	leaq	118(%rsp), %r14
	movl	$2178, %r8d
	movq	%r14, %rcx
	xorl	%edx, %edx
	callq	memset
	movq	%r15, %rcx
	movq	%r14, %rdx
	callq	"dm_layout::symbols::placing::lift_to"
	movl	$0, 60(%rsp)
	movq	40(%rbx), %r8
	testq	%r8, %r8
	je	.LBB15_8
	shlq	$2, %r8
	movq	%rbx, %rcx
	xorl	%edx, %edx
	callq	memset
	movq	$0, 40(%rbx)
.LBB15_8:
	testw	%r12w, %r12w
	je	.LBB15_11
	movzwl	%r12w, %r15d
	xorl	%r12d, %r12d
	.p2align	4
.LBB15_10:
	movq	$1, 88(%rsp)
	movq	%r14, 96(%rsp)
	movq	%rsi, 104(%rsp)
	movq	%r12, 40(%rsp)
	leaq	88(%rsp), %rax
	movq	%rax, 32(%rsp)
	leaq	60(%rsp), %rcx
	leaq	64(%rsp), %rdx
	movq	%rdi, %r8
	movq	%rsi, %r9
	callq	"dm_symbol::symbol::correction::restore_block"
	movzwl	61(%rsp), %eax
	movzbl	60(%rsp), %ecx
	movzbl	63(%rsp), %edx
	movq	40(%rbx), %r8
	movb	%cl, (%rbx,%r8,4)
	movb	%dl, 3(%rbx,%r8,4)
	movw	%ax, 1(%rbx,%r8,4)
	incq	%r8
	movq	%r8, 40(%rbx)
	incq	%r12
	cmpq	%r12, %r15
	jne	.LBB15_10
.LBB15_11:
	addq	$2296, %rsp
	popq	%rbx
	popq	%rdi
	popq	%rsi
	popq	%r12
	popq	%r14
	popq	%r15
	retq
	.seh_endproc

	.def	"dm_symbol::symbol::inspection::mend_restarted";
	.scl	3;
	.type	32;
	.endef
	.p2align	4
"dm_symbol::symbol::inspection::mend_restarted":
.seh_proc "dm_symbol::symbol::inspection::mend_restarted"
	pushq	%r15
	.seh_pushreg %r15
	pushq	%r14
	.seh_pushreg %r14
	pushq	%r12
	.seh_pushreg %r12
	pushq	%rsi
	.seh_pushreg %rsi
	pushq	%rdi
	.seh_pushreg %rdi
	pushq	%rbp
	.seh_pushreg %rbp
	pushq	%rbx
	.seh_pushreg %rbx
	subq	$2272, %rsp
	.seh_stackalloc 2272
	.seh_endprologue
	movq	%r9, %rdi
	movq	%r8, %rsi
	movl	%edx, %ebp
	movq	%rcx, %r14
	movq	2368(%rsp), %rbx
	leaq	94(%rsp), %r15
	movl	$2178, %r8d
	movq	%r15, %rcx
	xorl	%edx, %edx
	callq	memset
	xorps	%xmm0, %xmm0
	movaps	%xmm0, 48(%rsp)
	movaps	%xmm0, 64(%rsp)
	movq	$0, 80(%rsp)
	leaq	48(%rsp), %r12
	movq	%r12, 40(%rsp)
	movq	%rbx, 32(%rsp)
	movq	%r14, %rcx
	movl	%ebp, %edx
	movq	%rsi, %r8
	movq	%r15, %r9
	callq	"dm_symbol::symbol::dealing::restore_restarted"
	testb	%al, %al
	je	.LBB16_8
	movl	%eax, %ebp
	movq	2376(%rsp), %rsi
	leaq	94(%rsp), %rdx
	movq	%rdi, %rcx
	movq	%rbx, %r8
	callq	memcpy
	movq	80(%rsp), %rdi
	movq	40(%rsi), %r8
	testq	%r8, %r8
	je	.LBB16_3
	shlq	$2, %r8
	movq	%rsi, %rcx
	xorl	%edx, %edx
	callq	memset
	movq	$0, 40(%rsi)
.LBB16_3:
	testq	%rdi, %rdi
	movl	%ebp, %eax
	je	.LBB16_8
	cmpq	$1, %rdi
	jne	.LBB16_9
	xorl	%ecx, %ecx
	jmp	.LBB16_7
.LBB16_9:
	movq	%rdi, %rdx
	andq	$-2, %rdx
	xorl	%ecx, %ecx
	.p2align	4
.LBB16_10:
	movzwl	(%r12), %r8d
	movzbl	2(%r12), %r9d
	movb	$1, (%rsi,%rcx,4)
	movb	%r9b, 3(%rsi,%rcx,4)
	movw	%r8w, 1(%rsi,%rcx,4)
	leaq	1(%rcx), %r8
	movq	%r8, 40(%rsi)
	movzwl	3(%r12), %r8d
	movzbl	5(%r12), %r9d
	movb	$1, 4(%rsi,%rcx,4)
	movb	%r9b, 7(%rsi,%rcx,4)
	movw	%r8w, 5(%rsi,%rcx,4)
	addq	$2, %rcx
	movq	%rcx, 40(%rsi)
	addq	$6, %r12
	cmpq	%rcx, %rdx
	jne	.LBB16_10
	testb	$1, %dil
	je	.LBB16_8
.LBB16_7:
	leaq	(%rcx,%rcx,2), %rdx
	movzwl	48(%rsp,%rdx), %r8d
	movzbl	50(%rsp,%rdx), %edx
	movb	$1, (%rsi,%rcx,4)
	movb	%dl, 3(%rsi,%rcx,4)
	movw	%r8w, 1(%rsi,%rcx,4)
	incq	%rcx
	movq	%rcx, 40(%rsi)
.LBB16_8:
	addq	$2272, %rsp
	popq	%rbx
	popq	%rbp
	popq	%rdi
	popq	%rsi
	popq	%r12
	popq	%r14
	popq	%r15
	retq
	.seh_endproc

	.def	"dm_symbol::symbol::dealing::restore_restarted";
	.scl	3;
	.type	32;
	.endef
	.p2align	4
"dm_symbol::symbol::dealing::restore_restarted":
.seh_proc "dm_symbol::symbol::dealing::restore_restarted"
	pushq	%r15
	.seh_pushreg %r15
	pushq	%r14
	.seh_pushreg %r14
	pushq	%r13
	.seh_pushreg %r13
	pushq	%r12
	.seh_pushreg %r12
	pushq	%rsi
	.seh_pushreg %rsi
	pushq	%rdi
	.seh_pushreg %rdi
	pushq	%rbp
	.seh_pushreg %rbp
	pushq	%rbx
	.seh_pushreg %rbx
	subq	$760, %rsp
	.seh_stackalloc 760
	.seh_endprologue
	movq	%r9, %rsi
	movl	%edx, %ebp
	movzwl	(%rcx), %r9d
	movzwl	2(%rcx), %edx
	movups	4(%rcx), %xmm0
	movaps	%xmm0, 80(%rsp)
	xorl	%eax, %eax
	cmpw	$144, %r9w
	jne	.LBB17_21
	movzwl	%dx, %edx
	cmpl	$144, %edx
	jne	.LBB17_21
	movq	%r8, %r13
	movq	872(%rsp), %r14
	movq	864(%rsp), %rbx
	movq	%rsi, %rdx
	callq	"dm_layout::symbols::placing::lift_to"
	xorl	%edi, %edi
	leaq	128(%rsp), %rcx
	movl	$632, %r8d
	xorl	%edx, %edx
	callq	memset
	leaq	3116(%rsi), %r9
	movl	$1558, %ecx
	.p2align	4
.LBB17_3:
	movabsq	$-3689348814741910323, %r12
	movq	%rdi, %rax
	mulq	%r12
	movq	%rdx, %r8
	shrq	$2, %r8
	andq	$-2, %r8
	movq	%rcx, %rax
	mulq	%r12
	leaq	(%r8,%r8,4), %rax
	shrq	$2, %rdx
	andq	$-2, %rdx
	leaq	(%rdx,%rdx,4), %rdx
	subq	%rdx, %rax
	addq	%r9, %rax
	movzbl	(%rdi,%rax), %eax
	movb	%al, 128(%rsp,%rdi)
	incq	%rdi
	incq	%rcx
	cmpq	$620, %rdi
	jne	.LBB17_3
	leaq	1558(%rsi), %rdi
	leaq	128(%rsp), %r15
	movl	$620, %r8d
	movq	%rdi, %rcx
	movq	%r15, %rdx
	callq	memcpy
	movl	$9437328, 108(%rsp)
	movaps	80(%rsp), %xmm0
	movups	%xmm0, 112(%rsp)
	testb	$1, %bpl
	je	.LBB17_6
	movq	%r14, 40(%rsp)
	movq	%r13, 32(%rsp)
	leaq	108(%rsp), %rcx
	movq	%rsi, %rdx
	movq	%rbx, %r8
	movb	$1, %r9b
	callq	"dm_symbol::symbol::reading::restore_doubtful"
	jmp	.LBB17_16
.LBB17_6:
	movl	$9437328, 60(%rsp)
	movaps	80(%rsp), %xmm0
	movups	%xmm0, 64(%rsp)
	movl	$0, 56(%rsp)
	movq	32(%r14), %rax
	testq	%rax, %rax
	je	.LBB17_8
	leaq	(%rax,%rax,2), %r8
	movq	%r14, %rcx
	xorl	%edx, %edx
	callq	memset
	movq	$0, 32(%r14)
.LBB17_8:
	movzbl	76(%rsp), %r13d
	testq	%r13, %r13
	je	.LBB17_13
	leaq	57(%rsp), %rbp
	xorl	%edi, %edi
	.p2align	4
.LBB17_10:
	xorps	%xmm0, %xmm0
	movaps	%xmm0, 128(%rsp)
	movq	$0, 144(%rsp)
	movq	%rdi, 40(%rsp)
	movq	%r15, 32(%rsp)
	leaq	56(%rsp), %rcx
	leaq	60(%rsp), %rdx
	movq	%rsi, %r8
	movq	%rbx, %r9
	callq	"dm_symbol::symbol::correction::restore_block"
	cmpb	$1, 56(%rsp)
	jne	.LBB17_14
	movq	32(%r14), %rax
	leaq	(%rax,%rax,2), %rcx
	movzbl	2(%rbp), %edx
	movb	%dl, 2(%r14,%rcx)
	movzwl	(%rbp), %edx
	movw	%dx, (%r14,%rcx)
	incq	%rax
	movq	%rax, 32(%r14)
	incq	%rdi
	cmpq	%rdi, %r13
	jne	.LBB17_10
	xorl	%eax, %eax
	jmp	.LBB17_15
.LBB17_13:
	xorl	%eax, %eax
	jmp	.LBB17_16
.LBB17_14:
	movb	$1, %al
.LBB17_15:
	leaq	1558(%rsi), %rdi
.LBB17_16:
	testb	%al, %al
	je	.LBB17_18
	xorl	%eax, %eax
	jmp	.LBB17_21
.LBB17_18:
	xorl	%ebx, %ebx
	leaq	128(%rsp), %rcx
	movl	$632, %r8d
	xorl	%edx, %edx
	callq	memset
	addq	$1560, %rsi
	movl	$2, %ecx
	.p2align	4
.LBB17_19:
	movq	%rbx, %rax
	mulq	%r12
	movq	%rdx, %r8
	shrq	$2, %r8
	andq	$-2, %r8
	movq	%rcx, %rax
	mulq	%r12
	leaq	(%r8,%r8,4), %rax
	shrq	$2, %rdx
	andq	$-2, %rdx
	leaq	(%rdx,%rdx,4), %rdx
	subq	%rdx, %rax
	addq	%rsi, %rax
	movzbl	(%rbx,%rax), %eax
	movb	%al, 128(%rsp,%rbx)
	incq	%rbx
	incq	%rcx
	cmpq	$620, %rbx
	jne	.LBB17_19
	leaq	128(%rsp), %rdx
	movl	$620, %r8d
	movq	%rdi, %rcx
	callq	memcpy
	movb	$1, %al
.LBB17_21:
	addq	$760, %rsp
	popq	%rbx
	popq	%rbp
	popq	%rdi
	popq	%rsi
	popq	%r12
	popq	%r13
	popq	%r14
	popq	%r15
	retq
	.seh_endproc

	.def	"dm_symbol::symbol::reading::restore_doubtful";
	.scl	3;
	.type	32;
	.endef
	.p2align	4
"dm_symbol::symbol::reading::restore_doubtful":
.seh_proc "dm_symbol::symbol::reading::restore_doubtful"
	pushq	%r15
	.seh_pushreg %r15
	pushq	%r14
	.seh_pushreg %r14
	pushq	%r13
	.seh_pushreg %r13
	pushq	%r12
	.seh_pushreg %r12
	pushq	%rsi
	.seh_pushreg %rsi
	pushq	%rdi
	.seh_pushreg %rdi
	pushq	%rbp
	.seh_pushreg %rbp
	pushq	%rbx
	.seh_pushreg %rbx
	subq	$2904, %rsp
	.seh_stackalloc 2904
	.seh_endprologue
	movl	%r9d, %ebp
	movq	%r8, %rsi
	movq	%rdx, %rdi
	movq	%rcx, %r14
	movq	3016(%rsp), %rbx
	movq	3008(%rsp), %r12
	movzwl	14(%rcx), %eax
	movw	%ax, 62(%rsp)
	movl	16(%rcx), %r13d
	cmpq	$288, %r8
	ja	.LBB18_12
	leaq	88(%rsp), %r15
	movl	$288, %r8d
	movq	%r15, %rcx
	xorl	%edx, %edx
	callq	memset
	movq	%r12, %rcx
	movq	%r15, %rdx
	callq	"dm_layout::symbols::placing::lift_to"
	cmpb	$1, %bpl
	jne	.LBB18_5
	xorl	%r12d, %r12d
	leaq	720(%rsp), %rcx
	movl	$632, %r8d
	xorl	%edx, %edx
	callq	memset
	movl	$1558, %ecx
	leaq	3204(%rsp), %r9
	.p2align	4
.LBB18_3:
	movabsq	$-3689348814741910323, %r10
	movq	%r12, %rax
	mulq	%r10
	movq	%rdx, %r8
	shrq	$2, %r8
	andq	$-2, %r8
	movq	%rcx, %rax
	mulq	%r10
	leaq	(%r8,%r8,4), %rax
	shrq	$2, %rdx
	andq	$-2, %rdx
	leaq	(%rdx,%rdx,4), %rdx
	subq	%rdx, %rax
	addq	%r9, %rax
	movzbl	(%r12,%rax), %eax
	movb	%al, 720(%rsp,%r12)
	incq	%r12
	incq	%rcx
	cmpq	$620, %r12
	jne	.LBB18_3
	leaq	1646(%rsp), %rcx
	leaq	720(%rsp), %rdx
	movl	$620, %r8d
	callq	memcpy
.LBB18_5:
	movq	(%r14), %rax
	movq	6(%r14), %rcx
	movq	%rax, 64(%rsp)
	movq	%rcx, 70(%rsp)
	movzwl	62(%rsp), %eax
	movw	%ax, 78(%rsp)
	movl	%r13d, 80(%rsp)
	movl	$0, 56(%rsp)
	movq	32(%rbx), %rax
	testq	%rax, %rax
	je	.LBB18_7
	leaq	(%rax,%rax,2), %r8
	movq	%rbx, %rcx
	xorl	%edx, %edx
	callq	memset
	movq	$0, 32(%rbx)
.LBB18_7:
	andw	$255, %r13w
	je	.LBB18_8
	leaq	57(%rsp), %r12
	movzwl	%r13w, %r13d
	xorl	%r14d, %r14d
	.p2align	4
.LBB18_10:
	movq	$1, 720(%rsp)
	movq	%r15, 728(%rsp)
	movq	%rsi, 736(%rsp)
	movq	%r14, 40(%rsp)
	leaq	720(%rsp), %rax
	movq	%rax, 32(%rsp)
	leaq	56(%rsp), %rcx
	leaq	64(%rsp), %rdx
	movq	%rdi, %r8
	movq	%rsi, %r9
	callq	"dm_symbol::symbol::correction::restore_block"
	cmpb	$1, 56(%rsp)
	jne	.LBB18_22
	movq	32(%rbx), %rax
	leaq	(%rax,%rax,2), %rcx
	movzbl	2(%r12), %edx
	movb	%dl, 2(%rbx,%rcx)
	movzwl	(%r12), %edx
	movw	%dx, (%rbx,%rcx)
	incq	%rax
	movq	%rax, 32(%rbx)
	incq	%r14
	cmpq	%r14, %r13
	jne	.LBB18_10
	jmp	.LBB18_8
.LBB18_12:
	leaq	720(%rsp), %r15
	movl	$2178, %r8d
	movq	%r15, %rcx
	xorl	%edx, %edx
	callq	memset
	movq	%r12, %rcx
	movq	%r15, %rdx
	callq	"dm_layout::symbols::placing::lift_to"
	cmpb	$1, %bpl
	jne	.LBB18_16
	xorl	%r12d, %r12d
	leaq	88(%rsp), %rcx
	movl	$632, %r8d
	xorl	%edx, %edx
	callq	memset
	movl	$1558, %ecx
	leaq	3836(%rsp), %r9
	.p2align	4
.LBB18_14:
	movabsq	$-3689348814741910323, %r10
	movq	%r12, %rax
	mulq	%r10
	movq	%rdx, %r8
	shrq	$2, %r8
	andq	$-2, %r8
	movq	%rcx, %rax
	mulq	%r10
	leaq	(%r8,%r8,4), %rax
	shrq	$2, %rdx
	andq	$-2, %rdx
	leaq	(%rdx,%rdx,4), %rdx
	subq	%rdx, %rax
	addq	%r9, %rax
	movzbl	(%r12,%rax), %eax
	movb	%al, 88(%rsp,%r12)
	incq	%r12
	incq	%rcx
	cmpq	$620, %r12
	jne	.LBB18_14
	leaq	2278(%rsp), %rcx
	leaq	88(%rsp), %rdx
	movl	$620, %r8d
	callq	memcpy
.LBB18_16:
	movq	(%r14), %rax
	movq	6(%r14), %rcx
	movq	%rax, 64(%rsp)
	movq	%rcx, 70(%rsp)
	movzwl	62(%rsp), %eax
	movw	%ax, 78(%rsp)
	movl	%r13d, 80(%rsp)
	movl	$0, 56(%rsp)
	movq	32(%rbx), %rax
	testq	%rax, %rax
	je	.LBB18_18
	leaq	(%rax,%rax,2), %r8
	movq	%rbx, %rcx
	xorl	%edx, %edx
	callq	memset
	movq	$0, 32(%rbx)
.LBB18_18:
	andw	$255, %r13w
	je	.LBB18_8
	leaq	57(%rsp), %r12
	movzwl	%r13w, %r13d
	xorl	%r14d, %r14d
	.p2align	4
.LBB18_20:
	movq	$1, 88(%rsp)
	movq	%r15, 96(%rsp)
	movq	%rsi, 104(%rsp)
	movq	%r14, 40(%rsp)
	leaq	88(%rsp), %rax
	movq	%rax, 32(%rsp)
	leaq	56(%rsp), %rcx
	leaq	64(%rsp), %rdx
	movq	%rdi, %r8
	movq	%rsi, %r9
	callq	"dm_symbol::symbol::correction::restore_block"
	cmpb	$1, 56(%rsp)
	jne	.LBB18_22
	movq	32(%rbx), %rax
	leaq	(%rax,%rax,2), %rcx
	movzbl	2(%r12), %edx
	movb	%dl, 2(%rbx,%rcx)
	movzwl	(%r12), %edx
	movw	%dx, (%rbx,%rcx)
	incq	%rax
	movq	%rax, 32(%rbx)
	incq	%r14
	cmpq	%r14, %r13
	jne	.LBB18_20
.LBB18_8:
	xorl	%r14d, %r14d
	xorl	%eax, %eax
	jmp	.LBB18_23
.LBB18_22:
	movb	$1, %al
.LBB18_23:
	movl	%r14d, %edx
	addq	$2904, %rsp
	popq	%rbx
	popq	%rbp
	popq	%rdi
	popq	%rsi
	popq	%r12
	popq	%r13
	popq	%r14
	popq	%r15
	retq
	.seh_endproc

	.def	"ecc200_calls::inspection::find_designators::<=31>";
	.scl	3;
	.type	32;
	.endef
	.p2align	4
"ecc200_calls::inspection::find_designators::<=31>":
.seh_proc "ecc200_calls::inspection::find_designators::<=31>"
	pushq	%rsi
	.seh_pushreg %rsi
	subq	$288, %rsp
	.seh_stackalloc 288
	.seh_endprologue
	movq	%r8, %rax
	movq	%rcx, %rsi
	pxor	%xmm0, %xmm0
	movdqa	%xmm0, 256(%rsp)
	movdqa	%xmm0, 240(%rsp)
	movdqa	%xmm0, 224(%rsp)
	movdqa	%xmm0, 208(%rsp)
	movdqa	%xmm0, 192(%rsp)
	movdqa	%xmm0, 176(%rsp)
	movdqa	%xmm0, 160(%rsp)
	movdqa	%xmm0, 144(%rsp)
	movdqa	%xmm0, 128(%rsp)
	movdqa	%xmm0, 112(%rsp)
	movdqa	%xmm0, 96(%rsp)
	movdqa	%xmm0, 80(%rsp)
	movdqa	%xmm0, 64(%rsp)
	movdqa	%xmm0, 48(%rsp)
	movdqa	%xmm0, 32(%rsp)
	movq	$0, 272(%rsp)
	leaq	32(%rsp), %r8
	movq	%rdx, %rcx
	movq	%rax, %rdx
	callq	"dm_words::contents::designation::designations_to"
	movw	%ax, 18(%rsi)
	testq	%rax, %rax
	je	.LBB19_6
	cmpq	$3, %rax
	jae	.LBB19_3
	xorl	%ecx, %ecx
	jmp	.LBB19_5
.LBB19_3:
	movq	%rax, %rcx
	orq	$-2, %rcx
	addq	%rax, %rcx
	xorl	%edx, %edx
	.p2align	4
.LBB19_4:
	movd	32(%rsp,%rdx,8), %xmm0
	pinsrw	$1, 40(%rsp,%rdx,8), %xmm0
	movdqu	36(%rsp,%rdx,8), %xmm1
	pmovzxwd	%xmm0, %xmm0
	pshufd	$80, %xmm0, %xmm0
	pblendw	$51, %xmm1, %xmm0
	movdqu	%xmm0, 20(%rsi,%rdx,8)
	addq	$2, %rdx
	cmpq	%rdx, %rcx
	jne	.LBB19_4
	.p2align	4
.LBB19_5:
	movzwl	32(%rsp,%rcx,8), %edx
	movl	36(%rsp,%rcx,8), %r8d
	movl	%r8d, 20(%rsi,%rcx,8)
	movl	%edx, 24(%rsi,%rcx,8)
	incq	%rcx
	cmpq	%rcx, %rax
	jne	.LBB19_5
.LBB19_6:
	addq	$288, %rsp
	popq	%rsi
	retq
	.seh_endproc

	.def	"dm_words::contents::designation::designations_to";
	.scl	3;
	.type	32;
	.endef
	.p2align	4
"dm_words::contents::designation::designations_to":
.seh_proc "dm_words::contents::designation::designations_to"
	pushq	%r15
	.seh_pushreg %r15
	pushq	%r14
	.seh_pushreg %r14
	pushq	%rsi
	.seh_pushreg %rsi
	pushq	%rdi
	.seh_pushreg %rdi
	pushq	%rbx
	.seh_pushreg %rbx
	movl	$6352, %eax
	callq	___chkstk_ms
	subq	%rax, %rsp
	.seh_stackalloc 6352
	.seh_endprologue
	movq	%r8, %rsi
	movq	%rdx, %rdi
	movq	%rcx, %rbx
	xorps	%xmm0, %xmm0
	movaps	%xmm0, 64(%rsp)
	movq	$0, 80(%rsp)
	testq	%rdx, %rdx
	je	.LBB20_5
	movzbl	(%rbx), %eax
	testb	%al, %al
	je	.LBB20_5
	cmpb	$-127, %al
	jb	.LBB20_4
	sete	%cl
	cmpb	$-26, %al
	setae	%al
	orb	%cl, %al
	jne	.LBB20_5
.LBB20_4:
	xorl	%r14d, %r14d
	jmp	.LBB20_7
.LBB20_5:
	leaq	64(%rsp), %rcx
	movq	%rbx, %rdx
	movq	%rdi, %r8
	callq	"dm_words::contents::opening::opening_asked"
	cmpb	$1, 64(%rsp)
	jne	.LBB20_36
	movq	80(%rsp), %r14
.LBB20_7:
	xorl	%r15d, %r15d
	jmp	.LBB20_9
	.p2align	4
.LBB20_8:
	addq	%rax, %r14
.LBB20_9:
	cmpq	%rdi, %r14
	jae	.LBB20_18
	movzbl	(%rbx,%r14), %ecx
	testl	%ecx, %ecx
	je	.LBB20_18
	cmpl	$241, %ecx
	jne	.LBB20_16
	leaq	1(%r14), %rdx
	movq	%rdi, %r8
	subq	%rdx, %r8
	je	.LBB20_36
	movzbl	(%rbx,%rdx), %ecx
	testl	%ecx, %ecx
	je	.LBB20_36
	testb	%cl, %cl
	js	.LBB20_21
	decl	%ecx
	movl	$2, %eax
	jmp	.LBB20_32
.LBB20_16:
	movl	$1, %eax
	cmpb	$-127, %cl
	jb	.LBB20_8
	setne	%dl
	cmpb	$-26, %cl
	setb	%cl
	testb	%cl, %dl
	jne	.LBB20_8
	.p2align	4
.LBB20_18:
	xorps	%xmm0, %xmm0
	movaps	%xmm0, 64(%rsp)
	movq	$0, 80(%rsp)
	movq	$0, 96(%rsp)
	leaq	96(%rsp), %rax
	movq	%rax, 48(%rsp)
	leaq	106(%rsp), %rax
	movq	%rax, 40(%rsp)
	movq	%r14, 32(%rsp)
	leaq	64(%rsp), %rcx
	movb	$1, %dl
	movq	%rbx, %r8
	movq	%rdi, %r9
	callq	"dm_words::reading::next_part"
	movzbl	64(%rsp), %eax
	testb	%al, %al
	jne	.LBB20_33
	cmpb	$1, 72(%rsp)
	jne	.LBB20_33
	movq	80(%rsp), %rax
	jmp	.LBB20_8
.LBB20_21:
	cmpb	$-65, %cl
	ja	.LBB20_25
	cmpq	$1, %r8
	je	.LBB20_36
	movzbl	1(%rbx,%rdx), %eax
	leal	-1(%rax), %edx
	cmpb	$-3, %dl
	ja	.LBB20_36
	leal	(%rcx,%rcx), %edx
	shll	$8, %ecx
	subl	%edx, %ecx
	addl	%eax, %ecx
	addl	$-32386, %ecx
	movl	$3, %eax
	jmp	.LBB20_32
.LBB20_25:
	xorl	%eax, %eax
	cmpq	$1, %r8
	je	.LBB20_37
	cmpb	$-49, %cl
	ja	.LBB20_37
	cmpq	$3, %r8
	jb	.LBB20_36
	movzbl	1(%rbx,%rdx), %r8d
	leal	-1(%r8), %r9d
	xorl	%eax, %eax
	cmpb	$-3, %r9b
	ja	.LBB20_37
	movzbl	2(%rbx,%rdx), %edx
	leal	-1(%rdx), %r9d
	cmpb	$-3, %r9b
	ja	.LBB20_37
	imull	$64516, %ecx, %eax
	leal	(%r8,%r8), %ecx
	shll	$8, %r8d
	subl	%ecx, %r8d
	addl	%eax, %r8d
	leal	(%r8,%rdx), %eax
	cmpl	$13370943, %eax
	ja	.LBB20_36
	leal	(%rdx,%r8), %ecx
	addl	$-12370944, %ecx
	movl	$4, %eax
.LBB20_32:
	movw	%r14w, (%rsi,%r15,8)
	movw	$0, 2(%rsi,%r15,8)
	movl	%ecx, 4(%rsi,%r15,8)
	incq	%r15
	addq	%rax, %r14
	jmp	.LBB20_9
.LBB20_36:
	xorl	%eax, %eax
	jmp	.LBB20_37
.LBB20_33:
	xorl	%ecx, %ecx
	testb	%al, %al
	cmovneq	%rcx, %r15
	movq	%r15, %rax
.LBB20_37:
	addq	$6352, %rsp
	popq	%rbx
	popq	%rdi
	popq	%rsi
	popq	%r14
	popq	%r15
	retq
	.seh_endproc

	.def	"dm_words::contents::opening::opening_asked";
	.scl	3;
	.type	32;
	.endef
	.p2align	4
"dm_words::contents::opening::opening_asked":
.seh_proc "dm_words::contents::opening::opening_asked"
	pushq	%rsi
	.seh_pushreg %rsi
	pushq	%rdi
	.seh_pushreg %rdi
	pushq	%rbx
	.seh_pushreg %rbx
	.seh_endprologue
	xorl	%eax, %eax
	testq	%r8, %r8
	je	.LBB21_5
	movzbl	(%rdx), %r9d
	cmpl	$233, %r9d
	je	.LBB21_6
	cmpl	$234, %r9d
	jne	.LBB21_11
	movl	$1, %edx
	xorl	%r8d, %r8d
.LBB21_4:
	movq	$1, (%rcx)
	movb	$1, 8(%rcx)
	movb	%r8b, 9(%rcx)
	movl	%eax, 10(%rcx)
	movq	%rdx, 16(%rcx)
	jmp	.LBB21_26
.LBB21_5:
	xorl	%r11d, %r11d
	xorl	%r10d, %r10d
	jmp	.LBB21_25
.LBB21_6:
	cmpq	$1, %r8
	je	.LBB21_21
	cmpq	$3, %r8
	jb	.LBB21_21
	je	.LBB21_21
	movzbl	1(%rdx), %r10d
	movzbl	2(%rdx), %eax
	movzbl	3(%rdx), %r9d
	movl	%r10d, %edx
	shrb	$4, %dl
	andl	$15, %r10d
	movl	$17, %r8d
	subl	%r10d, %r8d
	cmpb	%r8b, %dl
	setb	%r11b
	testl	%r10d, %r10d
	setne	%r10b
	leal	-1(%rax), %esi
	cmpb	$-2, %sil
	setb	%bl
	andb	%r10b, %bl
	andb	%r11b, %bl
	leal	-1(%r9), %r10d
	cmpb	$-2, %r10b
	setb	%r10b
	testb	%r10b, %bl
	je	.LBB21_21
	shll	$24, %r9d
	shll	$16, %eax
	orl	%r9d, %eax
	shll	$8, %r8d
	orl	%eax, %r8d
	movzbl	%dl, %eax
	addl	%r8d, %eax
	incl	%eax
	movl	$4, %edx
	movb	$1, %r8b
	jmp	.LBB21_4
.LBB21_11:
	movl	$1, %r9d
	.p2align	4
.LBB21_12:
	movzbl	-1(%rdx,%r9), %r11d
	cmpl	$236, %r11d
	je	.LBB21_23
	cmpl	$237, %r11d
	je	.LBB21_22
	cmpq	%r8, %r9
	jae	.LBB21_16
	cmpb	$-2, (%rdx,%r9)
	sete	%sil
	jmp	.LBB21_17
	.p2align	4
.LBB21_16:
	xorl	%esi, %esi
.LBB21_17:
	xorl	%r10d, %r10d
	xorl	%eax, %eax
	addl	$-230, %r11d
	cmpl	$9, %r11d
	ja	.LBB21_28
	movl	$769, %edi
	btl	%r11d, %edi
	movl	$0, %r11d
	jae	.LBB21_25
	cmpq	%r8, %r9
	setae	%r11b
	xorb	$1, %sil
	xorl	%r10d, %r10d
	xorl	%eax, %eax
	orb	%r11b, %sil
	jne	.LBB21_28
	leaq	1(%r9), %rsi
	addq	$2, %r9
	movl	$0, %r11d
	cmpq	%r8, %rsi
	jb	.LBB21_12
	jmp	.LBB21_25
.LBB21_21:
	movq	$0, 16(%rcx)
	movq	$0, (%rcx)
	movq	$0, 6(%rcx)
	jmp	.LBB21_26
.LBB21_22:
	movb	$2, %r11b
	movb	$54, %al
	jmp	.LBB21_24
.LBB21_23:
	movb	$2, %r11b
	movb	$53, %al
.LBB21_24:
	movq	%r9, %r10
	jmp	.LBB21_25
.LBB21_28:
	xorl	%r11d, %r11d
.LBB21_25:
	movq	$1, (%rcx)
	movb	%r11b, 8(%rcx)
	movb	%al, 9(%rcx)
	movl	$0, 10(%rcx)
	movq	%r10, 16(%rcx)
.LBB21_26:
	popq	%rbx
	popq	%rdi
	popq	%rsi
	retq
	.seh_endproc

	.def	"dm_words::reading::next_part";
	.scl	3;
	.type	32;
	.endef
	.p2align	4
"dm_words::reading::next_part":
.seh_proc "dm_words::reading::next_part"
	pushq	%r15
	.seh_pushreg %r15
	pushq	%r14
	.seh_pushreg %r14
	pushq	%r13
	.seh_pushreg %r13
	pushq	%r12
	.seh_pushreg %r12
	pushq	%rsi
	.seh_pushreg %rsi
	pushq	%rdi
	.seh_pushreg %rdi
	pushq	%rbp
	.seh_pushreg %rbp
	pushq	%rbx
	.seh_pushreg %rbx
	subq	$2440, %rsp
	.seh_stackalloc 2440
	.seh_endprologue
	movq	2544(%rsp), %r13
	movq	%r9, %rax
	subq	%r13, %rax
	jbe	.LBB22_5
	movq	2560(%rsp), %r15
	movq	2552(%rsp), %r12
	movzbl	(%r8,%r13), %edi
	movzbl	%dil, %r10d
	xorl	%esi, %esi
	leal	-230(%r10), %r11d
	cmpl	$11, %r11d
	ja	.LBB22_10
	leaq	.LJTI22_0(%rip), %r10
	movslq	(%r10,%r11,4), %r11
	addq	%r10, %r11
	jmpq	*%r11
.LBB22_3:
	incl	%r13d
	movw	$1, %dx
.LBB22_4:
	movb	$1, %sil
	xorl	%r11d, %r11d
	movl	%r13d, %r10d
	jmp	.LBB22_8
.LBB22_5:
	xorl	%esi, %esi
.LBB22_6:
	xorl	%edi, %edi
	xorl	%r10d, %r10d
	xorl	%edx, %edx
.LBB22_7:
	xorl	%r11d, %r11d
.LBB22_8:
	xorl	%eax, %eax
.LBB22_9:
	movw	%dx, (%rcx)
	movb	%sil, 2(%rcx)
	movb	%dil, 3(%rcx)
	movw	%r10w, 4(%rcx)
	movq	%r11, 8(%rcx)
	movq	%rax, 16(%rcx)
	addq	$2440, %rsp
	popq	%rbx
	popq	%rbp
	popq	%rdi
	popq	%rsi
	popq	%r12
	popq	%r13
	popq	%r14
	popq	%r15
	retq
.LBB22_10:
	testl	%r10d, %r10d
	je	.LBB22_53
	cmpl	$129, %r10d
	je	.LBB22_6
.LBB22_12:
	cmpb	$-127, %dil
	jae	.LBB22_46
	decb	%dil
	movq	(%r15), %rax
	movb	$1, (%r12,%rax,2)
	movb	%dil, 1(%r12,%rax,2)
	jmp	.LBB22_48
.LBB22_14:
	movb	$1, %sil
	jmp	.LBB22_31
.LBB22_15:
	leal	1(%r13), %r10d
	movq	%rax, %r11
	movw	$1, %dx
	movb	$5, %sil
	decq	%r11
	je	.LBB22_50
	leaq	1(%r13), %rdi
	imull	$149, %edi, %edi
	movl	%edi, %ebx
	addl	$149, %edi
	movl	$2155905153, %r14d
	imulq	%rdi, %r14
	shrq	$39, %r14
	leal	(%rbx,%r14), %edi
	addl	$149, %edi
	notb	%dil
	addb	1(%r8,%r13), %dil
	je	.LBB22_54
	movzbl	%dil, %r9d
	cmpb	$-7, %r9b
	ja	.LBB22_57
	addq	$-2, %rax
	cmpq	%r9, %rax
	jb	.LBB22_50
	movq	(%r15), %rax
	imull	$107, %r13d, %edx
	addb	$64, %dl
	imull	$149, %r13d, %r10d
	addl	$447, %r10d
	addq	%r13, %r8
	addq	$2, %r8
	xorl	%r11d, %r11d
.LBB22_20:
	movl	%r10d, %esi
	movl	$2155905153, %edi
	imulq	%rsi, %rdi
	shrq	$39, %rdi
	movl	%edx, %ebx
	subb	%dil, %bl
	addb	(%r8,%r11), %bl
	movb	$1, (%r12,%rax,2)
	movb	%bl, 1(%r12,%rax,2)
	movq	(%r15), %rax
	incq	%rax
	movq	%rax, (%r15)
	incq	%r11
	addb	$107, %dl
	addl	$149, %r10d
	cmpq	%r11, %r9
	jne	.LBB22_20
	addq	$2, %r9
	jmp	.LBB22_63
.LBB22_22:
	leal	1(%r13), %r10d
	incq	%r13
	movw	$1, %dx
	cmpq	%r9, %r13
	jae	.LBB22_49
	movzbl	(%r8,%r13), %eax
	movzbl	%al, %r8d
	movb	$2, %sil
	xorl	%r11d, %r11d
	xorl	%edi, %edi
	leal	-230(%r8), %r9d
	cmpl	$11, %r9d
	ja	.LBB22_25
	movl	$4071, %ebx
	btl	%r9d, %ebx
	jb	.LBB22_8
.LBB22_25:
	testl	%r8d, %r8d
	je	.LBB22_8
	cmpl	$129, %r8d
	je	.LBB22_8
	cmpb	$-128, %al
	ja	.LBB22_50
	addb	$127, %al
	movq	(%r15), %rdx
	movb	$1, (%r12,%rdx,2)
	movb	%al, 1(%r12,%rdx,2)
	incq	(%r15)
	movl	$2, %eax
	movl	$1, %r11d
	jmp	.LBB22_70
.LBB22_29:
	movq	(%r15), %rax
	movw	$0, (%r12,%rax,2)
	jmp	.LBB22_48
.LBB22_30:
	movb	$2, %sil
.LBB22_31:
	movl	%edx, %ebx
	movq	%r8, %rdi
	movq	%rcx, %rbp
	xorps	%xmm0, %xmm0
	movaps	%xmm0, 80(%rsp)
	movq	%r9, %r12
	leaq	103(%rsp), %r14
	cmpq	$204, %r9
	ja	.LBB22_33
	movl	$306, %r8d
	jmp	.LBB22_34
.LBB22_33:
	movl	$2337, %r8d
.LBB22_34:
	movq	%r14, %rcx
	xorl	%edx, %edx
	callq	memset
	movq	%r15, 64(%rsp)
	movq	2552(%rsp), %rax
	movq	%rax, 56(%rsp)
	movq	%r14, 48(%rsp)
	movq	%r13, 40(%rsp)
	movq	%r12, 32(%rsp)
	leaq	80(%rsp), %rcx
	movl	%ebx, %edx
	movl	%esi, %r8d
	movq	%rdi, %r9
	callq	"dm_words::c40::run::run_by"
	movzbl	80(%rsp), %edx
	testw	%dx, %dx
	movq	%rbp, %rcx
	je	.LBB22_36
	movzbl	82(%rsp), %esi
	movzbl	83(%rsp), %edi
	movzwl	84(%rsp), %r10d
	jmp	.LBB22_7
.LBB22_36:
	xorl	%esi, %esi
	movq	88(%rsp), %rax
	movl	$1, %r11d
	jmp	.LBB22_71
.LBB22_37:
	testb	%dl, %dl
	je	.LBB22_51
	leaq	1(%r13), %rax
	movq	%r9, %r10
	subq	%rax, %r10
	cmpq	$3, %r10
	jb	.LBB22_69
	movq	%r13, %r10
	notq	%r10
	addq	%r13, %r8
	addq	$3, %r8
.LBB22_40:
	movzbl	-2(%r8), %eax
	movl	%eax, %edi
	shrb	$2, %dil
	cmpb	$31, %dil
	je	.LBB22_66
	movzbl	-1(%r8), %esi
	movzbl	(%r8), %r11d
	leal	64(%rdi), %ebx
	cmpb	$124, %al
	movzbl	%dil, %edi
	movzbl	%bl, %ebx
	cmovael	%edi, %ebx
	movq	(%r15), %rdi
	movb	$1, (%r12,%rdi,2)
	movb	%bl, 1(%r12,%rdi,2)
	movq	(%r15), %rdi
	leaq	1(%rdi), %rbx
	movq	%rbx, (%r15)
	movl	%esi, %ebx
	shrb	$4, %bl
	shlb	$4, %al
	orb	%bl, %al
	andb	$63, %al
	cmpb	$31, %al
	je	.LBB22_67
	leal	64(%rax), %ebx
	cmpb	$31, %al
	movzbl	%al, %eax
	movzbl	%bl, %ebx
	cmovael	%eax, %ebx
	movb	$1, 2(%r12,%rdi,2)
	movb	%bl, 3(%r12,%rdi,2)
	movq	(%r15), %rdi
	leaq	1(%rdi), %rax
	movq	%rax, (%r15)
	movl	%r11d, %eax
	shrb	$6, %al
	shlb	$2, %sil
	orb	%al, %sil
	andb	$63, %sil
	movl	$3, %eax
	cmpb	$31, %sil
	je	.LBB22_68
	leal	64(%rsi), %ebx
	cmpb	$31, %sil
	movzbl	%sil, %esi
	movzbl	%bl, %ebx
	cmovael	%esi, %ebx
	movb	$1, 2(%r12,%rdi,2)
	movb	%bl, 3(%r12,%rdi,2)
	movq	(%r15), %rsi
	leaq	1(%rsi), %rdi
	movq	%rdi, (%r15)
	andb	$63, %r11b
	cmpb	$31, %r11b
	je	.LBB22_68
	leal	64(%r11), %eax
	cmpb	$31, %r11b
	movzbl	%r11b, %r11d
	movzbl	%al, %eax
	cmovael	%r11d, %eax
	movb	$1, 2(%r12,%rsi,2)
	movb	%al, 3(%r12,%rsi,2)
	incq	(%r15)
	leaq	(%r9,%r10), %rax
	addq	$-3, %rax
	addq	$-3, %r10
	addq	$3, %r8
	cmpq	$2, %rax
	ja	.LBB22_40
	negq	%r10
	movq	%r10, %rax
	jmp	.LBB22_69
.LBB22_46:
	cmpb	$-26, %dil
	jae	.LBB22_52
	addb	$126, %dil
	movzbl	%dil, %eax
	imull	$205, %eax, %edx
	shrl	$11, %edx
	leal	48(%rdx), %r8d
	movq	(%r15), %r9
	movb	$1, (%r12,%r9,2)
	movb	%r8b, 1(%r12,%r9,2)
	movq	(%r15), %r8
	leaq	1(%r8), %r9
	movq	%r9, (%r15)
	addl	%edx, %edx
	leal	(%rdx,%rdx,4), %edx
	subb	%dl, %al
	orb	$48, %al
	movb	$1, 2(%r12,%r8,2)
	movb	%al, 3(%r12,%r8,2)
.LBB22_48:
	incq	(%r15)
	movl	$1, %r11d
	xorl	%esi, %esi
	xorl	%edi, %edi
	xorl	%r10d, %r10d
	xorl	%edx, %edx
	movl	$1, %eax
	jmp	.LBB22_9
.LBB22_49:
	movb	$6, %sil
.LBB22_50:
	xorl	%edi, %edi
	jmp	.LBB22_7
.LBB22_51:
	incl	%r13d
	movw	$1, %dx
	movb	$-16, %dil
	jmp	.LBB22_4
.LBB22_52:
	cmpb	$-21, %dil
	jb	.LBB22_3
.LBB22_53:
	incl	%r13d
	movw	$1, %dx
	xorl	%esi, %esi
	xorl	%edi, %edi
	movl	%r13d, %r10d
	jmp	.LBB22_7
.LBB22_54:
	movl	$1, %r11d
	cmpq	$2, %rax
	je	.LBB22_65
	movq	(%r15), %r10
	leaq	2(%r13), %rdx
	imull	$107, %r13d, %edi
	addb	$64, %dil
	imull	$149, %r13d, %ebx
	addl	$447, %ebx
.LBB22_56:
	movl	%ebx, %esi
	movl	$2155905153, %r14d
	imulq	%rsi, %r14
	shrq	$39, %r14
	movl	%edi, %esi
	subb	%r14b, %sil
	addb	(%r8,%rdx), %sil
	movb	$1, (%r12,%r10,2)
	movb	%sil, 1(%r12,%r10,2)
	movq	(%r15), %r10
	incq	%r10
	movq	%r10, (%r15)
	incq	%rdx
	addb	$107, %dil
	addl	$149, %ebx
	xorl	%esi, %esi
	cmpq	%rdx, %r9
	jne	.LBB22_56
	jmp	.LBB22_71
.LBB22_57:
	cmpq	$1, %r11
	je	.LBB22_50
	leaq	2(%r13), %r11
	imull	$149, %r11d, %r11d
	movl	%r11d, %edi
	addl	$149, %r11d
	movl	$2155905153, %ebx
	imulq	%r11, %rbx
	shrq	$39, %rbx
	addl	%edi, %ebx
	addl	$149, %ebx
	notb	%bl
	addb	2(%r8,%r13), %bl
	xorl	%r11d, %r11d
	movl	$0, %edi
	cmpb	$-7, %bl
	ja	.LBB22_8
	movzbl	%bl, %ebx
	imulq	$250, %r9, %r9
	addq	%rbx, %r9
	addq	$-62250, %r9
	addq	$-3, %rax
	cmpq	%r9, %rax
	movl	$0, %eax
	jb	.LBB22_9
	movq	(%r15), %rax
	imull	$107, %r13d, %edx
	addb	$-85, %dl
	imull	$149, %r13d, %r10d
	addl	$596, %r10d
	addq	%r13, %r8
	addq	$3, %r8
	xorl	%r11d, %r11d
.LBB22_61:
	movl	%r10d, %esi
	movl	$2155905153, %edi
	imulq	%rsi, %rdi
	shrq	$39, %rdi
	movl	%edx, %ebx
	subb	%dil, %bl
	addb	(%r8,%r11), %bl
	movb	$1, (%r12,%rax,2)
	movb	%bl, 1(%r12,%rax,2)
	movq	(%r15), %rax
	incq	%rax
	movq	%rax, (%r15)
	incq	%r11
	addb	$107, %dl
	addl	$149, %r10d
	cmpq	%r11, %r9
	jne	.LBB22_61
	addq	$3, %r9
.LBB22_63:
	movl	$1, %r11d
	xorl	%esi, %esi
	xorl	%edi, %edi
	xorl	%r10d, %r10d
	xorl	%edx, %edx
	movq	%r9, %rax
	jmp	.LBB22_9
.LBB22_65:
	movl	$2, %eax
	jmp	.LBB22_70
.LBB22_66:
	movl	$1, %eax
	jmp	.LBB22_68
.LBB22_67:
	movl	$2, %eax
.LBB22_68:
	subq	%r10, %rax
.LBB22_69:
	subq	%r13, %rax
	movzbl	%dl, %r11d
.LBB22_70:
	xorl	%esi, %esi
.LBB22_71:
	xorl	%edi, %edi
	xorl	%r10d, %r10d
	xorl	%edx, %edx
	jmp	.LBB22_9
	.section	.rdata,"dr"
	.p2align	2, 0x0
.LJTI22_0:
	.long	.LBB22_31-.LJTI22_0
	.long	.LBB22_15-.LJTI22_0
	.long	.LBB22_29-.LJTI22_0
	.long	.LBB22_12-.LJTI22_0
	.long	.LBB22_12-.LJTI22_0
	.long	.LBB22_22-.LJTI22_0
	.long	.LBB22_3-.LJTI22_0
	.long	.LBB22_3-.LJTI22_0
	.long	.LBB22_30-.LJTI22_0
	.long	.LBB22_14-.LJTI22_0
	.long	.LBB22_37-.LJTI22_0
	.long	.LBB22_3-.LJTI22_0
	.text
	.seh_endproc

	.def	"dm_words::c40::run::run_by";
	.scl	3;
	.type	32;
	.endef
	.p2align	4
"dm_words::c40::run::run_by":
.seh_proc "dm_words::c40::run::run_by"
	pushq	%r15
	.seh_pushreg %r15
	pushq	%r14
	.seh_pushreg %r14
	pushq	%r13
	.seh_pushreg %r13
	pushq	%r12
	.seh_pushreg %r12
	pushq	%rsi
	.seh_pushreg %rsi
	pushq	%rdi
	.seh_pushreg %rdi
	pushq	%rbp
	.seh_pushreg %rbp
	pushq	%rbx
	.seh_pushreg %rbx
	pushq	%rax
	.seh_stackalloc 8
	.seh_endprologue
	movq	%rcx, %rax
	movq	120(%rsp), %r10
	movq	112(%rsp), %rcx
	leaq	1(%r10), %r11
	subq	%r11, %rcx
	jne	.LBB23_2
	xorl	%r9d, %r9d
	movb	$1, %bpl
	jmp	.LBB23_93
.LBB23_2:
	movb	%dl, 7(%rsp)
	movq	144(%rsp), %r11
	movq	136(%rsp), %rsi
	movq	128(%rsp), %rdi
	movq	%r10, %rdx
	leaq	(%r10,%r9), %r14
	addq	$2, %r14
	xorl	%r9d, %r9d
	xorl	%ebx, %ebx
	.p2align	4
.LBB23_3:
	movzbl	-1(%r14,%r9), %ebp
	movzwl	%bp, %r15d
	cmpl	$254, %r15d
	je	.LBB23_8
	leaq	1(%r9), %r12
	cmpq	%rcx, %r12
	jae	.LBB23_7
	movzbl	(%r14,%r9), %r12d
	shll	$8, %r15d
	leal	(%r15,%r12), %ebp
	addl	$1535, %ebp
	movzwl	%bp, %ebp
	cmpl	$1536, %ebp
	jb	.LBB23_9
	orl	%r12d, %r15d
	decl	%r15d
	movzwl	%r15w, %ebp
	imull	$52429, %ebp, %r12d
	shrl	$6, %ebp
	imull	$2622, %ebp, %ebp
	shrl	$16, %ebp
	shrl	$21, %r12d
	imull	$1639, %r12d, %r13d
	shrl	$13, %r13d
	andl	$-8, %r13d
	leal	(%r13,%r13,4), %r13d
	movl	%r12d, %r10d
	subl	%r13d, %r10d
	shll	$3, %r12d
	leal	(%r12,%r12,4), %r12d
	subl	%r12d, %r15d
	movb	%bpl, (%rdi,%rbx)
	movb	%r10b, 1(%rdi,%rbx)
	movb	%r15b, 2(%rdi,%rbx)
	addq	$3, %rbx
	addq	$2, %r9
	cmpq	%rcx, %r9
	jb	.LBB23_3
.LBB23_7:
	movb	$1, %bpl
	xorl	%r15d, %r15d
	jmp	.LBB23_10
.LBB23_8:
	xorl	%r15d, %r15d
	xorl	%ebp, %ebp
	jmp	.LBB23_10
.LBB23_9:
	movb	$2, %bpl
	movb	$1, %r15b
.LBB23_10:
	testq	%rbx, %rbx
	je	.LBB23_86
	xorl	%r14d, %r14d
	jmp	.LBB23_14
.LBB23_12:
	shll	$3, %ecx
	movl	$540944909, %r10d
	shrl	%cl, %r10d
	movb	$1, %r12b
	movl	$1, %r13d
	movl	%r10d, %ecx
	.p2align	4
.LBB23_13:
	movq	(%r11), %r10
	movb	%r12b, (%rsi,%r10,2)
	movb	%cl, 1(%rsi,%r10,2)
	incq	(%r11)
	addq	%r13, %r14
	cmpq	%rbx, %r14
	jae	.LBB23_86
.LBB23_14:
	movzbl	(%rdi,%r14), %ecx
	testb	%r8b, %r8b
	je	.LBB23_22
	movzbl	%r8b, %r10d
	cmpl	$1, %r10d
	jne	.LBB23_27
	movb	$1, %r12b
	movl	$1, %r13d
	cmpl	$3, %ecx
	ja	.LBB23_46
	movl	%ecx, %ecx
	leaq	.LJTI23_1(%rip), %r10
	movslq	(%r10,%rcx,4), %rcx
	addq	%r10, %rcx
	jmpq	*%rcx
.LBB23_18:
	leaq	1(%r14), %rcx
	cmpq	%rbx, %rcx
	jae	.LBB23_86
	movzbl	(%rdi,%rcx), %ecx
	testb	%cl, %cl
	je	.LBB23_56
	cmpb	$26, %cl
	ja	.LBB23_55
	orb	$64, %cl
	movl	$2, %r13d
	jmp	.LBB23_13
	.p2align	4
.LBB23_22:
	cmpl	$3, %ecx
	ja	.LBB23_28
	movb	$1, %r12b
	movl	%ecx, %ecx
	leaq	.LJTI23_0(%rip), %r10
	movslq	(%r10,%rcx,4), %rcx
	addq	%r10, %rcx
	jmpq	*%rcx
.LBB23_24:
	leaq	1(%r14), %rcx
	cmpq	%rbx, %rcx
	jae	.LBB23_86
	movzbl	(%rdi,%rcx), %ecx
	cmpb	$32, %cl
	jae	.LBB23_89
	movb	$1, %r12b
	movl	$2, %r13d
	jmp	.LBB23_13
	.p2align	4
.LBB23_27:
	cmpb	$4, %cl
	jb	.LBB23_12
.LBB23_28:
	cmpb	$14, %cl
	jb	.LBB23_47
	addb	$51, %cl
	jmp	.LBB23_48
.LBB23_30:
	leaq	1(%r14), %rcx
	cmpq	%rbx, %rcx
	jae	.LBB23_86
	movzbl	(%rdi,%rcx), %ecx
	movl	$2, %r13d
	cmpl	$27, %ecx
	je	.LBB23_49
	cmpl	$30, %ecx
	jne	.LBB23_50
	leaq	2(%r14), %rcx
	cmpq	%rbx, %rcx
	jae	.LBB23_91
	movzbl	(%rdi,%rcx), %ecx
	testb	%r8b, %r8b
	je	.LBB23_57
	cmpl	$3, %ecx
	ja	.LBB23_69
	movl	%ecx, %ecx
	leaq	.LJTI23_2(%rip), %r10
	movslq	(%r10,%rcx,4), %rcx
	addq	%r10, %rcx
	jmpq	*%rcx
.LBB23_37:
	leaq	3(%r14), %rcx
	cmpq	%rbx, %rcx
	jae	.LBB23_91
	movzbl	(%rdi,%rcx), %ecx
	testb	%cl, %cl
	je	.LBB23_82
	cmpb	$26, %cl
	ja	.LBB23_81
	orb	$64, %cl
	jmp	.LBB23_83
.LBB23_41:
	leaq	1(%r14), %rcx
	cmpq	%rbx, %rcx
	jae	.LBB23_86
	movzbl	(%rdi,%rcx), %ecx
	cmpb	$32, %cl
	jae	.LBB23_89
	orb	$96, %cl
	movl	$2, %r13d
	jmp	.LBB23_13
.LBB23_44:
	movb	$32, %cl
	jmp	.LBB23_13
.LBB23_45:
	movb	$32, %cl
	movl	$1, %r13d
	jmp	.LBB23_13
.LBB23_46:
	cmpb	$14, %cl
	jae	.LBB23_52
.LBB23_47:
	addb	$44, %cl
.LBB23_48:
	movb	$1, %r12b
	movl	$1, %r13d
	jmp	.LBB23_13
.LBB23_49:
	xorl	%r12d, %r12d
	xorl	%ecx, %ecx
	jmp	.LBB23_13
.LBB23_50:
	cmpb	$14, %cl
	ja	.LBB23_53
	addb	$33, %cl
	movb	$1, %r12b
	jmp	.LBB23_13
.LBB23_52:
	addb	$83, %cl
	jmp	.LBB23_13
.LBB23_53:
	cmpb	$21, %cl
	ja	.LBB23_61
	addb	$43, %cl
	movb	$1, %r12b
	jmp	.LBB23_13
.LBB23_55:
	cmpb	$31, %cl
	ja	.LBB23_89
.LBB23_56:
	addb	$96, %cl
	movl	$2, %r13d
	jmp	.LBB23_13
.LBB23_57:
	cmpl	$3, %ecx
	ja	.LBB23_77
	movl	%ecx, %ecx
	leaq	.LJTI23_3(%rip), %r10
	movslq	(%r10,%rcx,4), %rcx
	addq	%r10, %rcx
	jmpq	*%rcx
.LBB23_59:
	leaq	3(%r14), %rcx
	cmpq	%rbx, %rcx
	jae	.LBB23_91
	movzbl	(%rdi,%rcx), %ecx
	cmpb	$31, %cl
	jbe	.LBB23_83
	jmp	.LBB23_98
.LBB23_61:
	cmpb	$27, %cl
	jae	.LBB23_89
	addb	$69, %cl
	movb	$1, %r12b
	jmp	.LBB23_13
.LBB23_68:
	movb	$32, %cl
	jmp	.LBB23_85
.LBB23_63:
	leaq	3(%r14), %rcx
	cmpq	%rbx, %rcx
	jae	.LBB23_91
	movzbl	(%rdi,%rcx), %ecx
	cmpl	$27, %ecx
	je	.LBB23_95
	cmpl	$30, %ecx
	je	.LBB23_95
	cmpb	$14, %cl
	ja	.LBB23_71
	addb	$33, %cl
	jmp	.LBB23_83
.LBB23_69:
	cmpb	$14, %cl
	jb	.LBB23_78
	addb	$83, %cl
	jmp	.LBB23_85
.LBB23_71:
	cmpb	$21, %cl
	ja	.LBB23_79
	addb	$43, %cl
	jmp	.LBB23_83
.LBB23_73:
	leaq	3(%r14), %rcx
	cmpq	%rbx, %rcx
	jae	.LBB23_91
	movzbl	(%rdi,%rcx), %ecx
	cmpb	$32, %cl
	jae	.LBB23_98
	orb	$96, %cl
	jmp	.LBB23_83
.LBB23_77:
	cmpb	$14, %cl
	jae	.LBB23_84
.LBB23_78:
	addb	$44, %cl
	jmp	.LBB23_85
.LBB23_79:
	cmpb	$27, %cl
	jae	.LBB23_98
	addb	$69, %cl
	jmp	.LBB23_83
.LBB23_81:
	cmpb	$31, %cl
	ja	.LBB23_98
.LBB23_82:
	addb	$96, %cl
.LBB23_83:
	addb	$-128, %cl
	movb	$1, %r12b
	movl	$4, %r13d
	jmp	.LBB23_13
.LBB23_84:
	addb	$51, %cl
.LBB23_85:
	addb	$-128, %cl
	movb	$1, %r12b
	movl	$3, %r13d
	jmp	.LBB23_13
.LBB23_86:
	testb	%r15b, %r15b
	je	.LBB23_93
.LBB23_87:
	leal	(%r9,%rdx), %ecx
	addl	$2, %ecx
	movb	$3, %dl
.LBB23_88:
	movw	$1, %r8w
	xorl	%r9d, %r9d
	jmp	.LBB23_94
.LBB23_89:
	movw	$1, %cx
.LBB23_90:
	movzwl	%cx, %ecx
	addl	%r14d, %ecx
	movzwl	%cx, %ecx
	imull	$43691, %ecx, %ecx
	shrl	$17, %ecx
	leal	(%rdx,%rcx,2), %ecx
	addl	$2, %ecx
	movb	$4, %dl
	jmp	.LBB23_88
.LBB23_91:
	testb	%r15b, %r15b
	jne	.LBB23_87
	cmpb	$0, 7(%rsp)
	je	.LBB23_96
.LBB23_93:
	cmpb	$1, %bpl
	adcq	$1, %r9
	xorl	%r8d, %r8d
	xorl	%edx, %edx
	xorl	%ecx, %ecx
.LBB23_94:
	movw	%r8w, (%rax)
	movb	%dl, 2(%rax)
	movb	$0, 3(%rax)
	movw	%cx, 4(%rax)
	movq	%r9, 8(%rax)
	addq	$8, %rsp
	popq	%rbx
	popq	%rbp
	popq	%rdi
	popq	%rsi
	popq	%r12
	popq	%r13
	popq	%r14
	popq	%r15
	retq
.LBB23_95:
	incl	%r14d
	movzwl	%r14w, %ecx
	imull	$43691, %ecx, %ecx
	shrl	$17, %ecx
	leal	(%rdx,%rcx,2), %ecx
	addl	$2, %ecx
	movb	$2, %dl
	jmp	.LBB23_88
.LBB23_98:
	movw	$3, %cx
	jmp	.LBB23_90
.LBB23_96:
	incl	%r14d
	movzwl	%r14w, %ecx
	imull	$43691, %ecx, %ecx
	shrl	$17, %ecx
	leal	(%rdx,%rcx,2), %ecx
	addl	$2, %ecx
	movb	$6, %dl
	jmp	.LBB23_88
	.section	.rdata,"dr"
	.p2align	2, 0x0
.LJTI23_0:
	.long	.LBB23_24-.LJTI23_0
	.long	.LBB23_30-.LJTI23_0
	.long	.LBB23_41-.LJTI23_0
	.long	.LBB23_45-.LJTI23_0
.LJTI23_1:
	.long	.LBB23_24-.LJTI23_1
	.long	.LBB23_30-.LJTI23_1
	.long	.LBB23_18-.LJTI23_1
	.long	.LBB23_44-.LJTI23_1
.LJTI23_2:
	.long	.LBB23_59-.LJTI23_2
	.long	.LBB23_63-.LJTI23_2
	.long	.LBB23_37-.LJTI23_2
	.long	.LBB23_68-.LJTI23_2
.LJTI23_3:
	.long	.LBB23_59-.LJTI23_3
	.long	.LBB23_63-.LJTI23_3
	.long	.LBB23_73-.LJTI23_3
	.long	.LBB23_68-.LJTI23_3
	.text
	.seh_endproc

	.def	"ecc200_calls::inspection::find_designators::<=779>";
	.scl	3;
	.type	32;
	.endef
	.p2align	4
"ecc200_calls::inspection::find_designators::<=779>":
.seh_proc "ecc200_calls::inspection::find_designators::<=779>"
	pushq	%r14
	.seh_pushreg %r14
	pushq	%rsi
	.seh_pushreg %rsi
	pushq	%rdi
	.seh_pushreg %rdi
	pushq	%rbx
	.seh_pushreg %rbx
	movl	$6264, %eax
	callq	___chkstk_ms
	subq	%rax, %rsp
	.seh_stackalloc 6264
	.seh_endprologue
	movq	%r8, %rdi
	movq	%rdx, %rbx
	movq	%rcx, %rsi
	leaq	32(%rsp), %r14
	movl	$6232, %r8d
	movq	%r14, %rcx
	xorl	%edx, %edx
	callq	memset
	movq	%rbx, %rcx
	movq	%rdi, %rdx
	movq	%r14, %r8
	callq	"dm_words::contents::designation::designations_to"
	movw	%ax, 18(%rsi)
	testq	%rax, %rax
	je	.LBB24_6
	cmpq	$3, %rax
	jae	.LBB24_3
	xorl	%ecx, %ecx
	jmp	.LBB24_5
.LBB24_3:
	movq	%rax, %rcx
	orq	$-2, %rcx
	addq	%rax, %rcx
	xorl	%edx, %edx
	.p2align	4
.LBB24_4:
	movd	32(%rsp,%rdx,8), %xmm0
	pinsrw	$1, 40(%rsp,%rdx,8), %xmm0
	movdqu	36(%rsp,%rdx,8), %xmm1
	pmovzxwd	%xmm0, %xmm0
	pshufd	$80, %xmm0, %xmm0
	pblendw	$51, %xmm1, %xmm0
	movdqu	%xmm0, 20(%rsi,%rdx,8)
	addq	$2, %rdx
	cmpq	%rdx, %rcx
	jne	.LBB24_4
	.p2align	4
.LBB24_5:
	movzwl	32(%rsp,%rcx,8), %edx
	movl	36(%rsp,%rcx,8), %r8d
	movl	%r8d, 20(%rsi,%rcx,8)
	movl	%edx, 24(%rsi,%rcx,8)
	incq	%rcx
	cmpq	%rcx, %rax
	jne	.LBB24_5
.LBB24_6:
	addq	$6264, %rsp
	popq	%rbx
	popq	%rdi
	popq	%rsi
	popq	%r14
	retq
	.seh_endproc

	.def	"ecc200_calls::inspection::inspect_given::<=52,=288,=415,=102>";
	.scl	3;
	.type	32;
	.endef
	.p2align	4
"ecc200_calls::inspection::inspect_given::<=52,=288,=415,=102>":
.seh_proc "ecc200_calls::inspection::inspect_given::<=52,=288,=415,=102>"
	pushq	%r15
	.seh_pushreg %r15
	pushq	%r14
	.seh_pushreg %r14
	pushq	%r12
	.seh_pushreg %r12
	pushq	%rsi
	.seh_pushreg %rsi
	pushq	%rdi
	.seh_pushreg %rdi
	pushq	%rbp
	.seh_pushreg %rbp
	pushq	%rbx
	.seh_pushreg %rbx
	subq	$1984, %rsp
	.seh_stackalloc 1984
	.seh_endprologue
	movq	%r9, %rsi
	movq	%r8, %rdi
	movq	%rdx, %rbx
	movq	%rcx, %r14
	movq	2080(%rsp), %r15
	movzwl	(%r15), %ebp
	movzwl	18(%r15), %eax
	movzbl	20(%r15), %r12d
	movw	%ax, 50(%rsp)
	movups	2(%r15), %xmm0
	movups	%xmm0, 34(%rsp)
	leaq	52(%rsp), %rcx
	movl	$844, %r8d
	xorl	%edx, %edx
	callq	memset
	movw	%bp, 32(%rsp)
	xorps	%xmm0, %xmm0
	movaps	%xmm0, 896(%rsp)
	movaps	%xmm0, 912(%rsp)
	movaps	%xmm0, 928(%rsp)
	movaps	%xmm0, 944(%rsp)
	movaps	%xmm0, 960(%rsp)
	movaps	%xmm0, 976(%rsp)
	movaps	%xmm0, 992(%rsp)
	leaq	32(%rsp), %rcx
	movq	%r14, %rdx
	movq	%rbx, %r8
	callq	"ecc200_calls::modules::put_modules::<=52>"
	movq	2088(%rsp), %rbx
	testb	$1, %r12b
	je	.LBB25_2
	addq	$2, %r15
	movw	%bp, 1008(%rsp)
	movups	(%r15), %xmm0
	movups	%xmm0, 1010(%rsp)
	movzwl	16(%r15), %eax
	movw	%ax, 1026(%rsp)
	leaq	1028(%rsp), %rcx
	movl	$956, %r8d
	xorl	%edx, %edx
	callq	memset
	leaq	1008(%rsp), %r14
	movq	%r14, %rcx
	movq	%rdi, %rdx
	movq	%rsi, %r8
	callq	"ecc200_calls::modules::put_modules::<=52>"
	leaq	32(%rsp), %rcx
	movb	$1, %dl
	movq	%r14, %r8
	jmp	.LBB25_3
.LBB25_2:
	leaq	32(%rsp), %rcx
	xorl	%edx, %edx
	xorl	%r8d, %r8d
.LBB25_3:
	movq	%rbx, %r9
	callq	"ecc200_calls::inspection::inspect_symbol::<=52,=288>"
	nop
	addq	$1984, %rsp
	popq	%rbx
	popq	%rbp
	popq	%rdi
	popq	%rsi
	popq	%r12
	popq	%r14
	popq	%r15
	retq
	.seh_endproc

	.def	"ecc200_calls::modules::put_modules::<=52>";
	.scl	3;
	.type	32;
	.endef
	.p2align	4
"ecc200_calls::modules::put_modules::<=52>":
.seh_proc "ecc200_calls::modules::put_modules::<=52>"
	pushq	%r15
	.seh_pushreg %r15
	pushq	%r14
	.seh_pushreg %r14
	pushq	%r13
	.seh_pushreg %r13
	pushq	%r12
	.seh_pushreg %r12
	pushq	%rsi
	.seh_pushreg %rsi
	pushq	%rdi
	.seh_pushreg %rdi
	pushq	%rbp
	.seh_pushreg %rbp
	pushq	%rbx
	.seh_pushreg %rbx
	subq	$128, %rsp
	.seh_stackalloc 128
	.seh_endprologue
	movq	%rdx, 64(%rsp)
	movq	%rcx, 56(%rsp)
	movzwl	(%rcx), %eax
	movq	%rax, 104(%rsp)
	testq	%rax, %rax
	je	.LBB26_73
	movq	56(%rsp), %rax
	movzwl	2(%rax), %r15d
	cmpq	$128, %r15
	movl	$128, %edi
	cmovbq	%r15, %rdi
	movq	64(%rsp), %rax
	leaq	(%rax,%r8), %rsi
	leaq	-64(%r8), %rcx
	leaq	-65(%r8), %rdx
	movq	%rdx, 48(%rsp)
	leaq	-128(%r8), %r10
	leaq	-129(%r8), %r9
	movq	%r9, 88(%rsp)
	addq	%r8, %rax
	decq	%rax
	movq	%rax, (%rsp)
	xorl	%r13d, %r13d
	movq	%r10, 80(%rsp)
	movq	%r8, %r12
	movq	%rcx, 96(%rsp)
	movq	%rcx, %rdx
	movq	%r8, 8(%rsp)
	movq	%r15, 40(%rsp)
	movq	%rdi, 24(%rsp)
	jmp	.LBB26_2
.LBB26_4:
	xorl	%ebx, %ebx
.LBB26_17:
	xorl	%r12d, %r12d
	xorl	%eax, %eax
.LBB26_72:
	movq	%r13, %rcx
	shlq	$4, %rcx
	movq	56(%rsp), %rdx
	movq	%r12, 40(%rdx,%rcx)
	movq	%rbx, 32(%rdx,%rcx)
	movw	%ax, 864(%rdx,%r13,2)
	incq	%r13
	movq	112(%rsp), %rdx
	subq	%r15, %rdx
	movq	120(%rsp), %r12
	subq	%r15, %r12
	subq	%r15, %r10
	cmpq	104(%rsp), %r13
	je	.LBB26_73
.LBB26_2:
	movq	%r13, %r11
	imulq	%r15, %r11
	movq	%r8, %r14
	subq	%r11, %r14
	movq	64(%rsp), %rax
	leaq	(%rax,%r11), %r9
	cmpq	$63, %r14
	movq	%r12, 120(%rsp)
	movq	%rdx, 112(%rsp)
	ja	.LBB26_16
	testq	%r15, %r15
	je	.LBB26_4
	movq	%r10, 72(%rsp)
	movl	%edx, %ecx
	andl	$1, %ecx
	movq	%r12, %rdx
	subq	%rcx, %rdx
	movq	%r11, 16(%rsp)
	movq	%r11, %r15
	subq	%r8, %r15
	xorl	%r10d, %r10d
	xorl	%ebx, %ebx
	xorl	%r12d, %r12d
	xorl	%ecx, %ecx
	jmp	.LBB26_6
	.p2align	4
.LBB26_74:
	movdqu	(%r9,%rcx), %xmm0
	pxor	%xmm1, %xmm1
	pcmpeqb	%xmm0, %xmm1
	pmovmskb	%xmm1, %ebp
	notl	%ebp
.LBB26_15:
	movzwl	%bp, %eax
	xorl	%r8d, %r8d
	shldq	%cl, %rax, %r8
	shlq	%cl, %rax
	xorl	%r11d, %r11d
	testb	$64, %cl
	cmovneq	%rax, %r8
	cmovneq	%r11, %rax
	orq	%r8, %r12
	orq	%rax, %rbx
	addq	$16, %rcx
	incq	%r10
	addq	$-16, %rdx
	cmpq	%rdi, %rcx
	jae	.LBB26_61
.LBB26_6:
	movq	%r14, %r8
	subq	%rcx, %r8
	cmpq	$15, %r8
	ja	.LBB26_74
	cmpq	%rcx, %r14
	jne	.LBB26_9
	xorl	%ebp, %ebp
	jmp	.LBB26_15
	.p2align	4
.LBB26_9:
	movq	%r10, %r8
	shlq	$4, %r8
	negq	%r8
	decq	%r8
	xorl	%ebp, %ebp
	cmpq	%r8, %r15
	jne	.LBB26_11
	xorl	%r11d, %r11d
	jmp	.LBB26_14
.LBB26_11:
	movq	(%rsp), %rdi
	xorl	%r11d, %r11d
	.p2align	4
.LBB26_12:
	xorl	%eax, %eax
	cmpb	$0, (%rdi)
	setne	%al
	addl	%eax, %eax
	leal	(%rax,%rbp,4), %eax
	movq	%r11, %r8
	xorq	$-2, %r8
	xorl	%ebp, %ebp
	cmpb	$0, (%rsi,%r8)
	setne	%bpl
	orl	%eax, %ebp
	addq	$2, %r11
	addq	$-2, %rdi
	cmpq	%r11, %rdx
	jne	.LBB26_12
	testb	$1, %r14b
	movq	24(%rsp), %rdi
	je	.LBB26_15
.LBB26_14:
	notq	%r11
	xorl	%eax, %eax
	cmpb	$0, (%rsi,%r11)
	setne	%al
	leal	(%rax,%rbp,2), %ebp
	jmp	.LBB26_15
	.p2align	4
.LBB26_16:
	movq	%r11, 16(%rsp)
	movdqu	(%r9), %xmm0
	movdqu	16(%r9), %xmm1
	movdqu	32(%r9), %xmm2
	movdqu	48(%r9), %xmm3
	pxor	%xmm4, %xmm4
	pcmpeqb	%xmm4, %xmm3
	pcmpeqb	%xmm4, %xmm2
	pcmpeqb	%xmm4, %xmm1
	pcmpeqb	%xmm4, %xmm0
	pmovmskb	%xmm0, %eax
	xorl	$65535, %eax
	pmovmskb	%xmm1, %ecx
	notl	%ecx
	shll	$16, %ecx
	orl	%eax, %ecx
	pmovmskb	%xmm2, %eax
	xorl	$65535, %eax
	shlq	$32, %rax
	orq	%rcx, %rax
	pmovmskb	%xmm3, %ebx
	notl	%ebx
	shlq	$48, %rbx
	orq	%rax, %rbx
	cmpw	$65, %r15w
	jb	.LBB26_17
	movq	%rdx, %rcx
	andq	$-2, %rcx
	movq	96(%rsp), %rbp
	subq	16(%rsp), %rbp
	movq	%r14, %rdx
	andq	$-16, %rdx
	cmpq	$64, %rdx
	movq	%r10, 72(%rsp)
	jne	.LBB26_75
	cmpq	$64, %r14
	jne	.LBB26_21
	xorl	%r10d, %r10d
	jmp	.LBB26_27
.LBB26_75:
	movdqu	64(%r9), %xmm0
	pxor	%xmm1, %xmm1
	pcmpeqb	%xmm0, %xmm1
	pmovmskb	%xmm1, %r10d
	notl	%r10d
	jmp	.LBB26_27
.LBB26_21:
	movq	16(%rsp), %rax
	cmpq	%rax, 48(%rsp)
	jne	.LBB26_23
	xorl	%r10d, %r10d
	xorl	%r8d, %r8d
	jmp	.LBB26_26
.LBB26_23:
	xorl	%r10d, %r10d
	movq	(%rsp), %rdi
	xorl	%r8d, %r8d
	.p2align	4
.LBB26_24:
	xorl	%eax, %eax
	cmpb	$0, (%rdi)
	setne	%al
	addl	%eax, %eax
	leal	(%rax,%r10,4), %eax
	movq	%r8, %r11
	xorq	$-2, %r11
	xorl	%r10d, %r10d
	cmpb	$0, (%rsi,%r11)
	setne	%r10b
	orl	%eax, %r10d
	addq	$2, %r8
	addq	$-2, %rdi
	cmpq	%r8, %rcx
	jne	.LBB26_24
	testb	$1, %bpl
	movq	24(%rsp), %rdi
	je	.LBB26_27
.LBB26_26:
	notq	%r8
	xorl	%eax, %eax
	cmpb	$0, (%rsi,%r8)
	setne	%al
	leal	(%rax,%r10,2), %r10d
	.p2align	4
.LBB26_27:
	movzwl	%r10w, %r12d
	cmpw	$81, %r15w
	jb	.LBB26_61
	movq	48(%rsp), %r11
	subq	16(%rsp), %r11
	cmpq	$80, %rdx
	jne	.LBB26_29
	cmpq	$80, %r14
	jne	.LBB26_32
	xorl	%r10d, %r10d
	jmp	.LBB26_38
.LBB26_29:
	movdqu	80(%r9), %xmm0
	pxor	%xmm1, %xmm1
	pcmpeqb	%xmm0, %xmm1
	pmovmskb	%xmm1, %r10d
	notl	%r10d
	jmp	.LBB26_38
.LBB26_32:
	cmpq	$16, %r11
	jne	.LBB26_34
	xorl	%r10d, %r10d
	xorl	%r8d, %r8d
	jmp	.LBB26_37
.LBB26_34:
	movq	%r11, 32(%rsp)
	leaq	-16(%rcx), %r15
	xorl	%r10d, %r10d
	movq	(%rsp), %rdi
	xorl	%r8d, %r8d
	.p2align	4
.LBB26_35:
	xorl	%eax, %eax
	cmpb	$0, (%rdi)
	setne	%al
	addl	%eax, %eax
	leal	(%rax,%r10,4), %eax
	movq	%r8, %r11
	xorq	$-2, %r11
	xorl	%r10d, %r10d
	cmpb	$0, (%rsi,%r11)
	setne	%r10b
	orl	%eax, %r10d
	addq	$2, %r8
	addq	$-2, %rdi
	cmpq	%r8, %r15
	jne	.LBB26_35
	testb	$1, %bpl
	movq	40(%rsp), %r15
	movq	24(%rsp), %rdi
	movq	32(%rsp), %r11
	je	.LBB26_38
.LBB26_37:
	notq	%r8
	xorl	%eax, %eax
	cmpb	$0, (%rsi,%r8)
	setne	%al
	leal	(%rax,%r10,2), %r10d
.LBB26_38:
	shll	$16, %r10d
	orq	%r10, %r12
	cmpw	$97, %r15w
	jb	.LBB26_61
	cmpq	$96, %rdx
	jne	.LBB26_40
	cmpq	$96, %r14
	jne	.LBB26_43
	xorl	%r10d, %r10d
	jmp	.LBB26_49
.LBB26_40:
	movdqu	96(%r9), %xmm0
	pxor	%xmm1, %xmm1
	pcmpeqb	%xmm0, %xmm1
	pmovmskb	%xmm1, %r10d
	notl	%r10d
	jmp	.LBB26_49
.LBB26_43:
	cmpq	$32, %r11
	jne	.LBB26_45
	xorl	%r10d, %r10d
	xorl	%r8d, %r8d
	jmp	.LBB26_48
.LBB26_45:
	movq	%r11, 32(%rsp)
	leaq	-32(%rcx), %r15
	xorl	%r10d, %r10d
	movq	(%rsp), %rdi
	xorl	%r8d, %r8d
	.p2align	4
.LBB26_46:
	xorl	%eax, %eax
	cmpb	$0, (%rdi)
	setne	%al
	addl	%eax, %eax
	leal	(%rax,%r10,4), %eax
	movq	%r8, %r11
	xorq	$-2, %r11
	xorl	%r10d, %r10d
	cmpb	$0, (%rsi,%r11)
	setne	%r10b
	orl	%eax, %r10d
	addq	$2, %r8
	addq	$-2, %rdi
	cmpq	%r8, %r15
	jne	.LBB26_46
	testb	$1, %bpl
	movq	40(%rsp), %r15
	movq	24(%rsp), %rdi
	movq	32(%rsp), %r11
	je	.LBB26_49
.LBB26_48:
	notq	%r8
	xorl	%eax, %eax
	cmpb	$0, (%rsi,%r8)
	setne	%al
	leal	(%rax,%r10,2), %r10d
.LBB26_49:
	movzwl	%r10w, %eax
	shlq	$32, %rax
	orq	%rax, %r12
	cmpw	$113, %r15w
	jb	.LBB26_61
	cmpq	$112, %rdx
	jne	.LBB26_51
	cmpq	$112, %r14
	jne	.LBB26_54
	xorl	%edx, %edx
	jmp	.LBB26_60
.LBB26_51:
	movdqu	112(%r9), %xmm0
	pxor	%xmm1, %xmm1
	pcmpeqb	%xmm0, %xmm1
	pmovmskb	%xmm1, %edx
	notl	%edx
	jmp	.LBB26_60
.LBB26_54:
	cmpq	$48, %r11
	jne	.LBB26_56
	xorl	%edx, %edx
	xorl	%r8d, %r8d
	jmp	.LBB26_59
.LBB26_56:
	addq	$-48, %rcx
	xorl	%edx, %edx
	movq	(%rsp), %r10
	xorl	%r8d, %r8d
	.p2align	4
.LBB26_57:
	xorl	%eax, %eax
	cmpb	$0, (%r10)
	setne	%al
	addl	%eax, %eax
	leal	(%rax,%rdx,4), %eax
	movq	%r8, %r11
	xorq	$-2, %r11
	xorl	%edx, %edx
	cmpb	$0, (%rsi,%r11)
	setne	%dl
	orl	%eax, %edx
	addq	$2, %r8
	addq	$-2, %r10
	cmpq	%r8, %rcx
	jne	.LBB26_57
	testb	$1, %bpl
	je	.LBB26_60
.LBB26_59:
	notq	%r8
	xorl	%eax, %eax
	cmpb	$0, (%rsi,%r8)
	setne	%al
	leal	(%rax,%rdx,2), %edx
.LBB26_60:
	movzwl	%dx, %eax
	shlq	$48, %rax
	orq	%rax, %r12
	.p2align	4
.LBB26_61:
	movq	40(%rsp), %r15
	cmpl	$129, %r15d
	movq	72(%rsp), %r10
	jae	.LBB26_63
.LBB26_62:
	xorl	%eax, %eax
	jmp	.LBB26_71
	.p2align	4
.LBB26_63:
	addq	$-128, %r14
	cmpq	$15, %r14
	ja	.LBB26_76
	testq	%r14, %r14
	je	.LBB26_62
	movq	16(%rsp), %rax
	cmpq	%rax, 88(%rsp)
	jne	.LBB26_67
	xorl	%eax, %eax
	xorl	%ecx, %ecx
	jmp	.LBB26_70
.LBB26_76:
	movdqu	128(%r9), %xmm0
	pxor	%xmm1, %xmm1
	pcmpeqb	%xmm0, %xmm1
	pmovmskb	%xmm1, %eax
	notl	%eax
	jmp	.LBB26_71
.LBB26_67:
	movq	%r10, %r14
	movq	%r10, %r8
	andq	$-2, %r8
	movq	80(%rsp), %rdx
	subq	%rax, %rdx
	xorl	%eax, %eax
	movq	(%rsp), %r9
	xorl	%ecx, %ecx
	.p2align	4
.LBB26_68:
	xorl	%r10d, %r10d
	cmpb	$0, (%r9)
	setne	%r10b
	addl	%r10d, %r10d
	leal	(%r10,%rax,4), %r10d
	movq	%rcx, %r11
	xorq	$-2, %r11
	xorl	%eax, %eax
	cmpb	$0, (%rsi,%r11)
	setne	%al
	orl	%r10d, %eax
	addq	$2, %rcx
	addq	$-2, %r9
	cmpq	%rcx, %r8
	jne	.LBB26_68
	testb	$1, %dl
	movq	%r14, %r10
	je	.LBB26_71
.LBB26_70:
	notq	%rcx
	xorl	%edx, %edx
	cmpb	$0, (%rsi,%rcx)
	setne	%dl
	leal	(%rdx,%rax,2), %eax
	.p2align	4
.LBB26_71:
	movq	8(%rsp), %r8
	jmp	.LBB26_72
.LBB26_73:
	addq	$128, %rsp
	popq	%rbx
	popq	%rbp
	popq	%rdi
	popq	%rsi
	popq	%r12
	popq	%r13
	popq	%r14
	popq	%r15
	retq
	.seh_endproc

	.def	"ecc200_calls::inspection::inspect_symbol::<=52,=288>";
	.scl	3;
	.type	32;
	.endef
	.section	.rdata,"dr"
	.p2align	4, 0x0
.LCPI27_0:
	.byte	1
	.byte	1
	.byte	1
	.byte	1
	.byte	1
	.byte	1
	.byte	1
	.byte	1
	.zero	1
	.zero	1
	.zero	1
	.zero	1
	.zero	1
	.zero	1
	.zero	1
	.zero	1
.LCPI27_1:
	.zero	16,241
.LCPI27_2:
	.zero	16,1
.LCPI27_3:
	.byte	241
	.byte	241
	.byte	241
	.byte	241
	.zero	1
	.zero	1
	.zero	1
	.zero	1
	.zero	1
	.zero	1
	.zero	1
	.zero	1
	.zero	1
	.zero	1
	.zero	1
	.zero	1
.LCPI27_4:
	.quad	4294967297
	.quad	4294967297
.LCPI27_5:
	.byte	241
	.byte	241
	.byte	241
	.byte	241
	.byte	241
	.byte	241
	.byte	241
	.byte	241
	.zero	1
	.zero	1
	.zero	1
	.zero	1
	.zero	1
	.zero	1
	.zero	1
	.zero	1
.LCPI27_6:
	.short	1
	.short	1
	.short	1
	.short	1
	.short	1
	.short	1
	.short	1
	.short	1
	.text
	.p2align	4
"ecc200_calls::inspection::inspect_symbol::<=52,=288>":
.seh_proc "ecc200_calls::inspection::inspect_symbol::<=52,=288>"
	pushq	%r15
	.seh_pushreg %r15
	pushq	%r14
	.seh_pushreg %r14
	pushq	%r13
	.seh_pushreg %r13
	pushq	%r12
	.seh_pushreg %r12
	pushq	%rsi
	.seh_pushreg %rsi
	pushq	%rdi
	.seh_pushreg %rdi
	pushq	%rbp
	.seh_pushreg %rbp
	pushq	%rbx
	.seh_pushreg %rbx
	subq	$952, %rsp
	.seh_stackalloc 952
	.seh_endprologue
	movq	%r9, %rsi
	movq	%r8, %r12
	movl	%edx, %ebp
	movq	%rcx, %r14
	leaq	288(%rsp), %rbx
	movl	$312, %r8d
	movq	%rbx, %rcx
	xorl	%edx, %edx
	callq	memset
	movzwl	(%r14), %edi
	movzwl	2(%r14), %edx
	movzwl	12(%r14), %eax
	movw	%ax, 284(%rsp)
	movq	4(%r14), %rax
	movq	%rax, 276(%rsp)
	movzwl	14(%r14), %eax
	movl	$0, 219(%rsp)
	movl	$0, 216(%rsp)
	movq	4(%r14), %rcx
	movq	%rcx, 584(%rsp)
	movzwl	12(%r14), %ecx
	movw	%cx, 592(%rsp)
	xorps	%xmm0, %xmm0
	movups	%xmm0, 255(%rsp)
	movups	%xmm0, 239(%rsp)
	movups	%xmm0, 223(%rsp)
	movw	%di, 272(%rsp)
	movw	%dx, 62(%rsp)
	movw	%dx, 274(%rsp)
	movw	%ax, 286(%rsp)
	leaq	292(%rsp), %r13
	movl	$288, %r8d
	movq	%r13, %rcx
	xorl	%edx, %edx
	callq	memset
	leaq	600(%rsp), %r15
	movl	$289, %r8d
	movq	%r15, %rcx
	xorl	%edx, %edx
	callq	memset
	movups	216(%rsp), %xmm0
	movdqu	232(%rsp), %xmm1
	movdqu	248(%rsp), %xmm2
	movups	%xmm0, 889(%rsp)
	movdqu	%xmm1, 905(%rsp)
	movdqu	%xmm2, 921(%rsp)
	movq	263(%rsp), %rax
	movq	%rax, 936(%rsp)
	movq	$0, 944(%rsp)
	movl	16(%r14), %eax
	movl	%eax, 144(%rsp)
	movdqu	(%r14), %xmm0
	movdqa	%xmm0, 128(%rsp)
	leaq	32(%r14), %rax
	leaq	864(%r14), %rcx
	movl	$0, 148(%rsp)
	movdqa	%xmm0, 64(%rsp)
	movq	144(%rsp), %rdx
	movq	%rdx, 80(%rsp)
	movq	%rax, 88(%rsp)
	movq	$52, 96(%rsp)
	movq	%rcx, 104(%rsp)
	movq	$52, 112(%rsp)
	testb	$1, %bpl
	je	.LBB27_9
	movl	16(%r12), %eax
	movl	%eax, 176(%rsp)
	movdqu	(%r12), %xmm0
	movdqa	%xmm0, 160(%rsp)
	leaq	32(%r12), %rax
	addq	$864, %r12
	movl	$0, 180(%rsp)
	movq	%rax, 184(%rsp)
	movq	$52, 192(%rsp)
	movq	%r12, 200(%rsp)
	movq	$52, 208(%rsp)
	movq	(%r14), %rax
	movq	6(%r14), %rcx
	movq	%rcx, 298(%rbx)
	movq	%rax, 292(%rbx)
	movzwl	78(%rsp), %ebp
	movl	80(%rsp), %eax
	movq	(%r14), %rcx
	movq	6(%r14), %rdx
	movq	%rcx, 272(%rsp)
	movq	%rdx, 278(%rsp)
	movw	%bp, 286(%rsp)
	movl	%eax, 288(%rsp)
	movw	%bp, 594(%rsp)
	movl	%eax, 596(%rsp)
	leaq	64(%rsp), %r15
	leaq	160(%rsp), %r8
	movq	%r15, %rcx
	movb	$1, %dl
	callq	"dm_layout::symbols::border::border_faults"
	movw	%ax, 944(%rsp)
	leaq	896(%rsp), %r12
	addw	76(%rsp), %bp
	movzwl	%bp, %r14d
	movq	%r15, %rcx
	movq	%r13, %rdx
	callq	"dm_layout::symbols::placing::lift_to"
	cmpl	$309, %r14d
	jb	.LBB27_10
	movl	%r14d, %eax
	andl	$-16, %eax
	xorl	%ecx, %ecx
	leaq	600(%rsp), %r15
	.p2align	4
.LBB27_3:
	movdqu	292(%rsp,%rcx), %xmm0
	movdqu	%xmm0, 600(%rsp,%rcx)
	addq	$16, %rcx
	cmpq	%rcx, %rax
	jne	.LBB27_3
	cmpl	%r14d, %eax
	je	.LBB27_13
	testb	$12, %r14b
	je	.LBB27_11
	movl	%r14d, %ecx
	andl	$-4, %ecx
	.p2align	4
.LBB27_7:
	movl	292(%rsp,%rax), %edx
	movl	%edx, 600(%rsp,%rax)
	addq	$4, %rax
	cmpq	%rax, %rcx
	jne	.LBB27_7
	cmpl	%r14d, %ecx
	jne	.LBB27_12
	jmp	.LBB27_13
.LBB27_9:
	movq	(%r14), %rax
	movq	6(%r14), %rcx
	movq	%rcx, 298(%rbx)
	movq	%rax, 292(%rbx)
	movzwl	78(%rsp), %eax
	movl	80(%rsp), %ecx
	movq	(%r14), %rdx
	movq	6(%r14), %r8
	movq	%rdx, 272(%rsp)
	movq	%r8, 278(%rsp)
	movw	%ax, 286(%rsp)
	movl	%ecx, 288(%rsp)
	movw	%ax, 594(%rsp)
	movl	%ecx, 596(%rsp)
	leaq	64(%rsp), %r14
	movq	%r14, %rcx
	xorl	%edx, %edx
	xorl	%r8d, %r8d
	callq	"dm_layout::symbols::border::border_faults"
	movw	%ax, 944(%rsp)
	leaq	896(%rsp), %rax
	movq	%rax, 40(%rsp)
	movq	%r15, 32(%rsp)
	movq	%r14, %rcx
	xorl	%edx, %edx
	xorl	%r8d, %r8d
	movq	%r13, %r9
	callq	"dm_symbol::symbol::inspection::mend"
	jmp	.LBB27_17
.LBB27_10:
	leaq	600(%rsp), %r15
	movq	%r15, %rcx
	movq	%r13, %rdx
	movq	%r14, %r8
	callq	memmove
	jmp	.LBB27_13
.LBB27_11:
	movq	%rax, %rcx
	.p2align	4
.LBB27_12:
	movzbl	292(%rsp,%rcx), %eax
	movb	%al, 600(%rsp,%rcx)
	incq	%rcx
	cmpq	%rcx, %r14
	jne	.LBB27_12
.LBB27_13:
	movq	%r12, 32(%rsp)
	leaq	128(%rsp), %rcx
	leaq	160(%rsp), %r9
	movq	%r15, %rdx
	movq	%r14, %r8
	callq	"dm_symbol::symbol::inspection::mend_doubtful"
	xorl	%eax, %eax
	movq	936(%rsp), %rcx
	.p2align	4
.LBB27_14:
	cmpq	%rax, %rcx
	je	.LBB27_18
	cmpb	$1, 896(%rsp,%rax,4)
	leaq	1(%rax), %rax
	je	.LBB27_14
	movq	%r12, 40(%rsp)
	movq	%r14, 32(%rsp)
	leaq	64(%rsp), %rcx
	leaq	160(%rsp), %r8
	movb	$1, %dl
	movq	%r15, %r9
	callq	"dm_symbol::symbol::inspection::mend_restarted"
.LBB27_17:
	jmp	.LBB27_19
.LBB27_18:
	xorl	%eax, %eax
.LBB27_19:
	movb	%al, 888(%rsp)
	movq	936(%rsp), %r14
	pxor	%xmm0, %xmm0
	pinsrw	$3, %edi, %xmm0
	movq	%xmm0, (%rsi)
	movzwl	62(%rsp), %ecx
	movw	%cx, 8(%rsi)
	movzwl	944(%rsp), %ecx
	movw	%cx, 10(%rsi)
	movw	%r14w, 12(%rsi)
	movzwl	286(%rsp), %edx
	addw	284(%rsp), %dx
	movw	%dx, 14(%rsi)
	movzbl	%al, %eax
	movw	%ax, 16(%rsi)
	movw	$0, 18(%rsi)
	testq	%r14, %r14
	je	.LBB27_26
	cmpq	$8, %r14
	jae	.LBB27_22
	xorl	%eax, %eax
	jmp	.LBB27_24
.LBB27_22:
	movq	%r14, %rax
	andq	$-8, %rax
	xorl	%ecx, %ecx
	.p2align	4
.LBB27_23:
	movd	896(%rsp,%rcx,4), %xmm0
	pinsrb	$1, 900(%rsp,%rcx,4), %xmm0
	pinsrb	$2, 904(%rsp,%rcx,4), %xmm0
	pinsrb	$3, 908(%rsp,%rcx,4), %xmm0
	pinsrb	$4, 912(%rsp,%rcx,4), %xmm0
	pinsrb	$5, 916(%rsp,%rcx,4), %xmm0
	pinsrb	$6, 920(%rsp,%rcx,4), %xmm0
	pinsrb	$7, 924(%rsp,%rcx,4), %xmm0
	movzbl	897(%rsp,%rcx,4), %r8d
	movd	%r8d, %xmm1
	pinsrb	$1, 901(%rsp,%rcx,4), %xmm1
	pinsrb	$2, 905(%rsp,%rcx,4), %xmm1
	pinsrb	$3, 909(%rsp,%rcx,4), %xmm1
	pinsrb	$4, 913(%rsp,%rcx,4), %xmm1
	pinsrb	$5, 917(%rsp,%rcx,4), %xmm1
	pinsrb	$6, 921(%rsp,%rcx,4), %xmm1
	pinsrb	$7, 925(%rsp,%rcx,4), %xmm1
	movzbl	902(%rsp,%rcx,4), %r8d
	movzbl	898(%rsp,%rcx,4), %r9d
	movd	%r9d, %xmm2
	pinsrb	$1, %r8d, %xmm2
	movzbl	906(%rsp,%rcx,4), %r8d
	pinsrb	$2, %r8d, %xmm2
	movzbl	910(%rsp,%rcx,4), %r8d
	pinsrb	$3, %r8d, %xmm2
	movzbl	914(%rsp,%rcx,4), %r8d
	pinsrb	$4, %r8d, %xmm2
	movzbl	918(%rsp,%rcx,4), %r8d
	pinsrb	$5, %r8d, %xmm2
	movzbl	922(%rsp,%rcx,4), %r8d
	pinsrb	$6, %r8d, %xmm2
	movzbl	926(%rsp,%rcx,4), %r8d
	pinsrb	$7, %r8d, %xmm2
	movzbl	903(%rsp,%rcx,4), %r8d
	movzbl	899(%rsp,%rcx,4), %r9d
	movd	%r9d, %xmm3
	pinsrb	$1, %r8d, %xmm3
	movzbl	907(%rsp,%rcx,4), %r8d
	pinsrb	$2, %r8d, %xmm3
	movzbl	911(%rsp,%rcx,4), %r8d
	pinsrb	$3, %r8d, %xmm3
	movzbl	915(%rsp,%rcx,4), %r8d
	pinsrb	$4, %r8d, %xmm3
	movzbl	919(%rsp,%rcx,4), %r8d
	pinsrb	$5, %r8d, %xmm3
	movzbl	923(%rsp,%rcx,4), %r8d
	pinsrb	$6, %r8d, %xmm3
	movzbl	927(%rsp,%rcx,4), %r8d
	pinsrb	$7, %r8d, %xmm3
	pcmpeqb	.LCPI27_0(%rip), %xmm0
	pcmpeqd	%xmm4, %xmm4
	pblendvb	%xmm0, %xmm1, %xmm4
	pand	%xmm0, %xmm2
	pand	%xmm3, %xmm0
	movq	%xmm4, 6252(%rsi,%rcx)
	movq	%xmm2, 6262(%rsi,%rcx)
	movq	%xmm0, 6272(%rsi,%rcx)
	addq	$8, %rcx
	cmpq	%rcx, %rax
	jne	.LBB27_23
	jmp	.LBB27_25
.LBB27_24:
	xorl	%ecx, %ecx
	cmpb	$1, 896(%rsp,%rax,4)
	movzbl	897(%rsp,%rax,4), %r8d
	movl	$255, %r9d
	cmovel	%r8d, %r9d
	movzbl	898(%rsp,%rax,4), %r8d
	cmovnel	%ecx, %r8d
	movzbl	899(%rsp,%rax,4), %r10d
	cmovnel	%ecx, %r10d
	movb	%r9b, 6252(%rsi,%rax)
	movb	%r8b, 6262(%rsi,%rax)
	movb	%r10b, 6272(%rsi,%rax)
	incq	%rax
.LBB27_25:
	cmpq	%rax, %r14
	jne	.LBB27_24
.LBB27_26:
	leaq	6282(%rsi), %rcx
	movzwl	%dx, %r8d
	movq	%r13, %rdx
	callq	memcpy
	leaq	8460(%rsi), %rcx
	movzwl	592(%rsp), %ebx
	movzwl	594(%rsp), %eax
	addw	%bx, %ax
	movzwl	%ax, %r8d
	movq	%r15, %rdx
	callq	memcpy
	xorl	%eax, %eax
	.p2align	4
.LBB27_27:
	cmpq	%rax, %r14
	je	.LBB27_30
	cmpb	$1, 896(%rsp,%rax,4)
	leaq	1(%rax), %rax
	je	.LBB27_27
	jmp	.LBB27_46
.LBB27_30:
	testq	%rbx, %rbx
	je	.LBB27_46
	cmpw	$4, %bx
	jae	.LBB27_33
	xorl	%ecx, %ecx
	xorl	%eax, %eax
	jmp	.LBB27_42
.LBB27_33:
	cmpw	$16, %bx
	jae	.LBB27_35
	xorl	%eax, %eax
	xorl	%ecx, %ecx
	jmp	.LBB27_39
.LBB27_35:
	movl	%ebx, %eax
	andl	$-16, %eax
	pxor	%xmm0, %xmm0
	xorl	%ecx, %ecx
	.p2align	4
.LBB27_36:
	movdqu	600(%rsp,%rcx), %xmm1
	pcmpeqb	.LCPI27_1(%rip), %xmm1
	por	%xmm1, %xmm0
	addq	$16, %rcx
	cmpq	%rcx, %rax
	jne	.LBB27_36
	ptest	.LCPI27_2(%rip), %xmm0
	setne	%cl
	cmpl	%ebx, %eax
	je	.LBB27_43
	testb	$12, %bl
	je	.LBB27_42
.LBB27_39:
	movq	%rax, %rdx
	movl	%ebx, %eax
	andl	$-4, %eax
	movzbl	%cl, %ecx
	movd	%ecx, %xmm0
	.p2align	4
.LBB27_40:
	movd	600(%rsp,%rdx), %xmm1
	pcmpeqb	.LCPI27_3(%rip), %xmm1
	pmovsxbd	%xmm1, %xmm1
	por	%xmm1, %xmm0
	addq	$4, %rdx
	cmpq	%rdx, %rax
	jne	.LBB27_40
	ptest	.LCPI27_4(%rip), %xmm0
	setne	%cl
	cmpl	%ebx, %eax
	je	.LBB27_43
	.p2align	4
.LBB27_42:
	cmpb	$-15, 600(%rsp,%rax)
	sete	%dl
	orb	%dl, %cl
	incq	%rax
	cmpq	%rax, %rbx
	jne	.LBB27_42
.LBB27_43:
	testb	$1, %cl
	je	.LBB27_46
	cmpw	$8, %bx
	jae	.LBB27_48
	xorl	%ecx, %ecx
	xorl	%eax, %eax
	jmp	.LBB27_51
.LBB27_46:
	movw	$0, 18(%rsi)
.LBB27_47:
	addq	$952, %rsp
	popq	%rbx
	popq	%rbp
	popq	%rdi
	popq	%rsi
	popq	%r12
	popq	%r13
	popq	%r14
	popq	%r15
	retq
.LBB27_48:
	movl	%ebx, %eax
	andl	$-8, %eax
	pxor	%xmm0, %xmm0
	xorl	%ecx, %ecx
	.p2align	4
.LBB27_49:
	movq	600(%rsp,%rcx), %xmm1
	pcmpeqb	.LCPI27_5(%rip), %xmm1
	pmovzxbw	%xmm1, %xmm1
	pand	.LCPI27_6(%rip), %xmm1
	paddw	%xmm1, %xmm0
	addq	$8, %rcx
	cmpq	%rcx, %rax
	jne	.LBB27_49
	pshufd	$238, %xmm0, %xmm1
	paddw	%xmm0, %xmm1
	pshufd	$85, %xmm1, %xmm0
	paddw	%xmm1, %xmm0
	movdqa	%xmm0, %xmm1
	psrld	$16, %xmm1
	paddw	%xmm0, %xmm1
	movd	%xmm1, %ecx
	cmpl	%ebx, %eax
	je	.LBB27_52
	.p2align	4
.LBB27_51:
	xorl	%edx, %edx
	cmpb	$-15, 600(%rsp,%rax)
	sete	%dl
	addl	%edx, %ecx
	incq	%rax
	cmpq	%rax, %rbx
	jne	.LBB27_51
.LBB27_52:
	cmpw	$31, %cx
	ja	.LBB27_54
	movq	%rsi, %rcx
	movq	%r15, %rdx
	movq	%rbx, %r8
	callq	"ecc200_calls::inspection::find_designators::<=31>"
	jmp	.LBB27_47
.LBB27_54:
	movq	%rsi, %rcx
	movq	%r15, %rdx
	movq	%rbx, %r8
	callq	"ecc200_calls::inspection::find_designators::<=779>"
	jmp	.LBB27_47
	.seh_endproc

	.def	"ecc200_calls::inspection::inspect_given::<=104,=1152,=1639,=408>";
	.scl	3;
	.type	32;
	.endef
	.p2align	4
"ecc200_calls::inspection::inspect_given::<=104,=1152,=1639,=408>":
.seh_proc "ecc200_calls::inspection::inspect_given::<=104,=1152,=1639,=408>"
	pushq	%r15
	.seh_pushreg %r15
	pushq	%r14
	.seh_pushreg %r14
	pushq	%r12
	.seh_pushreg %r12
	pushq	%rsi
	.seh_pushreg %rsi
	pushq	%rdi
	.seh_pushreg %rdi
	pushq	%rbp
	.seh_pushreg %rbp
	pushq	%rbx
	.seh_pushreg %rbx
	subq	$3840, %rsp
	.seh_stackalloc 3840
	.seh_endprologue
	movq	%r9, %rsi
	movq	%r8, %rdi
	movq	%rdx, %rbx
	movq	%rcx, %r14
	movq	3936(%rsp), %r15
	movzwl	(%r15), %ebp
	movzwl	18(%r15), %eax
	movzbl	20(%r15), %r12d
	movw	%ax, 50(%rsp)
	movups	2(%r15), %xmm0
	movups	%xmm0, 34(%rsp)
	leaq	52(%rsp), %rcx
	movl	$1676, %r8d
	xorl	%edx, %edx
	callq	memset
	movw	%bp, 32(%rsp)
	xorps	%xmm0, %xmm0
	movaps	%xmm0, 1728(%rsp)
	movaps	%xmm0, 1744(%rsp)
	movaps	%xmm0, 1760(%rsp)
	movaps	%xmm0, 1776(%rsp)
	movaps	%xmm0, 1792(%rsp)
	movaps	%xmm0, 1808(%rsp)
	movaps	%xmm0, 1824(%rsp)
	movaps	%xmm0, 1840(%rsp)
	movaps	%xmm0, 1856(%rsp)
	movaps	%xmm0, 1872(%rsp)
	movaps	%xmm0, 1888(%rsp)
	movaps	%xmm0, 1904(%rsp)
	movaps	%xmm0, 1920(%rsp)
	leaq	32(%rsp), %rcx
	movq	%r14, %rdx
	movq	%rbx, %r8
	callq	"ecc200_calls::modules::put_modules::<=104>"
	movq	3944(%rsp), %rbx
	testb	$1, %r12b
	je	.LBB28_2
	addq	$2, %r15
	movw	%bp, 1936(%rsp)
	movups	(%r15), %xmm0
	movups	%xmm0, 1938(%rsp)
	movzwl	16(%r15), %eax
	movw	%ax, 1954(%rsp)
	leaq	1956(%rsp), %rcx
	movl	$1884, %r8d
	xorl	%edx, %edx
	callq	memset
	leaq	1936(%rsp), %r14
	movq	%r14, %rcx
	movq	%rdi, %rdx
	movq	%rsi, %r8
	callq	"ecc200_calls::modules::put_modules::<=104>"
	leaq	32(%rsp), %rcx
	movb	$1, %dl
	movq	%r14, %r8
	jmp	.LBB28_3
.LBB28_2:
	leaq	32(%rsp), %rcx
	xorl	%edx, %edx
	xorl	%r8d, %r8d
.LBB28_3:
	movq	%rbx, %r9
	callq	"ecc200_calls::inspection::inspect_symbol::<=104,=1152>"
	nop
	addq	$3840, %rsp
	popq	%rbx
	popq	%rbp
	popq	%rdi
	popq	%rsi
	popq	%r12
	popq	%r14
	popq	%r15
	retq
	.seh_endproc

	.def	"ecc200_calls::modules::put_modules::<=104>";
	.scl	3;
	.type	32;
	.endef
	.p2align	4
"ecc200_calls::modules::put_modules::<=104>":
.seh_proc "ecc200_calls::modules::put_modules::<=104>"
	pushq	%r15
	.seh_pushreg %r15
	pushq	%r14
	.seh_pushreg %r14
	pushq	%r13
	.seh_pushreg %r13
	pushq	%r12
	.seh_pushreg %r12
	pushq	%rsi
	.seh_pushreg %rsi
	pushq	%rdi
	.seh_pushreg %rdi
	pushq	%rbp
	.seh_pushreg %rbp
	pushq	%rbx
	.seh_pushreg %rbx
	subq	$128, %rsp
	.seh_stackalloc 128
	.seh_endprologue
	movq	%rdx, 64(%rsp)
	movq	%rcx, 56(%rsp)
	movzwl	(%rcx), %eax
	movq	%rax, 104(%rsp)
	testq	%rax, %rax
	je	.LBB29_73
	movq	56(%rsp), %rax
	movzwl	2(%rax), %r15d
	cmpq	$128, %r15
	movl	$128, %edi
	cmovbq	%r15, %rdi
	movq	64(%rsp), %rax
	leaq	(%rax,%r8), %rsi
	leaq	-64(%r8), %rcx
	leaq	-65(%r8), %rdx
	movq	%rdx, 48(%rsp)
	leaq	-128(%r8), %r10
	leaq	-129(%r8), %r9
	movq	%r9, 88(%rsp)
	addq	%r8, %rax
	decq	%rax
	movq	%rax, (%rsp)
	xorl	%r13d, %r13d
	movq	%r10, 80(%rsp)
	movq	%r8, %r12
	movq	%rcx, 96(%rsp)
	movq	%rcx, %rdx
	movq	%r8, 8(%rsp)
	movq	%r15, 40(%rsp)
	movq	%rdi, 24(%rsp)
	jmp	.LBB29_2
.LBB29_4:
	xorl	%ebx, %ebx
.LBB29_17:
	xorl	%r12d, %r12d
	xorl	%eax, %eax
.LBB29_72:
	movq	%r13, %rcx
	shlq	$4, %rcx
	movq	56(%rsp), %rdx
	movq	%r12, 40(%rdx,%rcx)
	movq	%rbx, 32(%rdx,%rcx)
	movw	%ax, 1696(%rdx,%r13,2)
	incq	%r13
	movq	112(%rsp), %rdx
	subq	%r15, %rdx
	movq	120(%rsp), %r12
	subq	%r15, %r12
	subq	%r15, %r10
	cmpq	104(%rsp), %r13
	je	.LBB29_73
.LBB29_2:
	movq	%r13, %r11
	imulq	%r15, %r11
	movq	%r8, %r14
	subq	%r11, %r14
	movq	64(%rsp), %rax
	leaq	(%rax,%r11), %r9
	cmpq	$63, %r14
	movq	%r12, 120(%rsp)
	movq	%rdx, 112(%rsp)
	ja	.LBB29_16
	testq	%r15, %r15
	je	.LBB29_4
	movq	%r10, 72(%rsp)
	movl	%edx, %ecx
	andl	$1, %ecx
	movq	%r12, %rdx
	subq	%rcx, %rdx
	movq	%r11, 16(%rsp)
	movq	%r11, %r15
	subq	%r8, %r15
	xorl	%r10d, %r10d
	xorl	%ebx, %ebx
	xorl	%r12d, %r12d
	xorl	%ecx, %ecx
	jmp	.LBB29_6
	.p2align	4
.LBB29_74:
	movdqu	(%r9,%rcx), %xmm0
	pxor	%xmm1, %xmm1
	pcmpeqb	%xmm0, %xmm1
	pmovmskb	%xmm1, %ebp
	notl	%ebp
.LBB29_15:
	movzwl	%bp, %eax
	xorl	%r8d, %r8d
	shldq	%cl, %rax, %r8
	shlq	%cl, %rax
	xorl	%r11d, %r11d
	testb	$64, %cl
	cmovneq	%rax, %r8
	cmovneq	%r11, %rax
	orq	%r8, %r12
	orq	%rax, %rbx
	addq	$16, %rcx
	incq	%r10
	addq	$-16, %rdx
	cmpq	%rdi, %rcx
	jae	.LBB29_61
.LBB29_6:
	movq	%r14, %r8
	subq	%rcx, %r8
	cmpq	$15, %r8
	ja	.LBB29_74
	cmpq	%rcx, %r14
	jne	.LBB29_9
	xorl	%ebp, %ebp
	jmp	.LBB29_15
	.p2align	4
.LBB29_9:
	movq	%r10, %r8
	shlq	$4, %r8
	negq	%r8
	decq	%r8
	xorl	%ebp, %ebp
	cmpq	%r8, %r15
	jne	.LBB29_11
	xorl	%r11d, %r11d
	jmp	.LBB29_14
.LBB29_11:
	movq	(%rsp), %rdi
	xorl	%r11d, %r11d
	.p2align	4
.LBB29_12:
	xorl	%eax, %eax
	cmpb	$0, (%rdi)
	setne	%al
	addl	%eax, %eax
	leal	(%rax,%rbp,4), %eax
	movq	%r11, %r8
	xorq	$-2, %r8
	xorl	%ebp, %ebp
	cmpb	$0, (%rsi,%r8)
	setne	%bpl
	orl	%eax, %ebp
	addq	$2, %r11
	addq	$-2, %rdi
	cmpq	%r11, %rdx
	jne	.LBB29_12
	testb	$1, %r14b
	movq	24(%rsp), %rdi
	je	.LBB29_15
.LBB29_14:
	notq	%r11
	xorl	%eax, %eax
	cmpb	$0, (%rsi,%r11)
	setne	%al
	leal	(%rax,%rbp,2), %ebp
	jmp	.LBB29_15
	.p2align	4
.LBB29_16:
	movq	%r11, 16(%rsp)
	movdqu	(%r9), %xmm0
	movdqu	16(%r9), %xmm1
	movdqu	32(%r9), %xmm2
	movdqu	48(%r9), %xmm3
	pxor	%xmm4, %xmm4
	pcmpeqb	%xmm4, %xmm3
	pcmpeqb	%xmm4, %xmm2
	pcmpeqb	%xmm4, %xmm1
	pcmpeqb	%xmm4, %xmm0
	pmovmskb	%xmm0, %eax
	xorl	$65535, %eax
	pmovmskb	%xmm1, %ecx
	notl	%ecx
	shll	$16, %ecx
	orl	%eax, %ecx
	pmovmskb	%xmm2, %eax
	xorl	$65535, %eax
	shlq	$32, %rax
	orq	%rcx, %rax
	pmovmskb	%xmm3, %ebx
	notl	%ebx
	shlq	$48, %rbx
	orq	%rax, %rbx
	cmpw	$65, %r15w
	jb	.LBB29_17
	movq	%rdx, %rcx
	andq	$-2, %rcx
	movq	96(%rsp), %rbp
	subq	16(%rsp), %rbp
	movq	%r14, %rdx
	andq	$-16, %rdx
	cmpq	$64, %rdx
	movq	%r10, 72(%rsp)
	jne	.LBB29_75
	cmpq	$64, %r14
	jne	.LBB29_21
	xorl	%r10d, %r10d
	jmp	.LBB29_27
.LBB29_75:
	movdqu	64(%r9), %xmm0
	pxor	%xmm1, %xmm1
	pcmpeqb	%xmm0, %xmm1
	pmovmskb	%xmm1, %r10d
	notl	%r10d
	jmp	.LBB29_27
.LBB29_21:
	movq	16(%rsp), %rax
	cmpq	%rax, 48(%rsp)
	jne	.LBB29_23
	xorl	%r10d, %r10d
	xorl	%r8d, %r8d
	jmp	.LBB29_26
.LBB29_23:
	xorl	%r10d, %r10d
	movq	(%rsp), %rdi
	xorl	%r8d, %r8d
	.p2align	4
.LBB29_24:
	xorl	%eax, %eax
	cmpb	$0, (%rdi)
	setne	%al
	addl	%eax, %eax
	leal	(%rax,%r10,4), %eax
	movq	%r8, %r11
	xorq	$-2, %r11
	xorl	%r10d, %r10d
	cmpb	$0, (%rsi,%r11)
	setne	%r10b
	orl	%eax, %r10d
	addq	$2, %r8
	addq	$-2, %rdi
	cmpq	%r8, %rcx
	jne	.LBB29_24
	testb	$1, %bpl
	movq	24(%rsp), %rdi
	je	.LBB29_27
.LBB29_26:
	notq	%r8
	xorl	%eax, %eax
	cmpb	$0, (%rsi,%r8)
	setne	%al
	leal	(%rax,%r10,2), %r10d
	.p2align	4
.LBB29_27:
	movzwl	%r10w, %r12d
	cmpw	$81, %r15w
	jb	.LBB29_61
	movq	48(%rsp), %r11
	subq	16(%rsp), %r11
	cmpq	$80, %rdx
	jne	.LBB29_29
	cmpq	$80, %r14
	jne	.LBB29_32
	xorl	%r10d, %r10d
	jmp	.LBB29_38
.LBB29_29:
	movdqu	80(%r9), %xmm0
	pxor	%xmm1, %xmm1
	pcmpeqb	%xmm0, %xmm1
	pmovmskb	%xmm1, %r10d
	notl	%r10d
	jmp	.LBB29_38
.LBB29_32:
	cmpq	$16, %r11
	jne	.LBB29_34
	xorl	%r10d, %r10d
	xorl	%r8d, %r8d
	jmp	.LBB29_37
.LBB29_34:
	movq	%r11, 32(%rsp)
	leaq	-16(%rcx), %r15
	xorl	%r10d, %r10d
	movq	(%rsp), %rdi
	xorl	%r8d, %r8d
	.p2align	4
.LBB29_35:
	xorl	%eax, %eax
	cmpb	$0, (%rdi)
	setne	%al
	addl	%eax, %eax
	leal	(%rax,%r10,4), %eax
	movq	%r8, %r11
	xorq	$-2, %r11
	xorl	%r10d, %r10d
	cmpb	$0, (%rsi,%r11)
	setne	%r10b
	orl	%eax, %r10d
	addq	$2, %r8
	addq	$-2, %rdi
	cmpq	%r8, %r15
	jne	.LBB29_35
	testb	$1, %bpl
	movq	40(%rsp), %r15
	movq	24(%rsp), %rdi
	movq	32(%rsp), %r11
	je	.LBB29_38
.LBB29_37:
	notq	%r8
	xorl	%eax, %eax
	cmpb	$0, (%rsi,%r8)
	setne	%al
	leal	(%rax,%r10,2), %r10d
.LBB29_38:
	shll	$16, %r10d
	orq	%r10, %r12
	cmpw	$97, %r15w
	jb	.LBB29_61
	cmpq	$96, %rdx
	jne	.LBB29_40
	cmpq	$96, %r14
	jne	.LBB29_43
	xorl	%r10d, %r10d
	jmp	.LBB29_49
.LBB29_40:
	movdqu	96(%r9), %xmm0
	pxor	%xmm1, %xmm1
	pcmpeqb	%xmm0, %xmm1
	pmovmskb	%xmm1, %r10d
	notl	%r10d
	jmp	.LBB29_49
.LBB29_43:
	cmpq	$32, %r11
	jne	.LBB29_45
	xorl	%r10d, %r10d
	xorl	%r8d, %r8d
	jmp	.LBB29_48
.LBB29_45:
	movq	%r11, 32(%rsp)
	leaq	-32(%rcx), %r15
	xorl	%r10d, %r10d
	movq	(%rsp), %rdi
	xorl	%r8d, %r8d
	.p2align	4
.LBB29_46:
	xorl	%eax, %eax
	cmpb	$0, (%rdi)
	setne	%al
	addl	%eax, %eax
	leal	(%rax,%r10,4), %eax
	movq	%r8, %r11
	xorq	$-2, %r11
	xorl	%r10d, %r10d
	cmpb	$0, (%rsi,%r11)
	setne	%r10b
	orl	%eax, %r10d
	addq	$2, %r8
	addq	$-2, %rdi
	cmpq	%r8, %r15
	jne	.LBB29_46
	testb	$1, %bpl
	movq	40(%rsp), %r15
	movq	24(%rsp), %rdi
	movq	32(%rsp), %r11
	je	.LBB29_49
.LBB29_48:
	notq	%r8
	xorl	%eax, %eax
	cmpb	$0, (%rsi,%r8)
	setne	%al
	leal	(%rax,%r10,2), %r10d
.LBB29_49:
	movzwl	%r10w, %eax
	shlq	$32, %rax
	orq	%rax, %r12
	cmpw	$113, %r15w
	jb	.LBB29_61
	cmpq	$112, %rdx
	jne	.LBB29_51
	cmpq	$112, %r14
	jne	.LBB29_54
	xorl	%edx, %edx
	jmp	.LBB29_60
.LBB29_51:
	movdqu	112(%r9), %xmm0
	pxor	%xmm1, %xmm1
	pcmpeqb	%xmm0, %xmm1
	pmovmskb	%xmm1, %edx
	notl	%edx
	jmp	.LBB29_60
.LBB29_54:
	cmpq	$48, %r11
	jne	.LBB29_56
	xorl	%edx, %edx
	xorl	%r8d, %r8d
	jmp	.LBB29_59
.LBB29_56:
	addq	$-48, %rcx
	xorl	%edx, %edx
	movq	(%rsp), %r10
	xorl	%r8d, %r8d
	.p2align	4
.LBB29_57:
	xorl	%eax, %eax
	cmpb	$0, (%r10)
	setne	%al
	addl	%eax, %eax
	leal	(%rax,%rdx,4), %eax
	movq	%r8, %r11
	xorq	$-2, %r11
	xorl	%edx, %edx
	cmpb	$0, (%rsi,%r11)
	setne	%dl
	orl	%eax, %edx
	addq	$2, %r8
	addq	$-2, %r10
	cmpq	%r8, %rcx
	jne	.LBB29_57
	testb	$1, %bpl
	je	.LBB29_60
.LBB29_59:
	notq	%r8
	xorl	%eax, %eax
	cmpb	$0, (%rsi,%r8)
	setne	%al
	leal	(%rax,%rdx,2), %edx
.LBB29_60:
	movzwl	%dx, %eax
	shlq	$48, %rax
	orq	%rax, %r12
	.p2align	4
.LBB29_61:
	movq	40(%rsp), %r15
	cmpl	$129, %r15d
	movq	72(%rsp), %r10
	jae	.LBB29_63
.LBB29_62:
	xorl	%eax, %eax
	jmp	.LBB29_71
	.p2align	4
.LBB29_63:
	addq	$-128, %r14
	cmpq	$15, %r14
	ja	.LBB29_76
	testq	%r14, %r14
	je	.LBB29_62
	movq	16(%rsp), %rax
	cmpq	%rax, 88(%rsp)
	jne	.LBB29_67
	xorl	%eax, %eax
	xorl	%ecx, %ecx
	jmp	.LBB29_70
.LBB29_76:
	movdqu	128(%r9), %xmm0
	pxor	%xmm1, %xmm1
	pcmpeqb	%xmm0, %xmm1
	pmovmskb	%xmm1, %eax
	notl	%eax
	jmp	.LBB29_71
.LBB29_67:
	movq	%r10, %r14
	movq	%r10, %r8
	andq	$-2, %r8
	movq	80(%rsp), %rdx
	subq	%rax, %rdx
	xorl	%eax, %eax
	movq	(%rsp), %r9
	xorl	%ecx, %ecx
	.p2align	4
.LBB29_68:
	xorl	%r10d, %r10d
	cmpb	$0, (%r9)
	setne	%r10b
	addl	%r10d, %r10d
	leal	(%r10,%rax,4), %r10d
	movq	%rcx, %r11
	xorq	$-2, %r11
	xorl	%eax, %eax
	cmpb	$0, (%rsi,%r11)
	setne	%al
	orl	%r10d, %eax
	addq	$2, %rcx
	addq	$-2, %r9
	cmpq	%rcx, %r8
	jne	.LBB29_68
	testb	$1, %dl
	movq	%r14, %r10
	je	.LBB29_71
.LBB29_70:
	notq	%rcx
	xorl	%edx, %edx
	cmpb	$0, (%rsi,%rcx)
	setne	%dl
	leal	(%rdx,%rax,2), %eax
	.p2align	4
.LBB29_71:
	movq	8(%rsp), %r8
	jmp	.LBB29_72
.LBB29_73:
	addq	$128, %rsp
	popq	%rbx
	popq	%rbp
	popq	%rdi
	popq	%rsi
	popq	%r12
	popq	%r13
	popq	%r14
	popq	%r15
	retq
	.seh_endproc

	.def	"ecc200_calls::inspection::inspect_symbol::<=104,=1152>";
	.scl	3;
	.type	32;
	.endef
	.section	.rdata,"dr"
	.p2align	4, 0x0
.LCPI30_0:
	.byte	1
	.byte	1
	.byte	1
	.byte	1
	.byte	1
	.byte	1
	.byte	1
	.byte	1
	.zero	1
	.zero	1
	.zero	1
	.zero	1
	.zero	1
	.zero	1
	.zero	1
	.zero	1
.LCPI30_1:
	.zero	16,241
.LCPI30_2:
	.zero	16,1
.LCPI30_3:
	.byte	241
	.byte	241
	.byte	241
	.byte	241
	.zero	1
	.zero	1
	.zero	1
	.zero	1
	.zero	1
	.zero	1
	.zero	1
	.zero	1
	.zero	1
	.zero	1
	.zero	1
	.zero	1
.LCPI30_4:
	.quad	4294967297
	.quad	4294967297
.LCPI30_5:
	.byte	241
	.byte	241
	.byte	241
	.byte	241
	.byte	241
	.byte	241
	.byte	241
	.byte	241
	.zero	1
	.zero	1
	.zero	1
	.zero	1
	.zero	1
	.zero	1
	.zero	1
	.zero	1
.LCPI30_6:
	.short	1
	.short	1
	.short	1
	.short	1
	.short	1
	.short	1
	.short	1
	.short	1
	.text
	.p2align	4
"ecc200_calls::inspection::inspect_symbol::<=104,=1152>":
.seh_proc "ecc200_calls::inspection::inspect_symbol::<=104,=1152>"
	pushq	%r15
	.seh_pushreg %r15
	pushq	%r14
	.seh_pushreg %r14
	pushq	%r13
	.seh_pushreg %r13
	pushq	%r12
	.seh_pushreg %r12
	pushq	%rsi
	.seh_pushreg %rsi
	pushq	%rdi
	.seh_pushreg %rdi
	pushq	%rbp
	.seh_pushreg %rbp
	pushq	%rbx
	.seh_pushreg %rbx
	subq	$2680, %rsp
	.seh_stackalloc 2680
	.seh_endprologue
	movq	%r9, %rsi
	movq	%r8, %r12
	movl	%edx, %ebp
	movq	%rcx, %r14
	leaq	288(%rsp), %rbx
	movl	$1176, %r8d
	movq	%rbx, %rcx
	xorl	%edx, %edx
	callq	memset
	movzwl	(%r14), %edi
	movzwl	2(%r14), %edx
	movzwl	12(%r14), %eax
	movw	%ax, 284(%rsp)
	movq	4(%r14), %rax
	movq	%rax, 276(%rsp)
	movzwl	14(%r14), %eax
	movl	$0, 219(%rsp)
	movl	$0, 216(%rsp)
	movq	4(%r14), %rcx
	movq	%rcx, 1448(%rsp)
	movzwl	12(%r14), %ecx
	movw	%cx, 1456(%rsp)
	xorps	%xmm0, %xmm0
	movups	%xmm0, 255(%rsp)
	movups	%xmm0, 239(%rsp)
	movups	%xmm0, 223(%rsp)
	movw	%di, 272(%rsp)
	movw	%dx, 62(%rsp)
	movw	%dx, 274(%rsp)
	movw	%ax, 286(%rsp)
	leaq	292(%rsp), %r13
	movl	$1152, %r8d
	movq	%r13, %rcx
	xorl	%edx, %edx
	callq	memset
	leaq	1464(%rsp), %r15
	movl	$1153, %r8d
	movq	%r15, %rcx
	xorl	%edx, %edx
	callq	memset
	movups	216(%rsp), %xmm0
	movdqu	232(%rsp), %xmm1
	movdqu	248(%rsp), %xmm2
	movups	%xmm0, 2617(%rsp)
	movdqu	%xmm1, 2633(%rsp)
	movdqu	%xmm2, 2649(%rsp)
	movq	263(%rsp), %rax
	movq	%rax, 2664(%rsp)
	movq	$0, 2672(%rsp)
	movl	16(%r14), %eax
	movl	%eax, 144(%rsp)
	movdqu	(%r14), %xmm0
	movdqa	%xmm0, 128(%rsp)
	leaq	32(%r14), %rax
	leaq	1696(%r14), %rcx
	movl	$0, 148(%rsp)
	movdqa	%xmm0, 64(%rsp)
	movq	144(%rsp), %rdx
	movq	%rdx, 80(%rsp)
	movq	%rax, 88(%rsp)
	movq	$104, 96(%rsp)
	movq	%rcx, 104(%rsp)
	movq	$104, 112(%rsp)
	testb	$1, %bpl
	je	.LBB30_9
	movl	16(%r12), %eax
	movl	%eax, 176(%rsp)
	movdqu	(%r12), %xmm0
	movdqa	%xmm0, 160(%rsp)
	leaq	32(%r12), %rax
	addq	$1696, %r12
	movl	$0, 180(%rsp)
	movq	%rax, 184(%rsp)
	movq	$104, 192(%rsp)
	movq	%r12, 200(%rsp)
	movq	$104, 208(%rsp)
	movq	(%r14), %rax
	movq	6(%r14), %rcx
	movq	%rcx, 1162(%rbx)
	movq	%rax, 1156(%rbx)
	movzwl	78(%rsp), %ebp
	movl	80(%rsp), %eax
	movq	(%r14), %rcx
	movq	6(%r14), %rdx
	movq	%rcx, 272(%rsp)
	movq	%rdx, 278(%rsp)
	movw	%bp, 286(%rsp)
	movl	%eax, 288(%rsp)
	movw	%bp, 1458(%rsp)
	movl	%eax, 1460(%rsp)
	leaq	64(%rsp), %r15
	leaq	160(%rsp), %r8
	movq	%r15, %rcx
	movb	$1, %dl
	callq	"dm_layout::symbols::border::border_faults"
	movw	%ax, 2672(%rsp)
	leaq	2624(%rsp), %r12
	addw	76(%rsp), %bp
	movzwl	%bp, %r14d
	movq	%r15, %rcx
	movq	%r13, %rdx
	callq	"dm_layout::symbols::placing::lift_to"
	cmpl	$1173, %r14d
	jb	.LBB30_10
	movl	%r14d, %eax
	andl	$-16, %eax
	xorl	%ecx, %ecx
	leaq	1464(%rsp), %r15
	.p2align	4
.LBB30_3:
	movdqu	292(%rsp,%rcx), %xmm0
	movdqu	%xmm0, 1464(%rsp,%rcx)
	addq	$16, %rcx
	cmpq	%rcx, %rax
	jne	.LBB30_3
	cmpl	%r14d, %eax
	je	.LBB30_13
	testb	$12, %r14b
	je	.LBB30_11
	movl	%r14d, %ecx
	andl	$-4, %ecx
	.p2align	4
.LBB30_7:
	movl	292(%rsp,%rax), %edx
	movl	%edx, 1464(%rsp,%rax)
	addq	$4, %rax
	cmpq	%rax, %rcx
	jne	.LBB30_7
	cmpl	%r14d, %ecx
	jne	.LBB30_12
	jmp	.LBB30_13
.LBB30_9:
	movq	(%r14), %rax
	movq	6(%r14), %rcx
	movq	%rcx, 1162(%rbx)
	movq	%rax, 1156(%rbx)
	movzwl	78(%rsp), %eax
	movl	80(%rsp), %ecx
	movq	(%r14), %rdx
	movq	6(%r14), %r8
	movq	%rdx, 272(%rsp)
	movq	%r8, 278(%rsp)
	movw	%ax, 286(%rsp)
	movl	%ecx, 288(%rsp)
	movw	%ax, 1458(%rsp)
	movl	%ecx, 1460(%rsp)
	leaq	64(%rsp), %r14
	movq	%r14, %rcx
	xorl	%edx, %edx
	xorl	%r8d, %r8d
	callq	"dm_layout::symbols::border::border_faults"
	movw	%ax, 2672(%rsp)
	leaq	2624(%rsp), %rax
	movq	%rax, 40(%rsp)
	movq	%r15, 32(%rsp)
	movq	%r14, %rcx
	xorl	%edx, %edx
	xorl	%r8d, %r8d
	movq	%r13, %r9
	callq	"dm_symbol::symbol::inspection::mend"
	jmp	.LBB30_17
.LBB30_10:
	leaq	1464(%rsp), %r15
	movq	%r15, %rcx
	movq	%r13, %rdx
	movq	%r14, %r8
	callq	memmove
	jmp	.LBB30_13
.LBB30_11:
	movq	%rax, %rcx
	.p2align	4
.LBB30_12:
	movzbl	292(%rsp,%rcx), %eax
	movb	%al, 1464(%rsp,%rcx)
	incq	%rcx
	cmpq	%rcx, %r14
	jne	.LBB30_12
.LBB30_13:
	movq	%r12, 32(%rsp)
	leaq	128(%rsp), %rcx
	leaq	160(%rsp), %r9
	movq	%r15, %rdx
	movq	%r14, %r8
	callq	"dm_symbol::symbol::inspection::mend_doubtful"
	xorl	%eax, %eax
	movq	2664(%rsp), %rcx
	.p2align	4
.LBB30_14:
	cmpq	%rax, %rcx
	je	.LBB30_18
	cmpb	$1, 2624(%rsp,%rax,4)
	leaq	1(%rax), %rax
	je	.LBB30_14
	movq	%r12, 40(%rsp)
	movq	%r14, 32(%rsp)
	leaq	64(%rsp), %rcx
	leaq	160(%rsp), %r8
	movb	$1, %dl
	movq	%r15, %r9
	callq	"dm_symbol::symbol::inspection::mend_restarted"
.LBB30_17:
	jmp	.LBB30_19
.LBB30_18:
	xorl	%eax, %eax
.LBB30_19:
	movb	%al, 2616(%rsp)
	movq	2664(%rsp), %r14
	pxor	%xmm0, %xmm0
	pinsrw	$3, %edi, %xmm0
	movq	%xmm0, (%rsi)
	movzwl	62(%rsp), %ecx
	movw	%cx, 8(%rsi)
	movzwl	2672(%rsp), %ecx
	movw	%cx, 10(%rsi)
	movw	%r14w, 12(%rsi)
	movzwl	286(%rsp), %edx
	addw	284(%rsp), %dx
	movw	%dx, 14(%rsi)
	movzbl	%al, %eax
	movw	%ax, 16(%rsi)
	movw	$0, 18(%rsi)
	testq	%r14, %r14
	je	.LBB30_26
	cmpq	$8, %r14
	jae	.LBB30_22
	xorl	%eax, %eax
	jmp	.LBB30_24
.LBB30_22:
	movq	%r14, %rax
	andq	$-8, %rax
	xorl	%ecx, %ecx
	.p2align	4
.LBB30_23:
	movd	2624(%rsp,%rcx,4), %xmm0
	pinsrb	$1, 2628(%rsp,%rcx,4), %xmm0
	pinsrb	$2, 2632(%rsp,%rcx,4), %xmm0
	pinsrb	$3, 2636(%rsp,%rcx,4), %xmm0
	pinsrb	$4, 2640(%rsp,%rcx,4), %xmm0
	pinsrb	$5, 2644(%rsp,%rcx,4), %xmm0
	pinsrb	$6, 2648(%rsp,%rcx,4), %xmm0
	pinsrb	$7, 2652(%rsp,%rcx,4), %xmm0
	movzbl	2625(%rsp,%rcx,4), %r8d
	movd	%r8d, %xmm1
	pinsrb	$1, 2629(%rsp,%rcx,4), %xmm1
	pinsrb	$2, 2633(%rsp,%rcx,4), %xmm1
	pinsrb	$3, 2637(%rsp,%rcx,4), %xmm1
	pinsrb	$4, 2641(%rsp,%rcx,4), %xmm1
	pinsrb	$5, 2645(%rsp,%rcx,4), %xmm1
	pinsrb	$6, 2649(%rsp,%rcx,4), %xmm1
	pinsrb	$7, 2653(%rsp,%rcx,4), %xmm1
	movzbl	2630(%rsp,%rcx,4), %r8d
	movzbl	2626(%rsp,%rcx,4), %r9d
	movd	%r9d, %xmm2
	pinsrb	$1, %r8d, %xmm2
	movzbl	2634(%rsp,%rcx,4), %r8d
	pinsrb	$2, %r8d, %xmm2
	movzbl	2638(%rsp,%rcx,4), %r8d
	pinsrb	$3, %r8d, %xmm2
	movzbl	2642(%rsp,%rcx,4), %r8d
	pinsrb	$4, %r8d, %xmm2
	movzbl	2646(%rsp,%rcx,4), %r8d
	pinsrb	$5, %r8d, %xmm2
	movzbl	2650(%rsp,%rcx,4), %r8d
	pinsrb	$6, %r8d, %xmm2
	movzbl	2654(%rsp,%rcx,4), %r8d
	pinsrb	$7, %r8d, %xmm2
	movzbl	2631(%rsp,%rcx,4), %r8d
	movzbl	2627(%rsp,%rcx,4), %r9d
	movd	%r9d, %xmm3
	pinsrb	$1, %r8d, %xmm3
	movzbl	2635(%rsp,%rcx,4), %r8d
	pinsrb	$2, %r8d, %xmm3
	movzbl	2639(%rsp,%rcx,4), %r8d
	pinsrb	$3, %r8d, %xmm3
	movzbl	2643(%rsp,%rcx,4), %r8d
	pinsrb	$4, %r8d, %xmm3
	movzbl	2647(%rsp,%rcx,4), %r8d
	pinsrb	$5, %r8d, %xmm3
	movzbl	2651(%rsp,%rcx,4), %r8d
	pinsrb	$6, %r8d, %xmm3
	movzbl	2655(%rsp,%rcx,4), %r8d
	pinsrb	$7, %r8d, %xmm3
	pcmpeqb	.LCPI30_0(%rip), %xmm0
	pcmpeqd	%xmm4, %xmm4
	pblendvb	%xmm0, %xmm1, %xmm4
	pand	%xmm0, %xmm2
	pand	%xmm3, %xmm0
	movq	%xmm4, 6252(%rsi,%rcx)
	movq	%xmm2, 6262(%rsi,%rcx)
	movq	%xmm0, 6272(%rsi,%rcx)
	addq	$8, %rcx
	cmpq	%rcx, %rax
	jne	.LBB30_23
	jmp	.LBB30_25
.LBB30_24:
	xorl	%ecx, %ecx
	cmpb	$1, 2624(%rsp,%rax,4)
	movzbl	2625(%rsp,%rax,4), %r8d
	movl	$255, %r9d
	cmovel	%r8d, %r9d
	movzbl	2626(%rsp,%rax,4), %r8d
	cmovnel	%ecx, %r8d
	movzbl	2627(%rsp,%rax,4), %r10d
	cmovnel	%ecx, %r10d
	movb	%r9b, 6252(%rsi,%rax)
	movb	%r8b, 6262(%rsi,%rax)
	movb	%r10b, 6272(%rsi,%rax)
	incq	%rax
.LBB30_25:
	cmpq	%rax, %r14
	jne	.LBB30_24
.LBB30_26:
	leaq	6282(%rsi), %rcx
	movzwl	%dx, %r8d
	movq	%r13, %rdx
	callq	memcpy
	leaq	8460(%rsi), %rcx
	movzwl	1456(%rsp), %ebx
	movzwl	1458(%rsp), %eax
	addw	%bx, %ax
	movzwl	%ax, %r8d
	movq	%r15, %rdx
	callq	memcpy
	xorl	%eax, %eax
	.p2align	4
.LBB30_27:
	cmpq	%rax, %r14
	je	.LBB30_30
	cmpb	$1, 2624(%rsp,%rax,4)
	leaq	1(%rax), %rax
	je	.LBB30_27
	jmp	.LBB30_46
.LBB30_30:
	testq	%rbx, %rbx
	je	.LBB30_46
	cmpw	$4, %bx
	jae	.LBB30_33
	xorl	%ecx, %ecx
	xorl	%eax, %eax
	jmp	.LBB30_42
.LBB30_33:
	cmpw	$16, %bx
	jae	.LBB30_35
	xorl	%eax, %eax
	xorl	%ecx, %ecx
	jmp	.LBB30_39
.LBB30_35:
	movl	%ebx, %eax
	andl	$-16, %eax
	pxor	%xmm0, %xmm0
	xorl	%ecx, %ecx
	.p2align	4
.LBB30_36:
	movdqu	1464(%rsp,%rcx), %xmm1
	pcmpeqb	.LCPI30_1(%rip), %xmm1
	por	%xmm1, %xmm0
	addq	$16, %rcx
	cmpq	%rcx, %rax
	jne	.LBB30_36
	ptest	.LCPI30_2(%rip), %xmm0
	setne	%cl
	cmpl	%ebx, %eax
	je	.LBB30_43
	testb	$12, %bl
	je	.LBB30_42
.LBB30_39:
	movq	%rax, %rdx
	movl	%ebx, %eax
	andl	$-4, %eax
	movzbl	%cl, %ecx
	movd	%ecx, %xmm0
	.p2align	4
.LBB30_40:
	movd	1464(%rsp,%rdx), %xmm1
	pcmpeqb	.LCPI30_3(%rip), %xmm1
	pmovsxbd	%xmm1, %xmm1
	por	%xmm1, %xmm0
	addq	$4, %rdx
	cmpq	%rdx, %rax
	jne	.LBB30_40
	ptest	.LCPI30_4(%rip), %xmm0
	setne	%cl
	cmpl	%ebx, %eax
	je	.LBB30_43
	.p2align	4
.LBB30_42:
	cmpb	$-15, 1464(%rsp,%rax)
	sete	%dl
	orb	%dl, %cl
	incq	%rax
	cmpq	%rax, %rbx
	jne	.LBB30_42
.LBB30_43:
	testb	$1, %cl
	je	.LBB30_46
	cmpw	$8, %bx
	jae	.LBB30_48
	xorl	%ecx, %ecx
	xorl	%eax, %eax
	jmp	.LBB30_51
.LBB30_46:
	movw	$0, 18(%rsi)
.LBB30_47:
	addq	$2680, %rsp
	popq	%rbx
	popq	%rbp
	popq	%rdi
	popq	%rsi
	popq	%r12
	popq	%r13
	popq	%r14
	popq	%r15
	retq
.LBB30_48:
	movl	%ebx, %eax
	andl	$-8, %eax
	pxor	%xmm0, %xmm0
	xorl	%ecx, %ecx
	.p2align	4
.LBB30_49:
	movq	1464(%rsp,%rcx), %xmm1
	pcmpeqb	.LCPI30_5(%rip), %xmm1
	pmovzxbw	%xmm1, %xmm1
	pand	.LCPI30_6(%rip), %xmm1
	paddw	%xmm1, %xmm0
	addq	$8, %rcx
	cmpq	%rcx, %rax
	jne	.LBB30_49
	pshufd	$238, %xmm0, %xmm1
	paddw	%xmm0, %xmm1
	pshufd	$85, %xmm1, %xmm0
	paddw	%xmm1, %xmm0
	movdqa	%xmm0, %xmm1
	psrld	$16, %xmm1
	paddw	%xmm0, %xmm1
	movd	%xmm1, %ecx
	cmpl	%ebx, %eax
	je	.LBB30_52
	.p2align	4
.LBB30_51:
	xorl	%edx, %edx
	cmpb	$-15, 1464(%rsp,%rax)
	sete	%dl
	addl	%edx, %ecx
	incq	%rax
	cmpq	%rax, %rbx
	jne	.LBB30_51
.LBB30_52:
	cmpw	$31, %cx
	ja	.LBB30_54
	movq	%rsi, %rcx
	movq	%r15, %rdx
	movq	%rbx, %r8
	callq	"ecc200_calls::inspection::find_designators::<=31>"
	jmp	.LBB30_47
.LBB30_54:
	movq	%rsi, %rcx
	movq	%r15, %rdx
	movq	%rbx, %r8
	callq	"ecc200_calls::inspection::find_designators::<=779>"
	jmp	.LBB30_47
	.seh_endproc

	.def	"ecc200_calls::inspection::inspect_given::<=144,=2178,=3123,=779>";
	.scl	3;
	.type	32;
	.endef
	.p2align	4
"ecc200_calls::inspection::inspect_given::<=144,=2178,=3123,=779>":
.seh_proc "ecc200_calls::inspection::inspect_given::<=144,=2178,=3123,=779>"
	pushq	%r15
	.seh_pushreg %r15
	pushq	%r14
	.seh_pushreg %r14
	pushq	%r12
	.seh_pushreg %r12
	pushq	%rsi
	.seh_pushreg %rsi
	pushq	%rdi
	.seh_pushreg %rdi
	pushq	%rbp
	.seh_pushreg %rbp
	pushq	%rbx
	.seh_pushreg %rbx
	movl	$5280, %eax
	callq	___chkstk_ms
	subq	%rax, %rsp
	.seh_stackalloc 5280
	.seh_endprologue
	movq	%r9, %rsi
	movq	%r8, %rdi
	movq	%rdx, %rbx
	movq	%rcx, %r14
	movq	5376(%rsp), %r15
	movzwl	(%r15), %ebp
	movzwl	18(%r15), %eax
	movzbl	20(%r15), %r12d
	movw	%ax, 50(%rsp)
	movups	2(%r15), %xmm0
	movups	%xmm0, 34(%rsp)
	leaq	52(%rsp), %rcx
	movl	$2316, %r8d
	xorl	%edx, %edx
	callq	memset
	movw	%bp, 32(%rsp)
	leaq	2368(%rsp), %rcx
	movl	$288, %r8d
	xorl	%edx, %edx
	callq	memset
	leaq	32(%rsp), %rcx
	movq	%r14, %rdx
	movq	%rbx, %r8
	callq	"ecc200_calls::modules::put_modules::<=144>"
	movq	5384(%rsp), %rbx
	testb	$1, %r12b
	je	.LBB31_2
	addq	$2, %r15
	movw	%bp, 2656(%rsp)
	movups	(%r15), %xmm0
	movups	%xmm0, 2658(%rsp)
	movzwl	16(%r15), %eax
	movw	%ax, 2674(%rsp)
	leaq	2676(%rsp), %rcx
	movl	$2604, %r8d
	xorl	%edx, %edx
	callq	memset
	leaq	2656(%rsp), %r14
	movq	%r14, %rcx
	movq	%rdi, %rdx
	movq	%rsi, %r8
	callq	"ecc200_calls::modules::put_modules::<=144>"
	leaq	32(%rsp), %rcx
	movb	$1, %dl
	movq	%r14, %r8
	jmp	.LBB31_3
.LBB31_2:
	leaq	32(%rsp), %rcx
	xorl	%edx, %edx
	xorl	%r8d, %r8d
.LBB31_3:
	movq	%rbx, %r9
	callq	"ecc200_calls::inspection::inspect_symbol::<=144,=2178>"
	nop
	addq	$5280, %rsp
	popq	%rbx
	popq	%rbp
	popq	%rdi
	popq	%rsi
	popq	%r12
	popq	%r14
	popq	%r15
	retq
	.seh_endproc

	.def	"ecc200_calls::modules::put_modules::<=144>";
	.scl	3;
	.type	32;
	.endef
	.p2align	4
"ecc200_calls::modules::put_modules::<=144>":
.seh_proc "ecc200_calls::modules::put_modules::<=144>"
	pushq	%r15
	.seh_pushreg %r15
	pushq	%r14
	.seh_pushreg %r14
	pushq	%r13
	.seh_pushreg %r13
	pushq	%r12
	.seh_pushreg %r12
	pushq	%rsi
	.seh_pushreg %rsi
	pushq	%rdi
	.seh_pushreg %rdi
	pushq	%rbp
	.seh_pushreg %rbp
	pushq	%rbx
	.seh_pushreg %rbx
	subq	$128, %rsp
	.seh_stackalloc 128
	.seh_endprologue
	movq	%rdx, 64(%rsp)
	movq	%rcx, 56(%rsp)
	movzwl	(%rcx), %eax
	movq	%rax, 104(%rsp)
	testq	%rax, %rax
	je	.LBB32_73
	movq	56(%rsp), %rax
	movzwl	2(%rax), %r15d
	cmpq	$128, %r15
	movl	$128, %edi
	cmovbq	%r15, %rdi
	movq	64(%rsp), %rax
	leaq	(%rax,%r8), %rsi
	leaq	-64(%r8), %rcx
	leaq	-65(%r8), %rdx
	movq	%rdx, 48(%rsp)
	leaq	-128(%r8), %r10
	leaq	-129(%r8), %r9
	movq	%r9, 88(%rsp)
	addq	%r8, %rax
	decq	%rax
	movq	%rax, (%rsp)
	xorl	%r13d, %r13d
	movq	%r10, 80(%rsp)
	movq	%r8, %r12
	movq	%rcx, 96(%rsp)
	movq	%rcx, %rdx
	movq	%r8, 8(%rsp)
	movq	%r15, 40(%rsp)
	movq	%rdi, 24(%rsp)
	jmp	.LBB32_2
.LBB32_4:
	xorl	%ebx, %ebx
.LBB32_17:
	xorl	%r12d, %r12d
	xorl	%eax, %eax
.LBB32_72:
	movq	%r13, %rcx
	shlq	$4, %rcx
	movq	56(%rsp), %rdx
	movq	%r12, 40(%rdx,%rcx)
	movq	%rbx, 32(%rdx,%rcx)
	movw	%ax, 2336(%rdx,%r13,2)
	incq	%r13
	movq	112(%rsp), %rdx
	subq	%r15, %rdx
	movq	120(%rsp), %r12
	subq	%r15, %r12
	subq	%r15, %r10
	cmpq	104(%rsp), %r13
	je	.LBB32_73
.LBB32_2:
	movq	%r13, %r11
	imulq	%r15, %r11
	movq	%r8, %r14
	subq	%r11, %r14
	movq	64(%rsp), %rax
	leaq	(%rax,%r11), %r9
	cmpq	$63, %r14
	movq	%r12, 120(%rsp)
	movq	%rdx, 112(%rsp)
	ja	.LBB32_16
	testq	%r15, %r15
	je	.LBB32_4
	movq	%r10, 72(%rsp)
	movl	%edx, %ecx
	andl	$1, %ecx
	movq	%r12, %rdx
	subq	%rcx, %rdx
	movq	%r11, 16(%rsp)
	movq	%r11, %r15
	subq	%r8, %r15
	xorl	%r10d, %r10d
	xorl	%ebx, %ebx
	xorl	%r12d, %r12d
	xorl	%ecx, %ecx
	jmp	.LBB32_6
	.p2align	4
.LBB32_74:
	movdqu	(%r9,%rcx), %xmm0
	pxor	%xmm1, %xmm1
	pcmpeqb	%xmm0, %xmm1
	pmovmskb	%xmm1, %ebp
	notl	%ebp
.LBB32_15:
	movzwl	%bp, %eax
	xorl	%r8d, %r8d
	shldq	%cl, %rax, %r8
	shlq	%cl, %rax
	xorl	%r11d, %r11d
	testb	$64, %cl
	cmovneq	%rax, %r8
	cmovneq	%r11, %rax
	orq	%r8, %r12
	orq	%rax, %rbx
	addq	$16, %rcx
	incq	%r10
	addq	$-16, %rdx
	cmpq	%rdi, %rcx
	jae	.LBB32_61
.LBB32_6:
	movq	%r14, %r8
	subq	%rcx, %r8
	cmpq	$15, %r8
	ja	.LBB32_74
	cmpq	%rcx, %r14
	jne	.LBB32_9
	xorl	%ebp, %ebp
	jmp	.LBB32_15
	.p2align	4
.LBB32_9:
	movq	%r10, %r8
	shlq	$4, %r8
	negq	%r8
	decq	%r8
	xorl	%ebp, %ebp
	cmpq	%r8, %r15
	jne	.LBB32_11
	xorl	%r11d, %r11d
	jmp	.LBB32_14
.LBB32_11:
	movq	(%rsp), %rdi
	xorl	%r11d, %r11d
	.p2align	4
.LBB32_12:
	xorl	%eax, %eax
	cmpb	$0, (%rdi)
	setne	%al
	addl	%eax, %eax
	leal	(%rax,%rbp,4), %eax
	movq	%r11, %r8
	xorq	$-2, %r8
	xorl	%ebp, %ebp
	cmpb	$0, (%rsi,%r8)
	setne	%bpl
	orl	%eax, %ebp
	addq	$2, %r11
	addq	$-2, %rdi
	cmpq	%r11, %rdx
	jne	.LBB32_12
	testb	$1, %r14b
	movq	24(%rsp), %rdi
	je	.LBB32_15
.LBB32_14:
	notq	%r11
	xorl	%eax, %eax
	cmpb	$0, (%rsi,%r11)
	setne	%al
	leal	(%rax,%rbp,2), %ebp
	jmp	.LBB32_15
	.p2align	4
.LBB32_16:
	movq	%r11, 16(%rsp)
	movdqu	(%r9), %xmm0
	movdqu	16(%r9), %xmm1
	movdqu	32(%r9), %xmm2
	movdqu	48(%r9), %xmm3
	pxor	%xmm4, %xmm4
	pcmpeqb	%xmm4, %xmm3
	pcmpeqb	%xmm4, %xmm2
	pcmpeqb	%xmm4, %xmm1
	pcmpeqb	%xmm4, %xmm0
	pmovmskb	%xmm0, %eax
	xorl	$65535, %eax
	pmovmskb	%xmm1, %ecx
	notl	%ecx
	shll	$16, %ecx
	orl	%eax, %ecx
	pmovmskb	%xmm2, %eax
	xorl	$65535, %eax
	shlq	$32, %rax
	orq	%rcx, %rax
	pmovmskb	%xmm3, %ebx
	notl	%ebx
	shlq	$48, %rbx
	orq	%rax, %rbx
	cmpw	$65, %r15w
	jb	.LBB32_17
	movq	%rdx, %rcx
	andq	$-2, %rcx
	movq	96(%rsp), %rbp
	subq	16(%rsp), %rbp
	movq	%r14, %rdx
	andq	$-16, %rdx
	cmpq	$64, %rdx
	movq	%r10, 72(%rsp)
	jne	.LBB32_75
	cmpq	$64, %r14
	jne	.LBB32_21
	xorl	%r10d, %r10d
	jmp	.LBB32_27
.LBB32_75:
	movdqu	64(%r9), %xmm0
	pxor	%xmm1, %xmm1
	pcmpeqb	%xmm0, %xmm1
	pmovmskb	%xmm1, %r10d
	notl	%r10d
	jmp	.LBB32_27
.LBB32_21:
	movq	16(%rsp), %rax
	cmpq	%rax, 48(%rsp)
	jne	.LBB32_23
	xorl	%r10d, %r10d
	xorl	%r8d, %r8d
	jmp	.LBB32_26
.LBB32_23:
	xorl	%r10d, %r10d
	movq	(%rsp), %rdi
	xorl	%r8d, %r8d
	.p2align	4
.LBB32_24:
	xorl	%eax, %eax
	cmpb	$0, (%rdi)
	setne	%al
	addl	%eax, %eax
	leal	(%rax,%r10,4), %eax
	movq	%r8, %r11
	xorq	$-2, %r11
	xorl	%r10d, %r10d
	cmpb	$0, (%rsi,%r11)
	setne	%r10b
	orl	%eax, %r10d
	addq	$2, %r8
	addq	$-2, %rdi
	cmpq	%r8, %rcx
	jne	.LBB32_24
	testb	$1, %bpl
	movq	24(%rsp), %rdi
	je	.LBB32_27
.LBB32_26:
	notq	%r8
	xorl	%eax, %eax
	cmpb	$0, (%rsi,%r8)
	setne	%al
	leal	(%rax,%r10,2), %r10d
	.p2align	4
.LBB32_27:
	movzwl	%r10w, %r12d
	cmpw	$81, %r15w
	jb	.LBB32_61
	movq	48(%rsp), %r11
	subq	16(%rsp), %r11
	cmpq	$80, %rdx
	jne	.LBB32_29
	cmpq	$80, %r14
	jne	.LBB32_32
	xorl	%r10d, %r10d
	jmp	.LBB32_38
.LBB32_29:
	movdqu	80(%r9), %xmm0
	pxor	%xmm1, %xmm1
	pcmpeqb	%xmm0, %xmm1
	pmovmskb	%xmm1, %r10d
	notl	%r10d
	jmp	.LBB32_38
.LBB32_32:
	cmpq	$16, %r11
	jne	.LBB32_34
	xorl	%r10d, %r10d
	xorl	%r8d, %r8d
	jmp	.LBB32_37
.LBB32_34:
	movq	%r11, 32(%rsp)
	leaq	-16(%rcx), %r15
	xorl	%r10d, %r10d
	movq	(%rsp), %rdi
	xorl	%r8d, %r8d
	.p2align	4
.LBB32_35:
	xorl	%eax, %eax
	cmpb	$0, (%rdi)
	setne	%al
	addl	%eax, %eax
	leal	(%rax,%r10,4), %eax
	movq	%r8, %r11
	xorq	$-2, %r11
	xorl	%r10d, %r10d
	cmpb	$0, (%rsi,%r11)
	setne	%r10b
	orl	%eax, %r10d
	addq	$2, %r8
	addq	$-2, %rdi
	cmpq	%r8, %r15
	jne	.LBB32_35
	testb	$1, %bpl
	movq	40(%rsp), %r15
	movq	24(%rsp), %rdi
	movq	32(%rsp), %r11
	je	.LBB32_38
.LBB32_37:
	notq	%r8
	xorl	%eax, %eax
	cmpb	$0, (%rsi,%r8)
	setne	%al
	leal	(%rax,%r10,2), %r10d
.LBB32_38:
	shll	$16, %r10d
	orq	%r10, %r12
	cmpw	$97, %r15w
	jb	.LBB32_61
	cmpq	$96, %rdx
	jne	.LBB32_40
	cmpq	$96, %r14
	jne	.LBB32_43
	xorl	%r10d, %r10d
	jmp	.LBB32_49
.LBB32_40:
	movdqu	96(%r9), %xmm0
	pxor	%xmm1, %xmm1
	pcmpeqb	%xmm0, %xmm1
	pmovmskb	%xmm1, %r10d
	notl	%r10d
	jmp	.LBB32_49
.LBB32_43:
	cmpq	$32, %r11
	jne	.LBB32_45
	xorl	%r10d, %r10d
	xorl	%r8d, %r8d
	jmp	.LBB32_48
.LBB32_45:
	movq	%r11, 32(%rsp)
	leaq	-32(%rcx), %r15
	xorl	%r10d, %r10d
	movq	(%rsp), %rdi
	xorl	%r8d, %r8d
	.p2align	4
.LBB32_46:
	xorl	%eax, %eax
	cmpb	$0, (%rdi)
	setne	%al
	addl	%eax, %eax
	leal	(%rax,%r10,4), %eax
	movq	%r8, %r11
	xorq	$-2, %r11
	xorl	%r10d, %r10d
	cmpb	$0, (%rsi,%r11)
	setne	%r10b
	orl	%eax, %r10d
	addq	$2, %r8
	addq	$-2, %rdi
	cmpq	%r8, %r15
	jne	.LBB32_46
	testb	$1, %bpl
	movq	40(%rsp), %r15
	movq	24(%rsp), %rdi
	movq	32(%rsp), %r11
	je	.LBB32_49
.LBB32_48:
	notq	%r8
	xorl	%eax, %eax
	cmpb	$0, (%rsi,%r8)
	setne	%al
	leal	(%rax,%r10,2), %r10d
.LBB32_49:
	movzwl	%r10w, %eax
	shlq	$32, %rax
	orq	%rax, %r12
	cmpw	$113, %r15w
	jb	.LBB32_61
	cmpq	$112, %rdx
	jne	.LBB32_51
	cmpq	$112, %r14
	jne	.LBB32_54
	xorl	%edx, %edx
	jmp	.LBB32_60
.LBB32_51:
	movdqu	112(%r9), %xmm0
	pxor	%xmm1, %xmm1
	pcmpeqb	%xmm0, %xmm1
	pmovmskb	%xmm1, %edx
	notl	%edx
	jmp	.LBB32_60
.LBB32_54:
	cmpq	$48, %r11
	jne	.LBB32_56
	xorl	%edx, %edx
	xorl	%r8d, %r8d
	jmp	.LBB32_59
.LBB32_56:
	addq	$-48, %rcx
	xorl	%edx, %edx
	movq	(%rsp), %r10
	xorl	%r8d, %r8d
	.p2align	4
.LBB32_57:
	xorl	%eax, %eax
	cmpb	$0, (%r10)
	setne	%al
	addl	%eax, %eax
	leal	(%rax,%rdx,4), %eax
	movq	%r8, %r11
	xorq	$-2, %r11
	xorl	%edx, %edx
	cmpb	$0, (%rsi,%r11)
	setne	%dl
	orl	%eax, %edx
	addq	$2, %r8
	addq	$-2, %r10
	cmpq	%r8, %rcx
	jne	.LBB32_57
	testb	$1, %bpl
	je	.LBB32_60
.LBB32_59:
	notq	%r8
	xorl	%eax, %eax
	cmpb	$0, (%rsi,%r8)
	setne	%al
	leal	(%rax,%rdx,2), %edx
.LBB32_60:
	movzwl	%dx, %eax
	shlq	$48, %rax
	orq	%rax, %r12
	.p2align	4
.LBB32_61:
	movq	40(%rsp), %r15
	cmpl	$129, %r15d
	movq	72(%rsp), %r10
	jae	.LBB32_63
.LBB32_62:
	xorl	%eax, %eax
	jmp	.LBB32_71
	.p2align	4
.LBB32_63:
	addq	$-128, %r14
	cmpq	$15, %r14
	ja	.LBB32_76
	testq	%r14, %r14
	je	.LBB32_62
	movq	16(%rsp), %rax
	cmpq	%rax, 88(%rsp)
	jne	.LBB32_67
	xorl	%eax, %eax
	xorl	%ecx, %ecx
	jmp	.LBB32_70
.LBB32_76:
	movdqu	128(%r9), %xmm0
	pxor	%xmm1, %xmm1
	pcmpeqb	%xmm0, %xmm1
	pmovmskb	%xmm1, %eax
	notl	%eax
	jmp	.LBB32_71
.LBB32_67:
	movq	%r10, %r14
	movq	%r10, %r8
	andq	$-2, %r8
	movq	80(%rsp), %rdx
	subq	%rax, %rdx
	xorl	%eax, %eax
	movq	(%rsp), %r9
	xorl	%ecx, %ecx
	.p2align	4
.LBB32_68:
	xorl	%r10d, %r10d
	cmpb	$0, (%r9)
	setne	%r10b
	addl	%r10d, %r10d
	leal	(%r10,%rax,4), %r10d
	movq	%rcx, %r11
	xorq	$-2, %r11
	xorl	%eax, %eax
	cmpb	$0, (%rsi,%r11)
	setne	%al
	orl	%r10d, %eax
	addq	$2, %rcx
	addq	$-2, %r9
	cmpq	%rcx, %r8
	jne	.LBB32_68
	testb	$1, %dl
	movq	%r14, %r10
	je	.LBB32_71
.LBB32_70:
	notq	%rcx
	xorl	%edx, %edx
	cmpb	$0, (%rsi,%rcx)
	setne	%dl
	leal	(%rdx,%rax,2), %eax
	.p2align	4
.LBB32_71:
	movq	8(%rsp), %r8
	jmp	.LBB32_72
.LBB32_73:
	addq	$128, %rsp
	popq	%rbx
	popq	%rbp
	popq	%rdi
	popq	%rsi
	popq	%r12
	popq	%r13
	popq	%r14
	popq	%r15
	retq
	.seh_endproc

	.def	"ecc200_calls::inspection::inspect_symbol::<=144,=2178>";
	.scl	3;
	.type	32;
	.endef
	.section	.rdata,"dr"
	.p2align	4, 0x0
.LCPI33_0:
	.byte	1
	.byte	1
	.byte	1
	.byte	1
	.byte	1
	.byte	1
	.byte	1
	.byte	1
	.zero	1
	.zero	1
	.zero	1
	.zero	1
	.zero	1
	.zero	1
	.zero	1
	.zero	1
.LCPI33_1:
	.zero	16,241
.LCPI33_2:
	.zero	16,1
.LCPI33_3:
	.byte	241
	.byte	241
	.byte	241
	.byte	241
	.zero	1
	.zero	1
	.zero	1
	.zero	1
	.zero	1
	.zero	1
	.zero	1
	.zero	1
	.zero	1
	.zero	1
	.zero	1
	.zero	1
.LCPI33_4:
	.quad	4294967297
	.quad	4294967297
.LCPI33_5:
	.byte	241
	.byte	241
	.byte	241
	.byte	241
	.byte	241
	.byte	241
	.byte	241
	.byte	241
	.zero	1
	.zero	1
	.zero	1
	.zero	1
	.zero	1
	.zero	1
	.zero	1
	.zero	1
.LCPI33_6:
	.short	1
	.short	1
	.short	1
	.short	1
	.short	1
	.short	1
	.short	1
	.short	1
	.text
	.p2align	4
"ecc200_calls::inspection::inspect_symbol::<=144,=2178>":
.seh_proc "ecc200_calls::inspection::inspect_symbol::<=144,=2178>"
	pushq	%r15
	.seh_pushreg %r15
	pushq	%r14
	.seh_pushreg %r14
	pushq	%r13
	.seh_pushreg %r13
	pushq	%r12
	.seh_pushreg %r12
	pushq	%rsi
	.seh_pushreg %rsi
	pushq	%rdi
	.seh_pushreg %rdi
	pushq	%rbp
	.seh_pushreg %rbp
	pushq	%rbx
	.seh_pushreg %rbx
	movl	$4728, %eax
	callq	___chkstk_ms
	subq	%rax, %rsp
	.seh_stackalloc 4728
	.seh_endprologue
	movq	%r9, %rsi
	movq	%r8, %r12
	movl	%edx, %ebp
	movq	%rcx, %r14
	leaq	288(%rsp), %rbx
	movl	$2208, %r8d
	movq	%rbx, %rcx
	xorl	%edx, %edx
	callq	memset
	movzwl	(%r14), %edi
	movzwl	2(%r14), %edx
	movzwl	12(%r14), %eax
	movw	%ax, 284(%rsp)
	movq	4(%r14), %rax
	movq	%rax, 276(%rsp)
	movzwl	14(%r14), %eax
	movb	$0, 222(%rsp)
	movw	$0, 220(%rsp)
	movq	4(%r14), %rcx
	movq	%rcx, 2474(%rsp)
	movzwl	12(%r14), %ecx
	movw	%cx, 2482(%rsp)
	xorps	%xmm0, %xmm0
	movups	%xmm0, 255(%rsp)
	movups	%xmm0, 239(%rsp)
	movups	%xmm0, 223(%rsp)
	movw	%di, 272(%rsp)
	movw	%dx, 62(%rsp)
	movw	%dx, 274(%rsp)
	movw	%ax, 286(%rsp)
	leaq	292(%rsp), %r13
	movl	$2178, %r8d
	movq	%r13, %rcx
	xorl	%edx, %edx
	callq	memset
	leaq	2490(%rsp), %r15
	movl	$2179, %r8d
	movq	%r15, %rcx
	xorl	%edx, %edx
	callq	memset
	movups	220(%rsp), %xmm0
	movdqu	236(%rsp), %xmm1
	movdqu	252(%rsp), %xmm2
	movups	%xmm0, 4669(%rsp)
	movdqu	%xmm1, 4685(%rsp)
	movdqu	%xmm2, 4701(%rsp)
	movl	267(%rsp), %eax
	movl	%eax, 4716(%rsp)
	movq	$0, 4720(%rsp)
	movl	16(%r14), %eax
	movl	%eax, 144(%rsp)
	movdqu	(%r14), %xmm0
	movdqa	%xmm0, 128(%rsp)
	leaq	32(%r14), %rax
	leaq	2336(%r14), %rcx
	movl	$0, 148(%rsp)
	movdqa	%xmm0, 64(%rsp)
	movq	144(%rsp), %rdx
	movq	%rdx, 80(%rsp)
	movq	%rax, 88(%rsp)
	movq	$144, 96(%rsp)
	movq	%rcx, 104(%rsp)
	movq	$144, 112(%rsp)
	testb	$1, %bpl
	je	.LBB33_9
	movl	16(%r12), %eax
	movl	%eax, 176(%rsp)
	movdqu	(%r12), %xmm0
	movdqa	%xmm0, 160(%rsp)
	leaq	32(%r12), %rax
	addq	$2336, %r12
	movl	$0, 180(%rsp)
	movq	%rax, 184(%rsp)
	movq	$144, 192(%rsp)
	movq	%r12, 200(%rsp)
	movq	$144, 208(%rsp)
	movq	(%r14), %rax
	movq	6(%r14), %rcx
	movq	%rcx, 2188(%rbx)
	movq	%rax, 2182(%rbx)
	movzwl	78(%rsp), %ebp
	movl	80(%rsp), %eax
	movq	(%r14), %rcx
	movq	6(%r14), %rdx
	movq	%rcx, 272(%rsp)
	movq	%rdx, 278(%rsp)
	movw	%bp, 286(%rsp)
	movl	%eax, 288(%rsp)
	movw	%bp, 2484(%rsp)
	movl	%eax, 2486(%rsp)
	leaq	64(%rsp), %r15
	leaq	160(%rsp), %r8
	movq	%r15, %rcx
	movb	$1, %dl
	callq	"dm_layout::symbols::border::border_faults"
	movw	%ax, 4720(%rsp)
	leaq	4672(%rsp), %r12
	addw	76(%rsp), %bp
	movzwl	%bp, %r14d
	movq	%r15, %rcx
	movq	%r13, %rdx
	callq	"dm_layout::symbols::placing::lift_to"
	cmpl	$2199, %r14d
	jb	.LBB33_10
	movl	%r14d, %eax
	andl	$-16, %eax
	xorl	%ecx, %ecx
	leaq	2490(%rsp), %r15
	.p2align	4
.LBB33_3:
	movdqu	292(%rsp,%rcx), %xmm0
	movdqu	%xmm0, 2490(%rsp,%rcx)
	addq	$16, %rcx
	cmpq	%rcx, %rax
	jne	.LBB33_3
	cmpl	%r14d, %eax
	je	.LBB33_13
	testb	$12, %r14b
	je	.LBB33_11
	movl	%r14d, %ecx
	andl	$-4, %ecx
	.p2align	4
.LBB33_7:
	movl	292(%rsp,%rax), %edx
	movl	%edx, 2490(%rsp,%rax)
	addq	$4, %rax
	cmpq	%rax, %rcx
	jne	.LBB33_7
	cmpl	%r14d, %ecx
	jne	.LBB33_12
	jmp	.LBB33_13
.LBB33_9:
	movq	(%r14), %rax
	movq	6(%r14), %rcx
	movq	%rcx, 2188(%rbx)
	movq	%rax, 2182(%rbx)
	movzwl	78(%rsp), %eax
	movl	80(%rsp), %ecx
	movq	(%r14), %rdx
	movq	6(%r14), %r8
	movq	%rdx, 272(%rsp)
	movq	%r8, 278(%rsp)
	movw	%ax, 286(%rsp)
	movl	%ecx, 288(%rsp)
	movw	%ax, 2484(%rsp)
	movl	%ecx, 2486(%rsp)
	leaq	64(%rsp), %r14
	movq	%r14, %rcx
	xorl	%edx, %edx
	xorl	%r8d, %r8d
	callq	"dm_layout::symbols::border::border_faults"
	movw	%ax, 4720(%rsp)
	leaq	4672(%rsp), %rax
	movq	%rax, 40(%rsp)
	movq	%r15, 32(%rsp)
	movq	%r14, %rcx
	xorl	%edx, %edx
	xorl	%r8d, %r8d
	movq	%r13, %r9
	callq	"dm_symbol::symbol::inspection::mend"
	jmp	.LBB33_17
.LBB33_10:
	leaq	2490(%rsp), %r15
	movq	%r15, %rcx
	movq	%r13, %rdx
	movq	%r14, %r8
	callq	memmove
	jmp	.LBB33_13
.LBB33_11:
	movq	%rax, %rcx
	.p2align	4
.LBB33_12:
	movzbl	292(%rsp,%rcx), %eax
	movb	%al, 2490(%rsp,%rcx)
	incq	%rcx
	cmpq	%rcx, %r14
	jne	.LBB33_12
.LBB33_13:
	movq	%r12, 32(%rsp)
	leaq	128(%rsp), %rcx
	leaq	160(%rsp), %r9
	movq	%r15, %rdx
	movq	%r14, %r8
	callq	"dm_symbol::symbol::inspection::mend_doubtful"
	xorl	%eax, %eax
	movq	4712(%rsp), %rcx
	.p2align	4
.LBB33_14:
	cmpq	%rax, %rcx
	je	.LBB33_18
	cmpb	$1, 4672(%rsp,%rax,4)
	leaq	1(%rax), %rax
	je	.LBB33_14
	movq	%r12, 40(%rsp)
	movq	%r14, 32(%rsp)
	leaq	64(%rsp), %rcx
	leaq	160(%rsp), %r8
	movb	$1, %dl
	movq	%r15, %r9
	callq	"dm_symbol::symbol::inspection::mend_restarted"
.LBB33_17:
	jmp	.LBB33_19
.LBB33_18:
	xorl	%eax, %eax
.LBB33_19:
	movb	%al, 4668(%rsp)
	movq	4712(%rsp), %r14
	pxor	%xmm0, %xmm0
	pinsrw	$3, %edi, %xmm0
	movq	%xmm0, (%rsi)
	movzwl	62(%rsp), %ecx
	movw	%cx, 8(%rsi)
	movzwl	4720(%rsp), %ecx
	movw	%cx, 10(%rsi)
	movw	%r14w, 12(%rsi)
	movzwl	286(%rsp), %edx
	addw	284(%rsp), %dx
	movw	%dx, 14(%rsi)
	movzbl	%al, %eax
	movw	%ax, 16(%rsi)
	movw	$0, 18(%rsi)
	testq	%r14, %r14
	je	.LBB33_26
	cmpq	$8, %r14
	jae	.LBB33_22
	xorl	%eax, %eax
	jmp	.LBB33_24
.LBB33_22:
	movq	%r14, %rax
	andq	$-8, %rax
	xorl	%ecx, %ecx
	.p2align	4
.LBB33_23:
	movd	4672(%rsp,%rcx,4), %xmm0
	pinsrb	$1, 4676(%rsp,%rcx,4), %xmm0
	pinsrb	$2, 4680(%rsp,%rcx,4), %xmm0
	pinsrb	$3, 4684(%rsp,%rcx,4), %xmm0
	pinsrb	$4, 4688(%rsp,%rcx,4), %xmm0
	pinsrb	$5, 4692(%rsp,%rcx,4), %xmm0
	pinsrb	$6, 4696(%rsp,%rcx,4), %xmm0
	pinsrb	$7, 4700(%rsp,%rcx,4), %xmm0
	movzbl	4673(%rsp,%rcx,4), %r8d
	movd	%r8d, %xmm1
	pinsrb	$1, 4677(%rsp,%rcx,4), %xmm1
	pinsrb	$2, 4681(%rsp,%rcx,4), %xmm1
	pinsrb	$3, 4685(%rsp,%rcx,4), %xmm1
	pinsrb	$4, 4689(%rsp,%rcx,4), %xmm1
	pinsrb	$5, 4693(%rsp,%rcx,4), %xmm1
	pinsrb	$6, 4697(%rsp,%rcx,4), %xmm1
	pinsrb	$7, 4701(%rsp,%rcx,4), %xmm1
	movzbl	4678(%rsp,%rcx,4), %r8d
	movzbl	4674(%rsp,%rcx,4), %r9d
	movd	%r9d, %xmm2
	pinsrb	$1, %r8d, %xmm2
	movzbl	4682(%rsp,%rcx,4), %r8d
	pinsrb	$2, %r8d, %xmm2
	movzbl	4686(%rsp,%rcx,4), %r8d
	pinsrb	$3, %r8d, %xmm2
	movzbl	4690(%rsp,%rcx,4), %r8d
	pinsrb	$4, %r8d, %xmm2
	movzbl	4694(%rsp,%rcx,4), %r8d
	pinsrb	$5, %r8d, %xmm2
	movzbl	4698(%rsp,%rcx,4), %r8d
	pinsrb	$6, %r8d, %xmm2
	movzbl	4702(%rsp,%rcx,4), %r8d
	pinsrb	$7, %r8d, %xmm2
	movzbl	4679(%rsp,%rcx,4), %r8d
	movzbl	4675(%rsp,%rcx,4), %r9d
	movd	%r9d, %xmm3
	pinsrb	$1, %r8d, %xmm3
	movzbl	4683(%rsp,%rcx,4), %r8d
	pinsrb	$2, %r8d, %xmm3
	movzbl	4687(%rsp,%rcx,4), %r8d
	pinsrb	$3, %r8d, %xmm3
	movzbl	4691(%rsp,%rcx,4), %r8d
	pinsrb	$4, %r8d, %xmm3
	movzbl	4695(%rsp,%rcx,4), %r8d
	pinsrb	$5, %r8d, %xmm3
	movzbl	4699(%rsp,%rcx,4), %r8d
	pinsrb	$6, %r8d, %xmm3
	movzbl	4703(%rsp,%rcx,4), %r8d
	pinsrb	$7, %r8d, %xmm3
	pcmpeqb	.LCPI33_0(%rip), %xmm0
	pcmpeqd	%xmm4, %xmm4
	pblendvb	%xmm0, %xmm1, %xmm4
	pand	%xmm0, %xmm2
	pand	%xmm3, %xmm0
	movq	%xmm4, 6252(%rsi,%rcx)
	movq	%xmm2, 6262(%rsi,%rcx)
	movq	%xmm0, 6272(%rsi,%rcx)
	addq	$8, %rcx
	cmpq	%rcx, %rax
	jne	.LBB33_23
	jmp	.LBB33_25
.LBB33_24:
	xorl	%ecx, %ecx
	cmpb	$1, 4672(%rsp,%rax,4)
	movzbl	4673(%rsp,%rax,4), %r8d
	movl	$255, %r9d
	cmovel	%r8d, %r9d
	movzbl	4674(%rsp,%rax,4), %r8d
	cmovnel	%ecx, %r8d
	movzbl	4675(%rsp,%rax,4), %r10d
	cmovnel	%ecx, %r10d
	movb	%r9b, 6252(%rsi,%rax)
	movb	%r8b, 6262(%rsi,%rax)
	movb	%r10b, 6272(%rsi,%rax)
	incq	%rax
.LBB33_25:
	cmpq	%rax, %r14
	jne	.LBB33_24
.LBB33_26:
	leaq	6282(%rsi), %rcx
	movzwl	%dx, %r8d
	movq	%r13, %rdx
	callq	memcpy
	leaq	8460(%rsi), %rcx
	movzwl	2482(%rsp), %ebx
	movzwl	2484(%rsp), %eax
	addw	%bx, %ax
	movzwl	%ax, %r8d
	movq	%r15, %rdx
	callq	memcpy
	xorl	%eax, %eax
	.p2align	4
.LBB33_27:
	cmpq	%rax, %r14
	je	.LBB33_30
	cmpb	$1, 4672(%rsp,%rax,4)
	leaq	1(%rax), %rax
	je	.LBB33_27
	jmp	.LBB33_46
.LBB33_30:
	testq	%rbx, %rbx
	je	.LBB33_46
	cmpw	$4, %bx
	jae	.LBB33_33
	xorl	%ecx, %ecx
	xorl	%eax, %eax
	jmp	.LBB33_42
.LBB33_33:
	cmpw	$16, %bx
	jae	.LBB33_35
	xorl	%eax, %eax
	xorl	%ecx, %ecx
	jmp	.LBB33_39
.LBB33_35:
	movl	%ebx, %eax
	andl	$-16, %eax
	pxor	%xmm0, %xmm0
	xorl	%ecx, %ecx
	.p2align	4
.LBB33_36:
	movdqu	2490(%rsp,%rcx), %xmm1
	pcmpeqb	.LCPI33_1(%rip), %xmm1
	por	%xmm1, %xmm0
	addq	$16, %rcx
	cmpq	%rcx, %rax
	jne	.LBB33_36
	ptest	.LCPI33_2(%rip), %xmm0
	setne	%cl
	cmpl	%ebx, %eax
	je	.LBB33_43
	testb	$12, %bl
	je	.LBB33_42
.LBB33_39:
	movq	%rax, %rdx
	movl	%ebx, %eax
	andl	$-4, %eax
	movzbl	%cl, %ecx
	movd	%ecx, %xmm0
	.p2align	4
.LBB33_40:
	movd	2490(%rsp,%rdx), %xmm1
	pcmpeqb	.LCPI33_3(%rip), %xmm1
	pmovsxbd	%xmm1, %xmm1
	por	%xmm1, %xmm0
	addq	$4, %rdx
	cmpq	%rdx, %rax
	jne	.LBB33_40
	ptest	.LCPI33_4(%rip), %xmm0
	setne	%cl
	cmpl	%ebx, %eax
	je	.LBB33_43
	.p2align	4
.LBB33_42:
	cmpb	$-15, 2490(%rsp,%rax)
	sete	%dl
	orb	%dl, %cl
	incq	%rax
	cmpq	%rax, %rbx
	jne	.LBB33_42
.LBB33_43:
	testb	$1, %cl
	je	.LBB33_46
	cmpw	$8, %bx
	jae	.LBB33_48
	xorl	%ecx, %ecx
	xorl	%eax, %eax
	jmp	.LBB33_51
.LBB33_46:
	movw	$0, 18(%rsi)
.LBB33_47:
	addq	$4728, %rsp
	popq	%rbx
	popq	%rbp
	popq	%rdi
	popq	%rsi
	popq	%r12
	popq	%r13
	popq	%r14
	popq	%r15
	retq
.LBB33_48:
	movl	%ebx, %eax
	andl	$-8, %eax
	pxor	%xmm0, %xmm0
	xorl	%ecx, %ecx
	.p2align	4
.LBB33_49:
	movq	2490(%rsp,%rcx), %xmm1
	pcmpeqb	.LCPI33_5(%rip), %xmm1
	pmovzxbw	%xmm1, %xmm1
	pand	.LCPI33_6(%rip), %xmm1
	paddw	%xmm1, %xmm0
	addq	$8, %rcx
	cmpq	%rcx, %rax
	jne	.LBB33_49
	pshufd	$238, %xmm0, %xmm1
	paddw	%xmm0, %xmm1
	pshufd	$85, %xmm1, %xmm0
	paddw	%xmm1, %xmm0
	movdqa	%xmm0, %xmm1
	psrld	$16, %xmm1
	paddw	%xmm0, %xmm1
	movd	%xmm1, %ecx
	cmpl	%ebx, %eax
	je	.LBB33_52
	.p2align	4
.LBB33_51:
	xorl	%edx, %edx
	cmpb	$-15, 2490(%rsp,%rax)
	sete	%dl
	addl	%edx, %ecx
	incq	%rax
	cmpq	%rax, %rbx
	jne	.LBB33_51
.LBB33_52:
	cmpw	$31, %cx
	ja	.LBB33_54
	movq	%rsi, %rcx
	movq	%r15, %rdx
	movq	%rbx, %r8
	callq	"ecc200_calls::inspection::find_designators::<=31>"
	jmp	.LBB33_47
.LBB33_54:
	movq	%rsi, %rcx
	movq	%r15, %rdx
	movq	%rbx, %r8
	callq	"ecc200_calls::inspection::find_designators::<=779>"
	jmp	.LBB33_47
	.seh_endproc

	.def	"ecc200_calls::answer::answer_given::<#67f27f8c38696f0b>";
	.scl	3;
	.type	32;
	.endef
	.p2align	4
"ecc200_calls::answer::answer_given::<#67f27f8c38696f0b>":
.seh_proc "ecc200_calls::answer::answer_given::<#67f27f8c38696f0b>"
	pushq	%rsi
	.seh_pushreg %rsi
	pushq	%rdi
	.seh_pushreg %rdi
	subq	$312, %rsp
	.seh_stackalloc 312
	.seh_endprologue
	movq	%rcx, %rdi
	movq	392(%rsp), %rsi
	movaps	368(%rsp), %xmm0
	movq	384(%rsp), %rax
	movzwl	8(%rdx), %ecx
	movw	%cx, 104(%rsp)
	movq	(%rdx), %rcx
	movq	%rcx, 96(%rsp)
	movups	(%rax), %xmm1
	movaps	%xmm1, 112(%rsp)
	movq	14(%rax), %rax
	movq	%rax, 126(%rsp)
	movq	$0, 80(%rsp)
	movw	$0, 88(%rsp)
	xorps	%xmm1, %xmm1
	movups	%xmm1, 214(%rsp)
	movups	%xmm1, 230(%rsp)
	movups	%xmm1, 246(%rsp)
	movups	%xmm1, 262(%rsp)
	movups	%xmm1, 278(%rsp)
	movups	%xmm1, 294(%rsp)
	movw	$0, 310(%rsp)
	movups	%xmm1, 137(%rsp)
	movups	%xmm1, 153(%rsp)
	movups	%xmm1, 168(%rsp)
	movb	$0, 136(%rsp)
	movq	$0, 184(%rsp)
	leaq	136(%rsp), %rax
	movq	%rax, 64(%rsp)
	leaq	194(%rsp), %rax
	movq	%rax, 56(%rsp)
	leaq	112(%rsp), %rax
	movq	%rax, 48(%rsp)
	movups	%xmm0, 32(%rsp)
	leaq	80(%rsp), %rcx
	leaq	96(%rsp), %rdx
	callq	"ecc200_calls::restoring::restore_given::<=32,=98>"
	cmpb	$0, 80(%rsp)
	je	.LBB34_1
	movzbl	82(%rsp), %ecx
	movzwl	84(%rsp), %eax
	testl	%ecx, %ecx
	je	.LBB34_3
	cmpl	$2, %ecx
	jne	.LBB34_5
	movzwl	86(%rsp), %edx
	cmpb	$2, %al
	je	.LBB34_18
	movzbl	%al, %eax
	cmpl	$1, %eax
	jne	.LBB34_9
	movw	$20, %cx
	jmp	.LBB34_19
.LBB34_1:
	movzbl	100(%rsp), %edx
	leaq	194(%rsp), %r8
	movq	%rdi, %rcx
	movq	%rsi, %r9
	callq	"ecc200_calls::answer::answer_words::<#b7053eec525c6199>"
	jmp	.LBB34_21
.LBB34_3:
	xorl	%edx, %edx
	movw	$5, %cx
	jmp	.LBB34_20
.LBB34_5:
	movzbl	83(%rsp), %edx
	movw	$6, %cx
	jmp	.LBB34_19
.LBB34_18:
	movw	$21, %cx
.LBB34_19:
	xorl	%eax, %eax
.LBB34_20:
	movw	%cx, (%rsi)
	movw	%ax, 2(%rsi)
	movw	%dx, 4(%rsi)
	movl	$0, 6(%rsi)
.LBB34_21:
	addq	$312, %rsp
	popq	%rdi
	popq	%rsi
	retq
.LBB34_9:
	movzwl	88(%rsp), %r8d
	movzwl	%dx, %eax
	movzbl	%al, %ecx
	leaq	.LJTI34_0(%rip), %rdx
	movslq	(%rdx,%rcx,4), %rcx
	addq	%rdx, %rcx
	jmpq	*%rcx
.LBB34_10:
	movw	$7, %cx
	jmp	.LBB34_11
.LBB34_15:
	movw	$11, %cx
	jmp	.LBB34_11
.LBB34_13:
	movw	$9, %cx
	jmp	.LBB34_11
.LBB34_14:
	movw	$10, %cx
	jmp	.LBB34_11
.LBB34_12:
	shrl	$8, %eax
	movw	$8, %cx
	movl	%r8d, %edx
	jmp	.LBB34_20
.LBB34_16:
	movw	$12, %cx
	jmp	.LBB34_11
.LBB34_17:
	movw	$13, %cx
.LBB34_11:
	xorl	%eax, %eax
	movl	%r8d, %edx
	jmp	.LBB34_20
	.section	.rdata,"dr"
	.p2align	2, 0x0
.LJTI34_0:
	.long	.LBB34_10-.LJTI34_0
	.long	.LBB34_12-.LJTI34_0
	.long	.LBB34_13-.LJTI34_0
	.long	.LBB34_14-.LJTI34_0
	.long	.LBB34_15-.LJTI34_0
	.long	.LBB34_16-.LJTI34_0
	.long	.LBB34_17-.LJTI34_0
	.text
	.seh_endproc

	.def	"ecc200_calls::restoring::restore_given::<=32,=98>";
	.scl	3;
	.type	32;
	.endef
	.p2align	4
"ecc200_calls::restoring::restore_given::<=32,=98>":
.seh_proc "ecc200_calls::restoring::restore_given::<=32,=98>"
	pushq	%r15
	.seh_pushreg %r15
	pushq	%r14
	.seh_pushreg %r14
	pushq	%r13
	.seh_pushreg %r13
	pushq	%r12
	.seh_pushreg %r12
	pushq	%rsi
	.seh_pushreg %rsi
	pushq	%rdi
	.seh_pushreg %rdi
	pushq	%rbp
	.seh_pushreg %rbp
	pushq	%rbx
	.seh_pushreg %rbx
	subq	$1416, %rsp
	.seh_stackalloc 1416
	.seh_endprologue
	movq	%r9, %rdi
	movq	%r8, %r14
	movq	%rcx, %rsi
	movq	1536(%rsp), %r13
	movzbl	4(%rdx), %eax
	movb	%al, 93(%rsp)
	movzbl	6(%rdx), %ebp
	movzwl	8(%rdx), %eax
	movw	%ax, 94(%rsp)
	movzwl	(%r13), %r15d
	movzwl	18(%r13), %eax
	movzbl	20(%r13), %ebx
	movw	%ax, 210(%rsp)
	movups	2(%r13), %xmm0
	movups	%xmm0, 194(%rsp)
	leaq	212(%rsp), %rcx
	movl	$524, %r8d
	xorl	%edx, %edx
	callq	memset
	movw	%r15w, 192(%rsp)
	xorps	%xmm0, %xmm0
	movaps	%xmm0, 736(%rsp)
	movaps	%xmm0, 752(%rsp)
	movaps	%xmm0, 768(%rsp)
	movaps	%xmm0, 784(%rsp)
	leaq	192(%rsp), %rcx
	movq	%r14, %rdx
	movq	%rdi, %r8
	callq	"ecc200_calls::modules::put_modules::<=32>"
	movq	1552(%rsp), %rdi
	movq	1544(%rsp), %r12
	testb	$1, %bl
	je	.LBB35_5
	movq	%rdi, %rbx
	addq	$2, %r13
	movq	1520(%rsp), %r14
	movw	%r15w, 800(%rsp)
	movups	(%r13), %xmm0
	movups	%xmm0, 802(%rsp)
	movzwl	16(%r13), %eax
	movw	%ax, 818(%rsp)
	leaq	820(%rsp), %rcx
	movl	$588, %r8d
	xorl	%edx, %edx
	callq	memset
	leaq	800(%rsp), %rdi
	movq	%rdi, %rcx
	movq	%r14, %rdx
	movq	1528(%rsp), %r8
	callq	"ecc200_calls::modules::put_modules::<=32>"
	movw	$0, 136(%rsp)
	movq	$0, 128(%rsp)
	testb	%bpl, %bpl
	je	.LBB35_2
	movq	%rbx, 48(%rsp)
	movq	%r12, 40(%rsp)
	movq	%rdi, 32(%rsp)
	leaq	128(%rsp), %rcx
	leaq	192(%rsp), %r8
	movzbl	93(%rsp), %edx
	movb	$1, %r9b
	callq	"ecc200_calls::restoring::restore_surely::<=32,=98>"
	jmp	.LBB35_4
.LBB35_5:
	movw	$0, 104(%rsp)
	movq	$0, 96(%rsp)
	testb	%bpl, %bpl
	je	.LBB35_6
	movq	%rdi, 48(%rsp)
	movq	%r12, 40(%rsp)
	movq	$0, 32(%rsp)
	leaq	96(%rsp), %rcx
	leaq	192(%rsp), %r8
	movzbl	93(%rsp), %edx
	xorl	%r9d, %r9d
	callq	"ecc200_calls::restoring::restore_surely::<=32,=98>"
	movzbl	96(%rsp), %eax
	movzbl	98(%rsp), %ecx
	movzbl	99(%rsp), %edx
	movss	100(%rsp), %xmm0
	movzwl	104(%rsp), %r8d
	jmp	.LBB35_8
.LBB35_2:
	movq	%rbx, 56(%rsp)
	movq	%r12, 48(%rsp)
	movzwl	94(%rsp), %eax
	movw	%ax, 40(%rsp)
	movq	%rdi, 32(%rsp)
	leaq	128(%rsp), %rcx
	leaq	192(%rsp), %r8
	movzbl	93(%rsp), %edx
	movb	$1, %r9b
	callq	"ecc200_calls::restoring::restore_within::<=32,=98>"
.LBB35_4:
	movzbl	128(%rsp), %eax
	movzbl	130(%rsp), %ecx
	movzbl	131(%rsp), %edx
	movss	132(%rsp), %xmm0
	movzwl	136(%rsp), %r8d
	jmp	.LBB35_8
.LBB35_6:
	leaq	736(%rsp), %rax
	leaq	8(%rdi), %rcx
	leaq	48(%rdi), %rdx
	movw	$0, 120(%rsp)
	movq	$0, 112(%rsp)
	movzwl	206(%rsp), %r8d
	movl	208(%rsp), %r9d
	movq	192(%rsp), %r10
	movq	198(%rsp), %r11
	movq	%r11, 6(%r12)
	movq	%r10, (%r12)
	movw	%r8w, 14(%r12)
	movl	%r9d, 16(%r12)
	addq	$20, %r12
	movl	208(%rsp), %r8d
	movl	%r8d, 144(%rsp)
	movaps	192(%rsp), %xmm0
	movaps	%xmm0, 128(%rsp)
	leaq	224(%rsp), %r8
	movl	$0, 148(%rsp)
	movq	%r8, 152(%rsp)
	movq	$32, 160(%rsp)
	movq	%rax, 168(%rsp)
	movq	$32, 176(%rsp)
	movq	%rdx, 72(%rsp)
	movq	%rcx, 64(%rsp)
	movq	%rdi, 56(%rsp)
	movq	%r12, 48(%rsp)
	movzwl	94(%rsp), %eax
	movw	%ax, 40(%rsp)
	movzbl	93(%rsp), %eax
	movb	%al, 32(%rsp)
	leaq	112(%rsp), %rcx
	leaq	128(%rsp), %rdx
	xorl	%r8d, %r8d
	xorl	%r9d, %r9d
	callq	"dm_symbol::symbol::reading::restore"
	movzbl	112(%rsp), %eax
	movzbl	114(%rsp), %ecx
	movzbl	115(%rsp), %edx
	movss	116(%rsp), %xmm0
	movzwl	120(%rsp), %r8d
.LBB35_8:
	movb	%al, (%rsi)
	movb	%cl, 2(%rsi)
	movb	%dl, 3(%rsi)
	movss	%xmm0, 4(%rsi)
	movw	%r8w, 8(%rsi)
	addq	$1416, %rsp
	popq	%rbx
	popq	%rbp
	popq	%rdi
	popq	%rsi
	popq	%r12
	popq	%r13
	popq	%r14
	popq	%r15
	retq
	.seh_endproc

	.def	"ecc200_calls::restoring::restore_within::<=32,=98>";
	.scl	3;
	.type	32;
	.endef
	.p2align	4
"ecc200_calls::restoring::restore_within::<=32,=98>":
.seh_proc "ecc200_calls::restoring::restore_within::<=32,=98>"
	pushq	%r15
	.seh_pushreg %r15
	pushq	%r14
	.seh_pushreg %r14
	pushq	%r13
	.seh_pushreg %r13
	pushq	%r12
	.seh_pushreg %r12
	pushq	%rsi
	.seh_pushreg %rsi
	pushq	%rdi
	.seh_pushreg %rdi
	pushq	%rbp
	.seh_pushreg %rbp
	pushq	%rbx
	.seh_pushreg %rbx
	subq	$280, %rsp
	.seh_stackalloc 280
	movdqa	%xmm6, 256(%rsp)
	.seh_savexmm %xmm6, 256
	.seh_endprologue
	movl	%edx, %ebx
	movq	%rcx, %rsi
	movq	408(%rsp), %r12
	movzwl	392(%rsp), %ebp
	movq	400(%rsp), %rdi
	leaq	8(%r12), %r13
	movw	$0, 88(%rsp)
	movq	$0, 80(%rsp)
	movl	16(%r8), %eax
	movq	(%r8), %rcx
	movq	8(%r8), %rdx
	movq	%rdx, 8(%rdi)
	movq	%rcx, (%rdi)
	movl	%eax, 16(%rdi)
	addq	$20, %rdi
	movl	16(%r8), %eax
	movl	%eax, 176(%rsp)
	movups	(%r8), %xmm0
	movaps	%xmm0, 160(%rsp)
	leaq	32(%r8), %rax
	addq	$544, %r8
	movl	$0, 180(%rsp)
	movaps	%xmm0, 96(%rsp)
	movq	176(%rsp), %rcx
	movq	%rcx, 112(%rsp)
	movq	%rax, 120(%rsp)
	movq	$32, 128(%rsp)
	movq	%r8, 136(%rsp)
	movq	$32, 144(%rsp)
	testb	%r9b, %r9b
	je	.LBB36_1
	movq	384(%rsp), %rax
	movl	16(%rax), %ecx
	movl	%ecx, 208(%rsp)
	movups	(%rax), %xmm0
	movaps	%xmm0, 192(%rsp)
	leaq	32(%rax), %rcx
	addq	$544, %rax
	movl	$0, 212(%rsp)
	movq	%rcx, 216(%rsp)
	movq	$32, 224(%rsp)
	movq	%rax, 232(%rsp)
	movq	$32, 240(%rsp)
	leaq	96(%rsp), %rcx
	movb	$1, %r14b
	leaq	192(%rsp), %r15
	movb	$1, %dl
	movq	%r15, %r8
	callq	"dm_layout::symbols::border::border_faults"
	cmpw	%ax, %bp
	jae	.LBB36_4
	xorl	%ecx, %ecx
	movzwl	%ax, %eax
	movd	%eax, %xmm6
	xorl	%edx, %edx
	xorl	%ebp, %ebp
	jmp	.LBB36_12
.LBB36_1:
	leaq	48(%r12), %rax
	movq	%rax, 72(%rsp)
	movq	%r13, 64(%rsp)
	movq	%r12, 56(%rsp)
	movq	%rdi, 48(%rsp)
	movw	%bp, 40(%rsp)
	movb	%bl, 32(%rsp)
	leaq	80(%rsp), %rcx
	leaq	96(%rsp), %rdx
	xorl	%r8d, %r8d
	xorl	%r9d, %r9d
	callq	"dm_symbol::symbol::reading::restore"
	movzbl	80(%rsp), %r14d
	movzbl	82(%rsp), %ebp
	movzbl	83(%rsp), %edx
	movd	84(%rsp), %xmm6
	movzwl	88(%rsp), %ecx
	jmp	.LBB36_12
.LBB36_4:
	movw	%ax, 48(%r12)
	movzwl	110(%rsp), %eax
	addw	108(%rsp), %ax
	movzwl	%ax, %r14d
	leaq	96(%rsp), %rcx
	movq	%rdi, %rdx
	callq	"dm_layout::symbols::placing::lift_to"
	movb	$0, (%r12)
	movq	%r13, 40(%rsp)
	movq	%r15, 32(%rsp)
	xorl	%ebp, %ebp
	leaq	160(%rsp), %rcx
	movq	%rdi, %rdx
	movq	%r14, %r8
	xorl	%r9d, %r9d
	callq	"dm_symbol::symbol::reading::restore_doubtful"
	pxor	%xmm6, %xmm6
	xorl	%ecx, %ecx
	cmpb	$1, %al
	jne	.LBB36_5
	testb	%bl, %bl
	je	.LBB36_7
	movl	%edx, %ebx
	movq	%r13, 40(%rsp)
	movq	%r14, 32(%rsp)
	leaq	96(%rsp), %rcx
	movb	$1, %bpl
	leaq	192(%rsp), %r8
	movb	$1, %dl
	movq	%rdi, %r9
	callq	"dm_symbol::symbol::dealing::restore_restarted"
	testb	%al, %al
	je	.LBB36_9
	movb	$1, (%r12)
	xorl	%ecx, %ecx
	xorl	%edx, %edx
	xorl	%ebp, %ebp
	jmp	.LBB36_11
.LBB36_5:
	xorl	%edx, %edx
.LBB36_11:
	xorl	%r14d, %r14d
	jmp	.LBB36_12
.LBB36_7:
	movb	$1, %bpl
	xorl	%ecx, %ecx
	movb	$1, %r14b
	jmp	.LBB36_12
.LBB36_9:
	xorl	%ecx, %ecx
	movb	$1, %r14b
	movl	%ebx, %edx
.LBB36_12:
	movb	%r14b, (%rsi)
	movb	%bpl, 2(%rsi)
	movb	%dl, 3(%rsi)
	movd	%xmm6, 4(%rsi)
	movw	%cx, 8(%rsi)
	movaps	256(%rsp), %xmm6
	addq	$280, %rsp
	popq	%rbx
	popq	%rbp
	popq	%rdi
	popq	%rsi
	popq	%r12
	popq	%r13
	popq	%r14
	popq	%r15
	retq
	.seh_endproc

	.def	"dm_symbol::symbol::reading::restore";
	.scl	3;
	.type	32;
	.endef
	.p2align	4
"dm_symbol::symbol::reading::restore":
.seh_proc "dm_symbol::symbol::reading::restore"
	pushq	%r15
	.seh_pushreg %r15
	pushq	%r14
	.seh_pushreg %r14
	pushq	%r13
	.seh_pushreg %r13
	pushq	%r12
	.seh_pushreg %r12
	pushq	%rsi
	.seh_pushreg %rsi
	pushq	%rdi
	.seh_pushreg %rdi
	pushq	%rbp
	.seh_pushreg %rbp
	pushq	%rbx
	.seh_pushreg %rbx
	subq	$152, %rsp
	.seh_stackalloc 152
	.seh_endprologue
	movq	%r9, %r15
	movl	%r8d, %ebx
	movq	%rdx, %r14
	movq	%rcx, %rsi
	movzwl	264(%rsp), %edi
	movq	%rdx, %rcx
	movl	%r8d, %edx
	movq	%r9, %r8
	callq	"dm_layout::symbols::border::border_faults"
	cmpw	%ax, %di
	jae	.LBB37_2
	movb	$1, (%rsi)
	movw	$0, 2(%rsi)
	movw	%ax, 4(%rsi)
	movl	$0, 6(%rsi)
	jmp	.LBB37_19
.LBB37_2:
	movq	296(%rsp), %rcx
	movq	288(%rsp), %r12
	movq	280(%rsp), %rdi
	movq	272(%rsp), %rbp
	movw	%ax, (%rcx)
	movzwl	14(%r14), %eax
	addw	12(%r14), %ax
	movzwl	%ax, %r13d
	movq	%r14, %rcx
	movq	%rbp, %rdx
	callq	"dm_layout::symbols::placing::lift_to"
	movb	$0, (%rdi)
	movl	16(%r14), %eax
	movl	%eax, 112(%rsp)
	movups	(%r14), %xmm0
	movaps	%xmm0, 96(%rsp)
	testb	$1, %bl
	movb	%bl, 51(%rsp)
	je	.LBB37_4
	movq	%r12, 40(%rsp)
	movq	%r15, 32(%rsp)
	leaq	96(%rsp), %rcx
	movq	%rbp, %rbx
	movq	%rbp, %rdx
	movq	%r13, %r8
	xorl	%r9d, %r9d
	callq	"dm_symbol::symbol::reading::restore_doubtful"
	movl	%edx, %ebp
	jmp	.LBB37_13
.LBB37_4:
	movq	%r15, 56(%rsp)
	movups	(%r14), %xmm0
	movaps	%xmm0, 64(%rsp)
	movl	16(%r14), %eax
	movl	%eax, 80(%rsp)
	movl	$0, 52(%rsp)
	movq	32(%r12), %rax
	testq	%rax, %rax
	je	.LBB37_6
	leaq	(%rax,%rax,2), %r8
	movq	%r12, %rcx
	xorl	%edx, %edx
	callq	memset
	movq	$0, 32(%r12)
.LBB37_6:
	movq	%rbp, %rbx
	movzbl	80(%rsp), %r15d
	testq	%r15, %r15
	je	.LBB37_10
	leaq	53(%rsp), %rdi
	xorl	%ebp, %ebp
	.p2align	4
.LBB37_8:
	xorps	%xmm0, %xmm0
	movaps	%xmm0, 128(%rsp)
	movq	$0, 144(%rsp)
	movq	%rbp, 40(%rsp)
	leaq	128(%rsp), %rax
	movq	%rax, 32(%rsp)
	leaq	52(%rsp), %rcx
	leaq	64(%rsp), %rdx
	movq	%rbx, %r8
	movq	%r13, %r9
	callq	"dm_symbol::symbol::correction::restore_block"
	cmpb	$1, 52(%rsp)
	jne	.LBB37_11
	movq	32(%r12), %rax
	leaq	(%rax,%rax,2), %rcx
	movzbl	2(%rdi), %edx
	movb	%dl, 2(%r12,%rcx)
	movzwl	(%rdi), %edx
	movw	%dx, (%r12,%rcx)
	incq	%rax
	movq	%rax, 32(%r12)
	incq	%rbp
	cmpq	%rbp, %r15
	jne	.LBB37_8
.LBB37_10:
	xorl	%ebp, %ebp
	xorl	%eax, %eax
	jmp	.LBB37_12
.LBB37_11:
	movb	$1, %al
.LBB37_12:
	movq	56(%rsp), %r15
.LBB37_13:
	cmpb	$1, %al
	jne	.LBB37_17
	movb	$1, %dil
	cmpb	$0, 256(%rsp)
	je	.LBB37_18
	movq	%r12, 40(%rsp)
	movq	%r13, 32(%rsp)
	movq	%r14, %rcx
	movzbl	51(%rsp), %edx
	movq	%r15, %r8
	movq	%rbx, %r9
	callq	"dm_symbol::symbol::dealing::restore_restarted"
	testb	%al, %al
	je	.LBB37_18
	movq	280(%rsp), %rax
	movb	$1, (%rax)
.LBB37_17:
	xorl	%edi, %edi
	xorl	%ebp, %ebp
.LBB37_18:
	movb	%dil, (%rsi)
	movb	%dil, 2(%rsi)
	movb	%bpl, 3(%rsi)
	movl	$0, 4(%rsi)
	movw	$0, 8(%rsi)
.LBB37_19:
	addq	$152, %rsp
	popq	%rbx
	popq	%rbp
	popq	%rdi
	popq	%rsi
	popq	%r12
	popq	%r13
	popq	%r14
	popq	%r15
	retq
	.seh_endproc

	.def	"ecc200_calls::restoring::restore_surely::<=32,=98>";
	.scl	3;
	.type	32;
	.endef
	.p2align	4
"ecc200_calls::restoring::restore_surely::<=32,=98>":
.seh_proc "ecc200_calls::restoring::restore_surely::<=32,=98>"
	pushq	%r15
	.seh_pushreg %r15
	pushq	%r14
	.seh_pushreg %r14
	pushq	%r13
	.seh_pushreg %r13
	pushq	%r12
	.seh_pushreg %r12
	pushq	%rsi
	.seh_pushreg %rsi
	pushq	%rdi
	.seh_pushreg %rdi
	pushq	%rbp
	.seh_pushreg %rbp
	pushq	%rbx
	.seh_pushreg %rbx
	subq	$120, %rsp
	.seh_stackalloc 120
	movaps	%xmm6, 96(%rsp)
	.seh_savexmm %xmm6, 96
	.seh_endprologue
	movl	%r9d, %ebx
	movq	%r8, %rdi
	movl	%edx, %ebp
	movq	%rcx, %rsi
	movq	240(%rsp), %r15
	movq	232(%rsp), %r13
	movq	224(%rsp), %r12
	movw	$0, 72(%rsp)
	movq	$0, 64(%rsp)
	movzwl	(%r8), %eax
	movzwl	2(%r8), %ecx
	addl	%eax, %ecx
	shrl	$3, %ecx
	movq	%r15, 56(%rsp)
	movq	%r13, 48(%rsp)
	movq	%r12, 32(%rsp)
	movw	%cx, 40(%rsp)
	leaq	64(%rsp), %rcx
	callq	"ecc200_calls::restoring::restore_within::<=32,=98>"
	xorps	%xmm6, %xmm6
	cmpb	$0, 64(%rsp)
	je	.LBB38_1
	movzbl	66(%rsp), %eax
	cmpl	$2, %eax
	je	.LBB38_12
	cmpl	$1, %eax
	jne	.LBB38_4
	movb	$1, %al
	movzbl	67(%rsp), %edx
	xorl	%r14d, %r14d
	movb	$1, %cl
	jmp	.LBB38_14
.LBB38_1:
	xorl	%eax, %eax
	xorl	%ecx, %ecx
	xorl	%edx, %edx
	xorl	%r14d, %r14d
	jmp	.LBB38_14
.LBB38_12:
	movzbl	68(%rsp), %r14d
	movb	$2, %cl
	movb	$1, %al
	movss	70(%rsp), %xmm6
	jmp	.LBB38_13
.LBB38_4:
	movzwl	68(%rsp), %r14d
	movw	$0, 88(%rsp)
	movq	$0, 80(%rsp)
	movq	%r15, 56(%rsp)
	movq	%r13, 48(%rsp)
	movw	%r14w, 40(%rsp)
	movq	%r12, 32(%rsp)
	leaq	80(%rsp), %rcx
	movl	%ebp, %edx
	movq	%rdi, %r8
	movl	%ebx, %r9d
	callq	"ecc200_calls::restoring::restore_within::<=32,=98>"
	movb	$1, %al
	cmpb	$0, 80(%rsp)
	jne	.LBB38_10
	movq	40(%r15), %rax
	addq	$10, %r15
	incq	%rax
	.p2align	4
.LBB38_6:
	decq	%rax
	je	.LBB38_7
	cmpb	$1, (%r15)
	leaq	3(%r15), %r15
	ja	.LBB38_6
	jmp	.LBB38_9
.LBB38_7:
	xorl	%r14d, %r14d
.LBB38_9:
	testq	%rax, %rax
	setne	%al
.LBB38_10:
	xorl	%ecx, %ecx
.LBB38_13:
	xorl	%edx, %edx
.LBB38_14:
	movb	%al, (%rsi)
	movb	%cl, 2(%rsi)
	movb	%dl, 3(%rsi)
	movw	%r14w, 4(%rsi)
	movss	%xmm6, 6(%rsi)
	movaps	96(%rsp), %xmm6
	addq	$120, %rsp
	popq	%rbx
	popq	%rbp
	popq	%rdi
	popq	%rsi
	popq	%r12
	popq	%r13
	popq	%r14
	popq	%r15
	retq
	.seh_endproc

	.def	"ecc200_calls::answer::answer_words::<#b7053eec525c6199>";
	.scl	3;
	.type	32;
	.endef
	.p2align	4
"ecc200_calls::answer::answer_words::<#b7053eec525c6199>":
.seh_proc "ecc200_calls::answer::answer_words::<#b7053eec525c6199>"
	pushq	%r15
	.seh_pushreg %r15
	pushq	%r14
	.seh_pushreg %r14
	pushq	%r12
	.seh_pushreg %r12
	pushq	%rsi
	.seh_pushreg %rsi
	pushq	%rdi
	.seh_pushreg %rdi
	pushq	%rbp
	.seh_pushreg %rbp
	pushq	%rbx
	.seh_pushreg %rbx
	subq	$640, %rsp
	.seh_stackalloc 640
	.seh_endprologue
	movq	%r9, %rsi
	movq	%r8, %r15
	movl	%edx, %ebp
	movq	%rcx, %rdi
	movzwl	12(%r8), %r12d
	addq	$20, %r15
	leaq	104(%rsp), %rcx
	movl	$528, %r8d
	xorl	%edx, %edx
	callq	memset
	xorps	%xmm0, %xmm0
	movaps	%xmm0, 80(%rsp)
	movaps	%xmm0, 64(%rsp)
	leaq	110(%rsp), %r14
	leaq	384(%rsp), %rbx
	movq	%rbx, 40(%rsp)
	movq	%r14, 32(%rsp)
	leaq	64(%rsp), %rcx
	movl	%ebp, %edx
	movq	%r15, %r8
	movq	%r12, %r9
	callq	"dm_words::contents::reading::read_content"
	cmpb	$0, 64(%rsp)
	je	.LBB39_4
	movzbl	66(%rsp), %eax
	movzwl	68(%rsp), %r8d
	cmpl	$2, %eax
	je	.LBB39_5
	cmpl	$1, %eax
	jne	.LBB39_6
	xorl	%eax, %eax
	movw	$20, %cx
	jmp	.LBB39_16
.LBB39_4:
	movq	72(%rsp), %rax
	movq	80(%rsp), %r8
	movq	88(%rsp), %rcx
	movl	%eax, %edx
	movl	%eax, %r9d
	shrl	$8, %r9d
	shrq	$16, %rax
	movb	%dl, 104(%rsp)
	movb	%r9b, 105(%rsp)
	movl	%eax, 106(%rsp)
	movq	%r8, 376(%rsp)
	movq	%rcx, 632(%rsp)
	movzbl	(%rdi), %r10d
	movb	%dl, 64(%rsp)
	movb	%r9b, 65(%rsp)
	movl	%eax, 66(%rsp)
	shll	$8, %r10d
	movq	%rsi, 48(%rsp)
	movq	%r10, 40(%rsp)
	movq	%rcx, 32(%rsp)
	leaq	64(%rsp), %rcx
	movq	%r14, %rdx
	movq	%rbx, %r9
	callq	"ecc200_calls::writing::write_content"
	jmp	.LBB39_17
.LBB39_5:
	movw	$21, %cx
	xorl	%eax, %eax
	jmp	.LBB39_16
.LBB39_6:
	movzwl	70(%rsp), %edx
	movzwl	%r8w, %eax
	movzbl	%al, %ecx
	leaq	.LJTI39_0(%rip), %r8
	movslq	(%r8,%rcx,4), %rcx
	addq	%r8, %rcx
	jmpq	*%rcx
.LBB39_7:
	movw	$7, %cx
	jmp	.LBB39_14
.LBB39_8:
	movw	$11, %cx
	jmp	.LBB39_14
.LBB39_9:
	movw	$9, %cx
	jmp	.LBB39_14
.LBB39_10:
	movw	$10, %cx
	jmp	.LBB39_14
.LBB39_11:
	shrl	$8, %eax
	movw	$8, %cx
	jmp	.LBB39_15
.LBB39_12:
	movw	$12, %cx
	jmp	.LBB39_14
.LBB39_13:
	movw	$13, %cx
.LBB39_14:
	xorl	%eax, %eax
.LBB39_15:
	movl	%edx, %r8d
.LBB39_16:
	movw	%cx, (%rsi)
	movw	%ax, 2(%rsi)
	movw	%r8w, 4(%rsi)
	movl	$0, 6(%rsi)
.LBB39_17:
	addq	$640, %rsp
	popq	%rbx
	popq	%rbp
	popq	%rdi
	popq	%rsi
	popq	%r12
	popq	%r14
	popq	%r15
	retq
	.section	.rdata,"dr"
	.p2align	2, 0x0
.LJTI39_0:
	.long	.LBB39_7-.LJTI39_0
	.long	.LBB39_11-.LJTI39_0
	.long	.LBB39_9-.LJTI39_0
	.long	.LBB39_10-.LJTI39_0
	.long	.LBB39_8-.LJTI39_0
	.long	.LBB39_12-.LJTI39_0
	.long	.LBB39_13-.LJTI39_0
	.text
	.seh_endproc

	.def	"dm_words::contents::reading::read_content";
	.scl	3;
	.type	32;
	.endef
	.p2align	4
"dm_words::contents::reading::read_content":
.seh_proc "dm_words::contents::reading::read_content"
	pushq	%r15
	.seh_pushreg %r15
	pushq	%r14
	.seh_pushreg %r14
	pushq	%r13
	.seh_pushreg %r13
	pushq	%r12
	.seh_pushreg %r12
	pushq	%rsi
	.seh_pushreg %rsi
	pushq	%rdi
	.seh_pushreg %rdi
	pushq	%rbp
	.seh_pushreg %rbp
	pushq	%rbx
	.seh_pushreg %rbx
	subq	$120, %rsp
	.seh_stackalloc 120
	.seh_endprologue
	movq	%r9, %rdi
	movq	%r8, %rbx
	movl	%edx, %ebp
	movq	%rcx, %rsi
	movq	224(%rsp), %r14
	xorps	%xmm0, %xmm0
	movaps	%xmm0, 64(%rsp)
	movq	$0, 80(%rsp)
	testb	%dl, %dl
	je	.LBB40_1
	testq	%rdi, %rdi
	je	.LBB40_6
	movzbl	(%rbx), %eax
	testb	%al, %al
	je	.LBB40_6
	cmpb	$-127, %al
	jb	.LBB40_1
	sete	%cl
	cmpb	$-26, %al
	setae	%al
	orb	%cl, %al
	jne	.LBB40_6
.LBB40_1:
	movq	%rsi, 56(%rsp)
	xorl	%eax, %eax
	xorl	%esi, %esi
	xorl	%r11d, %r11d
	xorl	%r10d, %r10d
	xorl	%r12d, %r12d
	xorl	%r15d, %r15d
.LBB40_10:
	cmpq	%rdi, %r15
	jb	.LBB40_11
.LBB40_18:
	movq	%rax, 96(%rsp)
	xorl	%r13d, %r13d
	cmpq	%rdi, %r15
	jae	.LBB40_55
	movq	%rsi, 104(%rsp)
.LBB40_20:
	movzbl	(%rbx,%r15), %ecx
	cmpl	$241, %ecx
	je	.LBB40_24
	cmpl	$129, %ecx
	je	.LBB40_55
	movq	%r13, 112(%rsp)
	movq	%rbx, %r8
	movq	%rdi, %r9
	movl	%r12d, %r13d
	movl	%ebp, %edx
	movq	%r11, %rsi
	movq	%r10, %r12
	xorps	%xmm0, %xmm0
	movaps	%xmm0, 64(%rsp)
	movq	$0, 80(%rsp)
	leaq	96(%rsp), %rax
	movq	%rax, 48(%rsp)
	movq	%r14, 40(%rsp)
	movq	%r15, 32(%rsp)
	leaq	64(%rsp), %rcx
	callq	"dm_words::reading::next_part"
	cmpb	$0, 64(%rsp)
	jne	.LBB40_23
	cmpb	$1, 72(%rsp)
	movq	96(%rsp), %rax
	movq	%r12, %r10
	jne	.LBB40_43
	movq	80(%rsp), %rcx
	movq	%rsi, %r11
	movl	%r13d, %r12d
	movq	104(%rsp), %rsi
	movq	112(%rsp), %r13
	jmp	.LBB40_45
	.p2align	4
.LBB40_24:
	testb	%bpl, %bpl
	je	.LBB40_25
	leaq	1(%r15), %rcx
	movq	%rdi, %r8
	subq	%rcx, %r8
	je	.LBB40_58
	movzbl	(%rbx,%rcx), %edx
	testl	%edx, %edx
	je	.LBB40_58
	testb	%dl, %dl
	js	.LBB40_30
	decl	%edx
	movl	$2, %ecx
	jmp	.LBB40_41
.LBB40_30:
	cmpb	$-65, %dl
	ja	.LBB40_34
	cmpq	$1, %r8
	je	.LBB40_58
	movzbl	1(%rbx,%rcx), %ecx
	leal	-1(%rcx), %r8d
	cmpb	$-3, %r8b
	ja	.LBB40_58
	leal	(%rdx,%rdx), %r8d
	shll	$8, %edx
	subl	%r8d, %edx
	addl	%ecx, %edx
	addl	$-32386, %edx
	movl	$3, %ecx
	jmp	.LBB40_41
.LBB40_34:
	cmpq	$1, %r8
	je	.LBB40_58
	cmpb	$-49, %dl
	ja	.LBB40_58
	cmpq	$3, %r8
	jb	.LBB40_58
	movzbl	1(%rbx,%rcx), %r8d
	leal	-1(%r8), %r9d
	cmpb	$-3, %r9b
	ja	.LBB40_58
	movzbl	2(%rbx,%rcx), %ecx
	leal	-1(%rcx), %r9d
	cmpb	$-3, %r9b
	ja	.LBB40_58
	imull	$64516, %edx, %edx
	leal	(%r8,%r8), %r9d
	shll	$8, %r8d
	subl	%r9d, %r8d
	addl	%edx, %r8d
	leal	(%r8,%rcx), %edx
	cmpl	$13370943, %edx
	ja	.LBB40_58
	leal	(%rcx,%r8), %edx
	addl	$-12370944, %edx
	movl	$4, %ecx
	.p2align	4
.LBB40_41:
	movq	232(%rsp), %r8
	movw	%ax, (%r8,%r13,8)
	movw	$0, 2(%r8,%r13,8)
	movl	%edx, 4(%r8,%r13,8)
	incq	%r13
.LBB40_45:
	addq	%r15, %rcx
	cmpq	%rdi, %rcx
	jb	.LBB40_46
.LBB40_54:
	movq	%rax, 96(%rsp)
	movq	%rcx, %r15
	cmpq	%rdi, %rcx
	jb	.LBB40_20
	jmp	.LBB40_55
	.p2align	4
.LBB40_61:
	decb	%dl
	movb	$1, (%r14,%rax,2)
	movb	%dl, 1(%r14,%rax,2)
	incq	%rax
.LBB40_51:
	incq	%rcx
	cmpq	%rcx, %rdi
	je	.LBB40_55
.LBB40_46:
	movzbl	(%rbx,%rcx), %edx
	testb	%dl, %dl
	je	.LBB40_54
	cmpb	$-127, %dl
	jb	.LBB40_61
	je	.LBB40_54
	cmpb	$-26, %dl
	jae	.LBB40_54
	addb	$126, %dl
	movzbl	%dl, %edx
	imull	$205, %edx, %r8d
	shrl	$11, %r8d
	leal	48(%r8), %r9d
	movb	$1, (%r14,%rax,2)
	movb	%r9b, 1(%r14,%rax,2)
	addl	%r8d, %r8d
	leal	(%r8,%r8,4), %r8d
	subb	%r8b, %dl
	orb	$48, %dl
	movb	$1, 2(%r14,%rax,2)
	movb	%dl, 3(%r14,%rax,2)
	addq	$2, %rax
	jmp	.LBB40_51
	.p2align	4
.LBB40_60:
	decb	%cl
	movb	$1, (%r14,%rax,2)
	movb	%cl, 1(%r14,%rax,2)
	incq	%rax
.LBB40_16:
	incq	%r15
	cmpq	%r15, %rdi
	je	.LBB40_17
.LBB40_11:
	movzbl	(%rbx,%r15), %ecx
	testb	%cl, %cl
	je	.LBB40_18
	cmpb	$-127, %cl
	jb	.LBB40_60
	je	.LBB40_18
	cmpb	$-26, %cl
	jae	.LBB40_18
	addb	$126, %cl
	movzbl	%cl, %ecx
	imull	$205, %ecx, %edx
	shrl	$11, %edx
	leal	48(%rdx), %r8d
	movb	$1, (%r14,%rax,2)
	movb	%r8b, 1(%r14,%rax,2)
	addl	%edx, %edx
	leal	(%rdx,%rdx,4), %edx
	subb	%dl, %cl
	orb	$48, %cl
	movb	$1, 2(%r14,%rax,2)
	movb	%cl, 3(%r14,%rax,2)
	addq	$2, %rax
	jmp	.LBB40_16
.LBB40_6:
	leaq	64(%rsp), %rcx
	movq	%rbx, %rdx
	movq	%rdi, %r8
	callq	"dm_words::contents::opening::opening_asked"
	cmpb	$1, 64(%rsp)
	jne	.LBB40_52
	movq	%rsi, 56(%rsp)
	movzbl	72(%rsp), %r11d
	movzbl	73(%rsp), %r10d
	movl	74(%rsp), %r12d
	movq	80(%rsp), %r15
	cmpb	$2, %r11b
	jne	.LBB40_8
	movabsq	$2162077470818392833, %rax
	movq	%rax, (%r14)
	movw	$12289, 8(%r14)
	movq	$5, 96(%rsp)
	movb	$1, 10(%r14)
	movb	%r10b, 11(%r14)
	movw	$7425, 12(%r14)
	movb	$2, %r11b
	movb	$1, %sil
	movl	$7, %eax
	jmp	.LBB40_10
.LBB40_52:
	movl	$131073, (%rsi)
	movw	$1, 4(%rsi)
	xorps	%xmm0, %xmm0
	movups	%xmm0, 6(%rsi)
	movups	%xmm0, 16(%rsi)
	jmp	.LBB40_53
.LBB40_17:
	xorl	%r13d, %r13d
.LBB40_55:
	testb	%sil, %sil
	je	.LBB40_57
	movl	$67182081, (%r14,%rax,2)
	addq	$2, %rax
.LBB40_57:
	movq	56(%rsp), %rsi
	movl	%r12d, %ecx
	shlq	$16, %rcx
	xorl	%edx, %edx
	xorl	%r8d, %r8d
	cmpb	$1, %r11b
	sete	%r8b
	movzbl	%r10b, %r9d
	cmovnel	%edx, %r9d
	cmoveq	%rcx, %rdx
	movzbl	%r9b, %ecx
	shll	$8, %ecx
	orq	%r8, %rcx
	orq	%rdx, %rcx
	movq	$0, (%rsi)
	movq	%rcx, 8(%rsi)
	movq	%rax, 16(%rsi)
	movq	%r13, 24(%rsi)
.LBB40_53:
	addq	$120, %rsp
	popq	%rbx
	popq	%rbp
	popq	%rdi
	popq	%rsi
	popq	%r12
	popq	%r13
	popq	%r14
	popq	%r15
	retq
.LBB40_8:
	xorl	%eax, %eax
	xorl	%esi, %esi
	jmp	.LBB40_10
.LBB40_58:
	incl	%r15d
	movw	$1, %ax
	xorl	%ecx, %ecx
	jmp	.LBB40_59
.LBB40_25:
	incl	%r15d
	xorl	%eax, %eax
	movl	%r15d, %ecx
	movw	$-3839, %r15w
	jmp	.LBB40_59
.LBB40_23:
	movzwl	66(%rsp), %r15d
	movzwl	68(%rsp), %ecx
	xorl	%eax, %eax
.LBB40_59:
	movq	56(%rsp), %rdx
	movw	$1, (%rdx)
	movw	%ax, 2(%rdx)
	movw	%r15w, 4(%rdx)
	movw	%cx, 6(%rdx)
	xorps	%xmm0, %xmm0
	movups	%xmm0, 8(%rdx)
	movq	$0, 24(%rdx)
	jmp	.LBB40_53
.LBB40_43:
	movq	%rsi, %r11
	movl	%r13d, %r12d
	movq	104(%rsp), %rsi
	movq	112(%rsp), %r13
	jmp	.LBB40_55
	.seh_endproc

	.def	"ecc200_calls::writing::write_content";
	.scl	3;
	.type	32;
	.endef
	.section	.rdata,"dr"
	.p2align	4, 0x0
.LCPI41_0:
	.zero	16,1
.LCPI41_1:
	.byte	1
	.byte	1
	.byte	1
	.byte	1
	.zero	1
	.zero	1
	.zero	1
	.zero	1
	.zero	1
	.zero	1
	.zero	1
	.zero	1
	.zero	1
	.zero	1
	.zero	1
	.zero	1
.LCPI41_2:
	.long	12
	.long	13
	.long	14
	.long	15
.LCPI41_3:
	.long	8
	.long	9
	.long	10
	.long	11
.LCPI41_4:
	.long	4
	.long	5
	.long	6
	.long	7
.LCPI41_5:
	.long	0
	.long	1
	.long	2
	.long	3
.LCPI41_6:
	.long	149
	.long	149
	.long	149
	.long	149
.LCPI41_7:
	.long	16976156
	.long	16976156
	.long	16976156
	.long	16976156
.LCPI41_8:
	.long	253
	.long	253
	.long	253
	.long	253
.LCPI41_9:
	.long	125
	.long	125
	.long	125
	.long	125
.LCPI41_10:
	.zero	16,132
.LCPI41_11:
	.zero	16,130
.LCPI41_12:
	.long	16
	.long	16
	.long	16
	.long	16
.LCPI41_13:
	.long	124
	.long	124
	.long	124
	.long	124
.LCPI41_14:
	.byte	132
	.byte	132
	.byte	132
	.byte	132
	.zero	1
	.zero	1
	.zero	1
	.zero	1
	.zero	1
	.zero	1
	.zero	1
	.zero	1
	.zero	1
	.zero	1
	.zero	1
	.zero	1
.LCPI41_15:
	.byte	130
	.byte	130
	.byte	130
	.byte	130
	.zero	1
	.zero	1
	.zero	1
	.zero	1
	.zero	1
	.zero	1
	.zero	1
	.zero	1
	.zero	1
	.zero	1
	.zero	1
	.zero	1
.LCPI41_16:
	.long	4
	.long	4
	.long	4
	.long	4
	.text
	.p2align	4
"ecc200_calls::writing::write_content":
.seh_proc "ecc200_calls::writing::write_content"
	pushq	%r15
	.seh_pushreg %r15
	pushq	%r14
	.seh_pushreg %r14
	pushq	%r13
	.seh_pushreg %r13
	pushq	%r12
	.seh_pushreg %r12
	pushq	%rsi
	.seh_pushreg %rsi
	pushq	%rdi
	.seh_pushreg %rdi
	pushq	%rbp
	.seh_pushreg %rbp
	pushq	%rbx
	.seh_pushreg %rbx
	subq	$1848, %rsp
	.seh_stackalloc 1848
	movdqa	%xmm11, 1824(%rsp)
	.seh_savexmm %xmm11, 1824
	movdqa	%xmm10, 1808(%rsp)
	.seh_savexmm %xmm10, 1808
	movdqa	%xmm9, 1792(%rsp)
	.seh_savexmm %xmm9, 1792
	movdqa	%xmm8, 1776(%rsp)
	.seh_savexmm %xmm8, 1776
	movdqa	%xmm7, 1760(%rsp)
	.seh_savexmm %xmm7, 1760
	movdqa	%xmm6, 1744(%rsp)
	.seh_savexmm %xmm6, 1744
	.seh_endprologue
	movq	%r9, 152(%rsp)
	movq	%r8, %rbx
	movq	%rdx, %rdi
	movq	1960(%rsp), %r12
	movzbl	(%rcx), %ebp
	movzbl	1(%rcx), %esi
	movl	2(%rcx), %r15d
	movq	%r12, %rax
	shrq	$8, %rax
	movq	%rax, 128(%rsp)
	movq	%r12, %r13
	shrq	$16, %r13
	movq	%r12, %r14
	shrq	$32, %r14
	leaq	186(%rsp), %rcx
	movl	$1558, %r8d
	xorl	%edx, %edx
	callq	memset
	testb	%r12b, %r12b
	je	.LBB41_3
	movzbl	%r13b, %eax
	movb	%bpl, 116(%rsp)
	movb	%sil, 117(%rsp)
	movl	%r15d, 118(%rsp)
	movw	%ax, 122(%rsp)
	movl	%r14d, 124(%rsp)
	pxor	%xmm0, %xmm0
	movdqa	%xmm0, 80(%rsp)
	movq	$0, 94(%rsp)
	movdqa	%xmm0, 160(%rsp)
	movq	$0, 174(%rsp)
	cmpq	$64, %rbx
	setae	%al
	movq	1952(%rsp), %r8
	cmpq	$32, %r8
	setae	%cl
	orb	%al, %cl
	movq	%rbx, %rdx
	jne	.LBB41_7
	leaq	186(%rsp), %rax
	movq	%rax, 64(%rsp)
	leaq	122(%rsp), %rax
	movq	%rax, 56(%rsp)
	movq	%r8, 48(%rsp)
	movq	152(%rsp), %rax
	movq	%rax, 40(%rsp)
	movq	%rdx, 32(%rsp)
	leaq	80(%rsp), %rcx
	leaq	116(%rsp), %r8
	movq	128(%rsp), %rdx
	movq	%rdi, %r9
	callq	"dm_words::smallest::smallest_in::<=64,=31>"
	movzbl	80(%rsp), %eax
	jmp	.LBB41_13
.LBB41_3:
	movq	%r13, 136(%rsp)
	movq	%r14, 144(%rsp)
	testb	%bpl, %bpl
	setne	%al
	movq	1952(%rsp), %r12
	testq	%r12, %r12
	setne	%cl
	orb	%al, %cl
	jne	.LBB41_9
	movq	%rbx, %rsi
	cmpq	$780, %rbx
	jae	.LBB41_17
	testq	%rsi, %rsi
	movq	144(%rsp), %r12
	movq	1960(%rsp), %r13
	movq	136(%rsp), %rbp
	jne	.LBB41_29
	xorl	%eax, %eax
	jmp	.LBB41_73
.LBB41_7:
	cmpq	$512, %rdx
	setae	%al
	cmpq	$103, %r8
	setae	%cl
	orb	%al, %cl
	movq	152(%rsp), %rbx
	leaq	186(%rsp), %rax
	jne	.LBB41_11
	movq	%rax, 64(%rsp)
	leaq	122(%rsp), %rax
	movq	%rax, 56(%rsp)
	movq	%r8, 48(%rsp)
	movq	%rbx, 40(%rsp)
	movq	%rdx, 32(%rsp)
	leaq	160(%rsp), %rcx
	leaq	116(%rsp), %r8
	movq	128(%rsp), %rdx
	movq	%rdi, %r9
	callq	"dm_words::smallest::smallest_in::<=512,=102>"
	jmp	.LBB41_12
.LBB41_9:
	xorl	%eax, %eax
	testb	%sil, %sil
	setne	%al
	xorl	%r14d, %r14d
	testb	%bpl, %bpl
	movb	%bpl, 80(%rsp)
	movb	%sil, 81(%rsp)
	movl	%r15d, 82(%rsp)
	leaq	1(%rax,%rax,2), %rax
	cmovneq	%rax, %r14
	movq	%rdi, %rcx
	movq	%rbx, %rsi
	movq	%rbx, %rdx
	movq	152(%rsp), %rbx
	movq	%rbx, %r8
	movq	%r12, %r9
	callq	"dm_words::contents::normal_form::marked_length"
	addq	%r14, %rax
	cmpq	$1558, %rax
	ja	.LBB41_14
	leaq	186(%rsp), %rax
	movq	%rax, 40(%rsp)
	movq	%r12, 32(%rsp)
	leaq	80(%rsp), %rcx
	movq	%rdi, %rdx
	movq	%rsi, %r8
	movq	%rbx, %r9
	callq	"dm_words::contents::normal_form::write_form"
	movq	144(%rsp), %r12
	movq	1960(%rsp), %r13
	movq	136(%rsp), %rbp
	jmp	.LBB41_73
.LBB41_11:
	movq	%rax, 64(%rsp)
	leaq	122(%rsp), %rax
	movq	%rax, 56(%rsp)
	movq	%r8, 48(%rsp)
	movq	%rbx, 40(%rsp)
	movq	%rdx, 32(%rsp)
	leaq	160(%rsp), %rcx
	leaq	116(%rsp), %r8
	movq	128(%rsp), %rdx
	movq	%rdi, %r9
	callq	"dm_words::smallest::smallest_in::<=3124,=779>"
.LBB41_12:
	movzbl	160(%rsp), %eax
	movdqu	162(%rsp), %xmm0
	movdqu	%xmm0, 82(%rsp)
	movl	178(%rsp), %ecx
	movl	%ecx, 98(%rsp)
.LBB41_13:
	testb	%al, %al
	je	.LBB41_16
.LBB41_14:
	movq	1968(%rsp), %rax
	movw	$14, (%rax)
	movq	$0, 2(%rax)
.LBB41_15:
	movaps	1744(%rsp), %xmm6
	movaps	1760(%rsp), %xmm7
	movaps	1776(%rsp), %xmm8
	movaps	1792(%rsp), %xmm9
	movaps	1808(%rsp), %xmm10
	movaps	1824(%rsp), %xmm11
	addq	$1848, %rsp
	popq	%rbx
	popq	%rbp
	popq	%rdi
	popq	%rsi
	popq	%r12
	popq	%r13
	popq	%r14
	popq	%r15
	retq
.LBB41_16:
	movzwl	82(%rsp), %ecx
	movzwl	84(%rsp), %edx
	movq	86(%rsp), %r12
	movzwl	94(%rsp), %esi
	movzwl	%si, %r8d
	movl	96(%rsp), %r10d
	movzbl	100(%rsp), %r11d
	movzbl	101(%rsp), %eax
	jmp	.LBB41_111
.LBB41_17:
	cmpq	$1558, %rsi
	movq	144(%rsp), %r12
	movq	1960(%rsp), %r13
	movq	136(%rsp), %rbp
	ja	.LBB41_45
	movl	%esi, %eax
	andl	$2032, %eax
	leal	(%rsi,%rsi), %ecx
	andl	$4064, %ecx
	pxor	%xmm0, %xmm0
	xorl	%edx, %edx
	.p2align	4
.LBB41_19:
	movzbl	(%rdi,%rdx), %r8d
	movd	%r8d, %xmm1
	pinsrb	$1, 2(%rdi,%rdx), %xmm1
	pinsrb	$2, 4(%rdi,%rdx), %xmm1
	pinsrb	$3, 6(%rdi,%rdx), %xmm1
	pinsrb	$4, 8(%rdi,%rdx), %xmm1
	pinsrb	$5, 10(%rdi,%rdx), %xmm1
	pinsrb	$6, 12(%rdi,%rdx), %xmm1
	pinsrb	$7, 14(%rdi,%rdx), %xmm1
	pinsrb	$8, 16(%rdi,%rdx), %xmm1
	pinsrb	$9, 18(%rdi,%rdx), %xmm1
	pinsrb	$10, 20(%rdi,%rdx), %xmm1
	pinsrb	$11, 22(%rdi,%rdx), %xmm1
	pinsrb	$12, 24(%rdi,%rdx), %xmm1
	pinsrb	$13, 26(%rdi,%rdx), %xmm1
	pinsrb	$14, 28(%rdi,%rdx), %xmm1
	pinsrb	$15, 30(%rdi,%rdx), %xmm1
	movzbl	3(%rdi,%rdx), %r8d
	movzbl	1(%rdi,%rdx), %r9d
	movd	%r9d, %xmm2
	pinsrb	$1, %r8d, %xmm2
	movzbl	5(%rdi,%rdx), %r8d
	pinsrb	$2, %r8d, %xmm2
	movzbl	7(%rdi,%rdx), %r8d
	pinsrb	$3, %r8d, %xmm2
	movzbl	9(%rdi,%rdx), %r8d
	pinsrb	$4, %r8d, %xmm2
	movzbl	11(%rdi,%rdx), %r8d
	pinsrb	$5, %r8d, %xmm2
	movzbl	13(%rdi,%rdx), %r8d
	pinsrb	$6, %r8d, %xmm2
	movzbl	15(%rdi,%rdx), %r8d
	pinsrb	$7, %r8d, %xmm2
	movzbl	17(%rdi,%rdx), %r8d
	pinsrb	$8, %r8d, %xmm2
	movzbl	19(%rdi,%rdx), %r8d
	pinsrb	$9, %r8d, %xmm2
	movzbl	21(%rdi,%rdx), %r8d
	pinsrb	$10, %r8d, %xmm2
	movzbl	23(%rdi,%rdx), %r8d
	pinsrb	$11, %r8d, %xmm2
	movzbl	25(%rdi,%rdx), %r8d
	pinsrb	$12, %r8d, %xmm2
	movzbl	27(%rdi,%rdx), %r8d
	pinsrb	$13, %r8d, %xmm2
	movzbl	29(%rdi,%rdx), %r8d
	pinsrb	$14, %r8d, %xmm2
	movzbl	31(%rdi,%rdx), %r8d
	pinsrb	$15, %r8d, %xmm2
	pcmpeqb	.LCPI41_0(%rip), %xmm1
	pand	%xmm2, %xmm1
	pmaxub	%xmm1, %xmm0
	addq	$32, %rdx
	cmpq	%rdx, %rcx
	jne	.LBB41_19
	pcmpeqd	%xmm1, %xmm1
	pxor	%xmm1, %xmm0
	movdqa	%xmm0, %xmm1
	psrlw	$8, %xmm1
	pminub	%xmm0, %xmm1
	phminposuw	%xmm1, %xmm0
	movd	%xmm0, %edx
	notb	%dl
	cmpq	%rax, %rsi
	je	.LBB41_28
	testb	$12, %sil
	je	.LBB41_25
	movl	%esi, %ecx
	andl	$2044, %ecx
	movzbl	%dl, %edx
	movd	%edx, %xmm0
	punpcklbw	%xmm0, %xmm0
	pshuflw	$0, %xmm0, %xmm0
	.p2align	4
.LBB41_23:
	movzbl	(%rdi,%rax,2), %edx
	movd	%edx, %xmm1
	pinsrb	$1, 2(%rdi,%rax,2), %xmm1
	pinsrb	$2, 4(%rdi,%rax,2), %xmm1
	pinsrb	$3, 6(%rdi,%rax,2), %xmm1
	movzbl	3(%rdi,%rax,2), %edx
	movzbl	1(%rdi,%rax,2), %r8d
	movd	%r8d, %xmm2
	pinsrb	$1, %edx, %xmm2
	movzbl	5(%rdi,%rax,2), %edx
	pinsrb	$2, %edx, %xmm2
	movzbl	7(%rdi,%rax,2), %edx
	pinsrb	$3, %edx, %xmm2
	pxor	%xmm3, %xmm3
	pblendw	$3, %xmm2, %xmm3
	pcmpeqb	.LCPI41_1(%rip), %xmm1
	pand	%xmm3, %xmm1
	pmaxub	%xmm1, %xmm0
	addq	$4, %rax
	cmpq	%rax, %rcx
	jne	.LBB41_23
	movdqa	%xmm0, %xmm1
	psrld	$16, %xmm1
	pmaxub	%xmm0, %xmm1
	movdqa	%xmm1, %xmm0
	psrlw	$8, %xmm0
	pmaxub	%xmm1, %xmm0
	movd	%xmm0, %edx
	cmpq	%rcx, %rsi
	jne	.LBB41_26
	jmp	.LBB41_28
.LBB41_25:
	movq	%rax, %rcx
.LBB41_26:
	movl	%edx, %eax
	.p2align	4
.LBB41_27:
	xorl	%r8d, %r8d
	cmpb	$1, (%rdi,%rcx,2)
	movzbl	1(%rdi,%rcx,2), %edx
	cmovnel	%r8d, %edx
	movzbl	%al, %eax
	cmpb	%al, %dl
	cmovbel	%eax, %edx
	incq	%rcx
	movl	%edx, %eax
	cmpq	%rcx, %rsi
	jne	.LBB41_27
.LBB41_28:
	testb	%dl, %dl
	js	.LBB41_45
.LBB41_29:
	xorl	%eax, %eax
	xorl	%ecx, %ecx
	xorl	%edx, %edx
	jmp	.LBB41_32
	.p2align	4
.LBB41_30:
	movb	$-24, 186(%rsp,%rax)
	incq	%rax
	movl	$1, %r8d
	movb	$1, %dl
.LBB41_31:
	addq	%r8, %rcx
	cmpq	%rsi, %rcx
	jae	.LBB41_42
.LBB41_32:
	cmpb	$1, (%rdi,%rcx,2)
	jne	.LBB41_30
	movzbl	1(%rdi,%rcx,2), %r8d
	leaq	1(%rcx), %r9
	cmpq	%rsi, %r9
	jae	.LBB41_38
	leal	-48(%r8), %r9d
	cmpb	$9, %r9b
	ja	.LBB41_38
	cmpb	$1, 2(%rdi,%rcx,2)
	jne	.LBB41_40
	movzbl	3(%rdi,%rcx,2), %r9d
	leal	-48(%r9), %r10d
	cmpb	$10, %r10b
	jae	.LBB41_40
	movzbl	%r8b, %r8d
	addl	%r8d, %r8d
	leal	(%r8,%r8,4), %r8d
	addb	%r9b, %r8b
	addb	$114, %r8b
	movb	%r8b, 186(%rsp,%rax)
	incq	%rax
	movl	$2, %r8d
	jmp	.LBB41_31
	.p2align	4
.LBB41_38:
	testb	%r8b, %r8b
	movl	$1, %r10d
	movl	$129, %r9d
	cmovnsl	%r10d, %r9d
	addb	%r8b, %r9b
	testb	%r8b, %r8b
	jns	.LBB41_41
	movb	$-21, 186(%rsp,%rax)
	movb	%r9b, 187(%rsp,%rax)
	addq	$2, %rax
	movl	$1, %r8d
	jmp	.LBB41_31
.LBB41_40:
	incb	%r8b
	movl	%r8d, %r9d
.LBB41_41:
	movb	%r9b, 186(%rsp,%rax)
	incq	%rax
	movl	$1, %r8d
	jmp	.LBB41_31
.LBB41_42:
	xorb	$1, %dl
	cmpq	$250, %rsi
	movl	$3, %ecx
	sbbq	$0, %rcx
	addq	%rsi, %rcx
	cmpq	%rax, %rcx
	setb	%r8b
	movq	128(%rsp), %r9
	andb	%dl, %r9b
	andb	%r8b, %r9b
	cmpb	$1, %r9b
	jne	.LBB41_73
	movb	$-25, 186(%rsp)
	cmpq	$250, %rsi
	jae	.LBB41_64
	leal	44(%rsi), %r8d
	movl	$2, %eax
	jmp	.LBB41_65
.LBB41_45:
	xorl	%edx, %edx
	xorl	%ecx, %ecx
	xorl	%eax, %eax
	jmp	.LBB41_49
	.p2align	4
.LBB41_46:
	testb	%r9b, %r9b
	js	.LBB41_57
.LBB41_47:
	incq	%rax
.LBB41_48:
	movq	%r8, %rdx
	cmpq	%rsi, %r8
	jae	.LBB41_58
.LBB41_49:
	cmpb	$1, (%rdi,%rdx,2)
	jne	.LBB41_55
	movzbl	1(%rdi,%rdx,2), %r9d
	leaq	1(%rdx), %r8
	cmpq	%rsi, %r8
	jae	.LBB41_46
	leal	-48(%r9), %r10d
	cmpb	$9, %r10b
	ja	.LBB41_46
	cmpb	$1, 2(%rdi,%rdx,2)
	jne	.LBB41_47
	movzbl	3(%rdi,%rdx,2), %r9d
	addb	$-48, %r9b
	cmpb	$10, %r9b
	jae	.LBB41_47
	incq	%rax
	addq	$2, %rdx
	jmp	.LBB41_56
	.p2align	4
.LBB41_55:
	incq	%rax
	incq	%rdx
	movb	$1, %cl
.LBB41_56:
	movq	%rdx, %r8
	jmp	.LBB41_48
.LBB41_57:
	addq	$2, %rax
	jmp	.LBB41_48
.LBB41_58:
	xorb	$1, %cl
	leaq	3(%rsi), %rdx
	cmpq	%rax, %rdx
	setb	%r8b
	movq	128(%rsp), %r9
	andb	%cl, %r9b
	movq	%r9, %rcx
	andb	%r8b, %cl
	cmovneq	%rdx, %rax
	cmpq	$1558, %rax
	ja	.LBB41_14
	testb	%cl, %cl
	je	.LBB41_87
	movq	%rdx, %rcx
	movb	$-25, 186(%rsp)
	movq	%rsi, %rax
	shrq	%rax
	movabsq	$2361183241434822607, %rdx
	mulq	%rdx
	shrq	$4, %rdx
	leal	37(%rdx), %eax
	movb	%al, 187(%rsp)
	imull	$250, %edx, %eax
	movl	%esi, %edx
	subl	%eax, %edx
	addb	$-63, %dl
	movb	%dl, 188(%rsp)
	movq	%rsi, %rax
	andq	$-2, %rax
	movl	$87, %r9d
	xorl	%r8d, %r8d
	xorl	%edx, %edx
	.p2align	4
.LBB41_61:
	cmpb	$1, (%rdi,%rdx,2)
	movzbl	1(%rdi,%rdx,2), %r10d
	cmovnel	%r8d, %r10d
	addl	%r9d, %r10d
	movb	%r10b, 189(%rsp,%rdx)
	leal	-106(%r9), %r10d
	leal	149(%r9), %r11d
	cmpl	$107, %r9d
	cmovael	%r10d, %r11d
	cmpb	$1, 2(%rdi,%rdx,2)
	movzbl	3(%rdi,%rdx,2), %r9d
	cmovnel	%r8d, %r9d
	addl	%r11d, %r9d
	movb	%r9b, 190(%rsp,%rdx)
	leal	-106(%r11), %r10d
	leal	149(%r11), %r9d
	cmpl	$107, %r11d
	cmovael	%r10d, %r9d
	addq	$2, %rdx
	cmpq	%rdx, %rax
	jne	.LBB41_61
	testb	$1, %sil
	movq	%rcx, %rax
	je	.LBB41_73
	xorl	%ecx, %ecx
	cmpb	$1, (%rdi,%rdx,2)
	movzbl	1(%rdi,%rdx,2), %r8d
	cmovnel	%ecx, %r8d
	addb	%r8b, %r9b
	movb	%r9b, 189(%rsp,%rdx)
	jmp	.LBB41_73
.LBB41_64:
	movq	%rsi, %rax
	shrq	%rax
	movabsq	$2361183241434822607, %rdx
	mulq	%rdx
	shrq	$4, %rdx
	leal	37(%rdx), %r8d
	imull	$250, %edx, %eax
	movl	%esi, %edx
	subl	%eax, %edx
	addb	$-63, %dl
	movb	%dl, 188(%rsp)
	movl	$3, %eax
.LBB41_65:
	movb	%r8b, 187(%rsp)
	imull	$149, %eax, %edx
	leal	149(%rdx), %r8d
	imull	$1029, %r8d, %r8d
	shrl	$18, %r8d
	movl	%r8d, %r9d
	shll	$8, %r9d
	subl	%r9d, %r8d
	addl	%r8d, %edx
	addl	$150, %edx
	movzwl	%dx, %r8d
	xorl	%edx, %edx
	cmpq	$1, %rsi
	jne	.LBB41_67
	xorl	%r9d, %r9d
	jmp	.LBB41_71
.LBB41_67:
	movq	%rsi, %r10
	andq	$-2, %r10
	leaq	186(%rsp), %r9
	leaq	(%rax,%r9), %r11
	incq	%r11
	xorl	%r14d, %r14d
	xorl	%r9d, %r9d
	.p2align	4
.LBB41_68:
	cmpb	$1, (%rdi,%r9,2)
	movzbl	1(%rdi,%r9,2), %esi
	cmovnel	%r14d, %esi
	addl	%r8d, %esi
	movb	%sil, -1(%r11,%r9)
	leal	-106(%r8), %esi
	leal	149(%r8), %r15d
	cmpl	$107, %r8d
	cmovael	%esi, %r15d
	cmpb	$1, 2(%rdi,%r9,2)
	movzbl	3(%rdi,%r9,2), %r8d
	cmovnel	%r14d, %r8d
	addl	%r15d, %r8d
	movb	%r8b, (%r11,%r9)
	leal	-106(%r15), %esi
	leal	149(%r15), %r8d
	cmpl	$107, %r15d
	cmovael	%esi, %r8d
	addq	$2, %r9
	cmpq	%r9, %r10
	jne	.LBB41_68
	testb	$1, %bl
	je	.LBB41_72
	addq	%r9, %rax
.LBB41_71:
	cmpb	$1, (%rdi,%r9,2)
	movzbl	1(%rdi,%r9,2), %r9d
	cmovel	%r9d, %edx
	addb	%dl, %r8b
	movb	%r8b, 186(%rsp,%rax)
.LBB41_72:
	movq	%rcx, %rax
	jmp	.LBB41_73
.LBB41_87:
	xorl	%ecx, %ecx
	xorl	%edx, %edx
	.p2align	4
.LBB41_88:
	cmpb	$1, (%rdi,%rdx,2)
	jne	.LBB41_94
	movzbl	1(%rdi,%rdx,2), %r8d
	leaq	1(%rdx), %r9
	cmpq	%rsi, %r9
	jae	.LBB41_95
	leal	-48(%r8), %r9d
	cmpb	$9, %r9b
	ja	.LBB41_95
	cmpb	$1, 2(%rdi,%rdx,2)
	jne	.LBB41_97
	movzbl	3(%rdi,%rdx,2), %r9d
	leal	-48(%r9), %r10d
	cmpb	$10, %r10b
	jae	.LBB41_97
	movzbl	%r8b, %r8d
	addl	%r8d, %r8d
	leal	(%r8,%r8,4), %r8d
	addb	%r9b, %r8b
	addb	$114, %r8b
	movb	%r8b, 186(%rsp,%rcx)
	incq	%rcx
	movl	$2, %r8d
	jmp	.LBB41_101
	.p2align	4
.LBB41_94:
	movb	$-24, 186(%rsp,%rcx)
	jmp	.LBB41_99
.LBB41_95:
	testb	%r8b, %r8b
	movl	$1, %r10d
	movl	$129, %r9d
	cmovnsl	%r10d, %r9d
	addb	%r8b, %r9b
	testb	%r8b, %r8b
	jns	.LBB41_98
	movb	$-21, 186(%rsp,%rcx)
	movb	%r9b, 187(%rsp,%rcx)
	addq	$2, %rcx
	jmp	.LBB41_100
.LBB41_97:
	incb	%r8b
	movl	%r8d, %r9d
.LBB41_98:
	movb	%r9b, 186(%rsp,%rcx)
.LBB41_99:
	incq	%rcx
.LBB41_100:
	movl	$1, %r8d
.LBB41_101:
	addq	%r8, %rdx
	cmpq	%rsi, %rdx
	jb	.LBB41_88
.LBB41_73:
	shrq	$48, %r13
	xorl	%r10d, %r10d
	jmp	.LBB41_76
.LBB41_74:
	cmpw	%dx, %cx
	jne	.LBB41_82
	.p2align	4
.LBB41_75:
	addq	$20, %r10
	cmpq	$960, %r10
	je	.LBB41_14
.LBB41_76:
	leaq	.Lstatic.0(%rip), %r11
	movzwl	12(%r10,%r11), %r8d
	cmpw	%ax, %r8w
	jb	.LBB41_75
	movzwl	(%r10,%r11), %ecx
	movzwl	2(%r10,%r11), %edx
	movzwl	18(%r10,%r11), %edi
	movzbl	%bpl, %r9d
	leaq	.LJTI41_0(%rip), %rsi
	movslq	(%rsi,%r9,4), %r9
	addq	%rsi, %r9
	jmpq	*%r9
.LBB41_78:
	cmpw	%dx, %cx
	movl	%ecx, %edx
	jne	.LBB41_75
	jmp	.LBB41_82
.LBB41_79:
	xorl	%r12d, %ecx
	xorl	%r13d, %edx
	orw	%cx, %dx
	jne	.LBB41_75
	jmp	.LBB41_81
.LBB41_80:
	cmpw	$1, %di
	setne	%r9b
	cmpw	%dx, %cx
	setne	%bl
	testb	%r9b, %bl
	je	.LBB41_75
	jmp	.LBB41_82
.LBB41_81:
	movl	%r12d, %ecx
	movl	%r13d, %edx
.LBB41_82:
	movq	4(%r10,%r11), %r12
	movl	14(%r10,%r11), %r10d
	cmpw	$1, %di
	sete	%r11b
	cmpq	%r8, %rax
	jae	.LBB41_110
	movb	$-127, 186(%rsp,%rax)
	leaq	1(%rax), %rsi
	cmpq	%r8, %rsi
	jae	.LBB41_110
	notq	%rax
	addq	%r8, %rax
	cmpq	$4, %rax
	jb	.LBB41_118
	cmpq	$16, %rax
	jae	.LBB41_103
	xorl	%edi, %edi
	movq	%rsi, %rbx
	jmp	.LBB41_107
.LBB41_103:
	movq	%rax, %rdi
	andq	$-16, %rdi
	leaq	(%rsi,%rdi), %rbx
	movd	%esi, %xmm0
	pshufd	$0, %xmm0, %xmm1
	movdqa	.LCPI41_2(%rip), %xmm2
	paddd	%xmm1, %xmm2
	movdqa	.LCPI41_3(%rip), %xmm3
	paddd	%xmm1, %xmm3
	movdqa	.LCPI41_4(%rip), %xmm4
	paddd	%xmm1, %xmm4
	paddd	.LCPI41_5(%rip), %xmm1
	leaq	(%rsp,%rsi), %r14
	addq	$186, %r14
	xorl	%r15d, %r15d
.LBB41_104:
	pcmpeqd	%xmm0, %xmm0
	movdqa	%xmm1, %xmm5
	psubd	%xmm0, %xmm5
	movdqa	%xmm4, %xmm7
	psubd	%xmm0, %xmm7
	movdqa	%xmm3, %xmm6
	psubd	%xmm0, %xmm6
	movdqa	%xmm2, %xmm8
	psubd	%xmm0, %xmm8
	pxor	%xmm0, %xmm0
	pblendw	$170, %xmm0, %xmm8
	pblendw	$170, %xmm0, %xmm6
	pblendw	$170, %xmm0, %xmm7
	pblendw	$170, %xmm0, %xmm5
	movdqa	.LCPI41_6(%rip), %xmm0
	pmulld	%xmm0, %xmm5
	pmulld	%xmm0, %xmm7
	pmulld	%xmm0, %xmm6
	pmulld	%xmm0, %xmm8
	pshufd	$245, %xmm8, %xmm9
	movdqa	.LCPI41_7(%rip), %xmm0
	pmuludq	%xmm0, %xmm9
	movdqa	%xmm8, %xmm10
	pmuludq	%xmm0, %xmm10
	pshufd	$245, %xmm10, %xmm10
	pblendw	$204, %xmm9, %xmm10
	movdqa	.LCPI41_8(%rip), %xmm9
	pmulld	%xmm9, %xmm10
	psubd	%xmm10, %xmm8
	pshufd	$245, %xmm6, %xmm10
	pmuludq	%xmm0, %xmm10
	movdqa	%xmm6, %xmm11
	pmuludq	%xmm0, %xmm11
	pshufd	$245, %xmm11, %xmm11
	pblendw	$204, %xmm10, %xmm11
	pmulld	%xmm9, %xmm11
	psubd	%xmm11, %xmm6
	pshufd	$245, %xmm7, %xmm10
	pmuludq	%xmm0, %xmm10
	movdqa	%xmm7, %xmm11
	pmuludq	%xmm0, %xmm11
	pshufd	$245, %xmm11, %xmm11
	pblendw	$204, %xmm10, %xmm11
	pmulld	%xmm9, %xmm11
	psubd	%xmm11, %xmm7
	pshufd	$245, %xmm5, %xmm10
	pmuludq	%xmm0, %xmm10
	pmuludq	%xmm5, %xmm0
	pshufd	$245, %xmm0, %xmm0
	pblendw	$204, %xmm10, %xmm0
	pmulld	%xmm9, %xmm0
	psubd	%xmm0, %xmm5
	movdqa	.LCPI41_9(%rip), %xmm9
	movdqa	%xmm9, %xmm0
	pcmpgtd	%xmm5, %xmm0
	movdqa	%xmm9, %xmm10
	pcmpgtd	%xmm7, %xmm10
	packssdw	%xmm10, %xmm0
	movdqa	%xmm9, %xmm10
	pcmpgtd	%xmm6, %xmm10
	pcmpgtd	%xmm8, %xmm9
	packssdw	%xmm9, %xmm10
	packsswb	%xmm10, %xmm0
	packusdw	%xmm7, %xmm5
	packusdw	%xmm8, %xmm6
	packuswb	%xmm6, %xmm5
	movdqa	.LCPI41_10(%rip), %xmm6
	pblendvb	%xmm0, .LCPI41_11(%rip), %xmm6
	paddb	%xmm5, %xmm6
	movdqu	%xmm6, (%r14,%r15)
	addq	$16, %r15
	movdqa	.LCPI41_12(%rip), %xmm0
	paddd	%xmm0, %xmm1
	paddd	%xmm0, %xmm4
	paddd	%xmm0, %xmm3
	paddd	%xmm0, %xmm2
	cmpq	%r15, %rdi
	jne	.LBB41_104
	cmpq	%rdi, %rax
	je	.LBB41_110
	testb	$12, %al
	je	.LBB41_117
.LBB41_107:
	movq	%rax, %r14
	andq	$-4, %r14
	movd	%ebx, %xmm0
	pshufd	$0, %xmm0, %xmm1
	paddd	.LCPI41_5(%rip), %xmm1
	leaq	(%rsp,%rsi), %rbx
	addq	$186, %rbx
	addq	%r14, %rsi
	.p2align	4
.LBB41_108:
	pcmpeqd	%xmm3, %xmm3
	movdqa	%xmm1, %xmm0
	psubd	%xmm3, %xmm0
	pxor	%xmm2, %xmm2
	pblendw	$85, %xmm0, %xmm2
	pmulld	.LCPI41_6(%rip), %xmm2
	pshufd	$245, %xmm2, %xmm0
	movdqa	.LCPI41_7(%rip), %xmm4
	pmuludq	%xmm4, %xmm0
	pmuludq	%xmm2, %xmm4
	pshufd	$245, %xmm4, %xmm4
	pblendw	$204, %xmm0, %xmm4
	pmulld	.LCPI41_8(%rip), %xmm4
	psubd	%xmm4, %xmm2
	movdqa	%xmm2, %xmm0
	pcmpgtd	.LCPI41_13(%rip), %xmm0
	packssdw	%xmm0, %xmm0
	pxor	%xmm3, %xmm0
	packsswb	%xmm0, %xmm0
	movdqa	.LCPI41_14(%rip), %xmm3
	pblendvb	%xmm0, .LCPI41_15(%rip), %xmm3
	packusdw	%xmm2, %xmm2
	packuswb	%xmm2, %xmm2
	paddb	%xmm2, %xmm3
	movd	%xmm3, (%rbx,%rdi)
	addq	$4, %rdi
	paddd	.LCPI41_16(%rip), %xmm1
	cmpq	%rdi, %r14
	jne	.LBB41_108
	cmpq	%r14, %rax
	jne	.LBB41_118
.LBB41_110:
	xorl	%eax, %eax
	movl	%r8d, %esi
.LBB41_111:
	movq	1968(%rsp), %r9
.LBB41_112:
	movw	%cx, 80(%rsp)
	movw	%dx, 82(%rsp)
	movq	%r12, 84(%rsp)
	movw	%si, 92(%rsp)
	movl	%r10d, 94(%rsp)
	movb	%r11b, 98(%rsp)
	movb	%al, 99(%rsp)
	movzwl	%si, %eax
	cmpl	$817, %eax
	setb	%cl
	xorb	$3, %cl
	cmpl	$205, %eax
	movzbl	%cl, %ecx
	movl	$1, %edx
	cmovael	%ecx, %edx
	xorl	%ecx, %ecx
	cmpw	$63, %ax
	cmovael	%edx, %ecx
	movzbl	%cl, %eax
	leaq	.LJTI41_1(%rip), %rcx
	movslq	(%rcx,%rax,4), %rax
	addq	%rcx, %rax
	jmpq	*%rax
.LBB41_113:
	leaq	80(%rsp), %rcx
	leaq	186(%rsp), %rdx
	callq	"ecc200_calls::writing::show_words::<=32,=98>"
	jmp	.LBB41_15
.LBB41_114:
	leaq	80(%rsp), %rcx
	leaq	186(%rsp), %rdx
	callq	"ecc200_calls::writing::show_words::<=104,=1152>"
	jmp	.LBB41_15
.LBB41_115:
	leaq	80(%rsp), %rcx
	leaq	186(%rsp), %rdx
	callq	"ecc200_calls::writing::show_words::<=144,=2178>"
	jmp	.LBB41_15
.LBB41_116:
	leaq	80(%rsp), %rcx
	leaq	186(%rsp), %rdx
	callq	"ecc200_calls::writing::show_words::<=52,=288>"
	jmp	.LBB41_15
.LBB41_117:
	addq	%rdi, %rsi
.LBB41_118:
	movq	1968(%rsp), %r9
	.p2align	4
.LBB41_119:
	movq	%rsi, %rax
	incq	%rsi
	movzwl	%si, %edi
	imull	$149, %edi, %edi
	imulq	$16976156, %rdi, %rbx
	shrq	$32, %rbx
	imull	$253, %ebx, %ebx
	subl	%ebx, %edi
	cmpl	$125, %edi
	setae	%bl
	addb	%bl, %bl
	addb	%dil, %bl
	addb	$-126, %bl
	movb	%bl, 186(%rsp,%rax)
	cmpq	%rsi, %r8
	jne	.LBB41_119
	xorl	%eax, %eax
	movl	%r8d, %esi
	jmp	.LBB41_112
	.section	.rdata,"dr"
	.p2align	2, 0x0
.LJTI41_0:
	.long	.LBB41_78-.LJTI41_0
	.long	.LBB41_80-.LJTI41_0
	.long	.LBB41_74-.LJTI41_0
	.long	.LBB41_82-.LJTI41_0
	.long	.LBB41_79-.LJTI41_0
.LJTI41_1:
	.long	.LBB41_113-.LJTI41_1
	.long	.LBB41_116-.LJTI41_1
	.long	.LBB41_114-.LJTI41_1
	.long	.LBB41_115-.LJTI41_1
	.text
	.seh_endproc

	.def	"dm_words::contents::normal_form::marked_length";
	.scl	3;
	.type	32;
	.endef
	.p2align	4
"dm_words::contents::normal_form::marked_length":
.seh_proc "dm_words::contents::normal_form::marked_length"
	pushq	%r15
	.seh_pushreg %r15
	pushq	%r14
	.seh_pushreg %r14
	pushq	%r12
	.seh_pushreg %r12
	pushq	%rsi
	.seh_pushreg %rsi
	pushq	%rdi
	.seh_pushreg %rdi
	pushq	%rbp
	.seh_pushreg %rbp
	pushq	%rbx
	.seh_pushreg %rbx
	.seh_endprologue
	testq	%r9, %r9
	je	.LBB42_1
	xorl	%r10d, %r10d
	xorl	%esi, %esi
	xorl	%r11d, %r11d
	jmp	.LBB42_3
	.p2align	4
.LBB42_4:
	xorl	%esi, %esi
.LBB42_18:
	movl	4(%r8,%r11,8), %edi
	cmpl	$16383, %edi
	movl	$4, %ebx
	sbbq	$0, %rbx
	cmpl	$127, %edi
	movl	$2, %edi
	cmovaeq	%rbx, %rdi
	addq	%rsi, %r10
	addq	%rdi, %r10
	incq	%r11
	movq	%rax, %rsi
	cmpq	%r9, %r11
	je	.LBB42_19
.LBB42_3:
	movzwl	(%r8,%r11,8), %eax
	movq	%rax, %rdi
	subq	%rsi, %rdi
	je	.LBB42_4
	leaq	(%rcx,%rsi,2), %rbx
	xorl	%r14d, %r14d
	xorl	%esi, %esi
	jmp	.LBB42_6
	.p2align	4
.LBB42_12:
	testb	%r12b, %r12b
	js	.LBB42_14
.LBB42_13:
	incq	%rsi
.LBB42_17:
	movq	%r15, %r14
	cmpq	%rdi, %r15
	jae	.LBB42_18
.LBB42_6:
	cmpb	$1, (%rbx,%r14,2)
	jne	.LBB42_15
	movzbl	1(%rbx,%r14,2), %r12d
	leaq	1(%r14), %r15
	cmpq	%rdi, %r15
	jae	.LBB42_12
	leal	-48(%r12), %ebp
	cmpb	$9, %bpl
	ja	.LBB42_12
	cmpb	$1, 2(%rbx,%r14,2)
	jne	.LBB42_13
	movzbl	3(%rbx,%r14,2), %ebp
	addb	$-48, %bpl
	cmpb	$10, %bpl
	jae	.LBB42_13
	incq	%rsi
	addq	$2, %r14
	jmp	.LBB42_16
	.p2align	4
.LBB42_15:
	incq	%rsi
	incq	%r14
.LBB42_16:
	movq	%r14, %r15
	jmp	.LBB42_17
.LBB42_14:
	addq	$2, %rsi
	jmp	.LBB42_17
.LBB42_1:
	xorl	%eax, %eax
	xorl	%r10d, %r10d
.LBB42_19:
	subq	%rax, %rdx
	jne	.LBB42_21
	xorl	%eax, %eax
.LBB42_34:
	addq	%r10, %rax
	popq	%rbx
	popq	%rbp
	popq	%rdi
	popq	%rsi
	popq	%r12
	popq	%r14
	popq	%r15
	retq
.LBB42_21:
	leaq	(%rcx,%rax,2), %rcx
	xorl	%r8d, %r8d
	xorl	%eax, %eax
	jmp	.LBB42_22
	.p2align	4
.LBB42_28:
	testb	%r11b, %r11b
	js	.LBB42_30
.LBB42_29:
	incq	%rax
.LBB42_33:
	movq	%r9, %r8
	cmpq	%rdx, %r9
	jae	.LBB42_34
.LBB42_22:
	cmpb	$1, (%rcx,%r8,2)
	jne	.LBB42_31
	movzbl	1(%rcx,%r8,2), %r11d
	leaq	1(%r8), %r9
	cmpq	%rdx, %r9
	jae	.LBB42_28
	leal	-48(%r11), %esi
	cmpb	$9, %sil
	ja	.LBB42_28
	cmpb	$1, 2(%rcx,%r8,2)
	jne	.LBB42_29
	movzbl	3(%rcx,%r8,2), %r11d
	addb	$-48, %r11b
	cmpb	$10, %r11b
	jae	.LBB42_29
	incq	%rax
	addq	$2, %r8
	jmp	.LBB42_32
	.p2align	4
.LBB42_31:
	incq	%rax
	incq	%r8
.LBB42_32:
	movq	%r8, %r9
	jmp	.LBB42_33
.LBB42_30:
	addq	$2, %rax
	jmp	.LBB42_33
	.seh_endproc

	.def	"dm_words::contents::normal_form::write_form";
	.scl	3;
	.type	32;
	.endef
	.p2align	4
"dm_words::contents::normal_form::write_form":
.seh_proc "dm_words::contents::normal_form::write_form"
	pushq	%r15
	.seh_pushreg %r15
	pushq	%r14
	.seh_pushreg %r14
	pushq	%r13
	.seh_pushreg %r13
	pushq	%r12
	.seh_pushreg %r12
	pushq	%rsi
	.seh_pushreg %rsi
	pushq	%rdi
	.seh_pushreg %rdi
	pushq	%rbp
	.seh_pushreg %rbp
	pushq	%rbx
	.seh_pushreg %rbx
	subq	$72, %rsp
	.seh_stackalloc 72
	.seh_endprologue
	movq	%r9, %r15
	movq	%r8, %rsi
	movq	%rdx, 32(%rsp)
	movq	184(%rsp), %rdi
	cmpb	$0, (%rcx)
	je	.LBB43_3
	cmpb	$0, 1(%rcx)
	je	.LBB43_4
	movl	2(%rcx), %ecx
	movl	%ecx, %edx
	shrl	$8, %edx
	movl	%ecx, %eax
	shlb	$4, %al
	subb	%dl, %al
	incb	%al
	shrl	$16, %ecx
	movl	$4, %ebx
	movb	$-23, %dl
	jmp	.LBB43_5
.LBB43_3:
	xorl	%eax, %eax
	xorl	%ecx, %ecx
	xorl	%edx, %edx
	xorl	%ebx, %ebx
	jmp	.LBB43_5
.LBB43_4:
	movl	$1, %ebx
	movb	$-22, %dl
	xorl	%eax, %eax
	xorl	%ecx, %ecx
.LBB43_5:
	movb	%dl, 40(%rsp)
	movb	%al, 41(%rsp)
	movw	%cx, 42(%rsp)
	movl	$0, 44(%rsp)
	movq	%rbx, 48(%rsp)
	leaq	40(%rsp), %rdx
	movq	%rdi, %rcx
	movq	%rbx, %r8
	callq	memcpy
	cmpq	$0, 176(%rsp)
	je	.LBB43_30
	leaq	59(%rsp), %r13
	xorl	%ebp, %ebp
	xorl	%r14d, %r14d
	jmp	.LBB43_9
	.p2align	4
.LBB43_7:
	incb	%al
	movl	$1, %r12d
	xorl	%ecx, %ecx
	xorl	%edx, %edx
.LBB43_8:
	movb	$0, 4(%r13)
	movl	$0, (%r13)
	movb	%al, 56(%rsp)
	movb	%cl, 57(%rsp)
	movb	%dl, 58(%rsp)
	movq	%r12, 64(%rsp)
	leaq	(%rdi,%rbx), %rcx
	incq	%rcx
	leaq	56(%rsp), %rdx
	movq	%r12, %r8
	callq	memcpy
	addq	%r12, %rbx
	incq	%rbx
	incq	%r14
	cmpq	176(%rsp), %r14
	je	.LBB43_31
.LBB43_9:
	movq	%rbp, %rcx
	movzwl	(%r15,%r14,8), %ebp
	movq	%rbp, %rax
	subq	%rcx, %rax
	je	.LBB43_10
	movq	32(%rsp), %rdx
	leaq	(%rdx,%rcx,2), %rcx
	xorl	%edx, %edx
	.p2align	4
.LBB43_14:
	cmpb	$1, (%rcx,%rdx,2)
	jne	.LBB43_20
	movzbl	1(%rcx,%rdx,2), %r8d
	leaq	1(%rdx), %r9
	cmpq	%rax, %r9
	jae	.LBB43_21
	leal	-48(%r8), %r9d
	cmpb	$9, %r9b
	ja	.LBB43_21
	cmpb	$1, 2(%rcx,%rdx,2)
	jne	.LBB43_23
	movzbl	3(%rcx,%rdx,2), %r9d
	leal	-48(%r9), %r10d
	cmpb	$10, %r10b
	jae	.LBB43_23
	movzbl	%r8b, %r8d
	addl	%r8d, %r8d
	leal	(%r8,%r8,4), %r8d
	addb	%r9b, %r8b
	addb	$114, %r8b
	movb	%r8b, (%rdi,%rbx)
	incq	%rbx
	movl	$2, %r8d
	jmp	.LBB43_27
	.p2align	4
.LBB43_20:
	movb	$-24, (%rdi,%rbx)
	jmp	.LBB43_25
	.p2align	4
.LBB43_21:
	testb	%r8b, %r8b
	movl	$1, %r10d
	movl	$129, %r9d
	cmovnsl	%r10d, %r9d
	addb	%r8b, %r9b
	testb	%r8b, %r8b
	jns	.LBB43_24
	movb	$-21, (%rdi,%rbx)
	movb	%r9b, 1(%rdi,%rbx)
	addq	$2, %rbx
	jmp	.LBB43_26
.LBB43_23:
	incb	%r8b
	movl	%r8d, %r9d
.LBB43_24:
	movb	%r9b, (%rdi,%rbx)
.LBB43_25:
	incq	%rbx
.LBB43_26:
	movl	$1, %r8d
.LBB43_27:
	addq	%r8, %rdx
	cmpq	%rax, %rdx
	jb	.LBB43_14
.LBB43_10:
	movl	4(%r15,%r14,8), %eax
	movb	$-15, (%rdi,%rbx)
	cmpl	$126, %eax
	jbe	.LBB43_7
	cmpl	$16382, %eax
	ja	.LBB43_29
	leal	-127(%rax), %ecx
	movzwl	%cx, %ecx
	shrl	%ecx
	imull	$33027, %ecx, %edx
	shrl	$22, %edx
	leal	(%rax,%rdx,2), %ecx
	addl	$-127, %ecx
	leal	-128(%rdx), %eax
	incb	%cl
	movl	$2, %r12d
	xorl	%edx, %edx
	jmp	.LBB43_8
	.p2align	4
.LBB43_29:
	leal	-16383(%rax), %edx
	movl	%edx, %ecx
	shrl	$2, %ecx
	shrl	%edx
	movl	$2164392969, %r8d
	imulq	%rdx, %r8
	shrq	$38, %r8
	leal	(%rax,%r8,2), %edx
	addl	$-16383, %edx
	imulq	$1090717717, %rcx, %rax
	shrq	$44, %rax
	addb	$-64, %al
	imulq	$33818641, %r8, %rcx
	shrq	$32, %rcx
	andl	$254, %ecx
	addl	%r8d, %ecx
	incb	%cl
	incb	%dl
	movl	$3, %r12d
	jmp	.LBB43_8
.LBB43_30:
	xorl	%ebp, %ebp
.LBB43_31:
	subq	%rbp, %rsi
	je	.LBB43_32
	movq	32(%rsp), %rax
	leaq	(%rax,%rbp,2), %rax
	xorl	%ecx, %ecx
	.p2align	4
.LBB43_34:
	cmpb	$1, (%rax,%rcx,2)
	jne	.LBB43_40
	movzbl	1(%rax,%rcx,2), %edx
	leaq	1(%rcx), %r8
	cmpq	%rsi, %r8
	jae	.LBB43_41
	leal	-48(%rdx), %r8d
	cmpb	$9, %r8b
	ja	.LBB43_41
	cmpb	$1, 2(%rax,%rcx,2)
	jne	.LBB43_43
	movzbl	3(%rax,%rcx,2), %r8d
	leal	-48(%r8), %r9d
	cmpb	$10, %r9b
	jae	.LBB43_43
	movzbl	%dl, %edx
	addl	%edx, %edx
	leal	(%rdx,%rdx,4), %edx
	addb	%r8b, %dl
	addb	$114, %dl
	movb	%dl, (%rdi,%rbx)
	incq	%rbx
	movl	$2, %edx
	jmp	.LBB43_47
	.p2align	4
.LBB43_40:
	movb	$-24, (%rdi,%rbx)
	jmp	.LBB43_45
	.p2align	4
.LBB43_41:
	testb	%dl, %dl
	movl	$1, %r9d
	movl	$129, %r8d
	cmovnsl	%r9d, %r8d
	addb	%dl, %r8b
	testb	%dl, %dl
	jns	.LBB43_44
	movb	$-21, (%rdi,%rbx)
	movb	%r8b, 1(%rdi,%rbx)
	addq	$2, %rbx
	jmp	.LBB43_46
.LBB43_43:
	incb	%dl
	movl	%edx, %r8d
.LBB43_44:
	movb	%r8b, (%rdi,%rbx)
.LBB43_45:
	incq	%rbx
.LBB43_46:
	movl	$1, %edx
.LBB43_47:
	addq	%rdx, %rcx
	cmpq	%rsi, %rcx
	jb	.LBB43_34
.LBB43_32:
	movq	%rbx, %rax
	addq	$72, %rsp
	popq	%rbx
	popq	%rbp
	popq	%rdi
	popq	%rsi
	popq	%r12
	popq	%r13
	popq	%r14
	popq	%r15
	retq
	.seh_endproc

	.def	"dm_words::smallest::smallest_in::<=64,=31>";
	.scl	3;
	.type	32;
	.endef
	.p2align	4
"dm_words::smallest::smallest_in::<=64,=31>":
.seh_proc "dm_words::smallest::smallest_in::<=64,=31>"
	pushq	%rsi
	.seh_pushreg %rsi
	pushq	%rdi
	.seh_pushreg %rdi
	pushq	%rbx
	.seh_pushreg %rbx
	subq	$416, %rsp
	.seh_stackalloc 416
	.seh_endprologue
	movq	%rcx, %rsi
	movq	512(%rsp), %r10
	movq	496(%rsp), %rcx
	movq	480(%rsp), %rax
	movq	504(%rsp), %rdi
	movzbl	(%r8), %r11d
	movb	%r11b, 90(%rsp)
	movzbl	1(%r8), %ebx
	movb	%bl, 91(%rsp)
	movl	2(%r8), %r8d
	movl	%r8d, 92(%rsp)
	movzbl	(%rdi), %r8d
	movw	%r8w, 84(%rsp)
	movl	2(%rdi), %r8d
	movl	%r8d, 86(%rsp)
	xorps	%xmm0, %xmm0
	movaps	%xmm0, 128(%rsp)
	movq	$0, 142(%rsp)
	movaps	%xmm0, 96(%rsp)
	movq	$0, 110(%rsp)
	movaps	%xmm0, 224(%rsp)
	movaps	%xmm0, 240(%rsp)
	movaps	%xmm0, 256(%rsp)
	movaps	%xmm0, 272(%rsp)
	movaps	%xmm0, 288(%rsp)
	movaps	%xmm0, 304(%rsp)
	movaps	%xmm0, 320(%rsp)
	movaps	%xmm0, 336(%rsp)
	movaps	%xmm0, 352(%rsp)
	movaps	%xmm0, 368(%rsp)
	movaps	%xmm0, 384(%rsp)
	movaps	%xmm0, 400(%rsp)
	movups	%xmm0, 206(%rsp)
	movaps	%xmm0, 192(%rsp)
	movaps	%xmm0, 176(%rsp)
	movaps	%xmm0, 160(%rsp)
	testb	%r11b, %r11b
	sete	%r8b
	testq	%rcx, %rcx
	sete	%r11b
	testb	%r8b, %r11b
	je	.LBB44_2
	movq	%r10, 48(%rsp)
	leaq	224(%rsp), %rcx
	movq	%rcx, 40(%rsp)
	leaq	84(%rsp), %rcx
	movq	%rcx, 32(%rsp)
	leaq	128(%rsp), %rcx
	movq	%r9, %r8
	movq	%rax, %r9
	callq	"dm_words::smallest::smallest_items_to"
	movzbl	128(%rsp), %eax
	movb	%al, (%rsi)
	movups	130(%rsp), %xmm0
	movups	%xmm0, 2(%rsi)
	movl	146(%rsp), %eax
	jmp	.LBB44_6
.LBB44_2:
	testb	%dl, %dl
	je	.LBB44_3
	movq	488(%rsp), %rdx
	movq	%r10, 72(%rsp)
	leaq	224(%rsp), %r8
	movq	%r8, 64(%rsp)
	leaq	160(%rsp), %r8
	movq	%r8, 56(%rsp)
	leaq	84(%rsp), %r8
	movq	%r8, 48(%rsp)
	movq	%rcx, 40(%rsp)
	movq	%rdx, 32(%rsp)
	leaq	96(%rsp), %rcx
	leaq	90(%rsp), %rdx
	movq	%r9, %r8
	movq	%rax, %r9
	callq	"dm_words::smallest::contents::smallest_marked_to"
	movzbl	96(%rsp), %eax
	jmp	.LBB44_5
.LBB44_3:
	movb	$1, %al
.LBB44_5:
	movb	%al, (%rsi)
	movups	98(%rsp), %xmm0
	movups	%xmm0, 2(%rsi)
	movl	114(%rsp), %eax
.LBB44_6:
	movl	%eax, 18(%rsi)
	addq	$416, %rsp
	popq	%rbx
	popq	%rdi
	popq	%rsi
	retq
	.seh_endproc

	.def	"dm_words::smallest::smallest_items_to";
	.scl	3;
	.type	32;
	.endef
	.section	.rdata,"dr"
	.p2align	4, 0x0
.LCPI45_0:
	.long	12
	.long	13
	.long	14
	.long	15
.LCPI45_1:
	.long	8
	.long	9
	.long	10
	.long	11
.LCPI45_2:
	.long	4
	.long	5
	.long	6
	.long	7
.LCPI45_3:
	.long	0
	.long	1
	.long	2
	.long	3
.LCPI45_4:
	.long	149
	.long	149
	.long	149
	.long	149
.LCPI45_5:
	.long	16976156
	.long	16976156
	.long	16976156
	.long	16976156
.LCPI45_6:
	.long	253
	.long	253
	.long	253
	.long	253
.LCPI45_7:
	.long	125
	.long	125
	.long	125
	.long	125
.LCPI45_8:
	.zero	16,132
.LCPI45_9:
	.zero	16,130
.LCPI45_10:
	.long	16
	.long	16
	.long	16
	.long	16
.LCPI45_11:
	.long	124
	.long	124
	.long	124
	.long	124
.LCPI45_12:
	.byte	132
	.byte	132
	.byte	132
	.byte	132
	.zero	1
	.zero	1
	.zero	1
	.zero	1
	.zero	1
	.zero	1
	.zero	1
	.zero	1
	.zero	1
	.zero	1
	.zero	1
	.zero	1
.LCPI45_13:
	.byte	130
	.byte	130
	.byte	130
	.byte	130
	.zero	1
	.zero	1
	.zero	1
	.zero	1
	.zero	1
	.zero	1
	.zero	1
	.zero	1
	.zero	1
	.zero	1
	.zero	1
	.zero	1
.LCPI45_14:
	.long	4
	.long	4
	.long	4
	.long	4
	.text
	.p2align	4
"dm_words::smallest::smallest_items_to":
.seh_proc "dm_words::smallest::smallest_items_to"
	pushq	%r15
	.seh_pushreg %r15
	pushq	%r14
	.seh_pushreg %r14
	pushq	%r13
	.seh_pushreg %r13
	pushq	%r12
	.seh_pushreg %r12
	pushq	%rsi
	.seh_pushreg %rsi
	pushq	%rdi
	.seh_pushreg %rdi
	pushq	%rbp
	.seh_pushreg %rbp
	pushq	%rbx
	.seh_pushreg %rbx
	subq	$200, %rsp
	.seh_stackalloc 200
	movdqa	%xmm11, 176(%rsp)
	.seh_savexmm %xmm11, 176
	movdqa	%xmm10, 160(%rsp)
	.seh_savexmm %xmm10, 160
	movdqa	%xmm9, 144(%rsp)
	.seh_savexmm %xmm9, 144
	movdqa	%xmm8, 128(%rsp)
	.seh_savexmm %xmm8, 128
	movdqa	%xmm7, 112(%rsp)
	.seh_savexmm %xmm7, 112
	movdqa	%xmm6, 96(%rsp)
	.seh_savexmm %xmm6, 96
	.seh_endprologue
	movq	%r9, %rbx
	movq	%r8, %r14
	movl	%edx, %r12d
	movq	%rcx, 72(%rsp)
	movq	312(%rsp), %rcx
	movq	304(%rsp), %rax
	movzbl	(%rax), %esi
	movzwl	2(%rax), %ebp
	movzwl	4(%rax), %r15d
	movq	%rcx, 32(%rsp)
	movl	%edx, %ecx
	xorl	%edx, %edx
	callq	"dm_words::smallest::plan::plan_to"
	movl	%eax, %edi
	testb	%r12b, %r12b
	movw	%dx, 64(%rsp)
	je	.LBB45_5
	movq	%r14, %rcx
	movq	%rbx, %rdx
	movb	$53, %r8b
	callq	"dm_words::macros::is_framed"
	movb	$-20, %cl
	testb	%al, %al
	jne	.LBB45_3
	movq	%r14, %rcx
	movq	%rbx, %rdx
	movb	$54, %r8b
	callq	"dm_words::macros::is_framed"
	movb	$-19, %cl
	testb	%al, %al
	je	.LBB45_5
.LBB45_3:
	movl	%ecx, 52(%rsp)
	leaq	14(%r14), %r8
	leaq	-9(%rbx), %r9
	movq	312(%rsp), %rax
	movq	%rax, 32(%rsp)
	xorl	%r13d, %r13d
	movl	%r12d, %ecx
	xorl	%edx, %edx
	callq	"dm_words::smallest::plan::plan_to"
	incl	%eax
	cmpw	%di, %ax
	jbe	.LBB45_7
	movq	312(%rsp), %rax
	movq	%rax, 32(%rsp)
	movl	$0, 52(%rsp)
	movl	%r12d, %ecx
	xorl	%edx, %edx
	movq	%r14, %r8
	movq	%rbx, %r9
	callq	"dm_words::smallest::plan::plan_to"
	jmp	.LBB45_6
.LBB45_5:
	movl	$0, 52(%rsp)
.LBB45_6:
	movb	$1, %r13b
	movl	%edi, %eax
.LBB45_7:
	movl	%r13d, %edi
	xorl	%ecx, %ecx
	movl	%r15d, %r11d
	jmp	.LBB45_10
.LBB45_8:
	cmpw	%r15w, %r13w
	jne	.LBB45_17
	.p2align	4
.LBB45_9:
	addq	$20, %rcx
	cmpq	$960, %rcx
	je	.LBB45_15
.LBB45_10:
	leaq	.Lstatic.0(%rip), %rdx
	movzwl	12(%rcx,%rdx), %r12d
	cmpw	%r12w, %ax
	ja	.LBB45_9
	movzwl	(%rcx,%rdx), %r13d
	movzwl	2(%rcx,%rdx), %r15d
	movzwl	18(%rcx,%rdx), %r8d
	movl	%esi, %r9d
	leaq	.LJTI45_0(%rip), %r10
	movslq	(%r10,%r9,4), %r9
	addq	%r10, %r9
	jmpq	*%r9
.LBB45_12:
	cmpw	%r15w, %r13w
	movl	%r13d, %r15d
	jne	.LBB45_9
	jmp	.LBB45_17
.LBB45_13:
	xorl	%ebp, %r13d
	xorl	%r11d, %r15d
	orw	%r13w, %r15w
	jne	.LBB45_9
	jmp	.LBB45_16
.LBB45_14:
	cmpw	$1, %r8w
	setne	%r9b
	cmpw	%r15w, %r13w
	setne	%r10b
	testb	%r9b, %r10b
	je	.LBB45_9
	jmp	.LBB45_17
.LBB45_15:
	movb	$1, %al
	xorl	%r13d, %r13d
	xorl	%r15d, %r15d
	xorl	%ebp, %ebp
	xorl	%r12d, %r12d
	xorl	%r11d, %r11d
	xorl	%r10d, %r10d
	movq	72(%rsp), %rsi
	jmp	.LBB45_57
.LBB45_16:
	movl	%ebp, %r13d
	movl	%r11d, %r15d
.LBB45_17:
	movq	4(%rcx,%rdx), %rbp
	movl	14(%rcx,%rdx), %r11d
	cmpw	$1, %r8w
	sete	%r10b
	cmpw	64(%rsp), %r12w
	jae	.LBB45_20
	movq	%r10, 88(%rsp)
	movq	%rbp, 64(%rsp)
	movl	%r11d, 84(%rsp)
	movq	$0, 56(%rsp)
	testb	%dil, %dil
	movq	72(%rsp), %rsi
	je	.LBB45_37
	leaq	56(%rsp), %rax
	movq	%rax, 40(%rsp)
	movq	%r12, 32(%rsp)
	movq	%r14, %rcx
	movq	%rbx, %rdx
	movq	312(%rsp), %rbp
	movq	%rbp, %r8
	movq	320(%rsp), %rdi
	movq	%rdi, %r9
	callq	"dm_words::smallest::parts::write_parts"
	leaq	(%r12,%r12), %rcx
	cmpq	%rbx, %rcx
	setb	%cl
	orb	%al, %cl
	je	.LBB45_38
	jmp	.LBB45_40
.LBB45_20:
	testq	%rbx, %rbx
	movq	72(%rsp), %rsi
	je	.LBB45_41
	xorl	%eax, %eax
	xorl	%ecx, %ecx
	movq	320(%rsp), %rdi
	.p2align	4
.LBB45_22:
	cmpb	$1, (%r14,%rcx,2)
	jne	.LBB45_28
	movzbl	1(%r14,%rcx,2), %edx
	leaq	1(%rcx), %r8
	cmpq	%rbx, %r8
	jae	.LBB45_29
	leal	-48(%rdx), %r8d
	cmpb	$9, %r8b
	ja	.LBB45_29
	cmpb	$1, 2(%r14,%rcx,2)
	jne	.LBB45_31
	movzbl	3(%r14,%rcx,2), %r8d
	leal	-48(%r8), %r9d
	cmpb	$10, %r9b
	jae	.LBB45_31
	movzbl	%dl, %edx
	addl	%edx, %edx
	leal	(%rdx,%rdx,4), %edx
	addb	%r8b, %dl
	addb	$114, %dl
	movb	%dl, (%rdi,%rax)
	incq	%rax
	movl	$2, %edx
	jmp	.LBB45_35
	.p2align	4
.LBB45_28:
	movb	$-24, (%rdi,%rax)
	jmp	.LBB45_33
	.p2align	4
.LBB45_29:
	testb	%dl, %dl
	movl	$1, %r9d
	movl	$129, %r8d
	cmovnsl	%r9d, %r8d
	addb	%dl, %r8b
	testb	%dl, %dl
	jns	.LBB45_32
	movb	$-21, (%rdi,%rax)
	movb	%r8b, 1(%rdi,%rax)
	addq	$2, %rax
	jmp	.LBB45_34
.LBB45_31:
	incb	%dl
	movl	%edx, %r8d
.LBB45_32:
	movb	%r8b, (%rdi,%rax)
.LBB45_33:
	incq	%rax
.LBB45_34:
	movl	$1, %edx
.LBB45_35:
	addq	%rdx, %rcx
	cmpq	%rbx, %rcx
	jb	.LBB45_22
	jmp	.LBB45_42
.LBB45_37:
	movl	52(%rsp), %eax
	movq	320(%rsp), %rdi
	movb	%al, (%rdi)
	movq	$1, 56(%rsp)
	leaq	14(%r14), %rcx
	leaq	-9(%rbx), %rdx
	leaq	56(%rsp), %rax
	movq	%rax, 40(%rsp)
	movq	%r12, 32(%rsp)
	movq	312(%rsp), %rbp
	movq	%rbp, %r8
	movq	%rdi, %r9
	callq	"dm_words::smallest::parts::write_parts"
	leal	(%r12,%r12), %eax
	cmpq	%rbx, %rax
	jb	.LBB45_40
.LBB45_38:
	movq	%rbp, 32(%rsp)
	xorl	%ecx, %ecx
	xorl	%edx, %edx
	movq	%r14, %r8
	movq	%rbx, %r9
	callq	"dm_words::smallest::plan::plan_to"
	cmpw	%ax, %r12w
	jb	.LBB45_40
	movq	$0, 56(%rsp)
	leaq	56(%rsp), %rax
	movq	%rax, 40(%rsp)
	movq	%r12, 32(%rsp)
	movq	%r14, %rcx
	movq	%rbx, %rdx
	movq	%rbp, %r8
	movq	%rdi, %r9
	callq	"dm_words::smallest::parts::write_parts"
.LBB45_40:
	movq	56(%rsp), %rax
	movl	84(%rsp), %r11d
	movq	64(%rsp), %rbp
	movq	88(%rsp), %r10
	jmp	.LBB45_42
.LBB45_41:
	xorl	%eax, %eax
	movq	320(%rsp), %rdi
.LBB45_42:
	cmpq	%r12, %rax
	jae	.LBB45_56
	movb	$-127, (%rdi,%rax)
	leaq	1(%rax), %rcx
	cmpq	%r12, %rcx
	jae	.LBB45_56
	notq	%rax
	addq	%r12, %rax
	cmpq	$4, %rax
	jb	.LBB45_55
	cmpq	$16, %rax
	jae	.LBB45_47
	xorl	%edx, %edx
	movq	%rcx, %r8
	jmp	.LBB45_52
.LBB45_47:
	movq	%r10, %rbx
	movq	%rax, %rdx
	andq	$-16, %rdx
	leaq	(%rcx,%rdx), %r8
	movd	%ecx, %xmm0
	pshufd	$0, %xmm0, %xmm1
	movdqa	.LCPI45_0(%rip), %xmm2
	paddd	%xmm1, %xmm2
	movdqa	.LCPI45_1(%rip), %xmm3
	paddd	%xmm1, %xmm3
	movdqa	.LCPI45_2(%rip), %xmm4
	paddd	%xmm1, %xmm4
	paddd	.LCPI45_3(%rip), %xmm1
	leaq	(%rdi,%rcx), %r9
	xorl	%r10d, %r10d
	.p2align	4
.LBB45_48:
	pcmpeqd	%xmm0, %xmm0
	movdqa	%xmm1, %xmm5
	psubd	%xmm0, %xmm5
	movdqa	%xmm4, %xmm7
	psubd	%xmm0, %xmm7
	movdqa	%xmm3, %xmm6
	psubd	%xmm0, %xmm6
	movdqa	%xmm2, %xmm8
	psubd	%xmm0, %xmm8
	pxor	%xmm0, %xmm0
	pblendw	$170, %xmm0, %xmm8
	pblendw	$170, %xmm0, %xmm6
	pblendw	$170, %xmm0, %xmm7
	pblendw	$170, %xmm0, %xmm5
	movdqa	.LCPI45_4(%rip), %xmm0
	pmulld	%xmm0, %xmm5
	pmulld	%xmm0, %xmm7
	pmulld	%xmm0, %xmm6
	pmulld	%xmm0, %xmm8
	pshufd	$245, %xmm8, %xmm9
	movdqa	.LCPI45_5(%rip), %xmm0
	pmuludq	%xmm0, %xmm9
	movdqa	%xmm8, %xmm10
	pmuludq	%xmm0, %xmm10
	pshufd	$245, %xmm10, %xmm10
	pblendw	$204, %xmm9, %xmm10
	movdqa	.LCPI45_6(%rip), %xmm9
	pmulld	%xmm9, %xmm10
	psubd	%xmm10, %xmm8
	pshufd	$245, %xmm6, %xmm10
	pmuludq	%xmm0, %xmm10
	movdqa	%xmm6, %xmm11
	pmuludq	%xmm0, %xmm11
	pshufd	$245, %xmm11, %xmm11
	pblendw	$204, %xmm10, %xmm11
	pmulld	%xmm9, %xmm11
	psubd	%xmm11, %xmm6
	pshufd	$245, %xmm7, %xmm10
	pmuludq	%xmm0, %xmm10
	movdqa	%xmm7, %xmm11
	pmuludq	%xmm0, %xmm11
	pshufd	$245, %xmm11, %xmm11
	pblendw	$204, %xmm10, %xmm11
	pmulld	%xmm9, %xmm11
	psubd	%xmm11, %xmm7
	pshufd	$245, %xmm5, %xmm10
	pmuludq	%xmm0, %xmm10
	pmuludq	%xmm5, %xmm0
	pshufd	$245, %xmm0, %xmm0
	pblendw	$204, %xmm10, %xmm0
	pmulld	%xmm9, %xmm0
	psubd	%xmm0, %xmm5
	movdqa	.LCPI45_7(%rip), %xmm9
	movdqa	%xmm9, %xmm0
	pcmpgtd	%xmm5, %xmm0
	movdqa	%xmm9, %xmm10
	pcmpgtd	%xmm7, %xmm10
	packssdw	%xmm10, %xmm0
	movdqa	%xmm9, %xmm10
	pcmpgtd	%xmm6, %xmm10
	pcmpgtd	%xmm8, %xmm9
	packssdw	%xmm9, %xmm10
	packsswb	%xmm10, %xmm0
	packusdw	%xmm7, %xmm5
	packusdw	%xmm8, %xmm6
	packuswb	%xmm6, %xmm5
	movdqa	.LCPI45_8(%rip), %xmm6
	pblendvb	%xmm0, .LCPI45_9(%rip), %xmm6
	paddb	%xmm5, %xmm6
	movdqu	%xmm6, (%r9,%r10)
	addq	$16, %r10
	movdqa	.LCPI45_10(%rip), %xmm0
	paddd	%xmm0, %xmm1
	paddd	%xmm0, %xmm4
	paddd	%xmm0, %xmm3
	paddd	%xmm0, %xmm2
	cmpq	%r10, %rdx
	jne	.LBB45_48
	cmpq	%rdx, %rax
	jne	.LBB45_51
	xorl	%eax, %eax
	movq	%rbx, %r10
	jmp	.LBB45_57
.LBB45_51:
	testb	$12, %al
	movq	%rbx, %r10
	je	.LBB45_58
.LBB45_52:
	movq	%rax, %r9
	andq	$-4, %r9
	movd	%r8d, %xmm0
	pshufd	$0, %xmm0, %xmm1
	paddd	.LCPI45_3(%rip), %xmm1
	leaq	(%rdi,%rcx), %r8
	addq	%r9, %rcx
	.p2align	4
.LBB45_53:
	pcmpeqd	%xmm3, %xmm3
	movdqa	%xmm1, %xmm0
	psubd	%xmm3, %xmm0
	pxor	%xmm2, %xmm2
	pblendw	$85, %xmm0, %xmm2
	pmulld	.LCPI45_4(%rip), %xmm2
	pshufd	$245, %xmm2, %xmm0
	movdqa	.LCPI45_5(%rip), %xmm4
	pmuludq	%xmm4, %xmm0
	pmuludq	%xmm2, %xmm4
	pshufd	$245, %xmm4, %xmm4
	pblendw	$204, %xmm0, %xmm4
	pmulld	.LCPI45_6(%rip), %xmm4
	psubd	%xmm4, %xmm2
	movdqa	%xmm2, %xmm0
	pcmpgtd	.LCPI45_11(%rip), %xmm0
	packssdw	%xmm0, %xmm0
	pxor	%xmm3, %xmm0
	packsswb	%xmm0, %xmm0
	movdqa	.LCPI45_12(%rip), %xmm3
	pblendvb	%xmm0, .LCPI45_13(%rip), %xmm3
	packusdw	%xmm2, %xmm2
	packuswb	%xmm2, %xmm2
	paddb	%xmm2, %xmm3
	movd	%xmm3, (%r8,%rdx)
	addq	$4, %rdx
	paddd	.LCPI45_14(%rip), %xmm1
	cmpq	%rdx, %r9
	jne	.LBB45_53
	cmpq	%r9, %rax
	je	.LBB45_56
	.p2align	4
.LBB45_55:
	movq	%rcx, %rax
	incq	%rcx
	movzwl	%cx, %edx
	imull	$149, %edx, %edx
	imulq	$16976156, %rdx, %r8
	shrq	$32, %r8
	imull	$253, %r8d, %r8d
	subl	%r8d, %edx
	cmpl	$125, %edx
	setae	%r8b
	addb	%r8b, %r8b
	addb	%dl, %r8b
	addb	$-126, %r8b
	movb	%r8b, (%rdi,%rax)
	cmpq	%rcx, %r12
	jne	.LBB45_55
.LBB45_56:
	xorl	%eax, %eax
.LBB45_57:
	movb	%al, (%rsi)
	movw	%r13w, 2(%rsi)
	movw	%r15w, 4(%rsi)
	movq	%rbp, 6(%rsi)
	movw	%r12w, 14(%rsi)
	movl	%r11d, 16(%rsi)
	movb	%r10b, 20(%rsi)
	movb	$0, 21(%rsi)
	movaps	96(%rsp), %xmm6
	movaps	112(%rsp), %xmm7
	movaps	128(%rsp), %xmm8
	movaps	144(%rsp), %xmm9
	movaps	160(%rsp), %xmm10
	movaps	176(%rsp), %xmm11
	addq	$200, %rsp
	popq	%rbx
	popq	%rbp
	popq	%rdi
	popq	%rsi
	popq	%r12
	popq	%r13
	popq	%r14
	popq	%r15
	retq
.LBB45_58:
	addq	%rdx, %rcx
	jmp	.LBB45_55
	.section	.rdata,"dr"
	.p2align	2, 0x0
.LJTI45_0:
	.long	.LBB45_12-.LJTI45_0
	.long	.LBB45_14-.LJTI45_0
	.long	.LBB45_8-.LJTI45_0
	.long	.LBB45_17-.LJTI45_0
	.long	.LBB45_13-.LJTI45_0
	.text
	.seh_endproc

	.def	"dm_words::smallest::plan::plan_to";
	.scl	3;
	.type	32;
	.endef
	.section	.rdata,"dr"
	.p2align	4, 0x0
.LCPI46_0:
	.short	16384
	.short	16384
	.short	16384
	.short	16384
	.short	16384
	.short	16384
	.short	16384
	.zero	2
.LCPI46_1:
	.short	1
	.short	0
	.short	0
	.short	2
	.short	0
	.short	0
	.short	65535
	.short	0
.LCPI46_2:
	.short	1
	.short	0
	.short	0
	.short	1
	.short	0
	.short	0
	.short	65535
	.short	0
.LCPI46_3:
	.short	16384
	.short	16384
	.short	16384
	.short	16384
	.short	16384
	.short	16384
	.short	16384
	.short	0
.LCPI46_4:
	.short	2
	.short	2
	.short	2
	.short	2
	.short	2
	.short	2
	.short	1
	.short	1
.LCPI46_5:
	.short	2
	.short	4
	.short	2
	.short	2
	.short	4
	.short	2
	.short	1
	.short	1
.LCPI46_6:
	.byte	2
	.byte	3
	.byte	4
	.byte	5
	.byte	0
	.byte	1
	.byte	8
	.byte	9
	.byte	10
	.byte	11
	.byte	6
	.byte	7
	.byte	12
	.byte	13
	.byte	14
	.byte	15
.LCPI46_7:
	.short	1
	.short	1
	.short	1
	.short	2
	.short	2
	.short	2
	.short	0
	.short	0
.LCPI46_8:
	.short	0
	.short	2
	.short	0
	.short	0
	.short	2
	.short	0
	.short	1
	.short	1
.LCPI46_9:
	.short	0
	.short	2
	.short	2
	.short	0
	.short	2
	.short	2
	.short	1
	.short	1
.LCPI46_10:
	.byte	4
	.byte	5
	.byte	0
	.byte	1
	.byte	2
	.byte	3
	.byte	10
	.byte	11
	.byte	6
	.byte	7
	.byte	8
	.byte	9
	.byte	12
	.byte	13
	.byte	14
	.byte	15
.LCPI46_11:
	.short	0
	.short	2
	.short	0
	.short	0
	.short	1
	.short	1
	.short	1
	.short	0
.LCPI46_12:
	.byte	2
	.byte	3
	.byte	4
	.byte	5
	.byte	0
	.byte	1
	.byte	8
	.byte	9
	.byte	10
	.byte	11
	.byte	12
	.byte	13
	.byte	6
	.byte	7
	.byte	14
	.byte	15
.LCPI46_13:
	.short	4
	.short	4
	.short	4
	.short	8
	.short	8
	.short	8
	.short	8
	.short	0
.LCPI46_14:
	.byte	4
	.byte	5
	.byte	0
	.byte	1
	.byte	2
	.byte	3
	.byte	10
	.byte	11
	.byte	6
	.byte	7
	.byte	8
	.byte	9
	.zero	1
	.zero	1
	.zero	1
	.zero	1
.LCPI46_15:
	.short	16384
	.short	16384
	.short	16384
	.short	16384
	.short	16384
	.short	16384
	.short	16384
	.short	16384
.LCPI46_16:
	.short	2
	.short	0
	.short	2
	.short	2
	.short	0
	.short	2
	.short	0
	.short	0
.LCPI46_17:
	.zero	2
	.zero	2
	.short	1
	.short	1
	.short	1
	.short	1
	.short	2
	.short	2
.LCPI46_18:
	.zero	2
	.zero	2
	.short	1
	.short	1
	.short	1
	.short	1
	.short	3
	.short	2
.LCPI46_19:
	.byte	14
	.byte	15
	.byte	14
	.byte	15
	.byte	0
	.byte	1
	.byte	6
	.byte	7
	.zero	1
	.zero	1
	.zero	1
	.zero	1
	.zero	1
	.zero	1
	.zero	1
	.zero	1
	.text
	.p2align	4
"dm_words::smallest::plan::plan_to":
.seh_proc "dm_words::smallest::plan::plan_to"
	pushq	%r15
	.seh_pushreg %r15
	pushq	%r14
	.seh_pushreg %r14
	pushq	%r13
	.seh_pushreg %r13
	pushq	%r12
	.seh_pushreg %r12
	pushq	%rsi
	.seh_pushreg %rsi
	pushq	%rdi
	.seh_pushreg %rdi
	pushq	%rbp
	.seh_pushreg %rbp
	pushq	%rbx
	.seh_pushreg %rbx
	pushq	%rax
	.seh_stackalloc 8
	.seh_endprologue
	movl	%edx, %eax
	xorl	%r10d, %r10d
	testw	%dx, %dx
	setne	%r10b
	movq	112(%rsp), %rdx
	shll	$14, %r10d
	movdqa	.LCPI46_0(%rip), %xmm2
	pinsrw	$7, %r10d, %xmm2
	movd	%eax, %xmm0
	pshuflw	$0, %xmm0, %xmm0
	pshufd	$68, %xmm0, %xmm1
	movdqa	.LCPI46_1(%rip), %xmm0
	pminuw	%xmm1, %xmm0
	pcmpeqw	%xmm1, %xmm0
	paddw	%xmm1, %xmm0
	pcmpeqd	%xmm3, %xmm3
	psubw	%xmm3, %xmm0
	pblendw	$182, %xmm3, %xmm0
	movdqa	.LCPI46_2(%rip), %xmm4
	pminuw	%xmm1, %xmm4
	pcmpeqw	%xmm1, %xmm4
	paddw	%xmm1, %xmm4
	psubw	%xmm3, %xmm4
	pblendw	$182, %xmm3, %xmm4
	pminuw	%xmm4, %xmm2
	pcmpeqw	%xmm2, %xmm4
	packsswb	%xmm4, %xmm4
	pmovmskb	%xmm4, %r11d
	movdqa	.LCPI46_3(%rip), %xmm1
	pminuw	%xmm0, %xmm1
	pcmpeqw	%xmm1, %xmm0
	packsswb	%xmm0, %xmm0
	pmovmskb	%xmm0, %esi
	leaq	(%r9,%r9,2), %r10
	movb	$0, (%rdx,%r10)
	movb	%r11b, 1(%rdx,%r10)
	movb	%sil, 2(%rdx,%r10)
	testq	%r9, %r9
	je	.LBB46_1
	xorl	%r11d, %r11d
	cmpb	$1, %cl
	sete	%r11b
	leal	7(,%r11,8), %ecx
	movl	%ecx, 4(%rsp)
	addq	%rdx, %r10
	decq	%r10
	movw	$16384, %r15w
	xorl	%r14d, %r14d
	xorl	%edx, %edx
	xorl	%ebp, %ebp
	xorl	%esi, %esi
	movl	%eax, %r11d
	jmp	.LBB46_3
	.p2align	4
.LBB46_11:
	movdqa	.LCPI46_18(%rip), %xmm0
.LBB46_12:
	decq	%r9
	andb	%al, %bl
	incl	%r15d
	movzbl	%dl, %edx
	leal	(%r11,%rdx), %eax
	incl	%ebp
	addl	%edi, %edx
	testb	%bl, %r14b
	movl	$16384, %ecx
	cmovnel	%r15d, %ecx
	pinsrw	$0, %ecx, %xmm0
	pinsrw	$1, %eax, %xmm0
	movdqa	%xmm1, %xmm2
	pshufb	.LCPI46_19(%rip), %xmm2
	pshuflw	$236, %xmm3, %xmm4
	pshufd	$236, %xmm4, %xmm4
	punpckldq	%xmm4, %xmm2
	paddw	%xmm0, %xmm2
	phminposuw	%xmm2, %xmm0
	movd	%xmm0, %eax
	cmovnel	%ebp, %edx
	andl	$32767, %eax
	movd	%eax, %xmm0
	pshuflw	$0, %xmm0, %xmm0
	pshufd	$68, %xmm0, %xmm0
	pcmpeqw	%xmm0, %xmm2
	packsswb	%xmm2, %xmm2
	pmovmskb	%xmm2, %ecx
	movzbl	%cl, %ecx
	movl	$64, %r14d
	rep		bsfq	%rcx, %r14
	movdqa	.LCPI46_2(%rip), %xmm4
	pminuw	%xmm0, %xmm4
	pcmpeqw	%xmm0, %xmm4
	paddw	%xmm0, %xmm4
	pcmpeqd	%xmm5, %xmm5
	psubw	%xmm5, %xmm4
	pblendw	$182, %xmm5, %xmm4
	movdqa	%xmm3, %xmm2
	pminuw	%xmm4, %xmm2
	pcmpeqw	%xmm2, %xmm4
	packsswb	%xmm4, %xmm4
	pmovmskb	%xmm4, %ebp
	movdqa	.LCPI46_1(%rip), %xmm4
	pminuw	%xmm0, %xmm4
	pcmpeqw	%xmm0, %xmm4
	paddw	%xmm0, %xmm4
	psubw	%xmm5, %xmm4
	pblendw	$182, %xmm5, %xmm4
	pminuw	%xmm4, %xmm1
	pcmpeqw	%xmm1, %xmm4
	packsswb	%xmm4, %xmm4
	movb	%r14b, -2(%r10)
	pextrw	$6, %xmm3, %ecx
	xorl	%r14d, %r14d
	cmpw	%cx, %ax
	pmovmskb	%xmm4, %ecx
	cmovbel	%r14d, %esi
	movb	%bpl, -1(%r10)
	movb	%cl, (%r10)
	addq	$-3, %r10
	movl	%ebx, %r14d
	movl	%edi, %ebp
	movl	%r11d, %r15d
	movl	%eax, %r11d
	testq	%r9, %r9
	je	.LBB46_13
.LBB46_3:
	movl	%edx, %edi
	movzbl	-2(%r8,%r9,2), %edx
	movzbl	-1(%r8,%r9,2), %r12d
	testb	%dl, %dl
	setne	%bl
	leal	-48(%r12), %eax
	cmpb	$10, %al
	setb	%al
	movzbl	%r12b, %r12d
	testb	%dl, %dl
	je	.LBB46_4
	testb	%r12b, %r12b
	js	.LBB46_7
	leaq	.Lstatic.51(%rip), %r13
	movzbl	(%r12,%r13), %r13d
	movdqa	.LCPI46_8(%rip), %xmm3
	paddw	%xmm2, %xmm3
	pshufb	.LCPI46_6(%rip), %xmm3
	paddw	.LCPI46_9(%rip), %xmm2
	pshufb	.LCPI46_10(%rip), %xmm2
	movd	%r13d, %xmm0
	pshuflw	$0, %xmm0, %xmm0
	pshufd	$68, %xmm0, %xmm4
	pand	.LCPI46_7(%rip), %xmm4
	pxor	%xmm0, %xmm0
	pcmpeqw	%xmm4, %xmm0
	pblendvb	%xmm0, %xmm2, %xmm3
	jmp	.LBB46_8
	.p2align	4
.LBB46_4:
	pshufb	.LCPI46_14(%rip), %xmm2
	pblendw	$192, .LCPI46_15(%rip), %xmm2
	paddw	.LCPI46_16(%rip), %xmm2
	movdqa	.LCPI46_3(%rip), %xmm1
	xorl	%esi, %esi
	movdqa	%xmm2, %xmm3
	jmp	.LBB46_9
	.p2align	4
.LBB46_7:
	movl	%r12d, %r13d
	andl	$127, %r13d
	leaq	.Lstatic.51(%rip), %rcx
	movdqa	.LCPI46_4(%rip), %xmm3
	paddw	%xmm2, %xmm3
	paddw	.LCPI46_5(%rip), %xmm2
	pshufb	.LCPI46_6(%rip), %xmm2
	movzbl	(%r13,%rcx), %r13d
	movd	%r13d, %xmm0
	pshuflw	$0, %xmm0, %xmm0
	pshufd	$68, %xmm0, %xmm4
	pand	.LCPI46_7(%rip), %xmm4
	pxor	%xmm0, %xmm0
	pcmpeqw	%xmm4, %xmm0
	pblendvb	%xmm0, %xmm2, %xmm3
	movzbl	(%r12,%rcx), %r13d
.LBB46_8:
	movzwl	4(%rsp), %ecx
	movzwl	%r13w, %r13d
	paddw	.LCPI46_11(%rip), %xmm1
	andl	%ecx, %r13d
	pshufb	.LCPI46_12(%rip), %xmm1
	movd	%r13d, %xmm0
	pshuflw	$0, %xmm0, %xmm0
	pshufd	$68, %xmm0, %xmm2
	pand	.LCPI46_13(%rip), %xmm2
	pxor	%xmm0, %xmm0
	pcmpeqw	%xmm2, %xmm0
	pblendvb	%xmm0, .LCPI46_3(%rip), %xmm1
	incl	%esi
.LBB46_9:
	shrb	$7, %r12b
	incb	%r12b
	testb	%dl, %dl
	movzbl	%r12b, %ecx
	movl	$1, %edx
	cmovnel	%ecx, %edx
	movzwl	%si, %ecx
	cmpl	$250, %ecx
	jae	.LBB46_11
	movdqa	.LCPI46_17(%rip), %xmm0
	jmp	.LBB46_12
.LBB46_1:
	xorl	%edx, %edx
.LBB46_13:
	addq	$8, %rsp
	popq	%rbx
	popq	%rbp
	popq	%rdi
	popq	%rsi
	popq	%r12
	popq	%r13
	popq	%r14
	popq	%r15
	retq
	.seh_endproc

	.def	"dm_words::macros::is_framed";
	.scl	3;
	.type	32;
	.endef
	.p2align	4
"dm_words::macros::is_framed":
	cmpq	$8, %rdx
	ja	.LBB47_3
.LBB47_1:
	xorl	%eax, %eax
.LBB47_2:
	retq
.LBB47_3:
	xorl	%eax, %eax
	cmpb	$1, (%rcx)
	jne	.LBB47_2
	cmpb	$91, 1(%rcx)
	jne	.LBB47_2
	xorl	%eax, %eax
	cmpb	$1, 2(%rcx)
	jne	.LBB47_2
	cmpb	$41, 3(%rcx)
	jne	.LBB47_2
	xorl	%eax, %eax
	cmpb	$1, 4(%rcx)
	jne	.LBB47_2
	cmpb	$62, 5(%rcx)
	jne	.LBB47_2
	xorl	%eax, %eax
	cmpb	$1, 6(%rcx)
	jne	.LBB47_2
	cmpb	$30, 7(%rcx)
	jne	.LBB47_2
	xorl	%eax, %eax
	cmpb	$1, 8(%rcx)
	jne	.LBB47_2
	cmpb	$48, 9(%rcx)
	jne	.LBB47_2
	xorl	%eax, %eax
	cmpb	$1, 10(%rcx)
	jne	.LBB47_2
	cmpb	%r8b, 11(%rcx)
	jne	.LBB47_2
	xorl	%eax, %eax
	cmpb	$1, 12(%rcx)
	jne	.LBB47_2
	cmpb	$29, 13(%rcx)
	jne	.LBB47_2
	cmpq	$9, %rdx
	je	.LBB47_19
	cmpb	$0, 14(%rcx)
	je	.LBB47_1
.LBB47_19:
	xorl	%eax, %eax
	cmpb	$1, -4(%rcx,%rdx,2)
	jne	.LBB47_2
	cmpb	$30, -3(%rcx,%rdx,2)
	jne	.LBB47_2
	movzbl	-2(%rcx,%rdx,2), %eax
	movzbl	-1(%rcx,%rdx,2), %ecx
	xorb	$1, %al
	xorb	$4, %cl
	orb	%al, %cl
	sete	%al
	retq

	.def	"dm_words::smallest::parts::write_parts";
	.scl	3;
	.type	32;
	.endef
	.p2align	4
"dm_words::smallest::parts::write_parts":
.seh_proc "dm_words::smallest::parts::write_parts"
	pushq	%r15
	.seh_pushreg %r15
	pushq	%r14
	.seh_pushreg %r14
	pushq	%r13
	.seh_pushreg %r13
	pushq	%r12
	.seh_pushreg %r12
	pushq	%rsi
	.seh_pushreg %rsi
	pushq	%rdi
	.seh_pushreg %rdi
	pushq	%rbp
	.seh_pushreg %rbp
	pushq	%rbx
	.seh_pushreg %rbx
	subq	$72, %rsp
	.seh_stackalloc 72
	.seh_endprologue
	testq	%rdx, %rdx
	je	.LBB48_34
	movq	%r9, %rsi
	movq	%r8, %r15
	movq	%rdx, %rdi
	movq	%rcx, %r12
	movq	184(%rsp), %rbp
	leaq	5(%r8), %r14
	movb	$1, %bl
	xorl	%eax, %eax
	movq	%rdx, 64(%rsp)
	jmp	.LBB48_6
.LBB48_2:
	movb	$2, %r8b
.LBB48_3:
	movq	%rbp, 48(%rsp)
	movq	176(%rsp), %rcx
	movq	%rcx, 40(%rsp)
	movq	%rsi, 32(%rsp)
	movq	%r12, %rcx
	movq	%rax, %rdx
	movq	%r15, %r9
	callq	"dm_words::smallest::run::write_run"
.LBB48_4:
	movb	$1, %cl
.LBB48_5:
	andb	%cl, %bl
	cmpq	%rdi, %rax
	jae	.LBB48_35
.LBB48_6:
	leaq	(%rax,%rax,2), %rcx
	movzbl	(%r15,%rcx), %edx
	cmpq	$6, %rdx
	ja	.LBB48_36
	leaq	.LJTI48_0(%rip), %r8
	movslq	(%r8,%rdx,4), %rdx
	addq	%r8, %rdx
	jmpq	*%rdx
.LBB48_8:
	movzbl	1(%r12,%rax,2), %ecx
	addl	%ecx, %ecx
	xorl	%edx, %edx
	cmpb	$1, (%r12,%rax,2)
	movzbl	3(%r12,%rax,2), %r8d
	leal	(%rcx,%rcx,4), %ecx
	cmovnel	%edx, %ecx
	addb	$114, %r8b
	cmpb	$1, 2(%r12,%rax,2)
	movzbl	%r8b, %edx
	movl	$114, %r8d
	cmovel	%edx, %r8d
	addb	%cl, %r8b
	movq	(%rbp), %rcx
	movb	%r8b, (%rsi,%rcx)
	incq	(%rbp)
	addq	$2, %rax
	jmp	.LBB48_4
.LBB48_9:
	xorl	%r8d, %r8d
	jmp	.LBB48_3
.LBB48_10:
	movb	$1, %r8b
	jmp	.LBB48_3
.LBB48_11:
	movzbl	1(%r12,%rax,2), %ecx
	movl	%ecx, %edx
	shrb	$6, %dl
	andb	$2, %dl
	testb	%cl, %cl
	movl	$1, %r8d
	movl	$129, %r9d
	cmovnsl	%r8d, %r9d
	addb	%cl, %r9b
	xorl	%r10d, %r10d
	cmpb	$0, (%r12,%rax,2)
	movzbl	%dl, %ecx
	movl	$3, %r8d
	cmovnel	%ecx, %r8d
	movzbl	%r9b, %ecx
	cmovel	%r10d, %ecx
	movq	(%rbp), %rdx
	cmpb	$3, %r8b
	je	.LBB48_31
	movzbl	%r8b, %r8d
	cmpl	$2, %r8d
	jne	.LBB48_32
	movb	$-21, (%rsi,%rdx)
	movq	(%rbp), %rdx
	leaq	1(%rdx), %r8
	movq	%r8, (%rbp)
	movb	%cl, 1(%rsi,%rdx)
	jmp	.LBB48_33
.LBB48_14:
	movq	(%rbp), %rcx
	movb	$-16, (%rsi,%rcx)
	movq	(%rbp), %rcx
	incq	%rcx
	movq	%rcx, (%rbp)
	jmp	.LBB48_16
	.p2align	4
.LBB48_15:
	testb	$8, (%r11)
	jne	.LBB48_26
.LBB48_16:
	movzbl	1(%r12,%rax,2), %edx
	andb	$63, %dl
	xorl	%r8d, %r8d
	cmpb	$1, (%r12,%rax,2)
	movzbl	%dl, %edx
	cmovnel	%r8d, %edx
	movb	$1, %r8b
.LBB48_17:
	leaq	(%rax,%rax,2), %r11
	incq	%rax
	addq	%r14, %r11
	xorl	%r10d, %r10d
	xorl	%r9d, %r9d
	.p2align	4
.LBB48_18:
	movzbl	%r8b, %r13d
	leal	-1(%r13), %edi
	cmpl	$2, %edi
	jae	.LBB48_20
	movzbl	1(%r12,%rax,2), %r9d
	andb	$63, %r9b
	xorl	%edi, %edi
	cmpb	$1, (%r12,%rax,2)
	movzbl	%r9b, %r9d
	cmovnel	%edi, %r9d
	cmpb	$2, %r8b
	movzbl	%r10b, %r10d
	cmovnel	%r9d, %r10d
	cmovnel	%edi, %r9d
	sete	%r8b
	orb	$2, %r8b
	incq	%rax
	addq	$3, %r11
	jmp	.LBB48_18
	.p2align	4
.LBB48_20:
	cmpl	$3, %r13d
	jne	.LBB48_15
	testb	$64, (%r11)
	jne	.LBB48_28
	movzbl	1(%r12,%rax,2), %r11d
	andb	$63, %r11b
	xorl	%r8d, %r8d
	cmpb	$1, (%r12,%rax,2)
	movzbl	%r11b, %r11d
	cmovnel	%r8d, %r11d
	shlb	$2, %dl
	movl	%r10d, %edi
	shrb	$4, %dil
	addb	%dl, %dil
	movb	%dil, (%rsi,%rcx)
	movq	(%rbp), %rcx
	leaq	1(%rcx), %rdx
	movq	%rdx, (%rbp)
	shlb	$4, %r10b
	movl	%r9d, %edx
	shrb	$2, %dl
	addb	%r10b, %dl
	movb	%dl, 1(%rsi,%rcx)
	movq	(%rbp), %rcx
	leaq	1(%rcx), %rdx
	movq	%rdx, (%rbp)
	shlb	$6, %r9b
	orb	%r11b, %r9b
	movb	%r9b, 1(%rsi,%rcx)
	movq	(%rbp), %rcx
	incq	%rcx
	movq	%rcx, (%rbp)
	xorl	%edx, %edx
	jmp	.LBB48_17
.LBB48_23:
	leaq	4(%r15), %rdx
	addq	%rdx, %rcx
	xorl	%r13d, %r13d
	.p2align	4
.LBB48_24:
	incq	%r13
	testb	$64, (%rcx)
	leaq	3(%rcx), %rcx
	je	.LBB48_24
	leaq	(%r12,%rax,2), %rcx
	movq	%rbp, 32(%rsp)
	movq	%r13, %rdx
	movq	%rsi, %r8
	movq	176(%rsp), %r9
	movq	%rax, %rdi
	callq	"dm_words::smallest::segment::write_segment"
	movq	%rdi, %rax
	addq	%r13, %rax
	movb	$1, %cl
	movq	64(%rsp), %rdi
	jmp	.LBB48_5
.LBB48_26:
	movq	176(%rsp), %rdx
	subq	%rcx, %rdx
	cmpq	$3, %rdx
	jb	.LBB48_30
	movb	$124, (%rsi,%rcx)
	jmp	.LBB48_29
.LBB48_28:
	shlb	$2, %dl
	movl	%r10d, %r8d
	shrb	$4, %r8b
	addb	%dl, %r8b
	movb	%r8b, (%rsi,%rcx)
	movq	(%rbp), %rcx
	leaq	1(%rcx), %rdx
	movq	%rdx, (%rbp)
	shlb	$4, %r10b
	movl	%r9d, %edx
	shrb	$2, %dl
	addb	%r10b, %dl
	movb	%dl, 1(%rsi,%rcx)
	movq	(%rbp), %rcx
	leaq	1(%rcx), %rdx
	movq	%rdx, (%rbp)
	shlb	$6, %r9b
	orb	$31, %r9b
	movb	%r9b, 1(%rsi,%rcx)
.LBB48_29:
	incq	(%rbp)
.LBB48_30:
	xorl	%ecx, %ecx
	movq	64(%rsp), %rdi
	jmp	.LBB48_5
.LBB48_31:
	movb	$-24, (%rsi,%rdx)
	jmp	.LBB48_33
.LBB48_32:
	movb	%cl, (%rsi,%rdx)
.LBB48_33:
	incq	(%rbp)
	incq	%rax
	jmp	.LBB48_4
.LBB48_34:
	movb	$1, %bl
.LBB48_35:
	andb	$1, %bl
	movl	%ebx, %eax
	addq	$72, %rsp
	popq	%rbx
	popq	%rbp
	popq	%rdi
	popq	%rsi
	popq	%r12
	popq	%r13
	popq	%r14
	popq	%r15
	retq
.LBB48_36:
	leaq	(%r12,%rax,2), %rcx
	subq	%rax, %rdi
	movq	%rbp, 32(%rsp)
	movq	%rdi, %rdx
	movq	%rsi, %r8
	movq	176(%rsp), %r9
	callq	"dm_words::smallest::segment::write_segment"
	jmp	.LBB48_35
	.section	.rdata,"dr"
	.p2align	2, 0x0
.LJTI48_0:
	.long	.LBB48_8-.LJTI48_0
	.long	.LBB48_11-.LJTI48_0
	.long	.LBB48_9-.LJTI48_0
	.long	.LBB48_10-.LJTI48_0
	.long	.LBB48_2-.LJTI48_0
	.long	.LBB48_14-.LJTI48_0
	.long	.LBB48_23-.LJTI48_0
	.text
	.seh_endproc

	.def	"dm_words::smallest::run::write_run";
	.scl	3;
	.type	32;
	.endef
	.p2align	4
"dm_words::smallest::run::write_run":
.seh_proc "dm_words::smallest::run::write_run"
	pushq	%r15
	.seh_pushreg %r15
	pushq	%r14
	.seh_pushreg %r14
	pushq	%r13
	.seh_pushreg %r13
	pushq	%r12
	.seh_pushreg %r12
	pushq	%rsi
	.seh_pushreg %rsi
	pushq	%rdi
	.seh_pushreg %rdi
	pushq	%rbp
	.seh_pushreg %rbp
	pushq	%rbx
	.seh_pushreg %rbx
	subq	$56, %rsp
	.seh_stackalloc 56
	.seh_endprologue
	movl	%r8d, %esi
	movq	%rcx, %rdi
	leal	(,%rsi,8), %ecx
	movl	$15658982, %eax
	shrl	%cl, %eax
	movq	%r9, %r14
	movq	176(%rsp), %r15
	movq	160(%rsp), %rbp
	movq	(%r15), %rcx
	movb	%al, (%rbp,%rcx)
	incq	(%r15)
	movq	%rdx, %rbx
	movq	168(%rsp), %r12
	movzbl	(%rdi,%rdx,2), %edx
	movzbl	1(%rdi,%rbx,2), %r8d
	movq	%r15, 48(%rsp)
	movq	%rbp, 40(%rsp)
	movw	$0, 32(%rsp)
	movl	%esi, %ecx
	xorl	%r9d, %r9d
	callq	"dm_words::smallest::run::push_spelling"
	cmpb	$1, %sil
	setne	%r13b
	shlb	$5, %r13b
	orb	$-97, %r13b
	leaq	(%rbx,%rbx,2), %rcx
	incq	%rbx
	addq	%rcx, %r14
	addq	$5, %r14
	jmp	.LBB49_1
	.p2align	4
.LBB49_26:
	movq	%r15, 48(%rsp)
	movq	%rbp, 40(%rsp)
	movw	%dx, 32(%rsp)
	movl	%esi, %ecx
	movl	%r9d, %edx
	movl	%eax, %r9d
	callq	"dm_words::smallest::run::push_spelling"
.LBB49_25:
	incq	%rbx
	addq	$3, %r14
.LBB49_1:
	testb	%al, %al
	jne	.LBB49_9
	cmpb	$2, %sil
	je	.LBB49_6
	movzbl	%sil, %ecx
	cmpl	$1, %ecx
	jne	.LBB49_4
	movzbl	-1(%r14), %ecx
	andb	$8, %cl
	jmp	.LBB49_8
.LBB49_6:
	movzbl	(%r14), %ecx
	jmp	.LBB49_7
.LBB49_4:
	movzbl	-1(%r14), %ecx
.LBB49_7:
	andb	$1, %cl
.LBB49_8:
	testb	%cl, %cl
	jne	.LBB49_27
.LBB49_9:
	movzbl	(%rdi,%rbx,2), %r9d
	movzbl	1(%rdi,%rbx,2), %r8d
	cmpb	$1, %r9b
	jne	.LBB49_26
	leal	(%r8,%r13), %ecx
	cmpb	$25, %cl
	ja	.LBB49_12
	addb	$14, %cl
	jmp	.LBB49_22
	.p2align	4
.LBB49_12:
	movb	$3, %cl
	cmpl	$32, %r8d
	je	.LBB49_22
	leal	-48(%r8), %ecx
	cmpb	$9, %cl
	ja	.LBB49_15
	addb	$-44, %r8b
	movl	%r8d, %ecx
	.p2align	4
.LBB49_22:
	shll	$3, %edx
	leal	(%rdx,%rdx,4), %r8d
	movzbl	%cl, %edx
	addl	%r8d, %edx
	cmpb	$1, %al
	ja	.LBB49_24
	incb	%al
	jmp	.LBB49_25
	.p2align	4
.LBB49_24:
	incl	%edx
	movq	(%r15), %rax
	movb	%dh, (%rbp,%rax)
	movq	(%r15), %rax
	leaq	1(%rax), %rcx
	movq	%rcx, (%r15)
	movb	%dl, 1(%rbp,%rax)
	incq	(%r15)
	xorl	%edx, %edx
	xorl	%eax, %eax
	jmp	.LBB49_25
.LBB49_15:
	cmpb	$2, %sil
	jne	.LBB49_26
	cmpl	$13, %r8d
	je	.LBB49_17
	cmpl	$62, %r8d
	je	.LBB49_21
	cmpl	$42, %r8d
	jne	.LBB49_26
	movb	$1, %cl
	jmp	.LBB49_22
.LBB49_21:
	movb	$2, %cl
	jmp	.LBB49_22
.LBB49_17:
	xorl	%ecx, %ecx
	jmp	.LBB49_22
.LBB49_27:
	movq	(%r15), %rax
	subq	%rax, %r12
	cmpq	$2, %r12
	jb	.LBB49_29
	movb	$-2, (%rbp,%rax)
	incq	(%r15)
.LBB49_29:
	movq	%rbx, %rax
	addq	$56, %rsp
	popq	%rbx
	popq	%rbp
	popq	%rdi
	popq	%rsi
	popq	%r12
	popq	%r13
	popq	%r14
	popq	%r15
	retq
	.seh_endproc

	.def	"dm_words::smallest::run::push_spelling";
	.scl	3;
	.type	32;
	.endef
	.p2align	4
"dm_words::smallest::run::push_spelling":
.seh_proc "dm_words::smallest::run::push_spelling"
	pushq	%rsi
	.seh_pushreg %rsi
	pushq	%rdi
	.seh_pushreg %rdi
	subq	$16, %rsp
	.seh_stackalloc 16
	.seh_endprologue
	movl	%r9d, %eax
	movl	$2, %r9d
	movb	$1, %r10b
	testb	%dl, %dl
	je	.LBB50_4
	testb	%r8b, %r8b
	js	.LBB50_6
	cmpb	$1, %cl
	setne	%dl
	shlb	$5, %dl
	addb	%r8b, %dl
	addb	$-97, %dl
	cmpb	$25, %dl
	ja	.LBB50_8
	addb	$14, %dl
	movl	$1, %r9d
	xorl	%r11d, %r11d
	xorl	%esi, %esi
	xorl	%r8d, %r8d
	movl	%edx, %r10d
	jmp	.LBB50_16
.LBB50_4:
	movb	$27, %r11b
.LBB50_5:
	xorl	%esi, %esi
	xorl	%r8d, %r8d
	jmp	.LBB50_16
.LBB50_6:
	andb	$127, %r8b
	cmpb	$1, %cl
	setne	%sil
	shlb	$5, %sil
	addb	%r8b, %sil
	addb	$-97, %sil
	cmpb	$25, %sil
	ja	.LBB50_10
	addb	$14, %sil
	movl	$3, %r9d
	movb	$30, %r11b
	xorl	%r8d, %r8d
	jmp	.LBB50_16
.LBB50_8:
	cmpb	$32, %r8b
	jne	.LBB50_12
	movb	$3, %r10b
	jmp	.LBB50_14
.LBB50_10:
	movl	$3, %r9d
	movb	$30, %r11b
	cmpb	$32, %r8b
	jne	.LBB50_22
	movb	$3, %sil
	xorl	%r8d, %r8d
	jmp	.LBB50_16
.LBB50_12:
	leal	-48(%r8), %edx
	cmpb	$9, %dl
	ja	.LBB50_24
	movl	%r8d, %r10d
	addb	$-44, %r10b
.LBB50_14:
	xorl	%r11d, %r11d
	xorl	%esi, %esi
	xorl	%r8d, %r8d
.LBB50_15:
	movl	$1, %r9d
.LBB50_16:
	movq	88(%rsp), %rcx
	movq	80(%rsp), %rdi
	movzwl	72(%rsp), %edx
	movb	%r10b, (%rsp)
	movb	%r11b, 1(%rsp)
	movb	%sil, 2(%rsp)
	movb	%r8b, 3(%rsp)
	movl	$0, 4(%rsp)
	movq	%r9, 8(%rsp)
	xorl	%r8d, %r8d
	jmp	.LBB50_19
	.p2align	4
.LBB50_17:
	incl	%edx
	movq	(%rcx), %rax
	movb	%dh, (%rdi,%rax)
	movq	(%rcx), %rax
	leaq	1(%rax), %r10
	movq	%r10, (%rcx)
	movb	%dl, 1(%rdi,%rax)
	incq	(%rcx)
	xorl	%edx, %edx
	xorl	%eax, %eax
.LBB50_18:
	incq	%r8
	cmpq	%r8, %r9
	je	.LBB50_21
.LBB50_19:
	movzbl	(%rsp,%r8), %r10d
	shll	$3, %edx
	leal	(%rdx,%rdx,4), %edx
	addl	%r10d, %edx
	cmpb	$1, %al
	ja	.LBB50_17
	incb	%al
	jmp	.LBB50_18
.LBB50_21:
	addq	$16, %rsp
	popq	%rdi
	popq	%rsi
	retq
.LBB50_22:
	leal	-48(%r8), %edx
	cmpb	$9, %dl
	ja	.LBB50_30
	addb	$-44, %r8b
	movl	%r8d, %esi
	xorl	%r8d, %r8d
	jmp	.LBB50_16
.LBB50_24:
	cmpb	$2, %cl
	jne	.LBB50_28
	cmpb	$13, %r8b
	je	.LBB50_44
	movzbl	%r8b, %ecx
	cmpl	$62, %ecx
	je	.LBB50_43
	cmpl	$42, %ecx
	je	.LBB50_14
.LBB50_28:
	cmpb	$32, %r8b
	jae	.LBB50_37
	xorl	%esi, %esi
	movl	%r8d, %r11d
	xorl	%r8d, %r8d
	xorl	%r10d, %r10d
	jmp	.LBB50_16
.LBB50_30:
	cmpb	$2, %cl
	jne	.LBB50_35
	cmpb	$13, %r8b
	je	.LBB50_5
	movzbl	%r8b, %ecx
	cmpl	$62, %ecx
	je	.LBB50_50
	cmpl	$42, %ecx
	jne	.LBB50_35
	movb	$1, %sil
	xorl	%r8d, %r8d
	movb	$1, %r10b
	jmp	.LBB50_16
.LBB50_35:
	movl	$4, %r9d
	cmpb	$32, %r8b
	jae	.LBB50_39
	xorl	%esi, %esi
	jmp	.LBB50_16
.LBB50_37:
	cmpb	$47, %r8b
	ja	.LBB50_41
	addb	$-33, %r8b
	jmp	.LBB50_59
.LBB50_39:
	cmpb	$47, %r8b
	ja	.LBB50_45
	addb	$-33, %r8b
	jmp	.LBB50_47
.LBB50_41:
	cmpb	$64, %r8b
	ja	.LBB50_48
	addb	$-43, %r8b
	jmp	.LBB50_59
.LBB50_43:
	movb	$2, %r10b
	jmp	.LBB50_14
.LBB50_44:
	xorl	%r11d, %r11d
	xorl	%esi, %esi
	xorl	%r8d, %r8d
	xorl	%r10d, %r10d
	jmp	.LBB50_15
.LBB50_45:
	cmpb	$64, %r8b
	ja	.LBB50_51
	addb	$-43, %r8b
.LBB50_47:
	movb	$1, %sil
	movb	$1, %r10b
	jmp	.LBB50_16
.LBB50_48:
	cmpb	$90, %r8b
	ja	.LBB50_53
	addb	$-64, %r8b
	jmp	.LBB50_58
.LBB50_50:
	movb	$2, %sil
	xorl	%r8d, %r8d
	jmp	.LBB50_16
.LBB50_51:
	cmpb	$90, %r8b
	ja	.LBB50_55
	addb	$-64, %r8b
	jmp	.LBB50_61
.LBB50_53:
	cmpb	$95, %r8b
	ja	.LBB50_57
	addb	$-69, %r8b
	jmp	.LBB50_59
.LBB50_55:
	cmpb	$95, %r8b
	ja	.LBB50_60
	addb	$-69, %r8b
	jmp	.LBB50_47
.LBB50_57:
	addb	$-96, %r8b
.LBB50_58:
	movb	$2, %r10b
.LBB50_59:
	xorl	%esi, %esi
	movl	%r8d, %r11d
	xorl	%r8d, %r8d
	jmp	.LBB50_16
.LBB50_60:
	addb	$-96, %r8b
.LBB50_61:
	movb	$2, %sil
	jmp	.LBB50_16
	.seh_endproc

	.def	"dm_words::smallest::segment::write_segment";
	.scl	3;
	.type	32;
	.endef
	.p2align	4
"dm_words::smallest::segment::write_segment":
.seh_proc "dm_words::smallest::segment::write_segment"
	pushq	%rsi
	.seh_pushreg %rsi
	pushq	%rdi
	.seh_pushreg %rdi
	.seh_endprologue
	movq	56(%rsp), %r10
	movq	(%r10), %rax
	movb	$-25, (%r8,%rax)
	movq	(%r10), %r11
	incq	%r11
	movq	%r11, (%r10)
	cmpq	$250, %rdx
	jb	.LBB51_5
	leaq	(%rdx,%r11), %rax
	incq	%rax
	cmpq	%r9, %rax
	jne	.LBB51_3
	imull	$149, %r11d, %eax
	movl	%eax, %r9d
	addl	$149, %eax
	movl	$2155905153, %esi
	imulq	%rax, %rsi
	shrq	$39, %rsi
	leal	(%r9,%rsi), %eax
	addl	$149, %eax
	incb	%al
	movb	%al, (%r8,%r11)
	jmp	.LBB51_4
.LBB51_5:
	imull	$149, %r11d, %eax
	movl	%eax, %r9d
	addl	$149, %eax
	movl	$2155905153, %esi
	imulq	%rax, %rsi
	shrq	$39, %rsi
	leal	(%r9,%rsi), %eax
	addl	$149, %eax
	addb	%dl, %al
	incb	%al
	movb	%al, (%r8,%r11)
	movq	(%r10), %rax
	incq	%rax
	movq	%rax, (%r10)
	testq	%rdx, %rdx
	jne	.LBB51_6
	jmp	.LBB51_8
.LBB51_3:
	movq	%rdx, %rax
	shrq	%rax
	movabsq	$2361183241434822607, %rsi
	movq	%rdx, %r9
	mulq	%rsi
	movq	%rdx, %rax
	movq	%r9, %rdx
	shrq	$4, %rax
	imull	$149, %r11d, %r9d
	movl	%r9d, %esi
	addl	$149, %r9d
	movl	$2155905153, %edi
	imulq	%rdi, %r9
	shrq	$39, %r9
	addl	%esi, %r9d
	addl	$149, %r9d
	addb	%al, %r9b
	addb	$-6, %r9b
	movb	%r9b, (%r8,%r11)
	movq	(%r10), %r9
	leaq	1(%r9), %r11
	movq	%r11, (%r10)
	imull	$250, %eax, %eax
	movl	%edx, %esi
	subl	%eax, %esi
	imull	$149, %r11d, %eax
	movl	%eax, %r11d
	addl	$149, %eax
	imulq	%rdi, %rax
	shrq	$39, %rax
	addl	%r11d, %eax
	addl	$149, %eax
	addb	%sil, %al
	incb	%al
	movb	%al, 1(%r8,%r9)
.LBB51_4:
	movq	(%r10), %rax
	incq	%rax
	movq	%rax, (%r10)
.LBB51_6:
	imull	$149, %eax, %r9d
	leal	149(%r9), %r11d
	movl	$2155905153, %esi
	imulq	%r11, %rsi
	shrq	$39, %rsi
	movl	%esi, %r11d
	shll	$8, %r11d
	subl	%r11d, %esi
	addl	%r9d, %esi
	addl	$150, %esi
	xorl	%r9d, %r9d
	xorl	%r11d, %r11d
	.p2align	4
.LBB51_7:
	cmpb	$1, (%rcx,%r11,2)
	movzbl	1(%rcx,%r11,2), %edi
	cmovnel	%r9d, %edi
	addl	%esi, %edi
	movb	%dil, (%r8,%rax)
	movq	(%r10), %rax
	incq	%rax
	leal	-106(%rsi), %edi
	cmpl	$107, %esi
	leal	149(%rsi), %esi
	cmovael	%edi, %esi
	movq	%rax, (%r10)
	incq	%r11
	cmpq	%r11, %rdx
	jne	.LBB51_7
.LBB51_8:
	popq	%rdi
	popq	%rsi
	retq
	.seh_endproc

	.def	"dm_words::smallest::contents::smallest_marked_to";
	.scl	3;
	.type	32;
	.endef
	.section	.rdata,"dr"
	.p2align	4, 0x0
.LCPI52_0:
	.long	12
	.long	13
	.long	14
	.long	15
.LCPI52_1:
	.long	8
	.long	9
	.long	10
	.long	11
.LCPI52_2:
	.long	4
	.long	5
	.long	6
	.long	7
.LCPI52_3:
	.long	0
	.long	1
	.long	2
	.long	3
.LCPI52_4:
	.long	149
	.long	149
	.long	149
	.long	149
.LCPI52_5:
	.long	16976156
	.long	16976156
	.long	16976156
	.long	16976156
.LCPI52_6:
	.long	253
	.long	253
	.long	253
	.long	253
.LCPI52_7:
	.long	125
	.long	125
	.long	125
	.long	125
.LCPI52_8:
	.zero	16,132
.LCPI52_9:
	.zero	16,130
.LCPI52_10:
	.long	16
	.long	16
	.long	16
	.long	16
.LCPI52_11:
	.long	124
	.long	124
	.long	124
	.long	124
.LCPI52_12:
	.byte	132
	.byte	132
	.byte	132
	.byte	132
	.zero	1
	.zero	1
	.zero	1
	.zero	1
	.zero	1
	.zero	1
	.zero	1
	.zero	1
	.zero	1
	.zero	1
	.zero	1
	.zero	1
.LCPI52_13:
	.byte	130
	.byte	130
	.byte	130
	.byte	130
	.zero	1
	.zero	1
	.zero	1
	.zero	1
	.zero	1
	.zero	1
	.zero	1
	.zero	1
	.zero	1
	.zero	1
	.zero	1
	.zero	1
.LCPI52_14:
	.long	4
	.long	4
	.long	4
	.long	4
	.text
	.p2align	4
"dm_words::smallest::contents::smallest_marked_to":
.seh_proc "dm_words::smallest::contents::smallest_marked_to"
	pushq	%r15
	.seh_pushreg %r15
	pushq	%r14
	.seh_pushreg %r14
	pushq	%r13
	.seh_pushreg %r13
	pushq	%r12
	.seh_pushreg %r12
	pushq	%rsi
	.seh_pushreg %rsi
	pushq	%rdi
	.seh_pushreg %rdi
	pushq	%rbp
	.seh_pushreg %rbp
	pushq	%rbx
	.seh_pushreg %rbx
	subq	$280, %rsp
	.seh_stackalloc 280
	movdqa	%xmm11, 256(%rsp)
	.seh_savexmm %xmm11, 256
	movdqa	%xmm10, 240(%rsp)
	.seh_savexmm %xmm10, 240
	movdqa	%xmm9, 224(%rsp)
	.seh_savexmm %xmm9, 224
	movdqa	%xmm8, 208(%rsp)
	.seh_savexmm %xmm8, 208
	movdqa	%xmm7, 192(%rsp)
	.seh_savexmm %xmm7, 192
	movdqa	%xmm6, 176(%rsp)
	.seh_savexmm %xmm6, 176
	.seh_endprologue
	movq	%r8, %rbx
	movq	%rcx, 144(%rsp)
	movq	408(%rsp), %rdi
	movq	392(%rsp), %r13
	movq	384(%rsp), %r14
	movq	400(%rsp), %rax
	movzbl	(%rdx), %r10d
	movzbl	1(%rdx), %r8d
	movl	2(%rdx), %edx
	movq	%rdx, 168(%rsp)
	movzbl	(%rax), %edx
	movl	%edx, 96(%rsp)
	movzwl	2(%rax), %edx
	movl	%edx, 104(%rsp)
	movzwl	4(%rax), %eax
	movl	%eax, 92(%rsp)
	xorl	%eax, %eax
	movb	%r8b, 87(%rsp)
	testb	%r8b, %r8b
	setne	%al
	xorl	%edx, %edx
	movb	%r10b, 86(%rsp)
	testb	%r10b, %r10b
	leal	1(%rax,%rax,2), %r15d
	cmovel	%edx, %r15d
	testq	%r13, %r13
	movq	%r9, 120(%rsp)
	je	.LBB52_3
	xorl	%edx, %edx
	movq	416(%rsp), %rsi
	.p2align	4
.LBB52_2:
	leaq	-1(%r13), %rbp
	movzwl	-8(%r14,%r13,8), %r12d
	leaq	(%rbx,%r12,2), %r8
	subq	%r12, %r9
	movq	%rsi, 32(%rsp)
	movb	$1, %cl
	callq	"dm_words::smallest::plan::plan_to"
	movl	-4(%r14,%r13,8), %ecx
	cmpl	$16383, %ecx
	movw	$4, %r8w
	sbbw	$0, %r8w
	cmpl	$127, %ecx
	movl	$2, %edx
	cmovael	%r8d, %edx
	addl	%eax, %edx
	movw	%dx, -2(%rdi,%r13,2)
	movq	%r12, %r9
	movq	%rbp, %r13
	testq	%rbp, %rbp
	jne	.LBB52_2
	jmp	.LBB52_4
.LBB52_3:
	movq	%r9, %r12
	movq	416(%rsp), %rsi
.LBB52_4:
	movq	%rsi, 32(%rsp)
	movb	$1, %bpl
	movb	$1, %cl
	movq	%rbx, %r8
	movq	%r12, %r9
	callq	"dm_words::smallest::plan::plan_to"
	movzwl	%r15w, %r13d
	addl	%eax, %r13d
	cmpb	$0, 86(%rsp)
	je	.LBB52_16
	movl	$0, 88(%rsp)
	movl	%r13d, %eax
.LBB52_6:
	movl	96(%rsp), %edi
.LBB52_7:
	xorl	%ecx, %ecx
	movl	104(%rsp), %r11d
	movl	92(%rsp), %esi
	jmp	.LBB52_10
.LBB52_8:
	cmpw	%r13w, %r15w
	jne	.LBB52_33
	.p2align	4
.LBB52_9:
	addq	$20, %rcx
	cmpq	$960, %rcx
	je	.LBB52_15
.LBB52_10:
	leaq	.Lstatic.0(%rip), %rdx
	movzwl	12(%rcx,%rdx), %r12d
	cmpw	%r12w, %ax
	ja	.LBB52_9
	movzwl	(%rcx,%rdx), %r15d
	movzwl	2(%rcx,%rdx), %r13d
	movzwl	18(%rcx,%rdx), %r8d
	movl	%edi, %r9d
	leaq	.LJTI52_0(%rip), %r10
	movslq	(%r10,%r9,4), %r9
	addq	%r10, %r9
	jmpq	*%r9
.LBB52_12:
	cmpw	%r13w, %r15w
	movl	%r15d, %r13d
	jne	.LBB52_9
	jmp	.LBB52_33
.LBB52_13:
	xorl	%r11d, %r15d
	xorl	%esi, %r13d
	orw	%r15w, %r13w
	jne	.LBB52_9
	jmp	.LBB52_32
.LBB52_14:
	cmpw	$1, %r8w
	setne	%r9b
	cmpw	%r13w, %r15w
	setne	%r10b
	testb	%r9b, %r10b
	je	.LBB52_9
	jmp	.LBB52_33
.LBB52_15:
	movb	$1, %al
	xorl	%r15d, %r15d
	xorl	%r13d, %r13d
	xorl	%edx, %edx
	xorl	%r12d, %r12d
	xorl	%r8d, %r8d
	xorl	%ecx, %ecx
	movq	144(%rsp), %r11
	jmp	.LBB52_59
.LBB52_16:
	movq	%rbx, %rcx
	movq	120(%rsp), %r15
	movq	%r15, %rdx
	movb	$53, %r8b
	callq	"dm_words::macros::is_framed"
	movb	$-20, %r9b
	testb	%al, %al
	movl	96(%rsp), %edi
	jne	.LBB52_18
	movq	%rbx, %rcx
	movq	%r15, %rdx
	movb	$54, %r8b
	callq	"dm_words::macros::is_framed"
	movb	$-19, %r9b
	testb	%al, %al
	je	.LBB52_30
.LBB52_18:
	movq	392(%rsp), %r8
	testq	%r8, %r8
	je	.LBB52_28
	leaq	-2(%r15), %rax
	xorl	%ecx, %ecx
	.p2align	4
.LBB52_20:
	movzwl	(%r14,%rcx,8), %edx
	cmpq	$7, %rdx
	jb	.LBB52_31
	cmpq	%rdx, %rax
	jb	.LBB52_31
	incq	%rcx
	cmpq	%rcx, %r8
	jne	.LBB52_20
	movl	%r13d, 116(%rsp)
	movl	%r9d, 88(%rsp)
	leaq	14(%rbx), %r12
	leaq	-9(%r15), %r13
	xorl	%edx, %edx
	movq	%r8, %rbp
	movq	%rsi, %rdi
	movq	408(%rsp), %rsi
	.p2align	4
.LBB52_24:
	movq	%r13, %r9
	leaq	-1(%rbp), %r15
	movzwl	-8(%r14,%rbp,8), %r13d
	leaq	(%r12,%r13,2), %r8
	addq	$-14, %r8
	addq	$-7, %r13
	subq	%r13, %r9
	movq	%rdi, 32(%rsp)
	movb	$1, %cl
	callq	"dm_words::smallest::plan::plan_to"
	movl	-4(%r14,%rbp,8), %ecx
	cmpl	$16383, %ecx
	movw	$4, %r8w
	sbbw	$0, %r8w
	cmpl	$127, %ecx
	movl	$2, %edx
	cmovael	%r8d, %edx
	addl	%eax, %edx
	movw	%dx, -2(%rsi,%rbp,2)
	movq	%r15, %rbp
	testq	%r15, %r15
	jne	.LBB52_24
	movq	%rdi, 32(%rsp)
	movb	$1, %cl
	movq	%r12, %r8
	movq	%r13, %r9
	callq	"dm_words::smallest::plan::plan_to"
	incl	%eax
	cmpw	116(%rsp), %ax
	jbe	.LBB52_40
	movq	%rdi, %rsi
	xorl	%ebp, %ebp
	movq	120(%rsp), %r9
	movq	392(%rsp), %r13
	movl	96(%rsp), %edi
	.p2align	4
.LBB52_27:
	leaq	-1(%r13), %r15
	movzwl	-8(%r14,%r13,8), %r12d
	leaq	(%rbx,%r12,2), %r8
	subq	%r12, %r9
	movq	%rsi, 32(%rsp)
	movb	$1, %cl
	movl	%ebp, %edx
	callq	"dm_words::smallest::plan::plan_to"
	movl	-4(%r14,%r13,8), %ecx
	cmpl	$16383, %ecx
	movw	$4, %dx
	sbbw	$0, %dx
	cmpl	$127, %ecx
	movl	$2, %ebp
	cmovael	%edx, %ebp
	addl	%eax, %ebp
	movq	408(%rsp), %rax
	movw	%bp, -2(%rax,%r13,2)
	movq	%r12, %r9
	movq	%r15, %r13
	testq	%r15, %r15
	jne	.LBB52_27
	jmp	.LBB52_29
.LBB52_28:
	movl	%r9d, 88(%rsp)
	leaq	14(%rbx), %r8
	leaq	-9(%r15), %r9
	movq	%rsi, 32(%rsp)
	xorl	%ebp, %ebp
	movb	$1, %cl
	xorl	%edx, %edx
	callq	"dm_words::smallest::plan::plan_to"
	incl	%eax
	movq	%r15, %r12
	movl	%r13d, 116(%rsp)
	cmpw	%r13w, %ax
	jbe	.LBB52_7
.LBB52_29:
	movq	%rsi, 32(%rsp)
	movb	$1, %cl
	movl	%ebp, %edx
	movq	%rbx, %r8
	movq	%r12, %r9
	callq	"dm_words::smallest::plan::plan_to"
	movl	$0, 88(%rsp)
	movl	116(%rsp), %eax
	movb	$1, %bpl
	jmp	.LBB52_7
.LBB52_30:
	movl	$0, 88(%rsp)
	movl	%r13d, %eax
	jmp	.LBB52_7
.LBB52_31:
	movl	%r13d, %eax
	movl	$0, 88(%rsp)
	jmp	.LBB52_7
.LBB52_32:
	movl	%r11d, %r15d
	movl	%esi, %r13d
.LBB52_33:
	xorl	%eax, %eax
	movzbl	87(%rsp), %r9d
	testb	%r9b, %r9b
	setne	%al
	cmpw	$1, %r8w
	sete	%r8b
	movq	%r8, 96(%rsp)
	xorl	%edi, %edi
	movzbl	86(%rsp), %r10d
	testb	%r10b, %r10b
	movq	4(%rcx,%rdx), %r8
	movq	%r8, 104(%rsp)
	movl	14(%rcx,%rdx), %ecx
	movl	%ecx, 92(%rsp)
	movb	%r10b, 130(%rsp)
	movb	%r9b, 131(%rsp)
	movq	168(%rsp), %rcx
	movl	%ecx, 132(%rsp)
	leaq	1(%rax,%rax,2), %rax
	cmovneq	%rax, %rdi
	movq	%rbx, %rcx
	movq	120(%rsp), %rdx
	movq	%r14, %r8
	movq	392(%rsp), %rsi
	movq	%rsi, %r9
	callq	"dm_words::contents::normal_form::marked_length"
	addq	%rdi, %rax
	cmpq	%r12, %rax
	jbe	.LBB52_38
	testb	%bpl, %bpl
	movq	424(%rsp), %rdi
	je	.LBB52_39
	cmpb	$0, 86(%rsp)
	je	.LBB52_41
	cmpb	$0, 87(%rsp)
	je	.LBB52_42
	movq	168(%rsp), %r8
	movl	%r8d, %edx
	shrl	$8, %edx
	movl	%r8d, %ecx
	shrl	$16, %ecx
	movl	%r8d, %eax
	shrl	$24, %eax
	shlb	$4, %r8b
	subb	%dl, %r8b
	incb	%r8b
	movb	$-23, %dl
	movl	$4, %ebp
	jmp	.LBB52_43
.LBB52_38:
	movq	424(%rsp), %rdi
	movq	%rdi, 40(%rsp)
	movq	%rsi, 32(%rsp)
	leaq	130(%rsp), %rcx
	movq	%rbx, %rdx
	movq	120(%rsp), %r8
	movq	%r14, %r9
	callq	"dm_words::contents::normal_form::write_form"
	jmp	.LBB52_45
.LBB52_39:
	movl	88(%rsp), %eax
	movb	%al, (%rdi)
	movq	$1, 136(%rsp)
	addq	$14, %rbx
	movq	120(%rsp), %r8
	addq	$-9, %r8
	leaq	136(%rsp), %rax
	movq	%rax, 72(%rsp)
	movq	%r12, 64(%rsp)
	movq	%rdi, 56(%rsp)
	movq	416(%rsp), %rax
	movq	%rax, 48(%rsp)
	movq	408(%rsp), %rax
	movq	%rax, 40(%rsp)
	movq	%rsi, 32(%rsp)
	movl	$7, %ecx
	movq	%rbx, %rdx
	jmp	.LBB52_44
.LBB52_40:
	xorl	%ebp, %ebp
	jmp	.LBB52_6
.LBB52_41:
	xorl	%eax, %eax
	xorl	%ecx, %ecx
	xorl	%ebp, %ebp
	xorl	%r8d, %r8d
	xorl	%edx, %edx
	jmp	.LBB52_43
.LBB52_42:
	movb	$-22, %dl
	movl	$1, %ebp
	xorl	%eax, %eax
	xorl	%ecx, %ecx
	xorl	%r8d, %r8d
.LBB52_43:
	movb	%dl, 152(%rsp)
	movb	%r8b, 153(%rsp)
	movb	%cl, 154(%rsp)
	movb	%al, 155(%rsp)
	movl	$0, 156(%rsp)
	movq	%rbp, 160(%rsp)
	leaq	152(%rsp), %rdx
	movq	%rdi, %rcx
	movq	%rbp, %r8
	callq	memcpy
	movq	%rbp, 136(%rsp)
	leaq	136(%rsp), %rax
	movq	%rax, 72(%rsp)
	movq	%r12, 64(%rsp)
	movq	%rdi, 56(%rsp)
	movq	416(%rsp), %rax
	movq	%rax, 48(%rsp)
	movq	408(%rsp), %rax
	movq	%rax, 40(%rsp)
	movq	%rsi, 32(%rsp)
	xorl	%ecx, %ecx
	movq	%rbx, %rdx
	movq	120(%rsp), %r8
.LBB52_44:
	movq	%r14, %r9
	callq	"dm_words::smallest::contents::write_texts"
	movq	136(%rsp), %rax
.LBB52_45:
	movq	144(%rsp), %r11
	cmpq	%r12, %rax
	jae	.LBB52_58
	movb	$-127, (%rdi,%rax)
	leaq	1(%rax), %rcx
	cmpq	%r12, %rcx
	jae	.LBB52_58
	notq	%rax
	addq	%r12, %rax
	cmpq	$4, %rax
	jb	.LBB52_57
	cmpq	$16, %rax
	jae	.LBB52_50
	xorl	%edx, %edx
	movq	%rcx, %r8
	jmp	.LBB52_54
.LBB52_50:
	movq	%rax, %rdx
	andq	$-16, %rdx
	leaq	(%rcx,%rdx), %r8
	movd	%ecx, %xmm0
	pshufd	$0, %xmm0, %xmm1
	movdqa	.LCPI52_0(%rip), %xmm2
	paddd	%xmm1, %xmm2
	movdqa	.LCPI52_1(%rip), %xmm3
	paddd	%xmm1, %xmm3
	movdqa	.LCPI52_2(%rip), %xmm4
	paddd	%xmm1, %xmm4
	paddd	.LCPI52_3(%rip), %xmm1
	leaq	(%rdi,%rcx), %r9
	xorl	%r10d, %r10d
	.p2align	4
.LBB52_51:
	pcmpeqd	%xmm0, %xmm0
	movdqa	%xmm1, %xmm5
	psubd	%xmm0, %xmm5
	movdqa	%xmm4, %xmm7
	psubd	%xmm0, %xmm7
	movdqa	%xmm3, %xmm6
	psubd	%xmm0, %xmm6
	movdqa	%xmm2, %xmm8
	psubd	%xmm0, %xmm8
	pxor	%xmm0, %xmm0
	pblendw	$170, %xmm0, %xmm8
	pblendw	$170, %xmm0, %xmm6
	pblendw	$170, %xmm0, %xmm7
	pblendw	$170, %xmm0, %xmm5
	movdqa	.LCPI52_4(%rip), %xmm0
	pmulld	%xmm0, %xmm5
	pmulld	%xmm0, %xmm7
	pmulld	%xmm0, %xmm6
	pmulld	%xmm0, %xmm8
	pshufd	$245, %xmm8, %xmm9
	movdqa	.LCPI52_5(%rip), %xmm0
	pmuludq	%xmm0, %xmm9
	movdqa	%xmm8, %xmm10
	pmuludq	%xmm0, %xmm10
	pshufd	$245, %xmm10, %xmm10
	pblendw	$204, %xmm9, %xmm10
	movdqa	.LCPI52_6(%rip), %xmm9
	pmulld	%xmm9, %xmm10
	psubd	%xmm10, %xmm8
	pshufd	$245, %xmm6, %xmm10
	pmuludq	%xmm0, %xmm10
	movdqa	%xmm6, %xmm11
	pmuludq	%xmm0, %xmm11
	pshufd	$245, %xmm11, %xmm11
	pblendw	$204, %xmm10, %xmm11
	pmulld	%xmm9, %xmm11
	psubd	%xmm11, %xmm6
	pshufd	$245, %xmm7, %xmm10
	pmuludq	%xmm0, %xmm10
	movdqa	%xmm7, %xmm11
	pmuludq	%xmm0, %xmm11
	pshufd	$245, %xmm11, %xmm11
	pblendw	$204, %xmm10, %xmm11
	pmulld	%xmm9, %xmm11
	psubd	%xmm11, %xmm7
	pshufd	$245, %xmm5, %xmm10
	pmuludq	%xmm0, %xmm10
	pmuludq	%xmm5, %xmm0
	pshufd	$245, %xmm0, %xmm0
	pblendw	$204, %xmm10, %xmm0
	pmulld	%xmm9, %xmm0
	psubd	%xmm0, %xmm5
	movdqa	.LCPI52_7(%rip), %xmm9
	movdqa	%xmm9, %xmm0
	pcmpgtd	%xmm5, %xmm0
	movdqa	%xmm9, %xmm10
	pcmpgtd	%xmm7, %xmm10
	packssdw	%xmm10, %xmm0
	movdqa	%xmm9, %xmm10
	pcmpgtd	%xmm6, %xmm10
	pcmpgtd	%xmm8, %xmm9
	packssdw	%xmm9, %xmm10
	packsswb	%xmm10, %xmm0
	packusdw	%xmm7, %xmm5
	packusdw	%xmm8, %xmm6
	packuswb	%xmm6, %xmm5
	movdqa	.LCPI52_8(%rip), %xmm6
	pblendvb	%xmm0, .LCPI52_9(%rip), %xmm6
	paddb	%xmm5, %xmm6
	movdqu	%xmm6, (%r9,%r10)
	addq	$16, %r10
	movdqa	.LCPI52_10(%rip), %xmm0
	paddd	%xmm0, %xmm1
	paddd	%xmm0, %xmm4
	paddd	%xmm0, %xmm3
	paddd	%xmm0, %xmm2
	cmpq	%r10, %rdx
	jne	.LBB52_51
	cmpq	%rdx, %rax
	je	.LBB52_58
	testb	$12, %al
	je	.LBB52_60
.LBB52_54:
	movq	%rax, %r9
	andq	$-4, %r9
	movd	%r8d, %xmm0
	pshufd	$0, %xmm0, %xmm1
	paddd	.LCPI52_3(%rip), %xmm1
	leaq	(%rdi,%rcx), %r8
	addq	%r9, %rcx
	.p2align	4
.LBB52_55:
	pcmpeqd	%xmm3, %xmm3
	movdqa	%xmm1, %xmm0
	psubd	%xmm3, %xmm0
	pxor	%xmm2, %xmm2
	pblendw	$85, %xmm0, %xmm2
	pmulld	.LCPI52_4(%rip), %xmm2
	pshufd	$245, %xmm2, %xmm0
	movdqa	.LCPI52_5(%rip), %xmm4
	pmuludq	%xmm4, %xmm0
	pmuludq	%xmm2, %xmm4
	pshufd	$245, %xmm4, %xmm4
	pblendw	$204, %xmm0, %xmm4
	pmulld	.LCPI52_6(%rip), %xmm4
	psubd	%xmm4, %xmm2
	movdqa	%xmm2, %xmm0
	pcmpgtd	.LCPI52_11(%rip), %xmm0
	packssdw	%xmm0, %xmm0
	pxor	%xmm3, %xmm0
	packsswb	%xmm0, %xmm0
	movdqa	.LCPI52_12(%rip), %xmm3
	pblendvb	%xmm0, .LCPI52_13(%rip), %xmm3
	packusdw	%xmm2, %xmm2
	packuswb	%xmm2, %xmm2
	paddb	%xmm2, %xmm3
	movd	%xmm3, (%r8,%rdx)
	addq	$4, %rdx
	paddd	.LCPI52_14(%rip), %xmm1
	cmpq	%rdx, %r9
	jne	.LBB52_55
	cmpq	%r9, %rax
	je	.LBB52_58
	.p2align	4
.LBB52_57:
	movq	%rcx, %rax
	incq	%rcx
	movzwl	%cx, %edx
	imull	$149, %edx, %edx
	imulq	$16976156, %rdx, %r8
	shrq	$32, %r8
	imull	$253, %r8d, %r8d
	subl	%r8d, %edx
	cmpl	$125, %edx
	setae	%r8b
	addb	%r8b, %r8b
	addb	%dl, %r8b
	addb	$-126, %r8b
	movb	%r8b, (%rdi,%rax)
	cmpq	%rcx, %r12
	jne	.LBB52_57
.LBB52_58:
	xorl	%eax, %eax
	movq	96(%rsp), %rcx
	movq	104(%rsp), %rdx
	movl	92(%rsp), %r8d
.LBB52_59:
	movb	%al, (%r11)
	movw	%r15w, 2(%r11)
	movw	%r13w, 4(%r11)
	movq	%rdx, 6(%r11)
	movw	%r12w, 14(%r11)
	movl	%r8d, 16(%r11)
	movb	%cl, 20(%r11)
	movb	$0, 21(%r11)
	movaps	176(%rsp), %xmm6
	movaps	192(%rsp), %xmm7
	movaps	208(%rsp), %xmm8
	movaps	224(%rsp), %xmm9
	movaps	240(%rsp), %xmm10
	movaps	256(%rsp), %xmm11
	addq	$280, %rsp
	popq	%rbx
	popq	%rbp
	popq	%rdi
	popq	%rsi
	popq	%r12
	popq	%r13
	popq	%r14
	popq	%r15
	retq
.LBB52_60:
	addq	%rdx, %rcx
	jmp	.LBB52_57
	.section	.rdata,"dr"
	.p2align	2, 0x0
.LJTI52_0:
	.long	.LBB52_12-.LJTI52_0
	.long	.LBB52_14-.LJTI52_0
	.long	.LBB52_8-.LJTI52_0
	.long	.LBB52_33-.LJTI52_0
	.long	.LBB52_13-.LJTI52_0
	.text
	.seh_endproc

	.def	"dm_words::smallest::contents::write_texts";
	.scl	3;
	.type	32;
	.endef
	.p2align	4
"dm_words::smallest::contents::write_texts":
.seh_proc "dm_words::smallest::contents::write_texts"
	pushq	%r15
	.seh_pushreg %r15
	pushq	%r14
	.seh_pushreg %r14
	pushq	%r13
	.seh_pushreg %r13
	pushq	%r12
	.seh_pushreg %r12
	pushq	%rsi
	.seh_pushreg %rsi
	pushq	%rdi
	.seh_pushreg %rdi
	pushq	%rbp
	.seh_pushreg %rbp
	pushq	%rbx
	.seh_pushreg %rbx
	subq	$88, %rsp
	.seh_stackalloc 88
	.seh_endprologue
	movq	%r8, 72(%rsp)
	movq	%rdx, 48(%rsp)
	movq	%rcx, 80(%rsp)
	movq	232(%rsp), %rsi
	movq	216(%rsp), %rdi
	cmpq	$0, 192(%rsp)
	je	.LBB53_1
	movq	%r9, %r15
	xorl	%ebx, %ebx
	xorl	%r14d, %r14d
	jmp	.LBB53_3
	.p2align	4
.LBB53_4:
	incb	%al
	movl	$1, %r13d
	xorl	%ecx, %ecx
	xorl	%edx, %edx
.LBB53_8:
	movq	(%rsi), %rbp
	leaq	59(%rsp), %r8
	movb	$0, 4(%r8)
	movl	$0, (%r8)
	movb	%al, 56(%rsp)
	movb	%cl, 57(%rsp)
	movb	%dl, 58(%rsp)
	movq	%r13, 64(%rsp)
	leaq	(%rdi,%rbp), %rcx
	incq	%rcx
	leaq	56(%rsp), %rdx
	movq	%r13, %r8
	callq	memcpy
	leaq	1(,%rbp), %rax
	addq	%r13, %rax
	movq	%rax, (%rsi)
	incq	%r14
	cmpq	%r14, 192(%rsp)
	je	.LBB53_9
.LBB53_3:
	movq	%rbx, %rax
	movzwl	(%r15,%r14,8), %ebx
	subq	80(%rsp), %rbx
	movq	200(%rsp), %rcx
	movzwl	(%rcx,%r14,2), %edx
	movq	48(%rsp), %rcx
	leaq	(%rcx,%rax,2), %r13
	movq	%rbx, %rbp
	subq	%rax, %rbp
	movq	208(%rsp), %r12
	movq	%r12, 32(%rsp)
	movb	$1, %cl
	movq	%r13, %r8
	movq	%rbp, %r9
	callq	"dm_words::smallest::plan::plan_to"
	movq	%rsi, 40(%rsp)
	movq	224(%rsp), %rax
	movq	%rax, 32(%rsp)
	movq	%r13, %rcx
	movq	%rbp, %rdx
	movq	%r12, %r8
	movq	%rdi, %r9
	callq	"dm_words::smallest::parts::write_parts"
	movl	4(%r15,%r14,8), %eax
	movq	(%rsi), %rcx
	movb	$-15, (%rdi,%rcx)
	cmpl	$126, %eax
	jbe	.LBB53_4
	cmpl	$16382, %eax
	ja	.LBB53_7
	leal	-127(%rax), %ecx
	movzwl	%cx, %ecx
	shrl	%ecx
	imull	$33027, %ecx, %edx
	shrl	$22, %edx
	leal	(%rax,%rdx,2), %ecx
	addl	$-127, %ecx
	leal	-128(%rdx), %eax
	incb	%cl
	movl	$2, %r13d
	xorl	%edx, %edx
	jmp	.LBB53_8
	.p2align	4
.LBB53_7:
	leal	-16383(%rax), %edx
	movl	%edx, %ecx
	shrl	$2, %ecx
	shrl	%edx
	movl	$2164392969, %r8d
	imulq	%rdx, %r8
	shrq	$38, %r8
	leal	(%rax,%r8,2), %edx
	addl	$-16383, %edx
	imulq	$1090717717, %rcx, %rax
	shrq	$44, %rax
	addb	$-64, %al
	imulq	$33818641, %r8, %rcx
	shrq	$32, %rcx
	andl	$254, %ecx
	addl	%r8d, %ecx
	incb	%cl
	incb	%dl
	movl	$3, %r13d
	jmp	.LBB53_8
.LBB53_1:
	xorl	%ebx, %ebx
.LBB53_9:
	movq	48(%rsp), %rax
	leaq	(%rax,%rbx,2), %r14
	movq	72(%rsp), %r15
	subq	%rbx, %r15
	movq	208(%rsp), %rbx
	movq	%rbx, 32(%rsp)
	movb	$1, %cl
	xorl	%edx, %edx
	movq	%r14, %r8
	movq	%r15, %r9
	callq	"dm_words::smallest::plan::plan_to"
	movq	%rsi, 40(%rsp)
	movq	224(%rsp), %rax
	movq	%rax, 32(%rsp)
	movq	%r14, %rcx
	movq	%r15, %rdx
	movq	%rbx, %r8
	movq	%rdi, %r9
	callq	"dm_words::smallest::parts::write_parts"
	nop
	addq	$88, %rsp
	popq	%rbx
	popq	%rbp
	popq	%rdi
	popq	%rsi
	popq	%r12
	popq	%r13
	popq	%r14
	popq	%r15
	retq
	.seh_endproc

	.def	"dm_words::smallest::smallest_in::<=512,=102>";
	.scl	3;
	.type	32;
	.endef
	.p2align	4
"dm_words::smallest::smallest_in::<=512,=102>":
.seh_proc "dm_words::smallest::smallest_in::<=512,=102>"
	pushq	%r15
	.seh_pushreg %r15
	pushq	%r14
	.seh_pushreg %r14
	pushq	%r13
	.seh_pushreg %r13
	pushq	%r12
	.seh_pushreg %r12
	pushq	%rsi
	.seh_pushreg %rsi
	pushq	%rdi
	.seh_pushreg %rdi
	pushq	%rbp
	.seh_pushreg %rbp
	pushq	%rbx
	.seh_pushreg %rbx
	subq	$1928, %rsp
	.seh_stackalloc 1928
	movaps	%xmm6, 1904(%rsp)
	.seh_savexmm %xmm6, 1904
	.seh_endprologue
	movq	%r9, %rdi
	movl	%edx, %ebp
	movq	%rcx, %rsi
	movq	2064(%rsp), %r12
	movq	2048(%rsp), %r15
	movq	2032(%rsp), %rbx
	movq	2056(%rsp), %rax
	movzbl	(%r8), %r13d
	movb	%r13b, 90(%rsp)
	movzbl	1(%r8), %ecx
	movb	%cl, 91(%rsp)
	movl	2(%r8), %ecx
	movl	%ecx, 92(%rsp)
	movzbl	(%rax), %ecx
	movw	%cx, 84(%rsp)
	movl	2(%rax), %eax
	movl	%eax, 86(%rsp)
	xorps	%xmm6, %xmm6
	movaps	%xmm6, 128(%rsp)
	movq	$0, 142(%rsp)
	movaps	%xmm6, 96(%rsp)
	movq	$0, 110(%rsp)
	leaq	368(%rsp), %r14
	movl	$1536, %r8d
	movq	%r14, %rcx
	xorl	%edx, %edx
	callq	memset
	movaps	%xmm6, 160(%rsp)
	movaps	%xmm6, 176(%rsp)
	movaps	%xmm6, 192(%rsp)
	movaps	%xmm6, 208(%rsp)
	movaps	%xmm6, 224(%rsp)
	movaps	%xmm6, 240(%rsp)
	movaps	%xmm6, 256(%rsp)
	movaps	%xmm6, 272(%rsp)
	movaps	%xmm6, 288(%rsp)
	movaps	%xmm6, 304(%rsp)
	movaps	%xmm6, 320(%rsp)
	movaps	%xmm6, 336(%rsp)
	movups	%xmm6, 348(%rsp)
	testb	%r13b, %r13b
	sete	%al
	testq	%r15, %r15
	sete	%cl
	testb	%al, %cl
	je	.LBB54_2
	movq	%r12, 48(%rsp)
	movq	%r14, 40(%rsp)
	leaq	84(%rsp), %rax
	movq	%rax, 32(%rsp)
	leaq	128(%rsp), %rcx
	movl	%ebp, %edx
	movq	%rdi, %r8
	movq	%rbx, %r9
	callq	"dm_words::smallest::smallest_items_to"
	movzbl	128(%rsp), %eax
	movb	%al, (%rsi)
	movups	130(%rsp), %xmm0
	movups	%xmm0, 2(%rsi)
	movl	146(%rsp), %eax
	jmp	.LBB54_6
.LBB54_2:
	testb	%bpl, %bpl
	je	.LBB54_3
	movq	2040(%rsp), %rax
	movq	%r12, 72(%rsp)
	movq	%r14, 64(%rsp)
	leaq	160(%rsp), %rcx
	movq	%rcx, 56(%rsp)
	leaq	84(%rsp), %rcx
	movq	%rcx, 48(%rsp)
	movq	%r15, 40(%rsp)
	movq	%rax, 32(%rsp)
	leaq	96(%rsp), %rcx
	leaq	90(%rsp), %rdx
	movq	%rdi, %r8
	movq	%rbx, %r9
	callq	"dm_words::smallest::contents::smallest_marked_to"
	movzbl	96(%rsp), %eax
	jmp	.LBB54_5
.LBB54_3:
	movb	$1, %al
.LBB54_5:
	movb	%al, (%rsi)
	movups	98(%rsp), %xmm0
	movups	%xmm0, 2(%rsi)
	movl	114(%rsp), %eax
.LBB54_6:
	movl	%eax, 18(%rsi)
	movaps	1904(%rsp), %xmm6
	addq	$1928, %rsp
	popq	%rbx
	popq	%rbp
	popq	%rdi
	popq	%rsi
	popq	%r12
	popq	%r13
	popq	%r14
	popq	%r15
	retq
	.seh_endproc

	.def	"dm_words::smallest::smallest_in::<=3124,=779>";
	.scl	3;
	.type	32;
	.endef
	.p2align	4
"dm_words::smallest::smallest_in::<=3124,=779>":
.seh_proc "dm_words::smallest::smallest_in::<=3124,=779>"
	pushq	%r15
	.seh_pushreg %r15
	pushq	%r14
	.seh_pushreg %r14
	pushq	%r13
	.seh_pushreg %r13
	pushq	%r12
	.seh_pushreg %r12
	pushq	%rsi
	.seh_pushreg %rsi
	pushq	%rdi
	.seh_pushreg %rdi
	pushq	%rbp
	.seh_pushreg %rbp
	pushq	%rbx
	.seh_pushreg %rbx
	movl	$11080, %eax
	callq	___chkstk_ms
	subq	%rax, %rsp
	.seh_stackalloc 11080
	.seh_endprologue
	movq	%r9, %rdi
	movl	%edx, %ebp
	movq	%rcx, %rsi
	movq	11216(%rsp), %r13
	movq	11200(%rsp), %r12
	movq	11208(%rsp), %rax
	movzbl	(%r8), %ebx
	movb	%bl, 90(%rsp)
	movzbl	1(%r8), %ecx
	movb	%cl, 91(%rsp)
	movl	2(%r8), %ecx
	movl	%ecx, 92(%rsp)
	movzbl	(%rax), %ecx
	movw	%cx, 84(%rsp)
	movl	2(%rax), %eax
	movl	%eax, 86(%rsp)
	xorps	%xmm0, %xmm0
	movaps	%xmm0, 128(%rsp)
	movq	$0, 142(%rsp)
	movaps	%xmm0, 96(%rsp)
	movq	$0, 110(%rsp)
	leaq	1708(%rsp), %r14
	movl	$9372, %r8d
	movq	%r14, %rcx
	xorl	%edx, %edx
	callq	memset
	leaq	150(%rsp), %r15
	movl	$1558, %r8d
	movq	%r15, %rcx
	xorl	%edx, %edx
	callq	memset
	testb	%bl, %bl
	sete	%al
	testq	%r12, %r12
	sete	%cl
	testb	%al, %cl
	je	.LBB55_2
	movq	%r13, 48(%rsp)
	movq	%r14, 40(%rsp)
	leaq	84(%rsp), %rax
	movq	%rax, 32(%rsp)
	leaq	128(%rsp), %rcx
	movl	%ebp, %edx
	movq	%rdi, %r8
	movq	11184(%rsp), %r9
	callq	"dm_words::smallest::smallest_items_to"
	movzbl	128(%rsp), %eax
	movb	%al, (%rsi)
	movups	130(%rsp), %xmm0
	movups	%xmm0, 2(%rsi)
	movl	146(%rsp), %eax
	jmp	.LBB55_6
.LBB55_2:
	movq	11184(%rsp), %r9
	testb	%bpl, %bpl
	je	.LBB55_3
	movq	11192(%rsp), %rax
	movq	%r13, 72(%rsp)
	movq	%r14, 64(%rsp)
	movq	%r15, 56(%rsp)
	leaq	84(%rsp), %rcx
	movq	%rcx, 48(%rsp)
	movq	%r12, 40(%rsp)
	movq	%rax, 32(%rsp)
	leaq	96(%rsp), %rcx
	leaq	90(%rsp), %rdx
	movq	%rdi, %r8
	callq	"dm_words::smallest::contents::smallest_marked_to"
	movzbl	96(%rsp), %eax
	jmp	.LBB55_5
.LBB55_3:
	movb	$1, %al
.LBB55_5:
	movb	%al, (%rsi)
	movups	98(%rsp), %xmm0
	movups	%xmm0, 2(%rsi)
	movl	114(%rsp), %eax
.LBB55_6:
	movl	%eax, 18(%rsi)
	addq	$11080, %rsp
	popq	%rbx
	popq	%rbp
	popq	%rdi
	popq	%rsi
	popq	%r12
	popq	%r13
	popq	%r14
	popq	%r15
	retq
	.seh_endproc

	.def	"ecc200_calls::writing::show_words::<=32,=98>";
	.scl	3;
	.type	32;
	.endef
	.section	.rdata,"dr"
	.p2align	4, 0x0
.LCPI56_0:
	.byte	0
	.byte	0
	.byte	0
	.byte	0
	.byte	0
	.byte	0
	.byte	0
	.byte	0
	.byte	1
	.byte	1
	.byte	1
	.byte	1
	.byte	1
	.byte	1
	.byte	1
	.byte	1
.LCPI56_1:
	.byte	1
	.byte	2
	.byte	4
	.byte	8
	.byte	16
	.byte	32
	.byte	64
	.byte	128
	.byte	1
	.byte	2
	.byte	4
	.byte	8
	.byte	16
	.byte	32
	.byte	64
	.byte	128
.LCPI56_2:
	.zero	16,1
.LCPI56_3:
	.byte	2
	.byte	2
	.byte	2
	.byte	2
	.byte	2
	.byte	2
	.byte	2
	.byte	2
	.byte	3
	.byte	3
	.byte	3
	.byte	3
	.byte	3
	.byte	3
	.byte	3
	.byte	3
	.text
	.p2align	4
"ecc200_calls::writing::show_words::<=32,=98>":
.seh_proc "ecc200_calls::writing::show_words::<=32,=98>"
	pushq	%r15
	.seh_pushreg %r15
	pushq	%r14
	.seh_pushreg %r14
	pushq	%r13
	.seh_pushreg %r13
	pushq	%r12
	.seh_pushreg %r12
	pushq	%rsi
	.seh_pushreg %rsi
	pushq	%rdi
	.seh_pushreg %rdi
	pushq	%rbp
	.seh_pushreg %rbp
	pushq	%rbx
	.seh_pushreg %rbx
	subq	$968, %rsp
	.seh_stackalloc 968
	movdqa	%xmm6, 944(%rsp)
	.seh_savexmm %xmm6, 944
	.seh_endprologue
	movq	%r9, %r12
	movq	%r8, %rdi
	movq	%rdx, %r14
	movq	%rcx, %r15
	movzwl	(%rcx), %r13d
	movzwl	14(%rcx), %ebx
	movl	16(%rcx), %ebp
	leaq	238(%rsp), %rsi
	pxor	%xmm6, %xmm6
	movdqu	%xmm6, 318(%rsp)
	movdqu	%xmm6, 302(%rsp)
	movdqu	%xmm6, 286(%rsp)
	movdqu	%xmm6, 270(%rsp)
	movdqu	%xmm6, 254(%rsp)
	movdqu	%xmm6, 238(%rsp)
	movw	$0, 334(%rsp)
	leaq	356(%rsp), %rcx
	movl	$524, %r8d
	xorl	%edx, %edx
	callq	memset
	movdqa	%xmm6, 880(%rsp)
	movdqa	%xmm6, 896(%rsp)
	movdqa	%xmm6, 912(%rsp)
	movdqa	%xmm6, 928(%rsp)
	movw	%r13w, 48(%rsp)
	movq	2(%r15), %rax
	movq	%rax, 50(%rsp)
	movl	10(%r15), %eax
	movl	%eax, 58(%rsp)
	movw	%bx, 62(%rsp)
	movl	%ebp, 64(%rsp)
	movw	%r13w, 218(%rsp)
	movq	2(%r15), %rax
	movq	%rax, 220(%rsp)
	movl	10(%r15), %eax
	movl	%eax, 228(%rsp)
	movw	%bx, 232(%rsp)
	movq	%r12, %rbx
	movl	%ebp, 234(%rsp)
	leaq	48(%rsp), %rdx
	movq	%rsi, %rcx
	movq	%r14, %r8
	movq	%rdi, %r9
	callq	"dm_symbol::symbol::writing::complete_in"
	movl	234(%rsp), %eax
	movl	%eax, 352(%rsp)
	movdqu	218(%rsp), %xmm0
	movdqa	%xmm0, 336(%rsp)
	leaq	368(%rsp), %r8
	leaq	218(%rsp), %rcx
	movq	%rsi, %rdx
	leaq	880(%rsp), %r9
	callq	"dm_layout::symbols::placing::lay_list"
	movzwl	336(%rsp), %r12d
	pinsrw	$3, %r12d, %xmm6
	movzwl	338(%rsp), %ebp
	movq	%xmm6, (%rbx)
	movw	%bp, 8(%rbx)
	testq	%r12, %r12
	je	.LBB56_41
	leaq	10(%rbx), %rdi
	movzwl	%bp, %esi
	movq	%rsi, %r15
	imulq	%r12, %r15
	testw	%bp, %bp
	je	.LBB56_15
	leaq	16(%rsi), %r13
	leaq	-145(%rsi), %rax
	andq	$-16, %rax
	addq	$16, %rax
	movq	%rax, 40(%rsp)
	addl	%r12d, %r12d
	xorl	%r14d, %r14d
	xorl	%ebx, %ebx
	jmp	.LBB56_3
	.p2align	4
.LBB56_39:
	leaq	(%rdi,%r14), %rcx
	leaq	48(%rsp), %rdx
	movq	%rsi, %r8
	callq	memcpy
.LBB56_40:
	addq	$2, %rbx
	addq	%rsi, %r14
	cmpq	%rbx, %r12
	je	.LBB56_41
.LBB56_3:
	leaq	(%r14,%r13), %rax
	cmpq	%r15, %rax
	jbe	.LBB56_4
	pxor	%xmm0, %xmm0
	movdqa	%xmm0, 192(%rsp)
	movdqa	%xmm0, 176(%rsp)
	movdqa	%xmm0, 160(%rsp)
	movdqa	%xmm0, 144(%rsp)
	movdqa	%xmm0, 128(%rsp)
	movdqa	%xmm0, 112(%rsp)
	movdqa	%xmm0, 96(%rsp)
	movdqa	%xmm0, 80(%rsp)
	movdqa	%xmm0, 64(%rsp)
	movzwl	880(%rsp,%rbx), %eax
	movq	368(%rsp,%rbx,8), %rdx
	movd	%edx, %xmm1
	pshufb	.LCPI56_0(%rip), %xmm1
	movq	376(%rsp,%rbx,8), %rcx
	movdqa	.LCPI56_1(%rip), %xmm0
	pand	%xmm0, %xmm1
	pcmpeqb	%xmm0, %xmm1
	pand	.LCPI56_2(%rip), %xmm1
	movdqa	%xmm1, 48(%rsp)
	cmpw	$17, %bp
	jb	.LBB56_36
	movd	%edx, %xmm1
	pshufb	.LCPI56_3(%rip), %xmm1
	pand	%xmm0, %xmm1
	pcmpeqb	%xmm0, %xmm1
	pand	.LCPI56_2(%rip), %xmm1
	movdqa	%xmm1, 64(%rsp)
	cmpw	$33, %bp
	jb	.LBB56_36
	movq	%rdx, %r8
	shrq	$32, %r8
	movd	%r8d, %xmm1
	pshufb	.LCPI56_0(%rip), %xmm1
	pand	%xmm0, %xmm1
	pcmpeqb	%xmm0, %xmm1
	pand	.LCPI56_2(%rip), %xmm1
	movdqa	%xmm1, 80(%rsp)
	cmpw	$49, %bp
	jb	.LBB56_36
	shrq	$48, %rdx
	movd	%edx, %xmm1
	pshufb	.LCPI56_0(%rip), %xmm1
	pand	%xmm0, %xmm1
	pcmpeqb	%xmm0, %xmm1
	pand	.LCPI56_2(%rip), %xmm1
	movdqa	%xmm1, 96(%rsp)
	cmpw	$65, %bp
	jb	.LBB56_36
	movd	%ecx, %xmm1
	pshufb	.LCPI56_0(%rip), %xmm1
	pand	%xmm0, %xmm1
	pcmpeqb	%xmm0, %xmm1
	pand	.LCPI56_2(%rip), %xmm1
	movdqa	%xmm1, 112(%rsp)
	cmpw	$81, %bp
	jb	.LBB56_36
	movd	%ecx, %xmm1
	pshufb	.LCPI56_3(%rip), %xmm1
	pand	%xmm0, %xmm1
	pcmpeqb	%xmm0, %xmm1
	pand	.LCPI56_2(%rip), %xmm1
	movdqa	%xmm1, 128(%rsp)
	cmpw	$97, %bp
	jb	.LBB56_36
	movq	%rcx, %rdx
	shrq	$32, %rdx
	movd	%edx, %xmm1
	pshufb	.LCPI56_0(%rip), %xmm1
	pand	%xmm0, %xmm1
	pcmpeqb	%xmm0, %xmm1
	pand	.LCPI56_2(%rip), %xmm1
	movdqa	%xmm1, 144(%rsp)
	cmpw	$113, %bp
	jb	.LBB56_36
	shrq	$48, %rcx
	movd	%ecx, %xmm1
	pshufb	.LCPI56_0(%rip), %xmm1
	pand	%xmm0, %xmm1
	pcmpeqb	%xmm0, %xmm1
	pand	.LCPI56_2(%rip), %xmm1
	movdqa	%xmm1, 160(%rsp)
	.p2align	4
.LBB56_36:
	cmpl	$129, %esi
	jb	.LBB56_39
	movd	%eax, %xmm1
	pshufb	.LCPI56_0(%rip), %xmm1
	pand	%xmm0, %xmm1
	pcmpeqb	%xmm0, %xmm1
	pand	.LCPI56_2(%rip), %xmm1
	movdqa	%xmm1, 176(%rsp)
	cmpl	$145, %esi
	jb	.LBB56_39
	leaq	192(%rsp), %rcx
	xorl	%edx, %edx
	movq	40(%rsp), %r8
	callq	memset
	jmp	.LBB56_39
	.p2align	4
.LBB56_4:
	movzwl	880(%rsp,%rbx), %eax
	movq	368(%rsp,%rbx,8), %rdx
	movd	%edx, %xmm1
	pshufb	.LCPI56_0(%rip), %xmm1
	movq	376(%rsp,%rbx,8), %rcx
	movdqa	.LCPI56_1(%rip), %xmm0
	pand	%xmm0, %xmm1
	pcmpeqb	%xmm0, %xmm1
	pand	.LCPI56_2(%rip), %xmm1
	movdqu	%xmm1, (%rdi,%r14)
	cmpw	$17, %bp
	jb	.LBB56_12
	movd	%edx, %xmm1
	pshufb	.LCPI56_3(%rip), %xmm1
	pand	%xmm0, %xmm1
	pcmpeqb	%xmm0, %xmm1
	pand	.LCPI56_2(%rip), %xmm1
	movdqu	%xmm1, 16(%rdi,%r14)
	cmpw	$33, %bp
	jb	.LBB56_12
	movq	%rdx, %r8
	shrq	$32, %r8
	movd	%r8d, %xmm1
	pshufb	.LCPI56_0(%rip), %xmm1
	pand	%xmm0, %xmm1
	pcmpeqb	%xmm0, %xmm1
	pand	.LCPI56_2(%rip), %xmm1
	movdqu	%xmm1, 32(%rdi,%r14)
	cmpw	$49, %bp
	jb	.LBB56_12
	shrq	$48, %rdx
	movd	%edx, %xmm1
	pshufb	.LCPI56_0(%rip), %xmm1
	pand	%xmm0, %xmm1
	pcmpeqb	%xmm0, %xmm1
	pand	.LCPI56_2(%rip), %xmm1
	movdqu	%xmm1, 48(%rdi,%r14)
	cmpw	$65, %bp
	jb	.LBB56_12
	movd	%ecx, %xmm1
	pshufb	.LCPI56_0(%rip), %xmm1
	pand	%xmm0, %xmm1
	pcmpeqb	%xmm0, %xmm1
	pand	.LCPI56_2(%rip), %xmm1
	movdqu	%xmm1, 64(%rdi,%r14)
	cmpw	$81, %bp
	jb	.LBB56_12
	movd	%ecx, %xmm1
	pshufb	.LCPI56_3(%rip), %xmm1
	pand	%xmm0, %xmm1
	pcmpeqb	%xmm0, %xmm1
	pand	.LCPI56_2(%rip), %xmm1
	movdqu	%xmm1, 80(%rdi,%r14)
	cmpw	$97, %bp
	jb	.LBB56_12
	movq	%rcx, %rdx
	shrq	$32, %rdx
	movd	%edx, %xmm1
	pshufb	.LCPI56_0(%rip), %xmm1
	pand	%xmm0, %xmm1
	pcmpeqb	%xmm0, %xmm1
	pand	.LCPI56_2(%rip), %xmm1
	movdqu	%xmm1, 96(%rdi,%r14)
	cmpw	$113, %bp
	jb	.LBB56_12
	shrq	$48, %rcx
	movd	%ecx, %xmm1
	pshufb	.LCPI56_0(%rip), %xmm1
	pand	%xmm0, %xmm1
	pcmpeqb	%xmm0, %xmm1
	pand	.LCPI56_2(%rip), %xmm1
	movdqu	%xmm1, 112(%rdi,%r14)
	.p2align	4
.LBB56_12:
	cmpl	$129, %esi
	jb	.LBB56_40
	movd	%eax, %xmm1
	pshufb	.LCPI56_0(%rip), %xmm1
	pand	%xmm0, %xmm1
	pcmpeqb	%xmm0, %xmm1
	pand	.LCPI56_2(%rip), %xmm1
	movdqu	%xmm1, 128(%rdi,%r14)
	cmpl	$145, %esi
	jb	.LBB56_40
	leaq	(%rdi,%r14), %rcx
	addq	$144, %rcx
	xorl	%edx, %edx
	movq	40(%rsp), %r8
	callq	memset
	jmp	.LBB56_40
.LBB56_15:
	movl	%r12d, %r14d
	andl	$3, %r14d
	cmpw	$4, %r12w
	jae	.LBB56_17
	xorl	%r13d, %r13d
	jmp	.LBB56_24
.LBB56_17:
	movq	%rbx, 40(%rsp)
	andl	$-4, %r12d
	leal	(,%rsi,4), %ebp
	leal	(%rsi,%rsi), %ebx
	xorl	%r13d, %r13d
	jmp	.LBB56_18
	.p2align	4
.LBB56_22:
	addq	$4, %r13
	addq	%rbp, %rdi
	cmpq	%r13, %r12
	je	.LBB56_23
.LBB56_18:
	cmpl	%esi, %r15d
	ja	.LBB56_20
	movq	%rdi, %rcx
	xorl	%edx, %edx
	movq	%rsi, %r8
	callq	memset
	leaq	(%rdi,%rsi), %rcx
	xorl	%edx, %edx
	movq	%rsi, %r8
	callq	memset
.LBB56_20:
	cmpl	%esi, %r15d
	ja	.LBB56_22
	leaq	(%rdi,%rbx), %rcx
	xorl	%edx, %edx
	movq	%rsi, %r8
	callq	memset
	leaq	(%rsi,%rsi,2), %rax
	leaq	(%rdi,%rax), %rcx
	xorl	%edx, %edx
	movq	%rsi, %r8
	callq	memset
	jmp	.LBB56_22
.LBB56_23:
	testq	%r14, %r14
	movq	40(%rsp), %rbx
	je	.LBB56_41
.LBB56_24:
	imulq	%rsi, %r13
	leaq	(%rbx,%r13), %rdi
	addq	$10, %rdi
	jmp	.LBB56_25
	.p2align	4
.LBB56_27:
	addq	%rsi, %rdi
	decq	%r14
	je	.LBB56_41
.LBB56_25:
	cmpl	%esi, %r15d
	ja	.LBB56_27
	movq	%rdi, %rcx
	xorl	%edx, %edx
	movq	%rsi, %r8
	callq	memset
	jmp	.LBB56_27
.LBB56_41:
	movaps	944(%rsp), %xmm6
	addq	$968, %rsp
	popq	%rbx
	popq	%rbp
	popq	%rdi
	popq	%rsi
	popq	%r12
	popq	%r13
	popq	%r14
	popq	%r15
	retq
	.seh_endproc

	.def	"dm_symbol::symbol::writing::complete_in";
	.scl	3;
	.type	32;
	.endef
	.p2align	4
"dm_symbol::symbol::writing::complete_in":
.seh_proc "dm_symbol::symbol::writing::complete_in"
	pushq	%r15
	.seh_pushreg %r15
	pushq	%r14
	.seh_pushreg %r14
	pushq	%r13
	.seh_pushreg %r13
	pushq	%r12
	.seh_pushreg %r12
	pushq	%rsi
	.seh_pushreg %rsi
	pushq	%rdi
	.seh_pushreg %rdi
	pushq	%rbp
	.seh_pushreg %rbp
	pushq	%rbx
	.seh_pushreg %rbx
	subq	$856, %rsp
	.seh_stackalloc 856
	movaps	%xmm6, 832(%rsp)
	.seh_savexmm %xmm6, 832
	.seh_endprologue
	movq	%rcx, %rdi
	movzwl	12(%rdx), %esi
	movzwl	14(%rdx), %ebx
	movzwl	16(%rdx), %r14d
	movq	%rcx, %rax
	subq	%r8, %rax
	cmpq	%r9, %rax
	jae	.LBB57_50
	cmpq	$4, %r9
	setb	%cl
	cmpq	$32, %rax
	setb	%al
	orb	%cl, %al
	je	.LBB57_3
	xorl	%eax, %eax
	jmp	.LBB57_12
.LBB57_50:
	movq	%rdi, %rcx
	movq	%r8, %rdx
	movq	%r9, %r8
	callq	memmove
	jmp	.LBB57_17
.LBB57_3:
	cmpq	$16, %r9
	jae	.LBB57_5
	xorl	%eax, %eax
	jmp	.LBB57_9
.LBB57_5:
	movl	%r9d, %eax
	andl	$65520, %eax
	xorl	%ecx, %ecx
	.p2align	4
.LBB57_6:
	movups	(%r8,%rcx), %xmm0
	movups	%xmm0, (%rdi,%rcx)
	addq	$16, %rcx
	cmpq	%rcx, %rax
	jne	.LBB57_6
	cmpq	%rax, %r9
	je	.LBB57_17
	testb	$12, %r9b
	je	.LBB57_12
.LBB57_9:
	movq	%rax, %rcx
	movl	%r9d, %eax
	andl	$65532, %eax
	.p2align	4
.LBB57_10:
	movl	(%r8,%rcx), %edx
	movl	%edx, (%rdi,%rcx)
	addq	$4, %rcx
	cmpq	%rcx, %rax
	jne	.LBB57_10
	cmpq	%rax, %r9
	je	.LBB57_17
.LBB57_12:
	movq	%r9, %rdx
	movq	%rax, %rcx
	andq	$3, %rdx
	je	.LBB57_15
	movq	%rax, %rcx
	.p2align	4
.LBB57_14:
	movzbl	(%r8,%rcx), %r10d
	movb	%r10b, (%rdi,%rcx)
	incq	%rcx
	decq	%rdx
	jne	.LBB57_14
.LBB57_15:
	subq	%r9, %rax
	cmpq	$-4, %rax
	ja	.LBB57_17
	.p2align	4
.LBB57_16:
	movzbl	(%r8,%rcx), %eax
	movb	%al, (%rdi,%rcx)
	movzbl	1(%r8,%rcx), %eax
	movb	%al, 1(%rdi,%rcx)
	movzbl	2(%r8,%rcx), %eax
	movb	%al, 2(%rdi,%rcx)
	movzbl	3(%r8,%rcx), %eax
	movb	%al, 3(%rdi,%rcx)
	addq	$4, %rcx
	cmpq	%rcx, %r9
	jne	.LBB57_16
.LBB57_17:
	cmpl	$1, %r14d
	jne	.LBB57_22
	xorps	%xmm6, %xmm6
	movaps	%xmm6, 368(%rsp)
	movaps	%xmm6, 352(%rsp)
	movaps	%xmm6, 336(%rsp)
	movaps	%xmm6, 320(%rsp)
	movaps	%xmm6, 304(%rsp)
	movaps	%xmm6, 288(%rsp)
	leaq	288(%rsp), %rcx
	movq	%rdi, %rdx
	movq	%rsi, %r8
	movq	%rbx, %r9
	callq	"dm_code::encoding::divide"
	movaps	%xmm6, 624(%rsp)
	movaps	%xmm6, 608(%rsp)
	movaps	%xmm6, 592(%rsp)
	movaps	%xmm6, 576(%rsp)
	movaps	%xmm6, 560(%rsp)
	cmpw	$68, %bx
	jbe	.LBB57_20
	xorl	%ebx, %ebx
	jmp	.LBB57_21
.LBB57_22:
	testq	%r14, %r14
	je	.LBB57_49
	leal	(%rbx,%rsi), %eax
	movzwl	%ax, %eax
	addq	%r14, %rax
	movq	%rax, 32(%rsp)
	addl	%r14d, %esi
	movq	%rsi, 40(%rsp)
	xorl	%r12d, %r12d
	movl	%ebx, %eax
	xorl	%edx, %edx
	divw	%r14w
	movzwl	%ax, %ebx
	leaq	(%r14,%r14,2), %r13
	leal	(,%r14,4), %ebp
	movq	%rdi, %rsi
	jmp	.LBB57_24
	.p2align	4
.LBB57_48:
	incq	%r12
	incq	%rsi
	cmpq	%r14, %r12
	je	.LBB57_49
.LBB57_24:
	xorps	%xmm0, %xmm0
	movaps	%xmm0, 48(%rsp)
	movaps	%xmm0, 64(%rsp)
	movaps	%xmm0, 80(%rsp)
	movaps	%xmm0, 96(%rsp)
	movaps	%xmm0, 112(%rsp)
	movaps	%xmm0, 208(%rsp)
	movaps	%xmm0, 224(%rsp)
	movaps	%xmm0, 240(%rsp)
	movaps	%xmm0, 256(%rsp)
	movaps	%xmm0, 272(%rsp)
	leaq	288(%rsp), %rcx
	movl	$264, %r8d
	xorl	%edx, %edx
	callq	memset
	movq	%r12, %rax
	notq	%rax
	addq	32(%rsp), %rax
	cmpq	%r14, %rax
	jb	.LBB57_36
	movq	%rax, %rcx
	shrq	$32, %rcx
	je	.LBB57_26
	xorl	%edx, %edx
	divq	%r14
	jmp	.LBB57_28
.LBB57_26:
	xorl	%edx, %edx
	divl	%r14d
.LBB57_28:
	cmpq	$1, %rax
	movq	%rax, %rdx
	adcq	$0, %rdx
	movl	%edx, %ecx
	andl	$3, %ecx
	cmpq	$4, %rax
	jae	.LBB57_30
	xorl	%eax, %eax
	jmp	.LBB57_34
	.p2align	4
.LBB57_30:
	andq	$-4, %rdx
	negq	%rdx
	movl	$2, %eax
	movq	%rsi, %r8
	.p2align	4
.LBB57_31:
	movzbl	(%r8), %r9d
	movb	%r9b, 286(%rsp,%rax)
	leaq	-1(%rax), %r9
	movq	%r9, 544(%rsp)
	movzbl	(%r8,%r14), %r9d
	movb	%r9b, 287(%rsp,%rax)
	movq	%rax, 544(%rsp)
	movzbl	(%r8,%r14,2), %r9d
	movb	%r9b, 288(%rsp,%rax)
	leaq	1(%rax), %r9
	movq	%r9, 544(%rsp)
	movzbl	(%r8,%r13), %r9d
	movb	%r9b, 289(%rsp,%rax)
	leaq	2(%rax), %r9
	movq	%r9, 544(%rsp)
	addq	%rbp, %r8
	leaq	(%rdx,%rax), %r9
	addq	$4, %r9
	addq	$4, %rax
	cmpq	$2, %r9
	jne	.LBB57_31
	testq	%rcx, %rcx
	je	.LBB57_36
	addq	$-2, %rax
.LBB57_34:
	movq	%r14, %rdx
	imulq	%rax, %rdx
	incq	%rax
	addq	%rsi, %rdx
	.p2align	4
.LBB57_35:
	movzbl	(%rdx), %r8d
	movb	%r8b, 287(%rsp,%rax)
	movq	%rax, 544(%rsp)
	incq	%rax
	addq	%r14, %rdx
	decq	%rcx
	jne	.LBB57_35
.LBB57_36:
	leaq	560(%rsp), %rcx
	leaq	288(%rsp), %rdx
	movl	$264, %r8d
	callq	memcpy
	movl	%r12d, %eax
	notl	%eax
	addl	40(%rsp), %eax
	xorl	%edx, %edx
	divw	%r14w
	movzwl	%ax, %r15d
	movq	816(%rsp), %r8
	movq	%r8, %rax
	subq	%r15, %rax
	jbe	.LBB57_38
	leaq	(%rsp,%r15), %rcx
	addq	$560, %rcx
	xorl	%edx, %edx
	movq	%rax, %r8
	callq	memset
	movq	%r15, 816(%rsp)
	movq	%r15, %r8
.LBB57_38:
	xorps	%xmm6, %xmm6
	movaps	%xmm6, 368(%rsp)
	movaps	%xmm6, 352(%rsp)
	movaps	%xmm6, 336(%rsp)
	movaps	%xmm6, 320(%rsp)
	movaps	%xmm6, 304(%rsp)
	movaps	%xmm6, 288(%rsp)
	leaq	288(%rsp), %rcx
	leaq	560(%rsp), %rdx
	movq	%rbx, %r9
	callq	"dm_code::encoding::divide"
	movaps	%xmm6, 192(%rsp)
	movaps	%xmm6, 176(%rsp)
	movaps	%xmm6, 160(%rsp)
	movaps	%xmm6, 144(%rsp)
	movaps	%xmm6, 128(%rsp)
	cmpw	$68, %bx
	ja	.LBB57_40
	leaq	128(%rsp), %rcx
	leaq	288(%rsp), %rdx
	movq	%rbx, %r8
	callq	memcpy
	movq	%rbx, 200(%rsp)
.LBB57_40:
	movaps	192(%rsp), %xmm0
	movaps	%xmm0, 272(%rsp)
	movaps	128(%rsp), %xmm1
	movaps	144(%rsp), %xmm2
	movaps	160(%rsp), %xmm3
	movaps	176(%rsp), %xmm4
	movaps	%xmm4, 256(%rsp)
	movaps	%xmm3, 240(%rsp)
	movaps	%xmm2, 224(%rsp)
	movaps	%xmm1, 208(%rsp)
	movaps	%xmm0, 112(%rsp)
	movaps	%xmm1, 48(%rsp)
	movaps	%xmm2, 64(%rsp)
	movaps	%xmm3, 80(%rsp)
	movaps	%xmm4, 96(%rsp)
	movq	120(%rsp), %r8
	testq	%r8, %r8
	je	.LBB57_48
	leaq	(%rdi,%r12), %rax
	movl	%r8d, %ecx
	andl	$3, %ecx
	cmpq	$4, %r8
	jae	.LBB57_43
	xorl	%edx, %edx
	jmp	.LBB57_46
	.p2align	4
.LBB57_43:
	andq	$-4, %r8
	xorl	%edx, %edx
	.p2align	4
.LBB57_44:
	movzbl	48(%rsp,%rdx), %r9d
	leaq	(%rdx,%r15), %r10
	imulq	%r14, %r10
	movb	%r9b, (%rax,%r10)
	movzbl	49(%rsp,%rdx), %r9d
	leaq	(%rdx,%r15), %r10
	incq	%r10
	imulq	%r14, %r10
	movb	%r9b, (%rax,%r10)
	movzbl	50(%rsp,%rdx), %r9d
	leaq	(%rdx,%r15), %r10
	addq	$2, %r10
	imulq	%r14, %r10
	movb	%r9b, (%rax,%r10)
	movzbl	51(%rsp,%rdx), %r9d
	leaq	(%rdx,%r15), %r10
	addq	$3, %r10
	imulq	%r14, %r10
	movb	%r9b, (%rax,%r10)
	addq	$4, %rdx
	cmpq	%rdx, %r8
	jne	.LBB57_44
	testq	%rcx, %rcx
	je	.LBB57_48
.LBB57_46:
	leaq	(%rsp,%rdx), %r8
	addq	$48, %r8
	xorl	%r9d, %r9d
	.p2align	4
.LBB57_47:
	movzbl	(%r8,%r9), %r10d
	leaq	(%rdx,%r15), %r11
	imulq	%r14, %r11
	movb	%r10b, (%rax,%r11)
	incq	%rdx
	incq	%r9
	cmpq	%r9, %rcx
	jne	.LBB57_47
	jmp	.LBB57_48
.LBB57_20:
	leaq	560(%rsp), %rcx
	leaq	288(%rsp), %rdx
	movq	%rbx, %r8
	callq	memcpy
	movq	%rbx, 632(%rsp)
.LBB57_21:
	addq	%rsi, %rdi
	leaq	560(%rsp), %rdx
	movq	%rdi, %rcx
	movq	%rbx, %r8
	callq	memcpy
.LBB57_49:
	movaps	832(%rsp), %xmm6
	addq	$856, %rsp
	popq	%rbx
	popq	%rbp
	popq	%rdi
	popq	%rsi
	popq	%r12
	popq	%r13
	popq	%r14
	popq	%r15
	retq
	.seh_endproc

	.def	"dm_layout::symbols::placing::lay_list";
	.scl	3;
	.type	32;
	.endef
	.section	.rdata,"dr"
	.p2align	4, 0x0
.LCPI58_0:
	.long	15
	.long	0
	.long	0
	.long	0
.LCPI58_1:
	.short	65535
	.short	0
	.short	65535
	.short	65535
	.short	0
	.short	65533
	.short	0
	.zero	2
.LCPI58_2:
	.zero	2
	.short	0
	.zero	2
	.zero	2
	.short	0
	.zero	2
	.short	0
	.short	65534
.LCPI58_3:
	.short	1
	.short	1
	.short	1
	.zero	2
	.zero	2
	.zero	2
	.zero	2
	.zero	2
.LCPI58_4:
	.quad	15
	.quad	15
.LCPI58_5:
	.byte	1
	.byte	1
	.zero	1
	.zero	1
	.zero	1
	.zero	1
	.zero	1
	.zero	1
	.zero	1
	.zero	1
	.zero	1
	.zero	1
	.zero	1
	.zero	1
	.zero	1
	.zero	1
.LCPI58_6:
	.short	2
	.short	3
	.zero	2
	.zero	2
	.zero	2
	.zero	2
	.zero	2
	.zero	2
.LCPI58_7:
	.quad	1
	.quad	1
.LCPI58_8:
	.long	15
	.text
	.p2align	4
"dm_layout::symbols::placing::lay_list":
.seh_proc "dm_layout::symbols::placing::lay_list"
	pushq	%r15
	.seh_pushreg %r15
	pushq	%r14
	.seh_pushreg %r14
	pushq	%r13
	.seh_pushreg %r13
	pushq	%r12
	.seh_pushreg %r12
	pushq	%rsi
	.seh_pushreg %rsi
	pushq	%rdi
	.seh_pushreg %rdi
	pushq	%rbp
	.seh_pushreg %rbp
	pushq	%rbx
	.seh_pushreg %rbx
	movl	$9064, %eax
	callq	___chkstk_ms
	subq	%rax, %rsp
	.seh_stackalloc 9064
	.seh_endprologue
	movq	%r9, 136(%rsp)
	movq	%r8, %r15
	movq	%rdx, %rbp
	movq	$-1, %r12
	movzwl	2(%rcx), %r8d
	movzwl	4(%rcx), %r14d
	movzwl	6(%rcx), %edx
	movzwl	8(%rcx), %esi
	movzwl	10(%rcx), %eax
	movl	%eax, 56(%rsp)
	movl	%eax, %ecx
	movq	%rdx, 40(%rsp)
	imull	%edx, %ecx
	movq	%rcx, 72(%rsp)
	movl	%ecx, %edi
	movabsq	$217020518514230019, %rcx
	movw	%r8w, 128(%rsp)
	movzwl	%r8w, %eax
	movl	%eax, 216(%rsp)
	cmpw	$56, %di
	movq	%r15, 152(%rsp)
	movq	%rsi, 144(%rsp)
	movq	%r14, 120(%rsp)
	ja	.LBB58_94
	leaq	384(%rsp), %r13
	movl	$496, %r8d
	movq	%r13, %rcx
	xorl	%edx, %edx
	callq	memset
	movl	%r14d, %ebx
	imull	%esi, %ebx
	leaq	4800(%rsp), %rcx
	movl	$456, %r8d
	xorl	%edx, %edx
	callq	memset
	leaq	336(%rsp), %rcx
	movl	%ebx, %edx
	movl	%edi, %r8d
	callq	"dm_layout::symbols::slots::order"
	movq	344(%rsp), %rax
	testq	%rax, %rax
	je	.LBB58_8
	movq	336(%rsp), %rcx
	cmpq	$1, %rax
	jne	.LBB58_4
	xorl	%edx, %edx
	jmp	.LBB58_7
.LBB58_94:
	movl	%r14d, %r12d
	imull	%esi, %r12d
	cmpw	$120, %di
	movq	%r12, 48(%rsp)
	ja	.LBB58_175
	movq	%rcx, %r15
	leaq	384(%rsp), %r13
	movl	$2016, %r8d
	movq	%r13, %rcx
	xorl	%edx, %edx
	callq	memset
	leaq	4800(%rsp), %rcx
	movl	$1936, %r8d
	xorl	%edx, %edx
	callq	memset
	leaq	336(%rsp), %rcx
	movl	%r12d, %edx
	movl	%edi, %r8d
	callq	"dm_layout::symbols::slots::order"
	movq	344(%rsp), %rax
	testq	%rax, %rax
	je	.LBB58_102
	movq	336(%rsp), %rcx
	cmpq	$1, %rax
	jne	.LBB58_98
	xorl	%edx, %edx
	jmp	.LBB58_101
.LBB58_175:
	leaq	384(%rsp), %r13
	movl	$4416, %r8d
	movq	%r13, %rcx
	xorl	%edx, %edx
	callq	memset
	leaq	4800(%rsp), %rcx
	movl	$4256, %r8d
	xorl	%edx, %edx
	callq	memset
	leaq	336(%rsp), %rcx
	movl	%r12d, %edx
	movl	%edi, %r8d
	callq	"dm_layout::symbols::slots::order"
	movq	344(%rsp), %rax
	testq	%rax, %rax
	je	.LBB58_182
	movq	336(%rsp), %rcx
	cmpq	$1, %rax
	jne	.LBB58_178
	xorl	%edx, %edx
	jmp	.LBB58_181
.LBB58_4:
	movq	%rax, %r8
	andq	$-2, %r8
	xorl	%edx, %edx
	.p2align	4
.LBB58_5:
	movzwl	(%rcx,%rdx,2), %r9d
	movzbl	(%rbp,%rdx), %r10d
	leaq	.Lstatic.2(%rip), %r11
	movzbl	(%r10,%r11), %r10d
	orb	%r10b, 4800(%rsp,%r9)
	movzwl	2(%rcx,%rdx,2), %r9d
	movzbl	1(%rbp,%rdx), %r10d
	movzbl	(%r10,%r11), %r10d
	orb	%r10b, 4800(%rsp,%r9)
	addq	$2, %rdx
	cmpq	%rdx, %r8
	jne	.LBB58_5
	testb	$1, %al
	je	.LBB58_8
.LBB58_7:
	movzwl	(%rcx,%rdx,2), %ecx
	movzbl	(%rbp,%rdx), %edx
	leaq	.Lstatic.2(%rip), %r8
	movzbl	(%rdx,%r8), %edx
	orb	%dl, 4800(%rsp,%rcx)
.LBB58_8:
	movq	360(%rsp), %r9
	testq	%r9, %r9
	movq	%rbx, 32(%rsp)
	je	.LBB58_15
	movq	352(%rsp), %rdx
	movq	368(%rsp), %rcx
	cmpq	$1, %r9
	jne	.LBB58_11
	xorl	%r8d, %r8d
	jmp	.LBB58_14
.LBB58_11:
	movw	%di, 80(%rsp)
	movq	%r9, %r10
	andq	$-2, %r10
	leaq	(%rax,%rbp), %r11
	incq	%r11
	xorl	%r8d, %r8d
	.p2align	4
.LBB58_12:
	movzwl	(%rdx,%r8,2), %esi
	subq	%rcx, %rsi
	movzbl	-1(%r11,%r8), %edi
	leaq	.Lstatic.2(%rip), %rbx
	movzbl	(%rdi,%rbx), %edi
	orb	%dil, 4800(%rsp,%rsi)
	movzwl	2(%rdx,%r8,2), %esi
	subq	%rcx, %rsi
	movzbl	(%r11,%r8), %edi
	movzbl	(%rdi,%rbx), %ebx
	orb	%bl, 4800(%rsp,%rsi)
	addq	$2, %r8
	cmpq	%r8, %r10
	jne	.LBB58_12
	testb	$1, %r9b
	movzwl	80(%rsp), %edi
	movq	32(%rsp), %rbx
	je	.LBB58_15
.LBB58_14:
	addq	%rax, %rbp
	movzwl	(%rdx,%r8,2), %eax
	subq	%rcx, %rax
	movzbl	(%rbp,%r8), %ecx
	leaq	.Lstatic.2(%rip), %rdx
	movzbl	(%rcx,%rdx), %ecx
	orb	%cl, 4800(%rsp,%rax)
.LBB58_15:
	movzwl	%bx, %r8d
	testw	%bx, %bx
	je	.LBB58_16
	movabsq	$506381209866536711, %rax
	movq	392(%rsp), %r11
	xorl	%edx, %edx
	xorl	%r9d, %r9d
	movl	56(%rsp), %ebp
	movabsq	$217020518514230019, %r13
	.p2align	4
.LBB58_18:
	movq	4800(%rsp,%r9,8), %r10
	movq	%r10, %rsi
	andq	%r13, %rsi
	movl	%edx, %ecx
	andb	$7, %cl
	xorb	$4, %cl
	addb	$2, %cl
	shlq	%cl, %rsi
	orq	%rsi, 384(%rsp,%r9,8)
	movq	%r10, %rsi
	shrq	$2, %rsi
	andq	%rax, %rsi
	shlq	%cl, %rsi
	orq	%r11, %rsi
	shrq	$5, %r10
	andq	%rax, %r10
	shlq	%cl, %r10
	movq	%rsi, 392(%rsp,%r9,8)
	orq	400(%rsp,%r9,8), %r10
	movq	%r10, 400(%rsp,%r9,8)
	incq	%r9
	addq	$3, %rdx
	movq	%r10, %r11
	cmpq	%r9, %r8
	jne	.LBB58_18
	movl	%ebx, %eax
	andl	$7, %eax
	movl	%eax, %ecx
	xorl	$4, %ecx
	movq	384(%rsp), %r9
	leaq	(%rsp,%r8,8), %r13
	addq	$384, %r13
	movq	384(%rsp,%r8,8), %rdx
	cmpw	$4, %cx
	ja	.LBB58_22
	movq	8(%r13), %r10
	movzwl	%cx, %ecx
	movl	$4, %r11d
	subl	%ecx, %r11d
	movslq	%r11d, %rcx
	jmp	.LBB58_21
.LBB58_16:
	xorl	%r10d, %r10d
	xorl	%edx, %edx
	xorl	%r9d, %r9d
	xorl	%ecx, %ecx
	xorl	%eax, %eax
	movl	56(%rsp), %ebp
.LBB58_21:
	shlq	%cl, %r9
	orq	%rdx, %r9
	movq	%r9, (%r13)
	movq	392(%rsp), %rdx
	shlq	%cl, %rdx
	orq	%r10, %rdx
	jmp	.LBB58_23
.LBB58_22:
	addb	$-4, %cl
	shrq	%cl, %r9
	orq	%r9, %rdx
	movq	%rdx, (%r13)
	movq	392(%rsp), %rdx
	shrq	%cl, %rdx
	orq	8(%r13), %rdx
.LBB58_23:
	movq	%rdx, 8(%r13)
	leal	2(%rbx), %r9d
	movq	72(%rsp), %rcx
	movl	%ecx, %edx
	andl	$7, %edx
	cmpw	$5, %r9w
	jb	.LBB58_38
	movzwl	%dx, %r10d
	xorl	$65531, %r10d
	movzwl	%di, %ecx
	movzwl	%r9w, %r9d
	leaq	-4(%r9), %rsi
	movl	$4, %r11d
	cmpq	$14, %rsi
	jae	.LBB58_25
.LBB58_33:
	movl	%r9d, %edi
	subl	%r11d, %edi
	movq	%r11, %rsi
	testb	$1, %dil
	je	.LBB58_35
	movl	%r10d, %esi
	addl	$5, %esi
	addl	%r11d, %esi
	movq	384(%rsp,%r11,8), %rdi
	andl	$15, %edi
	shlq	%cl, %rdi
	movzwl	%si, %esi
	orq	%rdi, 384(%rsp,%rsi,8)
	leaq	1(%r11), %rsi
.LBB58_35:
	leal	-1(%r9), %edi
	cmpl	%edi, %r11d
	je	.LBB58_38
	movswq	%r10w, %r10
	leaq	6(%r10), %r11
	addq	$5, %r10
	.p2align	4
.LBB58_37:
	leal	(%r10,%rsi), %edi
	movq	384(%rsp,%rsi,8), %rbx
	andl	$15, %ebx
	shlq	%cl, %rbx
	movzwl	%di, %edi
	orq	%rbx, 384(%rsp,%rdi,8)
	leal	(%r11,%rsi), %edi
	movq	392(%rsp,%rsi,8), %rbx
	andl	$15, %ebx
	shlq	%cl, %rbx
	movzwl	%di, %edi
	orq	%rbx, 384(%rsp,%rdi,8)
	addq	$2, %rsi
	cmpq	%rsi, %r9
	jne	.LBB58_37
.LBB58_38:
	movups	16(%r13), %xmm0
	movups	400(%rsp), %xmm1
	orps	%xmm0, %xmm1
	movdqu	416(%rsp), %xmm0
	movups	%xmm1, 400(%rsp)
	movdqu	32(%r13), %xmm1
	por	%xmm0, %xmm1
	movdqu	%xmm1, 416(%rsp)
	movzbl	5248(%rsp), %ecx
	leaq	.Lstatic.2(%rip), %r9
	movzbl	(%rcx,%r9), %r9d
	cmpw	$4, %dx
	jne	.LBB58_41
	cmpw	$4, %ax
	jne	.LBB58_41
	movq	32(%rsp), %rsi
	leal	-1(%rsi), %ecx
	movl	%r9d, %eax
	shrl	$3, %eax
	movl	%eax, %r10d
	andb	$16, %r10b
	movzwl	%cx, %ecx
	movl	%r9d, %edx
	shrb	%dl
	movl	%edx, %r11d
	andb	$32, %r11b
	orb	%r10b, %r11b
	leal	(%r9,%r9), %r10d
	andb	$64, %r10b
	orb	%r11b, %r10b
	movzbl	%r10b, %r10d
	orq	%r10, 400(%rsp,%rcx,8)
	movl	%r9d, %r10d
	shrl	$4, %r10d
	andl	$1, %r10d
	movq	72(%rsp), %r13
	movl	%r13d, %ecx
	orb	$2, %cl
	shlq	%cl, %r10
	movl	%r13d, %ecx
	orl	$3, %ecx
	andl	$1, %eax
	shlq	%cl, %rax
	movzbl	%dl, %edx
	movl	%r9d, %r11d
	shrl	$2, %r11d
	andl	$1, %r11d
	shlq	%cl, %r11
	movzwl	%cx, %ecx
	orq	%r10, %rax
	movq	%rax, %xmm0
	movq	%r11, %xmm1
	punpcklqdq	%xmm1, %xmm0
	movdqu	400(%rsp), %xmm1
	por	%xmm0, %xmm1
	movdqu	416(%rsp), %xmm0
	movdqu	%xmm1, 400(%rsp)
	movd	%edx, %xmm1
	pinsrb	$1, %r9d, %xmm1
	pand	.LCPI58_5(%rip), %xmm1
	pmovzxbq	%xmm1, %xmm1
	movd	%ecx, %xmm2
	psllq	%xmm2, %xmm1
	por	%xmm0, %xmm1
	movdqu	%xmm1, 416(%rsp)
	movq	40(%rsp), %r10
	jmp	.LBB58_50
.LBB58_41:
	cmpw	$6, %dx
	movq	40(%rsp), %r10
	movq	32(%rsp), %rsi
	jne	.LBB58_44
	cmpw	$6, %ax
	jne	.LBB58_44
	leal	-3(%rsi), %eax
	movq	%r10, %rdi
	leal	-2(%rsi), %r10d
	leal	-1(%rsi), %ecx
	movl	%r9d, %edx
	shrl	$3, %edx
	movl	%edx, %r11d
	andl	$-16, %r11d
	movzwl	%ax, %eax
	orq	%r11, 400(%rsp,%rax,8)
	movl	%r9d, %eax
	shrl	$2, %eax
	movl	%eax, %r11d
	andl	$16, %r11d
	movzwl	%r10w, %r10d
	orq	%r11, 400(%rsp,%r10,8)
	movl	%r9d, %r10d
	shrl	%r10d
	movl	%r10d, %r11d
	andl	$16, %r11d
	movzwl	%cx, %ecx
	orq	%r11, 400(%rsp,%rcx,8)
	movl	%r9d, %ecx
	shrb	$4, %cl
	andb	$1, %cl
	movzbl	%cl, %r11d
	movq	72(%rsp), %r13
	movl	%r13d, %ecx
	shlq	%cl, %r11
	andl	$1, %edx
	orb	$1, %cl
	shlq	%cl, %rdx
	andl	$1, %eax
	leal	2(%r13), %ecx
	shlq	%cl, %rax
	orq	%rdx, %rax
	andl	$1, %r10d
	leal	3(%r13), %ecx
	shlq	%cl, %r10
	andl	$1, %r9d
	shlq	%cl, %r9
	orq	%r11, %rax
	orq	%rax, %r10
	movdqu	400(%rsp), %xmm0
	movq	%r10, %xmm1
	movq	%rdi, %r10
	movq	%r9, %xmm2
	punpcklqdq	%xmm2, %xmm1
	por	%xmm0, %xmm1
	movdqu	%xmm1, 400(%rsp)
	jmp	.LBB58_50
.LBB58_44:
	cmpw	$4, %dx
	jne	.LBB58_47
	cmpw	$6, %ax
	jne	.LBB58_47
	leal	-3(%rsi), %ecx
	leal	-2(%rsi), %r11d
	movq	%r10, %rdi
	leal	-1(%rsi), %r10d
	movl	%r9d, %eax
	shrl	$3, %eax
	movl	%eax, %edx
	andl	$-16, %edx
	movzwl	%cx, %ecx
	orq	%rdx, 400(%rsp,%rcx,8)
	movl	%r9d, %edx
	shrl	$2, %edx
	movl	%edx, %ecx
	andl	$16, %ecx
	movzwl	%r11w, %r11d
	orq	%rcx, 400(%rsp,%r11,8)
	movl	%r9d, %ecx
	shrb	%cl
	movl	%ecx, %r11d
	andb	$16, %r11b
	movzbl	%r11b, %r11d
	movzwl	%r10w, %r10d
	orq	%r11, 400(%rsp,%r10,8)
	movzbl	%cl, %r10d
	movl	%r9d, %ecx
	shrb	$4, %cl
	andb	$1, %cl
	movzbl	%cl, %r11d
	movq	72(%rsp), %r13
	movl	%r13d, %ecx
	orb	$2, %cl
	shlq	%cl, %r11
	movl	%r13d, %ecx
	orl	$3, %ecx
	andl	$1, %eax
	shlq	%cl, %rax
	andl	$1, %edx
	shlq	%cl, %rdx
	movzwl	%cx, %ecx
	orq	%r11, %rax
	movq	%rax, %xmm0
	movq	%rdx, %xmm1
	punpcklqdq	%xmm1, %xmm0
	movdqu	400(%rsp), %xmm1
	por	%xmm0, %xmm1
	movdqu	416(%rsp), %xmm0
	movdqu	%xmm1, 400(%rsp)
	movd	%r10d, %xmm1
	movq	%rdi, %r10
	pinsrb	$1, %r9d, %xmm1
	pand	.LCPI58_5(%rip), %xmm1
	pmovzxbq	%xmm1, %xmm1
	movd	%ecx, %xmm2
	psllq	%xmm2, %xmm1
	por	%xmm0, %xmm1
	movdqu	%xmm1, 416(%rsp)
	jmp	.LBB58_50
.LBB58_25:
	leaq	-5(%r9), %rbx
	movswl	%r10w, %edi
	movl	$-10, %ebp
	subl	%edi, %ebp
	cmpw	%bx, %bp
	jb	.LBB58_26
	cmpl	$65535, %ebx
	movl	56(%rsp), %ebp
	ja	.LBB58_33
	leal	72(,%rdi,8), %edi
	movzwl	%di, %edi
	leaq	(%rsp,%rdi), %r14
	addq	$384, %r14
	leaq	(%rsp,%r9,8), %rbx
	addq	$384, %rbx
	cmpq	%rbx, %r14
	movq	120(%rsp), %r14
	jae	.LBB58_30
	addq	%rbx, %rdi
	addq	$-32, %rdi
	leaq	416(%rsp), %rbx
	cmpq	%rdi, %rbx
	jb	.LBB58_33
.LBB58_30:
	movq	%rsi, %rdi
	andq	$-2, %rdi
	leaq	4(%rdi), %r11
	movd	%ecx, %xmm0
	movswq	%r10w, %rbx
	addq	$9, %rbx
	xorl	%r14d, %r14d
	.p2align	4
.LBB58_31:
	leal	(%rbx,%r14), %ebp
	movdqu	416(%rsp,%r14,8), %xmm1
	pand	.LCPI58_4(%rip), %xmm1
	psllq	%xmm0, %xmm1
	movzwl	%bp, %r15d
	movdqu	384(%rsp,%r15,8), %xmm2
	por	%xmm1, %xmm2
	movdqu	%xmm2, 384(%rsp,%r15,8)
	addq	$2, %r14
	cmpq	%r14, %rdi
	jne	.LBB58_31
	cmpl	%edi, %esi
	movq	152(%rsp), %r15
	movq	120(%rsp), %r14
	movl	56(%rsp), %ebp
	jne	.LBB58_33
	jmp	.LBB58_38
.LBB58_98:
	movq	%rax, %r8
	andq	$-2, %r8
	xorl	%edx, %edx
	.p2align	4
.LBB58_99:
	movzwl	(%rcx,%rdx,2), %r9d
	movzbl	(%rbp,%rdx), %r10d
	leaq	.Lstatic.2(%rip), %r11
	movzbl	(%r10,%r11), %r10d
	orb	%r10b, 4800(%rsp,%r9)
	movzwl	2(%rcx,%rdx,2), %r9d
	movzbl	1(%rbp,%rdx), %r10d
	movzbl	(%r10,%r11), %r10d
	orb	%r10b, 4800(%rsp,%r9)
	addq	$2, %rdx
	cmpq	%rdx, %r8
	jne	.LBB58_99
	testb	$1, %al
	je	.LBB58_102
.LBB58_101:
	movzwl	(%rcx,%rdx,2), %ecx
	movzbl	(%rbp,%rdx), %edx
	leaq	.Lstatic.2(%rip), %r8
	movzbl	(%rdx,%r8), %edx
	orb	%dl, 4800(%rsp,%rcx)
.LBB58_102:
	movq	360(%rsp), %r9
	testq	%r9, %r9
	je	.LBB58_109
	movq	352(%rsp), %rdx
	movq	368(%rsp), %rcx
	cmpq	$1, %r9
	jne	.LBB58_105
	xorl	%r8d, %r8d
	jmp	.LBB58_108
.LBB58_178:
	movq	%rax, %r8
	andq	$-2, %r8
	xorl	%edx, %edx
	.p2align	4
.LBB58_179:
	movzwl	(%rcx,%rdx,2), %r9d
	movzbl	(%rbp,%rdx), %r10d
	leaq	.Lstatic.2(%rip), %r11
	movzbl	(%r10,%r11), %r10d
	orb	%r10b, 4800(%rsp,%r9)
	movzwl	2(%rcx,%rdx,2), %r9d
	movzbl	1(%rbp,%rdx), %r10d
	movzbl	(%r10,%r11), %r10d
	orb	%r10b, 4800(%rsp,%r9)
	addq	$2, %rdx
	cmpq	%rdx, %r8
	jne	.LBB58_179
	testb	$1, %al
	je	.LBB58_182
.LBB58_181:
	movzwl	(%rcx,%rdx,2), %ecx
	movzbl	(%rbp,%rdx), %edx
	leaq	.Lstatic.2(%rip), %r8
	movzbl	(%rdx,%r8), %edx
	orb	%dl, 4800(%rsp,%rcx)
.LBB58_182:
	movq	360(%rsp), %r9
	testq	%r9, %r9
	je	.LBB58_189
	movq	352(%rsp), %rdx
	movq	368(%rsp), %rcx
	cmpq	$1, %r9
	jne	.LBB58_185
	xorl	%r8d, %r8d
	jmp	.LBB58_188
.LBB58_105:
	movq	%r9, %r10
	andq	$-2, %r10
	leaq	(%rax,%rbp), %r11
	incq	%r11
	xorl	%r8d, %r8d
	.p2align	4
.LBB58_106:
	movzwl	(%rdx,%r8,2), %esi
	subq	%rcx, %rsi
	movzbl	-1(%r11,%r8), %edi
	leaq	.Lstatic.2(%rip), %rbx
	movzbl	(%rdi,%rbx), %edi
	orb	%dil, 4800(%rsp,%rsi)
	movzwl	2(%rdx,%r8,2), %esi
	subq	%rcx, %rsi
	movzbl	(%r11,%r8), %edi
	movzbl	(%rdi,%rbx), %ebx
	orb	%bl, 4800(%rsp,%rsi)
	addq	$2, %r8
	cmpq	%r8, %r10
	jne	.LBB58_106
	testb	$1, %r9b
	je	.LBB58_109
.LBB58_108:
	addq	%rax, %rbp
	movzwl	(%rdx,%r8,2), %eax
	subq	%rcx, %rax
	movzbl	(%rbp,%r8), %ecx
	leaq	.Lstatic.2(%rip), %rdx
	movzbl	(%rcx,%rdx), %ecx
	orb	%cl, 4800(%rsp,%rax)
.LBB58_109:
	testw	%r12w, %r12w
	je	.LBB58_110
	movabsq	$506381209866536711, %rdx
	movzwl	%r12w, %eax
	movq	400(%rsp), %rdi
	movq	408(%rsp), %r14
	leaq	(%rax,%rax,2), %r8
	xorl	%r9d, %r9d
	xorl	%r10d, %r10d
	movq	%r15, %r13
	.p2align	4
.LBB58_112:
	movq	4800(%rsp,%r10), %r11
	movq	4808(%rsp,%r10), %rsi
	movq	%r11, %rbx
	andq	%r13, %rbx
	movq	%rsi, %r15
	andq	%r13, %r15
	movl	%r9d, %ecx
	andb	$7, %cl
	xorb	$4, %cl
	addb	$2, %cl
	shldq	%cl, %rbx, %r15
	shlq	%cl, %rbx
	orq	%rbx, 384(%rsp,%r10)
	movq	%rsi, %rbx
	shrq	$2, %rbx
	movq	%r11, %r12
	shrq	$2, %r12
	andq	%rdx, %r12
	andq	%rdx, %rbx
	shldq	%cl, %r12, %rbx
	orq	%r15, 392(%rsp,%r10)
	orq	%r14, %rbx
	shlq	%cl, %r12
	orq	%rdi, %r12
	movq	%rbx, 408(%rsp,%r10)
	movq	%r12, 400(%rsp,%r10)
	shrq	$5, %rsi
	shrq	$5, %r11
	andq	%rdx, %r11
	andq	%rdx, %rsi
	shldq	%cl, %r11, %rsi
	shlq	%cl, %r11
	orq	424(%rsp,%r10), %rsi
	orq	416(%rsp,%r10), %r11
	movq	%r11, 416(%rsp,%r10)
	movq	%rsi, 424(%rsp,%r10)
	addq	$3, %r9
	addq	$16, %r10
	movq	%r11, %rdi
	movq	%rsi, %r14
	cmpq	%r9, %r8
	jne	.LBB58_112
	shll	$4, %eax
	movq	48(%rsp), %r12
	movl	%r12d, %edx
	andl	$7, %edx
	movl	%edx, %ecx
	xorl	$4, %ecx
	movq	384(%rsp), %r8
	movq	392(%rsp), %r9
	leaq	(%rsp,%rax), %r13
	addq	$384, %r13
	movq	384(%rsp,%rax), %r10
	movq	392(%rsp,%rax), %rax
	cmpw	$4, %cx
	ja	.LBB58_116
	movq	16(%r13), %r11
	movq	24(%r13), %rsi
	movzwl	%cx, %edi
	movl	$4, %ecx
	subl	%edi, %ecx
	jmp	.LBB58_115
.LBB58_110:
	xorl	%r11d, %r11d
	xorl	%esi, %esi
	xorl	%r10d, %r10d
	xorl	%eax, %eax
	xorl	%r8d, %r8d
	xorl	%r9d, %r9d
	xorl	%ecx, %ecx
	xorl	%edx, %edx
.LBB58_115:
	movq	72(%rsp), %r15
	movq	%r8, %rdi
	shlq	%cl, %rdi
	xorl	%ebx, %ebx
	testb	$64, %cl
	movq	%rdi, %r14
	cmovneq	%rbx, %r14
	orq	%r10, %r14
	movq	%r14, (%r13)
	movq	400(%rsp), %r10
	movq	%r10, %r14
	shlq	%cl, %r14
	testb	$64, %cl
	cmoveq	%r14, %rbx
	shldq	%cl, %r8, %r9
	testb	$64, %cl
	cmovneq	%rdi, %r9
	orq	%rax, %r9
	movq	%r9, 8(%r13)
	movq	408(%rsp), %rdi
	shldq	%cl, %r10, %rdi
	testb	$64, %cl
	cmovneq	%r14, %rdi
	orq	%rsi, %rdi
	orq	%r11, %rbx
	jmp	.LBB58_117
.LBB58_185:
	movl	%edi, %r14d
	movq	%r9, %r10
	andq	$-2, %r10
	leaq	(%rax,%rbp), %r11
	incq	%r11
	xorl	%r8d, %r8d
	.p2align	4
.LBB58_186:
	movzwl	(%rdx,%r8,2), %esi
	subq	%rcx, %rsi
	movzbl	-1(%r11,%r8), %edi
	leaq	.Lstatic.2(%rip), %rbx
	movzbl	(%rdi,%rbx), %edi
	orb	%dil, 4800(%rsp,%rsi)
	movzwl	2(%rdx,%r8,2), %esi
	subq	%rcx, %rsi
	movzbl	(%r11,%r8), %edi
	movzbl	(%rdi,%rbx), %ebx
	orb	%bl, 4800(%rsp,%rsi)
	addq	$2, %r8
	cmpq	%r8, %r10
	jne	.LBB58_186
	testb	$1, %r9b
	movl	%r14d, %edi
	je	.LBB58_189
.LBB58_188:
	addq	%rax, %rbp
	movzwl	(%rdx,%r8,2), %eax
	subq	%rcx, %rax
	movzbl	(%rbp,%r8), %ecx
	leaq	.Lstatic.2(%rip), %rdx
	movzbl	(%rcx,%rdx), %ecx
	orb	%cl, 4800(%rsp,%rax)
.LBB58_189:
	movw	%di, 80(%rsp)
	movzwl	%r12w, %eax
	testw	%r12w, %r12w
	movq	%rax, 104(%rsp)
	je	.LBB58_190
	leaq	(%rax,%rax,2), %rax
	movq	%rax, 64(%rsp)
	xorl	%r10d, %r10d
	xorl	%r11d, %r11d
	.p2align	4
.LBB58_192:
	movq	%r10, 32(%rsp)
	movq	4816(%rsp,%r11), %rsi
	movq	4800(%rsp,%r11), %rbx
	movq	4808(%rsp,%r11), %rdi
	movq	4824(%rsp,%r11), %r9
	movq	%rbx, %r15
	movabsq	$217020518514230019, %rdx
	andq	%rdx, %r15
	movq	%rdi, %r13
	andq	%rdx, %r13
	movq	%rsi, %rbp
	movq	32(%rsp), %r10
	andb	$7, %r10b
	xorb	$4, %r10b
	leal	2(%r10), %eax
	movq	%r13, %r12
	movl	%eax, %ecx
	shldq	%cl, %r15, %r12
	andq	%rdx, %rbp
	movq	%r9, %r14
	andq	%rdx, %r14
	shlq	%cl, %r15
	shldq	%cl, %rbp, %r14
	movb	$125, %dl
	subb	%r10b, %dl
	shlq	%cl, %rbp
	shrq	%r13
	movl	%edx, %ecx
	shrq	%cl, %r13
	orq	400(%rsp,%r11), %r13
	orq	%r15, 384(%rsp,%r11)
	orq	%r12, 392(%rsp,%r11)
	movq	%rdi, %r15
	shrq	$2, %r15
	movq	%rbx, %r12
	shrq	$2, %r12
	orq	%r14, 408(%rsp,%r11)
	movq	%r9, %r14
	shrq	$2, %r14
	orq	%rbp, %r13
	movq	%rsi, %rbp
	movabsq	$506381209866536711, %r8
	andq	%r8, %r12
	andq	%r8, %r15
	movq	%r13, 400(%rsp,%r11)
	movq	%r15, %r10
	movl	%eax, %ecx
	shldq	%cl, %r12, %r10
	shrq	$2, %rbp
	andq	%r8, %rbp
	andq	%r8, %r14
	shlq	%cl, %r12
	shldq	%cl, %rbp, %r14
	orq	%r12, 416(%rsp,%r11)
	shlq	%cl, %rbp
	shrq	%r15
	movl	%edx, %ecx
	shrq	%cl, %r15
	orq	%rbp, %r15
	orq	%r10, 424(%rsp,%r11)
	orq	%r14, 440(%rsp,%r11)
	shrq	$5, %rdi
	shrq	$5, %rbx
	orq	%r15, 432(%rsp,%r11)
	andq	%r8, %rbx
	andq	%r8, %rdi
	movq	%rdi, %r10
	movl	%eax, %ecx
	shldq	%cl, %rbx, %r10
	shlq	%cl, %rbx
	orq	%rbx, 448(%rsp,%r11)
	orq	%r10, 456(%rsp,%r11)
	movq	32(%rsp), %r10
	shrq	$5, %r9
	shrq	$5, %rsi
	andq	%r8, %rsi
	andq	%r8, %r9
	shldq	%cl, %rsi, %r9
	orq	%r9, 472(%rsp,%r11)
	shlq	%cl, %rsi
	shrq	%rdi
	movl	%edx, %ecx
	shrq	%cl, %rdi
	orq	%rsi, %rdi
	orq	%rdi, 464(%rsp,%r11)
	addq	$3, %r10
	addq	$32, %r11
	cmpq	%r10, 64(%rsp)
	jne	.LBB58_192
	movq	104(%rsp), %rax
	shll	$5, %eax
	movq	48(%rsp), %rcx
	movl	%ecx, %edx
	andl	$7, %edx
	movl	%edx, %ecx
	xorl	$4, %ecx
	leaq	(%rsp,%rax), %r13
	addq	$384, %r13
	movq	384(%rsp,%rax), %r8
	movq	%r8, 32(%rsp)
	movq	392(%rsp,%rax), %rbp
	movq	408(%rsp,%rax), %r8
	movq	%r8, 88(%rsp)
	movq	400(%rsp,%rax), %r14
	movq	384(%rsp), %r9
	movq	392(%rsp), %r15
	cmpw	$4, %cx
	movl	%edx, 64(%rsp)
	ja	.LBB58_196
	leaq	(%rsp,%rax), %r8
	addq	$400, %r8
	leaq	416(%rsp,%rax), %rdi
	movq	400(%rsp), %rbx
	movq	408(%rsp), %rsi
	movq	(%rdi), %rax
	movq	%rax, 96(%rsp)
	movq	8(%rdi), %rax
	movq	%rax, 192(%rsp)
	jmp	.LBB58_195
.LBB58_190:
	leaq	400(%rsp), %r8
	movw	$4, %cx
	leaq	416(%rsp), %rdi
	movq	$0, 96(%rsp)
	movq	$0, 192(%rsp)
	xorl	%ebx, %ebx
	xorl	%esi, %esi
	xorl	%r9d, %r9d
	xorl	%r15d, %r15d
	xorl	%r14d, %r14d
	movq	$0, 88(%rsp)
	movq	$0, 32(%rsp)
	xorl	%ebp, %ebp
	movl	$0, 64(%rsp)
.LBB58_195:
	movb	$4, %al
	subb	%cl, %al
	movq	%r15, %r10
	movq	%rcx, %rdx
	movl	%eax, %ecx
	shldq	%cl, %r9, %r10
	movq	%r15, %r11
	shldq	$63, %r9, %r11
	shlq	%cl, %r9
	shldq	%cl, %rbx, %rsi
	shlq	%cl, %rbx
	shrq	%r15
	addb	$123, %dl
	movl	%edx, %ecx
	shrdq	%cl, %r15, %r11
	shrq	%cl, %r15
	xorl	%r12d, %r12d
	testb	$64, %dl
	cmovneq	%r15, %r11
	cmovneq	%r12, %r15
	orq	32(%rsp), %r9
	orq	%rbp, %r10
	orq	%r14, %rbx
	orq	%r11, %rbx
	orq	88(%rsp), %rsi
	orq	%r15, %rsi
	movq	%r10, 8(%r13)
	movq	%r9, (%r13)
	movq	%rsi, 8(%r8)
	movq	%rbx, (%r8)
	movq	424(%rsp), %r8
	movq	%r8, %r11
	shrq	%r11
	movq	%r11, %rsi
	shrq	%cl, %rsi
	movq	416(%rsp), %r9
	testb	$64, %dl
	cmoveq	%rsi, %r12
	movq	%r8, %r10
	shldq	$63, %r9, %r10
	shrdq	%cl, %r11, %r10
	testb	$64, %dl
	cmovneq	%rsi, %r10
	movl	%eax, %ecx
	shldq	%cl, %r9, %r8
	shlq	%cl, %r9
	movq	440(%rsp), %rdx
	movq	432(%rsp), %r11
	movq	%r11, %rsi
	shlq	%cl, %rsi
	shldq	%cl, %r11, %rdx
	orq	192(%rsp), %r8
	orq	96(%rsp), %r9
	orq	%r10, %rsi
	orq	%r12, %rdx
	orq	48(%r13), %rsi
	orq	56(%r13), %rdx
	movq	%r8, 8(%rdi)
	movq	%r9, (%rdi)
	movq	%rdx, 56(%r13)
	movq	%rsi, 48(%r13)
	jmp	.LBB58_197
.LBB58_116:
	addb	$-4, %cl
	movq	%r9, %r11
	shrq	%cl, %r11
	xorl	%edi, %edi
	testb	$64, %cl
	movq	%r11, %rsi
	cmovneq	%rdi, %rsi
	orq	%rsi, %rax
	movq	%rax, 8(%r13)
	movq	408(%rsp), %rax
	movq	%rax, %rsi
	shrq	%cl, %rsi
	testb	$64, %cl
	cmoveq	%rsi, %rdi
	shrdq	%cl, %r9, %r8
	testb	$64, %cl
	cmovneq	%r11, %r8
	orq	%r8, %r10
	movq	%r10, (%r13)
	movq	400(%rsp), %rbx
	shrdq	%cl, %rax, %rbx
	testb	$64, %cl
	cmovneq	%rsi, %rbx
	orq	16(%r13), %rbx
	orq	24(%r13), %rdi
	movq	72(%rsp), %r15
.LBB58_117:
	movq	%rbx, 16(%r13)
	movq	%rdi, 24(%r13)
	leal	2(%r12), %ecx
	movl	%r15d, %r8d
	andl	$7, %r8d
	cmpw	$5, %cx
	jb	.LBB58_120
	movzwl	%r8w, %eax
	xorl	$-5, %eax
	movzwl	%cx, %r9d
	addq	$-4, %r9
	leaq	448(%rsp), %r10
	addl	$9, %eax
	.p2align	4
.LBB58_119:
	movdqa	(%r10), %xmm0
	pand	.LCPI58_0(%rip), %xmm0
	movq	%xmm0, %r11
	pextrq	$1, %xmm0, %rsi
	movl	%r15d, %ecx
	shldq	%cl, %r11, %rsi
	shlq	%cl, %r11
	xorl	%ecx, %ecx
	testb	$64, %r15b
	cmovneq	%r11, %rsi
	cmoveq	%r11, %rcx
	movzwl	%ax, %r11d
	shll	$4, %r11d
	orq	%rcx, 384(%rsp,%r11)
	orq	%rsi, 392(%rsp,%r11)
	addq	$16, %r10
	incl	%eax
	decq	%r9
	jne	.LBB58_119
.LBB58_120:
	movaps	416(%rsp), %xmm0
	movdqa	464(%rsp), %xmm1
	orps	32(%r13), %xmm0
	movaps	%xmm0, 416(%rsp)
	movq	56(%r13), %xmm0
	movq	48(%r13), %xmm2
	punpcklqdq	%xmm0, %xmm2
	por	432(%rsp), %xmm2
	pextrq	$1, %xmm2, 440(%rsp)
	movq	%xmm2, 432(%rsp)
	movq	72(%r13), %xmm0
	movq	64(%r13), %xmm2
	punpcklqdq	%xmm0, %xmm2
	por	448(%rsp), %xmm2
	movdqa	%xmm2, 448(%rsp)
	por	80(%r13), %xmm1
	movdqa	%xmm1, 464(%rsp)
	movzbl	6720(%rsp), %eax
	leaq	.Lstatic.2(%rip), %rcx
	movzbl	(%rax,%rcx), %eax
	cmpw	$4, %r8w
	jne	.LBB58_123
	cmpw	$4, %dx
	jne	.LBB58_123
	movl	%r15d, %ecx
	orb	$3, %cl
	movl	%eax, %edx
	andb	$1, %dl
	movzbl	%dl, %r10d
	movq	%r10, %r11
	shlq	%cl, %r11
	xorl	%r9d, %r9d
	testb	$64, %cl
	movq	%r11, %rdx
	cmovneq	%r9, %rdx
	xorl	%r8d, %r8d
	shldq	%cl, %r10, %r8
	testb	$64, %cl
	cmovneq	%r11, %r8
	movl	%eax, %ebx
	shrb	%bl
	movl	%ebx, %r10d
	andb	$1, %r10b
	movzbl	%r10b, %esi
	movq	%rsi, %rdi
	shlq	%cl, %rdi
	testb	$64, %cl
	movq	%rdi, %r10
	cmovneq	%r9, %r10
	xorl	%r11d, %r11d
	shldq	%cl, %rsi, %r11
	testb	$64, %cl
	cmovneq	%rdi, %r11
	movl	%eax, %esi
	shrb	$2, %sil
	andb	$1, %sil
	movzbl	%sil, %r14d
	movq	%r14, %r15
	shlq	%cl, %r15
	testb	$64, %cl
	movq	%r15, %rsi
	cmovneq	%r9, %rsi
	xorl	%edi, %edi
	shldq	%cl, %r14, %rdi
	testb	$64, %cl
	cmovneq	%r15, %rdi
	movl	%eax, %ebp
	shrb	$3, %bpl
	movl	%ebp, %r14d
	andb	$1, %r14b
	movzbl	%r14b, %r12d
	movq	%r12, %r13
	shlq	%cl, %r13
	testb	$64, %cl
	movq	%r13, %r14
	cmovneq	%r9, %r14
	xorl	%r15d, %r15d
	shldq	%cl, %r12, %r15
	testb	$64, %cl
	cmovneq	%r13, %r15
	movq	48(%rsp), %rcx
	decl	%ecx
	movzwl	%cx, %r12d
	andb	$16, %bpl
	shll	$4, %r12d
	andb	$32, %bl
	orb	%bpl, %bl
	leal	(%rax,%rax), %ecx
	andb	$64, %cl
	orb	%bl, %cl
	movzbl	%cl, %ebx
	shrb	$4, %al
	andb	$1, %al
	movzbl	%al, %eax
	movq	72(%rsp), %rcx
	orb	$2, %cl
	xorl	%r13d, %r13d
	shldq	%cl, %rax, %r13
	orq	%rbx, 416(%rsp,%r12)
	movq	48(%rsp), %r12
	shlq	%cl, %rax
	testb	$64, %cl
	cmovneq	%rax, %r13
	cmovneq	%r9, %rax
	orq	%r15, %r13
	movq	72(%rsp), %r15
	orq	%r13, 424(%rsp)
	orq	%r14, %rax
	orq	%rax, 416(%rsp)
	orq	%rdi, 440(%rsp)
	orq	%rsi, 432(%rsp)
	orq	%r11, 456(%rsp)
	orq	%r10, 448(%rsp)
	orq	%r8, 472(%rsp)
	orq	%rdx, 464(%rsp)
	jmp	.LBB58_132
.LBB58_123:
	cmpw	$6, %r8w
	jne	.LBB58_126
	cmpw	$6, %dx
	jne	.LBB58_126
	leal	3(%r15), %ecx
	movl	%eax, %edx
	andb	$1, %dl
	movzbl	%dl, %r10d
	movq	%r10, %r11
	shlq	%cl, %r11
	xorl	%r9d, %r9d
	testb	$64, %cl
	movq	%r11, %rdx
	cmovneq	%r9, %rdx
	xorl	%r8d, %r8d
	shldq	%cl, %r10, %r8
	testb	$64, %cl
	cmovneq	%r11, %r8
	movl	%eax, %edi
	shrb	%dil
	movl	%edi, %r10d
	andb	$1, %r10b
	movzbl	%r10b, %esi
	movq	%rsi, %rbx
	shlq	%cl, %rbx
	testb	$64, %cl
	movq	%rbx, %r10
	cmovneq	%r9, %r10
	xorl	%r11d, %r11d
	shldq	%cl, %rsi, %r11
	testb	$64, %cl
	cmovneq	%rbx, %r11
	leal	-3(%r12), %ecx
	movl	%eax, %esi
	shrb	$3, %sil
	movl	%esi, %ebx
	andb	$16, %bl
	movzbl	%bl, %ebx
	movzwl	%cx, %ecx
	shll	$4, %ecx
	orq	%rbx, 416(%rsp,%rcx)
	leal	-2(%r12), %ecx
	leal	-1(%r12), %ebp
	movl	%eax, %ebx
	shrb	$2, %bl
	movl	%ebx, %r14d
	andb	$16, %r14b
	movzbl	%r14b, %r14d
	movzwl	%cx, %ecx
	shll	$4, %ecx
	orq	%r14, 416(%rsp,%rcx)
	andb	$16, %dil
	movzbl	%dil, %ecx
	movzwl	%bp, %edi
	shll	$4, %edi
	orq	%rcx, 416(%rsp,%rdi)
	shrb	$4, %al
	andb	$1, %al
	movzbl	%al, %eax
	xorl	%edi, %edi
	movl	%r15d, %ecx
	shldq	%cl, %rax, %rdi
	shlq	%cl, %rax
	testb	$64, %r15b
	cmovneq	%rax, %rdi
	cmovneq	%r9, %rax
	andb	$1, %sil
	movzbl	%sil, %esi
	orb	$1, %cl
	xorl	%r14d, %r14d
	shldq	%cl, %rsi, %r14
	shlq	%cl, %rsi
	testb	$64, %cl
	cmovneq	%rsi, %r14
	cmovneq	%r9, %rsi
	andb	$1, %bl
	movzbl	%bl, %ebx
	leal	2(%r15), %ecx
	xorl	%r15d, %r15d
	shldq	%cl, %rbx, %r15
	shlq	%cl, %rbx
	testb	$64, %cl
	cmovneq	%rbx, %r15
	cmovneq	%r9, %rbx
	orq	%rdi, %r14
	orq	%rax, %rsi
	orq	%r11, %r15
	orq	%r14, %r15
	orq	%r10, %rbx
	orq	%r15, 424(%rsp)
	movq	72(%rsp), %r15
	orq	%rsi, %rbx
	orq	%rbx, 416(%rsp)
	orq	%r8, 440(%rsp)
	orq	%rdx, 432(%rsp)
	jmp	.LBB58_132
.LBB58_196:
	movq	400(%rsp), %rdi
	leal	-4(%rcx), %edx
	movq	%r15, %r11
	movq	%rcx, %r8
	movl	%edx, %ecx
	shrq	%cl, %r11
	movq	%r14, 96(%rsp)
	movq	408(%rsp), %r14
	movq	%r14, %rsi
	shldq	$1, %rdi, %rsi
	leaq	(%rdi,%rdi), %r12
	movb	$-125, %al
	subb	%r8b, %al
	movl	%eax, %ecx
	shldq	%cl, %r12, %rsi
	shlq	%cl, %r12
	xorl	%r8d, %r8d
	testb	$64, %al
	cmovneq	%r12, %rsi
	cmovneq	%r8, %r12
	movq	%r14, %r10
	movl	%edx, %ecx
	shrq	%cl, %r10
	testb	$64, %dl
	movq	%r11, %rcx
	cmovneq	%r8, %rcx
	movq	%r10, %rbx
	cmovneq	%r8, %rbx
	orq	%rbp, %rcx
	orq	%rsi, %rcx
	orq	88(%rsp), %rbx
	movq	%rcx, 8(%r13)
	movq	%rbx, 24(%r13)
	movq	440(%rsp), %rbx
	movq	%rbx, %rbp
	movl	%edx, %ecx
	shrq	%cl, %rbp
	testb	$64, %dl
	movq	%rbp, %rsi
	cmovneq	%r8, %rsi
	shrdq	%cl, %r14, %rdi
	testb	$64, %dl
	cmovneq	%r10, %rdi
	shrdq	%cl, %r15, %r9
	testb	$64, %dl
	cmovneq	%r11, %r9
	orq	%r12, %r9
	movq	424(%rsp), %r14
	orq	32(%rsp), %r9
	orq	96(%rsp), %rdi
	movq	%r9, (%r13)
	movq	%rdi, 16(%r13)
	movq	432(%rsp), %r11
	movq	%r11, %r9
	shrdq	%cl, %rbx, %r9
	movq	416(%rsp), %r10
	testb	$64, %dl
	cmovneq	%rbp, %r9
	movq	%r14, %rdi
	shrq	%cl, %rdi
	testb	$64, %dl
	movq	%rdi, %r15
	cmovneq	%r8, %r15
	shrdq	%cl, %r14, %r10
	testb	$64, %dl
	cmovneq	%rdi, %r10
	leaq	(%r11,%r11), %rdx
	movq	%rdx, %rdi
	movl	%eax, %ecx
	shlq	%cl, %rdi
	testb	$64, %al
	cmoveq	%rdi, %r8
	shldq	$1, %r11, %rbx
	shldq	%cl, %rdx, %rbx
	testb	$64, %al
	cmovneq	%rdi, %rbx
	orq	%r10, %r8
	orq	%r8, 32(%r13)
	orq	%r15, %rbx
	orq	%rbx, 40(%r13)
	orq	%r9, 48(%r13)
	orq	%rsi, 56(%r13)
.LBB58_197:
	movq	48(%rsp), %r12
	leal	2(%r12), %ecx
	movq	72(%rsp), %r15
	movl	%r15d, %eax
	andl	$7, %eax
	movl	%eax, 32(%rsp)
	cmpw	$5, %cx
	movl	56(%rsp), %ebp
	movzwl	80(%rsp), %r9d
	jb	.LBB58_206
	movzwl	32(%rsp), %r10d
	xorl	$4, %r10d
	movzwl	%cx, %edx
	subw	$128, %r9w
	jae	.LBB58_201
	movl	$127, %eax
	subl	%r15d, %eax
	addq	$-4, %rdx
	leaq	512(%rsp), %r8
	movzwl	%r10w, %ecx
	movl	$8, %r10d
	subl	%ecx, %r10d
	.p2align	4
.LBB58_200:
	movq	(%r8), %r11
	andl	$15, %r11d
	xorl	%esi, %esi
	movl	%r15d, %ecx
	shldq	%cl, %r11, %rsi
	movzwl	%r10w, %edi
	shll	$5, %edi
	movq	%r11, %rbx
	shlq	%cl, %rbx
	xorl	%r14d, %r14d
	testb	$64, %r15b
	cmovneq	%rbx, %rsi
	cmovneq	%r14, %rbx
	shrl	%r11d
	movl	%eax, %ecx
	shrdq	%cl, %r14, %r11
	testb	$64, %al
	cmovneq	%r14, %r11
	orq	%rbx, 384(%rsp,%rdi)
	orq	%rsi, 392(%rsp,%rdi)
	orq	%r11, 400(%rsp,%rdi)
	addq	$32, %r8
	incl	%r10d
	decq	%rdx
	jne	.LBB58_200
	jmp	.LBB58_206
.LBB58_47:
	testw	%dx, %dx
	movq	72(%rsp), %r13
	jne	.LBB58_50
	cmpw	$6, %ax
	jne	.LBB58_50
	leal	-1(%rsi), %eax
	movl	%r9d, %r10d
	shrl	$3, %r10d
	movl	%r10d, %edx
	andl	$-16, %edx
	movzwl	%ax, %r11d
	movl	%r9d, %esi
	shrl	$6, %esi
	andl	$1, %esi
	movl	%r13d, %eax
	orb	$3, %al
	movl	%eax, %ecx
	shlq	%cl, %rsi
	orq	%rdx, %rsi
	orq	%rsi, 400(%rsp,%r11,8)
	movl	%r9d, %r11d
	shrl	$5, %r11d
	movl	%r9d, %ebx
	shrb	$4, %bl
	movl	%r9d, %esi
	shrl	$2, %esi
	movl	%r9d, %ebp
	andl	$1, %esi
	movl	%r13d, %edx
	orb	$1, %dl
	movl	%edx, %ecx
	shlq	%cl, %rsi
	andb	$1, %bl
	movzbl	%bl, %edi
	movl	%r13d, %ecx
	orb	$2, %cl
	shlq	%cl, %rdi
	shrb	%bpl
	andb	$1, %bpl
	andl	$1, %r11d
	movzbl	%bpl, %ebx
	movl	56(%rsp), %ebp
	shlq	%cl, %rbx
	movl	%edx, %ecx
	shlq	%cl, %r11
	movdqu	400(%rsp), %xmm0
	andl	$1, %r9d
	andl	$1, %r10d
	movl	%eax, %ecx
	shlq	%cl, %r9
	orq	%rsi, %r9
	movq	40(%rsp), %rdx
	shlq	%cl, %r10
	orq	%rbx, %r9
	movq	32(%rsp), %rsi
	orq	%r11, %r10
	orq	%rdi, %r10
	movq	%r9, %xmm1
	movq	%r10, %xmm2
	movq	%rdx, %r10
	punpcklqdq	%xmm1, %xmm2
	por	%xmm0, %xmm2
	movdqu	%xmm2, 400(%rsp)
.LBB58_50:
	andl	$3, %esi
	xorl	$2, %esi
	movl	%r13d, %eax
	andl	$3, %eax
	xorl	$2, %eax
	orw	%si, %ax
	jne	.LBB58_52
	movd	72(%rsp), %xmm0
	pshuflw	$0, %xmm0, %xmm0
	paddw	.LCPI58_6(%rip), %xmm0
	pmovzxwq	%xmm0, %xmm0
	movdqa	.LCPI58_7(%rip), %xmm1
	movdqa	%xmm1, %xmm2
	psllq	%xmm0, %xmm2
	pshufd	$238, %xmm0, %xmm0
	psllq	%xmm0, %xmm1
	pblendw	$15, %xmm2, %xmm1
	movdqu	384(%rsp,%r8,8), %xmm0
	por	%xmm1, %xmm0
	movdqu	%xmm0, 384(%rsp,%r8,8)
.LBB58_52:
	movabsq	$6148914691236517205, %rdi
	leal	1(%r10), %esi
	cmpl	$128, 216(%rsp)
	movq	%rsi, 88(%rsp)
	ja	.LBB58_62
	testw	%bp, %bp
	movq	136(%rsp), %r13
	movq	144(%rsp), %r11
	je	.LBB58_54
	leal	2(%r10), %eax
	cmpw	$1, %bp
	jne	.LBB58_57
	xorl	%ebx, %ebx
	xorl	%esi, %esi
	movq	$0, 64(%rsp)
	xorl	%r10d, %r10d
	xorl	%edx, %edx
	jmp	.LBB58_60
.LBB58_62:
	movl	$1, %ebx
	xorl	%r8d, %r8d
	movl	%esi, %ecx
	shldq	%cl, %rbx, %r8
	leal	2(%r10), %edx
	movl	$1, %eax
	shlq	%cl, %rax
	xorl	%ecx, %ecx
	testb	$64, %sil
	cmovneq	%rax, %r8
	movq	%r8, 64(%rsp)
	cmovneq	%rcx, %rax
	xorl	%r9d, %r9d
	movq	%rax, 32(%rsp)
	xorl	%eax, %eax
	movl	%edx, %ecx
	shldq	%cl, %rbx, %rax
	movl	$1, %r8d
	shlq	%cl, %r8
	testb	$64, %dl
	cmovneq	%r8, %rax
	movq	%rax, 80(%rsp)
	cmovneq	%r9, %r8
	movq	%r8, 48(%rsp)
	movq	40(%rsp), %rax
	leal	(%rsi,%rax), %ecx
	addl	$2, %ecx
	xorl	%r13d, %r13d
	shldq	%cl, %rbx, %r13
	movl	$1, %r11d
	shlq	%cl, %r11
	testb	$64, %cl
	cmovneq	%r11, %r13
	movl	$0, %r8d
	cmovneq	%r8, %r11
	movq	40(%rsp), %rax
	leal	4(,%rax,2), %ecx
	xorl	%r14d, %r14d
	shldq	%cl, %rbx, %r14
	movl	$1, %r15d
	shlq	%cl, %r15
	testb	$64, %cl
	cmovneq	%r15, %r14
	cmovneq	%r8, %r15
	movq	40(%rsp), %rax
	leal	(%rsi,%rax,2), %ecx
	addl	$4, %ecx
	xorl	%eax, %eax
	shldq	%cl, %rbx, %rax
	movl	$1, %r12d
	shlq	%cl, %r12
	testb	$64, %cl
	cmovneq	%r12, %rax
	movq	%rax, 104(%rsp)
	movl	$0, %eax
	cmovneq	%rax, %r12
	leal	(%rdx,%rdx,2), %ecx
	xorl	%edi, %edi
	shldq	%cl, %rbx, %rdi
	movl	$1, %r10d
	shlq	%cl, %r10
	testb	$64, %cl
	cmovneq	%r10, %rdi
	cmovneq	%rax, %r10
	xorl	%edx, %edx
	addl	%esi, %ecx
	xorl	%eax, %eax
	shldq	%cl, %rbx, %rax
	movl	$1, %ebp
	shlq	%cl, %rbp
	testb	$64, %cl
	cmovneq	%rbp, %rax
	movq	%rax, 96(%rsp)
	cmovneq	%rdx, %rbp
	xorl	%edx, %edx
	movq	40(%rsp), %rax
	leal	8(,%rax,4), %ecx
	xorl	%r9d, %r9d
	shldq	%cl, %rbx, %r9
	movl	$1, %r8d
	shlq	%cl, %r8
	testb	$64, %cl
	cmovneq	%r8, %r9
	cmovneq	%rdx, %r8
	movq	40(%rsp), %rcx
	leal	(%rsi,%rcx,4), %ecx
	addl	$8, %ecx
	xorl	%edx, %edx
	shldq	%cl, %rbx, %rdx
	movl	$1, %eax
	shlq	%cl, %rax
	testb	$64, %cl
	cmovneq	%rax, %rdx
	movl	$0, %ecx
	cmovneq	%rcx, %rax
	movq	40(%rsp), %rcx
	leal	(%rcx,%rcx,4), %ecx
	addb	$10, %cl
	xorl	%esi, %esi
	shldq	%cl, %rbx, %rsi
	shlq	%cl, %rbx
	testb	$64, %cl
	cmovneq	%rbx, %rsi
	movl	$0, %ecx
	cmovneq	%rcx, %rbx
	orq	80(%rsp), %r14
	orq	%rdi, %r14
	orq	48(%rsp), %r15
	movabsq	$6148914691236517205, %rdi
	orq	%r10, %r15
	orq	%r9, %rsi
	orq	%r14, %rsi
	movq	120(%rsp), %r14
	orq	%r8, %rbx
	orq	%r15, %rbx
	movq	152(%rsp), %r15
	orq	64(%rsp), %r13
	movb	$-112, %cl
	movzwl	128(%rsp), %r8d
	subb	%r8b, %cl
	orq	104(%rsp), %r13
	movl	$65535, %r10d
	shrl	%cl, %r10d
	orq	32(%rsp), %r11
	orq	%r12, %r11
	movq	$-1, %r12
	orq	$1, %rbx
	orq	96(%rsp), %rdx
	orq	%r13, %rdx
	orq	%rbp, %rax
	movl	56(%rsp), %ebp
	orq	%r11, %rax
	orq	%rsi, %rdx
	movq	%rdx, 80(%rsp)
	orq	%rbx, %rax
	movq	%rax, 64(%rsp)
	addb	$127, %r8b
	movl	$1, %eax
	movl	%r8d, %ecx
	shll	%cl, %eax
	movq	%rax, 104(%rsp)
	movl	%r10d, %eax
	andl	$21845, %eax
	movq	%rax, 264(%rsp)
	movq	%rdi, 112(%rsp)
	movq	$-1, 272(%rsp)
	movq	$-1, 280(%rsp)
	movq	136(%rsp), %r13
	movq	144(%rsp), %r11
	jmp	.LBB58_63
.LBB58_54:
	movq	$0, 64(%rsp)
	xorl	%r10d, %r10d
	xorl	%ebx, %ebx
	xorl	%esi, %esi
	jmp	.LBB58_61
.LBB58_57:
	andl	$65534, %ebp
	movl	%ebp, 64(%rsp)
	leal	3(,%r10,2), %ecx
	movq	%rcx, 48(%rsp)
	leal	4(,%r10,2), %ecx
	movq	%rcx, 80(%rsp)
	xorl	%r8d, %r8d
	xorl	%r9d, %r9d
	xorl	%esi, %esi
	xorl	%ebp, %ebp
	xorl	%r10d, %r10d
	xorl	%edx, %edx
	movq	88(%rsp), %r11
	movq	%rax, 32(%rsp)
	.p2align	4
.LBB58_58:
	movl	$1, %edi
	xorl	%eax, %eax
	movl	%r8d, %ecx
	shldq	%cl, %rdi, %rax
	xorl	%r14d, %r14d
	movl	$1, %ebx
	shlq	%cl, %rbx
	testb	$64, %r8b
	cmovneq	%rbx, %rax
	cmovneq	%r14, %rbx
	leal	(%r11,%r8), %ecx
	xorl	%r15d, %r15d
	shldq	%cl, %rdi, %r15
	orq	%rax, %rsi
	orq	%rbx, %r9
	movl	$1, %r12d
	shlq	%cl, %r12
	testb	$64, %cl
	cmovneq	%r12, %r15
	cmovneq	%r14, %r12
	movq	32(%rsp), %rcx
	addl	%r8d, %ecx
	xorl	%r13d, %r13d
	shldq	%cl, %rdi, %r13
	orq	%r10, %r15
	orq	%rbp, %r12
	movl	$1, %ebp
	shlq	%cl, %rbp
	testb	$64, %cl
	cmovneq	%rbp, %r13
	cmovneq	%r14, %rbp
	orq	%r13, %rsi
	movq	48(%rsp), %rcx
	addl	%r8d, %ecx
	xorl	%r10d, %r10d
	shldq	%cl, %rdi, %r10
	shlq	%cl, %rdi
	orq	%rbp, %r9
	testb	$64, %cl
	cmovneq	%rdi, %r10
	cmovneq	%r14, %rdi
	orq	%rax, %r10
	orq	%r15, %r10
	orq	%rbx, %rdi
	orq	%r12, %rdi
	orq	%r13, %r10
	orq	%rbp, %rdi
	movq	%rdi, %rbp
	addl	$2, %edx
	movq	80(%rsp), %rax
	addl	%eax, %r8d
	cmpw	%dx, 64(%rsp)
	jne	.LBB58_58
	movq	%rbp, 64(%rsp)
	movl	56(%rsp), %ebp
	testb	$1, %bpl
	movq	136(%rsp), %r13
	movq	152(%rsp), %r15
	movq	144(%rsp), %r11
	movq	120(%rsp), %r14
	movq	$-1, %r12
	movabsq	$6148914691236517205, %rdi
	movq	%r9, %rbx
	movq	32(%rsp), %rax
	je	.LBB58_61
.LBB58_60:
	imull	%eax, %edx
	movl	$1, %r8d
	xorl	%eax, %eax
	movl	%edx, %ecx
	shldq	%cl, %r8, %rax
	movl	$1, %r9d
	shlq	%cl, %r9
	testb	$64, %dl
	cmovneq	%r9, %rax
	movl	$0, %ecx
	cmovneq	%rcx, %r9
	orq	%rax, %rsi
	movq	88(%rsp), %rcx
	addl	%edx, %ecx
	xorl	%edx, %edx
	shldq	%cl, %r8, %rdx
	shlq	%cl, %r8
	orq	%r9, %rbx
	testb	$64, %cl
	cmovneq	%r8, %rdx
	movl	$0, %ecx
	cmovneq	%rcx, %r8
	orq	%r10, %rax
	orq	%rdx, %rax
	orq	64(%rsp), %r9
	orq	%r8, %r9
	movq	%r9, 64(%rsp)
	movq	%rax, %r10
.LBB58_61:
	movq	%r10, 80(%rsp)
	movq	$-1, %rdx
	movzwl	128(%rsp), %ecx
	shldq	%cl, %rdx, %rdx
	movq	$-1, %rax
	shlq	%cl, %rax
	movq	$0, 104(%rsp)
	testb	$64, %cl
	cmovneq	%rax, %rdx
	movl	$0, %ecx
	cmoveq	%rax, %rcx
	notq	%rdx
	notq	%rcx
	movq	%rdx, 280(%rsp)
	movq	%rdx, %rax
	andq	%rdi, %rax
	movq	%rcx, 272(%rsp)
	andq	%rcx, %rdi
	movq	%rdi, 112(%rsp)
	movq	%rax, %rdi
	movq	$0, 264(%rsp)
	xorl	%r10d, %r10d
.LBB58_63:
	movq	%rsi, 48(%rsp)
	movq	%rbx, 32(%rsp)
	pxor	%xmm0, %xmm0
	movdqa	%xmm0, 4864(%rsp)
	movdqa	%xmm0, 4848(%rsp)
	movdqa	%xmm0, 4832(%rsp)
	movdqa	%xmm0, 4816(%rsp)
	movdqa	%xmm0, 4800(%rsp)
	decw	%bp
	movq	%r10, 160(%rsp)
	movq	280(%rsp), %r8
	movq	272(%rsp), %rsi
	movq	264(%rsp), %rbx
	je	.LBB58_70
	cmpw	$1, %bp
	jne	.LBB58_66
	xorl	%r9d, %r9d
	jmp	.LBB58_69
.LBB58_66:
	movq	%rdi, 176(%rsp)
	movzwl	%bp, %r10d
	movl	%r10d, %r11d
	andl	$-2, %r11d
	movq	40(%rsp), %rax
	leal	3(,%rax,2), %edx
	leal	4(,%rax,2), %eax
	leaq	4816(%rsp), %rsi
	xorl	%r9d, %r9d
	movq	88(%rsp), %r8
	.p2align	4
.LBB58_67:
	movq	$-1, %r14
	movl	%r8d, %ecx
	shldq	%cl, %r14, %r14
	movq	$-1, %rdi
	shlq	%cl, %rdi
	xorl	%ebx, %ebx
	testb	$64, %r8b
	cmovneq	%rdi, %r14
	cmovneq	%rbx, %rdi
	movq	$-1, %r15
	movl	%edx, %ecx
	shldq	%cl, %r15, %r15
	notq	%r14
	movq	%r14, -8(%rsi)
	movq	$-1, %r14
	shlq	%cl, %r14
	notq	%rdi
	testb	$64, %dl
	cmovneq	%r14, %r15
	movq	%rdi, -16(%rsi)
	cmovneq	%rbx, %r14
	notq	%r15
	notq	%r14
	movq	%r15, 8(%rsi)
	movq	%r14, (%rsi)
	addq	$2, %r9
	addl	%eax, %edx
	addq	$32, %rsi
	addl	%eax, %r8d
	cmpq	%r9, %r11
	jne	.LBB58_67
	testb	$1, %r10b
	movq	152(%rsp), %r15
	movq	144(%rsp), %r11
	movq	120(%rsp), %r14
	movq	176(%rsp), %rdi
	movq	160(%rsp), %r10
	movq	280(%rsp), %r8
	movq	272(%rsp), %rsi
	movq	264(%rsp), %rbx
	je	.LBB58_70
.LBB58_69:
	movq	40(%rsp), %rax
	addl	$2, %eax
	imull	%r9d, %eax
	movq	88(%rsp), %rcx
	addl	%eax, %ecx
	movq	$-1, %rax
	shldq	%cl, %rax, %rax
	movq	$-1, %rdx
	shlq	%cl, %rdx
	xorl	%r14d, %r14d
	testb	$64, %cl
	cmovneq	%rdx, %rax
	cmoveq	%rdx, %r14
	notq	%rax
	notq	%r14
	shlq	$4, %r9
	movq	%rax, 4808(%rsp,%r9)
	movq	%r14, 4800(%rsp,%r9)
	movq	120(%rsp), %r14
.LBB58_70:
	testq	%r11, %r11
	movq	112(%rsp), %r9
	je	.LBB58_74
	leal	1(%r14), %eax
	movq	%rax, 184(%rsp)
	testw	%ax, %ax
	cmoveq	%r8, %rdi
	cmoveq	%rsi, %r9
	cmovel	%r10d, %ebx
	movq	40(%rsp), %r14
	leal	(%r14,%r14,4), %eax
	movq	$-1, %rdx
	movl	%eax, %ecx
	shlq	%cl, %rdx
	xorl	%ecx, %ecx
	testb	$64, %al
	cmovneq	%rcx, %rdx
	movq	%rdx, 56(%rsp)
	movq	$-1, %rdx
	movl	%r14d, %ecx
	shlq	%cl, %rdx
	testb	$64, %r14b
	movq	120(%rsp), %r14
	movl	$0, %ecx
	cmovneq	%rcx, %rdx
	movq	%rdx, 96(%rsp)
	movq	72(%rsp), %rcx
	shlq	%cl, %r12
	testb	$64, %cl
	movq	184(%rsp), %rcx
	movl	$0, %edx
	cmovneq	%rdx, %r12
	leal	2(%r14), %edx
	cmpw	$1, %cx
	jbe	.LBB58_72
	movq	%rdx, 168(%rsp)
	movzwl	%cx, %edx
	movq	%rdx, 88(%rsp)
	cmpl	$129, 216(%rsp)
	movq	%rdi, 176(%rsp)
	movq	%rbx, 264(%rsp)
	movq	%r9, 112(%rsp)
	jae	.LBB58_76
	notq	%r12
	testw	%bp, %bp
	je	.LBB58_81
	movzwl	%bp, %eax
	movl	%eax, %ecx
	andl	$-2, %ecx
	xorl	%esi, %esi
	movl	%ebp, %r8d
	movq	168(%rsp), %r10
	jmp	.LBB58_86
	.p2align	4
.LBB58_93:
	addl	184(%rsp), %r9d
	movzwl	%r9w, %r9d
	movl	%r9d, %r10d
	shll	$4, %r10d
	movq	280(%rsp), %rdx
	movq	%rdx, 8(%r15,%r10)
	movq	272(%rsp), %rdx
	movq	%rdx, (%r15,%r10)
	movq	160(%rsp), %rdx
	movw	%dx, (%r13,%r9,2)
	movq	136(%rsp), %rsi
	incq	%rsi
	cmpq	144(%rsp), %rsi
	movq	120(%rsp), %r14
	movq	176(%rsp), %rdi
	movq	264(%rsp), %rbx
	movq	112(%rsp), %r9
	movq	168(%rsp), %r10
	je	.LBB58_74
.LBB58_86:
	movq	%r9, %rdx
	movl	%r10d, %r9d
	imull	%esi, %r9d
	movzwl	%r9w, %r10d
	movl	%r10d, %r11d
	shll	$4, %r11d
	movq	%rdi, 8(%r15,%r11)
	movq	%rdx, (%r15,%r11)
	movw	%bx, (%r13,%r10,2)
	movl	%r14d, %r10d
	movq	%rsi, 136(%rsp)
	imull	%esi, %r10d
	decl	%r10d
	movl	$1, %r11d
	jmp	.LBB58_87
	.p2align	4
.LBB58_91:
	shlq	$4, %rbx
	movq	4808(%rsp,%rbx), %r14
	andq	%rdi, %r14
	movq	4800(%rsp,%rbx), %rbx
	andq	%rsi, %rbx
	subq	%rbx, %rsi
	sbbq	%r14, %rdi
	shldq	$2, %rsi, %rdi
	shlq	$2, %rsi
	addq	%rbx, %rsi
	adcq	%r14, %rdi
.LBB58_92:
	movl	%r11d, %ebx
	andl	$1, %ebx
	movl	%ebx, %ebp
	negl	%ebp
	movq	104(%rsp), %r14
	andl	%ebp, %r14d
	testl	%ebx, %ebx
	movq	80(%rsp), %rbx
	cmoveq	48(%rsp), %rbx
	movq	64(%rsp), %r15
	cmoveq	32(%rsp), %r15
	orq	%rsi, %r15
	orq	%rdi, %rbx
	leal	(%r9,%r11), %esi
	movzwl	%si, %esi
	movl	%esi, %edi
	shll	$4, %edi
	movq	152(%rsp), %r12
	movq	%rbx, 8(%r12,%rdi)
	movq	%r15, (%r12,%rdi)
	movq	%r12, %r15
	movw	%r14w, (%r13,%rsi,2)
	incq	%r11
	cmpq	88(%rsp), %r11
	movq	%rdx, %r12
	movl	%r8d, %ebp
	je	.LBB58_93
.LBB58_87:
	leal	(%r10,%r11), %esi
	movzwl	%si, %esi
	movq	400(%rsp,%rsi,8), %rsi
	shrq	$4, %rsi
	movq	%r12, %rdx
	andq	%r12, %rsi
	addq	%rsi, %rsi
	xorl	%edi, %edi
	xorl	%ebx, %ebx
	cmpw	$1, %bp
	je	.LBB58_91
	leaq	4816(%rsp), %r14
	.p2align	4
.LBB58_89:
	movq	-8(%r14), %r15
	andq	%rdi, %r15
	movq	-16(%r14), %r12
	andq	%rsi, %r12
	subq	%r12, %rsi
	sbbq	%r15, %rdi
	shldq	$2, %rsi, %rdi
	shlq	$2, %rsi
	addq	%r12, %rsi
	adcq	%r15, %rdi
	movq	8(%r14), %r15
	andq	%rdi, %r15
	movq	(%r14), %r12
	andq	%rsi, %r12
	subq	%r12, %rsi
	sbbq	%r15, %rdi
	shldq	$2, %rsi, %rdi
	shlq	$2, %rsi
	addq	%r12, %rsi
	adcq	%r15, %rdi
	addq	$2, %rbx
	addq	$32, %r14
	cmpq	%rbx, %rcx
	jne	.LBB58_89
	testb	$1, %al
	jne	.LBB58_91
	jmp	.LBB58_92
.LBB58_72:
	xorl	%eax, %eax
	movq	%rcx, %r14
	movq	%rdx, %r12
	.p2align	4
.LBB58_73:
	movzwl	%ax, %ecx
	movl	%ecx, %edx
	shll	$4, %edx
	movq	%rdi, 8(%r15,%rdx)
	movq	%r9, (%r15,%rdx)
	movw	%bx, (%r13,%rcx,2)
	leal	(%r14,%rax), %ecx
	movzwl	%cx, %ecx
	movl	%ecx, %edx
	shll	$4, %edx
	movq	%r8, 8(%r15,%rdx)
	movq	%rsi, (%r15,%rdx)
	movw	%r10w, (%r13,%rcx,2)
	addl	%r12d, %eax
	decq	%r11
	jne	.LBB58_73
	jmp	.LBB58_74
.LBB58_76:
	movl	$117, %edx
	subl	%eax, %edx
	movq	56(%rsp), %r12
	notq	%r12
	movq	4800(%rsp), %rcx
	movq	%rcx, 128(%rsp)
	movq	4824(%rsp), %rcx
	movq	%rcx, 192(%rsp)
	movq	4816(%rsp), %rcx
	movq	%rcx, 72(%rsp)
	movq	4840(%rsp), %rcx
	movq	%rcx, 216(%rsp)
	movq	4832(%rsp), %rcx
	movq	%rcx, 296(%rsp)
	movq	4856(%rsp), %rcx
	movq	%rcx, 288(%rsp)
	movq	4848(%rsp), %rcx
	movq	%rcx, 312(%rsp)
	notq	96(%rsp)
	movq	40(%rsp), %rcx
	leal	11(%rcx,%rcx,4), %r8d
	movq	168(%rsp), %rcx
	movzwl	%cx, %r10d
	movq	%r10, 200(%rsp)
	xorl	%esi, %esi
	xorl	%r10d, %r10d
	xorl	%r11d, %r11d
	.p2align	4
.LBB58_77:
	movq	%r10, 56(%rsp)
	movq	%r11, 208(%rsp)
	imull	%r11d, %ecx
	movl	%ecx, 256(%rsp)
	movzwl	%cx, %ecx
	movq	%r9, %r10
	movl	%ecx, %r9d
	shll	$4, %r9d
	movq	%rdi, 8(%r15,%r9)
	movq	%r10, (%r15,%r9)
	movw	%bx, (%r13,%rcx,2)
	movq	%r15, %rbp
	movl	$1, %r15d
	movq	%rsi, 40(%rsp)
	.p2align	4
.LBB58_78:
	movzwl	%si, %ecx
	movq	400(%rsp,%rcx,8), %r11
	shrq	$4, %r11
	movq	%r11, %rdi
	andq	%r12, %rdi
	addq	%rdi, %rdi
	movq	%rdi, %rcx
	andq	128(%rsp), %rcx
	xorl	%r9d, %r9d
	movl	$0, %ebx
	subq	%rcx, %rdi
	sbbq	%rbx, %rbx
	shldq	$2, %rdi, %rbx
	shlq	$2, %rdi
	addq	%rcx, %rdi
	adcq	$0, %rbx
	movq	%rbx, %rcx
	movq	%rdi, %r10
	andq	192(%rsp), %rcx
	andq	72(%rsp), %r10
	subq	%r10, %rdi
	sbbq	%rcx, %rbx
	shldq	$2, %rdi, %rbx
	shlq	$2, %rdi
	addq	%r10, %rdi
	adcq	%rcx, %rbx
	movq	%rbx, %rcx
	andq	216(%rsp), %rcx
	movq	%rdi, %r10
	andq	296(%rsp), %r10
	subq	%r10, %rdi
	sbbq	%rcx, %rbx
	shldq	$2, %rdi, %rbx
	shlq	$2, %rdi
	addq	%r10, %rdi
	adcq	%rcx, %rbx
	movq	%rbx, %rcx
	movq	%rdi, %r10
	andq	288(%rsp), %rcx
	andq	312(%rsp), %r10
	subq	%r10, %rdi
	sbbq	%rcx, %rbx
	shldq	$2, %rdi, %rbx
	shlq	$2, %rdi
	addq	%r10, %rdi
	adcq	%rcx, %rbx
	movl	%eax, %ecx
	shrdq	%cl, %r9, %r11
	testb	$64, %al
	cmovneq	%r9, %r11
	andq	96(%rsp), %r11
	xorl	%r10d, %r10d
	movl	%r8d, %ecx
	shldq	%cl, %r11, %r10
	movq	%r11, %r14
	shlq	%cl, %r14
	testb	$64, %r8b
	cmovneq	%r14, %r10
	cmovneq	%r9, %r14
	movl	%edx, %ecx
	shrdq	%cl, %r9, %r11
	testb	$64, %dl
	cmovneq	%r9, %r11
	movl	%r15d, %r9d
	andl	$1, %r9d
	movl	%r9d, %r13d
	negl	%r13d
	movq	104(%rsp), %rcx
	andl	%r13d, %ecx
	testl	%r9d, %r9d
	movq	80(%rsp), %r9
	cmoveq	48(%rsp), %r9
	movq	64(%rsp), %r13
	cmoveq	32(%rsp), %r13
	orq	%r14, %r13
	orq	%r10, %r9
	orq	%rdi, %r13
	orq	%rbx, %r9
	movq	56(%rsp), %r10
	addl	%r15d, %r10d
	movzwl	%r10w, %r10d
	movl	%r10d, %edi
	shll	$4, %edi
	movq	%r13, (%rbp,%rdi)
	movq	136(%rsp), %r13
	movq	%r9, 8(%rbp,%rdi)
	orl	%r11d, %ecx
	movw	%cx, (%r13,%r10,2)
	incq	%r15
	incl	%esi
	cmpq	%r15, 88(%rsp)
	jne	.LBB58_78
	movl	256(%rsp), %ecx
	addl	184(%rsp), %ecx
	movzwl	%cx, %ecx
	movl	%ecx, %r9d
	shll	$4, %r9d
	movq	280(%rsp), %r10
	movq	%r10, 8(%rbp,%r9)
	movq	272(%rsp), %r10
	movq	%r10, (%rbp,%r9)
	movq	160(%rsp), %r9
	movw	%r9w, (%r13,%rcx,2)
	movq	208(%rsp), %r11
	incq	%r11
	movq	56(%rsp), %r10
	addq	200(%rsp), %r10
	movq	40(%rsp), %rsi
	addl	120(%rsp), %esi
	cmpq	144(%rsp), %r11
	movq	%rbp, %r15
	movq	176(%rsp), %rdi
	movq	264(%rsp), %rbx
	movq	112(%rsp), %r9
	movq	168(%rsp), %rcx
	jne	.LBB58_77
	jmp	.LBB58_74
.LBB58_126:
	cmpw	$4, %r8w
	jne	.LBB58_129
	cmpw	$6, %dx
	jne	.LBB58_129
	movl	%r15d, %ecx
	orb	$3, %cl
	movl	%eax, %edx
	andb	$1, %dl
	movzbl	%dl, %r10d
	movq	%r10, %r11
	shlq	%cl, %r11
	xorl	%edx, %edx
	testb	$64, %cl
	movq	%r11, %r9
	cmovneq	%rdx, %r9
	xorl	%edx, %edx
	xorl	%r8d, %r8d
	shldq	%cl, %r10, %r8
	testb	$64, %cl
	cmovneq	%r11, %r8
	movl	%eax, %ebx
	shrb	%bl
	movl	%ebx, %r10d
	andb	$1, %r10b
	movzbl	%r10b, %esi
	movq	%rsi, %rdi
	shlq	%cl, %rdi
	testb	$64, %cl
	movq	%rdi, %r10
	cmovneq	%rdx, %r10
	xorl	%edx, %edx
	xorl	%r11d, %r11d
	shldq	%cl, %rsi, %r11
	testb	$64, %cl
	cmovneq	%rdi, %r11
	movl	%eax, %ebp
	shrb	$2, %bpl
	movl	%ebp, %esi
	andb	$1, %sil
	movzbl	%sil, %r14d
	movq	%r14, %r15
	shlq	%cl, %r15
	testb	$64, %cl
	movq	%r15, %rsi
	cmovneq	%rdx, %rsi
	xorl	%edi, %edi
	shldq	%cl, %r14, %rdi
	testb	$64, %cl
	cmovneq	%r15, %rdi
	movl	%eax, %r12d
	shrb	$3, %r12b
	movl	%r12d, %r14d
	andb	$1, %r14b
	movzbl	%r14b, %edx
	movq	%rdx, %r13
	shlq	%cl, %r13
	testb	$64, %cl
	movq	%r13, %r14
	movl	$0, %r15d
	cmovneq	%r15, %r14
	xorl	%r15d, %r15d
	shldq	%cl, %rdx, %r15
	testb	$64, %cl
	cmovneq	%r13, %r15
	movq	48(%rsp), %rcx
	addl	$-3, %ecx
	andb	$16, %r12b
	movzbl	%r12b, %edx
	movzwl	%cx, %ecx
	shll	$4, %ecx
	orq	%rdx, 416(%rsp,%rcx)
	movq	48(%rsp), %rcx
	addl	$-2, %ecx
	andb	$16, %bpl
	movzbl	%bpl, %edx
	movzwl	%cx, %ecx
	shll	$4, %ecx
	orq	%rdx, 416(%rsp,%rcx)
	movq	48(%rsp), %rcx
	decl	%ecx
	andb	$16, %bl
	movzbl	%bl, %edx
	movzwl	%cx, %ebx
	shll	$4, %ebx
	shrb	$4, %al
	andb	$1, %al
	movzbl	%al, %eax
	movq	72(%rsp), %rcx
	orb	$2, %cl
	xorl	%r12d, %r12d
	shldq	%cl, %rax, %r12
	orq	%rdx, 416(%rsp,%rbx)
	shlq	%cl, %rax
	testb	$64, %cl
	cmovneq	%rax, %r12
	movl	$0, %ecx
	cmovneq	%rcx, %rax
	orq	%r15, %r12
	movq	72(%rsp), %r15
	orq	%r12, 424(%rsp)
	movq	48(%rsp), %r12
	orq	%r14, %rax
	orq	%rax, 416(%rsp)
	orq	%rdi, 440(%rsp)
	orq	%rsi, 432(%rsp)
	orq	%r11, 456(%rsp)
	orq	%r10, 448(%rsp)
	orq	%r8, 472(%rsp)
	orq	%r9, 464(%rsp)
	jmp	.LBB58_132
.LBB58_201:
	movl	$4, %eax
	cmpw	$5, %cx
	je	.LBB58_205
	movl	%edx, %r8d
	andl	$-2, %r8d
	movl	%r10d, 80(%rsp)
	movzwl	%r10w, %eax
	movl	$9, %r11d
	subl	%eax, %r11d
	movl	$4, %eax
	leaq	544(%rsp), %rsi
	.p2align	4
.LBB58_203:
	leal	-1(%r11), %ecx
	movd	.LCPI58_8(%rip), %xmm1
	movdqa	-32(%rsi), %xmm0
	pand	%xmm1, %xmm0
	movq	%xmm0, %rbx
	movzwl	%cx, %edi
	shll	$5, %edi
	movq	%rbx, %r15
	movl	%r9d, %ecx
	shlq	%cl, %r15
	xorl	%r14d, %r14d
	testb	$64, %r9b
	movq	%r15, %rcx
	cmovneq	%r14, %rcx
	orq	%rcx, 400(%rsp,%rdi)
	movq	(%rsi), %xmm2
	pand	%xmm1, %xmm2
	movq	%xmm2, %r12
	movq	%r12, %rbp
	movl	%r9d, %ecx
	shlq	%cl, %rbp
	pextrq	$1, %xmm2, %r10
	testb	$64, %r9b
	cmoveq	%rbp, %r14
	shldq	%cl, %r12, %r10
	pextrq	$1, %xmm0, %r12
	testb	$64, %r9b
	cmovneq	%rbp, %r10
	shldq	%cl, %rbx, %r12
	testb	$64, %r9b
	cmovneq	%r15, %r12
	movzwl	%r11w, %ecx
	orq	%r12, 408(%rsp,%rdi)
	shll	$5, %ecx
	orq	%r10, 408(%rsp,%rcx)
	orq	%r14, 400(%rsp,%rcx)
	addq	$2, %rax
	addl	$2, %r11d
	addq	$64, %rsi
	cmpq	%rax, %r8
	jne	.LBB58_203
	testb	$1, %dl
	movl	56(%rsp), %ebp
	movq	72(%rsp), %r15
	movq	48(%rsp), %r12
	movl	80(%rsp), %r10d
	je	.LBB58_206
.LBB58_205:
	movl	$4, %ecx
	subl	%r10d, %ecx
	movswl	%cx, %edx
	addl	%eax, %edx
	shlq	$5, %rax
	movdqa	384(%rsp,%rax), %xmm0
	pand	.LCPI58_0(%rip), %xmm0
	movq	%xmm0, %rax
	pextrq	$1, %xmm0, %r8
	movl	%r9d, %ecx
	shldq	%cl, %rax, %r8
	shlq	%cl, %rax
	movzwl	%dx, %ecx
	shll	$5, %ecx
	xorl	%edx, %edx
	testb	$64, %r9b
	cmovneq	%rax, %r8
	cmoveq	%rax, %rdx
	orq	%rdx, 400(%rsp,%rcx)
	orq	%r8, 408(%rsp,%rcx)
.LBB58_206:
	movaps	64(%r13), %xmm0
	movaps	80(%r13), %xmm1
	orps	448(%rsp), %xmm0
	orps	464(%rsp), %xmm1
	movaps	%xmm0, 448(%rsp)
	movaps	%xmm1, 464(%rsp)
	movsd	104(%r13), %xmm0
	movsd	96(%r13), %xmm1
	movlhps	%xmm0, %xmm1
	orps	480(%rsp), %xmm1
	movq	120(%r13), %xmm0
	movq	112(%r13), %xmm2
	punpcklqdq	%xmm0, %xmm2
	por	496(%rsp), %xmm2
	movaps	%xmm1, 480(%rsp)
	movdqa	%xmm2, 496(%rsp)
	movaps	128(%r13), %xmm0
	movaps	144(%r13), %xmm1
	orps	512(%rsp), %xmm0
	orps	528(%rsp), %xmm1
	movaps	%xmm0, 512(%rsp)
	movaps	%xmm1, 528(%rsp)
	movdqa	160(%r13), %xmm0
	movdqa	176(%r13), %xmm1
	por	544(%rsp), %xmm0
	por	560(%rsp), %xmm1
	movdqa	%xmm0, 544(%rsp)
	movdqa	%xmm1, 560(%rsp)
	movzbl	9024(%rsp), %eax
	leaq	.Lstatic.2(%rip), %rcx
	movzbl	(%rax,%rcx), %edx
	movl	32(%rsp), %ecx
	cmpw	$4, %cx
	movl	64(%rsp), %eax
	jne	.LBB58_209
	cmpw	$4, %ax
	jne	.LBB58_209
	leal	-1(%r12), %eax
	leal	-2(%r15), %ecx
	leal	-1(%r15), %r8d
	movw	%ax, 224(%rsp)
	movw	$0, 226(%rsp)
	movw	%ax, 228(%rsp)
	movw	$1, 230(%rsp)
	movw	%ax, 232(%rsp)
	movl	$2, 234(%rsp)
	movw	%cx, 238(%rsp)
	movw	$0, 240(%rsp)
	movw	%r8w, 242(%rsp)
	movw	$1, 244(%rsp)
	movw	%r8w, 246(%rsp)
	movw	$2, 248(%rsp)
	movw	%r8w, 250(%rsp)
	movw	$3, 252(%rsp)
	movw	%r8w, 254(%rsp)
	leaq	384(%rsp), %rcx
	leaq	224(%rsp), %r8
	callq	"dm_layout::symbols::laying::put_cells::<#3c42656d14ec8a1f>"
	movq	40(%rsp), %r10
	movq	104(%rsp), %rsi
	jmp	.LBB58_220
.LBB58_209:
	cmpw	$6, %cx
	movq	40(%rsp), %r10
	movq	104(%rsp), %rsi
	jne	.LBB58_212
	cmpw	$6, %ax
	jne	.LBB58_212
	leal	-3(%r12), %eax
	leal	-2(%r12), %ecx
	leal	-4(%r15), %r8d
	leal	-3(%r15), %r9d
	movq	%r10, %rdi
	leal	-2(%r15), %r10d
	leal	-1(%r15), %r11d
	movw	%ax, 224(%rsp)
	movw	$0, 226(%rsp)
	movw	%cx, 228(%rsp)
	leal	-1(%r12), %eax
	pxor	%xmm0, %xmm0
	pinsrw	$1, %eax, %xmm0
	movq	%xmm0, 230(%rsp)
	movw	%r8w, 238(%rsp)
	movw	$0, 240(%rsp)
	movw	%r9w, 242(%rsp)
	movw	$0, 244(%rsp)
	movw	%r10w, 246(%rsp)
	movw	$0, 248(%rsp)
	movw	%r11w, 250(%rsp)
	movw	$1, 252(%rsp)
	movw	%r11w, 254(%rsp)
	leaq	384(%rsp), %rcx
	leaq	224(%rsp), %r8
	jmp	.LBB58_219
.LBB58_212:
	cmpw	$4, %cx
	jne	.LBB58_215
	cmpw	$6, %ax
	jne	.LBB58_215
	leal	-3(%r12), %eax
	leal	-2(%r12), %ecx
	leal	-2(%r15), %r8d
	leal	-1(%r15), %r9d
	movw	%ax, 224(%rsp)
	movw	$0, 226(%rsp)
	movw	%cx, 228(%rsp)
	leal	-1(%r12), %eax
	pxor	%xmm0, %xmm0
	pinsrw	$1, %eax, %xmm0
	movq	%xmm0, 230(%rsp)
	movw	%r8w, 238(%rsp)
	movw	$0, 240(%rsp)
	movw	%r9w, 242(%rsp)
	movw	$1, 244(%rsp)
	movw	%r9w, 246(%rsp)
	movw	$2, 248(%rsp)
	movw	%r9w, 250(%rsp)
	movw	$3, 252(%rsp)
	movw	%r9w, 254(%rsp)
	jmp	.LBB58_218
.LBB58_129:
	testw	%r8w, %r8w
	jne	.LBB58_132
	cmpw	$6, %dx
	jne	.LBB58_132
	movl	%r15d, %ecx
	orb	$3, %cl
	movl	%eax, %edx
	andb	$1, %dl
	movzbl	%dl, %edx
	movq	%rdx, %r10
	shlq	%cl, %r10
	xorl	%r11d, %r11d
	testb	$64, %cl
	movq	%r10, %r8
	cmovneq	%r11, %r8
	movq	%r8, 32(%rsp)
	xorl	%r14d, %r14d
	shldq	%cl, %rdx, %r14
	testb	$64, %cl
	cmovneq	%r10, %r14
	movl	%eax, %r10d
	shrb	$3, %r10b
	movl	%r10d, %edx
	andb	$1, %dl
	movzbl	%dl, %edx
	movq	%rdx, %rdi
	shlq	%cl, %rdi
	testb	$64, %cl
	movq	%rdi, %r8
	cmovneq	%r11, %r8
	movq	%r8, 64(%rsp)
	xorl	%esi, %esi
	shldq	%cl, %rdx, %rsi
	testb	$64, %cl
	cmovneq	%rdi, %rsi
	movl	%eax, %edx
	shrb	$6, %dl
	andb	$1, %dl
	movzbl	%dl, %edx
	movq	%rdx, %rdi
	shlq	%cl, %rdi
	testb	$64, %cl
	movq	%rdi, %r8
	cmovneq	%r11, %r8
	movq	%r8, 80(%rsp)
	xorl	%ebx, %ebx
	shldq	%cl, %rdx, %rbx
	testb	$64, %cl
	cmovneq	%rdi, %rbx
	movl	%r15d, %ecx
	orb	$2, %cl
	movl	%eax, %edx
	shrb	%dl
	andb	$1, %dl
	movzbl	%dl, %edx
	movq	%rdx, %r12
	shlq	%cl, %r12
	testb	$64, %cl
	movq	%r12, %rdi
	cmovneq	%r11, %rdi
	xorl	%r15d, %r15d
	shldq	%cl, %rdx, %r15
	testb	$64, %cl
	cmovneq	%r12, %r15
	movl	%eax, %edx
	shrb	$4, %dl
	andb	$1, %dl
	movzbl	%dl, %edx
	movq	%rdx, %rbp
	shlq	%cl, %rbp
	testb	$64, %cl
	movq	%rbp, %r12
	cmovneq	%r11, %r12
	xorl	%r13d, %r13d
	shldq	%cl, %rdx, %r13
	testb	$64, %cl
	cmovneq	%rbp, %r13
	movq	72(%rsp), %rcx
	orb	$1, %cl
	movl	%eax, %edx
	shrb	$2, %dl
	andb	$1, %dl
	movzbl	%dl, %r9d
	movq	%r9, %r8
	shlq	%cl, %r8
	testb	$64, %cl
	movq	%r8, %rbp
	cmovneq	%r11, %rbp
	xorl	%edx, %edx
	shldq	%cl, %r9, %rdx
	testb	$64, %cl
	cmovneq	%r8, %rdx
	shrb	$5, %al
	andb	$1, %al
	movzbl	%al, %r8d
	movq	%r8, %r9
	shlq	%cl, %r9
	testb	$64, %cl
	movq	%r9, %rax
	cmovneq	%r11, %rax
	shldq	%cl, %r8, %r11
	testb	$64, %cl
	cmovneq	%r9, %r11
	andb	$16, %r10b
	movzbl	%r10b, %ecx
	addq	80(%rsp), %rcx
	movq	48(%rsp), %r8
	decl	%r8d
	movzwl	%r8w, %r8d
	shll	$4, %r8d
	orq	%rcx, 416(%rsp,%r8)
	orq	%rbx, 424(%rsp,%r8)
	orq	%rsi, %r13
	orq	64(%rsp), %r12
	orq	%rax, %r12
	orq	%r12, 416(%rsp)
	movq	48(%rsp), %r12
	orq	%r11, %r13
	orq	%r13, 424(%rsp)
	orq	%r14, %rdx
	orq	%r15, %rdx
	movq	72(%rsp), %r15
	orq	32(%rsp), %rbp
	orq	%rdx, 440(%rsp)
	orq	%rdi, %rbp
	orq	%rbp, 432(%rsp)
.LBB58_132:
	movl	%r12d, %eax
	andl	$3, %eax
	xorl	$2, %eax
	movl	%r15d, %ecx
	andl	$3, %ecx
	xorl	$2, %ecx
	orw	%ax, %cx
	movl	56(%rsp), %ebp
	movq	40(%rsp), %r14
	jne	.LBB58_134
	leal	2(%r15), %ecx
	movl	$1, %eax
	xorl	%edx, %edx
	shldq	%cl, %rax, %rdx
	movl	$1, %r8d
	shlq	%cl, %r8
	xorl	%r9d, %r9d
	testb	$64, %cl
	cmovneq	%r8, %rdx
	cmovneq	%r9, %r8
	movzwl	%r12w, %r10d
	shll	$4, %r10d
	orq	%r8, 384(%rsp,%r10)
	leal	3(%r15), %ecx
	xorl	%r8d, %r8d
	shldq	%cl, %rax, %r8
	orq	%rdx, 392(%rsp,%r10)
	shlq	%cl, %rax
	testb	$64, %cl
	cmovneq	%rax, %r8
	cmovneq	%r9, %rax
	orq	%rax, 400(%rsp,%r10)
	orq	%r8, 408(%rsp,%r10)
.LBB58_134:
	leal	1(%r14), %esi
	cmpl	$128, 216(%rsp)
	movq	%rsi, 104(%rsp)
	ja	.LBB58_144
	testw	%bp, %bp
	movq	136(%rsp), %r13
	movq	152(%rsp), %rdi
	movq	144(%rsp), %r11
	movq	$-1, %r12
	je	.LBB58_136
	leal	2(%r14), %eax
	cmpw	$1, %bp
	jne	.LBB58_139
	xorl	%ebx, %ebx
	xorl	%esi, %esi
	movq	$0, 96(%rsp)
	xorl	%r14d, %r14d
	xorl	%edx, %edx
	jmp	.LBB58_142
.LBB58_144:
	movl	$1, %ebx
	xorl	%r8d, %r8d
	movl	%esi, %ecx
	shldq	%cl, %rbx, %r8
	leal	2(%r14), %edx
	movl	$1, %eax
	shlq	%cl, %rax
	xorl	%ecx, %ecx
	testb	$64, %sil
	cmovneq	%rax, %r8
	movq	%r8, 64(%rsp)
	cmovneq	%rcx, %rax
	xorl	%r9d, %r9d
	movq	%rax, 32(%rsp)
	xorl	%eax, %eax
	movl	%edx, %ecx
	shldq	%cl, %rbx, %rax
	movl	$1, %r8d
	shlq	%cl, %r8
	testb	$64, %dl
	cmovneq	%r8, %rax
	movq	%rax, 80(%rsp)
	cmovneq	%r9, %r8
	movq	%r8, 48(%rsp)
	movq	40(%rsp), %rax
	leal	(%rsi,%rax), %ecx
	addl	$2, %ecx
	xorl	%r12d, %r12d
	shldq	%cl, %rbx, %r12
	movl	$1, %r11d
	shlq	%cl, %r11
	testb	$64, %cl
	cmovneq	%r11, %r12
	movl	$0, %r8d
	cmovneq	%r8, %r11
	movq	40(%rsp), %rax
	leal	4(,%rax,2), %ecx
	xorl	%r14d, %r14d
	shldq	%cl, %rbx, %r14
	movl	$1, %r15d
	shlq	%cl, %r15
	testb	$64, %cl
	cmovneq	%r15, %r14
	cmovneq	%r8, %r15
	movq	40(%rsp), %rax
	leal	(%rsi,%rax,2), %ecx
	addl	$4, %ecx
	xorl	%r8d, %r8d
	shldq	%cl, %rbx, %r8
	movl	$1, %eax
	shlq	%cl, %rax
	testb	$64, %cl
	cmovneq	%rax, %r8
	movq	%r8, 96(%rsp)
	movl	$0, %r8d
	cmovneq	%r8, %rax
	movq	%rax, 88(%rsp)
	leal	(%rdx,%rdx,2), %ecx
	xorl	%edi, %edi
	shldq	%cl, %rbx, %rdi
	movl	$1, %r10d
	shlq	%cl, %r10
	testb	$64, %cl
	cmovneq	%r10, %rdi
	cmovneq	%r8, %r10
	xorl	%eax, %eax
	addl	%esi, %ecx
	xorl	%r13d, %r13d
	shldq	%cl, %rbx, %r13
	movl	$1, %ebp
	shlq	%cl, %rbp
	testb	$64, %cl
	cmovneq	%rbp, %r13
	cmovneq	%rax, %rbp
	xorl	%edx, %edx
	movq	40(%rsp), %rax
	leal	8(,%rax,4), %ecx
	xorl	%r9d, %r9d
	shldq	%cl, %rbx, %r9
	movl	$1, %r8d
	shlq	%cl, %r8
	testb	$64, %cl
	cmovneq	%r8, %r9
	cmovneq	%rdx, %r8
	movq	40(%rsp), %rcx
	leal	(%rsi,%rcx,4), %ecx
	addl	$8, %ecx
	xorl	%edx, %edx
	shldq	%cl, %rbx, %rdx
	movl	$1, %eax
	shlq	%cl, %rax
	testb	$64, %cl
	cmovneq	%rax, %rdx
	movl	$0, %ecx
	cmovneq	%rcx, %rax
	movq	40(%rsp), %rcx
	leal	(%rcx,%rcx,4), %ecx
	addb	$10, %cl
	xorl	%esi, %esi
	shldq	%cl, %rbx, %rsi
	shlq	%cl, %rbx
	testb	$64, %cl
	cmovneq	%rbx, %rsi
	movl	$0, %ecx
	cmovneq	%rcx, %rbx
	orq	80(%rsp), %r14
	orq	%rdi, %r14
	orq	48(%rsp), %r15
	orq	%r10, %r15
	orq	%r9, %rsi
	orq	%r14, %rsi
	orq	%r8, %rbx
	orq	%r15, %rbx
	movq	72(%rsp), %r15
	orq	64(%rsp), %r12
	orq	96(%rsp), %r12
	movb	$-112, %cl
	movzwl	128(%rsp), %r8d
	subb	%r8b, %cl
	orq	32(%rsp), %r11
	movl	$65535, %r9d
	shrl	%cl, %r9d
	orq	88(%rsp), %r11
	movabsq	$6148914691236517205, %r14
	orq	$1, %rbx
	orq	%r13, %rdx
	orq	%r12, %rdx
	orq	%rbp, %rax
	movl	56(%rsp), %ebp
	orq	%r11, %rax
	orq	%rsi, %rdx
	movq	%rdx, 48(%rsp)
	orq	%rbx, %rax
	movq	%rax, 96(%rsp)
	addb	$127, %r8b
	movl	%r8d, %ecx
	movl	$1, %r8d
	shll	%cl, %r8d
	movq	%r9, 184(%rsp)
	andl	$21845, %r9d
	movq	%r9, 160(%rsp)
	movq	%r14, 112(%rsp)
	movq	$-1, 168(%rsp)
	movq	$-1, 176(%rsp)
	movq	136(%rsp), %r13
	movq	152(%rsp), %rdi
	movq	144(%rsp), %r11
	movq	$-1, %r12
	jmp	.LBB58_145
.LBB58_136:
	movq	$0, 96(%rsp)
	xorl	%r14d, %r14d
	xorl	%ebx, %ebx
	xorl	%esi, %esi
	jmp	.LBB58_143
.LBB58_139:
	andl	$65534, %ebp
	movl	%ebp, 64(%rsp)
	leal	3(,%r14,2), %ecx
	movq	%rcx, 48(%rsp)
	leal	4(,%r14,2), %ecx
	movq	%rcx, 80(%rsp)
	xorl	%r8d, %r8d
	xorl	%r9d, %r9d
	xorl	%esi, %esi
	xorl	%r11d, %r11d
	xorl	%r10d, %r10d
	xorl	%edx, %edx
	movq	%rax, 32(%rsp)
	.p2align	4
.LBB58_140:
	movl	$1, %edi
	xorl	%eax, %eax
	movl	%r8d, %ecx
	shldq	%cl, %rdi, %rax
	xorl	%r14d, %r14d
	movl	$1, %ebx
	shlq	%cl, %rbx
	testb	$64, %r8b
	cmovneq	%rbx, %rax
	cmovneq	%r14, %rbx
	movq	104(%rsp), %rcx
	addl	%r8d, %ecx
	xorl	%r15d, %r15d
	shldq	%cl, %rdi, %r15
	orq	%rax, %rsi
	orq	%rbx, %r9
	movl	$1, %r12d
	shlq	%cl, %r12
	testb	$64, %cl
	cmovneq	%r12, %r15
	cmovneq	%r14, %r12
	movq	32(%rsp), %rcx
	addl	%r8d, %ecx
	xorl	%r13d, %r13d
	shldq	%cl, %rdi, %r13
	orq	%r10, %r15
	orq	%r11, %r12
	movl	$1, %ebp
	shlq	%cl, %rbp
	testb	$64, %cl
	cmovneq	%rbp, %r13
	cmovneq	%r14, %rbp
	orq	%r13, %rsi
	movq	48(%rsp), %rcx
	addl	%r8d, %ecx
	xorl	%r10d, %r10d
	shldq	%cl, %rdi, %r10
	shlq	%cl, %rdi
	orq	%rbp, %r9
	testb	$64, %cl
	cmovneq	%rdi, %r10
	cmovneq	%r14, %rdi
	orq	%rax, %r10
	orq	%r15, %r10
	orq	%rbx, %rdi
	orq	%r12, %rdi
	orq	%r13, %r10
	movq	%rdi, %r11
	orq	%rbp, %r11
	addl	$2, %edx
	movq	80(%rsp), %rax
	addl	%eax, %r8d
	cmpw	%dx, 64(%rsp)
	jne	.LBB58_140
	movq	%r11, 96(%rsp)
	movl	56(%rsp), %ebp
	testb	$1, %bpl
	movq	136(%rsp), %r13
	movq	152(%rsp), %rdi
	movq	144(%rsp), %r11
	movq	$-1, %r12
	movq	72(%rsp), %r15
	movq	%r9, %rbx
	movq	%r10, %r14
	movq	32(%rsp), %rax
	je	.LBB58_143
.LBB58_142:
	imull	%eax, %edx
	movl	$1, %r8d
	xorl	%eax, %eax
	movl	%edx, %ecx
	shldq	%cl, %r8, %rax
	xorl	%r10d, %r10d
	movl	$1, %r9d
	shlq	%cl, %r9
	testb	$64, %dl
	cmovneq	%r9, %rax
	cmovneq	%r10, %r9
	orq	%rax, %rsi
	movq	104(%rsp), %rcx
	addl	%edx, %ecx
	xorl	%edx, %edx
	shldq	%cl, %r8, %rdx
	shlq	%cl, %r8
	orq	%r9, %rbx
	testb	$64, %cl
	cmovneq	%r8, %rdx
	cmovneq	%r10, %r8
	orq	%r14, %rax
	orq	%rdx, %rax
	orq	96(%rsp), %r9
	orq	%r8, %r9
	movq	%r9, 96(%rsp)
	movq	%rax, %r14
.LBB58_143:
	movq	%r14, 48(%rsp)
	movq	$-1, %rdx
	movzwl	128(%rsp), %ecx
	shldq	%cl, %rdx, %rdx
	movq	$-1, %rax
	shlq	%cl, %rax
	xorl	%r8d, %r8d
	testb	$64, %cl
	cmovneq	%rax, %rdx
	movl	$0, %ecx
	cmoveq	%rax, %rcx
	notq	%rdx
	notq	%rcx
	movabsq	$6148914691236517205, %r14
	movq	%rdx, 176(%rsp)
	andq	%r14, %rdx
	movq	%rdx, 112(%rsp)
	movq	%rcx, 168(%rsp)
	andq	%rcx, %r14
	movq	$0, 160(%rsp)
	movq	$0, 184(%rsp)
.LBB58_145:
	movq	%r8, 80(%rsp)
	movq	%rsi, 64(%rsp)
	movq	%rbx, 32(%rsp)
	pxor	%xmm0, %xmm0
	movdqa	%xmm0, 4864(%rsp)
	movdqa	%xmm0, 4848(%rsp)
	movdqa	%xmm0, 4832(%rsp)
	movdqa	%xmm0, 4816(%rsp)
	movdqa	%xmm0, 4800(%rsp)
	decw	%bp
	movq	176(%rsp), %r10
	movq	168(%rsp), %rsi
	movq	112(%rsp), %rbx
	je	.LBB58_152
	cmpw	$1, %bp
	jne	.LBB58_148
	xorl	%r9d, %r9d
	jmp	.LBB58_151
.LBB58_148:
	movq	%r14, 256(%rsp)
	movzwl	%bp, %r10d
	movl	%r10d, %r11d
	andl	$-2, %r11d
	movq	40(%rsp), %rax
	leal	3(,%rax,2), %edx
	leal	4(,%rax,2), %eax
	leaq	4816(%rsp), %rsi
	xorl	%r9d, %r9d
	movq	104(%rsp), %r8
	.p2align	4
.LBB58_149:
	movq	$-1, %r14
	movl	%r8d, %ecx
	shldq	%cl, %r14, %r14
	movq	$-1, %rdi
	shlq	%cl, %rdi
	xorl	%ebx, %ebx
	testb	$64, %r8b
	cmovneq	%rdi, %r14
	cmovneq	%rbx, %rdi
	movq	$-1, %r15
	movl	%edx, %ecx
	shldq	%cl, %r15, %r15
	notq	%r14
	movq	%r14, -8(%rsi)
	movq	$-1, %r14
	shlq	%cl, %r14
	notq	%rdi
	testb	$64, %dl
	cmovneq	%r14, %r15
	movq	%rdi, -16(%rsi)
	cmovneq	%rbx, %r14
	notq	%r15
	notq	%r14
	movq	%r15, 8(%rsi)
	movq	%r14, (%rsi)
	addq	$2, %r9
	addl	%eax, %edx
	addq	$32, %rsi
	addl	%eax, %r8d
	cmpq	%r9, %r11
	jne	.LBB58_149
	testb	$1, %r10b
	movq	152(%rsp), %rdi
	movq	144(%rsp), %r11
	movq	72(%rsp), %r15
	movq	256(%rsp), %r14
	movq	176(%rsp), %r10
	movq	168(%rsp), %rsi
	movq	112(%rsp), %rbx
	je	.LBB58_152
.LBB58_151:
	movq	40(%rsp), %rax
	addl	$2, %eax
	imull	%r9d, %eax
	movq	104(%rsp), %rcx
	addl	%eax, %ecx
	movq	$-1, %rax
	shldq	%cl, %rax, %rax
	movq	$-1, %rdx
	shlq	%cl, %rdx
	xorl	%r8d, %r8d
	testb	$64, %cl
	cmovneq	%rdx, %rax
	cmoveq	%rdx, %r8
	notq	%rax
	notq	%r8
	shlq	$4, %r9
	movq	%rax, 4808(%rsp,%r9)
	movq	%r8, 4800(%rsp,%r9)
.LBB58_152:
	testq	%r11, %r11
	movq	184(%rsp), %rax
	movq	160(%rsp), %rdx
	je	.LBB58_74
	movq	120(%rsp), %r9
	leal	1(%r9), %ecx
	movq	%rcx, 208(%rsp)
	testw	%cx, %cx
	cmoveq	%r10, %rbx
	cmoveq	%rsi, %r14
	cmovel	%eax, %edx
	movq	40(%rsp), %r9
	leal	(%r9,%r9,4), %ecx
	movq	$-1, %r8
	shldq	%cl, %r8, %r8
	movq	$-1, %rax
	shlq	%cl, %rax
	movl	%ecx, 56(%rsp)
	testb	$64, %cl
	cmovneq	%rax, %r8
	movq	%r8, 296(%rsp)
	movl	$0, %ecx
	cmovneq	%rcx, %rax
	movq	%rax, 288(%rsp)
	movq	$-1, %r8
	movl	%r9d, %ecx
	shldq	%cl, %r8, %r8
	movq	%rdx, %rax
	movq	$-1, %rdx
	shlq	%cl, %rdx
	testb	$64, %r9b
	cmovneq	%rdx, %r8
	movl	$0, %ecx
	cmovneq	%rcx, %rdx
	movq	%rdx, 128(%rsp)
	movq	$-1, %r9
	movl	%r15d, %ecx
	shldq	%cl, %r9, %r9
	shlq	%cl, %r12
	testb	$64, %r15b
	movq	208(%rsp), %r15
	cmovneq	%r12, %r9
	movl	$0, %ecx
	cmovneq	%rcx, %r12
	movq	120(%rsp), %rcx
	addl	$2, %ecx
	cmpw	$1, %r15w
	movq	%rax, %rdx
	jbe	.LBB58_154
	movq	%r8, 192(%rsp)
	movq	%r9, 88(%rsp)
	movzwl	%r15w, %r8d
	movq	%r8, 104(%rsp)
	cmpl	$129, 216(%rsp)
	movq	%r14, 256(%rsp)
	movq	%rbx, 112(%rsp)
	movq	%rdx, 160(%rsp)
	movq	%rcx, 200(%rsp)
	jae	.LBB58_157
	notq	88(%rsp)
	notq	%r12
	testw	%bp, %bp
	movq	%r12, 56(%rsp)
	je	.LBB58_162
	movzwl	%bp, %eax
	movq	%rcx, %r10
	movl	%eax, %ecx
	andl	$-2, %ecx
	xorl	%r15d, %r15d
	movl	%ebp, %r8d
	movq	160(%rsp), %rdx
	jmp	.LBB58_167
	.p2align	4
.LBB58_174:
	addl	208(%rsp), %r10d
	movzwl	%r10w, %r10d
	movl	%r10d, %r11d
	shll	$4, %r11d
	movq	152(%rsp), %rdi
	movq	176(%rsp), %rdx
	movq	%rdx, 8(%rdi,%r11)
	movq	168(%rsp), %rdx
	movq	%rdx, (%rdi,%r11)
	movq	184(%rsp), %rdx
	movw	%dx, (%r13,%r10,2)
	movq	%r9, %r15
	incq	%r15
	cmpq	144(%rsp), %r15
	movq	256(%rsp), %r14
	movq	112(%rsp), %rbx
	movq	160(%rsp), %rdx
	movq	200(%rsp), %r10
	je	.LBB58_74
.LBB58_167:
	imull	%r15d, %r10d
	movzwl	%r10w, %r11d
	movl	%r11d, %esi
	shll	$4, %esi
	movq	%rbx, 8(%rdi,%rsi)
	movq	%r14, (%rdi,%rsi)
	movw	%dx, (%r13,%r11,2)
	movq	120(%rsp), %r11
	movq	%r15, %r9
	imull	%r15d, %r11d
	decl	%r11d
	movl	$1, %esi
	movq	96(%rsp), %rdx
	jmp	.LBB58_168
	.p2align	4
.LBB58_172:
	shlq	$4, %r14
	movq	4808(%rsp,%r14), %r15
	andq	%rbx, %r15
	movq	4800(%rsp,%r14), %r14
	andq	%rdi, %r14
	subq	%r14, %rdi
	sbbq	%r15, %rbx
	shldq	$2, %rdi, %rbx
	shlq	$2, %rdi
	addq	%r14, %rdi
	adcq	%r15, %rbx
.LBB58_173:
	movl	%esi, %ebp
	andl	$1, %ebp
	movl	%ebp, %r14d
	negl	%r14d
	movq	80(%rsp), %r15
	andl	%r14d, %r15d
	testl	%ebp, %ebp
	movq	48(%rsp), %r14
	cmoveq	64(%rsp), %r14
	movq	%rdx, %r12
	cmoveq	32(%rsp), %r12
	orq	%rdi, %r12
	orq	%rbx, %r14
	leal	(%r10,%rsi), %edi
	movzwl	%di, %edi
	movl	%edi, %ebx
	shll	$4, %ebx
	movq	152(%rsp), %rbp
	movq	%r14, 8(%rbp,%rbx)
	movq	%r12, (%rbp,%rbx)
	movw	%r15w, (%r13,%rdi,2)
	incq	%rsi
	cmpq	104(%rsp), %rsi
	movq	56(%rsp), %r12
	movl	%r8d, %ebp
	je	.LBB58_174
.LBB58_168:
	leal	(%r11,%rsi), %edi
	movzwl	%di, %ebx
	shll	$4, %ebx
	movq	416(%rsp,%rbx), %rdi
	movq	424(%rsp,%rbx), %rbx
	shrdq	$4, %rbx, %rdi
	shrq	$4, %rbx
	andq	%r12, %rdi
	andq	88(%rsp), %rbx
	shldq	$1, %rdi, %rbx
	addq	%rdi, %rdi
	xorl	%r14d, %r14d
	cmpw	$1, %bp
	je	.LBB58_172
	leaq	4816(%rsp), %r15
	.p2align	4
.LBB58_170:
	movq	-8(%r15), %r12
	andq	%rbx, %r12
	movq	-16(%r15), %r13
	andq	%rdi, %r13
	subq	%r13, %rdi
	sbbq	%r12, %rbx
	shldq	$2, %rdi, %rbx
	shlq	$2, %rdi
	addq	%r13, %rdi
	adcq	%r12, %rbx
	movq	8(%r15), %r12
	andq	%rbx, %r12
	movq	(%r15), %r13
	andq	%rdi, %r13
	subq	%r13, %rdi
	sbbq	%r12, %rbx
	shldq	$2, %rdi, %rbx
	shlq	$2, %rdi
	addq	%r13, %rdi
	adcq	%r12, %rbx
	addq	$2, %r14
	addq	$32, %r15
	cmpq	%r14, %rcx
	jne	.LBB58_170
	testb	$1, %al
	movq	136(%rsp), %r13
	jne	.LBB58_172
	jmp	.LBB58_173
.LBB58_154:
	xorl	%eax, %eax
	movq	184(%rsp), %r8
	movq	%rdx, %r9
	movq	%rcx, %r12
	.p2align	4
.LBB58_155:
	movzwl	%ax, %ecx
	movl	%ecx, %edx
	shll	$4, %edx
	movq	%rbx, 8(%rdi,%rdx)
	movq	%r14, (%rdi,%rdx)
	movw	%r9w, (%r13,%rcx,2)
	leal	(%r15,%rax), %ecx
	movzwl	%cx, %ecx
	movl	%ecx, %edx
	shll	$4, %edx
	movq	%r10, 8(%rdi,%rdx)
	movq	%rsi, (%rdi,%rdx)
	movw	%r8w, (%r13,%rcx,2)
	addl	%r12d, %eax
	decq	%r11
	jne	.LBB58_155
	jmp	.LBB58_74
.LBB58_157:
	movq	%rdx, %r10
	movl	$117, %edx
	subl	56(%rsp), %edx
	movl	%edx, 320(%rsp)
	movq	296(%rsp), %rsi
	notq	%rsi
	movq	288(%rsp), %r12
	notq	%r12
	movq	4800(%rsp), %rax
	movq	%rax, 72(%rsp)
	movq	4808(%rsp), %rdx
	movq	4824(%rsp), %rax
	movq	%rax, 216(%rsp)
	movq	4816(%rsp), %rax
	movq	%rax, 296(%rsp)
	movq	4840(%rsp), %rax
	movq	%rax, 288(%rsp)
	movq	4832(%rsp), %rax
	movq	%rax, 312(%rsp)
	movq	4856(%rsp), %rax
	movq	%rax, 264(%rsp)
	movq	4848(%rsp), %rax
	movq	%rax, 280(%rsp)
	notq	192(%rsp)
	notq	128(%rsp)
	movq	40(%rsp), %r8
	leal	11(%r8,%r8,4), %eax
	movl	%eax, 304(%rsp)
	movzwl	%cx, %eax
	movq	%rax, 376(%rsp)
	xorl	%ebp, %ebp
	xorl	%eax, %eax
	xorl	%r8d, %r8d
	movq	%rdx, 272(%rsp)
	.p2align	4
.LBB58_158:
	movq	%rax, 88(%rsp)
	movl	%ecx, %eax
	movq	%r8, 328(%rsp)
	imull	%r8d, %eax
	movl	%eax, 308(%rsp)
	movzwl	%ax, %ecx
	movl	%ecx, %r9d
	shll	$4, %r9d
	movq	%rbx, 8(%rdi,%r9)
	movq	%r14, (%rdi,%r9)
	movw	%r10w, (%r13,%rcx,2)
	movl	$1, %r15d
	movq	%rbp, 40(%rsp)
	movl	320(%rsp), %r8d
	movl	304(%rsp), %eax
	.p2align	4
.LBB58_159:
	movzwl	%bp, %ecx
	shll	$4, %ecx
	movq	416(%rsp,%rcx), %r11
	movq	424(%rsp,%rcx), %r9
	shrdq	$4, %r9, %r11
	shrq	$4, %r9
	movq	%r11, %r10
	andq	%r12, %r10
	movq	%r9, %rdi
	andq	%rsi, %rdi
	shldq	$1, %r10, %rdi
	addq	%r10, %r10
	movq	%rdi, %rcx
	andq	%rdx, %rcx
	movq	%r12, %rdx
	movq	%r10, %r12
	andq	72(%rsp), %r12
	subq	%r12, %r10
	sbbq	%rcx, %rdi
	shldq	$2, %r10, %rdi
	shlq	$2, %r10
	addq	%r12, %r10
	adcq	%rcx, %rdi
	movq	%rdi, %rcx
	movq	%r10, %r12
	andq	216(%rsp), %rcx
	andq	296(%rsp), %r12
	subq	%r12, %r10
	sbbq	%rcx, %rdi
	shldq	$2, %r10, %rdi
	shlq	$2, %r10
	addq	%r12, %r10
	adcq	%rcx, %rdi
	movq	%rdi, %rcx
	andq	288(%rsp), %rcx
	movq	%r10, %r12
	andq	312(%rsp), %r12
	subq	%r12, %r10
	sbbq	%rcx, %rdi
	shldq	$2, %r10, %rdi
	shlq	$2, %r10
	addq	%r12, %r10
	adcq	%rcx, %rdi
	movq	%rdi, %rcx
	movq	%r10, %r12
	andq	264(%rsp), %rcx
	andq	280(%rsp), %r12
	subq	%r12, %r10
	sbbq	%rcx, %rdi
	shldq	$2, %r10, %rdi
	shlq	$2, %r10
	addq	%r12, %r10
	adcq	%rcx, %rdi
	movl	56(%rsp), %ecx
	shrdq	%cl, %r9, %r11
	shrq	%cl, %r9
	movq	%rsi, %rbx
	xorl	%esi, %esi
	testb	$64, %cl
	cmovneq	%r9, %r11
	cmovneq	%rsi, %r9
	andq	128(%rsp), %r11
	andq	192(%rsp), %r9
	movq	%r9, %r13
	movq	%r11, %r12
	movl	%eax, %ecx
	shldq	%cl, %r11, %r13
	shlq	%cl, %r12
	testb	$64, %al
	cmovneq	%r12, %r13
	cmovneq	%rsi, %r12
	movl	%r8d, %ecx
	shrdq	%cl, %r9, %r11
	shrq	%cl, %r9
	testb	$64, %r8b
	cmoveq	%r11, %r9
	movl	%r15d, %r11d
	andl	$1, %r11d
	movl	%r11d, %esi
	negl	%esi
	movq	80(%rsp), %rcx
	andl	%esi, %ecx
	testl	%r11d, %r11d
	movq	48(%rsp), %r11
	cmoveq	64(%rsp), %r11
	movq	96(%rsp), %rsi
	cmoveq	32(%rsp), %rsi
	orq	%r12, %rsi
	movq	%rdx, %r12
	movq	272(%rsp), %rdx
	orq	%r13, %r11
	movq	136(%rsp), %r14
	orq	%r10, %rsi
	orq	%rdi, %r11
	movq	88(%rsp), %r10
	addl	%r15d, %r10d
	movzwl	%r10w, %r10d
	movl	%r10d, %edi
	shll	$4, %edi
	movq	152(%rsp), %r13
	movq	%rsi, (%r13,%rdi)
	movq	%rbx, %rsi
	movq	%r11, 8(%r13,%rdi)
	orl	%r9d, %ecx
	movw	%cx, (%r14,%r10,2)
	incq	%r15
	incl	%ebp
	cmpq	%r15, 104(%rsp)
	jne	.LBB58_159
	movq	%r14, %r13
	movl	308(%rsp), %eax
	addl	208(%rsp), %eax
	movzwl	%ax, %ecx
	movl	%ecx, %r9d
	shll	$4, %r9d
	movq	176(%rsp), %r10
	movq	152(%rsp), %rdi
	movq	%r10, 8(%rdi,%r9)
	movq	168(%rsp), %r10
	movq	%r10, (%rdi,%r9)
	movq	184(%rsp), %r9
	movw	%r9w, (%r14,%rcx,2)
	movq	328(%rsp), %r8
	incq	%r8
	movq	88(%rsp), %rax
	addq	376(%rsp), %rax
	movq	40(%rsp), %rbp
	addl	120(%rsp), %ebp
	cmpq	144(%rsp), %r8
	movq	256(%rsp), %r14
	movq	112(%rsp), %rbx
	movq	160(%rsp), %r10
	movq	200(%rsp), %rcx
	jne	.LBB58_158
	jmp	.LBB58_74
.LBB58_215:
	testw	%cx, %cx
	jne	.LBB58_220
	cmpw	$6, %ax
	jne	.LBB58_220
	movdqa	.LCPI58_1(%rip), %xmm0
	pinsrw	$7, %r15d, %xmm0
	pshufd	$255, %xmm0, %xmm1
	pblendw	$215, .LCPI58_2(%rip), %xmm1
	pinsrw	$0, %r12d, %xmm1
	pshuflw	$196, %xmm1, %xmm1
	paddw	%xmm0, %xmm1
	leal	-1(%r15), %eax
	movdqa	%xmm1, 224(%rsp)
	movw	$0, 240(%rsp)
	movw	%ax, 242(%rsp)
	pshufhw	$237, %xmm1, %xmm0
	pshufd	$170, %xmm0, %xmm0
	movdqa	.LCPI58_3(%rip), %xmm1
	punpcklwd	%xmm0, %xmm1
	movq	%xmm1, 244(%rsp)
	movw	$1, 252(%rsp)
	movw	%ax, 254(%rsp)
.LBB58_218:
	leaq	384(%rsp), %rcx
	leaq	224(%rsp), %r8
	movq	%r10, %rdi
.LBB58_219:
	callq	"dm_layout::symbols::laying::put_cells::<#3c42656d14ec8a1f>"
	movq	%rdi, %r10
.LBB58_220:
	andl	$3, %r12d
	xorl	$2, %r12d
	movl	%r15d, %eax
	andl	$3, %eax
	xorl	$2, %eax
	orw	%r12w, %ax
	jne	.LBB58_228
	leal	2(%r15), %ecx
	shll	$5, %esi
	cmpw	$127, %cx
	ja	.LBB58_223
	movl	$1, %edx
	xorl	%r9d, %r9d
	shldq	%cl, %rdx, %r9
	shlq	%cl, %rdx
	xorl	%eax, %eax
	testb	$64, %cl
	cmovneq	%rdx, %r9
	cmovneq	%rax, %rdx
	xorl	%r8d, %r8d
	jmp	.LBB58_224
.LBB58_223:
	leal	-126(%r15), %ecx
	movl	$1, %eax
	xorl	%r8d, %r8d
	shldq	%cl, %rax, %r8
	shlq	%cl, %rax
	xorl	%edx, %edx
	testb	$64, %cl
	cmovneq	%rax, %r8
	cmovneq	%rdx, %rax
	xorl	%r9d, %r9d
.LBB58_224:
	orq	%rdx, 384(%rsp,%rsi)
	orq	%r9, 392(%rsp,%rsi)
	orq	%rax, 400(%rsp,%rsi)
	orq	%r8, 408(%rsp,%rsi)
	leal	3(%r15), %ecx
	cmpw	$127, %cx
	ja	.LBB58_226
	movl	$1, %edx
	xorl	%r9d, %r9d
	shldq	%cl, %rdx, %r9
	shlq	%cl, %rdx
	xorl	%eax, %eax
	testb	$64, %cl
	cmovneq	%rdx, %r9
	cmovneq	%rax, %rdx
	xorl	%r8d, %r8d
	jmp	.LBB58_227
.LBB58_226:
	leal	-125(%r15), %ecx
	movl	$1, %eax
	xorl	%r8d, %r8d
	shldq	%cl, %rax, %r8
	shlq	%cl, %rax
	xorl	%edx, %edx
	testb	$64, %cl
	cmovneq	%rax, %r8
	cmovneq	%rdx, %rax
	xorl	%r9d, %r9d
.LBB58_227:
	orq	%rdx, 416(%rsp,%rsi)
	orq	%r9, 424(%rsp,%rsi)
	orq	%rax, 432(%rsp,%rsi)
	orq	%r8, 440(%rsp,%rsi)
.LBB58_228:
	leal	1(%r10), %r8d
	cmpl	$128, 216(%rsp)
	movq	%r8, 104(%rsp)
	ja	.LBB58_238
	testw	%bp, %bp
	movq	136(%rsp), %r13
	movq	152(%rsp), %rdi
	movq	144(%rsp), %r11
	movq	120(%rsp), %rbx
	movq	$-1, %r12
	je	.LBB58_230
	leal	2(%r10), %eax
	cmpw	$1, %bp
	jne	.LBB58_233
	xorl	%r14d, %r14d
	xorl	%esi, %esi
	movq	$0, 88(%rsp)
	xorl	%r8d, %r8d
	xorl	%edx, %edx
	jmp	.LBB58_236
.LBB58_238:
	movl	$1, %r14d
	xorl	%r9d, %r9d
	movl	%r8d, %ecx
	shldq	%cl, %r14, %r9
	leal	2(%r10), %edx
	movl	$1, %eax
	shlq	%cl, %rax
	xorl	%ecx, %ecx
	testb	$64, %r8b
	cmovneq	%rax, %r9
	movq	%r9, 64(%rsp)
	cmovneq	%rcx, %rax
	xorl	%r10d, %r10d
	movq	%rax, 32(%rsp)
	xorl	%eax, %eax
	movl	%edx, %ecx
	shldq	%cl, %r14, %rax
	movl	$1, %r9d
	shlq	%cl, %r9
	testb	$64, %dl
	cmovneq	%r9, %rax
	movq	%rax, 80(%rsp)
	cmovneq	%r10, %r9
	movq	%r9, 48(%rsp)
	movq	40(%rsp), %rax
	leal	(%r8,%rax), %ecx
	addl	$2, %ecx
	xorl	%r12d, %r12d
	shldq	%cl, %r14, %r12
	movl	$1, %r11d
	shlq	%cl, %r11
	testb	$64, %cl
	cmovneq	%r11, %r12
	movl	$0, %r9d
	cmovneq	%r9, %r11
	movq	40(%rsp), %rax
	leal	4(,%rax,2), %ecx
	xorl	%r10d, %r10d
	shldq	%cl, %r14, %r10
	movl	$1, %r15d
	shlq	%cl, %r15
	testb	$64, %cl
	cmovneq	%r15, %r10
	cmovneq	%r9, %r15
	movq	40(%rsp), %rax
	leal	(%r8,%rax,2), %ecx
	addl	$4, %ecx
	xorl	%r9d, %r9d
	shldq	%cl, %r14, %r9
	movl	$1, %eax
	shlq	%cl, %rax
	testb	$64, %cl
	cmovneq	%rax, %r9
	movq	%r9, 96(%rsp)
	movl	$0, %r9d
	cmovneq	%r9, %rax
	movq	%rax, 88(%rsp)
	leal	(%rdx,%rdx,2), %ecx
	xorl	%edi, %edi
	shldq	%cl, %r14, %rdi
	movl	$1, %ebx
	shlq	%cl, %rbx
	testb	$64, %cl
	cmovneq	%rbx, %rdi
	cmovneq	%r9, %rbx
	xorl	%eax, %eax
	addl	%r8d, %ecx
	xorl	%r13d, %r13d
	shldq	%cl, %r14, %r13
	movl	$1, %ebp
	shlq	%cl, %rbp
	testb	$64, %cl
	cmovneq	%rbp, %r13
	cmovneq	%rax, %rbp
	xorl	%esi, %esi
	movq	40(%rsp), %rax
	leal	8(,%rax,4), %ecx
	xorl	%r9d, %r9d
	shldq	%cl, %r14, %r9
	movl	$1, %edx
	shlq	%cl, %rdx
	testb	$64, %cl
	cmovneq	%rdx, %r9
	cmovneq	%rsi, %rdx
	xorl	%esi, %esi
	movq	40(%rsp), %rcx
	leal	(%r8,%rcx,4), %ecx
	addl	$8, %ecx
	xorl	%r8d, %r8d
	shldq	%cl, %r14, %r8
	movl	$1, %eax
	shlq	%cl, %rax
	testb	$64, %cl
	cmovneq	%rax, %r8
	cmovneq	%rsi, %rax
	movq	40(%rsp), %rcx
	leal	(%rcx,%rcx,4), %ecx
	addb	$10, %cl
	xorl	%esi, %esi
	shldq	%cl, %r14, %rsi
	shlq	%cl, %r14
	testb	$64, %cl
	cmovneq	%r14, %rsi
	movl	$0, %ecx
	cmovneq	%rcx, %r14
	orq	80(%rsp), %r10
	orq	%rdi, %r10
	orq	48(%rsp), %r15
	orq	%rbx, %r15
	orq	%r9, %rsi
	orq	%r10, %rsi
	orq	%rdx, %r14
	orq	%r15, %r14
	orq	64(%rsp), %r12
	orq	96(%rsp), %r12
	movb	$-112, %cl
	movzwl	128(%rsp), %edx
	subb	%dl, %cl
	orq	32(%rsp), %r11
	movl	$65535, %r10d
	shrl	%cl, %r10d
	orq	88(%rsp), %r11
	movabsq	$6148914691236517205, %r9
	orq	$1, %r14
	orq	%r13, %r8
	orq	%r12, %r8
	orq	%rbp, %rax
	movl	56(%rsp), %ebp
	orq	%r11, %rax
	orq	%rsi, %r8
	orq	%r14, %rax
	movq	%rax, 88(%rsp)
	addb	$127, %dl
	movl	$1, %eax
	movl	%edx, %ecx
	shll	%cl, %eax
	movq	%rax, 80(%rsp)
	movq	%r10, 160(%rsp)
	andl	$21845, %r10d
	movq	%r10, 200(%rsp)
	movq	%r9, %r10
	movq	%r9, 112(%rsp)
	movq	$-1, 176(%rsp)
	movq	$-1, 184(%rsp)
	movq	136(%rsp), %r13
	movq	152(%rsp), %rdi
	movq	144(%rsp), %r11
	movq	120(%rsp), %rbx
	movq	$-1, %r12
	jmp	.LBB58_239
.LBB58_230:
	movq	$0, 88(%rsp)
	xorl	%r8d, %r8d
	xorl	%r14d, %r14d
	xorl	%esi, %esi
	jmp	.LBB58_237
.LBB58_233:
	andl	$65534, %ebp
	movl	%ebp, 64(%rsp)
	leal	3(,%r10,2), %ecx
	movq	%rcx, 48(%rsp)
	leal	4(,%r10,2), %ecx
	movq	%rcx, 80(%rsp)
	xorl	%r11d, %r11d
	xorl	%r14d, %r14d
	xorl	%esi, %esi
	xorl	%r10d, %r10d
	xorl	%r8d, %r8d
	xorl	%edx, %edx
	movq	%rax, 32(%rsp)
	.p2align	4
.LBB58_234:
	movl	$1, %edi
	xorl	%eax, %eax
	movl	%r11d, %ecx
	shldq	%cl, %rdi, %rax
	xorl	%r9d, %r9d
	movl	$1, %ebx
	shlq	%cl, %rbx
	testb	$64, %r11b
	cmovneq	%rbx, %rax
	cmovneq	%r9, %rbx
	movq	104(%rsp), %rcx
	addl	%r11d, %ecx
	xorl	%r15d, %r15d
	shldq	%cl, %rdi, %r15
	orq	%rax, %rsi
	orq	%rbx, %r14
	movl	$1, %r12d
	shlq	%cl, %r12
	testb	$64, %cl
	cmovneq	%r12, %r15
	cmovneq	%r9, %r12
	movq	32(%rsp), %rcx
	addl	%r11d, %ecx
	xorl	%r13d, %r13d
	shldq	%cl, %rdi, %r13
	orq	%r8, %r15
	orq	%r10, %r12
	movl	$1, %ebp
	shlq	%cl, %rbp
	testb	$64, %cl
	cmovneq	%rbp, %r13
	cmovneq	%r9, %rbp
	orq	%r13, %rsi
	movq	48(%rsp), %rcx
	addl	%r11d, %ecx
	xorl	%r8d, %r8d
	shldq	%cl, %rdi, %r8
	shlq	%cl, %rdi
	orq	%rbp, %r14
	testb	$64, %cl
	cmovneq	%rdi, %r8
	cmovneq	%r9, %rdi
	orq	%rax, %r8
	orq	%r15, %r8
	orq	%rbx, %rdi
	orq	%r12, %rdi
	orq	%r13, %r8
	movq	%rdi, %r10
	orq	%rbp, %r10
	addl	$2, %edx
	movq	80(%rsp), %rax
	addl	%eax, %r11d
	cmpw	%dx, 64(%rsp)
	jne	.LBB58_234
	movq	%r10, 88(%rsp)
	movl	56(%rsp), %ebp
	testb	$1, %bpl
	movq	136(%rsp), %r13
	movq	152(%rsp), %rdi
	movq	144(%rsp), %r11
	movq	120(%rsp), %rbx
	movq	$-1, %r12
	movq	32(%rsp), %rax
	je	.LBB58_237
.LBB58_236:
	imull	%eax, %edx
	movq	%r8, %r10
	movl	$1, %r8d
	xorl	%eax, %eax
	movl	%edx, %ecx
	shldq	%cl, %r8, %rax
	movl	$1, %r9d
	shlq	%cl, %r9
	testb	$64, %dl
	cmovneq	%r9, %rax
	movl	$0, %ecx
	cmovneq	%rcx, %r9
	orq	%rax, %rsi
	movq	104(%rsp), %rcx
	addl	%edx, %ecx
	xorl	%edx, %edx
	shldq	%cl, %r8, %rdx
	shlq	%cl, %r8
	orq	%r9, %r14
	testb	$64, %cl
	cmovneq	%r8, %rdx
	movl	$0, %ecx
	cmovneq	%rcx, %r8
	orq	%r10, %rax
	orq	%rdx, %rax
	orq	88(%rsp), %r9
	orq	%r8, %r9
	movq	%r9, 88(%rsp)
	movq	%rax, %r8
.LBB58_237:
	movq	$-1, %rdx
	movzwl	128(%rsp), %ecx
	shldq	%cl, %rdx, %rdx
	movq	$-1, %rax
	shlq	%cl, %rax
	movq	$0, 80(%rsp)
	testb	$64, %cl
	cmovneq	%rax, %rdx
	movl	$0, %ecx
	cmoveq	%rax, %rcx
	notq	%rdx
	notq	%rcx
	movabsq	$6148914691236517205, %r10
	movq	%rdx, 184(%rsp)
	andq	%r10, %rdx
	movq	%rdx, 112(%rsp)
	movq	%rcx, 176(%rsp)
	andq	%rcx, %r10
	movq	$0, 200(%rsp)
	movq	$0, 160(%rsp)
.LBB58_239:
	movq	%r8, 48(%rsp)
	movq	%rsi, 64(%rsp)
	movq	%r14, 32(%rsp)
	pxor	%xmm0, %xmm0
	movdqa	%xmm0, 4864(%rsp)
	movdqa	%xmm0, 4848(%rsp)
	movdqa	%xmm0, 4832(%rsp)
	movdqa	%xmm0, 4816(%rsp)
	movdqa	%xmm0, 4800(%rsp)
	decw	%bp
	movq	%r10, %r14
	movq	160(%rsp), %rsi
	je	.LBB58_246
	cmpw	$1, %bp
	jne	.LBB58_242
	xorl	%r9d, %r9d
	jmp	.LBB58_245
.LBB58_242:
	movzwl	%bp, %r11d
	movq	%r11, 56(%rsp)
	andl	$-2, %r11d
	movq	40(%rsp), %rax
	leal	3(,%rax,2), %edx
	leal	4(,%rax,2), %eax
	leaq	4816(%rsp), %rsi
	xorl	%r9d, %r9d
	movq	104(%rsp), %r8
	.p2align	4
.LBB58_243:
	movq	$-1, %r14
	movl	%r8d, %ecx
	shldq	%cl, %r14, %r14
	movq	$-1, %rdi
	shlq	%cl, %rdi
	xorl	%ebx, %ebx
	testb	$64, %r8b
	cmovneq	%rdi, %r14
	cmovneq	%rbx, %rdi
	movq	$-1, %r15
	movl	%edx, %ecx
	shldq	%cl, %r15, %r15
	notq	%r14
	movq	%r14, -8(%rsi)
	movq	$-1, %r14
	shlq	%cl, %r14
	notq	%rdi
	testb	$64, %dl
	cmovneq	%r14, %r15
	movq	%rdi, -16(%rsi)
	cmovneq	%rbx, %r14
	notq	%r15
	notq	%r14
	movq	%r15, 8(%rsi)
	movq	%r14, (%rsi)
	addq	$2, %r9
	addl	%eax, %edx
	addq	$32, %rsi
	addl	%eax, %r8d
	cmpq	%r9, %r11
	jne	.LBB58_243
	testb	$1, 56(%rsp)
	movq	152(%rsp), %rdi
	movq	144(%rsp), %r11
	movq	120(%rsp), %rbx
	movq	%r10, %r14
	movq	160(%rsp), %rsi
	je	.LBB58_246
.LBB58_245:
	movq	40(%rsp), %rax
	addl	$2, %eax
	imull	%r9d, %eax
	movq	104(%rsp), %rcx
	addl	%eax, %ecx
	movq	$-1, %rax
	shldq	%cl, %rax, %rax
	movq	$-1, %rdx
	shlq	%cl, %rdx
	xorl	%r8d, %r8d
	testb	$64, %cl
	cmovneq	%rdx, %rax
	cmoveq	%rdx, %r8
	notq	%rax
	notq	%r8
	shlq	$4, %r9
	movq	%rax, 4808(%rsp,%r9)
	movq	%r8, 4800(%rsp,%r9)
.LBB58_246:
	testq	%r11, %r11
	movq	184(%rsp), %r9
	movq	176(%rsp), %r10
	movq	112(%rsp), %rcx
	movq	200(%rsp), %rax
	je	.LBB58_74
	leal	1(%rbx), %edx
	movq	%rdx, 168(%rsp)
	testw	%dx, %dx
	cmoveq	%r9, %rcx
	movq	%rcx, 112(%rsp)
	cmoveq	%r10, %r14
	cmovel	%esi, %eax
	movq	%rax, 200(%rsp)
	movq	40(%rsp), %r8
	leal	(%r8,%r8,4), %eax
	movq	$-1, %rdx
	movl	%eax, %ecx
	shldq	%cl, %rdx, %rdx
	movq	$-1, %r15
	shlq	%cl, %r15
	xorl	%ecx, %ecx
	testb	$64, %al
	cmovneq	%r15, %rdx
	movq	%rdx, 56(%rsp)
	cmovneq	%rcx, %r15
	movq	%r15, 96(%rsp)
	movq	$-1, %rdx
	movl	%r8d, %ecx
	shldq	%cl, %rdx, %rdx
	movq	$-1, %r15
	shlq	%cl, %r15
	testb	$64, %r8b
	cmovneq	%r15, %rdx
	movq	%rdx, 128(%rsp)
	movl	$0, %ecx
	cmovneq	%rcx, %r15
	movq	%r15, 192(%rsp)
	movq	$-1, %r8
	movq	72(%rsp), %rcx
	shldq	%cl, %r8, %r8
	movq	%rcx, %rdx
	shlq	%cl, %r12
	testb	$64, %dl
	movq	168(%rsp), %r15
	cmovneq	%r12, %r8
	movl	$0, %ecx
	cmovneq	%rcx, %r12
	leal	2(%rbx), %ecx
	cmpw	$1, %r15w
	movq	112(%rsp), %rdx
	jbe	.LBB58_248
	movq	%rcx, 208(%rsp)
	movzwl	%r15w, %ecx
	movq	%rcx, 104(%rsp)
	cmpl	$129, 216(%rsp)
	movq	%r14, 256(%rsp)
	jae	.LBB58_251
	notq	%r8
	movq	%r8, 96(%rsp)
	notq	%r12
	testw	%bp, %bp
	movq	%r12, 56(%rsp)
	je	.LBB58_256
	movzwl	%bp, %eax
	movl	%eax, %ecx
	andl	$-2, %ecx
	xorl	%r15d, %r15d
	movl	%ebp, %r8d
	movq	112(%rsp), %rdx
	movq	200(%rsp), %r9
	movq	208(%rsp), %r10
	jmp	.LBB58_261
	.p2align	4
.LBB58_268:
	addl	168(%rsp), %r10d
	movzwl	%r10w, %r10d
	movl	%r10d, %r11d
	shll	$4, %r11d
	movq	152(%rsp), %rdi
	movq	184(%rsp), %rdx
	movq	%rdx, 8(%rdi,%r11)
	movq	176(%rsp), %rdx
	movq	%rdx, (%rdi,%r11)
	movq	160(%rsp), %rdx
	movw	%dx, (%r13,%r10,2)
	movq	128(%rsp), %r15
	incq	%r15
	cmpq	144(%rsp), %r15
	movq	120(%rsp), %rbx
	movq	256(%rsp), %r14
	movq	112(%rsp), %rdx
	movq	208(%rsp), %r10
	je	.LBB58_74
.LBB58_261:
	imull	%r15d, %r10d
	movzwl	%r10w, %r11d
	movl	%r11d, %esi
	shll	$4, %esi
	movq	%rdx, 8(%rdi,%rsi)
	movq	%r14, (%rdi,%rsi)
	movw	%r9w, (%r13,%r11,2)
	movl	%ebx, %r11d
	movq	%r15, 128(%rsp)
	imull	%r15d, %r11d
	decl	%r11d
	movl	$1, %esi
	movq	88(%rsp), %rdx
	jmp	.LBB58_262
	.p2align	4
.LBB58_266:
	shlq	$4, %r14
	movq	4808(%rsp,%r14), %r15
	andq	%rdi, %r15
	movq	4800(%rsp,%r14), %r14
	andq	%rbx, %r14
	subq	%r14, %rbx
	sbbq	%r15, %rdi
	shldq	$2, %rbx, %rdi
	shlq	$2, %rbx
	addq	%r14, %rbx
	adcq	%r15, %rdi
.LBB58_267:
	movl	%esi, %ebp
	andl	$1, %ebp
	movl	%ebp, %r14d
	negl	%r14d
	movq	80(%rsp), %r15
	andl	%r14d, %r15d
	testl	%ebp, %ebp
	movq	48(%rsp), %r14
	cmoveq	64(%rsp), %r14
	movq	%rdx, %r12
	cmoveq	32(%rsp), %r12
	orq	%rbx, %r12
	orq	%rdi, %r14
	leal	(%r10,%rsi), %edi
	movzwl	%di, %edi
	movl	%edi, %ebx
	shll	$4, %ebx
	movq	152(%rsp), %rbp
	movq	%r14, 8(%rbp,%rbx)
	movq	%r12, (%rbp,%rbx)
	movw	%r15w, (%r13,%rdi,2)
	incq	%rsi
	cmpq	104(%rsp), %rsi
	movq	56(%rsp), %r12
	movl	%r8d, %ebp
	je	.LBB58_268
.LBB58_262:
	leal	(%r11,%rsi), %edi
	movzwl	%di, %r14d
	shll	$5, %r14d
	movq	464(%rsp,%r14), %rdi
	movq	448(%rsp,%r14), %rbx
	movq	456(%rsp,%r14), %r14
	shldq	$60, %r14, %rdi
	shrdq	$4, %r14, %rbx
	andq	96(%rsp), %rdi
	andq	%r12, %rbx
	shldq	$1, %rbx, %rdi
	addq	%rbx, %rbx
	xorl	%r14d, %r14d
	cmpw	$1, %bp
	je	.LBB58_266
	leaq	4816(%rsp), %r15
	.p2align	4
.LBB58_264:
	movq	-8(%r15), %r12
	andq	%rdi, %r12
	movq	-16(%r15), %r13
	andq	%rbx, %r13
	subq	%r13, %rbx
	sbbq	%r12, %rdi
	shldq	$2, %rbx, %rdi
	shlq	$2, %rbx
	addq	%r13, %rbx
	adcq	%r12, %rdi
	movq	8(%r15), %r12
	andq	%rdi, %r12
	movq	(%r15), %r13
	andq	%rbx, %r13
	subq	%r13, %rbx
	sbbq	%r12, %rdi
	shldq	$2, %rbx, %rdi
	shlq	$2, %rbx
	addq	%r13, %rbx
	adcq	%r12, %rdi
	addq	$2, %r14
	addq	$32, %r15
	cmpq	%r14, %rcx
	jne	.LBB58_264
	testb	$1, %al
	movq	136(%rsp), %r13
	jne	.LBB58_266
	jmp	.LBB58_267
.LBB58_248:
	xorl	%eax, %eax
	movq	%rdx, %r8
	movq	200(%rsp), %rbx
	movq	%rcx, %r12
	.p2align	4
.LBB58_249:
	movzwl	%ax, %ecx
	movl	%ecx, %edx
	shll	$4, %edx
	movq	%r8, 8(%rdi,%rdx)
	movq	%r14, (%rdi,%rdx)
	movw	%bx, (%r13,%rcx,2)
	leal	(%r15,%rax), %ecx
	movzwl	%cx, %ecx
	movl	%ecx, %edx
	shll	$4, %edx
	movq	%r9, 8(%rdi,%rdx)
	movq	%r10, (%rdi,%rdx)
	movw	%si, (%r13,%rcx,2)
	addl	%r12d, %eax
	decq	%r11
	jne	.LBB58_249
	jmp	.LBB58_74
.LBB58_251:
	movq	%rdx, %r10
	movl	$128, %edx
	subl	%eax, %edx
	movl	$117, %r8d
	movl	%eax, 304(%rsp)
	subl	%eax, %r8d
	notq	56(%rsp)
	notq	96(%rsp)
	movq	4800(%rsp), %rcx
	movq	%rcx, 72(%rsp)
	movq	4808(%rsp), %rcx
	movq	%rcx, 216(%rsp)
	movq	4824(%rsp), %rcx
	movq	%rcx, 296(%rsp)
	movq	4816(%rsp), %rcx
	movq	%rcx, 288(%rsp)
	movq	4840(%rsp), %rcx
	movq	%rcx, 312(%rsp)
	movq	4832(%rsp), %rcx
	movq	%rcx, 264(%rsp)
	movq	4856(%rsp), %rcx
	movq	%rcx, 280(%rsp)
	movq	4848(%rsp), %rcx
	movq	%rcx, 272(%rsp)
	notq	128(%rsp)
	notq	192(%rsp)
	movq	40(%rsp), %rcx
	leal	11(%rcx,%rcx,4), %r9d
	movq	208(%rsp), %rcx
	movzwl	%cx, %r11d
	movq	%r11, 320(%rsp)
	xorl	%r15d, %r15d
	xorl	%eax, %eax
	xorl	%r11d, %r11d
	movq	200(%rsp), %rsi
	.p2align	4
.LBB58_252:
	movq	%r11, 328(%rsp)
	imull	%r11d, %ecx
	movl	%ecx, 308(%rsp)
	movzwl	%cx, %ecx
	movl	%ecx, %r11d
	shll	$4, %r11d
	movq	%r10, 8(%rdi,%r11)
	movq	%r14, (%rdi,%r11)
	movw	%si, (%r13,%rcx,2)
	movl	$1, %ebx
	movq	%r15, 40(%rsp)
	movl	%r15d, %r11d
	movl	304(%rsp), %r10d
	.p2align	4
.LBB58_253:
	movzwl	%r11w, %ecx
	shll	$5, %ecx
	movq	464(%rsp,%rcx), %r15
	movq	456(%rsp,%rcx), %rsi
	movq	%r15, %r12
	shldq	$60, %rsi, %r12
	movq	448(%rsp,%rcx), %rdi
	shrdq	$4, %rsi, %rdi
	movq	%rdi, %rbp
	andq	96(%rsp), %rbp
	movq	%r12, %r13
	andq	56(%rsp), %r13
	shrl	$4, %r15d
	shldq	$1, %rbp, %r13
	addq	%rbp, %rbp
	movq	%r13, %rcx
	andq	216(%rsp), %rcx
	movq	%rbp, %rsi
	andq	72(%rsp), %rsi
	subq	%rsi, %rbp
	sbbq	%rcx, %r13
	shldq	$2, %rbp, %r13
	shlq	$2, %rbp
	addq	%rsi, %rbp
	adcq	%rcx, %r13
	movq	%r13, %rcx
	movq	%rbp, %rsi
	andq	296(%rsp), %rcx
	andq	288(%rsp), %rsi
	subq	%rsi, %rbp
	sbbq	%rcx, %r13
	shldq	$2, %rbp, %r13
	shlq	$2, %rbp
	addq	%rsi, %rbp
	adcq	%rcx, %r13
	movq	%r13, %rcx
	andq	312(%rsp), %rcx
	movq	%rbp, %rsi
	andq	264(%rsp), %rsi
	subq	%rsi, %rbp
	sbbq	%rcx, %r13
	shldq	$2, %rbp, %r13
	shlq	$2, %rbp
	addq	%rsi, %rbp
	adcq	%rcx, %r13
	movq	%r13, %rcx
	movq	%rbp, %rsi
	andq	280(%rsp), %rcx
	andq	272(%rsp), %rsi
	subq	%rsi, %rbp
	sbbq	%rcx, %r13
	shldq	$2, %rbp, %r13
	shlq	$2, %rbp
	addq	%rsi, %rbp
	adcq	%rcx, %r13
	movl	%r10d, %ecx
	shrdq	%cl, %r12, %rdi
	shrq	%cl, %r12
	movzbl	%r15b, %r14d
	xorl	%esi, %esi
	testb	$64, %r10b
	cmovneq	%r12, %rdi
	cmovneq	%rsi, %r12
	xorl	%r15d, %r15d
	movl	%edx, %ecx
	shldq	%cl, %r14, %r15
	shlq	%cl, %r14
	testb	$64, %dl
	cmovneq	%r14, %r15
	cmovneq	%rsi, %r14
	orq	%r12, %r15
	orq	%rdi, %r14
	andq	128(%rsp), %r15
	andq	192(%rsp), %r14
	movq	%r15, %rdi
	movq	%r14, %r12
	movl	%r9d, %ecx
	shldq	%cl, %r14, %rdi
	shlq	%cl, %r12
	testb	$64, %r9b
	cmovneq	%r12, %rdi
	cmovneq	%rsi, %r12
	movl	%r8d, %ecx
	shrdq	%cl, %r15, %r14
	shrq	%cl, %r15
	testb	$64, %r8b
	cmoveq	%r14, %r15
	movl	%ebx, %esi
	andl	$1, %esi
	movl	%esi, %r14d
	negl	%r14d
	movq	80(%rsp), %rcx
	andl	%r14d, %ecx
	testl	%esi, %esi
	movq	48(%rsp), %rsi
	cmoveq	64(%rsp), %rsi
	movq	88(%rsp), %r14
	cmoveq	32(%rsp), %r14
	orq	%r12, %r14
	orq	%rdi, %rsi
	orq	%rbp, %r14
	orq	%r13, %rsi
	movq	136(%rsp), %r13
	leal	(%rax,%rbx), %edi
	movzwl	%di, %edi
	movl	%edi, %r12d
	shll	$4, %r12d
	movq	152(%rsp), %rbp
	movq	%r14, (%rbp,%r12)
	movq	%rsi, 8(%rbp,%r12)
	orl	%r15d, %ecx
	movw	%cx, (%r13,%rdi,2)
	incq	%rbx
	incl	%r11d
	cmpq	%rbx, 104(%rsp)
	jne	.LBB58_253
	movl	308(%rsp), %ecx
	addl	168(%rsp), %ecx
	movzwl	%cx, %ecx
	movl	%ecx, %r11d
	shll	$4, %r11d
	movq	184(%rsp), %rsi
	movq	152(%rsp), %rdi
	movq	%rsi, 8(%rdi,%r11)
	movq	176(%rsp), %rsi
	movq	%rsi, (%rdi,%r11)
	movq	160(%rsp), %r11
	movw	%r11w, (%r13,%rcx,2)
	movq	328(%rsp), %r11
	incq	%r11
	addq	320(%rsp), %rax
	movq	40(%rsp), %r15
	addl	120(%rsp), %r15d
	cmpq	144(%rsp), %r11
	movq	256(%rsp), %r14
	movq	112(%rsp), %r10
	movq	200(%rsp), %rsi
	movq	208(%rsp), %rcx
	jne	.LBB58_252
	jmp	.LBB58_74
.LBB58_26:
	movl	56(%rsp), %ebp
	jmp	.LBB58_33
.LBB58_81:
	movq	168(%rsp), %rax
	movzwl	%ax, %ecx
	movq	%rcx, 192(%rsp)
	xorl	%ecx, %ecx
	xorl	%r14d, %r14d
	xorl	%edx, %edx
	movq	%r12, 56(%rsp)
	.p2align	4
.LBB58_82:
	movq	%rdx, 96(%rsp)
	imull	%edx, %eax
	movl	%eax, 128(%rsp)
	movzwl	%ax, %r10d
	movl	%r10d, %r11d
	shll	$4, %r11d
	movq	%rdi, 8(%r15,%r11)
	movq	%r9, (%r15,%r11)
	movw	%bx, (%r13,%r10,2)
	movl	$1, %r10d
	movq	%rcx, 136(%rsp)
	movl	%ecx, %r11d
	movq	48(%rsp), %rcx
	movq	80(%rsp), %r8
	movq	64(%rsp), %r9
	movq	%r15, %r12
	movq	104(%rsp), %r15
	movq	88(%rsp), %rdx
	.p2align	4
.LBB58_83:
	movzwl	%r11w, %esi
	movq	400(%rsp,%rsi,8), %rsi
	shrq	$4, %rsi
	andq	56(%rsp), %rsi
	addq	%rsi, %rsi
	movl	%r10d, %edi
	andl	$1, %edi
	movl	%edi, %ebx
	negl	%ebx
	movl	%r15d, %ebp
	andl	%ebx, %ebp
	testl	%edi, %edi
	movq	%r8, %rdi
	cmoveq	%rcx, %rdi
	movq	%r9, %rbx
	cmoveq	32(%rsp), %rbx
	orq	%rsi, %rbx
	leal	(%r14,%r10), %esi
	movzwl	%si, %esi
	movq	%r14, %rax
	movl	%esi, %r14d
	shll	$4, %r14d
	movq	%rdi, 8(%r12,%r14)
	movq	%rbx, (%r12,%r14)
	movq	%rax, %r14
	movw	%bp, (%r13,%rsi,2)
	incq	%r10
	incl	%r11d
	cmpq	%r10, %rdx
	jne	.LBB58_83
	movl	128(%rsp), %eax
	addl	184(%rsp), %eax
	movzwl	%ax, %r9d
	movl	%r9d, %r10d
	shll	$4, %r10d
	movq	280(%rsp), %rax
	movq	%rax, 8(%r12,%r10)
	movq	272(%rsp), %rax
	movq	%rax, (%r12,%r10)
	movq	160(%rsp), %rax
	movw	%ax, (%r13,%r9,2)
	movq	96(%rsp), %rdx
	incq	%rdx
	addq	192(%rsp), %r14
	movq	136(%rsp), %rcx
	addl	120(%rsp), %ecx
	cmpq	144(%rsp), %rdx
	movq	176(%rsp), %rdi
	movq	264(%rsp), %rbx
	movq	112(%rsp), %r9
	movq	%r12, %r15
	movq	168(%rsp), %rax
	jne	.LBB58_82
	jmp	.LBB58_74
.LBB58_162:
	movzwl	%cx, %eax
	movq	%rax, 72(%rsp)
	xorl	%edx, %edx
	xorl	%ebp, %ebp
	xorl	%r8d, %r8d
	movq	160(%rsp), %rax
	.p2align	4
.LBB58_163:
	movq	%r8, 128(%rsp)
	imull	%r8d, %ecx
	movl	%ecx, 192(%rsp)
	movzwl	%cx, %r11d
	movl	%r11d, %esi
	shll	$4, %esi
	movq	%rbx, 8(%rdi,%rsi)
	movq	%r14, (%rdi,%rsi)
	movw	%ax, (%r13,%r11,2)
	movl	$1, %r11d
	movq	%rdx, 136(%rsp)
	movl	%edx, %esi
	movq	%rdi, %rax
	movq	48(%rsp), %rdx
	movq	96(%rsp), %r9
	movq	80(%rsp), %r8
	movq	104(%rsp), %rcx
	movq	88(%rsp), %r10
	.p2align	4
.LBB58_164:
	movzwl	%si, %ebx
	shll	$4, %ebx
	movq	416(%rsp,%rbx), %rdi
	movq	424(%rsp,%rbx), %rbx
	shrdq	$4, %rbx, %rdi
	shrq	$4, %rbx
	andq	%r12, %rdi
	andq	%r10, %rbx
	shldq	$1, %rdi, %rbx
	addq	%rdi, %rdi
	movq	%rbp, %r12
	movl	%r11d, %ebp
	andl	$1, %ebp
	movl	%ebp, %r14d
	negl	%r14d
	movl	%r8d, %r15d
	andl	%r14d, %r15d
	testl	%ebp, %ebp
	movq	%r12, %rbp
	movq	%r9, %r14
	cmoveq	32(%rsp), %r14
	movq	%rdx, %r12
	cmoveq	64(%rsp), %r12
	orq	%rbx, %r12
	orq	%rdi, %r14
	leal	(%r11,%rbp), %edi
	movzwl	%di, %edi
	movl	%edi, %ebx
	shll	$4, %ebx
	movq	%r14, (%rax,%rbx)
	movq	%r12, 8(%rax,%rbx)
	movq	56(%rsp), %r12
	movw	%r15w, (%r13,%rdi,2)
	incq	%r11
	incl	%esi
	cmpq	%r11, %rcx
	jne	.LBB58_164
	movl	192(%rsp), %ecx
	addl	208(%rsp), %ecx
	movzwl	%cx, %r10d
	movl	%r10d, %r11d
	shll	$4, %r11d
	movq	176(%rsp), %rcx
	movq	%rcx, 8(%rax,%r11)
	movq	168(%rsp), %rcx
	movq	%rcx, (%rax,%r11)
	movq	184(%rsp), %rcx
	movw	%cx, (%r13,%r10,2)
	movq	128(%rsp), %r8
	incq	%r8
	addq	72(%rsp), %rbp
	movq	136(%rsp), %rdx
	addl	120(%rsp), %edx
	cmpq	144(%rsp), %r8
	movq	%rax, %rdi
	movq	256(%rsp), %r14
	movq	112(%rsp), %rbx
	movq	160(%rsp), %rax
	movq	200(%rsp), %rcx
	jne	.LBB58_163
	jmp	.LBB58_74
.LBB58_256:
	movq	208(%rsp), %rdx
	movzwl	%dx, %eax
	movq	%rax, 72(%rsp)
	xorl	%r8d, %r8d
	xorl	%ebp, %ebp
	xorl	%r9d, %r9d
	movq	112(%rsp), %rax
	movq	200(%rsp), %rcx
	.p2align	4
.LBB58_257:
	movq	%r9, 128(%rsp)
	imull	%r9d, %edx
	movl	%edx, 192(%rsp)
	movzwl	%dx, %r11d
	movl	%r11d, %esi
	shll	$4, %esi
	movq	%rax, 8(%rdi,%rsi)
	movq	%r14, (%rdi,%rsi)
	movw	%cx, (%r13,%r11,2)
	movl	$1, %r11d
	movq	%r8, 136(%rsp)
	movl	%r8d, %esi
	movq	%rdi, %rax
	movq	48(%rsp), %rdx
	movq	88(%rsp), %r9
	movq	80(%rsp), %r8
	movq	104(%rsp), %rcx
	movq	96(%rsp), %r10
	.p2align	4
.LBB58_258:
	movzwl	%si, %ebx
	shll	$5, %ebx
	movq	464(%rsp,%rbx), %r14
	movq	448(%rsp,%rbx), %rdi
	movq	456(%rsp,%rbx), %rbx
	shldq	$60, %rbx, %r14
	shrdq	$4, %rbx, %rdi
	andq	%r12, %rdi
	andq	%r10, %r14
	shldq	$1, %rdi, %r14
	addq	%rdi, %rdi
	movl	%r11d, %ebx
	andl	$1, %ebx
	movq	%rbp, %r12
	movl	%ebx, %ebp
	negl	%ebp
	movl	%r8d, %r15d
	andl	%ebp, %r15d
	movq	%r12, %rbp
	testl	%ebx, %ebx
	movq	%r9, %rbx
	cmoveq	32(%rsp), %rbx
	movq	%rdx, %r12
	cmoveq	64(%rsp), %r12
	orq	%r14, %r12
	orq	%rdi, %rbx
	leal	(%r11,%rbp), %edi
	movzwl	%di, %edi
	movl	%edi, %r14d
	shll	$4, %r14d
	movq	%rbx, (%rax,%r14)
	movq	%r12, 8(%rax,%r14)
	movq	56(%rsp), %r12
	movw	%r15w, (%r13,%rdi,2)
	incq	%r11
	incl	%esi
	cmpq	%r11, %rcx
	jne	.LBB58_258
	movl	192(%rsp), %ecx
	addl	168(%rsp), %ecx
	movzwl	%cx, %r10d
	movl	%r10d, %r11d
	shll	$4, %r11d
	movq	184(%rsp), %rcx
	movq	%rcx, 8(%rax,%r11)
	movq	176(%rsp), %rcx
	movq	%rcx, (%rax,%r11)
	movq	160(%rsp), %rcx
	movw	%cx, (%r13,%r10,2)
	movq	128(%rsp), %r9
	incq	%r9
	addq	72(%rsp), %rbp
	movq	136(%rsp), %r8
	addl	120(%rsp), %r8d
	cmpq	144(%rsp), %r9
	movq	%rax, %rdi
	movq	256(%rsp), %r14
	movq	112(%rsp), %rax
	movq	200(%rsp), %rcx
	movq	208(%rsp), %rdx
	jne	.LBB58_257
.LBB58_74:
	addq	$9064, %rsp
	popq	%rbx
	popq	%rbp
	popq	%rdi
	popq	%rsi
	popq	%r12
	popq	%r13
	popq	%r14
	popq	%r15
	retq
	.seh_endproc

	.def	"dm_layout::symbols::laying::put_cells::<#3c42656d14ec8a1f>";
	.scl	3;
	.type	32;
	.endef
	.p2align	4
"dm_layout::symbols::laying::put_cells::<#3c42656d14ec8a1f>":
.seh_proc "dm_layout::symbols::laying::put_cells::<#3c42656d14ec8a1f>"
	pushq	%rsi
	.seh_pushreg %rsi
	pushq	%rdi
	.seh_pushreg %rdi
	.seh_endprologue
	movq	%rcx, %rax
	movzwl	(%r8), %r10d
	movzwl	2(%r8), %ecx
	leal	4(%rcx), %r9d
	movl	%edx, %r11d
	shrb	$7, %r11b
	shll	$5, %r10d
	cmpw	$127, %r9w
	ja	.LBB59_2
	movzbl	%r11b, %esi
	xorl	%edi, %edi
	movl	%r9d, %ecx
	shldq	%cl, %rsi, %rdi
	shlq	%cl, %rsi
	xorl	%r11d, %r11d
	testb	$64, %r9b
	cmovneq	%rsi, %rdi
	cmovneq	%r11, %rsi
	xorl	%r9d, %r9d
	jmp	.LBB59_3
.LBB59_2:
	movzbl	%r11b, %r11d
	addb	$-124, %cl
	xorl	%r9d, %r9d
	shldq	%cl, %r11, %r9
	shlq	%cl, %r11
	xorl	%esi, %esi
	testb	$64, %cl
	cmovneq	%r11, %r9
	cmovneq	%rsi, %r11
	xorl	%edi, %edi
.LBB59_3:
	orq	%rsi, 64(%rax,%r10)
	orq	%rdi, 72(%rax,%r10)
	orq	%r11, 80(%rax,%r10)
	orq	%r9, 88(%rax,%r10)
	movzwl	4(%r8), %r10d
	movzwl	6(%r8), %ecx
	leal	4(%rcx), %r9d
	movl	%edx, %r11d
	shrb	$6, %r11b
	andb	$1, %r11b
	shll	$5, %r10d
	movzwl	%r9w, %esi
	cmpl	$128, %esi
	jae	.LBB59_4
	movzbl	%r11b, %esi
	xorl	%edi, %edi
	movl	%r9d, %ecx
	shldq	%cl, %rsi, %rdi
	shlq	%cl, %rsi
	xorl	%r11d, %r11d
	testb	$64, %r9b
	cmovneq	%rsi, %rdi
	cmovneq	%r11, %rsi
	xorl	%r9d, %r9d
	jmp	.LBB59_6
.LBB59_4:
	movzbl	%r11b, %r11d
	addb	$-124, %cl
	xorl	%r9d, %r9d
	shldq	%cl, %r11, %r9
	shlq	%cl, %r11
	xorl	%esi, %esi
	testb	$64, %cl
	cmovneq	%r11, %r9
	cmovneq	%rsi, %r11
	xorl	%edi, %edi
.LBB59_6:
	orq	%rsi, 64(%rax,%r10)
	orq	%rdi, 72(%rax,%r10)
	orq	%r11, 80(%rax,%r10)
	orq	%r9, 88(%rax,%r10)
	movzwl	8(%r8), %r10d
	movzwl	10(%r8), %ecx
	leal	4(%rcx), %r9d
	movl	%edx, %r11d
	shrb	$5, %r11b
	andb	$1, %r11b
	shll	$5, %r10d
	movzwl	%r9w, %esi
	cmpl	$128, %esi
	jae	.LBB59_7
	movzbl	%r11b, %esi
	xorl	%edi, %edi
	movl	%r9d, %ecx
	shldq	%cl, %rsi, %rdi
	shlq	%cl, %rsi
	xorl	%r11d, %r11d
	testb	$64, %r9b
	cmovneq	%rsi, %rdi
	cmovneq	%r11, %rsi
	xorl	%r9d, %r9d
	jmp	.LBB59_9
.LBB59_7:
	movzbl	%r11b, %r11d
	addb	$-124, %cl
	xorl	%r9d, %r9d
	shldq	%cl, %r11, %r9
	shlq	%cl, %r11
	xorl	%esi, %esi
	testb	$64, %cl
	cmovneq	%r11, %r9
	cmovneq	%rsi, %r11
	xorl	%edi, %edi
.LBB59_9:
	orq	%rsi, 64(%rax,%r10)
	orq	%rdi, 72(%rax,%r10)
	orq	%r11, 80(%rax,%r10)
	orq	%r9, 88(%rax,%r10)
	movzwl	12(%r8), %r10d
	movzwl	14(%r8), %ecx
	leal	4(%rcx), %r9d
	movl	%edx, %r11d
	shrb	$4, %r11b
	andb	$1, %r11b
	shll	$5, %r10d
	movzwl	%r9w, %esi
	cmpl	$128, %esi
	jae	.LBB59_10
	movzbl	%r11b, %esi
	xorl	%edi, %edi
	movl	%r9d, %ecx
	shldq	%cl, %rsi, %rdi
	shlq	%cl, %rsi
	xorl	%r11d, %r11d
	testb	$64, %r9b
	cmovneq	%rsi, %rdi
	cmovneq	%r11, %rsi
	xorl	%r9d, %r9d
	jmp	.LBB59_12
.LBB59_10:
	movzbl	%r11b, %r11d
	addb	$-124, %cl
	xorl	%r9d, %r9d
	shldq	%cl, %r11, %r9
	shlq	%cl, %r11
	xorl	%esi, %esi
	testb	$64, %cl
	cmovneq	%r11, %r9
	cmovneq	%rsi, %r11
	xorl	%edi, %edi
.LBB59_12:
	orq	%rsi, 64(%rax,%r10)
	orq	%rdi, 72(%rax,%r10)
	orq	%r11, 80(%rax,%r10)
	orq	%r9, 88(%rax,%r10)
	movzwl	16(%r8), %r10d
	movzwl	18(%r8), %ecx
	leal	4(%rcx), %r9d
	movl	%edx, %r11d
	shrb	$3, %r11b
	andb	$1, %r11b
	shll	$5, %r10d
	movzwl	%r9w, %esi
	cmpl	$128, %esi
	jae	.LBB59_13
	movzbl	%r11b, %esi
	xorl	%edi, %edi
	movl	%r9d, %ecx
	shldq	%cl, %rsi, %rdi
	shlq	%cl, %rsi
	xorl	%r11d, %r11d
	testb	$64, %r9b
	cmovneq	%rsi, %rdi
	cmovneq	%r11, %rsi
	xorl	%r9d, %r9d
	jmp	.LBB59_15
.LBB59_13:
	movzbl	%r11b, %r11d
	addb	$-124, %cl
	xorl	%r9d, %r9d
	shldq	%cl, %r11, %r9
	shlq	%cl, %r11
	xorl	%esi, %esi
	testb	$64, %cl
	cmovneq	%r11, %r9
	cmovneq	%rsi, %r11
	xorl	%edi, %edi
.LBB59_15:
	orq	%rsi, 64(%rax,%r10)
	orq	%rdi, 72(%rax,%r10)
	orq	%r11, 80(%rax,%r10)
	orq	%r9, 88(%rax,%r10)
	movzwl	20(%r8), %r10d
	movzwl	22(%r8), %ecx
	leal	4(%rcx), %r9d
	movl	%edx, %r11d
	shrb	$2, %r11b
	andb	$1, %r11b
	shll	$5, %r10d
	movzwl	%r9w, %esi
	cmpl	$128, %esi
	jae	.LBB59_16
	movzbl	%r11b, %esi
	xorl	%edi, %edi
	movl	%r9d, %ecx
	shldq	%cl, %rsi, %rdi
	shlq	%cl, %rsi
	xorl	%r11d, %r11d
	testb	$64, %r9b
	cmovneq	%rsi, %rdi
	cmovneq	%r11, %rsi
	xorl	%r9d, %r9d
	jmp	.LBB59_18
.LBB59_16:
	movzbl	%r11b, %r11d
	addb	$-124, %cl
	xorl	%r9d, %r9d
	shldq	%cl, %r11, %r9
	shlq	%cl, %r11
	xorl	%esi, %esi
	testb	$64, %cl
	cmovneq	%r11, %r9
	cmovneq	%rsi, %r11
	xorl	%edi, %edi
.LBB59_18:
	orq	%rsi, 64(%rax,%r10)
	orq	%rdi, 72(%rax,%r10)
	orq	%r11, 80(%rax,%r10)
	orq	%r9, 88(%rax,%r10)
	movzwl	24(%r8), %r10d
	movzwl	26(%r8), %ecx
	leal	4(%rcx), %r9d
	movl	%edx, %r11d
	shrb	%r11b
	andb	$1, %r11b
	shll	$5, %r10d
	movzwl	%r9w, %esi
	cmpl	$128, %esi
	jae	.LBB59_19
	movzbl	%r11b, %esi
	xorl	%edi, %edi
	movl	%r9d, %ecx
	shldq	%cl, %rsi, %rdi
	shlq	%cl, %rsi
	xorl	%r11d, %r11d
	testb	$64, %r9b
	cmovneq	%rsi, %rdi
	cmovneq	%r11, %rsi
	xorl	%r9d, %r9d
	jmp	.LBB59_21
.LBB59_19:
	movzbl	%r11b, %r11d
	addb	$-124, %cl
	xorl	%r9d, %r9d
	shldq	%cl, %r11, %r9
	shlq	%cl, %r11
	xorl	%esi, %esi
	testb	$64, %cl
	cmovneq	%r11, %r9
	cmovneq	%rsi, %r11
	xorl	%edi, %edi
.LBB59_21:
	orq	%rsi, 64(%rax,%r10)
	orq	%rdi, 72(%rax,%r10)
	orq	%r11, 80(%rax,%r10)
	orq	%r9, 88(%rax,%r10)
	movzwl	28(%r8), %r9d
	movzwl	30(%r8), %ecx
	leal	4(%rcx), %r8d
	andb	$1, %dl
	movzwl	%r8w, %r10d
	cmpl	$128, %r10d
	jae	.LBB59_22
	movzbl	%dl, %r10d
	xorl	%r11d, %r11d
	movl	%r8d, %ecx
	shldq	%cl, %r10, %r11
	shlq	%cl, %r10
	xorl	%edx, %edx
	testb	$64, %r8b
	cmovneq	%r10, %r11
	cmovneq	%rdx, %r10
	xorl	%r8d, %r8d
	jmp	.LBB59_24
.LBB59_22:
	movzbl	%dl, %edx
	addb	$-124, %cl
	xorl	%r8d, %r8d
	shldq	%cl, %rdx, %r8
	shlq	%cl, %rdx
	xorl	%r10d, %r10d
	testb	$64, %cl
	cmovneq	%rdx, %r8
	cmovneq	%r10, %rdx
	xorl	%r11d, %r11d
.LBB59_24:
	shll	$5, %r9d
	orq	%r10, 64(%rax,%r9)
	orq	%r11, 72(%rax,%r9)
	orq	%rdx, 80(%rax,%r9)
	orq	%r8, 88(%rax,%r9)
	popq	%rdi
	popq	%rsi
	retq
	.seh_endproc

	.def	"ecc200_calls::writing::show_words::<=52,=288>";
	.scl	3;
	.type	32;
	.endef
	.section	.rdata,"dr"
	.p2align	4, 0x0
.LCPI60_0:
	.byte	0
	.byte	0
	.byte	0
	.byte	0
	.byte	0
	.byte	0
	.byte	0
	.byte	0
	.byte	1
	.byte	1
	.byte	1
	.byte	1
	.byte	1
	.byte	1
	.byte	1
	.byte	1
.LCPI60_1:
	.byte	1
	.byte	2
	.byte	4
	.byte	8
	.byte	16
	.byte	32
	.byte	64
	.byte	128
	.byte	1
	.byte	2
	.byte	4
	.byte	8
	.byte	16
	.byte	32
	.byte	64
	.byte	128
.LCPI60_2:
	.zero	16,1
.LCPI60_3:
	.byte	2
	.byte	2
	.byte	2
	.byte	2
	.byte	2
	.byte	2
	.byte	2
	.byte	2
	.byte	3
	.byte	3
	.byte	3
	.byte	3
	.byte	3
	.byte	3
	.byte	3
	.byte	3
	.text
	.p2align	4
"ecc200_calls::writing::show_words::<=52,=288>":
.seh_proc "ecc200_calls::writing::show_words::<=52,=288>"
	pushq	%r15
	.seh_pushreg %r15
	pushq	%r14
	.seh_pushreg %r14
	pushq	%r13
	.seh_pushreg %r13
	pushq	%r12
	.seh_pushreg %r12
	pushq	%rsi
	.seh_pushreg %rsi
	pushq	%rdi
	.seh_pushreg %rdi
	pushq	%rbp
	.seh_pushreg %rbp
	pushq	%rbx
	.seh_pushreg %rbx
	subq	$1528, %rsp
	.seh_stackalloc 1528
	movdqa	%xmm6, 1504(%rsp)
	.seh_savexmm %xmm6, 1504
	.seh_endprologue
	movq	%r9, %r12
	movq	%r8, %rdi
	movq	%rdx, %r14
	movq	%rcx, %r15
	movzwl	(%rcx), %r13d
	movzwl	14(%rcx), %ebx
	movl	16(%rcx), %ebp
	leaq	240(%rsp), %rsi
	movl	$288, %r8d
	movq	%rsi, %rcx
	xorl	%edx, %edx
	callq	memset
	leaq	548(%rsp), %rcx
	movl	$844, %r8d
	xorl	%edx, %edx
	callq	memset
	pxor	%xmm6, %xmm6
	movdqa	%xmm6, 1392(%rsp)
	movdqa	%xmm6, 1408(%rsp)
	movdqa	%xmm6, 1424(%rsp)
	movdqa	%xmm6, 1440(%rsp)
	movdqa	%xmm6, 1456(%rsp)
	movdqa	%xmm6, 1472(%rsp)
	movdqa	%xmm6, 1488(%rsp)
	movw	%r13w, 48(%rsp)
	movq	2(%r15), %rax
	movq	%rax, 50(%rsp)
	movl	10(%r15), %eax
	movl	%eax, 58(%rsp)
	movw	%bx, 62(%rsp)
	movl	%ebp, 64(%rsp)
	movw	%r13w, 220(%rsp)
	movq	2(%r15), %rax
	movq	%rax, 222(%rsp)
	movl	10(%r15), %eax
	movl	%eax, 230(%rsp)
	movw	%bx, 234(%rsp)
	movq	%r12, %rbx
	movl	%ebp, 236(%rsp)
	leaq	48(%rsp), %rdx
	movq	%rsi, %rcx
	movq	%r14, %r8
	movq	%rdi, %r9
	callq	"dm_symbol::symbol::writing::complete_in"
	movl	236(%rsp), %eax
	movl	%eax, 544(%rsp)
	movdqu	220(%rsp), %xmm0
	movdqa	%xmm0, 528(%rsp)
	leaq	560(%rsp), %r8
	leaq	220(%rsp), %rcx
	movq	%rsi, %rdx
	leaq	1392(%rsp), %r9
	callq	"dm_layout::symbols::placing::lay_list"
	movzwl	528(%rsp), %r12d
	pinsrw	$3, %r12d, %xmm6
	movzwl	530(%rsp), %ebp
	movq	%xmm6, (%rbx)
	movw	%bp, 8(%rbx)
	testq	%r12, %r12
	je	.LBB60_41
	leaq	10(%rbx), %rdi
	movzwl	%bp, %esi
	movq	%rsi, %r15
	imulq	%r12, %r15
	testw	%bp, %bp
	je	.LBB60_15
	leaq	16(%rsi), %r13
	leaq	-145(%rsi), %rax
	andq	$-16, %rax
	addq	$16, %rax
	movq	%rax, 40(%rsp)
	addl	%r12d, %r12d
	xorl	%r14d, %r14d
	xorl	%ebx, %ebx
	jmp	.LBB60_3
	.p2align	4
.LBB60_39:
	leaq	(%rdi,%r14), %rcx
	leaq	48(%rsp), %rdx
	movq	%rsi, %r8
	callq	memcpy
.LBB60_40:
	addq	$2, %rbx
	addq	%rsi, %r14
	cmpq	%rbx, %r12
	je	.LBB60_41
.LBB60_3:
	leaq	(%r14,%r13), %rax
	cmpq	%r15, %rax
	jbe	.LBB60_4
	pxor	%xmm0, %xmm0
	movdqa	%xmm0, 192(%rsp)
	movdqa	%xmm0, 176(%rsp)
	movdqa	%xmm0, 160(%rsp)
	movdqa	%xmm0, 144(%rsp)
	movdqa	%xmm0, 128(%rsp)
	movdqa	%xmm0, 112(%rsp)
	movdqa	%xmm0, 96(%rsp)
	movdqa	%xmm0, 80(%rsp)
	movdqa	%xmm0, 64(%rsp)
	movzwl	1392(%rsp,%rbx), %eax
	movq	560(%rsp,%rbx,8), %rdx
	movd	%edx, %xmm1
	pshufb	.LCPI60_0(%rip), %xmm1
	movq	568(%rsp,%rbx,8), %rcx
	movdqa	.LCPI60_1(%rip), %xmm0
	pand	%xmm0, %xmm1
	pcmpeqb	%xmm0, %xmm1
	pand	.LCPI60_2(%rip), %xmm1
	movdqa	%xmm1, 48(%rsp)
	cmpw	$17, %bp
	jb	.LBB60_36
	movd	%edx, %xmm1
	pshufb	.LCPI60_3(%rip), %xmm1
	pand	%xmm0, %xmm1
	pcmpeqb	%xmm0, %xmm1
	pand	.LCPI60_2(%rip), %xmm1
	movdqa	%xmm1, 64(%rsp)
	cmpw	$33, %bp
	jb	.LBB60_36
	movq	%rdx, %r8
	shrq	$32, %r8
	movd	%r8d, %xmm1
	pshufb	.LCPI60_0(%rip), %xmm1
	pand	%xmm0, %xmm1
	pcmpeqb	%xmm0, %xmm1
	pand	.LCPI60_2(%rip), %xmm1
	movdqa	%xmm1, 80(%rsp)
	cmpw	$49, %bp
	jb	.LBB60_36
	shrq	$48, %rdx
	movd	%edx, %xmm1
	pshufb	.LCPI60_0(%rip), %xmm1
	pand	%xmm0, %xmm1
	pcmpeqb	%xmm0, %xmm1
	pand	.LCPI60_2(%rip), %xmm1
	movdqa	%xmm1, 96(%rsp)
	cmpw	$65, %bp
	jb	.LBB60_36
	movd	%ecx, %xmm1
	pshufb	.LCPI60_0(%rip), %xmm1
	pand	%xmm0, %xmm1
	pcmpeqb	%xmm0, %xmm1
	pand	.LCPI60_2(%rip), %xmm1
	movdqa	%xmm1, 112(%rsp)
	cmpw	$81, %bp
	jb	.LBB60_36
	movd	%ecx, %xmm1
	pshufb	.LCPI60_3(%rip), %xmm1
	pand	%xmm0, %xmm1
	pcmpeqb	%xmm0, %xmm1
	pand	.LCPI60_2(%rip), %xmm1
	movdqa	%xmm1, 128(%rsp)
	cmpw	$97, %bp
	jb	.LBB60_36
	movq	%rcx, %rdx
	shrq	$32, %rdx
	movd	%edx, %xmm1
	pshufb	.LCPI60_0(%rip), %xmm1
	pand	%xmm0, %xmm1
	pcmpeqb	%xmm0, %xmm1
	pand	.LCPI60_2(%rip), %xmm1
	movdqa	%xmm1, 144(%rsp)
	cmpw	$113, %bp
	jb	.LBB60_36
	shrq	$48, %rcx
	movd	%ecx, %xmm1
	pshufb	.LCPI60_0(%rip), %xmm1
	pand	%xmm0, %xmm1
	pcmpeqb	%xmm0, %xmm1
	pand	.LCPI60_2(%rip), %xmm1
	movdqa	%xmm1, 160(%rsp)
	.p2align	4
.LBB60_36:
	cmpl	$129, %esi
	jb	.LBB60_39
	movd	%eax, %xmm1
	pshufb	.LCPI60_0(%rip), %xmm1
	pand	%xmm0, %xmm1
	pcmpeqb	%xmm0, %xmm1
	pand	.LCPI60_2(%rip), %xmm1
	movdqa	%xmm1, 176(%rsp)
	cmpl	$145, %esi
	jb	.LBB60_39
	leaq	192(%rsp), %rcx
	xorl	%edx, %edx
	movq	40(%rsp), %r8
	callq	memset
	jmp	.LBB60_39
	.p2align	4
.LBB60_4:
	movzwl	1392(%rsp,%rbx), %eax
	movq	560(%rsp,%rbx,8), %rdx
	movd	%edx, %xmm1
	pshufb	.LCPI60_0(%rip), %xmm1
	movq	568(%rsp,%rbx,8), %rcx
	movdqa	.LCPI60_1(%rip), %xmm0
	pand	%xmm0, %xmm1
	pcmpeqb	%xmm0, %xmm1
	pand	.LCPI60_2(%rip), %xmm1
	movdqu	%xmm1, (%rdi,%r14)
	cmpw	$17, %bp
	jb	.LBB60_12
	movd	%edx, %xmm1
	pshufb	.LCPI60_3(%rip), %xmm1
	pand	%xmm0, %xmm1
	pcmpeqb	%xmm0, %xmm1
	pand	.LCPI60_2(%rip), %xmm1
	movdqu	%xmm1, 16(%rdi,%r14)
	cmpw	$33, %bp
	jb	.LBB60_12
	movq	%rdx, %r8
	shrq	$32, %r8
	movd	%r8d, %xmm1
	pshufb	.LCPI60_0(%rip), %xmm1
	pand	%xmm0, %xmm1
	pcmpeqb	%xmm0, %xmm1
	pand	.LCPI60_2(%rip), %xmm1
	movdqu	%xmm1, 32(%rdi,%r14)
	cmpw	$49, %bp
	jb	.LBB60_12
	shrq	$48, %rdx
	movd	%edx, %xmm1
	pshufb	.LCPI60_0(%rip), %xmm1
	pand	%xmm0, %xmm1
	pcmpeqb	%xmm0, %xmm1
	pand	.LCPI60_2(%rip), %xmm1
	movdqu	%xmm1, 48(%rdi,%r14)
	cmpw	$65, %bp
	jb	.LBB60_12
	movd	%ecx, %xmm1
	pshufb	.LCPI60_0(%rip), %xmm1
	pand	%xmm0, %xmm1
	pcmpeqb	%xmm0, %xmm1
	pand	.LCPI60_2(%rip), %xmm1
	movdqu	%xmm1, 64(%rdi,%r14)
	cmpw	$81, %bp
	jb	.LBB60_12
	movd	%ecx, %xmm1
	pshufb	.LCPI60_3(%rip), %xmm1
	pand	%xmm0, %xmm1
	pcmpeqb	%xmm0, %xmm1
	pand	.LCPI60_2(%rip), %xmm1
	movdqu	%xmm1, 80(%rdi,%r14)
	cmpw	$97, %bp
	jb	.LBB60_12
	movq	%rcx, %rdx
	shrq	$32, %rdx
	movd	%edx, %xmm1
	pshufb	.LCPI60_0(%rip), %xmm1
	pand	%xmm0, %xmm1
	pcmpeqb	%xmm0, %xmm1
	pand	.LCPI60_2(%rip), %xmm1
	movdqu	%xmm1, 96(%rdi,%r14)
	cmpw	$113, %bp
	jb	.LBB60_12
	shrq	$48, %rcx
	movd	%ecx, %xmm1
	pshufb	.LCPI60_0(%rip), %xmm1
	pand	%xmm0, %xmm1
	pcmpeqb	%xmm0, %xmm1
	pand	.LCPI60_2(%rip), %xmm1
	movdqu	%xmm1, 112(%rdi,%r14)
	.p2align	4
.LBB60_12:
	cmpl	$129, %esi
	jb	.LBB60_40
	movd	%eax, %xmm1
	pshufb	.LCPI60_0(%rip), %xmm1
	pand	%xmm0, %xmm1
	pcmpeqb	%xmm0, %xmm1
	pand	.LCPI60_2(%rip), %xmm1
	movdqu	%xmm1, 128(%rdi,%r14)
	cmpl	$145, %esi
	jb	.LBB60_40
	leaq	(%rdi,%r14), %rcx
	addq	$144, %rcx
	xorl	%edx, %edx
	movq	40(%rsp), %r8
	callq	memset
	jmp	.LBB60_40
.LBB60_15:
	movl	%r12d, %r14d
	andl	$3, %r14d
	cmpw	$4, %r12w
	jae	.LBB60_17
	xorl	%r13d, %r13d
	jmp	.LBB60_24
.LBB60_17:
	movq	%rbx, 40(%rsp)
	andl	$-4, %r12d
	leal	(,%rsi,4), %ebp
	leal	(%rsi,%rsi), %ebx
	xorl	%r13d, %r13d
	jmp	.LBB60_18
	.p2align	4
.LBB60_22:
	addq	$4, %r13
	addq	%rbp, %rdi
	cmpq	%r13, %r12
	je	.LBB60_23
.LBB60_18:
	cmpl	%esi, %r15d
	ja	.LBB60_20
	movq	%rdi, %rcx
	xorl	%edx, %edx
	movq	%rsi, %r8
	callq	memset
	leaq	(%rdi,%rsi), %rcx
	xorl	%edx, %edx
	movq	%rsi, %r8
	callq	memset
.LBB60_20:
	cmpl	%esi, %r15d
	ja	.LBB60_22
	leaq	(%rdi,%rbx), %rcx
	xorl	%edx, %edx
	movq	%rsi, %r8
	callq	memset
	leaq	(%rsi,%rsi,2), %rax
	leaq	(%rdi,%rax), %rcx
	xorl	%edx, %edx
	movq	%rsi, %r8
	callq	memset
	jmp	.LBB60_22
.LBB60_23:
	testq	%r14, %r14
	movq	40(%rsp), %rbx
	je	.LBB60_41
.LBB60_24:
	imulq	%rsi, %r13
	leaq	(%rbx,%r13), %rdi
	addq	$10, %rdi
	jmp	.LBB60_25
	.p2align	4
.LBB60_27:
	addq	%rsi, %rdi
	decq	%r14
	je	.LBB60_41
.LBB60_25:
	cmpl	%esi, %r15d
	ja	.LBB60_27
	movq	%rdi, %rcx
	xorl	%edx, %edx
	movq	%rsi, %r8
	callq	memset
	jmp	.LBB60_27
.LBB60_41:
	movaps	1504(%rsp), %xmm6
	addq	$1528, %rsp
	popq	%rbx
	popq	%rbp
	popq	%rdi
	popq	%rsi
	popq	%r12
	popq	%r13
	popq	%r14
	popq	%r15
	retq
	.seh_endproc

	.def	"ecc200_calls::writing::show_words::<=104,=1152>";
	.scl	3;
	.type	32;
	.endef
	.section	.rdata,"dr"
	.p2align	4, 0x0
.LCPI61_0:
	.byte	0
	.byte	0
	.byte	0
	.byte	0
	.byte	0
	.byte	0
	.byte	0
	.byte	0
	.byte	1
	.byte	1
	.byte	1
	.byte	1
	.byte	1
	.byte	1
	.byte	1
	.byte	1
.LCPI61_1:
	.byte	1
	.byte	2
	.byte	4
	.byte	8
	.byte	16
	.byte	32
	.byte	64
	.byte	128
	.byte	1
	.byte	2
	.byte	4
	.byte	8
	.byte	16
	.byte	32
	.byte	64
	.byte	128
.LCPI61_2:
	.zero	16,1
.LCPI61_3:
	.byte	2
	.byte	2
	.byte	2
	.byte	2
	.byte	2
	.byte	2
	.byte	2
	.byte	2
	.byte	3
	.byte	3
	.byte	3
	.byte	3
	.byte	3
	.byte	3
	.byte	3
	.byte	3
	.text
	.p2align	4
"ecc200_calls::writing::show_words::<=104,=1152>":
.seh_proc "ecc200_calls::writing::show_words::<=104,=1152>"
	pushq	%r15
	.seh_pushreg %r15
	pushq	%r14
	.seh_pushreg %r14
	pushq	%r13
	.seh_pushreg %r13
	pushq	%r12
	.seh_pushreg %r12
	pushq	%rsi
	.seh_pushreg %rsi
	pushq	%rdi
	.seh_pushreg %rdi
	pushq	%rbp
	.seh_pushreg %rbp
	pushq	%rbx
	.seh_pushreg %rbx
	subq	$3320, %rsp
	.seh_stackalloc 3320
	movdqa	%xmm6, 3296(%rsp)
	.seh_savexmm %xmm6, 3296
	.seh_endprologue
	movq	%r9, %r12
	movq	%r8, %rdi
	movq	%rdx, %r14
	movq	%rcx, %r15
	movzwl	(%rcx), %r13d
	movzwl	14(%rcx), %ebx
	movl	16(%rcx), %ebp
	leaq	2144(%rsp), %rsi
	movl	$1152, %r8d
	movq	%rsi, %rcx
	xorl	%edx, %edx
	callq	memset
	leaq	228(%rsp), %rcx
	movl	$1676, %r8d
	xorl	%edx, %edx
	callq	memset
	pxor	%xmm6, %xmm6
	movdqa	%xmm6, 1904(%rsp)
	movdqa	%xmm6, 1920(%rsp)
	movdqa	%xmm6, 1936(%rsp)
	movdqa	%xmm6, 1952(%rsp)
	movdqa	%xmm6, 1968(%rsp)
	movdqa	%xmm6, 1984(%rsp)
	movdqa	%xmm6, 2000(%rsp)
	movdqa	%xmm6, 2016(%rsp)
	movdqa	%xmm6, 2032(%rsp)
	movdqa	%xmm6, 2048(%rsp)
	movdqa	%xmm6, 2064(%rsp)
	movdqa	%xmm6, 2080(%rsp)
	movdqa	%xmm6, 2096(%rsp)
	movw	%r13w, 48(%rsp)
	movq	2(%r15), %rax
	movq	%rax, 50(%rsp)
	movl	10(%r15), %eax
	movl	%eax, 58(%rsp)
	movw	%bx, 62(%rsp)
	movl	%ebp, 64(%rsp)
	movw	%r13w, 2124(%rsp)
	movl	10(%r15), %eax
	movl	%eax, 2134(%rsp)
	movq	2(%r15), %rax
	movq	%rax, 2126(%rsp)
	movw	%bx, 2138(%rsp)
	movq	%r12, %rbx
	movl	%ebp, 2140(%rsp)
	leaq	48(%rsp), %rdx
	movq	%rsi, %rcx
	movq	%r14, %r8
	movq	%rdi, %r9
	callq	"dm_symbol::symbol::writing::complete_in"
	movl	2140(%rsp), %eax
	movl	%eax, 224(%rsp)
	movdqu	2124(%rsp), %xmm0
	movdqa	%xmm0, 208(%rsp)
	leaq	240(%rsp), %r8
	leaq	2124(%rsp), %rcx
	movq	%rsi, %rdx
	leaq	1904(%rsp), %r9
	callq	"dm_layout::symbols::placing::lay_list"
	movzwl	208(%rsp), %r12d
	pinsrw	$3, %r12d, %xmm6
	movzwl	210(%rsp), %ebp
	movq	%xmm6, (%rbx)
	movw	%bp, 8(%rbx)
	testq	%r12, %r12
	je	.LBB61_41
	leaq	10(%rbx), %rdi
	movzwl	%bp, %esi
	movq	%rsi, %r15
	imulq	%r12, %r15
	testw	%bp, %bp
	je	.LBB61_15
	leaq	16(%rsi), %r13
	leaq	-145(%rsi), %rax
	andq	$-16, %rax
	addq	$16, %rax
	movq	%rax, 40(%rsp)
	addl	%r12d, %r12d
	xorl	%r14d, %r14d
	xorl	%ebx, %ebx
	jmp	.LBB61_3
	.p2align	4
.LBB61_39:
	leaq	(%rdi,%r14), %rcx
	leaq	48(%rsp), %rdx
	movq	%rsi, %r8
	callq	memcpy
.LBB61_40:
	addq	$2, %rbx
	addq	%rsi, %r14
	cmpq	%rbx, %r12
	je	.LBB61_41
.LBB61_3:
	leaq	(%r14,%r13), %rax
	cmpq	%r15, %rax
	jbe	.LBB61_4
	pxor	%xmm0, %xmm0
	movdqa	%xmm0, 192(%rsp)
	movdqa	%xmm0, 176(%rsp)
	movdqa	%xmm0, 160(%rsp)
	movdqa	%xmm0, 144(%rsp)
	movdqa	%xmm0, 128(%rsp)
	movdqa	%xmm0, 112(%rsp)
	movdqa	%xmm0, 96(%rsp)
	movdqa	%xmm0, 80(%rsp)
	movdqa	%xmm0, 64(%rsp)
	movzwl	1904(%rsp,%rbx), %eax
	movq	240(%rsp,%rbx,8), %rdx
	movd	%edx, %xmm1
	pshufb	.LCPI61_0(%rip), %xmm1
	movq	248(%rsp,%rbx,8), %rcx
	movdqa	.LCPI61_1(%rip), %xmm0
	pand	%xmm0, %xmm1
	pcmpeqb	%xmm0, %xmm1
	pand	.LCPI61_2(%rip), %xmm1
	movdqa	%xmm1, 48(%rsp)
	cmpw	$17, %bp
	jb	.LBB61_36
	movd	%edx, %xmm1
	pshufb	.LCPI61_3(%rip), %xmm1
	pand	%xmm0, %xmm1
	pcmpeqb	%xmm0, %xmm1
	pand	.LCPI61_2(%rip), %xmm1
	movdqa	%xmm1, 64(%rsp)
	cmpw	$33, %bp
	jb	.LBB61_36
	movq	%rdx, %r8
	shrq	$32, %r8
	movd	%r8d, %xmm1
	pshufb	.LCPI61_0(%rip), %xmm1
	pand	%xmm0, %xmm1
	pcmpeqb	%xmm0, %xmm1
	pand	.LCPI61_2(%rip), %xmm1
	movdqa	%xmm1, 80(%rsp)
	cmpw	$49, %bp
	jb	.LBB61_36
	shrq	$48, %rdx
	movd	%edx, %xmm1
	pshufb	.LCPI61_0(%rip), %xmm1
	pand	%xmm0, %xmm1
	pcmpeqb	%xmm0, %xmm1
	pand	.LCPI61_2(%rip), %xmm1
	movdqa	%xmm1, 96(%rsp)
	cmpw	$65, %bp
	jb	.LBB61_36
	movd	%ecx, %xmm1
	pshufb	.LCPI61_0(%rip), %xmm1
	pand	%xmm0, %xmm1
	pcmpeqb	%xmm0, %xmm1
	pand	.LCPI61_2(%rip), %xmm1
	movdqa	%xmm1, 112(%rsp)
	cmpw	$81, %bp
	jb	.LBB61_36
	movd	%ecx, %xmm1
	pshufb	.LCPI61_3(%rip), %xmm1
	pand	%xmm0, %xmm1
	pcmpeqb	%xmm0, %xmm1
	pand	.LCPI61_2(%rip), %xmm1
	movdqa	%xmm1, 128(%rsp)
	cmpw	$97, %bp
	jb	.LBB61_36
	movq	%rcx, %rdx
	shrq	$32, %rdx
	movd	%edx, %xmm1
	pshufb	.LCPI61_0(%rip), %xmm1
	pand	%xmm0, %xmm1
	pcmpeqb	%xmm0, %xmm1
	pand	.LCPI61_2(%rip), %xmm1
	movdqa	%xmm1, 144(%rsp)
	cmpw	$113, %bp
	jb	.LBB61_36
	shrq	$48, %rcx
	movd	%ecx, %xmm1
	pshufb	.LCPI61_0(%rip), %xmm1
	pand	%xmm0, %xmm1
	pcmpeqb	%xmm0, %xmm1
	pand	.LCPI61_2(%rip), %xmm1
	movdqa	%xmm1, 160(%rsp)
	.p2align	4
.LBB61_36:
	cmpl	$129, %esi
	jb	.LBB61_39
	movd	%eax, %xmm1
	pshufb	.LCPI61_0(%rip), %xmm1
	pand	%xmm0, %xmm1
	pcmpeqb	%xmm0, %xmm1
	pand	.LCPI61_2(%rip), %xmm1
	movdqa	%xmm1, 176(%rsp)
	cmpl	$145, %esi
	jb	.LBB61_39
	leaq	192(%rsp), %rcx
	xorl	%edx, %edx
	movq	40(%rsp), %r8
	callq	memset
	jmp	.LBB61_39
	.p2align	4
.LBB61_4:
	movzwl	1904(%rsp,%rbx), %eax
	movq	240(%rsp,%rbx,8), %rdx
	movd	%edx, %xmm1
	pshufb	.LCPI61_0(%rip), %xmm1
	movq	248(%rsp,%rbx,8), %rcx
	movdqa	.LCPI61_1(%rip), %xmm0
	pand	%xmm0, %xmm1
	pcmpeqb	%xmm0, %xmm1
	pand	.LCPI61_2(%rip), %xmm1
	movdqu	%xmm1, (%rdi,%r14)
	cmpw	$17, %bp
	jb	.LBB61_12
	movd	%edx, %xmm1
	pshufb	.LCPI61_3(%rip), %xmm1
	pand	%xmm0, %xmm1
	pcmpeqb	%xmm0, %xmm1
	pand	.LCPI61_2(%rip), %xmm1
	movdqu	%xmm1, 16(%rdi,%r14)
	cmpw	$33, %bp
	jb	.LBB61_12
	movq	%rdx, %r8
	shrq	$32, %r8
	movd	%r8d, %xmm1
	pshufb	.LCPI61_0(%rip), %xmm1
	pand	%xmm0, %xmm1
	pcmpeqb	%xmm0, %xmm1
	pand	.LCPI61_2(%rip), %xmm1
	movdqu	%xmm1, 32(%rdi,%r14)
	cmpw	$49, %bp
	jb	.LBB61_12
	shrq	$48, %rdx
	movd	%edx, %xmm1
	pshufb	.LCPI61_0(%rip), %xmm1
	pand	%xmm0, %xmm1
	pcmpeqb	%xmm0, %xmm1
	pand	.LCPI61_2(%rip), %xmm1
	movdqu	%xmm1, 48(%rdi,%r14)
	cmpw	$65, %bp
	jb	.LBB61_12
	movd	%ecx, %xmm1
	pshufb	.LCPI61_0(%rip), %xmm1
	pand	%xmm0, %xmm1
	pcmpeqb	%xmm0, %xmm1
	pand	.LCPI61_2(%rip), %xmm1
	movdqu	%xmm1, 64(%rdi,%r14)
	cmpw	$81, %bp
	jb	.LBB61_12
	movd	%ecx, %xmm1
	pshufb	.LCPI61_3(%rip), %xmm1
	pand	%xmm0, %xmm1
	pcmpeqb	%xmm0, %xmm1
	pand	.LCPI61_2(%rip), %xmm1
	movdqu	%xmm1, 80(%rdi,%r14)
	cmpw	$97, %bp
	jb	.LBB61_12
	movq	%rcx, %rdx
	shrq	$32, %rdx
	movd	%edx, %xmm1
	pshufb	.LCPI61_0(%rip), %xmm1
	pand	%xmm0, %xmm1
	pcmpeqb	%xmm0, %xmm1
	pand	.LCPI61_2(%rip), %xmm1
	movdqu	%xmm1, 96(%rdi,%r14)
	cmpw	$113, %bp
	jb	.LBB61_12
	shrq	$48, %rcx
	movd	%ecx, %xmm1
	pshufb	.LCPI61_0(%rip), %xmm1
	pand	%xmm0, %xmm1
	pcmpeqb	%xmm0, %xmm1
	pand	.LCPI61_2(%rip), %xmm1
	movdqu	%xmm1, 112(%rdi,%r14)
	.p2align	4
.LBB61_12:
	cmpl	$129, %esi
	jb	.LBB61_40
	movd	%eax, %xmm1
	pshufb	.LCPI61_0(%rip), %xmm1
	pand	%xmm0, %xmm1
	pcmpeqb	%xmm0, %xmm1
	pand	.LCPI61_2(%rip), %xmm1
	movdqu	%xmm1, 128(%rdi,%r14)
	cmpl	$145, %esi
	jb	.LBB61_40
	leaq	(%rdi,%r14), %rcx
	addq	$144, %rcx
	xorl	%edx, %edx
	movq	40(%rsp), %r8
	callq	memset
	jmp	.LBB61_40
.LBB61_15:
	movl	%r12d, %r14d
	andl	$3, %r14d
	cmpw	$4, %r12w
	jae	.LBB61_17
	xorl	%r13d, %r13d
	jmp	.LBB61_24
.LBB61_17:
	movq	%rbx, 40(%rsp)
	andl	$-4, %r12d
	leal	(,%rsi,4), %ebp
	leal	(%rsi,%rsi), %ebx
	xorl	%r13d, %r13d
	jmp	.LBB61_18
	.p2align	4
.LBB61_22:
	addq	$4, %r13
	addq	%rbp, %rdi
	cmpq	%r13, %r12
	je	.LBB61_23
.LBB61_18:
	cmpl	%esi, %r15d
	ja	.LBB61_20
	movq	%rdi, %rcx
	xorl	%edx, %edx
	movq	%rsi, %r8
	callq	memset
	leaq	(%rdi,%rsi), %rcx
	xorl	%edx, %edx
	movq	%rsi, %r8
	callq	memset
.LBB61_20:
	cmpl	%esi, %r15d
	ja	.LBB61_22
	leaq	(%rdi,%rbx), %rcx
	xorl	%edx, %edx
	movq	%rsi, %r8
	callq	memset
	leaq	(%rsi,%rsi,2), %rax
	leaq	(%rdi,%rax), %rcx
	xorl	%edx, %edx
	movq	%rsi, %r8
	callq	memset
	jmp	.LBB61_22
.LBB61_23:
	testq	%r14, %r14
	movq	40(%rsp), %rbx
	je	.LBB61_41
.LBB61_24:
	imulq	%rsi, %r13
	leaq	(%rbx,%r13), %rdi
	addq	$10, %rdi
	jmp	.LBB61_25
	.p2align	4
.LBB61_27:
	addq	%rsi, %rdi
	decq	%r14
	je	.LBB61_41
.LBB61_25:
	cmpl	%esi, %r15d
	ja	.LBB61_27
	movq	%rdi, %rcx
	xorl	%edx, %edx
	movq	%rsi, %r8
	callq	memset
	jmp	.LBB61_27
.LBB61_41:
	movaps	3296(%rsp), %xmm6
	addq	$3320, %rsp
	popq	%rbx
	popq	%rbp
	popq	%rdi
	popq	%rsi
	popq	%r12
	popq	%r13
	popq	%r14
	popq	%r15
	retq
	.seh_endproc

	.def	"ecc200_calls::writing::show_words::<=144,=2178>";
	.scl	3;
	.type	32;
	.endef
	.section	.rdata,"dr"
	.p2align	4, 0x0
.LCPI62_0:
	.byte	0
	.byte	0
	.byte	0
	.byte	0
	.byte	0
	.byte	0
	.byte	0
	.byte	0
	.byte	1
	.byte	1
	.byte	1
	.byte	1
	.byte	1
	.byte	1
	.byte	1
	.byte	1
.LCPI62_1:
	.byte	1
	.byte	2
	.byte	4
	.byte	8
	.byte	16
	.byte	32
	.byte	64
	.byte	128
	.byte	1
	.byte	2
	.byte	4
	.byte	8
	.byte	16
	.byte	32
	.byte	64
	.byte	128
.LCPI62_2:
	.zero	16,1
.LCPI62_3:
	.byte	2
	.byte	2
	.byte	2
	.byte	2
	.byte	2
	.byte	2
	.byte	2
	.byte	2
	.byte	3
	.byte	3
	.byte	3
	.byte	3
	.byte	3
	.byte	3
	.byte	3
	.byte	3
	.text
	.p2align	4
"ecc200_calls::writing::show_words::<=144,=2178>":
.seh_proc "ecc200_calls::writing::show_words::<=144,=2178>"
	pushq	%r15
	.seh_pushreg %r15
	pushq	%r14
	.seh_pushreg %r14
	pushq	%r13
	.seh_pushreg %r13
	pushq	%r12
	.seh_pushreg %r12
	pushq	%rsi
	.seh_pushreg %rsi
	pushq	%rdi
	.seh_pushreg %rdi
	pushq	%rbp
	.seh_pushreg %rbp
	pushq	%rbx
	.seh_pushreg %rbx
	movl	$5032, %eax
	callq	___chkstk_ms
	subq	%rax, %rsp
	.seh_stackalloc 5032
	.seh_endprologue
	movq	%r9, %r12
	movq	%r8, %rdi
	movq	%rdx, %r14
	movq	%rcx, %r15
	movzwl	(%rcx), %r13d
	movzwl	14(%rcx), %ebx
	movl	16(%rcx), %ebp
	leaq	2854(%rsp), %rsi
	movl	$2178, %r8d
	movq	%rsi, %rcx
	xorl	%edx, %edx
	callq	memset
	leaq	228(%rsp), %rcx
	movl	$2316, %r8d
	xorl	%edx, %edx
	callq	memset
	leaq	2544(%rsp), %rcx
	movl	$288, %r8d
	xorl	%edx, %edx
	callq	memset
	movw	%r13w, 48(%rsp)
	movq	2(%r15), %rax
	movq	%rax, 50(%rsp)
	movl	10(%r15), %eax
	movl	%eax, 58(%rsp)
	movw	%bx, 62(%rsp)
	movl	%ebp, 64(%rsp)
	movw	%r13w, 2834(%rsp)
	movq	2(%r15), %rax
	movq	%rax, 2836(%rsp)
	movl	10(%r15), %eax
	movl	%eax, 2844(%rsp)
	movw	%bx, 2848(%rsp)
	movq	%r12, %rbx
	movl	%ebp, 2850(%rsp)
	leaq	48(%rsp), %rdx
	movq	%rsi, %rcx
	movq	%r14, %r8
	movq	%rdi, %r9
	callq	"dm_symbol::symbol::writing::complete_in"
	movl	2850(%rsp), %eax
	movl	%eax, 224(%rsp)
	movdqu	2834(%rsp), %xmm0
	movdqa	%xmm0, 208(%rsp)
	leaq	240(%rsp), %r8
	leaq	2834(%rsp), %rcx
	movq	%rsi, %rdx
	leaq	2544(%rsp), %r9
	callq	"dm_layout::symbols::placing::lay_list"
	movzwl	208(%rsp), %r12d
	pxor	%xmm0, %xmm0
	pinsrw	$3, %r12d, %xmm0
	movzwl	210(%rsp), %ebp
	movq	%xmm0, (%rbx)
	movw	%bp, 8(%rbx)
	testq	%r12, %r12
	je	.LBB62_41
	leaq	10(%rbx), %rdi
	movzwl	%bp, %esi
	movq	%rsi, %r15
	imulq	%r12, %r15
	testw	%bp, %bp
	je	.LBB62_15
	leaq	16(%rsi), %r13
	leaq	-145(%rsi), %rax
	andq	$-16, %rax
	addq	$16, %rax
	movq	%rax, 40(%rsp)
	addl	%r12d, %r12d
	xorl	%r14d, %r14d
	xorl	%ebx, %ebx
	jmp	.LBB62_3
	.p2align	4
.LBB62_39:
	leaq	(%rdi,%r14), %rcx
	leaq	48(%rsp), %rdx
	movq	%rsi, %r8
	callq	memcpy
.LBB62_40:
	addq	$2, %rbx
	addq	%rsi, %r14
	cmpq	%rbx, %r12
	je	.LBB62_41
.LBB62_3:
	leaq	(%r14,%r13), %rax
	cmpq	%r15, %rax
	jbe	.LBB62_4
	pxor	%xmm0, %xmm0
	movdqa	%xmm0, 192(%rsp)
	movdqa	%xmm0, 176(%rsp)
	movdqa	%xmm0, 160(%rsp)
	movdqa	%xmm0, 144(%rsp)
	movdqa	%xmm0, 128(%rsp)
	movdqa	%xmm0, 112(%rsp)
	movdqa	%xmm0, 96(%rsp)
	movdqa	%xmm0, 80(%rsp)
	movdqa	%xmm0, 64(%rsp)
	movzwl	2544(%rsp,%rbx), %eax
	movq	240(%rsp,%rbx,8), %rdx
	movd	%edx, %xmm1
	pshufb	.LCPI62_0(%rip), %xmm1
	movq	248(%rsp,%rbx,8), %rcx
	movdqa	.LCPI62_1(%rip), %xmm0
	pand	%xmm0, %xmm1
	pcmpeqb	%xmm0, %xmm1
	pand	.LCPI62_2(%rip), %xmm1
	movdqa	%xmm1, 48(%rsp)
	cmpw	$17, %bp
	jb	.LBB62_36
	movd	%edx, %xmm1
	pshufb	.LCPI62_3(%rip), %xmm1
	pand	%xmm0, %xmm1
	pcmpeqb	%xmm0, %xmm1
	pand	.LCPI62_2(%rip), %xmm1
	movdqa	%xmm1, 64(%rsp)
	cmpw	$33, %bp
	jb	.LBB62_36
	movq	%rdx, %r8
	shrq	$32, %r8
	movd	%r8d, %xmm1
	pshufb	.LCPI62_0(%rip), %xmm1
	pand	%xmm0, %xmm1
	pcmpeqb	%xmm0, %xmm1
	pand	.LCPI62_2(%rip), %xmm1
	movdqa	%xmm1, 80(%rsp)
	cmpw	$49, %bp
	jb	.LBB62_36
	shrq	$48, %rdx
	movd	%edx, %xmm1
	pshufb	.LCPI62_0(%rip), %xmm1
	pand	%xmm0, %xmm1
	pcmpeqb	%xmm0, %xmm1
	pand	.LCPI62_2(%rip), %xmm1
	movdqa	%xmm1, 96(%rsp)
	cmpw	$65, %bp
	jb	.LBB62_36
	movd	%ecx, %xmm1
	pshufb	.LCPI62_0(%rip), %xmm1
	pand	%xmm0, %xmm1
	pcmpeqb	%xmm0, %xmm1
	pand	.LCPI62_2(%rip), %xmm1
	movdqa	%xmm1, 112(%rsp)
	cmpw	$81, %bp
	jb	.LBB62_36
	movd	%ecx, %xmm1
	pshufb	.LCPI62_3(%rip), %xmm1
	pand	%xmm0, %xmm1
	pcmpeqb	%xmm0, %xmm1
	pand	.LCPI62_2(%rip), %xmm1
	movdqa	%xmm1, 128(%rsp)
	cmpw	$97, %bp
	jb	.LBB62_36
	movq	%rcx, %rdx
	shrq	$32, %rdx
	movd	%edx, %xmm1
	pshufb	.LCPI62_0(%rip), %xmm1
	pand	%xmm0, %xmm1
	pcmpeqb	%xmm0, %xmm1
	pand	.LCPI62_2(%rip), %xmm1
	movdqa	%xmm1, 144(%rsp)
	cmpw	$113, %bp
	jb	.LBB62_36
	shrq	$48, %rcx
	movd	%ecx, %xmm1
	pshufb	.LCPI62_0(%rip), %xmm1
	pand	%xmm0, %xmm1
	pcmpeqb	%xmm0, %xmm1
	pand	.LCPI62_2(%rip), %xmm1
	movdqa	%xmm1, 160(%rsp)
	.p2align	4
.LBB62_36:
	cmpl	$129, %esi
	jb	.LBB62_39
	movd	%eax, %xmm1
	pshufb	.LCPI62_0(%rip), %xmm1
	pand	%xmm0, %xmm1
	pcmpeqb	%xmm0, %xmm1
	pand	.LCPI62_2(%rip), %xmm1
	movdqa	%xmm1, 176(%rsp)
	cmpl	$145, %esi
	jb	.LBB62_39
	leaq	192(%rsp), %rcx
	xorl	%edx, %edx
	movq	40(%rsp), %r8
	callq	memset
	jmp	.LBB62_39
	.p2align	4
.LBB62_4:
	movzwl	2544(%rsp,%rbx), %eax
	movq	240(%rsp,%rbx,8), %rdx
	movd	%edx, %xmm1
	pshufb	.LCPI62_0(%rip), %xmm1
	movq	248(%rsp,%rbx,8), %rcx
	movdqa	.LCPI62_1(%rip), %xmm0
	pand	%xmm0, %xmm1
	pcmpeqb	%xmm0, %xmm1
	pand	.LCPI62_2(%rip), %xmm1
	movdqu	%xmm1, (%rdi,%r14)
	cmpw	$17, %bp
	jb	.LBB62_12
	movd	%edx, %xmm1
	pshufb	.LCPI62_3(%rip), %xmm1
	pand	%xmm0, %xmm1
	pcmpeqb	%xmm0, %xmm1
	pand	.LCPI62_2(%rip), %xmm1
	movdqu	%xmm1, 16(%rdi,%r14)
	cmpw	$33, %bp
	jb	.LBB62_12
	movq	%rdx, %r8
	shrq	$32, %r8
	movd	%r8d, %xmm1
	pshufb	.LCPI62_0(%rip), %xmm1
	pand	%xmm0, %xmm1
	pcmpeqb	%xmm0, %xmm1
	pand	.LCPI62_2(%rip), %xmm1
	movdqu	%xmm1, 32(%rdi,%r14)
	cmpw	$49, %bp
	jb	.LBB62_12
	shrq	$48, %rdx
	movd	%edx, %xmm1
	pshufb	.LCPI62_0(%rip), %xmm1
	pand	%xmm0, %xmm1
	pcmpeqb	%xmm0, %xmm1
	pand	.LCPI62_2(%rip), %xmm1
	movdqu	%xmm1, 48(%rdi,%r14)
	cmpw	$65, %bp
	jb	.LBB62_12
	movd	%ecx, %xmm1
	pshufb	.LCPI62_0(%rip), %xmm1
	pand	%xmm0, %xmm1
	pcmpeqb	%xmm0, %xmm1
	pand	.LCPI62_2(%rip), %xmm1
	movdqu	%xmm1, 64(%rdi,%r14)
	cmpw	$81, %bp
	jb	.LBB62_12
	movd	%ecx, %xmm1
	pshufb	.LCPI62_3(%rip), %xmm1
	pand	%xmm0, %xmm1
	pcmpeqb	%xmm0, %xmm1
	pand	.LCPI62_2(%rip), %xmm1
	movdqu	%xmm1, 80(%rdi,%r14)
	cmpw	$97, %bp
	jb	.LBB62_12
	movq	%rcx, %rdx
	shrq	$32, %rdx
	movd	%edx, %xmm1
	pshufb	.LCPI62_0(%rip), %xmm1
	pand	%xmm0, %xmm1
	pcmpeqb	%xmm0, %xmm1
	pand	.LCPI62_2(%rip), %xmm1
	movdqu	%xmm1, 96(%rdi,%r14)
	cmpw	$113, %bp
	jb	.LBB62_12
	shrq	$48, %rcx
	movd	%ecx, %xmm1
	pshufb	.LCPI62_0(%rip), %xmm1
	pand	%xmm0, %xmm1
	pcmpeqb	%xmm0, %xmm1
	pand	.LCPI62_2(%rip), %xmm1
	movdqu	%xmm1, 112(%rdi,%r14)
	.p2align	4
.LBB62_12:
	cmpl	$129, %esi
	jb	.LBB62_40
	movd	%eax, %xmm1
	pshufb	.LCPI62_0(%rip), %xmm1
	pand	%xmm0, %xmm1
	pcmpeqb	%xmm0, %xmm1
	pand	.LCPI62_2(%rip), %xmm1
	movdqu	%xmm1, 128(%rdi,%r14)
	cmpl	$145, %esi
	jb	.LBB62_40
	leaq	(%rdi,%r14), %rcx
	addq	$144, %rcx
	xorl	%edx, %edx
	movq	40(%rsp), %r8
	callq	memset
	jmp	.LBB62_40
.LBB62_15:
	movl	%r12d, %r14d
	andl	$3, %r14d
	cmpw	$4, %r12w
	jae	.LBB62_17
	xorl	%r13d, %r13d
	jmp	.LBB62_24
.LBB62_17:
	movq	%rbx, 40(%rsp)
	andl	$-4, %r12d
	leal	(,%rsi,4), %ebp
	leal	(%rsi,%rsi), %ebx
	xorl	%r13d, %r13d
	jmp	.LBB62_18
	.p2align	4
.LBB62_22:
	addq	$4, %r13
	addq	%rbp, %rdi
	cmpq	%r13, %r12
	je	.LBB62_23
.LBB62_18:
	cmpl	%esi, %r15d
	ja	.LBB62_20
	movq	%rdi, %rcx
	xorl	%edx, %edx
	movq	%rsi, %r8
	callq	memset
	leaq	(%rdi,%rsi), %rcx
	xorl	%edx, %edx
	movq	%rsi, %r8
	callq	memset
.LBB62_20:
	cmpl	%esi, %r15d
	ja	.LBB62_22
	leaq	(%rdi,%rbx), %rcx
	xorl	%edx, %edx
	movq	%rsi, %r8
	callq	memset
	leaq	(%rsi,%rsi,2), %rax
	leaq	(%rdi,%rax), %rcx
	xorl	%edx, %edx
	movq	%rsi, %r8
	callq	memset
	jmp	.LBB62_22
.LBB62_23:
	testq	%r14, %r14
	movq	40(%rsp), %rbx
	je	.LBB62_41
.LBB62_24:
	imulq	%rsi, %r13
	leaq	(%rbx,%r13), %rdi
	addq	$10, %rdi
	jmp	.LBB62_25
	.p2align	4
.LBB62_27:
	addq	%rsi, %rdi
	decq	%r14
	je	.LBB62_41
.LBB62_25:
	cmpl	%esi, %r15d
	ja	.LBB62_27
	movq	%rdi, %rcx
	xorl	%edx, %edx
	movq	%rsi, %r8
	callq	memset
	jmp	.LBB62_27
.LBB62_41:
	addq	$5032, %rsp
	popq	%rbx
	popq	%rbp
	popq	%rdi
	popq	%rsi
	popq	%r12
	popq	%r13
	popq	%r14
	popq	%r15
	retq
	.seh_endproc

	.def	"ecc200_calls::answer::answer_given::<#e937d748901de80e>";
	.scl	3;
	.type	32;
	.endef
	.p2align	4
"ecc200_calls::answer::answer_given::<#e937d748901de80e>":
.seh_proc "ecc200_calls::answer::answer_given::<#e937d748901de80e>"
	pushq	%r14
	.seh_pushreg %r14
	pushq	%rsi
	.seh_pushreg %rsi
	pushq	%rdi
	.seh_pushreg %rdi
	pushq	%rbx
	.seh_pushreg %rbx
	subq	$536, %rsp
	.seh_stackalloc 536
	movaps	%xmm6, 512(%rsp)
	.seh_savexmm %xmm6, 512
	.seh_endprologue
	movq	%r9, %rbx
	movq	%r8, %r14
	movq	%rcx, %rdi
	movq	632(%rsp), %rsi
	movaps	608(%rsp), %xmm6
	movq	624(%rsp), %rax
	movzwl	8(%rdx), %ecx
	movw	%cx, 104(%rsp)
	movq	(%rdx), %rcx
	movq	%rcx, 96(%rsp)
	movups	(%rax), %xmm0
	movaps	%xmm0, 112(%rsp)
	movq	14(%rax), %rax
	movq	%rax, 126(%rsp)
	movq	$0, 80(%rsp)
	movw	$0, 88(%rsp)
	leaq	224(%rsp), %rcx
	movl	$288, %r8d
	xorl	%edx, %edx
	callq	memset
	xorps	%xmm0, %xmm0
	movups	%xmm0, 145(%rsp)
	movups	%xmm0, 161(%rsp)
	movups	%xmm0, 176(%rsp)
	movb	$0, 144(%rsp)
	movq	$0, 192(%rsp)
	leaq	144(%rsp), %rax
	movq	%rax, 64(%rsp)
	leaq	204(%rsp), %rax
	movq	%rax, 56(%rsp)
	leaq	112(%rsp), %rax
	movq	%rax, 48(%rsp)
	movups	%xmm6, 32(%rsp)
	leaq	80(%rsp), %rcx
	leaq	96(%rsp), %rdx
	movq	%r14, %r8
	movq	%rbx, %r9
	callq	"ecc200_calls::restoring::restore_given::<=52,=288>"
	cmpb	$0, 80(%rsp)
	je	.LBB63_1
	movzbl	82(%rsp), %ecx
	movzwl	84(%rsp), %eax
	testl	%ecx, %ecx
	je	.LBB63_3
	cmpl	$2, %ecx
	jne	.LBB63_5
	movzwl	86(%rsp), %edx
	cmpb	$2, %al
	je	.LBB63_18
	movzbl	%al, %eax
	cmpl	$1, %eax
	jne	.LBB63_9
	movw	$20, %cx
	jmp	.LBB63_19
.LBB63_1:
	movzbl	100(%rsp), %edx
	leaq	204(%rsp), %r8
	movq	%rdi, %rcx
	movq	%rsi, %r9
	callq	"ecc200_calls::answer::answer_words::<#d32d35a8039035b6>"
	jmp	.LBB63_21
.LBB63_3:
	xorl	%edx, %edx
	movw	$5, %cx
	jmp	.LBB63_20
.LBB63_5:
	movzbl	83(%rsp), %edx
	movw	$6, %cx
	jmp	.LBB63_19
.LBB63_18:
	movw	$21, %cx
.LBB63_19:
	xorl	%eax, %eax
.LBB63_20:
	movw	%cx, (%rsi)
	movw	%ax, 2(%rsi)
	movw	%dx, 4(%rsi)
	movl	$0, 6(%rsi)
.LBB63_21:
	movaps	512(%rsp), %xmm6
	addq	$536, %rsp
	popq	%rbx
	popq	%rdi
	popq	%rsi
	popq	%r14
	retq
.LBB63_9:
	movzwl	88(%rsp), %r8d
	movzwl	%dx, %eax
	movzbl	%al, %ecx
	leaq	.LJTI63_0(%rip), %rdx
	movslq	(%rdx,%rcx,4), %rcx
	addq	%rdx, %rcx
	jmpq	*%rcx
.LBB63_10:
	movw	$7, %cx
	jmp	.LBB63_11
.LBB63_15:
	movw	$11, %cx
	jmp	.LBB63_11
.LBB63_13:
	movw	$9, %cx
	jmp	.LBB63_11
.LBB63_14:
	movw	$10, %cx
	jmp	.LBB63_11
.LBB63_12:
	shrl	$8, %eax
	movw	$8, %cx
	movl	%r8d, %edx
	jmp	.LBB63_20
.LBB63_16:
	movw	$12, %cx
	jmp	.LBB63_11
.LBB63_17:
	movw	$13, %cx
.LBB63_11:
	xorl	%eax, %eax
	movl	%r8d, %edx
	jmp	.LBB63_20
	.section	.rdata,"dr"
	.p2align	2, 0x0
.LJTI63_0:
	.long	.LBB63_10-.LJTI63_0
	.long	.LBB63_12-.LJTI63_0
	.long	.LBB63_13-.LJTI63_0
	.long	.LBB63_14-.LJTI63_0
	.long	.LBB63_15-.LJTI63_0
	.long	.LBB63_16-.LJTI63_0
	.long	.LBB63_17-.LJTI63_0
	.text
	.seh_endproc

	.def	"ecc200_calls::restoring::restore_given::<=52,=288>";
	.scl	3;
	.type	32;
	.endef
	.p2align	4
"ecc200_calls::restoring::restore_given::<=52,=288>":
.seh_proc "ecc200_calls::restoring::restore_given::<=52,=288>"
	pushq	%r15
	.seh_pushreg %r15
	pushq	%r14
	.seh_pushreg %r14
	pushq	%r13
	.seh_pushreg %r13
	pushq	%r12
	.seh_pushreg %r12
	pushq	%rsi
	.seh_pushreg %rsi
	pushq	%rdi
	.seh_pushreg %rdi
	pushq	%rbp
	.seh_pushreg %rbp
	pushq	%rbx
	.seh_pushreg %rbx
	subq	$2152, %rsp
	.seh_stackalloc 2152
	.seh_endprologue
	movq	%r9, %rdi
	movq	%r8, %r14
	movq	%rcx, %rsi
	movq	2272(%rsp), %r13
	movzbl	4(%rdx), %eax
	movb	%al, 93(%rsp)
	movzbl	6(%rdx), %ebp
	movzwl	8(%rdx), %eax
	movw	%ax, 94(%rsp)
	movzwl	(%r13), %r15d
	movzwl	18(%r13), %eax
	movzbl	20(%r13), %ebx
	movw	%ax, 210(%rsp)
	movups	2(%r13), %xmm0
	movups	%xmm0, 194(%rsp)
	leaq	212(%rsp), %rcx
	movl	$844, %r8d
	xorl	%edx, %edx
	callq	memset
	movw	%r15w, 192(%rsp)
	xorps	%xmm0, %xmm0
	movaps	%xmm0, 1056(%rsp)
	movaps	%xmm0, 1072(%rsp)
	movaps	%xmm0, 1088(%rsp)
	movaps	%xmm0, 1104(%rsp)
	movaps	%xmm0, 1120(%rsp)
	movaps	%xmm0, 1136(%rsp)
	movaps	%xmm0, 1152(%rsp)
	leaq	192(%rsp), %rcx
	movq	%r14, %rdx
	movq	%rdi, %r8
	callq	"ecc200_calls::modules::put_modules::<=52>"
	movq	2288(%rsp), %rdi
	movq	2280(%rsp), %r12
	testb	$1, %bl
	je	.LBB64_5
	movq	%rdi, %rbx
	addq	$2, %r13
	movq	2256(%rsp), %r14
	movw	%r15w, 1168(%rsp)
	movups	(%r13), %xmm0
	movups	%xmm0, 1170(%rsp)
	movzwl	16(%r13), %eax
	movw	%ax, 1186(%rsp)
	leaq	1188(%rsp), %rcx
	movl	$956, %r8d
	xorl	%edx, %edx
	callq	memset
	leaq	1168(%rsp), %rdi
	movq	%rdi, %rcx
	movq	%r14, %rdx
	movq	2264(%rsp), %r8
	callq	"ecc200_calls::modules::put_modules::<=52>"
	movw	$0, 136(%rsp)
	movq	$0, 128(%rsp)
	testb	%bpl, %bpl
	je	.LBB64_2
	movq	%rbx, 48(%rsp)
	movq	%r12, 40(%rsp)
	movq	%rdi, 32(%rsp)
	leaq	128(%rsp), %rcx
	leaq	192(%rsp), %r8
	movzbl	93(%rsp), %edx
	movb	$1, %r9b
	callq	"ecc200_calls::restoring::restore_surely::<=52,=288>"
	jmp	.LBB64_4
.LBB64_5:
	movw	$0, 104(%rsp)
	movq	$0, 96(%rsp)
	testb	%bpl, %bpl
	je	.LBB64_6
	movq	%rdi, 48(%rsp)
	movq	%r12, 40(%rsp)
	movq	$0, 32(%rsp)
	leaq	96(%rsp), %rcx
	leaq	192(%rsp), %r8
	movzbl	93(%rsp), %edx
	xorl	%r9d, %r9d
	callq	"ecc200_calls::restoring::restore_surely::<=52,=288>"
	movzbl	96(%rsp), %eax
	movzbl	98(%rsp), %ecx
	movzbl	99(%rsp), %edx
	movss	100(%rsp), %xmm0
	movzwl	104(%rsp), %r8d
	jmp	.LBB64_8
.LBB64_2:
	movq	%rbx, 56(%rsp)
	movq	%r12, 48(%rsp)
	movzwl	94(%rsp), %eax
	movw	%ax, 40(%rsp)
	movq	%rdi, 32(%rsp)
	leaq	128(%rsp), %rcx
	leaq	192(%rsp), %r8
	movzbl	93(%rsp), %edx
	movb	$1, %r9b
	callq	"ecc200_calls::restoring::restore_within::<=52,=288>"
.LBB64_4:
	movzbl	128(%rsp), %eax
	movzbl	130(%rsp), %ecx
	movzbl	131(%rsp), %edx
	movss	132(%rsp), %xmm0
	movzwl	136(%rsp), %r8d
	jmp	.LBB64_8
.LBB64_6:
	leaq	1056(%rsp), %rax
	leaq	8(%rdi), %rcx
	leaq	48(%rdi), %rdx
	movw	$0, 120(%rsp)
	movq	$0, 112(%rsp)
	movzwl	206(%rsp), %r8d
	movl	208(%rsp), %r9d
	movq	192(%rsp), %r10
	movq	198(%rsp), %r11
	movq	%r11, 6(%r12)
	movq	%r10, (%r12)
	movw	%r8w, 14(%r12)
	movl	%r9d, 16(%r12)
	addq	$20, %r12
	movl	208(%rsp), %r8d
	movl	%r8d, 144(%rsp)
	movaps	192(%rsp), %xmm0
	movaps	%xmm0, 128(%rsp)
	leaq	224(%rsp), %r8
	movl	$0, 148(%rsp)
	movq	%r8, 152(%rsp)
	movq	$52, 160(%rsp)
	movq	%rax, 168(%rsp)
	movq	$52, 176(%rsp)
	movq	%rdx, 72(%rsp)
	movq	%rcx, 64(%rsp)
	movq	%rdi, 56(%rsp)
	movq	%r12, 48(%rsp)
	movzwl	94(%rsp), %eax
	movw	%ax, 40(%rsp)
	movzbl	93(%rsp), %eax
	movb	%al, 32(%rsp)
	leaq	112(%rsp), %rcx
	leaq	128(%rsp), %rdx
	xorl	%r8d, %r8d
	xorl	%r9d, %r9d
	callq	"dm_symbol::symbol::reading::restore"
	movzbl	112(%rsp), %eax
	movzbl	114(%rsp), %ecx
	movzbl	115(%rsp), %edx
	movss	116(%rsp), %xmm0
	movzwl	120(%rsp), %r8d
.LBB64_8:
	movb	%al, (%rsi)
	movb	%cl, 2(%rsi)
	movb	%dl, 3(%rsi)
	movss	%xmm0, 4(%rsi)
	movw	%r8w, 8(%rsi)
	addq	$2152, %rsp
	popq	%rbx
	popq	%rbp
	popq	%rdi
	popq	%rsi
	popq	%r12
	popq	%r13
	popq	%r14
	popq	%r15
	retq
	.seh_endproc

	.def	"ecc200_calls::restoring::restore_within::<=52,=288>";
	.scl	3;
	.type	32;
	.endef
	.p2align	4
"ecc200_calls::restoring::restore_within::<=52,=288>":
.seh_proc "ecc200_calls::restoring::restore_within::<=52,=288>"
	pushq	%r15
	.seh_pushreg %r15
	pushq	%r14
	.seh_pushreg %r14
	pushq	%r13
	.seh_pushreg %r13
	pushq	%r12
	.seh_pushreg %r12
	pushq	%rsi
	.seh_pushreg %rsi
	pushq	%rdi
	.seh_pushreg %rdi
	pushq	%rbp
	.seh_pushreg %rbp
	pushq	%rbx
	.seh_pushreg %rbx
	subq	$280, %rsp
	.seh_stackalloc 280
	movdqa	%xmm6, 256(%rsp)
	.seh_savexmm %xmm6, 256
	.seh_endprologue
	movl	%edx, %ebx
	movq	%rcx, %rsi
	movq	408(%rsp), %r12
	movzwl	392(%rsp), %ebp
	movq	400(%rsp), %rdi
	leaq	8(%r12), %r13
	movw	$0, 88(%rsp)
	movq	$0, 80(%rsp)
	movl	16(%r8), %eax
	movq	(%r8), %rcx
	movq	8(%r8), %rdx
	movq	%rdx, 8(%rdi)
	movq	%rcx, (%rdi)
	movl	%eax, 16(%rdi)
	addq	$20, %rdi
	movl	16(%r8), %eax
	movl	%eax, 176(%rsp)
	movups	(%r8), %xmm0
	movaps	%xmm0, 160(%rsp)
	leaq	32(%r8), %rax
	addq	$864, %r8
	movl	$0, 180(%rsp)
	movaps	%xmm0, 96(%rsp)
	movq	176(%rsp), %rcx
	movq	%rcx, 112(%rsp)
	movq	%rax, 120(%rsp)
	movq	$52, 128(%rsp)
	movq	%r8, 136(%rsp)
	movq	$52, 144(%rsp)
	testb	%r9b, %r9b
	je	.LBB65_1
	movq	384(%rsp), %rax
	movl	16(%rax), %ecx
	movl	%ecx, 208(%rsp)
	movups	(%rax), %xmm0
	movaps	%xmm0, 192(%rsp)
	leaq	32(%rax), %rcx
	addq	$864, %rax
	movl	$0, 212(%rsp)
	movq	%rcx, 216(%rsp)
	movq	$52, 224(%rsp)
	movq	%rax, 232(%rsp)
	movq	$52, 240(%rsp)
	leaq	96(%rsp), %rcx
	movb	$1, %r14b
	leaq	192(%rsp), %r15
	movb	$1, %dl
	movq	%r15, %r8
	callq	"dm_layout::symbols::border::border_faults"
	cmpw	%ax, %bp
	jae	.LBB65_4
	xorl	%ecx, %ecx
	movzwl	%ax, %eax
	movd	%eax, %xmm6
	xorl	%edx, %edx
	xorl	%ebp, %ebp
	jmp	.LBB65_12
.LBB65_1:
	leaq	48(%r12), %rax
	movq	%rax, 72(%rsp)
	movq	%r13, 64(%rsp)
	movq	%r12, 56(%rsp)
	movq	%rdi, 48(%rsp)
	movw	%bp, 40(%rsp)
	movb	%bl, 32(%rsp)
	leaq	80(%rsp), %rcx
	leaq	96(%rsp), %rdx
	xorl	%r8d, %r8d
	xorl	%r9d, %r9d
	callq	"dm_symbol::symbol::reading::restore"
	movzbl	80(%rsp), %r14d
	movzbl	82(%rsp), %ebp
	movzbl	83(%rsp), %edx
	movd	84(%rsp), %xmm6
	movzwl	88(%rsp), %ecx
	jmp	.LBB65_12
.LBB65_4:
	movw	%ax, 48(%r12)
	movzwl	110(%rsp), %eax
	addw	108(%rsp), %ax
	movzwl	%ax, %r14d
	leaq	96(%rsp), %rcx
	movq	%rdi, %rdx
	callq	"dm_layout::symbols::placing::lift_to"
	movb	$0, (%r12)
	movq	%r13, 40(%rsp)
	movq	%r15, 32(%rsp)
	xorl	%ebp, %ebp
	leaq	160(%rsp), %rcx
	movq	%rdi, %rdx
	movq	%r14, %r8
	xorl	%r9d, %r9d
	callq	"dm_symbol::symbol::reading::restore_doubtful"
	pxor	%xmm6, %xmm6
	xorl	%ecx, %ecx
	cmpb	$1, %al
	jne	.LBB65_5
	testb	%bl, %bl
	je	.LBB65_7
	movl	%edx, %ebx
	movq	%r13, 40(%rsp)
	movq	%r14, 32(%rsp)
	leaq	96(%rsp), %rcx
	movb	$1, %bpl
	leaq	192(%rsp), %r8
	movb	$1, %dl
	movq	%rdi, %r9
	callq	"dm_symbol::symbol::dealing::restore_restarted"
	testb	%al, %al
	je	.LBB65_9
	movb	$1, (%r12)
	xorl	%ecx, %ecx
	xorl	%edx, %edx
	xorl	%ebp, %ebp
	jmp	.LBB65_11
.LBB65_5:
	xorl	%edx, %edx
.LBB65_11:
	xorl	%r14d, %r14d
	jmp	.LBB65_12
.LBB65_7:
	movb	$1, %bpl
	xorl	%ecx, %ecx
	movb	$1, %r14b
	jmp	.LBB65_12
.LBB65_9:
	xorl	%ecx, %ecx
	movb	$1, %r14b
	movl	%ebx, %edx
.LBB65_12:
	movb	%r14b, (%rsi)
	movb	%bpl, 2(%rsi)
	movb	%dl, 3(%rsi)
	movd	%xmm6, 4(%rsi)
	movw	%cx, 8(%rsi)
	movaps	256(%rsp), %xmm6
	addq	$280, %rsp
	popq	%rbx
	popq	%rbp
	popq	%rdi
	popq	%rsi
	popq	%r12
	popq	%r13
	popq	%r14
	popq	%r15
	retq
	.seh_endproc

	.def	"ecc200_calls::restoring::restore_surely::<=52,=288>";
	.scl	3;
	.type	32;
	.endef
	.p2align	4
"ecc200_calls::restoring::restore_surely::<=52,=288>":
.seh_proc "ecc200_calls::restoring::restore_surely::<=52,=288>"
	pushq	%r15
	.seh_pushreg %r15
	pushq	%r14
	.seh_pushreg %r14
	pushq	%r13
	.seh_pushreg %r13
	pushq	%r12
	.seh_pushreg %r12
	pushq	%rsi
	.seh_pushreg %rsi
	pushq	%rdi
	.seh_pushreg %rdi
	pushq	%rbp
	.seh_pushreg %rbp
	pushq	%rbx
	.seh_pushreg %rbx
	subq	$120, %rsp
	.seh_stackalloc 120
	movaps	%xmm6, 96(%rsp)
	.seh_savexmm %xmm6, 96
	.seh_endprologue
	movl	%r9d, %ebx
	movq	%r8, %rdi
	movl	%edx, %ebp
	movq	%rcx, %rsi
	movq	240(%rsp), %r15
	movq	232(%rsp), %r13
	movq	224(%rsp), %r12
	movw	$0, 72(%rsp)
	movq	$0, 64(%rsp)
	movzwl	(%r8), %eax
	movzwl	2(%r8), %ecx
	addl	%eax, %ecx
	shrl	$3, %ecx
	movq	%r15, 56(%rsp)
	movq	%r13, 48(%rsp)
	movq	%r12, 32(%rsp)
	movw	%cx, 40(%rsp)
	leaq	64(%rsp), %rcx
	callq	"ecc200_calls::restoring::restore_within::<=52,=288>"
	xorps	%xmm6, %xmm6
	cmpb	$0, 64(%rsp)
	je	.LBB66_1
	movzbl	66(%rsp), %eax
	cmpl	$2, %eax
	je	.LBB66_12
	cmpl	$1, %eax
	jne	.LBB66_4
	movb	$1, %al
	movzbl	67(%rsp), %edx
	xorl	%r14d, %r14d
	movb	$1, %cl
	jmp	.LBB66_14
.LBB66_1:
	xorl	%eax, %eax
	xorl	%ecx, %ecx
	xorl	%edx, %edx
	xorl	%r14d, %r14d
	jmp	.LBB66_14
.LBB66_12:
	movzbl	68(%rsp), %r14d
	movb	$2, %cl
	movb	$1, %al
	movss	70(%rsp), %xmm6
	jmp	.LBB66_13
.LBB66_4:
	movzwl	68(%rsp), %r14d
	movw	$0, 88(%rsp)
	movq	$0, 80(%rsp)
	movq	%r15, 56(%rsp)
	movq	%r13, 48(%rsp)
	movw	%r14w, 40(%rsp)
	movq	%r12, 32(%rsp)
	leaq	80(%rsp), %rcx
	movl	%ebp, %edx
	movq	%rdi, %r8
	movl	%ebx, %r9d
	callq	"ecc200_calls::restoring::restore_within::<=52,=288>"
	movb	$1, %al
	cmpb	$0, 80(%rsp)
	jne	.LBB66_10
	movq	40(%r15), %rax
	addq	$10, %r15
	incq	%rax
	.p2align	4
.LBB66_6:
	decq	%rax
	je	.LBB66_7
	cmpb	$1, (%r15)
	leaq	3(%r15), %r15
	ja	.LBB66_6
	jmp	.LBB66_9
.LBB66_7:
	xorl	%r14d, %r14d
.LBB66_9:
	testq	%rax, %rax
	setne	%al
.LBB66_10:
	xorl	%ecx, %ecx
.LBB66_13:
	xorl	%edx, %edx
.LBB66_14:
	movb	%al, (%rsi)
	movb	%cl, 2(%rsi)
	movb	%dl, 3(%rsi)
	movw	%r14w, 4(%rsi)
	movss	%xmm6, 6(%rsi)
	movaps	96(%rsp), %xmm6
	addq	$120, %rsp
	popq	%rbx
	popq	%rbp
	popq	%rdi
	popq	%rsi
	popq	%r12
	popq	%r13
	popq	%r14
	popq	%r15
	retq
	.seh_endproc

	.def	"ecc200_calls::answer::answer_words::<#d32d35a8039035b6>";
	.scl	3;
	.type	32;
	.endef
	.p2align	4
"ecc200_calls::answer::answer_words::<#d32d35a8039035b6>":
.seh_proc "ecc200_calls::answer::answer_words::<#d32d35a8039035b6>"
	pushq	%r15
	.seh_pushreg %r15
	pushq	%r14
	.seh_pushreg %r14
	pushq	%r12
	.seh_pushreg %r12
	pushq	%rsi
	.seh_pushreg %rsi
	pushq	%rdi
	.seh_pushreg %rdi
	pushq	%rbp
	.seh_pushreg %rbp
	pushq	%rbx
	.seh_pushreg %rbx
	subq	$1776, %rsp
	.seh_stackalloc 1776
	.seh_endprologue
	movq	%r9, %rsi
	movq	%r8, %r15
	movl	%edx, %ebp
	movq	%rcx, %rdi
	movzwl	12(%r8), %r12d
	addq	$20, %r15
	leaq	104(%rsp), %rcx
	movl	$1664, %r8d
	xorl	%edx, %edx
	callq	memset
	xorps	%xmm0, %xmm0
	movaps	%xmm0, 80(%rsp)
	movaps	%xmm0, 64(%rsp)
	leaq	110(%rsp), %r14
	leaq	952(%rsp), %rbx
	movq	%rbx, 40(%rsp)
	movq	%r14, 32(%rsp)
	leaq	64(%rsp), %rcx
	movl	%ebp, %edx
	movq	%r15, %r8
	movq	%r12, %r9
	callq	"dm_words::contents::reading::read_content"
	cmpb	$0, 64(%rsp)
	je	.LBB67_4
	movzbl	66(%rsp), %eax
	movzwl	68(%rsp), %r8d
	cmpl	$2, %eax
	je	.LBB67_5
	cmpl	$1, %eax
	jne	.LBB67_6
	xorl	%eax, %eax
	movw	$20, %cx
	jmp	.LBB67_16
.LBB67_4:
	movq	72(%rsp), %rax
	movq	80(%rsp), %r8
	movq	88(%rsp), %rcx
	movl	%eax, %edx
	movl	%eax, %r9d
	shrl	$8, %r9d
	shrq	$16, %rax
	movb	%dl, 104(%rsp)
	movb	%r9b, 105(%rsp)
	movl	%eax, 106(%rsp)
	movq	%r8, 944(%rsp)
	movq	%rcx, 1768(%rsp)
	movzbl	(%rdi), %r10d
	movb	%dl, 64(%rsp)
	movb	%r9b, 65(%rsp)
	movl	%eax, 66(%rsp)
	shll	$8, %r10d
	movq	%rsi, 48(%rsp)
	movq	%r10, 40(%rsp)
	movq	%rcx, 32(%rsp)
	leaq	64(%rsp), %rcx
	movq	%r14, %rdx
	movq	%rbx, %r9
	callq	"ecc200_calls::writing::write_content"
	jmp	.LBB67_17
.LBB67_5:
	movw	$21, %cx
	xorl	%eax, %eax
	jmp	.LBB67_16
.LBB67_6:
	movzwl	70(%rsp), %edx
	movzwl	%r8w, %eax
	movzbl	%al, %ecx
	leaq	.LJTI67_0(%rip), %r8
	movslq	(%r8,%rcx,4), %rcx
	addq	%r8, %rcx
	jmpq	*%rcx
.LBB67_7:
	movw	$7, %cx
	jmp	.LBB67_14
.LBB67_8:
	movw	$11, %cx
	jmp	.LBB67_14
.LBB67_9:
	movw	$9, %cx
	jmp	.LBB67_14
.LBB67_10:
	movw	$10, %cx
	jmp	.LBB67_14
.LBB67_11:
	shrl	$8, %eax
	movw	$8, %cx
	jmp	.LBB67_15
.LBB67_12:
	movw	$12, %cx
	jmp	.LBB67_14
.LBB67_13:
	movw	$13, %cx
.LBB67_14:
	xorl	%eax, %eax
.LBB67_15:
	movl	%edx, %r8d
.LBB67_16:
	movw	%cx, (%rsi)
	movw	%ax, 2(%rsi)
	movw	%r8w, 4(%rsi)
	movl	$0, 6(%rsi)
.LBB67_17:
	addq	$1776, %rsp
	popq	%rbx
	popq	%rbp
	popq	%rdi
	popq	%rsi
	popq	%r12
	popq	%r14
	popq	%r15
	retq
	.section	.rdata,"dr"
	.p2align	2, 0x0
.LJTI67_0:
	.long	.LBB67_7-.LJTI67_0
	.long	.LBB67_11-.LJTI67_0
	.long	.LBB67_9-.LJTI67_0
	.long	.LBB67_10-.LJTI67_0
	.long	.LBB67_8-.LJTI67_0
	.long	.LBB67_12-.LJTI67_0
	.long	.LBB67_13-.LJTI67_0
	.text
	.seh_endproc

	.def	"ecc200_calls::answer::answer_given::<#1120882bd96666a5>";
	.scl	3;
	.type	32;
	.endef
	.section	.rdata,"dr"
	.p2align	4, 0x0
.LCPI68_0:
	.byte	241
	.byte	241
	.byte	241
	.byte	241
	.byte	241
	.byte	241
	.byte	241
	.byte	241
	.zero	1
	.zero	1
	.zero	1
	.zero	1
	.zero	1
	.zero	1
	.zero	1
	.zero	1
.LCPI68_1:
	.short	1
	.short	1
	.short	1
	.short	1
	.short	1
	.short	1
	.short	1
	.short	1
	.text
	.p2align	4
"ecc200_calls::answer::answer_given::<#1120882bd96666a5>":
.seh_proc "ecc200_calls::answer::answer_given::<#1120882bd96666a5>"
	pushq	%r14
	.seh_pushreg %r14
	pushq	%rsi
	.seh_pushreg %rsi
	pushq	%rdi
	.seh_pushreg %rdi
	pushq	%rbx
	.seh_pushreg %rbx
	subq	$1400, %rsp
	.seh_stackalloc 1400
	movaps	%xmm6, 1376(%rsp)
	.seh_savexmm %xmm6, 1376
	.seh_endprologue
	movq	%r9, %rbx
	movq	%r8, %r14
	movq	%rcx, %rdi
	movq	1496(%rsp), %rsi
	movaps	1472(%rsp), %xmm6
	movq	1488(%rsp), %rax
	movzwl	8(%rdx), %ecx
	movw	%cx, 104(%rsp)
	movq	(%rdx), %rcx
	movq	%rcx, 96(%rsp)
	movdqu	(%rax), %xmm0
	movdqa	%xmm0, 112(%rsp)
	movq	14(%rax), %rax
	movq	%rax, 126(%rsp)
	movq	$0, 80(%rsp)
	movw	$0, 88(%rsp)
	leaq	224(%rsp), %rcx
	movl	$1152, %r8d
	xorl	%edx, %edx
	callq	memset
	pxor	%xmm0, %xmm0
	movdqu	%xmm0, 145(%rsp)
	movdqu	%xmm0, 161(%rsp)
	movdqu	%xmm0, 176(%rsp)
	movb	$0, 144(%rsp)
	movq	$0, 192(%rsp)
	leaq	144(%rsp), %rax
	movq	%rax, 64(%rsp)
	leaq	204(%rsp), %rax
	movq	%rax, 56(%rsp)
	leaq	112(%rsp), %rax
	movq	%rax, 48(%rsp)
	movups	%xmm6, 32(%rsp)
	leaq	80(%rsp), %rcx
	leaq	96(%rsp), %rdx
	movq	%r14, %r8
	movq	%rbx, %r9
	callq	"ecc200_calls::restoring::restore_given::<=104,=1152>"
	cmpb	$0, 80(%rsp)
	je	.LBB68_1
	movzbl	82(%rsp), %ecx
	movzwl	84(%rsp), %eax
	testl	%ecx, %ecx
	je	.LBB68_12
	cmpl	$2, %ecx
	jne	.LBB68_14
	movzwl	86(%rsp), %edx
	cmpb	$2, %al
	je	.LBB68_27
	movzbl	%al, %eax
	cmpl	$1, %eax
	jne	.LBB68_18
	movw	$20, %cx
	jmp	.LBB68_28
.LBB68_1:
	movzbl	100(%rsp), %edx
	movzwl	216(%rsp), %eax
	testq	%rax, %rax
	je	.LBB68_9
	cmpw	$8, %ax
	jae	.LBB68_4
	xorl	%r8d, %r8d
	xorl	%ecx, %ecx
	jmp	.LBB68_7
.LBB68_12:
	xorl	%edx, %edx
	movw	$5, %cx
	jmp	.LBB68_29
.LBB68_14:
	movzbl	83(%rsp), %edx
	movw	$6, %cx
	jmp	.LBB68_28
.LBB68_4:
	movl	%eax, %ecx
	andl	$-8, %ecx
	pxor	%xmm0, %xmm0
	xorl	%r8d, %r8d
	.p2align	4
.LBB68_5:
	movq	224(%rsp,%r8), %xmm1
	pcmpeqb	.LCPI68_0(%rip), %xmm1
	pmovzxbw	%xmm1, %xmm1
	pand	.LCPI68_1(%rip), %xmm1
	paddw	%xmm1, %xmm0
	addq	$8, %r8
	cmpq	%r8, %rcx
	jne	.LBB68_5
	pshufd	$238, %xmm0, %xmm1
	paddw	%xmm0, %xmm1
	pshufd	$85, %xmm1, %xmm0
	paddw	%xmm1, %xmm0
	movdqa	%xmm0, %xmm1
	psrld	$16, %xmm1
	paddw	%xmm0, %xmm1
	movd	%xmm1, %r8d
	cmpl	%eax, %ecx
	je	.LBB68_8
	.p2align	4
.LBB68_7:
	xorl	%r9d, %r9d
	cmpb	$-15, 224(%rsp,%rcx)
	sete	%r9b
	addl	%r9d, %r8d
	incq	%rcx
	cmpq	%rcx, %rax
	jne	.LBB68_7
.LBB68_8:
	cmpw	$31, %r8w
	ja	.LBB68_10
.LBB68_9:
	leaq	204(%rsp), %r8
	movq	%rdi, %rcx
	movq	%rsi, %r9
	callq	"ecc200_calls::answer::answer_words::<#abb34201b1c45561>"
	jmp	.LBB68_30
.LBB68_10:
	leaq	204(%rsp), %r8
	movq	%rdi, %rcx
	movq	%rsi, %r9
	callq	"ecc200_calls::answer::answer_words::<#06d3767e809611ad>"
	jmp	.LBB68_30
.LBB68_27:
	movw	$21, %cx
.LBB68_28:
	xorl	%eax, %eax
.LBB68_29:
	movw	%cx, (%rsi)
	movw	%ax, 2(%rsi)
	movw	%dx, 4(%rsi)
	movl	$0, 6(%rsi)
.LBB68_30:
	movaps	1376(%rsp), %xmm6
	addq	$1400, %rsp
	popq	%rbx
	popq	%rdi
	popq	%rsi
	popq	%r14
	retq
.LBB68_18:
	movzwl	88(%rsp), %r8d
	movzwl	%dx, %eax
	movzbl	%al, %ecx
	leaq	.LJTI68_0(%rip), %rdx
	movslq	(%rdx,%rcx,4), %rcx
	addq	%rdx, %rcx
	jmpq	*%rcx
.LBB68_19:
	movw	$7, %cx
	jmp	.LBB68_20
.LBB68_24:
	movw	$11, %cx
	jmp	.LBB68_20
.LBB68_22:
	movw	$9, %cx
	jmp	.LBB68_20
.LBB68_23:
	movw	$10, %cx
	jmp	.LBB68_20
.LBB68_21:
	shrl	$8, %eax
	movw	$8, %cx
	movl	%r8d, %edx
	jmp	.LBB68_29
.LBB68_25:
	movw	$12, %cx
	jmp	.LBB68_20
.LBB68_26:
	movw	$13, %cx
.LBB68_20:
	xorl	%eax, %eax
	movl	%r8d, %edx
	jmp	.LBB68_29
	.section	.rdata,"dr"
	.p2align	2, 0x0
.LJTI68_0:
	.long	.LBB68_19-.LJTI68_0
	.long	.LBB68_21-.LJTI68_0
	.long	.LBB68_22-.LJTI68_0
	.long	.LBB68_23-.LJTI68_0
	.long	.LBB68_24-.LJTI68_0
	.long	.LBB68_25-.LJTI68_0
	.long	.LBB68_26-.LJTI68_0
	.text
	.seh_endproc

	.def	"ecc200_calls::restoring::restore_given::<=104,=1152>";
	.scl	3;
	.type	32;
	.endef
	.p2align	4
"ecc200_calls::restoring::restore_given::<=104,=1152>":
.seh_proc "ecc200_calls::restoring::restore_given::<=104,=1152>"
	pushq	%r15
	.seh_pushreg %r15
	pushq	%r14
	.seh_pushreg %r14
	pushq	%r13
	.seh_pushreg %r13
	pushq	%r12
	.seh_pushreg %r12
	pushq	%rsi
	.seh_pushreg %rsi
	pushq	%rdi
	.seh_pushreg %rdi
	pushq	%rbp
	.seh_pushreg %rbp
	pushq	%rbx
	.seh_pushreg %rbx
	subq	$4008, %rsp
	.seh_stackalloc 4008
	.seh_endprologue
	movq	%r9, %rdi
	movq	%r8, %r14
	movq	%rcx, %rsi
	movq	4128(%rsp), %r13
	movzbl	4(%rdx), %eax
	movb	%al, 93(%rsp)
	movzbl	6(%rdx), %ebp
	movzwl	8(%rdx), %eax
	movw	%ax, 94(%rsp)
	movzwl	(%r13), %r15d
	movzwl	18(%r13), %eax
	movzbl	20(%r13), %ebx
	movw	%ax, 210(%rsp)
	movups	2(%r13), %xmm0
	movups	%xmm0, 194(%rsp)
	leaq	212(%rsp), %rcx
	movl	$1676, %r8d
	xorl	%edx, %edx
	callq	memset
	movw	%r15w, 192(%rsp)
	xorps	%xmm0, %xmm0
	movaps	%xmm0, 1888(%rsp)
	movaps	%xmm0, 1904(%rsp)
	movaps	%xmm0, 1920(%rsp)
	movaps	%xmm0, 1936(%rsp)
	movaps	%xmm0, 1952(%rsp)
	movaps	%xmm0, 1968(%rsp)
	movaps	%xmm0, 1984(%rsp)
	movaps	%xmm0, 2000(%rsp)
	movaps	%xmm0, 2016(%rsp)
	movaps	%xmm0, 2032(%rsp)
	movaps	%xmm0, 2048(%rsp)
	movaps	%xmm0, 2064(%rsp)
	movaps	%xmm0, 2080(%rsp)
	leaq	192(%rsp), %rcx
	movq	%r14, %rdx
	movq	%rdi, %r8
	callq	"ecc200_calls::modules::put_modules::<=104>"
	movq	4144(%rsp), %rdi
	movq	4136(%rsp), %r12
	testb	$1, %bl
	je	.LBB69_5
	movq	%rdi, %rbx
	addq	$2, %r13
	movq	4112(%rsp), %r14
	movw	%r15w, 2096(%rsp)
	movups	(%r13), %xmm0
	movups	%xmm0, 2098(%rsp)
	movzwl	16(%r13), %eax
	movw	%ax, 2114(%rsp)
	leaq	2116(%rsp), %rcx
	movl	$1884, %r8d
	xorl	%edx, %edx
	callq	memset
	leaq	2096(%rsp), %rdi
	movq	%rdi, %rcx
	movq	%r14, %rdx
	movq	4120(%rsp), %r8
	callq	"ecc200_calls::modules::put_modules::<=104>"
	movw	$0, 136(%rsp)
	movq	$0, 128(%rsp)
	testb	%bpl, %bpl
	je	.LBB69_2
	movq	%rbx, 48(%rsp)
	movq	%r12, 40(%rsp)
	movq	%rdi, 32(%rsp)
	leaq	128(%rsp), %rcx
	leaq	192(%rsp), %r8
	movzbl	93(%rsp), %edx
	movb	$1, %r9b
	callq	"ecc200_calls::restoring::restore_surely::<=104,=1152>"
	jmp	.LBB69_4
.LBB69_5:
	movw	$0, 104(%rsp)
	movq	$0, 96(%rsp)
	testb	%bpl, %bpl
	je	.LBB69_6
	movq	%rdi, 48(%rsp)
	movq	%r12, 40(%rsp)
	movq	$0, 32(%rsp)
	leaq	96(%rsp), %rcx
	leaq	192(%rsp), %r8
	movzbl	93(%rsp), %edx
	xorl	%r9d, %r9d
	callq	"ecc200_calls::restoring::restore_surely::<=104,=1152>"
	movzbl	96(%rsp), %eax
	movzbl	98(%rsp), %ecx
	movzbl	99(%rsp), %edx
	movss	100(%rsp), %xmm0
	movzwl	104(%rsp), %r8d
	jmp	.LBB69_8
.LBB69_2:
	movq	%rbx, 56(%rsp)
	movq	%r12, 48(%rsp)
	movzwl	94(%rsp), %eax
	movw	%ax, 40(%rsp)
	movq	%rdi, 32(%rsp)
	leaq	128(%rsp), %rcx
	leaq	192(%rsp), %r8
	movzbl	93(%rsp), %edx
	movb	$1, %r9b
	callq	"ecc200_calls::restoring::restore_within::<=104,=1152>"
.LBB69_4:
	movzbl	128(%rsp), %eax
	movzbl	130(%rsp), %ecx
	movzbl	131(%rsp), %edx
	movss	132(%rsp), %xmm0
	movzwl	136(%rsp), %r8d
	jmp	.LBB69_8
.LBB69_6:
	leaq	1888(%rsp), %rax
	leaq	8(%rdi), %rcx
	leaq	48(%rdi), %rdx
	movw	$0, 120(%rsp)
	movq	$0, 112(%rsp)
	movzwl	206(%rsp), %r8d
	movl	208(%rsp), %r9d
	movq	192(%rsp), %r10
	movq	198(%rsp), %r11
	movq	%r11, 6(%r12)
	movq	%r10, (%r12)
	movw	%r8w, 14(%r12)
	movl	%r9d, 16(%r12)
	addq	$20, %r12
	movl	208(%rsp), %r8d
	movl	%r8d, 144(%rsp)
	movaps	192(%rsp), %xmm0
	movaps	%xmm0, 128(%rsp)
	leaq	224(%rsp), %r8
	movl	$0, 148(%rsp)
	movq	%r8, 152(%rsp)
	movq	$104, 160(%rsp)
	movq	%rax, 168(%rsp)
	movq	$104, 176(%rsp)
	movq	%rdx, 72(%rsp)
	movq	%rcx, 64(%rsp)
	movq	%rdi, 56(%rsp)
	movq	%r12, 48(%rsp)
	movzwl	94(%rsp), %eax
	movw	%ax, 40(%rsp)
	movzbl	93(%rsp), %eax
	movb	%al, 32(%rsp)
	leaq	112(%rsp), %rcx
	leaq	128(%rsp), %rdx
	xorl	%r8d, %r8d
	xorl	%r9d, %r9d
	callq	"dm_symbol::symbol::reading::restore"
	movzbl	112(%rsp), %eax
	movzbl	114(%rsp), %ecx
	movzbl	115(%rsp), %edx
	movss	116(%rsp), %xmm0
	movzwl	120(%rsp), %r8d
.LBB69_8:
	movb	%al, (%rsi)
	movb	%cl, 2(%rsi)
	movb	%dl, 3(%rsi)
	movss	%xmm0, 4(%rsi)
	movw	%r8w, 8(%rsi)
	addq	$4008, %rsp
	popq	%rbx
	popq	%rbp
	popq	%rdi
	popq	%rsi
	popq	%r12
	popq	%r13
	popq	%r14
	popq	%r15
	retq
	.seh_endproc

	.def	"ecc200_calls::restoring::restore_within::<=104,=1152>";
	.scl	3;
	.type	32;
	.endef
	.p2align	4
"ecc200_calls::restoring::restore_within::<=104,=1152>":
.seh_proc "ecc200_calls::restoring::restore_within::<=104,=1152>"
	pushq	%r15
	.seh_pushreg %r15
	pushq	%r14
	.seh_pushreg %r14
	pushq	%r13
	.seh_pushreg %r13
	pushq	%r12
	.seh_pushreg %r12
	pushq	%rsi
	.seh_pushreg %rsi
	pushq	%rdi
	.seh_pushreg %rdi
	pushq	%rbp
	.seh_pushreg %rbp
	pushq	%rbx
	.seh_pushreg %rbx
	subq	$280, %rsp
	.seh_stackalloc 280
	movdqa	%xmm6, 256(%rsp)
	.seh_savexmm %xmm6, 256
	.seh_endprologue
	movl	%edx, %ebx
	movq	%rcx, %rsi
	movq	408(%rsp), %r12
	movzwl	392(%rsp), %ebp
	movq	400(%rsp), %rdi
	leaq	8(%r12), %r13
	movw	$0, 88(%rsp)
	movq	$0, 80(%rsp)
	movl	16(%r8), %eax
	movq	(%r8), %rcx
	movq	8(%r8), %rdx
	movq	%rdx, 8(%rdi)
	movq	%rcx, (%rdi)
	movl	%eax, 16(%rdi)
	addq	$20, %rdi
	movl	16(%r8), %eax
	movl	%eax, 176(%rsp)
	movups	(%r8), %xmm0
	movaps	%xmm0, 160(%rsp)
	leaq	32(%r8), %rax
	addq	$1696, %r8
	movl	$0, 180(%rsp)
	movaps	%xmm0, 96(%rsp)
	movq	176(%rsp), %rcx
	movq	%rcx, 112(%rsp)
	movq	%rax, 120(%rsp)
	movq	$104, 128(%rsp)
	movq	%r8, 136(%rsp)
	movq	$104, 144(%rsp)
	testb	%r9b, %r9b
	je	.LBB70_1
	movq	384(%rsp), %rax
	movl	16(%rax), %ecx
	movl	%ecx, 208(%rsp)
	movups	(%rax), %xmm0
	movaps	%xmm0, 192(%rsp)
	leaq	32(%rax), %rcx
	addq	$1696, %rax
	movl	$0, 212(%rsp)
	movq	%rcx, 216(%rsp)
	movq	$104, 224(%rsp)
	movq	%rax, 232(%rsp)
	movq	$104, 240(%rsp)
	leaq	96(%rsp), %rcx
	movb	$1, %r14b
	leaq	192(%rsp), %r15
	movb	$1, %dl
	movq	%r15, %r8
	callq	"dm_layout::symbols::border::border_faults"
	cmpw	%ax, %bp
	jae	.LBB70_4
	xorl	%ecx, %ecx
	movzwl	%ax, %eax
	movd	%eax, %xmm6
	xorl	%edx, %edx
	xorl	%ebp, %ebp
	jmp	.LBB70_12
.LBB70_1:
	leaq	48(%r12), %rax
	movq	%rax, 72(%rsp)
	movq	%r13, 64(%rsp)
	movq	%r12, 56(%rsp)
	movq	%rdi, 48(%rsp)
	movw	%bp, 40(%rsp)
	movb	%bl, 32(%rsp)
	leaq	80(%rsp), %rcx
	leaq	96(%rsp), %rdx
	xorl	%r8d, %r8d
	xorl	%r9d, %r9d
	callq	"dm_symbol::symbol::reading::restore"
	movzbl	80(%rsp), %r14d
	movzbl	82(%rsp), %ebp
	movzbl	83(%rsp), %edx
	movd	84(%rsp), %xmm6
	movzwl	88(%rsp), %ecx
	jmp	.LBB70_12
.LBB70_4:
	movw	%ax, 48(%r12)
	movzwl	110(%rsp), %eax
	addw	108(%rsp), %ax
	movzwl	%ax, %r14d
	leaq	96(%rsp), %rcx
	movq	%rdi, %rdx
	callq	"dm_layout::symbols::placing::lift_to"
	movb	$0, (%r12)
	movq	%r13, 40(%rsp)
	movq	%r15, 32(%rsp)
	xorl	%ebp, %ebp
	leaq	160(%rsp), %rcx
	movq	%rdi, %rdx
	movq	%r14, %r8
	xorl	%r9d, %r9d
	callq	"dm_symbol::symbol::reading::restore_doubtful"
	pxor	%xmm6, %xmm6
	xorl	%ecx, %ecx
	cmpb	$1, %al
	jne	.LBB70_5
	testb	%bl, %bl
	je	.LBB70_7
	movl	%edx, %ebx
	movq	%r13, 40(%rsp)
	movq	%r14, 32(%rsp)
	leaq	96(%rsp), %rcx
	movb	$1, %bpl
	leaq	192(%rsp), %r8
	movb	$1, %dl
	movq	%rdi, %r9
	callq	"dm_symbol::symbol::dealing::restore_restarted"
	testb	%al, %al
	je	.LBB70_9
	movb	$1, (%r12)
	xorl	%ecx, %ecx
	xorl	%edx, %edx
	xorl	%ebp, %ebp
	jmp	.LBB70_11
.LBB70_5:
	xorl	%edx, %edx
.LBB70_11:
	xorl	%r14d, %r14d
	jmp	.LBB70_12
.LBB70_7:
	movb	$1, %bpl
	xorl	%ecx, %ecx
	movb	$1, %r14b
	jmp	.LBB70_12
.LBB70_9:
	xorl	%ecx, %ecx
	movb	$1, %r14b
	movl	%ebx, %edx
.LBB70_12:
	movb	%r14b, (%rsi)
	movb	%bpl, 2(%rsi)
	movb	%dl, 3(%rsi)
	movd	%xmm6, 4(%rsi)
	movw	%cx, 8(%rsi)
	movaps	256(%rsp), %xmm6
	addq	$280, %rsp
	popq	%rbx
	popq	%rbp
	popq	%rdi
	popq	%rsi
	popq	%r12
	popq	%r13
	popq	%r14
	popq	%r15
	retq
	.seh_endproc

	.def	"ecc200_calls::restoring::restore_surely::<=104,=1152>";
	.scl	3;
	.type	32;
	.endef
	.p2align	4
"ecc200_calls::restoring::restore_surely::<=104,=1152>":
.seh_proc "ecc200_calls::restoring::restore_surely::<=104,=1152>"
	pushq	%r15
	.seh_pushreg %r15
	pushq	%r14
	.seh_pushreg %r14
	pushq	%r13
	.seh_pushreg %r13
	pushq	%r12
	.seh_pushreg %r12
	pushq	%rsi
	.seh_pushreg %rsi
	pushq	%rdi
	.seh_pushreg %rdi
	pushq	%rbp
	.seh_pushreg %rbp
	pushq	%rbx
	.seh_pushreg %rbx
	subq	$120, %rsp
	.seh_stackalloc 120
	movaps	%xmm6, 96(%rsp)
	.seh_savexmm %xmm6, 96
	.seh_endprologue
	movl	%r9d, %ebx
	movq	%r8, %rdi
	movl	%edx, %ebp
	movq	%rcx, %rsi
	movq	240(%rsp), %r15
	movq	232(%rsp), %r13
	movq	224(%rsp), %r12
	movw	$0, 72(%rsp)
	movq	$0, 64(%rsp)
	movzwl	(%r8), %eax
	movzwl	2(%r8), %ecx
	addl	%eax, %ecx
	shrl	$3, %ecx
	movq	%r15, 56(%rsp)
	movq	%r13, 48(%rsp)
	movq	%r12, 32(%rsp)
	movw	%cx, 40(%rsp)
	leaq	64(%rsp), %rcx
	callq	"ecc200_calls::restoring::restore_within::<=104,=1152>"
	xorps	%xmm6, %xmm6
	cmpb	$0, 64(%rsp)
	je	.LBB71_1
	movzbl	66(%rsp), %eax
	cmpl	$2, %eax
	je	.LBB71_12
	cmpl	$1, %eax
	jne	.LBB71_4
	movb	$1, %al
	movzbl	67(%rsp), %edx
	xorl	%r14d, %r14d
	movb	$1, %cl
	jmp	.LBB71_14
.LBB71_1:
	xorl	%eax, %eax
	xorl	%ecx, %ecx
	xorl	%edx, %edx
	xorl	%r14d, %r14d
	jmp	.LBB71_14
.LBB71_12:
	movzbl	68(%rsp), %r14d
	movb	$2, %cl
	movb	$1, %al
	movss	70(%rsp), %xmm6
	jmp	.LBB71_13
.LBB71_4:
	movzwl	68(%rsp), %r14d
	movw	$0, 88(%rsp)
	movq	$0, 80(%rsp)
	movq	%r15, 56(%rsp)
	movq	%r13, 48(%rsp)
	movw	%r14w, 40(%rsp)
	movq	%r12, 32(%rsp)
	leaq	80(%rsp), %rcx
	movl	%ebp, %edx
	movq	%rdi, %r8
	movl	%ebx, %r9d
	callq	"ecc200_calls::restoring::restore_within::<=104,=1152>"
	movb	$1, %al
	cmpb	$0, 80(%rsp)
	jne	.LBB71_10
	movq	40(%r15), %rax
	addq	$10, %r15
	incq	%rax
	.p2align	4
.LBB71_6:
	decq	%rax
	je	.LBB71_7
	cmpb	$1, (%r15)
	leaq	3(%r15), %r15
	ja	.LBB71_6
	jmp	.LBB71_9
.LBB71_7:
	xorl	%r14d, %r14d
.LBB71_9:
	testq	%rax, %rax
	setne	%al
.LBB71_10:
	xorl	%ecx, %ecx
.LBB71_13:
	xorl	%edx, %edx
.LBB71_14:
	movb	%al, (%rsi)
	movb	%cl, 2(%rsi)
	movb	%dl, 3(%rsi)
	movw	%r14w, 4(%rsi)
	movss	%xmm6, 6(%rsi)
	movaps	96(%rsp), %xmm6
	addq	$120, %rsp
	popq	%rbx
	popq	%rbp
	popq	%rdi
	popq	%rsi
	popq	%r12
	popq	%r13
	popq	%r14
	popq	%r15
	retq
	.seh_endproc

	.def	"ecc200_calls::answer::answer_words::<#abb34201b1c45561>";
	.scl	3;
	.type	32;
	.endef
	.p2align	4
"ecc200_calls::answer::answer_words::<#abb34201b1c45561>":
.seh_proc "ecc200_calls::answer::answer_words::<#abb34201b1c45561>"
	pushq	%r15
	.seh_pushreg %r15
	pushq	%r14
	.seh_pushreg %r14
	pushq	%r12
	.seh_pushreg %r12
	pushq	%rsi
	.seh_pushreg %rsi
	pushq	%rdi
	.seh_pushreg %rdi
	pushq	%rbp
	.seh_pushreg %rbp
	pushq	%rbx
	.seh_pushreg %rbx
	subq	$3648, %rsp
	.seh_stackalloc 3648
	.seh_endprologue
	movq	%r9, %rsi
	movq	%r8, %r15
	movl	%edx, %ebp
	movq	%rcx, %rdi
	movzwl	12(%r8), %r12d
	addq	$20, %r15
	leaq	96(%rsp), %rcx
	movl	$3544, %r8d
	xorl	%edx, %edx
	callq	memset
	xorps	%xmm0, %xmm0
	movaps	%xmm0, 80(%rsp)
	movaps	%xmm0, 64(%rsp)
	leaq	102(%rsp), %r14
	leaq	3392(%rsp), %rbx
	movq	%rbx, 40(%rsp)
	movq	%r14, 32(%rsp)
	leaq	64(%rsp), %rcx
	movl	%ebp, %edx
	movq	%r15, %r8
	movq	%r12, %r9
	callq	"dm_words::contents::reading::read_content"
	cmpb	$0, 64(%rsp)
	je	.LBB72_4
	movzbl	66(%rsp), %eax
	movzwl	68(%rsp), %r8d
	cmpl	$2, %eax
	je	.LBB72_5
	cmpl	$1, %eax
	jne	.LBB72_6
	xorl	%eax, %eax
	movw	$20, %cx
	jmp	.LBB72_16
.LBB72_4:
	movq	72(%rsp), %rax
	movq	80(%rsp), %r8
	movq	88(%rsp), %rcx
	movl	%eax, %edx
	movl	%eax, %r9d
	shrl	$8, %r9d
	shrq	$16, %rax
	movb	%dl, 96(%rsp)
	movb	%r9b, 97(%rsp)
	movl	%eax, 98(%rsp)
	movq	%r8, 3384(%rsp)
	movq	%rcx, 3640(%rsp)
	movzbl	(%rdi), %r10d
	movb	%dl, 64(%rsp)
	movb	%r9b, 65(%rsp)
	movl	%eax, 66(%rsp)
	shll	$8, %r10d
	movq	%rsi, 48(%rsp)
	movq	%r10, 40(%rsp)
	movq	%rcx, 32(%rsp)
	leaq	64(%rsp), %rcx
	movq	%r14, %rdx
	movq	%rbx, %r9
	callq	"ecc200_calls::writing::write_content"
	jmp	.LBB72_17
.LBB72_5:
	movw	$21, %cx
	xorl	%eax, %eax
	jmp	.LBB72_16
.LBB72_6:
	movzwl	70(%rsp), %edx
	movzwl	%r8w, %eax
	movzbl	%al, %ecx
	leaq	.LJTI72_0(%rip), %r8
	movslq	(%r8,%rcx,4), %rcx
	addq	%r8, %rcx
	jmpq	*%rcx
.LBB72_7:
	movw	$7, %cx
	jmp	.LBB72_14
.LBB72_8:
	movw	$11, %cx
	jmp	.LBB72_14
.LBB72_9:
	movw	$9, %cx
	jmp	.LBB72_14
.LBB72_10:
	movw	$10, %cx
	jmp	.LBB72_14
.LBB72_11:
	shrl	$8, %eax
	movw	$8, %cx
	jmp	.LBB72_15
.LBB72_12:
	movw	$12, %cx
	jmp	.LBB72_14
.LBB72_13:
	movw	$13, %cx
.LBB72_14:
	xorl	%eax, %eax
.LBB72_15:
	movl	%edx, %r8d
.LBB72_16:
	movw	%cx, (%rsi)
	movw	%ax, 2(%rsi)
	movw	%r8w, 4(%rsi)
	movl	$0, 6(%rsi)
.LBB72_17:
	addq	$3648, %rsp
	popq	%rbx
	popq	%rbp
	popq	%rdi
	popq	%rsi
	popq	%r12
	popq	%r14
	popq	%r15
	retq
	.section	.rdata,"dr"
	.p2align	2, 0x0
.LJTI72_0:
	.long	.LBB72_7-.LJTI72_0
	.long	.LBB72_11-.LJTI72_0
	.long	.LBB72_9-.LJTI72_0
	.long	.LBB72_10-.LJTI72_0
	.long	.LBB72_8-.LJTI72_0
	.long	.LBB72_12-.LJTI72_0
	.long	.LBB72_13-.LJTI72_0
	.text
	.seh_endproc

	.def	"ecc200_calls::answer::answer_words::<#06d3767e809611ad>";
	.scl	3;
	.type	32;
	.endef
	.p2align	4
"ecc200_calls::answer::answer_words::<#06d3767e809611ad>":
.seh_proc "ecc200_calls::answer::answer_words::<#06d3767e809611ad>"
	pushq	%r15
	.seh_pushreg %r15
	pushq	%r14
	.seh_pushreg %r14
	pushq	%r12
	.seh_pushreg %r12
	pushq	%rsi
	.seh_pushreg %rsi
	pushq	%rdi
	.seh_pushreg %rdi
	pushq	%rbp
	.seh_pushreg %rbp
	pushq	%rbx
	.seh_pushreg %rbx
	movl	$6672, %eax
	callq	___chkstk_ms
	subq	%rax, %rsp
	.seh_stackalloc 6672
	.seh_endprologue
	movq	%r9, %rsi
	movq	%r8, %r15
	movl	%edx, %ebp
	movq	%rcx, %rdi
	movzwl	12(%r8), %r12d
	addq	$20, %r15
	leaq	104(%rsp), %rcx
	movl	$6560, %r8d
	xorl	%edx, %edx
	callq	memset
	xorps	%xmm0, %xmm0
	movaps	%xmm0, 80(%rsp)
	movaps	%xmm0, 64(%rsp)
	leaq	110(%rsp), %r14
	leaq	3400(%rsp), %rbx
	movq	%rbx, 40(%rsp)
	movq	%r14, 32(%rsp)
	leaq	64(%rsp), %rcx
	movl	%ebp, %edx
	movq	%r15, %r8
	movq	%r12, %r9
	callq	"dm_words::contents::reading::read_content"
	cmpb	$0, 64(%rsp)
	je	.LBB73_4
	movzbl	66(%rsp), %eax
	movzwl	68(%rsp), %r8d
	cmpl	$2, %eax
	je	.LBB73_5
	cmpl	$1, %eax
	jne	.LBB73_6
	xorl	%eax, %eax
	movw	$20, %cx
	jmp	.LBB73_16
.LBB73_4:
	movq	72(%rsp), %rax
	movq	80(%rsp), %r8
	movq	88(%rsp), %rcx
	movl	%eax, %edx
	movl	%eax, %r9d
	shrl	$8, %r9d
	shrq	$16, %rax
	movb	%dl, 104(%rsp)
	movb	%r9b, 105(%rsp)
	movl	%eax, 106(%rsp)
	movq	%r8, 3392(%rsp)
	movq	%rcx, 6664(%rsp)
	movzbl	(%rdi), %r10d
	movb	%dl, 64(%rsp)
	movb	%r9b, 65(%rsp)
	movl	%eax, 66(%rsp)
	shll	$8, %r10d
	movq	%rsi, 48(%rsp)
	movq	%r10, 40(%rsp)
	movq	%rcx, 32(%rsp)
	leaq	64(%rsp), %rcx
	movq	%r14, %rdx
	movq	%rbx, %r9
	callq	"ecc200_calls::writing::write_content"
	jmp	.LBB73_17
.LBB73_5:
	movw	$21, %cx
	xorl	%eax, %eax
	jmp	.LBB73_16
.LBB73_6:
	movzwl	70(%rsp), %edx
	movzwl	%r8w, %eax
	movzbl	%al, %ecx
	leaq	.LJTI73_0(%rip), %r8
	movslq	(%r8,%rcx,4), %rcx
	addq	%r8, %rcx
	jmpq	*%rcx
.LBB73_7:
	movw	$7, %cx
	jmp	.LBB73_14
.LBB73_8:
	movw	$11, %cx
	jmp	.LBB73_14
.LBB73_9:
	movw	$9, %cx
	jmp	.LBB73_14
.LBB73_10:
	movw	$10, %cx
	jmp	.LBB73_14
.LBB73_11:
	shrl	$8, %eax
	movw	$8, %cx
	jmp	.LBB73_15
.LBB73_12:
	movw	$12, %cx
	jmp	.LBB73_14
.LBB73_13:
	movw	$13, %cx
.LBB73_14:
	xorl	%eax, %eax
.LBB73_15:
	movl	%edx, %r8d
.LBB73_16:
	movw	%cx, (%rsi)
	movw	%ax, 2(%rsi)
	movw	%r8w, 4(%rsi)
	movl	$0, 6(%rsi)
.LBB73_17:
	addq	$6672, %rsp
	popq	%rbx
	popq	%rbp
	popq	%rdi
	popq	%rsi
	popq	%r12
	popq	%r14
	popq	%r15
	retq
	.section	.rdata,"dr"
	.p2align	2, 0x0
.LJTI73_0:
	.long	.LBB73_7-.LJTI73_0
	.long	.LBB73_11-.LJTI73_0
	.long	.LBB73_9-.LJTI73_0
	.long	.LBB73_10-.LJTI73_0
	.long	.LBB73_8-.LJTI73_0
	.long	.LBB73_12-.LJTI73_0
	.long	.LBB73_13-.LJTI73_0
	.text
	.seh_endproc

	.def	"ecc200_calls::answer::answer_given::<#c193b66836f70129>";
	.scl	3;
	.type	32;
	.endef
	.section	.rdata,"dr"
	.p2align	4, 0x0
.LCPI74_0:
	.byte	241
	.byte	241
	.byte	241
	.byte	241
	.byte	241
	.byte	241
	.byte	241
	.byte	241
	.zero	1
	.zero	1
	.zero	1
	.zero	1
	.zero	1
	.zero	1
	.zero	1
	.zero	1
.LCPI74_1:
	.short	1
	.short	1
	.short	1
	.short	1
	.short	1
	.short	1
	.short	1
	.short	1
	.text
	.p2align	4
"ecc200_calls::answer::answer_given::<#c193b66836f70129>":
.seh_proc "ecc200_calls::answer::answer_given::<#c193b66836f70129>"
	pushq	%r14
	.seh_pushreg %r14
	pushq	%rsi
	.seh_pushreg %rsi
	pushq	%rdi
	.seh_pushreg %rdi
	pushq	%rbx
	.seh_pushreg %rbx
	subq	$2424, %rsp
	.seh_stackalloc 2424
	movaps	%xmm6, 2400(%rsp)
	.seh_savexmm %xmm6, 2400
	.seh_endprologue
	movq	%r9, %rbx
	movq	%r8, %r14
	movq	%rcx, %rdi
	movq	2520(%rsp), %rsi
	movaps	2496(%rsp), %xmm6
	movq	2512(%rsp), %rax
	movzwl	8(%rdx), %ecx
	movw	%cx, 104(%rsp)
	movq	(%rdx), %rcx
	movq	%rcx, 96(%rsp)
	movdqu	(%rax), %xmm0
	movdqa	%xmm0, 112(%rsp)
	movq	14(%rax), %rax
	movq	%rax, 126(%rsp)
	movq	$0, 80(%rsp)
	movw	$0, 88(%rsp)
	leaq	222(%rsp), %rcx
	movl	$2178, %r8d
	xorl	%edx, %edx
	callq	memset
	pxor	%xmm0, %xmm0
	movdqu	%xmm0, 145(%rsp)
	movdqu	%xmm0, 161(%rsp)
	movdqu	%xmm0, 176(%rsp)
	movb	$0, 144(%rsp)
	movq	$0, 192(%rsp)
	leaq	144(%rsp), %rax
	movq	%rax, 64(%rsp)
	leaq	202(%rsp), %rax
	movq	%rax, 56(%rsp)
	leaq	112(%rsp), %rax
	movq	%rax, 48(%rsp)
	movups	%xmm6, 32(%rsp)
	leaq	80(%rsp), %rcx
	leaq	96(%rsp), %rdx
	movq	%r14, %r8
	movq	%rbx, %r9
	callq	"ecc200_calls::restoring::restore_given::<=144,=2178>"
	cmpb	$0, 80(%rsp)
	je	.LBB74_1
	movzbl	82(%rsp), %ecx
	movzwl	84(%rsp), %eax
	testl	%ecx, %ecx
	je	.LBB74_12
	cmpl	$2, %ecx
	jne	.LBB74_14
	movzwl	86(%rsp), %edx
	cmpb	$2, %al
	je	.LBB74_27
	movzbl	%al, %eax
	cmpl	$1, %eax
	jne	.LBB74_18
	movw	$20, %cx
	jmp	.LBB74_28
.LBB74_1:
	movzbl	100(%rsp), %edx
	movzwl	214(%rsp), %eax
	testq	%rax, %rax
	je	.LBB74_9
	cmpw	$8, %ax
	jae	.LBB74_4
	xorl	%r8d, %r8d
	xorl	%ecx, %ecx
	jmp	.LBB74_7
.LBB74_12:
	xorl	%edx, %edx
	movw	$5, %cx
	jmp	.LBB74_29
.LBB74_14:
	movzbl	83(%rsp), %edx
	movw	$6, %cx
	jmp	.LBB74_28
.LBB74_4:
	movl	%eax, %ecx
	andl	$-8, %ecx
	pxor	%xmm0, %xmm0
	xorl	%r8d, %r8d
	.p2align	4
.LBB74_5:
	movq	222(%rsp,%r8), %xmm1
	pcmpeqb	.LCPI74_0(%rip), %xmm1
	pmovzxbw	%xmm1, %xmm1
	pand	.LCPI74_1(%rip), %xmm1
	paddw	%xmm1, %xmm0
	addq	$8, %r8
	cmpq	%r8, %rcx
	jne	.LBB74_5
	pshufd	$238, %xmm0, %xmm1
	paddw	%xmm0, %xmm1
	pshufd	$85, %xmm1, %xmm0
	paddw	%xmm1, %xmm0
	movdqa	%xmm0, %xmm1
	psrld	$16, %xmm1
	paddw	%xmm0, %xmm1
	movd	%xmm1, %r8d
	cmpl	%eax, %ecx
	je	.LBB74_8
	.p2align	4
.LBB74_7:
	xorl	%r9d, %r9d
	cmpb	$-15, 222(%rsp,%rcx)
	sete	%r9b
	addl	%r9d, %r8d
	incq	%rcx
	cmpq	%rcx, %rax
	jne	.LBB74_7
.LBB74_8:
	cmpw	$31, %r8w
	ja	.LBB74_10
.LBB74_9:
	leaq	202(%rsp), %r8
	movq	%rdi, %rcx
	movq	%rsi, %r9
	callq	"ecc200_calls::answer::answer_words::<#c41e22b9ba7768f4>"
	jmp	.LBB74_30
.LBB74_10:
	leaq	202(%rsp), %r8
	movq	%rdi, %rcx
	movq	%rsi, %r9
	callq	"ecc200_calls::answer::answer_words::<#bcaba02e1eec002d>"
	jmp	.LBB74_30
.LBB74_27:
	movw	$21, %cx
.LBB74_28:
	xorl	%eax, %eax
.LBB74_29:
	movw	%cx, (%rsi)
	movw	%ax, 2(%rsi)
	movw	%dx, 4(%rsi)
	movl	$0, 6(%rsi)
.LBB74_30:
	movaps	2400(%rsp), %xmm6
	addq	$2424, %rsp
	popq	%rbx
	popq	%rdi
	popq	%rsi
	popq	%r14
	retq
.LBB74_18:
	movzwl	88(%rsp), %r8d
	movzwl	%dx, %eax
	movzbl	%al, %ecx
	leaq	.LJTI74_0(%rip), %rdx
	movslq	(%rdx,%rcx,4), %rcx
	addq	%rdx, %rcx
	jmpq	*%rcx
.LBB74_19:
	movw	$7, %cx
	jmp	.LBB74_20
.LBB74_24:
	movw	$11, %cx
	jmp	.LBB74_20
.LBB74_22:
	movw	$9, %cx
	jmp	.LBB74_20
.LBB74_23:
	movw	$10, %cx
	jmp	.LBB74_20
.LBB74_21:
	shrl	$8, %eax
	movw	$8, %cx
	movl	%r8d, %edx
	jmp	.LBB74_29
.LBB74_25:
	movw	$12, %cx
	jmp	.LBB74_20
.LBB74_26:
	movw	$13, %cx
.LBB74_20:
	xorl	%eax, %eax
	movl	%r8d, %edx
	jmp	.LBB74_29
	.section	.rdata,"dr"
	.p2align	2, 0x0
.LJTI74_0:
	.long	.LBB74_19-.LJTI74_0
	.long	.LBB74_21-.LJTI74_0
	.long	.LBB74_22-.LJTI74_0
	.long	.LBB74_23-.LJTI74_0
	.long	.LBB74_24-.LJTI74_0
	.long	.LBB74_25-.LJTI74_0
	.long	.LBB74_26-.LJTI74_0
	.text
	.seh_endproc

	.def	"ecc200_calls::restoring::restore_given::<=144,=2178>";
	.scl	3;
	.type	32;
	.endef
	.p2align	4
"ecc200_calls::restoring::restore_given::<=144,=2178>":
.seh_proc "ecc200_calls::restoring::restore_given::<=144,=2178>"
	pushq	%r15
	.seh_pushreg %r15
	pushq	%r14
	.seh_pushreg %r14
	pushq	%r13
	.seh_pushreg %r13
	pushq	%r12
	.seh_pushreg %r12
	pushq	%rsi
	.seh_pushreg %rsi
	pushq	%rdi
	.seh_pushreg %rdi
	pushq	%rbp
	.seh_pushreg %rbp
	pushq	%rbx
	.seh_pushreg %rbx
	movl	$5448, %eax
	callq	___chkstk_ms
	subq	%rax, %rsp
	.seh_stackalloc 5448
	.seh_endprologue
	movq	%r9, %r14
	movq	%r8, %r15
	movq	%rcx, %rsi
	movq	5568(%rsp), %r13
	movzbl	4(%rdx), %eax
	movb	%al, 93(%rsp)
	movzbl	6(%rdx), %ebp
	movzwl	8(%rdx), %eax
	movw	%ax, 94(%rsp)
	movzwl	(%r13), %ebx
	movzwl	18(%r13), %eax
	movzbl	20(%r13), %edi
	movw	%ax, 210(%rsp)
	movups	2(%r13), %xmm0
	movups	%xmm0, 194(%rsp)
	leaq	212(%rsp), %rcx
	movl	$2316, %r8d
	xorl	%edx, %edx
	callq	memset
	movw	%bx, 192(%rsp)
	leaq	2528(%rsp), %rcx
	movl	$288, %r8d
	xorl	%edx, %edx
	callq	memset
	leaq	192(%rsp), %rcx
	movq	%r15, %rdx
	movq	%r14, %r8
	callq	"ecc200_calls::modules::put_modules::<=144>"
	movq	5584(%rsp), %r14
	movq	5576(%rsp), %r12
	testb	$1, %dil
	je	.LBB75_5
	addq	$2, %r13
	movq	5552(%rsp), %r15
	movw	%bx, 2816(%rsp)
	movups	(%r13), %xmm0
	movups	%xmm0, 2818(%rsp)
	movzwl	16(%r13), %eax
	movw	%ax, 2834(%rsp)
	leaq	2836(%rsp), %rcx
	movl	$2604, %r8d
	xorl	%edx, %edx
	callq	memset
	leaq	2816(%rsp), %rdi
	movq	%rdi, %rcx
	movq	%r15, %rdx
	movq	5560(%rsp), %r8
	callq	"ecc200_calls::modules::put_modules::<=144>"
	movw	$0, 136(%rsp)
	movq	$0, 128(%rsp)
	testb	%bpl, %bpl
	je	.LBB75_2
	movq	%r14, 48(%rsp)
	movq	%r12, 40(%rsp)
	movq	%rdi, 32(%rsp)
	leaq	128(%rsp), %rcx
	leaq	192(%rsp), %r8
	movzbl	93(%rsp), %edx
	movb	$1, %r9b
	callq	"ecc200_calls::restoring::restore_surely::<=144,=2178>"
	jmp	.LBB75_4
.LBB75_5:
	movw	$0, 104(%rsp)
	movq	$0, 96(%rsp)
	testb	%bpl, %bpl
	je	.LBB75_6
	movq	%r14, 48(%rsp)
	movq	%r12, 40(%rsp)
	movq	$0, 32(%rsp)
	leaq	96(%rsp), %rcx
	leaq	192(%rsp), %r8
	movzbl	93(%rsp), %edx
	xorl	%r9d, %r9d
	callq	"ecc200_calls::restoring::restore_surely::<=144,=2178>"
	movzbl	96(%rsp), %eax
	movzbl	98(%rsp), %ecx
	movzbl	99(%rsp), %edx
	movss	100(%rsp), %xmm0
	movzwl	104(%rsp), %r8d
	jmp	.LBB75_8
.LBB75_2:
	movq	%r14, 56(%rsp)
	movq	%r12, 48(%rsp)
	movzwl	94(%rsp), %eax
	movw	%ax, 40(%rsp)
	movq	%rdi, 32(%rsp)
	leaq	128(%rsp), %rcx
	leaq	192(%rsp), %r8
	movzbl	93(%rsp), %edx
	movb	$1, %r9b
	callq	"ecc200_calls::restoring::restore_within::<=144,=2178>"
.LBB75_4:
	movzbl	128(%rsp), %eax
	movzbl	130(%rsp), %ecx
	movzbl	131(%rsp), %edx
	movss	132(%rsp), %xmm0
	movzwl	136(%rsp), %r8d
	jmp	.LBB75_8
.LBB75_6:
	leaq	8(%r14), %rax
	leaq	48(%r14), %rcx
	movw	$0, 120(%rsp)
	movq	$0, 112(%rsp)
	movzwl	206(%rsp), %edx
	movl	208(%rsp), %r8d
	movq	192(%rsp), %r9
	movq	198(%rsp), %r10
	movq	%r10, 6(%r12)
	movq	%r9, (%r12)
	movw	%dx, 14(%r12)
	movl	%r8d, 16(%r12)
	addq	$20, %r12
	movl	208(%rsp), %edx
	movl	%edx, 144(%rsp)
	movaps	192(%rsp), %xmm0
	movaps	%xmm0, 128(%rsp)
	leaq	224(%rsp), %rdx
	movl	$0, 148(%rsp)
	movq	%rdx, 152(%rsp)
	movq	$144, 160(%rsp)
	leaq	2528(%rsp), %rdx
	movq	%rdx, 168(%rsp)
	movq	$144, 176(%rsp)
	movq	%rcx, 72(%rsp)
	movq	%rax, 64(%rsp)
	movq	%r14, 56(%rsp)
	movq	%r12, 48(%rsp)
	movzwl	94(%rsp), %eax
	movw	%ax, 40(%rsp)
	movzbl	93(%rsp), %eax
	movb	%al, 32(%rsp)
	leaq	112(%rsp), %rcx
	leaq	128(%rsp), %rdx
	xorl	%r8d, %r8d
	xorl	%r9d, %r9d
	callq	"dm_symbol::symbol::reading::restore"
	movzbl	112(%rsp), %eax
	movzbl	114(%rsp), %ecx
	movzbl	115(%rsp), %edx
	movss	116(%rsp), %xmm0
	movzwl	120(%rsp), %r8d
.LBB75_8:
	movb	%al, (%rsi)
	movb	%cl, 2(%rsi)
	movb	%dl, 3(%rsi)
	movss	%xmm0, 4(%rsi)
	movw	%r8w, 8(%rsi)
	addq	$5448, %rsp
	popq	%rbx
	popq	%rbp
	popq	%rdi
	popq	%rsi
	popq	%r12
	popq	%r13
	popq	%r14
	popq	%r15
	retq
	.seh_endproc

	.def	"ecc200_calls::restoring::restore_within::<=144,=2178>";
	.scl	3;
	.type	32;
	.endef
	.p2align	4
"ecc200_calls::restoring::restore_within::<=144,=2178>":
.seh_proc "ecc200_calls::restoring::restore_within::<=144,=2178>"
	pushq	%r15
	.seh_pushreg %r15
	pushq	%r14
	.seh_pushreg %r14
	pushq	%r13
	.seh_pushreg %r13
	pushq	%r12
	.seh_pushreg %r12
	pushq	%rsi
	.seh_pushreg %rsi
	pushq	%rdi
	.seh_pushreg %rdi
	pushq	%rbp
	.seh_pushreg %rbp
	pushq	%rbx
	.seh_pushreg %rbx
	subq	$280, %rsp
	.seh_stackalloc 280
	movdqa	%xmm6, 256(%rsp)
	.seh_savexmm %xmm6, 256
	.seh_endprologue
	movl	%edx, %ebx
	movq	%rcx, %rsi
	movq	408(%rsp), %r12
	movzwl	392(%rsp), %ebp
	movq	400(%rsp), %rdi
	leaq	8(%r12), %r13
	movw	$0, 88(%rsp)
	movq	$0, 80(%rsp)
	movl	16(%r8), %eax
	movq	(%r8), %rcx
	movq	8(%r8), %rdx
	movq	%rdx, 8(%rdi)
	movq	%rcx, (%rdi)
	movl	%eax, 16(%rdi)
	addq	$20, %rdi
	movl	16(%r8), %eax
	movl	%eax, 176(%rsp)
	movups	(%r8), %xmm0
	movaps	%xmm0, 160(%rsp)
	leaq	32(%r8), %rax
	addq	$2336, %r8
	movl	$0, 180(%rsp)
	movaps	%xmm0, 96(%rsp)
	movq	176(%rsp), %rcx
	movq	%rcx, 112(%rsp)
	movq	%rax, 120(%rsp)
	movq	$144, 128(%rsp)
	movq	%r8, 136(%rsp)
	movq	$144, 144(%rsp)
	testb	%r9b, %r9b
	je	.LBB76_1
	movq	384(%rsp), %rax
	movl	16(%rax), %ecx
	movl	%ecx, 208(%rsp)
	movups	(%rax), %xmm0
	movaps	%xmm0, 192(%rsp)
	leaq	32(%rax), %rcx
	addq	$2336, %rax
	movl	$0, 212(%rsp)
	movq	%rcx, 216(%rsp)
	movq	$144, 224(%rsp)
	movq	%rax, 232(%rsp)
	movq	$144, 240(%rsp)
	leaq	96(%rsp), %rcx
	movb	$1, %r14b
	leaq	192(%rsp), %r15
	movb	$1, %dl
	movq	%r15, %r8
	callq	"dm_layout::symbols::border::border_faults"
	cmpw	%ax, %bp
	jae	.LBB76_4
	xorl	%ecx, %ecx
	movzwl	%ax, %eax
	movd	%eax, %xmm6
	xorl	%edx, %edx
	xorl	%ebp, %ebp
	jmp	.LBB76_12
.LBB76_1:
	leaq	48(%r12), %rax
	movq	%rax, 72(%rsp)
	movq	%r13, 64(%rsp)
	movq	%r12, 56(%rsp)
	movq	%rdi, 48(%rsp)
	movw	%bp, 40(%rsp)
	movb	%bl, 32(%rsp)
	leaq	80(%rsp), %rcx
	leaq	96(%rsp), %rdx
	xorl	%r8d, %r8d
	xorl	%r9d, %r9d
	callq	"dm_symbol::symbol::reading::restore"
	movzbl	80(%rsp), %r14d
	movzbl	82(%rsp), %ebp
	movzbl	83(%rsp), %edx
	movd	84(%rsp), %xmm6
	movzwl	88(%rsp), %ecx
	jmp	.LBB76_12
.LBB76_4:
	movw	%ax, 48(%r12)
	movzwl	110(%rsp), %eax
	addw	108(%rsp), %ax
	movzwl	%ax, %r14d
	leaq	96(%rsp), %rcx
	movq	%rdi, %rdx
	callq	"dm_layout::symbols::placing::lift_to"
	movb	$0, (%r12)
	movq	%r13, 40(%rsp)
	movq	%r15, 32(%rsp)
	xorl	%ebp, %ebp
	leaq	160(%rsp), %rcx
	movq	%rdi, %rdx
	movq	%r14, %r8
	xorl	%r9d, %r9d
	callq	"dm_symbol::symbol::reading::restore_doubtful"
	pxor	%xmm6, %xmm6
	xorl	%ecx, %ecx
	cmpb	$1, %al
	jne	.LBB76_5
	testb	%bl, %bl
	je	.LBB76_7
	movl	%edx, %ebx
	movq	%r13, 40(%rsp)
	movq	%r14, 32(%rsp)
	leaq	96(%rsp), %rcx
	movb	$1, %bpl
	leaq	192(%rsp), %r8
	movb	$1, %dl
	movq	%rdi, %r9
	callq	"dm_symbol::symbol::dealing::restore_restarted"
	testb	%al, %al
	je	.LBB76_9
	movb	$1, (%r12)
	xorl	%ecx, %ecx
	xorl	%edx, %edx
	xorl	%ebp, %ebp
	jmp	.LBB76_11
.LBB76_5:
	xorl	%edx, %edx
.LBB76_11:
	xorl	%r14d, %r14d
	jmp	.LBB76_12
.LBB76_7:
	movb	$1, %bpl
	xorl	%ecx, %ecx
	movb	$1, %r14b
	jmp	.LBB76_12
.LBB76_9:
	xorl	%ecx, %ecx
	movb	$1, %r14b
	movl	%ebx, %edx
.LBB76_12:
	movb	%r14b, (%rsi)
	movb	%bpl, 2(%rsi)
	movb	%dl, 3(%rsi)
	movd	%xmm6, 4(%rsi)
	movw	%cx, 8(%rsi)
	movaps	256(%rsp), %xmm6
	addq	$280, %rsp
	popq	%rbx
	popq	%rbp
	popq	%rdi
	popq	%rsi
	popq	%r12
	popq	%r13
	popq	%r14
	popq	%r15
	retq
	.seh_endproc

	.def	"ecc200_calls::restoring::restore_surely::<=144,=2178>";
	.scl	3;
	.type	32;
	.endef
	.p2align	4
"ecc200_calls::restoring::restore_surely::<=144,=2178>":
.seh_proc "ecc200_calls::restoring::restore_surely::<=144,=2178>"
	pushq	%r15
	.seh_pushreg %r15
	pushq	%r14
	.seh_pushreg %r14
	pushq	%r13
	.seh_pushreg %r13
	pushq	%r12
	.seh_pushreg %r12
	pushq	%rsi
	.seh_pushreg %rsi
	pushq	%rdi
	.seh_pushreg %rdi
	pushq	%rbp
	.seh_pushreg %rbp
	pushq	%rbx
	.seh_pushreg %rbx
	subq	$120, %rsp
	.seh_stackalloc 120
	movaps	%xmm6, 96(%rsp)
	.seh_savexmm %xmm6, 96
	.seh_endprologue
	movl	%r9d, %ebx
	movq	%r8, %rdi
	movl	%edx, %ebp
	movq	%rcx, %rsi
	movq	240(%rsp), %r15
	movq	232(%rsp), %r13
	movq	224(%rsp), %r12
	movw	$0, 72(%rsp)
	movq	$0, 64(%rsp)
	movzwl	(%r8), %eax
	movzwl	2(%r8), %ecx
	addl	%eax, %ecx
	shrl	$3, %ecx
	movq	%r15, 56(%rsp)
	movq	%r13, 48(%rsp)
	movq	%r12, 32(%rsp)
	movw	%cx, 40(%rsp)
	leaq	64(%rsp), %rcx
	callq	"ecc200_calls::restoring::restore_within::<=144,=2178>"
	xorps	%xmm6, %xmm6
	cmpb	$0, 64(%rsp)
	je	.LBB77_1
	movzbl	66(%rsp), %eax
	cmpl	$2, %eax
	je	.LBB77_12
	cmpl	$1, %eax
	jne	.LBB77_4
	movb	$1, %al
	movzbl	67(%rsp), %edx
	xorl	%r14d, %r14d
	movb	$1, %cl
	jmp	.LBB77_14
.LBB77_1:
	xorl	%eax, %eax
	xorl	%ecx, %ecx
	xorl	%edx, %edx
	xorl	%r14d, %r14d
	jmp	.LBB77_14
.LBB77_12:
	movzbl	68(%rsp), %r14d
	movb	$2, %cl
	movb	$1, %al
	movss	70(%rsp), %xmm6
	jmp	.LBB77_13
.LBB77_4:
	movzwl	68(%rsp), %r14d
	movw	$0, 88(%rsp)
	movq	$0, 80(%rsp)
	movq	%r15, 56(%rsp)
	movq	%r13, 48(%rsp)
	movw	%r14w, 40(%rsp)
	movq	%r12, 32(%rsp)
	leaq	80(%rsp), %rcx
	movl	%ebp, %edx
	movq	%rdi, %r8
	movl	%ebx, %r9d
	callq	"ecc200_calls::restoring::restore_within::<=144,=2178>"
	movb	$1, %al
	cmpb	$0, 80(%rsp)
	jne	.LBB77_10
	movq	40(%r15), %rax
	addq	$10, %r15
	incq	%rax
	.p2align	4
.LBB77_6:
	decq	%rax
	je	.LBB77_7
	cmpb	$1, (%r15)
	leaq	3(%r15), %r15
	ja	.LBB77_6
	jmp	.LBB77_9
.LBB77_7:
	xorl	%r14d, %r14d
.LBB77_9:
	testq	%rax, %rax
	setne	%al
.LBB77_10:
	xorl	%ecx, %ecx
.LBB77_13:
	xorl	%edx, %edx
.LBB77_14:
	movb	%al, (%rsi)
	movb	%cl, 2(%rsi)
	movb	%dl, 3(%rsi)
	movw	%r14w, 4(%rsi)
	movss	%xmm6, 6(%rsi)
	movaps	96(%rsp), %xmm6
	addq	$120, %rsp
	popq	%rbx
	popq	%rbp
	popq	%rdi
	popq	%rsi
	popq	%r12
	popq	%r13
	popq	%r14
	popq	%r15
	retq
	.seh_endproc

	.def	"ecc200_calls::answer::answer_words::<#c41e22b9ba7768f4>";
	.scl	3;
	.type	32;
	.endef
	.p2align	4
"ecc200_calls::answer::answer_words::<#c41e22b9ba7768f4>":
.seh_proc "ecc200_calls::answer::answer_words::<#c41e22b9ba7768f4>"
	pushq	%r15
	.seh_pushreg %r15
	pushq	%r14
	.seh_pushreg %r14
	pushq	%r12
	.seh_pushreg %r12
	pushq	%rsi
	.seh_pushreg %rsi
	pushq	%rdi
	.seh_pushreg %rdi
	pushq	%rbp
	.seh_pushreg %rbp
	pushq	%rbx
	.seh_pushreg %rbx
	movl	$6624, %eax
	callq	___chkstk_ms
	subq	%rax, %rsp
	.seh_stackalloc 6624
	.seh_endprologue
	movq	%r9, %rsi
	movq	%r8, %r15
	movl	%edx, %ebp
	movq	%rcx, %rdi
	movzwl	12(%r8), %r12d
	addq	$20, %r15
	leaq	104(%rsp), %rcx
	movl	$6512, %r8d
	xorl	%edx, %edx
	callq	memset
	xorps	%xmm0, %xmm0
	movaps	%xmm0, 80(%rsp)
	movaps	%xmm0, 64(%rsp)
	leaq	110(%rsp), %r14
	leaq	6368(%rsp), %rbx
	movq	%rbx, 40(%rsp)
	movq	%r14, 32(%rsp)
	leaq	64(%rsp), %rcx
	movl	%ebp, %edx
	movq	%r15, %r8
	movq	%r12, %r9
	callq	"dm_words::contents::reading::read_content"
	cmpb	$0, 64(%rsp)
	je	.LBB78_4
	movzbl	66(%rsp), %eax
	movzwl	68(%rsp), %r8d
	cmpl	$2, %eax
	je	.LBB78_5
	cmpl	$1, %eax
	jne	.LBB78_6
	xorl	%eax, %eax
	movw	$20, %cx
	jmp	.LBB78_16
.LBB78_4:
	movq	72(%rsp), %rax
	movq	80(%rsp), %r8
	movq	88(%rsp), %rcx
	movl	%eax, %edx
	movl	%eax, %r9d
	shrl	$8, %r9d
	shrq	$16, %rax
	movb	%dl, 104(%rsp)
	movb	%r9b, 105(%rsp)
	movl	%eax, 106(%rsp)
	movq	%r8, 6360(%rsp)
	movq	%rcx, 6616(%rsp)
	movzbl	(%rdi), %r10d
	movb	%dl, 64(%rsp)
	movb	%r9b, 65(%rsp)
	movl	%eax, 66(%rsp)
	shll	$8, %r10d
	movq	%rsi, 48(%rsp)
	movq	%r10, 40(%rsp)
	movq	%rcx, 32(%rsp)
	leaq	64(%rsp), %rcx
	movq	%r14, %rdx
	movq	%rbx, %r9
	callq	"ecc200_calls::writing::write_content"
	jmp	.LBB78_17
.LBB78_5:
	movw	$21, %cx
	xorl	%eax, %eax
	jmp	.LBB78_16
.LBB78_6:
	movzwl	70(%rsp), %edx
	movzwl	%r8w, %eax
	movzbl	%al, %ecx
	leaq	.LJTI78_0(%rip), %r8
	movslq	(%r8,%rcx,4), %rcx
	addq	%r8, %rcx
	jmpq	*%rcx
.LBB78_7:
	movw	$7, %cx
	jmp	.LBB78_14
.LBB78_8:
	movw	$11, %cx
	jmp	.LBB78_14
.LBB78_9:
	movw	$9, %cx
	jmp	.LBB78_14
.LBB78_10:
	movw	$10, %cx
	jmp	.LBB78_14
.LBB78_11:
	shrl	$8, %eax
	movw	$8, %cx
	jmp	.LBB78_15
.LBB78_12:
	movw	$12, %cx
	jmp	.LBB78_14
.LBB78_13:
	movw	$13, %cx
.LBB78_14:
	xorl	%eax, %eax
.LBB78_15:
	movl	%edx, %r8d
.LBB78_16:
	movw	%cx, (%rsi)
	movw	%ax, 2(%rsi)
	movw	%r8w, 4(%rsi)
	movl	$0, 6(%rsi)
.LBB78_17:
	addq	$6624, %rsp
	popq	%rbx
	popq	%rbp
	popq	%rdi
	popq	%rsi
	popq	%r12
	popq	%r14
	popq	%r15
	retq
	.section	.rdata,"dr"
	.p2align	2, 0x0
.LJTI78_0:
	.long	.LBB78_7-.LJTI78_0
	.long	.LBB78_11-.LJTI78_0
	.long	.LBB78_9-.LJTI78_0
	.long	.LBB78_10-.LJTI78_0
	.long	.LBB78_8-.LJTI78_0
	.long	.LBB78_12-.LJTI78_0
	.long	.LBB78_13-.LJTI78_0
	.text
	.seh_endproc

	.def	"ecc200_calls::answer::answer_words::<#bcaba02e1eec002d>";
	.scl	3;
	.type	32;
	.endef
	.p2align	4
"ecc200_calls::answer::answer_words::<#bcaba02e1eec002d>":
.seh_proc "ecc200_calls::answer::answer_words::<#bcaba02e1eec002d>"
	pushq	%r15
	.seh_pushreg %r15
	pushq	%r14
	.seh_pushreg %r14
	pushq	%r12
	.seh_pushreg %r12
	pushq	%rsi
	.seh_pushreg %rsi
	pushq	%rdi
	.seh_pushreg %rdi
	pushq	%rbp
	.seh_pushreg %rbp
	pushq	%rbx
	.seh_pushreg %rbx
	movl	$12608, %eax
	callq	___chkstk_ms
	subq	%rax, %rsp
	.seh_stackalloc 12608
	.seh_endprologue
	movq	%r9, %rsi
	movq	%r8, %r15
	movl	%edx, %ebp
	movq	%rcx, %rdi
	movzwl	12(%r8), %r12d
	addq	$20, %r15
	leaq	104(%rsp), %rcx
	movl	$12496, %r8d
	xorl	%edx, %edx
	callq	memset
	xorps	%xmm0, %xmm0
	movaps	%xmm0, 80(%rsp)
	movaps	%xmm0, 64(%rsp)
	leaq	110(%rsp), %r14
	leaq	6368(%rsp), %rbx
	movq	%rbx, 40(%rsp)
	movq	%r14, 32(%rsp)
	leaq	64(%rsp), %rcx
	movl	%ebp, %edx
	movq	%r15, %r8
	movq	%r12, %r9
	callq	"dm_words::contents::reading::read_content"
	cmpb	$0, 64(%rsp)
	je	.LBB79_4
	movzbl	66(%rsp), %eax
	movzwl	68(%rsp), %r8d
	cmpl	$2, %eax
	je	.LBB79_5
	cmpl	$1, %eax
	jne	.LBB79_6
	xorl	%eax, %eax
	movw	$20, %cx
	jmp	.LBB79_16
.LBB79_4:
	movq	72(%rsp), %rax
	movq	80(%rsp), %r8
	movq	88(%rsp), %rcx
	movl	%eax, %edx
	movl	%eax, %r9d
	shrl	$8, %r9d
	shrq	$16, %rax
	movb	%dl, 104(%rsp)
	movb	%r9b, 105(%rsp)
	movl	%eax, 106(%rsp)
	movq	%r8, 6360(%rsp)
	movq	%rcx, 12600(%rsp)
	movzbl	(%rdi), %r10d
	movb	%dl, 64(%rsp)
	movb	%r9b, 65(%rsp)
	movl	%eax, 66(%rsp)
	shll	$8, %r10d
	movq	%rsi, 48(%rsp)
	movq	%r10, 40(%rsp)
	movq	%rcx, 32(%rsp)
	leaq	64(%rsp), %rcx
	movq	%r14, %rdx
	movq	%rbx, %r9
	callq	"ecc200_calls::writing::write_content"
	jmp	.LBB79_17
.LBB79_5:
	movw	$21, %cx
	xorl	%eax, %eax
	jmp	.LBB79_16
.LBB79_6:
	movzwl	70(%rsp), %edx
	movzwl	%r8w, %eax
	movzbl	%al, %ecx
	leaq	.LJTI79_0(%rip), %r8
	movslq	(%r8,%rcx,4), %rcx
	addq	%r8, %rcx
	jmpq	*%rcx
.LBB79_7:
	movw	$7, %cx
	jmp	.LBB79_14
.LBB79_8:
	movw	$11, %cx
	jmp	.LBB79_14
.LBB79_9:
	movw	$9, %cx
	jmp	.LBB79_14
.LBB79_10:
	movw	$10, %cx
	jmp	.LBB79_14
.LBB79_11:
	shrl	$8, %eax
	movw	$8, %cx
	jmp	.LBB79_15
.LBB79_12:
	movw	$12, %cx
	jmp	.LBB79_14
.LBB79_13:
	movw	$13, %cx
.LBB79_14:
	xorl	%eax, %eax
.LBB79_15:
	movl	%edx, %r8d
.LBB79_16:
	movw	%cx, (%rsi)
	movw	%ax, 2(%rsi)
	movw	%r8w, 4(%rsi)
	movl	$0, 6(%rsi)
.LBB79_17:
	addq	$12608, %rsp
	popq	%rbx
	popq	%rbp
	popq	%rdi
	popq	%rsi
	popq	%r12
	popq	%r14
	popq	%r15
	retq
	.section	.rdata,"dr"
	.p2align	2, 0x0
.LJTI79_0:
	.long	.LBB79_7-.LJTI79_0
	.long	.LBB79_11-.LJTI79_0
	.long	.LBB79_9-.LJTI79_0
	.long	.LBB79_10-.LJTI79_0
	.long	.LBB79_8-.LJTI79_0
	.long	.LBB79_12-.LJTI79_0
	.long	.LBB79_13-.LJTI79_0
	.text
	.seh_endproc

	.def	"ecc200_calls::answer::answer_given::<#7b928245427000c4>";
	.scl	3;
	.type	32;
	.endef
	.p2align	4
"ecc200_calls::answer::answer_given::<#7b928245427000c4>":
.seh_proc "ecc200_calls::answer::answer_given::<#7b928245427000c4>"
	pushq	%rsi
	.seh_pushreg %rsi
	subq	$320, %rsp
	.seh_stackalloc 320
	.seh_endprologue
	movq	%r8, %rax
	movq	%rdx, %r8
	movq	384(%rsp), %rsi
	movq	368(%rsp), %rdx
	movq	376(%rsp), %r10
	movzwl	8(%rcx), %r11d
	movw	%r11w, 104(%rsp)
	movq	(%rcx), %rcx
	movq	%rcx, 96(%rsp)
	movups	(%r10), %xmm0
	movaps	%xmm0, 112(%rsp)
	movq	14(%r10), %rcx
	movq	%rcx, 126(%rsp)
	movq	$0, 80(%rsp)
	movw	$0, 88(%rsp)
	xorps	%xmm0, %xmm0
	movups	%xmm0, 222(%rsp)
	movups	%xmm0, 238(%rsp)
	movups	%xmm0, 254(%rsp)
	movups	%xmm0, 270(%rsp)
	movups	%xmm0, 286(%rsp)
	movups	%xmm0, 302(%rsp)
	movw	$0, 318(%rsp)
	movups	%xmm0, 145(%rsp)
	movups	%xmm0, 161(%rsp)
	movups	%xmm0, 176(%rsp)
	movb	$0, 144(%rsp)
	movq	$0, 192(%rsp)
	leaq	144(%rsp), %rcx
	movq	%rcx, 64(%rsp)
	leaq	202(%rsp), %rcx
	movq	%rcx, 56(%rsp)
	leaq	112(%rsp), %rcx
	movq	%rcx, 48(%rsp)
	movq	%rdx, 40(%rsp)
	movq	%r9, 32(%rsp)
	leaq	80(%rsp), %rcx
	leaq	96(%rsp), %rdx
	movq	%rax, %r9
	callq	"ecc200_calls::restoring::restore_given::<=32,=98>"
	cmpb	$0, 80(%rsp)
	je	.LBB80_1
	movzbl	82(%rsp), %ecx
	movzwl	84(%rsp), %eax
	testl	%ecx, %ecx
	je	.LBB80_3
	cmpl	$2, %ecx
	jne	.LBB80_5
	movzwl	86(%rsp), %edx
	cmpb	$2, %al
	je	.LBB80_18
	movzbl	%al, %eax
	cmpl	$1, %eax
	jne	.LBB80_9
	movw	$20, %cx
	jmp	.LBB80_19
.LBB80_1:
	movzbl	100(%rsp), %ecx
	leaq	202(%rsp), %rdx
	leaq	144(%rsp), %r8
	movq	%rsi, %r9
	callq	"ecc200_calls::answer::answer_words::<#8a72db146def817a>"
	jmp	.LBB80_21
.LBB80_3:
	xorl	%edx, %edx
	movw	$5, %cx
	jmp	.LBB80_20
.LBB80_5:
	movzbl	83(%rsp), %edx
	movw	$6, %cx
	jmp	.LBB80_19
.LBB80_18:
	movw	$21, %cx
.LBB80_19:
	xorl	%eax, %eax
.LBB80_20:
	movw	%cx, (%rsi)
	movw	%ax, 2(%rsi)
	movw	%dx, 4(%rsi)
	xorps	%xmm0, %xmm0
	movups	%xmm0, 6(%rsi)
	movq	$0, 22(%rsi)
.LBB80_21:
	addq	$320, %rsp
	popq	%rsi
	retq
.LBB80_9:
	movzwl	88(%rsp), %r8d
	movzwl	%dx, %eax
	movzbl	%al, %ecx
	leaq	.LJTI80_0(%rip), %rdx
	movslq	(%rdx,%rcx,4), %rcx
	addq	%rdx, %rcx
	jmpq	*%rcx
.LBB80_10:
	movw	$7, %cx
	jmp	.LBB80_11
.LBB80_15:
	movw	$11, %cx
	jmp	.LBB80_11
.LBB80_13:
	movw	$9, %cx
	jmp	.LBB80_11
.LBB80_14:
	movw	$10, %cx
	jmp	.LBB80_11
.LBB80_12:
	shrl	$8, %eax
	movw	$8, %cx
	movl	%r8d, %edx
	jmp	.LBB80_20
.LBB80_16:
	movw	$12, %cx
	jmp	.LBB80_11
.LBB80_17:
	movw	$13, %cx
.LBB80_11:
	xorl	%eax, %eax
	movl	%r8d, %edx
	jmp	.LBB80_20
	.section	.rdata,"dr"
	.p2align	2, 0x0
.LJTI80_0:
	.long	.LBB80_10-.LJTI80_0
	.long	.LBB80_12-.LJTI80_0
	.long	.LBB80_13-.LJTI80_0
	.long	.LBB80_14-.LJTI80_0
	.long	.LBB80_15-.LJTI80_0
	.long	.LBB80_16-.LJTI80_0
	.long	.LBB80_17-.LJTI80_0
	.text
	.seh_endproc

	.def	"ecc200_calls::answer::answer_words::<#8a72db146def817a>";
	.scl	3;
	.type	32;
	.endef
	.p2align	4
"ecc200_calls::answer::answer_words::<#8a72db146def817a>":
.seh_proc "ecc200_calls::answer::answer_words::<#8a72db146def817a>"
	pushq	%r15
	.seh_pushreg %r15
	pushq	%r14
	.seh_pushreg %r14
	pushq	%r13
	.seh_pushreg %r13
	pushq	%r12
	.seh_pushreg %r12
	pushq	%rsi
	.seh_pushreg %rsi
	pushq	%rdi
	.seh_pushreg %rdi
	pushq	%rbp
	.seh_pushreg %rbp
	pushq	%rbx
	.seh_pushreg %rbx
	subq	$728, %rsp
	.seh_stackalloc 728
	movaps	%xmm6, 704(%rsp)
	.seh_savexmm %xmm6, 704
	.seh_endprologue
	movq	%r9, %rsi
	movq	%r8, %rdi
	movq	%rdx, %rbx
	movl	%ecx, %ebp
	xorps	%xmm6, %xmm6
	movaps	%xmm6, 144(%rsp)
	movaps	%xmm6, 128(%rsp)
	movaps	%xmm6, 112(%rsp)
	movaps	%xmm6, 96(%rsp)
	movaps	%xmm6, 80(%rsp)
	leaq	20(%rdx), %r15
	movzwl	12(%rdx), %r14d
	leaq	168(%rsp), %rcx
	movl	$528, %r8d
	xorl	%edx, %edx
	callq	memset
	movaps	%xmm6, 64(%rsp)
	movaps	%xmm6, 48(%rsp)
	leaq	174(%rsp), %r13
	leaq	448(%rsp), %r12
	movq	%r12, 40(%rsp)
	movq	%r13, 32(%rsp)
	leaq	48(%rsp), %rcx
	movl	%ebp, %edx
	movq	%r15, %r8
	movq	%r14, %r9
	callq	"dm_words::contents::reading::read_content"
	cmpb	$0, 48(%rsp)
	je	.LBB81_4
	movzbl	50(%rsp), %eax
	movzwl	52(%rsp), %r8d
	cmpl	$2, %eax
	je	.LBB81_7
	cmpl	$1, %eax
	jne	.LBB81_8
	xorl	%eax, %eax
	movw	$20, %cx
	jmp	.LBB81_23
.LBB81_4:
	movq	56(%rsp), %rdx
	movq	64(%rsp), %rcx
	movq	72(%rsp), %rax
	movl	%edx, %r9d
	shrl	$8, %r9d
	movq	%rdx, %r8
	shrq	$16, %r8
	movb	%dl, 168(%rsp)
	movb	%r9b, 169(%rsp)
	movl	%r8d, 170(%rsp)
	movq	%rcx, 440(%rsp)
	movq	%rax, 696(%rsp)
	xorl	%r10d, %r10d
	testb	%r9b, %r9b
	setne	%r10b
	xorl	%r11d, %r11d
	testb	%dl, %dl
	leaq	1(%r10,%r10,2), %r9
	cmovneq	%r9, %r11
	movb	$1, %r9b
	subq	%r11, %r14
	je	.LBB81_28
	cmpq	$1, %r14
	jne	.LBB81_10
	cmpb	$-24, (%r15,%r11)
	sete	%r9b
	incb	%r9b
	jmp	.LBB81_28
.LBB81_7:
	movw	$21, %cx
	xorl	%eax, %eax
	jmp	.LBB81_23
.LBB81_8:
	movzwl	54(%rsp), %edx
	movzwl	%r8w, %eax
	movzbl	%al, %ecx
	leaq	.LJTI81_0(%rip), %r8
	movslq	(%r8,%rcx,4), %rcx
	addq	%r8, %rcx
	jmpq	*%rcx
.LBB81_9:
	movw	$7, %cx
	jmp	.LBB81_21
.LBB81_10:
	movzbl	(%r15,%r11), %r10d
	movb	$2, %r9b
	cmpl	$232, %r10d
	je	.LBB81_28
	cmpb	$-24, 1(%r15,%r11)
	jne	.LBB81_27
	movb	$3, %r9b
	leal	-230(%r10), %r11d
	cmpl	$11, %r11d
	ja	.LBB81_24
	addq	$-2, %r14
	leaq	.LJTI81_1(%rip), %r15
	movslq	(%r15,%r11,4), %r11
	addq	%r15, %r11
	jmpq	*%r11
.LBB81_14:
	testq	%r14, %r14
	jne	.LBB81_27
	jmp	.LBB81_28
.LBB81_15:
	movw	$11, %cx
	jmp	.LBB81_21
.LBB81_16:
	movw	$9, %cx
	jmp	.LBB81_21
.LBB81_17:
	movw	$10, %cx
	jmp	.LBB81_21
.LBB81_18:
	shrl	$8, %eax
	movw	$8, %cx
	jmp	.LBB81_22
.LBB81_19:
	movw	$12, %cx
	jmp	.LBB81_21
.LBB81_20:
	movw	$13, %cx
.LBB81_21:
	xorl	%eax, %eax
.LBB81_22:
	movl	%edx, %r8d
.LBB81_23:
	movw	%cx, (%rsi)
	movw	%ax, 2(%rsi)
	movw	%r8w, 4(%rsi)
	xorps	%xmm0, %xmm0
	movups	%xmm0, 6(%rsi)
	movq	$0, 22(%rsi)
	jmp	.LBB81_29
.LBB81_24:
	testl	%r10d, %r10d
	je	.LBB81_27
	cmpl	$129, %r10d
	je	.LBB81_27
.LBB81_26:
	cmpb	$-26, %r10b
	jb	.LBB81_28
.LBB81_27:
	movb	$1, %r9b
.LBB81_28:
	leal	3(%r9), %r10d
	testq	%rax, %rax
	movzbl	%r9b, %r9d
	movzbl	%r10b, %r10d
	cmovel	%r9d, %r10d
	movl	16(%rbx), %r9d
	movl	%r9d, 96(%rsp)
	movups	(%rbx), %xmm0
	movaps	%xmm0, 80(%rsp)
	movw	%dx, 100(%rsp)
	movl	%r8d, 102(%rsp)
	movq	%r13, 112(%rsp)
	movq	%rcx, 120(%rsp)
	movq	%r12, 128(%rsp)
	movq	%rax, 136(%rsp)
	movb	%r10b, 144(%rsp)
	movq	%rdi, 152(%rsp)
	leaq	80(%rsp), %rcx
	movq	%rsi, %rdx
	callq	"ecc200_calls::reading::ReadingAnswer::show"
.LBB81_29:
	movaps	704(%rsp), %xmm6
	addq	$728, %rsp
	popq	%rbx
	popq	%rbp
	popq	%rdi
	popq	%rsi
	popq	%r12
	popq	%r13
	popq	%r14
	popq	%r15
	retq
.LBB81_30:
	cmpq	$2, %r14
	jae	.LBB81_27
	jmp	.LBB81_28
	.section	.rdata,"dr"
	.p2align	2, 0x0
.LJTI81_0:
	.long	.LBB81_9-.LJTI81_0
	.long	.LBB81_18-.LJTI81_0
	.long	.LBB81_16-.LJTI81_0
	.long	.LBB81_17-.LJTI81_0
	.long	.LBB81_15-.LJTI81_0
	.long	.LBB81_19-.LJTI81_0
	.long	.LBB81_20-.LJTI81_0
.LJTI81_1:
	.long	.LBB81_14-.LJTI81_1
	.long	.LBB81_27-.LJTI81_1
	.long	.LBB81_26-.LJTI81_1
	.long	.LBB81_26-.LJTI81_1
	.long	.LBB81_26-.LJTI81_1
	.long	.LBB81_27-.LJTI81_1
	.long	.LBB81_28-.LJTI81_1
	.long	.LBB81_28-.LJTI81_1
	.long	.LBB81_14-.LJTI81_1
	.long	.LBB81_14-.LJTI81_1
	.long	.LBB81_30-.LJTI81_1
	.long	.LBB81_27-.LJTI81_1
	.text
	.seh_endproc

	.def	"ecc200_calls::reading::ReadingAnswer::show";
	.scl	3;
	.type	32;
	.endef
	.section	.rdata,"dr"
	.p2align	4, 0x0
.LCPI82_0:
	.byte	1
	.byte	1
	.byte	1
	.byte	1
	.byte	1
	.byte	1
	.byte	1
	.byte	1
	.zero	1
	.zero	1
	.zero	1
	.zero	1
	.zero	1
	.zero	1
	.zero	1
	.zero	1
.LCPI82_1:
	.short	256
	.short	256
	.short	256
	.short	256
	.short	256
	.short	256
	.short	256
	.short	256
	.text
	.p2align	4
"ecc200_calls::reading::ReadingAnswer::show":
.seh_proc "ecc200_calls::reading::ReadingAnswer::show"
	pushq	%rsi
	.seh_pushreg %rsi
	pushq	%rdi
	.seh_pushreg %rdi
	pushq	%rbx
	.seh_pushreg %rbx
	.seh_endprologue
	movq	72(%rcx), %r8
	movq	40(%r8), %r9
	movl	$0, (%rdx)
	movw	$0, 4(%rdx)
	movzwl	(%rcx), %eax
	movw	%ax, 6(%rdx)
	movzwl	2(%rcx), %eax
	movw	%ax, 8(%rdx)
	movzwl	48(%r8), %eax
	movw	%ax, 10(%rdx)
	movw	%r9w, 12(%rdx)
	testq	%r9, %r9
	je	.LBB82_8
	leaq	8(%r8), %r11
	cmpq	$40, %r9
	jae	.LBB82_15
.LBB82_2:
	xorl	%r10d, %r10d
.LBB82_3:
	movq	%r10, %rax
	orq	$1, %rax
	testb	$1, %r9b
	je	.LBB82_5
	leaq	(%r10,%r10,2), %rsi
	movzbl	(%r11,%rsi), %ebx
	movb	%bl, 30(%rdx,%r10)
	movzbl	1(%r11,%rsi), %ebx
	movb	%bl, 40(%rdx,%r10)
	movzbl	2(%r11,%rsi), %r11d
	movb	%r11b, 50(%rdx,%r10)
	movq	%rax, %r10
.LBB82_5:
	cmpq	%rax, %r9
	je	.LBB82_8
	leaq	(%r10,%r10,2), %rax
	addq	%r8, %rax
	addq	$13, %rax
	.p2align	4
.LBB82_7:
	movzbl	-5(%rax), %r11d
	movb	%r11b, 30(%rdx,%r10)
	movzbl	-4(%rax), %r11d
	movb	%r11b, 40(%rdx,%r10)
	movzbl	-3(%rax), %r11d
	movb	%r11b, 50(%rdx,%r10)
	movzbl	-2(%rax), %r11d
	movb	%r11b, 31(%rdx,%r10)
	movzbl	-1(%rax), %r11d
	movb	%r11b, 41(%rdx,%r10)
	movzbl	(%rax), %r11d
	movb	%r11b, 51(%rdx,%r10)
	addq	$2, %r10
	addq	$6, %rax
	cmpq	%r10, %r9
	jne	.LBB82_7
.LBB82_8:
	movzbl	64(%rcx), %eax
	movw	%ax, 18(%rdx)
	xorl	%eax, %eax
	cmpb	$0, (%r8)
	setne	%al
	movw	%ax, 20(%rdx)
	movq	56(%rcx), %r9
	cmpb	$0, 20(%rcx)
	je	.LBB82_11
	movl	$2, %r10d
	cmpb	$1, 21(%rcx)
	jne	.LBB82_12
	movl	22(%rcx), %eax
	movl	%eax, %r8d
	movzbl	%al, %r10d
	shrl	$8, %eax
	andl	$-65536, %r8d
	shlq	$32, %r8
	movzbl	%al, %eax
	shlq	$32, %rax
	shll	$16, %r10d
	orq	%rax, %r10
	orq	%r8, %r10
	orq	$1, %r10
	jmp	.LBB82_12
.LBB82_11:
	xorl	%r10d, %r10d
.LBB82_12:
	movq	32(%rcx), %rax
	movq	40(%rcx), %r8
	movq	48(%rcx), %rcx
	movq	%r10, 22(%rdx)
	movw	%r9w, 16(%rdx)
	testq	%r9, %r9
	je	.LBB82_36
	leaq	60(%rdx), %r10
	cmpq	$33, %r9
	jb	.LBB82_14
	leaq	-1(%r9), %r11
	shrq	$61, %r11
	setne	%r11b
	leaq	(%rcx,%r9,8), %rsi
	addq	$-8, %rsi
	cmpq	%rcx, %rsi
	setb	%bl
	orb	%r11b, %bl
	jne	.LBB82_14
	leaq	(%rdx,%r9,8), %r11
	addq	$60, %r11
	leaq	(%rcx,%r9,8), %rsi
	cmpq	%rsi, %r10
	setb	%bl
	cmpq	%r11, %rcx
	setb	%r11b
	testb	%r11b, %bl
	je	.LBB82_30
.LBB82_14:
	xorl	%r11d, %r11d
.LBB82_32:
	movl	%r9d, %edi
	subl	%r11d, %edi
	leaq	1(%r11), %rsi
	testb	$1, %dil
	je	.LBB82_34
	movzwl	(%rcx,%r11,8), %edi
	movl	4(%rcx,%r11,8), %ebx
	movl	%ebx, (%r10,%r11,8)
	movl	%edi, 4(%r10,%r11,8)
	movq	%rsi, %r11
.LBB82_34:
	cmpq	%rsi, %r9
	je	.LBB82_36
	.p2align	4
.LBB82_35:
	movzwl	(%rcx,%r11,8), %r10d
	movl	4(%rcx,%r11,8), %esi
	movl	%esi, 60(%rdx,%r11,8)
	movl	%r10d, 64(%rdx,%r11,8)
	movzwl	8(%rcx,%r11,8), %r10d
	movl	12(%rcx,%r11,8), %esi
	movl	%esi, 68(%rdx,%r11,8)
	movl	%r10d, 72(%rdx,%r11,8)
	addq	$2, %r11
	cmpq	%r11, %r9
	jne	.LBB82_35
.LBB82_36:
	movw	%r8w, 14(%rdx)
	testq	%r8, %r8
	je	.LBB82_43
	leaq	6292(%rdx), %r9
	cmpq	$40, %r8
	jae	.LBB82_44
.LBB82_38:
	xorl	%ecx, %ecx
.LBB82_39:
	movq	%rcx, %r10
	orq	$1, %r10
	testb	$1, %r8b
	je	.LBB82_41
	cmpb	$1, (%rax,%rcx,2)
	movzbl	1(%rax,%rcx,2), %r11d
	movl	$256, %esi
	cmovel	%r11d, %esi
	movw	%si, (%r9,%rcx,2)
	movq	%r10, %rcx
.LBB82_41:
	cmpq	%r10, %r8
	je	.LBB82_43
	.p2align	4
.LBB82_42:
	cmpb	$1, (%rax,%rcx,2)
	movzbl	1(%rax,%rcx,2), %r9d
	movl	$256, %r10d
	cmovnel	%r10d, %r9d
	movw	%r9w, 6292(%rdx,%rcx,2)
	cmpb	$1, 2(%rax,%rcx,2)
	movzbl	3(%rax,%rcx,2), %r9d
	cmovnel	%r10d, %r9d
	movw	%r9w, 6294(%rdx,%rcx,2)
	addq	$2, %rcx
	cmpq	%rcx, %r8
	jne	.LBB82_42
.LBB82_43:
	popq	%rbx
	popq	%rdi
	popq	%rsi
	retq
.LBB82_15:
	movq	%rdx, %rsi
	leaq	-1(%r9), %rax
	movl	$3, %edx
	mulq	%rdx
	seto	%bl
	leaq	(%r11,%rax), %rdx
	xorl	%r10d, %r10d
	cmpq	%r11, %rdx
	jb	.LBB82_52
	testb	%bl, %bl
	movq	%rsi, %rdx
	jne	.LBB82_3
	leaq	9(%r8), %rsi
	leaq	(%r8,%rax), %rdi
	addq	$9, %rdi
	cmpq	%rsi, %rdi
	jb	.LBB82_3
	testb	%bl, %bl
	jne	.LBB82_3
	leaq	10(%r8), %rsi
	addq	%r8, %rax
	addq	$10, %rax
	cmpq	%rsi, %rax
	jb	.LBB82_3
	testb	%bl, %bl
	jne	.LBB82_3
	leaq	30(%rdx), %rax
	leaq	(%rdx,%r9), %r10
	addq	$50, %r10
	leaq	(%r9,%r9,2), %rsi
	addq	%r8, %rsi
	addq	$8, %rsi
	cmpq	%rsi, %rax
	setb	%bl
	cmpq	%r10, %r11
	setb	%r10b
	testb	%r10b, %bl
	jne	.LBB82_2
	movq	%r9, %r10
	andq	$-8, %r10
	leaq	31(%r8), %rsi
	xorl	%edi, %edi
	.p2align	4
.LBB82_28:
	movzbl	-23(%rsi), %ebx
	movd	%ebx, %xmm0
	pinsrb	$1, -20(%rsi), %xmm0
	pinsrb	$2, -17(%rsi), %xmm0
	pinsrb	$3, -14(%rsi), %xmm0
	pinsrb	$4, -11(%rsi), %xmm0
	pinsrb	$5, -8(%rsi), %xmm0
	pinsrb	$6, -5(%rsi), %xmm0
	pinsrb	$7, -2(%rsi), %xmm0
	movq	%xmm0, (%rax,%rdi)
	movzbl	-22(%rsi), %ebx
	movd	%ebx, %xmm0
	pinsrb	$1, -19(%rsi), %xmm0
	pinsrb	$2, -16(%rsi), %xmm0
	pinsrb	$3, -13(%rsi), %xmm0
	pinsrb	$4, -10(%rsi), %xmm0
	pinsrb	$5, -7(%rsi), %xmm0
	pinsrb	$6, -4(%rsi), %xmm0
	pinsrb	$7, -1(%rsi), %xmm0
	movq	%xmm0, 10(%rax,%rdi)
	movzbl	-21(%rsi), %ebx
	movd	%ebx, %xmm0
	pinsrb	$1, -18(%rsi), %xmm0
	pinsrb	$2, -15(%rsi), %xmm0
	pinsrb	$3, -12(%rsi), %xmm0
	pinsrb	$4, -9(%rsi), %xmm0
	pinsrb	$5, -6(%rsi), %xmm0
	pinsrb	$6, -3(%rsi), %xmm0
	pinsrb	$7, (%rsi), %xmm0
	movq	%xmm0, 20(%rax,%rdi)
	addq	$8, %rdi
	addq	$24, %rsi
	cmpq	%rdi, %r10
	jne	.LBB82_28
	cmpq	%r10, %r9
	jne	.LBB82_3
	jmp	.LBB82_8
.LBB82_44:
	leaq	(%rax,%r8,2), %r10
	addq	$-2, %r10
	xorl	%ecx, %ecx
	cmpq	%rax, %r10
	jb	.LBB82_39
	leaq	1(%rax), %r10
	leaq	(%rax,%r8,2), %r11
	decq	%r11
	cmpq	%r10, %r11
	jb	.LBB82_39
	movq	%r8, %r10
	decq	%r10
	js	.LBB82_39
	leaq	(%rdx,%r8,2), %rcx
	addq	$6292, %rcx
	leaq	(%rax,%r8,2), %r10
	cmpq	%r10, %r9
	setb	%r10b
	cmpq	%rcx, %rax
	setb	%cl
	testb	%cl, %r10b
	jne	.LBB82_38
	movq	%r8, %rcx
	andq	$-8, %rcx
	xorl	%r10d, %r10d
	.p2align	4
.LBB82_50:
	movzbl	(%rax,%r10,2), %r11d
	movd	%r11d, %xmm0
	pinsrb	$1, 2(%rax,%r10,2), %xmm0
	pinsrb	$2, 4(%rax,%r10,2), %xmm0
	pinsrb	$3, 6(%rax,%r10,2), %xmm0
	pinsrb	$4, 8(%rax,%r10,2), %xmm0
	pinsrb	$5, 10(%rax,%r10,2), %xmm0
	pinsrb	$6, 12(%rax,%r10,2), %xmm0
	pinsrb	$7, 14(%rax,%r10,2), %xmm0
	movzbl	1(%rax,%r10,2), %r11d
	movd	%r11d, %xmm1
	pinsrb	$2, 3(%rax,%r10,2), %xmm1
	pinsrb	$4, 5(%rax,%r10,2), %xmm1
	pinsrb	$6, 7(%rax,%r10,2), %xmm1
	pinsrb	$8, 9(%rax,%r10,2), %xmm1
	pinsrb	$10, 11(%rax,%r10,2), %xmm1
	pinsrb	$12, 13(%rax,%r10,2), %xmm1
	pinsrb	$14, 15(%rax,%r10,2), %xmm1
	pcmpeqb	.LCPI82_0(%rip), %xmm0
	pmovsxbw	%xmm0, %xmm0
	movdqa	.LCPI82_1(%rip), %xmm2
	pblendvb	%xmm0, %xmm1, %xmm2
	movdqu	%xmm2, (%r9,%r10,2)
	addq	$8, %r10
	cmpq	%r10, %rcx
	jne	.LBB82_50
	cmpq	%rcx, %r8
	jne	.LBB82_39
	jmp	.LBB82_43
.LBB82_30:
	movq	%r9, %r11
	orq	$-2, %r11
	addq	%r9, %r11
	xorl	%esi, %esi
	.p2align	4
.LBB82_31:
	movzwl	(%rcx,%rsi,8), %edi
	movd	%edi, %xmm0
	pinsrw	$1, 8(%rcx,%rsi,8), %xmm0
	movdqu	4(%rcx,%rsi,8), %xmm1
	pmovzxwd	%xmm0, %xmm0
	pshufd	$80, %xmm0, %xmm0
	pblendw	$51, %xmm1, %xmm0
	movdqu	%xmm0, (%r10,%rsi,8)
	addq	$2, %rsi
	cmpq	%rsi, %r11
	jne	.LBB82_31
	jmp	.LBB82_32
.LBB82_52:
	movq	%rsi, %rdx
	jmp	.LBB82_3
	.seh_endproc

	.def	"ecc200_calls::answer::answer_given::<#d2faac338cf57797>";
	.scl	3;
	.type	32;
	.endef
	.p2align	4
"ecc200_calls::answer::answer_given::<#d2faac338cf57797>":
.seh_proc "ecc200_calls::answer::answer_given::<#d2faac338cf57797>"
	pushq	%r15
	.seh_pushreg %r15
	pushq	%r14
	.seh_pushreg %r14
	pushq	%rsi
	.seh_pushreg %rsi
	pushq	%rdi
	.seh_pushreg %rdi
	pushq	%rbx
	.seh_pushreg %rbx
	subq	$512, %rsp
	.seh_stackalloc 512
	.seh_endprologue
	movq	%r9, %r14
	movq	%r8, %rdi
	movq	%rdx, %rbx
	movq	608(%rsp), %rsi
	movq	592(%rsp), %r15
	movq	600(%rsp), %rax
	movzwl	8(%rcx), %edx
	movw	%dx, 104(%rsp)
	movq	(%rcx), %rcx
	movq	%rcx, 96(%rsp)
	movups	(%rax), %xmm0
	movaps	%xmm0, 112(%rsp)
	movq	14(%rax), %rax
	movq	%rax, 126(%rsp)
	movq	$0, 80(%rsp)
	movw	$0, 88(%rsp)
	leaq	224(%rsp), %rcx
	movl	$288, %r8d
	xorl	%edx, %edx
	callq	memset
	xorps	%xmm0, %xmm0
	movups	%xmm0, 145(%rsp)
	movups	%xmm0, 161(%rsp)
	movups	%xmm0, 176(%rsp)
	movb	$0, 144(%rsp)
	movq	$0, 192(%rsp)
	leaq	144(%rsp), %rax
	movq	%rax, 64(%rsp)
	leaq	204(%rsp), %rax
	movq	%rax, 56(%rsp)
	leaq	112(%rsp), %rax
	movq	%rax, 48(%rsp)
	movq	%r15, 40(%rsp)
	movq	%r14, 32(%rsp)
	leaq	80(%rsp), %rcx
	leaq	96(%rsp), %rdx
	movq	%rbx, %r8
	movq	%rdi, %r9
	callq	"ecc200_calls::restoring::restore_given::<=52,=288>"
	cmpb	$0, 80(%rsp)
	je	.LBB83_1
	movzbl	82(%rsp), %ecx
	movzwl	84(%rsp), %eax
	testl	%ecx, %ecx
	je	.LBB83_3
	cmpl	$2, %ecx
	jne	.LBB83_5
	movzwl	86(%rsp), %edx
	cmpb	$2, %al
	je	.LBB83_18
	movzbl	%al, %eax
	cmpl	$1, %eax
	jne	.LBB83_9
	movw	$20, %cx
	jmp	.LBB83_19
.LBB83_1:
	movzbl	100(%rsp), %ecx
	leaq	204(%rsp), %rdx
	leaq	144(%rsp), %r8
	movq	%rsi, %r9
	callq	"ecc200_calls::answer::answer_words::<#89b91c89c42b4f6f>"
	jmp	.LBB83_21
.LBB83_3:
	xorl	%edx, %edx
	movw	$5, %cx
	jmp	.LBB83_20
.LBB83_5:
	movzbl	83(%rsp), %edx
	movw	$6, %cx
	jmp	.LBB83_19
.LBB83_18:
	movw	$21, %cx
.LBB83_19:
	xorl	%eax, %eax
.LBB83_20:
	movw	%cx, (%rsi)
	movw	%ax, 2(%rsi)
	movw	%dx, 4(%rsi)
	xorps	%xmm0, %xmm0
	movups	%xmm0, 6(%rsi)
	movq	$0, 22(%rsi)
.LBB83_21:
	addq	$512, %rsp
	popq	%rbx
	popq	%rdi
	popq	%rsi
	popq	%r14
	popq	%r15
	retq
.LBB83_9:
	movzwl	88(%rsp), %r8d
	movzwl	%dx, %eax
	movzbl	%al, %ecx
	leaq	.LJTI83_0(%rip), %rdx
	movslq	(%rdx,%rcx,4), %rcx
	addq	%rdx, %rcx
	jmpq	*%rcx
.LBB83_10:
	movw	$7, %cx
	jmp	.LBB83_11
.LBB83_15:
	movw	$11, %cx
	jmp	.LBB83_11
.LBB83_13:
	movw	$9, %cx
	jmp	.LBB83_11
.LBB83_14:
	movw	$10, %cx
	jmp	.LBB83_11
.LBB83_12:
	shrl	$8, %eax
	movw	$8, %cx
	movl	%r8d, %edx
	jmp	.LBB83_20
.LBB83_16:
	movw	$12, %cx
	jmp	.LBB83_11
.LBB83_17:
	movw	$13, %cx
.LBB83_11:
	xorl	%eax, %eax
	movl	%r8d, %edx
	jmp	.LBB83_20
	.section	.rdata,"dr"
	.p2align	2, 0x0
.LJTI83_0:
	.long	.LBB83_10-.LJTI83_0
	.long	.LBB83_12-.LJTI83_0
	.long	.LBB83_13-.LJTI83_0
	.long	.LBB83_14-.LJTI83_0
	.long	.LBB83_15-.LJTI83_0
	.long	.LBB83_16-.LJTI83_0
	.long	.LBB83_17-.LJTI83_0
	.text
	.seh_endproc

	.def	"ecc200_calls::answer::answer_words::<#89b91c89c42b4f6f>";
	.scl	3;
	.type	32;
	.endef
	.p2align	4
"ecc200_calls::answer::answer_words::<#89b91c89c42b4f6f>":
.seh_proc "ecc200_calls::answer::answer_words::<#89b91c89c42b4f6f>"
	pushq	%r15
	.seh_pushreg %r15
	pushq	%r14
	.seh_pushreg %r14
	pushq	%r13
	.seh_pushreg %r13
	pushq	%r12
	.seh_pushreg %r12
	pushq	%rsi
	.seh_pushreg %rsi
	pushq	%rdi
	.seh_pushreg %rdi
	pushq	%rbp
	.seh_pushreg %rbp
	pushq	%rbx
	.seh_pushreg %rbx
	subq	$1864, %rsp
	.seh_stackalloc 1864
	movaps	%xmm6, 1840(%rsp)
	.seh_savexmm %xmm6, 1840
	.seh_endprologue
	movq	%r9, %rsi
	movq	%r8, %rdi
	movq	%rdx, %rbx
	movl	%ecx, %ebp
	xorps	%xmm6, %xmm6
	movaps	%xmm6, 144(%rsp)
	movaps	%xmm6, 128(%rsp)
	movaps	%xmm6, 112(%rsp)
	movaps	%xmm6, 96(%rsp)
	movaps	%xmm6, 80(%rsp)
	leaq	20(%rdx), %r15
	movzwl	12(%rdx), %r14d
	leaq	168(%rsp), %rcx
	movl	$1664, %r8d
	xorl	%edx, %edx
	callq	memset
	movaps	%xmm6, 64(%rsp)
	movaps	%xmm6, 48(%rsp)
	leaq	174(%rsp), %r13
	leaq	1016(%rsp), %r12
	movq	%r12, 40(%rsp)
	movq	%r13, 32(%rsp)
	leaq	48(%rsp), %rcx
	movl	%ebp, %edx
	movq	%r15, %r8
	movq	%r14, %r9
	callq	"dm_words::contents::reading::read_content"
	cmpb	$0, 48(%rsp)
	je	.LBB84_4
	movzbl	50(%rsp), %eax
	movzwl	52(%rsp), %r8d
	cmpl	$2, %eax
	je	.LBB84_7
	cmpl	$1, %eax
	jne	.LBB84_8
	xorl	%eax, %eax
	movw	$20, %cx
	jmp	.LBB84_23
.LBB84_4:
	movq	56(%rsp), %rdx
	movq	64(%rsp), %rcx
	movq	72(%rsp), %rax
	movl	%edx, %r9d
	shrl	$8, %r9d
	movq	%rdx, %r8
	shrq	$16, %r8
	movb	%dl, 168(%rsp)
	movb	%r9b, 169(%rsp)
	movl	%r8d, 170(%rsp)
	movq	%rcx, 1008(%rsp)
	movq	%rax, 1832(%rsp)
	xorl	%r10d, %r10d
	testb	%r9b, %r9b
	setne	%r10b
	xorl	%r11d, %r11d
	testb	%dl, %dl
	leaq	1(%r10,%r10,2), %r9
	cmovneq	%r9, %r11
	movb	$1, %r9b
	subq	%r11, %r14
	je	.LBB84_28
	cmpq	$1, %r14
	jne	.LBB84_10
	cmpb	$-24, (%r15,%r11)
	sete	%r9b
	incb	%r9b
	jmp	.LBB84_28
.LBB84_7:
	movw	$21, %cx
	xorl	%eax, %eax
	jmp	.LBB84_23
.LBB84_8:
	movzwl	54(%rsp), %edx
	movzwl	%r8w, %eax
	movzbl	%al, %ecx
	leaq	.LJTI84_0(%rip), %r8
	movslq	(%r8,%rcx,4), %rcx
	addq	%r8, %rcx
	jmpq	*%rcx
.LBB84_9:
	movw	$7, %cx
	jmp	.LBB84_21
.LBB84_10:
	movzbl	(%r15,%r11), %r10d
	movb	$2, %r9b
	cmpl	$232, %r10d
	je	.LBB84_28
	cmpb	$-24, 1(%r15,%r11)
	jne	.LBB84_27
	movb	$3, %r9b
	leal	-230(%r10), %r11d
	cmpl	$11, %r11d
	ja	.LBB84_24
	addq	$-2, %r14
	leaq	.LJTI84_1(%rip), %r15
	movslq	(%r15,%r11,4), %r11
	addq	%r15, %r11
	jmpq	*%r11
.LBB84_14:
	testq	%r14, %r14
	jne	.LBB84_27
	jmp	.LBB84_28
.LBB84_15:
	movw	$11, %cx
	jmp	.LBB84_21
.LBB84_16:
	movw	$9, %cx
	jmp	.LBB84_21
.LBB84_17:
	movw	$10, %cx
	jmp	.LBB84_21
.LBB84_18:
	shrl	$8, %eax
	movw	$8, %cx
	jmp	.LBB84_22
.LBB84_19:
	movw	$12, %cx
	jmp	.LBB84_21
.LBB84_20:
	movw	$13, %cx
.LBB84_21:
	xorl	%eax, %eax
.LBB84_22:
	movl	%edx, %r8d
.LBB84_23:
	movw	%cx, (%rsi)
	movw	%ax, 2(%rsi)
	movw	%r8w, 4(%rsi)
	xorps	%xmm0, %xmm0
	movups	%xmm0, 6(%rsi)
	movq	$0, 22(%rsi)
	jmp	.LBB84_29
.LBB84_24:
	testl	%r10d, %r10d
	je	.LBB84_27
	cmpl	$129, %r10d
	je	.LBB84_27
.LBB84_26:
	cmpb	$-26, %r10b
	jb	.LBB84_28
.LBB84_27:
	movb	$1, %r9b
.LBB84_28:
	leal	3(%r9), %r10d
	testq	%rax, %rax
	movzbl	%r9b, %r9d
	movzbl	%r10b, %r10d
	cmovel	%r9d, %r10d
	movl	16(%rbx), %r9d
	movl	%r9d, 96(%rsp)
	movups	(%rbx), %xmm0
	movaps	%xmm0, 80(%rsp)
	movw	%dx, 100(%rsp)
	movl	%r8d, 102(%rsp)
	movq	%r13, 112(%rsp)
	movq	%rcx, 120(%rsp)
	movq	%r12, 128(%rsp)
	movq	%rax, 136(%rsp)
	movb	%r10b, 144(%rsp)
	movq	%rdi, 152(%rsp)
	leaq	80(%rsp), %rcx
	movq	%rsi, %rdx
	callq	"ecc200_calls::reading::ReadingAnswer::show"
.LBB84_29:
	movaps	1840(%rsp), %xmm6
	addq	$1864, %rsp
	popq	%rbx
	popq	%rbp
	popq	%rdi
	popq	%rsi
	popq	%r12
	popq	%r13
	popq	%r14
	popq	%r15
	retq
.LBB84_30:
	cmpq	$2, %r14
	jae	.LBB84_27
	jmp	.LBB84_28
	.section	.rdata,"dr"
	.p2align	2, 0x0
.LJTI84_0:
	.long	.LBB84_9-.LJTI84_0
	.long	.LBB84_18-.LJTI84_0
	.long	.LBB84_16-.LJTI84_0
	.long	.LBB84_17-.LJTI84_0
	.long	.LBB84_15-.LJTI84_0
	.long	.LBB84_19-.LJTI84_0
	.long	.LBB84_20-.LJTI84_0
.LJTI84_1:
	.long	.LBB84_14-.LJTI84_1
	.long	.LBB84_27-.LJTI84_1
	.long	.LBB84_26-.LJTI84_1
	.long	.LBB84_26-.LJTI84_1
	.long	.LBB84_26-.LJTI84_1
	.long	.LBB84_27-.LJTI84_1
	.long	.LBB84_28-.LJTI84_1
	.long	.LBB84_28-.LJTI84_1
	.long	.LBB84_14-.LJTI84_1
	.long	.LBB84_14-.LJTI84_1
	.long	.LBB84_30-.LJTI84_1
	.long	.LBB84_27-.LJTI84_1
	.text
	.seh_endproc

	.def	"ecc200_calls::answer::answer_given::<#a1ea276ad3ef9c9c>";
	.scl	3;
	.type	32;
	.endef
	.section	.rdata,"dr"
	.p2align	4, 0x0
.LCPI85_0:
	.byte	241
	.byte	241
	.byte	241
	.byte	241
	.byte	241
	.byte	241
	.byte	241
	.byte	241
	.zero	1
	.zero	1
	.zero	1
	.zero	1
	.zero	1
	.zero	1
	.zero	1
	.zero	1
.LCPI85_1:
	.short	1
	.short	1
	.short	1
	.short	1
	.short	1
	.short	1
	.short	1
	.short	1
	.text
	.p2align	4
"ecc200_calls::answer::answer_given::<#a1ea276ad3ef9c9c>":
.seh_proc "ecc200_calls::answer::answer_given::<#a1ea276ad3ef9c9c>"
	pushq	%r15
	.seh_pushreg %r15
	pushq	%r14
	.seh_pushreg %r14
	pushq	%rsi
	.seh_pushreg %rsi
	pushq	%rdi
	.seh_pushreg %rdi
	pushq	%rbx
	.seh_pushreg %rbx
	subq	$1360, %rsp
	.seh_stackalloc 1360
	.seh_endprologue
	movq	%r9, %r14
	movq	%r8, %rdi
	movq	%rdx, %rbx
	movq	1456(%rsp), %rsi
	movq	1440(%rsp), %r15
	movq	1448(%rsp), %rax
	movzwl	8(%rcx), %edx
	movw	%dx, 96(%rsp)
	movq	(%rcx), %rcx
	movq	%rcx, 88(%rsp)
	movdqu	(%rax), %xmm0
	movdqa	%xmm0, 160(%rsp)
	movq	14(%rax), %rax
	movq	%rax, 174(%rsp)
	movq	$0, 72(%rsp)
	movw	$0, 80(%rsp)
	leaq	208(%rsp), %rcx
	movl	$1152, %r8d
	xorl	%edx, %edx
	callq	memset
	pxor	%xmm0, %xmm0
	movdqu	%xmm0, 105(%rsp)
	movdqu	%xmm0, 121(%rsp)
	movdqu	%xmm0, 136(%rsp)
	movb	$0, 104(%rsp)
	movq	$0, 152(%rsp)
	leaq	104(%rsp), %rax
	movq	%rax, 64(%rsp)
	leaq	188(%rsp), %rax
	movq	%rax, 56(%rsp)
	leaq	160(%rsp), %rax
	movq	%rax, 48(%rsp)
	movq	%r15, 40(%rsp)
	movq	%r14, 32(%rsp)
	leaq	72(%rsp), %rcx
	leaq	88(%rsp), %rdx
	movq	%rbx, %r8
	movq	%rdi, %r9
	callq	"ecc200_calls::restoring::restore_given::<=104,=1152>"
	cmpb	$0, 72(%rsp)
	je	.LBB85_1
	movzbl	74(%rsp), %ecx
	movzwl	76(%rsp), %eax
	testl	%ecx, %ecx
	je	.LBB85_12
	cmpl	$2, %ecx
	jne	.LBB85_14
	movzwl	78(%rsp), %edx
	cmpb	$2, %al
	je	.LBB85_27
	movzbl	%al, %eax
	cmpl	$1, %eax
	jne	.LBB85_18
	movw	$20, %cx
	jmp	.LBB85_28
.LBB85_1:
	movzbl	92(%rsp), %ecx
	movzwl	200(%rsp), %eax
	testq	%rax, %rax
	je	.LBB85_9
	cmpw	$8, %ax
	jae	.LBB85_4
	xorl	%r8d, %r8d
	xorl	%edx, %edx
	jmp	.LBB85_7
.LBB85_12:
	xorl	%edx, %edx
	movw	$5, %cx
	jmp	.LBB85_29
.LBB85_14:
	movzbl	75(%rsp), %edx
	movw	$6, %cx
	jmp	.LBB85_28
.LBB85_4:
	movl	%eax, %edx
	andl	$-8, %edx
	pxor	%xmm0, %xmm0
	xorl	%r8d, %r8d
	.p2align	4
.LBB85_5:
	movq	208(%rsp,%r8), %xmm1
	pcmpeqb	.LCPI85_0(%rip), %xmm1
	pmovzxbw	%xmm1, %xmm1
	pand	.LCPI85_1(%rip), %xmm1
	paddw	%xmm1, %xmm0
	addq	$8, %r8
	cmpq	%r8, %rdx
	jne	.LBB85_5
	pshufd	$238, %xmm0, %xmm1
	paddw	%xmm0, %xmm1
	pshufd	$85, %xmm1, %xmm0
	paddw	%xmm1, %xmm0
	movdqa	%xmm0, %xmm1
	psrld	$16, %xmm1
	paddw	%xmm0, %xmm1
	movd	%xmm1, %r8d
	cmpl	%eax, %edx
	je	.LBB85_8
	.p2align	4
.LBB85_7:
	xorl	%r9d, %r9d
	cmpb	$-15, 208(%rsp,%rdx)
	sete	%r9b
	addl	%r9d, %r8d
	incq	%rdx
	cmpq	%rdx, %rax
	jne	.LBB85_7
.LBB85_8:
	cmpw	$31, %r8w
	ja	.LBB85_10
.LBB85_9:
	leaq	188(%rsp), %rdx
	leaq	104(%rsp), %r8
	movq	%rsi, %r9
	callq	"ecc200_calls::answer::answer_words::<#2daa1641b6f7fb38>"
	jmp	.LBB85_30
.LBB85_10:
	leaq	188(%rsp), %rdx
	leaq	104(%rsp), %r8
	movq	%rsi, %r9
	callq	"ecc200_calls::answer::answer_words::<#2d40c0c0409bdcb2>"
	jmp	.LBB85_30
.LBB85_27:
	movw	$21, %cx
.LBB85_28:
	xorl	%eax, %eax
.LBB85_29:
	movw	%cx, (%rsi)
	movw	%ax, 2(%rsi)
	movw	%dx, 4(%rsi)
	pxor	%xmm0, %xmm0
	movdqu	%xmm0, 6(%rsi)
	movq	$0, 22(%rsi)
.LBB85_30:
	addq	$1360, %rsp
	popq	%rbx
	popq	%rdi
	popq	%rsi
	popq	%r14
	popq	%r15
	retq
.LBB85_18:
	movzwl	80(%rsp), %r8d
	movzwl	%dx, %eax
	movzbl	%al, %ecx
	leaq	.LJTI85_0(%rip), %rdx
	movslq	(%rdx,%rcx,4), %rcx
	addq	%rdx, %rcx
	jmpq	*%rcx
.LBB85_19:
	movw	$7, %cx
	jmp	.LBB85_20
.LBB85_24:
	movw	$11, %cx
	jmp	.LBB85_20
.LBB85_22:
	movw	$9, %cx
	jmp	.LBB85_20
.LBB85_23:
	movw	$10, %cx
	jmp	.LBB85_20
.LBB85_21:
	shrl	$8, %eax
	movw	$8, %cx
	movl	%r8d, %edx
	jmp	.LBB85_29
.LBB85_25:
	movw	$12, %cx
	jmp	.LBB85_20
.LBB85_26:
	movw	$13, %cx
.LBB85_20:
	xorl	%eax, %eax
	movl	%r8d, %edx
	jmp	.LBB85_29
	.section	.rdata,"dr"
	.p2align	2, 0x0
.LJTI85_0:
	.long	.LBB85_19-.LJTI85_0
	.long	.LBB85_21-.LJTI85_0
	.long	.LBB85_22-.LJTI85_0
	.long	.LBB85_23-.LJTI85_0
	.long	.LBB85_24-.LJTI85_0
	.long	.LBB85_25-.LJTI85_0
	.long	.LBB85_26-.LJTI85_0
	.text
	.seh_endproc

	.def	"ecc200_calls::answer::answer_words::<#2daa1641b6f7fb38>";
	.scl	3;
	.type	32;
	.endef
	.p2align	4
"ecc200_calls::answer::answer_words::<#2daa1641b6f7fb38>":
.seh_proc "ecc200_calls::answer::answer_words::<#2daa1641b6f7fb38>"
	pushq	%r15
	.seh_pushreg %r15
	pushq	%r14
	.seh_pushreg %r14
	pushq	%r13
	.seh_pushreg %r13
	pushq	%r12
	.seh_pushreg %r12
	pushq	%rsi
	.seh_pushreg %rsi
	pushq	%rdi
	.seh_pushreg %rdi
	pushq	%rbp
	.seh_pushreg %rbp
	pushq	%rbx
	.seh_pushreg %rbx
	subq	$3736, %rsp
	.seh_stackalloc 3736
	movaps	%xmm6, 3712(%rsp)
	.seh_savexmm %xmm6, 3712
	.seh_endprologue
	movq	%r9, %rsi
	movq	%r8, %rdi
	movq	%rdx, %rbx
	movl	%ecx, %ebp
	xorps	%xmm6, %xmm6
	movaps	%xmm6, 144(%rsp)
	movaps	%xmm6, 128(%rsp)
	movaps	%xmm6, 112(%rsp)
	movaps	%xmm6, 96(%rsp)
	movaps	%xmm6, 80(%rsp)
	leaq	20(%rdx), %r15
	movzwl	12(%rdx), %r14d
	leaq	160(%rsp), %rcx
	movl	$3544, %r8d
	xorl	%edx, %edx
	callq	memset
	movaps	%xmm6, 64(%rsp)
	movaps	%xmm6, 48(%rsp)
	leaq	166(%rsp), %r13
	leaq	3456(%rsp), %r12
	movq	%r12, 40(%rsp)
	movq	%r13, 32(%rsp)
	leaq	48(%rsp), %rcx
	movl	%ebp, %edx
	movq	%r15, %r8
	movq	%r14, %r9
	callq	"dm_words::contents::reading::read_content"
	cmpb	$0, 48(%rsp)
	je	.LBB86_4
	movzbl	50(%rsp), %eax
	movzwl	52(%rsp), %r8d
	cmpl	$2, %eax
	je	.LBB86_7
	cmpl	$1, %eax
	jne	.LBB86_8
	xorl	%eax, %eax
	movw	$20, %cx
	jmp	.LBB86_23
.LBB86_4:
	movq	56(%rsp), %rdx
	movq	64(%rsp), %rcx
	movq	72(%rsp), %rax
	movl	%edx, %r9d
	shrl	$8, %r9d
	movq	%rdx, %r8
	shrq	$16, %r8
	movb	%dl, 160(%rsp)
	movb	%r9b, 161(%rsp)
	movl	%r8d, 162(%rsp)
	movq	%rcx, 3448(%rsp)
	movq	%rax, 3704(%rsp)
	xorl	%r10d, %r10d
	testb	%r9b, %r9b
	setne	%r10b
	xorl	%r11d, %r11d
	testb	%dl, %dl
	leaq	1(%r10,%r10,2), %r9
	cmovneq	%r9, %r11
	movb	$1, %r9b
	subq	%r11, %r14
	je	.LBB86_28
	cmpq	$1, %r14
	jne	.LBB86_10
	cmpb	$-24, (%r15,%r11)
	sete	%r9b
	incb	%r9b
	jmp	.LBB86_28
.LBB86_7:
	movw	$21, %cx
	xorl	%eax, %eax
	jmp	.LBB86_23
.LBB86_8:
	movzwl	54(%rsp), %edx
	movzwl	%r8w, %eax
	movzbl	%al, %ecx
	leaq	.LJTI86_0(%rip), %r8
	movslq	(%r8,%rcx,4), %rcx
	addq	%r8, %rcx
	jmpq	*%rcx
.LBB86_9:
	movw	$7, %cx
	jmp	.LBB86_21
.LBB86_10:
	movzbl	(%r15,%r11), %r10d
	movb	$2, %r9b
	cmpl	$232, %r10d
	je	.LBB86_28
	cmpb	$-24, 1(%r15,%r11)
	jne	.LBB86_27
	movb	$3, %r9b
	leal	-230(%r10), %r11d
	cmpl	$11, %r11d
	ja	.LBB86_24
	addq	$-2, %r14
	leaq	.LJTI86_1(%rip), %r15
	movslq	(%r15,%r11,4), %r11
	addq	%r15, %r11
	jmpq	*%r11
.LBB86_14:
	testq	%r14, %r14
	jne	.LBB86_27
	jmp	.LBB86_28
.LBB86_15:
	movw	$11, %cx
	jmp	.LBB86_21
.LBB86_16:
	movw	$9, %cx
	jmp	.LBB86_21
.LBB86_17:
	movw	$10, %cx
	jmp	.LBB86_21
.LBB86_18:
	shrl	$8, %eax
	movw	$8, %cx
	jmp	.LBB86_22
.LBB86_19:
	movw	$12, %cx
	jmp	.LBB86_21
.LBB86_20:
	movw	$13, %cx
.LBB86_21:
	xorl	%eax, %eax
.LBB86_22:
	movl	%edx, %r8d
.LBB86_23:
	movw	%cx, (%rsi)
	movw	%ax, 2(%rsi)
	movw	%r8w, 4(%rsi)
	xorps	%xmm0, %xmm0
	movups	%xmm0, 6(%rsi)
	movq	$0, 22(%rsi)
	jmp	.LBB86_29
.LBB86_24:
	testl	%r10d, %r10d
	je	.LBB86_27
	cmpl	$129, %r10d
	je	.LBB86_27
.LBB86_26:
	cmpb	$-26, %r10b
	jb	.LBB86_28
.LBB86_27:
	movb	$1, %r9b
.LBB86_28:
	leal	3(%r9), %r10d
	testq	%rax, %rax
	movzbl	%r9b, %r9d
	movzbl	%r10b, %r10d
	cmovel	%r9d, %r10d
	movl	16(%rbx), %r9d
	movl	%r9d, 96(%rsp)
	movups	(%rbx), %xmm0
	movaps	%xmm0, 80(%rsp)
	movw	%dx, 100(%rsp)
	movl	%r8d, 102(%rsp)
	movq	%r13, 112(%rsp)
	movq	%rcx, 120(%rsp)
	movq	%r12, 128(%rsp)
	movq	%rax, 136(%rsp)
	movb	%r10b, 144(%rsp)
	movq	%rdi, 152(%rsp)
	leaq	80(%rsp), %rcx
	movq	%rsi, %rdx
	callq	"ecc200_calls::reading::ReadingAnswer::show"
.LBB86_29:
	movaps	3712(%rsp), %xmm6
	addq	$3736, %rsp
	popq	%rbx
	popq	%rbp
	popq	%rdi
	popq	%rsi
	popq	%r12
	popq	%r13
	popq	%r14
	popq	%r15
	retq
.LBB86_30:
	cmpq	$2, %r14
	jae	.LBB86_27
	jmp	.LBB86_28
	.section	.rdata,"dr"
	.p2align	2, 0x0
.LJTI86_0:
	.long	.LBB86_9-.LJTI86_0
	.long	.LBB86_18-.LJTI86_0
	.long	.LBB86_16-.LJTI86_0
	.long	.LBB86_17-.LJTI86_0
	.long	.LBB86_15-.LJTI86_0
	.long	.LBB86_19-.LJTI86_0
	.long	.LBB86_20-.LJTI86_0
.LJTI86_1:
	.long	.LBB86_14-.LJTI86_1
	.long	.LBB86_27-.LJTI86_1
	.long	.LBB86_26-.LJTI86_1
	.long	.LBB86_26-.LJTI86_1
	.long	.LBB86_26-.LJTI86_1
	.long	.LBB86_27-.LJTI86_1
	.long	.LBB86_28-.LJTI86_1
	.long	.LBB86_28-.LJTI86_1
	.long	.LBB86_14-.LJTI86_1
	.long	.LBB86_14-.LJTI86_1
	.long	.LBB86_30-.LJTI86_1
	.long	.LBB86_27-.LJTI86_1
	.text
	.seh_endproc

	.def	"ecc200_calls::answer::answer_words::<#2d40c0c0409bdcb2>";
	.scl	3;
	.type	32;
	.endef
	.p2align	4
"ecc200_calls::answer::answer_words::<#2d40c0c0409bdcb2>":
.seh_proc "ecc200_calls::answer::answer_words::<#2d40c0c0409bdcb2>"
	pushq	%r15
	.seh_pushreg %r15
	pushq	%r14
	.seh_pushreg %r14
	pushq	%r13
	.seh_pushreg %r13
	pushq	%r12
	.seh_pushreg %r12
	pushq	%rsi
	.seh_pushreg %rsi
	pushq	%rdi
	.seh_pushreg %rdi
	pushq	%rbp
	.seh_pushreg %rbp
	pushq	%rbx
	.seh_pushreg %rbx
	movl	$6760, %eax
	callq	___chkstk_ms
	subq	%rax, %rsp
	.seh_stackalloc 6760
	movaps	%xmm6, 6736(%rsp)
	.seh_savexmm %xmm6, 6736
	.seh_endprologue
	movq	%r9, %rsi
	movq	%r8, %rdi
	movq	%rdx, %rbx
	movl	%ecx, %ebp
	xorps	%xmm6, %xmm6
	movaps	%xmm6, 144(%rsp)
	movaps	%xmm6, 128(%rsp)
	movaps	%xmm6, 112(%rsp)
	movaps	%xmm6, 96(%rsp)
	movaps	%xmm6, 80(%rsp)
	leaq	20(%rdx), %r15
	movzwl	12(%rdx), %r14d
	leaq	168(%rsp), %rcx
	movl	$6560, %r8d
	xorl	%edx, %edx
	callq	memset
	movaps	%xmm6, 64(%rsp)
	movaps	%xmm6, 48(%rsp)
	leaq	174(%rsp), %r13
	leaq	3464(%rsp), %r12
	movq	%r12, 40(%rsp)
	movq	%r13, 32(%rsp)
	leaq	48(%rsp), %rcx
	movl	%ebp, %edx
	movq	%r15, %r8
	movq	%r14, %r9
	callq	"dm_words::contents::reading::read_content"
	cmpb	$0, 48(%rsp)
	je	.LBB87_4
	movzbl	50(%rsp), %eax
	movzwl	52(%rsp), %r8d
	cmpl	$2, %eax
	je	.LBB87_7
	cmpl	$1, %eax
	jne	.LBB87_8
	xorl	%eax, %eax
	movw	$20, %cx
	jmp	.LBB87_23
.LBB87_4:
	movq	56(%rsp), %rdx
	movq	64(%rsp), %rcx
	movq	72(%rsp), %rax
	movl	%edx, %r9d
	shrl	$8, %r9d
	movq	%rdx, %r8
	shrq	$16, %r8
	movb	%dl, 168(%rsp)
	movb	%r9b, 169(%rsp)
	movl	%r8d, 170(%rsp)
	movq	%rcx, 3456(%rsp)
	movq	%rax, 6728(%rsp)
	xorl	%r10d, %r10d
	testb	%r9b, %r9b
	setne	%r10b
	xorl	%r11d, %r11d
	testb	%dl, %dl
	leaq	1(%r10,%r10,2), %r9
	cmovneq	%r9, %r11
	movb	$1, %r9b
	subq	%r11, %r14
	je	.LBB87_28
	cmpq	$1, %r14
	jne	.LBB87_10
	cmpb	$-24, (%r15,%r11)
	sete	%r9b
	incb	%r9b
	jmp	.LBB87_28
.LBB87_7:
	movw	$21, %cx
	xorl	%eax, %eax
	jmp	.LBB87_23
.LBB87_8:
	movzwl	54(%rsp), %edx
	movzwl	%r8w, %eax
	movzbl	%al, %ecx
	leaq	.LJTI87_0(%rip), %r8
	movslq	(%r8,%rcx,4), %rcx
	addq	%r8, %rcx
	jmpq	*%rcx
.LBB87_9:
	movw	$7, %cx
	jmp	.LBB87_21
.LBB87_10:
	movzbl	(%r15,%r11), %r10d
	movb	$2, %r9b
	cmpl	$232, %r10d
	je	.LBB87_28
	cmpb	$-24, 1(%r15,%r11)
	jne	.LBB87_27
	movb	$3, %r9b
	leal	-230(%r10), %r11d
	cmpl	$11, %r11d
	ja	.LBB87_24
	addq	$-2, %r14
	leaq	.LJTI87_1(%rip), %r15
	movslq	(%r15,%r11,4), %r11
	addq	%r15, %r11
	jmpq	*%r11
.LBB87_14:
	testq	%r14, %r14
	jne	.LBB87_27
	jmp	.LBB87_28
.LBB87_15:
	movw	$11, %cx
	jmp	.LBB87_21
.LBB87_16:
	movw	$9, %cx
	jmp	.LBB87_21
.LBB87_17:
	movw	$10, %cx
	jmp	.LBB87_21
.LBB87_18:
	shrl	$8, %eax
	movw	$8, %cx
	jmp	.LBB87_22
.LBB87_19:
	movw	$12, %cx
	jmp	.LBB87_21
.LBB87_20:
	movw	$13, %cx
.LBB87_21:
	xorl	%eax, %eax
.LBB87_22:
	movl	%edx, %r8d
.LBB87_23:
	movw	%cx, (%rsi)
	movw	%ax, 2(%rsi)
	movw	%r8w, 4(%rsi)
	xorps	%xmm0, %xmm0
	movups	%xmm0, 6(%rsi)
	movq	$0, 22(%rsi)
	jmp	.LBB87_29
.LBB87_24:
	testl	%r10d, %r10d
	je	.LBB87_27
	cmpl	$129, %r10d
	je	.LBB87_27
.LBB87_26:
	cmpb	$-26, %r10b
	jb	.LBB87_28
.LBB87_27:
	movb	$1, %r9b
.LBB87_28:
	leal	3(%r9), %r10d
	testq	%rax, %rax
	movzbl	%r9b, %r9d
	movzbl	%r10b, %r10d
	cmovel	%r9d, %r10d
	movl	16(%rbx), %r9d
	movl	%r9d, 96(%rsp)
	movups	(%rbx), %xmm0
	movaps	%xmm0, 80(%rsp)
	movw	%dx, 100(%rsp)
	movl	%r8d, 102(%rsp)
	movq	%r13, 112(%rsp)
	movq	%rcx, 120(%rsp)
	movq	%r12, 128(%rsp)
	movq	%rax, 136(%rsp)
	movb	%r10b, 144(%rsp)
	movq	%rdi, 152(%rsp)
	leaq	80(%rsp), %rcx
	movq	%rsi, %rdx
	callq	"ecc200_calls::reading::ReadingAnswer::show"
.LBB87_29:
	movaps	6736(%rsp), %xmm6
	addq	$6760, %rsp
	popq	%rbx
	popq	%rbp
	popq	%rdi
	popq	%rsi
	popq	%r12
	popq	%r13
	popq	%r14
	popq	%r15
	retq
.LBB87_30:
	cmpq	$2, %r14
	jae	.LBB87_27
	jmp	.LBB87_28
	.section	.rdata,"dr"
	.p2align	2, 0x0
.LJTI87_0:
	.long	.LBB87_9-.LJTI87_0
	.long	.LBB87_18-.LJTI87_0
	.long	.LBB87_16-.LJTI87_0
	.long	.LBB87_17-.LJTI87_0
	.long	.LBB87_15-.LJTI87_0
	.long	.LBB87_19-.LJTI87_0
	.long	.LBB87_20-.LJTI87_0
.LJTI87_1:
	.long	.LBB87_14-.LJTI87_1
	.long	.LBB87_27-.LJTI87_1
	.long	.LBB87_26-.LJTI87_1
	.long	.LBB87_26-.LJTI87_1
	.long	.LBB87_26-.LJTI87_1
	.long	.LBB87_27-.LJTI87_1
	.long	.LBB87_28-.LJTI87_1
	.long	.LBB87_28-.LJTI87_1
	.long	.LBB87_14-.LJTI87_1
	.long	.LBB87_14-.LJTI87_1
	.long	.LBB87_30-.LJTI87_1
	.long	.LBB87_27-.LJTI87_1
	.text
	.seh_endproc

	.def	"ecc200_calls::answer::answer_given::<#bf8ac5d4f1318e40>";
	.scl	3;
	.type	32;
	.endef
	.section	.rdata,"dr"
	.p2align	4, 0x0
.LCPI88_0:
	.byte	241
	.byte	241
	.byte	241
	.byte	241
	.byte	241
	.byte	241
	.byte	241
	.byte	241
	.zero	1
	.zero	1
	.zero	1
	.zero	1
	.zero	1
	.zero	1
	.zero	1
	.zero	1
.LCPI88_1:
	.short	1
	.short	1
	.short	1
	.short	1
	.short	1
	.short	1
	.short	1
	.short	1
	.text
	.p2align	4
"ecc200_calls::answer::answer_given::<#bf8ac5d4f1318e40>":
.seh_proc "ecc200_calls::answer::answer_given::<#bf8ac5d4f1318e40>"
	pushq	%r15
	.seh_pushreg %r15
	pushq	%r14
	.seh_pushreg %r14
	pushq	%rsi
	.seh_pushreg %rsi
	pushq	%rdi
	.seh_pushreg %rdi
	pushq	%rbx
	.seh_pushreg %rbx
	subq	$2384, %rsp
	.seh_stackalloc 2384
	.seh_endprologue
	movq	%r9, %r14
	movq	%r8, %rdi
	movq	%rdx, %rbx
	movq	2480(%rsp), %rsi
	movq	2464(%rsp), %r15
	movq	2472(%rsp), %rax
	movzwl	8(%rcx), %edx
	movw	%dx, 96(%rsp)
	movq	(%rcx), %rcx
	movq	%rcx, 88(%rsp)
	movdqu	(%rax), %xmm0
	movdqa	%xmm0, 160(%rsp)
	movq	14(%rax), %rax
	movq	%rax, 174(%rsp)
	movq	$0, 72(%rsp)
	movw	$0, 80(%rsp)
	leaq	206(%rsp), %rcx
	movl	$2178, %r8d
	xorl	%edx, %edx
	callq	memset
	pxor	%xmm0, %xmm0
	movdqu	%xmm0, 105(%rsp)
	movdqu	%xmm0, 121(%rsp)
	movdqu	%xmm0, 136(%rsp)
	movb	$0, 104(%rsp)
	movq	$0, 152(%rsp)
	leaq	104(%rsp), %rax
	movq	%rax, 64(%rsp)
	leaq	186(%rsp), %rax
	movq	%rax, 56(%rsp)
	leaq	160(%rsp), %rax
	movq	%rax, 48(%rsp)
	movq	%r15, 40(%rsp)
	movq	%r14, 32(%rsp)
	leaq	72(%rsp), %rcx
	leaq	88(%rsp), %rdx
	movq	%rbx, %r8
	movq	%rdi, %r9
	callq	"ecc200_calls::restoring::restore_given::<=144,=2178>"
	cmpb	$0, 72(%rsp)
	je	.LBB88_1
	movzbl	74(%rsp), %ecx
	movzwl	76(%rsp), %eax
	testl	%ecx, %ecx
	je	.LBB88_12
	cmpl	$2, %ecx
	jne	.LBB88_14
	movzwl	78(%rsp), %edx
	cmpb	$2, %al
	je	.LBB88_27
	movzbl	%al, %eax
	cmpl	$1, %eax
	jne	.LBB88_18
	movw	$20, %cx
	jmp	.LBB88_28
.LBB88_1:
	movzbl	92(%rsp), %ecx
	movzwl	198(%rsp), %eax
	testq	%rax, %rax
	je	.LBB88_9
	cmpw	$8, %ax
	jae	.LBB88_4
	xorl	%r8d, %r8d
	xorl	%edx, %edx
	jmp	.LBB88_7
.LBB88_12:
	xorl	%edx, %edx
	movw	$5, %cx
	jmp	.LBB88_29
.LBB88_14:
	movzbl	75(%rsp), %edx
	movw	$6, %cx
	jmp	.LBB88_28
.LBB88_4:
	movl	%eax, %edx
	andl	$-8, %edx
	pxor	%xmm0, %xmm0
	xorl	%r8d, %r8d
	.p2align	4
.LBB88_5:
	movq	206(%rsp,%r8), %xmm1
	pcmpeqb	.LCPI88_0(%rip), %xmm1
	pmovzxbw	%xmm1, %xmm1
	pand	.LCPI88_1(%rip), %xmm1
	paddw	%xmm1, %xmm0
	addq	$8, %r8
	cmpq	%r8, %rdx
	jne	.LBB88_5
	pshufd	$238, %xmm0, %xmm1
	paddw	%xmm0, %xmm1
	pshufd	$85, %xmm1, %xmm0
	paddw	%xmm1, %xmm0
	movdqa	%xmm0, %xmm1
	psrld	$16, %xmm1
	paddw	%xmm0, %xmm1
	movd	%xmm1, %r8d
	cmpl	%eax, %edx
	je	.LBB88_8
	.p2align	4
.LBB88_7:
	xorl	%r9d, %r9d
	cmpb	$-15, 206(%rsp,%rdx)
	sete	%r9b
	addl	%r9d, %r8d
	incq	%rdx
	cmpq	%rdx, %rax
	jne	.LBB88_7
.LBB88_8:
	cmpw	$31, %r8w
	ja	.LBB88_10
.LBB88_9:
	leaq	186(%rsp), %rdx
	leaq	104(%rsp), %r8
	movq	%rsi, %r9
	callq	"ecc200_calls::answer::answer_words::<#567d55e21e7b6b5b>"
	jmp	.LBB88_30
.LBB88_10:
	leaq	186(%rsp), %rdx
	leaq	104(%rsp), %r8
	movq	%rsi, %r9
	callq	"ecc200_calls::answer::answer_words::<#26b4767b40623cca>"
	jmp	.LBB88_30
.LBB88_27:
	movw	$21, %cx
.LBB88_28:
	xorl	%eax, %eax
.LBB88_29:
	movw	%cx, (%rsi)
	movw	%ax, 2(%rsi)
	movw	%dx, 4(%rsi)
	pxor	%xmm0, %xmm0
	movdqu	%xmm0, 6(%rsi)
	movq	$0, 22(%rsi)
.LBB88_30:
	addq	$2384, %rsp
	popq	%rbx
	popq	%rdi
	popq	%rsi
	popq	%r14
	popq	%r15
	retq
.LBB88_18:
	movzwl	80(%rsp), %r8d
	movzwl	%dx, %eax
	movzbl	%al, %ecx
	leaq	.LJTI88_0(%rip), %rdx
	movslq	(%rdx,%rcx,4), %rcx
	addq	%rdx, %rcx
	jmpq	*%rcx
.LBB88_19:
	movw	$7, %cx
	jmp	.LBB88_20
.LBB88_24:
	movw	$11, %cx
	jmp	.LBB88_20
.LBB88_22:
	movw	$9, %cx
	jmp	.LBB88_20
.LBB88_23:
	movw	$10, %cx
	jmp	.LBB88_20
.LBB88_21:
	shrl	$8, %eax
	movw	$8, %cx
	movl	%r8d, %edx
	jmp	.LBB88_29
.LBB88_25:
	movw	$12, %cx
	jmp	.LBB88_20
.LBB88_26:
	movw	$13, %cx
.LBB88_20:
	xorl	%eax, %eax
	movl	%r8d, %edx
	jmp	.LBB88_29
	.section	.rdata,"dr"
	.p2align	2, 0x0
.LJTI88_0:
	.long	.LBB88_19-.LJTI88_0
	.long	.LBB88_21-.LJTI88_0
	.long	.LBB88_22-.LJTI88_0
	.long	.LBB88_23-.LJTI88_0
	.long	.LBB88_24-.LJTI88_0
	.long	.LBB88_25-.LJTI88_0
	.long	.LBB88_26-.LJTI88_0
	.text
	.seh_endproc

	.def	"ecc200_calls::answer::answer_words::<#567d55e21e7b6b5b>";
	.scl	3;
	.type	32;
	.endef
	.p2align	4
"ecc200_calls::answer::answer_words::<#567d55e21e7b6b5b>":
.seh_proc "ecc200_calls::answer::answer_words::<#567d55e21e7b6b5b>"
	pushq	%r15
	.seh_pushreg %r15
	pushq	%r14
	.seh_pushreg %r14
	pushq	%r13
	.seh_pushreg %r13
	pushq	%r12
	.seh_pushreg %r12
	pushq	%rsi
	.seh_pushreg %rsi
	pushq	%rdi
	.seh_pushreg %rdi
	pushq	%rbp
	.seh_pushreg %rbp
	pushq	%rbx
	.seh_pushreg %rbx
	movl	$6712, %eax
	callq	___chkstk_ms
	subq	%rax, %rsp
	.seh_stackalloc 6712
	movaps	%xmm6, 6688(%rsp)
	.seh_savexmm %xmm6, 6688
	.seh_endprologue
	movq	%r9, %rsi
	movq	%r8, %rdi
	movq	%rdx, %rbx
	movl	%ecx, %ebp
	xorps	%xmm6, %xmm6
	movaps	%xmm6, 144(%rsp)
	movaps	%xmm6, 128(%rsp)
	movaps	%xmm6, 112(%rsp)
	movaps	%xmm6, 96(%rsp)
	movaps	%xmm6, 80(%rsp)
	leaq	20(%rdx), %r15
	movzwl	12(%rdx), %r14d
	leaq	168(%rsp), %rcx
	movl	$6512, %r8d
	xorl	%edx, %edx
	callq	memset
	movaps	%xmm6, 64(%rsp)
	movaps	%xmm6, 48(%rsp)
	leaq	174(%rsp), %r13
	leaq	6432(%rsp), %r12
	movq	%r12, 40(%rsp)
	movq	%r13, 32(%rsp)
	leaq	48(%rsp), %rcx
	movl	%ebp, %edx
	movq	%r15, %r8
	movq	%r14, %r9
	callq	"dm_words::contents::reading::read_content"
	cmpb	$0, 48(%rsp)
	je	.LBB89_4
	movzbl	50(%rsp), %eax
	movzwl	52(%rsp), %r8d
	cmpl	$2, %eax
	je	.LBB89_7
	cmpl	$1, %eax
	jne	.LBB89_8
	xorl	%eax, %eax
	movw	$20, %cx
	jmp	.LBB89_23
.LBB89_4:
	movq	56(%rsp), %rdx
	movq	64(%rsp), %rcx
	movq	72(%rsp), %rax
	movl	%edx, %r9d
	shrl	$8, %r9d
	movq	%rdx, %r8
	shrq	$16, %r8
	movb	%dl, 168(%rsp)
	movb	%r9b, 169(%rsp)
	movl	%r8d, 170(%rsp)
	movq	%rcx, 6424(%rsp)
	movq	%rax, 6680(%rsp)
	xorl	%r10d, %r10d
	testb	%r9b, %r9b
	setne	%r10b
	xorl	%r11d, %r11d
	testb	%dl, %dl
	leaq	1(%r10,%r10,2), %r9
	cmovneq	%r9, %r11
	movb	$1, %r9b
	subq	%r11, %r14
	je	.LBB89_28
	cmpq	$1, %r14
	jne	.LBB89_10
	cmpb	$-24, (%r15,%r11)
	sete	%r9b
	incb	%r9b
	jmp	.LBB89_28
.LBB89_7:
	movw	$21, %cx
	xorl	%eax, %eax
	jmp	.LBB89_23
.LBB89_8:
	movzwl	54(%rsp), %edx
	movzwl	%r8w, %eax
	movzbl	%al, %ecx
	leaq	.LJTI89_0(%rip), %r8
	movslq	(%r8,%rcx,4), %rcx
	addq	%r8, %rcx
	jmpq	*%rcx
.LBB89_9:
	movw	$7, %cx
	jmp	.LBB89_21
.LBB89_10:
	movzbl	(%r15,%r11), %r10d
	movb	$2, %r9b
	cmpl	$232, %r10d
	je	.LBB89_28
	cmpb	$-24, 1(%r15,%r11)
	jne	.LBB89_27
	movb	$3, %r9b
	leal	-230(%r10), %r11d
	cmpl	$11, %r11d
	ja	.LBB89_24
	addq	$-2, %r14
	leaq	.LJTI89_1(%rip), %r15
	movslq	(%r15,%r11,4), %r11
	addq	%r15, %r11
	jmpq	*%r11
.LBB89_14:
	testq	%r14, %r14
	jne	.LBB89_27
	jmp	.LBB89_28
.LBB89_15:
	movw	$11, %cx
	jmp	.LBB89_21
.LBB89_16:
	movw	$9, %cx
	jmp	.LBB89_21
.LBB89_17:
	movw	$10, %cx
	jmp	.LBB89_21
.LBB89_18:
	shrl	$8, %eax
	movw	$8, %cx
	jmp	.LBB89_22
.LBB89_19:
	movw	$12, %cx
	jmp	.LBB89_21
.LBB89_20:
	movw	$13, %cx
.LBB89_21:
	xorl	%eax, %eax
.LBB89_22:
	movl	%edx, %r8d
.LBB89_23:
	movw	%cx, (%rsi)
	movw	%ax, 2(%rsi)
	movw	%r8w, 4(%rsi)
	xorps	%xmm0, %xmm0
	movups	%xmm0, 6(%rsi)
	movq	$0, 22(%rsi)
	jmp	.LBB89_29
.LBB89_24:
	testl	%r10d, %r10d
	je	.LBB89_27
	cmpl	$129, %r10d
	je	.LBB89_27
.LBB89_26:
	cmpb	$-26, %r10b
	jb	.LBB89_28
.LBB89_27:
	movb	$1, %r9b
.LBB89_28:
	leal	3(%r9), %r10d
	testq	%rax, %rax
	movzbl	%r9b, %r9d
	movzbl	%r10b, %r10d
	cmovel	%r9d, %r10d
	movl	16(%rbx), %r9d
	movl	%r9d, 96(%rsp)
	movups	(%rbx), %xmm0
	movaps	%xmm0, 80(%rsp)
	movw	%dx, 100(%rsp)
	movl	%r8d, 102(%rsp)
	movq	%r13, 112(%rsp)
	movq	%rcx, 120(%rsp)
	movq	%r12, 128(%rsp)
	movq	%rax, 136(%rsp)
	movb	%r10b, 144(%rsp)
	movq	%rdi, 152(%rsp)
	leaq	80(%rsp), %rcx
	movq	%rsi, %rdx
	callq	"ecc200_calls::reading::ReadingAnswer::show"
.LBB89_29:
	movaps	6688(%rsp), %xmm6
	addq	$6712, %rsp
	popq	%rbx
	popq	%rbp
	popq	%rdi
	popq	%rsi
	popq	%r12
	popq	%r13
	popq	%r14
	popq	%r15
	retq
.LBB89_30:
	cmpq	$2, %r14
	jae	.LBB89_27
	jmp	.LBB89_28
	.section	.rdata,"dr"
	.p2align	2, 0x0
.LJTI89_0:
	.long	.LBB89_9-.LJTI89_0
	.long	.LBB89_18-.LJTI89_0
	.long	.LBB89_16-.LJTI89_0
	.long	.LBB89_17-.LJTI89_0
	.long	.LBB89_15-.LJTI89_0
	.long	.LBB89_19-.LJTI89_0
	.long	.LBB89_20-.LJTI89_0
.LJTI89_1:
	.long	.LBB89_14-.LJTI89_1
	.long	.LBB89_27-.LJTI89_1
	.long	.LBB89_26-.LJTI89_1
	.long	.LBB89_26-.LJTI89_1
	.long	.LBB89_26-.LJTI89_1
	.long	.LBB89_27-.LJTI89_1
	.long	.LBB89_28-.LJTI89_1
	.long	.LBB89_28-.LJTI89_1
	.long	.LBB89_14-.LJTI89_1
	.long	.LBB89_14-.LJTI89_1
	.long	.LBB89_30-.LJTI89_1
	.long	.LBB89_27-.LJTI89_1
	.text
	.seh_endproc

	.def	"ecc200_calls::answer::answer_words::<#26b4767b40623cca>";
	.scl	3;
	.type	32;
	.endef
	.p2align	4
"ecc200_calls::answer::answer_words::<#26b4767b40623cca>":
.seh_proc "ecc200_calls::answer::answer_words::<#26b4767b40623cca>"
	pushq	%r15
	.seh_pushreg %r15
	pushq	%r14
	.seh_pushreg %r14
	pushq	%r13
	.seh_pushreg %r13
	pushq	%r12
	.seh_pushreg %r12
	pushq	%rsi
	.seh_pushreg %rsi
	pushq	%rdi
	.seh_pushreg %rdi
	pushq	%rbp
	.seh_pushreg %rbp
	pushq	%rbx
	.seh_pushreg %rbx
	movl	$12696, %eax
	callq	___chkstk_ms
	subq	%rax, %rsp
	.seh_stackalloc 12696
	movaps	%xmm6, 12672(%rsp)
	.seh_savexmm %xmm6, 12672
	.seh_endprologue
	movq	%r9, %rsi
	movq	%r8, %rdi
	movq	%rdx, %rbx
	movl	%ecx, %ebp
	xorps	%xmm6, %xmm6
	movaps	%xmm6, 144(%rsp)
	movaps	%xmm6, 128(%rsp)
	movaps	%xmm6, 112(%rsp)
	movaps	%xmm6, 96(%rsp)
	movaps	%xmm6, 80(%rsp)
	leaq	20(%rdx), %r15
	movzwl	12(%rdx), %r14d
	leaq	168(%rsp), %rcx
	movl	$12496, %r8d
	xorl	%edx, %edx
	callq	memset
	movaps	%xmm6, 64(%rsp)
	movaps	%xmm6, 48(%rsp)
	leaq	174(%rsp), %r13
	leaq	6432(%rsp), %r12
	movq	%r12, 40(%rsp)
	movq	%r13, 32(%rsp)
	leaq	48(%rsp), %rcx
	movl	%ebp, %edx
	movq	%r15, %r8
	movq	%r14, %r9
	callq	"dm_words::contents::reading::read_content"
	cmpb	$0, 48(%rsp)
	je	.LBB90_4
	movzbl	50(%rsp), %eax
	movzwl	52(%rsp), %r8d
	cmpl	$2, %eax
	je	.LBB90_7
	cmpl	$1, %eax
	jne	.LBB90_8
	xorl	%eax, %eax
	movw	$20, %cx
	jmp	.LBB90_23
.LBB90_4:
	movq	56(%rsp), %rdx
	movq	64(%rsp), %rcx
	movq	72(%rsp), %rax
	movl	%edx, %r9d
	shrl	$8, %r9d
	movq	%rdx, %r8
	shrq	$16, %r8
	movb	%dl, 168(%rsp)
	movb	%r9b, 169(%rsp)
	movl	%r8d, 170(%rsp)
	movq	%rcx, 6424(%rsp)
	movq	%rax, 12664(%rsp)
	xorl	%r10d, %r10d
	testb	%r9b, %r9b
	setne	%r10b
	xorl	%r11d, %r11d
	testb	%dl, %dl
	leaq	1(%r10,%r10,2), %r9
	cmovneq	%r9, %r11
	movb	$1, %r9b
	subq	%r11, %r14
	je	.LBB90_28
	cmpq	$1, %r14
	jne	.LBB90_10
	cmpb	$-24, (%r15,%r11)
	sete	%r9b
	incb	%r9b
	jmp	.LBB90_28
.LBB90_7:
	movw	$21, %cx
	xorl	%eax, %eax
	jmp	.LBB90_23
.LBB90_8:
	movzwl	54(%rsp), %edx
	movzwl	%r8w, %eax
	movzbl	%al, %ecx
	leaq	.LJTI90_0(%rip), %r8
	movslq	(%r8,%rcx,4), %rcx
	addq	%r8, %rcx
	jmpq	*%rcx
.LBB90_9:
	movw	$7, %cx
	jmp	.LBB90_21
.LBB90_10:
	movzbl	(%r15,%r11), %r10d
	movb	$2, %r9b
	cmpl	$232, %r10d
	je	.LBB90_28
	cmpb	$-24, 1(%r15,%r11)
	jne	.LBB90_27
	movb	$3, %r9b
	leal	-230(%r10), %r11d
	cmpl	$11, %r11d
	ja	.LBB90_24
	addq	$-2, %r14
	leaq	.LJTI90_1(%rip), %r15
	movslq	(%r15,%r11,4), %r11
	addq	%r15, %r11
	jmpq	*%r11
.LBB90_14:
	testq	%r14, %r14
	jne	.LBB90_27
	jmp	.LBB90_28
.LBB90_15:
	movw	$11, %cx
	jmp	.LBB90_21
.LBB90_16:
	movw	$9, %cx
	jmp	.LBB90_21
.LBB90_17:
	movw	$10, %cx
	jmp	.LBB90_21
.LBB90_18:
	shrl	$8, %eax
	movw	$8, %cx
	jmp	.LBB90_22
.LBB90_19:
	movw	$12, %cx
	jmp	.LBB90_21
.LBB90_20:
	movw	$13, %cx
.LBB90_21:
	xorl	%eax, %eax
.LBB90_22:
	movl	%edx, %r8d
.LBB90_23:
	movw	%cx, (%rsi)
	movw	%ax, 2(%rsi)
	movw	%r8w, 4(%rsi)
	xorps	%xmm0, %xmm0
	movups	%xmm0, 6(%rsi)
	movq	$0, 22(%rsi)
	jmp	.LBB90_29
.LBB90_24:
	testl	%r10d, %r10d
	je	.LBB90_27
	cmpl	$129, %r10d
	je	.LBB90_27
.LBB90_26:
	cmpb	$-26, %r10b
	jb	.LBB90_28
.LBB90_27:
	movb	$1, %r9b
.LBB90_28:
	leal	3(%r9), %r10d
	testq	%rax, %rax
	movzbl	%r9b, %r9d
	movzbl	%r10b, %r10d
	cmovel	%r9d, %r10d
	movl	16(%rbx), %r9d
	movl	%r9d, 96(%rsp)
	movups	(%rbx), %xmm0
	movaps	%xmm0, 80(%rsp)
	movw	%dx, 100(%rsp)
	movl	%r8d, 102(%rsp)
	movq	%r13, 112(%rsp)
	movq	%rcx, 120(%rsp)
	movq	%r12, 128(%rsp)
	movq	%rax, 136(%rsp)
	movb	%r10b, 144(%rsp)
	movq	%rdi, 152(%rsp)
	leaq	80(%rsp), %rcx
	movq	%rsi, %rdx
	callq	"ecc200_calls::reading::ReadingAnswer::show"
.LBB90_29:
	movaps	12672(%rsp), %xmm6
	addq	$12696, %rsp
	popq	%rbx
	popq	%rbp
	popq	%rdi
	popq	%rsi
	popq	%r12
	popq	%r13
	popq	%r14
	popq	%r15
	retq
.LBB90_30:
	cmpq	$2, %r14
	jae	.LBB90_27
	jmp	.LBB90_28
	.section	.rdata,"dr"
	.p2align	2, 0x0
.LJTI90_0:
	.long	.LBB90_9-.LJTI90_0
	.long	.LBB90_18-.LJTI90_0
	.long	.LBB90_16-.LJTI90_0
	.long	.LBB90_17-.LJTI90_0
	.long	.LBB90_15-.LJTI90_0
	.long	.LBB90_19-.LJTI90_0
	.long	.LBB90_20-.LJTI90_0
.LJTI90_1:
	.long	.LBB90_14-.LJTI90_1
	.long	.LBB90_27-.LJTI90_1
	.long	.LBB90_26-.LJTI90_1
	.long	.LBB90_26-.LJTI90_1
	.long	.LBB90_26-.LJTI90_1
	.long	.LBB90_27-.LJTI90_1
	.long	.LBB90_28-.LJTI90_1
	.long	.LBB90_28-.LJTI90_1
	.long	.LBB90_14-.LJTI90_1
	.long	.LBB90_14-.LJTI90_1
	.long	.LBB90_30-.LJTI90_1
	.long	.LBB90_27-.LJTI90_1
	.text
	.seh_endproc

	.def	"ecc200_calls::how::check_how";
	.scl	3;
	.type	32;
	.endef
	.p2align	4
"ecc200_calls::how::check_how":
.seh_proc "ecc200_calls::how::check_how"
	pushq	%rsi
	.seh_pushreg %rsi
	pushq	%rdi
	.seh_pushreg %rdi
	pushq	%rbx
	.seh_pushreg %rbx
	.seh_endprologue
	movzwl	(%rdx), %eax
	movzwl	2(%rdx), %r8d
	movss	4(%rdx), %xmm1
	movq	10(%rdx), %r9
	testl	%eax, %eax
	je	.LBB91_10
	cmpl	$2, %eax
	je	.LBB91_4
	movw	$16, %dx
	cmpl	$1, %eax
	jne	.LBB91_8
	movw	$256, %ax
	jmp	.LBB91_10
.LBB91_4:
	movzwl	8(%rdx), %eax
	testl	%eax, %eax
	je	.LBB91_5
	cmpl	$1, %eax
	jne	.LBB91_7
	movw	$1, %ax
	jmp	.LBB91_10
.LBB91_5:
	movw	$257, %ax
.LBB91_10:
	movzwl	%r8w, %edx
	xorps	%xmm0, %xmm0
	cmpl	$4, %edx
	jb	.LBB91_12
	movaps	%xmm1, %xmm0
	jne	.LBB91_28
.LBB91_12:
	cmpw	$2, %r9w
	je	.LBB91_24
	movzwl	%r9w, %edx
	cmpl	$1, %edx
	je	.LBB91_16
	testl	%edx, %edx
	jne	.LBB91_31
	cmpq	$65536, %r9
	setb	%sil
	xorl	%r9d, %r9d
	xorl	%r10d, %r10d
	jmp	.LBB91_25
.LBB91_16:
	movq	%r9, %r10
	shrq	$16, %r10
	movq	%r9, %r11
	shrq	$32, %r11
	cmpw	$17, %r10w
	setae	%dl
	cmpw	$17, %r11w
	setae	%bl
	orb	%dl, %bl
	jne	.LBB91_31
	movq	%r9, %rdi
	shrq	$48, %rdi
	shrq	$56, %r9
	xorl	%edx, %edx
	testb	%r10b, %r10b
	je	.LBB91_18
	leal	-1(%rdi), %ebx
	xorl	%esi, %esi
	cmpb	$-3, %bl
	ja	.LBB91_23
	cmpb	%r11b, %r10b
	ja	.LBB91_23
	leal	-2(%r11), %ebx
	cmpb	$14, %bl
	ja	.LBB91_23
	leal	-1(%r9), %esi
	cmpb	$-2, %sil
	setb	%sil
	jmp	.LBB91_23
.LBB91_24:
	cmpq	$65536, %r9
	setb	%sil
	xorl	%r10d, %r10d
	movl	%esi, %r9d
.LBB91_25:
	xorl	%edx, %edx
.LBB91_26:
	testb	%sil, %sil
	je	.LBB91_31
	movw	$0, (%rcx)
	movw	%ax, 2(%rcx)
	movw	%r8w, 4(%rcx)
	movss	%xmm0, 6(%rcx)
	movb	%r9b, 10(%rcx)
	movb	%r10b, 11(%rcx)
	movl	%edx, 12(%rcx)
	jmp	.LBB91_30
.LBB91_31:
	movl	$1507329, (%rcx)
	movq	$0, 4(%rcx)
	movl	$0, 12(%rcx)
	jmp	.LBB91_30
.LBB91_28:
	movl	$1179649, (%rcx)
	movw	%r8w, 4(%rcx)
	jmp	.LBB91_29
.LBB91_7:
	movw	$17, %dx
.LBB91_8:
	movw	$1, (%rcx)
	movw	%dx, 2(%rcx)
	movw	%ax, 4(%rcx)
.LBB91_29:
	movq	$0, 6(%rcx)
	movw	$0, 14(%rcx)
.LBB91_30:
	popq	%rbx
	popq	%rdi
	popq	%rsi
	retq
.LBB91_18:
	xorl	%esi, %esi
.LBB91_23:
	shll	$24, %r9d
	movzbl	%dil, %edi
	shll	$16, %edi
	orl	%r9d, %edi
	andl	$31, %r11d
	shll	$8, %r11d
	orl	%edi, %r11d
	andl	$31, %r10d
	orl	%r11d, %r10d
	testb	%sil, %sil
	cmovnel	%r10d, %edx
	movl	%esi, %r9d
	movl	%esi, %r10d
	jmp	.LBB91_26
	.seh_endproc

	.def	"ecc200_calls::writing::write_content_of::<#d4a6cd8012f658d3>";
	.scl	3;
	.type	32;
	.endef
	.section	.rdata,"dr"
	.p2align	4, 0x0
.LCPI92_0:
	.short	255
	.short	255
	.short	255
	.short	255
	.short	255
	.short	255
	.short	255
	.short	255
.LCPI92_1:
	.byte	1
	.byte	1
	.byte	1
	.byte	1
	.byte	1
	.byte	1
	.byte	1
	.byte	1
	.zero	1
	.zero	1
	.zero	1
	.zero	1
	.zero	1
	.zero	1
	.zero	1
	.zero	1
.LCPI92_2:
	.short	256
	.short	256
	.short	256
	.short	256
	.short	256
	.short	256
	.short	256
	.short	256
.LCPI92_3:
	.byte	0
	.byte	2
	.byte	4
	.byte	6
	.byte	8
	.byte	10
	.byte	12
	.byte	14
	.zero	1
	.zero	1
	.zero	1
	.zero	1
	.zero	1
	.zero	1
	.zero	1
	.zero	1
	.text
	.p2align	4
"ecc200_calls::writing::write_content_of::<#d4a6cd8012f658d3>":
.seh_proc "ecc200_calls::writing::write_content_of::<#d4a6cd8012f658d3>"
	pushq	%r14
	.seh_pushreg %r14
	pushq	%rsi
	.seh_pushreg %rsi
	pushq	%rdi
	.seh_pushreg %rdi
	pushq	%rbx
	.seh_pushreg %rbx
	subq	$328, %rsp
	.seh_stackalloc 328
	.seh_endprologue
	movq	%r9, %rdi
	movq	%r8, %rbx
	movq	%rdx, %rsi
	movq	%rcx, %r14
	movq	408(%rsp), %rax
	movzbl	(%rax), %ecx
	movb	%cl, 60(%rsp)
	movzbl	1(%rax), %ecx
	movb	%cl, 61(%rsp)
	movl	2(%rax), %eax
	movl	%eax, 62(%rsp)
	leaq	66(%rsp), %rcx
	movl	$262, %r8d
	xorl	%edx, %edx
	callq	memset
	testq	%rsi, %rsi
	je	.LBB92_12
	cmpq	$16, %rsi
	jb	.LBB92_2
	movq	%rsi, %rax
	decq	%rax
	leaq	67(%rsp), %rax
	sets	%cl
	leaq	(%rsp,%rsi,2), %rdx
	addq	$65, %rdx
	cmpq	%rax, %rdx
	setb	%al
	orb	%cl, %al
	je	.LBB92_5
.LBB92_2:
	xorl	%eax, %eax
.LBB92_8:
	movq	%rax, %rcx
	orq	$1, %rcx
	testb	$1, %sil
	je	.LBB92_10
	movzwl	(%r14,%rax,2), %edx
	cmpl	$256, %edx
	movl	$256, %r8d
	setb	66(%rsp,%rax,2)
	cmovbl	%edx, %r8d
	movb	%r8b, 67(%rsp,%rax,2)
	movq	%rcx, %rax
.LBB92_10:
	cmpq	%rcx, %rsi
	je	.LBB92_12
	.p2align	4
.LBB92_11:
	movzwl	(%r14,%rax,2), %ecx
	cmpl	$256, %ecx
	movl	$256, %edx
	cmovael	%edx, %ecx
	setb	66(%rsp,%rax,2)
	movb	%cl, 67(%rsp,%rax,2)
	movzwl	2(%r14,%rax,2), %ecx
	cmpl	$256, %ecx
	cmovbl	%ecx, %edx
	setb	68(%rsp,%rax,2)
	movb	%dl, 69(%rsp,%rax,2)
	addq	$2, %rax
	cmpq	%rax, %rsi
	jne	.LBB92_11
	jmp	.LBB92_12
.LBB92_5:
	movq	%rsi, %rax
	andq	$-8, %rax
	xorl	%ecx, %ecx
	.p2align	4
.LBB92_6:
	movdqu	(%r14,%rcx,2), %xmm0
	movdqa	.LCPI92_0(%rip), %xmm1
	pminuw	%xmm0, %xmm1
	pcmpeqw	%xmm0, %xmm1
	packsswb	%xmm1, %xmm1
	pand	.LCPI92_1(%rip), %xmm1
	pminuw	.LCPI92_2(%rip), %xmm0
	pshufb	.LCPI92_3(%rip), %xmm0
	punpcklbw	%xmm0, %xmm1
	movdqu	%xmm1, 66(%rsp,%rcx,2)
	addq	$8, %rcx
	cmpq	%rcx, %rax
	jne	.LBB92_6
	cmpq	%rax, %rsi
	jne	.LBB92_8
.LBB92_12:
	movq	416(%rsp), %rcx
	movq	400(%rsp), %rax
	testq	%rdi, %rdi
	je	.LBB92_21
	movl	%edi, %edx
	andl	$3, %edx
	cmpq	$4, %rdi
	jae	.LBB92_15
	xorl	%r8d, %r8d
	jmp	.LBB92_18
.LBB92_15:
	movq	%rdi, %r10
	andq	$-4, %r10
	xorl	%r8d, %r8d
	.p2align	4
.LBB92_16:
	movl	(%rbx,%r8,8), %r9d
	movw	$0, 58(%rsp,%r8,8)
	movl	%r9d, 60(%rsp,%r8,8)
	movl	8(%rbx,%r8,8), %r9d
	movw	$0, 66(%rsp,%r8,8)
	movl	%r9d, 68(%rsp,%r8,8)
	movl	16(%rbx,%r8,8), %r9d
	movw	$0, 74(%rsp,%r8,8)
	movl	%r9d, 76(%rsp,%r8,8)
	movl	24(%rbx,%r8,8), %r11d
	movl	28(%rbx,%r8,8), %r9d
	movw	$0, 82(%rsp,%r8,8)
	movl	%r11d, 84(%rsp,%r8,8)
	addq	$4, %r8
	cmpq	%r8, %r10
	jne	.LBB92_16
	testq	%rdx, %rdx
	je	.LBB92_20
.LBB92_18:
	leaq	(%rsp,%r8,8), %r10
	addq	$60, %r10
	leaq	(%rbx,%r8,8), %r8
	addq	$4, %r8
	xorl	%r11d, %r11d
	.p2align	4
.LBB92_19:
	movl	-4(%r8,%r11,8), %ebx
	movl	(%r8,%r11,8), %r9d
	movw	$0, -2(%r10,%r11,8)
	movl	%ebx, (%r10,%r11,8)
	incq	%r11
	cmpq	%r11, %rdx
	jne	.LBB92_19
.LBB92_20:
	movw	%r9w, 56(%rsp)
.LBB92_21:
	movq	%rcx, 48(%rsp)
	movq	%rax, 40(%rsp)
	movq	%rdi, 32(%rsp)
	leaq	60(%rsp), %rcx
	leaq	66(%rsp), %rdx
	leaq	56(%rsp), %r9
	movq	%rsi, %r8
	callq	"ecc200_calls::writing::write_content"
	nop
	addq	$328, %rsp
	popq	%rbx
	popq	%rdi
	popq	%rsi
	popq	%r14
	retq
	.seh_endproc

	.def	"ecc200_calls::writing::write_content_of::<#b76b4ae358bda620>";
	.scl	3;
	.type	32;
	.endef
	.section	.rdata,"dr"
	.p2align	4, 0x0
.LCPI93_0:
	.short	255
	.short	255
	.short	255
	.short	255
	.short	255
	.short	255
	.short	255
	.short	255
.LCPI93_1:
	.byte	1
	.byte	1
	.byte	1
	.byte	1
	.byte	1
	.byte	1
	.byte	1
	.byte	1
	.zero	1
	.zero	1
	.zero	1
	.zero	1
	.zero	1
	.zero	1
	.zero	1
	.zero	1
.LCPI93_2:
	.short	256
	.short	256
	.short	256
	.short	256
	.short	256
	.short	256
	.short	256
	.short	256
.LCPI93_3:
	.byte	0
	.byte	2
	.byte	4
	.byte	6
	.byte	8
	.byte	10
	.byte	12
	.byte	14
	.zero	1
	.zero	1
	.zero	1
	.zero	1
	.zero	1
	.zero	1
	.zero	1
	.zero	1
	.text
	.p2align	4
"ecc200_calls::writing::write_content_of::<#b76b4ae358bda620>":
.seh_proc "ecc200_calls::writing::write_content_of::<#b76b4ae358bda620>"
	pushq	%r14
	.seh_pushreg %r14
	pushq	%rsi
	.seh_pushreg %rsi
	pushq	%rdi
	.seh_pushreg %rdi
	pushq	%rbx
	.seh_pushreg %rbx
	subq	$904, %rsp
	.seh_stackalloc 904
	.seh_endprologue
	movq	%r9, %rdi
	movq	%r8, %rbx
	movq	%rdx, %rsi
	movq	%rcx, %r14
	movq	984(%rsp), %rax
	movzbl	(%rax), %ecx
	movb	%cl, 68(%rsp)
	movzbl	1(%rax), %ecx
	movb	%cl, 69(%rsp)
	movl	2(%rax), %eax
	movl	%eax, 70(%rsp)
	leaq	74(%rsp), %rcx
	movl	$830, %r8d
	xorl	%edx, %edx
	callq	memset
	testq	%rsi, %rsi
	je	.LBB93_12
	cmpq	$16, %rsi
	jb	.LBB93_2
	movq	%rsi, %rax
	decq	%rax
	leaq	75(%rsp), %rax
	sets	%cl
	leaq	(%rsp,%rsi,2), %rdx
	addq	$73, %rdx
	cmpq	%rax, %rdx
	setb	%al
	orb	%cl, %al
	je	.LBB93_5
.LBB93_2:
	xorl	%eax, %eax
.LBB93_8:
	movq	%rax, %rcx
	orq	$1, %rcx
	testb	$1, %sil
	je	.LBB93_10
	movzwl	(%r14,%rax,2), %edx
	cmpl	$256, %edx
	movl	$256, %r8d
	setb	74(%rsp,%rax,2)
	cmovbl	%edx, %r8d
	movb	%r8b, 75(%rsp,%rax,2)
	movq	%rcx, %rax
.LBB93_10:
	cmpq	%rcx, %rsi
	je	.LBB93_12
	.p2align	4
.LBB93_11:
	movzwl	(%r14,%rax,2), %ecx
	cmpl	$256, %ecx
	movl	$256, %edx
	cmovael	%edx, %ecx
	setb	74(%rsp,%rax,2)
	movb	%cl, 75(%rsp,%rax,2)
	movzwl	2(%r14,%rax,2), %ecx
	cmpl	$256, %ecx
	cmovbl	%ecx, %edx
	setb	76(%rsp,%rax,2)
	movb	%dl, 77(%rsp,%rax,2)
	addq	$2, %rax
	cmpq	%rax, %rsi
	jne	.LBB93_11
	jmp	.LBB93_12
.LBB93_5:
	movq	%rsi, %rax
	andq	$-8, %rax
	xorl	%ecx, %ecx
	.p2align	4
.LBB93_6:
	movdqu	(%r14,%rcx,2), %xmm0
	movdqa	.LCPI93_0(%rip), %xmm1
	pminuw	%xmm0, %xmm1
	pcmpeqw	%xmm0, %xmm1
	packsswb	%xmm1, %xmm1
	pand	.LCPI93_1(%rip), %xmm1
	pminuw	.LCPI93_2(%rip), %xmm0
	pshufb	.LCPI93_3(%rip), %xmm0
	punpcklbw	%xmm0, %xmm1
	movdqu	%xmm1, 74(%rsp,%rcx,2)
	addq	$8, %rcx
	cmpq	%rcx, %rax
	jne	.LBB93_6
	cmpq	%rax, %rsi
	jne	.LBB93_8
.LBB93_12:
	movq	992(%rsp), %rcx
	movq	976(%rsp), %rax
	testq	%rdi, %rdi
	je	.LBB93_21
	movl	%edi, %edx
	andl	$3, %edx
	cmpq	$4, %rdi
	jae	.LBB93_15
	xorl	%r8d, %r8d
	jmp	.LBB93_18
.LBB93_15:
	movq	%rdi, %r10
	andq	$-4, %r10
	xorl	%r8d, %r8d
	.p2align	4
.LBB93_16:
	movl	(%rbx,%r8,8), %r9d
	movw	$0, 66(%rsp,%r8,8)
	movl	%r9d, 68(%rsp,%r8,8)
	movl	8(%rbx,%r8,8), %r9d
	movw	$0, 74(%rsp,%r8,8)
	movl	%r9d, 76(%rsp,%r8,8)
	movl	16(%rbx,%r8,8), %r9d
	movw	$0, 82(%rsp,%r8,8)
	movl	%r9d, 84(%rsp,%r8,8)
	movl	24(%rbx,%r8,8), %r11d
	movl	28(%rbx,%r8,8), %r9d
	movw	$0, 90(%rsp,%r8,8)
	movl	%r11d, 92(%rsp,%r8,8)
	addq	$4, %r8
	cmpq	%r8, %r10
	jne	.LBB93_16
	testq	%rdx, %rdx
	je	.LBB93_20
.LBB93_18:
	leaq	(%rsp,%r8,8), %r10
	addq	$68, %r10
	leaq	(%rbx,%r8,8), %r8
	addq	$4, %r8
	xorl	%r11d, %r11d
	.p2align	4
.LBB93_19:
	movl	-4(%r8,%r11,8), %ebx
	movl	(%r8,%r11,8), %r9d
	movw	$0, -2(%r10,%r11,8)
	movl	%ebx, (%r10,%r11,8)
	incq	%r11
	cmpq	%r11, %rdx
	jne	.LBB93_19
.LBB93_20:
	movw	%r9w, 64(%rsp)
.LBB93_21:
	movq	%rcx, 48(%rsp)
	movq	%rax, 40(%rsp)
	movq	%rdi, 32(%rsp)
	leaq	68(%rsp), %rcx
	leaq	74(%rsp), %rdx
	leaq	64(%rsp), %r9
	movq	%rsi, %r8
	callq	"ecc200_calls::writing::write_content"
	nop
	addq	$904, %rsp
	popq	%rbx
	popq	%rdi
	popq	%rsi
	popq	%r14
	retq
	.seh_endproc

	.def	"ecc200_calls::writing::write_content_of::<#568124f4bcd00b97>";
	.scl	3;
	.type	32;
	.endef
	.section	.rdata,"dr"
	.p2align	4, 0x0
.LCPI94_0:
	.short	255
	.short	255
	.short	255
	.short	255
	.short	255
	.short	255
	.short	255
	.short	255
.LCPI94_1:
	.byte	1
	.byte	1
	.byte	1
	.byte	1
	.byte	1
	.byte	1
	.byte	1
	.byte	1
	.zero	1
	.zero	1
	.zero	1
	.zero	1
	.zero	1
	.zero	1
	.zero	1
	.zero	1
.LCPI94_2:
	.short	256
	.short	256
	.short	256
	.short	256
	.short	256
	.short	256
	.short	256
	.short	256
.LCPI94_3:
	.byte	0
	.byte	2
	.byte	4
	.byte	6
	.byte	8
	.byte	10
	.byte	12
	.byte	14
	.zero	1
	.zero	1
	.zero	1
	.zero	1
	.zero	1
	.zero	1
	.zero	1
	.zero	1
	.text
	.p2align	4
"ecc200_calls::writing::write_content_of::<#568124f4bcd00b97>":
.seh_proc "ecc200_calls::writing::write_content_of::<#568124f4bcd00b97>"
	pushq	%r14
	.seh_pushreg %r14
	pushq	%rsi
	.seh_pushreg %rsi
	pushq	%rdi
	.seh_pushreg %rdi
	pushq	%rbx
	.seh_pushreg %rbx
	subq	$3352, %rsp
	.seh_stackalloc 3352
	.seh_endprologue
	movq	%r9, %rdi
	movq	%r8, %rbx
	movq	%rdx, %rsi
	movq	%rcx, %r14
	movq	3432(%rsp), %rax
	movzbl	(%rax), %ecx
	movb	%cl, 68(%rsp)
	movzbl	1(%rax), %ecx
	movb	%cl, 69(%rsp)
	movl	2(%rax), %eax
	movl	%eax, 70(%rsp)
	leaq	74(%rsp), %rcx
	movl	$3278, %r8d
	xorl	%edx, %edx
	callq	memset
	testq	%rsi, %rsi
	je	.LBB94_12
	cmpq	$16, %rsi
	jb	.LBB94_2
	movq	%rsi, %rax
	decq	%rax
	leaq	75(%rsp), %rax
	sets	%cl
	leaq	(%rsp,%rsi,2), %rdx
	addq	$73, %rdx
	cmpq	%rax, %rdx
	setb	%al
	orb	%cl, %al
	je	.LBB94_5
.LBB94_2:
	xorl	%eax, %eax
.LBB94_8:
	movq	%rax, %rcx
	orq	$1, %rcx
	testb	$1, %sil
	je	.LBB94_10
	movzwl	(%r14,%rax,2), %edx
	cmpl	$256, %edx
	movl	$256, %r8d
	setb	74(%rsp,%rax,2)
	cmovbl	%edx, %r8d
	movb	%r8b, 75(%rsp,%rax,2)
	movq	%rcx, %rax
.LBB94_10:
	cmpq	%rcx, %rsi
	je	.LBB94_12
	.p2align	4
.LBB94_11:
	movzwl	(%r14,%rax,2), %ecx
	cmpl	$256, %ecx
	movl	$256, %edx
	cmovael	%edx, %ecx
	setb	74(%rsp,%rax,2)
	movb	%cl, 75(%rsp,%rax,2)
	movzwl	2(%r14,%rax,2), %ecx
	cmpl	$256, %ecx
	cmovbl	%ecx, %edx
	setb	76(%rsp,%rax,2)
	movb	%dl, 77(%rsp,%rax,2)
	addq	$2, %rax
	cmpq	%rax, %rsi
	jne	.LBB94_11
	jmp	.LBB94_12
.LBB94_5:
	movq	%rsi, %rax
	andq	$-8, %rax
	xorl	%ecx, %ecx
	.p2align	4
.LBB94_6:
	movdqu	(%r14,%rcx,2), %xmm0
	movdqa	.LCPI94_0(%rip), %xmm1
	pminuw	%xmm0, %xmm1
	pcmpeqw	%xmm0, %xmm1
	packsswb	%xmm1, %xmm1
	pand	.LCPI94_1(%rip), %xmm1
	pminuw	.LCPI94_2(%rip), %xmm0
	pshufb	.LCPI94_3(%rip), %xmm0
	punpcklbw	%xmm0, %xmm1
	movdqu	%xmm1, 74(%rsp,%rcx,2)
	addq	$8, %rcx
	cmpq	%rcx, %rax
	jne	.LBB94_6
	cmpq	%rax, %rsi
	jne	.LBB94_8
.LBB94_12:
	movq	3440(%rsp), %rcx
	movq	3424(%rsp), %rax
	testq	%rdi, %rdi
	je	.LBB94_21
	movl	%edi, %edx
	andl	$3, %edx
	cmpq	$4, %rdi
	jae	.LBB94_15
	xorl	%r8d, %r8d
	jmp	.LBB94_18
.LBB94_15:
	movq	%rdi, %r10
	andq	$-4, %r10
	xorl	%r8d, %r8d
	.p2align	4
.LBB94_16:
	movl	(%rbx,%r8,8), %r9d
	movw	$0, 66(%rsp,%r8,8)
	movl	%r9d, 68(%rsp,%r8,8)
	movl	8(%rbx,%r8,8), %r9d
	movw	$0, 74(%rsp,%r8,8)
	movl	%r9d, 76(%rsp,%r8,8)
	movl	16(%rbx,%r8,8), %r9d
	movw	$0, 82(%rsp,%r8,8)
	movl	%r9d, 84(%rsp,%r8,8)
	movl	24(%rbx,%r8,8), %r11d
	movl	28(%rbx,%r8,8), %r9d
	movw	$0, 90(%rsp,%r8,8)
	movl	%r11d, 92(%rsp,%r8,8)
	addq	$4, %r8
	cmpq	%r8, %r10
	jne	.LBB94_16
	testq	%rdx, %rdx
	je	.LBB94_20
.LBB94_18:
	leaq	(%rsp,%r8,8), %r10
	addq	$68, %r10
	leaq	(%rbx,%r8,8), %r8
	addq	$4, %r8
	xorl	%r11d, %r11d
	.p2align	4
.LBB94_19:
	movl	-4(%r8,%r11,8), %ebx
	movl	(%r8,%r11,8), %r9d
	movw	$0, -2(%r10,%r11,8)
	movl	%ebx, (%r10,%r11,8)
	incq	%r11
	cmpq	%r11, %rdx
	jne	.LBB94_19
.LBB94_20:
	movw	%r9w, 64(%rsp)
.LBB94_21:
	movq	%rcx, 48(%rsp)
	movq	%rax, 40(%rsp)
	movq	%rdi, 32(%rsp)
	leaq	68(%rsp), %rcx
	leaq	74(%rsp), %rdx
	leaq	64(%rsp), %r9
	movq	%rsi, %r8
	callq	"ecc200_calls::writing::write_content"
	nop
	addq	$3352, %rsp
	popq	%rbx
	popq	%rdi
	popq	%rsi
	popq	%r14
	retq
	.seh_endproc

	.def	"ecc200_calls::writing::write_content_of::<#5bc803b6b7c4bd57>";
	.scl	3;
	.type	32;
	.endef
	.section	.rdata,"dr"
	.p2align	4, 0x0
.LCPI95_0:
	.short	255
	.short	255
	.short	255
	.short	255
	.short	255
	.short	255
	.short	255
	.short	255
.LCPI95_1:
	.byte	1
	.byte	1
	.byte	1
	.byte	1
	.byte	1
	.byte	1
	.byte	1
	.byte	1
	.zero	1
	.zero	1
	.zero	1
	.zero	1
	.zero	1
	.zero	1
	.zero	1
	.zero	1
.LCPI95_2:
	.short	256
	.short	256
	.short	256
	.short	256
	.short	256
	.short	256
	.short	256
	.short	256
.LCPI95_3:
	.byte	0
	.byte	2
	.byte	4
	.byte	6
	.byte	8
	.byte	10
	.byte	12
	.byte	14
	.zero	1
	.zero	1
	.zero	1
	.zero	1
	.zero	1
	.zero	1
	.zero	1
	.zero	1
	.text
	.p2align	4
"ecc200_calls::writing::write_content_of::<#5bc803b6b7c4bd57>":
.seh_proc "ecc200_calls::writing::write_content_of::<#5bc803b6b7c4bd57>"
	pushq	%r14
	.seh_pushreg %r14
	pushq	%rsi
	.seh_pushreg %rsi
	pushq	%rdi
	.seh_pushreg %rdi
	pushq	%rbx
	.seh_pushreg %rbx
	movl	$6312, %eax
	callq	___chkstk_ms
	subq	%rax, %rsp
	.seh_stackalloc 6312
	.seh_endprologue
	movq	%r9, %rdi
	movq	%r8, %rbx
	movq	%rdx, %rsi
	movq	%rcx, %r14
	movq	6392(%rsp), %rax
	movzbl	(%rax), %ecx
	movb	%cl, 60(%rsp)
	movzbl	1(%rax), %ecx
	movb	%cl, 61(%rsp)
	movl	2(%rax), %eax
	movl	%eax, 62(%rsp)
	leaq	66(%rsp), %rcx
	movl	$6246, %r8d
	xorl	%edx, %edx
	callq	memset
	testq	%rsi, %rsi
	je	.LBB95_12
	cmpq	$16, %rsi
	jb	.LBB95_2
	movq	%rsi, %rax
	decq	%rax
	leaq	67(%rsp), %rax
	sets	%cl
	leaq	(%rsp,%rsi,2), %rdx
	addq	$65, %rdx
	cmpq	%rax, %rdx
	setb	%al
	orb	%cl, %al
	je	.LBB95_5
.LBB95_2:
	xorl	%eax, %eax
.LBB95_8:
	movq	%rax, %rcx
	orq	$1, %rcx
	testb	$1, %sil
	je	.LBB95_10
	movzwl	(%r14,%rax,2), %edx
	cmpl	$256, %edx
	movl	$256, %r8d
	setb	66(%rsp,%rax,2)
	cmovbl	%edx, %r8d
	movb	%r8b, 67(%rsp,%rax,2)
	movq	%rcx, %rax
.LBB95_10:
	cmpq	%rcx, %rsi
	je	.LBB95_12
	.p2align	4
.LBB95_11:
	movzwl	(%r14,%rax,2), %ecx
	cmpl	$256, %ecx
	movl	$256, %edx
	cmovael	%edx, %ecx
	setb	66(%rsp,%rax,2)
	movb	%cl, 67(%rsp,%rax,2)
	movzwl	2(%r14,%rax,2), %ecx
	cmpl	$256, %ecx
	cmovbl	%ecx, %edx
	setb	68(%rsp,%rax,2)
	movb	%dl, 69(%rsp,%rax,2)
	addq	$2, %rax
	cmpq	%rax, %rsi
	jne	.LBB95_11
	jmp	.LBB95_12
.LBB95_5:
	movq	%rsi, %rax
	andq	$-8, %rax
	xorl	%ecx, %ecx
	.p2align	4
.LBB95_6:
	movdqu	(%r14,%rcx,2), %xmm0
	movdqa	.LCPI95_0(%rip), %xmm1
	pminuw	%xmm0, %xmm1
	pcmpeqw	%xmm0, %xmm1
	packsswb	%xmm1, %xmm1
	pand	.LCPI95_1(%rip), %xmm1
	pminuw	.LCPI95_2(%rip), %xmm0
	pshufb	.LCPI95_3(%rip), %xmm0
	punpcklbw	%xmm0, %xmm1
	movdqu	%xmm1, 66(%rsp,%rcx,2)
	addq	$8, %rcx
	cmpq	%rcx, %rax
	jne	.LBB95_6
	cmpq	%rax, %rsi
	jne	.LBB95_8
.LBB95_12:
	movq	6400(%rsp), %rcx
	movq	6384(%rsp), %rax
	testq	%rdi, %rdi
	je	.LBB95_21
	movl	%edi, %edx
	andl	$3, %edx
	cmpq	$4, %rdi
	jae	.LBB95_15
	xorl	%r8d, %r8d
	jmp	.LBB95_18
.LBB95_15:
	movq	%rdi, %r10
	andq	$-4, %r10
	xorl	%r8d, %r8d
	.p2align	4
.LBB95_16:
	movl	(%rbx,%r8,8), %r9d
	movw	$0, 58(%rsp,%r8,8)
	movl	%r9d, 60(%rsp,%r8,8)
	movl	8(%rbx,%r8,8), %r9d
	movw	$0, 66(%rsp,%r8,8)
	movl	%r9d, 68(%rsp,%r8,8)
	movl	16(%rbx,%r8,8), %r9d
	movw	$0, 74(%rsp,%r8,8)
	movl	%r9d, 76(%rsp,%r8,8)
	movl	24(%rbx,%r8,8), %r11d
	movl	28(%rbx,%r8,8), %r9d
	movw	$0, 82(%rsp,%r8,8)
	movl	%r11d, 84(%rsp,%r8,8)
	addq	$4, %r8
	cmpq	%r8, %r10
	jne	.LBB95_16
	testq	%rdx, %rdx
	je	.LBB95_20
.LBB95_18:
	leaq	(%rsp,%r8,8), %r10
	addq	$60, %r10
	leaq	(%rbx,%r8,8), %r8
	addq	$4, %r8
	xorl	%r11d, %r11d
	.p2align	4
.LBB95_19:
	movl	-4(%r8,%r11,8), %ebx
	movl	(%r8,%r11,8), %r9d
	movw	$0, -2(%r10,%r11,8)
	movl	%ebx, (%r10,%r11,8)
	incq	%r11
	cmpq	%r11, %rdx
	jne	.LBB95_19
.LBB95_20:
	movw	%r9w, 56(%rsp)
.LBB95_21:
	movq	%rcx, 48(%rsp)
	movq	%rax, 40(%rsp)
	movq	%rdi, 32(%rsp)
	leaq	60(%rsp), %rcx
	leaq	66(%rsp), %rdx
	leaq	56(%rsp), %r9
	movq	%rsi, %r8
	callq	"ecc200_calls::writing::write_content"
	nop
	addq	$6312, %rsp
	popq	%rbx
	popq	%rdi
	popq	%rsi
	popq	%r14
	retq
	.seh_endproc

	.def	"ecc200_calls::writing::write_content_of::<#653d8e9eeee73d5b>";
	.scl	3;
	.type	32;
	.endef
	.section	.rdata,"dr"
	.p2align	4, 0x0
.LCPI96_0:
	.short	255
	.short	255
	.short	255
	.short	255
	.short	255
	.short	255
	.short	255
	.short	255
.LCPI96_1:
	.byte	1
	.byte	1
	.byte	1
	.byte	1
	.byte	1
	.byte	1
	.byte	1
	.byte	1
	.zero	1
	.zero	1
	.zero	1
	.zero	1
	.zero	1
	.zero	1
	.zero	1
	.zero	1
.LCPI96_2:
	.short	256
	.short	256
	.short	256
	.short	256
	.short	256
	.short	256
	.short	256
	.short	256
.LCPI96_3:
	.byte	0
	.byte	2
	.byte	4
	.byte	6
	.byte	8
	.byte	10
	.byte	12
	.byte	14
	.zero	1
	.zero	1
	.zero	1
	.zero	1
	.zero	1
	.zero	1
	.zero	1
	.zero	1
	.text
	.p2align	4
"ecc200_calls::writing::write_content_of::<#653d8e9eeee73d5b>":
.seh_proc "ecc200_calls::writing::write_content_of::<#653d8e9eeee73d5b>"
	pushq	%r14
	.seh_pushreg %r14
	pushq	%rsi
	.seh_pushreg %rsi
	pushq	%rdi
	.seh_pushreg %rdi
	pushq	%rbx
	.seh_pushreg %rbx
	subq	$584, %rsp
	.seh_stackalloc 584
	.seh_endprologue
	movq	%r9, %rdi
	movq	%r8, %rbx
	movq	%rdx, %rsi
	movq	%rcx, %r14
	movq	664(%rsp), %rax
	movzbl	(%rax), %ecx
	movb	%cl, 58(%rsp)
	movzbl	1(%rax), %ecx
	movb	%cl, 59(%rsp)
	movl	2(%rax), %eax
	movl	%eax, 60(%rsp)
	leaq	322(%rsp), %rcx
	movl	$262, %r8d
	xorl	%edx, %edx
	callq	memset
	pxor	%xmm0, %xmm0
	movdqa	%xmm0, 64(%rsp)
	movdqa	%xmm0, 80(%rsp)
	movdqa	%xmm0, 96(%rsp)
	movdqa	%xmm0, 112(%rsp)
	movdqa	%xmm0, 128(%rsp)
	movdqa	%xmm0, 144(%rsp)
	movdqa	%xmm0, 160(%rsp)
	movdqa	%xmm0, 176(%rsp)
	movdqa	%xmm0, 192(%rsp)
	movdqa	%xmm0, 208(%rsp)
	movdqa	%xmm0, 224(%rsp)
	movdqa	%xmm0, 240(%rsp)
	movdqa	%xmm0, 256(%rsp)
	movdqa	%xmm0, 272(%rsp)
	movdqa	%xmm0, 288(%rsp)
	movq	$0, 304(%rsp)
	testq	%rsi, %rsi
	je	.LBB96_12
	cmpq	$16, %rsi
	jb	.LBB96_2
	movq	%rsi, %rax
	decq	%rax
	leaq	323(%rsp), %rax
	sets	%cl
	leaq	(%rsp,%rsi,2), %rdx
	addq	$321, %rdx
	cmpq	%rax, %rdx
	setb	%al
	orb	%cl, %al
	je	.LBB96_5
.LBB96_2:
	xorl	%eax, %eax
.LBB96_8:
	movq	%rax, %rcx
	orq	$1, %rcx
	testb	$1, %sil
	je	.LBB96_10
	movzwl	(%r14,%rax,2), %edx
	cmpl	$256, %edx
	movl	$256, %r8d
	setb	322(%rsp,%rax,2)
	cmovbl	%edx, %r8d
	movb	%r8b, 323(%rsp,%rax,2)
	movq	%rcx, %rax
.LBB96_10:
	cmpq	%rcx, %rsi
	je	.LBB96_12
	.p2align	4
.LBB96_11:
	movzwl	(%r14,%rax,2), %ecx
	cmpl	$256, %ecx
	movl	$256, %edx
	cmovael	%edx, %ecx
	setb	322(%rsp,%rax,2)
	movb	%cl, 323(%rsp,%rax,2)
	movzwl	2(%r14,%rax,2), %ecx
	cmpl	$256, %ecx
	cmovbl	%ecx, %edx
	setb	324(%rsp,%rax,2)
	movb	%dl, 325(%rsp,%rax,2)
	addq	$2, %rax
	cmpq	%rax, %rsi
	jne	.LBB96_11
	jmp	.LBB96_12
.LBB96_5:
	movq	%rsi, %rax
	andq	$-8, %rax
	xorl	%ecx, %ecx
	.p2align	4
.LBB96_6:
	movdqu	(%r14,%rcx,2), %xmm0
	movdqa	.LCPI96_0(%rip), %xmm1
	pminuw	%xmm0, %xmm1
	pcmpeqw	%xmm0, %xmm1
	packsswb	%xmm1, %xmm1
	pand	.LCPI96_1(%rip), %xmm1
	pminuw	.LCPI96_2(%rip), %xmm0
	pshufb	.LCPI96_3(%rip), %xmm0
	punpcklbw	%xmm0, %xmm1
	movdqu	%xmm1, 322(%rsp,%rcx,2)
	addq	$8, %rcx
	cmpq	%rcx, %rax
	jne	.LBB96_6
	cmpq	%rax, %rsi
	jne	.LBB96_8
.LBB96_12:
	movq	672(%rsp), %rcx
	movq	656(%rsp), %rax
	testq	%rdi, %rdi
	je	.LBB96_19
	cmpq	$1, %rdi
	jne	.LBB96_15
	xorl	%edx, %edx
	jmp	.LBB96_18
.LBB96_15:
	movq	%rdi, %r8
	andq	$-2, %r8
	xorl	%edx, %edx
	.p2align	4
.LBB96_16:
	movzwl	4(%rbx,%rdx,8), %r9d
	movl	(%rbx,%rdx,8), %r10d
	movw	%r9w, 64(%rsp,%rdx,8)
	movw	$0, 66(%rsp,%rdx,8)
	movl	%r10d, 68(%rsp,%rdx,8)
	movzwl	12(%rbx,%rdx,8), %r9d
	movl	8(%rbx,%rdx,8), %r10d
	movw	%r9w, 72(%rsp,%rdx,8)
	movw	$0, 74(%rsp,%rdx,8)
	movl	%r10d, 76(%rsp,%rdx,8)
	addq	$2, %rdx
	cmpq	%rdx, %r8
	jne	.LBB96_16
	testb	$1, %dil
	je	.LBB96_19
.LBB96_18:
	movzwl	4(%rbx,%rdx,8), %r8d
	movl	(%rbx,%rdx,8), %r9d
	movw	%r8w, 64(%rsp,%rdx,8)
	movw	$0, 66(%rsp,%rdx,8)
	movl	%r9d, 68(%rsp,%rdx,8)
.LBB96_19:
	movq	%rcx, 48(%rsp)
	movq	%rax, 40(%rsp)
	movq	%rdi, 32(%rsp)
	leaq	58(%rsp), %rcx
	leaq	322(%rsp), %rdx
	leaq	64(%rsp), %r9
	movq	%rsi, %r8
	callq	"ecc200_calls::writing::write_content"
	nop
	addq	$584, %rsp
	popq	%rbx
	popq	%rdi
	popq	%rsi
	popq	%r14
	retq
	.seh_endproc

	.def	"ecc200_calls::writing::write_content_of::<#063e8a381f980aa9>";
	.scl	3;
	.type	32;
	.endef
	.section	.rdata,"dr"
	.p2align	4, 0x0
.LCPI97_0:
	.short	255
	.short	255
	.short	255
	.short	255
	.short	255
	.short	255
	.short	255
	.short	255
.LCPI97_1:
	.byte	1
	.byte	1
	.byte	1
	.byte	1
	.byte	1
	.byte	1
	.byte	1
	.byte	1
	.zero	1
	.zero	1
	.zero	1
	.zero	1
	.zero	1
	.zero	1
	.zero	1
	.zero	1
.LCPI97_2:
	.short	256
	.short	256
	.short	256
	.short	256
	.short	256
	.short	256
	.short	256
	.short	256
.LCPI97_3:
	.byte	0
	.byte	2
	.byte	4
	.byte	6
	.byte	8
	.byte	10
	.byte	12
	.byte	14
	.zero	1
	.zero	1
	.zero	1
	.zero	1
	.zero	1
	.zero	1
	.zero	1
	.zero	1
	.text
	.p2align	4
"ecc200_calls::writing::write_content_of::<#063e8a381f980aa9>":
.seh_proc "ecc200_calls::writing::write_content_of::<#063e8a381f980aa9>"
	pushq	%r14
	.seh_pushreg %r14
	pushq	%rsi
	.seh_pushreg %rsi
	pushq	%rdi
	.seh_pushreg %rdi
	pushq	%rbx
	.seh_pushreg %rbx
	subq	$1720, %rsp
	.seh_stackalloc 1720
	.seh_endprologue
	movq	%r9, %rdi
	movq	%r8, %rbx
	movq	%rdx, %rsi
	movq	%rcx, %r14
	movq	1800(%rsp), %rax
	movzbl	(%rax), %ecx
	movb	%cl, 66(%rsp)
	movzbl	1(%rax), %ecx
	movb	%cl, 67(%rsp)
	movl	2(%rax), %eax
	movl	%eax, 68(%rsp)
	leaq	890(%rsp), %rcx
	movl	$830, %r8d
	xorl	%edx, %edx
	callq	memset
	leaq	72(%rsp), %rcx
	movl	$816, %r8d
	xorl	%edx, %edx
	callq	memset
	testq	%rsi, %rsi
	je	.LBB97_12
	cmpq	$16, %rsi
	jb	.LBB97_2
	movq	%rsi, %rax
	decq	%rax
	leaq	891(%rsp), %rax
	sets	%cl
	leaq	(%rsp,%rsi,2), %rdx
	addq	$889, %rdx
	cmpq	%rax, %rdx
	setb	%al
	orb	%cl, %al
	je	.LBB97_5
.LBB97_2:
	xorl	%eax, %eax
.LBB97_8:
	movq	%rax, %rcx
	orq	$1, %rcx
	testb	$1, %sil
	je	.LBB97_10
	movzwl	(%r14,%rax,2), %edx
	cmpl	$256, %edx
	movl	$256, %r8d
	setb	890(%rsp,%rax,2)
	cmovbl	%edx, %r8d
	movb	%r8b, 891(%rsp,%rax,2)
	movq	%rcx, %rax
.LBB97_10:
	cmpq	%rcx, %rsi
	je	.LBB97_12
	.p2align	4
.LBB97_11:
	movzwl	(%r14,%rax,2), %ecx
	cmpl	$256, %ecx
	movl	$256, %edx
	cmovael	%edx, %ecx
	setb	890(%rsp,%rax,2)
	movb	%cl, 891(%rsp,%rax,2)
	movzwl	2(%r14,%rax,2), %ecx
	cmpl	$256, %ecx
	cmovbl	%ecx, %edx
	setb	892(%rsp,%rax,2)
	movb	%dl, 893(%rsp,%rax,2)
	addq	$2, %rax
	cmpq	%rax, %rsi
	jne	.LBB97_11
	jmp	.LBB97_12
.LBB97_5:
	movq	%rsi, %rax
	andq	$-8, %rax
	xorl	%ecx, %ecx
	.p2align	4
.LBB97_6:
	movdqu	(%r14,%rcx,2), %xmm0
	movdqa	.LCPI97_0(%rip), %xmm1
	pminuw	%xmm0, %xmm1
	pcmpeqw	%xmm0, %xmm1
	packsswb	%xmm1, %xmm1
	pand	.LCPI97_1(%rip), %xmm1
	pminuw	.LCPI97_2(%rip), %xmm0
	pshufb	.LCPI97_3(%rip), %xmm0
	punpcklbw	%xmm0, %xmm1
	movdqu	%xmm1, 890(%rsp,%rcx,2)
	addq	$8, %rcx
	cmpq	%rcx, %rax
	jne	.LBB97_6
	cmpq	%rax, %rsi
	jne	.LBB97_8
.LBB97_12:
	movq	1808(%rsp), %rcx
	movq	1792(%rsp), %rax
	testq	%rdi, %rdi
	je	.LBB97_19
	cmpq	$1, %rdi
	jne	.LBB97_15
	xorl	%edx, %edx
	jmp	.LBB97_18
.LBB97_15:
	movq	%rdi, %r8
	andq	$-2, %r8
	xorl	%edx, %edx
	.p2align	4
.LBB97_16:
	movzwl	4(%rbx,%rdx,8), %r9d
	movl	(%rbx,%rdx,8), %r10d
	movw	%r9w, 72(%rsp,%rdx,8)
	movw	$0, 74(%rsp,%rdx,8)
	movl	%r10d, 76(%rsp,%rdx,8)
	movzwl	12(%rbx,%rdx,8), %r9d
	movl	8(%rbx,%rdx,8), %r10d
	movw	%r9w, 80(%rsp,%rdx,8)
	movw	$0, 82(%rsp,%rdx,8)
	movl	%r10d, 84(%rsp,%rdx,8)
	addq	$2, %rdx
	cmpq	%rdx, %r8
	jne	.LBB97_16
	testb	$1, %dil
	je	.LBB97_19
.LBB97_18:
	movzwl	4(%rbx,%rdx,8), %r8d
	movl	(%rbx,%rdx,8), %r9d
	movw	%r8w, 72(%rsp,%rdx,8)
	movw	$0, 74(%rsp,%rdx,8)
	movl	%r9d, 76(%rsp,%rdx,8)
.LBB97_19:
	movq	%rcx, 48(%rsp)
	movq	%rax, 40(%rsp)
	movq	%rdi, 32(%rsp)
	leaq	66(%rsp), %rcx
	leaq	890(%rsp), %rdx
	leaq	72(%rsp), %r9
	movq	%rsi, %r8
	callq	"ecc200_calls::writing::write_content"
	nop
	addq	$1720, %rsp
	popq	%rbx
	popq	%rdi
	popq	%rsi
	popq	%r14
	retq
	.seh_endproc

	.def	"ecc200_calls::writing::write_content_of::<#74b909a45ce937fb>";
	.scl	3;
	.type	32;
	.endef
	.section	.rdata,"dr"
	.p2align	4, 0x0
.LCPI98_0:
	.short	255
	.short	255
	.short	255
	.short	255
	.short	255
	.short	255
	.short	255
	.short	255
.LCPI98_1:
	.byte	1
	.byte	1
	.byte	1
	.byte	1
	.byte	1
	.byte	1
	.byte	1
	.byte	1
	.zero	1
	.zero	1
	.zero	1
	.zero	1
	.zero	1
	.zero	1
	.zero	1
	.zero	1
.LCPI98_2:
	.short	256
	.short	256
	.short	256
	.short	256
	.short	256
	.short	256
	.short	256
	.short	256
.LCPI98_3:
	.byte	0
	.byte	2
	.byte	4
	.byte	6
	.byte	8
	.byte	10
	.byte	12
	.byte	14
	.zero	1
	.zero	1
	.zero	1
	.zero	1
	.zero	1
	.zero	1
	.zero	1
	.zero	1
	.text
	.p2align	4
"ecc200_calls::writing::write_content_of::<#74b909a45ce937fb>":
.seh_proc "ecc200_calls::writing::write_content_of::<#74b909a45ce937fb>"
	pushq	%r14
	.seh_pushreg %r14
	pushq	%rsi
	.seh_pushreg %rsi
	pushq	%rdi
	.seh_pushreg %rdi
	pushq	%rbx
	.seh_pushreg %rbx
	movl	$6616, %eax
	callq	___chkstk_ms
	subq	%rax, %rsp
	.seh_stackalloc 6616
	.seh_endprologue
	movq	%r9, %rdi
	movq	%r8, %rbx
	movq	%rdx, %rsi
	movq	%rcx, %r14
	movq	6696(%rsp), %rax
	movzbl	(%rax), %ecx
	movb	%cl, 66(%rsp)
	movzbl	1(%rax), %ecx
	movb	%cl, 67(%rsp)
	movl	2(%rax), %eax
	movl	%eax, 68(%rsp)
	leaq	3338(%rsp), %rcx
	movl	$3278, %r8d
	xorl	%edx, %edx
	callq	memset
	leaq	72(%rsp), %rcx
	movl	$3264, %r8d
	xorl	%edx, %edx
	callq	memset
	testq	%rsi, %rsi
	je	.LBB98_12
	cmpq	$16, %rsi
	jb	.LBB98_2
	movq	%rsi, %rax
	decq	%rax
	leaq	3339(%rsp), %rax
	sets	%cl
	leaq	(%rsp,%rsi,2), %rdx
	addq	$3337, %rdx
	cmpq	%rax, %rdx
	setb	%al
	orb	%cl, %al
	je	.LBB98_5
.LBB98_2:
	xorl	%eax, %eax
.LBB98_8:
	movq	%rax, %rcx
	orq	$1, %rcx
	testb	$1, %sil
	je	.LBB98_10
	movzwl	(%r14,%rax,2), %edx
	cmpl	$256, %edx
	movl	$256, %r8d
	setb	3338(%rsp,%rax,2)
	cmovbl	%edx, %r8d
	movb	%r8b, 3339(%rsp,%rax,2)
	movq	%rcx, %rax
.LBB98_10:
	cmpq	%rcx, %rsi
	je	.LBB98_12
	.p2align	4
.LBB98_11:
	movzwl	(%r14,%rax,2), %ecx
	cmpl	$256, %ecx
	movl	$256, %edx
	cmovael	%edx, %ecx
	setb	3338(%rsp,%rax,2)
	movb	%cl, 3339(%rsp,%rax,2)
	movzwl	2(%r14,%rax,2), %ecx
	cmpl	$256, %ecx
	cmovbl	%ecx, %edx
	setb	3340(%rsp,%rax,2)
	movb	%dl, 3341(%rsp,%rax,2)
	addq	$2, %rax
	cmpq	%rax, %rsi
	jne	.LBB98_11
	jmp	.LBB98_12
.LBB98_5:
	movq	%rsi, %rax
	andq	$-8, %rax
	xorl	%ecx, %ecx
	.p2align	4
.LBB98_6:
	movdqu	(%r14,%rcx,2), %xmm0
	movdqa	.LCPI98_0(%rip), %xmm1
	pminuw	%xmm0, %xmm1
	pcmpeqw	%xmm0, %xmm1
	packsswb	%xmm1, %xmm1
	pand	.LCPI98_1(%rip), %xmm1
	pminuw	.LCPI98_2(%rip), %xmm0
	pshufb	.LCPI98_3(%rip), %xmm0
	punpcklbw	%xmm0, %xmm1
	movdqu	%xmm1, 3338(%rsp,%rcx,2)
	addq	$8, %rcx
	cmpq	%rcx, %rax
	jne	.LBB98_6
	cmpq	%rax, %rsi
	jne	.LBB98_8
.LBB98_12:
	movq	6704(%rsp), %rcx
	movq	6688(%rsp), %rax
	testq	%rdi, %rdi
	je	.LBB98_19
	cmpq	$1, %rdi
	jne	.LBB98_15
	xorl	%edx, %edx
	jmp	.LBB98_18
.LBB98_15:
	movq	%rdi, %r8
	andq	$-2, %r8
	xorl	%edx, %edx
	.p2align	4
.LBB98_16:
	movzwl	4(%rbx,%rdx,8), %r9d
	movl	(%rbx,%rdx,8), %r10d
	movw	%r9w, 72(%rsp,%rdx,8)
	movw	$0, 74(%rsp,%rdx,8)
	movl	%r10d, 76(%rsp,%rdx,8)
	movzwl	12(%rbx,%rdx,8), %r9d
	movl	8(%rbx,%rdx,8), %r10d
	movw	%r9w, 80(%rsp,%rdx,8)
	movw	$0, 82(%rsp,%rdx,8)
	movl	%r10d, 84(%rsp,%rdx,8)
	addq	$2, %rdx
	cmpq	%rdx, %r8
	jne	.LBB98_16
	testb	$1, %dil
	je	.LBB98_19
.LBB98_18:
	movzwl	4(%rbx,%rdx,8), %r8d
	movl	(%rbx,%rdx,8), %r9d
	movw	%r8w, 72(%rsp,%rdx,8)
	movw	$0, 74(%rsp,%rdx,8)
	movl	%r9d, 76(%rsp,%rdx,8)
.LBB98_19:
	movq	%rcx, 48(%rsp)
	movq	%rax, 40(%rsp)
	movq	%rdi, 32(%rsp)
	leaq	66(%rsp), %rcx
	leaq	3338(%rsp), %rdx
	leaq	72(%rsp), %r9
	movq	%rsi, %r8
	callq	"ecc200_calls::writing::write_content"
	nop
	addq	$6616, %rsp
	popq	%rbx
	popq	%rdi
	popq	%rsi
	popq	%r14
	retq
	.seh_endproc

	.def	"ecc200_calls::writing::write_content_of::<#8e2329e1c5119cbe>";
	.scl	3;
	.type	32;
	.endef
	.section	.rdata,"dr"
	.p2align	4, 0x0
.LCPI99_0:
	.short	255
	.short	255
	.short	255
	.short	255
	.short	255
	.short	255
	.short	255
	.short	255
.LCPI99_1:
	.byte	1
	.byte	1
	.byte	1
	.byte	1
	.byte	1
	.byte	1
	.byte	1
	.byte	1
	.zero	1
	.zero	1
	.zero	1
	.zero	1
	.zero	1
	.zero	1
	.zero	1
	.zero	1
.LCPI99_2:
	.short	256
	.short	256
	.short	256
	.short	256
	.short	256
	.short	256
	.short	256
	.short	256
.LCPI99_3:
	.byte	0
	.byte	2
	.byte	4
	.byte	6
	.byte	8
	.byte	10
	.byte	12
	.byte	14
	.zero	1
	.zero	1
	.zero	1
	.zero	1
	.zero	1
	.zero	1
	.zero	1
	.zero	1
	.text
	.p2align	4
"ecc200_calls::writing::write_content_of::<#8e2329e1c5119cbe>":
.seh_proc "ecc200_calls::writing::write_content_of::<#8e2329e1c5119cbe>"
	pushq	%r14
	.seh_pushreg %r14
	pushq	%rsi
	.seh_pushreg %rsi
	pushq	%rdi
	.seh_pushreg %rdi
	pushq	%rbx
	.seh_pushreg %rbx
	movl	$12552, %eax
	callq	___chkstk_ms
	subq	%rax, %rsp
	.seh_stackalloc 12552
	.seh_endprologue
	movq	%r9, %rdi
	movq	%r8, %rbx
	movq	%rdx, %rsi
	movq	%rcx, %r14
	movq	12632(%rsp), %rax
	movzbl	(%rax), %ecx
	movb	%cl, 66(%rsp)
	movzbl	1(%rax), %ecx
	movb	%cl, 67(%rsp)
	movl	2(%rax), %eax
	movl	%eax, 68(%rsp)
	leaq	6306(%rsp), %rcx
	movl	$6246, %r8d
	xorl	%edx, %edx
	callq	memset
	leaq	72(%rsp), %rcx
	movl	$6232, %r8d
	xorl	%edx, %edx
	callq	memset
	testq	%rsi, %rsi
	je	.LBB99_12
	cmpq	$16, %rsi
	jb	.LBB99_2
	movq	%rsi, %rax
	decq	%rax
	leaq	6307(%rsp), %rax
	sets	%cl
	leaq	(%rsp,%rsi,2), %rdx
	addq	$6305, %rdx
	cmpq	%rax, %rdx
	setb	%al
	orb	%cl, %al
	je	.LBB99_5
.LBB99_2:
	xorl	%eax, %eax
.LBB99_8:
	movq	%rax, %rcx
	orq	$1, %rcx
	testb	$1, %sil
	je	.LBB99_10
	movzwl	(%r14,%rax,2), %edx
	cmpl	$256, %edx
	movl	$256, %r8d
	setb	6306(%rsp,%rax,2)
	cmovbl	%edx, %r8d
	movb	%r8b, 6307(%rsp,%rax,2)
	movq	%rcx, %rax
.LBB99_10:
	cmpq	%rcx, %rsi
	je	.LBB99_12
	.p2align	4
.LBB99_11:
	movzwl	(%r14,%rax,2), %ecx
	cmpl	$256, %ecx
	movl	$256, %edx
	cmovael	%edx, %ecx
	setb	6306(%rsp,%rax,2)
	movb	%cl, 6307(%rsp,%rax,2)
	movzwl	2(%r14,%rax,2), %ecx
	cmpl	$256, %ecx
	cmovbl	%ecx, %edx
	setb	6308(%rsp,%rax,2)
	movb	%dl, 6309(%rsp,%rax,2)
	addq	$2, %rax
	cmpq	%rax, %rsi
	jne	.LBB99_11
	jmp	.LBB99_12
.LBB99_5:
	movq	%rsi, %rax
	andq	$-8, %rax
	xorl	%ecx, %ecx
	.p2align	4
.LBB99_6:
	movdqu	(%r14,%rcx,2), %xmm0
	movdqa	.LCPI99_0(%rip), %xmm1
	pminuw	%xmm0, %xmm1
	pcmpeqw	%xmm0, %xmm1
	packsswb	%xmm1, %xmm1
	pand	.LCPI99_1(%rip), %xmm1
	pminuw	.LCPI99_2(%rip), %xmm0
	pshufb	.LCPI99_3(%rip), %xmm0
	punpcklbw	%xmm0, %xmm1
	movdqu	%xmm1, 6306(%rsp,%rcx,2)
	addq	$8, %rcx
	cmpq	%rcx, %rax
	jne	.LBB99_6
	cmpq	%rax, %rsi
	jne	.LBB99_8
.LBB99_12:
	movq	12640(%rsp), %rcx
	movq	12624(%rsp), %rax
	testq	%rdi, %rdi
	je	.LBB99_19
	cmpq	$1, %rdi
	jne	.LBB99_15
	xorl	%edx, %edx
	jmp	.LBB99_18
.LBB99_15:
	movq	%rdi, %r8
	andq	$-2, %r8
	xorl	%edx, %edx
	.p2align	4
.LBB99_16:
	movzwl	4(%rbx,%rdx,8), %r9d
	movl	(%rbx,%rdx,8), %r10d
	movw	%r9w, 72(%rsp,%rdx,8)
	movw	$0, 74(%rsp,%rdx,8)
	movl	%r10d, 76(%rsp,%rdx,8)
	movzwl	12(%rbx,%rdx,8), %r9d
	movl	8(%rbx,%rdx,8), %r10d
	movw	%r9w, 80(%rsp,%rdx,8)
	movw	$0, 82(%rsp,%rdx,8)
	movl	%r10d, 84(%rsp,%rdx,8)
	addq	$2, %rdx
	cmpq	%rdx, %r8
	jne	.LBB99_16
	testb	$1, %dil
	je	.LBB99_19
.LBB99_18:
	movzwl	4(%rbx,%rdx,8), %r8d
	movl	(%rbx,%rdx,8), %r9d
	movw	%r8w, 72(%rsp,%rdx,8)
	movw	$0, 74(%rsp,%rdx,8)
	movl	%r9d, 76(%rsp,%rdx,8)
.LBB99_19:
	movq	%rcx, 48(%rsp)
	movq	%rax, 40(%rsp)
	movq	%rdi, 32(%rsp)
	leaq	66(%rsp), %rcx
	leaq	6306(%rsp), %rdx
	leaq	72(%rsp), %r9
	movq	%rsi, %r8
	callq	"ecc200_calls::writing::write_content"
	nop
	addq	$12552, %rsp
	popq	%rbx
	popq	%rdi
	popq	%rsi
	popq	%r14
	retq
	.seh_endproc

	.def	"ecc200_calls::writing::write_content_of::<#f7f46bcb0d4b0fd2>";
	.scl	3;
	.type	32;
	.endef
	.section	.rdata,"dr"
	.p2align	4, 0x0
.LCPI100_0:
	.byte	1
	.byte	1
	.byte	1
	.byte	1
	.byte	1
	.byte	1
	.byte	1
	.byte	1
	.zero	1
	.zero	1
	.zero	1
	.zero	1
	.zero	1
	.zero	1
	.zero	1
	.zero	1
	.text
	.p2align	4
"ecc200_calls::writing::write_content_of::<#f7f46bcb0d4b0fd2>":
.seh_proc "ecc200_calls::writing::write_content_of::<#f7f46bcb0d4b0fd2>"
	pushq	%r14
	.seh_pushreg %r14
	pushq	%rsi
	.seh_pushreg %rsi
	pushq	%rdi
	.seh_pushreg %rdi
	pushq	%rbx
	.seh_pushreg %rbx
	subq	$328, %rsp
	.seh_stackalloc 328
	.seh_endprologue
	movq	%r8, %rdi
	movq	%rdx, %rsi
	movq	%rcx, %rbx
	movq	400(%rsp), %r14
	movzbl	(%r9), %eax
	movb	%al, 60(%rsp)
	movzbl	1(%r9), %eax
	movb	%al, 61(%rsp)
	movl	2(%r9), %eax
	movl	%eax, 62(%rsp)
	leaq	66(%rsp), %rcx
	movl	$262, %r8d
	xorl	%edx, %edx
	callq	memset
	testq	%rsi, %rsi
	je	.LBB100_13
	cmpq	$24, %rsi
	jb	.LBB100_2
	movq	%rsi, %rax
	decq	%rax
	leaq	67(%rsp), %rax
	sets	%cl
	leaq	(%rsp,%rsi,2), %rdx
	addq	$65, %rdx
	cmpq	%rax, %rdx
	setb	%al
	orb	%cl, %al
	je	.LBB100_5
.LBB100_2:
	xorl	%eax, %eax
.LBB100_8:
	movq	%rsi, %rdx
	movq	%rax, %rcx
	andq	$3, %rdx
	je	.LBB100_11
	movq	%rax, %rcx
	.p2align	4
.LBB100_10:
	movzbl	(%rbx,%rcx), %r8d
	movb	$1, 66(%rsp,%rcx,2)
	movb	%r8b, 67(%rsp,%rcx,2)
	incq	%rcx
	decq	%rdx
	jne	.LBB100_10
.LBB100_11:
	subq	%rsi, %rax
	cmpq	$-4, %rax
	ja	.LBB100_13
	.p2align	4
.LBB100_12:
	movzbl	(%rbx,%rcx), %eax
	movb	$1, 66(%rsp,%rcx,2)
	movb	%al, 67(%rsp,%rcx,2)
	movzbl	1(%rbx,%rcx), %eax
	movb	$1, 68(%rsp,%rcx,2)
	movb	%al, 69(%rsp,%rcx,2)
	movzbl	2(%rbx,%rcx), %eax
	movb	$1, 70(%rsp,%rcx,2)
	movb	%al, 71(%rsp,%rcx,2)
	movzbl	3(%rbx,%rcx), %eax
	movb	$1, 72(%rsp,%rcx,2)
	movb	%al, 73(%rsp,%rcx,2)
	addq	$4, %rcx
	cmpq	%rcx, %rsi
	jne	.LBB100_12
	jmp	.LBB100_13
.LBB100_5:
	movq	%rsi, %rax
	andq	$-8, %rax
	xorl	%ecx, %ecx
	.p2align	4
.LBB100_6:
	movq	(%rbx,%rcx), %xmm0
	movdqa	.LCPI100_0(%rip), %xmm1
	punpcklbw	%xmm0, %xmm1
	movdqu	%xmm1, 66(%rsp,%rcx,2)
	addq	$8, %rcx
	cmpq	%rcx, %rax
	jne	.LBB100_6
	cmpq	%rax, %rsi
	jne	.LBB100_8
.LBB100_13:
	movq	%r14, 48(%rsp)
	movq	%rdi, 40(%rsp)
	movq	$0, 32(%rsp)
	leaq	60(%rsp), %rcx
	leaq	66(%rsp), %rdx
	leaq	56(%rsp), %r9
	movq	%rsi, %r8
	callq	"ecc200_calls::writing::write_content"
	nop
	addq	$328, %rsp
	popq	%rbx
	popq	%rdi
	popq	%rsi
	popq	%r14
	retq
	.seh_endproc

	.def	"ecc200_calls::writing::write_content_of::<#dbd28265ffd20b3d>";
	.scl	3;
	.type	32;
	.endef
	.section	.rdata,"dr"
	.p2align	4, 0x0
.LCPI101_0:
	.byte	1
	.byte	1
	.byte	1
	.byte	1
	.byte	1
	.byte	1
	.byte	1
	.byte	1
	.zero	1
	.zero	1
	.zero	1
	.zero	1
	.zero	1
	.zero	1
	.zero	1
	.zero	1
	.text
	.p2align	4
"ecc200_calls::writing::write_content_of::<#dbd28265ffd20b3d>":
.seh_proc "ecc200_calls::writing::write_content_of::<#dbd28265ffd20b3d>"
	pushq	%r14
	.seh_pushreg %r14
	pushq	%rsi
	.seh_pushreg %rsi
	pushq	%rdi
	.seh_pushreg %rdi
	pushq	%rbx
	.seh_pushreg %rbx
	subq	$904, %rsp
	.seh_stackalloc 904
	.seh_endprologue
	movq	%r8, %rdi
	movq	%rdx, %rsi
	movq	%rcx, %rbx
	movq	976(%rsp), %r14
	movzbl	(%r9), %eax
	movb	%al, 68(%rsp)
	movzbl	1(%r9), %eax
	movb	%al, 69(%rsp)
	movl	2(%r9), %eax
	movl	%eax, 70(%rsp)
	leaq	74(%rsp), %rcx
	movl	$830, %r8d
	xorl	%edx, %edx
	callq	memset
	testq	%rsi, %rsi
	je	.LBB101_13
	cmpq	$24, %rsi
	jb	.LBB101_2
	movq	%rsi, %rax
	decq	%rax
	leaq	75(%rsp), %rax
	sets	%cl
	leaq	(%rsp,%rsi,2), %rdx
	addq	$73, %rdx
	cmpq	%rax, %rdx
	setb	%al
	orb	%cl, %al
	je	.LBB101_5
.LBB101_2:
	xorl	%eax, %eax
.LBB101_8:
	movq	%rsi, %rdx
	movq	%rax, %rcx
	andq	$3, %rdx
	je	.LBB101_11
	movq	%rax, %rcx
	.p2align	4
.LBB101_10:
	movzbl	(%rbx,%rcx), %r8d
	movb	$1, 74(%rsp,%rcx,2)
	movb	%r8b, 75(%rsp,%rcx,2)
	incq	%rcx
	decq	%rdx
	jne	.LBB101_10
.LBB101_11:
	subq	%rsi, %rax
	cmpq	$-4, %rax
	ja	.LBB101_13
	.p2align	4
.LBB101_12:
	movzbl	(%rbx,%rcx), %eax
	movb	$1, 74(%rsp,%rcx,2)
	movb	%al, 75(%rsp,%rcx,2)
	movzbl	1(%rbx,%rcx), %eax
	movb	$1, 76(%rsp,%rcx,2)
	movb	%al, 77(%rsp,%rcx,2)
	movzbl	2(%rbx,%rcx), %eax
	movb	$1, 78(%rsp,%rcx,2)
	movb	%al, 79(%rsp,%rcx,2)
	movzbl	3(%rbx,%rcx), %eax
	movb	$1, 80(%rsp,%rcx,2)
	movb	%al, 81(%rsp,%rcx,2)
	addq	$4, %rcx
	cmpq	%rcx, %rsi
	jne	.LBB101_12
	jmp	.LBB101_13
.LBB101_5:
	movq	%rsi, %rax
	andq	$-8, %rax
	xorl	%ecx, %ecx
	.p2align	4
.LBB101_6:
	movq	(%rbx,%rcx), %xmm0
	movdqa	.LCPI101_0(%rip), %xmm1
	punpcklbw	%xmm0, %xmm1
	movdqu	%xmm1, 74(%rsp,%rcx,2)
	addq	$8, %rcx
	cmpq	%rcx, %rax
	jne	.LBB101_6
	cmpq	%rax, %rsi
	jne	.LBB101_8
.LBB101_13:
	movq	%r14, 48(%rsp)
	movq	%rdi, 40(%rsp)
	movq	$0, 32(%rsp)
	leaq	68(%rsp), %rcx
	leaq	74(%rsp), %rdx
	leaq	64(%rsp), %r9
	movq	%rsi, %r8
	callq	"ecc200_calls::writing::write_content"
	nop
	addq	$904, %rsp
	popq	%rbx
	popq	%rdi
	popq	%rsi
	popq	%r14
	retq
	.seh_endproc

	.def	"ecc200_calls::writing::write_content_of::<#b97095b23881e008>";
	.scl	3;
	.type	32;
	.endef
	.section	.rdata,"dr"
	.p2align	4, 0x0
.LCPI102_0:
	.byte	1
	.byte	1
	.byte	1
	.byte	1
	.byte	1
	.byte	1
	.byte	1
	.byte	1
	.zero	1
	.zero	1
	.zero	1
	.zero	1
	.zero	1
	.zero	1
	.zero	1
	.zero	1
	.text
	.p2align	4
"ecc200_calls::writing::write_content_of::<#b97095b23881e008>":
.seh_proc "ecc200_calls::writing::write_content_of::<#b97095b23881e008>"
	pushq	%r14
	.seh_pushreg %r14
	pushq	%rsi
	.seh_pushreg %rsi
	pushq	%rdi
	.seh_pushreg %rdi
	pushq	%rbx
	.seh_pushreg %rbx
	subq	$3352, %rsp
	.seh_stackalloc 3352
	.seh_endprologue
	movq	%r8, %rdi
	movq	%rdx, %rsi
	movq	%rcx, %rbx
	movq	3424(%rsp), %r14
	movzbl	(%r9), %eax
	movb	%al, 68(%rsp)
	movzbl	1(%r9), %eax
	movb	%al, 69(%rsp)
	movl	2(%r9), %eax
	movl	%eax, 70(%rsp)
	leaq	74(%rsp), %rcx
	movl	$3278, %r8d
	xorl	%edx, %edx
	callq	memset
	testq	%rsi, %rsi
	je	.LBB102_13
	cmpq	$24, %rsi
	jb	.LBB102_2
	movq	%rsi, %rax
	decq	%rax
	leaq	75(%rsp), %rax
	sets	%cl
	leaq	(%rsp,%rsi,2), %rdx
	addq	$73, %rdx
	cmpq	%rax, %rdx
	setb	%al
	orb	%cl, %al
	je	.LBB102_5
.LBB102_2:
	xorl	%eax, %eax
.LBB102_8:
	movq	%rsi, %rdx
	movq	%rax, %rcx
	andq	$3, %rdx
	je	.LBB102_11
	movq	%rax, %rcx
	.p2align	4
.LBB102_10:
	movzbl	(%rbx,%rcx), %r8d
	movb	$1, 74(%rsp,%rcx,2)
	movb	%r8b, 75(%rsp,%rcx,2)
	incq	%rcx
	decq	%rdx
	jne	.LBB102_10
.LBB102_11:
	subq	%rsi, %rax
	cmpq	$-4, %rax
	ja	.LBB102_13
	.p2align	4
.LBB102_12:
	movzbl	(%rbx,%rcx), %eax
	movb	$1, 74(%rsp,%rcx,2)
	movb	%al, 75(%rsp,%rcx,2)
	movzbl	1(%rbx,%rcx), %eax
	movb	$1, 76(%rsp,%rcx,2)
	movb	%al, 77(%rsp,%rcx,2)
	movzbl	2(%rbx,%rcx), %eax
	movb	$1, 78(%rsp,%rcx,2)
	movb	%al, 79(%rsp,%rcx,2)
	movzbl	3(%rbx,%rcx), %eax
	movb	$1, 80(%rsp,%rcx,2)
	movb	%al, 81(%rsp,%rcx,2)
	addq	$4, %rcx
	cmpq	%rcx, %rsi
	jne	.LBB102_12
	jmp	.LBB102_13
.LBB102_5:
	movq	%rsi, %rax
	andq	$-8, %rax
	xorl	%ecx, %ecx
	.p2align	4
.LBB102_6:
	movq	(%rbx,%rcx), %xmm0
	movdqa	.LCPI102_0(%rip), %xmm1
	punpcklbw	%xmm0, %xmm1
	movdqu	%xmm1, 74(%rsp,%rcx,2)
	addq	$8, %rcx
	cmpq	%rcx, %rax
	jne	.LBB102_6
	cmpq	%rax, %rsi
	jne	.LBB102_8
.LBB102_13:
	movq	%r14, 48(%rsp)
	movq	%rdi, 40(%rsp)
	movq	$0, 32(%rsp)
	leaq	68(%rsp), %rcx
	leaq	74(%rsp), %rdx
	leaq	64(%rsp), %r9
	movq	%rsi, %r8
	callq	"ecc200_calls::writing::write_content"
	nop
	addq	$3352, %rsp
	popq	%rbx
	popq	%rdi
	popq	%rsi
	popq	%r14
	retq
	.seh_endproc

	.def	"ecc200_calls::writing::write_content_of::<#9f02d14f3d055ac0>";
	.scl	3;
	.type	32;
	.endef
	.section	.rdata,"dr"
	.p2align	4, 0x0
.LCPI103_0:
	.byte	1
	.byte	1
	.byte	1
	.byte	1
	.byte	1
	.byte	1
	.byte	1
	.byte	1
	.zero	1
	.zero	1
	.zero	1
	.zero	1
	.zero	1
	.zero	1
	.zero	1
	.zero	1
	.text
	.p2align	4
"ecc200_calls::writing::write_content_of::<#9f02d14f3d055ac0>":
.seh_proc "ecc200_calls::writing::write_content_of::<#9f02d14f3d055ac0>"
	pushq	%r14
	.seh_pushreg %r14
	pushq	%rsi
	.seh_pushreg %rsi
	pushq	%rdi
	.seh_pushreg %rdi
	pushq	%rbx
	.seh_pushreg %rbx
	movl	$6312, %eax
	callq	___chkstk_ms
	subq	%rax, %rsp
	.seh_stackalloc 6312
	.seh_endprologue
	movq	%r8, %rdi
	movq	%rdx, %rsi
	movq	%rcx, %rbx
	movq	6384(%rsp), %r14
	movzbl	(%r9), %eax
	movb	%al, 60(%rsp)
	movzbl	1(%r9), %eax
	movb	%al, 61(%rsp)
	movl	2(%r9), %eax
	movl	%eax, 62(%rsp)
	leaq	66(%rsp), %rcx
	movl	$6246, %r8d
	xorl	%edx, %edx
	callq	memset
	testq	%rsi, %rsi
	je	.LBB103_13
	cmpq	$24, %rsi
	jb	.LBB103_2
	movq	%rsi, %rax
	decq	%rax
	leaq	67(%rsp), %rax
	sets	%cl
	leaq	(%rsp,%rsi,2), %rdx
	addq	$65, %rdx
	cmpq	%rax, %rdx
	setb	%al
	orb	%cl, %al
	je	.LBB103_5
.LBB103_2:
	xorl	%eax, %eax
.LBB103_8:
	movq	%rsi, %rdx
	movq	%rax, %rcx
	andq	$3, %rdx
	je	.LBB103_11
	movq	%rax, %rcx
	.p2align	4
.LBB103_10:
	movzbl	(%rbx,%rcx), %r8d
	movb	$1, 66(%rsp,%rcx,2)
	movb	%r8b, 67(%rsp,%rcx,2)
	incq	%rcx
	decq	%rdx
	jne	.LBB103_10
.LBB103_11:
	subq	%rsi, %rax
	cmpq	$-4, %rax
	ja	.LBB103_13
	.p2align	4
.LBB103_12:
	movzbl	(%rbx,%rcx), %eax
	movb	$1, 66(%rsp,%rcx,2)
	movb	%al, 67(%rsp,%rcx,2)
	movzbl	1(%rbx,%rcx), %eax
	movb	$1, 68(%rsp,%rcx,2)
	movb	%al, 69(%rsp,%rcx,2)
	movzbl	2(%rbx,%rcx), %eax
	movb	$1, 70(%rsp,%rcx,2)
	movb	%al, 71(%rsp,%rcx,2)
	movzbl	3(%rbx,%rcx), %eax
	movb	$1, 72(%rsp,%rcx,2)
	movb	%al, 73(%rsp,%rcx,2)
	addq	$4, %rcx
	cmpq	%rcx, %rsi
	jne	.LBB103_12
	jmp	.LBB103_13
.LBB103_5:
	movq	%rsi, %rax
	andq	$-8, %rax
	xorl	%ecx, %ecx
	.p2align	4
.LBB103_6:
	movq	(%rbx,%rcx), %xmm0
	movdqa	.LCPI103_0(%rip), %xmm1
	punpcklbw	%xmm0, %xmm1
	movdqu	%xmm1, 66(%rsp,%rcx,2)
	addq	$8, %rcx
	cmpq	%rcx, %rax
	jne	.LBB103_6
	cmpq	%rax, %rsi
	jne	.LBB103_8
.LBB103_13:
	movq	%r14, 48(%rsp)
	movq	%rdi, 40(%rsp)
	movq	$0, 32(%rsp)
	leaq	60(%rsp), %rcx
	leaq	66(%rsp), %rdx
	leaq	56(%rsp), %r9
	movq	%rsi, %r8
	callq	"ecc200_calls::writing::write_content"
	nop
	addq	$6312, %rsp
	popq	%rbx
	popq	%rdi
	popq	%rsi
	popq	%r14
	retq
	.seh_endproc

	.def	ecc200_abi;
	.scl	2;
	.type	32;
	.endef
	.globl	ecc200_abi
	.p2align	4
ecc200_abi:
	movw	$1, %ax
	retq

	.def	ecc200_inspect;
	.scl	2;
	.type	32;
	.endef
	.section	.rdata,"dr"
	.p2align	4, 0x0
.LCPI105_0:
	.zero	16,1
.LCPI105_1:
	.quad	4294967297
	.quad	4294967297
	.text
	.globl	ecc200_inspect
	.p2align	4
ecc200_inspect:
.seh_proc ecc200_inspect
	pushq	%r15
	.seh_pushreg %r15
	pushq	%r14
	.seh_pushreg %r14
	pushq	%r12
	.seh_pushreg %r12
	pushq	%rsi
	.seh_pushreg %rsi
	pushq	%rdi
	.seh_pushreg %rdi
	pushq	%rbp
	.seh_pushreg %rbp
	pushq	%rbx
	.seh_pushreg %rbx
	subq	$80, %rsp
	.seh_stackalloc 80
	.seh_endprologue
	movzwl	184(%rsp), %r10d
	movzwl	176(%rsp), %eax
	movq	192(%rsp), %rsi
	xorl	%edi, %edi
	testq	%rcx, %rcx
	sete	%bpl
	xorl	%r11d, %r11d
	testq	%r8, %r8
	sete	%bl
	movq	%r10, %r14
	imulq	%rax, %r14
	cmpq	%r14, %rdx
	jne	.LBB105_1
	movb	%bpl, %dil
	shll	$12, %edi
	addq	%rdi, %rcx
	movb	%bl, %r11b
	shll	$12, %r11d
	addq	%r11, %r8
	leaq	.Lstatic.0(%rip), %rbx
	movq	$-50, %rdi
	.p2align	4
.LBB105_5:
	addq	$2, %rdi
	je	.LBB105_6
	movq	%rbx, %r11
	cmpw	%ax, (%rbx)
	jne	.LBB105_9
	cmpw	%r10w, 2(%r11)
	je	.LBB105_12
.LBB105_9:
	leaq	40(%r11), %rbx
	cmpw	%ax, 20(%r11)
	jne	.LBB105_5
	cmpw	%r10w, 22(%r11)
	jne	.LBB105_5
	addq	$-20, %rbx
	movq	%rbx, %r11
.LBB105_12:
	movsd	4(%r11), %xmm0
	movss	12(%r11), %xmm1
	movzwl	12(%r11), %edi
	movzwl	16(%r11), %ebx
	cmpw	$1, 18(%r11)
	sete	%bpl
	testq	%r9, %r9
	je	.LBB105_15
	cmpq	%rdx, %r9
	je	.LBB105_15
	xorl	%eax, %eax
	movw	$19, %cx
	jmp	.LBB105_2
.LBB105_1:
	movw	$3, %cx
	xorl	%eax, %eax
.LBB105_2:
	xorl	%r10d, %r10d
	jmp	.LBB105_3
.LBB105_6:
	movw	$4, %cx
.LBB105_3:
	movw	%cx, (%rsi)
	movw	%ax, 2(%rsi)
	movw	%r10w, 4(%rsi)
	movq	$0, 6(%rsi)
	movq	$0, 12(%rsi)
.LBB105_36:
	movzwl	(%rsi), %eax
	addq	$80, %rsp
	popq	%rbx
	popq	%rbp
	popq	%rdi
	popq	%rsi
	popq	%r12
	popq	%r14
	popq	%r15
	retq
.LBB105_15:
	xorl	%r11d, %r11d
	testq	%r9, %r9
	je	.LBB105_16
	cmpq	$4, %r9
	jae	.LBB105_20
	xorl	%r15d, %r15d
	xorl	%r14d, %r14d
	jmp	.LBB105_19
.LBB105_16:
	xorl	%r15d, %r15d
	jmp	.LBB105_31
.LBB105_20:
	cmpq	$16, %r9
	jae	.LBB105_22
	xorl	%r14d, %r14d
	xorl	%r15d, %r15d
	jmp	.LBB105_26
.LBB105_22:
	movq	%r9, %r14
	andq	$-16, %r14
	pxor	%xmm2, %xmm2
	xorl	%r15d, %r15d
	pxor	%xmm3, %xmm3
	.p2align	4
.LBB105_23:
	movdqu	(%r8,%r15), %xmm4
	pcmpeqb	%xmm2, %xmm4
	pcmpeqd	%xmm5, %xmm5
	pxor	%xmm4, %xmm5
	por	%xmm5, %xmm3
	addq	$16, %r15
	cmpq	%r15, %r14
	jne	.LBB105_23
	ptest	.LCPI105_0(%rip), %xmm3
	setne	%r15b
	cmpq	%r14, %r9
	je	.LBB105_30
	testb	$12, %r9b
	je	.LBB105_19
.LBB105_26:
	movq	%r14, %r12
	movq	%r9, %r14
	andq	$-4, %r14
	movzbl	%r15b, %r15d
	movd	%r15d, %xmm2
	.p2align	4
.LBB105_27:
	movd	(%r8,%r12), %xmm3
	pxor	%xmm4, %xmm4
	pcmpeqb	%xmm3, %xmm4
	pcmpeqd	%xmm3, %xmm3
	pxor	%xmm4, %xmm3
	pmovsxbd	%xmm3, %xmm3
	por	%xmm3, %xmm2
	addq	$4, %r12
	cmpq	%r12, %r14
	jne	.LBB105_27
	ptest	.LCPI105_1(%rip), %xmm2
	setne	%r15b
	jmp	.LBB105_29
.LBB105_19:
	cmpb	$0, (%r8,%r14)
	setne	%r12b
	orb	%r12b, %r15b
	incq	%r14
.LBB105_29:
	cmpq	%r14, %r9
	jne	.LBB105_19
.LBB105_30:
	andb	$1, %r15b
.LBB105_31:
	movw	%ax, 58(%rsp)
	movw	%r10w, 60(%rsp)
	movlps	%xmm0, 62(%rsp)
	movss	%xmm1, 70(%rsp)
	movw	%bx, 74(%rsp)
	movb	%bpl, 76(%rsp)
	movb	$0, 77(%rsp)
	movb	%r15b, 78(%rsp)
	movzwl	%di, %eax
	cmpl	$817, %eax
	setb	%r10b
	xorb	$3, %r10b
	cmpl	$205, %eax
	movzbl	%r10b, %r10d
	movl	$1, %edi
	cmovael	%r10d, %edi
	movb	$0, 79(%rsp)
	cmpw	$63, %ax
	cmovbl	%r11d, %edi
	movzbl	%dil, %eax
	leaq	.LJTI105_0(%rip), %r10
	movslq	(%r10,%rax,4), %rax
	addq	%r10, %rax
	jmpq	*%rax
.LBB105_32:
	movq	%rsi, 40(%rsp)
	leaq	58(%rsp), %rax
	movq	%rax, 32(%rsp)
	callq	"ecc200_calls::inspection::inspect_given::<=32,=98,=131,=31>"
	jmp	.LBB105_36
.LBB105_34:
	movq	%rsi, 40(%rsp)
	leaq	58(%rsp), %rax
	movq	%rax, 32(%rsp)
	callq	"ecc200_calls::inspection::inspect_given::<=104,=1152,=1639,=408>"
	jmp	.LBB105_36
.LBB105_35:
	movq	%rsi, 40(%rsp)
	leaq	58(%rsp), %rax
	movq	%rax, 32(%rsp)
	callq	"ecc200_calls::inspection::inspect_given::<=144,=2178,=3123,=779>"
	jmp	.LBB105_36
.LBB105_33:
	movq	%rsi, 40(%rsp)
	leaq	58(%rsp), %rax
	movq	%rax, 32(%rsp)
	callq	"ecc200_calls::inspection::inspect_given::<=52,=288,=415,=102>"
	jmp	.LBB105_36
	.section	.rdata,"dr"
	.p2align	2, 0x0
.LJTI105_0:
	.long	.LBB105_32-.LJTI105_0
	.long	.LBB105_33-.LJTI105_0
	.long	.LBB105_34-.LJTI105_0
	.long	.LBB105_35-.LJTI105_0
	.text
	.seh_endproc

	.def	ecc200_normal;
	.scl	2;
	.type	32;
	.endef
	.section	.rdata,"dr"
	.p2align	4, 0x0
.LCPI106_0:
	.zero	16,1
.LCPI106_1:
	.quad	4294967297
	.quad	4294967297
	.text
	.globl	ecc200_normal
	.p2align	4
ecc200_normal:
.seh_proc ecc200_normal
	pushq	%r15
	.seh_pushreg %r15
	pushq	%r14
	.seh_pushreg %r14
	pushq	%r13
	.seh_pushreg %r13
	pushq	%r12
	.seh_pushreg %r12
	pushq	%rsi
	.seh_pushreg %rsi
	pushq	%rdi
	.seh_pushreg %rdi
	pushq	%rbp
	.seh_pushreg %rbp
	pushq	%rbx
	.seh_pushreg %rbx
	subq	$120, %rsp
	.seh_stackalloc 120
	.seh_endprologue
	movq	%r9, 112(%rsp)
	movq	240(%rsp), %rbx
	movq	224(%rsp), %rsi
	xorl	%eax, %eax
	testq	%rcx, %rcx
	sete	%r12b
	xorl	%r10d, %r10d
	testq	%r8, %r8
	sete	%r13b
	movzwl	(%rsi), %r11d
	movzwl	2(%rsi), %edi
	movzwl	4(%rsi), %r14d
	movzwl	6(%rsi), %r9d
	movzwl	8(%rsi), %esi
	testl	%esi, %esi
	je	.LBB106_1
	cmpl	$1, %esi
	jne	.LBB106_3
	xorl	%esi, %esi
	jmp	.LBB106_6
.LBB106_1:
	movb	$1, %sil
.LBB106_6:
	movzwl	%r14w, %ebp
	cmpl	$3, %ebp
	ja	.LBB106_7
	movl	%esi, 108(%rsp)
	movl	%r14d, 68(%rsp)
	movq	%rdx, %rbx
	movzwl	232(%rsp), %esi
	movzwl	%r11w, %r15d
	movzwl	%di, %r14d
	movl	%ebp, %ebp
	leaq	.LJTI106_0(%rip), %rdx
	movslq	(%rdx,%rbp,4), %rbp
	addq	%rdx, %rbp
	jmpq	*%rbp
.LBB106_10:
	leal	(%r14,%r15), %ebp
	shrl	$3, %ebp
	movl	$0, 68(%rsp)
	jmp	.LBB106_13
.LBB106_3:
	movw	$17, %ax
	movl	%esi, %r14d
	jmp	.LBB106_4
.LBB106_11:
	movw	$-1, %bp
	movl	$0, 68(%rsp)
	jmp	.LBB106_13
.LBB106_12:
	movl	$0, 68(%rsp)
	movl	%r9d, %ebp
	jmp	.LBB106_13
.LBB106_9:
	xorl	%ebp, %ebp
.LBB106_13:
	testw	%si, %si
	je	.LBB106_14
	movzwl	%si, %edx
	cmpl	$1, %edx
	jne	.LBB106_52
	movb	$1, %r9b
	jmp	.LBB106_17
.LBB106_14:
	xorl	%r9d, %r9d
.LBB106_17:
	imulq	%r15, %r14
	cmpq	%r14, %rbx
	jne	.LBB106_18
	movq	%rbx, %r15
	movb	%r12b, %al
	movb	%r13b, %r10b
	shll	$12, %eax
	shll	$12, %r10d
	addq	%rax, %rcx
	addq	%r10, %r8
	leaq	.Lstatic.0(%rip), %rsi
	movq	$-50, %r10
	movq	240(%rsp), %r14
	.p2align	4
.LBB106_21:
	addq	$2, %r10
	je	.LBB106_22
	movq	%rsi, %rax
	cmpw	%r11w, (%rsi)
	jne	.LBB106_25
	cmpw	%di, 2(%rax)
	je	.LBB106_28
.LBB106_25:
	leaq	40(%rax), %rsi
	cmpw	%r11w, 20(%rax)
	jne	.LBB106_21
	cmpw	%di, 22(%rax)
	jne	.LBB106_21
	addq	$-20, %rsi
	movq	%rsi, %rax
.LBB106_28:
	movsd	4(%rax), %xmm0
	movss	12(%rax), %xmm1
	movzwl	12(%rax), %ebx
	movzwl	16(%rax), %edx
	cmpw	$1, 18(%rax)
	sete	%r13b
	movq	112(%rsp), %rsi
	testq	%rsi, %rsi
	je	.LBB106_31
	cmpq	%r15, %rsi
	je	.LBB106_31
	xorl	%r11d, %r11d
	movw	$19, %ax
	xorl	%edi, %edi
	jmp	.LBB106_19
.LBB106_18:
	movw	$3, %ax
	xorl	%r11d, %r11d
	xorl	%edi, %edi
	movq	240(%rsp), %r14
	jmp	.LBB106_19
.LBB106_52:
	movq	240(%rsp), %rax
	movw	$16, (%rax)
	movw	%si, 2(%rax)
	movl	$0, 4(%rax)
	movw	$0, 8(%rax)
	movw	$16, %ax
	jmp	.LBB106_53
.LBB106_7:
	movw	$24, %ax
.LBB106_4:
	movw	%ax, (%rbx)
	movw	%r14w, 2(%rbx)
	movl	$0, 4(%rbx)
	movw	$0, 8(%rbx)
	jmp	.LBB106_53
.LBB106_22:
	movw	$4, %ax
.LBB106_19:
	movw	%ax, (%r14)
	movw	%r11w, 2(%r14)
	movw	%di, 4(%r14)
	movl	$0, 6(%r14)
.LBB106_53:
	addq	$120, %rsp
	popq	%rbx
	popq	%rbp
	popq	%rdi
	popq	%rsi
	popq	%r12
	popq	%r13
	popq	%r14
	popq	%r15
	retq
.LBB106_31:
	testq	%rsi, %rsi
	je	.LBB106_32
	cmpq	$4, %rsi
	movw	%dx, 74(%rsp)
	jae	.LBB106_36
	xorl	%r12d, %r12d
	xorl	%eax, %eax
	jmp	.LBB106_35
.LBB106_32:
	xorl	%r12d, %r12d
	jmp	.LBB106_47
.LBB106_36:
	cmpq	$16, %rsi
	jae	.LBB106_38
	xorl	%eax, %eax
	xorl	%r12d, %r12d
	jmp	.LBB106_42
.LBB106_38:
	movq	%rsi, %rax
	andq	$-16, %rax
	pxor	%xmm2, %xmm2
	xorl	%r10d, %r10d
	pxor	%xmm3, %xmm3
	.p2align	4
.LBB106_39:
	movdqu	(%r8,%r10), %xmm4
	pcmpeqb	%xmm2, %xmm4
	pcmpeqd	%xmm5, %xmm5
	pxor	%xmm4, %xmm5
	por	%xmm5, %xmm3
	addq	$16, %r10
	cmpq	%r10, %rax
	jne	.LBB106_39
	ptest	.LCPI106_0(%rip), %xmm3
	setne	%r12b
	cmpq	%rax, %rsi
	je	.LBB106_46
	testb	$12, %sil
	je	.LBB106_35
.LBB106_42:
	movq	%rax, %r10
	movq	%rsi, %rax
	andq	$-4, %rax
	movzbl	%r12b, %edx
	movd	%edx, %xmm2
	.p2align	4
.LBB106_43:
	movd	(%r8,%r10), %xmm3
	pxor	%xmm4, %xmm4
	pcmpeqb	%xmm3, %xmm4
	pcmpeqd	%xmm3, %xmm3
	pxor	%xmm4, %xmm3
	pmovsxbd	%xmm3, %xmm3
	por	%xmm3, %xmm2
	addq	$4, %r10
	cmpq	%r10, %rax
	jne	.LBB106_43
	ptest	.LCPI106_1(%rip), %xmm2
	setne	%r12b
	jmp	.LBB106_45
.LBB106_35:
	cmpb	$0, (%r8,%rax)
	setne	%dl
	orb	%dl, %r12b
	incq	%rax
.LBB106_45:
	cmpq	%rax, %rsi
	jne	.LBB106_35
.LBB106_46:
	andb	$1, %r12b
	movzwl	74(%rsp), %edx
.LBB106_47:
	movq	%r15, %rax
	movq	%rcx, %r10
	movb	%r9b, 67(%rsp)
	movw	%r11w, 76(%rsp)
	movw	%di, 78(%rsp)
	movl	108(%rsp), %ecx
	movb	%cl, 80(%rsp)
	movb	$0, 81(%rsp)
	movl	68(%rsp), %ecx
	movw	%cx, 82(%rsp)
	movw	%bp, 84(%rsp)
	movw	%r11w, 86(%rsp)
	movw	%di, 88(%rsp)
	movlps	%xmm0, 90(%rsp)
	movss	%xmm1, 98(%rsp)
	movw	%dx, 102(%rsp)
	movb	%r13b, 104(%rsp)
	movb	$0, 105(%rsp)
	movb	%r12b, 106(%rsp)
	movzwl	%bx, %ecx
	cmpl	$817, %ecx
	setb	%dl
	xorb	$3, %dl
	cmpl	$205, %ecx
	movzbl	%dl, %edx
	movl	$1, %r11d
	cmovael	%edx, %r11d
	movb	$0, 107(%rsp)
	cmpw	$63, %cx
	movl	$0, %ecx
	cmovbl	%ecx, %r11d
	movzbl	%r11b, %ecx
	leaq	.LJTI106_1(%rip), %rdx
	movslq	(%rdx,%rcx,4), %rcx
	addq	%rdx, %rcx
	jmpq	*%rcx
.LBB106_48:
	movq	%r14, 56(%rsp)
	leaq	86(%rsp), %rcx
	movq	%rcx, 48(%rsp)
	movq	%rsi, 40(%rsp)
	movq	%r8, 32(%rsp)
	leaq	67(%rsp), %rcx
	leaq	76(%rsp), %rdx
	movq	%r10, %r8
	movq	%rax, %r9
	callq	"ecc200_calls::answer::answer_given::<#67f27f8c38696f0b>"
	movzwl	(%r14), %eax
	jmp	.LBB106_53
.LBB106_50:
	movq	%r14, 56(%rsp)
	leaq	86(%rsp), %rcx
	movq	%rcx, 48(%rsp)
	movq	%rsi, 40(%rsp)
	movq	%r8, 32(%rsp)
	leaq	67(%rsp), %rcx
	leaq	76(%rsp), %rdx
	movq	%r10, %r8
	movq	%rax, %r9
	callq	"ecc200_calls::answer::answer_given::<#1120882bd96666a5>"
	movzwl	(%r14), %eax
	jmp	.LBB106_53
.LBB106_51:
	movq	%r14, 56(%rsp)
	leaq	86(%rsp), %rcx
	movq	%rcx, 48(%rsp)
	movq	%rsi, 40(%rsp)
	movq	%r8, 32(%rsp)
	leaq	67(%rsp), %rcx
	leaq	76(%rsp), %rdx
	movq	%r10, %r8
	movq	%rax, %r9
	callq	"ecc200_calls::answer::answer_given::<#c193b66836f70129>"
	movzwl	(%r14), %eax
	jmp	.LBB106_53
.LBB106_49:
	movq	%r14, 56(%rsp)
	leaq	86(%rsp), %rcx
	movq	%rcx, 48(%rsp)
	movq	%rsi, 40(%rsp)
	movq	%r8, 32(%rsp)
	leaq	67(%rsp), %rcx
	leaq	76(%rsp), %rdx
	movq	%r10, %r8
	movq	%rax, %r9
	callq	"ecc200_calls::answer::answer_given::<#e937d748901de80e>"
	movzwl	(%r14), %eax
	jmp	.LBB106_53
	.section	.rdata,"dr"
	.p2align	2, 0x0
.LJTI106_0:
	.long	.LBB106_10-.LJTI106_0
	.long	.LBB106_9-.LJTI106_0
	.long	.LBB106_11-.LJTI106_0
	.long	.LBB106_12-.LJTI106_0
.LJTI106_1:
	.long	.LBB106_48-.LJTI106_1
	.long	.LBB106_49-.LJTI106_1
	.long	.LBB106_50-.LJTI106_1
	.long	.LBB106_51-.LJTI106_1
	.text
	.seh_endproc

	.def	ecc200_places;
	.scl	2;
	.type	32;
	.endef
	.section	.rdata,"dr"
	.p2align	4, 0x0
.LCPI107_0:
	.long	50331648
	.long	50331648
	.long	50331648
	.long	50331648
	.text
	.globl	ecc200_places
	.p2align	4
ecc200_places:
.seh_proc ecc200_places
	pushq	%r15
	.seh_pushreg %r15
	pushq	%r14
	.seh_pushreg %r14
	pushq	%r13
	.seh_pushreg %r13
	pushq	%r12
	.seh_pushreg %r12
	pushq	%rsi
	.seh_pushreg %rsi
	pushq	%rdi
	.seh_pushreg %rdi
	pushq	%rbp
	.seh_pushreg %rbp
	pushq	%rbx
	.seh_pushreg %rbx
	subq	$272, %rsp
	.seh_stackalloc 272
	.seh_endprologue
	movl	%edx, %r9d
	leaq	.Lstatic.0(%rip), %r10
	movq	$-50, %rdx
	.p2align	4
.LBB107_1:
	addq	$2, %rdx
	je	.LBB107_112
	movq	%r10, %rax
	cmpw	%cx, (%r10)
	jne	.LBB107_4
	cmpw	%r9w, 2(%rax)
	je	.LBB107_7
.LBB107_4:
	leaq	40(%rax), %r10
	cmpw	%cx, 20(%rax)
	jne	.LBB107_1
	cmpw	%r9w, 22(%rax)
	jne	.LBB107_1
	addq	$-20, %r10
	movq	%r10, %rax
.LBB107_7:
	movzwl	4(%rax), %edx
	movq	%rdx, 160(%rsp)
	movzwl	6(%rax), %edx
	movq	%rdx, 216(%rsp)
	movzwl	8(%rax), %edx
	movq	%rdx, 224(%rsp)
	movzwl	10(%rax), %eax
	movq	%rax, 192(%rsp)
	movl	$0, (%r8)
	movw	$0, 4(%r8)
	movw	%cx, 6(%r8)
	movw	%r9w, 8(%r8)
	addq	$10, %r8
	movq	%r8, 144(%rsp)
	movzwl	%r9w, %ebx
	testw	%cx, %cx
	je	.LBB107_29
	testw	%r9w, %r9w
	je	.LBB107_29
	movq	160(%rsp), %rax
	addl	$2, %eax
	movl	%eax, 8(%rsp)
	testw	%ax, %ax
	movq	216(%rsp), %rax
	je	.LBB107_114
	leal	2(%rax), %ebp
	testw	%bp, %bp
	je	.LBB107_114
	leal	1(%rax), %r15d
	movq	160(%rsp), %rax
	incl	%eax
	movl	%eax, 120(%rsp)
	movzwl	%cx, %eax
	movq	%rax, 200(%rsp)
	movl	%ebx, %r14d
	andl	$-2, %r14d
	movl	%ebx, %eax
	andl	$-4, %eax
	movq	%rax, 152(%rsp)
	leal	(,%rbx,4), %esi
	movl	%esi, %r8d
	andl	$-16, %r8d
	xorl	%ecx, %ecx
	movq	144(%rsp), %rdi
	jmp	.LBB107_14
.LBB107_12:
	movq	%rcx, %r11
	imulq	%rbx, %r11
	movl	%r10d, %eax
	xorl	%edx, %edx
	divw	%bp
	notb	%dl
	movzbl	%dl, %eax
	andl	$1, %eax
	orl	$2, %eax
	shll	$24, %eax
	addq	%r10, %r11
	movq	144(%rsp), %rdx
	movl	%eax, (%rdx,%r11,4)
	.p2align	4
.LBB107_13:
	incq	%rcx
	addq	%rsi, %rdi
	cmpq	200(%rsp), %rcx
	je	.LBB107_29
.LBB107_14:
	movl	%ecx, %eax
	xorl	%edx, %edx
	divw	8(%rsp)
	cmpw	120(%rsp), %dx
	jne	.LBB107_19
	xorl	%eax, %eax
	cmpw	$4, %r9w
	jb	.LBB107_18
	.p2align	4
.LBB107_16:
	movaps	.LCPI107_0(%rip), %xmm0
	movups	%xmm0, (%rdi,%rax)
	addq	$16, %rax
	cmpq	%rax, %r8
	jne	.LBB107_16
	movq	152(%rsp), %rdx
	movq	%rdx, %rax
	cmpl	%ebx, %edx
	je	.LBB107_13
	.p2align	4
.LBB107_18:
	movl	$50331648, (%rdi,%rax,4)
	incq	%rax
	cmpq	%rax, %rbx
	jne	.LBB107_18
	jmp	.LBB107_13
	.p2align	4
.LBB107_19:
	movl	%edx, %r12d
	testw	%dx, %dx
	je	.LBB107_26
	andl	$1, %r12d
	orl	$2, %r12d
	shll	$24, %r12d
	xorl	%r11d, %r11d
	jmp	.LBB107_22
	.p2align	4
.LBB107_21:
	movl	%eax, (%rdi,%r11,4)
	incq	%r11
	cmpq	%r11, %rbx
	je	.LBB107_13
.LBB107_22:
	movl	%r11d, %eax
	xorl	%edx, %edx
	divw	%bp
	xorl	%eax, %eax
	cmpq	%r11, %rcx
	sete	%r13b
	movl	%r12d, %r10d
	cmpw	%r15w, %dx
	je	.LBB107_24
	movb	%r13b, %al
	orl	$4, %eax
	shll	$24, %eax
	movl	%eax, %r10d
.LBB107_24:
	movl	$50331648, %eax
	testw	%dx, %dx
	je	.LBB107_21
	movl	%r10d, %eax
	jmp	.LBB107_21
.LBB107_26:
	xorl	%r10d, %r10d
	cmpw	$1, %r9w
	je	.LBB107_12
	.p2align	4
.LBB107_27:
	movl	%r10d, %eax
	xorl	%edx, %edx
	divw	%bp
	notb	%dl
	movzbl	%dl, %eax
	andl	$1, %eax
	orl	$2, %eax
	shll	$24, %eax
	movl	%eax, (%rdi,%r10,4)
	leal	1(%r10), %eax
	xorl	%edx, %edx
	divw	%bp
	notb	%dl
	movzbl	%dl, %eax
	andl	$1, %eax
	orl	$2, %eax
	shll	$24, %eax
	movl	%eax, 4(%rdi,%r10,4)
	addq	$2, %r10
	cmpq	%r10, %r14
	jne	.LBB107_27
	testb	$1, %bl
	jne	.LBB107_12
	jmp	.LBB107_13
.LBB107_29:
	movq	224(%rsp), %r15
	imull	160(%rsp), %r15d
	movq	192(%rsp), %r10
	imull	216(%rsp), %r10d
	movl	%r15d, %ebp
	andl	$7, %ebp
	cmpw	$6, %bp
	sete	%cl
	movl	%r10d, %r8d
	andl	$7, %r8d
	cmpw	$6, %r8w
	sete	%dl
	movl	%r8d, %eax
	xorw	$4, %ax
	sete	%al
	movl	%ecx, %r9d
	andb	%dl, %r9b
	movb	%r9b, 15(%rsp)
	orb	%al, %dl
	movb	%dl, 200(%rsp)
	testl	%r8d, %r8d
	sete	%r9b
	movl	%ebp, %edx
	xorw	$4, %dx
	sete	%dl
	andb	%cl, %r9b
	movb	%r9b, 13(%rsp)
	andb	%al, %cl
	movb	%cl, 14(%rsp)
	movl	%r8d, %ecx
	xorl	$4, %ecx
	movw	%cx, 126(%rsp)
	leal	2(%rcx), %r9d
	movl	%r9d, 236(%rsp)
	movl	%ebp, %r9d
	xorl	$4, %r9d
	movw	%r9w, 30(%rsp)
	leal	2(%r9), %r11d
	movl	%r11d, 176(%rsp)
	movl	%r15d, %r11d
	subl	%ecx, %r11d
	addl	$2, %r11d
	movl	%r11d, 180(%rsp)
	movl	%r10d, %r11d
	subl	%r9d, %r11d
	movl	%r11d, 172(%rsp)
	movl	%ebp, %r11d
	xorl	$65531, %r11d
	movl	%r11d, 240(%rsp)
	incl	%ecx
	movq	%rcx, 256(%rsp)
	movl	%r8d, 152(%rsp)
	movl	%r8d, %ecx
	xorl	$-5, %ecx
	addl	%r15d, %ecx
	addl	$4, %ecx
	movl	%ecx, 168(%rsp)
	negl	%r9d
	movq	%r9, 264(%rsp)
	andb	%al, %dl
	movb	%dl, 120(%rsp)
	leal	(%r10,%r15), %edi
	leal	-2(%r15), %eax
	movl	%eax, 8(%rsp)
	leal	-2(%r10), %eax
	movq	%rax, 88(%rsp)
	leal	-1(%r10), %eax
	movl	%eax, 4(%rsp)
	leal	6(%r15), %eax
	movl	%eax, 252(%rsp)
	leal	-1(%r15), %eax
	movl	%eax, 24(%rsp)
	leal	-3(%r10), %eax
	movl	%eax, 188(%rsp)
	leal	-3(%r15), %eax
	movl	%eax, 184(%rsp)
	leal	-4(%r10), %eax
	movl	%eax, 244(%rsp)
	xorl	%r12d, %r12d
	xorl	%r11d, %r11d
	xorl	%r13d, %r13d
	xorl	%esi, %esi
	movq	144(%rsp), %r14
	movq	%r10, 192(%rsp)
	movl	%ebp, 248(%rsp)
	movq	%r15, 224(%rsp)
.LBB107_30:
	movl	%r13d, %eax
	movq	%rsi, %r9
	jmp	.LBB107_34
.LBB107_31:
	movl	%r12d, %ecx
	subw	%r10w, %cx
	incl	%ecx
	orl	$1, %ecx
	cmpw	%r10w, %r12w
	movl	$1, %eax
	cmovael	%ecx, %eax
	movb	$2, %r11b
	xorl	%ecx, %ecx
.LBB107_32:
	xorl	%r8d, %r8d
.LBB107_33:
	testb	%sil, %sil
	movq	%r9, %rsi
	jne	.LBB107_69
.LBB107_34:
	leal	1(%r12), %ecx
	cmpw	%di, %cx
	jae	.LBB107_111
	cmpb	$2, %r11b
	je	.LBB107_42
	movzbl	%r11b, %ecx
	cmpl	$1, %ecx
	jne	.LBB107_50
	cmpw	%ax, %r10w
	jbe	.LBB107_47
	cmpw	%ax, %r12w
	jb	.LBB107_47
	movl	%r12d, %r8d
	subl	%eax, %r8d
	leal	2(%rax), %r13d
	cmpw	$6, %bp
	jne	.LBB107_79
	movl	%r8d, %ecx
	xorl	8(%rsp), %ecx
	orw	%ax, %cx
	sete	%cl
	movb	$1, %r11b
	testb	%cl, 200(%rsp)
	je	.LBB107_57
	movw	$2, %ax
	jmp	.LBB107_48
	.p2align	4
.LBB107_42:
	cmpw	%ax, %r15w
	jbe	.LBB107_47
	cmpw	%ax, %r12w
	jb	.LBB107_47
	movl	%r12d, %ecx
	subl	%eax, %ecx
	leal	2(%rax), %r13d
	cmpw	$6, %bp
	jne	.LBB107_78
	movl	%eax, %edx
	xorl	8(%rsp), %edx
	orw	%cx, %dx
	sete	%dl
	movb	$2, %r11b
	testb	%dl, 200(%rsp)
	je	.LBB107_61
	xorl	%ecx, %ecx
	movl	%r13d, %eax
	jmp	.LBB107_49
	.p2align	4
.LBB107_47:
	addl	$4, %r12d
	xorl	%r11d, %r11d
.LBB107_48:
	xorl	%ecx, %ecx
.LBB107_49:
	xorl	%r8d, %r8d
	xorl	%edx, %edx
	xorl	%esi, %esi
	jmp	.LBB107_33
	.p2align	4
.LBB107_50:
	movl	%r12d, %eax
	subw	%r15w, %ax
	sete	%cl
	movb	$1, %sil
	testb	%cl, 120(%rsp)
	je	.LBB107_52
	movb	$1, %dl
	jmp	.LBB107_55
.LBB107_52:
	movl	8(%rsp), %r8d
	cmpw	%r8w, %r12w
	sete	%cl
	movb	$2, %dl
	testb	%cl, 15(%rsp)
	jne	.LBB107_55
	cmpw	%r8w, %r12w
	sete	%cl
	movb	$3, %dl
	testb	%cl, 14(%rsp)
	jne	.LBB107_55
	cmpw	252(%rsp), %r12w
	sete	%sil
	andb	13(%rsp), %sil
	leal	(,%rsi,4), %edx
	.p2align	4
.LBB107_55:
	movl	%r12d, %ecx
	andl	$7, %ecx
	cmpw	$4, %cx
	jne	.LBB107_31
	andl	$-2, %eax
	addl	$2, %eax
	xorl	%ecx, %ecx
	cmpw	%r15w, %r12w
	cmovbl	%ecx, %eax
	movb	$1, %r11b
	jmp	.LBB107_32
.LBB107_57:
	xorl	%edx, %edx
	cmpw	$6, 152(%rsp)
	jne	.LBB107_66
	cmpw	88(%rsp), %ax
	jne	.LBB107_66
	testw	%r8w, %r8w
	jne	.LBB107_66
	movl	%r13d, %eax
	jmp	.LBB107_65
.LBB107_61:
	xorl	%edx, %edx
	cmpw	$6, 152(%rsp)
	jne	.LBB107_67
	testw	%ax, %ax
	jne	.LBB107_67
	cmpw	88(%rsp), %cx
	jne	.LBB107_67
	movw	$2, %ax
.LBB107_65:
	xorl	%ecx, %ecx
	xorl	%r8d, %r8d
	xorl	%esi, %esi
	jmp	.LBB107_33
.LBB107_66:
	movl	%r8d, %ecx
	xorl	$1, %ecx
	movl	%eax, %esi
	xorl	4(%rsp), %esi
	orl	%ecx, %esi
	orw	152(%rsp), %si
	setne	%sil
	cmovel	%edx, %r8d
	cmovel	%edx, %eax
	movl	%eax, %ecx
	jmp	.LBB107_68
.LBB107_67:
	movl	%eax, %r8d
	xorl	$1, %r8d
	movl	%ecx, %esi
	xorl	4(%rsp), %esi
	orl	%r8d, %esi
	orw	152(%rsp), %si
	setne	%sil
	cmovel	%edx, %eax
	movl	%eax, %r8d
	cmovel	%edx, %ecx
.LBB107_68:
	movl	%r13d, %eax
	jmp	.LBB107_33
	.p2align	4
.LBB107_69:
	movw	$2, %bp
	movzbl	%dl, %edx
	leaq	.LJTI107_0(%rip), %rsi
	movslq	(%rsi,%rdx,4), %rdx
	addq	%rsi, %rdx
	jmpq	*%rdx
.LBB107_70:
	movl	%eax, %r13d
	movl	%r8d, %eax
	movq	%rax, 16(%rsp)
	movq	192(%rsp), %r10
	movq	%r9, %rsi
	jmp	.LBB107_81
.LBB107_71:
	movw	$1, %cx
	movq	%rcx, 16(%rsp)
	movq	$0, 40(%rsp)
	movl	%eax, %r13d
	movl	24(%rsp), %eax
	movl	%eax, %r8d
	movq	%rax, 56(%rsp)
	movl	4(%rsp), %ecx
	movl	%ecx, %eax
	movq	%rax, 32(%rsp)
	movq	$0, 96(%rsp)
	movl	188(%rsp), %edx
	movl	%edx, %eax
	movq	%rax, 72(%rsp)
	movq	$0, 112(%rsp)
	movq	88(%rsp), %rax
	movl	%eax, %r10d
	movq	%r10, 80(%rsp)
	movq	$0, 64(%rsp)
	movl	%ecx, %r10d
	movq	%r10, 48(%rsp)
	movq	%rdx, 104(%rsp)
	movw	$1, %bp
	movq	%rax, 128(%rsp)
	movw	$1, %ax
	movq	%rax, 136(%rsp)
	jmp	.LBB107_77
.LBB107_72:
	movw	$1, %cx
	movq	%rcx, 136(%rsp)
	movq	$0, 40(%rsp)
	movl	%eax, %r13d
	movl	184(%rsp), %eax
	movl	%eax, %r8d
	movl	8(%rsp), %eax
	movq	%rax, 56(%rsp)
	movq	$0, 32(%rsp)
	movl	24(%rsp), %eax
	movq	%rax, 96(%rsp)
	movq	$0, 72(%rsp)
	movq	$0, 112(%rsp)
	movl	244(%rsp), %eax
	movq	%rax, 80(%rsp)
	movq	$0, 64(%rsp)
	movl	188(%rsp), %eax
	movq	%rax, 48(%rsp)
	movq	$0, 16(%rsp)
	movq	88(%rsp), %rax
	movq	%rax, 104(%rsp)
	xorl	%ebp, %ebp
	movl	4(%rsp), %eax
	movl	%eax, %ecx
	jmp	.LBB107_76
.LBB107_73:
	movw	$3, %cx
	movq	%rcx, 136(%rsp)
	movw	$1, %cx
	movq	%rcx, 16(%rsp)
	movq	$0, 40(%rsp)
	movl	%eax, %r13d
	movl	184(%rsp), %eax
	movl	%eax, %r8d
	movl	8(%rsp), %eax
	movq	%rax, 56(%rsp)
	movq	$0, 32(%rsp)
	movl	24(%rsp), %eax
	movq	%rax, 96(%rsp)
	movq	$0, 72(%rsp)
	jmp	.LBB107_75
.LBB107_74:
	movw	$3, %cx
	movq	%rcx, 136(%rsp)
	movw	$1, %cx
	movq	%rcx, 16(%rsp)
	movq	$0, 40(%rsp)
	movl	%eax, %r13d
	movl	24(%rsp), %eax
	movl	%eax, %r8d
	movl	%eax, %ecx
	movq	%rcx, 56(%rsp)
	movw	$1, %cx
	movq	%rcx, 32(%rsp)
	movq	%rax, 96(%rsp)
	movw	$2, %ax
	movq	%rax, 72(%rsp)
.LBB107_75:
	movq	$0, 112(%rsp)
	movq	88(%rsp), %rax
	movq	%rax, 80(%rsp)
	movq	$0, 64(%rsp)
	movl	4(%rsp), %eax
	movl	%eax, %ecx
	movq	%rcx, 48(%rsp)
	movq	%rcx, 104(%rsp)
.LBB107_76:
	movq	%rcx, 128(%rsp)
.LBB107_77:
	movq	%r9, %rsi
	jmp	.LBB107_103
.LBB107_78:
	jmp	.LBB107_80
.LBB107_79:
	movl	%eax, %ecx
	movl	%r8d, %eax
.LBB107_80:
	movq	%rax, 16(%rsp)
.LBB107_81:
	cmpw	$2, %cx
	movq	16(%rsp), %rax
	jb	.LBB107_84
	cmpw	$2, %ax
	jb	.LBB107_84
	leal	-2(%rax), %r8d
	leal	-2(%rcx), %r9d
	leal	-1(%rcx), %r10d
	leal	-1(%rax), %ebp
	movl	%r8d, %edx
	movq	%rdx, 56(%rsp)
	movl	%r9d, %edx
	movq	%rdx, 72(%rsp)
	movl	%ebp, %edx
	movq	%rdx, 112(%rsp)
	movl	%r10d, %edx
	movq	%rdx, 80(%rsp)
	movq	%rbp, 96(%rsp)
	movq	%rbp, 64(%rsp)
	movl	%ecx, %edx
	movq	%rdx, 48(%rsp)
	movq	%r9, 40(%rsp)
	movq	%r9, 104(%rsp)
	movl	%eax, %ebp
	movq	%r10, 32(%rsp)
	movq	%r10, 128(%rsp)
	movq	%rax, 136(%rsp)
	jmp	.LBB107_103
.LBB107_84:
	cmpw	$1, %ax
	ja	.LBB107_87
	leal	4(%rcx), %esi
	cmpw	176(%rsp), %si
	movl	8(%rsp), %edx
	movl	%edx, %r14d
	cmovbl	180(%rsp), %r14d
	movq	264(%rsp), %rdx
	cmovbl	172(%rsp), %edx
	movq	%rdx, 64(%rsp)
	addl	%eax, %r14d
	cmpw	%r14w, %r15w
	movl	%r15d, %r8d
	movl	$0, %edx
	cmoval	%edx, %r8d
	subl	%r8d, %r14d
	movq	%r14, 208(%rsp)
	movq	%rsi, 48(%rsp)
	cmpw	30(%rsp), %si
	movl	8(%rsp), %r8d
	movl	%r8d, %r14d
	cmovbel	180(%rsp), %r14d
	movl	%r10d, %r8d
	movl	$0, %r10d
	cmoval	%r10d, %r8d
	addl	%eax, %r14d
	movswl	240(%rsp), %esi
	addl	%ecx, %esi
	addl	$4, %esi
	addl	%r8d, %esi
	cmpw	%r14w, %r15w
	movl	%r15d, %r8d
	cmoval	%r10d, %r8d
	subl	%r8d, %r14d
	movq	%r14, 56(%rsp)
	movq	64(%rsp), %rdx
	addl	%ecx, %edx
	addl	$2, %edx
	testw	%ax, %ax
	movq	%rdx, 40(%rsp)
	je	.LBB107_106
	movq	%rax, %r10
	movq	%rsi, 32(%rsp)
	movq	%r9, %rsi
	movq	56(%rsp), %r9
	movq	144(%rsp), %r14
	movq	208(%rsp), %rdx
	jmp	.LBB107_93
.LBB107_87:
	cmpw	$2, %cx
	jae	.LBB107_90
	movq	16(%rsp), %r10
	leal	4(%r10), %r9d
	xorl	%eax, %eax
	subw	236(%rsp), %r9w
	cmovbl	%eax, %r9d
	cmpw	%r9w, %r15w
	cmovbel	%r15d, %eax
	movq	88(%rsp), %rdx
	addl	%ecx, %edx
	movq	%rdx, 40(%rsp)
	movl	%r9d, %edx
	subl	%eax, %edx
	testw	%cx, %cx
	je	.LBB107_108
	leal	-2(%r10), %r9d
	jmp	.LBB107_91
.LBB107_90:
	movq	16(%rsp), %r10
	leal	-2(%r10), %r9d
	xorl	%eax, %eax
	cmpw	%r9w, %r15w
	cmovbel	%r15d, %eax
	leal	-2(%rcx), %edx
	movq	%rdx, 40(%rsp)
	movl	%r9d, %edx
	subl	%eax, %edx
.LBB107_91:
	leal	-1(%rcx), %eax
.LBB107_92:
	movq	%rax, 32(%rsp)
	xorl	%eax, %eax
	cmpw	%r9w, %r15w
	cmovbel	%r15d, %eax
	subl	%eax, %r9d
.LBB107_93:
	cmpw	$1, %cx
	movq	%rdx, 208(%rsp)
	ja	.LBB107_95
	leal	4(%r10), %r8d
	xorl	%eax, %eax
	subw	256(%rsp), %r8w
	cmovbl	%eax, %r8d
	movq	88(%rsp), %rdx
	addl	%ecx, %edx
	movq	%rdx, 72(%rsp)
	cmpw	%r8w, %r15w
	cmovbel	%r15d, %eax
	movl	%r8d, %edx
	subl	%eax, %edx
	movq	%rdx, 96(%rsp)
	leal	-1(%r10), %edx
	movl	4(%rsp), %eax
	testw	%cx, %cx
	jne	.LBB107_96
	jmp	.LBB107_97
.LBB107_95:
	leal	-1(%r10), %r8d
	xorl	%eax, %eax
	cmpw	%r8w, %r15w
	cmovbel	%r15d, %eax
	leal	-2(%rcx), %edx
	movq	%rdx, 72(%rsp)
	movl	%r8d, %edx
	subl	%eax, %edx
	movq	%rdx, 96(%rsp)
	movq	%r8, %rdx
.LBB107_96:
	leal	-1(%rcx), %eax
	movl	%edx, %r8d
.LBB107_97:
	movq	%rax, 80(%rsp)
	xorl	%eax, %eax
	cmpw	%r8w, %r15w
	cmovbel	%r15d, %eax
	subl	%eax, %r8d
	movq	%r8, 112(%rsp)
	movl	%ecx, %eax
	movq	%rax, 48(%rsp)
.LBB107_98:
	xorl	%r8d, %r8d
	movq	%rdx, 64(%rsp)
	cmpw	%dx, %r15w
	movl	%r15d, %eax
	cmoval	%r8d, %eax
	cmpw	$2, %cx
	movq	%r9, 56(%rsp)
	jae	.LBB107_100
	leal	4(%r10), %ebp
	subw	126(%rsp), %bp
	cmovbl	%r8d, %ebp
	movq	88(%rsp), %rdx
	addl	%ecx, %edx
	movq	%rdx, 104(%rsp)
	cmpw	%bp, %r15w
	cmovbel	%r15d, %r8d
	movl	%ebp, %edx
	subl	%r8d, %edx
	movl	4(%rsp), %r8d
	testw	%cx, %cx
	jne	.LBB107_101
	jmp	.LBB107_102
.LBB107_100:
	cmpw	%r10w, %r15w
	cmovbel	%r15d, %r8d
	leal	-2(%rcx), %edx
	movq	%rdx, 104(%rsp)
	movl	%r10d, %edx
	subl	%r8d, %edx
.LBB107_101:
	leal	-1(%rcx), %r8d
	movl	%r10d, %ebp
.LBB107_102:
	movq	%r8, 128(%rsp)
	movq	64(%rsp), %r8
	subl	%eax, %r8d
	movq	%r8, 64(%rsp)
	xorl	%eax, %eax
	cmpw	%bp, %r15w
	movl	%r15d, %r8d
	cmoval	%eax, %r8d
	subl	%r8d, %ebp
	cmpw	%r10w, %r15w
	cmovbel	%r15d, %eax
	subl	%eax, %r10d
	movq	%r10, 136(%rsp)
	movl	%edx, %eax
	movq	%rax, 16(%rsp)
	movq	208(%rsp), %r8
.LBB107_103:
	cmpw	$0, 160(%rsp)
	je	.LBB107_114
	movq	216(%rsp), %r15
	testw	%r15w, %r15w
	je	.LBB107_114
	movq	%rbp, %r10
	movq	%rsi, %r9
	movl	%r8d, %eax
	xorl	%edx, %edx
	movq	160(%rsp), %rsi
	divw	%si
	leal	(%r8,%rax,2), %r8d
	incl	%r8d
	movq	40(%rsp), %rbp
	movl	%ebp, %eax
	xorl	%edx, %edx
	divw	%r15w
	leal	1(%rbp,%rax,2), %eax
	movzwl	%r8w, %edx
	movzwl	%ax, %eax
	imulq	%rbx, %rdx
	addq	%rax, %rdx
	movw	%r9w, (%r14,%rdx,4)
	movw	$257, 2(%r14,%rdx,4)
	movq	56(%rsp), %r8
	movl	%r8d, %eax
	xorl	%edx, %edx
	divw	%si
	leal	(%r8,%rax,2), %r8d
	incl	%r8d
	movq	32(%rsp), %rbp
	movl	%ebp, %eax
	xorl	%edx, %edx
	divw	%r15w
	leal	1(%rbp,%rax,2), %eax
	movzwl	%r8w, %edx
	movzwl	%ax, %eax
	imulq	%rbx, %rdx
	addq	%rax, %rdx
	movw	%r9w, (%r14,%rdx,4)
	movw	$258, 2(%r14,%rdx,4)
	movq	96(%rsp), %r8
	movl	%r8d, %eax
	xorl	%edx, %edx
	divw	%si
	leal	(%r8,%rax,2), %r8d
	incl	%r8d
	movq	72(%rsp), %rbp
	movl	%ebp, %eax
	xorl	%edx, %edx
	divw	%r15w
	leal	1(%rbp,%rax,2), %eax
	movzwl	%r8w, %edx
	movzwl	%ax, %eax
	imulq	%rbx, %rdx
	addq	%rax, %rdx
	movw	%r9w, (%r14,%rdx,4)
	movw	$259, 2(%r14,%rdx,4)
	movq	112(%rsp), %r8
	movl	%r8d, %eax
	xorl	%edx, %edx
	divw	%si
	leal	(%r8,%rax,2), %r8d
	incl	%r8d
	movq	80(%rsp), %rbp
	movl	%ebp, %eax
	xorl	%edx, %edx
	divw	%r15w
	leal	1(%rbp,%rax,2), %eax
	movzwl	%r8w, %edx
	movzwl	%ax, %eax
	imulq	%rbx, %rdx
	addq	%rax, %rdx
	movw	%r9w, (%r14,%rdx,4)
	movw	$260, 2(%r14,%rdx,4)
	movq	64(%rsp), %r8
	movl	%r8d, %eax
	xorl	%edx, %edx
	divw	%si
	leal	(%r8,%rax,2), %r8d
	incl	%r8d
	movq	48(%rsp), %rbp
	movl	%ebp, %eax
	xorl	%edx, %edx
	divw	%r15w
	leal	1(%rbp,%rax,2), %eax
	movzwl	%r8w, %edx
	movzwl	%ax, %eax
	imulq	%rbx, %rdx
	addq	%rax, %rdx
	movw	%r9w, (%r14,%rdx,4)
	movw	$261, 2(%r14,%rdx,4)
	movq	16(%rsp), %r8
	movl	%r8d, %eax
	xorl	%edx, %edx
	divw	%si
	leal	(%r8,%rax,2), %r8d
	incl	%r8d
	movq	104(%rsp), %rbp
	movl	%ebp, %eax
	xorl	%edx, %edx
	divw	%r15w
	leal	1(%rbp,%rax,2), %eax
	movzwl	%r8w, %edx
	movzwl	%ax, %eax
	imulq	%rbx, %rdx
	addq	%rax, %rdx
	movw	%r9w, (%r14,%rdx,4)
	movw	$262, 2(%r14,%rdx,4)
	movl	%r10d, %eax
	xorl	%edx, %edx
	divw	%si
	leal	(%r10,%rax,2), %r8d
	incl	%r8d
	movq	128(%rsp), %r10
	movl	%r10d, %eax
	xorl	%edx, %edx
	divw	%r15w
	leal	(%r10,%rax,2), %eax
	incl	%eax
	movzwl	%r8w, %edx
	movzwl	%ax, %eax
	imulq	%rbx, %rdx
	addq	%rax, %rdx
	movw	%r9w, (%r14,%rdx,4)
	movw	$263, 2(%r14,%rdx,4)
	movq	136(%rsp), %r8
	movl	%r8d, %eax
	xorl	%edx, %edx
	divw	%si
	leal	(%r8,%rax,2), %r8d
	incl	%r8d
	movl	%ecx, %eax
	xorl	%edx, %edx
	divw	%r15w
	leal	(%rcx,%rax,2), %eax
	incl	%eax
	movzwl	%r8w, %ecx
	movzwl	%ax, %eax
	imulq	%rbx, %rcx
	addq	%rax, %rcx
	movw	%r9w, (%r14,%rcx,4)
	movw	$264, 2(%r14,%rcx,4)
	incl	%r9d
	movq	224(%rsp), %r15
	movq	192(%rsp), %r10
	movl	248(%rsp), %ebp
	movq	%r9, %rsi
	jmp	.LBB107_30
.LBB107_106:
	movq	%rsi, 80(%rsp)
	movq	48(%rsp), %rsi
	cmpw	176(%rsp), %si
	movl	24(%rsp), %r8d
	movl	%r8d, %eax
	movl	168(%rsp), %r14d
	cmovbl	%r14d, %eax
	cmpw	%ax, %r15w
	movl	%r15d, %edx
	cmoval	%r10d, %edx
	subl	%edx, %eax
	movq	%rax, 96(%rsp)
	movzwl	30(%rsp), %edx
	cmpw	%dx, %si
	movl	%r14d, %eax
	cmoval	%r8d, %eax
	cmpw	%ax, %r15w
	cmovbel	%r15d, %r10d
	subl	%r10d, %eax
	movq	%rax, 112(%rsp)
	cmpw	%dx, %si
	movl	%edx, %eax
	movq	%rsi, %rdx
	jae	.LBB107_109
	addl	172(%rsp), %edx
	movq	%rdx, 48(%rsp)
	movq	80(%rsp), %rax
	movq	%rax, 32(%rsp)
	movq	40(%rsp), %r14
	movq	%r14, 72(%rsp)
	movl	168(%rsp), %eax
	jmp	.LBB107_110
.LBB107_108:
	movl	4(%rsp), %eax
	jmp	.LBB107_92
.LBB107_109:
	movzwl	%ax, %eax
	subl	%eax, %edx
	movq	%rdx, 48(%rsp)
	movq	80(%rsp), %rax
	movq	%rax, 32(%rsp)
	movq	40(%rsp), %r14
	movq	%r14, 72(%rsp)
	movl	24(%rsp), %eax
.LBB107_110:
	movl	%eax, %edx
	movq	%r9, %rsi
	movq	16(%rsp), %r10
	movq	56(%rsp), %r9
	movq	144(%rsp), %r14
	jmp	.LBB107_98
.LBB107_111:
	xorl	%eax, %eax
	jmp	.LBB107_113
.LBB107_112:
	movw	$4, (%r8)
	movw	%cx, 2(%r8)
	movw	%r9w, 4(%r8)
	movl	$0, 6(%r8)
	movw	$4, %ax
.LBB107_113:
	addq	$272, %rsp
	popq	%rbx
	popq	%rbp
	popq	%rdi
	popq	%rsi
	popq	%r12
	popq	%r13
	popq	%r14
	popq	%r15
	retq
.LBB107_114:
	ud2
	.section	.rdata,"dr"
	.p2align	2, 0x0
.LJTI107_0:
	.long	.LBB107_70-.LJTI107_0
	.long	.LBB107_74-.LJTI107_0
	.long	.LBB107_72-.LJTI107_0
	.long	.LBB107_73-.LJTI107_0
	.long	.LBB107_71-.LJTI107_0
	.text
	.seh_endproc

	.def	ecc200_read;
	.scl	2;
	.type	32;
	.endef
	.section	.rdata,"dr"
	.p2align	4, 0x0
.LCPI108_0:
	.zero	16,1
.LCPI108_1:
	.quad	4294967297
	.quad	4294967297
	.text
	.globl	ecc200_read
	.p2align	4
ecc200_read:
.seh_proc ecc200_read
	pushq	%r15
	.seh_pushreg %r15
	pushq	%r14
	.seh_pushreg %r14
	pushq	%r13
	.seh_pushreg %r13
	pushq	%r12
	.seh_pushreg %r12
	pushq	%rsi
	.seh_pushreg %rsi
	pushq	%rdi
	.seh_pushreg %rdi
	pushq	%rbp
	.seh_pushreg %rbp
	pushq	%rbx
	.seh_pushreg %rbx
	subq	$104, %rsp
	.seh_stackalloc 104
	.seh_endprologue
	movq	%r8, %rax
	movq	216(%rsp), %rsi
	movq	208(%rsp), %r8
	xorl	%r14d, %r14d
	testq	%rcx, %rcx
	sete	%bpl
	xorl	%r15d, %r15d
	testq	%rax, %rax
	sete	%r12b
	movzwl	(%r8), %edi
	movzwl	2(%r8), %r10d
	movzwl	4(%r8), %r11d
	movzwl	6(%r8), %r13d
	movzwl	8(%r8), %ebx
	testl	%ebx, %ebx
	je	.LBB108_1
	cmpl	$1, %ebx
	jne	.LBB108_3
	xorl	%ebx, %ebx
	jmp	.LBB108_6
.LBB108_1:
	movb	$1, %bl
.LBB108_6:
	movzwl	%r11w, %r8d
	cmpl	$3, %r8d
	ja	.LBB108_7
	movl	%ebx, 60(%rsp)
	movl	%r13d, 56(%rsp)
	movq	%rdx, 96(%rsp)
	movq	%rsi, %rdx
	movzwl	%di, %r13d
	movzwl	%r10w, %ebx
	movl	%r8d, %r8d
	leaq	.LJTI108_0(%rip), %rsi
	movslq	(%rsi,%r8,4), %r8
	addq	%rsi, %r8
	jmpq	*%r8
.LBB108_10:
	movl	%ebx, %r8d
	addl	%r13d, %r8d
	shrl	$3, %r8d
	jmp	.LBB108_12
.LBB108_3:
	movw	$17, %ax
	movl	%ebx, %r11d
	jmp	.LBB108_4
.LBB108_9:
	movl	$0, 56(%rsp)
	jmp	.LBB108_14
.LBB108_11:
	movw	$-1, %r8w
.LBB108_12:
	movl	%r8d, 56(%rsp)
.LBB108_13:
	xorl	%r11d, %r11d
.LBB108_14:
	imulq	%r13, %rbx
	movq	96(%rsp), %r8
	cmpq	%rbx, %r8
	movq	%rdx, %rsi
	jne	.LBB108_15
	movb	%bpl, %r14b
	movb	%r12b, %r15b
	shll	$12, %r14d
	shll	$12, %r15d
	movq	%rcx, %r12
	addq	%r14, %r12
	addq	%r15, %rax
	leaq	.Lstatic.0(%rip), %r15
	movq	$-50, %r14
	movl	56(%rsp), %edx
	.p2align	4
.LBB108_19:
	addq	$2, %r14
	je	.LBB108_20
	movq	%r15, %rbx
	cmpw	%di, (%r15)
	jne	.LBB108_23
	cmpw	%r10w, 2(%rbx)
	je	.LBB108_26
.LBB108_23:
	leaq	40(%rbx), %r15
	cmpw	%di, 20(%rbx)
	jne	.LBB108_19
	cmpw	%r10w, 22(%rbx)
	jne	.LBB108_19
	addq	$-20, %r15
	movq	%r15, %rbx
.LBB108_26:
	movsd	4(%rbx), %xmm0
	movss	12(%rbx), %xmm1
	movzwl	12(%rbx), %r14d
	movzwl	16(%rbx), %r15d
	cmpw	$1, 18(%rbx)
	sete	%cl
	testq	%r9, %r9
	je	.LBB108_29
	cmpq	%r8, %r9
	je	.LBB108_29
	xorl	%edi, %edi
	movw	$19, %ax
	jmp	.LBB108_16
.LBB108_15:
	movw	$3, %ax
	xorl	%edi, %edi
.LBB108_16:
	xorl	%r10d, %r10d
	jmp	.LBB108_17
.LBB108_7:
	movw	$24, %ax
.LBB108_4:
	movw	%ax, (%rsi)
	movw	%r11w, 2(%rsi)
	xorps	%xmm0, %xmm0
	movups	%xmm0, 4(%rsi)
	movups	%xmm0, 14(%rsi)
	jmp	.LBB108_50
.LBB108_20:
	movw	$4, %ax
.LBB108_17:
	movw	%ax, (%rsi)
	movw	%di, 2(%rsi)
	movw	%r10w, 4(%rsi)
	xorps	%xmm0, %xmm0
	movups	%xmm0, 6(%rsi)
	movq	$0, 22(%rsi)
.LBB108_50:
	addq	$104, %rsp
	popq	%rbx
	popq	%rbp
	popq	%rdi
	popq	%rsi
	popq	%r12
	popq	%r13
	popq	%r14
	popq	%r15
	retq
.LBB108_29:
	xorl	%r13d, %r13d
	testq	%r9, %r9
	je	.LBB108_30
	cmpq	$4, %r9
	movl	60(%rsp), %ebx
	jae	.LBB108_33
	xorl	%ebp, %ebp
	xorl	%r13d, %r13d
	jmp	.LBB108_42
.LBB108_30:
	xorl	%ebp, %ebp
	movl	60(%rsp), %ebx
	jmp	.LBB108_44
.LBB108_33:
	cmpq	$16, %r9
	jae	.LBB108_35
	xorl	%r13d, %r13d
	xorl	%ebp, %ebp
	jmp	.LBB108_39
.LBB108_35:
	movq	%r9, %r13
	andq	$-16, %r13
	pxor	%xmm2, %xmm2
	xorl	%ebx, %ebx
	pxor	%xmm3, %xmm3
	.p2align	4
.LBB108_36:
	movdqu	(%rax,%rbx), %xmm4
	pcmpeqb	%xmm2, %xmm4
	pcmpeqd	%xmm5, %xmm5
	pxor	%xmm4, %xmm5
	por	%xmm5, %xmm3
	addq	$16, %rbx
	cmpq	%rbx, %r13
	jne	.LBB108_36
	ptest	.LCPI108_0(%rip), %xmm3
	setne	%bpl
	cmpq	%r13, %r9
	movl	60(%rsp), %ebx
	je	.LBB108_43
	testb	$12, %r9b
	je	.LBB108_42
.LBB108_39:
	movq	%r13, %rbx
	movq	%r9, %r13
	andq	$-4, %r13
	movzbl	%bpl, %r8d
	movd	%r8d, %xmm2
	.p2align	4
.LBB108_40:
	movd	(%rax,%rbx), %xmm3
	pxor	%xmm4, %xmm4
	pcmpeqb	%xmm3, %xmm4
	pcmpeqd	%xmm3, %xmm3
	pxor	%xmm4, %xmm3
	pmovsxbd	%xmm3, %xmm3
	por	%xmm3, %xmm2
	addq	$4, %rbx
	cmpq	%rbx, %r13
	jne	.LBB108_40
	ptest	.LCPI108_1(%rip), %xmm2
	setne	%bpl
	cmpq	%r13, %r9
	movl	60(%rsp), %ebx
	je	.LBB108_43
	.p2align	4
.LBB108_42:
	cmpb	$0, (%rax,%r13)
	setne	%r8b
	orb	%r8b, %bpl
	incq	%r13
	cmpq	%r13, %r9
	jne	.LBB108_42
.LBB108_43:
	andb	$1, %bpl
	movq	96(%rsp), %r8
	movl	56(%rsp), %edx
	xorl	%r13d, %r13d
.LBB108_44:
	movw	%di, 64(%rsp)
	movw	%r10w, 66(%rsp)
	movb	%bl, 68(%rsp)
	movb	$0, 69(%rsp)
	movw	%r11w, 70(%rsp)
	movw	%dx, 72(%rsp)
	movw	%di, 74(%rsp)
	movw	%r10w, 76(%rsp)
	movlps	%xmm0, 78(%rsp)
	movss	%xmm1, 86(%rsp)
	movw	%r15w, 90(%rsp)
	movb	%cl, 92(%rsp)
	movb	$0, 93(%rsp)
	movb	%bpl, 94(%rsp)
	movzwl	%r14w, %ecx
	cmpl	$817, %ecx
	setb	%dl
	xorb	$3, %dl
	cmpl	$205, %ecx
	movzbl	%dl, %edx
	movl	$1, %r10d
	cmovael	%edx, %r10d
	movb	$0, 95(%rsp)
	cmpw	$63, %cx
	cmovbl	%r13d, %r10d
	movzbl	%r10b, %ecx
	leaq	.LJTI108_1(%rip), %rdx
	movslq	(%rdx,%rcx,4), %rcx
	addq	%rdx, %rcx
	jmpq	*%rcx
.LBB108_45:
	movq	%rsi, 48(%rsp)
	leaq	74(%rsp), %rcx
	movq	%rcx, 40(%rsp)
	movq	%r9, 32(%rsp)
	leaq	64(%rsp), %rcx
	movq	%r12, %rdx
	movq	%rax, %r9
	callq	"ecc200_calls::answer::answer_given::<#7b928245427000c4>"
	jmp	.LBB108_49
.LBB108_47:
	movq	%rsi, 48(%rsp)
	leaq	74(%rsp), %rcx
	movq	%rcx, 40(%rsp)
	movq	%r9, 32(%rsp)
	leaq	64(%rsp), %rcx
	movq	%r12, %rdx
	movq	%rax, %r9
	callq	"ecc200_calls::answer::answer_given::<#a1ea276ad3ef9c9c>"
	jmp	.LBB108_49
.LBB108_48:
	movq	%rsi, 48(%rsp)
	leaq	74(%rsp), %rcx
	movq	%rcx, 40(%rsp)
	movq	%r9, 32(%rsp)
	leaq	64(%rsp), %rcx
	movq	%r12, %rdx
	movq	%rax, %r9
	callq	"ecc200_calls::answer::answer_given::<#bf8ac5d4f1318e40>"
	jmp	.LBB108_49
.LBB108_46:
	movq	%rsi, 48(%rsp)
	leaq	74(%rsp), %rcx
	movq	%rcx, 40(%rsp)
	movq	%r9, 32(%rsp)
	leaq	64(%rsp), %rcx
	movq	%r12, %rdx
	movq	%rax, %r9
	callq	"ecc200_calls::answer::answer_given::<#d2faac338cf57797>"
.LBB108_49:
	movzwl	(%rsi), %eax
	jmp	.LBB108_50
	.section	.rdata,"dr"
	.p2align	2, 0x0
.LJTI108_0:
	.long	.LBB108_10-.LJTI108_0
	.long	.LBB108_9-.LJTI108_0
	.long	.LBB108_11-.LJTI108_0
	.long	.LBB108_13-.LJTI108_0
.LJTI108_1:
	.long	.LBB108_45-.LJTI108_1
	.long	.LBB108_46-.LJTI108_1
	.long	.LBB108_47-.LJTI108_1
	.long	.LBB108_48-.LJTI108_1
	.text
	.seh_endproc

	.def	ecc200_sizes;
	.scl	2;
	.type	32;
	.endef
	.section	.rdata,"dr"
	.p2align	4, 0x0
.LCPI109_0:
	.short	10
	.short	10
	.short	8
	.short	8
	.short	1
	.short	1
	.short	3
	.short	5
	.text
	.globl	ecc200_sizes
	.p2align	4
ecc200_sizes:
.seh_proc ecc200_sizes
	pushq	%rsi
	.seh_pushreg %rsi
	pushq	%rdi
	.seh_pushreg %rdi
	subq	$2920, %rsp
	.seh_stackalloc 2920
	.seh_endprologue
	movq	%rcx, %rsi
	leaq	1960(%rsp), %rcx
	movl	$960, %r8d
	xorl	%edx, %edx
	callq	memset
	leaq	1000(%rsp), %rcx
	movl	$960, %r8d
	xorl	%edx, %edx
	callq	memset
	leaq	32(%rsp), %rcx
	movl	$960, %r8d
	xorl	%edx, %edx
	callq	memset
	movaps	.LCPI109_0(%rip), %xmm0
	movaps	%xmm0, 32(%rsp)
	movl	$1, 48(%rsp)
	movups	%xmm0, 52(%rsp)
	movl	$1, 68(%rsp)
	movups	%xmm0, 72(%rsp)
	movl	$1, 88(%rsp)
	movups	%xmm0, 92(%rsp)
	movl	$1, 108(%rsp)
	movaps	%xmm0, 112(%rsp)
	movl	$1, 128(%rsp)
	movups	%xmm0, 132(%rsp)
	movl	$1, 148(%rsp)
	movups	%xmm0, 152(%rsp)
	movl	$1, 168(%rsp)
	movups	%xmm0, 172(%rsp)
	movl	$1, 188(%rsp)
	movaps	%xmm0, 192(%rsp)
	movl	$1, 208(%rsp)
	movups	%xmm0, 212(%rsp)
	movl	$1, 228(%rsp)
	movups	%xmm0, 232(%rsp)
	movl	$1, 248(%rsp)
	movups	%xmm0, 252(%rsp)
	movl	$1, 268(%rsp)
	movaps	%xmm0, 272(%rsp)
	movl	$1, 288(%rsp)
	movups	%xmm0, 292(%rsp)
	movl	$1, 308(%rsp)
	movups	%xmm0, 312(%rsp)
	movl	$1, 328(%rsp)
	movups	%xmm0, 332(%rsp)
	movl	$1, 348(%rsp)
	movaps	%xmm0, 352(%rsp)
	movl	$1, 368(%rsp)
	movups	%xmm0, 372(%rsp)
	movl	$1, 388(%rsp)
	movups	%xmm0, 392(%rsp)
	movl	$1, 408(%rsp)
	movups	%xmm0, 412(%rsp)
	movl	$1, 428(%rsp)
	movaps	%xmm0, 432(%rsp)
	movl	$1, 448(%rsp)
	movups	%xmm0, 452(%rsp)
	movl	$1, 468(%rsp)
	movups	%xmm0, 472(%rsp)
	movl	$1, 488(%rsp)
	movups	%xmm0, 492(%rsp)
	movl	$1, 508(%rsp)
	movaps	%xmm0, 512(%rsp)
	movl	$1, 528(%rsp)
	movups	%xmm0, 532(%rsp)
	movl	$1, 548(%rsp)
	movups	%xmm0, 552(%rsp)
	movl	$1, 568(%rsp)
	movups	%xmm0, 572(%rsp)
	movl	$1, 588(%rsp)
	movaps	%xmm0, 592(%rsp)
	movl	$1, 608(%rsp)
	movups	%xmm0, 612(%rsp)
	movl	$1, 628(%rsp)
	movups	%xmm0, 632(%rsp)
	movl	$1, 648(%rsp)
	movups	%xmm0, 652(%rsp)
	movl	$1, 668(%rsp)
	movaps	%xmm0, 672(%rsp)
	movl	$1, 688(%rsp)
	movups	%xmm0, 692(%rsp)
	movl	$1, 708(%rsp)
	movups	%xmm0, 712(%rsp)
	movl	$1, 728(%rsp)
	movups	%xmm0, 732(%rsp)
	movl	$1, 748(%rsp)
	movaps	%xmm0, 752(%rsp)
	movl	$1, 768(%rsp)
	movups	%xmm0, 772(%rsp)
	movl	$1, 788(%rsp)
	movups	%xmm0, 792(%rsp)
	movl	$1, 808(%rsp)
	movups	%xmm0, 812(%rsp)
	movl	$1, 828(%rsp)
	movaps	%xmm0, 832(%rsp)
	movl	$1, 848(%rsp)
	movups	%xmm0, 852(%rsp)
	movl	$1, 868(%rsp)
	movups	%xmm0, 872(%rsp)
	movl	$1, 888(%rsp)
	movups	%xmm0, 892(%rsp)
	movl	$1, 908(%rsp)
	movaps	%xmm0, 912(%rsp)
	movl	$1, 928(%rsp)
	movups	%xmm0, 932(%rsp)
	movl	$1, 948(%rsp)
	movups	%xmm0, 952(%rsp)
	movl	$1, 968(%rsp)
	movups	%xmm0, 972(%rsp)
	movl	$1, 988(%rsp)
	movl	$39, %eax
	.p2align	4
.LBB109_1:
	leaq	.Lstatic.0(%rip), %rcx
	movzwl	-23(%rax,%rcx), %edx
	cmpw	$1, -21(%rax,%rcx)
	movups	-39(%rax,%rcx), %xmm0
	movups	%xmm0, -7(%rsp,%rax)
	movw	%dx, 9(%rsp,%rax)
	sete	11(%rsp,%rax)
	movb	$0, 12(%rsp,%rax)
	movzwl	-3(%rax,%rcx), %edx
	cmpw	$1, -1(%rax,%rcx)
	movups	-19(%rax,%rcx), %xmm0
	movups	%xmm0, 13(%rsp,%rax)
	movw	%dx, 29(%rsp,%rax)
	sete	31(%rsp,%rax)
	movb	$0, 32(%rsp,%rax)
	addq	$40, %rax
	cmpq	$999, %rax
	jne	.LBB109_1
	leaq	1960(%rsp), %rdi
	leaq	32(%rsp), %rdx
	movl	$960, %r8d
	movq	%rdi, %rcx
	callq	memcpy
	leaq	1000(%rsp), %rcx
	movl	$960, %r8d
	movq	%rdi, %rdx
	callq	memcpy
	addq	$24, %rsi
	movl	$18, %ecx
	.p2align	4
.LBB109_3:
	movzwl	998(%rsp,%rcx), %r8d
	testw	%r8w, %r8w
	je	.LBB109_6
	movzbl	1000(%rsp,%rcx), %r9d
	andl	$1, %r9d
	movl	982(%rsp,%rcx), %eax
	movl	%eax, -24(%rsi)
	movd	990(%rsp,%rcx), %xmm0
	movd	986(%rsp,%rcx), %xmm1
	pmullw	%xmm0, %xmm1
	movsd	986(%rsp,%rcx), %xmm0
	movlps	%xmm0, -20(%rsi)
	movd	%xmm1, -12(%rsi)
	movzwl	996(%rsp,%rcx), %eax
	movl	994(%rsp,%rcx), %r10d
	xorl	%edx, %edx
	divw	%r8w
	movzwl	%ax, %eax
	shrl	%eax
	movl	%r10d, -8(%rsi)
	movw	%r8w, -4(%rsi)
	movw	%ax, -2(%rsi)
	movw	%r9w, (%rsi)
	addq	$20, %rcx
	addq	$26, %rsi
	cmpq	$978, %rcx
	jne	.LBB109_3
	addq	$2920, %rsp
	popq	%rdi
	popq	%rsi
	retq
.LBB109_6:
	ud2
	.seh_endproc

	.def	ecc200_usual_limit;
	.scl	2;
	.type	32;
	.endef
	.globl	ecc200_usual_limit
	.p2align	4
ecc200_usual_limit:
	movzwl	%cx, %ecx
	movzwl	%dx, %eax
	addl	%ecx, %eax
	shrl	$3, %eax
	retq

	.def	ecc200_write;
	.scl	2;
	.type	32;
	.endef
	.section	.rdata,"dr"
	.p2align	4, 0x0
.LCPI111_0:
	.long	15
	.long	0
	.long	0
	.long	0
.LCPI111_1:
	.long	15
	.text
	.globl	ecc200_write
	.p2align	4
ecc200_write:
.seh_proc ecc200_write
	pushq	%r15
	.seh_pushreg %r15
	pushq	%r14
	.seh_pushreg %r14
	pushq	%r13
	.seh_pushreg %r13
	pushq	%r12
	.seh_pushreg %r12
	pushq	%rsi
	.seh_pushreg %rsi
	pushq	%rdi
	.seh_pushreg %rdi
	pushq	%rbp
	.seh_pushreg %rbp
	pushq	%rbx
	.seh_pushreg %rbx
	subq	$104, %rsp
	.seh_stackalloc 104
	.seh_endprologue
	movq	%r9, %rbp
	movq	%r8, %r14
	movq	%rdx, %rdi
	movq	%rcx, %rbx
	movq	216(%rsp), %r15
	movq	208(%rsp), %rax
	xorl	%r13d, %r13d
	testq	%rcx, %rcx
	sete	%sil
	testq	%r8, %r8
	sete	%r12b
	movzwl	16(%rax), %ecx
	movw	%cx, 96(%rsp)
	movdqu	(%rax), %xmm0
	movdqa	%xmm0, 80(%rsp)
	leaq	64(%rsp), %rcx
	leaq	80(%rsp), %rdx
	callq	"ecc200_calls::how::check_how"
	cmpb	$0, 64(%rsp)
	je	.LBB111_1
	leaq	66(%rsp), %rax
	movzwl	4(%rax), %ecx
	movw	%cx, 4(%r15)
	movl	(%rax), %eax
	movl	%eax, (%r15)
.LBB111_27:
	movl	$0, 6(%r15)
.LBB111_28:
	movzwl	(%r15), %eax
	addq	$104, %rsp
	popq	%rbx
	popq	%rbp
	popq	%rdi
	popq	%rsi
	popq	%r12
	popq	%r13
	popq	%r14
	popq	%r15
	retq
.LBB111_1:
	movb	%sil, %r13b
	shll	$12, %r13d
	addq	%r13, %rbx
	movzwl	66(%rsp), %r15d
	movzbl	68(%rsp), %eax
	movl	70(%rsp), %ecx
	movzbl	74(%rsp), %esi
	movzbl	75(%rsp), %edx
	movl	76(%rsp), %r10d
	testq	%rdi, %rdi
	movq	%r14, %r8
	movq	%rbp, %r9
	je	.LBB111_5
	xorl	%r11d, %r11d
	.p2align	4
.LBB111_3:
	cmpw	$256, (%rbx,%r11,2)
	ja	.LBB111_29
	incq	%r11
	cmpq	%r11, %rdi
	jne	.LBB111_3
.LBB111_5:
	movq	%r15, %r14
	xorl	%r11d, %r11d
	movb	%r12b, %r11b
	movq	%r11, %r12
	shll	$12, %r12d
	testq	%r9, %r9
	je	.LBB111_11
	leaq	(%r12,%r8), %r13
	addq	$4, %r13
	xorl	%ebp, %ebp
	xorl	%r11d, %r11d
	.p2align	4
.LBB111_7:
	movq	%rbp, %r15
	movl	(%r13,%r11,8), %ebp
	cmpq	%rbp, %r15
	ja	.LBB111_30
	cmpq	%rbp, %rdi
	jb	.LBB111_30
	cmpl	$999999, -4(%r13,%r11,8)
	ja	.LBB111_30
	incq	%r11
	cmpq	%r11, %r9
	jne	.LBB111_7
.LBB111_11:
	movb	%sil, 58(%rsp)
	movb	%dl, 59(%rsp)
	movl	%r10d, 60(%rsp)
	cmpq	$3124, %rdi
	setb	%r10b
	cmpq	$780, %r9
	setb	%dl
	testb	%dl, %r10b
	je	.LBB111_12
	addq	%r12, %r8
	shlq	$32, %rcx
	testq	%r9, %r9
	je	.LBB111_14
	cmpq	$132, %rdi
	setb	%r10b
	cmpq	$32, %r9
	setb	%dl
	testb	%dl, %r10b
	movq	216(%rsp), %r15
	je	.LBB111_20
	shll	$16, %eax
	orq	%r14, %rax
	orq	%rcx, %rax
	movq	%r15, 48(%rsp)
	leaq	58(%rsp), %rcx
	movq	%rcx, 40(%rsp)
	movq	%rax, 32(%rsp)
	movq	%rbx, %rcx
	movq	%rdi, %rdx
	callq	"ecc200_calls::writing::write_content_of::<#653d8e9eeee73d5b>"
	jmp	.LBB111_28
.LBB111_29:
	cmpq	$65535, %r11
	movl	$65535, %eax
	cmovbq	%r11, %rax
	movd	.LCPI111_1(%rip), %xmm0
	pinsrw	$1, (%rbx,%r11,2), %xmm0
	pinsrw	$2, %eax, %xmm0
	movq	216(%rsp), %r15
	movq	%xmm0, (%r15)
	movw	$0, 8(%r15)
	jmp	.LBB111_28
.LBB111_30:
	cmpq	$65535, %r11
	movl	$65535, %eax
	cmovbq	%r11, %rax
	movq	216(%rsp), %r15
	movl	$22, (%r15)
	movw	%ax, 4(%r15)
	jmp	.LBB111_27
.LBB111_12:
	movq	216(%rsp), %r15
	movw	$14, (%r15)
	movq	$0, 2(%r15)
	jmp	.LBB111_28
.LBB111_14:
	cmpq	$1640, %rdi
	setb	%r9b
	xorb	$3, %r9b
	cmpq	$416, %rdi
	movzbl	%r9b, %r10d
	movl	$1, %r9d
	cmovael	%r10d, %r9d
	xorl	%r10d, %r10d
	cmpq	$132, %rdi
	cmovael	%r9d, %r10d
	shll	$16, %eax
	orq	%r14, %rax
	orq	%rcx, %rax
	movzbl	%r10b, %ecx
	leaq	.LJTI111_0(%rip), %rdx
	movslq	(%rdx,%rcx,4), %rcx
	addq	%rdx, %rcx
	movq	216(%rsp), %r15
	jmpq	*%rcx
.LBB111_15:
	movq	%r15, 48(%rsp)
	leaq	58(%rsp), %rcx
	movq	%rcx, 40(%rsp)
	movq	%rax, 32(%rsp)
	movq	%rbx, %rcx
	movq	%rdi, %rdx
	xorl	%r9d, %r9d
	callq	"ecc200_calls::writing::write_content_of::<#d4a6cd8012f658d3>"
	jmp	.LBB111_28
.LBB111_20:
	cmpq	$416, %rdi
	setb	%r10b
	cmpq	$103, %r9
	setb	%dl
	testb	%dl, %r10b
	je	.LBB111_21
	shll	$16, %eax
	orq	%r14, %rax
	orq	%rcx, %rax
	movq	%r15, 48(%rsp)
	leaq	58(%rsp), %rcx
	movq	%rcx, 40(%rsp)
	movq	%rax, 32(%rsp)
	movq	%rbx, %rcx
	movq	%rdi, %rdx
	callq	"ecc200_calls::writing::write_content_of::<#063e8a381f980aa9>"
	jmp	.LBB111_28
.LBB111_21:
	cmpq	$1640, %rdi
	setb	%r10b
	cmpq	$409, %r9
	setb	%dl
	shll	$16, %eax
	orq	%r14, %rax
	orq	%rcx, %rax
	testb	%dl, %r10b
	je	.LBB111_25
	movq	%r15, 48(%rsp)
	leaq	58(%rsp), %rcx
	movq	%rcx, 40(%rsp)
	movq	%rax, 32(%rsp)
	movq	%rbx, %rcx
	movq	%rdi, %rdx
	callq	"ecc200_calls::writing::write_content_of::<#74b909a45ce937fb>"
	jmp	.LBB111_28
.LBB111_17:
	movq	%r15, 48(%rsp)
	leaq	58(%rsp), %rcx
	movq	%rcx, 40(%rsp)
	movq	%rax, 32(%rsp)
	movq	%rbx, %rcx
	movq	%rdi, %rdx
	xorl	%r9d, %r9d
	callq	"ecc200_calls::writing::write_content_of::<#568124f4bcd00b97>"
	jmp	.LBB111_28
.LBB111_18:
	movq	%r15, 48(%rsp)
	leaq	58(%rsp), %rcx
	movq	%rcx, 40(%rsp)
	movq	%rax, 32(%rsp)
	movq	%rbx, %rcx
	movq	%rdi, %rdx
	xorl	%r9d, %r9d
	callq	"ecc200_calls::writing::write_content_of::<#5bc803b6b7c4bd57>"
	jmp	.LBB111_28
.LBB111_16:
	movq	%r15, 48(%rsp)
	leaq	58(%rsp), %rcx
	movq	%rcx, 40(%rsp)
	movq	%rax, 32(%rsp)
	movq	%rbx, %rcx
	movq	%rdi, %rdx
	xorl	%r9d, %r9d
	callq	"ecc200_calls::writing::write_content_of::<#b76b4ae358bda620>"
	jmp	.LBB111_28
.LBB111_25:
	movq	%r15, 48(%rsp)
	leaq	58(%rsp), %rcx
	movq	%rcx, 40(%rsp)
	movq	%rax, 32(%rsp)
	movq	%rbx, %rcx
	movq	%rdi, %rdx
	callq	"ecc200_calls::writing::write_content_of::<#8e2329e1c5119cbe>"
	jmp	.LBB111_28
	.section	.rdata,"dr"
	.p2align	2, 0x0
.LJTI111_0:
	.long	.LBB111_15-.LJTI111_0
	.long	.LBB111_16-.LJTI111_0
	.long	.LBB111_17-.LJTI111_0
	.long	.LBB111_18-.LJTI111_0
	.text
	.seh_endproc

	.def	ecc200_write_bytes;
	.scl	2;
	.type	32;
	.endef
	.globl	ecc200_write_bytes
	.p2align	4
ecc200_write_bytes:
.seh_proc ecc200_write_bytes
	pushq	%r14
	.seh_pushreg %r14
	pushq	%rsi
	.seh_pushreg %rsi
	pushq	%rdi
	.seh_pushreg %rdi
	pushq	%rbp
	.seh_pushreg %rbp
	pushq	%rbx
	.seh_pushreg %rbx
	subq	$96, %rsp
	.seh_stackalloc 96
	.seh_endprologue
	movq	%r9, %rsi
	movq	%rdx, %rdi
	movq	%rcx, %rbx
	xorl	%r14d, %r14d
	testq	%rcx, %rcx
	sete	%bpl
	movzwl	16(%r8), %eax
	movw	%ax, 80(%rsp)
	movups	(%r8), %xmm0
	movaps	%xmm0, 64(%rsp)
	leaq	48(%rsp), %rcx
	leaq	64(%rsp), %rdx
	callq	"ecc200_calls::how::check_how"
	cmpb	$0, 48(%rsp)
	je	.LBB112_1
	leaq	50(%rsp), %rax
	movzwl	4(%rax), %ecx
	movw	%cx, 4(%rsi)
	movl	(%rax), %eax
	movl	%eax, (%rsi)
	movl	$0, 6(%rsi)
	jmp	.LBB112_9
.LBB112_1:
	movzwl	50(%rsp), %eax
	movzbl	52(%rsp), %r8d
	movl	54(%rsp), %ecx
	movzwl	58(%rsp), %edx
	movl	60(%rsp), %r9d
	movw	%dx, 42(%rsp)
	movl	%r9d, 44(%rsp)
	cmpq	$3124, %rdi
	jae	.LBB112_2
	movb	%bpl, %r14b
	shll	$12, %r14d
	addq	%r14, %rbx
	shlq	$32, %rcx
	cmpq	$1640, %rdi
	setb	%dl
	xorb	$3, %dl
	cmpq	$416, %rdi
	movzbl	%dl, %edx
	movl	$1, %r9d
	cmovael	%edx, %r9d
	xorl	%edx, %edx
	cmpq	$132, %rdi
	cmovael	%r9d, %edx
	shll	$16, %r8d
	orq	%rax, %r8
	orq	%rcx, %r8
	movzbl	%dl, %eax
	leaq	.LJTI112_0(%rip), %rcx
	movslq	(%rcx,%rax,4), %rax
	addq	%rcx, %rax
	jmpq	*%rax
.LBB112_4:
	movq	%rsi, 32(%rsp)
	leaq	42(%rsp), %r9
	movq	%rbx, %rcx
	movq	%rdi, %rdx
	callq	"ecc200_calls::writing::write_content_of::<#f7f46bcb0d4b0fd2>"
	jmp	.LBB112_9
.LBB112_2:
	movw	$14, (%rsi)
	movq	$0, 2(%rsi)
.LBB112_9:
	movzwl	(%rsi), %eax
	addq	$96, %rsp
	popq	%rbx
	popq	%rbp
	popq	%rdi
	popq	%rsi
	popq	%r14
	retq
.LBB112_6:
	movq	%rsi, 32(%rsp)
	leaq	42(%rsp), %r9
	movq	%rbx, %rcx
	movq	%rdi, %rdx
	callq	"ecc200_calls::writing::write_content_of::<#b97095b23881e008>"
	jmp	.LBB112_9
.LBB112_7:
	movq	%rsi, 32(%rsp)
	leaq	42(%rsp), %r9
	movq	%rbx, %rcx
	movq	%rdi, %rdx
	callq	"ecc200_calls::writing::write_content_of::<#9f02d14f3d055ac0>"
	jmp	.LBB112_9
.LBB112_5:
	movq	%rsi, 32(%rsp)
	leaq	42(%rsp), %r9
	movq	%rbx, %rcx
	movq	%rdi, %rdx
	callq	"ecc200_calls::writing::write_content_of::<#dbd28265ffd20b3d>"
	jmp	.LBB112_9
	.section	.rdata,"dr"
	.p2align	2, 0x0
.LJTI112_0:
	.long	.LBB112_4-.LJTI112_0
	.long	.LBB112_5-.LJTI112_0
	.long	.LBB112_6-.LJTI112_0
	.long	.LBB112_7-.LJTI112_0
	.text
	.seh_endproc

	.section	.rdata,"dr"
	.p2align	1, 0x0
.Lstatic.0:
	.asciz	"\n\000\n\000\b\000\b\000\001\000\001\000\003\000\005\000\001\000\000\000\f\000\f\000\n\000\n\000\001\000\001\000\005\000\007\000\001\000\000\000\b\000\022\000\006\000\020\000\001\000\001\000\005\000\007\000\001\000\000\000\016\000\016\000\f\000\f\000\001\000\001\000\b\000\n\000\001\000\000\000\020\000\020\000\016\000\016\000\001\000\001\000\f\000\f\000\001\000\000\000\b\000 \000\006\000\016\000\001\000\002\000\n\000\013\000\001\000\000\000\f\000\032\000\n\000\030\000\001\000\001\000\020\000\016\000\001\000\000\000\022\000\022\000\020\000\020\000\001\000\001\000\022\000\016\000\001\000\000\000\b\0000\000\006\000\026\000\001\000\002\000\022\000\017\000\001\000\001\000\024\000\024\000\022\000\022\000\001\000\001\000\026\000\022\000\001\000\000\000\f\000$\000\n\000\020\000\001\000\002\000\026\000\022\000\001\000\000\000\026\000\026\000\024\000\024\000\001\000\001\000\036\000\024\000\001\000\000\000\b\000@\000\006\000\016\000\001\000\004\000\030\000\022\000\001\000\001\000\030\000\030\000\026\000\026\000\001\000\001\000$\000\030\000\001\000\000\000\020\000$\000\016\000\020\000\001\000\002\000 \000\030\000\001\000\000\000\b\000P\000\006\000\022\000\001\000\004\000 \000\026\000\001\000\001\000\032\000\032\000\030\000\030\000\001\000\001\000,\000\034\000\001\000\000\000\024\000$\000\022\000\020\000\001\000\002\000,\000\034\000\001\000\001\000\020\0000\000\016\000\026\000\001\000\002\0001\000\034\000\001\000\000\000\f\000@\000\n\000\016\000\001\000\004\000+\000\033\000\001\000\001\000\b\000`\000\006\000\026\000\001\000\004\000&\000\034\000\001\000\001\000\024\000,\000\022\000\024\000\001\000\002\0008\000\"\000\001\000\001\000\b\000x\000\006\000\022\000\001\000\006\0001\000 \000\001\000\001\000 \000 \000\016\000\016\000\002\000\002\000>\000$\000\001\000\000\000\020\000@\000\016\000\016\000\001\000\004\000>\000$\000\001\000\001\000\032\000(\000\030\000\022\000\001\000\002\000F\000&\000\001\000\001\000\026\0000\000\024\000\026\000\001\000\002\000H\000&\000\001\000\001\000\f\000X\000\n\000\024\000\001\000\004\000@\000$\000\001\000\001\000\030\0000\000\026\000\026\000\001\000\002\000P\000)\000\001\000\001\000\b\000\220\000\006\000\026\000\001\000\006\000?\000$\000\001\000\001\000\032\0000\000\030\000\026\000\001\000\002\000Z\000*\000\001\000\001\000\024\000@\000\022\000\016\000\001\000\004\000T\000*\000\001\000\001\000$\000$\000\020\000\020\000\002\000\002\000V\000*\000\001\000\000\000\030\000@\000\026\000\016\000\001\000\004\000l\000.\000\001\000\001\000(\000(\000\022\000\022\000\002\000\002\000r\0000\000\001\000\000\000\032\000@\000\030\000\016\000\001\000\004\000v\0002\000\001\000\001\000,\000,\000\024\000\024\000\002\000\002\000\220\0008\000\001\000\000\0000\0000\000\026\000\026\000\002\000\002\000\256\000D\000\001\000\000\0004\0004\000\030\000\030\000\002\000\002\000\314\000T\000\002\000\000\000@\000@\000\016\000\016\000\004\000\004\000\030\001p\000\002\000\000\000H\000H\000\020\000\020\000\004\000\004\000p\001\220\000\004\000\000\000P\000P\000\022\000\022\000\004\000\004\000\310\001\300\000\004\000\000\000X\000X\000\024\000\024\000\004\000\004\000@\002\340\000\004\000\000\000`\000`\000\026\000\026\000\004\000\004\000\270\002\020\001\004\000\000\000h\000h\000\030\000\030\000\004\000\004\0000\003P\001\006\000\000\000x\000x\000\022\000\022\000\006\000\006\000\032\004\230\001\006\000\000\000\204\000\204\000\024\000\024\000\006\000\006\000\030\005\360\001\b\000\000\000\220\000\220\000\026\000\026\000\006\000\006\000\026\006l\002\n\000\000"

.Lstatic.2:
	.ascii	"\000\200@\300 \240`\340\020\220P\3200\260p\360\b\210H\310(\250h\350\030\230X\3308\270x\370\004\204D\304$\244d\344\024\224T\3244\264t\364\f\214L\314,\254l\354\034\234\\\334<\274|\374\002\202B\302\"\242b\342\022\222R\3222\262r\362\n\212J\312*\252j\352\032\232Z\332:\272z\372\006\206F\306&\246f\346\026\226V\3266\266v\366\016\216N\316.\256n\356\036\236^\336>\276~\376\001\201A\301!\241a\341\021\221Q\3211\261q\361\t\211I\311)\251i\351\031\231Y\3319\271y\371\005\205E\305%\245e\345\025\225U\3255\265u\365\r\215M\315-\255m\355\035\235]\335=\275}\375\003\203C\303#\243c\343\023\223S\3233\263s\363\013\213K\313+\253k\353\033\233[\333;\273{\373\007\207G\307'\247g\347\027\227W\3277\267w\367\017\217O\317/\257o\357\037\237_\337?\277\177\377"

	.p2align	1, 0x0
.Lstatic.3:
	.ascii	" \000\020\000\000\000\b\000\030\000(\0008\000`\000P\000@\0000\000!\000\021\000\001\000\t\000\031\000)\0009\000H\000X\000h\000x\000\240\000\220\000\200\000p\000a\000Q\000A\0001\000\"\000\022\000\002\000\n\000\032\000*\000:\000I\000Y\000i\000y\000\210\000\230\000\250\000\270\000\340\000\320\000\300\000\260\000\241\000\221\000\201\000q\000b\000R\000B\0002\000#\000\023\000\003\000\013\000\033\000+\000;\000J\000Z\000j\000z\000\211\000\231\000\251\000\271\000\310\000\330\000\350\000\370\000 \001\020\001\000\001\360\000\341\000\321\000\301\000\261\000\242\000\222\000\202\000r\000c\000S\000C\0003\000$\000\024\000\004\000\f\000\034\000,\000<\000K\000[\000k\000{\000\212\000\232\000\252\000\272\000\311\000\331\000\351\000\371\000\b\001\030\001(\0018\001`\001P\001@\0010\001!\001\021\001\001\001\361\000\342\000\322\000\302\000\262\000\243\000\223\000\203\000s\000d\000T\000D\0004\000%\000\025\000\005\000\r\000\035\000-\000=\000L\000\\\000l\000|\000\213\000\233\000\253\000\273\000\312\000\332\000\352\000\372\000\t\001\031\001)\0019\001H\001X\001h\001x\001\240\001\220\001\200\001p\001a\001Q\001A\0011\001\"\001\022\001\002\001\362\000\343\000\323\000\303\000\263\000\244\000\224\000\204\000t\000e\000U\000E\0005\000&\000\026\000\006\000\016\000\036\000.\000>\000M\000]\000m\000}\000\214\000\234\000\254\000\274\000\313\000\333\000\353\000\373\000\n\001\032\001*\001:\001I\001Y\001i\001y\001\210\001\230\001\250\001\270\001\260\001\241\001\221\001\201\001q\001b\001R\001B\0012\001#\001\023\001\003\001\363\000\344\000\324\000\304\000\264\000\245\000\225\000\205\000u\000f\000V\000F\0006\000N\000^\000n\000~\000\215\000\235\000\255\000\275\000\314\000\334\000\354\000\374\000\013\001\033\001+\001;\001J\001Z\001j\001z\001\211\001\231\001\251\001\271\001\261\001\242\001\222\001\202\001r\001c\001S\001C\0013\001$\001\024\001\004\001\364\000\345\000\325\000\305\000\265\000\246\000\226\000\206\000v\000\216\000\236\000\256\000\276\000\315\000\335\000\355\000\375\000\f\001\034\001,\001<\001K\001[\001k\001{\001\212\001\232\001\252\001\272\001\262\001\243\001\223\001\203\001s\001d\001T\001D\0014\001%\001\025\001\005\001\365\000\346\000\326\000\306\000\266\000\316\000\336\000\356\000\376\000\r\001\035\001-\001=\001L\001\\\001l\001|\001\213\001\233\001\253\001\273\001\263\001\244\001\224\001\204\001t\001e\001U\001E\0015\001&\001\026\001\006\001\366\000\016\001\036\001.\001>\001M\001]\001m\001}\001\214\001\234\001\254\001\274\001\264\001\245\001\225\001\205\001u\001f\001V\001F\0016\001N\001^\001n\001~\001\215\001\235\001\255\001\275\001\265\001\246\001\226\001\206\001v\001\216\001\236\001\256\001\276\001\266\001"

	.p2align	1, 0x0
.Lstatic.4:
	.ascii	"@\000 \000\000\000\020\0000\000P\000p\000\300\000\240\000\200\000`\000A\000!\000\001\000\021\0001\000Q\000q\000\220\000\260\000\320\000\360\000@\001 \001\000\001\340\000\301\000\241\000\201\000a\000B\000\"\000\002\000\022\0002\000R\000r\000\221\000\261\000\321\000\361\000\020\0010\001P\001p\001\300\001\240\001\200\001`\001A\001!\001\001\001\341\000\302\000\242\000\202\000b\000C\000#\000\003\000\023\0003\000S\000s\000\222\000\262\000\322\000\362\000\021\0011\001Q\001q\001\220\001\260\001\320\001\360\001@\002 \002\000\002\340\001\301\001\241\001\201\001a\001B\001\"\001\002\001\342\000\303\000\243\000\203\000c\000D\000$\000\004\000\024\0004\000T\000t\000\223\000\263\000\323\000\363\000\022\0012\001R\001r\001\221\001\261\001\321\001\361\001\020\0020\002P\002p\002\300\002\240\002\200\002`\002A\002!\002\001\002\341\001\302\001\242\001\202\001b\001C\001#\001\003\001\343\000\304\000\244\000\204\000d\000E\000%\000\005\000\025\0005\000U\000u\000\224\000\264\000\324\000\364\000\023\0013\001S\001s\001\222\001\262\001\322\001\362\001\021\0021\002Q\002q\002\220\002\260\002\320\002\360\002@\003 \003\000\003\340\002\301\002\241\002\201\002a\002B\002\"\002\002\002\342\001\303\001\243\001\203\001c\001D\001$\001\004\001\344\000\305\000\245\000\205\000e\000F\000&\000\006\000\026\0006\000V\000v\000\225\000\265\000\325\000\365\000\024\0014\001T\001t\001\223\001\263\001\323\001\363\001\022\0022\002R\002r\002\221\002\261\002\321\002\361\002\020\0030\003P\003p\003\300\003\240\003\200\003`\003A\003!\003\001\003\341\002\302\002\242\002\202\002b\002C\002#\002\003\002\343\001\304\001\244\001\204\001d\001E\001%\001\005\001\345\000\306\000\246\000\206\000f\000G\000'\000\007\000\027\0007\000W\000w\000\226\000\266\000\326\000\366\000\025\0015\001U\001u\001\224\001\264\001\324\001\364\001\023\0023\002S\002s\002\222\002\262\002\322\002\362\002\021\0031\003Q\003q\003\220\003\260\003\320\003\360\003@\004 \004\000\004\340\003\301\003\241\003\201\003a\003B\003\"\003\002\003\342\002\303\002\243\002\203\002c\002D\002$\002\004\002\344\001\305\001\245\001\205\001e\001F\001&\001\006\001\346\000\307\000\247\000\207\000g\000H\000(\000\b\000\030\0008\000X\000x\000\227\000\267\000\327\000\367\000\026\0016\001V\001v\001\225\001\265\001\325\001\365\001\024\0024\002T\002t\002\223\002\263\002\323\002\363\002\022\0032\003R\003r\003\221\003\261\003\321\003\361\003\020\0040\004P\004p\004\300\004\240\004\200\004`\004A\004!\004\001\004\341\003\302\003\242\003\202\003b\003C\003#\003\003\003\343\002\304\002\244\002\204\002d\002E\002%\002\005\002\345\001\306\001\246\001\206\001f\001G\001'\001\007\001\347\000\310\000\250\000\210\000h\000I\000)\000\t\000\031\0009\000Y\000y\000\230\000\270\000\330\000\370\000\027\0017\001W\001w\001\226\001\266\001\326\001\366\001\025\0025\002U\002u\002\224\002\264\002\324\002\364\002\023\0033\003S\003s\003\222\003\262\003\322\003\362\003\021\0041\004Q\004q\004\220\004\260\004\320\004\360\004@\005 \005\000\005\340\004\301\004\241\004\201\004a\004B\004\"\004\002\004\342\003\303\003\243\003\203\003c\003D\003$\003\004\003\344\002\305\002\245\002\205\002e\002F\002&\002\006\002\346\001\307\001\247\001\207\001g\001H\001(\001\b\001\350\000\311\000\251\000\211\000i\000J\000*\000\n\000\032\000:\000Z\000z\000\231\000\271\000\331\000\371\000\030\0018\001X\001x\001\227\001\267\001\327\001\367\001\026\0026\002V\002v\002\225\002\265\002\325\002\365\002\024\0034\003T\003t\003\223\003\263\003\323\003\363\003\022\0042\004R\004r\004\221\004\261\004\321\004\361\004\020\0050\005P\005p\005\300\005\240\005\200\005`\005A\005!\005\001\005\341\004\302\004\242\004\202\004b\004C\004#\004\003\004\343\003\304\003\244\003\204\003d\003E\003%\003\005\003\345\002\306\002\246\002\206\002f\002G\002'\002\007\002\347\001\310\001\250\001\210\001h\001I\001)\001\t\001\351\000\312\000\252\000\212\000j\000K\000+\000\013\000\033\000;\000[\000{\000\232\000\272\000\332\000\372\000\031\0019\001Y\001y\001\230\001\270\001\330\001\370\001\027\0027\002W\002w\002\226\002\266\002\326\002\366\002\025\0035\003U\003u\003\224\003\264\003\324\003\364\003\023\0043\004S\004s\004\222\004\262\004\322\004\362\004\021\0051\005Q\005q\005\220\005\260\005\320\005\360\005@\006 \006\000\006\340\005\301\005\241\005\201\005a\005B\005\"\005\002\005\342\004\303\004\243\004\203\004c\004D\004$\004\004\004\344\003\305\003\245\003\205\003e\003F\003&\003\006\003\346\002\307\002\247\002\207\002g\002H\002(\002\b\002\350\001\311\001\251\001\211\001i\001J\001*\001\n\001\352\000\313\000\253\000\213\000k\000L\000,\000\f\000\034\000<\000\\\000|\000\233\000\273\000\333\000\373\000\032\001:\001Z\001z\001\231\001\271\001\331\001\371\001\030\0028\002X\002x\002\227\002\267\002\327\002\367\002\026\0036\003V\003v\003\225\003\265\003\325\003\365\003\024\0044\004T\004t\004\223\004\263\004\323\004\363\004\022\0052\005R\005r\005\221\005\261\005\321\005\361\005\020\0060\006P\006p\006\300\006\240\006\200\006`\006A\006!\006\001\006\341\005\302\005\242\005\202\005b\005C\005#\005\003\005\343\004\304\004\244\004\204\004d\004E\004%\004\005\004\345\003\306\003\246\003\206\003f\003G\003'\003\007\003\347\002\310\002\250\002\210\002h\002I\002)\002\t\002\351\001\312\001\252\001\212\001j\001K\001+\001\013\001\353\000\314\000\254\000\214\000l\000M\000-\000\r\000\035\000=\000]\000}\000\234\000\274\000\334\000\374\000\033\001;\001[\001{\001\232\001\272\001\332\001\372\001\031\0029\002Y\002y\002\230\002\270\002\330\002\370\002\027\0037\003W\003w\003\226\003\266\003\326\003\366\003\025\0045\004U\004u\004\224\004\264\004\324\004\364\004\023\0053\005S\005s\005\222\005\262\005\322\005\362\005\021\0061\006Q\006q\006\220\006\260\006\320\006\360\006@\007 \007\000\007\340\006\301\006\241\006\201\006a\006B\006\"\006\002\006\342\005\303\005\243\005\203\005c\005D\005$\005\004\005\344\004\305\004\245\004\205\004e\004F\004&\004\006\004\346\003\307\003\247\003\207\003g\003H\003(\003\b\003\350\002\311\002\251\002\211\002i\002J\002*\002\n\002\352\001\313\001\253\001\213\001k\001L\001,\001\f\001\354\000\315\000\255\000\215\000m\000N\000.\000\016\000\036\000>\000^\000~\000\235\000\275\000\335\000\375\000\034\001<\001\\\001|\001\233\001\273\001\333\001\373\001\032\002:\002Z\002z\002\231\002\271\002\331\002\371\002\030\0038\003X\003x\003\227\003\267\003\327\003\367\003\026\0046\004V\004v\004\225\004\265\004\325\004\365\004\024\0054\005T\005t\005\223\005\263\005\323\005\363\005\022\0062\006R\006r\006\221\006\261\006\321\006\361\006\020\0070\007P\007p\007`\007A\007!\007\001\007\341\006\302\006\242\006\202\006b\006C\006#\006\003\006\343\005\304\005\244\005\204\005d\005E\005%\005\005\005\345\004\306\004\246\004\206\004f\004G\004'\004\007\004\347\003\310\003\250\003\210\003h\003I\003)\003\t\003\351\002\312\002\252\002\212\002j\002K\002+\002\013\002\353\001\314\001\254\001\214\001l\001M\001-\001\r\001\355\000\316\000\256\000\216\000n\000\236\000\276\000\336\000\376\000\035\001=\001]\001}\001\234\001\274\001\334\001\374\001\033\002;\002[\002{\002\232\002\272\002\332\002\372\002\031\0039\003Y\003y\003\230\003\270\003\330\003\370\003\027\0047\004W\004w\004\226\004\266\004\326\004\366\004\025\0055\005U\005u\005\224\005\264\005\324\005\364\005\023\0063\006S\006s\006\222\006\262\006\322\006\362\006\021\0071\007Q\007q\007a\007B\007\"\007\002\007\342\006\303\006\243\006\203\006c\006D\006$\006\004\006\344\005\305\005\245\005\205\005e\005F\005&\005\006\005\346\004\307\004\247\004\207\004g\004H\004(\004\b\004\350\003\311\003\251\003\211\003i\003J\003*\003\n\003\352\002\313\002\253\002\213\002k\002L\002,\002\f\002\354\001\315\001\255\001\215\001m\001N\001.\001\016\001\356\000\036\001>\001^\001~\001\235\001\275\001\335\001\375\001\034\002<\002\\\002|\002\233\002\273\002\333\002\373\002\032\003:\003Z\003z\003\231\003\271\003\331\003\371\003\030\0048\004X\004x\004\227\004\267\004\327\004\367\004\026\0056\005V\005v\005\225\005\265\005\325\005\365\005\024\0064\006T\006t\006\223\006\263\006\323\006\363\006\022\0072\007R\007r\007b\007C\007#\007\003\007\343\006\304\006\244\006\204\006d\006E\006%\006\005\006\345\005\306\005\246\005\206\005f\005G\005'\005\007\005\347\004\310\004\250\004\210\004h\004I\004)\004\t\004\351\003\312\003\252\003\212\003j\003K\003+\003\013\003\353\002\314\002\254\002\214\002l\002M\002-\002\r\002\355\001\316\001\256\001\216\001n\001\236\001\276\001\336\001\376\001\035\002=\002]\002}\002\234\002\274\002\334\002\374\002\033\003;\003[\003{\003\232\003\272\003\332\003\372\003\031\0049\004Y\004y\004\230\004\270\004\330\004\370\004\027\0057\005W\005w\005\226\005\266\005\326\005\366\005\025\0065\006U\006u\006\224\006\264\006\324\006\364\006\023\0073\007S\007s\007c\007D\007$\007\004\007\344\006\305\006\245\006\205\006e\006F\006&\006\006\006\346\005\307\005\247\005\207\005g\005H\005(\005\b\005\350\004\311\004\251\004\211\004i\004J\004*\004\n\004\352\003\313\003\253\003\213\003k\003L\003,\003\f\003\354\002\315\002\255\002\215\002m\002N\002.\002\016\002\356\001\036\002>\002^\002~\002\235\002\275\002\335\002\375\002\034\003<\003\\\003|\003\233\003\273\003\333\003\373\003\032\004:\004Z\004z\004\231\004\271\004\331\004\371\004\030\0058\005X\005x\005\227\005\267\005\327\005\367\005\026\0066\006V\006v\006\225\006\265\006\325\006\365\006\024\0074\007T\007t\007d\007E\007%\007\005\007\345\006\306\006\246\006\206\006f\006G\006'\006\007\006\347\005\310\005\250\005\210\005h\005I\005)\005\t\005\351\004\312\004\252\004\212\004j\004K\004+\004\013\004\353\003\314\003\254\003\214\003l\003M\003-\003\r\003\355\002\316\002\256\002\216\002n\002\236\002\276\002\336\002\376\002\035\003=\003]\003}\003\234\003\274\003\334\003\374\003\033\004;\004[\004{\004\232\004\272\004\332\004\372\004\031\0059\005Y\005y\005\230\005\270\005\330\005\370\005\027\0067\006W\006w\006\226\006\266\006\326\006\366\006\025\0075\007U\007u\007e\007F\007&\007\006\007\346\006\307\006\247\006\207\006g\006H\006(\006\b\006\350\005\311\005\251\005\211\005i\005J\005*\005\n\005\352\004\313\004\253\004\213\004k\004L\004,\004\f\004\354\003\315\003\255\003\215\003m\003N\003.\003\016\003\356\002\036\003>\003^\003~\003\235\003\275\003\335\003\375\003\034\004<\004\\\004|\004\233\004\273\004\333\004\373\004\032\005:\005Z\005z\005\231\005\271\005\331\005\371\005\030\0068\006X\006x\006\227\006\267\006\327\006\367\006\026\0076\007V\007v\007f\007G\007'\007\007\007\347\006\310\006\250\006\210\006h\006I\006)\006\t\006\351\005\312\005\252\005\212\005j\005K\005+\005\013\005\353\004\314\004\254\004\214\004l\004M\004-\004\r\004\355\003\316\003\256\003\216\003n\003\236\003\276\003\336\003\376\003\035\004=\004]\004}\004\234\004\274\004\334\004\374\004\033\005;\005[\005{\005\232\005\272\005\332\005\372\005\031\0069\006Y\006y\006\230\006\270\006\330\006\370\006\027\0077\007W\007w\007g\007H\007(\007\b\007\350\006\311\006\251\006\211\006i\006J\006*\006\n\006\352\005\313\005\253\005\213\005k\005L\005,\005\f\005\354\004\315\004\255\004\215\004m\004N\004.\004\016\004\356\003\036\004>\004^\004~\004\235\004\275\004\335\004\375\004\034\005<\005\\\005|\005\233\005\273\005\333\005\373\005\032\006:\006Z\006z\006\231\006\271\006\331\006\371\006\030\0078\007X\007x\007h\007I\007)\007\t\007\351\006\312\006\252\006\212\006j\006K\006+\006\013\006\353\005\314\005\254\005\214\005l\005M\005-\005\r\005\355\004\316\004\256\004\216\004n\004\236\004\276\004\336\004\376\004\035\005=\005]\005}\005\234\005\274\005\334\005\374\005\033\006;\006[\006{\006\232\006\272\006\332\006\372\006\031\0079\007Y\007y\007i\007J\007*\007\n\007\352\006\313\006\253\006\213\006k\006L\006,\006\f\006\354\005\315\005\255\005\215\005m\005N\005.\005\016\005\356\004\036\005>\005^\005~\005\235\005\275\005\335\005\375\005\034\006<\006\\\006|\006\233\006\273\006\333\006\373\006\032\007:\007Z\007z\007j\007K\007+\007\013\007\353\006\314\006\254\006\214\006l\006M\006-\006\r\006\355\005\316\005\256\005\216\005n\005\236\005\276\005\336\005\376\005\035\006=\006]\006}\006\234\006\274\006\334\006\374\006\033\007;\007[\007{\007k\007L\007,\007\f\007\354\006\315\006\255\006\215\006m\006N\006.\006\016\006\356\005\036\006>\006^\006~\006\235\006\275\006\335\006\375\006\034\007<\007\\\007|\007l\007M\007-\007\r\007\355\006\316\006\256\006\216\006n\006\236\006\276\006\336\006\376\006\035\007=\007]\007}\007m\007N\007.\007\016\007\356\006\036\007>\007^\007~\007n\007"

	.p2align	1, 0x0
.Lstatic.5:

	.p2align	1, 0x0
.Lstatic.6:
	.asciz	" \000\020\000\000\000\b\000\030\000(\0008\0000"

	.p2align	1, 0x0
.Lstatic.7:
	.asciz	" \000\020\000\000\000\b\000\030\000(\0008\000@\0000\000!\0009\000H"

	.p2align	1, 0x0
.Lstatic.8:
	.asciz	" \000\020\000\000\000\b\000\030\000(\0008\000\300\001P\000@\0000\000!\000\021\000)\0009\000H\000X\000Q"

	.p2align	1, 0x0
.Lstatic.9:
	.asciz	" \000\020\000\000\000\b\000\030\000(\0008\000\300\001P\000@\0000\000!\000\021\000\031\000)\0009\000H\000X\000h\000a\000Q\000A\000Y\000i"

	.p2align	1, 0x0
.Lstatic.10:
	.asciz	" \000\020\000\000\000\b\000\030\000(\0008\000`\000P\000@\0000\000!\000\021\000\001\000\t\000\031\000)\0009\000H\000X\000h\000x\000p\000a\000Q\000A\0001\000I\000Y\000i\000y\000q"

	.p2align	1, 0x0
.Lstatic.11:
	.asciz	" \000\020\000\000\000\b\000\030\000(\0008\000`\000P\000@\0000\000!\000\021\000\001\000\t\000\031\000)\0009\000H\000X\000h\000x\000\200\000p\000a\000Q\000A\0001\000\"\000:\000I\000Y\000i\000y\000\210\000\201\000q\000b\000z\000\211"

	.p2align	1, 0x0
.Lstatic.12:
	.asciz	" \000\020\000\000\000\b\000\030\000(\0008\000`\000P\000@\0000\000!\000\021\000\001\000\t\000\031\000)\0009\000H\000X\000h\000x\000\300\001\220\000\200\000p\000a\000Q\000A\0001\000\"\000\022\000*\000:\000I\000Y\000i\000y\000\210\000\230\000\221\000\201\000q\000b\000R\000j\000z\000\211\000\231\000\222"

	.p2align	1, 0x0
.Lstatic.13:
	.asciz	" \000\020\000\000\000\b\000\030\000(\0008\000`\000P\000@\0000\000!\000\021\000\001\000\t\000\031\000)\0009\000H\000X\000h\000x\000\300\001\220\000\200\000p\000a\000Q\000A\0001\000\"\000\022\000\032\000*\000:\000I\000Y\000i\000y\000\210\000\230\000\250\000\241\000\221\000\201\000q\000b\000R\000B\000Z\000j\000z\000\211\000\231\000\251\000\242\000\222\000\202\000\232\000\252"

	.p2align	1, 0x0
.Lstatic.14:
	.asciz	" \000\020\000\000\000\b\000\030\000(\0008\000`\000P\000@\0000\000!\000\021\000\001\000\t\000\031\000)\0009\000H\000X\000h\000x\000\240\000\220\000\200\000p\000a\000Q\000A\0001\000\"\000\022\000\002\000\n\000\032\000*\000:\000I\000Y\000i\000y\000\210\000\230\000\250\000\270\000\260\000\241\000\221\000\201\000q\000b\000R\000B\0002\000J\000Z\000j\000z\000\211\000\231\000\251\000\271\000\261\000\242\000\222\000\202\000r\000\212\000\232\000\252\000\272\000\262"

	.p2align	1, 0x0
.Lstatic.15:
	.asciz	" \000\020\000\000\000\b\000\030\000(\0008\000`\000P\000@\0000\000!\000\021\000\001\000\t\000\031\000)\0009\000H\000X\000h\000x\000\240\000\220\000\200\000p\000a\000Q\000A\0001\000\"\000\022\000\002\000\n\000\032\000*\000:\000I\000Y\000i\000y\000\210\000\230\000\250\000\270\000\300\001\320\000\300\000\260\000\241\000\221\000\201\000q\000b\000R\000B\0002\000#\000\023\000+\000;\000J\000Z\000j\000z\000\211\000\231\000\251\000\271\000\310\000\330\000\321\000\301\000\261\000\242\000\222\000\202\000r\000c\000S\000k\000{\000\212\000\232\000\252\000\272\000\311\000\331\000\322\000\302\000\262\000\243\000\223\000\253\000\273\000\312\000\332\000\323"

	.p2align	1, 0x0
.Lstatic.16:
	.ascii	" \000\020\000\000\000\b\000\030\000(\0008\000`\000P\000@\0000\000!\000\021\000\001\000\t\000\031\000)\0009\000H\000X\000h\000x\000\240\000\220\000\200\000p\000a\000Q\000A\0001\000\"\000\022\000\002\000\n\000\032\000*\000:\000I\000Y\000i\000y\000\210\000\230\000\250\000\270\000\340\000\320\000\300\000\260\000\241\000\221\000\201\000q\000b\000R\000B\0002\000#\000\023\000\003\000\013\000\033\000+\000;\000J\000Z\000j\000z\000\211\000\231\000\251\000\271\000\310\000\330\000\350\000\370\000\300\001\020\001\000\001\360\000\341\000\321\000\301\000\261\000\242\000\222\000\202\000r\000c\000S\000C\0003\000$\000\024\000,\000<\000K\000[\000k\000{\000\212\000\232\000\252\000\272\000\311\000\331\000\351\000\371\000\b\001\030\001\021\001\001\001\361\000\342\000\322\000\302\000\262\000\243\000\223\000\203\000s\000d\000T\000l\000|\000\213\000\233\000\253\000\273\000\312\000\332\000\352\000\372\000\t\001\031\001\022\001\002\001\362\000\343\000\323\000\303\000\263\000\244\000\224\000\254\000\274\000\313\000\333\000\353\000\373\000\n\001\032\001\023\001\003\001\363\000\344\000\324\000\354\000\374\000\013\001\033\001\024\001"

	.p2align	1, 0x0
.Lstatic.17:
	.ascii	" \000\020\000\000\000\b\000\030\000(\0008\000`\000P\000@\0000\000!\000\021\000\001\000\t\000\031\000)\0009\000H\000X\000h\000x\000\240\000\220\000\200\000p\000a\000Q\000A\0001\000\"\000\022\000\002\000\n\000\032\000*\000:\000I\000Y\000i\000y\000\210\000\230\000\250\000\270\000\340\000\320\000\300\000\260\000\241\000\221\000\201\000q\000b\000R\000B\0002\000#\000\023\000\003\000\013\000\033\000+\000;\000J\000Z\000j\000z\000\211\000\231\000\251\000\271\000\310\000\330\000\350\000\370\000 \001\020\001\000\001\360\000\341\000\321\000\301\000\261\000\242\000\222\000\202\000r\000c\000S\000C\0003\000$\000\024\000\004\000\f\000\034\000,\000<\000K\000[\000k\000{\000\212\000\232\000\252\000\272\000\311\000\331\000\351\000\371\000\b\001\030\001(\0018\001\300\001P\001@\0010\001!\001\021\001\001\001\361\000\342\000\322\000\302\000\262\000\243\000\223\000\203\000s\000d\000T\000D\0004\000%\000\025\000-\000=\000L\000\\\000l\000|\000\213\000\233\000\253\000\273\000\312\000\332\000\352\000\372\000\t\001\031\001)\0019\001H\001X\001Q\001A\0011\001\"\001\022\001\002\001\362\000\343\000\323\000\303\000\263\000\244\000\224\000\204\000t\000e\000U\000m\000}\000\214\000\234\000\254\000\274\000\313\000\333\000\353\000\373\000\n\001\032\001*\001:\001I\001Y\001R\001B\0012\001#\001\023\001\003\001\363\000\344\000\324\000\304\000\264\000\245\000\225\000\255\000\275\000\314\000\334\000\354\000\374\000\013\001\033\001+\001;\001J\001Z\001S\001C\0013\001$\001\024\001\004\001\364\000\345\000\325\000\355\000\375\000\f\001\034\001,\001<\001K\001[\001T\001D\0014\001%\001\025\001-\001=\001L\001\\\001U\001"

	.p2align	1, 0x0
.Lstatic.18:
	.ascii	"@\000 \000\000\000\020\0000\000P\000p\000\300\000\240\000\200\000`\000A\000!\000\001\000\021\0001\000Q\000q\000\220\000\260\000\320\000\360\000@\001 \001\000\001\340\000\301\000\241\000\201\000a\000B\000\"\000\002\000\022\0002\000R\000r\000\221\000\261\000\321\000\361\000\020\0010\001P\001p\001\300\001\240\001\200\001`\001A\001!\001\001\001\341\000\302\000\242\000\202\000b\000C\000#\000\003\000\023\0003\000S\000s\000\222\000\262\000\322\000\362\000\021\0011\001Q\001q\001\220\001\260\001\320\001\360\001@\002 \002\000\002\340\001\301\001\241\001\201\001a\001B\001\"\001\002\001\342\000\303\000\243\000\203\000c\000D\000$\000\004\000\024\0004\000T\000t\000\223\000\263\000\323\000\363\000\022\0012\001R\001r\001\221\001\261\001\321\001\361\001\020\0020\002P\002p\002\300\002\240\002\200\002`\002A\002!\002\001\002\341\001\302\001\242\001\202\001b\001C\001#\001\003\001\343\000\304\000\244\000\204\000d\000E\000%\000\005\000\025\0005\000U\000u\000\224\000\264\000\324\000\364\000\023\0013\001S\001s\001\222\001\262\001\322\001\362\001\021\0021\002Q\002q\002\220\002\260\002\320\002\360\002@\003 \003\000\003\340\002\301\002\241\002\201\002a\002B\002\"\002\002\002\342\001\303\001\243\001\203\001c\001D\001$\001\004\001\344\000\305\000\245\000\205\000e\000F\000&\000\006\000\026\0006\000V\000v\000\225\000\265\000\325\000\365\000\024\0014\001T\001t\001\223\001\263\001\323\001\363\001\022\0022\002R\002r\002\221\002\261\002\321\002\361\002\020\0030\003P\003p\003\300\003\240\003\200\003`\003A\003!\003\001\003\341\002\302\002\242\002\202\002b\002C\002#\002\003\002\343\001\304\001\244\001\204\001d\001E\001%\001\005\001\345\000\306\000\246\000\206\000f\000G\000'\000\007\000\027\0007\000W\000w\000\226\000\266\000\326\000\366\000\025\0015\001U\001u\001\224\001\264\001\324\001\364\001\023\0023\002S\002s\002\222\002\262\002\322\002\362\002\021\0031\003Q\003q\003\220\003\260\003\320\003\360\003@\004 \004\000\004\340\003\301\003\241\003\201\003a\003B\003\"\003\002\003\342\002\303\002\243\002\203\002c\002D\002$\002\004\002\344\001\305\001\245\001\205\001e\001F\001&\001\006\001\346\000\307\000\247\000\207\000g\000H\000(\000\b\000\030\0008\000X\000x\000\227\000\267\000\327\000\367\000\026\0016\001V\001v\001\225\001\265\001\325\001\365\001\024\0024\002T\002t\002\223\002\263\002\323\002\363\002\022\0032\003R\003r\003\221\003\261\003\321\003\361\003\020\0040\004P\004p\004\300\004\240\004\200\004`\004A\004!\004\001\004\341\003\302\003\242\003\202\003b\003C\003#\003\003\003\343\002\304\002\244\002\204\002d\002E\002%\002\005\002\345\001\306\001\246\001\206\001f\001G\001'\001\007\001\347\000\310\000\250\000\210\000h\000I\000)\000\t\000\031\0009\000Y\000y\000\230\000\270\000\330\000\370\000\027\0017\001W\001w\001\226\001\266\001\326\001\366\001\025\0025\002U\002u\002\224\002\264\002\324\002\364\002\023\0033\003S\003s\003\222\003\262\003\322\003\362\003\021\0041\004Q\004q\004\220\004\260\004\320\004\360\004@\005 \005\000\005\340\004\301\004\241\004\201\004a\004B\004\"\004\002\004\342\003\303\003\243\003\203\003c\003D\003$\003\004\003\344\002\305\002\245\002\205\002e\002F\002&\002\006\002\346\001\307\001\247\001\207\001g\001H\001(\001\b\001\350\000\311\000\251\000\211\000i\000J\000*\000\n\000\032\000:\000Z\000z\000\231\000\271\000\331\000\371\000\030\0018\001X\001x\001\227\001\267\001\327\001\367\001\026\0026\002V\002v\002\225\002\265\002\325\002\365\002\024\0034\003T\003t\003\223\003\263\003\323\003\363\003\022\0042\004R\004r\004\221\004\261\004\321\004\361\004\020\0050\005P\005p\005\300\005\240\005\200\005`\005A\005!\005\001\005\341\004\302\004\242\004\202\004b\004C\004#\004\003\004\343\003\304\003\244\003\204\003d\003E\003%\003\005\003\345\002\306\002\246\002\206\002f\002G\002'\002\007\002\347\001\310\001\250\001\210\001h\001I\001)\001\t\001\351\000\312\000\252\000\212\000j\000K\000+\000\013\000\033\000;\000[\000{\000\232\000\272\000\332\000\372\000\031\0019\001Y\001y\001\230\001\270\001\330\001\370\001\027\0027\002W\002w\002\226\002\266\002\326\002\366\002\025\0035\003U\003u\003\224\003\264\003\324\003\364\003\023\0043\004S\004s\004\222\004\262\004\322\004\362\004\021\0051\005Q\005q\005\220\005\260\005\320\005\360\005@\006 \006\000\006\340\005\301\005\241\005\201\005a\005B\005\"\005\002\005\342\004\303\004\243\004\203\004c\004D\004$\004\004\004\344\003\305\003\245\003\205\003e\003F\003&\003\006\003\346\002\307\002\247\002\207\002g\002H\002(\002\b\002\350\001\311\001\251\001\211\001i\001J\001*\001\n\001\352\000\313\000\253\000\213\000k\000L\000,\000\f\000\034\000<\000\\\000|\000\233\000\273\000\333\000\373\000\032\001:\001Z\001z\001\231\001\271\001\331\001\371\001\030\0028\002X\002x\002\227\002\267\002\327\002\367\002\026\0036\003V\003v\003\225\003\265\003\325\003\365\003\024\0044\004T\004t\004\223\004\263\004\323\004\363\004\022\0052\005R\005r\005\221\005\261\005\321\005\361\005\020\0060\006P\006p\006\200\007\240\006\200\006`\006A\006!\006\001\006\341\005\302\005\242\005\202\005b\005C\005#\005\003\005\343\004\304\004\244\004\204\004d\004E\004%\004\005\004\345\003\306\003\246\003\206\003f\003G\003'\003\007\003\347\002\310\002\250\002\210\002h\002I\002)\002\t\002\351\001\312\001\252\001\212\001j\001K\001+\001\013\001\353\000\314\000\254\000\214\000l\000M\000-\000]\000}\000\234\000\274\000\334\000\374\000\033\001;\001[\001{\001\232\001\272\001\332\001\372\001\031\0029\002Y\002y\002\230\002\270\002\330\002\370\002\027\0037\003W\003w\003\226\003\266\003\326\003\366\003\025\0045\004U\004u\004\224\004\264\004\324\004\364\004\023\0053\005S\005s\005\222\005\262\005\322\005\362\005\021\0061\006Q\006q\006\220\006\260\006\241\006\201\006a\006B\006\"\006\002\006\342\005\303\005\243\005\203\005c\005D\005$\005\004\005\344\004\305\004\245\004\205\004e\004F\004&\004\006\004\346\003\307\003\247\003\207\003g\003H\003(\003\b\003\350\002\311\002\251\002\211\002i\002J\002*\002\n\002\352\001\313\001\253\001\213\001k\001L\001,\001\f\001\354\000\315\000\255\000\335\000\375\000\034\001<\001\\\001|\001\233\001\273\001\333\001\373\001\032\002:\002Z\002z\002\231\002\271\002\331\002\371\002\030\0038\003X\003x\003\227\003\267\003\327\003\367\003\026\0046\004V\004v\004\225\004\265\004\325\004\365\004\024\0054\005T\005t\005\223\005\263\005\323\005\363\005\022\0062\006R\006r\006\221\006\261\006\242\006\202\006b\006C\006#\006\003\006\343\005\304\005\244\005\204\005d\005E\005%\005\005\005\345\004\306\004\246\004\206\004f\004G\004'\004\007\004\347\003\310\003\250\003\210\003h\003I\003)\003\t\003\351\002\312\002\252\002\212\002j\002K\002+\002\013\002\353\001\314\001\254\001\214\001l\001M\001-\001]\001}\001\234\001\274\001\334\001\374\001\033\002;\002[\002{\002\232\002\272\002\332\002\372\002\031\0039\003Y\003y\003\230\003\270\003\330\003\370\003\027\0047\004W\004w\004\226\004\266\004\326\004\366\004\025\0055\005U\005u\005\224\005\264\005\324\005\364\005\023\0063\006S\006s\006\222\006\262\006\243\006\203\006c\006D\006$\006\004\006\344\005\305\005\245\005\205\005e\005F\005&\005\006\005\346\004\307\004\247\004\207\004g\004H\004(\004\b\004\350\003\311\003\251\003\211\003i\003J\003*\003\n\003\352\002\313\002\253\002\213\002k\002L\002,\002\f\002\354\001\315\001\255\001\335\001\375\001\034\002<\002\\\002|\002\233\002\273\002\333\002\373\002\032\003:\003Z\003z\003\231\003\271\003\331\003\371\003\030\0048\004X\004x\004\227\004\267\004\327\004\367\004\026\0056\005V\005v\005\225\005\265\005\325\005\365\005\024\0064\006T\006t\006\223\006\263\006\244\006\204\006d\006E\006%\006\005\006\345\005\306\005\246\005\206\005f\005G\005'\005\007\005\347\004\310\004\250\004\210\004h\004I\004)\004\t\004\351\003\312\003\252\003\212\003j\003K\003+\003\013\003\353\002\314\002\254\002\214\002l\002M\002-\002]\002}\002\234\002\274\002\334\002\374\002\033\003;\003[\003{\003\232\003\272\003\332\003\372\003\031\0049\004Y\004y\004\230\004\270\004\330\004\370\004\027\0057\005W\005w\005\226\005\266\005\326\005\366\005\025\0065\006U\006u\006\224\006\264\006\245\006\205\006e\006F\006&\006\006\006\346\005\307\005\247\005\207\005g\005H\005(\005\b\005\350\004\311\004\251\004\211\004i\004J\004*\004\n\004\352\003\313\003\253\003\213\003k\003L\003,\003\f\003\354\002\315\002\255\002\335\002\375\002\034\003<\003\\\003|\003\233\003\273\003\333\003\373\003\032\004:\004Z\004z\004\231\004\271\004\331\004\371\004\030\0058\005X\005x\005\227\005\267\005\327\005\367\005\026\0066\006V\006v\006\225\006\265\006\246\006\206\006f\006G\006'\006\007\006\347\005\310\005\250\005\210\005h\005I\005)\005\t\005\351\004\312\004\252\004\212\004j\004K\004+\004\013\004\353\003\314\003\254\003\214\003l\003M\003-\003]\003}\003\234\003\274\003\334\003\374\003\033\004;\004[\004{\004\232\004\272\004\332\004\372\004\031\0059\005Y\005y\005\230\005\270\005\330\005\370\005\027\0067\006W\006w\006\226\006\266\006\247\006\207\006g\006H\006(\006\b\006\350\005\311\005\251\005\211\005i\005J\005*\005\n\005\352\004\313\004\253\004\213\004k\004L\004,\004\f\004\354\003\315\003\255\003\335\003\375\003\034\004<\004\\\004|\004\233\004\273\004\333\004\373\004\032\005:\005Z\005z\005\231\005\271\005\331\005\371\005\030\0068\006X\006x\006\227\006\267\006\250\006\210\006h\006I\006)\006\t\006\351\005\312\005\252\005\212\005j\005K\005+\005\013\005\353\004\314\004\254\004\214\004l\004M\004-\004]\004}\004\234\004\274\004\334\004\374\004\033\005;\005[\005{\005\232\005\272\005\332\005\372\005\031\0069\006Y\006y\006\230\006\270\006\251\006\211\006i\006J\006*\006\n\006\352\005\313\005\253\005\213\005k\005L\005,\005\f\005\354\004\315\004\255\004\335\004\375\004\034\005<\005\\\005|\005\233\005\273\005\333\005\373\005\032\006:\006Z\006z\006\231\006\271\006\252\006\212\006j\006K\006+\006\013\006\353\005\314\005\254\005\214\005l\005M\005-\005]\005}\005\234\005\274\005\334\005\374\005\033\006;\006[\006{\006\232\006\272\006\253\006\213\006k\006L\006,\006\f\006\354\005\315\005\255\005\335\005\375\005\034\006<\006\\\006|\006\233\006\273\006\254\006\214\006l\006M\006-\006]\006}\006\234\006\274\006\255\006"

	.p2align	1, 0x0
.Lstatic.19:
	.ascii	"\200\000@\000\000\000 \000`\000\240\000\340\000\200\001@\001\000\001\300\000\201\000A\000\001\000!\000a\000\241\000\341\000 \001`\001\240\001\340\001\200\002@\002\000\002\300\001\201\001A\001\001\001\301\000\202\000B\000\002\000\"\000b\000\242\000\342\000!\001a\001\241\001\341\001 \002`\002\240\002\340\002\200\003@\003\000\003\300\002\201\002A\002\001\002\301\001\202\001B\001\002\001\302\000\203\000C\000\003\000#\000c\000\243\000\343\000\"\001b\001\242\001\342\001!\002a\002\241\002\341\002 \003`\003\240\003\340\003\200\004@\004\000\004\300\003\201\003A\003\001\003\301\002\202\002B\002\002\002\302\001\203\001C\001\003\001\303\000\204\000D\000\004\000$\000d\000\244\000\344\000#\001c\001\243\001\343\001\"\002b\002\242\002\342\002!\003a\003\241\003\341\003 \004`\004\240\004\340\004\200\005@\005\000\005\300\004\201\004A\004\001\004\301\003\202\003B\003\002\003\302\002\203\002C\002\003\002\303\001\204\001D\001\004\001\304\000\205\000E\000\005\000%\000e\000\245\000\345\000$\001d\001\244\001\344\001#\002c\002\243\002\343\002\"\003b\003\242\003\342\003!\004a\004\241\004\341\004 \005`\005\240\005\340\005\200\006@\006\000\006\300\005\201\005A\005\001\005\301\004\202\004B\004\002\004\302\003\203\003C\003\003\003\303\002\204\002D\002\004\002\304\001\205\001E\001\005\001\305\000\206\000F\000\006\000&\000f\000\246\000\346\000%\001e\001\245\001\345\001$\002d\002\244\002\344\002#\003c\003\243\003\343\003\"\004b\004\242\004\342\004!\005a\005\241\005\341\005 \006`\006\240\006\340\006\200\007@\007\000\007\300\006\201\006A\006\001\006\301\005\202\005B\005\002\005\302\004\203\004C\004\003\004\303\003\204\003D\003\004\003\304\002\205\002E\002\005\002\305\001\206\001F\001\006\001\306\000\207\000G\000\007\000'\000g\000\247\000\347\000&\001f\001\246\001\346\001%\002e\002\245\002\345\002$\003d\003\244\003\344\003#\004c\004\243\004\343\004\"\005b\005\242\005\342\005!\006a\006\241\006\341\006 \007`\007\240\007\340\007\200\b@\b\000\b\300\007\201\007A\007\001\007\301\006\202\006B\006\002\006\302\005\203\005C\005\003\005\303\004\204\004D\004\004\004\304\003\205\003E\003\005\003\305\002\206\002F\002\006\002\306\001\207\001G\001\007\001\307\000\210\000H\000\b\000(\000h\000\250\000\350\000'\001g\001\247\001\347\001&\002f\002\246\002\346\002%\003e\003\245\003\345\003$\004d\004\244\004\344\004#\005c\005\243\005\343\005\"\006b\006\242\006\342\006!\007a\007\241\007\341\007 \b`\b\240\b\340\b\200\t@\t\000\t\300\b\201\bA\b\001\b\301\007\202\007B\007\002\007\302\006\203\006C\006\003\006\303\005\204\005D\005\004\005\304\004\205\004E\004\005\004\305\003\206\003F\003\006\003\306\002\207\002G\002\007\002\307\001\210\001H\001\b\001\310\000\211\000I\000\t\000)\000i\000\251\000\351\000(\001h\001\250\001\350\001'\002g\002\247\002\347\002&\003f\003\246\003\346\003%\004e\004\245\004\345\004$\005d\005\244\005\344\005#\006c\006\243\006\343\006\"\007b\007\242\007\342\007!\ba\b\241\b\341\b \t`\t\240\t\340\t\200\n@\n\000\n\300\t\201\tA\t\001\t\301\b\202\bB\b\002\b\302\007\203\007C\007\003\007\303\006\204\006D\006\004\006\304\005\205\005E\005\005\005\305\004\206\004F\004\006\004\306\003\207\003G\003\007\003\307\002\210\002H\002\b\002\310\001\211\001I\001\t\001\311\000\212\000J\000\n\000*\000j\000\252\000\352\000)\001i\001\251\001\351\001(\002h\002\250\002\350\002'\003g\003\247\003\347\003&\004f\004\246\004\346\004%\005e\005\245\005\345\005$\006d\006\244\006\344\006#\007c\007\243\007\343\007\"\bb\b\242\b\342\b!\ta\t\241\t\341\t \n`\n\240\n\340\n\200\013@\013\000\013\300\n\201\nA\n\001\n\301\t\202\tB\t\002\t\302\b\203\bC\b\003\b\303\007\204\007D\007\004\007\304\006\205\006E\006\005\006\305\005\206\005F\005\006\005\306\004\207\004G\004\007\004\307\003\210\003H\003\b\003\310\002\211\002I\002\t\002\311\001\212\001J\001\n\001\312\000\213\000K\000\013\000+\000k\000\253\000\353\000*\001j\001\252\001\352\001)\002i\002\251\002\351\002(\003h\003\250\003\350\003'\004g\004\247\004\347\004&\005f\005\246\005\346\005%\006e\006\245\006\345\006$\007d\007\244\007\344\007#\bc\b\243\b\343\b\"\tb\t\242\t\342\t!\na\n\241\n\341\n \013`\013\240\013\340\013\200\f@\f\000\f\300\013\201\013A\013\001\013\301\n\202\nB\n\002\n\302\t\203\tC\t\003\t\303\b\204\bD\b\004\b\304\007\205\007E\007\005\007\305\006\206\006F\006\006\006\306\005\207\005G\005\007\005\307\004\210\004H\004\b\004\310\003\211\003I\003\t\003\311\002\212\002J\002\n\002\312\001\213\001K\001\013\001\313\000\214\000L\000\f\000,\000l\000\254\000\354\000+\001k\001\253\001\353\001*\002j\002\252\002\352\002)\003i\003\251\003\351\003(\004h\004\250\004\350\004'\005g\005\247\005\347\005&\006f\006\246\006\346\006%\007e\007\245\007\345\007$\bd\b\244\b\344\b#\tc\t\243\t\343\t\"\nb\n\242\n\342\n!\013a\013\241\013\341\013 \f`\f\240\f\340\f\200\r@\r\000\r\300\f\201\fA\f\001\f\301\013\202\013B\013\002\013\302\n\203\nC\n\003\n\303\t\204\tD\t\004\t\304\b\205\bE\b\005\b\305\007\206\007F\007\006\007\306\006\207\006G\006\007\006\307\005\210\005H\005\b\005\310\004\211\004I\004\t\004\311\003\212\003J\003\n\003\312\002\213\002K\002\013\002\313\001\214\001L\001\f\001\314\000\215\000M\000\r\000-\000m\000\255\000\355\000,\001l\001\254\001\354\001+\002k\002\253\002\353\002*\003j\003\252\003\352\003)\004i\004\251\004\351\004(\005h\005\250\005\350\005'\006g\006\247\006\347\006&\007f\007\246\007\346\007%\be\b\245\b\345\b$\td\t\244\t\344\t#\nc\n\243\n\343\n\"\013b\013\242\013\342\013!\fa\f\241\f\341\f \r`\r\240\r\340\r\200\016@\016\000\016\300\r\201\rA\r\001\r\301\f\202\fB\f\002\f\302\013\203\013C\013\003\013\303\n\204\nD\n\004\n\304\t\205\tE\t\005\t\305\b\206\bF\b\006\b\306\007\207\007G\007\007\007\307\006\210\006H\006\b\006\310\005\211\005I\005\t\005\311\004\212\004J\004\n\004\312\003\213\003K\003\013\003\313\002\214\002L\002\f\002\314\001\215\001M\001\r\001\315\000\216\000N\000\016\000.\000n\000\256\000\356\000-\001m\001\255\001\355\001,\002l\002\254\002\354\002+\003k\003\253\003\353\003*\004j\004\252\004\352\004)\005i\005\251\005\351\005(\006h\006\250\006\350\006'\007g\007\247\007\347\007&\bf\b\246\b\346\b%\te\t\245\t\345\t$\nd\n\244\n\344\n#\013c\013\243\013\343\013\"\fb\f\242\f\342\f!\ra\r\241\r\341\r \016`\016\240\016\340\016\200\017@\017\000\017\300\016\201\016A\016\001\016\301\r\202\rB\r\002\r\302\f\203\fC\f\003\f\303\013\204\013D\013\004\013\304\n\205\nE\n\005\n\305\t\206\tF\t\006\t\306\b\207\bG\b\007\b\307\007\210\007H\007\b\007\310\006\211\006I\006\t\006\311\005\212\005J\005\n\005\312\004\213\004K\004\013\004\313\003\214\003L\003\f\003\314\002\215\002M\002\r\002\315\001\216\001N\001\016\001\316\000\217\000O\000\017\000/\000o\000\257\000\357\000.\001n\001\256\001\356\001-\002m\002\255\002\355\002,\003l\003\254\003\354\003+\004k\004\253\004\353\004*\005j\005\252\005\352\005)\006i\006\251\006\351\006(\007h\007\250\007\350\007'\bg\b\247\b\347\b&\tf\t\246\t\346\t%\ne\n\245\n\345\n$\013d\013\244\013\344\013#\fc\f\243\f\343\f\"\rb\r\242\r\342\r!\016a\016\241\016\341\016 \017`\017\240\017\340\017\200\020@\020\000\020\300\017\201\017A\017\001\017\301\016\202\016B\016\002\016\302\r\203\rC\r\003\r\303\f\204\fD\f\004\f\304\013\205\013E\013\005\013\305\n\206\nF\n\006\n\306\t\207\tG\t\007\t\307\b\210\bH\b\b\b\310\007\211\007I\007\t\007\311\006\212\006J\006\n\006\312\005\213\005K\005\013\005\313\004\214\004L\004\f\004\314\003\215\003M\003\r\003\315\002\216\002N\002\016\002\316\001\217\001O\001\017\001\317\000\220\000P\000\260\000\360\000/\001o\001\257\001\357\001.\002n\002\256\002\356\002-\003m\003\255\003\355\003,\004l\004\254\004\354\004+\005k\005\253\005\353\005*\006j\006\252\006\352\006)\007i\007\251\007\351\007(\bh\b\250\b\350\b'\tg\t\247\t\347\t&\nf\n\246\n\346\n%\013e\013\245\013\345\013$\fd\f\244\f\344\f#\rc\r\243\r\343\r\"\016b\016\242\016\342\016!\017a\017\241\017\341\017 \020`\020A\020\001\020\301\017\202\017B\017\002\017\302\016\203\016C\016\003\016\303\r\204\rD\r\004\r\304\f\205\fE\f\005\f\305\013\206\013F\013\006\013\306\n\207\nG\n\007\n\307\t\210\tH\t\b\t\310\b\211\bI\b\t\b\311\007\212\007J\007\n\007\312\006\213\006K\006\013\006\313\005\214\005L\005\f\005\314\004\215\004M\004\r\004\315\003\216\003N\003\016\003\316\002\217\002O\002\017\002\317\001\220\001P\001\260\001\360\001/\002o\002\257\002\357\002.\003n\003\256\003\356\003-\004m\004\255\004\355\004,\005l\005\254\005\354\005+\006k\006\253\006\353\006*\007j\007\252\007\352\007)\bi\b\251\b\351\b(\th\t\250\t\350\t'\ng\n\247\n\347\n&\013f\013\246\013\346\013%\fe\f\245\f\345\f$\rd\r\244\r\344\r#\016c\016\243\016\343\016\"\017b\017\242\017\342\017!\020a\020B\020\002\020\302\017\203\017C\017\003\017\303\016\204\016D\016\004\016\304\r\205\rE\r\005\r\305\f\206\fF\f\006\f\306\013\207\013G\013\007\013\307\n\210\nH\n\b\n\310\t\211\tI\t\t\t\311\b\212\bJ\b\n\b\312\007\213\007K\007\013\007\313\006\214\006L\006\f\006\314\005\215\005M\005\r\005\315\004\216\004N\004\016\004\316\003\217\003O\003\017\003\317\002\220\002P\002\260\002\360\002/\003o\003\257\003\357\003.\004n\004\256\004\356\004-\005m\005\255\005\355\005,\006l\006\254\006\354\006+\007k\007\253\007\353\007*\bj\b\252\b\352\b)\ti\t\251\t\351\t(\nh\n\250\n\350\n'\013g\013\247\013\347\013&\ff\f\246\f\346\f%\re\r\245\r\345\r$\016d\016\244\016\344\016#\017c\017\243\017\343\017\"\020b\020C\020\003\020\303\017\204\017D\017\004\017\304\016\205\016E\016\005\016\305\r\206\rF\r\006\r\306\f\207\fG\f\007\f\307\013\210\013H\013\b\013\310\n\211\nI\n\t\n\311\t\212\tJ\t\n\t\312\b\213\bK\b\013\b\313\007\214\007L\007\f\007\314\006\215\006M\006\r\006\315\005\216\005N\005\016\005\316\004\217\004O\004\017\004\317\003\220\003P\003\260\003\360\003/\004o\004\257\004\357\004.\005n\005\256\005\356\005-\006m\006\255\006\355\006,\007l\007\254\007\354\007+\bk\b\253\b\353\b*\tj\t\252\t\352\t)\ni\n\251\n\351\n(\013h\013\250\013\350\013'\fg\f\247\f\347\f&\rf\r\246\r\346\r%\016e\016\245\016\345\016$\017d\017\244\017\344\017#\020c\020D\020\004\020\304\017\205\017E\017\005\017\305\016\206\016F\016\006\016\306\r\207\rG\r\007\r\307\f\210\fH\f\b\f\310\013\211\013I\013\t\013\311\n\212\nJ\n\n\n\312\t\213\tK\t\013\t\313\b\214\bL\b\f\b\314\007\215\007M\007\r\007\315\006\216\006N\006\016\006\316\005\217\005O\005\017\005\317\004\220\004P\004\260\004\360\004/\005o\005\257\005\357\005.\006n\006\256\006\356\006-\007m\007\255\007\355\007,\bl\b\254\b\354\b+\tk\t\253\t\353\t*\nj\n\252\n\352\n)\013i\013\251\013\351\013(\fh\f\250\f\350\f'\rg\r\247\r\347\r&\016f\016\246\016\346\016%\017e\017\245\017\345\017$\020d\020E\020\005\020\305\017\206\017F\017\006\017\306\016\207\016G\016\007\016\307\r\210\rH\r\b\r\310\f\211\fI\f\t\f\311\013\212\013J\013\n\013\312\n\213\nK\n\013\n\313\t\214\tL\t\f\t\314\b\215\bM\b\r\b\315\007\216\007N\007\016\007\316\006\217\006O\006\017\006\317\005\220\005P\005\260\005\360\005/\006o\006\257\006\357\006.\007n\007\256\007\356\007-\bm\b\255\b\355\b,\tl\t\254\t\354\t+\nk\n\253\n\353\n*\013j\013\252\013\352\013)\fi\f\251\f\351\f(\rh\r\250\r\350\r'\016g\016\247\016\347\016&\017f\017\246\017\346\017%\020e\020F\020\006\020\306\017\207\017G\017\007\017\307\016\210\016H\016\b\016\310\r\211\rI\r\t\r\311\f\212\fJ\f\n\f\312\013\213\013K\013\013\013\313\n\214\nL\n\f\n\314\t\215\tM\t\r\t\315\b\216\bN\b\016\b\316\007\217\007O\007\017\007\317\006\220\006P\006\260\006\360\006/\007o\007\257\007\357\007.\bn\b\256\b\356\b-\tm\t\255\t\355\t,\nl\n\254\n\354\n+\013k\013\253\013\353\013*\fj\f\252\f\352\f)\ri\r\251\r\351\r(\016h\016\250\016\350\016'\017g\017\247\017\347\017&\020f\020G\020\007\020\307\017\210\017H\017\b\017\310\016\211\016I\016\t\016\311\r\212\rJ\r\n\r\312\f\213\fK\f\013\f\313\013\214\013L\013\f\013\314\n\215\nM\n\r\n\315\t\216\tN\t\016\t\316\b\217\bO\b\017\b\317\007\220\007P\007\260\007\360\007/\bo\b\257\b\357\b.\tn\t\256\t\356\t-\nm\n\255\n\355\n,\013l\013\254\013\354\013+\fk\f\253\f\353\f*\rj\r\252\r\352\r)\016i\016\251\016\351\016(\017h\017\250\017\350\017'\020g\020H\020\b\020\310\017\211\017I\017\t\017\311\016\212\016J\016\n\016\312\r\213\rK\r\013\r\313\f\214\fL\f\f\f\314\013\215\013M\013\r\013\315\n\216\nN\n\016\n\316\t\217\tO\t\017\t\317\b\220\bP\b\260\b\360\b/\to\t\257\t\357\t.\nn\n\256\n\356\n-\013m\013\255\013\355\013,\fl\f\254\f\354\f+\rk\r\253\r\353\r*\016j\016\252\016\352\016)\017i\017\251\017\351\017(\020h\020I\020\t\020\311\017\212\017J\017\n\017\312\016\213\016K\016\013\016\313\r\214\rL\r\f\r\314\f\215\fM\f\r\f\315\013\216\013N\013\016\013\316\n\217\nO\n\017\n\317\t\220\tP\t\260\t\360\t/\no\n\257\n\357\n.\013n\013\256\013\356\013-\fm\f\255\f\355\f,\rl\r\254\r\354\r+\016k\016\253\016\353\016*\017j\017\252\017\352\017)\020i\020J\020\n\020\312\017\213\017K\017\013\017\313\016\214\016L\016\f\016\314\r\215\rM\r\r\r\315\f\216\fN\f\016\f\316\013\217\013O\013\017\013\317\n\220\nP\n\260\n\360\n/\013o\013\257\013\357\013.\fn\f\256\f\356\f-\rm\r\255\r\355\r,\016l\016\254\016\354\016+\017k\017\253\017\353\017*\020j\020K\020\013\020\313\017\214\017L\017\f\017\314\016\215\016M\016\r\016\315\r\216\rN\r\016\r\316\f\217\fO\f\017\f\317\013\220\013P\013\260\013\360\013/\fo\f\257\f\357\f.\rn\r\256\r\356\r-\016m\016\255\016\355\016,\017l\017\254\017\354\017+\020k\020L\020\f\020\314\017\215\017M\017\r\017\315\016\216\016N\016\016\016\316\r\217\rO\r\017\r\317\f\220\fP\f\260\f\360\f/\ro\r\257\r\357\r.\016n\016\256\016\356\016-\017m\017\255\017\355\017,\020l\020M\020\r\020\315\017\216\017N\017\016\017\316\016\217\016O\016\017\016\317\r\220\rP\r\260\r\360\r/\016o\016\257\016\357\016.\017n\017\256\017\356\017-\020m\020N\020\016\020\316\017\217\017O\017\017\017\317\016\220\016P\016\260\016\360\016/\017o\017\257\017\357\017.\020n\020O\020\017\020\317\017\220\017P\017\260\017\360\017/\020o\020P\020"

	.p2align	1, 0x0
.Lstatic.20:
	.asciz	" \000\020\000\000\000\b\000\030\000(\000\300\001!\000\021\000\001\000\031\000)"

	.p2align	1, 0x0
.Lstatic.21:
	.asciz	"\300\001\020\000\000\000\b\000\030\000(\000!\000\021\000\001\000\t\000\031\000)\000\"\000\022\000\002\000\n\000\032\000*\000#\000\023\000+"

	.p2align	1, 0x0
.Lstatic.22:
	.asciz	"\300\001\020\000\000\000\b\000\030\000(\000!\000\021\000\001\000\t\000\031\000)\000\"\000\022\000\002\000\n\000\032\000*\000#\000\023\000\003\000\013\000\033\000+\000$\000\024\000\004\000\f\000\034\000,\000%\000\025\000-"

	.p2align	1, 0x0
.Lstatic.23:
	.asciz	" \000\020\000\000\000\b\000\030\000(\000\300\001!\000\021\000\001\000\t\000\031\000)\000\"\000\022\000\002\000\n\000\032\000*\000#\000\023\000\003\000\013\000\033\000+\000$\000\024\000\004\000\f\000\034\000,\000%\000\025\000\005\000\r\000\035\000-\000&\000\026\000\006\000\036\000."

	.p2align	1, 0x0
.Lstatic.24:
	.asciz	"@\000 \000\000\000\020\0000\000P\000\200\007A\000!\000\001\000\021\0001\000Q\000B\000\"\000\002\000\022\0002\000R\000C\000#\000\003\000\023\0003\000S\000D\000$\000\004\000\024\0004\000T\000E\000%\000\005\000\025\0005\000U\000F\000&\000\006\000\026\0006\000V\000G\000'\000\007\000\027\0007\000W\000H\000(\000\b\0008\000X"

	.p2align	1, 0x0
.Lstatic.25:
	.asciz	"@\000 \000\000\000\020\0000\000P\000\200\007A\000!\000\001\000\021\0001\000Q\000B\000\"\000\002\000\022\0002\000R\000C\000#\000\003\000\023\0003\000S\000D\000$\000\004\000\024\0004\000T\000E\000%\000\005\000\025\0005\000U\000F\000&\000\006\000\026\0006\000V\000G\000'\000\007\000\027\0007\000W\000H\000(\000\b\000\030\0008\000X\000I\000)\000\t\000\031\0009\000Y\000J\000*\000\n\000:\000Z"

	.p2align	1, 0x0
.Lstatic.26:
	.asciz	"\200\007 \000\000\000\020\0000\000P\000A\000!\000\001\000\021\0001\000Q\000B\000\"\000\002\000\022\0002\000R\000C\000#\000\003\000\023\0003\000S\000D\000$\000\004\000\024\0004\000T\000E\000%\000\005\000\025\0005\000U\000F\000&\000\006\000\026\0006\000V\000G\000'\000\007\000\027\0007\000W\000H\000(\000\b\000\030\0008\000X\000I\000)\000\t\000\031\0009\000Y\000J\000*\000\n\000\032\000:\000Z\000K\000+\000\013\000\033\000;\000[\000L\000,\000\f\000\034\000<\000\\\000M\000-\000]"

	.p2align	1, 0x0
.Lstatic.27:
	.asciz	"\200\020@\000\000\000 \000`\000\240\000\201\000A\000\001\000!\000a\000\241\000\202\000B\000\002\000\"\000b\000\242\000\203\000C\000\003\000#\000c\000\243\000\204\000D\000\004\000$\000d\000\244\000\205\000E\000\005\000%\000e\000\245\000\206\000F\000\006\000&\000f\000\246\000\207\000G\000\007\000'\000g\000\247\000\210\000H\000\b\000(\000h\000\250\000\211\000I\000\t\000)\000i\000\251\000\212\000J\000\n\000*\000j\000\252\000\213\000K\000\013\000+\000k\000\253\000\214\000L\000\f\000,\000l\000\254\000\215\000M\000\r\000-\000m\000\255\000\216\000N\000\016\000.\000n\000\256\000\217\000O\000\017\000/\000o\000\257\000\220\000P\000\260"

	.p2align	1, 0x0
.Lstatic.28:
	.asciz	" \000\020\000\000\000\b\000\030\000(\0008\000@\0000\000!\000\021\000\001\000\t\000\031\000)\0009\000H\000A\0001\000\"\000\022\000\002\000\n\000\032\000*\000:\000I\000B\0002\000J"

	.p2align	1, 0x0
.Lstatic.29:
	.asciz	" \000\020\000\000\000\b\000\030\000(\0008\000@\0000\000!\000\021\000\001\000\t\000\031\000)\0009\000H\000A\0001\000\"\000\022\000\002\000\n\000\032\000*\000:\000I\000B\0002\000#\000\023\000\003\000\013\000\033\000+\000;\000J\000C\0003\000K"

	.p2align	1, 0x0
.Lstatic.30:
	.asciz	" \000\020\000\000\000\b\000\030\000(\0008\000@\0000\000!\000\021\000\001\000\t\000\031\000)\0009\000H\000A\0001\000\"\000\022\000\002\000\n\000\032\000*\000:\000I\000B\0002\000#\000\023\000\003\000\013\000\033\000+\000;\000J\000C\0003\000$\000\024\000\004\000\f\000\034\000,\000<\000K\000D\0004\000%\000\025\000\005\000\r\000\035\000-\000=\000L\000E\0005\000&\000\026\000\006\000\016\000\036\000.\000>\000M\000F\0006\000N"

	.p2align	1, 0x0
.Lstatic.31:
	.asciz	"@\000 \000\000\000\020\0000\000P\000p\000\200\000`\000A\000!\000\001\000\021\0001\000Q\000q\000\220\000\201\000a\000B\000\"\000\002\000\022\0002\000R\000r\000\221\000\202\000b\000C\000#\000\003\000\023\0003\000S\000s\000\222\000\203\000c\000D\000$\000\004\000\024\0004\000T\000t\000\223\000\204\000d\000E\000%\000\005\000\025\0005\000U\000u\000\224\000\205\000e\000F\000&\000\006\000\026\0006\000V\000v\000\225\000\206\000f\000G\000'\000\007\000\027\0007\000W\000w\000\226\000\207\000g\000H\000(\000\b\000\030\0008\000X\000x\000\227\000\210\000h\000I\000)\000\t\000\031\0009\000Y\000y\000\230\000\211\000i\000\231"

	.p2align	1, 0x0
.Lstatic.32:
	.asciz	" \000\020\000\000\000\b\000\030\000(\0008\000`\000P\000@\0000\000!\000\021\000\001\000\t\000\031\000)\0009\000H\000X\000h\000\300\001a\000Q\000A\0001\000\"\000\022\000\002\000\n\000\032\000*\000:\000I\000Y\000i\000b\000R\000B\0002\000#\000\023\000\003\000\033\000+\000;\000J\000Z\000j\000c\000S\000C\0003\000K\000[\000k"

	.p2align	1, 0x0
.Lstatic.33:
	.asciz	" \000\020\000\000\000\b\000\030\000(\0008\000\300\001P\000@\0000\000!\000\021\000\001\000\t\000\031\000)\0009\000H\000X\000h\000a\000Q\000A\0001\000\"\000\022\000\002\000\n\000\032\000*\000:\000I\000Y\000i\000b\000R\000B\0002\000#\000\023\000\003\000\013\000\033\000+\000;\000J\000Z\000j\000c\000S\000C\0003\000$\000\024\000\004\000\f\000\034\000,\000<\000K\000[\000k\000d\000T\000D\0004\000%\000\025\000-\000=\000L\000\\\000l\000e\000U\000m"

	.p2align	1, 0x0
.Lstatic.34:
	.asciz	" \000\020\000\000\000\b\000\030\000(\0008\000`\000P\000@\0000\000!\000\021\000\001\000\t\000\031\000)\0009\000H\000X\000h\000\300\001a\000Q\000A\0001\000\"\000\022\000\002\000\n\000\032\000*\000:\000I\000Y\000i\000b\000R\000B\0002\000#\000\023\000\003\000\013\000\033\000+\000;\000J\000Z\000j\000c\000S\000C\0003\000$\000\024\000\004\000\f\000\034\000,\000<\000K\000[\000k\000d\000T\000D\0004\000%\000\025\000\005\000\r\000\035\000-\000=\000L\000\\\000l\000e\000U\000E\0005\000&\000\026\000\006\000\036\000.\000>\000M\000]\000m\000f\000V\000F\0006\000N\000^\000n"

	.p2align	1, 0x0
.Lstatic.35:
	.asciz	" \000\020\000\000\000\b\000\030\000(\0008\000`\000P\000@\0000\000!\000\021\000\001\000\t\000\031\000)\0009\000H\000X\000h\000x\000\200\000p\000a\000Q\000A\0001\000\"\000\022\000\002\000\n\000\032\000*\000:\000I\000Y\000i\000y\000\210\000\201\000q\000b\000R\000B\0002\000#\000\023\000\003\000\013\000\033\000+\000;\000J\000Z\000j\000z\000\211\000\202\000r\000c\000S\000C\0003\000K\000[\000k\000{\000\212\000\203\000s\000\213"

	.p2align	1, 0x0
.Lstatic.36:
	.asciz	" \000\020\000\000\000\b\000\030\000(\0008\000`\000P\000@\0000\000!\000\021\000\001\000\t\000\031\000)\0009\000H\000X\000h\000x\000\200\000p\000a\000Q\000A\0001\000\"\000\022\000\002\000\n\000\032\000*\000:\000I\000Y\000i\000y\000\210\000\201\000q\000b\000R\000B\0002\000#\000\023\000\003\000\013\000\033\000+\000;\000J\000Z\000j\000z\000\211\000\202\000r\000c\000S\000C\0003\000$\000\024\000\004\000\f\000\034\000,\000<\000K\000[\000k\000{\000\212\000\203\000s\000d\000T\000D\0004\000L\000\\\000l\000|\000\213\000\204\000t\000\214"

	.p2align	1, 0x0
.Lstatic.37:
	.asciz	" \000\020\000\000\000\b\000\030\000(\0008\000`\000P\000@\0000\000!\000\021\000\001\000\t\000\031\000)\0009\000H\000X\000h\000x\000\200\000p\000a\000Q\000A\0001\000\"\000\022\000\002\000\n\000\032\000*\000:\000I\000Y\000i\000y\000\210\000\201\000q\000b\000R\000B\0002\000#\000\023\000\003\000\013\000\033\000+\000;\000J\000Z\000j\000z\000\211\000\202\000r\000c\000S\000C\0003\000$\000\024\000\004\000\f\000\034\000,\000<\000K\000[\000k\000{\000\212\000\203\000s\000d\000T\000D\0004\000%\000\025\000\005\000\r\000\035\000-\000=\000L\000\\\000l\000|\000\213\000\204\000t\000e\000U\000E\0005\000&\000\026\000\006\000\016\000\036\000.\000>\000M\000]\000m\000}\000\214\000\205\000u\000f\000V\000F\0006\000N\000^\000n\000~\000\215\000\206\000v\000\216"

	.p2align	1, 0x0
.Lstatic.38:
	.asciz	" \000\020\000\000\000\b\000\030\000(\0008\000`\000P\000@\0000\000!\000\021\000\001\000\t\000\031\000)\0009\000H\000X\000h\000x\000\300\001\220\000\200\000p\000a\000Q\000A\0001\000\"\000\022\000\002\000\n\000\032\000*\000:\000I\000Y\000i\000y\000\210\000\230\000\221\000\201\000q\000b\000R\000B\0002\000#\000\023\000\003\000\013\000\033\000+\000;\000J\000Z\000j\000z\000\211\000\231\000\222\000\202\000r\000c\000S\000C\0003\000$\000\024\000\004\000\f\000\034\000,\000<\000K\000[\000k\000{\000\212\000\232\000\223\000\203\000s\000d\000T\000D\0004\000%\000\025\000-\000=\000L\000\\\000l\000|\000\213\000\233\000\224\000\204\000t\000e\000U\000m\000}\000\214\000\234\000\225"

	.p2align	1, 0x0
.Lstatic.39:
	.asciz	" \000\020\000\000\000\b\000\030\000(\0008\000`\000P\000@\0000\000!\000\021\000\001\000\t\000\031\000)\0009\000H\000X\000h\000x\000\300\001\220\000\200\000p\000a\000Q\000A\0001\000\"\000\022\000\002\000\n\000\032\000*\000:\000I\000Y\000i\000y\000\210\000\230\000\250\000\241\000\221\000\201\000q\000b\000R\000B\0002\000#\000\023\000\003\000\013\000\033\000+\000;\000J\000Z\000j\000z\000\211\000\231\000\251\000\242\000\222\000\202\000r\000c\000S\000C\0003\000$\000\024\000\004\000\f\000\034\000,\000<\000K\000[\000k\000{\000\212\000\232\000\252\000\243\000\223\000\203\000s\000d\000T\000D\0004\000%\000\025\000-\000=\000L\000\\\000l\000|\000\213\000\233\000\253\000\244\000\224\000\204\000t\000e\000U\000m\000}\000\214\000\234\000\254\000\245\000\225\000\255"

	.p2align	1, 0x0
.Lstatic.40:
	.asciz	" \000\020\000\000\000\b\000\030\000(\0008\000`\000P\000@\0000\000!\000\021\000\001\000\t\000\031\000)\0009\000H\000X\000h\000x\000\240\000\220\000\200\000p\000a\000Q\000A\0001\000\"\000\022\000\002\000\n\000\032\000*\000:\000I\000Y\000i\000y\000\210\000\230\000\250\000\300\001\241\000\221\000\201\000q\000b\000R\000B\0002\000#\000\023\000\003\000\013\000\033\000+\000;\000J\000Z\000j\000z\000\211\000\231\000\251\000\242\000\222\000\202\000r\000c\000S\000C\0003\000$\000\024\000\004\000\f\000\034\000,\000<\000K\000[\000k\000{\000\212\000\232\000\252\000\243\000\223\000\203\000s\000d\000T\000D\0004\000%\000\025\000\005\000\r\000\035\000-\000=\000L\000\\\000l\000|\000\213\000\233\000\253\000\244\000\224\000\204\000t\000e\000U\000E\0005\000&\000\026\000\006\000\036\000.\000>\000M\000]\000m\000}\000\214\000\234\000\254\000\245\000\225\000\205\000u\000f\000V\000F\0006\000N\000^\000n\000~\000\215\000\235\000\255\000\246\000\226\000\206\000v\000\216\000\236\000\256"

	.p2align	1, 0x0
.Lstatic.41:
	.asciz	" \000\020\000\000\000\b\000\030\000(\0008\000`\000P\000@\0000\000!\000\021\000\001\000\t\000\031\000)\0009\000H\000X\000h\000x\000\240\000\220\000\200\000p\000a\000Q\000A\0001\000\"\000\022\000\002\000\n\000\032\000*\000:\000I\000Y\000i\000y\000\210\000\230\000\250\000\270\000\260\000\241\000\221\000\201\000q\000b\000R\000B\0002\000#\000\023\000\003\000\013\000\033\000+\000;\000J\000Z\000j\000z\000\211\000\231\000\251\000\271\000\261\000\242\000\222\000\202\000r\000c\000S\000C\0003\000$\000\024\000,\000<\000K\000[\000k\000{\000\212\000\232\000\252\000\272\000\262\000\243\000\223\000\203\000s\000d\000T\000l\000|\000\213\000\233\000\253\000\273\000\263\000\244\000\224\000\254\000\274"

	.p2align	1, 0x0
.Lstatic.42:
	.asciz	" \000\020\000\000\000\b\000\030\000(\0008\000`\000P\000@\0000\000!\000\021\000\001\000\t\000\031\000)\0009\000H\000X\000h\000x\000\240\000\220\000\200\000p\000a\000Q\000A\0001\000\"\000\022\000\002\000\n\000\032\000*\000:\000I\000Y\000i\000y\000\210\000\230\000\250\000\270\000\260\000\241\000\221\000\201\000q\000b\000R\000B\0002\000#\000\023\000\003\000\013\000\033\000+\000;\000J\000Z\000j\000z\000\211\000\231\000\251\000\271\000\261\000\242\000\222\000\202\000r\000c\000S\000C\0003\000$\000\024\000\004\000\f\000\034\000,\000<\000K\000[\000k\000{\000\212\000\232\000\252\000\272\000\262\000\243\000\223\000\203\000s\000d\000T\000D\0004\000%\000\025\000-\000=\000L\000\\\000l\000|\000\213\000\233\000\253\000\273\000\263\000\244\000\224\000\204\000t\000e\000U\000m\000}\000\214\000\234\000\254\000\274\000\264\000\245\000\225\000\255\000\275"

	.p2align	1, 0x0
.Lstatic.43:
	.asciz	" \000\020\000\000\000\b\000\030\000(\0008\000`\000P\000@\0000\000!\000\021\000\001\000\t\000\031\000)\0009\000H\000X\000h\000x\000\240\000\220\000\200\000p\000a\000Q\000A\0001\000\"\000\022\000\002\000\n\000\032\000*\000:\000I\000Y\000i\000y\000\210\000\230\000\250\000\270\000\260\000\241\000\221\000\201\000q\000b\000R\000B\0002\000#\000\023\000\003\000\013\000\033\000+\000;\000J\000Z\000j\000z\000\211\000\231\000\251\000\271\000\261\000\242\000\222\000\202\000r\000c\000S\000C\0003\000$\000\024\000\004\000\f\000\034\000,\000<\000K\000[\000k\000{\000\212\000\232\000\252\000\272\000\262\000\243\000\223\000\203\000s\000d\000T\000D\0004\000%\000\025\000\005\000\r\000\035\000-\000=\000L\000\\\000l\000|\000\213\000\233\000\253\000\273\000\263\000\244\000\224\000\204\000t\000e\000U\000E\0005\000&\000\026\000\006\000\016\000\036\000.\000>\000M\000]\000m\000}\000\214\000\234\000\254\000\274\000\264\000\245\000\225\000\205\000u\000f\000V\000F\0006\000N\000^\000n\000~\000\215\000\235\000\255\000\275\000\265\000\246\000\226\000\206\000v\000\216\000\236\000\256\000\276\000\266"

.Lstatic.44:
	.ascii	"\000\000\000\000\000\000\000\000\000\000\000\000\000\000\000\000\000\001\002\003\004\005\006\007\b\t\n\013\f\r\016\017\000\002\004\006\b\n\f\016\020\022\024\026\030\032\034\036\000\003\006\005\f\017\n\t\030\033\036\035\024\027\022\021\000\004\b\f\020\024\030\034 $(,048<\000\005\n\017\024\021\036\033(-\"'<963\000\006\f\n\030\036\024\02206<:(.$\"\000\007\016\t\034\033\022\0258?61$#*-\000\b\020\030 (08@HPX`hpx\000\t\022\033$-6?HAZSle~w\000\n\024\036(\"<6PZDNxrlf\000\013\026\035,':1XSNEt\177bi\000\f\030\0240<($`lxtP\\HD\000\r\032\02749.#her\177\\QFK\000\016\034\02286$*p~lbHFTZ\000\017\036\021<3\"-xwfiDKZU\000\020 0@P`p\200\220\240\260\300\320\340\360\000\021\"3DUfw\210\231\252\273\314\335\356\377\000\022$6HZl~\220\202\264\246\330\312\374\356\000\023&5L_jy\230\213\276\255\324\307\362\341\000\024(<PDxl\240\264\210\234\360\344\330\314\000\025*?TA~k\250\275\202\227\374\351\326\303\000\026,:XNtb\260\246\234\212\350\376\304\322\000\027.9\\Kre\270\257\226\201\344\363\312\335\000\0300(`xPH\300\330\360\350\240\270\220\210\000\0312+d}VO\310\321\372\343\254\265\236\207\000\0324.hr\\F\320\312\344\376\270\242\214\226\000\0336-lwZA\330\303\356\365\264\257\202\231\000\0348$plHT\340\374\330\304\220\214\250\264\000\035:'tiNS\350\365\322\317\234\201\246\273\000\036<\"xfDZ\360\356\314\322\210\226\264\252\000\037>!|cB]\370\347\306\331\204\233\272\245\000 @`\200\240\300\340-\rmM\255\215\355\315\000!Bc\204\245\306\347%\004gF\241\200\343\302\000\"Df\210\252\314\356=\037y[\265\227\361\323\000#Fe\214\257\312\3515\026sP\271\232\377\334\000$Hl\220\264\330\374\r)Ea\235\271\325\361\000%Jo\224\261\336\373\005 Oj\221\264\333\376\000&Lj\230\276\324\362\035;Qw\205\243\311\357\000'Ni\234\273\322\365\0252[|\211\256\307\340\000(Px\240\210\360\330mE=\025\315\345\235\265\000)R{\244\215\366\337eL7\036\301\350\223\272\000*T~\250\202\374\326}W)\003\325\377\201\253\000+V}\254\207\372\321u^#\b\331\362\217\244\000,Xt\260\234\350\304Ma\0259\375\321\245\211\000-Zw\264\231\356\303Eh\0372\361\334\253\206\000.\\r\270\226\344\312]s\001/\345\313\271\227\000/^q\274\223\342\315Uz\013$\351\306\267\230\0000`P\300\360\240\220\255\235\315\375m]\r=\0001bS\304\365\246\227\245\224\307\366aP\0032\0002dV\310\372\254\236\275\217\331\353uG\021#\0003fU\314\377\252\231\265\206\323\340yJ\037,\0004h\\\320\344\270\214\215\271\345\321]i5\001\0005j_\324\341\276\213\205\260\357\332Qd;\016\0006lZ\330\356\264\202\235\253\361\307Es)\037\0007nY\334\353\262\205\225\242\373\314I~'\020\0008pH\340\330\220\250\355\325\235\245\r5}E\0009rK\344\335\226\257\345\334\227\256\0018sJ\000:tN\350\322\234\246\375\307\211\263\025/a[\000;vM\354\327\232\241\365\316\203\270\031\"oT\000<xD\360\314\210\264\315\361\265\211=\001Ey\000=zG\364\311\216\263\305\370\277\2021\fKv\000>|B\370\306\204\272\335\343\241\237%\033Yg\000?~A\374\303\202\275\325\352\253\224)\026Wh\000@\200\300-m\255\355Z\032\332\232w7\367\267\000A\202\303)h\253\352R\023\320\221{:\371\270\000B\204\306%g\241\343J\b\316\214o-\353\251\000C\206\305!b\247\344B\001\304\207c \345\246\000D\210\314=y\265\361z>\362\266G\003\317\213\000E\212\3179|\263\366r7\370\275K\016\301\204\000F\214\3125s\271\377j,\346\240_\031\323\225\000G\216\3111v\277\370b%\354\253S\024\335\232\000H\220\330\rE\235\325\032R\212\302\027_\207\317\000I\222\333\t@\233\322\022[\200\311\033R\211\300\000J\224\336\005O\221\333\n@\236\324\017E\233\321\000K\226\335\001J\227\334\002I\224\337\003H\225\336\000L\230\324\035Q\205\311:v\242\356'k\277\363\000M\232\327\031T\203\3162\177\250\345+f\261\374\000N\234\322\025[\211\307*d\266\370?q\243\355\000O\236\321\021^\217\300\"m\274\3633|\255\342\000P\240\360m=\315\235\332\212z*\267\347\027G\000Q\242\363i8\313\232\322\203p!\273\352\031H\000R\244\366e7\301\223\312\230n<\257\375\013Y\000S\246\365a2\307\224\302\221d7\243\360\005V\000T\250\374})\325\201\372\256R\006\207\323/{\000U\252\377y,\323\206\362\247X\r\213\336!t\000V\254\372u#\331\217\352\274F\020\237\3113e\000W\256\371q&\337\210\342\265L\033\223\304=j\000X\260\350M\025\375\245\232\302*r\327\217g?\000Y\262\353I\020\373\242\222\313 y\333\202i0\000Z\264\356E\037\361\253\212\320>d\317\225{!\000[\266\355A\032\367\254\202\3314o\303\230u.\000\\\270\344]\001\345\271\272\346\002^\347\273_\003\000]\272\347Y\004\343\276\262\357\bU\353\266Q\f\000^\274\342U\013\351\267\252\364\026H\377\241C\035\000_\276\341Q\016\357\260\242\375\034C\363\254M\022\000`\300\240\255\315m\rw\027\267\327\332\272\032z\000a\302\243\251\310k\n\177\036\275\334\326\267\024u\000b\304\246\245\307a\003g\005\243\301\302\240\006d\000c\306\245\241\302g\004o\f\251\312\316\255\bk\000d\310\254\275\331u\021W3\237\373\352\216\"F\000e\312\257\271\334s\026_:\225\360\346\203,I\000f\314\252\265\323y\037G!\213\355\362\224>X\000g\316\251\261\326\177\030O(\201\346\376\2310W\000h\320\270\215\345]57_\347\217\272\322j\002\000i\322\273\211\340[2?V\355\204\266\337d\r\000j\324\276\205\357Q;'M\363\231\242\310v\034\000k\326\275\201\352W</D\371\222\256\305x\023\000l\330\264\235\361E)\027{\317\243\212\346R>\000m\332\267\231\364C.\037r\305\250\206\353\\1\000n\334\262\225\373I'\007i\333\265\222\374N \000o\336\261\221\376O \017`\321\276\236\361@/\000p\340\220\355\235\r}\367\207\027g\032j\372\212\000q\342\223\351\230\013z\377\216\035l\026g\364\205\000r\344\226\345\227\001s\347\225\003q\002p\346\224\000s\346\225\341\222\007t\357\234\tz\016}\350\233\000t\350\234\375\211\025a\327\243?K*^\302\266\000u\352\237\371\214\023f\337\2525@&S\314\271\000v\354\232\365\203\031o\307\261+]2D\336\250\000w\356\231\361\206\037h\317\270!V>I\320\247\000x\360\210\315\265=E\267\317G?z\002\212\362\000y\362\213\311\260;B\277\306M4v\017\204\375\000z\364\216\305\2771K\247\335S)b\030\226\354\000{\366\215\301\2727L\257\324Y\"n\025\230\343\000|\370\204\335\241%Y\227\353o\023J6\262\316\000}\372\207\331\244#^\237\342e\030F;\274\301\000~\374\202\325\253)W\207\371{\005R,\256\320\000\177\376\201\321\256/P\217\360q\016^!\240\337\000\200-\255Z\332w\367\2644\231\031\356n\303C\000\201/\256^\337q\360\274=\223\022\342c\315L\000\202)\253R\320{\371\244&\215\017\366t\337]\000\203+\250V\325}\376\254/\207\004\372y\321R\000\204%\241J\316o\353\224\020\2615\336Z\373\177\000\205'\242N\313i\354\234\031\273>\322W\365p\000\206!\247B\304c\345\204\002\245#\306@\347a\000\207#\244F\301e\342\214\013\257(\312M\351n\000\210=\265z\362G\317\364|\311A\216\006\263;\000\211?\266~\367A\310\374u\303J\202\013\2754\000\2129\263r\370K\301\344n\335W\226\034\257%\000\213;\260v\375M\306\354g\327\\\232\021\241*\000\2145\271j\346_\323\324X\341m\2762\213\007\000\2157\272n\343Y\324\334Q\353f\262?\205\b\000\2161\277b\354S\335\304J\365{\246(\227\031\000\2173\274f\351U\332\314C\377p\252%\231\026\000\220\r\235\032\212\027\2074\2449\251.\276#\263\000\221\017\236\036\217\021\200<\2553\242\"\263-\274\000\222\t\233\022\200\033\211$\266-\2776\244?\255\000\223\013\230\026\205\035\216,\277'\264:\2511\242\000\224\005\221\n\236\017\233\024\200\021\205\036\212\033\217\000\225\007\222\016\233\t\234\034\211\033\216\022\207\025\200\000\226\001\227\002\224\003\225\004\222\005\223\006\220\007\221\000\227\003\224\006\221\005\222\f\233\017\230\n\235\t\236\000\230\035\205:\242'\277t\354i\361N\326S\313\000\231\037\206>\247!\270|\345c\372B\333]\304\000\232\031\2032\250+\261d\376}\347V\314O\325\000\233\033\2006\255-\266l\367w\354Z\301A\332\000\234\025\211*\266?\243T\310A\335~\342k\367\000\235\027\212.\2639\244\\\301K\326r\357e\370\000\236\021\217\"\2743\255D\332U\313f\370w\351\000\237\023\214&\2715\252L\323_\300j\365y\346\000\240m\315\332z\267\027\2319\364TC\343.\216\000\241o\316\336\177\261\020\2210\376_O\356 \201\000\242i\313\322p\273\031\211+\340B[\3712\220\000\243k\310\326u\275\036\201\"\352IW\364<\237\000\244e\301\312n\257\013\271\035\334xs\327\026\262\000\245g\302\316k\251\f\261\024\326s\177\332\030\275\000\246a\307\302d\243\005\251\017\310nk\315\n\254\000\247c\304\306a\245\002\241\006\302eg\300\004\243\000\250}\325\372R\207/\331q\244\f#\213^\366\000\251\177\326\376W\201(\321x\256\007/\206P\371\000\252y\323\362X\213!\311c\260\032;\221B\350\000\253{\320\366]\215&\301j\272\0217\234L\347\000\254u\331\352F\2373\371U\214 \023\277f\312\000\255w\332\356C\2314\361\\\206+\037\262h\305\000\256q\337\342L\223=\351G\2306\013\245z\324\000\257s\334\346I\225:\341N\222=\007\250t\333\000\260M\375\232*\327g\031\251T\344\2033\316~\000\261O\376\236/\321`\021\240^\357\217>\300q\000\262I\373\222 \333i\t\273@\362\233)\322`\000\263K\370\226%\335n\001\262J\371\227$\334o\000\264E\361\212>\317{9\215|\310\263\007\366B\000\265G\362\216;\311|1\204v\303\277\n\370M\000\266A\367\2024\303u)\237h\336\253\035\352\\\000\267C\364\2061\305r!\226b\325\247\020\344S\000\270]\345\272\002\347_Y\341\004\274\343[\276\006\000\271_\346\276\007\341XQ\350\016\267\357V\260\t\000\272Y\343\262\b\353QI\363\020\252\373A\242\030\000\273[\340\266\r\355VA\372\032\241\367L\254\027\000\274U\351\252\026\377Cy\305,\220\323o\206:\000\275W\352\256\023\371Dq\314&\233\337b\2105\000\276Q\357\242\034\363Mi\3278\206\313u\232$\000\277S\354\246\031\365Ja\3362\215\307x\224+\000\300\255mw\267\332\032\356.C\203\231Y4\364\000\301\257ns\262\334\035\346'I\210\225T:\373\000\302\251k\177\275\326\024\376<W\225\201C(\352\000\303\253h{\270\320\023\3665]\236\215N&\345\000\304\245ag\243\302\006\316\nk\257\251m\f\310\000\305\247bc\246\304\001\306\003a\244\245`\002\307\000\306\241go\251\316\b\336\030\177\271\261w\020\326\000\307\243dk\254\310\017\326\021u\262\275z\036\331\000\310\275uW\237\352\"\256f\023\333\3711D\214\000\311\277vS\232\354%\246o\031\320\365<J\203\000\312\271s_\225\346,\276t\007\315\341+X\222\000\313\273p[\220\340+\266}\r\306\355&V\235\000\314\265yG\213\362>\216B;\367\311\005|\260\000\315\267zC\216\3649\206K1\374\305\br\277\000\316\261\177O\201\3760\236P/\341\321\037`\256\000\317\263|K\204\3707\226Y%\352\335\022n\241\000\320\215]7\347\272jn\276\3433Y\211\324\004\000\321\217^3\342\274mf\267\3518U\204\332\013\000\322\211[?\355\266d~\254\367%A\223\310\032\000\323\213X;\350\260cv\245\375.M\236\306\025\000\324\205Q'\363\242vN\232\313\037i\275\3548\000\325\207R#\366\244qF\223\301\024e\260\3427\000\326\201W/\371\256x^\210\337\tq\247\360&\000\327\203T+\374\250\177V\201\325\002}\252\376)\000\330\235E\027\317\212R.\366\263k9\341\244|\000\331\237F\023\312\214U&\377\271`5\354\252s\000\332\231C\037\305\206\\>\344\247}!\373\270b\000\333\233@\033\300\200[6\355\255v-\366\266m\000\334\225I\007\333\222N\016\322\233G\t\325\234@\000\335\227J\003\336\224I\006\333\221L\005\330\222O\000\336\221O\017\321\236@\036\300\217Q\021\317\200^\000\337\223L\013\324\230G\026\311\205Z\035\302\216Q\000\340\355\r\367\027\032\372\303#.\3164\324\3319\000\341\357\016\363\022\034\375\313*$\3058\331\3276\000\342\351\013\377\035\026\364\3231:\330,\316\305'\000\343\353\b\373\030\020\363\33380\323 \303\313(\000\344\345\001\347\003\002\346\343\007\006\342\004\340\341\005\000\345\347\002\343\006\004\341\353\016\f\351\b\355\357\n\000\346\341\007\357\t\016\350\363\025\022\364\034\372\375\033\000\347\343\004\353\f\b\357\373\034\030\377\020\367\363\024\000\350\375\025\327?*\302\203k~\226T\274\251A\000\351\377\026\323:,\305\213bt\235X\261\247N\000\352\371\023\3375&\314\223yj\200L\246\265_\000\353\373\020\3330 \313\233p`\213@\253\273P\000\354\365\031\307+2\336\243OV\272d\210\221}\000\355\367\032\303.4\331\253F\\\261h\205\237r\000\356\361\037\317!>\320\263]B\254|\222\215c\000\357\363\034\313$8\327\273TH\247p\237\203l\000\360\315=\267Gz\212C\263\216~\364\0049\311\000\361\317>\263B|\215K\272\204u\370\t7\306\000\362\311;\277Mv\204S\241\232h\354\036%\327\000\363\3138\273Hp\203[\250\220c\340\023+\330\000\364\3051\247Sb\226c\227\246R\3040\001\365\000\365\3072\243Vd\221k\236\254Y\310=\017\372\000\366\3017\257Yn\230s\205\262D\334*\035\353\000\367\3034\253\\h\237{\214\270O\320'\023\344\000\370\335%\227oJ\262\003\373\336&\224lI\261\000\371\337&\223jL\265\013\362\324-\230aG\276\000\372\331#\237eF\274\023\351\3120\214vU\257\000\373\333 \233`@\273\033\340\300;\200{[\240\000\374\325)\207{R\256#\337\366\n\244Xq\215\000\375\327*\203~T\251+\326\374\001\250U\177\202\000\376\321/\217q^\2403\315\342\034\274Bm\223\000\377\323,\213tX\247;\304\350\027\260Oc\234"

.Lstatic.45:
	.ascii	"\000\000\000\000\000\000\000\000\000\000\000\000\000\000\000\000\000\020 0@P`p\200\220\240\260\300\320\340\360\000 @`\200\240\300\340-\rmM\255\215\355\315\0000`P\300\360\240\220\255\235\315\375m]\r=\000@\200\300-m\255\355Z\032\332\232w7\367\267\000P\240\360m=\315\235\332\212z*\267\347\027G\000`\300\240\255\315m\rw\027\267\327\332\272\032z\000p\340\220\355\235\r}\367\207\027g\032j\372\212\000\200-\255Z\332w\367\2644\231\031\356n\303C\000\220\r\235\032\212\027\2074\2449\251.\276#\263\000\240m\315\332z\267\027\2319\364TC\343.\216\000\260M\375\232*\327g\031\251T\344\2033\316~\000\300\255mw\267\332\032\356.C\203\231Y4\364\000\320\215]7\347\272jn\276\3433Y\211\324\004\000\340\355\r\367\027\032\372\303#.\3164\324\3319\000\360\315=\267Gz\212C\263\216~\364\0049\311\000-Zw\264\231\356\303Eh\0372\361\334\253\206\000=zG\364\311\216\263\305\370\277\2021\fKv\000\r\032\02749.#her\177\\QFK\000\035:'tiNS\350\365\322\317\234\201\246\273\000m\332\267\231\364C.\037r\305\250\206\353\\1\000}\372\207\331\244#^\237\342e\030F;\274\301\000M\232\327\031T\203\3162\177\250\345+f\261\374\000]\272\347Y\004\343\276\262\357\bU\353\266Q\f\000\255w\332\356C\2314\361\\\206+\037\262h\305\000\275W\352\256\023\371Dq\314&\233\337b\2105\000\2157\272n\343Y\324\334Q\353f\262?\205\b\000\235\027\212.\2639\244\\\301K\326r\357e\370\000\355\367\032\303.4\331\253F\\\261h\205\237r\000\375\327*\203~T\251+\326\374\001\250U\177\202\000\315\267zC\216\3649\206K1\374\305\br\277\000\335\227J\003\336\224I\006\333\221L\005\330\222O\000Z\264\356E\037\361\253\212\320>d\317\225{!\000J\224\336\005O\221\333\n@\236\324\017E\233\321\000z\364\216\305\2771K\247\335S)b\030\226\354\000j\324\276\205\357Q;'M\363\231\242\310v\034\000\0324.hr\\F\320\312\344\376\270\242\214\226\000\n\024\036(\"<6PZDNxrlf\000:tN\350\322\234\246\375\307\211\263\025/a[\000*T~\250\202\374\326}W)\003\325\377\201\253\000\332\231C\037\305\206\\>\344\247}!\373\270b\000\312\271s_\225\346,\276t\007\315\341+X\222\000\372\331#\237eF\274\023\351\3120\214vU\257\000\352\371\023\3375&\314\223yj\200L\246\265_\000\232\031\2032\250+\261d\376}\347V\314O\325\000\2129\263r\370K\301\344n\335W\226\034\257%\000\272Y\343\262\b\353QI\363\020\252\373A\242\030\000\252y\323\362X\213!\311c\260\032;\221B\350\000w\356\231\361\206\037h\317\270!V>I\320\247\000g\316\251\261\326\177\030O(\201\346\376\2310W\000W\256\371q&\337\210\342\265L\033\223\304=j\000G\216\3111v\277\370b%\354\253S\024\335\232\0007nY\334\353\262\205\225\242\373\314I~'\020\000'Ni\234\273\322\365\0252[|\211\256\307\340\000\027.9\\Kre\270\257\226\201\344\363\312\335\000\007\016\t\034\033\022\0258?61$#*-\000\367\3034\253\\h\237{\214\270O\320'\023\344\000\347\343\004\353\f\b\357\373\034\030\377\020\367\363\024\000\327\203T+\374\250\177V\201\325\002}\252\376)\000\307\243dk\254\310\017\326\021u\262\275z\036\331\000\267C\364\2061\305r!\226b\325\247\020\344S\000\247c\304\306a\245\002\241\006\302eg\300\004\243\000\227\003\224\006\221\005\222\f\233\017\230\n\235\t\236\000\207#\244F\301e\342\214\013\257(\312M\351n\000\264E\361\212>\317{9\215|\310\263\007\366B\000\244e\301\312n\257\013\271\035\334xs\327\026\262\000\224\005\221\n\236\017\233\024\200\021\205\036\212\033\217\000\204%\241J\316o\353\224\020\2615\336Z\373\177\000\364\3051\247Sb\226c\227\246R\3040\001\365\000\344\345\001\347\003\002\346\343\007\006\342\004\340\341\005\000\324\205Q'\363\242vN\232\313\037i\275\3548\000\304\245ag\243\302\006\316\nk\257\251m\f\310\0004h\\\320\344\270\214\215\271\345\321]i5\001\000$Hl\220\264\330\374\r)Ea\235\271\325\361\000\024(<PDxl\240\264\210\234\360\344\330\314\000\004\b\f\020\024\030\034 $(,048<\000t\350\234\375\211\025a\327\243?K*^\302\266\000d\310\254\275\331u\021W3\237\373\352\216\"F\000T\250\374})\325\201\372\256R\006\207\323/{\000D\210\314=y\265\361z>\362\266G\003\317\213\000\231\037\206>\247!\270|\345c\372B\333]\304\000\211?\266~\367A\310\374u\303J\202\013\2754\000\271_\346\276\007\341XQ\350\016\267\357V\260\t\000\251\177\326\376W\201(\321x\256\007/\206P\371\000\331\237F\023\312\214U&\377\271`5\354\252s\000\311\277vS\232\354%\246o\031\320\365<J\203\000\371\337&\223jL\265\013\362\324-\230aG\276\000\351\377\026\323:,\305\213bt\235X\261\247N\000\0312+d}VO\310\321\372\343\254\265\236\207\000\t\022\033$-6?HAZSle~w\0009rK\344\335\226\257\345\334\227\256\0018sJ\000)R{\244\215\366\337eL7\036\301\350\223\272\000Y\262\353I\020\373\242\222\313 y\333\202i0\000I\222\333\t@\233\322\022[\200\311\033R\211\300\000y\362\213\311\260;B\277\306M4v\017\204\375\000i\322\273\211\340[2?V\355\204\266\337d\r\000\356\361\037\317!>\320\263]B\254|\222\215c\000\376\321/\217q^\2403\315\342\034\274Bm\223\000\316\261\177O\201\3760\236P/\341\321\037`\256\000\336\221O\017\321\236@\036\300\217Q\021\317\200^\000\256q\337\342L\223=\351G\2306\013\245z\324\000\276Q\357\242\034\363Mi\3278\206\313u\232$\000\2161\277b\354S\335\304J\365{\246(\227\031\000\236\021\217\"\2743\255D\332U\313f\370w\351\000n\334\262\225\373I'\007i\333\265\222\374N \000~\374\202\325\253)W\207\371{\005R,\256\320\000N\234\322\025[\211\307*d\266\370?q\243\355\000^\274\342U\013\351\267\252\364\026H\377\241C\035\000.\\r\270\226\344\312]s\001/\345\313\271\227\000>|B\370\306\204\272\335\343\241\237%\033Yg\000\016\034\02286$*p~lbHFTZ\000\036<\"xfDZ\360\356\314\322\210\226\264\252\000\303\253h{\270\320\023\3665]\236\215N&\345\000\323\213X;\350\260cv\245\375.M\236\306\025\000\343\353\b\373\030\020\363\33380\323 \303\313(\000\363\3138\273Hp\203[\250\220c\340\023+\330\000\203+\250V\325}\376\254/\207\004\372y\321R\000\223\013\230\026\205\035\216,\277'\264:\2511\242\000\243k\310\326u\275\036\201\"\352IW\364<\237\000\263K\370\226%\335n\001\262J\371\227$\334o\000C\206\305!b\247\344B\001\304\207c \345\246\000S\246\365a2\307\224\302\221d7\243\360\005V\000c\306\245\241\302g\004o\f\251\312\316\255\bk\000s\346\225\341\222\007t\357\234\tz\016}\350\233\000\003\006\005\f\017\n\t\030\033\036\035\024\027\022\021\000\023&5L_jy\230\213\276\255\324\307\362\341\000#Fe\214\257\312\3515\026sP\271\232\377\334\0003fU\314\377\252\231\265\206\323\340yJ\037,\000E\212\3179|\263\366r7\370\275K\016\301\204\000U\252\377y,\323\206\362\247X\r\213\336!t\000e\312\257\271\334s\026_:\225\360\346\203,I\000u\352\237\371\214\023f\337\2525@&S\314\271\000\005\n\017\024\021\036\033(-\"'<963\000\025*?TA~k\250\275\202\227\374\351\326\303\000%Jo\224\261\336\373\005 Oj\221\264\333\376\0005j_\324\341\276\213\205\260\357\332Qd;\016\000\305\247bc\246\304\001\306\003a\244\245`\002\307\000\325\207R#\366\244qF\223\301\024e\260\3427\000\345\347\002\343\006\004\341\353\016\f\351\b\355\357\n\000\365\3072\243Vd\221k\236\254Y\310=\017\372\000\205'\242N\313i\354\234\031\273>\322W\365p\000\225\007\222\016\233\t\234\034\211\033\216\022\207\025\200\000\245g\302\316k\251\f\261\024\326s\177\332\030\275\000\265G\362\216;\311|1\204v\303\277\n\370M\000h\320\270\215\345]57_\347\217\272\322j\002\000x\360\210\315\265=E\267\317G?z\002\212\362\000H\220\330\rE\235\325\032R\212\302\027_\207\317\000X\260\350M\025\375\245\232\302*r\327\217g?\000(Px\240\210\360\330mE=\025\315\345\235\265\0008pH\340\330\220\250\355\325\235\245\r5}E\000\b\020\030 (08@HPX`hpx\000\0300(`xPH\300\330\360\350\240\270\220\210\000\350\375\025\327?*\302\203k~\226T\274\251A\000\370\335%\227oJ\262\003\373\336&\224lI\261\000\310\275uW\237\352\"\256f\023\333\3711D\214\000\330\235E\027\317\212R.\366\263k9\341\244|\000\250}\325\372R\207/\331q\244\f#\213^\366\000\270]\345\272\002\347_Y\341\004\274\343[\276\006\000\210=\265z\362G\317\364|\311A\216\006\263;\000\230\035\205:\242'\277t\354i\361N\326S\313\000\037>!|cB]\370\347\306\331\204\233\272\245\000\017\036\021<3\"-xwfiDKZU\000?~A\374\303\202\275\325\352\253\224)\026Wh\000/^q\274\223\342\315Uz\013$\351\306\267\230\000_\276\341Q\016\357\260\242\375\034C\363\254M\022\000O\236\321\021^\217\300\"m\274\3633|\255\342\000\177\376\201\321\256/P\217\360q\016^!\240\337\000o\336\261\221\376O \017`\321\276\236\361@/\000\237\023\214&\2715\252L\323_\300j\365y\346\000\2173\274f\351U\332\314C\377p\252%\231\026\000\277S\354\246\031\365Ja\3362\215\307x\224+\000\257s\334\346I\225:\341N\222=\007\250t\333\000\337\223L\013\324\230G\026\311\205Z\035\302\216Q\000\317\263|K\204\3707\226Y%\352\335\022n\241\000\377\323,\213tX\247;\304\350\027\260Oc\234\000\357\363\034\313$8\327\273TH\247p\237\203l\0002dV\310\372\254\236\275\217\331\353uG\021#\000\"Df\210\252\314\356=\037y[\265\227\361\323\000\022$6HZl~\220\202\264\246\330\312\374\356\000\002\004\006\b\n\f\016\020\022\024\026\030\032\034\036\000r\344\226\345\227\001s\347\225\003q\002p\346\224\000b\304\246\245\307a\003g\005\243\301\302\240\006d\000R\244\366e7\301\223\312\230n<\257\375\013Y\000B\204\306%g\241\343J\b\316\214o-\353\251\000\262I\373\222 \333i\t\273@\362\233)\322`\000\242i\313\322p\273\031\211+\340B[\3712\220\000\222\t\233\022\200\033\211$\266-\2776\244?\255\000\202)\253R\320{\371\244&\215\017\366t\337]\000\362\311;\277Mv\204S\241\232h\354\036%\327\000\342\351\013\377\035\026\364\3231:\330,\316\305'\000\322\211[?\355\266d~\254\367%A\223\310\032\000\302\251k\177\275\326\024\376<W\225\201C(\352\000\361\317>\263B|\215K\272\204u\370\t7\306\000\341\357\016\363\022\034\375\313*$\3058\331\3276\000\321\217^3\342\274mf\267\3518U\204\332\013\000\301\257ns\262\334\035\346'I\210\225T:\373\000\261O\376\236/\321`\021\240^\357\217>\300q\000\241o\316\336\177\261\020\2210\376_O\356 \201\000\221\017\236\036\217\021\200<\2553\242\"\263-\274\000\201/\256^\337q\360\274=\223\022\342c\315L\000q\342\223\351\230\013z\377\216\035l\026g\364\205\000a\302\243\251\310k\n\177\036\275\334\326\267\024u\000Q\242\363i8\313\232\322\203p!\273\352\031H\000A\202\303)h\253\352R\023\320\221{:\371\270\0001bS\304\365\246\227\245\224\307\366aP\0032\000!Bc\204\245\306\347%\004gF\241\200\343\302\000\021\"3DUfw\210\231\252\273\314\335\356\377\000\001\002\003\004\005\006\007\b\t\n\013\f\r\016\017\000\334\225I\007\333\222N\016\322\233G\t\325\234@\000\314\265yG\213\362>\216B;\367\311\005|\260\000\374\325)\207{R\256#\337\366\n\244Xq\215\000\354\365\031\307+2\336\243OV\272d\210\221}\000\234\025\211*\266?\243T\310A\335~\342k\367\000\2145\271j\346_\323\324X\341m\2762\213\007\000\274U\351\252\026\377Cy\305,\220\323o\206:\000\254u\331\352F\2373\371U\214 \023\277f\312\000\\\270\344]\001\345\271\272\346\002^\347\273_\003\000L\230\324\035Q\205\311:v\242\356'k\277\363\000|\370\204\335\241%Y\227\353o\023J6\262\316\000l\330\264\235\361E)\027{\317\243\212\346R>\000\0348$plHT\340\374\330\304\220\214\250\264\000\f\030\0240<($`lxtP\\HD\000<xD\360\314\210\264\315\361\265\211=\001Ey\000,Xt\260\234\350\304Ma\0259\375\321\245\211\000\253{\320\366]\215&\301j\272\0217\234L\347\000\273[\340\266\r\355VA\372\032\241\367L\254\027\000\213;\260v\375M\306\354g\327\\\232\021\241*\000\233\033\2006\255-\266l\367w\354Z\301A\332\000\353\373\020\3330 \313\233p`\213@\253\273P\000\373\333 \233`@\273\033\340\300;\200{[\240\000\313\273p[\220\340+\266}\r\306\355&V\235\000\333\233@\033\300\200[6\355\255v-\366\266m\000+V}\254\207\372\321u^#\b\331\362\217\244\000;vM\354\327\232\241\365\316\203\270\031\"oT\000\013\026\035,':1XSNEt\177bi\000\0336-lwZA\330\303\356\365\264\257\202\231\000k\326\275\201\352W</D\371\222\256\305x\023\000{\366\215\301\2727L\257\324Y\"n\025\230\343\000K\226\335\001J\227\334\002I\224\337\003H\225\336\000[\266\355A\032\367\254\202\3314o\303\230u.\000\206!\247B\304c\345\204\002\245#\306@\347a\000\226\001\227\002\224\003\225\004\222\005\223\006\220\007\221\000\246a\307\302d\243\005\251\017\310nk\315\n\254\000\266A\367\2024\303u)\237h\336\253\035\352\\\000\306\241go\251\316\b\336\030\177\271\261w\020\326\000\326\201W/\371\256x^\210\337\tq\247\360&\000\346\341\007\357\t\016\350\363\025\022\364\034\372\375\033\000\366\3017\257Yn\230s\205\262D\334*\035\353\000\006\f\n\030\036\024\02206<:(.$\"\000\026,:XNtb\260\246\234\212\350\376\304\322\000&Lj\230\276\324\362\035;Qw\205\243\311\357\0006lZ\330\356\264\202\235\253\361\307Es)\037\000F\214\3125s\271\377j,\346\240_\031\323\225\000V\254\372u#\331\217\352\274F\020\237\3113e\000f\314\252\265\323y\037G!\213\355\362\224>X\000v\354\232\365\203\031o\307\261+]2D\336\250"

.Lstatic.46:
	.asciz	"\000\000\000\000\000\000\000\000\000\000\000\000\000\000\000\000\000\000\000\000\000\000\000\000\000\000\000\000\000\000\000\000\000\000\000\000\000\000\000\000\000\000\000\000\000\000\000\000\000\000\000\000\000\000\000\000\000\000\000\000\000\000\000\000\000\000\000\000\000\000\000\000\000\000\000\000\000\000\000\000\002\000\000\000\000\000\000\000\000\000\000\000\000\000\000\000\000\000\000\000\000\000\000\000\000\000\000\000\000\000\000\000\000\000\000\000\000\000\000\000\000\000\000\000\000\000\000\000\000\000\000\000\000\000\000\000\000\000\000\000\000\000\000\000\000\000\000\000\000\000\000\000\000\000\000\000\000\000\000\000\006\b\000\000\000\000\000\000\000\000\000\000\000\000\000\000\000\000\000\000\000\000\000\000\000\000\000\000\000\000\000\000\000\000\000\000\000\000\000\000\000\000\000\000\000\000\000\000\000\000\000\000\000\000\000\000\000\000\000\000\000\000\000\000\000\000\000\000\000\000\000\000\000\000\000\000\000\000\000\000\0168@\000\000\000\000\000\000\000\000\000\000\000\000\000\000\000\000\000\000\000\000\000\000\000\000\000\000\000\000\000\000\000\000\000\000\000\000\000\000\000\000\000\000\000\000\000\000\000\000\000\000\000\000\000\000\000\000\000\000\000\000\000\000\000\000\000\000\000\000\000\000\000\000\000\000\000\000\000\036\330\267\264\000\000\000\000\000\000\000\000\000\000\000\000\000\000\000\000\000\000\000\000\000\000\000\000\000\000\000\000\000\000\000\000\000\000\000\000\000\000\000\000\000\000\000\000\000\000\000\000\000\000\000\000\000\000\000\000\000\000\000\000\000\000\000\000\000\000\000\000\000\000\000\000\000\000\000\000>o\0170\344\000\000\000\000\000\000\000\000\000\000\000\000\000\000\000\000\000\000\000\000\000\000\000\000\000\000\000\000\000\000\000\000\000\000\000\000\000\000\000\000\000\000\000\000\000\000\000\000\000\000\000\000\000\000\000\000\000\000\000\000\000\000\000\000\000\000\000\000\000\000\000\000\000\000\000~iw\207\025\333\000\000\000\000\000\000\000\000\000\000\000\000\000\000\000\000\000\000\000\000\000\000\000\000\000\000\000\000\000\000\000\000\000\000\000\000\000\000\000\000\000\000\000\000\000\000\000\000\000\000\000\000\000\000\000\000\000\000\000\000\000\000\000\000\000\000\000\000\000\000\000\000\000\000\376\\\360\206\220D\027\000\000\000\000\000\000\000\000\000\000\000\000\000\000\000\000\000\000\000\000\000\000\000\000\000\000\000\000\000\000\000\000\000\000\000\000\000\000\000\000\000\000\000\000\000\000\000\000\000\000\000\000\000\000\000\000\000\000\000\000\000\000\000\000\000\000\000\000\000\000\000\000\000\323\322\371\243\232*\321I\000\000\000\000\000\000\000\000\000\000\000\000\000\000\000\000\000\000\000\000\000\000\000\000\000\000\000\000\000\000\000\000\000\000\000\000\000\000\000\000\000\000\000\000\000\000\000\000\000\000\000\000\000\000\000\000\000\000\000\000\000\000\000\000\000\000\000\000\000\000\000\000\211\004u9\343\310\235+4\000\000\000\000\000\000\000\000\000\000\000\000\000\000\000\000\000\000\000\000\000\000\000\000\000\000\000\000\000\000\000\000\000\000\000\000\000\000\000\000\000\000\000\000\000\000\000\000\000\000\000\000\000\000\000\000\000\000\000\000\000\000\000\000\000\000\000\000\000\000\000=n\377t\370\337\246\271\030\034\000\000\000\000\000\000\000\000\000\000\000\000\000\000\000\000\000\000\000\000\000\000\000\000\000\000\000\000\000\000\000\000\000\000\000\000\000\000\000\000\000\000\000\000\000\000\000\000\000\000\000\000\000\000\000\000\000\000\000\000\000\000\000\000\000\000\000\000\000\000xa<\365'\250\302\f\315\212\257\000\000\000\000\000\000\000\000\000\000\000\000\000\000\000\000\000\000\000\000\000\000\000\000\000\000\000\000\000\000\000\000\000\000\000\000\000\000\000\000\000\000\000\000\000\000\000\000\000\000\000\000\000\000\000\000\000\000\000\000\000\000\000\000\000\000\000\000\000\362d\262a\325\216*=[\236\231)\000\000\000\000\000\000\000\000\000\000\000\000\000\000\000\000\000\000\000\000\000\000\000\000\000\000\000\000\000\000\000\000\000\000\000\000\000\000\000\000\000\000\000\000\000\000\000\000\000\000\000\000\000\000\000\000\000\000\000\000\000\000\000\000\000\000\000\000\313\002^\354\344\244\242Ig<\366\351?\000\000\000\000\000\000\000\000\000\000\000\000\000\000\000\000\000\000\000\000\000\000\000\000\000\000\000\000\000\000\000\000\000\000\000\000\000\000\000\000\000\000\000\000\000\000\000\000\000\000\000\000\000\000\000\000\000\000\000\000\000\000\000\000\000\000\000\271S\272\022-\212w\235\t_\374\300a\234\000\000\000\000\000\000\000\000\000\000\000\000\000\000\000\000\000\000\000\000\000\000\000\000\000\000\000\000\000\000\000\000\000\000\000\000\000\000\000\000\000\000\000\000\000\000\000\000\000\000\000\000\000\000\000\000\000\000\000\000\000\000\000\000\000\000]\337\213\237#\221\352\260\231X\311\224!Xt\000\000\000\000\000\000\000\000\000\000\000\000\000\000\000\000\000\000\000\000\000\000\000\000\000\000\000\000\000\000\000\000\000\000\000\000\000\000\000\000\000\000\000\000\000\000\000\000\000\000\000\000\000\000\000\000\000\000\000\000\000\000\000\000\000\270R\372m\311H\357\347\242\266B\032\"f\377X\000\000\000\000\000\000\000\000\000\000\000\000\000\000\000\000\000\000\000\000\000\000\000\000\000\000\000\000\000\000\000\000\000\000\000\000\000\000\000\000\000\000\000\000\000\000\000\000\000\000\000\000\000\000\000\000\000\000\000\000\000\000\000\000_\337\331\030\276y\017E\373\370<\342\341\036w!;\000\000\000\000\000\000\000\000\000\000\000\000\000\000\000\000\000\000\000\000\000\000\000\000\000\000\000\000\000\000\000\000\000\000\000\000\000\000\000\000\000\000\000\000\000\000\000\000\000\000\000\000\000\000\000\000\000\000\000\000\000\000\000\274Z0\341\376^\201m\325\361=BK\274'd\303S\000\000\000\000\000\000\000\000\000\000\000\000\000\000\000\000\000\000\000\000\000\000\000\000\000\000\000\000\000\000\000\000\000\000\000\000\000\000\000\000\000\000\000\000\000\000\000\000\000\000\000\000\000\000\000\000\000\000\000\000\000\000W\357'\314\227|M^$nO\304\334[\222\231B\367g\000\000\000\000\000\000\000\000\000\000\000\000\000\000\000\000\000\000\000\000\000\000\000\000\000\000\000\000\000\000\000\000\000\000\000\000\000\000\000\000\000\000\000\000\000\000\000\000\000\000\000\000\000\000\000\000\000\000\000\000\000\254\272\256\033RlO\375\221\231\240\274\002\250G\351\t\364\303\017\000\000\000\000\000\000\000\000\000\000\000\000\000\000\000\000\000\000\000\000\000\000\000\000\000\000\000\000\000\000\000\000\000\000\000\000\000\000\000\000\000\000\000\000\000\000\000\000\000\000\000\000\000\000\000\000\000\000\000\000wX\240bH\006'\rY96s\2143\276/\266\031\346\305m\000\000\000\000\000\000\000\000\000\000\000\000\000\000\000\000\000\000\000\000\000\000\000\000\000\000\000\000\000\000\000\000\000\000\000\000\000\000\000\000\000\000\000\000\000\000\000\000\000\000\000\000\000\000\000\000\000\000\000\354\274\003\321\331}\n&\230\001\204\033^G{\005\361_\311L\371K\000\000\000\000\000\000\000\000\000\000\000\000\000\000\000\000\000\000\000\000\000\000\000\000\000\000\000\000\000\000\000\000\000\000\000\000\000\000\000\000\000\000\000\000\000\000\000\000\000\000\000\000\000\000\000\000\000\000\367ma\374-Q\001\310\325\030\237+6v\024T\206\274\343\375cp\333\000\000\000\000\000\000\000\000\000\000\000\000\000\000\000\000\000\000\000\000\000\000\000\000\000\000\000\000\000\000\000\000\000\000\000\000\000\000\000\000\000\000\000\000\000\000\000\000\000\000\000\000\000\000\000\000\000\3012`\270\265\f|\376\254\005\025\233\337\373\305\233\025\260'm\315X\2764\000\000\000\000\000\000\000\000\000\000\000\000\000\000\000\000\000\000\000\000\000\000\000\000\000\000\000\000\000\000\000\000\000\000\000\000\000\000\000\000\000\000\000\000\000\000\000\000\000\000\000\000\000\000\000\000\255\273\312\\\215\322\366\276i\216\344D\017\016\361\217\305o\b\030\317[?I\357\000\000\000\000\000\000\000\000\000\000\000\000\000\000\000\000\000\000\000\000\000\000\000\000\000\000\000\000\000\000\000\000\000\000\000\000\000\000\000\000\000\000\000\000\000\000\000\000\000\000\000\000\000\000\000uX\377\b\265\211\3207\223\235\372\fErUT\003G\2216\275\300U\321D#\000\000\000\000\000\000\000\000\000\000\000\000\000\000\000\000\000\000\000\000\000\000\000\000\000\000\000\000\000\000\000\000\000\000\000\000\000\000\000\000\000\000\000\000\000\000\000\000\000\000\000\000\000\000\350\264\241\366\351\206Hl\322\366\364A7{\035\345/\315\217Ja\223\266`\202\267\327\000\000\000\000\000\000\000\000\000\000\000\000\000\000\000\000\000\000\000\000\000\000\000\000\000\000\000\000\000\000\000\000\000\000\000\000\000\000\000\000\000\000\000\000\000\000\000\000\000\000\000\000\000\377]\250\351\227x\210\215\325n\212\021y\371\"K5\252\227%\256g`Ga+\347\323\000\000\000\000\000\000\000\000\000\000\000\000\000\000\000\000\000\000\000\000\000\000\000\000\000\000\000\000\000\000\000\000\000\000\000\000\000\000\000\000\000\000\000\000\000\000\000\000\000\000\000\000\321\322k\244FA\204\231W\271\330Y\355\333IN\250\337\206\034a\316A\254\031\356\221\2733\000\000\000\000\000\000\000\000\000\000\000\000\000\000\000\000\000\000\000\000\000\000\000\000\000\000\000\000\000\000\000\000\000\000\000\000\000\000\000\000\000\000\000\000\000\000\000\000\000\000\000\215\fQ\001;\355\221Vz\020Ga\033\t\225\341\276E\007k\337i\305\271\336Q\247,\024\017\000\000\000\000\000\000\000\000\000\000\000\000\000\000\000\000\000\000\000\000\000\000\000\000\000\000\000\000\000\000\000\000\000\000\000\000\000\000\000\000\000\000\000\000\000\000\000\000\000\0005^\262\231\203\252\030U\275}\365\254x\007tX\324\t\2274\270F\377 \315\306?3\276\007\006\000\000\000\000\000\000\000\000\000\000\000\000\000\000\000\000\000\000\000\000\000\000\000\000\000\000\000\000\000\000\000\000\000\000\000\000\000\000\000\000\000\000\000\000\000\000\000\000\000h\201\243\3527_\220\256\371\002\221h\023g\312\323&\002x\321:=\025\354_k\307\344\202\237\270\343\000\000\000\000\000\000\000\000\000\000\000\000\000\000\000\000\000\000\000\000\000\000\000\000\000\000\000\000\000\000\000\000\000\000\000\000\000\000\000\000\000\000\000\000\000\000\000\000\322\323=$\030\225\b\030v\\\310dA\026\200\365a\340!\021$\266\317v\233\363v\203\017\342\026\025\334\000\000\000\000\000\000\000\000\000\000\000\000\000\000\000\000\000\000\000\000\000\000\000\000\000\000\000\000\000\000\000\000\000\000\000\000\000\000\000\000\000\000\000\000\000\000\000\213\004\263\275C\016Y\212\355\230>\232>kr\275\006\217_Zt\355g*_\313\352G\254\322\332\347\305\276\000\000\000\000\000\000\000\000\000\000\000\000\000\000\000\000\000\000\000\000\000\000\000\000\000\000\000\000\000\000\000\000\000\000\000\000\000\000\000\000\000\000\000\000\000\0009f!\340\314\275\213k=M\265~\374\217\354\212\211T\257`n\001\262/;\361\300\373\215\375YmPFt\000\000\000\000\000\000\000\000\000\000\000\000\000\000\000\000\000\000\000\000\000\000\000\000\000\000\000\000\000\000\000\000\000\000\000\000\000\000\000\000\000\000\000\000\000pQb\341\031;\270\257,sw_\211e!D\004\002\022\345\266P\373\334\263Txf\265\242\372\202\332\362\177\365\000\000\000\000\000\000\000\000\000\000\000\000\000\000\000\000\000\000\000\000\000\000\000\000\000\000\000\000\000\000\000\000\000\000\000\000\000\000\000\000\000\000\000\000\342\204\265u\f\305\337I\013\3259\003a\311<F\033\020\033\244\261\211\276\254\332\r/\2273\340y`\311\200\271\215O\000\000\000\000\000\000\000\000\000\000\000\000\000\000\000\000\000\000\000\000\000\000\000\000\000\000\000\000\000\000\000\000\000\000\000\000\000\000\000\000\000\000\000\353\265\245\361\246\251\334\200P\206\252\337z\327S\2677\323\213g\254)\313{\217\351J\355\250fZ\246\336\357\215e\036m\000\000\000\000\000\000\000\000\000\000\000\000\000\000\000\000\000\000\000\000\000\000\000\000\000\000\000\000\000\000\000\000\000\000\000\000\000\000\000\000\000\000\371U\200\331\377\267,\t8\277\256\031\305@|\2706\272\354\251\374\203S\201\no\216m$\204\030+\300B%\307j\234\344\000\000\000\000\000\000\000\000\000\000\000\000\000\000\000\000\000\000\000\000\000\000\000\000\000\000\000\000\000\000\000\000\000\000\000\000\000\000\000\000\000\335\352F\tt\320.\240\021\234\241(\366L\024c\305LW\2701\210\357\237\376*#h\301 X<\225\372\005G.\205\263\034\000\000\000\000\000\000\000\000\000\000\000\000\000\000\000\000\000\000\000\000\000\000\000\000\000\000\000\000\000\000\000\000\000\000\000\000\000\000\000\000\225\334\371D&QGO\364\340\017\205\204\320\323Z\245T\220\211\372\234xe\210\254\301\330c50\302\336\006\216\002+j{\025#\000\000\000\000\000\000\000\000\000\000\000\000\000\000\000\000\000\000\000\000\000\000\000\000\000\000\000\000\000\000\000\000\000\000\000\000\000\000\000\005\t\005\342\261\2262E\312\370e69\375\001\025y9o\326i\247\td_\257\b\362\205\365\002zi\367\231\026&\023\037\211\301M\000\000\000\000\000\000\000\000\000\000\000\000\000\000\000\000\000\000\000\000\000\000\000\000\000\000\000\000\000\000\000\000\000\000\000\000\000\000\b0`\333\177\250\242\002\304\323\t\265J\305T\030\2206W'\316x\311\001\321\003\240\232\233\242?`q(\276\315\330\260\330\022\312\031f\000\000\000\000\000\000\000\000\000\000\000\000\000\000\000\000\000\000\000\000\000\000\000\000\000\000\000\000\000\000\000\000\000\000\000\000\000\022\340\332\202\276\352\231\335\360\t\030\177^O\224\223\315g\261\202\277F\315y\313&\216q.\r\340L(\346Y'\310_\276\375sO!\005\000\000\000\000\000\000\000\000\000\000\000\000\000\000\000\000\000\000\000\000\000\000\000\000\000\000\000\000\000\000\000\000\000\000\000\000&\277\375\031C\023[\306\347\031\241\305\332\221I\3413G\217zB\213\251Y\367\276X\321\237V\211k\251\005\306u*\233T\004\n\226\374_\344\000\000\000\000\000\000\000\000\000\000\000\000\000\000\000\000\000\000\000\000\000\000\000\000\000\000\000\000\000\000\000\000\000\000\000N>J\353r>\215\262(b\220v\255\212H+\025M/\177\202\316!\335S\253\207\035\013=/3o\201#\272\350\240\262r\207q\310\305\035\303\000\000\000\000\000\000\000\000\000\000\000\000\000\000\000\000\000\000\000\000\000\000\000\000\000\000\000\000\000\000\000\000\000\000\236\355\327\017\335\375\0205\342\231\217\244Y\230\245B\263v\241\356\310M\374\230\017-/y^\016\357\242{\027\375rLR)\270D\025V\242\363\226T\000\000\000\000\000\000\000\000\000\000\000\000\000\000\000\000\000\000\000\000\000\000\000\000\000\000\000\000\000\000\000\000\000\023\341\375\\\325E\257\240\223\273W\260,R\360\272\212BdxX\203\315\252Z%\027v\223\020j\277W\355\274\315\347\356\205\356\026u `\337\254\204\365\000\000\000\000\000\000\000\000\000\000\000\000\000\000\000\000\000\000\000\000\000\000\000\000\000\000\000\000\000\000\000\000$\277\340\017\207\215X\206\245\335\252.\035\025\205\227@\201\026\266\330\r\254\360\227\305\362\3644vmVvs\350\265\275A\210=\033\300\336n\315\237\373\021\306\000\000\000\000\000\000\000\000\000\000\000\000\000\000\000\000\000\000\000\000\000\000\000\000\000\000\000\000\000\000\000J6\242[\247\332\324\267\234J\020\231O\347p\034\031\271\b\361\363LP\016\315\234Ar\373\361\016\216\t\020p\346$\337\336J\365{\226f\247+\245\376\246\001\000\000\000\000\000\000\000\000\000\000\000\000\000\000\000\000\000\000\000\000\000\000\000\000\000\000\000\000\000\000\226\335\024\026\214L\303<\026\277\373\205a\327\226H\fw\036\377\233\261)bQ\331\264\336:\002f\022u\302l\262\036\340\022Z\036\024\205\b}\275\332\375\216K\334\000\000\000\000\000\000\000\000\000\000\000\000\000\000\000\000\000\000\000\000\000\000\000\000\000\000\000\000\000\003\001\246 \275\2631\243L\216\336N\027\322?\224\360e*\322^\352\031\233\306\224\bu\032Qa\213J\361f0\274\315oe\3359\263~a\222\370\323L\263\262'\000\000\000\000\000\000\000\000\000\000\000\000\000\000\000\000\000\000\000\000\000\000\000\000\000\000\000\000\004\b\241%]\367_4RG\003\016\320\267[)k\357<\004:]\325\324p\234\223M|\027\373\201\214*\353/,\216VE\313p\034\0206\230qa/z\334N\365\000\000\000\000\000\000\000\000\000\000\000\000\000\000\000\000\000\000\000\000\000\000\000\000\000\000\000\n0\321\005\206\246LygL\336\034\204c\277\\\370\227\277A\002<\2046\234f\370|\315\2451\332A\241j\224\233+\301v\n&\346\270\326\261\"\225;\315J\322V\017\000\000\000\000\000\000\000\000\000\000\000\000\000\000\000\000\000\000\000\000\000\000\000\000\000\000\026\350\313\234\352EX*B,\2151\371\270\257YF\005\255D\335\004\016\355\316\260\204\356\204A\001\334\034~*x\255\251\362\002\233\376Yo\207|\217Z\021\023\256\311\353i\264\000\000\000\000\000\000\000\000\000\000\000\000\000\000\000\000\000\000\000\000\000\000\000\000\000.\2175\351k\313+\233\034\367C\177\365\211\r\244\317>u\311\226\026\356\220\350\035\313u\352\332\222\3446\204\310&\337$\237\226\353\327\300\346\252\257\035d\320\334\021\f\356\337\t\257\000\000\000\000\000\000\000\000\000\000\000\000\000\000\000\000\000\000\000\000\000\000\000\000^\336I\034\312|\301WN.\333\224l\361|\316\1779\347G\234. L\335\314b\237d\353\3131\375\341\323\\y\340\331)\323\226\363k\201\345\312\315\355\222E\277\364\003\315(\327\000\000\000\000\000\000\000\000\000\000\000\000\000\000\000\000\000\000\000\000\000\000\000\276Z\f\311Ue\323\200\351\001y\306\361H{\334\221&\024\361\220p\2027\037\204a\3777\221I\310\315\322\177\315\020\345\225\226\213\007\203\201\302\304\221\324\016\n\302^\334\023\300\313of\000\000\000\000\000\000\000\000\000\000\000\000\000\000\000\000\000\000\000\000\000\000S\347\352\241}\361\312\217F\337\224\314\253F\021!\354\037\326I\236\244\316oK\215\r%\246\305pO\b9\235\363\373\236#lk\031Z4\200]<\355\330\225\236\307\371n\241\245\260#\003\000\000\000\000\000\000\000\000\000\000\000\000\000\000\000\000\000\000\000\000\000\244\212h\0048N\326\353\321\030Z\342\247\273\326 \332\322\304\013\2752\327\240\301mY\002;\037\360\327CB&Q$:\265\231\3258 \325\034.B\n\342\304GQ\272\t\334\340^g\3664\000\000\000\000\000\000\000\000\000\000\000\000\000\000\000\000\000\000\000\000g\270\323.C\326\203ou\217m\r6\341\300\244u\333;\345#\364\022\347\210;\313\205\220\357\324,\004Y\376.U\356\206\251\307\324\270z\360b\313\322\277U\2511\313\334\3519d\3639\037\025\000\000\000\000\000\000\000\000\000\000\000\000\000\000\000\000\000\000\000\314\013/V|\340\246^\007\350k\004\252\260\037\243\021\274\202(\nW?3\332\033\006\223,\241Gr@\257\335\271j\372\276\305?\365\346\206p\271%\304l\217\275\311\274\312v'\322\2202\251]\362\000\000\000\000\000\000\000\000\000\000\000\000\000\000\000\000\000\000\267k\rS\331\372N`\r\244,!k\340e3\225\264\2261C\016\341E\302?W\244=)5\337\302N7\321\304\244|'\213\203\307Y\250\315\213\230\243\346\261\246f\336!dx\033\256\312\200um\000\000\000\000\000\000\000\000\000\000\000\000\000\000\000\000\000A\007Gy\347\205\347\222\003\216\221\034|\252\230d\245\370\315J\262\326\374Nt\342\2735\200\004Q\201\323\223\305N\310\027\301\023\3624\003\335$\254\275/\305\303\"\244\032\276\306s\331\200\f\305.\206\334$\000\000\000\000\000\000\000\000\000\000\000\000\000\000\000\000\2005Z\227=O\236X\206\340`\367\b\302\365\250\312n\035&\b\274\371\355\275l\303x<\317\"R\331$\201\304\001\311=\352}\255~\263\2510\f\276\321It\344M\0269\227J~\307P\244S\313h\234\000\000\000\000\000\000\000\000\000\000\000\000\000\000\000/\216\017!S\373\216xC\316\343\317^#\366\215c\214Qan]Y\317\226c\374\324\n\324\211\322\216\365\224\320\227f\003^l\322\236\020\3226\020\271\002y\361\325(uC\305$'d\032\200\3753%ES\000\000\000\000\000\000\000\000\000\000\000\000\000\000\\\336\274\272\353&,\313/\340\353q%\203\250REi\004Zm\305l\033\355\314\031\002\370\335{\025{F\336\231\204\272t\313\314\254kP!\303/J\375\237\356~\251QR\353V\r\333\213z\246\226\210\034z\335\000\000\000\000\000\000\000\000\000\000\000\000\000\272Rg`?\204\231l6@\275\323\3501\031\2544;\361\265\357\337\210\347\322`\350\334\031\263\247\312\271\231\213B\354\343\240\017\325]zD\261\236\305\352\264\370\210\325\177I$\232\364\223!Y8\237\225\373Y\255\344\334\000\000\000\000\000\000\000\000\000\000\000"

.Lstatic.47:
	.ascii	"\001\001\001\001\001\001\001\001\001\001\001\001\001\001\001\001\001\001\001\001\001\001\001\001\001\001\001\001\001\001\001\001\001\001\001\001\001\001\001\001\001\001\001\001\001\001\001\001\001\001\001\001\001\001\001\001\001\001\001\001\001\001\001\001\001\001\001\001\001\001\001\001\001\001\001\001\001\001\001\001\001\001\001\001\001\001\001\001\001\001\001\001\001\001\001\001\001\001\001\001\001\001\001\001\001\001\001\001\001\001\001\001\001\001\001\001\001\001\001\001\001\001\001\001\001\001\001\001\001\001\001\001\001\001\001\001\001\001\001\001\001\001\001\001\001\001\001\001\001\001\001\001\001\001\001\001\001\001\001\001\001\001\001\001\001\001\001\001\001\001\001\001\001\001\001\001\001\001\001\001\001\001\001\001\001\001\001\001\001\001\001\001\001\001\001\001\001\001\001\001\001\001\001\001\001\001\001\001\001\001\001\001\001\001\001\001\001\001\001\001\001\001\001\001\001\001\001\001\001\001\001\001\001\001\001\001\001\001\001\001\001\001\001\001\001\001\001\001\001\001\001\001\001\001\001\001\001\002\004\b\020 @\200-Z\264E\2129r\344\345\347\343\353\373\333\233\0336l\330\235\027.\\\270]\272Y\262I\222\t\022$H\220\r\0324h\320\2157n\334\225\007\016\0348p\340\355\367\303\253{\366\301\257s\346\341\357\363\313\273[\266A\202)R\244e\312\271_\276Q\242i\322\211?~\374\325\207#F\2145j\324\205'N\234\025*T\250}\372\331\237\023&L\230\035:t\350\375\327\203+V\254u\352\371\337\223\013\026,X\260M\232\0312d\310\275W\256q\342\351\377\323\213;v\354\365\307\243k\326\201/^\274U\252y\362\311\277S\246a\302\251\177\376\321\2173f\314\265G\2161b\304\245g\316\261O\236\021\"D\210=z\364\305\247c\306\241o\336\221\017\036<x\360\315\267C\206!B\204%J\224\005\n\024(P\240m\332\231\037>|\370\335\227\003\006\f\0300`\300\255w\356\361\317\263K\226\001\001\004\020@-\264\212r\345\343\373\2336\330\027\\]YI\t$\220\032h\215n\225\0168\340\367\253\366\257\346\357\313[A)\244\312_Qi\211~\325#\214j\205N\025T}\331\023L\035t\375\203Vu\371\223\026XM\031d\275\256\342\377\213v\365\243\326/\274\252\362\277\246\302\177\3213\314G1\304g\261\236\"\210z\305c\241\336\017<\360\267\206B%\224\n(\240\332\037|\335\003\f0\300w\361\263\226\002\b \200ZE9\344\347\353\333\033l\235.\270\272\262\222\022H\r4\3207\334\007\034p\355\303{\301s\341\363\273\266\202Re\271\276\242\322?\374\207F5\324'\234*\250\372\237&\230:\350\327+\254\352\337\013,\260\2322\310Wq\351\323;\354\307k\201^Uy\311Sa\251\376\217f\265\216b\245\316O\021D=\364\247\306o\221\036x\315C!\204J\005\024Pm\231>\370\227\006\030`\255\356\317K\001\001\b@Z\212\344\343\3336\235\\\272I\022\2204\215\334\016p\367{\257\341\313\266)e_\242\211\374#5\205\234T\372\023\230t\327V\352\223,M2\275q\377;\365k/U\362S\302\3763\2651\245\261\021\210\364co\017x\267!%\005(m\037\370\003\030\300\356\263\001\b@Z\212\344\343\3336\235\\\272I\022\2204\215\334\016p\367{\257\341\313\266)e_\242\211\374#5\205\234T\372\023\230t\327V\352\223,M2\275q\377;\365k/U\362S\302\3763\2651\245\261\021\210\364co\017x\267!%\005(m\037\370\003\030\300\356\263\001\b@Z\212\344\343\3336\235\\\272I\022\2204\215\334\016p\367{\257\341\313\266)e_\242\211\374#5\205\234T\372\023\230t\327V\352\223,M2\275q\377;\365k/U\362S\302\3763\2651\245\261\021\210\364co\017x\267!%\005(m\037\370\003\030\300\356\263\001\001\020-\212\345\3736\027]I$\032\215\2258\367\366\346\313A\244_i~#jNT\331Lt\203u\223X\031\275\342\213\365\326\274\362\246\1773G\304\261\"zc\336<\267B\224(\332|\0030w\263\002 Z9\347\333l.\272\222H47\007p\303\301\341\273\202e\276\322\374F\324\234\250\237\230\350+\352\013\2602W\351;\307\201U\311a\376f\216\245OD\364\306\221xC\204\005P\231\370\006`\356K\004@\264r\343\233\330\\Y\t\220hn\016\340\253\257\357[)\312Q\211\325\214\205\025}\023\035\375V\371\026Md\256\377v\243/\252\277\302\321\3141g\236\210\305\241\017\360\206%\n\240\037\335\f\300\361\226\b\200E\344\353\033\235\270\262\022\r\320\334\034\355{s\363\266R\271\242?\2075'*\372&:\327\254\337,\232\310q\323\354k^yS\251\217\265b\316\021=\247o\036\315!J\024m>\227\030\255\317\001\001 \264\344\373l\\\262$4n\034\367\301\357\266\244\276\211\207j\234}&t+\371,\031W\377\354\326U\277\2513\216g\021z\306\017\315B\005\240>\003`\361\001 \264\344\373l\\\262$4n\034\367\301\357\266\244\276\211\207j\234}&t+\371,\031W\377\354\326U\277\2513\216g\021z\306\017\315B\005\240>\003`\361\001 \264\344\373l\\\262$4n\034\367\301\357\266\244\276\211\207j\234}&t+\371,\031W\377\354\326U\277\2513\216g\021z\306\017\315B\005\240>\003`\361\001 \264\344\373l\\\262$4n\034\367\301\357\266\244\276\211\207j\234}&t+\371,\031W\377\354\326U\277\2513\216g\021z\306\017\315B\005\240>\003`\361\001 \264\344\373l\\\262$4n\034\367\301\357\266\244\276\211\207j\234}&t+\371,\031W\377\354\326U\277\2513\216g\021z\306\017\315B\005\240>\003`\361\001\001@\212\3436\\I\220\215\016\367\257\313)_\211#\205T\023tV\223M\275\377\365/\362\30231\261\210c\017\267%(\037\003\300\263\bZ\344\333\235\272\0224\334p{\341\266e\242\3745\234\372\230\327\352,2q;kUS\376\265\245\021\364ox!\005m\370\030\356\001@\212\3436\\I\220\215\016\367\257\313)_\211#\205T\023tV\223M\275\377\365/\362\30231\261\210c\017\267%(\037\003\300\263\bZ\344\333\235\272\0224\334p{\341\266e\242\3745\234\372\230\327\352,2q;kUS\376\265\245\021\364ox!\005m\370\030\356\001@\212\3436\\I\220\215\016\367\257\313)_\211#\205T\023tV\223M\275\377\365/\362\30231\261\210c\017\267%(\037\003\300\263\bZ\344\333\235\272\0224\334p{\341\266e\242\3745\234\372\230\327\352,2q;kUS\376\265\245\021\364ox!\005m\370\030\356\001\001\200r\333\027\262\22078{\357\202_?\214\234\331:V\013\031qv\201\362\251\314\245\"\247\017C\224m\335`\263\020E\343l]\022h\007\367s[ei\207\205\250L\327\371\260\275\323\243U\246\2171Ozo\360\204(>\f\356\002-\344\233.I\rnp\366\363)\276~5\025\237t\254\0262\342\354/\311\177\265gDc\036\206\005\332\227\300K \212\353\330\272$\320\016\303\346\266\312\322#'}\230\203\337MW\213k\252a3b\236\364\336\315%P|\030\361\004Z\345\033\\\222\032\334\340\301\313RQ\374j*\023\350u,d\351\365^\277\376G\316\210\306<!\n\231\003\255\226@9\373\235YH\215\034\253\341A\271\211FN\372\035+\223\232\256;\326y\302f\304\021\305\221\267J\240\3700\317\b\264\3476\270\t4\225\355\257\273\244\242\325\324T&\375\352X\310\377\307\274S\321\216\261=\241xB\024\037\006w\001\001-\3456]$\2158\366\313\244i#N\331tuX\275\213\326\362\177G\261z\336\267\224\332\003w\002Z\347l\272H7p\301\273e\322F\234\237\350\352\260W;\201\311\376\216O\364\221C\005\231\006\356\004\264\343\330Y\220n\340\257[\312\211\214\025\023\375\371M\256v/\277\3211\236\305\017\206\n\037\f\361\bE\353\235\262\r\334\355s\266\271?5*&\327\337\232q\354^S\217b\021\247\036!\024>\030\317\020\212\373\027I\032\225\367\346A_~jTL\203\223\031\342\365\274\2463\304\"c<B(|0\263 9\333.\2224\007\303\341\202\276\374\324\250\230+\0132\351\307Uaf\245D\306x\204P\370`K@r\233\\\th\016\253\357)Q\325\205}\035V\026d\377\243\252\302\314g\210\241\360%\240\335\300\226\200\344\033\270\022\320\034{\363R\242\207'\372:\254,\310\323ky\251\265\316=o\315Jm\227\255\001\001Z\343\235I4\016{\313e\2115T\230V,\275;/S3\245\210o\267\005\037\030\263@\3446\272\220\334\367\341)\242#\234\023\327\2232\377k\362\3761\021cx%m\003\356\b\212\333\\\022\215p\257\266_\374\205\372t\352Mq\365U\302\265\261\364\017!(\370\300\001Z\343\235I4\016{\313e\2115T\230V,\275;/S3\245\210o\267\005\037\030\263@\3446\272\220\334\367\341)\242#\234\023\327\2232\377k\362\3761\021cx%m\003\356\b\212\333\\\022\215p\257\266_\374\205\372t\352Mq\365U\302\265\261\364\017!(\370\300\001Z\343\235I4\016{\313e\2115T\230V,\275;/S3\245\210o\267\005\037\030\263@\3446\272\220\334\367\341)\242#\234\023\327\2232\377k\362\3761\021cx%m\003\356\b\212\333\\\022\215p\257\266_\374\205\372t\352Mq\365U\302\265\261\364\017!(\370\300\001\001\264\373\\$n\367\357\244\211j}t\371\031\377\326\2773gz\017B\240\003\361 \344l\2624\034\301\266\276\207\234&+,W\354U\251\216\021\306\315\005>`\001\264\373\\$n\367\357\244\211j}t\371\031\377\326\2773gz\017B\240\003\361 \344l\2624\034\301\266\276\207\234&+,W\354U\251\216\021\306\315\005>`\001\264\373\\$n\367\357\244\211j}t\371\031\377\326\2773gz\017B\240\003\361 \344l\2624\034\301\266\276\207\234&+,W\354U\251\216\021\306\315\005>`\001\264\373\\$n\367\357\244\211j}t\371\031\377\326\2773gz\017B\240\003\361 \344l\2624\034\301\266\276\207\234&+,W\354U\251\216\021\306\315\005>`\001\264\373\\$n\367\357\244\211j}t\371\031\377\326\2773gz\017B\240\003\361 \344l\2624\034\301\266\276\207\234&+,W\354U\251\216\021\306\315\005>`\001\001E\233\272\032\034\257\202i5}\350\223\310vU\177b\210\221Bm\fKZ\373\270\220\007\366\266QFT:\3712\213^\302\216\"o\206P\003\317\200\343.$\334\253\273_\207\025\230u\232\377\201\246\265\236\306\267\024\335\356 \345\235\t7\367\363\312\374N&V\260\342k\277f\261\247\360\005|\255\brlI\320\340\341\244?\205\237\203,\256\307\362\217g\364<J\037`\002\212\033Y48s)\322j\372\375\013\275\354\252\376\304=\017\204\332\030\226\264\333]\r\016\301A\242\214\250t\337d;\274\2511D\336!\240\006\263-\353\\H\225{[\276#*\035\352\031\323/aG\021\241C(\227\361@\347\027\022n\303\313\271\325\234L\254M\351\326S\314Oc\315\n\370w\020\344\330\222\215\355\357e~'\023+Xq\243\3113\316\305x\224>\300\00496\262hp\346R\211\324\331\327\026W\365y\321\245z\036%\2310\001\001\2126I\215\367\313_#Tt\223\275\365\3623\261c\267(\003\263Z\333\2724p\341e\374\234\230\3522;U\376\245\364x\005\370\356@\343\\\220\016\257)\211\205\023VM\377/\3021\210\017%\037\300\b\344\235\022\334{\266\2425\372\327,qkS\265\021o!m\030\001\2126I\215\367\313_#Tt\223\275\365\3623\261c\267(\003\263Z\333\2724p\341e\374\234\230\3522;U\376\245\364x\005\370\356@\343\\\220\016\257)\211\205\023VM\377/\3021\210\017%\037\300\b\344\235\022\334{\266\2425\372\327,qkS\265\021o!m\030\001\2126I\215\367\313_#Tt\223\275\365\3623\261c\267(\003\263Z\333\2724p\341e\374\234\230\3522;U\376\245\364x\005\370\356@\343\\\220\016\257)\211\205\023VM\377/\3021\210\017%\037\300\b\344\235\022\334{\266\2425\372\327,qkS\265\021o!m\030\001\0019\330\022\225\301)?N\230\371\310\365\311\314\021\336\204\037\255 \343\270\032p\357\271#\250\375,\342\201\302bzx\n\227\263\264\033I7\253\266i\324\023\254\031;\252\217\261\306\206m0\004\344\027H\016s\244\374\025:\223W\243SGD\017J|\356\200\373\272h\355\313\276\214\372\203\260\377^\177\245\305\315(\006\226\212l\t\334\366\202\211'L\352d\354\362f\236oB\231\300\020\347\\\r8\341\312\207T\350\026q\326a1=<\005\335\317Z\233\262\215\303[\242j\237V\232\213U\321\316cC\240\030\002r\235$\007\257R~\234\035\337\275\307\277\265\"\221%>w@\353]4\340\363_F}\327X\351/\251\304\364\360\024\003KE6\222n{A\322\205&u2vy3O\241!\332`\b\345.\220\034\346e\325*t\013\256k\246\216\210\036\224\370\361-\333Y\320\367\273Q5\331+M\323\274\376g\247\267P\f\001\001r\027\2208\357_\214\331V\031v\362\314\"\017\224\335\263El\022\007se\207\250\327\260\323U\217Oo\204>\356-\233In\366)~\025t\026\342/\177gc\206\332\300 \353\272\320\303\266\322'\230\337Wkab\364\315P\030\004\345\\\032\340\313Qj\023ud\365\277G\210<\n\003\2269\235H\034\341\271F\372+\232;yf\021\221J\370\317\2646\t\225\257\244\325T\375X\377\274\321\261\241B\037w\200\333\2627{\202?\234:\013q\201\251\245\247Cm`\020\343]h\367[i\205L\371\275\243\2461z\360(\f\002\344.\rp\363\2765\237\2542\354\311\265D\036\005\227K\212\330$\016\346\312#}\203M\213\2523\236\336%|\361Z\033\222\334\301R\374*\350,\351^\376\316\306!\231\255@\373Y\215\253A\211N\035\223\256\326\302\304\305\267\2400\b\347\2704\355\273\242\324&\352\310\307S\216=x\024\006\001\001\344\\4\367\266\211\234t,\377U3\021\017\005\003\001\344\\4\367\266\211\234t,\377U3\021\017\005\003\001\344\\4\367\266\211\234t,\377U3\021\017\005\003\001\344\\4\367\266\211\234t,\377U3\021\017\005\003\001\344\\4\367\266\211\234t,\377U3\021\017\005\003\001\344\\4\367\266\211\234t,\377U3\021\017\005\003\001\344\\4\367\266\211\234t,\377U3\021\017\005\003\001\344\\4\367\266\211\234t,\377U3\021\017\005\003\001\344\\4\367\266\211\234t,\377U3\021\017\005\003\001\344\\4\367\266\211\234t,\377U3\021\017\005\003\001\344\\4\367\266\211\234t,\377U3\021\017\005\003\001\344\\4\367\266\211\234t,\377U3\021\017\005\003\001\344\\4\367\266\211\234t,\377U3\021\017\005\003\001\344\\4\367\266\211\234t,\377U3\021\017\005\003\001\344\\4\367\266\211\234t,\377U3\021\017\005\003\001\001\345]\215\366\244#\331u\275\326\177\261\336\224\003\002\347\2727\301eF\237\352W\201\376O\221\005\006\004\343Yn\257\312\214\023\371\256/\321\236\017\n\f\b\353\262\334s\2715&\337q^\217\021\036\024\030\020\373I\225\346_jL\223\342\2743\"<(0 \333\222\007\341\276\324\230\013\351UfDxP`@\233\t\016\357Q\205\035\026\377\252\314\210\360\240\300\200\033\022\034\363\242':,\323y\265=\315m\255-6$8\313iNtX\213\362Gz\267\332wZlHp\273\322\234\350\260;\311\216\364C\231\356\264\330\220\340[\211\025\375Mv\2771\305\206\037\361E\235\r\355\266?*\327\232\354Sb\247!>\317\212\027\032\367A~T\203\031\365\246\304cB|\2639.4\303\202\374\250+2\307a\245\306\204\370Kr\\h\253)\325}Vd\243\302g\241%\335\226\344\270\320{R\207\372\254\310k\251\316oJ\227\001\001\347Y\334\346\276\205:X;\277bc\204\335\001\347Y\334\346\276\205:X;\277bc\204\335\001\347Y\334\346\276\205:X;\277bc\204\335\001\347Y\334\346\276\205:X;\277bc\204\335\001\347Y\334\346\276\205:X;\277bc\204\335\001\347Y\334\346\276\205:X;\277bc\204\335\001\347Y\334\346\276\205:X;\277bc\204\335\001\347Y\334\346\276\205:X;\277bc\204\335\001\347Y\334\346\276\205:X;\277bc\204\335\001\347Y\334\346\276\205:X;\277bc\204\335\001\347Y\334\346\276\205:X;\277bc\204\335\001\347Y\334\346\276\205:X;\277bc\204\335\001\347Y\334\346\276\205:X;\277bc\204\335\001\347Y\334\346\276\205:X;\277bc\204\335\001\347Y\334\346\276\205:X;\277bc\204\335\001\347Y\334\346\276\205:X;\277bc\204\335\001\347Y\334\346\276\205:X;\277bc\204\335\001\001\343I\016\313\211TV\275/3\210\267\037\263\344\272\334\341\242\234\3272k\376\021xm\356\212\\\215\257_\205tM\365\302\261\017(\300Z\2354{e5\230,;S\245o\005\030@6\220\367)#\023\223\377\3621c%\003\b\333\022p\266\374\372\352qU\265\364!\370\001\343I\016\313\211TV\275/3\210\267\037\263\344\272\334\341\242\234\3272k\376\021xm\356\212\\\215\257_\205tM\365\302\261\017(\300Z\2354{e5\230,;S\245o\005\030@6\220\367)#\023\223\377\3621c%\003\b\333\022p\266\374\372\352qU\265\364!\370\001\343I\016\313\211TV\275/3\210\267\037\263\344\272\334\341\242\234\3272k\376\021xm\356\212\\\215\257_\205tM\365\302\261\017(\300Z\2354{e5\230,;S\245o\005\030@6\220\367)#\023\223\377\3621c%\003\b\333\022p\266\374\372\352qU\265\364!\370\001\001\353\tpA\207\023\013\213Sg\221(\255E\\7\346\242\025+\275^\314\364B\227\b\233H\367R\214\230X\354\302O<m\361r\272\225\363\211\250uq\252\216cJ\f@l\032{\312\324t\232\243\376\"\315\037K\347I\034[\374\331\337\377\311\304o\n`Z\027\320\257\276N\327d\2013=\206\370\002\373\022\340\202#&\026;\246\316\017Pw\212\270n\341i*VW\274\265\305\204\003\020\033\220\303\2445\035\260\365\251\236x\332\317\344Y\007\313?}\352\342y1\306\224\030\200\3304\366\271\205\350\031k\321D\267>\226\343\2228\266\325\237\223\323\277\245\336\024\300\264.\215sQ\234\203\310/fz!\335\004\333$\355)FL,va\261\036\240\3569]\334\357\322T\254\256UG\247%\006 6\r\253ej:M\307\177\021\360\231\263\345\262\016\273~\372\371\351\362b\241\0050-\235h\301_'\3752\326\217\210C|\001\001\373$\367\244jt\031\3263zB\003 l4\301\276\234+WU\216\306\005`\264\\n\357\211}\371\377\277g\017\240\361\344\262\034\266\207&,\354\251\021\315>\001\373$\367\244jt\031\3263zB\003 l4\301\276\234+WU\216\306\005`\264\\n\357\211}\371\377\277g\017\240\361\344\262\034\266\207&,\354\251\021\315>\001\373$\367\244jt\031\3263zB\003 l4\301\276\234+WU\216\306\005`\264\\n\357\211}\371\377\277g\017\240\361\344\262\034\266\207&,\354\251\021\315>\001\373$\367\244jt\031\3263zB\003 l4\301\276\234+WU\216\306\005`\264\\n\357\211}\371\377\277g\017\240\361\344\262\034\266\207&,\354\251\021\315>\001\373$\367\244jt\031\3263zB\003 l4\301\276\234+WU\216\306\005`\264\\n\357\211}\371\377\277g\017\240\361\344\262\034\266\207&,\354\251\021\315>\001\001\333\220{_\234Vq\362\245\017m\263\343\022\367e\205\327\275U1o(\356\344Ip)5t2/\265c\005\300\212\272\016\266#\230Mk3\364%\030Z\\\334\313\374\023,\365\376\210!\003@\235\215\341\211\372\223;\302\021\267\370\b64\257\242T\352\377S\261x\037\001\333\220{_\234Vq\362\245\017m\263\343\022\367e\205\327\275U1o(\356\344Ip)5t2/\265c\005\300\212\272\016\266#\230Mk3\364%\030Z\\\334\313\374\023,\365\376\210!\003@\235\215\341\211\372\223;\302\021\267\370\b64\257\242T\352\377S\261x\037\001\333\220{_\234Vq\362\245\017m\263\343\022\367e\205\327\275U1o(\356\344Ip)5t2/\265c\005\300\212\272\016\266#\230Mk3\364%\030Z\\\334\313\374\023,\365\376\210!\003@\235\215\341\211\372\223;\302\021\267\370\b64\257\242T\352\377S\261x\037\001\001\233\032\257i}\223v\177\210B\fZ\270\007\266F:2^\216oP\317\343$\253_\025u\377\246\236\267\335 \2357\363\374&\260kf\247\005\255rI\340\244\205\203\256\362g<\037\002\0334s\322\372\013\354\376=\204\030\264]\016A\214td\2741\336\240\263\353H{\276*\352\323a\021C\227@\027n\313\325LM\326\314c\nw\344\222\355e'+q\311\316x>\0046h\346\211\331\026\365\321z%0E\272\034\2025\350\310Ub\221mK\373\220\366QT\371\213\302\"\206\003\200.\334\273\207\230\232\201\265\306\024\356\345\t\367\312NV\342\277\261\360|\bl\320\341?\237,\307\217\364J`\212Y8)j\375\275\252\304\017\332\226\333\r\301\242\250\337;\251D!\006-\\\225[#\035\031/G\241(\361\347\022\303\271\234\254\351SO\315\370\020\330\215\357~\023X\2433\305\224\3009\262pR\324\327Wy\245\036\231\001\001\033h\341~&M\201Go\240K\333\032s\211\237Xk\314\306(\317\353\220\301i\372\026\3073\247\n\356\347${Q\250\223\354\321\364\224\255\344\t\303_*\371;\177=%`9I\355\312\234u\323\302DB\030EYp\244'V\351\246\021\206\006Z]\034)\324\203q\277O\267\227\200\\\007A5\375W\362\316\360\370 \027\334[Ft\310\252\245<>\b\3307\313\207\0352\274b\017\231\0026\320\357\374L\232/\216\336m\226\2334\346?\023\260\326\265\241P\263\373\r\257\322\331,\243fc\024\361\343H\366\242}\013\365\217\305\005w\345\022\253\276T\337v\376zJ\300r\222\367\271\025\352\213\251\210\2040\212\262\340eN\254\377a\"!\f\264\2728R\205+\342S\236C\003-\270\016\202j\327\256\311\261\315\335@.\225\266\214\350\275ygx|\020\235n\273#:dU\304\036\037\004l\215\363\325\230\031^1\221\332\001\0016\215\313#t\275\362\261\267\003Z\272pe\234\352;\376\364\005\356\343\220\257\211\023M/1\017\037\b\235\334\2665\327qS\021!\030\212I\367_T\223\3653c(\263\3334\341\374\2302U\245x\370@\\\016)\205V\377\302\210%\300\344\022{\242\372,k\265om\0016\215\313#t\275\362\261\267\003Z\272pe\234\352;\376\364\005\356\343\220\257\211\023M/1\017\037\b\235\334\2665\327qS\021!\030\212I\367_T\223\3653c(\263\3334\341\374\2302U\245x\370@\\\016)\205V\377\302\210%\300\344\022{\242\372,k\265om\0016\215\313#t\275\362\261\267\003Z\272pe\234\352;\376\364\005\356\343\220\257\211\023M/1\017\037\b\235\334\2665\327qS\021!\030\212I\367_T\223\3653c(\263\3334\341\374\2302U\245x\370@\\\016)\205V\377\302\210%\300\344\022{\242\372,k\265om\001\001ln\266j+\377\251z\005\361\3734\357\207tW\277\021B`\344$\301\211&\031Ug\315\003\264\262\367\276},\326\216\017> \\\034\244\234\371\3543\306\240\001ln\266j+\377\251z\005\361\3734\357\207tW\277\021B`\344$\301\211&\031Ug\315\003\264\262\367\276},\326\216\017> \\\034\244\234\371\3543\306\240\001ln\266j+\377\251z\005\361\3734\357\207tW\277\021B`\344$\301\211&\031Ug\315\003\264\262\367\276},\326\216\017> \\\034\244\234\371\3543\306\240\001ln\266j+\377\251z\005\361\3734\357\207tW\277\021B`\344$\301\211&\031Ug\315\003\264\262\367\276},\326\216\017> \\\034\244\234\371\3543\306\240\001ln\266j+\377\251z\005\361\3734\357\207tW\277\021B`\344$\301\211&\031Ug\315\003\264\262\367\276},\326\216\017> \\\034\244\234\371\3543\306\240\001\001\330\225)N\371\365\314\336\037 \270p\271\250,\201bx\227\264I\253i\023\031\252\261\2060\344Hs\374:WSDJ\356\373h\313\214\203\377\177\305(\226l\334\202'\352\354fo\231\020\\8\312T\026\3261<\335Z\262\303\242\237\232U\316C\030r$\257~\035\275\277\"%w\3534\363F\327\351\251\364\024K6nA\205uv3\241\332\b.\034e*\013k\216\036\370-Y\367Q\331M\274g\267\f9\022\301?\230\310\311\021\204\255\343\032\357#\375\342\302z\n\263\0337\266\324\254;\217\306m\004\027\016\244\025\223\243G\017|\200\272\355\276\372\260^\245\315\006\212\t\366\211Ld\362\236B\300\347\r\341\207\350qa=\005\317\233\215[jV\213\321c\240\002\235\007R\234\337\307\265\221>@]\340_}X/\304\360\003E\222{\322&2yO!`\345\220\346\325t\256\246\210\224\361\333\320\2735+\323\376\247P\001\001\235\016eT,/\245\267\030\344\220\341#\327\377\376cm\b\\p_\372MU\261!\300\3434\3135V;3o\037@\272\367\242\0232\362\021%\356\333\215\266\205\352\365\265\017\370ZI{\211\230\275S\210\005\2636\334)\234\223k1x\003\212\022\257\374tq\302\364(\001\235\016eT,/\245\267\030\344\220\341#\327\377\376cm\b\\p_\372MU\261!\300\3434\3135V;3o\037@\272\367\242\0232\362\021%\356\333\215\266\205\352\365\265\017\370ZI{\211\230\275S\210\005\2636\334)\234\223k1x\003\212\022\257\374tq\302\364(\001\235\016eT,/\245\267\030\344\220\341#\327\377\376cm\b\\p_\372MU\261!\300\3434\3135V;3o\037@\272\367\242\0232\362\021%\356\333\215\266\205\352\365\265\017\370ZI{\211\230\275S\210\005\2636\334)\234\223k1x\003\212\022\257\374tq\302\364(\001\001\0278_\331\031\362\"\224\263l\007e\250\260UO\204\356\233n)\025\026/g\206\300\353\320\266'\337kb\315\030\345\032\313ju\365G<\0039H\341F+;f\221\370\264\t\257\325\375\377\321\241\037\200\262{?:q\251\247m\020]\367iL\275\246z(\002.p\276\2372\311D\005K\330\016\312}M\252\236%\361\033\334R*,^\316!\255\373\215AN\223\326\304\2670\3474\273\324\352\307\216x\006r\220\357\214Vv\314\017\335E\022s\207\327\323\217o>-I\366~t\342\177c\332 \272\303\322\230Wa\364P\004\\\340Q\023d\277\210\n\226\235\034\271\372\232y\021J\3176\225\244TX\274\261Bw\3337\202\234\013\201\245C`\343h[\205\371\2431\360\f\344\r\3635\254\354\265\036\227\212$\346#\203\2133\336|Z\222\301\374\350\351\376\306\231@Y\253\211\035\256\302\305\240\b\270\355\242&\310S=\024\001\001.\340\242LW\302\247\332@\262\366\374\375\3233\221\335\212H\3575u\3071\3150\343\320A\234\026^\261\204\3616\007\312\372\031\311\210\024\002\\\355i\230\256\251c\231\200I\301\325\327\213f\017\2279\220\363j\352\243b\267`\353\215\202\025,\274O%\317l\016\271\3312\277=(\004\270\367\322\035q\177\306\037-\222\257\207\203;\314\036\003r\r\313\324\371k\304C\300\3737)*XU\236J\263\330\034_\237dSzP\b]\303\211:\342\376\241>Z\ts#+v\265<\006\344\032\273\205\337\326\245\206\255\333nRT\260\252\021\224K\2358\276\023\310\246\364\240\020\272\253?t\351\321o|\264\022\346FV\354Gx\f\3454['\223\201g!w\233\334\244\250My\"\005\226\027pQ&\275a\305m Y{~\350\377\217\336\370E$\341\214\254\365\216\360\030\347h\266N\013/\316B\356\033\225e}\232\362D\n\001\001\\\367\211t\3773\017\003\3444\266\234,U\021\005\001\\\367\211t\3773\017\003\3444\266\234,U\021\005\001\\\367\211t\3773\017\003\3444\266\234,U\021\005\001\\\367\211t\3773\017\003\3444\266\234,U\021\005\001\\\367\211t\3773\017\003\3444\266\234,U\021\005\001\\\367\211t\3773\017\003\3444\266\234,U\021\005\001\\\367\211t\3773\017\003\3444\266\234,U\021\005\001\\\367\211t\3773\017\003\3444\266\234,U\021\005\001\\\367\211t\3773\017\003\3444\266\234,U\021\005\001\\\367\211t\3773\017\003\3444\266\234,U\021\005\001\\\367\211t\3773\017\003\3444\266\234,U\021\005\001\\\367\211t\3773\017\003\3444\266\234,U\021\005\001\\\367\211t\3773\017\003\3444\266\234,U\021\005\001\\\367\211t\3773\017\003\3444\266\234,U\021\005\001\\\367\211t\3773\017\003\3444\266\234,U\021\005\001\001\270\253\374\203\3541Cw6\034Q\230\342\217\017\006\347\215R}2\246\247\037\264H\313'\026U\"\024\bY\301#\254\243\245B\317\235\340\322t\323\314x0\373\334\312\237\275\251\241\3709\032\266\025\260\362=\240@\222\3465\371\201\261J\226\\\303~\327v\216\267\255\033\016\276Lq\321\221\003\345\320)\250\031S\305\231Z$\363\205\013\274\021\n\004\272\366\207V\307\304!\361\330pi:\377f<\030\353ne\331\310\302\306|\212\r[\234Xy\210P Is\214\352\326\316%K.\367?\375;G\315\300\233\007_&\256\376\336\227\344h\202T\232\277\364\332-\022\357\324\223^\236\005\002]{\325+\365b\206\356l8\242\035\3513\036\f\3437\244\372dac>E\220\273N,\252D(\020\262\257Fukg\204\263\027\355\211\350\213\265\360`\333\225\271\023W\177o\335r4A*M\311zm\200\t\341j\337/O\224\001\001]\366#u\326\261\224\002\272\301F\352\201O\005\004Y\257\214\371/\236\n\b\262s5\337^\021\024\020I\346j\223\274\"( \222\341\324\013UDP@\t\357\205\026\252\210\240\200\022\363',y=m-$\313NX\362z\332ZH\273\234\260\311\364\231\264\220[\025M\277\305\037E\r\266*\232S\247>\212\032AT\031\246c|94\202\2502a\306\370rh)}d\302\241\335\344\320R\372\310\251o\227\345\215\244\331\275\177\336\003\3477e\237W\376\221\006\343n\312\023\256\321\017\f\353\334\271&q\217\036\030\373\225_L\3423<0\333\007\276\230\351fx`\233\016Q\035\377\314\360\300\033\034\242:\323\265\315\25568it\213G\267wlp\322\350;\216C\356\330\340\211\375v1\206\361\235\355?\327\354b!\317\027\367~\203\365\304B\263.\303\374+\307\245\204K\\\253\325V\243g%\226\270{\207\254k\316J\001\001\272\2575\223U\210mZ\220\266T2\302o\003\343\334_\230\377\265\267\356\235\367\374Vk\261\005\bI\341\205,\362\364\037\2124)\372\275\376\017\030\333\016\242t;1!\263\\{#\352/\021(@\022\313\234MSc\370\344\215e\023q3x\3006p\211\327\365\245%\001\272\2575\223U\210mZ\220\266T2\302o\003\343\334_\230\377\265\267\356\235\367\374Vk\261\005\bI\341\205,\362\364\037\2124)\372\275\376\017\030\333\016\242t;1!\263\\{#\352/\021(@\022\313\234MSc\370\344\215e\023q3x\3006p\211\327\365\245%\001\272\2575\223U\210mZ\220\266T2\302o\003\343\334_\230\377\265\267\356\235\367\374Vk\261\005\bI\341\205,\362\364\037\2124)\372\275\376\017\030\333\016\242t;1!\263\\{#\352/\021(@\022\313\234MSc\370\344\215e\023q3x\3006p\211\327\365\245%\001\001Y\346\205X\277c\335\347\334\276:;b\204\001Y\346\205X\277c\335\347\334\276:;b\204\001Y\346\205X\277c\335\347\334\276:;b\204\001Y\346\205X\277c\335\347\334\276:;b\204\001Y\346\205X\277c\335\347\334\276:;b\204\001Y\346\205X\277c\335\347\334\276:;b\204\001Y\346\205X\277c\335\347\334\276:;b\204\001Y\346\205X\277c\335\347\334\276:;b\204\001Y\346\205X\277c\335\347\334\276:;b\204\001Y\346\205X\277c\335\347\334\276:;b\204\001Y\346\205X\277c\335\347\334\276:;b\204\001Y\346\205X\277c\335\347\334\276:;b\204\001Y\346\205X\277c\335\347\334\276:;b\204\001Y\346\205X\277c\335\347\334\276:;b\204\001Y\346\205X\277c\335\347\334\276:;b\204\001Y\346\205X\277c\335\347\334\276:;b\204\001Y\346\205X\277c\335\347\334\276:;b\204\001"

.Lstatic.48:
	.ascii	"\000\000\001\360\002\341\3615\003&\342\205\362+6\322\004\303'r\343j\206\034\363\214,\0277v\323\352\005\333\304`(\336sg\344Nk}\207\b\035\242\364\272\215\264-c\03018\rw\231\324\307\353[\006L\334\331\305\013a\270)$\337\375t\212h\301\345VO\253l\245~\221\210\"\tJ\036 \243T\365\255\273\314\216Q\265\276.Xd\237\031\3472\3179\223\016Cx\200\232\370\325\247\310?\354n\\\260\007\241M|\335f\332_\306Z\f\230b0\271\263*\321%\204\3404\376\357u\351\213\026i\033\302q\346\316W\236P\275\254\313m\257\246>\177\367\222B\211\300#\374\n\267K\330\037S!I\244\220U\252\366A\256=\274\312\315\235\217\251RH\266\327\277\373/\262Y\227e^\240{\032p\350\0253\356\320\203:E\224\022\017\020D\021y\225\201\023\233;\371F\326\372\250G\311\234@<\355\202o\024]z\261\226"

.Lstatic.49:
	.ascii	"\001\002\004\b\020 @\200-Z\264E\2129r\344\345\347\343\353\373\333\233\0336l\330\235\027.\\\270]\272Y\262I\222\t\022$H\220\r\0324h\320\2157n\334\225\007\016\0348p\340\355\367\303\253{\366\301\257s\346\341\357\363\313\273[\266A\202)R\244e\312\271_\276Q\242i\322\211?~\374\325\207#F\2145j\324\205'N\234\025*T\250}\372\331\237\023&L\230\035:t\350\375\327\203+V\254u\352\371\337\223\013\026,X\260M\232\0312d\310\275W\256q\342\351\377\323\213;v\354\365\307\243k\326\201/^\274U\252y\362\311\277S\246a\302\251\177\376\321\2173f\314\265G\2161b\304\245g\316\261O\236\021\"D\210=z\364\305\247c\306\241o\336\221\017\036<x\360\315\267C\206!B\204%J\224\005\n\024(P\240m\332\231\037>|\370\335\227\003\006\f\0300`\300\255w\356\361\317\263K\226"

.Lstatic.51:
	.asciz	"\000\000\000\000\000\000\000\000\000\000\000\000\000\004\000\000\000\000\000\000\000\000\000\000\000\000\000\000\000\000\000\000\017\b\b\b\b\b\b\b\b\b\f\b\b\b\b\b\017\017\017\017\017\017\017\017\017\017\b\b\b\b\f\b\b\r\r\r\r\r\r\r\r\r\r\r\r\r\r\r\r\r\r\r\r\r\r\r\r\r\r\b\b\b\b\000\000\002\002\002\002\002\002\002\002\002\002\002\002\002\002\002\002\002\002\002\002\002\002\002\002\002\002\000\000\000\000\000\000\000\000\000\000\000\000\000\000\000\000\000\000\000\000\000\000\000\000\000\000\000\000\000\000\000\000\000\000\000\000\000\000\000\000\000\000\000\000\000\000\000\000\000\000\000\000\000\000\000\000\000\000\000\000\000\000\000\000\000\000\000\000\000\000\000\000\000\000\000\000\000\000\000\000\000\000\000\000\000\000\000\000\000\000\000\000\000\000\000\000\000\000\000\000\000\000\000\000\000\000\000\000\000\000\000\000\000\000\000\000\000\000\000\000\000\000\000\000\000\000\000\000\000\000\000\000"

