# What must not come out: the array named inside the loop, and indexed by a computed number. Comments and directives taken out.
.LCPI1_0:
	.quad	0x401c000000000000
.LCPI1_2:
	.quad	0x3ff0000000000000
.LCPI1_3:
	.quad	0x3fb5555555555555
.LCPI1_4:
	.quad	0x3cb0000000000000
.LCPI1_15:
	.quad	0x7ff8000000000000
.LCPI1_16:
	.quad	0xfff0000000000000
.LCPI1_17:
	.quad	0x408ff80000000000
.LCPI1_18:
	.quad	0xbff0000000000000
.LCPI1_19:
	.quad	0x3ffd67f1c864beb5
.LCPI1_20:
	.quad	0x3fe0000000000000
.LCPI1_21:
	.quad	0x4010000000000000
.LCPI1_1:
	.quad	0x8000000000000000
	.quad	0x8000000000000000
.LCPI1_5:
	.quad	0xbf66c16c16c16c17
	.quad	0x3f4a01a01a01a01a
.LCPI1_6:
	.quad	0xbf43813813813814
	.quad	0x3f4b951e2b18ff23
.LCPI1_7:
	.quad	0xbf5f6ab0d9993c7d
	.quad	0x3f7a41a41a41a41a
.LCPI1_8:
	.quad	0xbf9e4286cb0f5398
	.quad	0x3fc6fe96381e0680
.LCPI1_9:
	.quad	0xbff6476701181f3a
	.quad	0x402ace44322ce006
.LCPI1_10:
	.quad	0xc0639b2525cccc1b
	.quad	0x40a12234e81b4e82
.LCPI1_11:
	.quad	0xc0e1a198ae1c4ab8
	.quad	0x41251a2089a6e11a
.LCPI1_12:
	.quad	0xc16d1089b142d357
	.quad	0x41b6d29a0f6433b8
.LCPI1_13:
	.quad	0xc20445119d9e466f
	.quad	0x42543779bc9d4025
.LCPI1_14:
	.quad	0xc2a6800b7bc07a8d
	.quad	0x42fbc8cd6f8f1f75
.LCPI2_0:
	.quad	0x3fe62e42fefa39ef
	.quad	0x3ffcab0bfa2a2002
.LCPI2_1:
	.quad	0x40096ca77c922cf9
	.quad	0x401326643c4479c9
.LCPI2_2:
	.quad	0x401a51273acf01ca
	.quad	0x40210ce1f32dcc30
.LCPI2_3:
	.quad	0x4025358e82fcb70d
	.quad	0x40299a8921a7f7cf
.LCPI2_4:
	.quad	0x402e357590954d15
	.quad	0x403180973f3a8d74
.LCPI2_5:
	.quad	0x4033fcba16d50143
	.quad	0x40368d5a9c3b32ce
.LCPI2_6:
	.quad	0x403930f3df162a42
	.quad	0x403be636a63fd346
.LCPI2_7:
	.quad	0x403eabff061f1a84
	.quad	0x4040c0a63f2f353a
.LCPI2_8:
	.quad	0x4042329df2d5ee52
	.quad	0x4043ab8153363985
.LCPI2_9:
	.quad	0x40452af57aed77be
	.quad	0x4046b0a8643472a9
.LCPI2_10:
	.quad	0x40483c4faba84f06
	.quad	0x4049cda78b856a45
.LCPI2_11:
	.quad	0x404b6472034e8d14
	.quad	0x404d007622cd65e7
.LCPI2_12:
	.quad	0x404ea17f717c6794
	.quad	0x405023aeb67e4fef
.LCPI2_13:
	.quad	0x4050f8f18d330240
	.quad	0x4051d07353917231
.LCPI2_14:
	.quad	0x4052aa208b59d0e5
	.quad	0x405385e6fd9e5a40
.LCPI2_15:
	.quad	0x405463b59b942084
	.quad	0x4055437c633ace4a
.LCPI2_16:
	.quad	0x4056252c474896ba
	.quad	0x405708b719e11658
.LCPI2_17:
	.quad	0x4057ee0f79b26758
	.quad	0x4058d528c1243d96
.LCPI2_18:
	.quad	0x4059bdf6f75257a3
	.quad	0x405aa86ec2969812
.LCPI2_19:
	.quad	0x405b94855c702ba2
	.quad	0x405c8230869ca105
.LCPI2_20:
	.quad	0x405d7166813e12ee
	.quad	0x405e621e01eeba4f
.LCPI2_21:
	.quad	0x405f544e2ba69cf1
	.quad	0x406023f743addd9f
.LCPI2_22:
	.quad	0x40609e7b7ea41ea9
	.quad	0x406119afe762626b
.LCPI2_23:
	.quad	0x40619590c853a559
	.quad	0x4062121a930c6ec3
.LCPI2_24:
	.quad	0x40628f49ddeb1f31
	.quad	0x40630d1b61e86335
.LCPI2_25:
	.quad	0x40638b8bf8931ddb
	.quad	0x40640a989a33a6cd
.LCPI2_26:
	.quad	0x40648a3e5c12af19
	.quad	0x40650a7a6ee08711
.LCPI2_27:
	.quad	0x40658b4a1d39da73
	.quad	0x40660caaca474746
.LCPI2_28:
	.quad	0x40668e99f0757979
	.quad	0x406711152043b2c4
.LCPI2_29:
	.quad	0x40679419ff26dc59
	.quad	0x406817a6467f6fb9
.LCPI2_30:
	.quad	0x40689bb7c2a0aea1
	.quad	0x4069204c51e7c761
.LCPI2_31:
	.quad	0x4069a561e3e1a4bd
	.quad	0x406a2af6787e4609
.LCPI2_32:
	.quad	0x406ab1081f509726
	.quad	0x406b3794f6d9d7af
.LCPI2_33:
	.quad	0x406bbe9b2bdfb621
	.quad	0x406c4618f8cc56f7
.LCPI2_34:
	.quad	0x406cce0ca5179100
	.quad	0x406d567484b8b7b6
.LCPI2_35:
	.quad	0x406ddf4ef7a05a70
	.quad	0x406e689a69396bef
.LCPI2_36:
	.quad	0x406ef2554ff15148
	.quad	0x406f7c7e2cc66183
.LCPI2_37:
	.quad	0x40700389c56e3462
	.quad	0x40704909ff8b652b
.LCPI2_38:
	.quad	0x40708ebf13dbf263
	.quad	0x4070d4a85602b129
.LCPI2_39:
	.quad	0x40711ac51df8932a
	.quad	0x40716114c7e34736
.LCPI2_40:
	.quad	0x4071a796b3ede1ac
	.quad	0x4071ee4a46236d3e
.LCPI2_41:
	.quad	0x4072352ee64b46d5
	.quad	0x40727c43ffc72962
.LCPI2_42:
	.quad	0x4072c3890172d057
	.quad	0x40730afd5d851956
.LCPI2_43:
	.quad	0x407352a089728f1b
	.quad	0x40739a71fdd14947
.LCPI2_44:
	.quad	0x4073e271363e0df7
	.quad	0x40742a9db142a36a
.LCPI2_45:
	.quad	0x407472f6f03d410c
	.quad	0x4074bb7c77491066
.LCPI2_46:
	.quad	0x4075042dcd27af64
	.quad	0x40754d0a7b2ba658
.LCPI2_47:
	.quad	0x407596120d23c4ec
	.quad	0x4075df4411475a1c
.LCPI2_48:
	.quad	0x407628a018233bed
	.quad	0x40767225b4879462
	.type	"gamma_ln::gamma_ln::summed",@function
"gamma_ln::gamma_ln::summed":
	pushq	%r15
	pushq	%r14
	pushq	%r12
	pushq	%rbx
	subq	$232, %rsp
	movapd	%xmm0, %xmm4
	movq	%rdi, %rbx
	movabsq	$4503599627370496, %r14
	xorpd	%xmm1, %xmm1
	movsd	.LCPI1_0(%rip), %xmm0
	ucomisd	%xmm4, %xmm0
	jbe	.LBB1_7
	movq	%xmm4, %rax
	movabsq	$9223372036854775807, %rdx
	andq	%rax, %rdx
	movq	%rdx, %rsi
	shrq	$52, %rsi
	movapd	%xmm4, %xmm1
	cmpl	$1074, %esi
	ja	.LBB1_6
	movq	%rdx, %rcx
	shrq	$53, %rcx
	xorpd	%xmm1, %xmm1
	cmpl	$511, %ecx
	jb	.LBB1_4
	leaq	-1(%r14), %rcx
	andq	%rcx, %rdx
	orq	%r14, %rdx
	movb	$50, %cl
	subb	%sil, %cl
	shrq	%cl, %rdx
	incq	%rdx
	shrq	%rdx
	xorps	%xmm1, %xmm1
	cvtsi2sd	%rdx, %xmm1
.LBB1_4:
	testq	%rax, %rax
	jns	.LBB1_6
	xorpd	.LCPI1_1(%rip), %xmm1
.LBB1_6:
	subsd	%xmm1, %xmm0
	movapd	%xmm0, %xmm1
.LBB1_7:
	movapd	%xmm4, %xmm0
	movsd	%xmm1, 48(%rsp)
	addsd	%xmm1, %xmm0
	movapd	%xmm4, %xmm2
	cmpltsd	.LCPI1_0(%rip), %xmm2
	andpd	%xmm2, %xmm0
	andnpd	%xmm4, %xmm2
	orpd	%xmm0, %xmm2
	movsd	.LCPI1_2(%rip), %xmm5
	movapd	%xmm5, %xmm0
	divsd	%xmm2, %xmm0
	movsd	.LCPI1_3(%rip), %xmm15
	mulsd	%xmm0, %xmm15
	movl	$1, %r15d
	ucomisd	.LCPI1_4(%rip), %xmm0
	movaps	%xmm4, 32(%rsp)
	movapd	%xmm2, 16(%rsp)
	jb	.LBB1_14
	movapd	%xmm0, %xmm1
	mulsd	%xmm0, %xmm1
	movsd	.LCPI1_4(%rip), %xmm2
	mulsd	%xmm15, %xmm2
	movapd	.LCPI1_1(%rip), %xmm3
	xorpd	%xmm2, %xmm3
	movl	$1, %r15d
	movaps	.LCPI1_5(%rip), %xmm4
	movaps	.LCPI1_6(%rip), %xmm5
	movaps	.LCPI1_7(%rip), %xmm6
	movaps	.LCPI1_8(%rip), %xmm7
	movaps	.LCPI1_9(%rip), %xmm8
	movaps	.LCPI1_10(%rip), %xmm9
	movaps	.LCPI1_11(%rip), %xmm10
	movaps	.LCPI1_12(%rip), %xmm11
	movaps	.LCPI1_13(%rip), %xmm12
	movaps	.LCPI1_14(%rip), %xmm13
	movabsq	$-4372168754313892269, %rax
	jmp	.LBB1_9
.LBB1_11:
	addsd	%xmm14, %xmm15
	incq	%r15
	cmpq	$22, %r15
	je	.LBB1_12
.LBB1_9:
	mulsd	%xmm1, %xmm0
	movups	%xmm4, 64(%rsp)
	movups	%xmm5, 80(%rsp)
	movups	%xmm6, 96(%rsp)
	movups	%xmm7, 112(%rsp)
	movups	%xmm8, 128(%rsp)
	movups	%xmm9, 144(%rsp)
	movups	%xmm10, 160(%rsp)
	movups	%xmm11, 176(%rsp)
	movups	%xmm12, 192(%rsp)
	movups	%xmm13, 208(%rsp)
	movq	%rax, 224(%rsp)
	movsd	56(%rsp,%r15,8), %xmm14
	mulsd	%xmm0, %xmm14
	ucomisd	%xmm14, %xmm2
	jbe	.LBB1_11
	ucomisd	%xmm3, %xmm14
	jbe	.LBB1_11
	jmp	.LBB1_13
.LBB1_12:
	movl	$22, %r15d
.LBB1_13:
	movapd	32(%rsp), %xmm4
	movsd	.LCPI1_2(%rip), %xmm5
	movapd	16(%rsp), %xmm2
.LBB1_14:
	movsd	.LCPI1_15(%rip), %xmm0
	ucomisd	%xmm2, %xmm2
	jp	.LBB1_25
	movq	%xmm2, %rdi
	cmpq	%r14, %rdi
	jae	.LBB1_18
	testq	%rdi, %rdi
	je	.LBB1_24
	bsrq	%rdi, %rcx
	xorl	$63, %ecx
	addl	$-11, %ecx
	shlq	%cl, %rdi
	xorps	%xmm0, %xmm0
	cvtsi2sd	%ecx, %xmm0
	addsd	.LCPI1_17(%rip), %xmm0
	jmp	.LBB1_20
.LBB1_18:
	movq	%rdi, %rax
	shrq	$52, %rax
	cmpl	$2046, %eax
	ja	.LBB1_21
	movsd	.LCPI1_17(%rip), %xmm0
.LBB1_20:
	movsd	%xmm15, 8(%rsp)
	callq	"logarithm::ln::of_wide"
	movapd	16(%rsp), %xmm2
	movsd	.LCPI1_2(%rip), %xmm5
	movapd	32(%rsp), %xmm4
	movsd	8(%rsp), %xmm15
	jmp	.LBB1_25
.LBB1_21:
	movabsq	$9218868437227405312, %rax
	cmpq	%rax, %rdi
	je	.LBB1_22
	negq	%rdi
	jno	.LBB1_25
.LBB1_24:
	movsd	.LCPI1_16(%rip), %xmm0
	jmp	.LBB1_25
.LBB1_22:
	movapd	%xmm2, %xmm0
.LBB1_25:
	movsd	.LCPI1_18(%rip), %xmm1
	addsd	%xmm0, %xmm1
	mulsd	%xmm2, %xmm1
	movsd	.LCPI1_19(%rip), %xmm2
	subsd	%xmm0, %xmm2
	mulsd	.LCPI1_20(%rip), %xmm2
	addsd	%xmm1, %xmm2
	addsd	%xmm2, %xmm15
	cvttsd2si	48(%rsp), %r12
	testl	%r12d, %r12d
	je	.LBB1_26
	movl	%r12d, %eax
	andl	$3, %eax
	xorl	%ecx, %ecx
	cmpl	$4, %r12d
	jb	.LBB1_31
	movl	%r12d, %edx
	andl	$-4, %edx
	xorl	%ecx, %ecx
	xorpd	%xmm0, %xmm0
	movsd	.LCPI1_2(%rip), %xmm5
	movsd	.LCPI1_21(%rip), %xmm1
.LBB1_29:
	movapd	%xmm4, %xmm2
	addsd	%xmm0, %xmm2
	leal	1(%rcx), %esi
	xorps	%xmm3, %xmm3
	cvtsi2sd	%rsi, %xmm3
	mulsd	%xmm5, %xmm2
	addsd	%xmm4, %xmm3
	mulsd	%xmm2, %xmm3
	leal	2(%rcx), %esi
	xorps	%xmm2, %xmm2
	cvtsi2sd	%rsi, %xmm2
	addsd	%xmm4, %xmm2
	mulsd	%xmm3, %xmm2
	leal	3(%rcx), %esi
	xorps	%xmm5, %xmm5
	cvtsi2sd	%rsi, %xmm5
	addsd	%xmm4, %xmm5
	mulsd	%xmm2, %xmm5
	addsd	%xmm1, %xmm0
	addl	$4, %ecx
	cmpl	%ecx, %edx
	jne	.LBB1_29
	testl	%eax, %eax
	je	.LBB1_32
.LBB1_31:
	movl	%ecx, %edx
	xorps	%xmm0, %xmm0
	cvtsi2sd	%rdx, %xmm0
	addsd	%xmm4, %xmm0
	mulsd	%xmm0, %xmm5
	incl	%ecx
	decl	%eax
	jne	.LBB1_31
.LBB1_32:
	movsd	.LCPI1_15(%rip), %xmm0
	ucomisd	%xmm5, %xmm5
	jp	.LBB1_39
	movq	%xmm5, %rdi
	cmpq	%r14, %rdi
	jae	.LBB1_36
	testq	%rdi, %rdi
	je	.LBB1_42
	bsrq	%rdi, %rcx
	xorl	$63, %ecx
	addl	$-11, %ecx
	shlq	%cl, %rdi
	xorps	%xmm0, %xmm0
	cvtsi2sd	%ecx, %xmm0
	addsd	.LCPI1_17(%rip), %xmm0
	jmp	.LBB1_38
.LBB1_26:
	xorl	%r12d, %r12d
	jmp	.LBB1_44
.LBB1_36:
	movq	%rdi, %rax
	shrq	$52, %rax
	cmpl	$2046, %eax
	ja	.LBB1_40
	movsd	.LCPI1_17(%rip), %xmm0
.LBB1_38:
	movsd	%xmm15, 8(%rsp)
	callq	"logarithm::ln::of_wide"
	movsd	8(%rsp), %xmm15
.LBB1_39:
	movapd	%xmm0, %xmm5
	jmp	.LBB1_43
.LBB1_40:
	movabsq	$9218868437227405312, %rax
	cmpq	%rax, %rdi
	je	.LBB1_43
	negq	%rdi
	jno	.LBB1_39
.LBB1_42:
	movsd	.LCPI1_16(%rip), %xmm5
.LBB1_43:
	subsd	%xmm5, %xmm15
.LBB1_44:
	movsd	%xmm15, (%rbx)
	movl	%r12d, 8(%rbx)
	movl	%r15d, 12(%rbx)
	addq	$232, %rsp
	popq	%rbx
	popq	%r12
	popq	%r14
	popq	%r15
	retq
.Lfunc_end1:
	.type	"gamma_ln::gamma_ln::tabulated",@function
"gamma_ln::gamma_ln::tabulated":
	subq	$680, %rsp
	cvttsd2si	%xmm0, %rax
	xorpd	%xmm0, %xmm0
	movapd	%xmm0, -128(%rsp)
	movq	$0, -112(%rsp)
	movaps	.LCPI2_0(%rip), %xmm0
	movups	%xmm0, -104(%rsp)
	movaps	.LCPI2_1(%rip), %xmm0
	movups	%xmm0, -88(%rsp)
	movaps	.LCPI2_2(%rip), %xmm0
	movups	%xmm0, -72(%rsp)
	movaps	.LCPI2_3(%rip), %xmm0
	movups	%xmm0, -56(%rsp)
	movaps	.LCPI2_4(%rip), %xmm0
	movups	%xmm0, -40(%rsp)
	movaps	.LCPI2_5(%rip), %xmm0
	movups	%xmm0, -24(%rsp)
	movaps	.LCPI2_6(%rip), %xmm0
	movups	%xmm0, -8(%rsp)
	movaps	.LCPI2_7(%rip), %xmm0
	movups	%xmm0, 8(%rsp)
	movaps	.LCPI2_8(%rip), %xmm0
	movups	%xmm0, 24(%rsp)
	movaps	.LCPI2_9(%rip), %xmm0
	movups	%xmm0, 40(%rsp)
	movaps	.LCPI2_10(%rip), %xmm0
	movups	%xmm0, 56(%rsp)
	movaps	.LCPI2_11(%rip), %xmm0
	movups	%xmm0, 72(%rsp)
	movaps	.LCPI2_12(%rip), %xmm0
	movups	%xmm0, 88(%rsp)
	movaps	.LCPI2_13(%rip), %xmm0
	movups	%xmm0, 104(%rsp)
	movaps	.LCPI2_14(%rip), %xmm0
	movups	%xmm0, 120(%rsp)
	movaps	.LCPI2_15(%rip), %xmm0
	movups	%xmm0, 136(%rsp)
	movaps	.LCPI2_16(%rip), %xmm0
	movups	%xmm0, 152(%rsp)
	movaps	.LCPI2_17(%rip), %xmm0
	movups	%xmm0, 168(%rsp)
	movaps	.LCPI2_18(%rip), %xmm0
	movups	%xmm0, 184(%rsp)
	movaps	.LCPI2_19(%rip), %xmm0
	movups	%xmm0, 200(%rsp)
	movaps	.LCPI2_20(%rip), %xmm0
	movups	%xmm0, 216(%rsp)
	movaps	.LCPI2_21(%rip), %xmm0
	movups	%xmm0, 232(%rsp)
	movaps	.LCPI2_22(%rip), %xmm0
	movups	%xmm0, 248(%rsp)
	movaps	.LCPI2_23(%rip), %xmm0
	movups	%xmm0, 264(%rsp)
	movaps	.LCPI2_24(%rip), %xmm0
	movups	%xmm0, 280(%rsp)
	movaps	.LCPI2_25(%rip), %xmm0
	movups	%xmm0, 296(%rsp)
	movaps	.LCPI2_26(%rip), %xmm0
	movups	%xmm0, 312(%rsp)
	movaps	.LCPI2_27(%rip), %xmm0
	movups	%xmm0, 328(%rsp)
	movaps	.LCPI2_28(%rip), %xmm0
	movups	%xmm0, 344(%rsp)
	movaps	.LCPI2_29(%rip), %xmm0
	movups	%xmm0, 360(%rsp)
	movaps	.LCPI2_30(%rip), %xmm0
	movups	%xmm0, 376(%rsp)
	movaps	.LCPI2_31(%rip), %xmm0
	movups	%xmm0, 392(%rsp)
	movaps	.LCPI2_32(%rip), %xmm0
	movups	%xmm0, 408(%rsp)
	movaps	.LCPI2_33(%rip), %xmm0
	movups	%xmm0, 424(%rsp)
	movaps	.LCPI2_34(%rip), %xmm0
	movups	%xmm0, 440(%rsp)
	movaps	.LCPI2_35(%rip), %xmm0
	movups	%xmm0, 456(%rsp)
	movaps	.LCPI2_36(%rip), %xmm0
	movups	%xmm0, 472(%rsp)
	movaps	.LCPI2_37(%rip), %xmm0
	movups	%xmm0, 488(%rsp)
	movaps	.LCPI2_38(%rip), %xmm0
	movups	%xmm0, 504(%rsp)
	movaps	.LCPI2_39(%rip), %xmm0
	movups	%xmm0, 520(%rsp)
	movaps	.LCPI2_40(%rip), %xmm0
	movups	%xmm0, 536(%rsp)
	movaps	.LCPI2_41(%rip), %xmm0
	movups	%xmm0, 552(%rsp)
	movaps	.LCPI2_42(%rip), %xmm0
	movups	%xmm0, 568(%rsp)
	movaps	.LCPI2_43(%rip), %xmm0
	movups	%xmm0, 584(%rsp)
	movaps	.LCPI2_44(%rip), %xmm0
	movups	%xmm0, 600(%rsp)
	movaps	.LCPI2_45(%rip), %xmm0
	movups	%xmm0, 616(%rsp)
	movaps	.LCPI2_46(%rip), %xmm0
	movups	%xmm0, 632(%rsp)
	movaps	.LCPI2_47(%rip), %xmm0
	movups	%xmm0, 648(%rsp)
	movaps	.LCPI2_48(%rip), %xmm0
	movups	%xmm0, 664(%rsp)
	movl	%eax, %eax
	movsd	-128(%rsp,%rax,8), %xmm0
	addq	$680, %rsp
	retq
.Lfunc_end2:
