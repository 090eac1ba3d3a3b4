// What must not come out: the array named inside the loop, and indexed by a computed number. Comments and directives taken out.
.LCPI1_0:
	.xword	0xbf66c16c16c16c17
	.xword	0x3f4a01a01a01a01a
.LCPI1_1:
	.xword	0xbf43813813813814
	.xword	0x3f4b951e2b18ff23
.LCPI1_2:
	.xword	0xbf5f6ab0d9993c7d
	.xword	0x3f7a41a41a41a41a
.LCPI1_3:
	.xword	0xbf9e4286cb0f5398
	.xword	0x3fc6fe96381e0680
.LCPI1_4:
	.xword	0xbff6476701181f3a
	.xword	0x402ace44322ce006
.LCPI1_5:
	.xword	0xc0639b2525cccc1b
	.xword	0x40a12234e81b4e82
.LCPI1_6:
	.xword	0xc0e1a198ae1c4ab8
	.xword	0x41251a2089a6e11a
.LCPI1_7:
	.xword	0xc16d1089b142d357
	.xword	0x41b6d29a0f6433b8
.LCPI1_8:
	.xword	0xc20445119d9e466f
	.xword	0x42543779bc9d4025
.LCPI1_9:
	.xword	0xc2a6800b7bc07a8d
	.xword	0x42fbc8cd6f8f1f75
.LCPI1_10:
	.xword	0x3ffd67f1c864beb5
.LCPI2_0:
	.xword	0x3fe62e42fefa39ef
	.xword	0x3ffcab0bfa2a2002
.LCPI2_1:
	.xword	0x40096ca77c922cf9
	.xword	0x401326643c4479c9
.LCPI2_2:
	.xword	0x401a51273acf01ca
	.xword	0x40210ce1f32dcc30
.LCPI2_3:
	.xword	0x4025358e82fcb70d
	.xword	0x40299a8921a7f7cf
.LCPI2_4:
	.xword	0x402e357590954d15
	.xword	0x403180973f3a8d74
.LCPI2_5:
	.xword	0x4033fcba16d50143
	.xword	0x40368d5a9c3b32ce
.LCPI2_6:
	.xword	0x403930f3df162a42
	.xword	0x403be636a63fd346
.LCPI2_7:
	.xword	0x403eabff061f1a84
	.xword	0x4040c0a63f2f353a
.LCPI2_8:
	.xword	0x4042329df2d5ee52
	.xword	0x4043ab8153363985
.LCPI2_9:
	.xword	0x40452af57aed77be
	.xword	0x4046b0a8643472a9
.LCPI2_10:
	.xword	0x40483c4faba84f06
	.xword	0x4049cda78b856a45
.LCPI2_11:
	.xword	0x404b6472034e8d14
	.xword	0x404d007622cd65e7
.LCPI2_12:
	.xword	0x404ea17f717c6794
	.xword	0x405023aeb67e4fef
.LCPI2_13:
	.xword	0x4050f8f18d330240
	.xword	0x4051d07353917231
.LCPI2_14:
	.xword	0x4052aa208b59d0e5
	.xword	0x405385e6fd9e5a40
.LCPI2_15:
	.xword	0x4055437c633ace4a
	.xword	0x4056252c474896ba
.LCPI2_16:
	.xword	0x405708b719e11658
	.xword	0x4057ee0f79b26758
.LCPI2_17:
	.xword	0x4058d528c1243d96
	.xword	0x4059bdf6f75257a3
.LCPI2_18:
	.xword	0x405aa86ec2969812
	.xword	0x405b94855c702ba2
.LCPI2_19:
	.xword	0x405c8230869ca105
	.xword	0x405d7166813e12ee
.LCPI2_20:
	.xword	0x405e621e01eeba4f
	.xword	0x405f544e2ba69cf1
.LCPI2_21:
	.xword	0x406023f743addd9f
	.xword	0x40609e7b7ea41ea9
.LCPI2_22:
	.xword	0x406119afe762626b
	.xword	0x40619590c853a559
.LCPI2_23:
	.xword	0x4062121a930c6ec3
	.xword	0x40628f49ddeb1f31
.LCPI2_24:
	.xword	0x40630d1b61e86335
	.xword	0x40638b8bf8931ddb
.LCPI2_25:
	.xword	0x40640a989a33a6cd
	.xword	0x40648a3e5c12af19
.LCPI2_26:
	.xword	0x40650a7a6ee08711
	.xword	0x40658b4a1d39da73
.LCPI2_27:
	.xword	0x40660caaca474746
	.xword	0x40668e99f0757979
.LCPI2_28:
	.xword	0x406711152043b2c4
	.xword	0x40679419ff26dc59
.LCPI2_29:
	.xword	0x406817a6467f6fb9
	.xword	0x40689bb7c2a0aea1
.LCPI2_30:
	.xword	0x4069204c51e7c761
	.xword	0x4069a561e3e1a4bd
.LCPI2_31:
	.xword	0x406a2af6787e4609
	.xword	0x406ab1081f509726
.LCPI2_32:
	.xword	0x406b3794f6d9d7af
	.xword	0x406bbe9b2bdfb621
.LCPI2_33:
	.xword	0x406c4618f8cc56f7
	.xword	0x406cce0ca5179100
.LCPI2_34:
	.xword	0x406d567484b8b7b6
	.xword	0x406ddf4ef7a05a70
.LCPI2_35:
	.xword	0x406e689a69396bef
	.xword	0x406ef2554ff15148
.LCPI2_36:
	.xword	0x406f7c7e2cc66183
	.xword	0x40700389c56e3462
.LCPI2_37:
	.xword	0x40704909ff8b652b
	.xword	0x40708ebf13dbf263
.LCPI2_38:
	.xword	0x4070d4a85602b129
	.xword	0x40711ac51df8932a
.LCPI2_39:
	.xword	0x40716114c7e34736
	.xword	0x4071a796b3ede1ac
.LCPI2_40:
	.xword	0x4071ee4a46236d3e
	.xword	0x4072352ee64b46d5
.LCPI2_41:
	.xword	0x40727c43ffc72962
	.xword	0x4072c3890172d057
.LCPI2_42:
	.xword	0x40730afd5d851956
	.xword	0x407352a089728f1b
.LCPI2_43:
	.xword	0x40739a71fdd14947
	.xword	0x4073e271363e0df7
.LCPI2_44:
	.xword	0x40742a9db142a36a
	.xword	0x407472f6f03d410c
.LCPI2_45:
	.xword	0x4074bb7c77491066
	.xword	0x4075042dcd27af64
.LCPI2_46:
	.xword	0x40754d0a7b2ba658
	.xword	0x407596120d23c4ec
.LCPI2_47:
	.xword	0x4075df4411475a1c
	.xword	0x407628a018233bed
	.type	"gamma_ln::gamma_ln::summed",@function
"gamma_ln::gamma_ln::summed":
	sub	sp, sp, #240
	stp	d9, d8, [sp, #192]
	fmov	d8, d0
	fmov	d0, #7.00000000
	movi	d9, #0000000000000000
	stp	x20, x19, [sp, #224]
	mov	x19, x0
	stp	d11, d10, [sp, #176]
	stp	x30, x21, [sp, #208]
	fcmp	d8, d0
	b.pl	.LBB1_6
	fmov	x8, d8
	fmov	d1, d8
	ubfx	x9, x8, #52, #11
	cmp	x9, #1074
	b.hi	.LBB1_5
	and	x9, x8, #0x7fffffffffffffff
	movi	d1, #0000000000000000
	lsr	x8, x9, #53
	cmp	x8, #511
	fmov	x8, d8
	b.lo	.LBB1_4
	mov	x10, #4503599627370496
	mov	w11, #1074
	bfxil	x10, x9, #0, #52
	sub	x9, x11, x9, lsr #52
	lsr	x9, x10, x9
	add	x9, x9, #1
	lsr	x9, x9, #1
	ucvtf	d1, x9
.LBB1_4:
	fneg	d2, d1
	cmp	x8, #0
	fcsel	d1, d2, d1, mi
.LBB1_5:
	fmov	d2, #7.00000000
	fsub	d9, d2, d1
.LBB1_6:
	fadd	d1, d8, d9
	fcmp	d8, d0
	mov	x8, #6148914691236517205
	fmov	d0, #1.00000000
	movk	x8, #16309, lsl #48
	mov	x9, #4372995238176751616
	fmov	d2, x9
	fcsel	d10, d1, d8, mi
	fmov	d1, x8
	fdiv	d0, d0, d10
	fmul	d11, d0, d1
	fcmp	d0, d2
	b.ge	.LBB1_8
	mov	w20, #1
	b	.LBB1_12
.LBB1_8:
	fmov	d4, x9
	adrp	x9, .LCPI1_1
	adrp	x10, .LCPI1_0
	ldr	q5, [x9, :lo12:.LCPI1_1]
	adrp	x9, .LCPI1_4
	ldr	q2, [x10, :lo12:.LCPI1_0]
	adrp	x10, .LCPI1_2
	adrp	x11, .LCPI1_3
	ldr	q16, [x9, :lo12:.LCPI1_4]
	adrp	x9, .LCPI1_7
	fmul	d1, d0, d0
	fmul	d3, d11, d4
	fnmul	d4, d11, d4
	ldr	q6, [x10, :lo12:.LCPI1_2]
	ldr	q7, [x11, :lo12:.LCPI1_3]
	adrp	x10, .LCPI1_5
	adrp	x11, .LCPI1_6
	ldr	q19, [x9, :lo12:.LCPI1_7]
	mov	x9, #61011
	ldr	q17, [x10, :lo12:.LCPI1_5]
	ldr	q18, [x11, :lo12:.LCPI1_6]
	adrp	x10, .LCPI1_8
	adrp	x11, .LCPI1_9
	movk	x9, #50446, lsl #16
	ldr	q20, [x10, :lo12:.LCPI1_8]
	ldr	q21, [x11, :lo12:.LCPI1_9]
	movk	x9, #61358, lsl #32
	mov	x8, sp
	mov	w20, #1
	movk	x9, #50002, lsl #48
	mov	x10, sp
	b	.LBB1_10
.LBB1_9:
	fadd	d11, d11, d22
	add	x20, x20, #1
	cmp	x20, #22
	b.eq	.LBB1_12
.LBB1_10:
	fmul	d0, d1, d0
	stur	q2, [sp, #8]
	stur	q5, [sp, #24]
	stur	q6, [sp, #40]
	stur	q7, [sp, #56]
	stur	q16, [sp, #72]
	stur	q17, [sp, #88]
	stur	q18, [sp, #104]
	stur	q19, [sp, #120]
	stur	q20, [x8, #136]
	stur	q21, [x8, #152]
	str	x9, [sp, #168]
	ldr	d22, [x10, x20, lsl #3]
	fmul	d22, d0, d22
	fcmp	d22, d3
	b.pl	.LBB1_9
	fcmp	d22, d4
	b.le	.LBB1_9
.LBB1_12:
	fcmp	d10, d10
	b.vs	.LBB1_37
	fmov	x0, d10
	lsr	x8, x0, #52
	cbnz	x8, .LBB1_16
	cbz	x0, .LBB1_19
	clz	x8, x0
	mov	x9, #272678883688448
	sub	w8, w8, #11
	movk	x9, #16527, lsl #48
	ucvtf	d0, w8
	fmov	d1, x9
	lsl	x0, x0, x8
	fadd	d0, d0, d1
	bl	"logarithm::ln::of_wide"
	b	.LBB1_21
.LBB1_16:
	cmp	x8, #2046
	b.hi	.LBB1_18
	mov	x8, #272678883688448
	movk	x8, #16527, lsl #48
	fmov	d0, x8
	bl	"logarithm::ln::of_wide"
	b	.LBB1_21
.LBB1_18:
	mov	x9, #9221120237041090560
	mov	x10, #-4503599627370496
	mov	x8, #-9223372036854775808
	fmov	d0, x9
	fmov	d1, x10
	cmp	x0, x8
	mov	x8, #9218868437227405312
	fcsel	d0, d0, d1, ne
	cmp	x0, x8
	fcsel	d0, d10, d0, eq
	b	.LBB1_21
.LBB1_19:
	mov	x8, #-4503599627370496
.LBB1_20:
	fmov	d0, x8
.LBB1_21:
	fmov	d1, #-1.00000000
	adrp	x8, .LCPI1_10
	fcvtzu	w21, d9
	ldr	d2, [x8, :lo12:.LCPI1_10]
	fadd	d1, d0, d1
	fsub	d0, d2, d0
	fmov	d2, #0.50000000
	fmul	d1, d10, d1
	fmul	d0, d0, d2
	fadd	d0, d1, d0
	fadd	d9, d11, d0
	cbz	w21, .LBB1_36
	movi	d1, #0000000000000000
	fmov	d2, #1.00000000
	mov	w8, w21
	fmov	d0, #1.00000000
.LBB1_23:
	fadd	d3, d8, d1
	fadd	d1, d1, d2
	subs	w8, w8, #1
	fmul	d0, d0, d3
	b.ne	.LBB1_23
	fcmp	d0, d0
	b.vs	.LBB1_33
	fmov	x0, d0
	lsr	x8, x0, #52
	cbnz	x8, .LBB1_28
	cbz	x0, .LBB1_32
	clz	x8, x0
	mov	x9, #272678883688448
	sub	w8, w8, #11
	movk	x9, #16527, lsl #48
	ucvtf	d0, w8
	fmov	d1, x9
	lsl	x0, x0, x8
	fadd	d0, d0, d1
	bl	"logarithm::ln::of_wide"
	b	.LBB1_35
.LBB1_28:
	cmp	x8, #2046
	b.hi	.LBB1_30
	mov	x8, #272678883688448
	movk	x8, #16527, lsl #48
	fmov	d0, x8
	bl	"logarithm::ln::of_wide"
	b	.LBB1_35
.LBB1_30:
	mov	x8, #9218868437227405312
	cmp	x0, x8
	b.eq	.LBB1_35
	mov	x8, #-9223372036854775808
	cmp	x0, x8
	b.ne	.LBB1_33
.LBB1_32:
	mov	x8, #-4503599627370496
	b	.LBB1_34
.LBB1_33:
	mov	x8, #9221120237041090560
.LBB1_34:
	fmov	d0, x8
.LBB1_35:
	fsub	d9, d9, d0
.LBB1_36:
	str	d9, [x19]
	ldp	d9, d8, [sp, #192]
	stp	w21, w20, [x19, #8]
	ldp	x20, x19, [sp, #224]
	ldp	x30, x21, [sp, #208]
	ldp	d11, d10, [sp, #176]
	add	sp, sp, #240
	ret
.LBB1_37:
	mov	x8, #9221120237041090560
	b	.LBB1_20
.Lfunc_end1:
	.type	"gamma_ln::gamma_ln::tabulated",@function
"gamma_ln::gamma_ln::tabulated":
	str	x29, [sp, #-16]!
	sub	sp, sp, #816
	adrp	x9, .LCPI2_0
	add	x8, sp, #8
	add	x10, sp, #25
	ldr	q1, [x9, :lo12:.LCPI2_0]
	adrp	x9, .LCPI2_1
	add	x11, sp, #505
	ldr	q2, [x9, :lo12:.LCPI2_1]
	adrp	x9, .LCPI2_2
	stp	xzr, xzr, [sp, #8]
	ldr	q3, [x9, :lo12:.LCPI2_2]
	adrp	x9, .LCPI2_3
	str	xzr, [sp, #24]
	stp	q1, q2, [sp, #32]
	ldr	q1, [x9, :lo12:.LCPI2_3]
	adrp	x9, .LCPI2_4
	ldr	q2, [x9, :lo12:.LCPI2_4]
	adrp	x9, .LCPI2_5
	stp	q3, q1, [sp, #64]
	ldr	q1, [x9, :lo12:.LCPI2_5]
	adrp	x9, .LCPI2_6
	stp	q2, q1, [sp, #96]
	ldr	q2, [x9, :lo12:.LCPI2_6]
	adrp	x9, .LCPI2_7
	ldr	q1, [x9, :lo12:.LCPI2_7]
	adrp	x9, .LCPI2_8
	stur	q2, [sp, #128]
	ldr	q2, [x9, :lo12:.LCPI2_8]
	adrp	x9, .LCPI2_9
	stur	q1, [x8, #136]
	ldr	q1, [x9, :lo12:.LCPI2_9]
	adrp	x9, .LCPI2_10
	stur	q2, [x8, #152]
	ldr	q2, [x9, :lo12:.LCPI2_10]
	adrp	x9, .LCPI2_11
	stur	q1, [x8, #168]
	ldr	q1, [x9, :lo12:.LCPI2_11]
	adrp	x9, .LCPI2_12
	stur	q2, [x8, #184]
	ldr	q2, [x9, :lo12:.LCPI2_12]
	adrp	x9, .LCPI2_13
	stur	q1, [x8, #200]
	ldr	q1, [x9, :lo12:.LCPI2_13]
	adrp	x9, .LCPI2_14
	stur	q2, [x8, #216]
	ldr	q2, [x9, :lo12:.LCPI2_14]
	adrp	x9, .LCPI2_15
	stur	q1, [x8, #232]
	ldr	q1, [x9, :lo12:.LCPI2_15]
	adrp	x9, .LCPI2_16
	stur	q2, [x8, #248]
	ldr	q2, [x9, :lo12:.LCPI2_16]
	adrp	x9, .LCPI2_17
	ldr	q3, [x9, :lo12:.LCPI2_17]
	adrp	x9, .LCPI2_18
	stur	q1, [x10, #255]
	add	x10, sp, #41
	ldr	q1, [x9, :lo12:.LCPI2_18]
	adrp	x9, .LCPI2_19
	stur	q2, [x10, #255]
	add	x10, sp, #57
	ldr	q2, [x9, :lo12:.LCPI2_19]
	adrp	x9, .LCPI2_20
	stur	q3, [x10, #255]
	add	x10, sp, #73
	stur	q1, [x10, #255]
	ldr	q1, [x9, :lo12:.LCPI2_20]
	adrp	x9, .LCPI2_21
	add	x10, sp, #89
	ldr	q3, [x9, :lo12:.LCPI2_21]
	adrp	x9, .LCPI2_22
	stur	q2, [x10, #255]
	add	x10, sp, #105
	stur	q1, [x10, #255]
	ldr	q1, [x9, :lo12:.LCPI2_22]
	adrp	x9, .LCPI2_23
	add	x10, sp, #121
	ldr	q2, [x9, :lo12:.LCPI2_23]
	adrp	x9, .LCPI2_24
	stur	q3, [x10, #255]
	add	x10, sp, #137
	stur	q1, [x10, #255]
	ldr	q1, [x9, :lo12:.LCPI2_24]
	adrp	x9, .LCPI2_25
	add	x10, sp, #153
	ldr	q3, [x9, :lo12:.LCPI2_25]
	adrp	x9, .LCPI2_26
	stur	q2, [x10, #255]
	add	x10, sp, #169
	stur	q1, [x10, #255]
	ldr	q1, [x9, :lo12:.LCPI2_26]
	adrp	x9, .LCPI2_27
	add	x10, sp, #185
	ldr	q2, [x9, :lo12:.LCPI2_27]
	adrp	x9, .LCPI2_28
	stur	q3, [x10, #255]
	add	x10, sp, #201
	stur	q1, [x10, #255]
	ldr	q1, [x9, :lo12:.LCPI2_28]
	adrp	x9, .LCPI2_29
	add	x10, sp, #217
	ldr	q3, [x9, :lo12:.LCPI2_29]
	adrp	x9, .LCPI2_30
	stur	q2, [x10, #255]
	add	x10, sp, #233
	stur	q1, [x10, #255]
	ldr	q1, [x9, :lo12:.LCPI2_30]
	adrp	x9, .LCPI2_31
	add	x10, sp, #249
	ldr	q2, [x9, :lo12:.LCPI2_31]
	adrp	x9, .LCPI2_32
	stur	q3, [x10, #255]
	add	x10, sp, #265
	stur	q1, [x10, #255]
	ldr	q1, [x9, :lo12:.LCPI2_32]
	adrp	x9, .LCPI2_33
	add	x10, sp, #281
	ldr	q3, [x9, :lo12:.LCPI2_33]
	adrp	x9, .LCPI2_34
	stur	q2, [x10, #255]
	add	x10, sp, #297
	stur	q1, [x10, #255]
	ldr	q1, [x9, :lo12:.LCPI2_34]
	adrp	x9, .LCPI2_35
	add	x10, sp, #313
	ldr	q2, [x9, :lo12:.LCPI2_35]
	adrp	x9, .LCPI2_36
	stur	q3, [x10, #255]
	add	x10, sp, #329
	stur	q1, [x10, #255]
	ldr	q1, [x9, :lo12:.LCPI2_36]
	adrp	x9, .LCPI2_37
	add	x10, sp, #345
	ldr	q3, [x9, :lo12:.LCPI2_37]
	adrp	x9, .LCPI2_38
	stur	q2, [x10, #255]
	add	x10, sp, #361
	stur	q1, [x10, #255]
	ldr	q1, [x9, :lo12:.LCPI2_38]
	adrp	x9, .LCPI2_39
	add	x10, sp, #377
	ldr	q2, [x9, :lo12:.LCPI2_39]
	adrp	x9, .LCPI2_40
	stur	q3, [x10, #255]
	add	x10, sp, #393
	stur	q1, [x10, #255]
	ldr	q1, [x9, :lo12:.LCPI2_40]
	adrp	x9, .LCPI2_41
	add	x10, sp, #409
	ldr	q3, [x9, :lo12:.LCPI2_41]
	adrp	x9, .LCPI2_42
	stur	q2, [x10, #255]
	add	x10, sp, #425
	stur	q1, [x10, #255]
	ldr	q1, [x9, :lo12:.LCPI2_42]
	adrp	x9, .LCPI2_43
	add	x10, sp, #441
	ldr	q2, [x9, :lo12:.LCPI2_43]
	adrp	x9, .LCPI2_44
	stur	q3, [x10, #255]
	add	x10, sp, #457
	stur	q1, [x10, #255]
	ldr	q1, [x9, :lo12:.LCPI2_44]
	add	x10, sp, #473
	adrp	x9, .LCPI2_45
	stur	q2, [x10, #255]
	add	x10, sp, #489
	ldr	q3, [x9, :lo12:.LCPI2_45]
	adrp	x9, .LCPI2_46
	stur	q1, [x10, #255]
	adrp	x10, .LCPI2_47
	ldr	q1, [x9, :lo12:.LCPI2_46]
	fcvtzu	w9, d0
	ldr	q0, [x10, :lo12:.LCPI2_47]
	mov	x10, #8324
	stur	q3, [x11, #255]
	movk	x10, #39828, lsl #16
	add	x11, sp, #521
	movk	x10, #25525, lsl #32
	stur	q1, [x11, #255]
	add	x11, sp, #537
	movk	x10, #16468, lsl #48
	stur	q0, [x11, #255]
	str	x10, [sp, #272]
	mov	x10, #37986
	movk	x10, #46215, lsl #16
	movk	x10, #29221, lsl #32
	movk	x10, #16502, lsl #48
	str	x10, [sp, #808]
	ldr	d0, [x8, w9, uxtw #3]
	add	sp, sp, #816
	ldr	x29, [sp], #16
	ret
.Lfunc_end2:
