# A branch into data.
	.text
	.globl	.f
.f:	nop
	bl	own
	blr
	.data
own:	.long	1
