# A function whose address another function finds out.
	.text
	nop
	.globl	f
	.type	f, @gnu_indirect_function
f:	blr
