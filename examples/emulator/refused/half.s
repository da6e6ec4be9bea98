# The two halves of an address, as code has them that isn't compiled by -mcall-aixdesc.
	.text
	.globl	.f
	.type	.f, @function
.f:	lis	9, own@ha
	lwz	3, own@l(9)
	blr
	.data
own:	.long	1
