# A main that isn't there.
	.text
	.globl	.f
	.type	.f, @function
.f:	blr
