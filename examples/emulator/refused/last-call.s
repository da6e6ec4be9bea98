# A branch to an import in place of a call and a return.
	.text
.f:	blr
	b	.imported
	nop
