# The distance between two sections.
	.text
.f:	blr
	.data
	.long	0
	.long	.f - .
