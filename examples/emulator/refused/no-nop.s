# A call of an import that leaves no room for the reload of r2.
	.text
.f:	bl	.imported
	blr
