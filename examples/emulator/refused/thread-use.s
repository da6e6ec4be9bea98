# A variable of each thread, of another file.
	.text
.f:	blr
	lwz	3, own@tprel(2)
	blr
