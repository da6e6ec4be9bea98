# A word of the small data, which a register points to that fragments don't have.
	.text
.f:	lwz	3, own@sdarel(13)
	blr
	.section .sdata, "aw"
own:	.long	1
