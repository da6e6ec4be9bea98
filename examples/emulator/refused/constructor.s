# A routine that the object wants run before its main.
	.text
.f:	blr
	.section .init_array, "aw", @init_array
	.long	.f
