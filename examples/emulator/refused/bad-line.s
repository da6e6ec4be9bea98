# A text beside the object that has a line of its own.
	.text
.f:	blr
